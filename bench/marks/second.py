"""A second judge of element codes: two regular expressions, written from the paper's sentence and from nothing of the proved code.

The sentence: a value has 4 to 24 bytes from A to Z, 0 to 9 and hyphen, with no hyphen first, last or doubled. A spreadsheet would see a date in a day 1 to 31 in one or
two digits, an optional hyphen, a month JAN to DEC, and optionally a hyphen and two or four digits; or in a month, an optional hyphen and a day; or in two or three
groups of digits joined by hyphens, each of one to four digits. Leading zeros are allowed in a two-digit day."""
import re

NULL, OTHER, CODE, DATE = range(4)

PROFILE = re.compile(rb"(?=.{4,24}\Z)[A-Z0-9]+(?:-[A-Z0-9]+)*", re.DOTALL)
DAY = rb"(?:0?[1-9]|[12][0-9]|3[01])"
MONTH = rb"(?:JAN|FEB|MAR|APR|MAY|JUN|JUL|AUG|SEP|OCT|NOV|DEC)"
SPREADSHEET = re.compile(DAY + rb"-?" + MONTH + rb"(?:-(?:[0-9]{2}|[0-9]{4}))?|" + MONTH + rb"-?" + DAY + rb"|[0-9]{1,4}(?:-[0-9]{1,4}){1,2}")


def mark(value):
    """The mark of a row's bytes, None for a null row."""
    if value is None:
        return NULL
    if not PROFILE.fullmatch(value):
        return OTHER
    return DATE if SPREADSHEET.fullmatch(value) else CODE
