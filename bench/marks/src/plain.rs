//! The same recogniser as one would write it in Rust, over the original's array: what ours is timed beside.

use arrow_array::{Array, BinaryViewArray};

const OTHER: usize = 1;
const CODE: usize = 2;
const DATE: usize = 3;

fn is_code(s: &[u8]) -> bool {
    if !(4..=24).contains(&s.len()) {
        return false;
    }
    let mut before = b'-';
    for &b in s {
        match b {
            b'A'..=b'Z' | b'0'..=b'9' => {}
            b'-' if before != b'-' => {}
            _ => return false,
        }
        before = b;
    }
    before != b'-'
}

fn is_day(s: &[u8]) -> bool {
    matches!(s, [b'1'..=b'9'] | [b'0', b'1'..=b'9'] | [b'1'..=b'2', b'0'..=b'9'] | [b'3', b'0'..=b'1'])
}

fn is_month(s: &[u8]) -> bool {
    matches!(s, b"JAN" | b"FEB" | b"MAR" | b"APR" | b"MAY" | b"JUN" | b"JUL" | b"AUG" | b"SEP" | b"OCT" | b"NOV" | b"DEC")
}

fn past_hyphen(s: &[u8]) -> &[u8] {
    s.strip_prefix(b"-").unwrap_or(s)
}

/// How many digits a text begins with.
fn digits(s: &[u8]) -> usize {
    s.iter().take_while(|b| b.is_ascii_digit()).count()
}

/// Nothing, or a hyphen and two or four digits.
fn is_year(s: &[u8]) -> bool {
    match s {
        [] => true,
        [b'-', year @ ..] => matches!(year.len(), 2 | 4) && digits(year) == year.len(),
        _ => false,
    }
}

/// `most` groups or fewer of one to four digits, each after a hyphen, and at least one.
fn is_groups(s: &[u8], most: usize) -> bool {
    let [b'-', rest @ ..] = s else { return false };
    let n = digits(rest);
    (1..=4).contains(&n) && (n == rest.len() || most > 1 && is_groups(&rest[n..], most - 1))
}

fn is_date(s: &[u8]) -> bool {
    let n = digits(s);
    if n == 0 {
        return s.len() > 3 && is_month(&s[..3]) && is_day(past_hyphen(&s[3..]));
    }
    if n <= 4 && is_groups(&s[n..], 2) {
        return true;
    }
    let rest = past_hyphen(&s[n..]);
    is_day(&s[..n]) && rest.len() >= 3 && is_month(&rest[..3]) && is_year(&rest[3..])
}

/// The number of a value's mark.
pub fn mark_of(s: &[u8]) -> usize {
    if !is_code(s) {
        OTHER
    } else if is_date(s) {
        DATE
    } else {
        CODE
    }
}

/// How many rows have each mark.
#[inline(never)]
pub fn count_marks(a: &BinaryViewArray) -> [usize; 4] {
    let mut counts = [0; 4];
    for row in 0..a.len() {
        let mark = if a.is_null(row) { 0 } else { mark_of(a.value(row)) };
        counts[mark] += 1;
    }
    counts
}
