#!/usr/bin/env python3
"""Writes the fixed lists of crates/replay_marks: texts with their marks, and columns with what the calls answer about them.

    bench/marks/cases.py [FOLDER]       FOLDER instead of crates/replay_marks/data; then the crate's stdout stays as it is

Marks are those of second.py; why a call is refused, and what a row shows, is document 01 read once more. All numbers are 64-bit words, little-endian.

texts.bin has records: the length and the mark, then the bytes (at most 64).

columns.bin has groups. A group's head is 16 words: a column's first row, rows, blocks, kind and map (1: it has one), the lengths of its lent buffers (views in
bytes, data in bytes, block table in records, map in bytes), then what counting answers (the refusal or 0, with 11 the row, the nulls, the others, the codes, the
dates) and the number of questions. Then the buffers' bytes, the table's records as start and length, and the questions, four words each: the row that is asked
for, the refusal or 0, with 11 the row, the mark. Views and data have at most 1,024 bytes, a table at most 16 records, a map at most 16 bytes."""
import pathlib
import struct
import sys

from second import CODE, DATE, MONTH, NULL, OTHER, mark

CRATE = pathlib.Path(__file__).resolve().parents[2] / 'crates/replay_marks'
MONTHS = MONTH[3:-1].split(b'|')
LARGEST = 2 ** 64 - 1
ALPHABET = b'ABCDEFGHIJKLMNOPQRSTUVWXYZ0123456789'


class Random:
    """The next of a fixed sequence, whatever the version of the language."""

    def __init__(self, seed):
        self.state = seed

    def below(self, n):
        self.state = self.state * 6364136223846793005 + 1442695040888963407 & LARGEST
        return (self.state >> 33) % n

    def pick(self, list):
        return list[self.below(len(list))]

    def text(self, letters, n):
        return bytes(self.pick(letters) for _ in range(n))


# ---- texts

def profile():
    """The two sides of every bound of the profile."""
    yield from (b'RO-8040-03MAR', b'RO-8040-0303', b'A', b'')
    for n in [*range(28), 31, 32, 33, 40, 48, 63, 64]:
        yield ALPHABET[:26][:n] if n <= 26 else (ALPHABET * 2)[:n]
        yield b'1234567890123456789012345678901234567890123456789012345678901234'[:n]
        yield b'-' * n
        yield (b'A-' * 32)[:n]
    whole = b'RO8040A03MARX55QZ7Y1B2C3'
    for n in (4, 5, 8, 9, 12, 13, 16, 17, 23, 24):
        for k in range(n):
            code = whole[:n]
            yield code[:k] + b'-' + code[k + 1:]
            yield code[:k] + b'--' + code[k + 2:]
    for byte in range(256):
        yield b'A' + bytes([byte]) + b'CD'
    for k in range(24):
        yield whole[:k] + bytes([b'@[/:,.az`{ _\n\0\x7f\x80\xff\xad'[k % 18]]) + whole[k + 1:]
    for byte in b'@[/:,.azm\n\0\x80\xff':
        odd = bytes([byte])
        yield from (odd + b'BCD', b'ABC' + odd, b'ABCD' + odd, b'3MAR' + odd, odd + b'3MAR', b'3' + odd + b'MAR', b'3MA' + odd, b'1' + odd + b'2-3')


def dates():
    """The two sides of every bound of the dates."""
    yield from (b'3MAR', b'03-MAR-2019', b'32MAR', b'1-2', b'1-2-3', b'31FEB', b'MAR2019', b'03MAR19', b'1-2-3-4', b'1-2-34', b'MAR-3', b'MAR3', b'MAR31', b'MAR32')
    yield from (b'3--MAR', b'3-MAR-', b'-3MAR', b'MAR', b'MAR-', b'MARS', b'MAR-MAR', b'3MARX', b'X3MAR', b'3MAR-X', b'3-MAR-19-X', b'3MAR3', b'MAR3MAR', b'3-3MAR')
    yield from (b'3mar', b'3Mar', b'3MAR-3', b'MAR-3-19', b'MAR3-2019', b'MAR-2019', b'MAR-19', b'MAR19', b'2019-MAR-3', b'3-03-MAR', b'3-MAR-MAR', b'12-3A', b'A12-3')
    for day in [b'%d' % d for d in range(100)] + [b'%02d' % d for d in range(10)] + [b'', b'000', b'001', b'010', b'031', b'310', b'100', b'O3', b'-1', b'A']:
        yield from (day + b'MAR', b'MAR' + day, day + b'-MAR', b'MAR-' + day)
        if day[:1] in (b'0', b'3') or len(day) != 2:
            yield from (day + b'-MAR-19', day + b'MAR-2019')
    for month in MONTHS:
        yield from (b'3' + month, month + b'3', b'03-' + month + b'-2019', month + b'-31', b'31' + month + b'-19', b'32' + month, month + b'00')
        for k in range(3):
            for step in (-1, 1):
                near = month[:k] + bytes([month[k] + step]) + month[k + 1:]
                yield from (b'12' + near, near + b'-12')
        yield from (b'3' + month[::-1], b'3' + month[:2], b'31' + month[1:], b'3' + month[0:1] * 3)
    for year in (b'', b'1', b'19', b'201', b'2019', b'20190', b'201900', b'00', b'0000', b'A9', b'1A', b'201A', b'19-', b'19-1', b'2-19'):
        yield from (b'3MAR-' + year, b'03-MAR-' + year, b'3MAR' + year, b'31-DEC-' + year, b'MAR-3-' + year)
    groups = [b'1', b'22', b'333', b'4444', b'55555']
    for a in groups:
        for b in groups:
            yield from (a + b'-' + b, a + b'--' + b, a + b'-' + b + b'-1-1')
            for c in groups:
                yield a + b'-' + b + b'-' + c
    yield from (b'1111-2222-3333-4444', b'12-34-56-78', b'1-2-3-', b'-1-2-3', b'0000', b'0-00', b'00-00', b'0-0-0', b'9999-9999-9999', b'A-22-33', b'11-A-33', b'11-22-A')


def random_texts():
    r = Random(3)
    for _ in range(120):
        yield r.text(b'0139XMARY-', 4 + r.below(8))
    for _ in range(120):
        day, month, join = b'%0*d' % (1 + r.below(2), r.below(36)), r.pick(MONTHS), r.pick([b'', b'-'])
        date = r.pick([day + join + month + r.pick([b'', b'-19', b'-2019', b'-201']), month + join + day, b'%d-%d' % (r.below(20000), r.below(20000))])
        k = r.below(len(date))
        yield r.pick([date, date[:k] + r.text(ALPHABET + b'-', 1) + date[k + 1:], date[:k] + date[k + 1:], date[:k] + r.text(b'-0', 1) + date[k:]])
    for _ in range(80):
        yield r.text(ALPHABET + b'--', r.below(28))


def texts():
    return list(dict.fromkeys([*profile(), *dates(), *random_texts()]))


# ---- columns

def view(value, block=0, offset=0):
    head = struct.pack('<I', len(value))
    return head + value.ljust(12, b'\0') if len(value) <= 12 else head + value[:4] + struct.pack('<II', block, offset)


class Column:
    """A column and its lent buffers; `mapped` is whether it has a map."""

    def __init__(self, views, data=b'', table=(), map=b'', first=0, rows=None, blocks=None, kind=0, mapped=1):
        self.views, self.data, self.table, self.map = b''.join(views), data, list(table), map
        self.first, self.kind, self.mapped = first, kind, mapped
        self.rows = len(self.views) // 16 - first if rows is None else rows
        self.blocks = len(self.table) if blocks is None else blocks

    def fits(self):
        room = min(32767, len(self.views) // 16)
        if self.mapped:
            room = min(room, 8 * len(self.map))
        return self.first + self.rows <= room and self.blocks <= min(4096, len(self.table))

    def valid(self, row):
        at = self.first + row
        return not self.mapped or self.map[at // 8] >> at % 8 & 1 == 1

    def shown(self, row):
        """What a row shows, None if its view isn't reachable."""
        v = self.views[16 * (self.first + row):][:16]
        length, _, block, offset = struct.unpack('<IIII', v)
        if length <= 12:
            return v[4:4 + length]
        if block >= self.blocks:
            return None
        start, size = self.table[block]
        if start + size > min(2 ** 24, len(self.data)) or offset + length > size:
            return None
        return self.data[start + offset:][:length]

    def mark_at(self, row):
        """Refusal, its row, the mark."""
        if not self.fits():
            return 2, 0, 0
        if row >= self.rows:
            return 3, 0, 0
        value = self.shown(row)
        if value is None:
            return 11, row, 0
        return 0, 0, mark(value if self.valid(row) else None)

    def counted(self):
        """Refusal, its row, how many of each mark."""
        if not self.fits():
            return 2, 0, 0, 0, 0, 0
        for row in range(self.rows):
            if self.shown(row) is None:
                return 11, row, 0, 0, 0, 0
        marks = [self.mark_at(row)[2] for row in range(self.rows)]
        return 0, 0, *(marks.count(m) for m in (NULL, OTHER, CODE, DATE))

    def asked(self):
        """The rows that are asked for."""
        return [*range(min(self.rows, 40)), *dict.fromkeys((min(self.rows, LARGEST), min(self.rows + 1, LARGEST), 2 ** 60 - 1, 2 ** 60, LARGEST))]

    def record(self):
        rows = self.asked()
        table = [n for record in self.table for n in record]
        sizes = len(self.views), len(self.data), len(self.table), len(self.map)
        assert sizes[0] <= 1024 and sizes[1] <= 1024 and sizes[2] <= 16 and sizes[3] <= 16
        head = (self.first, self.rows, self.blocks, self.kind, self.mapped, *sizes, *self.counted(), len(rows))
        questions = [n for row in rows for n in (row, *self.mark_at(row))]
        return struct.pack('<16Q', *head) + self.views + self.data + words(table) + self.map + words(questions)


def words(numbers):
    return struct.pack(f'<{len(numbers)}Q', *numbers)


def laid(values, gap=b''):
    """Views of values, None for a null row, in one block; the data; the table; the map."""
    views, data, bits = [], gap, 0
    for k, x in enumerate(values):
        views.append(view(x or b'', 0, len(data) - len(gap)))
        data += x if x is not None and len(x) > 12 else b''
        bits |= (x is not None) << k
    return views, data, [(len(gap), len(data) - len(gap))], bits.to_bytes((len(views) + 7) // 8, 'little')


SHELF = [b'3MAR', b'03-MAR-2019', b'32MAR', b'RO-8040-03MAR', None, b'A', b'', b'1-2', b'1-2-3', b'1234-1234-123', b'1234-1234-1234', b'1234-1234-12345', b'RO-8040-0303',
         None, b'RO-8040-03MAR-ABCDEFGHIJ', b'RO-8040-03MAR-ABCDEFGHIJK', b'RO-8040-03MAr', b'RO-8040--03MAR', b'MAR31', b'MAR32', None, b'-8040-03MARCH', b'8040-03MARCH-',
         b'\xff\x80ABCD', b'31-DEC-99']


def columns():
    views, data, table, map = laid(SHELF)
    n = len(views)
    yield Column(views[:5], data, table, map)
    yield Column(views, data, table, map)
    yield Column(views, data, table, map, kind=1)
    yield Column(views, data, table, map, mapped=0)
    yield Column(views, data, table, b'', mapped=0)
    for first, rows in ((0, 0), (0, 3), (3, 9), (4, 1), (5, 3), (7, 2), (8, 8), (13, 4), (20, 5), (24, 1), (25, 0)):
        yield Column(views, data, table, map, first=first, rows=rows)
    # bits past the last row, a map longer than needed, all null, none null
    yield Column(views, data, table, map[:-1] + bytes([map[-1] | 0xf0]) + b'\xff\xff')
    yield Column(views, data, table, bytes(4))
    yield Column(views, data, table, b'\xff' * 4)
    # numbers that don't fit: 2
    yield Column(views, data, table, map, rows=n + 1)
    yield Column(views, data, table, map, first=1, rows=n)
    yield Column(views, data, table, map, first=n + 1, rows=0)
    yield Column(views, data, table, map[:-1])
    yield Column(views, data, table, map[:-1], rows=24)
    yield Column(views, data, table, map, blocks=2)
    yield Column(views, data, table, map, blocks=LARGEST)
    yield Column(views, data, table, map, rows=LARGEST, first=1)
    yield Column(views, data, table, map, rows=LARGEST, first=LARGEST)
    yield Column(views, data, table, map, rows=2 ** 63, first=2 ** 63)
    yield Column([], b'', [], b'')
    yield Column([], b'', [], b'', rows=1)
    yield Column(views, data, [], map, rows=3)
    # blocks in any order, one empty, one inside another, a gap before them
    a, b = b'RO-8040-03MAR', b'1234-1234-1234'
    spread = [(40, 13), (5, 0), (1, 14), (1, 52)]
    held = b'.' + b + b'.' * 25 + a
    yield Column([view(a, 0), view(b, 2), view(b, 3), view(a, 3, 39), view(b'3MAR')], held, spread, b'\x1f')
    # reachable, not true: bytes after a short value, other first bytes of a long one
    yield Column([view(b'3MAR')[:8] + b'ABCDEFGH', view(b'X' * 13, 0)[:4] + b'----' + bytes(8), view(b'ABC')[:7] + b'DEFGHIJKL'], a, [(0, 13)], b'\x07', kind=1)
    # not reachable: no such block, past the block, the block past the data; under a null and not; the lowest is named
    bad = [view(a, 1), view(a, 0, 1), view(b, 0), view(a, 2 ** 32 - 1, 0), view(a, 0, 2 ** 32 - 1), struct.pack('<I', 2 ** 32 - 1) + bytes(12)]
    good = [view(b'3MAR'), view(a), view(b'1-2-3')]
    for v in bad:
        for null in (0, 1):
            yield Column([*good, v, *good, v], a, [(0, 13)], bytes([0xff ^ null << 3]))
    yield Column([*good, bad[0], *good], a, [(0, 13)], b'\xff', rows=3)
    yield Column([bad[0], *good], a, [(0, 13)], b'\x0e', first=1)
    yield Column([bad[0], *good], a, [(0, 13)], b'\x0e')
    for outside in ((1, 13), (14, 0), (0, 14), (LARGEST, 13), (LARGEST, LARGEST), (0, LARGEST), (2 ** 24, 13)):
        yield Column(good, a, [outside], b'\x07')
        yield Column([good[0], good[2]], a, [outside], b'\x03')
    # random ones, every second damaged
    r = Random(5)
    for k in range(24):
        values = [r.pick([None, *SHELF, r.text(ALPHABET + b'-', 4 + r.below(22)), r.text(b'013MAR-', 4 + r.below(3))]) for _ in range(1 + r.below(40))]
        views, data, table, map = laid(values, r.text(b'.', r.below(5)))
        if k % 2 == 1:
            at = r.below(len(views))
            views[at] = bytes(b if r.below(6) else r.below(256) for b in views[at][:8]) + views[at][8:]
        first = r.below(min(20, len(views)))
        yield Column(views, data, table, map, first=first, rows=len(views) - first - r.below(2))


def main():
    data = CRATE / 'data' if len(sys.argv) < 2 else pathlib.Path(sys.argv[1])
    data.mkdir(parents=True, exist_ok=True)
    list, groups = texts(), [*columns()]
    assert all(len(x) <= 64 for x in list)
    (data / 'texts.bin').write_bytes(b''.join(words((len(x), mark(x))) + x for x in list))
    (data / 'columns.bin').write_bytes(b''.join(c.record() for c in groups))
    marks = [mark(x) for x in list]
    lines = (f'texts={len(list)}', *(f'{name}={marks.count(m)}' for name, m in (('others', OTHER), ('codes', CODE), ('dates', DATE))),
             f'columns={len(groups)}', f'rows={sum(len(c.asked()) for c in groups)}', 'wrong=0', 'first=0', 'torn=0')
    if len(sys.argv) < 2:
        (CRATE / 'stdout').write_text('\n'.join(lines) + '\n')
    print(' '.join(lines))


if __name__ == '__main__':
    main()
