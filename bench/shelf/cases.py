#!/usr/bin/env python3
"""Writes the cases of crates/shelf_cases: inputs and their answers, by document 01's rules read once more; and checks that reading against the fixed list that original and model agreed on.

    bench/shelf/cases.py            from the top of the repository
"""
import pathlib, struct

TOP = pathlib.Path(__file__).resolve().parents[2]
CRATE = TOP / 'crates/shelf_cases'


def row_line(row):
    return b'  null,\n' if row is None else b'  [' + b', '.join(b'%d' % c for c in row) + b'],\n'


def answer(text):
    """The bytes that the program writes, of the bytes that it reads."""
    if len(text) > 16384:
        return b'refused=0\n'
    lines = text.split(b'\n')
    if lines[-1] == b'':
        lines.pop()
    rows = []
    for number, line in enumerate(lines, 1):
        if line[:5] == b'code=':
            rows.append(line[5:])
        elif line == b'null=':
            rows.append(None)
        else:
            return b'refused=%d\n' % number
    shown = [row_line(r) for r in rows]
    if len(rows) > 20:
        shown[10:-10] = [b'  ...%d elements...,\n' % (len(rows) - 20)]
    values = [r for r in rows if r is not None]
    long = sum(len(r) for r in values if len(r) > 12)
    numbers = (len(rows), len(rows) - len(values), sum(map(len, values)), long, 1 if long else 0)
    return b'BinaryViewArray\n[\n' + b''.join(shown) + b']\nrows=%d\nnulls=%d\nbytes=%d\nblock_bytes=%d\nblocks=%d\n' % numbers


def some(rows):
    kinds = (b'null=\n', b'code=RO-8040-03MAR\n', b'code=A\n', b'code=\n')
    return b''.join(kinds[k % 4] for k in range(rows))


PAPER = b'code=A\nnull=\ncode=RO-8040-03MAR\n'
FULL = b'code=' + b'\xff' * 16379
CASES = {
    'paper': PAPER,
    'empty': b'',
    'one_lf': b'\n',
    'two_lf': b'\n\n',
    'no_last_end': PAPER[:-1],
    'cr': b'code=A\r\ncode=\r\n',
    'null_cr': b'code=A\nnull=\r\n',
    'no_value': b'code=\n',
    'one_row': b'code=RO-8040-0303\n',
    'one_null': b'null=',
    'rows_20': some(20),
    'rows_21': some(21),
    'rows_2730': b'null=\n' * 2730,
    'rows_2730_codes': b'code=\n' * 2729 + b'code=12345',
    'bytes_16384': FULL,
    'bytes_16384_lines': b'code=RO-8040-03MAR\n' * 862 + b'code=x',
    'bytes_16385': FULL + b'\n',
    'bytes_16385_bad': b'\n' * 16385,
    'bad_first': b'code\n' + PAPER,
    'bad_middle': b'code=A\nCode=A\nnull=\n',
    'bad_last': PAPER + b'null=x',
    'bad_last_empty': PAPER + b'\n',
    'binary': b'code=' + bytes(c for c in range(256) if c != 10) + b'\ncode=\0\nnull=\ncode=\xff\xfe\n',
    'zero_line': b'code=A\n\0\n',
    'no_equals': b'code',
    'spaced': b' code=A\n',
}


def main():
    data = CRATE / 'data'
    data.mkdir(exist_ok=True)
    for name, text in CASES.items():
        (data / f'{name}.in').write_bytes(text)
        (data / f'{name}.out').write_bytes(answer(text))
    vectors = (TOP / 'oracle/vectors/shelf.bin').read_bytes()
    (data / 'vectors.bin').write_bytes(vectors)
    at = count = 0
    while at < len(vectors):
        _, n, m = struct.unpack_from('<QQQ', vectors, at)
        at += 24
        assert answer(vectors[at:at + n]) == vectors[at + n:at + n + m], f'vector {count}'
        at += n + m
        count += 1
    (CRATE / 'args').write_text(''.join(f'{name}.in\n{name}.out\n' for name in CASES))
    (CRATE / 'stdout').write_text(''.join(f'{name}.in right\n' for name in CASES) + f'vectors {count} right\n')
    print(f'{len(CASES)} cases, {count} vectors')


if __name__ == '__main__':
    main()
