#!/usr/bin/env python3
"""Gives random inputs, good and bad, to the proved program `shelfmarks` and compares what it writes with what the lines say, read once more here; the marks are
those of the second recogniser, bench/marks/second.py. Where an input is refused, `shelflist` has to say the same. Then `./shelfmarks` at odd ends of its streams.

    bench/shelf/marks.py [COUNT [SEED]]         2,000 inputs by seed 1; wants ./shelflist and ./shelfmarks run once before it
"""
import pathlib
import random
import subprocess
import sys

TOP = pathlib.Path(__file__).resolve().parents[2]
sys.path.insert(0, str(TOP / 'bench/marks'))
from second import CODE, DATE, NULL, OTHER, mark

NAMES = {DATE: b'date', CODE: b'code', OTHER: b'other', NULL: b'null'}
MONTHS = (b'JAN', b'FEB', b'MAR', b'APR', b'MAY', b'JUN', b'JUL', b'AUG', b'SEP', b'OCT', b'NOV', b'DEC', b'MAI', b'mar')
SIGNS = b'ABMRZ0139--'


def read(text):
    """The marks and bytes of the rows, or the number of the line that is refused."""
    if len(text) > 16384:
        return 0
    lines = text.split(b'\n')
    if lines[-1] == b'':
        lines.pop()
    rows = []
    for number, line in enumerate(lines, 1):
        if line[:5] == b'code=':
            rows.append((mark(line[5:]), line[5:]))
        elif line == b'null=':
            rows.append((NULL, b''))
        else:
            return number
    return rows


def answer(rows):
    """The bytes that the program writes."""
    if isinstance(rows, int):
        return b'refused=%d\n' % rows
    marks = [m for m, _ in rows]
    return b''.join(b'%s=%s\n' % (NAMES[m], x) for m, x in rows) + b''.join(b'%ss=%d\n' % (NAMES[m], marks.count(m)) for m in NAMES)


def day(rng):
    return b'%0*d' % (rng.choice((1, 2)), rng.randrange(34))


def hyphen(rng):
    return rng.choice((b'', b'-', b'-', b'--') if rng.random() < 0.2 else (b'', b'-'))


def date(rng):
    """A date, or what is near one."""
    shape = rng.randrange(3)
    if shape == 0:
        year = rng.choice((b'', b'-19', b'-2019', b'-9', b'-201', b'19', b'-20190'))
        return day(rng) + hyphen(rng) + rng.choice(MONTHS) + year
    if shape == 1:
        return rng.choice(MONTHS) + hyphen(rng) + day(rng)
    return b'-'.join(bytes(rng.choices(b'0123456789', k=rng.randrange(6))) for _ in range(rng.randrange(1, 5)))


def value(rng):
    kind = rng.randrange(100)
    if kind < 50:
        return date(rng)
    if kind < 85:
        return bytes(rng.choices(SIGNS, k=rng.choice((3, 4, 5, 12, 13, 24, 25, rng.randrange(30)))))
    if kind < 98:
        return bytes(c for c in rng.randbytes(rng.randrange(40)) if c != 10)
    return bytes(c for c in rng.randbytes(rng.choice((799, 800, 801, 1600, 1601, 2500))) if c != 10)


def line(rng):
    return b'null=' if rng.random() < 0.2 else b'code=' + value(rng)


def odd(rng):
    """A line with one byte changed, added or taken away; it may still be good."""
    text = bytearray(line(rng)[:30])
    at = rng.randrange(len(text))
    kind = rng.randrange(3)
    if kind == 0:
        text[at] = rng.randrange(256)
    elif kind == 1:
        text.insert(at, rng.randrange(256))
    else:
        del text[at]
    return bytes(text)


def some(rng):
    rows = 2730 if rng.random() < 0.02 else rng.randrange(rng.choice((2, 12, 30, 500)))
    small = rows == 2730
    lines = [b'null=' if rng.random() < 0.5 else b'code=' if small else line(rng) for _ in range(rows)]
    if lines and rng.random() < 0.3:
        lines[rng.randrange(rows)] = odd(rng)
    text = b'\n'.join(lines) + (b'' if rng.random() < 0.3 else b'\n')
    if rng.random() < 0.05 and b'code=' in text and len(text) < 16380:
        text = text.rstrip(b'\n') + b'\ncode=' + b'A' * (16384 - len(text))
        text = text[:16384 - rng.randrange(-3, 4)]
    return text


def run(program, text):
    ran = subprocess.run([str(TOP / 'crates' / program / 'out' / program)], input=text, stdout=subprocess.PIPE)
    if ran.returncode not in (0, 1):
        ran.check_returncode()
    return ran.stdout


# what the shell runs, what is written, what standard error says, and the status
STREAMS = (
    ('./shelfmarks crates/shelfmarks/stdin | cmp - crates/shelfmarks/stdout', '', '', 0),
    ('dd if=crates/shelfmarks/stdin bs=1 2>/dev/null | ./shelfmarks | cmp - crates/shelfmarks/stdout', '', '', 0),
    ('./shelfmarks crates/shelfmarks/stdin | { sleep 0.2; cat; } | cmp - crates/shelfmarks/stdout', '', '', 0),
    ('printf "code=A\\ncode" | ./shelfmarks', 'refused=2\n', '', 1),
    ('./shelfmarks crates/shelfmarks/stdin >/dev/full', '', 'shelfmarks: standard output: No space left on device (os error 28)\n', 2),
    ('./shelfmarks crates/shelfmarks/stdin | head -c 4', 'date', '', 0),
    ('./shelfmarks samples', '', 'shelfmarks: standard input: Is a directory (os error 21)\n', 2),
    ('./shelfmarks <&-', '', 'shelfmarks: standard input: Bad file descriptor (os error 9)\n', 2),
    ('./shelfmarks no_such_file', '', "shelfmarks: no_such_file can't be read\n", 2),
    ('./shelfmarks a b', '', 'shelfmarks: usage: ./shelfmarks [FILE]\n', 2),
)


def streams():
    wrong = 0
    for command, *want in STREAMS:
        ran = subprocess.run(command, shell=True, cwd=TOP, capture_output=True, text=True)
        if [ran.stdout, ran.stderr, ran.returncode] != want:
            wrong += 1
            print('wrong:', command, ran)
    print(f'{len(STREAMS)} streams')
    return wrong


def main(count, seed):
    rng, wrong, refused, marks = random.Random(seed), 0, 0, dict.fromkeys(NAMES, 0)
    for _ in range(count):
        text = some(rng)
        rows = read(text)
        right = run('shelfmarks', text) == answer(rows)
        if isinstance(rows, int):
            refused += 1
            right = right and run('shelflist', text) == answer(rows)
        else:
            for m, _ in rows:
                marks[m] += 1
        if not right:
            wrong += 1
            print('wrong:', text[:200])
    print(f'{count} inputs, {refused} refused; rows:', ', '.join(f'{n} {NAMES[m].decode()}' for m, n in marks.items()))
    wrong += streams()
    print(f'wrong={wrong}')
    return wrong != 0


if __name__ == '__main__':
    numbers = [int(a) for a in sys.argv[1:]]
    sys.exit(main(*(numbers + [2000, 1][len(numbers):])))
