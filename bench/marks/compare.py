#!/usr/bin/env python3
"""Compares our marks, and those of the plain recogniser that ours is timed beside, both written by target/release/answers, with those of second.py.

    compare.py [MOST [COUNT [SEED]]]     strings of up to MOST bytes (5), COUNT random ones (200,000)

Every string over two alphabets: digits that begin and end days, a letter in no month or of other months, the letters of two months, the hyphen. Every day 0 to 99
in one and two digits with every month, hyphens and years. Every day 1 to 31 with every year of two and four digits: of all months where MOST is above five, else
of one. Every byte at every place of a code, and hyphens at every two places, for every length up to 26. Random codes, dates and groups of up to 27 bytes, whole,
damaged and null. Ends with `wrong=` and a count, and fails where that isn't 0."""
import itertools
import pathlib
import random
import subprocess
import sys
import time

from second import MONTH, mark

PROGRAM = pathlib.Path(__file__).resolve().parent / 'target/release/answers'
ALPHABETS = ('0139XMARY-', '0139JUNL-')
MONTHS = MONTH[3:-1].split(b'|')
LETTERS = b'ABCDEFGHIJKLMNOPQRSTUVWXYZ'
DIGITS = b'0123456789'


def every(alphabet, most):
    """Every string over the alphabet, in the order in which the program has them."""
    letters = [bytes([b]) for b in alphabet.encode()]
    for n in range(most + 1):
        heads = [b''.join(x) for x in itertools.product(letters, repeat=max(0, n - 4))]
        tails = [b''.join(x) for x in itertools.product(letters, repeat=min(n, 4))]
        for head in heads:
            for tail in tails:
                yield head + tail


def days():
    """Days and months in every order, with years of up to five digits."""
    years = [b'', b'-', b'-1', b'-19', b'-201', b'-2019', b'-20190', b'19', b'2019', b'-1A', b'-19-', b'-19-1']
    for month in [*MONTHS, *(m.lower() for m in MONTHS[:2]), b'MAA', b'JUM', b'XAN']:
        for day in [*(b'%d' % d for d in range(100)), *(b'%02d' % d for d in range(10)), b'', b'001', b'100']:
            for join in (b'', b'-', b'--'):
                for year in years:
                    yield day + join + month + year
                    yield month + join + day + year


def years(month):
    """Every day 1 to 31 in one and two digits, with and without its hyphen, and every year of two and four digits."""
    ends = [*(b'-%02d' % y for y in range(100)), *(b'-%04d' % y for y in range(10000))]
    for day in [*(b'%d' % d for d in range(1, 32)), *(b'%02d' % d for d in range(1, 10))]:
        for join in (b'', b'-'):
            for end in ends:
                yield day + join + month + end


def spots():
    """Every byte at every place of a code, and hyphens at every two places."""
    for n in range(1, 27):
        for at in range(n):
            for b in range(256):
                yield b'K' * at + bytes([b]) + b'K' * (n - at - 1)
            for to in range(at + 1, n):
                yield b'7' * at + b'-' + b'7' * (to - at - 1) + b'-' + b'7' * (n - to - 1)


def some(r, count):
    """Random rows: nulls, codes, dates and groups, whole and damaged."""
    def text(letters, n):
        return bytes(r.choices(letters, k=n))

    def one():
        kind = r.randrange(8)
        if kind == 0:
            return text(LETTERS + DIGITS + b'-', r.randrange(27))
        if kind == 1:
            return b'-'.join(text(LETTERS + DIGITS, r.randrange(1, 7)) for _ in range(r.randrange(1, 6)))[:26]
        if kind == 2:
            return b'-'.join(text(DIGITS, r.randrange(1, 6)) for _ in range(r.randrange(1, 5)))
        if kind == 3:
            return text(bytes(range(256)), r.randrange(27))
        if kind == 4:
            return text(b'0123JANUFEBMRY-', r.randrange(4, 12))
        day, month, join = b'%0*d' % (r.randrange(1, 3), r.randrange(40)), r.choice(MONTHS), r.choice([b'', b'-'])
        return r.choice([day + join + month + r.choice([b'', b'-19', b'-2019']), month + join + day])

    def damaged(x):
        k = r.randrange(len(x) + 1)
        byte = bytes([r.randrange(256)]) if r.randrange(3) else r.choice([b'-', b'0', b'A'])
        return r.choice([x[:k] + byte + x[k:], x[:k] + byte + x[k + 1:], x[:k] + x[k + 1:]])

    for _ in range(count):
        x = one()
        yield None if r.randrange(20) == 0 else damaged(x) if r.randrange(3) == 0 else x


def judge(name, strings, program):
    """How many answers of the program are others than the second judge's."""
    from_ = time.monotonic()
    counts, wrong = [0] * 4, 0
    strings = iter(strings)
    while answers := program.stdout.read(1 << 16):
        for x, said in zip(itertools.islice(strings, len(answers)), answers, strict=True):
            want = mark(x)
            counts[want] += 1
            if want * 17 != said:
                wrong += 1
                if wrong < 5:
                    print(f'  {x!r}: ours {said % 16}, plain {said // 16}, expected {want}')
    missing = sum(1 for _ in strings)
    failed = program.wait() != 0
    print(f'{name}: tried={sum(counts)} nulls={counts[0]} others={counts[1]} codes={counts[2]} dates={counts[3]} wrong={wrong + missing + failed} '
          f'({time.monotonic() - from_:.0f} s)', flush=True)
    return wrong + missing + failed


def all_of(alphabet, most):
    program = subprocess.Popen([PROGRAM, 'all', alphabet, str(most)], stdout=subprocess.PIPE)
    return judge(f'every string of up to {most} bytes of {alphabet}', every(alphabet, most), program)


def list_of(name, strings):
    strings = list(strings)
    program = subprocess.Popen([PROGRAM, 'list'], stdin=subprocess.PIPE, stdout=subprocess.PIPE)
    # The program reads all before it writes.
    program.stdin.write(b''.join(b'\xff' if x is None else bytes([len(x)]) + x for x in strings))
    program.stdin.close()
    return judge(name, strings, program)


def main():
    most, count, seed = [*map(int, sys.argv[1:]), *(5, 200000, 3)[len(sys.argv) - 1:]]
    wrong = sum(all_of(alphabet, most) for alphabet in ALPHABETS)
    wrong += list_of('days, months and years', days())
    for month in MONTHS if most > 5 else MONTHS[2:3]:
        wrong += list_of(f'every day and year of {month.decode()}', years(month))
    wrong += list_of('every byte at every place', spots())
    wrong += list_of('random rows', some(random.Random(seed), count))
    print(f'wrong={wrong}')
    sys.exit(wrong != 0)


if __name__ == '__main__':
    main()
