"""A second judge of UTF-8: `python3 second.py FOLDER` reads what `check FOLDER` wrote and asks Python's own decoder.

short.bin has, for every string of 0, 1, 2 and 3 bytes in rising order, one byte: the place where our side found the first ill-formed sequence.
list.bin has records: the length and that place as 32-bit words, then the bytes."""
import struct
import sys


def first_bad(s):
    try:
        s.decode("utf-8")
        return len(s)
    except UnicodeDecodeError as e:
        return e.start


def main(folder):
    tried = wrong = 0
    with open(folder + "/short.bin", "rb") as f:
        for n in range(4):
            formed = bad = 0
            answers = f.read(256 ** n)
            for x in range(256 ** n):
                want = first_bad(x.to_bytes(n, "big"))
                formed += want == n
                bad += want != answers[x]
            print(f"all strings of {n} bytes: tried={256 ** n} formed={formed} wrong={bad}")
            wrong += bad
        wrong += len(f.read())
    with open(folder + "/list.bin", "rb") as f:
        data = f.read()
    at = 0
    while at < len(data):
        n, place = struct.unpack_from("<II", data, at)
        tried += 1
        wrong += first_bad(data[at + 8:at + 8 + n]) != place
        at += 8 + n
    print(f"listed strings: tried={tried}")
    print(f"wrong={wrong}")
    sys.exit(wrong != 0)


main(sys.argv[1])
