#!/usr/bin/env python3
"""What the program rewrite prints, compared with separate code (house_files.py), on the sample files of crates/house_files and on more that are made
here. `rewriting.py PROGRAM`; exit 1 where anything differs. A form is also compared with its file's length, and rewritten again."""
import os
import random
import subprocess
import sys
import tempfile

from grid import LEAST, MOST, MOST_POINTS as PLACES, size
from house_files import TOO_LONG, file_of, groups, rewritten

FOLDER = os.path.join(os.path.dirname(os.path.abspath(__file__)), "..", "crates", "house_files", "data")
SHAPES = [(d, n) for d in range(1, 9) for n in range(9)]


# ---- files

def stored():
    for name in sorted(os.listdir(FOLDER)):
        with open(os.path.join(FOLDER, name), "rb") as file:
            yield "sample %s" % name, file.read()


def every_shape(draw):
    """A table of each shape that passes, each number in any number of bytes that holds it; of the others the first two numbers, and zeros after them."""
    for d, n in SHAPES:
        name = "d=%d, n=%d" % (d, n)
        if size(d, n) <= PLACES:
            reach = draw.choice([0, 60, 70, 10000, MOST])
            yield name, file_of(d, n, [draw.randint(-reach, reach) for _ in range(size(d, n))], lambda: draw.randint(0, 5))
        else:
            yield name + " alone", groups(d) + groups(n)
            yield name + " in ten bytes", groups(d, 5) + groups(n, 5)
            yield name + " and zeros", groups(d) + groups(n) + bytes(200000)


def one_meaning(draw):
    """One table in its fewest bytes, in its most, and in several ways between."""
    rates = [LEAST, MOST, 0, -1, 1, -64, 63, -65, 64, -8192, 8191, -8193, 8192] + [draw.randint(LEAST, MOST) for _ in range(4)]
    for k, length in enumerate([lambda: 0, lambda: 5, lambda: 2, lambda: draw.randint(0, 5), lambda: draw.randint(0, 5)]):
        yield "one table, way %d" % k, file_of(8, 1, rates, length)


def largest(draw):
    """The most points that pass, every number in five bytes; and the same damaged."""
    count, d, n = max((size(d, n), d, n) for d, n in SHAPES if size(d, n) <= PLACES)
    whole = file_of(d, n, [draw.choice([LEAST, MOST, 0, -1]) for _ in range(count)], lambda: 5)
    assert len(whole) == 10 + 5 * count
    yield "largest", whole
    for cut in [1, 4, 5, len(whole) - 10, len(whole) - 5, len(whole) - 4]:
        yield "largest without its last %d bytes" % cut, whole[:-cut]
    for more in [1, 5, 6, 100000]:
        yield "largest and %d bytes more" % more, whole + bytes(more)
    for bad in TOO_LONG:
        yield "largest, its last number %s" % bad.hex(), whole[:-5] + bad
        yield "largest, its last number %s, and more" % bad.hex(), whole[:-5] + bad + bytes(100000)


def files():
    draw = random.Random(20261117)
    yield "empty", b""
    for kind in [stored(), every_shape(draw), one_meaning(draw), largest(draw)]:
        yield from kind
    yield "a small table and 300,000 bytes more", groups(1) + groups(0) + bytes(300000)


# ---- the program

def printed(program, data):
    """Both outputs, once from a pipe and once from a file."""
    piped = subprocess.run([program], input=data, capture_output=True)
    with tempfile.TemporaryFile() as file:
        file.write(data)
        file.seek(0)
        filed = subprocess.run([program], stdin=file, capture_output=True)
    for run in [piped, filed]:
        if run.returncode != 0:
            raise SystemExit("tests/rewriting.py: the program stopped with %d" % run.returncode)
    return (piped.stdout, piped.stderr), (filed.stdout, filed.stderr)


def wrong(program, data, expected):
    """What is wrong with what the program prints of this file, or None."""
    for got in printed(program, data):
        if got[1] != expected[1]:
            return "on standard error %r, not %r" % (got[1][:80], expected[1])
        if got[0] != expected[0]:
            return "on standard output %d bytes, %s, not %d, %s" % (len(got[0]), got[0][:20].hex(), len(expected[0]), expected[0][:20].hex())
    form = expected[0]
    if len(form) > len(data):
        return "a form longer than the file"
    if form and any(again != (form, b"") for again in printed(program, form)):
        return "the form rewritten again is another"
    return None


if __name__ == "__main__":
    refused = accepted = 0
    for name, data in files():
        expected = rewritten(data, PLACES)
        # there is a place for each point of every table that is not too large
        assert expected[1] != b"refused 3\n"
        why = wrong(sys.argv[1], data, expected)
        if why:
            raise SystemExit("tests/rewriting.py: %s (%d bytes): %s" % (name, len(data), why))
        accepted += expected[0] != b""
        refused += expected[0] == b""
    # where sample files are missing
    if accepted < 100 or refused < 100:
        raise SystemExit("tests/rewriting.py: only %d files with a form, and %d refused" % (accepted, refused))
    print("rewrite: %d files with a form and %d refused, as separate code has them" % (accepted, refused))
