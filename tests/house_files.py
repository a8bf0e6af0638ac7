#!/usr/bin/env python3
"""The sample files of crates/house_files (its data/) and what the program has to print of them (its stdout), made without its code: document 01's
rules for house files, word by word, and request h's limit. `house_files.py FOLDER` writes both; the seed is fixed, so that it writes the same each time. For rewriting.py:
the one form of a house file, by document 02's words."""
import os
import random
import sys

from grid import LEAST, MOST, MOST_POINTS, points, size, table_of_set, too_large

PLACES = 8192
TOP = 2 ** 32 - 1


# ---- what the program coefficients has to print

class Refused(Exception):
    pass


def number(data, at):
    """Groups of seven bits, lowest first, while the top bit says that another follows: 11 where the bytes end, 12 past five bytes or too large."""
    groups = []
    while True:
        if at == len(data):
            raise Refused(11)
        groups.append(data[at] % 128)
        at += 1
        if data[at - 1] < 128:
            break
        if len(groups) == 5:
            raise Refused(12)
    value = sum(g * 128 ** k for k, g in enumerate(groups))
    if value > TOP:
        raise Refused(12)
    return value, at


def table(data, places=PLACES):
    d, at = number(data, 0)
    n, at = number(data, at)
    if not 1 <= d <= 8:
        raise Refused(1)
    if n > 8:
        raise Refused(2)
    if too_large(d, n):
        raise Refused(19)
    if size(d, n) > places:
        raise Refused(3)
    rates = []
    for _ in range(size(d, n)):
        filed, at = number(data, at)
        rates.append(filed // 2 if filed % 2 == 0 else -(filed + 1) // 2)
    if at < len(data):
        raise Refused(13)
    return d, n, rates


def report(data):
    try:
        d, n, rates = table(data)
    except Refused as why:
        return "refused %d\n" % why.args
    assert len(rates) == len(points(d, n))
    lines = ["axes %d level %d points %d" % (d, n, len(rates))]
    lines += ["%d %d" % line for line in enumerate(table_of_set(d, n, rates, range(1, d + 1)))]
    return "".join(line + "\n" for line in lines)


# ---- what the program rewrite has to print

def rewritten(data, places):
    """On standard output the shape and the rates of the file, each number in its fewest groups; else its refusal on standard error."""
    try:
        return file_of(*table(data, places)), b""
    except Refused as why:
        return b"", b"refused %d\n" % why.args


# ---- sample files

def groups(value, length=0):
    """A number in so many bytes, or in as few as it takes."""
    out = []
    while value > 127 or len(out) + 1 < length:
        out.append(value % 128 + 128)
        value //= 128
    return bytes(out + [value])


def filed(rate):
    return 2 * rate if rate >= 0 else -2 * rate - 1


def file_of(d, n, rates, length=lambda: 0):
    return b"".join(groups(v, length()) for v in [d, n] + [filed(r) for r in rates])


def hexed(text):
    return bytes.fromhex(text)


EXAMPLE = hexed("01 01 06 0A 0E")
# d in two bytes, n in three, the rates in five, three and two
LONG = [hexed("81 00"), hexed("81 80 00"), hexed("FF FF FF FF 0F"), hexed("80 80 01"), hexed("81 00")]
# more than five bytes; the same where the file ends after the fifth; too large by one; much too large
TOO_LONG = [hexed("80 80 80 80 80 00"), hexed("80 80 80 80 80"), hexed("80 80 80 80 10"), hexed("FF FF FF FF 7F")]
LARGEST = hexed("FF FF FF FF 0F")


def told():
    """The paper's example, and the examples of the readings."""
    yield EXAMPLE
    for text in ["09", "09 00", "FF FF FF FF 0F 00", "09 80 80 80 80 80", "81 80 80 80 00", "81 80 80 80 00 00 81 80 80 80 00"]:
        yield hexed(text)


def cut():
    """A file that ends before or inside each number."""
    whole = b"".join(LONG)
    for k in range(len(whole) + 1):
        yield whole[:k]
    # four continuing bytes, and the end
    for k in range(len(LONG)):
        yield b"".join(LONG[:k]) + hexed("80 80 80 80")


def damaged():
    """Each number in turn too long or too large, or as large as it may be."""
    for k in range(len(LONG)):
        for bad in TOO_LONG:
            yield b"".join(LONG[:k] + [bad] + ([] if bad == TOO_LONG[1] else LONG[k + 1:]))
        yield b"".join(LONG[:k] + [LARGEST] + LONG[k + 1:])


def shapes():
    """Shapes that are refused, whatever comes after them; and for each d the last top level that passes and the first that does not."""
    for d, n in [(0, 0), (9, 0), (0, 9), (9, 9), (129, 1), (2 ** 31 + 1, 1), (TOP, TOP), (1, 9), (8, 9), (1, 256), (8, TOP)]:
        yield groups(d) + groups(n)
    yield groups(9) + groups(1) + TOO_LONG[0]
    yield groups(1) + groups(9) + TOO_LONG[0]
    yield groups(8) + groups(8) + TOO_LONG[0]
    yield groups(8) + groups(5) + bytes(41000)
    for d in range(1, 9):
        fits = [n for n in range(9) if size(d, n) <= PLACES]
        yield groups(d) + groups(fits[-1])
        if fits[-1] < 8:
            yield groups(d) + groups(fits[-1] + 1)


def left_over():
    """Bytes after the last rate, and damage before them."""
    for more in [hexed("00"), hexed("80"), hexed("01 01 06 0A 0E"), TOO_LONG[0], TOO_LONG[2], bytes(300)]:
        yield EXAMPLE + more
    yield hexed("01 01 06 0A") + TOO_LONG[0] + bytes(5)
    yield hexed("01 00 80")
    yield hexed("01 00 80 00")
    yield hexed("01 00 80 00 00")


def extremes():
    for r in [0, -1, 1, LEAST, MOST, -64, 63, -65, 64]:
        yield file_of(1, 0, [r])
    yield file_of(8, 0, [LEAST])
    yield file_of(8, 0, [MOST])
    yield file_of(1, 1, [LEAST, MOST, MOST])
    yield file_of(2, 1, [MOST, LEAST, LEAST, LEAST, LEAST])
    yield file_of(8, 1, [LEAST] + [MOST] * 16)
    yield file_of(3, 2, [MOST if k % 2 else LEAST for k in range(31)])


def drawn(draw):
    """Random rates of several shapes, each number in any number of bytes that holds it."""
    for d, n in [(1, 2), (1, 4), (2, 2), (2, 3), (3, 1), (3, 2), (4, 1), (5, 1), (6, 1), (7, 0), (8, 1)]:
        reach = draw.choice([4, 70, 10000, MOST])
        rates = [draw.randint(-reach, reach) for _ in range(size(d, n))]
        yield file_of(d, n, rates, lambda: draw.randint(0, 5))


def spoilt(draw):
    """A good file with a byte changed, taken out or put in."""
    for _ in range(16):
        d, n = draw.choice([(1, 1), (2, 1), (1, 2), (3, 0), (3, 1)])
        data = bytearray(file_of(d, n, [draw.randint(-200, 200) for _ in range(size(d, n))], lambda: draw.randint(0, 5)))
        at = draw.randrange(len(data))
        kind = draw.randrange(3)
        if kind == 0:
            data[at] = draw.randrange(256)
        elif kind == 1:
            del data[at]
        else:
            data.insert(at, draw.randrange(256))
        yield bytes(data)


def large(draw):
    """The most points that pass, each number in five bytes; the same with more after it; a table that ends long before the bytes that are read do."""
    every = [(size(d, n), d, n) for d in range(1, 9) for n in range(9)]
    count, d, n = max(s for s in every if s[0] <= PLACES)
    above = min(s for s in every if s[0] > PLACES)
    rates = [draw.randint(LEAST, MOST) for _ in range(count)]
    longest = file_of(d, n, rates, lambda: 5)
    assert len(longest) == 10 + 5 * count
    yield longest
    yield groups(above[1]) + groups(above[2]) + bytes(above[0])
    yield longest + bytes(40972 - len(longest)) + hexed("80 80 80 80 80 80")
    yield longest[:-1] + hexed("10") + bytes(2000)
    yield EXAMPLE + bytes(40965) + hexed("80 80 80 80 80 80")


def limit():
    """More than 32,768 points: 19, where the file ends after d and n and where it does not. With a top level less it is 3, as some of shapes() have it."""
    for d, n in [(4, 8), (6, 6), (8, 6)]:
        assert too_large(d, n) and PLACES < size(d, n - 1) <= MOST_POINTS
        yield groups(d) + groups(n)
    yield groups(8) + groups(8)
    yield groups(7, 5) + groups(6, 5) + hexed("80")
    yield groups(5) + groups(7) + bytes(300)


def samples():
    draw = random.Random(20261116)
    for kind in [told(), cut(), damaged(), shapes(), left_over(), extremes(), drawn(draw), spoilt(draw), large(draw), limit()]:
        yield from kind


if __name__ == "__main__":
    folder = os.path.join(sys.argv[1], "data")
    os.makedirs(folder, exist_ok=True)
    for name in os.listdir(folder):
        os.remove(os.path.join(folder, name))
    seen, said = [], []
    for data in samples():
        if data not in seen:
            with open(os.path.join(folder, "%03d" % len(seen)), "wb") as out:
                out.write(data)
            said.append(report(data))
            seen.append(data)
    with open(os.path.join(sys.argv[1], "stdout"), "w") as out:
        out.writelines("file %03d\n%s" % line for line in enumerate(said))
