#!/usr/bin/env python3
"""The calls that crates/sample_calls is handed (its stdin) and what it has to print (its stdout), made without its code by the rules of documents 01 and 02
and requests e, g and h (grid.py) and request i: the worked values, the edges of the types, then pseudo-random calls, and the same on tables with border values
and on accounts.
`sample_calls.py FOLDER` writes both files.

A state is read as s and d, n, the flag, the set and the lengths of four lists, and printed as the set, d, n and the flag. The four lists are marks m, levels
l, indices i and the table t; l holds the coordinates of an estimate too, l and i the directions and axes of a list of turns, and i office, tag, d and n of an
opening. A point is printed as eight marks, eight levels and eight indices, an account as its 32 bytes."""
import os
import sys
from bisect import bisect_right
from fractions import Fraction
from functools import lru_cache
from itertools import product
from math import ceil

from grid import (LEAST, LIMIT, MOST, OLD_UNIT, UNIT, back, estimate, forward, joint, key, level, margin, mark, points, position, rates_of, size,
                  table_of_set, too_large, vectors)

PAST = LIMIT + 1
# what a division leaves: nothing, a half, and one to either side of both
LEFT = [0, 1, UNIT // 2 - 1, UNIT // 2, UNIT // 2 + 1, UNIT - 1]
TOP = 2 ** 32 - 1
MIN, MAX = -2 ** 63, 2 ** 63 - 1
WIDE = 2 ** 64 - 1


# ---- points by number, also of shapes with many

@lru_cache(None)
def first_numbers(d, n):
    """The level lists in order, and the number of the first point of each."""
    order, starts, k = sorted(vectors(d, n), key=key), [], 0
    for levels in order:
        starts.append(k)
        k += 2 ** sum(levels)
    assert k == size(d, n)
    return order, starts, dict(zip(order, starts))


@lru_cache(None)
def numbered(d, n):
    """The points of a table with border values, by what names them, and the other way."""
    named = [([mark(c) for c in at], [0 if mark(c) else level(c) for c in at], [1 if mark(c) else c.numerator for c in at]) for at in points(d, n, True)]
    assert len(named) == size(d, n, True)
    return named, {tuple(map(tuple, lists)): k for k, lists in enumerate(named)}


def number_of(d, n, border, marks, levels, indices):
    if border:
        return numbered(d, n)[1][tuple(marks), tuple(levels), tuple(indices)]
    return first_numbers(d, n)[2][tuple(levels)] + position(levels, indices)


def point_of(d, n, border, number):
    """Marks, levels and indices."""
    if border:
        return [list(v) for v in numbered(d, n)[0][number]]
    order, starts, _ = first_numbers(d, n)
    k = bisect_right(starts, number) - 1
    rest, indices = number - starts[k], []
    for l in order[k]:
        indices.append(2 * (rest % 2 ** l) + 1)
        rest //= 2 ** l
    return [0] * d, list(order[k]), indices


for shape in [(1, 4), (2, 3), (3, 3), (8, 1)]:
    for k, at in enumerate(points(*shape)):
        marks, levels, indices = point_of(*shape, False, k)
        assert at == tuple(Fraction(i, 2 ** (l + 1)) for l, i in zip(levels, indices)) and number_of(*shape, False, marks, levels, indices) == k


# ---- answers: text, or (number, place) of a refusal

def no_shape(d, n, border, bits=0):
    """1, 2, of a state 14, and 19."""
    if not 1 <= d <= (4 if border else 8):
        return 1, 0
    if n > 8:
        return 2, 0
    if bits >> d:
        return 14, 0
    return (19, 0) if too_large(d, n, border) else None


def no_state(d, n, border, bits, table):
    return no_shape(d, n, border, bits) or ((3, 0) if len(table) != size(d, n, border) else None)


def no_table(d, n, border, table):
    return no_shape(d, n, border) or ((3, 0) if len(table) != size(d, n, border) else None)


def no_point(d, n, border, marks, levels, indices):
    if len(marks) != d or len(levels) != d or len(indices) != d:
        return 7, 0
    for m, l, i in zip(marks, levels, indices):
        if m > 2 or m and not border or m and (l, i) != (0, 1) or i % 2 == 0 or not 1 <= i < 2 ** (min(l, 9) + 1):
            return 9, 0
    return (9, 0) if sum(levels) > n else None


def no_rate(table):
    return next(((4, p) for p, r in enumerate(table) if not LEAST <= r <= MOST), None)


def no_axis(d, axis):
    return None if 1 <= axis <= d else (5, axis)


def said(answer):
    return "refused %d %d" % answer if isinstance(answer, tuple) else str(answer)


def located(answer, marks=(), levels=(), indices=()):
    """A point by value, zeros past the last axis, and all zeros where there is none."""
    return " ".join([said(answer), *[str(v) for numbers in (marks, levels, indices) for v in [*numbers, *[0] * (8 - len(numbers))]]])


def turned(is_back, d, n, border, bits, table, axis):
    """A refusal or the new set, and the table."""
    bad = no_state(d, n, border, bits, table) or no_axis(d, axis)
    if bad:
        return bad, table
    if is_back != bool(bits >> axis - 1 & 1):
        return (16 if is_back else 15, axis), table
    after = (back if is_back else forward)(d, n, table, axis - 1, bool(border))
    return ((10, 0), table) if after is None else (bits ^ 1 << axis - 1, after)


# ---- accounts: the open shapes by (office, tag), and the bytes that stand for them

OFFICES, TAGS, OWN = range(1, 5), range(8), 4096
COMMON = 65536 - 4 * OWN
SHAPE_OF = {16 * d + n: (d, n) for d in range(1, 9) for n in range(9) if not no_shape(d, n, 0)}


def bytes_of(shapes):
    return [16 * shapes[slot][0] + shapes[slot][1] if slot in shapes else 0 for slot in product(OFFICES, TAGS)]


def open_points(shapes, office):
    return sum(size(*shape) for slot, shape in shapes.items() if slot[0] == office)


def in_common(shapes):
    return sum(max(open_points(shapes, office) - OWN, 0) for office in OFFICES)


def shapes_in(account):
    """None of an account that no history from an empty one gives."""
    bytes_by_slot = {slot: byte for slot, byte in zip(product(OFFICES, TAGS), account) if byte}
    if not set(bytes_by_slot.values()) <= set(SHAPE_OF):
        return None
    shapes = {slot: SHAPE_OF[byte] for slot, byte in bytes_by_slot.items()}
    return shapes if in_common(shapes) <= COMMON else None


def no_slot(office, tag):
    return None if office in OFFICES and tag in TAGS else (22, 0)


def after_opening(account, office, tag, d, n):
    """The shapes, or a refusal."""
    shapes = shapes_in(account)
    bad = (20, 0) if shapes is None else no_shape(d, n, 0) or no_slot(office, tag)
    bad = bad or ((21, 0) if (office, tag) in shapes else None)
    return bad or ((20, 0) if in_common({**shapes, (office, tag): (d, n)}) > COMMON else {**shapes, (office, tag): (d, n)})


def after_closing(account, office, tag):
    shapes = shapes_in(account)
    bad = (20, 0) if shapes is None else no_slot(office, tag)
    bad = bad or ((21, 0) if (office, tag) not in shapes else None)
    return bad or {slot: shape for slot, shape in shapes.items() if slot != (office, tag)}


# ---- the list of calls, and what is printed

class Sheet:
    """What is on the program's desk, and both texts."""

    def __init__(self):
        self.asked, self.printed = [], []
        self.d = self.n = self.border = self.bits = 0
        self.m, self.l, self.i, self.table = [], [], [], []
        self.account = [0] * 32

    def say(self, text):
        self.asked.append(text)
        self.printed.append(text)

    def call(self, text, answer):
        self.say(text)
        self.printed.append(" " + answer)
        self.say("\n")

    def state(self, d, n, bits=0, l=(), i=(), table=None, border=0, m=()):
        """All that the next calls are handed; the table stays where none is given."""
        self.d, self.n, self.border, self.bits, self.m, self.l, self.i = d, n, border, bits, list(m), list(l), list(i)
        self.say("s" + "".join("%d," % v for v in (d, n, border, bits)))
        if table is not None:
            self.table = list(table)
        self.say("".join("%d," % len(v) for v in (m, l, i, self.table)) + " ")
        for name, numbers in [("m", m), ("l", l), ("i", i), ("t", () if table is None else table)]:
            if numbers:
                self.say(name + "".join("%d," % v if v >= 0 else "%d-" % -v for v in numbers) + " ")

    def named(self, d, n, levels, indices, marks=None, border=0):
        """Lists that may name a point; without marks given no axis is a border axis."""
        self.state(d, n, 0, levels, indices, None, border, [0] * len(levels) if marks is None else marks)

    @property
    def shape(self):
        return self.d, self.n, self.border

    @property
    def at(self):
        return self.m, self.l, self.i

    def show(self):
        """Every place of the table."""
        self.say("t")
        for v in self.table:
            self.say(".")
            self.printed.append(" %d" % v)
        self.say("\n")

    # points

    def count(self):
        self.call("C", said(no_shape(*self.shape) or size(*self.shape)))

    def number(self):
        bad = no_shape(*self.shape) or no_point(*self.shape, *self.at)
        self.call("N", said(bad or number_of(*self.shape, *self.at)))

    def point(self, number):
        bad = no_shape(*self.shape) or ((6, 0) if number >= size(*self.shape) else None)
        self.call("%dP" % number, located(bad) if bad else located("f", *point_of(*self.shape, number)))

    def successor(self):
        bad = no_shape(*self.shape) or no_point(*self.shape, *self.at)
        if bad:
            return self.call("S", located(bad))
        k = number_of(*self.shape, *self.at) + 1
        self.call("S", located("e") if k == size(*self.shape) else located("f", *point_of(*self.shape, k)))

    def parents(self, axis):
        for letter, step in ("L", -1), ("R", 1):
            bad = no_shape(*self.shape) or no_axis(self.d, axis) or no_point(*self.shape, *self.at)
            answer = located(bad)
            if not bad:
                t = axis - 1
                at = Fraction(self.i[t] + step, 2 ** (self.l[t] + 1))
                marks, levels, indices = self.m[:], self.l[:], self.i[:]
                if marks[t] or mark(at) and not self.border:
                    answer = located("b")
                else:
                    marks[t], levels[t], indices[t] = mark(at), 0 if mark(at) else level(at), 1 if mark(at) else at.numerator
                    answer = located("f", marks, levels, indices)
            self.call("%d%s" % (axis, letter), answer)

    def order(self, a, b):
        self.state(1, 0, 0, a, b)
        a, b = (key(v + [0] * (8 - len(v))) for v in (a, b))
        self.call("O", "<" if a < b else ">" if b < a else "=")

    # tables

    def done(self, text, answer):
        """A refusal, d for done, or the new set, which the next call is handed."""
        if isinstance(answer, int):
            self.bits = answer
            answer = self.answered()
        self.call(text, said(answer))

    def answered(self):
        """The state."""
        return "%d %d %d %d" % (self.bits, self.d, self.n, self.border != 0)

    def load(self):
        bad = no_table(*self.shape, self.table) or no_rate(self.table)
        self.table = self.table if bad else [r * 2 ** self.d for r in self.table]
        self.done("A", bad or 0)

    def adopt(self):
        bad = no_table(*self.shape, self.table) or ((10, 0) if any(abs(v) > LIMIT for v in self.table) else None)
        self.done("B", bad or 2 ** self.d - 1)

    def unload(self):
        bad = no_state(*self.shape, self.bits, self.table)
        bad = bad or next(((18, t) for t in range(1, self.d + 1) if self.bits >> t - 1 & 1), None)
        rates = [Fraction(v, 2 ** self.d) for v in self.table] if not bad else []
        if not all(r.denominator == 1 and LEAST <= r <= MOST for r in rates):
            bad = 10, 0
        self.table = self.table if bad else [int(r) for r in rates]
        self.done("U", bad or "d")

    def to_coefficients(self):
        bad = no_table(*self.shape, self.table) or no_rate(self.table)
        self.table = self.table if bad else table_of_set(self.d, self.n, self.table, range(1, self.d + 1), bool(self.border))
        self.done("V", bad or "d")

    def to_rates(self):
        bad = no_table(*self.shape, self.table)
        found = None if bad else rates_of(self.d, self.n, self.table, bool(self.border))
        self.table = found or self.table
        self.done("W", bad or ((10, 0) if found is None else "d"))

    def forward(self, axis):
        answer, self.table = turned(False, *self.shape, self.bits, self.table, axis)
        self.done("%dF" % axis, answer)

    def back(self, axis):
        answer, self.table = turned(True, *self.shape, self.bits, self.table, axis)
        self.done("%dG" % axis, answer)

    def run(self, directions, axes):
        """The four directions of the list and the axes, which are refused where they are not four; state and table are looked at first."""
        self.state(self.d, self.n, self.bits, directions, axes, border=self.border)
        assert len(directions) == 4
        reported, answer = [(77, 77)] * 4, no_state(*self.shape, self.bits, self.table) or (7, 0)
        if answer == (7, 0) and len(axes) == 4:
            for k in range(4):
                answer, self.table = turned(directions[k] != 0, *self.shape, self.bits, self.table, axes[k])
                reported[k] = answer if isinstance(answer, tuple) else (0, 0)
                self.bits = self.bits if isinstance(answer, tuple) else answer
            answer = self.answered()
        self.call("T", " ".join("%d %d" % r for r in reported) + " " + said(answer))

    def estimate_alone(self):
        bad = no_state(*self.shape, self.bits, self.table)
        bad = bad or next(((17, t) for t in range(1, self.d + 1) if not self.bits >> t - 1 & 1), None)
        bad = bad or ((7, 0) if len(self.l) != self.d else None)
        bad = bad or next(((8, t) for t, x in enumerate(self.l, 1) if x > UNIT), None)
        bad = bad or ((10, 0) if any(abs(v) > LIMIT for v in self.table) else None)
        answer = bad or estimate(self.d, self.n, self.table, self.l, border=bool(self.border))
        self.call("E", said(answer))
        return answer

    def estimate(self):
        """Alone, and with its margin."""
        answer = self.estimate_alone()
        if not isinstance(answer, tuple):
            exact, total, off = margin(self.d, self.n, self.table, self.l, bool(self.border))
            assert abs(answer - exact) <= off
            answer = "%d %d %d" % (answer, total, ceil(off))
        self.call("M", said(answer))

    # accounts

    def hand_in(self, account):
        """Any bytes; as many as there are, from the first."""
        self.account[:len(account)] = account
        self.say("a" + "".join("%d," % byte for byte in account) + " ")

    def on_slot(self, letter, numbers, answer):
        self.call("i" + "".join("%d," % v for v in numbers) + letter, answer)

    def changed(self, letter, numbers, answer):
        """A refusal or the shapes after the call; answers whether it is not refused, and the account either way."""
        done = isinstance(answer, dict)
        self.account = bytes_of(answer) if done else self.account
        self.on_slot(letter, numbers, " ".join(["d" if done else said(answer), *map(str, self.account)]))
        return done

    def empty(self):
        self.account = bytes_of({})
        self.call("Z", " ".join(map(str, self.account)))

    def open(self, *numbers):
        return self.changed("H", numbers, after_opening(self.account, *numbers))

    def close(self, *slot):
        return self.changed("D", slot, after_closing(self.account, *slot))

    def usage(self):
        shapes = shapes_in(self.account)
        if shapes is None:
            return self.call("I", said((20, 0)))
        by_office = [open_points(shapes, office) for office in OFFICES]
        self.call("I", " ".join(map(str, [*by_office, sum(by_office), in_common(shapes), COMMON - in_common(shapes)])))

    def under(self, *slot):
        shapes = shapes_in(self.account)
        bad = (20, 0) if shapes is None else no_slot(*slot)
        self.on_slot("K", slot, said(bad) if bad else "f %d %d 0" % shapes[slot] if slot in shapes else "e")


# ---- the worked values

def worked(sheet):
    def printed(text):
        assert sheet.printed[-2:] == [" " + text, "\n"], sheet.printed[-2:]

    for d, n, count in [(1, 0, 1), (2, 2, 17), (3, 2, 31), (1, 8, 511), (2, 3, 49), (8, 4, 6401), (8, 5, 31745), (8, 6, "refused 19 0")]:
        sheet.state(d, n)
        sheet.count()
        printed(str(count))
    assert size(8, 8) == 2228225
    sheet.named(2, 3, [1, 2], [3, 1])
    sheet.number()
    printed("34")
    for d, n, rates, coefficients in [(1, 1, [3, 5, 7], [6, 7, 11]), (1, 0, [-1], [-2]), (2, 1, [4, 3, 5, 2, 6], [16, 4, 12, 0, 16]),
                                      (2, 2, [1] * 17, [4, 2, 2, 2, 2, 2, 0, 0, 2, 1, 1, 1, 1, 2, 0, 0, 2])]:
        sheet.state(d, n, 0, (), (), rates)
        sheet.to_coefficients()
        sheet.show()
        assert sheet.table == coefficients
        sheet.to_rates()
        sheet.show()
        assert sheet.table == rates
    for sign, x, value in [(1, 262144, 10), (1, 131072, 5), (1, 0, 0), (1, 1, 0), (-1, 1, 0), (1, 1048576, 0), (1, 1048577, "refused 8 1")]:
        sheet.state(1, 1, 1, [x], (), [6 * sign, 7 * sign, 11 * sign])
        sheet.estimate_alone()
        printed(str(value))
    for coefficient, value in [(1, 1), (-1, -1), (3, 2), (-3, -2), (5, 3), (-5, -3)]:
        sheet.state(1, 0, 1, [262144], (), [coefficient])
        sheet.estimate_alone()
        printed(str(value))
    # an old coordinate times 16: on one axis the old estimate, on more it may differ
    for d, n, coefficients, at, old, new in [
            (1, 1, [6, 7, 11], [16384], 10, 10), (1, 1, [6, 7, 11], [OLD_UNIT], 0, 0), (2, 0, [7], [5900, 13000], 0, 1), (3, 0, [22], [5000, 8000, 20000], 0, 1)]:
        for sign in 1, -1:
            table = [sign * c for c in coefficients]
            assert estimate(d, n, table, at, OLD_UNIT) == sign * old
            sheet.state(d, n, 2 ** d - 1, [16 * x for x in at], (), table)
            sheet.estimate_alone()
            printed(str(sign * new))
    # a weight of 2 on each axis and a joint weight of 0; half a unit off, on one axis; almost all of the margin off, on two
    for d, coefficient, at, value, exact_value in [
            (2, LIMIT, [1, 1], "0 140737488355328 134217729", 512), (1, 1, [262144], "1 1 1", Fraction(1, 2)),
            (2, LIMIT, [1, 262143], "0 140737488355328 134217729", 134217216)]:
        assert margin(d, 0, [coefficient], at)[0] == exact_value
        sheet.state(d, 0, 2 ** d - 1, at, (), [coefficient])
        sheet.estimate()
        printed(value)
    for coefficient, answer in [(3, "refused 10 0"), (4, "d")]:
        sheet.state(1, 0, 0, (), (), [coefficient])
        sheet.to_rates()
        printed(answer)
    assert sheet.table == [2]
    for d, n, answer in [(8, 0, "0 8 0 0"), (9, 0, "refused 1 0"), (1, 9, "refused 2 0")]:
        sheet.state(d, n, 0, (), (), [1])
        sheet.load()
        printed(answer)


# ---- the edges of the types

def edges_of_points(sheet):
    for d, n in [(0, 8), (9, 8), (TOP, 8), (1, 9), (8, 9), (8, TOP), (0, 9), (TOP, TOP)]:
        sheet.state(d, n)
        sheet.count()
        sheet.point(WIDE)
    last, ones = [0] * 7 + [5], [1] * 7
    for d, n, levels, indices in [
            (2, 3, [0, 0], [1, 1]), (2, 3, [0, 2], [1, 7]), (2, 3, [1, 2], [3, 7]), (2, 3, [0, 3], [1, 15]), (1, 8, [8], [511]), (1, 8, [8], [257]),
            (8, 5, last, ones + [61]), (8, 5, last, ones + [63]), (1, 0, [0], [1]), (8, 0, [0] * 8, [1] * 8),
            (2, 3, [1], [3, 1]), (2, 3, [1, 2], [3]), (2, 3, [1, 2, 0], [3, 1, 1]), (2, 3, [], [0, TOP]), (2, 3, [TOP, 1], [0]), (8, 5, [0] * 9, [1] * 9),
            (2, 3, [2, 2], [1, 1]), (2, 3, [200, 0], [1, 1]), (2, 3, [TOP, 4], [1, 1]), (2, 3, [2 ** 31, 2 ** 31], [1, 1]), (1, 8, [9], [1]), (1, 8, [32], [1]),
            (2, 3, [1, 2], [2, 1]), (2, 3, [1, 2], [3, 0]), (2, 3, [1, 2], [5, 1]), (2, 3, [1, 2], [3, TOP]), (1, 8, [8], [513]), (2, 3, [0, 0], [3, 1]),
            (0, 3, [], []), (9, 9, [200], [0]), (2, 9, [200], [0])]:
        sheet.named(d, n, levels, indices)
        sheet.number()
        sheet.successor()
        for axis in (1, 2, 8):
            sheet.parents(axis)
    sheet.named(2, 3, [200], [0, 0, 0])
    for axis in (0, 3, TOP):
        sheet.parents(axis)
    for d, n, number in [(2, 3, 0), (2, 3, 48), (2, 3, 49), (2, 3, 2 ** 32 + 34), (1, 0, 0), (1, 0, 1), (8, 5, 31744), (8, 5, 31745), (8, 5, 2 ** 32)]:
        sheet.state(d, n)
        sheet.point(number)
    full = [TOP] * 8
    for a, b in [([0], [0]), (full, full), (full, [0]), ([0], full), ([3], [2, 1]), ([0, 3], [1, 2]), ([2], [0] * 7 + [1]), ([TOP, 1], [1]),
                 ([1], [TOP] + [0] * 6 + [1]), ([TOP], [0] * 7 + [TOP]), (full, [TOP] * 7 + [TOP - 1]), ([TOP - 1] + [TOP] * 7, full)]:
        sheet.order(a + [0] * (8 - len(a)), b + [0] * (8 - len(b)))


def edges_of_tables(sheet):
    for d, n, table in [
            (0, 9, [PAST]), (TOP, TOP, [PAST]), (8, 9, [PAST]), (2, 1, [PAST] * 4), (2, 1, [PAST] * 6), (1, 1, []), (1, 0, [MOST]), (1, 0, [MOST + 1]),
            (8, 0, [LEAST]), (8, 0, [LEAST - 1]), (1, 1, [0, LEAST - 1, MOST + 1]), (2, 1, [LEAST, MOST, MOST, MOST, MOST]), (2, 1, [0, 0, 0, MIN, MAX]),
            (1, 0, [LIMIT]), (1, 0, [PAST]), (2, 1, [LIMIT, -LIMIT, 1, LIMIT, -LIMIT]), (2, 1, [0, 0, 0, 0, -PAST]), (8, 0, [256 * MOST]), (8, 0, [256 * MOST + 256]),
            (8, 0, [256 * LEAST]), (8, 0, [128]), (1, 1, [6, 7, 12]), (1, 1, [6, 9, 11]), (1, 1, [2, 1, 2 * MOST - 1]), (1, 1, [2, 1, 2 * MOST + 1]),
            (2, 1, [16, 4, 12, 0, 17]), (2, 1, [16, 4, 12, 0, 20])]:
        for call in Sheet.load, Sheet.adopt, Sheet.unload, Sheet.to_coefficients, Sheet.to_rates:
            sheet.state(d, n, 0, (), (), table)
            call(sheet)
            sheet.show()
    for d, n, bits, table in [(1, 9, 255, []), (2, 1, 4, [PAST] * 4), (7, 0, 128, [PAST]), (2, 1, 3, [PAST] * 4), (2, 1, 2, [PAST] * 5), (8, 0, 192, [1])]:
        sheet.state(d, n, bits, (), (), table)
        sheet.unload()


def edges_of_turns(sheet):
    for d, n, bits, table, axis in [
            (0, 9, 255, [PAST], 0), (8, TOP, 255, [PAST], TOP), (1, 8, 2, [PAST], 0), (7, 0, 128, [PAST], 8), (2, 1, 3, [PAST] * 4, 0), (2, 1, 0, [PAST] * 5, 3),
            (2, 1, 3, [PAST] * 5, 0), (8, 0, 255, [PAST], TOP), (8, 0, 128, [PAST], 8), (8, 0, 127, [PAST], 8), (8, 0, 0, [PAST], 264),
            (1, 0, 0, [LIMIT], 1), (1, 0, 0, [-PAST], 1), (1, 1, 0, [2, 0, 0], 1), (1, 1, 0, [1, 0, 0], 1), (1, 1, 0, [-1, 7, 7], 1),
            (1, 2, 0, [2, 3, 3, 0, 0, 0, 0], 1), (1, 2, 0, [2, 4, 2, 9, 9, 9, 9], 1), (1, 1, 0, [-2, LIMIT - 1, 0], 1), (1, 1, 0, [-2, LIMIT, 0], 1),
            (1, 1, 0, [2, LIMIT - 1, 0], 1), (1, 1, 0, [2, 0, LIMIT], 1), (1, 1, 0, [-2, 1 - LIMIT, -LIMIT], 1), (1, 1, 0, [LIMIT, 0, 2 ** 46 + 1], 1),
            (1, 1, 0, [MIN, MAX, 0], 1), (1, 2, 0, [LIMIT] * 3 + [0] * 4, 1), (1, 2, 0, [MAX] * 3 + [0] * 4, 1)]:
        for call, other in (Sheet.forward, 0), (Sheet.back, 1):
            # on one axis the set that the turn can take
            sheet.state(d, n, other if d == 1 and bits == 0 else bits, (), (), table)
            call(sheet, axis)
            sheet.show()
    for bits, axes in [(0, [2, 3, 1, 2]), (2, [2, 0, TOP, 1]), (0, [1, 2, 1]), (0, [1, 2, 1, 2, 1]), (3, [])]:
        sheet.state(2, 1, bits, (), (), [16, 12, 20, 8, 24])
        sheet.run([0, 0, 1, 255], axes)
        sheet.show()
    for d, n, bits, table in [(0, 9, 255, [16]), (2, 9, 255, [16]), (2, 1, 4, [16]), (2, 1, 3, [16] * 4), (2, 1, 3, [16] * 6)]:
        for axes in [2, 3, 1, 2], [2, 3, 1], []:
            sheet.state(d, n, bits, (), (), table)
            sheet.run([0, 0, 1, 255], axes)


def edges_of_estimates(sheet):
    worst = [PAST, -PAST]
    for d, n, bits, table, at in [
            (0, 9, 255, worst, [UNIT + 1]), (8, TOP, 0, worst, [UNIT + 1]), (7, 8, 128, worst, [UNIT + 1]), (2, 1, 0, worst, [UNIT + 1]),
            (2, 1, 3, [], [UNIT + 1]), (2, 1, 1, [PAST] * 5, [UNIT + 1]), (8, 0, 127, [PAST], [UNIT + 1]), (8, 0, 160, [PAST], []),
            (2, 1, 3, [PAST] * 5, [UNIT + 1]), (8, 0, 255, [0], [1] * 9), (2, 1, 3, [PAST] * 5, [UNIT, TOP]), (2, 1, 3, [PAST] * 5, [UNIT + 1, UNIT + 1]),
            (1, 1, 1, [0, 0, -PAST], [UNIT // 4]), (1, 1, 1, [MIN, 0, 0], [0]), (1, 1, 1, [LIMIT] * 3, [UNIT // 3]), (1, 1, 1, [-LIMIT] * 3, [UNIT // 3]),
            (2, 0, 3, [LIMIT], [1, 1]), (2, 0, 3, [-LIMIT], [1, 1]), (8, 0, 255, [256], [UNIT - 1] * 8),
            (8, 0, 255, [-LIMIT], [UNIT // 2] * 3 + [UNIT - 1] + [UNIT // 2] * 3 + [1]),
            (2, 1, 3, [LIMIT] * 5, [OLD_UNIT, OLD_UNIT + 1]), (8, 0, 255, [LIMIT], [OLD_UNIT + 1] * 8)]:
        sheet.state(d, n, bits, at, (), table)
        sheet.estimate()
    # each axis at the end and past it, the others at points
    for d in 1, 2, 3, 8:
        for t in range(d):
            for x in OLD_UNIT + 1, UNIT - 1, UNIT, UNIT + 1, 2 ** 31, TOP:
                sheet.state(d, 0, 2 ** d - 1, [UNIT // 2] * t + [x] + [UNIT // 2] * (d - 1 - t), (), [-LIMIT])
                sheet.estimate()
    # one point of joint weight 1, so that its coefficient is the sum
    for d, at in (2, [1, UNIT // 4]), (3, [UNIT // 4 * 3, UNIT // 2, UNIT - 1]), (8, [UNIT - 1] + [UNIT // 2] * 6 + [UNIT // 4]):
        for whole in 0, 1, 2, LIMIT // UNIT - 1:
            for left in LEFT:
                for sign in 1, -1:
                    sheet.state(d, 0, 2 ** d - 1, at, (), [sign * (whole * UNIT + left)])
                    sheet.estimate()


def edges_of_the_limit(sheet):
    """Every call on tables that are too large, with later refusals matching too, and with 14, which comes before; the largest that are not."""
    for border, tops in [(0, [8, 8, 8, 7, 6, 5, 5, 5]), (255, [8, 8, 7, 5])]:
        for d, top in enumerate(tops, 1):
            for n in range(top, 9):
                sheet.state(d, n, border=border)
                sheet.count()
                assert (sheet.printed[-2] == " refused 19 0") == (n > top)
                assert size(d, n, border) % 2 == 1  # so that none has 32,768 points
            sheet.state(d, top, border=border)
            sheet.point(size(d, top, border) - 1)
            sheet.point(size(d, top, border))
    for d, n, border in [(8, 6, 0), (8, 8, 0), (6, 6, 0), (4, 8, 0), (3, 8, 1), (4, 6, 128)]:
        for number in 0, WIDE:
            sheet.state(d, n, border=border)
            sheet.point(number)
        for levels, indices, axis in ([0] * d, [1] * d, 1), ([TOP], [], 0):
            sheet.named(d, n, levels, indices, None, border)
            sheet.number()
            sheet.successor()
            sheet.parents(axis)
        # one place: what 16 bits hold of 65,537 points
        for bits, table in [(0, [1]), (2 ** d - 1, [PAST] * 3)] + ([(1 << d, [PAST] * 3), (128 + 1, [1])] if d < 8 else []):
            sheet.state(d, n, bits, [UNIT + 1], (), table, border)
            sheet.forward(1)
            sheet.back(0)
            sheet.unload()
            sheet.estimate()
            sheet.run([0, 0, 1, 255], [1, 1, 2, 2][bits % 2:])
            sheet.show()
        for table in [0], [PAST] * 3:
            sheet.state(d, n, 0, (), (), table, border)
            for call in Sheet.load, Sheet.adopt, Sheet.to_coefficients, Sheet.to_rates, Sheet.show:
                call(sheet)
        # 1 and 2 come before
        for other in (9, n), (d, 9):
            sheet.state(*other, 255, [UNIT + 1], (), [PAST], border)
            sheet.count()
            sheet.forward(0)
    # 3 next, where all that comes later matches too
    for d, n, border in [(8, 5, 0), (4, 7, 0), (3, 7, 1), (4, 5, 1)]:
        sheet.state(d, n, 2 ** d - 1, [UNIT + 1], (), [PAST], border)
        sheet.forward(0)
        sheet.back(0)
        sheet.unload()
        sheet.estimate()
        sheet.load()
        sheet.adopt()
        sheet.to_coefficients()
        sheet.to_rates()


# ---- pseudo-random calls

class Drawn:
    def __init__(self, seed):
        self.x = seed

    def below(self, count):
        self.x ^= self.x << 13 & WIDE
        self.x ^= self.x >> 7
        self.x ^= self.x << 17 & WIDE
        return self.x * count >> 64

    def of(self, *these):
        return these[self.below(len(these))]

    def between(self, low, high):
        return low + self.below(high - low + 1)


# draws that the others do not share
FINER = Drawn(1181783497276652981)


def random_points(draw, sheet, d, n):
    for _ in range(10):
        sheet.state(d, n)
        sheet.point(draw.below(size(d, n)))
        _, levels, indices = point_of(d, n, 0, draw.below(size(d, n)))
        t, which = draw.below(d), draw.below(8)
        if which == 0:
            levels[t] += draw.of(1, 2, 256)
        elif which == 1:
            indices[t] += draw.of(1, 2 ** (levels[t] + 1), 2 ** 16)
        sheet.named(d, n, levels, indices)
        sheet.number()
        sheet.successor()
        sheet.parents(draw.of(0, d + 1, TOP) if draw.below(12) == 0 else draw.between(1, d))
        other = point_of(d, n, 0, draw.below(size(d, n)))[1]
        sheet.order(*(v + [0] * (8 - d) for v in (levels, other)))


# in the unit before, and as many draws as then, so that all calls are those of then
def old_coordinate(draw):
    return draw.of(0, 1, 65535, 65536, 21845, 43691, draw.below(513) * 128, draw.below(513) * 128, draw.below(65537), draw.below(65537))


def coordinate(draw):
    on_grid, old = draw.below(513) * (UNIT // 512), draw.of(draw.below(OLD_UNIT + 1) * 16, OLD_UNIT, OLD_UNIT + 1)
    return draw.of(0, 1, UNIT - 1, UNIT, UNIT // 3, UNIT - UNIT // 3, on_grid, on_grid, old, draw.below(UNIT + 1), draw.below(UNIT + 1))


def estimates(draw, sheet, count):
    """Each at coordinates of the unit before, times 16, and at others."""
    for _ in range(count):
        for at in [[16 * old_coordinate(draw) for _ in range(sheet.d)], [coordinate(FINER) for _ in range(sheet.d)]]:
            sheet.state(sheet.d, sheet.n, sheet.bits, at, border=sheet.border)
            sheet.estimate()


def runs(draw, sheet, count):
    for _ in range(count):
        axes = [draw.of(0, sheet.d + 1, TOP) if draw.below(10) == 0 else draw.between(1, sheet.d) for _ in range(4)]
        sheet.run([draw.of(0, 0, 0, 1, 1, 255) for _ in range(4)], axes)


def from_rates(draw, sheet, d, n):
    """Load, turns, all axes back, unload; coefficients, estimates, one of them damaged, rates again."""
    kind = draw.below(3)
    rates = [(draw.between(-9, 9), draw.between(LEAST, MOST), draw.of(LEAST, MOST))[kind] for _ in range(size(d, n))]
    sheet.state(d, n, 0, (), (), rates)
    sheet.load()
    runs(draw, sheet, 5)
    sheet.show()
    sheet.run([1] * 4, [1, 2, 3, 4])
    sheet.run([9] * 4, [5, 6, 7, 8])
    sheet.unload()
    sheet.show()
    assert sheet.table == rates
    sheet.to_coefficients()
    sheet.show()
    sheet.adopt()
    estimates(draw, sheet, 6)
    for off in (0, draw.of(1, 2 ** d, -1)):
        sheet.state(d, n, 0, (), (), [sheet.table[0] + off] + sheet.table[1:])
        sheet.to_rates()
        if sheet.table == rates:
            sheet.to_coefficients()


def from_contents(draw, sheet, d, n, kind):
    """Anything: turns from any set, then estimates."""
    values = {"wide": lambda: draw.between(-LIMIT, LIMIT), "fours": lambda: 4 * draw.between(-30, 30), "ends": lambda: draw.of(LIMIT, -LIMIT, 0)}[kind]
    sheet.state(d, n, draw.below(2 ** d), (), (), [values() for _ in range(size(d, n))])
    runs(draw, sheet, 5)
    sheet.forward(draw.between(1, d))
    sheet.back(draw.between(1, d))
    sheet.to_rates()
    sheet.adopt()
    estimates(draw, sheet, 5)
    sheet.show()


def about_halves(draw, sheet, d, n):
    """Tables of which one coefficient is set so that the sum leaves what is wanted, with an even and an odd number of whole units; each also negated."""
    weights = []
    while not any(w % 2 for w in weights):
        at = [coordinate(draw) for _ in range(d)]
        weights = [joint(p, at) for p in points(d, n)]
    k = draw.of(*[p for p, w in enumerate(weights) if w % 2])
    for wanted in LEFT + [UNIT + left for left in LEFT]:
        reach = draw.of(9, LIMIT)
        table = [draw.between(-reach, reach) for _ in weights]
        missing = wanted - sum(c * w for p, (c, w) in enumerate(zip(table, weights)) if p != k)
        table[k] = missing * pow(weights[k], -1, 2 * UNIT) % (2 * UNIT)
        for sign in 1, -1:
            sheet.state(d, n, 2 ** d - 1, at, (), [sign * c for c in table])
            sheet.estimate()


# ---- tables with border values

def bordered_points(sheet):
    for d, n, count in [(1, 0, 3), (1, 1, 5), (2, 1, 21), (3, 3, 593), (4, 5, 20481)]:
        sheet.state(d, n, border=1)
        sheet.count()
        assert sheet.printed[-2] == " %d" % count
    for d, n, border in [(0, 8, 1), (5, 8, 1), (4, 9, 1), (5, 9, 255), (8, 0, 128), (9, 0, 1), (TOP, TOP, 2), (5, 0, 0), (4, 3, 255)]:
        sheet.state(d, n, border=border)
        sheet.count()
        sheet.point(WIDE)
    # the faces of two axes: by how many border axes, then by marks from the last axis
    faces = [(0, 0), (1, 0), (2, 0), (0, 1), (0, 2), (1, 1), (2, 1), (1, 2), (2, 2)]
    for k, marks in enumerate(faces):
        sheet.named(2, 0, [0, 0], [1, 1], marks, 1)
        sheet.number()
        assert sheet.printed[-2] == " %d" % k
        sheet.point(k)
        sheet.successor()
        sheet.parents(1)
        sheet.parents(2)
    sheet.point(len(faces))
    # what names no point, and lists of other lengths; marks without the flag
    for border in 1, 0:
        for marks, levels, indices in product([[1, 0], [2, 1], [0, 3], [0, TOP], [257, 0]], [[0, 0], [0, 1], [1, 0]], [[1, 1], [1, 3], [3, 1], [0, 1]]):
            sheet.named(2, 1, levels, indices, marks, border)
            sheet.number()
        for marks, levels, indices in [([], [0, 0], [1, 1]), ([0], [0, 0], [1, 1]), ([0, 0, 0], [0, 0], [1, 1]), ([0, 0], [0], [1, 1]), ([0, 0], [0, 0], [1]),
                                       ([3, 0, 0], [0, 0], [1, 1]), ([1, 1], [0, 0], [1, 1, 1]), ([0, 0], [0, 1], [1, 3]), ([0, 2], [0, 2], [1, 1])]:
            sheet.named(2, 1, levels, indices, marks, border)
            sheet.number()
            sheet.successor()
            for axis in 0, 1, 2, 3:
                sheet.parents(axis)


def bordered_tables(sheet):
    rates, coefficients = [3, 5, 7, 1, 9], [-4, 6, 2, 2, 18]
    for flag in 1, 255:
        sheet.state(1, 1, 0, (), (), rates, flag)
        sheet.to_coefficients()
        sheet.show()
        assert sheet.table == coefficients
        sheet.to_rates()
        sheet.show()
        assert sheet.table == rates
        sheet.load()
        sheet.forward(1)
        sheet.show()
        sheet.back(1)
        sheet.unload()
        sheet.show()
    # the borders, the points, beside them and between
    for x in 0, 1, UNIT // 8, UNIT // 4, UNIT // 2, UNIT // 4 * 3, UNIT - 1, UNIT, UNIT + 1:
        sheet.state(1, 1, 1, [x], (), coefficients, 1)
        sheet.estimate()
    # a border value at the end of the limit and past it, odd sums with it, a value past the limit after the turn
    for table in [[0, 0, 0, LIMIT, -LIMIT], [0, 0, 0, PAST, 0], [0, 0, 0, 1, 0], [0, 0, 0, 1, 1], [0, 0, 0, 2, 1], [0, LIMIT, 0, -2, 2], [0, LIMIT - 1, 0, -2, 2],
                  [LIMIT, 0, 0, LIMIT, LIMIT], [-LIMIT, 0, 0, LIMIT, LIMIT], [0, 0, 0, MIN, MAX]]:
        for call, bits in (Sheet.forward, 0), (Sheet.back, 1):
            sheet.state(1, 1, bits, (), (), table, 1)
            call(sheet, 1)
            sheet.show()
        for call in Sheet.adopt, Sheet.to_rates, Sheet.load:
            sheet.state(1, 1, 0, (), (), table, 1)
            call(sheet)
        sheet.state(1, 1, 1, [UNIT // 3], (), table, 1)
        sheet.estimate()
    # refusals with later ones matching too
    for d, n, border, bits, table, axis, at in [
            (5, 9, 1, 255, [PAST], 0, [UNIT + 1]), (4, 9, 1, 255, [PAST], 0, []), (1, 1, 1, 2, [PAST], 0, []), (2, 1, 1, 3, [PAST] * 5, 0, []),
            (2, 1, 0, 3, [PAST] * 21, 0, []), (1, 1, 1, 1, [PAST] * 5, 2, []), (1, 1, 1, 0, [PAST] * 5, 1, [0]), (1, 1, 1, 1, [PAST] * 5, 1, []),
            (1, 1, 1, 1, [PAST] * 5, 1, [UNIT + 1]), (2, 0, 1, 1, [PAST] * 9, 1, [UNIT + 1]), (2, 0, 1, 3, [PAST] * 9, 1, [UNIT, UNIT + 1])]:
        sheet.state(d, n, bits, at, (), table, border)
        for call in Sheet.forward, Sheet.back:
            call(sheet, axis)
        sheet.estimate()
        sheet.unload()
        sheet.load()
        sheet.state(d, n, bits, at, (), table, border)
        sheet.adopt()
    # every place of a face that holds no rate
    for p in 0, 4, 5, 7, 8, 16, 17, 20:
        sheet.state(2, 1, 0, (), (), [MOST] * p + [MOST + 1] + [LEAST - 1] * (20 - p), 1)
        sheet.load()
        sheet.to_coefficients()


def bordered_random(draw, sheet, d, n):
    named = numbered(d, n)[0]
    for _ in range(6):
        sheet.state(d, n, border=1)
        sheet.point(draw.below(len(named)))
        marks, levels, indices = (list(v) for v in named[draw.below(len(named))])
        t, which = draw.below(d), draw.below(8)
        if which == 0:
            marks[t] = draw.below(4)
        elif which == 1:
            levels[t] += draw.of(1, 2, 256)
        elif which == 2:
            indices[t] += draw.of(1, 2 ** (levels[t] + 1), 2 ** 16)
        sheet.named(d, n, levels, indices, marks, draw.of(1, 1, 2, 255))
        sheet.number()
        sheet.successor()
        sheet.parents(draw.between(1, d))
    # from rates and back, with estimates
    kind = draw.below(3)
    rates = [(draw.between(-9, 9), draw.between(LEAST, MOST), draw.of(LEAST, MOST))[kind] for _ in named]
    sheet.state(d, n, 0, (), (), rates, 1)
    sheet.load()
    runs(draw, sheet, 3)
    sheet.show()
    sheet.run([1] * 4, [1, 2, 3, 4])
    sheet.unload()
    assert sheet.table == rates
    sheet.to_coefficients()
    sheet.show()
    sheet.adopt()
    for k in range(6):
        at = [coordinate(draw) for _ in range(d)]
        if k < 3:
            point = points(d, n, True)[draw.below(len(named))]
            at = [int(c * UNIT) for c in point]
            assert estimate(d, n, sheet.table, at, border=True) == rates[points(d, n, True).index(point)] * 2 ** d
        sheet.state(d, n, sheet.bits, at, border=1)
        sheet.estimate()
    for off in 0, draw.of(1, 2 ** d, -1):
        p = draw.below(len(named))
        sheet.state(d, n, 0, (), (), sheet.table[:p] + [sheet.table[p] + off] + sheet.table[p + 1:], 1)
        sheet.to_rates()
        if sheet.table == rates:
            sheet.to_coefficients()
    # anything
    sheet.state(d, n, 2 ** d - 1, (), (), [draw.of(LIMIT, -LIMIT, draw.between(-LIMIT, LIMIT)) for _ in named], 1)
    for _ in range(3):
        sheet.state(d, n, sheet.bits, [coordinate(draw) for _ in range(d)], border=1)
        sheet.estimate()
    runs(draw, sheet, 2)
    sheet.show()


def bordered(sheet, draw):
    bordered_points(sheet)
    bordered_tables(sheet)
    for d, n in [(1, 0), (1, 3), (2, 0), (2, 1), (2, 2), (3, 1), (4, 0)]:
        bordered_random(draw, sheet, d, n)


# ---- accounts

def worked_day(sheet):
    sheet.empty()
    for call, answer, free in [
            ((1, 0, 8, 5), "d", 21503), ((2, 0, 4, 7), "d", 2302), ((3, 0, 3, 7), "refused 20 0", 2302), ((3, 0, 3, 6), "d", 2302), ((3, 1, 3, 5), "d", 2302),
            ((3, 1, 1, 0), "refused 21 0", 2302), ((4, 0, 2, 8), "d", 2301), ((4, 8, 2, 8), "refused 22 0", 2301), ((5, 0, 2, 8), "refused 22 0", 2301),
            ((4, 1, 8, 6), "refused 19 0", 2301), ((2, 3), "refused 21 0", 2301), ((1, 0), "d", 29950), ((3, 2, 3, 7), "d", 22785)]:
        (sheet.open if len(call) == 4 else sheet.close)(*call)
        assert sheet.printed[-2].startswith(" " + answer + " ")
        sheet.usage()
        assert sheet.printed[-2].endswith(" %d" % free)


def edges_of_accounts(sheet):
    # every byte of up to nine axes and some of more, each alone, at one place after another; then a shape at every place
    sheet.empty()
    alone = sorted([byte for byte in range(256) if byte < 160 or byte % 5 == 0], key=lambda byte: 37 * byte % 256)
    for k, byte in enumerate(alone):
        sheet.hand_in([0] * (32 * k // len(alone)) + [byte])
        sheet.usage()
        assert (sheet.printed[-2] == " refused 20 0") != (byte == 0 or byte in SHAPE_OF)
    sheet.hand_in([16 * (1 + place % 8) + place // 8 for place in range(32)])
    sheet.usage()
    for slot in (1, 0), (1, 7), (2, 0), (3, 5), (4, 6), (4, 7):
        sheet.under(*slot)
        sheet.open(*slot, 1, 0)
        sheet.close(*slot)
        sheet.under(*slot)
    sheet.usage()
    # offices and tags
    sheet.empty()
    for slot in [(0, 0), (1, 0), (4, 7), (5, 0), (4, 8), (0, 8), (1, 256), (257, 0), (2, TOP), (TOP, 7), (TOP, TOP)]:
        sheet.close(*slot)
        sheet.open(*slot, 2, 2)
        sheet.under(*slot)
    # shapes, and the largest of each number of axes
    for shape in [(0, 0), (9, 0), (1, 9), (1, TOP), (TOP, 0), (0, 16), (2 ** 28 + 1, 0), (257, 1), (1, 256), (3, 2 ** 32 - 16)]:
        sheet.open(2, 1, *shape)
    for d, n in enumerate([8, 8, 8, 7, 6, 5, 5, 5], 1):
        sheet.open(d % 4 + 1, 8 - d, d, n + 1)
        sheet.open(d % 4 + 1, 8 - d, d, n)
    sheet.usage()
    # many refusals at once; the account of the worked day, two that no history gives, and one that is both
    day = {(1, 0): (8, 5), (2, 0): (4, 7), (3, 0): (3, 6), (3, 1): (3, 5)}
    over = bytes_of({**day, (4, 0): (3, 7)})
    assert shapes_in(over) is None
    slots = [(3, 2), (1, 0), (0, 0), (5, 1), (2, 8)]
    sheet.hand_in(bytes_of(day))
    for slot in slots:
        for shape in [(0, 9), (9, 6), (8, 9), (8, 6), (8, 5), (2, 8), (3, 4)]:
            if sheet.open(*slot, *shape):
                sheet.close(*slot)
        sheet.under(*slot)
        if sheet.close(*slot):
            sheet.hand_in(bytes_of(day))
    for account in bytes_of(day)[:31] + [9], over, over[:31] + [9]:
        sheet.hand_in(account)
        for slot, shape in zip(slots, [(1, 0), (8, 5), (8, 6), (8, 9), (9, 9)]):
            sheet.open(*slot, *shape)
        sheet.close(1, 0)
        sheet.close(0, 8)
        sheet.under(1, 0)
        sheet.under(5, 0)
        sheet.usage()
        assert sheet.account == account
    # all 49,152 common points in use, by one office and by four, and one too many; 4,096 of one's own beside it
    for openings in [[(2, t, *shape) for t, shape in enumerate([(3, 8), (5, 5), (4, 7), (1, 0), (5, 5), (1, 0)])],
                     [(1, 3, 2, 8), (2, 0, 6, 5), (4, 7, 8, 5), (3, 2, 3, 8), (4, 6, 3, 3), (3, 1, 1, 3)]]:
        sheet.empty()
        for opening in openings:
            sheet.open(*opening)
        assert in_common(shapes_in(sheet.account)) == COMMON
        sheet.usage()
        for call in Sheet.open, Sheet.close, Sheet.open:
            call(sheet, *((2, 7, 1, 0) if call is Sheet.open else openings[-1][:2]))
        sheet.usage()
        sheet.open(*openings[-1])
        sheet.close(2, 7)
        sheet.open(*openings[-1])
        for t, shape in enumerate([(4, 5), (5, 4), (1, 5), (1, 0), (1, 0)]):
            sheet.open(1, t, *shape)
        sheet.open(1, 5, 2, 8)
        sheet.usage()
        full = sheet.account
        for byte in 16, 17:
            sheet.hand_in([byte if k == 15 else v for k, v in enumerate(full)])
            sheet.usage()
    for byte in 0x85, 0x28, 0x10, 255:
        sheet.hand_in([byte] * 32)
        sheet.usage()


def history(draw, sheet, quiet, calls):
    """Any calls; those of one office never try to have more open than its own, and are answered as if there were no others."""
    large = [shape for shape in SHAPE_OF.values() if size(*shape) > 500]
    ledger, alone = 0, {}
    sheet.empty()
    for k in range(calls):
        shapes = shapes_in(sheet.account)
        office, tag, shape = draw.between(1, 4), draw.below(8), draw.of(*large, (8, 6), (0, 1), (3, 9))
        if office == quiet:
            left = OWN - open_points(shapes, quiet)
            shape = draw.of((9, 9), *[shape for shape in SHAPE_OF.values() if size(*shape) <= left])
        elif draw.below(12) == 0:
            office, tag = draw.of((0, tag), (5, tag), (office, 8))
        own = [slot for slot in shapes if slot[0] == office]
        if own and draw.below(5) < 2:
            office, tag = draw.of(*own, *own, (office, tag))
            ledger -= size(*shapes[office, tag]) if sheet.close(office, tag) else 0
            answer = after_closing(bytes_of(alone), office, tag)
        else:
            ledger += size(*shape) if sheet.open(office, tag, *shape) else 0
            answer = after_opening(bytes_of(alone), office, tag, *shape)
        if office == quiet:
            alone = answer if isinstance(answer, dict) else alone
            assert answer != (20, 0) and sheet.printed[-2].startswith(" d " if isinstance(answer, dict) else " %s " % said(answer))
        assert sum(open_points(shapes_in(sheet.account), office) for office in OFFICES) == ledger
        if k % 5 == 4:
            sheet.under(*draw.of((draw.between(1, 4), draw.below(8)), *shapes_in(sheet.account)))
            sheet.usage()


def accounts(sheet, draw):
    worked_day(sheet)
    edges_of_accounts(sheet)
    for quiet in OFFICES:
        history(draw, sheet, quiet, 25)


if __name__ == "__main__":
    sheet, draw = Sheet(), Drawn(88172645463325252)
    worked(sheet)
    edges_of_points(sheet)
    edges_of_tables(sheet)
    edges_of_turns(sheet)
    edges_of_estimates(sheet)
    for d, n in [(1, 0), (1, 3), (1, 8), (2, 2), (2, 3), (3, 3), (4, 2), (5, 2), (6, 1), (7, 1), (8, 1), (8, 2)]:
        random_points(draw, sheet, d, n)
        from_rates(draw, sheet, d, n)
        for kind in "wide", "fours", "ends":
            from_contents(draw, sheet, d, n, kind)
    random_points(draw, sheet, 8, 5)
    for d, n in [(2, 0), (2, 1), (2, 2), (3, 1), (5, 1), (8, 1)]:
        about_halves(draw, sheet, d, n)
    bordered(sheet, Drawn(6364136223846793005))
    edges_of_the_limit(sheet)
    accounts(sheet, Drawn(2862933555777941757))
    for name, text in ("stdin", sheet.asked), ("stdout", sheet.printed):
        with open(os.path.join(sys.argv[1], name), "w") as out:
            out.write("".join(text))
    assert len("".join(sheet.asked)) < 262144
