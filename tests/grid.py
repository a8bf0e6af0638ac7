"""Document 01's points, turns and estimates, these rounded as in document 02 and in the unit of request e, on fractions and unbounded whole numbers, for the
scripts beside it. Nothing here is the library's: points are tuples of fractions in a sorted list, parents are found by adding a step to a coordinate, tables
are dictionaries. With `border` said, tables with border values as request g has them: coordinates 0 and 1 are points too."""
from decimal import ROUND_HALF_UP, Context, Inexact
from fractions import Fraction
from functools import lru_cache
from math import prod

LIMIT = 2 ** 47
LEAST, MOST = -2 ** 31, 2 ** 31 - 1
MOST_POINTS = 32768  # of a table of either sort, as request h has it
UNIT = 2 ** 20  # of coordinates and weights
OLD_UNIT = 2 ** 16  # the same before request e


# ---- points

def vectors(d, left):
    if d == 0:
        yield ()
        return
    for l in range(left + 1):
        for rest in vectors(d - 1, left - l):
            yield (l,) + rest


def position(levels, indices):
    place, width = 0, 1
    for l, i in zip(levels, indices):
        place += (i - 1) // 2 * width
        width *= 2 ** l
    return place


def key(levels):
    """Level lists in their order: the sum, then from the last axis down."""
    return sum(levels), tuple(reversed(levels))


def level(c):
    return c.denominator.bit_length() - 2


def mark(c):
    return {0: 1, 1: 2}.get(c, 0)


def places(d, left, border):
    """All coordinates whose levels sum to at most that, border axes counting as 0."""
    if d == 0:
        yield ()
        return
    for c in [Fraction(0), Fraction(1)] if border else []:
        for rest in places(d - 1, left, border):
            yield (c, *rest)
    for l in range(left + 1):
        for rest in places(d - 1, left - l, border):
            for i in range(1, 2 ** (l + 1), 2):
                yield (Fraction(i, 2 ** (l + 1)), *rest)


def order(at):
    """What points are sorted by: how many border axes, marks from the last axis, and over the inner axes document 01's order."""
    marks, inner = [mark(c) for c in reversed(at)], [c for c in at if 0 < c < 1]
    levels = [level(c) for c in inner]
    return len(at) - len(inner), marks, *key(levels), position(levels, [c.numerator for c in inner])


@lru_cache(None)
def points(d, n, border=False):
    """All points in the order of their numbers."""
    return sorted(places(d, n, border), key=order)


def choose(n, k):
    c = 1
    for i in range(k):
        c = c * (n - i) // (i + 1)
    return c


def size(d, n, border=False):
    """N of any shape, also of one that is too large; with border values the sum over its faces, by how many inner axes they have."""
    if border:
        return sum(choose(d, k) * 2 ** (d - k) * (size(k, n) if k else 1) for k in range(d + 1))
    return sum(2 ** j * choose(d - 1 + j, j) for j in range(n + 1))


def too_large(d, n, border=False):
    """Request h, of d and n that are in range: a table of more points is refused with 19."""
    return size(d, n, border) > MOST_POINTS


# ---- turns

@lru_cache(None)
def beside(d, n, t, border=False):
    """The neighbours of each point on an axis that are points: of a border point of the axis none."""
    out = {}
    for at in points(d, n, border):
        step = Fraction(1, at[t].denominator)
        near = [at[t] - step, at[t] + step] if 0 < at[t] < 1 else []
        out[at] = [at[:t] + (c,) + at[t + 1:] for c in near if border or 0 < c < 1]
    return out


def half_sums(d, n, table, t, border):
    return {at: sum((table[b] for b in near), Fraction(0)) / 2 for at, near in beside(d, n, t, border).items()}


def within(values):
    return all(v.denominator == 1 and -LIMIT <= v <= LIMIT for v in values)


def forward(d, n, values, t, border=False):
    """The table after an accepted forward turn, else None."""
    table = {at: Fraction(v) for at, v in zip(points(d, n, border), values)}
    halves = half_sums(d, n, table, t, border)
    after = {at: table[at] - halves[at] for at in table}
    fine = within(table.values()) and within(after.values()) and all(h.denominator == 1 for h in halves.values())
    return [int(after[at]) for at in points(d, n, border)] if fine else None


def solved(d, n, values, t, border=False):
    """The one table over the fractions that the rule of the forward turn takes to this one."""
    table, near, former = dict(zip(points(d, n, border), values)), beside(d, n, t, border), {}

    def at_(at):
        if at not in former:
            former[at] = table[at] + sum((at_(b) for b in near[at]), Fraction(0)) / 2
        return former[at]

    return [Fraction(at_(at)) for at in points(d, n, border)]


def back(d, n, values, t, border=False):
    """The table that an accepted forward turn takes to this one, else None."""
    found = solved(d, n, values, t, border)
    return [int(v) for v in found] if within(found) and forward(d, n, found, t, border) == list(values) else None


def table_of_set(d, n, rates, axes, border=False):
    table = [r * 2 ** d for r in rates]
    for t in sorted(axes):
        table = forward(d, n, table, t - 1, border)
    return table


def rates_of(d, n, coefficients, border=False):
    """The accepted rates that have these coefficients, or None: over the fractions there is one table, so nothing else can be."""
    table = coefficients
    for t in range(d):
        table = solved(d, n, table, t, border)
    found = [v / 2 ** d for v in table]
    if not all(r.denominator == 1 and LEAST <= r <= MOST for r in found):
        return None
    found = [int(r) for r in found]
    assert table_of_set(d, n, found, range(1, d + 1), border) == list(coefficients)
    return found


# ---- estimates

def axis_weight(c, x, unit):
    """Of a point at this coordinate; of the lower border what is left to 1, of the upper what is left to 0."""
    return {0: unit - x, 1: x}[c] if mark(c) else max(0, unit - abs(x * c.denominator - c.numerator * unit))


def joint(point, at, unit=UNIT):
    weight = unit
    for c, x in zip(point, at):
        weight = weight * axis_weight(c, x, unit) // unit
        if weight == 0:
            break
    return weight


def product_of(point, at):
    """The product of the weights on the axes, none of them rounded: above zero only where each is."""
    return prod(axis_weight(c, x, UNIT) for c, x in zip(point, at))


def margin(d, n, table, at, border=False):
    """The exact value of the surface, the sum of the coefficients reached, without their signs, and how far an estimate can be off: the first and the last are
    fractions."""
    products = [product_of(p, at) for p in points(d, n, border)]
    total = sum(abs(c) for c, w in zip(table, products) if w > 0)
    return Fraction(sum(c * w for c, w in zip(table, products)), UNIT ** d), total, Fraction(1, 2) + Fraction((d - 1) * total, UNIT)


EXACT = Context(prec=99, traps=[Inexact])


def nearest(total, unit):
    """The total in units, as a decimal number with all its places: to the nearest whole number, halves away from zero, is what they call half up."""
    return int(EXACT.divide(total, unit).to_integral_value(ROUND_HALF_UP))


def estimate(d, n, table, at, unit=UNIT, border=False):
    """The sum over all points, to the nearest unit."""
    return nearest(sum(c * joint(p, at, unit) for p, c in zip(points(d, n, border), table)), unit)
