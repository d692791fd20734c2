"""Checks of the oracle itself: touching and rounding, each against a second exact method of its own."""

import math
from fractions import Fraction
from itertools import product

from .chance import Chance
from .kerb_bytes import rounded, ticks_of, value_of
from .kerb_samples import float_bytes, near_half
from .kerb_touch import touches
from .plane import minus, plus, times


def cross(a, b):
    return a[0] * b[1] - a[1] * b[0]


def on_segment(p, a, b):
    """Whether p = a + t (b - a) for some t from 0 to 1."""
    way, off = minus(b, a), minus(p, a)
    if way == (0, 0):
        return off == (0, 0)
    axis = 0 if way[0] else 1
    t = Fraction(off[axis], way[axis])
    return 0 <= t <= 1 and (t * way[0], t * way[1]) == off


def meet_by_solving(move, segment):
    """The place where the two lines meet, by fractions of both ways; ways that are parallel or none meet at an end if at all."""
    (a, b), (c, d) = move, segment
    r, s = minus(b, a), minus(d, c)
    whole = cross(r, s)
    if whole:
        off = minus(c, a)
        return 0 <= Fraction(cross(off, s), whole) <= 1 and 0 <= Fraction(cross(off, r), whole) <= 1
    return on_segment(a, c, d) or on_segment(b, c, d) or on_segment(c, a, b) or on_segment(d, a, b)


def meet_by_trying(move, segment):
    """Every place of the move where two such segments can meet, one by one: n is the lines' determinant, and n-th parts of the move suffice."""
    (a, b), (c, d) = move, segment
    n = abs(cross(minus(b, a), minus(d, c))) or math.gcd(*minus(b, a)) or 1  # parallel: only whole places matter
    places = [plus(times(n, a), times(i, minus(b, a))) for i in range(n + 1)]
    return any(on_segment(place, times(n, c), times(n, d)) for place in places)


def on_a_grid(size):
    """All pairs of segments with ends on a square of so many places by so many."""
    places = list(product(range(size), repeat=2))
    for a, b, c, d in product(places, repeat=4):
        yield (a, b), (c, d)


def far_pairs(chance, pairs):
    """Segments as long as the whole range, and short ones that end on them or a tick beside."""
    for _ in range(pairs):
        a = (chance.between(-150_000_000, 150_000_000), chance.between(-150_000_000, 150_000_000))
        parts, way = chance.between(1, 9), (chance.between(-20_000_000, 20_000_000), chance.between(-20_000_000, 20_000_000))
        near = plus(plus(a, times(chance.below(parts + 1), way)), (chance.between(-1, 1), chance.between(-1, 1)))
        end = plus(near, chance.pick([(0, 0), way, times(-1, way), (way[1], -way[0]), (chance.between(-3, 3), chance.between(-3, 3))]))
        yield (near, end), (a, plus(a, times(parts, way)))


def ways_agree(pairs, method):
    """How many pairs touch, and how many were looked at; None in place of the first where the methods disagree."""
    found = looked = 0
    for move, segment in pairs:
        answer = touches(move, segment)
        if answer != method(move, segment) or answer != touches(segment, move) or answer != touches(move[::-1], segment):
            return None, looked
        found, looked = found + answer, looked + 1
    return found, looked


def floats_to_try(chance):
    values = [0.0, 5e-324, 2.225073858507201e-308, 2.2250738585072014e-308, 15_000.0, 1.0, 1 / 3]
    values += [x for _ in range(4_000) for x in near_half(chance.below(chance.pick([50, 5_000, 150_000_000])))]
    values += [15_000 * chance.word() / (1 << 64) for _ in range(4_000)]
    return values + [-x for x in values] + [math.ldexp(chance.word(), -1_100 + chance.below(1_000)) for _ in range(2_000)]


def same_ticks(x):
    """Our rounding by bits against Python's own floats: the product is the same, and the tick nearest to it."""
    product, value = x * 10_000.0, value_of(int.from_bytes(float_bytes(x), "little"))
    size = math.floor(Fraction(abs(product)) + Fraction(1, 2))
    return value == Fraction(x) and rounded(value * 10_000) == Fraction(product) and ticks_of(value) == int(math.copysign(size, product))


def check_kerbs():
    """Prints each check; answers whether all hold."""
    grid = ways_agree(on_a_grid(4), meet_by_solving)
    tried = ways_agree(on_a_grid(4), meet_by_trying)
    far = ways_agree(far_pairs(Chance(150), 20_000), meet_by_solving)
    for name, (found, looked) in (("4 x 4 places, solved", grid), ("4 x 4 places, tried", tried), ("far and long, solved", far)):
        print("%-22s %6d pairs, %s touch" % (name, looked, "DISAGREE" if found is None else found))
    values = floats_to_try(Chance(15))
    wrong = sum(not same_ticks(x) for x in values)
    print("%-22s %6d floats, %d differ" % ("ticks both ways", len(values), wrong))
    return wrong == 0 and None not in (grid[0], tried[0], far[0])
