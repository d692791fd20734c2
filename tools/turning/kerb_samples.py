"""Bytes of geometries, right and wrong, and coordinates in metres for a purpose."""

import math
import struct
from fractions import Fraction

from .kerb_bytes import LINE, POINT, rounded

LEAST_I32, MOST_I32 = -(1 << 31), (1 << 31) - 1
NOT_FINITE = [0x7FF8000000000000, 0xFFF8000000000000, 0x7FF0000000000001, 0xFFF0000000000001, 0x7FF4000000000000, 0x7FFFFFFFFFFFFFFF,
              0xFFFFFFFFFFFFFFFF, 0x7FF80000DEADBEEF, 0xFFF7FFFFFFFFFFFF, 0x7FF0000000000000, 0xFFF0000000000000]


def float_bytes(value):
    """Eight bytes of a float, or of the bits of one given as a whole number."""
    return value.to_bytes(8, "little") if isinstance(value, int) else struct.pack("<d", value)


def word_bytes(value):
    return value.to_bytes(4, "little")


def coordinates(values):
    return b"".join(map(float_bytes, values))


def point(x, y, kind=POINT, mark=1):
    return bytes([mark]) + word_bytes(kind) + coordinates([x, y])


def line_string(values, count=None, kind=LINE, mark=1):
    """A line of coordinates x, y, x, y and so on; the count may be another than theirs."""
    given = len(values) // 2 if count is None else count
    return bytes([mark]) + word_bytes(kind) + word_bytes(given) + coordinates(values)


def big_endian(data):
    """The same geometry with its high bytes first and mark 00."""
    is_line = data[1:5] == word_bytes(LINE)
    sizes = [1, 4] + ([4] if is_line else []) + [8] * ((len(data) - (9 if is_line else 5)) // 8)
    parts, at = [], 0
    for size in sizes:
        parts.append(data[at:at + size][::-1])
        at += size
    return b"\0" + b"".join(parts)[1:]


def up(value, ulps=1):
    """The float so many places away from zero, or towards it."""
    for _ in range(abs(ulps)):
        value = math.nextafter(value, math.copysign(math.inf, value) if ulps > 0 else 0.0)
    return value


# Halves of a tick.

def near_half(k):
    """Floats about k + 1/2 ticks: the nearest and two on each side of it."""
    middle = (2 * k + 1) / 20_000
    return [up(middle, ulps) for ulps in (-2, -1, 0, 1, 2)]


def how_rounded(x, k):
    """Where the exact product lies against k + 1/2, and where the rounded one does: each -1, 0 or 1."""
    exact = Fraction(x) * 10_000
    half = Fraction(2 * k + 1, 2)
    return tuple((p > half) - (p < half) for p in (exact, rounded(exact)))


def halves(how, chance, wanted, most=150_000_000):
    """Floats whose product is rounded in that way, some small and some large."""
    found = []
    while len(found) < wanted:
        k = chance.below(chance.pick([20, 1_000, 100_000, most - 1]))
        found += [x for x in near_half(k) if how_rounded(x, k) == how][:1]
    return found
