"""Rows of the reading of a geometry: every cut, mark, type, count and coordinate, and the lent runs."""

import math

from .chance import Chance
from .kerb_bytes import LINE, POINT
from .kerb_lines import line_read
from .kerb_samples import (LEAST_I32, MOST_I32, NOT_FINITE, big_endian, coordinates, float_bytes, halves, line_string, point, up,
                           word_bytes)

SOME_POINT = point(1.0, 2.0)
SOME_LINE = line_string([12.3456, -0.00015, -7.25, 0.00035, 1_499.99995, -14_999.5])
TWO = [3.5, -4.25, 100.0001, 7.0]
STALE = [MOST_I32, -5, LEAST_I32, 0, 77, 150_000_000, -1, 12]


def stale(length, turn=0):
    """A lent run of that length with anything in it."""
    return [STALE[(k + turn) % len(STALE)] for k in range(length)]


def read(data, xs=3, ys=3):
    return line_read(data, stale(xs), stale(ys, 3))


def cuts():
    """Every byte of a point and of a line cut off, the last one first missing."""
    return [read(data[:n], n % 4, 3) for data in (SOME_POINT, SOME_LINE) for n in range(len(data) + 1)]


def left_over():
    """Bytes behind a whole geometry: 12 at the first of them, though the runs be too short."""
    tails = [b"\0", b"\1", b"\xff", b"\0\0", b"\0" * 8, b"\0" * 16, SOME_POINT, SOME_LINE]
    rows = [read(data + tail) for tail in tails for data in (SOME_POINT, SOME_LINE)]
    rows += [read(line_string(TWO, 2) + tail, 1, 2) for tail in tails[:3]]
    return rows + [read(point(1.0, 2.0) + float_bytes(3.0), 0, 0), read(line_string(TWO + [1.0, 2.0], 2))]


def marks():
    """Mark 00, with the rest either way round; other marks."""
    wholes = [SOME_POINT, SOME_LINE, point(0.0, 0.0), point(-15_000.0, 15_000.0), line_string(TWO), point(0.00015, -2.5),
              line_string([0.0] * 4), line_string([1.0, 1.0, 1.0, 2.0, 5.0, 9.0]), point(9.0, 8.0), point(0.5, 0.25),
              line_string(TWO + TWO), point(1e-4, -1e-4)]
    rows = [read(big_endian(data), 4, 4) for data in wholes] + [read(b"\0" + data[1:]) for data in (SOME_POINT, SOME_LINE)]
    rows += [read(bytes([mark]) + SOME_POINT[1:]) for mark in (2, 3, 16, 17, 127, 128, 129, 254, 255)]
    return rows + [read(bytes([mark])) for mark in (0, 1, 2, 255)] + [read(bytes([mark]) + SOME_LINE[1:4]) for mark in (0, 1, 7)]


TYPES = [0, 3, 4, 5, 6, 7, 8, 15, 16, 17, 255, 257, 258, 1_000, 1_001, 1_002, 2_001, 2_002, 3_001, 3_002, 0x100, 0x200, 0x10001, 0x10002,
         0x1000000, 0x2000000, 0x20000001, 0x20000002, 0x40000001, 0x40000002, 0x80000001, 0x80000002, 0xC0000001, 0xE0000001,
         0xA0000001, 0xE0000002, 0xFFFFFFFF, 0x80000000]


def types():
    """Types that are neither 1 nor 2, with the bytes of a point or of a line behind them; heights and codes too."""
    rows = [read((point(1.0, 2.0, kind) if k % 2 else line_string(TWO, kind=kind))) for k, kind in enumerate(TYPES)]
    rows += [read(point(1.0, 2.0, kind) + float_bytes(3.0)) for kind in (1_001, 2_001, 0x80000001, 0x40000001)]
    rows += [read(b"\1" + word_bytes(0x20000000 + POINT) + word_bytes(4_326) + coordinates([1.0, 2.0]))]
    rows += [read(line_string([1.0, 2.0, 3.0, 4.0, 5.0, 6.0], 2, kind)) for kind in (1_002, 2_002, 0x80000002, 0x40000002)]
    return rows + [read(point(1.0, 2.0, LINE)), read(line_string(TWO, kind=POINT)), read(b"\1" + word_bytes(3)), read(b"\1\2\0\0\0")]


def counts():
    """A count that is not 2 to 500, whatever bytes are there; the largest and the least that pass."""
    wrong = [0, 1, 501, 502, 511, 512, 1_000, 65_535, 65_536, 65_538, 0x01000002, 0x02000000, 0x7FFFFFFF, 0x80000002, 0xFFFFFFFF]
    rows = [read(line_string(TWO, count)) for count in wrong + [3, 4, 499, 500]]
    rows += [read(line_string([], count)) for count in (0, 1, 2, 501, 0xFFFFFFFF)]
    rows += [read(line_string([0.5, k / 4], 501), 2 + k, 2) for k in range(7)] + [read(line_string([math.nan] * 2, 501)), read(line_string([], 501)[:9])]
    rows += [read(line_string([0.25 * k], count), k, 2) for k in range(8) for count in (0, 1, 500)[k % 2:]]
    rows += [read(line_string([0.5] * k, 0), 1, k) for k in (2, 5)]
    rows += [read(line_string([1.0, 2.0], 1)), read(line_string([1.0, 2.0] * 3, 2)), read(line_string([0.0] * 1_002), 1, 1)]
    return rows + [read(line_string([1.0] * 2 * n), n, n) for n in (2, 3, 5, 17)]


def zigzag(n):
    """Vertices in half metres, to and fro, up to the ends of the range."""
    return [value for k in range(n) for value in (k * 0.5 - 120.0, (k % 7) * 4.0 * (-1) ** k)]


def full_lines():
    """500 vertices: read, and into a run of 499; entries past them stay."""
    data = line_string(zigzag(500))
    return [line_read(data, [0] * 501, [-1] * 500), line_read(data, [0] * 500, [3] * 499), line_read(data, [0] * 499, [3] * 500),
            line_read(data[:-1], [9], [9]), line_read(line_string(zigzag(499) + [0.0, math.inf]), [9], [9])]


def not_finite():
    """13 at the coordinate: every position of a point and of a line."""
    rows = [read(point(bits, 2.0)) for bits in NOT_FINITE] + [read(point(1.0, bits)) for bits in NOT_FINITE]
    rows += [read(point(bits, bits)) for bits in NOT_FINITE[::4]]
    for k in range(6):
        for bits in NOT_FINITE[k % 3::3]:
            values = [1.0, 2.0, 3.0, 4.0, 5.0, 6.0]
            values[k] = bits
            rows.append(read(line_string(values)))
    return rows


FAR_METRES = [15_000.0, up(15_000.0), up(15_000.0, -1), up(15_000.0, 2), 15_000.00005, 15_000.0001, 15_001.0, 16_384.0, 65_536.0, 150_000_000.0,
              2_147_483_648.0, 1e16, 1.8e19, 1e300, 1.7976931348623157e308]


def far_out():
    """15,000 m and its neighbours; the largest floats; both signs, either coordinate."""
    rows = [read(point(sign * x, 0.0)) for x in FAR_METRES for sign in (1, -1)]
    rows += [read(point(0.5, sign * x)) for x in FAR_METRES[:7] for sign in (1, -1)]
    return rows + [read(line_string([0.0, 0.0, -15_000.0, 15_000.0, x, 1.0])) for x in FAR_METRES[:4]]


NEAR_ZERO = [0.0, 5e-324, 2.225073858507201e-308, 2.2250738585072014e-308, 1e-300, 1e-20, 1e-5, 4.9e-5, up(5e-5, -2), up(5e-5, -1), 5e-5,
             up(5e-5), up(5e-5, 2), 9.9999e-5, 1e-4, 1.4e-4]


def near_zero():
    """-0.0, floats below the normal ones, and about half a tick."""
    just_below = next(x for x in (5e-5, up(5e-5, -1), up(5e-5, -2)) if x * 10_000 == up(0.5, -1))  # adding a half to its product gives 1 in floats
    rows = [read(point(sign * just_below, y)) for sign in (1, -1) for y in (0.0, 1.5, -2.25, -just_below, 0.00035, -15_000.0)]
    return rows + [read(point(x, -x)) for x in NEAR_ZERO] + [read(point(-x, 1.0)) for x in NEAR_ZERO[::2]]


EXACT, FROM_BELOW, FROM_ABOVE, BELOW, ABOVE = (0, 0), (-1, 0), (1, 0), (-1, -1), (1, 1)


def exact_halves():
    """Odd numbers of 32nds of a metre: the product is exact, and a half."""
    return [read(line_string([odd / 32, -odd / 32, -(odd + 2) / 32, (odd + 4) / 32])) for odd in (1, 7, 33, 101, 4_097, 99_999, 479_993)] \
        + [read(point(sign * odd / 32, -sign * (odd + 2) / 32)) for odd in (3, 5, 9, 479_997) for sign in (1, -1)]


def by_rounding(how, seed, rows):
    """Points both of whose coordinates have a product rounded that way, of both signs."""
    found = halves(how, Chance(seed), 2 * rows)
    return [read(point(x * (-1) ** (k % 3), -y)) for k, (x, y) in enumerate(zip(found[::2], found[1::2]))]


def rounded_up_to_halves():
    """The exact product is below a half and the rounded one is the half: up."""
    return by_rounding(FROM_BELOW, 41, 24)


def rounded_down_to_halves():
    return by_rounding(FROM_ABOVE, 42, 14)


def beside_halves():
    return by_rounding(BELOW, 43, 14) + by_rounding(ABOVE, 44, 10)


def in_order():
    """Two faults at once: the earlier field's is answered, and left over and too short runs come last."""
    nan, far = math.nan, 15_001.0
    rows = [read(data) for data in (
        point(nan, 2.0)[:20], point(nan, 2.0)[:13], point(nan, 2.0)[:12], point(1.0, nan)[:20], point(nan, 2.0) + b"\0", point(1.0, far) + b"\0\0",
        point(nan, far), point(far, nan), point(nan, nan, 3), point(nan, 1.0, 0x80000001), point(nan, 1.0, POINT, 0), point(1.0, 2.0, 3, 0),
        point(1.0, 2.0, 3)[:4], line_string([nan, 1.0], 1), line_string([nan, 1.0], 501), line_string([nan, 1.0], 3), line_string([1.0, nan], 3),
        line_string([1.0, 2.0, nan], 3), line_string([1.0, 2.0, 3.0, far, nan, 1.0]), line_string([1.0, 2.0, 3.0, 4.0, 5.0], 3),
        line_string([1.0, 2.0, 3.0, 4.0, far], 3), line_string(TWO + [nan, nan], 2), line_string([1.0, far, 3.0, 4.0, nan, nan], 2),
        line_string([nan] * 4, 0), line_string([nan] * 4, kind=7), line_string([nan] * 4, kind=7, mark=0), line_string(TWO, 501, mark=0))]
    rows += [read(line_string([far if n % 2 else nan] + [1.0] * n, 4)[:-n]) for n in range(1, 8)] + [read(point(far, -far) + b"\1" * n, n) for n in (1, 4, 8)]
    rows += [read(line_string(TWO) + b"\0" * (n + 1), n % 2, n // 2) for n in range(4)] + [read(SOME_POINT + b"\1" * n, 0, n) for n in (1, 2, 3)]
    rows += [read(data, 0, 0) for data in (point(nan, 2.0), point(1.0, 2.0) + b"\0", point(1.0, 2.0)[:20], point(1.0, 2.0, 4), b"", b"\0", SOME_POINT,
                                           line_string(TWO, 501), line_string([1.0, 2.0, far, 1.0]), line_string(TWO) + b"\1", line_string(TWO))]
    return rows


def lent():
    """Runs as long as the vertices, one too short in either, both, and longer: what stands past them stays."""
    rows = []
    for data, n in ((SOME_POINT, 1), (line_string(TWO), 2), (SOME_LINE, 3), (line_string(zigzag(8)), 8)):
        for xs, ys in ((n, n), (n - 1, n), (n, n - 1), (n - 1, n - 1), (n + 1, n), (n, n + 3), (n + 2, n + 2), (0, n), (n + 4, 0), (n + 1, n - 1)):
            rows.append(read(data, xs, ys))
    return rows


def some_metres(chance):
    """A coordinate as surveys have them: whole millimetres, tenths of them, or any float."""
    size = chance.pick([1, 100, 15_000])
    whole = chance.between(-size * 10_000, size * 10_000)
    return chance.pick([whole // 10 / 1_000, whole / 10_000, whole / 10_000 + 0.00005, whole * 0.9999999 / 10_000, size * (chance.word() / (1 << 64))])


def by_chance():
    chance, rows = Chance(4), []
    for turn in range(44):
        n = chance.pick([1, 2, 2, 3, 5])
        values = [some_metres(chance) for _ in range(2 * n)]
        rows.append(read(point(*values) if n == 1 else line_string(values), n + turn % 2, n + turn % 3))
    return rows


READ_GROUPS = [
    ("every byte cut off", cuts),
    ("bytes left over", left_over),
    ("byte-order marks", marks),
    ("types", types),
    ("counts", counts),
    ("500 vertices", full_lines),
    ("coordinates that are not finite", not_finite),
    ("15,000 m and beyond", far_out),
    ("about nought and half a tick", near_zero),
    ("halves of a tick, exact", exact_halves),
    ("halves of a tick, rounded up to", rounded_up_to_halves),
    ("halves of a tick, rounded down to", rounded_down_to_halves),
    ("just beside a half of a tick", beside_halves),
    ("two faults at once", in_order),
    ("lent runs", lent),
    ("geometries by chance", by_chance),
]
