"""Calls of the path turn and of the single unit's turn: worked, random and hostile."""

from math import isqrt

from .calls import line_path_turn, line_unit_turn
from .plane import N
from .rigs import HEADINGS_INSIDE, HEADINGS_OUTSIDE, some_heading

FAR = 1 << 63
FAR_VECTORS = [(-FAR, 0), (FAR - 1, FAR - 1), (0, -FAR), (3_037_000_500, 3_037_000_500), (1 << 32, 1_000_000)]


def squares(total):
    """Whole numbers x <= y with x^2 + y^2 = total, or None."""
    for x in range(isqrt(total // 2) + 1):
        y = isqrt(total - x * x)
        if x * x + y * y == total:
            return x, y
    return None


def first_squares(total, direction):
    """The first sum of two squares from `total` on, upwards or downwards."""
    while squares(total) is None:
        total += direction
    return squares(total)


def edge(wheelbase, sign):
    """The last sound vector and the first unsound one where |d|^2 leaves L^2 by 2L, above (1) or below (-1)."""
    end = wheelbase ** 2 + sign * 2 * wheelbase
    return first_squares(end, -sign), first_squares(end + sign, sign)


def lengths_at_the_edge():
    """Above: off by just 2L and by 2L + 1 for 5,000 and 50,018. Below: by just 2L for 5,002, by 2L + 1 for 5,007."""
    ends = [(5_000, 1), (50_018, 1), (200_000, 1), (5_002, -1), (5_007, -1), (200_000, -1)]
    return [(wheelbase, edge(wheelbase, sign)) for wheelbase, sign in ends]


def path_turns(chance):
    north = (0, N)
    lines = [line_path_turn(north, 20_000, 20_000), line_path_turn(north, 20_000, -20_000)]
    lines += [line_path_turn(g, s, 150_000) for g in HEADINGS_INSIDE for s in (1, 20_000)]
    lines += [line_path_turn(g, 500, 0) for g in HEADINGS_OUTSIDE + FAR_VECTORS]
    lines += [line_path_turn(north, s, -20_000) for s in (0, 1, 20_000, 20_001, 4_294_967_295)]
    radii = [0, 1, -1, 19_999, -19_999, 1_000_000, -1_000_000, 1_000_001, -1_000_001, -(1 << 31), (1 << 31) - 1]
    lines += [line_path_turn((600_000, -800_000), 19_999, r) for r in radii]
    lines += [line_path_turn((0, FAR - 1), 0, 5), line_path_turn((0, 0), 0, 0), line_path_turn((N, 0), 20_001, 7)]
    lines += [line_path_turn((-FAR, -FAR), 100, -(1 << 31)), line_path_turn((N + 1, 0), 100, 19_999)]
    for _ in range(14):
        r = chance.pick([-1, 1]) * chance.between(20_000, 1_000_000)
        lines.append(line_path_turn(some_heading(chance), chance.between(1, 20_000), r))
    return lines


def some_vector(chance, length):
    """A vector of about that length in any direction."""
    gx, gy = some_heading(chance)
    return gx * length // N, gy * length // N


def edge_turns():
    lines = []
    for wheelbase, vectors in lengths_at_the_edge():
        for x, y in vectors:
            lines.append(line_unit_turn((-x, y), (1_000, -2_000), wheelbase))
            lines.append(line_unit_turn((y, -x), (0, wheelbase + 1), wheelbase))
    return lines


def unit_turns(chance):
    d = (0, 50_000)
    lines = [line_unit_turn(d, f, 50_000) for f in [(30_000, -10_000), (0, 5_000), (0, 0), (0, -50_000)]]
    moves = [(0, 50_001), (50_000, 1), (-50_000, 0), (30_000, -40_000), (30_001, 40_000)] + FAR_VECTORS
    lines += [line_unit_turn(d, f, 50_000) for f in moves]
    lines += [line_unit_turn((length, 0), (1, 1), length) for length in (0, 4_999, 5_000, 200_000, 200_001)]
    lines += [line_unit_turn(far, (0, 0), 200_000) for far in FAR_VECTORS]
    lines += [line_unit_turn((-FAR, -FAR), (-FAR, FAR - 1), 4_294_967_295), line_unit_turn((0, 0), (0, 60_000), 50_000)]
    for _ in range(14):
        wheelbase = chance.between(5_000, 200_000)
        move = some_vector(chance, chance.between(0, wheelbase))
        lines.append(line_unit_turn(some_vector(chance, wheelbase), move, wheelbase))
    return lines + edge_turns()
