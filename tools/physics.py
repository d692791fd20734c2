#!/usr/bin/env python3
"""Writes the table of circle_trials: what geometry says of slow turning, worked out apart from the method, in 60 decimal digits.

Circle: on a path of radius R the rear axle of a unit of wheelbase L runs at sqrt(R^2 - L^2) from its centre; a hitch that lies h ahead of or behind an
axle at R1 runs at sqrt(R1^2 + h^2), and the next unit's axle at sqrt(R1^2 + h^2 - L2^2).
Straight: on a circle the first unit stands at an angle to the path whose sine is L / R; over x of straight after it the tangent of half that angle falls
by e^(-x / L).

A line is 1, a job, the first station measured, ' = ', the centre and the radius of the last unit's axle; or 2, a job of one unit, the station where the
straight starts, ' = ', five thousandths of the sine times L, which is less than of the angle, and the unit's vector at each station from there on.
All in ticks; jobs as in call_trials.
"""
import pathlib
import sys
from decimal import ROUND_HALF_UP, Decimal, getcontext

sys.dont_write_bytecode = True  # keeps the repository free of compiled files

TABLE = pathlib.Path(__file__).resolve().parent.parent / "crates" / "circle_trials" / "data" / "table.txt"
STRAIGHT, LEFT, RIGHT = 0, 1, 2
PI = Decimal("3.14159265358979323846264338327950288419716939937510582097494")
WIDTHS = [15_000, 12_500, 12_500]
NORTH, EAST, SLANTED = (0, 1_000_000), (1_000_000, 0), (-600_000, 800_000)

# wheelbases with hitches ahead of the axle; path radius, side, step, start heading
TRACTOR_TRAILER = ([(43_000, 1_800), (69_300, 0)], 100_000, RIGHT, 5_000, EAST)
TRUCK_DOLLY_TRAILER = ([(60_000, -15_000), (30_000, 0), (55_000, 0)], 125_000, LEFT, 5_000, NORTH)
LOW_LOADER = ([(36_000, 6_000), (95_000, 0)], 150_000, LEFT, 5_000, SLANTED)

# wheelbase, radius, side, step (at most a quarter of the wheelbase), start heading
BENDS = [
    (43_000, 100_000, RIGHT, 5_000, EAST),
    (43_000, 100_000, LEFT, 10_750, EAST),
    (60_000, 125_000, LEFT, 15_000, NORTH),
    (36_000, 75_000, RIGHT, 9_000, SLANTED),
    (80_000, 200_000, RIGHT, 20_000, NORTH),
]


def whole(value):
    return int(value.to_integral_value(ROUND_HALF_UP))


def job_figures(units, start, step, elements):
    """A short job's numbers; bodies and unused units are zero, and a coupling may fold freely."""
    figures = [0, len(units)]
    for u in range(4):
        wheelbase, hitch = units[u] if u < len(units) else (0, 0)
        figures += [wheelbase, hitch, -1_000 if 0 < u < len(units) else 0, 0, 0, 0]
    figures += WIDTHS + [0, 0, *start, step, len(elements), len(elements)]
    return figures + [value for element in elements for value in element]


def line(figures, expected):
    return " ".join(map(str, figures)) + " = " + " ".join(map(str, expected))


def axle_radius(units, radius):
    """The radius of the last unit's rear axle."""
    square = Decimal(radius) ** 2
    for wheelbase, hitch in units[:-1]:
        square += hitch ** 2 - wheelbase ** 2
    return (square - units[-1][0] ** 2).sqrt()


def centre(start, side, radius):
    """To the right of the origin or to its left, by the radius."""
    gx, gy = start
    sign = radius if side == RIGHT else -radius
    return [gy * sign // 1_000_000, -gx * sign // 1_000_000]


def steps_of_turns(turns, radius, step):
    """The steps that make so many turns, rounded up."""
    return int(2 * PI * radius * Decimal(turns) / step) + 1


def circle_lines(units, radius, side, step, start):
    """One line for each unit of the rig: two and a half turns, measured after one and a half."""
    element = (steps_of_turns("2.5", radius, step) * step, side, radius)
    first = steps_of_turns("1.5", radius, step)
    for u in range(len(units)):
        rig = units[:u] + [(units[u][0], 0)]
        expected = centre(start, side, radius) + [whole(axle_radius(rig, radius))]
        yield line([1] + job_figures(rig, start, step, [element]) + [first], expected)


def turned_left(g, cosine, sine):
    return (g[0] * cosine - g[1] * sine, g[0] * sine + g[1] * cosine)


def heading_after(steps, start, side, radius, step):
    """Each step turns by twice the angle whose tangent is step / (2 radius)."""
    g, below = (Decimal(start[0]) / 1_000_000, Decimal(start[1]) / 1_000_000), Decimal(4 * radius ** 2 + step ** 2)
    cosine, sine = (4 * radius ** 2 - step ** 2) / below, 4 * radius * step / below
    for _ in range(steps):
        g = turned_left(g, cosine, sine if side == LEFT else -sine)
    return g


def straight_line(wheelbase, radius, side, step, start):
    """A bend of one and a half turns, and then six wheelbases of straight."""
    steps, count = steps_of_turns("1.5", radius, step), 6 * wheelbase // step
    elements = [(steps * step, side, radius), (count * step, STRAIGHT, 0)]
    sine = Decimal(wheelbase) / radius
    half_tangent = sine / (1 + (1 - sine ** 2).sqrt())
    g, vectors = heading_after(steps, start, side, radius, step), []
    for k in range(count + 1):
        t = half_tangent * (-Decimal(k * step) / wheelbase).exp()
        away = 2 * t / (1 + t ** 2)  # a unit lags behind the path's turn: it stands to the left of a right turn
        d = turned_left(g, (1 - t ** 2) / (1 + t ** 2), away if side == RIGHT else -away)
        vectors += [whole(wheelbase * d[0]), whole(wheelbase * d[1])]
    return line([2] + job_figures([(wheelbase, 0)], start, step, elements) + [steps], [5 * wheelbase ** 2 // (1_000 * radius)] + vectors)


def main():
    getcontext().prec = 60
    lines = [row for rig in (TRACTOR_TRAILER, TRUCK_DOLLY_TRAILER, LOW_LOADER) for row in circle_lines(*rig)]
    lines += [straight_line(*bend) for bend in BENDS]
    TABLE.write_text("".join(row + "\n" for row in lines), encoding="ascii", newline="\n")


if __name__ == "__main__":
    main()
