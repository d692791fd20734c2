"""Jobs by value: rigs and paths, drawn by chance or made for a purpose."""

from math import isqrt

from .plane import N
from .record import LEFT, RIGHT, STRAIGHT, Start
from .worked import make_job

# No sum of two squares is exactly N^2 + 2N or N^2 - 2N; these are the last inside and the first outside.
HEADINGS_INSIDE = [(58_507, 998_288), (-780_203, 625_528), (0, 999_999), (-945_945, -324_324), (1_000_000, 1_414)]
HEADINGS_OUTSIDE = [(0, 1_000_001), (-2_000, 999_999), (5_099, 999_986), (-782_834, -622_229), (1_000_000, 1_415)]


def some_heading(chance):
    """A heading whose length is as near N as whole numbers allow."""
    gx = chance.between(-N, N)
    gy = isqrt(N * N - gx * gx)
    return (gx, gy) if chance.one_in(2) else (gx, -gy)


def some_start(chance):
    size = 100_000_000 if chance.one_in(4) else 500_000
    return Start(chance.between(-size, size), chance.between(-size, size), *some_heading(chance))


def some_units(chance, count, shortest=20_000):
    units = []
    for u in range(count):
        wheelbase = chance.between(shortest, 120_000)
        hitch = chance.between(-wheelbase // 5, wheelbase // 5)
        fold = chance.pick([-1_000, -500, 0, 300])
        units.append((wheelbase, 0 if u == count - 1 else hitch, 0 if u == 0 else fold))
    return units


def some_widths(chance):
    return (chance.between(0, 20_000), chance.between(5_000, 16_000), chance.between(5_000, 16_000))


def some_element(chance, steps, step):
    """An element of that many steps, the last one often shorter."""
    length = steps * step - (0 if chance.one_in(3) else chance.below(step))
    kind = chance.pick([STRAIGHT, LEFT, RIGHT])
    return (length, kind, 0 if kind == STRAIGHT else chance.between(90_000, 400_000))


def some_elements(chance, total, step, count):
    """Elements that come to `total` steps."""
    elements, left = [], total
    for others in range(count - 1, -1, -1):
        most = max(1, 2 * left // (others + 1))
        steps = left if others == 0 else min(chance.between(1, most), left - others)
        elements.append(some_element(chance, steps, step))
        left -= steps
    return elements


def some_job(chance, steps, units=None, elements=None):
    count = units or chance.between(1, 4)
    step = chance.between(500, 8_000)
    places = min(elements or chance.between(1, 6), steps)
    made = some_elements(chance, steps, step, places)
    return make_job(some_units(chance, count), made, step, some_start(chance), some_widths(chance))


def bend(kind, radius, length, step, units, lead=30_000):
    """A straight, a bend and a straight, due north from the origin."""
    elements = [(lead, STRAIGHT, 0), (length, kind, radius), (lead, STRAIGHT, 0)]
    return make_job(units, elements, step, widths=(12_000, 12_500, 12_750))


FOUR_UNITS = [(40_000, -6_000, 0), (70_000, 9_000, -500), (30_000, -30_000, -1_000), (90_000, 0, -200)]
FOUR_HITCHED_AHEAD = [(40_000, 40_000, 0), (70_000, 3_000, -900), (30_000, 1, -1_000), (90_000, 0, -1_000)]


def bends():
    """Four-unit rigs and others round bends both ways, hitches ahead of and behind the axle."""
    jobs = []
    for kind in (LEFT, RIGHT):
        for units in (FOUR_UNITS, FOUR_HITCHED_AHEAD, FOUR_UNITS[:1], FOUR_UNITS[:2] + [(60_000, 0, 100)]):
            rig = units[:-1] + [(units[-1][0], 0, units[-1][2])]
            jobs.append(bend(kind, 120_000, 190_000, 4_000, rig))
            jobs.append(bend(kind, 250_000, 500_000, 7_777, rig, 140_000))
    return jobs


def moved_too_far():
    """22 at each unit, on the first step and later: one wheelbase is shorter than the step."""
    jobs = []
    for u in range(4):
        units = [(100_000, 1_000, 0)] + [(100_000, -1_000, -1_000)] * 3
        units[3] = (100_000, 0, -1_000)
        units[u] = (9_000,) + units[u][1:]
        jobs.append(make_job(units, [(50_000, STRAIGHT, 0)], 9_001))
        jobs.append(make_job(units, [(45_000, STRAIGHT, 0)], 9_000))
        jobs.append(make_job(units, [(8_000, STRAIGHT, 0), (8_999, LEFT, 200_000), (40_000, RIGHT, 90_000)], 9_500))
    return jobs


def folded_too_far():
    """23 at units 2 to 4: one coupling may hardly fold, the others freely."""
    jobs = []
    for u in (1, 2, 3):
        for kind in (LEFT, RIGHT):
            units = [(35_000, 2_000, 0)] + [(60_000, -2_000, -1_000)] * 2 + [(80_000, 0, -1_000)]
            units[u] = units[u][:2] + (985,)
            jobs.append(bend(kind, 100_000, 200_000, 3_000, units, 9_000))
            jobs.append(bend(kind, 60_000, 150_000, 5_000, units[:u] + [(60_000, 0, 0)], 9_000))
    return jobs


def tight_circle(units, kind, step, length):
    """Round and round on a small circle until a coupling folds or the path ends."""
    return make_job(units, [(length, kind, 40_000)], step, widths=(50_000, 20_000, 1_000))


def extremes():
    """Both ends of wheelbase, radius, step, hitch and half width met in one rig, on some thirty steps."""
    jobs = []
    for wheelbase in (20_000, 200_000):
        for radius in (20_000, 1_000_000):
            for step in (100, 20_000):
                units = [(wheelbase, wheelbase, 0), (wheelbase, -wheelbase, -1_000), (wheelbase, 0, -1_000)]
                elements = [(10 * step + 1, LEFT, radius), (7 * step - 1, STRAIGHT, 0), (12 * step, RIGHT, radius)]
                jobs.append(make_job(units[:1] + units[2:], elements, step, widths=(50_000, 1_000, 20_000)))
                jobs.append(make_job([(wheelbase, -wheelbase, 0)] + units[1:], elements, step))
    return jobs


def far_out():
    """From the ends of the start's range outwards, and along each axis."""
    units, jobs = [(50_000, -20_000, 0), (70_000, 0, 900)], []
    for sign in (-1, 1):
        for gx, gy in ((N, 0), (0, N), (600_000, 800_000)):
            start = Start(sign * 100_000_000, sign * 100_000_000, sign * gx, sign * gy)
            elements = [(1_500_000, STRAIGHT, 0), (100_000, LEFT, 1_000_000)]
            jobs.append(make_job(units, elements, 20_000, start, (7_000, 11_000, 13_000)))
    start = Start(100_000_000, -100_000_000, N, 0)
    return jobs + [make_job(units[:1] + [(70_000, 0, -1_000)], [(40_000_000, RIGHT, 1_000_000)], 20_000, start)]
