"""Calls for the paper's conventions, one named group for each: where a sentence could be taken two ways, the rows tell which it is."""

from math import isqrt

from .call_records import BASE, four_runs
from .call_records import with_unit as job_with_unit
from .call_stations import one_short, standing_still, with_entry
from .call_walks import (EMPTY_RECORD, LEAST_I32, MOST_I32, ODD_RECORD, laid, midway, small_job, stale_reaches,
                         with_unit, with_vector, with_vehicle)
from .calls import line_lay, line_path_turn, line_place, line_step, line_write
from .plane import N, dot, has_length, minus, nearest_vector, plus, right_normal, times
from .record import LEFT, NO_UNIT, RIGHT, SHORT, STRAIGHT, Unit, Vehicle
from .walk import CLEARED_LEFT, CLEARED_RIGHT, ZERO, Runs, Walk, points_of, turned

NORTH, EAST, SOUTH, WEST = (0, N), (N, 0), (0, -N), (-N, 0)
SLANTED = [(600_000, 800_000), (-800_000, 600_000), (-600_000, -800_000), (800_000, -600_000)]
# Off N^2 by 2N - 7, by -(2N - 1): sound. By 2N + 1, by -(2N + 3): not.
EDGE_HEADINGS = [(998_288, 58_507), (999_999, 0), (1_000_001, 0), (999_986, 5_099)]


def mirrored(g):
    """A vector's images in the axes and in the diagonal, each once."""
    x, y = g
    return list(dict.fromkeys([(x, y), (-x, y), (x, -y), (-x, -y), (y, x), (-y, x), (y, -x), (-y, -x)]))


def one_unit(wheelbase, widths):
    return Vehicle(SHORT, 1, [Unit(wheelbase, 0, 0)] + [NO_UNIT] * 3, *widths)


def cleared(n):
    return [CLEARED_LEFT] * n, [CLEARED_RIGHT] * n, [0] * n


def runs_through(places, headings):
    """Runs with these stations, cleared."""
    xs, ys = zip(*places)
    gxs, gys = zip(*headings)
    return Runs(list(xs), list(ys), list(gxs), list(gys), *cleared(len(xs)))


def first_entries(runs, n):
    return Runs(*(list(run)[:n] for run in runs))


def early(count, kind, steps):
    """A sound state some steps into a small walk, in runs of six entries."""
    walk, _, runs = midway(count, kind, steps)
    return walk, first_entries(runs, 6)


def spot(g, ahead, aside):
    """The place so far ahead of the origin and to its right, for a heading of whole fifths."""
    return nearest_vector(plus(times(ahead, g), times(aside, right_normal(g))), N)


def passing(g, spots, wheelbase=5_000, widths=(0, 1_500, 1_000)):
    """One unit goes 3,000 along g from the origin; stations with the same heading stand at the spots."""
    places = [ZERO, spot(g, 3_000, 0)] + [spot(g, ahead, aside) for ahead, aside in spots]
    d = nearest_vector(times(wheelbase, g), N)
    walk = Walk(one_unit(wheelbase, widths), 0, [d] + [ZERO] * 3)
    return line_step(walk, len(places), runs_through(places, [g] * len(places)))


def clearing():
    lines = []
    for count in (1, 2, 3, 4):
        _, runs = laid(small_job(count, LEFT, 6))
        for asked in (1, 3, 6):
            lines.append(line_place(small_job(count, LEFT).vehicle, EMPTY_RECORD, asked, first_entries(runs, 6)))
    return lines


def standing_forwards():
    vehicles = [small_job(count, STRAIGHT).vehicle for count in (1, 2, 4)]
    lines = []
    for k, g in enumerate([NORTH, EAST, SOUTH, WEST] + SLANTED + mirrored(EDGE_HEADINGS[0])[:4]):
        lines.append(line_place(vehicles[k % 3], EMPTY_RECORD, 1, Runs([7], [-5], [g[0]], [g[1]], *stale_reaches(1))))
    return lines


def sides_of(headings):
    """Stations to the right of the way, so that the points lie left of them, and to the left of it; front and rear."""
    lines = []
    for g in headings:
        for aside in (-9_000, -2_500, 700, 2_500, 9_000):
            lines.append(passing(g, [(1_000, aside)], widths=(0, 2_000, 1_300)))
            lines.append(passing(g, [(-3_000, aside)], widths=(500, 1_100, 2_200)))
    return lines


def reaching_right():
    return sides_of(SLANTED[:2])


def north_and_east():
    return sides_of([NORTH, EAST])


FOLDED = {60: (30_000, 40_000), 37: (40_000, 30_000), 90: (50_000, 0), 127: (40_000, -30_000), 180: (0, -50_000)}


def own_fold_limit():
    """Two units: 1,000 x the cosine is 800, 600, 0, -600 or -1,000, and the first unit's limit is 0."""
    limits = {60: (700, 801), 37: (500, 601), 90: (-1, 1), 127: (-600, -700, -599), 180: (-1_000, -999)}
    return [standing_still([(0, 50_000), FOLDED[angle]], [0, limit], [50_000] * 2)
            for angle, all_limits in limits.items() for limit in all_limits]


def two_fold_limits():
    """Three units with the limits of units 2 and 3 apart: one coupling folds by a right angle, the other not."""
    north, east, lines = (0, 50_000), (50_000, 0), []
    for limits in ((-1_000, 500), (500, -1_000), (0, 1), (1, 0), (990, -1), (-1, 990)):
        lines.append(standing_still([north, east, east], [0, *limits], [50_000] * 3))
        lines.append(standing_still([north, north, east], [0, *limits], [50_000] * 3))
    return lines


def no_last_hitch():
    lines = []
    for count in (1, 2, 3, 4):
        walk, runs = early(count, STRAIGHT, 3)
        size = walk.vehicle.units[count - 1].wheelbase
        for hitch in (1, -1, size, -size):
            hitched = with_unit(walk, count - 1, hitch=hitch)
            lines.append(line_step(hitched, 5, runs) if hitch > 0
                         else line_place(hitched.vehicle, EMPTY_RECORD, 2, runs))
    for hitch in (1, -2_000):
        lines.append(line_write(job_with_unit(BASE, 2, hitch=hitch), [170] * 60))
        lines.append(line_lay(job_with_unit(BASE, 2, hitch=hitch), four_runs(11)))
    return lines


def path_before_record():
    """26 and 27 at once."""
    walk, runs = early(2, LEFT, 3)
    unsound = [with_vector(walk, 0, ZERO), with_vector(walk, 2, (1, 0)), with_unit(walk, 0, fold=1),
               walk._replace(station=5)]
    broken = [with_entry(runs, "xs", 4, MOST_I32), with_entry(runs, "gys", 0, 0), with_entry(runs, "ys", 1, -150_000_001)]
    lines = [line_step(record, 5, path) for record in unsound for path in broken]
    vehicles = [with_unit(walk, 0, fold=1), with_unit(walk, 1, hitch=-1), with_vehicle(walk, overhang=50_001)]
    return lines + [line_place(wrong.vehicle, walk, 5, path) for wrong in vehicles for path in broken]


def station_beyond():
    """A station as large as the stations asked for is 27, though the runs go on behind it."""
    lines = []
    for count in (1, 3):
        for station in range(1, 7):
            walk, _, runs = midway(count, STRAIGHT, station)
            lines.append(line_step(walk, station, first_entries(runs, station + 2)))
    return lines


def shortest_solution(gx, gy):
    """A place P with P . g = 1, by Euclid's division."""
    (r, a, b), (s, c, d) = (gx, 1, 0), (gy, 0, 1)
    while s:
        q = r // s
        (r, a, b), (s, c, d) = (s, c, d), (r - q * s, a - q * c, b - q * d)
    return (a, b) if r == 1 else (-a, -b)


def crossing_edges():
    """A point's product goes from -1, from 0, to 0, to -1: the first and third cross, the others do not."""
    vehicle, d, f, lines = one_unit(5_000, (300, 1_500, 1_000)), (0, 5_000), (400, 2_000), []
    olds, news = points_of(vehicle, [d], ZERO), points_of(vehicle, [turned(d, f, 5_000)], f)
    for k, g in enumerate([(58_507, 998_288), (-58_507, 998_288), (324_324, 945_945), (-780_203, 625_528)]):
        one, p = shortest_solution(*g), (0, 3, 4, 5)[k]
        for place in (plus(olds[p], one), olds[p], news[p], plus(news[p], one)):
            runs = runs_through([ZERO, f, place], [NORTH, NORTH, g])
            lines.append(line_step(Walk(vehicle, 0, [d] + [ZERO] * 3), 3, runs))
    return lines + [passing(g, [(0, 400), (3_000, -400), (1, 0), (3_001, 0)]) for g in (NORTH, EAST, SOUTH, WEST)]


def headings_across(m):
    """Headings g with m . g = 1; none where the coordinates have a common divisor."""
    (ax, ay), (nx, ny), square = shortest_solution(*m), (m[1], -m[0]), m[0] ** 2 + m[1] ** 2
    for sign in (-1, 1):
        most = (sign * isqrt(N * N * square) - (ax * nx + ay * ny)) // square
        for t in range(most - 2, most + 3):
            g = (ax + t * nx, ay + t * ny)
            if has_length(g, N) and dot(m, g) == 1:
                yield g


def one_apart():
    """A point's product goes from 0 to 1, and from -1 to 0."""
    vehicle, d, lines = one_unit(5_000, (300, 1_500, 1_000)), (0, 5_000), []
    olds = points_of(vehicle, [d], ZERO)
    for f in ((1, 2), (-1, 3), (-3, 4), (5, 7), (3, 2), (7, 10)):
        news = points_of(vehicle, [turned(d, f, 5_000)], f)
        for p in (1, 2, 3):
            for g in list(headings_across(minus(news[p], olds[p])))[:1]:
                for place in (olds[p], news[p]):
                    runs = runs_through([ZERO, f, place], [NORTH, NORTH, g])
                    lines.append(line_step(Walk(vehicle, 0, [d] + [ZERO] * 3), 3, runs))
    return lines


def first_and_last():
    """Straight on from station 1 to station 2, the last: the front crosses it, the rear axle station 0."""
    lines = []
    for k, g in enumerate([NORTH, EAST, SOUTH, WEST] + SLANTED):
        for spare in (0, 1):
            places = [spot(g, ahead, 0) for ahead in (0, 3_000, 6_000, 9_000)][:3 + spare]
            d = nearest_vector(times(5_000, g), N)
            walk = Walk(one_unit(5_000, (2_000 * (k % 2), 1_500, 1_000)), 1, [d] + [ZERO] * 3)
            lines.append(line_step(walk, 3, runs_through(places, [g] * len(places))))
    return lines


def mended_one_by_one():
    """Wrong in every way: 21; mended, 26; then 27; then 25; then 22; then made."""
    lines = []
    for count, kind, which in ((1, STRAIGHT, "marks"), (2, LEFT, "xs"), (3, RIGHT, "right")):
        walk, runs = early(count, kind, 2)
        far = with_entry(runs, "ys", 3, 90_000_000)
        off = with_entry(far, "gxs", 1, LEAST_I32)
        last = walk._replace(station=4)
        unsound = with_unit(last, 0, fold=7)
        calls = [(unsound, one_short(off, which, 5)), (unsound, off), (unsound, far), (last, far), (walk, far), (walk, runs)]
        lines += [line_step(record, 5, lent) for record, lent in calls]
        placed = [(unsound, one_short(off, which, 5)), (unsound, off), (unsound, runs), (walk, runs)]
        lines += [line_place(record.vehicle, ODD_RECORD, 5, lent) for record, lent in placed]
    return lines


def two_at_once():
    """Two refusals next to each other in order: 21 and 26, 27 and 25, 25 and 22."""
    walk, runs = early(2, RIGHT, 2)
    off, last = with_entry(runs, "gys", 3, 0), walk._replace(station=4)
    lines = [line_step(walk, 5, one_short(off, which, 5)) for which in Runs._fields]
    unsound = [with_vector(last, 0, ZERO), with_vector(last, 1, (7_000, 7_000)), with_vector(last, 3, (0, 1)), with_unit(last, 0, fold=1),
               with_unit(last, 1, hitch=1), with_vehicle(last, rear=999), with_vehicle(last, count=3)]
    lines += [line_step(record, 5, runs) for record in unsound]
    return lines + [line_step(last, 5, with_entry(runs, which, 5, -149_000_000)) for which in ("xs", "ys")]


def far_before_folded():
    """One unit moves too far and would fold too far: 22. Unit 2 folds too far and unit 3 moves too far: 23 of unit 2."""
    lines, north, south = [], (0, 50_000), (0, -50_000)
    for short in (5_000, 5_999):
        for limit in (0, 990, 1):
            lengths = [50_000, short, 50_000]
            lines.append(standing_still([north, (0, -short)], [0, limit], lengths[:2], (0, 6_000)))
            lines.append(standing_still([north, north, (0, -short)], [0, 0, limit], [50_000, 50_000, short], (0, 6_000)))
            lines.append(standing_still([north, south, (0, short)], [0, limit, 0], [50_000, 50_000, short], (0, 6_000)))
            lines.append(standing_still([north, north, south, (0, short)], [0, 0, limit, 0], [50_000] * 3 + [short], (0, 6_000)))
    return lines


def hitched(hitch, move, second):
    """Two units, the first due north; its rear axle, and the hitch with it, goes aside; a station stands at its rear axle."""
    vehicle = Vehicle(SHORT, 2, [Unit(6_000, hitch, 0), Unit(7_000, 0, -300)] + [NO_UNIT] * 2, 0, 1_500, 1_000)
    walk = Walk(vehicle, 0, [(0, 6_000), second, ZERO, ZERO])
    return line_step(walk, 3, runs_through([ZERO, move, (0, -12_000)], [NORTH] * 3))


def hitches():
    """The same rig with its hitch ahead of the axle and behind it, bearing left and bearing right."""
    return [hitched(hitch, move, second) for move, second in (((-2_000, 2_500), (0, 7_000)), ((1_500, 3_000), (4_200, 5_600)))
            for hitch in (2_000, -2_000, 6_000, -6_000, 500, -500)]


def edge_headings():
    lines = []
    for g in EDGE_HEADINGS:
        for image in mirrored(g):
            lines.append(line_path_turn(image, 3_000, 60_000))
            lines.append(line_place(one_unit(5_000, (0, 1_000, 1_000)), EMPTY_RECORD, 1,
                                    Runs([0], [0], [image[0]], [image[1]], [0], [0], [9])))
    return lines


CALL_GROUPS = [
    ("left is cleared to 2,000,000,000", clearing),
    ("a rig is placed along the heading", standing_forwards),
    ("a reach is positive to the right", reaching_right),
    ("left and right of due north and of due east", north_and_east),
    ("the fold limit is the unit's own", own_fold_limit),
    ("three units, two fold limits", two_fold_limits),
    ("no hitch on the last unit", no_last_hitch),
    ("26 before 27", path_before_record),
    ("a station as large as the stations asked for is 27", station_beyond),
    ("from below 0 to 0 or more", crossing_edges),
    ("from 0 to 1 and from -1 to 0", one_apart),
    ("station 0 and the last station are crossed", first_and_last),
    ("21, 26, 27, 25 as each is mended", mended_one_by_one),
    ("21 before 26, 27 before 25, 25 before 22", two_at_once),
    ("22 before 23, an earlier unit before a later", far_before_folded),
    ("a hitch ahead of the axle and one behind it", hitches),
    ("headings off by 2N and a little less or more", edge_headings),
]
