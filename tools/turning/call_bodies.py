"""Calls of placement and step with bodies: long walks, points among stations, 27, bodies that are never read, marks of 32 bits."""

from .call_stations import one_short, some_state, with_entry
from .call_turns import some_vector
from .call_walks import (EMPTY_RECORD, FAR, LEAST_I32, MOST_I32, MOST_U32, MOST_USIZE, ODD_RECORD, WILD_BODY, laid, small_job,
                         walked_on, whole_walk, with_unit, with_vector, with_vehicle)
from .calls import line_place, line_step
from .chance import Chance
from .conventions import EAST, NORTH, SLANTED, SOUTH, WEST, first_entries, runs_through, spot
from .long_rigs import some_body
from .plane import N, nearest_vector, plus, times
from .record import LEFT, LONG, RIGHT, SHORT, STRAIGHT, Body
from .rigs import some_heading
from .walk import ZERO, Runs, Walk, own_bits
from .worked import dressed, make_vehicle

SMALL_BODIES = [(2_500, 1_200, 1_300), (900, 3_000, 1_700), (0, 0, 1_000), (1_100, 4_700, 1_250)]
WILD_BODIES = [WILD_BODY, Body(MOST_U32, MOST_U32, MOST_U32), Body(50_001, 1 << 31, 0), Body(7, 9, 20_001)]
UNSOUND_BODIES = [Body(50_001, 0, 1_000), Body(MOST_U32, 0, 1_000), Body(0, 50_001, 1_000), Body(0, MOST_U32, 1_000),
                  Body(0, 0, 0), Body(0, 0, 999), Body(0, 0, 20_001), Body(0, 0, MOST_U32), Body(1 << 31, 1 << 31, 1 << 31)]


def long_job(count, kind, stations=12):
    """The small rig with bodies on its short path."""
    return dressed(small_job(count, kind, stations), SMALL_BODIES)


def early(job, steps=3, entries=6):
    """A sound state some steps into a walk, in runs of that many entries."""
    walk, _, runs = walked_on(job, steps)
    return walk, first_entries(runs, entries)


def first_step(job):
    """A sound state after one step, in runs of three entries."""
    return early(job, 1, 3)


def with_body(walk, u, body):
    return with_unit(walk, u, body=body)


def long_whole_walks():
    lines = []
    for count, kind, stations, extra in ((1, RIGHT, 9, 1), (4, LEFT, 16, 0)):
        lines += whole_walk(long_job(count, kind, stations), extra)
    return lines


# Points.

def passing(vehicle, g, spots):
    """A rig in line goes 3,000 along g from the origin; stations with the same heading stand at the spots."""
    places = [ZERO, spot(g, 3_000, 0)] + [spot(g, ahead, aside) for ahead, aside in spots]
    vectors = [nearest_vector(times(unit.wheelbase, g), N) for unit in vehicle.units[:vehicle.count]]
    walk = Walk(vehicle, 0, vectors + [ZERO] * (4 - vehicle.count))
    return line_step(walk, len(places), runs_through(places, [g] * len(places)))


def each_pair():
    """Every pair of points has a half width of its own and a station that it alone crosses, ahead of its old place by 1,000."""
    units = [(20_000, -12_000, 0), (15_000, -12_000, -1_000), (30_000, -11_000, -1_000), (25_000, 0, -1_000)]
    bodies = [(5_000, 4_000, 1_100), (4_500, 3_000, 1_200), (5_500, 4_000, 1_300), (4_000, 9_000, 1_400)]
    lines = []
    for count in (1, 2, 3, 4):
        rig = units[:count - 1] + [(units[count - 1][0], 0, units[count - 1][2])]
        for form in (SHORT, LONG):
            widths = (5_000 if form == SHORT else 0, 1_500, 1_600)
            vehicle = make_vehicle(rig, widths, bodies[:count] if form == LONG else None)
            for g in (NORTH, SLANTED[count - 1]):
                lines.append(passing(vehicle, g, [(ahead + 1_000, 0) for ahead in aheads(vehicle)]))
    return lines


def aheads(vehicle):
    """How far ahead of the first front point the front and rear corners of a rig in line are, and its front point and last axle."""
    front, places = 0, [0]
    for u, unit in enumerate(vehicle.units[:vehicle.count]):
        rear = front - unit.wheelbase
        overhang = vehicle.overhang if vehicle.form == SHORT and u == 0 else unit.body.front
        places += [front + overhang, rear - unit.body.rear]
        front = rear + unit.hitch
    return list(dict.fromkeys(places + [rear]))


def sides():
    """Corners to the left and to the right of stations beside the way, ahead and behind; each corner alone on its level."""
    vehicle = make_vehicle([(5_000, 0, 0)], (0, 1_000, 1_000), [(9_000, 14_000, 2_000)])
    lines = []
    for g in (NORTH, EAST, SOUTH, WEST):
        for aside in (-2_500, 700):
            lines.append(passing(vehicle, g, [(10_000, aside), (-18_000, aside)]))
    return lines


def scattered(chance):
    """A step of a long rig in any attitude among scattered stations with any headings and any marks."""
    walk, stations = some_state(chance)
    units = [unit._replace(body=Body(*some_body(chance))) if u < walk.vehicle.count else unit
             for u, unit in enumerate(walk.vehicle.units)]
    walk = with_vehicle(walk, form=LONG, units=units, overhang=0)
    xs, ys = ([chance.between(-40_000, 40_000) for _ in range(stations)] for _ in range(2))
    move, k = some_vector(chance, chance.between(2_500, 5_000)), walk.station
    xs[k + 1], ys[k + 1] = plus((xs[k], ys[k]), move)
    gxs, gys = zip(*(some_heading(chance) for _ in range(stations)))
    left = [chance.pick([2_000_000_000, chance.between(-30_000, 30_000)]) for _ in range(stations)]
    right = [chance.pick([-2_000_000_000, chance.between(-30_000, 30_000)]) for _ in range(stations)]
    marks = [chance.pick([0, chance.below(1 << 32)]) for _ in range(stations)]
    return line_step(walk, stations, Runs(xs, ys, list(gxs), list(gys), left, right, marks))


def long_scattered():
    chance = Chance(3003)
    return [scattered(chance) for _ in range(40)]


# 27.

def body_refusals():
    """A body out of range at each unit in use, handed to a step and to a placement."""
    walk, runs = first_step(long_job(3, RIGHT))
    lines = []
    for u in range(3):
        for turn, body in enumerate(UNSOUND_BODIES):
            bad = with_body(walk, u, body)
            lines.append(line_step(bad, 3, runs))
            if turn % 3 == u:
                lines.append(line_place(bad.vehicle, walk, 3, runs))
    return lines


def body_ends():
    """Bodies at the ends of their ranges; those of units that are not in use hold anything, and come back as they were."""
    walk, runs = early(long_job(3, LEFT))
    lines = []
    for u, body in enumerate([Body(0, 0, 1_000), Body(50_000, 50_000, 20_000), Body(50_000, 0, 20_000)]):
        lines += [line_step(with_body(walk, u, body), 5, runs), line_place(with_body(walk, u, body).vehicle, ODD_RECORD, 2, runs)]
    unread = with_unit(walk, 3, wheelbase=MOST_U32, hitch=LEAST_I32, fold=MOST_I32, body=WILD_BODY)
    return lines + [line_step(unread, 5, runs), line_place(unread.vehicle, EMPTY_RECORD, 2, runs)]


def long_overhangs():
    """A long vehicle's old overhang is 0, and a short one's is not."""
    lines = []
    for count in (1, 2, 4):
        walk, runs = first_step(long_job(count, STRAIGHT))
        for overhang in (1, 2_000, 50_000, MOST_U32):
            lines.append(line_step(with_vehicle(walk, overhang=overhang), 3, runs))
        lines.append(line_place(with_vehicle(walk, overhang=1).vehicle, walk, 3, runs))
        lines.append(line_step(with_vehicle(walk, form=SHORT, overhang=2_000), 3, runs))
    return lines


def long_counts():
    """By value a long vehicle has 1 to 4 units too: its number of units is not the record's first number."""
    lines = []
    for count in (1, 2, 3, 4):
        walk, runs = first_step(long_job(count, RIGHT))
        for wrong in (0, 5, 10 + count, FAR, MOST_USIZE):
            lines.append(line_step(with_vehicle(walk, count=wrong), 3, runs))
        lines.append(line_place(with_vehicle(walk, count=10 + count).vehicle, EMPTY_RECORD, 3, runs))
        lines.append(line_step(with_vehicle(walk, form=SHORT, count=10 + count), 3, runs))
    return lines


def unread_bodies():
    """A short vehicle's bodies are never read, whatever they hold, and come back as they were."""
    lines = []
    for count in (1, 2, 3, 4):
        for turn, kind in enumerate((LEFT, STRAIGHT)):
            walk, runs = early(small_job(count, kind))
            for u in range(4):
                walk = with_body(walk, u, WILD_BODIES[(u + turn) % 4])
            lines += [line_step(walk, 5, runs), line_place(walk.vehicle, EMPTY_RECORD, 2, runs)]
        walk, runs = early(long_job(count, RIGHT))
        lines.append(line_step(with_vehicle(walk, form=SHORT), 5, runs))  # bodies in range are not read either
    return lines


def long_in_order():
    """21, 26, 27 by a body, 25, then 22, as each is mended."""
    walk, runs = early(long_job(2, RIGHT))
    last, off = walk._replace(station=4), with_entry(runs, "gys", 3, 0)
    far = with_entry(runs, "ys", walk.station + 1, 100_000_000)
    unsound = with_body(last, 1, Body(0, 50_001, 1_000))
    calls = [(unsound, one_short(off, "marks", 5)), (unsound, off), (unsound, far), (with_vehicle(last, overhang=1), far), (last, far),
             (walk, far), (with_body(walk, 0, Body(0, 0, 999)), far), (with_vector(walk, 2, (1, 0)), runs), (walk, runs)]
    lines = [line_step(record, 5, lent) for record, lent in calls]
    placed = [one_short(off, "left", 5), off, runs]
    return lines + [line_place(unsound.vehicle, walk, 5, lent) for lent in placed] + [line_place(walk.vehicle, unsound, 5, runs)]


# Marks.

def marks_cleared():
    """Placement clears all 32 bits of the stations asked for and no others."""
    lines = []
    for count in (1, 2, 3, 4):
        for job in (small_job(count, LEFT, 6), long_job(count, LEFT, 6)):
            _, runs = laid(job)
            marks = [MOST_U32, 1 << 31, 1 << (4 * count + 4), own_bits(job.vehicle), 1 << 20, MOST_U32]
            lines.append(line_place(job.vehicle, EMPTY_RECORD, 4, first_entries(runs, 6)._replace(marks=marks)))
    return lines


def marks_above():
    """A step sets bits of the rig's points only and clears none; the bits above them stay as they are."""
    lines = []
    for count in (1, 2, 3, 4):
        above = MOST_U32 - own_bits(small_job(count, LEFT).vehicle)
        for job in (small_job(count, RIGHT), long_job(count, RIGHT)):
            walk, runs = early(job, 2)
            for marks in ([above] * 6, [0, 1 << 31, 1 << (4 * count + 4), MOST_U32, 1 << 20, above]):
                lines.append(line_step(walk, 5, runs._replace(marks=marks)))
    return lines


BODY_GROUPS = [
    ("long walks from station to station", long_whole_walks),
    ("each pair of points on a station of its own", each_pair),
    ("corners left and right of stations", sides),
    ("long rigs among scattered stations", long_scattered),
    ("a body out of range is 27", body_refusals),
    ("bodies at the ends of their ranges", body_ends),
    ("a long vehicle's old overhang is 0", long_overhangs),
    ("by value 11 to 14 units are none", long_counts),
    ("a short vehicle's bodies are never read", unread_bodies),
    ("21, 26, 27 by a body, 25, 22", long_in_order),
    ("placement clears all 32 bits of a mark", marks_cleared),
    ("a step leaves the bits above the rig's points", marks_above),
]
