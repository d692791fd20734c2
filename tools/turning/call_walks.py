"""Calls of placement, step and widest: whole walks, hostile records, paths and runs."""

from .call_turns import FAR_VECTORS
from .calls import line_place, line_step, line_widest
from .path import lay
from .record import LONG, NO_UNIT, RIGHT, SHORT, STRAIGHT, Body, Refused, Unit, Vehicle, total_steps
from .walk import ZERO, Runs, Walk, own_bits, place, step
from .worked import make_job

MOST_U32, LEAST_I32, MOST_I32, MOST_USIZE = 4_294_967_295, -(1 << 31), (1 << 31) - 1, (1 << 64) - 1
FAR = 1 << 63
WILD_BODY = Body(MOST_U32, 50_001, 999)
EMPTY_RECORD = Walk(Vehicle(SHORT, 0, [NO_UNIT] * 4, 0, 0, 0), 0, [ZERO] * 4)
ODD_RECORD = Walk(Vehicle(LONG, MOST_USIZE, [Unit(MOST_U32, LEAST_I32, MOST_I32, WILD_BODY)] * 4, MOST_U32, 1, 0), FAR,
                  [(-FAR, FAR - 1), (1, 2), (3, 4), (FAR - 1, -FAR)])
STALE_MARKS = (MOST_U32, 192, 1 << 31, 64, 1 << 20, 0)


def stale_reaches(length):
    """Left, right and marks as a caller may hand them over: extremes, and marks with bits set that no rig has."""
    left = [(LEAST_I32, MOST_I32, 0, 2_000_000_000)[k % 4] for k in range(length)]
    right = [(MOST_I32, -5, LEAST_I32, -2_000_000_000)[k % 4] for k in range(length)]
    return left, right, [STALE_MARKS[k % 6] for k in range(length)]


def laid(job, extra=0):
    """The seven runs of a job's path, with some entries past the last station."""
    asked = total_steps(job) + 1
    path = [[k - 9 for k in range(asked + extra)] for _ in range(4)]
    lay(job, *path)
    return asked, Runs(*path, *stale_reaches(asked + extra))


def small_rig(count):
    units = [(6_000, 2_000, 0), (7_000, -3_000, -300), (5_000, 5_000, -900), (8_000, 0, -1_000)][:count]
    return units[:-1] + [(units[-1][0], 0, units[-1][2])]


def small_job(count, kind, stations=12):
    """Small units on a short path: their points really cross its stations."""
    elements = [(7_000, STRAIGHT, 0), (3_000 * (stations - 4), kind, 0 if kind == STRAIGHT else 25_000)]
    return make_job(small_rig(count), elements, 3_000, widths=(2_000, 1_500, 1_000))


def whole_walk(job, extra):
    """A placement and steps to the end and past it, each handed what the one before left; then the widest."""
    asked, runs = laid(job, extra)
    lines = [line_place(job.vehicle, ODD_RECORD, asked, runs)]
    walk, above = place(job.vehicle, asked, runs), own_bits(job.vehicle) + 1
    for k in range(asked - 1):
        runs.marks[k] |= (0, above, 1 << 31, MOST_U32 - above + 1)[k % 4]
        lines.append(line_step(walk, asked, runs))
        try:
            walk = step(walk, asked, runs)
        except Refused:
            break
    return lines + [line_step(walk, asked, runs), line_widest(walk, asked, runs.left, runs.right, runs.marks)]


def standing(vehicle, station=0):
    """A sound record whose units all point due north."""
    vectors = [(0, unit.wheelbase) for unit in vehicle.units[:vehicle.count]]
    return Walk(vehicle, station, vectors + [ZERO] * (4 - vehicle.count))


def midway(count, kind=RIGHT, steps=4):
    """A sound state some steps into a small walk: the record, the stations and the runs."""
    return walked_on(small_job(count, kind), steps)


def walked_on(job, steps):
    asked, runs = laid(job, 2)
    walk = place(job.vehicle, asked, runs)
    for _ in range(steps):
        walk = step(walk, asked, runs)
    return walk, asked, runs


def with_vehicle(walk, **changes):
    return walk._replace(vehicle=walk.vehicle._replace(**changes))


def with_unit(walk, u, **changes):
    units = list(walk.vehicle.units)
    units[u] = units[u]._replace(**changes)
    return with_vehicle(walk, units=units)


def with_vector(walk, u, vector):
    vectors = list(walk.vectors)
    vectors[u] = vector
    return walk._replace(vectors=vectors)


def unsound_vehicles(walk):
    """A record of three units, one measure out of range at a time."""
    bad = [with_vehicle(walk, count=count) for count in (0, 5, FAR, MOST_USIZE)]
    for u in range(3):
        bad += [with_unit(walk, u, wheelbase=w) for w in (4_999, 200_001)]
        hitch = 0 if u == 2 else walk.vehicle.units[u].wheelbase
        bad += [with_unit(walk, u, hitch=h) for h in (hitch + 1, -hitch - 1)]
        bad += [with_unit(walk, u, fold=f) for f in ((1, -1) if u == 0 else (-1_001, 991))]
    bad += [with_unit(walk, 0, hitch=LEAST_I32), with_unit(walk, 1, fold=MOST_I32)]
    bad += [with_unit(walk, 1, wheelbase=MOST_U32)]
    bad += [with_vehicle(walk, overhang=50_001), with_vehicle(walk, overhang=MOST_U32)]
    return bad + [with_vehicle(walk, **{side: w}) for side in ("front", "rear") for w in (999, 20_001, MOST_U32)]


def unsound_records(walk, asked):
    """Stations beyond the last, unused vectors not zero, used ones of a wrong length or of a huge size."""
    bad = [walk._replace(station=station) for station in (asked, asked + 1, FAR, MOST_USIZE)]
    bad += [with_vector(walk, 3, d) for d in ((0, 1), (-1, 0), (-FAR, 0), (0, FAR - 1), (1 << 32, 0))]
    bad += [with_vehicle(walk, count=2), with_vehicle(walk, count=4)]
    for u, d in enumerate(FAR_VECTORS[:3] + [(0, 0), (0, 5_990), (0, 6_002)]):
        bad.append(with_vector(walk, u % 3, d))
    return bad
