"""Walks: units drawn behind the path, the points of the rig, stations crossed and the widest place."""

from collections import namedtuple

from .plane import N, dot, has_length, minus, nearest, nearest_vector, plus, right_normal, settle, times
from .record import LONG, MOST_STEPS, MOST_UNITS, Refused, vehicle_fault, wheelbase_allowed

MOST_STATIONS = MOST_STEPS + 1
CLEARED_LEFT, CLEARED_RIGHT = 2_000_000_000, -2_000_000_000
ZERO = (0, 0)

Walk = namedtuple("Walk", "vehicle station vectors")  # vectors: 4 places, unused ones zero
Runs = namedtuple("Runs", "xs ys gxs gys left right marks")  # seven lists


class RefusedAt(Refused):
    """A refusal that names a unit, counted from 1."""

    def __init__(self, number, unit):
        super().__init__(number)
        self.unit = unit


# One unit.

def turned(d, f, wheelbase):
    """The drawn rule: the mirror image of d in the line along m = 2d + f, rounded and settled."""
    m = plus(times(2, d), f)
    image = minus(times(2 * dot(m, d), m), times(dot(m, m), d))
    return settle(nearest_vector(image, dot(m, m)), wheelbase)


def moves_too_far(f, wheelbase):
    return dot(f, f) > wheelbase * wheelbase


def folds_too_far(ahead, d, fold, wheelbase_ahead, wheelbase):
    return 1_000 * dot(ahead, d) < fold * wheelbase_ahead * wheelbase


def unit_turn(d, f, wheelbase):
    """The single unit's turn called by itself."""
    if not wheelbase_allowed(wheelbase) or not has_length(d, wheelbase):
        raise Refused(27)
    if moves_too_far(f, wheelbase):
        raise Refused(22)
    return turned(d, f, wheelbase)


# The rig.

def hitch_of(unit, front, d):
    return plus(minus(front, d), nearest_vector(times(unit.hitch, d), unit.wheelbase))


def turn_units(vehicle, vectors, old_front, new_front):
    """The new vectors after the first front point goes from old_front to new_front."""
    new = []
    for u, unit in enumerate(vehicle.units[:vehicle.count]):
        d, f = vectors[u], minus(new_front, old_front)
        if moves_too_far(f, unit.wheelbase):
            raise RefusedAt(22, u + 1)
        new.append(turned(d, f, unit.wheelbase))
        if u > 0 and folds_too_far(new[u - 1], new[u], unit.fold, vehicle.units[u - 1].wheelbase, unit.wheelbase):
            raise RefusedAt(23, u + 1)
        old_front, new_front = hitch_of(unit, old_front, d), hitch_of(unit, new_front, new[u])
    return new + [ZERO] * (MOST_UNITS - len(new))


def fronts_of(vehicle, vectors, front):
    """The front points of the units, the first of which stands at `front`."""
    fronts = [front]
    for unit, d in zip(vehicle.units[:vehicle.count - 1], vectors):
        fronts.append(hitch_of(unit, fronts[-1], d))
    return fronts


# The points.

Shape = namedtuple("Shape", "front rear front_half_width rear_half_width")  # overhangs, and how wide the corners are


def shape_of(vehicle, u):
    """Where a unit's corners are: by its body in a long job, by the fields that stand once in a short one."""
    if vehicle.form == LONG:
        body = vehicle.units[u].body
        return Shape(body.front, body.rear, body.half_width, body.half_width)
    if u == 0:
        return Shape(vehicle.overhang, 0, vehicle.front, vehicle.rear)
    return Shape(0, 0, vehicle.rear, vehicle.rear)


def pairs_of(vehicle):
    """Pairs of points, left and right, by number: the unit, whether at its rear axle, how far ahead, how far aside."""
    shapes, last = [shape_of(vehicle, u) for u in range(vehicle.count)], vehicle.count - 1
    pairs = [(0, False, shapes[0].front, shapes[0].front_half_width), (0, False, 0, vehicle.front),
             (last, True, 0, vehicle.rear), (0, True, -shapes[0].rear, shapes[0].rear_half_width)]
    for u in range(1, vehicle.count):
        pairs.append((u, False, shapes[u].front, shapes[u].front_half_width))
        pairs.append((u, True, -shapes[u].rear, shapes[u].rear_half_width))
    return pairs


def points_of(vehicle, vectors, front):
    """The 4n + 4 points of a rig of n units whose first front point stands at `front`."""
    fronts, points = fronts_of(vehicle, vectors, front), []
    for u, at_rear, along, side in pairs_of(vehicle):
        d = vectors[u]
        base = minus(fronts[u], d) if at_rear else fronts[u]
        for sign in (-1, 1):
            offset = plus(times(along, d), times(sign * side, right_normal(d)))
            points.append(plus(base, nearest_vector(offset, vehicle.units[u].wheelbase)))
    return points


def own_bits(vehicle):
    """The bits of a mark that stand for the rig's points."""
    return (1 << 4 * vehicle.count + 4) - 1


# The stations.

def reach(point, position, heading):
    return nearest(dot(minus(point, position), right_normal(heading)), N)


def enter(runs, k, p, old, new):
    """Point p crossed station k on its way from old to new."""
    position, heading = (runs.xs[k], runs.ys[k]), (runs.gxs[k], runs.gys[k])
    reaches = (reach(old, position, heading), reach(new, position, heading))
    runs.left[k] = min(runs.left[k], *reaches)
    runs.right[k] = max(runs.right[k], *reaches)
    runs.marks[k] |= 1 << p


def crossings(entries, old, new):
    """The stations that a point going from old to new crosses: (A - P) . g goes from below 0 to 0 or more."""
    (ox, oy), (nx, ny) = old, new
    return [k for k, gx, gy, level in entries if ox * gx + oy * gy - level < 0 <= nx * gx + ny * gy - level]


def entries_of(asked, runs):
    """The stations asked for: number, heading g and P . g."""
    entries = zip(range(asked), runs.xs, runs.ys, runs.gxs, runs.gys)
    return [(k, gx, gy, x * gx + y * gy) for k, x, y, gx, gy in entries]


def move(walk, asked, runs):
    """A step whose tests 21, 26, 27 and 25 are passed: the new record; the runs are entered."""
    vehicle, k = walk.vehicle, walk.station
    old_front, new_front = (runs.xs[k], runs.ys[k]), (runs.xs[k + 1], runs.ys[k + 1])
    vectors = turn_units(vehicle, walk.vectors, old_front, new_front)
    olds = points_of(vehicle, walk.vectors, old_front)
    news = points_of(vehicle, vectors, new_front)
    entries = entries_of(asked, runs)
    for p, (old, new) in enumerate(zip(olds, news)):
        for crossed in crossings(entries, old, new):
            enter(runs, crossed, p, old, new)
    return Walk(vehicle, k + 1, vectors)


# The tests of a call.

def test_lent(asked, lent):
    if not 1 <= asked <= MOST_STATIONS or any(len(run) < asked for run in lent):
        raise Refused(21)


def test_path(asked, runs):
    for x, y, gx, gy in list(zip(runs.xs, runs.ys, runs.gxs, runs.gys))[:asked]:
        if max(abs(x), abs(y)) > 150_000_000 or not has_length((gx, gy), N):
            raise Refused(26)


def test_vehicle(vehicle):
    if vehicle_fault(vehicle):
        raise Refused(27)


def vector_sound(vehicle, u, d):
    return has_length(d, vehicle.units[u].wheelbase) if u < vehicle.count else d == ZERO


def test_record(walk, asked):
    test_vehicle(walk.vehicle)
    vectors_sound = all(vector_sound(walk.vehicle, u, d) for u, d in enumerate(walk.vectors))
    if walk.station > asked - 1 or not vectors_sound:
        raise Refused(27)


def test_not_last(walk, asked):
    if walk.station == asked - 1:
        raise Refused(25)


# The entries.

def place(vehicle, asked, runs):
    """The record of a vehicle at station 0; every station asked for is cleared."""
    test_lent(asked, runs)
    test_path(asked, runs)
    test_vehicle(vehicle)
    g = (runs.gxs[0], runs.gys[0])
    vectors = [nearest_vector(times(unit.wheelbase, g), N) for unit in vehicle.units[:vehicle.count]]
    for k in range(asked):
        runs.left[k], runs.right[k], runs.marks[k] = CLEARED_LEFT, CLEARED_RIGHT, 0
    return Walk(vehicle, 0, vectors + [ZERO] * (MOST_UNITS - vehicle.count))


def step(walk, asked, runs):
    test_lent(asked, runs)
    test_path(asked, runs)
    test_record(walk, asked)
    test_not_last(walk, asked)
    return move(walk, asked, runs)


def widest(walk, asked, left, right, marks):
    """Station, width, left and right of the widest complete station, the lowest number among equals."""
    test_lent(asked, (left, right, marks))
    test_record(walk, asked)
    own = own_bits(walk.vehicle)
    complete = [k for k in range(asked) if marks[k] & own == own]
    if not complete:
        raise Refused(24)
    k = max(complete, key=lambda k: (right[k] - left[k], -k))
    return k, right[k] - left[k], left[k], right[k]
