"""Scenes for the report: a walk somewhere on its path, the moves it has before it, and kerbs laid against them."""

from collections import namedtuple

from .call_bodies import long_job
from .call_walks import LEAST_I32, MOST_I32, laid, small_job, standing
from .conventions import NORTH
from .kerb_lines import line_report
from .kerb_report import moved, report
from .plane import minus, plus, times
from .record import LEFT, RIGHT
from .walk import RefusedAt, Runs, place, step
from .worked import make_vehicle

Scene = namedtuple("Scene", "walk asked path")  # path: four runs
PAST = [MOST_I32, LEAST_I32, 7, -150_000_001]


def scene(job, steps=0, extra=0):
    """A job's walk after so many steps; the runs may have entries past the last station."""
    asked, runs = laid(job, extra)
    walk = place(job.vehicle, asked, runs)
    for _ in range(steps):
        walk = step(walk, asked, runs)
    return Scene(walk, asked, [list(run) for run in runs[:4]])


def scene_through(vehicle, places, station=0):
    """A vehicle in line due north on stations given one by one, all headed north."""
    xs, ys = (list(c) for c in zip(*places))
    return Scene(standing(vehicle, station), len(places), [xs, ys, [NORTH[0]] * len(xs), [NORTH[1]] * len(xs)])


def small_scene(turn, stations=9, steps=0, kinds=(LEFT, RIGHT)):
    """One to four units, short or long, round a bend to the left or to the right, all by the turn's number."""
    make = (small_job, long_job)[turn // 4 % 2]
    return scene(make(turn % 4 + 1, kinds[turn % len(kinds)], stations), steps, turn % 3)


def shifted(one, offset):
    """The scene moved bodily."""
    xs, ys, gxs, gys = one.path
    return one._replace(path=[[x + offset[0] for x in xs], [y + offset[1] for y in ys], gxs, gys])


def plain_vehicle(wheelbase=6_000, widths=(2_000, 1_500, 1_000)):
    return make_vehicle([(wheelbase, 0, 0)], widths)


def towing_vehicle(bodies=None):
    """Two units, the second hitched at the first's axle."""
    return make_vehicle([(6_000, 0, 0), (7_000, 0, -1_000)], (0 if bodies else 2_000, 1_500, 1_000), bodies)


def moves_of(one):
    """The moves of the points in each step to come, by step, up to the last or to a refused one."""
    walk, path, found = one.walk, Runs(*one.path, [], [], []), {}
    while walk.station < one.asked - 1:
        try:
            walk, moves = moved(walk, path)
        except RefusedAt:
            break
        found[walk.station] = moves
    return found


def kerb_runs(vertices, spare=0):
    """The two runs of a kerb, with some entries past its vertices that no one may read."""
    xs, ys = (list(c) for c in zip(*vertices))
    return [xs + PAST[:spare], ys + PAST[-spare:] if spare else ys]


def row(one, vertices, spare=0):
    return line_report(one.walk, one.asked, one.path, len(vertices), kerb_runs(vertices, spare))


def answer(one, vertices):
    return report(one.walk, one.asked, one.path, len(vertices), kerb_runs(vertices))


def rows_aimed(one, kerbs, step=None, point=None):
    """Rows of those kerbs that are touched first in that step, or by that point, or in any (None)."""
    rows = []
    for vertices in kerbs:
        _, _, found, at, p = answer(one, vertices)
        if found and step in (None, at) and point in (None, p):
            rows.append(row(one, vertices))
    return rows


def rows_missed(one, kerbs):
    """Rows of those kerbs that nothing touches."""
    return [row(one, vertices) for vertices in kerbs if not answer(one, vertices)[2]]


def across(move, at, left, right):
    """A kerb about square to a move through a place, so many eighths of the move's length to its left and to its right."""
    way = minus(move[1], move[0])
    normal = (-way[1] // 8, way[0] // 8)
    return [plus(at, times(left, normal)), minus(at, times(right, normal))]


def outside(p):
    """The side on which a point of the rig has nothing beside it: 1 for left points, which have even numbers, -1 for right ones."""
    return 1 if p % 2 == 0 else -1


def off_to_the_side(move, p, at):
    """A kerb from a place on a point's own outer side up to `at`."""
    way = minus(move[1], move[0])
    return [plus(at, times(outside(p), (-way[1], way[0]))), at]
