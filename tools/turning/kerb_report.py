"""The report on a kerb: the first step, then the lowest point, whose move touches or crosses one of its segments."""

from .kerb_bytes import MOST_VERTICES, read_kerb
from .kerb_touch import segments_of, touches
from .path import lay
from .record import Refused, read_job, total_steps
from .walk import RefusedAt, Runs, Walk, place, points_of, test_lent, test_path, test_record, turn_units

NONE = [0, 0, 0, 0, 0]  # number, unit, whether found, step, point
MOST_COORDINATE = 150_000_000


def test_kerb_lent(vertices, kerb):
    if not 1 <= vertices <= MOST_VERTICES or any(len(run) < vertices for run in kerb):
        raise Refused(21)


def test_kerb(vertices, kerb):
    if any(abs(c) > MOST_COORDINATE for run in kerb for c in run[:vertices]):
        raise Refused(26)


def moved(walk, path):
    """The record after the next step and every point's move in it, by number; nothing is written."""
    vehicle, k = walk.vehicle, walk.station
    old_front, new_front = (path.xs[k], path.ys[k]), (path.xs[k + 1], path.ys[k + 1])
    vectors = turn_units(vehicle, walk.vectors, old_front, new_front)
    olds, news = points_of(vehicle, walk.vectors, old_front), points_of(vehicle, vectors, new_front)
    return Walk(vehicle, k + 1, vectors), list(zip(olds, news))


def touching(moves, segments):
    """The points whose moves touch a segment, lowest first."""
    return [p for p, move in enumerate(moves) if any(touches(move, segment) for segment in segments)]


def first_touch(walk, asked, path, segments):
    """The step's number is its new station's; a refused step's too, which is not made."""
    while walk.station < asked - 1:
        try:
            walk, moves = moved(walk, path)
        except RefusedAt as refusal:
            return [refusal.number, refusal.unit, 0, walk.station + 1, 0]
        points = touching(moves, segments)
        if points:
            return [0, 0, 1, walk.station, points[0]]
    return NONE


def report(walk, asked, path, vertices, kerb):
    """Number, unit, whether found, step and point; the path is four runs, the kerb two. Refused by 21, 26 and 27."""
    runs = Runs(*path, [], [], [])
    test_lent(asked, path)
    test_kerb_lent(vertices, kerb)
    test_path(asked, runs)
    test_kerb(vertices, kerb)
    test_record(walk, asked)
    segments = segments_of(list(zip(*kerb))[:vertices])
    return first_touch(walk, asked, runs, segments)


def placed(data):
    """A job's walk at its start, its stations and its path, or the job's refusal."""
    job = read_job(bytes(data))
    asked = total_steps(job) + 1
    runs = Runs(*([0] * asked for _ in range(7)))
    lay(job, *runs[:4])
    return place(job.vehicle, asked, runs), asked, runs[:4]


def report_of_job(data, vertices, kerb):
    """The report from a job's bytes; its own refusals come first, with their place."""
    walk, asked, path = placed(data)
    return report(walk, asked, path, vertices, kerb)


def report_of_survey(data, geometry):
    """The report from a job's bytes and a kerb's: the job's refusals, then the geometry's, then the report's."""
    walk, asked, path = placed(data)
    kerb = [0] * MOST_VERTICES, [0] * MOST_VERTICES
    return report(walk, asked, path, read_kerb(geometry, *kerb), kerb)
