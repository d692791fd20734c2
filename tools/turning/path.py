"""Laying the path: headings turned step by step, stations one after another."""

from .plane import N, has_length, nearest_vector, plus, right_normal, settle, times
from .record import Refused, job_fault, radius_allowed, signed_radius


def path_step(g, s, r):
    """The new heading and the move of a step of length s on the signed radius r (0 for a straight)."""
    turned = g
    if r != 0:
        normal = right_normal(g) if r > 0 else times(-1, right_normal(g))
        wanted = plus(times(4 * r * r - s * s, g), times(4 * abs(r) * s, normal))
        turned = settle(nearest_vector(wanted, 4 * r * r + s * s), N)
    return turned, nearest_vector(times(s, plus(g, turned)), 2 * N)


def path_turn(g, s, r):
    """The path turn called by itself."""
    if not has_length(g, N):
        raise Refused(6)
    if not 1 <= s <= 20_000:
        raise Refused(7)
    if not radius_allowed(r):
        raise Refused(8)
    return path_step(g, s, r)


def step_lengths(length, step):
    """Full steps and, where a remainder is left, one shorter step."""
    remainder = length % step
    return [step] * (length // step) + ([remainder] if remainder else [])


def stations_of(job):
    """The stations of a job without fault: pairs of position and heading, station 0 the start."""
    at, g = (job.start.x, job.start.y), (job.start.gx, job.start.gy)
    stations = [(at, g)]
    for element in job.elements[:job.count]:
        for s in step_lengths(element.length, job.step):
            g, move = path_step(g, s, signed_radius(element))
            at = plus(at, move)
            stations.append((at, g))
    return stations


def lay(job, xs, ys, gxs, gys):
    """Writes the stations into four runs (lists) and answers how many there are."""
    fault = job_fault(job)
    if fault:
        raise Refused(fault)
    stations = stations_of(job)
    if any(len(run) < len(stations) for run in (xs, ys, gxs, gys)):
        raise Refused(21)
    for k, ((x, y), (gx, gy)) in enumerate(stations):
        xs[k], ys[k], gxs[k], gys[k] = x, y, gx, gy
    return len(stations)
