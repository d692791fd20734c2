"""The program sweep: the bytes of one job in, the printed text out."""

from .path import lay
from .record import Refused, read_job, total_steps
from .walk import Runs, RefusedAt, move, place, test_not_last, test_record, widest

MOST_BYTES = 1_024


def walked(vehicle, asked, runs):
    """A new placement and the steps to the last station: the record, and the line of a refused step, its number from 1, or None."""
    walk = place(vehicle, asked, runs)
    for made in range(asked - 1):
        test_record(walk, asked)  # 26 was tested by the placement, and no step writes the path
        test_not_last(walk, asked)
        try:
            walk = move(walk, asked, runs)
        except RefusedAt as refusal:
            return walk, "refused %d unit %d step %d\n" % (refusal.number, refusal.unit, made + 1)
    return walk, None


def walk_to_the_end(job):
    """The runs after the last step made, the record, and the line of a refused step or None."""
    asked = total_steps(job) + 1
    runs = Runs(*([0] * asked for _ in range(7)))
    lay(job, runs.xs, runs.ys, runs.gxs, runs.gys)
    return runs, *walked(job.vehicle, asked, runs)


def widest_line(walk, runs):
    try:
        return "widest %d %d %d %d\n" % widest(walk, len(runs.xs), runs.left, runs.right, runs.marks)
    except Refused:
        return "widest none\n"


def sweep(data):
    """What the program prints; no more than its first 1,024 bytes can matter."""
    try:
        job = read_job(data[:MOST_BYTES])
    except Refused as refusal:
        return "refused %d at %d\n" % (refusal.number, refusal.at)
    runs, walk, stopped = walk_to_the_end(job)
    if stopped:
        return stopped
    last = "front %d %d\n" % (runs.xs[-1], runs.ys[-1])
    return "steps %d\n" % (len(runs.xs) - 1) + widest_line(walk, runs) + last
