"""The list of settings: a job walked at each last wheelbase, and the best three of them."""

from .path import lay
from .record import LARGEST, Refused, job_fault, read_job, total_steps, wheelbase_allowed
from .sweep import MOST_BYTES, walked
from .walk import Runs, test_lent, widest

MOST_SETTINGS, MOST_LISTED = 32, 3
STOPPED, INCOMPLETE = "stopped", "incomplete"


def test_settings(lowest, pitch, number):
    """29 looks at the settings in exact numbers, so that none can come back into the range round the end of a word."""
    if pitch < 1 or not 1 <= number <= MOST_SETTINGS:
        raise Refused(29)
    if not all(wheelbase_allowed(wheelbase) for wheelbase in wheelbases(lowest, pitch, number)):
        raise Refused(29)


def wheelbases(lowest, pitch, number):
    return [lowest + i * pitch for i in range(number)]


def with_last_wheelbase(vehicle, wheelbase):
    units, last = list(vehicle.units), vehicle.count - 1
    units[last] = units[last]._replace(wheelbase=wheelbase)
    return vehicle._replace(units=units)


def outcome(vehicle, wheelbase, asked, runs):
    """The widest width of a walk from a new placement, or why it is not listed."""
    walk, stopped = walked(with_last_wheelbase(vehicle, wheelbase), asked, runs)
    if stopped:
        return STOPPED
    try:
        return widest(walk, asked, runs.left, runs.right, runs.marks)[1]
    except Refused:
        return INCOMPLETE


def outcomes(job, lowest, pitch, number, runs):
    """Every setting's wheelbase and outcome; the runs hold the path and the last walk afterwards."""
    fault = job_fault(job)
    if fault:
        raise Refused(fault)
    asked = total_steps(job) + 1
    test_lent(asked, runs)
    test_settings(lowest, pitch, number)
    lay(job, runs.xs, runs.ys, runs.gxs, runs.gys)
    return [(wheelbase, outcome(job.vehicle, wheelbase, asked, runs)) for wheelbase in wheelbases(lowest, pitch, number)]


def list_settings(job, lowest, pitch, number, runs):
    """Wheelbase and widest width of the best three or fewer, best first, written over seven lent runs (lists)."""
    walks = outcomes(job, lowest, pitch, number, runs)
    fit = [(width, wheelbase) for wheelbase, width in walks if width not in (STOPPED, INCOMPLETE)]
    if not fit:
        raise Refused(30)
    return [(wheelbase, width) for width, wheelbase in sorted(fit)[:MOST_LISTED]]


def settings(data, lowest, pitch, number):
    """What the program prints; no more than its first 1,024 bytes can matter."""
    try:
        job = read_job(data[:MOST_BYTES])
    except Refused as refusal:
        return "refused %d at %d\n" % (refusal.number, refusal.at)
    runs = Runs(*([0] * (total_steps(job) + 1) for _ in range(7)))
    try:
        listed = list_settings(job, lowest, pitch, number, runs)
    except Refused as refusal:
        return "refused %d\n" % refusal.number
    return "".join("setting %d %d\n" % pair for pair in listed)


def is_number(word):
    """Digits only, at least one; zeros in front are allowed, and the value has at most 32 bits."""
    return word.isascii() and word.isdigit() and int(word) <= LARGEST


def numbers_of(words):
    """The program's three arguments as numbers, None where they are not just three numbers."""
    good = len(words) == 3 and all(is_number(word) for word in words)
    return [int(word) for word in words] if good else None
