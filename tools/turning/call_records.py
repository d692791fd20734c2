"""Calls of the writer and of laying a path, by value: every fault, several at once, and what is left as it was."""

from .calls import line_lay, line_write
from .record import LEFT, RIGHT, STRAIGHT
from .rigs import HEADINGS_INSIDE, HEADINGS_OUTSIDE, bend, some_job
from .worked import job_bytes, make_job, sample_1988

MOST_U32, LEAST_I32, MOST_I32 = 4_294_967_295, -(1 << 31), (1 << 31) - 1
COUNTS = [0, 5, 1 << 63, (1 << 64) - 1]
UNITS = [(50_000, 2_000, 0), (80_000, -3_000, -500), (60_000, 0, 200)]
BASE = make_job(UNITS, [(12_000, STRAIGHT, 0), (20_000, RIGHT, 100_000), (7_001, LEFT, 60_000)], 5_000)
STATIONS = 10


def with_unit(job, u, **changes):
    units = list(job.vehicle.units)
    units[u] = units[u]._replace(**changes)
    return job._replace(vehicle=job.vehicle._replace(units=units))


def with_vehicle(job, **changes):
    return job._replace(vehicle=job.vehicle._replace(**changes))


def with_start(job, **changes):
    return job._replace(start=job.start._replace(**changes))


def with_element(job, e, **changes):
    elements = list(job.elements)
    elements[e] = elements[e]._replace(**changes)
    return job._replace(elements=elements)


def vehicle_faults(job):
    jobs = [with_vehicle(job, count=count) for count in COUNTS]
    for u in range(3):
        jobs += [with_unit(job, u, wheelbase=w) for w in (0, 4_999, 200_001, MOST_U32)]
    jobs += [with_unit(job, 0, hitch=h) for h in (50_001, -50_001, LEAST_I32, MOST_I32)]
    jobs += [with_unit(job, 2, hitch=h) for h in (1, -1)] + [with_unit(job, 0, fold=f) for f in (1, -1)]
    jobs += [with_unit(job, 1, fold=f) for f in (-1_001, 991, LEAST_I32, MOST_I32)]
    jobs += [with_vehicle(job, overhang=o) for o in (50_001, MOST_U32)]
    for width in (0, 999, 20_001, MOST_U32):
        jobs += [with_vehicle(job, front=width), with_vehicle(job, rear=width)]
    return jobs


def path_faults(job):
    jobs = [with_start(job, x=c) for c in (100_000_001, -100_000_001, LEAST_I32)]
    jobs += [with_start(job, y=c) for c in (100_000_001, -100_000_001, MOST_I32)]
    jobs += [with_start(job, gx=gx, gy=gy) for gx, gy in HEADINGS_OUTSIDE + [(LEAST_I32, LEAST_I32), (0, 0)]]
    jobs += [job._replace(step=step) for step in (0, 99, 20_001, MOST_U32)]
    jobs += [job._replace(count=count) for count in (0, 4, 65, 1 << 63, (1 << 64) - 1)]
    jobs += [with_element(job, 1, length=length) for length in (0, 40_000_001, MOST_U32)]
    for kind in (LEFT, RIGHT):
        jobs += [with_element(job, 2, kind=kind, radius=r) for r in (0, 1, 19_999, 1_000_001, 1 << 31, MOST_U32)]
    jobs += [with_element(job, 0, length=length) for length in (9_970_000, 9_970_001, 40_000_000)]
    return jobs


def several_faults(job):
    """Two faults or more at once: the lowest number is the first in order."""
    bad_step, bad_start = job._replace(step=0), with_start(job, x=LEAST_I32)
    too_long = with_element(job, 0, length=40_000_000)
    jobs = [with_vehicle(with_unit(job, 0, wheelbase=0), count=0), with_vehicle(with_unit(job, 1, fold=991), rear=0)]
    jobs += [with_vehicle(bad_start, front=MOST_U32), bad_start._replace(step=99), bad_step._replace(count=65)]
    jobs += [with_element(too_long, 2, radius=5), too_long._replace(step=100), bad_step._replace(count=0)]
    return jobs


def sound_jobs():
    """Every end of a range that is inside; unused places hold anything, and nothing reads them."""
    jobs = [with_start(BASE, gx=gx, gy=gy) for gx, gy in HEADINGS_INSIDE[:3]]
    jobs += [with_start(BASE, x=-100_000_000, y=100_000_000), with_element(BASE, 1, radius=1_000_000)]
    jobs += [with_unit(BASE, 0, hitch=50_000), with_unit(BASE, 1, hitch=-80_000, fold=-1_000)]
    jobs += [with_vehicle(BASE, overhang=50_000, front=1_000, rear=20_000), with_element(BASE, 2, radius=20_000)]
    unread = with_unit(BASE, 3, wheelbase=MOST_U32, hitch=LEAST_I32, fold=MOST_I32)
    jobs.append(with_element(unread, 3, length=MOST_U32, kind=LEFT, radius=MOST_U32))
    return jobs


def stale(length, low=-7):
    """A run with something in every entry."""
    return [low - k for k in range(length)]


def four_runs(length):
    return [stale(length, low) for low in (LEAST_I32 + 99, -1, MOST_I32, 77)]


def writes(chance):
    lines = []
    for job in vehicle_faults(BASE) + path_faults(BASE) + several_faults(BASE) + sound_jobs():
        lines.append(line_write(job, [170] * 60))
    for job in [BASE, sample_1988(157_080), some_job(chance, 30, 4, 5)]:
        size = len(job_bytes(job))
        lines += [line_write(job, [255] * n) for n in (0, 1, size - 1, size, size + 3)]
    many = some_job(chance, 200, 4, 64)
    size = len(job_bytes(many))
    lines += [line_write(many, [9] * n) for n in (size - 1, size, 520)]
    lines.append(line_write(BASE._replace(step=0), []))
    lines.append(line_write(many._replace(count=65), []))
    return lines


def lays(chance):
    lines = []
    for job in vehicle_faults(BASE)[::5] + path_faults(BASE) + several_faults(BASE):
        lines.append(line_lay(job, four_runs(STATIONS)))
    lines += [line_lay(job, four_runs(STATIONS + 2)) for job in sound_jobs()]
    for short in range(4):
        runs = four_runs(STATIONS)
        runs[short] = runs[short][:-1]
        lines.append(line_lay(BASE, runs))
    lines.append(line_lay(BASE, [[], [], [], []]))
    lines.append(line_lay(with_element(BASE, 0, length=9_970_000), four_runs(12)))
    lines.append(line_lay(BASE._replace(step=0), [[], [], [], []]))
    longer = (sample_1988(157_080), bend(LEFT, 90_000, 99_999, 4_567, UNITS))
    lines += [line_lay(job, four_runs(90)) for job in longer]
    lines += [line_lay(some_job(chance, 9, None, 4), four_runs(10)) for _ in range(6)]
    return lines
