"""Calls of the writer and of laying a path with long jobs by value, and with short ones whose bodies hold anything."""

from .call_bodies import UNSOUND_BODIES, WILD_BODIES
from .call_records import (BASE, LEAST_I32, MOST_I32, MOST_U32, STATIONS, four_runs, path_faults, sound_jobs, with_element,
                           with_start, with_unit, with_vehicle)
from .calls import line_lay, line_write
from .long_rigs import LARGEST_BODY, SMALLEST_BODY, longest
from .record import SHORT, Body
from .worked import LONG_STRAIGHT, dressed, job_bytes, read_job

LONG_BASE = dressed(BASE, [(9_000, 11_000, 12_500), (0, 50_000, 1_000), (50_000, 0, 20_000)])


def with_body(job, u, body):
    return with_unit(job, u, body=body)


def with_bodies(job, bodies):
    for u, body in enumerate(bodies):
        job = with_body(job, u, Body(*body))
    return job


def body_faults():
    return [with_body(LONG_BASE, u, body) for u in range(3) for body in UNSOUND_BODIES]


def old_overhangs():
    return [with_vehicle(LONG_BASE, overhang=overhang) for overhang in (1, 9_000, 50_000, 50_001, MOST_U32)]


def counts():
    """By value a long job has 1 to 4 units; 11 to 14 are 3, and in a short one too."""
    jobs = [with_vehicle(LONG_BASE, count=count) for count in (0, 5, 10, 11, 12, 13, 14, 15, 1 << 63, (1 << 64) - 1)]
    return jobs + [with_vehicle(BASE, count=count) for count in (11, 13, 14)]


def in_order():
    """Two faults at once: a unit's 4, then its body's 5, then the next unit's 4; the old fields after all bodies, the start after them."""
    bad, jobs = Body(0, 50_001, 1_000), []
    for u in range(3):
        jobs.append(with_body(with_vehicle(LONG_BASE, count=11), u, bad))
        for wrong in ({"wheelbase": 4_999}, {"hitch": -200_001}, {"fold": 991}):
            jobs.append(with_unit(LONG_BASE, u, body=bad, **wrong))
            jobs += [with_unit(with_body(LONG_BASE, u, bad), later, **wrong) for later in range(u + 1, 3)]
            jobs += [with_unit(with_body(LONG_BASE, u, bad), earlier, **wrong) for earlier in range(u)]
    jobs += [with_start(with_body(LONG_BASE, 2, bad), gx=0, gy=0), with_start(with_vehicle(LONG_BASE, overhang=1), x=MOST_I32)]
    return jobs + [with_vehicle(LONG_BASE, overhang=1)._replace(step=0), with_vehicle(LONG_BASE, front=999)._replace(step=99)]


def sound():
    """Bodies at the ends of their ranges; units and elements that are not in use hold anything."""
    jobs = [LONG_BASE, with_bodies(LONG_BASE, [LARGEST_BODY] * 3), with_bodies(LONG_BASE, [SMALLEST_BODY] * 3)]
    unread = with_unit(LONG_BASE, 3, wheelbase=MOST_U32, hitch=LEAST_I32, fold=MOST_I32, body=WILD_BODIES[0])
    jobs.append(with_element(unread, 3, length=MOST_U32, kind=2, radius=MOST_U32))
    return jobs + [read_job(LONG_STRAIGHT), with_vehicle(LONG_BASE, form=SHORT, overhang=50_000)]


def unread_bodies():
    """Short jobs whose bodies hold anything: they are written and laid as if all were zero."""
    jobs = [with_bodies(BASE, WILD_BODIES), with_bodies(sound_jobs()[3], WILD_BODIES[::-1])]
    jobs += [with_bodies(job, WILD_BODIES[1:] + WILD_BODIES[:1]) for job in sound_jobs()[4:7]]
    return jobs + [with_body(BASE, u, Body(*LARGEST_BODY)) for u in range(4)]


def of_long(job):
    return dressed(job, [(9_000, 11_000, 12_500)] * 3)


def fault_lines():
    jobs = body_faults() + old_overhangs() + counts() + in_order()
    lines = [line_write(job, [170] * 3) for job in jobs]
    lines += [line_lay(job, four_runs(1)) for job in jobs[::3]]
    return lines + [line_write(of_long(job), [170] * 3) for job in path_faults(BASE)[::6]]


def fitting(job):
    """A buffer that holds the record and two bytes more."""
    return [170] * (len(job_bytes(job)) + 2)


def sound_lines():
    lines = [line_write(job, fitting(job)) for job in sound() + unread_bodies()]
    return lines + [line_lay(job, four_runs(STATIONS if job.count > 1 else 16)) for job in sound()[:5] + unread_bodies()[::2]]


def short_of_room():
    """28 for a long record, and none where it just fits; the longest record that is accepted."""
    lines = []
    for job in (LONG_BASE, read_job(LONG_STRAIGHT)):
        size = len(job_bytes(job))
        lines += [line_write(job, [255] * n) for n in (0, size - 1, size, size + 2)]
    lines += [line_write(longest(), [9] * n) for n in (492, 493)]
    runs = four_runs(STATIONS)
    lines += [line_lay(LONG_BASE, [run[:STATIONS - (k == short)] for k, run in enumerate(runs)]) for short in (0, 3)]
    return lines + [line_write(with_body(LONG_BASE, 0, UNSOUND_BODIES[0]), []), line_lay(with_vehicle(LONG_BASE, overhang=1), [[]] * 4)]


RECORD_GROUPS = [
    ("by value: a body's 5, an old overhang, 11 units", fault_lines),
    ("by value: long records, bodies never read", sound_lines),
    ("by value: 28 and 21 of long jobs", short_of_room),
]
