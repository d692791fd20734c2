"""Calls of the list of settings with long jobs: every way the walks end, a body's faults before 21 and 29, bodies never read."""

from .call_bodies import UNSOUND_BODIES, WILD_BODIES
from .call_long_records import body_faults, counts, old_overhangs, with_bodies
from .call_records import with_unit, with_vehicle
from .call_settings import GOOD, LISTED, SHORT, call, lent, list_kind
from .call_stations import one_short
from .calls import line_list
from .long_settings_jobs import long_rows
from .record import Body, total_steps
from .walk import Runs
from .worked import dressed

LONG_LISTED = dressed(LISTED, [(500, 700, 2_600)])
LONG_SHORT = dressed(SHORT, [(1_000, 500, 1_700), (0, 1_300, 2_100)])


def given():
    return [call(job, numbers, turn) for turn, (job, numbers) in enumerate(long_rows())]


def faulty():
    """The job's own faults first, bodies included; its last wheelbase and last body are tested though other settings are walked."""
    jobs = body_faults()[::4] + old_overhangs()[:2] + counts()[3:5]
    calls = [(job, (0, 0, 33), lent(1)) for job in jobs]
    alone = [with_unit(LONG_SHORT, 1, body=Body(0, 0, 999)), with_unit(LONG_SHORT, 1, wheelbase=4_999), with_vehicle(LONG_SHORT, overhang=1),
             with_unit(with_unit(LONG_SHORT, 0, body=UNSOUND_BODIES[0]), 1, wheelbase=4_999), with_vehicle(LONG_SHORT, count=12)]
    return calls + [(job, GOOD, lent(total_steps(LONG_SHORT) + 1)) for job in alone]


def never_read():
    """Short jobs whose bodies hold anything, and a long one whose unused units do: the lists of the jobs without."""
    jobs = [with_bodies(SHORT, WILD_BODIES), SHORT, with_bodies(LISTED, WILD_BODIES[1:]), LISTED]
    wild = with_unit(LONG_LISTED, 1, wheelbase=1, hitch=7, fold=-1_001, body=WILD_BODIES[0])
    return [call(job, (5_000, 900, 3), turn) for turn, job in enumerate(jobs + [wild, LONG_LISTED])]


def in_order():
    """21 by some runs, 29 after it, and the list."""
    stations = total_steps(LONG_SHORT) + 1
    calls = [(LONG_SHORT, (4_999, 0, 33), one_short(lent(stations), which, stations)) for which in ("xs", "left", "marks")]
    calls += [(LONG_SHORT, (4_999, 1, 1), lent(stations)), (LONG_SHORT, (199_999, 1, 3), lent(stations)), (LONG_SHORT, GOOD, lent(stations))]
    return calls + [(LONG_LISTED, (200_000, 1, 2), Runs(*([] for _ in range(7)))), call(LONG_LISTED, (5_000, 1_000, 3))]


def lines_of(calls):
    return lambda: [line_list(job, *numbers, runs) for job, numbers, runs in calls()]


LIST_GROUPS = [
    ("lists of long jobs", lines_of(given)),
    ("lists: a body's 5 before 21 and 29", lines_of(faulty)),
    ("lists: bodies that are never read", lines_of(never_read)),
    ("lists: 21, 29 and none", lines_of(in_order)),
]


def long_list_kinds():
    """The census of the calls."""
    return [list_kind(*arguments) for calls in (given, faulty, never_read, in_order) for arguments in calls()]
