"""Calls of the list of settings: every way its walks end, every side of 29, and what comes before it."""

from .call_records import (BASE, MOST_U32, STATIONS, four_runs, path_faults, several_faults, sound_jobs, vehicle_faults,
                           with_element, with_unit)
from .call_stations import one_short
from .call_walks import stale_reaches
from .calls import copied, line_list
from .record import LEFT, RIGHT, STRAIGHT, Refused, total_steps
from .rigs import some_start
from .settings import INCOMPLETE, STOPPED, outcomes
from .settings_jobs import given_rows
from .walk import Runs
from .worked import make_job

GOOD = (5_000, 1_000, 4)
SHORT = make_job([(6_000, 2_000, 0), (8_000, 0, -300)], [(4_000, STRAIGHT, 0), (9_000, RIGHT, 40_000)], 3_500,
                 widths=(1_000, 1_500, 2_000))
LISTED = make_job([(6_000, 0, 0)], [(12_000, LEFT, 60_000)], 4_000, widths=(0, 1_500, 2_500))
FROM_END_TO_END = make_job([(70_000, 0, 0)], [(220_000, STRAIGHT, 0)], 20_000)


def lent(length):
    """Seven runs with something hostile in every entry."""
    return Runs(*four_runs(length), *stale_reaches(length))


def lent_unevenly(stations, turn):
    """Each run has its own number of entries past the last station, none at all in every third call."""
    extra = [0 if turn % 3 == 0 else (turn + which) % 3 for which in range(7)]
    return Runs(*(run[:stations + more] for run, more in zip(lent(stations + 2), extra)))


def call(job, numbers, turn=0):
    return job, numbers, lent_unevenly(total_steps(job) + 1, turn)


def given_calls():
    return [call(job, numbers, turn) for turn, (job, numbers) in enumerate(given_rows())]


def own_wheelbase_calls():
    """The job's own last wheelbase changes no list, and nor do places that are not in use."""
    jobs = [with_unit(SHORT, 1, wheelbase=w) for w in (5_000, 200_000)]
    jobs.append(with_unit(with_unit(SHORT, 2, wheelbase=1, hitch=7, fold=-1_001), 3, wheelbase=MOST_U32))
    jobs.append(with_element(SHORT, 5, length=MOST_U32, kind=LEFT, radius=3))
    return [call(job, (5_000, 900, 3), turn) for turn, job in enumerate(jobs)]


def limits():
    """Every side of 29; in the last rows settings would come back into the range if a word of 32 bits ran over."""
    numbers = [(5_000, 0, 1), (5_000, 0, 3), (5_000, 1, 0), (5_000, 1, 32), (5_000, 1, 33), (5_000, 1, MOST_U32)]
    numbers += [(4_999, 1, 1), (5_000, 1, 1), (0, 5_000, 2), (0, 0, 0), (MOST_U32, MOST_U32, MOST_U32)]
    numbers += [(200_001, 1, 1), (5_001, 65_000, 4), (6_000, 194_001, 2), (200_000, 1, 2), (MOST_U32, 1, 1)]
    numbers += [(5_000, MOST_U32, 2), (5_000, 1 << 31, 1), (9_000, 1, 1 << 31), (7_000, 200_000, 32)]
    numbers += [(100_000, MOST_U32, 3), (100_000, MOST_U32 - 999, 32), (10_000, 1 << 31, 3), (5_000, 138_547_333, 32)]
    return numbers


def limit_calls():
    calls = [call(LISTED, numbers) for numbers in limits()]
    passing = [(5_000, 65_000, 4), (200_000, MOST_U32, 1), (199_998, 1, 3), (199_969, 1, 32), (6_000, 194_000, 2)]
    return calls + [call(FROM_END_TO_END, numbers, turn) for turn, numbers in enumerate(passing)]


def fault_calls():
    """The job's own faults, alone and before 21 and 29 at once; its last wheelbase is tested though never walked."""
    faulty = vehicle_faults(BASE)[::6] + path_faults(BASE)[::5] + several_faults(BASE)[::2]
    calls = [(job, (0, 0, 33), lent(1)) for job in faulty]
    alone = [vehicle_faults(BASE)[0], vehicle_faults(BASE)[-1], path_faults(BASE)[0], BASE._replace(step=99),
             with_element(BASE, 1, length=0), with_element(BASE, 0, length=9_970_001)]
    calls += [(job, (9_000, 2_000, 2), lent(STATIONS)) for job in alone]
    for last in range(4):
        units = [(6_000, 0, 0)] + [(7_000, 0, -1_000)] * last
        job = make_job(units, [(4_000, STRAIGHT, 0)], 2_000, widths=(0, 1_000, 1_000))
        calls.append((with_unit(job, last, wheelbase=(4_999, 200_001, 0, MOST_U32)[last]), GOOD, lent(3)))
    return calls


def short_calls():
    """21 by each run alone, before 29, and never without need."""
    stations = total_steps(SHORT) + 1
    calls = [(SHORT, GOOD, one_short(lent(stations), which, stations)) for which in Runs._fields]
    calls += [(SHORT, (4_999, 0, 33), one_short(lent(stations), which, stations)) for which in ("gys", "marks")]
    calls += [(SHORT, GOOD, lent(0)), (SHORT, (5_000, 0, 0), lent(0)), (SHORT, GOOD, lent(stations))]
    calls.append((with_element(BASE, 0, length=9_970_000), GOOD, lent(2)))
    return calls + [(SHORT, (5_000, 0, 1), lent(stations)), (sound_jobs()[-1], (5_000, 9_000, 5), lent(STATIONS + 1))]


def some_call(chance, turn):
    """Small units of any kind on a short path from anywhere."""
    count, step = chance.between(1, 4), chance.between(2_500, 5_000)
    wheelbases = [chance.between(5_000, 9_000) for _ in range(count)]
    units = [(w, chance.between(-w // 3, w), chance.pick([-1_000, -300, 500])) for w in wheelbases]
    units = [(w, 0 if u == count - 1 else h, 0 if u == 0 else f) for u, (w, h, f) in enumerate(units)]
    kinds = [chance.pick([STRAIGHT, LEFT, RIGHT]) for _ in range(2)]
    elements = [(chance.between(1, 3 + count) * step - chance.below(99), kind, 0 if kind == STRAIGHT else 25_000)
                for kind in kinds]
    widths = (chance.pick([0, 1_500]), chance.between(1_000, 4_000), chance.between(1_000, 4_000))
    numbers = (chance.between(5_000, 9_000), chance.between(300, 3_000), chance.between(3, 9))
    return call(make_job(units, elements, step, some_start(chance), widths), numbers, turn)


def list_calls(chance):
    """Each a job, three numbers and seven runs."""
    calls = given_calls() + own_wheelbase_calls() + limit_calls() + fault_calls() + short_calls()
    return calls + [some_call(chance, turn) for turn in range(12)]


def lists(chance):
    return [line_list(job, *numbers, runs) for job, numbers, runs in list_calls(chance)]


def list_kind(job, numbers, runs):
    """What a call shows: its refusal, or how many settings fit, where the best of them stands, and which stop."""
    try:
        walks = [result for _, result in outcomes(job, *numbers, copied(runs))]
    except Refused as refused:
        return "refused %d" % refused.number
    kinds = "".join({STOPPED: "x", INCOMPLETE: "-"}.get(result, "o") for result in walks)
    widths = [result for result in walks if result not in (STOPPED, INCOMPLETE)]
    if not widths:
        return {"x": "refused 30, all stopped", "-": "refused 30, none complete"}.get("".join(set(kinds)), "refused 30, both")
    best = widths.index(min(widths))
    place = "first" if best == 0 else "last" if best == len(widths) - 1 else "inside"
    stops = "last stopped" if kinds[-1] == "x" else "some stopped" if "x" in kinds else "none stopped"
    return "%s fit, best %s, %s" % (len(widths) if len(widths) < 4 else "more", place, stops)


def list_kinds(chance):
    """The census of the calls."""
    return [list_kind(*arguments) for arguments in list_calls(chance)]
