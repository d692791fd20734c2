"""The paper's worked cases, each a name and whether it holds."""

from .path import lay, path_turn
from .plane import nearest, settle
from .record import (LONG, NO_BODY, NO_ELEMENT, NO_UNIT, RIGHT, SHORT, STRAIGHT, Body, Element, Job, Refused, Start, Unit,
                     Vehicle, job_fields, read_job, read_number, signed_of, total_steps, write_job)
from .sweep import sweep
from .walk import folds_too_far, unit_turn

WORKED_STRAIGHT = bytes.fromhex("01D086030000904EE05DE05D00000080897A882701E8FB0300")
WORKED_TEXT = "steps 13\nwidest 3 24000 -12000 12000\nfront 0 65000\n"
# Document 002's samples of 84 and 115 steps; at their widest stations no corner reaches farther than the six points.
SAMPLE_TEXTS = ["steps 84\nwidest 34 59020 -17648 41372\nfront 160081 -299969\n",
                "steps 115\nwidest 59 68583 -17972 50611\nfront -139934 -200121\n"]
# The worked straight as a long job: the body is 1,000 wider on each side, and its tail, 8,000 behind the axle, just comes to station 3.
LONG_STRAIGHT = bytes.fromhex("0BD086030000904EC03EC86500E05DE05D00000080897A882701A8BA0400")
LONG_TEXT = "steps 15\nwidest 3 26000 -13000 13000\nfront 0 73000\n"


def refusal(function, *arguments):
    """The refusal's number and place; None where the call is accepted."""
    try:
        function(*arguments)
    except Refused as refused:
        return refused.number, refused.at
    return None


def make_vehicle(units, widths, bodies=None):
    """A vehicle from its used units: a short one, or a long one with these bodies."""
    shapes = [NO_BODY] * len(units) if bodies is None else [Body(*body) for body in bodies]
    places = [Unit(*unit, body) for unit, body in zip(units, shapes)] + [NO_UNIT] * (4 - len(units))
    return Vehicle(SHORT if bodies is None else LONG, len(units), places, *widths)


def make_job(units, elements, step, start=Start(0, 0, 0, 1_000_000), widths=(0, 12_000, 12_000), bodies=None):
    """A job from its used units and elements; bodies make it a long one."""
    vehicle = make_vehicle(units, widths, bodies)
    places = [Element(*e) for e in elements] + [NO_ELEMENT] * (64 - len(elements))
    return Job(vehicle, start, step, len(elements), places)


def dressed(job, bodies):
    """A short job as a long one: its units get the bodies, and the old overhang goes."""
    vehicle = job.vehicle
    units = [unit._replace(body=Body(*body)) for unit, body in zip(vehicle.units[:vehicle.count], bodies)]
    return job._replace(vehicle=vehicle._replace(form=LONG, units=units + [NO_UNIT] * (4 - len(units)), overhang=0))


def long_twin(job):
    """The long job whose corners are where a short one's are; its half widths must be equal."""
    return dressed(job, [(job.vehicle.overhang, 0, job.vehicle.front)] + [(0, 0, job.vehicle.rear)] * 3)


def job_bytes(job):
    return b"".join(job_fields(job))


def sample_1988(arc):
    """Document 002's sample: 6 m straight, a right arc of 10 m, 20 m straight, due east from the origin."""
    units = [(43_000, 1_800, 0), (69_300, 0, -1_000)]
    elements = [(60_000, STRAIGHT, 0), (arc, RIGHT, 100_000), (200_000, STRAIGHT, 0)]
    return make_job(units, elements, 5_000, Start(0, 0, 1_000_000, 0), (15_000, 12_500, 12_500))


def ends_within(job, end, ticks):
    count = total_steps(job) + 1
    xs, ys, gxs, gys = ([0] * count for _ in range(4))
    lay(job, xs, ys, gxs, gys)
    return (xs[-1] - end[0]) ** 2 + (ys[-1] - end[1]) ** 2 <= ticks * ticks


def rule_cases():
    north, d = (0, 1_000_000), (0, 50_000)
    return [
        ("5/2 is 3", nearest(5, 2) == 3),
        ("-5/2 is -3", nearest(-5, 2) == -3),
        ("D0 86 03 is 50,000", read_number(bytes.fromhex("D08603"), 0) == (50_000, 3)),
        ("81 00 is refused 2", refusal(read_number, bytes.fromhex("8100"), 0) == (2, 0)),
        ("signed byte 01 is -1", signed_of(read_number(b"\x01", 0)[0]) == -1),
        ("right turn", path_turn(north, 20_000, 20_000) == ((800_000, 600_000), (8_000, 16_000))),
        ("left turn", path_turn(north, 20_000, -20_000) == ((-800_000, 600_000), (-8_000, 16_000))),
        ("unit turned", unit_turn(d, (30_000, -10_000), 50_000) == (30_000, 40_000)),
        ("unit in line", unit_turn(d, (0, 5_000), 50_000) == (0, 50_000)),
        ("(0, 50001) settled", settle((0, 50_001), 50_000) == (0, 50_000)),
        ("fold limit 0", not folds_too_far(d, (50_000, 0), 0, 50_000, 50_000)
         and folds_too_far(d, (50_000, -1), 0, 50_000, 50_000)),
    ]


def straight_job(wheelbase, step, length):
    return job_bytes(make_job([(wheelbase, 0, 0)], [(length, STRAIGHT, 0)], step))


def straight(wheelbase, step, length):
    return sweep(straight_job(wheelbase, step, length))


def rigs_to_try():
    """The jobs of the paper's "Rigs to try": the worked straight, steps as long as the wheelbase and longer, 2,000 steps and 2,001, and document 002's samples."""
    straights = [straight_job(5_000, 5_000, 5_000), straight_job(5_000, 5_001, 5_001), straight_job(5_000, 100, 200_000), straight_job(5_000, 100, 200_001)]
    return [WORKED_STRAIGHT] + straights + [job_bytes(sample_1988(length)) for length in (157_080, 314_160)]


def written_back(data):
    """The bytes of a job, read and written again."""
    run = [0] * len(data)
    write_job(read_job(data), run)
    return bytes(run)


def same_as_long(job):
    return sweep(job_bytes(long_twin(job))) == sweep(job_bytes(job))


def long_cases():
    shorter = LONG_STRAIGHT.replace(bytes.fromhex("A8BA04"), bytes.fromhex("A7BA04"))  # 72,999 instead of 73,000
    return [
        ("a long straight", sweep(LONG_STRAIGHT) == LONG_TEXT),
        ("a long straight written back", written_back(LONG_STRAIGHT) == LONG_STRAIGHT),
        ("the tail a tick short", sweep(shorter) == "steps 15\nwidest none\nfront 0 72999\n"),
        ("long twins print the same", all(map(same_as_long, [read_job(WORKED_STRAIGHT), sample_1988(157_080), sample_1988(314_160)]))),
    ]


def rig_cases():
    quarter, half = sample_1988(157_080), sample_1988(314_160)
    return [
        ("the worked straight", sweep(WORKED_STRAIGHT) == WORKED_TEXT),
        ("the worked straight written back", written_back(WORKED_STRAIGHT) == WORKED_STRAIGHT),
        ("wheelbase 5,000, step 5,000", straight(5_000, 5_000, 5_000) == "steps 1\nwidest none\nfront 0 5000\n"),
        ("wheelbase 5,000, step 5,001", straight(5_000, 5_001, 5_001) == "refused 22 unit 1 step 1\n"),
        ("2,000 steps", straight(5_000, 100, 200_000).startswith("steps 2000\n")),
        ("2,001 steps", straight(5_000, 100, 200_001) == "refused 9 at 17\n"),
        ("sample of 84 steps", total_steps(quarter) == 84 and ends_within(quarter, (160_000, -300_000), 200)),
        ("sample of 115 steps", total_steps(half) == 115 and ends_within(half, (-140_000, -200_000), 200)),
        ("both samples walked", [sweep(job_bytes(job)) for job in (quarter, half)] == SAMPLE_TEXTS),
    ]


def check_worked():
    """Prints each case; answers whether all hold."""
    cases = rule_cases() + rig_cases() + long_cases()
    for name, holds in cases:
        print("%-34s %s" % (name, "passed" if holds else "FAILED"))
    return all(holds for _, holds in cases)
