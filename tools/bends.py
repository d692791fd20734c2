#!/usr/bin/env python3
"""Wrong rules, one at a time: how many rows of the tables of job_trials and call_trials each would change.

Each is a change of a scratch copy of tools/turning; every row is then computed again. Jobs of over 300 steps are left out, for time.
"""
import pathlib
import re
import shutil
import subprocess
import sys
import tempfile

TOOLS = pathlib.Path(__file__).resolve().parent
CRATES = TOOLS.parent / "crates"
LEAST = 10  # rows that each wrong rule must change

CROSSED = "- level < 0 <= nx"
STEP_TESTS = "    test_path(asked, runs)\n    test_record(walk, asked)\n"
PLACE_TESTS = "    test_path(asked, runs)\n    test_vehicle(vehicle)\n"
LENT_PATH = "    test_lent(asked, runs)\n    test_path(asked, runs)\n    test_record"
TOO_FAR = "        if moves_too_far(f, unit.wheelbase):\n            raise RefusedAt(22, u + 1)\n"
HITCH_OF = "        old_front, new_front = hitch_of(unit, old_front, d)"
LENGTH = "k * k) <= 2 * k"

BENDS = [
    ("left is cleared to 0", "walk", [("CLEARED_RIGHT = 2_000_000_000", "CLEARED_RIGHT = 0")]),
    ("a positive reach lies to the left", "walk", [("return nearest(dot", "return -nearest(dot")]),
    ("left and right points exchanged", "walk", [("times(sign * side", "times(-sign * side")]),
    ("the fold limit of the unit ahead", "walk", [("unit.fold,", "vehicle.units[u - 1].fold,")]),
    ("unit 2's fold limit for all", "walk", [("unit.fold,", "vehicle.units[1].fold,")]),
    ("the last unit's fold limit for all", "walk", [("unit.fold,", "vehicle.units[vehicle.count - 1].fold,")]),
    ("a hitch on the last unit", "record", [("return hitch == 0 if is_last else abs", "return abs")]),
    ("9 placed at byte 0", "record", [("Refused(9, count_at)", "Refused(9, 0)")]),
    ("27 before 26, stepping", "walk", [(STEP_TESTS, "    test_record(walk, asked)\n    test_path(asked, runs)\n")]),
    ("27 before 26, placing", "walk", [(PLACE_TESTS, "    test_vehicle(vehicle)\n    test_path(asked, runs)\n")]),
    ("26 before 21", "walk", [(LENT_PATH, "    test_path(asked, runs)\n    test_lent(asked, runs)\n    test_record")]),
    ("25 before 27", "walk", [(STEP_TESTS, STEP_TESTS.replace("    test_record", "    test_not_last(walk, asked)\n    test_record"))]),
    ("station = asked let pass", "walk", [("walk.station > asked - 1", "walk.station > asked")]),
    ("a rig placed backwards", "walk", [("times(unit.wheelbase, g)", "times(-unit.wheelbase, g)")]),
    ("from 0 or below to above 0", "walk", [(CROSSED, "- level <= 0 < nx")]),
    ("from 0 crosses", "walk", [(CROSSED, "- level <= 0 <= nx")]),
    ("to 0 does not cross", "walk", [(CROSSED, "- level < 0 < nx")]),
    ("station 0 is not crossed", "walk", [("if ox * gx", "if k > 0 and ox * gx")]),
    ("the last station is not crossed", "walk", [("if ox * gx", "if k < len(entries) - 1 and ox * gx")]),
    ("23 before 22 within a unit", "walk", [(TOO_FAR, ""), (HITCH_OF, TOO_FAR + HITCH_OF)]),
    ("22 of every unit before any 23", "walk",
     [("    new = []\n    for u,", "    new, folded = [], None\n    for u,"),
      ("raise RefusedAt(23, u + 1)", "folded = folded or RefusedAt(23, u + 1)"),
      ("    return new + [ZERO]", "    if folded:\n        raise folded\n    return new + [ZERO]")]),
    ("a hitch behind the axle taken as ahead", "walk", [("times(unit.hitch, d)", "times(abs(unit.hitch), d)")]),
    ("a hitch ahead of the axle taken as behind", "walk", [("times(unit.hitch, d)", "times(-abs(unit.hitch), d)")]),
    ("a heading off by 2N + 1 passes", "plane", [(LENGTH, "k * k) <= 2 * k + (k == N)")]),
    ("a heading off by -(2N + 3) passes", "plane", [(LENGTH, "k * k) <= 2 * k + (3 if dot(v, v) < k * k == N * N else 0)")]),
    ("a heading off by 2N - 7 does not", "plane", [(LENGTH, "k * k) <= 2 * k - (8 if dot(v, v) > k * k == N * N else 0)")]),
    ("a heading off by -(2N - 1) does not", "plane", [(LENGTH, "k * k) <= 2 * k - (2 if dot(v, v) < k * k == N * N else 0)")]),
]

LONG_SHAPE = "Shape(body.front, body.rear, body.half_width, body.half_width)"
FIRST_SHAPE = "Shape(vehicle.overhang, 0, vehicle.front, vehicle.rear)"
LATER_SHAPE = "Shape(0, 0, vehicle.rear, vehicle.rear)"
FIRST_TAIL, LATER_TAIL = "True, -shapes[0].rear,", "True, -shapes[u].rear,"
FRONT_PAIR = "        pairs.append((u, False, shapes[u].front, shapes[u].front_half_width))\n"
REAR_PAIR = "        pairs.append((u, True, -shapes[u].rear, shapes[u].rear_half_width))\n"
OWN_BITS = "(1 << 4 * vehicle.count + 4) - 1"
WIDEST_TESTS = "    test_lent(asked, (left, right, marks))\n    test_record(walk, asked)\n"
UNIT_LOOP = """    for u, unit in enumerate(vehicle.units[:vehicle.count]):
        fault = unit_fault(unit, vehicle.form, u == 0, u == vehicle.count - 1)
        if fault:
            return fault
"""
FOURS_FIRST = """    faults = [unit_fault(unit, vehicle.form, u == 0, u == vehicle.count - 1) for u, unit in enumerate(vehicle.units[:vehicle.count])]
    if any(faults):
        return min(fault for fault in faults if fault)
"""
BODY_FAULT = "5 if form == LONG and not body_allowed(unit.body) else 0"
HITCH_GOOD = "    hitch_is_good = hitch_allowed(unit.hitch, unit.wheelbase, is_last)\n"
READ_BODY = "read_body(cursor) if form == LONG else NO_BODY"
READ_WHEELBASE = "    wheelbase = cursor.number(4, wheelbase_allowed)\n"

LONG_BENDS = [
    ("points 0 and 1 of a long rig as wide as 2 and 3", "walk",
     [(LONG_SHAPE, "Shape(body.front, body.rear, body.half_width if u else vehicle.front, body.half_width)")]),
    ("points 2 and 3 of a long rig as wide as its first body", "walk",
     [("(0, False, 0, vehicle.front)", "(0, False, 0, shapes[0].front_half_width)")]),
    ("points 4 and 5 of a long rig as wide as its last body", "walk",
     [("(last, True, 0, vehicle.rear)", "(last, True, 0, shapes[last].rear_half_width)")]),
    ("front and rear overhang exchanged", "walk",
     [(LONG_SHAPE, "Shape(body.rear, body.front, body.half_width, body.half_width)")]),
    ("tails ahead of the axle", "walk", [(FIRST_TAIL, "True, shapes[0].rear,"), (LATER_TAIL, "True, shapes[u].rear,")]),
    ("the first unit has no tail", "walk", [(FIRST_TAIL, "True, 0,")]),
    ("later units have no front overhang", "walk", [("False, shapes[u].front,", "False, 0,")]),
    ("corners of later units by the first wheelbase", "walk", [("vehicle.units[u].wheelbase))", "vehicle.units[0].wheelbase))")]),
    ("a short rig's first rear corners as wide as its front", "walk",
     [(FIRST_SHAPE, "Shape(vehicle.overhang, 0, vehicle.front, vehicle.front)")]),
    ("a short rig's later corners as wide as its front", "walk", [(LATER_SHAPE, "Shape(0, 0, vehicle.front, vehicle.front)")]),
    ("a short rig's later units have its overhang", "walk",
     [(LATER_SHAPE, "Shape(vehicle.overhang, 0, vehicle.rear, vehicle.rear)")]),
    ("a short rig's first unit has its overhang behind", "walk",
     [(FIRST_SHAPE, "Shape(vehicle.overhang, vehicle.overhang, vehicle.front, vehicle.rear)")]),
    ("a short rig's bodies are read", "walk",
     [("if vehicle.form == LONG:", "if vehicle.form == LONG or vehicle.units[u].body.half_width:")]),
    ("rear corners numbered before front ones", "walk", [(FRONT_PAIR + REAR_PAIR, REAR_PAIR + FRONT_PAIR)]),
    ("only the first and the last unit have corners", "walk",
     [("for u in range(1, vehicle.count):", "for u in range(max(1, vehicle.count - 1), vehicle.count):")]),
    ("complete means the six points", "walk", [(OWN_BITS, "63")]),
    ("complete means twenty points", "walk", [(OWN_BITS, "(1 << 20) - 1")]),
    ("complete without the last unit's rear corners", "walk", [(OWN_BITS, "(1 << 4 * vehicle.count + 2) - 1")]),
    ("bits above the rig's spoil a mark", "walk", [("marks[k] & own == own", "marks[k] == own")]),
    ("placement leaves the bits above eight", "walk",
     [("CLEARED_LEFT, CLEARED_RIGHT, 0", "CLEARED_LEFT, CLEARED_RIGHT, runs.marks[k] >> 8 << 8")]),
    ("a step clears the bits above the rig's", "walk",
     [("    runs.marks[k] |= 1 << p", "    runs.marks[k] = runs.marks[k] & (1 << 20) - 1 | 1 << p")]),
    ("widest does not test its record", "walk", [(WIDEST_TESTS, WIDEST_TESTS.split("    test_record")[0])]),
    ("widest tests its vehicle only", "walk",
     [(WIDEST_TESTS, WIDEST_TESTS.replace("test_record(walk, asked)", "test_vehicle(walk.vehicle)"))]),
    ("widest lets a station beyond pass", "walk",
     [(WIDEST_TESTS, WIDEST_TESTS.replace("(walk, asked)", "(walk, walk.station + 1)"))]),
    ("27 before 21, widest", "walk", [(WIDEST_TESTS, "".join(reversed(WIDEST_TESTS.splitlines(True))))]),
    ("24 before 27, widest", "walk",
     [(WIDEST_TESTS, WIDEST_TESTS.split("    test_record")[0]), ("    k = max(complete", "    test_record(walk, asked)\n    k = max(complete")]),
    ("bodies by value are not tested", "record", [(BODY_FAULT, "0")]),
    ("a short rig's bodies are tested where not zero", "record",
     [(BODY_FAULT, BODY_FAULT.replace("form == LONG", "(form == LONG or unit.body != NO_BODY)"))]),
    ("a long job keeps its old overhang", "record", [("return overhang == 0 if form == LONG else ", "return ")]),
    ("every unit's 4 before any body's 5, by value", "record", [(UNIT_LOOP, FOURS_FIRST)]),
    ("a body's 5 before its unit's 4, by value", "record", [(HITCH_GOOD, "    if " + BODY_FAULT + ":\n        return 5\n" + HITCH_GOOD)]),
    ("a body read before its unit's wheelbase", "record",
     [(READ_WHEELBASE, "    body = " + READ_BODY + "\n" + READ_WHEELBASE), ("fold, " + READ_BODY, "fold, body")]),
    ("10 to 13 announce a long job", "record", [("LONG_FROM = 10", "LONG_FROM = 9")]),
    ("11 to 14 units by value", "record",
     [("    if not 1 <= vehicle.count <= MOST_UNITS", "    if not 1 <= vehicle.count - (10 if vehicle.form == LONG and vehicle.count > 10 else 0) <= MOST_UNITS")]),
    ("a long record starts with 1 to 4", "record", [("(LONG_FROM if v.form == LONG else 0)", "0")]),
]

COUNTER = """
import pathlib, sys
from turning.tables import call_again, job_again

def changes(again, line):
    try:
        return again(line) != line
    except (IndexError, ZeroDivisionError, OverflowError, MemoryError):
        return True

jobs, calls = (pathlib.Path(name).read_text().splitlines() for name in sys.argv[1:])
print(sum(changes(job_again, line) for line in jobs), sum(changes(call_again, line) for line in calls))
"""


def steps_told(line):
    found = re.search(r"steps? (\d+)", line)
    return int(found.group(1)) if found else 0


def bent_copy(folder, module, changes):
    shutil.copytree(TOOLS / "turning", folder / "turning")
    path = folder / "turning" / (module + ".py")
    text = path.read_text()
    for old, new in changes:
        if text.count(old) != 1:
            raise SystemExit("%s stands %d times in %s" % (repr(old), text.count(old), module))
        text = text.replace(old, new)
    path.write_text(text)


def rows_changed(module, changes, jobs):
    """Rows of jobs.txt and of calls.txt that the wrong rule answers otherwise."""
    with tempfile.TemporaryDirectory() as name:
        folder = pathlib.Path(name)
        bent_copy(folder, module, changes)
        short = folder / "jobs.txt"
        short.write_text("".join(line + "\n" for line in jobs))
        command = [sys.executable, "-B", "-c", COUNTER, str(short), str(CRATES / "call_trials" / "data" / "calls.txt")]
        told = subprocess.run(command, cwd=folder, check=True, capture_output=True, text=True).stdout
    return [int(word) for word in told.split()]


def main():
    lines = (CRATES / "job_trials" / "data" / "jobs.txt").read_text().splitlines()
    jobs = [line for line in lines if steps_told(line) <= 300]
    if rows_changed("plane", [], jobs) != [0, 0]:
        raise SystemExit("the tables are not what the method says")
    enough = True
    for name, module, changes in BENDS + LONG_BENDS:
        of_jobs, of_calls = rows_changed(module, changes, jobs)
        enough = enough and of_jobs + of_calls >= LEAST
        print("%-54s %4d jobs, %4d calls" % (name, of_jobs, of_calls), flush=True)
    return 0 if enough else 1


if __name__ == "__main__":
    sys.exit(main())
