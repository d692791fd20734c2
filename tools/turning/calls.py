"""Lines of the call vectors: an operation's integers, ' = ', and the integers expected, all apart by one space.

  1 vehicle record stations 7 runs = refusal record 3 runs                placement; a record handed in is overwritten
  2 record stations 7 runs = refusal unit record 3 runs                   step
  3 record stations 3 runs = refusal station width left right             widest
  4 job run = refusal bytes run                                           writer; the number of bytes written
  5 job 4 runs = refusal stations 4 runs                                  laying a path
  6 gx gy s r = refusal gx gy move_x move_y                               path turn
  7 dx dy fx fy wheelbase = refusal dx dy                                 the single unit's turn
  8 job lowest pitch number 7 runs = refusal listed 3 x {wheelbase width} 7 runs   list of settings

  vehicle: form count 4 x {wheelbase hitch fold front_overhang rear_overhang half_width} overhang front_half_width rear_half_width
  record:  vehicle station 4 x {dx dy}
  job:     vehicle x y gx gy step count given, given x {length kind radius}
  run:     its length, then its entries

The form is 0 for short and 1 for long; all four units stand with all six fields in both. A kind is 0 straight, 1 left, 2 right;
element places after those given are straights of length 0. Runs stand in the order xs, ys, gxs, gys, left, right, marks; three runs are the
last three, marks have 32 bits. A refusal is 0 where there is none, and the figures it leaves without meaning are 0.
Each line_* function takes the arguments by value, runs the operation on copies, and writes the line.
"""

from .path import lay, path_turn
from .record import NO_ELEMENT, Refused, write_job
from .settings import MOST_LISTED, list_settings
from .walk import Runs, place, step, unit_turn, widest

PLACE, STEP, WIDEST, WRITE, LAY, PATH_TURN, UNIT_TURN, LIST = range(1, 9)


def flat_vehicle(vehicle):
    units = [value for unit in vehicle.units for value in [*unit[:3], *unit.body]]
    return [vehicle.form, vehicle.count] + units + [vehicle.overhang, vehicle.front, vehicle.rear]


def flat_walk(walk):
    return flat_vehicle(walk.vehicle) + [walk.station] + [c for d in walk.vectors for c in d]


def flat_runs(runs):
    return [value for run in runs for value in [len(run)] + list(run)]


def flat_job(job):
    """A job with its element places up to the last that is not a straight of length 0."""
    given = max([e + 1 for e, element in enumerate(job.elements) if element != NO_ELEMENT], default=0)
    elements = [value for element in job.elements[:given] for value in element]
    return flat_vehicle(job.vehicle) + list(job.start) + [job.step, job.count, given] + elements


def line(operation, arguments, expected):
    return " ".join(map(str, [operation] + arguments)) + " = " + " ".join(map(str, expected))


def copied(runs):
    return Runs(*(list(run) for run in runs))


def line_place(vehicle, walk, asked, runs):
    after, record, number = copied(runs), walk, 0
    try:
        record = place(vehicle, asked, after)
    except Refused as refused:
        number = refused.number
    arguments = flat_vehicle(vehicle) + flat_walk(walk) + [asked] + flat_runs(runs)
    return line(PLACE, arguments, [number] + flat_walk(record) + flat_runs(after[4:]))


def line_step(walk, asked, runs):
    after, record, number, unit = copied(runs), walk, 0, 0
    try:
        record = step(walk, asked, after)
    except Refused as refused:
        number, unit = refused.number, getattr(refused, "unit", 0)
    expected = [number, unit] + flat_walk(record) + flat_runs(after[4:])
    return line(STEP, flat_walk(walk) + [asked] + flat_runs(runs), expected)


def line_widest(walk, asked, left, right, marks):
    try:
        expected = [0] + list(widest(walk, asked, left, right, marks))
    except Refused as refused:
        expected = [refused.number, 0, 0, 0, 0]
    return line(WIDEST, flat_walk(walk) + [asked] + flat_runs((left, right, marks)), expected)


def line_write(job, run):
    after, number, written = list(run), 0, 0
    try:
        written = write_job(job, after)
    except Refused as refused:
        number = refused.number
    return line(WRITE, flat_job(job) + flat_runs([run]), [number, written] + flat_runs([after]))


def line_lay(job, runs):
    after, number, stations = [list(run) for run in runs], 0, 0
    try:
        stations = lay(job, *after)
    except Refused as refused:
        number = refused.number
    return line(LAY, flat_job(job) + flat_runs(runs), [number, stations] + flat_runs(after))


def line_path_turn(g, s, r):
    try:
        heading, move = path_turn(g, s, r)
        expected = [0] + list(heading) + list(move)
    except Refused as refused:
        expected = [refused.number, 0, 0, 0, 0]
    return line(PATH_TURN, list(g) + [s, r], expected)


def line_unit_turn(d, f, wheelbase):
    try:
        expected = [0] + list(unit_turn(d, f, wheelbase))
    except Refused as refused:
        expected = [refused.number, 0, 0]
    return line(UNIT_TURN, list(d) + list(f) + [wheelbase], expected)


def line_list(job, lowest, pitch, number, runs):
    after, refusal, listed = copied(runs), 0, []
    try:
        listed = list_settings(job, lowest, pitch, number, after)
    except Refused as refused:
        refusal = refused.number
    places = listed + [(0, 0)] * (MOST_LISTED - len(listed))
    expected = [refusal, len(listed)] + [value for pair in places for value in pair] + flat_runs(after)
    return line(LIST, flat_job(job) + [lowest, pitch, number] + flat_runs(runs), expected)
