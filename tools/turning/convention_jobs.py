"""Jobs for the paper's conventions that sweep can show, one named group for each."""

from .conventions import EDGE_HEADINGS, mirrored
from .record import LEFT, RIGHT, STRAIGHT, Start
from .rigs import bend
from .worked import job_bytes, make_job

UNITS = [(50_000, 2_000, 0), (80_000, -3_000, -500), (60_000, 1_500, -1_000), (90_000, 700, 200)]


def rig(count, last_hitch=0):
    units = UNITS[:count]
    return units[:-1] + [(units[-1][0], last_hitch, units[-1][2])]


def too_long():
    """9 at the number of elements, which stands at another byte in each: other units, other widths of the fields ahead."""
    jobs = []
    for count in (1, 2, 3, 4):
        jobs.append(make_job(rig(count), [(200_001, STRAIGHT, 0)], 100))
        jobs.append(make_job(rig(count), [(100_000, LEFT, 90_000), (100_001, STRAIGHT, 0)], 100, Start(-70, 7_000_000, 0, 10 ** 6)))
        jobs.append(make_job(rig(count), [(40_000_000, RIGHT, 90_000)] * (20 + count), 20_000, Start(90_000_000, 5, 10 ** 6, 0)))
    return jobs


def last_hitches():
    """4 at the last unit's hitch."""
    return [make_job(rig(count, hitch), [(30_000, STRAIGHT, 0)], 5_000)
            for count in (1, 2, 3, 4) for hitch in (1, -1, UNITS[count - 1][0])]


def edge_headings():
    """6 at gx, or a path laid from just such a heading."""
    return [make_job(rig(2), [(120_000, RIGHT, 150_000)], 5_000, Start(0, 0, *image))
            for g in EDGE_HEADINGS for image in mirrored(g)]


def fold_limits():
    """Three units, two fold limits: the one refuses early, the other late or never, at unit 2 and at unit 3."""
    jobs = []
    for kind in (LEFT, RIGHT):
        for limits in ((-1_000, 950), (950, -1_000), (400, 800), (800, 400), (-200, 700), (700, -200)):
            units = [(40_000, 2_000, 0), (60_000, -2_000, limits[0]), (70_000, 0, limits[1])]
            jobs.append(bend(kind, 70_000, 200_000, 4_000, units, 20_000))
    return jobs


def hitches():
    """The same rig with its hitch ahead of the axle and behind it."""
    jobs = []
    for kind in (LEFT, RIGHT):
        for hitch in (15_000, -15_000, 40_000, -40_000, 5_000, -5_000):
            jobs.append(bend(kind, 130_000, 160_000, 5_000, [(40_000, hitch, 0), (50_000, 0, -1_000)], 100_000))
    return jobs


JOB_GROUPS = [
    ("9 stands at the number of elements", too_long),
    ("no hitch on the last unit", last_hitches),
    ("headings off by 2N and a little less or more", edge_headings),
    ("three units, two fold limits", fold_limits),
    ("a hitch ahead of the axle and one behind it", hitches),
]


def group_bytes(jobs):
    return [job_bytes(job) for job in jobs]
