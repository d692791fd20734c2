"""Calls of the widest with its walk record: which stations are complete for the rig, and 21, 27 and 24 in order."""

from .call_bodies import SMALL_BODIES, UNSOUND_BODIES, WILD_BODIES, long_job, with_body
from .call_turns import lengths_at_the_edge
from .call_walks import (EMPTY_RECORD, FAR, LEAST_I32, MOST_I32, MOST_U32, MOST_USIZE, ODD_RECORD, small_job, standing,
                         unsound_records, unsound_vehicles, with_unit, with_vector, with_vehicle)
from .calls import line_widest
from .chance import Chance
from .record import LONG, SHORT, STRAIGHT
from .walk import ZERO, own_bits
from .worked import make_vehicle


def rigs(count):
    """A short and a long vehicle of that many units."""
    return [small_job(count, STRAIGHT).vehicle, long_job(count, STRAIGHT).vehicle]


def three(walk, marks):
    """Three stations, the later the narrower."""
    return line_widest(walk, 3, [-3, -2, -1], [3, 2, 1], marks)


def own_points():
    """A station without one of the rig's bits is not complete, however many bits above them it has."""
    lines = []
    for count in (1, 2, 3, 4):
        for form, vehicle in enumerate(rigs(count)):
            own = own_bits(vehicle)
            for p in range(form, 4 * count + 4, 2):
                lines.append(three(standing(vehicle), [MOST_U32 - (1 << p), own, own]))
            lines.append(three(standing(vehicle), [own >> 1, own >> 4, MOST_U32 - own]))
    return lines


def other_rigs():
    """Marks with all bits of a rig of one unit less or more, of six points, and all 32: complete for some rigs and not for others."""
    lines = []
    for count in (1, 2, 3, 4):
        for vehicle in rigs(count):
            own = own_bits(vehicle)
            for marks in ([63, own, MOST_U32], [own >> 4, 16 * own + 15, own], [own >> 4, 63, 0], [own >> 4, own | 1 << 31, own]):
                lines.append(three(standing(vehicle), marks))
    return lines


def in_order():
    """21, 27 and 24 at once, as each is mended; 27 before 24 and 21 before 27 by each run and every number of stations."""
    lines = []
    for count in (1, 2, 3, 4):
        for vehicle in rigs(count):
            walk, own = standing(vehicle, 2), own_bits(vehicle)
            unsound = with_vector(walk, count - 1, ZERO)
            lines += [line_widest(unsound, 3, [0] * 3, [1] * 3, [0] * 2), line_widest(unsound, 3, [0] * 3, [1] * 3, [0] * 3)]
            lines += [line_widest(unsound, 3, [0] * 3, [1] * 3, [own] * 3), line_widest(walk, 3, [0] * 3, [1] * 3, [0] * 3)]
            lines.append(line_widest(walk, 3, [0] * 3, [1] * 3, [0, own, own]))
    lines += [line_widest(ODD_RECORD, asked, [0] * 3, [1] * 3, [MOST_U32] * 3) for asked in (0, 1, 3, 4, 2_002, FAR, MOST_USIZE)]
    lines += [line_widest(ODD_RECORD, 3, *([0] * (3 - (run == short)) for run in range(3))) for short in range(3)]
    return lines + [line_widest(EMPTY_RECORD, 1, [0], [0], [MOST_U32]), line_widest(EMPTY_RECORD, 0, [], [], [])]


def stations_beyond():
    """A station beyond those asked for is 27, though the runs go on; the last one is none."""
    lines = []
    for form, vehicle in ((SHORT, rigs(2)[0]), (LONG, rigs(3)[1])):
        for station in (0, 1, 2, 3, 4, 2_000, 2_001, FAR, MOST_USIZE):
            lines.append(line_widest(standing(vehicle, station), 3, [0] * 4, [form] * 4, [MOST_U32] * 4))
        lines.append(line_widest(standing(vehicle, 3), 4, [0] * 4, [form] * 4, [MOST_U32] * 4))
    return lines


def two(walk):
    """Two stations, both complete for any rig."""
    return line_widest(walk, 2, [-5, -7], [5, 7], [MOST_U32] * 2)


def unsound():
    """27 in every way: measures, bodies, the old overhang, unused vectors, lengths of used ones."""
    short, long = standing(small_job(3, STRAIGHT).vehicle, 1), standing(long_job(3, STRAIGHT).vehicle, 1)
    bad = unsound_vehicles(short) + unsound_vehicles(long)[1::2] + unsound_records(short, 2) + unsound_records(long, 2)[::3]
    bad += [with_body(long, u, body) for u in range(3) for body in UNSOUND_BODIES[u % 2::2]]
    bad += [with_vehicle(long, overhang=overhang) for overhang in (1, 2_000, 50_000, MOST_U32)]
    bad += [with_vehicle(walk, count=count) for walk in (short, long) for count in (11, 12, 13, 14)]
    for wheelbase, vectors in lengths_at_the_edge():
        for x, y in vectors:
            one = standing(make_vehicle([(wheelbase, 0, 0)], (0, 1_000, 1_000), SMALL_BODIES[:1]))
            bad.append(with_vector(one, 0, (-x, y)))
    return [two(walk) for walk in bad]


def unread():
    """A short vehicle's bodies, and everything of units that are not in use, hold anything."""
    lines = []
    for count in (1, 2, 3, 4):
        walk = standing(small_job(count, STRAIGHT).vehicle)
        for u in range(4):
            walk = with_body(walk, u, WILD_BODIES[(u + count) % 4])
        lines.append(two(walk))
        if count < 4:
            wild = {"wheelbase": MOST_U32, "hitch": LEAST_I32, "fold": MOST_I32, "body": WILD_BODIES[count]}
            lines += [two(with_unit(standing(vehicle), 3, **wild)) for vehicle in rigs(count)]
    return lines


def by_chance():
    """Narrow and wide stations, complete and not, for one to four units."""
    chance, lines = Chance(24), []
    for turn in range(16):
        vehicle, n = rigs(turn % 4 + 1)[turn % 2], chance.between(6, 10)
        own = own_bits(vehicle)
        marks = [chance.pick([own, MOST_U32, own | 1 << 20, own - (1 << chance.below(4 * vehicle.count + 4)), chance.below(1 << 32)]) for _ in range(n)]
        left, right = ([chance.between(-3, 3) for _ in range(n)] for _ in range(2))
        lines.append(line_widest(standing(vehicle, chance.below(n - 1)), n - 1, left, right, marks))
    return lines


WIDEST_GROUPS = [
    ("widest: complete means all the rig's points", own_points),
    ("widest: marks of other rigs", other_rigs),
    ("widest: 21, 27, 24 as each is mended", in_order),
    ("widest: a station beyond those asked for is 27", stations_beyond),
    ("widest: 27 in every way", unsound),
    ("widest: what is never read", unread),
    ("widest: wide and narrow stations by chance", by_chance),
]
