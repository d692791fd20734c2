"""Rows of the report's tests in their order, hostile figures, and touching at the ends of the range."""

from math import gcd

from .call_bodies import UNSOUND_BODIES, WILD_BODIES, long_job, with_body
from .call_turns import lengths_at_the_edge
from .call_walks import (EMPTY_RECORD, FAR, LEAST_I32, MOST_I32, MOST_U32, MOST_USIZE, ODD_RECORD, small_job, standing, unsound_records,
                         unsound_vehicles, with_unit, with_vector, with_vehicle)
from .chance import Chance
from .conventions import shortest_solution
from .kerb_lines import line_report
from .kerb_scenes import moves_of, plain_vehicle, row, scene_through, shifted
from .plane import minus, plus, times
from .record import RIGHT, STRAIGHT
from .rigs import HEADINGS_INSIDE, HEADINGS_OUTSIDE
from .walk import ZERO
from .worked import make_vehicle

END = 150_000_000
WRONG_VERTICES = [0, 501, 502, 65_537, 1 << 32, FAR, MOST_USIZE]
WRONG_STATIONS = [0, 2_002, 65_536, 1 << 32, FAR, MOST_USIZE]
KERB = [[-1_500, 4_000, 9_000], [4_000, 4_100, 20_000]]


def north(station=0):
    """One unit on four stations due north; the kerb above is met in step 1."""
    return scene_through(plain_vehicle(), [(0, 3_000 * k) for k in range(4)], station)


def call(one, vertices=3, kerb=None):
    return line_report(one.walk, one.asked, one.path, vertices, KERB if kerb is None else kerb)


def with_run(one, which, run):
    path = list(one.path)
    path[which] = run
    return one._replace(path=path)


def with_entry(one, which, k, value):
    run = list(one.path[which])
    run[k] = value
    return with_run(one, which, run)


def spoiled(k, which, value):
    """The kerb with one entry changed."""
    kerb = [list(run) for run in KERB]
    kerb[which][k] = value
    return kerb


# 21.

def path_lent():
    one = north()
    rows = [call(one._replace(asked=asked)) for asked in WRONG_STATIONS + [5, 2_001]]
    rows += [call(with_run(one, which, one.path[which][:n])) for which in range(4) for n in (3, 0)]
    return rows + [call(one._replace(path=[[]] * 4)), call(one._replace(asked=3)), call(one._replace(asked=0, path=[[]] * 4))]


def kerb_lent():
    """Vertices not 1 to 500, or a run of the kerb too short; longer ones pass."""
    one = north()
    rows = [call(one, vertices) for vertices in WRONG_VERTICES + [4, 500]]
    for kerb in ([KERB[0][:2], KERB[1]], [KERB[0], KERB[1][:2]], [[], KERB[1]], [KERB[0], []], [[], []]):
        rows.append(call(one, 3, kerb))
    rows += [call(one, vertices, [[], []]) for vertices in (0, 1, MOST_USIZE)]
    rows += [call(one, n, [run + [LEAST_I32] * extra for run in KERB]) for n, extra in ((1, 0), (2, 0), (3, 1), (1, 4), (2, 2))]
    for turn in range(10):  # 500 pass and 501 do not, in runs of 501 and more
        wide = [[9_000 - 3 * turn] + [5_000] * (500 + turn % 3) + [LEAST_I32] * (turn % 2), [8] * (499 - turn % 2) + [MOST_I32 if turn == 8 else 4_000] * (turn + 4)]
        rows += [call(north(turn % 4), 501, wide), call(north(turn % 4), 500, wide)]
    return rows


# 26.

def path_entries():
    one = north()
    rows = [call(with_entry(one, which, k, wrong)) for which in (0, 1) for k in (0, 3) for wrong in (END + 1, -END - 1, MOST_I32, LEAST_I32)[k % 2::2]]
    for k, g in ((0, HEADINGS_OUTSIDE[0]), (3, HEADINGS_OUTSIDE[1]), (2, (0, 0)), (1, (LEAST_I32, LEAST_I32)), (3, (MOST_I32, 0))):
        rows.append(call(with_entry(with_entry(one, 2, k, g[0]), 3, k, g[1])))
    rows += [call(with_entry(with_entry(one, 2, 3, g[0]), 3, 3, g[1])) for g in HEADINGS_INSIDE]
    fewer = one._replace(asked=3)
    return rows + [call(with_entry(fewer, which, 3, value)) for which, value in ((0, MOST_I32), (1, LEAST_I32), (2, 77), (3, 0))]


def kerb_entries():
    """Ticks beyond 150,000,000 in size at any vertex in use are 26; past those in use nothing is read."""
    one, rows = north(), []
    for which in (0, 1):
        for k in (0, 1, 2):
            rows += [call(one, 3, spoiled(k, which, value)) for value in (END + 1, -END - 1, MOST_I32, LEAST_I32, END, -END)[(which + k) % 2::2]]
        rows += [call(one, 2, spoiled(2, which, value)) for value in (END + 1, LEAST_I32)]
        rows += [call(one, 1, spoiled(1, which, value)) for value in (MOST_I32, -END - 1)]
    last = north(3)
    return rows + [call(last, 3, spoiled(2, 1, END + 1)), call(last, 1, [[END], [-END]]), call(last, 2, [[END, -END - 1], [0, 0]])]


# 27.

def records():
    """27 in every way, and what is never read."""
    short, long = standing(small_job(3, STRAIGHT).vehicle, 1), standing(long_job(3, STRAIGHT).vehicle, 1)
    bad = unsound_vehicles(short)[::3] + unsound_vehicles(long)[1::4] + unsound_records(short, 4) + [ODD_RECORD, EMPTY_RECORD]
    bad += [with_body(long, u, body) for u, body in zip((0, 1, 2) * 3, UNSOUND_BODIES)]
    bad += [with_vehicle(long, overhang=1), with_vehicle(long, count=13), with_vehicle(short, count=11)]
    for wheelbase, vectors in lengths_at_the_edge()[::2]:
        bad += [with_vector(standing(plain_vehicle(wheelbase)), 0, vector) for vector in vectors]
    wild = {"wheelbase": MOST_U32, "hitch": LEAST_I32, "fold": MOST_I32, "body": WILD_BODIES[0]}
    bad += [with_unit(short, 3, **wild), with_unit(long, 3, **wild), with_body(short, 0, WILD_BODIES[1]), short, long]
    return [call(north()._replace(walk=walk)) for walk in bad]


def stations_beyond():
    one = north()
    rows = [call(one._replace(walk=one.walk._replace(station=station))) for station in (2, 3, 4, 5, 2_001, FAR, MOST_USIZE)]
    return rows + [call(one._replace(walk=one.walk._replace(station=station), asked=2)) for station in (0, 1, 2, 3)]


# In order.

def mended_one_by_one():
    """Wrong in every way: 21 for the path, 21 for the kerb, 26 for the path, 26 for the kerb, 27, 22, then a touch or none."""
    rows = []
    for turn, vehicle in enumerate((plain_vehicle(), make_vehicle([(6_000, 0, 0), (7_000, 0, -1_000)], (2_000, 1_500, 1_000)),
                                    long_job(3, RIGHT).vehicle)):
        good = scene_through(vehicle, [(0, 3_000 * k) for k in range(4)])
        far = with_entry(good, 1, 1 + turn % 2, 90_000_000)
        unsound = far._replace(walk=(with_unit(far.walk, 0, fold=7), with_vector(far.walk, 1, ZERO), far.walk._replace(station=4))[turn])
        off = with_entry(unsound, (2, 0, 1)[turn], 3, (77, END + 1, LEAST_I32)[turn])
        lent = with_run(off, turn, off.path[turn][:3])
        wild = spoiled(turn, turn % 2, (END + 1, LEAST_I32, MOST_I32)[turn])
        short = [wild[0][:3 - turn % 2], wild[1][:2 + turn % 2]]
        rows += [call(lent, 3, short), call(off, 3, short), call(off, 3, wild), call(unsound, 3, wild), call(unsound), call(far)]
        rows += [call(good), call(off, 0, wild), call(off, 501, wild), call(off._replace(asked=0), 0, wild), call(unsound, 2), call(good, 2, wild)]
        rows += [call(off), call(good, 3, wild), call(good, 3, short), call(unsound, MOST_USIZE), call(far, 0), call(far, 3, wild), call(off, 2)]
    return rows


def two_at_once():
    """Neighbours in the order: the kerb's 21 before the path's 26, either 26 before 27, 27 before 22 and before a touch."""
    one, rows = north(), []
    unsound = [with_unit(one.walk, 0, fold=1), with_vector(one.walk, 0, ZERO), with_vector(one.walk, 2, (1, 0)), one.walk._replace(station=4), ODD_RECORD]
    broken = [with_entry(one, 0, 3, MOST_I32), with_entry(one, 3, 0, 0), with_entry(one, 1, 2, -END - 1)]
    rows += [call(path, vertices) for path in broken for vertices in (0, 4, 501, FAR)]
    rows += [call(one._replace(walk=walk), 3, spoiled(k % 3, k % 2, value)) for k, walk in enumerate(unsound) for value in (END + 1, LEAST_I32)]
    rows += [call(path._replace(walk=walk)) for path in broken for walk in unsound[:3]]
    rows += [call(one._replace(walk=walk), vertices) for walk in unsound for vertices in (0, 501)]
    return rows + [call(with_entry(one, 1, 1, 6_001)._replace(walk=walk)) for walk in unsound[:4]]


# At the ends of the range.

def long_diagonal(turn, parts):
    """A kerb from one end of the range to the other in so many equal ways without a common divisor."""
    way = (2 * (END // parts) - 7 - 2 * turn, 2 * (END // parts) - 20 - turn * 3)
    while gcd(*way) != 1:
        way = (way[0], way[1] - 1)
    start = (-END + turn, -END + 3 * turn)
    return way, [start, plus(start, times(parts, way))]


def floats_go_wrong(kerb, place):
    """Whether 64-bit floats would put the place on another side of the kerb."""
    (x, y), (u, v) = minus(kerb[1], kerb[0]), minus(place, kerb[0])
    by_floats, exact = float(x) * float(v) - float(y) * float(u), x * v - y * u
    return (by_floats > 0) - (by_floats < 0) != (exact > 0) - (exact < 0)


def beside_diagonals():
    """A long kerb and a move that ends upon its line or one place off it: products of 17 digits that differ by 1."""
    rows = []
    for turn in range(60):
        parts = 2 + turn % 7
        way, kerb = long_diagonal(turn, parts)
        on_line = plus(kerb[0], times(parts - 1, way))
        one = scene_through(plain_vehicle(6_000 + turn), [(0, 0), (0, 3_000)])
        end = moves_of(one)[1][0][1]
        x, y = shortest_solution(*way)
        beside = (-y, x)  # the determinant of the way and this is 1
        for k in (0, 1, -1, 2)[turn % 2:3 + turn % 2]:
            place = plus(on_line, times(k, beside))
            turned = kerb[::-1] if turn % 3 else kerb
            if max(map(abs, place)) < END - 200_000 and (turn < 10 or floats_go_wrong(turned, place)):
                rows.append(row(shifted(one, minus(place, end)), turned))
    return rows


def at_the_ends():
    """The rig in each corner of the range and the kerb along its border; points farther out than any kerb."""
    rows = []
    for sx in (-1, 1):
        for sy in (-1, 1):
            places = [(sx * END, sy * END - sy * 3_000 * k) for k in (3, 2, 1, 0)[::sy]]
            one = scene_through(plain_vehicle(), places)
            rows += [row(one, [(-END, sy * END), (END, sy * END)]), row(one, [(sx * END, -END), (sx * END, END)])]
            rows += [row(one, [(sx * (END - 1_500), sy * END)]), row(one, [(-END, -END), (END, END)]), row(one, [(-END, END), (END, -END)])]
    return rows


def large_rigs():
    """Units of 20 m with 5 m overhangs in long steps, placed by chance, with kerbs across the whole range."""
    chance, rows = Chance(2_020), []
    units = [(200_000, -200_000, 0), (200_000, 200_000, -1_000), (200_000, -200_000, -1_000), (200_000, 0, -1_000)]
    for turn in range(14):
        vehicle = make_vehicle(units[4 - turn % 4 - 1:], (0, 20_000, 20_000), [(50_000, 50_000, 20_000)] * (turn % 4 + 1))
        vehicle = vehicle._replace(units=[vehicle.units[0]._replace(fold=0)] + vehicle.units[1:])
        places = [(0, 0)]
        for _ in range(5):
            places.append(plus(places[-1], (chance.between(-120_000, 120_000), chance.between(20_000, 150_000))))
        one = shifted(scene_through(vehicle, places), (chance.between(-140, 140) * 1_000_000, chance.between(-140, 140) * 1_000_000))
        first = chance.pick(list(moves_of(one).values()))[chance.below(8)][1]
        ends = [(chance.between(-END, END), chance.between(-END, END)) for _ in range(3)]
        rows += [row(one, [ends[0], plus(first, (chance.between(-30_000, 30_000), chance.between(-20_000, 50_000))), ends[1]]), row(one, ends)][:1 + turn % 2]
    return rows


REFUSAL_GROUPS = [
    ("21 by the path", path_lent),
    ("21 by the kerb", kerb_lent),
    ("26 by the path", path_entries),
    ("26 by the kerb", kerb_entries),
    ("27 in every way", records),
    ("a station beyond those asked for is 27 here too", stations_beyond),
    ("21, 21, 26, 26, 27, 22 as each is mended", mended_one_by_one),
    ("two at once, next to each other in order", two_at_once),
    ("long kerbs one place off", beside_diagonals),
    ("the rig at the ends of the range", at_the_ends),
    ("large rigs", large_rigs),
]
