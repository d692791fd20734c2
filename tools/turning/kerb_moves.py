"""Rows of the report where a kerb just touches a move, or just does not: ends upon insides, shared ends, collinear ones."""

from math import gcd

from .chance import Chance
from .kerb_scenes import (across, moves_of, off_to_the_side, outside, plain_vehicle, row, rows_aimed, rows_missed, scene_through, small_scene,
                          towing_vehicle)
from .plane import minus, plus, times
from .record import LEFT, RIGHT, STRAIGHT

SCENES = range(8)


def last_step(one):
    return one.asked - 1


def corners(one, k):
    """Points and moves of step k, the outer corners that are easily met alone: the first and the last pair."""
    moves = moves_of(one)[k]
    return [(p, moves[p]) for p in (0, 1, len(moves) - 2, len(moves) - 1)]


def unit_of(move):
    """The shortest whole vector along a move."""
    way = minus(move[1], move[0])
    return (way[0] // gcd(*way), way[1] // gcd(*way))


# Touched.

def new_ends():
    """A kerb of one vertex upon the end of a move, in the first step, one midway and the last."""
    rows = []
    for turn in SCENES:
        one = small_scene(turn)
        for k in (1, 4, last_step(one)):
            p, move = corners(one, k)[(turn + k) % 4]
            rows += rows_aimed(one, [[move[1]]], k)
    return rows


def old_ends():
    """A kerb upon the start of the first move and on no other: the place where the point stands at first."""
    rows = []
    for turn in SCENES:
        one = small_scene(turn, steps=turn % 5)
        k = one.walk.station + 1
        for p, move in corners(one, k)[turn % 2::2]:
            rows += rows_aimed(one, [[move[0]], off_to_the_side(move, p, move[0])][turn % 2:turn % 2 + 1], k, p)
    return rows


def ends_upon_kerbs():
    """The end of the last move inside a kerb segment that reaches to both sides of it."""
    rows = []
    for turn in SCENES:
        one = small_scene(turn, 8)
        for p, move in corners(one, last_step(one))[turn // 2 % 2::2 if turn % 2 else 3]:
            rows += rows_aimed(one, [across(move, move[1], 1, 2), across(move, move[1], 9, 8)], last_step(one))
    return rows


def kerb_ends_upon_moves():
    """A kerb's first or last vertex inside a move, the rest of it beside the rig."""
    rows = []
    for turn in range(12):
        one = small_scene(turn, 8, kinds=(STRAIGHT, LEFT, RIGHT))
        for k, moves in moves_of(one).items():
            for p, move in enumerate(moves[:2]):
                if unit_of(move) != minus(move[1], move[0]):
                    kerb = off_to_the_side(move, p, plus(move[0], unit_of(move)))
                    rows += rows_aimed(one, [kerb if k % 2 else kerb[::-1]], k, p)[:1]
    return rows[:20]


def inner_vertices():
    """A kerb's middle vertex inside a move: both its segments only end there."""
    rows = []
    for turn in range(6):
        one = small_scene(turn, 7, kinds=(STRAIGHT,))
        for p, move in corners(one, 2)[:2]:
            at, aside = plus(move[0], (0, 700 + turn)), outside(p) * -3_000
            rows += rows_aimed(one, [[plus(at, (aside, 900)), at, plus(at, (aside, -400))]], None, p)
    return rows


def shared_ends():
    """A kerb that starts where the last move ends and goes straight on, or back beside it."""
    rows = []
    for turn in SCENES:
        one = small_scene(turn, 6)
        for p, move in corners(one, last_step(one))[:2]:
            way = minus(move[1], move[0])
            on, back = [move[1], plus(move[1], way)], [plus(move[0], (outside(p) * -way[1], outside(p) * way[0])), move[1]]
            rows += rows_aimed(one, [on, back][turn % 2:turn % 2 + 1], last_step(one))
    return rows


def overlapping():
    """Kerbs along a move's own line: the same segment, inside it, around it, over either end, ending at either end."""
    one = scene_through(plain_vehicle(), [(0, 0), (0, 3_000), (0, 6_000), (0, 9_000)])
    rows = []
    for x in (-1_500, 1_500, 1_000):
        for low, high in ((11_000, 12_000), (8_100, 8_900), (5_000, 8_000), (4_000, 9_000), (10_999, 14_000), (11_000, 11_000), (-9_000, 20_000)):
            rows.append(row(one, [(x, low), (x, high)] if low % 2 else [(x, high), (x, low)]))
    for turn in range(4):
        bent = small_scene(turn, 6)
        p, move = corners(bent, 5)[turn % 2]
        way = minus(move[1], move[0])
        rows += rows_aimed(bent, [list(move), [minus(move[0], way), plus(move[1], way)]])
    return rows


# Not touched.

def one_tick_off():
    """The last move ends a tick before the kerb; a kerb ends a tick beside a move; a vertex stands a tick beside it."""
    rows = []
    for turn in SCENES:
        one = small_scene(turn, 7)
        p, move = corners(one, last_step(one))[turn % 2]
        way = minus(move[1], move[0])
        ahead = (0, 1 if way[1] > 0 else -1)
        rows += rows_missed(one, [across(move, plus(move[1], ahead), 0, 8), [plus(move[1], ahead)]])[turn % 2:][:1]
    straight = scene_through(plain_vehicle(), [(0, 0), (0, 3_000), (0, 6_000)])
    for x, y in ((-1_501, 4_000), (1_501, 4_000), (-1_500, 8_001), (1_500, -6_001), (-1_001, -6_000), (-1_000, -6_001), (1_499, 8_001)):
        rows += [row(straight, [(x, y)]), row(straight, [(x * 3, y + (y > 5_000) * 700), (x, y)])]
    return rows


def collinear_apart():
    """On a move's own line, but a tick ahead of the last one's end or behind the first one's start."""
    rows = []
    for turn in SCENES:
        one = small_scene(turn, 6)
        p, move = corners(one, last_step(one))[turn % 2]
        rows += rows_missed(one, [[plus(move[1], unit_of(move)), plus(move[1], times(5, minus(move[1], move[0])))]])
    straight = scene_through(towing_vehicle(), [(0, 0), (0, 3_000), (0, 6_000), (0, 9_000)])
    for low, high in ((11_001, 11_001), (11_001, 20_000), (-20_000, -13_001), (-13_001, -13_001), (13_000, 15_000), (-13_001, -14_000)):
        rows += [row(straight, [(-1_500, low), (-1_500, high)]), row(straight, [(1_000, high), (1_000, low)])]
    return rows


def boxes_only():
    """A slanted kerb in whose box the moves lie, and which stays clear of them."""
    rows = []
    for turn in SCENES:
        one = small_scene(turn, 8, kinds=(STRAIGHT, LEFT))
        xs, ys = [x for x in one.path[0]], [y for y in one.path[1]]
        low, high = min(ys) - 60_000, max(ys) + 30_000
        left, right = min(xs) - 30_000, max(xs) + 30_000
        rows += rows_missed(one, [[(left, low), (right, low), (right, high), (left, high), (left, low + 1)], [(left, high - 1_000), (right * 9, low - 900_000)],
                                  [(right, high - 9), (left * 9, low - 900_000)]])
    return rows


# Crossed.

def crossed():
    """Kerbs square across one point's move, in every step."""
    rows = []
    for turn in SCENES:
        one = small_scene(turn, 7)
        for k in (1, 2, 3, 5, 6)[turn % 2:]:
            p, move = corners(one, k)[(turn + k) % 4]
            rows += rows_aimed(one, [across(move, plus(move[0], (unit_of(move)[0] // 3, unit_of(move)[1] // 3)), 1 + turn, 1 + k)])
    return rows[::2]


def every_point():
    """One-vertex kerbs on the ends of each point's moves: a low number as well as the highest comes out."""
    rows = []
    for turn in range(8):
        one = small_scene(turn, 12)
        moves = moves_of(one)
        for p in range(turn % 2, len(moves[1]), 2):
            aimed = [found for k in ((9, 5), (5, 11), (11, 2), (3, 7))[(turn + p) % 4] for found in rows_aimed(one, [[moves[k][p][1]]], k, p)]
            rows += aimed[:1]
    return rows


def scattered():
    """Kerbs of two to nine vertices strewn about the walk by chance, far and near."""
    chance, rows = Chance(4_004), []
    for turn in range(36):
        one = small_scene(turn, chance.between(5, 12), chance.below(3), (STRAIGHT, LEFT, RIGHT))
        moves = list(moves_of(one).values())
        at, size = chance.pick(moves)[chance.below(8)][1], chance.pick([3, 900, 6_000, 30_000])
        kerb = [plus(at, (chance.between(-size, size), chance.between(-size, size))) for _ in range(chance.between(1, 9))]
        rows.append(row(one, kerb, turn % 4))
    return rows


MOVE_GROUPS = [
    ("a vertex upon the end of a move", new_ends),
    ("a vertex upon the start of the first move", old_ends),
    ("a move that ends upon a kerb", ends_upon_kerbs),
    ("a kerb that ends upon a move", kerb_ends_upon_moves),
    ("a kerb's middle vertex upon a move", inner_vertices),
    ("ends shared", shared_ends),
    ("collinear, overlapping", overlapping),
    ("one tick off", one_tick_off),
    ("collinear, apart", collinear_apart),
    ("boxes that overlap, and no more", boxes_only),
    ("moves crossed", crossed),
    ("each point alone", every_point),
    ("kerbs by chance", scattered),
]
