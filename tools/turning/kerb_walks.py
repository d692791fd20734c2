"""Rows of the report about steps and points: which step is first and which point lowest, where a walk stands, and steps that are refused."""

from .kerb_lines import line_report
from .kerb_scenes import moves_of, plain_vehicle, row, rows_aimed, rows_missed, scene, scene_through, small_scene
from .long_rigs import BODIES
from .plane import plus
from .record import LEFT, RIGHT
from .rigs import bend
from .worked import dressed, make_vehicle

BODY = [(2_000, 1_000, 1_200), (500, 4_000, 1_700), (0, 0, 1_000), (900, 700, 1_300)]
FAR_AWAY = [(400_000, 300_000), (410_000, 310_000), (420_000, 290_000), (400_000, 250_000)]


def due_north(steps, vehicle=None, station=0):
    """Steps of 3,000 due north from the origin."""
    return scene_through(vehicle or plain_vehicle(), [(0, 3_000 * k) for k in range(steps + 1)], station)


def vehicles():
    """Rigs in line of one to four units, short and long."""
    rigs = [(6_000, 2_000, 0), (7_000, -3_000, -1_000), (5_000, 5_000, -1_000), (8_000, 0, -1_000)]
    for count in (1, 2, 3, 4):
        units = rigs[:count - 1] + [(rigs[count - 1][0], 0, rigs[count - 1][2])]
        yield make_vehicle(units, (2_000, 1_500, 1_000))
        yield make_vehicle(units, (0, 1_500, 1_600), BODY[:count])


# Which point, which segment.

def level(y, left=-4_000, right=4_000):
    return [(left, y), (right, y)]


def lowest_of_many():
    """A kerb right across the way: two points and more in one step, the lowest is told."""
    rows = []
    for turn, vehicle in enumerate(vehicles()):
        one = due_north(4, vehicle)
        rows += [row(one, level(y)) for y in (5_000 + turn, 2_001, 9_999 - turn)[turn % 2:]]
        rows.append(row(one, [(3_000, -14_000), (-3_000, 1_000 - 2_000 * turn)]))
    return rows


def right_before_left():
    """A kerb drawn from right to left: its first segment meets a right point, a later one the left point of lower number."""
    rows = []
    for turn, vehicle in enumerate(vehicles()):
        one = due_north(3, vehicle)
        for y in (2_500, 5_000 + turn):
            rows.append(row(one, [(5_000, y), (0, y + 10), (-5_000, y)]))
        rows.append(row(one, [(1_600, -9_000), (900, 700), (0, 1_000), (-1_700, 2_900)]))
    return rows


def only_one_segment():
    """Only the last segment is met, only the first, only one in the middle."""
    rows = []
    for turn, vehicle in enumerate(vehicles()):
        one, meeting = due_north(4, vehicle), level(8_000 - 500 * turn, -3_500 + turn)
        far = FAR_AWAY[:turn % 4 + 1]
        rows += [row(one, far + [(40_000, 9_000)] + meeting), row(one, far[:1] + [(-40_000, -9_000), (-5_000, 1_000 * turn), (-1_500, 5_000)])]
        rows.append(row(one, [meeting[0], meeting[1], (40_000, 9_000)] + far))
        rows.append(row(one, [(-90_000, 500), meeting[0], meeting[1], (60_000, 9_000)] + far))
    return rows


def not_a_ring():
    """The last vertex is not joined with the first, nor are three and more in any other order."""
    rows = []
    for turn, vehicle in enumerate(vehicles()):
        one = due_north(3, vehicle)
        y = 3_000 + 800 * turn
        rows += rows_missed(one, [[(-9_000, y), (-9_000, 70_000), (9_000, 70_000), (9_000, y)], [(-9_000, y), (0, -90_000), (9_000, y)]])
    return rows


def doubled_vertices():
    """A vertex that stands twice is a segment of no length among the others."""
    rows = []
    for turn, vehicle in enumerate(vehicles()):
        one = due_north(3, vehicle)
        x = (-1_500, 1_500)[turn % 2]
        rows.append(row(one, [(90_000, 0), (x * 9, 5_000), (x, 5_000), (x, 5_000), (x * 7, 9_000 + turn)]))
    return rows[::2]


# Which step.

def first_before_lowest():
    """A high point is met in an earlier step than point 0: the earlier step is told."""
    rows = []
    for turn, vehicle in enumerate(vehicles()):
        one = due_north(4, vehicle)
        high = len(moves_of(one)[1]) - 1 - turn % 2
        for k in (1, 2):
            old, new = moves_of(one)[k][high]
            rows.append(row(one, [(-30_000, new[1]), (new[0], new[1]), (30_000, 200_000), (-1_500 - turn, 11_000), (-1_400, 11_100)]))
    return rows


def from_midway():
    """The walk stands midway: what its points met before is not seen, and the very next move is."""
    rows = []
    for turn in range(8):
        moves = moves_of(small_scene(turn, 10))
        for steps in (2, 5):
            one = small_scene(turn, 10, steps)
            middle = [((o[0] + n[0]) // 2, (o[1] + n[1]) // 2) for o, n in moves[steps]]
            rows.append(row(one, [middle[turn % 2]]))
            old, new = moves[steps + 1][turn % 2]
            rows.append(row(one, [(old[0] + (-1) ** turn, old[1]), new][turn % 2:]))
    return rows


def next_move_only():
    """Met in the first step to come and in no later one."""
    rows = []
    for turn in range(16):
        one = small_scene(turn, 10, (0, 1, 3, 7)[turn % 4])
        k = one.walk.station + 1
        moves = moves_of(one)[k]
        p = (turn * 5) % len(moves)
        rows += rows_aimed(one, [[moves[p][0]], [plus(moves[p][0], (-1, 0)), plus(moves[p][0], (1, 0))]][turn % 2:][:1], k)
    return rows


def at_the_last_station():
    """None there, though points stand upon the kerb; a walk one station before it still has a step."""
    rows = []
    for turn in range(8):
        one = small_scene(turn, 6, 5)
        before = small_scene(turn, 6, 4)
        stands = moves_of(before)[5][turn % 4][1]
        rows += [row(one, [stands]), row(one, [plus(stands, (-9_000, 0)), plus(stands, (9_000, 0))]), row(before, [stands])]
    one = scene(bend(LEFT, 90_000, 20_000, 3_000, [(50_000, 0, 0)], 3_000))
    return rows + [row(one._replace(asked=1), level(0)), row(due_north(0), [(-1_500, 2_000)])]


def fewer_asked_for():
    """The last station is the last one asked for, though the runs go on."""
    rows = []
    for asked in (1, 2, 3, 4, 5, 6):
        one = due_north(5)._replace(asked=asked)
        rows += [row(one, level(9_500)), row(one, level(2_000 + 3_000 * (asked - 1)))]
    return rows


def staying_put():
    """Stations that stand twice: points that stay put touch what they stand upon, in the first step; others go on."""
    rows = []
    for turn, vehicle in enumerate(vehicles()):
        still = scene_through(vehicle, [(0, 0)] * 3)
        points = [new for _, new in moves_of(still)[1]]
        p = (3 * turn) % len(points)
        rows += [row(still, [points[p]]), row(still, [plus(points[-1 - turn % 2], (-300, -200)), plus(points[-1 - turn % 2], (300, 200))])]
        rows.append(row(still, [plus(points[p], (1, 0))]))
        later = scene_through(vehicle, [(0, 0), (0, 0), (0, 3_000), (0, 3_000), (0, 5_000)], (0, 2, 3)[turn % 3])
        rows.append(row(later, level(2_000 + 3_000 * (turn % 2))))
    return rows


# Refused steps.

def jump(at, steps, vehicle, y=9_000):
    """Due north in steps of 1,000, but the step to station `at` is far longer."""
    places = [(0, 1_000 * k + (y if k >= at else 0)) for k in range(steps + 1)]
    return scene_through(vehicle, places)


def moved_too_far():
    """22 by each unit; met before it, in the very step, and only after it."""
    rows = []
    for u in range(4):
        units = [(20_000, 1_000, 0), (20_000, -1_000, -1_000), (20_000, 0, -1_000), (20_000, 0, -1_000)]
        units[u] = (5_000,) + ((units[u][1],) if u < 3 else (0,)) + units[u][2:]
        one = jump(3, 5, make_vehicle(units, (2_000, 1_500, 1_000)))
        rows += [row(one, level(y)) for y in (3_500, 4_000, 4_001, 8_000, 13_500, 15_500)]
        rows.append(row(jump(1, 3, one.walk.vehicle), level(2_000 if u % 2 else 90_000)))
    alone = jump(2, 4, plain_vehicle(9_999))
    return rows + [row(alone, [(-1_500, y)]) for y in (2_000, 3_000, 3_001, 5_000)] + [row(jump(2, 4, plain_vehicle(10_000)), level(5_000))]


def folded_too_far():
    """23 by each later unit round a bend; kerbs met before it, in the very step, and never."""
    rows = []
    for turn in range(6):
        u, kind = turn % 3 + 1, (LEFT, RIGHT)[turn // 3]
        units = [(35_000, 2_000, 0)] + [(60_000, -2_000, -1_000)] * 2 + [(80_000, 0, -1_000)]
        units[u] = units[u][:2] + (985,)
        job = bend(kind, 60_000, 150_000, 8_000, units, 9_000)
        one = scene(dressed(job, BODIES) if turn % 2 else job)
        moves = moves_of(one)
        last = max(moves)
        freed = one._replace(walk=one.walk._replace(vehicle=one.walk.vehicle._replace(
            units=[unit._replace(fold=-1_000 if k else 0) for k, unit in enumerate(one.walk.vehicle.units)])))
        next_move = moves_of(freed)[last + 1][turn % 2]
        middle = ((next_move[0][0] + next_move[1][0]) // 2, (next_move[0][1] + next_move[1][1]) // 2)
        rows += [row(one, [(900_000, 0)]), row(one, [middle]), row(one, [moves[last][turn % 4][1]]), row(one, [next_move[1]])]
        rows.append(row(one, [moves[1][turn % 2][1], next_move[1]][turn % 2:]))
    return rows


def last_of_all():
    """2,000 steps of standing still, and the first real move is the last; a kerb of 500 vertices met at its last segment; both one more."""
    still = scene_through(plain_vehicle(), [(0, 0)] * 2_000 + [(0, 9)])
    fence = [(9_000 + k % 2, 20 * k) for k in range(499)] + [(-9_000, 9_985)]
    return [row(still, [(-1_500, 2_009)]), line_report(still.walk, 2_002, [run + run[-1:] for run in still.path], 1, [[-1_500], [2_009]]),
            row(due_north(4), fence), row(due_north(4), [(70, 90_000)] + fence)]


WALK_GROUPS = [
    ("the lowest of many points", lowest_of_many),
    ("a right point by the first segment, a left one by a later", right_before_left),
    ("only one segment is met", only_one_segment),
    ("a kerb is no ring", not_a_ring),
    ("a vertex that stands twice", doubled_vertices),
    ("the first step before the lowest point", first_before_lowest),
    ("from midway on", from_midway),
    ("met in the next move only", next_move_only),
    ("at the last station", at_the_last_station),
    ("fewer stations asked for", fewer_asked_for),
    ("points that stay put", staying_put),
    ("22 before a touch and after it", moved_too_far),
    ("23 before a touch and after it", folded_too_far),
    ("the last step and the last segment of all", last_of_all),
]
