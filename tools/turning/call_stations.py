"""Calls of placement, step and widest, continued: lent runs, paths, the drawn rule, equal widths."""

from .call_turns import lengths_at_the_edge, some_vector
from .call_walks import (EMPTY_RECORD, FAR, LEAST_I32, MOST_I32, MOST_U32, MOST_USIZE, ODD_RECORD, laid, midway, small_job,
                         stale_reaches, standing, unsound_records, unsound_vehicles, whole_walk, with_unit, with_vector)
from .calls import line_place, line_step, line_widest
from .plane import N
from .record import LEFT, NO_UNIT, RIGHT, SHORT, STRAIGHT, Unit, Vehicle
from .rigs import HEADINGS_INSIDE, HEADINGS_OUTSIDE, some_heading
from .walk import ZERO, Runs, Walk, own_bits


def one_short(runs, which, asked):
    return runs._replace(**{which: list(getattr(runs, which))[:asked - 1]})


def with_entry(runs, which, k, value):
    run = list(getattr(runs, which))
    run[k] = value
    return runs._replace(**{which: run})


def lent_calls():
    """21 in every way, alone and before all else."""
    walk, asked, runs = midway(3)
    lines = []
    for which in Runs._fields:
        lines.append(line_step(walk, asked, one_short(runs, which, asked)))
        lines.append(line_place(walk.vehicle, EMPTY_RECORD, asked, one_short(runs, which, asked)))
    for wrong in (0, 2_001, 2_002, FAR, MOST_USIZE):
        lines.append(line_step(ODD_RECORD, wrong, with_entry(runs, "xs", 0, MOST_I32)))
        lines.append(line_place(ODD_RECORD.vehicle, walk, wrong, with_entry(runs, "gys", 1, 0)))
    nothing = Runs(*([] for _ in range(7)))
    return lines + [line_step(walk, 1, nothing), line_place(walk.vehicle, walk, 0, nothing)]


def record_calls():
    """27 in every way; unused units hold anything; a later path may be shorter."""
    walk, asked, runs = midway(3)
    lines = [line_step(bad, asked, runs) for bad in unsound_vehicles(walk) + unsound_records(walk, asked)]
    lines += [line_place(bad.vehicle, walk, asked, runs) for bad in unsound_vehicles(walk)[::2]]
    unread = with_unit(walk, 3, wheelbase=1, hitch=LEAST_I32, fold=MOST_I32)
    lines += [line_step(unread, asked, runs), line_place(unread.vehicle, ODD_RECORD, asked, runs)]
    lines += [line_step(walk, shorter, runs) for shorter in (1, 3, 4, 5, 6, 7, asked)]
    lines += [line_place(walk.vehicle, walk, shorter, runs) for shorter in (1, 2, 7)]
    return lines


def single_unit(wheelbase, vectors):
    """A step of one unit to (900, 2,000), its record as handed in."""
    vehicle = Vehicle(SHORT, 1, [Unit(wheelbase, 0, 0)] + [NO_UNIT] * 3, 0, 1_000, 1_000)
    runs = Runs([0, 900], [0, 2_000], [0, 0], [N, N], *stale_reaches(2))
    return line_step(Walk(vehicle, 0, vectors), 2, runs)


def edge_calls():
    """A used vector off L^2 by just 2L, and just beyond; a wheelbase out of range with a vector of its length."""
    lines = [single_unit(wheelbase, [(x, -y)] + [ZERO] * 3)
             for wheelbase, vectors in lengths_at_the_edge() for x, y in vectors]
    lines += [single_unit(w, [(0, w)] + [ZERO] * 3) for w in (0, 4_999, 5_000, 200_000, 200_001, 4_294_967_295)]
    for u in (1, 2, 3):
        for d in ((1, 0), (0, -1), (-FAR, FAR - 1)):
            vectors = [(0, 5_000)] + [ZERO] * 3
            vectors[u] = d
            lines.append(single_unit(5_000, vectors))
    return lines


def shifted(runs, asked, x, y):
    """The path moved so that its last station in use stands at (x, y)."""
    dx, dy = x - runs.xs[asked - 1], y - runs.ys[asked - 1]
    return runs._replace(xs=[c + dx for c in runs.xs], ys=[c + dy for c in runs.ys])


def path_calls():
    """26 just outside and not just inside, at the first entry and the last in use; none past them."""
    walk, asked, runs = midway(2, STRAIGHT)
    lines = []
    for x, y in ((150_000_000, 150_000_000), (-150_000_000, 150_000_000), (-150_000_000, 0)):
        lines.append(line_step(walk, asked, shifted(runs, asked, x, y)))
    for which in ("xs", "ys"):
        for wrong in (150_000_001, -150_000_001, MOST_I32, LEAST_I32):
            lines.append(line_step(walk, asked, with_entry(runs, which, asked - 1, wrong)))
        lines.append(line_place(walk.vehicle, walk, asked, with_entry(runs, which, 0, -150_000_001)))
        lines.append(line_step(walk, asked, with_entry(runs, which, asked, LEAST_I32)))
    for gx, gy in HEADINGS_INSIDE + HEADINGS_OUTSIDE + [(LEAST_I32, LEAST_I32), (0, 0), (MOST_I32, 0)]:
        turned = with_entry(with_entry(runs, "gxs", 0, gx), "gys", 0, gy)
        lines.append(line_place(walk.vehicle, EMPTY_RECORD, asked, turned))
        lines.append(line_step(walk, asked, with_entry(with_entry(runs, "gxs", 8, gx), "gys", 8, gy)))
    return lines


def due_together():
    """Several refusals at once: the order is 21, 26, 27, 25, then 22 and 23 unit by unit."""
    walk, asked, runs = midway(3)
    last, unsound = walk._replace(station=asked - 1), with_vector(walk, 0, ZERO)
    off_path, far = with_entry(runs, "xs", 2, MOST_I32), with_entry(runs, "ys", walk.station + 1, 100_000_000)
    calls = [(unsound, one_short(off_path, "marks", asked)), (last, one_short(runs, "left", asked)),
             (unsound, off_path), (last, off_path), (with_vector(last, 3, (1, 0)), runs), (last, far), (walk, far),
             (with_unit(last, 0, fold=1), far), (with_unit(walk, 1, fold=992), far), (unsound, far)]
    wrong = with_unit(walk, 0, fold=1).vehicle
    placements = [(asked, one_short(off_path, "right", asked)), (asked, off_path), (2_002, off_path), (asked, runs)]
    lines = [line_place(wrong, ODD_RECORD, stations, lent) for stations, lent in placements]
    return lines + [line_step(record, asked, lent) for record, lent in calls]


def standing_still(vectors, folds, wheelbases, move=(0, 0)):
    """A step from (0, 0) by `move`: couplings fold by what the vectors say."""
    count = len(vectors)
    units = [Unit(w, 0, f) for w, f in zip(wheelbases, folds)] + [NO_UNIT] * (4 - count)
    runs = Runs([0, move[0], 5], [0, move[1], 5], [0, 0, N], [N, N, 0], *stale_reaches(3))
    return line_step(Walk(Vehicle(SHORT, count, units, 0, 1_000, 1_000), 0, vectors + [ZERO] * (4 - count)), 3, runs)


def drawn_refusals():
    """22 and 23 at every unit, on the edge and beyond it; a later unit's refusal waits for the earlier one's."""
    north, east, south = (0, 50_000), (50_000, 0), (0, -50_000)
    long, lines = [50_000] * 4, []
    for u in range(1, 4):
        for last in (east, (50_000, -1), south):
            folds = [0] + [-1_000] * (u - 1) + [0]
            lines.append(standing_still([north] * u + [last], folds, long))
    for u in range(4):
        for wheelbase in (9_999, 10_000):
            lengths = [10_001] * u + [wheelbase] + [50_000] * (3 - u)
            lines.append(standing_still([(0, w) for w in lengths], [0, 900, 900, 900], lengths, (0, 10_000)))
    lines.append(standing_still([north, east, (0, 5_000)], [0, 1, 0], [50_000, 50_000, 5_000], (0, 6_000)))
    lines.append(standing_still([north, (0, 5_000), east], [0, 0, 900], [50_000, 5_000, 50_000], (0, 6_000)))
    lines.append(standing_still([north, south], [0, -999], long[:2]))
    lines.append(standing_still([north, south], [0, -1_000], long[:2]))
    return lines


def some_state(chance):
    """A sound record in any attitude on a path of scattered stations whose next one is near."""
    count, stations = chance.between(1, 4), chance.between(2, 12)
    lengths = [chance.between(5_000, 30_000) for _ in range(count)]
    units = [Unit(w, chance.between(-w, w), -1_000) for w in lengths]
    units[-1], units[0] = units[-1]._replace(hitch=0), units[0]._replace(fold=0)
    if count == 1:
        units = [Unit(lengths[0], 0, 0)]
    widths = (chance.below(9_000), 3_000, chance.between(1_000, 9_000))
    vehicle = Vehicle(SHORT, count, units + [NO_UNIT] * (4 - count), *widths)
    vectors = [some_vector(chance, w) for w in lengths] + [ZERO] * (4 - count)
    return Walk(vehicle, chance.below(stations - 1), vectors), stations


def scattered(chance):
    """A step among scattered stations with any headings: many points cross, both ways of every test."""
    walk, stations = some_state(chance)
    length = stations + chance.below(3)
    xs, ys = ([chance.between(-20_000, 20_000) for _ in range(length)] for _ in range(2))
    move, k = some_vector(chance, chance.between(2_500, 5_000)), walk.station
    xs[k + 1], ys[k + 1] = xs[k] + move[0], ys[k] + move[1]
    gxs, gys = zip(*(some_heading(chance) for _ in range(length)))
    left = [chance.pick([2_000_000_000, chance.between(-30_000, 30_000)]) for _ in range(length)]
    right = [chance.pick([-2_000_000_000, chance.between(-30_000, 30_000)]) for _ in range(length)]
    marks = [chance.below(1 << 32) for _ in range(length)]
    return line_step(walk, stations, Runs(xs, ys, gxs, gys, left, right, marks))


def widest_calls(chance):
    """One unit has eight points; the bits above them are set in some marks."""
    left, right, marks = [-5, -9, 0, 7, -9, LEAST_I32], [5, 1, 10, -3, 1, MOST_I32], [255, MOST_U32, 511, 254, 1 << 31 | 255, 255]
    one = standing(small_job(1, STRAIGHT).vehicle)
    lines = [line_widest(one, asked, left, right, marks) for asked in (0, 1, 2, 3, 5, 6, 7, 2_001, 2_002, FAR, MOST_USIZE)]
    lines += [line_widest(one, 6, left[:5], right, marks), line_widest(one, 6, left, right[:5], marks)]
    lines += [line_widest(one, 6, left, right, marks[:5]), line_widest(one, 1, [], [], [])]
    lines += [line_widest(one, 6, left, right, [m & ~128 for m in marks]), line_widest(one, 3, left, right, [MOST_U32 - 255, 254, 127])]
    lines.append(line_widest(one, 3, [2_000_000_000] * 3, [-2_000_000_000, -1_999_999_999, -1_999_999_999], [255] * 3))
    lines.append(line_widest(one, 2, [MOST_I32, MOST_I32], [LEAST_I32, LEAST_I32], [MOST_U32, 511]))
    lines += [line_widest(one, n, [0] * n, [1] * n, [0] * (n - 1) + [255]) for n in (2_001, 2_002)]
    for turn in range(6):
        rig, n = small_job(turn % 4 + 1, STRAIGHT).vehicle, chance.between(8, 14)
        own = own_bits(rig)
        runs = [[chance.between(0, 3) for _ in range(n)] for _ in range(2)]
        lines.append(line_widest(standing(rig), n - 2, *runs, [chance.pick([own, MOST_U32, 2 * own + 1, 0]) for _ in range(n)]))
    return lines


def walk_calls(chance):
    lines = []
    for count, kind, extra in ((1, STRAIGHT, 0), (2, RIGHT, 2), (3, LEFT, 1), (4, RIGHT, 0), (4, LEFT, 3)):
        lines += whole_walk(small_job(count, kind, 14 if count == 4 else 12), extra)
    lines += lent_calls() + record_calls() + edge_calls() + path_calls() + due_together() + drawn_refusals()
    return lines + [scattered(chance) for _ in range(50)] + widest_calls(chance) + long_calls()


def long_calls():
    """A few calls over a hundred stations and more."""
    asked, runs = laid(small_job(4, RIGHT, 110), 3)
    vehicle = small_job(4, RIGHT).vehicle
    walk, _, _ = midway(4)
    return [line_place(vehicle, walk, asked, runs), line_step(walk, asked, runs), line_step(walk, 60, runs)]
