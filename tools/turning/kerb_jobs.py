"""Rows of the report from a job's bytes, with a kerb in ticks or in a survey's bytes."""

from .call_walks import FAR, LEAST_I32, MOST_I32, MOST_USIZE
from .chance import Chance
from .jobs import BASE, OVERHANG, STEP, WIDTHS, path_ends, unsigned_ends, vehicle_ends
from .kerb_lines import line_of_job, line_of_survey
from .kerb_samples import how_rounded, line_string, near_half, point, up
from .kerb_scenes import across, kerb_runs, moves_of, scene
from .long_rigs import LARGEST_BODY, SMALLEST_BODY, long_bends, refused_steps, tails
from .plane import plus
from .record import LEFT, RIGHT, STRAIGHT, Start
from .rigs import FOUR_UNITS, bend, bends, extremes, far_out, folded_too_far, moved_too_far
from .worked import LONG_STRAIGHT, WORKED_STRAIGHT, dressed, job_bytes, make_job, sample_1988, straight_job

YARD = [(-30_000, 40_000), (-12_000, 40_000), (-12_000, 90_000)]  # its corner is on the worked straight's left edge
END = 150_000_000


def of_job(job, vertices, spare=0):
    return line_of_job(job_bytes(job), len(vertices), kerb_runs(vertices, spare))


def metres(vertices):
    return [tick / 10_000 for vertex in vertices for tick in vertex]


def geometry(vertices):
    values = metres(vertices)
    return point(*values) if len(vertices) == 1 else line_string(values)


def of_survey(job, vertices):
    return line_of_survey(job_bytes(job), geometry(vertices))


def short_bends():
    """One to four units, short and long, on some forty steps with a bend."""
    jobs = [bend(kind, 90_000, 100_000, 5_000, FOUR_UNITS[:count - 1] + [(FOUR_UNITS[count - 1][0], 0, FOUR_UNITS[count - 1][2])], 30_000)
            for count in (1, 2, 3, 4) for kind in (LEFT, RIGHT)]
    bodies = [(9_000, 11_000, 12_500), (3_000, 20_000, 12_750), (0, 4_000, 10_000), (15_000, 27_000, 13_000)]
    return jobs + [dressed(job, bodies) for job in jobs]


def job_refusals():
    """The job's own refusals come before anything about the kerb, with their place."""
    data, good, bad = job_bytes(BASE), kerb_runs(YARD), [[MOST_I32] * 2, [0]]
    rows = [line_of_job(data[:n], 3, good) for n in (0, 1, 4, 9, 17, 30, len(data) - 1)] + [line_of_job(data + b"\0", 3, good)]
    rows += [line_of_job(wrong, 3, bad if k % 2 else good) for k, wrong in enumerate(vehicle_ends()[::9] + path_ends()[::7])]
    wrong = unsigned_ends(OVERHANG, [50_001]) + unsigned_ends(WIDTHS[0], [999]) + unsigned_ends(STEP, [99, 20_001]) + [straight_job(5_000, 100, 200_001)]
    rows += [line_of_job(data, 3, good) for data in wrong] + [line_of_survey(data, b"") for data in wrong[1:]]
    rows += [line_of_job(WORKED_STRAIGHT[:n], 0, bad) for n in (3, 20, 24)] + [line_of_job(b"\x81\x00", FAR, bad)]
    return rows


def kerb_refusals():
    """Then 21 and 26 by the kerb, without a place, before any step: this job's first step is refused."""
    jobs = [WORKED_STRAIGHT, job_bytes(moved_too_far()[0])]
    rows = []
    for data in jobs:
        for vertices in (0, 4, 501, FAR, MOST_USIZE):
            rows.append(line_of_job(data, vertices, kerb_runs(YARD)))
        rows += [line_of_job(data, 3, [kerb_runs(YARD)[0][:2], kerb_runs(YARD)[1]]), line_of_job(data, 3, [kerb_runs(YARD)[0], []])]
        rows += [line_of_job(data, 2, [[0, wrong], [5, 5]]) for wrong in (END + 1, -END - 1, LEAST_I32)]
        rows += [line_of_job(data, 2, [[MOST_I32, 0], [0]]), line_of_job(data, 1, [[-END, LEAST_I32], [END, MOST_I32]])]
    return rows


def worked():
    """The worked straights beside the yard's corner, a tick away from it, and across."""
    rows = []
    for data in (WORKED_STRAIGHT, LONG_STRAIGHT):
        for x in (-12_001, -12_000, -11_999, -13_000, -13_001, 12_000):
            rows.append(line_of_job(data, 3, kerb_runs([(x - 500, 40_000), (x, 40_000), (x, 90_000)])))
        rows += [line_of_survey(data, geometry([(x, 40_000)])) for x in (-12_001, -12_000, -13_001, -13_000)]
        rows += [line_of_survey(data, geometry([(-90_000, y), (90_000, y)])) for y in (75_000, 75_001, 83_000, 83_001, 5_000)]
    return rows


def samples():
    """Document 002's sample of 84 steps, a kerb inside its bend, one outside it and one that it misses."""
    job = sample_1988(157_080)
    moves = moves_of(scene(job))
    rows = [of_job(job, [moves[k][p][1]]) for k, p in ((84, 0), (40, 5), (62, 7), (30, 10))]
    inside = [(70_000, -110_000), (62_000, -92_000), (90_000, -140_000)]
    return rows + [of_job(job, inside), of_survey(job, inside), of_survey(job, [(0, 20_000), (300_000, 20_000)]), of_survey(job, [(0, 60_000), (300_000, 60_000)])]


def bent():
    """Kerbs upon and across moves of rigs round bends, in ticks and in metres."""
    rows = []
    for turn, job in enumerate(short_bends()):
        moves = moves_of(scene(job))
        k = (1, 7, 19, len(moves))[turn % 4] if len(moves) > 19 else len(moves)
        move = moves[k][(3 * turn) % len(moves[k])]
        rows += [of_job(job, [move[1]], turn % 3), of_job(job, across(move, move[1], 3, turn))]
        rows += [of_survey(job, [plus(move[1], (turn % 2, 0))]), of_survey(job, [(900_000, 0)] + across(move, move[1], turn, 2))]
    return rows


def refused_on_the_way():
    """22 and 23: kerbs met before, and never."""
    rows = []
    for turn, job in enumerate(moved_too_far()[::2] + folded_too_far()[::2] + refused_steps()[::3]):
        moves = moves_of(scene(job))
        away = [(-900_000, 900_000), (-900_000, -900_000)]
        rows.append(of_job(job, away) if turn % 2 else of_survey(job, away))
        if moves:
            last = moves[max(moves)]
            met = [last[turn % len(last)][1]]
            rows.append(of_survey(job, met) if turn % 2 else of_job(job, met))
    return rows


def rows_of_rounding():
    """A point ends its last move just upon the tick that a coordinate comes to, or a tick beside: the product's rounding decides."""
    rows = []
    for turn, k in enumerate(list(range(11, 400, 13)) + [70_001, 123_456, 99_999, 1_234_567]):
        wanted = [(-1, -1)] if turn % 4 == 0 else [(-1, 0), (0, 0), (1, 0)]
        for x in [x for x in near_half(k) if how_rounded(x, k) in wanted][:1]:
            job = make_job([(50_000, 0, 0)], [(5_000, STRAIGHT, 0)], 5_000, Start(k + 1 + 12_000, 7, 0, 1_000_000))
            rows.append(line_of_survey(job_bytes(job), point(x, 0.5007)))
    return rows


def geometry_refusals():
    """After the job's refusals come the geometry's, with their place; then the walk."""
    data, refused = WORKED_STRAIGHT, job_bytes(moved_too_far()[0])
    bad = [b"", b"\0", geometry(YARD)[:-1], geometry(YARD) + b"\0", point(1.0, 2.0, 3), point(1.0, 2.0, 0x80000001), point(1.0, 2.0)[:12],
           line_string([1.0, 2.0], 1), line_string([0.0] * 4, 501), point(0x7FF8000000000000, 0.0), point(0.0, up(15_000.0)),
           line_string([0.0, 1.0, -15_000.0, -15_001.0]), line_string([0.0, 1.0, 0x7FF0000000000000, 5.0])[:30], line_string([], 0)]
    rows = [line_of_survey((data, refused)[k % 2], wrong) for k, wrong in enumerate(bad)] + [line_of_survey(refused, bad[9]), line_of_survey(data, bad[10])]
    jobs = [b"", data[:3], data[:20], data + b"\7", b"\x81\x00", b"\x05" + data[1:], data[:22] + b"\x00\x00\x00", b"\x0f"]
    rows += [line_of_survey(job, wrong) for job, wrong in zip(jobs, bad)] + [line_of_survey(job, geometry(YARD)) for job in jobs]
    return rows + [line_of_survey(data, geometry(YARD)), line_of_survey(refused, geometry(YARD)), line_of_survey(data, point(15_000.0, -15_000.0))]


def far_and_large():
    """The ends of the measures, and starts at the ends of their range; kerbs across the whole of it."""
    rows = []
    for turn, job in enumerate(extremes()[:8] + [dressed(job, [LARGEST_BODY, SMALLEST_BODY] * 2) for job in extremes()[8:]]):
        moves = moves_of(scene(job))
        if moves:
            last = moves[max(moves)]
            rows.append(of_job(job, [(-END, -END + turn), last[turn % 8][1]]) if turn % 2 else of_survey(job, [last[turn % 8][1]]))
    for job in far_out()[:3]:
        first = moves_of(scene(job))[1][1][1]
        rows += [of_job(job, [(-END, END), first, (END, END)]), of_survey(job, [first])]
    return rows


def by_chance():
    """Tails and long bends with kerbs strewn about them."""
    chance, rows = Chance(334), []
    for turn, job in enumerate(tails()[::2] + long_bends()[::4] + bends()[1::4] + short_bends()[::3]):
        moves = list(moves_of(scene(job)).values())
        at, size = chance.pick(moves)[chance.below(8)][1], chance.pick([40, 3_000, 30_000])
        kerb = [plus(at, (chance.between(-size, size), chance.between(-size, size))) for _ in range(chance.between(1, 6))]
        rows.append(of_job(job, kerb) if turn % 2 else of_survey(job, kerb))
    return rows


JOB_GROUPS_OF_KERBS = [
    ("a job's refusals before a kerb's", job_refusals),
    ("21 and 26 by the kerb after a job is read", kerb_refusals),
    ("the worked straights beside a kerb", worked),
    ("document 002's sample beside a kerb", samples),
    ("jobs round bends", bent),
    ("22 and 23 on a job's way", refused_on_the_way),
    ("the product's rounding decides", rows_of_rounding),
    ("a geometry's refusals after a job's", geometry_refusals),
    ("jobs at the ends of their ranges", far_and_large),
    ("jobs and kerbs by chance", by_chance),
]
