"""Long jobs by value: rigs with bodies, drawn by chance or made for a purpose."""

from .record import LEFT, RIGHT, STRAIGHT, Start
from .rigs import FOUR_UNITS, bend, bends, extremes, far_out, folded_too_far, moved_too_far, some_job
from .worked import dressed, long_twin, make_job, sample_1988

BODIES = [(9_000, 11_000, 12_500), (3_000, 20_000, 12_750), (0, 4_000, 10_000), (15_000, 27_000, 13_000)]
LARGEST_BODY, SMALLEST_BODY = (50_000, 50_000, 20_000), (0, 0, 1_000)


def some_body(chance):
    overhangs = [chance.pick([0, chance.between(0, 25_000), chance.between(0, 50_000)]) for _ in range(2)]
    return (*overhangs, chance.between(1_000, 20_000))


def some_long_job(chance, steps, units=None, elements=None):
    return dressed(some_job(chance, steps, units, elements), [some_body(chance) for _ in range(4)])


def long_bends():
    """One to four units round bends both ways, as the short ones."""
    return [dressed(job, BODIES[turn % 2:] + BODIES[:1]) for turn, job in enumerate(bends())]


def straight_on(length, bodies, units=((50_000, 0, 0),), step=5_000, widths=(0, 12_000, 12_000)):
    """Due north from the origin, with no bend at all."""
    return make_job(list(units), [(length, STRAIGHT, 0)], step, widths=widths, bodies=bodies)


def tail_edges():
    """The tail just comes to station 3 or stays a tick behind it; the front corners start a tick behind it or upon it."""
    jobs = []
    for front in (10_000, 14_999, 15_000):
        for rear in (5_000, 5_001):
            jobs.append(straight_on(70_000, [(front, rear, 13_000)]))
    two = ((20_000, -10_000, 0), (30_000, 0, -1_000))
    for rear in (4_999, 5_000, 5_001):
        jobs.append(straight_on(80_000, [(10_000, 0, 9_000), (0, rear, 9_000)], two))
    for front in (15_000, 14_999):  # the first unit's tail is the last of all, far behind the short unit on its front point
        rig = ((40_000, 40_000, 0), (5_000, 0, -1_000))
        jobs.append(straight_on(70_000, [(front, 15_000, 2_000), (0, 0, 1_000)], rig))
        jobs.append(straight_on(70_000, [(front, 15_001, 2_000), (0, 0, 1_000)], rig))
    return jobs


def which_is_widest():
    """On a straight one pair of points is the widest: a body's corners, or the old widths at the first front point or the last axle."""
    units = ((20_000, 0, 0), (25_000, 5_000, 0), (15_000, 0, 0))
    jobs = []
    for u in range(3):
        for narrow, wide in ((1_000, 1_001), (5_000, 20_000)):
            bodies = [(3_000, 2_000, wide if unit == u else narrow) for unit in range(3)]
            jobs.append(straight_on(120_000, bodies, units, widths=(0, 1_000, 1_000)))
    for widths in ((0, 14_000, 1_000), (0, 1_000, 15_000), (0, 16_000, 16_000)):
        jobs.append(straight_on(120_000, [(3_000, 2_000, 13_000)] * 3, units, widths=widths))
    return jobs


def swinging(kind, radius, units, bodies, lead):
    return dressed(bend(kind, radius, 200_000, 4_000, units, lead), bodies)


def tails():
    """Long tails and shoulders: on the way into a bend they swing far out on its other side."""
    jobs = []
    for kind in (LEFT, RIGHT):
        jobs.append(swinging(kind, 130_000, [(60_000, 0, 0)], [(27_000, 50_000, 12_750)], 140_000))
        jobs.append(swinging(kind, 70_000, [(20_000, 0, 0)], [(0, 50_000, 20_000)], 100_000))
        jobs.append(swinging(kind, 90_000, [(30_000, 0, 0)], [(50_000, 0, 1_000)], 100_000))
        towed = [(45_000, -15_000, 0), (50_000, 0, -1_000)]
        jobs.append(swinging(kind, 120_000, towed, [(13_000, 15_000, 12_500), (8_000, 45_000, 12_750)], 160_000))
        jobs.append(swinging(kind, 150_000, towed, [(13_000, 48_000, 12_500), (0, 0, 1_000)], 160_000))
        three = [(40_000, 3_000, 0), (60_000, -20_000, -800), (45_000, 0, -800)]
        jobs.append(swinging(kind, 140_000, three, [(14_000, 9_000, 12_500), (16_000, 42_000, 13_000), (9_000, 30_000, 12_500)], 200_000))
        four = FOUR_UNITS[:3] + [(60_000, 0, -1_000)]
        jobs.append(swinging(kind, 160_000, four, [(14_000, 0, 12_500), (0, 21_000, 12_500), (5_000, 0, 9_000), (12_000, 50_000, 13_000)], 230_000))
    return jobs


def refused_steps():
    """22 and 23 at every unit, of four and of fewer: bodies change no refusal."""
    jobs = [straight_on(30_000, [LARGEST_BODY], [(5_000, 0, 0)], step) for step in (5_000, 5_001)]
    for kind in (LEFT, RIGHT):
        jobs.append(dressed(bend(kind, 60_000, 150_000, 5_000, [(40_000, 2_000, 0), (60_000, 0, 900)]), BODIES))
        jobs.append(dressed(bend(kind, 60_000, 150_000, 5_000, [(40_000, -9_000, 0), (60_000, 0, -1_000), (70_000, 0, 900)]), BODIES))
    return jobs + [dressed(job, BODIES) for job in moved_too_far()[1::3] + moved_too_far()[2::3] + folded_too_far()[::2]]


def ends_met():
    """Both ends of every measure met in one rig, and rigs from the ends of the start's range."""
    jobs = [dressed(job, ([LARGEST_BODY, SMALLEST_BODY] * 2)[turn % 2:] + [LARGEST_BODY]) for turn, job in enumerate(extremes())]
    return jobs + [dressed(job, BODIES) for job in far_out()[:6:2]]


def none_complete():
    """Paths that are shorter than the rig, of one to four units."""
    jobs = []
    for count in (1, 2, 3, 4):
        units = FOUR_UNITS[:count - 1] + [(30_000, 0, FOUR_UNITS[count - 1][2])]
        jobs.append(dressed(make_job(units, [(9_000, LEFT, 200_000)], 3_000), BODIES))
        jobs.append(straight_on(40_000 * count, [LARGEST_BODY] * count, units))
    return jobs


def twins():
    """Long jobs whose corners are where a short one's are: they print what the short ones print, which stand in the table too."""
    worked = make_job([(50_000, 0, 0)], [(65_000, STRAIGHT, 0)], 5_000, widths=(10_000, 12_000, 12_000))
    jobs = [worked, sample_1988(157_080), sample_1988(314_160)]
    jobs += [make_job(FOUR_UNITS[:3] + [(60_000, 0, -1_000)], [(230_000, STRAIGHT, 0), (150_000, kind, 200_000)], 6_000,
                      Start(0, 0, 600_000, -800_000), (20_000, 11_000, 11_000)) for kind in (LEFT, RIGHT)]
    return jobs[3:] + [long_twin(job) for job in jobs]


def longest():
    """The longest record that is accepted: 493 bytes, of which 18 elements have lengths of four bytes."""
    units = [(200_000, 200_000, 0), (200_000, -200_000, -1_000), (200_000, 200_000, -1_000), (200_000, 0, -1_000)]
    elements = [(2_097_152 if e < 18 else 16_384 + e, (LEFT, RIGHT)[e % 2], 1_000_000) for e in range(64)]
    return make_job(units, elements, 20_000, Start(-100_000_000, 100_000_000, -600_000, 800_000), (0, 20_000, 20_000), [LARGEST_BODY] * 4)
