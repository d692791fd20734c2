"""The job vectors of long jobs: bytes, valid and damaged, in named groups."""

from .chance import Chance
from .jobs import BASE_UNITS, FIVE_WITH_TOP_BIT, LARGEST, OVERLONG, TOO_LARGE, damage, sixty_four
from .jobs import FIELDS as SHORT_FIELDS
from .long_rigs import (BODIES, LARGEST_BODY, ends_met, long_bends, longest, none_complete, refused_steps, some_long_job,
                        tail_edges, tails, twins, which_is_widest)
from .record import LEFT, RIGHT, STRAIGHT, Start, job_fields, number_bytes, signed_bytes
from .worked import LONG_STRAIGHT, dressed, job_bytes, make_job


def base(count):
    """A long job of that many units, seven steps long."""
    units = BASE_UNITS[:count - 1] + [(BASE_UNITS[count - 1][0], 0, BASE_UNITS[count - 1][2])]
    elements = [(12_000, STRAIGHT, 0), (20_000, RIGHT, 100_000)]
    return make_job(units, elements, 5_000, widths=(0, 12_000, 13_000), bodies=BODIES[:count])


FIELDS = job_fields(base(4))
# Places of the fields in a base of four units; a body's are front overhang, rear overhang and half width.
WHEELBASE, HITCH, FOLD = (1, 7, 13, 19), (2, 8, 14, 20), (3, 9, 15, 21)
BODY = ((4, 5, 6), (10, 11, 12), (16, 17, 18), (22, 23, 24))
OVERHANG, WIDTHS, STEP = 25, (26, 27), 32


def with_fields(changes, fields=tuple(FIELDS)):
    return b"".join(changes.get(i, field) for i, field in enumerate(fields))


def numbers_at(place, values, fields=tuple(FIELDS)):
    return [with_fields({place: number_bytes(value)}, fields) for value in values]


def first_numbers():
    """1 to 4 and 11 to 14 are read, all others are 3 at byte 0; after a wrong number of units comes what the fields then say."""
    lines = [job_bytes(base(count)) for count in (1, 2, 3, 4)]
    lines += numbers_at(0, [0, 1, 2, 3, 4, 5, 9, 10, 11, 12, 13, 15, 16, 20, 21, 24, 110, 127, 128, 138, 139, 142, 267, 4_294_967_295])
    lines += numbers_at(0, [10, 12, 13, 14, 15], SHORT_FIELDS)
    for first in (11, 12, 13, 14, 10, 15):
        lines += [bytes([first]), bytes([first | 128, 0])]
    return lines


def body_ends():
    """Every end of a body's fields and one past each."""
    lines = []
    for front, rear, half_width in BODY:
        for place in (front, rear):
            lines += numbers_at(place, [0, 50_000, 50_001])
        lines += numbers_at(half_width, [0, 999, 1_000, 20_000, 20_001])
    return lines


def old_overhangs():
    """A long job's old overhang is 0; what a short job may have there is 5."""
    lines = numbers_at(OVERHANG, [0, 1, 2, 127, 128, 9_000, 50_000, 50_001])
    for count in (1, 2, 3):
        fields = job_fields(base(count))
        lines += numbers_at(1 + 6 * count, [1, 50_000], fields)
    return lines


def old_fields():
    """The fields that both forms have keep their ranges in a long job."""
    lines = numbers_at(WHEELBASE[1], [4_999, 5_000, 200_000, 200_001])
    lines += [with_fields({HITCH[1]: signed_bytes(h)}) for h in (80_000, 80_001, -80_000, -80_001)]
    lines += [with_fields({HITCH[3]: signed_bytes(h)}) for h in (1, -1)] + [with_fields({FOLD[0]: signed_bytes(f)}) for f in (1, -1)]
    lines += [with_fields({FOLD[3]: signed_bytes(f)}) for f in (-1_001, -1_000, 990, 991)]
    for place in WIDTHS:
        lines += numbers_at(place, [999, 1_000, 20_000, 20_001])
    lines += numbers_at(STEP, [99, 100]) + [with_fields({i: number_bytes(0)}) for i in (STEP + 1, STEP + 2)]
    return lines + [with_fields({place: signed_bytes(100_000_001)}) for place in (28, 29, 30)]


def in_order():
    """Two faults at once: a unit's 4, then its body's 5 field by field, then the next unit's 4; the old fields after all bodies."""
    bad, lines = number_bytes(50_001), []
    for u in range(4):
        front, rear, half_width = BODY[u]
        lines.append(with_fields({FOLD[u]: signed_bytes(991), front: bad}))
        lines.append(with_fields({front: bad, rear: bad}))
        lines.append(with_fields({rear: bad, half_width: bad}))
        lines.append(with_fields({half_width: bad, OVERHANG: number_bytes(1)}))
    for u in range(3):
        lines.append(with_fields({BODY[u][2]: number_bytes(999), WHEELBASE[u + 1]: number_bytes(4_999)}))
        lines.append(with_fields({BODY[u + 1][0]: bad, WHEELBASE[u + 1]: number_bytes(4_999)}))
    lines += [with_fields({OVERHANG: number_bytes(1), WIDTHS[0]: number_bytes(0)}), with_fields({OVERHANG: number_bytes(1), STEP: b"\0"})]
    lines.append(with_fields({BODY[3][2]: number_bytes(20_001), WIDTHS[0]: number_bytes(0)}))
    return lines + [with_fields({BODY[1][0]: bad})[:40], with_fields({BODY[1][1]: bytes([0x81, 0]), BODY[1][2]: b"\0"})]


def misspelt():
    """1 and 2 at each field of a body and at the old overhang: cut before it or inside it, overlong, a fifth group with its top bit, too large."""
    lines = []
    for i in [place for body in BODY for place in body] + [OVERHANG]:
        before = b"".join(FIELDS[:i])
        lines += [before, before + bytes([0x80] * (1 + i % 4)), before + FIVE_WITH_TOP_BIT[i % 2]]
        lines += [with_fields({i: kinds[i % len(kinds)]}) for kinds in (OVERLONG, FIVE_WITH_TOP_BIT, TOO_LARGE)]
        lines.append(with_fields({i: LARGEST}))
    return lines


def left_over():
    """10 after the last element; 9 at the number of elements, after as many bodies as there are units."""
    lines = [LONG_STRAIGHT, LONG_STRAIGHT + b"\0", job_bytes(base(4)) + b"\x0b", job_bytes(longest()) + bytes(1_024 - 493)]
    for count in (1, 2, 3, 4):
        units = base(count).vehicle.units[:count]
        plain = [unit[:3] for unit in units]
        for elements, step in (([(200_001, STRAIGHT, 0)], 100), ([(40_000_000, RIGHT, 90_000)] * 3, 20_000)):
            lines.append(job_bytes(make_job(plain, elements, step, Start(70 ** count, -9, 0, 10 ** 6), bodies=[LARGEST_BODY] * count)))
    return lines


def many_elements():
    """Four of the largest units and bodies on 64 elements of two steps each, in 467 bytes."""
    return [dressed(sixty_four(20_001, kind, 1_000_000), [LARGEST_BODY] * 4) for kind in (LEFT, RIGHT)]


def by_chance():
    """Rigs with bodies of any size on paths of any kind, of 1 to 12 steps and of 20 to 150."""
    chance = Chance(2024)
    jobs = [some_long_job(chance, chance.between(1, 12)) for _ in range(12)]
    jobs += [some_long_job(chance, chance.between(20, 150)) for _ in range(40)]
    return [job_bytes(job) for job in jobs]


def damaged():
    chance = Chance(1403)
    return [damage(chance, job_bytes(some_long_job(chance, chance.between(1, 30)))) for _ in range(40)]


def of_jobs(jobs):
    return lambda: [job_bytes(job) for job in jobs()]


LONG_JOB_GROUPS = [
    ("11 to 14 announce a long job", first_numbers),
    ("every end of a body's fields", body_ends),
    ("a long job's old overhang is 0", old_overhangs),
    ("old fields in a long job", old_fields),
    ("a unit's 4, its body's 5, the next unit", in_order),
    ("a body's fields cut short and misspelt", misspelt),
    ("9 and 10 of long jobs", left_over),
    ("a tail or a front corner a tick short", of_jobs(tail_edges)),
    ("one pair of points is the widest", of_jobs(which_is_widest)),
    ("tails that swing out", of_jobs(tails)),
    ("long rigs round bends", of_jobs(long_bends)),
    ("steps of long rigs refused", of_jobs(refused_steps)),
    ("no station complete for a long rig", of_jobs(none_complete)),
    ("both ends of every measure in one long rig", of_jobs(ends_met)),
    ("long jobs of 64 elements", of_jobs(many_elements)),
    ("long twins of short jobs", of_jobs(twins)),
    ("long rigs by chance", by_chance),
    ("long records damaged by chance", damaged),
]


def long_walks():
    """Long jobs of many steps: three of over 500, one of 2,000 and the longest record."""
    chance = Chance(499)
    jobs = [some_long_job(chance, chance.between(501, 900), units) for units in (4, 3, 4)]
    jobs += [some_long_job(chance, 2_000, 4, 30), longest()]
    return [job_bytes(job) for job in jobs]
