"""The job vectors: bytes of jobs, valid and damaged, with what sweep prints for each."""

from .chance import Chance
from .record import LEFT, RIGHT, STRAIGHT, job_fields, number_bytes, signed_bytes
from .rigs import (FOUR_UNITS, HEADINGS_INSIDE, HEADINGS_OUTSIDE, bends, extremes, far_out, folded_too_far,
                   moved_too_far, some_job, tight_circle)
from .worked import WORKED_STRAIGHT, job_bytes, make_job, sample_1988

BASE_UNITS = [(50_000, 2_000, 0), (80_000, -3_000, -500), (60_000, 1_500, -1_000), (90_000, 0, 200)]
BASE = make_job(BASE_UNITS, [(12_000, STRAIGHT, 0), (20_000, RIGHT, 100_000)], 5_000, widths=(9_000, 12_000, 13_000))
FIELDS = job_fields(BASE)
# Places of the fields in BASE.
WHEELBASE, HITCH, FOLD = (1, 4, 7, 10), (2, 5, 8, 11), (3, 6, 9, 12)
OVERHANG, WIDTHS, PLACE, HEADING, STEP, COUNT, LENGTHS, RADII = 13, (14, 15), (16, 17), 18, 20, 21, (22, 24), (23, 25)

OVERLONG = [bytes([0x81, 0]), bytes([0x80, 0]), bytes([0xD0, 0x86, 0x83, 0]), bytes([0xFF, 0xFF, 0xFF, 0xFF, 0])]
FIVE_WITH_TOP_BIT = [bytes([0x80] * 5), bytes([0xFF] * 5), bytes([0x81, 0x80, 0x80, 0x80, 0x80, 0x00])]
TOO_LARGE = [bytes([0x80, 0x80, 0x80, 0x80, 0x10]), bytes([0xFF, 0xFF, 0xFF, 0xFF, 0x1F]), bytes([0x80] * 4 + [0x7F])]
LARGEST = bytes([0xFF, 0xFF, 0xFF, 0xFF, 0x0F])


def with_fields(changes):
    return b"".join(changes.get(i, field) for i, field in enumerate(FIELDS))


def unsigned_ends(place, values):
    return [with_fields({place: number_bytes(value)}) for value in values]


def signed_ends(place, values):
    return [with_fields({place: signed_bytes(value)}) for value in values]


def vehicle_ends():
    lines = unsigned_ends(0, [0, 5, 11, 255])
    for place in WHEELBASE:
        lines += unsigned_ends(place, [4_999, 5_000, 200_000, 200_001])
    for place, unit in zip(HITCH, BASE_UNITS):
        size = 0 if place == HITCH[-1] else unit[0]
        lines += signed_ends(place, [size, size + 1, -size, -size - 1])
    for place in FOLD:
        lines += signed_ends(place, [1, -1] if place == FOLD[0] else [-1_001, -1_000, 990, 991])
    lines += unsigned_ends(OVERHANG, [0, 50_000, 50_001])
    for place in WIDTHS:
        lines += unsigned_ends(place, [999, 1_000, 20_000, 20_001])
    return lines


def path_ends():
    lines = []
    for place in PLACE:
        lines += signed_ends(place, [-100_000_001, -100_000_000, 100_000_000, 100_000_001])
    far = [(2_147_483_647, 0), (-2_147_483_648, -2_147_483_648), (0, 0), (0, -2_147_483_648), (65_536, 1_000_000)]
    for gx, gy in HEADINGS_INSIDE + HEADINGS_OUTSIDE + far:
        lines.append(with_fields({HEADING: signed_bytes(gx), HEADING + 1: signed_bytes(gy)}))
    lines += unsigned_ends(STEP, [99, 100, 20_000, 20_001])
    lines += unsigned_ends(COUNT, [0, 1, 64, 65, 128])
    for place in LENGTHS:
        lines += unsigned_ends(place, [0, 1, 40_000_000, 40_000_001])
    for place in RADII:
        lines += signed_ends(place, [0, 1, -1, 19_999, -19_999, 20_000, -20_000])
        lines += signed_ends(place, [1_000_000, -1_000_000, 1_000_001, -1_000_001])
    return lines


def damaged_fields():
    """1 and 2 at each field: cut before it or inside it, overlong, a fifth group with its top bit, too large."""
    lines = []
    for i, field in enumerate(FIELDS):
        before = b"".join(FIELDS[:i])
        lines.append(before)
        lines.append(before + bytes([0x80] * (1 + i % 4)))
        for kinds in (OVERLONG, FIVE_WITH_TOP_BIT, TOO_LARGE):
            lines.append(with_fields({i: kinds[i % len(kinds)]}))
        lines.append(before + FIVE_WITH_TOP_BIT[i % 2])
        lines.append(with_fields({i: LARGEST}))
    return lines


def left_over():
    base = job_bytes(BASE)
    tails = [b"\x00", b"\x80", bytes([0xFF] * 5), WORKED_STRAIGHT]
    long_inputs = [base + bytes(1_024 - len(base)), WORKED_STRAIGHT + bytes([0x80] * 999)]
    long_inputs += [bytes([0x80] * 1_024), bytes([1] * 1_024), bytes([4] * 1_024), bytes(1_024)]
    full = job_bytes(sixty_four(40_000_000, RIGHT, 1_000_000))
    long_inputs += [full, full + bytes(1_024 - len(full))]
    return [base + tail for tail in tails] + [WORKED_STRAIGHT + b"\x00"] + long_inputs


def sixty_four(length, kind, radius, step=20_000):
    units = [(200_000, 200_000, 0), (200_000, -200_000, -1_000), (200_000, 200_000, -1_000), (200_000, 0, -1_000)]
    return make_job(units, [(length, kind, radius)] * 64, step, widths=(50_000, 20_000, 20_000))


def totals():
    """Just 2,000 and just 2,001 steps, by one element and by many with remainders."""
    one, rig = [(60_000, 0, 0)], FOUR_UNITS
    last = [(47_000, LEFT, 300_000), (47_001, LEFT, 300_000)]
    many = [(30_001 + 10 * i, (STRAIGHT, LEFT, RIGHT)[i % 3], (0, 150_000, 160_000)[i % 3]) for i in range(63)]
    jobs = [make_job(one, [(40_000_000, STRAIGHT, 0)], 20_000)]
    jobs += [make_job(one, [(40_000_000, STRAIGHT, 0)], 19_999)]
    jobs += [make_job(rig, many + [end], 1_000, widths=(11_000, 12_000, 12_000)) for end in last]
    jobs += [make_job(one, [(199_999, RIGHT, 20_000)], 100), make_job(one, [(200_001, RIGHT, 20_000)], 100)]
    over = make_job(one, [(200_000, STRAIGHT, 0), (1, RIGHT, 20_000)], 100)
    return [job_bytes(job) for job in jobs + [over]] + [job_bytes(over) + b"\x00", job_bytes(over)[:-1]]


def walks(chance):
    """Rigs that finish, fold, or are moved too far; short ones and some twenty of over 500 steps."""
    jobs = [sample_1988(157_080), sample_1988(314_160)] + bends() + moved_too_far() + folded_too_far()
    jobs += extremes() + far_out()
    jobs += [some_job(chance, chance.between(1, 12)) for _ in range(30)]
    jobs += [some_job(chance, chance.between(20, 150)) for _ in range(50)]
    jobs += [some_job(chance, chance.between(501, 1_100), 4) for _ in range(8)]
    jobs += [some_job(chance, 1_999, 4, 20), some_job(chance, 2_000, 4, 64), some_job(chance, 2_000, 3, 40)]
    jobs += [sixty_four(20_001, kind, 1_000_000) for kind in (LEFT, RIGHT)]
    trailer = [(30_000, 0, 0), (40_000, 0, -1_000)]
    jobs += [tight_circle(trailer[:1], kind, 1_500, 900_000) for kind in (LEFT, RIGHT)]
    jobs += [tight_circle(trailer, LEFT, 2_000, 900_000), tight_circle([(41_000, 0, 0)], RIGHT, 3_000, 600_000)]
    return [job_bytes(job) for job in jobs]


def damage(chance, data):
    """One small harm: a bit flipped, a byte replaced, cut off, put in or taken out."""
    at, kind = chance.below(len(data)), chance.below(5)
    if kind == 0:
        return data[:at] + bytes([data[at] ^ 1 << chance.below(8)]) + data[at + 1:]
    if kind == 1:
        return data[:at] + bytes([chance.below(256)]) + data[at + 1:]
    if kind == 2:
        return data[:at]
    if kind == 3:
        return data[:at] + bytes([chance.below(256)]) + data[at:]
    return data[:at] + data[at + 1:]


def damaged(chance):
    sound = [job_bytes(some_job(chance, chance.between(1, 40))) for _ in range(70)]
    noise = [bytes(chance.below(256) for _ in range(size)) for size in (1, 2, 3, 5, 30, 200, 1_023, 1_024)]
    return [b"", b"\x00", b"\x80"] + [damage(chance, job) for job in sound] + noise


def all_jobs():
    chance = Chance(1988)
    lines = [WORKED_STRAIGHT, job_bytes(BASE)] + vehicle_ends() + path_ends() + damaged_fields()
    lines += left_over() + totals() + walks(chance) + damaged(chance)
    return list(dict.fromkeys(lines))
