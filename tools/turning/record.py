"""The job record, short or long: its fields, read from bytes and written to them."""

from collections import namedtuple

from .plane import N, has_length

MOST_UNITS, MOST_ELEMENTS, MOST_STEPS = 4, 64, 2_000
LARGEST = 4_294_967_295
STRAIGHT, LEFT, RIGHT = 0, 1, 2
SHORT, LONG = 0, 1
LONG_FROM = 10  # a long job's first number is this plus its number of units

Body = namedtuple("Body", "front rear half_width")  # front and rear overhang
NO_BODY = Body(0, 0, 0)
Unit = namedtuple("Unit", "wheelbase hitch fold body", defaults=[NO_BODY])
Vehicle = namedtuple("Vehicle", "form count units overhang front rear")  # units: 4 places; front and rear half width
Start = namedtuple("Start", "x y gx gy")
Element = namedtuple("Element", "length kind radius")  # kind STRAIGHT, LEFT or RIGHT; radius 0 on a straight
Job = namedtuple("Job", "vehicle start step count elements")  # elements: 64 places

NO_UNIT = Unit(0, 0, 0)
NO_ELEMENT = Element(0, STRAIGHT, 0)


class Refused(Exception):
    """A refusal: its number, and the byte where it is placed (None where the paper gives no place)."""

    def __init__(self, number, at=None):
        super().__init__(number, at)
        self.number, self.at = number, at


# The tests of the field table.

def wheelbase_allowed(wheelbase):
    return 5_000 <= wheelbase <= 200_000


def hitch_allowed(hitch, wheelbase, is_last):
    return hitch == 0 if is_last else abs(hitch) <= wheelbase


def fold_allowed(fold, is_first):
    return fold == 0 if is_first else -1_000 <= fold <= 990


def overhang_allowed(overhang):
    return 0 <= overhang <= 50_000


def old_overhang_allowed(overhang, form):
    """The overhang that stands once: a long job has its front overhangs in the bodies, and here 0."""
    return overhang == 0 if form == LONG else overhang_allowed(overhang)


def half_width_allowed(width):
    return 1_000 <= width <= 20_000


def coordinate_allowed(c):
    return abs(c) <= 100_000_000


def step_allowed(step):
    return 100 <= step <= 20_000


def length_allowed(length):
    return 1 <= length <= 40_000_000


def radius_allowed(radius):
    return radius == 0 or 20_000 <= abs(radius) <= 1_000_000


def steps_of(length, step):
    return -(-length // step)


def total_steps(job):
    return sum(steps_of(e.length, job.step) for e in job.elements[:job.count])


# Reading.

def read_number(data, at):
    """The number whose first group stands at `at`, and the position after it."""
    value = 0
    for group in range(5):
        if at + group >= len(data):
            raise Refused(1, at)
        byte = data[at + group]
        value += (byte & 0x7F) << (7 * group)
        if byte < 0x80:
            if (group > 0 and byte == 0) or value > LARGEST:
                raise Refused(2, at)
            return value, at + group + 1
    raise Refused(2, at)


def signed_of(value):
    return value // 2 if value % 2 == 0 else -(value + 1) // 2


class Cursor:
    """Takes fields in order; each is tested for 1, then 2, then its range."""

    def __init__(self, data):
        self.data, self.at, self.field_at = data, 0, 0

    def number(self, fault, allowed):
        self.field_at = self.at
        value, after = read_number(self.data, self.at)
        if not allowed(value):
            raise Refused(fault, self.at)
        self.at = after
        return value

    def signed(self, fault, allowed):
        return signed_of(self.number(fault, lambda value: allowed(signed_of(value))))


def read_body(cursor):
    front = cursor.number(5, overhang_allowed)
    rear = cursor.number(5, overhang_allowed)
    return Body(front, rear, cursor.number(5, half_width_allowed))


def read_unit(cursor, form, is_first, is_last):
    wheelbase = cursor.number(4, wheelbase_allowed)
    hitch = cursor.signed(4, lambda h: hitch_allowed(h, wheelbase, is_last))
    fold = cursor.signed(4, lambda f: fold_allowed(f, is_first))
    return Unit(wheelbase, hitch, fold, read_body(cursor) if form == LONG else NO_BODY)


def form_and_count(first):
    """What a record's first number says: 1 to 4 units of a short job, 11 to 14 for 1 to 4 of a long one."""
    return (LONG, first - LONG_FROM) if first > LONG_FROM else (SHORT, first)


def read_vehicle(cursor):
    form, count = form_and_count(cursor.number(3, lambda n: 1 <= form_and_count(n)[1] <= MOST_UNITS))
    units = [read_unit(cursor, form, u == 0, u == count - 1) for u in range(count)]
    overhang = cursor.number(5, lambda o: old_overhang_allowed(o, form))
    front = cursor.number(5, half_width_allowed)
    rear = cursor.number(5, half_width_allowed)
    return Vehicle(form, count, units + [NO_UNIT] * (MOST_UNITS - count), overhang, front, rear)


def read_start(cursor):
    x = cursor.signed(6, coordinate_allowed)
    y = cursor.signed(6, coordinate_allowed)
    gx = cursor.signed(6, lambda _: True)
    heading_at = cursor.field_at
    gy = cursor.signed(6, lambda _: True)
    if not has_length((gx, gy), N):
        raise Refused(6, heading_at)
    return Start(x, y, gx, gy)


def read_element(cursor):
    length = cursor.number(8, length_allowed)
    radius = cursor.signed(8, radius_allowed)
    kind = STRAIGHT if radius == 0 else RIGHT if radius > 0 else LEFT
    return Element(length, kind, abs(radius))


def read_job(data):
    cursor = Cursor(data)
    vehicle = read_vehicle(cursor)
    start = read_start(cursor)
    step = cursor.number(7, step_allowed)
    count = cursor.number(8, lambda n: 1 <= n <= MOST_ELEMENTS)
    count_at = cursor.field_at
    elements = [read_element(cursor) for _ in range(count)]
    job = Job(vehicle, start, step, count, elements + [NO_ELEMENT] * (MOST_ELEMENTS - count))
    if total_steps(job) > MOST_STEPS:
        raise Refused(9, count_at)
    if cursor.at < len(data):
        raise Refused(10, cursor.at)
    return job


# The tests of a job by value, in the record's order.

def body_allowed(body):
    return overhang_allowed(body.front) and overhang_allowed(body.rear) and half_width_allowed(body.half_width)


def unit_fault(unit, form, is_first, is_last):
    """4, then 5 for the body, which is read in a long job only."""
    hitch_is_good = hitch_allowed(unit.hitch, unit.wheelbase, is_last)
    if not (wheelbase_allowed(unit.wheelbase) and hitch_is_good and fold_allowed(unit.fold, is_first)):
        return 4
    return 5 if form == LONG and not body_allowed(unit.body) else 0


def vehicle_fault(vehicle):
    """By value the number of units is 1 to 4 in a long job too; a unit is tested to its end before the next."""
    if not 1 <= vehicle.count <= MOST_UNITS:
        return 3
    for u, unit in enumerate(vehicle.units[:vehicle.count]):
        fault = unit_fault(unit, vehicle.form, u == 0, u == vehicle.count - 1)
        if fault:
            return fault
    widths_are_good = half_width_allowed(vehicle.front) and half_width_allowed(vehicle.rear)
    return 0 if old_overhang_allowed(vehicle.overhang, vehicle.form) and widths_are_good else 5


def start_fault(start):
    place_is_good = coordinate_allowed(start.x) and coordinate_allowed(start.y)
    return 0 if place_is_good and has_length((start.gx, start.gy), N) else 6


def element_allowed(element):
    if element.kind == STRAIGHT:
        return length_allowed(element.length)
    return length_allowed(element.length) and 20_000 <= element.radius <= 1_000_000


def elements_fault(job):
    if not 1 <= job.count <= MOST_ELEMENTS:
        return 8
    return 0 if all(element_allowed(e) for e in job.elements[:job.count]) else 8


def job_fault(job):
    """The first fault of a job by value, 0 for none."""
    fault = vehicle_fault(job.vehicle) or start_fault(job.start)
    fault = fault or (0 if step_allowed(job.step) else 7) or elements_fault(job)
    return fault or (9 if total_steps(job) > MOST_STEPS else 0)


# Writing.

def number_bytes(value):
    groups = []
    while value >= 0x80:
        groups.append(value & 0x7F | 0x80)
        value >>= 7
    return bytes(groups + [value])


def signed_bytes(value):
    return number_bytes(2 * value if value >= 0 else -2 * value - 1)


def signed_radius(element):
    return -element.radius if element.kind == LEFT else element.radius


def unit_fields(unit, form):
    fields = [number_bytes(unit.wheelbase), signed_bytes(unit.hitch), signed_bytes(unit.fold)]
    return fields + [number_bytes(value) for value in unit.body] if form == LONG else fields


def job_fields(job):
    """The fields of any job by value as a list of byte strings, untested, so that wrong records can be made too."""
    v = job.vehicle
    fields = [number_bytes(v.count + (LONG_FROM if v.form == LONG else 0))]
    for unit in v.units[:v.count]:
        fields += unit_fields(unit, v.form)
    fields += [number_bytes(v.overhang), number_bytes(v.front), number_bytes(v.rear)]
    fields += [signed_bytes(value) for value in job.start]
    fields += [number_bytes(job.step), number_bytes(job.count)]
    for element in job.elements[:job.count]:
        fields += [number_bytes(element.length), signed_bytes(signed_radius(element))]
    return fields


def write_job(job, run):
    """Writes into the list `run`; answers the number of bytes written, or is refused by 3 to 9 or 28."""
    fault = job_fault(job)
    if fault:
        raise Refused(fault)
    record = b"".join(job_fields(job))
    if len(record) > len(run):
        raise Refused(28)
    run[:len(record)] = list(record)
    return len(record)
