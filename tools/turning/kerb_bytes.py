"""Kerbs from the survey office: a point or a line string in little-endian Well-Known Binary, read into ticks."""

from fractions import Fraction

from .plane import nearest
from .record import Refused

LITTLE_ENDIAN, POINT, LINE = 1, 1, 2
LEAST_VERTICES, MOST_VERTICES = 2, 500
MOST_METRES, TICKS_A_METRE = 15_000, 10_000
PLACES, LEAST_EXPONENT = 52, -1_074  # of a 64-bit float: binary places after its first digit, and the power of two of its last one


# A float by its bits, exactly.

def value_of(bits):
    """The exact value of a 64-bit float, None where it is not finite."""
    sign, exponent, fraction = -1 if bits >> 63 else 1, bits >> PLACES & 0x7FF, bits & (1 << PLACES) - 1
    if exponent == 0x7FF:
        return None
    whole = fraction + (1 << PLACES) if exponent else fraction
    return sign * whole * Fraction(2) ** (LEAST_EXPONENT + max(exponent, 1) - 1)


def exponent_of(size):
    """The e with 2^e <= size < 2^(e + 1), for a size above 0."""
    guess = size.numerator.bit_length() - size.denominator.bit_length()
    return guess if Fraction(2) ** guess <= size else guess - 1


def rounded(value):
    """The 64-bit float nearest to a value far below the largest, the even one of two."""
    if value == 0:
        return value
    last = Fraction(2) ** max(exponent_of(abs(value)) - PLACES, LEAST_EXPONENT)
    return round(value / last) * last  # Python rounds a Fraction's halves to the even number


def ticks_of(metres):
    """The product rounded once to a float, then the nearest tick to that float."""
    product = rounded(metres * TICKS_A_METRE)
    return nearest(product.numerator, product.denominator)


# The fields.

class Fields:
    """Takes fields of so many bytes in order; `field_at` is where the last one starts."""

    def __init__(self, data):
        self.data, self.at, self.field_at = bytes(data), 0, 0

    def word(self, size):
        self.field_at = self.at
        if len(self.data) < self.at + size:
            raise Refused(12, self.field_at)
        self.at += size
        return int.from_bytes(self.data[self.field_at:self.at], "little")

    def number(self, size, allowed):
        value = self.word(size)
        if not allowed(value):
            raise Refused(12, self.field_at)
        return value

    def coordinate(self):
        metres = value_of(self.word(8))
        if metres is None or abs(metres) > MOST_METRES:
            raise Refused(13, self.field_at)
        return metres

    def vertex(self):
        x = self.coordinate()
        return x, self.coordinate()

    def end(self):
        if self.at < len(self.data):
            raise Refused(12, self.at)


def read_geometry(data):
    """The vertices in metres, exactly: one of a point, 2 to 500 of a line."""
    fields = Fields(data)
    fields.number(1, lambda mark: mark == LITTLE_ENDIAN)
    kind = fields.number(4, lambda kind: kind in (POINT, LINE))
    count = 1 if kind == POINT else fields.number(4, lambda n: LEAST_VERTICES <= n <= MOST_VERTICES)
    vertices = [fields.vertex() for _ in range(count)]
    fields.end()
    return vertices


def read_kerb(data, xs, ys):
    """Writes the vertices in ticks into two runs (lists) and answers how many there are."""
    vertices = read_geometry(data)
    if len(xs) < len(vertices) or len(ys) < len(vertices):
        raise Refused(21)
    for k, (x, y) in enumerate(vertices):
        xs[k], ys[k] = ticks_of(x), ticks_of(y)
    return len(vertices)
