"""Ticks, rounding and vectors: the paper's "Ticks, axes and rounding"."""

N = 1_000_000  # nominal length of a heading


def nearest(dividend, divisor):
    """The nearest whole number to dividend / divisor, halves away from zero; the divisor is positive."""
    size = (2 * abs(dividend) + divisor) // (2 * divisor)
    return size if dividend >= 0 else -size


def nearest_vector(v, divisor):
    return (nearest(v[0], divisor), nearest(v[1], divisor))


def plus(a, b):
    return (a[0] + b[0], a[1] + b[1])


def minus(a, b):
    return (a[0] - b[0], a[1] - b[1])


def times(k, v):
    return (k * v[0], k * v[1])


def dot(a, b):
    return a[0] * b[0] + a[1] * b[1]


def right_normal(v):
    return (v[1], -v[0])


def has_length(v, k):
    """Whether |v|^2 differs from k^2 by at most 2k."""
    return abs(dot(v, v) - k * k) <= 2 * k


def settle(v, k):
    return nearest_vector(times(3 * k * k - dot(v, v), v), 2 * k * k)
