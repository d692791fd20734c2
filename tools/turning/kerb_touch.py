"""Whether two closed segments have a point in common, exactly over whole numbers; a segment may have no length."""

from .plane import minus


def side(a, b, p):
    """Above 0 where p lies left of the way from a to b, 0 on the line, below 0 right of it; 0 too where b is a."""
    (x, y), (u, v) = minus(b, a), minus(p, a)
    return x * v - y * u


def apart(a, b, c, d):
    """Whether the numbers between a and b and those between c and d have none in common."""
    return max(a, b) < min(c, d) or max(c, d) < min(a, b)


def one_side(a, b, c, d):
    """Whether c and d lie on one side of the line through a and b, neither upon it."""
    first, second = side(a, b, c), side(a, b, d)
    return first > 0 < second or first < 0 > second


def touches(move, segment):
    """Two segments are apart where a line along one of them, or along an axis, has them on its two sides."""
    (a, b), (c, d) = move, segment
    boxes_apart = apart(a[0], b[0], c[0], d[0]) or apart(a[1], b[1], c[1], d[1])
    return not (boxes_apart or one_side(a, b, c, d) or one_side(c, d, a, b))


def segments_of(vertices):
    """Consecutive vertices; a single one is a segment of no length."""
    if len(vertices) == 1:
        return [(vertices[0], vertices[0])]
    return list(zip(vertices, vertices[1:]))
