#!/usr/bin/env python3
"""Wrong rules about kerbs, one at a time: how many rows of the table of kerb_trials each would change.

Each is a change of a scratch copy of tools/turning, as in bends.py; the rows it can concern are then computed again.
"""
import pathlib
import subprocess
import sys
import tempfile

sys.dont_write_bytecode = True  # keeps the repository free of compiled files

from bends import CRATES, LEAST, bent_copy  # noqa: E402

TABLE = CRATES / "kerb_trials" / "data" / "kerbs.txt"

PRODUCT = "product = rounded(metres * TICKS_A_METRE)"
NEAREST = "return nearest(product.numerator, product.denominator)"
CUT_SHORT = "            raise Refused(12, self.field_at)\n        self.at += size"
WRONG_VALUE = "        if not allowed(value):\n            raise Refused(12, self.field_at)"
TOO_FAR = "if metres is None or abs(metres) > MOST_METRES:\n            raise Refused(13, self.field_at)"
END = "        if self.at < len(self.data):\n            raise Refused(12, self.at)\n"
VERTEX = "        x = self.coordinate()\n        return x, self.coordinate()\n"
READ_ALL, READ_END = "    vertices = read_geometry(data)\n", "    fields.end()\n    return vertices\n"
WRITE = "    for k, (x, y) in enumerate(vertices):\n"
MARK, KIND = "lambda mark: mark == LITTLE_ENDIAN", "lambda kind: kind in (POINT, LINE)"

BYTE_BENDS = [
    ("rounded to whole metres before the product", [(PRODUCT, "product = Fraction(nearest(metres.numerator, metres.denominator) * TICKS_A_METRE)")]),
    ("rounded to four places before the product", [(PRODUCT, "product = Fraction(round(float(metres), 4) * 10_000.0)")]),
    ("rounded to a 32-bit float before the product",
     [(PRODUCT, "product = rounded(Fraction(__import__('struct').unpack('f', __import__('struct').pack('f', metres))[0]) * TICKS_A_METRE)")]),
    ("the exact product, not rounded", [(PRODUCT, "product = metres * TICKS_A_METRE")]),
    ("divided by 0.0001", [(PRODUCT, "product = Fraction(float(metres) / 0.0001)")]),
    ("halves toward zero", [(NEAREST, "return (1 if product > 0 else -1) * -((1 - 2 * abs(product)) // 2)")]),
    ("halves to even", [(NEAREST, "return round(product)")]),
    ("halves upwards", [(NEAREST, "return (2 * product + 1) // 2")]),
    ("the rest of a tick cut off", [(NEAREST, "return int(product)")]),
    ("half a tick added as a float, then cut off", [(NEAREST, "return int(float(product) + (0.5 if product > 0 else -0.5))")]),
    ("count 501 taken", [("<= n <= MOST_VERTICES", "<= n <= MOST_VERTICES + 1")]),
    ("count 500 not taken", [("<= n <= MOST_VERTICES", "<= n < MOST_VERTICES")]),
    ("count 1 taken", [("LEAST_VERTICES <= n", "1 <= n")]),
    ("count 0 taken", [("LEAST_VERTICES <= n", "0 <= n != 1 and n")]),
    ("big-endian taken", [(MARK, "lambda mark: mark <= LITTLE_ENDIAN"), ('self.at], "little")', 'self.at], "big" if self.data[0] == 0 else "little")')]),
    ("mark 00 taken as little-endian", [(MARK, "lambda mark: mark <= LITTLE_ENDIAN")]),
    ("any mark but 00 taken", [(MARK, "lambda mark: mark")]),
    ("flags of a type let pass", [(KIND, "lambda kind: kind & 0xFFFF in (POINT, LINE)"), ("1 if kind == POINT", "1 if kind & 0xFFFF == POINT")]),
    ("types of Z, M and ZM let pass", [(KIND, "lambda kind: kind % 1_000 in (POINT, LINE)"), ("1 if kind == POINT", "1 if kind % 1_000 == POINT")]),
    ("only a type's first byte read", [(KIND, "lambda kind: kind & 0xFF in (POINT, LINE)"), ("1 if kind == POINT", "1 if kind & 0xFF == POINT")]),
    ("13 placed at the field's end", [(TOO_FAR, TOO_FAR.replace("self.field_at", "self.at"))]),
    ("13 placed at its vertex", [(TOO_FAR, TOO_FAR.replace("self.field_at", "self.field_at - (self.field_at - (5 if self.data[1] == 1 else 9)) % 16"))]),
    ("12 placed where the bytes end", [(CUT_SHORT, CUT_SHORT.replace("self.field_at", "len(self.data)"))]),
    ("12 for a wrong value placed at its end", [(WRONG_VALUE, WRONG_VALUE.replace("self.field_at", "self.at"))]),
    ("left over accepted", [(END, "        return\n")]),
    ("left over placed at byte 0", [(END, END.replace("self.at)", "0)"))]),
    ("12 for missing bytes before any 13", [(TOO_FAR, TOO_FAR.replace("raise", "self.bad = getattr(self, 'bad', None) or").replace(
        "at)", "at)\n            return Fraction(0)")), (END, "        if getattr(self, 'bad', None):\n            raise self.bad\n" + END)]),
    ("12 for left-over bytes before any 13", [(TOO_FAR, TOO_FAR.replace("raise", "self.bad = getattr(self, 'bad', None) or").replace(
        "at)", "at)\n            return Fraction(0)")), (END, END + "        if getattr(self, 'bad', None):\n            raise self.bad\n")]),
    ("not finite let pass as nought", [(TOO_FAR, "metres = Fraction(0) if metres is None else metres\n        if abs(metres) > MOST_METRES:\n            raise Refused(13, self.field_at)")]),
    ("15,000 m refused", [("abs(metres) > MOST_METRES", "abs(metres) >= MOST_METRES")]),
    ("15,000 m tested on ticks", [("abs(metres) > MOST_METRES", "abs(ticks_of(metres)) > MOST_METRES * TICKS_A_METRE")]),
    ("21 before the left-over bytes", [(READ_END, "    return vertices, fields\n"), (READ_ALL, "    vertices, fields = read_geometry(data)\n"), (WRITE, "    fields.end()\n" + WRITE)]),
    ("the run for y not tested", [(" or len(ys) < len(vertices)", "")]),
    ("entries past the vertices cleared", [(WRITE, "    xs[len(vertices):] = [0] * (len(xs) - len(vertices))\n" + WRITE)]),
    ("vertices written as they are read", [(READ_ALL, "    Fields.lent, Fields.done = (xs, ys), 0\n" + READ_ALL), (VERTEX, VERTEX.replace(
        "return x, self.coordinate()", "y = self.coordinate()") + "        for run, c in zip(Fields.lent, (x, y)):\n"
        "            run[Fields.done:Fields.done + 1] = [ticks_of(c)][:len(run) - Fields.done]\n        Fields.done += 1\n        return x, y\n")]),
]

# Which ends of a segment count: a common place must then be neither its open start nor its open end.
MEETS = "    return not (boxes_apart or one_side(a, b, c, d) or one_side(c, d, a, b))\n"
INNER = """    if boxes_apart or one_side(a, b, c, d) or one_side(c, d, a, b):
        return False
    (a, b), (c, d) = %s
    if side(c, d, a) != side(c, d, b):
        return (side(c, d, a) != 0 or not %d) and (side(c, d, b) != 0 or not %d)
    way = minus(b, a)
    low, high = sorted(way[0] * (p[0] - a[0]) + way[1] * (p[1] - a[1]) for p in (c, d))
    whole = way[0] ** 2 + way[1] ** 2
    return (high > 0 or not %d) and (low < whole or not %d)
"""
PAIRS = "    return list(zip(vertices, vertices[1:]))\n"
SINGLE = "        return [(vertices[0], vertices[0])]\n"


def with_open(which, start, end):
    return [(MEETS, INNER % (which, start, end, start, end))]


TOUCH_BENDS = [
    ("both ends of a move open", with_open("move, segment", 1, 1)),
    ("the start of a move open", with_open("move, segment", 1, 0)),
    ("the end of a move open", with_open("move, segment", 0, 1)),
    ("both ends of a kerb segment open", with_open("segment, move", 1, 1)),
    ("the start of a kerb segment open", with_open("segment, move", 1, 0)),
    ("the end of a kerb segment open", with_open("segment, move", 0, 1)),
    ("parallel ones do not touch", [(MEETS, MEETS.replace("not (", "side(c, d, a) != side(c, d, b) and not ("))]),
    ("boxes alone", [(MEETS, "    return not boxes_apart\n")]),
    ("sides alone", [(MEETS, MEETS.replace("boxes_apart or ", ""))]),
    ("sides worked out in floats", [("return x * v - y * u", "return float(x) * float(v) - float(y) * float(u)")]),
    ("sides in 32 bits", [("return x * v - y * u", "return (x * v - y * u + 2 ** 31) % 2 ** 32 - 2 ** 31")]),
    ("a single vertex is no segment", [(SINGLE, "        return []\n")]),
    ("last segment left out", [(PAIRS, "    return list(zip(vertices, vertices[1:-1]))\n"), (SINGLE, "        return []\n")]),
    ("last segment of a line left out", [(PAIRS, "    return list(zip(vertices, vertices[1:-1]))\n")]),
    ("first segment of a line left out", [(PAIRS, "    return list(zip(vertices[1:], vertices[2:]))\n")]),
    ("a kerb joined to a ring", [(PAIRS, "    return list(zip(vertices, vertices[1:] + vertices[:1]))\n")]),
    ("vertices alone", [(PAIRS, "    return [(v, v) for v in vertices]\n")]),
]

FOUND = "            return [0, 0, 1, walk.station, points[0]]\n    return NONE\n"
LOOP = "    while walk.station < asked - 1:\n"
REFUSED = "            return [refusal.number, refusal.unit, 0, walk.station + 1, 0]\n"
TOUCHING = "    return [p for p, move in enumerate(moves) if any(touches(move, segment) for segment in segments)]\n"
TESTS = ["    test_lent(asked, path)\n", "    test_kerb_lent(vertices, kerb)\n", "    test_path(asked, runs)\n", "    test_kerb(vertices, kerb)\n",
         "    test_record(walk, asked)\n"]
LOOK_AT_REFUSED = """            vehicle, k = walk.vehicle, walk.station
            free = walk._replace(vehicle=vehicle._replace(units=[unit._replace(fold=-1_000) for unit in vehicle.units]))
            try:
                moves = moved(free, path)[1]
            except RefusedAt:
                moves = zip(*(points_of(vehicle, walk.vectors, (path.xs[k + s], path.ys[k + s])) for s in (0, 1)))
            points = touching(list(moves), segments)
            if points:
                return [0, 0, 1, walk.station + 1, points[0]]
"""
PLACED = "    walk, asked, path = placed(data)\n"
LENT_KERB = "    kerb = [0] * MOST_VERTICES, [0] * MOST_VERTICES\n"


def in_order(*order):
    return [("".join(TESTS), "".join(TESTS[k] for k in order))]


REPORT_BENDS = [
    ("step one late", [(FOUND, FOUND.replace("walk.station", "walk.station + 1"))]),
    ("a refused step one early", [(REFUSED, REFUSED.replace(" + 1", ""))]),
    ("highest point first", [(FOUND, FOUND.replace("points[0]", "points[-1]"))]),
    ("first segment's point instead of the lowest",
     [(TOUCHING, "    return [p for segment in segments for p, move in enumerate(moves) if touches(move, segment)]\n")]),
    ("lowest point before the first step",
     [(LOOP, "    found = []\n" + LOOP), (FOUND, "            found.append((points[0], walk.station))\n    return [0, 0, 1, min(found)[1], min(found)[0]] if found else NONE\n")]),
    ("the old station's move missing", [(LOOP, "    begun = walk.station + 1\n" + LOOP), ("        if points:\n", "        if points and walk.station > begun:\n")]),
    ("the last step missing", [(LOOP, LOOP.replace("asked - 1", "asked - 2"))]),
    ("the stations of the run, not those asked for", [(LOOP, LOOP.replace("asked - 1", "len(path.xs) - 1"))]),
    ("a refused step's moves looked at", [(REFUSED, LOOK_AT_REFUSED + REFUSED)]),
    ("a later refusal before a touch",
     [(LOOP, "    found = None\n" + LOOP), (FOUND, "            found = found or [0, 0, 1, walk.station, points[0]]\n    return found or NONE\n")]),
    ("a refused step is none", [(REFUSED, "            return NONE\n")]),
    ("25 at the last station", [(LOOP, "    if walk.station == asked - 1:\n        raise Refused(25)\n" + LOOP)]),
    ("25 after the last step", [(FOUND, FOUND.replace("return NONE", "raise Refused(25)"))]),
    ("six points only", [(TOUCHING, TOUCHING.replace("enumerate(moves)", "enumerate(moves[:6])"))]),
    ("points that stay put do not touch", [(TOUCHING, TOUCHING.replace("if any", "if move[0] != move[1] and any"))]),
    ("new places alone", [(TOUCHING, TOUCHING.replace("touches(move, segment)", "touches((move[1], move[1]), segment)"))]),
    ("501 vertices pass", [("1 <= vertices <= MOST_VERTICES", "1 <= vertices <= MOST_VERTICES + 1")]),
    ("500 vertices do not", [("1 <= vertices <= MOST_VERTICES", "1 <= vertices < MOST_VERTICES")]),
    ("no vertices pass", [("1 <= vertices <=", "0 <= vertices <=")]),
    ("the kerb's runs not tested", [(" or any(len(run) < vertices for run in kerb)", "")]),
    ("26 by the path before 21 by the kerb", in_order(0, 2, 1, 3, 4)),
    ("27 before 26 by the kerb", in_order(0, 1, 2, 4, 3)),
    ("27 before 26 by the path", in_order(0, 1, 4, 2, 3)),
    ("27 before 21 by the kerb", in_order(0, 4, 1, 2, 3)),
    ("26 by the kerb not tested", in_order(0, 1, 2, 4)),
    ("150,000,000 is 26", [("> MOST_COORDINATE", ">= MOST_COORDINATE")]),
    ("150,000,001 passes", [("> MOST_COORDINATE", "> MOST_COORDINATE + 1")]),
    ("kerb entries past those in use tested", [("for c in run[:vertices]", "for c in run")]),
    ("kerb entries past those in use walked", [("list(zip(*kerb))[:vertices]", "list(zip(*kerb))")]),
    ("a geometry's refusals before a job's", [(PLACED + LENT_KERB, "    read_kerb(geometry, *([0] * MOST_VERTICES for _ in 'xy'))\n" + PLACED + LENT_KERB)]),
    ("21 by the kerb before a job's refusals", [(PLACED + "    return", "    test_kerb_lent(vertices, kerb)\n" + PLACED + "    return")]),
]

COUNTER = """
import pathlib, sys
from turning.kerb_lines import kerb_again

def changes(line):
    try:
        return kerb_again(line) != line
    except (IndexError, ValueError, TypeError, ZeroDivisionError, OverflowError, MemoryError):
        return True

lines = [line for line in pathlib.Path(sys.argv[1]).read_text().splitlines() if line[0] in sys.argv[2]]
print(*(sum(changes(line) for line in lines if line[0] == kind) for kind in "1234"))
"""


def rows_changed(module, changes, kinds):
    """Rows of each kind that the wrong rule answers otherwise."""
    with tempfile.TemporaryDirectory() as name:
        folder = pathlib.Path(name)
        bent_copy(folder, module, changes)
        told = subprocess.run([sys.executable, "-B", "-c", COUNTER, str(TABLE), kinds], cwd=folder, check=True, capture_output=True, text=True).stdout
    return [int(word) for word in told.split()]


def main():
    if any(rows_changed("plane", [], "1234")):
        raise SystemExit("the table is not what the method says")
    enough = True
    for module, kinds, bends in (("kerb_bytes", "14", BYTE_BENDS), ("kerb_touch", "234", TOUCH_BENDS), ("kerb_report", "234", REPORT_BENDS)):
        for name, changes in bends:
            rows = rows_changed(module, changes, kinds)
            enough = enough and sum(rows) >= LEAST
            print("%-48s %4d rows: %s" % (name, sum(rows), " ".join(map(str, rows))), flush=True)
    return 0 if enough else 1


if __name__ == "__main__":
    sys.exit(main())
