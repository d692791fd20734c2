#!/usr/bin/env python3
"""Writes tools/gis_kerbs.txt: geometries from a real GIS writer as lines of name and hexadecimal Well-Known Binary.

Made with Debian 12's python3-shapely 1.8.5-2+b1, whose WKB writer is that of GEOS 3.11.1 (the file's first line says which).
The file is stored, so that nothing else needs the package; run this under the system's Python to make it anew.
A measure (M) cannot be written by this GEOS; the two lines of it are a Z geometry's bytes with the type's flag changed, and say so.
"""
import pathlib
import sys
from ctypes import c_int, c_void_p

import shapely
from shapely.geometry import (GeometryCollection, LinearRing, LineString, MultiLineString, MultiPoint, MultiPolygon, Point,
                              Polygon)
from shapely.geos import WKBWriter, _lgeos as LIBRARY, geos_version_string, lgeos
from shapely.wkt import loads

STORED = pathlib.Path(__file__).resolve().parent / "gis_kerbs.txt"
BIG, LITTLE = 0, 1
ISO = 2  # the library's number for that flavour
LIBRARY.GEOSWKBWriter_setFlavor_r.argtypes = [c_void_p, c_void_p, c_int]
Z_FLAG, M_FLAG, SRID_FLAG = 0x80000000, 0x40000000, 0x20000000

KERBS = {
    "point": Point(1, 2), "point_nought": Point(0, 0), "point_minus_nought": Point(-0.0, 0.0), "point_far": Point(15_000, -15_000),
    "point_too_far": Point(15_000.0001, 0), "point_half_tick": Point(0.00015, 0.00035), "point_utm": Point(447_812.331, 5_410_203.874),
    "point_yard": Point(-1_203.4567, 88.00005), "point_third": Point(1 / 3, -2 / 3),
    "line_two": LineString([(0, 0), (10, 0)]), "line_three": LineString([(1.5, 2.25), (3.125, -4.0625), (5, 6)]),
    "line_kerb": LineString([(0.1, 0.2), (12.3456, 0.2), (15.0001, 2.9), (15.0001, 30.75)]),
    "line_double_vertex": LineString([(4, 4), (4, 4), (7, 4)]), "line_closed": LineString([(0, 0), (5, 0), (5, 5), (0, 0)]),
    "line_too_far": LineString([(0, 0), (0, 20_000)]), "ring": LinearRing([(0, 0), (9, 0), (9, 9)]),
    "bend": Point(0, 0).buffer(12.5, resolution=2).exterior.coords, "offset": LineString([(0, 0), (20, 0), (20, 20)]).parallel_offset(1.25, "left"),
    "simplified": LineString([(k / 10, (k % 3) / 1_000) for k in range(40)]).simplify(0.01),
    "point_z": Point(1, 2, 3), "line_z": LineString([(0, 0, 1), (10, 0, 2)]),
    "empty_point": loads("POINT EMPTY"), "empty_line": loads("LINESTRING EMPTY"),
    "multi_point": MultiPoint([(1, 2), (3, 4)]), "multi_line": MultiLineString([[(0, 0), (1, 1)], [(2, 2), (3, 3)]]),
    "polygon": Polygon([(0, 0), (5, 0), (5, 5)]), "multi_polygon": MultiPolygon([Polygon([(0, 0), (5, 0), (5, 5)])]),
    "collection": GeometryCollection([Point(1, 2)]), "empty_collection": loads("GEOMETRYCOLLECTION EMPTY"), "empty_polygon": loads("POLYGON EMPTY"),
}
TWICE = ["point", "point_yard", "line_two", "line_three", "line_kerb"]  # written high bytes first as well, and with a code
VERSIONS = "shapely %s, GEOS %s" % (shapely.__version__, geos_version_string)


def written(geometry, order=LITTLE, dimension=3, code=0, iso=False):
    """The writer's bytes; a code of the reference system goes into them where it is not 0; heights by flag or by the newer types of ISO."""
    if code:
        lgeos.GEOSSetSRID(geometry._geom, code)
    writer = WKBWriter(lgeos, big_endian=order == BIG, output_dimension=dimension, include_srid=bool(code))
    if iso:
        LIBRARY.GEOSWKBWriter_setFlavor_r(lgeos.geos_handle, writer._writer, ISO)
    return writer.write(geometry)


def geometry_of(kerb):
    return kerb if hasattr(kerb, "geom_type") else LineString(kerb)


def measured(data):
    """A Z geometry's bytes with the flag of a measure instead."""
    kind = int.from_bytes(data[1:5], "little")
    return data[:1] + (kind - Z_FLAG + M_FLAG).to_bytes(4, "little") + data[5:]


def all_written():
    for name, kerb in KERBS.items():
        yield name, written(geometry_of(kerb))
    for name in TWICE:
        yield name + "_big_endian", written(KERBS[name], BIG)
        yield name + "_srid", written(LineString(KERBS[name]) if "line" in name else Point(KERBS[name]), code=25_832)
    yield "point_z_written_flat", written(Point(1.5, 2.5, 3), dimension=2)
    yield "line_z_written_flat", written(LineString([(0, 1, 9), (7.5, 1, 9)]), dimension=2)
    yield "point_z_iso", written(KERBS["point_z"], iso=True)
    yield "line_z_iso", written(KERBS["line_z"], iso=True)
    for name in ("point_z", "line_z"):
        yield name.replace("_z", "_m_by_flag"), measured(written(KERBS[name]))


def main():
    lines = ["# " + VERSIONS] + ["%s %s" % (name, data.hex()) for name, data in all_written()]
    STORED.write_text("".join(line + "\n" for line in lines), encoding="ascii")
    print("%d kerbs, %s" % (len(lines) - 1, VERSIONS))
    return 0


if __name__ == "__main__":
    sys.exit(main())
