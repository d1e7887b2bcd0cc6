"""The shape of an element as well-known text and as well-known bytes, in metres. Neither claims a reference system."""

import struct
from itertools import chain

from .units import metres

SHAPES = {"BORDO": "POLYGON", "LINEA": "LINESTRING", "LIBRETTO": "LINESTRING", "RIFERIMENTO_RASTER": "MULTIPOINT"}
_CODES = {"POINT": 1, "LINESTRING": 2, "POLYGON": 3}


def well_known_text(row):
    shape = SHAPES.get(row.kind, "POINT")
    if shape == "POLYGON":
        return f"POLYGON({','.join(map(_listed, row.rings()))})"
    return shape + _listed(row.points or [row.at])


def polygon(border):
    rings = border.rings()
    return struct.pack("<BII", 1, _CODES["POLYGON"], len(rings)) + b"".join(map(_counted, rings))


def line(points):
    return struct.pack("<BI", 1, _CODES["LINESTRING"]) + _counted(points)


def point(at):
    return struct.pack("<BI", 1, _CODES["POINT"]) + _packed([at])


def _listed(points):
    return f"({','.join(f'{metres(x)} {metres(y)}' for x, y in points)})"


def _counted(points):
    return struct.pack("<I", len(points)) + _packed(points)


def _packed(points):
    return struct.pack(f"<{2 * len(points)}d", *(number / 1000 for number in chain.from_iterable(points)))
