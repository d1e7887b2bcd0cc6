"""A GeoPackage of sheets: borders with their holes, lines, texts, points. Its reference system is -1, the undefined Cartesian one, since
sheets have local origins: QGIS and GDAL open it and take the coordinates for nothing else than the sheet's metres."""

import sqlite3
import struct
from contextlib import closing

from . import shapes
from .refusal import Refused
from .row import around

_TABLES = """
PRAGMA application_id = 0x47504B47;
PRAGMA user_version = 10300;
PRAGMA journal_mode = OFF;
CREATE TABLE gpkg_spatial_ref_sys (srs_name TEXT NOT NULL, srs_id INTEGER PRIMARY KEY, organization TEXT NOT NULL,
    organization_coordsys_id INTEGER NOT NULL, definition TEXT NOT NULL, description TEXT);
INSERT INTO gpkg_spatial_ref_sys VALUES
    ('Undefined Cartesian SRS', -1, 'NONE', -1, 'undefined', 'the local coordinates of a sheet, in metres'),
    ('Undefined geographic SRS', 0, 'NONE', 0, 'undefined', NULL),
    ('WGS 84 geodetic', 4326, 'EPSG', 4326, 'GEOGCS["WGS 84",DATUM["WGS_1984",SPHEROID["WGS 84",6378137,298.257223563]],PRIMEM["Greenwich",0],UNIT["degree",0.0174532925199433]]', NULL);
CREATE TABLE gpkg_contents (table_name TEXT NOT NULL PRIMARY KEY, data_type TEXT NOT NULL, identifier TEXT UNIQUE, description TEXT DEFAULT '',
    last_change DATETIME NOT NULL DEFAULT (strftime('%Y-%m-%dT%H:%M:%fZ','now')), min_x DOUBLE, min_y DOUBLE, max_x DOUBLE, max_y DOUBLE,
    srs_id INTEGER REFERENCES gpkg_spatial_ref_sys(srs_id));
CREATE TABLE gpkg_geometry_columns (table_name TEXT NOT NULL UNIQUE REFERENCES gpkg_contents(table_name), column_name TEXT NOT NULL,
    geometry_type_name TEXT NOT NULL, srs_id INTEGER NOT NULL REFERENCES gpkg_spatial_ref_sys(srs_id), z TINYINT NOT NULL, m TINYINT NOT NULL,
    PRIMARY KEY (table_name, column_name));
"""

# Each layer: the shape of its features, and their columns behind the sheet, the row and the line of the file.
_LAYERS = {
    "borders": ("POLYGON", "class TEXT, letters TEXT, islands INTEGER, outer_m2 DOUBLE, net_m2 DOUBLE, size INTEGER, angle DOUBLE, label_x DOUBLE, label_y DOUBLE"),
    "lines": ("LINESTRING", "kind TEXT, letters TEXT, code INTEGER, outside BOOLEAN"),
    "texts": ("POINT", "letters TEXT, size INTEGER, angle DOUBLE, outside BOOLEAN, surface_right BOOLEAN, centroid BOOLEAN"),
    "points": ("POINT", "kind TEXT, letters TEXT, code INTEGER, angle DOUBLE, outside BOOLEAN"),
}
_LAYER_OF = {"BORDO": "borders", "LINEA": "lines", "LIBRETTO": "lines", "TESTO": "texts"}


class GeoPackage:
    """A new GeoPackage at a path where no file stands yet: `with GeoPackage(path) as package: package.add(sheet)`."""

    def __init__(self, path):
        self._database = sqlite3.connect(path, isolation_level=None)
        self._database.executescript(_TABLES)
        self._database.execute("BEGIN")
        self._bounds = {}
        for layer, (shape, columns) in _LAYERS.items():
            self._database.execute(f"CREATE TABLE {layer} (fid INTEGER PRIMARY KEY AUTOINCREMENT NOT NULL, geom {shape}, "
                                   f"sheet TEXT, row INTEGER, line INTEGER, {columns})")

    def add(self, sheet):
        """Adds a sheet's elements. An area that is refused is left out."""
        features = {layer: [] for layer in _LAYERS}
        for row in sheet.rows:
            layer = _LAYER_OF.get(row.kind, "points")
            self._bounds[layer] = around([self._bounds.get(layer, row.bounds), row.bounds])
            for shape in _shapes(row):
                features[layer].append((_header(row.bounds) + shape, sheet.name, row.index, row.line, *_VALUES[layer](row)))
        for layer, rows in features.items():
            if rows:
                places = ",".join("?" * len(rows[0]))
                self._database.executemany(f"INSERT INTO {layer} VALUES (NULL,{places})", rows)

    def __enter__(self):
        return self

    def __exit__(self, kind, error, trace):
        with closing(self._database):
            if kind is None:
                self._finish()

    def _finish(self):
        """Says what the layers hold, and ends the file."""
        for layer, (shape, _) in _LAYERS.items():
            bounds = [side / 1000 for side in self._bounds[layer]] if layer in self._bounds else [None] * 4
            self._database.execute("INSERT INTO gpkg_contents (table_name, data_type, identifier, min_x, min_y, max_x, max_y, srs_id) "
                                   "VALUES (?, 'features', ?, ?, ?, ?, ?, -1)", (layer, layer, *bounds))
            self._database.execute("INSERT INTO gpkg_geometry_columns VALUES (?, 'geom', ?, -1, 0, 0)", (layer, shape))
        self._database.execute("COMMIT")


def _shapes(row):
    if row.kind == "BORDO":
        return [shapes.polygon(row)]
    if row.kind in ("LINEA", "LIBRETTO"):
        return [shapes.line(row.points)]
    return [shapes.point(at) for at in row.points or [row.at]]


def _header(bounds):
    """The GeoPackage's own bytes before a shape: little endian, with a box, reference system -1."""
    west, south, east, north = (side / 1000 for side in bounds)
    return struct.pack("<2sBBi4d", b"GP", 0, 3, -1, west, east, south, north)


def _area(question):
    try:
        return question() / 2_000_000
    except Refused:
        return None


def _border(row):
    x, y = row.at
    return (row.cls, row.letters, len(row.island_counts), _area(row.area), _area(lambda: row.net), row.size, row.angle / 1000, x / 1000, y / 1000)


def _line(row):
    return row.kind, row.letters or None, row.code, row.outside


def _text(row):
    return row.letters, row.size, row.angle / 1000, row.outside, row.surface_right, row.centroid


def _point(row):
    return row.kind, row.letters or None, row.code, row.angle / 1000, row.outside


_VALUES = {"borders": _border, "lines": _line, "texts": _text, "points": _point}
