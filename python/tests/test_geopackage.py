"""The GeoPackage, read by SQLite, and by GDAL where it is installed."""

import shutil
import sqlite3
import struct
import subprocess
import unittest

from cxf import Sheet
from cxf.geopackage import GeoPackage

from . import made


class Packed(unittest.TestCase):
    def setUp(self):
        self.path = made.scratch(self) / "sheets.gpkg"
        self.sheets = [Sheet.read(source) for source in (made.every_kind(), made.town(2, 1))]
        with GeoPackage(self.path) as package:
            for sheet in self.sheets:
                package.add(sheet)
        self.database = sqlite3.connect(self.path)
        self.addCleanup(self.database.close)

    def asked(self, question):
        return self.database.execute(question).fetchall()

    def test_layers(self):
        self.assertEqual(self.asked("PRAGMA application_id"), [(0x47504B47,)])
        self.assertEqual(self.asked("PRAGMA integrity_check"), [("ok",)])
        self.assertEqual(self.asked("PRAGMA foreign_key_check"), [])
        self.assertEqual(self.asked("SELECT table_name, geometry_type_name, srs_id FROM gpkg_geometry_columns ORDER BY 1"),
                         [("borders", "POLYGON", -1), ("lines", "LINESTRING", -1), ("points", "POINT", -1), ("texts", "POINT", -1)])
        sides = zip(*(row.bounds for sheet in self.sheets for row in sheet.rows if row.kind in ("LINEA", "LIBRETTO")))
        west, south, east, north = (least(side) / 1000 for least, side in zip((min, min, max, max), sides))
        self.assertEqual(self.asked("SELECT min_x, min_y, max_x, max_y FROM gpkg_contents WHERE table_name = 'lines'"), [(west, south, east, north)])

    def test_every_element_is_there(self):
        borders, = self.asked("SELECT count(*), sum(net_m2) FROM borders")
        self.assertEqual(borders[0], sum(len(list(sheet.borders())) for sheet in self.sheets))
        self.assertAlmostEqual(borders[1], sum(border.net for sheet in self.sheets for border in sheet.borders()) / 2e6, places=3)
        self.assertEqual(self.asked("SELECT row, kind, letters, code, outside FROM lines WHERE line > 100 LIMIT 3"),
                         [(10, "LINEA", None, 5, 0), (11, "LINEA", None, 1, 1), (13, "LIBRETTO", "4711", 1, 0)])
        self.assertEqual(self.asked("SELECT letters, surface_right, centroid, outside FROM texts LIMIT 3"),
                         [("(7)", 1, 0, 0), ("19", 0, 1, 0), ("VIA ROMA", 0, 0, 1)])
        self.assertEqual(self.asked("SELECT kind, count(*) FROM points WHERE row < 14 GROUP BY kind"),
                         [("FIDUCIALE", 1), ("RIFERIMENTO_RASTER", 4), ("SIMBOLO", 1)])

    def test_a_shape(self):
        shape, = self.asked("SELECT geom FROM borders WHERE letters = '7+' AND islands = 2")[0]
        self.assertEqual(struct.unpack("<2sBBi4dBII", shape[:49]), (b"GP", 0, 3, -1, 10.0, 50.0, 20.0, 60.0, 1, 3, 3))
        self.assertEqual(struct.unpack("<I4d", shape[49:85]), (5, 10.0, 20.0, 50.0, 20.0))

    @unittest.skipUnless(shutil.which("ogrinfo"), "GDAL is not installed")
    def test_gdal_opens_it(self):
        def ogr(*words):
            done = subprocess.run(["ogrinfo", "-ro", *words], check=True, capture_output=True, text=True)
            self.assertEqual(done.stderr, "")
            return done.stdout
        for layer, shape in (("borders", "Polygon"), ("lines", "Line String"), ("texts", "Point"), ("points", "Point")):
            said = ogr("-so", self.path, layer)
            self.assertIn(f"Geometry: {shape}", said)
            self.assertIn(f"Feature Count: {self.asked(f'SELECT count(*) FROM {layer}')[0][0]}", said)
            self.assertIn("Undefined Cartesian SRS", said)
        said = ogr("-q", "-sql", "SELECT max(abs(ST_Area(geom) - net_m2)) AS most, min(ST_IsValid(geom)) AS valid FROM borders", self.path)
        if "most" in said:
            self.assertLess(float(said.split("most (Real) = ")[1].split()[0]), 1e-6)


if __name__ == "__main__":
    unittest.main()
