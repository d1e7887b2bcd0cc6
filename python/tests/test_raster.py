"""Masks of whole sheets: overlapping roofs, courtyards, ties, edges, what cannot be drawn; and beside GDAL, where it is installed."""

import shutil
import struct
import subprocess
import unittest
import zlib

from cxf import Grid, Raster, Refused, Sheet
from cxf.geopackage import GeoPackage
from cxf.raster import NotDrawn

from . import made


def drawn(raster):
    """The cells as lines of # and ."""
    return ["".join(".#"[byte >> bit & 1] for byte in row for bit in range(7, -1, -1))[:raster.grid.columns] for row in raster.rows()]


def pixels(png):
    """The rows of a PNG of one bit, decoded: as many bytes as the raster's rows have."""
    width, height = struct.unpack(">II", png[16:24])
    stride = (width + 7) // 8 + 1
    length, = struct.unpack(">I", png[33:37])
    raw = zlib.decompress(png[41:41 + length])
    assert len(raw) == stride * height and not any(raw[::stride])
    return [raw[row * stride + 1:(row + 1) * stride] for row in range(height)]


def sheet(*roofs, confine=made.rectangle(0, 0, 6_000, 4_000)):
    paper = made.Paper().border(made.NAME, confine)
    for number, rings in enumerate(roofs):
        paper.border(f"{number}+", *rings)
    return Sheet.read(paper.file())


class Cells(unittest.TestCase):
    def test_overlapping_roofs_are_both_covered(self):
        raster = Raster.of_sheet(sheet([made.rectangle(0, 0, 4_000, 3_000)], [made.rectangle(2_000, 1_000, 6_000, 4_000)]), cell=1000)
        self.assertEqual(drawn(raster), ["..####", "######", "######", "####.."])
        self.assertEqual(raster.covered, 20)

    def test_a_courtyard_is_open_and_a_shed_in_it_is_covered(self):
        yard = [made.rectangle(0, 0, 6_000, 4_000), made.rectangle(1_000, 1_000, 5_000, 3_000)]
        self.assertEqual(drawn(Raster.of_sheet(sheet(yard), cell=1000)), ["######", "#....#", "#....#", "######"])
        self.assertEqual(drawn(Raster.of_sheet(sheet(yard, [made.rectangle(2_000, 1_000, 3_000, 2_000)]), cell=1000)),
                         ["######", "#....#", "#.#..#", "######"])

    def test_ties(self):
        """A centre on an edge lies inside where the border is east of it, or north: neighbours share no cell and leave none out."""
        west, east = [made.rectangle(0, 0, 2_500, 4_000)], [made.rectangle(2_500, 0, 6_000, 4_000)]
        south, north = [made.rectangle(0, 0, 6_000, 1_500)], [made.rectangle(0, 1_500, 6_000, 4_000)]
        for one, other in ((west, east), (south, north)):
            first, second = (drawn(Raster.of_sheet(sheet(roof), cell=1000)) for roof in (one, other))
            for row, also in zip(first, second):
                self.assertTrue(all({a, b} == {"#", "."} for a, b in zip(row, also)), (first, second))

    def test_the_grid_lies_on_multiples_of_the_cell(self):
        for bounds, cell, grid in (((0, 0, 6_000, 4_000), 500, (0, 4_000, 500, 12, 8)), ((-1, -1, 1, 1), 500, (-500, 500, 500, 2, 2)),
                                   ((250, 250, 250, 250), 500, (0, 500, 500, 1, 1)), ((-12_480_350, 8_214_600, -12_360_350, 8_304_600), 500,
                                    (-12_480_500, 8_305_000, 500, 241, 181))):
            self.assertEqual(Grid.over(bounds, cell), grid)

    def test_neighbouring_sheets_fit_together(self):
        roof = [made.rectangle(3_300, 700, 9_100, 3_900)]
        both = Raster.of_sheet(sheet(roof, confine=made.rectangle(0, 0, 12_000, 4_000)), cell=700)
        for confine in (made.rectangle(0, 0, 5_100, 4_000), made.rectangle(5_100, 0, 12_000, 4_000)):
            part = Raster.of_sheet(sheet(roof, confine=confine), cell=700)
            skip = (part.grid.west - both.grid.west) // 700
            self.assertEqual(drawn(part), [row[skip:skip + part.grid.columns] for row in drawn(both)])

    def test_more_than_one_tile_and_no_cell_past_the_edge(self):
        wide = made.rectangle(-100_000, -100_000, 200_000, 100_000)
        for columns, rows in ((1, 1), (63, 65), (64, 64), (129, 130), (200, 7)):
            raster = Raster.of_borders(list(sheet([wide]).borders("BUILDING")), Grid(0, 0, 500, columns, rows))
            self.assertEqual(drawn(raster), ["#" * columns] * rows)
            self.assertEqual(raster.covered, columns * rows)
            self.assertEqual(pixels(raster.png()), list(raster.rows()))

    def test_the_png(self):
        raster = Raster.of_sheet(Sheet.read(made.town(2, 2)))
        self.assertEqual(pixels(raster.png()), list(raster.rows()))
        self.assertEqual(raster.png()[24:29], b"\1\0\0\0\0")

    def test_the_world_file(self):
        self.assertEqual(Grid(-12_480_500, 8_305_000, 500, 1, 1).world(), "0.5000\n0.0000\n0.0000\n-0.5000\n-12480.2500\n8304.7500\n")
        self.assertEqual(Grid(0, 0, 1, 1, 1).world().split(), ["0.0010", "0.0000", "0.0000", "-0.0010", "0.0005", "-0.0005"])

    def test_other_classes(self):
        everything = Sheet.read(made.every_kind())
        for classes in (("PARCEL",), ("ROAD", "WATER"), ("CONFINE",)):
            raster = Raster.of_sheet(everything, 1000, classes)
            self.assertEqual(raster.covered * 2_000_000, sum(border.net for border in everything.borders(*classes)))

    @made.with_numpy
    def test_numpy(self):
        import numpy
        raster = Raster.of_sheet(Sheet.read(made.town(1, 1)))
        self.assertEqual(raster.array().shape, (raster.grid.rows, raster.grid.columns))
        self.assertEqual(int(numpy.count_nonzero(raster.array())), raster.covered)


class NothingDrawn(unittest.TestCase):
    def test_a_raster_sheet(self):
        scanned = Sheet.read(made.Paper().border(made.NAME, made.rectangle(0, 0, 6_000, 4_000)).text("7", (1_000, 1_000), size=0)
                             .image("Z999_000100.TIF", [(0, 0), (1, 0), (0, 1), (1, 1)]).file())
        for grid in (None, Grid(0, 0, 500, 4, 4)):
            with self.assertRaises(NotDrawn):
                Raster.of_sheet(scanned, grid=grid)

    def test_no_confine(self):
        with self.assertRaises(NotDrawn):
            Raster.of_sheet(Sheet.read(made.Paper().border("1+", made.rectangle(0, 0, 1_000, 1_000)).file()))

    def test_one_refused_border_refuses_all(self):
        wide = [(0, 0), (30_000_000, 0), (0, 1_000), (0, 0)]
        with self.assertRaises(Refused) as caught:
            Raster.of_sheet(sheet([made.rectangle(0, 0, 1_000, 1_000)], [wide]))
        self.assertEqual((caught.exception.number, caught.exception.row), (17, 2))

    def test_a_refused_border_off_the_grid_refuses_all(self):
        north = [(0, 9_000_000), (30_000_000, 9_000_000), (0, 9_001_000), (0, 9_000_000)]
        far = made.rectangle(50_000_000, 0, 50_001_000, 1_000)
        for ring, number in ((north, 17), (far, 20)):
            with self.assertRaises(Refused) as caught:
                Raster.of_sheet(sheet([made.rectangle(0, 0, 1_000, 1_000)], [ring]), grid=Grid(0, 4_000, 500, 4, 4))
            self.assertEqual((caught.exception.number, caught.exception.row), (number, 2))

    def test_a_border_off_the_grid_covers_nothing(self):
        raster = Raster.of_sheet(sheet([made.rectangle(0, 0, 1_000, 1_000)], [made.rectangle(90_000, 90_000, 91_000, 91_000)]), 1000)
        self.assertEqual(raster.covered, 1)


@unittest.skipUnless(shutil.which("gdal_rasterize"), "GDAL is not installed")
class BesideGdal(unittest.TestCase):
    def setUp(self):
        self.folder = made.scratch(self)
        self.sheet = Sheet.read(made.town(2, 1))
        self.raster = Raster.of_sheet(self.sheet)
        self.png = self.folder / "roofs.png"
        self.png.write_bytes(self.raster.png())
        self.png.with_suffix(".pgw").write_text(self.raster.grid.world())

    def test_the_same_cells(self):
        with GeoPackage(self.folder / "town.gpkg") as package:
            package.add(self.sheet)
        grid, raw = self.raster.grid, self.folder / "roofs.raw"
        west, north, side = grid.west / 1000, grid.north / 1000, grid.cell / 1000
        subprocess.run(["gdal_rasterize", "-q", "-l", "borders", "-where", "class='BUILDING'", "-burn", "1", "-of", "ENVI", "-ot", "Byte",
                        "-te", str(west), str(north - side * grid.rows), str(west + side * grid.columns), str(north), "-tr", str(side), str(side),
                        self.folder / "town.gpkg", raw], check=True, capture_output=True)
        cells = raw.read_bytes()
        rows = ["".join(".#"[cell] for cell in cells[row * grid.columns:(row + 1) * grid.columns]) for row in range(grid.rows)]
        self.assertEqual(rows, drawn(self.raster))

    def test_where_it_lies(self):
        said = subprocess.run(["gdalinfo", self.png], check=True, capture_output=True, text=True).stdout
        grid = self.raster.grid
        self.assertIn(f"Size is {grid.columns}, {grid.rows}", said)
        self.assertIn(f"Origin = ({grid.west / 1000:.15f},{grid.north / 1000:.15f})", said)
        self.assertIn("Pixel Size = (0.500000000000000,-0.500000000000000)", said)
        self.assertIn("NBITS=1", said)


if __name__ == "__main__":
    unittest.main()
