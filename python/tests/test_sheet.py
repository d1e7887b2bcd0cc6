"""Sheets: what is asked of a row alone is what the whole sheet answers; writing, moving and removing."""

import unittest

from cxf import Border, Exact, Former, Loose, Refused, Sheet
from cxf._library import library

from . import made


def whole(sheet, function, *more):
    """A question on the whole sheet, as the C interface has it."""
    return function(*sheet._header, len(sheet.rows), *sheet._tables.lent(), *more)


class ARowAlone(unittest.TestCase):
    def setUp(self):
        self.sheets = [Sheet.read(source) for source in (made.SAMPLE.read_bytes(), made.every_kind(), made.town(2, 2))]

    def test_answers_as_the_whole_sheet(self):
        for sheet in self.sheets:
            for row in sheet.rows:
                with self.subTest(sheet=sheet, row=row):
                    text = whole(sheet, library.text_at, row.index)
                    self.assertEqual((row.surface_right, row.centroid), (bool(text.surface_right), bool(text.centroid)))
                    if isinstance(row, Border):
                        self.compare_border(sheet, row)

    def compare_border(self, sheet, row):
        border = whole(sheet, library.border_at, row.index)
        self.assertEqual(row._ask(library.border_at).class_of, border.class_of)
        self.assertEqual((row.size, row.angle, row.at, row.second), (border.size, border.angle, (border.x, border.y), (border.inner_x, border.inner_y)))
        self.assertEqual(row.net, whole(sheet, library.net_area, row.index).doubled)
        for ring in range(border.islands + 1):
            self.assertEqual(row.area(ring), whole(sheet, library.ring_area, row.index, ring).doubled)
            check = whole(sheet, library.ring_check, row.index, ring)
            self.assertEqual(row.crossing(ring), None if check.simple else (check.first, check.second))
        west, _, _, north = row.bounds
        mask = whole(sheet, library.mask_of, row.index, west, north, 700)
        self.assertEqual(row.mask((west, north), 700), (tuple(mask.rows), mask.covered))

    def test_is_refused_as_the_whole_sheet(self):
        wide = Sheet.read(made.Paper().text("A", (0, 0)).border("1", [(0, 0), (30_000_000, 0), (0, 1), (0, 0)]).file())
        border = wide.rows[1]
        for question, function, more in ((lambda: border.net, library.net_area, ()), (border.area, library.ring_area, (0,)),
                                         (border.crossing, library.ring_check, (0,)), (lambda: border.mask((0, 0), 500), library.mask_of, (0, 0, 500))):
            with self.assertRaises(Refused) as caught:
                question()
            self.assertEqual((caught.exception.number, caught.exception.row), (17, 1))
            self.assertEqual(whole(wide, function, 1, *more).number, 17)

    def test_what_is_not_there_is_refused_as_the_whole_sheet(self):
        sheet = self.sheets[1]
        roof, last = sheet.rows[4], 2 ** 64  # ctypes would take 2 ** 64 for 0
        far = 40_000_001
        for ask, function, more, number in ((roof.area, library.ring_area, (3,), 19), (roof.crossing, library.ring_check, (3,), 19),
                                            (roof.area, library.ring_area, (-1,), 19), (roof.mask, library.mask_of, (0, 0, 0), 26),
                                            (roof.mask, library.mask_of, (far + 50_000, 0, 500), 20)):
            with self.assertRaises(Refused) as caught:
                ask((more[0], more[1]), more[2]) if ask == roof.mask else ask(*more)
            self.assertEqual((caught.exception.number, whole(sheet, function, 4, *more).number), (number, number))
        for ask, number in ((lambda: roof.area(last), 19), (lambda: roof.crossing(last), 19), (lambda: roof.mask((last, 0), 500), 20),
                            (lambda: roof.mask((0, 0), last + 500), 26), (lambda: sheet.moved(last, 0), 24), (lambda: sheet.moved(0, -last), 24),
                            (lambda: sheet.removed(last), 19), (lambda: sheet.removed(-1), 19)):
            with self.assertRaises(Refused) as caught:
                ask()
            self.assertEqual(caught.exception.number, number)

    def test_tally_is_the_sum_of_the_borders(self):
        for sheet in self.sheets:
            for cls, figures in sheet.tally().items():
                borders = list(sheet.borders(cls))
                self.assertEqual(figures.borders, len(borders))
                self.assertEqual(figures.net, sum(border.net for border in borders))


class Reading(unittest.TestCase):
    def test_every_kind(self):
        sheet = Sheet.read(made.every_kind())
        self.assertEqual((sheet.kind, sheet.name, sheet.scale), ("MAPPA", made.NAME, 1_000_000))
        self.assertEqual([border.cls for border in sheet.borders()], ["CONFINE", "ROAD", "WATER", "PARCEL", "BUILDING"])
        roof = next(sheet.borders("BUILDING"))
        self.assertEqual((roof.letters, roof.angle, roof.line), ("7+", 0, 84))
        self.assertEqual(roof.rings()[1], made.rectangle(20_000, 30_000, 30_000, 40_000))
        self.assertEqual(roof.net, 2 * (1600 - 100 - 200) * 1_000_000)
        self.assertEqual([row.outside for row in sheet.rows].index(True), 7)
        self.assertEqual(sheet.rows[-1].points, [(70_000, 20_000), (80_000, 30_000), (90_000, 20_000)])

    def test_lines_are_the_files(self):
        for source in (made.every_kind(), made.town(3, 1)):
            records = source.decode().split("\r\n")
            sheet = Sheet.read(source)
            for row in sheet.rows:
                self.assertEqual(records[row.line - 1].rstrip("\\"), row.kind)
            self.assertEqual(records[sheet.lines[-1] - 1], "EOF")

    def test_modes(self):
        bare, noted = made.every_kind().replace(b"\r\n", b"\n"), made.every_kind().replace(b"    1000.000", b"    1000.000 scala")
        for source, taken in ((bare, (Loose, Former)), (noted, (Former,))):
            for mode in (Exact, Loose, Former):
                self.assertEqual(Sheet.accepts(source, mode), mode in taken)
        self.assertEqual(Sheet.read(bare, Loose).write(), made.every_kind())
        self.assertEqual(Sheet.read(noted, Former).write(), made.every_kind())
        with self.assertRaises(Refused) as caught:
            Sheet.read(noted)
        refused = caught.exception
        self.assertEqual((refused.number, refused.record, refused.offset, refused.column, refused.row), (8, 3, 20, 13, None))
        self.assertEqual(str(refused), "refused 8: a malformed number, line 3, column 13")
        self.assertRaises(ValueError, Sheet.read, bare, 2 ** 64)

    def test_a_sheet_comes_from_a_reading_alone(self):
        self.assertRaises(TypeError, Sheet)

    def test_no_elements(self):
        sheet = Sheet.read(made.Paper().file())
        self.assertEqual((len(sheet.rows), sheet.lines, sheet.cml()), (0, [4], b""))


class Writing(unittest.TestCase):
    def test_clean_twice(self):
        for source in (made.every_kind(), made.town(2, 1), made.SAMPLE.read_bytes()):
            once = Sheet.read(source.replace(b"\r\n", b" \n").replace(b"   ", b" "), Loose).write()
            self.assertEqual(once, source)
            self.assertEqual(Sheet.read(once).write(), once)

    def test_an_unlisted_code_names_its_row(self):
        sheet = Sheet.read(made.Paper().text("A", (0, 0)).symbol(99, (0, 0)).file(), Loose)
        with self.assertRaises(Refused) as caught:
            sheet.write()
        self.assertEqual((caught.exception.number, caught.exception.row), (10, 1))

    def test_sup_files(self):
        sheet, sup = Sheet.read(made.SAMPLE.read_bytes()), made.SAMPLE.with_suffix(".sup").read_bytes()
        self.assertEqual(sheet.sup("20261115"), sup)
        sheet.check_sup(sup)
        for wrong, line in ((sup.replace(b"20261115", b"20261315"), 1), (sup.replace(b" 709", b" 712"), 7), (sup[:-23], 17), (sup + b"x", 18)):
            with self.assertRaises(Refused) as caught:
                sheet.check_sup(wrong)
            self.assertEqual((caught.exception.number, caught.exception.line, caught.exception.row), (25, line, None))

    def test_refusals_of_sup_files(self):
        square = made.rectangle(0, 0, 10_000, 10_000)
        far = [(0, 0), (30_000_000, 0), (0, 1), (0, 0)]
        self.assertRaises(Refused, Sheet.read(made.Paper().file()).check_sup, bytearray(b"no SUP file"))
        for paper, date, number, row in ((made.Paper(), "20261301", 21, None), (made.Paper().border("A", square).border("A" * 12, square), "20261115", 22, 1),
                                         (made.Paper().border("A", far), "20261115", 17, 0)):
            with self.assertRaises(Refused) as caught:
                Sheet.read(paper.file()).sup(date)
            self.assertEqual((caught.exception.number, caught.exception.row), (number, row))

    def test_cml(self):
        self.assertEqual(Sheet.read(made.every_kind()).cml().splitlines()[1],
                         b'<LINEA valenza="CONSOLID" esterconf="SI" cod="1" n.vert="3"><COORD>-5.000,0.000 0.000,0.000 0.000,-5.000</COORD></LINEA>')


class Altering(unittest.TestCase):
    def test_move_there_and_back(self):
        for source in (made.every_kind(), made.town(2, 1)):
            sheet = Sheet.read(source)
            moved = sheet.moved(-1_234, 5_678_901)
            self.assertEqual(sheet.write(), source)
            self.assertNotEqual(moved.write(), source)
            self.assertEqual(moved.tally(), sheet.tally())
            self.assertEqual(moved.rows[0].points[0], (sheet.rows[0].points[0][0] - 1_234, sheet.rows[0].points[0][1] + 5_678_901))
            self.assertEqual(moved.moved(1_234, -5_678_901).write(), source)

    def test_a_move_that_is_too_far(self):
        with self.assertRaises(Refused) as caught:
            Sheet.read(made.every_kind()).moved(0, -10_000_000_000)
        self.assertEqual(caught.exception.number, 24)

    def test_rows_taken_out(self):
        sheet = Sheet.read(made.every_kind())
        left = sheet.removed(4, 0, 12, 4)
        self.assertEqual([row.kind for row in left.rows], [row.kind for row in sheet.rows if row.index not in (0, 4, 12)])
        self.assertEqual(Sheet.read(left.write()).rows[-1].points, sheet.rows[-1].points)
        self.assertEqual(len(sheet.removed(*range(len(sheet.rows))).rows), 0)
        with self.assertRaises(Refused) as caught:
            sheet.removed(14)
        self.assertEqual(caught.exception.number, 19)


class WithNumpy(unittest.TestCase):
    @made.with_numpy
    def test_tables(self):
        import numpy
        sheet = Sheet.read(made.every_kind())
        rows, letters, islands, points = sheet.arrays()
        self.assertEqual(rows.shape, (14, 15))
        self.assertEqual(numpy.array(sheet.rows[4].points).tolist(), points[rows[4, 14]:rows[4, 14] + rows[4, 11]].tolist())
        with self.assertRaises(ValueError):
            points[0, 0] = 1


if __name__ == "__main__":
    unittest.main()
