"""The drawing: XML that holds every element, courtyards left open, north up."""

import unittest
from xml.etree import ElementTree

from cxf import Loose, Sheet
from cxf.drawing import svg

from . import made

SVG = "{http://www.w3.org/2000/svg}"


def drawn(source, mode=Loose):
    return ElementTree.fromstring(svg(Sheet.read(source, mode)))


class Drawn(unittest.TestCase):
    def test_every_element_is_there(self):
        drawing = drawn(made.every_kind())
        kinds = [path.get("class") for path in drawing.iter(f"{SVG}path")]
        self.assertEqual(kinds, ["PARCEL", "ROAD", "WATER", "BUILDING", "CONFINE", *["sign"] * 2, *["line"] * 2, *["sign"] * 4, "survey"])
        self.assertEqual([text.text for text in drawing.iter(f"{SVG}text")], ["(7)", "19", "VIA ROMA", "PF01", "7"])

    def test_courtyards_are_rings_of_their_own(self):
        roof = next(path for path in drawn(made.every_kind()).iter(f"{SVG}path") if path.get("class") == "BUILDING")
        self.assertEqual(roof.get("d").count("Z"), 3)
        self.assertEqual(roof.find(f"{SVG}title").text, "BUILDING 7+, 1300.00 m\u00b2, row 4")
        self.assertIn("fill-rule: evenodd", svg(Sheet.read(made.every_kind())))

    def test_north_is_up(self):
        drawing = drawn(made.Paper().border("1", made.rectangle(0, 0, 10_000, 10_000)).text("NORD", (0, 9_000)).text("SUD", (0, 1_000)).file())
        heights = [float(text.get("transform")[len("translate("):-1].split()[1]) for text in drawing.iter(f"{SVG}text")]
        self.assertLess(heights[0], heights[1])

    def test_letters_at_an_edge_are_not_cut(self):
        square = made.rectangle(0, 0, 10_000, 10_000)
        plain = drawn(made.Paper().border("1", square).file())
        for at, angle in (((10_000, 5_000), 0), ((5_000, 10_000), 1571), ((0, 5_000), 3142)):
            wider = drawn(made.Paper().border("1", square).text("FOGLIO CONFINANTE", at, size=40, angle=angle).file())
            sides = [float(drawing.get("viewBox").split()[3 if angle == 1571 else 2]) for drawing in (plain, wider)]
            self.assertGreater(sides[1], sides[0] + 17 * 2)

    def test_letters_are_escaped(self):
        drawing = drawn(made.Paper().text('<A & "B">', (0, 0)).border("<1>", made.rectangle(0, 0, 10_000, 10_000)).file())
        self.assertEqual([text.text for text in drawing.iter(f"{SVG}text")], ['<A & "B">', "<1>"])

    def test_nothing_to_draw_a_union_sheet_and_codes_that_no_table_has(self):
        drawn(made.Paper().file())
        union = drawn(made.Paper("QUADRO D'UNIONE", "Z999_0001QU", 5_000_000).border("Z999_000100", made.rectangle(0, 0, 10 ** 6, 10 ** 6)).file())
        self.assertEqual([text.text for text in union.iter(f"{SVG}text")], ["Z999_000100"])
        drawn(made.Paper().symbol(99, (0, 0)).line(77, [(0, 0), (1, 1)]).fiducial("F", 9, (0, 0), (1, 1)).file())


if __name__ == "__main__":
    unittest.main()
