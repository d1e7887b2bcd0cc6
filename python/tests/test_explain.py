"""Refusals as they are printed, each in each mode, held to refusals.txt. To write that file anew, and then to read what differs:
python3 -m tests.test_explain >tests/refusals.txt, in the folder python."""

import unittest
from pathlib import Path

from cxf import Exact, Former, Loose, Refused, Sheet, explain
from cxf.refusal import MEANINGS

from . import made

GOLDEN = Path(__file__).with_name("refusals.txt")
SQUARE = made.rectangle(0, 0, 10_000, 10_000)


def altered(line, record, source=made.every_kind()):
    """A file with one record replaced; lines count from 1."""
    records = source.split(b"\r\n")
    records[line - 1] = record
    return b"\r\n".join(records)


def cases():
    """What is wrong, and the file. In every_kind the roof "7+" with two courtyards begins at line 84."""
    good = made.every_kind()
    yield "longer than a file may be", b" " * 16_777_217
    yield "nothing at all", b""
    yield "cut in a number", good[:200]
    yield "cut before EOF", good[:-5]
    yield "EOF without a line end", good[:-2]
    yield "bare line feeds", good.replace(b"\r\n", b"\n")
    yield "a line of 300 bytes", altered(5, b"A" * 300)
    yield "a byte that is no ASCII", altered(5, b"CITT\xc0")
    yield "a tabulator", altered(8, b"\t       0.000")
    yield "another first word", altered(1, b"MAPPE")
    yield "a blank behind the first word", altered(1, b"MAPPA ")
    yield "a name of ten letters", altered(2, b"Z999_00010")
    yield "a union sheet that is not called QU", altered(1, b"QUADRO D'UNIONE")
    yield "a scale of zero", altered(3, b"       0.000")
    yield "a scale that is no number", altered(3, b"1:1000")
    yield "no keyword", altered(24, b"PARTICELLA")
    yield "no keyword, first of all", altered(4, b"CONFINE")
    yield "a border that is outside", altered(24, b"BORDO\\")
    yield "a blank before a keyword", altered(24, b" BORDO")
    yield "a number that is not padded", altered(8, b"0.000")
    yield "a whole number that is not padded", altered(6, b"18")
    yield "a zero in front", altered(6, b" 018")
    yield "two decimals", altered(8, b"        0.00")
    yield "a comma", altered(8, b"       0,000")
    yield "a note behind a number", altered(8, b"       0.000 angolo")
    yield "a note behind a count", altered(12, b"   0 isole")
    yield "letters where a number is due", altered(12, b"none")
    yield "a vertex of an island", altered(84 + 12 + 2 * 7, b"       x.000")
    yield "no letters", altered(5, b"")
    yield "letters of blanks", altered(5, b"   ")
    yield "a blank behind letters", altered(5, b"Z999_000100 ")
    yield "a symbol that is not listed", made.Paper().symbol(12, (0, 0)).file()
    yield "a fiducial that is not listed", made.Paper().fiducial("PF", 7, (0, 0), (0, 0)).file()
    yield "a line that is not listed", made.Paper().line(2, [(0, 0), (1, 1)]).file()
    yield "a survey's line that is not listed", altered(6, b"   2", made.Paper().survey("1", [(0, 0), (1, 1)]).file())
    yield "three vertices", altered(13, b"   3")
    yield "vertices for one island, where two are", altered(93, b"   8")
    yield "an island of three vertices", altered(95, b"   3")
    yield "an island that leaves too few", altered(94, b"  12")
    yield "a line of one vertex", made.Paper().line(1, [(0, 0)]).file()
    yield "an open ring", altered(23, b"       1.000")
    yield "an open island", altered(84 + 12 + 2 * 10 - 1, b"       1.000")
    yield "something behind EOF", good + b"fine\r\n"
    yield "a count that is one too high", altered(13, b"   6")


def texts():
    """All of them, one after the other."""
    parts = []
    for what, source in cases():
        for mode in (Exact, Loose, Former):
            try:
                text = f"taken, {len(Sheet.read(source, mode).rows)} rows"
            except Refused as refused:
                text = explain.reading(refused, "F.cxf", source, mode)
            parts.append(f"## {what}, {mode.name.lower()}\n{text}\n")
    return "\n".join(parts + [f"## {what}\n{text}\n" for what, text in questions()])


def wide(parcels, roads):
    """A sheet with so many parcels and so many roads as wide as may be: 3,200,000,000,000,000 doubled square millimetres each."""
    reach = 20_000_000
    ring = [(0, 0), *made.rectangle(-reach, -reach, reach, reach), (0, 0)]
    parcel, road = (made.Paper().border(letters, ring).records[3:] for letters in ("7", "STRADA"))
    paper = made.Paper()
    paper.records += parcels * parcel + roads * road
    return Sheet.read(paper.file())


def refused_questions():
    """What is asked, of which sheet, and the question."""
    paper = made.Paper().border(made.NAME, SQUARE).border("7", [(0, 0), (30_000_000, 0), (0, 1), (0, 0)]).symbol(12, (0, 0))
    sheet = Sheet.read(paper.file(), Loose)
    yield "a ring that is too wide", sheet, sheet.tally
    yield "an unlisted code is written", sheet, sheet.write
    yield "a move that is too far", sheet, lambda: sheet.moved(10 ** 12, 0)
    yield "a row that is not there", sheet, lambda: sheet.removed(9)
    yield "a ring that is not there", sheet, lambda: sheet.rows[0].area(1)
    yield "a mask off the range of coordinates", sheet, lambda: sheet.rows[0].mask((10 ** 11, 0), 500)
    yield "a mask with cells that are too large", sheet, lambda: sheet.rows[0].mask((0, 0), 10_001)
    figure = wide(2813, 0)
    yield "a figure of a tally that is too large", figure, figure.tally
    yield "a SUP file of that tally", figure, lambda: figure.sup("20261115")
    total = wide(1500, 1500)
    yield "a SUP file whose TOTALE is too large", total, lambda: total.sup("20261115")
    yield "a SUP file's check with such a TOTALE", total, lambda: total.check_sup(b"")
    figure_of_eleven = wide(7, 0)
    yield "a SUP file with a figure that is too wide", figure_of_eleven, lambda: figure_of_eleven.sup("20261115")
    yield "a SUP file with no date", figure_of_eleven, lambda: figure_of_eleven.sup("today")
    long = Sheet.read(made.Paper().text("A", (0, 0)).border("A" * 12, SQUARE).file())
    yield "a SUP file with a code that is too long", long, lambda: long.sup("20261115")


def questions():
    """Refusals of questions on a sheet, faulty rings, wrong SUP files."""
    for what, sheet, ask in refused_questions():
        try:
            ask()
        except Refused as refused:
            yield what, explain.question(refused, "F.cxf", sheet)
    bow = [(0, 0), (10_000, 10_000), (10_000, 0), (0, 10_000), (0, 0)]
    still = [(1_000, 1_000), (1_000, 1_000), (2_000, 1_000), (2_000, 2_000), (1_000, 1_000)]
    border = next(Sheet.read(made.Paper().border("7+", bow, still).file()).borders())
    for ring in (0, 1):
        yield f"a ring that is not simple, {ring}", explain.crossing("F.cxf", border, ring, border.crossing(ring))
    sample, sup = Sheet.read(made.SAMPLE.read_bytes()), made.SAMPLE.with_suffix(".sup").read_bytes()
    for what, wrong in (("a date", sup.replace(b"2026111", b"2026131")), ("an area", sup.replace(b"1360", b"1362")), ("missing lines", sup[:46]),
                        ("more lines", sup + b"more\r\n"), ("bare line feeds", sup.replace(b"\r\n", b"\n"))):
        try:
            sample.check_sup(wrong)
        except Refused as refused:
            yield f"a SUP file, {what}", explain.sup(refused, "F.sup", wrong, sample)
    long = Sheet.read(made.Paper().border("A" * 12, SQUARE).file())
    try:
        long.check_sup(sup)
    except Refused as refused:
        yield "a SUP file of a sheet that has none", explain.sup(refused, "F.sup", sup, long)


class Explained(unittest.TestCase):
    maxDiff = None

    def test_every_refusal_in_every_mode(self):
        self.assertEqual(texts(), GOLDEN.read_text())

    def test_all_numbers_are_there(self):
        """But 6 and 15 of a sheet that is handed in, which a Sheet cannot be, and 14: the package lends what is needed."""
        for number in MEANINGS:
            self.assertIn(f"refused {number}:", GOLDEN.read_text())


if __name__ == "__main__":
    print(texts(), end="")
