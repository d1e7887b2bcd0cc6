"""Sheets made for tests: by hand, element by element, and a town with streets, a river, roofs and courtyards."""

import math
import os
import random
import tempfile
import unittest
from importlib.util import find_spec
from pathlib import Path

from cxf.units import metres

ROOT = Path(__file__).resolve().parents[2]
SAMPLE = ROOT / "samples" / "Z999_000100.cxf"
NAME = "Z999_000100"

with_numpy = unittest.skipUnless(find_spec("numpy"), "numpy is not installed")


def real(millimetres):
    """A number as a file has it, in 12 characters."""
    whole, _, rest = metres(millimetres).partition(".")
    return f"{whole}.{rest:<03}".rjust(12)


def integer(number):
    return f"{number:4}"


def rectangle(west, south, east, north):
    """A closed ring, in millimetres."""
    return [(west, south), (east, south), (east, north), (west, north), (west, south)]


class Paper:
    """The records of a file, section by section."""

    def __init__(self, first="MAPPA", name=NAME, scale=1_000_000):
        self.records = [first, name, real(scale)]

    def border(self, letters, *rings, size=18, angle=0, at=None):
        x, y = at or rings[0][0]
        self.records += ["BORDO", letters, integer(size), *map(real, (angle, x, y, x, y)),
                         integer(len(rings) - 1), integer(sum(map(len, rings))), *(integer(len(ring)) for ring in rings[1:])]
        self.records += [real(number) for ring in rings for point in ring for number in point]
        return self

    def text(self, letters, at, size=18, angle=0, outside=""):
        self.records += ["TESTO" + outside, letters, integer(size), real(angle), *map(real, at)]
        return self

    def symbol(self, code, at, angle=0):
        self.records += ["SIMBOLO", integer(code), real(angle), *map(real, at)]
        return self

    def fiducial(self, letters, code, at, label):
        self.records += ["FIDUCIALE", letters, integer(code), *map(real, (*at, *label))]
        return self

    def line(self, code, points, outside=""):
        self.records += ["LINEA" + outside, integer(code), integer(len(points)), *(real(number) for point in points for number in point)]
        return self

    def image(self, letters, corners):
        self.records += ["RIFERIMENTO_RASTER", letters, *(real(number) for point in corners for number in point)]
        return self

    def survey(self, letters, points):
        self.records += ["LIBRETTO", letters, integer(1), integer(len(points)), *(real(number) for point in points for number in point)]
        return self

    def file(self, end="\r\n"):
        return "".join(record + end for record in [*self.records, "EOF"]).encode()


def every_kind():
    """A sheet with an element of every kind, a border of every class but OTHER, and a row outside."""
    return (Paper()
            .border(NAME, rectangle(0, 0, 100_000, 80_000))
            .border("STRADA", rectangle(0, 0, 100_000, 10_000))
            .border("ACQUA", rectangle(0, 70_000, 100_000, 80_000))
            .border("7", rectangle(0, 10_000, 100_000, 70_000), angle=-1571)
            .border("7+", rectangle(10_000, 20_000, 50_000, 60_000), rectangle(20_000, 30_000, 30_000, 40_000), rectangle(35_000, 30_000, 45_000, 50_000))
            .text("(7)", (12_000, 22_000)).text("19", (60_000, 20_000), size=0).text("VIA ROMA", (5_000, 90_000), outside="\\")
            .symbol(6, (50_000, 75_000), 1571).fiducial("PF01", 8, (0, 0), (3_000, 3_000))
            .line(5, [(60_000, 10_000), (60_000, 70_000)]).line(1, [(-5_000, 0), (0, 0), (0, -5_000)], outside="\\")
            .image("Z999_000100.TIF", [(0, 0), (100_000, 0), (0, 80_000), (100_000, 80_000)])
            .survey("4711", [(70_000, 20_000), (80_000, 30_000), (90_000, 20_000)]).file())


def town(across, along, seed=7):
    """A town on a turned lattice: blocks of 4 x 2 parcels in streets, a river, roofs with none, one or two courtyards, sheds in some."""
    chance = random.Random(seed)
    turn = math.radians(11)

    def at(east, north):
        return (round(-12_480_350 + 1000 * (east * math.cos(turn) - north * math.sin(turn))),
                round(8_214_600 + 1000 * (east * math.sin(turn) + north * math.cos(turn))))

    def ring(*corners):
        return [at(*corner) for corner in (*corners, corners[0])]

    def block(west, south, east, north):
        return ring((west, south), (east, south), (east, north), (west, north))

    width, depth, street, margin = 120, 84, 6, 3
    angle = round(1000 * turn)
    paper = Paper().border(NAME, block(0, 0, across * width, along * depth), size=30)
    number = 0
    for row in range(along):
        for column in range(across):
            west, south = column * width, row * depth
            if column == across // 2 and across > 2:
                paper.border("ACQUA", block(west, south, west + width, south + depth))
                paper.symbol(5, at(west + 20, south + 40), angle)
                continue
            inner = block(west + street, south + street, west + width - street, south + depth - street)
            paper.border("STRADA", block(west, south, west + width, south + depth), inner)
            for place in range(8):
                number += 1
                left, low = west + street + place % 4 * 27, south + street + place // 4 * 36
                paper.border(str(number), block(left, low, left + 27, low + 36), size=20, angle=angle, at=at(left + 1, low + 1))
                rings = _roof(chance.random(), left + margin, low + margin, left + 27 - margin, low + 36 - margin, block, ring)
                if rings:
                    paper.border(f"{number}+", *rings, size=14)
                if len(rings) == 2:
                    paper.border(f"{number}+", block(left + 11, low + 14, left + 15, low + 20))
        paper.text("VIA DEL MULINO", at(30, row * depth + 1), size=28, angle=angle)
        paper.line(5, [at(70, row * depth + 2), at(width, row * depth + 3)])
    return paper.fiducial("PF01", 20, at(0, 0), at(2, 2)).file()


def _roof(kind, west, south, east, north, block, ring):
    """The rings of a roof: none, a plain one, an L, one with a courtyard, one with two."""
    middle, centre = (west + east) / 2, (south + north) / 2
    if kind < 0.15:
        return []
    if kind < 0.4:
        return [block(west, south, west + 14, south + 18)]
    if kind < 0.6:
        return [ring((west, south), (east, south), (east, centre), (middle, centre), (middle, north), (west, north))]
    if kind < 0.85:
        return [block(west, south, east, north), block(west + 6, south + 7, east - 6, north - 7)]
    return [block(west, south, east, north), block(west + 3, south + 5, middle - 1, north - 5), block(middle + 1, south + 5, east - 3, north - 5)]


def large(length):
    """A sheet of some length in bytes: one roof of 32 vertices with a courtyard, again and again."""
    around = [(round(20_000 * math.cos(k * math.pi / 16)), round(20_000 * math.sin(k * math.pi / 16))) for k in range(32)]
    roof = "".join(record + "\r\n" for record in Paper().border("@+", [*around, around[0]], rectangle(-5_000, -5_000, 5_000, 5_000)).records[3:])
    head = Paper().border(NAME, rectangle(-50_000, -50_000, 50_000, 50_000)).file()[:-len("EOF\r\n")].decode()
    return (head + "".join(roof.replace("@", str(number)) for number in range(length // len(roof))) + "EOF\r\n").encode()


def scratch(test):
    """A folder for a test's files, which is gone after it."""
    folder = tempfile.TemporaryDirectory()
    test.addCleanup(folder.cleanup)
    return Path(os.path.realpath(folder.name))
