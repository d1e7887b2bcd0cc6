"""What was due at a line of a file: the library says where it refuses, this says which field of which element should have stood there."""

from typing import List, NamedTuple, Optional

from .layout import FIELDS, FIRST_LINE, HEADER, INTEGERS, UNCOUNTED, records, ring_name, ring_of


class Lines:
    """The lines of a file up to and with the one that begins at a byte, counted from 0, without their ends."""

    def __init__(self, source, offset):
        end = source.find(b"\n", offset)
        self._lines = source[:end if end >= 0 else len(source)].split(b"\n")

    def __getitem__(self, at):
        line = self._lines[at]
        return line[:-1] if line.endswith(b"\r") else line

    def text(self, at):
        return self[at].strip().decode("ascii")

    def count(self, at):
        return int(self[at].split()[0])  # the former reading permits notes behind a number


class Section(NamedTuple):
    """An element as far as it was read: the line of its keyword, its kind, letters, island counts, vertices (None: not said yet)."""
    line: int
    kind: str
    letters: str
    islands: int
    counts: List[int]
    vertices: Optional[int]

    def ends_before(self, at):
        return self.vertices is not None and self.line + records(self.kind, self.islands, self.vertices) <= at

    def __str__(self):
        return f"{self.kind}{self.letters} at line {self.line + 1}"


class Due(NamedTuple):
    """A field of a section, a keyword or nothing after it, or a record of the header (with no section); and the form it should have."""
    field: str
    form: str
    section: Optional[Section] = None
    ring: Optional[int] = None  # of a vertex of a border: the line of its ring's first x

    def __str__(self):
        if self.section is None:
            return self.field
        if self.form != "keyword":
            return f"{self.field} of {self.section}"
        counted = "number of vertices" in FIELDS[self.section.kind]
        return f"{self.field}, after {self.section}" + (f", which says {self.section.vertices} vertices" if counted else "")


def due_at(lines, at):
    """What was due at a line, from 0, where all lines before it are right."""
    if at < len(HEADER):
        return Due(HEADER[at], "real" if HEADER[at] == "scale" else "header")
    last, start = None, FIRST_LINE - 1
    while start < at:
        keyword = lines.text(start).rstrip("\\")
        if keyword == "EOF":
            return Due("nothing", "keyword", last)
        last = _section(lines, start, keyword, at)
        if not last.ends_before(at):
            return _field(last, at)
        start += records(last.kind, last.islands, last.vertices)
    return Due("a keyword", "keyword", last)


def _section(lines, start, kind, at):
    """The section that begins at a line, read as far as it stands before `at`."""
    places = {field: start + place for place, field in enumerate(FIELDS[kind], 1)}
    def said(field, unsaid):
        return lines.count(places[field]) if places[field] < at else unsaid
    letters = f' "{lines.text(places["letters"])}"' if "letters" in places and places["letters"] < at else ""
    islands = said("number of islands", 0) if "number of islands" in places else 0
    vertices = said("number of vertices", None) if "number of vertices" in places else UNCOUNTED.get(kind, 0)
    first = start + 1 + len(places)
    counts = [lines.count(line) for line in range(first, min(first + islands, at))]
    return Section(start, kind, letters, islands, counts, vertices)


def _field(section, at):
    fields, place = FIELDS[section.kind], at - section.line - 1
    if place < len(fields):
        field = fields[place]
        return Due(field, "integer" if field in INTEGERS else "letters" if field == "letters" else "real", section)
    island, place = place - len(fields) + 1, place - len(fields) - section.islands
    if place < 0:
        return Due(f"number of vertices of island {island}", "integer", section)
    vertex, axis = place // 2, "xy"[place % 2]
    if section.kind != "BORDO":
        return Due(f"{axis} of vertex {vertex + 1} of {section.vertices}", "real", section)
    ring, first, size = ring_of(section.counts, section.vertices, vertex)
    return Due(f"{axis} of vertex {vertex - first + 1} of {size} of {ring_name(ring)}", "real", section,
               section.line + records("BORDO", section.islands, first))
