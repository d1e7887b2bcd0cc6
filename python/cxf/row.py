"""The elements of a sheet. What is asked of an element is asked of its row alone, so that a question costs what the element costs."""

from typing import NamedTuple, Tuple

from ._library import CLASSES, ROW, library, whole
from .layout import KINDS, records
from .refusal import Refused

# The places of a row's numbers (include/cxf.h).
KIND, OUTSIDE, CODE, SIZE, ANGLE, X, Y, X2, Y2, LETTERS, ISLANDS, VERTICES, FIRST_LETTER, FIRST_ISLAND, FIRST_POINT = range(ROW)
BORDO, RIFERIMENTO_RASTER = 1, 6


def around(boxes):
    """The box round others, each west, south, east, north."""
    west, south, east, north = zip(*boxes)
    return min(west), min(south), max(east), max(north)


class Row:
    """An element of a sheet. Lengths are whole millimetres, angles thousandths of a radian, anticlockwise from east."""

    __slots__ = ("sheet", "index", "_numbers", "_alone")

    def __init__(self, sheet, index):
        self.sheet, self.index = sheet, index
        self._numbers = sheet._tables.rows[index * ROW:(index + 1) * ROW]
        self._alone = None

    @property
    def kind(self):
        """The keyword: BORDO, TESTO, SIMBOLO, FIDUCIALE, LINEA, RIFERIMENTO_RASTER or LIBRETTO."""
        return KINDS[self._numbers[KIND] - 1]

    @property
    def outside(self):
        """Whether the keyword has a final backslash: the element lies outside the sheet's border."""
        return bool(self._numbers[OUTSIDE])

    @property
    def code(self):
        return self._numbers[CODE]

    @property
    def size(self):
        """The height of the text, in tenths of a millimetre on paper."""
        return self._numbers[SIZE]

    @property
    def angle(self):
        return self._numbers[ANGLE]

    @property
    def at(self):
        """Where the element, or its text, stands: x and y."""
        return self._numbers[X], self._numbers[Y]

    @property
    def second(self):
        """The inner point of a BORDO, the label of a FIDUCIALE: x and y."""
        return self._numbers[X2], self._numbers[Y2]

    @property
    def letters(self):
        first = self._numbers[FIRST_LETTER]
        return self.sheet._tables.letters[first:first + self._numbers[LETTERS]].tobytes().decode("ascii")

    @property
    def island_counts(self):
        """How many vertices each island of a BORDO has."""
        first = self._numbers[FIRST_ISLAND]
        return self.sheet._tables.islands[first:first + self._numbers[ISLANDS]].tolist()

    @property
    def coordinates(self):
        """The vertices' numbers in one row: x, y, x, y, .."""
        first = 2 * self._numbers[FIRST_POINT]
        return self.sheet._tables.points[first:first + 2 * self._numbers[VERTICES]]

    @property
    def points(self):
        """The vertices: a list of pairs x, y."""
        numbers = self.coordinates
        return list(zip(numbers[::2], numbers[1::2]))

    @property
    def bounds(self):
        """West, south, east and north of the vertices, or of the place where an element without vertices stands."""
        numbers = self.coordinates or self._numbers[X:Y + 1]
        east, north = numbers[::2], numbers[1::2]
        return min(east), min(north), max(east), max(north)

    @property
    def records(self):
        """How many lines of the file are this element's."""
        return records(self.kind, self._numbers[ISLANDS], self._numbers[VERTICES])

    @property
    def line(self):
        """The line of the file, from 1, at which the keyword stands."""
        return self.sheet.lines[self.index]

    @property
    def surface_right(self):
        """Whether this is a TESTO that says a surface right, as (731)."""
        return bool(self._ask(library.text_at).surface_right)

    @property
    def centroid(self):
        """Whether this is a TESTO that marks a parcel of a scanned sheet."""
        return bool(self._ask(library.text_at).centroid)

    def _as_sheet(self):
        """The row as a sheet of one row, for the C interface: its own parts of the tables, found by its starts, which are 0 there."""
        if self._alone is None:
            numbers, tables = self._numbers, self.sheet._tables
            own = numbers[:FIRST_LETTER]
            own.extend((0, 0, 0))
            letters, islands, points = (table.buffer_info()[0] for table in (tables.letters, tables.islands, tables.points))
            self._alone = own, (*self.sheet._header, 1, own.buffer_info()[0], ROW,
                                letters + numbers[FIRST_LETTER], numbers[LETTERS],
                                islands + tables.islands.itemsize * numbers[FIRST_ISLAND], numbers[ISLANDS],
                                points + tables.points.itemsize * 2 * numbers[FIRST_POINT], 2 * numbers[VERTICES])
        return self._alone[1]

    def _ask(self, function, *more):
        answer = function(*self._as_sheet(), 0, *more)
        if answer.number:
            raise Refused(answer.number, row=self.index)
        return answer

    def __repr__(self):
        return f"<{self.kind} {self.letters or self.code}, row {self.index}>"


class Mask(NamedTuple):
    """64 rows of 64 cells, the northern row first, west in the highest bit; and how many cells are set."""
    rows: Tuple[int, ...]
    covered: int


class Border(Row):
    """A BORDO: a polygon with islands. Areas are doubled, in square millimetres, so that they are whole."""

    __slots__ = ()

    @property
    def cls(self):
        """CONFINE, OTHER, ROAD, WATER, BUILDING or PARCEL."""
        return CLASSES[self._ask(library.border_at).class_of - 1]

    def rings(self):
        """The outer ring, then the islands, each a list of pairs x, y that ends with the vertex it began with."""
        points, islands = self.points, self.island_counts
        rings, first = [], 0
        for count in (len(points) - sum(islands), *islands):
            rings.append(points[first:first + count])
            first += count
        return rings

    @property
    def net(self):
        """The doubled area of the outer ring less the islands'."""
        return self._ask(library.net_area).doubled

    def area(self, ring=0):
        """The doubled area of a ring: 0 is the outer one, i is island i."""
        return self._ask(library.ring_area, whole(ring)).doubled

    def crossing(self, ring=0):
        """None where the ring is simple, else its first faulty pair of edges, from 0; an edge of no length is paired with itself."""
        answer = self._ask(library.ring_check, whole(ring))
        return None if answer.simple else (answer.first, answer.second)

    def mask(self, corner, cell):
        """Which of 64 x 64 cells have their centre in the border, courtyards apart. `corner` is the north-west one; `cell` the side."""
        answer = self._ask(library.mask_of, *map(whole, (*corner, cell)))
        return Mask(tuple(answer.rows), answer.covered)
