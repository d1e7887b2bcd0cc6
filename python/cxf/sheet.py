"""Sheets, as they come from a reading."""

import ctypes
import enum
from collections.abc import Sequence
from functools import cached_property
from itertools import accumulate
from typing import NamedTuple

from ._library import CLASSES, CLASS_FIGURES, ROW, Tables, library, whole
from .layout import FIRST_LINE
from .refusal import Refused
from .row import BORDO, FIRST_ISLAND, FIRST_LETTER, FIRST_POINT, ISLANDS, LETTERS, RIFERIMENTO_RASTER, VERTICES, Border, Row

NO_ROOM = 14


class Mode(enum.IntEnum):
    """How a file is read. Loose mode accepts more than exact mode and understands nothing differently."""
    Loose = 0
    Exact = 1
    Former = 2


Loose, Exact, Former = Mode


class Figures(NamedTuple):
    """What a sheet has of one class of borders; areas are doubled, in square millimetres."""
    borders: int
    outer: int
    islands: int
    island_area: int

    @property
    def net(self):
        return self.outer - self.island_area


class Rows(Sequence):
    """The elements of a sheet, in the file's order."""

    def __init__(self, sheet):
        self._sheet = sheet

    def __len__(self):
        return len(self._sheet._tables.rows) // ROW

    def __getitem__(self, index):
        if isinstance(index, slice):
            return [self[k] for k in range(len(self))[index]]
        index = range(len(self))[index]
        return (Border if self._sheet._tables.rows[index * ROW] == BORDO else Row)(self._sheet, index)


class Sheet:
    """A sheet: its header and its elements. It comes from `Sheet.read` alone and does not change, so it is always well made."""

    def __init__(self):
        raise TypeError("a Sheet comes from Sheet.read")

    @classmethod
    def read(cls, source, mode=Exact):
        """The sheet that a file's bytes hold; raises Refused where the mode does not take it."""
        source, mode = bytes(source), Mode(mode)
        answer = _judge(source, mode)
        tables = Tables.with_room(answer.rows, answer.letters, answer.islands, answer.points)
        if answer.number == NO_ROOM:
            answer = library.read(source, len(source), mode, *tables.lent())
        if answer.number == 1:
            raise Refused(1)
        if answer.number:
            raise Refused(answer.number, answer.record, answer.offset, answer.column or None)
        return cls._of((answer.kind, bytes(answer.name), len(answer.name), answer.scale), tables)

    @staticmethod
    def accepts(source, mode):
        """Whether the mode takes these bytes."""
        return _judge(bytes(source), Mode(mode)).number in (0, NO_ROOM)

    @classmethod
    def _of(cls, header, tables):
        sheet = object.__new__(cls)
        sheet._header, sheet._tables = header, tables
        return sheet

    @property
    def kind(self):
        """MAPPA, MAPPA FONDIARIO or QUADRO D'UNIONE."""
        return ("MAPPA", "MAPPA FONDIARIO", "QUADRO D'UNIONE")[self._header[0] - 1]

    @property
    def name(self):
        return self._header[1].decode("ascii")

    @property
    def scale(self):
        """The scale in thousandths: 1000000 is 1:1000. Of a QUADRO D'UNIONE its longer side, in millimetres."""
        return self._header[3]

    @property
    def rows(self):
        return Rows(self)

    @property
    def scanned(self):
        """Whether the sheet refers to a scanned image, which may show what no element of the sheet says."""
        return RIFERIMENTO_RASTER in self._tables.rows[::ROW]

    def borders(self, *classes):
        """The borders, or those of the classes that are named."""
        kinds = self._tables.rows[::ROW]
        borders = (Border(self, index) for index, kind in enumerate(kinds) if kind == BORDO)
        return (border for border in borders if not classes or border.cls in classes)

    @cached_property
    def lines(self):
        """The line of the file, from 1, at which each row begins; one more for the EOF record."""
        return list(accumulate((row.records for row in self.rows), initial=FIRST_LINE))

    def tally(self):
        """The figures of each class, by its name."""
        answer = self._ask(library.tally_sheet, row_with=(17, 18))
        return {name: Figures(*answer.figures[CLASS_FIGURES * k:CLASS_FIGURES * (k + 1)]) for k, name in enumerate(CLASSES)}

    def write(self):
        """The file's bytes in the printed layout, which exact mode takes."""
        return self._text(library.write)

    def sup(self, date):
        """The SUP file's bytes; `date` is eight digits, YYYYMMDD."""
        self.tally()  # refused 18 it names its row; past it an 18 is that of TOTALE, which has none
        date = date.encode(errors="replace")
        return self._text(library.sup_write, date, len(date))

    def check_sup(self, sup):
        """Raises Refused with the first wrong line where these bytes are no SUP file for this sheet, whoever rounded its figures."""
        self.tally()
        sup = bytes(sup)
        self._ask(library.sup_check, sup, len(sup))

    def cml(self):
        """The lines of the sheet as elements of CML, one a line."""
        return self._text(library.cml_lines)

    def removed(self, *rows):
        """The sheet without these rows, which are numbered as in this sheet."""
        sheet = Sheet._of(self._header, self._tables.copy())
        for row in sorted(set(rows), reverse=True):
            _cut(sheet._tables, sheet._ask(library.remove, whole(row)).count)
        return sheet

    def moved(self, east, north):
        """The sheet with every coordinate moved by so many millimetres."""
        sheet = Sheet._of(self._header, self._tables.copy())
        sheet._ask(library.move, whole(east), whole(north))
        return sheet

    def arrays(self):
        """The four tables as arrays of numpy, not to be written: rows (15 numbers each, include/cxf.h), letters, island counts, points."""
        import numpy
        tables = [numpy.frombuffer(getattr(self._tables, name), getattr(self._tables, name).typecode) for name in Tables.__slots__]
        for table in tables:
            table.flags.writeable = False
        return tables[0].reshape(-1, ROW), tables[1], tables[2], tables[3].reshape(-1, 2)

    def _ask(self, function, *more, row_with=(10, 22)):
        """An answer about the whole sheet; of a refusal the row with the numbers that name one."""
        answer = function(*self._header, len(self.rows), *self._tables.lent(), *more)
        if answer.number not in (0, NO_ROOM):
            raise Refused(answer.number, row=answer.row if answer.number in row_with else None,
                          line=answer.line if answer.number in (23, 25) else None)
        return answer

    def _text(self, function, *more):
        room = self._ask(function, *more, None, 0).length
        text = ctypes.create_string_buffer(room)
        self._ask(function, *more, text, room)
        return text.raw

    def __repr__(self):
        return f"<Sheet {self.name}, {len(self.rows)} rows>"


def _cut(tables, count):
    """Leaves the first rows, and their parts of the other tables: behind them stands what a removal freed."""
    del tables.rows[ROW * count:]
    last = tables.rows[-ROW:] or [0] * ROW
    del tables.letters[last[FIRST_LETTER] + last[LETTERS]:]
    del tables.islands[last[FIRST_ISLAND] + last[ISLANDS]:]
    del tables.points[2 * (last[FIRST_POINT] + last[VERTICES]):]


def _judge(source, mode):
    """What a reading answers that is lent no room: a refusal, or what it needs."""
    return library.read(source, len(source), mode, *(None, 0) * 4)
