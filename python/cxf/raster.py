"""Masks of whole sheets: a grid of cells, the borders that cover them, a PNG of one bit and its world file."""

import struct
import zlib
from array import array
from typing import NamedTuple

from ._library import MASK_SIDE
from .row import around

CELLS_MOST = 1 << 32


class NotDrawn(ValueError):
    """There is no border of those that were asked for, or none to lay a grid over: an empty mask would flag every roof."""


class Grid(NamedTuple):
    """Cells in columns and rows; the north-west corner and the cells' side are in millimetres."""
    west: int
    north: int
    cell: int
    columns: int
    rows: int

    @classmethod
    def over(cls, bounds, cell):
        """The least grid over west, south, east, north that lies on whole multiples of the cell, as its neighbours do."""
        west, south, east, north = bounds
        west, north = west // cell * cell, -(-north // cell) * cell
        return cls(west, north, cell, max(1, -(-(east - west) // cell)), max(1, -(-(north - south) // cell)))

    @classmethod
    def over_sheet(cls, sheet, cell):
        """The grid over a sheet's CONFINE."""
        boxes = [border.bounds for border in sheet.borders("CONFINE")]
        if not boxes:
            raise NotDrawn("no CONFINE border to lay the grid over; name --corner and --size")
        return cls.over(around(boxes), cell)

    def meets(self, bounds):
        """Whether west, south, east, north and the grid share a point."""
        west, south, east, north = bounds
        return (west <= self.west + self.columns * self.cell and self.west <= east
                and south <= self.north and self.north - self.rows * self.cell <= north)

    def tiles(self, bounds):
        """The tiles of 64 x 64 cells, each by its row and column, that west, south, east, north meet."""
        west, south, east, north = bounds
        side = MASK_SIDE * self.cell
        for row in _within((self.north - north) // side, (self.north - south) // side, self.rows):
            for column in _within((west - self.west) // side, (east - self.west) // side, self.columns):
                yield row, column

    def world(self):
        """The world file: the cells' size and the centre of the north-western one, in metres."""
        def halves(count):
            return f"{'-' if count < 0 else ''}{abs(count) // 2000}.{abs(count) % 2000 * 5:04}"
        numbers = 2 * self.cell, 0, 0, -2 * self.cell, 2 * self.west + self.cell, 2 * self.north - self.cell
        return "".join(f"{halves(number)}\n" for number in numbers)


class Raster:
    """One bit a cell of a grid. Borders are laid over each other, so a cell that two roofs cover is covered."""

    def __init__(self, grid):
        self.grid = grid
        self._tiles = {}  # the rows of each tile of 64 x 64 cells that has some, by its row and column

    @classmethod
    def of_sheet(cls, sheet, cell=500, classes=("BUILDING",), grid=None):
        """The borders of some classes of a sheet. Any border that is refused refuses all."""
        return cls.of_borders(list(sheet.borders(*classes)), grid or Grid.over_sheet(sheet, cell))

    @classmethod
    def of_borders(cls, borders, grid):
        if not borders:
            raise NotDrawn("no border of the classes asked for; an empty mask would flag every roof")
        raster = cls(grid)
        for border in borders:
            raster.add(border)
        return raster

    def add(self, border):
        """Covers the cells whose centre lies in the border. Only the tiles that its box meets are asked for; of a border that meets none
        the first tile, since one that is refused refuses the raster wherever it lies."""
        grid, side = self.grid, MASK_SIDE * self.grid.cell
        for row, column in list(grid.tiles(border.bounds)) or [(0, 0)]:
            mask = border.mask((grid.west + column * side, grid.north - row * side), grid.cell)
            if mask.covered:
                old = self._tiles.get((row, column), (0,) * MASK_SIDE)
                self._tiles[row, column] = tuple(map(int.__or__, old, mask.rows))

    def rows(self):
        """The rows of cells, the northern first, each as bytes: west in the highest bit of the first."""
        across, width = -(-self.grid.columns // MASK_SIDE), -(-self.grid.columns // 8)
        last = 0xFF00 >> (self.grid.columns % 8 or 8) & 0xFF
        for band in range(-(-self.grid.rows // MASK_SIDE)):
            cells = array("Q", bytes(8 * MASK_SIDE * across))
            for column in range(across):
                if (band, column) in self._tiles:
                    cells[column::across] = array("Q", self._tiles[band, column])
            cells.byteswap()  # the library's processors keep the lowest byte first
            data = cells.tobytes()
            for row in range(min(MASK_SIDE, self.grid.rows - band * MASK_SIDE)):
                line = data[8 * row * across:8 * row * across + width]
                yield line[:-1] + bytes([line[-1] & last])

    @property
    def covered(self):
        """How many cells are covered."""
        return sum(bin(int.from_bytes(row, "big")).count("1") for row in self.rows())

    def png(self):
        """A PNG of one bit, white where a cell is covered."""
        pack = zlib.compressobj(6)
        pixels = b"".join(pack.compress(b"\0" + row) for row in self.rows()) + pack.flush()
        head = struct.pack(">IIBBBBB", self.grid.columns, self.grid.rows, 1, 0, 0, 0, 0)
        return b"\x89PNG\r\n\x1a\n" + _chunk(b"IHDR", head) + _chunk(b"IDAT", pixels) + _chunk(b"IEND", b"")

    def array(self):
        """The cells as an array of numpy, True where covered, the northern row first."""
        import numpy
        rows = numpy.frombuffer(b"".join(self.rows()), numpy.uint8).reshape(self.grid.rows, -1)
        return numpy.unpackbits(rows, axis=1, count=self.grid.columns).astype(bool)


def _within(first, last, cells):
    """The tiles from first to last that a side of so many cells has."""
    return range(max(0, first), min(last, (cells - 1) // MASK_SIDE) + 1)


def _chunk(kind, data):
    return struct.pack(">I", len(data)) + kind + data + struct.pack(">I", zlib.crc32(kind + data))
