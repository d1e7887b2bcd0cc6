"""A sheet as SVG, north up and in metres: borders by class with their courtyards open, lines, symbols, labels and texts."""

from html import escape
from math import cos, degrees, sin
from typing import NamedTuple, Tuple

from .refusal import Refused
from .row import around
from .units import metres, square_metres

_PIXELS = 1200  # of the longer side
_ORDER = ("PARCEL", "OTHER", "ROAD", "WATER", "BUILDING", "CONFINE")
_LABELLED = ("PARCEL", "OTHER", "ROAD", "WATER")
_UNSAID = ("STRADA", "ACQUA")  # codes that are no labels
_CAPITAL, _WIDTH = 0.72, 0.7  # the height of a capital letter and the width of a wide one, by the size of their font

# Widths are pixels, dashes millimetres on paper.
_STYLE = """
path {{ fill: none; fill-rule: evenodd; stroke: #333; stroke-width: {pixel}; stroke-linejoin: round }}
text {{ font-family: sans-serif; fill: #222 }}
.PARCEL {{ fill: #f8f1dc; stroke: #9a8a60 }}
.OTHER {{ fill: #f4f4f0; stroke: #666 }}
.ROAD {{ fill: #e2e2e2; stroke: #a8a8a8 }}
.WATER {{ fill: #b3d8ee; stroke: #5b9cc4 }}
.BUILDING {{ fill: #d98474; stroke: #7d3026 }}
.CONFINE {{ stroke: #000; stroke-width: {thick} }}
.sign {{ stroke: #1f4e79; stroke-width: .2 }}
.leader, .frame {{ stroke: #999 }}
.survey {{ stroke: #2a6fb0 }}
.right {{ fill: #803080 }}
.mark {{ fill: #1f4e79 }}
"""
_DASHES = {5: (3, 1.5), 6: (.3, .9), 29: (6, 1.5), 30: (2, .8), 31: (4, 1, .5, 1), 32: (4, 1, .5, 1, .5, 1), 33: (1.5, 1), 34: (2.5, 1), 35: (4, 2)}
_FRAME = 12  # the code of a line that is not seen: the edge of the paper

# The symbols of source 000, table 7, in millimetres on paper, about the point that they stand at.
_SYMBOLS = {
    1: "M-1 0H1M0-1V1", 2: "M1.5-1.5L0 0M0-.8V0H.8", 3: "M0-1V1M-.7-.5L.7.5M-.7.5L.7-.5",
    4: "M-1 0H1M-1.8 0a.4.4 0 1 0 .8 0a.4.4 0 1 0-.8 0M1 0a.4.4 0 1 0 .8 0a.4.4 0 1 0-.8 0",
    5: "M0 0H8M7-.6L8 0L7 .6", 6: "M0 0H5M4-.6L5 0L4 .6", 7: "M0 0H3M2-.6L3 0L2 .6", 8: "M0-1.2L1.1.7H-1.1Z",
    9: "M-1 0C-.5-1 .5 1 1 0", 10: "M0-1.2V1.2M-.6-.7H.6M-1 .4C-.8 1.4 .8 1.4 1 .4", 11: "M0 0L1-.8L2 0L1 .8Z",
    13: "M-.6 0H.6M0-.6V.6M-1-1H1V1H-1Z", 14: "M-2 0C-1-2 1 2 2 0", 15: "M-.5 .6L0-.6M0 .6L.5-.6", 16: "M-1 1.2L0-1.2M0 1.2L1-1.2",
    20: "M-.8 0a.8.8 0 1 0 1.6 0a.8.8 0 1 0-1.6 0",
}
_UNLISTED = "M-.7-.7L.7 .7M-.7 .7L.7-.7"


def svg(sheet):
    """The drawing, as a text."""
    return _Drawing(sheet).text()


class _Words(NamedTuple):
    """Letters that are drawn: the class of their style, and place, angle and size as a row has them."""
    kind: str
    letters: str
    at: Tuple[int, int]
    angle: int
    size: int


class _Drawing:
    def __init__(self, sheet):
        self.sheet = sheet
        self.borders = [(border, border.cls) for border in sheet.borders()]
        self.labelled = [border for border, cls in self.borders if cls in _LABELLED and border.letters not in _UNSAID]
        self.written = [*self.texts(), *(_Words("label", border.letters, border.at, border.angle, border.size) for border in self.labelled)]
        boxes = [row.bounds for row in sheet.rows] or [(0, 0, 0, 0)]
        west, south, east, north = around(boxes)
        # A millimetre on paper, in metres. The scale of a QUADRO D'UNIONE is no scale, so its drawing is taken for 25 cm.
        self.paper = max(east - west, north - south) / 250_000 if sheet.kind == "QUADRO D'UNIONE" else sheet.scale / 1_000_000
        west, south, east, north = around([*boxes, *(end * 2 for words in self.written for end in (words.at, self.end(words)))])
        margin = max(east - west, north - south) // 40 + 1000
        self.west, self.north = west - margin, north + margin
        self.width, self.height = east - west + 2 * margin, north - south + 2 * margin
        self.pixel = max(self.width, self.height) / 1000 / _PIXELS

    def texts(self):
        for row in self.sheet.rows:
            if row.kind == "TESTO":
                yield _Words("right" if row.surface_right else "text", row.letters, row.at, row.angle, row.size)
            elif row.kind == "FIDUCIALE":
                yield _Words("mark", row.letters, row.second, 0, 0)

    def text(self):
        size = f'width="{self.width / 1000 / self.pixel:.0f}" height="{self.height / 1000 / self.pixel:.0f}"'
        parts = [f'<svg xmlns="http://www.w3.org/2000/svg" {size} viewBox="0 0 {metres(self.width)} {metres(self.height)}">',
                 f"<title>{self.sheet.kind} {self.sheet.name}</title>",
                 f"<style>{_STYLE.format(pixel=_short(self.pixel), thick=_short(3 * self.pixel))}</style>",
                 '<rect width="100%" height="100%" fill="#fff"/>']
        parts += [self.border(border, cls) for drawn in _ORDER for border, cls in self.borders if cls == drawn]
        parts += [_DRAWN[row.kind](self, row) for row in self.sheet.rows if row.kind in _DRAWN]
        parts += [self.path("leader", [[border.at, border.second]]) for border in self.labelled if border.at != border.second]
        parts += map(self.words, self.written)
        return "\n".join([*parts, "</svg>\n"])

    def at(self, point):
        return f"{metres(point[0] - self.west)} {metres(self.north - point[1])}"

    def path(self, kind, points, title="", dashes=()):
        dashed = f' stroke-dasharray="{" ".join(_short(dash * self.paper) for dash in dashes)}"' if dashes else ""
        inside = f"><title>{escape(title)}</title></path>" if title else "/>"
        return f'<path class="{kind}"{dashed} d="{"".join(map(self.ring, points))}"{inside}'

    def ring(self, points):
        closed = len(points) > 2 and points[0] == points[-1]
        return "M" + " ".join(map(self.at, points[:-1] if closed else points)) + ("Z" if closed else "")

    def border(self, border, cls):
        try:
            area = f"{square_metres(border.net)} m\u00b2"
        except Refused as refused:
            area = str(refused)
        return self.path(cls, border.rings(), f"{cls} {border.letters}, {area}, row {border.index}")

    def line(self, row):
        return self.path("frame" if row.code == _FRAME else "line", [row.points], dashes=_DASHES.get(row.code, ()))

    def survey(self, row):
        return self.path("survey", [row.points], f"LIBRETTO {row.letters}, row {row.index}")

    def corners(self, row):
        """The four points of a scanned image, which are given no meaning, and so no order."""
        return "\n".join(self.sign(_SYMBOLS[1], at, 0, f"RIFERIMENTO_RASTER {row.letters}, row {row.index}") for at in row.points)

    def symbol(self, row):
        return self.sign(_SYMBOLS.get(row.code, _UNLISTED), row.at, row.angle, f"SIMBOLO {row.code}, row {row.index}")

    def fiducial(self, row):
        return self.sign(_SYMBOLS.get(row.code, _UNLISTED), row.at, 0, f"FIDUCIALE {row.letters}, row {row.index}")

    def sign(self, symbol, at, angle, title):
        return f'<path class="sign" transform="{self.placed(at, angle)} scale({_short(self.paper)})" d="{symbol}"><title>{escape(title)}</title></path>'

    def words(self, words):
        return (f'<text class="{words.kind}" font-size="{_short(self.font(words))}" transform="{self.placed(words.at, words.angle)}">'
                f"{escape(words.letters)}</text>")

    def font(self, words):
        """The size of the font, in metres."""
        return (words.size or 18) / 10 * self.paper / _CAPITAL

    def end(self, words):
        """Where the letters end at the furthest."""
        length = 1000 * _WIDTH * self.font(words) * len(words.letters)
        return round(words.at[0] + length * cos(words.angle / 1000)), round(words.at[1] + length * sin(words.angle / 1000))

    def placed(self, at, angle):
        turn = f" rotate({_short(-degrees(angle / 1000))})" if angle else ""
        return f"translate({self.at(at)}){turn}"


_DRAWN = {"LINEA": _Drawing.line, "LIBRETTO": _Drawing.survey, "SIMBOLO": _Drawing.symbol, "FIDUCIALE": _Drawing.fiducial,
          "RIFERIMENTO_RASTER": _Drawing.corners}


def _short(number):
    """A number with three decimals, without needless ones."""
    return f"{number:.3f}".rstrip("0").rstrip(".")
