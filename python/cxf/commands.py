"""What each command does with a sheet. Each takes the sheet, its file's name and the options, and answers with an Outcome."""

import errno
import os
from typing import NamedTuple

from . import explain, files
from .layout import FIELDS
from .raster import CELLS_MOST, Grid, NotDrawn, Raster
from .refusal import Refused
from .shapes import well_known_text
from .units import metres, square_metres

WELL, REFUSED, TROUBLE = 0, 1, 2
COLUMNS = ("file", "row", "line", "kind", "class", "outside", "code", "letters", "islands", "vertices", "net_m2", "x", "y")


class Outcome(NamedTuple):
    """An exit status, what goes to standard output, and what is said on standard error."""
    status: int = WELL
    out: bytes = b""
    said: str = ""


def shown(file):
    """A file's name in messages."""
    return "standard input" if file == files.STANDARD else file


def target(file, options, extension):
    """Where what is made of a sheet goes: the file of -o, a file of that sheet's name in the folder of -d, or standard output."""
    if options.folder is None:
        return options.output or files.STANDARD
    name = "stdin" if file == files.STANDARD else os.path.splitext(os.path.basename(file))[0]
    path = os.path.join(options.folder, name + extension)
    if os.path.exists(path) and file != files.STANDARD and os.path.samefile(path, file):
        raise OSError(errno.EEXIST, "this is the sheet itself; -o replaces it", path)
    return path


def delivered(file, options, extension, content):
    path = target(file, options, extension)
    if path == files.STANDARD:
        return Outcome(out=content)
    files.store({path: content})
    return Outcome()


def check(sheet, file, options):
    faults = []
    if options.rings:
        faults += ring_faults(sheet, shown(file))
    if options.sup is not None:
        faults += sup_faults(sheet, file, options.sup or beside(file))
    if faults:
        return Outcome(REFUSED, said="\n".join(faults))
    return Outcome(out=b"" if options.quiet else f"{shown(file)}: OK\n".encode(errors="surrogateescape"))


def ring_faults(sheet, name):
    for border in sheet.borders():
        for ring in range(len(border.island_counts) + 1):
            try:
                edges = border.crossing(ring)
            except Refused as refused:
                yield explain.question(refused, name, sheet)
            else:
                if edges:
                    yield explain.crossing(name, border, ring, edges)


def beside(file):
    """The SUP file beside a sheet; its ending may be in capitals."""
    small, capital = (os.path.splitext(file)[0] + ending for ending in (".sup", ".SUP"))
    return capital if os.path.exists(capital) and not os.path.exists(small) else small


def sup_faults(sheet, file, path):
    source = files.load(path)
    try:
        sheet.check_sup(source)
    except Refused as refused:
        yield explain.question(refused, shown(file), sheet) if refused.line is None else explain.sup(refused, shown(path), source, sheet)


def list_classes(sheet, file, options):
    scale = f"{metres(sheet.scale)} m wide" if sheet.kind == "QUADRO D'UNIONE" else f"1:{metres(sheet.scale)}"
    lines = [f"{sheet.kind} {sheet.name} {scale}, {len(sheet.rows)} elements",
             f"{'class':<8} {'borders':>8} {'outer m2':>16} {'islands':>8} {'islands m2':>16} {'net m2':>16}"]
    for name, figures in sheet.tally().items():
        areas = map(square_metres, (figures.outer, figures.island_area, figures.net))
        lines.append("{:<8} {:>8} {:>16} {:>8} {:>16} {:>16}".format(name, figures.borders, next(areas), figures.islands, *areas))
    if len(options.sheets) > 1:
        lines = [f"{shown(file)}:", *lines, ""]
    return Outcome(out="".join(f"{line}\n" for line in lines).encode(errors="surrogateescape"))


def rows(sheet, file, options):
    import csv
    import io
    text, faults = io.StringIO(), []
    table = csv.writer(text, "excel-tab", lineterminator="\n")
    for row in sheet.borders(*options.classes) if options.classes else sheet.rows:
        try:
            net = square_metres(row.net) if row.kind == "BORDO" else ""
        except Refused as refused:
            net = ""
            faults.append(explain.question(refused, shown(file), sheet))
        x, y = row.at if "x" in FIELDS[row.kind] else row.points[0]
        table.writerow([file, row.index, row.line, row.kind, row.cls if row.kind == "BORDO" else "", int(row.outside),
                        row.code if "code" in FIELDS[row.kind] else "", row.letters, len(row.island_counts), len(row.points), net,
                        metres(x), metres(y), *([well_known_text(row)] if options.wkt else [])])
    return Outcome(REFUSED if faults else WELL, text.getvalue().encode(errors="surrogateescape"), "\n".join(faults))


def clean(sheet, file, options):
    return delivered(file, options, ".cxf", sheet.write())


def sup(sheet, file, options):
    return delivered(file, options, ".sup", sheet.sup(options.date))


def cml(sheet, file, options):
    return delivered(file, options, ".cml", sheet.cml())


def svg(sheet, file, options):
    from . import drawing
    return delivered(file, options, ".svg", drawing.svg(sheet).encode())


def move(sheet, file, options):
    return delivered(file, options, ".cxf", sheet.moved(*options.by).write())


def remove(sheet, file, options):
    missing = [str(row) for row in options.rows if row >= len(sheet.rows)]
    if missing:
        return Outcome(REFUSED, said=f"{shown(file)}: no row {', '.join(missing)}: the sheet has {len(sheet.rows)}, counted from 0")
    return delivered(file, options, ".cxf", sheet.removed(*options.rows).write())


def mask(sheet, file, options):
    try:
        borders = list(chosen(sheet, options))
        raster = Raster.of_borders(borders, grid_of(sheet, options))
        covered = raster.covered
        if not covered and not any(raster.grid.meets(border.bounds) for border in sheet.borders("CONFINE")):
            raise NotDrawn("the grid lies off the sheet's CONFINE; an empty mask would flag every roof")
    except NotDrawn as error:
        return Outcome(REFUSED, said=f"{shown(file)}: {error}")
    note = f"{shown(file)}: a scanned sheet: what its image alone shows is not in the mask" if sheet.scanned else ""
    path = target(file, options, ".png")
    if path == files.STANDARD:
        return Outcome(out=raster.png(), said=note)
    files.store({path: raster.png(), os.path.splitext(path)[0] + ".pgw": raster.grid.world().encode()})
    text = f"{path}: borders {len(borders)}, cells {raster.grid.columns} x {raster.grid.rows} of {metres(raster.grid.cell)} m, covered {covered}\n"
    return Outcome(out=text.encode(errors="surrogateescape"), said=note)


def grid_of(sheet, options):
    """The grid of --corner and --size, or that over the sheet's CONFINE."""
    grid = Grid(*options.corner, options.cell, *options.size) if options.corner else Grid.over_sheet(sheet, options.cell)
    if grid.columns * grid.rows > CELLS_MOST:
        raise NotDrawn(f"{grid.columns} x {grid.rows} cells are too many; take a larger --cell")
    return grid


def chosen(sheet, options):
    """The borders of the classes and rows that are named; with none named the buildings."""
    named = set(options.rows)
    for row in sorted(named):
        if row >= len(sheet.rows) or sheet.rows[row].kind != "BORDO":
            raise NotDrawn(f"row {row} is no border")
    classes = options.classes or ([] if named else ["BUILDING"])
    return (border for border in sheet.borders() if border.index in named or border.cls in classes)
