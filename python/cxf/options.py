"""The command's options."""

import argparse
import os
from collections import Counter
from functools import lru_cache, partial

from . import commands, files, units
from ._library import CELL_MOST, CLASSES
from .sheet import Exact, Mode

MODES = {Mode.Exact: "the printed layout alone (the default)", Mode.Loose: "bare line feeds, unpadded numbers, unlisted codes too",
         Mode.Former: "notes behind numbers too"}
NOTES = """SHEET - is standard input, FILE - standard output. Lengths are metres with at most three decimals.
Exit status: 0 all well; 1 a sheet was refused or a check failed; 2 usage, or a file that cannot be read or written."""
_COMMON = {"epilog": NOTES, "allow_abbrev": False, "formatter_class": argparse.RawDescriptionHelpFormatter}


def parse(arguments):
    """The options of the command's words. Where they are none, the program ends with status 2 and says why."""
    parser = _parser()
    options = parser.parse_args(_words(arguments))
    fault = _fault(options)
    if fault:
        parser.error(f"{options.command}: {fault}")
    return options


def _words(arguments):
    """The words as argparse wants them: --sup takes a file only behind =, a pair of lengths may begin with a minus, -r takes several rows."""
    words, rest = [], list(arguments)
    while rest:
        word = rest.pop(0)
        if word == "--":
            return [*words, word, *rest]
        if word == "--sup":
            word = "--sup="
        elif word in ("--corner", "--by") and rest:
            word = f"{word}={rest.pop(0)}"
        elif word == "-r" and rest:
            word = f"-r{rest.pop(0)}"
            while rest and rest[0].isdigit():
                words.append(f"-r{rest.pop(0)}")
        words.append(word)
    return words


def _fault(options):
    """What is wrong with options that do not go together, if anything."""
    sheets = options.sheets
    if [*sheets, getattr(options, "sup", None)].count(files.STANDARD) > 1:
        return "standard input is read once"
    if options.writes and options.command != "gpkg" and options.folder is None and len(sheets) > 1:
        return "more than one sheet: -d DIR is wanted"
    if options.folder is not None:
        name, times = Counter(os.path.splitext(os.path.basename(sheet))[0] for sheet in sheets).most_common(1)[0]
        if times > 1:
            return f"{times} sheets would be written as {name} in {options.folder}"
    if options.command == "mask" and bool(options.corner) != bool(options.size):
        return "--corner and --size go together"
    if options.command == "mask" and options.output != files.STANDARD and not (options.output or ".png").lower().endswith(".png"):
        return f"{options.output}: a mask is a PNG, and its world file is found by that ending: -o F.png"
    if options.command == "check" and options.sup and len(sheets) > 1:
        return "--sup=FILE is for one sheet"
    if options.command == "check" and options.sup == "" and files.STANDARD in sheets:
        return "no SUP file lies beside standard input: --sup=FILE is wanted"
    return None


@lru_cache(maxsize=None)
def _parser():
    parser = argparse.ArgumentParser("cxf", description="Reads CXF sheets of the Italian cadastre.", **_COMMON)
    command = partial(_command, parser.add_subparsers(dest="command", metavar="COMMAND", required=True))
    _asking(command)
    _writing(command)
    return parser


def _command(adding, name, work, text, writes=False, many=True):
    """A command with what all have: its sheets, the modes, and where it puts what it writes. One that is not for many has neither -d nor -j."""
    added = adding.add_parser(name, help=text, description=text, **_COMMON)
    added.set_defaults(work=work, mode=Exact, writes=writes, folder=None, output=None, jobs=1)
    modes = added.add_mutually_exclusive_group()
    for mode, takes in MODES.items():
        modes.add_argument(f"--{mode.name.lower()}", dest="mode", action="store_const", const=mode, help=takes)
    if writes:
        place = added.add_mutually_exclusive_group(required=name in ("mask", "gpkg"))
        place.add_argument("-o", dest="output", metavar="FILE", help="the file that is written")
        if many:
            place.add_argument("-d", dest="folder", metavar="DIR", help="the folder that a file for each sheet is written to")
    if many:
        added.add_argument("-j", dest="jobs", metavar="N", type=_positive, help="work on so many sheets at a time")
    added.add_argument("sheets", metavar="SHEET", nargs="+" if name != "remove" else 1)
    return added


def _asking(command):
    """The commands that say something of a sheet."""
    check = command("check", commands.check, "whether each sheet is sound, its rings simple, its SUP file right")
    check.add_argument("-q", dest="quiet", action="store_true", help="say nothing of sheets that are")
    check.add_argument("--rings", action="store_true", help="check that no ring crosses or touches itself")
    check.add_argument("--sup", metavar="FILE", help="check the SUP file beside the sheet; another by --sup=FILE, in one word")
    command("list", commands.list_classes, "the figures of the six classes of borders, in square metres")
    rows = command("rows", commands.rows, "a line for each element, tab separated")
    _classes(rows)
    rows.add_argument("--wkt", action="store_true", help="with each shape as well-known text")


def _writing(command):
    """The commands that make a file of a sheet."""
    command("clean", commands.clean, "the sheet in the printed layout", writes=True)
    sup = command("sup", commands.sup, "the SUP file that goes out with the sheet", writes=True)
    sup.add_argument("--date", metavar="YYYYMMDD", required=True)
    mask = command("mask", commands.mask, "the roofs, or other borders, as a PNG of one bit with a world file", writes=True)
    mask.add_argument("--cell", metavar="M", type=_cell, default=500, help="the side of a cell (0.5)")
    mask.add_argument("--corner", metavar="E,N", type=_said(units.pair), help="the north-west corner, in place of the sheet's own grid")
    mask.add_argument("--size", metavar="CxR", type=_size, help="columns and rows of the grid at that corner")
    _classes(mask)
    _rows(mask, default=[])
    command("svg", commands.svg, "the sheet as a drawing", writes=True)
    command("cml", commands.cml, "the lines of the sheet as CML", writes=True)
    command("gpkg", None, "all sheets in one GeoPackage", writes=True, many=False)
    move = command("move", commands.move, "the sheet, moved", writes=True)
    move.add_argument("--by", metavar="E,N", type=_said(units.pair), required=True)
    _rows(command("remove", commands.remove, "the sheet without some rows", writes=True, many=False), required=True)


def _classes(parser):
    parser.add_argument("-c", dest="classes", metavar="CLASS", type=str.upper, choices=CLASSES, action="append", default=[], help=", ".join(CLASSES))


def _rows(parser, **more):
    parser.add_argument("-r", dest="rows", metavar="ROW", type=_natural, action="append", help="a row's number, as the command rows shows it", **more)


def _said(convert):
    """The conversion of an option's word, whose ValueError is what argparse says."""
    def converted(text):
        try:
            return convert(text)
        except ValueError as error:
            raise argparse.ArgumentTypeError(str(error)) from None
    return converted


def _from(least):
    @_said
    def converted(text):
        if not text.isdecimal() or int(text) < least:
            raise ValueError(f"{text!r} is no number from {least} on")
        return int(text)
    return converted


_natural, _positive = _from(0), _from(1)


@_said
def _cell(text):
    side = units.millimetres(text)
    if not 1 <= side <= CELL_MOST:
        raise ValueError(f"{text!r} is not 0.001 to 10 metres")
    return side


@_said
def _size(text):
    columns, _, rows = text.partition("x")
    return _positive(columns), _positive(rows)
