"""The command: its sheets one after the other or several at a time, its exit status.

A year of sheets may be as many starts of this program, so what only some commands need is imported by those."""

import errno
import os
import sys
from contextlib import suppress
from functools import partial

from . import commands, explain, files
from ._library import LibraryError, library
from .commands import REFUSED, TROUBLE, WELL, Outcome, shown
from .options import parse
from .refusal import Refused
from .sheet import Sheet

BAD_DATE = 21


class _Abandoned(Exception):
    """A file of several sheets that is not written, since one of them was refused; with the exit status."""


def main(arguments=None):
    options = parse(sys.argv[1:] if arguments is None else arguments)
    try:
        library.read  # a library that is none is found out before any sheet is read
        if options.command == "gpkg":
            return _gpkg(options)
        if options.folder is not None:
            os.makedirs(options.folder, exist_ok=True)
        if options.command == "rows":
            _print("\t".join(commands.COLUMNS + (("wkt",) if options.wkt else ())).encode() + b"\n")
        return _run(options)
    except LibraryError as error:
        return _trouble(error)
    except _Abandoned as abandoned:
        _say(f"cxf: {options.output} is not written")
        return abandoned.args[0]
    except BrokenPipeError:
        return TROUBLE
    except OSError as error:
        return _trouble(f"{error.filename or 'standard output'}: {error.strerror}")
    except KeyboardInterrupt:
        return 130


def _run(options):
    """Works on all sheets, prints what comes of each in their order, and answers the highest status."""
    status, many = WELL, len(options.sheets) > 1 and sys.stderr is not None and sys.stderr.isatty()
    for done, outcome in enumerate(_outcomes(options), 1):
        if many:
            sys.stderr.write("\r\x1b[K")
        _print(outcome.out)
        if outcome.said:
            _say(outcome.said)
        if many and done < len(options.sheets):
            sys.stderr.write(f"{done} of {len(options.sheets)} sheets")
            sys.stderr.flush()
        status = max(status, outcome.status)
    return status


def _outcomes(options):
    one = partial(_one, options)
    if options.jobs == 1 or files.STANDARD in options.sheets:
        yield from map(one, options.sheets)
    else:
        yield from _side_by_side(one, options)


def _side_by_side(one, options):
    import multiprocessing
    import signal
    from concurrent.futures import ProcessPoolExecutor
    from concurrent.futures.process import BrokenProcessPool
    try:
        # An interrupt is for the program that was started: its helpers end what they are at.
        with ProcessPoolExecutor(options.jobs, multiprocessing.get_context("fork"), signal.signal, (signal.SIGINT, signal.SIG_IGN)) as pool:
            yield from pool.map(one, options.sheets)
    except BrokenProcessPool:
        raise OSError(None, "it was ended from outside", "one of the processes of -j") from None


def _one(options, file):
    """What comes of one sheet. Nothing is printed, so that several may be worked on at a time."""
    try:
        source = files.load(file)
        sheet = Sheet.read(source, options.mode)
    except OSError as error:
        return Outcome(TROUBLE, said=f"cxf: {shown(file)}: {error.strerror}")
    except Refused as refused:
        return Outcome(REFUSED, said=explain.reading(refused, shown(file), source, options.mode))
    try:
        return options.work(sheet, file, options)
    except OSError as error:
        return Outcome(TROUBLE, said=f"cxf: {error.filename or 'standard input'}: {error.strerror}")
    except Refused as refused:
        return Outcome(TROUBLE if refused.number == BAD_DATE else REFUSED, said=explain.question(refused, shown(file), sheet))


def _gpkg(options):
    """All sheets in one GeoPackage; where one is refused, none."""
    import tempfile
    if options.output == files.STANDARD:
        with tempfile.TemporaryDirectory() as folder:
            place = os.path.join(folder, "sheets.gpkg")
            _pack(options, place)
            with open(place, "rb") as whole:
                _print(whole.read())
    else:
        with files.aside(options.output) as place:
            _pack(options, place)
    return WELL


def _pack(options, place):
    import sqlite3

    from .geopackage import GeoPackage
    try:
        with GeoPackage(place) as package:
            options.work = lambda sheet, file, options: package.add(sheet) or Outcome()
            status = _run(options)
            if status != WELL:
                raise _Abandoned(status)
    except sqlite3.Error as error:
        raise OSError(None, str(error), options.output) from None


def _print(content):
    if not content:
        return
    if sys.stdout is None:
        raise OSError(errno.EBADF, "it is closed")
    try:
        sys.stdout.buffer.write(content)
        sys.stdout.buffer.flush()
    except OSError:
        os.dup2(os.open(os.devnull, os.O_WRONLY), sys.stdout.fileno())  # what it did not take is not tried again when the program ends
        raise


def _say(text):
    if sys.stderr is not None:
        with suppress(OSError):  # there is nowhere left to say that; the exit status still tells
            print(text, file=sys.stderr)


def _trouble(text):
    _say(f"cxf: {text}")
    return TROUBLE
