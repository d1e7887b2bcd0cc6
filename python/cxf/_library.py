"""The library's C interface, as include/cxf.h has it: finds libcxf.so, holds it to its number, declares what this package asks."""

import ctypes
import os
from array import array
from ctypes import c_int64, c_size_t, c_uint64, c_void_p
from operator import index

INTERFACE = 4
FILE_MOST = 16_777_216
CELL_MOST = 10_000
ROW = 15  # numbers a row
MASK_SIDE = 64
CLASSES = ("CONFINE", "OTHER", "ROAD", "WATER", "BUILDING", "PARCEL")
CLASS_FIGURES = 4  # of a tally


def _fields(form, names):
    return [(name, form) for name in names.split()]


def _answer(name, *fields):
    return type(name, (ctypes.Structure,), {"_fields_": [field for part in fields for field in part]})


Reading = _answer("cxf_reading", _fields(c_uint64, "number record offset column rows letters islands points kind"),
                  _fields(c_int64, "scale"), _fields(ctypes.c_uint8 * 11, "name"))
Written = _answer("cxf_written", _fields(c_uint64, "number row length"))
Border = _answer("cxf_border", _fields(c_uint64, "number row class_of"),
                 _fields(c_int64, "size angle x y inner_x inner_y"), _fields(c_uint64, "letters islands vertices"))
Text = _answer("cxf_text", _fields(c_uint64, "number row surface_right centroid"))
Area = _answer("cxf_area", _fields(c_uint64, "number row"), _fields(c_int64, "doubled"))
Tally = _answer("cxf_tally", _fields(c_uint64, "number row"), _fields(c_int64 * (CLASS_FIGURES * len(CLASSES)), "figures"))
Sup = _answer("cxf_sup", _fields(c_uint64, "number row line length"))
SupChecked = _answer("cxf_sup_checked", _fields(c_uint64, "number row line"))
Ring = _answer("cxf_ring", _fields(c_uint64, "number row simple first second"))
Mask = _answer("cxf_mask", _fields(c_uint64, "number row"), _fields(c_uint64 * MASK_SIDE, "rows"), _fields(c_uint64, "covered"))
Edited = _answer("cxf_edited", _fields(c_uint64, "number row count"))

_SLICE = (c_void_p, c_size_t)
_TABLES = _SLICE * 4
_SHEET = (c_uint64, *_SLICE, c_int64, c_uint64, *_TABLES)

# What each function of the header answers, and what it takes.
FUNCTIONS = {
    "cxf_read": (Reading, *_SLICE, c_uint64, *_TABLES),
    "cxf_write": (Written, *_SHEET, *_SLICE),
    "cxf_cml_lines": (Written, *_SHEET, *_SLICE),
    "cxf_border_at": (Border, *_SHEET, c_uint64),
    "cxf_text_at": (Text, *_SHEET, c_uint64),
    "cxf_ring_area": (Area, *_SHEET, c_uint64, c_uint64),
    "cxf_net_area": (Area, *_SHEET, c_uint64),
    "cxf_tally_sheet": (Tally, *_SHEET),
    "cxf_sup_write": (Sup, *_SHEET, *_SLICE, *_SLICE),
    "cxf_sup_check": (SupChecked, *_SHEET, *_SLICE),
    "cxf_ring_check": (Ring, *_SHEET, c_uint64, c_uint64),
    "cxf_mask_of": (Mask, *_SHEET, c_uint64, c_int64, c_int64, c_int64),
    "cxf_remove": (Edited, *_SHEET, c_uint64),
    "cxf_move": (Edited, *_SHEET, c_int64, c_int64),
}


class LibraryError(RuntimeError):
    """There is no libcxf.so, or it is none that this package was written for."""


def find():
    """The library's path: CXF_LIBRARY, else the one beside this package, else the one that ./lib makes in this project."""
    if os.environ.get("CXF_LIBRARY"):
        return os.environ["CXF_LIBRARY"]
    package = os.path.dirname(os.path.realpath(__file__))
    project = os.path.dirname(os.path.dirname(package))
    places = os.path.join(package, "libcxf.so"), os.path.join(project, "target", "libcxf.so")
    for place in places:
        if os.path.exists(place):
            return place
    raise LibraryError(f"there is no {places[1]}; ./lib makes it (CXF_LIBRARY names another place)")


def load(path):
    """The library's functions by their names less cxf_, from a library whose interface has the number that is known here."""
    try:
        found = ctypes.CDLL(path)
        interface = found.cxf_interface
    except OSError as error:
        raise LibraryError(f"{path} cannot be loaded: {error}") from None
    except AttributeError:
        raise LibraryError(f"{path} is no libcxf.so: it has no cxf_interface") from None
    interface.restype = c_uint64
    if interface() != INTERFACE:
        raise LibraryError(f"{path} has interface {interface()}, but this package is written for {INTERFACE}; ./lib makes the library anew")
    functions = {}
    for name, (answer, *parameters) in FUNCTIONS.items():
        if not hasattr(found, name):
            raise LibraryError(f"{path} has no {name}: it is older than this package; ./lib makes the library anew")
        function = functions[name[len("cxf_"):]] = getattr(found, name)
        function.restype, function.argtypes = answer, parameters
    return functions


class _Library:
    """The library's functions. It is found, and held to its number, when the first of them is named."""

    def __getattr__(self, name):
        if f"cxf_{name}" not in FUNCTIONS:
            raise AttributeError(name)
        vars(self).update(load(find()))
        return vars(self)[name]


library = _Library()


def whole(number):
    """A number for a parameter of 64 bits. ctypes would cut a larger one short and ask another question, so that one becomes the largest
    there is, which every question refuses: no row, no ring, no length of a sheet is so large."""
    number = index(number)
    return number if -1 << 63 <= number < 1 << 63 else (1 << 63) - 1


class Tables:
    """The four tables of a sheet: rows, letters, island counts, points."""

    __slots__ = ("rows", "letters", "islands", "points")

    def __init__(self, rows, letters, islands, points):
        self.rows, self.letters, self.islands, self.points = rows, letters, islands, points

    @classmethod
    def with_room(cls, rows, letters, islands, points):
        """Tables that hold so many rows, letters, island counts and points."""
        def zeros(code, count):
            return array(code, bytes(array(code).itemsize * count))
        return cls(zeros("q", rows * ROW), zeros("B", letters), zeros("H", islands), zeros("q", points * 2))

    def copy(self):
        return Tables(*(getattr(self, name)[:] for name in self.__slots__))

    def lent(self):
        """The four as slices of the C interface. They are to be kept as long as the library works on them."""
        return tuple(part for name in self.__slots__ for part in getattr(self, name).buffer_info())
