"""The library: its structs and functions are those of include/cxf.h, and none but it is taken."""

import ctypes
import os
import re
import unittest
from unittest import mock

from cxf import _library

from .made import ROOT

HEADER = (ROOT / "include" / "cxf.h").read_text()
TYPES = {"uint64_t": ctypes.c_uint64, "int64_t": ctypes.c_int64, "uint8_t": ctypes.c_uint8}


def constant(name):
    return int(re.search(rf"\b{name}(?: =)? (\d+)", HEADER).group(1))


def fields(name):
    """The fields of a struct of the header, as ctypes has them."""
    body = re.search(r"typedef struct \{([^{}]*)\} " + name + ";", HEADER).group(1)
    found = []
    for form, names in re.findall(r"(\w+_t) ([^;]+);", re.sub(r"/\*.*?\*/", "", body, flags=re.S)):
        for field in names.split(","):
            field, _, count = field.strip().rstrip("]").partition("[")
            found.append((field, TYPES[form] * constant(count) if count else TYPES[form]))
    return found


def parameters(name):
    """The parameters of a function of the header, as ctypes has them: the macros of a sheet spelt out."""
    answer, given = re.search(rf"^(\w+) {name}\(([^)]*)\);", HEADER, re.M).groups()
    found = []
    for parameter in given.replace("\n", " ").split(","):
        words = parameter.split()
        if words[0] in ("CXF_SHEET", "CXF_TABLES"):
            found += _library._SHEET
        else:
            form = words[-2]
            found.append(ctypes.c_void_p if "*" in parameter else ctypes.c_size_t if form == "size_t" else TYPES[form])
    return answer, found


class TheInterface(unittest.TestCase):
    def test_functions_are_the_headers(self):
        for name, (answer, *taken) in _library.FUNCTIONS.items():
            with self.subTest(name):
                self.assertEqual(parameters(name), (answer.__name__, taken))

    def test_structs_are_the_headers(self):
        for answer, *_ in _library.FUNCTIONS.values():
            with self.subTest(answer.__name__):
                self.assertEqual(answer._fields_, fields(answer.__name__))

    def test_numbers_are_the_headers(self):
        for name in "INTERFACE FILE_MOST CELL_MOST ROW MASK_SIDE".split():
            with self.subTest(name):
                self.assertEqual(getattr(_library, name), constant(f"CXF_{name}"))
        for number, name in enumerate(_library.CLASSES, 1):
            self.assertEqual(number, constant(f"CXF_{name}"))


class AnotherLibrary(unittest.TestCase):
    def test_a_stale_one_is_refused(self):
        with mock.patch.object(_library, "INTERFACE", 99):
            with self.assertRaisesRegex(_library.LibraryError, "has interface 4, but this package is written for 99; ./lib makes"):
                _library.load(_library.find())

    def test_one_that_lacks_a_function_is_refused(self):
        with mock.patch.dict(_library.FUNCTIONS, cxf_new=(_library.Area,)):
            with self.assertRaisesRegex(_library.LibraryError, "has no cxf_new: it is older than this package; ./lib makes"):
                _library.load(_library.find())

    def test_one_that_is_another(self):
        with self.assertRaisesRegex(_library.LibraryError, "is no libcxf.so"):
            _library.load("libc.so.6")

    def test_one_that_is_missing(self):
        with self.assertRaisesRegex(_library.LibraryError, "nowhere.so cannot be loaded"):
            _library.load("/nowhere.so")
        with mock.patch.dict(os.environ, {"CXF_LIBRARY": "/elsewhere.so"}):
            self.assertEqual(str(_library.find()), "/elsewhere.so")


if __name__ == "__main__":
    unittest.main()
