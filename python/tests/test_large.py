"""A sheet of 12 MB (CXF_LARGE: other bytes): no command asks the whole sheet for each of its rows."""

import os
import time
import unittest
from unittest import mock

from cxf import Sheet
from cxf._library import FUNCTIONS, library

from . import made
from .test_command import said

COUNT = 4  # the place of the number of rows among the parameters of a sheet
LENGTH = int(os.environ.get("CXF_LARGE", 12_000_000))
SECONDS = 20  # of the processor, on a slow one; asked of the whole sheet for each row it would be many minutes


class Large(unittest.TestCase):
    @classmethod
    def setUpClass(cls):
        cls.source = made.large(LENGTH)
        cls.rows = len(Sheet.read(cls.source).rows)

    def setUp(self):
        self.folder = made.scratch(self)
        self.sheet = self.folder / "large.cxf"
        self.sheet.write_bytes(self.source)
        self.asked = 0

    def counted(self, function):
        def asking(*arguments):
            self.asked += arguments[COUNT]
            return function(*arguments)
        return asking

    def test_questions_grow_with_the_sheet(self):
        names = [name[len("cxf_"):] for name in FUNCTIONS if name != "cxf_read"]
        with mock.patch.multiple(library, **{name: self.counted(getattr(library, name)) for name in names}):
            for words in (("check", "--rings"), ("list",), ("rows", "--wkt"), ("gpkg", "-o", self.folder / "large.gpkg"), ("mask", "-o", self.folder / "large.png"),
                          ("svg", "-o", self.folder / "large.svg")):
                with self.subTest(words[0]):
                    self.asked, start = 0, time.process_time()
                    self.assertEqual(said(*words, self.sheet)[0], 0)
                    self.assertLess(self.asked, 12 * self.rows)
                    self.assertLess(time.process_time() - start, SECONDS)

    def test_a_refusal_at_its_end(self):
        self.sheet.write_bytes(self.source[:-5] + b"EOD\r\n")
        start = time.process_time()
        status, _, error = said("check", self.sheet)
        self.assertEqual(status, 1)
        self.assertIn(f'after BORDO "{self.rows - 2}+"', error)
        self.assertLess(time.process_time() - start, SECONDS)


if __name__ == "__main__":
    unittest.main()
