"""docs/USING.md can be followed word by word: what it shows under a command, or under a line of Python, is what comes of it."""

import doctest
import os
import re
import shlex
import shutil
import subprocess
import unittest
from xml.etree import ElementTree

from . import made
from .test_command import said
from .test_raster import pixels

PAGE = made.ROOT / "docs" / "USING.md"
PICTURES = PAGE.parent / "pictures"


def shown(page):
    """The commands of a page, each with the lines that stand under it: indented, the command after a $."""
    for command, printed in re.findall(r"^    \$ (.*)\n((?:    (?!\$ ).*\n)*)", page, re.M):
        yield command, re.sub(r"^    ", "", printed, flags=re.M)


def desk(test):
    """A folder as the page has it: the samples, and the command."""
    folder = made.scratch(test)
    shutil.copytree(made.SAMPLE.parent, folder / "samples")
    (folder / "cxf").symlink_to(made.ROOT / "cxf")
    test.addCleanup(os.chdir, os.getcwd())
    os.chdir(folder)
    return folder


def done(command):
    """What a command of the page prints: one of ./cxf alone is run here, which saves its start; any other is the shell's."""
    if re.fullmatch(r"\./cxf [^|&;<>$*]*", command):
        _, out, error = said(*shlex.split(command)[1:])
        return out.decode() + error
    return subprocess.run(["bash", "-c", command], stdout=subprocess.PIPE, stderr=subprocess.STDOUT, text=True).stdout


class ThePage(unittest.TestCase):
    maxDiff = None

    def setUp(self):
        self.folder = desk(self)

    def test_commands(self):
        for command, printed in shown(PAGE.read_text()):
            with self.subTest(command):
                self.assertEqual(done(command), printed)
        self.assertEqual(pixels((self.folder / "roofs.png").read_bytes()), pixels((PICTURES / "roofs.png").read_bytes()))
        self.assertEqual(*(ElementTree.canonicalize((place / "sheet.svg").read_text()) for place in (self.folder, PICTURES)))

    def test_python(self):
        result = doctest.testfile(str(PAGE), module_relative=False)
        self.assertGreater(result.attempted, 5)
        self.assertEqual(result.failed, 0)


if __name__ == "__main__":
    unittest.main()
