"""The command: what it prints and writes, its exit statuses, full disks, closed pipes, standard input and output."""

import io
import os
import resource
import subprocess
import sys
import time
import unittest
from unittest import mock

from cxf import _library, command

from . import made

BOW = [(0, 0), (10_000, 10_000), (10_000, 0), (0, 10_000), (0, 0)]


class Terminal(io.StringIO):
    def isatty(self):
        return True


def said(*words, given=b"", error=None):
    """Status, standard output and standard error of the command, run here."""
    out, error = io.TextIOWrapper(io.BytesIO()), error or io.StringIO()
    with mock.patch.multiple(sys, stdin=io.TextIOWrapper(io.BytesIO(given)), stdout=out, stderr=error):
        try:
            status = command.main([str(word) for word in words])
        except SystemExit as ended:
            status = ended.code
    out.flush()
    return status, out.buffer.getvalue(), error.getvalue()


def program(*words, **more):
    """The command as a program of its own, for what only one can show: its start takes seconds where the processor is emulated."""
    return subprocess.Popen([made.ROOT / "cxf", *map(str, words)], stderr=subprocess.PIPE, **more)


class Case(unittest.TestCase):
    def setUp(self):
        self.folder = made.scratch(self)
        self.good = self.put("good.cxf", made.every_kind())
        self.bare = self.put("bare.cxf", made.every_kind().replace(b"\r\n", b"\n"))

    def put(self, name, content):
        path = self.folder / name
        path.write_bytes(content)
        return path

    def names(self):
        return sorted(path.name for path in self.folder.iterdir())


class Statuses(Case):
    def test_all_well_refused_and_trouble(self):
        missing = self.folder / "missing.cxf"
        self.assertEqual(said("check", self.good), (0, f"{self.good}: OK\n".encode(), ""))
        self.assertEqual(said("check", "-q", self.good), (0, b"", ""))
        status, out, error = said("check", self.good, self.bare)
        self.assertEqual((status, out), (1, f"{self.good}: OK\n".encode()))
        self.assertIn(f"{self.bare}:1:6: refused 3:", error)
        self.assertIn("= --loose takes this sheet", error)
        self.assertEqual(said("check", "--loose", self.bare)[0], 0)
        self.assertEqual(said("check", missing), (2, b"", f"cxf: {missing}: No such file or directory\n"))
        self.assertEqual(said("check", missing, self.bare, self.good)[:2], (2, f"{self.good}: OK\n".encode()))
        self.assertEqual(said("check", self.folder), (2, b"", f"cxf: {self.folder}: Is a directory\n"))

    def test_usage(self):
        sheet, other = str(self.good), str(self.bare)
        for words in ((), ("draw", sheet), ("check",), ("check", "--strict", sheet), ("check", "--loo", sheet), ("check", "--exact", "--loose", sheet),
                      ("clean", sheet, other), ("clean", "-o", "a", "-d", "b", sheet), ("sup", sheet), ("mask", sheet), ("gpkg", sheet), ("move", sheet),
                      ("remove", sheet), ("remove", "-r", "1", sheet, other), ("mask", "--corner", "0,0", "-o", "m.png", sheet),
                      ("mask", "--size", "4x4", "-o", "m.png", sheet), ("mask", "--corner", "0", "--size", "4x4", "-o", "m.png", sheet),
                      ("mask", "--corner", "0,0", "--size", "4x0", "-o", "m.png", sheet), ("mask", "--cell", "0", "-o", "m.png", sheet),
                      ("mask", "--cell", "10.001", "-o", "m.png", sheet), ("mask", "--cell", "0.0005", "-o", "m.png", sheet),
                      ("mask", "-o", "m.tif", sheet), ("mask", "-o", "m.pgw", sheet), ("mask", "-c", "SHED", "-o", "m.png", sheet),
                      ("mask", "-r", "x", "-o", "m.png", sheet), ("move", "--by", "1e3,0", sheet),
                      ("check", "-j", "0", sheet), ("check", "-", "-"), ("check", "--sup=a.sup", sheet, other), ("check", "--sup", "-")):
            with self.subTest(words):
                status, out, error = said(*words)
                self.assertEqual((status, out), (2, b""))
                self.assertIn("error:", error)

    def test_without_a_library_there_is_help_alone(self):
        with mock.patch.object(command, "library", _library._Library()), mock.patch.dict(os.environ, CXF_LIBRARY="/nowhere.so"):
            status, out, _ = said("--help")
            self.assertEqual(status, 0)
            self.assertIn(b"Exit status: 0 all well; 1 a sheet was refused or a check failed; 2 usage", out)
            self.assertEqual(said("check", self.good),
                             (2, b"", "cxf: /nowhere.so cannot be loaded: /nowhere.so: cannot open shared object file: No such file or directory\n"))

    def test_a_stale_library_is_refused(self):
        with mock.patch.object(command, "library", _library._Library()), mock.patch.object(_library, "INTERFACE", 5):
            self.assertEqual(said("check", self.good), (2, b"", f"cxf: {_library.find()} has interface 4, but this package is written for 5; "
                                                                "./lib makes the library anew\n"))


class Checks(Case):
    def test_rings(self):
        crossed = self.put("crossed.cxf", made.Paper().border("7+", BOW).border("8", made.rectangle(0, 0, 1, 1)).border("9", BOW).file())
        self.assertEqual(said("check", crossed)[0], 0)
        status, out, error = said("check", "--rings", crossed)
        self.assertEqual((status, out), (1, b""))
        self.assertEqual(error.count("not simple"), 2)
        self.assertIn(f'{crossed}:14: not simple: edge 1 meets edge 3\n     14 | edge 1 from 0,0 to 10,10\n     18 | edge 3 from 10,0 to 0,10\n'
                      '        = the outer ring of BUILDING "7+", row 0\n', error)
        self.assertEqual(said("check", "--rings", self.good)[0], 0)

    def test_sup_files(self):
        sup = made.SAMPLE.with_suffix(".sup").read_bytes()
        sheet, beside = self.put("sheet.cxf", made.SAMPLE.read_bytes()), self.folder / "sheet.sup"
        self.assertEqual(said("check", "--sup", sheet), (2, b"", f"cxf: {beside}: No such file or directory\n"))
        self.put("sheet.SUP", sup)
        self.assertEqual(said("check", "--sup", sheet)[0], 0)
        self.put("sheet.sup", sup.replace(b" 709", b" 719"))
        status, out, error = said("check", "--sup", "-q", sheet)
        self.assertEqual((status, out), (1, b""))
        self.assertEqual(error, f"{beside}:7: refused 25: a line that does not agree with the sheet\n      7 | FABBRIC           719\n"
                                "  sheet | FABBRIC           709\n")
        self.assertEqual(said("check", f"--sup={made.SAMPLE.with_suffix('.sup')}", "-", given=made.SAMPLE.read_bytes())[:2], (0, b"standard input: OK\n"))


class Tables(Case):
    def test_list(self):
        status, out, _ = said("list", made.SAMPLE)
        self.assertEqual(status, 0)
        self.assertEqual(out.decode().splitlines()[0], "MAPPA Z999_000100 1:1000, 16 elements")
        self.assertEqual(out.decode().splitlines()[6].split(), ["BUILDING", "2", "828.59", "1", "120.00", "708.59"])
        status, out, _ = said("list", made.SAMPLE, self.good)
        self.assertEqual(out.decode().count(":\nMAPPA"), 2)

    def test_rows(self):
        status, out, _ = said("rows", self.good)
        lines = out.decode().splitlines()
        self.assertEqual((status, len(lines)), (0, 15))
        self.assertEqual(lines[0].split("\t")[:5], ["file", "row", "line", "kind", "class"])
        self.assertEqual(lines[5].split("\t"), [str(self.good), "4", "84", "BORDO", "BUILDING", "0", "", "7+", "2", "15", "1300.00", "10", "20"])
        status, out, _ = said("rows", "-c", "road", "-c", "WATER", "--wkt", self.good, self.good)
        lines = out.decode().splitlines()
        self.assertEqual([line.split("\t")[4] for line in lines], ["class", "ROAD", "WATER", "ROAD", "WATER"])
        self.assertTrue(lines[1].endswith("\tPOLYGON((0 0,100 0,100 10,0 10,0 0))"))

    def test_an_area_that_is_refused(self):
        wide = self.put("wide.cxf", made.Paper().border("1", [(0, 0), (30_000_000, 0), (0, 1), (0, 0)]).file())
        status, out, error = said("rows", wide)
        self.assertEqual((status, len(out.splitlines())), (1, 2))
        self.assertIn(f"{wide}:4: refused 17:", error)
        self.assertEqual(said("list", wide)[:2], (1, b""))


class Written(Case):
    def test_clean(self):
        self.assertEqual(said("clean", "--loose", self.bare), (0, made.every_kind(), ""))
        self.assertEqual(said("clean", "--loose", "-o", self.folder / "out.cxf", self.bare), (0, b"", ""))
        self.assertEqual((self.folder / "out.cxf").read_bytes(), made.every_kind())
        self.assertEqual(said("clean", "--loose", "-d", self.folder / "new" / "clean", self.bare, self.good)[0], 0)
        for name in ("bare.cxf", "good.cxf"):
            self.assertEqual((self.folder / "new" / "clean" / name).read_bytes(), made.every_kind())
        for _ in range(2):
            self.assertEqual(said("clean", "--loose", "-o", self.bare, self.bare)[0], 0)
            self.assertEqual(self.bare.read_bytes(), made.every_kind())

    def test_a_folder_does_not_overwrite(self):
        (self.folder / "other").mkdir()
        twin = self.put("other/good.cxf", made.every_kind())
        self.assertEqual(said("clean", "-d", self.folder / "out", self.good, twin)[0], 2)
        status, _, error = said("clean", "-d", self.folder, self.good)
        self.assertEqual((status, error), (2, f"cxf: {self.good}: this is the sheet itself; -o replaces it\n"))

    def test_sup(self):
        self.assertEqual(said("sup", "--date", "20261115", made.SAMPLE), (0, made.SAMPLE.with_suffix(".sup").read_bytes(), ""))
        status, out, error = said("sup", "--date", "20261315", "-o", self.folder / "x.sup", made.SAMPLE)
        self.assertEqual((status, out, error), (2, b"", f"{made.SAMPLE}: refused 21: not a date of eight digits, YYYYMMDD\n"))
        self.assertNotIn("x.sup", self.names())
        self.assertEqual(said("sup", "--date", "2026111\udcff", made.SAMPLE)[0], 2)

    def test_move_there_and_back(self):
        moved = self.folder / "moved.cxf"
        self.assertEqual(said("move", "--by", "-1.5,0.001", "-o", moved, self.good)[0], 0)
        self.assertNotEqual(moved.read_bytes(), made.every_kind())
        self.assertEqual(said("move", "--by=1.5,-0.001", moved), (0, made.every_kind(), ""))
        self.assertEqual(said("move", "--by", "99999999,0", self.good)[:2], (1, b""))

    def test_remove(self):
        status, out, _ = said("remove", "-r", 12, 4, "-r", 12, self.good)
        self.assertEqual(status, 0)
        self.assertEqual(said("rows", "-", given=out)[1].decode().count("\n"), 13)
        status, out, error = said("remove", "-r", "14", self.good)
        self.assertEqual((status, out, error), (1, b"", f"{self.good}: no row 14: the sheet has 14, counted from 0\n"))

    def test_cml_and_svg(self):
        self.assertEqual(said("cml", self.good)[1].count(b"<LINEA "), 2)
        self.assertEqual(said("svg", "-d", self.folder, self.good)[0], 0)
        self.assertIn("good.svg", self.names())

    def test_an_unlisted_code_cannot_be_written(self):
        odd = self.put("odd.cxf", made.Paper().symbol(99, (0, 0)).file())
        self.assertEqual(said("clean", "--loose", "-o", self.folder / "x.cxf", odd)[2],
                         f"{odd}:4: refused 10: a code that no table lists\n        = SIMBOLO of code 99, row 0\n")
        self.assertNotIn("x.cxf", self.names())


class Masks(Case):
    def test_mask(self):
        png = self.folder / "roofs.png"
        self.assertEqual(said("mask", "-o", png, self.good), (0, f"{png}: borders 1, cells 200 x 160 of 0.5 m, covered 5200\n".encode(),
                                                            f"{self.good}: a scanned sheet: what its image alone shows is not in the mask\n"))
        self.assertEqual((self.folder / "roofs.pgw").read_text().split()[4:], ["0.2500", "79.7500"])
        status, out, _ = said("mask", "-o", "-", self.good)
        self.assertEqual(out, png.read_bytes())
        self.assertIn(b"cells 4 x 2 of 10 m, covered 8", said("mask", "--corner", "0,70", "--size", "4x2", "--cell", 10, "-c", "parcel", "-o", png, self.good)[1])
        self.assertIn(b": borders 2,", said("mask", "-r", 4, 1, "-o", png, self.good)[1])
        self.assertIn(b": borders 3,", said("mask", "-r", 4, "-c", "road", "-c", "WATER", "-o", png, self.good)[1])

    def test_what_cannot_be_drawn_leaves_no_file(self):
        scanned = self.put("scanned.cxf", made.Paper().border(made.NAME, made.rectangle(0, 0, 6_000, 4_000)).text("7", (0, 0), size=0)
                           .image("A.TIF", [(0, 0)] * 4).file())
        lost = self.put("lost.cxf", made.Paper().border("7+", made.rectangle(0, 0, 1_000, 1_000)).file())
        png = self.folder / "x.png"
        for words in ((scanned,), ("--corner", "0,4", "--size", "4x4", scanned), (lost,), ("-r", "5", self.good), ("-r", "99", self.good),
                      ("-c", "OTHER", self.good), ("--cell", "0.001", self.good), ("--corner", "200,70", "--size", "4x4", self.good)):
            with self.subTest(words):
                status, out, error = said("mask", "-o", png, *words)
                self.assertEqual((status, out), (1, b""))
                self.assertTrue(error.startswith(str(words[-1])), error)
                self.assertNotIn("x.png", self.names())


class Packages(Case):
    def test_two_sheets(self):
        self.assertEqual(said("gpkg", "-o", self.folder / "both.gpkg", self.good, made.SAMPLE), (0, b"", ""))
        self.assertTrue((self.folder / "both.gpkg").read_bytes().startswith(b"SQLite format 3"))
        self.assertEqual(said("gpkg", "-o", "-", self.good)[1][:15], b"SQLite format 3")

    def test_a_refused_sheet_leaves_the_old_one(self):
        old = self.put("both.gpkg", b"old")
        before = self.names()
        status, out, error = said("gpkg", "-o", old, self.good, self.bare)
        self.assertEqual((status, out, error.splitlines()[-1]), (1, b"", f"cxf: {old} is not written"))
        self.assertEqual((self.names(), old.read_bytes()), (before, b"old"))
        self.assertEqual(said("gpkg", "-o", self.folder / "no" / "x.gpkg", self.good)[0], 2)


class Streams(Case):
    def test_standard_input_and_output(self):
        bare = self.bare.read_bytes()
        self.assertEqual(said("clean", "--loose", "-o", "-", "-", given=bare), (0, made.every_kind(), ""))
        self.assertEqual(said("check", "-", given=bare)[2].splitlines()[0][:29], "standard input:1:6: refused 3")
        self.assertEqual(said("clean", "--loose", "-d", self.folder, "-", given=bare)[0], 0)
        self.assertIn("stdin.cxf", self.names())

    def test_a_full_disk(self):
        full = "No space left on device"
        for name in ("clean", "gpkg"):
            self.assertEqual(said(name, "-o", "/dev/full", self.good), (2, b"", f"cxf: /dev/full: {full}\n"))
        with open("/dev/full", "wb") as out:
            process = program("rows", self.good, stdout=out)
            self.assertEqual((process.communicate()[1].decode(), process.returncode), (f"cxf: standard output: {full}\n", 2))

    def test_streams_that_are_closed(self):
        with mock.patch.object(sys, "stdout", None):
            self.assertEqual(command.main(["check", "-q", str(self.good)]), 0)
            with mock.patch.object(sys, "stderr", None):
                self.assertEqual(command.main(["list", str(self.good)]), 2)
        with mock.patch.object(sys, "stdin", None), mock.patch.object(sys, "stderr", io.StringIO()) as error:
            self.assertEqual((command.main(["check", "-"]), error.getvalue()), (2, "cxf: standard input: it is closed\n"))
        with mock.patch.object(sys, "stderr", mock.Mock(write=mock.Mock(side_effect=OSError), isatty=lambda: False)):
            self.assertEqual(command.main(["check", str(self.bare)]), 1)

    def test_nothing_half_written_is_left(self):
        old = self.put("out.png", b"old")
        before = self.names()
        limits = resource.getrlimit(resource.RLIMIT_FSIZE)
        resource.setrlimit(resource.RLIMIT_FSIZE, (40, limits[1]))
        try:
            self.assertEqual(said("mask", "-o", old, self.good), (2, b"", f"cxf: {old}: File too large\n"))
        finally:
            resource.setrlimit(resource.RLIMIT_FSIZE, limits)
        self.assertEqual((self.names(), old.read_bytes()), (before, b"old"))
        world = self.folder / "out.pgw"
        world.mkdir()
        self.assertEqual(said("mask", "-o", old, self.good), (2, b"", f"cxf: {world}: Is a directory\n"))
        self.assertEqual((self.names(), old.read_bytes()), (sorted([*before, "out.pgw"]), b"old"))

    def test_nothing_half_written_is_left_by_a_program_that_is_ended(self):
        before = self.names()
        fifo = self.folder / "fifo"
        os.mkfifo(fifo)
        held = os.open(fifo, os.O_RDWR)  # whoever reads it waits, and nobody else does
        self.addCleanup(os.close, held)
        process = program("gpkg", "-o", self.folder / "both.gpkg", self.good, fifo)
        while not any(self.folder.glob("both.gpkg.*")) and process.poll() is None:
            time.sleep(0.05)
        process.terminate()
        self.assertEqual((process.communicate()[1], process.returncode), (b"", 143))
        fifo.unlink()
        self.assertEqual(self.names(), before)

    def test_a_closed_pipe(self):
        town = self.put("town.cxf", made.town(2, 1))
        process = program("rows", "--wkt", *[town] * 32, stdout=subprocess.PIPE)
        process.stdout.readline()
        process.stdout.close()
        self.assertEqual((process.stderr.read(), process.wait()), (b"", 2))
        process.stderr.close()

    def test_several_at_a_time(self):
        sheets = [self.put(f"{number}.cxf", made.town(1, number)) for number in (2, 1)] + [self.bare, self.folder / "none.cxf"]
        self.assertEqual(said("list", "-j", 3, *sheets), said("list", *sheets))
        self.assertEqual(said("mask", "-j", 2, "-d", self.folder, *sheets[:2])[1].count(b" of 0.5 m"), 2)
        self.assertEqual([name for name in self.names() if name.endswith(".png")], ["1.png", "2.png"])

    def test_progress_on_a_terminal(self):
        self.assertEqual(said("check", "-q", self.good, self.good, error=Terminal()), (0, b"", "\r\x1b[K1 of 2 sheets\r\x1b[K"))
        self.assertEqual(said("check", "-q", self.good, error=Terminal()), (0, b"", ""))


if __name__ == "__main__":
    unittest.main()
