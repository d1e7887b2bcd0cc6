"""What the commands cost, in processor seconds: on a sheet of 12 MB, and on towns, with the sum for all of Italy.

    cd python && ../.ci/python -m tests.measure [TOWNS]"""

import os
import resource
import sys
import tempfile
import time
from pathlib import Path

from . import made
from .test_command import program, said

SHEETS = 300_000  # of Italy, some


def seconds(*words):
    """The processor's time for a command in this process."""
    start = time.process_time()
    status, _, error = said(*words)
    assert status == 0, error
    return time.process_time() - start


def start():
    """The processor's time for the start of the program and its end."""
    before = resource.getrusage(resource.RUSAGE_CHILDREN)
    program("check", "-q", made.SAMPLE).communicate()
    after = resource.getrusage(resource.RUSAGE_CHILDREN)
    return after.ru_utime + after.ru_stime - before.ru_utime - before.ru_stime


def large_sheet():
    source = made.large(12_000_000)
    Path("large.cxf").write_bytes(source)
    print(f"a sheet of {len(source):,} bytes, seconds:")
    for words in ("check", "check --rings", "list", "rows", "rows --wkt", "clean -o F.cxf", "sup --date 20261115 -o F.sup", "mask -o F.png",
                  "svg -o F.svg", "gpkg -o F.gpkg"):
        print(f"  {words:32}{seconds(*words.split(), 'large.cxf'):8.2f}")


def all_of_italy(count):
    towns = [f"{seed}.cxf" for seed in range(count)]
    for seed, town in enumerate(towns):
        Path(town).write_bytes(made.town(11, 11, seed))
    print(f"{count} towns of {size(towns) / count:,.0f} bytes; each, and {SHEETS:,} of them:")
    for name, words in (("check", ()), ("clean", ("-d", "clean")), ("mask", ("-d", "mask")), ("gpkg", ("-o", "gpkg/F.gpkg"))):
        os.makedirs(name)
        each = seconds(name, *words, *towns) / count
        written = size(Path(name).iterdir()) / count
        print(f"  {name:8}{each:10.4f} s{written:12,.0f} bytes{each * SHEETS / 3600:8.1f} hours{written * SHEETS / 1e9:8.0f} GB")
    began = min(start() for _ in range(5))
    print(f"  a start {began:10.4f} s{began * SHEETS / 3600:29.1f} hours")


def size(paths):
    return sum(os.path.getsize(path) for path in paths)


if __name__ == "__main__":
    with tempfile.TemporaryDirectory() as folder:
        os.chdir(folder)
        large_sheet()
        all_of_italy(int(sys.argv[1]) if len(sys.argv) > 1 else 40)
