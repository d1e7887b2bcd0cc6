#!/usr/bin/env python3
"""Spells this repository's own definitions, lemmas and bound names in snake case, as `rowWidth` to `row_width`.

usage: respell.py        at the top of the repository, once, after the kit's port.py

It turns each whole word that begins with a small letter and has a capital further on, in every .antt and .rt file and every must-fail edit below crates/,
but not in quoted text or a quoted byte. A word ends at a dash, so `getD-last` becomes `get_d-last`. A name that would meet one which its file has already is told apart first (MET).
A second run changes nothing.
"""

import pathlib
import re

# In this file the name on the left is there already and has a meaning of its own beside that of the turned one.
MET = {
    "writer/proofs/RowFacts.antt": ("cell_in", "cell_in_lem"),
    "permits/proofs/Borders.antt": ("text_at", "text_contract"),
    "cursor/proofs/CursorLaws.antt": ("too_long", "too_long_lem"),
    "cursor/proofs/next/Proof.antt": ("place_after", "place_contract"),
    "made/proofs/OwnLaws.antt": ("made_by", "made_by_lem"),
    "order/specs/Examples.antt": ("by_bytes", "by_bytes_lem"),
}
WORD = re.compile(r"(\"(?:[^\"\\\n]|\\.)*\"|\bb'(?:\\.|[^'\\])')|(?<!\w)[^\W\d][\w']*")


def snake(name):
    name = re.sub(r"(?<=[a-z0-9])([A-Z]+)(?![a-z])", lambda m: "_" + m[1].lower(), name)
    return re.sub(r"[A-Z]", lambda m: "_" + m[0].lower(), name)


def turned(match):
    word = match[0]
    return snake(word) if not match[1] and re.match(r"[a-z][\w']*[A-Z]", word) else word


def bare(name):
    # not behind a dot, in a path or as a field, but for a `use` line's braces
    return re.compile(rf"(?<![\w'.-]){name}(?![\w'-])")


def main():
    crates = pathlib.Path("crates")
    for path in sorted(p for p in crates.rglob("*") if p.suffix in (".antt", ".rt", ".edit") and "out" not in p.parts):
        text = path.read_text(encoding="utf-8")
        new = text
        met = MET.get(path.relative_to(crates).as_posix())
        if met and met[1] not in text:
            new = bare(met[0]).sub(met[1], new)
        new = WORD.sub(turned, new)
        if new != text:
            path.write_text(new, encoding="utf-8")


if __name__ == "__main__":
    main()
