#!/usr/bin/env python3
"""Counts the places in src/ where a form of the older language stands, point by point, as docs/DESIGN-PASS.md has them.

usage: forms.py [-v] [TREE]      the repository at TREE, else the one it stands in; -v names each place
"""

import collections
import pathlib
import re
import sys

VERBOSE = "-v" in sys.argv[1:]
TREES = [a for a in sys.argv[1:] if not a.startswith("-")]
ROOT = pathlib.Path(TREES[0]) if TREES else pathlib.Path(__file__).resolve().parent.parent
# What C sees: its structs and exports have the numbers and the lent tables one by one.
C_SIDE = ("told", "cabi", "cabi_c")
ENUM = re.compile(r"^(?:pub(?:\(crate\))? )?enum (\w+)[^{]*\{\n(.*?)^\}", re.M | re.S)
TOKEN = re.compile(r"b?'(?:\\.|[^'\\])'|b?\"(?:\\.|[^\"\\])*\"|\w+|[^\w\s]")
KEYWORDS = set("fn let mut if else while loop match return for in true false as pub struct enum impl self break continue u8 u16 u32 u64 usize i64 bool f32".split())

# What a line, or a function's parameters and result, have where an older form stands; the last says whether C's side counts too.
LINES = [
    ("1 refusals as numbers, C's structs apart", re.compile(r"\bnumber: usize"), False),
    ("3 loops that count by hand", re.compile(r"^\s*(?:while |loop \{|'\w+: (?:while|loop))"), True),
    ("4 a test turned into true and false", re.compile(r"\{ (?:true|false) \} else \{ (?:true|false) \}"), True),
    ("4 a field copied out to be used", re.compile(r"^\s*let (\w+) = \w+\.\1;"), True),
]
HEADS = [
    ("5 the four tables side by side", re.compile(r"(?s)rows: &\[i64\].*points: &\[i64\]"), False),
    ("5 a ring as a table, a vertex and a count", re.compile(r"points: &\[i64\][^)]*from: usize,\s*count: usize"), True),
    ("6 a buffer and the place in it", re.compile(r"out: &mut \[u8\],\s*at: usize"), True),
    ("7 functions as values", re.compile(r"\b(?:dyn|impl Fn|fn\()"), True),
]


def bare(text):
    return re.sub(r"//[^\n]*", "", text)


def functions(text):
    """The name, parameters, result and body of each function, by braces."""
    for m in re.finditer(r"^([ \t]*)(?:pub(?:\(crate\))? )?(?:extern \"C\" )?fn (\w+)", text, re.M):
        depth = 0
        begin = None
        i = m.end()
        in_clause = 0
        while i < len(text):
            line = text[text.rfind("\n", 0, i) + 1 : i]
            c = text[i]
            if c == "{":
                if depth == 0 and not re.search(r"\b(?:requires|ensures)\b[^{]*$", line):
                    begin = i
                    depth = 1
                elif begin is None:
                    in_clause += 1
                    depth += 1
                else:
                    depth += 1
            elif c == "}":
                depth -= 1
                if begin is not None and depth == 0:
                    break
            i += 1
        if begin is not None:
            yield m[2], text[m.end() : begin], text[begin : i + 1], text.count("\n", 0, m.start()) + 1


def shape(tokens):
    """The tokens with each name and number by the order in which it comes first."""
    seen = {}
    out = []
    for t in tokens:
        if t in KEYWORDS or not re.match(r"[\w'\"]", t):
            out.append("T" if t in ("u8", "u16", "u32", "u64", "usize", "i64") else t)
        else:
            out.append("#%d" % seen.setdefault(t, len(seen)))
    return tuple(out)


def sources():
    for path in sorted(ROOT.glob("crates/*/src/**/*.rt")):
        crate = path.relative_to(ROOT / "crates").parts[0]
        yield crate, path.relative_to(ROOT), bare(path.read_text())


def main():
    found = collections.OrderedDict()

    def place(point, where):
        found.setdefault(point, []).append(where)

    shapes = collections.defaultdict(list)
    for crate, path, text in sources():
        inner = crate not in C_SIDE
        for m in ENUM.finditer(text):
            if re.search(r"^    \w+ ?[({]", m[2], re.M):
                place("1 enums with a value in a case", "%s %s" % (path, m[1]))
        for n, line in enumerate(text.split("\n"), 1):
            here = "%s:%d" % (path, n)
            for point, form, everywhere in LINES:
                if (inner or everywhere) and form.search(line):
                    place(point, here)
            if path.name == "refusal.rt" and re.match(r"pub const [A-Z_]+: usize", line):
                place("1 refusals as numbers, C's structs apart", here)
        for name, head, body, n in functions(text):
            here = "%s:%d %s" % (path, n, name)
            tokens = TOKEN.findall(body)
            if crate not in ("cabi", "cabi_c") and len(tokens) >= 24:
                shapes[shape(tokens)].append(here)
            if re.search(r"-> bool\b", head) and "&mut [" in head and inner:
                place("1 true or false beside a table that is lent", here)
            for point, form, everywhere in HEADS:
                if (inner or everywhere) and form.search(head):
                    place(point, here)
            if re.match(r"\{\s*\w+ as \w+\s*\}$", body):
                place("2 the same conversion again", here)
        for m in re.finditer(r"^(?:pub )?const (\w+)_STARTS: ", text, re.M):
            place("6 a list and where each part of it begins", "%s %s_STARTS" % (path, m[1]))
    for alike in shapes.values():
        if len(alike) > 1:
            place("2 bodies of one shape", " = ".join(alike))
    answers = list(ROOT.glob("crates/*/proofs/**/Answers.antt"))
    lines = sum(len(p.read_text().split("\n")) - 1 for p in answers)
    proofs = sum(len(p.read_text().split("\n")) - 1 for p in ROOT.glob("crates/*/proofs/**/*.antt"))
    for point in sorted(found):
        print("%4d  %s" % (len(found[point]), point))
        if VERBOSE:
            for where in found[point]:
                print("          " + where)
    print("%4d  8 files of answers, %d lines of them; %d lines of proofs" % (len(answers), lines, proofs))


main()
