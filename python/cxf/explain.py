"""Refusals as compilers print them: FILE:LINE:COLUMN, the line itself with a caret, what was due there, and which mode takes the sheet."""

from .due import Lines, due_at
from .layout import KINDS, LISTED, records, ring_name
from .refusal import Refused
from .sheet import Exact, Former, Loose, Sheet
from .units import metres

_MODES = {Exact: "exact mode", Loose: "loose mode", Former: "former reading"}
_WIDER = {Exact: (Loose, Former), Loose: (Former,), Former: ()}
_FORMS = {
    ("integer", Exact): "a whole number of 4 characters, right aligned",
    ("integer", Loose): "a whole number of at most 4 digits and nothing but blanks behind it",
    ("integer", Former): "a whole number of at most 4 digits",
    ("real", Exact): "a number of 12 characters, right aligned, with 3 decimals",
    ("real", Loose): "a number of at most 12 characters with 3 decimals and nothing but blanks behind it",
    ("real", Former): "a number of at most 12 characters with 3 decimals",
}
_MARGIN = 8
_SHOWN = 100  # characters of a long line


def reading(refused, file, source, mode):
    """Why a mode does not take a file's bytes."""
    if refused.record is None:
        return f"{file}: refused {refused.number}: {refused.meaning}"
    at = refused.record - 1
    lines = Lines(source, refused.offset)
    due = due_at(lines, at)
    ended = refused.offset == len(source)
    text, column = ("the file ends here, before its EOF", 1) if ended else _FINDINGS[refused.number](lines[at], due, mode)
    notes = [f"{due}; byte {refused.offset}"]
    if refused.number == 12:
        notes.append(f"the ring's first vertex is {lines.text(due.ring)} {lines.text(due.ring + 1)}, at line {due.ring + 1}")
    notes += [f"--{wider.name.lower()} takes this sheet" for wider in _WIDER[mode] if Sheet.accepts(source, wider)][:1]
    return "\n".join([f"{file}:{refused.record}:{refused.column or column}: refused {refused.number}: {text}",
                      *([] if ended else _numbered(refused.record, lines[at], refused.column or column)), *map(_note, notes)])


def question(refused, file, sheet):
    """Why a question on a sheet was refused."""
    text = f"refused {refused.number}: {refused.meaning}"
    if refused.row is not None:
        row = sheet.rows[refused.row]
        return f"{file}:{row.line}: {text}\n{_note(described(row))}"
    return f"{file}: {text}" + (f"\n{_note(f'line {refused.line} of the SUP file')}" if refused.line else "")


def crossing(file, border, ring, edges):
    """Two edges of a ring that share a point, or one of no length."""
    rings, islands = border.rings(), len(border.island_counts)
    first = sum(map(len, rings[:ring]))
    lines = [border.line + records("BORDO", islands, first + edge) for edge in edges]
    drawn = []
    for edge, line in sorted(set(zip(edges, lines))):
        ends = " to ".join(",".join(map(metres, point)) for point in rings[ring][edge:edge + 2])
        drawn.append(f"{line:{_MARGIN - 1}} | edge {edge + 1} from {ends}")
    found = f"edge {edges[0] + 1} has no length" if len(drawn) == 1 else f"edge {edges[0] + 1} meets edge {edges[1] + 1}"
    return "\n".join([f"{file}:{lines[0]}: not simple: {found}", *drawn, _note(f"{ring_name(ring)} of {described(border)}")])


def sup(refused, sup_file, source, sheet):
    """Which line of a SUP file is wrong, and what the sheet gives there."""
    given = _line_of(source, refused.line)
    found = f"{sup_file}:{refused.line}: refused {refused.number}: {refused.meaning if given else 'a line is missing'}"
    notes = [_note("the line does not end in CR LF")] if given and not given.endswith(b"\r") else []
    return "\n".join([found, *_numbered(refused.line, given.rstrip(b"\r")), f"{'sheet':>{_MARGIN - 1}} | {_own_line(sheet, refused.line)}", *notes])


def described(row):
    """An element in some words: PARCEL "17", row 3."""
    kind = row.cls if row.kind == "BORDO" else row.kind
    called = f'"{row.letters}"' if row.letters else f"of code {row.code}"
    return f"{kind} {called}, row {row.index}"


def _line_of(text, line):
    """A line of some bytes, from 1, with its CR; none where it is missing."""
    return b"".join(text.split(b"\n")[line - 1:line])


def _own_line(sheet, line):
    """A line of the sheet's own SUP file. Any date is right, so none is shown."""
    date = "20000101"
    try:
        own = _line_of(sheet.sup(date), line).decode("ascii").rstrip("\r")
    except Refused as refused:
        return f"({refused})"
    return own.replace(date, "YYYYMMDD") if line == 1 else own or "(nothing more)"


def _numbered(line, content, column=None):
    """A line of a file with its number, and a caret under a column; of a long line the part about that column."""
    first = max(0, column - 1 - _SHOWN // 2) if column and len(content) > _SHOWN else 0
    shown = [f"{line:{_MARGIN - 1}} | {_printable(content[first:first + _SHOWN])}"]
    return shown + ([f"{'':{_MARGIN}}| {'^':>{column - first}}"] if column else [])


def _note(text):
    return f"{'':{_MARGIN}}= {text}"


def _printable(content):
    return "".join(chr(byte) if 32 <= byte <= 126 else "?" for byte in content)


# What is wrong with the content of a record, and at which column, by the refusal's number.

def _cut(content, due, mode):
    return "the file is cut off: this line has no end", len(content) + 1


def _line_end(content, due, mode):
    return "the line ends in LF alone, without CR (exact mode)", len(content) + 1


def _length(content, due, mode):
    return f"a line of {len(content)} bytes, where 255 are the most", 256


def _byte(content, due, mode):
    at = next(at for at, byte in enumerate(content) if not 32 <= byte <= 126)
    return f"byte {content[at]} is no printable ASCII character", at + 1


def _header(content, due, mode):
    if due.field == "scale":
        return "a scale that is not above 0", _begin(content)
    wanted = {"first word": "MAPPA, MAPPA FONDIARIO or QUADRO D'UNIONE",
              "name of the sheet": "a name like H282B0001A0, or H282B0128QU of a QUADRO D'UNIONE"}[due.field]
    if mode is Exact and content.strip(b" ") != content:
        return f"not {wanted}, with no blank before or behind it (exact mode)", _end_blank(content)
    return f"not {wanted}", 1


def _keyword(content, due, mode):
    if mode is Exact and content.strip(b" ") != content and content.strip(b" ").rstrip(b"\\").decode("ascii") in (*KINDS, "EOF"):
        return "a keyword with a blank before or behind it (exact mode)", _end_blank(content)
    return f"not a keyword: {', '.join(KINDS)} or EOF", _begin(content)


def _number(content, due, mode):
    return f"not {_FORMS[due.form, mode]} ({_MODES[mode]})", 1  # the library says the column


def _letters(content, due, mode):
    if not content.strip(b" "):
        return "no letters", 1
    return "letters with a blank before or behind them (exact mode)", _end_blank(content)


def _code(content, due, mode):
    return f"code {content.decode('ascii').strip()} is not listed (exact mode; listed: {LISTED[due.section.kind]})", _begin(content)


def _count(content, due, mode):
    if due.section.kind != "BORDO":
        return "a line has at least 2 vertices", _begin(content)
    if due.field == "number of vertices":
        return "a border has at least 4 vertices, and 4 more for each island", _begin(content)
    return "an island has at least 4 vertices, and leaves 4 to the outer ring", _begin(content)


def _open_ring(content, due, mode):
    return "the ring is open: its last vertex is not its first", _begin(content)


def _after_eof(content, due, mode):
    return "something follows EOF (exact mode)", 1


def _begin(content):
    """The column of the first byte that is no blank."""
    return len(content) - len(content.lstrip(b" ")) + 1


def _end_blank(content):
    """The column of the first blank at an end."""
    return 1 if content.startswith(b" ") else len(content.rstrip(b" ")) + 1


_FINDINGS = {2: _cut, 3: _line_end, 4: _length, 5: _byte, 6: _header, 7: _keyword, 8: _number, 9: _letters, 10: _code, 11: _count,
             12: _open_ring, 13: _after_eof}
