"""The sections of a file: which records follow each keyword, in their order (document 01, Sections; T-05 of document 02)."""

KINDS = ("BORDO", "TESTO", "SIMBOLO", "FIDUCIALE", "LINEA", "RIFERIMENTO_RASTER", "LIBRETTO")

# The records between the keyword and the counts of the islands, then come the vertices.
FIELDS = {
    "BORDO": ("letters", "size", "angle", "x", "y", "x of the inner point", "y of the inner point", "number of islands", "number of vertices"),
    "TESTO": ("letters", "size", "angle", "x", "y"),
    "SIMBOLO": ("code", "angle", "x", "y"),
    "FIDUCIALE": ("letters", "code", "x", "y", "x of the label", "y of the label"),
    "LINEA": ("code", "number of vertices"),
    "RIFERIMENTO_RASTER": ("letters",),
    "LIBRETTO": ("letters", "code", "number of vertices"),
}
INTEGERS = ("size", "code", "number of islands", "number of vertices")
UNCOUNTED = {"RIFERIMENTO_RASTER": 4}  # vertices that no record counts
LISTED = {"SIMBOLO": "1-11, 13-16, 20", "FIDUCIALE": "8, 20", "LINEA": "1, 5, 6, 11, 12, 29-35", "LIBRETTO": "1"}
HEADER = ("first word", "name of the sheet", "scale")
FIRST_LINE = len(HEADER) + 1  # of the first keyword


def records(kind, islands, vertices):
    """How many lines a section takes, its keyword counted; so many come before the x of its vertex `vertices`, from 0."""
    return 1 + len(FIELDS[kind]) + islands + 2 * vertices


def ring_of(counts, vertices, vertex):
    """The ring that a vertex (from 0) of a border belongs to: ring, its first vertex, how many it has. Ring 0 is the outer one."""
    first, size = 0, vertices - sum(counts)
    for ring in range(len(counts) + 1):
        if vertex < first + size or ring == len(counts):
            return ring, first, size
        first, size = first + size, counts[ring]


def ring_name(ring):
    return f"island {ring}" if ring else "the outer ring"
