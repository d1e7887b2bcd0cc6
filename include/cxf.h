/* cxf.h: reads, writes, questions, alters and converts CXF sheets of the Italian cadastre.
 *
 * Link with libcxf.a or libcxf.so (see README.md). Every function answers for every input, allocates nothing, keeps nothing
 * between calls and has no state, so calls may run side by side.
 *
 *   A slice     is a pointer and a length, in that order. The length counts elements, not bytes. A slice of length 0 is
 *               not touched, whatever its pointer. No slice that is written may overlap another slice of the same call.
 *   An answer   is a struct by value. `number` is 0 where the question was answered, else the refusal (the list below).
 *               A field that the answer does not name is 0.
 *   A refusal   alters nothing that was lent.
 *   Numbers     are in thousandths where a file has decimals: a scale of 1000.000 is 1000000, and a coordinate in metres
 *               is one in millimetres.
 *   Stack       is said of each function in bytes, on x86-64: all that a call takes below the frame that calls, its arguments and its
 *               answer counted, the most over a small and a giant sheet (bench/stack). A host with little stack links with
 *               -Wl,-z,now: else the first call of a function by its name, memcpy's too, has the dynamic linker look it up
 *               there, once, with some 3,600 bytes.
 */
#ifndef CXF_H
#define CXF_H

#include <stddef.h>
#include <stdint.h>

#ifdef __cplusplus
extern "C" {
#endif

/* ---- the interface's number ------------------------------------------------------------------------------------------ */

/* It rises whenever a struct, a width or a meaning changes. A program that was compiled with one number, or a binding that was
   written for one, is to refuse a library that answers another, rather than read rows wrongly:
       if (cxf_interface() != CXF_INTERFACE) ..
   What changed with 4: mode 2, which was exact, is the former reading, and loose mode refuses a note behind a number (8). With 3: a row has
   15 numbers. With 2: cxf_reading and cxf_number say the column. */
#define CXF_INTERFACE 4

/* The library's number. Stack: 24 bytes. */
uint64_t cxf_interface(void);

/* ---- limits ---------------------------------------------------------------------------------------------------------- */

enum {
    CXF_FILE_MOST = 16777216,    /* bytes of a file */
    CXF_CONTENT_MOST = 255,      /* bytes of a record, its line end apart */
    CXF_NAME_LENGTH = 11,        /* bytes of a sheet's name */
    CXF_INTEGER_MOST = 9999,     /* an integer is 0 to this */
    CXF_FIGURES = 24,            /* figures of a tally */
    CXF_REACH = 20000000,        /* millimetres from a ring's first vertex, in x and in y, for areas, tallies, SUP files, ring check and masks */
    CXF_TILE_MOST = 16777215,    /* millimetres from a tile's corner, to the east and to the south */
    CXF_MASK_SIDE = 64,          /* rows of a mask, and cells of a row */
    CXF_CELL_MOST = 10000,       /* millimetres of a cell's side, from 1 on */
    CXF_MASK_REACH = 40000000,   /* millimetres from a mask's corner to a vertex of its border, in x and in y */
    CXF_LISTING_MOST = 640,      /* bytes of a listing's text */
    CXF_LISTING_FILE_MOST = 8192, /* bytes of a file that is listed or converted */
    CXF_CONVERT_MOST = 53248     /* bytes of a conversion's text */
};

/* A real, in thousandths, is CXF_REAL_LEAST to CXF_REAL_MOST; a figure of a tally 0 to CXF_TALLY_MOST. */
#define CXF_REAL_LEAST (-INT64_C(9999999999))
#define CXF_REAL_MOST INT64_C(99999999999)
#define CXF_TALLY_MOST INT64_C(9000000000000000000)
/* A part of a move, in millimetres, either way: what the real range is wide. */
#define CXF_MOVE_MOST INT64_C(109999999998)

/* What a file of n bytes can need at most, read in any mode: rows, letters, island counts, points. Who lends so much needs no
   call that asks for the needs, which judges the whole file once more. Proved: `counts-most`, `enough-read` in
   crates/reader/proofs/NeedLaws.antt. Rows and points are counted here, numbers in a length: rows_len is CXF_ROWS_MOST(n) * CXF_ROW,
   and points_len CXF_POINTS_MOST(n) * 2. */
#define CXF_ROWS_MOST(n) ((n) / 28)
#define CXF_LETTERS_MOST(n) (n)
#define CXF_ISLANDS_MOST(n) ((n) / 2)
#define CXF_POINTS_MOST(n) ((n) / 12)

/* ---- refusals -------------------------------------------------------------------------------------------------------- */

enum {
    CXF_TOO_LONG = 1,   /* the file has, or would have, more than 16,777,216 bytes */
    CXF_CUT = 2,        /* no line end: the file is cut off */
    CXF_LINE_END = 3,   /* exact mode: no CR before the LF */
    CXF_LENGTH = 4,     /* a record of more than 255 bytes */
    CXF_BYTE = 5,       /* a byte that is not 32 to 126 */
    CXF_HEADER = 6,     /* a wrong first word, name or scale; of a sheet handed in also a wrong kind */
    CXF_KEYWORD = 7,    /* not a keyword, where one is due */
    CXF_NUMBER = 8,     /* a malformed number, or one with a note behind it (the former mode takes notes) */
    CXF_LETTERS = 9,    /* empty letters; exact mode: a blank at an end */
    CXF_CODE = 10,      /* an unlisted code (exact reading, writing) */
    CXF_COUNT = 11,     /* a count of vertices or islands that cannot be */
    CXF_OPEN_RING = 12, /* a ring whose last vertex is not its first */
    CXF_AFTER_EOF = 13, /* exact mode: something follows EOF */
    CXF_NO_ROOM = 14,   /* what was lent is too short: the answer says what is needed */
    CXF_NOT_MADE = 15,  /* the sheet handed in could not come from a reading: the answer names the row */
    CXF_TOO_WIDE = 17,  /* a ring with a vertex more than 20,000,000 mm from its first, in x or in y */
    CXF_TOO_LARGE = 18, /* a figure of a tally, or TOTALE of a SUP file, beyond 9,000,000,000,000,000,000 */
    CXF_NO_SUCH = 19,   /* no such row, border or ring */
    CXF_OFF_TILE = 20,  /* outside the tile frame; a mask's grid that leaves the real range, or a vertex more than 40,000,000 mm from its corner */
    CXF_BAD_DATE = 21,  /* a SUP file's date that is not eight digits, with a month 01 to 12 and a day 01 to 31 */
    CXF_LONG_CODE = 22, /* a SUP file would list a border whose code has more than 11 letters: the answer names the row */
    CXF_WIDE_FIGURE = 23, /* a figure of a SUP file has more than 10 characters: the answer names the line */
    CXF_MOVED_OFF = 24, /* a move of more than 109,999,999,998 mm, or one that takes a coordinate out of the real range */
    CXF_WRONG_LINE = 25, /* a SUP file is not one for the sheet: the answer names its first wrong line */
    CXF_BAD_SIDE = 26   /* a mask's cell side that is not 1 to 10,000 mm */
};

/* The same in a sentence, for a message. */
static inline const char *cxf_refusal_text(uint64_t number)
{
    switch (number) {
    case CXF_TOO_LONG: return "The file has, or would have, more than 16,777,216 bytes.";
    case CXF_CUT: return "The file is cut off: a record has no line end.";
    case CXF_LINE_END: return "A record does not end with CR LF.";
    case CXF_LENGTH: return "A record has more than 255 bytes.";
    case CXF_BYTE: return "A record holds a byte that is not a printed ASCII character.";
    case CXF_HEADER: return "The header is wrong: its first word, its name or its scale.";
    case CXF_KEYWORD: return "There is no keyword where one is due.";
    case CXF_NUMBER: return "A number is malformed.";
    case CXF_LETTERS: return "The letters are empty, or have a blank at an end.";
    case CXF_CODE: return "A code is not listed in the specification.";
    case CXF_COUNT: return "A count of vertices or islands cannot be.";
    case CXF_OPEN_RING: return "A ring does not end where it began.";
    case CXF_AFTER_EOF: return "Something follows EOF.";
    case CXF_NO_ROOM: return "What was lent is too short.";
    case CXF_NOT_MADE: return "The sheet handed in is not well made.";
    case CXF_TOO_WIDE: return "A ring has a vertex more than 20,000,000 mm from its first.";
    case CXF_TOO_LARGE: return "A figure of a tally, or the total of a SUP file, is beyond 9,000,000,000,000,000,000.";
    case CXF_NO_SUCH: return "There is no such row, border or ring.";
    case CXF_OFF_TILE: return "The point lies outside the tile, or the border too far from the mask's corner.";
    case CXF_BAD_DATE: return "The date of a SUP file is not eight digits with a month and a day.";
    case CXF_LONG_CODE: return "The code of a border that a SUP file lists has more than 11 letters.";
    case CXF_WIDE_FIGURE: return "A figure of a SUP file has more than 10 characters.";
    case CXF_MOVED_OFF: return "The move is too far, or takes a coordinate out of the real range.";
    case CXF_WRONG_LINE: return "A line of the SUP file is not right for the sheet.";
    case CXF_BAD_SIDE: return "The side of a mask's cells is not 1 to 10,000 mm.";
    default: return "This is not a refusal of this interface.";
    }
}

/* ---- modes ----------------------------------------------------------------------------------------------------------- */

/* Every mode gives a file that it takes the same meaning: what exact takes, loose takes as the same sheet, and what loose takes, former does.
     CXF_LOOSE   takes what is met in practice: an LF alone, an EOF with no line end, blanks at the ends of words and round numbers, a plus,
                 minus zero, needless zeros, unlisted codes, anything that follows EOF.
     CXF_EXACT   takes only the layout of the specification, which cxf_write writes. Any mode but 0 and 2 is exact, and so is a reading
                 with no mode named (cxf_read_default).
     CXF_FORMER  is loose mode as it was before notes were retired: behind a number it also takes a blank and then any note, as hand-made
                 files of the first year have them ("   1          numero isole"). It drops the note, be it a second number. Use it to
                 convert such files, or to see what they said (cxf_convert does both at once); else use CXF_LOOSE, which refuses a note
                 with 8 at its record, with the column of the note's first byte that is no blank. */
enum { CXF_LOOSE = 0, CXF_EXACT = 1, CXF_FORMER = 2 };

/* ---- reading a file -------------------------------------------------------------------------------------------------- */

/* The header's kinds: MAPPA, MAPPA FONDIARIO, QUADRO D'UNIONE. */
enum { CXF_MAPPA = 1, CXF_MAPPA_FONDIARIO = 2, CXF_QUADRO_UNIONE = 3 };

/* The kinds of an element. */
enum {
    CXF_BORDO = 1, CXF_TESTO = 2, CXF_SIMBOLO = 3, CXF_FIDUCIALE = 4, CXF_LINEA = 5,
    CXF_RIFERIMENTO_RASTER = 6, CXF_LIBRETTO = 7 /* of scanned sheets */
};

/* A row, CXF_ROW numbers for each element of the sheet. What its section lacks is 0, but that a CXF_RIFERIMENTO_RASTER, which has four
   points and no record that counts them, has 4 vertices. */
enum {
    CXF_ROW_KIND = 0,     /* CXF_BORDO to CXF_LIBRETTO */
    CXF_ROW_OUTSIDE = 1,  /* 1 where the keyword has a final backslash, else 0 */
    CXF_ROW_CODE = 2,     /* of a LIBRETTO its type of line */
    CXF_ROW_SIZE = 3,
    CXF_ROW_ANGLE = 4,
    CXF_ROW_X = 5,
    CXF_ROW_Y = 6,
    CXF_ROW_X2 = 7,       /* the inner point of a BORDO, the label of a FIDUCIALE */
    CXF_ROW_Y2 = 8,
    CXF_ROW_LETTERS = 9,  /* how many letters, island counts and vertices are this row's: they stand in the other three */
    CXF_ROW_ISLANDS = 10, /* tables in the order of the rows, with no gaps. The vertices of a BORDO are those of its outer */
    CXF_ROW_VERTICES = 11,/* ring, then those of its islands; each ring ends with the vertex it began with */
    CXF_ROW_FIRST_LETTER = 12, /* where they begin, or would begin if there are none: what the rows before have, letters, */
    CXF_ROW_FIRST_ISLAND = 13, /* island counts and points; the points of a row begin at points[2 * row[CXF_ROW_FIRST_POINT]] */
    CXF_ROW_FIRST_POINT = 14,
    CXF_ROW = 15
};

typedef struct {
    uint64_t number;
    uint64_t record, offset;                 /* the refused record, from 1, and its first byte; 0 and 0 with 1 and 14 */
    uint64_t column;                         /* with 8: where in that record the number goes wrong, from 1 (see cxf_integer); else 0 */
    uint64_t rows, letters, islands, points; /* used where number is 0, needed where it is 14 */
    uint64_t kind;                           /* the header, where number is 0: CXF_MAPPA to CXF_QUADRO_UNIONE; */
    int64_t scale;                           /* the scale in thousandths; */
    uint8_t name[CXF_NAME_LENGTH];           /* the sheet's name, with no 0 at its end */
} cxf_reading;

/* Reads a whole file into four lent tables: rows, 15 numbers each; letters; island counts; points, x and y after each other. It names no
   mode, and so takes the printed layout alone: CXF_EXACT. A sheet that goes out is read so; cxf_write then gives its very bytes again.
   The room of a table is rows_len / 15 rows, letters_len letters, islands_len counts, points_len / 2 points. CXF_ROWS_MOST and
   the three beside it are enough for any file. To learn what a file needs, ask with four lengths of 0: the answer is 14 and the
   needs (0 where the sheet has no rows). Past the used part no table is altered. Stack: 2,204 bytes. */
cxf_reading cxf_read_default(const uint8_t *src, size_t src_len,
                             int64_t *rows, size_t rows_len, uint8_t *letters, size_t letters_len,
                             uint16_t *islands, size_t islands_len, int64_t *points, size_t points_len);

/* The same in a mode that is named. Name CXF_LOOSE for work on what comes in, where every sheet is to be taken that can be understood, and
   never for a sheet that goes out. CXF_FORMER is for a file of the first year that is to be converted (see above): a file without notes
   has the same number, record and offset with it as with CXF_LOOSE. Stack: 2,204 bytes. */
cxf_reading cxf_read(const uint8_t *src, size_t src_len, uint64_t mode,
                     int64_t *rows, size_t rows_len, uint8_t *letters, size_t letters_len,
                     uint16_t *islands, size_t islands_len, int64_t *points, size_t points_len);

/* ---- a sheet that is handed in --------------------------------------------------------------------------------------- */

/* Its header, how many rows it has, and its four tables, which may be longer than the rows use. A name_len other than 11 is a
   wrong name (6). Every function below that takes a sheet takes these thirteen parameters. */
#define CXF_SHEET                                                                                        \
    uint64_t kind, const uint8_t *name, size_t name_len, int64_t scale, uint64_t count,                  \
    const int64_t *rows, size_t rows_len, const uint8_t *letters, size_t letters_len,                    \
    const uint16_t *islands, size_t islands_len, const int64_t *points, size_t points_len

/* The thirteen in one struct, and a variable of it spread into a call: cxf_border_at(CXF_SPREAD(sheet), row). */
typedef struct {
    uint64_t kind;
    const uint8_t *name;
    size_t name_len;
    int64_t scale;
    uint64_t count;
    const int64_t *rows;
    size_t rows_len;
    const uint8_t *letters;
    size_t letters_len;
    const uint16_t *islands;
    size_t islands_len;
    const int64_t *points;
    size_t points_len;
} cxf_sheet;

#define CXF_SPREAD(s)                                                                                    \
    (s).kind, (s).name, (s).name_len, (s).scale, (s).count, (s).rows, (s).rows_len,                      \
    (s).letters, (s).letters_len, (s).islands, (s).islands_len, (s).points, (s).points_len

/* What a reading answered, with the tables that it was lent, as a sheet. Its name stands in the reading, which has to be kept. */
static inline cxf_sheet cxf_sheet_of(const cxf_reading *r, const int64_t *rows, const uint8_t *letters, const uint16_t *islands,
                                     const int64_t *points)
{
    cxf_sheet s;
    s.kind = r->kind;
    s.name = r->name;
    s.name_len = CXF_NAME_LENGTH;
    s.scale = r->scale;
    s.count = r->rows;
    s.rows = rows;
    s.rows_len = (size_t)r->rows * CXF_ROW;
    s.letters = letters;
    s.letters_len = (size_t)r->letters;
    s.islands = islands;
    s.islands_len = (size_t)r->islands;
    s.points = points;
    s.points_len = (size_t)r->points * 2;
    return s;
}

/* Every question below on a sheet judges the header (6), then all rows (15, with the first faulty row), then whether
   the row that is asked for is there (19), each time anew. Rows count from 0. In the answers `row` is the refused row with 15,
   10 and 22, and with 17 and 18 of the tallies; else it is 0.

   So a question takes the time that the whole sheet takes to judge, and questions on all rows together take time that grows with
   the square of the sheet. Of a sheet that is well made, as what a reading answered is, each row may be asked alone instead, as a
   sheet of one row with its own parts of the tables: class, texts, areas, ring check and mask are the same. No other row is looked at:
       int64_t own[CXF_ROW];
       cxf_sheet alone = cxf_row_alone(sheet, 9000, own);
       .. cxf_border_at(CXF_SPREAD(alone), 0) .. */

/* A row of a sheet alone, for a sheet that is well made and has it. Its parts of the tables are found by its starts; as they begin at 0
   in a sheet of one row, its numbers are copied to own, which has to be kept as long as the answer. */
static inline cxf_sheet cxf_row_alone(cxf_sheet s, uint64_t row, int64_t own[CXF_ROW])
{
    const int64_t *from = s.rows + row * CXF_ROW;
    for (int i = 0; i < CXF_ROW; i++)
        own[i] = i < CXF_ROW_FIRST_LETTER ? from[i] : 0;
    s.count = 1;
    s.rows = own;
    s.rows_len = CXF_ROW;
    s.letters += from[CXF_ROW_FIRST_LETTER];
    s.letters_len = (size_t)from[CXF_ROW_LETTERS];
    s.islands += from[CXF_ROW_FIRST_ISLAND];
    s.islands_len = (size_t)from[CXF_ROW_ISLANDS];
    s.points += 2 * from[CXF_ROW_FIRST_POINT];
    s.points_len = (size_t)from[CXF_ROW_VERTICES] * 2;
    return s;
}

/* ---- writing a file -------------------------------------------------------------------------------------------------- */

typedef struct {
    uint64_t number, row; /* row with 15 and 10 */
    uint64_t length;      /* the bytes that were written, or that are needed with 14 */
} cxf_written;

/* Writes a sheet in the layout of the exact mode to the start of out. A file that was read in CXF_LOOSE comes out as its clean file, which
   CXF_EXACT accepts; two files come out as equal bytes exactly when they are the same sheet, header values and elements
   (examples/repeats.c). After the header (6) the rows are judged in order, each for
   15 and then for its code (10), so a 10 in row 0 comes before a 15 in row 1; then whether the file would be too long (1), then
   the room (14). Past the text out is not altered. Stack: 760 bytes. */
cxf_written cxf_write(CXF_SHEET, uint8_t *out, size_t out_len);

/* Writes the LINEA rows of a sheet as elements of CML, one a line ending in LF, with no outer document: valenza CONSOLID, esterconf SI where
   the row is outside, else NO, cod, n.vert; then COORD of at most 1000 vertices each. A sheet without lines gives no bytes. 6, 15, 1, then
   14; a code that is not listed is copied. Past the text out is not altered. Stack: 584 bytes. */
cxf_written cxf_cml_lines(CXF_SHEET, uint8_t *out, size_t out_len);

/* ---- borders and texts ----------------------------------------------------------------------------------------------- */

/* The classes of a border. CXF_OTHER comes in sheets of kind 3 alone: eleven letters that are not the sheet's name. */
enum { CXF_CONFINE = 1, CXF_OTHER = 2, CXF_ROAD = 3, CXF_WATER = 4, CXF_BUILDING = 5, CXF_PARCEL = 6 };

typedef struct {
    uint64_t number, row;
    uint64_t class_of; /* CXF_CONFINE to CXF_PARCEL; the other fields are the row's own */
    int64_t size, angle, x, y, inner_x, inner_y;
    uint64_t letters, islands, vertices;
} cxf_border;

/* A row that is a border, and its class. A row that is none is refused 19. Stack: 584 bytes. */
cxf_border cxf_border_at(CXF_SHEET, uint64_t row);

typedef struct {
    uint64_t number, row;
    uint64_t surface_right; /* 1 where the row is a TESTO of at least 3 letters from ( to ), else 0 */
    uint64_t centroid;      /* 1 where it is a TESTO of size 0: a raster parcel's centroid. A row may be both */
} cxf_text;

/* Of any row: one that is no TESTO answers 0 and 0, and is not refused. Stack: 520 bytes. */
cxf_text cxf_text_at(CXF_SHEET, uint64_t row);

/* ---- areas ----------------------------------------------------------------------------------------------------------- */

typedef struct {
    uint64_t number, row;
    int64_t doubled; /* twice the area, in square millimetres */
} cxf_area;

/* One ring of a border, judged alone: ring 0 is the outer one, ring i is island i. 17, or 19 where there is no such ring.
   Stack: 584 bytes. */
cxf_area cxf_ring_area(CXF_SHEET, uint64_t row, uint64_t ring);

/* The outer ring less the islands: below 0 where the islands are larger. Stack: 520 bytes. */
cxf_area cxf_net_area(CXF_SHEET, uint64_t row);

/* ---- tallies --------------------------------------------------------------------------------------------------------- */

/* 24 figures: for each class in the order above its borders, their outer rings' doubled area, their islands, and the islands'
   doubled area. So the figures of a class are figures[4 * (class_of - 1)] and the three after it. */
typedef struct {
    uint64_t number, row;
    int64_t figures[CXF_FIGURES];
} cxf_tally;

/* All borders of a sheet. Refused 17 or 18 it names the row; refused at all, its figures are 0. Stack: 1,792 bytes. */
cxf_tally cxf_tally_sheet(CXF_SHEET);

/* A running tally by value: the tally with the border of a row taken, or as it was and the refusal. Begin with 24 zeros. The
   tally handed in is judged after 6, 15 and 19: a figure that is negative or too large, or a figures_len other than 24 (the
   answer's figures are then 0), is refused 18; then come 17, and 18 of the border. Stack: 1,248 bytes. */
cxf_tally cxf_tally_take(const int64_t *figures, size_t figures_len, CXF_SHEET, uint64_t row);

/* ---- SUP files ------------------------------------------------------------------------------------------------------- */

typedef struct {
    uint64_t number, row; /* row with 15, with 17 and 18 of the tally, and with 22 */
    uint64_t line;        /* with 23 the first line whose figure is too wide, from 1 */
    uint64_t length;      /* the bytes that were written, or that are needed with 14 */
} cxf_sup;

/* Writes the SUP file that goes out with a sheet to the start of out: its name and the date, the counts and areas of the sheet's
   tally, and the area of each border that it lists, in square metres. It has 14 lines and one for each listed border, 23 bytes
   each. Listed are the parcels, or the borders of class CXF_OTHER of a QUADRO D'UNIONE, by the bytes of their codes, equal codes by
   rising area. The date is eight digits: year, month, day. Refused are, in this order: the header (6), the rows (15), the tally
   (17, 18), the date (21), the first row with a listed code that is too long (22), a TOTALE beyond the tally's limit (18, with no
   row), the first figure that is too wide (23), the room (14). Past the text out is not altered. Stack: 26,416 bytes;
   where a figure is too wide it was not measured. */
cxf_sup cxf_sup_write(CXF_SHEET, const uint8_t *date, size_t date_len, uint8_t *out, size_t out_len);

typedef struct {
    uint64_t number, row; /* row with 15, and with 17 and 18 of the tally */
    uint64_t line;        /* with 25 the first wrong line, from 1; one past the last where bytes follow it */
} cxf_sup_checked;

/* Whether a SUP file, whoever rounded its figures, is right for a sheet: lines, names, counts and order as cxf_sup_write has them, any date that
   it takes, each area within 1 square metre of the exact one for each border that it counts (each island for SVIL-ALL), and SBILANCIO just the
   difference of the file's TOTALE and CONFINE. Refused are the header (6), the rows (15), the tally (17, 18), a TOTALE beyond the tally's limit
   (18, with no row), then the file (25). What cxf_sup_write writes for the sheet is right. Stack: 38,288 bytes. */
cxf_sup_checked cxf_sup_check(CXF_SHEET, const uint8_t *sup, size_t sup_len);

/* ---- ring check ------------------------------------------------------------------------------------------------------ */

typedef struct {
    uint64_t number, row;
    uint64_t simple;        /* 1 where the ring is simple */
    uint64_t first, second; /* where it is not: the first faulty pair of edges, from 0; an edge of no length with itself */
} cxf_ring;

/* Whether no edge of a ring has equal ends, neighbours share only their vertex, and other edges share no point.
   Stack: 1,544 bytes. */
cxf_ring cxf_ring_check(CXF_SHEET, uint64_t row, uint64_t ring);

/* ---- tile points ----------------------------------------------------------------------------------------------------- */

typedef struct {
    uint64_t number;
    float east, south; /* the differences in millimetres, divided by 256; nothing is rounded */
} cxf_tile;

/* A point from a tile's north-west corner, all in millimetres. Stack: 32 bytes. */
cxf_tile cxf_tile_point(int64_t corner_x, int64_t corner_y, int64_t x, int64_t y);

/* ---- masks ----------------------------------------------------------------------------------------------------------- */

typedef struct {
    uint64_t number, row;
    uint64_t rows[CXF_MASK_SIDE]; /* the northern row first; in a row the western cell is the highest bit */
    uint64_t covered;             /* how many cells are set */
} cxf_mask;

/* Which cells of a grid of 64 rows of 64 have their centre inside a border, by the even-odd rule over all of its rings: a courtyard
   is not set. The grid's north-west corner is given in millimetres, and the side of its cells, 1 to 10,000 mm. A centre is inside
   where an odd number of edges have one end north of it and the other not, and cross its height strictly east of it. Refused are,
   in this order: the header (6), the rows (15), a row that is no border (19), the side (26), a ring that is too wide (17), and then,
   with 20, a grid whose corners are not all within the real range, or a vertex of the border more than CXF_MASK_REACH from the
   corner. Refused, all rows and covered are 0. Stack: 5,688 bytes. */
cxf_mask cxf_mask_of(CXF_SHEET, uint64_t row, int64_t corner_x, int64_t corner_y, int64_t cell);

/* ---- altering a sheet ------------------------------------------------------------------------------------------------ */

/* A sheet whose tables may be altered: the thirteen parameters of CXF_SHEET, the four tables not const. */
#define CXF_TABLES                                                                                       \
    uint64_t kind, const uint8_t *name, size_t name_len, int64_t scale, uint64_t count,                  \
    int64_t *rows, size_t rows_len, uint8_t *letters, size_t letters_len,                                \
    uint16_t *islands, size_t islands_len, int64_t *points, size_t points_len

typedef struct {
    uint64_t number, row; /* row with 15 */
    uint64_t count;       /* the rows at exit, where number is 0 */
} cxf_edited;

/* Takes a row out: the rows behind it, and their letters, island counts and points, close up in their order, and their starts stay true.
   What is freed at the end of the used part, and all that stands behind it, keeps what it held. 6, 15, then 19 for no such row. Stack: 616 bytes. */
cxf_edited cxf_remove(CXF_TABLES, uint64_t row);

/* Adds a pair of whole millimetres to every vertex, position, inner point and label point. 6, 15, then 24 where either part is beyond
   CXF_MOVE_MOST either way or some coordinate would leave the real range; that is judged before anything is stored. The opposite move gives the
   sheet as it stood. Stack: 536 bytes. */
cxf_edited cxf_move(CXF_TABLES, int64_t by_x, int64_t by_y);

/* ---- records and numbers --------------------------------------------------------------------------------------------- */

typedef struct {
    uint64_t number;
    uint64_t start, length; /* the content, no blank dropped, no line end */
    uint64_t next;          /* where the next record starts */
} cxf_record;

/* The record that starts at a byte. keyword_due: 0 is no, anything else is yes. CXF_FORMER is as CXF_LOOSE here. Stack: 104 bytes. */
cxf_record cxf_record_at(const uint8_t *src, size_t src_len, uint64_t at, uint64_t mode, uint64_t keyword_due);

typedef struct {
    uint64_t number;
    uint64_t column; /* with 8, else 0 */
    int64_t value;   /* a real in thousandths */
} cxf_number;

/* The content of a record as an integer, 0 to 9999, or as a real; 8 where it is malformed. Behind the number only blanks may stand, in
   CXF_FORMER a blank and anything, in CXF_EXACT nothing. The column, from 1, is that of the first
   byte that no accepted number of that form and mode has there after the same beginning, however long the record, or one past the end if
   the content only stops early. Stack: 152 bytes and 188. */
cxf_number cxf_integer(const uint8_t *content, size_t content_len, uint64_t mode);
cxf_number cxf_real(const uint8_t *content, size_t content_len, uint64_t mode);

/* ---- listing --------------------------------------------------------------------------------------------------------- */

typedef struct {
    uint64_t number; /* 0 or 14 */
    uint64_t length; /* the bytes that were written, or that are needed with 14 */
} cxf_listed;

/* What the listing program writes for this input: the header, six lines of figures, the number of rows. A text that says
   REFUSED, with the refusal's number, its record (or the tally's row), offset and column, is an answer as well: number is 0 whenever
   the text stands in out. No text is longer than CXF_LISTING_MOST. The tables are on the stack.
   Stack: 65,628 bytes. */
cxf_listed cxf_listing(const uint8_t *src, size_t src_len, uint8_t *out, size_t out_len);

/* ---- conversion ------------------------------------------------------------------------------------------------------ */

/* What the conversion program writes for a file of the first year, or any other: the clean file, which is what CXF_FORMER reads in src, as
   cxf_write writes it, without the notes. CXF_EXACT accepts it, with the same header and elements; a file that is clean comes out as it is.
   Or one line that ends in LF, as the listing has it:
       REFUSED, number, record, offset, column   what CXF_FORMER refuses: 2, 4 to 9, 11 or 12; the column with 8, else 0
       REFUSED 10, row, 0, 0                     the first row, from 0, with an unlisted code, which no clean file may have
       REFUSED 1 0 0 0                           src has more than CXF_LISTING_FILE_MOST bytes
   Such a line is an answer as well: number is 0 whenever the text stands in out, and 14, with the length that is needed, is the only
   refusal of the call. The clean file may be longer than src; no text is longer than CXF_CONVERT_MOST. Past the text out is not altered. The
   tables are on the stack. Stack: 65,212 bytes. */
cxf_listed cxf_convert(const uint8_t *src, size_t src_len, uint8_t *out, size_t out_len);

#ifdef __cplusplus
}
#endif

#endif
