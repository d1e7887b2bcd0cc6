/* header SHEET: include/cxf.h held against the tests' own declarations (reference.h) and the papers' numbers. Most of it is
   settled when this file is compiled; run, it looks at the header's own functions, its bounds, and rows asked alone. */
#include <stddef.h>
#include <stdint.h>
#include <stdio.h>
#include <stdlib.h>
#include <string.h>

/* The tests' structs stand beside the header's as paper_*. CXF_SHEET is defined by both: the compiler refuses a difference. */
#define cxf_reading paper_reading
#define cxf_written paper_written
#define cxf_border paper_border
#define cxf_text paper_text
#define cxf_area paper_area
#define cxf_tally paper_tally
#define cxf_ring paper_ring
#define cxf_tile paper_tile
#define cxf_record paper_record
#define cxf_number paper_number
#define cxf_listed paper_listed
#define cxf_mask paper_mask
#define cxf_sup paper_sup
#define cxf_edited paper_edited
#define cxf_sup_checked paper_sup_checked
#define STRUCTS_ALONE
#include "reference.h"
#undef cxf_reading
#undef cxf_written
#undef cxf_border
#undef cxf_text
#undef cxf_area
#undef cxf_tally
#undef cxf_ring
#undef cxf_tile
#undef cxf_record
#undef cxf_number
#undef cxf_listed
#undef cxf_mask
#undef cxf_sup
#undef cxf_edited
#undef cxf_sup_checked

#include "cxf.h"
#include "cxf.h" /* once is twice */

/* The functions again, as the tests declare them: the compiler refuses another parameter or answer. */
DECLARE_INTERFACE(cxf)
DECLARE_SUP(cxf)
uint64_t cxf_interface(void);
DECLARE_MASK(cxf)
DECLARE_EDITS(cxf)
DECLARE_CONVERT(cxf)
DECLARE_SUP_CHECK(cxf)
DECLARE_CML(cxf)
DECLARE_DEFAULT(cxf)

/* ---- structs: the offset, the size and the type of each field ---- */

#define SAME(STRUCT, FIELD)                                                                                              \
    _Static_assert(offsetof(cxf_##STRUCT, FIELD) == offsetof(paper_##STRUCT, FIELD), #STRUCT "." #FIELD);                \
    _Static_assert(sizeof(((cxf_##STRUCT *)0)->FIELD) == sizeof(((paper_##STRUCT *)0)->FIELD), #STRUCT "." #FIELD);      \
    _Static_assert(__builtin_types_compatible_p(__typeof__(((cxf_##STRUCT *)0)->FIELD), __typeof__(((paper_##STRUCT *)0)->FIELD)), \
                   #STRUCT "." #FIELD)
#define WHOLE(STRUCT)                                                            \
    _Static_assert(sizeof(cxf_##STRUCT) == sizeof(paper_##STRUCT), #STRUCT);     \
    _Static_assert(_Alignof(cxf_##STRUCT) == _Alignof(paper_##STRUCT), #STRUCT)

WHOLE(reading);
SAME(reading, number);
SAME(reading, record);
SAME(reading, offset);
SAME(reading, column);
SAME(reading, rows);
SAME(reading, letters);
SAME(reading, islands);
SAME(reading, points);
SAME(reading, kind);
SAME(reading, scale);
SAME(reading, name);

WHOLE(written);
SAME(written, number);
SAME(written, row);
SAME(written, length);

WHOLE(border);
SAME(border, number);
SAME(border, row);
SAME(border, class_of);
SAME(border, size);
SAME(border, angle);
SAME(border, x);
SAME(border, y);
SAME(border, inner_x);
SAME(border, inner_y);
SAME(border, letters);
SAME(border, islands);
SAME(border, vertices);

WHOLE(text);
SAME(text, number);
SAME(text, row);
SAME(text, surface_right);
SAME(text, centroid);

WHOLE(area);
SAME(area, number);
SAME(area, row);
SAME(area, doubled);

WHOLE(tally);
SAME(tally, number);
SAME(tally, row);
SAME(tally, figures);

WHOLE(ring);
SAME(ring, number);
SAME(ring, row);
SAME(ring, simple);
SAME(ring, first);
SAME(ring, second);

WHOLE(tile);
SAME(tile, number);
SAME(tile, east);
SAME(tile, south);

WHOLE(record);
SAME(record, number);
SAME(record, start);
SAME(record, length);
SAME(record, next);

WHOLE(number);
SAME(number, number);
SAME(number, column);
SAME(number, value);

WHOLE(mask);
SAME(mask, number);
SAME(mask, row);
SAME(mask, rows);
SAME(mask, covered);

WHOLE(listed);
SAME(listed, number);
SAME(listed, length);

WHOLE(sup);
SAME(sup, number);
SAME(sup, row);
SAME(sup, line);
SAME(sup, length);

WHOLE(edited);
SAME(edited, number);
SAME(edited, row);
SAME(edited, count);

WHOLE(sup_checked);
SAME(sup_checked, number);
SAME(sup_checked, row);
SAME(sup_checked, line);

/* ---- numbers, as documents 01 and 02 and the paper of the interface have them ---- */

#define IS(NAME, NUMBER) _Static_assert((NAME) == (NUMBER), #NAME)

IS(CXF_INTERFACE, 4);
IS(CXF_FILE_MOST, 16777216);
IS(CXF_CONTENT_MOST, 255);
IS(CXF_NAME_LENGTH, 11);
IS(CXF_INTEGER_MOST, 9999);
IS(CXF_FIGURES, 24);
IS(CXF_REACH, 20000000);
IS(CXF_TILE_MOST, 16777215);
IS(CXF_LISTING_MOST, 640);
IS(CXF_LISTING_FILE_MOST, 8192);
IS(CXF_CONVERT_MOST, 53248);
IS(CXF_REAL_LEAST, -9999999999);
IS(CXF_REAL_MOST, 99999999999);
IS(CXF_TALLY_MOST, 9000000000000000000);
IS(CXF_MOVE_MOST, 109999999998);

IS(CXF_TOO_LONG, 1);
IS(CXF_CUT, 2);
IS(CXF_LINE_END, 3);
IS(CXF_LENGTH, 4);
IS(CXF_BYTE, 5);
IS(CXF_HEADER, 6);
IS(CXF_KEYWORD, 7);
IS(CXF_NUMBER, 8);
IS(CXF_LETTERS, 9);
IS(CXF_CODE, 10);
IS(CXF_COUNT, 11);
IS(CXF_OPEN_RING, 12);
IS(CXF_AFTER_EOF, 13);
IS(CXF_NO_ROOM, 14);
IS(CXF_NOT_MADE, 15);
IS(CXF_TOO_WIDE, 17);
IS(CXF_TOO_LARGE, 18);
IS(CXF_NO_SUCH, 19);
IS(CXF_OFF_TILE, 20);
IS(CXF_BAD_DATE, 21);
IS(CXF_LONG_CODE, 22);
IS(CXF_WIDE_FIGURE, 23);
IS(CXF_MOVED_OFF, 24);
IS(CXF_BAD_SIDE, 26);

IS(CXF_LOOSE, 0);
IS(CXF_EXACT, 1);
IS(CXF_FORMER, 2);

IS(CXF_MAPPA, 1);
IS(CXF_MAPPA_FONDIARIO, 2);
IS(CXF_QUADRO_UNIONE, 3);
IS(CXF_BORDO, 1);
IS(CXF_TESTO, 2);
IS(CXF_SIMBOLO, 3);
IS(CXF_FIDUCIALE, 4);
IS(CXF_LINEA, 5);
IS(CXF_RIFERIMENTO_RASTER, 6);
IS(CXF_LIBRETTO, 7);

IS(CXF_ROW, 15);
IS(CXF_ROW_FIRST_LETTER, 12);
IS(CXF_ROW_FIRST_ISLAND, 13);
IS(CXF_ROW_FIRST_POINT, 14);
IS(CXF_ROW_KIND, 0);
IS(CXF_ROW_OUTSIDE, 1);
IS(CXF_ROW_CODE, 2);
IS(CXF_ROW_SIZE, 3);
IS(CXF_ROW_ANGLE, 4);
IS(CXF_ROW_X, 5);
IS(CXF_ROW_Y, 6);
IS(CXF_ROW_X2, 7);
IS(CXF_ROW_Y2, 8);
IS(CXF_ROW_LETTERS, 9);
IS(CXF_ROW_ISLANDS, 10);
IS(CXF_ROW_VERTICES, 11);

IS(CXF_CONFINE, 1);
IS(CXF_OTHER, 2);
IS(CXF_ROAD, 3);
IS(CXF_WATER, 4);
IS(CXF_BUILDING, 5);
IS(CXF_PARCEL, 6);

/* what a file of n bytes can need: 28 bytes a row, 1 a letter, 2 an island count, 12 a point */
IS(CXF_ROWS_MOST(8192), 292);
IS(CXF_LETTERS_MOST(8192), 8192);
IS(CXF_ISLANDS_MOST(8192), 4096);
IS(CXF_POINTS_MOST(8192), 682);
IS(CXF_ROWS_MOST(16777216), 599186);
IS(CXF_LETTERS_MOST(16777216), 16777216);
IS(CXF_ISLANDS_MOST(16777216), 8388608);
IS(CXF_POINTS_MOST(16777216), 1398101);
IS(CXF_ROWS_MOST(27), 0);
IS(CXF_ROWS_MOST(20 + 8), 1);
IS(CXF_POINTS_MOST(11), 0);
IS(CXF_POINTS_MOST(6 + 6), 1);

/* ---- what is left for the run ---- */

static int wrong;

static void expect(int holds, const char *what)
{
    if (holds) return;
    printf("header: %s\n", what);
    wrong = 1;
}

static int is_refusal(uint64_t n)
{
    return n >= 1 && n <= 26 && n != 16;
}

/* One sentence for each refusal, and one for all other numbers. */
static void sentences(void)
{
    const char *other = cxf_refusal_text(0);
    for (uint64_t n = 1; n <= 27; n++) {
        const char *text = cxf_refusal_text(n);
        const int listed = is_refusal(n);
        expect(text[0] != 0 && text[strlen(text) - 1] == '.' && strchr(text, '\n') == NULL, "a refusal's text is no sentence");
        expect((strcmp(text, other) != 0) == listed, "a refusal has no sentence of its own, or another number has one");
        for (uint64_t m = 1; m < n; m++)
            if (listed) expect(strcmp(text, cxf_refusal_text(m)) != 0, "two refusals have one sentence");
    }
    expect(strcmp(cxf_refusal_text(UINT64_MAX), other) == 0, "a number that is no refusal has a sentence of its own");
}

static int spread_so(cxf_sheet s, CXF_SHEET)
{
    return s.kind == kind && s.name == name && s.name_len == name_len && s.scale == scale && s.count == count && s.rows == rows &&
           s.rows_len == rows_len && s.letters == letters && s.letters_len == letters_len && s.islands == islands &&
           s.islands_len == islands_len && s.points == points && s.points_len == points_len;
}

/* Tables of just the length that the header's bounds give a file of that length. */
typedef struct { int64_t *rows; uint8_t *letters; uint16_t *islands; int64_t *points; cxf_reading r; } read_file;

static void *table(size_t n, size_t size)
{
    void *t = calloc(n ? n : 1, size);
    if (t == NULL) exit(2);
    return t;
}

static read_file read_at_most(const uint8_t *src, size_t n, uint64_t mode)
{
    const size_t rows = CXF_ROWS_MOST(n) * CXF_ROW, letters = CXF_LETTERS_MOST(n), islands = CXF_ISLANDS_MOST(n);
    const size_t points = CXF_POINTS_MOST(n) * 2;
    read_file f;
    f.rows = table(rows, sizeof *f.rows);
    f.letters = table(letters, sizeof *f.letters);
    f.islands = table(islands, sizeof *f.islands);
    f.points = table(points, sizeof *f.points);
    f.r = cxf_read(src, n, mode, f.rows, rows, f.letters, letters, f.islands, islands, f.points, points);
    return f;
}

static void dispose(read_file *f)
{
    free(f->rows);
    free(f->letters);
    free(f->islands);
    free(f->points);
}

/* The shortest header, `count` times a text, and EOF; answers its length. */
static size_t filled(char *file, const char *text, size_t count)
{
    size_t n = (size_t)sprintf(file, "MAPPA\nZ999_000100\n0.001\n");
    for (size_t i = 0; i < count; i++) n += (size_t)sprintf(file + n, "%s", text);
    return n + (size_t)sprintf(file + n, "EOF");
}

/* Files whose rows, or whose letters, islands or points, stand as close as they can. */
static void bounds(void)
{
    static const char *const shortest[] = {"TESTO\nx\n0\n0.000\n0.000\n0.000\n", "SIMBOLO\n1\n0.000\n0.000\n0.000\n"};
    static char file[4000000];
    for (int kind = 0; kind < 2; kind++)
        for (size_t count = 0; count < 100; count++) {
            const size_t n = filled(file, shortest[kind], count);
            read_file f = read_at_most((const uint8_t *)file, n, CXF_LOOSE);
            expect(f.r.number == 0 && f.r.rows == count && CXF_ROWS_MOST(n) == count, "CXF_ROWS_MOST is not the shortest rows");
            dispose(&f);
        }

    static char text[3000000];
    size_t at = (size_t)sprintf(text, "LINEA\n1\n9999\n");
    for (int i = 0; i < 2 * 9999; i++) at += (size_t)sprintf(text + at, "0.000\n");
    size_t n = filled(file, text, 3);
    read_file f = read_at_most((const uint8_t *)file, n, CXF_LOOSE);
    expect(f.r.number == 0 && f.r.points == 3 * 9999, "a file of points is not read in the room of CXF_POINTS_MOST");
    dispose(&f);

    at = (size_t)sprintf(text, "BORDO\nx\n0\n0.000\n0.000\n0.000\n0.000\n0.000\n2498\n9996\n");
    for (int i = 0; i < 2498; i++) at += (size_t)sprintf(text + at, "4\n");
    for (int i = 0; i < 2 * 9996; i++) at += (size_t)sprintf(text + at, "0.000\n");
    n = filled(file, text, 2);
    f = read_at_most((const uint8_t *)file, n, CXF_LOOSE);
    expect(f.r.number == 0 && f.r.islands == 2 * 2498, "a file of islands is not read in the room of CXF_ISLANDS_MOST");
    dispose(&f);

    char letters[300];
    memset(letters, 'x', 255);
    letters[255] = 0;
    sprintf(text, "TESTO\n%s\n0\n0.000\n0.000\n0.000\n", letters);
    n = filled(file, text, 1000);
    f = read_at_most((const uint8_t *)file, n, CXF_LOOSE);
    expect(f.r.number == 0 && f.r.letters == 255 * 1000, "a file of letters is not read in the room of CXF_LETTERS_MOST");
    dispose(&f);
}

/* Each row of a sheet asked in the sheet, and asked alone. */
static void rows_alone(const char *path)
{
    static uint8_t src[1000000];
    FILE *file = fopen(path, "rb");
    if (file == NULL) {
        perror(path);
        exit(2);
    }
    const size_t n = fread(src, 1, sizeof src, file);
    fclose(file);
    read_file f = read_at_most(src, n, CXF_LOOSE);
    const cxf_sheet s = cxf_sheet_of(&f.r, f.rows, f.letters, f.islands, f.points);
    expect(f.r.number == 0 && s.count > 0, "the sample is not read");
    expect(spread_so(s, CXF_SPREAD(s)), "CXF_SPREAD hands something else over");
    uint64_t row = 0;
    for (; row < s.count; row++) {
        int64_t own[CXF_ROW];
        const cxf_sheet alone = cxf_row_alone(s, row, own);
        expect(alone.count == 1 && alone.rows == own && alone.rows_len == CXF_ROW && alone.letters == s.letters + s.rows[CXF_ROW * row + 12] &&
                   alone.islands == s.islands + s.rows[CXF_ROW * row + 13] && alone.points == s.points + 2 * s.rows[CXF_ROW * row + 14],
               "a row alone has not its own parts of the tables");
        const cxf_border b = cxf_border_at(CXF_SPREAD(s), row), c = cxf_border_at(CXF_SPREAD(alone), 0);
        const cxf_text t = cxf_text_at(CXF_SPREAD(s), row), u = cxf_text_at(CXF_SPREAD(alone), 0);
        const cxf_area a = cxf_net_area(CXF_SPREAD(s), row), d = cxf_net_area(CXF_SPREAD(alone), 0);
        expect(memcmp(&b, &c, sizeof b) == 0 && memcmp(&t, &u, sizeof t) == 0 && memcmp(&a, &d, sizeof a) == 0,
               "a row alone answers otherwise");
        for (uint64_t ring = 0; ring <= b.islands; ring++) {
            const cxf_area g = cxf_ring_area(CXF_SPREAD(s), row, ring), h = cxf_ring_area(CXF_SPREAD(alone), 0, ring);
            const cxf_ring p = cxf_ring_check(CXF_SPREAD(s), row, ring), q = cxf_ring_check(CXF_SPREAD(alone), 0, ring);
            expect(memcmp(&g, &h, sizeof g) == 0 && memcmp(&p, &q, sizeof p) == 0, "a ring of a row alone answers otherwise");
        }
    }
    dispose(&f);
}

int main(int argc, char **argv)
{
    if (argc != 2) {
        fprintf(stderr, "header SHEET\n");
        return 2;
    }
    expect(cxf_interface() == CXF_INTERFACE, "the library's interface has another number");
    sentences();
    bounds();
    rows_alone(argv[1]);
    return wrong;
}
