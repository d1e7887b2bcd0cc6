/* cml_cases SIDE [all]: lines as CML worked by hand (document 02, T-11, and source 001), asked of the reference, or of the library where
   SIDE says so; cml_cases.out has the answers. Printed are the title, then number, row and length, then the text; of a long one its
   beginning, what stands about each joint of two COORD, with its place, and the end. With `all` the texts alone are printed, whole, for an XML
   parser (cml_elements).
   The lines of many vertices go from (0, 0) to (1, -1), (2, -2) and on, in millimetres, so that of n vertices with c COORD the element has
   59 + 9 bytes of tags and attributes, the digits of n, 15 c for COORD, 5 n for x, n commas, 6 n - 1 for y and n - c blanks:
   67 + digits + 13 n + 14 c. */
#include "reference.h"

#include <stdbool.h>
#include <stdio.h>
#include <stdlib.h>
#include <string.h>

enum { ROWS = 80, LETTERS = 100, ISLANDS = 4, POINTS = 65 * 9999, OUT = 200000 };

static uint64_t count;
static const char *name = "Z999_000100";
static int64_t rows[ROWS * ROW_WIDTH], points[2 * POINTS];
static uint8_t letters[LETTERS], out[OUT];
static uint16_t islands[ISLANDS];
static size_t letters_len, points_len;
static bool texts_alone;
static cxf_written (*cml_lines)(CXF_SHEET, uint8_t *, size_t);

/* ---- Sheets ---- */

static void sheet(void) { count = letters_len = points_len = 0; }

static int64_t *add_row(int64_t kind) {
    int64_t *row = rows + ROW_WIDTH * count++;
    memset(row, 0, ROW_WIDTH * sizeof *row);
    row[0] = kind;
    return row;
}

static void point(int64_t x, int64_t y) {
    points[points_len++] = x;
    points[points_len++] = y;
    rows[ROW_WIDTH * (count - 1) + 11]++;
}

/* A LINEA, or a LIBRETTO with letters; its points follow. */
static void line(int64_t kind, int64_t outside, int64_t code) {
    int64_t *row = add_row(kind);
    row[1] = outside;
    row[2] = code;
    if (kind == 7) row[9] = 1, letters[letters_len++] = 'a';
}

static void long_line(int64_t n) {
    line(5, 0, 1);
    for (int64_t i = 0; i < n; i++) point(i, -i);
}

/* A border, a text, a symbol, a fiducial and a raster's corners: nothing that is written. */
static void others(void) {
    add_row(1)[9] = 1, letters[letters_len++] = '7';
    point(0, 0), point(1, 0), point(0, 1), point(0, 0);
    add_row(2)[9] = 1, letters[letters_len++] = 'b';
    add_row(3)[2] = 4;
    add_row(4)[9] = 1, letters[letters_len++] = '5';
    add_row(6)[9] = 1, letters[letters_len++] = 'c';
    point(0, 0), point(1, 0), point(1, -1), point(0, -1);
}

/* ---- Questions ---- */

static void print_text(const char *text, size_t n) {
    if (texts_alone || n <= 1000) {
        fwrite(text, 1, n, stdout);
        return;
    }
    printf("%.110s\n", text);
    for (const char *at = text; (at = strstr(at, "</COORD><COORD>")) != NULL; at++) printf("%zu %.40s\n", (size_t)(at - text), at - 12);
    printf("%s", text + n - 40);
}

static void ask(const char *title, size_t out_len) {
    memset(out, '#', OUT);
    set_starts(rows, count);
    const cxf_written w = cml_lines(1, (const uint8_t *)name, 11, 1000000, count, rows, ROW_WIDTH * count, letters, letters_len, islands, 0,
                                    points, points_len, out, out_len);
    const size_t stored = w.number == 0 ? (size_t)w.length : 0;
    bool altered = false;
    for (size_t i = stored; i < OUT; i++) altered |= out[i] != '#';
    out[stored < OUT ? stored : OUT - 1] = 0;
    if (!texts_alone) printf("%s\n%llu %llu %llu\n", title, (unsigned long long)w.number, (unsigned long long)w.row, (unsigned long long)w.length);
    print_text((const char *)out, stored);
    if (altered) printf("WHAT IS BEHIND THE TEXT WAS ALTERED\n");
}

static void show(const char *title) { ask(title, OUT - 1); }

static void small(void) {
    sheet();
    show("no rows");
    others(), line(7, 0, 1), point(1, 1), point(2, 2);
    show("no lines: a LIBRETTO is none");

    /* 001, 4.3.5: the code 2 is not listed, and is copied */
    static const int64_t example[] = {
        8465567, -25851575, 8462969, -25850646, 8460860, -25848343, 8460617, -25845257, 8461605, -25843218, 8464219, -25841513, 8467513, -25841319,
        8470575, -25842800, 8471922, -25845011, 8471401, -25847804, 8470307, -25849489, 8468450, -25850982, 8465567, -25851575,
    };
    sheet(), line(5, 0, 2);
    for (int i = 0; i < 26; i += 2) point(example[i], example[i + 1]);
    show("the source's example");

    /* 001, appendix: a line inside, and the same outside with another code; a LIBRETTO's line is not written */
    sheet(), others(), line(5, 0, 1), point(8960315, -26598927), point(8956377, -26605997);
    line(7, 0, 1), point(10594183, -26703041), point(10581330, -26730521);
    line(5, 1, 5), point(8960315, -26598927), point(8956377, -26605997), others();
    show("the source's two lines among other rows");

    sheet(), line(5, 0, 0), point(-9999999999, 99999999999), point(-5, 0);
    line(5, 1, 9999), point(5, -1), point(999, -1000), point(-999, 1000), point(99999999999, -9999999999);
    show("ends of the range, -0.005 and 0.000, codes 0 and 9999");
}

static void many(void) {
    sheet(), long_line(2);
    show("2 vertices"); /* 67 + 1 + 26 + 14 = 108 */
    sheet(), long_line(1000);
    show("1,000 vertices"); /* 67 + 4 + 13,000 + 14 = 13,085 */
    sheet(), long_line(1001);
    show("1,001 vertices"); /* 67 + 4 + 13,013 + 28 = 13,112 */
    sheet(), long_line(2000);
    show("2,000 vertices"); /* 67 + 4 + 26,000 + 28 = 26,099 */
    sheet(), long_line(2001);
    show("2,001 vertices"); /* 67 + 4 + 26,013 + 42 = 26,126 */
    sheet(), long_line(9999);
    show("9,999 vertices"); /* 67 + 4 + 129,987 + 140 = 130,198 */
}

static void extreme_line(int n) {
    line(5, 0, 1);
    for (int i = 0; i < n; i++) point(-9999999999, 99999999999);
}

static void refusals(void) {
    sheet(), long_line(2);
    ask("room just enough", 108);
    ask("room for one byte less", 107);
    ask("no room", 0);
    /* a wrong name, a row that is not well made, no room: mended one by one */
    line(5, 2, 1), point(0, 0), point(1, 1);
    name = "z999_000100";
    ask("a wrong name", 0);
    name = "Z999_000100";
    ask("a row that is not well made", 0);
    rows[ROW_WIDTH + 1] = 1;
    ask("well made", 0); /* 108 and 107: the last point's y has no minus and 5 bytes */
    /* Vertices of -9999999.999,99999999.999 have 25 bytes, so a line 68 + digits + 26 n + 14 c: 260,186 for 9,999 vertices, 125,306 for 4,814.
       64 lines are 16,651,904 bytes; with the shorter one 16,777,210. Two codes of 9999 in place of 1 add 6, and one of 10 a last one, which is
       too many; that comes before the room. */
    sheet();
    for (int k = 0; k < 64; k++) extreme_line(9999);
    ask("16,651,904 bytes", 0);
    extreme_line(4814);
    rows[2] = rows[ROW_WIDTH + 2] = 9999;
    ask("16,777,216 bytes", 0);
    rows[2 * ROW_WIDTH + 2] = 10;
    ask("16,777,217 bytes", 0);
}

int main(int argc, char **argv) {
    if (argc != 2 && argc != 3) {
        fprintf(stderr, "cml_cases SIDE [all]\n");
        return 2;
    }
    cml_lines = strcmp(argv[1], "library") == 0 ? cxf_cml_lines : ref_cml_lines;
    texts_alone = argc == 3;
    small();
    many();
    if (!texts_alone) refusals();
    return 0;
}
