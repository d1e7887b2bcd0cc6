/* Answers that the papers themselves give: document 01's marked examples and listing, T-02's letters, the
   specification's own examples, padded, and columns as docs/DECISIONS.md, 91, reads T-04. They hold the reference to something that was not written with it. */
#include "examples.h"
#include "reference.h"

#include <stdio.h>
#include <string.h>

/* One side: the library or the reference. */
typedef struct {
    const char *side;
    cxf_reading (*read)(const uint8_t *, size_t, uint64_t, int64_t *, size_t, uint8_t *, size_t, uint16_t *, size_t, int64_t *, size_t);
    cxf_written (*write)(CXF_SHEET, uint8_t *, size_t);
    cxf_border (*border_at)(CXF_SHEET, uint64_t);
    cxf_text (*text_at)(CXF_SHEET, uint64_t);
    cxf_area (*ring_area)(CXF_SHEET, uint64_t, uint64_t);
    cxf_area (*net_area)(CXF_SHEET, uint64_t);
    cxf_tally (*tally_sheet)(CXF_SHEET);
    cxf_tally (*tally_take)(const int64_t *, size_t, CXF_SHEET, uint64_t);
    cxf_ring (*ring_check)(CXF_SHEET, uint64_t, uint64_t);
    cxf_tile (*tile_point)(int64_t, int64_t, int64_t, int64_t);
    cxf_record (*record_at)(const uint8_t *, size_t, uint64_t, uint64_t, uint64_t);
    cxf_number (*integer)(const uint8_t *, size_t, uint64_t);
    cxf_number (*real)(const uint8_t *, size_t, uint64_t);
    cxf_listed (*listing)(const uint8_t *, size_t, uint8_t *, size_t);
    cxf_sup (*sup_write)(CXF_SHEET, const uint8_t *, size_t, uint8_t *, size_t);
    cxf_mask (*mask_of)(CXF_SHEET, uint64_t, int64_t, int64_t, int64_t);
    cxf_edited (*remove)(CXF_TABLES, uint64_t);
    cxf_edited (*move)(CXF_TABLES, int64_t, int64_t);
    cxf_listed (*convert)(const uint8_t *, size_t, uint8_t *, size_t);
    cxf_sup_checked (*sup_check)(CXF_SHEET, const uint8_t *, size_t);
} interface;

static uint64_t wrong;

static void expect(const interface *i, const char *what, int good) {
    if (good) return;
    wrong++;
    printf("EXAMPLE: the %s's answer to %s is not the papers'\n", i->side, what);
}

/* The reading that takes notes behind numbers (T-09). */
enum { NOTED = 2 };

/* ---- Numbers ---- */

static void number(const interface *i, int real, const char *text, uint64_t mode, uint64_t refusal, int64_t value) {
    const cxf_number n = (real ? i->real : i->integer)((const uint8_t *)text, strlen(text), mode);
    expect(i, text, n.number == refusal && n.value == value);
}

/* T-04: the column of a malformed number. */
static void column(const interface *i, int real, const char *text, uint64_t mode, uint64_t at) {
    const cxf_number n = (real ? i->real : i->integer)((const uint8_t *)text, strlen(text), mode);
    expect(i, text, n.number == 8 && n.column == at && n.value == 0);
}

static void columns(const interface *i) {
    char blanks[256];
    column(i, 1, "      -0.000", 1, 12);
    column(i, 0, " 018", 1, 2);
    column(i, 0, "0000", 1, 1);
    column(i, 1, "1.000", 1, 2);
    column(i, 0, "18", 1, 3);
    column(i, 0, "    ", 1, 4);
    column(i, 1, "            ", 1, 8);
    column(i, 1, "      00.500", 1, 7);
    column(i, 1, "-10000000.000", 0, 9);
    column(i, 0, "12345", 0, 5);
    column(i, 1, "1.2345", 0, 6);
    for (int real = 0; real < 2; real++)
        for (uint64_t mode = 0; mode < 2; mode++) column(i, real, "", mode, 1);
    memset(blanks, ' ', 255);
    blanks[255] = 0;
    column(i, 0, blanks, 0, 256);
    column(i, 1, blanks, 0, 256);
    column(i, 0, blanks, 1, 4);
    column(i, 1, blanks, 1, 8);
    /* a byte behind a full exact number */
    column(i, 0, "  18 ", 1, 5);
    column(i, 0, "99990", 1, 5);
    column(i, 1, "       0.005 ", 1, 13);
    column(i, 1, "99999999.9990", 1, 13);
    /* loose: signs, a blank inside, zeros in front and what is wanting */
    column(i, 0, "-1", 0, 1);
    column(i, 0, "  x", 0, 3);
    column(i, 0, "12x", 0, 3);
    column(i, 0, "1.0", 0, 2);
    column(i, 1, "--1.000", 0, 2);
    column(i, 1, "- 1.000", 0, 2);
    column(i, 1, "1", 0, 2);
    column(i, 1, "1.00", 0, 5);
    column(i, 1, "  1.00 note", 0, 7);
    column(i, 1, ".500", 0, 1);
    column(i, 1, "+123456789.000", 0, 9);
    column(i, 1, "123456789.000", 0, 9);
    column(i, 1, "000000001.000", 0, 9);
    /* exact: a sign too far right for any digit, a zero with no point behind it, a minus zero at its last digit alone */
    column(i, 1, "       -.000", 1, 8);
    column(i, 1, "      +1.000", 1, 7);
    column(i, 1, "     -00.005", 1, 7);
    column(i, 1, "     -0.0050", 1, 7);
    column(i, 1, "      -0.00x", 1, 12);
    column(i, 1, "-99999999.99", 1, 9);
    column(i, 0, "  0 ", 1, 3);
    column(i, 0, "1 00", 1, 2);
}

static void both_modes(const interface *i, int real, const char *text, uint64_t refusal, int64_t value) {
    number(i, real, text, 0, refusal, value);
    number(i, real, text, 1, refusal, value);
}

static void numbers(const interface *i) {
    both_modes(i, 1, "      -0.005", 0, -5);
    both_modes(i, 1, "-9999999.999", 0, -9999999999LL);
    both_modes(i, 1, "99999999.999", 0, 99999999999LL);
    both_modes(i, 1, "-10000000.000", 8, 0);
    number(i, 1, "      -0.000", 0, 0, 0);
    number(i, 1, "      -0.000", 1, 8, 0);
    both_modes(i, 0, "   0", 0, 0);
    number(i, 0, " 018", 0, 0, 18);
    number(i, 0, " 018", 1, 8, 0);
    number(i, 0, "   1          numero isole", NOTED, 0, 1);
    number(i, 0, "00018", 0, 8, 0);
    number(i, 0, "18x", 0, 8, 0);
    number(i, 0, "1 234", NOTED, 0, 1);
    number(i, 1, "-00000000.001", 0, 8, 0);
    number(i, 1, "+10000000.000", 0, 8, 0);
    both_modes(i, 1, "          .5", 8, 0);
    both_modes(i, 1, "      1.2345", 8, 0);
    both_modes(i, 1, "     - 1.000", 8, 0);
    number(i, 1, "      00.005", 0, 0, 5);
    number(i, 1, "      00.005", 1, 8, 0);
    columns(i);
}

/* ---- Files ---- */

/* A file with `,` for CR LF, as document 01 prints its listing's input. */
static size_t file_of(const char *records, uint8_t *out) {
    size_t n = 0;
    for (; *records != 0; records++) {
        if (*records == ',') {
            out[n++] = '\r';
            out[n++] = '\n';
        } else {
            out[n++] = (uint8_t)*records;
        }
    }
    return n;
}

typedef struct {
    cxf_reading r;
    int64_t rows[20 * ROW_WIDTH], points[200];
    uint8_t letters[200];
    uint16_t islands[20];
} held;

#define THE_SHEET(h)                                                                                                        \
    (h)->r.kind, (h)->r.name, 11, (h)->r.scale, (h)->r.rows, (h)->rows, 20 * ROW_WIDTH, (h)->letters, 200, (h)->islands, 20, (h)->points, 200

static void read_into(const interface *i, const char *records, uint64_t mode, held *h) {
    static uint8_t src[20000];
    const size_t n = file_of(records, src);
    memset(h, 0, sizeof *h);
    h->r = i->read(src, n, mode, h->rows, 20 * ROW_WIDTH, h->letters, 200, h->islands, 20, h->points, 200);
}

/* The rows that were read are these, as far as a row goes. */
static int rows_are(const held *h, const int64_t (*rows)[15], uint64_t count) {
    for (uint64_t row = 0; row < count; row++)
        if (memcmp(h->rows + ROW_WIDTH * row, rows[row], ROW_WIDTH * sizeof rows[0][0]) != 0) return 0;
    return h->r.rows == count;
}

static void refused(const interface *i, const char *what, const char *records, uint64_t mode, uint64_t refusal, uint64_t record,
                    uint64_t offset) {
    held h;
    read_into(i, records, mode, &h);
    expect(i, what, h.r.number == refusal && h.r.record == record && h.r.offset == offset && h.r.column == 0);
}

static void refused_number(const interface *i, const char *what, const char *records, uint64_t mode, uint64_t record, uint64_t offset,
                           uint64_t column) {
    held h;
    read_into(i, records, mode, &h);
    expect(i, what, h.r.number == 8 && h.r.record == record && h.r.offset == offset && h.r.column == column);
}

#define HEAD "MAPPA,Z999_000100,    1000.000,"
#define HEAD2 "MAPPA FONDIARIO,Z999_000100,    1000.000,"
#define HEAD3 "QUADRO D'UNIONE,Z999_0001QU,    1000.000,"
#define PLACE "       0.000,       0.000,       0.000,       0.000,       0.000,"
#define RING_OF_4 "       0.000,       0.000,       0.001,       0.000,       0.000,       0.001,       0.000,       0.000,"

static void files(const interface *i) {
    held h;
    /* (h) vertices 8, one island: total passes; island 4 passes, 5 refused */
    read_into(i, HEAD "BORDO,7,  18," PLACE "   1,   8,   4," RING_OF_4 RING_OF_4 "EOF,", 1, &h);
    expect(i, "(h), island of 4", h.r.number == 0 && h.r.islands == 1 && h.islands[0] == 4 && h.r.points == 8);
    refused(i, "(h), island of 5", HEAD "BORDO,7,  18," PLACE "   1,   8,   5," RING_OF_4 RING_OF_4 "EOF,", 1, 11, 14, 132);
    refused(i, "(h), 7 vertices", HEAD "BORDO,7,  18," PLACE "   1,   7,   4," RING_OF_4 RING_OF_4 "EOF,", 1, 11, 13, 126);
    refused(i, "an empty file", "", 0, 2, 1, 0);
    refused(i, "a file of just EOF", "EOF", 0, 2, 1, 0);
    refused(i, "a byte after EOF", HEAD "EOF,x", 1, 13, 5, 39);
    refused(i, "EOF with no line end, exact", HEAD "EOF", 1, 2, 4, 34);
    read_into(i, HEAD "EOF", 0, &h);
    expect(i, "EOF with no line end, loose", h.r.number == 0 && h.r.rows == 0 && h.r.scale == 1000000 && h.r.kind == 1);
    refused(i, "two blanks in the first word", "MAPPA  FONDIARIO,", 0, 6, 1, 0);
    refused(i, "a scale of minus zero, loose", "MAPPA,Z999_000100,-0.000,", 0, 6, 3, 20);
    refused_number(i, "a scale of minus zero, exact", "MAPPA,Z999_000100,      -0.000,", 1, 3, 20, 12);
    refused_number(i, "a scale of five blanks, loose", "MAPPA,Z999_000100,     ,", 0, 3, 20, 6);
    refused_number(i, "a size with a letter", HEAD "TESTO,a,1x,", 0, 6, 44, 2);
    refused_number(i, "an island count with a zero in front, exact", HEAD "BORDO,7,  18," PLACE "  01,", 1, 12, 120, 3);
    refused_number(i, "a code that is malformed before it is unlisted", HEAD "LINEA,  99 ,", 1, 5, 41, 5);
    refused_number(i, "a count that is malformed before it is too small", HEAD "LINEA,   1,   -,", 1, 6, 47, 4);
    refused_number(i, "a vertex with two points", HEAD "LINEA,1,2,0.000,1..00,", 0, 8, 54, 3);
    refused(i, "a code that is unlisted", HEAD "LINEA,  99,", 1, 10, 5, 41);
    refused(i, "kind 3 without QU", "QUADRO D'UNIONE,Z999_000100,", 0, 6, 2, 17);

    /* (i) ring (0,0),(10,10),(10,0),(0,10),(0,0): doubled area 0, faulty pair (0,2) */
    read_into(i, HEAD "BORDO,7,18,0.000,0.000,0.000,0.000,0.000,0,5,0.000,0.000,0.010,0.010,0.010,0.000,0.000,0.010,0.000,0.000,EOF,", 0, &h);
    cxf_area a = i->ring_area(THE_SHEET(&h), 0, 0);
    cxf_ring c = i->ring_check(THE_SHEET(&h), 0, 0);
    expect(i, "(i), area", h.r.number == 0 && a.number == 0 && a.doubled == 0);
    expect(i, "(i), pair", c.number == 0 && c.simple == 0 && c.first == 0 && c.second == 2);

    /* (j) square of side 10 with island of side 2: 200, 8, net 192 */
    read_into(i,
              HEAD "BORDO,7,18,0.000,0.000,0.000,0.000,0.000,1,10,5,"
                   "0.000,0.000,0.010,0.000,0.010,0.010,0.000,0.010,0.000,0.000,"
                   "0.004,0.004,0.006,0.004,0.006,0.006,0.004,0.006,0.004,0.004,EOF,", 0, &h);
    a = i->ring_area(THE_SHEET(&h), 0, 0);
    expect(i, "(j), outer", a.number == 0 && a.doubled == 200);
    a = i->ring_area(THE_SHEET(&h), 0, 1);
    expect(i, "(j), island", a.number == 0 && a.doubled == 8);
    a = i->net_area(THE_SHEET(&h), 0);
    expect(i, "(j), net", a.number == 0 && a.doubled == 192);
    c = i->ring_check(THE_SHEET(&h), 0, 1);
    expect(i, "(j), island simple", c.number == 0 && c.simple == 1 && c.first == 0 && c.second == 0);
    expect(i, "(j), no second island", i->ring_area(THE_SHEET(&h), 0, 2).number == 19);

    /* (k) `7+` BUILDING; `S7` ROAD in kind 2, PARCEL in kind 1. (l) letters `()` no surface right, `(7)` one */
    read_into(i, HEAD "BORDO,7+,  18," PLACE "   0,   4," RING_OF_4 "BORDO,S7,  18," PLACE "   0,   4," RING_OF_4 "EOF,", 1, &h);
    expect(i, "(k), 7+", i->border_at(THE_SHEET(&h), 0).class_of == 5);
    expect(i, "(k), S7 in kind 1", i->border_at(THE_SHEET(&h), 1).class_of == 6);
    read_into(i, HEAD2 "BORDO,S7,  18," PLACE "   0,   4," RING_OF_4 "EOF,", 1, &h);
    expect(i, "(k), S7 in kind 2", i->border_at(THE_SHEET(&h), 0).class_of == 3);
    read_into(i, HEAD "TESTO,(),18,0.000,0.000,0.000,TESTO\\,(7),0,0.000,0.000,0.000,EOF,", 0, &h);
    cxf_text t = i->text_at(THE_SHEET(&h), 0);
    expect(i, "(l), ()", t.number == 0 && t.surface_right == 0 && t.centroid == 0);
    t = i->text_at(THE_SHEET(&h), 1);
    expect(i, "(l), (7)", t.number == 0 && t.surface_right == 1 && t.centroid == 1);
}

/* The specification's own examples (000, 1.1.3 and 1.1.6 to 1.1.12), padded, one sheet. */
static void specification(const interface *i) {
    held h;
    read_into(i,
              "MAPPA,D458_021200,    2000.000,"
              "BORDO,A019_004100,  18,       0.000,  -14364.252,   49599.871,  -14397.849,   49578.550,   0,   6,"
              "   14941.747,  -29983.615,   14939.626,  -29987.401,   14936.901,  -29990.673,   14933.682,  -29988.247,"
              "   14937.623,  -29980.518,   14941.747,  -29983.615,"
              "TESTO,Corricioni,  40,       0.000,  -13763.925,   49312.319,"
              "TESTO,(731),  18,       0.000,    9592.299,  -27610.764,"
              "SIMBOLO,  14,       4.673,  -14497.567,   49620.796,"
              "FIDUCIALE,5,  20,   15951.230,  -30505.861,   15959.230,  -30497.861,"
              "LINEA,   6,   4,   15181.145,  -29700.213,   15179.456,  -29699.078,   15181.315,  -29698.258,   15181.145,  -29700.213,"
              "EOF,",
              1, &h);
    static const int64_t rows[6][15] = {
        {1, 0, 0, 18, 0, -14364252, 49599871, -14397849, 49578550, 11, 0, 6, 0, 0, 0},
        {2, 0, 0, 40, 0, -13763925, 49312319, 0, 0, 10, 0, 0, 11, 0, 6},
        {2, 0, 0, 18, 0, 9592299, -27610764, 0, 0, 5, 0, 0, 21, 0, 6},
        {3, 0, 14, 0, 4673, -14497567, 49620796, 0, 0, 0, 0, 0, 26, 0, 6},
        {4, 0, 20, 0, 0, 15951230, -30505861, 15959230, -30497861, 1, 0, 0, 26, 0, 6},
        {5, 0, 6, 0, 0, 0, 0, 0, 0, 0, 0, 4, 27, 0, 6},
    };
    expect(i, "the specification's examples",
           h.r.number == 0 && h.r.kind == 1 && memcmp(h.r.name, "D458_021200", 11) == 0 && h.r.scale == 2000000 && h.r.rows == 6 &&
               rows_are(&h, rows, sizeof rows / sizeof rows[0]) && h.r.letters == 27 &&
               memcmp(h.letters, "A019_004100Corricioni(731)5", 27) == 0 && h.r.points == 10 && h.points[0] == 14941747 &&
               h.points[1] == -29983615 && h.points[12] == 15181145 && h.points[19] == -29700213);
    expect(i, "the specification's border, in a map of kind 1", i->border_at(THE_SHEET(&h), 0).class_of == 6);
    expect(i, "the specification's surface right", i->text_at(THE_SHEET(&h), 2).surface_right == 1);
}

/* ---- T-05 ---- */

#define CORNERS "   14000.000,  -29000.000,   15000.000,  -29000.000,   14000.000,  -30000.000,   15000.000,  -30000.000,"
#define SCANNED                                                                                                        \
    HEAD "RIFERIMENTO_RASTER,D458_021200.TIF," CORNERS                                                                 \
         "LIBRETTO,(0),   1,   3,   15181.145,  -29700.213,   15179.456,  -29699.078,   15181.315,  -29698.258,EOF,"

/* One number of a row is altered, and the sheet is judged. */
static void altered(const interface *i, const char *what, const held *from, int place, int64_t value, uint64_t row) {
    held h = *from;
    uint8_t out[1000];
    h.rows[ROW_WIDTH * row + (uint64_t)place] = value;
    const cxf_text t = i->text_at(THE_SHEET(&h), 0);
    const cxf_written w = i->write(THE_SHEET(&h), out, sizeof out);
    expect(i, what, t.number == 15 && t.row == row && w.number == 15 && w.row == row && w.length == 0);
}

/* The sections of a scanned sheet (000, 1.1.13 and 1.1.14), which has no example of them. */
static void scanned(const interface *i) {
    static const int64_t rows[2][15] = {{6, 0, 0, 0, 0, 0, 0, 0, 0, 15, 0, 4, 0, 0, 0}, {7, 0, 1, 0, 0, 0, 0, 0, 0, 3, 0, 3, 15, 0, 4}};
    static const int64_t points[14] = {14000000, -29000000, 15000000,  -29000000, 14000000,  -30000000, 15000000,
                                       -30000000, 15181145, -29700213, 15179456,  -29699078, 15181315,  -29698258};
    uint8_t text[1000], out[1000];
    held h;
    for (uint64_t mode = 0; mode < 2; mode++) { /* first and last corner differ: they are no ring */
        read_into(i, SCANNED, mode, &h);
        expect(i, "a scanned sheet", h.r.number == 0 && h.r.rows == 2 && h.r.letters == 18 && h.r.islands == 0 && h.r.points == 7 &&
                                         rows_are(&h, rows, sizeof rows / sizeof rows[0]) && memcmp(h.letters, "D458_021200.TIF(0)", 18) == 0 &&
                                         memcmp(h.points, points, sizeof points) == 0);
    }
    const size_t n = file_of(SCANNED, text);
    cxf_written w = i->write(THE_SHEET(&h), out, sizeof out);
    expect(i, "a scanned sheet, written", w.number == 0 && w.length == n && memcmp(out, text, n) == 0);
    cxf_text t = i->text_at(THE_SHEET(&h), 0);
    expect(i, "a question on kind 6", t.number == 0 && t.surface_right == 0 && t.centroid == 0);
    t = i->text_at(THE_SHEET(&h), 1);
    expect(i, "a question on kind 7", t.number == 0 && t.surface_right == 0 && t.centroid == 0);
    for (uint64_t row = 0; row < 2; row++)
        expect(i, "a border's question on a raster row", i->border_at(THE_SHEET(&h), row).number == 19 &&
                   i->ring_area(THE_SHEET(&h), row, 0).number == 19 && i->net_area(THE_SHEET(&h), row).number == 19 &&
                   i->ring_check(THE_SHEET(&h), row, 0).number == 19);

    altered(i, "kind 6 with 3 vertices", &h, 11, 3, 0);
    altered(i, "kind 6 with 5 vertices", &h, 11, 5, 0);
    altered(i, "kind 6 with no vertices", &h, 11, 0, 0);
    altered(i, "kind 6 outside", &h, 1, 1, 0);
    altered(i, "kind 6 with a code", &h, 2, 1, 0);
    altered(i, "kind 6 with no letters", &h, 9, 0, 0);
    altered(i, "kind 6 with an island", &h, 10, 1, 0);
    altered(i, "kind 7 outside", &h, 1, 1, 1);
    altered(i, "kind 7 with one vertex", &h, 11, 1, 1);
    altered(i, "kind 7 with a size", &h, 3, 1, 1);
    altered(i, "kind 7 with a place", &h, 5, 1, 1);
    altered(i, "kind 8", &h, 0, 8, 1);
    h.rows[ROW_WIDTH + 2] = 2; /* well made, and a loose file can have it, but it is not written */
    w = i->write(THE_SHEET(&h), out, sizeof out);
    expect(i, "kind 7 with an unlisted type", w.number == 10 && w.row == 1 && i->text_at(THE_SHEET(&h), 1).number == 0);

    read_into(i, HEAD "RIFERIMENTO_RASTER, a.tif ,1.000,2.000,3.000,4.000,5.000,6.000,7.000,-0.000 note,LIBRETTO,0,2,2,0.000,0.000,0.000,0.000,EOF",
              NOTED, &h);
    expect(i, "a scanned sheet, loose", h.r.number == 0 && h.r.rows == 2 && h.r.letters == 6 && memcmp(h.letters, "a.tif0", 6) == 0 &&
                                            h.points[0] == 1000 && h.points[6] == 7000 && h.points[7] == 0 && h.rows[ROW_WIDTH + 2] == 2);
}

static void scanned_refused(const interface *i) {
#define REAL "       1.000,"
    for (uint64_t mode = 0; mode < 2; mode++) {
        refused(i, "RIFERIMENTO_RASTER outside", HEAD "RIFERIMENTO_RASTER\\,a," CORNERS "EOF,", mode, 7, 4, 34);
        refused(i, "LIBRETTO outside", HEAD "LIBRETTO\\,0,   1,   2," REAL REAL REAL REAL "EOF,", mode, 7, 4, 34);
        refused_number(i, "kind 6 with 3 points", HEAD "RIFERIMENTO_RASTER,a," REAL REAL REAL REAL REAL REAL "EOF,", mode, 12, 141, 1);
        refused(i, "kind 6 with 5 points", HEAD "RIFERIMENTO_RASTER,a," CORNERS REAL REAL "EOF,", mode, 7, 14, 169);
        refused(i, "kind 6 with no letters", HEAD "RIFERIMENTO_RASTER,," CORNERS "EOF,", mode, 9, 5, 54);
        refused(i, "kind 6 and then nothing", HEAD "RIFERIMENTO_RASTER,", mode, 2, 5, 54);
        refused(i, "kind 7 with one vertex", HEAD "LIBRETTO,0,   1,   1," REAL REAL "EOF,", mode, 11, 7, 53);
        refused_number(i, "kind 7 with a malformed type", HEAD "LIBRETTO,0,  x2,", mode, 6, 47, 3);
    }
    refused(i, "kind 7 with an unlisted type, exact", HEAD "LIBRETTO,0,   2,   2," REAL REAL REAL REAL "EOF,", 1, 10, 6, 47);
#undef REAL
}

/* ---- T-07 ---- */

/* Every function that takes a sheet refuses it 15 at that row, and alters nothing. */
static void not_made(const interface *i, const char *what, const held *from, uint64_t row) {
    static const int64_t figures[24];
    held h = *from;
    uint8_t out[2000];
    memset(out, '#', sizeof out);
    const cxf_written w = i->write(THE_SHEET(&h), out, sizeof out);
    const cxf_border b = i->border_at(THE_SHEET(&h), 0);
    const cxf_text t = i->text_at(THE_SHEET(&h), 0);
    const cxf_area a = i->ring_area(THE_SHEET(&h), 0, 0), n = i->net_area(THE_SHEET(&h), 0);
    const cxf_tally all = i->tally_sheet(THE_SHEET(&h)), one = i->tally_take(figures, 24, THE_SHEET(&h), 0);
    const cxf_ring c = i->ring_check(THE_SHEET(&h), 0, 0);
    const cxf_sup s = i->sup_write(THE_SHEET(&h), (const uint8_t *)"20261115", 8, out, sizeof out);
    const cxf_mask m = i->mask_of(THE_SHEET(&h), 0, 0, 0, 1);
    expect(i, what, w.number == 15 && w.row == row && b.number == 15 && b.row == row && t.number == 15 && t.row == row);
    expect(i, what, a.number == 15 && a.row == row && n.number == 15 && n.row == row && c.number == 15 && c.row == row);
    expect(i, what, all.number == 15 && all.row == row && one.number == 15 && one.row == row);
    expect(i, what, s.number == 15 && s.row == row && m.number == 15 && m.row == row);
    expect(i, what, memcmp(&h, from, sizeof h) == 0);
    for (size_t k = 0; k < sizeof out; k++) expect(i, what, out[k] == '#');
}

/* "The writer, the tally, the mask and any later operation on a sheet treat a row with a false start as not well made (15)." */
static void starts(const interface *i) {
    static const int64_t rows[4][15] = {
        {1, 0, 0, 18, 0, 0, 0, 0, 0, 1, 1, 8, 0, 0, 0},
        {3, 0, 14, 0, 0, 0, 0, 0, 0, 0, 0, 0, 1, 1, 8}, /* none of the three: "or would begin if it has none" */
        {2, 0, 0, 18, 0, 0, 0, 0, 0, 2, 0, 0, 1, 1, 8},
        {1, 0, 0, 18, 0, 0, 0, 0, 0, 3, 0, 4, 3, 1, 8},
    };
    held h, bad;
    read_into(i,
              HEAD "BORDO,7,  18," PLACE "   1,   8,   4," RING_OF_4 RING_OF_4 "SIMBOLO,  14,       0.000,       0.000,       0.000,"
                   "TESTO,ab,  18,       0.000,       0.000,       0.000,BORDO,19+,  18," PLACE "   0,   4," RING_OF_4 "EOF,", 1, &h);
    expect(i, "a reading's starts", h.r.number == 0 && rows_are(&h, rows, 4));
    expect(i, "a sheet with true starts", i->text_at(THE_SHEET(&h), 2).number == 0 && i->border_at(THE_SHEET(&h), 3).class_of == 5);
    for (uint64_t row = 0; row < 4; row++)
        for (int place = 12; place < 15; place++) {
            const int64_t true_start = rows[row][place];
            const int64_t wrong_starts[] = {true_start + 1, true_start - 1, -1, -true_start - 1, INT64_MIN, INT64_MAX, true_start + 4294967296LL};
            for (size_t k = 0; k < sizeof wrong_starts / sizeof wrong_starts[0]; k++) {
                bad = h;
                bad.rows[ROW_WIDTH * row + (uint64_t)place] = wrong_starts[k];
                not_made(i, "a false start", &bad, row);
            }
        }
    /* a count of a row that is good in itself makes the next row's start false */
    bad = h;
    bad.rows[ROW_WIDTH * 2 + 9] = 1;
    not_made(i, "a count that the next start contradicts", &bad, 3);
    /* a row alone has its starts at 0 */
    bad = h;
    memmove(bad.rows, h.rows + ROW_WIDTH * 3, ROW_WIDTH * sizeof bad.rows[0]);
    memmove(bad.letters, h.letters + 3, 3);
    memmove(bad.points, h.points + 16, 8 * sizeof bad.points[0]);
    bad.r.rows = 1;
    not_made(i, "a row alone with the starts that it had", &bad, 0);
    set_starts(bad.rows, 1);
    expect(i, "a row alone", i->border_at(THE_SHEET(&bad), 0).class_of == 5);
}

/* ---- T-08 ---- */

#define LINE_OF_2 "LINEA\\,   6,   2,       1.000,       2.000,       3.000,       4.000,"
#define ISLE "BORDO,7,  18,       0.500,       1.000,       2.000,       3.000,       4.000,   1,   8,   4," RING_OF_4 RING_OF_4
#define SIGN "TESTO,ab,  40,       0.250,       5.000,       6.000,"
#define MARK "FIDUCIALE,9,  20,       5.000,       6.000,       7.000,       8.000,"
#define PLUS "SIMBOLO,  14,       0.750,       5.000,       6.000,"
#define SCAN "RIFERIMENTO_RASTER,a.tif,       0.000,       0.000,       1.000,       0.000,       1.000,      -1.000,       0.000,      -1.000,"
#define BOOK "LIBRETTO,(0),   1,   3,       1.000,       2.000,       3.000,       4.000,       5.000,       6.000,"

/* One of each kind, in their order. */
static const char *const EACH[LAST_KIND] = {ISLE, SIGN, PLUS, MARK, LINE_OF_2, SCAN, BOOK};

/* A sheet less a row is the sheet that the file without it gives, and what is freed, and behind it, stands as it stood. */
static void less(const interface *i, const char *what, const char *with, uint64_t row, const char *without) {
    held before, h, rest;
    read_into(i, with, 1, &before);
    read_into(i, without, 1, &rest);
    h = before;
    const cxf_edited e = i->remove(THE_SHEET(&h), row);
    expect(i, what, before.r.number == 0 && rest.r.number == 0);
    expect(i, what, e.number == 0 && e.row == 0 && e.count == before.r.rows - 1 && e.count == rest.r.rows);
    const size_t rows = (size_t)rest.r.rows * ROW_WIDTH, letters = (size_t)rest.r.letters, islands = (size_t)rest.r.islands;
    const size_t points = (size_t)rest.r.points * 2;
    expect(i, what, memcmp(h.rows, rest.rows, rows * sizeof h.rows[0]) == 0 && memcmp(h.letters, rest.letters, letters) == 0 &&
                        memcmp(h.islands, rest.islands, islands * sizeof h.islands[0]) == 0 &&
                        memcmp(h.points, rest.points, points * sizeof h.points[0]) == 0);
    expect(i, what, memcmp(h.rows + rows, before.rows + rows, sizeof h.rows - rows * sizeof h.rows[0]) == 0 &&
                        memcmp(h.letters + letters, before.letters + letters, sizeof h.letters - letters) == 0 &&
                        memcmp(h.islands + islands, before.islands + islands, sizeof h.islands - islands * sizeof h.islands[0]) == 0 &&
                        memcmp(h.points + points, before.points + points, sizeof h.points - points * sizeof h.points[0]) == 0);
}

/* Rows before and behind an element of each kind, or none: it is taken out as the first, one between, the last or the only row. */
static void each_removed(const interface *i, const char *what, const char *before, uint64_t row, const char *behind) {
    char with[2000], without[2000], named[200];
    for (int k = 0; k < LAST_KIND; k++) {
        snprintf(with, sizeof with, HEAD "%s%s%sEOF,", before, EACH[k], behind);
        snprintf(without, sizeof without, HEAD "%s%sEOF,", before, behind);
        snprintf(named, sizeof named, "%s of kind %d removed", what, k + 1);
        less(i, named, with, row, without);
    }
}

static void removing(const interface *i) {
    held h, before;
    each_removed(i, "the first row", "", 0, ISLE SIGN LINE_OF_2);
    each_removed(i, "a row between", BOOK ISLE, 2, ISLE SCAN SIGN);
    each_removed(i, "the last row", SIGN ISLE SCAN, 3, "");
    each_removed(i, "the only row", "", 0, "");
    less(i, "a border between borders removed", HEAD ISLE ISLE ISLE "EOF,", 1, HEAD ISLE ISLE "EOF,");
    read_into(i, HEAD "EOF,", 1, &before);
    h = before;
    cxf_edited e = i->remove(THE_SHEET(&h), 0);
    expect(i, "a row removed of an empty sheet", e.number == 19 && e.row == 0 && e.count == 0 && memcmp(&h, &before, sizeof h) == 0);
    read_into(i, HEAD ISLE SIGN "EOF,", 1, &before);
    static const uint64_t none[] = {2, 3, 4294967296, UINT64_MAX};
    for (int k = 0; k < 4; k++) {
        h = before;
        e = i->remove(THE_SHEET(&h), none[k]);
        expect(i, "no such row", e.number == 19 && e.row == 0 && e.count == 0 && memcmp(&h, &before, sizeof h) == 0);
    }
    before.rows[ROW_WIDTH] = 9; /* 15 before 19 */
    h = before;
    e = i->remove(THE_SHEET(&h), 5);
    expect(i, "a row removed of a sheet that is not well made", e.number == 15 && e.row == 1 && e.count == 0 && memcmp(&h, &before, sizeof h) == 0);
    before.r.scale = 0;
    h = before;
    e = i->remove(THE_SHEET(&h), 5);
    expect(i, "a row removed of a sheet with a wrong header", e.number == 6 && e.row == 0 && memcmp(&h, &before, sizeof h) == 0);
}

/* A move that is refused leaves all as it was. */
static void not_moved(const interface *i, const char *what, const held *before, int64_t by_x, int64_t by_y, uint64_t refusal, uint64_t row) {
    held h = *before;
    const cxf_edited e = i->move(THE_SHEET(&h), by_x, by_y);
    expect(i, what, e.number == refusal && e.row == row && e.count == 0 && memcmp(&h, before, sizeof h) == 0);
}

/* One sort of coordinate stands at 0 while all others stand at 1,000 or -1,000, so that it alone just fits, or just does not. */
static void just_moved(const interface *i, const char *what, const char *high, const char *low) {
    held h;
    read_into(i, high, 1, &h); /* all others are below it */
    not_moved(i, what, &h, 99999999999 + 1, 0, 24, 0);
    not_moved(i, what, &h, 0, 99999999999 + 1, 24, 0);
    cxf_edited e = i->move(THE_SHEET(&h), 99999999999, 99999999999);
    expect(i, what, h.r.number == 0 && e.number == 0 && e.count == 1);
    read_into(i, low, 1, &h); /* all others are above it */
    not_moved(i, what, &h, -9999999999 - 1, 0, 24, 0);
    not_moved(i, what, &h, 0, -9999999999 - 1, 24, 0);
    e = i->move(THE_SHEET(&h), -9999999999, -9999999999);
    expect(i, what, h.r.number == 0 && e.number == 0 && e.count == 1);
}

static void moving(const interface *i) {
    held before, h;
    /* the angle, the sizes and what a kind lacks stay */
    read_into(i, HEAD ISLE SIGN MARK PLUS LINE_OF_2 SCAN BOOK "EOF,", 1, &before);
    h = before;
    cxf_edited e = i->move(THE_SHEET(&h), 1000000, -2000);
    static const int64_t places[LAST_KIND][6] = {
        {18, 500, 1001000, 0, 1003000, 2000}, {40, 250, 1005000, 4000, 0, 0}, {0, 0, 1005000, 4000, 1007000, 6000},
        {0, 750, 1005000, 4000, 0, 0},        {0, 0, 0, 0, 0, 0},             {0, 0, 0, 0, 0, 0}, {0, 0, 0, 0, 0, 0},
    };
    expect(i, "a move", before.r.number == 0 && e.number == 0 && e.row == 0 && e.count == LAST_KIND);
    for (uint64_t row = 0; row < LAST_KIND; row++) {
        expect(i, "a move's rows", memcmp(h.rows + ROW_WIDTH * row + 3, places[row], sizeof places[row]) == 0);
        memcpy(h.rows + ROW_WIDTH * row + 5, before.rows + ROW_WIDTH * row + 5, 4 * sizeof h.rows[0]);
    }
    expect(i, "the other numbers of the rows", memcmp(h.rows, before.rows, sizeof h.rows) == 0);
    for (uint64_t k = 0; k < 200; k++)
        expect(i, "a move's points", h.points[k] == before.points[k] + (k >= before.r.points * 2 ? 0 : k % 2 == 0 ? 1000000 : -2000));

    just_moved(i, "a position that just fits", HEAD "TESTO,a,   0,       0.000,       0.000,       0.000,EOF,",
               HEAD "TESTO,a,   0,       0.000,       0.000,       0.000,EOF,");
    just_moved(i, "a symbol that just fits", HEAD "SIMBOLO,  14,       0.000,       0.000,       0.000,EOF,",
               HEAD "SIMBOLO,  14,       0.000,       0.000,       0.000,EOF,");
    just_moved(i, "a mark that just fits", HEAD "FIDUCIALE,9,  20,       0.000,       0.000,      -1.000,      -1.000,EOF,",
               HEAD "FIDUCIALE,9,  20,       0.000,       0.000,       1.000,       1.000,EOF,");
    just_moved(i, "a label point that just fits", HEAD "FIDUCIALE,9,  20,      -1.000,      -1.000,       0.000,       0.000,EOF,",
               HEAD "FIDUCIALE,9,  20,       1.000,       1.000,       0.000,       0.000,EOF,");
    just_moved(i, "a line's vertex that just fits", HEAD "LINEA,   1,   2,      -1.000,      -1.000,       0.000,       0.000,EOF,",
               HEAD "LINEA,   1,   2,       1.000,       1.000,       0.000,       0.000,EOF,");
#define AT(m) "      " m ".000,      " m ".000,"
#define POINT_RING(m) AT(m) AT(m) AT(m) AT(m)
    just_moved(i, "a border's position that just fits", HEAD "BORDO,7,  18,       0.000," AT(" 0") AT("-1") "   0,   4," POINT_RING("-1") "EOF,",
               HEAD "BORDO,7,  18,       0.000," AT(" 0") AT(" 1") "   0,   4," POINT_RING(" 1") "EOF,");
    just_moved(i, "a border's vertex that just fits",
               HEAD "BORDO,7,  18,       0.000," AT("-1") AT("-1") "   0,   4," AT("-1") AT(" 0") AT("-1") AT("-1") "EOF,",
               HEAD "BORDO,7,  18,       0.000," AT(" 1") AT(" 1") "   0,   4," AT(" 1") AT(" 0") AT(" 1") AT(" 1") "EOF,");
    just_moved(i, "an inner point that just fits", HEAD "BORDO,7,  18,       0.000," AT("-1") AT(" 0") "   0,   4," POINT_RING("-1") "EOF,",
               HEAD "BORDO,7,  18,       0.000," AT(" 1") AT(" 0") "   0,   4," POINT_RING(" 1") "EOF,");
    just_moved(i, "an island's vertex that just fits",
               HEAD "BORDO,7,  18,       0.000," AT("-1") AT("-1") "   1,   8,   4," POINT_RING("-1") AT("-1") AT(" 0") AT("-1") AT("-1") "EOF,",
               HEAD "BORDO,7,  18,       0.000," AT(" 1") AT(" 1") "   1,   8,   4," POINT_RING(" 1") AT(" 1") AT(" 0") AT(" 1") AT(" 1") "EOF,");
    just_moved(i, "a raster's corner that just fits", HEAD "RIFERIMENTO_RASTER,a," AT("-1") AT("-1") AT("-1") AT(" 0") "EOF,",
               HEAD "RIFERIMENTO_RASTER,a," AT(" 1") AT(" 1") AT(" 1") AT(" 0") "EOF,");
    just_moved(i, "a survey book's vertex that just fits", HEAD "LIBRETTO,0,   1,   2," AT("-1") AT(" 0") "EOF,",
               HEAD "LIBRETTO,0,   1,   2," AT(" 1") AT(" 0") "EOF,");
#undef POINT_RING
#undef AT

    static const int64_t beyond[] = {109999999999, -109999999999, INT64_MAX, INT64_MIN};
    read_into(i, HEAD "EOF,", 1, &before);
    for (int k = 0; k < 4; k++) {
        not_moved(i, "an empty sheet, too far in x", &before, beyond[k], 0, 24, 0);
        not_moved(i, "an empty sheet, too far in y", &before, 0, beyond[k], 24, 0);
    }
    h = before;
    e = i->move(THE_SHEET(&h), 109999999998, -109999999998);
    expect(i, "an empty sheet, as far as may be", e.number == 0 && e.count == 0 && memcmp(&h, &before, sizeof h) == 0);
    read_into(i, HEAD "LINEA,   1,   2,-9999999.999,99999999.999,-9999999.999,99999999.999,EOF,", 1, &h);
    e = i->move(THE_SHEET(&h), 109999999998, -109999999998);
    expect(i, "from one end of the range to the other", e.number == 0 && e.count == 1 && h.points[0] == 99999999999 && h.points[3] == -9999999999);
    read_into(i, HEAD ISLE SIGN "EOF,", 1, &before);
    before.rows[ROW_WIDTH] = 9;
    not_moved(i, "a sheet that is not well made, too far", &before, INT64_MAX, 0, 15, 1);
    before.r.scale = 0;
    not_moved(i, "a wrong header, too far", &before, INT64_MAX, 0, 6, 0);
}

/* ---- Listing ---- */

static void listing_says(const interface *i, const char *records, const char *text) {
    uint8_t src[2000], out[1000];
    const cxf_listed l = i->listing(src, file_of(records, src), out, sizeof out);
    expect(i, text, l.number == 0 && l.length == strlen(text) && memcmp(out, text, strlen(text)) == 0);
}

/* "more input gives `REFUSED 1 0 0`", and T-04 a fourth number. */
static void listing_too_long(const interface *i) {
    static uint8_t src[8193];
    uint8_t out[100];
    const cxf_listed l = i->listing(src, sizeof src, out, sizeof out);
    expect(i, "a listing of 8,193 bytes", l.number == 0 && l.length == 16 && memcmp(out, "REFUSED 1 0 0 0\n", 16) == 0);
}

static void listing(const interface *i) {
    static const char *const text = "MAP 1 Z999_000100 1000000\nCONFINE 0 0 0 0\nOTHER 0 0 0 0\nROAD 0 0 0 0\nWATER 0 0 0 0\n"
                                    "BUILDING 0 0 0 0\nPARCEL 1 400000000 0 0\nROWS 2\n";
    uint8_t src[2000], out[1000];
    const size_t n = file_of("MAPPA,Z999_000100,1000.000,BORDO,7,18,0.000,1.000,1.000,1.000,1.000,0,5,0.000,0.000,10.000,0.000,"
                             "10.000,20.000,0.000,20.000,0.000,0.000,TESTO\\,EOF,18,0.000,3.000,-0.005,EOF,", src);
    cxf_listed l = i->listing(src, n, out, sizeof out);
    expect(i, "the listing", l.number == 0 && l.length == strlen(text) && memcmp(out, text, strlen(text)) == 0);
    l = i->listing(src, n, out, strlen(text) - 1);
    expect(i, "the listing with no room", l.number == 14 && l.length == strlen(text));
    listing_says(i, HEAD "TESTO,a,1x,", "REFUSED 8 6 44 2\n");
    listing_says(i, "MAPPA,Z999_000100,    ,", "REFUSED 8 3 20 5\n");
    listing_says(i, HEAD "TESTI,", "REFUSED 7 4 34 0\n");
    listing_says(i, HEAD "TESTO,a,0,0.000,0.000,0.000,BORDO,7,18,0.000,0.000,0.000,0.000,0.000,0,4,"
                 "0.000,0.000,20000.001,0.000,0.000,0.000,0.000,0.000,EOF,", "REFUSED 17 1 0 0\n");
    listing_too_long(i);
}

/* ---- T-09 ---- */

/* A number with a tail: the former reading has its value, loose mode refuses it at the tail's first letter. */
static void tail(const interface *i, int real, const char *text, uint64_t at, int64_t value) {
    number(i, real, text, 2, 0, value);
    column(i, real, text, 0, at);
}

static void tails(const interface *i) {
    char text[400];
    tail(i, 0, "   1          numero isole", 15, 1);
    tail(i, 0, "1 234", 3, 1);
    tail(i, 0, "0 0", 3, 0);
    tail(i, 0, "9999 \t", 6, 9999);
    tail(i, 1, "1.000 x", 7, 1000);
    tail(i, 1, "    -0.005 -0.005", 12, -5);
    tail(i, 1, "-0.000 \xff", 8, 0);
    tail(i, 1, "99999999.999    .", 17, 99999999999);
    /* blanks or none */
    for (uint64_t mode = 0; mode < 3; mode += 2) {
        number(i, 0, "18", mode, 0, 18);
        number(i, 0, " 18 ", mode, 0, 18);
        number(i, 1, "+1.000      ", mode, 0, 1000);
        column(i, 0, "18x", mode, 3);
        column(i, 0, "18\t", mode, 3);
        column(i, 1, "1.000x", mode, 6);
        column(i, 1, "1.00 ", mode, 5);
        column(i, 0, "- 1", mode, 1);
    }
    memset(text, ' ', sizeof text);
    memcpy(text, "18", 2);
    for (size_t n = 2; n < 300; n++) {
        const cxf_number loose = i->integer((const uint8_t *)text, n, 0), former = i->integer((const uint8_t *)text, n, 2);
        expect(i, "18 and blanks", loose.number == 0 && loose.value == 18 && former.number == 0 && former.value == 18);
    }
    text[299] = '7';
    const cxf_number loose = i->integer((const uint8_t *)text, 300, 0), former = i->integer((const uint8_t *)text, 300, 2);
    expect(i, "18, blanks and a 7", loose.number == 8 && loose.column == 300 && former.number == 0);
    number(i, 0, " 018", 2, 0, 18);
    number(i, 1, "      -0.000", 2, 0, 0);
}

static void convert_says(const interface *i, const char *records, const char *records_after) {
    static uint8_t src[20000], text[40000], out[40000];
    const size_t n = file_of(records, src), m = records_after[0] == 'R' ? strlen(records_after) : file_of(records_after, text);
    if (records_after[0] == 'R') memcpy(text, records_after, m);
    memset(out, '#', sizeof out);
    cxf_listed l = i->convert(src, n, out, sizeof out);
    expect(i, records, l.number == 0 && l.length == m && memcmp(out, text, m) == 0 && out[m] == '#');
    memset(out, '#', sizeof out);
    l = i->convert(src, n, out, m - 1);
    expect(i, records, l.number == 14 && l.length == m && out[0] == '#');
    l = i->convert(src, n, out, m);
    expect(i, records, l.number == 0 && l.length == m && out[m] == '#');
}

/* A file of the first year, with a note behind each of its numbers, as the specification prints its examples. */
#define FIRST_YEAR                                                                                                                   \
    "MAPPA,D458_021200,2000.000 scala,BORDO,A019_004100,18 dimensione,0.000 angolo,-14364.252 x,49599.871 y,-14397.849 x int,"          \
    "49578.550 y int,   1          numero isole,8 numero totale di vertici,4 vertici isola,"                                            \
    "0.000 x1,0.000 y1,0.001 x2,0.000 y2,0.000 x3,0.001 y3,0.000 x4,0.000 y4,0.000 5,0.000 6,0.001 7,0.000 8,0.000 9,0.001 10,"          \
    "0.000 EOF,0.000 \\,TESTO,Corricioni,40 40,0.000 0,-13763.925 1,49312.319 2,SIMBOLO,14 x,4.673 x,-14497.567 x,49620.796 x,"          \
    "FIDUCIALE,5,20 x,15951.230 x,-30505.861 x,15959.230 x,-30497.861 x,LINEA,6 x,2 x,1.000 x,2.000 x,3.000 x,-0.000 x,"                   \
    "RIFERIMENTO_RASTER,a,1.000 x,1.000 x,1.000 x,1.000 x,1.000 x,1.000 x,1.000 x,1.000 x,LIBRETTO,0,1 x,2 x,1.000 x,1.000 x,1.000 x,1.000 x,EOF"
#define ONES(n) n n n n n n n n
#define ITS_CLEAN_FILE                                                                                                               \
    "MAPPA,D458_021200,    2000.000,BORDO,A019_004100,  18,       0.000,  -14364.252,   49599.871,  -14397.849,   49578.550,   1,   8,   4," \
    RING_OF_4 RING_OF_4 "TESTO,Corricioni,  40,       0.000,  -13763.925,   49312.319,SIMBOLO,  14,       4.673,  -14497.567,   49620.796,"  \
    "FIDUCIALE,5,  20,   15951.230,  -30505.861,   15959.230,  -30497.861,LINEA,   6,   2,       1.000,       2.000,       3.000,       0.000," \
    "RIFERIMENTO_RASTER,a," ONES("       1.000,") "LIBRETTO,0,   1,   2,       1.000,       1.000,       1.000,       1.000,EOF,"

static void converting(const interface *i) {
    static uint8_t src[8193], out[40000];
    held h;
    convert_says(i, ITS_CLEAN_FILE, ITS_CLEAN_FILE);
    convert_says(i, FIRST_YEAR, ITS_CLEAN_FILE);
    refused_number(i, "a file of the first year in loose mode", FIRST_YEAR, 0, 3, 20, 10);
    read_into(i, FIRST_YEAR, 2, &h);
    expect(i, "a file of the first year, as it was read",
           h.r.number == 0 && h.r.rows == 7 && h.r.points == 16 && h.points[18] == 3000 && h.points[19] == 0);
    /* the first tail alone counts, and only where the record itself is good */
    refused_number(i, "a tail that is a number", HEAD "LINEA,1,2,0.000,1.000 2.000,3.000 x,0.000,EOF,", 0, 8, 54, 7);
    for (size_t n = 255; n <= 256; n++) { /* blanks behind a number to the end of the longest record, and one more */
        size_t at = file_of(HEAD "TESTO,a,", src);
        memset(src + at, ' ', n);
        src[at] = '1';
        at += n + file_of(",0.000,0.000,0.000,EOF,", src + at + n);
        const cxf_reading r = i->read(src, at, 0, h.rows, 20 * ROW_WIDTH, h.letters, 200, h.islands, 20, h.points, 200);
        expect(i, "blanks behind a number",
               n == 255 ? r.number == 0 && r.rows == 1 : r.number == 4 && r.record == 6 && r.offset == 44 && r.column == 0);
    }
    convert_says(i, HEAD "EOF", HEAD "EOF,");
    convert_says(i, " MAPPA ,Z999_000100 , 1000.000 , TESTO\\ , a b ,+1.000,EOF", "REFUSED 8 6 52 1\n");
    convert_says(i, HEAD "TESTO,a,1x,", "REFUSED 8 6 44 2\n");
    convert_says(i, "", "REFUSED 2 1 0 0\n");
    convert_says(i, "MAPPO,", "REFUSED 6 1 0 0\n");
    convert_says(i, HEAD "TESTI,", "REFUSED 7 4 34 0\n");
    convert_says(i, HEAD "TESTO, ,", "REFUSED 9 5 41 0\n");
    convert_says(i, HEAD "LINEA,1,1 x,", "REFUSED 11 6 44 0\n");
    convert_says(i, HEAD "BORDO,7,18 x," PLACE "0,4,0.000,0.000,0.000,0.000,0.000,0.000,0.000,0.001,EOF,", "REFUSED 12 21 175 0\n");
    convert_says(i, HEAD "LINEA,1,2,0.000,0.000,0.000,0.000,LINEA,99 x,2,0.000,0.000,0.000,0.000,EOF,", "REFUSED 10 1 0 0\n");
    convert_says(i, HEAD "LINEA,0,2,0.000,0.000,0.000,0.000,EOF,", "REFUSED 10 0 0 0\n");
    /* a ring too wide is no matter: there is no tally */
    convert_says(i, HEAD "BORDO,7,  18," PLACE "   0,   4,0.000 x,0.000,99999999.999,0.000,0.000,0.000,0.000,0.000,EOF,",
                 HEAD "BORDO,7,  18," PLACE "   0,   4,       0.000,       0.000,99999999.999,       0.000,"
                      "       0.000,       0.000,       0.000,       0.000,EOF,");
    /* 8,192 bytes, most of them behind EOF; one more is too many */
    const size_t n = file_of(HEAD "EOF,", src);
    memset(src + n, 0, sizeof src - n);
    cxf_listed l = i->convert(src, 8192, out, sizeof out);
    expect(i, "a conversion of 8,192 bytes", l.number == 0 && l.length == n && memcmp(out, src, n) == 0);
    l = i->convert(src, 8193, out, sizeof out);
    expect(i, "a conversion of 8,193 bytes", l.number == 0 && l.length == 16 && memcmp(out, "REFUSED 1 0 0 0\n", 16) == 0);
    /* the clean file is longer than 8,192 bytes: 600 vertices of 2 * 6 bytes, which become 2 * 14 */
    size_t at = file_of("MAPPA,Z999_000100,1.000,LINEA,1,600,", src); /* header 34 bytes when clean, the line's counts 19 */
    for (int k = 0; k < 1200; k++) memcpy(src + at, "0.000\n", 6), at += 6;
    memcpy(src + at, "EOF", 3), at += 3;
    l = i->convert(src, at, out, sizeof out);
    expect(i, "a clean file that is longer than 8,192 bytes", at <= 8192 && l.number == 0 && l.length == 34 + 19 + 1200 * 14 + 5);
    /* the listing takes the new loose mode */
    listing_says(i, HEAD "TESTO,a,18 note,", "REFUSED 8 6 44 4\n");
}

/* T-02: "OTHER holds only for header kind 3. In kinds 1 and 2 such letters go on to the later rules." Sides of 1 m, 2 m and
   3 m: doubled areas 2,000,000, 8,000,000 and 18,000,000. */
#define BORDER(letters, side) \
    "BORDO," letters ",18,0.000,0.000,0.000,0.000,0.000,0,5,0.000,0.000," side ",0.000," side "," side ",0.000," side ",0.000,0.000,"
#define ELEVEN BORDER("12345678901", "1.000") BORDER("1234567890+", "2.000") BORDER("S1234567890", "3.000")

static void of_eleven(const interface *i, const char *what, const char *records, const uint64_t classes[3], const char *text) {
    held h;
    uint8_t src[2000], out[1000];
    read_into(i, records, 0, &h);
    for (uint64_t row = 0; row < 3; row++) expect(i, what, i->border_at(THE_SHEET(&h), row).class_of == classes[row]);
    const cxf_listed l = i->listing(src, file_of(records, src), out, sizeof out);
    expect(i, what, l.number == 0 && l.length == strlen(text) && memcmp(out, text, strlen(text)) == 0);
}

static void eleven_letters(const interface *i) {
    of_eleven(i, "eleven letters in kind 1", HEAD ELEVEN "EOF,", (const uint64_t[]){6, 5, 6},
              "MAP 1 Z999_000100 1000000\nCONFINE 0 0 0 0\nOTHER 0 0 0 0\nROAD 0 0 0 0\nWATER 0 0 0 0\nBUILDING 1 8000000 0 0\n"
              "PARCEL 2 20000000 0 0\nROWS 3\n");
    of_eleven(i, "eleven letters in kind 2", HEAD2 ELEVEN "EOF,", (const uint64_t[]){6, 5, 3},
              "MAP 2 Z999_000100 1000000\nCONFINE 0 0 0 0\nOTHER 0 0 0 0\nROAD 1 18000000 0 0\nWATER 0 0 0 0\nBUILDING 1 8000000 0 0\n"
              "PARCEL 1 2000000 0 0\nROWS 3\n");
    of_eleven(i, "eleven letters in kind 3", HEAD3 ELEVEN "EOF,", (const uint64_t[]){2, 2, 2},
              "MAP 3 Z999_0001QU 1000000\nCONFINE 0 0 0 0\nOTHER 3 28000000 0 0\nROAD 0 0 0 0\nWATER 0 0 0 0\nBUILDING 0 0 0 0\n"
              "PARCEL 0 0 0 0\nROWS 3\n");
}

/* ---- T-10 ---- */

/* A SUP file as lines of name and figure. */
typedef struct { const char *left, *right; } sup_line;
typedef struct { sup_line line[24]; int count; } sup_file;

static size_t sup_text(const sup_file *f, uint8_t *out) {
    char text[64];
    for (int k = 0; k < f->count; k++) {
        snprintf(text, sizeof text, "%-11.11s%10.10s\r\n", f->line[k].left, f->line[k].right);
        memcpy(out + 23 * k, text, 23);
    }
    return 23 * (size_t)f->count;
}

static void checked(const interface *i, const char *what, const held *h, const sup_file *f, uint64_t wrong_line) {
    uint8_t text[1000];
    const cxf_sup_checked c = i->sup_check(THE_SHEET(h), text, sup_text(f, text));
    expect(i, what, c.number == (wrong_line == 0 ? 0 : 25) && c.row == 0 && c.line == wrong_line);
}

/* Line `line`, from 1, says `figure` in place of what it said. */
static void figure_says(const interface *i, const held *h, const sup_file *from, int line, const char *figure, uint64_t wrong_line) {
    sup_file f = *from;
    f.line[line - 1].right = figure;
    checked(i, figure, h, &f, wrong_line);
}

/* TOTALE or CONFINE, and SBILANCIO with it. */
static void total_says(const interface *i, const held *h, const sup_file *from, int line, const char *figure, const char *balance,
                       uint64_t wrong_line) {
    sup_file f = *from;
    f.line[line - 1].right = figure;
    f.line[f.count - 1].right = balance;
    checked(i, figure, h, &f, wrong_line);
}

/* From `least` to `most` a line's figure is right; one less and one more are wrong. */
static void between_these(const interface *i, const held *h, const sup_file *from, int line, int least, int most) {
    char figure[16];
    for (int n = least - 2; n <= most + 2; n++) {
        snprintf(figure, sizeof figure, "%d", n);
        figure_says(i, h, from, line, figure, n >= least && n <= most ? 0 : (uint64_t)line);
    }
}

/* D in square millimetres: CONFINE 200,000,000; parcels 7 8,000,000 and 8,820,000, 8 4,500,000, together 21,320,000; a road 2,000,000, a water
   500,000; a building 8,000,000. TOTALE 23,820,000. A figure F is right where 2,000,000 F is within 2,000,000 n of D. */
#define TOWN                                                                                                                    \
    BORDER("7", "2.100") BORDER("Z999_000100", "10.000") BORDER("8", "1.500") BORDER("STRADA", "1.000") BORDER("9+", "2.000")    \
    BORDER("7", "2.000") BORDER("ACQUA", "0.500")

static const sup_file TOWNS_SUP = {
    {{"Z999_000100", "20261115"}, {"N.FABBRIC", "1"}, {"N.PARTIC", "3"}, {"N.STRADE", "1"}, {"N.ACQUE", "1"}, {"N.SVIL-ALL", "0"},
     {"FABBRIC", "4"}, {"7", "4"}, {"7", "4"}, {"8", "2"}, {"PARTIC", "11"}, {"STRADE", "1"}, {"ACQUE", "0"}, {"SVIL-ALL", "0"},
     {"TOTALE", "12"}, {"CONFINE", "100"}, {"SBILANCIO", "-88"}},
    17,
};

static void allowances(const interface *i, const held *h) {
    const sup_file *f = &TOWNS_SUP;
    checked(i, "the town's SUP", h, f, 0);
    between_these(i, h, f, 7, 3, 5);       /* 4 */
    between_these(i, h, f, 8, 3, 5);       /* 4 */
    between_these(i, h, f, 9, 4, 5);       /* 4.41 */
    between_these(i, h, f, 10, 2, 3);      /* 2.25 */
    between_these(i, h, f, 11, 8, 13);     /* 10.66, three parcels */
    between_these(i, h, f, 12, 0, 2);      /* 1 */
    between_these(i, h, f, 13, 0, 1);      /* 0.25 */
    between_these(i, h, f, 14, 0, 0);      /* no island: 0 alone */
    for (int line = 2; line <= 6; line++) { /* counts are what they are */
        const int count = line == 3 ? 3 : line == 6 ? 0 : 1;
        between_these(i, h, f, line, count, count);
    }
    between_these(i, h, f, 17, -88, -88);
    total_says(i, h, f, 15, "7", "-93", 0); /* 11.91, three parcels, a road and a water: 6.91 to 16.91 */
    total_says(i, h, f, 15, "6", "-94", 15);
    total_says(i, h, f, 15, "16", "-84", 0);
    total_says(i, h, f, 15, "17", "-83", 15);
    total_says(i, h, f, 15, "16", "-88", 17);
    total_says(i, h, f, 16, "99", "-87", 0);
    total_says(i, h, f, 16, "101", "-89", 0);
    total_says(i, h, f, 16, "98", "-86", 16);
    total_says(i, h, f, 16, "102", "-90", 16);
    total_says(i, h, f, 16, "101", "-88", 17);
    /* equal codes in order of their exact area, though the figures fall */
    sup_file fall = *f;
    fall.line[7].right = "5";
    checked(i, "figures of equal codes that fall", h, &fall, 0);
    fall.line[8].right = "3";
    checked(i, "the second of equal codes", h, &fall, 9);
}

static void sup_forms(const interface *i, const held *h) {
    static const char *const wrong_forms[] = {"0000000004", "        04", "        +4", "        -4", "4         ", "        4 ",
                                              "       4.0", "         x", "          ", "       4 4", "        -0", "         -"};
    static const char *const zeros[] = {"        -0", "        00", "        +0", "0000000000"};
    static const char *const dates[] = {"20230231", "00000101", "99991231"};
    static const char *const bad_dates[] = {"20231301", "20230132", "20230001", "2023010", "20260100"};
    const sup_file *f = &TOWNS_SUP;
    for (int k = 0; k < 12; k++) figure_says(i, h, f, 7, wrong_forms[k], 7);
    for (int k = 0; k < 4; k++) {
        figure_says(i, h, f, 14, zeros[k], 14);
        figure_says(i, h, f, 13, zeros[k], 13);
        figure_says(i, h, f, 6, zeros[k], 6);
    }
    for (int k = 0; k < 3; k++) figure_says(i, h, f, 1, dates[k], 0);
    for (int k = 0; k < 5; k++) figure_says(i, h, f, 1, bad_dates[k], 1);
    figure_says(i, h, f, 1, "020261115", 1);
    figure_says(i, h, f, 1, "20261115 ", 1);

    uint8_t text[1000];
    const size_t n = sup_text(f, text);
    for (size_t len = 0; len < n; len++) { /* missing lines, and a last one that is cut */
        const cxf_sup_checked c = i->sup_check(THE_SHEET(h), text, len);
        expect(i, "a SUP that is cut", c.number == 25 && c.line == len / 23 + 1);
    }
    text[n] = '\r';
    cxf_sup_checked c = i->sup_check(THE_SHEET(h), text, n + 1);
    expect(i, "a byte behind the last line", c.number == 25 && c.row == 0 && c.line == 18);
    text[21] = '\n';
    memmove(text + 22, text + 23, n - 23);
    c = i->sup_check(THE_SHEET(h), text, n - 1);
    expect(i, "LF alone", c.number == 25 && c.line == 1);
    sup_file other = *f;
    other.line[7] = f->line[9], other.line[9] = f->line[7];
    checked(i, "parcels in another order", h, &other, 8);
    other = *f;
    other.line[11].left = "STRADA";
    checked(i, "another name", h, &other, 12);
}

static void sup_checks(const interface *i) {
    held h;
    read_into(i, HEAD TOWN "EOF,", 0, &h);
    allowances(i, &h);
    sup_forms(i, &h);

    /* "For kind 3 the allowance on both totals is 1 m2 per OTHER border": 1, 4 and 9, together 14, so 11 to 17 each */
    static const sup_file union_sup = {
        {{"Z999_0001QU", "20261115"}, {"N.FABBRIC", "0"}, {"N.PARTIC", "0"}, {"N.STRADE", "0"}, {"N.ACQUE", "0"}, {"N.SVIL-ALL", "0"},
         {"FABBRIC", "0"}, {"1234567890+", "4"}, {"12345678901", "1"}, {"S1234567890", "9"}, {"PARTIC", "0"}, {"STRADE", "0"},
         {"ACQUE", "0"}, {"SVIL-ALL", "0"}, {"TOTALE", "14"}, {"CONFINE", "14"}, {"SBILANCIO", "0"}},
        17,
    };
    held quadro;
    read_into(i, HEAD3 ELEVEN "EOF,", 0, &quadro);
    checked(i, "a SUP of kind 3", &quadro, &union_sup, 0);
    total_says(i, &quadro, &union_sup, 15, "17", "3", 0);
    total_says(i, &quadro, &union_sup, 15, "18", "4", 15);
    total_says(i, &quadro, &union_sup, 16, "11", "3", 0);
    total_says(i, &quadro, &union_sup, 16, "10", "4", 16);
    between_these(i, &quadro, &union_sup, 7, 0, 0);
    between_these(i, &quadro, &union_sup, 9, 0, 2);

    /* an empty sheet; a code of 12 letters */
    static const sup_file empty_sup = {
        {{"Z999_000100", "20261115"}, {"N.FABBRIC", "0"}, {"N.PARTIC", "0"}, {"N.STRADE", "0"}, {"N.ACQUE", "0"}, {"N.SVIL-ALL", "0"},
         {"FABBRIC", "0"}, {"PARTIC", "0"}, {"STRADE", "0"}, {"ACQUE", "0"}, {"SVIL-ALL", "0"}, {"TOTALE", "0"}, {"CONFINE", "0"},
         {"SBILANCIO", "0"}},
        14,
    };
    held empty;
    read_into(i, HEAD "EOF,", 0, &empty);
    checked(i, "a SUP of an empty sheet", &empty, &empty_sup, 0);
    for (int line = 2; line <= 14; line++) between_these(i, &empty, &empty_sup, line, 0, 0);
    sup_file twelve = empty_sup;
    held long_code;
    read_into(i, HEAD BORDER("123456789012", "1.000") "EOF,", 0, &long_code);
    twelve.line[2].right = "1";
    memmove(twelve.line + 8, twelve.line + 7, 7 * sizeof twelve.line[0]);
    twelve.line[7] = (sup_line){"12345678901", "1"};
    twelve.count = 15;
    checked(i, "a code of 12 letters", &long_code, &twelve, 8);

    /* the sheet's own refusals come first, whatever the file */
    h.rows[ROW_WIDTH * 2] = 9;
    cxf_sup_checked c = i->sup_check(THE_SHEET(&h), NULL, 0);
    expect(i, "a SUP of a sheet that is not well made", c.number == 15 && c.row == 2 && c.line == 0);
    h.r.scale = 0;
    c = i->sup_check(THE_SHEET(&h), NULL, 0);
    expect(i, "a SUP of a sheet with a wrong header", c.number == 6 && c.row == 0 && c.line == 0);
    read_into(i, HEAD TOWN BORDER("10", "20000.001") "EOF,", 0, &h);
    c = i->sup_check(THE_SHEET(&h), NULL, 0);
    expect(i, "a SUP of a ring too wide", c.number == 17 && c.row == 7 && c.line == 0);
}

static void tiles(const interface *i) {
    cxf_tile t = i->tile_point(5000, 5000000000LL, 6000, 5000000000LL - 512);
    expect(i, "the tile", t.number == 0 && t.east == 3.90625f && t.south == 2.0f);
    t = i->tile_point(0, 0, 16777216, 0);
    expect(i, "a tile point outside", t.number == 20 && t.east == 0.0f && t.south == 0.0f);
}

static void records(const interface *i) {
    cxf_record r = i->record_at((const uint8_t *)" EOF", 4, 1, 0, 1);
    expect(i, "EOF as the bytes left", r.number == 0 && r.start == 1 && r.length == 3 && r.next == 4);
    expect(i, "blank and EOF as the bytes left", i->record_at((const uint8_t *)" EOF", 4, 0, 0, 1).number == 2);
    expect(i, "EOF where none is due", i->record_at((const uint8_t *)"EOF", 3, 0, 0, 0).number == 2);
    r = i->record_at((const uint8_t *)"\r\n", 2, 0, 1, 0);
    expect(i, "an empty record", r.number == 0 && r.start == 0 && r.length == 0 && r.next == 2);
    expect(i, "a CR of the record before", i->record_at((const uint8_t *)"\r\n", 2, 1, 1, 0).number == 3);
    expect(i, "two CR", i->record_at((const uint8_t *)"a\r\r\n", 4, 0, 0, 0).number == 5);
}

#define SIDE(name, P)                                                                                                              \
    {name, P##_read, P##_write, P##_border_at, P##_text_at, P##_ring_area, P##_net_area, P##_tally_sheet, P##_tally_take,          \
     P##_ring_check, P##_tile_point, P##_record_at, P##_integer, P##_real, P##_listing, P##_sup_write, P##_mask_of, \
     P##_remove, P##_move, P##_convert, P##_sup_check}

uint64_t examples(void) {
    static const interface sides[2] = {SIDE("library", cxf), SIDE("reference", ref)};
    wrong = 0;
    for (int k = 0; k < 2; k++) {
        numbers(&sides[k]);
        files(&sides[k]);
        scanned(&sides[k]);
        scanned_refused(&sides[k]);
        specification(&sides[k]);
        starts(&sides[k]);
        removing(&sides[k]);
        moving(&sides[k]);
        listing(&sides[k]);
        tails(&sides[k]);
        converting(&sides[k]);
        eleven_letters(&sides[k]);
        sup_checks(&sides[k]);
        tiles(&sides[k]);
        records(&sides[k]);
    }
    return wrong;
}
