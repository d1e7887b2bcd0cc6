/* sup_cases SIDE [SHEET DATE]: SUP files worked by hand (document 02, T-01 and T-02), asked of the reference, or of the library where
   SIDE says so. The arithmetic stands at each case; sup_cases.out has the answers, worked out from it and not by a
   program. With a sheet and a date only that sheet's SUP file is printed.
   D is a doubled area in square millimetres, F = floor((D + 1,000,000) / 2,000,000) the figure in square metres, so that
   D = 2,000,000 k shows k. Printed are the title, then number, row, line and length, then the text where there is one. */
#include "reference.h"

#include <stdio.h>
#include <stdlib.h>
#include <string.h>

enum { ROWS = 32, LETTERS = 400, ISLANDS = 16, POINTS = 60000, OUT = 2000 };

static uint64_t kind, count;
static const char *name;
static int64_t rows[ROWS * ROW_WIDTH], points[2 * POINTS];
static uint8_t letters[LETTERS];
static uint16_t islands[ISLANDS];
static size_t letters_len, islands_len, points_len;
static cxf_sup (*write_sup)(CXF_SHEET, const uint8_t *, size_t, uint8_t *, size_t);

/* ---- Sheets ---- */

static void sheet(uint64_t of_kind, const char *of_name) {
    kind = of_kind;
    name = of_name;
    count = letters_len = islands_len = points_len = 0;
}

/* A border; its rings follow, the outer one first. */
static void border(const char *code) {
    int64_t *row = rows + ROW_WIDTH * count++;
    memset(row, 0, ROW_WIDTH * sizeof *row);
    row[0] = 1;
    row[9] = (int64_t)strlen(code);
    row[10] = -1; /* the outer ring is no island */
    memcpy(letters + letters_len, code, strlen(code));
    letters_len += strlen(code);
}

static void text(const char *words) {
    border(words);
    rows[ROW_WIDTH * (count - 1)] = 2;
    rows[ROW_WIDTH * (count - 1) + 10] = 0;
}

static void point(int64_t x, int64_t y) {
    points[points_len++] = x;
    points[points_len++] = y;
}

static void end_ring(size_t vertices) {
    int64_t *row = rows + ROW_WIDTH * (count - 1);
    row[11] += (int64_t)vertices;
    if (++row[10] > 0) islands[islands_len++] = (uint16_t)vertices;
}

/* D = 2 * width * height */
static void box(int64_t width, int64_t height) {
    point(5, 7), point(5 + width, 7), point(5 + width, 7 + height), point(5, 7 + height), point(5, 7);
    end_ring(5);
}

/* D = width * height; none where either is 0 */
static void triangle(int64_t width, int64_t height) {
    point(0, 0), point(width, 0), point(width, height), point(0, 0);
    end_ring(4);
}

/* From the middle to a corner of a square of side 2 * reach, along so many sides, and back: D = sides * 2 * reach * reach */
static void sides(size_t n, int64_t reach) {
    static const int corners[4][2] = {{1, 1}, {-1, 1}, {-1, -1}, {1, -1}};
    point(0, 0);
    for (size_t i = 0; i <= n; i++) point(corners[i % 4][0] * reach, corners[i % 4][1] * reach);
    point(0, 0);
    end_ring(n + 3);
}

/* A border of so many whole square metres, D = 2 * 1,000 * 1,000 * metres; below zero its island has them. */
static void metres(const char *code, int64_t n) {
    border(code);
    if (n < 0) triangle(0, 0);
    box(1000, 1000 * (n < 0 ? -n : n));
}

/* ---- Questions ---- */

static const char *const DAY = "20261115";
static const char *const NO_DAY = "20261315";

static void ask(const char *title, const char *date, size_t out_len) {
    static uint8_t out[OUT];
    memset(out, '#', OUT);
    set_starts(rows, count);
    const cxf_sup a = write_sup(kind, (const uint8_t *)name, strlen(name), 1000000, count, rows, ROW_WIDTH * count, letters, letters_len, islands,
                                islands_len, points, points_len, (const uint8_t *)date, strlen(date), out, out_len);
    printf("%s\n%llu %llu %llu %llu\n", title, (unsigned long long)a.number, (unsigned long long)a.row, (unsigned long long)a.line,
           (unsigned long long)a.length);
    const size_t stored = a.number == 0 && a.length <= OUT ? (size_t)a.length : 0;
    for (size_t i = 0; i < stored; i++) {
        if (out[i] == '\r') printf("\\r");
        else if (out[i] == '\n') printf("\\n\n");
        else putchar(out[i]);
    }
    for (size_t i = stored; i < OUT; i++)
        if (out[i] != '#') printf("BYTE %zu WAS ALTERED\n", i);
}

static void show(const char *title) { ask(title, DAY, OUT); }

/* ---- Figures ---- */

static void figures(void) {
    sheet(1, "Z999_000100");
    show("an empty sheet"); /* 14 lines of 23 bytes are 322 */

    /* 10 m by 20 m: D = 2 * 10,000 * 20,000 = 400,000,000; 401,000,000 / 2,000,000 = 200.5, so 200. No CONFINE: 0, and
       SBILANCIO 200 - 0. 15 lines are 345 bytes. */
    sheet(1, "Z999_000100");
    border("7"), box(10000, 20000);
    show("one parcel and no CONFINE");

    /* D + 1,000,000 is 1,999,999 (0), 2,000,000 (1), 2,000,001 (1), 0 (0), -1 (-1), -2,000,000 (-1), -2,000,001 (-2).
       Their sum: 3,000,000 - 2,000,001 - 6,000,001 = -5,000,002; -4,000,002 / 2,000,000 is below -2, so -3, though the
       printed ones make -2. 14 + 7 lines are 483 bytes. */
    sheet(1, "Z999_000100");
    border("a"), triangle(999999, 1);
    border("b"), triangle(1000000, 1);
    border("c"), triangle(1000001, 1);
    border("d"), triangle(0, 0), triangle(1000000, 1);
    border("e"), triangle(0, 0), triangle(1000001, 1);
    border("f"), triangle(0, 0), triangle(3000000, 1);
    border("g"), triangle(0, 0), triangle(3000001, 1);
    show("halves on both sides of zero");

    /* Five of 0.4 m2, D = 2 * 400 * 1,000 = 800,000: 1,800,000 / 2,000,000 shows 0. PARTIC: D = 2,400,000, 3,400,000 /
       2,000,000 = 1.7, so 1. STRADE, ACQUE: 0. TOTALE: D = 4,000,000, 5,000,000 / 2,000,000 = 2.5, so 2. CONFINE: 1 m by
       2 m, D = 4,000,000, 2. 17 lines are 391 bytes. */
    sheet(1, "Z999_000100");
    border("1"), box(400, 1000);
    border("2"), box(400, 1000);
    border("3"), box(400, 1000);
    border("STRADA"), box(400, 1000);
    border("ACQUA"), box(400, 1000);
    border("Z999_000100"), box(1000, 2000);
    show("each total rounds its own sum once, and the sheet balances");

    /* TOTALE: D = 1,000,000 shows 1. CONFINE: D = 999,999 shows 0. SBILANCIO is 1 - 0; D = 1 would show 0. */
    sheet(1, "Z999_000100");
    border("1"), triangle(1000000, 1);
    border("Z999_000100"), triangle(999999, 1);
    show("SBILANCIO is the difference of the printed figures");

    /* The other way round: 0 - 1 = -1; D = -1 would show 0. */
    sheet(1, "Z999_000100");
    border("1"), triangle(999999, 1);
    border("Z999_000100"), triangle(1000000, 1);
    show("SBILANCIO below zero");

    /* CONFINE 100 m by 100 m, D = 20,000,000,000 (10,000) with islands of 10 by 10 (100) and 5 by 2 (10): 2 islands, 110.
       The parcel 100 by 90 less 20 by 10 is 8,800, road 400, water 690; 8,800 + 400 + 690 + 110 = 10,000. The building is
       6 less 20 and no part of it. */
    sheet(1, "Z999_000100");
    border("12+"), box(2000, 3000), box(4000, 5000);
    border("ACQUA"), box(69000, 10000);
    border("12"), box(100000, 90000), box(20000, 10000);
    border("STRADA"), box(40000, 10000);
    border("Z999_000100"), box(100000, 100000), box(10000, 10000), box(5000, 2000);
    show("a sheet with everything, which balances");
}

/* ---- Lists ---- */

static void lists(void) {
    /* Blank 32, / 47, digits from 48, capitals from 65, small letters from 97; `1` is a beginning of six others.
       Of the three named `1` the areas rise: -7, 3, 5. All: 1 + 10 + .. + 17 = 1 + 108 = 109. 25 lines are 575 bytes. */
    sheet(1, "Z999_000100");
    metres("10", 10), metres("1A", 11), metres("1", 5), metres("2", 12), metres("1/a", 13), metres("1 0", 14);
    text("0"); /* no border, so in no line */
    metres("100", 15), metres("1", -7), metres("1a", 16), metres("B", 17), metres("1", 3);
    show("the order of codes");

    /* Kind 2: a beginning S is a road, a beginning A a water, whatever the length and the end. Roads 5 + 1 + 7 = 13,
       waters 3 + 2 = 5; 6 + 13 + 5 = 24. */
    sheet(2, "Z999_000100");
    metres("S7", 5), metres("A7+", 3), metres("STRADA", 1), metres("ACQUA", 2), metres("7+", 4), metres("7", 6), metres("S12345678901", 7);
    show("kind 2");

    /* Kind 1: S7 is a parcel and A7+ a building. */
    sheet(1, "Z999_000100");
    metres("S7", 5), metres("A7+", 3), metres("7", 6);
    show("some of the same letters in kind 1");

    /* T-02: eleven letters are of the class that their other marks say, and a parcel is listed. 9 + 4 + 3 = 16; the building
       of 5 is no part of TOTALE. 14 + 3 lines are 391 bytes. */
    sheet(1, "Z999_000100");
    metres("12345678901", 9), metres("1234567890", 4), metres("1234567890+", 5), metres("S1234567890", 3);
    show("eleven letters in kind 1");

    /* In kind 2 `S` makes a road and `A` a water, before the final `+`; the name is CONFINE still, and letters that differ
       from it in the last are a parcel's. Parcels 8 + 1 = 9, and 9 + 3 + 2 = 14 is CONFINE's. 14 + 2 lines are 368 bytes. */
    sheet(2, "Z999_000100");
    metres("12345678901", 8), metres("S1234567890", 3), metres("A123456789+", 2), metres("1234567890+", 5), metres("Z999_000101", 1);
    metres("Z999_000100", 14);
    show("eleven letters in kind 2");

    /* In kind 3 they are OTHER even with a final `+` or a beginning `S`: 9 + 5 + 3 = 17, twice, and no building. */
    sheet(3, "Z999_0001QU");
    metres("12345678901", 9), metres("1234567890+", 5), metres("S1234567890", 3);
    show("eleven letters in kind 3");

    /* Kind 3 lists OTHER: D = 999,999 (0) before 1,000,000 (1), then 30 less 4. Their sum: 1,999,999 + 52,000,000 =
       53,999,999; 54,999,999 / 2,000,000 is below 27.5, so 27, twice. All else stays its own class's: 2 parcels of 8 + 1, a
       road of 3, a water of 4, a building of 2, CONFINE's island of 1. 13 letters are not listed here, so no 22. */
    sheet(3, "Z999_0001QU");
    border("Z999_0001QU"), box(10000, 5000), box(1000, 1000);
    border("Z999_000200"), box(10000, 3000), box(2000, 2000);
    border("Z999_000100"), triangle(1000000, 1);
    metres("7", 8), metres("7+", 2), metres("STRADA", 3), metres("ACQUA", 4), metres("1234567890123", 1);
    border("Z999_000100"), triangle(999999, 1);
    show("kind 3");
}

/* ---- Refusals ---- */

static void dates(void) {
    static const char *const days[] = {"20230231", "00000101", "99991231", "20231301", "20230001", "20230132",
                                       "20230100", "2023010",  "202301011", "",        "2023O101", "2023 1 1"};
    sheet(1, "Z999_000100");
    for (size_t i = 0; i < sizeof days / sizeof days[0]; i++) ask(days[i], days[i], 0); /* 14 is the answer to a good one */
}

static void codes(void) {
    /* Row 0 is a parcel of 11 letters, which pass, and row 1 a building; row 3 is the first parcel of over 11 letters. */
    sheet(1, "Z999_000100");
    metres("12345678901", 1), metres("12345678901+", 1), metres("1", 1), metres("123456789012", 1), metres("1234567890123", 1);
    show("a listed code of 12 letters");
    ask("the same with a bad date", NO_DAY, OUT);
}

static void wide_figures(void) {
    /* 25 sides of 2 * 20,000,000 * 20,000,000 = 800,000,000,000,000: D = 20,000,000,000,000,000, F = 10,000,000,000, eleven
       characters. `1` stands at line 8, `2` at line 9. */
    sheet(1, "Z999_000100");
    border("2"), sides(25, 20000000);
    metres("1", 1);
    show("a listed figure of 11 characters");
    ask("23 comes before 14", DAY, 0);

    /* An island of 1 m2 less: D = 19,999,999,998,000,000; 19,999,999,999,000,000 / 2,000,000 = 9,999,999,999.5. */
    sheet(1, "Z999_000100");
    border("2"), sides(25, 20000000), box(1000, 1000);
    show("a listed figure of 10 characters");

    /* 10 sides of 2 * 10,000,000 * 10,000,000: D = -2,000,000,000,000,000; -1,999,999,999,000,000 / 2,000,000 =
       -999,999,999.5, so -1,000,000,000, eleven characters. */
    sheet(1, "Z999_000100");
    border("2"), triangle(0, 0), sides(10, 10000000);
    show("the minus counts");

    /* With an outer ring of 1 m2: -999,999,998.5, so -999,999,999. */
    sheet(1, "Z999_000100");
    border("2"), box(1000, 1000), sides(10, 10000000);
    show("the minus and nine figures");

    /* CONFINE: 1,000,000,000.5, so 1,000,000,000; 0 less that has eleven characters, in line 14. */
    sheet(1, "Z999_000100");
    border("Z999_000100"), sides(10, 10000000);
    show("SBILANCIO alone is too long");

    /* 1 - 1,000,000,000 = -999,999,999 */
    metres("1", 1);
    show("SBILANCIO just fits");

    sheet(1, "Z999_000100");
    border("1"), sides(25, 20000000);
    border("7+"), sides(25, 20000000);
    show("FABBRIC is the first too long");

    /* 15 sides: D = 12,000,000,000,000,000, F = 6,000,000,000. Two parcels stand at lines 8 and 9, PARTIC of twice that at
       10; a parcel and a road, and the sum is TOTALE's alone, at line 13. */
    sheet(1, "Z999_000100");
    border("1"), sides(15, 20000000);
    border("2"), sides(15, 20000000);
    show("PARTIC is the first too long");
    sheet(1, "Z999_000100");
    border("1"), sides(15, 20000000);
    border("STRADA"), sides(15, 20000000);
    show("TOTALE is the first too long");
}

static void combined(void) {
    /* 6,000 sides of 800,000,000,000,000 are 4,800,000,000,000,000,000, twice that is above 9,000,000,000,000,000,000. */
    sheet(1, "Z999_000100");
    border("1"), sides(6000, 20000000);
    border("STRADA"), sides(6000, 20000000);
    show("the combined total is past the limit");
    metres("123456789012", 1);
    show("22 comes before it");
    ask("21 comes before both", NO_DAY, OUT);

    /* 6,000 + 5,250 = 11,250 sides are 9,000,000,000,000,000,000, which passes; the listed parcel is then too long. */
    sheet(1, "Z999_000100");
    border("1"), sides(6000, 20000000);
    border("STRADA"), sides(5250, 20000000);
    show("the combined total is at the limit");
    border("ACQUA"), triangle(1, 1);
    show("the combined total is one past the limit");

    sheet(1, "Z999_000100");
    border("1"), triangle(0, 0), sides(6000, 20000000);
    border("STRADA"), triangle(0, 0), sides(5250, 20000000);
    show("the combined total is at the limit below zero");
    border("ACQUA"), triangle(0, 0), triangle(1, 1);
    show("the combined total is one past the limit below zero");

    /* 7.2 + 4.8 - 4.8 = 7.2, in 10^18: only the end counts. */
    sheet(1, "Z999_000100");
    border("1"), sides(9000, 20000000);
    border("STRADA"), sides(6000, 20000000);
    border("ACQUA"), triangle(0, 0), sides(6000, 20000000);
    show("the combined total comes back below the limit");

    /* CONFINE's islands are a part, its outer ring is none: 6,000 sides and 6,000. */
    sheet(1, "Z999_000100");
    border("1"), sides(6000, 20000000);
    border("Z999_000100"), triangle(0, 0), sides(6000, 20000000);
    show("the combined total with CONFINE's islands");

    /* In kind 3 parcels and roads are no part of TOTALE, which is 0; PARTIC, in line 8, is too long. */
    sheet(3, "Z999_0001QU");
    border("1"), sides(6000, 20000000);
    border("STRADA"), sides(6000, 20000000);
    show("kind 3 has no such total");
}

static void sheet_refusals(void) {
    sheet(1, "Z999_000100");
    metres("1", 1);
    border("2"), box(20000001, 1);
    ask("a ring too wide comes before the date", NO_DAY, OUT);

    /* 12,000 sides in one class are past the limit at the second border. */
    sheet(1, "Z999_000100");
    text("1");
    border("1"), sides(6000, 20000000);
    border("2"), sides(6000, 20000000);
    ask("the tally's own limit comes before the date", NO_DAY, OUT);

    sheet(1, "Z999_000100");
    metres("1", 1), metres("2", 1);
    border("3"), box(20000001, 1);
    rows[ROW_WIDTH] = 9;
    ask("a row that is not well made comes before a ring too wide", NO_DAY, OUT);
    name = "z999_000100";
    ask("the header comes before all", NO_DAY, OUT);
}

static void room(void) {
    sheet(1, "Z999_000100");
    metres("7", 1);
    ask("one byte short", DAY, 344);
    ask("no room at all", DAY, 0);
    ask("just enough room", DAY, 345);
}

/* ---- A sheet's file ---- */

/* samples/Z999_000100.cxf: CONFINE 120 by 90, road 120 by 8, water 120 by 4; parcels 17, 70 by 78 less 40 by 34 = 4,100, 18,
   40 by 34 = 1,360, 21, 50 by 78 = 3,900, together 9,360; 9,360 + 960 + 480 = 10,800. Buildings: 30 by 24 less 12 by 10 = 600,
   and (11.5 + 13.25) / 2 by 8.775 = 108.590625, together 709. */
static int file_of(const char *path, const char *date) {
    static uint8_t src[100000], out[OUT];
    FILE *f = fopen(path, "rb");
    if (f == NULL) {
        perror(path);
        return 2;
    }
    const size_t n = fread(src, 1, sizeof src, f);
    fclose(f);
    const cxf_reading r = ref_read(src, n, 1, rows, ROWS * ROW_WIDTH, letters, LETTERS, islands, ISLANDS, points, 2 * POINTS);
    if (r.number != 0) return 1;
    const cxf_sup a = write_sup(r.kind, r.name, 11, r.scale, r.rows, rows, ROWS * ROW_WIDTH, letters, LETTERS, islands, ISLANDS, points,
                                2 * POINTS, (const uint8_t *)date, strlen(date), out, OUT);
    if (a.number != 0) return 1;
    fwrite(out, 1, (size_t)a.length, stdout);
    return 0;
}

int main(int argc, char **argv) {
    if (argc != 2 && argc != 4) {
        fprintf(stderr, "sup_cases SIDE [SHEET DATE]\n");
        return 2;
    }
    write_sup = strcmp(argv[1], "library") == 0 ? cxf_sup_write : ref_sup_write;
    if (argc == 4) return file_of(argv[2], argv[3]);
    figures();
    lists();
    dates();
    codes();
    wide_figures();
    combined();
    sheet_refusals();
    room();
    return 0;
}
