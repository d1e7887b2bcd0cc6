/* mask_cases SIDE [SHEET]: masks worked by hand (document 02, T-03), asked of the reference, or of the library where SIDE says so.
   The arithmetic stands at each case; mask_cases.out has the answers, drawn from the rows and columns worked out there and not
   taken from a mask. With a sheet, the sample, only the mask of its building with the courtyard is printed, as examples/mask.c does.
   Most cases have the corner (0, 128) and cells of 2, so that column c, from 0, has its centres at x = 2c + 1, and row r at
   y = 127 - 2r. Printed are the title, then number, row and covered, then the rows, those that are alike once. */
#include "reference.h"

#include <stdio.h>
#include <stdlib.h>
#include <string.h>

enum { ROWS = 32, LETTERS = 400, ISLANDS = 16, POINTS = 400 };

static uint64_t count;
static const char *name = "Z999_000100";
static int64_t rows[ROWS * ROW_WIDTH], points[2 * POINTS];
static uint8_t letters[LETTERS];
static uint16_t islands[ISLANDS];
static size_t letters_len, islands_len, points_len;
static cxf_mask (*mask_of)(CXF_SHEET, uint64_t, int64_t, int64_t, int64_t);

/* ---- Sheets ---- */

/* A sheet of one border; its rings follow, the outer one first. */
static void border(void) {
    memset(rows, 0, sizeof rows);
    rows[0] = 1;
    rows[9] = 1;
    rows[10] = -1; /* the outer ring is no island */
    letters[0] = '7';
    count = letters_len = 1;
    islands_len = points_len = 0;
}

static void ring(size_t n, const int64_t *xy) {
    for (size_t i = 0; i < n; i++) {
        points[points_len++] = xy[2 * i];
        points[points_len++] = xy[2 * i + 1];
    }
    points[points_len++] = xy[0];
    points[points_len++] = xy[1];
    rows[11] += (int64_t)n + 1;
    if (++rows[10] > 0) islands[islands_len++] = (uint16_t)(n + 1);
}

#define RING(...) ring(sizeof((int64_t[]){__VA_ARGS__}) / sizeof(int64_t) / 2, (const int64_t[]){__VA_ARGS__})

/* West, north, east, south. */
static void box(int64_t w, int64_t n, int64_t e, int64_t s) { RING(w, n, e, n, e, s, w, s); }

/* ---- Questions ---- */

static void picture(uint64_t cells) {
    for (int c = 0; c < 64; c++) putchar(cells >> (63 - c) & 1 ? '#' : '.'); /* west in the highest bit */
    putchar('\n');
}

static void ask(const char *title, uint64_t row, int64_t x, int64_t y, int64_t cell) {
    set_starts(rows, count);
    const cxf_mask m = mask_of(1, (const uint8_t *)name, 11, 1000000, count, rows, ROW_WIDTH * count, letters, letters_len, islands,
                               islands_len, points, points_len, row, x, y, cell);
    printf("%s\n%llu %llu %llu\n", title, (unsigned long long)m.number, (unsigned long long)m.row, (unsigned long long)m.covered);
    for (int first = 0, last; first < 64; first = last + 1) {
        last = first;
        while (last < 63 && m.rows[last + 1] == m.rows[first]) last++;
        if (m.number != 0 && first == 0 && last == 63 && m.rows[0] == 0) return; /* refused, and nothing set */
        printf("%2d to %2d ", first, last);
        picture(m.rows[first]);
    }
}

static void show(const char *title) { ask(title, 0, 0, 128, 2); }

/* ---- Which centres are inside ---- */

static void boxes(void) {
    /* 20 < 2c + 1 < 60 for c 10 to 29; 40 < 127 - 2r < 108 for r 10 to 43: 20 * 34 = 680 */
    border(), box(20, 108, 60, 40);
    show("a box of whole cells");

    /* The island: 30 < 2c + 1 < 50 for c 15 to 24, 60 < 127 - 2r < 98 for r 15 to 33; 680 - 10 * 19 = 490 */
    box(30, 98, 50, 60);
    show("a courtyard");

    /* The same rings begun elsewhere and turned round. */
    border(), RING(60, 40, 60, 108, 20, 108, 20, 40), RING(50, 98, 50, 60, 30, 60, 30, 98);
    show("the same courtyard, begun elsewhere and turned round");

    /* The edges go through centres. West x = 21 is not strictly east of the centre 21, so c 10 is in; east x = 61 is not either, so
       c 30 is out. An edge from 41 to 107 has one end north where 41 <= 127 - 2r < 107: r 11 to 43. 20 * 33 = 660 */
    border(), box(21, 107, 61, 41);
    show("edges through centres: west and south are in, east and north out");

    /* The island's own edges through centres: c 15 to 24, r 16 to 33 by the same rule, and they are out; 660 - 10 * 18 = 480 */
    box(31, 97, 51, 61);
    show("a courtyard whose edges go through centres");

    /* A level edge from 41 to 61 at y = 87, which is row 20: neither end is north of it, so it never counts. Columns 10 to 19 are in
       for r 11 to 43, columns 20 to 29 where 127 - 2r < 87, r 21 to 43: 10 * 33 + 10 * 23 = 560 */
    border(), RING(21, 107, 41, 107, 41, 87, 61, 87, 61, 41, 21, 41);
    show("a level edge at a centre's height");

    /* The outer ring: c 10 to 49, r 10 to 49. Islands: c 15 to 34, r 15 to 34; c 25 to 44, r 25 to 44; one outside, c 52 to 59, r 4 to
       11. In both islands, c 25 to 34, r 25 to 34: three rings, so set. 1,600 - 2 * (400 - 100) + 64 = 1,064 */
    border(), box(20, 108, 100, 28), box(30, 98, 70, 58), box(50, 78, 90, 38), box(104, 120, 120, 104);
    show("inside two islands: set; outside the outer ring and inside one island: set");

    border(), box(20, 108, 60, 40), box(20, 108, 60, 40);
    show("an island that is the outer ring");
}

static void slopes(void) {
    /* W (21, 67), N (61, 107), E (101, 67), S (61, 27), all on centres, and so is every crossing. Row 10 and row 50 have a tip, row 30 W
       and E. To row 30 the edges cross at 81 - 2r and 41 + 2r: columns 40 - r to 19 + r, 2r - 20 of them. From row 31 they cross at
       2r - 39 and 161 - 2r: columns r - 20 to 79 - r, 100 - 2r of them. 420 + 380 = 800 */
    border(), RING(21, 67, 61, 107, 101, 67, 61, 27);
    show("vertices on centres: a lozenge");

    /* A valley with its tip at (41, 67), row 30: there both its edges count, so it takes nothing away. Above it the edges cross at 11 + r
       and 71 - r: out are the columns with 11 + r <= 2c + 1 < 71 - r. r 11 to 43 and c 10 to 29 without the valley: 660. At
       row r it takes 30 - r cells, 19 + 18 + .. + 1 = 190; 470 */
    border(), RING(21, 107, 41, 67, 61, 107, 61, 41, 21, 41);
    show("a valley with its tip at a centre's height");

    /* Two boxes that meet in the centre (41, 67), c 20 and r 30: c 10 to 19, r 11 to 30, and c 20 to 29, r 31 to 43: 200 + 130 = 330 */
    border(), RING(21, 107, 41, 107, 41, 41, 61, 41, 61, 67, 21, 67);
    show("a ring that crosses itself in a centre");
}

/* ---- Cells and corners ---- */

static void cells(void) {
    /* Cells of 3: column 1 has its centre at 4.5, row 1 at 192 - 4.5 = 187.5. */
    border(), box(4, 188, 5, 187);
    ask("a centre between two millimetres", 0, 0, 192, 3);
    border(), box(5, 188, 7, 185);
    ask("a box between the centres 4.5 and 7.5", 0, 0, 192, 3);

    /* Cells of 1: c 10 to 19, r 20 to 39. */
    border(), box(10, 44, 20, 24);
    ask("the smallest cell", 0, 0, 64, 1);

    /* Cells of 10,000: the grid has 640,000. Column 0 alone, row 0 alone, the last of both; and all. */
    border(), box(-1000, 640000, 10000, 630000);
    ask("the north-west cell", 0, 0, 640000, 10000);
    border(), box(630000, 10000, 650000, -7);
    ask("the south-east cell", 0, 0, 640000, 10000);
    border(), box(-9000000, 9000000, 9000000, -9000000);
    ask("all cells", 0, 0, 640000, 10000);
    border(), box(700000, 700000, 800000, 600000);
    ask("none: to the east of the grid", 0, 0, 640000, 10000);
    border(), box(-800000, 700000, -700000, 600000);
    ask("none: to the west of the grid", 0, 0, 640000, 10000);

    /* Far from 0: corner (99,999,999,935, -9,999,999,935), cells of 1 to the ends of the real range. The box takes the last cell. */
    border(), box(99999999998, -9999999998, 99999999999, -9999999999);
    ask("the real range's own corner", 0, 99999999935, -9999999935, 1);
    ask("one further east", 0, 99999999936, -9999999935, 1);
    ask("one further south", 0, 99999999935, -9999999936, 1);
    border(), box(-9999999999, 99999999999, -9999999998, 99999999998);
    ask("the other corner of the real range", 0, -9999999999, 99999999999, 1);
    ask("one further west", 0, -10000000000, 99999999999, 1);
    ask("one further north", 0, -9999999999, 100000000000, 1);
}

/* A border of 2 by 2 that stands (dx, dy) from the corner (0, 128) with the end that is further from it. */
static void far_border(int64_t dx, int64_t dy) {
    const int64_t x = dx, y = 128 + dy, back_x = dx < 0 ? x + 2 : x - 2, back_y = dy < 0 ? y + 2 : y - 2;
    border(), RING(x, y, back_x, y, back_x, back_y, x, back_y);
}

static void limits(void) {
    static const int64_t ways[4][2] = {{40000000, 0}, {-40000000, 0}, {0, 40000000}, {0, -40000000}};
    for (int i = 0; i < 4; i++) {
        far_border(ways[i][0], ways[i][1]);
        ask("40,000,000 from the corner", 0, 0, 128, 2);
        far_border(ways[i][0] + (ways[i][0] > 0) - (ways[i][0] < 0), ways[i][1] + (ways[i][1] > 0) - (ways[i][1] < 0));
        ask("40,000,001 from the corner", 0, 0, 128, 2);
    }
    far_border(40000000, -40000000);
    ask("40,000,000 in x and in y", 0, 0, 128, 2);
    /* the island alone is far off */
    border(), box(20, 108, 60, 40), box(40000000, 108, 40000001, 40);
    show("a vertex of an island too far");
    border(), box(20, 108, 60, 40), box(39999999, 108, 40000000, 40);
    show("an island far off, but near enough");
    /* a ring of 20,000,000 from its first vertex; the other end is 40,000,000 from the corner */
    border(), box(20000000, 108, 40000000, 40);
    show("a ring as wide as it may be, as far as it may be");
    border(), box(19999999, 108, 40000000, 40);
    show("a ring too wide");
}

/* ---- Refusals in their order ---- */

static void order(void) {
    /* An island too wide, far off too, a cell of 0, no such row, a row that is not well made, a wrong name: mended one by one. */
    border(), box(20, 108, 60, 40), box(40000000, 108, 61000000, 40);
    rows[2] = 1;
    name = "z999_000100";
    ask("a wrong name", 1, 0, 128, 0);
    name = "Z999_000100";
    ask("a row that is not well made", 1, 0, 128, 0);
    rows[2] = 0;
    ask("no such row", 1, 0, 128, 0);
    ask("a cell of 0", 0, 0, 128, 0);
    ask("a cell of -1", 0, 0, 128, -1);
    ask("a cell of 10,001", 0, 0, 128, 10001);
    ask("a cell of 4,294,967,297", 0, 0, 128, 4294967297);
    ask("an island too wide", 0, 0, 128, 2);
    points[2 * 6] = points[2 * 7] = 40000001;
    ask("an island too far", 0, 0, 128, 2);

    /* a second row, a text, is no border */
    border(), box(20, 108, 60, 40);
    rows[ROW_WIDTH] = 2, rows[ROW_WIDTH + 9] = 1, letters[1] = 'a', count = letters_len = 2;
    ask("a text", 1, 0, 128, 2);
    rows[ROW_WIDTH] = 9;
    ask("another row that is not well made", 0, 0, 128, 2);
    ask("a corner beyond all numbers", 0, INT64_MAX, INT64_MIN, 2);
    rows[ROW_WIDTH] = 2;
    ask("a corner beyond all numbers, of a sheet that is well made", 0, INT64_MAX, INT64_MIN, 2);
}

/* ---- A sheet's building ---- */

/* samples/Z999_000100.cxf: 18+ is 30 by 24 metres with a courtyard of 12 by 10, so 60 cells of half a metre hold it. The grid has 2
   columns to spare on both sides, and 8 rows: c 2 to 61, r 8 to 55. The courtyard begins 9 metres from the west side and 7 from the north
   side: c 20 to 43, r 22 to 41. 60 * 48 - 24 * 20 = 2,400 cells are 600 square metres. */
static int building(const char *path) {
    static uint8_t src[100000];
    FILE *f = fopen(path, "rb");
    if (f == NULL) {
        perror(path);
        return 2;
    }
    const size_t n = fread(src, 1, sizeof src, f);
    fclose(f);
    const cxf_reading r = ref_read(src, n, 1, rows, ROWS * ROW_WIDTH, letters, LETTERS, islands, ISLANDS, points, 2 * POINTS);
    if (r.number != 0) return 1;
    const cxf_mask m = mask_of(r.kind, r.name, 11, r.scale, r.rows, rows, ROWS * ROW_WIDTH, letters, LETTERS, islands, ISLANDS, points,
                               2 * POINTS, 5, -12456350, 8267600, 500);
    if (m.number != 0) return 1;
    printf("18+: 64 by 64 cells of 500 mm, %llu covered\n", (unsigned long long)m.covered);
    for (int k = 0; k < 64; k++) picture(m.rows[k]);
    return 0;
}

int main(int argc, char **argv) {
    if (argc != 2 && argc != 3) {
        fprintf(stderr, "mask_cases SIDE [SHEET]\n");
        return 2;
    }
    mask_of = strcmp(argv[1], "library") == 0 ? cxf_mask_of : ref_mask_of;
    if (argc == 3) return building(argv[2]);
    boxes();
    slopes();
    cells();
    limits();
    order();
    return 0;
}
