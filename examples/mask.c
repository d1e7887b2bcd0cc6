/* mask.c: prints the mask of a sheet's first building with a courtyard, a line for each of its 64 rows, # where a cell is covered.
 *
 * A worked example of include/cxf.h: read, look for the building, lay a grid of 64 by 64 cells about it so that 60 cells hold it,
 * ask for the mask. From the root of the repository, on x86-64 Linux:
 *
 *     ./lib
 *     cc -std=c99 -Iinclude examples/mask.c target/libcxf.a -o target/mask
 *     target/mask samples/Z999_000100.cxf
 *
 * The answer is 0, 1 where the sheet is refused or has no such building, 2 where the file cannot be read or the library is another one.
 */
#include <inttypes.h>
#include <stdio.h>
#include <stdlib.h>

#include "cxf.h"

/* A table of n elements, kept until the program ends; one that needs none has one, since calloc may answer NULL for 0. */
static void *table(size_t n, size_t size)
{
    void *t = calloc(n ? n : 1, size);
    if (t == NULL) {
        fprintf(stderr, "no memory\n");
        exit(2);
    }
    return t;
}

/* The least and the most of a border's x, or of its y: `points` begins with that coordinate of its first vertex. */
static void ends(const int64_t *points, uint64_t vertices, int64_t *least, int64_t *most)
{
    *least = *most = points[0];
    for (uint64_t i = 1; i < vertices; i++) {
        if (points[2 * i] < *least) *least = points[2 * i];
        if (points[2 * i] > *most) *most = points[2 * i];
    }
}

static int print_mask(cxf_sheet row, cxf_border b)
{
    int64_t west, east, south, north;
    ends(row.points, b.vertices, &west, &east);
    ends(row.points + 1, b.vertices, &south, &north);
    int64_t longer = east - west > north - south ? east - west : north - south, cell = (longer + 59) / 60;
    cxf_mask m = cxf_mask_of(CXF_SPREAD(row), 0, (west + east) / 2 - 32 * cell, (south + north) / 2 + 32 * cell, cell);
    if (m.number != 0) {
        fprintf(stderr, "refused %" PRIu64 ": %s\n", m.number, cxf_refusal_text(m.number));
        return 1;
    }
    printf("%.*s: 64 by 64 cells of %" PRId64 " mm, %" PRIu64 " covered\n", (int)b.letters, (const char *)row.letters, cell, m.covered);
    for (int i = 0; i < 64; i++) {
        for (int bit = 63; bit >= 0; bit--) /* west is the highest bit */
            putchar(m.rows[i] >> bit & 1 ? '#' : '.');
        putchar('\n');
    }
    return 0;
}

int main(int argc, char **argv)
{
    if (argc != 2) {
        fprintf(stderr, "usage: mask SHEET\n");
        return 2;
    }
    if (cxf_interface() != CXF_INTERFACE) {
        fprintf(stderr, "made for interface %d, the library has %" PRIu64 "\n", CXF_INTERFACE, cxf_interface());
        return 2;
    }
    FILE *file = fopen(argv[1], "rb");
    if (file == NULL) {
        perror(argv[1]);
        return 2;
    }
    /* One byte more than the longest file is asked for, so that a longer one is refused. */
    uint8_t *src = table(CXF_FILE_MOST + 1, 1);
    size_t len = fread(src, 1, CXF_FILE_MOST + 1, file);
    if (ferror(file)) {
        perror(argv[1]);
        return 2;
    }
    fclose(file);

    size_t rows_len = CXF_ROWS_MOST(len) * CXF_ROW, letters_len = CXF_LETTERS_MOST(len);
    size_t islands_len = CXF_ISLANDS_MOST(len), points_len = CXF_POINTS_MOST(len) * 2;
    int64_t *rows = table(rows_len, sizeof *rows);
    uint8_t *letters = table(letters_len, sizeof *letters);
    uint16_t *islands = table(islands_len, sizeof *islands);
    int64_t *points = table(points_len, sizeof *points);
    cxf_reading r = cxf_read(src, len, CXF_LOOSE, rows, rows_len, letters, letters_len, islands, islands_len, points, points_len);
    if (r.number != 0) {
        fprintf(stderr, "refused %" PRIu64 ", record %" PRIu64 ", byte %" PRIu64 ": %s\n", r.number, r.record, r.offset,
                cxf_refusal_text(r.number));
        return 1;
    }
    cxf_sheet sheet = cxf_sheet_of(&r, rows, letters, islands, points);
    for (uint64_t k = 0; k < sheet.count; k++) {
        int64_t own[CXF_ROW];
        cxf_sheet row = cxf_row_alone(sheet, k, own);
        cxf_border b = cxf_border_at(CXF_SPREAD(row), 0);
        if (b.number == 0 && b.class_of == CXF_BUILDING && b.islands > 0)
            return print_mask(row, b);
    }
    fprintf(stderr, "no building with a courtyard\n");
    return 1;
}
