/* buildings.c: prints each building of a sheet, its letters and its doubled area in square millimetres.
 *
 * A worked example of include/cxf.h: lend tables that hold any file of that length, read, then ask about each row alone, so
 * that the time grows with the sheet and not with its square. From the root of the repository, on x86-64 Linux:
 *
 *     ./lib
 *     cc -std=c99 -Iinclude examples/buildings.c target/libcxf.a -o target/buildings
 *     target/buildings samples/Z999_000100.cxf
 *
 * The answer is 0, 1 where the sheet is refused, 2 where the file cannot be read or the library is another one.
 */
#include <inttypes.h>
#include <stdio.h>
#include <stdlib.h>

#include "cxf.h"

/* A table of n elements, kept until the program ends; one that needs none has one, since calloc may answer NULL for 0. */
static void *table(size_t n, size_t size)
{
    void *t = calloc(n ? n : 1, size);
    if (t == NULL) {
        fprintf(stderr, "no memory\n");
        exit(2);
    }
    return t;
}

int main(int argc, char **argv)
{
    if (argc != 2) {
        fprintf(stderr, "usage: buildings SHEET\n");
        return 2;
    }
    if (cxf_interface() != CXF_INTERFACE) {
        fprintf(stderr, "made for interface %d, the library has %" PRIu64 "\n", CXF_INTERFACE, cxf_interface());
        return 2;
    }
    FILE *file = fopen(argv[1], "rb");
    if (file == NULL) {
        perror(argv[1]);
        return 2;
    }
    /* One byte more than the longest file is asked for, so that a longer one is refused. */
    uint8_t *src = table(CXF_FILE_MOST + 1, 1);
    size_t len = fread(src, 1, CXF_FILE_MOST + 1, file);
    if (ferror(file)) {
        perror(argv[1]);
        return 2;
    }
    fclose(file);

    /* Tables that hold any file of this length: there is nothing to ask first, and 14 cannot come. */
    size_t rows_len = CXF_ROWS_MOST(len) * CXF_ROW, letters_len = CXF_LETTERS_MOST(len);
    size_t islands_len = CXF_ISLANDS_MOST(len), points_len = CXF_POINTS_MOST(len) * 2;
    int64_t *rows = table(rows_len, sizeof *rows);
    uint8_t *letters = table(letters_len, sizeof *letters);
    uint16_t *islands = table(islands_len, sizeof *islands);
    int64_t *points = table(points_len, sizeof *points);
    cxf_reading r = cxf_read(src, len, CXF_LOOSE, rows, rows_len, letters, letters_len, islands, islands_len, points, points_len);
    if (r.number != 0) {
        fprintf(stderr, "refused %" PRIu64 ", record %" PRIu64 ", byte %" PRIu64 ", column %" PRIu64 ": %s\n", r.number, r.record,
                r.offset, r.column, cxf_refusal_text(r.number));
        return 1;
    }

    /* What was read is well made, so each row may be asked as a sheet of its own; its starts say where its parts are. */
    cxf_sheet sheet = cxf_sheet_of(&r, rows, letters, islands, points);
    for (uint64_t k = 0; k < sheet.count; k++) {
        int64_t own[CXF_ROW];
        cxf_sheet row = cxf_row_alone(sheet, k, own);
        cxf_border b = cxf_border_at(CXF_SPREAD(row), 0);
        if (b.number != 0 || b.class_of != CXF_BUILDING)
            continue;
        cxf_area a = cxf_net_area(CXF_SPREAD(row), 0);
        if (a.number == 0)
            printf("%.*s %" PRId64 "\n", (int)b.letters, (const char *)row.letters, a.doubled);
        else
            printf("%.*s refused %" PRIu64 "\n", (int)b.letters, (const char *)row.letters, a.number);
    }
    return 0;
}
