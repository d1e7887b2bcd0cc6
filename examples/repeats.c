/* repeats.c: says which of the files it is given are the same sheet.
 *
 * A worked example of include/cxf.h: a file that is read in loose mode and written comes out as its clean file, and two clean
 * files are equal byte by byte exactly when the sheets are: the same header values, the same elements. From the root of the
 * repository, on x86-64 Linux:
 *
 *     ./lib
 *     cc -std=c99 -Iinclude examples/repeats.c target/libcxf.a -o target/repeats
 *     target/repeats samples/Z999_000100.cxf FILE ..
 *
 * It prints a line for each file, in their order and numbered from 1. The answer is 0, 1 where a file is refused, 2 where one
 * cannot be read or the library is another one.
 */
#include <inttypes.h>
#include <stdio.h>
#include <stdlib.h>
#include <string.h>

#include "cxf.h"

/* A clean file. */
typedef struct {
    uint8_t *bytes;
    size_t len;
} text;

/* A table of n elements; one that needs none has one, since calloc may answer NULL for 0. */
static void *table(size_t n, size_t size)
{
    void *t = calloc(n ? n : 1, size);
    if (t == NULL) {
        fprintf(stderr, "no memory\n");
        exit(2);
    }
    return t;
}

/* The bytes of a file: one more than the longest file may have is asked for, so that a longer one is refused. */
static size_t load(const char *path, uint8_t *src)
{
    FILE *file = fopen(path, "rb");
    if (file == NULL) {
        perror(path);
        exit(2);
    }
    size_t len = fread(src, 1, CXF_FILE_MOST + 1, file);
    if (ferror(file)) {
        perror(path);
        exit(2);
    }
    fclose(file);
    return len;
}

/* Writes the clean file of src to out, which holds any file. The number is 0, or that of the refusal, the reader's or the writer's. */
static cxf_written clean(const uint8_t *src, size_t len, uint8_t *out)
{
    cxf_written w = { 0, 0, 0 };
    size_t rows_len = CXF_ROWS_MOST(len) * CXF_ROW, letters_len = CXF_LETTERS_MOST(len);
    size_t islands_len = CXF_ISLANDS_MOST(len), points_len = CXF_POINTS_MOST(len) * 2;
    int64_t *rows = table(rows_len, sizeof *rows);
    uint8_t *letters = table(letters_len, sizeof *letters);
    uint16_t *islands = table(islands_len, sizeof *islands);
    int64_t *points = table(points_len, sizeof *points);
    cxf_reading r = cxf_read(src, len, CXF_LOOSE, rows, rows_len, letters, letters_len, islands, islands_len, points, points_len);
    cxf_sheet sheet = cxf_sheet_of(&r, rows, letters, islands, points);
    if (r.number != 0)
        w.number = r.number;
    else
        w = cxf_write(CXF_SPREAD(sheet), out, CXF_FILE_MOST);
    free(rows);
    free(letters);
    free(islands);
    free(points);
    return w;
}

/* The first of the n texts that is equal to t, or n. */
static int same(const text *seen, int n, text t)
{
    int i = 0;
    while (i < n && (seen[i].len != t.len || memcmp(seen[i].bytes, t.bytes, t.len) != 0))
        i++;
    return i;
}

int main(int argc, char **argv)
{
    int answer = 0;
    if (argc < 2) {
        fprintf(stderr, "usage: repeats SHEET ..\n");
        return 2;
    }
    if (cxf_interface() != CXF_INTERFACE) {
        fprintf(stderr, "made for interface %d, the library has %" PRIu64 "\n", CXF_INTERFACE, cxf_interface());
        return 2;
    }
    uint8_t *src = table(CXF_FILE_MOST + 1, 1), *out = table(CXF_FILE_MOST, 1);
    text *seen = table((size_t)argc, sizeof *seen);
    for (int i = 1; i < argc; i++) {
        cxf_written w = clean(src, load(argv[i], src), out);
        if (w.number != 0) {
            printf("%d: refused %" PRIu64 ": %s\n", i, w.number, cxf_refusal_text(w.number));
            answer = 1;
            continue; /* its text stays empty, which no clean file is */
        }
        text t = { out, w.length };
        int first = same(seen, i, t);
        if (first < i) {
            printf("%d: the same sheet as %d\n", i, first);
            continue;
        }
        printf("%d: a sheet of its own\n", i);
        t.bytes = memcpy(table(t.len, 1), out, t.len);
        seen[i] = t;
    }
    return answer;
}
