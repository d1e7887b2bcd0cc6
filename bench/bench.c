/* How fast the library is, beside the independent implementation of tests/reference.c, in one run.
   bench [RUNS]: the best of so many runs (10) of reading, writing, the tally, the ring check, the SUP file, masks, removing and moving,
   at a quarter and at full size (12 MB); one memchr pass over the file is the floor. */
#define _POSIX_C_SOURCE 200809L
#include "generate.h"
#include "reference.h"

#include <math.h>
#include <stdio.h>
#include <stdlib.h>
#include <string.h>
#include <time.h>

enum { FULL = 12000000, GIANT = 9999, RING = 2000 };

typedef struct {
    const char *name;
    cxf_reading (*read)(const uint8_t *, size_t, uint64_t, int64_t *, size_t, uint8_t *, size_t, uint16_t *, size_t,
                        int64_t *, size_t);
    cxf_written (*write)(CXF_SHEET, uint8_t *, size_t);
    cxf_tally (*tally)(CXF_SHEET);
    cxf_ring (*ring)(CXF_SHEET, uint64_t, uint64_t);
    cxf_sup (*sup)(CXF_SHEET, const uint8_t *, size_t, uint8_t *, size_t);
    cxf_mask (*mask)(CXF_SHEET, uint64_t, int64_t, int64_t, int64_t);
    cxf_edited (*remove)(CXF_TABLES, uint64_t);
    cxf_edited (*move)(CXF_TABLES, int64_t, int64_t);
    cxf_sup_checked (*sup_check)(CXF_SHEET, const uint8_t *, size_t);
    cxf_written (*cml)(CXF_SHEET, uint8_t *, size_t);
} party;

static const party PARTIES[] = {
    { "library", cxf_read, cxf_write, cxf_tally_sheet, cxf_ring_check, cxf_sup_write, cxf_mask_of, cxf_remove, cxf_move,
      cxf_sup_check, cxf_cml_lines },
    { "reference", ref_read, ref_write, ref_tally_sheet, ref_ring_check, ref_sup_write, ref_mask_of, ref_remove, ref_move,
      ref_sup_check, ref_cml_lines },
};
enum { LIBRARY, REFERENCE, COUNT };

static int runs = 10;
static double seconds[2][COUNT]; /* the item at hand, at full size and at a quarter */

static double now(void) {
    struct timespec t;
    clock_gettime(CLOCK_MONOTONIC, &t);
    return (double)t.tv_sec + 1e-9 * (double)t.tv_nsec;
}

static void *room(size_t n) {
    void *p = calloc(n ? n : 1, 1);
    if (!p) { fprintf(stderr, "bench: no memory\n"); exit(2); }
    return p;
}

#define SHEET(t) (t)->kind, (t)->name, (t)->name_len, (t)->scale, (t)->count, (t)->rows, (t)->rows_len, (t)->letters, \
                 (t)->letters_len, (t)->islands, (t)->islands_len, (t)->points, (t)->points_len

/* The exact text of a sheet, and the same unpadded with bare line feeds. */
static bytes exact_text(const tables *t) {
    cxf_written w = ref_write(SHEET(t), NULL, 0);
    bytes b = { room(w.length), w.length, w.length };
    if (ref_write(SHEET(t), b.at, b.len).number) { fprintf(stderr, "bench: a sheet is not written\n"); exit(2); }
    return b;
}

static bytes loose_text(bytes exact) {
    bytes b = { room(exact.len), 0, exact.len };
    bool fresh = true;
    for (size_t i = 0; i < exact.len; i++) {
        uint8_t c = exact.at[i];
        if (c == '\r' || (fresh && c == ' ')) continue;
        b.at[b.len++] = c;
        fresh = c == '\n';
    }
    return b;
}

/* Appends a row: its kind, letters and a ring, or a line, of so many vertices on a circle about a point. */
static void add_row(tables *t, int64_t kind, int64_t code, const char *letters, size_t vertices, double radius, int64_t x, int64_t y) {
    int64_t *row = t->rows + ROW_WIDTH * t->count++, *p = t->points + t->points_len;
    size_t n = strlen(letters);
    memset(row, 0, ROW_WIDTH * sizeof *row);
    row[0] = kind, row[2] = code, row[3] = code ? 0 : 18, row[9] = (int64_t)n, row[11] = (int64_t)vertices;
    if (kind != 5) row[5] = x, row[6] = y;
    memcpy(t->letters + t->letters_len, letters, n);
    for (size_t v = 0; v < vertices; v++) {
        double a = 6.283185307179586 * (double)v / (double)(vertices - 1);
        p[2 * v] = x + llround(radius * cos(a)), p[2 * v + 1] = y + llround(radius * sin(a));
    }
    if (vertices) p[2 * vertices - 2] = p[0], p[2 * vertices - 1] = p[1];
    t->rows_len += ROW_WIDTH, t->letters_len += n, t->points_len += 2 * vertices;
}

static tables empty_sheet(size_t size) {
    tables t = { .kind = 1, .name = "Z999_000100", .name_len = 11, .scale = 1000000 };
    t.rows = room(size * 3), t.letters = room(size), t.points = room(size), t.islands = room(2);
    return t;
}

/* Borders of so many vertices, all simple, until the text has about `size` bytes. */
static tables round_borders(size_t vertices, size_t size) {
    tables t = empty_sheet(size + 28 * vertices + 100);
    do add_row(&t, 1, 0, "7", vertices, 9e6, 0, 5000000000);
    while ((t.count + 1) * (28 * vertices + 100) <= size);
    return t;
}

/* One round border that a mask of cells of 9,400 holds. */
static tables round_mask(size_t vertices) {
    tables t = empty_sheet(28 * vertices + 100);
    add_row(&t, 1, 0, "7", vertices, 3e5, 500000, 49400000);
    return t;
}

/* A sheet like those of a town: parcels and buildings of 5 to 40 vertices, texts, symbols and lines. */
static tables town(size_t size) {
    tables t = empty_sheet(2 * size);
    rng g = seeded(1, 0);
    char letters[24];
    for (size_t length = 60; length < size;) {
        size_t corners = 5 + below(&g, 36);
        int64_t x = between(&g, -20000000, 20000000), y = between(&g, 4900000000, 5000000000);
        snprintf(letters, sizeof letters, "%d%s", (int)below(&g, 2000), one_in(&g, 2) ? "+" : "");
        add_row(&t, 1, 0, letters, corners, 30000.0, x, y);
        add_row(&t, 2, 0, "VIA DEL MULINO", 0, 0.0, x, y);
        add_row(&t, 3, 4, "", 0, 0.0, x, y);
        add_row(&t, 5, 6, "", 4, 5000.0, x, y);
        length += 28 * (corners + 4) + 250;
    }
    return t;
}

/* Nothing but small parcels, in no order of their codes, some codes twice: more listed borders than a real sheet has. */
static tables parcels(size_t size) {
    tables t = empty_sheet(2 * size);
    rng g = seeded(2, 0);
    char letters[24];
    for (size_t length = 60; length < size; length += 28 * 5 + 100) {
        snprintf(letters, sizeof letters, "%d%s", (int)below(&g, 100000), one_in(&g, 20) ? "/a" : "");
        add_row(&t, 1, 0, letters, 5, (double)between(&g, 1000, 50000), between(&g, 0, 9000000), between(&g, 0, 9000000));
    }
    return t;
}

/* Lines of so many vertices; their CML text is shorter than their file. */
static tables lines(size_t vertices, size_t size) {
    tables t = empty_sheet(2 * size);
    for (size_t length = 60; length + 28 * vertices + 20 < size; length += 28 * vertices + 20)
        add_row(&t, 5, 6, "", vertices, 9e6, 1500000000, 5000000000);
    return t;
}

/* ---- the items */

typedef struct { tables sheet; bytes text, sup; uint64_t mode; } job;
typedef uint64_t (*item)(const party *, const job *, tables *, bytes *);

static uint64_t read_item(const party *p, const job *j, tables *to, bytes *out) {
    (void)out;
    return p->read(j->text.at, j->text.len, j->mode, to->rows, to->rows_len, to->letters, to->letters_len, to->islands,
                   to->islands_len, to->points, to->points_len).number;
}
static uint64_t write_item(const party *p, const job *j, tables *to, bytes *out) {
    (void)to;
    return p->write(SHEET(&j->sheet), out->at, out->len).number;
}
static uint64_t tally_item(const party *p, const job *j, tables *to, bytes *out) {
    (void)to, (void)out;
    return p->tally(SHEET(&j->sheet)).number;
}
static uint64_t ring_item(const party *p, const job *j, tables *to, bytes *out) {
    (void)to, (void)out;
    return p->ring(SHEET(&j->sheet), 0, 0).number;
}

static uint64_t sup_item(const party *p, const job *j, tables *to, bytes *out) {
    (void)to;
    return p->sup(SHEET(&j->sheet), (const uint8_t *)"20261115", 8, out->at, out->len).number;
}

static uint64_t check_item(const party *p, const job *j, tables *to, bytes *out) {
    (void)to, (void)out;
    return p->sup_check(SHEET(&j->sheet), j->sup.at, j->sup.len).number;
}

static uint64_t cml_item(const party *p, const job *j, tables *to, bytes *out) {
    (void)to;
    return p->cml(SHEET(&j->sheet), out->at, out->len).number;
}

/* A mask of the border in row 0, about its place. */
static uint64_t mask_about(const party *p, const job *j, int64_t cell) {
    const int64_t *row = j->sheet.rows;
    return p->mask(SHEET(&j->sheet), 0, row[5] - 32 * cell, row[6] + 32 * cell, cell).number;
}
static uint64_t mask_item(const party *p, const job *j, tables *to, bytes *out) {
    (void)to, (void)out;
    return mask_about(p, j, 9400);
}
static uint64_t fine_item(const party *p, const job *j, tables *to, bytes *out) {
    (void)to, (void)out;
    return mask_about(p, j, 500);
}

/* The first row is removed from a copy, which is made each time; a move there and back needs none. */
static uint64_t remove_item(const party *p, const job *j, tables *to, bytes *out) {
    const tables *s = &j->sheet;
    (void)out;
    memcpy(to->rows, s->rows, 8 * s->rows_len), memcpy(to->letters, s->letters, s->letters_len);
    memcpy(to->islands, s->islands, 2 * s->islands_len), memcpy(to->points, s->points, 8 * s->points_len);
    return p->remove(s->kind, s->name, s->name_len, s->scale, s->count, to->rows, s->rows_len, to->letters, s->letters_len, to->islands,
                     s->islands_len, to->points, s->points_len, 0).number;
}
static uint64_t move_item(const party *p, const job *j, tables *to, bytes *out) {
    const tables *s = &j->sheet;
    (void)to, (void)out;
    return p->move(SHEET(s), 1000, -1000).number | p->move(SHEET(s), -1000, 1000).number;
}

static void measure(const char *name, item run, job full, job quarter) {
    const job *jobs[2] = { &full, &quarter };
    for (int size = 0; size < 2; size++) {
        const tables *s = &jobs[size]->sheet;
        tables to = { .rows_len = s->rows_len, .letters_len = s->letters_len, .islands_len = s->islands_len,
                      .points_len = s->points_len };
        to.rows = room(8 * to.rows_len), to.letters = room(to.letters_len);
        to.islands = room(2 * to.islands_len), to.points = room(8 * to.points_len);
        bytes out = { room(jobs[size]->text.len), jobs[size]->text.len, jobs[size]->text.len };
        for (int who = 0; who < COUNT; who++) {
            double best = 1e9;
            for (int k = 0; k < runs; k++) {
                double start = now();
                uint64_t number = run(&PARTIES[who], jobs[size], &to, &out);
                double took = now() - start;
                if (number) { fprintf(stderr, "bench: %s of %s is refused %d\n", name, PARTIES[who].name, (int)number); exit(1); }
                if (took < best) best = took;
            }
            seconds[size][who] = best;
        }
        free(to.rows), free(to.letters), free(to.islands), free(to.points), free(out.at);
    }
    double parts = (double)full.text.len / (double)quarter.text.len;
    printf("%-13s %10.6f s %10.6f s   ratio %5.2f   growth of the library's time per byte x%.2f\n", name, seconds[0][LIBRARY],
           seconds[0][REFERENCE], seconds[0][LIBRARY] / seconds[0][REFERENCE], seconds[0][LIBRARY] / seconds[1][LIBRARY] / parts);
}

static job job_of(tables t, bool loose) {
    set_starts(t.rows, t.count);
    bytes exact = exact_text(&t);
    bytes sup = { room(23 * (t.count + 14)), 0, 0 };
    sup.len = near_sup(SHEET(&t), (const uint8_t *)"20261115", sup.at);
    return (job){ t, loose ? loose_text(exact) : exact, sup, !loose };
}

static double memchr_pass(bytes b) {
    double best = 1e9;
    for (int k = 0; k < runs; k++) {
        double start = now();
        size_t lines = 0;
        for (const uint8_t *p = b.at, *end = b.at + b.len; (p = memchr(p, '\n', (size_t)(end - p))); p++) lines++;
        double took = now() - start;
        if (lines && took < best) best = took;
    }
    return best;
}

int main(int argc, char **argv) {
    if (argc > 1) runs = atoi(argv[1]);
    tables sheets[2] = { town(FULL), town(FULL / 4) };
    job exact = job_of(sheets[0], false), exact4 = job_of(sheets[1], false);
    printf("%zu bytes, %d rows; best of %d runs\n", exact.text.len, (int)exact.sheet.count, runs);
    printf("%-13s %10.6f s\n", "memchr", memchr_pass(exact.text));
    printf("%-13s %12s %12s\n", "", "library", "reference");
    measure("read exact", read_item, exact, exact4);
    measure("read loose", read_item, job_of(sheets[0], true), job_of(sheets[1], true));
    measure("read giants", read_item, job_of(round_borders(GIANT, FULL), false), job_of(round_borders(GIANT, FULL / 4), false));
    measure("write", write_item, exact, exact4);
    measure("tally", tally_item, exact, exact4);
    /* pairs of edges, not bytes, are what the ring check grows by: half the vertices have a quarter of them */
    job ring = job_of(round_borders(RING, 1), false), half = job_of(round_borders(RING / 2, 1), false);
    half.text.len = ring.text.len / 4;
    measure("ring check", ring_item, ring, half);
    measure("mask 9999", mask_item, job_of(round_mask(GIANT), false), job_of(round_mask(GIANT / 4), false));
    measure("mask fine", fine_item, job_of(round_mask(GIANT), false), job_of(round_mask(GIANT / 4), false));
    measure("mask town", mask_item, exact, exact4);
    measure("remove", remove_item, exact, exact4);
    measure("move", move_item, exact, exact4);
    job listed = job_of(parcels(FULL), false), listed4 = job_of(parcels(FULL / 4), false);
    measure("sup", sup_item, exact, exact4);
    measure("sup parcels", sup_item, listed, listed4);
    measure("cml", cml_item, job_of(lines(300, FULL), false), job_of(lines(300, FULL / 4), false));
    measure("check", check_item, exact, exact4);
    measure("check parcels", check_item, listed, listed4);
    return 0;
}
