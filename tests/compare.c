/* compare COUNT SEED [FIRST]: asks the library under test (cxf_*) and the reference (ref_*) the same questions, COUNT
   cases from SEED, and says what differs. Each case has a generator of its own, so case N alone is `compare 1 SEED N`.
   SHOW=n in the environment prints the first n differences in place of one. Exit status 1 on any difference. */
#define _DEFAULT_SOURCE
#include "examples.h"
#include "generate.h"
#include "reference.h"

#include <signal.h>
#include <stdio.h>
#include <stdlib.h>
#include <string.h>
#include <sys/mman.h>
#include <sys/time.h>
#include <unistd.h>

#define FILE_LIMIT 16777216u
#define TALLY_MOST 9000000000000000000LL

typedef enum {
    READ, WRITE, BORDER_AT, TEXT_AT, RING_AREA, NET_AREA, TALLY_SHEET, TALLY_TAKE, RING_CHECK, TILE_POINT, RECORD_AT, INTEGER, REAL,
    LISTING, SUP_WRITE, MASK_OF, REMOVE, MOVE, CONVERT, SUP_CHECK, CML_LINES, ENTRIES
} entry;

static const char *const NAMES[ENTRIES] = {
    "read", "write", "border_at", "text_at", "ring_area", "net_area", "tally_sheet", "tally_take", "ring_check", "tile_point",
    "record_at", "integer", "real", "listing", "sup_write", "mask_of", "remove", "move", "convert", "sup_check",
    "cml_lines",
};

/* How often the reference gave each number, so that thin coverage shows. */
#define NUMBERS 27
static uint64_t given[ENTRIES][3][NUMBERS]; /* by mode where there is one: 0 loose, 1 exact, 2 former */
static uint64_t listing_says[NUMBERS], convert_says[NUMBERS], converted, former_alone;
static uint64_t classes[7], eleven[2][7], rings_simple, pairs_self, pairs_next, pairs_ends, pairs_other, rights, centroids, both_texts, lists_whole;
static uint64_t whole_files, rewritten;
static uint64_t sup_kinds[4], sup_listed_most, sup_equal_codes, sup_minus, sup_wide[9], sup_wide_listed, sup_past[2];
#define COLUMNS 16
static uint64_t columns[2][3][COLUMNS]; /* of integers and reals, by mode; the last holds all further ones */
static uint64_t kinds_read[LAST_KIND + 1], joined_files, joined_tallies;
static uint64_t masks_empty, masks_full, masks_part, masks_through, masks_level, masks_flat;
static uint64_t removed[LAST_KIND + 1][4], moved_back; /* by the row's kind; only row, first, last, between */
static uint64_t sup_other, sup_wrong[8]; /* right files that are not T-01's; wrong lines: the date, counts, FABBRIC, listed, .. */
static uint64_t cml_elements, cml_several, cml_unlike;
static uint64_t cleaned_alike, cleaned_unlike;
static uint64_t answers, differences, shown_most = 1;

/* ---- What is being asked, for the report ---- */

static struct {
    uint64_t seed, which;
    entry asked;
    int mode;                    /* for the count: 0 loose, 1 exact, 2 former */
    const uint8_t *src;          /* the bytes handed in, or null */
    size_t src_len;
    const tables *sheet;         /* the sheet handed in, or null */
    struct { const char *name; uint64_t value; } args[8];
    int arg_count;
} now;

static void ask(entry e) {
    now.asked = e;
    now.mode = 0;
    now.src = NULL;
    now.src_len = 0;
    now.sheet = NULL;
    now.arg_count = 0;
}

static int mode_counted(uint64_t mode) { return mode == 0 ? 0 : mode == 2 ? 2 : 1; }

static void arg(const char *name, uint64_t value) {
    now.args[now.arg_count].name = name;
    now.args[now.arg_count].value = value;
    now.arg_count++;
}

static void dump(const char *name, const uint8_t *b, size_t n) {
    const size_t most = 65536;
    printf("  %s, %zu bytes in hex%s:\n", name, n, n > most ? " (the first 65536)" : "");
    for (size_t i = 0; i < n && i < most; i++) printf("%s%02x", i % 32 == 0 ? i == 0 ? "    " : "\n    " : " ", b[i]);
    printf("\n");
}

static void dump_numbers(const char *name, const int64_t *v, size_t n, size_t to_a_line) {
    const size_t most = 4800;
    printf("  %s, %zu numbers%s:", name, n, n > most ? " (the first 4800)" : "");
    for (size_t i = 0; i < n && i < most; i++) printf("%s%lld", i % to_a_line == 0 ? "\n    " : " ", (long long)v[i]);
    printf("\n");
}

static void describe(void) {
    printf("  case %llu of seed %llu (compare 1 %llu %llu), asked cxf_%s\n", (unsigned long long)now.which, (unsigned long long)now.seed,
           (unsigned long long)now.seed, (unsigned long long)now.which, NAMES[now.asked]);
    for (int i = 0; i < now.arg_count; i++)
        printf("  %s = %llu (%lld)\n", now.args[i].name, (unsigned long long)now.args[i].value, (long long)now.args[i].value);
    if (now.src != NULL) dump("input", now.src, now.src_len);
    if (now.sheet != NULL) {
        const tables *t = now.sheet;
        printf("  sheet: kind %llu, scale %lld, count %llu\n", (unsigned long long)t->kind, (long long)t->scale, (unsigned long long)t->count);
        dump("name", t->name, t->name_len);
        dump_numbers("rows", t->rows, t->rows_len, ROW_WIDTH);
        dump("letters", t->letters, t->letters_len);
        printf("  islands, %zu numbers:", t->islands_len);
        for (size_t i = 0; i < t->islands_len && i < 4800; i++) printf(" %u", t->islands[i]);
        printf("\n");
        dump_numbers("points", t->points, t->points_len, 2);
    }
}

/* The library is to end with an answer for every input: a fault or an endless loop is a difference. */
static void on_signal(int number) {
    printf("\nDIFFERENCE: the library %s (signal %d)\n", number == SIGVTALRM ? "gave no answer in ten minutes of processor time" : "was stopped", number);
    describe();
    fflush(stdout);
    _exit(1);
}

/* ---- Answers as named numbers ---- */

typedef struct { const char *name[72]; uint64_t value[72]; int count; } flat;

static void put(flat *f, const char *name, uint64_t value) {
    f->name[f->count] = name;
    f->value[f->count] = value;
    f->count++;
}

static flat of_reading(cxf_reading a) {
    flat f = {.count = 0};
    uint64_t low = 0, high = 0;
    put(&f, "number", a.number);
    put(&f, "record", a.record);
    put(&f, "offset", a.offset);
    put(&f, "column", a.column);
    put(&f, "rows", a.rows);
    put(&f, "letters", a.letters);
    put(&f, "islands", a.islands);
    put(&f, "points", a.points);
    put(&f, "kind", a.kind);
    put(&f, "scale", (uint64_t)a.scale);
    for (int i = 0; i < 8; i++) low = low << 8 | a.name[i];
    for (int i = 8; i < 11; i++) high = high << 8 | a.name[i];
    put(&f, "name 0 to 7", low);
    put(&f, "name 8 to 10", high);
    return f;
}

static flat of_written(cxf_written a) {
    flat f = {.count = 0};
    put(&f, "number", a.number);
    put(&f, "row", a.row);
    put(&f, "length", a.length);
    return f;
}

static flat of_border(cxf_border a) {
    flat f = {.count = 0};
    put(&f, "number", a.number);
    put(&f, "row", a.row);
    put(&f, "class_of", a.class_of);
    put(&f, "size", (uint64_t)a.size);
    put(&f, "angle", (uint64_t)a.angle);
    put(&f, "x", (uint64_t)a.x);
    put(&f, "y", (uint64_t)a.y);
    put(&f, "inner_x", (uint64_t)a.inner_x);
    put(&f, "inner_y", (uint64_t)a.inner_y);
    put(&f, "letters", a.letters);
    put(&f, "islands", a.islands);
    put(&f, "vertices", a.vertices);
    return f;
}

static flat of_text(cxf_text a) {
    flat f = {.count = 0};
    put(&f, "number", a.number);
    put(&f, "row", a.row);
    put(&f, "surface_right", a.surface_right);
    put(&f, "centroid", a.centroid);
    return f;
}

static flat of_area(cxf_area a) {
    flat f = {.count = 0};
    put(&f, "number", a.number);
    put(&f, "row", a.row);
    put(&f, "doubled", (uint64_t)a.doubled);
    return f;
}

static flat of_tally(cxf_tally a) {
    flat f = {.count = 0};
    put(&f, "number", a.number);
    put(&f, "row", a.row);
    for (int i = 0; i < 24; i++) put(&f, "figure", (uint64_t)a.figures[i]);
    return f;
}

static flat of_ring(cxf_ring a) {
    flat f = {.count = 0};
    put(&f, "number", a.number);
    put(&f, "row", a.row);
    put(&f, "simple", a.simple);
    put(&f, "first", a.first);
    put(&f, "second", a.second);
    return f;
}

static flat of_tile(cxf_tile a) {
    flat f = {.count = 0};
    uint32_t east, south; /* by their bits, so that -0.0 is not 0.0 */
    memcpy(&east, &a.east, 4);
    memcpy(&south, &a.south, 4);
    put(&f, "number", a.number);
    put(&f, "east's bits", east);
    put(&f, "south's bits", south);
    return f;
}

static flat of_record(cxf_record a) {
    flat f = {.count = 0};
    put(&f, "number", a.number);
    put(&f, "start", a.start);
    put(&f, "length", a.length);
    put(&f, "next", a.next);
    return f;
}

static flat of_number(cxf_number a) {
    flat f = {.count = 0};
    put(&f, "number", a.number);
    put(&f, "column", a.column);
    put(&f, "value", (uint64_t)a.value);
    return f;
}

static flat of_listed(cxf_listed a) {
    flat f = {.count = 0};
    put(&f, "number", a.number);
    put(&f, "length", a.length);
    return f;
}

static flat of_sup(cxf_sup a) {
    flat f = {.count = 0};
    put(&f, "number", a.number);
    put(&f, "row", a.row);
    put(&f, "line", a.line);
    put(&f, "length", a.length);
    return f;
}

static flat of_mask(cxf_mask a) {
    flat f = {.count = 0};
    put(&f, "number", a.number);
    put(&f, "row", a.row);
    put(&f, "covered", a.covered);
    for (int i = 0; i < 64; i++) put(&f, "cells", a.rows[i]);
    return f;
}

static flat of_edited(cxf_edited a) {
    flat f = {.count = 0};
    put(&f, "number", a.number);
    put(&f, "row", a.row);
    put(&f, "count", a.count);
    return f;
}

static flat of_sup_checked(cxf_sup_checked a) {
    flat f = {.count = 0};
    put(&f, "number", a.number);
    put(&f, "row", a.row);
    put(&f, "line", a.line);
    return f;
}

/* Compares two answers; `lent` says what else went wrong with what was lent, or is null. */
static void judge(flat library, flat reference, const char *lent) {
    bool same = lent == NULL;
    answers++;
    if (reference.value[0] < NUMBERS) given[now.asked][now.mode][reference.value[0]]++;
    for (int i = 0; i < reference.count; i++)
        if (library.value[i] != reference.value[i]) same = false;
    if (same) return;
    differences++;
    if (differences > shown_most) return;
    printf("\nDIFFERENCE\n");
    if (lent != NULL) printf("  %s\n", lent);
    printf("  %-14s %24s %24s\n", "", "library", "reference");
    for (int i = 0; i < reference.count; i++)
        printf("  %-14s %24lld %24lld%s\n", reference.name[i], (long long)library.value[i], (long long)reference.value[i],
               library.value[i] != reference.value[i] ? "  <--" : "");
    describe();
    fflush(stdout);
}

/* ---- What is lent ---- */

/* A place to lend from, with pages before and behind it that nobody may touch. What is lent lies against one of them,
   so that one byte too far is a fault, or between guard bytes, which are looked at after each call. */
typedef struct { uint8_t *low, *high, *at; size_t len, before, behind; } pen;

enum { PAGES = 65536, GUARD = 96, GUARD_BYTE = 0xC3 };

static pen SRC, OUT, ROWS, LETTERS, ISLANDS, POINTS, NAME, FIGURES, DATE;

static void build(pen *p, size_t most) {
    const size_t n = (most + 4 * GUARD + PAGES) / PAGES * PAGES + PAGES;
    uint8_t *all = mmap(NULL, n + 2 * PAGES, PROT_NONE, MAP_PRIVATE | MAP_ANONYMOUS | MAP_NORESERVE, -1, 0);
    if (all == MAP_FAILED || mprotect(all + PAGES, n, PROT_READ | PROT_WRITE) != 0) {
        fprintf(stderr, "compare: no memory to lend\n");
        exit(2);
    }
    p->low = all + PAGES;
    p->high = p->low + n;
}

static void *lend(pen *p, rng *g, size_t n, size_t unit) {
    if (n > (size_t)(p->high - p->low) - 4 * GUARD) {
        fprintf(stderr, "compare: a table of %zu bytes is too large to lend\n", n);
        exit(2);
    }
    switch (below(g, 3)) {
    case 0: p->at = p->high - n; break;
    case 1: p->at = p->low; break;
    default: p->at = p->low + GUARD + unit * below(g, 8); break;
    }
    p->len = n;
    p->before = (size_t)(p->at - p->low) < GUARD ? (size_t)(p->at - p->low) : GUARD;
    p->behind = (size_t)(p->high - p->at) - n < GUARD ? (size_t)(p->high - p->at) - n : GUARD;
    memset(p->at - p->before, GUARD_BYTE, p->before);
    memset(p->at + n, GUARD_BYTE, p->behind);
    /* "A slice of length 0 is not touched, whatever its pointer": null, or the first byte that nobody may touch */
    return n == 0 && one_in(g, 2) ? NULL : p->at;
}

static void *lend_copy(pen *p, rng *g, const void *from, size_t n, size_t unit) {
    void *at = lend(p, g, n, unit);
    if (n > 0) memcpy(at, from, n);
    return at;
}

static bool guarded(const pen *p) {
    for (size_t i = 1; i <= p->before; i++)
        if (p->at[-(ptrdiff_t)i] != GUARD_BYTE) return false;
    for (size_t i = 0; i < p->behind; i++)
        if (p->at[p->len + i] != GUARD_BYTE) return false;
    return true;
}

static bool holds(const pen *p, const void *what) { return guarded(p) && (p->len == 0 || memcmp(p->at, what, p->len) == 0); }

/* The reference's own copies of the tables that are lent. */
typedef struct { void *at; size_t room; } copy;
static copy rows_copy, letters_copy, islands_copy, points_copy, out_copy;
static copy edited_rows, edited_letters, edited_islands, edited_points;

static void *copied(copy *c, const pen *p) {
    if (c->room < p->len || c->at == NULL) {
        c->room = 2 * p->len + 64;
        free(c->at);
        c->at = malloc(c->room);
        if (c->at == NULL) exit(2);
    }
    memcpy(c->at, p->at, p->len);
    return c->at;
}

/* ---- Each entry point, asked on both sides ---- */

typedef struct { size_t rows, letters, islands, points; } rooms;

/* The reading that both gave; the tables are left in the reference's copies. */
static cxf_reading try_read(rng *g, const bytes *src, uint64_t mode, rooms r) {
    ask(READ);
    now.mode = mode_counted(mode);
    now.src = src->at;
    now.src_len = src->len;
    arg("mode", mode);
    arg("rows_len", r.rows);
    arg("letters_len", r.letters);
    arg("islands_len", r.islands);
    arg("points_len", r.points);
    const uint8_t *lent_src = lend_copy(&SRC, g, src->at, src->len, 1);
    int64_t *rows = lend(&ROWS, g, r.rows * sizeof *rows, sizeof *rows);
    uint8_t *letters = lend(&LETTERS, g, r.letters, 1);
    uint16_t *islands = lend(&ISLANDS, g, r.islands * sizeof *islands, sizeof *islands);
    int64_t *points = lend(&POINTS, g, r.points * sizeof *points, sizeof *points);
    memset(ROWS.at, (int)below(g, 256), ROWS.len);
    memset(LETTERS.at, (int)below(g, 256), LETTERS.len);
    memset(ISLANDS.at, (int)below(g, 256), ISLANDS.len);
    memset(POINTS.at, (int)below(g, 256), POINTS.len);
    int64_t *my_rows = copied(&rows_copy, &ROWS), *my_points = copied(&points_copy, &POINTS);
    uint8_t *my_letters = copied(&letters_copy, &LETTERS);
    uint16_t *my_islands = copied(&islands_copy, &ISLANDS);

    const bool unnamed = mode == 1 && below(g, 2);
    arg("no mode named", unnamed);
    const cxf_reading theirs =
        unnamed ? cxf_read_default(lent_src, src->len, rows, r.rows, letters, r.letters, islands, r.islands, points, r.points)
                : cxf_read(lent_src, src->len, mode, rows, r.rows, letters, r.letters, islands, r.islands, points, r.points);
    const cxf_reading mine =
        unnamed ? ref_read_default(src->at, src->len, my_rows, r.rows, my_letters, r.letters, my_islands, r.islands, my_points, r.points)
                : ref_read(src->at, src->len, mode, my_rows, r.rows, my_letters, r.letters, my_islands, r.islands, my_points, r.points);
    const char *lent = NULL;
    if (!holds(&SRC, src->at)) lent = "the input was altered, or what lies around it";
    else if (!holds(&ROWS, my_rows)) lent = "the row table, or what lies around it, differs";
    else if (!holds(&LETTERS, my_letters)) lent = "the letters table, or what lies around it, differs";
    else if (!holds(&ISLANDS, my_islands)) lent = "the islands table, or what lies around it, differs";
    else if (!holds(&POINTS, my_points)) lent = "the points table, or what lies around it, differs";
    /* a row takes 28 bytes at least, a letter one, an island count two, a point twelve */
    else if (theirs.rows > src->len / 28 || theirs.letters > src->len || theirs.islands > src->len / 2 || theirs.points > src->len / 12)
        lent = "more is used or needed than a file of this length can";
    judge(of_reading(theirs), of_reading(mine), lent);
    return mine;
}

static void try_record(rng *g, const bytes *src, uint64_t at, uint64_t mode, uint64_t due) {
    ask(RECORD_AT);
    now.mode = mode_counted(mode);
    now.src = src->at;
    now.src_len = src->len;
    arg("at", at);
    arg("mode", mode);
    arg("keyword_due", due);
    const uint8_t *lent_src = lend_copy(&SRC, g, src->at, src->len, 1);
    const cxf_record theirs = cxf_record_at(lent_src, src->len, at, mode, due);
    const cxf_record mine = ref_record_at(src->at, src->len, at, mode, due);
    judge(of_record(theirs), of_record(mine), holds(&SRC, src->at) ? NULL : "the input was altered, or what lies around it");
}

static void try_number(rng *g, const bytes *content, uint64_t mode, bool real) {
    ask(real ? REAL : INTEGER);
    now.mode = mode_counted(mode);
    now.src = content->at;
    now.src_len = content->len;
    arg("mode", mode);
    const uint8_t *lent = lend_copy(&SRC, g, content->at, content->len, 1);
    const cxf_number theirs = real ? cxf_real(lent, content->len, mode) : cxf_integer(lent, content->len, mode);
    const cxf_number mine = real ? ref_real(content->at, content->len, mode) : ref_integer(content->at, content->len, mode);
    judge(of_number(theirs), of_number(mine), holds(&SRC, content->at) ? NULL : "the input was altered, or what lies around it");
    if (mine.number != 0) columns[real][now.mode][mine.column < COLUMNS ? mine.column : COLUMNS - 1]++;
}

static void try_tile(int64_t corner_x, int64_t corner_y, int64_t x, int64_t y) {
    ask(TILE_POINT);
    arg("corner_x", (uint64_t)corner_x);
    arg("corner_y", (uint64_t)corner_y);
    arg("x", (uint64_t)x);
    arg("y", (uint64_t)y);
    judge(of_tile(cxf_tile_point(corner_x, corner_y, x, y)), of_tile(ref_tile_point(corner_x, corner_y, x, y)), NULL);
}

/* The number in a line that says REFUSED. */
static unsigned refusal_said(const uint8_t *text) {
    unsigned says = 0;
    for (size_t i = 8; text[i] >= '0' && text[i] <= '9'; i++) says = 10 * says + (text[i] - '0');
    return says < NUMBERS ? says : 0;
}

typedef cxf_listed printing(const uint8_t *src, size_t src_len, uint8_t *out, size_t out_len);

/* What a program prints for an input, in room that is enough, too little or more. The answer that both gave; the text is left in the
   reference's copy of the output. */
static cxf_listed try_printed(rng *g, const bytes *src, entry asked, printing *library, printing *reference) {
    ask(asked);
    now.src = src->at;
    now.src_len = src->len;
    size_t out_len = (size_t)reference(src->at, src->len, NULL, 0).length;
    if (one_in(g, 4)) out_len = one_in(g, 2) ? out_len - 1 : below(g, out_len);
    else if (one_in(g, 2)) out_len += below(g, 40);
    arg("out_len", out_len);
    const uint8_t *lent_src = lend_copy(&SRC, g, src->at, src->len, 1);
    uint8_t *out = lend(&OUT, g, out_len, 1);
    memset(OUT.at, (int)below(g, 256), OUT.len);
    uint8_t *mine_out = copied(&out_copy, &OUT);
    const cxf_listed theirs = library(lent_src, src->len, out, out_len);
    const cxf_listed mine = reference(src->at, src->len, mine_out, out_len);
    const char *lent = NULL;
    if (!holds(&SRC, src->at)) lent = "the input was altered, or what lies around it";
    else if (!holds(&OUT, mine_out)) lent = "the text, or what lies around it, differs";
    if (lent != NULL && differences < shown_most) {
        printf("\nthe library's text:   %.*s\nthe reference's text: %.*s\n", (int)out_len, (const char *)OUT.at, (int)out_len,
               (const char *)mine_out);
    }
    judge(of_listed(theirs), of_listed(mine), lent);
    return mine;
}

static void try_listing(rng *g, const bytes *src) {
    if (try_printed(g, src, LISTING, cxf_listing, ref_listing).number != 0) return;
    const uint8_t *text = out_copy.at;
    if (text[0] == 'R') listing_says[refusal_said(text)]++;
    else lists_whole++;
}

static cxf_listed try_convert(rng *g, const bytes *src) {
    const cxf_listed mine = try_printed(g, src, CONVERT, cxf_convert, ref_convert);
    if (mine.number != 0) return mine;
    const uint8_t *text = out_copy.at;
    if (text[0] == 'R') convert_says[refusal_said(text)]++;
    else converted++;
    return mine;
}

/* The sheet as it is lent to the library, and as the reference has it. */
#define LENT(t)                                                                                                      \
    (t)->kind, lent_name, (t)->name_len, (t)->scale, (t)->count, lent_rows, (t)->rows_len, lent_letters, (t)->letters_len, \
        lent_islands, (t)->islands_len, lent_points, (t)->points_len
#define OWN(t)                                                                                                       \
    (t)->kind, (t)->name, (t)->name_len, (t)->scale, (t)->count, (t)->rows, (t)->rows_len, (t)->letters, (t)->letters_len,  \
        (t)->islands, (t)->islands_len, (t)->points, (t)->points_len

static const uint8_t *lent_name, *lent_letters;
static const int64_t *lent_rows, *lent_points;
static const uint16_t *lent_islands;

static void lend_sheet(rng *g, const tables *t) {
    lent_name = lend_copy(&NAME, g, t->name, t->name_len, 1);
    lent_rows = lend_copy(&ROWS, g, t->rows, t->rows_len * sizeof t->rows[0], sizeof t->rows[0]);
    lent_letters = lend_copy(&LETTERS, g, t->letters, t->letters_len, 1);
    lent_islands = lend_copy(&ISLANDS, g, t->islands, t->islands_len * sizeof t->islands[0], sizeof t->islands[0]);
    lent_points = lend_copy(&POINTS, g, t->points, t->points_len * sizeof t->points[0], sizeof t->points[0]);
}

static const char *sheet_altered(const tables *t) {
    if (holds(&NAME, t->name) && holds(&ROWS, t->rows) && holds(&LETTERS, t->letters) && holds(&ISLANDS, t->islands) &&
        holds(&POINTS, t->points))
        return NULL;
    return "the sheet was altered, or what lies around it";
}

static void ask_sheet(entry e, const tables *t) {
    ask(e);
    now.sheet = t;
}

static cxf_written try_write(rng *g, const tables *t, size_t out_len) {
    ask_sheet(WRITE, t);
    arg("out_len", out_len);
    uint8_t *out = lend(&OUT, g, out_len, 1);
    memset(OUT.at, (int)below(g, 256), OUT.len);
    uint8_t *mine_out = copied(&out_copy, &OUT);
    const cxf_written theirs = cxf_write(LENT(t), out, out_len);
    const cxf_written mine = ref_write(OWN(t), mine_out, out_len);
    const char *lent = sheet_altered(t);
    if (lent == NULL && !holds(&OUT, mine_out)) lent = "what was written, or what lies around it, differs";
    judge(of_written(theirs), of_written(mine), lent);
    return mine;
}

static void try_border(const tables *t, uint64_t row) {
    ask_sheet(BORDER_AT, t);
    arg("row", row);
    const cxf_border theirs = cxf_border_at(LENT(t), row), mine = ref_border_at(OWN(t), row);
    judge(of_border(theirs), of_border(mine), sheet_altered(t));
    if (mine.number != 0) return;
    classes[mine.class_of]++;
    if (mine.letters == 11) eleven[t->kind == 3][mine.class_of]++;
}

static void try_text(const tables *t, uint64_t row) {
    ask_sheet(TEXT_AT, t);
    arg("row", row);
    const cxf_text theirs = cxf_text_at(LENT(t), row), mine = ref_text_at(OWN(t), row);
    judge(of_text(theirs), of_text(mine), sheet_altered(t));
    rights += mine.surface_right;
    centroids += mine.centroid;
    both_texts += mine.surface_right & mine.centroid;
}

static void try_area(const tables *t, uint64_t row, uint64_t ring) {
    ask_sheet(RING_AREA, t);
    arg("row", row);
    arg("ring", ring);
    const cxf_area theirs = cxf_ring_area(LENT(t), row, ring), mine = ref_ring_area(OWN(t), row, ring);
    judge(of_area(theirs), of_area(mine), sheet_altered(t));
}

static void try_net(const tables *t, uint64_t row) {
    ask_sheet(NET_AREA, t);
    arg("row", row);
    const cxf_area theirs = cxf_net_area(LENT(t), row), mine = ref_net_area(OWN(t), row);
    judge(of_area(theirs), of_area(mine), sheet_altered(t));
}

static void try_tally(const tables *t) {
    ask_sheet(TALLY_SHEET, t);
    const cxf_tally theirs = cxf_tally_sheet(LENT(t)), mine = ref_tally_sheet(OWN(t));
    judge(of_tally(theirs), of_tally(mine), sheet_altered(t));
}

static void try_take(rng *g, const tables *t, uint64_t row, const int64_t *figures, size_t figures_len) {
    ask_sheet(TALLY_TAKE, t);
    arg("row", row);
    arg("figures_len", figures_len);
    const int64_t *lent = lend_copy(&FIGURES, g, figures, figures_len * sizeof *figures, sizeof *figures);
    const cxf_tally theirs = cxf_tally_take(lent, figures_len, LENT(t), row), mine = ref_tally_take(figures, figures_len, OWN(t), row);
    judge(of_tally(theirs), of_tally(mine), holds(&FIGURES, figures) ? sheet_altered(t) : "the figures were altered, or what lies around them");
}

static void try_check(const tables *t, uint64_t row, uint64_t ring) {
    ask_sheet(RING_CHECK, t);
    arg("row", row);
    arg("ring", ring);
    const cxf_ring theirs = cxf_ring_check(LENT(t), row, ring), mine = ref_ring_check(OWN(t), row, ring);
    judge(of_ring(theirs), of_ring(mine), sheet_altered(t));
    if (mine.number != 0) return;
    if (mine.simple == 1) rings_simple++;
    else if (mine.first == mine.second) pairs_self++;
    else if (mine.first + 1 == mine.second) pairs_next++;
    else if (mine.first == 0) pairs_ends++; /* the last edge among them */
    else pairs_other++;
}

static cxf_sup try_sup(rng *g, const tables *t, const uint8_t *date, size_t date_len, size_t out_len) {
    ask_sheet(SUP_WRITE, t);
    now.src = date;
    now.src_len = date_len;
    arg("out_len", out_len);
    const uint8_t *lent_date = lend_copy(&DATE, g, date, date_len, 1);
    uint8_t *out = lend(&OUT, g, out_len, 1);
    memset(OUT.at, (int)below(g, 256), OUT.len);
    uint8_t *mine_out = copied(&out_copy, &OUT);
    const cxf_sup theirs = cxf_sup_write(LENT(t), lent_date, date_len, out, out_len);
    const cxf_sup mine = ref_sup_write(OWN(t), date, date_len, mine_out, out_len);
    const char *lent = sheet_altered(t);
    if (lent == NULL && !holds(&DATE, date)) lent = "the date was altered, or what lies around it";
    if (lent == NULL && !holds(&OUT, mine_out)) lent = "the text, or what lies around it, differs";
    if (lent != NULL && differences < shown_most)
        printf("\nthe library's text:\n%.*s\nthe reference's text:\n%.*s\n", (int)out_len, (const char *)OUT.at, (int)out_len, (const char *)mine_out);
    judge(of_sup(theirs), of_sup(mine), lent);
    return mine;
}

static cxf_sup_checked try_sup_check(rng *g, const tables *t, const bytes *sup) {
    ask_sheet(SUP_CHECK, t);
    now.src = sup->at;
    now.src_len = sup->len;
    const uint8_t *lent_sup = lend_copy(&SRC, g, sup->at, sup->len, 1);
    const cxf_sup_checked theirs = cxf_sup_check(LENT(t), lent_sup, sup->len), mine = ref_sup_check(OWN(t), sup->at, sup->len);
    judge(of_sup_checked(theirs), of_sup_checked(mine), holds(&SRC, sup->at) ? sheet_altered(t) : "the file was altered, or what lies around it");
    return mine;
}

static cxf_mask try_mask(const tables *t, uint64_t row, frame f) {
    ask_sheet(MASK_OF, t);
    arg("row", row);
    arg("corner_x", (uint64_t)f.x);
    arg("corner_y", (uint64_t)f.y);
    arg("cell", (uint64_t)f.cell);
    const cxf_mask theirs = cxf_mask_of(LENT(t), row, f.x, f.y, f.cell), mine = ref_mask_of(OWN(t), row, f.x, f.y, f.cell);
    judge(of_mask(theirs), of_mask(mine), sheet_altered(t));
    return mine;
}

static cxf_written try_cml(rng *g, const tables *t, size_t out_len) {
    ask_sheet(CML_LINES, t);
    arg("out_len", out_len);
    uint8_t *out = lend(&OUT, g, out_len, 1);
    memset(OUT.at, (int)below(g, 256), OUT.len);
    uint8_t *mine_out = copied(&out_copy, &OUT);
    const cxf_written theirs = cxf_cml_lines(LENT(t), out, out_len), mine = ref_cml_lines(OWN(t), mine_out, out_len);
    const char *lent = sheet_altered(t);
    if (lent == NULL && !holds(&OUT, mine_out)) lent = "what was written, or what lies around it, differs";
    judge(of_written(theirs), of_written(mine), lent);
    return mine;
}

#define ALTERED(t, rows, letters, islands, points)                                                                   \
    (t)->kind, (t)->name, (t)->name_len, (t)->scale, (t)->count, rows, (t)->rows_len, letters, (t)->letters_len, islands, \
        (t)->islands_len, points, (t)->points_len

/* A row removed, or the sheet moved: on the tables that are lent and on the reference's own, which are then compared, with what
   stands behind the used part. `result` is the sheet as the reference left it, until the next edit. */
static cxf_edited try_edit(rng *g, const tables *t, entry what, uint64_t row, pair by, tables *result) {
    lend_sheet(g, t);
    ask_sheet(what, t);
    if (what == REMOVE) {
        arg("row", row);
    } else {
        arg("by_x", (uint64_t)by.x);
        arg("by_y", (uint64_t)by.y);
    }
    int64_t *rows = (int64_t *)lent_rows, *my_rows = copied(&edited_rows, &ROWS);
    int64_t *points = (int64_t *)lent_points, *my_points = copied(&edited_points, &POINTS);
    uint8_t *letters = (uint8_t *)lent_letters, *my_letters = copied(&edited_letters, &LETTERS);
    uint16_t *islands = (uint16_t *)lent_islands, *my_islands = copied(&edited_islands, &ISLANDS);
    cxf_edited theirs, mine;
    if (what == REMOVE) {
        theirs = cxf_remove(ALTERED(t, rows, letters, islands, points), row);
        mine = ref_remove(ALTERED(t, my_rows, my_letters, my_islands, my_points), row);
    } else {
        theirs = cxf_move(ALTERED(t, rows, letters, islands, points), by.x, by.y);
        mine = ref_move(ALTERED(t, my_rows, my_letters, my_islands, my_points), by.x, by.y);
    }
    const char *lent = NULL;
    if (!holds(&ROWS, my_rows)) lent = "the row table, or what lies around it, differs";
    else if (!holds(&LETTERS, my_letters)) lent = "the letters table, or what lies around it, differs";
    else if (!holds(&ISLANDS, my_islands)) lent = "the islands table, or what lies around it, differs";
    else if (!holds(&POINTS, my_points)) lent = "the points table, or what lies around it, differs";
    else if (!holds(&NAME, t->name)) lent = "the name was altered, or what lies around it";
    judge(of_edited(theirs), of_edited(mine), lent);
    *result = *t;
    result->rows = my_rows, result->letters = my_letters, result->islands = my_islands, result->points = my_points;
    if (mine.number == 0) result->count = mine.count;
    return mine;
}

/* A row with its own parts of the tables, as a sheet of one row, its starts set to 0. It holds until the next one is asked for. */
static tables alone(const tables *t, uint64_t row) {
    static int64_t own[ROW_WIDTH];
    tables one = *t;
    for (uint64_t i = 0; i <= row; i++) {
        if (i > 0) {
            one.rows += ROW_WIDTH;
            one.letters += one.letters_len;
            one.islands += one.islands_len;
            one.points += one.points_len;
        }
        one.letters_len = (size_t)one.rows[9];
        one.islands_len = (size_t)one.rows[10];
        one.points_len = 2 * (size_t)one.rows[11];
    }
    memcpy(own, one.rows, sizeof own);
    set_starts(own, 1);
    one.rows = own;
    one.rows_len = ROW_WIDTH;
    one.count = 1;
    return one;
}

/* Of a well made sheet, a row that is asked alone answers as it does in the sheet. */
static void try_alone(const tables *t, uint64_t row, uint64_t ring) {
    const uint64_t made = ref_text_at(OWN(t), row).number; /* 0 where the sheet is well made and has the row */
    if (made != 0) return;
    const tables one = alone(t, row);
    ask_sheet(BORDER_AT, t);
    arg("row, asked alone", row);
    judge(of_border(cxf_border_at(OWN(&one), 0)), of_border(ref_border_at(OWN(t), row)), NULL);
    now.asked = TEXT_AT;
    judge(of_text(cxf_text_at(OWN(&one), 0)), of_text(ref_text_at(OWN(t), row)), NULL);
    now.asked = NET_AREA;
    judge(of_area(cxf_net_area(OWN(&one), 0)), of_area(ref_net_area(OWN(t), row)), NULL);
    arg("ring", ring);
    now.asked = RING_AREA;
    judge(of_area(cxf_ring_area(OWN(&one), 0, ring)), of_area(ref_ring_area(OWN(t), row, ring)), NULL);
    now.asked = RING_CHECK;
    judge(of_ring(cxf_ring_check(OWN(&one), 0, ring)), of_ring(ref_ring_check(OWN(t), row, ring)), NULL);
}

/* ---- Cases ---- */

static tables sheet, second;
static bytes file, other;

/* A fault of the reference or of the generator, found without the library. */
static void own_fault(const char *what) {
    printf("\nTHE REFERENCE CONTRADICTS ITSELF: %s\n", what);
    now.src = file.at;
    now.src_len = file.len;
    now.sheet = &sheet;
    describe();
    fflush(stdout);
    exit(1);
}

/* Just enough, one too few, more, or little. */
static size_t some_room(rng *g, uint64_t need, size_t unit, bool short_of_it) {
    const size_t n = (size_t)need * unit;
    if (short_of_it) return n == 0 ? 0 : one_in(g, 3) ? below(g, n) : n - 1;
    return one_in(g, 2) ? n : n + below(g, 30);
}

static rooms some_rooms(rng *g, const cxf_reading *need) {
    const uint64_t which = one_in(g, 3) ? below(g, 4) : one_in(g, 8) ? 5 : 4; /* 0 to 3: that table is short; 5: each may be */
    return (rooms){
        some_room(g, need->rows, ROW_WIDTH, which == 0 || (which == 5 && one_in(g, 2))),
        some_room(g, need->letters, 1, which == 1 || (which == 5 && one_in(g, 2))),
        some_room(g, need->islands, 1, which == 2 || (which == 5 && one_in(g, 2))),
        some_room(g, need->points, 2, which == 3 || (which == 5 && one_in(g, 2))),
    };
}

static const rooms NO_TABLES = {0, 0, 0, 0};

static cxf_reading needs_of(const bytes *src, uint64_t mode) {
    return ref_read(src->at, src->len, mode, NULL, 0, NULL, 0, NULL, 0, NULL, 0);
}

/* Not 2: that is the former reading. */
static uint64_t some_mode(rng *g, bool exact) { return !exact ? 0 : one_in(g, 4) ? any(g) | 1 : one_in(g, 4) ? 4ull << below(g, 62) : 1; }

/* Loose, exact or former. */
static uint64_t any_mode(rng *g) { return one_in(g, 3) ? 2 : some_mode(g, one_in(g, 2)); }

enum { BORDO = 1, TESTO = 2, LINEA = 5 };

/* Far off, or good in its low bits alone. */
static uint64_t far_from(rng *g, uint64_t n) { return one_in(g, 2) ? any(g) : n | 1ull << between(g, 32, 63); }

/* A row to ask about: one of that kind if there is one, else any, or one that is missing. */
static uint64_t some_row(rng *g, const tables *t, int64_t kind) {
    const uint64_t held = t->rows_len / ROW_WIDTH < t->count ? t->rows_len / ROW_WIDTH : t->count;
    if (held > 0 && !one_in(g, 5)) {
        const uint64_t start = below(g, held);
        for (uint64_t i = 0; i < held; i++) {
            const uint64_t row = (start + i) % held;
            if (t->rows[ROW_WIDTH * row] == kind) return row;
        }
    }
    return one_in(g, 6) ? far_from(g, below(g, t->count + 1)) : one_in(g, 3) ? t->count : below(g, t->count + 2);
}

static uint64_t some_ring(rng *g, const tables *t, uint64_t row) {
    uint64_t islands = 0;
    if (row < t->rows_len / ROW_WIDTH) islands = (uint64_t)t->rows[ROW_WIDTH * row + 10];
    if (islands > 9999) islands = 0;
    return one_in(g, 16) ? far_from(g, below(g, islands + 1)) : one_in(g, 12) ? islands + 1 : one_in(g, 3) ? 0 : below(g, islands + 1);
}

/* A running tally: empty, anything that keeps the limit, so near that this border just fits or just does not, or none. */
static void take_once(rng *g, const tables *t, uint64_t row) {
    int64_t figures[32] = {0};
    size_t figures_len = 24;
    for (int i = 0; i < 32; i++)
        if (one_in(g, 3)) figures[i] = between(g, 0, TALLY_MOST);
    if (one_in(g, 2)) {
        const int64_t nothing[24] = {0};
        const cxf_tally one = ref_tally_take(nothing, 24, OWN(t), row);
        if (one.number == 0)
            for (int i = 0; i < 24; i++)
                if (one.figures[i] != 0) figures[i] = TALLY_MOST - one.figures[i] + (one_in(g, 6) ? 1 : -(int64_t)below(g, 2));
    }
    if (one_in(g, 6)) {
        const int64_t bad[] = {-1, TALLY_MOST + 1, TALLY_MOST, INT64_MAX, INT64_MIN};
        figures[below(g, 24)] = bad[below(g, 5)];
    }
    if (one_in(g, 12)) figures_len = one_in(g, 3) ? 0 : one_in(g, 2) ? 23 : 25;
    try_take(g, t, row, figures, figures_len);
}

static int64_t sup_figure(const uint8_t *line) {
    char text[11] = {0};
    memcpy(text, line + 11, 10);
    return strtoll(text, NULL, 10);
}

/* What can be seen of a SUP text by itself. As a blank is the lowest letter and no code ends in one, the left fields rise
   as the codes do; and a figure never falls as the exact area rises. */
static void look_at_sup(const tables *t, const uint8_t *text, size_t length) {
    const cxf_tally tally = ref_tally_sheet(OWN(t));
    const uint64_t listed = (uint64_t)tally.figures[t->kind == 3 ? 4 : 20];
    const uint8_t *list = text + 7 * 23, *last = list + listed * 23;
    if (length != 23 * (14 + listed)) own_fault("a SUP text has not 14 lines and one for each listed border");
    for (size_t i = 0; i < length; i++) {
        const bool good = i % 23 == 21 ? text[i] == 13 : i % 23 == 22 ? text[i] == 10 : text[i] >= 32 && text[i] <= 126;
        if (!good) own_fault("a SUP line is not 21 letters and CR LF");
    }
    for (const uint8_t *line = list; line < last; line += 23) {
        if (sup_figure(line) < 0) sup_minus++;
        if (line == list) continue;
        const int order = memcmp(line - 23, line, 11);
        if (order > 0 || (order == 0 && sup_figure(line - 23) > sup_figure(line))) own_fault("the listed borders are not in order");
        if (order == 0) sup_equal_codes++;
    }
    if (sup_figure(last + 6 * 23) != sup_figure(last + 4 * 23) - sup_figure(last + 5 * 23))
        own_fault("SBILANCIO is not TOTALE less CONFINE");
    sup_kinds[t->kind]++;
    if (listed > sup_listed_most) sup_listed_most = listed;
}

/* A SUP file with a date and an output of some length; the sheet is lent. */
static void sup_once(rng *g, const tables *t) {
    uint8_t date[16];
    const size_t date_len = make_date(g, date);
    const cxf_sup need = ref_sup_write(OWN(t), date, date_len, NULL, 0);
    size_t out_len = need.number == 14 ? (size_t)need.length : below(g, 800);
    if (need.number == 14 && one_in(g, 4)) out_len -= one_in(g, 2) ? 1 : 1 + below(g, out_len);
    else if (one_in(g, 2)) out_len += below(g, 50);
    const cxf_sup a = try_sup(g, t, date, date_len, out_len);
    if (a.number == 0) look_at_sup(t, out_copy.at, (size_t)a.length);
    const cxf_tally tally = ref_tally_sheet(OWN(t));
    if (a.number == 18 && tally.number == 0) sup_past[tally.figures[21] < tally.figures[23]]++; /* parcels have TOTALE's sign */
    if (a.number == 23) {
        const uint64_t listed = (uint64_t)tally.figures[t->kind == 3 ? 4 : 20];
        if (a.line <= 7) sup_wide[0]++;
        else if (a.line <= 7 + listed) sup_wide_listed++;
        else sup_wide[a.line - 7 - listed]++;
    }
}

/* Which of the counted lines a wrong one is: the date's, counts, FABBRIC, listed, PARTIC to SVIL-ALL, totals, SBILANCIO, none. */
static int sort_of_line(uint64_t line, uint64_t listed) {
    if (line == 1) return 0;
    if (line <= 6) return 1;
    if (line == 7) return 2;
    line -= 7;
    if (line <= listed) return 3;
    line -= listed;
    return line <= 4 ? 4 : line <= 6 ? 5 : line == 7 ? 6 : 7;
}

/* "Every file T-01 writes for the sheet is accepted"; then the file is altered. The sheet is lent. */
static void check_once(rng *g, const tables *t) {
    static bytes sup, clean, t01;
    uint8_t date[16] = "20261115";
    if (one_in(g, 8)) make_date(g, date); /* of whatever length, its first eight bytes */
    const size_t most = 23 * (t->rows_len / ROW_WIDTH + 14);
    sup.len = t01.len = 0;
    while (sup.len < most) add_byte(&sup, 0);
    sup.len = near_sup(OWN(t), date, sup.at);
    if (sup.len == 0) { /* the sheet is refused, whatever the file */
        for (size_t n = below(g, 60); n > 0; n--) add_byte(&sup, (uint8_t)any(g));
        try_sup_check(g, t, &sup);
        return;
    }
    while (t01.len < most) add_byte(&t01, 0);
    const cxf_sup written = ref_sup_write(OWN(t), date, 8, t01.at, t01.len);
    const cxf_sup_checked first = try_sup_check(g, t, &sup);
    if (written.number == 0 && (first.number != 0 || written.length != sup.len || memcmp(t01.at, sup.at, sup.len) != 0))
        own_fault("a file that T-01 writes is not accepted");
    if (first.number != 0) sup_wrong[sort_of_line(first.line, sup.len / 23 - 14)]++;
    const uint64_t listed = sup.len / 23 - 14;
    clean.len = 0;
    add_bytes(&clean, sup.at, sup.len);
    for (int i = 0; i < 3; i++) {
        sup.len = 0;
        add_bytes(&sup, clean.at, clean.len);
        for (uint64_t n = one_in(g, 4) ? 2 : 1; n > 0; n--) damage_sup(g, &sup);
        const cxf_sup_checked c = try_sup_check(g, t, &sup);
        if (c.number == 25) sup_wrong[sort_of_line(c.line, listed)]++;
        else if (written.number != 0 || memcmp(t01.at, sup.at, sup.len) != 0) sup_other++;
    }
}

/* The mask of one ring of a border alone, as a border of a sheet of its own. */
static cxf_mask ring_mask(const tables *border, size_t first, size_t vertices, frame f) {
    int64_t row[ROW_WIDTH];
    tables one = *border;
    memcpy(row, border->rows, sizeof row);
    row[10] = 0;
    row[11] = (int64_t)vertices;
    one.rows = row;
    one.islands_len = 0;
    one.points = border->points + 2 * first;
    one.points_len = 2 * vertices;
    return ref_mask_of(OWN(&one), 0, f.x, f.y, f.cell);
}

/* What can be said of a mask ring by ring: "A centre that the same rule, ring by ring, puts inside the outer ring and inside
   exactly one island is never set"; inside the outer ring and no island it is. */
static void look_at_rings(const tables *t, uint64_t row, frame f, const cxf_mask *m) {
    const tables border = alone(t, row);
    size_t first = (size_t)border.rows[11];
    for (size_t i = 0; i < border.islands_len; i++) first -= border.islands[i];
    const cxf_mask outer = ring_mask(&border, 0, first, f);
    uint64_t once[64] = {0}, more[64] = {0}; /* inside one island or more, inside two or more */
    for (size_t i = 0; i < border.islands_len; first += border.islands[i++]) {
        const cxf_mask island = ring_mask(&border, first, border.islands[i], f);
        for (int k = 0; k < 64; k++) {
            more[k] |= once[k] & island.rows[k];
            once[k] |= island.rows[k];
        }
    }
    uint64_t covered = 0;
    for (int k = 0; k < 64; k++) {
        if ((m->rows[k] & outer.rows[k] & once[k] & ~more[k]) != 0) own_fault("a mask has a cell in a courtyard");
        if ((~m->rows[k] & outer.rows[k] & ~once[k]) != 0) own_fault("a mask lacks a cell of the border");
        for (uint64_t bits = m->rows[k]; bits != 0; bits &= bits - 1) covered++;
    }
    if (covered != m->covered) own_fault("the cells that are covered are not the set bits");
}

/* How often what is hard occurs: a centre on an edge, a vertex at a centre's height, a level edge there. */
static void count_mask(const tables *t, uint64_t row, frame f, const cxf_mask *m) {
    const tables border = alone(t, row);
    bool through = false, level = false, flat_edge = false;
    for (size_t i = 0; i + 1 < border.points_len / 2; i++) {
        const int64_t *p = border.points + 2 * i; /* the step from ring to ring is no edge; for a count it will do */
        const int64_t x = 2 * (p[0] - f.x), y = 2 * (f.y - p[1]), dx = 2 * (p[2] - p[0]), dy = 2 * (p[1] - p[3]);
        for (int k = 0; k < 64; k++) {
            const int64_t down = (2 * k + 1) * f.cell - y;
            if (down == 0) level = true;
            if (down == 0 && dy == 0) flat_edge = true;
            if (dy == 0 || (dy > 0 ? down < 0 || down > dy : down > 0 || down < dy) || dx * down % dy != 0) continue;
            const int64_t at = x + dx * down / dy;
            if (at > 0 && at < 128 * f.cell && at % f.cell == 0 && at / f.cell % 2 == 1) through = true;
        }
    }
    masks_through += through;
    masks_level += level;
    masks_flat += flat_edge;
    if (m->covered == 0) masks_empty++;
    else if (m->covered == 4096) masks_full++;
    else masks_part++;
}

static void mask_once(rng *g, const tables *t, frame f) {
    const uint64_t row = some_row(g, t, BORDO);
    if (one_in(g, 4))
        for (uint64_t n = one_in(g, 4) ? 2 : 1; n > 0; n--) damage_frame(g, t, &f);
    const cxf_mask m = try_mask(t, row, f);
    if (m.number != 0) return;
    count_mask(t, row, f, &m);
    if (one_in(g, 4)) look_at_rings(t, row, f, &m);
    if (one_in(g, 4)) {
        const tables one = alone(t, row);
        arg("the row was asked alone", 1);
        judge(of_mask(cxf_mask_of(OWN(&one), 0, f.x, f.y, f.cell)), of_mask(m), NULL);
    }
}

static uint8_t *text_of(const tables *t, size_t *length) {
    *length = (size_t)ref_write(OWN(t), NULL, 0).length;
    uint8_t *text = malloc(*length + 1);
    if (text == NULL) exit(2);
    if (ref_write(OWN(t), text, *length).number != 0) own_fault("a sheet is not written in the length that it needs");
    return text;
}

/* What is true of a sheet less a row: it is well made; it is written as before without that row's text, which stands behind the text
   of the rows before it, EOF's five bytes apart; the tally lacks that border's figures. */
static void look_at_removed(const tables *t, uint64_t row, const tables *left) {
    static const int64_t nothing[24] = {0};
    const cxf_tally all = ref_tally_sheet(OWN(t)), rest = ref_tally_sheet(OWN(left));
    if (rest.number == 15) own_fault("a sheet less a row is not well made");
    if (all.number == 0) {
        const cxf_tally one = ref_tally_take(nothing, 24, OWN(t), row);
        for (int i = 0; i < 24; i++)
            if (rest.number != 0 || rest.figures[i] != all.figures[i] - one.figures[i])
                own_fault("the tally of a sheet less a row is not the difference");
    }
    if (ref_write(OWN(t), NULL, 0).number != 14) return;
    tables before = *t, up_to = *t;
    before.count = row, up_to.count = row + 1;
    const size_t first = (size_t)ref_write(OWN(&before), NULL, 0).length - 5, next = (size_t)ref_write(OWN(&up_to), NULL, 0).length - 5;
    size_t n, m;
    uint8_t *whole = text_of(t, &n), *other_text = text_of(left, &m);
    if (m != n - (next - first) || memcmp(whole, other_text, first) != 0 || memcmp(whole + next, other_text + first, n - next) != 0)
        own_fault("a sheet less a row is not written without that row's text alone");
    free(whole);
    free(other_text);
}

static void remove_once(rng *g, const tables *t) {
    tables left;
    const uint64_t row = some_row(g, t, one_in(g, 2) ? BORDO : between(g, TESTO, LAST_KIND));
    if (try_edit(g, t, REMOVE, row, (pair){0, 0}, &left).number != 0) return;
    removed[t->rows[ROW_WIDTH * row]][t->count == 1 ? 0 : row == 0 ? 1 : row + 1 == t->count ? 2 : 3]++;
    look_at_removed(t, row, &left);
}

/* "An accepted move followed by its opposite gives the sheet as it stood; doubled areas are the same throughout." */
static void look_at_moved(rng *g, const tables *t, pair by, const tables *moved) {
    const cxf_tally before = ref_tally_sheet(OWN(t)), after = ref_tally_sheet(OWN(moved));
    if (before.number != after.number || before.row != after.row || memcmp(before.figures, after.figures, sizeof before.figures) != 0)
        own_fault("a sheet that was moved has another tally");
    const uint64_t row = some_row(g, t, BORDO), ring = some_ring(g, t, row);
    const cxf_ring a = ref_ring_check(OWN(t), row, ring), b = ref_ring_check(OWN(moved), row, ring);
    if (memcmp(&a, &b, sizeof a) != 0) own_fault("a ring that was moved is checked otherwise");
    tables there = *moved, back;
    there.rows = malloc(t->rows_len * sizeof t->rows[0] + 1), there.points = malloc(t->points_len * sizeof t->points[0] + 1);
    if (there.rows == NULL || there.points == NULL) exit(2);
    memcpy(there.rows, moved->rows, t->rows_len * sizeof t->rows[0]);
    memcpy(there.points, moved->points, t->points_len * sizeof t->points[0]);
    const cxf_edited e = try_edit(g, &there, MOVE, 0, (pair){-by.x, -by.y}, &back);
    if (e.number != 0 || memcmp(back.rows, t->rows, t->rows_len * sizeof t->rows[0]) != 0 ||
        memcmp(back.points, t->points, t->points_len * sizeof t->points[0]) != 0)
        own_fault("a move and its opposite do not give the sheet as it stood");
    moved_back++;
    free(there.rows);
    free(there.points);
}

static void move_once(rng *g, const tables *t, pair by) {
    tables moved;
    if (try_edit(g, t, MOVE, 0, by, &moved).number == 0) look_at_moved(g, t, by, &moved);
}

static bytes cml_of(const tables *t) {
    bytes b = {0};
    const cxf_written need = ref_cml_lines(OWN(t), NULL, 0);
    b.len = b.room = (size_t)need.length;
    b.at = malloc(b.len + 1);
    if (b.at == NULL) exit(2);
    if (need.number == 14) ref_cml_lines(OWN(t), b.at, b.len);
    return b;
}

static void *twin(const void *from, size_t n) {
    void *to = malloc(n + 1);
    if (to == NULL) exit(2);
    memcpy(to, from, n);
    return to;
}

/* "two well made sheets whose lines agree in order, code, outside mark and points give the same bytes, and sheets whose lines differ in any
   of these give unlike ones": the same sheet with its lines alone, under another name, and with one line altered. */
static void look_at_cml(rng *g, const tables *t, const uint8_t *text, size_t length) {
    tables twin_sheet = *t;
    twin_sheet.rows = twin(t->rows, t->rows_len * sizeof t->rows[0]);
    twin_sheet.letters = twin(t->letters, t->letters_len);
    twin_sheet.islands = twin(t->islands, t->islands_len * sizeof t->islands[0]);
    twin_sheet.points = twin(t->points, t->points_len * sizeof t->points[0]);
    for (uint64_t row = t->count; row-- > 0;)
        if (twin_sheet.rows[ROW_WIDTH * row] != LINEA) twin_sheet.count = ref_remove(OWN(&twin_sheet), row).count;
    twin_sheet.rows_len = (size_t)twin_sheet.count * ROW_WIDTH;
    twin_sheet.kind = 1;
    twin_sheet.scale = 1;
    memcpy(twin_sheet.name, "A000_000000", 11);
    bytes other_text = cml_of(&twin_sheet);
    if (other_text.len != length || memcmp(other_text.at, text, length) != 0) own_fault("the lines of a sheet depend on more than its lines");
    free(other_text.at);
    if (alter_line(g, &twin_sheet)) {
        other_text = cml_of(&twin_sheet);
        if (other_text.len == length && memcmp(other_text.at, text, length) == 0) own_fault("sheets whose lines differ give the same bytes");
        free(other_text.at);
        cml_unlike++;
    }
    free(twin_sheet.rows);
    free(twin_sheet.letters);
    free(twin_sheet.islands);
    free(twin_sheet.points);
}

/* The sheet is lent. */
static void cml_once(rng *g, const tables *t) {
    size_t out_len = (size_t)ref_cml_lines(OWN(t), NULL, 0).length;
    if (one_in(g, 4) && out_len > 0) out_len -= one_in(g, 2) ? 1 : 1 + below(g, out_len);
    else if (one_in(g, 2)) out_len += below(g, 50);
    const cxf_written w = try_cml(g, t, out_len);
    if (w.number != 0) return;
    for (uint64_t row = 0; row < t->count; row++) {
        if (t->rows[ROW_WIDTH * row] != LINEA) continue;
        cml_elements++;
        if (t->rows[ROW_WIDTH * row + 11] > 1000) cml_several++;
    }
    if (one_in(g, 4)) look_at_cml(g, t, out_copy.at, (size_t)w.length);
}

/* Questions on one sheet; `all` asks each, else some. */
static void question_sheet(rng *g, const tables *t, bool all) {
    lend_sheet(g, t);
    if (all || one_in(g, 2)) {
        const cxf_written need = ref_write(OWN(t), NULL, 0);
        size_t out_len = (size_t)need.length;
        if (one_in(g, 4) && out_len > 0) out_len -= one_in(g, 2) ? 1 : 1 + below(g, out_len);
        else if (one_in(g, 2)) out_len += below(g, 50);
        try_write(g, t, out_len);
    }
    if (all || one_in(g, 3)) try_border(t, some_row(g, t, BORDO));
    if (all || one_in(g, 3)) try_text(t, some_row(g, t, TESTO));
    if (all || one_in(g, 3)) {
        const uint64_t row = some_row(g, t, BORDO);
        try_area(t, row, some_ring(g, t, row));
    }
    if (all || one_in(g, 3)) try_net(t, some_row(g, t, BORDO));
    if (all || one_in(g, 3)) try_tally(t);
    if (all || one_in(g, 3)) take_once(g, t, some_row(g, t, BORDO));
    if (all || one_in(g, 3)) {
        const uint64_t row = some_row(g, t, BORDO);
        try_check(t, row, some_ring(g, t, row));
    }
    if (all || one_in(g, 3)) sup_once(g, t);
    if (all || one_in(g, 3)) check_once(g, t);
    if (all || one_in(g, 3)) cml_once(g, t);
    if (all || one_in(g, 6)) mask_once(g, t, make_frame(g, t));
    if (all || one_in(g, 3)) {
        const uint64_t row = some_row(g, t, one_in(g, 3) ? TESTO : BORDO);
        try_alone(t, row, some_ring(g, t, row));
    }
    if (all || one_in(g, 6)) remove_once(g, t);
    if (all || one_in(g, 6)) move_once(g, t, make_pair(g));
}

/* The sheet that a reading left in the reference's copies, as tables to hand in. */
static tables as_tables(const cxf_reading *r) {
    tables t = {0};
    t.kind = r->kind;
    memcpy(t.name, r->name, 11);
    t.name_len = 11;
    t.scale = r->scale;
    t.count = r->rows;
    t.rows = rows_copy.at;
    t.rows_len = t.rows_room = (size_t)r->rows * ROW_WIDTH;
    t.letters = letters_copy.at;
    t.letters_len = t.letters_room = (size_t)r->letters;
    t.islands = islands_copy.at;
    t.islands_len = t.islands_room = (size_t)r->islands;
    t.points = points_copy.at;
    t.points_len = t.points_room = (size_t)r->points * 2;
    return t;
}

static bool same_tables(const tables *a, const tables *b) {
    return a->kind == b->kind && memcmp(a->name, b->name, 11) == 0 && a->scale == b->scale && a->count == b->count &&
           a->rows_len == b->rows_len && a->letters_len == b->letters_len && a->islands_len == b->islands_len &&
           a->points_len == b->points_len && memcmp(a->rows, b->rows, a->rows_len * sizeof a->rows[0]) == 0 &&
           memcmp(a->letters, b->letters, a->letters_len) == 0 &&
           memcmp(a->islands, b->islands, a->islands_len * sizeof a->islands[0]) == 0 &&
           memcmp(a->points, b->points, a->points_len * sizeof a->points[0]) == 0;
}

static rooms room_for(const cxf_reading *need) {
    return (rooms){(size_t)need->rows * ROW_WIDTH, (size_t)need->letters, (size_t)need->islands, (size_t)need->points * 2};
}

/* "the former reading agrees with the new one wherever the new one accepts": both accept the file, and read the same sheet. */
static void look_at_former(rng *g, const bytes *src, const cxf_reading *need) {
    static tables kept;
    const cxf_reading loose = try_read(g, src, 0, room_for(need));
    const tables t = as_tables(&loose);
    kept.kind = t.kind, kept.scale = t.scale, kept.count = t.count;
    memcpy(kept.name, t.name, sizeof kept.name);
#define KEEP(table)                                                                                                                \
    kept.table = realloc(kept.table, (t.table##_len + 1) * sizeof t.table[0]), kept.table##_len = t.table##_len;                   \
    if (kept.table == NULL) exit(2);                                                                                               \
    memcpy(kept.table, t.table, t.table##_len * sizeof t.table[0])
    KEEP(rows);
    KEEP(letters);
    KEEP(islands);
    KEEP(points);
#undef KEEP
    const cxf_reading former = try_read(g, src, 2, room_for(need));
    const tables f = as_tables(&former);
    if (former.number != 0 || !same_tables(&kept, &f)) own_fault("the former reading does not agree with the loose one");
}

/* A file that the former reading alone takes: 8 at a record whose number loose mode takes too, but for what follows the blanks. */
static void look_at_tail(const bytes *src, const cxf_reading *loose) {
    const uint8_t *content = src->at + loose->offset;
    const size_t before = (size_t)loose->column - 1;
    if (loose->number != 8 || loose->column < 3 || content[before] == ' ' || content[before - 1] != ' ')
        own_fault("a tail is not refused at its first letter");
    if (ref_integer(content, before, 0).number != 0 && ref_real(content, before, 0).number != 0)
        own_fault("a tail is refused behind no number");
    former_alone++;
}

/* The conversion: what the former reading refused, or what the writer does, or a file that exact mode takes and that says the same. */
static void look_at_converted(rng *g, const bytes *src, const cxf_reading *former) {
    char line[100];
    const cxf_listed c = try_convert(g, src);
    if (c.number != 0) return;
    const uint8_t *text = out_copy.at;
    const bool taken = src->len <= 8192 && (former->number == 0 || former->number == 14);
    if (src->len > 8192) sprintf(line, "REFUSED 1 0 0 0\n");
    else sprintf(line, "REFUSED %llu %llu %llu %llu\n", (unsigned long long)former->number, (unsigned long long)former->record,
                 (unsigned long long)former->offset, (unsigned long long)former->column);
    if (!taken && (c.length != strlen(line) || memcmp(text, line, c.length) != 0)) own_fault("a conversion does not say what the reading refuses");
    if (!taken) return;
    if (text[0] == 'R') {
        if (refusal_said(text) != 10) own_fault("a conversion refuses what the former reading takes");
        return;
    }
    other.len = 0;
    add_bytes(&other, text, (size_t)c.length);
    const cxf_reading clean = needs_of(&other, 1);
    if ((clean.number != 0 && clean.number != 14) || clean.rows != former->rows || clean.letters != former->letters ||
        clean.islands != former->islands || clean.points != former->points)
        own_fault("a clean file is not one that exact mode takes, or says something else");
    const cxf_listed again = ref_convert(other.at, other.len, NULL, 0);
    if (other.len <= 8192 && again.length != other.len) own_fault("a clean file is converted again");
}

/* A file in all modes with rooms of all sizes, its records, its listing, and what was read handed in again. The sheet is
   `whole` where it is well made. */
static void file_case(rng *g, bool whole_sheet) {
    const int faults = whole_sheet || one_in(g, 4) ? some_faults(g) : 0;
    const bool with_notes = make_file(g, &sheet, faults, &file);
    if (one_in(g, 100)) /* bytes after EOF up to the listing's limit, and past it */
        for (size_t n = 8191 + below(g, 3); file.len < n;) add_byte(&file, ' ');
    cxf_reading need[3];
    bool sound[3];
    for (int mode = 0; mode < MODES; mode++) {
        need[mode] = needs_of(&file, (uint64_t)mode);
        sound[mode] = need[mode].number == 0 || need[mode].number == 14;
        const uint64_t asked = mode == 2 ? 2 : some_mode(g, mode == 1);
        try_read(g, &file, asked, some_rooms(g, &need[mode]));
        if (!sound[mode] && one_in(g, 2)) { /* tables that a refusal is to leave alone */
            const rooms r = {below(g, 60), below(g, 60), below(g, 10), below(g, 40)};
            try_read(g, &file, asked, r);
        }
        if (one_in(g, 8)) try_read(g, &file, asked, NO_TABLES);
    }
    try_listing(g, &file);
    for (int i = 0; i < 2; i++) try_record(g, &file, below(g, file.len + 2), any_mode(g), one_in(g, 2) ? 0 : some_mode(g, true));

    const bool loose = sound[0], strict = sound[1];
    if (faults == 0 && whole_sheet && !with_notes && !loose && file.at[file.len - 1] != ' ')
        own_fault("a file with no fault is refused in loose mode");
    if (strict && !loose) own_fault("the exact mode takes what the loose mode refuses");
    if (faults == 0 && whole_sheet && !sound[2] && file.at[file.len - 1] != ' ')
        own_fault("a file with no fault is refused by the former reading");
    if (loose && !sound[2]) own_fault("loose mode takes what the former reading refuses");
    if (loose) look_at_former(g, &file, &need[0]);
    else if (sound[2]) look_at_tail(&file, &need[0]);
    look_at_converted(g, &file, &need[2]);
    if (!sound[2]) return;
    const cxf_reading whole = try_read(g, &file, 2, room_for(&need[2])); /* the mode that takes most */
    tables t = as_tables(&whole);
    for (uint64_t row = 0; row < t.count; row++) kinds_read[t.rows[ROW_WIDTH * row]]++;
    if (faults == 0) {
        whole_files++;
        if (!same_tables(&t, &sheet)) own_fault("another sheet is read than the one the file was made from");
    }
    if (strict) { /* "Writing what the exact mode accepted, given room, gives its very bytes." */
        lend_sheet(g, &t);
        const cxf_written w = try_write(g, &t, file.len + below(g, 3));
        if (w.number != 0 || w.length != file.len || memcmp(out_copy.at, file.at, file.len) != 0)
            own_fault("what the exact mode accepted is not written as it was");
        rewritten++;
    }
    question_sheet(g, &t, false);
}

/* A file of a well made sheet that loose mode takes: no note stands behind a number. */
static void make_taken(rng *g, const tables *t, bytes *out) {
    while (make_file(g, t, 0, out)) continue;
}

/* Reading in loose mode and writing what was read. */
static bytes clean_of(rng *g, const bytes *src) {
    bytes clean = {0};
    const cxf_reading need = needs_of(src, 0), r = try_read(g, src, 0, room_for(&need));
    const tables t = as_tables(&r);
    if (r.number != 0) own_fault("a file with no fault is refused in loose mode");
    lend_sheet(g, &t);
    const cxf_written w = try_write(g, &t, (size_t)ref_write(OWN(&t), NULL, 0).length);
    if (w.number != 0) own_fault("a sheet with listed codes is not written in the length that it needs");
    add_bytes(&clean, out_copy.at, (size_t)w.length);
    return clean;
}

static bool same_bytes(const bytes *a, const bytes *b) { return a->len == b->len && memcmp(a->at, b->at, a->len) == 0; }

/* A sheet with one thing altered, or a row taken out. Its tables are its own. */
static tables altered_sheet(rng *g, const tables *t) {
    tables a = *t;
    a.rows = twin(t->rows, t->rows_len * sizeof t->rows[0]);
    a.letters = twin(t->letters, t->letters_len);
    a.islands = twin(t->islands, t->islands_len * sizeof t->islands[0]);
    a.points = twin(t->points, t->points_len * sizeof t->points[0]);
    if (t->count == 0 || !one_in(g, 6)) {
        alter_sheet(g, &a);
        return a;
    }
    const uint64_t out = below(g, t->count);
    const int64_t *row = t->rows + ROW_WIDTH * out;
    a.count = ref_remove(OWN(&a), out).count;
    a.rows_len -= ROW_WIDTH;
    a.letters_len -= (size_t)row[9];
    a.islands_len -= (size_t)row[10];
    a.points_len -= 2 * (size_t)row[11];
    return a;
}

/* "two files, both accepted by loose mode and with only listed codes, come out of reading and writing as equal bytes exactly when their
   header values and elements are equal"; "Cleaning an already clean file gives it back, and a clean file is one the exact mode accepts": a
   sheet in two dresses, and with one thing altered. */
static void repeats_case(rng *g, size_class size) {
    make_sheet(g, size, &sheet);
    if (ref_write(OWN(&sheet), NULL, 0).number != 14) return; /* a code that is not listed */
    make_taken(g, &sheet, &file);
    bytes first = clean_of(g, &file);
    make_taken(g, &sheet, &file);
    bytes second_file = clean_of(g, &file), again = clean_of(g, &first);
    if (!same_bytes(&first, &second_file)) own_fault("one sheet has two clean files");
    if (!same_bytes(&first, &again)) own_fault("a clean file is cleaned again");
    if (needs_of(&first, 1).number % 14 != 0) own_fault("a clean file is not one that exact mode takes");
    cleaned_alike++;
    tables other_sheet = altered_sheet(g, &sheet);
    if (ref_write(OWN(&other_sheet), NULL, 0).number == 14) {
        make_taken(g, &other_sheet, &file);
        bytes unlike = clean_of(g, &file);
        const bool same = same_tables(&sheet, &other_sheet);
        if (same_bytes(&first, &unlike) != same) own_fault("clean files are equal and their sheets are not, or the other way");
        if (!same) cleaned_unlike++;
        free(unlike.at);
    }
    free(first.at), free(second_file.at), free(again.at);
    free(other_sheet.rows), free(other_sheet.letters), free(other_sheet.islands), free(other_sheet.points);
}

/* "put a second accepted map's elements just before the EOF record of a first, .. with equal header values": of the second text what
   stands behind its third record, of the first all but its last five bytes. False where a code is unlisted, so one is not written. */
static bool join_texts(const tables *a, const tables *b, bytes *out) {
    const cxf_written first = ref_write(OWN(a), NULL, 0), last = ref_write(OWN(b), NULL, 0);
    if (first.number != 14 || last.number != 14) return false;
    uint8_t *text = malloc((size_t)(first.length + last.length));
    if (text == NULL) exit(2);
    ref_write(OWN(a), text, (size_t)first.length);
    out->len = 0;
    add_bytes(out, text, (size_t)first.length - 5);
    ref_write(OWN(b), text, (size_t)last.length);
    size_t elements = 0;
    for (int records = 0; records < 3; elements++)
        if (text[elements] == '\n') records++;
    add_bytes(out, text + elements, (size_t)last.length - elements);
    free(text);
    return true;
}

/* The second's rows behind the first's. T-07: "the second part's starts are moved on by the first's counts". */
static bool rows_followed(const tables *t, const tables *a, const tables *b) {
    if (t->rows_len != a->rows_len + b->rows_len || memcmp(t->rows, a->rows, a->rows_len * sizeof a->rows[0]) != 0) return false;
    const int64_t on[3] = {(int64_t)a->letters_len, (int64_t)a->islands_len, (int64_t)a->points_len / 2};
    for (size_t i = 0; i < b->rows_len; i++) {
        const size_t place = i % ROW_WIDTH;
        if (t->rows[a->rows_len + i] != b->rows[i] + (place >= 12 ? on[place - 12] : 0)) return false;
    }
    return true;
}

static bool joined_so(const tables *t, const tables *a, const tables *b) {
#define FOLLOWED(table)                                                                                                                \
    (t->table##_len == a->table##_len + b->table##_len && memcmp(t->table, a->table, a->table##_len * sizeof a->table[0]) == 0 &&       \
     memcmp(t->table + a->table##_len, b->table, b->table##_len * sizeof b->table[0]) == 0)
    return t->count == a->count + b->count && rows_followed(t, a, b) && FOLLOWED(letters) && FOLLOWED(islands) && FOLLOWED(points);
#undef FOLLOWED
}

/* Two maps joined: "its elements are the first map's followed by the second's, and every tally is the sum of the two". */
static void joined_case(rng *g) {
    make_sheet(g, SHORT, &sheet);
    make_sheet(g, SHORT, &second);
    second.kind = sheet.kind;
    second.scale = sheet.scale;
    memcpy(second.name, sheet.name, sizeof second.name);
    if (!join_texts(&sheet, &second, &file)) return;
    const cxf_reading need = needs_of(&file, 1);
    const rooms enough = room_for(&need);
    for (uint64_t mode = 0; mode < MODES; mode++) {
        const cxf_reading r = try_read(g, &file, mode, enough);
        const tables t = as_tables(&r);
        if (r.number != 0 || !joined_so(&t, &sheet, &second)) own_fault("two maps joined are not the first followed by the second");
    }
    joined_files++;
    const cxf_reading r = try_read(g, &file, 0, enough);
    tables t = as_tables(&r);
    lend_sheet(g, &t);
    try_tally(&t);
    const cxf_tally a = ref_tally_sheet(OWN(&sheet)), b = ref_tally_sheet(OWN(&second)), both = ref_tally_sheet(OWN(&t));
    if (a.number != 0 || b.number != 0) return;
    for (int i = 0; i < 24; i++)
        if (both.number != 0 || both.figures[i] != a.figures[i] + b.figures[i]) own_fault("the tally of two maps joined is not their sum");
    joined_tallies++;
}

/* A sheet handed in, well made or damaged. */
static void sheet_case(rng *g, size_class size) {
    if (one_in(g, 12)) make_odd(g, &sheet);
    else make_sheet(g, size, &sheet);
    if (!one_in(g, 4))
        for (uint64_t n = one_in(g, 4) ? 2 : 1; n > 0; n--) damage_sheet(g, &sheet);
    question_sheet(g, &sheet, size != LONG);
}

static void rings_case(rng *g, size_class size) {
    make_rings(g, size, &sheet);
    lend_sheet(g, &sheet);
    for (int i = 0; i < (size == LONG ? 1 : 3); i++) {
        const uint64_t row = some_row(g, &sheet, BORDO), ring = some_ring(g, &sheet, row);
        try_check(&sheet, row, ring);
        try_area(&sheet, row, ring);
        try_net(&sheet, row);
        take_once(g, &sheet, row);
    }
    try_tally(&sheet);
    sup_once(g, &sheet);
}

static void wound_case(rng *g) {
    make_wound(g, &sheet);
    lend_sheet(g, &sheet);
    try_tally(&sheet);
    sup_once(g, &sheet);
    const uint64_t row = some_row(g, &sheet, BORDO);
    take_once(g, &sheet, row);
    try_net(&sheet, row);
    try_area(&sheet, row, some_ring(g, &sheet, row));
}

/* SUP files of a sheet with listed borders; now and then the sheet is damaged too, for the order of the refusals. */
static void sup_case(rng *g, size_class size) {
    make_listed(g, size, &sheet);
    if (one_in(g, 12)) damage_sheet(g, &sheet);
    lend_sheet(g, &sheet);
    for (int i = 0; i < (size == LONG ? 1 : 3); i++) sup_once(g, &sheet);
    for (int i = 0; i < (size == LONG ? 1 : 4); i++) check_once(g, &sheet);
    try_tally(&sheet);
}

static void combined_case(rng *g) {
    make_combined(g, &sheet);
    lend_sheet(g, &sheet);
    sup_once(g, &sheet);
    sup_once(g, &sheet);
    check_once(g, &sheet);
}

/* Masks of borders about one frame; now and then the sheet is damaged too, for the order of the refusals. */
static void mask_case(rng *g, size_class size) {
    frame f;
    make_masked(g, size, &sheet, &f);
    if (one_in(g, 12)) damage_sheet(g, &sheet);
    lend_sheet(g, &sheet);
    for (int i = 0; i < (size == LONG ? 1 : 3); i++) mask_once(g, &sheet, i == 0 || one_in(g, 2) ? f : make_frame(g, &sheet));
}

/* Rows removed, and sheets moved; what stands behind the used part is to stay as it was. */
static void edit_case(rng *g, size_class size) {
    pair by;
    make_moved(g, size, &sheet, &by);
    if (one_in(g, 12)) damage_sheet(g, &sheet);
    if (one_in(g, 2)) lengthen(g, &sheet);
    move_once(g, &sheet, by);
    move_once(g, &sheet, make_pair(g));
    for (int i = 0; i < (size == LONG ? 1 : 3); i++) remove_once(g, &sheet);
}

static void lines_case(rng *g, size_class size) {
    make_lines(g, size, &sheet);
    if (one_in(g, 12)) damage_sheet(g, &sheet);
    if (one_in(g, 4)) lengthen(g, &sheet);
    lend_sheet(g, &sheet);
    for (int i = 0; i < (size == LONG ? 1 : 3); i++) cml_once(g, &sheet);
}

/* Texts at the length limit. */
static void big_lines_case(rng *g) {
    static const size_t lengths[] = {FILE_LIMIT - 1, FILE_LIMIT, FILE_LIMIT + 1, FILE_LIMIT + 2, 1000000};
    const size_t length = lengths[below(g, 5)];
    make_full_lines(g, length, &second);
    lend_sheet(g, &second);
    const cxf_written need = ref_cml_lines(OWN(&second), NULL, 0);
    if (need.number != (length > FILE_LIMIT ? 1 : 14) || (need.number == 14 && need.length != length))
        own_fault("lines made for one length have another");
    try_cml(g, &second, length);
    try_cml(g, &second, length - 1);
}

static void number_case(rng *g) {
    for (int i = 0; i < 4; i++) {
        file.len = 0;
        make_number(g, &file);
        for (int k = 0; k < 4; k++) try_number(g, &file, some_mode(g, k & 1), k & 2);
        for (int real = 0; real < 2; real++) try_number(g, &file, 2, real);
    }
}

static void record_case(rng *g) {
    file.len = 0;
    make_records(g, &file);
    for (int i = 0; i < 6; i++) {
        const uint64_t at = one_in(g, 3) ? 0 : one_in(g, 6) ? far_from(g, below(g, file.len + 1)) : below(g, file.len + 2);
        try_record(g, &file, at, any_mode(g), one_in(g, 3) ? 0 : some_mode(g, true));
    }
    /* raw bytes are also a file; one in three is said to begin well */
    if (one_in(g, 3)) {
        other.len = 0;
        add_bytes(&other, "MAPPA\r\nZ999_000100\r\n    1000.000\r\n", 34);
        add_bytes(&other, file.at, file.len);
        try_read(g, &other, any_mode(g), NO_TABLES);
        try_listing(g, &other);
        try_convert(g, &other);
    } else {
        try_read(g, &file, any_mode(g), NO_TABLES);
    }
}

static void tile_case(rng *g) {
    static const int64_t steps[] = {0, 0, 1, -1, 256, 512, 1000, 16777214, 16777215, 16777216};
    static const int64_t ends[] = {-9999999999LL, 99999999999LL, 99999999999LL - 16777215, -9999999999LL + 16777215, 0, 5000000000LL};
    for (int i = 0; i < 8; i++) {
        const int64_t corner_x = one_in(g, 3) ? ends[below(g, 6)] + between(g, -1, 1) : between(g, -9999999999LL, 99999999999LL);
        const int64_t corner_y = one_in(g, 3) ? ends[below(g, 6)] + between(g, -1, 1) : between(g, -9999999999LL, 99999999999LL);
        int64_t east = steps[below(g, 10)], south = steps[below(g, 10)];
        if (one_in(g, 2)) east = (int64_t)below(g, 16777216);
        if (one_in(g, 2)) south = (int64_t)below(g, 16777216);
        if (one_in(g, 8)) try_tile(edge_number(g), edge_number(g), edge_number(g), edge_number(g));
        else try_tile(corner_x, corner_y, corner_x + east, corner_y - south);
    }
}

/* Files and sheets at the length limit. */
static void big_case(rng *g) {
    static const size_t lengths[] = {FILE_LIMIT - 1, FILE_LIMIT, FILE_LIMIT, FILE_LIMIT + 1, FILE_LIMIT + 2, 1000000, 4000000};
    size_t length = lengths[below(g, 7)];
    make_full(g, length, &second);
    lend_sheet(g, &second);
    const cxf_written need = ref_write(OWN(&second), NULL, 0);
    if (need.number != (length > FILE_LIMIT ? 1 : 14) || (need.number == 14 && need.length != length))
        own_fault("a sheet made for one length has another");
    const cxf_written w = try_write(g, &second, length);
    if (w.number != 0) {
        try_write(g, &second, 0);
        return;
    }
    file.len = 0;
    add_bytes(&file, out_copy.at, length);
    if (one_in(g, 3)) /* bytes after EOF: the loose mode's limit, and past it */
        while (file.len < FILE_LIMIT + below(g, 2)) add_byte(&file, 'x');
    const bool exact = one_in(g, 2);
    const cxf_reading r = needs_of(&file, exact);
    if (r.number == 14) {
        try_read(g, &file, exact, room_for(&r));
    }
    try_read(g, &file, !exact, NO_TABLES);
    try_record(g, &file, below(g, file.len), exact, 0);
    try_record(g, &file, file.len, exact, 1);
    try_listing(g, &file);
    add_byte(&file, 'x');
    try_read(g, &file, exact, NO_TABLES);
    if (file.len > FILE_LIMIT) {
        for (uint64_t mode = 0; mode < 2; mode++) try_record(g, &file, one_in(g, 2) ? any(g) : below(g, file.len), mode, 1);
        try_listing(g, &file);
    }
}

static void sheet_file_case(rng *g, size_class size) {
    const bool whole = !one_in(g, 16);
    if (whole) make_sheet(g, size, &sheet);
    else make_odd(g, &sheet);
    file_case(g, whole);
}

static void one_case(rng *g) {
    const uint64_t draw = below(g, 100000);
    if (draw < 20) big_case(g);
    else if (draw < 40) big_lines_case(g);
    else if (draw < 300) wound_case(g);
    else if (draw < 800) sheet_file_case(g, LONG);
    else if (draw < 1200) sheet_case(g, LONG);
    else if (draw < 1400) rings_case(g, LONG);
    else if (draw < 1500) sup_case(g, LONG);
    else if (draw < 1700) combined_case(g);
    else if (draw < 1800) mask_case(g, LONG);
    else if (draw < 9000) sup_case(g, one_in(g, 2) ? SHORT : MIDDLE);
    else if (draw < 15000) mask_case(g, one_in(g, 2) ? SHORT : MIDDLE);
    else if (draw < 18000) joined_case(g);
    else if (draw < 18100) edit_case(g, LONG);
    else if (draw < 24000) edit_case(g, one_in(g, 2) ? SHORT : MIDDLE);
    else if (draw < 24300) lines_case(g, LONG);
    else if (draw < 27000) lines_case(g, one_in(g, 2) ? SHORT : MIDDLE);
    else if (draw < 27100) repeats_case(g, LONG);
    else if (draw < 30000) repeats_case(g, one_in(g, 2) ? SHORT : MIDDLE);
    else if (draw < 42000) sheet_file_case(g, SHORT);
    else if (draw < 55000) sheet_file_case(g, MIDDLE);
    else if (draw < 74000) sheet_case(g, SHORT);
    else if (draw < 81000) sheet_case(g, MIDDLE);
    else if (draw < 87000) rings_case(g, one_in(g, 2) ? SHORT : MIDDLE);
    else if (draw < 93000) number_case(g);
    else if (draw < 97000) record_case(g);
    else tile_case(g);
}

/* Every byte value at every place of an exact number, and behind it, in all modes. */
/* STEP=n: only every nth byte value, others at each place, where all of them take too long. */
static size_t step = 1;

static void every_byte(rng *g, const char *number, bool real) {
    const size_t n = strlen(number);
    for (size_t place = 0; place <= n; place++)
        for (size_t byte = place % step; byte < 256; byte += step)
            for (uint64_t mode = 0; mode < MODES; mode++) {
                file.len = 0;
                add_bytes(&file, number, n);
                if (place == n) add_byte(&file, (uint8_t)byte);
                else file.at[place] = (uint8_t)byte;
                try_number(g, &file, mode, real);
            }
}

static void every_byte_of_numbers(void) {
    static const char *const integers[] = {"   0", "  18", " 205", "9999"};
    static const char *const reals[] = {"       0.000", "      -0.005", "    1000.000", "  -14364.252", "-9999999.999", "99999999.999"};
    rng g = seeded(0, 0);
    for (size_t i = 0; i < sizeof integers / sizeof integers[0]; i++) every_byte(&g, integers[i], false);
    for (size_t i = 0; i < sizeof reals / sizeof reals[0]; i++) every_byte(&g, reals[i], true);
}

/* T-01's files of short sheets, one of each kind, with every byte value at every place. */
static void every_byte_of_sups(void) {
    uint8_t date[16] = "20261115";
    for (uint64_t kind = 1, which = 0; kind <= 3; which++) {
        rng g = seeded(0, which);
        make_listed(&g, SHORT, &sheet);
        file.len = 0;
        while (file.len < 23 * (sheet.count + 14)) add_byte(&file, 0);
        if (sheet.kind != kind || ref_sup_write(OWN(&sheet), date, 8, file.at, file.len).number != 0) continue;
        file.len = near_sup(OWN(&sheet), date, file.at);
        if (file.len < 23 * 16 || file.len > 23 * 19) continue;
        lend_sheet(&g, &sheet);
        for (size_t i = 0; i < file.len; i++) {
            const uint8_t held = file.at[i];
            for (size_t byte = i % step; byte < 256; byte += step) {
                file.at[i] = (uint8_t)byte;
                try_sup_check(&g, &sheet, &file);
            }
            file.at[i] = held;
        }
        kind++;
    }
}

static const char *const MODE_NAMES[] = {"loose", "exact", "former"};

static void print_counts(void) {
    printf("\nhow often the reference gave each number (0: answered)\n");
    for (int e = 0; e < ENTRIES; e++)
        for (int mode = 0; mode < MODES; mode++) {
            uint64_t all = 0;
            for (int n = 0; n < NUMBERS; n++) all += given[e][mode][n];
            if (all == 0) continue;
            const bool has_mode = e == READ || e == RECORD_AT || e == INTEGER || e == REAL;
            printf("  %-12s%-7s", NAMES[e], !has_mode ? "" : MODE_NAMES[mode]);
            for (int n = 0; n < NUMBERS; n++)
                if (given[e][mode][n] > 0) printf("  %d:%llu", n, (unsigned long long)given[e][mode][n]);
            printf("\n");
        }
    printf("  the listing's text: whole %llu, REFUSED", (unsigned long long)lists_whole);
    for (int n = 0; n < NUMBERS; n++)
        if (listing_says[n] > 0) printf("  %d:%llu", n, (unsigned long long)listing_says[n]);
    printf("\n  classes 1 to 6:");
    for (int c = 1; c <= 6; c++) printf(" %llu", (unsigned long long)classes[c]);
    printf("; of eleven letters, in kinds 1 and 2:");
    for (int c = 1; c <= 6; c++) printf(" %llu", (unsigned long long)eleven[0][c]);
    printf(", in kind 3:");
    for (int c = 1; c <= 6; c++) printf(" %llu", (unsigned long long)eleven[1][c]);
    printf("\n  texts: surface rights %llu, centroids %llu, both %llu\n", (unsigned long long)rights, (unsigned long long)centroids,
           (unsigned long long)both_texts);
    printf("  rings: simple %llu; first faulty pair an edge itself %llu, with the next %llu, of edge 0 with a later one %llu, other %llu\n",
           (unsigned long long)rings_simple, (unsigned long long)pairs_self, (unsigned long long)pairs_next, (unsigned long long)pairs_ends,
           (unsigned long long)pairs_other);
    printf("  SUP files of kinds 1 to 3: %llu %llu %llu; at most %llu listed, %llu below zero, %llu with the code of the one before\n",
           (unsigned long long)sup_kinds[1], (unsigned long long)sup_kinds[2], (unsigned long long)sup_kinds[3],
           (unsigned long long)sup_listed_most, (unsigned long long)sup_minus, (unsigned long long)sup_equal_codes);
    printf("  SUP figures too long: FABBRIC %llu, listed %llu, then PARTIC to SBILANCIO", (unsigned long long)sup_wide[0],
           (unsigned long long)sup_wide_listed);
    for (int i = 1; i <= 7; i++) printf(" %llu", (unsigned long long)sup_wide[i]);
    printf("; TOTALE past the limit %llu, below zero %llu\n", (unsigned long long)sup_past[0], (unsigned long long)sup_past[1]);
    for (int real = 0; real < 2; real++)
        for (int mode = 0; mode < MODES; mode++) {
            printf("  columns of %s %s, 1 to %d and further:", MODE_NAMES[mode], real ? "reals" : "integers", COLUMNS - 2);
            for (int c = 1; c < COLUMNS; c++) printf(" %llu", (unsigned long long)columns[real][mode][c]);
            printf("\n");
        }
    printf("  masks: empty %llu, full %llu, in part %llu; with a centre on an edge %llu, a vertex at a centre's height %llu, a level edge there %llu\n",
           (unsigned long long)masks_empty, (unsigned long long)masks_full, (unsigned long long)masks_part, (unsigned long long)masks_through,
           (unsigned long long)masks_level, (unsigned long long)masks_flat);
    printf("  rows read, by their kinds 1 to %d:", LAST_KIND);
    for (int k = 1; k <= LAST_KIND; k++) printf(" %llu", (unsigned long long)kinds_read[k]);
    printf("; maps joined %llu, with their tallies %llu\n", (unsigned long long)joined_files, (unsigned long long)joined_tallies);
    printf("  rows removed, only ones, first, last, between, by their kinds 1 to %d:", LAST_KIND);
    for (int k = 1; k <= LAST_KIND; k++)
        for (int i = 0; i < 4; i++) printf("%s%llu", i == 0 ? "  " : " ", (unsigned long long)removed[k][i]);
    printf("; moved and moved back %llu\n", (unsigned long long)moved_back);
    printf("  SUP files checked: right and not T-01's %llu; the first wrong line the date %llu, a count %llu, FABBRIC %llu, listed %llu, "
           "another class %llu, a total %llu, SBILANCIO %llu, behind the last %llu\n",
           (unsigned long long)sup_other, (unsigned long long)sup_wrong[0], (unsigned long long)sup_wrong[1], (unsigned long long)sup_wrong[2],
           (unsigned long long)sup_wrong[3], (unsigned long long)sup_wrong[4], (unsigned long long)sup_wrong[5], (unsigned long long)sup_wrong[6],
           (unsigned long long)sup_wrong[7]);
    printf("  CML elements %llu, of more than 1000 vertices %llu; sheets with one line altered %llu\n", (unsigned long long)cml_elements,
           (unsigned long long)cml_several, (unsigned long long)cml_unlike);
    printf("  sheets cleaned in two dresses %llu, and with one thing altered %llu\n", (unsigned long long)cleaned_alike,
           (unsigned long long)cleaned_unlike);
    printf("  conversions: clean files %llu, REFUSED", (unsigned long long)converted);
    for (int n = 0; n < NUMBERS; n++)
        if (convert_says[n] > 0) printf("  %d:%llu", n, (unsigned long long)convert_says[n]);
    printf("; files that the former reading alone takes %llu\n", (unsigned long long)former_alone);
    printf("  files with no fault read as they were made %llu, written again as they stood %llu\n", (unsigned long long)whole_files,
           (unsigned long long)rewritten);
}

int main(int argc, char **argv) {
    if (argc < 3) {
        fprintf(stderr, "compare COUNT SEED [FIRST]\n");
        return 2;
    }
    const uint64_t count = strtoull(argv[1], NULL, 10), seed = strtoull(argv[2], NULL, 10);
    const uint64_t first = argc > 3 ? strtoull(argv[3], NULL, 10) : 0;
    if (getenv("SHOW") != NULL) shown_most = strtoull(getenv("SHOW"), NULL, 10);
    if (getenv("STEP") != NULL && atoi(getenv("STEP")) > 0) step = (size_t)atoi(getenv("STEP"));
    /* a table for each file up to the limit, loosely dressed: 28 bytes or more a row, 2 a letter, 12 a point */
    build(&SRC, FILE_LIMIT + 4096);
    build(&OUT, FILE_LIMIT + 4096);
    build(&ROWS, FILE_LIMIT / 28 * ROW_WIDTH * 8 + 4096);
    build(&LETTERS, FILE_LIMIT + 4096);
    build(&ISLANDS, FILE_LIMIT + 4096);
    build(&POINTS, FILE_LIMIT / 12 * 16 + 4096);
    build(&NAME, 64);
    build(&FIGURES, 4096);
    build(&DATE, 64);

    const int stops[] = {SIGSEGV, SIGBUS, SIGFPE, SIGILL, SIGABRT, SIGTRAP, SIGVTALRM};
    for (size_t i = 0; i < sizeof stops / sizeof stops[0]; i++) signal(stops[i], on_signal);

    /* The processor's time and not the clock's: a run that is paused from outside has not failed. */
    const struct itimerval patience = {{0, 0}, {600, 0}};
    const uint64_t wrong = examples();
    differences += wrong;
    if (first == 0) {
        every_byte_of_numbers();
        every_byte_of_sups();
    }
    for (uint64_t i = first; i < first + count; i++) {
        rng g = seeded(seed, i);
        now.seed = seed;
        now.which = i;
        setitimer(ITIMER_VIRTUAL, &patience, NULL);
        one_case(&g);
    }
    print_counts();
    printf("\n%llu cases of seed %llu from case %llu: %llu answers compared, %llu differences\n", (unsigned long long)count,
           (unsigned long long)seed, (unsigned long long)first, (unsigned long long)answers, (unsigned long long)differences);
    return differences == 0 ? 0 : 1;
}
