/* stack: how many bytes of stack each function of include/cxf.h uses, on a small sheet and on a giant one.
   Each call is made in a thread whose stack is painted first: what is no longer painted has been used. Counted is all below the
   frame that calls: the arguments on the stack, the answer, and whatever the function takes itself.
   The table FUNCTIONS has a line for each function of the header; bench/stack says which one is missing. */
#define _GNU_SOURCE
#include "cxf.h"

#include <pthread.h>
#include <stdio.h>
#include <stdlib.h>
#include <string.h>
#include <sys/mman.h>

enum { STACK = 1 << 20, GIANT = 12000000, LISTED = CXF_LISTING_FILE_MOST };

/* ---- the sheets, as texts of the exact mode ---- */

typedef struct { char *at; size_t len; } text;

static void *room(size_t n)
{
    void *p = calloc(n ? n : 1, 1);
    if (p == NULL) {
        fprintf(stderr, "stack: no memory\n");
        exit(2);
    }
    return p;
}

static void add(text *t, const char *record) { t->len += (size_t)sprintf(t->at + t->len, "%s\r\n", record); }

static void add_integer(text *t, int n) { t->len += (size_t)sprintf(t->at + t->len, "%4d\r\n", n); }

static void add_metres(text *t, int n) { t->len += (size_t)sprintf(t->at + t->len, "%8d.000\r\n", n); }

/* A ring about a place: to the right along steps, and back on a level above them. */
static void add_ring(text *t, int vertices, int x, int y)
{
    const int upper = vertices / 2;
    for (int i = 0; i < upper; i++) add_metres(t, x + i), add_metres(t, y + 10 + i % 3);
    for (int i = upper; i < vertices - 1; i++) add_metres(t, x + vertices - 2 - i), add_metres(t, y - i % 3);
    add_metres(t, x), add_metres(t, y + 10);
}

static void add_border(text *t, const char *code, int outer, int islands, int x, int y)
{
    add(t, "BORDO"), add(t, code), add_integer(t, 18), add_metres(t, 0);
    add_metres(t, x), add_metres(t, y), add_metres(t, x), add_metres(t, y);
    add_integer(t, islands), add_integer(t, outer + 5 * islands);
    for (int i = 0; i < islands; i++) add_integer(t, 5);
    add_ring(t, outer, x, y);
    for (int i = 0; i < islands; i++) add_ring(t, 5, x + 3 * i, y + 4);
}

static void add_line(text *t, int vertices, int x, int y)
{
    add(t, "LINEA"), add_integer(t, 1), add_integer(t, vertices);
    for (int i = 0; i < vertices; i++) add_metres(t, x + i), add_metres(t, y);
}

static void add_others(text *t, int x, int y)
{
    add(t, "TESTO\\"), add(t, "VIA DEL MULINO"), add_integer(t, 0), add_metres(t, 0), add_metres(t, x), add_metres(t, y);
    add(t, "SIMBOLO"), add_integer(t, 4), add_metres(t, 0), add_metres(t, x), add_metres(t, y);
    add(t, "FIDUCIALE"), add(t, "5"), add_integer(t, 20), add_metres(t, x), add_metres(t, y), add_metres(t, x), add_metres(t, y);
}

/* A border of so many vertices with islands, then parcels, many with equal codes, and a line and others now and then, until there
   are `size` bytes. The first row is the giant one. */
static text sheet_text(size_t size, int vertices, int islands, int line)
{
    text t = { room(size + 28 * ((size_t)vertices + (size_t)line) + 40 * (size_t)islands + 2000), 0 };
    char code[16];
    add(&t, "MAPPA"), add(&t, "Z999_000100"), add_metres(&t, 1000);
    add_border(&t, "7+", vertices, islands, -2000, 4000);
    add_line(&t, line, 0, 0);
    add_others(&t, 10, 10);
    for (unsigned i = 0; t.len + 300 < size; i++) {
        sprintf(code, "%u", i * 7919 % 5000);
        add_border(&t, code, 5, 0, (int)(i % 9000), (int)(i / 9000));
    }
    add(&t, "EOF");
    return t;
}

/* ---- what a call works on ---- */

typedef struct {
    text file, listed;
    cxf_reading r;
    int64_t *rows, *points;
    uint8_t *letters, *out;
    uint8_t *sup;
    size_t sup_len;
    uint16_t *islands;
    size_t rows_len, letters_len, islands_len, points_len, out_len;
    cxf_sheet sheet;
} work;

static uint64_t read_file(work *w)
{
    w->r = cxf_read((const uint8_t *)w->file.at, w->file.len, CXF_EXACT, w->rows, w->rows_len, w->letters, w->letters_len, w->islands,
                    w->islands_len, w->points, w->points_len);
    return w->r.number;
}

static work work_on(text file, text listed)
{
    work w = { .file = file, .listed = listed };
    w.rows_len = CXF_ROWS_MOST(file.len) * CXF_ROW, w.rows = room(w.rows_len * sizeof *w.rows);
    w.letters_len = CXF_LETTERS_MOST(file.len), w.letters = room(w.letters_len);
    w.islands_len = CXF_ISLANDS_MOST(file.len), w.islands = room(w.islands_len * sizeof *w.islands);
    w.points_len = CXF_POINTS_MOST(file.len) * 2, w.points = room(w.points_len * sizeof *w.points);
    w.out_len = CXF_FILE_MOST, w.out = room(w.out_len);
    return w;
}

/* ---- the functions: each call answers its number, which is to be 0 ----
   Where a number is read, one that is malformed is read too: code of its own finds its column. */

/* The last digit before the EOF record. */
static char *last_digit(text t) { return t.at + t.len - 8; }

static const int64_t NO_FIGURES[CXF_FIGURES];
static const uint8_t DATE[] = "20261115", INTEGER[] = "9999", REAL[] = "-9999999.999", NO_NUMBER[] = "        -0.x";

static uint64_t call_interface(work *w) { (void)w; return cxf_interface() != CXF_INTERFACE; }
static uint64_t read_unnamed(work *w)
{
    return cxf_read_default((const uint8_t *)w->file.at, w->file.len, w->rows, w->rows_len, w->letters, w->letters_len, w->islands, w->islands_len,
                            w->points, w->points_len).number;
}
static uint64_t call_reading(work *w, uint64_t (*reading)(work *))
{
    *last_digit(w->file) = 'x';
    const uint64_t broken = reading(w);
    *last_digit(w->file) = '0';
    return broken == CXF_NUMBER ? reading(w) : 1;
}
static uint64_t call_read_default(work *w) { return call_reading(w, read_unnamed); }
static uint64_t call_read(work *w) { return call_reading(w, read_file); }
static uint64_t call_write(work *w) { return cxf_write(CXF_SPREAD(w->sheet), w->out, w->out_len).number; }
static uint64_t call_border(work *w) { return cxf_border_at(CXF_SPREAD(w->sheet), 0).number; }
static uint64_t call_text(work *w) { return cxf_text_at(CXF_SPREAD(w->sheet), 2).number; }
static uint64_t call_area(work *w) { return cxf_ring_area(CXF_SPREAD(w->sheet), 0, 1).number; }
static uint64_t call_net(work *w) { return cxf_net_area(CXF_SPREAD(w->sheet), 0).number; }
static uint64_t call_tally(work *w) { return cxf_tally_sheet(CXF_SPREAD(w->sheet)).number; }
static uint64_t call_take(work *w) { return cxf_tally_take(NO_FIGURES, CXF_FIGURES, CXF_SPREAD(w->sheet), 0).number; }
static uint64_t call_check(work *w) { return cxf_ring_check(CXF_SPREAD(w->sheet), 0, 0).number; }
static uint64_t call_tile(work *w) { (void)w; return cxf_tile_point(5000, 5000000000, 6000, 4999999488).number; }
static uint64_t call_record(work *w) { return cxf_record_at((const uint8_t *)w->file.at, w->file.len, 0, CXF_EXACT, 0).number; }
static uint64_t call_integer(work *w)
{
    (void)w;
    return cxf_integer(NO_NUMBER, sizeof NO_NUMBER - 1, CXF_EXACT).number == CXF_NUMBER ? cxf_integer(INTEGER, sizeof INTEGER - 1, CXF_EXACT).number : 1;
}
static uint64_t call_real(work *w)
{
    (void)w;
    return cxf_real(NO_NUMBER, sizeof NO_NUMBER - 1, CXF_EXACT).number == CXF_NUMBER ? cxf_real(REAL, sizeof REAL - 1, CXF_EXACT).number : 1;
}
/* a text of a small file, which is broken at its last number first */
static uint64_t call_listed(work *w, cxf_listed (*text_of)(const uint8_t *, size_t, uint8_t *, size_t))
{
    *last_digit(w->listed) = 'x';
    const uint64_t broken = text_of((const uint8_t *)w->listed.at, w->listed.len, w->out, w->out_len).number;
    *last_digit(w->listed) = '0';
    return broken | text_of((const uint8_t *)w->listed.at, w->listed.len, w->out, w->out_len).number;
}
static uint64_t call_listing(work *w) { return call_listed(w, cxf_listing); }
static uint64_t call_convert(work *w) { return call_listed(w, cxf_convert); }
static uint64_t call_sup(work *w) { return cxf_sup_write(CXF_SPREAD(w->sheet), DATE, sizeof DATE - 1, w->out, w->out_len).number; }
static uint64_t call_sup_check(work *w) { return cxf_sup_check(CXF_SPREAD(w->sheet), w->sup, w->sup_len).number; }
static uint64_t call_cml(work *w) { return cxf_cml_lines(CXF_SPREAD(w->sheet), w->out, w->out_len).number; }
static uint64_t call_mask(work *w) { return cxf_mask_of(CXF_SPREAD(w->sheet), 0, -2100000, 4300000, 10000).number; }

#define TABLES(w)                                                                                                        \
    (w)->sheet.kind, (w)->sheet.name, (w)->sheet.name_len, (w)->sheet.scale, (w)->sheet.count, (w)->rows, (w)->sheet.rows_len,   \
        (w)->letters, (w)->sheet.letters_len, (w)->islands, (w)->sheet.islands_len, (w)->points, (w)->sheet.points_len
static uint64_t call_remove(work *w) { return cxf_remove(TABLES(w), 0).number; }
static uint64_t call_move(work *w) { return cxf_move(TABLES(w), 1, -1).number; }

static const struct { const char *name; uint64_t (*call)(work *); } FUNCTIONS[] = {
    { "cxf_interface", call_interface },
    { "cxf_read_default", call_read_default },
    { "cxf_read", call_read },
    { "cxf_write", call_write },
    { "cxf_border_at", call_border },
    { "cxf_text_at", call_text },
    { "cxf_ring_area", call_area },
    { "cxf_net_area", call_net },
    { "cxf_tally_sheet", call_tally },
    { "cxf_tally_take", call_take },
    { "cxf_ring_check", call_check },
    { "cxf_tile_point", call_tile },
    { "cxf_record_at", call_record },
    { "cxf_integer", call_integer },
    { "cxf_real", call_real },
    { "cxf_listing", call_listing },
    { "cxf_sup_write", call_sup },
    { "cxf_mask_of", call_mask },
    { "cxf_remove", call_remove },
    { "cxf_move", call_move },
    { "cxf_convert", call_convert },
    { "cxf_sup_check", call_sup_check },
    { "cxf_cml_lines", call_cml },
};

/* ---- the painted stack ---- */

typedef struct { uint64_t (*call)(work *); work *on; volatile uint8_t *low; uint8_t paint; size_t used; uint64_t number; } probe;

/* Below this frame's stack pointer nothing is of use before the call and nothing after it: it is painted and looked at with no call. */
static void *paint_and_call(void *of)
{
    probe *p = of;
    volatile uint8_t *here, *at;
    __asm__ volatile("mov %%rsp, %0" : "=r"(here));
    for (at = here; at > p->low;) *--at = p->paint;
    p->number = p->call(p->on);
    __asm__ volatile("mov %%rsp, %0" : "=r"(here));
    for (at = p->low; at < here && *at == p->paint;) at++;
    p->used = (size_t)(here - at);
    return NULL;
}

/* Twice with two paints, as a byte may be given the very paint it had. */
static size_t used_by(const char *name, uint64_t (*call)(work *), work *w, uint8_t *stack)
{
    static const uint8_t paints[2] = { 0xA5, 0x3C };
    size_t most = 0;
    for (int i = 0; i < 2; i++) {
        if ((call == call_remove || call == call_move) && read_file(w) != 0) exit(1); /* as the call before it may have altered the sheet */
        probe p = { call, w, stack + 4096, paints[i], 0, 0 };
        pthread_attr_t how;
        pthread_t thread;
        if (pthread_attr_init(&how) != 0 || pthread_attr_setstack(&how, stack, STACK) != 0 ||
            pthread_create(&thread, &how, paint_and_call, &p) != 0 || pthread_join(thread, NULL) != 0) {
            fprintf(stderr, "stack: no thread\n");
            exit(2);
        }
        pthread_attr_destroy(&how);
        if (p.number != 0) {
            fprintf(stderr, "stack: %s is refused %d\n", name, (int)p.number);
            exit(1);
        }
        if (p.used > most) most = p.used;
    }
    return most;
}

int main(void)
{
    uint8_t *stack = mmap(NULL, STACK, PROT_READ | PROT_WRITE, MAP_PRIVATE | MAP_ANONYMOUS, -1, 0);
    if (stack == MAP_FAILED) {
        fprintf(stderr, "stack: no memory\n");
        return 2;
    }
    work sheets[2] = { work_on(sheet_text(0, 5, 1, 2), sheet_text(0, 5, 1, 2)),
                       work_on(sheet_text(GIANT, 4999, 1000, 9999), sheet_text(LISTED, 20, 3, 5)) };
    for (int i = 0; i < 2; i++) {
        if (read_file(&sheets[i]) != 0) {
            fprintf(stderr, "stack: a sheet is refused %d\n", (int)sheets[i].r.number);
            return 1;
        }
        sheets[i].sheet = cxf_sheet_of(&sheets[i].r, sheets[i].rows, sheets[i].letters, sheets[i].islands, sheets[i].points);
        sheets[i].sup = room(CXF_FILE_MOST);
        sheets[i].sup_len = (size_t)cxf_sup_write(CXF_SPREAD(sheets[i].sheet), DATE, sizeof DATE - 1, sheets[i].sup, CXF_FILE_MOST).length;
    }
    printf("%-16s %12s %12s\n", "bytes of stack", "small sheet", "giant sheet");
    for (size_t k = 0; k < sizeof FUNCTIONS / sizeof FUNCTIONS[0]; k++) {
        size_t used[2];
        for (int i = 0; i < 2; i++) used[i] = used_by(FUNCTIONS[k].name, FUNCTIONS[k].call, &sheets[i], stack);
        printf("%-16s %12zu %12zu\n", FUNCTIONS[k].name, used[0], used[1]);
    }
    return 0;
}
