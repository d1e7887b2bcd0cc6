/* Inputs from a seed. A sheet is made first, as tables; a file is that sheet as a list of pieces, one a record, which
   are dressed (blanks, tails, signs, line ends) and damaged one by one, so that a fault can be put at every place. */
#include "generate.h"

#include <stdio.h>
#include <stdlib.h>
#include <string.h>

#define REAL_LOW (-9999999999LL)
#define REAL_HIGH 99999999999LL
#define REACH 20000000LL

enum {
    KIND, OUTSIDE, CODE, SIZE, ANGLE, X, Y, SECOND_X, SECOND_Y, LETTERS, ISLANDS, VERTICES,
    FIRST_LETTER, FIRST_ISLAND, FIRST_POINT,
    WIDTH
};
enum { BORDO = 1, TESTO, SIMBOLO, FIDUCIALE, LINEA, RASTER, LIBRETTO };

/* ---- Chance ---- */

rng seeded(uint64_t seed, uint64_t which) {
    rng g = {seed * 0x9E3779B97F4A7C15u ^ (which + 1) * 0xD1B54A32D192ED03u};
    any(&g);
    return g;
}

/* splitmix64: every case has a generator of its own, so it must be good from the first number on */
uint64_t any(rng *g) {
    uint64_t z = g->state += 0x9E3779B97F4A7C15u;
    z = (z ^ (z >> 30)) * 0xBF58476D1CE4E5B9u;
    z = (z ^ (z >> 27)) * 0x94D049BB133111EBu;
    return z ^ (z >> 31);
}

uint64_t below(rng *g, uint64_t n) { return n == 0 ? 0 : any(g) % n; }

int64_t between(rng *g, int64_t low, int64_t high) {
    return (int64_t)((uint64_t)low + below(g, (uint64_t)high - (uint64_t)low + 1));
}

bool one_in(rng *g, uint64_t n) { return below(g, n) == 0; }

#define PICK(g, list) ((list)[below(g, sizeof(list) / sizeof((list)[0]))])

int64_t edge_number(rng *g) {
    static const int64_t edges[] = {
        INT64_MIN, INT64_MIN + 1, INT64_MAX, INT64_MAX - 1, REAL_LOW, REAL_LOW - 1, REAL_LOW + 1, REAL_HIGH, REAL_HIGH + 1,
        REAL_HIGH - 1, 0, 1, -1, 2, 3, 4, 5, 6, 7, 8, 12, 255, 256, 2498, 2499, 9998, 9999, 10000, 65535, 65536,
        4294967295LL, 4294967296LL, -4294967296LL, 20000000, 20000001, -20000000, -20000001, 5000000000LL,
    };
    return one_in(g, 8) ? (int64_t)any(g) : PICK(g, edges);
}

/* ---- Growing ---- */

static void *grown(void *at, size_t n, size_t unit) {
    void *p = realloc(at, n * unit);
    if (p == NULL) {
        fprintf(stderr, "generate: out of memory\n");
        exit(2);
    }
    return p;
}

void add_byte(bytes *b, uint8_t byte) {
    if (b->len == b->room) {
        b->room = b->room < 64 ? 64 : 2 * b->room;
        b->at = grown(b->at, b->room, 1);
    }
    b->at[b->len++] = byte;
}

void add_bytes(bytes *b, const void *from, size_t n) {
    for (size_t i = 0; i < n; i++) add_byte(b, ((const uint8_t *)from)[i]);
}

static void add_text(bytes *b, const char *text) { add_bytes(b, text, strlen(text)); }

/* Garbage of up to this many elements can be shown past each table's used part. */
enum { BEYOND = 32 };

#define ROOM(t, table, n)                                                               \
    do {                                                                                \
        if ((t)->table##_len + (n) + BEYOND > (t)->table##_room) {                      \
            (t)->table##_room = 2 * ((t)->table##_len + (n) + BEYOND);                  \
            (t)->table = grown((t)->table, (t)->table##_room, sizeof((t)->table[0]));   \
        }                                                                               \
    } while (0)

/* A row whose letters, island counts and points have been added before it. */
static void add_row(tables *t, const int64_t row[WIDTH]) {
    ROOM(t, rows, WIDTH);
    int64_t *n = t->rows + t->rows_len;
    memcpy(n, row, WIDTH * sizeof row[0]);
    n[FIRST_LETTER] = (int64_t)t->letters_len - n[LETTERS];
    n[FIRST_ISLAND] = (int64_t)t->islands_len - n[ISLANDS];
    n[FIRST_POINT] = (int64_t)t->points_len / 2 - n[VERTICES];
    t->rows_len += WIDTH;
    t->count++;
}

static void add_letters(tables *t, const uint8_t *from, size_t n) {
    ROOM(t, letters, n);
    if (n > 0) memcpy(t->letters + t->letters_len, from, n);
    t->letters_len += n;
}

static void add_island(tables *t, size_t n) {
    ROOM(t, islands, 1);
    t->islands[t->islands_len++] = (uint16_t)n;
}

static int64_t in_range(int64_t n) { return n < REAL_LOW ? REAL_LOW : n > REAL_HIGH ? REAL_HIGH : n; }

static void add_point(tables *t, int64_t x, int64_t y) {
    ROOM(t, points, 2);
    t->points[t->points_len++] = in_range(x);
    t->points[t->points_len++] = in_range(y);
}

/* ---- Rings ---- */

typedef struct { int64_t x, y; } at;

/* Where a sheet lies: the specification's own examples, a northing near 5,000,000,000 mm, both ends of the real range. */
static at some_origin(rng *g) {
    switch (below(g, 8)) {
    case 0: return (at){0, 0};
    case 1: return (at){1500000000LL + between(g, 0, 1000000), 5000000000LL + between(g, -1000000, 1000000)};
    case 2: return (at){REAL_HIGH - (int64_t)below(g, 3), REAL_HIGH - (int64_t)below(g, 3)};
    case 3: return (at){REAL_LOW + (int64_t)below(g, 3), REAL_LOW + (int64_t)below(g, 3)};
    case 4: return (at){REAL_HIGH - 30000000, REAL_LOW + 30000000};
    case 5: return (at){between(g, REAL_LOW, REAL_HIGH), between(g, REAL_LOW, REAL_HIGH)};
    case 6: return (at){14941747, -29983615};
    default: return (at){between(g, -1000, 1000), between(g, -1000, 1000)};
    }
}

/* A simple ring of m vertices: one chain to the right above the axis, one back below it. */
static void two_chains(rng *g, at *v, size_t m, int64_t width, int64_t height) {
    const size_t upper = m / 2;
    int64_t step = width / (int64_t)m;
    if (step < 1) step = 1;
    for (size_t i = 0; i < upper; i++) v[i] = (at){(int64_t)i * step, between(g, 1, height)};
    for (size_t i = upper; i < m; i++) v[i] = (at){(int64_t)(m - 1 - i) * step, -between(g, 1, height)};
}

/* The vertices run once round a square, more of them than it has corners, so many edges lie on one line. */
static void square(at *v, size_t m, int64_t side) {
    for (size_t i = 0; i < m; i++) {
        const int64_t way = (int64_t)(i * 4 * (uint64_t)side / m);
        const int64_t rest = way % side;
        switch (way / side) {
        case 0: v[i] = (at){rest, 0}; break;
        case 1: v[i] = (at){side, rest}; break;
        case 2: v[i] = (at){side - rest, side}; break;
        default: v[i] = (at){0, side - rest}; break;
        }
    }
}

/* From the middle of a square to its corners and on round: each edge between corners adds 2 * reach * reach * 2 to
   the doubled area, and the way from the middle and back adds nothing. */
static void winding(at *v, size_t m, int64_t reach) {
    static const int corners[4][2] = {{1, 1}, {-1, 1}, {-1, -1}, {1, -1}};
    v[0] = (at){0, 0};
    for (size_t i = 1; i < m; i++) v[i] = (at){corners[i % 4][0] * reach, corners[i % 4][1] * reach};
}

/* One change to a ring that makes edges touch, overlap or stand still. */
static void spoil_ring(rng *g, at *v, size_t m) {
    const size_t i = below(g, m), j = below(g, m), next = (i + 1) % m, after = (i + 2) % m;
    switch (below(g, 7)) {
    case 0: v[next] = v[i]; break;                                                         /* an edge of no length */
    case 1: v[i] = v[j]; break;                                                            /* two vertices in one place */
    case 2: v[i] = (at){(v[j].x + v[(j + 1) % m].x) / 2, (v[j].y + v[(j + 1) % m].y) / 2}; break; /* on another edge */
    case 3: v[after] = (at){(v[i].x + v[next].x) / 2, (v[i].y + v[next].y) / 2}; break;     /* back along an edge */
    case 4: v[after] = (at){2 * v[next].x - v[i].x, 2 * v[next].y - v[i].y}; break;         /* straight on: no fault */
    case 5: v[after] = v[i]; break;                                                        /* there and back */
    default: v[i].x += between(g, -3, 3), v[i].y += between(g, -3, 3); break;
    }
}

/* Appends a closed ring of n vertices (4 or more), the last equal to the first. */
static void add_ring(rng *g, tables *t, size_t n, at origin) {
    const size_t m = n - 1;
    at *v = grown(NULL, m, sizeof *v);
    static const int64_t widths[] = {3, 10, 100, 10000, 1000000, 9000000};
    const int64_t width = PICK(g, widths);
    switch (below(g, 12)) {
    case 0:
    case 1: two_chains(g, v, m, width, 1 + width / 2); break;
    case 2: square(v, m, width); break;
    case 3:
        for (size_t i = 0; i < m; i++) v[i] = (at){between(g, 0, 4), between(g, 0, 4)};
        break;
    case 4:
        for (size_t i = 0; i < m; i++) v[i] = (at){between(g, -width, width), between(g, -width, width)};
        break;
    case 5: /* a walk of small steps */
        for (size_t i = 0; i < m; i++)
            v[i] = i == 0 ? (at){0, 0} : (at){v[i - 1].x + between(g, -2, 2), v[i - 1].y + between(g, -2, 2)};
        break;
    case 6:
        for (size_t i = 0; i < m; i++) v[i] = (at){0, 0};
        break;
    case 7: /* to the reach and just past it, in x or in y */
        two_chains(g, v, m, 1000, 1000);
        for (int k = 0; k < 2; k++) {
            const int64_t far = (one_in(g, 2) ? REACH : REACH + 1) * (one_in(g, 2) ? 1 : -1);
            const size_t i = 1 + below(g, m - 1);
            if (one_in(g, 2)) v[i].x = v[0].x + far;
            else v[i].y = v[0].y + far;
        }
        break;
    case 8: winding(v, m, one_in(g, 2) ? REACH : width); break;
    case 9: /* on one line */
        for (size_t i = 0; i < m; i++) v[i] = (at){(int64_t)i * 2, (int64_t)i * 3};
        break;
    default:
        two_chains(g, v, m, width, 1 + width / 2);
        spoil_ring(g, v, m);
        if (one_in(g, 3)) spoil_ring(g, v, m);
        break;
    }
    /* Another beginning and another sense, so that the first and the last edge are as often faulty as others. */
    const size_t first = one_in(g, 2) ? 0 : below(g, m);
    const bool back = one_in(g, 2);
    for (size_t i = 0; i <= m; i++) {
        const size_t k = (first + i) % m;
        const at p = v[back ? (m - k) % m : k];
        add_point(t, origin.x + p.x, origin.y + p.y);
    }
    free(v);
}

/* ---- Sheets ---- */

static uint8_t capital(rng *g) { return (uint8_t)('A' + below(g, 26)); }
static uint8_t digit(rng *g) { return (uint8_t)('0' + below(g, 10)); }

static void make_name(rng *g, uint8_t *name, uint64_t kind) {
    name[0] = capital(g);
    for (int i = 1; i < 4; i++) name[i] = digit(g);
    name[4] = one_in(g, 2) ? '_' : capital(g);
    for (int i = 5; i < 9; i++) name[i] = digit(g);
    for (int i = 9; i < 11; i++) name[i] = one_in(g, 2) ? digit(g) : capital(g);
    if (kind == 3 || one_in(g, 8)) name[9] = 'Q', name[10] = 'U';
}

/* Letters that a class or a text question turns on, words that are keywords elsewhere, and anything. */
static size_t make_letters(rng *g, const tables *t, uint8_t out[255]) {
    static const char *const words[] = {
        "STRADA", "ACQUA", "STRADA+", "ACQUA1", "strada", "STRAD", "S7", "S7+", "S", "A", "A12", "A1+", "7+", "+", "++", "7 +",
        "12345678901", "1234567890+", "S1234567890", "A123456789+", "STRADA 1234", "7", "123", "X0001", "(7)", "()", "(", ")", "( )", "(731", "731)", "((7))", ")7(", "(a) b", "EOF", "BORDO", "TESTO\\",
        "Via  Roma  12", "ALLA", "SVIA", "\\", "~", "!", "0.000", "   4x",
    };
    size_t n = 0;
    switch (below(g, 10)) {
    case 0: memcpy(out, t->name, 11); return 11;
    case 1:
        memcpy(out, t->name, 11);
        out[below(g, 11)] = digit(g);
        return 11;
    case 2: /* lengths next to the name's */
        memcpy(out, t->name, 11);
        out[11] = '1';
        return one_in(g, 2) ? 10 : 12;
    case 3: n = one_in(g, 2) ? 11 : 1 + below(g, 20); break;
    case 4: n = one_in(g, 4) ? 255 - below(g, 3) : 1 + below(g, 60); break;
    default: {
        const char *word = PICK(g, words);
        n = strlen(word);
        memcpy(out, word, n);
    }
        goto trimmed;
    }
    for (size_t i = 0; i < n; i++) out[i] = (uint8_t)between(g, 32, 126);
trimmed:
    if (out[0] == ' ') out[0] = 'x';
    if (out[n - 1] == ' ') out[n - 1] = one_in(g, 2) ? '+' : 'x';
    return n;
}

static bool has_code(int64_t kind) { return (kind >= SIMBOLO && kind <= LINEA) || kind == LIBRETTO; }

static int64_t listed_code(rng *g, int64_t kind) {
    static const int64_t symbols[] = {1, 2, 3, 4, 5, 6, 7, 8, 9, 10, 11, 13, 14, 15, 16, 20};
    static const int64_t fiducials[] = {8, 20};
    static const int64_t lines[] = {1, 5, 6, 11, 12, 29, 30, 31, 32, 33, 34, 35};
    return kind == SIMBOLO ? PICK(g, symbols) : kind == FIDUCIALE ? PICK(g, fiducials) : kind == LIBRETTO ? 1 : PICK(g, lines);
}

/* Codes that a table lacks for some kind: next to the listed ones, 0, the ends. */
static int64_t other_code(rng *g) {
    static const int64_t codes[] = {0, 2, 4, 7, 9, 10, 12, 13, 17, 19, 21, 28, 36, 256 + 8, 9999};
    return one_in(g, 4) ? (int64_t)below(g, 10000) : PICK(g, codes);
}

static int64_t some_real(rng *g, int64_t near) {
    static const int64_t reals[] = {0, 1, -1, -5, 5, 999, 1000, -999, -1000, REAL_LOW, REAL_HIGH, 9999999999LL, 10000000000LL, 4673};
    if (one_in(g, 3)) return PICK(g, reals);
    if (one_in(g, 4)) return between(g, REAL_LOW, REAL_HIGH);
    return in_range(near + between(g, -100000, 100000));
}

static void empty_sheet(rng *g, tables *t) {
    static const int64_t scales[] = {1, 1000000, 2000000, REAL_HIGH, 999, 500000};
    t->rows_len = t->letters_len = t->islands_len = t->points_len = 0;
    t->count = 0;
    ROOM(t, rows, 0);
    ROOM(t, letters, 0);
    ROOM(t, islands, 0);
    ROOM(t, points, 0);
    t->kind = 1 + below(g, 3);
    t->name_len = 11;
    memset(t->name, 0, sizeof t->name);
    make_name(g, t->name, t->kind);
    t->scale = one_in(g, 3) ? between(g, 1, REAL_HIGH) : PICK(g, scales);
}

/* The numbers and letters of a border; its counts and points come after. */
static void begin_border(rng *g, tables *t, int64_t row[WIDTH], at origin) {
    uint8_t text[255];
    memset(row, 0, WIDTH * sizeof row[0]);
    row[KIND] = BORDO;
    row[LETTERS] = (int64_t)make_letters(g, t, text);
    add_letters(t, text, (size_t)row[LETTERS]);
    row[SIZE] = one_in(g, 4) ? 0 : one_in(g, 4) ? 9999 : (int64_t)below(g, 10000);
    row[ANGLE] = some_real(g, 0);
    row[X] = some_real(g, origin.x);
    row[Y] = some_real(g, origin.y);
    row[SECOND_X] = some_real(g, origin.x);
    row[SECOND_Y] = some_real(g, origin.y);
}

static size_t ring_length(rng *g, size_class size) {
    if (size == LONG && one_in(g, 2)) return 4 + below(g, one_in(g, 6) ? 3000 : 300);
    if (size != SHORT) return 4 + below(g, 27);
    return 4 + below(g, 4);
}

static void add_border(rng *g, tables *t, size_class size, at origin) {
    int64_t row[WIDTH];
    size_t lengths[64], total = 0;
    begin_border(g, t, row, origin);
    const size_t islands = one_in(g, 2) ? 0 : size == LONG ? below(g, 60) : 1 + below(g, 3);
    size_t outer = ring_length(g, size);
    if (size == LONG && one_in(g, 20)) outer = 9999;
    for (size_t i = 0; i < islands; i++) {
        lengths[i] = ring_length(g, i < 3 ? size : SHORT);
        total += lengths[i];
    }
    if (outer + total > 9999) outer = total <= 9995 ? 9999 - total : 4;
    add_ring(g, t, outer, origin);
    size_t kept = 0, used = outer;
    for (size_t i = 0; i < islands && used + lengths[i] <= 9999; i++) {
        add_ring(g, t, lengths[i], origin);
        add_island(t, lengths[i]);
        used += lengths[i];
        kept++;
    }
    row[ISLANDS] = (int64_t)kept;
    row[VERTICES] = (int64_t)used;
    add_row(t, row);
}

static void add_element(rng *g, tables *t, size_class size, at origin) {
    int64_t row[WIDTH] = {0};
    uint8_t text[255];
    const int64_t kind = one_in(g, 3) ? BORDO : between(g, BORDO, LIBRETTO);
    if (kind == BORDO) {
        add_border(g, t, size, origin);
        return;
    }
    row[KIND] = kind;
    row[OUTSIDE] = kind <= LINEA && one_in(g, 3) ? 1 : 0;
    if (kind == TESTO || kind == FIDUCIALE || kind >= RASTER) {
        row[LETTERS] = (int64_t)make_letters(g, t, text);
        if (kind == TESTO && one_in(g, 3)) { /* a surface right, or nearly */
            if (!one_in(g, 6)) text[0] = '(';
            if (!one_in(g, 6)) text[row[LETTERS] - 1] = ')';
        }
        add_letters(t, text, (size_t)row[LETTERS]);
    }
    if (has_code(kind)) row[CODE] = one_in(g, 20) ? other_code(g) : listed_code(g, kind);
    if (kind == TESTO) row[SIZE] = one_in(g, 3) ? 0 : (int64_t)below(g, 10000);
    if (kind == TESTO || kind == SIMBOLO) row[ANGLE] = some_real(g, 0);
    if (kind < LINEA) {
        row[X] = some_real(g, origin.x);
        row[Y] = some_real(g, origin.y);
    }
    if (kind == FIDUCIALE) {
        row[SECOND_X] = some_real(g, origin.x);
        row[SECOND_Y] = some_real(g, origin.y);
    }
    if (kind >= LINEA) {
        size_t n = 2 + below(g, size == SHORT ? 4 : 30);
        if (size == LONG && one_in(g, 4)) n = one_in(g, 8) ? 9999 : 2 + below(g, 2000);
        if (kind == RASTER) n = 4;
        row[VERTICES] = (int64_t)n;
        for (size_t i = 0; i < n; i++) add_point(t, some_real(g, origin.x), some_real(g, origin.y));
    }
    add_row(t, row);
}

void make_sheet(rng *g, size_class size, tables *t) {
    empty_sheet(g, t);
    const at origin = some_origin(g);
    const size_t elements = size == SHORT ? below(g, 4) : size == MIDDLE ? below(g, 12) : 1 + below(g, 12);
    for (size_t i = 0; i < elements; i++) add_element(g, t, size, origin);
}

void make_rings(rng *g, size_class size, tables *t) {
    empty_sheet(g, t);
    const at origin = some_origin(g);
    if (one_in(g, 4)) add_element(g, t, SHORT, origin);
    add_border(g, t, size, origin);
    if (one_in(g, 8)) add_border(g, t, SHORT, origin);
}

/* n points, the last equal to the first. */
static void add_points(rng *g, tables *t, size_t n, at origin) {
    const size_t first = t->points_len;
    for (size_t i = 0; i < n; i++) {
        if (i > 0 && i + 1 == n) add_point(t, t->points[first], t->points[first + 1]);
        else add_point(t, origin.x + between(g, -50, 50), origin.y + between(g, -50, 50));
    }
}

void make_odd(rng *g, tables *t) {
    static const size_t few[] = {0, 1, 2, 3, 4, 5};
    static const size_t many[] = {9998, 9999, 10000, 10001};
    make_sheet(g, SHORT, t);
    const at origin = some_origin(g);
    int64_t row[WIDTH] = {0};
    switch (below(g, 7)) {
    case 5: /* a raster sheet's points, 3 and 5 among them; a LIBRETTO's vertices */
    case 6:
        row[KIND] = one_in(g, 2) ? RASTER : LIBRETTO;
        row[CODE] = row[KIND] == LIBRETTO ? 1 : 0;
        row[LETTERS] = 1;
        add_letters(t, (const uint8_t *)"r", 1);
        row[VERTICES] = row[KIND] == RASTER ? between(g, 2, 6) : (int64_t)(one_in(g, 10) ? PICK(g, many) : PICK(g, few));
        add_points(g, t, (size_t)row[VERTICES], origin);
        break;
    case 0: /* letters: none, 255, 256 */
        begin_border(g, t, row, origin);
        t->letters_len -= (size_t)row[LETTERS];
        row[LETTERS] = one_in(g, 4) ? 0 : between(g, 254, 257);
        for (int64_t i = 0; i < row[LETTERS]; i++) add_letters(t, (const uint8_t *)"l", 1);
        row[VERTICES] = 4;
        add_points(g, t, 4, origin);
        break;
    case 1: /* a line's vertices */
        row[KIND] = LINEA;
        row[CODE] = listed_code(g, LINEA);
        row[VERTICES] = (int64_t)(one_in(g, 10) ? PICK(g, many) : PICK(g, few));
        add_points(g, t, (size_t)row[VERTICES], origin);
        break;
    case 2: /* a border's vertices */
        begin_border(g, t, row, origin);
        row[VERTICES] = (int64_t)(one_in(g, 10) ? PICK(g, many) : PICK(g, few));
        add_points(g, t, (size_t)row[VERTICES], origin);
        break;
    default: { /* rings of 3, 4 and 5; or of so many that all together are just too many */
        begin_border(g, t, row, origin);
        const size_t islands = 1 + below(g, 3);
        size_t ring = one_in(g, 12) ? 9990 - 4 * islands + below(g, 14) : 3 + below(g, 3);
        row[ISLANDS] = (int64_t)islands;
        for (size_t i = 0; i <= islands; i++) {
            if (i > 0) {
                ring = one_in(g, 2) ? 4 : 3 + below(g, 3);
                add_island(t, ring);
            }
            add_points(g, t, ring, origin);
            row[VERTICES] += (int64_t)ring;
        }
        break;
    }
    }
    add_row(t, row);
    if (one_in(g, 2)) add_element(g, t, SHORT, origin);
}

/* A border whose ring `wound` (0 is the outer one, else its only island) has this many edges between corners. */
static void add_wound(rng *g, tables *t, size_t edges, bool island, const char *word, at origin) {
    int64_t row[WIDTH];
    const size_t n = edges + 3;
    at *v = grown(NULL, n, sizeof *v);
    begin_border(g, t, row, origin);
    t->letters_len -= (size_t)row[LETTERS];
    row[LETTERS] = (int64_t)strlen(word);
    add_letters(t, (const uint8_t *)word, strlen(word));
    if (island)
        for (int i = 0; i < 4; i++) add_point(t, origin.x, origin.y);
    winding(v, n - 1, REACH);
    for (size_t i = 0; i < n; i++) add_point(t, origin.x + v[i % (n - 1)].x, origin.y + v[i % (n - 1)].y);
    if (island) add_island(t, n);
    row[ISLANDS] = island ? 1 : 0;
    row[VERTICES] = (int64_t)(n + (island ? 4 : 0));
    add_row(t, row);
    free(v);
}

void make_wound(rng *g, tables *t) {
    /* 11,250 edges of 800,000,000,000,000 are 9,000,000,000,000,000,000 */
    const size_t edges = 11249 + below(g, 3), first = 1300 + below(g, 8600);
    const at origin = {between(g, REAL_LOW + REACH, REAL_HIGH - REACH), between(g, REAL_LOW + REACH, REAL_HIGH - REACH)};
    const bool island = one_in(g, 2);
    static const char *const words[] = {"7", "7+", "STRADA", "ACQUA", "Z999Z999999"};
    empty_sheet(g, t);
    const char *word = one_in(g, 6) ? (const char *)t->name : PICK(g, words); /* the name is followed by zeros */
    if (one_in(g, 3)) add_element(g, t, SHORT, origin);
    add_wound(g, t, first, island, word, origin);
    /* one time in six the second border is another class's, and its total keeps the limit */
    add_wound(g, t, edges - first, island, one_in(g, 6) ? "8" : word, origin);
    if (one_in(g, 3)) add_wound(g, t, 1, island, word, origin);
    if (one_in(g, 3)) { /* too wide in a later row: 18 comes first if the limit was passed before */
        add_wound(g, t, 4, false, word, origin);
        t->points[t->points_len - 4] = in_range(origin.x + REACH + 1);
    }
}

void make_full(rng *g, size_t length, tables *t) {
    empty_sheet(g, t);
    const at origin = some_origin(g);
    size_t left = length - (t->kind == 1 ? 7 : 17) - 13 - 14 - 5;
    const bool many = one_in(g, 2); /* many small rows, or few long lines */
    while (left > 700) {
        int64_t row[WIDTH] = {0};
        if (many && !one_in(g, 50)) {
            row[KIND] = SIMBOLO;
            row[CODE] = listed_code(g, SIMBOLO);
            row[X] = some_real(g, origin.x);
            row[Y] = some_real(g, origin.y);
            left -= 57;
        } else {
            size_t n = many ? 2 + below(g, 4) : 9999;
            if (19 + 28 * n + 200 > left) n = (left - 19 - 200) / 28;
            row[KIND] = LINEA;
            row[CODE] = listed_code(g, LINEA);
            row[VERTICES] = (int64_t)n;
            for (size_t i = 0; i < n; i++) add_point(t, origin.x + between(g, -9999, 9999), some_real(g, origin.y));
            left -= 19 + 28 * n;
        }
        add_row(t, row);
    }
    while (left > 0) { /* a text of n letters takes 57 + n bytes, n 1 to 255 */
        int64_t row[WIDTH] = {0};
        const size_t n = left <= 312 ? left - 57 : left <= 500 ? 100 : 255;
        row[KIND] = TESTO;
        row[LETTERS] = (int64_t)n;
        for (size_t i = 0; i < n; i++) add_letters(t, (const uint8_t *)"t", 1);
        add_row(t, row);
        left -= 57 + n;
    }
}

/* ---- Sheets for SUP files ---- */

/* Appends a closed ring whose doubled area is just `doubled`; how many vertices it has. From the first vertex it goes out,
   round a square as often as that goes in, and back; then triangles make up the rest. */
static size_t add_exact_ring(rng *g, tables *t, int64_t doubled, at origin) {
    static const int corners[4][2] = {{1, 1}, {-1, 1}, {-1, -1}, {1, -1}};
    const int64_t round = 2 * REACH * REACH; /* an edge from corner to corner */
    const bool turned = one_in(g, 2);        /* x and y exchanged: the other sense */
    const size_t first = t->points_len;
    const int64_t edges = doubled / round, rest = doubled % round;
    const int64_t tall = rest / REACH, low = tall < REACH ? tall : REACH;
    const int64_t triangles[3][2] = {{REACH, low}, {REACH, tall - low}, {rest % REACH, 1}};
#define AT(dx, dy) add_point(t, origin.x + (turned ? (dy) : (dx)), origin.y + (turned ? (dx) : (dy)))
    AT(0, 0);
    for (int64_t i = 0; edges > 0 && i <= edges; i++) AT(corners[i % 4][0] * REACH, corners[i % 4][1] * REACH);
    if (edges > 0) AT(0, 0);
    for (int k = 0; k < 3; k++) {
        if (triangles[k][0] * triangles[k][1] == 0) continue;
        AT(triangles[k][0], 0);
        AT(triangles[k][0], triangles[k][1]);
        AT(0, 0);
    }
    while (t->points_len - first < 8) AT(0, 0);
#undef AT
    return (t->points_len - first) / 2;
}

/* A border with these letters, its outer ring of `outer`, and its islands of `holes` together; `count` of them. */
static void add_measured(rng *g, tables *t, const uint8_t *text, size_t n, int64_t outer, int64_t holes, size_t count, at origin) {
    int64_t row[WIDTH];
    begin_border(g, t, row, origin);
    t->letters_len -= (size_t)row[LETTERS];
    add_letters(t, text, n);
    row[LETTERS] = (int64_t)n;
    row[ISLANDS] = (int64_t)count;
    row[VERTICES] = (int64_t)add_exact_ring(g, t, outer, origin);
    for (size_t i = 0; i < count; i++) {
        const int64_t part = i + 1 == count ? holes : one_in(g, 3) ? 0 : between(g, 0, holes);
        const size_t vertices = add_exact_ring(g, t, part, origin);
        holes -= part;
        add_island(t, vertices);
        row[VERTICES] += (int64_t)vertices;
    }
    add_row(t, row);
}

/* A border of this net area, with or without islands. */
static void add_net(rng *g, tables *t, const uint8_t *text, size_t n, int64_t net, at origin) {
    const int64_t most = one_in(g, 2) ? 3 : 100000000;
    int64_t outer = net > 0 ? net : 0, holes = net < 0 ? -net : 0;
    if (one_in(g, 3)) {
        const int64_t more = between(g, 0, most);
        outer += more;
        holes += more;
    }
    add_measured(g, t, text, n, outer, holes, holes > 0 ? 1 + below(g, 3) : below(g, 2), origin);
}

/* A doubled area: small, at a half, or anything of a parcel's size. */
static int64_t some_net(rng *g) {
    switch (below(g, 5)) {
    case 0: return between(g, -3, 3);
    case 1: return (one_in(g, 2) ? 1000000 : -1000000) + between(g, -1, 1);
    case 2: return 2000000 * between(g, -30, 30) + 1000000 + between(g, -1, 1);
    case 3: return between(g, -40000000, 40000000);
    default: return between(g, -1000000000000LL, 4000000000000LL);
    }
}

/* A total at the end of what 10 characters show: 9,999,999,999 or -999,999,999, the next figure, or near. */
static int64_t end_total(rng *g) {
    const int64_t above = 19999999999000000LL, under = -1999999999000000LL;
    const int64_t off = one_in(g, 3) ? between(g, -4000000, 4000000) : between(g, -2, 2);
    return (one_in(g, 2) ? above : under) + off;
}

/* Letters of a PARCEL: few codes, so that many are equal; codes that begin each other; blanks and signs inside; not 11 of
   them in kind 3. */
static size_t parcel_code(rng *g, const tables *t, uint8_t out[255]) {
    static const uint8_t alphabet[] = {'0', '1', ' ', '!', '/', 'A', 'S', 'a', '~', '+'};
    static const char *const chain = "10000000000";
    const size_t most = t->kind == 3 ? 10 : 11;
    size_t n = 0;
    switch (below(g, 6)) {
    case 0: n = (size_t)snprintf((char *)out, 16, "%d", (int)below(g, 12)); break;
    case 1: n = (size_t)snprintf((char *)out, 16, "%d", (int)below(g, 2000)); break;
    case 2:
        n = 1 + below(g, most);
        memcpy(out, chain, n);
        break;
    case 3: /* all but one of the letters of the name */
        n = 10;
        memcpy(out, t->name, n);
        break;
    default:
        n = 1 + below(g, one_in(g, 6) ? most : 3);
        for (size_t i = 0; i < n; i++) out[i] = PICK(g, alphabet);
        break;
    }
    if (out[0] == ' ' || (t->kind == 2 && (out[0] == 'S' || out[0] == 'A'))) out[0] = 'B';
    if (out[n - 1] == ' ' || out[n - 1] == '+') out[n - 1] = 'x';
    return n;
}

/* Letters of an OTHER border: 11, and not the name. In kinds 1 and 2 they are of any later class. */
static size_t other_code_letters(rng *g, const tables *t, uint8_t out[255]) {
    static const char *const words[] = {"STRADA 1234", "ACQUA123456", "1234567890+", "S1234567890", "~~~~~~~~~~~", "!!!!!!!!!!!"};
    if (one_in(g, 4)) {
        const char *word = PICK(g, words);
        memcpy(out, word, 11);
    } else {
        memcpy(out, t->name, 11);
        out[one_in(g, 2) ? 10 : below(g, 11)] = (uint8_t)between(g, '0', '3');
    }
    if (memcmp(out, t->name, 11) == 0) out[10] = '~';
    return 11;
}

typedef enum { CONFINE, OTHER, ROAD, WATER, BUILDING, PARCEL, CLASSES } class;

static size_t class_letters(rng *g, const tables *t, class c, uint8_t out[255]) {
    static const char *const roads[] = {"STRADA", "S", "S7", "S7+", "STRADA DEL MULINO"};
    static const char *const waters[] = {"ACQUA", "A", "A12", "A1+", "ACQUA DI FOSSO"};
    static const char *const buildings[] = {"7+", "+", "1000000000+", "12345678901+", "1 +"}; /* in kind 3 one of 11 letters is OTHER */
    const char *word = NULL;
    switch (c) {
    case CONFINE: memcpy(out, t->name, 11); return 11;
    case OTHER: return other_code_letters(g, t, out);
    case PARCEL: return parcel_code(g, t, out);
    case ROAD: word = t->kind == 2 ? PICK(g, roads) : roads[0]; break;
    case WATER: word = t->kind == 2 ? PICK(g, waters) : waters[0]; break;
    default: word = PICK(g, buildings); break;
    }
    memcpy(out, word, strlen(word));
    return strlen(word);
}

static void add_of_class(rng *g, tables *t, class c, int64_t net, at origin) {
    uint8_t text[255];
    const size_t n = class_letters(g, t, c, text);
    add_net(g, t, text, n, net, origin);
}

/* Splits a net that one ring could not have, or any net that is to be a sum. */
static void add_sum(rng *g, tables *t, class c, int64_t net, at origin) {
    const int64_t most = 7000000000000000000LL;
    const int64_t part = net > most || net < -most ? net / 2 : one_in(g, 3) ? some_net(g) : 0;
    if (part != 0) add_of_class(g, t, c, part, origin);
    add_of_class(g, t, c, net - part, origin);
}

/* Room for every ring on all sides of it. */
static at inner_origin(rng *g) {
    const int64_t low = REAL_LOW + REACH, high = REAL_HIGH - REACH;
    switch (below(g, 4)) {
    case 0: return (at){low, high};
    case 1: return (at){high, low};
    case 2: return (at){0, 5000000000LL};
    default: return (at){between(g, low, high), between(g, low, high)};
    }
}

/* A parcel whose code has over 11 letters. */
static void add_long_code(rng *g, tables *t, at origin) {
    static const size_t lengths[] = {12, 12, 13, 255};
    uint8_t text[255];
    memset(text, '1', sizeof text);
    add_net(g, t, text, PICK(g, lengths), some_net(g), origin);
}

/* A row that is no border and that no line may tell of. */
static void add_note(rng *g, tables *t) {
    int64_t row[WIDTH] = {0};
    uint8_t text[255];
    row[KIND] = TESTO;
    row[LETTERS] = (int64_t)class_letters(g, t, (class)below(g, CLASSES), text);
    add_letters(t, text, (size_t)row[LETTERS]);
    add_row(t, row);
}

/* One figure at its end: a listed border's, a class's, TOTALE's while its parts are shorter, or SBILANCIO's alone. */
static void add_ends(rng *g, tables *t, at origin) {
    static const class parts[] = {BUILDING, PARCEL, ROAD, WATER, OTHER};
    uint8_t text[255];
    const int64_t end = end_total(g), size = end < 0 ? -end : end;
    switch (below(g, 5)) {
    case 0: add_sum(g, t, PICK(g, parts), end, origin); break;
    case 1: /* SVIL-ALL */
        add_measured(g, t, text, class_letters(g, t, CONFINE, text), one_in(g, 2) ? size : 0, size, 1 + below(g, 2), origin);
        break;
    case 2: add_measured(g, t, text, class_letters(g, t, CONFINE, text), size, 0, 0, origin); break;
    case 3: { /* TOTALE */
        const int64_t parcels = end / 3, roads = end / 4;
        add_sum(g, t, PARCEL, parcels, origin);
        add_sum(g, t, ROAD, roads, origin);
        add_sum(g, t, WATER, end - parcels - roads, origin);
        break;
    }
    default: { /* TOTALE less CONFINE is -999,999,999 or one less */
        const int64_t parcels = some_net(g);
        add_of_class(g, t, PARCEL, parcels, origin);
        const int64_t outside = parcels + 1999999998000000LL + between(g, -3, 3) * 1000000;
        add_measured(g, t, text, class_letters(g, t, CONFINE, text), outside, 0, 0, origin);
        break;
    }
    }
}

void make_listed(rng *g, size_class size, tables *t) {
    static const class mostly[] = {CONFINE, OTHER, OTHER, ROAD, WATER, BUILDING, PARCEL, PARCEL, PARCEL};
    empty_sheet(g, t);
    const at origin = inner_origin(g);
    const class listed = t->kind == 3 ? OTHER : PARCEL;
    const size_t borders = size == SHORT ? below(g, 8) : size == MIDDLE ? below(g, 40) : 200 + below(g, 1500);
    const bool alike = one_in(g, 4), too_long = one_in(g, 8); /* only listed borders; codes over 11 letters among them */
    if (size != LONG && one_in(g, 4)) add_ends(g, t, origin);
    for (size_t i = 0; i < borders; i++) {
        if (one_in(g, 12)) add_note(g, t);
        if (too_long && one_in(g, 5)) add_long_code(g, t, origin);
        add_of_class(g, t, alike ? listed : PICK(g, mostly), some_net(g), origin);
    }
    if (size != LONG && one_in(g, 8)) add_ends(g, t, origin);
}

void make_combined(rng *g, tables *t) {
    const int64_t limit = 9000000000000000000LL, off[] = {0, 1, -1, 100000, -100000};
    uint8_t text[255];
    empty_sheet(g, t);
    const at origin = inner_origin(g);
    const int64_t sign = one_in(g, 2) ? 1 : -1;
    /* waters, or CONFINE's islands, are what parcels and roads leave of the limit, or take back from it, but for `off` */
    const int64_t parcels = between(g, 5, 89) * 100000000000000000LL, roads = between(g, 5, 89) * 100000000000000000LL;
    const int64_t left = one_in(g, 4) ? between(g, 0, 80) * 100000000000000000LL /* far past it, so that 64 bits would not hold it */
                                      : limit - parcels - roads + PICK(g, off);  /* -8.8 * 10^18 to 8 * 10^18 */
    const int64_t holes = sign > 0 && left > 0 && one_in(g, 2) ? left : sign < 0 && left < 0 && one_in(g, 2) ? -left : 0;
    if (one_in(g, 4)) add_of_class(g, t, PARCEL, 0, origin);
    add_sum(g, t, PARCEL, sign * parcels, origin);
    add_sum(g, t, ROAD, sign * roads, origin);
    if (holes == 0) add_sum(g, t, WATER, sign * left, origin);
    else if (holes < 7000000000000000000LL) add_measured(g, t, text, class_letters(g, t, CONFINE, text), 0, holes, 1, origin);
    if (one_in(g, 4)) add_long_code(g, t, origin);
    if (one_in(g, 4)) add_of_class(g, t, PARCEL, some_net(g), origin);
}

static void damage_bytes(rng *g, bytes *b);

size_t make_date(rng *g, uint8_t out[16]) {
    static const char *const ends[] = {"20230231", "00000101", "99991231", "20240229", "19990712", "20231301", "20230001", "20230132",
                                       "20230100", "20239901", "20230199", "2023 101", "2023010 ", "-0230101"};
    static const uint8_t wrong[] = {' ', '/', ':', 'a', 0, 255, '0' + 128, '+'};
    const char *end = PICK(g, ends);
    char text[24];
    size_t n = 8;
    if (one_in(g, 5)) memcpy(out, end, 8);
    else {
        snprintf(text, sizeof text, "%04d%02d%02d", (int)below(g, 10000), 1 + (int)below(g, 12), 1 + (int)below(g, 31));
        memcpy(out, text, 8);
    }
    memcpy(out + 8, "01010101", 8);
    if (one_in(g, 16)) out[below(g, 8)] = PICK(g, wrong);
    if (one_in(g, 24)) n = one_in(g, 3) ? 7 : one_in(g, 2) ? 9 : one_in(g, 2) ? 0 : below(g, 17);
    return n;
}

/* ---- SUP files altered ---- */

enum { SUP_LINE = 23, SUP_LEFT = 11, SUP_RIGHT = 10 };

static int64_t sup_figure(const bytes *sup, size_t line) {
    char text[SUP_RIGHT + 1] = {0};
    memcpy(text, sup->at + SUP_LINE * line + SUP_LEFT, SUP_RIGHT);
    return strtoll(text, NULL, 10);
}

/* A figure that 10 characters show; another is left out. */
static void set_figure(bytes *sup, size_t line, int64_t figure) {
    char text[32];
    if (snprintf(text, sizeof text, "%10lld", (long long)figure) == SUP_RIGHT) memcpy(sup->at + SUP_LINE * line + SUP_LEFT, text, SUP_RIGHT);
}

/* The figure of a line, off by what is allowed it, one more, or little. Lines are counted from 0; 14 of them are not of listed borders. */
static void shift_figure(rng *g, bytes *sup, size_t lines) {
    const size_t listed = lines - 14, last = 7 + listed; /* PARTIC's line */
    const size_t line = one_in(g, 3) && listed > 0 ? 7 + below(g, listed) : one_in(g, 8) ? 1 + below(g, lines - 1) : last + below(g, 7);
    int64_t parts = 1;
    if (line == 6) parts = sup_figure(sup, 1);
    if (line >= last && line < last + 4) parts = sup_figure(sup, 2 + line - last);
    if (line == last + 4) parts = sup_figure(sup, 2) + sup_figure(sup, 3) + sup_figure(sup, 4) + sup_figure(sup, 5);
    if (line == last + 5) parts = between(g, 0, 3);
    if (line == last + 4 && one_in(g, 4)) parts = (int64_t)listed; /* kind 3 */
    const int64_t by = one_in(g, 3) ? between(g, -2, 2) : (parts + between(g, -1, 1)) * (one_in(g, 2) ? 1 : -1);
    set_figure(sup, line, sup_figure(sup, line) + by);
    if (line >= last + 4 && !one_in(g, 4)) set_figure(sup, last + 6, sup_figure(sup, last + 4) - sup_figure(sup, last + 5));
}

/* The same figure in a form that T-01 does not write, or hardly. */
static void reform_figure(rng *g, bytes *sup, size_t lines) {
    static const char *const forms[] = {"%010lld", "%+10lld", "%-10lld", "%9lld ", " %-9lld", "%11lld", "%9lld.", "%lld", "        -0",
                                        "         0", "          ", "       --1", "         -", "        1-", "       1 1"};
    char text[64];
    const size_t line = below(g, lines);
    const char *form = PICK(g, forms);
    const int64_t figure = sup_figure(sup, line);
    if (strchr(form, '%') == NULL) snprintf(text, sizeof text, "%s", form);
    else if (one_in(g, 2)) snprintf(text, sizeof text, form, (long long)figure);
    else snprintf(text, sizeof text, form, (long long)(figure < 0 ? -figure : figure));
    for (size_t n = strlen(text); n < SUP_RIGHT; n++) text[n] = ' ';
    memcpy(sup->at + SUP_LINE * line + SUP_LEFT, text, SUP_RIGHT);
}

static void drop_bytes(bytes *b, size_t at, size_t n) {
    memmove(b->at + at, b->at + at + n, b->len - at - n);
    b->len -= n;
}

/* A line is gone, there twice, exchanged with the next, or ends otherwise. */
static void damage_line(rng *g, bytes *sup, size_t lines) {
    const size_t line = below(g, lines), at = SUP_LINE * line;
    uint8_t held[SUP_LINE];
    memcpy(held, sup->at + at, SUP_LINE);
    switch (below(g, 6)) {
    case 0: drop_bytes(sup, at, SUP_LINE); break;
    case 1:
        for (int i = 0; i < SUP_LINE; i++) add_byte(sup, 0);
        memmove(sup->at + at + SUP_LINE, sup->at + at, sup->len - at - SUP_LINE);
        break;
    case 2:
        if (line + 1 == lines) break;
        memcpy(sup->at + at, sup->at + at + SUP_LINE, SUP_LINE);
        memcpy(sup->at + at + SUP_LINE, held, SUP_LINE);
        break;
    case 3: drop_bytes(sup, at + SUP_LINE - 2, 1); break; /* LF alone */
    case 4: drop_bytes(sup, at + SUP_LINE - 1, 1); break;
    default: drop_bytes(sup, at + SUP_LINE - 2, 2); break;
    }
}

void damage_sup(rng *g, bytes *sup) {
    const size_t lines = sup->len / SUP_LINE;
    uint8_t date[16];
    if (lines < 14 || sup->len % SUP_LINE != 0) { /* not as T-01 has it any more */
        damage_bytes(g, sup);
        return;
    }
    switch (below(g, 12)) {
    case 0:
    case 1:
    case 2:
    case 3: shift_figure(g, sup, lines); break;
    case 4: /* all figures of listed borders, each by itself */
        for (size_t i = 7; i < lines - 7; i++) set_figure(sup, i, sup_figure(sup, i) + between(g, -1, 1));
        break;
    case 5: reform_figure(g, sup, lines); break;
    case 6: damage_line(g, sup, lines); break;
    case 7:
        make_date(g, date);
        memcpy(sup->at + SUP_LEFT + 2, date, 8);
        break;
    case 8: sup->len -= 1 + below(g, one_in(g, 2) ? 3 : sup->len); break;
    case 9:
        for (size_t n = 1 + below(g, 30); n > 0; n--) add_byte(sup, one_in(g, 2) ? ' ' : (uint8_t)any(g));
        break;
    case 10: sup->len = one_in(g, 4) ? 0 : SUP_LINE * below(g, lines + 1); break;
    default: damage_bytes(g, sup); break;
    }
}

/* ---- Sheets for masks ---- */

enum { GRID = 64 };

static int64_t some_cell(rng *g) {
    static const int64_t cells[] = {1, 2, 3, 4, 7, 10, 100, 250, 500, 999, 1000, 5000, 9999, 10000};
    return one_in(g, 3) ? between(g, 1, 10000) : PICK(g, cells);
}

/* A frame whose grid is within the real range, often at its ends. */
static frame inner_frame(rng *g) {
    const int64_t cell = some_cell(g), side = GRID * cell;
    frame f = {between(g, REAL_LOW, REAL_HIGH - side), between(g, REAL_LOW + side, REAL_HIGH), cell};
    if (one_in(g, 3)) f.x = one_in(g, 2) ? REAL_LOW : REAL_HIGH - side;
    if (one_in(g, 3)) f.y = one_in(g, 2) ? REAL_LOW + side : REAL_HIGH;
    return f;
}

/* How far from the corner a vertex lies, in x or y: in half cells, which an even cell has centres on, in whole cells, or near, so
   that edges go through centres or pass them by little. */
static int64_t some_way(rng *g, int64_t cell) {
    switch (below(g, 6)) {
    case 0: return between(g, -2, 2 * GRID + 2) * cell / 2;
    case 1: return between(g, -2, 2 * GRID + 2) * cell / 2 + between(g, -1, 1);
    case 2: return between(g, -cell, GRID * cell + cell);
    default: return between(g, -1, GRID + 1) * cell;
    }
}

/* A ring of m vertices and the first again, about a frame. */
static void add_framed_ring(rng *g, tables *t, size_t m, const frame *f) {
    const int64_t cell = f->cell;
    at *v = grown(NULL, m, sizeof *v);
    const at a = {some_way(g, cell), some_way(g, cell)}, b = {some_way(g, cell), some_way(g, cell)};
    switch (below(g, 8)) {
    case 0: /* an upright box; the other vertices stand on its last corner */
    case 1:
        for (size_t i = 0; i < m; i++) v[i] = (at){i == 1 || i == 2 ? b.x : a.x, i == 0 || i == 1 ? a.y : b.y};
        break;
    case 2: /* corners of cells alone, or centres alone: slopes of whole cells, so edges go through many centres */
    case 3: {
        const int64_t half = one_in(g, 2) ? cell / 2 : 0;
        for (size_t i = 0; i < m; i++) v[i] = (at){between(g, -1, GRID) * cell + half, between(g, -1, GRID) * cell + half};
        break;
    }
    case 4: /* simple, about the grid's middle */
        two_chains(g, v, m, GRID * cell, GRID * cell / 2);
        for (size_t i = 0; i < m; i++) v[i].y += GRID * cell / 2;
        break;
    case 5: { /* far wider than the grid; begun at its first vertex it goes just to the reach, or one past it */
        static const int64_t ways[] = {1000000, REACH / 2, REACH / 2, REACH, REACH + 1};
        const int64_t way = PICK(g, ways);
        for (size_t i = 0; i < m; i++) {
            v[i] = a;
            if (i > 0) v[i].x += one_in(g, 2) ? way * between(g, -1, 1) : between(g, -way, way);
            if (i > 0) v[i].y += one_in(g, 2) ? way * between(g, -1, 1) : between(g, -way, way);
        }
        break;
    }
    default:
        for (size_t i = 0; i < m; i++) v[i] = (at){some_way(g, cell), some_way(g, cell)};
        break;
    }
    const size_t first = one_in(g, 2) ? 0 : below(g, m);
    const bool back = one_in(g, 2);
    for (size_t i = 0; i <= m; i++) {
        const size_t k = (first + i) % m;
        const at p = v[back ? (m - k) % m : k];
        add_point(t, f->x + p.x, f->y - p.y);
    }
    free(v);
}

/* The last n points again, as an island that takes all of that ring away. */
static void add_same_ring(tables *t, size_t n) {
    const size_t first = t->points_len - 2 * n;
    for (size_t i = 0; i < n; i++) add_point(t, t->points[first + 2 * i], t->points[first + 2 * i + 1]);
}

static void add_framed_border(rng *g, tables *t, size_class size, const frame *f) {
    int64_t row[WIDTH];
    begin_border(g, t, row, (at){f->x, f->y});
    size_t n = size == LONG ? 1000 + below(g, 9000) : size == MIDDLE ? 4 + below(g, 60) : 4 + below(g, 6);
    row[VERTICES] = (int64_t)n;
    add_framed_ring(g, t, n - 1, f);
    for (uint64_t islands = one_in(g, 3) ? 0 : size == SHORT ? 1 + below(g, 3) : below(g, 9); islands > 0; islands--) {
        const bool same = one_in(g, 12);
        if (!same) n = 4 + below(g, size == SHORT ? 4 : 20);
        if (row[VERTICES] + (int64_t)n > 9999) break;
        if (same) add_same_ring(t, n);
        else add_framed_ring(g, t, n - 1, f);
        add_island(t, n);
        row[ISLANDS]++;
        row[VERTICES] += (int64_t)n;
    }
    add_row(t, row);
}

void make_masked(rng *g, size_class size, tables *t, frame *f) {
    empty_sheet(g, t);
    *f = inner_frame(g);
    if (one_in(g, 4)) add_element(g, t, SHORT, (at){f->x, f->y});
    add_framed_border(g, t, size, f);
    if (one_in(g, 4)) add_framed_border(g, t, SHORT, f);
}

/* Some vertex of a sheet; the sheet may be damaged. */
static at some_vertex(rng *g, const tables *t) {
    if (t->points_len < 2) return (at){0, 0};
    const size_t i = below(g, t->points_len / 2);
    return (at){in_range(t->points[2 * i]), in_range(t->points[2 * i + 1])};
}

frame make_frame(rng *g, const tables *t) {
    frame f = inner_frame(g);
    if (one_in(g, 12)) return f;
    const at p = some_vertex(g, t);
    f.x = p.x - some_way(g, f.cell);
    f.y = p.y + some_way(g, f.cell);
    return f;
}

void damage_frame(rng *g, const tables *t, frame *f) {
    static const int64_t cells[] = {0, -1, 10001, -10000, 65536 + 5, 4294967296LL + 5, INT64_MIN, INT64_MAX, INT64_MIN + 5};
    const int64_t step = one_in(g, 2) ? 1 : -1, far = 40000000 + between(g, -1, 1);
    at end = some_vertex(g, t); /* the one that is furthest on that side of the corner */
    for (size_t i = 0; i + 1 < t->points_len; i += 2) {
        const at p = {in_range(t->points[i]), in_range(t->points[i + 1])};
        if (step * p.x > step * end.x) end.x = p.x;
        if (step * p.y > step * end.y) end.y = p.y;
    }
    switch (below(g, 8)) {
    case 0: f->cell = one_in(g, 3) ? edge_number(g) : PICK(g, cells); break;
    case 1:
    case 2: f->x = end.x - step * far; break;
    case 3:
    case 4: f->y = end.y - step * far; break;
    case 5: /* an end of the grid that was at one of the real range may be past it */
        f->x = in_range(f->x) + step;
        f->y = in_range(f->y) + (one_in(g, 2) ? 0 : step);
        break;
    case 6: f->x = edge_number(g); break;
    default: f->y = edge_number(g); break;
    }
}

/* ---- Sheets that are moved ---- */

#define MOVE_MOST (REAL_HIGH - REAL_LOW)

pair make_pair(rng *g) {
    static const int64_t ways[] = {0, 0, 1, -1, 1000, MOVE_MOST, -MOVE_MOST, MOVE_MOST + 1, -MOVE_MOST - 1, MOVE_MOST - 1, REAL_HIGH, REAL_LOW};
    int64_t by[2];
    for (int i = 0; i < 2; i++) by[i] = one_in(g, 3) ? between(g, -1000000, 1000000) : one_in(g, 6) ? edge_number(g) : PICK(g, ways);
    return (pair){by[0], by[1]};
}

/* The coordinates of a sheet that a move takes along, those of x or those of y; how many. */
static size_t coordinates(tables *t, int axis, int64_t **out) {
    size_t n = 0;
    for (int64_t *row = t->rows; row < t->rows + t->rows_len; row += WIDTH) {
        if (row[KIND] < LINEA) out[n++] = row + X + axis;
        if (row[KIND] == BORDO || row[KIND] == FIDUCIALE) out[n++] = row + SECOND_X + axis;
    }
    for (size_t i = 0; i < t->points_len; i += 2) out[n++] = t->points + i + axis;
    return n;
}

/* All are brought near each other, but for one, and those that are equal to it, which is further off than the rest: as equal ones stay
   equal, rings stay closed. The way that takes it to an end of the real range, one less, or one past it. */
static int64_t way_to_the_end(rng *g, tables *t, int axis) {
    int64_t **all = grown(NULL, 2 * t->rows_len / WIDTH + t->points_len / 2 + 1, sizeof *all);
    const size_t n = coordinates(t, axis, all);
    const bool whole_range = one_in(g, 6); /* all in one place, from one end of the range to the other */
    const int64_t up = one_in(g, 2) ? 1 : -1, base = between(g, REAL_LOW + 9000, one_in(g, 2) ? -9000 : REAL_HIGH - 9000);
    const int64_t far = whole_range ? (up > 0 ? REAL_LOW : REAL_HIGH) : base + 5000 * up, last = n == 0 ? 0 : *all[below(g, n)];
    for (size_t i = 0; i < n; i++) *all[i] = whole_range || *all[i] == last ? far : base + *all[i] % 1000;
    free(all);
    return (up > 0 ? REAL_HIGH : REAL_LOW) - far + up * between(g, -1, 1);
}

void make_moved(rng *g, size_class size, tables *t, pair *by) {
    make_sheet(g, size, t);
    *by = make_pair(g);
    if (one_in(g, 2)) by->x = way_to_the_end(g, t, 0);
    if (by->x == 0 || one_in(g, 2)) by->y = way_to_the_end(g, t, 1);
}

void lengthen(rng *g, tables *t) {
#define LENGTHEN(table, value)                                                                                       \
    if (!one_in(g, 3)) {                                                                                             \
        ROOM(t, table, BEYOND);                                                                                      \
        for (size_t n = 1 + below(g, BEYOND - 1); n > 0; n--) t->table[t->table##_len++] = (value);                  \
    }
    LENGTHEN(rows, edge_number(g))
    LENGTHEN(letters, (uint8_t)any(g))
    LENGTHEN(islands, (uint16_t)any(g))
    LENGTHEN(points, edge_number(g))
#undef LENGTHEN
}

/* ---- Sheets of lines ---- */

static void add_line(rng *g, tables *t, size_t n, at origin) {
    int64_t row[WIDTH] = {0};
    row[KIND] = LINEA;
    row[OUTSIDE] = one_in(g, 2) ? 1 : 0;
    row[CODE] = one_in(g, 3) ? other_code(g) : listed_code(g, LINEA);
    row[VERTICES] = (int64_t)n;
    for (size_t i = 0; i < n; i++) add_point(t, some_real(g, origin.x), some_real(g, origin.y));
    add_row(t, row);
}

void make_lines(rng *g, size_class size, tables *t) {
    static const size_t lengths[] = {2, 3, 999, 1000, 1001, 1002, 1999, 2000, 2001, 3000, 9000, 9998, 9999};
    empty_sheet(g, t);
    const at origin = some_origin(g);
    for (size_t i = below(g, 6); i > 0; i--) {
        if (one_in(g, 3)) add_element(g, t, SHORT, origin);
        add_line(g, t, size == LONG ? PICK(g, lengths) : 2 + below(g, size == SHORT ? 4 : 40), origin);
    }
}

/* The bytes of an element of n vertices, its coordinates apart: tags, attributes, commas and what parts the pairs. */
static size_t bare_element(const int64_t *row) {
    char text[32];
    const size_t n = (size_t)row[VERTICES], coords = (n + 999) / 1000;
    return strlen("<LINEA valenza=\"CONSOLID\" esterconf=\"NO\" cod=\"\" n.vert=\"\"></LINEA>\n") +
           (size_t)snprintf(text, sizeof text, "%lld%lld", (long long)row[CODE], (long long)row[VERTICES]) + coords * strlen("<COORD></COORD>") +
           n + (n - coords);
}

/* A line of 2 vertices whose element has so many bytes, 5 to 12 for each coordinate. */
static void add_exact_line(tables *t, const int64_t row[WIDTH], size_t length) {
    size_t left = length - bare_element(row);
    int64_t xy[4];
    for (size_t i = 0; i < 4; i++) {
        const size_t rest = 5 * (3 - i), size = left - rest > 12 ? 12 : left - rest;
        xy[i] = 1000; /* 1.000 has 5 bytes */
        for (size_t k = 5; k < size; k++) xy[i] *= 10;
        left -= size;
    }
    add_point(t, xy[0], xy[1]);
    add_point(t, xy[2], xy[3]);
    add_row(t, row);
}

void make_full_lines(rng *g, size_t length, tables *t) {
    empty_sheet(g, t);
    int64_t row[WIDTH] = {0};
    row[KIND] = LINEA;
    size_t left = length;
    while (left > 3000) { /* coordinates of 5 bytes, 0.000 to 9.999 */
        row[CODE] = listed_code(g, LINEA);
        row[OUTSIDE] = one_in(g, 2) ? 1 : 0;
        size_t n = one_in(g, 2) ? 9999 : 2 + below(g, 3000);
        if (12 * n + 200 > left - 1500) n = 2 + (left - 1500) / 24;
        row[VERTICES] = (int64_t)n;
        for (size_t i = 0; i < n; i++) add_point(t, between(g, 0, 9999), between(g, 0, 9999));
        add_row(t, row);
        left -= bare_element(row) + 10 * n;
    }
    row[CODE] = 1;
    row[VERTICES] = 2;
    const size_t least = bare_element(row) + 20;
    for (size_t lines = left / least; lines > 0; lines--) {
        const size_t part = lines == 1 ? left : left - least * (lines - 1) > least + 28 ? least + 28 : left - least * (lines - 1);
        add_exact_line(t, row, part);
        left -= part;
    }
}

bool alter_line(rng *g, tables *t) {
    const size_t rows = t->rows_len / WIDTH, start = below(g, rows + 1);
    for (size_t i = 0; i < rows; i++) {
        const size_t which = (start + i) % rows;
        int64_t *row = t->rows + WIDTH * which;
        if (row[KIND] != LINEA) continue;
        size_t first = 0;
        for (size_t k = 0; k < which; k++) first += (size_t)t->rows[WIDTH * k + VERTICES];
        int64_t *n = t->points + 2 * first + below(g, 2 * (uint64_t)row[VERTICES]);
        if (one_in(g, 3)) row[OUTSIDE] = 1 - row[OUTSIDE];
        else if (one_in(g, 2)) row[CODE] = row[CODE] == 0 ? 1 : one_in(g, 2) ? row[CODE] - 1 : row[CODE] / 10;
        else if (*n == 0) *n = one_in(g, 2) ? 1 : -1;
        else *n = one_in(g, 2) && -*n >= REAL_LOW ? -*n : *n > 0 ? *n - 1 : *n + 1;
        return true;
    }
    return false;
}

void alter_sheet(rng *g, tables *t) {
    const size_t rows = t->rows_len / WIDTH;
    int64_t *row = rows == 0 ? NULL : t->rows + WIDTH * below(g, rows);
    const int64_t step = one_in(g, 2) ? 1 : -1;
    switch (rows == 0 ? 0 : below(g, 8)) {
    case 0: t->scale += step; break;
    case 1: t->name[below(g, 11)] = (uint8_t)('0' + below(g, 10)); break;
    case 2: row[OUTSIDE] = 1 - row[OUTSIDE]; break;
    case 3:
        if (has_code(row[KIND])) row[CODE] = listed_code(g, row[KIND]);
        break;
    case 4: row[CODE + 1 + below(g, 6)] += step; break; /* size, angle, places */
    case 5:
        if (t->letters_len > 0) t->letters[below(g, t->letters_len)] = (uint8_t)('A' + below(g, 26));
        break;
    default:
        if (t->points_len > 0) t->points[below(g, t->points_len)] += step;
        break;
    }
}

/* ---- Sheets damaged ---- */

static void stretch(rng *g, size_t *len, size_t room) {
    const size_t by[] = {1, 2, 11, 12};
    if (one_in(g, 3)) {
        const size_t more = 1 + below(g, BEYOND);
        *len = *len + more <= room ? *len + more : room;
    } else if (one_in(g, 12)) {
        *len = 0;
    } else {
        const size_t less = PICK(g, by);
        *len = *len >= less ? *len - less : 0;
    }
}

static void damage_header(rng *g, tables *t) {
    static const uint8_t in_names[] = {'A', 'Z', '@', '[', 'a', '0', '9', '/', ':', '_', ' ', 'Q', 'U', 0, 255};
    switch (below(g, 4)) {
    case 0: /* also kinds that are good in their low bits alone */
        t->kind = one_in(g, 4) ? t->kind | 1ull << between(g, 8, 63) : one_in(g, 3) ? any(g) : one_in(g, 2) ? 1 + below(g, 3) : one_in(g, 2) ? 0 : 4;
        break;
    case 1: t->name[below(g, 11)] = PICK(g, in_names); break;
    case 2: t->name_len = one_in(g, 3) ? 0 : one_in(g, 2) ? 10 : 12; break;
    default: t->scale = one_in(g, 2) ? edge_number(g) : one_in(g, 2) ? 0 : REAL_HIGH + 1; break;
    }
}

/* The starts that the counts give, so that a count that is off is all that is wrong. Counts may be anything: no overflow. */
static void mend_starts(tables *t) {
    uint64_t letters = 0, islands = 0, points = 0;
    for (int64_t *n = t->rows; n + WIDTH <= t->rows + t->rows_len; n += WIDTH) {
        n[FIRST_LETTER] = (int64_t)letters, n[FIRST_ISLAND] = (int64_t)islands, n[FIRST_POINT] = (int64_t)points;
        letters += (uint64_t)n[LETTERS], islands += (uint64_t)n[ISLANDS], points += (uint64_t)n[VERTICES];
    }
}

/* A start off by one or by little, below zero, at the ends of i64, good in its low bits alone, or where the next row's is. */
static void false_start(rng *g, tables *t) {
    static const int64_t ends[] = {INT64_MIN, INT64_MIN + 1, INT64_MAX, INT64_MAX - 1, -1, 0};
    if (t->rows_len < WIDTH) return;
    const size_t place = (size_t)between(g, FIRST_LETTER, FIRST_POINT);
    int64_t *n = t->rows + WIDTH * below(g, t->rows_len / WIDTH);
    switch (below(g, 6)) {
    case 0: n[place] += 1; break;
    case 1: n[place] -= 1; break;
    case 2: n[place] = PICK(g, ends); break;
    case 3: n[place] = (int64_t)((uint64_t)n[place] ^ 1ull << between(g, 8, 63)); break;
    case 4: n[place] += n[place - 3]; break;
    default: n[place] = n[(size_t)between(g, FIRST_LETTER, FIRST_POINT)]; break;
    }
}

void damage_sheet(rng *g, tables *t) {
    static const uint8_t in_letters[] = {' ', ' ', ' ', 31, 127, 126, 0, 255, '+', '(', ')', 'S', 'A', 10, 13};
    static const uint16_t in_islands[] = {0, 3, 4, 5, 9995, 9999, 10000, 65535, 65532};
    /* What stands past the used part is never to matter: garbage, made new each time. */
    for (size_t i = t->rows_len; i < t->rows_len + BEYOND && i < t->rows_room; i++) t->rows[i] = edge_number(g);
    for (size_t i = t->letters_len; i < t->letters_len + BEYOND && i < t->letters_room; i++) t->letters[i] = (uint8_t)any(g);
    for (size_t i = t->islands_len; i < t->islands_len + BEYOND && i < t->islands_room; i++) t->islands[i] = (uint16_t)any(g);
    for (size_t i = t->points_len; i < t->points_len + BEYOND && i < t->points_room; i++) t->points[i] = edge_number(g);
    bool mended = !one_in(g, 4);
    if (one_in(g, 8)) {
        false_start(g, t);
        return;
    }
    switch (below(g, 12)) {
    case 0: damage_header(g, t); break;
    case 1:
        t->count = one_in(g, 3) ? t->count + 1 : one_in(g, 3) ? (one_in(g, 2) ? any(g) : t->count | 1ull << between(g, 32, 63)) : one_in(g, 3) && t->count > 0 ? t->count - 1 : below(g, t->count + 3);
        break;
    case 2:
    case 3: /* any number of any row */
        if (t->rows_len > 0) {
            int64_t *n = t->rows + below(g, t->rows_len);
            /* also numbers that are good in their low bits alone */
            *n = one_in(g, 4) ? (int64_t)((uint64_t)*n ^ 1ull << between(g, 8, 63)) : edge_number(g);
            if ((size_t)(n - t->rows) % WIDTH >= FIRST_LETTER) mended = false;
        }
        break;
    case 4: /* a count, a kind, an outside mark, a code or a size off by little */
        if (t->count > 0 && t->rows_len >= WIDTH) {
            static const size_t places[] = {KIND, OUTSIDE, CODE, SIZE, LETTERS, ISLANDS, VERTICES, ISLANDS, VERTICES};
            int64_t *n = t->rows + WIDTH * below(g, t->rows_len / WIDTH) + PICK(g, places);
            *n = one_in(g, 2) ? *n + 1 : *n - 1;
        }
        break;
    case 5: /* a letter: at an end of some row's letters every other time */
        if (t->letters_len > 0) {
            size_t i = below(g, t->letters_len);
            if (one_in(g, 2) && t->rows_len >= WIDTH) {
                const size_t row = below(g, t->rows_len / WIDTH);
                size_t first = 0;
                for (size_t k = 0; k < row; k++) first += (size_t)t->rows[WIDTH * k + LETTERS];
                const size_t n = (size_t)t->rows[WIDTH * row + LETTERS];
                if (n > 0 && first < t->letters_len && n <= t->letters_len - first) i = one_in(g, 2) ? first : first + n - 1;
            }
            t->letters[i] = PICK(g, in_letters);
        }
        break;
    case 6: /* an island's count */
        if (t->islands_len > 0) {
            uint16_t *n = t->islands + below(g, t->islands_len);
            *n = one_in(g, 3) ? PICK(g, in_islands) : one_in(g, 2) ? (uint16_t)(*n + 1) : (uint16_t)(*n - 1);
        }
        break;
    case 7: /* a coordinate: a ring opened, or out of range */
        if (t->points_len > 0) {
            int64_t *n = t->points + below(g, t->points_len);
            *n = one_in(g, 2) ? edge_number(g) : one_in(g, 2) ? *n + 1 : *n - 1;
        }
        break;
    case 8: stretch(g, &t->rows_len, t->rows_room); break;
    case 9: stretch(g, &t->letters_len, t->letters_room); break;
    case 10: stretch(g, &t->islands_len, t->islands_room); break;
    default: stretch(g, &t->points_len, t->points_room); break;
    }
    if (mended) mend_starts(t);
    if (one_in(g, 3) && t->count > 0 && t->rows_len >= WIDTH) /* a code that is well made but unlisted */
        for (size_t k = 0; k < t->rows_len / WIDTH; k++)
            if (has_code(t->rows[WIDTH * k + KIND]) && one_in(g, 4)) t->rows[WIDTH * k + CODE] = other_code(g);
}

/* ---- Files ---- */

/* What a record is for. RAW is given as text; the others are text or a number that is dressed when it is written. */
typedef enum {
    FIRST, NAME, SCALE, KEYWORD, TEXT, SIZE_OF, CODE_OF, ISLANDS_OF, VERTICES_OF, ISLAND, REAL, VERTEX, LAST_X, LAST_Y, END, RAW, ROLES
} role;

typedef enum { CRLF, LF, NOTHING, CR, CR_CR_LF, LF_CR, CR_BLANK_LF } ending;

typedef struct {
    role what;
    bool loose;
    ending end;
    size_t text, length; /* in the pool */
    int64_t value;
} piece;

/* The file being made. Kept from one to the next, so that nothing is allocated for most. */
static piece *pieces;
static size_t piece_count, piece_room;
static bytes pool;

static piece *insert_piece(size_t where, piece p) {
    if (piece_count == piece_room) {
        piece_room = piece_room < 64 ? 64 : 2 * piece_room;
        pieces = grown(pieces, piece_room, sizeof *pieces);
    }
    memmove(pieces + where + 1, pieces + where, (piece_count - where) * sizeof *pieces);
    pieces[where] = p;
    piece_count++;
    return pieces + where;
}

static void add_word(role what, const void *text, size_t n) {
    insert_piece(piece_count, (piece){what, false, CRLF, pool.len, n, 0});
    add_bytes(&pool, text, n);
}

static void add_value(role what, int64_t value) { insert_piece(piece_count, (piece){what, false, CRLF, 0, 0, value}); }

static void set_text(piece *p, role what, const void *text, size_t n) {
    p->what = what;
    p->text = pool.len;
    p->length = n;
    add_bytes(&pool, text, n);
}

static bool is_integer(role what) { return what >= SIZE_OF && what <= ISLAND; }
static bool is_real(role what) { return what == SCALE || (what >= REAL && what <= LAST_Y); }

static void sheet_pieces(const tables *t) {
    static const char *const firsts[] = {"", "MAPPA", "MAPPA FONDIARIO", "QUADRO D'UNIONE"};
    static const char *const words[] = {"", "BORDO", "TESTO", "SIMBOLO", "FIDUCIALE", "LINEA", "RIFERIMENTO_RASTER", "LIBRETTO"};
    size_t letters = 0, islands = 0, points = 0;
    piece_count = 0;
    pool.len = 0;
    add_word(FIRST, firsts[t->kind], strlen(firsts[t->kind]));
    add_word(NAME, t->name, 11);
    add_value(SCALE, t->scale);
    for (uint64_t r = 0; r < t->count; r++) {
        const int64_t *n = t->rows + WIDTH * r;
        add_word(KEYWORD, words[n[KIND]], strlen(words[n[KIND]]));
        if (n[OUTSIDE] == 1) {
            add_byte(&pool, '\\');
            pieces[piece_count - 1].length++;
        }
        if (n[KIND] != SIMBOLO && n[KIND] != LINEA) add_word(TEXT, t->letters + letters, (size_t)n[LETTERS]);
        letters += (size_t)n[LETTERS];
        if (n[KIND] == BORDO || n[KIND] == TESTO) add_value(SIZE_OF, n[SIZE]);
        if (has_code(n[KIND])) add_value(CODE_OF, n[CODE]);
        if (n[KIND] <= SIMBOLO) add_value(REAL, n[ANGLE]);
        if (n[KIND] < LINEA) add_value(REAL, n[X]), add_value(REAL, n[Y]);
        if (n[KIND] == BORDO || n[KIND] == FIDUCIALE) add_value(REAL, n[SECOND_X]), add_value(REAL, n[SECOND_Y]);
        if (n[KIND] == BORDO) add_value(ISLANDS_OF, n[ISLANDS]);
        if (n[KIND] == BORDO || n[KIND] == LINEA || n[KIND] == LIBRETTO) add_value(VERTICES_OF, n[VERTICES]);
        size_t outer = (size_t)n[VERTICES];
        for (int64_t i = 0; i < n[ISLANDS]; i++) {
            add_value(ISLAND, t->islands[islands + (size_t)i]);
            outer -= t->islands[islands + (size_t)i];
        }
        for (int64_t ring = 0; ring <= n[ISLANDS]; ring++) {
            const size_t v = ring == 0 ? outer : t->islands[islands + (size_t)ring - 1];
            for (size_t i = 0; i < v; i++) {
                const bool last = n[KIND] == BORDO && i + 1 == v;
                add_value(last ? LAST_X : VERTEX, t->points[2 * points]);
                add_value(last ? LAST_Y : VERTEX, t->points[2 * points + 1]);
                points++;
            }
        }
        islands += (size_t)n[ISLANDS];
    }
    add_word(END, "EOF", 3);
}

static void blanks(rng *g, bytes *out, size_t most) {
    for (size_t n = below(g, most + 1); n > 0; n--) add_byte(out, ' ');
}

/* Whether numbers may have notes behind them, and whether one has. */
static bool notes, noted;

/* Behind a number that began at `from`: blanks, up to the 255 of a record, or a note. */
static void tail(rng *g, bytes *out, size_t from) {
    static const char *const tails[] = {
        " ", "  ", " numero di isole", "          numero totale di vertici", " 7", " -1.000", " \\", "     ", " EOF", " x",
    };
    if (one_in(g, 60))
        while (out->len - from < 255) add_byte(out, ' ');
    if (out->len - from > 200 || !one_in(g, 3)) return;
    if (!notes) {
        blanks(g, out, 3);
        return;
    }
    const char *text = PICK(g, tails);
    if (strspn(text, " ") < strlen(text)) noted = true;
    add_text(out, text);
}

static void integer_text(rng *g, int64_t value, bool loose, bytes *out) {
    char text[40];
    const size_t from = out->len;
    if (!loose) {
        snprintf(text, sizeof text, "%4lld", (long long)value);
        add_text(out, text);
        return;
    }
    blanks(g, out, one_in(g, 2) ? 0 : 6);
    snprintf(text, sizeof text, "%0*lld", (int)(one_in(g, 2) ? 1 : 1 + below(g, 4)), (long long)value);
    add_text(out, text);
    tail(g, out, from);
}

static void real_text(rng *g, int64_t value, bool loose, bytes *out) {
    char token[48], text[64], padded[80];
    const size_t from = out->len;
    const bool minus = value < 0 || (loose && value == 0 && one_in(g, 3));
    const uint64_t size = value < 0 ? 0 - (uint64_t)value : (uint64_t)value;
    int width = 1;
    if (loose && one_in(g, 4)) width = 1 + (int)below(g, minus ? 7 : 8);
    snprintf(token, sizeof token, "%0*llu.%03llu", width, (unsigned long long)(size / 1000), (unsigned long long)(size % 1000));
    const bool plus = loose && !minus && strlen(token) < 12 && one_in(g, 3);
    snprintf(text, sizeof text, "%s%s", minus ? "-" : plus ? "+" : "", token);
    if (!loose) {
        snprintf(padded, sizeof padded, "%12s", text);
        add_text(out, padded);
        return;
    }
    blanks(g, out, one_in(g, 2) ? 0 : 14);
    add_text(out, text);
    tail(g, out, from);
}

static void write_piece(rng *g, const piece *p, bytes *out) {
    if (is_integer(p->what)) {
        integer_text(g, p->value, p->loose, out);
    } else if (is_real(p->what)) {
        real_text(g, p->value, p->loose, out);
    } else {
        /* a record may be 255 long with its blanks and no longer */
        const size_t most = p->length <= 249 ? 3 : 0;
        if (p->loose && p->what != RAW) blanks(g, out, most);
        add_bytes(out, pool.at + p->text, p->length);
        if (p->loose && p->what != RAW) blanks(g, out, most);
    }
    switch (p->end) {
    case CRLF: add_text(out, "\r\n"); break;
    case LF: add_byte(out, '\n'); break;
    case NOTHING: break;
    case CR: add_byte(out, '\r'); break;
    case CR_CR_LF: add_text(out, "\r\r\n"); break;
    case LF_CR: add_text(out, "\n\r"); break;
    case CR_BLANK_LF: add_text(out, "\r \n"); break;
    }
}

/* Any record: first what it is for is drawn, then one of that use, so that the few header records, counts and codes are
   met as often as the many coordinates. */
static size_t some_piece(rng *g, unsigned roles) {
    const size_t start = below(g, piece_count);
    role what = (role)below(g, ROLES);
    while ((roles >> what & 1) == 0) what = (role)below(g, ROLES);
    for (size_t i = 0; i < piece_count; i++)
        if (pieces[(start + i) % piece_count].what == what) return (start + i) % piece_count;
    return start;
}

#define ALL_ROLES (~0u)

/* A record is made wrong, or only other, by one byte. */
static void scratch(rng *g, bytes *b, size_t from) {
    static const uint8_t likely[] = {' ', ' ', '0', '1', '9', '.', '-', '+', ',', 'x', '\\', '_', 'A', 'E', 0, 9, 10, 13, 31, 126, 127, 128, 255};
    const uint8_t byte = PICK(g, likely);
    const size_t n = b->len - from;
    if (n == 0) {
        add_byte(b, byte);
        return;
    }
    const size_t i = from + below(g, n);
    switch (below(g, 4)) {
    case 0: b->at[i] = byte; break;
    case 1: /* insert */
        add_byte(b, 0);
        memmove(b->at + i + 1, b->at + i, b->len - 1 - i);
        b->at[i] = byte;
        break;
    case 2: /* delete */
        memmove(b->at + i, b->at + i + 1, b->len - 1 - i);
        b->len--;
        break;
    default: b->at[i] ^= (uint8_t)(1u << below(g, 8)); break;
    }
}

static void damage_keyword(rng *g, piece *p) {
    static const char *const wrong[] = {
        "", " ", "BORDO\\", "BORDO ", " TESTO", "TESTO\\ ", "TESTO \\", "TESTO\\\\", "\\", "testo", "EOF\\", "EOF note", "EOF ", " EOF",
        "EOFF", "EO", "LIBRETTO", "RIFERIMENTO_RASTER", "BORD", "BORDOX", "LINEE", "SIMBOLO\\x", "FIDUCIALI", "TESTI\\", "EOF",
        "BORDO", "TESTO", "LINEA", "SIMBOLO\\", "FIDUCIALE", "MAPPA", "LINEA\\", "LIBRETTO\\", "RIFERIMENTO_RASTER\\", "RIFERIMENTO RASTER",
    };
    const char *text = PICK(g, wrong);
    set_text(p, KEYWORD, text, strlen(text));
}

static void damage_first(rng *g, piece *p) {
    static const char *const wrong[] = {
        "", "MAPPA ", " MAPPA", "MAPPA FONDIARIO", "MAPPA  FONDIARIO", "MAPPA FONDIARIO ", "QUADRO D'UNIONE", "QUADRO D UNIONE",
        "QUADRO", "mappa", "MAPP", "MAPPAX", "EOF", "MAPPA",
    };
    const char *text = PICK(g, wrong);
    set_text(p, FIRST, text, strlen(text));
}

static void damage_name(rng *g, piece *p) {
    static const uint8_t in_names[] = {'A', 'Z', '@', '[', 'a', '0', '9', '/', ':', '_', ' ', 'Q', 'U'};
    bytes b = {0};
    add_bytes(&b, pool.at + p->text, p->length);
    switch (below(g, 5)) {
    case 0: b.at[below(g, b.len)] = PICK(g, in_names); break;
    case 1: b.len -= 1; break;
    case 2: add_byte(&b, '0'); break;
    case 3: add_byte(&b, ' '); break;
    default:
        if (b.len == 11) b.at[9] = 'Q', b.at[10] = one_in(g, 2) ? 'U' : 'V';
        break;
    }
    set_text(p, NAME, b.at, b.len);
    free(b.at);
}

static void damage_letters(rng *g, piece *p) {
    bytes b = {0};
    switch (below(g, 7)) {
    case 0: break;
    case 1: blanks(g, &b, 5); break;
    case 2:
        add_byte(&b, ' ');
        add_bytes(&b, pool.at + p->text, p->length);
        break;
    case 3:
        add_bytes(&b, pool.at + p->text, p->length);
        add_byte(&b, ' ');
        break;
    case 4: /* 255 letters and a blank are 256 */
        for (size_t n = 254 + below(g, 4); n > 0; n--) add_byte(&b, 'x');
        if (one_in(g, 2)) b.at[one_in(g, 2) ? 0 : b.len - 1] = ' ';
        break;
    case 5:
        for (size_t n = below(g, 700); n > 0; n--) add_byte(&b, 'y');
        break;
    default:
        add_bytes(&b, pool.at + p->text, p->length);
        scratch(g, &b, 0);
        break;
    }
    set_text(p, TEXT, b.at, b.len);
    free(b.at);
}

/* A number's record as text, with one byte wrong, or too long. */
static void damage_number(rng *g, piece *p) {
    bytes b = {0};
    static const char *const near[] = {"      -0.000", "       0.000", "      +1.000", "      -1.000", "      01.000", "     -01.000", "      -0.001",
                                       "      00.000", "00000001.000", "-0000001.000", "       1.000 ", "        1.000", "      1.000"};
    static const char *const near_integers[] = {"   0", "  00", "0000", "  01", "0012", " 012", "  -0", "  +1", "  1 ", "1   ", "    1", "  1"};
    if (one_in(g, 5)) { /* nearly the exact form, or just it */
        const char *text = is_integer(p->what) ? PICK(g, near_integers) : PICK(g, near);
        add_text(&b, text);
    } else if (one_in(g, 8)) { /* the tail makes a long record */
        add_text(&b, is_integer(p->what) ? "12 " : "1.000 ");
        for (size_t n = 245 + below(g, 12); n > 0; n--) add_byte(&b, 't');
    } else if (one_in(g, 4)) {
        make_number(g, &b);
    } else {
        if (is_integer(p->what)) integer_text(g, p->value, one_in(g, 3), &b);
        else real_text(g, p->value, one_in(g, 3), &b);
        scratch(g, &b, 0);
    }
    set_text(p, RAW, b.at, b.len);
    free(b.at);
}

static void damage_value(rng *g, piece *p) {
    static const int64_t scales[] = {0, 0, -1, 1, -1000};
    if (p->what == SCALE) p->value = PICK(g, scales);
    else if (p->what == CODE_OF) p->value = other_code(g);
    else if (is_integer(p->what) && one_in(g, 4)) p->value = (int64_t)below(g, 9);
    else if (is_integer(p->what)) p->value = one_in(g, 4) ? (int64_t)below(g, 10001) : p->value + (one_in(g, 2) ? 1 : -1);
    else p->value = one_in(g, 3) ? some_real(g, 0) : p->value + (one_in(g, 2) ? 1 : -1);
}

/* One fault among the records; some leave the file good, and that too is worth comparing. */
static void damage_pieces(rng *g) {
    const unsigned counts = 1u << ISLANDS_OF | 1u << VERTICES_OF | 1u << ISLAND | 1u << CODE_OF;
    const unsigned numbers = counts | 1u << SCALE | 1u << SIZE_OF | 1u << REAL | 1u << VERTEX | 1u << LAST_X | 1u << LAST_Y;
    size_t i = some_piece(g, ALL_ROLES);
    switch (below(g, 16)) {
    case 0: /* dropped */
        memmove(pieces + i, pieces + i + 1, (piece_count - i - 1) * sizeof *pieces);
        piece_count--;
        break;
    case 1: insert_piece(i, pieces[i]); break; /* twice */
    case 2: /* two records exchanged */
        if (i + 1 < piece_count) {
            const piece p = pieces[i];
            pieces[i] = pieces[i + 1];
            pieces[i + 1] = p;
        }
        break;
    case 3:
    case 4:
        i = some_piece(g, counts);
        if (is_integer(pieces[i].what)) damage_value(g, pieces + i);
        break;
    case 5:
        i = some_piece(g, numbers);
        if (is_integer(pieces[i].what) || is_real(pieces[i].what)) damage_value(g, pieces + i);
        break;
    case 6: /* a ring is opened */
        i = some_piece(g, 1u << LAST_X | 1u << LAST_Y);
        if (is_real(pieces[i].what)) damage_value(g, pieces + i);
        break;
    case 7:
    case 8:
        i = some_piece(g, numbers);
        if (is_integer(pieces[i].what) || is_real(pieces[i].what)) damage_number(g, pieces + i);
        break;
    case 9:
        i = some_piece(g, 1u << TEXT);
        if (pieces[i].what == TEXT) damage_letters(g, pieces + i);
        break;
    case 10:
        i = some_piece(g, 1u << KEYWORD | 1u << END);
        if (pieces[i].what == KEYWORD || pieces[i].what == END) damage_keyword(g, pieces + i);
        break;
    case 11:
        i = some_piece(g, 1u << FIRST | 1u << NAME | 1u << SCALE);
        if (pieces[i].what == FIRST) damage_first(g, pieces + i);
        else if (pieces[i].what == NAME && pieces[i].length > 0) damage_name(g, pieces + i);
        else if (pieces[i].what == SCALE) damage_value(g, pieces + i);
        break;
    case 12:
    case 13: pieces[i].end = (ending)(1 + below(g, 6)); break;
    case 14: pieces[i].loose = !pieces[i].loose; break;
    default: { /* a bad byte */
        bytes b = {0};
        static const uint8_t bad[] = {0, 9, 13, 31, 127, 128, 255};
        if (is_integer(pieces[i].what)) integer_text(g, pieces[i].value, pieces[i].loose, &b);
        else if (is_real(pieces[i].what)) real_text(g, pieces[i].value, pieces[i].loose, &b);
        else add_bytes(&b, pool.at + pieces[i].text, pieces[i].length);
        if (one_in(g, 2) || b.len == 0) add_byte(&b, PICK(g, bad));
        else b.at[below(g, b.len)] = PICK(g, bad);
        if (one_in(g, 4)) /* of a record that is too long as well */
            while (b.len < 250 + below(g, 10)) add_byte(&b, 'z');
        set_text(pieces + i, RAW, b.at, b.len);
        free(b.at);
        break;
    }
    }
}

/* One fault among the bytes: changed, inserted, deleted, cut, a stretch twice or gone. */
static void damage_bytes(rng *g, bytes *b) {
    if (b->len == 0) return;
    switch (below(g, 6)) {
    case 0: b->len = below(g, b->len); break;
    case 1: b->len -= 1 + below(g, b->len < 8 ? b->len : 8); break;
    case 2: { /* a stretch is gone */
        const size_t i = below(g, b->len), n = 1 + below(g, 20);
        const size_t k = i + n <= b->len ? n : b->len - i;
        memmove(b->at + i, b->at + i + k, b->len - i - k);
        b->len -= k;
        break;
    }
    default: scratch(g, b, 0); break;
    }
}

int some_faults(rng *g) { return one_in(g, 2) ? 0 : one_in(g, 4) ? 2 + (int)below(g, 3) : 1; }

bool make_file(rng *g, const tables *t, int faults, bytes *out) {
    sheet_pieces(t);
    noted = false;
    notes = one_in(g, 3);
    const int style = (int)below(g, 12); /* 0 to 5: exact */
    for (size_t i = 0; i < piece_count; i++) {
        if (style == 6) pieces[i].loose = one_in(g, 8), pieces[i].end = one_in(g, 8) ? LF : CRLF;
        if (style == 7 || style == 8) pieces[i].loose = true, pieces[i].end = one_in(g, 2) ? LF : CRLF;
        if (style == 9) pieces[i].end = LF;
    }
    if (style > 9) { /* exact but for one record */
        const size_t i = some_piece(g, ALL_ROLES);
        if (one_in(g, 2)) pieces[i].loose = true;
        else pieces[i].end = LF;
    }
    int in_bytes = 0;
    for (int k = 0; k < faults; k++) {
        if (piece_count > 0 && !one_in(g, 4)) damage_pieces(g);
        else in_bytes++;
    }
    /* The loose EOF with no line end; not where it would be dressed, as then it is a cut record. */
    if (piece_count > 0 && one_in(g, 10) && (faults > 0 || !pieces[piece_count - 1].loose)) pieces[piece_count - 1].end = NOTHING;
    const bool closed = piece_count > 0 && pieces[piece_count - 1].end != NOTHING;
    out->len = 0;
    for (size_t i = 0; i < piece_count; i++) write_piece(g, pieces + i, out);
    if (one_in(g, 10) && (closed || faults > 0)) { /* something after EOF */
        static const char *const after[] = {"\n", "\r\n", "x", "EOF\r\n", "TESTO\r\n", "\x1a", " "};
        const char *text = PICK(g, after);
        if (one_in(g, 3)) make_records(g, out);
        else add_text(out, text);
    }
    for (int k = 0; k < in_bytes; k++) damage_bytes(g, out);
    return noted;
}

/* ---- Numbers and records ---- */

void make_number(rng *g, bytes *out) {
    static const uint8_t alphabet[] = "   0011299.+-x";
    notes = one_in(g, 2);
    const size_t from = out->len;
    int64_t value;
    if (one_in(g, 12)) { /* a sign before zeros, in a record of 11 to 13 characters */
        for (size_t n = 5 + below(g, 3); n > 0; n--) add_byte(out, ' ');
        add_text(out, one_in(g, 2) ? "-0.00" : one_in(g, 2) ? " 0.00" : "+0.00");
        add_byte(out, one_in(g, 2) ? '0' : digit(g));
        return;
    }
    switch (below(g, 8)) {
    case 0:
    case 1: integer_text(g, (int64_t)below(g, one_in(g, 2) ? 10 : 10002), one_in(g, 2), out); break;
    case 2:
    case 3:
    case 4:
        value = one_in(g, 2) ? some_real(g, 0) : one_in(g, 2) ? between(g, -12000, 12000) : between(g, REAL_LOW - 5, REAL_HIGH + 5);
        real_text(g, value, one_in(g, 2), out);
        break;
    case 5:
        for (size_t n = below(g, 16); n > 0; n--) add_byte(out, alphabet[below(g, sizeof alphabet - 1)]);
        return;
    case 6: /* zeros in front, a sign, and a token of 11 to 13 characters */
        if (one_in(g, 2)) add_byte(out, one_in(g, 2) ? '-' : '+');
        for (size_t n = 5 + below(g, 5); n > 0; n--) add_byte(out, one_in(g, 2) ? '0' : digit(g));
        add_byte(out, '.');
        for (size_t n = one_in(g, 8) ? below(g, 5) : 3; n > 0; n--) add_byte(out, one_in(g, 2) ? '0' : digit(g));
        break;
    default:
        for (size_t n = below(g, one_in(g, 10) ? 400 : 14); n > 0; n--) add_byte(out, ' ');
        if (one_in(g, 2)) add_byte(out, digit(g));
        if (one_in(g, 2)) add_text(out, ".000");
        for (size_t n = below(g, 6); n > 0; n--) add_byte(out, (uint8_t)any(g)); /* a tail of any bytes */
        break;
    }
    for (size_t n = one_in(g, 2) ? 0 : 1 + below(g, 2); n > 0; n--) scratch(g, out, from);
}

void make_records(rng *g, bytes *out) {
    static const char *const bits[] = {"\n", "\r\n", "\r", " ", "EOF", "EOF", "EOF\n", "EOF\r\n", "TESTO", "7", "~", "\x1f", "\x7f", "\x80", "\xff", "\t"};
    for (size_t n = below(g, 8); n > 0; n--) {
        if (one_in(g, 6)) {
            for (size_t k = 250 + below(g, 10); k > 0; k--) add_byte(out, one_in(g, 300) ? 7 : 'r');
        } else if (one_in(g, 12)) {
            add_byte(out, 0);
        } else {
            const char *text = PICK(g, bits);
            add_text(out, text);
        }
    }
}
