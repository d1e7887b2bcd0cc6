/* The reference: document 01's base, and T-01 to T-11 of document 02, in plain C, written from the papers for clarity, not for
   speed. It shares no line with the library. The sentences in comments are document 01's, or the interface paper's; those
   of the SUP file are T-01's, those of masks T-03's. */
#include "reference.h"

#include <stdbool.h>
#include <stdio.h>
#include <stdlib.h>
#include <string.h>

#define FILE_LIMIT 16777216u
#define RECORD_LIMIT 255u
#define INTEGER_MOST 9999
#define REAL_LEAST (-9999999999LL)
#define REAL_MOST 99999999999LL
#define RING_REACH 20000000LL
#define TALLY_MOST 9000000000000000000LL
#define TILE_MOST 16777215LL
#define LISTING_LIMIT 8192u
#define NAME_LENGTH 11u
#define SUP_LEFT 11u
#define SUP_RIGHT 10u
#define MASK_SIDE 64
#define CELL_MOST 10000
#define MASK_REACH 40000000LL
#define MOVE_MOST 109999999998LL
#define COORD_MOST 1000u

/* The refusal numbers, by the names of document 01's table. */
enum {
    TOO_LONG = 1, CUT = 2, LINE_END = 3, LENGTH = 4, BYTE = 5, HEADER = 6, NO_KEYWORD = 7, NO_NUMBER = 8,
    NO_LETTERS = 9, CODE = 10, COUNT = 11, OPEN_RING = 12, AFTER_EOF = 13, NO_ROOM = 14, NOT_MADE = 15,
    TOO_WIDE = 17, TOTAL = 18, MISSING = 19, OUTSIDE_FRAME = 20, BAD_DATE = 21, LONG_CODE = 22, WIDE_FIGURE = 23,
    MOVED_OFF = 24, WRONG_LINE = 25, BAD_CELL = 26
};

/* "Each element is a row of 12 numbers": their places; T-07's three behind them. */
enum {
    KIND, OUTSIDE, CODE_AT, SIZE, ANGLE, X, Y, SECOND_X, SECOND_Y, LETTERS, ISLANDS, VERTICES, FIRST_LETTER, FIRST_ISLAND, FIRST_POINT
};

/* "kind 1 to 5 in the table's order"; T-05: "kinds 6 and 7" */
enum { BORDO = 1, TESTO = 2, SIMBOLO = 3, FIDUCIALE = 4, LINEA = 5, RASTER = 6, LIBRETTO = 7 };

/* "MAPPA (kind 1), MAPPA FONDIARIO (2) or QUADRO D'UNIONE (3)" */
enum { MAPPA = 1, FONDIARIO = 2, QUADRO = 3 };

/* What a section of each kind has, from the table of sections and T-05. "All but BORDO may carry a final `\`", and of the raster
   kinds "neither takes a final backslash". RASTER has vertices with no count of them: "its row says 4 vertices". */
static const struct { const char *word; bool outside, letters, code, size, angle, place, second, vertices; } SECTIONS[8] = {
    {"", false, false, false, false, false, false, false, false},
    {"BORDO", false, true, false, true, true, true, true, true},
    {"TESTO", true, true, false, true, true, true, false, false},
    {"SIMBOLO", true, false, true, false, true, true, false, false},
    {"FIDUCIALE", true, true, true, false, false, true, true, false},
    {"LINEA", true, false, true, false, false, false, false, true},
    {"RIFERIMENTO_RASTER", false, true, false, false, false, false, false, true},
    {"LIBRETTO", false, true, true, false, false, false, false, true},
};
#define RASTER_POINTS 4

/* Where a row's own parts begin in the three further tables: "in element order, with no gaps". */
typedef struct { size_t letters, islands, points; } spot;

/* T-07: "Let each row store where its letters, islands and points begin, or would begin if it has none" */
static void put_starts(int64_t *n, spot at) {
    n[FIRST_LETTER] = (int64_t)at.letters;
    n[FIRST_ISLAND] = (int64_t)at.islands;
    n[FIRST_POINT] = (int64_t)at.points;
}

static bool starts_true(const int64_t *n, spot at) {
    return n[FIRST_LETTER] == (int64_t)at.letters && n[FIRST_ISLAND] == (int64_t)at.islands && n[FIRST_POINT] == (int64_t)at.points;
}

static bool is_digit(uint8_t b) { return b >= '0' && b <= '9'; }
static bool is_capital(uint8_t b) { return b >= 'A' && b <= 'Z'; }

enum { LOOSE = 0, EXACT = 1, FORMER = 2 };

static bool is_exact(uint64_t mode) { return mode != LOOSE && mode != FORMER; }

/* ---- Records ---- */

/* "A record runs to the next LF. A CR directly before that LF belongs to the line end; exact mode demands it."
   The record begins at `at`: a CR before that is another record's. */
cxf_record ref_record_at(const uint8_t *src, size_t src_len, uint64_t at, uint64_t mode, uint64_t keyword_due) {
    cxf_record answer = {0, 0, 0, 0};
    if (src_len > FILE_LIMIT) { /* "for a file that is too long, always 1" */
        answer.number = TOO_LONG;
        return answer;
    }
    if (at >= src_len) { /* "At or past the end of the file it answers 2" */
        answer.number = CUT;
        return answer;
    }
    const size_t start = (size_t)at;
    size_t lf = start;
    while (lf < src_len && src[lf] != 10) lf++;
    if (lf == src_len) {
        /* "where a keyword is due and the bytes left are exactly `EOF`, that is the EOF record", in loose mode */
        if (!is_exact(mode) && keyword_due != 0 && src_len - start == 3 && memcmp(src + start, "EOF", 3) == 0) {
            answer.start = start;
            answer.length = 3;
            answer.next = src_len;
        } else {
            answer.number = CUT;
        }
        return answer;
    }
    size_t end = lf;
    if (lf > start && src[lf - 1] == 13) {
        end = lf - 1;
    } else if (is_exact(mode)) {
        answer.number = LINE_END;
        return answer;
    }
    if (end - start > RECORD_LIMIT) {
        answer.number = LENGTH;
        return answer;
    }
    for (size_t i = start; i < end; i++) {
        if (src[i] < 32 || src[i] > 126) {
            answer.number = BYTE;
            return answer;
        }
    }
    answer.start = start;
    answer.length = end - start;
    answer.next = lf + 1;
    return answer;
}

/* ---- Numbers ---- */

/* What stands behind a number, exact mode apart. The former reading: "then the end, or a blank and any tail"; T-09: "Loose mode now
   permits only blanks after a number." */
static bool good_tail(const uint8_t *tail, size_t n, uint64_t mode) {
    if (mode == FORMER) return n == 0 || tail[0] == ' ';
    for (size_t i = 0; i < n; i++)
        if (tail[i] != ' ') return false;
    return true;
}

/* "Exact: 4 characters, right aligned with blanks, no zero in front except for 0 itself. Loose: any blanks, 1 to 4
   digits, then the end, or a blank and any tail" */
static cxf_number integer_of(const uint8_t *content, size_t content_len, uint64_t mode) {
    const cxf_number refused = {NO_NUMBER, 0, 0};
    size_t i = 0;
    while (i < content_len && content[i] == ' ') i++;
    const size_t first = i;
    int64_t value = 0;
    while (i < content_len && is_digit(content[i])) {
        if (i - first == 4) return refused;
        value = 10 * value + (content[i] - '0');
        i++;
    }
    if (i == first) return refused;
    if (is_exact(mode)) {
        if (content_len != 4 || i != content_len) return refused;
        if (i - first > 1 && content[first] == '0') return refused;
    } else if (!good_tail(content + i, content_len - i, mode)) {
        return refused;
    }
    return (cxf_number){0, 0, value};
}

/* "Token: optional sign, 1 to 8 digits, a point, 3 digits, at most 12 characters altogether. Loose: blanks, token, end
   or blank and tail; `+` and a minus before zero are read. Exact: 12 characters, right aligned, no `+`, no minus
   zero, no needless zero in front." The range follows from the token's 12 characters. */
static cxf_number real_of(const uint8_t *content, size_t content_len, uint64_t mode) {
    const cxf_number refused = {NO_NUMBER, 0, 0};
    size_t i = 0;
    while (i < content_len && content[i] == ' ') i++;
    const size_t token = i;
    bool minus = false, plus = false;
    if (i < content_len && (content[i] == '-' || content[i] == '+')) {
        minus = content[i] == '-';
        plus = !minus;
        i++;
    }
    const size_t first = i;
    int64_t value = 0;
    while (i < content_len && is_digit(content[i])) {
        if (i - first == 8) return refused;
        value = 10 * value + (content[i] - '0');
        i++;
    }
    const size_t whole = i - first;
    if (whole == 0) return refused;
    if (i == content_len || content[i] != '.') return refused;
    i++;
    for (int k = 0; k < 3; k++) {
        if (i == content_len || !is_digit(content[i])) return refused;
        value = 10 * value + (content[i] - '0');
        i++;
    }
    if (i - token > 12) return refused;
    if (is_exact(mode)) {
        if (content_len != 12 || i != content_len) return refused;
        if (plus || (minus && value == 0)) return refused;
        if (whole > 1 && content[first] == '0') return refused;
    } else if (!good_tail(content + i, content_len - i, mode)) {
        return refused;
    }
    /* The sign is the token's, not the whole part's: -0.005 is -5. */
    return (cxf_number){0, 0, minus ? -value : value};
}

/* What may be wanting of an integer, and of a real, after some beginning of it. Loose mode needs the first lines alone; of exact
   mode's fixed length blanks or digits are wanting too. Behind a first digit zeros do for any digits; a last 1 keeps a minus
   from a zero. */
static const char *const INTEGER_ENDINGS[] = {"", "0", "00", "000", " 0", "  0", "   0", NULL};
static const char *const REAL_ENDINGS[] = {
    "", "1", "01", "001", ".001", "0.001",
    "00.001", "000.001", "0000.001", "00000.001", "000000.001", "0000000.001",                   /* digits behind the first */
    "10.001", "100.001", "1000.001", "10000.001", "100000.001", "1000000.001", "10000000.001",   /* with the first */
    " 0.001", "  0.001", "   0.001", "    0.001", "     0.001", "      0.001", "       0.001",   /* with blanks */
    NULL,
};
enum { ENDING_MOST = 12 };

typedef cxf_number (*number_form)(const uint8_t *, size_t, uint64_t);

/* Whether some accepted number begins with these n bytes. Behind them `text` has room for an ending. */
static bool begins_number(number_form form, const char *const *endings, uint8_t *text, size_t n, uint64_t mode) {
    for (; *endings != NULL; endings++) {
        memcpy(text + n, *endings, strlen(*endings));
        if (form(text, n + strlen(*endings), mode).number == 0) return true;
    }
    return false;
}

/* T-04: "the column, from 1, of the first byte that no accepted number could have there after the same beginning in that mode,
   record length apart, or one past the end if it only stops early". */
static uint64_t column_of(number_form form, const char *const *endings, const uint8_t *content, size_t content_len, uint64_t mode) {
    uint8_t *text = malloc(content_len + ENDING_MOST);
    if (text == NULL) exit(2);
    size_t n = 0;
    for (; n < content_len; n++) {
        text[n] = content[n];
        if (!begins_number(form, endings, text, n + 1, mode)) break;
    }
    free(text);
    return n + 1;
}

cxf_number ref_integer(const uint8_t *content, size_t content_len, uint64_t mode) {
    cxf_number answer = integer_of(content, content_len, mode);
    if (answer.number != 0) answer.column = column_of(integer_of, INTEGER_ENDINGS, content, content_len, mode);
    return answer;
}

cxf_number ref_real(const uint8_t *content, size_t content_len, uint64_t mode) {
    cxf_number answer = real_of(content, content_len, mode);
    if (answer.number != 0) answer.column = column_of(real_of, REAL_ENDINGS, content, content_len, mode);
    return answer;
}

/* ---- Header, codes ---- */

/* "a capital letter, three digits, a capital letter or `_`, four digits, then two of 0-9 or A-Z. For kind 3 the last two
   are `QU`" */
static bool good_name(const uint8_t *name, size_t len, uint64_t kind) {
    if (len != NAME_LENGTH) return false;
    if (!is_capital(name[0])) return false;
    for (size_t i = 1; i < 4; i++)
        if (!is_digit(name[i])) return false;
    if (!is_capital(name[4]) && name[4] != '_') return false;
    for (size_t i = 5; i < 9; i++)
        if (!is_digit(name[i])) return false;
    for (size_t i = 9; i < 11; i++)
        if (!is_digit(name[i]) && !is_capital(name[i])) return false;
    return kind != QUADRO || (name[9] == 'Q' && name[10] == 'U');
}

/* "Listed codes: symbols 1-11, 13-16, 20; fiducials 8, 20; lines 1, 5, 6, 11, 12, 29-35." */
static bool listed(int64_t kind, int64_t code) {
    switch (kind) {
    case SIMBOLO: return (code >= 1 && code <= 11) || (code >= 13 && code <= 16) || code == 20;
    case FIDUCIALE: return code == 8 || code == 20;
    case LINEA: return code == 1 || code == 5 || code == 6 || code == 11 || code == 12 || (code >= 29 && code <= 35);
    case LIBRETTO: return code == 1; /* T-05: "only type 1 is listed" */
    default: return true; /* no code */
    }
}

/* ---- Reading ---- */

/* One pass over a file. The first pass has no tables and judges; the second fills the tables that are long enough. */
typedef struct {
    const uint8_t *src;
    size_t len;
    uint64_t mode;
    size_t place;                            /* the next record's first byte */
    uint64_t taken;                          /* records taken so far: the number of the last one */
    size_t start;                            /* the last record: its first byte, */
    const uint8_t *text;                     /* and its content */
    size_t length;
    cxf_reading answer;                      /* refusal, counts, header */
    bool fill;
    int64_t *rows;
    uint8_t *letters;
    uint16_t *islands;
    int64_t *points;
} pass;

/* Refuses at the last record taken. */
static bool refuse(pass *p, uint64_t number) {
    p->answer.number = number;
    p->answer.record = p->taken;
    p->answer.offset = p->start;
    return false;
}

/* "Every refusal 8 carries it" (T-04). */
static bool refuse_number(pass *p, cxf_number n) {
    p->answer.column = n.column;
    return refuse(p, n.number);
}

/* Takes the next record. A record that can't be taken is refused as the one that was wanted. */
static bool take(pass *p, bool keyword_due) {
    const cxf_record r = ref_record_at(p->src, p->len, p->place, p->mode, keyword_due ? 1 : 0);
    if (r.number != 0) {
        p->answer.number = r.number;
        p->answer.record = p->taken + 1;
        p->answer.offset = p->place;
        return false;
    }
    p->taken++;
    p->start = p->place;
    p->text = p->src + r.start;
    p->length = (size_t)r.length;
    p->place = (size_t)r.next;
    return true;
}

/* "Keyword, first word, letters, name. Loose mode drops blanks (32) at both ends. Exact mode permits none at either end."
   What is left after this is compared as it stands, so in exact mode an end blank makes a word wrong. */
static void drop_blanks(pass *p) {
    if (is_exact(p->mode)) return;
    while (p->length > 0 && p->text[0] == ' ') {
        p->text++;
        p->length--;
    }
    while (p->length > 0 && p->text[p->length - 1] == ' ') p->length--;
}

static bool says(const pass *p, const char *word) {
    return p->length == strlen(word) && memcmp(p->text, word, p->length) == 0;
}

static bool take_integer(pass *p, int64_t *value) {
    if (!take(p, false)) return false;
    const cxf_number n = ref_integer(p->text, p->length, p->mode);
    if (n.number != 0) return refuse_number(p, n);
    *value = n.value;
    return true;
}

static bool take_real(pass *p, int64_t *value) {
    if (!take(p, false)) return false;
    const cxf_number n = ref_real(p->text, p->length, p->mode);
    if (n.number != 0) return refuse_number(p, n);
    *value = n.value;
    return true;
}

/* "Letters are never empty." */
static bool take_letters(pass *p, int64_t *count) {
    if (!take(p, false)) return false;
    drop_blanks(p);
    if (p->length == 0) return refuse(p, NO_LETTERS);
    if (p->text[0] == ' ' || p->text[p->length - 1] == ' ') return refuse(p, NO_LETTERS);
    if (p->fill)
        for (size_t i = 0; i < p->length; i++) p->letters[p->answer.letters + i] = p->text[i];
    p->answer.letters += p->length;
    *count = (int64_t)p->length;
    return true;
}

static bool take_point(pass *p, int64_t *x, int64_t *y) {
    if (!take_real(p, x) || !take_real(p, y)) return false;
    if (p->fill) {
        p->points[2 * p->answer.points] = *x;
        p->points[2 * p->answer.points + 1] = *y;
    }
    p->answer.points++;
    return true;
}

/* "Every ring's first and last vertex are equal; an open ring is refused at the record of its last y." */
static bool take_ring(pass *p, int64_t vertices) {
    int64_t first_x = 0, first_y = 0, x = 0, y = 0;
    for (int64_t i = 0; i < vertices; i++) {
        if (!take_point(p, &x, &y)) return false;
        if (i == 0) {
            first_x = x;
            first_y = y;
        }
    }
    if (x != first_x || y != first_y) return refuse(p, OPEN_RING);
    return true;
}

/* The border's counts and vertices. "a border's vertices are at least 4 + 4 times its islands. An island has at least 4,
   and after each island record the islands so far total at most vertices - 4. The outer ring has the rest and comes
   first." */
static bool take_rings(pass *p, int64_t *row) {
    int64_t counts[INTEGER_MOST];
    int64_t total = 0;
    if (!take_integer(p, &row[ISLANDS])) return false;
    if (!take_integer(p, &row[VERTICES])) return false;
    if (row[VERTICES] < 4 + 4 * row[ISLANDS]) return refuse(p, COUNT);
    for (int64_t i = 0; i < row[ISLANDS]; i++) {
        if (!take_integer(p, &counts[i])) return false;
        total += counts[i];
        if (counts[i] < 4 || total > row[VERTICES] - 4) return refuse(p, COUNT);
        if (p->fill) p->islands[p->answer.islands] = (uint16_t)counts[i];
        p->answer.islands++;
    }
    if (!take_ring(p, row[VERTICES] - total)) return false;
    for (int64_t i = 0; i < row[ISLANDS]; i++)
        if (!take_ring(p, counts[i])) return false;
    return true;
}

/* "A line has at least 2." A LIBRETTO too; a RASTER has "four points, no count record". */
static bool take_points(pass *p, int64_t *row) {
    if (row[KIND] == RASTER) row[VERTICES] = RASTER_POINTS;
    else if (!take_integer(p, &row[VERTICES])) return false;
    if (row[VERTICES] < 2) return refuse(p, COUNT);
    for (int64_t i = 0; i < row[VERTICES]; i++) {
        int64_t x, y;
        if (!take_point(p, &x, &y)) return false;
    }
    return true;
}

/* The records after a keyword, in the order of the table of sections, which is one order for all kinds:
   letters, code or size, angle, place, second place, counts and vertices. */
static bool take_section(pass *p, int64_t kind, bool outside) {
    int64_t row[ROW_WIDTH] = {0};
    row[KIND] = kind;
    row[OUTSIDE] = outside ? 1 : 0;
    put_starts(row, (spot){(size_t)p->answer.letters, (size_t)p->answer.islands, (size_t)p->answer.points}); /* "Reading fills them." */
    if (SECTIONS[kind].letters && !take_letters(p, &row[LETTERS])) return false;
    if (SECTIONS[kind].code) {
        if (!take_integer(p, &row[CODE_AT])) return false;
        if (is_exact(p->mode) && !listed(kind, row[CODE_AT])) return refuse(p, CODE);
    }
    if (SECTIONS[kind].size && !take_integer(p, &row[SIZE])) return false;
    if (SECTIONS[kind].angle && !take_real(p, &row[ANGLE])) return false;
    if (SECTIONS[kind].place && (!take_real(p, &row[X]) || !take_real(p, &row[Y]))) return false;
    if (SECTIONS[kind].second && (!take_real(p, &row[SECOND_X]) || !take_real(p, &row[SECOND_Y]))) return false;
    if (SECTIONS[kind].vertices && !(kind == BORDO ? take_rings(p, row) : take_points(p, row))) return false;
    if (p->fill)
        for (size_t i = 0; i < ROW_WIDTH; i++) p->rows[ROW_WIDTH * p->answer.rows + i] = row[i];
    p->answer.rows++;
    return true;
}

static bool take_header(pass *p) {
    if (!take(p, false)) return false;
    drop_blanks(p);
    if (says(p, "MAPPA")) p->answer.kind = MAPPA;
    else if (says(p, "MAPPA FONDIARIO")) p->answer.kind = FONDIARIO;
    else if (says(p, "QUADRO D'UNIONE")) p->answer.kind = QUADRO;
    else return refuse(p, HEADER);

    if (!take(p, false)) return false;
    drop_blanks(p);
    if (!good_name(p->text, p->length, p->answer.kind)) return refuse(p, HEADER);
    memcpy(p->answer.name, p->text, NAME_LENGTH);

    if (!take_real(p, &p->answer.scale)) return false;
    if (p->answer.scale <= 0) return refuse(p, HEADER);
    return true;
}

/* Reads the keyword that is due: 0 is EOF, else the section's kind; false where there is none. */
static bool take_keyword(pass *p, int64_t *kind, bool *outside) {
    if (!take(p, true)) return false;
    drop_blanks(p);
    if (says(p, "EOF")) {
        *kind = 0;
        return true;
    }
    for (*kind = BORDO; *kind <= LAST_KIND; ++*kind) {
        *outside = false;
        if (says(p, SECTIONS[*kind].word)) return true;
        *outside = true; /* "a final `\`: outside" */
        const size_t n = strlen(SECTIONS[*kind].word);
        if (SECTIONS[*kind].outside && p->length == n + 1 && memcmp(p->text, SECTIONS[*kind].word, n) == 0 && p->text[n] == '\\')
            return true;
    }
    return refuse(p, NO_KEYWORD);
}

static bool take_file(pass *p) {
    if (!take_header(p)) return false;
    for (;;) {
        int64_t kind;
        bool outside;
        if (!take_keyword(p, &kind, &outside)) return false;
        if (kind == 0) break;
        if (!take_section(p, kind, outside)) return false;
    }
    /* "What follows the EOF record is ignored in loose mode and refused (13) in exact mode, located at the next record." */
    if (is_exact(p->mode) && p->place < p->len) {
        p->answer.number = AFTER_EOF;
        p->answer.record = p->taken + 1;
        p->answer.offset = p->place;
        return false;
    }
    return true;
}

/* "A reading first judges the whole file, then the room (14), then writes; past the used part nothing is altered." */
cxf_reading ref_read(const uint8_t *src, size_t src_len, uint64_t mode, int64_t *rows, size_t rows_len,
                     uint8_t *letters, size_t letters_len, uint16_t *islands, size_t islands_len, int64_t *points,
                     size_t points_len) {
    pass judge = {0};
    cxf_reading refused = {0};
    if (src_len > FILE_LIMIT) { /* "Refusal 1 comes before all"; "1 and 14 return 0 and 0" */
        refused.number = TOO_LONG;
        return refused;
    }
    judge.src = src;
    judge.len = src_len;
    judge.mode = mode;
    if (!take_file(&judge)) {
        refused.number = judge.answer.number;
        refused.record = judge.answer.record;
        refused.offset = judge.answer.offset;
        refused.column = judge.answer.column;
        return refused;
    }
    const cxf_reading need = judge.answer;
    if (need.rows > rows_len / ROW_WIDTH || need.letters > letters_len || need.islands > islands_len ||
        need.points > points_len / 2) {
        refused.number = NO_ROOM;
        refused.rows = need.rows;
        refused.letters = need.letters;
        refused.islands = need.islands;
        refused.points = need.points;
        return refused;
    }
    pass write = {0};
    write.src = src;
    write.len = src_len;
    write.mode = mode;
    write.fill = true;
    write.rows = rows;
    write.letters = letters;
    write.islands = islands;
    write.points = points;
    (void)take_file(&write);
    return write.answer;
}

/* T-12: "From now on a reading with no mode named is exact." */
cxf_reading ref_read_default(const uint8_t *src, size_t src_len, int64_t *rows, size_t rows_len, uint8_t *letters, size_t letters_len,
                             uint16_t *islands, size_t islands_len, int64_t *points, size_t points_len) {
    return ref_read(src, src_len, EXACT, rows, rows_len, letters, letters_len, islands, islands_len, points, points_len);
}

/* ---- Sheets handed in ---- */

typedef struct {
    uint64_t kind;
    const uint8_t *name;
    size_t name_len;
    int64_t scale;
    uint64_t count;
    const int64_t *rows;
    size_t rows_len;
    const uint8_t *letters;
    size_t letters_len;
    const uint16_t *islands;
    size_t islands_len;
    const int64_t *points;
    size_t points_len;
} sheet;

#define THE_SHEET                                                                                             \
    { kind, name, name_len, scale, count, rows, rows_len, letters, letters_len, islands, islands_len, points, \
      points_len }

static bool in_real_range(int64_t n) { return n >= REAL_LEAST && n <= REAL_MOST; }
static bool in_integer_range(int64_t n) { return n >= 0 && n <= INTEGER_MOST; }

/* "wrong first word or name, scale not above 0; handed in: also a wrong kind, or scale above the real range" */
static bool header_good(const sheet *s) {
    if (s->kind < MAPPA || s->kind > QUADRO) return false;
    if (!good_name(s->name, s->name_len, s->kind)) return false;
    return s->scale > 0 && s->scale <= REAL_MOST;
}

static const int64_t *row_of(const sheet *s, uint64_t row) { return s->rows + ROW_WIDTH * (size_t)row; }
static int64_t point_x(const sheet *s, size_t point) { return s->points[2 * point]; }
static int64_t point_y(const sheet *s, size_t point) { return s->points[2 * point + 1]; }

/* Where the next row's parts begin. Only for a row that is well made, so that the counts are small. */
static spot after_row(const sheet *s, uint64_t row, spot at) {
    const int64_t *n = row_of(s, row);
    at.letters += (size_t)n[LETTERS];
    at.islands += (size_t)n[ISLANDS];
    at.points += (size_t)n[VERTICES];
    return at;
}

void set_starts(int64_t *rows, uint64_t count) {
    spot at = {0, 0, 0};
    for (uint64_t row = 0; row < count; row++) {
        int64_t *n = rows + ROW_WIDTH * row;
        put_starts(n, at);
        at = (spot){at.letters + (size_t)n[LETTERS], at.islands + (size_t)n[ISLANDS], at.points + (size_t)n[VERTICES]};
    }
}

/* A row's first twelve numbers: "A field the section lacks is 0"; the others as a file could give them. */
static bool numbers_made(const int64_t *n) {
    if (n[KIND] < BORDO || n[KIND] > LAST_KIND) return false;
    const int k = (int)n[KIND];
    if (n[OUTSIDE] != 0 && (n[OUTSIDE] != 1 || !SECTIONS[k].outside)) return false;
    if (SECTIONS[k].code ? !in_integer_range(n[CODE_AT]) : n[CODE_AT] != 0) return false;
    if (SECTIONS[k].size ? !in_integer_range(n[SIZE]) : n[SIZE] != 0) return false;
    if (SECTIONS[k].angle ? !in_real_range(n[ANGLE]) : n[ANGLE] != 0) return false;
    if (SECTIONS[k].place ? !in_real_range(n[X]) || !in_real_range(n[Y]) : n[X] != 0 || n[Y] != 0) return false;
    if (SECTIONS[k].second ? !in_real_range(n[SECOND_X]) || !in_real_range(n[SECOND_Y])
                           : n[SECOND_X] != 0 || n[SECOND_Y] != 0)
        return false;
    if (SECTIONS[k].letters ? n[LETTERS] < 1 || n[LETTERS] > (int64_t)RECORD_LIMIT : n[LETTERS] != 0) return false;
    if (k == BORDO ? !in_integer_range(n[ISLANDS]) : n[ISLANDS] != 0) return false;
    if (SECTIONS[k].vertices ? !in_integer_range(n[VERTICES]) : n[VERTICES] != 0) return false;
    if (k == BORDO && n[VERTICES] < 4 + 4 * n[ISLANDS]) return false;
    if ((k == LINEA || k == LIBRETTO) && n[VERTICES] < 2) return false;
    if (k == RASTER && n[VERTICES] != RASTER_POINTS) return false;
    return true;
}

static bool ring_closed(const sheet *s, size_t first, size_t vertices) {
    return point_x(s, first) == point_x(s, first + vertices - 1) && point_y(s, first) == point_y(s, first + vertices - 1);
}

/* Whether one row's "own numbers, letters, island counts or points" are right and wholly held. The rows before it are. */
static bool row_made(const sheet *s, uint64_t row, spot at) {
    if (row >= s->rows_len / ROW_WIDTH) return false;
    const int64_t *n = row_of(s, row);
    if (!numbers_made(n) || !starts_true(n, at)) return false; /* "a row with a false start as not well made" */

    const size_t letters = (size_t)n[LETTERS], islands = (size_t)n[ISLANDS], vertices = (size_t)n[VERTICES];
    if (letters > s->letters_len - at.letters) return false;
    for (size_t i = 0; i < letters; i++) {
        const uint8_t b = s->letters[at.letters + i];
        if (b < 32 || b > 126) return false;
        if (b == ' ' && (i == 0 || i == letters - 1)) return false;
    }

    if (islands > s->islands_len - at.islands) return false;
    size_t total = 0;
    for (size_t i = 0; i < islands; i++) {
        const size_t island = s->islands[at.islands + i];
        total += island;
        if (island < 4 || total > vertices - 4) return false;
    }

    if (vertices > s->points_len / 2 - at.points) return false;
    for (size_t i = 0; i < vertices; i++)
        if (!in_real_range(point_x(s, at.points + i)) || !in_real_range(point_y(s, at.points + i))) return false;

    if (n[KIND] == BORDO) {
        size_t first = at.points;
        if (!ring_closed(s, first, vertices - total)) return false;
        first += vertices - total;
        for (size_t i = 0; i < islands; i++) {
            if (!ring_closed(s, first, s->islands[at.islands + i])) return false;
            first += s->islands[at.islands + i];
        }
    }
    return true;
}

/* ---- Writing ---- */

/* Measures where out is null, else writes. */
typedef struct { uint8_t *out; uint64_t length; } writer;

static void put(writer *w, const void *bytes, size_t n) {
    if (w->out != NULL) memcpy(w->out + w->length, bytes, n);
    w->length += n;
}

static void put_line(writer *w, const char *text) {
    put(w, text, strlen(text));
    put(w, "\r\n", 2);
}

static void put_integer(writer *w, int64_t value) {
    char text[32];
    snprintf(text, sizeof text, "%4lld", (long long)value);
    put_line(w, text);
}

/* A real with its three decimals, not padded. */
static void spell_real(char token[40], int64_t value) {
    const long long size = value < 0 ? -(long long)value : (long long)value; /* only numbers in range come here */
    snprintf(token, 40, "%s%lld.%03lld", value < 0 ? "-" : "", size / 1000, size % 1000);
}

static void put_real(writer *w, int64_t value) {
    char token[40], text[64];
    spell_real(token, value);
    snprintf(text, sizeof text, "%12s", token);
    put_line(w, text);
}

static void put_row(writer *w, const sheet *s, uint64_t row, spot at) {
    const int64_t *n = row_of(s, row);
    const int k = (int)n[KIND];
    put(w, SECTIONS[k].word, strlen(SECTIONS[k].word));
    put_line(w, n[OUTSIDE] == 1 ? "\\" : "");
    if (SECTIONS[k].letters) {
        put(w, s->letters + at.letters, (size_t)n[LETTERS]);
        put_line(w, "");
    }
    if (SECTIONS[k].code) put_integer(w, n[CODE_AT]);
    if (SECTIONS[k].size) put_integer(w, n[SIZE]);
    if (SECTIONS[k].angle) put_real(w, n[ANGLE]);
    if (SECTIONS[k].place) {
        put_real(w, n[X]);
        put_real(w, n[Y]);
    }
    if (SECTIONS[k].second) {
        put_real(w, n[SECOND_X]);
        put_real(w, n[SECOND_Y]);
    }
    if (k == BORDO) put_integer(w, n[ISLANDS]);
    if (SECTIONS[k].vertices && k != RASTER) put_integer(w, n[VERTICES]);
    for (size_t i = 0; i < (size_t)n[ISLANDS]; i++) put_integer(w, s->islands[at.islands + i]);
    for (size_t i = 0; i < (size_t)n[VERTICES]; i++) {
        put_real(w, point_x(s, at.points + i));
        put_real(w, point_y(s, at.points + i));
    }
}

static void put_sheet(writer *w, const sheet *s) {
    put_line(w, s->kind == MAPPA ? "MAPPA" : s->kind == FONDIARIO ? "MAPPA FONDIARIO" : "QUADRO D'UNIONE");
    put(w, s->name, NAME_LENGTH);
    put_line(w, "");
    put_real(w, s->scale);
    spot at = {0, 0, 0};
    for (uint64_t row = 0; row < s->count; row++) {
        put_row(w, s, row, at);
        at = after_row(s, row, at);
    }
    put_line(w, "EOF");
}

/* "The writer checks: header (6), rows in order, each 15 then 10, length 1, room 14 with the needed length" */
cxf_written ref_write(CXF_SHEET, uint8_t *out, size_t out_len) {
    const sheet s = THE_SHEET;
    if (!header_good(&s)) return (cxf_written){HEADER, 0, 0};
    spot at = {0, 0, 0};
    for (uint64_t row = 0; row < count; row++) {
        if (!row_made(&s, row, at)) return (cxf_written){NOT_MADE, row, 0};
        const int64_t *n = row_of(&s, row);
        if (!listed(n[KIND], n[CODE_AT])) return (cxf_written){CODE, row, 0};
        at = after_row(&s, row, at);
    }
    writer measure = {NULL, 0};
    put_sheet(&measure, &s);
    if (measure.length > FILE_LIMIT) return (cxf_written){TOO_LONG, 0, 0};
    if (measure.length > out_len) return (cxf_written){NO_ROOM, 0, measure.length};
    writer w = {out, 0};
    put_sheet(&w, &s);
    return (cxf_written){0, 0, w.length};
}

/* ---- Questions ---- */

typedef struct { uint64_t number, row; } refusal;

/* "Sheet questions check the header (6), then 15, then 19, before their other refusals." The first two. */
static refusal judge_sheet(const sheet *s) {
    if (!header_good(s)) return (refusal){HEADER, 0};
    spot at = {0, 0, 0};
    for (uint64_t row = 0; row < s->count; row++) {
        if (!row_made(s, row, at)) return (refusal){NOT_MADE, row};
        at = after_row(s, row, at);
    }
    return (refusal){0, 0};
}

/* Where the parts of a row of a well made sheet begin. */
static spot spot_of(const sheet *s, uint64_t row) {
    spot at = {0, 0, 0};
    for (uint64_t i = 0; i < row; i++) at = after_row(s, i, at);
    return at;
}

/* The sheet, then 19 for a row that is missing or no border. */
static refusal judge_border(const sheet *s, uint64_t row) {
    const refusal r = judge_sheet(s);
    if (r.number != 0) return r;
    if (row >= s->count || row_of(s, row)[KIND] != BORDO) return (refusal){MISSING, 0};
    return r;
}

/* "First rule that holds, in this order"; "OTHER holds only for header kind 3" (T-02) */
static uint64_t class_of(const sheet *s, uint64_t row, spot at) {
    const size_t n = (size_t)row_of(s, row)[LETTERS];
    const uint8_t *t = s->letters + at.letters;
    if (n == NAME_LENGTH && memcmp(t, s->name, n) == 0) return 1;                                  /* CONFINE */
    if (s->kind == QUADRO && n == NAME_LENGTH) return 2;                                           /* OTHER */
    if ((n == 6 && memcmp(t, "STRADA", 6) == 0) || (s->kind == FONDIARIO && t[0] == 'S')) return 3; /* ROAD */
    if ((n == 5 && memcmp(t, "ACQUA", 5) == 0) || (s->kind == FONDIARIO && t[0] == 'A')) return 4;  /* WATER */
    if (t[n - 1] == '+') return 5;                                                                 /* BUILDING */
    return 6;                                                                                      /* PARCEL */
}

cxf_border ref_border_at(CXF_SHEET, uint64_t row) {
    const sheet s = THE_SHEET;
    cxf_border answer = {0};
    const refusal r = judge_border(&s, row);
    if (r.number != 0) {
        answer.number = r.number;
        answer.row = r.row;
        return answer;
    }
    const int64_t *n = row_of(&s, row);
    answer.class_of = class_of(&s, row, spot_of(&s, row));
    answer.size = n[SIZE];
    answer.angle = n[ANGLE];
    answer.x = n[X];
    answer.y = n[Y];
    answer.inner_x = n[SECOND_X];
    answer.inner_y = n[SECOND_Y];
    answer.letters = (uint64_t)n[LETTERS];
    answer.islands = (uint64_t)n[ISLANDS];
    answer.vertices = (uint64_t)n[VERTICES];
    return answer;
}

/* "A TESTO of at least 3 letters from `(` to `)` is a surface right; a TESTO of size 0 is a raster parcel's centroid; one
   row may be both. Any other row is neither; a missing row is refused 19." */
cxf_text ref_text_at(CXF_SHEET, uint64_t row) {
    const sheet s = THE_SHEET;
    const refusal r = judge_sheet(&s);
    if (r.number != 0) return (cxf_text){r.number, r.row, 0, 0};
    if (row >= count) return (cxf_text){MISSING, 0, 0, 0};
    const int64_t *n = row_of(&s, row);
    if (n[KIND] != TESTO) return (cxf_text){0, 0, 0, 0};
    const uint8_t *t = letters + spot_of(&s, row).letters;
    const bool right = n[LETTERS] >= 3 && t[0] == '(' && t[n[LETTERS] - 1] == ')';
    return (cxf_text){0, 0, right ? 1 : 0, n[SIZE] == 0 ? 1 : 0};
}

/* ---- Areas ---- */

/* A ring: its first vertex in the points table and how many vertices it has. */
typedef struct { size_t first, vertices; } ring;

/* Ring 0 is the outer one, which "has the rest and comes first"; ring i is island i. The border has it. */
static ring ring_of(const sheet *s, uint64_t row, spot at, uint64_t which) {
    const int64_t *n = row_of(s, row);
    size_t total = 0;
    for (size_t i = 0; i < (size_t)n[ISLANDS]; i++) total += s->islands[at.islands + i];
    ring r = {at.points, (size_t)n[VERTICES] - total};
    for (uint64_t i = 0; i < which; i++) {
        r.first += r.vertices;
        r.vertices = s->islands[at.islands + (size_t)i];
    }
    return r;
}

/* "A ring with a vertex more than 20,000,000 mm from its first, in x or in y" */
static bool too_wide(const sheet *s, ring r) {
    for (size_t i = 0; i < r.vertices; i++) {
        const int64_t dx = point_x(s, r.first + i) - point_x(s, r.first); /* both in the real range */
        const int64_t dy = point_y(s, r.first + i) - point_y(s, r.first);
        if (dx > RING_REACH || dx < -RING_REACH || dy > RING_REACH || dy < -RING_REACH) return true;
    }
    return false;
}

/* "the absolute value of the signed sum, over its edges, of x1*y2 - x2*y1, .. coordinates taken from the ring's first
   vertex". A ring that is not too wide has at most 9,998 edges of at most 8 * 10^14 each. */
static int64_t doubled_area(const sheet *s, ring r) {
    __int128 sum = 0;
    for (size_t i = 0; i + 1 < r.vertices; i++) {
        const __int128 x1 = point_x(s, r.first + i) - point_x(s, r.first);
        const __int128 y1 = point_y(s, r.first + i) - point_y(s, r.first);
        const __int128 x2 = point_x(s, r.first + i + 1) - point_x(s, r.first);
        const __int128 y2 = point_y(s, r.first + i + 1) - point_y(s, r.first);
        sum += x1 * y2 - x2 * y1;
    }
    return (int64_t)(sum < 0 ? -sum : sum);
}

cxf_area ref_ring_area(CXF_SHEET, uint64_t row, uint64_t which) {
    const sheet s = THE_SHEET;
    const refusal r = judge_border(&s, row);
    if (r.number != 0) return (cxf_area){r.number, r.row, 0};
    if (which > (uint64_t)row_of(&s, row)[ISLANDS]) return (cxf_area){MISSING, 0, 0};
    const ring one = ring_of(&s, row, spot_of(&s, row), which);
    if (too_wide(&s, one)) return (cxf_area){TOO_WIDE, 0, 0};
    return (cxf_area){0, 0, doubled_area(&s, one)};
}

/* What one border adds to a tally: outer area and the islands' total. False where any ring is too wide. */
static bool border_areas(const sheet *s, uint64_t row, spot at, int64_t *outer, int64_t *islands) {
    const uint64_t last = (uint64_t)row_of(s, row)[ISLANDS];
    *outer = 0;
    *islands = 0;
    for (uint64_t i = 0; i <= last; i++) {
        const ring one = ring_of(s, row, at, i);
        if (too_wide(s, one)) return false;
        if (i == 0) *outer = doubled_area(s, one);
        else *islands += doubled_area(s, one); /* all rings together have at most 9,999 vertices */
    }
    return true;
}

/* "Net is outer less islands and may be negative." */
cxf_area ref_net_area(CXF_SHEET, uint64_t row) {
    const sheet s = THE_SHEET;
    const refusal r = judge_border(&s, row);
    if (r.number != 0) return (cxf_area){r.number, r.row, 0};
    int64_t outer, inner;
    if (!border_areas(&s, row, spot_of(&s, row), &outer, &inner)) return (cxf_area){TOO_WIDE, 0, 0};
    return (cxf_area){0, 0, outer - inner};
}

/* Adds one border to 24 figures that keep the limit; 17 or 18 where it can't, and then the figures are as they were.
   "Limit 18 applies to each total and each count separately and is judged after the whole border." */
static uint64_t add_border(const sheet *s, uint64_t row, spot at, int64_t figures[24]) {
    int64_t outer, inner;
    if (!border_areas(s, row, at, &outer, &inner)) return TOO_WIDE;
    const int64_t plus[4] = {1, outer, row_of(s, row)[ISLANDS], inner};
    int64_t *own = figures + 4 * (class_of(s, row, at) - 1);
    for (int i = 0; i < 4; i++)
        if ((__int128)own[i] + plus[i] > TALLY_MOST) return TOTAL;
    for (int i = 0; i < 4; i++) own[i] += plus[i];
    return 0;
}

/* "Borders go in row order, 17 before 18, the refusal naming the row" */
cxf_tally ref_tally_sheet(CXF_SHEET) {
    const sheet s = THE_SHEET;
    cxf_tally answer = {0}, refused = {0};
    const refusal r = judge_sheet(&s);
    if (r.number != 0) {
        refused.number = r.number;
        refused.row = r.row;
        return refused;
    }
    spot at = {0, 0, 0};
    for (uint64_t row = 0; row < count; row++) {
        if (row_of(&s, row)[KIND] == BORDO) {
            refused.number = add_border(&s, row, at, answer.figures);
            refused.row = row;
            if (refused.number != 0) return refused;
        }
        at = after_row(&s, row, at);
    }
    return answer;
}

/* "judges 6, 15, 19, then the tally handed in .., then 17, then 18. Refused, it answers the figures as they were handed
   in." A tally that is no tally has no figures to answer. */
cxf_tally ref_tally_take(const int64_t *figures, size_t figures_len, CXF_SHEET, uint64_t row) {
    const sheet s = THE_SHEET;
    cxf_tally answer = {0};
    if (figures_len == 24) memcpy(answer.figures, figures, sizeof answer.figures);
    const refusal r = judge_border(&s, row);
    if (r.number != 0) {
        answer.number = r.number;
        answer.row = r.row;
        return answer;
    }
    bool tally = figures_len == 24;
    for (int i = 0; i < 24; i++)
        if (answer.figures[i] < 0 || answer.figures[i] > TALLY_MOST) tally = false;
    answer.number = tally ? add_border(&s, row, spot_of(&s, row), answer.figures) : TOTAL;
    answer.row = answer.number == 0 ? 0 : row;
    return answer;
}

/* ---- Ring check ---- */

typedef struct { __int128 x, y; } vec;

static vec vertex(const sheet *s, size_t point) { return (vec){point_x(s, point), point_y(s, point)}; }

/* Twice the signed area of the triangle: which side of the line AB the point C is on. */
static __int128 side(vec a, vec b, vec c) { return (b.x - a.x) * (c.y - a.y) - (b.y - a.y) * (c.x - a.x); }

/* "Neighbours AB, BC overlap exactly if their cross product is 0 and (A-B).(C-B) is above 0." */
static bool neighbours_overlap(vec a, vec b, vec c) {
    const vec u = {a.x - b.x, a.y - b.y}, v = {c.x - b.x, c.y - b.y};
    return u.x * v.y - u.y * v.x == 0 && u.x * v.x + u.y * v.y > 0;
}

static bool strictly_one_side(vec a, vec b, vec c, vec d) {
    const __int128 p = side(a, b, c), q = side(a, b, d);
    return (p > 0 && q > 0) || (p < 0 && q < 0);
}

static bool spans_overlap(__int128 a, __int128 b, __int128 c, __int128 d) {
    const __int128 low = a < b ? a : b, high = a < b ? b : a;
    const __int128 other_low = c < d ? c : d, other_high = c < d ? d : c;
    return low <= other_high && other_low <= high;
}

/* "Other edges meet exactly if neither has both ends strictly on one side of the other's line, and their boxes, borders
   counted, overlap." The boxes are asked first, as they are cheap. */
static bool edges_meet(vec a, vec b, vec c, vec d) {
    if (!spans_overlap(a.x, b.x, c.x, d.x) || !spans_overlap(a.y, b.y, c.y, d.y)) return false;
    return !strictly_one_side(a, b, c, d) && !strictly_one_side(c, d, a, b);
}

/* Whether edges first <= second of a ring with `edges` edges are a faulty pair. Vertex number `edges` is vertex 0. */
static bool faulty_pair(const sheet *s, ring r, size_t edges, size_t first, size_t second) {
    const vec a = vertex(s, r.first + first), b = vertex(s, r.first + first + 1);
    const vec c = vertex(s, r.first + second), d = vertex(s, r.first + second + 1);
    if (first == second) return a.x == b.x && a.y == b.y;
    if (second == first + 1) return neighbours_overlap(a, b, d);
    /* "First and last edge are neighbours": the last comes to the first's beginning. */
    if (first == 0 && second == edges - 1) return neighbours_overlap(c, a, b);
    return edges_meet(a, b, c, d);
}

/* "The search leaves both loops at the first faulty pair: lowest first edge, then lowest second, edges from 0; an edge of
   no length is the pair of itself." */
cxf_ring ref_ring_check(CXF_SHEET, uint64_t row, uint64_t which) {
    const sheet s = THE_SHEET;
    const refusal r = judge_border(&s, row);
    if (r.number != 0) return (cxf_ring){r.number, r.row, 0, 0, 0};
    if (which > (uint64_t)row_of(&s, row)[ISLANDS]) return (cxf_ring){MISSING, 0, 0, 0, 0};
    const ring one = ring_of(&s, row, spot_of(&s, row), which);
    if (too_wide(&s, one)) return (cxf_ring){TOO_WIDE, 0, 0, 0, 0};
    const size_t edges = one.vertices - 1;
    for (size_t first = 0; first < edges; first++)
        for (size_t second = first; second < edges; second++)
            if (faulty_pair(&s, one, edges, first, second)) return (cxf_ring){0, 0, 0, first, second};
    return (cxf_ring){0, 0, 1, 0, 0};
}

/* ---- Tile points ---- */

/* "east difference, south difference, each converted and then divided once by 256. Both differences must be 0 to
   16,777,215 and all four numbers within the real range, else 20." */
cxf_tile ref_tile_point(int64_t corner_x, int64_t corner_y, int64_t x, int64_t y) {
    const cxf_tile refused = {OUTSIDE_FRAME, 0, 0};
    if (!in_real_range(corner_x) || !in_real_range(corner_y) || !in_real_range(x) || !in_real_range(y)) return refused;
    const int64_t east = x - corner_x, south = corner_y - y;
    if (east < 0 || east > TILE_MOST || south < 0 || south > TILE_MOST) return refused;
    return (cxf_tile){0, (float)east / 256.0f, (float)south / 256.0f};
}

/* ---- Listing ---- */

/* What the program writes, as text; it always fits, as every line is short. */
static size_t listing_text(const uint8_t *src, size_t src_len, char *text, size_t room) {
    static const char *const CLASSES[6] = {"CONFINE", "OTHER", "ROAD", "WATER", "BUILDING", "PARCEL"};
    /* "with tables that hold any such file": no row, letter, count or point takes less than two bytes */
    static int64_t rows[LISTING_LIMIT / 2 * ROW_WIDTH], points[LISTING_LIMIT];
    static uint8_t letters[LISTING_LIMIT];
    static uint16_t islands[LISTING_LIMIT / 2];
    size_t n = 0;
    /* "The listing program prints it as a fourth number on each refusal line" (T-04): 0 but for 8 */
    if (src_len > LISTING_LIMIT) /* "more input gives `REFUSED 1 0 0`" */
        return (size_t)snprintf(text, room, "REFUSED 1 0 0 0\n");
    const cxf_reading r = ref_read(src, src_len, 0, rows, LISTING_LIMIT / 2 * ROW_WIDTH, letters, LISTING_LIMIT, islands,
                                   LISTING_LIMIT / 2, points, LISTING_LIMIT);
    if (r.number != 0)
        return (size_t)snprintf(text, room, "REFUSED %llu %llu %llu %llu\n", (unsigned long long)r.number,
                                (unsigned long long)r.record, (unsigned long long)r.offset, (unsigned long long)r.column);
    const cxf_tally t = ref_tally_sheet(r.kind, r.name, NAME_LENGTH, r.scale, r.rows, rows, (size_t)r.rows * ROW_WIDTH, letters,
                                        (size_t)r.letters, islands, (size_t)r.islands, points, (size_t)r.points * 2);
    if (t.number != 0) /* "17 and 18 give the row and 0" */
        return (size_t)snprintf(text, room, "REFUSED %llu %llu 0 0\n", (unsigned long long)t.number, (unsigned long long)t.row);
    n += (size_t)snprintf(text + n, room - n, "MAP %llu %.11s %lld\n", (unsigned long long)r.kind, (const char *)r.name,
                          (long long)r.scale);
    for (int c = 0; c < 6; c++)
        n += (size_t)snprintf(text + n, room - n, "%s %lld %lld %lld %lld\n", CLASSES[c], (long long)t.figures[4 * c],
                              (long long)t.figures[4 * c + 1], (long long)t.figures[4 * c + 2], (long long)t.figures[4 * c + 3]);
    n += (size_t)snprintf(text + n, room - n, "ROWS %llu\n", (unsigned long long)r.rows);
    return n;
}

/* "answers `number` 0 whenever the text stands in `out`, also where that text says REFUSED; 14 is its only refusal" */
cxf_listed ref_listing(const uint8_t *src, size_t src_len, uint8_t *out, size_t out_len) {
    char text[1024];
    const size_t n = listing_text(src, src_len, text, sizeof text);
    if (n > out_len) return (cxf_listed){NO_ROOM, n};
    memcpy(out, text, n);
    return (cxf_listed){0, n};
}

/* ---- SUP files ---- */

/* The classes, in the order of the tally's figures; four figures each. */
enum { CONFINE = 1, OTHER, ROAD, WATER, BUILDING, PARCEL };
enum { BORDERS, OUTER, HOLES, HOLES_TOTAL };

static int64_t figure_of(const cxf_tally *t, int class, int which) { return t->figures[4 * (class - 1) + which]; }

/* "Areas are net": both totals keep the tally's limit, so their difference is an i64. */
static int64_t class_net(const cxf_tally *t, int class) { return figure_of(t, class, OUTER) - figure_of(t, class, HOLES_TOTAL); }

/* "a date of eight digits, month 01-12, day 01-31" */
static bool good_date(const uint8_t *date, size_t len) {
    if (len != 8) return false;
    for (size_t i = 0; i < len; i++)
        if (!is_digit(date[i])) return false;
    const int month = 10 * (date[4] - '0') + (date[5] - '0'), day = 10 * (date[6] - '0') + (date[7] - '0');
    return month >= 1 && month <= 12 && day >= 1 && day <= 31;
}

/* "the floor of (D + 1,000,000) / 2,000,000": C's division goes toward zero, so a rest below zero is one too many. */
static int64_t square_metres(__int128 doubled) {
    const __int128 n = doubled + 1000000;
    return (int64_t)(n / 2000000 - (n % 2000000 < 0 ? 1 : 0));
}

/* A border that the file lists. */
typedef struct { const uint8_t *code; size_t length; int64_t net; } entry;

/* "Parcels go by bytes of their code, equal codes by rising exact area"; a beginning comes before its continuation. */
static int in_order(const void *one, const void *another) {
    const entry *a = one, *b = another;
    const int bytes = memcmp(a->code, b->code, a->length < b->length ? a->length : b->length);
    if (bytes != 0) return bytes;
    if (a->length != b->length) return a->length < b->length ? -1 : 1;
    return a->net < b->net ? -1 : a->net > b->net ? 1 : 0;
}

/* "Lines are an 11-character left field and a 10-character right field": left aligned, right aligned (000, 1.2.1). */
typedef struct { const uint8_t *left; size_t left_len; char right[24]; } sup_line;

static sup_line figure_line(const uint8_t *left, size_t left_len, int64_t figure) {
    sup_line line = {left, left_len, ""};
    snprintf(line.right, sizeof line.right, "%lld", (long long)figure);
    return line;
}

static sup_line named_line(const char *word, int64_t figure) { return figure_line((const uint8_t *)word, strlen(word), figure); }

static void put_sup_line(writer *w, const sup_line *line) {
    put(w, line->left, line->left_len);
    for (size_t n = line->left_len; n < SUP_LEFT; n++) put(w, " ", 1);
    for (size_t n = strlen(line->right); n < SUP_RIGHT; n++) put(w, " ", 1);
    put_line(w, line->right);
}

static void *sup_room(uint64_t n, size_t size) {
    void *p = calloc((size_t)n + 1, size);
    if (p == NULL) {
        fprintf(stderr, "reference: out of memory\n");
        exit(2);
    }
    return p;
}

/* The borders that the file lists, in row order; 22 "listed code over 11 letters (with the first such row)". */
static refusal take_listed(const sheet *s, entry *listed_borders, uint64_t *n) {
    const uint64_t wanted = s->kind == QUADRO ? OTHER : PARCEL;
    refusal first = {0, 0};
    spot at = {0, 0, 0};
    *n = 0;
    for (uint64_t row = 0; row < s->count; row++) {
        if (row_of(s, row)[KIND] == BORDO && class_of(s, row, at) == wanted) {
            int64_t outer, inner;
            border_areas(s, row, at, &outer, &inner); /* the tally has judged its rings */
            const size_t length = (size_t)row_of(s, row)[LETTERS];
            listed_borders[(*n)++] = (entry){s->letters + at.letters, length, outer - inner};
            if (length > SUP_LEFT && first.number == 0) first = (refusal){LONG_CODE, row};
        }
        at = after_row(s, row, at);
    }
    return first;
}

/* The lines in the printed order (000, 1.2.2); how many. `total` is TOTALE's exact sum, `outside` CONFINE's. */
static uint64_t sup_lines(const sheet *s, const uint8_t *date, const cxf_tally *t, const entry *listed_borders, uint64_t listed_count,
                          __int128 total, int64_t outside, sup_line *lines) {
    const int64_t totale = square_metres(total), confine = square_metres(outside);
    uint64_t n = 0;
    lines[n] = (sup_line){s->name, NAME_LENGTH, ""};
    memcpy(lines[n++].right, date, 8);
    lines[n++] = named_line("N.FABBRIC", figure_of(t, BUILDING, BORDERS));
    lines[n++] = named_line("N.PARTIC", figure_of(t, PARCEL, BORDERS));
    lines[n++] = named_line("N.STRADE", figure_of(t, ROAD, BORDERS));
    lines[n++] = named_line("N.ACQUE", figure_of(t, WATER, BORDERS));
    lines[n++] = named_line("N.SVIL-ALL", figure_of(t, CONFINE, HOLES)); /* "SVIL-ALL comes from CONFINE's islands" */
    lines[n++] = named_line("FABBRIC", square_metres(class_net(t, BUILDING)));
    for (uint64_t i = 0; i < listed_count; i++)
        lines[n++] = figure_line(listed_borders[i].code, listed_borders[i].length, square_metres(listed_borders[i].net));
    lines[n++] = named_line("PARTIC", square_metres(class_net(t, PARCEL)));
    lines[n++] = named_line("STRADE", square_metres(class_net(t, ROAD)));
    lines[n++] = named_line("ACQUE", square_metres(class_net(t, WATER)));
    lines[n++] = named_line("SVIL-ALL", square_metres(figure_of(t, CONFINE, HOLES_TOTAL)));
    lines[n++] = named_line("TOTALE", totale);
    lines[n++] = named_line("CONFINE", confine);
    lines[n++] = named_line("SBILANCIO", totale - confine); /* "the difference of the two printed figures" */
    return n;
}

/* "Refusals: after 6, 15 and the tally's own, 21 .., 22 .., 18 where a combined total passes that limit either side of
   zero, 23 figure over 10 characters (with the first such line, from 1), then 14 with the needed length." */
cxf_sup ref_sup_write(CXF_SHEET, const uint8_t *date, size_t date_len, uint8_t *out, size_t out_len) {
    const sheet s = THE_SHEET;
    const cxf_tally t = ref_tally_sheet(kind, name, name_len, scale, count, rows, rows_len, letters, letters_len, islands, islands_len,
                                        points, points_len);
    if (t.number != 0) return (cxf_sup){t.number, t.row, 0, 0};
    if (!good_date(date, date_len)) return (cxf_sup){BAD_DATE, 0, 0, 0};

    cxf_sup answer = {0, 0, 0, 0};
    uint64_t n;
    entry *borders = sup_room(count, sizeof *borders);
    sup_line *lines = sup_room(count + 14, sizeof *lines);
    const refusal code = take_listed(&s, borders, &n);
    /* "TOTALE .. parcels, roads, waters, .. islands", "CONFINE is outer only"; "A kind 3 sheet lists its OTHER borders,
       net, in place of parcels, with TOTALE and CONFINE both their sum." */
    __int128 total = (__int128)class_net(&t, PARCEL) + class_net(&t, ROAD) + class_net(&t, WATER) + figure_of(&t, CONFINE, HOLES_TOTAL);
    int64_t outside = figure_of(&t, CONFINE, OUTER);
    if (kind == QUADRO) total = outside = class_net(&t, OTHER);

    if (code.number != 0) {
        answer = (cxf_sup){code.number, code.row, 0, 0};
    } else if (total > TALLY_MOST || total < -TALLY_MOST) {
        answer.number = TOTAL;
    } else {
        if (n > 1) qsort(borders, (size_t)n, sizeof *borders, in_order);
        const uint64_t line_count = sup_lines(&s, date, &t, borders, n, total, outside, lines);
        writer measure = {NULL, 0}, w = {out, 0};
        for (uint64_t i = 0; i < line_count && answer.number == 0; i++) {
            if (strlen(lines[i].right) > SUP_RIGHT) answer = (cxf_sup){WIDE_FIGURE, 0, i + 1, 0};
            put_sup_line(&measure, &lines[i]);
        }
        if (answer.number == 0) {
            answer = (cxf_sup){measure.length > out_len ? NO_ROOM : 0, 0, 0, measure.length};
            for (uint64_t i = 0; i < line_count && answer.number == 0; i++) put_sup_line(&w, &lines[i]);
        }
    }
    free(borders);
    free(lines);
    return answer;
}

/* ---- Masks ---- */

/* A place "in doubled coordinates so centres are whole". Where one is asked all are in the real range or 64 cells from it. */
typedef struct { int64_t x, y; } doubled;

static doubled doubled_point(const sheet *s, size_t point) { return (doubled){2 * point_x(s, point), 2 * point_y(s, point)}; }

/* "northern row first": rows go south from the corner, columns east, and a centre is half a cell further. */
static doubled centre_of(int64_t corner_x, int64_t corner_y, int64_t cell, int row, int column) {
    return (doubled){2 * corner_x + (2 * column + 1) * cell, 2 * corner_y - (2 * row + 1) * cell};
}

/* "one end north of the centre and the other not, whose crossing lies strictly east of it". The edge is at the centre's height at
   x = a.x + (b.x - a.x) * (centre.y - a.y) / (b.y - a.y); what that is east of the centre is multiplied by b.y - a.y, which
   keeps its sign or turns it. */
static bool edge_counts(doubled a, doubled b, doubled centre) {
    if ((a.y > centre.y) == (b.y > centre.y)) return false;
    const int64_t rise = b.y - a.y;
    const __int128 east = (__int128)(a.x - centre.x) * rise + (__int128)(b.x - a.x) * (centre.y - a.y);
    return rise > 0 ? east > 0 : east < 0;
}

static uint64_t edges_counted(const sheet *s, ring r, doubled centre) {
    uint64_t n = 0;
    for (size_t i = 0; i + 1 < r.vertices; i++)
        if (edge_counts(doubled_point(s, r.first + i), doubled_point(s, r.first + i + 1), centre)) n++;
    return n;
}

/* "inside by the even-odd rule over all rings"; the islands stand behind the outer ring, one behind the other. */
static bool centre_inside(const sheet *s, uint64_t row, spot at, ring outer, doubled centre) {
    uint64_t edges = edges_counted(s, outer, centre);
    ring one = outer;
    for (size_t i = 0; i < (size_t)row_of(s, row)[ISLANDS]; i++) {
        one = (ring){one.first + one.vertices, s->islands[at.islands + i]};
        edges += edges_counted(s, one, centre);
    }
    return edges % 2 == 1;
}

/* "if either end of the grid is off the real range": its corners in the north-west and in the south-east. The cell is good. */
static bool grid_in_range(int64_t corner_x, int64_t corner_y, int64_t cell) {
    return in_real_range(corner_x) && in_real_range(corner_y) && in_real_range(corner_x + MASK_SIDE * cell) &&
           in_real_range(corner_y - MASK_SIDE * cell);
}

/* "or any vertex is more than 40,000,000 mm from the corner in x or y" */
static bool border_near(const sheet *s, uint64_t row, spot at, int64_t corner_x, int64_t corner_y) {
    for (size_t i = at.points; i < at.points + (size_t)row_of(s, row)[VERTICES]; i++) {
        const int64_t dx = point_x(s, i) - corner_x, dy = point_y(s, i) - corner_y; /* all in the real range */
        if (dx > MASK_REACH || dx < -MASK_REACH || dy > MASK_REACH || dy < -MASK_REACH) return false;
    }
    return true;
}

/* "Refusals: 6, 15, 19, 26 for a cell side outside 1 to 10,000, 17, then 20". "The number of covered cells is the sum of each row's
   set bits": every bit that is set adds one. */
cxf_mask ref_mask_of(CXF_SHEET, uint64_t row, int64_t corner_x, int64_t corner_y, int64_t cell) {
    const sheet s = THE_SHEET;
    const refusal r = judge_border(&s, row);
    cxf_mask answer = {.number = r.number, .row = r.row};
    if (r.number != 0) return answer;
    const spot at = spot_of(&s, row);
    int64_t outer_area, islands_area; /* only whether any ring is too wide is of use */
    if (cell < 1 || cell > CELL_MOST) answer.number = BAD_CELL;
    else if (!border_areas(&s, row, at, &outer_area, &islands_area)) answer.number = TOO_WIDE;
    else if (!grid_in_range(corner_x, corner_y, cell) || !border_near(&s, row, at, corner_x, corner_y)) answer.number = OUTSIDE_FRAME;
    if (answer.number != 0) return answer;

    const ring outer = ring_of(&s, row, at, 0);
    for (int north = 0; north < MASK_SIDE; north++)
        for (int west = 0; west < MASK_SIDE; west++) {
            if (!centre_inside(&s, row, at, outer, centre_of(corner_x, corner_y, cell, north, west))) continue;
            answer.rows[north] |= 1ull << (MASK_SIDE - 1 - west);
            answer.covered++;
        }
    return answer;
}

/* ---- Sheets altered ---- */

/* Elements `first` to `next` - 1 of a table go, and those behind them, to `end`, close up; the freed tail keeps what it held. */
static void close_up(void *table, size_t size, size_t first, size_t next, size_t end) {
    uint8_t *at = table;
    if (next > first && end > next) memmove(at + first * size, at + next * size, (end - next) * size);
}

/* T-08: "Removing row k closes up all four tables, keeps the order, keeps every start true and leaves the freed tail as it was."
   "Refusals: 6, 15, 19 for no such row" */
cxf_edited ref_remove(CXF_TABLES, uint64_t row) {
    const sheet s = THE_SHEET;
    const refusal r = judge_sheet(&s);
    if (r.number != 0) return (cxf_edited){r.number, r.row, 0};
    if (row >= count) return (cxf_edited){MISSING, 0, 0};
    spot at = spot_of(&s, row);
    const spot next = after_row(&s, row, at), end = spot_of(&s, count);
    close_up(letters, sizeof *letters, at.letters, next.letters, end.letters);
    close_up(islands, sizeof *islands, at.islands, next.islands, end.islands);
    close_up(points, 2 * sizeof *points, at.points, next.points, end.points);
    close_up(rows, ROW_WIDTH * sizeof *rows, (size_t)row, (size_t)row + 1, (size_t)count);
    for (uint64_t i = row; i < count - 1; i++) {
        put_starts(rows + ROW_WIDTH * i, at);
        at = after_row(&s, i, at);
    }
    return (cxf_edited){0, 0, count - 1};
}

static bool would_stay(int64_t *coordinate, int64_t by) { return in_real_range(*coordinate + by); }

static bool moved(int64_t *coordinate, int64_t by) {
    *coordinate += by;
    return true;
}

/* "every vertex, position, inner point and label point; sizes, angles and missing fields don't change": whether `step` holds of all. */
static bool each_coordinate(const sheet *s, int64_t *rows, int64_t *points, bool (*step)(int64_t *, int64_t), int64_t by_x, int64_t by_y) {
    for (uint64_t row = 0; row < s->count; row++) {
        int64_t *n = rows + ROW_WIDTH * row;
        if (SECTIONS[n[KIND]].place && (!step(n + X, by_x) || !step(n + Y, by_y))) return false;
        if (SECTIONS[n[KIND]].second && (!step(n + SECOND_X, by_x) || !step(n + SECOND_Y, by_y))) return false;
    }
    const size_t vertices = spot_of(s, s->count).points;
    for (size_t i = 0; i < vertices; i++)
        if (!step(points + 2 * i, by_x) || !step(points + 2 * i + 1, by_y)) return false;
    return true;
}

/* "24 if either part of the pair is beyond 109,999,999,998 mm either way or any coordinate would leave the real range, judged before
   anything is stored" */
cxf_edited ref_move(CXF_TABLES, int64_t by_x, int64_t by_y) {
    const sheet s = THE_SHEET;
    const refusal r = judge_sheet(&s);
    if (r.number != 0) return (cxf_edited){r.number, r.row, 0};
    if (by_x > MOVE_MOST || by_x < -MOVE_MOST || by_y > MOVE_MOST || by_y < -MOVE_MOST) return (cxf_edited){MOVED_OFF, 0, 0};
    if (!each_coordinate(&s, rows, points, would_stay, by_x, by_y)) return (cxf_edited){MOVED_OFF, 0, 0};
    each_coordinate(&s, rows, points, moved, by_x, by_y);
    return (cxf_edited){0, 0, count};
}

/* ---- Conversion ---- */

/* T-09: a program "which reads standard input up to 8,192 bytes and prints the clean file, or the refusal line as the listing program has
   it (the writer's 10 gives the row, 0 and 0)". No piece of such a file is written in more than three times its bytes. */
enum { CONVERTED_MOST = 4 * LISTING_LIMIT };

static size_t conversion_text(const uint8_t *src, size_t src_len, uint8_t *text) {
    static int64_t rows[LISTING_LIMIT / 2 * ROW_WIDTH], points[LISTING_LIMIT];
    static uint8_t letters[LISTING_LIMIT];
    static uint16_t islands[LISTING_LIMIT / 2];
    if (src_len > LISTING_LIMIT) return (size_t)sprintf((char *)text, "REFUSED 1 0 0 0\n");
    const cxf_reading r = ref_read(src, src_len, FORMER, rows, LISTING_LIMIT / 2 * ROW_WIDTH, letters, LISTING_LIMIT, islands,
                                   LISTING_LIMIT / 2, points, LISTING_LIMIT);
    if (r.number != 0)
        return (size_t)sprintf((char *)text, "REFUSED %llu %llu %llu %llu\n", (unsigned long long)r.number, (unsigned long long)r.record,
                               (unsigned long long)r.offset, (unsigned long long)r.column);
    const cxf_written w = ref_write(r.kind, r.name, NAME_LENGTH, r.scale, r.rows, rows, (size_t)r.rows * ROW_WIDTH, letters, (size_t)r.letters,
                                    islands, (size_t)r.islands, points, (size_t)r.points * 2, text, CONVERTED_MOST);
    if (w.number != 0)
        return (size_t)sprintf((char *)text, "REFUSED %llu %llu 0 0\n", (unsigned long long)w.number, (unsigned long long)w.row);
    return (size_t)w.length;
}

cxf_listed ref_convert(const uint8_t *src, size_t src_len, uint8_t *out, size_t out_len) {
    static uint8_t text[CONVERTED_MOST];
    const size_t n = conversion_text(src, src_len, text);
    if (n > out_len) return (cxf_listed){NO_ROOM, n};
    memcpy(out, text, n);
    return (cxf_listed){0, n};
}

/* ---- SUP files checked ---- */

/* TOTALE's exact sum and CONFINE's, with how many borders, or islands, each is the sum of. */
typedef struct { __int128 total; int64_t outside, total_parts, outside_parts; } sums;

static sums sums_of(const cxf_tally *t, uint64_t kind) {
    if (kind == QUADRO) { /* "For kind 3 the allowance on both totals is 1 m2 per OTHER border." */
        const int64_t borders = figure_of(t, OTHER, BORDERS);
        return (sums){class_net(t, OTHER), class_net(t, OTHER), borders, borders};
    }
    return (sums){
        (__int128)class_net(t, PARCEL) + class_net(t, ROAD) + class_net(t, WATER) + figure_of(t, CONFINE, HOLES_TOTAL),
        figure_of(t, CONFINE, OUTER),
        figure_of(t, PARCEL, BORDERS) + figure_of(t, ROAD, BORDERS) + figure_of(t, WATER, BORDERS) + figure_of(t, CONFINE, HOLES),
        figure_of(t, CONFINE, BORDERS),
    };
}

/* What a line is to say: its name, and a date, a count, a figure near an exact doubled area, or the difference of two lines' figures. */
typedef enum { DATED, COUNTED, MEASURED, BALANCE } line_form;
typedef struct { const uint8_t *left; size_t left_len; line_form form; __int128 exact; int64_t parts; } wanted;

static wanted wanted_line(const char *word, line_form form, __int128 exact, int64_t parts) {
    return (wanted){(const uint8_t *)word, strlen(word), form, exact, parts};
}

/* T-01's lines in their order; how many. "a listed border's area .. by at most 1 m2, each class total by at most 1 m2 per border counted
   (per island for SVIL-ALL), TOTALE by at most its parts' allowances together, CONFINE by at most 1 m2 per CONFINE border". */
static uint64_t wanted_lines(const sheet *s, const cxf_tally *t, const entry *borders, uint64_t listed_count, sums both, wanted *lines) {
    uint64_t n = 0;
    lines[n++] = (wanted){s->name, NAME_LENGTH, DATED, 0, 0};
    lines[n++] = wanted_line("N.FABBRIC", COUNTED, figure_of(t, BUILDING, BORDERS), 0);
    lines[n++] = wanted_line("N.PARTIC", COUNTED, figure_of(t, PARCEL, BORDERS), 0);
    lines[n++] = wanted_line("N.STRADE", COUNTED, figure_of(t, ROAD, BORDERS), 0);
    lines[n++] = wanted_line("N.ACQUE", COUNTED, figure_of(t, WATER, BORDERS), 0);
    lines[n++] = wanted_line("N.SVIL-ALL", COUNTED, figure_of(t, CONFINE, HOLES), 0);
    lines[n++] = wanted_line("FABBRIC", MEASURED, class_net(t, BUILDING), figure_of(t, BUILDING, BORDERS));
    for (uint64_t i = 0; i < listed_count; i++) lines[n++] = (wanted){borders[i].code, borders[i].length, MEASURED, borders[i].net, 1};
    lines[n++] = wanted_line("PARTIC", MEASURED, class_net(t, PARCEL), figure_of(t, PARCEL, BORDERS));
    lines[n++] = wanted_line("STRADE", MEASURED, class_net(t, ROAD), figure_of(t, ROAD, BORDERS));
    lines[n++] = wanted_line("ACQUE", MEASURED, class_net(t, WATER), figure_of(t, WATER, BORDERS));
    lines[n++] = wanted_line("SVIL-ALL", MEASURED, figure_of(t, CONFINE, HOLES_TOTAL), figure_of(t, CONFINE, HOLES));
    lines[n++] = wanted_line("TOTALE", MEASURED, both.total, both.total_parts);
    lines[n++] = wanted_line("CONFINE", MEASURED, both.outside, both.outside_parts);
    lines[n++] = wanted_line("SBILANCIO", BALANCE, 0, 0);
    return n;
}

/* A right field that is the spelling of some figure: what it says is spelled again and compared. */
static bool figure_in(const uint8_t *field, int64_t *figure) {
    char text[SUP_RIGHT + 1] = {0}, again[32];
    memcpy(text, field, SUP_RIGHT);
    *figure = strtoll(text, NULL, 10);
    snprintf(again, sizeof again, "%10lld", (long long)*figure);
    return strlen(again) == SUP_RIGHT && memcmp(again, field, SUP_RIGHT) == 0;
}

enum { SUP_LINE = SUP_LEFT + SUP_RIGHT + 2 };

/* Whether a line of 23 bytes is right; `figure` is what it says, `balance` what SBILANCIO is to say. */
static bool line_right(const uint8_t *line, const wanted *w, int64_t balance, int64_t *figure) {
    if (w->left_len > SUP_LEFT || memcmp(line, w->left, w->left_len) != 0) return false; /* "a code over 11 letters makes its line wrong" */
    for (size_t i = w->left_len; i < SUP_LEFT; i++)
        if (line[i] != ' ') return false;
    if (memcmp(line + SUP_LEFT + SUP_RIGHT, "\r\n", 2) != 0) return false;
    const uint8_t *right = line + SUP_LEFT;
    if (w->form == DATED) return memcmp(right, "  ", 2) == 0 && good_date(right + 2, 8);
    if (!figure_in(right, figure)) return false;
    if (w->form == COUNTED) return *figure == w->exact;
    if (w->form == BALANCE) return *figure == balance; /* "SBILANCIO is exactly the file's TOTALE less its CONFINE" */
    const __int128 off = (__int128)2000000 * *figure - w->exact, allowed = (__int128)2000000 * w->parts;
    return -allowed <= off && off <= allowed;
}

/* How many lines at the beginning of the file are right. */
static uint64_t right_lines(const uint8_t *sup, size_t sup_len, const wanted *lines, uint64_t n) {
    int64_t figure = 0, before = 0, last = 0; /* the figures of the two lines before */
    uint64_t right = 0;
    for (; right < n; right++) {
        if (sup_len - SUP_LINE * right < SUP_LINE || !line_right(sup + SUP_LINE * right, &lines[right], before - last, &figure)) break;
        before = last;
        last = figure;
    }
    return right;
}

/* "Refusals: the sheet's own as in T-01, then 25 with the first wrong line from 1, one past the last if lines are missing". */
cxf_sup_checked ref_sup_check(CXF_SHEET, const uint8_t *sup, size_t sup_len) {
    const sheet s = THE_SHEET;
    const cxf_tally t = ref_tally_sheet(kind, name, name_len, scale, count, rows, rows_len, letters, letters_len, islands, islands_len,
                                        points, points_len);
    if (t.number != 0) return (cxf_sup_checked){t.number, t.row, 0};
    const sums both = sums_of(&t, kind);
    if (both.total > TALLY_MOST || both.total < -TALLY_MOST) return (cxf_sup_checked){TOTAL, 0, 0};

    uint64_t n;
    entry *borders = sup_room(count, sizeof *borders);
    wanted *lines = sup_room(count + 14, sizeof *lines);
    (void)take_listed(&s, borders, &n); /* 22 does not apply */
    if (n > 1) qsort(borders, (size_t)n, sizeof *borders, in_order);
    const uint64_t line_count = wanted_lines(&s, &t, borders, n, both, lines), right = right_lines(sup, sup_len, lines, line_count);
    free(borders);
    free(lines);
    if (right == line_count && sup_len == SUP_LINE * line_count) return (cxf_sup_checked){0, 0, 0};
    return (cxf_sup_checked){WRONG_LINE, 0, right + 1};
}

/* The nearest figure of 10 characters. */
static int64_t ten_characters(int64_t figure) { return figure > 9999999999 ? 9999999999 : figure < -999999999 ? -999999999 : figure; }

size_t near_sup(CXF_SHEET, const uint8_t *date, uint8_t *out) {
    const sheet s = THE_SHEET;
    const cxf_tally t = ref_tally_sheet(kind, name, name_len, scale, count, rows, rows_len, letters, letters_len, islands, islands_len,
                                        points, points_len);
    if (t.number != 0) return 0;
    const sums both = sums_of(&t, kind);
    if (both.total > TALLY_MOST || both.total < -TALLY_MOST) return 0;
    uint64_t n;
    entry *borders = sup_room(count, sizeof *borders);
    wanted *lines = sup_room(count + 14, sizeof *lines);
    (void)take_listed(&s, borders, &n);
    if (n > 1) qsort(borders, (size_t)n, sizeof *borders, in_order);
    const uint64_t line_count = wanted_lines(&s, &t, borders, n, both, lines);
    int64_t before = 0, last = 0;
    for (uint64_t i = 0; i < line_count; i++) {
        const wanted *w = &lines[i];
        const int64_t said = w->form == COUNTED ? (int64_t)w->exact : w->form == BALANCE ? before - last : square_metres(w->exact);
        const int64_t figure = ten_characters(said);
        char text[64];
        if (w->form == DATED) snprintf(text, sizeof text, "  %.8s\r\n", (const char *)date);
        else snprintf(text, sizeof text, "%10lld\r\n", (long long)figure);
        memset(out + SUP_LINE * i, ' ', SUP_LEFT);
        memcpy(out + SUP_LINE * i, w->left, w->left_len < SUP_LEFT ? w->left_len : SUP_LEFT);
        memcpy(out + SUP_LINE * i + SUP_LEFT, text, SUP_RIGHT + 2);
        before = last;
        last = figure;
    }
    free(borders);
    free(lines);
    return (size_t)(SUP_LINE * line_count);
}

/* ---- Lines as CML ---- */

static void put_words(writer *w, const char *text) { put(w, text, strlen(text)); }

/* T-11: "COORD with `x,y` pairs parted by one blank, three decimals, no padding". 001, note 9: "Ciascun elemento contiene al massimo 1000
   vertici", so a longer line has several, filled in turn. */
static void put_coord(writer *w, const sheet *s, size_t first, size_t vertices) {
    char x[40], y[40];
    put_words(w, "<COORD>");
    for (size_t i = 0; i < vertices; i++) {
        spell_real(x, point_x(s, first + i));
        spell_real(y, point_y(s, first + i));
        put_words(w, i == 0 ? "" : " ");
        put_words(w, x);
        put_words(w, ",");
        put_words(w, y);
    }
    put_words(w, "</COORD>");
}

/* "attributes `valenza`, `esterconf`, `cod`, `n.vert` in that order, then COORD"; "Each element stands on one line ending in LF, with no
   blank between tags and no outer document." */
static void put_element(writer *w, const sheet *s, uint64_t row, spot at) {
    const int64_t *n = row_of(s, row);
    char tag[120];
    snprintf(tag, sizeof tag, "<LINEA valenza=\"CONSOLID\" esterconf=\"%s\" cod=\"%lld\" n.vert=\"%lld\">", n[OUTSIDE] == 1 ? "SI" : "NO",
             (long long)n[CODE_AT], (long long)n[VERTICES]);
    put_words(w, tag);
    for (size_t done = 0, all = (size_t)n[VERTICES]; done < all; done += COORD_MOST)
        put_coord(w, s, at.points + done, all - done < COORD_MOST ? all - done : COORD_MOST);
    put_words(w, "</LINEA>\n");
}

static void put_elements(writer *w, const sheet *s) {
    spot at = {0, 0, 0};
    for (uint64_t row = 0; row < s->count; row++) {
        if (row_of(s, row)[KIND] == LINEA) put_element(w, s, row, at);
        at = after_row(s, row, at);
    }
}

/* "Refusals: 6, 15, 1 above 16,777,216 bytes, 14 with the needed length." */
cxf_written ref_cml_lines(CXF_SHEET, uint8_t *out, size_t out_len) {
    const sheet s = THE_SHEET;
    const refusal r = judge_sheet(&s);
    if (r.number != 0) return (cxf_written){r.number, r.row, 0};
    writer measure = {NULL, 0}, w = {out, 0};
    put_elements(&measure, &s);
    if (measure.length > FILE_LIMIT) return (cxf_written){TOO_LONG, 0, 0};
    if (measure.length > out_len) return (cxf_written){NO_ROOM, 0, measure.length};
    put_elements(&w, &s);
    return (cxf_written){0, 0, w.length};
}
