/* Inputs from a seed: sheets, files, numbers and records, valid and damaged. The same seed gives the same inputs. */
#ifndef GENERATE_H
#define GENERATE_H

#include <stdbool.h>
#include <stddef.h>
#include <stdint.h>

typedef struct { uint64_t state; } rng;

rng seeded(uint64_t seed, uint64_t which);
uint64_t any(rng *g);                             /* any 64 bits */
uint64_t below(rng *g, uint64_t n);               /* 0 to n - 1 */
int64_t between(rng *g, int64_t low, int64_t high);
bool one_in(rng *g, uint64_t n);

/* A growing string of bytes. */
typedef struct { uint8_t *at; size_t len, room; } bytes;

void add_byte(bytes *b, uint8_t byte);
void add_bytes(bytes *b, const void *from, size_t n);

/* A sheet as it is handed in. The lengths are what the callee is told; each table has room beyond it, so that a length
   can be made longer with garbage. */
typedef struct {
    uint64_t kind;
    uint8_t name[16];
    size_t name_len;
    int64_t scale;
    uint64_t count;
    int64_t *rows;
    size_t rows_len, rows_room;
    uint8_t *letters;
    size_t letters_len, letters_room;
    uint16_t *islands;
    size_t islands_len, islands_room;
    int64_t *points;
    size_t points_len, points_room;
} tables;

typedef enum { SHORT, MIDDLE, LONG } size_class;

/* A well made sheet of any kind, with all kinds of rows. */
void make_sheet(rng *g, size_class size, tables *t);
/* A well made sheet of one border whose rings touch, overlap, stand still or reach too far, or do none of it. */
void make_rings(rng *g, size_class size, tables *t);
/* A well made sheet whose rings wind round so often that a class's total comes to the tally's limit or just past it. */
void make_wound(rng *g, tables *t);
/* A well made sheet with listed codes that is written in exactly `length` bytes (a million or more). */
void make_full(rng *g, size_t length, tables *t);
/* A well made sheet for a SUP file, its doubled areas drawn and then built: listed borders with equal codes, codes that begin
   each other, 10 to 13 letters, nets below zero, halves, and figures at the 10 characters' end. LONG lists hundreds. */
void make_listed(rng *g, size_class size, tables *t);
/* The same with TOTALE at the tally's limit or just past it, on either side of zero, while each part keeps it. */
void make_combined(rng *g, tables *t);
/* A SUP file's date, good or nearly; its length. */
size_t make_date(rng *g, uint8_t out[16]);
/* Alters a SUP file: figures by their allowance, by one more and by little, their form, lines that are gone, twice or exchanged, line ends,
   the date, any byte, its length. What it does may also leave the file right. */
void damage_sup(rng *g, bytes *sup);
/* Where a mask is asked for: its north-west corner and the side of a cell. */
typedef struct { int64_t x, y, cell; } frame;
/* A well made sheet of borders that lie about a frame, which is made too: vertices on centres, on their heights and on the grid's
   lines, islands in the outer ring, across it and equal to it, rings far wider than the grid and up to the ends of what is near. */
void make_masked(rng *g, size_class size, tables *t, frame *f);
/* A frame about some vertex of a sheet, so that centres fall on it, or any. */
frame make_frame(rng *g, const tables *t);
/* Alters a frame: a bad cell, a corner next to what is too far, an end of the grid at or past the real range. */
void damage_frame(rng *g, const tables *t, frame *f);
/* How far a sheet is moved, in millimetres. */
typedef struct { int64_t x, y; } pair;
/* A well made sheet and a pair to move it by, with which some coordinate, of any sort, just stays in the real range or just leaves it. */
void make_moved(rng *g, size_class size, tables *t, pair *by);
/* Any pair: small, at the end of what a move may be, past it. */
pair make_pair(rng *g);
/* Lengthens the tables of a sheet, or some, with numbers that are no part of it. */
void lengthen(rng *g, tables *t);
/* A well made sheet of lines, of 2 vertices, 1000, 1001, 2000, 9999 and others, among other rows; any code. */
void make_lines(rng *g, size_class size, tables *t);
/* A well made sheet whose lines make a CML text of exactly `length` bytes (a million or more). */
void make_full_lines(rng *g, size_t length, tables *t);
/* Alters one line of a well made sheet: its outside mark, its code, or a coordinate. False where there is none. */
bool alter_line(rng *g, tables *t);
/* Alters one thing of a well made sheet: a letter, a code, an outside mark, a number or a coordinate by a millimetre, a header value. It may
   no longer be well made then, or no longer have listed codes alone. */
void alter_sheet(rng *g, tables *t);
/* A sheet that is whole but for one count or length just past its rule: an island of 3, a line of 1 or of 10,000, 256
   letters and the like, with all that belongs to it. As a file too it is refused for that alone. */
void make_odd(rng *g, tables *t);
/* Damages one number, letter, count, length or header field; what it does may also leave the sheet well made. */
void damage_sheet(rng *g, tables *t);

/* A file made from a well made sheet, in exact or loose dress, with 0 or more faults. `faults` tells how many; with
   none the loose mode reads the sheet, unless a note stands behind some number: then the former reading alone does (T-09), and the
   answer is true. */
bool make_file(rng *g, const tables *t, int faults, bytes *out);
/* How many faults a file is to have. */
int some_faults(rng *g);

/* What may stand in a number record, and mostly nearly does. */
void make_number(rng *g, bytes *out);
/* Bytes with line ends, long records and bad bytes. */
void make_records(rng *g, bytes *out);

/* A number at an end of some range, or near it, or anything. */
int64_t edge_number(rng *g);

#endif
