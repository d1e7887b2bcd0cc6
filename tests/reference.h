/* The C interface, declared anew from its paper and not taken from include/cxf.h, so that a slip there shows here.
   The same functions twice: cxf_* is the library under test, ref_* the reference in reference.c. */
#ifndef REFERENCE_H
#define REFERENCE_H

#include <stddef.h>
#include <stdint.h>

typedef struct {
    uint64_t number;
    uint64_t record, offset;                 /* the refusal's place; 0 and 0 with 1 and 14 */
    uint64_t column;                         /* T-04: in that record, from 1, with 8; else 0 */
    uint64_t rows, letters, islands, points; /* used where number is 0, needed where it is 14 */
    uint64_t kind;                           /* the header, where number is 0 */
    int64_t scale;
    uint8_t name[11];
} cxf_reading;

/* A sheet that is handed in: its header, how many rows it has, and its four tables. */
#define CXF_SHEET                                                                                        \
    uint64_t kind, const uint8_t *name, size_t name_len, int64_t scale, uint64_t count,                  \
    const int64_t *rows, size_t rows_len, const uint8_t *letters, size_t letters_len,                    \
    const uint16_t *islands, size_t islands_len, const int64_t *points, size_t points_len

typedef struct { uint64_t number, row, length; } cxf_written;
typedef struct {
    uint64_t number, row, class_of; /* 1 CONFINE, 2 OTHER, 3 ROAD, 4 WATER, 5 BUILDING, 6 PARCEL */
    int64_t size, angle, x, y, inner_x, inner_y;
    uint64_t letters, islands, vertices;
} cxf_border;
typedef struct { uint64_t number, row, surface_right, centroid; } cxf_text;
typedef struct { uint64_t number, row; int64_t doubled; } cxf_area;
typedef struct { uint64_t number, row; int64_t figures[24]; } cxf_tally;
typedef struct { uint64_t number, row, simple, first, second; } cxf_ring;
typedef struct { uint64_t number; float east, south; } cxf_tile;
typedef struct { uint64_t number, start, length, next; } cxf_record;
typedef struct { uint64_t number, column; int64_t value; } cxf_number; /* T-04: the column with 8 */
typedef struct { uint64_t number, length; } cxf_listed;
typedef struct { uint64_t number, row, line, length; } cxf_sup; /* T-01; line, from 1, with 23 */
typedef struct { uint64_t number, row; uint64_t rows[64]; uint64_t covered; } cxf_mask; /* T-03; the northern row first, west in the highest bit */

#define DECLARE_INTERFACE(P)                                                                             \
    cxf_reading P##_read(const uint8_t *src, size_t src_len, uint64_t mode, int64_t *rows,               \
                         size_t rows_len, uint8_t *letters, size_t letters_len, uint16_t *islands,       \
                         size_t islands_len, int64_t *points, size_t points_len);                        \
    cxf_written P##_write(CXF_SHEET, uint8_t *out, size_t out_len);                                      \
    cxf_border P##_border_at(CXF_SHEET, uint64_t row);                                                   \
    cxf_text P##_text_at(CXF_SHEET, uint64_t row);                                                       \
    cxf_area P##_ring_area(CXF_SHEET, uint64_t row, uint64_t ring);                                      \
    cxf_area P##_net_area(CXF_SHEET, uint64_t row);                                                      \
    cxf_tally P##_tally_sheet(CXF_SHEET);                                                                \
    cxf_tally P##_tally_take(const int64_t *figures, size_t figures_len, CXF_SHEET, uint64_t row);       \
    cxf_ring P##_ring_check(CXF_SHEET, uint64_t row, uint64_t ring);                                     \
    cxf_tile P##_tile_point(int64_t corner_x, int64_t corner_y, int64_t x, int64_t y);                   \
    cxf_record P##_record_at(const uint8_t *src, size_t src_len, uint64_t at, uint64_t mode,             \
                             uint64_t keyword_due);                                                      \
    cxf_number P##_integer(const uint8_t *content, size_t content_len, uint64_t mode);                   \
    cxf_number P##_real(const uint8_t *content, size_t content_len, uint64_t mode);                      \
    cxf_listed P##_listing(const uint8_t *src, size_t src_len, uint8_t *out, size_t out_len);

#define DECLARE_SUP(P) cxf_sup P##_sup_write(CXF_SHEET, const uint8_t *date, size_t date_len, uint8_t *out, size_t out_len);

#ifndef STRUCTS_ALONE /* header.c declares the functions with the header's own structs */
DECLARE_INTERFACE(cxf)
DECLARE_INTERFACE(ref)
DECLARE_SUP(cxf)
DECLARE_SUP(ref)
uint64_t cxf_interface(void);

/* Fills the starts of rows from their counts, for sheets made by hand. */
void set_starts(int64_t *rows, uint64_t count);
#endif

/* T-05: kinds 6 and 7 */
enum { LAST_KIND = 7 };

/* T-07: "three fields more, 15 in all" */
#define ROW_WIDTH 15u

/* T-08: a sheet whose tables may be altered */
#define CXF_TABLES                                                                                       \
    uint64_t kind, const uint8_t *name, size_t name_len, int64_t scale, uint64_t count,                  \
    int64_t *rows, size_t rows_len, uint8_t *letters, size_t letters_len,                                \
    uint16_t *islands, size_t islands_len, int64_t *points, size_t points_len

typedef struct { uint64_t number, row, count; } cxf_edited; /* T-08; the rows at exit where number is 0 */

#define DECLARE_EDITS(P)                                                                                 \
    cxf_edited P##_remove(CXF_TABLES, uint64_t row);                                                     \
    cxf_edited P##_move(CXF_TABLES, int64_t by_x, int64_t by_y);

#ifndef STRUCTS_ALONE
DECLARE_EDITS(cxf)
DECLARE_EDITS(ref)
#endif

/* The modes: 0 is loose, 1 (or anything else) exact; T-09: "mode 2 is the former reading". */
enum { MODES = 3 };

/* T-12: a reading with no mode named */
#define DECLARE_DEFAULT(P)                                                                               \
    cxf_reading P##_read_default(const uint8_t *src, size_t src_len, int64_t *rows, size_t rows_len,     \
                                 uint8_t *letters, size_t letters_len, uint16_t *islands,                \
                                 size_t islands_len, int64_t *points, size_t points_len);

#ifndef STRUCTS_ALONE
DECLARE_DEFAULT(cxf)
DECLARE_DEFAULT(ref)
#endif

#define DECLARE_CONVERT(P) cxf_listed P##_convert(const uint8_t *src, size_t src_len, uint8_t *out, size_t out_len);

#ifndef STRUCTS_ALONE
DECLARE_CONVERT(cxf)
DECLARE_CONVERT(ref)
#endif

typedef struct { uint64_t number, row, line; } cxf_sup_checked; /* T-10; line, from 1, with 25 */

#define DECLARE_SUP_CHECK(P) cxf_sup_checked P##_sup_check(CXF_SHEET, const uint8_t *sup, size_t sup_len);

#ifndef STRUCTS_ALONE
DECLARE_SUP_CHECK(cxf)
DECLARE_SUP_CHECK(ref)

/* T-01's file, for tests of T-10; also where T-01 refuses 22 or 23: then codes are cut, and figures are the nearest that 10 characters
   show. Its length; 0 where the sheet is refused. `out` has room for 23 bytes a row and 14 times 23 more. */
size_t near_sup(CXF_SHEET, const uint8_t *date, uint8_t *out);
#endif

/* T-11: row with 15; length written, or needed with 14 */
#define DECLARE_CML(P) cxf_written P##_cml_lines(CXF_SHEET, uint8_t *out, size_t out_len);

#ifndef STRUCTS_ALONE
DECLARE_CML(cxf)
DECLARE_CML(ref)
#endif

#define DECLARE_MASK(P) cxf_mask P##_mask_of(CXF_SHEET, uint64_t row, int64_t corner_x, int64_t corner_y, int64_t cell);

#ifndef STRUCTS_ALONE
DECLARE_MASK(cxf)
DECLARE_MASK(ref)
#endif

#endif
