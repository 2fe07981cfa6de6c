/* Columns of byte views for C99 and C++: reading, comparison, the check, marks of element codes, the builder, compaction and the offset column.

   Link target/libtambuyeel.a, which ./library makes of the proved crates exports, text_exports, mark_exports, builder_exports, times_exports and
   output_exports. It is built for x86-64 Linux alone. The calls are proved in Rattle; this header is written by hand, and nothing proves that it says the
   same.

   What is lent
     A slice is a pointer and a count of elements; a null pointer with the count 0 is an empty slice. A pointer to a struct is never null.
     What a call writes to must overlap nothing else that is lent to the same call: a value that is appended doesn't lie in the builder's own
     buffers, and a compaction writes to other buffers than it reads. No content of a buffer, and no number, makes a call misbehave or fail to end.

       views    16 bytes a row: the length, then the value with zeros after it (up to 12 bytes), or its first four bytes, block and offset
       bytes    the data, all blocks in it
       starts   each block's start in the data
       lens     each block's length; the table is as long as the shorter of the two
       nulls    the null map, one bit a row, the low bit first, 1 = valid
       places   the merge table of a builder that merges, at least one place a row (twice as many make it faster); else none is needed

   How a call answers
     0, or the number of its refusal: TAMBUYEEL_REFUSED_... below. Alone as a uint64_t, or as the first word of a struct whose other words
     are 0 where it is refused. A refused call leaves the state, the column and every lent buffer as they came.
     Three calls differ. tambuyeel_why_value answers a uint8_t. tambuyeel_compare answers an order, tambuyeel_same_column 1 or 0; refused,
     both add TAMBUYEEL_LEFT or TAMBUYEEL_RIGHT to the number. tambuyeel_utf8 asks and can't be refused.
     11 names a row, counted from the column's first: the row word where a struct has one; where it has none, the row that was asked for.
     Above each call stand the refusals it gives, in the order in which they are tried.

   Each call stands here twice: as it is exported, and as an inline wrapper (its name and _in) over structs of pointers. Wrappers answer in one
   way: a tambuyeel_verdict says number, side and row, and what was asked for goes through the last pointer. */
#ifndef TAMBUYEEL_H
#define TAMBUYEEL_H

#if !defined(__x86_64__) || !defined(__linux__) || defined(__ILP32__)
#error "libtambuyeel.a is built for x86-64 Linux with 64-bit pointers only"
#endif

#include <stddef.h>
#include <stdint.h>

#ifdef __cplusplus
extern "C" {
#endif

/* The refusals. docs/CALLS.md says what to do about each, and which number is left out. */
enum {
    TAMBUYEEL_ACCEPTED = 0,
    TAMBUYEEL_REFUSED_SETTING = 1,    /* block size not 1 to 16,777,216; merge maximum 0; compaction maximum above 2^31 - 1 */
    TAMBUYEEL_REFUSED_NUMBERS = 2,    /* the numbers of a column or state don't fit its buffers or the limits below */
    TAMBUYEEL_REFUSED_ROW = 3,        /* row, or slice end, past the rows */
    TAMBUYEEL_REFUSED_TOO_LONG = 4,   /* value or block above 16,777,216 bytes */
    TAMBUYEEL_REFUSED_ROW_ROOM = 5,   /* too little row room: views, null map, and places where the builder merges */
    TAMBUYEEL_REFUSED_BLOCK_ROOM = 6, /* too little block room: starts and lens */
    TAMBUYEEL_REFUSED_DATA_ROOM = 7,  /* too little data room: bytes */
    TAMBUYEEL_REFUSED_NO_BLOCK = 8,   /* no completed block of that number */
    TAMBUYEEL_REFUSED_RANGE = 9,      /* range outside the block, or the block outside the data */
    TAMBUYEEL_REFUSED_NOT_UTF8 = 10,  /* not UTF-8, String kind only */
    TAMBUYEEL_REFUSED_VIEW = 11,      /* a view that isn't reachable (reading, comparing, marks) or isn't true (check, compaction, appending) */
    TAMBUYEEL_REFUSED_OFFSETS = 13    /* offsets absent, negative, falling, or past the bytes */
};

/* Which of two columns a refusal is of: added to its number. */
enum { TAMBUYEEL_LEFT = 16, TAMBUYEEL_RIGHT = 32 };

/* What a comparison answers. */
enum { TAMBUYEEL_LESS = 0, TAMBUYEEL_EQUAL = 1, TAMBUYEEL_GREATER = 2 };

/* Marks of a row under the element code profile: a null; no element code; a code; a code that a spreadsheet would take for a date. */
enum { TAMBUYEEL_MARK_NULL = 0, TAMBUYEEL_MARK_OTHER = 1, TAMBUYEEL_MARK_CODE = 2, TAMBUYEEL_MARK_DATE = 3 };

/* Kinds of columns and builders; ways of growth and of merging. */
enum { TAMBUYEEL_BINARY = 0, TAMBUYEEL_STRING = 1 };
enum { TAMBUYEEL_FIXED = 0, TAMBUYEEL_DOUBLING = 1 };
enum { TAMBUYEEL_MERGE_OFF = 0, TAMBUYEEL_MERGE_ON = 1, TAMBUYEEL_MERGE_UP_TO = 2 };

/* Which buffer a place is in. */
enum { TAMBUYEEL_IN_VIEWS = 0, TAMBUYEEL_IN_BYTES = 1 };

/* The limits: rows counted from row 0 of the views, blocks, bytes of data and of a value, the maximum of a compaction; a view's size, the longest
   value that lies in its view. */
enum {
    TAMBUYEEL_MOST_ROWS = 32767,
    TAMBUYEEL_MOST_BLOCKS = 4096,
    TAMBUYEEL_MOST_BYTES = 16777216,
    TAMBUYEEL_MOST_MAXIMUM = 2147483647,
    TAMBUYEEL_VIEW_SIZE = 16,
    TAMBUYEEL_SHORT_MOST = 12
};

/* A column's numbers: first row, rows, blocks, kind (TAMBUYEEL_BINARY, else String), 0 for no null map. */
typedef struct {
    size_t first;
    size_t rows;
    size_t blocks;
    size_t kind;
    size_t mapped;
} tambuyeel_column;

/* What a builder is started with: kind; growth, and the block size where it is fixed; merging, and the longest value that merges with
   TAMBUYEEL_MERGE_UP_TO. */
typedef struct {
    size_t kind;
    size_t growth;
    size_t size;
    size_t merging;
    size_t most;
} tambuyeel_settings;

/* A builder's state, made by tambuyeel_start: kind, growth and the size it has reached, merging and its maximum; rows, completed blocks, bytes
   before the open block, bytes and capacity of the open block; 1 if a null was added. */
typedef struct {
    size_t kind;
    size_t growth;
    size_t size;
    size_t merging;
    size_t most;
    size_t rows;
    size_t blocks;
    size_t base;
    size_t fill;
    size_t cap;
    size_t nulled;
} tambuyeel_state;

/* An answer, and the row that 11 names; row is 0 where none is named. */
typedef struct {
    uint64_t number;
    size_t row;
} tambuyeel_told;

/* A part of a buffer: 0 or the refusal's number, which buffer (TAMBUYEEL_IN_VIEWS or TAMBUYEEL_IN_BYTES), its first byte there, how many bytes. */
typedef struct {
    uint64_t refused;
    uint64_t buffer;
    size_t offset;
    size_t len;
} tambuyeel_place;

/* A number: 0 or the refusal's number, and what was asked for. */
typedef struct {
    uint64_t refused;
    size_t number;
} tambuyeel_counted;

/* Rows of a column: 0 or the refusal's number, the first row, how many. */
typedef struct {
    uint64_t refused;
    size_t first;
    size_t rows;
} tambuyeel_run;

/* How many rows have each mark: 0 or the refusal's number, the row that 11 names (0 where none is named), the nulls, the rows that are no codes, the codes,
   the dates. A code that is a date counts among the dates alone. */
typedef struct {
    uint64_t refused;
    size_t row;
    size_t nulls;
    size_t others;
    size_t codes;
    size_t dates;
} tambuyeel_marks;

/* Whether a text is well-formed UTF-8 (1 or 0), and how many of its first bytes are well-formed sequences: all, or where the first bad one begins. */
typedef struct {
    uint64_t yes;
    size_t place;
} tambuyeel_text;

/* The parameters of one column; of a builder's buffers; of the buffers that an output is written to. */
#define TAMBUYEEL_COLUMN(n) \
    const uint8_t *views##n, size_t views_len##n, const uint8_t *bytes##n, size_t bytes_len##n, \
    const size_t *starts##n, size_t starts_len##n, const size_t *lens##n, size_t lens_len##n, \
    const uint8_t *nulls##n, size_t nulls_len##n, const tambuyeel_column *column##n
#define TAMBUYEEL_OUTPUT(n) \
    uint8_t *views##n, size_t views_len##n, uint8_t *bytes##n, size_t bytes_len##n, \
    size_t *starts##n, size_t starts_len##n, size_t *lens##n, size_t lens_len##n, \
    uint8_t *nulls##n, size_t nulls_len##n
#define TAMBUYEEL_BUILDER \
    tambuyeel_state *state, TAMBUYEEL_OUTPUT(), uint32_t *places, size_t places_len

/* ----- Reading. No call here writes to what it is lent. */

/* 2, 3, 11. Which bytes a row's value is, the null bit ignored. */
tambuyeel_place tambuyeel_value(TAMBUYEEL_COLUMN(), size_t row);

/* 2, 3, 11. Which bytes are the first n or the last n of a row's value; none where it has fewer (len is 0 then). */
tambuyeel_place tambuyeel_prefix(TAMBUYEEL_COLUMN(), size_t row, size_t n);
tambuyeel_place tambuyeel_suffix(TAMBUYEEL_COLUMN(), size_t row, size_t n);

/* 2, 3, 11. Whether a row's value can be read. */
uint8_t tambuyeel_why_value(TAMBUYEEL_COLUMN(), size_t row);

/* 2, 3. A row's length, as its view says it; a row's null bit: 1 valid, 0 null. */
tambuyeel_counted tambuyeel_length(TAMBUYEEL_COLUMN(), size_t row);
tambuyeel_counted tambuyeel_null_bit(TAMBUYEEL_COLUMN(), size_t row);

/* 2, 3. The nulls among count rows from start on; the column of these rows over the same buffers. */
tambuyeel_counted tambuyeel_null_run(TAMBUYEEL_COLUMN(), size_t start, size_t count);
tambuyeel_run tambuyeel_slice(TAMBUYEEL_COLUMN(), size_t start, size_t count);

/* 2. The lengths of all rows that aren't null; the lengths of all long rows, null ones too. */
tambuyeel_counted tambuyeel_total_bytes_len(TAMBUYEEL_COLUMN());
tambuyeel_counted tambuyeel_total_buffer_bytes_used(TAMBUYEEL_COLUMN());

/* 2, 11 (the lowest row whose view isn't true), 9. The validity check. */
tambuyeel_told tambuyeel_check(TAMBUYEEL_COLUMN());

/* 2, 3, 11, each tried on the left column first. Row i of one column against row j of another, null bits ignored: TAMBUYEEL_LESS, _EQUAL, _GREATER.
   With 11 the row is i on the left column, j on the right one. */
uint64_t tambuyeel_compare(TAMBUYEEL_COLUMN(), size_t i, TAMBUYEEL_COLUMN(2), size_t j);

/* 2, 11, each tried on the left column first. Whether two columns have as many rows and, at each row, equal null bits and equal shown values: 1 or 0. */
tambuyeel_told tambuyeel_same_column(TAMBUYEEL_COLUMN(), TAMBUYEEL_COLUMN(2));

/* ----- Marks of element codes. An element code has 4 to 24 bytes from A to Z, 0 to 9 and hyphen, with no hyphen first, last or doubled. A date is a code
   that is a day 1 to 31 in one or two digits, an optional hyphen, a month JAN to DEC, and optionally a hyphen and two or four digits; or a month, an optional
   hyphen and a day; or two or three groups of digits joined by hyphens, each of one to four digits. */

/* 2, 3, 11. A row's mark, TAMBUYEEL_MARK_... Under a null too a view has to be reachable. */
tambuyeel_counted tambuyeel_mark(TAMBUYEEL_COLUMN(), size_t row);

/* 2, 11 (the lowest row whose view isn't reachable). How many rows have each mark. */
tambuyeel_marks tambuyeel_count_marks(TAMBUYEEL_COLUMN());

/* ----- Views and text. */

/* 4. Writes the view of a value that stands in that block at that offset (both ignored where it is short). Refused: the sixteen bytes as they came. */
uint64_t tambuyeel_make_view(const uint8_t *x, size_t x_len, uint32_t block, uint32_t offset, uint8_t *view16);

/* Whether x is well-formed UTF-8. */
tambuyeel_text tambuyeel_utf8(const uint8_t *x, size_t x_len);

/* ----- The builder. Every call takes the state and the buffers as the call before it left them. */

/* 1. Makes a fresh state; clears places where the builder merges. */
uint64_t tambuyeel_start(const tambuyeel_settings *settings, tambuyeel_state *state, uint32_t *places, size_t places_len);

/* 2, 4, 10, 5, 6, 7. Appends a value; the same value n times (n = 0: only 2, and nothing is done). */
uint64_t tambuyeel_append_value(TAMBUYEEL_BUILDER, const uint8_t *x, size_t x_len);
uint64_t tambuyeel_append_values(TAMBUYEEL_BUILDER, const uint8_t *x, size_t x_len, size_t n);

/* 2, 5. Appends a null. */
uint64_t tambuyeel_append_null(TAMBUYEEL_BUILDER);

/* 2, 4, 6, 7. Completes the open block and copies x in as a block; answers its number. */
tambuyeel_counted tambuyeel_append_block(TAMBUYEEL_BUILDER, const uint8_t *x, size_t x_len);

/* 2, 8, 9, 10, 5. Appends a row over n bytes of a completed block. */
uint64_t tambuyeel_append_view(TAMBUYEEL_BUILDER, uint32_t block, uint32_t offset, uint32_t n);

/* 2, 11 (the lowest row whose view isn't true by the builder's kind), 9, 5, 6, 7. Appends the rows of a column, its blocks copied whole. */
tambuyeel_told tambuyeel_append_column(TAMBUYEEL_BUILDER, TAMBUYEEL_COLUMN(2));

/* 2, 3, 11. Which bytes the value of a row that was added is. */
tambuyeel_place tambuyeel_get_value(const tambuyeel_state *state, const uint8_t *views, size_t views_len, const uint8_t *bytes, size_t bytes_len,
    const size_t *starts, size_t starts_len, const size_t *lens, size_t lens_len, const uint8_t *nulls, size_t nulls_len,
    const uint32_t *places, size_t places_len, size_t row);

/* 2. The column of all rows, over the builder's buffers. Finish empties rows, blocks and merge table and keeps the growth size: the next rows
   overwrite the finished column unless other buffers are lent with them. Finish-by-copy writes the open block's record and leaves the state; rows that
   are added later leave the copy's rows as they are. */
uint64_t tambuyeel_finish(TAMBUYEEL_BUILDER, tambuyeel_column *column);
uint64_t tambuyeel_finish_by_copy(TAMBUYEEL_BUILDER, tambuyeel_column *column);

/* ----- Outputs: a column written to buffers of its own. */

/* 1, 2, 11 (the lowest row whose view isn't true), 5, 6, 7. Compaction: the rows of a column over new blocks, each at most `most` bytes long unless one row
   alone points into it. The data needs tambuyeel_total_buffer_bytes_used bytes, the table at most one block more than there are long rows. */
tambuyeel_told tambuyeel_compact(TAMBUYEEL_COLUMN(), size_t most, TAMBUYEEL_OUTPUT(2), tambuyeel_column *column2);

/* 2 (the map is too short), 13, 10, 5, 6, 7. The column of an offset column: signed 32-bit little-endian offsets, one more than rows, four bytes each;
   all bytes become one block. mapped 0: no input map. kind as in a column. The output's map needs its bits either way. */
uint64_t tambuyeel_from_offsets(const uint8_t *offsets, size_t offsets_len, const uint8_t *bytes, size_t bytes_len, const uint8_t *nulls, size_t nulls_len,
    size_t mapped, size_t kind, TAMBUYEEL_OUTPUT(2), tambuyeel_column *column2);

/* ----- The wrappers. */

/* Buffers to read. */
typedef struct {
    const uint8_t *views;
    size_t views_len;
    const uint8_t *bytes;
    size_t bytes_len;
    const size_t *starts;
    size_t starts_len;
    const size_t *lens;
    size_t lens_len;
    const uint8_t *nulls;
    size_t nulls_len;
} tambuyeel_lent;

/* Buffers to write: a builder's, or an output's (places isn't looked at then). */
typedef struct {
    uint8_t *views;
    size_t views_len;
    uint8_t *bytes;
    size_t bytes_len;
    size_t *starts;
    size_t starts_len;
    size_t *lens;
    size_t lens_len;
    uint8_t *nulls;
    size_t nulls_len;
    uint32_t *places;
    size_t places_len;
} tambuyeel_room;

/* How a call ended: 0 or the refusal's number; of two columns TAMBUYEEL_LEFT or TAMBUYEEL_RIGHT, else 0; with 11 the row, else 0. */
typedef struct {
    uint64_t refused;
    uint64_t side;
    size_t row;
} tambuyeel_verdict;

/* Bytes of a lent buffer; a null pointer where the call was refused. */
typedef struct {
    const uint8_t *at;
    size_t len;
} tambuyeel_bytes;

/* A refusal in words. */
static inline const char *tambuyeel_words(uint64_t refused)
{
    switch (refused) {
    case TAMBUYEEL_ACCEPTED: return "accepted";
    case TAMBUYEEL_REFUSED_SETTING: return "a setting is out of its range";
    case TAMBUYEEL_REFUSED_NUMBERS: return "the numbers don't fit the buffers that were lent with them";
    case TAMBUYEEL_REFUSED_ROW: return "there is no such row";
    case TAMBUYEEL_REFUSED_TOO_LONG: return "longer than 16,777,216 bytes";
    case TAMBUYEEL_REFUSED_ROW_ROOM: return "no room for the rows";
    case TAMBUYEEL_REFUSED_BLOCK_ROOM: return "no room for the blocks";
    case TAMBUYEEL_REFUSED_DATA_ROOM: return "no room for the bytes";
    case TAMBUYEEL_REFUSED_NO_BLOCK: return "there is no completed block of that number";
    case TAMBUYEEL_REFUSED_RANGE: return "outside its block, or the block outside the data";
    case TAMBUYEEL_REFUSED_NOT_UTF8: return "not UTF-8";
    case TAMBUYEEL_REFUSED_VIEW: return "a view that points outside its block or disagrees with its value";
    case TAMBUYEEL_REFUSED_OFFSETS: return "offsets that are missing, negative, falling or past the bytes";
    default: return "refused";
    }
}

/* The buffers of a room, to be read. */
static inline tambuyeel_lent tambuyeel_lend(const tambuyeel_room *room)
{
    tambuyeel_lent lent;
    lent.views = room->views;
    lent.views_len = room->views_len;
    lent.bytes = room->bytes;
    lent.bytes_len = room->bytes_len;
    lent.starts = room->starts;
    lent.starts_len = room->starts_len;
    lent.lens = room->lens;
    lent.lens_len = room->lens_len;
    lent.nulls = room->nulls;
    lent.nulls_len = room->nulls_len;
    return lent;
}

/* From a place to its bytes, over the buffers that were lent to the call that answered it. */
static inline tambuyeel_bytes tambuyeel_bytes_at(const tambuyeel_lent *lent, tambuyeel_place place)
{
    tambuyeel_bytes part;
    part.at = NULL;
    part.len = place.len;
    if (place.refused == TAMBUYEEL_ACCEPTED)
        part.at = (place.buffer == TAMBUYEEL_IN_VIEWS ? lent->views : lent->bytes) + place.offset;
    return part;
}

static inline tambuyeel_verdict tambuyeel_verdict_on(uint64_t refused, uint64_t side, size_t row)
{
    tambuyeel_verdict v;
    v.refused = refused;
    v.side = side;
    v.row = refused == TAMBUYEEL_REFUSED_VIEW ? row : 0;
    return v;
}

/* A verdict on two columns, of a number with 16 or 32 added; i and j are the rows that 11 would name. */
static inline tambuyeel_verdict tambuyeel_verdict_on_two(uint64_t number, size_t i, size_t j)
{
    if (number < TAMBUYEEL_LEFT)
        return tambuyeel_verdict_on(TAMBUYEEL_ACCEPTED, 0, 0);
    if (number < TAMBUYEEL_RIGHT)
        return tambuyeel_verdict_on(number - TAMBUYEEL_LEFT, TAMBUYEEL_LEFT, i);
    return tambuyeel_verdict_on(number - TAMBUYEEL_RIGHT, TAMBUYEEL_RIGHT, j);
}

#define TAMBUYEEL_PASS(l, c) \
    (l)->views, (l)->views_len, (l)->bytes, (l)->bytes_len, (l)->starts, (l)->starts_len, (l)->lens, (l)->lens_len, (l)->nulls, (l)->nulls_len, (c)
#define TAMBUYEEL_PASS_ROOM(r) \
    (r)->views, (r)->views_len, (r)->bytes, (r)->bytes_len, (r)->starts, (r)->starts_len, (r)->lens, (r)->lens_len, (r)->nulls, (r)->nulls_len

static inline tambuyeel_verdict tambuyeel_value_in(const tambuyeel_lent *l, const tambuyeel_column *c, size_t row, tambuyeel_bytes *value)
{
    tambuyeel_place p = tambuyeel_value(TAMBUYEEL_PASS(l, c), row);
    *value = tambuyeel_bytes_at(l, p);
    return tambuyeel_verdict_on(p.refused, 0, row);
}

static inline tambuyeel_verdict tambuyeel_prefix_in(const tambuyeel_lent *l, const tambuyeel_column *c, size_t row, size_t n, tambuyeel_bytes *value)
{
    tambuyeel_place p = tambuyeel_prefix(TAMBUYEEL_PASS(l, c), row, n);
    *value = tambuyeel_bytes_at(l, p);
    return tambuyeel_verdict_on(p.refused, 0, row);
}

static inline tambuyeel_verdict tambuyeel_suffix_in(const tambuyeel_lent *l, const tambuyeel_column *c, size_t row, size_t n, tambuyeel_bytes *value)
{
    tambuyeel_place p = tambuyeel_suffix(TAMBUYEEL_PASS(l, c), row, n);
    *value = tambuyeel_bytes_at(l, p);
    return tambuyeel_verdict_on(p.refused, 0, row);
}

static inline tambuyeel_verdict tambuyeel_why_value_in(const tambuyeel_lent *l, const tambuyeel_column *c, size_t row)
{
    return tambuyeel_verdict_on(tambuyeel_why_value(TAMBUYEEL_PASS(l, c), row), 0, row);
}

static inline tambuyeel_verdict tambuyeel_length_in(const tambuyeel_lent *l, const tambuyeel_column *c, size_t row, size_t *length)
{
    tambuyeel_counted n = tambuyeel_length(TAMBUYEEL_PASS(l, c), row);
    *length = n.number;
    return tambuyeel_verdict_on(n.refused, 0, 0);
}

static inline tambuyeel_verdict tambuyeel_null_bit_in(const tambuyeel_lent *l, const tambuyeel_column *c, size_t row, size_t *valid)
{
    tambuyeel_counted n = tambuyeel_null_bit(TAMBUYEEL_PASS(l, c), row);
    *valid = n.number;
    return tambuyeel_verdict_on(n.refused, 0, 0);
}

static inline tambuyeel_verdict tambuyeel_null_run_in(const tambuyeel_lent *l, const tambuyeel_column *c, size_t start, size_t count, size_t *nulls)
{
    tambuyeel_counted n = tambuyeel_null_run(TAMBUYEEL_PASS(l, c), start, count);
    *nulls = n.number;
    return tambuyeel_verdict_on(n.refused, 0, 0);
}

/* Refused: the slice is *c. */
static inline tambuyeel_verdict tambuyeel_slice_in(const tambuyeel_lent *l, const tambuyeel_column *c, size_t start, size_t count, tambuyeel_column *slice)
{
    tambuyeel_run r = tambuyeel_slice(TAMBUYEEL_PASS(l, c), start, count);
    *slice = *c;
    if (r.refused == TAMBUYEEL_ACCEPTED) {
        slice->first = r.first;
        slice->rows = r.rows;
    }
    return tambuyeel_verdict_on(r.refused, 0, 0);
}

static inline tambuyeel_verdict tambuyeel_total_bytes_len_in(const tambuyeel_lent *l, const tambuyeel_column *c, size_t *total)
{
    tambuyeel_counted n = tambuyeel_total_bytes_len(TAMBUYEEL_PASS(l, c));
    *total = n.number;
    return tambuyeel_verdict_on(n.refused, 0, 0);
}

static inline tambuyeel_verdict tambuyeel_total_buffer_bytes_used_in(const tambuyeel_lent *l, const tambuyeel_column *c, size_t *total)
{
    tambuyeel_counted n = tambuyeel_total_buffer_bytes_used(TAMBUYEEL_PASS(l, c));
    *total = n.number;
    return tambuyeel_verdict_on(n.refused, 0, 0);
}

static inline tambuyeel_verdict tambuyeel_check_in(const tambuyeel_lent *l, const tambuyeel_column *c)
{
    tambuyeel_told t = tambuyeel_check(TAMBUYEEL_PASS(l, c));
    return tambuyeel_verdict_on(t.number, 0, t.row);
}

/* The order is TAMBUYEEL_LESS, _EQUAL or _GREATER; refused, it is _EQUAL and means nothing. */
static inline tambuyeel_verdict tambuyeel_compare_in(const tambuyeel_lent *l, const tambuyeel_column *c, size_t i,
    const tambuyeel_lent *l2, const tambuyeel_column *c2, size_t j, int *order)
{
    uint64_t n = tambuyeel_compare(TAMBUYEEL_PASS(l, c), i, TAMBUYEEL_PASS(l2, c2), j);
    *order = n < TAMBUYEEL_LEFT ? (int)n : (int)TAMBUYEEL_EQUAL;
    return tambuyeel_verdict_on_two(n, i, j);
}

/* 1 or 0; refused, it is 0 and means nothing. */
static inline tambuyeel_verdict tambuyeel_same_column_in(const tambuyeel_lent *l, const tambuyeel_column *c,
    const tambuyeel_lent *l2, const tambuyeel_column *c2, int *same)
{
    tambuyeel_told t = tambuyeel_same_column(TAMBUYEEL_PASS(l, c), TAMBUYEEL_PASS(l2, c2));
    *same = t.number == 1;
    return tambuyeel_verdict_on_two(t.number, t.row, t.row);
}

static inline tambuyeel_verdict tambuyeel_mark_in(const tambuyeel_lent *l, const tambuyeel_column *c, size_t row, size_t *mark)
{
    tambuyeel_counted n = tambuyeel_mark(TAMBUYEEL_PASS(l, c), row);
    *mark = n.number;
    return tambuyeel_verdict_on(n.refused, 0, row);
}

static inline tambuyeel_verdict tambuyeel_count_marks_in(const tambuyeel_lent *l, const tambuyeel_column *c, tambuyeel_marks *marks)
{
    *marks = tambuyeel_count_marks(TAMBUYEEL_PASS(l, c));
    return tambuyeel_verdict_on(marks->refused, 0, marks->row);
}

static inline tambuyeel_verdict tambuyeel_start_in(const tambuyeel_settings *settings, tambuyeel_state *state, const tambuyeel_room *room)
{
    return tambuyeel_verdict_on(tambuyeel_start(settings, state, room->places, room->places_len), 0, 0);
}

static inline tambuyeel_verdict tambuyeel_append_value_in(tambuyeel_state *state, const tambuyeel_room *room, const void *x, size_t x_len)
{
    return tambuyeel_verdict_on(
        tambuyeel_append_value(state, TAMBUYEEL_PASS_ROOM(room), room->places, room->places_len, (const uint8_t *)x, x_len), 0, 0);
}

static inline tambuyeel_verdict tambuyeel_append_values_in(tambuyeel_state *state, const tambuyeel_room *room, const void *x, size_t x_len, size_t n)
{
    return tambuyeel_verdict_on(
        tambuyeel_append_values(state, TAMBUYEEL_PASS_ROOM(room), room->places, room->places_len, (const uint8_t *)x, x_len, n), 0, 0);
}

static inline tambuyeel_verdict tambuyeel_append_null_in(tambuyeel_state *state, const tambuyeel_room *room)
{
    return tambuyeel_verdict_on(tambuyeel_append_null(state, TAMBUYEEL_PASS_ROOM(room), room->places, room->places_len), 0, 0);
}

static inline tambuyeel_verdict tambuyeel_append_block_in(tambuyeel_state *state, const tambuyeel_room *room, const void *x, size_t x_len, size_t *block)
{
    tambuyeel_counted n = tambuyeel_append_block(state, TAMBUYEEL_PASS_ROOM(room), room->places, room->places_len, (const uint8_t *)x, x_len);
    *block = n.number;
    return tambuyeel_verdict_on(n.refused, 0, 0);
}

static inline tambuyeel_verdict tambuyeel_append_view_in(tambuyeel_state *state, const tambuyeel_room *room, uint32_t block, uint32_t offset, uint32_t n)
{
    return tambuyeel_verdict_on(tambuyeel_append_view(state, TAMBUYEEL_PASS_ROOM(room), room->places, room->places_len, block, offset, n), 0, 0);
}

static inline tambuyeel_verdict tambuyeel_append_column_in(tambuyeel_state *state, const tambuyeel_room *room,
    const tambuyeel_lent *l, const tambuyeel_column *c)
{
    tambuyeel_told t = tambuyeel_append_column(state, TAMBUYEEL_PASS_ROOM(room), room->places, room->places_len, TAMBUYEEL_PASS(l, c));
    return tambuyeel_verdict_on(t.number, 0, t.row);
}

static inline tambuyeel_verdict tambuyeel_get_value_in(const tambuyeel_state *state, const tambuyeel_room *room, size_t row, tambuyeel_bytes *value)
{
    tambuyeel_lent lent = tambuyeel_lend(room);
    tambuyeel_place p = tambuyeel_get_value(state, TAMBUYEEL_PASS_ROOM(room), room->places, room->places_len, row);
    *value = tambuyeel_bytes_at(&lent, p);
    return tambuyeel_verdict_on(p.refused, 0, row);
}

static inline tambuyeel_verdict tambuyeel_finish_in(tambuyeel_state *state, const tambuyeel_room *room, tambuyeel_column *column)
{
    return tambuyeel_verdict_on(tambuyeel_finish(state, TAMBUYEEL_PASS_ROOM(room), room->places, room->places_len, column), 0, 0);
}

static inline tambuyeel_verdict tambuyeel_finish_by_copy_in(tambuyeel_state *state, const tambuyeel_room *room, tambuyeel_column *column)
{
    return tambuyeel_verdict_on(tambuyeel_finish_by_copy(state, TAMBUYEEL_PASS_ROOM(room), room->places, room->places_len, column), 0, 0);
}

static inline tambuyeel_verdict tambuyeel_compact_in(const tambuyeel_lent *l, const tambuyeel_column *c, size_t most,
    const tambuyeel_room *room, tambuyeel_column *column)
{
    tambuyeel_told t = tambuyeel_compact(TAMBUYEEL_PASS(l, c), most, TAMBUYEEL_PASS_ROOM(room), column);
    return tambuyeel_verdict_on(t.number, 0, t.row);
}

/* offsets: 4 bytes each, offsets_len of these bytes. nulls may be null: no input map then. */
static inline tambuyeel_verdict tambuyeel_from_offsets_in(const void *offsets, size_t offsets_len, const void *bytes, size_t bytes_len,
    const uint8_t *nulls, size_t nulls_len, size_t kind, const tambuyeel_room *room, tambuyeel_column *column)
{
    return tambuyeel_verdict_on(tambuyeel_from_offsets((const uint8_t *)offsets, offsets_len, (const uint8_t *)bytes, bytes_len, nulls, nulls_len,
        nulls != NULL, kind, TAMBUYEEL_PASS_ROOM(room), column), 0, 0);
}

#ifdef __cplusplus
}
#endif

#endif
