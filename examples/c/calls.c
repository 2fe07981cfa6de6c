/* Every call of the header that shelf.c doesn't make, each with a line of output; calls.out is what it prints. */
#include <stdio.h>
#include <string.h>
#include "tambuyeel.h"

enum { ROWS = 24, BLOCKS = 4, BYTES = 256 };

typedef struct {
    uint8_t views[ROWS * TAMBUYEEL_VIEW_SIZE];
    uint8_t bytes[BYTES];
    size_t starts[BLOCKS];
    size_t lens[BLOCKS];
    uint8_t nulls[ROWS / 8];
} buffers;

static buffers one, two;

/* Without places: these builders don't merge. */
static tambuyeel_room room_of(buffers *b)
{
    tambuyeel_room r;
    r.views = b->views;
    r.views_len = sizeof b->views;
    r.bytes = b->bytes;
    r.bytes_len = sizeof b->bytes;
    r.starts = b->starts;
    r.starts_len = BLOCKS;
    r.lens = b->lens;
    r.lens_len = BLOCKS;
    r.nulls = b->nulls;
    r.nulls_len = sizeof b->nulls;
    r.places = NULL;
    r.places_len = 0;
    return r;
}

/* A verdict, with row and side where it has them. */
static void say(const char *what, tambuyeel_verdict v)
{
    printf("%s: %d", what, (int)v.refused);
    if (v.refused == TAMBUYEEL_REFUSED_VIEW)
        printf(", row %d", (int)v.row);
    if (v.side)
        printf(", %s", v.side == TAMBUYEEL_LEFT ? "left" : "right");
    printf("\n");
}

static void say_bytes(const char *what, tambuyeel_verdict v, tambuyeel_bytes b)
{
    printf("%s: %d '%.*s'\n", what, (int)v.refused, (int)b.len, b.len ? (const char *)b.at : "");
}

static void say_number(const char *what, tambuyeel_verdict v, size_t n)
{
    printf("%s: %d, %lu\n", what, (int)v.refused, (unsigned long)n);
}

static void reading(const tambuyeel_lent *l, const tambuyeel_column *c)
{
    tambuyeel_bytes b = { NULL, 0 };
    tambuyeel_verdict v;
    tambuyeel_marks m;
    size_t n = 0;
    v = tambuyeel_prefix_in(l, c, 1, 2, &b);
    say_bytes("prefix 2", v, b);
    v = tambuyeel_prefix_in(l, c, 1, 14, &b);
    say_bytes("prefix 14", v, b);
    v = tambuyeel_suffix_in(l, c, 1, 3, &b);
    say_bytes("suffix 3", v, b);
    say("why value, row 1", tambuyeel_why_value_in(l, c, 1));
    say("why value, row 9", tambuyeel_why_value_in(l, c, 9));
    v = tambuyeel_length_in(l, c, 1, &n);
    say_number("length", v, n);
    v = tambuyeel_null_run_in(l, c, 0, c->rows, &n);
    say_number("nulls", v, n);
    v = tambuyeel_null_run_in(l, c, 1, c->rows, &n);
    say_number("nulls past the end", v, n);
    v = tambuyeel_total_bytes_len_in(l, c, &n);
    say_number("total bytes", v, n);
    v = tambuyeel_mark_in(l, c, 1, &n);
    say_number("mark, row 1", v, n);
    v = tambuyeel_mark_in(l, c, 9, &n);
    say_number("mark, row 9", v, n);
    v = tambuyeel_count_marks_in(l, c, &m);
    printf("marks: %d, nulls %d, others %d, codes %d, dates %d\n", (int)v.refused, (int)m.nulls, (int)m.others, (int)m.codes, (int)m.dates);
}

static void building(tambuyeel_state *s, const tambuyeel_room *r, tambuyeel_column *c)
{
    tambuyeel_settings settings = { TAMBUYEEL_BINARY, TAMBUYEEL_DOUBLING, 0, TAMBUYEEL_MERGE_OFF, 0 };
    tambuyeel_bytes b = { NULL, 0 };
    tambuyeel_verdict v;
    size_t block = 0;
    say("start", tambuyeel_start_in(&settings, s, r));
    printf("growth %d, reached %d\n", (int)s->growth, (int)s->size);
    v = tambuyeel_append_block_in(s, r, "helloworldbingobongo", 20, &block);
    say_number("block", v, block);
    say("view", tambuyeel_append_view_in(s, r, 0, 5, 5));
    say("view past the block", tambuyeel_append_view_in(s, r, 0, 5, 16));
    say("view of no block", tambuyeel_append_view_in(s, r, 1, 0, 0));
    say("value", tambuyeel_append_value_in(s, r, "RO-8040-03MAR", 13));
    say("null", tambuyeel_append_null_in(s, r));
    v = tambuyeel_finish_by_copy_in(s, r, c);
    say_number("finish by copy, rows", v, c->rows);
    say("values", tambuyeel_append_values_in(s, r, "plant", 5, 3));
    say("too many values", tambuyeel_append_values_in(s, r, "plant", 5, ROWS));
    v = tambuyeel_get_value_in(s, r, 1, &b);
    say_bytes("get value", v, b);
    v = tambuyeel_get_value_in(s, r, 6, &b);
    say_bytes("get value past the rows", v, b);
}

/* Two rows by offsets, one of them null, appended to the builder. */
static void outputs(tambuyeel_state *s, const tambuyeel_room *r, const tambuyeel_room *r2)
{
    static const uint8_t offsets[12] = { 0, 0, 0, 0, 15, 0, 0, 0, 16, 0, 0, 0 };
    static const uint8_t map[1] = { 1 };
    tambuyeel_lent l2 = tambuyeel_lend(r2);
    tambuyeel_column c = { 7, 7, 7, 7, 7 }, all;
    tambuyeel_verdict v;
    say("offsets, bytes too few", tambuyeel_from_offsets_in(offsets, 12, "short", 5, map, 1, TAMBUYEEL_BINARY, r2, &c));
    printf("the column stays %d\n", (int)c.rows);
    v = tambuyeel_from_offsets_in(offsets, 12, "fifteen bytes..x", 16, map, 1, TAMBUYEEL_BINARY, r2, &c);
    printf("offsets: %d, first %d, rows %d, blocks %d, kind %d, mapped %d\n", (int)v.refused, (int)c.first, (int)c.rows, (int)c.blocks, (int)c.kind, (int)c.mapped);
    say("column", tambuyeel_append_column_in(s, r, &l2, &c));
    two.views[4] = 'F';
    say("damaged column", tambuyeel_append_column_in(s, r, &l2, &c));
    say("finish", tambuyeel_finish_in(s, r, &all));
    printf("rows %d, blocks %d, mapped %d; state: rows %d, blocks %d\n", (int)all.rows, (int)all.blocks, (int)all.mapped, (int)s->rows, (int)s->blocks);
}

int main(void)
{
    tambuyeel_room r = room_of(&one), r2 = room_of(&two);
    tambuyeel_lent l = tambuyeel_lend(&r);
    tambuyeel_settings none = { TAMBUYEEL_BINARY, TAMBUYEEL_FIXED, 0, TAMBUYEEL_MERGE_OFF, 0 };
    tambuyeel_state s;
    tambuyeel_column c;
    tambuyeel_lent empty;
    tambuyeel_text text;
    uint8_t view[16];
    int order, k;

    memset(&s, 0, sizeof s);
    say("start with block size 0", tambuyeel_start_in(&none, &s, &r));
    building(&s, &r, &c);
    reading(&l, &c);
    outputs(&s, &r, &r2);

    memset(&empty, 0, sizeof empty);
    say("compare with no buffers", tambuyeel_compare_in(&l, &c, 0, &empty, &c, 0, &order));
    c.rows = 0;
    c.blocks = 0;
    c.mapped = 0;
    say("check of no rows, null pointers", tambuyeel_check_in(&empty, &c));

    printf("view: %d", (int)tambuyeel_make_view((const uint8_t *)"RO-8040-03MAR", 13, 2, 13, view));
    for (k = 0; k < 16; k++)
        printf(" %02X", view[k]);
    printf("\n");
    text = tambuyeel_utf8((const uint8_t *)"caf\xC3\xA9", 5);
    printf("utf8: %d, %d\n", (int)text.yes, (int)text.place);
    text = tambuyeel_utf8((const uint8_t *)"caf\xE9 8040", 9);
    printf("utf8: %d, %d\n", (int)text.yes, (int)text.place);
    return 0;
}
