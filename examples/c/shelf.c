/* A column built, finished, sliced, compacted and read back in C99 (or C++11), with a call that is refused. shelf.out is what it prints.

     ./library
     cc -std=c99 -Iinclude examples/c/shelf.c target/libtambuyeel.a -o shelf && ./shelf */
#include <stdio.h>
#include <string.h>
#include "tambuyeel.h"

enum { ROWS = 64, BLOCKS = 8, BYTES = 4096 };

/* Buffers for one column or one builder. */
typedef struct {
    uint8_t views[ROWS * TAMBUYEEL_VIEW_SIZE];
    uint8_t bytes[BYTES];
    size_t starts[BLOCKS];
    size_t lens[BLOCKS];
    uint8_t nulls[ROWS / 8];
    uint32_t places[2 * ROWS];
} buffers;

static buffers building;
static buffers compacted;

static tambuyeel_room room_of(buffers *b)
{
    tambuyeel_room r;
    r.views = b->views;
    r.views_len = sizeof b->views;
    r.bytes = b->bytes;
    r.bytes_len = sizeof b->bytes;
    r.starts = b->starts;
    r.starts_len = BLOCKS;
    r.lens = b->lens;
    r.lens_len = BLOCKS;
    r.nulls = b->nulls;
    r.nulls_len = sizeof b->nulls;
    r.places = b->places;
    r.places_len = 2 * ROWS;
    return r;
}

/* Says a refusal; answers whether the call was accepted. */
static int went(const char *what, tambuyeel_verdict v)
{
    if (v.refused == TAMBUYEEL_ACCEPTED)
        return 1;
    printf("%s: refused with %d, %s", what, (int)v.refused, tambuyeel_words(v.refused));
    if (v.refused == TAMBUYEEL_REFUSED_VIEW)
        printf(" (row %d)", (int)v.row);
    printf("\n");
    return 0;
}

static void print_rows(const char *title, const tambuyeel_lent *lent, const tambuyeel_column *column)
{
    size_t row;
    printf("%s: %d rows, %d blocks\n", title, (int)column->rows, (int)column->blocks);
    for (row = 0; row < column->rows; row++) {
        tambuyeel_bytes value;
        size_t valid;
        if (!went("null bit", tambuyeel_null_bit_in(lent, column, row, &valid)))
            return;
        if (!valid) {
            printf("  null\n");
            continue;
        }
        if (!went("value", tambuyeel_value_in(lent, column, row, &value)))
            return;
        printf("  %.*s\n", (int)value.len, (const char *)value.at);
    }
}

int main(void)
{
    static const char *const codes[] = { "A", "RO-8040-03MAR", NULL, "RO-8040-03MAY", "RO-8040-0303", "RO-8040-03MAR" };
    tambuyeel_room room = room_of(&building), room2 = room_of(&compacted);
    tambuyeel_lent lent = tambuyeel_lend(&room), lent2 = tambuyeel_lend(&room2);
    tambuyeel_settings settings = { TAMBUYEEL_STRING, TAMBUYEEL_FIXED, 20, TAMBUYEEL_MERGE_ON, 0 };
    tambuyeel_state state;
    tambuyeel_column column, slice, small;
    tambuyeel_bytes value;
    size_t k, used;
    int order, same;

    if (!went("start", tambuyeel_start_in(&settings, &state, &room)))
        return 1;
    for (k = 0; k < sizeof codes / sizeof codes[0]; k++) {
        tambuyeel_verdict v = codes[k] ? tambuyeel_append_value_in(&state, &room, codes[k], strlen(codes[k])) : tambuyeel_append_null_in(&state, &room);
        if (!went("append", v))
            return 1;
    }

    /* Refused, and nothing has changed: a byte that isn't UTF-8 in a String builder. */
    went("append", tambuyeel_append_value_in(&state, &room, "RO\xFF", 3));

    if (!went("finish", tambuyeel_finish_in(&state, &room, &column)) || !went("check", tambuyeel_check_in(&lent, &column)))
        return 1;
    print_rows("built", &lent, &column);

    /* The last three rows, and a row that isn't there. */
    if (!went("slice", tambuyeel_slice_in(&lent, &column, 3, 3, &slice)))
        return 1;
    went("value", tambuyeel_value_in(&lent, &slice, 3, &value));

    /* One block for all that these rows point at. */
    if (!went("total", tambuyeel_total_buffer_bytes_used_in(&lent, &slice, &used)))
        return 1;
    if (!went("compact", tambuyeel_compact_in(&lent, &slice, TAMBUYEEL_MOST_MAXIMUM, &room2, &small)))
        return 1;
    print_rows("compacted", &lent2, &small);
    printf("%d bytes in long rows, block 0 has %d\n", (int)used, (int)lent2.lens[0]);

    if (!went("same", tambuyeel_same_column_in(&lent, &slice, &lent2, &small, &same)))
        return 1;
    if (!went("compare", tambuyeel_compare_in(&lent, &column, 1, &lent2, &small, 0, &order)))
        return 1;
    printf("the same rows: %s; 03MAR against 03MAY: %s\n", same ? "yes" : "no",
        order == TAMBUYEEL_LESS ? "below" : order == TAMBUYEEL_EQUAL ? "equal" : "above");

    /* A view that was damaged is refused, not followed. */
    compacted.views[8] = 7;
    went("value", tambuyeel_value_in(&lent2, &small, 0, &value));
    went("check", tambuyeel_check_in(&lent2, &small));
    return 0;
}
