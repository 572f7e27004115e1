/*
 * The Filter t.c > 5 over a scan of table 1 whose field c is marked: checks its image, passes over it, and prints the plan that is
 * left, depth, kind, p, q, r, lo and hi of each record, then the counts. From the root of the repository:
 *
 *   cc -std=c99 -I include examples/c/example.c target/staticlib/libpush_down_filter.a -o example && ./example
 *
 * or, once the library is installed: cc -std=c99 example.c $(pkg-config --cflags --libs push_down_filter) -o example && ./example
 */
#include "push_down_filter.h"

#include <inttypes.h>
#include <stdio.h>

/* The table, its qualifier t and the name of its field c: the caller's own numbers. */
enum { TABLE = 1, T = 1, C = 1 };

struct record {
    uint32_t kind, p, q, r, lo, hi, first, next;
};

static const struct record plan[] = {
    /* the Filter: its predicate, then its input */
    {PUSH_DOWN_FILTER_KIND_FILTER, 0, 0, 0, 0, 0, 1, 0},
    /* t.c > 5 */
    {PUSH_DOWN_FILTER_KIND_BINARY_EXPR, PUSH_DOWN_FILTER_OPERATOR_GT, 0, 0, 0, 0, 2, 4},
    {PUSH_DOWN_FILTER_KIND_COLUMN, T, C, 0, 0, 0, 0, 3},
    {PUSH_DOWN_FILTER_KIND_INTEGER_LITERAL, 0, 0, 0, 5, 0, 0, 0},
    /* the scan, and its field t.c */
    {PUSH_DOWN_FILTER_KIND_TABLE_SCAN, TABLE, 0, 0, 0, 0, 5, 0},
    {PUSH_DOWN_FILTER_KIND_FIELD, T, C, PUSH_DOWN_FILTER_TYPE_INTEGER, PUSH_DOWN_FILTER_FIELD_MARKED, 0, 0, 0},
};

enum { RECORDS = sizeof plan / sizeof plan[0] };

static void put_word(uint8_t *bytes, uint32_t word)
{
    for (int byte = 0; byte < 4; byte++)
        bytes[byte] = (uint8_t)(word >> (8 * byte));
}

static uint32_t word_at(const uint8_t *bytes)
{
    return bytes[0] | (uint32_t)bytes[1] << 8 | (uint32_t)bytes[2] << 16 | (uint32_t)bytes[3] << 24;
}

static void write_image(uint8_t *image)
{
    for (int i = 0; i < RECORDS; i++) {
        uint8_t *bytes = image + i * PUSH_DOWN_FILTER_RECORD_BYTES;
        put_word(bytes + PUSH_DOWN_FILTER_AT_KIND, plan[i].kind);
        put_word(bytes + PUSH_DOWN_FILTER_AT_P, plan[i].p);
        put_word(bytes + PUSH_DOWN_FILTER_AT_Q, plan[i].q);
        put_word(bytes + PUSH_DOWN_FILTER_AT_R, plan[i].r);
        put_word(bytes + PUSH_DOWN_FILTER_AT_LO, plan[i].lo);
        put_word(bytes + PUSH_DOWN_FILTER_AT_HI, plan[i].hi);
        put_word(bytes + PUSH_DOWN_FILTER_AT_FIRST_LINK, plan[i].first);
        put_word(bytes + PUSH_DOWN_FILTER_AT_NEXT_LINK, plan[i].next);
    }
}

static const uint8_t *record_at(const uint8_t *image, uint32_t record)
{
    return image + (size_t)record * PUSH_DOWN_FILTER_RECORD_BYTES;
}

/* Parents stand before their children, so that a record's depth is known when it is printed. */
static void list(const uint8_t *image, uint32_t records)
{
    static uint32_t depth[PUSH_DOWN_FILTER_MAX_RECORDS];
    depth[0] = 1;
    for (uint32_t at = 0; at < records; at++) {
        const uint8_t *bytes = record_at(image, at);
        printf("%" PRIu32, depth[at]);
        for (int word = PUSH_DOWN_FILTER_AT_KIND; word <= PUSH_DOWN_FILTER_AT_HI; word += 4)
            printf(" %" PRIu32, word_at(bytes + word));
        printf("\n");
        uint32_t child = word_at(bytes + PUSH_DOWN_FILTER_AT_FIRST_LINK);
        for (; child != 0; child = word_at(record_at(image, child) + PUSH_DOWN_FILTER_AT_NEXT_LINK))
            depth[child] = depth[at] + 1;
    }
}

static int refused(uint32_t number, uint32_t record)
{
    printf("refused %" PRIu32 " at %" PRIu32 "\n", number, record);
    return 1;
}

int main(void)
{
    static uint8_t image[RECORDS * PUSH_DOWN_FILTER_RECORD_BYTES], out[PUSH_DOWN_FILTER_MAX_BYTES];
    write_image(image);

    push_down_filter_verdict verdict = push_down_filter_check(image, sizeof image);
    if (verdict.number != PUSH_DOWN_FILTER_GRANTED)
        return refused(verdict.number, verdict.record);

    push_down_filter_passed passed = push_down_filter_pass(image, sizeof image, 10000, out, sizeof out);
    if (passed.number != PUSH_DOWN_FILTER_GRANTED)
        return refused(passed.number, passed.record);

    list(out, passed.records);
    printf("visits %" PRIu64 " changed %" PRIu64 " finished %" PRIu32 "\n", passed.visits, passed.changed, passed.finished);
    return 0;
}
