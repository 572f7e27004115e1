/*
 * The boundary to C, which no proof covers. Images, rows and outputs stand between pages that end the program when they are touched,
 * each at the beginning and at the end of its own; images and rows are read-only while a call runs; an output is full of a byte other
 * than 0 before it, and no byte beside it may change. Tried are NULL with length 0 for every pointer, outputs of every length around an
 * answer's, images cut short at every byte and damaged at every byte, and a refusal of each number. A refused call must leave zeros
 * alone, in its result and in its output.
 *
 * Prints one line that says how many calls were made; exits with 1 if one of them failed.
 */
#define _DEFAULT_SOURCE
#include "push_down_filter.h"

#include <inttypes.h>
#include <stdio.h>
#include <stdlib.h>
#include <string.h>
#include <sys/mman.h>
#include <unistd.h>

enum { UNWRITTEN = 0xA5, WORD_BYTES = 4, MAX_ROW = 4 };

static unsigned long calls, failures;

static void expect(int holds, const char *what, uint32_t number, uint32_t record)
{
    if (holds)
        return;
    if (failures++ < 20)
        fprintf(stderr, "%s: number %" PRIu32 ", record %" PRIu32 "\n", what, number, record);
}

/* ---- memory between two pages that must not be touched ---- */

struct region {
    uint8_t *begin;
    size_t size;
};

static struct region guarded(size_t least)
{
    size_t page = (size_t)sysconf(_SC_PAGESIZE);
    size_t size = (least + page - 1) / page * page;
    uint8_t *all = (uint8_t *)mmap(NULL, size + 2 * page, PROT_NONE, MAP_PRIVATE | MAP_ANONYMOUS, -1, 0);
    if (all == MAP_FAILED || mprotect(all + page, size, PROT_READ | PROT_WRITE) != 0) {
        perror("guarded memory");
        exit(1);
    }
    struct region region = {all + page, size};
    return region;
}

static struct region images, outputs, value_rows, mark_rows;

/* Where so many bytes of the region begin: at its first byte, or so that they end at its last. */
static uint8_t *placed(struct region region, size_t length, int at_end)
{
    return at_end ? region.begin + region.size - length : region.begin;
}

/* A copy that can only be read. */
static const void *lent(struct region region, const void *bytes, size_t length, int at_end)
{
    uint8_t *copy = placed(region, length, at_end);
    if (mprotect(region.begin, region.size, PROT_READ | PROT_WRITE) != 0)
        abort();
    if (length != 0)
        memcpy(copy, bytes, length);
    if (mprotect(region.begin, region.size, PROT_READ) != 0)
        abort();
    return copy;
}

static int all_are(const uint8_t *from, const uint8_t *to, uint8_t byte)
{
    for (; from < to; from++)
        if (*from != byte)
            return 0;
    return 1;
}

/* ---- the calls, each with what holds of every one ---- */

struct image {
    uint8_t bytes[PUSH_DOWN_FILTER_MAX_BYTES + PUSH_DOWN_FILTER_RECORD_BYTES];
    size_t length;
};

static uint8_t *fresh_output(size_t room, int at_end)
{
    memset(outputs.begin, UNWRITTEN, outputs.size);
    return placed(outputs, room, at_end);
}

/* Of a refusal the output is zeros; of a granted call they begin behind the answer. Beside the output nothing was written. */
static void judge_output(const char *what, const uint8_t *out, size_t room, uint32_t number, uint32_t record, uint32_t records)
{
    size_t answer = (size_t)records * PUSH_DOWN_FILTER_RECORD_BYTES;
    const uint8_t *end = outputs.begin + outputs.size;
    expect(number != 0 || (records != 0 && answer <= room), what, number, record);
    expect(answer <= room && all_are(out + answer, out + room, 0), what, number, record);
    expect(all_are(outputs.begin, out, UNWRITTEN) && all_are(out + room, end, UNWRITTEN), what, number, record);
}

static push_down_filter_verdict check(const struct image *image, int at_end)
{
    const uint8_t *bytes = (const uint8_t *)lent(images, image->bytes, image->length, at_end);
    push_down_filter_verdict verdict = push_down_filter_check(bytes, image->length);
    calls++;
    expect(verdict.number <= PUSH_DOWN_FILTER_TYPE, "check", verdict.number, verdict.record);
    expect(verdict.number != 0 || verdict.record == 0, "check", verdict.number, verdict.record);
    return verdict;
}

static push_down_filter_rewritten rewrite(const struct image *image, uint32_t node, size_t room, int at_end)
{
    const uint8_t *bytes = (const uint8_t *)lent(images, image->bytes, image->length, at_end);
    uint8_t *out = fresh_output(room, at_end);
    push_down_filter_rewritten r = push_down_filter_rewrite(bytes, image->length, node, out, room);
    calls++;
    expect(r.number == 0 || (r.flag == 0 && r.records == 0), "rewrite", r.number, r.record);
    judge_output("output of rewrite", out, room, r.number, r.record, r.records);
    return r;
}

static push_down_filter_passed pass(const struct image *image, uint64_t budget, size_t room, int at_end)
{
    const uint8_t *bytes = (const uint8_t *)lent(images, image->bytes, image->length, at_end);
    uint8_t *out = fresh_output(room, at_end);
    push_down_filter_passed p = push_down_filter_pass(bytes, image->length, budget, out, room);
    int zero = p.visits == 0 && p.changed == 0 && p.finished == 0 && p.records == 0;
    calls++;
    expect(p.number == 0 || zero, "pass", p.number, p.record);
    judge_output("output of pass", out, room, p.number, p.record, p.records);
    return p;
}

static push_down_filter_tested row_test(const struct image *image, uint32_t node, size_t count, size_t marked, int at_end)
{
    static const int64_t zeros[MAX_ROW] = {0};
    static const uint8_t none[MAX_ROW] = {0};
    const uint8_t *bytes = (const uint8_t *)lent(images, image->bytes, image->length, at_end);
    const int64_t *values = (const int64_t *)lent(value_rows, zeros, count * sizeof zeros[0], at_end);
    const uint8_t *marks = (const uint8_t *)lent(mark_rows, none, marked, at_end);
    push_down_filter_tested t = push_down_filter_row_test(bytes, image->length, node, values, count, marks, marked);
    calls++;
    expect(t.number == 0 || t.truth == 0, "row test", t.number, t.record);
    expect(t.truth <= PUSH_DOWN_FILTER_UNKNOWN, "row test", t.number, t.record);
    return t;
}

/* ---- plans ---- */

static void put_word(struct image *image, uint32_t record, int at, uint32_t word)
{
    uint8_t *bytes = image->bytes + record * PUSH_DOWN_FILTER_RECORD_BYTES + at;
    for (int byte = 0; byte < WORD_BYTES; byte++)
        bytes[byte] = (uint8_t)(word >> (8 * byte));
}

static uint32_t word_of(const struct image *image, uint32_t record, int at)
{
    const uint8_t *bytes = image->bytes + record * PUSH_DOWN_FILTER_RECORD_BYTES + at;
    return bytes[0] | (uint32_t)bytes[1] << 8 | (uint32_t)bytes[2] << 16 | (uint32_t)bytes[3] << 24;
}

/* A record behind all others, with zeros in the words that are not given; its number. */
static uint32_t add(struct image *image, uint32_t kind, uint32_t p, uint32_t q, uint32_t r, uint32_t lo)
{
    uint32_t record = (uint32_t)(image->length / PUSH_DOWN_FILTER_RECORD_BYTES);
    memset(image->bytes + image->length, 0, PUSH_DOWN_FILTER_RECORD_BYTES);
    image->length += PUSH_DOWN_FILTER_RECORD_BYTES;
    put_word(image, record, PUSH_DOWN_FILTER_AT_KIND, kind);
    put_word(image, record, PUSH_DOWN_FILTER_AT_P, p);
    put_word(image, record, PUSH_DOWN_FILTER_AT_Q, q);
    put_word(image, record, PUSH_DOWN_FILTER_AT_R, r);
    put_word(image, record, PUSH_DOWN_FILTER_AT_LO, lo);
    return record;
}

/* The same, as the last child of a record. */
static uint32_t under(struct image *image, uint32_t parent, uint32_t kind, uint32_t p, uint32_t q, uint32_t r, uint32_t lo)
{
    uint32_t record = add(image, kind, p, q, r, lo);
    int link = PUSH_DOWN_FILTER_AT_FIRST_LINK;
    for (uint32_t next; (next = word_of(image, parent, link)) != 0; link = PUSH_DOWN_FILTER_AT_NEXT_LINK)
        parent = next;
    put_word(image, parent, link, record);
    return record;
}

/* The table's number is the qualifier of its two fields; the first is marked. */
static void put_scan(struct image *image, uint32_t parent, uint32_t table)
{
    uint32_t scan = under(image, parent, PUSH_DOWN_FILTER_KIND_TABLE_SCAN, table, 0, 0, 0);
    uint32_t marked = PUSH_DOWN_FILTER_FIELD_MARKED;
    under(image, scan, PUSH_DOWN_FILTER_KIND_FIELD, table, 1, PUSH_DOWN_FILTER_TYPE_INTEGER, marked);
    under(image, scan, PUSH_DOWN_FILTER_KIND_FIELD, table, 2, PUSH_DOWN_FILTER_TYPE_INTEGER, 0);
}

static void put_comparison(struct image *image, uint32_t parent, uint32_t which, uint32_t qualifier, uint32_t literal)
{
    uint32_t comparison = under(image, parent, PUSH_DOWN_FILTER_KIND_BINARY_EXPR, which, 0, 0, 0);
    under(image, comparison, PUSH_DOWN_FILTER_KIND_COLUMN, qualifier, 1, 0, 0);
    under(image, comparison, PUSH_DOWN_FILTER_KIND_INTEGER_LITERAL, 0, 0, 0, literal);
}

/* A scan without fields. */
static void put_empty_scan(struct image *image, uint32_t parent)
{
    under(image, parent, PUSH_DOWN_FILTER_KIND_TABLE_SCAN, 1, 0, 0, 0);
}

/* t1.c1 > 5 AND t2.c1 = 3 over an inner join of two tables on their first fields: a pass moves all of it into the scans. */
static void filter_over_join(struct image *image)
{
    image->length = 0;
    uint32_t filter = add(image, PUSH_DOWN_FILTER_KIND_FILTER, 0, 0, 0, 0);
    uint32_t both = under(image, filter, PUSH_DOWN_FILTER_KIND_BINARY_EXPR, PUSH_DOWN_FILTER_OPERATOR_AND, 0, 0, 0);
    put_comparison(image, both, PUSH_DOWN_FILTER_OPERATOR_GT, 1, 5);
    put_comparison(image, both, PUSH_DOWN_FILTER_OPERATOR_EQ, 2, 3);
    uint32_t join = under(image, filter, PUSH_DOWN_FILTER_KIND_JOIN, PUSH_DOWN_FILTER_JOIN_INNER, 0, 0, 0);
    put_scan(image, join, 1);
    put_scan(image, join, 2);
    uint32_t pair = under(image, join, PUSH_DOWN_FILTER_KIND_PAIR, 0, 0, 0, 0);
    under(image, pair, PUSH_DOWN_FILTER_KIND_COLUMN, 1, 1, 0, 0);
    under(image, pair, PUSH_DOWN_FILTER_KIND_COLUMN, 2, 1, 0, 0);
}

/* The literal TRUE under so many Nots, over a scan without fields. */
static void filter_of_nots(struct image *image, int nots)
{
    image->length = 0;
    uint32_t filter = add(image, PUSH_DOWN_FILTER_KIND_FILTER, 0, 0, 0, 0), parent = filter;
    for (int i = 0; i < nots; i++)
        parent = under(image, parent, PUSH_DOWN_FILTER_KIND_NOT, 0, 0, 0, 0);
    under(image, parent, PUSH_DOWN_FILTER_KIND_BOOLEAN_LITERAL, PUSH_DOWN_FILTER_LITERAL_TRUE, 0, 0, 0);
    put_empty_scan(image, filter);
}

/* A Filter over a Filter of as many conjuncts as a list may have: merged they are one too many. */
static void filter_over_full_filter(struct image *image)
{
    image->length = 0;
    uint32_t upper = add(image, PUSH_DOWN_FILTER_KIND_FILTER, 0, 0, 0, 0);
    put_comparison(image, upper, PUSH_DOWN_FILTER_OPERATOR_GT, 1, 1);
    uint32_t lower = under(image, upper, PUSH_DOWN_FILTER_KIND_FILTER, 0, 0, 0, 0), parent = lower;
    for (uint32_t i = 2; i <= PUSH_DOWN_FILTER_MAX_LIST; i++) {
        parent = under(image, parent, PUSH_DOWN_FILTER_KIND_BINARY_EXPR, PUSH_DOWN_FILTER_OPERATOR_AND, 0, 0, 0);
        put_comparison(image, parent, PUSH_DOWN_FILTER_OPERATOR_LT, 1, i);
    }
    put_comparison(image, parent, PUSH_DOWN_FILTER_OPERATOR_LT, 1, 1);
    put_scan(image, lower, 1);
}

/* ---- what is tried ---- */

static struct image plan;

static void try_version(void)
{
    uint32_t version = push_down_filter_version();
    calls++;
    expect(version == PUSH_DOWN_FILTER_VERSION, "the library's version is not the header's", version, 0);
}

static void expect_rewritten(const char *what, push_down_filter_rewritten r, uint32_t number)
{
    calls++;
    expect(r.number == number && r.record == 0 && r.flag == 0 && r.records == 0, what, r.number, r.record);
}

static void expect_passed(const char *what, push_down_filter_passed p, uint32_t number)
{
    int zero = p.record == 0 && p.visits == 0 && p.changed == 0 && p.finished == 0 && p.records == 0;
    calls++;
    expect(p.number == number && zero, what, p.number, p.record);
}

static void expect_tested(const char *what, push_down_filter_tested t, uint32_t number, uint32_t truth)
{
    calls++;
    expect(t.number == number && t.record == 0 && t.truth == truth, what, t.number, t.record);
}

static void try_null_images(void)
{
    uint8_t *out = fresh_output(64, 1);
    push_down_filter_verdict verdict = push_down_filter_check(NULL, 0);
    calls++;
    expect(verdict.number == PUSH_DOWN_FILTER_BUFFER && verdict.record == 0, "check of NULL", verdict.number, verdict.record);
    expect_rewritten("rewrite of NULL", push_down_filter_rewrite(NULL, 0, 0, out, 64), PUSH_DOWN_FILTER_BUFFER);
    expect(all_are(out, out + 64, 0), "rewrite of NULL", 0, 0);
    expect_rewritten("rewrite of NULL to NULL", push_down_filter_rewrite(NULL, 0, 0, NULL, 0), PUSH_DOWN_FILTER_BUFFER);
    out = fresh_output(64, 1);
    expect_passed("pass of NULL", push_down_filter_pass(NULL, 0, 9, out, 64), PUSH_DOWN_FILTER_BUFFER);
    expect(all_are(out, out + 64, 0), "pass of NULL", 0, 0);
    expect_passed("pass of NULL to NULL", push_down_filter_pass(NULL, 0, 9, NULL, 0), PUSH_DOWN_FILTER_BUFFER);
    expect_tested("row test of NULL", push_down_filter_row_test(NULL, 0, 0, NULL, 0, NULL, 0), PUSH_DOWN_FILTER_BUFFER, 0);
}

static void try_null_outputs_and_rows(void)
{
    static const int64_t value = 0;
    static const uint8_t mark = 0;
    filter_of_nots(&plan, 2);
    const uint8_t *image = plan.bytes;
    size_t length = plan.length;
    expect_rewritten("rewrite to NULL", push_down_filter_rewrite(image, length, 0, NULL, 0), PUSH_DOWN_FILTER_OUTPUT);
    expect_passed("pass to NULL", push_down_filter_pass(image, length, 9, NULL, 0), PUSH_DOWN_FILTER_OUTPUT);
    expect_passed("pass of budget 0 to NULL", push_down_filter_pass(image, length, 0, NULL, 0), PUSH_DOWN_FILTER_OUTPUT);
    expect_tested("row test of no row", push_down_filter_row_test(image, length, 0, NULL, 0, NULL, 0), 0, PUSH_DOWN_FILTER_TRUE);
    expect_tested("row test, no mark", push_down_filter_row_test(image, length, 0, &value, 1, NULL, 0), PUSH_DOWN_FILTER_ROW, 0);
    expect_tested("row test, no value", push_down_filter_row_test(image, length, 0, NULL, 0, &mark, 1), PUSH_DOWN_FILTER_ROW, 0);
}

/* An output as long as the answer or longer is granted, a shorter one refused; the answer does not depend on it. */
static void try_room(size_t room, const uint8_t *rewritten, size_t rewritten_length, const uint8_t *passed, size_t passed_length)
{
    for (int at_end = 0; at_end < 2; at_end++) {
        push_down_filter_rewritten r = rewrite(&plan, 0, room, at_end);
        expect(r.number == (room < rewritten_length ? PUSH_DOWN_FILTER_OUTPUT : 0), "room of rewrite", r.number, r.record);
        expect(r.number || memcmp(placed(outputs, room, at_end), rewritten, rewritten_length) == 0, "answer of rewrite", 0, 0);
        push_down_filter_passed p = pass(&plan, UINT64_MAX, room, at_end);
        expect(p.number == (room < passed_length ? PUSH_DOWN_FILTER_OUTPUT : 0), "room of pass", p.number, p.record);
        expect(p.number || memcmp(placed(outputs, room, at_end), passed, passed_length) == 0, "answer of pass", 0, 0);
    }
}

static void try_rooms(void)
{
    static uint8_t rewritten[PUSH_DOWN_FILTER_MAX_BYTES], passed[PUSH_DOWN_FILTER_MAX_BYTES];
    filter_over_join(&plan);
    push_down_filter_rewritten r = push_down_filter_rewrite(plan.bytes, plan.length, 0, rewritten, sizeof rewritten);
    push_down_filter_passed p = push_down_filter_pass(plan.bytes, plan.length, UINT64_MAX, passed, sizeof passed);
    calls += 2;
    expect(r.number == 0 && r.flag == 1, "rewrite of a Filter over a join", r.number, r.record);
    expect(p.number == 0 && p.finished == 1 && p.changed != 0, "pass over a Filter over a join", p.number, p.record);
    size_t rewritten_length = (size_t)r.records * PUSH_DOWN_FILTER_RECORD_BYTES;
    size_t passed_length = (size_t)p.records * PUSH_DOWN_FILTER_RECORD_BYTES;
    size_t longer = rewritten_length < passed_length ? passed_length : rewritten_length;
    for (size_t room = 0; room <= longer + 3 * PUSH_DOWN_FILTER_RECORD_BYTES; room++)
        try_room(room, rewritten, rewritten_length, passed, passed_length);
    for (size_t room = PUSH_DOWN_FILTER_MAX_BYTES - 40; room <= PUSH_DOWN_FILTER_MAX_BYTES + 40; room++)
        try_room(room, rewritten, rewritten_length, passed, passed_length);
}

/* The calls agree on what is wrong with an image. */
static void try_all_calls(const struct image *image)
{
    for (int at_end = 0; at_end < 2; at_end++) {
        push_down_filter_verdict verdict = check(image, at_end);
        push_down_filter_rewritten r = rewrite(image, 0, 1500, at_end);
        push_down_filter_passed p = pass(image, UINT64_MAX, 1500, at_end);
        push_down_filter_tested t = row_test(image, 0, MAX_ROW, MAX_ROW, at_end);
        if (verdict.number == 0)
            continue;
        expect(r.number == verdict.number && r.record == verdict.record, "rewrite beside check", r.number, r.record);
        expect(p.number == verdict.number && p.record == verdict.record, "pass beside check", p.number, p.record);
        expect(t.number == verdict.number && t.record == verdict.record, "row test beside check", t.number, t.record);
    }
}

static void try_cut_images(void)
{
    static struct image cut;
    filter_over_join(&plan);
    for (size_t length = 0; length < plan.length; length++) {
        cut = plan;
        cut.length = length;
        try_all_calls(&cut);
        expect(check(&cut, 1).number != 0, "a cut image is accepted", 0, 0);
    }
}

static void try_damaged_images(void)
{
    static const uint8_t flips[] = {0x01, 0x02, 0x10, 0x80, 0xFF};
    static struct image damaged;
    filter_over_join(&plan);
    for (size_t at = 0; at < plan.length; at++)
        for (size_t flip = 0; flip < sizeof flips; flip++) {
            damaged = plan;
            damaged.bytes[at] ^= flips[flip];
            try_all_calls(&damaged);
        }
}

/* As long as an image may be, and a byte and a record longer. */
static void try_long_images(void)
{
    static struct image full;
    memset(full.bytes, 0, sizeof full.bytes);
    static const size_t more[] = {0, 1, PUSH_DOWN_FILTER_RECORD_BYTES};
    for (int i = 0; i < 3; i++) {
        full.length = PUSH_DOWN_FILTER_MAX_BYTES + more[i];
        try_all_calls(&full);
        uint32_t number = check(&full, 1).number;
        expect(number == (i == 0 ? PUSH_DOWN_FILTER_RECORD : PUSH_DOWN_FILTER_BUFFER), "an image of zeros", number, 0);
    }
}

static void expect_refused(const char *what, uint32_t number, uint32_t record, uint32_t wanted, uint32_t wanted_record)
{
    expect(number == wanted && record == wanted_record, what, number, record);
}

static void expect_verdict(uint32_t number, uint32_t record)
{
    push_down_filter_verdict verdict = check(&plan, 1);
    expect_refused("check", verdict.number, verdict.record, number, record);
    try_all_calls(&plan);
}

static void try_numbers_of_images(void)
{
    filter_over_join(&plan);
    plan.length--;
    expect_verdict(PUSH_DOWN_FILTER_BUFFER, 0);
    filter_over_join(&plan);
    put_word(&plan, 3, PUSH_DOWN_FILTER_AT_KIND, 11);
    expect_verdict(PUSH_DOWN_FILTER_RECORD, 3);
    filter_over_join(&plan);
    put_word(&plan, 0, PUSH_DOWN_FILTER_AT_NEXT_LINK, 1);
    expect_verdict(PUSH_DOWN_FILTER_LINK, 0);
    filter_of_nots(&plan, PUSH_DOWN_FILTER_MAX_DEPTH - 2);
    expect_verdict(PUSH_DOWN_FILTER_GRANTED, 0);
    filter_of_nots(&plan, PUSH_DOWN_FILTER_MAX_DEPTH - 1);
    expect_verdict(PUSH_DOWN_FILTER_DEPTH, PUSH_DOWN_FILTER_MAX_DEPTH);
    filter_over_join(&plan);
    put_word(&plan, 0, PUSH_DOWN_FILTER_AT_KIND, PUSH_DOWN_FILTER_KIND_DISTINCT);
    expect_verdict(PUSH_DOWN_FILTER_FORM, 0);
    filter_over_join(&plan);
    put_word(&plan, 3, PUSH_DOWN_FILTER_AT_Q, 9);
    expect_verdict(PUSH_DOWN_FILTER_NAME, 3);
    filter_over_join(&plan);
    put_word(&plan, 2, PUSH_DOWN_FILTER_AT_P, PUSH_DOWN_FILTER_OPERATOR_OR);
    expect_verdict(PUSH_DOWN_FILTER_TYPE, 2);
}

static void try_numbers_of_calls(void)
{
    filter_over_join(&plan);
    push_down_filter_rewritten r = rewrite(&plan, UINT32_MAX, 1500, 1);
    expect_refused("rewrite of no plan", r.number, r.record, PUSH_DOWN_FILTER_CALL, UINT32_MAX);
    push_down_filter_tested t = row_test(&plan, 1, MAX_ROW, MAX_ROW, 1);
    expect_refused("row test of no Filter", t.number, t.record, PUSH_DOWN_FILTER_CALL, 1);
    t = row_test(&plan, 0, MAX_ROW, MAX_ROW, 1);
    expect(t.number == 0 && t.truth == PUSH_DOWN_FILTER_FALSE, "row test", t.number, t.record);
    t = row_test(&plan, 0, MAX_ROW - 1, MAX_ROW, 1);
    expect_refused("row test of a short row", t.number, t.record, PUSH_DOWN_FILTER_ROW, 0);
    filter_of_nots(&plan, 1);
    put_word(&plan, 2, PUSH_DOWN_FILTER_AT_KIND, PUSH_DOWN_FILTER_KIND_FUNCTION);
    put_word(&plan, 2, PUSH_DOWN_FILTER_AT_R, PUSH_DOWN_FILTER_TYPE_BOOLEAN);
    t = row_test(&plan, 0, 0, 0, 1);
    expect_refused("row test of a function", t.number, t.record, PUSH_DOWN_FILTER_FUNCTION, 0);
    filter_over_full_filter(&plan);
    expect_verdict(PUSH_DOWN_FILTER_GRANTED, 0);
    r = rewrite(&plan, 0, PUSH_DOWN_FILTER_MAX_BYTES, 1);
    expect_refused("rewrite over a limit", r.number, r.record, PUSH_DOWN_FILTER_RESULT, 0);
    push_down_filter_passed p = pass(&plan, 1, PUSH_DOWN_FILTER_MAX_BYTES, 1);
    expect_refused("pass over a limit", p.number, p.record, PUSH_DOWN_FILTER_RESULT, 0);
}

int main(void)
{
    images = guarded(sizeof plan.bytes);
    outputs = guarded(PUSH_DOWN_FILTER_MAX_BYTES + 64);
    value_rows = guarded(MAX_ROW * sizeof(int64_t));
    mark_rows = guarded(MAX_ROW);
    try_version();
    try_null_images();
    try_null_outputs_and_rows();
    try_rooms();
    try_cut_images();
    try_damaged_images();
    try_long_images();
    try_numbers_of_images();
    try_numbers_of_calls();
    printf("the boundary to C: %lu calls between guard pages, with NULL of length 0, outputs of every length around an answer's, images "
           "cut and damaged at every byte, and a refusal of each number: %lu failed\n",
           calls, failures);
    return failures != 0;
}
