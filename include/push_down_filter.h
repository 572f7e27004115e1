/*
 * Filter push-down over plans that travel as images: check an image, rewrite a plan at a node, pass over the whole plan, try a
 * Filter on a row. Link with libpush_down_filter.a, which `./run` makes in target/staticlib. Of other libraries it needs memcpy,
 * memmove and memset of the C library alone. C99 or later, or C++.
 *
 * An image is 1 to 2,048 records of 32 bytes: eight little-endian 32-bit words kind, p, q, r, lo, hi, first, next. Any bytes may be
 * given: what is no image of a plan is refused with a number and a record.
 *
 * Pointers and lengths. A pointer goes with the number of its elements, which may be 0; a pointer whose length is 0 may be NULL, and
 * nothing is read or written there. Images, marks and outputs are bytes and need no alignment; values are aligned as every int64_t
 * array is. What a call reads must not change while it runs. If the output of a call overlaps anything that it reads, its behaviour
 * is undefined: to put an answer in the place of its image, write it elsewhere and copy it.
 *
 * Outputs. A granted call writes the answer's records, then zeros to the end of the output; a refused call writes zeros alone. No
 * answer is longer than PUSH_DOWN_FILTER_MAX_BYTES.
 *
 * Threads. The functions keep nothing between calls and do no input or output: any number of threads may call them at once, each
 * with an output of its own. They allocate nothing.
 *
 * Stack. Give a thread that calls them 1 MiB. On the hardest images known, on x86-64, check and row_test run in threads of 640 KiB,
 * rewrite in 704 and pass in 768 (harness/tests/stack.rs). None is for threads with small stacks, such as 128 KiB: a rewrite takes
 * 76 KiB at once and a pass 140 KiB, whatever the image. A frame of more than a page touches each of its pages, so that a stack that is
 * too small ends in its guard page.
 */
#ifndef PUSH_DOWN_FILTER_H
#define PUSH_DOWN_FILTER_H

#include <stddef.h>
#include <stdint.h>

/* The version of this header; push_down_filter_version answers that of the library that is linked. */
#define PUSH_DOWN_FILTER_VERSION_MAJOR 0
#define PUSH_DOWN_FILTER_VERSION_MINOR 1
#define PUSH_DOWN_FILTER_VERSION_PATCH 0
#define PUSH_DOWN_FILTER_VERSION                                                                                                 \
    (1000000 * PUSH_DOWN_FILTER_VERSION_MAJOR + 1000 * PUSH_DOWN_FILTER_VERSION_MINOR + PUSH_DOWN_FILTER_VERSION_PATCH)

/* C++ has no restrict. */
#ifdef __cplusplus
#define PUSH_DOWN_FILTER_RESTRICT
extern "C" {
#else
#define PUSH_DOWN_FILTER_RESTRICT restrict
#endif

/* ---- what an image is made of; docs/FORMAT.md of the sources has the rules ---- */

enum {
    PUSH_DOWN_FILTER_RECORD_BYTES = 32,
    PUSH_DOWN_FILTER_MAX_RECORDS = 2048,
    PUSH_DOWN_FILTER_MAX_BYTES = PUSH_DOWN_FILTER_RECORD_BYTES * PUSH_DOWN_FILTER_MAX_RECORDS,
    PUSH_DOWN_FILTER_MAX_DEPTH = 256, /* records from the root down to the deepest, both counted */
    PUSH_DOWN_FILTER_MAX_FIELDS = 64, /* fields of a schema, and of both inputs of a join together */
    PUSH_DOWN_FILTER_MAX_LIST = 128   /* conjuncts of a Filter or of a join's filter; filters of a scan */
};

/* The byte of a record at which each of its words begins. A word that the kind does not use is 0. */
enum {
    PUSH_DOWN_FILTER_AT_KIND = 0,
    PUSH_DOWN_FILTER_AT_P = 4,
    PUSH_DOWN_FILTER_AT_Q = 8,
    PUSH_DOWN_FILTER_AT_R = 12,
    PUSH_DOWN_FILTER_AT_LO = 16,
    PUSH_DOWN_FILTER_AT_HI = 20,
    PUSH_DOWN_FILTER_AT_FIRST_LINK = 24, /* the record of the first child, or 0 */
    PUSH_DOWN_FILTER_AT_NEXT_LINK = 28   /* the record of the next sibling, or 0 */
};

/* The kinds of records: the words that each uses, then its children in order. A name is never 0; the qualifier 0 is none. */
enum {
    /* expressions */
    PUSH_DOWN_FILTER_KIND_COLUMN = 1,          /* p qualifier, q name */
    PUSH_DOWN_FILTER_KIND_INTEGER_LITERAL = 2, /* lo, hi: the halves of a signed 64-bit number */
    PUSH_DOWN_FILTER_KIND_BOOLEAN_LITERAL = 3, /* p 0 or LITERAL_TRUE */
    PUSH_DOWN_FILTER_KIND_NULL_LITERAL = 4,    /* p type */
    PUSH_DOWN_FILTER_KIND_BINARY_EXPR = 5,     /* p operator; left, right */
    PUSH_DOWN_FILTER_KIND_NOT = 6,             /* operand */
    PUSH_DOWN_FILTER_KIND_TEST = 7,            /* p test; operand */
    PUSH_DOWN_FILTER_KIND_BETWEEN = 8,         /* p 0 or NEGATED; operand, low, high */
    PUSH_DOWN_FILTER_KIND_IN_LIST = 9,         /* p 0 or NEGATED; operand, one or more items. UNKNOWN if the operand is NULL, or if no
                                                  item equals it and one is NULL: NOT IN a list with a NULL is never TRUE */
    PUSH_DOWN_FILTER_KIND_FUNCTION = 10,       /* p number, q marks, r type; any arguments */
    /* plans */
    PUSH_DOWN_FILTER_KIND_TABLE_SCAN = 32,     /* p table; fields, filters */
    PUSH_DOWN_FILTER_KIND_FILTER = 33,         /* predicate, input */
    PUSH_DOWN_FILTER_KIND_PROJECTION = 34,     /* one or more entries, input */
    PUSH_DOWN_FILTER_KIND_JOIN = 35,           /* p join; left, right, key pairs, at most one filter */
    PUSH_DOWN_FILTER_KIND_SUBQUERY_ALIAS = 36, /* p qualifier, not 0; input */
    PUSH_DOWN_FILTER_KIND_UNION = 37,          /* two or more inputs */
    PUSH_DOWN_FILTER_KIND_DISTINCT = 38,       /* input */
    PUSH_DOWN_FILTER_KIND_SORT = 39,           /* p 0 or SORT_FETCHES, lo then the fetch; sort keys, input */
    PUSH_DOWN_FILTER_KIND_REPARTITION = 40,    /* input */
    PUSH_DOWN_FILTER_KIND_LIMIT = 41,          /* lo fetch, hi skip; input */
    PUSH_DOWN_FILTER_KIND_AGGREGATE = 42,      /* entries to group by, aggregate entries, at least one of these; input */
    PUSH_DOWN_FILTER_KIND_WINDOW = 43,         /* one or more window entries, input */
    /* parts of plans */
    PUSH_DOWN_FILTER_KIND_FIELD = 48,           /* p qualifier, q name, r type, lo 0 or FIELD_MARKED */
    PUSH_DOWN_FILTER_KIND_ENTRY = 49,           /* p, q qualifier and name of what comes out; expression */
    PUSH_DOWN_FILTER_KIND_PAIR = 50,            /* an expression over the left input, one over the right */
    PUSH_DOWN_FILTER_KIND_SORT_KEY = 51,        /* p 0 or KEY_DESCENDING; expression */
    PUSH_DOWN_FILTER_KIND_AGGREGATE_ENTRY = 52, /* p, q as an entry, r aggregate; expression */
    PUSH_DOWN_FILTER_KIND_WINDOW_ENTRY = 53     /* p, q, r as an aggregate entry; expression, partition columns */
};

/* The operator of a BINARY_EXPR: p. */
enum {
    PUSH_DOWN_FILTER_OPERATOR_AND = 1,
    PUSH_DOWN_FILTER_OPERATOR_OR = 2,
    PUSH_DOWN_FILTER_OPERATOR_EQ = 3,
    PUSH_DOWN_FILTER_OPERATOR_NOT_EQ = 4,
    PUSH_DOWN_FILTER_OPERATOR_LT = 5,
    PUSH_DOWN_FILTER_OPERATOR_LT_EQ = 6,
    PUSH_DOWN_FILTER_OPERATOR_GT = 7,
    PUSH_DOWN_FILTER_OPERATOR_GT_EQ = 8
};

/* The test of a TEST: p. */
enum {
    PUSH_DOWN_FILTER_TEST_IS_NULL = 1,
    PUSH_DOWN_FILTER_TEST_IS_NOT_NULL = 2,
    PUSH_DOWN_FILTER_TEST_IS_TRUE = 3,
    PUSH_DOWN_FILTER_TEST_IS_FALSE = 4,
    PUSH_DOWN_FILTER_TEST_IS_UNKNOWN = 5,
    PUSH_DOWN_FILTER_TEST_IS_NOT_TRUE = 6,
    PUSH_DOWN_FILTER_TEST_IS_NOT_FALSE = 7,
    PUSH_DOWN_FILTER_TEST_IS_NOT_UNKNOWN = 8
};

/* The kind of a JOIN: p. */
enum {
    PUSH_DOWN_FILTER_JOIN_INNER = 1,
    PUSH_DOWN_FILTER_JOIN_LEFT = 2,
    PUSH_DOWN_FILTER_JOIN_RIGHT = 3,
    PUSH_DOWN_FILTER_JOIN_FULL = 4,
    PUSH_DOWN_FILTER_JOIN_LEFT_SEMI = 5,
    PUSH_DOWN_FILTER_JOIN_RIGHT_SEMI = 6,
    PUSH_DOWN_FILTER_JOIN_LEFT_ANTI = 7,
    PUSH_DOWN_FILTER_JOIN_RIGHT_ANTI = 8
};

/* The aggregate of an AGGREGATE_ENTRY or a WINDOW_ENTRY: r. */
enum { PUSH_DOWN_FILTER_AGGREGATE_COUNT = 1, PUSH_DOWN_FILTER_AGGREGATE_MIN = 2, PUSH_DOWN_FILTER_AGGREGATE_MAX = 3 };

/* The type of a NULL_LITERAL: p; of a FIELD or a FUNCTION: r. */
enum { PUSH_DOWN_FILTER_TYPE_INTEGER = 1, PUSH_DOWN_FILTER_TYPE_BOOLEAN = 2 };

/* The marks of a FUNCTION: q. 0 is none; the third is both. */
enum {
    PUSH_DOWN_FILTER_FUNCTION_VOLATILE = 1,
    PUSH_DOWN_FILTER_FUNCTION_LEAFWARD = 2,
    PUSH_DOWN_FILTER_FUNCTION_VOLATILE_LEAFWARD = 3
};

/* Words that are 0 or 1. */
enum {
    PUSH_DOWN_FILTER_LITERAL_TRUE = 1,   /* p of a BOOLEAN_LITERAL */
    PUSH_DOWN_FILTER_NEGATED = 1,        /* p of a BETWEEN or an IN_LIST */
    PUSH_DOWN_FILTER_SORT_FETCHES = 1,   /* p of a SORT */
    PUSH_DOWN_FILTER_KEY_DESCENDING = 1, /* p of a SORT_KEY */
    PUSH_DOWN_FILTER_FIELD_MARKED = 1    /* lo of a FIELD: a scan can filter by it exactly */
};

/* ---- the calls ---- */

/* PUSH_DOWN_FILTER_VERSION of the library. */
uint32_t push_down_filter_version(void);

/* The `number` of a result. Of several that are met the lowest is given, then the lowest record; of 3 the record whose link is the first
 * bad one met in reading, else the first that no link leads to. */
enum {
    PUSH_DOWN_FILTER_GRANTED = 0,   /* the image is accepted, the call was done; the record is 0 */
    PUSH_DOWN_FILTER_BUFFER = 1,    /* length 0, not whole records, over 2,048 records; the record is 0 */
    PUSH_DOWN_FILTER_RECORD = 2,    /* unknown kind or word out of range */
    PUSH_DOWN_FILTER_LINK = 3,      /* a bad link, or records that no link leads to */
    PUSH_DOWN_FILTER_DEPTH = 4,     /* deeper than 256 */
    PUSH_DOWN_FILTER_FORM = 5,      /* wrong children, a root that is no plan, a list over 128 */
    PUSH_DOWN_FILTER_NAME = 6,      /* a reference or schema rule broken, over 64 fields */
    PUSH_DOWN_FILTER_TYPE = 7,      /* a type rule broken */
    PUSH_DOWN_FILTER_CALL = 8,      /* no plan (rewrite) or no Filter (row test) at the record asked for, which is the record given */
    PUSH_DOWN_FILTER_ROW = 9,       /* values or marks not as long as the input's fields, a mark above 1, a boolean that is not
                                       NULL and neither 0 nor 1; the record is 0 */
    PUSH_DOWN_FILTER_FUNCTION = 10, /* the predicate of a row test holds a function; the record is the one asked for */
    PUSH_DOWN_FILTER_RESULT = 11,   /* the answer, or the plan after a merge of Filters, is over 2,048 records, depth 256 or 128 in a
                                       list; the record is the rewritten one, of a pass in the plan as it then stood */
    PUSH_DOWN_FILTER_OUTPUT = 12    /* the output is shorter than the answer; the record is 0 */
};

/* Tests 1 to 7 of an image. */
typedef struct {
    uint32_t number;
    uint32_t record;
} push_down_filter_verdict;

push_down_filter_verdict push_down_filter_check(const uint8_t *image, size_t length);

/* The rewrite of the plan at record `node`, in its place: the answer is the whole image. Numbers 0 to 8, 11 and 12. */
typedef struct {
    uint32_t number;
    uint32_t record;
    uint32_t flag;    /* 1 if the rewrite says that it changed the plan; 0 if not, and for a refusal */
    uint32_t records; /* how many records the answer has; 0 for a refusal */
} push_down_filter_rewritten;

push_down_filter_rewritten push_down_filter_rewrite(const uint8_t *PUSH_DOWN_FILTER_RESTRICT image, size_t length, uint32_t node,
                                                    uint8_t *PUSH_DOWN_FILTER_RESTRICT out, size_t room);

/* A pass: the root is rewritten, then likewise, in order, the plans below what stands there now. It ends after `budget` visits, if
 * there are as many. Numbers 0 to 7, 11 and 12. All counts of a refusal are 0. */
typedef struct {
    uint32_t number;
    uint32_t record;
    uint64_t visits;   /* how many nodes were visited */
    uint64_t changed;  /* how many of these rewrites raised the flag; it can stay above 0 at every pass over a plan
                          that no longer alters, so compare images and do not wait for 0 */
    uint32_t finished; /* 1 if every node was visited, 0 if nodes remain */
    uint32_t records;
} push_down_filter_passed;

push_down_filter_passed push_down_filter_pass(const uint8_t *PUSH_DOWN_FILTER_RESTRICT image, size_t length, uint64_t budget,
                                              uint8_t *PUSH_DOWN_FILTER_RESTRICT out, size_t room);

/* The `truth` of a row test. */
enum { PUSH_DOWN_FILTER_FALSE = 0, PUSH_DOWN_FILTER_TRUE = 1, PUSH_DOWN_FILTER_UNKNOWN = 2 };

/* The predicate of the Filter at record `node` on one row over its input's fields. A value whose mark is 1 is NULL and is not read;
 * a boolean is 0 or 1. Numbers 0 to 10. */
typedef struct {
    uint32_t number;
    uint32_t record;
    uint32_t truth; /* 0 for a refusal */
} push_down_filter_tested;

push_down_filter_tested push_down_filter_row_test(const uint8_t *image, size_t length, uint32_t node, const int64_t *values,
                                                  size_t count, const uint8_t *marks, size_t marked);

#ifdef __cplusplus
}
#endif

#endif
