/*
 * Measures the stack that ldfs_solve needs for the deepest sheets: chains of 3,332 plain junctions, or of 3,156 counted ones, the most that
 * 60,000 bytes hold; and what ldfs_rearrange and ldfs_restore need for a draft of 4,096 stages and for a small one.
 *
 * The call runs in a thread whose stack is filled with a pattern; what the call has overwritten is what it used. What the same thread
 * uses where it calls a function that does nothing is taken off. Four chains are worked, one of them of counted junctions: in two the
 * deepest visit marks the ending, in one it raises the last junction, and in one it comes to a junction without checks, which stands in the
 * ending's place.
 *
 * A pattern shows only what was written. What the deepest visit reserves and leaves unwritten, and how far the empty thread reaches below
 * its own call, it does not show: together less than UNSEEN. It exits with 1 where a call may need more than the header says,
 * LDFS_STACK_BYTES.
 */
#define _POSIX_C_SOURCE 200809L

#include "ldfs.h"

#include <pthread.h>
#include <stdio.h>
#include <stdlib.h>
#include <string.h>

/* In bytes; a junction's own field in either form, and a check of one finding. */
enum { HEAD = 8, ENDING = 12, PLAIN = LDFS_JUNCTION_CHECKS, COUNTED = LDFS_COUNTED_CHECKS, CHECK = 9 };

/* What the deepest visit does. */
enum deepest { MARKS_ENDING, RAISES_JUNCTION, COMES_TO_NO_CHECKS };

enum { LINKS = LDFS_SHEET_MOST - HEAD - ENDING, DEEPEST = LINKS / (PLAIN + CHECK), DEEPEST_COUNTED = LINKS / (COUNTED + CHECK) };
enum { STACK_BYTES = 16 << 20, PATTERN = 0xa5, COST = 7, UNSEEN = 1024 };

/* As many junctions of one check as a draft of 4,096 stages may have, the others of which are endings. */
enum { DRAFT_JUNCTIONS = (LDFS_SHEET_MOST - HEAD - LDFS_STAGES_MOST * ENDING) / (PLAIN + CHECK - ENDING) };

static uint8_t sheet[LDFS_SHEET_MOST], output[LDFS_SHEET_MOST];
static uint8_t table[LDFS_TABLE_LEAST], list[LDFS_LIST_LEAST];
static uint8_t result[LDFS_RESULT_LEAST];
static size_t sheet_length;
static uint32_t returned;

static void put_big(uint8_t *at, uint32_t x)
{
    for (int i = 0; i < 4; i++)
        at[i] = (uint8_t)(x >> (24 - 8 * i));
}

/* A junction's own field, plain or counted with one check. What comes behind it is the answer. */
static uint8_t *put_junction(uint8_t *at, size_t own, uint32_t value)
{
    at[0] = own == PLAIN ? LDFS_JUNCTION_TAG : LDFS_COUNTED_TAG;
    at[2] = (uint8_t)(own - LDFS_FIELD_CONTENT);
    put_big(at + LDFS_JUNCTION_VALUE, value);
    if (own == COUNTED)
        at[LDFS_COUNTED_NUMBER] = 1;
    return at + own;
}

/* A check of one finding. What comes behind it is the answer. */
static uint8_t *put_check(uint8_t *at, uint32_t finding)
{
    at[0] = LDFS_CHECK_TAG;
    at[2] = CHECK - LDFS_FIELD_CONTENT;
    put_big(at + LDFS_CHECK_COST, COST);
    at[LDFS_CHECK_FINDINGS] = (uint8_t)(finding / 256);
    at[LDFS_CHECK_FINDINGS + 1] = (uint8_t)(finding % 256);
    return at + CHECK;
}

/* A chain of so many junctions of cost COST, whose own fields take so many bytes, and an ending of cost 0, or a junction without checks at
   0 in its place; every value the price of its check; but the last junction's value is 0 where it is to be raised, and those above it are
   the lower for it. */
static void make_chain(uint32_t junctions, size_t own, enum deepest deepest)
{
    uint8_t *at = sheet;
    const uint8_t head[HEAD] = {1, 0, 5, 0, (uint8_t)((junctions + 1) / 256), (uint8_t)((junctions + 1) % 256), 0, 0};
    memset(sheet, 0, sizeof sheet);
    memcpy(at, head, sizeof head);
    at += sizeof head;
    for (uint32_t stage = 0; stage < junctions; stage++) {
        uint32_t below = junctions - stage - (deepest == RAISES_JUNCTION ? 1 : 0);
        at = put_check(put_junction(at, own, COST * below), stage + 1);
    }
    at[0] = deepest == COMES_TO_NO_CHECKS ? 3 : 2;
    at[2] = deepest == COMES_TO_NO_CHECKS ? 6 : 9;
    sheet_length = (size_t)(at - sheet) + (deepest == COMES_TO_NO_CHECKS ? PLAIN : ENDING);
}

/* A draft of so many stages, the last of which are junctions: a chain that begins at the last one and leads back to the endings. */
static void make_draft(uint32_t stages, uint32_t junctions)
{
    const uint32_t start = stages - 1;
    const uint8_t head[HEAD] = {LDFS_DRAFT_TAG, 0, 5, 0, (uint8_t)(stages / 256), (uint8_t)(stages % 256), (uint8_t)(start / 256),
                                (uint8_t)(start % 256)};
    uint8_t *at = sheet + HEAD;
    memset(sheet, 0, sizeof sheet);
    memcpy(sheet, head, sizeof head);
    for (uint32_t stage = 0; stage < stages; stage++) {
        if (stage < stages - junctions) {
            at[0] = LDFS_ENDING_TAG;
            at[2] = ENDING - LDFS_FIELD_CONTENT;
            at += ENDING;
        } else {
            at = put_check(put_junction(at, PLAIN, 0), stage - 1);
        }
    }
    sheet_length = (size_t)(at - sheet);
}

/* A function of the same form, which does nothing. */
static uint32_t nothing(uint8_t *a, size_t a_length, uint8_t *b, size_t b_length, uint64_t number, uint8_t *c, size_t c_length)
{
    (void)a, (void)a_length, (void)b, (void)b_length, (void)number, (void)c, (void)c_length;
    return 0;
}

static uint32_t (*volatile function)(uint8_t *, size_t, uint8_t *, size_t, uint64_t, uint8_t *, size_t);

static void *call(void *unused)
{
    (void)unused;
    returned = function(sheet, sheet_length, table, sizeof table, UINT64_MAX, result, sizeof result);
    return NULL;
}

static void *call_rearrange(void *unused)
{
    (void)unused;
    returned = ldfs_rearrange(sheet, sheet_length, table, sizeof table, output, sizeof output, list, sizeof list);
    return NULL;
}

/* What was rearranged before becomes the draft again. */
static void *call_restore(void *unused)
{
    (void)unused;
    returned = ldfs_restore(output, sheet_length, table, sizeof table, list, sizeof list, sheet, sizeof sheet);
    return NULL;
}

static void must(int error, const char *what)
{
    if (error != 0) {
        fprintf(stderr, "%s: %s\n", what, strerror(error));
        exit(EXIT_FAILURE);
    }
}

/* The bytes of its stack that a thread has written which makes a call. */
static size_t stack_used(void *(*make_call)(void *))
{
    void *memory = NULL;
    pthread_attr_t attributes;
    pthread_t thread;
    must(posix_memalign(&memory, 4096, STACK_BYTES), "memory");
    memset(memory, PATTERN, STACK_BYTES);
    must(pthread_attr_init(&attributes), "attributes");
    must(pthread_attr_setstack(&attributes, memory, STACK_BYTES), "stack");
    must(pthread_create(&thread, &attributes, make_call, NULL), "thread");
    must(pthread_join(thread, NULL), "join");
    must(pthread_attr_destroy(&attributes), "attributes");

    const uint8_t *bytes = memory;
    size_t untouched = 0;
    while (untouched < STACK_BYTES && bytes[untouched] == PATTERN)
        untouched++;
    free(memory);
    return STACK_BYTES - untouched;
}

/* The stack that a call needs, which has to return this number, beyond that of a thread that calls nothing. */
static size_t measure_call(void *(*make_call)(void *), uint32_t number, const char *what)
{
    size_t all = stack_used(make_call);
    if (returned != number) {
        fprintf(stderr, "%s: returned %u\n", what, (unsigned)returned);
        exit(EXIT_FAILURE);
    }
    function = nothing;
    size_t empty = stack_used(call);
    return all > empty ? all - empty : 0;
}

/* The stack that a chain of so many junctions needs, whose own fields take so many bytes. */
static size_t measure(uint32_t junctions, size_t own, enum deepest deepest)
{
    make_chain(junctions, own, deepest);
    function = ldfs_solve;
    return measure_call(call, deepest == COMES_TO_NO_CHECKS ? LDFS_NONE : LDFS_SETTLED, "a chain is not worked to its end");
}

/* The larger of what the two calls on a draft need, both of which it prints. */
static size_t measure_draft(uint32_t stages, uint32_t junctions)
{
    make_draft(stages, junctions);
    size_t rearranged = measure_call(call_rearrange, LDFS_REARRANGED, "a draft is not rearranged");
    size_t restored = measure_call(call_restore, LDFS_RESTORED, "a draft is not restored");
    printf("a draft of %u stages: %zu bytes to rearrange it, %zu to restore it\n", (unsigned)stages, rearranged, restored);
    return rearranged > restored ? rearranged : restored;
}

static size_t larger(size_t x, size_t y)
{
    return x > y ? x : y;
}

int main(void)
{
    /* Where memset and memcpy are looked up at their first use, that takes stack of its own: each function is called for nothing first. */
    measure(1, PLAIN, MARKS_ENDING);
    make_draft(2, 1);
    call_rearrange(NULL);
    call_restore(NULL);
    size_t shallow = measure(1, PLAIN, MARKS_ENDING);
    size_t marked = measure(DEEPEST, PLAIN, MARKS_ENDING);
    size_t raised = measure(DEEPEST, PLAIN, RAISES_JUNCTION);
    size_t none = measure(DEEPEST, PLAIN, COMES_TO_NO_CHECKS);
    size_t counted = measure(DEEPEST_COUNTED, COUNTED, MARKS_ENDING);
    size_t most = larger(larger(marked, raised), larger(none, counted));
    printf("1 junction: %zu bytes of stack\n", shallow);
    printf("%d junctions, the ending marked: %zu bytes\n", DEEPEST, marked);
    printf("%d junctions, the last one raised: %zu bytes\n", DEEPEST, raised);
    printf("%d junctions and one without checks: %zu bytes\n", DEEPEST, none);
    printf("%d counted junctions, the ending marked: %zu bytes\n", DEEPEST_COUNTED, counted);
    printf("for each junction: %zu bytes\n", (most - shallow) / (DEEPEST - 1));
    most = larger(most, measure_draft(2, 1));
    most = larger(most, measure_draft(LDFS_STAGES_MOST, DRAFT_JUNCTIONS));
    int enough = most + UNSEEN <= LDFS_STACK_BYTES;
    printf("the header says %d: %s\n", LDFS_STACK_BYTES, enough ? "enough" : "NOT ENOUGH");
    return enough ? EXIT_SUCCESS : EXIT_FAILURE;
}
