/*
 * The test of ldfs_solve as a host in C calls it (S9 of docs/SPEC.md). It works sheet A, carries interrupted work on, reads the plan, and
 * meets each refusal. It prints what it does and exits with 1 if anything is not as expected. The expected numbers are those of the
 * worked examples (S11) and the questions (S4). A host to start from is examples/host.c.
 */
#include "ldfs.h"

#include <inttypes.h>
#include <stdbool.h>
#include <stdio.h>
#include <stdlib.h>
#include <string.h>

/* The host lends these to every call. The table is longer than it has to be, and not a whole number of entries: both are allowed. */
enum { MORE_ENTRIES = 2, LEFT_OVER = 3 };
static uint8_t table[LDFS_TABLE_LEAST + MORE_ENTRIES * LDFS_ENTRY_BYTES + LEFT_OVER];
static uint8_t result[LDFS_RESULT_LEAST];

/* Sheet A: worst, 4 stages, start 0. */
static const uint8_t sheet_a[] = {
    1, 0, 5, 0, 0, 4, 0, 0,                /* head: kind 0, 4 stages, start 0 */
    3, 0, 6, 0, 0, 0, 0, 0, 0,             /* stage 0, a junction: value 0, open, nothing chosen */
    4, 0, 8, 0, 0, 0, 200, 0, 1, 0, 3,     /*   check 0: cost 200, findings 1 and 3 */
    4, 0, 6, 0, 0, 1, 244, 0, 3,           /*   check 1: cost 500, finding 3 */
    3, 0, 6, 0, 0, 0, 0, 0, 0,             /* stage 1, a junction */
    4, 0, 8, 0, 0, 1, 144, 0, 2, 0, 3,     /*   check 0: cost 400, findings 2 and 3 */
    2, 0, 9, 0, 0, 0, 100, 0, 0, 0, 0, 0,  /* stage 2, an ending: cost 100, value 0, open */
    2, 0, 9, 0, 0, 0, 0, 0, 0, 0, 0, 0,    /* stage 3, an ending: cost 0 */
};
enum { A_STAGES = 4, A_FIRST_COST = 23, A_FIRST_MARK = 15 };
static const uint32_t offsets_a[A_STAGES] = {8, 37, 57, 69};

/* Sheet B: one junction, one check (100, findings 1 and 2), endings 30 and 50. */
static const uint8_t sheet_b[] = {
    1, 0, 5, 0, 0, 3, 0, 0,                /* head: kind 0, 3 stages, start 0 */
    3, 0, 6, 0, 0, 0, 0, 0, 0,             /* stage 0 */
    4, 0, 8, 0, 0, 0, 100, 0, 1, 0, 2,     /*   check 0 */
    2, 0, 9, 0, 0, 0, 30, 0, 0, 0, 0, 0,   /* stage 1 */
    2, 0, 9, 0, 0, 0, 50, 0, 0, 0, 0, 0,   /* stage 2 */
};
enum { B_STAGES_LOW = 5, B_VALUE_LOW = 14, B_FINDING_LOW = 25, B_ENDING_MARK = 39 };

/* Sheet C: one junction, one check (10, findings 1 to 4), endings 10, 40, 40 and 20. */
static const uint8_t sheet_c[] = {
    1, 0, 5, 0, 0, 5, 0, 0,                         /* head: kind 0, 5 stages, start 0 */
    3, 0, 6, 0, 0, 0, 0, 0, 0,                      /* stage 0 */
    4, 0, 12, 0, 0, 0, 10, 0, 1, 0, 2, 0, 3, 0, 4,  /*   check 0 */
    2, 0, 9, 0, 0, 0, 10, 0, 0, 0, 0, 0,            /* stage 1 */
    2, 0, 9, 0, 0, 0, 40, 0, 0, 0, 0, 0,            /* stage 2 */
    2, 0, 9, 0, 0, 0, 40, 0, 0, 0, 0, 0,            /* stage 3 */
    2, 0, 9, 0, 0, 0, 20, 0, 0, 0, 0, 0,            /* stage 4 */
};
enum { C_FIRST_ENDING = 32, C_ENDINGS = 4 };

/* Sheet D: whole, one junction, one check (100, findings 1 and 1), an ending of 30. */
static const uint8_t sheet_d[] = {
    1, 0, 5, 1, 0, 2, 0, 0,                /* head: kind 1, 2 stages, start 0 */
    3, 0, 6, 0, 0, 0, 0, 0, 0,             /* stage 0 */
    4, 0, 8, 0, 0, 0, 100, 0, 1, 0, 1,     /*   check 0: stage 1 twice */
    2, 0, 9, 0, 0, 0, 30, 0, 0, 0, 0, 0,   /* stage 1 */
};
enum { D_ENDING = 28 };

/* Sheet E: whole, one junction, one check (10, findings 1, 1, 2, 2 and 2), endings 5 and 7. */
static const uint8_t sheet_e[] = {
    1, 0, 5, 1, 0, 3, 0, 0,                               /* head: kind 1, 3 stages, start 0 */
    3, 0, 6, 0, 0, 0, 0, 0, 0,                            /* stage 0 */
    4, 0, 14, 0, 0, 0, 10, 0, 1, 0, 1, 0, 2, 0, 2, 0, 2,  /*   check 0: stage 1 twice, stage 2 three times */
    2, 0, 9, 0, 0, 0, 5, 0, 0, 0, 0, 0,                   /* stage 1 */
    2, 0, 9, 0, 0, 0, 7, 0, 0, 0, 0, 0,                   /* stage 2 */
};

/* Sheet F: one junction without checks, the shortest sheet. */
static const uint8_t sheet_f[LDFS_SHEET_LEAST] = {
    1, 0, 5, 0, 0, 1, 0, 0,                /* head: kind 0, 1 stage, start 0 */
    3, 0, 6, 0, 0, 0, 0, 0, 0,             /* stage 0 */
};

/* Sheet G: one check (10) leads to a junction without checks, the other (100) to an ending of 30. */
static const uint8_t sheet_g[] = {
    1, 0, 5, 0, 0, 3, 0, 0,                /* head: kind 0, 3 stages, start 0 */
    3, 0, 6, 0, 0, 0, 0, 0, 0,             /* stage 0 */
    4, 0, 6, 0, 0, 0, 10, 0, 1,            /*   check 0: finding 1 */
    4, 0, 6, 0, 0, 0, 100, 0, 2,           /*   check 1: finding 2 */
    3, 0, 6, 0, 0, 0, 0, 0, 0,             /* stage 1, a junction without checks */
    2, 0, 9, 0, 0, 0, 30, 0, 0, 0, 0, 0,   /* stage 2 */
};

/* Sheet H: both checks lead there. */
static const uint8_t sheet_h[] = {
    1, 0, 5, 0, 0, 2, 0, 0,                /* head: kind 0, 2 stages, start 0 */
    3, 0, 6, 0, 0, 0, 0, 0, 0,             /* stage 0 */
    4, 0, 6, 0, 0, 0, 10, 0, 1,            /*   check 0: finding 1 */
    4, 0, 6, 0, 0, 0, 100, 0, 1,           /*   check 1: finding 1 */
    3, 0, 6, 0, 0, 0, 0, 0, 0,             /* stage 1, a junction without checks */
};
enum { H_STAGE_1 = 35 };

/* Sheet J: sheet A with junction 0 counted, which writes that it has 2 checks. */
static const uint8_t sheet_j[] = {
    1, 0, 5, 0, 0, 4, 0, 0,                /* head: kind 0, 4 stages, start 0 */
    5, 0, 7, 0, 0, 0, 0, 0, 0, 2,          /* stage 0, a counted junction: value 0, open, nothing chosen, 2 checks */
    4, 0, 8, 0, 0, 0, 200, 0, 1, 0, 3,     /*   check 0: cost 200, findings 1 and 3 */
    4, 0, 6, 0, 0, 1, 244, 0, 3,           /*   check 1: cost 500, finding 3 */
    3, 0, 6, 0, 0, 0, 0, 0, 0,             /* stage 1, a plain junction */
    4, 0, 8, 0, 0, 1, 144, 0, 2, 0, 3,     /*   check 0: cost 400, findings 2 and 3 */
    2, 0, 9, 0, 0, 0, 100, 0, 0, 0, 0, 0,  /* stage 2, an ending: cost 100, value 0, open */
    2, 0, 9, 0, 0, 0, 0, 0, 0, 0, 0, 0,    /* stage 3, an ending: cost 0 */
};
enum { J_CHECK_1 = 29, J_STAGE_1 = 38 };
static const uint32_t offsets_j[A_STAGES] = {8, 38, 58, 70};

/* Where sheets have the field of stage 0, a junction, and that of its check 0, where that junction is plain. */
enum { STAGE_0 = 8, CHECK_0 = STAGE_0 + LDFS_JUNCTION_CHECKS };

/* Where J has the number of junction 0 and the field of its check 0, and the length of a counted junction's content. */
enum { J_NUMBER = STAGE_0 + LDFS_COUNTED_NUMBER, J_CHECK_0 = STAGE_0 + LDFS_COUNTED_CHECKS };
enum { COUNTED_LENGTH = LDFS_COUNTED_CHECKS - LDFS_FIELD_CONTENT };

/* A copy of one of these sheets has no more bytes. */
enum { COPY_MOST = 100 };

/* A check has no more findings than these. */
enum { FINDINGS_MOST = 16 };

enum { WORST = 0, WHOLE = 1 };

/* Fields of a sheet; the junction has one check of one finding. */
enum { HEAD_BYTES = 8, ENDING_BYTES = 12, JUNCTION_BYTES = 18 };

static int failures;

static void expect(bool holds, const char *what)
{
    if (!holds) {
        failures++;
        printf("  NOT AS EXPECTED: %s\n", what);
    }
}

/* Numbers as the library writes them, least significant byte first. */
static uint64_t little(const uint8_t *at, size_t bytes)
{
    uint64_t x = 0;
    while (bytes-- > 0)
        x = x << 8 | at[bytes];
    return x;
}

/* Numbers of the sheet, most significant byte first. */
static uint32_t big(const uint8_t *at, size_t bytes)
{
    uint32_t x = 0;
    for (size_t i = 0; i < bytes; i++)
        x = x << 8 | at[i];
    return x;
}

static void put_big(uint8_t *at, uint32_t x)
{
    for (int i = 0; i < 4; i++)
        at[i] = (uint8_t)(x >> (24 - 8 * i));
}

/* The end of a field, by its own length: behind a junction's field, in either form, its check 0 begins. */
static const uint8_t *past(const uint8_t *field)
{
    return field + LDFS_FIELD_CONTENT + big(field + LDFS_FIELD_LENGTH, 2);
}

/* One call, as a host makes it. */
static uint32_t solve(uint8_t *sheet, size_t length, uint64_t budget)
{
    return ldfs_solve(sheet, length, table, sizeof table, budget, result, sizeof result);
}

/* The same, with what it is to return: the number, price, passes and raises. */
static void solve_expecting(const char *name, uint8_t *sheet, size_t length, uint64_t budget, uint32_t number, uint64_t price,
                            uint64_t passes, uint64_t raises)
{
    uint32_t returned = solve(sheet, length, budget);
    uint64_t found_price = little(result + LDFS_RESULT_PRICE, 8);
    uint64_t found_passes = little(result + LDFS_RESULT_PASSES, 8);
    uint64_t found_raises = little(result + LDFS_RESULT_RAISES, 8);
    printf("%s: %" PRIu32 " %" PRIu64 " %" PRIu64 " %" PRIu64 "\n", name, returned, found_price, found_passes, found_raises);
    expect(returned == number, "number");
    expect(found_price == price, "price");
    expect(found_passes == passes, "passes");
    expect(found_raises == raises, "raises");
}

/* Every entry of the table from number `from` on is 0, and the bytes left over at its end are as they were. */
static void expect_rest_of_table(size_t from, uint8_t left_over)
{
    size_t entries = sizeof table / LDFS_ENTRY_BYTES;
    bool zero = true;
    for (size_t i = from * LDFS_ENTRY_BYTES; i < entries * LDFS_ENTRY_BYTES; i++)
        zero = zero && table[i] == 0;
    expect(zero, "entries past the last stage are 0");
    for (size_t i = entries * LDFS_ENTRY_BYTES; i < sizeof table; i++)
        expect(table[i] == left_over, "bytes left over are not touched");
}

/* Sheet A or J in one call: the price, and the index table, whose entries are these offsets. */
static void at_once(const char *what, uint8_t *sheet, size_t length, const uint32_t *offsets)
{
    memset(table, 7, sizeof table);
    solve_expecting(what, sheet, length, UINT64_MAX, LDFS_SETTLED, 500, 3, 3);
    for (size_t i = 0; i < A_STAGES; i++)
        expect(little(table + LDFS_ENTRY_BYTES * i, LDFS_ENTRY_BYTES) == offsets[i], "offset of a stage");
    expect_rest_of_table(A_STAGES, 7);
}

/* Sheet A in one call, and the plan. */
static void sheet_a_at_once(void)
{
    uint8_t sheet[sizeof sheet_a];
    memcpy(sheet, sheet_a, sizeof sheet);
    at_once("sheet A", sheet, sizeof sheet, offsets_a);

    /* The plan takes the chosen check at each junction: check 1 at stage 0, which leads to stage 3, an ending. */
    const uint8_t *first = sheet + little(table, LDFS_ENTRY_BYTES);
    const uint8_t *last = sheet + little(table + 3 * LDFS_ENTRY_BYTES, LDFS_ENTRY_BYTES);
    const uint8_t *check = first + LDFS_JUNCTION_CHECKS + LDFS_FIELD_CONTENT + big(first + LDFS_JUNCTION_CHECKS + LDFS_FIELD_LENGTH, 2);
    printf("  stage 0 check %d value %" PRIu32 " by %" PRIu32 "\n", first[8], big(first + 3, 4), big(check + LDFS_CHECK_FINDINGS, 2));
    printf("  stage 3 end value %" PRIu32 "\n", big(last + 7, 4));
    expect(first[0] == 3 && big(first + 3, 4) == 500 && first[7] == 1 && first[8] == 1, "stage 0: value 500, settled, check 1");
    expect(big(check + LDFS_FIELD_LENGTH, 2) == 6 && big(check + LDFS_CHECK_FINDINGS, 2) == 3, "check 1 has one finding, stage 3");
    expect(last[0] == 2 && big(last + 7, 4) == 0 && last[11] == 1, "stage 3: an ending, value 0, settled");
}

/* Interrupted work: the sheet is kept and handed over again. */
static void sheet_a_carried_on(void)
{
    uint8_t sheet[sizeof sheet_a];
    memcpy(sheet, sheet_a, sizeof sheet);
    solve_expecting("sheet A, budget 2", sheet, sizeof sheet, 2, LDFS_STOPPED, 200, 2, 2);
    solve_expecting("that sheet carried on", sheet, sizeof sheet, UINT64_MAX, LDFS_SETTLED, 500, 2, 1);
}

/* The same in steps of one raise, as a host does that has other work between calls. A call that stops has made as many raises as its
   budget allows, and its price is a lower bound that never falls. */
static void sheet_a_in_steps(void)
{
    uint8_t sheet[sizeof sheet_a];
    memcpy(sheet, sheet_a, sizeof sheet);
    uint32_t number;
    uint64_t bound = 0;
    int calls = 0;
    do {
        number = solve(sheet, sizeof sheet, 1);
        calls++;
        uint64_t price = little(result + LDFS_RESULT_PRICE, 8);
        expect(bound <= price && price <= 500, "the price never falls, nor goes beyond the least cost");
        bound = price;
        if (number == LDFS_STOPPED)
            expect(little(result + LDFS_RESULT_RAISES, 8) == 1, "a stopped call has spent its budget");
    } while (number == LDFS_STOPPED);
    printf("sheet A in steps of one raise: %" PRIu32 " after %d calls\n", number, calls);
    expect(number == LDFS_SETTLED && little(result + LDFS_RESULT_PRICE, 8) == 500, "the steps come to the same price");
}

/* A fresh copy of a sheet, of a kind, in one call: settled, with price, passes and raises. */
static void settles(const char *name, const uint8_t *sheet, size_t length, uint8_t kind, uint64_t price, uint64_t passes, uint64_t raises)
{
    uint8_t copy[COPY_MOST];
    memcpy(copy, sheet, length);
    copy[LDFS_HEAD_KIND] = kind;
    solve_expecting(name, copy, length, UINT64_MAX, LDFS_SETTLED, price, passes, raises);
}

static void sheets_of_both_kinds(void)
{
    settles("sheet B, worst", sheet_b, sizeof sheet_b, WORST, 150, 4, 5);
    settles("sheet B, whole", sheet_b, sizeof sheet_b, WHOLE, 180, 4, 5);
    settles("sheet C, worst", sheet_c, sizeof sheet_c, WORST, 50, 4, 7);
    settles("sheet C, whole", sheet_c, sizeof sheet_c, WHOLE, 120, 6, 9);

    uint8_t free_c[sizeof sheet_c];
    memcpy(free_c, sheet_c, sizeof sheet_c);
    for (int i = 0; i < C_ENDINGS; i++)
        put_big(free_c + C_FIRST_ENDING + ENDING_BYTES * i + LDFS_ENDING_COST, 0);
    settles("sheet C, every ending's cost 0", free_c, sizeof free_c, WORST, 10, 2, 1);
}

/* One ending of cost 70: its one raise is just within a budget of 1. */
static const uint8_t ending_70[] = {
    1, 0, 5, 0, 0, 1, 0, 0,               /* head: kind 0, 1 stage, start 0 */
    2, 0, 9, 0, 0, 0, 70, 0, 0, 0, 0, 0,  /* stage 0, an ending: cost 70, value 0, open */
};

static void one_ending(void)
{
    uint8_t sheet[sizeof ending_70];
    memcpy(sheet, ending_70, sizeof sheet);
    solve_expecting("one ending, budget 1", sheet, sizeof sheet, 1, LDFS_SETTLED, 70, 1, 1);
}

/* A chain of 999 junctions of cost 1,000,000, all values least costs: below the ceiling, and at it. */
enum { CHAIN = 999, CHAIN_BYTES = HEAD_BYTES + CHAIN * JUNCTION_BYTES + ENDING_BYTES };

static void chain(const char *name, uint32_t ending, uint32_t number, uint64_t price)
{
    static uint8_t sheet[CHAIN_BYTES];
    static const uint8_t head[HEAD_BYTES] = {1, 0, 5, 0, (CHAIN + 1) / 256, (CHAIN + 1) % 256, 0, 0};
    memset(sheet, 0, sizeof sheet);
    memcpy(sheet, head, sizeof head);
    uint8_t *at = sheet + sizeof head;
    for (uint32_t stage = 0; stage < CHAIN; stage++, at += JUNCTION_BYTES) {
        uint32_t least = (CHAIN - stage) * 1000000 + ending;
        at[0] = 3;
        at[2] = 6;
        put_big(at + 3, least < LDFS_CEILING ? least : LDFS_CEILING);
        at[9] = 4;
        at[11] = 6;
        put_big(at + 12, 1000000);
        at[16] = (uint8_t)((stage + 1) / 256);
        at[17] = (uint8_t)((stage + 1) % 256);
    }
    at[0] = 2;
    at[2] = 9;
    put_big(at + 3, ending);
    put_big(at + 7, ending);
    solve_expecting(name, sheet, sizeof sheet, UINT64_MAX, number, price, 1, 0);
}

/* Endings alone, each of which costs its own number; the start is the last. As many as a sheet may have, or one more. */
enum { MOST_BYTES = HEAD_BYTES + (LDFS_STAGES_MOST + 1) * ENDING_BYTES, LAST = 4095, LAST_OFFSET = 49148 };

static const uint8_t *endings(uint32_t stages)
{
    static uint8_t sheet[MOST_BYTES];
    const uint8_t head[HEAD_BYTES] = {1, 0, 5, 0, (uint8_t)(stages / 256), (uint8_t)(stages % 256), (uint8_t)((stages - 1) / 256),
                                      (uint8_t)((stages - 1) % 256)};
    memset(sheet, 0, sizeof sheet);
    memcpy(sheet, head, sizeof head);
    for (uint32_t stage = 0; stage < stages; stage++) {
        uint8_t *at = sheet + HEAD_BYTES + ENDING_BYTES * stage;
        at[0] = 2;
        at[2] = 9;
        put_big(at + LDFS_ENDING_COST, stage);
    }
    return sheet;
}

/* As many stages as a sheet may have: stage 4095 stands at 8 + 4,095 * 12. */
static void most_stages(void)
{
    static uint8_t sheet[MOST_BYTES];
    memcpy(sheet, endings(LDFS_STAGES_MOST), sizeof sheet);
    memset(table, 7, sizeof table);
    solve_expecting("4,096 stages", sheet, HEAD_BYTES + LDFS_STAGES_MOST * ENDING_BYTES, UINT64_MAX, LDFS_SETTLED, LAST, 1, 1);
    expect(little(table + LAST * LDFS_ENTRY_BYTES, LDFS_ENTRY_BYTES) == LAST_OFFSET, "offset of stage 4095");
    expect(big(sheet + LAST_OFFSET + LDFS_ENDING_VALUE, 4) == LAST && sheet[LAST_OFFSET + LDFS_ENDING_MARK] == 1, "stage 4095 is settled");
    expect_rest_of_table(LDFS_STAGES_MOST, 7);
}

/* A refusal of 2 to 10: the result is 0, the sheet is as it was, and every entry of the table is 0. */
static void refused(const char *name, const uint8_t *sheet, size_t length, uint64_t budget, uint32_t number)
{
    static uint8_t copy[MOST_BYTES];
    memcpy(copy, sheet, length);
    memset(table, 7, sizeof table);
    memset(result, 7, sizeof result);
    solve_expecting(name, copy, length, budget, number, 0, 0, 0);
    expect(memcmp(copy, sheet, length) == 0, "the sheet is unchanged");
    expect_rest_of_table(0, 7);
}

/* Sheet A, B, D or J with one byte changed. */
static const uint8_t *changed(const uint8_t *sheet, size_t length, size_t place, uint8_t byte)
{
    static uint8_t copy[COPY_MOST];
    memcpy(copy, sheet, length);
    copy[place] = byte;
    return copy;
}

/* D or E with these findings in the place of those of its check; its length. */
static size_t with_findings(uint8_t *copy, const uint8_t *sheet, size_t length, const uint8_t *findings, size_t count)
{
    size_t from = CHECK_0 + LDFS_FIELD_CONTENT + big(sheet + CHECK_0 + LDFS_FIELD_LENGTH, 2);
    uint8_t *at = copy + CHECK_0 + LDFS_CHECK_FINDINGS;
    memcpy(copy, sheet, CHECK_0 + LDFS_CHECK_FINDINGS);
    copy[CHECK_0 + LDFS_FIELD_LENGTH + 1] = (uint8_t)(LDFS_CHECK_FINDINGS - LDFS_FIELD_CONTENT + 2 * count);
    for (size_t i = 0; i < count; i++) {
        *at++ = 0;
        *at++ = findings[i];
    }
    memcpy(at, sheet + from, length - from);
    return (size_t)(at - copy) + length - from;
}

/* Sheet A with so much of the table and of the result, both filled with 7. */
static uint32_t solve_a(uint8_t *sheet, size_t table_length, size_t result_length)
{
    memcpy(sheet, sheet_a, sizeof sheet_a);
    memset(table, 7, sizeof table);
    memset(result, 7, sizeof result);
    uint32_t number = ldfs_solve(sheet, sizeof sheet_a, table, table_length, UINT64_MAX, result, result_length);
    printf("a table of %zu bytes and a result of %zu: %" PRIu32 "\n", table_length, result_length, number);
    return number;
}

/* Every byte from there on is 7. */
static bool sevens(const uint8_t *at, size_t bytes)
{
    for (size_t i = 0; i < bytes; i++)
        if (at[i] != 7)
            return false;
    return true;
}

/* Refusal 1 leaves the table as it is. */
static void refused_for_want_of_table(size_t table_length)
{
    uint8_t sheet[sizeof sheet_a];
    expect(solve_a(sheet, table_length, sizeof result) == LDFS_REFUSED_ROOM, "number");
    expect(little(result, 8) == 0 && little(result + 8, 8) == 0 && little(result + 16, 8) == 0, "the result is 0");
    expect(sevens(table, sizeof table), "the table is unaltered");
    expect(memcmp(sheet, sheet_a, sizeof sheet) == 0, "the sheet is unaltered");
}

/* The table that version 1 of the interface wanted is too short, and so is one that lacks a byte. With too short a result nothing is
   altered. */
enum { FORMER_TABLE = 4096 };

static void refused_for_want_of_room(void)
{
    uint8_t sheet[sizeof sheet_a];
    refused_for_want_of_table(FORMER_TABLE);
    refused_for_want_of_table(LDFS_TABLE_LEAST - 1);
    expect(solve_a(sheet, LDFS_TABLE_LEAST, sizeof result) == LDFS_SETTLED, "number");
    expect(little(table, LDFS_ENTRY_BYTES) == offsets_a[0], "offset of stage 0");
    expect(sevens(table + LDFS_TABLE_LEAST, sizeof table - LDFS_TABLE_LEAST), "nothing is written behind the table");

    expect(solve_a(sheet, sizeof table, LDFS_RESULT_LEAST - 1) == LDFS_REFUSED_ROOM, "number");
    expect(sevens(result, sizeof result), "the result is unaltered");
    expect(sevens(table, sizeof table), "the table is unaltered");
    expect(memcmp(sheet, sheet_a, sizeof sheet) == 0, "the sheet is unaltered");
}

/* A slice of no bytes: the address of any byte of the host's own serves, and that byte is not touched. */
static void slices_of_no_bytes(void)
{
    uint8_t sheet[sizeof sheet_a], byte = 7;
    memcpy(sheet, sheet_a, sizeof sheet);
    expect(ldfs_solve(&byte, 0, table, sizeof table, 1, result, sizeof result) == LDFS_REFUSED_SIZE, "a sheet of no bytes");
    expect(ldfs_solve(sheet, sizeof sheet, &byte, 0, 1, result, sizeof result) == LDFS_REFUSED_ROOM, "a table of no bytes");
    expect(ldfs_solve(sheet, sizeof sheet, table, sizeof table, 1, &byte, 0) == LDFS_REFUSED_ROOM, "a result of no bytes");
    expect(byte == 7, "the byte is unaltered");
    expect(memcmp(sheet, sheet_a, sizeof sheet) == 0, "the sheet is unaltered");
}

/* D with its ending at 30 and its junction at a value, both open. */
static const uint8_t *sheet_d_at(uint32_t value)
{
    static uint8_t sheet[sizeof sheet_d];
    memcpy(sheet, sheet_d, sizeof sheet);
    put_big(sheet + STAGE_0 + LDFS_JUNCTION_VALUE, value);
    put_big(sheet + D_ENDING + LDFS_ENDING_VALUE, 30);
    return sheet;
}

/* E with other findings is refused. */
static void e_refused(const char *name, const uint8_t *findings, size_t count)
{
    uint8_t sheet[sizeof sheet_e];
    size_t length = with_findings(sheet, sheet_e, sizeof sheet_e, findings, count);
    refused(name, sheet, length, UINT64_MAX, LDFS_REFUSED_FINDINGS);
}

/* Findings listed several times: on a whole sheet equal ones stand side by side, and each counts [S2.10, S4.6]. */
static void listed_several_times(void)
{
    static const uint8_t apart[] = {1, 2, 1}, own[] = {0, 0}, beyond[] = {3, 3};
    uint8_t sheet[sizeof sheet_c], ones[FINDINGS_MOST];
    settles("sheet D", sheet_d, sizeof sheet_d, WHOLE, 160, 3, 3);
    refused("sheet D, worst", changed(sheet_d, sizeof sheet_d, LDFS_HEAD_KIND, WORST), sizeof sheet_d, UINT64_MAX, LDFS_REFUSED_FINDINGS);

    memcpy(sheet, sheet_d, sizeof sheet_d);
    solve_expecting("sheet D, budget 2", sheet, sizeof sheet_d, 2, LDFS_STOPPED, 100, 2, 2);
    solve_expecting("that sheet carried on", sheet, sizeof sheet_d, UINT64_MAX, LDFS_SETTLED, 160, 2, 1);

    /* 160 is the price by those values: both stages are settled at them. */
    settles("D, values 160 and 30", sheet_d_at(160), sizeof sheet_d, WHOLE, 160, 1, 0);
    refused("D, values 161 and 30", sheet_d_at(161), sizeof sheet_d, UINT64_MAX, LDFS_REFUSED_VALUES);

    memset(ones, 1, sizeof ones);
    size_t length = with_findings(sheet, sheet_d, sizeof sheet_d, ones, sizeof ones);
    settles("D, finding 1 listed 16 times", sheet, length, WHOLE, 580, 3, 3);
    settles("sheet E", sheet_e, sizeof sheet_e, WHOLE, 41, 4, 5);
    e_refused("E, findings 1, 2 and 1", apart, sizeof apart);
    e_refused("E, findings 0 and 0", own, sizeof own);
    e_refused("E, findings 3 and 3", beyond, sizeof beyond);
}

/* F with its value, mark and chosen check. */
static const uint8_t *sheet_f_at(uint32_t value, uint8_t mark, uint8_t chosen)
{
    static uint8_t sheet[sizeof sheet_f];
    memcpy(sheet, sheet_f, sizeof sheet);
    put_big(sheet + STAGE_0 + LDFS_JUNCTION_VALUE, value);
    sheet[STAGE_0 + LDFS_JUNCTION_MARK] = mark;
    sheet[STAGE_0 + LDFS_JUNCTION_CHOSEN] = chosen;
    return sheet;
}

/* The ending of cost 70 at a value. */
static const uint8_t *ending_70_at(uint32_t value)
{
    static uint8_t sheet[sizeof ending_70];
    memcpy(sheet, ending_70, sizeof sheet);
    put_big(sheet + STAGE_0 + LDFS_ENDING_VALUE, value);
    return sheet;
}

/* A junction that a call has settled at none: 0 is chosen where it has no checks, and here else too. */
static void expect_no_plan(const uint8_t *field)
{
    expect(big(field + LDFS_JUNCTION_VALUE, 4) == LDFS_NO_PLAN, "its value is that of none");
    expect(field[LDFS_JUNCTION_MARK] == 1 && field[LDFS_JUNCTION_CHOSEN] == 0, "it is settled, with check 0 chosen");
}

/* F, the shortest sheet [S11.31 to S11.34]. */
static void one_junction_without_checks(void)
{
    uint8_t sheet[sizeof sheet_f];
    const size_t f = sizeof sheet_f;
    memcpy(sheet, sheet_f, f);
    solve_expecting("sheet F", sheet, f, UINT64_MAX, LDFS_NONE, LDFS_NO_PLAN, 1, 1);
    memcpy(sheet, sheet_f, f);
    solve_expecting("sheet F, budget 1", sheet, f, 1, LDFS_NONE, LDFS_NO_PLAN, 1, 1);
    expect_no_plan(sheet + STAGE_0);
    solve_expecting("that sheet carried on", sheet, f, UINT64_MAX, LDFS_NONE, LDFS_NO_PLAN, 1, 0);
    memcpy(sheet, sheet_f_at(LDFS_NO_PLAN, 0, 0), f);
    solve_expecting("F, open at 1,000,000,001", sheet, f, UINT64_MAX, LDFS_NONE, LDFS_NO_PLAN, 1, 0);

    refused("F, open at 1,000,000,002", sheet_f_at(LDFS_NO_PLAN + 1, 0, 0), f, UINT64_MAX, LDFS_REFUSED_RANGES);
    refused("F, settled at 1,000,000,001, budget 0", sheet_f_at(LDFS_NO_PLAN, 1, 0), f, 0, LDFS_REFUSED_BUDGET);
    refused("F, settled at the ceiling", sheet_f_at(LDFS_CEILING, 1, 0), f, UINT64_MAX, LDFS_REFUSED_MARKS);
    refused("F, settled at 0", sheet_f_at(0, 1, 0), f, UINT64_MAX, LDFS_REFUSED_MARKS);
    refused("F, chosen check 1, open", sheet_f_at(0, 0, 1), f, UINT64_MAX, LDFS_REFUSED_RANGES);
    refused("F, chosen check 1, settled", sheet_f_at(LDFS_NO_PLAN, 1, 1), f, UINT64_MAX, LDFS_REFUSED_RANGES);
}

/* A junction's own field, with check 0 chosen. What comes behind it is the answer. */
static uint8_t *put_junction(uint8_t *at, uint32_t value, uint8_t mark)
{
    static const uint8_t field[LDFS_JUNCTION_CHECKS] = {LDFS_JUNCTION_TAG, 0, 6};
    memcpy(at, field, sizeof field);
    put_big(at + LDFS_JUNCTION_VALUE, value);
    at[LDFS_JUNCTION_MARK] = mark;
    return at + sizeof field;
}

/* A check whose findings are the stages from one to another. What comes behind it is the answer. */
static uint8_t *put_check(uint8_t *at, uint32_t cost, uint8_t from, uint8_t to)
{
    at[0] = LDFS_CHECK_TAG;
    at[1] = 0;
    at[2] = (uint8_t)(4 + 2 * (to - from + 1));
    put_big(at + LDFS_CHECK_COST, cost);
    at += LDFS_CHECK_FINDINGS;
    for (uint8_t finding = from; finding <= to; finding++) {
        *at++ = 0;
        *at++ = finding;
    }
    return at;
}

/* Sheet I; or, with one check at junction 0, whose findings are 1, 2 and 13. Costs double from stage to stage, back from ending 12. */
enum { I_ENDING = 12, I_EMPTY = 13, I_MOST = 400 };

static size_t make_sheet_i(uint8_t *sheet, bool one_check)
{
    static const uint8_t head[HEAD_BYTES] = {1, 0, 5, WHOLE, 0, I_EMPTY + 1, 0, 0};
    static const uint8_t ending[ENDING_BYTES] = {LDFS_ENDING_TAG, 0, 9};
    memcpy(sheet, head, sizeof head);
    uint8_t *at = put_junction(sheet + HEAD_BYTES, LDFS_CEILING, 0);
    if (!one_check)
        at = put_check(at, 1, I_EMPTY, I_EMPTY);
    at = put_check(at, 1, 1, one_check ? 3 : 2);
    if (one_check)
        at[-1] = I_EMPTY;
    for (uint8_t stage = 1; stage < I_ENDING; stage++) {
        uint32_t least = 1000000u << (I_ENDING - stage);
        at = put_junction(at, least < LDFS_CEILING ? least : LDFS_CEILING, 1);
        at = put_check(at, 1000000, (uint8_t)(stage + 1), I_ENDING);
    }
    memcpy(at, ending, sizeof ending);
    put_big(at + LDFS_ENDING_COST, 1000000);
    put_big(at + LDFS_ENDING_VALUE, 1000000);
    at[LDFS_ENDING_MARK] = 1;
    at = put_junction(at + ENDING_BYTES, LDFS_CEILING, 0);
    return (size_t)(at - sheet);
}

/* Junctions without checks behind others: a plan past them, none at all, and one at the ceiling [S11.35 to S11.40]. */
static void no_check_left(void)
{
    uint8_t sheet[I_MOST];
    settles("sheet G, worst", sheet_g, sizeof sheet_g, WORST, 130, 4, 5);
    settles("sheet G, whole", sheet_g, sizeof sheet_g, WHOLE, 130, 4, 5);
    memcpy(sheet, sheet_h, sizeof sheet_h);
    solve_expecting("sheet H", sheet, sizeof sheet_h, UINT64_MAX, LDFS_NONE, LDFS_NO_PLAN, 3, 3);
    expect_no_plan(sheet + STAGE_0);
    expect_no_plan(sheet + H_STAGE_1);
    memcpy(sheet, sheet_h, sizeof sheet_h);
    solve_expecting("sheet H, budget 2", sheet, sizeof sheet_h, 2, LDFS_STOPPED, 10, 2, 2);
    solve_expecting("that sheet carried on", sheet, sizeof sheet_h, UINT64_MAX, LDFS_NONE, LDFS_NO_PLAN, 2, 1);

    size_t length = make_sheet_i(sheet, false);
    solve_expecting("sheet I", sheet, length, UINT64_MAX, LDFS_OVER, LDFS_CEILING, 1, 1);
    expect(sheet[STAGE_0 + LDFS_JUNCTION_CHOSEN] == 1, "check 1 is chosen");
    length = make_sheet_i(sheet, true);
    solve_expecting("I, one check at junction 0", sheet, length, UINT64_MAX, LDFS_NONE, LDFS_NO_PLAN, 2, 2);

    refused("an ending at 1,000,000,001", ending_70_at(LDFS_NO_PLAN), sizeof ending_70, UINT64_MAX, LDFS_REFUSED_VALUES);
    refused("an ending at 1,000,000,002", ending_70_at(LDFS_NO_PLAN + 1), sizeof ending_70, UINT64_MAX, LDFS_REFUSED_RANGES);
    refused("F without its last byte", sheet_f, LDFS_SHEET_LEAST - 1, UINT64_MAX, LDFS_REFUSED_SIZE);
    refused("one ending without its last byte", ending_70, sizeof ending_70 - 1, UINT64_MAX, LDFS_REFUSED_FIELDS);
}

/* J in one call: the offsets, and the plan behind the counted junction, which keeps its form and its number [S11.42]. */
static void sheet_j_at_once(void)
{
    uint8_t sheet[sizeof sheet_j];
    memcpy(sheet, sheet_j, sizeof sheet);
    at_once("sheet J", sheet, sizeof sheet, offsets_j);

    const uint8_t *first = sheet + little(table, LDFS_ENTRY_BYTES);
    const uint8_t *check = past(past(first));
    expect(first[0] == LDFS_COUNTED_TAG && big(first + LDFS_FIELD_LENGTH, 2) == COUNTED_LENGTH && sheet[J_NUMBER] == 2, "its form stays");
    expect(big(first + LDFS_JUNCTION_VALUE, 4) == 500 && first[LDFS_JUNCTION_MARK] == 1, "stage 0: value 500, settled");
    expect(first[LDFS_JUNCTION_CHOSEN] == 1 && big(check + LDFS_CHECK_FINDINGS, 2) == 3, "check 1 is chosen, which leads to stage 3");
    expect(memcmp(past(first), sheet_j + J_CHECK_0, J_STAGE_1 - J_CHECK_0) == 0, "its checks stay");
}

/* A sheet without the bytes from one place to another. */
static const uint8_t *without(const uint8_t *sheet, size_t length, size_t from, size_t to)
{
    static uint8_t copy[COPY_MOST];
    memcpy(copy, sheet, from);
    memcpy(copy + from, sheet + to, length - to);
    return copy;
}

/* A, F or J with the plain junction that stands there counted. It is a byte longer. */
static const uint8_t *with_counted(const uint8_t *sheet, size_t length, size_t at, uint8_t number)
{
    static uint8_t copy[COPY_MOST];
    size_t checks = at + LDFS_JUNCTION_CHECKS;
    memcpy(copy, sheet, checks);
    copy[at] = LDFS_COUNTED_TAG;
    copy[at + LDFS_FIELD_LENGTH + 1] = COUNTED_LENGTH;
    copy[checks] = number;
    memcpy(copy + checks + 1, sheet + checks, length - checks);
    return copy;
}

/* J that writes 1, with another byte changed too. */
static void wrong_number_and(const char *name, size_t place, uint8_t byte)
{
    uint8_t sheet[sizeof sheet_j];
    memcpy(sheet, sheet_j, sizeof sheet);
    sheet[J_NUMBER] = 1;
    sheet[place] = byte;
    refused(name, sheet, sizeof sheet, UINT64_MAX, LDFS_REFUSED_COUNT);
}

/* A counted junction that writes a number, with so many checks (1, finding 1), and an ending of cost 0. Its length. */
enum { MANY_MOST = HEAD_BYTES + LDFS_COUNTED_CHECKS + 17 * 9 + ENDING_BYTES };

static size_t make_many_checks(uint8_t *sheet, int checks, uint8_t number)
{
    static const uint8_t head[HEAD_BYTES] = {1, 0, 5, WORST, 0, 2, 0, 0};
    static const uint8_t ending[ENDING_BYTES] = {LDFS_ENDING_TAG, 0, 9};
    const uint8_t junction[] = {LDFS_COUNTED_TAG, 0, COUNTED_LENGTH, 0, 0, 0, 0, 0, 0, number};
    memcpy(sheet, head, sizeof head);
    memcpy(sheet + STAGE_0, junction, sizeof junction);
    uint8_t *at = sheet + STAGE_0 + sizeof junction;
    for (int i = 0; i < checks; i++)
        at = put_check(at, 1, 1, 1);
    memcpy(at, ending, sizeof ending);
    return (size_t)(at + ENDING_BYTES - sheet);
}

/* As many checks as there may be, and one more; and none [S11.46, S11.47]. */
static void numbers_at_the_limits(void)
{
    uint8_t sheet[MANY_MOST];
    const uint8_t *alone = with_counted(sheet_f, sizeof sheet_f, STAGE_0, 0);
    memcpy(sheet, alone, sizeof sheet_f + 1);
    solve_expecting("F counted, the number 0", sheet, sizeof sheet_f + 1, UINT64_MAX, LDFS_NONE, LDFS_NO_PLAN, 1, 1);
    expect_no_plan(sheet + STAGE_0);
    alone = with_counted(sheet_f, sizeof sheet_f, STAGE_0, 1);
    refused("F counted, the number 1", alone, sizeof sheet_f + 1, UINT64_MAX, LDFS_REFUSED_COUNT);

    size_t length = make_many_checks(sheet, 16, 17);
    refused("16 checks, the number 17", sheet, length, UINT64_MAX, LDFS_REFUSED_COUNT);
    length = make_many_checks(sheet, 17, 17);
    refused("17 checks, the number 17", sheet, length, UINT64_MAX, LDFS_REFUSED_FIELDS);
    length = make_many_checks(sheet, 16, 16);
    solve_expecting("16 checks, the number 16", sheet, length, UINT64_MAX, LDFS_SETTLED, 1, 2, 1);
}

/* Counted junctions, which write the number of their checks [S11.42 to S11.50]. */
static void counted_junctions(void)
{
    static const uint8_t wrong[] = {1, 3, 0, 200};
    uint8_t sheet[sizeof sheet_j];
    const size_t a = sizeof sheet_a, j = sizeof sheet_j;
    sheet_j_at_once();
    settles("A, both junctions counted", with_counted(sheet_j, j, J_STAGE_1, 1), j + 1, WORST, 500, 3, 3);
    memcpy(sheet, sheet_j, j);
    solve_expecting("J, budget 2", sheet, j, 2, LDFS_STOPPED, 200, 2, 2);
    solve_expecting("that sheet carried on", sheet, j, UINT64_MAX, LDFS_SETTLED, 500, 2, 1);

    for (size_t i = 0; i < sizeof wrong; i++)
        refused("J, another number", changed(sheet_j, j, J_NUMBER, wrong[i]), j, UINT64_MAX, LDFS_REFUSED_COUNT);
    refused("A, junction 1 counted, the number 2", with_counted(sheet_a, a, offsets_a[1], 2), a + 1, UINT64_MAX, LDFS_REFUSED_COUNT);

    size_t last = J_STAGE_1 - J_CHECK_1, first = J_CHECK_1 - J_CHECK_0;
    settles("A without check 1", without(sheet_a, a, offsets_a[1] - last, offsets_a[1]), a - last, WORST, 700, 4, 6);
    refused("J without check 1", without(sheet_j, j, J_CHECK_1, J_STAGE_1), j - last, UINT64_MAX, LDFS_REFUSED_COUNT);
    refused("J without check 0", without(sheet_j, j, J_CHECK_0, J_CHECK_1), j - first, UINT64_MAX, LDFS_REFUSED_COUNT);
    numbers_at_the_limits();

    /* Question 10 is put after question 4 and before questions 5 to 9. */
    refused("J, the number 1 and the last field cut", changed(sheet_j, j, J_NUMBER, 1), j - 1, UINT64_MAX, LDFS_REFUSED_FIELDS);
    wrong_number_and("J, the number 1 and check cost 0", J_CHECK_0 + LDFS_CHECK_COST + 3, 0);
    wrong_number_and("J, the number 1 and finding 0", J_CHECK_0 + LDFS_CHECK_FINDINGS + 1, 0);
    refused("J, the number 1 and budget 0", changed(sheet_j, j, J_NUMBER, 1), j, 0, LDFS_REFUSED_COUNT);
    refused("J, tag 03 with length 7", changed(sheet_j, j, STAGE_0, LDFS_JUNCTION_TAG), j, UINT64_MAX, LDFS_REFUSED_FIELDS);
    refused("A, tag 05 with length 6", changed(sheet_a, a, STAGE_0, LDFS_COUNTED_TAG), a, UINT64_MAX, LDFS_REFUSED_FIELDS);
}

static void every_refusal(void)
{
    const size_t a = sizeof sheet_a, b = sizeof sheet_b;
    refused_for_want_of_room();
    slices_of_no_bytes();
    refused("16 bytes", sheet_a, LDFS_SHEET_LEAST - 1, UINT64_MAX, LDFS_REFUSED_SIZE);
    refused("4,097 stages", endings(LDFS_STAGES_MOST + 1), MOST_BYTES, UINT64_MAX, LDFS_REFUSED_HEAD);
    refused("number of stages 0", changed(sheet_b, b, B_STAGES_LOW, 0), b, UINT64_MAX, LDFS_REFUSED_HEAD);
    refused("check cost 0 and a cut last field", changed(sheet_a, a, A_FIRST_COST, 0), a - 1, UINT64_MAX, LDFS_REFUSED_FIELDS);
    refused("check cost 0", changed(sheet_a, a, A_FIRST_COST, 0), a, UINT64_MAX, LDFS_REFUSED_RANGES);
    refused("mark 2", changed(sheet_a, a, A_FIRST_MARK, 2), a, UINT64_MAX, LDFS_REFUSED_RANGES);
    refused("B, finding 1 replaced by 0", changed(sheet_b, b, B_FINDING_LOW, 0), b, UINT64_MAX, LDFS_REFUSED_FINDINGS);
    refused("B, junction value 101", changed(sheet_b, b, B_VALUE_LOW, 101), b, UINT64_MAX, LDFS_REFUSED_VALUES);
    refused("B, ending 1 settled at 0", changed(sheet_b, b, B_ENDING_MARK, 1), b, UINT64_MAX, LDFS_REFUSED_MARKS);
    /* A budget of 0 asks every other question first: 9 where the sheet is valid, and its own number where it is not. */
    refused("sheet A, budget 0", sheet_a, a, 0, LDFS_REFUSED_BUDGET);
    refused("check cost 0, budget 0", changed(sheet_a, a, A_FIRST_COST, 0), a, 0, LDFS_REFUSED_RANGES);
}

/* The version as text is the three numbers. */
static void version(void)
{
    char text[32];
    snprintf(text, sizeof text, "%d.%d.%d", LDFS_VERSION_MAJOR, LDFS_VERSION_MINOR, LDFS_VERSION_PATCH);
    expect(strcmp(text, LDFS_VERSION) == 0, "the version");
}

int main(void)
{
    version();
    sheet_a_at_once();
    sheet_a_carried_on();
    sheet_a_in_steps();
    sheets_of_both_kinds();
    one_ending();
    chain("chain, ending 999,999", 999999, LDFS_SETTLED, 999999999);
    chain("chain, ending 1,000,000", 1000000, LDFS_OVER, LDFS_CEILING);
    most_stages();
    listed_several_times();
    one_junction_without_checks();
    no_check_left();
    counted_junctions();
    every_refusal();
    if (failures > 0) {
        printf("%d not as expected\n", failures);
        return EXIT_FAILURE;
    }
    printf("all as expected\n");
    return EXIT_SUCCESS;
}
