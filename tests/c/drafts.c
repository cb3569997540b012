/*
 * The test of ldfs_rearrange and ldfs_restore as a host in C calls them (S13 of docs/SPEC.md): the worked examples S11.52 to S11.65, each
 * refusal of both, the lengths from which on slices are long enough, and what every call leaves in each slice. It prints what is not as
 * expected and exits with 1, or prints one line and exits with 0. What is expected was put together by hand from the specification.
 */
#include "ldfs.h"

#include <stdbool.h>
#include <stdio.h>
#include <stdlib.h>
#include <string.h>

/* Sheet A: worst, 4 stages, start 0. */
static const uint8_t sheet_a[] = {
    1, 0, 5, 0, 0, 4, 0, 0,                /* head: kind 0, 4 stages, start 0 */
    3, 0, 6, 0, 0, 0, 0, 0, 0,             /* stage 0, a junction */
    4, 0, 8, 0, 0, 0, 200, 0, 1, 0, 3,     /*   check 0: cost 200, findings 1 and 3 */
    4, 0, 6, 0, 0, 1, 244, 0, 3,           /*   check 1: cost 500, finding 3 */
    3, 0, 6, 0, 0, 0, 0, 0, 0,             /* stage 1, a junction */
    4, 0, 8, 0, 0, 1, 144, 0, 2, 0, 3,     /*   check 0: cost 400, findings 2 and 3 */
    2, 0, 9, 0, 0, 0, 100, 0, 0, 0, 0, 0,  /* stage 2, an ending: cost 100 */
    2, 0, 9, 0, 0, 0, 0, 0, 0, 0, 0, 0,    /* stage 3, an ending: cost 0 */
};
enum { STAGES = 4, A_STAGE_1 = 37, A_FINDING_LOW = 54, A_STAGE_2 = 57, A_STAGE_3 = 69 };
static const uint32_t offsets_a[STAGES] = {8, A_STAGE_1, A_STAGE_2, A_STAGE_3};

/* Sheet K: a draft of A, start 2. */
static const uint8_t sheet_k[] = {
    6, 0, 5, 0, 0, 4, 0, 2,                /* a draft's head: kind 0, 4 stages, start 2 */
    2, 0, 9, 0, 0, 0, 100, 0, 0, 0, 0, 0,  /* stage 0, an ending: cost 100 */
    2, 0, 9, 0, 0, 0, 0, 0, 0, 0, 0, 0,    /* stage 1, an ending: cost 0 */
    3, 0, 6, 0, 0, 0, 0, 0, 0,             /* stage 2, a junction */
    4, 0, 8, 0, 0, 0, 200, 0, 1, 0, 3,     /*   check 0: cost 200, findings 1 and 3 */
    4, 0, 6, 0, 0, 1, 244, 0, 1,           /*   check 1: cost 500, finding 1 */
    3, 0, 6, 0, 0, 0, 0, 0, 0,             /* stage 3, a junction */
    4, 0, 8, 0, 0, 1, 144, 0, 0, 0, 1,     /*   check 0: cost 400, findings 0 and 1 */
};
enum { K_STAGE_0 = 8, K_STAGE_1 = 20, K_STAGE_2 = 32, K_STAGE_3 = 61 };
static const uint32_t offsets_k[STAGES] = {K_STAGE_0, K_STAGE_1, K_STAGE_2, K_STAGE_3};
static const uint32_t order_k[STAGES] = {2, 3, 0, 1};

/* Sheet J, which is A with junction 0 counted, and its draft: K with junction 2 counted. */
static const uint8_t sheet_j[] = {
    1, 0, 5, 0, 0, 4, 0, 0,                /* head: kind 0, 4 stages, start 0 */
    5, 0, 7, 0, 0, 0, 0, 0, 0, 2,          /* stage 0, a counted junction of 2 checks */
    4, 0, 8, 0, 0, 0, 200, 0, 1, 0, 3,     /*   check 0: cost 200, findings 1 and 3 */
    4, 0, 6, 0, 0, 1, 244, 0, 3,           /*   check 1: cost 500, finding 3 */
    3, 0, 6, 0, 0, 0, 0, 0, 0,             /* stage 1, a junction */
    4, 0, 8, 0, 0, 1, 144, 0, 2, 0, 3,     /*   check 0: cost 400, findings 2 and 3 */
    2, 0, 9, 0, 0, 0, 100, 0, 0, 0, 0, 0,  /* stage 2, an ending: cost 100 */
    2, 0, 9, 0, 0, 0, 0, 0, 0, 0, 0, 0,    /* stage 3, an ending: cost 0 */
};
static const uint32_t offsets_j[STAGES] = {8, 38, 58, 70};

static const uint8_t draft_j[] = {
    6, 0, 5, 0, 0, 4, 0, 2,                /* a draft's head: kind 0, 4 stages, start 2 */
    2, 0, 9, 0, 0, 0, 100, 0, 0, 0, 0, 0,  /* stage 0, an ending: cost 100 */
    2, 0, 9, 0, 0, 0, 0, 0, 0, 0, 0, 0,    /* stage 1, an ending: cost 0 */
    5, 0, 7, 0, 0, 0, 0, 0, 0, 2,          /* stage 2, a counted junction of 2 checks */
    4, 0, 8, 0, 0, 0, 200, 0, 1, 0, 3,     /*   check 0: cost 200, findings 1 and 3 */
    4, 0, 6, 0, 0, 1, 244, 0, 1,           /*   check 1: cost 500, finding 1 */
    3, 0, 6, 0, 0, 0, 0, 0, 0,             /* stage 3, a junction */
    4, 0, 8, 0, 0, 1, 144, 0, 0, 0, 1,     /*   check 0: cost 400, findings 0 and 1 */
};
static const uint32_t offsets_draft_j[STAGES] = {8, 20, 32, 62};

/* Sheet L: once 2 is placed, 0 comes before 3, which could be placed all along. What becomes of it follows. */
static const uint8_t sheet_l[] = {
    6, 0, 5, 0, 0, 4, 0, 2,                /* a draft's head: kind 0, 4 stages, start 2 */
    3, 0, 6, 0, 0, 0, 0, 0, 0,             /* stage 0, a junction */
    4, 0, 6, 0, 0, 0, 1, 0, 1,             /*   check 0: cost 1, finding 1 */
    2, 0, 9, 0, 0, 0, 0, 0, 0, 0, 0, 0,    /* stage 1, an ending: cost 0 */
    3, 0, 6, 0, 0, 0, 0, 0, 0,             /* stage 2, a junction */
    4, 0, 6, 0, 0, 0, 1, 0, 0,             /*   check 0: cost 1, finding 0 */
    3, 0, 6, 0, 0, 0, 0, 0, 0,             /* stage 3, a junction */
    4, 0, 6, 0, 0, 0, 1, 0, 1,             /*   check 0: cost 1, finding 1 */
};
static const uint32_t offsets_l[STAGES] = {8, 26, 38, 56};
static const uint32_t order_l[STAGES] = {2, 0, 3, 1};

static const uint8_t made_of_l[] = {
    1, 0, 5, 0, 0, 4, 0, 0,                /* head: kind 0, 4 stages, start 0 */
    3, 0, 6, 0, 0, 0, 0, 0, 0,             /* stage 0, which was 2 */
    4, 0, 6, 0, 0, 0, 1, 0, 1,             /*   its finding was 0 */
    3, 0, 6, 0, 0, 0, 0, 0, 0,             /* stage 1, which was 0 */
    4, 0, 6, 0, 0, 0, 1, 0, 3,             /*   its finding was 1 */
    3, 0, 6, 0, 0, 0, 0, 0, 0,             /* stage 2, which was 3 */
    4, 0, 6, 0, 0, 0, 1, 0, 3,             /*   its finding was 1 */
    2, 0, 9, 0, 0, 0, 0, 0, 0, 0, 0, 0,    /* stage 3, which was 1 */
};

/* Sheet M: junctions 1 and 2 lead in a circle, which the start does not reach. */
static const uint8_t sheet_m[] = {
    6, 0, 5, 0, 0, 3, 0, 0,                /* a draft's head: kind 0, 3 stages, start 0 */
    2, 0, 9, 0, 0, 0, 0, 0, 0, 0, 0, 0,    /* stage 0, an ending: cost 0 */
    3, 0, 6, 0, 0, 0, 0, 0, 0,             /* stage 1, a junction */
    4, 0, 6, 0, 0, 0, 1, 0, 2,             /*   check 0: cost 1, finding 2 */
    3, 0, 6, 0, 0, 0, 0, 0, 0,             /* stage 2, a junction */
    4, 0, 6, 0, 0, 0, 1, 0, 1,             /*   check 0: cost 1, finding 1 */
};
enum { M_VALUE_LOW = 18, M_STAGE_1 = 20, M_CHECK_1 = 29, M_COST_LOW = 35 };

/* Sheet N: whole, with a counted junction, one without checks, and a finding that is listed twice. What becomes of it follows. */
static const uint8_t sheet_n[] = {
    6, 0, 5, 1, 0, 3, 0, 1,                       /* a draft's head: kind 1, 3 stages, start 1 */
    3, 0, 6, 0, 0, 0, 0, 0, 0,                    /* stage 0, a junction without checks */
    5, 0, 7, 0, 0, 0, 0, 0, 0, 1,                 /* stage 1, a counted junction of 1 check */
    4, 0, 10, 0, 0, 0, 1, 0, 0, 0, 0, 0, 2,       /*   check 0: cost 1, findings 0, 0 and 2 */
    2, 0, 9, 0, 0, 0, 0, 0, 0, 0, 0, 0,           /* stage 2, an ending: cost 0 */
};
enum { N_STAGES = 3 };
static const uint32_t offsets_n[N_STAGES] = {8, 17, 40};
static const uint32_t order_n[N_STAGES] = {1, 0, 2};

static const uint8_t made_of_n[] = {
    1, 0, 5, 1, 0, 3, 0, 0,                       /* head: kind 1, 3 stages, start 0 */
    5, 0, 7, 0, 0, 0, 0, 0, 0, 1,                 /* stage 0, a counted junction of 1 check */
    4, 0, 10, 0, 0, 0, 1, 0, 1, 0, 1, 0, 2,       /*   check 0: cost 1, findings 1, 1 and 2 */
    3, 0, 6, 0, 0, 0, 0, 0, 0,                    /* stage 1, a junction without checks */
    2, 0, 9, 0, 0, 0, 0, 0, 0, 0, 0, 0,           /* stage 2, an ending: cost 0 */
};

/* A whole draft whose order is the reverse of its numbers, so that the five findings of its last junction are sorted the other way round;
   and what becomes of it. */
static const uint8_t reversed[] = {
    6, 0, 5, 1, 0, 4, 0, 3,                                     /* a draft's head: kind 1, 4 stages, start 3 */
    2, 0, 9, 0, 0, 0, 9, 0, 0, 0, 0, 0,                         /* stage 0, an ending: cost 9 */
    3, 0, 6, 0, 0, 0, 0, 0, 0,                                  /* stage 1, a junction */
    4, 0, 6, 0, 0, 0, 1, 0, 0,                                  /*   check 0: cost 1, finding 0 */
    3, 0, 6, 0, 0, 0, 0, 0, 0,                                  /* stage 2, a junction */
    4, 0, 6, 0, 0, 0, 2, 0, 1,                                  /*   check 0: cost 2, finding 1 */
    3, 0, 6, 0, 0, 0, 0, 0, 0,                                  /* stage 3, a junction */
    4, 0, 14, 0, 0, 0, 3, 0, 0, 0, 0, 0, 1, 0, 2, 0, 2,         /*   check 0: cost 3, findings 0, 0, 1, 2 and 2 */
};
static const uint32_t offsets_reversed[STAGES] = {8, 20, 38, 56};
static const uint32_t order_reversed[STAGES] = {3, 2, 1, 0};

static const uint8_t made_of_reversed[] = {
    1, 0, 5, 1, 0, 4, 0, 0,                                     /* head: kind 1, 4 stages, start 0 */
    3, 0, 6, 0, 0, 0, 0, 0, 0,                                  /* stage 0, which was 3 */
    4, 0, 14, 0, 0, 0, 3, 0, 1, 0, 1, 0, 2, 0, 3, 0, 3,         /*   its findings were 2, 2, 1, 0 and 0 */
    3, 0, 6, 0, 0, 0, 0, 0, 0,                                  /* stage 1, which was 2 */
    4, 0, 6, 0, 0, 0, 2, 0, 2,                                  /*   its finding was 1 */
    3, 0, 6, 0, 0, 0, 0, 0, 0,                                  /* stage 2, which was 1 */
    4, 0, 6, 0, 0, 0, 1, 0, 3,                                  /*   its finding was 0 */
    2, 0, 9, 0, 0, 0, 9, 0, 0, 0, 0, 0,                         /* stage 3, which was 0 */
};
static const uint32_t offsets_made_of_reversed[STAGES] = {8, 34, 52, 70};

/* A draft of one junction, whose one check has itself for its finding. */
static const uint8_t own_finding[] = {
    6, 0, 5, 0, 0, 1, 0, 0,                /* a draft's head: kind 0, 1 stage, start 0 */
    3, 0, 6, 0, 0, 0, 0, 0, 0,             /* stage 0, a junction */
    4, 0, 6, 0, 0, 0, 1, 0, 0,             /*   check 0: cost 1, finding 0 */
};

/* Two endings, of cost 5 and 7, the draft that the list 1, 0 makes of them, and what the rearranger makes of that. */
static const uint8_t endings_5_7[] = {
    1, 0, 5, 0, 0, 2, 0, 0,                /* head: kind 0, 2 stages, start 0 */
    2, 0, 9, 0, 0, 0, 5, 0, 0, 0, 0, 0,    /* stage 0 */
    2, 0, 9, 0, 0, 0, 7, 0, 0, 0, 0, 0,    /* stage 1 */
};
static const uint8_t draft_7_5[] = {
    6, 0, 5, 0, 0, 2, 0, 1,                /* a draft's head: kind 0, 2 stages, start 1 */
    2, 0, 9, 0, 0, 0, 7, 0, 0, 0, 0, 0,    /* stage 0 */
    2, 0, 9, 0, 0, 0, 5, 0, 0, 0, 0, 0,    /* stage 1 */
};
static const uint8_t endings_7_5[] = {
    1, 0, 5, 0, 0, 2, 0, 1,                /* head: kind 0, 2 stages, start 1 */
    2, 0, 9, 0, 0, 0, 7, 0, 0, 0, 0, 0,    /* stage 0 */
    2, 0, 9, 0, 0, 0, 5, 0, 0, 0, 0, 0,    /* stage 1 */
};
enum { TWO = 2 };
static const uint32_t offsets_two[TWO] = {8, 20};
static const uint32_t turned_round[TWO] = {1, 0}, as_it_was[TWO] = {0, 1};

/* In bytes. */
enum { HEAD_BYTES = 8, ENDING_BYTES = 12, MOST_ENDINGS = HEAD_BYTES + LDFS_STAGES_MOST * ENDING_BYTES };

/* What the host lends has two entries more than it has to have, and three bytes that are no entry; of the output there is as much as any
   call needs, and more. All of it holds FILL before a call. */
enum { FILL = 0x5a, MORE = 11, SHEET_ROOM = LDFS_SHEET_MOST + 1 };
static uint8_t table[LDFS_TABLE_LEAST + MORE], list[LDFS_LIST_LEAST + MORE], output[SHEET_ROOM + MORE];

/* The sheet that is lent, a copy. */
static uint8_t lent_sheet[SHEET_ROOM];

/* How many bytes of them a call is lent; 0 of the output stands for as many as the sheet has and MORE. */
static struct {
    size_t table, list, output;
} lent = {sizeof table, sizeof list, 0};

static int failures;
static const char *subject;

static void expect(bool holds, const char *what)
{
    if (!holds) {
        failures++;
        printf("NOT AS EXPECTED: %s: %s\n", subject, what);
    }
}

static uint32_t entry(const uint8_t *entries, size_t i)
{
    const uint8_t *at = entries + LDFS_ENTRY_BYTES * i;
    return (uint32_t)at[0] | (uint32_t)at[1] << 8 | (uint32_t)at[2] << 16 | (uint32_t)at[3] << 24;
}

static void put_entry(uint8_t *entries, size_t i, uint32_t x)
{
    for (size_t byte = 0; byte < LDFS_ENTRY_BYTES; byte++)
        entries[LDFS_ENTRY_BYTES * i + byte] = (uint8_t)(x >> 8 * byte);
}

static void put_big(uint8_t *at, uint32_t x)
{
    for (int i = 0; i < 4; i++)
        at[i] = (uint8_t)(x >> (24 - 8 * i));
}

static bool filled(const uint8_t *at, size_t bytes)
{
    for (size_t i = 0; i < bytes; i++)
        if (at[i] != FILL)
            return false;
    return true;
}

static size_t output_length(size_t sheet_length)
{
    return lent.output != 0 ? lent.output : sheet_length + MORE;
}

static void make_ready(const char *name, const uint8_t *sheet, size_t length)
{
    subject = name;
    memcpy(lent_sheet, sheet, length);
    memset(table, FILL, sizeof table);
    memset(output, FILL, sizeof output);
}

/* Of a table or list that was lent with so many bytes: the first entries are these numbers, all others 0, and nothing else is touched. */
static void expect_entries(const uint8_t *entries, size_t length, size_t room, const uint32_t *numbers, size_t count, const char *what)
{
    bool as_they_are = true;
    for (size_t i = 0; i < length / LDFS_ENTRY_BYTES; i++)
        as_they_are = as_they_are && entry(entries, i) == (i < count ? numbers[i] : 0);
    expect(as_they_are, what);
    size_t end = length - length % LDFS_ENTRY_BYTES;
    expect(filled(entries + end, room - end), "bytes behind the last entry stay");
}

static void expect_table(const uint32_t *offsets, size_t stages)
{
    expect_entries(table, lent.table, sizeof table, offsets, stages, "the table's entries");
}

static void expect_output(const uint8_t *expected, size_t length)
{
    expect(memcmp(output, expected, length) == 0, "the output");
    expect(filled(output + length, sizeof output - length), "the output behind the sheet stays");
}

/* What a refusal leaves: sheet and output as they were; and the table, but for refusal 1, with zeros. */
static void expect_refusal(uint32_t returned, uint32_t number, const uint8_t *sheet, size_t length)
{
    expect(returned == number, "the number");
    expect(memcmp(lent_sheet, sheet, length) == 0, "the sheet stays");
    expect(filled(output, sizeof output), "a refusal leaves the output");
    if (number == LDFS_REFUSED_ROOM)
        expect(filled(table, sizeof table), "refusal 1 leaves the table");
    else
        expect_table(NULL, 0);
}

static uint32_t rearrange(const char *name, const uint8_t *draft, size_t length)
{
    make_ready(name, draft, length);
    memset(list, FILL, sizeof list);
    return ldfs_rearrange(lent_sheet, length, table, lent.table, output, output_length(length), list, lent.list);
}

static void rearranges(const char *name, const uint8_t *draft, size_t length, const uint8_t *sheet, const uint32_t *offsets,
                       const uint32_t *order, size_t stages)
{
    expect(rearrange(name, draft, length) == LDFS_REARRANGED, "it is rearranged");
    expect(memcmp(lent_sheet, draft, length) == 0, "the draft stays");
    expect_output(sheet, length);
    expect_table(offsets, stages);
    expect_entries(list, lent.list, sizeof list, order, stages, "the list's entries");
}

static void draft_refused(const char *name, const uint8_t *draft, size_t length, uint32_t number)
{
    expect_refusal(rearrange(name, draft, length), number, draft, length);
    expect(filled(list, sizeof list), "a refusal leaves the list");
}

/* The list begins with these numbers, and all behind them is FILL: entries that are no stages. */
static void make_list(const uint32_t *numbers, size_t count)
{
    memset(list, FILL, sizeof list);
    for (size_t i = 0; i < count; i++)
        put_entry(list, i, numbers[i]);
}

static uint32_t restore(const char *name, const uint8_t *sheet, size_t length, const uint32_t *numbers, size_t count)
{
    make_ready(name, sheet, length);
    make_list(numbers, count);
    return ldfs_restore(lent_sheet, length, table, lent.table, list, lent.list, output, output_length(length));
}

/* The list stays, to its last byte. */
static void expect_list(const uint32_t *numbers, size_t count)
{
    bool stays = true;
    for (size_t i = 0; i < count; i++)
        stays = stays && entry(list, i) == numbers[i];
    size_t behind = LDFS_ENTRY_BYTES * count;
    expect(stays && filled(list + behind, sizeof list - behind), "the list stays");
}

static void restores(const char *name, const uint8_t *sheet, size_t length, const uint8_t *draft, const uint32_t *offsets,
                     const uint32_t *numbers, size_t stages)
{
    expect(restore(name, sheet, length, numbers, stages) == LDFS_RESTORED, "it is restored");
    expect(memcmp(lent_sheet, sheet, length) == 0, "the sheet stays");
    expect_output(draft, length);
    expect_table(offsets, stages);
    expect_list(numbers, stages);
}

static void list_refused(const char *name, const uint8_t *sheet, size_t length, const uint32_t *numbers, size_t count, uint32_t number)
{
    expect_refusal(restore(name, sheet, length, numbers, count), number, sheet, length);
    expect_list(numbers, count);
}

/* A sheet of four stages to the inverse, with the list that belongs to A. */
static void sheet_refused(const char *name, const uint8_t *sheet, size_t length, uint32_t number)
{
    list_refused(name, sheet, length, order_k, STAGES, number);
}

static void solve_refused(const char *name, const uint8_t *sheet, size_t length, uint32_t number)
{
    uint8_t result[LDFS_RESULT_LEAST];
    make_ready(name, sheet, length);
    uint32_t returned = ldfs_solve(lent_sheet, length, table, lent.table, UINT64_MAX, result, sizeof result);
    expect_refusal(returned, number, sheet, length);
}

/* Copies of small sheets, with a byte changed, two findings in the place of one, or a counted junction in the place of a plain one. */
enum { COPY_MOST = 100, CHECK_BYTES = LDFS_CHECK_FINDINGS + 2 };

static const uint8_t *changed(const uint8_t *sheet, size_t length, size_t place, uint8_t byte)
{
    static uint8_t copy[COPY_MOST];
    memcpy(copy, sheet, length);
    copy[place] = byte;
    return copy;
}

static const uint8_t *two_findings(const uint8_t *sheet, size_t length, size_t check, uint8_t first, uint8_t second)
{
    static uint8_t copy[COPY_MOST];
    size_t end = check + CHECK_BYTES;
    memcpy(copy, sheet, end);
    copy[check + LDFS_FIELD_LENGTH + 1] = 8;
    copy[end - 1] = first;
    copy[end] = 0;
    copy[end + 1] = second;
    memcpy(copy + end + 2, sheet + end, length - end);
    return copy;
}

static const uint8_t *counted(const uint8_t *sheet, size_t length, size_t junction, uint8_t number)
{
    static uint8_t copy[COPY_MOST];
    size_t checks = junction + LDFS_JUNCTION_CHECKS;
    memcpy(copy, sheet, checks);
    copy[junction] = LDFS_COUNTED_TAG;
    copy[junction + LDFS_FIELD_LENGTH + 1] = 7;
    copy[checks] = number;
    memcpy(copy + checks + 1, sheet + checks, length - checks);
    return copy;
}

/* K and A, and sheets of other forms, there and back [S11.52, S11.55, S11.62, S11.65]. */
static void there_and_back(void)
{
    static const uint32_t numbers[STAGES] = {0, 1, 2, 3};
    static const uint32_t offsets_made_of_l[STAGES] = {8, 26, 44, 62}, offsets_made_of_n[N_STAGES] = {8, 31, 40};
    const size_t a = sizeof sheet_a;
    rearranges("K", sheet_k, a, sheet_a, offsets_k, order_k, STAGES);
    restores("A by 2, 3, 0, 1", sheet_a, a, sheet_k, offsets_a, order_k, STAGES);
    rearranges("K, junction 2 counted", draft_j, sizeof draft_j, sheet_j, offsets_draft_j, order_k, STAGES);
    restores("J by 2, 3, 0, 1", sheet_j, sizeof sheet_j, draft_j, offsets_j, order_k, STAGES);
    rearranges("L", sheet_l, sizeof sheet_l, made_of_l, offsets_l, order_l, STAGES);
    restores("L restored", made_of_l, sizeof made_of_l, sheet_l, offsets_made_of_l, order_l, STAGES);
    rearranges("N", sheet_n, sizeof sheet_n, made_of_n, offsets_n, order_n, N_STAGES);
    restores("N restored", made_of_n, sizeof made_of_n, sheet_n, offsets_made_of_n, order_n, N_STAGES);
    rearranges("an order in reverse", reversed, sizeof reversed, made_of_reversed, offsets_reversed, order_reversed, STAGES);
    restores("that restored", made_of_reversed, sizeof reversed, reversed, offsets_made_of_reversed, order_reversed, STAGES);
    rearranges("A with tag 06", changed(sheet_a, a, 0, LDFS_DRAFT_TAG), a, sheet_a, offsets_a, numbers, STAGES);
}

/* A sheet with an ending settled at its cost. */
static void settle_ending(uint8_t *field, uint32_t cost)
{
    put_big(field + LDFS_ENDING_VALUE, cost);
    field[LDFS_ENDING_MARK] = 1;
}

/* Values, marks and chosen checks travel with their stages [S11.53]. */
static void settled_stages_travel(void)
{
    uint8_t draft[sizeof sheet_k], sheet[sizeof sheet_a];
    memcpy(draft, sheet_k, sizeof draft);
    settle_ending(draft + K_STAGE_0, 100);
    settle_ending(draft + K_STAGE_1, 0);
    put_big(draft + K_STAGE_3 + LDFS_JUNCTION_VALUE, 500);
    draft[K_STAGE_3 + LDFS_JUNCTION_MARK] = 1;

    memcpy(sheet, sheet_a, sizeof sheet);
    settle_ending(sheet + A_STAGE_2, 100);
    settle_ending(sheet + A_STAGE_3, 0);
    put_big(sheet + A_STAGE_1 + LDFS_JUNCTION_VALUE, 500);
    sheet[A_STAGE_1 + LDFS_JUNCTION_MARK] = 1;
    rearranges("K with stage 3 settled", draft, sizeof draft, sheet, offsets_k, order_k, STAGES);
    restores("A with stage 1 settled", sheet, sizeof sheet, draft, offsets_a, order_k, STAGES);
}

/* K rearranged, worked as A is [S11.3], and restored by the list as it was written: work has left junction 2 settled at 500 by check 1,
   junction 3 open at 400, and ending 1 settled at 0. What the rearranger makes of that draft is the sheet as work left it. */
static void worked_in_between(void)
{
    uint8_t worked[sizeof sheet_a], draft[sizeof sheet_k], result[LDFS_RESULT_LEAST];
    memcpy(draft, sheet_k, sizeof draft);
    put_big(draft + K_STAGE_2 + LDFS_JUNCTION_VALUE, 500);
    draft[K_STAGE_2 + LDFS_JUNCTION_MARK] = 1;
    draft[K_STAGE_2 + LDFS_JUNCTION_CHOSEN] = 1;
    put_big(draft + K_STAGE_3 + LDFS_JUNCTION_VALUE, 400);
    settle_ending(draft + K_STAGE_1, 0);

    expect(rearrange("K, worked in between", sheet_k, sizeof sheet_k) == LDFS_REARRANGED, "it is rearranged");
    memcpy(worked, output, sizeof worked);
    expect(ldfs_solve(worked, sizeof worked, table, sizeof table, UINT64_MAX, result, sizeof result) == LDFS_SETTLED, "it is settled");
    expect(entry(result, 0) == 500 && result[LDFS_RESULT_PASSES] == 3 && result[LDFS_RESULT_RAISES] == 3, "price, passes and raises");
    memset(output, FILL, sizeof output);
    uint32_t number = ldfs_restore(worked, sizeof worked, table, sizeof table, list, sizeof list, output, sizeof output);
    expect(number == LDFS_RESTORED, "it is restored");
    expect_output(draft, sizeof draft);
    rearranges("that draft", draft, sizeof draft, worked, offsets_k, order_k, STAGES);
}

/* Which call takes which head [S11.54]. */
static void heads(void)
{
    solve_refused("K worked", sheet_k, sizeof sheet_k, LDFS_REFUSED_HEAD);
    sheet_refused("K to the inverse", sheet_k, sizeof sheet_k, LDFS_REFUSED_HEAD);
    draft_refused("A to the rearranger", sheet_a, sizeof sheet_a, LDFS_REFUSED_HEAD);
}

/* Findings in a circle, and what is asked before that [S11.56 to S11.59]. */
static void circles(void)
{
    const size_t m = sizeof sheet_m, own = sizeof own_finding, own_check = HEAD_BYTES + LDFS_JUNCTION_CHECKS;
    uint8_t whole[sizeof own_finding + 2];
    draft_refused("M", sheet_m, m, LDFS_REFUSED_CIRCLE);
    draft_refused("M, ending 0 at value 5", changed(sheet_m, m, M_VALUE_LOW, 5), m, LDFS_REFUSED_CIRCLE);
    draft_refused("a junction that is its own finding", own_finding, own, LDFS_REFUSED_CIRCLE);
    draft_refused("M, a check of cost 0", changed(sheet_m, m, M_COST_LOW, 0), m, LDFS_REFUSED_RANGES);
    draft_refused("M, junction 1 counted, the number 2", counted(sheet_m, m, M_STAGE_1, 2), m + 1, LDFS_REFUSED_COUNT);
    draft_refused("M, junction 1 counted, the number 1", counted(sheet_m, m, M_STAGE_1, 1), m + 1, LDFS_REFUSED_CIRCLE);
    draft_refused("M, the last byte cut", sheet_m, m - 1, LDFS_REFUSED_FIELDS);
    draft_refused("M, finding 3", changed(sheet_m, m, M_CHECK_1 + CHECK_BYTES - 1, 3), m, LDFS_REFUSED_FINDINGS);
    draft_refused("M, findings 2 and 1", two_findings(sheet_m, m, M_CHECK_1, 2, 1), m + 2, LDFS_REFUSED_FINDINGS);
    draft_refused("M, findings 1 and 2", two_findings(sheet_m, m, M_CHECK_1, 1, 2), m + 2, LDFS_REFUSED_CIRCLE);

    memcpy(whole, two_findings(own_finding, own, own_check, 0, 0), own + 2);
    draft_refused("findings 0 and 0, worst", whole, own + 2, LDFS_REFUSED_FINDINGS);
    whole[LDFS_HEAD_KIND] = 1;
    draft_refused("findings 0 and 0, whole", whole, own + 2, LDFS_REFUSED_CIRCLE);
}

/* Questions 7 and 8 of a draft and of a sheet: the ending of cost 100 at 101, and settled at 0; and borders of question 7 [S11.60]. */
static void values_and_marks(void)
{
    const size_t a = sizeof sheet_a, k_value = K_STAGE_0 + LDFS_ENDING_VALUE + 3, a_value = A_STAGE_2 + LDFS_ENDING_VALUE + 3;
    uint8_t draft[sizeof sheet_k], sheet[sizeof sheet_a];
    draft_refused("K, ending 0 at value 101", changed(sheet_k, a, k_value, 101), a, LDFS_REFUSED_VALUES);
    draft_refused("K, ending 0 settled at value 0", changed(sheet_k, a, K_STAGE_0 + LDFS_ENDING_MARK, 1), a, LDFS_REFUSED_MARKS);
    sheet_refused("A, ending 2 at value 101", changed(sheet_a, a, a_value, 101), a, LDFS_REFUSED_VALUES);
    sheet_refused("A, ending 2 settled at value 0", changed(sheet_a, a, A_STAGE_2 + LDFS_ENDING_MARK, 1), a, LDFS_REFUSED_MARKS);

    memcpy(draft, changed(sheet_k, a, k_value, 100), a);
    memcpy(sheet, changed(sheet_a, a, a_value, 100), a);
    rearranges("K, ending 0 at value 100", draft, a, sheet, offsets_k, order_k, STAGES);
    restores("A, ending 2 at value 100", sheet, a, draft, offsets_a, order_k, STAGES);
}

/* Lists that lack a number, entries behind the stages, which are not read, and a sheet that does not come back [S11.63, S11.64]. */
static void lists(void)
{
    static const uint32_t twice[STAGES] = {2, 3, 0, 0}, beyond[STAGES] = {2, 3, 0, 4}, late[STAGES + 1] = {2, 3, 0, 0, 1};
    static const uint32_t large[STAGES] = {2, 3, 0, 0x10001};
    const size_t a = sizeof sheet_a, two = sizeof endings_5_7;
    uint32_t all[LDFS_LIST_LEAST / LDFS_ENTRY_BYTES] = {2, 3, 0, 1};
    list_refused("A by 2, 3, 0, 0", sheet_a, a, twice, STAGES, LDFS_REFUSED_CIRCLE);
    list_refused("A by 2, 3, 0, 4", sheet_a, a, beyond, STAGES, LDFS_REFUSED_CIRCLE);
    list_refused("A by 2, 3, 0, 0 and 1 behind them", sheet_a, a, late, STAGES + 1, LDFS_REFUSED_CIRCLE);
    list_refused("A by 2, 3, 0, 65537", sheet_a, a, large, STAGES, LDFS_REFUSED_CIRCLE);

    for (size_t i = STAGES; i < sizeof all / sizeof *all; i++)
        all[i] = 9999;
    uint32_t number = restore("A by 2, 3, 0, 1, and 9,999 behind them", sheet_a, a, all, sizeof all / sizeof *all);
    expect(number == LDFS_RESTORED, "it is restored");
    expect_output(sheet_k, a);
    expect_list(all, sizeof all / sizeof *all);

    restores("two endings by 1, 0", endings_5_7, two, draft_7_5, offsets_two, turned_round, TWO);
    rearranges("that draft", draft_7_5, two, endings_7_5, offsets_two, as_it_was, TWO);
}

/* K and A, lent so much: enough, or refused 1. */
static void lending(const char *name, size_t table_bytes, size_t output_bytes, size_t list_bytes, bool enough)
{
    lent.table = table_bytes;
    lent.output = output_bytes;
    lent.list = list_bytes;
    if (enough) {
        rearranges(name, sheet_k, sizeof sheet_k, sheet_a, offsets_k, order_k, STAGES);
        restores(name, sheet_a, sizeof sheet_a, sheet_k, offsets_a, order_k, STAGES);
    } else {
        draft_refused(name, sheet_k, sizeof sheet_k, LDFS_REFUSED_ROOM);
        sheet_refused(name, sheet_a, sizeof sheet_a, LDFS_REFUSED_ROOM);
    }
    lent.table = sizeof table;
    lent.output = 0;
    lent.list = sizeof list;
}

/* From which length on a slice is long enough [S11.61, S13.21]. */
static void lengths(void)
{
    const size_t t = LDFS_TABLE_LEAST, o = sizeof sheet_k, l = LDFS_LIST_LEAST;
    lending("as little as is enough", t, o, l, true);
    lending("a table of a byte less", t - 1, o, l, false);
    lending("a table of 4 bytes", 4, o, l, false);
    lending("a table of three bytes more", t + 3, o, l, true);
    lending("a table of an entry more", t + 4, o, l, true);
    lending("an output of a byte less", t, o - 1, l, false);
    lending("an output of 1 byte", t, 1, l, false);
    lending("an output of a byte more", t, o + 1, l, true);
    lending("an output of all there is", t, sizeof output, l, true);
    lending("a list of a byte less", t, o, l - 1, false);
    lending("a list of 4 bytes", t, o, 4, false);
    lending("a list of a byte more", t, o, l + 1, true);
    lending("a list of three bytes more", t, o, l + 3, true);
    lending("a list of an entry more", t, o, l + 4, true);
}

/* A fault of a sheet: another byte at a place. The refusal that it is the cause of, where no question before that one is answered no. */
struct fault {
    size_t place;
    uint8_t byte;
    uint32_t refusal;
};

/* Faults of a draft or of a sheet, all at once and then put right one after the other: each question is put before the next [S13.8]. The
   number of question 11 stands for a list that lacks a number, where the sheet goes to the inverse. */
static void put_right(bool back, const uint8_t *good, size_t length, const struct fault *faults, size_t count)
{
    static const uint32_t lacking[STAGES] = {2, 3, 0, 3};
    static uint8_t sheet[SHEET_ROOM];
    const uint32_t *numbers = back ? lacking : order_k;
    memset(sheet, 0, sizeof sheet);
    memcpy(sheet, good, length);
    for (size_t i = 0; i < count; i++)
        if (faults[i].place < length)
            sheet[faults[i].place] = faults[i].byte;
    for (size_t i = 0; i < count; i++) {
        uint32_t number = faults[i].refusal;
        /* too long, and then a byte longer than its fields */
        size_t lent_bytes = number <= LDFS_REFUSED_SIZE ? sizeof sheet : number <= LDFS_REFUSED_FIELDS ? length + 1 : length;
        lent.output = number == LDFS_REFUSED_ROOM ? lent_bytes - 1 : 0;
        if (back)
            list_refused("one fault after the other, a sheet", sheet, lent_bytes, numbers, STAGES, number);
        else
            draft_refused("one fault after the other, a draft", sheet, lent_bytes, number);
        lent.output = 0;
        if (faults[i].place < length)
            sheet[faults[i].place] = good[faults[i].place];
        else if (number == LDFS_REFUSED_CIRCLE)
            numbers = order_k;
    }
    expect(memcmp(sheet, good, length) == 0, "all faults are put right");
}

/* Every refusal of both, in the order of the questions. NOWHERE stands for what is not a byte of the sheet. */
static void every_refusal(void)
{
    enum { NOWHERE = SHEET_ROOM };
    static const struct fault of_draft[] = {
        {NOWHERE, 0, LDFS_REFUSED_ROOM},
        {NOWHERE, 0, LDFS_REFUSED_SIZE},
        {3, 2, LDFS_REFUSED_HEAD},        /* kind 2 */
        {NOWHERE, 0, LDFS_REFUSED_FIELDS},
        {41, 1, LDFS_REFUSED_COUNT},      /* junction 2 writes 1 */
        {48, 0, LDFS_REFUSED_RANGES},     /* its check 0 costs 0 */
        {61, 4, LDFS_REFUSED_FINDINGS},   /* its check 1 has finding 4 */
        {81, 3, LDFS_REFUSED_CIRCLE},     /* junction 3 is its own finding */
        {67, 2, LDFS_REFUSED_VALUES},     /* its value is 512, the price of its check 400 */
        {19, 1, LDFS_REFUSED_MARKS},      /* ending 0 is settled at 0 */
    };
    static const struct fault of_sheet[] = {
        {NOWHERE, 0, LDFS_REFUSED_ROOM},
        {NOWHERE, 0, LDFS_REFUSED_SIZE},
        {0, 6, LDFS_REFUSED_HEAD},        /* a draft's tag */
        {NOWHERE, 0, LDFS_REFUSED_FIELDS},
        {17, 3, LDFS_REFUSED_COUNT},      /* junction 0 writes 3 */
        {24, 0, LDFS_REFUSED_RANGES},     /* its check 0 costs 0 */
        {55, 1, LDFS_REFUSED_FINDINGS},   /* junction 1 is its own finding */
        {NOWHERE, 0, LDFS_REFUSED_CIRCLE},
        {43, 2, LDFS_REFUSED_VALUES},     /* its value is 512, the price of its check 400 */
        {69, 1, LDFS_REFUSED_MARKS},      /* ending 2 is settled at 0 */
    };
    put_right(false, draft_j, sizeof draft_j, of_draft, sizeof of_draft / sizeof *of_draft);
    put_right(true, sheet_j, sizeof sheet_j, of_sheet, sizeof of_sheet / sizeof *of_sheet);
}

/* Sizes and heads at their borders, and what question 6 asks of a sheet and not of a draft. */
static void borders(void)
{
    static uint8_t long_one[SHEET_ROOM];
    const size_t a = sizeof sheet_a;
    memcpy(long_one, sheet_k, sizeof sheet_k);
    draft_refused("60,001 bytes", long_one, LDFS_SHEET_MOST + 1, LDFS_REFUSED_SIZE);
    draft_refused("60,000 bytes, of which few are stages", long_one, LDFS_SHEET_MOST, LDFS_REFUSED_FIELDS);
    draft_refused("16 bytes", sheet_k, LDFS_SHEET_LEAST - 1, LDFS_REFUSED_SIZE);
    draft_refused("17 bytes", sheet_k, LDFS_SHEET_LEAST, LDFS_REFUSED_FIELDS);
    sheet_refused("16 bytes to the inverse", sheet_a, LDFS_SHEET_LEAST - 1, LDFS_REFUSED_SIZE);
    sheet_refused("17 bytes to the inverse", sheet_a, LDFS_SHEET_LEAST, LDFS_REFUSED_FIELDS);
    draft_refused("no stages", changed(sheet_k, a, LDFS_HEAD_STAGES + 1, 0), a, LDFS_REFUSED_HEAD);
    draft_refused("start 4 of 4", changed(sheet_k, a, LDFS_HEAD_START + 1, 4), a, LDFS_REFUSED_HEAD);
    draft_refused("a head of length 6", changed(sheet_k, a, LDFS_FIELD_LENGTH + 1, 6), a, LDFS_REFUSED_HEAD);
    draft_refused("tag 7", changed(sheet_k, a, 0, 7), a, LDFS_REFUSED_HEAD);

    /* the first finding of junction 1 is junction 0: question 6 asks that of a sheet alone, and of a draft it is a circle */
    uint8_t back[sizeof sheet_a];
    memcpy(back, changed(sheet_a, a, A_FINDING_LOW, 0), a);
    sheet_refused("A, a finding that leads back", back, a, LDFS_REFUSED_FINDINGS);
    back[0] = LDFS_DRAFT_TAG;
    draft_refused("that as a draft", back, a, LDFS_REFUSED_CIRCLE);
}

/* So many endings, of which number s costs s, or in reverse; the start is the first, or then the last. */
static void make_endings(uint8_t *sheet, uint8_t tag, uint32_t stages, bool in_reverse)
{
    const uint32_t start = in_reverse ? stages - 1 : 0;
    const uint8_t head[HEAD_BYTES] = {tag, 0, 5, 0, (uint8_t)(stages / 256), (uint8_t)(stages % 256), (uint8_t)(start / 256),
                                      (uint8_t)(start % 256)};
    memset(sheet, 0, HEAD_BYTES + ENDING_BYTES * stages);
    memcpy(sheet, head, sizeof head);
    for (uint32_t stage = 0; stage < stages; stage++) {
        uint8_t *at = sheet + HEAD_BYTES + ENDING_BYTES * stage;
        at[0] = LDFS_ENDING_TAG;
        at[2] = 9;
        put_big(at + LDFS_ENDING_COST, in_reverse ? stages - 1 - stage : stage);
    }
}

/* As many stages as there may be, so that no entry of a shortest list is left, and one more. The last stage stands at 49,148. */
static void most_stages(void)
{
    static uint8_t sheet[MOST_ENDINGS + ENDING_BYTES], draft[MOST_ENDINGS + ENDING_BYTES];
    static uint32_t offsets[LDFS_STAGES_MOST], ascending[LDFS_STAGES_MOST], descending[LDFS_STAGES_MOST];
    for (uint32_t i = 0; i < LDFS_STAGES_MOST; i++) {
        offsets[i] = HEAD_BYTES + ENDING_BYTES * i;
        ascending[i] = i;
        descending[i] = LDFS_STAGES_MOST - 1 - i;
    }
    make_endings(sheet, LDFS_HEAD_TAG, LDFS_STAGES_MOST, false);
    make_endings(draft, LDFS_DRAFT_TAG, LDFS_STAGES_MOST, true);
    restores("4,096 stages in reverse", sheet, MOST_ENDINGS, draft, offsets, descending, LDFS_STAGES_MOST);
    expect(entry(table, LDFS_STAGES_MOST - 1) == 49148, "the offset of stage 4095");
    lent.list = LDFS_LIST_LEAST;
    make_endings(sheet, LDFS_HEAD_TAG, LDFS_STAGES_MOST, true);
    rearranges("4,096 stages", draft, MOST_ENDINGS, sheet, offsets, ascending, LDFS_STAGES_MOST);
    lent.list = sizeof list;

    make_endings(draft, LDFS_DRAFT_TAG, LDFS_STAGES_MOST + 1, false);
    draft_refused("4,097 stages", draft, sizeof draft, LDFS_REFUSED_HEAD);
    draft[0] = LDFS_HEAD_TAG;
    sheet_refused("4,097 stages to the inverse", draft, sizeof draft, LDFS_REFUSED_HEAD);
}

/* Slices of no bytes, for which the address of a byte of the host's own serves; and slices at odd addresses. */
static void slices_anywhere(void)
{
    static uint8_t shifted[SHEET_ROOM];
    uint8_t byte = FILL;
    make_ready("slices of no bytes", sheet_k, sizeof sheet_k);
    make_list(order_k, STAGES);
    expect(ldfs_rearrange(&byte, 0, table, sizeof table, &byte, 0, list, sizeof list) == LDFS_REFUSED_SIZE, "a draft of no bytes");
    expect(ldfs_restore(&byte, 0, table, sizeof table, list, sizeof list, &byte, 0) == LDFS_REFUSED_SIZE, "a sheet of no bytes");
    expect(ldfs_rearrange(lent_sheet, sizeof sheet_k, table, sizeof table, &byte, 0, list, sizeof list) == LDFS_REFUSED_ROOM, "no output");
    expect(ldfs_restore(lent_sheet, sizeof sheet_k, &byte, 0, list, sizeof list, output, sizeof output) == LDFS_REFUSED_ROOM, "no table");
    expect(ldfs_restore(lent_sheet, sizeof sheet_k, table, sizeof table, &byte, 0, output, sizeof output) == LDFS_REFUSED_ROOM, "no list");
    expect(byte == FILL, "the byte stays");

    make_ready("slices at odd addresses", sheet_k, sizeof sheet_k);
    memcpy(shifted + 3, sheet_k, sizeof sheet_k);
    uint32_t number = ldfs_rearrange(shifted + 3, sizeof sheet_k, table + 1, LDFS_TABLE_LEAST, output + 1, sizeof sheet_k, list + 3,
                                     LDFS_LIST_LEAST);
    expect(number == LDFS_REARRANGED && memcmp(output + 1, sheet_a, sizeof sheet_a) == 0, "it is rearranged");
    expect(entry(table + 1, 3) == K_STAGE_3 && entry(list + 3, 0) == 2, "table and list");
    expect(table[0] == FILL && output[0] == FILL, "nothing is written before the slices");
}

/* Slices that are only read may overlap [S13.22]: here the sheet stands in the list's entries past the stages, which are not read. */
static void sheet_within_list(void)
{
    make_ready("a sheet within the list", sheet_a, sizeof sheet_a);
    make_list(order_k, STAGES);
    uint8_t *sheet = list + LDFS_ENTRY_BYTES * STAGES;
    memcpy(sheet, sheet_a, sizeof sheet_a);
    uint32_t number = ldfs_restore(sheet, sizeof sheet_a, table, sizeof table, list, sizeof list, output, sizeof output);
    expect(number == LDFS_RESTORED, "it is restored");
    expect_output(sheet_k, sizeof sheet_k);
    expect(memcmp(sheet, sheet_a, sizeof sheet_a) == 0, "the sheet stays");
}

int main(void)
{
    there_and_back();
    settled_stages_travel();
    worked_in_between();
    heads();
    circles();
    values_and_marks();
    lists();
    lengths();
    every_refusal();
    borders();
    most_stages();
    slices_anywhere();
    sheet_within_list();
    if (failures > 0) {
        printf("%d not as expected\n", failures);
        return EXIT_FAILURE;
    }
    printf("drafts: all as expected\n");
    return EXIT_SUCCESS;
}
