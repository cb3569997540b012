/*
 * ldfs.h: least-cost planning on fault sheets, by learning depth-first search (LDFS).
 *
 * ldfs_solve works a sheet, in place, within a budget. ldfs_rearrange turns a draft, a sheet that is numbered in the order in which people
 * think, into an ordinary sheet, and ldfs_restore turns it back. C99, and usable from C++.
 *
 * Platform   x86-64 Linux, called by the System V ABI, as every C compiler there calls. The archive has code for nothing else.
 * Linking    install.sh PREFIX puts libldfs.a, this header and ldfs.pc under PREFIX; then -lldfs, and no other library but the C library,
 *            of which memset and memcpy are called.
 * Stack      a call needs up to LDFS_STACK_BYTES of stack, on the deepest sheets, beside what its thread needs otherwise. A call on a draft
 *            needs about a tenth of that, whatever the draft (docs/HOST.md).
 * Memory     the library allocates nothing and keeps nothing between calls: no memory, no files, no global state. All that it
 *            reads or writes is its own stack and the slices that it is lent.
 * Threads    calls on slices that do not overlap may run at once.
 * Money      every amount, in the sheet and in the result, is a whole number of cents.
 *
 * docs/HOST.md says all this at greater length; docs/SPEC.md is the specification, whose ids stand here in brackets; examples/host.c is a
 * host to start from. install.sh puts all three into PREFIX/share/doc/ldfs.
 */
#ifndef LDFS_H
#define LDFS_H

#include <stddef.h>
#include <stdint.h>

/*
 * The version of this interface: of the functions, their numbers, and the bytes of sheets, tables, lists and results. MAJOR changes where
 * a host or a stored sheet of before would no longer do, MINOR where something is added, PATCH where neither. A sheet's bytes hold no
 * version.
 */
#define LDFS_VERSION_MAJOR 2
#define LDFS_VERSION_MINOR 4
#define LDFS_VERSION_PATCH 0
#define LDFS_VERSION "2.4.0"

#ifdef __cplusplus
extern "C" {
#endif

/* Lengths in bytes, and limits. These and the offsets below are unsigned, as the bytes and numbers are that they stand beside. */
#define LDFS_SHEET_LEAST 17u     /* a sheet has at least this many bytes, */
#define LDFS_SHEET_MOST 60000u   /* and at most this many */
#define LDFS_STAGES_MOST 4096u   /* stages of a sheet, at most */
#define LDFS_ENTRY_BYTES 4u      /* an entry of the index table: 32 bits, least significant byte first */
#define LDFS_TABLE_LEAST 16384u  /* the index table: 4,096 entries, or more */
#define LDFS_LIST_LEAST 16384u   /* the list of old numbers: 4,096 entries, as the table's are, or more */
#define LDFS_RESULT_LEAST 24u    /* the result: three numbers of 64 bits, or more room */
#define LDFS_STACK_BYTES 671744u /* stack that a call needs, at most: measured and rounded up (docs/HOST.md), not proved */
#define LDFS_CEILING 1000000000u /* in cents: a value at the ceiling means "that much or more" [S2.7] */
#define LDFS_NO_PLAN 1000000001u /* the value that is written for none: there is no complete plan [S2.11] */

/* Where the numbers stand in the result: eight bytes each, least significant first [S9.5]. */
#define LDFS_RESULT_PRICE 0u   /* the start's value, in cents: what it means depends on the outcome, below; 0 when refused */
#define LDFS_RESULT_PASSES 8u  /* passes begun by this call; 0 when refused */
#define LDFS_RESULT_RAISES 16u /* raises made by this call; 0 when refused */

/*
 * Where things stand in a sheet [S3.2]. A field is its tag (one byte), the length of its content (two bytes), and the content. Numbers in a
 * sheet are most significant byte first. The head stands at 0; entry i of the index table is where stage i's field stands.
 */
#define LDFS_FIELD_LENGTH 1u    /* of any field: the length of its content, 2 bytes; the next field stands at 3 plus that */
#define LDFS_FIELD_CONTENT 3u
#define LDFS_HEAD_TAG 1
#define LDFS_DRAFT_TAG 6        /* the tag of a draft's head, which is a head in all else [S13.1] */
#define LDFS_HEAD_KIND 3u       /* 1 byte: 0 worst, 1 whole */
#define LDFS_HEAD_STAGES 4u     /* 2 bytes */
#define LDFS_HEAD_START 6u      /* 2 bytes */
#define LDFS_ENDING_TAG 2
#define LDFS_ENDING_COST 3u     /* 4 bytes */
#define LDFS_ENDING_VALUE 7u    /* 4 bytes */
#define LDFS_ENDING_MARK 11u    /* 1 byte: 0 open, 1 settled */
#define LDFS_JUNCTION_TAG 3     /* a plain junction */
#define LDFS_COUNTED_TAG 5      /* a counted one, which also writes its number of checks [S3.6] */
#define LDFS_JUNCTION_VALUE 3u  /* 4 bytes; value, mark and chosen check stand at the same places in both forms */
#define LDFS_JUNCTION_MARK 7u   /* 1 byte: 0 open, 1 settled */
#define LDFS_JUNCTION_CHOSEN 8u /* 1 byte: the number of the chosen check; 0 while open, and where the junction has no checks */
#define LDFS_JUNCTION_CHECKS 9u /* of a plain junction: the field of its check 0, if it has any: 0 to 16 follow one another */
#define LDFS_COUNTED_NUMBER 9u  /* of a counted one: its number of checks, 1 byte, */
#define LDFS_COUNTED_CHECKS 10u /* and the field of its check 0. In both forms that stands at 3 plus the length of the junction's field */
#define LDFS_CHECK_TAG 4
#define LDFS_CHECK_COST 3u      /* 4 bytes */
#define LDFS_CHECK_FINDINGS 7u  /* 2 bytes each: (length - 4) / 2 of them */

/*
 * What a call returns: a refusal, 1 to 11, which is the number of the first question that is answered no [S4, S5]. The questions are
 * put in the order of this list, in which 10 stands behind 4, and 11 behind 6. Each is settled for the whole sheet before the next, so a
 * refusal means that all questions above it here which the call puts are answered yes, and its own is not. ldfs_solve puts all but 11;
 * ldfs_rearrange and ldfs_restore put all but 9. The sheet is as it was. 1 and 9 are about what the host lent; the others are faults of the
 * sheet, or 11 of the list ..
 */
#define LDFS_REFUSED_ROOM 1     /* [S4.1] the table has fewer than 16,384 bytes, or the result fewer than 24 [S9.6]; in a call on a draft,
                                   the list fewer than 16,384 or the output fewer than the sheet [S13.8] */
#define LDFS_REFUSED_SIZE 2     /* [S4.2] the sheet has fewer than 17 bytes, or more than 60,000 */
#define LDFS_REFUSED_HEAD 3     /* [S4.3] it does not begin with a head: kind 0 or 1, 1 to 4,096 stages, start below their number; the tag
                                   is LDFS_HEAD_TAG, but for ldfs_rearrange LDFS_DRAFT_TAG */
#define LDFS_REFUSED_FIELDS 4   /* [S4.4] what follows is not exactly those stages, in the format's order, counts and lengths */
#define LDFS_REFUSED_COUNT 10   /* [S4.10] a counted junction writes another number of checks than follow it */
#define LDFS_REFUSED_RANGES 5   /* [S4.5] a cost, a value (LDFS_NO_PLAN at most), a mark or a chosen check is out of its range */
#define LDFS_REFUSED_FINDINGS 6 /* [S4.6] findings do not ascend, on a worst sheet strictly (on a whole sheet equal ones may stand side by
                                   side, and each counts [S2.10]), or one is not above its junction's number (which ldfs_rearrange
                                   does not ask), or is no stage */
#define LDFS_REFUSED_CIRCLE 11  /* [S4.11] by ldfs_rearrange: findings lead in a circle, be it of one stage; by ldfs_restore: a stage number
                                   is missing among the first entries of the list, as many as there are stages */
#define LDFS_REFUSED_VALUES 7   /* [S4.7] a value is above its ending's cost, or above the price of a check of its junction */
#define LDFS_REFUSED_MARKS 8    /* [S4.8] a settled stage has another value than settles it (LDFS_NO_PLAN, at a junction without checks), or
                                   its chosen check an open finding */
#define LDFS_REFUSED_BUDGET 9   /* [S4.9] the budget is 0, and nothing else is wrong: the sheet is valid */

/* .. or, from ldfs_solve, the outcome of the work, which says what the price in the result is [S7.1, S8] .. */
#define LDFS_SETTLED 100 /* the start is settled below the ceiling: the price is the least cost, and the sheet holds a plan that costs it */
#define LDFS_OVER 101    /* the start is settled at the ceiling: the price is the ceiling. A complete plan exists, and every one costs
                            that or more */
#define LDFS_STOPPED 102 /* the budget is spent and the start is open: the price is a lower bound. No plan costs less, and from call to
                            call on the same sheet it never falls. Another call carries the sheet on */
#define LDFS_NONE 103    /* the start is settled at LDFS_NO_PLAN, which is the price: there is no complete plan. By whatever checks are
                            chosen, some run comes to a junction that has none */

/* .. or what a call on a draft has done [S13.20]. */
#define LDFS_REARRANGED 105 /* ldfs_rearrange: the output holds the new sheet, the list the old numbers of its stages */
#define LDFS_RESTORED 106   /* ldfs_restore: the output holds the draft */

/*
 * Works the sheet until its start is settled or the budget of raises is spent [S9].
 *
 *   sheet    the sheet's bytes; work changes values, marks and chosen checks, and a refusal changes nothing
 *   table    the index table, whatever it holds. When the sheet is worked, entry i becomes the byte offset of stage i's field and every
 *            entry past the last stage 0, also past the 4,096th. Every refusal but 1 makes every entry 0; refusal 1 leaves the table
 *            as it is. One to three bytes left over behind the last whole entry are not touched.
 *   budget   the most raises that this call may make. UINT64_MAX is as many as it takes. 0 works nothing and asks the other questions
 *            only: LDFS_REFUSED_BUDGET then says that the sheet is valid, and 2 to 8 and 10 are the sheet's fault.
 *   result   price, passes and raises, in the first 24 bytes, on every return, with 0 for each when the call is refused; bytes after them
 *            keep their content. With fewer than 24 the call is refused 1, and all three slices keep theirs.
 *
 * Each slice is a pointer and the number of bytes from there on; any alignment will do. The slices must not overlap, and nobody else may
 * use them during the call. No pointer may be null, not even with length 0 (an empty std::vector's may be): for a slice of no bytes pass the
 * address of any byte of your own.
 * Returns 1 to 10 or 100 to 103, and no other number.
 */
uint32_t ldfs_solve(uint8_t *sheet, size_t sheet_length, uint8_t *table, size_t table_length, uint64_t budget, uint8_t *result,
                    size_t result_length);

/*
 * Rearranges a draft [S13]: its stages are placed one after the other, next always the lowest number to which no unplaced junction points,
 * and numbered anew in this order, so that every finding is above its junction. The new sheet can be worked.
 *
 *   sheet    the draft's bytes, which are only read
 *   table    the index table, as in ldfs_solve: it becomes the offsets of the draft's stages
 *   output   receives the new sheet, which has as many bytes as the draft; bytes behind it keep their content
 *   list     receives the old numbers: entry i, four bytes, least significant first, is the number that stage i of the new sheet has in the
 *            draft; every entry past the stages becomes 0. One to three bytes left over behind the last whole entry are not touched
 *
 * A refusal alters neither output nor list. What is said of slices at ldfs_solve holds here too; slices that are const may overlap each
 * other. Returns 1 to 8, 10, 11 or 105.
 */
uint32_t ldfs_rearrange(const uint8_t *sheet, size_t sheet_length, uint8_t *table, size_t table_length, uint8_t *output,
                        size_t output_length, uint8_t *list, size_t list_length);

/*
 * Restores the draft [S13.6]: lent the new sheet, as it was or worked since, and the list that ldfs_rearrange wrote, it makes the draft,
 * with the values, marks and chosen checks that the sheet has by now.
 *
 *   sheet    the ordinary sheet's bytes, which are only read
 *   table    becomes the offsets of that sheet's stages
 *   list     the old numbers; entries past the stages are not read, whatever they hold
 *   output   receives the draft, which has as many bytes as the sheet; bytes behind it keep their content, and a refusal alters nothing
 *
 * Returns 1 to 8, 10, 11 or 106.
 */
uint32_t ldfs_restore(const uint8_t *sheet, size_t sheet_length, uint8_t *table, size_t table_length, const uint8_t *list,
                      size_t list_length, uint8_t *output, size_t output_length);

#ifdef __cplusplus
}
#endif

#endif
