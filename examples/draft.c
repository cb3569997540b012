/*
 * A short host for drafts: rearranges the draft in a file, works the new sheet to its end, prints the plan by the draft's own numbers, and
 * with a second name writes the draft with the values, marks and chosen checks of that work.
 *
 *     draft FILE [WORKED]
 *
 * Exit status: 0 settled, 1 refused or something failed, 3 the price is the ceiling or there is no plan.
 */
#include <ldfs.h>
#include <stdio.h>

static uint8_t draft[LDFS_SHEET_MOST + 1], sheet[LDFS_SHEET_MOST + 1], table[LDFS_TABLE_LEAST], list[LDFS_LIST_LEAST];

static uint32_t little(const uint8_t *bytes, unsigned entry)
{
    const uint8_t *at = bytes + LDFS_ENTRY_BYTES * entry;
    return (uint32_t)at[0] | (uint32_t)at[1] << 8 | (uint32_t)at[2] << 16 | (uint32_t)at[3] << 24;
}

/* the number of `bytes` bytes at a place, most significant first */
static uint32_t big(const uint8_t *at, unsigned bytes)
{
    uint32_t x = 0;
    while (bytes-- > 0)
        x = x << 8 | *at++;
    return x;
}

/* The stages that the plan reaches, by their old numbers and in the order of their new ones, by which findings are above their junctions. */
static void print_plan(void)
{
    static uint8_t reached[LDFS_STAGES_MOST];
    unsigned stages = big(sheet + LDFS_HEAD_STAGES, 2);
    reached[big(sheet + LDFS_HEAD_START, 2)] = 1;
    for (unsigned stage = 0; stage < stages; stage++) {
        const uint8_t *field = sheet + little(table, stage);
        unsigned old = little(list, stage);
        if (!reached[stage])
            continue;
        if (field[0] == LDFS_ENDING_TAG) {
            printf("stage %u end value %u\n", old, big(field + LDFS_ENDING_VALUE, 4));
            continue;
        }
        printf("stage %u check %u value %u\n", old, field[LDFS_JUNCTION_CHOSEN], big(field + LDFS_JUNCTION_VALUE, 4));
        const uint8_t *check = field + LDFS_FIELD_CONTENT + big(field + LDFS_FIELD_LENGTH, 2);
        for (unsigned skipped = field[LDFS_JUNCTION_CHOSEN]; skipped > 0; skipped--)
            check += LDFS_FIELD_CONTENT + big(check + LDFS_FIELD_LENGTH, 2);
        unsigned bytes = LDFS_FIELD_CONTENT + big(check + LDFS_FIELD_LENGTH, 2);
        for (unsigned at = LDFS_CHECK_FINDINGS; at < bytes; at += 2)
            reached[big(check + at, 2)] = 1;
    }
}

/* The whole file, or one byte more than a sheet may have; 0 bytes where it cannot be read, and that is no sheet. */
static size_t read_file(const char *name)
{
    FILE *file = fopen(name, "rb");
    size_t length = file ? fread(draft, 1, sizeof draft, file) : 0;
    if (!file || ferror(file)) {
        perror(name);
        length = 0;
    }
    if (file)
        fclose(file);
    return length;
}

static int write_file(const char *name, size_t length)
{
    FILE *file = fopen(name, "wb");
    int written = file && fwrite(draft, 1, length, file) == length;
    if (file && fclose(file) != 0)
        written = 0;
    if (!written)
        perror(name);
    return written;
}

int main(int count, char **words)
{
    uint8_t result[LDFS_RESULT_LEAST];
    if (count < 2 || count > 3) {
        fprintf(stderr, "usage: draft FILE [WORKED]\n");
        return 1;
    }
    size_t length = read_file(words[1]);
    uint32_t number = ldfs_rearrange(draft, length, table, sizeof table, sheet, sizeof sheet, list, sizeof list);
    if (number != LDFS_REARRANGED) {
        printf("refused %u\n", number);
        return 1;
    }
    number = ldfs_solve(sheet, length, table, sizeof table, UINT64_MAX, result, sizeof result);
    printf("%s %u\n", number == LDFS_SETTLED ? "settled" : number == LDFS_OVER ? "over" : "none", little(result, 0));
    if (number == LDFS_SETTLED)
        print_plan();
    if (count == 3) {
        if (ldfs_restore(sheet, length, table, sizeof table, list, sizeof list, draft, length) != LDFS_RESTORED)
            return 1;
        if (!write_file(words[2], length))
            return 1;
    }
    return number == LDFS_SETTLED ? 0 : 3;
}
