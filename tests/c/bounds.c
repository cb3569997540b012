/*
 * Two lower bounds for the benchmark, each called as a solver is: what every solver does at least on an accepted sheet. They answer no
 * question, keep no mark and leave the sheet as it is.
 */
#include <stddef.h>
#include <stdint.h>

enum { TERMINAL = 2, ACTION = 4, MOST_STATES = 4096, CEILING = 1000000000, NONE = 1000000001 };

uint32_t bound_touch(uint8_t *sheet, size_t sheet_length, uint8_t *table, size_t table_length, uint64_t budget, uint8_t *result,
                     size_t result_length);
uint32_t bound_sweep(uint8_t *sheet, size_t sheet_length, uint8_t *table, size_t table_length, uint64_t budget, uint8_t *result,
                     size_t result_length);

/* The questions look at every byte: each is read once, and added up so that the reading is not left out. */
uint32_t bound_touch(uint8_t *sheet, size_t sheet_length, uint8_t *table, size_t table_length, uint64_t budget, uint8_t *result,
                     size_t result_length)
{
    (void)table, (void)table_length, (void)budget, (void)result, (void)result_length;
    uint32_t sum = 0;
    for (size_t i = 0; i < sheet_length; i++)
        sum += sheet[i];
    return sum;
}

static uint32_t get16(const uint8_t *at)
{
    return (uint32_t)at[0] << 8 | at[1];
}

static uint32_t get32(const uint8_t *at)
{
    return (uint32_t)at[0] << 24 | (uint32_t)at[1] << 16 | (uint32_t)at[2] << 8 | at[3];
}

static const uint8_t *past(const uint8_t *field)
{
    return field + 3 + get16(field + 1);
}

static int any_none(const uint8_t *action, const uint32_t *costs)
{
    for (const uint8_t *at = action + 7; at < past(action); at += 2)
        if (costs[get16(at)] == NONE)
            return 1;
    return 0;
}

/* as it is written, by those of the stages behind it; only a check that reaches the ceiling can be none */
static uint32_t least_cost(const uint8_t *field, const uint8_t *end, int whole, const uint32_t *costs)
{
    if (field[0] == TERMINAL)
        return get32(field + 3);
    uint64_t least = NONE;
    for (const uint8_t *action = past(field); action < end && action[0] == ACTION; action = past(action)) {
        uint64_t joined = 0;
        for (const uint8_t *at = action + 7; at < past(action); at += 2) {
            uint32_t cost = costs[get16(at)];
            if (whole)
                joined += cost;
            else if (cost > joined)
                joined = cost;
        }
        joined += get32(action + 3);
        if (joined >= CEILING)
            joined = any_none(action, costs) ? NONE : CEILING;
        if (joined < least)
            least = joined;
    }
    return (uint32_t)least;
}

/* The price alone: the least costs from the last stage backwards, each check looked at once. Returns the start's. */
uint32_t bound_sweep(uint8_t *sheet, size_t sheet_length, uint8_t *table, size_t table_length, uint64_t budget, uint8_t *result,
                     size_t result_length)
{
    (void)table, (void)table_length, (void)budget, (void)result, (void)result_length;
    const uint8_t *fields[MOST_STATES];
    uint32_t costs[MOST_STATES];
    const uint8_t *end = sheet + sheet_length;
    unsigned states = 0;
    for (const uint8_t *field = sheet + 8; field < end; field = past(field))
        if (field[0] != ACTION)
            fields[states++] = field;
    for (unsigned state = states; state-- > 0;)
        costs[state] = least_cost(fields[state], end, sheet[3], costs);
    return costs[get16(sheet + 6)];
}
