/*
 * A plain C copy of the host function (S9 of docs/SPEC.md), for the benchmark alone: the same bytes, questions, procedure and answers,
 * written as one writes it by hand. It works in place on the sheet's bytes, as the library does. Nothing is proved of it.
 */
#include <stdbool.h>
#include <stddef.h>
#include <stdint.h>
#include <string.h>

#define CEILING 1000000000u
#define NONE 1000000001u
#define MOST_COST 1000000u
#define MOST_STATES 4096u

enum tag { HEAD = 1, TERMINAL = 2, PLAIN = 3, ACTION = 4, COUNTED = 5 };
enum visit { FAILURE, SUCCESS, HALT };

struct search {
    uint8_t *bytes;
    size_t length;
    uint32_t offsets[MOST_STATES];
    unsigned states;
    unsigned start;
    bool whole;
    bool counts_good; /* no counted junction was met that writes another number than that of its checks */
    uint64_t budget;
    uint64_t raises;
};

uint32_t plain_solve(uint8_t *sheet, size_t sheet_length, uint8_t *table, size_t table_length, uint64_t budget, uint8_t *result,
                     size_t result_length);

/* Numbers. */

static unsigned get16(const uint8_t *at)
{
    return (unsigned)at[0] << 8 | at[1];
}

static uint32_t get32(const uint8_t *at)
{
    return (uint32_t)at[0] << 24 | (uint32_t)at[1] << 16 | (uint32_t)at[2] << 8 | at[3];
}

static void put32(uint8_t *at, uint32_t x)
{
    at[0] = (uint8_t)(x >> 24);
    at[1] = (uint8_t)(x >> 16);
    at[2] = (uint8_t)(x >> 8);
    at[3] = (uint8_t)x;
}

static void put_little(uint8_t *at, uint64_t x, int bytes)
{
    for (int i = 0; i < bytes; i++)
        at[i] = (uint8_t)(x >> 8 * i);
}

/* Fields. */

static uint8_t *state_at(const struct search *w, unsigned state)
{
    return w->bytes + w->offsets[state];
}

/* where the value of a state stands; its mark stands four bytes on */
static uint8_t *value_of(const struct search *w, unsigned state)
{
    uint8_t *at = state_at(w, state);
    return at + (at[0] == TERMINAL ? 7 : 3);
}

static const uint8_t *end_of(const struct search *w)
{
    return w->bytes + w->length;
}

static bool action_here(const struct search *w, const uint8_t *at)
{
    return at < end_of(w) && at[0] == ACTION;
}

/* behind the junction's own field, whose length is that of its form; it is read where that is not plain, so that no address waits for it */
static const uint8_t *first_action(const uint8_t *decision)
{
    return decision[0] == PLAIN ? decision + 9 : decision + 3 + decision[2];
}

static const uint8_t *next_action(const uint8_t *action)
{
    return action + 3 + get16(action + 1);
}

static unsigned successors(const uint8_t *action)
{
    return (get16(action + 1) - 4) / 2;
}

static unsigned successor(const uint8_t *action, unsigned i)
{
    return get16(action + 7 + 2 * i);
}

/* seldom asked, and so kept out of the loops */
static __attribute__((noinline, cold)) bool any_none(const struct search *w, const uint8_t *action)
{
    for (unsigned i = 0; i < successors(action); i++)
        if (get32(value_of(w, successor(action, i))) == NONE)
            return true;
    return false;
}

/* the price of a check by the current values; only one that reaches the ceiling can be none */
static uint32_t price(const struct search *w, const uint8_t *action)
{
    uint64_t joined = 0;
    for (unsigned i = 0; i < successors(action); i++) {
        uint64_t value = get32(value_of(w, successor(action, i)));
        if (w->whole)
            joined += value;
        else if (value > joined)
            joined = value;
    }
    joined += get32(action + 3);
    if (joined < CEILING)
        return (uint32_t)joined;
    return any_none(w, action) ? NONE : CEILING;
}

/* Questions 3 to 8 and 10; each answers whether the sheet passes. */

static bool head_good(struct search *w)
{
    const uint8_t *b = w->bytes;
    if (b[0] != HEAD || get16(b + 1) != 5 || b[3] > 1)
        return false;
    w->whole = b[3] == 1;
    w->states = get16(b + 4);
    w->start = get16(b + 6);
    return w->states >= 1 && w->states <= MOST_STATES && w->start < w->states;
}

/* the length of the field at `at`, 0 if it has another tag or is cut */
static size_t field_length(const struct search *w, size_t at, uint8_t tag)
{
    if (w->length - at < 3 || w->bytes[at] != tag)
        return 0;
    size_t length = 3 + get16(w->bytes + at + 1);
    return length <= w->length - at ? length : 0;
}

/* question 4; written numbers are held to the checks that follow on the way, and question 10 comes when all fields are read */
static bool states_good(struct search *w)
{
    size_t at = 8;
    w->counts_good = true;
    for (unsigned state = 0; state < w->states; state++) {
        w->offsets[state] = (uint32_t)at;
        if (field_length(w, at, TERMINAL) == 12) {
            at += 12;
            continue;
        }
        bool plain = field_length(w, at, PLAIN) == 9;
        if (!plain && field_length(w, at, COUNTED) != 10)
            return false;
        at += plain ? 9 : 10;
        unsigned written = w->bytes[at - 1], actions = 0;
        while (at < w->length && w->bytes[at] == ACTION) {
            size_t length = field_length(w, at, ACTION);
            if (length < 9 || length > 39 || length % 2 == 0 || actions == 16)
                return false;
            at += length;
            actions++;
        }
        if (!plain && written != actions)
            w->counts_good = false;
    }
    return at == w->length;
}

static bool numbers_good(const struct search *w, unsigned state)
{
    const uint8_t *at = state_at(w, state);
    const uint8_t *value = value_of(w, state);
    if (get32(value) > NONE || value[4] > 1)
        return false;
    if (at[0] == TERMINAL)
        return get32(at + 3) <= MOST_COST;
    unsigned actions = 0;
    for (const uint8_t *a = first_action(at); action_here(w, a); a = next_action(a)) {
        uint32_t cost = get32(a + 3);
        if (cost < 1 || cost > MOST_COST)
            return false;
        actions++;
    }
    return value[4] == 0 || actions == 0 ? value[5] == 0 : value[5] < actions;
}

static bool order_good(const struct search *w, unsigned state)
{
    const uint8_t *at = state_at(w, state);
    if (at[0] == TERMINAL)
        return true;
    for (const uint8_t *a = first_action(at); action_here(w, a); a = next_action(a)) {
        unsigned least = state + 1;
        for (unsigned i = 0; i < successors(a); i++) {
            unsigned t = successor(a, i);
            if (t < least || t >= w->states)
                return false;
            least = w->whole ? t : t + 1;
        }
    }
    return true;
}

static bool value_good(const struct search *w, unsigned state)
{
    const uint8_t *at = state_at(w, state);
    uint32_t value = get32(value_of(w, state));
    if (at[0] == TERMINAL)
        return value <= get32(at + 3);
    for (const uint8_t *a = first_action(at); action_here(w, a); a = next_action(a))
        if (price(w, a) < value)
            return false;
    return true;
}

static bool mark_good(const struct search *w, unsigned state)
{
    const uint8_t *at = state_at(w, state);
    const uint8_t *value = value_of(w, state);
    if (value[4] == 0)
        return true;
    if (at[0] == TERMINAL)
        return get32(value) == get32(at + 3);
    const uint8_t *a = first_action(at);
    if (!action_here(w, a))
        return get32(value) == NONE;
    for (unsigned i = 0; i < value[5]; i++)
        a = next_action(a);
    for (unsigned i = 0; i < successors(a); i++)
        if (value_of(w, successor(a, i))[4] == 0)
            return false;
    return get32(value) == price(w, a);
}

static bool all_good(const struct search *w, bool (*good)(const struct search *, unsigned))
{
    for (unsigned state = 0; state < w->states; state++)
        if (!good(w, state))
            return false;
    return true;
}

static uint32_t refusal(struct search *w)
{
    if (w->length < 17 || w->length > 60000)
        return 2;
    if (!head_good(w))
        return 3;
    if (!states_good(w))
        return 4;
    if (!w->counts_good)
        return 10;
    if (!all_good(w, numbers_good))
        return 5;
    if (!all_good(w, order_good))
        return 6;
    if (!all_good(w, value_good))
        return 7;
    if (!all_good(w, mark_good))
        return 8;
    return w->budget < 1 ? 9 : 0;
}

/* The procedure. */

/* false where the budget has no room for the raise */
static bool update(struct search *w, unsigned state, uint32_t x)
{
    uint8_t *value = value_of(w, state);
    if (x > get32(value)) {
        if (w->raises == w->budget)
            return false;
        w->raises++;
        put32(value, x);
    }
    return true;
}

static enum visit visit(struct search *w, unsigned state);

/* A visit that raised nothing has changed no price, so only after others is the check priced anew. */
static enum visit visit_all(struct search *w, const uint8_t *action, uint32_t value)
{
    for (unsigned i = 0; i < successors(action); i++) {
        uint64_t before = w->raises;
        enum visit way = visit(w, successor(action, i));
        if (way != SUCCESS)
            return way;
        if (w->raises != before && price(w, action) > value)
            return FAILURE;
    }
    return SUCCESS;
}

static enum visit visit(struct search *w, unsigned state)
{
    uint8_t *at = state_at(w, state);
    uint8_t *cell = value_of(w, state);
    if (cell[4] == 1)
        return SUCCESS;
    if (at[0] == TERMINAL) {
        if (!update(w, state, get32(at + 3)))
            return HALT;
        cell[4] = 1;
        return SUCCESS;
    }
    uint32_t value = get32(cell);
    uint8_t number = 0;
    for (const uint8_t *a = first_action(at); action_here(w, a); a = next_action(a), number++) {
        if (price(w, a) > value)
            continue;
        enum visit way = visit_all(w, a, value);
        if (way == HALT)
            return HALT;
        if (way == SUCCESS) {
            cell[4] = 1;
            cell[5] = number;
            return SUCCESS;
        }
    }
    uint32_t least = NONE;
    for (const uint8_t *a = first_action(at); action_here(w, a); a = next_action(a)) {
        uint32_t x = price(w, a);
        if (x < least)
            least = x;
    }
    if (!update(w, state, least))
        return HALT;
    if (number > 0)
        return FAILURE;
    /* it has no checks */
    cell[4] = 1;
    cell[5] = 0;
    return SUCCESS;
}

/* The call. */

uint32_t plain_solve(uint8_t *sheet, size_t sheet_length, uint8_t *table, size_t table_length, uint64_t budget, uint8_t *result,
                     size_t result_length)
{
    if (result_length < 24)
        return 1;
    memset(result, 0, 24);
    if (table_length < 4 * MOST_STATES)
        return 1;
    memset(table, 0, table_length - table_length % 4);

    struct search w;
    w.bytes = sheet;
    w.length = sheet_length;
    w.budget = budget;
    w.raises = 0;
    uint32_t refused = refusal(&w);
    if (refused != 0)
        return refused;
    for (unsigned state = 0; state < w.states; state++)
        put_little(table + 4 * state, w.offsets[state], 4);

    uint64_t passes = 0;
    enum visit way;
    do {
        passes++;
        way = visit(&w, w.start);
    } while (way == FAILURE);

    uint32_t value = get32(value_of(&w, w.start));
    put_little(result, value, 8);
    put_little(result + 8, passes, 8);
    put_little(result + 16, w.raises, 8);
    if (way == HALT)
        return 102;
    return value < CEILING ? 100 : value == CEILING ? 101 : 103;
}
