/* Calls that lay a roll's terms out by Boys order, and that ask a grouping for its terms. Each is made twice and held
 * against expected_grouping.c and the header's promises. */
#include "tally.h"
#include <math.h>
#include <string.h>

static uint8_t expected_bytes[MOST_BUFFER], laid[MOST_BUFFER]; /* what should be laid, and what was */

/* The length of a buffer: what a Coulomb roll needs, which for other kinds may be anything. */
static size_t any_buffer(xew_opened checked)
{
    size_t least = (size_t)XEW_ENTRY * checked.cursor.left, less = least ? least - 1 : 0;
    if (checked.cursor.kind != 4)
        return (size_t[]){ 0, 1, below(100), less < 4000 ? less : 4000 }[below(4)];
    return (size_t[]){ least, least, least, least, least + 1 + below(500), less, below(least), 0 }[below(8)];
}

/* The evaluation without a buffer. */
static xew_value plain_value(struct slice roll, const struct numbers *with, struct slice boys)
{
    const xew_centre *c = with->centres;
    BEGIN(EVALUATE, "roll_len boys_len", roll.length, boys.length);
    with_slice(&roll);
    with_slice(&boys);
    with_centres(c, 4);
    with_aux(with->aux);
    further_calls++;
    return xew_evaluate(roll.lent, roll.length, c[0], c[1], c[2], c[3], with->aux, boys.lent, boys.length);
}

size_t try_evaluate_grouped(struct slice roll, xew_opened checked)
{
    struct numbers with;
    any_numbers(checked, &with);
    xew_centre *c = with.centres;
    struct slice boys = lend_copy(&boys_arena, "boys", with.boys, with.length, sizeof(double));
    struct slice buffer = lend(&buffer_arena, "buffer", any_buffer(checked), 1);
    bool is_grouped = !checked.refusal && checked.cursor.kind == 4;
    bool has_room = buffer.length >= (size_t)XEW_ENTRY * checked.cursor.left;
    size_t size = is_grouped && has_room ? expected_grouping(checked, roll.mine, roll.length, expected_bytes) : 0;
    uint8_t expected = is_grouped && !has_room ? 6 : expected_value(checked, c, with.aux, with.boys, with.length);
    maybe_null(&roll, GROUPED_ROLL);
    maybe_null(&boys, GROUPED_BOYS);
    maybe_null(&buffer, GROUPED_BUFFER);
    xew_value plain = plain_value(roll, &with, boys);
    hold(size <= buffer.length, "a grouping of more bytes than the header tells to lend");
    for (int again = 0; again < 2; again++) {
        uint8_t byte = (uint8_t)bits();
        fill(&buffer, byte);
        BEGIN(EVALUATE_GROUPED, "roll_len boys_len buffer_len", roll.length, boys.length, buffer.length);
        with_slice(&roll);
        with_slice(&boys);
        with_slice(&buffer);
        with_centres(c, 4);
        with_aux(with.aux);
        xew_value value = xew_evaluate_grouped(roll.lent, roll.length, c[0], c[1], c[2], c[3], with.aux, boys.lent,
                                               boys.length, buffer.lent, buffer.length);
        count(EVALUATE_GROUPED, value.refusal, again);
        hold(value.refusal == expected || (!expected && value.refusal == 11), "xew_evaluate_grouped: another refusal");
        if (expected == 6)
            hold(value.place == 0 && value.value == 0 && !signbit(value.value), "xew_evaluate_grouped: beside a 6");
        else
            hold(same_value(value, plain), "xew_evaluate_grouped: another answer than xew_evaluate's");
        hold(untouched(&buffer, byte, 0, size), "xew_evaluate_grouped: a byte changed behind the grouping");
        hold(!memcmp(buffer.mine, expected_bytes, size), "xew_evaluate_grouped: another grouping than document 02's");
        other_charges(c, checked.cursor.kind == 2 ? 2 : 4);
    }
    if (size > 0)
        count_left(plain.refusal);
    memcpy(laid, buffer.mine, size);
    return size;
}

static xew_restored ask(const struct slice *grouping, struct asked asked)
{
    BEGIN(GROUPED_TERM, "l terms number grouping_len", asked.l, asked.terms, asked.number, grouping->length);
    with_slice(grouping);
    return xew_grouped_term(grouping->lent, grouping->length, asked.l, asked.terms, asked.number);
}

static bool same_restored(xew_restored a, xew_restored b)
{
    return a.place == b.place && a.scale == b.scale && a.boys == b.boys && a.count == b.count && a.refusal == b.refusal
        && memcmp(a.prefactors, b.prefactors, sizeof a.prefactors) == 0;
}

/* A grouping of the roll asked for the roll's terms one after the other: all of them, or some where there are many,
 * since each call goes through the whole grouping. */
static void restore(struct slice roll, xew_opened checked, struct slice grouping)
{
    xew_cursor cursor = checked.cursor;
    struct asked asked = { cursor.l, cursor.left, 1 };
    for (; asked.number <= asked.terms; asked.number++) {
        xew_step term = xew_next(cursor, roll.lent, roll.length);
        cursor = term.next;
        if (asked.terms > 100 && asked.number > 1 && asked.number < asked.terms && below(asked.terms) > 2)
            continue;
        xew_restored expected = { .scale = term.scale, .boys = term.boys, .count = term.count };
        memcpy(expected.prefactors, term.prefactors, sizeof expected.prefactors);
        further_calls++;
        hold(same_restored(ask(&grouping, asked), expected), "xew_grouped_term: another term than the roll's");
    }
}

/* A grouping that may be anything. */
static void try_grouped_term(const uint8_t *bytes, size_t length, struct asked asked)
{
    struct slice grouping = lend_copy(&grouping_arena, "grouping", bytes, length, 1);
    xew_restored expected = expected_grouped_term(bytes, length, asked);
    count_disorder(disorder);
    maybe_null(&grouping, GROUPING);
    for (int again = 0; again < 2; again++) {
        xew_restored answer = ask(&grouping, asked);
        count(GROUPED_TERM, answer.refusal, again);
        hold(same_restored(answer, expected), "xew_grouped_term: another answer than document 02's");
    }
}

void try_grouping(struct slice roll, xew_opened checked)
{
    static uint8_t forged[MOST_BUFFER];
    size_t size = try_evaluate_grouped(roll, checked);
    if (size == 0)
        return;
    restore(roll, checked, lend_copy(&grouping_arena, "grouping", laid, size, 1));
    for (int i = 0; i < 6; i++) {
        struct asked asked = { checked.cursor.l, checked.cursor.left, 1 };
        memcpy(forged, laid, size);
        size_t length = any_grouping(forged, size, &asked);
        try_grouped_term(forged, length, asked);
    }
}
