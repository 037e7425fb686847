/* Calls on two rolls of either form beside each other, each made twice and held against document 02. */
#include "tally.h"
#include <string.h>

static uint8_t other[MOST_BYTES];

static xew_opened2 judged(struct slice roll)
{
    if (begins_as_form2(roll.mine, roll.length))
        return expected_check2(roll.mine, roll.length);
    return as_opened2(expected_check(roll.mine, roll.length));
}

static xew_step2 step(struct slice roll, xew_cursor2 at)
{
    if (begins_as_form2(roll.mine, roll.length))
        return expected_next2(at, roll.mine, roll.length);
    return as_step2(expected_next(at.cursor, roll.mine, roll.length));
}

static xew_term term(xew_step2 step)
{
    xew_term answer = { step.scale, step.boys, step.count, { 0 } };
    memcpy(answer.prefactors, step.prefactors, sizeof answer.prefactors);
    return answer;
}

static bool same_term(xew_term a, xew_term b)
{
    return a.scale == b.scale && a.boys == b.boys && a.count == b.count
        && !memcmp(a.prefactors, b.prefactors, sizeof a.prefactors);
}

static bool same_pair(xew_pair a, xew_pair b)
{
    return same_cursor2(a.left, b.left) && same_cursor2(a.right, b.right) && a.number == b.number;
}

/* The next position that differs. */
static xew_met expected_met(xew_pair at, struct slice left, struct slice right)
{
    for (;;) {
        xew_step2 l = step(left, at.left), r = step(right, at.right);
        if (!l.found || !r.found) {
            xew_step2 refused = l.found ? r : l;
            return (xew_met){ .place = refused.place, .side = l.found ? 2 : 1, .refusal = refused.refusal };
        }
        if (l.found == 2 && r.found == 2)
            return (xew_met){ .found = 4 };
        xew_met met = { .number = at.number, .found = l.found == 2 ? 3 : r.found == 2 ? 2 : 1 };
        if (l.found == 1) {
            met.left = term(l);
            at.left = l.next;
        }
        if (r.found == 1) {
            met.right = term(r);
            at.right = r.next;
        }
        at.number += at.number <= XEW_MOST_TERMS;
        met.next = at;
        if (met.found != 1 || !same_term(met.left, met.right))
            return met;
    }
}

static bool same_met(xew_met a, xew_met b)
{
    return same_pair(a.next, b.next) && a.place == b.place && a.number == b.number && same_term(a.left, b.left)
        && same_term(a.right, b.right) && a.found == b.found && a.side == b.side && a.refusal == b.refusal;
}

static xew_met try_compare_next(struct slice left, struct slice right, xew_pair cursor)
{
    xew_met expected = expected_met(cursor, left, right);
    maybe_null(&left, COMPARE_NEXT_LEFT);
    maybe_null(&right, COMPARE_NEXT_RIGHT);
    for (int again = 0; again < 2; again++) {
        BEGIN(COMPARE_NEXT, "number left_len right_len", cursor.number, left.length, right.length);
        with_slice(&left);
        with_slice(&right);
        xew_met met = xew_compare_next(cursor, left.lent, left.length, right.lent, right.length);
        count(COMPARE_NEXT, met.refusal, again);
        hold(same_met(met, expected), "xew_compare_next: another answer than document 02's");
    }
    count_met(expected.found);
    return expected;
}

/* What a comparison answers, but for the number of positions that differ. */
static xew_compared expected_compare(struct slice left, struct slice right)
{
    xew_opened2 l = judged(left), r = l.refusal ? l : judged(right);
    if (r.refusal)
        return (xew_compared){ .place = r.place, .side = l.refusal ? 1 : 2, .refusal = r.refusal };
    xew_cursor a = l.cursor.cursor, b = r.cursor.cursor;
    size_t used = orders_used[a.kind];
    xew_compared answer = { .cursor = { l.cursor, r.cursor, 1 }, .kinds = a.kind != b.kind, .terms = a.left != b.left };
    answer.orders = used != orders_used[b.kind] || memcmp(l.orders, r.orders, used);
    memcpy(answer.left, l.orders, sizeof answer.left);
    memcpy(answer.right, r.orders, sizeof answer.right);
    return answer;
}

static bool same_compared(xew_compared a, xew_compared b)
{
    return same_pair(a.cursor, b.cursor) && a.place == b.place && a.differ == b.differ && a.kinds == b.kinds
        && a.orders == b.orders && a.terms == b.terms && a.side == b.side && a.refusal == b.refusal
        && !memcmp(a.left, b.left, sizeof a.left) && !memcmp(a.right, b.right, sizeof a.right);
}

/* A comparison, and its steps to the end, of which there are as many as it says. */
static void try_compare(struct slice left, struct slice right)
{
    xew_compared expected = expected_compare(left, right);
    xew_pair at = expected.cursor;
    for (xew_met met; !expected.refusal && (met = expected_met(at, left, right)).found != 4; at = met.next)
        expected.differ++;
    struct slice l = left, r = right;
    maybe_null(&l, COMPARE_LEFT);
    maybe_null(&r, COMPARE_RIGHT);
    for (int again = 0; again < 2; again++) {
        BEGIN(COMPARE, "left_len right_len", l.length, r.length);
        with_slice(&l);
        with_slice(&r);
        xew_compared compared = xew_compare(l.lent, l.length, r.lent, r.length);
        count(COMPARE, compared.refusal, again);
        hold(same_compared(compared, expected), "xew_compare: another answer than document 02's");
    }
    at = expected.cursor;
    for (uint32_t stop = (uint32_t)below(4); stop > 0 && !expected.refusal; stop--) {
        xew_met met = try_compare_next(left, right, at);
        if (met.found != 4)
            at = met.next;
    }
    if (once_in(3)) { /* a forged cursor */
        at.left = any_cursor2(at.left, left.length);
        at.right = once_in(2) ? any_cursor2(at.right, right.length) : at.right;
        at.number = once_in(3) ? (uint32_t)bits() : at.number;
        try_compare_next(left, right, at);
    }
}

/* A roll of either form beside another, or beside itself, changed, cut or in the other form. */
void play_compare(uint8_t *bytes)
{
    bool two = once_in(2), turned = once_in(2);
    size_t length = two ? any_roll2(bytes) : any_roll(bytes), beside = length;
    memcpy(other, bytes, length);
    xew_opened form1 = two ? (xew_opened){ .refusal = 7 } : expected_check(bytes, length);
    switch (below(5)) {
    case 0:
        beside = once_in(2) ? any_roll(other) : any_roll2(other);
        break;
    case 1:
        if (length)
            other[below(length)] ^= 1u << below(8);
        break;
    case 2:
        beside = below(length + 1);
        break;
    case 3:
        if (!form1.refusal)
            beside = in_form2(bytes, length, other, UINT32_MAX, 0);
        break;
    }
    struct slice a = lend_copy(&roll_arena, "left", turned ? other : bytes, turned ? beside : length, 1);
    struct slice b = lend_copy(&right_arena, "right", turned ? bytes : other, turned ? length : beside, 1);
    try_compare(a, b);
}
