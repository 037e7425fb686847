/* Calls on rolls. Each is made twice and held against expected.c and the header's promises. */
#include "tally.h"
#include <math.h>
#include <string.h>

bool same_cursor(xew_cursor a, xew_cursor b)
{
    return a.place == b.place && a.left == b.left && a.kind == b.kind && a.l == b.l;
}

bool same_opened(xew_opened a, xew_opened b)
{
    return same_cursor(a.cursor, b.cursor) && a.place == b.place && a.refusal == b.refusal
        && memcmp(a.orders, b.orders, sizeof a.orders) == 0;
}

static bool same_step(xew_step a, xew_step b)
{
    return same_cursor(a.next, b.next) && a.place == b.place && a.scale == b.scale && a.boys == b.boys
        && a.count == b.count && a.found == b.found && a.refusal == b.refusal
        && memcmp(a.prefactors, b.prefactors, sizeof a.prefactors) == 0;
}

/* An opening or a check, held to what documents 01 and 02 say of the roll. */
static xew_opened try_opening(enum function f, enum empty which, struct slice roll, xew_opened expected,
                              xew_opened (*called)(const uint8_t *roll, size_t roll_len))
{
    maybe_null(&roll, which);
    for (int again = 0; again < 2; again++) {
        BEGIN(f, "roll_len", roll.length);
        with_slice(&roll);
        xew_opened opened = called(roll.lent, roll.length);
        count(f, opened.refusal, again);
        hold(same_opened(opened, expected), "xew_open or xew_check: another answer than the documents'");
    }
    return expected;
}

xew_opened try_open(struct slice roll)
{
    return try_opening(OPEN, OPEN_ROLL, roll, expected_open(roll.mine, roll.length), xew_open);
}

xew_opened try_check(struct slice roll)
{
    return try_opening(CHECK, CHECK_ROLL, roll, expected_check(roll.mine, roll.length), xew_check);
}

static xew_step step(struct slice *roll, xew_cursor cursor)
{
    BEGIN(NEXT, "place left kind l roll_len", cursor.place, cursor.left, cursor.kind, cursor.l, roll->length);
    with_slice(roll);
    return xew_next(cursor, roll->lent, roll->length);
}

void try_next(struct slice roll, xew_cursor cursor)
{
    xew_step expected = expected_next(cursor, roll.mine, roll.length);
    maybe_null(&roll, NEXT_ROLL);
    for (int again = 0; again < 2; again++) {
        xew_step answer = step(&roll, cursor);
        count(NEXT, answer.refusal, again);
        hold(same_step(answer, expected), "xew_next: another answer than the documents'");
    }
    count_found(NEXT, expected.found);
}

/* Steps from the first term to the last: as many as the header says and then the end, or the place that check tells.
 * Answers a cursor from the way, or the first. */
xew_cursor step_through(struct slice roll, xew_opened opened, xew_opened checked)
{
    xew_step answer = { .next = opened.cursor, .found = 1 };
    xew_cursor on_the_way = opened.cursor;
    uint32_t terms = 0, stop = (uint32_t)below((uint64_t)opened.cursor.left + 1);
    for (;; terms++) {
        if (terms == stop)
            on_the_way = answer.next;
        answer = step(&roll, answer.next);
        further_calls++;
        if (answer.found != 1)
            break;
        hold(terms < opened.cursor.left, "more terms than the header says");
    }
    if (checked.refusal)
        hold(answer.found == 0 && answer.refusal == checked.refusal && answer.place == checked.place,
             "steps and check disagree");
    else
        hold(answer.found == 2 && answer.refusal == 0 && terms == opened.cursor.left, "the steps do not reach the end");
    return on_the_way;
}

uint64_t try_roll_total(struct slice roll, xew_opened checked)
{
    uint64_t sum = checked.refusal ? 0 : expected_scales(checked, roll.mine, roll.length);
    maybe_null(&roll, TOTAL_ROLL);
    for (int again = 0; again < 2; again++) {
        BEGIN(ROLL_TOTAL, "roll_len", roll.length);
        with_slice(&roll);
        xew_scales scales = xew_roll_total(roll.lent, roll.length);
        count(ROLL_TOTAL, scales.refusal, again);
        hold(scales.refusal == checked.refusal && scales.place == checked.place, "xew_roll_total: not check's refusal");
        hold(scales.total == sum, "xew_roll_total: another sum than of the terms");
    }
    return sum;
}

void any_numbers(xew_opened checked, struct numbers *numbers)
{
    size_t right = checked.cursor.kind == 2 || checked.cursor.kind == 4 ? checked.cursor.l + 1u : 0;
    any_centres(numbers->centres);
    any_floats(&numbers->aux, 1);
    numbers->length = right;
    if (once_in(5))
        numbers->length = (size_t[]){ 0, right + 1, right ? right - 1 : 1, below(40) }[below(4)];
    any_floats(numbers->boys, numbers->length);
}

/* A nuclear value is the charge times the one of charge 1, which is the integral itself. */
static void hold_charged(struct slice roll, const struct numbers *with, struct slice boys, xew_value value)
{
    const xew_centre *c = with->centres;
    xew_centre one = c[2];
    one.charge = 1;
    further_calls++;
    xew_value integral = xew_evaluate(roll.lent, roll.length, c[0], c[1], one, c[3], with->aux, boys.lent, boys.length);
    double product = (double)c[2].charge * integral.value;
    bool is_finite = !integral.refusal && isfinite(product);
    xew_value expected = { is_finite ? product : 0, 0, is_finite ? 0 : 11 };
    hold(integral.refusal == 0 || integral.refusal == 11, "xew_evaluate: another refusal with another charge");
    hold(same_value(value, expected), "xew_evaluate: not the charge times the integral");
}

void try_evaluate(struct slice roll, xew_opened checked)
{
    struct numbers with;
    any_numbers(checked, &with);
    xew_centre *c = with.centres;
    bool is_nuclear = checked.cursor.kind == 2;
    struct slice boys = lend_copy(&boys_arena, "boys", with.boys, with.length, sizeof(double));
    uint8_t expected = expected_value(checked, c, with.aux, with.boys, with.length);
    xew_value first = { 0 };
    maybe_null(&roll, EVALUATE_ROLL);
    maybe_null(&boys, EVALUATE_BOYS);
    for (int again = 0; again < 2; again++) {
        BEGIN(EVALUATE, "roll_len boys_len", roll.length, boys.length);
        with_slice(&roll);
        with_slice(&boys);
        with_centres(c, 4);
        with_aux(with.aux);
        xew_value value =
            xew_evaluate(roll.lent, roll.length, c[0], c[1], c[2], c[3], with.aux, boys.lent, boys.length);
        count(EVALUATE, value.refusal, again);
        hold(value.refusal == expected || (!expected && value.refusal == 11), "xew_evaluate: another refusal");
        hold(value.place == checked.place, "xew_evaluate: a place that is not check's");
        hold(value.refusal ? value.value == 0 : isfinite(value.value), "xew_evaluate: its value");
        hold(value.value != 0 || !signbit(value.value) || (is_nuclear && !value.refusal && c[2].charge == 0),
             "xew_evaluate: -0.0, which no sum from +0.0 is");
        hold(!again || same_value(first, value), "xew_evaluate: two answers");
        first = value;
        other_charges(c, is_nuclear ? 2 : 4);
    }
    if (is_nuclear && !expected)
        hold_charged(roll, &with, boys, first);
}

/* A roll that reads, cut at every place: 14 within the cut by every call that reads as far. It is lent from pages that
 * the library can't write. */
void try_cuts(const uint8_t *bytes, size_t length)
{
    xew_opened whole = expected_open(bytes, length);
    xew_cursor cursor = whole.cursor;
    for (size_t cut = 0; cut < length; cut++) {
        struct slice roll = lend_copy(&roll_arena, "roll", bytes, cut, 1);
        xew_opened opened = try_open(roll), checked = try_check(roll);
        hold(checked.refusal == 14 && checked.place <= cut, "a cut roll that is not 14 within the cut");
        hold(same_opened(opened, cut < whole.cursor.place ? checked : whole), "another header than the whole roll's");
        xew_step step = expected_next(cursor, bytes, cut);
        if (step.found == 1) {
            cursor = step.next;
            step = expected_next(cursor, bytes, cut);
        }
        try_next(roll, cursor);
        if (!opened.refusal)
            hold(step.refusal == 14 && step.place == checked.place, "a cut term that is not 14 where check says");
        try_evaluate(roll, checked);
        try_nuclear(roll, checked);
        try_contracted(roll, checked);
        try_evaluate_grouped(roll, checked);
        try_roll_total(roll, checked);
    }
}

/* The size of a request's roll: its terms are the histories counted apart from the library. */
static xew_written try_measure(const struct request *request)
{
    struct slice orders = lend_copy(&orders_arena, "orders", request->orders, XEW_ORDERS, 1);
    uint8_t kind = request->kind, refusal = expected_request(kind, request->orders);
    uint64_t histories = refusal ? 0 : expected_terms(kind, request->orders), terms = histories;
    if (histories > XEW_MOST_TERMS) {
        refusal = 4;
        terms = 0;
    }
    xew_written first = { 0 };
    for (int again = 0; again < 2; again++) {
        BEGIN(MEASURE, "kind", kind);
        with_slice(&orders);
        xew_written size = xew_measure(kind, orders.lent);
        count(MEASURE, size.refusal, again);
        hold(size.refusal == refusal && size.terms == terms, "xew_measure: another answer than the documents'");
        if (refusal)
            hold(size.length == 0, "xew_measure: a number beside a refusal");
        else
            hold(size.length <= longest_roll[kind], "xew_measure: longer than the longest");
        hold(!again || same_written(first, size), "xew_measure: two answers");
        first = size;
    }
    if (refusal == 4)
        count_histories(histories);
    return first;
}

/* The number by hand. */
static xew_total try_scale_total(const struct request *request)
{
    struct slice orders = lend_copy(&orders_arena, "orders", request->orders, XEW_ORDERS, 1);
    uint8_t kind = request->kind;
    xew_total expected = expected_total(kind, request->orders);
    for (int again = 0; again < 2; again++) {
        BEGIN(SCALE_TOTAL, "kind", kind);
        with_slice(&orders);
        xew_total total = xew_scale_total(kind, orders.lent);
        count(SCALE_TOTAL, total.refusal, again);
        hold(total.total == expected.total && total.claimed == expected.claimed && total.refusal == expected.refusal,
             "xew_scale_total: another answer than document 02's");
    }
    return expected;
}

/* An expansion, after its measuring, which it is held to. Answers the roll, lent again for reading. */
struct slice try_expand(const struct request *request, size_t length, size_t start)
{
    static uint8_t first_roll[MOST_BYTES];
    struct slice orders = lend_copy(&orders_arena, "orders", request->orders, XEW_ORDERS, 1);
    struct slice out = lend(&out_arena, "out", length, 1);
    uint8_t kind = request->kind, refusal = expected_request(kind, request->orders), byte = (uint8_t)bits();
    size_t room = start <= length ? length - start : 0;
    fill(&out, byte);
    xew_written expected = try_measure(request);
    xew_total total = try_scale_total(request);
    hold(untouched(&out, byte, 0, 0), "xew_measure: a byte changed");
    if (!refusal && start > length)
        refusal = 5;
    if (!refusal)
        refusal = expected.refusal;
    if (!refusal && expected.length > room)
        refusal = 6;
    if (refusal)
        expected = (xew_written){ 0, 0, refusal };
    maybe_null(&out, EXPAND_OUT);
    for (int again = 0; again < 2; again++) {
        byte = (uint8_t)bits();
        fill(&out, byte);
        BEGIN(EXPAND, "kind out_len start", kind, length, start);
        with_slice(&orders);
        with_slice(&out);
        xew_written w = xew_expand(kind, orders.lent, out.lent, length, start);
        count(EXPAND, w.refusal, again);
        hold(same_written(w, expected), "xew_expand: another answer than the documents' and xew_measure's");
        hold(untouched(&out, byte, refusal ? 0 : start, refusal ? 0 : start + w.length),
             "xew_expand: a byte changed beside the roll or a refusal");
        if (refusal)
            continue;
        const uint8_t *roll = (uint8_t *)out.mine + start;
        hold(!again || memcmp(first_roll, roll, w.length) == 0, "xew_expand: two rolls");
        memcpy(first_roll, roll, w.length);
        if (request->length > 0)
            hold(w.length == request->length, "xew_expand: another length than is known");
        if (request->roll)
            hold(!memcmp(roll, request->roll, w.length), "xew_expand: another roll than before");
    }
    struct slice roll = lend_copy(&roll_arena, "roll", first_roll, expected.length, 1);
    if (refusal)
        return roll;
    count_roll(expected);
    xew_opened checked = try_check(roll);
    hold(!checked.refusal && checked.cursor.kind == kind && checked.cursor.left == expected.terms
             && !memcmp(checked.orders, request->orders, XEW_ORDERS), "xew_expand: its roll does not read back");
    step_through(roll, checked, checked);
    uint64_t scales = try_roll_total(roll, checked);
    hold(!total.claimed || scales == total.total, "the scales do not add up to the number by hand");
    return roll;
}

