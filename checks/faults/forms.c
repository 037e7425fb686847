/* Calls on rolls of form 2, and moves between the forms. Each is made twice and held against expected2.c and the header's
 * promises. */
#include "tally.h"
#include <string.h>

static uint8_t written[MOST_BYTES], expected_bytes[MOST_BYTES];

bool same_cursor2(xew_cursor2 a, xew_cursor2 b)
{
    return same_cursor(a.cursor, b.cursor) && a.count == b.count && memcmp(a.earlier, b.earlier, sizeof a.earlier) == 0;
}

bool same_opened2(xew_opened2 a, xew_opened2 b)
{
    return same_cursor2(a.cursor, b.cursor) && a.place == b.place && a.refusal == b.refusal
        && memcmp(a.orders, b.orders, sizeof a.orders) == 0;
}

static bool same_step2(xew_step2 a, xew_step2 b)
{
    return same_cursor2(a.next, b.next) && a.place == b.place && a.scale == b.scale && a.boys == b.boys
        && a.count == b.count && a.found == b.found && a.refusal == b.refusal
        && memcmp(a.prefactors, b.prefactors, sizeof a.prefactors) == 0;
}

/* An opening or a check, held to what document 02 says of the roll. */
static xew_opened2 try_opening2(enum function f, enum empty which, struct slice roll, xew_opened2 expected,
                                xew_opened2 (*called)(const uint8_t *roll, size_t roll_len))
{
    maybe_null(&roll, which);
    for (int again = 0; again < 2; again++) {
        BEGIN(f, "roll_len", roll.length);
        with_slice(&roll);
        xew_opened2 opened = called(roll.lent, roll.length);
        count(f, opened.refusal, again);
        hold(same_opened2(opened, expected), "xew_open2 or xew_check2: another answer than the documents'");
    }
    return expected;
}

xew_opened2 try_open2(struct slice roll)
{
    return try_opening2(OPEN2, OPEN2_ROLL, roll, expected_open2(roll.mine, roll.length), xew_open2);
}

xew_opened2 try_check2(struct slice roll)
{
    xew_opened2 expected = expected_check2(roll.mine, roll.length);
    count_fault(fault);
    return try_opening2(CHECK2, CHECK2_ROLL, roll, expected, xew_check2);
}

static xew_step2 step2(struct slice *roll, xew_cursor2 cursor)
{
    struct slice earlier = { "earlier", cursor.earlier, cursor.earlier, XEW_PREFACTORS, 1, 0, 0 };
    BEGIN(NEXT2, "place left kind l count roll_len", cursor.cursor.place, cursor.cursor.left, cursor.cursor.kind,
          cursor.cursor.l, cursor.count, roll->length);
    with_slice(roll);
    with_slice(&earlier);
    xew_step2 step = xew_next2(cursor, roll->lent, roll->length);
    call.slice_count--; /* what the cursor holds is gone */
    return step;
}

void try_next2(struct slice roll, xew_cursor2 cursor)
{
    xew_step2 expected = expected_next2(cursor, roll.mine, roll.length);
    maybe_null(&roll, NEXT2_ROLL);
    for (int again = 0; again < 2; again++) {
        xew_step2 answer = step2(&roll, cursor);
        count(NEXT2, answer.refusal, again);
        hold(same_step2(answer, expected), "xew_next2: another answer than the documents'");
    }
    count_found(NEXT2, expected.found);
}

/* Steps from the first term to the last: as many as the header says and then the end, or the place that check2 tells.
 * Answers a cursor from the way, or the first. */
xew_cursor2 step_through2(struct slice roll, xew_opened2 opened, xew_opened2 checked)
{
    xew_step2 answer = { .next = opened.cursor, .found = 1 };
    xew_cursor2 on_the_way = opened.cursor;
    uint32_t terms = 0, left = opened.cursor.cursor.left, stop = (uint32_t)below((uint64_t)left + 1);
    for (;; terms++) {
        if (terms == stop)
            on_the_way = answer.next;
        answer = step2(&roll, answer.next);
        further_calls++;
        if (answer.found != 1)
            break;
        hold(terms < left, "more terms than the header says");
    }
    if (checked.refusal)
        hold(answer.found == 0 && answer.refusal == checked.refusal && answer.place == checked.place,
             "steps and check2 disagree");
    else
        hold(answer.found == 2 && answer.refusal == 0 && terms == left, "the steps do not reach the end");
    return on_the_way;
}

/* A roll that reads, cut at every place: 14 within the cut by every call that reads as far. */
void try_cuts2(const uint8_t *bytes, size_t length)
{
    xew_opened2 whole = expected_open2(bytes, length);
    xew_cursor2 cursor = whole.cursor;
    for (size_t cut = 0; cut < length; cut++) {
        struct slice roll = lend_copy(&roll_arena, "roll", bytes, cut, 1);
        xew_opened2 opened = try_open2(roll), checked = try_check2(roll);
        hold(checked.refusal == 14 && checked.place <= cut, "a cut roll that is not 14 within the cut");
        hold(same_opened2(opened, cut < whole.cursor.cursor.place ? checked : whole),
             "another header than the whole roll's");
        xew_step2 step = expected_next2(cursor, bytes, cut);
        if (step.found == 1)
            cursor = step.next;
        try_next2(roll, cursor);
        try_to_form1(roll, checked);
    }
}

struct move {
    enum function function;
    enum empty empty_roll, empty_out;
    xew_moved (*called)(const uint8_t *roll, size_t roll_len, uint8_t *out, size_t out_len, size_t start);
};
static const struct move to_form2 = { TO_FORM2, TO_FORM2_ROLL, TO_FORM2_OUT, xew_to_form2 };
static const struct move to_form1 = { TO_FORM1, TO_FORM1_ROLL, TO_FORM1_OUT, xew_to_form1 };

/* What a move answers: the refusal of reading, then 5 and 6, or what is written. */
static xew_moved moved(uint8_t refusal, size_t place, size_t need, uint32_t terms, size_t length, size_t start)
{
    if (refusal)
        return (xew_moved){ 0, place, 0, refusal };
    if (start > length || need > length - start)
        return (xew_moved){ 0, 0, 0, start > length ? 5 : 6 };
    return (xew_moved){ need, 0, terms, 0 };
}

/* The length of an output for so many bytes, and a start place in it. */
size_t any_output(size_t need, size_t *start)
{
    size_t length = (size_t[]){ need, need, need + below(80), need ? need - 1 : 0, below(need + 1), 0, 1 }[below(7)];
    *start = any_start(length, need);
    if (once_in(4)) {
        *start = below(100);
        length = *start + need + below(3);
    }
    return length;
}

/* A move of a roll into an output of any length. reading has the refusal of reading and its place, or the terms; need is
 * the length of what is expected. Answers how many bytes were written, which stand in written. */
static size_t try_move(const struct move *move, struct slice roll, xew_moved reading, size_t need)
{
    size_t start, length = any_output(need, &start);
    xew_moved expected = moved(reading.refusal, reading.place, need, reading.terms, length, start);
    struct slice out = lend(&out_arena, "out", length, 1);
    maybe_null(&roll, move->empty_roll);
    maybe_null(&out, move->empty_out);
    for (int again = 0; again < 2; again++) {
        uint8_t byte = (uint8_t)bits();
        fill(&out, byte);
        BEGIN(move->function, "roll_len out_len start", roll.length, length, start);
        with_slice(&roll);
        with_slice(&out);
        xew_moved m = move->called(roll.lent, roll.length, out.lent, length, start);
        count(move->function, m.refusal, again);
        hold(m.length == expected.length && m.place == expected.place && m.terms == expected.terms
                 && m.refusal == expected.refusal, "a move: another answer than document 02's");
        size_t from = m.refusal ? 0 : start;
        hold(untouched(&out, byte, from, from + m.length), "a move: a byte changed beside the roll or a refusal");
        hold(!memcmp((uint8_t *)out.mine + from, expected_bytes, m.length), "a move: another roll than document 02's");
        memcpy(written, (uint8_t *)out.mine + from, m.length);
    }
    return expected.length;
}

/* Moves what was written back, which gives the roll again. */
static void try_back(const struct move *back, struct slice roll, size_t length)
{
    static uint8_t before[MOST_BYTES];
    if (length == 0)
        return;
    memcpy(before, roll.mine, roll.length);
    struct slice again = lend_copy(&roll_arena, "roll", written, length, 1);
    struct slice out = lend(&out_arena, "out", roll.length, 1);
    BEGIN(back->function, "roll_len out_len start", again.length, out.length, 0);
    with_slice(&again);
    with_slice(&out);
    xew_moved m = back->called(again.lent, again.length, out.lent, out.length, 0);
    further_calls++;
    hold(!m.refusal && m.length == roll.length && !memcmp(out.mine, before, roll.length),
         "moving there and back does not return the same bytes");
    lend_copy(&roll_arena, "roll", before, roll.length, 1);
}

void try_to_form2(struct slice roll, xew_opened checked)
{
    size_t need = checked.refusal ? 0 : in_form2(roll.mine, roll.length, expected_bytes, UINT32_MAX, 0);
    hold(need <= roll.length + checked.cursor.left, "a form 2 roll of more bytes than the header tells to lend");
    xew_moved reading = { 0, checked.place, checked.cursor.left, checked.refusal };
    try_back(&to_form1, roll, try_move(&to_form2, roll, reading, need));
}

void try_to_form1(struct slice roll, xew_opened2 checked)
{
    xew_cursor cursor = checked.cursor.cursor;
    size_t need = checked.refusal ? 0 : in_form1(roll.mine, roll.length, expected_bytes);
    hold(need <= roll.length + (size_t)cursor.left * cursor.l,
         "a form 1 roll of more bytes than the header tells to lend");
    xew_moved reading = { 0, checked.place, cursor.left, checked.refusal };
    try_back(&to_form2, roll, try_move(&to_form1, roll, reading, need));
}

/* An expansion in form 2: xew_expand's roll, moved by document 02. */
void try_expand2(const struct request *request)
{
    static uint8_t form1[MOST_BYTES];
    struct slice orders = lend_copy(&orders_arena, "orders", request->orders, XEW_ORDERS, 1);
    uint8_t kind = request->kind, refusal = expected_request(kind, request->orders);
    xew_written plain = xew_expand(kind, &request->orders, form1, sizeof form1, 0);
    size_t need = plain.refusal ? 0 : in_form2(form1, plain.length, expected_bytes, UINT32_MAX, 0);
    hold(need <= plain.length + plain.terms, "a form 2 roll of more bytes than the header tells to lend");
    size_t start, length = any_output(need, &start);
    if (!refusal && start > length)
        refusal = 5;
    if (!refusal)
        refusal = plain.refusal ? plain.refusal : need > length - start ? 6 : 0;
    xew_written expected = { refusal ? 0 : need, refusal ? 0 : plain.terms, refusal };
    struct slice out = lend(&out_arena, "out", length, 1);
    maybe_null(&out, EXPAND2_OUT);
    for (int again = 0; again < 2; again++) {
        uint8_t byte = (uint8_t)bits();
        fill(&out, byte);
        BEGIN(EXPAND2, "kind out_len start", kind, length, start);
        with_slice(&orders);
        with_slice(&out);
        xew_written w = xew_expand2(kind, orders.lent, out.lent, length, start);
        count(EXPAND2, w.refusal, again);
        hold(same_written(w, expected), "xew_expand2: another answer than the documents' and xew_expand's");
        size_t from = w.refusal ? 0 : start;
        hold(untouched(&out, byte, from, from + w.length), "xew_expand2: a byte changed beside the roll or a refusal");
        hold(!memcmp((uint8_t *)out.mine + from, expected_bytes, w.length),
             "xew_expand2: another roll than xew_expand's");
    }
}
