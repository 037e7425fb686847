/* Calls on damaged rolls of either form, each made twice and held against document 02. */
#include "tally.h"
#include <string.h>

enum { FORM_TWO = 16 };
static uint8_t form1[MOST_BYTES], fresh[MOST_BYTES];

static xew_opened2 header(bool two, const uint8_t *roll, size_t length)
{
    return two ? expected_open2(roll, length) : as_opened2(expected_open(roll, length));
}

/* The next term, whatever the count says. */
static xew_step2 term(bool two, xew_cursor2 cursor, const uint8_t *roll, size_t length)
{
    cursor.cursor.left = 1;
    return two ? expected_next2(cursor, roll, length) : as_step2(expected_next(cursor.cursor, roll, length));
}

static bool same_term(xew_step2 a, xew_step2 b)
{
    return a.found == 1 && b.found == 1 && a.scale == b.scale && a.boys == b.boys && a.count == b.count
        && !memcmp(a.prefactors, b.prefactors, sizeof a.prefactors);
}

/* What is told of a damaged roll whose header reads, beside the fresh one of so many bytes and terms. */
static xew_salvaged compared(bool two, xew_opened2 opened, struct slice roll, xew_written written)
{
    xew_salvaged told = { .length = written.length, .terms = written.terms };
    xew_cursor2 at = opened.cursor, beside = header(two, fresh, written.length).cursor;
    for (; told.kept < told.terms; told.kept++) {
        xew_step2 found = term(two, at, roll.mine, roll.length), right = term(two, beside, fresh, written.length);
        if (!same_term(found, right))
            break;
        at = found.next;
        beside = right.next;
    }
    told.anew = told.terms - told.kept;
    told.miscounted = opened.cursor.cursor.left != told.terms;
    told.after = told.anew ? 0 : at.cursor.place == roll.length ? 1 : 2;
    return told;
}

/* The fresh roll of a header that reads, in fresh: xew_expand's, moved by document 02 where the form is 2. */
static xew_written worked_out(bool two, xew_opened2 opened)
{
    const uint8_t(*orders)[XEW_ORDERS] = (const uint8_t(*)[XEW_ORDERS])opened.orders;
    xew_written written = xew_expand(opened.cursor.cursor.kind, orders, form1, sizeof form1, 0);
    if (!written.refusal && two)
        written.length = in_form2(form1, written.length, fresh, UINT32_MAX, 0);
    else
        memcpy(fresh, form1, written.length);
    return written;
}

static bool same_salvaged(xew_salvaged a, xew_salvaged b)
{
    return a.length == b.length && a.place == b.place && a.terms == b.terms && a.kept == b.kept && a.anew == b.anew
        && a.miscounted == b.miscounted && a.after == b.after && a.refusal == b.refusal;
}

void try_salvage(struct slice roll)
{
    bool two = begins_as_form2(roll.mine, roll.length);
    xew_opened2 opened = header(two, roll.mine, roll.length);
    xew_written written = opened.refusal ? (xew_written){ .refusal = 0 } : worked_out(two, opened);
    size_t start, length = any_output(written.length, &start);
    uint8_t refusal = start > length ? 5 : written.refusal ? written.refusal : written.length > length - start ? 6 : 0;
    xew_salvaged expected = { .refusal = refusal };
    if (opened.refusal)
        expected = (xew_salvaged){ .place = opened.place, .refusal = opened.refusal };
    else if (!refusal)
        expected = compared(two, opened, roll, written);
    struct slice out = lend(&out_arena, "out", length, 1);
    maybe_null(&roll, SALVAGE_ROLL);
    maybe_null(&out, SALVAGE_OUT);
    for (int again = 0; again < 2; again++) {
        uint8_t byte = (uint8_t)bits();
        fill(&out, byte);
        BEGIN(SALVAGE, "roll_len out_len start", roll.length, length, start);
        with_slice(&roll);
        with_slice(&out);
        xew_salvaged s = xew_salvage(roll.lent, roll.length, out.lent, length, start);
        count(SALVAGE, s.refusal, again);
        hold(same_salvaged(s, expected), "xew_salvage: another answer than document 02's");
        size_t from = s.refusal ? 0 : start;
        hold(untouched(&out, byte, from, from + s.length), "xew_salvage: a byte changed beside the roll or a refusal");
        hold(!memcmp((uint8_t *)out.mine + from, fresh, s.length), "xew_salvage: another roll than the fresh one");
    }
    if (!expected.refusal)
        count_salvaged(expected);
}

/* Moves the bytes from one place on to another. Answers the length then. */
static size_t shifted(uint8_t *roll, size_t length, size_t from, size_t to)
{
    memmove(roll + to, roll + from, length - from);
    return length - from + to;
}

/* Damages a roll of either form behind a header of so many bytes, of which the last are the count. Answers its length then. */
static size_t damaged(uint8_t *roll, size_t length, size_t head, uint32_t terms)
{
    size_t behind = length - head, at = head + below(behind), some = 1 + below(behind < 30 ? behind : 30), from = at;
    uint8_t count[8];
    switch (below(7)) {
    case 0: /* cut */
        return at;
    case 1: /* bytes lost */
        return shifted(roll, length, at + some < length ? at + some : length, at);
    case 2: /* a byte changed */
        roll[at] = (uint8_t)(once_in(2) ? roll[at] ^ 1u << below(8) : below(4));
        return length;
    case 3: /* bytes doubled */
        return shifted(roll, length, at, at + some);
    case 4: /* bytes after */
        for (size_t i = 0; i < some; i++)
            roll[length + i] = (uint8_t)bits();
        return length + some;
    case 5: /* another count */
        from = put(count, once_in(2) ? 1 + below(terms) : terms + below(3));
        at = head;
        for (head--; head > 1 && roll[head - 1] & 128;)
            head--;
        length = shifted(roll, length, at, head + from);
        memcpy(roll + head, count, from);
        return length;
    default:
        return length;
    }
}

/* The header of a request with more histories than a list may have terms, and any bytes. Answers its length. */
static size_t too_many(uint8_t *out, bool two)
{
    const struct request *request = &over[below(OVER)];
    size_t length = orders_used[request->kind] + 1u;
    out[0] = (uint8_t)(request->kind + (two ? FORM_TWO : 0));
    memcpy(out + 1, request->orders, length - 1);
    length += put(out + length, 1 + below(XEW_MOST_TERMS));
    for (uint64_t more = below(9); more > 0; more--)
        out[length++] = (uint8_t)below(4);
    return length;
}

void play_salvage(uint8_t *bytes)
{
    const struct request *known = known_request();
    bool two = once_in(2);
    if (once_in(12)) {
        try_salvage(lend_copy(&roll_arena, "roll", bytes, too_many(bytes, two), 1));
        return;
    }
    size_t length = known->length;
    memcpy(bytes, known->roll, length);
    if (two)
        length = in_form2(known->roll, known->length, bytes, UINT32_MAX, 0);
    xew_opened2 opened = header(two, bytes, length);
    for (uint64_t times = below(3); times > 0 && length > opened.cursor.cursor.place; times--)
        length = damaged(bytes, length, opened.cursor.cursor.place, opened.cursor.cursor.left);
    try_salvage(lend_copy(&roll_arena, "roll", bytes, length, 1));
}
