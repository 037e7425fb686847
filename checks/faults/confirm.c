/* Calls that hold a roll to its request's expansion, and those of the small-cabinet profile, each made twice and held against
 * document 02. */
#include "tally.h"
#include <string.h>

enum { MOST_SMALL = 1 }; /* the order sum of a centre */
static uint8_t form1[MOST_BYTES], fresh[MOST_BYTES];

/* What form 2 answers, as form 1 does. */
static xew_opened as_opened(xew_opened2 opened)
{
    xew_opened answer = { .cursor = opened.cursor.cursor, .place = opened.place, .refusal = opened.refusal };
    memcpy(answer.orders, opened.orders, sizeof answer.orders);
    return answer;
}

/* A roll that reads, whose request is within the cap, beside the fresh one of its form. */
static xew_opened beside_fresh(xew_opened opened, const uint8_t *roll, size_t length)
{
    bool two = begins_as_form2(roll, length);
    size_t size = expected_expansion(opened.cursor.kind, opened.orders, two ? form1 : fresh), at = 0;
    if (two)
        size = in_form2(form1, size, fresh, UINT32_MAX, 0);
    while (at < length && at < size && roll[at] == fresh[at])
        at++;
    return at == length && at == size ? opened : (xew_opened){ .place = at, .refusal = 20 };
}

static xew_opened expected_confirm(const uint8_t *roll, size_t length)
{
    bool two = begins_as_form2(roll, length);
    xew_opened opened = two ? as_opened(expected_check2(roll, length)) : expected_check(roll, length);
    if (opened.refusal)
        return opened;
    if (expected_terms(opened.cursor.kind, opened.orders) > XEW_MOST_TERMS)
        return (xew_opened){ .refusal = 4 };
    return beside_fresh(opened, roll, length);
}

static bool in_profile(uint8_t kind, const uint8_t *orders)
{
    for (int i = 0; i < XEW_ORDERS; i += 3)
        if (orders[i] + orders[i + 1] + orders[i + 2] > MOST_SMALL)
            return false;
    return kind == 0 || kind == 4;
}

static xew_opened expected_small_check(const uint8_t *roll, size_t length)
{
    bool two = begins_as_form2(roll, length);
    xew_opened opened = two ? as_opened(expected_open2(roll, length)) : expected_open(roll, length);
    if (opened.refusal)
        return opened;
    if (two || !in_profile(opened.cursor.kind, opened.orders))
        return (xew_opened){ .refusal = 19 };
    opened = expected_check(roll, length);
    return opened.refusal ? opened : beside_fresh(opened, roll, length);
}

void try_confirm(struct slice roll)
{
    xew_opened expected = expected_confirm(roll.mine, roll.length);
    bool two = begins_as_form2(roll.mine, roll.length);
    maybe_null(&roll, CONFIRM_ROLL);
    for (int again = 0; again < 2; again++) {
        BEGIN(CONFIRM, "roll_len", roll.length);
        with_slice(&roll);
        xew_opened opened = xew_confirm(roll.lent, roll.length);
        count(CONFIRM, opened.refusal, again);
        hold(same_opened(opened, expected), "xew_confirm: another answer than document 02's");
    }
    count_confirmed(expected.refusal, two);
}

static void try_small_check(struct slice roll)
{
    xew_opened expected = expected_small_check(roll.mine, roll.length);
    maybe_null(&roll, SMALL_CHECK_ROLL);
    for (int again = 0; again < 2; again++) {
        BEGIN(SMALL_CHECK, "roll_len", roll.length);
        with_slice(&roll);
        xew_opened opened = xew_small_check(roll.lent, roll.length);
        count(SMALL_CHECK, opened.refusal, again);
        hold(same_opened(opened, expected), "xew_small_check: another answer than document 02's");
    }
}

static void try_small_expand(const struct request *request)
{
    uint8_t refusal = expected_request(request->kind, request->orders);
    if (!refusal && !in_profile(request->kind, request->orders))
        refusal = 19;
    size_t need = refusal ? 0 : expected_expansion(request->kind, request->orders, fresh), start;
    size_t length = any_output(need, &start);
    if (!refusal)
        refusal = start > length ? 5 : need > length - start ? 6 : 0;
    xew_written expected = { .refusal = refusal };
    if (!refusal)
        expected = (xew_written){ need, expected_open(fresh, need).cursor.left, 0 };
    struct slice orders = lend_copy(&orders_arena, "orders", request->orders, XEW_ORDERS, 1);
    struct slice out = lend(&out_arena, "out", length, 1);
    maybe_null(&out, SMALL_EXPAND_OUT);
    for (int again = 0; again < 2; again++) {
        uint8_t byte = (uint8_t)bits();
        fill(&out, byte);
        BEGIN(SMALL_EXPAND, "kind out_len start", request->kind, length, start);
        with_slice(&orders);
        with_slice(&out);
        xew_written w = xew_small_expand(request->kind, orders.lent, out.lent, length, start);
        count(SMALL_EXPAND, w.refusal, again);
        hold(same_written(w, expected), "xew_small_expand: another answer than document 02's");
        size_t from = w.refusal ? 0 : start;
        hold(untouched(&out, byte, from, from + w.length), "xew_small_expand: a byte changed beside the roll or a refusal");
        hold(!memcmp((uint8_t *)out.mine + from, fresh, w.length), "xew_small_expand: another roll than document 01's");
    }
    if (!expected.refusal)
        count_small(expected);
}

/* A part of a roll, put behind another; answers its bytes. */
static size_t part(uint8_t *out, const uint8_t *roll, size_t from, size_t to)
{
    memcpy(out, roll + from, to - from);
    return to - from;
}

/* A term of a form 1 roll, and the one behind it, which may be none: where each begins and ends, and where the first goes on
 * behind its scale. */
struct two_terms {
    size_t begins, behind, middle, ends;
    uint64_t scale, next_scale;
};

static struct two_terms any_two(xew_opened opened, const uint8_t *roll, size_t length)
{
    struct two_terms two = { 0 };
    xew_step term = { .next = opened.cursor };
    for (uint64_t which = below(opened.cursor.left) + 1; which > 0; which--) {
        two.begins = term.next.place;
        term = expected_next(term.next, roll, length);
    }
    xew_step next = expected_next(term.next, roll, length);
    uint64_t scale;
    two.behind = two.begins;
    number(roll, length, &two.behind, 1, UINT32_MAX, &scale);
    two.middle = term.next.place;
    two.ends = next.found == 1 ? next.next.place : two.middle;
    two.scale = term.scale;
    two.next_scale = next.scale;
    return two;
}

/* Changes one or two terms of a form 1 roll that reads, whole, and mostly its count with them, so that it reads still. Answers
 * its length then. */
static size_t other_terms(uint8_t *roll, size_t length)
{
    enum { DOUBLED, LOST, MERGED, PARTED, SCALED, EXCHANGED, CHANGES };
    static uint8_t old[MOST_BYTES];
    memcpy(old, roll, length);
    xew_opened opened = expected_open(old, length);
    struct two_terms two = any_two(opened, old, length);
    uint64_t change = below(CHANGES), first = two.scale;
    change = change == PARTED && first == 1 ? SCALED : change;
    first = change == MERGED ? first + two.next_scale : change == SCALED ? first + 1 : change == PARTED ? first - 1 : first;
    bool twice = change == DOUBLED || change == PARTED, fewer = change == LOST || change == MERGED;
    xew_cursor cursor = opened.cursor;
    cursor.left += once_in(8) ? 0 : (uint32_t)(twice - fewer);
    size_t at = put_header(roll, 0, cursor, opened.orders);
    at += part(roll + at, old, opened.cursor.place, two.begins);
    if (change == EXCHANGED)
        at += part(roll + at, old, two.middle, two.ends);
    for (int copies = change == LOST ? 0 : 1 + twice; copies > 0; copies--) {
        at += put(roll + at, change == PARTED && copies == 1 ? 1 : first);
        at += part(roll + at, old, two.behind, two.middle);
    }
    if (change != EXCHANGED && change != MERGED)
        at += part(roll + at, old, two.middle, two.ends);
    return at + part(roll + at, old, two.ends, length);
}

/* A roll that reads, of a request with more histories than a list may have terms. Answers its length. */
static size_t too_many(uint8_t *out)
{
    const struct request *request = &over[below(OVER)];
    xew_cursor cursor = { .kind = request->kind, .left = 1 + (uint32_t)below(3) };
    size_t at = put_header(out, 0, cursor, request->orders);
    for (uint32_t i = 0; i < cursor.left; i++)
        at += part(out + at, (const uint8_t[]){ 1, 0, 1, 4 }, 0, 4);
    return at;
}

/* An expansion as it is, in either form, or with other terms, bytes or count. */
void play_confirm(uint8_t *bytes)
{
    const struct request *known = known_request();
    size_t length = known->length;
    memcpy(bytes, known->roll, length);
    if (once_in(12))
        length = too_many(bytes);
    else
        for (uint64_t times = below(3); times > 0 && !expected_check(bytes, length).refusal; times--)
            length = other_terms(bytes, length);
    if (once_in(2) && !expected_check(bytes, length).refusal) {
        memcpy(form1, bytes, length);
        length = in_form2(form1, length, bytes, UINT32_MAX, 0);
    }
    if (once_in(8))
        length = mutated(bytes, length);
    try_confirm(lend_copy(&roll_arena, "roll", bytes, length, 1));
}

/* A request of the profile; now and then with one order more somewhere, or of another kind. */
static void small_request(struct request *request)
{
    memset(request, 0, sizeof *request);
    request->kind = once_in(4) ? 0 : 4;
    bool along_one = once_in(4);
    uint64_t axis = below(3);
    for (int i = 0; i < orders_used[request->kind]; i += 3)
        if (along_one || !once_in(4))
            request->orders[i + (int)(along_one ? axis : below(3))] = 1;
    if (once_in(8))
        request->orders[below(XEW_ORDERS)]++;
    if (once_in(8))
        request->kind = (uint8_t)below(6);
    if (once_in(40))
        any_request(request);
}

void play_small(uint8_t *bytes)
{
    struct request request;
    for (int i = 0; i < 6; i++) {
        small_request(&request);
        try_small_expand(&request);
        if (expected_request(request.kind, request.orders) || expected_terms(request.kind, request.orders) > 1000)
            continue;
        size_t length = expected_expansion(request.kind, request.orders, bytes);
        if (once_in(3))
            length = other_terms(bytes, length);
        if (once_in(8) && !expected_check(bytes, length).refusal) {
            memcpy(form1, bytes, length);
            length = in_form2(form1, length, bytes, UINT32_MAX, 0);
        }
        if (once_in(3))
            length = mutated(bytes, length);
        try_small_check(lend_copy(&roll_arena, "roll", bytes, length, 1));
    }
    size_t length = once_in(2) ? any_roll(bytes) : any_roll2(bytes);
    try_small_check(lend_copy(&roll_arena, "roll", bytes, length, 1));
}
