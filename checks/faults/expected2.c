/* What a call on a form 2 roll must answer, by docs/02-change-requests.md alone; what the two forms share is in
 * expected.c. */
#include "faults.h"
#include <string.h>

enum { FORM_TWO = 16 };
enum fault fault;

/* How many prefactors a term may have. */
static uint64_t most_prefactors(xew_cursor cursor)
{
    return (uint64_t)cursor.l + (cursor.kind == 1);
}

/* Whether no term of the kind and L has the prefactors that stand as those of the term before. */
static bool forged_before(xew_cursor2 cursor)
{
    if (cursor.count > most_prefactors(cursor.cursor))
        return true;
    for (int i = 0; i < cursor.count; i++)
        if (cursor.earlier[i] >= table_size[cursor.cursor.kind])
            return true;
    return false;
}

/* Scale, Boys order, shared length, and the number of all prefactors. Answers 0, or the refusal where at stays. */
static uint8_t front(xew_cursor2 cursor, const uint8_t *roll, size_t length, size_t *at, xew_step2 *step, int *shared)
{
    bool has_boys = cursor.cursor.kind == 2 || cursor.cursor.kind == 4;
    uint64_t value;
    uint8_t bad = number(roll, length, at, 1, XEW_MOST_SCALE, &value);
    if (!bad) {
        step->scale = (uint32_t)value;
        bad = number(roll, length, at, 0, has_boys ? cursor.cursor.l : 0, &value);
    }
    if (!bad) {
        step->boys = (uint8_t)value;
        bad = number(roll, length, at, 0, cursor.count, &value);
        fault = bad == 7 ? SHARES_BEYOND : fault;
    }
    if (!bad) {
        *shared = (int)value;
        bad = number(roll, length, at, 0, most_prefactors(cursor.cursor) - value, &value);
        fault = bad == 7 ? TOO_MANY : fault;
    }
    step->count = (uint8_t)(bad ? 0 : *shared + (int)value);
    return bad;
}

/* The further prefactors, of which the first is not the one that follows in the term before. */
static uint8_t further(xew_cursor2 cursor, const uint8_t *roll, size_t length, size_t *at, xew_step2 *step, int shared)
{
    memcpy(step->prefactors, cursor.earlier, (size_t)shared);
    for (int i = shared; i < step->count; i++) {
        size_t begins = *at;
        uint64_t value;
        uint8_t bad = number(roll, length, at, 0, table_size[cursor.cursor.kind] - 1u, &value);
        if (!bad && i == shared && shared < cursor.count && value == cursor.earlier[shared]) {
            *at = begins;
            fault = NOT_THE_LONGEST;
            bad = 7;
        }
        if (bad)
            return bad;
        step->prefactors[i] = (uint8_t)value;
    }
    return 0;
}

xew_step2 expected_next2(xew_cursor2 cursor, const uint8_t *roll, size_t length)
{
    xew_step2 step = { 0 }, refused = { 0 };
    size_t at = cursor.cursor.place;
    int shared = 0;
    refused.refusal = 7;
    refused.place = at;
    fault = NO_FAULT;
    if (forged(cursor.cursor, length) || forged_before(cursor) || (cursor.cursor.left == 0 && at < length))
        return refused;
    if (cursor.cursor.left == 0) {
        step.found = 2;
        return step;
    }
    uint8_t bad = front(cursor, roll, length, &at, &step, &shared);
    if (!bad)
        bad = further(cursor, roll, length, &at, &step, shared);
    refused.place = at;
    refused.refusal = bad;
    if (bad)
        return refused;
    step.found = 1;
    step.next.cursor = cursor.cursor;
    step.next.cursor.place = at;
    step.next.cursor.left--;
    step.next.count = step.count;
    memcpy(step.next.earlier, step.prefactors, sizeof step.prefactors);
    return step;
}

xew_opened2 expected_open2(const uint8_t *roll, size_t length)
{
    xew_opened header = expected_header(roll, length, FORM_TWO);
    xew_opened2 opened = { .cursor = { .cursor = header.cursor }, .place = header.place, .refusal = header.refusal };
    memcpy(opened.orders, header.orders, sizeof opened.orders);
    return opened;
}

xew_opened2 expected_check2(const uint8_t *roll, size_t length)
{
    xew_opened2 opened = expected_open2(roll, length);
    fault = NO_FAULT;
    if (opened.refusal)
        return opened;
    xew_step2 step = { .next = opened.cursor, .found = 1 };
    while (step.found == 1)
        step = expected_next2(step.next, roll, length);
    if (step.found == 2)
        return opened;
    return (xew_opened2){ .place = step.place, .refusal = step.refusal };
}

size_t put(uint8_t *out, uint64_t number)
{
    size_t at = 0;
    for (; number >= 128; number /= 128)
        out[at++] = (uint8_t)(128 + number % 128);
    out[at++] = (uint8_t)number;
    return at;
}

size_t put_header(uint8_t *out, uint8_t first, xew_cursor cursor, const uint8_t *orders)
{
    size_t at = put(out, first + (uint64_t)cursor.kind);
    for (int i = 0; i < orders_used[cursor.kind]; i++)
        at += put(out + at, orders[i]);
    return at + put(out + at, cursor.left);
}

/* A term's prefactors from one on, as further ones. */
static size_t put_further(uint8_t *out, const xew_step *term, int from)
{
    size_t at = put(out, (uint64_t)(from < term->count ? term->count - from : 0));
    for (int i = from; i < term->count; i++)
        at += put(out + at, term->prefactors[i]);
    return at;
}

size_t in_form2(const uint8_t *roll, size_t length, uint8_t *out, uint32_t odd, int more)
{
    xew_opened opened = expected_open(roll, length);
    xew_step term = expected_next(opened.cursor, roll, length), before = { 0 };
    size_t at = put_header(out, FORM_TWO, opened.cursor, opened.orders);
    for (uint32_t i = 0; term.found == 1; i++) {
        int shared = 0;
        while (shared < term.count && shared < before.count && term.prefactors[shared] == before.prefactors[shared])
            shared++;
        shared = i != odd ? shared : shared + more < 0 ? 0 : shared + more;
        at += put(out + at, term.scale);
        at += put(out + at, term.boys);
        at += put(out + at, (uint64_t)shared);
        at += put_further(out + at, &term, shared);
        before = term;
        term = expected_next(term.next, roll, length);
    }
    return at;
}

size_t in_form1(const uint8_t *roll, size_t length, uint8_t *out)
{
    xew_opened2 opened = expected_open2(roll, length);
    xew_step2 term = expected_next2(opened.cursor, roll, length);
    size_t at = put_header(out, 0, opened.cursor.cursor, opened.orders);
    while (term.found == 1) {
        at += put(out + at, term.scale);
        at += put(out + at, term.boys);
        at += put(out + at, term.count);
        for (int i = 0; i < term.count; i++)
            at += put(out + at, term.prefactors[i]);
        term = expected_next2(term.next, roll, length);
    }
    return at;
}

bool begins_as_form2(const uint8_t *roll, size_t length)
{
    return length && roll[0] >= FORM_TWO && roll[0] < FORM_TWO + XEW_KINDS;
}

xew_opened2 as_opened2(xew_opened opened)
{
    xew_opened2 answer = { .cursor = { .cursor = opened.cursor }, .place = opened.place, .refusal = opened.refusal };
    memcpy(answer.orders, opened.orders, sizeof answer.orders);
    return answer;
}

xew_step2 as_step2(xew_step step)
{
    xew_step2 answer = { .next = { .cursor = step.next }, .place = step.place, .scale = step.scale, .boys = step.boys,
                         .count = step.count, .found = step.found, .refusal = step.refusal };
    memcpy(answer.prefactors, step.prefactors, sizeof answer.prefactors);
    return answer;
}
