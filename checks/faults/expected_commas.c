/* The text of a roll and the roll of a text, by docs/02-change-requests.md alone; the reader's limits are those of
 * expected.c. */
#include "faults.h"
#include <string.h>

enum text_fault text_fault;

static size_t put_decimal(uint8_t *out, uint64_t number)
{
    size_t digits = 1, at;
    for (uint64_t rest = number; rest >= 10; rest /= 10)
        digits++;
    for (at = digits; at > 0; number /= 10)
        out[--at] = (uint8_t)('0' + number % 10);
    return digits;
}

size_t expected_text(const uint8_t *roll, size_t length, uint8_t *out)
{
    xew_opened opened = expected_open(roll, length);
    size_t at = put_decimal(out, opened.cursor.kind);
    for (int i = 0; i < orders_used[opened.cursor.kind]; i++) {
        out[at++] = ',';
        at += put_decimal(out + at, opened.orders[i]);
    }
    out[at++] = ',';
    at += put_decimal(out + at, opened.cursor.left);
    out[at++] = '\n';
    xew_step term = expected_next(opened.cursor, roll, length);
    for (; term.found == 1; term = expected_next(term.next, roll, length)) {
        at += put_decimal(out + at, term.scale);
        out[at++] = ',';
        at += put_decimal(out + at, term.boys);
        for (int i = 0; i < term.count; i++) {
            out[at++] = ',';
            at += put_decimal(out + at, term.prefactors[i]);
        }
        out[at++] = '\n';
    }
    return at;
}

/* The numbers of a line: how many, and the first of them; one too large is UINT64_MAX. */
enum { KEPT = 32 };
struct line {
    uint64_t count, numbers[KEPT];
};

/* Digits without a leading zero, with what follows them: the place of that, or 0 where there is no number. */
static size_t one_number(const uint8_t *text, size_t length, size_t at, uint64_t *number)
{
    size_t begins = at;
    *number = 0;
    for (; at < length && text[at] >= '0' && text[at] <= '9'; at++)
        *number = *number > UINT64_MAX / 10 - 1 ? UINT64_MAX : 10 * *number + (uint64_t)(text[at] - '0');
    bool leading = at > begins + 1 && text[begins] == '0';
    return at == begins || leading ? 0 : at;
}

/* Reads a line and its line feed and moves on; false where it is not numbers with single commas between them. */
static bool read_line(const uint8_t *text, size_t length, size_t *at, struct line *line)
{
    for (line->count = 0;; ++*at) {
        uint64_t number;
        *at = one_number(text, length, *at, &number);
        if (*at == 0)
            return false;
        if (line->count < KEPT)
            line->numbers[line->count] = number;
        line->count++;
        if (*at == length || (text[*at] != ',' && text[*at] != '\n'))
            return false;
        if (text[*at] == '\n') {
            ++*at;
            return true;
        }
    }
}

/* Whether the first line is of the limits and has as many orders as its kind uses. */
static bool head_matches(const struct line *line, xew_cursor *cursor, uint8_t *orders)
{
    uint64_t kind = line->numbers[0], count = line->numbers[line->count - 1], sum = 0;
    if (kind > 4 || line->count != orders_used[kind] + 2u || count < 1 || count > XEW_MOST_TERMS)
        return false;
    *cursor = (xew_cursor){ .kind = (uint8_t)kind, .left = (uint32_t)count };
    for (int i = 0; i < orders_used[kind]; i++) {
        uint64_t order = line->numbers[1 + i];
        sum = i % 3 ? sum : 0;
        if (order > XEW_MOST_ORDER || (sum += order) > XEW_MOST_ORDER)
            return false;
        orders[i] = (uint8_t)order;
        cursor->l = (uint8_t)(cursor->l + order);
    }
    return true;
}

/* Whether another line is of the limits of a term. */
static bool term_matches(const struct line *line, xew_cursor cursor)
{
    bool has_boys = cursor.kind == 2 || cursor.kind == 4;
    if (line->count - 2 > cursor.l + (uint64_t)(cursor.kind == 1))
        return false;
    for (uint64_t i = 2; i < line->count; i++)
        if (line->numbers[i] >= table_size[cursor.kind])
            return false;
    return line->numbers[0] >= 1 && line->numbers[0] <= XEW_MOST_SCALE && line->numbers[1] <= (has_boys ? cursor.l : 0u);
}

static size_t put_term(uint8_t *out, const struct line *line)
{
    size_t at = put(out, line->numbers[0]);
    at += put(out + at, line->numbers[1]);
    at += put(out + at, line->count - 2);
    for (uint64_t i = 2; i < line->count; i++)
        at += put(out + at, line->numbers[i]);
    return at;
}

static xew_imported refused(uint8_t refusal, uint64_t line, enum text_fault met)
{
    text_fault = met;
    return (xew_imported){ .line = line, .refusal = refusal };
}

xew_imported expected_import(const uint8_t *text, size_t length, uint8_t *out)
{
    struct line line;
    xew_cursor cursor;
    uint8_t orders[XEW_ORDERS] = { 0 };
    size_t at = 0, written;
    uint32_t terms = 0;
    text_fault = NO_TEXT_FAULT;
    if (!read_line(text, length, &at, &line) || (line.count != 8 && line.count != 11 && line.count != 14))
        return refused(21, 1, FIRST_SHAPE);
    if (!head_matches(&line, &cursor, orders))
        return refused(22, 1, FIRST_NUMBERS);
    written = put_header(out, 0, cursor, orders);
    for (; at < length; terms++) {
        if (!read_line(text, length, &at, &line) || line.count < 2)
            return refused(21, terms + 2u, terms == cursor.left ? SHAPE_BEYOND : LATER_SHAPE);
        if (terms == cursor.left)
            return refused(22, terms + 2u, LINE_TOO_MANY);
        if (!term_matches(&line, cursor))
            return refused(22, terms + 2u, LATER_NUMBERS);
        written += put_term(out + written, &line);
    }
    if (terms < cursor.left)
        return refused(22, terms + 2u, LINE_MISSING);
    return (xew_imported){ .length = written, .terms = terms };
}
