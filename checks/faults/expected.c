/* What a call must answer, by docs/01-scope.md and docs/02-change-requests.md alone: everything but the terms of an
 * expansion (histories.c has their number), and the floats of a value or a table and whether they are finite. */
#include "faults.h"
#include <math.h>
#include <string.h>

const uint8_t orders_used[] = { 6, 6, 6, 9, 12 }, table_size[] = { 8, 11, 11, 12, 23 };
/* The longest rolls within the cap. */
const size_t longest_roll[] = { 10458, 127541, 4665226, 2971075, 15001920 };

uint8_t expected_request(uint8_t kind, const uint8_t *orders)
{
    if (kind > 4)
        return 1;
    for (int i = 0; i < orders_used[kind]; i += 3)
        if (orders[i] + orders[i + 1] + orders[i + 2] > XEW_MOST_ORDER)
            return 2;
    for (int i = orders_used[kind]; i < XEW_ORDERS; i++)
        if (orders[i] != 0)
            return 3;
    return 0;
}

size_t expected_list(uint8_t order, uint8_t *out)
{
    size_t at = 0;
    if (order > XEW_MOST_ORDER)
        return 0;
    for (int x = order; x >= 0; x--)
        for (int y = order - x; y >= 0; y--) {
            out[at++] = (uint8_t)x;
            out[at++] = (uint8_t)y;
            out[at++] = (uint8_t)(order - x - y);
        }
    return at;
}

xew_component expected_component(const uint8_t *shells, int count, uint32_t number)
{
    xew_component answer = { { 0 }, 0 };
    uint8_t list[MOST_LIST];
    for (int i = 0; i < count; i++)
        if (shells[i] > XEW_MOST_ORDER)
            answer.refusal = 2;
    for (int i = count - 1; i >= 0 && !answer.refusal; i--) {
        uint32_t triples = (uint32_t)expected_list(shells[i], list) / 3;
        memcpy(answer.orders + 3 * i, list + 3 * (number % triples), 3);
        number /= triples;
    }
    if (!answer.refusal && number > 0)
        answer = (xew_component){ { 0 }, 13 };
    return answer;
}

uint8_t number(const uint8_t *roll, size_t length, size_t *at, uint64_t least, uint64_t most, uint64_t *value)
{
    uint64_t sum = 0;
    for (size_t i = 0; i < length - *at; i++) {
        uint8_t byte = roll[*at + i];
        if (i == 4 && byte > 15)
            return 7;
        sum += (uint64_t)(byte % 128) << 7 * i;
        if (byte >= 128)
            continue;
        if ((byte == 0 && i > 0) || sum < least || sum > most)
            return 7;
        *at += i + 1;
        *value = sum;
        return 0;
    }
    return 14;
}

xew_opened expected_header(const uint8_t *roll, size_t length, uint8_t first)
{
    xew_opened opened = { 0 }, refused = { 0 };
    size_t at = 0;
    uint64_t value, room = 0;
    uint8_t bad = number(roll, length, &at, first, first + 4u, &value);
    if (!bad)
        opened.cursor.kind = (uint8_t)(value - first);
    for (int i = 0; !bad && i < orders_used[opened.cursor.kind]; i++) {
        room = i % 3 ? room : XEW_MOST_ORDER;
        bad = number(roll, length, &at, 0, room, &value);
        if (!bad) {
            opened.orders[i] = (uint8_t)value;
            opened.cursor.l = (uint8_t)(opened.cursor.l + value);
            room -= value;
        }
    }
    if (!bad)
        bad = number(roll, length, &at, 1, XEW_MOST_TERMS, &value);
    refused.place = at;
    refused.refusal = bad;
    if (bad)
        return refused;
    opened.cursor.left = (uint32_t)value;
    opened.cursor.place = at;
    return opened;
}

xew_opened expected_open(const uint8_t *roll, size_t length)
{
    return expected_header(roll, length, 0);
}

bool forged(xew_cursor cursor, size_t length)
{
    return cursor.kind > 4 || cursor.l > orders_used[cursor.kind] / 3 * XEW_MOST_ORDER || cursor.place > length;
}

xew_step expected_next(xew_cursor cursor, const uint8_t *roll, size_t length)
{
    xew_step step = { 0 }, refused = { 0 };
    size_t at = cursor.place;
    uint64_t value;
    refused.refusal = 7;
    refused.place = at;
    if (forged(cursor, length) || (cursor.left == 0 && at < length))
        return refused;
    if (cursor.left == 0) {
        step.found = 2;
        return step;
    }
    bool has_boys = cursor.kind == 2 || cursor.kind == 4;
    uint8_t bad = number(roll, length, &at, 1, XEW_MOST_SCALE, &value);
    if (!bad) {
        step.scale = (uint32_t)value;
        bad = number(roll, length, &at, 0, has_boys ? cursor.l : 0, &value);
    }
    if (!bad) {
        step.boys = (uint8_t)value;
        bad = number(roll, length, &at, 0, (uint64_t)cursor.l + (cursor.kind == 1), &value);
    }
    if (!bad)
        step.count = (uint8_t)value;
    for (int i = 0; !bad && i < step.count; i++) {
        bad = number(roll, length, &at, 0, table_size[cursor.kind] - 1u, &value);
        if (!bad)
            step.prefactors[i] = (uint8_t)value;
    }
    refused.place = at;
    refused.refusal = bad;
    if (bad)
        return refused;
    step.found = 1;
    step.next = cursor;
    step.next.place = at;
    step.next.left--;
    return step;
}

xew_opened expected_check(const uint8_t *roll, size_t length)
{
    xew_opened opened = expected_open(roll, length);
    if (opened.refusal)
        return opened;
    xew_step step = { .next = opened.cursor, .found = 1 };
    while (step.found == 1)
        step = expected_next(step.next, roll, length);
    if (step.found == 2)
        return opened;
    opened = (xew_opened){ 0 };
    opened.place = step.place;
    opened.refusal = step.refusal;
    return opened;
}

/* Number p of 02's list: it starts 1, first, and goes on as first times the last plus first*(p-1) times the one
 * before. */
static uint64_t by_hand(uint64_t first, unsigned p)
{
    uint64_t before = 1, last = first;
    for (unsigned i = 2; i <= p; i++) {
        uint64_t next = first * last + first * (i - 1) * before;
        before = last;
        last = next;
    }
    return p ? last : before;
}

xew_total expected_total(uint8_t kind, const uint8_t *orders)
{
    xew_total total = { 0, 0, expected_request(kind, orders) };
    if (total.refusal || kind == 1 || kind == 4)
        return total;
    total.total = total.claimed = 1;
    for (int axis = 0; axis < 3; axis++)
        total.total *= by_hand(kind == 2 ? 2 : 1, orders[axis] + orders[axis + 3] + orders[axis + 6]);
    return total;
}

uint64_t expected_scales(xew_opened checked, const uint8_t *roll, size_t length)
{
    uint64_t sum = 0;
    xew_step step = { .next = checked.cursor, .found = 1 };
    while (step.found == 1) {
        step = expected_next(step.next, roll, length);
        sum += step.scale;
    }
    return sum;
}

bool all_finite(const double *floats, size_t count)
{
    for (size_t i = 0; i < count; i++)
        if (!isfinite(floats[i]))
            return false;
    return true;
}

static bool centres_finite(uint8_t kind, const xew_centre *centres)
{
    size_t used = kind == 4 ? 4 : 2;
    for (size_t i = 0; i < used; i++)
        if (!all_finite((double[]){ centres[i].x, centres[i].y, centres[i].z, centres[i].exponent }, 4))
            return false;
    return (kind != 2 && kind != 3) || all_finite((double[]){ centres[2].x, centres[2].y, centres[2].z }, 3);
}

static bool exponents_positive(uint8_t kind, const xew_centre *centres)
{
    for (int i = 0; i < (kind == 4 ? 4 : 2); i++)
        if (!(centres[i].exponent > 0))
            return false;
    return true;
}

uint8_t expected_table(uint8_t kind, const xew_centre *centres)
{
    if (kind > 4)
        return 1;
    if (!centres_finite(kind, centres))
        return 8;
    return exponents_positive(kind, centres) ? 0 : 9;
}

uint8_t expected_value(xew_opened checked, const xew_centre *centres, double aux, const double *boys,
                       size_t boys_length)
{
    uint8_t kind = checked.cursor.kind;
    if (checked.refusal)
        return checked.refusal;
    if (kind == 2 && centres[2].charge > XEW_MOST_CHARGE)
        return 17;
    if (!centres_finite(kind, centres) || !isfinite(aux) || !all_finite(boys, boys_length))
        return 8;
    if (!exponents_positive(kind, centres))
        return 9;
    return boys_length == (kind == 2 || kind == 4 ? checked.cursor.l + 1u : 0) ? 0 : 10;
}

/* Each check goes over the whole list before the next. */
uint8_t expected_nuclear(xew_opened checked, const xew_centre *pair, const xew_nuclei *nuclei, double aux,
                         const double *boys, size_t boys_length)
{
    if (checked.refusal)
        return checked.refusal;
    if (checked.cursor.kind != 2)
        return 1;
    if (nuclei->count < 1 || nuclei->count > XEW_MOST_NUCLEI)
        return 17;
    for (uint32_t i = 0; i < nuclei->count; i++)
        if (nuclei->centres[i].charge > XEW_MOST_CHARGE)
            return 17;
    for (uint32_t i = 0; i < nuclei->count; i++)
        if (!all_finite((double[]){ nuclei->centres[i].x, nuclei->centres[i].y, nuclei->centres[i].z }, 3))
            return 8;
    if (!centres_finite(0, pair) || !isfinite(aux) || !all_finite(boys, boys_length))
        return 8;
    if (!exponents_positive(0, pair))
        return 9;
    return boys_length == (checked.cursor.l + 1u) * nuclei->count ? 0 : 10;
}

static bool primitives_finite(const xew_contraction *function)
{
    for (uint32_t i = 0; i < function->count; i++) {
        const xew_primitive *p = &function->primitives[i];
        if (!all_finite((double[]){ p->centre.x, p->centre.y, p->centre.z, p->centre.exponent, p->norm, p->coefficient }, 6))
            return false;
    }
    return true;
}

static bool primitives_positive(const xew_contraction *function)
{
    for (uint32_t i = 0; i < function->count; i++)
        if (!(function->primitives[i].centre.exponent > 0))
            return false;
    return true;
}

/* Each check of an evaluation goes over all pairs before the next. */
uint8_t expected_contracted(xew_opened checked, const xew_contraction *left, const xew_contraction *right,
                            const double *host, size_t host_length)
{
    if (left->count < 1 || left->count > XEW_MOST_PRIMITIVES || right->count < 1 || right->count > XEW_MOST_PRIMITIVES)
        return 15;
    if (host_length != (size_t)left->count * right->count)
        return 16;
    if (checked.refusal)
        return checked.refusal;
    if (checked.cursor.kind > 1)
        return 1;
    if (!primitives_finite(left) || !primitives_finite(right) || !all_finite(host, host_length))
        return 8;
    return primitives_positive(left) && primitives_positive(right) ? 0 : 9;
}

/* A sum of J or K: I from a place on, so many further for each lambda, times D; lambda outer, from 0.0. */
static double summed(size_t n, const double *i, size_t step, const double *d)
{
    double sum = 0;
    for (size_t lambda = 0; lambda < n; lambda++)
        for (size_t sigma = 0; sigma < n; sigma++)
            sum += i[lambda * step + sigma] * d[lambda * n + sigma];
    return sum;
}

uint8_t expected_jk(size_t n, const double *i, const double *d, const size_t lengths[4], double *j, double *k)
{
    if (n < 1 || n > XEW_MOST_SIZE || lengths[0] != n * n * n * n)
        return 12;
    if (lengths[1] != n * n || lengths[2] != n * n || lengths[3] != n * n)
        return 12;
    if (!all_finite(i, lengths[0]) || !all_finite(d, lengths[1]))
        return 8;
    for (size_t mu = 0; mu < n; mu++)
        for (size_t nu = 0; nu < n; nu++) {
            j[mu * n + nu] = summed(n, i + (mu * n + nu) * n * n, n, d);
            k[mu * n + nu] = summed(n, i + mu * n * n * n + nu * n, n * n, d);
        }
    return all_finite(j, n * n) && all_finite(k, n * n) ? 0 : 11;
}
