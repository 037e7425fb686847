/* Random requests, rolls, cursors and floats: ordinary, at a limit and wrong. */
#include "faults.h"
#include <float.h>
#include <math.h>
#include <stdlib.h>
#include <string.h>

static uint64_t state;

uint64_t bits(void) /* splitmix64 */
{
    uint64_t z = state += 0x9e3779b97f4a7c15;
    z = (z ^ z >> 30) * 0xbf58476d1ce4e5b9;
    z = (z ^ z >> 27) * 0x94d049bb133111eb;
    return z ^ z >> 31;
}

void seed_random(uint64_t seed, uint64_t scene)
{
    state = seed;
    state = bits() ^ scene * 0xd1342543de82ef95;
}

uint64_t below(uint64_t limit)
{
    return bits() % limit;
}

bool once_in(uint64_t times)
{
    return below(times) == 0;
}

#define ONE_OF(list) ((list)[below(sizeof(list) / sizeof *(list))])

/* The largest requests within the limits. */
const struct request largest[LARGEST] = {
    { .kind = 4, .orders = { 2, 1, 0, 2, 0, 2, 1, 3, 0, 1, 0, 2 }, .length = 14908072 }, /* the most terms, 1,048,572 */
    { .kind = 4, .orders = { 1, 1, 0, 4, 0, 1, 1, 3, 0, 3, 0, 0 }, .length = 15001920 }, /* the longest roll */
    { .kind = 2, .orders = { 6, 0, 0, 6, 0, 0 }, .length = 4665226 },
    { .kind = 3, .orders = { 6, 0, 0, 6, 0, 0, 6, 0, 0 }, .length = 2971075 },
    { .kind = 0, .orders = { 6, 0, 0, 6, 0, 0 }, .length = 10458 },
    { .kind = 1, .orders = { 6, 0, 0, 6, 0, 0 }, .length = 127541 },
};

/* Requests over the cap. */
const struct request over[OVER] = {
    { .kind = 4, .orders = { 1, 1, 0, 2, 1, 1, 0, 0, 4, 0, 2, 2 } }, /* 1,048,576 histories */
    { .kind = 4, .orders = { 3, 0, 0, 3, 1, 0, 3, 0, 0, 2, 1, 0 } }, /* measuring goes through the most states */
    { .kind = 4, .orders = { 6, 0, 0, 6, 0, 0, 6, 0, 0, 6, 0, 0 } }, /* the most histories, 905,995,238,216 */
    { .kind = 4, .orders = { 2, 2, 2, 2, 2, 2, 2, 2, 2, 2, 2, 2 } },
};

/* Requests whose rolls are known: small ones, longer ones, and large ones of each kind. */
enum { SMALL = 400, LONGER = 60, NAMED = 7, LARGE = 2, MOST_SMALL = 1500, MOST_LONGER = 45000, MOST_NAMED = 900000 };
static struct request requests[SMALL + LONGER + NAMED];
static const struct request named[NAMED] = {
    { .kind = 4, .orders = { 0, 0, 3, 1, 1, 1, 0, 0, 2, 0, 1, 2 } }, /* 65,534 terms */
    { .kind = 4, .orders = { 1, 0, 3, 0, 1, 0, 4, 0, 0, 1, 1, 1 } }, /* 850,272 bytes */
    { .kind = 0, .orders = { 6, 0, 0, 6, 0, 0 } },
    { .kind = 1, .orders = { 6, 0, 0, 6, 0, 0 } },
    { .kind = 2, .orders = { 4, 0, 0, 4, 0, 0 } },
    { .kind = 3, .orders = { 4, 0, 0, 4, 0, 0, 4, 0, 0 } },
    { .kind = 4, .orders = { 1, 0, 0, 1, 0, 0, 1, 0, 0, 1, 0, 0 } },
};

/* Orders of a sum from least to most. */
static void centre_orders(uint8_t *orders, uint64_t least, uint64_t most)
{
    uint64_t left = least + below(most - least + 1), axis = below(3);
    memset(orders, 0, 3);
    orders[axis] = (uint8_t)left;
    if (once_in(3))
        return;
    orders[axis] = (uint8_t)below(left + 1);
    orders[(axis + 1) % 3] = (uint8_t)(left - orders[axis]);
}

/* Of any kind; the order sums of a Coulomb request are from least to most. */
static void legal_request(struct request *request, uint64_t least, uint64_t most)
{
    memset(request, 0, sizeof *request);
    request->kind = (uint8_t)below(5);
    for (int i = 0; i < orders_used[request->kind]; i += 3)
        centre_orders(request->orders + i, least, request->kind == 4 ? most : XEW_MOST_ORDER);
}

/* Expands a request for the list; false where its roll has more bytes. */
static bool keep(struct request *request, size_t most)
{
    static uint8_t out[MOST_NAMED];
    xew_written written = xew_expand(request->kind, &request->orders, out, most, 0);
    if (written.refusal)
        return false;
    uint8_t *roll = malloc(written.length);
    if (!roll)
        abort();
    memcpy(roll, out, written.length);
    request->length = written.length;
    request->roll = roll;
    return true;
}

void make_requests(void)
{
    struct request *next = requests;
    call.name = "xew_expand";
    call.labels = "";
    for (int tries = 0; next < requests + SMALL + LONGER; tries++) {
        bool small = next < requests + SMALL;
        legal_request(next, 0, small ? 1 + below(2) : 3);
        next += keep(next, small ? MOST_SMALL : MOST_LONGER);
        if (tries == 20000)
            fail("xew_expand: too many refusals of legal requests");
    }
    for (int i = 0; i < NAMED; i++) {
        *next = named[i];
        if (!keep(next++, MOST_NAMED))
            fail("xew_expand: a request within the cap is refused");
    }
}

const struct request *known_request(void)
{
    const struct request *large = requests + SMALL + LONGER;
    if (once_in(2000))
        return &large[below(LARGE)];
    if (once_in(60))
        return &requests[SMALL + below(LONGER)];
    return once_in(20) ? &large[LARGE + below(NAMED - LARGE)] : &requests[below(SMALL)];
}

void any_request(struct request *request)
{
    static const uint8_t orders[] = { 1, 2, 5, 6, 7, 9, 127, 128, 255 };
    if (once_in(200))
        legal_request(request, 3, 4); /* Coulomb: about the cap */
    else
        legal_request(request, 0, once_in(200) ? XEW_MOST_ORDER : 1 + below(2));
    if (once_in(12))
        request->orders[below(XEW_ORDERS)] = ONE_OF(orders);
    if (once_in(40))
        for (int i = 0; i < XEW_ORDERS; i++)
            request->orders[i] = (uint8_t)bits();
    if (once_in(30))
        request->kind = (uint8_t)(once_in(2) ? 5 : bits());
}

size_t any_start(size_t length, size_t need)
{
    switch (below(8)) {
    case 0: return length;
    case 1: return length + 1;
    case 2: return below(length + 3);
    case 3: return need <= length ? length - need : 0;
    case 4: return need < length ? length - need + 1 : 1;
    case 5: return (size_t[]){ SIZE_MAX, SIZE_MAX - 1, SIZE_MAX - need, (size_t)1 << 63, (size_t)1 << 32 }[below(5)];
    default: return 0;
    }
}

/* A legal roll that no expansion gives; if it need not be good, with numbers beyond their limits now and then. */
static size_t made_up(uint8_t *out, bool good)
{
    static const uint32_t scales[] = { 1, 2, 127, 128, 16383, 16384, 65536, 65537, 2097151, 2097152, 268435455,
                                       268435456, XEW_MOST_SCALE - 1, XEW_MOST_SCALE, XEW_MOST_SCALE + 1, UINT32_MAX, 0 };
    static const uint32_t counts[] = { 0, 1, 65535, 65536, XEW_MOST_TERMS, XEW_MOST_TERMS + 1, UINT32_MAX };
    struct request request;
    legal_request(&request, once_in(8) ? XEW_MOST_ORDER : 0, XEW_MOST_ORDER);
    uint8_t kind = request.kind;
    uint64_t l = 0, count = below(once_in(20) ? 300 : 8);
    bool has_boys = kind == 2 || kind == 4;
    size_t at = put(out, kind);
    count += good && count == 0;
    for (int i = 0; i < orders_used[kind]; i++) {
        at += put(out + at, request.orders[i]);
        l += request.orders[i];
    }
    at += put(out + at, !good && once_in(4) ? ONE_OF(counts) : count);
    for (uint64_t term = 0; term < count; term++) {
        uint64_t odd = !good && once_in(8), most = l + (kind == 1);
        uint64_t factors = once_in(3) ? most + odd : below(most + 1);
        at += put(out + at, good ? scales[below(14)] : ONE_OF(scales));
        at += put(out + at, has_boys ? below(l + 1 + odd) : odd);
        at += put(out + at, factors);
        for (uint64_t i = 0; i < factors; i++)
            at += put(out + at, below(table_size[kind] + odd));
    }
    return at;
}

size_t most_terms_roll(uint8_t *out, uint8_t kind, uint32_t terms)
{
    size_t at = 1u + orders_used[kind];
    memset(out, 0, at);
    out[0] = kind;
    at += put(out + at, terms);
    for (uint32_t term = 0; term < terms; term++, at += 3)
        memcpy(out + at, (uint8_t[]){ 1, 0, 0 }, 3);
    return at;
}

static size_t noise(uint8_t *out)
{
    size_t length = below(once_in(10) ? 4000 : 40);
    bool low = once_in(2);
    for (size_t i = 0; i < length; i++)
        out[i] = (uint8_t)(low ? below(6) : bits());
    return length;
}

size_t mutated(uint8_t *out, size_t length)
{
    static const uint8_t bytes[] = { 0, 1, 4, 5, 6, 7, 8, 16, 20, 21, 22, 23, 24, 25, 127, 128, 129, 255 };
    size_t at = length ? below(once_in(2) && length > 30 ? 30 : length) : 0;
    size_t more = 1 + below(5);
    switch (length ? below(8) : 5) {
    case 0: out[at] ^= (uint8_t)(1 << below(8)); break;
    case 1: out[at] = ONE_OF(bytes); break;
    case 2: return at;
    case 3: return length - 1;
    case 4: /* a byte less */
        memmove(out + at, out + at + 1, length - at - 1);
        return length - 1;
    case 5: /* bytes too many */
        for (size_t i = 0; i < more; i++)
            out[length + i] = ONE_OF(bytes);
        return length + more;
    case 6: /* a byte more */
        memmove(out + at + 1, out + at, length - at);
        out[at] = ONE_OF(bytes);
        return length + 1;
    default: /* a number that is longer than it need be, or too large */
        memmove(out + at + more, out + at, length - at);
        memset(out + at, 128, more);
        out[at] = (uint8_t)(128 + out[at + more] % 128);
        out[at + more] = once_in(2) ? 0 : 127;
        return length + more;
    }
    return length;
}

size_t any_roll(uint8_t *out)
{
    size_t length = below(8);
    switch (length) {
    case 0: return made_up(out, !once_in(4));
    case 1: return noise(out);
    case 2: return once_in(4) ? 0 : mutated(out, made_up(out, !once_in(4)));
    }
    const struct request *known = known_request();
    memcpy(out, known->roll, known->length);
    length = known->length;
    if (once_in(2))
        return length;
    for (uint64_t times = 1 + below(3); times > 0; times--)
        length = mutated(out, length);
    return length;
}

size_t good_roll(uint8_t *out, size_t most)
{
    for (;;) {
        const struct request *known = known_request();
        size_t length = known->length;
        if (once_in(2))
            length = made_up(out, true);
        else
            memcpy(out, known->roll, length);
        if (length <= most)
            return length;
    }
}

size_t roll_of(uint8_t kind, uint8_t *out, size_t most)
{
    for (;;) {
        size_t length = good_roll(out, most);
        if (out[0] == kind)
            return length;
    }
}

xew_cursor any_cursor(xew_cursor cursor, size_t length)
{
    static const uint8_t ls[] = { 0, 1, 8, 11, 12, 13, 16, 17, 18, 19, 23, 24, 25, 128, 255 };
    static const uint32_t lefts[] = { 0, 1, 2, 65535, 65536, XEW_MOST_TERMS, XEW_MOST_TERMS + 1, UINT32_MAX };
    const size_t places[] = { length, length + 1, length + 2, SIZE_MAX, SIZE_MAX - 1, (size_t)1 << 63,
                              (size_t)1 << 32 };
    if (once_in(3))
        cursor.kind = (uint8_t)(once_in(4) ? bits() : below(6));
    if (once_in(3))
        cursor.l = once_in(4) ? (uint8_t)bits() : ONE_OF(ls);
    if (once_in(3))
        cursor.left = once_in(4) ? (uint32_t)bits() : ONE_OF(lefts);
    if (once_in(2))
        cursor.place = once_in(2) ? below(length + 1) : length > 20 && once_in(2) ? length - below(20) : ONE_OF(places);
    return cursor;
}

/* A roll of form 2, often with a term whose shared length is not the longest or beyond it. */
size_t any_roll2(uint8_t *out)
{
    static uint8_t form1[MOST_BYTES];
    uint64_t which = below(16);
    if (which == 0)
        return any_roll(out); /* of form 1, mostly */
    if (which == 1) {
        size_t length = once_in(4) ? 0 : noise(out);
        out[0] = (uint8_t)(length ? 16 + below(6) : 0);
        return length;
    }
    size_t length = good_roll(form1, MOST_BYTES);
    uint32_t terms = expected_open(form1, length).cursor.left;
    static const int mores[] = { -1, 1, 1, -2, 2, 25 };
    length = in_form2(form1, length, out, which < 8 ? (uint32_t)below(terms) : UINT32_MAX, ONE_OF(mores));
    for (uint64_t times = which < 12 ? 0 : 1 + below(3); times > 0; times--)
        length = mutated(out, length);
    return length;
}

size_t good_roll2(uint8_t *out, size_t most)
{
    static uint8_t form1[MOST_BYTES];
    for (;;) {
        size_t length = in_form2(form1, good_roll(form1, most), out, UINT32_MAX, 0);
        if (length <= most)
            return length;
    }
}

xew_cursor2 any_cursor2(xew_cursor2 cursor, size_t length)
{
    static const uint8_t counts[] = { 0, 1, 2, 3, 12, 13, 18, 23, 24, 25, 26, 128, 255 };
    static const uint8_t prefactors[] = { 0, 6, 7, 8, 10, 11, 12, 22, 23, 128, 255 };
    cursor.cursor = any_cursor(cursor.cursor, length);
    if (once_in(3))
        cursor.count = once_in(2) ? ONE_OF(counts) : (uint8_t)(cursor.cursor.l + below(3));
    if (once_in(3))
        cursor.earlier[below(XEW_PREFACTORS)] = ONE_OF(prefactors);
    for (int i = cursor.count; i < XEW_PREFACTORS && once_in(2); i++)
        cursor.earlier[i] = (uint8_t)bits(); /* behind the term before nothing is looked at */
    return cursor;
}

/* An entry of a grouping: where it begins, where its term and its Boys order stand, and where it ends. */
struct entry {
    size_t begins, term, boys, ends;
    uint64_t number;
};

static struct entry entry_of(const uint8_t *grouping, size_t length, uint8_t l, uint64_t which)
{
    struct entry entry = { 0 };
    uint64_t scale;
    for (uint64_t i = 0; i <= which; i++) {
        entry.begins = entry.term = entry.ends;
        number(grouping, length, &entry.term, 1, UINT32_MAX, &entry.number);
        entry.ends = entry_term(grouping, length, entry.term, l).next.place;
    }
    entry.boys = entry.term;
    number(grouping, length, &entry.boys, 1, UINT32_MAX, &scale);
    return entry;
}

/* Another number in an entry. */
static size_t renumbered(uint8_t *out, size_t length, struct entry entry, uint64_t to)
{
    uint8_t bytes[10];
    size_t count = put(bytes, to);
    memmove(out + entry.begins + count, out + entry.term, length - entry.term);
    memcpy(out + entry.begins, bytes, count);
    return length + count - (entry.term - entry.begins);
}

/* An entry twice. */
static size_t repeated(uint8_t *out, size_t length, struct entry entry)
{
    memmove(out + entry.ends, out + entry.begins, length - entry.begins);
    return length + entry.ends - entry.begins;
}

/* Two entries, one after the other, exchanged. */
static void exchange(uint8_t *out, struct entry entry, struct entry next)
{
    uint8_t bytes[XEW_ENTRY];
    size_t size = entry.ends - entry.begins;
    memcpy(bytes, out + entry.begins, size);
    memmove(out + entry.begins, out + next.begins, next.ends - next.begins);
    memcpy(out + next.ends - size, bytes, size);
}

size_t any_grouping(uint8_t *out, size_t length, struct asked *asked)
{
    static const uint8_t ls[] = { 0, 1, 12, 23, 24, 25, 26, 128, 255 };
    const uint32_t terms = asked->terms, counts[] = { terms - 1, terms + 1, 0, 1, XEW_MOST_TERMS + 1, UINT32_MAX };
    const uint32_t numbers[] = { 0, 1, terms, terms + 1, UINT32_MAX };
    uint64_t which = below(terms);
    struct entry entry = entry_of(out, length, asked->l, which);
    uint64_t other = entry.number + (uint64_t[]){ 1, 1, 2, 3, UINT64_MAX }[below(5)];
    asked->number = (uint32_t)(1 + below(terms));
    switch (below(10)) {
    case 0: break;
    case 1:
    case 2: length = mutated(out, mutated(out, length)); break;
    case 3:
    case 4:
    case 5: /* its number has gone then, or comes up twice */
        asked->number = (uint32_t)(once_in(2) ? entry.number : other);
        length = renumbered(out, length, entry, other);
        break;
    case 6: out[entry.boys] = (uint8_t)below(asked->l + 2u); break;
    case 7: length = repeated(out, length, entry); break;
    case 8:
        if (which + 1 < terms)
            exchange(out, entry, entry_of(out, length, asked->l, which + 1));
        break;
    default: length = once_in(4) ? noise(out) : once_in(4) ? 0 : below(length);
    }
    if (once_in(6))
        asked->l = once_in(2) ? ONE_OF(ls) : (uint8_t)(asked->l + 1 - 2 * below(2));
    if (once_in(6))
        asked->terms = ONE_OF(counts);
    if (once_in(6))
        asked->number = ONE_OF(numbers);
    return length;
}

double any_float(void)
{
    static const double odd[] = { 0.0, -0.0, 1.0, -1.0, INFINITY, -INFINITY, NAN, -NAN, DBL_MAX, -DBL_MAX, DBL_MIN,
                                  DBL_TRUE_MIN, -DBL_TRUE_MIN, DBL_EPSILON, 1e154, 1e-154, 1e200, -1e-200 };
    uint64_t b = bits();
    double value;
    if (once_in(2))
        return ONE_OF(odd);
    if (once_in(4))
        b &= 0x800fffffffffffff; /* subnormal */
    if (once_in(8))
        b |= 0x7ff0000000000000; /* infinite or no number */
    memcpy(&value, &b, sizeof value);
    return value;
}

static double calm_float(void)
{
    return (double)(int64_t)bits() * 0x1p-62;
}

static double finite_float(void)
{
    return ldexp(calm_float(), (int)below(2100) - 1075);
}

void any_floats(double *out, size_t count)
{
    uint64_t taste = below(10);
    for (size_t i = 0; i < count; i++)
        out[i] = taste == 0 ? any_float() : taste < 3 ? finite_float() : calm_float();
    if (taste < 5 && count > 0 && once_in(2))
        out[below(count)] = any_float();
    for (size_t i = 0; taste == 1 && i < count; i++)
        if (!isfinite(out[i]))
            out[i] = DBL_MAX;
}

/* A charge within the limit; or, now and then, at it, beyond it or any. */
static uint32_t any_charge(void)
{
    static const uint32_t odd[] = { 0, 0, 1, XEW_MOST_CHARGE, XEW_MOST_CHARGE + 1, 300, UINT32_MAX };
    if (!once_in(3))
        return (uint32_t)below(XEW_MOST_CHARGE + 1);
    return once_in(8) ? (uint32_t)bits() : ONE_OF(odd);
}

static uint32_t good_charge(void)
{
    static const uint32_t few[] = { 0, 1, XEW_MOST_CHARGE };
    return once_in(2) ? ONE_OF(few) : (uint32_t)below(XEW_MOST_CHARGE + 1);
}

/* The padding keeps what stood there. */
static void put_centre(xew_centre *centre, const double *floats, double exponent, uint32_t charge)
{
    centre->x = floats[0];
    centre->y = floats[1];
    centre->z = floats[2];
    centre->exponent = exponent;
    centre->charge = charge;
}

void any_centres(xew_centre centres[4])
{
    double floats[16];
    any_floats(floats, 16);
    bool positive = !once_in(8);
    memset(centres, (int)below(256), 4 * sizeof *centres);
    for (int i = 0; i < 4; i++) {
        const double *f = floats + 4 * i;
        put_centre(&centres[i], f, positive ? fabs(f[3]) : f[3], any_charge());
    }
}

void other_charges(xew_centre centres[4], int nucleus)
{
    for (int i = 0; i < 4; i++)
        if (i != nucleus)
            centres[i].charge = any_charge();
}

void other_unused(xew_nuclei *nuclei)
{
    for (uint32_t i = 0; i < XEW_MOST_NUCLEI; i++) {
        xew_centre *c = &nuclei->centres[i];
        if (i < nuclei->count)
            c->exponent = any_float();
        else
            put_centre(c, (double[]){ any_float(), any_float(), any_float() }, any_float(), any_charge());
    }
}

void any_nuclei(xew_nuclei *nuclei)
{
    static const uint32_t wrong[] = { 0, 33, 34, 256, 257, 256 + 32, (uint32_t)1 << 31, UINT32_MAX - 31, UINT32_MAX };
    const uint32_t right[] = { 1, 2, XEW_MOST_NUCLEI - 1, XEW_MOST_NUCLEI, 1 + (uint32_t)below(XEW_MOST_NUCLEI) };
    double floats[3 * XEW_MOST_NUCLEI];
    uint32_t held = ONE_OF(right); /* nuclei that stand there; in a list that is too long as many as there are places */
    memset(nuclei, (int)below(256), sizeof *nuclei);
    nuclei->count = held;
    if (once_in(8)) {
        nuclei->count = ONE_OF(wrong);
        held = XEW_MOST_NUCLEI;
    }
    any_floats(floats, 3 * held);
    for (uint32_t i = 0; i < held; i++)
        put_centre(&nuclei->centres[i], floats + 3 * i, 0, good_charge());
    if (once_in(8))
        nuclei->centres[below(held)].charge = any_charge();
    if (once_in(16)) /* every value is 0.0 or -0.0 */
        for (uint32_t i = 0; i < held; i++)
            nuclei->centres[i].charge = 0;
    other_unused(nuclei);
}

static void put_primitive(xew_primitive *primitive, const double floats[6])
{
    put_centre(&primitive->centre, floats, floats[3], any_charge());
    primitive->norm = floats[4];
    primitive->coefficient = floats[5];
}

void other_primitives(xew_contraction *function)
{
    for (uint32_t i = 0; i < XEW_MOST_PRIMITIVES; i++) {
        double floats[6];
        for (int j = 0; j < 6; j++)
            floats[j] = any_float();
        if (i < function->count)
            function->primitives[i].centre.charge = any_charge();
        else
            put_primitive(&function->primitives[i], floats);
    }
}

void any_contraction(xew_contraction *function)
{
    static const uint32_t wrong[] = { 0, 0, 11, 11, 12, 256, 257, 256 + 10, (uint32_t)1 << 31, UINT32_MAX - 9, UINT32_MAX };
    const uint32_t right[] = { 1, 2, 1 + (uint32_t)below(4), XEW_MOST_PRIMITIVES - 1, XEW_MOST_PRIMITIVES,
                               1 + (uint32_t)below(XEW_MOST_PRIMITIVES) };
    double floats[6 * XEW_MOST_PRIMITIVES];
    uint32_t held = ONE_OF(right); /* primitives that stand there; where the count is wrong as many as there are places */
    memset(function, (int)below(256), sizeof *function);
    function->count = held;
    if (once_in(12)) {
        function->count = ONE_OF(wrong);
        held = XEW_MOST_PRIMITIVES;
    }
    any_floats(floats, 6 * held);
    bool positive = !once_in(8), units = once_in(6), zeros = once_in(12), one_place = once_in(2);
    for (uint32_t i = 0; i < held; i++) {
        double *f = floats + 6 * i;
        f[3] = positive ? fabs(f[3]) : f[3];
        if (units)
            f[4] = f[5] = 1;
        if (zeros) /* every product is 0.0 or -0.0 */
            f[5] = once_in(2) ? 0.0 : -0.0;
        if (one_place)
            memcpy(f, floats, 3 * sizeof *f);
        put_primitive(&function->primitives[i], f);
    }
    if (once_in(8))
        function->primitives[below(held)].centre.exponent = any_float();
    if (once_in(16))
        *(once_in(2) ? &function->primitives[below(held)].norm : &function->primitives[below(held)].coefficient) = any_float();
    other_primitives(function);
}
