/* Stand-ins that are wrong on purpose, before the library's functions (ld --wrap), so that checks/faults/run self can
 * show that each is caught. WRONG in the environment names the one. */
#include "../../include/xewumbal.h"
#include <math.h>
#include <stdbool.h>
#include <stdio.h>
#include <stdlib.h>
#include <string.h>

static const char *name;

__attribute__((constructor)) static void choose(void)
{
    name = getenv("WRONG");
}

static int is(const char *wrong)
{
    return name && !strcmp(name, wrong);
}

static volatile uint8_t seen;
static volatile int largest = 0x7fffffff;

xew_opened __real_xew_check(const uint8_t *roll, size_t roll_len);
xew_opened __wrap_xew_check(const uint8_t *roll, size_t roll_len)
{
    if (is("reads-past-the-end") && roll)
        seen = roll[roll_len];
    if (is("reads-before-the-beginning") && roll)
        seen = roll[-1];
    if (is("reads-an-empty-slice") && roll_len == 0)
        seen = *(const volatile uint8_t *)roll;
    if (is("writes-what-is-lent-for-reading") && roll_len > 0)
        *(volatile uint8_t *)roll = *roll;
    if (is("does-not-end"))
        while (largest)
            ;
    if (is("undefined"))
        largest = largest + 1;
    if (is("beyond-an-array")) {
        volatile uint8_t few[8] = { 0 };
        seen = few[largest & 15];
    }
    xew_opened opened = __real_xew_check(roll, roll_len);
    if (is("leaves-a-number-beside-a-refusal") && opened.refusal)
        opened.cursor.l = 1;
    if (is("takes-a-byte-too-many") && opened.refusal == 7 && opened.place + 1 == roll_len)
        opened = xew_open(roll, roll_len);
    if (is("says-7-for-a-cut-roll") && opened.refusal == 14)
        opened.refusal = 7;
    return opened;
}

static uint8_t *lent_before; /* to an expansion */

xew_written __real_xew_measure(uint8_t kind, const uint8_t (*orders)[12]);
xew_written __wrap_xew_measure(uint8_t kind, const uint8_t (*orders)[12])
{
    if (is("measures-a-thirteenth-order"))
        seen = (*(const volatile uint8_t (*)[13])orders)[12];
    if (is("measures-and-writes-the-orders"))
        *(volatile uint8_t *)*orders = (*orders)[0];
    if (is("measures-and-writes-as-before") && lent_before) {
        *lent_before ^= 1;
        lent_before = NULL;
    }
    xew_written size = __real_xew_measure(kind, orders);
    if (is("measures-a-byte-too-few") && !size.refusal)
        size.length--;
    if (is("measures-beyond-the-cap") && size.refusal == 4)
        size = (xew_written){ 16777216, 1048576, 0 };
    return size;
}

xew_written __real_xew_expand(uint8_t kind, const uint8_t (*orders)[12], uint8_t *out, size_t out_len, size_t start);
xew_written __wrap_xew_expand(uint8_t kind, const uint8_t (*orders)[12], uint8_t *out, size_t out_len, size_t start)
{
    if (is("refuses-where-there-is-room") && __real_xew_measure(kind, orders).length == out_len - start)
        out_len = start = 0;
    lent_before = start < out_len ? out + start : NULL;
    xew_written written = __real_xew_expand(kind, orders, out, out_len, start);
    if (is("writes-beside-a-refusal") && written.refusal && out_len > 0)
        out[out_len - 1] ^= 1;
    if (is("writes-beyond-the-output") && !written.refusal && start + written.length < out_len)
        out[start + written.length] ^= 1;
    if (is("writes-before-the-start") && !written.refusal && start > 0)
        out[start - 1] ^= 1;
    if (is("refuses-by-a-number-not-listed") && written.refusal == 6)
        written.refusal = 13;
    if (is("counts-a-term-too-many") && !written.refusal)
        written.terms++;
    if (is("refuses-everything"))
        written = (xew_written){ 0, 0, 4 };
    return written;
}

xew_rooted __real_xew_root(double x);
xew_rooted __wrap_xew_root(double x)
{
    xew_rooted answer = __real_xew_root(x);
    if (is("rounds-the-root-down") && !answer.refusal && fma(answer.root, answer.root, -x) > 0)
        answer.root = nextafter(answer.root, 0);
    if (is("roots-minus-zero-to-zero") && answer.root == 0)
        answer.root = 0;
    return answer;
}

/* An aux whose quotient is about the aux that was lent: as a host of version 3 means it. */
static double undivided(const uint8_t *roll, size_t roll_len, const xew_centre c[4], double aux)
{
    if (!is("does-not-divide") || roll_len == 0 || *roll != 4)
        return aux;
    double sum = ((c[0].exponent + c[1].exponent) + c[2].exponent) + c[3].exponent, product = aux * sqrt(sum > 0 ? sum : 1);
    return isfinite(product) ? product : aux;
}

xew_value __real_xew_evaluate(const uint8_t *roll, size_t roll_len, xew_centre a, xew_centre b, xew_centre c,
                              xew_centre d, double aux, const double *boys, size_t boys_len);
xew_value __wrap_xew_evaluate(const uint8_t *roll, size_t roll_len, xew_centre a, xew_centre b, xew_centre c,
                              xew_centre d, double aux, const double *boys, size_t boys_len)
{
    static int calls;
    if (is("reads-a-float-too-many") && boys)
        seen = boys[boys_len] > 0;
    if (is("ignores-the-charge") && c.charge <= XEW_MOST_CHARGE)
        c.charge = 1;
    if (is("judges-the-charge-first") && c.charge > XEW_MOST_CHARGE && roll_len > 0 && *roll == 2)
        return (xew_value){ 0, 0, 17 };
    aux = undivided(roll, roll_len, (xew_centre[]){ a, b, c, d }, aux);
    xew_value value = __real_xew_evaluate(roll, roll_len, a, b, c, d, aux, boys, boys_len);
    if (is("remembers") && ++calls % 100 == 0 && !value.refusal)
        value.value += 1;
    if (is("another-place") && value.refusal == 7)
        value.place++;
    if (is("forgets-the-boys-count") && value.refusal == 10)
        value.refusal = 0;
    if (is("looks-at-the-charge-of-a") && value.refusal == 0 && a.charge > XEW_MOST_CHARGE)
        value = (xew_value){ 0, 0, 17 };
    if (is("never-says-minus-zero") && value.value == 0)
        value.value = 0;
    return value;
}

/* Which nucleus is summed in which turn, and where its Boys numbers begin. */
static xew_value summed(const uint8_t *roll, size_t roll_len, xew_centre a, xew_centre b, const xew_nuclei *nuclei,
                        double aux, const double *boys)
{
    size_t each = __real_xew_check(roll, roll_len).cursor.l + 1u, apart = is("overlaps-the-boys-lists") ? each - 1 : each;
    xew_value total = { 0 };
    for (uint32_t turn = 0; turn < nuclei->count; turn++) {
        uint32_t i = is("sums-from-the-last-nucleus") ? nuclei->count - 1 - turn : turn;
        xew_value value = __real_xew_evaluate(roll, roll_len, a, b, nuclei->centres[i], b, aux, boys + i * apart, each);
        if (is("begins-at-the-first-value") && turn == 0)
            total.value = -0.0;
        total.value += value.value;
        if (value.refusal || !isfinite(total.value))
            return (xew_value){ 0, 0, 11 };
    }
    return total;
}

/* The nuclei one after the other, each with all its checks. */
static uint8_t first_refusal(const xew_nuclei *nuclei)
{
    for (uint32_t i = 0; i < nuclei->count && i < XEW_MOST_NUCLEI; i++) {
        const xew_centre *c = &nuclei->centres[i];
        if (c->charge > XEW_MOST_CHARGE)
            return 17;
        if (!isfinite(c->x) || !isfinite(c->y) || !isfinite(c->z))
            return 8;
    }
    return 0;
}

xew_value __real_xew_nuclear(const uint8_t *roll, size_t roll_len, xew_centre a, xew_centre b, xew_nuclei nuclei,
                             double aux, const double *boys, size_t boys_len);
xew_value __wrap_xew_nuclear(const uint8_t *roll, size_t roll_len, xew_centre a, xew_centre b, xew_nuclei nuclei,
                             double aux, const double *boys, size_t boys_len)
{
    uint32_t held = nuclei.count < XEW_MOST_NUCLEI ? nuclei.count : XEW_MOST_NUCLEI;
    if (is("reads-a-boys-number-too-many") && boys)
        seen = boys[boys_len] > 0;
    if (is("lets-119-through"))
        for (uint32_t i = 0; i < held; i++)
            nuclei.centres[i].charge -= nuclei.centres[i].charge == XEW_MOST_CHARGE + 1;
    if (is("counts-nuclei-in-a-byte"))
        nuclei.count = (uint8_t)nuclei.count;
    if (is("takes-33-nuclei-as-32") && nuclei.count == XEW_MOST_NUCLEI + 1)
        nuclei.count--;
    xew_value value = __real_xew_nuclear(roll, roll_len, a, b, nuclei, aux, boys, boys_len);
    if (value.refusal == 7 || value.refusal == 14)
        return value;
    if (is("judges-the-list-before-the-kind") && value.refusal == 1 && nuclei.count == 0)
        value.refusal = 17;
    if (is("judges-nucleus-by-nucleus") && value.refusal == 17 && first_refusal(&nuclei) == 8)
        value.refusal = 8;
    if (is("looks-beyond-the-count") && !value.refusal && held < XEW_MOST_NUCLEI
        && nuclei.centres[held].charge > XEW_MOST_CHARGE)
        value = (xew_value){ 0, 0, 17 };
    if (is("looks-at-the-exponent-of-a-nucleus") && !value.refusal && !isfinite(nuclei.centres[0].exponent))
        value = (xew_value){ 0, 0, 8 };
    bool sums = is("begins-at-the-first-value") || is("overlaps-the-boys-lists") || is("sums-from-the-last-nucleus");
    return sums && !value.refusal ? summed(roll, roll_len, a, b, &nuclei, aux, boys) : value;
}

/* Which host number a pair takes, how its norms are multiplied, and where the outer sum begins. */
static xew_value contracted(const uint8_t *roll, size_t roll_len, const xew_contraction *left, const xew_contraction *right,
                            const double *host)
{
    xew_value sum = { is("begins-at-minus-zero") ? -0.0 : 0.0, 0, 0 };
    for (uint32_t j = 0; j < right->count; j++) {
        const xew_primitive *b = &right->primitives[j];
        double inner = 0;
        for (uint32_t i = 0; i < left->count; i++) {
            const xew_primitive *a = &left->primitives[i];
            double aux = host[is("takes-host-numbers-left-outer") ? i * right->count + j : j * left->count + i];
            double v = __real_xew_evaluate(roll, roll_len, a->centre, b->centre, a->centre, b->centre, aux, NULL, 0).value;
            v = is("multiplies-the-norms-right-first") ? a->norm * (b->norm * v) : (a->norm * b->norm) * v;
            inner += a->coefficient * v;
        }
        sum.value += b->coefficient * inner;
    }
    return isfinite(sum.value) ? sum : (xew_value){ 0, 0, 11 };
}

/* The pairs one after the other, each with all its checks. */
static uint8_t first_pair_refusal(const xew_contraction *left, const xew_contraction *right, const double *host)
{
    for (uint32_t j = 0; j < right->count; j++)
        for (uint32_t i = 0; i < left->count; i++) {
            const xew_primitive *pair[] = { &left->primitives[i], &right->primitives[j] };
            for (int k = 0; k < 2; k++)
                if (!isfinite(pair[k]->centre.x + pair[k]->centre.y + pair[k]->centre.z + pair[k]->centre.exponent)
                    || !isfinite(pair[k]->norm) || !isfinite(pair[k]->coefficient) || !isfinite(host[j * left->count + i]))
                    return 8;
            if (!(pair[0]->centre.exponent > 0) || !(pair[1]->centre.exponent > 0))
                return 9;
        }
    return 0;
}

xew_value __real_xew_contracted(const uint8_t *roll, size_t roll_len, xew_contraction left, xew_contraction right,
                                const double *host, size_t host_len);
xew_value __wrap_xew_contracted(const uint8_t *roll, size_t roll_len, xew_contraction left, xew_contraction right,
                                const double *host, size_t host_len)
{
    if (is("reads-a-host-number-too-many") && host)
        seen = host[host_len] > 0;
    if (is("counts-primitives-in-a-byte"))
        left.count = (uint8_t)left.count;
    if (is("takes-11-primitives-as-10") && right.count == XEW_MOST_PRIMITIVES + 1)
        right.count--;
    xew_value value = __real_xew_contracted(roll, roll_len, left, right, host, host_len);
    if (is("judges-the-host-list-first") && value.refusal == 15 && host_len != (size_t)left.count * right.count)
        value.refusal = 16;
    if (is("judges-the-roll-before-the-host-list") && value.refusal == 16) {
        xew_opened opened = __real_xew_check(roll, roll_len);
        if (opened.refusal)
            value = (xew_value){ 0, opened.place, opened.refusal };
    }
    if (is("judges-pair-by-pair") && value.refusal == 8 && first_pair_refusal(&left, &right, host) == 9)
        value.refusal = 9;
    if (value.refusal)
        return value;
    if (is("looks-beyond-the-primitives") && left.count < XEW_MOST_PRIMITIVES
        && !isfinite(left.primitives[left.count].norm))
        return (xew_value){ 0, 0, 8 };
    if (is("looks-at-the-charge-of-a-primitive") && right.primitives[0].centre.charge > XEW_MOST_CHARGE)
        return (xew_value){ 0, 0, 17 };
    bool sums = is("begins-at-minus-zero") || is("takes-host-numbers-left-outer") || is("multiplies-the-norms-right-first");
    return sums ? contracted(roll, roll_len, &left, &right, host) : value;
}

/* The bytes of a Coulomb roll's grouping: its terms, and a number for each. */
static size_t grouping_size(xew_opened opened, size_t roll_len)
{
    size_t size = roll_len - opened.cursor.place;
    for (uint32_t number = 1; number <= opened.cursor.left; number++)
        size += number < 128 ? 1 : number < 16384 ? 2 : 3;
    return size;
}

/* The term of a grouping's entry. */
static xew_step term_of(const uint8_t *grouping, size_t length, size_t at, uint8_t l)
{
    while (at < length && grouping[at] >= 128)
        at++;
    return xew_next((xew_cursor){ at + 1, 1, 4, l }, grouping, length);
}

/* Where the last entry of a grouping begins. */
static size_t last_entry(const uint8_t *grouping, size_t length, uint8_t l)
{
    for (size_t at = 0;;) {
        size_t next = term_of(grouping, length, at, l).next.place;
        if (next >= length)
            return at;
        at = next;
    }
}

xew_value __real_xew_evaluate_grouped(const uint8_t *roll, size_t roll_len, xew_centre a, xew_centre b, xew_centre c,
                                      xew_centre d, double aux, const double *boys, size_t boys_len, uint8_t *buffer,
                                      size_t buffer_len);
xew_value __wrap_xew_evaluate_grouped(const uint8_t *roll, size_t roll_len, xew_centre a, xew_centre b, xew_centre c,
                                      xew_centre d, double aux, const double *boys, size_t boys_len, uint8_t *buffer,
                                      size_t buffer_len)
{
    xew_opened opened = __real_xew_check(roll, roll_len);
    size_t terms = opened.cursor.left, room = terms * XEW_ENTRY;
    bool is_grouped = !opened.refusal && opened.cursor.kind == 4 && buffer_len >= room;
    if (is("judges-the-buffer-first") && buffer_len == 0)
        return (xew_value){ 0, 0, 6 };
    uint8_t *before = malloc(buffer_len + 1), *spare = malloc(room + 1);
    if (!before || !spare)
        abort();
    if (buffer_len > 0)
        memcpy(before, buffer, buffer_len);
    aux = undivided(roll, roll_len, (xew_centre[]){ a, b, c, d }, aux);
    xew_value value = __real_xew_evaluate_grouped(roll, roll_len, a, b, c, d, aux, boys, boys_len, buffer, buffer_len);
    size_t size = is_grouped ? grouping_size(opened, roll_len) : 0;
    if (is("leaves-no-grouping-beside-10") && value.refusal == 10 && is_grouped)
        memcpy(buffer, before, buffer_len);
    if (is("writes-beside-a-buffer-too-short") && value.refusal == 6 && buffer_len > 0)
        buffer[0] ^= 1;
    if (is("changes-a-byte-behind-the-grouping") && is_grouped && size < buffer_len)
        buffer[size] ^= 1;
    if (is("takes-39-bytes-a-term") && value.refusal == 6 && buffer_len >= 39 * terms) {
        value = __real_xew_evaluate_grouped(roll, roll_len, a, b, c, d, aux, boys, boys_len, spare, room);
        memcpy(buffer, spare, grouping_size(opened, roll_len));
    }
    if (is("loses-a-term") && terms > 1 && is_grouped) {
        size_t last = last_entry(buffer, size, opened.cursor.l);
        memcpy(buffer + last, before + last, size - last);
    }
    if (is("needs-a-buffer-for-every-kind") && opened.cursor.kind == 0 && !opened.refusal && buffer_len < room)
        value = (xew_value){ 0, 0, 6 };
    if (is("sums-to-another-last-bit") && !value.refusal && is_grouped)
        value.value = nextafter(value.value, 0);
    free(before);
    free(spare);
    return value;
}

static xew_restored restored(xew_step term)
{
    xew_restored answer = { .scale = term.scale, .boys = term.boys, .count = term.count };
    memcpy(answer.prefactors, term.prefactors, sizeof answer.prefactors);
    return answer;
}

/* A number of a grouping that reads. */
static uint32_t number_at(const uint8_t *grouping, size_t at)
{
    uint32_t number = 0;
    for (int i = 0; i < 5; i++) {
        number |= (uint32_t)(grouping[at + i] & 127) << 7 * i;
        if (grouping[at + i] < 128)
            break;
    }
    return number;
}

/* What is refused 7, read whatever order its entries have: the term with the number asked where a Boys order fell at
 * the place of the refusal, or the last term where no entry had the number asked. */
static xew_restored read_loosely(const uint8_t *grouping, size_t length, uint8_t l, uint32_t terms, uint32_t asked,
                                 xew_restored refused)
{
    xew_step found = { 0 }, term = { 0 };
    size_t at = 0;
    int fell = 0;
    for (uint32_t entry = 0; entry < terms; entry++) {
        uint8_t before = term.boys;
        term = term_of(grouping, length, at, l);
        if (term.found != 1)
            return refused;
        fell |= at == refused.place && term.boys < before;
        found = number_at(grouping, at) == asked ? term : found;
        at = term.next.place;
    }
    if (is("takes-a-fallen-boys-order") && fell && found.found == 1)
        return restored(found);
    return is("answers-a-missing-number") && at == refused.place ? restored(term) : refused;
}

xew_restored __real_xew_grouped_term(const uint8_t *grouping, size_t grouping_len, uint8_t l, uint32_t terms,
                                     uint32_t number);
xew_restored __wrap_xew_grouped_term(const uint8_t *grouping, size_t grouping_len, uint8_t l, uint32_t terms,
                                     uint32_t number)
{
    if (is("reads-a-grouping-past-the-end") && grouping)
        seen = grouping[grouping_len];
    xew_restored answer = __real_xew_grouped_term(grouping, grouping_len, l, terms, number);
    if (answer.refusal == 7 && l <= 4 * XEW_MOST_ORDER)
        answer = read_loosely(grouping, grouping_len, l, terms, number, answer);
    if (is("says-13-for-an-L-beyond") && l > 4 * XEW_MOST_ORDER && number == 0)
        answer = (xew_restored){ .refusal = 13 };
    if (is("restores-by-the-place-in-the-grouping") && !answer.refusal) {
        xew_step term = { 0 };
        for (uint32_t i = 0; i < number; i++)
            term = term_of(grouping, grouping_len, term.next.place, l);
        answer = restored(term);
    }
    return answer;
}

xew_written __real_xew_expand2(uint8_t kind, const uint8_t (*orders)[12], uint8_t *out, size_t out_len, size_t start);
xew_written __wrap_xew_expand2(uint8_t kind, const uint8_t (*orders)[12], uint8_t *out, size_t out_len, size_t start)
{
    if (is("expands-in-form-1"))
        return __real_xew_expand(kind, orders, out, out_len, start);
    xew_written written = __real_xew_expand2(kind, orders, out, out_len, start);
    if (is("measures-form-2-as-form-1") && !written.refusal
        && __real_xew_measure(kind, orders).length > out_len - start)
        written = (xew_written){ 0, 0, 6 };
    return written;
}

/* The whole roll judged, where a shared length need not be the longest: a term that is refused is read again after as
 * much of the term before as it shares. */
static xew_opened2 not_the_longest(const uint8_t *roll, size_t roll_len)
{
    xew_opened2 opened = xew_open2(roll, roll_len);
    xew_step2 step = { .next = opened.cursor, .found = 1 };
    while (step.found == 1) {
        xew_cursor2 cursor = step.next;
        step = xew_next2(cursor, roll, roll_len);
        while (step.found == 0 && cursor.count > 0) {
            cursor.count--;
            step = xew_next2(cursor, roll, roll_len);
        }
    }
    return step.found == 2 ? opened : (xew_opened2){ .place = step.place, .refusal = step.refusal };
}

xew_opened2 __real_xew_check2(const uint8_t *roll, size_t roll_len);
xew_opened2 __wrap_xew_check2(const uint8_t *roll, size_t roll_len)
{
    if (is("reads-form-2-past-the-end") && roll)
        seen = roll[roll_len];
    xew_opened2 opened = __real_xew_check2(roll, roll_len);
    xew_opened form1 = __real_xew_check(roll, roll_len);
    if (is("takes-form-1-for-form-2") && !form1.refusal)
        opened.cursor.cursor = form1.cursor, opened.refusal = 0;
    if (is("takes-a-length-not-the-longest") && opened.refusal == 7 && !xew_open2(roll, roll_len).refusal)
        opened = not_the_longest(roll, roll_len);
    if (is("tells-the-kind-with-16") && !opened.refusal)
        opened.cursor.cursor.kind = (uint8_t)(opened.cursor.cursor.kind + 16);
    return opened;
}

xew_step2 __real_xew_next2(xew_cursor2 cursor, const uint8_t *roll, size_t roll_len);
xew_step2 __wrap_xew_next2(xew_cursor2 cursor, const uint8_t *roll, size_t roll_len)
{
    xew_step2 step = __real_xew_next2(cursor, roll, roll_len);
    if (is("forgets-the-term-before") && step.found == 1)
        step.next.count = 0;
    if (is("takes-a-forged-term-before") && step.refusal == 7 && step.place == cursor.cursor.place) {
        cursor.count = 0;
        step = __real_xew_next2(cursor, roll, roll_len);
    }
    if (is("leaves-the-shared-ones-out") && step.found == 1 && cursor.count > 0
        && step.prefactors[0] == cursor.earlier[0])
        step.prefactors[0] = 0;
    return step;
}

/* Where the last term of a form 2 roll begins. */
static size_t last_term(const uint8_t *roll, size_t roll_len)
{
    xew_cursor2 cursor = xew_open2(roll, roll_len).cursor;
    while (cursor.cursor.left > 1)
        cursor = __real_xew_next2(cursor, roll, roll_len).next;
    return cursor.cursor.place;
}

xew_moved __real_xew_to_form2(const uint8_t *roll, size_t roll_len, uint8_t *out, size_t out_len, size_t start);
xew_moved __wrap_xew_to_form2(const uint8_t *roll, size_t roll_len, uint8_t *out, size_t out_len, size_t start)
{
    if (is("writes-before-it-has-read") && start < out_len)
        out[start] = (uint8_t)(roll_len ? *roll + 16 : 0);
    if (is("judges-the-room-first") && start > out_len)
        return (xew_moved){ 0, 0, 0, 5 };
    xew_moved moved = __real_xew_to_form2(roll, roll_len, out, out_len, start);
    if (is("forgets-the-last-term") && !moved.refusal && moved.terms > 1) {
        moved.length = last_term(out + start, moved.length);
        moved.terms--;
    }
    if (is("moves-beyond-the-output") && !moved.refusal && start + moved.length < out_len)
        out[start + moved.length] ^= 1;
    return moved;
}

xew_moved __real_xew_to_form1(const uint8_t *roll, size_t roll_len, uint8_t *out, size_t out_len, size_t start);
xew_moved __wrap_xew_to_form1(const uint8_t *roll, size_t roll_len, uint8_t *out, size_t out_len, size_t start)
{
    xew_moved moved = __real_xew_to_form1(roll, roll_len, out, out_len, start);
    if (is("keeps-the-kind-with-16") && !moved.refusal)
        out[start] = (uint8_t)(out[start] + 16);
    if (is("moves-without-its-place") && moved.refusal == 7)
        moved.place = 0;
    if (is("moves-a-cut-roll-as-7") && moved.refusal == 14)
        moved.refusal = 7;
    if (is("writes-and-then-refuses") && moved.refusal == 6 && start < out_len)
        out[start] ^= 1;
    return moved;
}

xew_salvaged __real_xew_salvage(const uint8_t *roll, size_t roll_len, uint8_t *out, size_t out_len, size_t start);
xew_salvaged __wrap_xew_salvage(const uint8_t *roll, size_t roll_len, uint8_t *out, size_t out_len, size_t start)
{
    if (is("salvages-before-the-header-reads") && start < out_len)
        out[start] ^= 1;
    xew_salvaged salvaged = __real_xew_salvage(roll, roll_len, out, out_len, start);
    if (salvaged.refusal)
        return salvaged;
    uint32_t stored = roll[0] < 16 ? xew_open(roll, roll_len).cursor.left : xew_open2(roll, roll_len).cursor.cursor.left;
    if (is("keeps-one-too-many") && salvaged.anew) {
        salvaged.kept++;
        salvaged.anew--;
    }
    if (is("keeps-no-more-than-the-count") && salvaged.kept > stored) {
        salvaged.kept = stored;
        salvaged.anew = salvaged.terms - stored;
        salvaged.after = 0;
    }
    if (is("tells-bytes-after-a-damaged-term") && salvaged.anew)
        salvaged.after = 2;
    if (is("hands-the-damaged-bytes-back"))
        memcpy(out + start, roll, roll_len < salvaged.length ? roll_len : salvaged.length);
    if (is("salvages-form-2-as-form-1") && roll[0] >= 16)
        out[start] = (uint8_t)(out[start] - 16);
    if (is("salvages-beyond-the-output") && start + salvaged.length < out_len)
        out[start + salvaged.length] ^= 1;
    return salvaged;
}

static bool is_form2(const uint8_t *roll, size_t roll_len)
{
    return roll_len > 0 && roll[0] >= 16;
}

/* Where the term begins in which a place lies; the place itself in a header. */
static size_t term_begins(const uint8_t *roll, size_t roll_len, size_t place)
{
    bool two = is_form2(roll, roll_len);
    xew_cursor2 at = two ? xew_open2(roll, roll_len).cursor : (xew_cursor2){ .cursor = xew_open(roll, roll_len).cursor };
    if (place < at.cursor.place)
        return place;
    for (;;) {
        xew_cursor2 next = { 0 };
        if (two)
            next = xew_next2(at, roll, roll_len).next;
        else
            next.cursor = xew_next(at.cursor, roll, roll_len).next;
        if (next.cursor.place > place || next.cursor.place == 0)
            return at.cursor.place;
        at = next;
    }
}

/* The scales of a roll's terms added up, in either form. */
static uint64_t scales_of(const uint8_t *roll, size_t roll_len)
{
    if (!is_form2(roll, roll_len))
        return xew_roll_total(roll, roll_len).total;
    uint64_t sum = 0;
    for (xew_step2 step = { .next = xew_open2(roll, roll_len).cursor }; step.found < 2; sum += step.scale)
        step = xew_next2(step.next, roll, roll_len);
    return sum;
}

/* What xew_check says of a roll of either form. */
static xew_opened checked(const uint8_t *roll, size_t roll_len)
{
    if (!is_form2(roll, roll_len))
        return __real_xew_check(roll, roll_len);
    xew_opened2 opened = xew_check2(roll, roll_len);
    xew_opened answer = { .cursor = opened.cursor.cursor, .place = opened.place, .refusal = opened.refusal };
    memcpy(answer.orders, opened.orders, sizeof answer.orders);
    return answer;
}

xew_opened __real_xew_confirm(const uint8_t *roll, size_t roll_len);
xew_opened __wrap_xew_confirm(const uint8_t *roll, size_t roll_len)
{
    if (is("reads-a-roll-to-confirm-past-its-end") && roll)
        seen = roll[roll_len];
    if (is("confirms-form-1-alone") && is_form2(roll, roll_len))
        return (xew_opened){ .refusal = 7 };
    xew_opened opened = __real_xew_confirm(roll, roll_len);
    if (is("says-20-for-a-cut-roll") && opened.refusal == 14)
        opened.refusal = 20;
    if (opened.refusal != 20)
        return opened;
    xew_opened reads = checked(roll, roll_len);
    const uint8_t(*orders)[12] = (const uint8_t(*)[12])reads.orders;
    xew_total total = xew_scale_total(reads.cursor.kind, orders);
    if (is("confirms-whatever-reads") || (is("confirms-by-the-count-alone")
        && __real_xew_measure(reads.cursor.kind, orders).terms == reads.cursor.left))
        return reads;
    if (is("confirms-by-the-total-of-the-scales") && total.claimed && total.total == scales_of(roll, roll_len))
        return reads;
    if (is("tells-the-place-of-the-term"))
        opened.place = term_begins(roll, roll_len, opened.place);
    return opened;
}

xew_opened __real_xew_small_check(const uint8_t *roll, size_t roll_len);
xew_opened __wrap_xew_small_check(const uint8_t *roll, size_t roll_len)
{
    xew_opened opened = __real_xew_small_check(roll, roll_len), reads = checked(roll, roll_len);
    bool two = is_form2(roll, roll_len), whole = opened.refusal == 19 && !reads.refusal;
    if (is("says-7-for-form-2") && opened.refusal == 19 && two)
        return (xew_opened){ .refusal = 7 };
    if (is("takes-an-order-of-2") && whole && !two && reads.cursor.kind % 4 == 0)
        return __real_xew_confirm(roll, roll_len);
    if (is("takes-kinetic") && whole && !two && reads.cursor.kind == 1)
        return __real_xew_confirm(roll, roll_len);
    if (is("says-19-before-the-header-reads") && opened.refusal == 14 && roll_len > 0 && roll[0] % 4 != 0)
        return (xew_opened){ .refusal = 19 };
    if (is("says-19-after-the-terms") && opened.refusal == 19 && reads.refusal)
        return reads;
    if (is("small-takes-what-reads") && opened.refusal == 20)
        return reads;
    return opened;
}

xew_written __real_xew_small_expand(uint8_t kind, const uint8_t (*orders)[12], uint8_t *out, size_t out_len, size_t start);
xew_written __wrap_xew_small_expand(uint8_t kind, const uint8_t (*orders)[12], uint8_t *out, size_t out_len, size_t start)
{
    if (is("small-says-19-first") && kind > 4)
        return (xew_written){ 0, 0, 19 };
    if (is("small-expands-kinetic") && kind == 1)
        return __real_xew_expand(kind, orders, out, out_len, start);
    xew_written written = __real_xew_small_expand(kind, orders, out, out_len, start);
    if (is("small-expands-beyond-the-roll") && !written.refusal && start + written.length < out_len)
        out[start + written.length] ^= 1;
    return written;
}

xew_text __real_xew_export(const uint8_t *roll, size_t roll_len, uint8_t *out, size_t out_len, size_t start);
xew_text __wrap_xew_export(const uint8_t *roll, size_t roll_len, uint8_t *out, size_t out_len, size_t start)
{
    if (is("exports-before-it-has-read") && start < out_len)
        out[start] ^= 1;
    xew_text text = __real_xew_export(roll, roll_len, out, out_len, start);
    if (is("exports-a-cut-roll-as-7") && text.refusal == 14)
        text.refusal = 7;
    if (is("exports-form-2") && text.refusal == 7 && is_form2(roll, roll_len) && !xew_check2(roll, roll_len).refusal) {
        xew_opened2 opened = xew_open2(roll, roll_len);
        size_t most = roll_len + (size_t)opened.cursor.cursor.left * opened.cursor.cursor.l;
        uint8_t *form1 = malloc(most + 1);
        if (!form1)
            abort();
        text = __real_xew_export(form1, __real_xew_to_form1(roll, roll_len, form1, most, 0).length, out, out_len, start);
        free(form1);
    }
    if (text.refusal)
        return text;
    if (is("exports-without-the-last-feed"))
        text.length--;
    if (is("exports-a-comma-too-many") && text.length > 20)
        out[start + text.length - 2] = ',';
    if (is("exports-beyond-the-text") && start + text.length < out_len)
        out[start + text.length] ^= 1;
    return text;
}

/* A text as a wrong reader takes it: without a leading zero, without carriage returns, with a line feed at its end, or with
 * numbers that have gone round at 2^32. Answers its length. */
static size_t as_taken(const uint8_t *text, size_t length, uint8_t *out)
{
    size_t at = 0;
    for (size_t i = 0; i < length;) {
        size_t digits = 0;
        uint32_t number = 0;
        while (i + digits < length && text[i + digits] >= '0' && text[i + digits] <= '9')
            number = 10 * number + (uint32_t)(text[i + digits++] - '0');
        if (is("takes-a-leading-zero") && digits > 1 && text[i] == '0')
            i++;
        else if (is("takes-numbers-modulo-2-to-the-32") && digits > 9) {
            at += (size_t)sprintf((char *)out + at, "%u", number);
            i += digits;
        } else if (is("takes-carriage-returns") && text[i] == '\r')
            i++;
        else
            do
                out[at++] = text[i++];
            while (digits-- > 1);
    }
    if (is("takes-a-missing-last-feed") && at > 0 && out[at - 1] != '\n')
        out[at++] = '\n';
    return at;
}

/* Where a line begins. */
static size_t line_begins(const uint8_t *text, size_t length, uint64_t line)
{
    size_t at = 0;
    for (; line > 1 && at < length; at++)
        line -= text[at] == '\n';
    return at;
}

xew_imported __real_xew_import(const uint8_t *text, size_t text_len, uint8_t *out, size_t out_len, size_t start);
xew_imported __wrap_xew_import(const uint8_t *text, size_t text_len, uint8_t *out, size_t out_len, size_t start)
{
    if (is("reads-a-text-past-its-end") && text)
        seen = text[text_len];
    if (is("imports-before-it-has-judged") && start < out_len)
        out[start] ^= 1;
    xew_imported imported = __real_xew_import(text, text_len, out, out_len, start);
    size_t begins = line_begins(text, text_len, imported.line);
    bool other = is("takes-a-leading-zero") || is("takes-numbers-modulo-2-to-the-32") || is("takes-carriage-returns")
        || is("takes-a-missing-last-feed");
    if (other && imported.line > 0) {
        uint8_t *taken = malloc(text_len + 100);
        if (!taken)
            abort();
        xew_imported answer = __real_xew_import(taken, as_taken(text, text_len, taken), out, out_len, start);
        free(taken);
        return answer;
    }
    if (is("drops-a-line-too-many") && imported.refusal == 22) {
        xew_imported shorter = __real_xew_import(text, begins, out, out_len, start);
        return shorter.refusal ? imported : shorter;
    }
    if (is("judges-numbers-before-shape") && imported.refusal == 21 && imported.line > 1 && begins < text_len
        && text[begins] == '0')
        imported.refusal = 22; /* a scale of 0 */
    if (is("counts-lines-from-0") && imported.line > 0)
        imported.line--;
    if (is("counts-lines-in-a-byte"))
        imported.line = (uint8_t)imported.line;
    if (is("says-22-at-the-line-after") && imported.refusal == 22)
        imported.line++;
    if (is("tells-a-line-beside-6") && imported.refusal == 6)
        imported.line = 1;
    if (is("imports-beyond-the-roll") && !imported.refusal && start + imported.length < out_len)
        out[start + imported.length] ^= 1;
    return imported;
}

xew_compared __real_xew_compare(const uint8_t *left, size_t left_len, const uint8_t *right, size_t right_len);
xew_compared __wrap_xew_compare(const uint8_t *left, size_t left_len, const uint8_t *right, size_t right_len)
{
    if (is("reads-the-left-roll-past-its-end"))
        seen = *(const volatile uint8_t *)(left + left_len);
    xew_compared compared = __real_xew_compare(left, left_len, right, right_len);
    if (is("refuses-the-right-roll-first") && compared.side == 1) {
        xew_compared turned = __real_xew_compare(right, right_len, left, left_len);
        if (turned.side == 1)
            turned.side = 2;
        return turned.side == 2 && turned.refusal ? turned : compared;
    }
    if (is("counts-a-position-too-few") && compared.differ)
        compared.differ--;
    if (is("exchanges-the-sides") && compared.terms) {
        xew_cursor2 left_cursor = compared.cursor.left;
        compared.cursor.left = compared.cursor.right;
        compared.cursor.right = left_cursor;
    }
    return compared;
}

xew_met __real_xew_compare_next(xew_pair cursor, const uint8_t *left, size_t left_len, const uint8_t *right, size_t right_len);
xew_met __wrap_xew_compare_next(xew_pair cursor, const uint8_t *left, size_t left_len, const uint8_t *right, size_t right_len)
{
    xew_met met = __real_xew_compare_next(cursor, left, left_len, right, right_len);
    if (is("leaves-the-last-position-out") && (met.found == 2 || met.found == 3)
        && __real_xew_compare_next(met.next, left, left_len, right, right_len).found == 4)
        met = __real_xew_compare_next(met.next, left, left_len, right, right_len);
    if (is("lists-an-equal-position") && met.found == 1 && met.number > cursor.number)
        met.number = cursor.number;
    return met;
}

xew_total __real_xew_scale_total(uint8_t kind, const uint8_t (*orders)[12]);
xew_total __wrap_xew_scale_total(uint8_t kind, const uint8_t (*orders)[12])
{
    uint8_t without[12];
    memcpy(without, *orders, 12);
    if (is("leaves-the-operator-out") && kind == 3)
        memset(without + 6, 0, 3);
    xew_total total = __real_xew_scale_total(kind, (const uint8_t (*)[12])&without);
    if (is("totals-a-kinetic-request") && kind == 1 && !total.refusal)
        total.claimed = 1;
    return total;
}

xew_scales __real_xew_roll_total(const uint8_t *roll, size_t roll_len);
xew_scales __wrap_xew_roll_total(const uint8_t *roll, size_t roll_len)
{
    xew_scales scales = __real_xew_roll_total(roll, roll_len);
    if (is("adds-in-32-bits"))
        scales.total = (uint32_t)scales.total;
    if (is("adds-up-a-cut-roll") && scales.refusal == 14)
        scales = (xew_scales){ 1, 0, 0 };
    return scales;
}

uint8_t __real_xew_jk(size_t n, const double *i, size_t i_len, const double *d, size_t d_len, double *j, size_t j_len,
                      double *k, size_t k_len);
uint8_t __wrap_xew_jk(size_t n, const double *i, size_t i_len, const double *d, size_t d_len, double *j, size_t j_len,
                      double *k, size_t k_len)
{
    uint8_t refusal = __real_xew_jk(n, i, i_len, d, d_len, j, j_len, k, k_len);
    if (is("writes-j-beside-a-refusal") && refusal && j_len > 0)
        j[0] = -j[0];
    if (is("mirrors-k") && !refusal && n > 1)
        k[1] = k[n];
    return refusal;
}
