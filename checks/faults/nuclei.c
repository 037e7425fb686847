/* Calls on a list of nuclei, each made twice and held against document 02, and against xew_evaluate of each nucleus
 * as C: their sum from 0.0 in list order, bit for bit. */
#include "tally.h"
#include <math.h>
#include <string.h>

/* What a host gives beside a roll. */
struct list {
    xew_centre pair[4]; /* A and B */
    xew_nuclei nuclei;
    double aux;
    double boys[MOST_BOYS];
    size_t length; /* of boys */
};

bool same_value(xew_value a, xew_value b)
{
    return memcmp(&a.value, &b.value, sizeof(double)) == 0 && a.place == b.place && a.refusal == b.refusal;
}

/* Boys numbers for each nucleus, where there may be as many; now and then one less or more, those of another list, or none. */
static void any_list(xew_opened checked, struct list *with)
{
    any_centres(with->pair);
    any_nuclei(&with->nuclei);
    any_floats(&with->aux, 1);
    size_t each = checked.cursor.l + 1u, right = each * with->nuclei.count;
    if (right >= MOST_BOYS)
        right = once_in(2) ? each : below(MOST_BOYS);
    with->length = right;
    if (once_in(5))
        with->length = (size_t[]){ 0, right + 1, right ? right - 1 : 1, each, right + each, right - each, below(60) }[below(7)];
    if (with->length > MOST_BOYS)
        with->length = 0;
    any_floats(with->boys, with->length);
}

static xew_value listed(struct slice roll, const struct list *with, xew_nuclei nuclei, struct slice boys)
{
    BEGIN(NUCLEAR, "roll_len count boys_len", roll.length, nuclei.count, boys.length);
    with_slice(&roll);
    with_slice(&boys);
    with_centres(with->pair, 2);
    with_centres(nuclei.centres, XEW_MOST_NUCLEI);
    with_aux(with->aux);
    return xew_nuclear(roll.lent, roll.length, with->pair[0], with->pair[1], nuclei, with->aux, boys.lent, boys.length);
}

/* Boys numbers from those of a nucleus on, of so many nuclei. */
static struct slice boys_of(const struct list *with, size_t each, uint32_t from, uint32_t count)
{
    return lend_copy(&boys_arena, "boys", with->boys + from * each, count * each, sizeof(double));
}

/* The evaluation with one nucleus as C. */
static xew_value single(struct slice roll, const struct list *with, size_t each, uint32_t which)
{
    struct slice boys = boys_of(with, each, which, 1);
    const xew_centre *p = with->pair, *c = &with->nuclei.centres[which];
    BEGIN(EVALUATE, "roll_len boys_len", roll.length, boys.length);
    with_slice(&roll);
    with_slice(&boys);
    with_centres(p, 2);
    with_centres(c, 1);
    with_aux(with->aux);
    further_calls++;
    xew_value value = xew_evaluate(roll.lent, roll.length, p[0], p[1], *c, p[3], with->aux, boys.lent, boys.length);
    hold(value.refusal == 0 || value.refusal == 11, "xew_evaluate: a nucleus of a list that is in order");
    return value;
}

/* A value that has been added to a total, or the refusal of either. */
static xew_value added(xew_value total, xew_value value)
{
    total.value += value.value;
    if (total.refusal || value.refusal || !isfinite(total.value))
        return (xew_value){ .refusal = 11 };
    return total;
}

/* The total of a list that is in order, by a plain loop. */
static xew_value summed(struct slice roll, const struct list *with, size_t each)
{
    xew_value total = { 0 };
    bool only_negative = true;
    for (uint32_t i = 0; i < with->nuclei.count; i++) {
        xew_value value = single(roll, with, each, i);
        only_negative &= value.value == 0 && signbit(value.value);
        total = added(total, value);
    }
    if (!total.refusal)
        count_list(with->nuclei.count, only_negative);
    return total;
}

/* A nucleus alone, and the list without its last one, of which the total is made. */
static void hold_parts(struct slice roll, const struct list *with, size_t each, xew_value total)
{
    xew_nuclei part = with->nuclei;
    uint32_t which = (uint32_t)below(part.count), last = part.count - 1;
    xew_value value = single(roll, with, each, which);
    part.centres[0] = part.centres[which];
    part.count = 1;
    further_calls += 2;
    hold(same_value(listed(roll, with, part, boys_of(with, each, which, 1)), added((xew_value){ 0 }, value)),
         "xew_nuclear: of one nucleus, not 0.0 plus its value");
    if (last == 0)
        return;
    part = with->nuclei;
    part.count = last;
    value = single(roll, with, each, last);
    hold(same_value(total, added(listed(roll, with, part, boys_of(with, each, 0, last)), value)),
         "xew_nuclear: not the total without the last nucleus plus its value");
}

void try_nuclear(struct slice roll, xew_opened checked)
{
    static struct list with;
    any_list(checked, &with);
    size_t each = checked.cursor.l + 1u;
    uint8_t refusal = expected_nuclear(checked, with.pair, &with.nuclei, with.aux, with.boys, with.length);
    xew_value expected = { 0, checked.place, refusal };
    if (!refusal) {
        expected = summed(roll, &with, each);
        hold_parts(roll, &with, each, expected);
    }
    struct slice boys = lend_copy(&boys_arena, "boys", with.boys, with.length, sizeof(double));
    maybe_null(&roll, NUCLEAR_ROLL);
    maybe_null(&boys, NUCLEAR_BOYS);
    for (int again = 0; again < 2; again++) {
        xew_value value = listed(roll, &with, with.nuclei, boys);
        count(NUCLEAR, value.refusal, again);
        hold(value.refusal == expected.refusal, "xew_nuclear: another refusal than document 02's");
        hold(same_value(value, expected), "xew_nuclear: another total or place than document 02's");
        other_charges(with.pair, 4);
        other_unused(&with.nuclei);
    }
}

/* A nuclear roll that reads, three times, and any other. */
void play_nuclear(uint8_t *bytes)
{
    struct slice roll = lend_copy(&roll_arena, "roll", bytes, roll_of(2, bytes, MOST_BYTES), 1);
    xew_opened checked = try_check(roll);
    for (int i = 0; i < 3; i++)
        try_nuclear(roll, checked);
    roll = lend_copy(&roll_arena, "roll", bytes, any_roll(bytes), 1);
    try_nuclear(roll, try_check(roll));
}
