/* Calls on two contracted functions, each made twice and held against document 02, and against xew_evaluate of each pair
 * of primitives: both sums from 0.0, the left function inner, bit for bit. */
#include "tally.h"
#include <math.h>
#include <string.h>

/* What a host gives beside a roll. */
struct element {
    xew_contraction left, right;
    double host[MOST_HOST];
    size_t length; /* of host */
};

/* A host number for each pair, where there may be as many; now and then one less or more, those of a row, or none. */
static void any_element(struct element *with)
{
    any_contraction(&with->left);
    any_contraction(&with->right);
    size_t left = with->left.count, right = with->right.count, pairs = left * right;
    if (pairs > MOST_HOST)
        pairs = below(MOST_HOST + 1);
    with->length = pairs;
    if (once_in(6))
        with->length = (size_t[]){ 0, 0, pairs + 1, pairs ? pairs - 1 : 1, left, right, left + right,
                                   XEW_MOST_PRIMITIVES * XEW_MOST_PRIMITIVES, below(MOST_HOST + 1) }[below(9)];
    if (with->length > MOST_HOST)
        with->length = 0;
    any_floats(with->host, with->length);
}

static xew_value element(struct slice roll, const xew_contraction *left, const xew_contraction *right, struct slice host)
{
    BEGIN(CONTRACTED, "roll_len left_count right_count host_len", roll.length, left->count, right->count, host.length);
    with_slice(&roll);
    with_slice(&host);
    with_primitives(left->primitives, XEW_MOST_PRIMITIVES);
    with_primitives(right->primitives, XEW_MOST_PRIMITIVES);
    return xew_contracted(roll.lent, roll.length, *left, *right, host.lent, host.length);
}

/* The host numbers of the pairs of a right primitive with the left ones from a number on, of so many pairs. */
static struct slice host_of(const struct element *with, uint32_t i, uint32_t j, size_t pairs)
{
    return lend_copy(&boys_arena, "host", with->host + j * with->left.count + i, pairs, sizeof(double));
}

/* The evaluation of a pair: A is the left primitive's centre, B the right one's. */
static xew_value single(struct slice roll, const struct element *with, uint32_t i, uint32_t j)
{
    const xew_centre pair[2] = { with->left.primitives[i].centre, with->right.primitives[j].centre };
    double aux = with->host[j * with->left.count + i];
    BEGIN(EVALUATE, "roll_len boys_len", roll.length, 0);
    with_slice(&roll);
    with_centres(pair, 2);
    with_aux(aux);
    further_calls++;
    xew_value value = xew_evaluate(roll.lent, roll.length, pair[0], pair[1], pair[1], pair[0], aux, NULL, 0);
    hold(value.refusal == 0 || value.refusal == 11, "xew_evaluate: a pair of an element that is in order");
    return value;
}

/* What has been added to a sum, or the refusal of either. */
static xew_value added(xew_value sum, double product, uint8_t refusal)
{
    sum.value += product;
    if (sum.refusal || refusal || !isfinite(sum.value))
        return (xew_value){ .refusal = 11 };
    return sum;
}

/* The inner sum of a right primitive. */
static xew_value inner(struct slice roll, const struct element *with, uint32_t j)
{
    double right_norm = with->right.primitives[j].norm;
    xew_value sum = { 0 };
    for (uint32_t i = 0; i < with->left.count; i++) {
        const xew_primitive *left = &with->left.primitives[i];
        xew_value value = single(roll, with, i, j);
        sum = added(sum, left->coefficient * ((left->norm * right_norm) * value.value), value.refusal);
    }
    return sum;
}

/* The element of two functions that are in order, by plain loops. */
static xew_value summed(struct slice roll, const struct element *with)
{
    xew_value sum = { 0 };
    bool only_negative = true;
    for (uint32_t j = 0; j < with->right.count; j++) {
        xew_value part = inner(roll, with, j);
        double product = with->right.primitives[j].coefficient * part.value;
        only_negative &= product == 0 && signbit(product);
        sum = added(sum, product, part.refusal);
    }
    if (!sum.refusal)
        count_element(with->left.count, with->right.count, only_negative);
    return sum;
}

/* A pair alone, with norms and coefficients 1.0: 0.0 plus, 0.0 plus its value. */
static void hold_alone(struct slice roll, const struct element *with)
{
    uint32_t i = (uint32_t)below(with->left.count), j = (uint32_t)below(with->right.count);
    xew_contraction left = with->left, right = with->right;
    left.primitives[0] = left.primitives[i];
    right.primitives[0] = right.primitives[j];
    left.primitives[0].norm = left.primitives[0].coefficient = 1;
    right.primitives[0].norm = right.primitives[0].coefficient = 1;
    left.count = right.count = 1;
    xew_value expected = single(roll, with, i, j);
    if (!expected.refusal)
        expected.value = 0.0 + (0.0 + expected.value);
    further_calls++;
    hold(same_value(element(roll, &left, &right, host_of(with, i, j, 1)), expected),
         "xew_contracted: of one primitive each, not the pair's value");
}

/* The element without the last right primitive, plus that one's coefficient times its inner sum, which is the element of the
 * left function and that primitive with the coefficient 1.0. */
static void hold_parts(struct slice roll, const struct element *with, xew_value whole)
{
    uint32_t last = with->right.count - 1;
    if (last == 0)
        return;
    xew_contraction before = with->right, behind = with->right;
    before.count = last;
    behind.primitives[0] = behind.primitives[last];
    behind.primitives[0].coefficient = 1;
    behind.count = 1;
    further_calls += 2;
    xew_value sum = element(roll, &with->left, &before, host_of(with, 0, 0, last * with->left.count));
    xew_value part = element(roll, &with->left, &behind, host_of(with, 0, last, with->left.count));
    hold(same_value(whole, added(sum, with->right.primitives[last].coefficient * part.value, part.refusal)),
         "xew_contracted: not the element without the last right primitive plus that one's part");
}

void try_contracted(struct slice roll, xew_opened checked)
{
    static struct element with;
    any_element(&with);
    uint8_t refusal = expected_contracted(checked, &with.left, &with.right, with.host, with.length);
    xew_value expected = { 0, refusal == 7 || refusal == 14 ? checked.place : 0, refusal };
    if (!refusal) {
        expected = summed(roll, &with);
        hold_alone(roll, &with);
        hold_parts(roll, &with, expected);
    }
    struct slice host = lend_copy(&boys_arena, "host", with.host, with.length, sizeof(double));
    maybe_null(&roll, CONTRACTED_ROLL);
    maybe_null(&host, CONTRACTED_HOST);
    for (int again = 0; again < 2; again++) {
        xew_value value = element(roll, &with.left, &with.right, host);
        count(CONTRACTED, value.refusal, again);
        hold(value.refusal == expected.refusal, "xew_contracted: another refusal than document 02's");
        hold(same_value(value, expected), "xew_contracted: another element or place than document 02's");
        other_primitives(&with.left);
        other_primitives(&with.right);
    }
}

/* A roll of overlap and one of kinetic that read, three times each, and any other. */
void play_contracted(uint8_t *bytes)
{
    for (uint8_t kind = 0; kind < 2; kind++) {
        struct slice roll = lend_copy(&roll_arena, "roll", bytes, roll_of(kind, bytes, MOST_BYTES), 1);
        xew_opened checked = try_check(roll);
        for (int i = 0; i < 3; i++)
            try_contracted(roll, checked);
    }
    struct slice roll = lend_copy(&roll_arena, "roll", bytes, any_roll(bytes), 1);
    try_contracted(roll, try_check(roll));
}
