/* Roots, each asked twice and held to C's sqrt bit for bit, which gives the nearest float on the machines that this runs
 * on, and to refusals 8 and 18 of document 02; and the quotient of a Coulomb value. */
#include "tally.h"
#include <math.h>
#include <string.h>

static const uint64_t ONE = 0x3ff0000000000000, INFINITE = 0x7ff0000000000000, SIGN = (uint64_t)1 << 63;
static const uint64_t FRACTION = ((uint64_t)1 << 52) - 1;

static double of_bits(uint64_t its)
{
    double x;
    memcpy(&x, &its, sizeof x);
    return x;
}

static uint64_t bits_of(double x)
{
    uint64_t its;
    memcpy(&its, &x, sizeof its);
    return its;
}

static xew_rooted expected_root(double x)
{
    if (!isfinite(x))
        return (xew_rooted){ 0, 8 };
    if (x < 0)
        return (xew_rooted){ 0, 18 };
    return (xew_rooted){ sqrt(x), 0 };
}

static void try_root(uint64_t its)
{
    double x = of_bits(its);
    xew_rooted expected = expected_root(x);
    count_root(its);
    for (int again = 0; again < 2; again++) {
        BEGIN(ROOT, "bits", its);
        xew_rooted answer = xew_root(x);
        count(ROOT, answer.refusal, again);
        hold(answer.refusal == expected.refusal, "xew_root: another refusal than document 02's");
        hold(bits_of(answer.root) == bits_of(expected.root), "xew_root: another root than the nearest float");
    }
}

/* A float and its neighbours on both sides, with both signs now and then. */
static void try_near(uint64_t its)
{
    for (uint64_t near = its > 0 ? its - 1 : its; near <= its + 1; near++) {
        try_root(near);
        if (once_in(16))
            try_root(near ^ SIGN);
    }
}

/* The square of a number of at most 26 digits, moved by an even power of two. */
static uint64_t any_square(void)
{
    double whole = (double)(1 + (bits() >> (38 + below(26))));
    int power = (int)below(1000) - 525;
    return bits_of(ldexp(whole * whole, 2 * power));
}

/* The square of a float of 53 digits, rounded, or of what lies half-way to the next: the roots that are hardest to round. */
static uint64_t any_rounded_square(void)
{
    uint64_t its = ((512 + below(1023)) << 52) | (bits() & FRACTION);
    long double root = of_bits(its), half = (root + of_bits(its + 1)) / 2;
    return bits_of((double)(once_in(2) ? root * root : half * half));
}

/* A subnormal of so many digits. */
static uint64_t subnormal(uint64_t digits)
{
    uint64_t first = (uint64_t)1 << (digits - 1);
    return first | (bits() & (first - 1));
}

static uint64_t any_normal(void)
{
    return ((1 + below(2046)) << 52) | (bits() & FRACTION);
}

static uint64_t any_nan(void)
{
    uint64_t fraction = bits() & FRACTION;
    return INFINITE | (once_in(2) ? SIGN : 0) | (fraction ? fraction : 1);
}

static void try_zeros_and_no_numbers(void)
{
    const uint64_t all[] = { 0, SIGN, INFINITE, INFINITE | SIGN, ONE | SIGN, 1 | SIGN, (INFINITE - 1) | SIGN };
    for (size_t i = 0; i < sizeof all / sizeof *all; i++)
        try_root(all[i]);
    try_root(any_nan());
}

/* At least so many roots: zeros and what is no number; then exponents and lengths of subnormals in turn, from one on that
 * goes by the number of the scene, and beside them floats of every sort. */
void play_roots(uint64_t least)
{
    try_zeros_and_no_numbers();
    for (uint64_t turn = 0; turn < 8 || turn * 19 < least; turn++) {
        uint64_t i = 8 * call.scene + turn, exponent = (1 + i % 2046) << 52;
        try_near(exponent);
        try_near(exponent | FRACTION);
        try_near(exponent | (bits() & FRACTION));
        try_near(subnormal(1 + i % 52));
        try_near(any_square());
        try_near(any_rounded_square());
        try_root(any_normal());
    }
}

/* The value over the s,s,s,s roll: (F(0) s) with s the aux divided by the root of the sum of exponents. */
static void hold_quotient(const xew_centre c[4], double aux, double boys, bool may_refuse)
{
    static const uint8_t bytes[] = { 4, 0, 0, 0, 0, 0, 0, 0, 0, 0, 0, 0, 0, 1, 1, 0, 0 };
    double s = aux / sqrt(((c[0].exponent + c[1].exponent) + c[2].exponent) + c[3].exponent);
    struct slice roll = lend_copy(&roll_arena, "roll", bytes, sizeof bytes, 1);
    struct slice f = lend_copy(&boys_arena, "boys", &boys, 1, sizeof boys);
    BEGIN(EVALUATE, "roll_len boys_len", roll.length, f.length);
    with_slice(&roll);
    with_slice(&f);
    with_centres(c, 4);
    with_aux(aux);
    further_calls++;
    xew_value value = xew_evaluate(roll.lent, roll.length, c[0], c[1], c[2], c[3], aux, f.lent, f.length);
    if (may_refuse && value.refusal)
        return;
    hold(same_value(value, (xew_value){ 0.0 + boys * s, 0, 0 }),
         "xew_evaluate: s,s,s,s is not F(0) times aux divided by the root");
}

/* One quotient with numbers that do not change, and some with any. */
void play_quotients(void)
{
    const xew_centre c[4] = { { 0, 0, 0, 0.5, 0 }, { 1, 0, 0, 0.25, 0 }, { 0, 1, 0, 1.5, 0 }, { 0, 0, 1, 0.3, 0 } };
    hold_quotient(c, 1.7, 0.9, false);
    for (int i = 0; i < 4; i++) {
        xew_centre any[4];
        double floats[2];
        any_centres(any);
        any_floats(floats, 2);
        hold_quotient(any, floats[0], floats[1], true);
    }
}
