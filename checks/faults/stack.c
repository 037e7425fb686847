/* stack [STEP]: how many bytes of stack the deepest calls of each exported function take. The calls run on a stack of
 * their own, painted before; the lowest byte that changed tells. Every request of overlap is expanded, every 7th of
 * kinetic, 97th of nuclear, 9,973rd of moment and STEP-th of Coulomb (99,991), the one with the most terms of each kind,
 * and of Coulomb one that goes through branch 7 alone as often as the cap lets it, and one with the most orders; and every
 * request of the small-cabinet profile. */
#define _GNU_SOURCE
#include "../../include/xewumbal.h"
#include <stdio.h>
#include <stdlib.h>
#include <string.h>
#include <ucontext.h>

enum { SIZE = 1 << 20, MOST_BYTES = 16777216 };
enum { TRIPLES = (XEW_MOST_ORDER + 1) * (XEW_MOST_ORDER + 2) * (XEW_MOST_ORDER + 3) / 6 }; /* of a centre */

static const uint8_t centres[XEW_KINDS] = { 2, 2, 2, 3, 4 };
/* The most terms of each kind within the cap. */
static const uint8_t most_terms[XEW_KINDS][XEW_ORDERS] = {
    { 6, 0, 0, 6 }, { 6, 0, 0, 6 }, { 6, 0, 0, 6 }, { 6, 0, 0, 6, 0, 0, 6 }, { 2, 1, 0, 2, 0, 2, 1, 3, 0, 1, 0, 2 },
};
static const uint8_t deepest[XEW_ORDERS] = { 2, 0, 0, 3, 1, 1, 4, 1, 1, 1, 0, 0 };
static const uint8_t most_orders[XEW_ORDERS] = { 6, 0, 0, 6, 0, 0, 6, 0, 0, 6, 0, 0 };
static uint8_t *rolls[XEW_KINDS], out[MOST_BYTES];
static uint8_t *rolls2[XEW_KINDS]; /* in form 2 */
static uint8_t buffer[XEW_ENTRY * XEW_MOST_TERMS]; /* for groupings */
static uint8_t text_out[3 * MOST_BYTES], *texts[XEW_KINDS]; /* of the rolls */
static size_t text_lengths[XEW_KINDS];
static uint8_t *deepest_rolls[2]; /* in form 1 and form 2 */
static size_t deepest_lengths[2];
/* The requests of the profile, and their rolls: two centres of overlap, four of Coulomb. */
enum { SMALL = 16 + 256 };
static struct {
    uint8_t kind, orders[XEW_ORDERS], roll[XEW_SMALL_ROLL];
    size_t length;
} profile[SMALL];
static xew_opened opened[XEW_KINDS];
static size_t lengths[XEW_KINDS], lengths2[XEW_KINDS];
static uint8_t triples[TRIPLES][3];
static double floats[65536], matrices[3][256];
static const xew_centre a = { 0, 0, 0, 1, 1 }, b = { 1, 0, 0, 2, 6 }, c = { 0, 1, 0, 3, 118 }, d = { 0, 0, 1, 4, 0 };
static xew_nuclei nuclei; /* as many as a list may have */
static xew_contraction contraction; /* as many primitives as a function may have */

static _Alignas(64) uint8_t stack[SIZE];
static uint8_t *top, kind;
static uint32_t steps[XEW_KINDS] = { 1, 7, 97, 9973, 99991 };
static unsigned answered, refused;
static void (*function)(void);
static ucontext_t here, there;

static void note(uint8_t refusal)
{
    answered += refusal == 0;
    refused += refusal != 0;
}

/* These functions call the library themselves; what is above their frame is not counted. All calls of one row come from
 * the same height. */
#define CALLER __attribute__((noinline)) static
#define FROM_HERE (top = __builtin_frame_address(0))

static void enter(void)
{
    function();
}

static size_t measured(void (*calls)(void), uint8_t paint)
{
    memset(stack, paint, sizeof stack);
    answered = refused = 0;
    function = calls;
    getcontext(&there);
    there.uc_stack.ss_sp = stack;
    there.uc_stack.ss_size = sizeof stack;
    there.uc_link = &here;
    makecontext(&there, enter, 0);
    swapcontext(&here, &there);
    const uint8_t *low = stack;
    while (low < top && *low == paint)
        low++;
    if (low == stack) {
        fprintf(stderr, "stack: a call takes more than %d bytes\n", SIZE);
        exit(1);
    }
    return (size_t)(top - low);
}

/* One in steps of the requests of a kind, and the one with the most terms; of Coulomb most are refused 4. */
static void each_request(xew_written (*called)(const uint8_t (*orders)[12]))
{
    uint32_t count = 1;
    for (int i = 0; i < centres[kind]; i++)
        count *= TRIPLES;
    for (uint32_t number = 0; number < count; number += steps[kind]) {
        uint8_t orders[XEW_ORDERS] = { 0 };
        uint32_t rest = number;
        for (int i = 0; i < centres[kind]; i++, rest /= TRIPLES)
            memcpy(orders + 3 * i, triples[rest % TRIPLES], 3);
        note(called(&orders).refusal);
    }
    note(called(&most_terms[kind]).refusal);
}

CALLER xew_written expand_one(const uint8_t (*orders)[12])
{
    FROM_HERE;
    return xew_expand(kind, orders, out, sizeof out, 0);
}

CALLER xew_written expand2_one(const uint8_t (*orders)[12])
{
    FROM_HERE;
    return xew_expand2(kind, orders, out, sizeof out, 0);
}

CALLER xew_written measure_one(const uint8_t (*orders)[12])
{
    FROM_HERE;
    return xew_measure(kind, orders);
}

static void expand(void)
{
    each_request(expand_one);
}

static void expand2(void)
{
    each_request(expand2_one);
}

static void measure(void)
{
    each_request(measure_one);
}

static void expand_deepest(void)
{
    note(expand_one(&deepest).refusal);
}

static void expand2_deepest(void)
{
    note(expand2_one(&deepest).refusal);
}

static void expand_most_orders(void)
{
    note(expand_one(&most_orders).refusal);
}

static void measure_most_orders(void)
{
    note(measure_one(&most_orders).refusal);
}

CALLER void shell_list(void)
{
    FROM_HERE;
    note(xew_shell_list(XEW_MOST_ORDER, out, sizeof out, 0).refusal);
}

CALLER void shell2(void)
{
    FROM_HERE;
    note(xew_shell2(XEW_MOST_ORDER, XEW_MOST_ORDER, 783).refusal);
}

CALLER void shell4(void)
{
    FROM_HERE;
    note(xew_shell4(XEW_MOST_ORDER, XEW_MOST_ORDER, XEW_MOST_ORDER, XEW_MOST_ORDER, 614655).refusal);
}

CALLER void open_rolls(void)
{
    FROM_HERE;
    for (int k = 0; k < XEW_KINDS; k++)
        note(xew_open(rolls[k], lengths[k]).refusal);
}

CALLER void check(void)
{
    FROM_HERE;
    for (int k = 0; k < XEW_KINDS; k++)
        note(xew_check(rolls[k], lengths[k]).refusal);
}

CALLER void next(void)
{
    FROM_HERE;
    for (int k = 0; k < XEW_KINDS; k++)
        note(xew_next(opened[k].cursor, rolls[k], lengths[k]).refusal);
}

CALLER void open2_rolls(void)
{
    FROM_HERE;
    for (int k = 0; k < XEW_KINDS; k++)
        note(xew_open2(rolls2[k], lengths2[k]).refusal);
}

CALLER void check2(void)
{
    FROM_HERE;
    for (int k = 0; k < XEW_KINDS; k++)
        note(xew_check2(rolls2[k], lengths2[k]).refusal);
}

/* The second term, which has one before it. */
CALLER void next2(void)
{
    FROM_HERE;
    for (int k = 0; k < XEW_KINDS; k++) {
        xew_cursor2 cursor = xew_open2(rolls2[k], lengths2[k]).cursor;
        cursor = xew_next2(cursor, rolls2[k], lengths2[k]).next;
        note(xew_next2(cursor, rolls2[k], lengths2[k]).refusal);
    }
}

CALLER void move_to_form2(void)
{
    FROM_HERE;
    for (int k = 0; k < XEW_KINDS; k++)
        note(xew_to_form2(rolls[k], lengths[k], out, sizeof out, 0).refusal);
}

CALLER void move_to_form1(void)
{
    FROM_HERE;
    for (int k = 0; k < XEW_KINDS; k++)
        note(xew_to_form1(rolls2[k], lengths2[k], out, sizeof out, 0).refusal);
}

CALLER void salvage(void)
{
    FROM_HERE;
    for (int k = 0; k < XEW_KINDS; k++) {
        note(xew_salvage(rolls[k], lengths[k], out, sizeof out, 0).refusal);
        note(xew_salvage(rolls2[k], lengths2[k], out, sizeof out, 0).refusal);
    }
}

/* The headers alone of the deepest request, in both forms. */
CALLER void salvage_deepest(void)
{
    FROM_HERE;
    uint8_t head[XEW_ORDERS + 2] = { 4 };
    memcpy(head + 1, deepest, XEW_ORDERS);
    head[XEW_ORDERS + 1] = 1;
    for (int form = 0; form < 2; form++, head[0] += 16)
        note(xew_salvage(head, sizeof head, out, sizeof out, 0).refusal);
}

CALLER void confirm(void)
{
    FROM_HERE;
    for (int k = 0; k < XEW_KINDS; k++) {
        note(xew_confirm(rolls[k], lengths[k]).refusal);
        note(xew_confirm(rolls2[k], lengths2[k]).refusal);
    }
}

CALLER void confirm_deepest(void)
{
    FROM_HERE;
    for (int form = 0; form < 2; form++)
        note(xew_confirm(deepest_rolls[form], deepest_lengths[form]).refusal);
}

CALLER void small_check(void)
{
    FROM_HERE;
    for (int i = 0; i < SMALL; i++)
        note(xew_small_check(profile[i].roll, profile[i].length).refusal);
}

CALLER void small_expand(void)
{
    FROM_HERE;
    for (int i = 0; i < SMALL; i++)
        note(xew_small_expand(profile[i].kind, &profile[i].orders, out, XEW_SMALL_ROLL, 0).refusal);
}

CALLER void export_rolls(void)
{
    FROM_HERE;
    for (int k = 0; k < XEW_KINDS; k++)
        note(xew_export(rolls[k], lengths[k], text_out, sizeof text_out, 0).refusal);
}

CALLER void import_texts(void)
{
    FROM_HERE;
    for (int k = 0; k < XEW_KINDS; k++)
        note(xew_import(texts[k], text_lengths[k], out, sizeof out, 0).refusal);
}

CALLER void compare(void)
{
    FROM_HERE;
    for (int k = 0; k < XEW_KINDS; k++)
        note(xew_compare(rolls[k], lengths[k], rolls2[k], lengths2[k]).refusal);
}

CALLER void compare_next(void)
{
    FROM_HERE;
    for (int k = 0; k < XEW_KINDS; k++) {
        xew_pair at = { xew_check2(rolls2[k], lengths2[k]).cursor, xew_check2(rolls2[k], lengths2[k]).cursor, 1 };
        note(xew_compare_next(at, rolls2[k], lengths2[k], rolls2[k], lengths2[k]).refusal);
    }
}

CALLER void scale_total(void)
{
    FROM_HERE;
    for (uint8_t k = 0; k < XEW_KINDS; k++)
        note(xew_scale_total(k, &most_terms[k]).refusal);
}

CALLER void roll_total(void)
{
    FROM_HERE;
    for (int k = 0; k < XEW_KINDS; k++)
        note(xew_roll_total(rolls[k], lengths[k]).refusal);
}

CALLER void prefactors(void)
{
    FROM_HERE;
    for (uint8_t k = 0; k < XEW_KINDS; k++)
        note(xew_prefactors(k, a, b, c, d).refusal);
}

CALLER void evaluate(void)
{
    FROM_HERE;
    for (int k = 0; k < XEW_KINDS; k++) {
        size_t boys = k == 2 || k == 4 ? opened[k].cursor.l + 1u : 0;
        note(xew_evaluate(rolls[k], lengths[k], a, b, c, d, 1, floats, boys).refusal);
    }
}

CALLER void nuclear(void)
{
    FROM_HERE;
    size_t boys = (opened[2].cursor.l + 1u) * nuclei.count;
    note(xew_nuclear(rolls[2], lengths[2], a, b, nuclei, 1, floats, boys).refusal);
}

CALLER void contracted(void)
{
    FROM_HERE;
    for (int k = 0; k < 2; k++)
        note(xew_contracted(rolls[k], lengths[k], contraction, contraction, floats, 100).refusal);
}

CALLER void evaluate_grouped(void)
{
    FROM_HERE;
    for (int k = 0; k < XEW_KINDS; k++) {
        size_t boys = k == 2 || k == 4 ? opened[k].cursor.l + 1u : 0;
        note(xew_evaluate_grouped(rolls[k], lengths[k], a, b, c, d, 1, floats, boys, buffer, sizeof buffer).refusal);
    }
}

/* The last term of the grouping that the row before has left. */
CALLER void grouped_term(void)
{
    FROM_HERE;
    xew_cursor cursor = opened[4].cursor;
    note(xew_grouped_term(buffer, sizeof buffer, cursor.l, cursor.left, cursor.left).refusal);
}

CALLER void roots(void)
{
    FROM_HERE;
    note(xew_root(2).refusal);
    note(xew_root(0x1.fffffffffffffp1023).refusal);
    note(xew_root(0x1p-1074).refusal);
    note(xew_root(-0.0).refusal);
    note(xew_root(-1).refusal);
}

CALLER void jk(void)
{
    FROM_HERE;
    note(xew_jk(16, floats, 65536, matrices[0], 256, matrices[1], 256, matrices[2], 256));
}

static size_t most;

static void row(const char *name, void (*calls)(void))
{
    size_t bytes = measured(calls, 0xa5), other = measured(calls, 0x5a);
    bytes = other > bytes ? other : bytes; /* the lowest byte may have had the colour of the paint */
    most = bytes > most ? bytes : most;
    printf("  %-44s %6zu  (%u answered, %u refused)\n", name, bytes, answered, refused);
}

static void row_of_kind(const char *call, uint8_t k, void (*calls)(void))
{
    char name[64];
    kind = k;
    snprintf(name, sizeof name, "%s, kind %d, 1 in %u requests", call, k, steps[k]);
    row(name, calls);
}

static uint8_t *copied(const uint8_t *from, size_t length)
{
    uint8_t *copy = malloc(length);
    if (!copy || length == 0)
        abort();
    return memcpy(copy, from, length);
}

static void make_profile(void)
{
    for (int i = 0; i < SMALL; i++) {
        profile[i].kind = i < 16 ? 0 : 4;
        for (int centre = 0, rest = i < 16 ? i : i - 16; centre < 4; centre++, rest /= 4)
            if (rest % 4 > 0)
                profile[i].orders[3 * centre + rest % 4 - 1] = 1;
        profile[i].length = xew_expand(profile[i].kind, &profile[i].orders, profile[i].roll, XEW_SMALL_ROLL, 0).length;
    }
}

int main(int words, char **word)
{
    int count = 0;
    steps[4] = words > 1 ? (uint32_t)strtoul(word[1], NULL, 10) : steps[4];
    if (words > 2 || steps[4] == 0) {
        fprintf(stderr, "usage: stack [STEP]\n");
        return 2;
    }
    for (int m = 0; m <= XEW_MOST_ORDER; m++)
        for (int x = m; x >= 0; x--)
            for (int y = m - x; y >= 0; y--)
                memcpy(triples[count++], (uint8_t[]){ (uint8_t)x, (uint8_t)y, (uint8_t)(m - x - y) }, 3);
    for (uint8_t k = 0; k < XEW_KINDS; k++) {
        lengths[k] = xew_measure(k, &most_terms[k]).length;
        rolls[k] = malloc(lengths[k]);
        if (!rolls[k] || xew_expand(k, &most_terms[k], rolls[k], lengths[k], 0).refusal)
            abort();
        opened[k] = xew_open(rolls[k], lengths[k]);
        lengths2[k] = xew_expand2(k, &most_terms[k], out, sizeof out, 0).length;
        rolls2[k] = copied(out, lengths2[k]);
        text_lengths[k] = xew_export(rolls[k], lengths[k], text_out, sizeof text_out, 0).length;
        texts[k] = copied(text_out, text_lengths[k]);
    }
    deepest_lengths[0] = xew_expand(4, &deepest, out, sizeof out, 0).length;
    deepest_rolls[0] = copied(out, deepest_lengths[0]);
    deepest_lengths[1] = xew_expand2(4, &deepest, out, sizeof out, 0).length;
    deepest_rolls[1] = copied(out, deepest_lengths[1]);
    make_profile();
    while (nuclei.count < XEW_MOST_NUCLEI)
        nuclei.centres[nuclei.count++] = c;
    while (contraction.count < XEW_MOST_PRIMITIVES)
        contraction.primitives[contraction.count++] = (xew_primitive){ c, 1, 1 };
    printf("bytes of stack below the caller's frame\n");
    for (uint8_t k = 0; k < XEW_KINDS; k++)
        row_of_kind("xew_expand", k, expand);
    row("xew_expand, Coulomb, the deepest", expand_deepest);
    row("xew_expand, Coulomb x6,x6,x6,x6", expand_most_orders);
    for (uint8_t k = 0; k < XEW_KINDS; k++)
        row_of_kind("xew_measure", k, measure);
    row("xew_measure, Coulomb x6,x6,x6,x6", measure_most_orders);
    for (uint8_t k = 0; k < XEW_KINDS; k++)
        row_of_kind("xew_expand2", k, expand2);
    row("xew_expand2, Coulomb, the deepest", expand2_deepest);
    row("xew_shell_list, order 6", shell_list);
    row("xew_shell2, the last component", shell2);
    row("xew_shell4, the last component", shell4);
    row("xew_open, the most terms of each kind", open_rolls);
    row("xew_check, the most terms of each kind", check);
    row("xew_next, the most terms of each kind", next);
    row("xew_open2, the most terms of each kind", open2_rolls);
    row("xew_check2, the most terms of each kind", check2);
    row("xew_next2, the most terms of each kind", next2);
    row("xew_to_form2, the most terms of each kind", move_to_form2);
    row("xew_to_form1, the most terms of each kind", move_to_form1);
    row("xew_salvage, the most terms of each kind, both forms", salvage);
    row("xew_salvage, Coulomb, the deepest, both forms", salvage_deepest);
    row("xew_confirm, the most terms of each kind, both forms", confirm);
    row("xew_confirm, Coulomb, the deepest, both forms", confirm_deepest);
    row("xew_small_check, each roll of the profile", small_check);
    row("xew_small_expand, each request of the profile", small_expand);
    row("xew_export, the most terms of each kind", export_rolls);
    row("xew_import, the same as texts", import_texts);
    row("xew_compare, the most terms of each kind", compare);
    row("xew_compare_next, the same in form 2", compare_next);
    row("xew_scale_total, each kind", scale_total);
    row("xew_roll_total, the most terms of each kind", roll_total);
    row("xew_prefactors, each kind", prefactors);
    row("xew_root, normal, subnormal, -0.0, below 0", roots);
    row("xew_evaluate, the most terms of each kind", evaluate);
    row("xew_evaluate_grouped, the same", evaluate_grouped);
    row("xew_grouped_term, the last of the most", grouped_term);
    row("xew_nuclear, the most terms, 32 nuclei", nuclear);
    row("xew_contracted, the most terms, 10 by 10", contracted);
    row("xew_jk, size 16", jk);
    printf("  %-44s %6zu\n", "the deepest", most);
    return 0;
}
