/* calls ends|begins CALLS SEED [SCENE]: random calls of the exported functions on memory whose lent slices end at, or
 * begin after, an unreadable page. Each call is made twice and held against expected.c and the header's promises.
 * CALLS counts arguments drawn anew, not second calls nor steps through a roll. With SCENE, that scene alone. */
#include "tally.h"
#include <math.h>
#include <stdio.h>
#include <stdlib.h>
#include <string.h>
#include <unistd.h>

static uint8_t bytes[MOST_BYTES];
struct arena roll_arena, orders_arena, out_arena, boys_arena, i_arena, d_arena, j_arena, k_arena;
struct arena buffer_arena, grouping_arena, right_arena, text_arena, import_arena;

static void try_shell_list(void)
{
    uint8_t list[MOST_LIST] = { 0 }, order = (uint8_t)(once_in(8) ? bits() : below(XEW_MOST_ORDER + 2));
    size_t need = expected_list(order, list);
    size_t length = (size_t[]){ need, need, need + below(80), need ? need - 1 : 0, below(100), 0, 1 }[below(7)];
    size_t start = any_start(length, need), room = start <= length ? length - start : 0;
    xew_written expected = { need, (uint32_t)need / 3, 0 };
    if (order > XEW_MOST_ORDER || start > length || need > room)
        expected = (xew_written){ 0, 0, order > XEW_MOST_ORDER ? 2 : start > length ? 5 : 6 };
    struct slice out = lend(&out_arena, "out", length, 1);
    maybe_null(&out, LIST_OUT);
    for (int again = 0; again < 2; again++) {
        uint8_t byte = (uint8_t)bits();
        fill(&out, byte);
        BEGIN(SHELL_LIST, "order out_len start", order, length, start);
        with_slice(&out);
        xew_written w = xew_shell_list(order, out.lent, length, start);
        count(SHELL_LIST, w.refusal, again);
        hold(same_written(w, expected), "xew_shell_list: another answer than document 01's");
        size_t from = w.refusal ? 0 : start;
        hold(untouched(&out, byte, from, from + w.length), "xew_shell_list: a byte changed beside the list");
        hold(!memcmp((uint8_t *)out.mine + from, list, w.length), "xew_shell_list: another list than document 01's");
    }
}

static void try_component(enum function f)
{
    int shells = f == SHELL2 ? 2 : 4;
    uint8_t m[4];
    uint32_t all = 1;
    for (int i = 0; i < 4; i++) {
        m[i] = (uint8_t)(once_in(30) ? bits() : once_in(30) ? XEW_MOST_ORDER + 1 : below(XEW_MOST_ORDER + 1));
        all *= i < shells && m[i] <= XEW_MOST_ORDER ? (m[i] + 1u) * (m[i] + 2u) / 2 : 1;
    }
    uint32_t number = (uint32_t[]){ all, all - 1, all + 1, 0, (uint32_t)bits(), UINT32_MAX, (uint32_t)below(all),
                                    (uint32_t)below(all) }[below(8)];
    xew_component expected = expected_component(m, shells, number);
    for (int again = 0; again < 2; again++) {
        BEGIN(f, "a b c d number", m[0], m[1], m[2], m[3], number);
        xew_component c = f == SHELL2 ? xew_shell2(m[0], m[1], number) : xew_shell4(m[0], m[1], m[2], m[3], number);
        count(f, c.refusal, again);
        hold(c.refusal == expected.refusal && !memcmp(c.orders, expected.orders, sizeof c.orders),
             "a component: another answer than document 01's");
    }
}

static void try_prefactors(void)
{
    xew_centre c[4];
    any_centres(c);
    uint8_t kind = (uint8_t)(once_in(20) ? bits() : below(6)), expected = expected_table(kind, c);
    xew_table first = { 0 };
    for (int again = 0; again < 2; again++) {
        BEGIN(PREFACTORS, "kind", kind);
        with_centres(c, 4);
        xew_table table = xew_prefactors(kind, c[0], c[1], c[2], c[3]);
        count(PREFACTORS, table.refusal, again);
        hold(table.refusal == expected || (!expected && table.refusal == 11), "xew_prefactors: another refusal");
        for (int i = table.refusal ? 0 : table_size[kind]; i < XEW_TABLE; i++)
            hold(table.entries[i] == 0 && !signbit(table.entries[i]), "xew_prefactors: a number beside the entries");
        hold(all_finite(table.entries, XEW_TABLE), "xew_prefactors: an entry that is not finite");
        hold(!again || (first.refusal == table.refusal && !memcmp(first.entries, table.entries, sizeof table.entries)),
             "xew_prefactors: two answers");
        first = table;
        other_charges(c, 4);
    }
}

static void try_jk(void)
{
    static double floats[65537], matrix[257], sums_j[256], sums_k[256];
    static const size_t wrong[] = { 0, 17, 18, 255, 65536, (size_t)1 << 32, (size_t)3 << 32, (size_t)1 << 62,
                                    (size_t)1 << 63, SIZE_MAX };
    size_t size = once_in(2000) ? 16 : once_in(40) ? 5 + below(6) : 1 + below(4), n = size;
    if (once_in(15)) {
        n = wrong[below(10)];
        size = once_in(2) ? 0 : size; /* what n*n and n*n*n*n are modulo 2^64, mostly */
    }
    size_t lengths[4] = { size * size * size * size, size * size, size * size, size * size };
    if (once_in(3)) {
        size_t *one = &lengths[below(4)];
        *one = (size_t[]){ 0, *one + 1, *one ? *one - 1 : 1, below(20) }[below(4)];
    }
    any_floats(floats, lengths[0]);
    any_floats(matrix, lengths[1]);
    struct slice i = lend_copy(&i_arena, "i", floats, lengths[0], 8);
    struct slice d = lend_copy(&d_arena, "d", matrix, lengths[1], 8);
    struct slice j = lend(&j_arena, "j", lengths[2], 8), k = lend(&k_arena, "k", lengths[3], 8);
    uint8_t expected = expected_jk(n, floats, matrix, lengths, sums_j, sums_k);
    maybe_null(&i, JK_I);
    maybe_null(&d, JK_D);
    maybe_null(&j, JK_J);
    maybe_null(&k, JK_K);
    for (int again = 0; again < 2; again++) {
        uint8_t byte = (uint8_t)bits();
        fill(&j, byte);
        fill(&k, byte);
        BEGIN(JK, "n", n);
        with_slice(&i);
        with_slice(&d);
        with_slice(&j);
        with_slice(&k);
        uint8_t refusal = xew_jk(n, i.lent, lengths[0], d.lent, lengths[1], j.lent, lengths[2], k.lent, lengths[3]);
        count(JK, refusal, again);
        hold(refusal == expected, "xew_jk: another refusal");
        hold(untouched(&j, byte, 0, refusal ? 0 : n * n) && untouched(&k, byte, 0, refusal ? 0 : n * n),
             "xew_jk: a float changed beside a refusal or the result");
        if (refusal)
            continue;
        hold(!memcmp(sums_j, j.mine, n * n * 8) && !memcmp(sums_k, k.mine, n * n * 8),
             "xew_jk: another sum than document 02's");
    }
}

/* The number of a large scene, which is rare since it takes seconds; one of each comes early. */
static uint64_t large_scene(void)
{
    return call.scene % 200 == 100 ? call.scene / 200 % 200 : UINT64_MAX;
}

/* A largest request, or a roll of as many terms as one may have and one of one more. */
static void play_large(uint64_t number)
{
    if (number < LARGEST) {
        struct slice roll = try_expand(&largest[number], largest[number].length, 0);
        try_evaluate(roll, expected_open(roll.mine, roll.length));
        try_nuclear(roll, expected_open(roll.mine, roll.length));
        try_contracted(roll, expected_open(roll.mine, roll.length));
        try_confirm(roll);
        try_export(roll);
        try_grouping(roll, expected_open(roll.mine, roll.length));
        try_to_form2(roll, expected_open(roll.mine, roll.length));
        try_expand2(&largest[number]);
        return;
    }
    for (uint32_t more = 0; more < 2; more++) {
        size_t length = most_terms_roll(bytes, 0, XEW_MOST_TERMS + more);
        struct slice roll = lend_copy(&roll_arena, "roll", bytes, length, 1);
        xew_opened opened = try_open(roll), checked = try_check(roll);
        hold(same_opened(opened, checked), "xew_open and xew_check disagree");
        try_evaluate(roll, checked);
        try_roll_total(roll, checked);
        try_to_form2(roll, checked);
        roll = lend_copy(&roll_arena, "roll", bytes, most_terms_roll(bytes, 4, XEW_MOST_TERMS + more), 1);
        try_grouping(roll, try_check(roll));
    }
}

/* Calls on a roll of form 2, and moves. */
static void play_forms(void)
{
    struct slice roll = lend_copy(&roll_arena, "roll", bytes, any_roll2(bytes), 1);
    xew_opened2 opened = try_open2(roll), checked = try_check2(roll);
    hold(checked.refusal || same_opened2(opened, checked), "xew_open2 and xew_check2 disagree");
    xew_cursor2 cursor = { .cursor = { below(roll.length + 1), 1, 0, 2 * XEW_MOST_ORDER } };
    if (!opened.refusal)
        cursor = step_through2(roll, opened, checked);
    try_next2(roll, cursor);
    for (int i = 0; i < 3; i++)
        try_next2(roll, any_cursor2(cursor, roll.length));
    try_to_form1(roll, checked);
    if (once_in(8))
        try_confirm(roll);
    if (once_in(8))
        try_salvage(roll);
    if (once_in(8)) { /* in the other form's calls */
        try_open(roll);
        try_to_form2(roll, try_check(roll));
    }
    if (once_in(100))
        try_cuts2(bytes, good_roll2(bytes, 400));
    struct request request;
    any_request(&request);
    try_expand2(call.scene % 60 == 9 ? &over[call.scene / 60 % OVER] : once_in(2) ? known_request() : &request);
}

/* Calls on a Coulomb roll that reads, and on its grouping. */
static void play_grouping(void)
{
    struct slice roll = lend_copy(&roll_arena, "roll", bytes, roll_of(4, bytes, MOST_BYTES), 1);
    xew_opened checked = try_check(roll);
    for (int i = 0; i < 3; i++)
        try_grouping(roll, checked);
}

static void play(void)
{
    struct slice roll = lend_copy(&roll_arena, "roll", bytes, any_roll(bytes), 1);
    xew_opened opened = try_open(roll), checked = try_check(roll);
    hold(checked.refusal || same_opened(opened, checked), "xew_open and xew_check disagree");
    xew_cursor cursor = { below(roll.length + 1), 1, 0, 2 * XEW_MOST_ORDER };
    if (!opened.refusal)
        cursor = step_through(roll, opened, checked);
    try_next(roll, cursor);
    for (int i = 0; i < 3; i++)
        try_next(roll, any_cursor(cursor, roll.length));
    try_roll_total(roll, checked);
    try_evaluate(roll, checked);
    try_evaluate(roll, checked);
    try_nuclear(roll, checked);
    try_contracted(roll, checked);
    try_evaluate_grouped(roll, checked);
    try_to_form2(roll, checked);
    if (once_in(8))
        try_confirm(roll);
    if (once_in(8))
        try_salvage(roll);

    if (once_in(100))
        try_cuts(bytes, good_roll(bytes, 400));

    const struct request *known = known_request();
    size_t need = known->length;
    size_t length = (size_t[]){ need, need, need + below(200), need - 1, below(need), 0, 1 }[below(7)];
    try_expand(known, length, any_start(length, need));
    if (call.scene % 200 == 3)
        try_expand(&over[call.scene / 200 % OVER], 100, any_start(100, 100));
    struct request request;
    any_request(&request);
    length = once_in(5000) ? MOST_BYTES : once_in(100) ? 1000000 : below(4000);
    try_expand(&request, length, any_start(length, 100));

    try_shell_list();
    try_component(SHELL2);
    try_component(SHELL4);
    try_prefactors();
    try_prefactors();
    try_jk();
}

int main(int words, char **word)
{
    bool ends = words > 1 && !strcmp(word[1], "ends");
    if ((words != 4 && words != 5) || (!ends && strcmp(word[1], "begins"))) {
        fprintf(stderr, "usage: calls ends|begins CALLS SEED [SCENE]\n");
        return 2;
    }
    static char again[1024];
    snprintf(again, sizeof again, "%s %s %s %s", word[0], word[1], word[2], word[3]);
    repeat = again;
    pass = ends ? ENDS : BEGINS;
    uint64_t calls = strtoull(word[2], NULL, 10), seed = strtoull(word[3], NULL, 10);
    make_arena(&roll_arena, MOST_BYTES, false);
    make_arena(&orders_arena, XEW_ORDERS, false);
    make_arena(&out_arena, MOST_BYTES, true);
    make_arena(&boys_arena, MOST_BOYS * 8, false);
    make_arena(&buffer_arena, MOST_BUFFER, true);
    make_arena(&grouping_arena, MOST_BUFFER, false);
    make_arena(&right_arena, MOST_BYTES, false);
    make_arena(&text_arena, MOST_TEXT, true);
    make_arena(&import_arena, MOST_TEXT, false);
    make_arena(&i_arena, 65537 * 8, false);
    make_arena(&d_arena, 257 * 8, false);
    make_arena(&j_arena, 257 * 8, true);
    make_arena(&k_arena, 257 * 8, true);
    catch_faults();
    alarm(10);
    seed_random(seed, 0);
    make_requests();
    if (words == 5)
        call.scene = strtoull(word[4], NULL, 10) - 1;
    do {
        seed_random(seed, ++call.scene);
        uint64_t before = call.number;
        bool is_large = large_scene() <= LARGEST;
        alarm(is_large ? 120 : 10);
        if (is_large)
            play_large(large_scene());
        else if (call.scene % 3 == 0)
            play_forms();
        else if (call.scene % 6 == 4) {
            play_grouping();
            play_nuclear(bytes);
            play_contracted(bytes);
        }
        else if (call.scene % 6 == 2)
            for (int i = 0; i < 4; i++) {
                play_salvage(bytes);
                play_compare(bytes);
                play_confirm(bytes);
                play_small(bytes);
                play_commas(bytes);
            }
        else
            play();
        play_quotients();
        play_roots(ROOTS_A_CALL * (call.number - before));
    } while (words == 4 && call.number < calls);
    return words == 5 || report() ? 0 : 1;
}
