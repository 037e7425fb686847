/* What the calls of this folder share: which function is called, and how often it gave which answer. */
#ifndef TALLY_H
#define TALLY_H

#include "faults.h"

enum function {
    EXPAND, MEASURE, EXPAND2, SHELL_LIST, SHELL2, SHELL4, OPEN, CHECK, NEXT, OPEN2, CHECK2, NEXT2, TO_FORM2, TO_FORM1,
    SALVAGE, CONFIRM, SMALL_CHECK, SMALL_EXPAND, EXPORT, IMPORT, COMPARE, COMPARE_NEXT, SCALE_TOTAL, ROLL_TOTAL, PREFACTORS, ROOT, EVALUATE, NUCLEAR, CONTRACTED,
    EVALUATE_GROUPED, GROUPED_TERM, JK,
    FUNCTIONS
};

/* Slices that may be of length 0 and null. */
enum empty {
    EXPAND_OUT, EXPAND2_OUT, LIST_OUT, OPEN_ROLL, CHECK_ROLL, NEXT_ROLL, OPEN2_ROLL, CHECK2_ROLL, NEXT2_ROLL,
    TO_FORM2_ROLL, TO_FORM2_OUT, TO_FORM1_ROLL, TO_FORM1_OUT, SALVAGE_ROLL, SALVAGE_OUT, CONFIRM_ROLL, SMALL_CHECK_ROLL,
    SMALL_EXPAND_OUT, EXPORT_ROLL, EXPORT_OUT, IMPORT_TEXT, IMPORT_OUT, COMPARE_LEFT, COMPARE_RIGHT, COMPARE_NEXT_LEFT, COMPARE_NEXT_RIGHT, TOTAL_ROLL, EVALUATE_ROLL, EVALUATE_BOYS, NUCLEAR_ROLL, NUCLEAR_BOYS,
    CONTRACTED_ROLL, CONTRACTED_HOST, GROUPED_ROLL, GROUPED_BOYS, GROUPED_BUFFER, GROUPING, JK_I, JK_D, JK_J, JK_K, EMPTIES
};

extern struct arena roll_arena, orders_arena, out_arena, boys_arena, i_arena, d_arena, j_arena, k_arena;
extern struct arena buffer_arena, grouping_arena, right_arena, text_arena, import_arena;
extern uint64_t further_calls; /* second calls with the same arguments, and steps through a roll */

/* tally.c */
void begin(enum function f, const char *labels, size_t count, const uint64_t *words);
#define BEGIN(f, labels, ...) \
    begin(f, labels, sizeof((uint64_t[]){ __VA_ARGS__ }) / sizeof(uint64_t), (uint64_t[]){ __VA_ARGS__ })
void with_slice(const struct slice *slice);
void with_centres(const xew_centre *centres, size_t count); /* after those that are told already */
void with_primitives(const xew_primitive *primitives, size_t count); /* likewise */
void with_aux(double aux);
void hold(bool good, const char *what);
/* again: 1 for the second call with the same arguments. Roots are not counted as calls that are drawn. */
void count(enum function f, uint8_t refusal, int again);
void count_found(enum function f, uint8_t found); /* of xew_next or xew_next2 */
void count_fault(enum fault met); /* of a form 2 roll */
void count_disorder(enum disorder met); /* of a grouping */
void count_salvaged(xew_salvaged told); /* what was told of a damaged roll */
void count_confirmed(uint8_t refusal, bool two); /* of a roll of form 2 or 1 */
void count_small(xew_written written); /* a roll of the profile */
void count_text_fault(enum text_fault met); /* of a text */
void count_met(uint8_t found); /* of xew_compare_next */
void count_list(uint32_t nuclei, bool only_negative); /* nuclei of a total, and whether each value of theirs is -0.0 */
/* Primitives of the two functions of an element, and whether each right one's part is -0.0. */
void count_element(uint32_t left, uint32_t right, bool only_negative);
void count_root(uint64_t bits); /* of the float whose root is asked */
void count_left(uint8_t refusal); /* a grouping left in its buffer beside a value, or beside a refusal */
void count_roll(xew_written written);
void count_histories(uint64_t histories); /* of a request over the cap */
void maybe_null(struct slice *slice, enum empty which); /* where the length is 0, half of the time */
bool same_written(xew_written a, xew_written b);
bool report(void); /* false where something that should come up did not */

/* rolls.c: calls on rolls, each made twice */
bool same_cursor(xew_cursor a, xew_cursor b);
bool same_opened(xew_opened a, xew_opened b);
xew_opened try_open(struct slice roll);
xew_opened try_check(struct slice roll);
void try_next(struct slice roll, xew_cursor cursor);
xew_cursor step_through(struct slice roll, xew_opened opened, xew_opened checked);
uint64_t try_roll_total(struct slice roll, xew_opened checked); /* the sum */
struct numbers { /* what a host gives beside a roll */
    xew_centre centres[4];
    double aux;
    double boys[48];
    size_t length; /* of boys */
};
void any_numbers(xew_opened checked, struct numbers *numbers);
void try_evaluate(struct slice roll, xew_opened checked);
void try_cuts(const uint8_t *bytes, size_t length); /* of a roll that reads */
struct slice try_expand(const struct request *request, size_t length, size_t start);

/* forms.c: calls on rolls of form 2, and moves, each made twice */
bool same_cursor2(xew_cursor2 a, xew_cursor2 b);
bool same_opened2(xew_opened2 a, xew_opened2 b);
xew_opened2 try_open2(struct slice roll);
xew_opened2 try_check2(struct slice roll);
void try_next2(struct slice roll, xew_cursor2 cursor);
xew_cursor2 step_through2(struct slice roll, xew_opened2 opened, xew_opened2 checked);
void try_cuts2(const uint8_t *bytes, size_t length); /* of a roll that reads */
void try_to_form2(struct slice roll, xew_opened checked);
void try_to_form1(struct slice roll, xew_opened2 checked);
void try_expand2(const struct request *request);
size_t any_output(size_t need, size_t *start); /* the length of an output for so many bytes, and a start place in it */

/* salvage.c: calls on damaged rolls, each made twice */
void try_salvage(struct slice roll);
void play_salvage(uint8_t *bytes); /* an expansion, damaged or not */

/* grouping.c: calls that lay terms out by Boys order, and that ask for them, each made twice */
size_t try_evaluate_grouped(struct slice roll, xew_opened checked); /* the grouping's bytes; 0 where there is none */
void try_grouping(struct slice roll, xew_opened checked); /* a grouping asked for its terms, then forged */

/* nuclei.c: calls on a list of nuclei, each made twice */
bool same_value(xew_value a, xew_value b);
void try_nuclear(struct slice roll, xew_opened checked);
void play_nuclear(uint8_t *bytes);

/* contracted.c: calls on two contracted functions, each made twice */
void try_contracted(struct slice roll, xew_opened checked);
void play_contracted(uint8_t *bytes);

/* root.c: roots, each asked twice, and quotients of Coulomb values */
enum { ROOTS_A_CALL = 10 }; /* roots for each other call that is drawn */
void play_roots(uint64_t least);
void play_quotients(void);

/* confirm.c: calls that hold a roll to its request's expansion, and those of the profile, each made twice */
void try_confirm(struct slice roll);
void play_confirm(uint8_t *bytes); /* an expansion, or one with other terms */
void play_small(uint8_t *bytes);

/* commas.c: calls that write a roll as text and read it back, each made twice */
void try_export(struct slice roll);
void try_import(struct slice text);
void play_commas(uint8_t *bytes);

/* compare.c: calls on two rolls, each made twice */
void play_compare(uint8_t *bytes);

#endif
