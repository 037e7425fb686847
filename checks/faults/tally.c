/* Which function is called, and how often it gave which answer. */
#include "tally.h"
#include <inttypes.h>
#include <stdio.h>
#include <string.h>

/* The refusals of each function, as the header lists them. */
static const struct {
    const char *name;
    uint8_t refusals[9];
} functions[FUNCTIONS] = {
    [EXPAND] = { "xew_expand", { 1, 2, 3, 5, 4, 6 } },
    [MEASURE] = { "xew_measure", { 1, 2, 3, 4 } },
    [EXPAND2] = { "xew_expand2", { 1, 2, 3, 5, 4, 6 } },
    [SHELL_LIST] = { "xew_shell_list", { 2, 5, 6 } },
    [SHELL2] = { "xew_shell2", { 2, 13 } },
    [SHELL4] = { "xew_shell4", { 2, 13 } },
    [OPEN] = { "xew_open", { 7, 14 } },
    [CHECK] = { "xew_check", { 7, 14 } },
    [NEXT] = { "xew_next", { 7, 14 } },
    [OPEN2] = { "xew_open2", { 7, 14 } },
    [CHECK2] = { "xew_check2", { 7, 14 } },
    [NEXT2] = { "xew_next2", { 7, 14 } },
    [TO_FORM2] = { "xew_to_form2", { 7, 14, 5, 6 } },
    [TO_FORM1] = { "xew_to_form1", { 7, 14, 5, 6 } },
    [SALVAGE] = { "xew_salvage", { 7, 14, 5, 4, 6 } },
    [CONFIRM] = { "xew_confirm", { 7, 14, 4, 20 } },
    [SMALL_CHECK] = { "xew_small_check", { 7, 14, 19, 20 } },
    [SMALL_EXPAND] = { "xew_small_expand", { 1, 2, 3, 19, 5, 6 } },
    [EXPORT] = { "xew_export", { 7, 14, 5, 6 } },
    [IMPORT] = { "xew_import", { 21, 22, 5, 6 } },
    [COMPARE] = { "xew_compare", { 7, 14 } },
    [COMPARE_NEXT] = { "xew_compare_next", { 7, 14 } },
    [SCALE_TOTAL] = { "xew_scale_total", { 1, 2, 3 } },
    [ROLL_TOTAL] = { "xew_roll_total", { 7, 14 } },
    [PREFACTORS] = { "xew_prefactors", { 1, 8, 9, 11 } },
    [ROOT] = { "xew_root", { 8, 18 } },
    [EVALUATE] = { "xew_evaluate", { 7, 14, 17, 8, 9, 10, 11 } },
    [NUCLEAR] = { "xew_nuclear", { 7, 14, 1, 17, 8, 9, 10, 11 } },
    [CONTRACTED] = { "xew_contracted", { 15, 16, 7, 14, 1, 8, 9, 11 } },
    [EVALUATE_GROUPED] = { "xew_evaluate_grouped", { 7, 14, 6, 17, 8, 9, 10, 11 } },
    [GROUPED_TERM] = { "xew_grouped_term", { 7, 13, 14 } },
    [JK] = { "xew_jk", { 12, 8, 11 } },
};

static const struct {
    enum function function;
    const char *slice;
} nulls[EMPTIES] = {
    [EXPAND_OUT] = { EXPAND, "out" },
    [EXPAND2_OUT] = { EXPAND2, "out" },
    [LIST_OUT] = { SHELL_LIST, "out" },
    [OPEN_ROLL] = { OPEN, "roll" },
    [CHECK_ROLL] = { CHECK, "roll" },
    [NEXT_ROLL] = { NEXT, "roll" },
    [OPEN2_ROLL] = { OPEN2, "roll" },
    [CHECK2_ROLL] = { CHECK2, "roll" },
    [NEXT2_ROLL] = { NEXT2, "roll" },
    [TO_FORM2_ROLL] = { TO_FORM2, "roll" },
    [TO_FORM2_OUT] = { TO_FORM2, "out" },
    [TO_FORM1_ROLL] = { TO_FORM1, "roll" },
    [TO_FORM1_OUT] = { TO_FORM1, "out" },
    [SALVAGE_ROLL] = { SALVAGE, "roll" },
    [SALVAGE_OUT] = { SALVAGE, "out" },
    [CONFIRM_ROLL] = { CONFIRM, "roll" },
    [SMALL_CHECK_ROLL] = { SMALL_CHECK, "roll" },
    [SMALL_EXPAND_OUT] = { SMALL_EXPAND, "out" },
    [EXPORT_ROLL] = { EXPORT, "roll" },
    [EXPORT_OUT] = { EXPORT, "out" },
    [IMPORT_TEXT] = { IMPORT, "text" },
    [IMPORT_OUT] = { IMPORT, "out" },
    [COMPARE_LEFT] = { COMPARE, "left" },
    [COMPARE_RIGHT] = { COMPARE, "right" },
    [COMPARE_NEXT_LEFT] = { COMPARE_NEXT, "left" },
    [COMPARE_NEXT_RIGHT] = { COMPARE_NEXT, "right" },
    [TOTAL_ROLL] = { ROLL_TOTAL, "roll" },
    [EVALUATE_ROLL] = { EVALUATE, "roll" },
    [EVALUATE_BOYS] = { EVALUATE, "boys" },
    [NUCLEAR_ROLL] = { NUCLEAR, "roll" },
    [NUCLEAR_BOYS] = { NUCLEAR, "boys" },
    [CONTRACTED_ROLL] = { CONTRACTED, "roll" },
    [CONTRACTED_HOST] = { CONTRACTED, "host" },
    [GROUPED_ROLL] = { EVALUATE_GROUPED, "roll" },
    [GROUPED_BOYS] = { EVALUATE_GROUPED, "boys" },
    [GROUPED_BUFFER] = { EVALUATE_GROUPED, "buffer" },
    [GROUPING] = { GROUPED_TERM, "grouping" },
    [JK_I] = { JK, "i" },
    [JK_D] = { JK, "d" },
    [JK_J] = { JK, "j" },
    [JK_K] = { JK, "k" },
};

/* Rolls that have to come up, by their lengths. */
static const struct {
    const char *label;
    size_t length;
} large[] = {
    { "895 terms", 10458 },       { "10,265 terms", 127541 },      { "380,480 terms", 4665226 },
    { "185,377 terms", 2971075 }, { "1,048,572 terms", 14908072 }, { "15,001,920 bytes", 15001920 },
};
enum { REFUSALS = 23, LARGE = sizeof large / sizeof *large }; /* no refusal, and 1 to 22 */

static const char *const fault_names[FAULTS] = { "", "shares beyond", "too many", "not the longest" };
static const char *const disorder_names[DISORDERS] = { "", "L beyond", "another number", "Boys order falls",
                                                       "number falls", "asked twice", "missing" };

static const char *const text_fault_names[TEXT_FAULTS] = { "", "first shape", "first numbers", "later shape", "later numbers",
                                                           "shape beyond", "a line too many", "a line missing" };

/* What is told of a damaged roll: nothing kept, some terms, all and nothing after, all and bytes after, another count. */
enum { NONE_KEPT, SOME_KEPT, ALL_KEPT, BYTES_AFTER, OTHER_COUNT, TOLD };
static const char *const told_names[TOLD] = { "none kept", "some kept", "all kept", "bytes after", "another count" };

/* What is found of a roll that reads and of its request's expansion. */
enum { SAME1, SAME2, OTHER1, OTHER2, HELD };
static const char *const held_names[HELD] = { "the same in form 1", "in form 2", "another in form 1", "in form 2" };

/* What a total is of. */
enum { ONE_NUCLEUS, MOST_NUCLEI, ONLY_NEGATIVE, LISTS };
static const char *const list_names[LISTS] = { "one nucleus", "32 nuclei", "only of -0.0" };

/* What an element is of. */
enum { ONE_BY_ONE, TEN_BY_TEN, OTHER_NUMBERS, PARTS_NEGATIVE, ELEMENTS };
static const char *const element_names[ELEMENTS] = { "one by one", "ten by ten", "other counts", "only of -0.0" };

static const char *const met_names[5] = { "refused", "both", "left", "right", "end" };

uint64_t further_calls;
static uint64_t answers[FUNCTIONS][REFUSALS], found[FUNCTIONS][3], faults[FAULTS], rolls[LARGE], empties[EMPTIES];
/* Roots of -0.0; of floats not below 0 by their exponents, and of subnormals among them by their digits. */
static uint64_t minus_zeros, exponents[2048], lengths[53];
static uint64_t helds[HELD], most_small_terms, most_small_bytes, text_faults[TEXT_FAULTS];
static uint64_t disorders[DISORDERS], tolds[TOLD], lists[LISTS], elements[ELEMENTS], mets[5], left[REFUSALS], just_over, most_histories;

void begin(enum function f, const char *labels, size_t words_count, const uint64_t *words)
{
    call.slice_count = call.centre_count = call.primitive_count = 0;
    call.has_aux = false;
    call.labels = labels;
    memcpy(call.words, words, words_count * sizeof *words);
    call.name = functions[f].name;
}

void with_slice(const struct slice *slice)
{
    call.slices[call.slice_count++] = *slice;
}

void with_centres(const xew_centre *centres, size_t count)
{
    memcpy(call.centres + call.centre_count, centres, count * sizeof *centres);
    call.centre_count += count;
}

void with_primitives(const xew_primitive *primitives, size_t count)
{
    memcpy(call.primitives + call.primitive_count, primitives, count * sizeof *primitives);
    call.primitive_count += count;
}

void with_aux(double aux)
{
    call.aux = aux;
    call.has_aux = true;
}

void hold(bool good, const char *what)
{
    if (!good)
        fail(what);
}

void count(enum function f, uint8_t refusal, int again)
{
    if (refusal != 0)
        hold(refusal < REFUSALS && memchr(functions[f].refusals, refusal, sizeof functions[f].refusals),
             "a refusal that the header does not list here");
    if (again) {
        further_calls++;
        return;
    }
    answers[f][refusal]++;
    call.number += f != ROOT;
}

void count_found(enum function f, uint8_t which)
{
    found[f][which]++;
}

void count_fault(enum fault met)
{
    faults[met]++;
}

void count_disorder(enum disorder met)
{
    disorders[met]++;
}

void count_salvaged(xew_salvaged told)
{
    tolds[told.after ? ALL_KEPT + (told.after == 2) : told.kept > 0]++;
    tolds[OTHER_COUNT] += told.miscounted;
}

void count_confirmed(uint8_t refusal, bool two)
{
    if (refusal == 0 || refusal == 20)
        helds[(refusal ? OTHER1 : SAME1) + two]++;
}

void count_small(xew_written written)
{
    hold(written.terms <= XEW_SMALL_TERMS && written.length <= XEW_SMALL_ROLL, "a roll beyond the header's limits of the profile");
    most_small_terms += written.terms == XEW_SMALL_TERMS;
    most_small_bytes += written.length == XEW_SMALL_ROLL;
}

void count_text_fault(enum text_fault met)
{
    text_faults[met]++;
}

void count_met(uint8_t found)
{
    mets[found]++;
}

void count_list(uint32_t nuclei, bool only_negative)
{
    lists[ONE_NUCLEUS] += nuclei == 1;
    lists[MOST_NUCLEI] += nuclei == XEW_MOST_NUCLEI;
    lists[ONLY_NEGATIVE] += only_negative;
}

void count_element(uint32_t left_count, uint32_t right_count, bool only_negative)
{
    bool one = left_count == 1 && right_count == 1;
    bool ten = left_count == XEW_MOST_PRIMITIVES && right_count == XEW_MOST_PRIMITIVES;
    elements[one ? ONE_BY_ONE : ten ? TEN_BY_TEN : OTHER_NUMBERS]++;
    elements[PARTS_NEGATIVE] += only_negative;
}

void count_root(uint64_t bits)
{
    if (bits >> 63) {
        minus_zeros += bits << 1 == 0;
        return;
    }
    exponents[bits >> 52]++;
    int digits = 0;
    while (bits >> digits)
        digits++;
    if (digits <= 52)
        lengths[digits]++;
}

void count_left(uint8_t refusal)
{
    left[refusal]++;
}

void count_roll(xew_written written)
{
    for (int i = 0; i < LARGE; i++)
        rolls[i] += written.length == large[i].length;
}

void count_histories(uint64_t histories)
{
    just_over += histories == XEW_MOST_TERMS + 1;
    most_histories += histories == 905995238216;
}

void maybe_null(struct slice *slice, enum empty which)
{
    if (slice->length == 0 && once_in(2)) {
        slice->lent = NULL;
        empties[which]++;
    }
}

bool same_written(xew_written a, xew_written b)
{
    return a.length == b.length && a.terms == b.terms && a.refusal == b.refusal;
}

static uint64_t least_of(const uint64_t *times, size_t count)
{
    uint64_t least = times[0];
    for (size_t i = 1; i < count; i++)
        least = times[i] < least ? times[i] : least;
    return least;
}

static bool complete;

/* One count of the table. */
static void show(const char *function, const char *label, uint64_t times)
{
    printf(", %s %" PRIu64, label, times);
    if (times == 0) {
        complete = false;
        fprintf(stderr, "never came up: %s %s\n", function, label);
    }
}

bool report(void)
{
    char label[32];
    complete = true;
    printf("all calls, drawn %" PRIu64 ", second calls and steps %" PRIu64 "\n", call.number, further_calls);
    for (enum function f = 0; f < FUNCTIONS; f++) {
        const char *name = functions[f].name;
        printf("%s", name);
        show(name, "answered", answers[f][0]);
        for (int i = 0; f == EXPAND && i < LARGE; i++)
            show(name, large[i].label, rolls[i]);
        if (f == MEASURE) {
            show(name, "1,048,576 histories", just_over);
            show(name, "905,995,238,216 histories", most_histories);
        }
        if (f == NEXT || f == NEXT2) {
            show(name, "term", found[f][1]);
            show(name, "end", found[f][2]);
        }
        for (int i = 1; f == CHECK2 && i < FAULTS; i++)
            show(name, fault_names[i], faults[i]);
        for (int i = 1; f == GROUPED_TERM && i < DISORDERS; i++)
            show(name, disorder_names[i], disorders[i]);
        for (int i = 0; f == SALVAGE && i < TOLD; i++)
            show(name, told_names[i], tolds[i]);
        for (int i = 0; f == CONFIRM && i < HELD; i++)
            show(name, held_names[i], helds[i]);
        if (f == SMALL_EXPAND) {
            show(name, "54 terms", most_small_terms);
            show(name, "348 bytes", most_small_bytes);
        }
        for (int i = 1; f == IMPORT && i < TEXT_FAULTS; i++)
            show(name, text_fault_names[i], text_faults[i]);
        for (int i = 0; f == COMPARE_NEXT && i < 5; i++)
            show(name, met_names[i], mets[i]);
        for (int i = 0; f == NUCLEAR && i < LISTS; i++)
            show(name, list_names[i], lists[i]);
        for (int i = 0; f == CONTRACTED && i < ELEMENTS; i++)
            show(name, element_names[i], elements[i]);
        if (f == ROOT) {
            show(name, "-0.0", minus_zeros);
            show(name, "each exponent", least_of(exponents, 2047));
            show(name, "each length of a subnormal", least_of(lengths, 53));
        }
        if (f == EVALUATE_GROUPED)
            show(name, "grouped", left[0]);
        for (const uint8_t *refusal = functions[f].refusals; *refusal; refusal++) {
            snprintf(label, sizeof label, "refused %d", *refusal);
            show(name, label, answers[f][*refusal]);
            if (f != EVALUATE_GROUPED || *refusal < 8 || *refusal > 11)
                continue;
            snprintf(label, sizeof label, "grouped beside %d", *refusal);
            show(name, label, left[*refusal]);
        }
        for (int i = 0; i < EMPTIES; i++)
            if (nulls[i].function == f) {
                snprintf(label, sizeof label, "null %s", nulls[i].slice);
                show(name, label, empties[i]);
            }
        printf("\n");
    }
    return complete;
}
