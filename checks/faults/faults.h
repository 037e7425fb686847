/* What the files of checks/faults share. */
#ifndef FAULTS_H
#define FAULTS_H

#include "../../include/xewumbal.h"
#include <stdbool.h>

/* memory.c: memory between unreadable pages. The library sees a mapping of its own, which is read-only unless it is
 * lent for writing; this program writes the same pages by another mapping. */
enum pass { ENDS, BEGINS };
extern enum pass pass; /* where a lent slice touches an unreadable page */

struct arena {
    uint8_t *lent, *mine;
    size_t size;
};

struct slice {
    const char *name;
    void *lent, *mine;
    size_t length, width; /* elements, and the bytes of one */
    size_t before, after; /* bytes beside the slice that are watched too */
};

void make_arena(struct arena *arena, size_t size, bool writable);
struct slice lend(const struct arena *arena, const char *name, size_t length, size_t width);
struct slice lend_copy(const struct arena *arena, const char *name, const void *from, size_t length, size_t width);
void fill(const struct slice *slice, uint8_t byte);
/* Whether all bytes beside from .. to are still what fill left. */
bool untouched(const struct slice *slice, uint8_t byte, size_t from, size_t to);

/* memory.c: the call that is being made, so that it can be told and repeated. */
struct call {
    const char *name, *labels;
    uint64_t number, scene, words[8];
    struct slice slices[4];
    xew_centre centres[2 + XEW_MOST_NUCLEI];
    xew_primitive primitives[2 * XEW_MOST_PRIMITIVES];
    double aux;
    size_t slice_count, centre_count, primitive_count;
    bool has_aux;
};
extern struct call call;
extern const char *repeat; /* the words of a run, but for the scene */
_Noreturn void fail(const char *what);
void catch_faults(void);

/* inputs.c: chance. */
void seed_random(uint64_t seed, uint64_t scene);
uint64_t bits(void);
uint64_t below(uint64_t limit);
bool once_in(uint64_t times);

/* inputs.c: requests and their rolls, and other bytes. */
struct request {
    uint8_t kind, orders[XEW_ORDERS];
    size_t length;       /* of its roll; 0 where it is not known */
    const uint8_t *roll; /* or none */
};
#define MOST_BYTES 16777216
#define MOST_TEXT (3 * MOST_BYTES)
#define MOST_LIST (3 * (XEW_MOST_ORDER + 1) * (XEW_MOST_ORDER + 2) / 2)
#define MOST_BUFFER (XEW_ENTRY * XEW_MOST_TERMS + 1000) /* for a grouping, and some more */
#define MOST_BOYS 480 /* beyond what a list of nuclei needs */
#define MOST_HOST 128 /* beyond what two contracted functions need */
#define LARGEST 6
#define OVER 4
extern const struct request largest[LARGEST], over[OVER];
void make_requests(void);
const struct request *known_request(void); /* one with its roll */
void any_request(struct request *request);
size_t mutated(uint8_t *out, size_t length); /* bytes changed, lost, or put in or after; answers their length then */
size_t any_roll(uint8_t *out); /* at most MOST_BYTES */
size_t good_roll(uint8_t *out, size_t most); /* one that reads, of at most so many bytes */
size_t most_terms_roll(uint8_t *out, uint8_t kind, uint32_t terms); /* so many terms in as few bytes as can be */
size_t roll_of(uint8_t kind, uint8_t *out, size_t most); /* one that reads */
size_t any_roll2(uint8_t *out); /* the same in form 2 */
size_t good_roll2(uint8_t *out, size_t most);
size_t any_start(size_t length, size_t need);
xew_cursor any_cursor(xew_cursor cursor, size_t length);
xew_cursor2 any_cursor2(xew_cursor2 cursor, size_t length);
struct asked {
    uint8_t l;
    uint32_t terms, number;
};
/* Changes a grouping that reads, of the L and the terms that are told, and what is asked of it. Answers its length
 * then. */
size_t any_grouping(uint8_t *grouping, size_t length, struct asked *asked);

/* inputs.c: floats, and centres, whose padding may hold anything too. */
double any_float(void);
void any_floats(double *out, size_t count);
void any_centres(xew_centre centres[4]);
void any_nuclei(xew_nuclei *nuclei);
/* Other charges in all centres but the nucleus that is looked at, of a number; 4 for none. */
void other_charges(xew_centre centres[4], int nucleus);
void other_unused(xew_nuclei *nuclei); /* other nuclei beyond the count, and other exponents */
void any_contraction(xew_contraction *function);
void other_primitives(xew_contraction *function); /* others beyond the count, and other charges */

/* expected.c: what a call must answer, by docs/01-scope.md and docs/02-change-requests.md alone. */
extern const uint8_t orders_used[XEW_KINDS], table_size[XEW_KINDS];
extern const size_t longest_roll[XEW_KINDS]; /* by a count of every request, apart from the library */
uint8_t expected_request(uint8_t kind, const uint8_t *orders);
uint64_t expected_terms(uint8_t kind, const uint8_t *orders); /* histories.c: of a request that keeps the limits */
int chosen(uint8_t kind, const uint8_t *orders); /* histories.c: the centre that is lowered, 2 for the operator; -1 for none */
size_t expected_expansion(uint8_t kind, const uint8_t *orders, uint8_t *out); /* expansion.c: its roll's bytes, within the cap */
size_t expected_list(uint8_t order, uint8_t *out); /* its bytes; 0 where there is none */
xew_component expected_component(const uint8_t *shells, int count, uint32_t number);
/* Reads a number from least to most and moves on. Where there is none it stays, and answers 14 if the roll ends before
 * the number does, else 7: not the shortest form, 2^32 and above (a fifth byte above 15), or out of the limits. */
uint8_t number(const uint8_t *roll, size_t length, size_t *at, uint64_t least, uint64_t most, uint64_t *value);
xew_opened expected_header(const uint8_t *roll, size_t length, uint8_t first); /* first: what stands for kind 0 */
bool forged(xew_cursor cursor, size_t length);
xew_opened expected_open(const uint8_t *roll, size_t length);
xew_opened expected_check(const uint8_t *roll, size_t length);
xew_step expected_next(xew_cursor cursor, const uint8_t *roll, size_t length);
xew_total expected_total(uint8_t kind, const uint8_t *orders);
uint64_t expected_scales(xew_opened checked, const uint8_t *roll, size_t length); /* of a roll that reads */
uint8_t expected_table(uint8_t kind, const xew_centre *centres);                  /* 0: or 11 */
uint8_t expected_value(xew_opened checked, const xew_centre *centres, double aux, /* 0: or 11 */
                       const double *boys, size_t boys_length);
uint8_t expected_nuclear(xew_opened checked, const xew_centre *pair, const xew_nuclei *nuclei, double aux, /* 0: or 11 */
                         const double *boys, size_t boys_length);
uint8_t expected_contracted(xew_opened checked, const xew_contraction *left, const xew_contraction *right, /* 0: or 11 */
                            const double *host, size_t host_length);
/* 0: j and k, of 256 each, have the sums */
uint8_t expected_jk(size_t n, const double *i, const double *d, const size_t lengths[4], double *j, double *k);
bool all_finite(const double *floats, size_t count);

/* expected2.c: the same of form 2, and which of its own faults was met last. */
enum fault { NO_FAULT, SHARES_BEYOND, TOO_MANY, NOT_THE_LONGEST, FAULTS };
extern enum fault fault;
xew_opened2 expected_open2(const uint8_t *roll, size_t length);
xew_opened2 expected_check2(const uint8_t *roll, size_t length);
xew_step2 expected_next2(xew_cursor2 cursor, const uint8_t *roll, size_t length);
size_t put(uint8_t *out, uint64_t number); /* writes a number; answers its bytes */
/* Writes kind (first stands for kind 0), orders and term count of a cursor at the first term. */
size_t put_header(uint8_t *out, uint8_t first, xew_cursor cursor, const uint8_t *orders);
/* What a roll that reads is in form 2, into at most MOST_BYTES; answers its length. odd is the number of a term whose
 * shared length is so much more than the longest, with the further prefactors that then follow; UINT32_MAX for none. */
size_t in_form2(const uint8_t *roll, size_t length, uint8_t *out, uint32_t odd, int more);
size_t in_form1(const uint8_t *roll, size_t length, uint8_t *out); /* the way back */
bool begins_as_form2(const uint8_t *roll, size_t length);
xew_opened2 as_opened2(xew_opened opened); /* what form 1 answers, as form 2 does */
xew_step2 as_step2(xew_step step);

/* expected_commas.c: the text of a roll, the roll of a text, and which fault was met last: in the first line, in a later one,
 * in one beyond the count, by shape or by numbers, or that lines are missing. */
enum text_fault {
    NO_TEXT_FAULT, FIRST_SHAPE, FIRST_NUMBERS, LATER_SHAPE, LATER_NUMBERS, SHAPE_BEYOND, LINE_TOO_MANY, LINE_MISSING, TEXT_FAULTS
};
extern enum text_fault text_fault;
size_t expected_text(const uint8_t *roll, size_t length, uint8_t *out); /* of a roll that reads; at most MOST_TEXT */
xew_imported expected_import(const uint8_t *text, size_t length, uint8_t *out); /* out has the roll; at most so many bytes */

/* expected_grouping.c: the same of a grouping, and which of its own faults was met last. */
enum disorder { IN_ORDER, L_BEYOND, ANOTHER_NUMBER, BOYS_FALLS, NUMBER_FALLS, ASKED_TWICE, MISSING, DISORDERS };
extern enum disorder disorder;
/* The term of an entry, which stands behind its number. */
xew_step entry_term(const uint8_t *grouping, size_t length, size_t at, uint8_t l);
/* The grouping of a Coulomb roll that reads; answers its length. */
size_t expected_grouping(xew_opened checked, const uint8_t *roll, size_t length, uint8_t *out);
xew_restored expected_grouped_term(const uint8_t *grouping, size_t length, struct asked asked);

#endif
