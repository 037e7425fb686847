/* xewumbal: Gaussian integrals by the recurrences of Obara and Saika.
 *
 * Link with libxewumbal.a, which is for x86-64 and the System V ABI (Linux; not Windows). No call allocates, keeps anything
 * between calls or has state of its own, so any threads may call at once. The caller owns every byte and float that it lends;
 * the library reads or writes them during the call alone. Lent slices of one call must not overlap where one of them is
 * written. A slice of length 0 may have a null pointer; a pointer with no length beside it, which is orders alone, must point to
 * twelve bytes.
 *
 * Every call answers every input. refusal is 0 for success, or one of these numbers; beside a refusal every other
 * number and array of the answer is 0 (7, 14 and 20 also have their place, and of two rolls their side; 21 and 22 have their
 * line), and no lent byte or float has changed, but for the grouping that xew_evaluate_grouped leaves. On success only the
 * bytes or floats of the output itself change. Where several refusals apply, the one told is the first in the order that
 * stands at the call; 7 and 14 never apply to one roll at once. An answer is never to be dropped: its refusal says whether the
 * rest of it counts.
 *
 *    1  kind above 4, or a roll of another kind than the call takes
 *    2  an order sum the kind uses, or a shell's order, above 6
 *    3  one of the twelve orders unused by the kind is not 0
 *    4  more than 1,048,575 complete histories
 *    5  start place beyond the buffer's end
 *    6  the whole output doesn't fit from the start place, or the listing's input is over 65,536 bytes
 *    7  roll breaks a rule below; carries the place
 *    8  a used input float is not finite
 *    9  a used exponent is 0 or less
 *   10  Boys numbers are not exactly L+1 (kinds 2, 4; for each nucleus of a list) or 0 (others)
 *   11  a geometry number, table entry or result is not finite
 *   12  matrix size out of range, or a slice length wrong for it
 *   13  component number not below the count
 *   14  the roll ends before a number does; carries the place
 *   15  primitive count outside 1 to 10
 *   16  host list length wrong for the primitives
 *   17  charge above 118, or nucleus count outside 1 to 32
 *   18  root of a number below 0
 *   19  kind, form or order outside the profile
 *   20  roll is not the expansion; carries the place of the first differing byte
 *   21  line not of the shape; carries the line
 *   22  number or count that doesn't match; carries the line
 *
 * These are the words of docs/01-scope.md, which has the rules of a roll, for 14 of docs/requests/Q-5.md, for 2 and 4
 * of docs/requests/Q-6.md, which has the limits, for 15 and 16 of docs/requests/Q-1.md, for 1, 10 and 17 of
 * docs/requests/Q-10.md, for 18 of docs/requests/Q-12.md, for 19 and 20 of docs/requests/Q-13.md and for 21 and 22 of
 * docs/requests/Q-14.md; the listing is not exported.
 *
 * Kinds: 0 overlap, 1 kinetic, 2 nuclear, 3 moment, 4 Coulomb. Orders stand by centre, x y z each: A, B; for kind 3
 * then the operator; for kind 4 then C, D; zeros after them, twelve in all. L is the sum of all orders. docs/01-scope.md defines
 * terms and rolls.
 *
 * aux is the factor of every term, which the host works out; Boys numbers are the host's too. The library can't know whether
 * they are right: a wrong factor is never refused. za to zd are the exponents, z = za + zb, n = zc + zd; P = (za*A + zb*B)/z,
 * and Q the same of C and D; AB, CD, PC and PQ are squared distances; F(m) at t is the integral of u^(2m) * exp(-t*u*u) for u
 * from 0 to 1.
 *
 *    overlap, kinetic, moment   aux = exp(-za*zb/z*AB) * (pi/z)^1.5; no Boys numbers
 *    nuclear                    aux = -2 * (z/pi)^0.5 * exp(-za*zb/z*AB) * (pi/z)^1.5; F(0) to F(L) at t = z*PC. The sign is in
 *                               aux, and the charge is not: it stands with the nucleus, and the library multiplies by it
 *    Coulomb                    aux = k1*k2, k1 = 2^0.5 * pi^1.25 / z * exp(-za*zb/z*AB), k2 the same of zc, zd, n and CD; F(0)
 *                               to F(L) at t = z*n/(z + n)*PQ. The library divides by the root of ((za + zb) + zc) + zd
 *
 * Norms and contraction coefficients are not in aux. docs/AUX.md says the same with more words.
 *
 * A roll is in form 1 unless form 2 is named. Form 2 is for storing: its first number is the kind + 16, and of a term's
 * prefactors it leaves out the beginning that they share with those of the term before. A form 2 term is scale, Boys
 * order, the length of the longest shared beginning (0 for the first term), the number of further prefactors, and those;
 * all else is as in form 1. Each form's calls refuse a roll of the other with 7 at place 0. What a roll says has one
 * writing in each form, so moving it there and back returns the same bytes. docs/requests/Q-7.md has its rules.
 *
 * Stack: a call takes at most 23,032 bytes below its caller's frame (xew_confirm; xew_salvage 15,960, the expansions 15,560, the
 * others at most 6,680). This is measured, with the deepest input that is known of each call, by `checks/faults/run stack`, of the
 * library as the older kit built it; no proof bounds it.
 *
 * The float mode is a premise of every promise about floats: rounding to nearest, subnormals kept (neither flush-to-zero nor
 * denormals-are-zero), floating-point traps off. A program starts so, but for one that is linked with -ffast-math or -Ofast;
 * fesetround, feenableexcept and their like change it, for a thread and those that it starts. In another mode a call answers
 * with other bits or another refusal, or a trap ends the program. xew_float_mode below tells: ask it in each thread that calls.
 *
 * Whether a roll is right is asked in three steps. xew_open says that its header reads. xew_check says that all of it
 * reads; its terms may still be none that the integral has: a roll in which two terms were merged, doubled, exchanged or
 * lost reads, and is summed as it stands. xew_confirm says that it is the expansion of its own header, byte for byte: call
 * it of every roll that another board wrote, unless the rolls are meant to hold other terms.
 *
 * A cheap board needs two calls alone, xew_small_check and xew_small_expand: overlap and Coulomb with an order sum of at most
 * 1 on each centre. Its rolls are in form 1 and have at most XEW_SMALL_TERMS terms and XEW_SMALL_ROLL bytes, so it lends a
 * buffer of that size. docs/BENCH.md, "A cheap board", says how little of the archive that takes.
 */
#ifndef XEWUMBAL_H
#define XEWUMBAL_H

#include <stddef.h>
#include <stdint.h>

#ifdef __cplusplus
extern "C" {
#endif

/* Before each call: its answer is not to be dropped. Empty where the compiler has no such mark. */
#if defined(__GNUC__) || defined(__clang__)
#define XEW_MUST_USE __attribute__((warn_unused_result))
#else
#define XEW_MUST_USE
#endif

/* Raised when a struct, a meaning or an answer changes. A host asks xew_version once, before any other call. */
#define XEW_VERSION 2

#define XEW_KINDS 5               /* kinds are 0 to 4 */
#define XEW_ORDERS 12             /* orders of a request */
#define XEW_MOST_ORDER 6          /* order sum of a centre, of the operator, of a shell */
#define XEW_MOST_TERMS 1048575    /* terms of a roll */
#define XEW_MOST_SCALE 2176782336 /* scale of a term */
#define XEW_MOST_ROLL 32505841    /* bytes that hold any roll of xew_expand, by a proof; the longest are shorter, below */
#define XEW_MOST_SIZE 16          /* rows of J, K and D */
#define XEW_PREFACTORS 24         /* places for a term's prefactors */
#define XEW_ENTRY 40              /* bytes of a grouping buffer for each term */
#define XEW_TABLE 23              /* places for a table's entries: 8, 11, 11, 12 or 23 of them by kind */
#define XEW_MOST_CHARGE 118       /* charge of a nucleus */
#define XEW_MOST_NUCLEI 32        /* nuclei of a list */
#define XEW_MOST_PRIMITIVES 10    /* primitives of a contracted function */
#define XEW_SMALL_TERMS 54        /* terms of a roll of the small-cabinet profile */
#define XEW_SMALL_ROLL 348        /* bytes of the longest of them */

/* The longest rolls of xew_expand and their most terms, counted over every request by `oracle count KIND`, not proved:
 *    overlap         10,458 bytes       895 terms
 *    kinetic        127,541          10,265
 *    nuclear      4,665,226         380,480
 *    moment       2,971,075         185,377
 *    Coulomb     15,001,920       1,048,572, in a shorter roll */

/* Kinds. */
enum {
    XEW_OVERLAP = 0,
    XEW_KINETIC = 1,
    XEW_NUCLEAR = 2,
    XEW_MOMENT = 3,
    XEW_COULOMB = 4
};

/* Refusals, whose words stand above; 0 is none. */
enum {
    XEW_REFUSED_KIND = 1,
    XEW_REFUSED_ORDER_SUM = 2,
    XEW_REFUSED_UNUSED_ORDER = 3,
    XEW_REFUSED_TOO_MANY_TERMS = 4,
    XEW_REFUSED_START_BEYOND_END = 5,
    XEW_REFUSED_NO_ROOM = 6,
    XEW_REFUSED_BAD_ROLL = 7,
    XEW_REFUSED_INPUT_NOT_FINITE = 8,
    XEW_REFUSED_EXPONENT = 9,
    XEW_REFUSED_BOYS_COUNT = 10,
    XEW_REFUSED_RESULT_NOT_FINITE = 11,
    XEW_REFUSED_MATRIX_SIZE = 12,
    XEW_REFUSED_COMPONENT_NUMBER = 13,
    XEW_REFUSED_CUT_ROLL = 14,
    XEW_REFUSED_PRIMITIVE_COUNT = 15,
    XEW_REFUSED_HOST_COUNT = 16,
    XEW_REFUSED_NUCLEI = 17,
    XEW_REFUSED_BELOW_ZERO = 18,
    XEW_REFUSED_OUTSIDE_PROFILE = 19,
    XEW_REFUSED_NOT_THE_EXPANSION = 20,
    XEW_REFUSED_LINE_SHAPE = 21,
    XEW_REFUSED_LINE_NUMBERS = 22
};

/* found of xew_step and xew_step2. */
enum {
    XEW_FOUND_REFUSED = 0,
    XEW_FOUND_TERM = 1,
    XEW_FOUND_END = 2
};

/* found of xew_met: both rolls have a term there, and they differ; the left one alone has one; the right one alone. */
enum {
    XEW_MET_REFUSED = 0,
    XEW_MET_BOTH = 1,
    XEW_MET_LEFT = 2,
    XEW_MET_RIGHT = 3,
    XEW_MET_END = 4
};

/* side of xew_compared and xew_met beside a refusal. */
enum {
    XEW_SIDE_LEFT = 1,
    XEW_SIDE_RIGHT = 2
};

/* after of xew_salvaged: not every term was kept, so nobody knows; nothing follows the last term; bytes do. */
enum {
    XEW_AFTER_UNKNOWN = 0,
    XEW_AFTER_NONE = 1,
    XEW_AFTER_BYTES = 2
};

/* What xew_float_mode finds: another rounding direction; subnormal results become 0 (flush-to-zero); subnormal operands are taken
 * for 0 (denormals-are-zero); a trap is on. */
enum {
    XEW_MODE_ROUNDING = 1,
    XEW_MODE_FLUSHES = 2,
    XEW_MODE_ZEROES = 4,
    XEW_MODE_TRAPS = 8
};

#if defined(__x86_64__)
/* 0 where the calling thread has the float mode that the library needs, else the sum of what is otherwise. It reads the
 * processor's register and computes nothing, so it tells the same in a host that is compiled with -ffast-math. */
static inline XEW_MUST_USE int xew_float_mode(void)
{
    uint32_t mode = 0;
    __asm__ volatile("stmxcsr %0" : "=m"(mode));
    return (mode & 0x6000 ? XEW_MODE_ROUNDING : 0) | (mode & 0x8000 ? XEW_MODE_FLUSHES : 0)
        | (mode & 0x40 ? XEW_MODE_ZEROES : 0) | ((mode & 0x1f80) != 0x1f80 ? XEW_MODE_TRAPS : 0);
}
#endif

/* A centre. Kinds 0 and 1 use A and B; 2 and 3 also C's coordinates; 4 uses A to D. Unused floats are not looked at. Only a
 * nucleus' charge is looked at, C's in kind 2; every other charge may hold anything. */
typedef struct {
    double x, y, z, exponent;
    uint32_t charge;
} xew_centre;

/* A list of nuclei: its first count centres. What lies beyond the count, and a nucleus' exponent, is not looked at. */
typedef struct {
    xew_centre centres[XEW_MOST_NUCLEI];
    uint32_t count;
} xew_nuclei;

/* A primitive of a contracted function: its centre with the exponent, its norm and its coefficient. The charge is not looked
 * at. */
typedef struct {
    xew_centre centre;
    double norm, coefficient;
} xew_primitive;

/* A contracted function: its first count primitives. What lies beyond the count is not looked at. */
typedef struct {
    xew_primitive primitives[XEW_MOST_PRIMITIVES];
    uint32_t count;
} xew_contraction;

/* What was written from the start place on, or measured: its bytes, and the terms of a roll or the triples of a shell
 * list. */
typedef struct {
    size_t length;
    uint32_t terms;
    uint8_t refusal;
} xew_written;

typedef struct {
    double value;
    size_t place;
    uint8_t refusal;
} xew_value;

typedef struct {
    double root;
    uint8_t refusal;
} xew_rooted;

/* The orders of a pair of shells (zeros after them) or of four, x y z each. */
typedef struct {
    uint8_t orders[XEW_ORDERS];
    uint8_t refusal;
} xew_component;

/* A kind's prefactor table, 0.0 in the places left. */
typedef struct {
    double entries[XEW_TABLE];
    uint8_t refusal;
} xew_table;

/* Where a reader of a roll stands: the place of the next term, the terms left, the roll's kind and its L. */
typedef struct {
    size_t place;
    uint32_t left;
    uint8_t kind;
    uint8_t l;
} xew_cursor;

/* A roll's orders (zeros after those that the kind uses) and the cursor at its first term. */
typedef struct {
    xew_cursor cursor;
    size_t place;
    uint8_t orders[XEW_ORDERS];
    uint8_t refusal;
} xew_opened;

/* A term: its scale, its Boys order and its first count prefactors, zeros after them; and the cursor one term further
 * on. All but found are 0 at the end. */
typedef struct {
    xew_cursor next;
    size_t place;
    uint32_t scale;
    uint8_t boys, count, prefactors[XEW_PREFACTORS], found, refusal; /* found: XEW_FOUND_.. */
} xew_step;

/* A term of a grouping, as in xew_step. */
typedef struct {
    size_t place;
    uint32_t scale;
    uint8_t boys, count, prefactors[XEW_PREFACTORS], refusal;
} xew_restored;

/* Where a reader of a form 2 roll stands: a cursor, whose kind is 0 to 4, and the prefactors of the term before in the
 * first count places of earlier, zeros after them; none before the first term. */
typedef struct {
    xew_cursor cursor;
    uint8_t count, earlier[XEW_PREFACTORS];
} xew_cursor2;

/* As xew_opened, of a form 2 roll. */
typedef struct {
    xew_cursor2 cursor;
    size_t place;
    uint8_t orders[XEW_ORDERS];
    uint8_t refusal;
} xew_opened2;

/* As xew_step, of a form 2 roll: the term has all its prefactors, shared ones too. */
typedef struct {
    xew_cursor2 next;
    size_t place;
    uint32_t scale;
    uint8_t boys, count, prefactors[XEW_PREFACTORS], found, refusal; /* found: XEW_FOUND_.. */
} xew_step2;

/* What a move wrote from the start place on: the bytes of the roll in its new form, and its terms. place is that of 7 and
 * 14 in the roll that was moved. */
typedef struct {
    size_t length, place;
    uint32_t terms;
    uint8_t refusal;
} xew_moved;

/* What was salvaged: the bytes and the terms of the fresh roll; how many leading terms of the damaged one read and equal the
 * fresh ones (kept), and how many after them were written anew: kept + anew is terms. miscounted is 1 where the stored term
 * count is not terms. after is one of XEW_AFTER_... place is that of 7 and 14 in the damaged roll's header. */
typedef struct {
    size_t length, place;
    uint32_t terms, kept, anew;
    uint8_t miscounted, after, refusal;
} xew_salvaged;

/* What was exported from the start place on: the bytes of the text. place is that of 7 and 14 in the roll. */
typedef struct {
    size_t length, place;
    uint8_t refusal;
} xew_text;

/* What was imported from the start place on: the bytes and the terms of the form 1 roll. line is that of 21 and 22 in the text,
 * counted from 1; 0 beside 5, 6 and a success. */
typedef struct {
    size_t length;
    uint64_t line;
    uint32_t terms;
    uint8_t refusal;
} xew_imported;

/* Where both readers of a comparison stand, and the number of the position, counted from 1. */
typedef struct {
    xew_cursor2 left, right;
    uint32_t number;
} xew_pair;

/* How many positions of two rolls differ: their terms do, or only one roll has one. kinds, orders and terms are 1 where the
 * kinds, the orders that each kind uses, or the term counts differ. left and right are the orders of each roll (zeros after
 * those that its kind uses); its kind, L and term count stand in the cursor. Beside a refusal side is XEW_SIDE_LEFT or
 * XEW_SIDE_RIGHT, and place is that of 7 and 14 in that roll. */
typedef struct {
    xew_pair cursor;
    size_t place;
    uint32_t differ;
    uint8_t left[XEW_ORDERS], right[XEW_ORDERS];
    uint8_t kinds, orders, terms, side, refusal;
} xew_compared;

/* A term: its scale, its Boys order and its first count prefactors, zeros after them. */
typedef struct {
    uint32_t scale;
    uint8_t boys, count, prefactors[XEW_PREFACTORS];
} xew_term;

/* The next position that differs, its terms, and the cursor behind it. found is one of XEW_MET_..; the calls end at
 * XEW_MET_REFUSED and at XEW_MET_END. The term of a roll that has none there is zeros. side is as that of xew_compared. All but
 * found are 0 at the end. */
typedef struct {
    xew_pair next;
    size_t place;
    uint32_t number;
    xew_term left, right;
    uint8_t found, side, refusal;
} xew_met;

/* What the scales of a request's terms add up to. claimed is 1 beside a total; it is 0 for kinetic and Coulomb, whose
 * totals do not go by the summed orders, and beside a refusal. */
typedef struct {
    uint64_t total;
    uint8_t claimed;
    uint8_t refusal;
} xew_total;

/* What the scales of a roll's terms add up to. */
typedef struct {
    uint64_t total;
    size_t place;
    uint8_t refusal;
} xew_scales;

/* The XEW_VERSION of the library that is linked. Where it is not the header's, call nothing else: structs and meanings differ. */
XEW_MUST_USE
uint32_t xew_version(void);

/* Writes the roll of a request into out from start on: every term of the integral, one for each complete lowering
 * history. orders points to twelve bytes, 0 where the kind uses none, as everywhere. XEW_MOST_ROLL bytes hold any
 * roll. Refusals: 1, 2, 3, 5, 4, 6. */
XEW_MUST_USE
xew_written xew_expand(uint8_t kind, const uint8_t (*orders)[12], uint8_t *out, size_t out_len, size_t start);

/* The bytes and the terms of that roll, without writing it: xew_expand answers the same from any start place that has
 * room for so many bytes. Refusals: 1, 2, 3, 4. */
XEW_MUST_USE
xew_written xew_measure(uint8_t kind, const uint8_t (*orders)[12]);

/* Writes the roll of a request in form 2, as xew_expand does in form 1. The length plus the terms that xew_measure tells
 * always hold it. Refusals: 1, 2, 3, 5, 4, 6. */
XEW_MUST_USE
xew_written xew_expand2(uint8_t kind, const uint8_t (*orders)[12], uint8_t *out, size_t out_len, size_t start);

/* Writes the triples of a shell, (order + 1) * (order + 2) / 2 of them, three bytes each, x descending, then y. Refusals: 2, 5,
 * 6. */
XEW_MUST_USE
xew_written xew_shell_list(uint8_t order, uint8_t *out, size_t out_len, size_t start); /* terms: triples */

/* A component of two shells by its number, from 0, the last shell fastest. A shell of order m has (m + 1) * (m + 2) / 2 triples,
 * and a pair as many components as their product: at most 784. Refusals: 2, 13. */
XEW_MUST_USE
xew_component xew_shell2(uint8_t a, uint8_t b, uint32_t number);

/* A component of four shells: as many as the product of the four numbers of triples, at most 614,656. Refusals: 2, 13. */
XEW_MUST_USE
xew_component xew_shell4(uint8_t a, uint8_t b, uint8_t c, uint8_t d, uint32_t number);

/* The header of a roll alone: it says nothing of the terms. roll is exactly the roll's bytes. Refusals: 7 or 14. */
XEW_MUST_USE
xew_opened xew_open(const uint8_t *roll, size_t roll_len);

/* The whole roll judged: the same answer as xew_open where every term reads and nothing follows. Call it before
 * stepping through a roll that came from elsewhere, or summing over one: an unfinished roll opens. 14 says that the
 * roll may still be on its way, 7 that it is bad whatever follows. It does not say that the terms are those of the
 * integral: a roll whose terms were merged wrongly reads. xew_confirm says that. Refusals: 7 or 14. */
XEW_MUST_USE
xew_opened xew_check(const uint8_t *roll, size_t roll_len);

/* The term at a cursor of xew_open or xew_check, and the cursor for the next call. A cursor that was made up is
 * answered too: by what stands at its place, or by 7. Refusals: 7 or 14. */
XEW_MUST_USE
xew_step xew_next(xew_cursor cursor, const uint8_t *roll, size_t roll_len);

/* The header of a form 2 roll alone, as xew_open. The cursor's kind is told without the 16. Refusals: 7 or 14. */
XEW_MUST_USE
xew_opened2 xew_open2(const uint8_t *roll, size_t roll_len);

/* A whole form 2 roll judged, as xew_check. Refusals: 7 or 14. */
XEW_MUST_USE
xew_opened2 xew_check2(const uint8_t *roll, size_t roll_len);

/* The term at a cursor of xew_open2 or xew_check2, and the cursor for the next call, as xew_next. A cursor that was made
 * up is answered too: by what stands at its place after the term before that it names, or by 7, also where no term of its
 * kind and L has such prefactors. Refusals: 7 or 14. */
XEW_MUST_USE
xew_step2 xew_next2(xew_cursor2 cursor, const uint8_t *roll, size_t roll_len);

/* Moves a form 1 roll to form 2: reads the whole of it and writes what it says into out from start on. roll_len plus the
 * terms of the roll (cursor.left of xew_check) always hold it. Refusals: 7 or 14, 5, 6. */
XEW_MUST_USE
xew_moved xew_to_form2(const uint8_t *roll, size_t roll_len, uint8_t *out, size_t out_len, size_t start);

/* Moves a form 2 roll back to form 1. roll_len plus L for each term (cursor.cursor.left * cursor.cursor.l of xew_check2)
 * always hold it; a move into less may fit, and is refused 6 where it does not. Refusals: 7 or 14, 5, 6. */
XEW_MUST_USE
xew_moved xew_to_form1(const uint8_t *roll, size_t roll_len, uint8_t *out, size_t out_len, size_t start);

/* Salvages a damaged roll of either form whose header (kind, orders and term count) reads: the expansion of its request is
 * worked out afresh and written into out from start on, in the form of the damaged one, and compared with it. The stored
 * count does not limit that. The length that xew_measure tells of the header's kind and orders holds it, in form 2 with its
 * terms added. Refusals: 7 or 14 of the header, 5, 4, 6. */
XEW_MUST_USE
xew_salvaged xew_salvage(const uint8_t *roll, size_t roll_len, uint8_t *out, size_t out_len, size_t start);

/* Whether a roll of either form and any kind is the expansion that its header asks for, byte for byte: the bytes that
 * xew_expand, in form 2 xew_expand2, writes of its kind and orders. It is lent no buffer and writes nothing: the expansion is
 * worked out beside the roll. The answer is that of xew_check, also of a form 2 roll, whose kind is told without the 16.
 * Refusals: 7 or 14 of the whole roll, with the place; 4 where the request of its header has too many histories; 20 where the
 * roll reads and is not the expansion, with the place of the first byte that differs. */
XEW_MUST_USE
xew_opened xew_confirm(const uint8_t *roll, size_t roll_len);

/* The reader of a cheap board: takes a roll only if it is a form 1 roll of the profile and equals the fresh expansion byte for
 * byte, and then answers as xew_check. The header is read in either form. Refusals: 7 or 14 of the header; 19 for form 2, a
 * kind other than 0 and 4, or an order sum above 1 on a centre; 7 or 14 of the rest; 20 with the place of the first byte that
 * differs. */
XEW_MUST_USE
xew_opened xew_small_check(const uint8_t *roll, size_t roll_len);

/* Writes the roll of a request of the profile, as xew_expand does: XEW_SMALL_ROLL bytes hold any. Refusals: 1, 2, 3; 19 for a
 * kind other than 0 and 4, or an order sum above 1 on a centre; 5, 6. 4 is never given: no such request has more than
 * XEW_SMALL_TERMS histories. */
XEW_MUST_USE
xew_written xew_small_expand(uint8_t kind, const uint8_t (*orders)[12], uint8_t *out, size_t out_len, size_t start);

/* Writes a form 1 roll as text for a spreadsheet into out from start on: first the line kind,orders..,count, then a line
 * scale,order,prefactors.. for each term; decimal digits without leading zeros, no blanks, a line feed (one byte, 10) at the
 * end of each line. 3 * roll_len bytes always hold it. Nothing is written before the whole roll is judged. Refusals: 7 or 14,
 * 5, 6. */
XEW_MUST_USE
xew_text xew_export(const uint8_t *roll, size_t roll_len, uint8_t *out, size_t out_len, size_t start);

/* Writes the form 1 roll of such a text into out from start on. It takes exactly the texts that xew_export writes, so export
 * and then import gives the same bytes, and import and then export the same text; like a roll that reads, an imported one may
 * hold terms that no expansion gives (xew_confirm tells). text_len bytes always hold it. Nothing is written before the whole
 * text is judged, line by line from the first on, in each line the shape before the numbers. Refusals: 21 for a line that is
 * not numbers as above with single commas between them and a line feed behind, 8, 11 or 14 of them in the first line and two or
 * more in any other; 22 for a number outside the reader's limits, however many digits it has, or a count of orders, prefactors
 * or lines that does not match (a missing line counts as the next), both with the line; 5, 6. A carriage return, a sign, a
 * quote, a point, a blank, or a last line without its line feed is 21; so is a comma at the end of a line, which spreadsheets
 * put behind the shorter lines when they save. */
XEW_MUST_USE
xew_imported xew_import(const uint8_t *text, size_t text_len, uint8_t *out, size_t out_len, size_t start);

/* Compares two rolls, each of either form, term by term; both are judged whole first, the left one first. Refusals: 7 or 14, with
 * the side. */
XEW_MUST_USE
xew_compared xew_compare(const uint8_t *left, size_t left_len, const uint8_t *right, size_t right_len);

/* The next position that differs, from a cursor of xew_compare on, and the cursor for the next call. A cursor that was made up
 * is answered too: as xew_next and xew_next2 answer its two. Refusals: 7 or 14, with the side. */
XEW_MUST_USE
xew_met xew_compare_next(xew_pair cursor, const uint8_t *left, size_t left_len, const uint8_t *right, size_t right_len);

/* What the scales of a request's terms add up to, worked out from the orders alone (docs/BY-HAND.md): for overlap, nuclear
 * and moment xew_roll_total of the roll that xew_expand writes is the same number. Refusals: 1, 2, 3. */
XEW_MUST_USE
xew_total xew_scale_total(uint8_t kind, const uint8_t (*orders)[12]);

/* The scales of a roll's terms added up; the roll is judged whole first. Refusals: 7 or 14. */
XEW_MUST_USE
xew_scales xew_roll_total(const uint8_t *roll, size_t roll_len);

/* The prefactor table of a kind, as the sums use it. Refusals: 1, 8, 9, 11. */
XEW_MUST_USE
xew_table xew_prefactors(uint8_t kind, xew_centre a, xew_centre b, xew_centre c, xew_centre d);

/* The root of a finite float of 0 or above, subnormals included: the nearest float to the exact root, and the same bits on
 * every machine; the root of -0.0 is -0.0. Refusals: 8 for a float that is not finite, 18 for one below 0. */
XEW_MUST_USE
xew_rooted xew_root(double x);

/* The integral over a roll, which is judged whole first. aux and boys are as above for the roll's kind: boys are F(0) to F(L)
 * for kinds 2 and 4, and none for the others. Coulomb's aux is divided by the root of ((za + zb) + zc) + zd, as xew_root gives
 * it; in version 1 a host divided itself, and an s that is handed in now is not refused and gives wrong values. The nuclear
 * value is C's charge times the integral, so charge 0 times an integral below 0 is -0.0. Refusals: 7 or 14, 17 (kind 2), 8, 9,
 * 10, 11. */
XEW_MUST_USE
xew_value xew_evaluate(const uint8_t *roll, size_t roll_len, xew_centre a, xew_centre b, xew_centre c, xew_centre d,
                       double aux, const double *boys, size_t boys_len);

/* The nuclear values of a list of nuclei, added up from 0.0 in list order, each its charge times the integral; so the total
 * of one nucleus is 0.0 plus what xew_evaluate gives with it as C, and a total is that of all but the last nucleus plus the
 * last one's value. The roll is judged once. One aux serves all nuclei; the Boys numbers follow one another, F(0) to F(L) for
 * each nucleus. Refusals: 7 or 14; 1 for a roll of another kind than nuclear; 17, 8, 9, 10, 11, each for all nuclei before the
 * next. */
XEW_MUST_USE
xew_value xew_nuclear(const uint8_t *roll, size_t roll_len, xew_centre a, xew_centre b, xew_nuclei nuclei, double aux,
                      const double *boys, size_t boys_len);

/* The element of two contracted functions over a roll of overlap or kinetic, which is judged once. For each right primitive,
 * in order, its coefficient times the inner sum; the inner sum is over the left primitives, in order, of the left coefficient
 * times ((left norm * right norm) * value), value being what xew_evaluate gives for the pair; both sums begin at 0.0. host has
 * the aux of each pair, the right function outer: that of left i and right j stands at j * left.count + i. Refusals: 15, 16;
 * 7 or 14; 1 for a roll of another kind; 8, 9, 11, each for all pairs before the next. */
XEW_MUST_USE
xew_value xew_contracted(const uint8_t *roll, size_t roll_len, xew_contraction left, xew_contraction right,
                         const double *host, size_t host_len);

/* The same integral as xew_evaluate's, bit for bit, lent a buffer in which a Coulomb roll's terms are grouped by Boys
 * order and then summed in one pass: for large rolls it is quicker. The buffer needs XEW_ENTRY bytes for each term of a
 * Coulomb roll; for other kinds it is not looked at. Refusals: 7 or 14; for a Coulomb roll 6 when the buffer is shorter;
 * then 17 (kind 2), 8, 9, 10, 11. Once 6 is passed the grouping stands in the front of the buffer and stays there whatever
 * is answered: the one case in which a refusal changes lent bytes. It takes at most XEW_ENTRY bytes a term; everything
 * behind it is as it was. An entry is the term's number in the roll, counted from 1, as a number of a roll, then the term
 * as the roll has it; the groups stand in the order of their Boys orders, and within a group the entries in the order of
 * the roll. */
XEW_MUST_USE
xew_value xew_evaluate_grouped(const uint8_t *roll, size_t roll_len, xew_centre a, xew_centre b, xew_centre c,
                               xew_centre d, double aux, const double *boys, size_t boys_len, uint8_t *buffer,
                               size_t buffer_len);

/* The term with a number, counted from 1, of a grouping that xew_evaluate_grouped left in the front of a buffer: so the order
 * of the roll can be restored. l and terms are the roll's L and term count. The grouping may be anything: so many entries
 * are read from its front on, and what follows is not looked at. Refusals: 7 at 0 for l above 24; 13 for a number that is
 * not from 1 to terms; then 7 or 14 with the place of the first fault: an entry that does not read, a Boys order below that
 * of the entry before, a number not above that of the entry before in the same group, a second entry with the number
 * asked, and, behind the last entry, that none had it. Where every number from 1 to terms is answered it is a grouping. */
XEW_MUST_USE
xew_restored xew_grouped_term(const uint8_t *grouping, size_t grouping_len, uint8_t l, uint32_t terms, uint32_t number);

/* J and K of the integrals i and the density d, row by row: n from 1 to 16, i has n*n*n*n floats, d, j and k have n*n.
 * Every entry is summed on its own, from 0.0, lambda outer and sigma inner: J at (mu, nu) over i at (mu, nu, lambda,
 * sigma), K at (mu, nu) over i at (mu, lambda, nu, sigma), each times d at (lambda, sigma). d need not be symmetric, and
 * nothing is mirrored: even where i and d are symmetric, K may differ in a last bit across its diagonal. The answer is
 * the refusal. Refusals: 12, 8, 11. */
XEW_MUST_USE
uint8_t xew_jk(size_t n, const double *i, size_t i_len, const double *d, size_t d_len, double *j, size_t j_len,
               double *k, size_t k_len);

#ifdef __cplusplus
}
#endif

#endif
