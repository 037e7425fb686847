/* A host of the library: the integrals of water in STO-3G, beside the values that they should have (expected.txt).
 * It ends with 1 if a difference is above 1e-12 of the largest value of its kind. The host makes what the library
 * takes as input, exp, roots and Boys numbers; norms and contraction are its affair too. */
#include <math.h>
#include <stdio.h>
#include <stdlib.h>
#include "xewumbal.h"
#define PI 3.14159265358979323846
enum { OVERLAP, KINETIC, NUCLEAR, MOMENT, COULOMB };
enum { ATOMS = 3, FUNCTIONS = 7, PRIMITIVES = 3, MOST_L = 4, LEAST_VALUES = 12 };

static const double expected[] = {
#include "expected.txt"
};
static const xew_nuclei atoms = {{{0.2, -0.1, 0.3, 0, 8}, {1.6, 1.0, 0.6, 0, 1}, {-1.2, 1.0, -0.1, 0, 1}}, ATOMS}; /* in bohr */

#define O1 {130.7093200, 23.8088610, 6.4436083}
#define O2 {5.0331513, 1.1695961, 0.3803890}
#define H1 {3.42525091, 0.62391373, 0.16885540}
#define S1 {0.15432897, 0.53532814, 0.44463454}
#define S2 {-0.09996723, 0.39951283, 0.70011547}
#define P2 {0.15591627, 0.60768372, 0.39195739}
static const struct {
    const char *name;
    int atom, axis; /* -1 for an s function */
    double exponents[PRIMITIVES], coefficients[PRIMITIVES];
} basis[FUNCTIONS] = {
    {"O1s", 0, -1, O1, S1}, {"O2s", 0, -1, O2, S2}, {"O2px", 0, 0, O2, P2}, {"O2py", 0, 1, O2, P2},
    {"O2pz", 0, 2, O2, P2}, {"H1s", 1, -1, H1, S1}, {"H'1s", 2, -1, H1, S1},
};

/* Goes on where nothing was refused; else says why and ends. */
static void accept(uint8_t refusal, size_t place)
{
    static const char *const words[] = {
        [1] = "kind above 4, or a roll of another kind than the call takes",
        [2] = "an order sum the kind uses, or a shell's order, above 6",
        [3] = "one of the twelve orders unused by the kind is not 0",
        [4] = "more than 1,048,575 complete histories",
        [5] = "start place beyond the buffer's end",
        [6] = "the whole output doesn't fit from the start place, or the listing's input is over 65,536 bytes",
        [7] = "roll breaks a rule below; carries the place",
        [8] = "a used input float is not finite",
        [9] = "a used exponent is 0 or less",
        [10] = "Boys numbers are not exactly L+1 (kinds 2, 4; for each nucleus of a list) or 0 (others)",
        [11] = "a geometry number, table entry or result is not finite",
        [12] = "matrix size out of range, or a slice length wrong for it",
        [13] = "component number not below the count",
        [14] = "the roll ends before a number does; carries the place",
        [15] = "primitive count outside 1 to 10",
        [16] = "host list length wrong for the primitives",
        [17] = "charge above 118, or nucleus count outside 1 to 32",
        [18] = "root of a number below 0",
        [19] = "kind, form or order outside the profile",
        [20] = "roll is not the expansion; carries the place of the first differing byte",
        [21] = "line not of the shape; carries the line",
        [22] = "number or count that doesn't match; carries the line",
    };
    if (refusal == 0) return;
    fprintf(stderr, "water: refused %d, place %zu: %s\n", refusal, place, words[refusal]);
    exit(1);
}

/* F(0) to F(l) at t: below 40 the series of F(l), then downward; above, where erf of the root is 1, upward. */
static void boys_numbers(int l, double t, double *f)
{
    double small = exp(-t), term = 1.0 / (2 * l + 1), sum = term;
    if (t < 40) {
        for (int i = 1; term > 1e-17 * sum; i++) sum += term *= 2 * t / (2 * l + 2 * i + 1);
        f[l] = small * sum;
        for (int m = l - 1; m >= 0; m--) f[m] = (2 * t * f[m + 1] + small) / (2 * m + 1);
    } else {
        f[0] = 0.5 * sqrt(PI / t);
        for (int m = 0; m < l; m++) f[m + 1] = ((2 * m + 1) * f[m] - small) / (2 * t);
    }
}

static double squared_distance(xew_centre a, xew_centre b)
{
    return (a.x - b.x) * (a.x - b.x) + (a.y - b.y) * (a.y - b.y) + (a.z - b.z) * (a.z - b.z);
}

/* The product of two s functions: its centre and exponent, and its overlap. */
static xew_centre product(xew_centre a, xew_centre b, double *overlap)
{
    double z = a.exponent + b.exponent, u = a.exponent / z, v = b.exponent / z;
    *overlap = exp(-u * b.exponent * squared_distance(a, b)) * PI / z * sqrt(PI / z);
    return (xew_centre){u * a.x + v * b.x, u * a.y + v * b.y, u * a.z + v * b.z, z, 0};
}

/* One integral over primitives, by the roll of its orders; the nuclear one is that of all atoms, with their charges. A Coulomb
 * roll's terms are grouped in the buffer and summed in one pass; for other kinds it is not looked at. */
static double primitive(int kind, const uint8_t *roll, size_t length, const xew_centre c[4], int l, uint8_t *buffer,
                        size_t room)
{
    double boys[ATOMS * (MOST_L + 1)], aux, other;
    xew_centre p = product(c[0], c[1], &aux);
    xew_value answer;
    if (kind == NUCLEAR) {
        for (int a = 0; a < ATOMS; a++)
            boys_numbers(l, p.exponent * squared_distance(p, atoms.centres[a]), boys + a * (l + 1));
        aux *= -2 * sqrt(p.exponent / PI);
        answer = xew_nuclear(roll, length, c[0], c[1], atoms, aux, boys, ATOMS * (l + 1));
        accept(answer.refusal, answer.place);
        return answer.value;
    }
    if (kind == COULOMB) {
        xew_centre q = product(c[2], c[3], &other);
        double rho = p.exponent * q.exponent / (p.exponent + q.exponent);
        boys_numbers(l, rho * squared_distance(p, q), boys);
        aux *= 2 * sqrt(p.exponent * q.exponent / PI) * other; /* k1*k2; the library divides by the root of the exponents' sum */
    }
    size_t count = kind == COULOMB ? l + 1 : 0;
    answer = xew_evaluate_grouped(roll, length, c[0], c[1], c[2], c[3], aux, boys, count, buffer, room);
    accept(answer.refusal, answer.place);
    return answer.value;
}

/* One integral over basis functions: its roll is made once, as one would be stored, confirmed as if another board had written
 * it, and summed for every choice of primitives. */
static double integral(int kind, const int *f, int count)
{
    uint8_t orders[XEW_ORDERS] = {0};
    int l = 0, choices = 1;
    for (int i = 0; i < count; i++, choices *= PRIMITIVES)
        if (basis[f[i]].axis >= 0) orders[3 * i + basis[f[i]].axis] = 1, l++;
    xew_written size = xew_measure(kind, &orders);
    accept(size.refusal, 0);
    size_t most = size.length + size.terms;       /* what the roll takes at most in form 2 */
    size_t room = (size_t)XEW_ENTRY * size.terms; /* for the groups of a Coulomb roll */
    uint8_t *stored = malloc(most), *roll = malloc(size.length), *buffer = malloc(room);
    if (stored == NULL || roll == NULL || buffer == NULL) perror("water"), exit(1);
    xew_written written = xew_expand2(kind, &orders, stored, most, 0);
    accept(written.refusal, 0);
    xew_opened confirmed = xew_confirm(stored, written.length); /* the expansion itself; xew_check2 says only that it reads */
    accept(confirmed.refusal, confirmed.place);
    xew_moved moved = xew_to_form1(stored, written.length, roll, size.length, 0); /* judged, and back in form 1 */
    accept(moved.refusal, moved.place);
    free(stored);
    double sum = 0;
    for (int choice = 0; choice < choices; choice++) {
        xew_centre c[4] = {{0}};
        double factor = 1;
        for (int i = 0, rest = choice; i < count; i++, rest /= PRIMITIVES) {
            c[i] = atoms.centres[basis[f[i]].atom];
            double exponent = c[i].exponent = basis[f[i]].exponents[rest % PRIMITIVES];
            factor *= basis[f[i]].coefficients[rest % PRIMITIVES] * pow(2 * exponent / PI, 0.75);
            if (basis[f[i]].axis >= 0) factor *= 2 * sqrt(exponent);
        }
        sum += factor * primitive(kind, roll, moved.length, c, l, buffer, room);
    }
    free(roll);
    free(buffer);
    return sum;
}

int main(void)
{
    static const char *const names[XEW_KINDS] = {"overlap", "kinetic", "nuclear", "moment", "coulomb"};
    double largest[XEW_KINDS] = {0}, worst[XEW_KINDS] = {0};
    int values[XEW_KINDS] = {0}, status = 0;
    for (const double *e = expected; e < expected + sizeof expected / sizeof *expected; e += 6) {
        int kind = e[0], f[4] = {e[1], e[2], e[3], e[4]}, count = kind == COULOMB ? 4 : 2;
        double ours = integral(kind, f, count), difference = fabs(ours - e[5]);
        printf("%s", names[kind]);
        for (int i = 0; i < count; i++) printf(" %-4s", basis[f[i]].name);
        printf(" %23.16e %23.16e %7.1e\n", ours, e[5], difference);
        largest[kind] = fmax(largest[kind], fabs(e[5]));
        worst[kind] = fmax(worst[kind], difference);
        values[kind]++;
    }
    for (int kind = OVERLAP; kind <= COULOMB; kind += kind == NUCLEAR ? 2 : 1) {
        double part = worst[kind] / largest[kind];
        printf("%s: %d values, largest difference %.1e of the largest value\n", names[kind], values[kind], part);
        if (values[kind] < LEAST_VALUES || !(part <= 1e-12)) status = 1;
    }
    return status;
}
