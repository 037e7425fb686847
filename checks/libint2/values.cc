// Overlap, kinetic, nuclear and Coulomb integrals of primitive s, p and d shells on water, by libint2 and by
// libxewumbal.a, compared value by value. Exit status 1: a value is beyond the bound, refused or missing.
// With the word wrong one exponent on our side is off by 1e-10 of itself; the bound has to show it.
#include <libint2.hpp>

#include <algorithm>
#include <array>
#include <cmath>
#include <cstdio>
#include <cstring>
#include <map>
#include <utility>
#include <vector>

#include "xewumbal.h"

namespace {

using Real = long double; // the host's own numbers are made in this, then rounded once
using Values = std::vector<double>;

const Real pi = 3.14159265358979323846264338327950288L;
const double bound = 1e-12;
const int most_order = 2; // s, p, d

enum Kind : uint8_t { overlap = 0, kinetic = 1, nuclear = 2, coulomb = 4 };
const char *const kind_names[] = {"overlap", "kinetic", "nuclear", "moment", "Coulomb"};

struct Atom {
    double charge, x, y, z;
};

// Water in bohr, tilted, so that no axis or plane of it is one of the coordinates'. O, H, H.
const std::array<Atom, 3> atoms{{{8, 0.13, -0.21, 0.34}, {1, 1.6454, 0.6235, -0.1904}, {1, 0.669, -1.3446, 1.6418}}};

// One primitive for each atom (row) and each order (column).
const double exponents[3][3] = {{5.0331513, 1.1695961, 0.8}, {3.42525091, 0.727, 1.057}, {0.62391373, 0.388, 0.247}};

struct Shell {
    size_t atom;
    int order;
    xew_centre ours;
    libint2::Shell theirs;
};

Shell make_shell(size_t atom, int order, bool wrong) {
    const Atom &place = atoms[atom];
    const double exponent = exponents[atom][order];
    const bool spoiled = wrong && atom == 2 && order == most_order;
    return {atom, order, {place.x, place.y, place.z, spoiled ? exponent * (1 + 1e-10) : exponent, 0},
            // Cartesian (not pure), coefficient 1, and false: no norm is put into the coefficient
            libint2::Shell({exponent}, {{order, false, {1.0}}}, {{place.x, place.y, place.z}}, false)};
}

// ---- The host's own numbers: aux and Boys numbers ----

struct Point {
    Real x, y, z;
};

Point point(const xew_centre &c) { return {c.x, c.y, c.z}; }

Real squared_distance(const Point &a, const Point &b) {
    return (a.x - b.x) * (a.x - b.x) + (a.y - b.y) * (a.y - b.y) + (a.z - b.z) * (a.z - b.z);
}

// The product of two s functions: its exponent, its centre, and its factor.
struct Product {
    Real exponent, factor;
    Point centre;
};

Product product(const xew_centre &a, const xew_centre &b) {
    const Real za = a.exponent, zb = b.exponent, z = za + zb;
    const Point pa = point(a), pb = point(b);
    return {z, std::exp(-za * zb / z * squared_distance(pa, pb)),
            {(za * pa.x + zb * pb.x) / z, (za * pa.y + zb * pb.y) / z, (za * pa.z + zb * pb.z) / z}};
}

// F(0) to F(most) at t: the last by a series whose terms are all positive, the others downwards from it.
Values boys(int most, Real t) {
    const Real decay = std::exp(-t);
    Real term = 1.0L / (2 * most + 1), sum = term;
    for (int i = most + 1; term > sum * 1e-22L; i++) {
        term *= 2 * t / (2 * i + 1);
        sum += term;
    }
    Values numbers(most + 1);
    Real number = decay * sum;
    for (int m = most;; m--) {
        numbers[m] = static_cast<double>(number);
        if (m == 0) return numbers;
        number = (2 * t * number + decay) / (2 * m - 1);
    }
}

struct HostNumbers {
    double aux;
    Values boys;
};

// What a host gives for these centres. For the nuclear kind the third is the nucleus, which has its charge.
HostNumbers host_numbers(Kind kind, int l, const std::array<xew_centre, 4> &at) {
    const Product p = product(at[0], at[1]);
    const Real s = p.factor * std::pow(pi / p.exponent, 1.5L);
    if (kind == overlap || kind == kinetic) return {static_cast<double>(s), {}};
    if (kind == nuclear) {
        const Real aux = -2 * std::sqrt(p.exponent / pi) * s;
        return {static_cast<double>(aux), boys(l, p.exponent * squared_distance(p.centre, point(at[2])))};
    }
    const Product q = product(at[2], at[3]);
    const Real both = p.exponent + q.exponent, times = p.exponent * q.exponent;
    const Real aux = 2 * std::pow(pi, 2.5L) / times * p.factor * q.factor; // k1*k2: the library divides by the root of `both`
    return {static_cast<double>(aux), boys(l, times / both * squared_distance(p.centre, q.centre))};
}

// ---- Our side ----

std::map<int, size_t> refusals; // how often each number came up
uint32_t most_terms = 0;        // of a roll

bool refused(uint8_t number) {
    if (number != 0) refusals[number]++;
    return number != 0;
}

struct Component {
    std::array<uint8_t, 12> orders;
    std::vector<uint8_t> roll;
};

// The rolls of every component of two shells, or of four, in the library's order.
std::vector<Component> components(Kind kind, const std::vector<int> &o) {
    static std::vector<uint8_t> buffer(1048576);
    std::vector<Component> all;
    for (uint32_t number = 0;; number++) {
        const xew_component found =
            o.size() == 2 ? xew_shell2(o[0], o[1], number) : xew_shell4(o[0], o[1], o[2], o[3], number);
        if (found.refusal == 13 || refused(found.refusal)) return all; // 13: one past the last
        Component component;
        std::memcpy(component.orders.data(), found.orders, 12);
        const xew_written written = xew_expand(kind, &found.orders, buffer.data(), buffer.size(), 0);
        if (!refused(written.refusal)) {
            most_terms = std::max(most_terms, written.terms);
            component.roll.assign(buffer.begin(), buffer.begin() + written.length);
            refused(xew_check(component.roll.data(), component.roll.size()).refusal);
        }
        all.push_back(component);
    }
}

double our_value(const Component &component, const std::array<xew_centre, 4> &at, const HostNumbers &host) {
    const xew_value answer = xew_evaluate(component.roll.data(), component.roll.size(), at[0], at[1], at[2], at[3],
                                          host.aux, host.boys.data(), host.boys.size());
    return refused(answer.refusal) ? std::nan("") : answer.value;
}

// ---- libint2's side ----

libint2::Engine make_engine(libint2::Operator what) {
    libint2::Engine engine(what, 1, most_order, 0);
    engine.set_precision(0.0); // nothing is screened away
    engine.set(libint2::CartesianShellNormalization::standard); // one factor for all components of a shell
    return engine;
}

using Shells = std::vector<const Shell *>;

Values their_values(libint2::Engine &engine, const Shells &s) {
    size_t count = 1;
    for (const Shell *shell : s) count *= shell->theirs.size();
    if (s.size() == 2)
        engine.compute(s[0]->theirs, s[1]->theirs);
    else
        engine.compute(s[0]->theirs, s[1]->theirs, s[2]->theirs, s[3]->theirs);
    const double *found = engine.results()[0];
    return found ? Values(found, found + count) : Values(count, std::nan(""));
}

// The place of a component in libint2's values: the last shell fastest, in the order that its build has in a shell.
size_t their_place(const Component &component, const Shells &s) {
    size_t place = 0;
    for (size_t i = 0; i < s.size(); i++)
        place = place * s[i]->theirs.size() +
                libint2::INT_CARTINDEX(s[i]->order, component.orders[3 * i], component.orders[3 * i + 1]);
    return place;
}

double largest(const Values &values) {
    double most = 0;
    for (double value : values) most = std::fmax(most, std::fabs(value));
    return most;
}

// Schwarz: no value of a pair a, b is above the root of the largest of a, a times the largest of b, b;
// likewise for a quadruple a, b, c, d with a, b, a, b and c, d, c, d.
double schwarz(libint2::Engine &engine, const Shells &s) {
    const auto half = s.begin() + s.size() / 2;
    Shells left(s.begin(), half), right(half, s.end());
    left.insert(left.end(), s.begin(), half);
    right.insert(right.end(), half, s.end());
    return std::sqrt(largest(their_values(engine, left)) * largest(their_values(engine, right)));
}

// ---- The comparison ----

struct Row {
    size_t blocks, zero_blocks, values, beyond;
    double most, zero_most; // largest difference over its scale; in zero_most for the blocks that are zero
};
Row rows[5][9]; // by kind and L

// A block: all components of a pair (and a nucleus) or of a quadruple. Where every shell (and the nucleus) is on one
// atom and L is odd, every exact value is zero; the scale is then Schwarz's bound in place of the largest value.
void compare(Kind kind, libint2::Engine &engine, const Shells &s, const Atom *nucleus,
             const std::vector<Component> &parts) {
    int l = 0;
    bool one_centre = nucleus == nullptr || nucleus == &atoms[s[0]->atom];
    std::array<xew_centre, 4> at{};
    for (size_t i = 0; i < s.size(); i++) {
        l += s[i]->order;
        one_centre = one_centre && s[i]->atom == s[0]->atom;
        at[i] = s[i]->ours;
    }
    if (nucleus) {
        at[2] = {nucleus->x, nucleus->y, nucleus->z, 0.0, static_cast<uint32_t>(nucleus->charge)};
        engine.set_params(std::vector<std::pair<double, std::array<double, 3>>>{
            {nucleus->charge, {{nucleus->x, nucleus->y, nucleus->z}}}});
    }
    const bool zero = one_centre && l % 2 == 1;

    const HostNumbers host = host_numbers(kind, l, at);
    Values theirs = their_values(engine, s);
    const double scale = zero ? schwarz(engine, s) : largest(theirs);
    Row &row = rows[kind][l];
    (zero ? row.zero_blocks : row.blocks)++;
    for (const Component &part : parts) {
        const double ours = our_value(part, at, host);
        // each place is taken once; a second time finds no number
        const double other = std::exchange(theirs[their_place(part, s)], std::nan(""));
        // where both should be zero, each of them is judged
        const double off = zero ? std::fmax(std::fabs(ours), std::fabs(other)) : std::fabs(ours - other);
        double &most = zero ? row.zero_most : row.most;
        row.values++;
        if (!(off <= bound * scale) || std::isnan(ours) || std::isnan(other)) row.beyond++;
        most = std::fmax(most, off / scale);
    }
}

// Every list of so many numbers from 0 to 2: the orders of shells, or their atoms.
std::vector<std::vector<int>> choices(size_t length) {
    std::vector<std::vector<int>> all{{}};
    for (size_t i = 0; i < length; i++) {
        std::vector<std::vector<int>> longer;
        for (const std::vector<int> &list : all)
            for (int last = 0; last < 3; last++) {
                longer.push_back(list);
                longer.back().push_back(last);
            }
        all = longer;
    }
    return all;
}

// Every ordered pair or quadruple of shells. A roll goes by the orders alone, so it is made once for all atoms.
void compare_all(Kind kind, libint2::Operator what, const std::vector<Shell> &shells) {
    libint2::Engine engine = make_engine(what);
    const size_t length = kind == coulomb ? 4 : 2;
    for (const std::vector<int> &orders : choices(length)) {
        const std::vector<Component> parts = components(kind, orders);
        for (const std::vector<int> &places : choices(length)) {
            Shells s;
            for (size_t i = 0; i < length; i++) s.push_back(&shells[3 * places[i] + orders[i]]);
            if (kind != nuclear) compare(kind, engine, s, nullptr, parts);
            if (kind == nuclear)
                for (const Atom &nucleus : atoms) compare(kind, engine, s, &nucleus, parts);
        }
    }
}

int report() {
    Row all{};
    size_t quadruples = 0, refused_in_all = 0;
    std::printf("libint2 %s, bound %g. A block is a pair of shells (nuclear: and a nucleus) or a quadruple.\n",
                LIBINT_VERSION, bound);
    std::printf("%-8s %2s %8s %8s %10s %10s %10s %7s\n", "kind", "L", "blocks", "zero", "values", "largest", "in zero",
                "beyond");
    for (int kind : {overlap, kinetic, nuclear, coulomb})
        for (int l = 0; l < 9; l++) {
            const Row &row = rows[kind][l];
            if (row.values == 0) continue;
            char in_zero[16] = "-";
            if (row.zero_blocks != 0) std::snprintf(in_zero, sizeof in_zero, "%.1e", row.zero_most);
            std::printf("%-8s %2d %8zu %8zu %10zu %10.1e %10s %7zu\n", kind_names[kind], l, row.blocks,
                        row.zero_blocks, row.values, row.most, in_zero, row.beyond);
            all.blocks += row.blocks + row.zero_blocks;
            all.zero_blocks += row.zero_blocks;
            if (kind == coulomb) quadruples += row.blocks + row.zero_blocks;
            all.values += row.values;
            all.beyond += row.beyond;
        }
    for (const auto &[number, times] : refusals) {
        std::printf("refused %d: %zu times\n", number, times);
        refused_in_all += times;
    }
    // 30 functions: 30 * 30 pairs, once for overlap, once for kinetic, three times for nuclear; 30^4 quadruples
    const size_t expected = 5 * 30 * 30 + 30 * 30 * 30 * 30;
    if (all.values != expected) std::printf("%zu values were expected\n", expected);
    std::printf("%zu blocks of pairs, %zu of quadruples; %zu of them zero by symmetry\n", all.blocks - quadruples,
                quadruples, all.zero_blocks);
    std::printf("%zu refusals; the largest roll has %u terms\n", refused_in_all, most_terms);
    std::printf("%zu of %zu values beyond the bound\n", all.beyond, all.values);
    return all.beyond == 0 && refused_in_all == 0 && all.values == expected ? 0 : 1;
}

} // namespace

int main(int count, char **words) {
    const bool wrong = count == 2 && std::strcmp(words[1], "wrong") == 0;
    if (count > 1 && !wrong) {
        std::fprintf(stderr, "usage: values [wrong]\n");
        return 2;
    }
    std::vector<Shell> shells; // by atom, then by order
    for (size_t atom = 0; atom < atoms.size(); atom++)
        for (int order = 0; order <= most_order; order++) shells.push_back(make_shell(atom, order, wrong));
    libint2::initialize();
    compare_all(overlap, libint2::Operator::overlap, shells);
    compare_all(kinetic, libint2::Operator::kinetic, shells);
    compare_all(nuclear, libint2::Operator::nuclear, shells);
    compare_all(coulomb, libint2::Operator::coulomb, shells);
    libint2::finalize();
    return report();
}
