/* The roll of a request, by the steps and the roll of docs/01-scope.md alone: each branch in turn, and all that follows it
 * before the next. */
#include "faults.h"
#include <string.h>

/* A term on its way: what it steps as, the orders left, and what it has so far. */
struct path {
    uint8_t kind, left[XEW_ORDERS], boys, count, prefactors[XEW_PREFACTORS];
    uint64_t scale;
};
static uint8_t *end; /* of what is written */

static void walk(const struct path *path);

/* A branch with its multiplier, what falls (-1 for nothing), its prefactor, and whether it raises the Boys order. */
static void branch(const struct path *from, int times, int falls, int falls_too, int prefactor, int raises)
{
    if (times < 1)
        return;
    struct path path = *from;
    path.scale *= (uint64_t)times;
    if (falls >= 0)
        path.left[falls]--;
    if (falls_too >= 0)
        path.left[falls_too]--;
    path.prefactors[path.count++] = (uint8_t)prefactor;
    path.boys = (uint8_t)(path.boys + raises);
    walk(&path);
}

/* The letters of 01's rules: the chosen centre and its axis, places of a, b and of two others, and multipliers. */
struct choice {
    int centre, axis, a, b, c, d, twice, both;
};

static void overlap(const struct path *path, struct choice at)
{
    branch(path, 1, at.a, -1, 2 * at.axis + at.centre, 0);
    branch(path, at.twice, at.a, at.a, 6, 0);
    branch(path, at.both, at.a, at.b, 7, 0);
}

static void kinetic(const struct path *path, struct choice at)
{
    struct path as_overlap = *path;
    as_overlap.kind = 0;
    overlap(path, at);
    branch(&as_overlap, 1, -1, -1, 8, 0);
    branch(&as_overlap, at.twice, at.a, at.a, 9 + at.centre, 0);
}

static void nuclear(const struct path *path, struct choice at)
{
    branch(path, 1, at.a, -1, 2 * at.axis + at.centre, 0);
    branch(path, 1, at.a, -1, 6 + at.axis, 1);
    branch(path, at.twice, at.a, at.a, 9, 0);
    branch(path, at.twice, at.a, at.a, 10, 1);
    branch(path, at.both, at.a, at.b, 9, 0);
    branch(path, at.both, at.a, at.b, 10, 1);
}

static void moment(const struct path *path, struct choice at)
{
    int operator = 6 + at.axis;
    if (at.centre == 2) {
        branch(path, 1, operator, -1, 6 + at.axis, 0);
        branch(path, at.twice, operator, operator, 9, 0);
        return;
    }
    branch(path, 1, at.a, -1, 2 * at.axis + at.centre, 0);
    branch(path, at.twice, at.a, at.a, 9, 0);
    branch(path, at.both, at.a, at.b, 10, 0);
    branch(path, path->left[operator], at.a, operator, 11, 0);
}

static void coulomb(const struct path *path, struct choice at)
{
    int other_pair = at.centre >= 2;
    branch(path, 1, at.a, -1, 6 * at.axis + at.centre, 0);
    branch(path, 1, at.a, -1, 6 * at.axis + 4 + other_pair, 1);
    branch(path, at.twice, at.a, at.a, 18 + other_pair, 0);
    branch(path, at.twice, at.a, at.a, 20 + other_pair, 1);
    branch(path, at.both, at.a, at.b, 18 + other_pair, 0);
    branch(path, at.both, at.a, at.b, 20 + other_pair, 1);
    branch(path, path->left[at.c], at.a, at.c, 22, 1);
    branch(path, path->left[at.d], at.a, at.d, 22, 1);
}

static void put_term(const struct path *path)
{
    end += put(end, path->scale);
    end += put(end, path->boys);
    end += put(end, path->count);
    for (int i = 0; i < path->count; i++)
        end += put(end, path->prefactors[i]);
}

static void walk(const struct path *path)
{
    static void (*const steps[XEW_KINDS])(const struct path *, struct choice) = { overlap, kinetic, nuclear, moment, coulomb };
    struct choice at = { .centre = chosen(path->kind, path->left) };
    if (at.centre < 0) {
        put_term(path);
        return;
    }
    while (path->left[3 * at.centre + at.axis] == 0)
        at.axis++;
    at.a = 3 * at.centre + at.axis;
    at.b = 3 * (at.centre ^ 1) + at.axis;
    at.c = 3 * (at.centre < 2 ? 3 : 1) + at.axis; /* D for A and B, B for C and D */
    at.d = 3 * (at.centre < 2 ? 2 : 0) + at.axis;
    at.twice = path->left[at.a] - 1;
    at.both = path->left[at.b];
    steps[path->kind](path, at);
}

size_t expected_expansion(uint8_t kind, const uint8_t *orders, uint8_t *out)
{
    struct path path = { .kind = kind, .scale = 1 };
    memcpy(path.left, orders, XEW_ORDERS);
    xew_cursor cursor = { .kind = kind, .left = (uint32_t)expected_terms(kind, orders) };
    end = out + put_header(out, 0, cursor, orders);
    walk(&path);
    return (size_t)(end - out);
}
