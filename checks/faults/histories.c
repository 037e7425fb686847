/* How many complete histories a request has, by the steps of docs/01-scope.md alone: counted for every state below it,
 * from no orders left upward. */
#include "faults.h"

/* A state is a number: the orders left, each by its weight. Orders 2 2 2 on each of four centres have the most. */
enum { MOST_STATES = 27 * 27 * 27 * 27 };
static uint64_t histories[MOST_STATES], as_overlap[MOST_STATES];
static size_t weights[XEW_ORDERS];
static uint8_t left[XEW_ORDERS];

/* Of the centres from first on the one with the smallest positive sum left, the first on a tie; -1 for none. */
static int smallest(const uint8_t *orders, int first, int centres)
{
    int centre = -1, least = 0;
    for (int i = first; i < first + centres; i++) {
        int sum = orders[3 * i] + orders[3 * i + 1] + orders[3 * i + 2];
        if (sum > 0 && (centre < 0 || sum < least)) {
            centre = i;
            least = sum;
        }
    }
    return centre;
}

int chosen(uint8_t kind, const uint8_t *orders)
{
    int centre = smallest(orders, 0, kind == 4 ? 4 : 2);
    return centre < 0 && kind == 3 ? smallest(orders, 2, 1) : centre;
}

/* The histories after two orders fall, which may be one order twice. */
static uint64_t after_two(const uint64_t *counted, size_t state, int a, int b)
{
    return left[b] > (a == b) ? counted[state - weights[a] - weights[b]] : 0;
}

static uint64_t after_branches(uint8_t kind, const uint64_t *counted, size_t state)
{
    int centre = chosen(kind, left), axis = 0;
    if (centre < 0)
        return 1;
    while (left[3 * centre + axis] == 0)
        axis++;
    int a = 3 * centre + axis, b = 3 * (centre ^ 1) + axis, other = 3 * (2 - centre / 2 * 2) + axis;
    uint64_t here = counted[state - weights[a]] + after_two(counted, state, a, a);
    if (kind == 3 && centre == 2)
        return here;
    here += after_two(counted, state, a, b);
    switch (kind) {
    case 1: return here + as_overlap[state] + after_two(as_overlap, state, a, a);
    case 2: return 2 * here;
    case 3: return here + after_two(counted, state, a, 6 + axis);
    case 4: return 2 * here + after_two(counted, state, a, other) + after_two(counted, state, a, other + 3);
    default: return here;
    }
}

uint64_t expected_terms(uint8_t kind, const uint8_t *orders)
{
    size_t states = 1;
    for (int i = 0; i < XEW_ORDERS; i++) {
        weights[i] = states;
        states *= orders[i] + 1u;
        left[i] = 0;
    }
    for (size_t state = 0; state < states; state++) {
        if (kind == 1)
            as_overlap[state] = after_branches(0, as_overlap, state);
        histories[state] = after_branches(kind, histories, state);
        for (int i = 0; i < XEW_ORDERS && left[i]++ == orders[i]; i++)
            left[i] = 0;
    }
    return histories[states - 1];
}
