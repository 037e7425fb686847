/* modes: whether xew_float_mode notices each float mode that is not the library's, and is silent in the usual one, with what J of two
 * floats is then. The mode that the program starts in is the usual one, but linked with -ffast-math it flushes and zeroes; built so, it has the
 * same to show. It ends with 1 where something was not noticed, or was without need. ASKED stands for the check, so that a wrong one
 * can be tried. */
#include "../../include/xewumbal.h"
#include <stdio.h>
#include <string.h>
#include <xmmintrin.h>
#ifndef ASKED
#define ASKED xew_float_mode()
#endif
#ifdef __FAST_MATH__
#define STARTS (XEW_MODE_FLUSHES | XEW_MODE_ZEROES)
#else
#define STARTS 0
#endif
#define USUAL 0x1f80u /* the register: nearest, subnormals kept, all six traps off */

static const struct {
    const char *name;
    unsigned bits; /* of the register, that are the other way round */
    int expected;
    double i, d;
} modes[] = {
    { "usual", 0, 0, 0.1, 3.0 },
    { "a flag of an earlier result set", 0x20, 0, 0.1, 3.0 },
    { "flush-to-zero", 0x8000, XEW_MODE_FLUSHES, 1e-200, 1e-120 },
    { "denormals-are-zero", 0x40, XEW_MODE_ZEROES, 1e-310, 8.0 },
    { "rounding down", 0x2000, XEW_MODE_ROUNDING, 0.1, 3.0 },
    { "rounding up", 0x4000, XEW_MODE_ROUNDING, 0.1, 0.7 },
    { "rounding to zero", 0x6000, XEW_MODE_ROUNDING, 0.1, 3.0 },
    { "trap of an invalid operation", 0x80, XEW_MODE_TRAPS, 0, 0 },
    { "trap of a subnormal", 0x100, XEW_MODE_TRAPS, 0, 0 },
    { "trap of a division by zero", 0x200, XEW_MODE_TRAPS, 0, 0 },
    { "trap of an overflow", 0x400, XEW_MODE_TRAPS, 0, 0 },
    { "trap of an underflow", 0x800, XEW_MODE_TRAPS, 0, 0 },
    { "trap of an inexact result", 0x1000, XEW_MODE_TRAPS, 0, 0 },
    { "all four", 0xffc0 & ~0x2000u, 15, 0, 0 },
};

/* The bits of J of one integral and one density: their product. */
static uint64_t product(double i, double d)
{
    double j = 0, k = 0;
    uint64_t bits = 0;
    if (xew_jk(1, &i, 1, &d, 1, &j, 1, &k, 1)) return 1;
    memcpy(&bits, &j, sizeof bits);
    return bits;
}

int main(void)
{
    int started = ASKED, failed = started != STARTS;
    printf("%-33s %d, should be %d\n", "as the program starts", started, STARTS);
    for (size_t m = 0; m < sizeof modes / sizeof *modes; m++) {
        _mm_setcsr(USUAL);
        uint64_t usual = product(modes[m].i, modes[m].d);
        _mm_setcsr(USUAL ^ modes[m].bits);
        int told = ASKED;
        uint64_t then = modes[m].expected & XEW_MODE_TRAPS ? usual : product(modes[m].i, modes[m].d);
        _mm_setcsr(USUAL);
        printf("%-33s %d, should be %d", modes[m].name, told, modes[m].expected);
        if (then != usual) printf("; J %016llx in place of %016llx", (unsigned long long)then, (unsigned long long)usual);
        printf("\n");
        /* A mode without traps that is noticed is one in which an answer has other bits, and no other is. */
        failed |= told != modes[m].expected || (modes[m].expected & XEW_MODE_TRAPS ? 0 : (then != usual) != (told != 0));
    }
    return failed;
}
