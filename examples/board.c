/* A cheap board: it handles overlap and Coulomb requests with an order sum of at most 1 on each centre, in one buffer of fixed
 * size, and takes a roll of another board only if it is the expansion itself. It needs two calls of the library, and none of
 * C's: examples/board builds it over an archive that holds no others. It ends with 0 where every roll was judged as it should
 * be. */
#include "xewumbal.h"

static uint8_t roll[XEW_SMALL_ROLL];

/* Coulomb, p along x on all four centres, and overlap of two such. */
static const uint8_t four[XEW_ORDERS] = {1, 0, 0, 1, 0, 0, 1, 0, 0, 1}, two[XEW_ORDERS] = {1, 0, 0, 1};
/* Document 01's roll of overlap Ax1 Bx1; with its terms exchanged; with the second one lost; in form 2; cut; of a d function. */
static const uint8_t right[] = {0, 1, 0, 0, 1, 0, 0, 2, 1, 0, 2, 0, 1, 1, 0, 1, 7};
static const uint8_t exchanged[] = {0, 1, 0, 0, 1, 0, 0, 2, 1, 0, 1, 7, 1, 0, 2, 0, 1};
static const uint8_t lost[] = {0, 1, 0, 0, 1, 0, 0, 1, 1, 0, 2, 0, 1};
static const uint8_t form2[] = {16, 1, 0, 0, 1, 0, 0, 2, 1, 0, 0, 2, 0, 1, 1, 0, 0, 1, 7};
static const uint8_t larger[] = {0, 2, 0, 0, 0, 0, 0, 2, 1, 0, 2, 0, 0, 1, 0, 1, 6};

static int says(xew_opened answer, uint8_t refusal, size_t place)
{
    return answer.refusal == refusal && answer.place == place;
}

int main(void)
{
    xew_written written = xew_small_expand(4, &four, roll, sizeof roll, 0);
    if (written.refusal || written.length != XEW_SMALL_ROLL || written.terms != XEW_SMALL_TERMS) return 1;
    if (!says(xew_small_check(roll, written.length), 0, 0)) return 2;
    written = xew_small_expand(0, &two, roll, sizeof roll, 0);
    if (written.refusal || written.length != sizeof right || written.terms != 2) return 3;
    for (size_t i = 0; i < sizeof right; i++)
        if (roll[i] != right[i]) return 4;
    if (!says(xew_small_check(right, sizeof right), 0, 0)) return 5;
    if (!says(xew_small_check(exchanged, sizeof exchanged), 20, 10) || !says(xew_small_check(lost, sizeof lost), 20, 7)) return 6;
    if (!says(xew_small_check(right, sizeof right - 1), 14, sizeof right - 1)) return 7; /* still on its way */
    if (!says(xew_small_check(form2, sizeof form2), 19, 0) || !says(xew_small_check(larger, sizeof larger), 19, 0)) return 8;
    return 0;
}
