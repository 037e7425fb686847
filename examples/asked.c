/* What a host asks before its first call: the library's version, once, and the float mode, in each thread that calls. It ends with 1 where
 * one is not as the library needs it. */
#include <stdio.h>
#include "xewumbal.h"

int main(void)
{
    if (xew_version() != XEW_VERSION) {
        fprintf(stderr, "asked: the library is of version %u, and the header of version %d\n", (unsigned)xew_version(), XEW_VERSION);
        return 1;
    }
    if (xew_float_mode()) {
        fprintf(stderr, "asked: another float mode than the library needs: %d\n", xew_float_mode());
        return 1;
    }
    puts("asked: the library can be called");
    return 0;
}
