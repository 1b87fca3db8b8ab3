/* Calls what builtins_wasm64.c has for numbers of 128 bits, beside what the compiler itself makes of them on a machine that has these.
 * Prints each difference, and then ends with 1. */
#define __multi3 multiplied
#define __ashlti3 shifted_left
#define __lshrti3 shifted_right
#define __sysv_signal no_signal
#include "builtins_wasm64.c"

#include <stdio.h>

typedef unsigned __int128 wide;

static int differences;

static void is(const char *what, number found, wide wanted)
{
    if ((wide)found != wanted && differences++ < 9)
        fprintf(stderr, "builtins_test: %s: %016llx %016llx, and not %016llx %016llx\n", what, (word)((wide)found >> 64), (word)found,
                (word)(wanted >> 64), (word)wanted);
}

/* A number whose halves have few bits or many: one of 65536 of them. */
static wide numbered(unsigned k)
{
    static const word halves[] = {0, 1, 2, 0x7F, 0xFFFFFFFF, 0x100000000, 0x8000000000000000, 0xFFFFFFFFFFFFFFFF};
    const word low = halves[k % 8] + k / 64 * 0x9E3779B97F4A7C15, high = halves[k / 8 % 8] - k / 64 * 0xC2B2AE3D27D4EB4F;

    return (wide)high << 64 | low;
}

int main(void)
{
    unsigned k;
    int bits;

    for (k = 0; k < 65536; k++) {
        const wide one = numbered(k), two = numbered(k * 40503 % 65536);

        is("a product", multiplied((number)one, (number)two), one * two);
        for (bits = 0; bits < 128; bits++) {
            is("a shift to the left", shifted_left((number)one, bits), one << bits);
            is("a shift to the right", shifted_right((number)one, bits), one >> bits);
        }
    }
    return differences > 0;
}
