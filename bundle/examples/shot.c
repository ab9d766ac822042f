/* A shot file with one trace, written into memory, checked and read again. In the bundle's folder, on Linux:
 * cc -Iinclude examples/shot.c lib/linux-x86_64/libseg2.a -o shot && ./shot */
#include <stdio.h>

#include "seg2.h"

static uint8_t file[1000];

int main(void) {
    const int32_t samples[3] = {1, -1, 256};
    int32_t row[3];
    seg2_length n = seg2_start_of(file, sizeof file, SEG2_LOW_FIRST, 24, SEG2_LITERAL("UNITS\tMETERS\n"));
    if (n.number == SEG2_ACCEPTED) {
        n = seg2_add_integers_of(file, sizeof file, n.length, SEG2_LITERAL("RECEIVER_LOCATION\t12.5\n"), SEG2_FIXED_32, samples, 3);
    }
    if (n.number != SEG2_ACCEPTED) {
        printf("refused (%u): %s\n", (unsigned)n.number, seg2_text(n.number));
        return 1;
    }
    const seg2_verdict check = seg2_check(file, sizeof file, n.length);
    printf("%s, %zu bytes\n", seg2_text(check.number), n.length);
    const struct seg2_value value = seg2_value_of(file, sizeof file, n.length, -1, SEG2_LITERAL("UNITS"));
    printf("UNITS %.*s\n", (int)value.value_length, seg2_chars(file, value.value_start));
    const struct seg2_location at = seg2_quick_location_of(file, sizeof file, n.length, 0, SEG2_LITERAL("RECEIVER_LOCATION"));
    const seg2_verdict read = seg2_quick_integers(file, sizeof file, n.length, 0, row, 3);
    printf("trace 0 at %g: %d %d %d\n", at.x, (int)row[0], (int)row[1], (int)row[2]);
    return check.number != 0 || value.number != 0 || at.number != 0 || read.number != 0;
}
