/* ours: reads designs, as tests/skips/cases.c writes them, and prints for each the three sums of squares by their bits and the five counts of `type3_ss`. */
#include "exported.h"

#include <stdio.h>
#include <string.h>

enum { MOST = 60, SCRATCH = 6400 };

int main(void) {
    static double values[MOST], work[SCRATCH];
    uint32_t a, b, n, codes_a[MOST], codes_b[MOST];
    while (scanf("%u %u %u", &a, &b, &n) == 3) {
        double ss[3];
        uint64_t counts[5];
        if (n > MOST) return fputs("ours: a design has too many readings\n", stderr), 1;
        for (uint32_t i = 0; i < n; i++)
            if (scanf("%u", codes_a + i) != 1) return 1;
        for (uint32_t i = 0; i < n; i++)
            if (scanf("%u", codes_b + i) != 1) return 1;
        for (uint32_t i = 0; i < n; i++) {
            unsigned long long bits;
            if (scanf("%llX", &bits) != 1) return 1;
            memcpy(values + i, &bits, sizeof bits);
        }
        raw_type3_ss(values, n, codes_a, n, codes_b, n, a, b, work, SCRATCH, ss, 3, counts, 5);
        for (int i = 0; i < 3; i++) {
            unsigned long long bits;
            memcpy(&bits, ss + i, sizeof bits);
            printf("%016llX ", bits);
        }
        for (int i = 0; i < 5; i++) printf("%llu%c", (unsigned long long)counts[i], i < 4 ? ' ' : '\n');
    }
    return 0;
}
