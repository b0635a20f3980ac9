/* cases SEED COUNT: designs of two factors, a line each: the levels of A and of B, 2 to 6; how many readings, 1 to 60; their codes of A, their codes of B, and their values by their bits. The last level of each
   factor has a reading. Most designs have cells without readings, and none has as many readings in all cells. Values are few whole numbers, or between -1 and 1; some are infinities, NaNs or huge. */
#include <stdint.h>
#include <stdio.h>
#include <stdlib.h>
#include <string.h>

enum { MOST = 60 };

/* A generator of its own, so that a seed has the same designs everywhere. Two draws never stand where their order is left to the compiler. */
static uint64_t state;

static uint64_t next(void) {
    uint64_t z = state += 0x9E3779B97F4A7C15u;
    z = (z ^ z >> 30) * 0xBF58476D1CE4E5B9u;
    z = (z ^ z >> 27) * 0x94D049BB133111EBu;
    return z ^ z >> 31;
}

static unsigned below(unsigned n) { return (next() >> 32) % n; }

static uint64_t bits(double x) {
    uint64_t b;
    memcpy(&b, &x, sizeof b);
    return b;
}

/* tempers: 0 whole numbers, 1 between -1 and 1, 2 with infinities, NaNs and huge numbers among them */
static uint64_t value(unsigned temper) {
    static const uint64_t picked[] = {0x7FF0000000000000u, 0xFFF0000000000000u, 0x7FF8000000000000u, 0xFFF0000000000001u, 0x7FEFFFFFFFFFFFFFu, 0x8000000000000000u, 1u};
    if (temper == 2 && below(4) == 0) return picked[below(7)];
    if (temper == 0) return bits((double)below(19) - 9);
    return bits((double)(int64_t)(next() >> 10) / 9007199254740992.0 - 1.0);
}

int main(int argc, char **argv) {
    if (argc != 3) return fputs("usage: cases SEED COUNT\n", stderr), 2;
    state = strtoull(argv[1], 0, 10) ^ 0x736B697073u;
    for (long todo = atol(argv[2]); todo > 0;) {
        unsigned a = 2 + below(5), b = 2 + below(5), cells[36], used = 0, code[MOST], n = 1 + below(below(3) ? 20 : MOST), counts[36] = {0}, last_a = 0, last_b = 0, even = 1;
        /* the readings are of some cells alone */
        for (unsigned c = 0; c < a * b; c++)
            if (below(3)) cells[used++] = c;
        if (!used) continue;
        if (below(2)) used = 1 + below(used);
        for (unsigned i = 0; i < n; i++) {
            code[i] = cells[below(used)], counts[code[i]]++;
            last_a |= code[i] / b == a - 1, last_b |= code[i] % b == b - 1;
        }
        for (unsigned c = 1; c < a * b; c++) even &= counts[c] == counts[0];
        if (!last_a || !last_b || even) continue;
        unsigned temper = below(8) ? below(2) : 2;
        printf("%u %u %u", a, b, n);
        for (unsigned i = 0; i < n; i++) printf(" %u", code[i] / b);
        for (unsigned i = 0; i < n; i++) printf(" %u", code[i] % b);
        for (unsigned i = 0; i < n; i++) printf(" %016llX", (unsigned long long)value(temper));
        putchar('\n');
        todo--;
    }
    return 0;
}
