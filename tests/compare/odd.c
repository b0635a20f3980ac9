/* odd SEED COUNT: one-way cases that are mostly refused or at a limit, as a stream: sizes near 2^32 whose sum wraps in 32 bits, 15 to 18 groups,
   511 to 514 readings, empty slices, sizes 0 to 3, a NaN of any pattern anywhere, infinities, zeros of both signs, subnormals. */
#include <stdint.h>
#include <stdio.h>
#include <stdlib.h>

static uint64_t state;

static uint64_t next(void) {
    uint64_t z = state += 0x9E3779B97F4A7C15u;
    z = (z ^ z >> 30) * 0xBF58476D1CE4E5B9u;
    z = (z ^ z >> 27) * 0x94D049BB133111EBu;
    return z ^ z >> 31;
}

static uint32_t below(uint32_t n) { return next() % n; }
static void put32(uint32_t x) { for (int i = 0; i < 4; i++) putchar(x >> 8 * i & 255); }
static void put64(uint64_t x) { put32(x), put32(x >> 32); }

static uint64_t nan_bits(void) {
    uint64_t payload = below(3) ? next() >> 12 : (uint64_t)1 << below(52);
    return (uint64_t)below(2) << 63 | 0x7FF0000000000000u | (payload ? payload : 1);
}

static uint64_t reading(int temper) {
    static const uint64_t picked[] = {0, 0x8000000000000000u, 1, 0x8000000000000001u, 0x000FFFFFFFFFFFFFu, 0x7FF0000000000000u,
                                      0xFFF0000000000000u, 0x7FEFFFFFFFFFFFFFu, 0x3FF0000000000000u, 0x3CD203AF9EE75616u};
    if (temper == 0) return 0x4034000000000000u + ((uint64_t)below(1000) << 36);
    if (temper == 1) return picked[below(10)];
    if (temper == 2) return 0x3FF0000000000000u;
    for (;;) {
        uint64_t b = next();
        if ((b & 0x7FFFFFFFFFFFFFFFu) <= 0x7FF0000000000000u) return b;
    }
}

int main(int argc, char **argv) {
    if (argc != 3) return fputs("usage: odd SEED COUNT\n", stderr), 2;
    state = strtoull(argv[1], 0, 10) ^ 0x6F6464u;
    for (long left = atol(argv[2]); left > 0; left--) {
        static const uint32_t kinds[] = {1, 2, 3, 3, 3, 4, 4, 4, 9, 9, 8, 17};
        static uint32_t sizes[600];
        static uint64_t readings[600];
        uint32_t kind = kinds[below(12)], ns = 0, nr = 0, option = below(20) ? below(18) : (uint32_t)next();
        uint32_t k = below(6) ? 2 + below(5) : below(4) ? below(3) : 15 + below(4);
        for (ns = 0; ns < k; ns++) sizes[ns] = below(8) ? 2 + below(6) : below(4);
        if (below(12) == 0 && ns) sizes[below(ns)] = 480 + below(40);
        uint64_t sum = 0;
        for (uint32_t i = 0; i < ns; i++) sum += sizes[i];
        nr = sum > 600 ? 600 : sum;
        if (below(10) == 0) nr = below(2) ? 511 + below(4) : below(600);
        if (below(14) == 0 && nr < 600) nr++;
        if (below(14) == 0 && nr) nr--;
        /* a size that makes the sum right modulo 2^32, or is about 2^32 */
        if (below(10) == 0 && ns > 1) sizes[below(ns)] += below(2) ? 0xFFFFFFFFu - below(4) : 0x80000000u;
        if (below(25) == 0 && ns > 1) sizes[0] = 0x80000000u, sizes[1] = (uint32_t)(nr - 0x80000000u);
        if (kind == 17) nr = below(8) ? 1 : below(3), option = below(14);
        int temper = below(4);
        for (uint32_t i = 0; i < nr; i++) readings[i] = reading(temper);
        if (below(4) == 0 && nr) readings[below(nr)] = nan_bits();
        if (below(40) == 0) for (uint32_t i = 0; i < nr; i++) readings[i] = nan_bits();
        put32(kind), put32(option), put32(ns), put32(0), put32(0), put32(nr);
        for (uint32_t i = 0; i < ns; i++) put32(sizes[i]);
        for (uint32_t i = 0; i < nr; i++) put64(readings[i]);
    }
    return 0;
}
