/* cases SEED COUNT: cases of kind csc in the oracle's line format, `ID csc p k C.. S..`: p rows of k places, 1 to 11 by 1 to 12, and k rows of k. The regime of C
   and that of S are parts of the id. Values are written by their bits, so a NaN keeps its own. */
#include <stdint.h>
#include <stdio.h>
#include <stdlib.h>
#include <string.h>

enum { ORDINARY, WHOLE, ZEROS, TINY, HUGE_ONES, ANY_BITS, INFINITIES, SPECIAL, REGIMES };

static const char *const regimes[REGIMES] = {"ordinary", "whole", "zeros", "tiny", "huge", "bits", "infinities", "special"};

/* A generator of its own, so that a seed has the same cases everywhere. Two draws never stand where their order is left to the compiler. */
static uint64_t state;

static uint64_t next(void) {
    state ^= state << 13, state ^= state >> 7, state ^= state << 17;
    return state;
}

static unsigned below(unsigned n) { return (next() >> 32) % n; }

static uint64_t bits(double x) {
    uint64_t b;
    memcpy(&b, &x, sizeof b);
    return b;
}

static uint64_t either_sign(uint64_t b) { return b ^ next() >> 63 << 63; }

/* A number of either sign between this power of two and the next. */
static uint64_t at_power(int power) { return either_sign(next() >> 12 | (uint64_t)(power + 1023) << 52); }

static uint64_t smallest(void) {
    uint64_t b = next() >> 12;
    return either_sign(b >> below(52));
}

/* Quiet or signalling. */
static uint64_t any_nan(void) {
    uint64_t payload = next() >> 12;
    return either_sign(0x7FF0000000000001u | payload >> below(52));
}

static uint64_t value(unsigned regime) {
    switch (regime) {
    case WHOLE: return bits((int)below(19) - 9);
    case ZEROS: return below(3) ? either_sign(0) : bits((int)below(3) - 1);
    case TINY: return below(2) ? smallest() : at_power(-(int)below(1023));
    case HUGE_ONES: return at_power(250 + (int)below(200));
    case ANY_BITS: return next();
    case INFINITIES: return below(40) ? value(ORDINARY) : either_sign(0x7FF0000000000000u);
    case SPECIAL: return below(20) ? value(ORDINARY) : below(4) ? value(below(SPECIAL)) : any_nan();
    default: return at_power((int)below(8) - 4);
    }
}

static void values(unsigned n, unsigned regime) {
    while (n--) printf(" %016llX", (unsigned long long)value(regime));
}

int main(int argc, char **argv) {
    unsigned long seed = argc > 1 ? strtoul(argv[1], NULL, 10) : 1, count = argc > 2 ? strtoul(argv[2], NULL, 10) : 1000;
    state = 0x9E3779B97F4A7C15u * (2 * seed + 1);
    for (unsigned long i = 1; i <= count; i++) {
        unsigned p = 1 + below(11), k = 1 + below(12), c = below(REGIMES), s = below(2) ? c : below(REGIMES);
        printf("c%lu-%lu-%s-%s csc %u %u", seed, i, regimes[c], regimes[s], p, k);
        values(p * k, c), values(k * k, s);
        puts("");
    }
    return fflush(stdout) ? 1 : 0;
}
