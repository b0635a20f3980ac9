/* histories SEED COUNT: sheets with edits (kind 10), as a stream. Loads of 16 groups of 32, of groups of two, of 510 to 512 readings, and loads that are refused; up to 200 edits
   each, where groups fill up, shrink to two, or are not there; new readings of every sort, with NaNs, infinities, zeros of both signs and subnormals, or missing. */
#include <stdint.h>
#include <stdio.h>
#include <stdlib.h>

enum { MOST = 600, GROUPS = 16, PLACES = 512 };

static uint64_t state;
static uint32_t sizes[MOST], edits[MOST];
static uint64_t readings[MOST];

static uint64_t next(void) {
    uint64_t z = state += 0x9E3779B97F4A7C15u;
    z = (z ^ z >> 30) * 0xBF58476D1CE4E5B9u;
    z = (z ^ z >> 27) * 0x94D049BB133111EBu;
    return z ^ z >> 31;
}

static uint32_t below(uint32_t n) { return next() % n; }
static void put32(uint32_t x) { for (int i = 0; i < 4; i++) putchar(x >> 8 * i & 255); }
static void put64(uint64_t x) { put32(x), put32(x >> 32); }
static int is_nan(uint64_t b) { return (b & 0x7FFFFFFFFFFFFFFFu) > 0x7FF0000000000000u; }

static uint64_t nan_bits(void) {
    uint64_t payload = below(3) ? next() >> 12 : (uint64_t)1 << below(52);
    return (uint64_t)below(2) << 63 | 0x7FF0000000000000u | (payload ? payload : 1);
}

/* tempers: 0 tame, 1 all equal, 2 zeros of both signs, 3 subnormals, 4 extremes, 5 any bits but a NaN's */
static uint64_t reading(int temper) {
    static const uint64_t picked[] = {0, 0x8000000000000000u, 1, 0x8000000000000001u, 0x000FFFFFFFFFFFFFu, 0x7FF0000000000000u,
                                      0xFFF0000000000000u, 0x7FEFFFFFFFFFFFFFu, 0xFFEFFFFFFFFFFFFFu, 0x3CD203AF9EE75616u};
    uint64_t b;
    switch (temper) {
    case 0: return 0x4034000000000000u + ((uint64_t)below(1000) << 36);
    case 1: return 0x3FF0000000000000u;
    case 2: return (uint64_t)below(2) << 63;
    case 3: return (uint64_t)below(2) << 63 | next() >> (12 + below(52));
    case 4: return picked[below(10)];
    default:
        do b = next();
        while (is_nan(b));
        return b;
    }
}

/* the sizes of a load: how many groups */
static uint32_t shape(void) {
    uint32_t k = 2 + below(GROUPS - 1), total = 0;
    switch (below(5)) {
    case 0: /* 16 groups of 32, the whole sheet */
        for (k = 0; k < GROUPS; k++) sizes[k] = 32;
        return k;
    case 1: /* groups of two */
        for (uint32_t g = 0; g < k; g++) sizes[g] = 2;
        return k;
    case 2: /* a sheet that is full, or has a place or two left */
        for (uint32_t g = 0; g < k; g++) total += sizes[g] = 2 + below(12);
        sizes[below(k)] += PLACES - total - below(3);
        return k;
    default:
        for (uint32_t g = 0; g < k; g++) sizes[g] = 2 + below(below(4) ? 5 : PLACES / k - 1);
        return k;
    }
}

/* 1 to 200 edits, three numbers each; what the accepted ones leave of the sizes is followed, so that most edits meet a place that is there */
static uint32_t history(uint32_t k, uint32_t total, const uint64_t *new, uint32_t left) {
    uint32_t now[GROUPS], n = below(3) ? 1 + below(200) : 200, bent = below(4);
    for (uint32_t g = 0; g < k; g++) now[g] = sizes[g];
    for (uint32_t i = 0; i < n; i++) {
        static const uint32_t far[] = {16, 17, 31, 512, 0x80000000u, 0xFFFFFFFFu};
        /* bent: mostly appends, mostly removals, mostly replaces, or all alike */
        uint32_t op = bent < 3 && below(4) ? (uint32_t[]){2, 3, 1}[bent] : 1 + below(3);
        uint32_t g = below(k), p, x_nan = 0;
        p = below(now[g]);
        if (below(6) == 0) p = now[g] - 1;
        if (below(25) == 0) g = below(2) ? k + below(3) : far[below(6)];
        if (below(25) == 0) p = below(2) ? (g < k ? now[g] : 0) : far[below(6)];
        if (op == 3 && below(3) == 0) op = (uint32_t[]){0, 4, 0xFFFFFFFFu}[below(3)];
        if (op == 1 || op == 2) {
            if (left) x_nan = is_nan(*new++), left--;
        }
        edits[3 * i] = op, edits[3 * i + 1] = g, edits[3 * i + 2] = p;
        if (g < k && !x_nan) {
            if (op == 2 && total < PLACES) now[g]++, total++;
            if (op != 1 && op != 2 && p < now[g] && now[g] > 2) now[g]--, total--;
        }
    }
    return 3 * n - (below(10) ? 0 : 1 + below(2)); /* the last one may lack a number or two */
}

int main(int argc, char **argv) {
    if (argc != 3) return fputs("usage: histories SEED COUNT\n", stderr), 2;
    state = strtoull(argv[1], 0, 10) ^ 0x686973746F72u;
    for (long todo = atol(argv[2]); todo > 0; todo--) {
        uint32_t k = shape(), total = 0, ns = k;
        for (uint32_t g = 0; g < k; g++) total += sizes[g];
        uint32_t new = below(MOST - total + 1), nr = total + new, option = total;
        int temper = below(6), another = below(2) ? temper : (int)below(6);
        for (uint32_t i = 0; i < nr; i++) readings[i] = reading(i < total ? temper : another);
        /* NaNs among the new readings */
        for (uint32_t i = total; i < nr; i++)
            if (below(20) == 0) readings[i] = nan_bits();
        uint32_t na = history(k, total, readings + total, new);
        /* a load that is refused, for its sizes, its groups, its readings or a NaN; or one that takes more readings than there are */
        if (below(16) == 0) switch (below(9)) {
        case 0: sizes[below(k)] += 1 + below(3); break;
        case 1: sizes[below(k)] = (uint32_t[]){0, 1, 513, 0xFFFFFFFFu}[below(4)]; break;
        case 2: ns = below(2), option = ns ? sizes[0] : 0; break;
        case 3: while (ns < 17) sizes[ns++] = 2; break;
        case 4: option = below(nr + 1); break;
        case 5: option = nr + below(3) + (below(2) ? 0 : 0xFFFFFFF0u - nr); break;
        case 6: nr = option = MOST; for (uint32_t i = total; i < nr; i++) readings[i] = 0; break;
        case 7: sizes[1] += sizes[0], sizes[0] = below(2), sizes[1] -= sizes[0]; break;
        default: readings[below(total)] = nan_bits();
        }
        put32(10), put32(option), put32(ns), put32(na), put32(0), put32(nr);
        for (uint32_t i = 0; i < ns; i++) put32(sizes[i]);
        for (uint32_t i = 0; i < na; i++) put32(edits[i]);
        for (uint32_t i = 0; i < nr; i++) put64(readings[i]);
    }
    return 0;
}
