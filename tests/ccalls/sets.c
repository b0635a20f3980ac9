/* sets COUNT SEED: the two C calls against an independent reading of document 01 in C, over the edges, every cut of some sets, and COUNT random and damaged
   sets. The set and the output each end directly before an inaccessible page, so that a byte too far ends the test. */
#define _DEFAULT_SOURCE
#include <float.h>
#include <stdio.h>
#include <stdlib.h>
#include <string.h>
#include <sys/mman.h>
#include <unistd.h>

#include "barkdoublet.h"

enum { ROOM = 8192, MOST = 5000 };

static uint8_t *set_end, *out_end;
static unsigned long tried, accepted, seen[32];

/* ---- memory that ends at a page that cannot be touched */

static uint8_t *guarded(void) {
    size_t page = sysconf(_SC_PAGESIZE), room = (ROOM + page - 1) / page * page;
    uint8_t *p = mmap(NULL, room + page, PROT_READ | PROT_WRITE, MAP_PRIVATE | MAP_ANONYMOUS, -1, 0);
    if (p == MAP_FAILED || mprotect(p + room, page, PROT_NONE)) perror("mmap"), exit(2);
    return p + room;
}

/* ---- the independent reading: document 01's checks in their order, then the formulas of the Rust */

static unsigned word(const uint8_t *p) { return p[0] + 256u * p[1]; }

static int is_nan(double x) { return x != x; }

static uint32_t checks(const uint8_t *s, size_t n, size_t out_len) {
    if (out_len < 48) return 12;
    if (n < 2) return 10;
    unsigned k = word(s);
    if (k > 16) return 11;
    if (n < 2 + 2 * k) return 10;
    size_t sum = 0;
    for (unsigned g = 0; g < k; g++) sum += word(s + 2 + 2 * g);
    if (sum > 512) return 11;
    if (n != 2 + 2 * k + 8 * sum) return 10;
    if (k < 2) return 3;
    const uint8_t *at = s + 2 + 2 * k;
    for (unsigned g = 0; g < k; g++) {
        unsigned size = word(s + 2 + 2 * g);
        if (size < 2) return 2;
        for (unsigned i = 0; i < size; i++, at += 8) {
            double x;
            memcpy(&x, at, 8);
            if (is_nan(x)) return 4;
        }
    }
    return 0;
}

static void work(const uint8_t *s, int welch, double f[6]) {
    unsigned k = word(s), size[16], all = 0;
    double x[512], mean[16], dev[16], grand = -0.0, between = -0.0, within = -0.0;
    for (unsigned g = 0; g < k; g++) all += size[g] = word(s + 2 + 2 * g);
    memcpy(x, s + 2 + 2 * k, 8 * all);
    const double *at = x;
    for (unsigned g = 0; g < k; at += size[g++]) {
        mean[g] = dev[g] = -0.0;
        for (unsigned i = 0; i < size[g]; i++) mean[g] += at[i], grand += at[i];
        mean[g] /= size[g];
        for (unsigned i = 0; i < size[g]; i++) dev[g] += (at[i] - mean[g]) * (at[i] - mean[g]);
    }
    memset(f, 0, 6 * sizeof *f);
    if (!welch) {
        grand /= all;
        for (unsigned g = 0; g < k; g++) between += size[g] * ((mean[g] - grand) * (mean[g] - grand)), within += dev[g];
        f[1] = k - 1, f[2] = all - k, f[3] = between, f[4] = within, f[5] = between + within;
        f[0] = between / f[1] / (within / f[2]);
        return;
    }
    double w[16], weights = -0.0, middle = -0.0, spread = -0.0, rest = -0.0;
    for (unsigned g = 0; g < k; g++) {
        double variance = dev[g] / (size[g] - 1);
        w[g] = variance < 1e-15 ? DBL_MAX / k : size[g] / variance;
        weights += w[g], middle += w[g] * mean[g];
    }
    middle /= weights;
    for (unsigned g = 0; g < k; g++) {
        double term = 1.0 - w[g] / weights;
        spread += w[g] * ((mean[g] - middle) * (mean[g] - middle)), rest += term * term / (size[g] - 1);
    }
    double lambda = rest * 3.0 / (k * k - 1);
    f[0] = spread / (k - 1) / (1.0 + 2.0 * lambda * (k - 2) / 3.0);
    f[1] = k - 1, f[2] = (k * k - 1) / (3.0 * rest);
}

static void fail(const char *what, const uint8_t *s, size_t n, size_t out_len, uint32_t got, uint32_t want) {
    printf("ccalls: %s: got %u, want %u, output %zu, set of %zu:", what, got, want, out_len, n);
    for (size_t i = 0; i < n && i < 80; i++) printf(" %02X", s[i]);
    printf("\n");
    exit(1);
}

/* ---- one set through both calls */

static void ask(const uint8_t *s, size_t n, size_t out_len) {
    uint8_t want_out[ROOM], *set = set_end - n, *out = out_end - out_len;
    memcpy(set, s, n);
    for (int welch = 0; welch < 2; welch++) {
        uint32_t want = checks(s, n, out_len);
        for (size_t i = 0; i < out_len; i++) out[i] = want_out[i] = (uint8_t)(167 * i + 13);
        if (want == 0) {
            double f[6];
            work(s, welch, f);
            for (int i = 0; i < 6; i++) {
                uint64_t b;
                memcpy(&b, f + i, 8);
                if (is_nan(f[i])) b = 0x7FF8000000000000u;
                memcpy(want_out + 8 * i, &b, 8);
            }
            accepted++;
        }
        uint32_t got = welch ? bench_welch(set, n, out, out_len) : bench_fisher(set, n, out, out_len);
        if (got != want) fail("number", s, n, out_len, got, want);
        if (memcmp(out, want_out, out_len)) fail(welch ? "welch's output" : "fisher's output", s, n, out_len, got, want);
        if (memcmp(set, s, n)) fail("the set was written to", s, n, out_len, got, want);
        tried++, seen[want]++;
    }
}

/* ---- sets */

static uint64_t state;

static uint64_t next(void) {
    uint64_t z = state += 0x9E3779B97F4A7C15u;
    z = (z ^ z >> 30) * 0xBF58476D1CE4E5B9u;
    z = (z ^ z >> 27) * 0x94D049BB133111EBu;
    return z ^ z >> 31;
}

static unsigned below(unsigned n) { return next() % n; }

static double reading(int temper) {
    static const double picked[] = {0.0, -0.0, 5e-324, -5e-324, 1e308, -1e308, 1.0, 1e-15, 1e-8, 3.0};
    double x;
    uint64_t b;
    if (temper == 0) return 20.0 + below(1000) / 100.0;
    if (temper == 1) return picked[below(10)];
    if (temper == 2) return 1e9 + below(3) * 1e-7;
    do b = next(), memcpy(&x, &b, 8);
    while (is_nan(x));
    return x;
}

/* a sound set, mostly: k groups with sizes from `low` to `high` */
static size_t make(uint8_t *s, unsigned k, unsigned low, unsigned high) {
    size_t n = 2 + 2 * k, all = 0;
    int temper = below(4);
    s[0] = k & 255, s[1] = k >> 8;
    for (unsigned g = 0; g < k; g++) {
        unsigned size = low + below(high - low + 1);
        s[2 + 2 * g] = size & 255, s[3 + 2 * g] = size >> 8, all += size;
    }
    for (size_t i = 0; i < all && n + 8 <= MOST; i++, n += 8) {
        double x = reading(temper);
        memcpy(s + n, &x, 8);
    }
    return n;
}

static void damage(uint8_t *s, size_t *n) {
    static const uint64_t nans[] = {0x7FF8000000000000u, 0xFFF8000000000000u, 0x7FF0000000000001u, 0xFFFFFFFFFFFFFFFFu, 0x7FF4000000000000u};
    uint64_t b = nans[below(5)];
    size_t k = *n >= 2 ? word(s) : 0;
    switch (below(8)) {
    case 0: *n = below(*n + 1); break;
    case 1: if (*n + 9 < MOST) *n += 1 + below(9); break;
    case 2: if (*n) s[below(*n)] ^= 1 << below(8); break;
    case 3: if (*n) s[below(*n > 34 ? 34 : *n)] = next(); break;
    case 4: if (*n > 10 + 2 * k) memcpy(s + 2 + 2 * k + 8 * below((*n - 2 - 2 * k) / 8), &b, 8); break;
    case 5: if (*n) s[1] = below(3); break;
    case 6: if (*n > 4) s[2] = below(3); break;
    default: break;
    }
}

int main(int argc, char **argv) {
    uint8_t s[MOST + 16];
    if (argc != 3) return fputs("usage: sets COUNT SEED\n", stderr), 2;
    long count = atol(argv[1]);
    state = strtoull(argv[2], NULL, 10);
    set_end = guarded(), out_end = guarded();
    /* every short output, every cut of some sets, the limits */
    for (size_t o = 0; o <= 64; o++) ask(s, make(s, 2, 2, 3), o);
    for (int round = 0; round < 12; round++) {
        size_t n = make(s, 1 + below(4), 1, 4);
        for (size_t cut = 0; cut <= n; cut++) ask(s, cut, 48 + below(8));
    }
    size_t whole = make(s, 16, 32, 32);
    for (size_t cut = 0; cut <= whole; cut++) ask(s, cut, 48);
    ask(s, whole, 60);
    ask(s, make(s, 2, 256, 256), 48);
    ask(s, make(s, 2, 257, 257), 48);
    ask(s, make(s, 17, 2, 2), 48);
    ask(s, make(s, 0, 2, 2), 48);
    ask(s, make(s, 1, 2, 2), 48);
    for (long i = 0; i < count; i++) {
        unsigned k = below(12) ? 2 + below(4) : below(20);
        size_t n = make(s, k, below(6) ? 2 : below(3), 2 + (below(40) ? below(5) : below(60)));
        for (int d = below(2) * (1 + below(2)); d > 0; d--) damage(s, &n);
        ask(s, n, below(30) ? 48 + below(16) : below(60));
    }
    printf("ccalls: seed %s: %lu calls, %lu accepted;", argv[2], tried, accepted);
    for (int i = 1; i < 32; i++)
        if (seen[i]) printf(" %lu of number %d", seen[i], i);
    printf("; no difference\n");
    return 0;
}
