/* lines: a stream of cases on standard input, as the lines that the oracle's program reads, so that its counters can tell which branches the cases take.
   Views and sheets have no such line and are left out; a gauge study is written as its two-way analysis. So are cases of matrices that do not fit their option. */
#include <stdint.h>
#include <stdio.h>
#include <stdlib.h>

static const char *const names[] = {0, "mean", "variance", "fisher", "welch", "twoway", "rm", "twoway", "sqrt", 0, 0, "solve", "inverse", "determinant", "eigenvalues", "qr", "orthonormalize", "powi"};
static uint32_t codes[1800];
static uint64_t readings[600];

static void get(void *to, size_t bytes) {
    if (fread(to, 1, bytes, stdin) != bytes) {
        fprintf(stderr, "lines: a case is cut short\n");
        exit(1);
    }
}

static void put_codes(const uint32_t *from, uint32_t n) {
    printf(" %u", n);
    for (uint32_t i = 0; i < n; i++) printf(" %u", from[i]);
}

static void put_readings(uint32_t n) {
    for (uint32_t i = 0; i < n; i++) printf(" %016llX", (unsigned long long)readings[i]);
}

/* How many readings a matrix case of this kind and option has; 0 where the option is out of range. */
static uint32_t needed(uint32_t kind, uint32_t option) {
    uint32_t n = option;
    if (kind == 16) {
        uint32_t p = option / 16, k = option % 16;
        return p >= 1 && p <= 11 && k >= 1 && k <= 12 ? p * k : 0;
    }
    if (kind == 17) return n <= 11;
    if (n < 1 || n > (kind == 11 ? 23 : kind == 12 ? 24 : 11)) return 0;
    return kind == 11 ? n * n + n : n * n;
}

int main(void) {
    uint32_t head[6];
    size_t got;
    for (unsigned long number = 0; (got = fread(head, 1, sizeof head, stdin)) == sizeof head; number++) {
        uint32_t kind = head[0], option = head[1], ns = head[2], na = head[3], nb = head[4], nr = head[5];
        /* the kinds with counts of skipped columns are 11, 12 and 5 to the Rust */
        if (kind == 23 || kind == 24) kind -= 12;
        if (kind == 25) kind = 5;
        if (ns > 600 || na > 600 || nb > 600 || nr > 600) {
            fprintf(stderr, "lines: a head beyond the limits\n");
            return 1;
        }
        get(codes, 4 * (size_t)(ns + na + nb));
        get(readings, 8 * (size_t)nr);
        if (kind > 17 || !names[kind]) continue;
        if (kind == 8) {
            for (uint32_t i = 0; i < nr; i++) printf("%lu-%u sqrt %016llX\n", number, i, (unsigned long long)readings[i]);
            continue;
        }
        if (kind >= 11 && (needed(kind, option) == 0 || needed(kind, option) != nr)) continue;
        printf("%lu %s", number, names[kind]);
        if (kind == 3 || kind == 4) put_codes(codes, ns);
        if (kind == 6) {
            printf(" %u", option == 1);
            put_codes(codes, ns);
        }
        if (kind == 16) printf(" %u %u", option / 16, option % 16);
        else if (kind >= 11) printf(" %u", option);
        else printf(" %u", nr);
        put_readings(nr);
        if (kind == 5 || kind == 7) {
            put_codes(codes + ns, na);
            put_codes(codes + ns + na, nb);
        }
        putchar('\n');
    }
    return got != 0;
}
