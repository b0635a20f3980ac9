/* ours CASES: reads a stream of sheets that are not from load (kind 22: rows, places, edits), prints what `Sheet::report` says of each as it is written, of Levene's kind, and writes
   the same sheets without their edits to the file CASES. Lines are those of the case stream, without the first and the sizes; a NaN is told by its bits. Cases that do not fit their
   kind are left out of both. The last line, on standard error, says what was tried. */
#include "exported.h"

#include <math.h>
#include <stdint.h>
#include <stdio.h>
#include <stdlib.h>
#include <string.h>

enum { MOST = 600, ROWS = 16, PLACES = 512, ABOVE = 4 * ROWS, LEVENE = 2 };

static uint32_t head[6], words[3 * MOST];
static double readings[MOST];

static void get(void *to, size_t bytes) {
    if (fread(to, 1, bytes, stdin) != bytes) {
        fputs("ours: a case is cut short\n", stderr);
        exit(1);
    }
}

static void put_doubles(const char *name, const double *from, unsigned n) {
    fputs(name, stdout);
    for (unsigned i = 0; i < n; i++) {
        uint64_t bits;
        memcpy(&bits, from + i, sizeof bits);
        printf(" %016llX", (unsigned long long)bits);
    }
    putchar('\n');
}

/* whether a row holds another mean than that of its readings, as the Rust works it out */
static int stale(const double *group, uint32_t n, double mean) {
    double sum = -0.0;
    for (uint32_t i = 0; i < n; i++) sum += group[i];
    return !(sum / n == mean || (isnan(sum / n) && isnan(mean)));
}

int main(int argc, char **argv) {
    FILE *cases = argc == 2 ? fopen(argv[1], "wb") : 0;
    unsigned long all = 0, accepted = 0, with_stale = 0, no_number = 0;
    size_t got;
    if (!cases) return fputs("usage: ours CASES < stream\n", stderr), 2;
    while ((got = fread(head, 1, sizeof head, stdin)) == sizeof head) {
        /* the upper bit is a choice that the library does not have */
        uint32_t groups = head[1] & 0x7FFFFFFFu, ns = head[2], na = head[3], nb = head[4], nr = head[5];
        if (ns > MOST || na > MOST || nb > MOST || nr > MOST) return fputs("ours: a head beyond the limits\n", stderr), 1;
        get(words, 4 * (size_t)(ns + na + nb));
        get(readings, 8 * (size_t)nr);
        uint32_t held = nb == 1 ? words[ns + na] : MOST + 1;
        if (head[0] != 22 || ns > ROWS || held > PLACES || nr < ABOVE + held) continue;
        uint32_t sizes[ROWS] = {0};
        double places[PLACES] = {0}, figures[9], means[ROWS];
        memcpy(sizes, words, 4 * ns);
        memcpy(places, readings + ABOVE, 8 * held);
        head[1] = groups, head[3] = 0, head[5] = ABOVE + held;
        if (fwrite(head, 1, sizeof head, cases) != sizeof head || fwrite(words, 4, ns, cases) != ns || fwrite(&held, 4, 1, cases) != 1
            || fwrite(readings, 8, head[5], cases) != head[5])
            return fputs("ours: the cases cannot be written\n", stderr), 1;
        uint32_t number = raw_sheet_report(places, PLACES, sizes, ROWS, readings, ROWS, readings + ROWS, ROWS, groups, LEVENE, figures, 9, means, ROWS);
        all++;
        if (number) {
            printf("refused %u 0 0\n", number);
            continue;
        }
        accepted++, no_number += isnan(figures[0]);
        int some = 0;
        for (uint32_t g = 0, at = 0; g < groups; at += sizes[g++]) some |= stale(places + at, sizes[g], readings[g]);
        with_stale += some;
        put_doubles("ss", figures + 3, 3), put_doubles("df", figures + 1, 2), put_doubles("ms", figures + 6, 2);
        put_doubles("f", figures, 1), put_doubles("grand", figures + 8, 1), put_doubles("means", means, groups);
    }
    if (got || fclose(cases)) return fputs("ours: the stream is cut short, or the cases cannot be written\n", stderr), 1;
    fprintf(stderr, "%lu sheets, %lu refused with 13, %lu reports, of which %lu have a row with another mean than its readings', and %lu an F that is a NaN\n", all, all - accepted, accepted, with_stale, no_number);
    return 0;
}
