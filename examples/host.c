/* host FILE: reads a reading set from a file, and prints Fisher's and Welch's analysis of it. */
#include <stdio.h>
#include <string.h>

#include "barkdoublet.h"

static void show(const char *name, uint32_t refusal, const uint8_t *out) {
    double x[6];
    if (refusal != BARKDOUBLET_ACCEPTED) {
        printf("%s: refused, number %u\n", name, (unsigned)refusal);
        return;
    }
    memcpy(x, out, sizeof x);
    printf("%s: F = %.17g, df %.17g and %.17g", name, x[0], x[1], x[2]);
    if (strcmp(name, "Fisher") == 0) printf("; sums of squares %.17g, %.17g, %.17g", x[3], x[4], x[5]);
    printf("\n");
}

int main(int argc, char **argv) {
    static uint8_t set[4131]; /* one byte more than the longest set */
    uint8_t out[48];
    FILE *f = argc == 2 ? fopen(argv[1], "rb") : NULL;
    if (!f) return fputs("usage: host FILE, a reading set\n", stderr), 2;
    size_t n = fread(set, 1, sizeof set, f);
    fclose(f);
    show("Fisher", bench_fisher(set, n, out, sizeof out), out);
    show("Welch", bench_welch(set, n, out, sizeof out), out);
    return 0;
}
