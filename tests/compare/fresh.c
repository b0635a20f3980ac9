/* fresh sheets | fresh reports: reads answers of kind 10, and asks for the sheets that they end with anew, from their `row` and `places` lines: as loads with no edit (kind 10), or as
   Fisher's and Welch's analysis of those readings (kinds 3 and 4). The answers to that stream must be the same lines. */
#include <stdint.h>
#include <stdio.h>
#include <stdlib.h>
#include <string.h>

static void put32(uint32_t x) { for (int i = 0; i < 4; i++) putchar(x >> 8 * i & 255); }
static void put64(uint64_t x) { put32(x), put32(x >> 32); }

static void ask(uint32_t kind, uint32_t k, const uint32_t *sizes, uint32_t n, const uint64_t *readings) {
    put32(kind), put32(kind == 10 ? n : 0), put32(k), put32(0), put32(0), put32(n);
    for (uint32_t g = 0; g < k; g++) put32(sizes[g]);
    for (uint32_t i = 0; i < n; i++) put64(readings[i]);
}

int main(int argc, char **argv) {
    static char line[16384];
    static uint32_t sizes[16];
    static uint64_t readings[600];
    uint32_t k = 0;
    int sheets = argc == 2 && !strcmp(argv[1], "sheets");
    if (!sheets && !(argc == 2 && !strcmp(argv[1], "reports"))) return fputs("usage: fresh sheets|reports < answers\n", stderr), 2;
    while (fgets(line, sizeof line, stdin)) {
        if (!strncmp(line, "sheet ", 6)) k = 0;
        if (!strncmp(line, "row ", 4)) {
            if (k == 16) return fputs("fresh: more than 16 rows\n", stderr), 1;
            sizes[k++] = strtoul(line + 4, 0, 10);
        }
        if (strncmp(line, "places", 6)) continue;
        uint32_t n = 0;
        for (char *at = line + 6; *at == ' '; n++) {
            if (n == 600) return fputs("fresh: too many places\n", stderr), 1;
            readings[n] = strtoull(at, &at, 16);
        }
        if (sheets)
            ask(10, k, sizes, n, readings);
        else
            ask(3, k, sizes, n, readings), ask(4, k, sizes, n, readings);
    }
    return 0;
}
