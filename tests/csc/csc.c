/* csc: answers the cases of kind csc on standard input by `matrix_product::matrix_multiply_csc`, in the oracle's line format: `ID csc p k C.. S..` gives `ID ok`
   and p times p floats, every NaN as 7FF8000000000000. Where the function does not take the sizes, the answer is `ID refused`. */
#include "exported.h"

#include <inttypes.h>
#include <stdio.h>
#include <stdlib.h>
#include <string.h>

enum { MOST = 12 * 12 };

/* The floats at `text`, as they are; false where it has not as many. */
static bool floats(char **text, double *to, size_t n) {
    for (; n > 0; n--, to++) {
        char *end;
        uint64_t b = strtoull(*text, &end, 16);
        if (end == *text) return false;
        memcpy(to, &b, sizeof b), *text = end;
    }
    return true;
}

static bool answer(const char *id, char *text) {
    static double c[MOST], s[MOST], out[MOST];
    size_t p = strtoul(text, &text, 10), k = strtoul(text, &text, 10);
    if (p > 12 || k > 12 || !floats(&text, c, p * k) || !floats(&text, s, k * k)) return false;
    if (!raw_csc(c, p * k, s, k * k, p, k, out, p * p)) return printf("%s refused\n", id) > 0;
    printf("%s ok", id);
    for (size_t i = 0; i < p * p; i++) {
        uint64_t b;
        memcpy(&b, out + i, sizeof b);
        printf(" %016" PRIX64, out[i] != out[i] ? UINT64_C(0x7FF8000000000000) : b);
    }
    puts("");
    return true;
}

int main(void) {
    static char line[1 << 14], id[256];
    while (fgets(line, sizeof line, stdin)) {
        int at = 0;
        if (*line == '#' || *line == '\n') continue;
        if (sscanf(line, "%255s csc %n", id, &at) != 1 || at == 0 || !answer(id, line + at)) {
            fprintf(stderr, "csc: no case of this kind: %.60s\n", line);
            return 1;
        }
    }
    return fflush(stdout) ? 1 : 0;
}
