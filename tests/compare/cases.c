/* Reads a stream of cases (docs/STREAM.md) on standard input.
   cases only K..         passes on the cases whose kind is among K.., and says on standard error how many
   cases cut FIRST LAST   passes on the cases FIRST to LAST, counted from 1
   cases words KINDS      prints the first case in words; the file KINDS has a line `NUMBER WORDS` for each kind */
#include <stdint.h>
#include <stdio.h>
#include <stdlib.h>
#include <string.h>

enum { MOST = 600, HEAD = 24 };

static unsigned char c[HEAD + 3 * MOST * 4 + MOST * 8];
static size_t length;

static uint32_t word(const unsigned char *p) { return p[0] | p[1] << 8 | p[2] << 16 | (uint32_t)p[3] << 24; }

static void broken(unsigned long number, const char *what) {
    fprintf(stderr, "cases: case %lu of the stream %s\n", number, what);
    exit(1);
}

/* Reads the next case, the one with this number, into c; 0 at the end of the stream. */
static int next_case(unsigned long number) {
    size_t got = fread(c, 1, HEAD, stdin);
    if (got == 0) return 0;
    if (got < HEAD) broken(number, "is cut short");
    length = HEAD;
    for (int i = 2; i < 6; i++) {
        uint32_t n = word(c + 4 * i);
        if (n > MOST) broken(number, "has a list of more than 600");
        length += n * (i == 5 ? 8 : 4);
    }
    if (fread(c + HEAD, 1, length - HEAD, stdin) != length - HEAD) broken(number, "is cut short");
    return 1;
}

static int only(int count, char **kinds) {
    unsigned long kept = 0;
    for (unsigned long number = 1; next_case(number); number++)
        for (int i = 0; i < count; i++)
            if (word(c) == strtoul(kinds[i], 0, 10)) {
                fwrite(c, 1, length, stdout);
                kept++;
                break;
            }
    fprintf(stderr, "%lu\n", kept);
    return 0;
}

static int cut(unsigned long first, unsigned long last) {
    for (unsigned long number = 1; number <= last && next_case(number); number++)
        if (number >= first) fwrite(c, 1, length, stdout);
    return 0;
}

static const unsigned char *whole_numbers(const char *what, uint32_t n, const unsigned char *at) {
    if (n) printf("  %s, %u:", what, n);
    for (uint32_t i = 0; i < n; i++, at += 4) printf(" %u", word(at));
    if (n) putchar('\n');
    return at;
}

static int words(const char *file) {
    char line[1024];
    FILE *kinds = fopen(file, "r");
    if (!kinds) return perror(file), 1;
    if (!next_case(1)) return fputs("cases: the stream has no case\n", stderr), 1;
    printf("  kind %u, option %u", word(c), word(c + 4));
    while (fgets(line, sizeof line, kinds)) {
        char *end;
        if (strtoul(line, &end, 10) == word(c)) printf(":%.*s", (int)strcspn(end, "\n"), end);
    }
    putchar('\n');
    const unsigned char *at = c + HEAD;
    at = whole_numbers("sizes", word(c + 8), at);
    at = whole_numbers("codes of A", word(c + 12), at);
    at = whole_numbers("codes of B", word(c + 16), at);
    printf("  readings, %u:", word(c + 20));
    for (uint32_t i = 0; i < word(c + 20); i++, at += 8) {
        uint64_t bits = word(at) | (uint64_t)word(at + 4) << 32;
        double x;
        memcpy(&x, &bits, 8);
        printf(" %016llX (%.17g)", (unsigned long long)bits, x);
    }
    putchar('\n');
    return 0;
}

int main(int argc, char **argv) {
    if (argc > 2 && !strcmp(argv[1], "only")) return only(argc - 2, argv + 2);
    if (argc == 4 && !strcmp(argv[1], "cut")) return cut(strtoul(argv[2], 0, 10), strtoul(argv[3], 0, 10));
    if (argc == 3 && !strcmp(argv[1], "words")) return words(argv[2]);
    return fputs("usage: cases only K.. | cut FIRST LAST | words KINDS, with a stream on standard input\n", stderr), 2;
}
