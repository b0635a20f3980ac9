/* nanbits COUNT: the raw bits of every double that the library hands out. Each NaN among them must be 7FF8000000000000. No proof can say so, since the logic has
   one NaN, and the comparisons with the Rust print every NaN alike. The machine's own NaN of 0/0 or inf - inf is FFF8000000000000, so a NaN that is handed out
   as the machine made it is seen here. Here are the inputs, and what is looked at and told; rawcalls.c has the calls.

   Each kind of readings that makes NaNs is put through each call in designs of several shapes; then COUNT random sets mix the kinds. Inputs are kept as whole
   numbers, so that nothing here changes a NaN's bits. Before a call, its output and its scratch hold a NaN that no arithmetic makes: so a place that the call
   ought to write and does not is seen too, and one that it ought to leave and writes. */
#include "nanbits.h"

#include <float.h>
#include <stdio.h>
#include <stdlib.h>
#include <string.h>

static int failed;
static unsigned long asked, made, kept;
unsigned long sets;

int is_nan(uint64_t b) { return (b & 0x7FFFFFFFFFFFFFFFu) > PLUS; }

uint64_t bits(double x) {
    uint64_t b;
    memcpy(&b, &x, sizeof b);
    return b;
}

double with_bits(uint64_t b) {
    double x;
    memcpy(&x, &b, sizeof x);
    return x;
}

/* ---- what is said of a failure */

static void words(const char *what, const uint32_t *w, unsigned n) {
    printf("  %s:", what);
    for (unsigned i = 0; i < n; i++) printf(" %u", (unsigned)w[i]);
    printf("\n");
}

static void doubles(const char *what, const uint64_t *b, unsigned n) {
    printf("  %s:", what);
    for (unsigned i = 0; i < n; i++) printf(" %016llX", (unsigned long long)b[i]);
    printf("\n");
}

/* Only the first failure of a call is shown, with its input; the call's line at the end has how many there were, and in which places. */
void fail(struct call *c, const struct set *s, uint32_t number, const char *what, unsigned place, uint64_t holds) {
    failed = 1;
    if (c->failures++) return;
    printf("nanbits: %s: number %u: %s: place %u holds %016llX\n", c->name, (unsigned)number, what, place, (unsigned long long)holds);
    printf("  input: %s\n", s->kind);
    doubles("readings", s->readings, s->n);
    if (s->k) words("sizes", s->sizes, s->k);
    if (s->levels_b) words("codes A", s->code_a, s->n), words("codes B", s->code_b, s->n);
    if (s->edited) words("edits", s->edits, 3 * EDITS), doubles("new readings", s->fresh, EDITS);
    if (s->m) words("numbers", s->numbers, s->m);
}

/* ---- one call */

void look(struct call *c, const struct set *s, unsigned place, uint64_t b) {
    if (!is_nan(b)) return;
    c->nans++, c->seen[place]++;
    if (b == THE_NAN) return;
    c->wrong[place]++;
    fail(c, s, 0, "a NaN of other bits", place, b);
}

void fill(double *p, size_t n) {
    const uint64_t strange = STRANGE;
    for (size_t i = 0; i < n; i++) memcpy(p + i, &strange, sizeof strange);
}

/* ---- a generator of its own, so that every run has the same sets. Two draws never stand where their order is left to the compiler. */

static uint64_t state = 0x9E3779B97F4A7C15u;

uint64_t next(void) {
    state ^= state << 13, state ^= state >> 7, state ^= state << 17;
    return state;
}

unsigned below(unsigned n) { return (next() >> 32) % n; }

/* ---- kinds of readings */

const uint64_t nans[NANS] = {
    0x7FF8000000000000u, 0xFFF8000000000000u, /* quiet */
    0x7FF0000000000001u, 0xFFF0000000000001u, 0x7FF4000000000000u, 0xFFF7FFFFFFFFFFFFu, /* signalling */
    0x7FF8000000000001u, 0x7FFFFFFFFFFFFFFFu, 0xFFFFFFFFFFFFFFFFu, 0xFFFC0000DEADBEEFu, /* quiet, with a payload */
};

static const char *const kinds[KINDS] = {
    "ordinary readings", "+inf in one row", "-inf in one row", "both infinities in one row", "+inf in one row, -inf in another", "+inf in each row",
    "both infinities in each row", "nothing but +inf", "nothing but -inf", "infinities by turns", "constant readings", "constant rows", "nothing but +0.0",
    "nothing but -0.0", "the largest double", "the largest doubles of both signs", "squares that overflow", "products of squares that overflow",
    "squares that vanish", "the smallest doubles", "tiny beside huge", "any bits but a NaN's",
};

/* The reading in place p of row g. */
uint64_t reading(unsigned kind, unsigned g, unsigned p) {
    double x = 20.0 + (7 * g + 5 * p + 3 * g * p) % 11 * 0.25;
    uint64_t b;
    switch (kind) {
    case 1: return g == 0 && p == 0 ? PLUS : bits(x);
    case 2: return g == 0 && p == 0 ? MINUS : bits(x);
    case 3: return g == 0 && p == 0 ? PLUS : g == 0 && p == 1 ? MINUS : bits(x);
    case 4: return p > 0 ? bits(x) : g == 0 ? PLUS : g == 1 ? MINUS : bits(x);
    case 5: return p == 0 ? PLUS : bits(x);
    case 6: return p == 0 ? PLUS : p == 1 ? MINUS : bits(x);
    case 7: return PLUS;
    case 8: return MINUS;
    case 9: return (g + p) % 2 ? MINUS : PLUS;
    case 10: return bits(3.5);
    case 11: return bits(g + 0.25);
    case 12: return bits(0.0);
    case 13: return bits(-0.0);
    case 14: return bits(DBL_MAX);
    case 15: return bits((g + p) % 2 ? -DBL_MAX : DBL_MAX);
    case 16: return bits(x * 1e160);
    case 17: return bits(x * 1e90);
    case 18: return bits(x * 1e-170);
    case 19: return 1 + (g + 2 * p) % 3;
    case 20: return bits(p % 2 ? x * 1e-300 : x * 1e306);
    case 21:
        do b = next();
        while (is_nan(b));
        return b;
    default: return bits(x);
    }
}

/* ---- sets: the sizes of the rows first, then the readings */

void rows(struct set *s, unsigned k, unsigned low, unsigned high) {
    s->k = k, s->n = s->levels_b = s->edited = s->m = 0, sets++;
    for (unsigned g = 0; g < k; g++) {
        s->sizes[g] = low + below(high - low + 1);
        if (s->n + s->sizes[g] + (k - 1 - g) * low > READINGS) s->sizes[g] = low;
        s->n += s->sizes[g];
    }
}

/* Cells of levels_a by levels_b. Of an unbalanced design the first cell has one reading more than the second; of a balanced one, each has two or more. */
void cells(struct set *s, unsigned levels_a, unsigned levels_b, unsigned most, int balanced) {
    unsigned each = 2 + below(most - 1);
    rows(s, levels_a * levels_b, balanced ? each : 1, balanced ? each : most);
    if (!balanced) s->n += s->sizes[1] + 1, s->n -= s->sizes[0], s->sizes[0] = s->sizes[1] + 1;
    s->levels_b = levels_b;
}

static void of_kind(struct set *s, unsigned kind) {
    unsigned i = 0;
    s->kind = kinds[kind];
    for (unsigned g = 0; g < s->k; g++)
        for (unsigned p = 0; p < s->sizes[g]; p++) s->readings[i++] = reading(kind, g, p);
}

/* A reading of any kind, from the places in which the kinds have their infinities. */
uint64_t any_reading(void) {
    unsigned kind = below(KINDS), at = below(4);
    return reading(kind, at / 2, at % 2);
}

/* Kinds mixed: one of the set, which is half the time the ordinary one; in some rows one of the row; and here and there one of the reading. */
static void mixed(struct set *s) {
    unsigned i = 0, kind = below(2) ? below(KINDS) : 0;
    s->kind = "kinds mixed";
    for (unsigned g = 0; g < s->k; g++) {
        unsigned here = below(8) ? kind : below(KINDS);
        for (unsigned p = 0; p < s->sizes[g]; p++) s->readings[i++] = below(40) ? reading(here, g, p) : any_reading();
    }
    if (below(16) || s->n == 0) return;
    i = below(s->n);
    s->readings[i] = nans[below(NANS)];
}

/* The codes of the cells' readings; where the order is free, every reading changes its place with another. */
void codes(struct set *s, int in_order) {
    unsigned i = 0;
    for (unsigned g = 0; g < s->k; g++)
        for (unsigned p = 0; p < s->sizes[g]; p++, i++) s->code_a[i] = g / s->levels_b, s->code_b[i] = g % s->levels_b;
    for (i = 0; i < s->n && !in_order; i++) {
        unsigned j = below(s->n);
        uint64_t x = s->readings[i];
        uint32_t a = s->code_a[i], b = s->code_b[i];
        s->readings[i] = s->readings[j], s->code_a[i] = s->code_a[j], s->code_b[i] = s->code_b[j];
        s->readings[j] = x, s->code_a[j] = a, s->code_b[j] = b;
    }
}

/* Edits of a sheet: some name a group or a place that is not there, some bring a NaN, and some take an infinity away again. */
void edits(struct set *s) {
    s->edited = 1;
    for (unsigned i = 0; i < EDITS; i++) {
        s->edits[3 * i] = 1 + below(3), s->edits[3 * i + 1] = below(s->k + !below(8)), s->edits[3 * i + 2] = below(4);
        s->fresh[i] = below(3) ? reading(0, i, 0) : below(8) ? any_reading() : nans[below(NANS)];
    }
}

/* The readings of one kind, or (kind KINDS) of kinds mixed. */
void readings_of(struct set *s, unsigned kind) {
    if (kind == KINDS)
        mixed(s);
    else
        of_kind(s, kind);
}

/* A line for each call. */
void tell(const struct call *first, unsigned n) {
    for (const struct call *c = first; c < first + n; c++) {
        unsigned seen = 0;
        asked += c->calls, made += c->nans, kept += c->kept;
        for (unsigned i = 0; i < c->places; i++) seen += c->seen[i] > 0;
        printf("nanbits: %-28s %7lu calls, %7lu accepted, %8lu NaNs, in %4u of %4u places", c->name, c->calls, c->accepted, c->nans, seen, c->places);
        if (c->keeps) printf(", %lu NaNs of other bits kept", c->kept);
        if (c->failures) printf("; %lu failures, with NaNs of other bits in the places", c->failures);
        for (unsigned i = 0; i < c->places; i++)
            if (c->wrong[i]) printf(" %u", i);
        if (seen < c->must) printf("; %u had to be seen: FAILED", c->must), failed = 1;
        if (c->keeps && c->kept == 0) printf("; one had to be kept: FAILED"), failed = 1;
        printf("\n");
    }
}

int main(int argc, char **argv) {
    static struct set s;
    unsigned long count = argc > 1 ? strtoul(argv[1], NULL, 10) : 1000;
    raw_calls(&s, count);
    printf("nanbits: %lu calls on %lu sets (%lu random ones of each sort), %lu NaNs made and %lu kept: ", asked, sets, count, made, kept);
    puts(failed ? "FAILED" : "each that is made has the bits 7FF8000000000000, and each that is kept has its own");
    return failed;
}
