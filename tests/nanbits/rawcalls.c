/* The raw bits of what the public functions store or hand out: the file `calls` here has an exported function before each. nanbits.c says what is looked at and
   why. What a function only passes on keeps its bits, whatever they are: the view of a group, a refused edit's sheet, the rows and places that an
   edit does not rework, the memory of a refused call, and the places behind what a call writes. That is looked at too. */
#include "nanbits.h"
#include "exported.h"

#include <float.h>
#include <string.h>

enum {
    CANON, CANON_PLACES, ABS, LEAST, GREATEST, CLAMP, POWER, FLOAT_OF, ROOT, PUT, WIPE, SUM, SQ_DEV, MEAN, VARIANCE, FIGURE, REFUSED, EMPTY_ROWS, ROW, VALIDATE, PUT_ROWS, FISHER, WELCH, LEVENE,
    REPORT_FISHER, REPORT_WELCH, REPORT_LEVENE, VIEW, LOAD, EDIT, SHEET_FISHER, SHEET_WELCH, SHEET_LEVENE, READ_SET, SET_FISHER, SET_WELCH, SET_LEVENE, EFFECT_ROW, PLAIN_ROW, NO_ROW, NO_EFFECTS, CELL_TABLE, BALANCED_SS,
    NORMAL_EQUATIONS, TYPE3_SS, ORGANIZE, ORGANIZE_REFUSED, TWO_WAY, TWO_WAY_UNBALANCED, TWO_WAY_REFUSED, STUDY, STUDY_REFUSED, RM_TABLE, REPEATED, REPEATED_SPHERICITY, COVARIANCE,
    CORRECTIONS, NO_CORRECTIONS, SOLVE, INVERSE, DETERMINANT, DOT, LESS_ROW, OVER_ROW, ORTHONORMALIZE, PRODUCT, CSC, QR, EIGENVALUES, RAW
};

/* The places that cannot hold a NaN: degrees of freedom that are counts, what Welch's method does not have, what is not worked out where sphericity is not asked
   for, and both epsilons, which have numbers as bounds, with the degrees of freedom that one of them makes. A row without F has +0.0 there; a view, a sheet's
   places and sorted readings are never made NaNs; an answer of nothing but zeros has none; R is zero below its diagonal, and the last of these places lie there
   in each size. The determinant's own place is the first. */
#define CALL(C, NAME, PLACES, MUST) [C] = {.name = NAME, .places = PLACES, .must = MUST}
#define KEEP(C, NAME, PLACES, MUST) [C] = {.name = NAME, .places = PLACES, .must = MUST, .keeps = 1}
static struct call raw[RAW] = {
    CALL(CANON, "float::canon", 1, 1), KEEP(CANON_PLACES, "float::canon_places", 16, 16), CALL(ABS, "float::abs", 1, 1), CALL(LEAST, "float::least", 1, 1),
    CALL(GREATEST, "float::greatest", 1, 1), CALL(CLAMP, "float::clamp", 1, 1), CALL(POWER, "float::power", 1, 1), CALL(FLOAT_OF, "float::float_of", 1, 1),
    CALL(ROOT, "root::sqrt", 1, 1), CALL(FISHER, "one_way_anova, Fisher", 25, 23), CALL(WELCH, "one_way_anova, Welch", 25, 18),
    CALL(LEVENE, "one_way_anova, Levene", 25, 23),
    CALL(FIGURE, "Figure::from", 1, 1), KEEP(PUT, "lent::put", 0, 0), CALL(WIPE, "lent::wipe", 0, 0), CALL(REFUSED, "results::refused", 25, 0), CALL(EMPTY_ROWS, "Row::empty, Sheet::empty_row", 4, 0),
    CALL(NO_ROW, "results::no_row", 4, 0), CALL(NO_EFFECTS, "results::no_effects", 3, 0), CALL(NO_CORRECTIONS, "results::no_corrections", 10, 0),
    CALL(SUM, "stats::sum", 1, 1), CALL(SQ_DEV, "stats::sq_dev", 1, 1), CALL(MEAN, "stats::mean", 1, 1), CALL(VARIANCE, "stats::variance", 1, 1),
    CALL(ROW, "Row::of", 2, 2), CALL(VALIDATE, "validate_anova_groups", 32, 32), CALL(PUT_ROWS, "put_rows", 32, 32), CALL(REPORT_FISHER, "oneway::report, Fisher", 25, 23),
    CALL(REPORT_WELCH, "oneway::report, Welch", 25, 18), CALL(REPORT_LEVENE, "oneway::report, Levene", 25, 23), KEEP(VIEW, "oneway_checks::group", 0, 0), CALL(LOAD, "Sheet::load", 32, 32),
    KEEP(EDIT, "Sheet's edits, the row", 2, 2), CALL(SHEET_FISHER, "Sheet::report, Fisher", 25, 23), CALL(SHEET_WELCH, "Sheet::report, Welch", 25, 18),
    CALL(SHEET_LEVENE, "Sheet::report, Levene", 25, 23),
    CALL(READ_SET, "set::read_set", 512, 512), CALL(SET_FISHER, "set::set_anova, Fisher", 25, 23), CALL(SET_WELCH, "set::set_anova, Welch", 25, 18),
    CALL(SET_LEVENE, "set::set_anova, Levene", 25, 23),
    CALL(EFFECT_ROW, "results::effect_row", 4, 4), CALL(PLAIN_ROW, "results::plain_row", 4, 3), CALL(CELL_TABLE, "twoway_means::cell_table", 49, 49),
    CALL(BALANCED_SS, "twoway_balanced::balanced_ss", 3, 3), CALL(NORMAL_EQUATIONS, "normal_equations, X'y", 36, 36), CALL(TYPE3_SS, "twoway_type3::type3_ss", 3, 3), CALL(TWO_WAY, "two_way_anova, balanced", 69, 62),
    CALL(TWO_WAY_UNBALANCED, "two_way_anova, unbalanced", 69, 62), CALL(TWO_WAY_REFUSED, "two_way_anova, refused", 69, 0),
    CALL(STUDY, "gauge_study", 5, 5), CALL(STUDY_REFUSED, "gauge_study, refused", 5, 0),
    CALL(ORGANIZE, "organize_two_way_data", 0, 0), CALL(ORGANIZE_REFUSED, "organize_.., refused", 0, 0), CALL(RM_TABLE, "repeated_grid::rm_table", 81, 81),
    CALL(REPEATED, "repeated measures", 103, 86), CALL(REPEATED_SPHERICITY, "repeated, sphericity", 103, 89),
    CALL(COVARIANCE, "contrast_covariance", 121, 121), CALL(CORRECTIONS, "sphericity corrections", 10, 7),
    KEEP(SOLVE, "solve_linear_system", 36 * 37, 36 * 37), KEEP(INVERSE, "matrix_inverse", 36 * 72, 36 * 72),
    KEEP(DETERMINANT, "matrix_determinant", 1 + 36 * 36, 1 + 36 * 36), CALL(DOT, "matrix_places::dot", 1, 1),
    KEEP(LESS_ROW, "matrix_places::less_row", 8, 8), KEEP(OVER_ROW, "matrix_places::over_row", 8, 8), KEEP(ORTHONORMALIZE, "orthonormalize", 132, 132),
    CALL(PRODUCT, "matrix_product::product", 144, 144), CALL(CSC, "matrix_multiply_csc", 121, 121), CALL(QR, "qr_decomposition", 242, 215),
    KEEP(EIGENVALUES, "compute_eigenvalues", 132, 132),
};

/* Lent memory, and what it held before the call. */
static struct lent {
    unsigned room;
    double at[SCRATCH + BEHIND];
    uint64_t was[SCRATCH + BEHIND];
} one, two, three, four, five;

static void note(struct lent *l) { memcpy(l->was, l->at, l->room * sizeof *l->was); }

/* Lent with these bits in the first n places, and the strange NaN behind them. */
static double *with(struct lent *l, const uint64_t *held, unsigned n) {
    l->room = n + BEHIND;
    fill(l->at, l->room);
    if (held && n) memcpy(l->at, held, n * sizeof *held);
    note(l);
    return l->at;
}

/* n places to write to, as a slice. */
#define LENT(L, N) with(&L, NULL, N), N

/* After a call that wrote n places, which are the call's places from `first` on; all others are as they were. */
static void wrote(int which, const struct set *s, const struct lent *l, unsigned n, unsigned first) {
    for (unsigned i = 0; i < l->room; i++) {
        uint64_t b = bits(l->at[i]);
        if (i < n)
            look(raw + which, s, first + i, b);
        else if (b != l->was[i])
            fail(raw + which, s, 0, "a place that had to keep its bits was changed", i, b);
        else
            raw[which].kept += is_nan(b) && b != THE_NAN && b != STRANGE;
    }
}

/* After a call that made the first n places +0.0; all others are as they were. */
static void zeros(int which, const struct set *s, struct lent *l, unsigned n) {
    for (unsigned i = 0; i < n; i++)
        if (bits(l->at[i]) != 0) fail(raw + which, s, 0, "a place is not +0.0", i, bits(l->at[i]));
    memcpy(l->at, l->was, n * sizeof *l->at);
    wrote(which, s, l, 0, 0);
}

/* After a call that wrote the places from `from` on and before `to`; all others are as they were. */
static void wrote_part(int which, const struct set *s, struct lent *l, unsigned from, unsigned to) {
    for (unsigned i = from; i < to; i++) look(raw + which, s, i - from, bits(l->at[i])), l->was[i] = bits(l->at[i]);
    wrote(which, s, l, 0, 0);
}

/* Counts a call. A refusal that is not the wanted one is a failure, and so is none where one is wanted. */
static unsigned took(int which, const struct set *s, uint32_t got, uint32_t want) {
    raw[which].calls++, raw[which].accepted += got == 0;
    if (got != want) fail(raw + which, s, got, "not the refusal that was expected", want, 0);
    return got == 0;
}

static void gave(int which, const struct set *s, double x) {
    took(which, s, 0, 0);
    look(raw + which, s, 0, bits(x));
}

static int any_nan(const struct set *s) {
    for (unsigned i = 0; i < s->n; i++)
        if (is_nan(s->readings[i])) return 1;
    return 0;
}

static uint64_t anything(void) { return below(3) ? any_reading() : nans[below(NANS)]; }

/* NaNs of any pattern in some of the readings, or in all. */
static void spoil(struct set *s) {
    unsigned how = below(6);
    for (unsigned i = 0; i < s->n && how < 3; i++)
        if (how == 0 || !below(how == 1 ? 4 : s->n)) s->readings[i] = nans[below(NANS)];
}

static void numbers(struct set *s, unsigned a, unsigned b, unsigned c) { s->numbers[0] = a, s->numbers[1] = b, s->numbers[2] = c, s->m = 3; }

/* ---- single floats, and rows of a table */

static void ask_floats(struct set *s, uint64_t a, uint64_t b, uint64_t c) {
    static const uint32_t powers[] = {0, 1, 2, 3, 7, 11, 64, 4294967295u};
    double x = with_bits(a), y = with_bits(b), z = with_bits(c);
    rows(s, 0, 0, 0);
    s->kind = "the arguments", s->n = 3, s->readings[0] = a, s->readings[1] = b, s->readings[2] = c;
    gave(CANON, s, raw_canon(x)), gave(ABS, s, raw_abs(x)), gave(FLOAT_OF, s, raw_float_of(a));
    gave(LEAST, s, raw_least(x, y)), gave(GREATEST, s, raw_greatest(x, y)), gave(CLAMP, s, raw_clamp(x, y, z));
    gave(ROOT, s, raw_sqrt(x)), gave(ROOT, s, raw_sqrt(y)), gave(ROOT, s, raw_sqrt(z));
    for (unsigned i = 0; i < sizeof powers / sizeof *powers; i++) gave(POWER, s, raw_power(x, powers[i]));
    took(FIGURE, s, raw_figure(x, LENT(one, 1)), 0), wrote(FIGURE, s, &one, 1, 0);
    raw_effect_row(x, y, z, LENT(one, 4 + BEHIND)), took(EFFECT_ROW, s, 0, 0), wrote(EFFECT_ROW, s, &one, 4, 0);
    raw_plain_row(x, y, LENT(one, 4 + BEHIND)), took(PLAIN_ROW, s, 0, 0), wrote(PLAIN_ROW, s, &one, 4, 0);
}

/* ---- answers of nothing but zeros, as a call that is refused with this number hands them out */

static void ask_zeros(struct set *s, uint32_t number) {
    rows(s, 0, 0, 0);
    s->kind = "the number of a refusal", numbers(s, number, 0, 0);
    took(REFUSED, s, raw_refused(number, LENT(one, 9), LENT(two, 16)), number), zeros(REFUSED, s, &one, 9), zeros(REFUSED, s, &two, 16);
    raw_empty_rows(LENT(one, 4)), took(EMPTY_ROWS, s, 0, 0), zeros(EMPTY_ROWS, s, &one, 4);
    raw_no_row(LENT(one, 4)), took(NO_ROW, s, 0, 0), zeros(NO_ROW, s, &one, 4);
    raw_no_effects(LENT(one, 3)), took(NO_EFFECTS, s, 0, 0), zeros(NO_EFFECTS, s, &one, 3);
    raw_no_corrections(LENT(one, 10)), took(NO_CORRECTIONS, s, 0, 0), zeros(NO_CORRECTIONS, s, &one, 10);
}

/* ---- readings of one list: NaNs are taken */

/* Numbers are put as they are, where there is room for them; as many places are wiped as there are. */
static void ask_lent(const struct set *s, unsigned n) {
    with(&one, s->readings, n);
    raw_put(LENT(two, n), one.at, n), took(PUT, s, 0, 0);
    memcpy(two.was, s->readings, n * sizeof *two.was);
    wrote(PUT, s, &two, 0, 0);
    if (n) raw_put(LENT(two, n - 1), one.at, n), took(PUT, s, 0, 0), wrote(PUT, s, &two, 0, 0);
    raw_wipe(one.at, n), took(WIPE, s, 0, 0), zeros(WIPE, s, &one, n);
    raw_wipe(with(&two, NULL, SCRATCH), SCRATCH + BEHIND), took(WIPE, s, 0, 0), zeros(WIPE, s, &two, SCRATCH);
}

static void ask_list(struct set *s, unsigned kind, unsigned n) {
    unsigned k = below(2) ? 16 : below(17), many = n > READINGS;
    uint64_t mean = anything();
    rows(s, 1, n, n), s->n = n, s->sizes[0] = n;
    readings_of(s, kind);
    if (kind == KINDS) spoil(s);
    with(&one, s->readings, n);
    gave(SUM, s, raw_sum(one.at, n)), gave(SQ_DEV, s, raw_sq_dev(one.at, n, with_bits(mean)));
    if (took(MEAN, s, raw_mean(one.at, n, LENT(two, 1)), many ? 11 : n < 1)) wrote(MEAN, s, &two, 1, 0);
    if (took(VARIANCE, s, raw_variance(one.at, n, LENT(two, 1)), many ? 11 : n < 2 ? 2 : 0)) wrote(VARIANCE, s, &two, 1, 0);
    took(ROW, s, raw_row_of(one.at, n, LENT(two, 2)) != (many ? 0 : n), 0), wrote(ROW, s, &two, 2, 0);
    raw_canon_places(one.at, n, k), took(CANON_PLACES, s, 0, 0), wrote(CANON_PLACES, s, &one, n < k ? 0 : k, 0);
    ask_lent(s, n);
}

/* ---- one-way data */

static unsigned set_of(const struct set *s, unsigned char *set) {
    unsigned at = 0;
    set[at++] = s->k, set[at++] = 0;
    for (unsigned g = 0; g < s->k; g++) set[at++] = s->sizes[g] % 256, set[at++] = s->sizes[g] / 256;
    for (unsigned i = 0; i < s->n; i++)
        for (unsigned j = 0; j < 8; j++) set[at++] = s->readings[i] >> (8 * j) & 255;
    return at;
}

static void ask_set(const struct set *s) {
    static unsigned char set[2 + 32 + 8 * READINGS];
    unsigned bytes = set_of(s, set), want = any_nan(s) ? 4 : 0;
    took(READ_SET, s, raw_read_set(set, bytes, LENT(one, READINGS)), 0), wrote(READ_SET, s, &one, READINGS, 0);
    for (int which = SET_FISHER; which <= SET_LEVENE; which++) {
        took(which, s, raw_set_anova(set, bytes, which - SET_FISHER, LENT(one, 9), LENT(two, 16)), want);
        wrote(which, s, &one, 9, 0), wrote(which, s, &two, 16, 9);
    }
    took(READ_SET, s, raw_read_set(set, bytes - 1, LENT(one, READINGS)), 10), wrote(READ_SET, s, &one, READINGS, 0);
}

/* The view is the readings that lie there, bit by bit; nothing where there is no such group. */
static void ask_views(struct set *s) {
    for (unsigned g = 0, at = 0; g <= s->k; g++) {
        unsigned n = g < s->k ? s->sizes[g] : 0;
        numbers(s, g, 0, 0);
        with(&one, s->readings, s->n);
        took(VIEW, s, raw_group(one.at, s->n, s->sizes, s->k, g, LENT(two, READINGS)) != n, 0);
        memcpy(two.was, s->readings + at, n * sizeof *two.was);
        wrote(VIEW, s, &two, 0, 0), wrote(VIEW, s, &one, 0, 0);
        at += n;
    }
    s->m = 0;
}

/* A sheet's edits, one after another: what each must leave is worked out from the bits before it, but for the row that it reworks. */
static void edit(struct set *s, unsigned i) {
    uint32_t op = s->edits[3 * i], group = s->edits[3 * i + 1], place = s->edits[3 * i + 2];
    unsigned at = 0, end;
    numbers(s, op, group, place);
    note(&one), note(&two), note(&three);
    uint32_t got = raw_sheet_edit(one.at, 512, s->sizes, 16, two.at, 16, three.at, 16, s->k, op, group, place, with_bits(s->fresh[i]));
    raw[EDIT].calls++, raw[EDIT].accepted += got == 0;
    if (got == 0) {
        for (unsigned g = 0; g < group; g++) at += s->sizes[g];
        end = at + s->sizes[group];
        if (op == 1) one.was[at + place] = s->fresh[i];
        if (op == 2) memmove(one.was + end + 1, one.was + end, (s->n - end) * sizeof *one.was), one.was[end] = s->fresh[i], s->n++, s->sizes[group]++;
        if (op == 3) memmove(one.was + at + place, one.was + at + place + 1, (s->n - at - place - 1) * sizeof *one.was), one.was[--s->n] = 0, s->sizes[group]--;
        look(raw + EDIT, s, 0, bits(two.at[group])), look(raw + EDIT, s, 1, bits(three.at[group]));
        two.was[group] = bits(two.at[group]), three.was[group] = bits(three.at[group]);
    }
    wrote(EDIT, s, &one, 0, 0), wrote(EDIT, s, &two, 0, 0), wrote(EDIT, s, &three, 0, 0);
    memcpy(s->readings, one.at, READINGS * sizeof *s->readings);
}

/* A sheet that does not come from load: any readings, any means and squared distances, also in the places and rows that are not used. */
static void ask_sheet(struct set *s) {
    uint64_t held[2][16];
    for (unsigned i = s->n; i < READINGS; i++) s->readings[i] = anything();
    for (unsigned g = 0; g < 32; g++) held[g / 16][g % 16] = anything();
    for (unsigned g = s->k; g < 16; g++) s->sizes[g] = below(600);
    edits(s);
    with(&one, s->readings, READINGS), with(&two, held[0], 16), with(&three, held[1], 16);
    for (unsigned i = 0; i < EDITS; i++) {
        edit(s, i);
        for (int kind = 0; kind < 3; kind++) {
            took(SHEET_FISHER + kind, s, raw_sheet_report(one.at, 512, s->sizes, 16, two.at, 16, three.at, 16, s->k, kind, LENT(four, 9), LENT(five, 16)), 0);
            wrote(SHEET_FISHER + kind, s, &four, 9, 0), wrote(SHEET_FISHER + kind, s, &five, 16, 9);
            took(REPORT_FISHER + kind, s, raw_report(one.at, s->n, s->sizes, 16, two.at, 16, three.at, 16, s->k, kind, LENT(four, 9), LENT(five, 16)), 0);
            wrote(REPORT_FISHER + kind, s, &four, 9, 0), wrote(REPORT_FISHER + kind, s, &five, 16, 9);
            took(REPORT_FISHER + kind, s, raw_report(one.at, s->n - 1, s->sizes, 16, two.at, 16, three.at, 16, s->k, kind, LENT(four, 9), LENT(five, 16)), 10);
            zeros(REPORT_FISHER + kind, s, &four, 9), zeros(REPORT_FISHER + kind, s, &five, 16);
        }
    }
}

/* The three analyses of a set's rows. All of a refused answer but the refusal is zero. */
static void ask_one_way(const struct set *s) {
    with(&one, s->readings, s->n);
    for (int which = FISHER; which <= LEVENE; which++)
        if (took(which, s, raw_one_way(one.at, s->n, s->sizes, s->k, which - FISHER, LENT(four, 9), LENT(five, 16)), any_nan(s) ? 4 : 0))
            wrote(which, s, &four, 9, 0), wrote(which, s, &five, 16, 9);
        else
            zeros(which, s, &four, 9), zeros(which, s, &five, 16);
}

static void ask_groups(struct set *s, unsigned kind, unsigned k, unsigned low, unsigned high) {
    for (int spoilt = 0; spoilt < 2; spoilt++) {
        rows(s, k, low, high);
        readings_of(s, kind);
        if (spoilt) spoil(s);
        unsigned want = any_nan(s) ? 4 : 0;
        ask_one_way(s);
        with(&one, s->readings, s->n);
        took(VALIDATE, s, raw_validate(one.at, s->n, s->sizes, k, LENT(two, 16), LENT(three, 16)), want);
        wrote(VALIDATE, s, &two, 16, 0), wrote(VALIDATE, s, &three, 16, 16);
        took(PUT_ROWS, s, raw_put_rows(one.at, s->n, s->sizes, k, LENT(two, 16), LENT(three, 16)), 0);
        wrote(PUT_ROWS, s, &two, 16, 0), wrote(PUT_ROWS, s, &three, 16, 16);
        if (took(LOAD, s, raw_sheet_load(one.at, s->n, s->sizes, k, LENT(four, 512), LENT(two, 16), LENT(three, 16)), want)) {
            memcpy(four.was, s->readings, s->n * sizeof *four.was);
            memset(four.was + s->n, 0, (READINGS - s->n) * sizeof *four.was);
        } else
            memset(four.was, 0, READINGS * sizeof *four.was);
        wrote(LOAD, s, &four, 0, 0), wrote(LOAD, s, &two, 16, 0), wrote(LOAD, s, &three, 16, 16);
        ask_set(s), ask_views(s), ask_sheet(s);
    }
}

/* ---- two-way designs */

/* What a call is given beside the readings: how many places of scratch, and how many codes of each factor. What it must tell: a refusal's number and details, and
   behind them the levels of A and B, and the readings, of the study those of a cell. */
struct design {
    unsigned room, n_a, n_b;
    uint64_t told[6];
};

/* The readings as they ought to lie behind what was lent: cell by cell, and in a cell in their order. */
static void sort(const struct set *s, uint64_t *at) {
    for (unsigned g = 0; g < s->k; g++)
        for (unsigned i = 0; i < s->n; i++)
            if (s->code_a[i] * s->levels_b + s->code_b[i] == g) *at++ = s->readings[i];
}

/* One of the calls that lend their scratch on. A refused one leaves the scratch as it was, and all of its answer but the refusal is zero; an accepted analysis
   leaves it wiped, and an accepted sort with the readings. */
static void ask_design(int which, const struct set *s, const struct design *d) {
    uint64_t told[6];
    unsigned places = raw[which].places, cell = below(36), refused = d->told[0] != 0;
    size_t held = 0;
    with(&one, s->readings, s->n), with(&two, NULL, d->room < SCRATCH ? d->room : SCRATCH), with(&three, NULL, places);
    memset(told, 255, sizeof told);
    switch (which) {
    case ORGANIZE:
    case ORGANIZE_REFUSED: held = raw_organize(one.at, s->n, s->code_a, d->n_a, s->code_b, d->n_b, cell, two.at, d->room, told, 6); break;
    case STUDY:
    case STUDY_REFUSED: raw_gauge_study(one.at, s->n, s->code_a, d->n_a, s->code_b, d->n_b, two.at, d->room, three.at, 5, told, 6); break;
    default:
        raw_two_way(one.at, s->n, s->code_a, d->n_a, s->code_b, d->n_b, two.at, d->room, three.at, 21, three.at + 21, 36, three.at + 57, 6, three.at + 63, 6, told, 6);
    }
    took(which, s, told[0], d->told[0]);
    for (unsigned i = 1; i < 6; i++)
        if (told[i] != d->told[i]) fail(raw + which, s, told[0], "not the detail or the count that was expected", i, told[i]);
    if (held != (which == ORGANIZE && !refused && cell < s->k ? s->sizes[cell] : 0)) fail(raw + which, s, told[0], "not the readings of the cell", cell, held);
    if (which == ORGANIZE && !refused) sort(s, two.was);
    if (which == ORGANIZE || refused) wrote(which, s, &two, 0, 0);
    else zeros(which, s, &two, SCRATCH);
    if (refused) zeros(which, s, &three, places);
    else wrote(which, s, &three, places, 0);
}

/* The analysis of a set's cells. */
static void ask_two_way(const struct set *s, int balanced) {
    struct design taken = {SCRATCH + BEHIND, s->n, s->n, {0, 0, 0, s->k / s->levels_b, s->levels_b, s->n}}, a_nan = {SCRATCH + BEHIND, s->n, s->n, {4}};
    ask_design(balanced ? TWO_WAY : TWO_WAY_UNBALANCED, s, any_nan(s) ? &a_nan : &taken);
}

/* The normal equations: X'y stands behind the rows of X'X, which has no NaN; where the rows of codes were kept is +0.0. All other places are as they were. */
static void ask_equations(const struct set *s, unsigned levels_a, unsigned levels_b) {
    unsigned p = levels_a * levels_b, kept = 36 * 37, end = kept + (levels_a + 1) * (levels_b + 1) * p;
    with(&one, s->readings, s->n);
    took(NORMAL_EQUATIONS, s, !raw_normal_equations(one.at, s->n, s->code_a, s->n, s->code_b, s->n, levels_a, levels_b, with(&two, NULL, SCRATCH), SCRATCH + BEHIND), 0);
    for (unsigned i = 0; i < p * (p + 1); i++) {
        uint64_t b = bits(two.at[i]);
        if (i % (p + 1) == p) look(raw + NORMAL_EQUATIONS, s, i / (p + 1), b);
        else if (is_nan(b)) fail(raw + NORMAL_EQUATIONS, s, 0, "a NaN in X'X", i, b);
        two.was[i] = b;
    }
    for (unsigned i = kept; i < end; i++) {
        if (bits(two.at[i]) != 0) fail(raw + NORMAL_EQUATIONS, s, 0, "a place is not +0.0", i, bits(two.at[i]));
        two.was[i] = 0;
    }
    wrote(NORMAL_EQUATIONS, s, &two, 0, 0);
    took(NORMAL_EQUATIONS, s, !raw_normal_equations(one.at, s->n, s->code_a, s->n, s->code_b, s->n, levels_a, levels_b, with(&two, NULL, SCRATCH), SCRATCH - 1), 1);
    wrote(NORMAL_EQUATIONS, s, &two, 0, 0);
}

static void ask_cells(struct set *s, unsigned kind, unsigned levels_a, unsigned levels_b, unsigned most, int spoilt) {
    static size_t counts[ROWS];
    uint64_t skips[5];
    for (int balanced = 0; balanced < 2; balanced++) {
        cells(s, levels_a, levels_b, most, balanced);
        readings_of(s, kind);
        if (spoilt) spoil(s);
        for (unsigned g = 0; g < s->k; g++) counts[g] = s->sizes[g];
        with(&one, s->readings, s->n), numbers(s, levels_a, levels_b, s->sizes[0]);
        raw_cell_table(one.at, s->n, counts, s->k, levels_a, levels_b, LENT(two, 1), LENT(three, 36), LENT(four, 6), LENT(five, 6));
        took(CELL_TABLE, s, 0, 0);
        wrote(CELL_TABLE, s, &two, 1, 0), wrote(CELL_TABLE, s, &three, 36, 1), wrote(CELL_TABLE, s, &four, 6, 37), wrote(CELL_TABLE, s, &five, 6, 43);
        raw_balanced_ss(one.at, s->k, s->sizes[0], levels_a, levels_b, LENT(two, 3)), took(BALANCED_SS, s, 0, 0), wrote(BALANCED_SS, s, &two, 3, 0);
        codes(s, kind < KINDS);
        with(&one, s->readings, s->n);
        ask_equations(s, levels_a, levels_b);
        raw_type3_ss(one.at, s->n, s->code_a, s->n, s->code_b, s->n, levels_a, levels_b, with(&two, NULL, SCRATCH), SCRATCH + BEHIND, LENT(three, 3), skips, 5);
        took(TYPE3_SS, s, 0, 0), wrote(TYPE3_SS, s, &three, 3, 0), zeros(TYPE3_SS, s, &two, SCRATCH);
        struct design taken = {SCRATCH + BEHIND, s->n, s->n, {0, 0, 0, levels_a, levels_b, s->n}};
        struct design a_nan = {SCRATCH + BEHIND, s->n, s->n, {4}}, uneven = {SCRATCH + BEHIND, s->n, s->n, {10, s->sizes[0], s->sizes[1]}};
        const struct design *d = any_nan(s) ? &a_nan : &taken;
        ask_design(ORGANIZE, s, d), ask_two_way(s, balanced);
        taken.told[5] = s->sizes[0];
        ask_design(STUDY, s, balanced || any_nan(s) ? d : &uneven);
    }
}

/* Each refusal of a design that is sound but for one fault. A balanced one is refused as uneven by none but the study. */
enum {
    ONE_SHORT, NOTHING_LENT, MANY, CODES_A, CODES_B, MORE_A, MORE_B, NOTHING, A_NAN, SEVEN_A, SEVEN_B, HIGHEST_A, HIGHEST_B, ALIKE_A, ALIKE_B, EMPTY, ONE_EACH, UNEVEN,
    FAULTS
};

static const char *const faults[FAULTS] = {
    "scratch of 6,399 places", "no scratch", "513 readings", "a code of A too few", "a code of B too few", "a code of A too many", "a code of B too many",
    "no readings", "a NaN", "7 levels of A", "7 levels of B", "4294967296 levels of A", "4294967296 levels of B", "one level of A", "one level of B", "an empty cell",
    "one reading a cell", "an uneven design",
};

static struct design faulty(struct set *s, unsigned kind, unsigned fault, unsigned levels_a, unsigned levels_b) {
    unsigned k = levels_a * levels_b, cell = below(k), at;
    cells(s, levels_a, levels_b, 3, fault != UNEVEN);
    if (fault == ONE_EACH) rows(s, k, 1, 1), s->levels_b = levels_b;
    readings_of(s, kind), codes(s, 0);
    for (at = s->n; fault == MANY && s->n <= READINGS; s->n++)
        s->readings[s->n] = s->readings[s->n % at], s->code_a[s->n] = s->code_a[s->n % at], s->code_b[s->n] = s->code_b[s->n % at];
    if (fault == NOTHING) s->n = 0;
    s->kind = faults[fault], at = s->n ? below(s->n) : 0;
    unsigned n = s->n;
    struct design d = {SCRATCH + BEHIND, n, n, {0}};
#define TELLS(...) memcpy(d.told, (uint64_t[6]){__VA_ARGS__}, sizeof d.told)
    switch (fault) {
    case ONE_SHORT: d.room = SCRATCH - 1, TELLS(12, SCRATCH, SCRATCH - 1); break;
    case NOTHING_LENT: d.room = 0, TELLS(12, SCRATCH, 0); break;
    case MANY: TELLS(11, 2, n); break;
    case CODES_A: d.n_a = n - 1, TELLS(5, n - 1, n); break;
    case CODES_B: d.n_b = n - 1, TELLS(5, n, n - 1); break;
    case MORE_A: d.n_a = n + 1, s->code_a[n] = 0, TELLS(5, n + 1, n); break;
    case MORE_B: d.n_b = n + 1, s->code_b[n] = 0, TELLS(5, n, n + 1); break;
    case NOTHING: TELLS(1); break;
    case A_NAN: s->readings[at] = nans[below(NANS)], TELLS(4); break;
    case SEVEN_A: s->code_a[at] = 6, TELLS(11, 5, 7); break;
    case SEVEN_B: s->code_b[at] = 6, TELLS(11, 6, 7); break;
    case HIGHEST_A: s->code_a[at] = 4294967295u, TELLS(11, 5, 4294967296u); break;
    case HIGHEST_B: s->code_b[at] = 4294967295u, TELLS(11, 6, 4294967296u); break;
    case ALIKE_A: memset(s->code_a, 0, sizeof s->code_a), TELLS(6, 1, 1); break;
    case ALIKE_B: memset(s->code_b, 0, sizeof s->code_b), TELLS(6, 2, 1); break;
    case EMPTY:
        for (unsigned i = 0; i < n; i++)
            if (s->code_a[i] * levels_b + s->code_b[i] == cell) s->code_b[i] = (s->code_b[i] + 1) % levels_b;
        TELLS(7, cell / levels_b, cell % levels_b);
        break;
    case ONE_EACH: TELLS(2, k + 1, k); break;
    default: TELLS(10, s->sizes[0], s->sizes[1]);
    }
    return d;
}

static void ask_faults(struct set *s, unsigned kind, unsigned levels_a, unsigned levels_b) {
    for (unsigned fault = 0; fault < FAULTS; fault++) {
        struct design d = faulty(s, kind, fault, levels_a, levels_b);
        ask_design(STUDY_REFUSED, s, &d);
        if (fault != UNEVEN) ask_design(ORGANIZE_REFUSED, s, &d), ask_design(TWO_WAY_REFUSED, s, &d);
    }
}

/* ---- repeated measures */

/* Both analyses of a set's subjects. All of a refused answer but the refusal is zero. */
static void ask_repeated(const struct set *s) {
    with(&five, s->readings, s->n);
    for (int which = REPEATED; which <= REPEATED_SPHERICITY; which++) {
        uint32_t got = raw_repeated(five.at, s->n, s->sizes, s->k, which == REPEATED_SPHERICITY, LENT(one, 17), LENT(two, 10), LENT(three, 12), LENT(four, 64));
        if (took(which, s, got, any_nan(s) ? 4 : 0))
            wrote(which, s, &one, 17, 0), wrote(which, s, &two, 10, 17), wrote(which, s, &three, 12, 27), wrote(which, s, &four, 64, 39);
        else
            zeros(which, s, &one, 17), zeros(which, s, &two, 10), zeros(which, s, &three, 12), zeros(which, s, &four, 64);
    }
}

static void ask_subjects(struct set *s, unsigned kind, unsigned n, unsigned k, int spoilt) {
    static double readings[READINGS];
    uint64_t means[12], f = anything(), num = anything(), den = anything();
    rows(s, n, k, k);
    readings_of(s, kind);
    if (spoilt) spoil(s);
    ask_repeated(s);
    memcpy(readings, s->readings, sizeof readings);
    numbers(s, n, k, 0);
    raw_rm_table(readings, s->n, n, k, LENT(one, 5), LENT(two, 64), LENT(three, 12)), took(RM_TABLE, s, 0, 0);
    wrote(RM_TABLE, s, &one, 5, 0), wrote(RM_TABLE, s, &two, 64, 5), wrote(RM_TABLE, s, &three, 12, 69);
    for (unsigned j = 0; j < 12; j++) means[j] = below(2) ? bits(three.at[j]) : anything();
    with(&two, means, 12);
    took(COVARIANCE, s, !raw_contrast_covariance(readings, s->n, two.at, 12, n, k, LENT(one, 125)), 0), wrote(COVARIANCE, s, &one, (k - 1) * (k - 1), 0);
    took(COVARIANCE, s, !raw_contrast_covariance(readings, s->n, two.at, 12, n, k, LENT(one, (k - 1) * (k - 1) - 1)), 1), wrote(COVARIANCE, s, &one, 0, 0);
    raw_corrections(readings, s->n, two.at, 12, n, k, with_bits(f), with_bits(num), with_bits(den), LENT(one, 10));
    took(CORRECTIONS, s, 0, 0), wrote(CORRECTIONS, s, &one, 10, 0);
}

/* ---- matrices, in which NaNs are taken; each call is made once more with a place too few, and must leave all as it was */

static void matrix(struct set *s, unsigned kind, unsigned n, unsigned w) {
    s->k = n, s->n = n * w, s->levels_b = s->edited = s->m = 0, sets++;
    for (unsigned g = 0; g < n; g++) s->sizes[g] = w;
    readings_of(s, kind);
    if (kind == KINDS) spoil(s);
    numbers(s, n, w, 0);
    with(&one, s->readings, s->n);
}

/* Systems, inverses and determinants have at most 36 rows. */
static void ask_linear(struct set *s, unsigned kind, unsigned n) {
    bool many = n > 36;
    matrix(s, kind, n, n + 1);
    took(SOLVE, s, !raw_solve(one.at, s->n - 1, n), 1), wrote(SOLVE, s, &one, 0, 0);
    took(SOLVE, s, !raw_solve(one.at, s->n + BEHIND, n), many), wrote(SOLVE, s, &one, many ? 0 : s->n, 0);
    matrix(s, kind, n, 2 * n);
    took(INVERSE, s, !raw_inverse(one.at, s->n - 1, n), 1), wrote(INVERSE, s, &one, 0, 0);
    took(INVERSE, s, !raw_inverse(one.at, s->n + BEHIND, n), many), wrote(INVERSE, s, &one, many ? 0 : s->n, 0);
    matrix(s, kind, n, n);
    gave(DETERMINANT, s, raw_determinant(one.at, s->n - 1, n)), wrote(DETERMINANT, s, &one, 0, 1);
    gave(DETERMINANT, s, raw_determinant(one.at, s->n + BEHIND, n)), wrote(DETERMINANT, s, &one, many ? 0 : s->n, 1);
}

/* The matrix of p rows of p places that is lent. */
static void ask_square(struct set *s, unsigned p) {
    unsigned n = p * p;
    took(QR, s, !raw_qr(one.at, n, p, LENT(two, n), LENT(three, n - 1)), 1), wrote(QR, s, &two, 0, 0), wrote(QR, s, &three, 0, 0);
    took(QR, s, !raw_qr(one.at, n, p, LENT(two, n + BEHIND), LENT(three, n)), 0), wrote(QR, s, &two, n, 0), wrote(QR, s, &three, n, 121);
    took(EIGENVALUES, s, !raw_eigenvalues(one.at, n, p, LENT(two, p - 1)), 1), wrote(EIGENVALUES, s, &one, 0, 0), wrote(EIGENVALUES, s, &two, 0, 0);
    took(EIGENVALUES, s, !raw_eigenvalues(one.at, n, p, LENT(two, p)), 0), wrote(EIGENVALUES, s, &one, n, 0), wrote(EIGENVALUES, s, &two, p, 121);
}

/* p rows of k places, at most 11 by 12. */
static void ask_small(struct set *s, unsigned kind, unsigned p, unsigned k) {
    matrix(s, kind, p, k);
    took(ORTHONORMALIZE, s, !raw_orthonormalize(one.at, p * k - 1, p, k), 1), wrote(ORTHONORMALIZE, s, &one, 0, 0);
    took(ORTHONORMALIZE, s, !raw_orthonormalize(one.at, p * k + BEHIND, p, k), 0), wrote(ORTHONORMALIZE, s, &one, p * k, 0);
    matrix(s, kind, p + k, k);
    took(CSC, s, !raw_csc(one.at, p * k, one.at + p * k, k * k, p, k, LENT(two, p * p - 1)), 1), wrote(CSC, s, &two, 0, 0);
    took(CSC, s, !raw_csc(one.at, p * k, one.at + p * k, k * k, p, k, LENT(two, p * p + BEHIND)), 0), wrote(CSC, s, &two, p * p, 0);
    raw_product(one.at, k * k, one.at + k * k, p * k, k, 1, k, k, p, LENT(two, k * p - 1)), took(PRODUCT, s, 1, 1), wrote(PRODUCT, s, &two, 0, 0);
    raw_product(one.at, k * k, one.at + k * k, p * k, k, 1, k, k, p, LENT(two, k * p + BEHIND)), took(PRODUCT, s, 0, 0), wrote(PRODUCT, s, &two, k * p, 0);
    raw_product(one.at, k * k, one.at, k * k, 1, k, k, k, k, LENT(two, k * k + BEHIND)), took(PRODUCT, s, 0, 0), wrote(PRODUCT, s, &two, k * k, 0);
    matrix(s, kind, p, p);
    ask_square(s, p);
}

/* Ones, then ordinary columns, then a column whose projection onto the first overflows, and onto no other: so a NaN comes to that column of Q. */
static void ask_overflow(struct set *s, unsigned p, unsigned column) {
    matrix(s, 0, p, p);
    s->kind = "a huge column behind ones";
    for (unsigned i = 0; i < p; i++) s->readings[i * p] = bits(1.0), s->readings[i * p + column] = bits(p < 4 ? DBL_MAX * 0.9 : DBL_MAX * 0.55);
    with(&one, s->readings, s->n);
    ask_square(s, p);
}

/* A sum of products: from any z, also where a place is lacking. */
static void ask_dot(struct set *s, unsigned kind) {
    unsigned p = below(4), d = below(4), q = below(4), t = below(4), n = below(8);
    uint64_t z = anything();
    matrix(s, kind, 1, 16);
    s->numbers[0] = p, s->numbers[1] = d, s->numbers[2] = q, s->numbers[3] = t, s->numbers[4] = n, s->m = 5;
    s->readings[s->n++] = z;
    gave(DOT, s, raw_dot(one.at, 16, p, d, one.at, 16, q, t, n, with_bits(z)));
}

/* Steps on rows of 8 places that begin anywhere among 24: where a row does not end within them, nothing is changed. */
static void ask_row_steps(struct set *s, unsigned kind) {
    unsigned p = below(20), q = below(20), i = below(2) ? 0 : below(9);
    uint64_t f = anything();
    matrix(s, kind, 3, 8);
    numbers(s, p, q, i), s->readings[s->n] = f;
    raw_less_row(one.at, 24, p, q, with_bits(f), i, 8), took(LESS_ROW, s, 0, 0);
    wrote_part(LESS_ROW, s, &one, q + i, p > 16 || q > 16 ? q + i : q + 8);
    with(&one, s->readings, s->n);
    raw_over_row(one.at, 24, p, with_bits(f), 8), took(OVER_ROW, s, 0, 0);
    wrote_part(OVER_ROW, s, &one, p, p > 16 ? p : p + 8);
}

/* ---- the analyses alone */

/* Groups, cells and subjects of one kind of readings. */
static void ask_analyses(struct set *s, unsigned kind, unsigned groups, unsigned largest, unsigned levels_a, unsigned levels_b, unsigned most, unsigned subjects, unsigned conditions) {
    rows(s, groups, 2, largest), readings_of(s, kind), ask_one_way(s);
    for (int balanced = 0; balanced < 2; balanced++) cells(s, levels_a, levels_b, most, balanced), readings_of(s, kind), codes(s, kind < KINDS), ask_two_way(s, balanced);
    rows(s, subjects, conditions, conditions), readings_of(s, kind), ask_repeated(s);
}

/* A NaN of each pattern, as the last reading and as the first: it must not come through. */
static void ask_nans(struct set *s) {
    for (unsigned i = 0; i < 2 * NANS; i++)
        for (int what = 0; what < 3; what++) {
            if (what < 2) cells(s, 2, 2, 3, what);
            else rows(s, 3, 3, 3);
            readings_of(s, i % 3);
            if (what < 2) codes(s, 1);
            s->kind = "a NaN", s->readings[i < NANS ? s->n - 1 : 0] = nans[i % NANS];
            if (what < 2) ask_two_way(s, what);
            else ask_one_way(s), ask_repeated(s);
        }
}

void raw_calls(struct set *s, unsigned long count) {
    uint64_t args[] = {PLUS, MINUS, 0, 0x8000000000000000u, 0x3FF0000000000000u, 0xBFF0000000000000u, 0x7FEFFFFFFFFFFFFFu, 1};
    enum { ARGS = sizeof args / sizeof *args, ALL = ARGS + NANS };
    for (unsigned i = 0; i < ALL * ALL * ALL; i++) {
        unsigned a = i % ALL, b = i / ALL % ALL, c = i / ALL / ALL;
        ask_floats(s, a < ARGS ? args[a] : nans[a - ARGS], b < ARGS ? args[b] : nans[b - ARGS], c < ARGS ? args[c] : nans[c - ARGS]);
    }
    for (unsigned kind = 0; kind < KINDS; kind++)
        for (unsigned p = 0; p < 8; p++) {
            uint64_t x = reading(kind, p % 2, p);
            ask_floats(s, x, x ^ 0x8000000000000000u, reading(kind, 1 - p % 2, p));
        }
    for (uint32_t number = 0; number < 16; number++) ask_zeros(s, number);
    ask_nans(s);
    for (unsigned kind = 0; kind < KINDS; kind++) ask_analyses(s, kind, 16, 32, 6, 6, 4, 6, 4), ask_analyses(s, kind, 3, 170, 6, 6, 14, 42, 12);
    for (unsigned kind = 0; kind < KINDS; kind++)
        for (unsigned cell = 0; cell < 25; cell++) ask_faults(s, kind, 2 + cell / 5, 2 + cell % 5);
    for (unsigned kind = 0; kind <= KINDS; kind++)
        for (unsigned again = 0; again < (kind < KINDS ? 3 : 40); again++) {
            ask_list(s, kind, 0), ask_list(s, kind, 1), ask_list(s, kind, 2), ask_list(s, kind, 20), ask_list(s, kind, 512), ask_list(s, kind, 513);
            ask_groups(s, kind, 2, 2, 2), ask_groups(s, kind, 3, 2, 5), ask_groups(s, kind, 16, 2, 4), ask_groups(s, kind, 16, 32, 32);
            ask_cells(s, kind, 2, 2, 2, again % 2), ask_cells(s, kind, 3, 2, 3, again % 2), ask_cells(s, kind, 6, 6, 14, again % 2);
            ask_subjects(s, kind, 2, 2, again % 2), ask_subjects(s, kind, 3, 3, again % 2);
            ask_subjects(s, kind, 64, 8, again % 2), ask_subjects(s, kind, 42, 12, again % 2);
            ask_linear(s, kind, 1), ask_linear(s, kind, 2), ask_linear(s, kind, 3), ask_linear(s, kind, 36), ask_linear(s, kind, 37);
            ask_small(s, kind, 1, 2), ask_small(s, kind, 2, 3), ask_small(s, kind, 3, 3), ask_small(s, kind, 11, 12), ask_dot(s, kind), ask_row_steps(s, kind);
            if (kind == KINDS) ask_small(s, kind, 1 + again % 11, 1 + again % 12);
        }
    for (unsigned p = 2; p < 12; p++)
        for (unsigned column = 1; column < p; column++) ask_overflow(s, p, column);
    for (unsigned long i = 0; i < count; i++) {
        unsigned few = 2 + below(3), p = 1 + below(below(8) ? 4 : 11), k = 1 + below(below(8) ? 4 : 12);
        unsigned groups = 2 + below(below(3) ? 4 : 15), largest = 2 + below(below(8) ? 6 : 30);
        unsigned levels_a = 2 + below(below(3) ? 2 : 5), levels_b = 2 + below(below(3) ? 2 : 5), most = 2 + below(4);
        unsigned subjects = 2 + below(below(8) ? 8 : 41), conditions = 2 + below(below(4) ? 4 : 11);
        uint64_t a = anything(), b = below(2) ? anything() : PLUS | next(), c = next();
        ask_floats(s, a, b, c);
        ask_analyses(s, KINDS, groups, largest, levels_a, levels_b, most, subjects, conditions);
        ask_list(s, KINDS, below(24)), ask_dot(s, KINDS), ask_row_steps(s, KINDS);
        ask_groups(s, KINDS, few, 2, 6), ask_cells(s, KINDS, few, 2 + i % 3, 4, i % 4 == 0);
        if (i % 8 == 0) ask_faults(s, below(KINDS), few, 2 + i % 3);
        ask_subjects(s, KINDS, 2 + below(6), few, i % 4 == 0);
        ask_linear(s, KINDS, 1 + below(below(16) ? 6 : 20)), ask_small(s, KINDS, p, k);
    }
    tell(raw, RAW);
}
