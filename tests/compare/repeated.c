/* repeated SEED COUNT: repeated measures (kind 6), as a stream. Designs up to the limits, small ones often; ordinary readings, whole numbers, equal columns and rows, columns some last
   places from equal, equal eigenvalues, scales from 2^-1074 to 2^1000, infinities, zeros of both signs; readings scaled until a number that the corrections compare with 1e-15 comes
   within some places of it; rows, sizes and numbers of readings that are refused, and NaNs of any pattern. */
#include <math.h>
#include <stdint.h>
#include <stdio.h>
#include <stdlib.h>
#include <string.h>
#pragma STDC FP_CONTRACT OFF

enum { MOST = 600, SUBJECTS = 64, CONDITIONS = 12, READINGS = 512 };

static uint64_t state;
/* n subjects by rows, k conditions by columns */
static uint32_t n, k;
static double x[SUBJECTS][CONDITIONS];
/* what is written: they are made of the rows, and then damaged in cases that are to be refused */
static uint32_t ns, sizes[MOST], nr;
static uint64_t readings[MOST];

static uint64_t next(void) {
    uint64_t z = state += 0x9E3779B97F4A7C15u;
    z = (z ^ z >> 30) * 0xBF58476D1CE4E5B9u;
    z = (z ^ z >> 27) * 0x94D049BB133111EBu;
    return z ^ z >> 31;
}

static uint32_t below(uint32_t most) { return next() % most; }
static void put32(uint32_t w) { for (int i = 0; i < 4; i++) putchar(w >> 8 * i & 255); }
static void put64(uint64_t w) { put32(w), put32(w >> 32); }
static double unit(void) { return (double)(int64_t)(next() >> 10) / 9007199254740992.0 - 1.0; }
static uint64_t bits(double d) { uint64_t b; return memcpy(&b, &d, 8), b; }
static double of_bits(uint64_t b) { double d; return memcpy(&d, &b, 8), d; }
static double sign(void) { return below(2) ? 1.0 : -1.0; }

/* between -1 and 1, times a power of two from `from` on */
static double scaled_unit(int from, uint32_t powers) {
    double d = unit();
    return ldexp(d, from + (int)below(powers));
}

static uint64_t nan_bits(void) {
    uint64_t payload = below(3) ? next() >> 12 : (uint64_t)1 << below(52);
    return (uint64_t)below(2) << 63 | 0x7FF0000000000000u | (payload ? payload : 1);
}

/* a number some last places from d, which is not zero */
static double nudged(double d, uint32_t places) { return of_bits(bits(d) + below(2 * places + 1) - places); }

static void shape(void) {
    switch (below(8)) {
    case 0: n = 2, k = 2 + below(11); break;
    case 1: n = 2 + below(3), k = 3; break;
    case 2: k = below(4) ? 2 + below(11) : 8 + below(5), n = READINGS / k < SUBJECTS ? READINGS / k : SUBJECTS; break;
    case 3: k = 3 + below(10), n = k - 1 + below(4); break;
    case 4: n = 2 + below(63), k = 2 + below(11); break;
    default: n = 2 + below(7), k = 3 + below(4);
    }
    while (n * k > READINGS) n--;
}

/* the rows times a number */
static void scale(double by) {
    for (uint32_t i = 0; i < n; i++)
        for (uint32_t j = 0; j < k; j++) x[i][j] *= by;
}

/* the numbers that are compared with 1e-15, worked out as in the original */

static double csc[CONDITIONS][CONDITIONS];

static void transform(void) {
    static double s[CONDITIONS][CONDITIONS], c[CONDITIONS][CONDITIONS], cs[CONDITIONS][CONDITIONS], mean[CONDITIONS];
    for (uint32_t j = 0; j < k; j++) {
        mean[j] = -0.0;
        for (uint32_t i = 0; i < n; i++) mean[j] += x[i][j];
        mean[j] /= n;
    }
    for (uint32_t i = 0; i < k; i++)
        for (uint32_t j = 0; j < k; j++) {
            s[i][j] = 0.0;
            for (uint32_t m = 0; m < n; m++) s[i][j] += (x[m][i] - mean[i]) * (x[m][j] - mean[j]);
            s[i][j] /= n - 1;
        }
    for (uint32_t i = 0; i + 1 < k; i++) {
        double norm = -0.0;
        for (uint32_t m = 0; m < k; m++) c[i][m] = m == i ? 1.0 : m == i + 1 ? -1.0 : 0.0;
        for (uint32_t j = 0; j < i; j++) {
            double dot = -0.0;
            for (uint32_t m = 0; m < k; m++) dot += c[i][m] * c[j][m];
            for (uint32_t m = 0; m < k; m++) c[i][m] -= dot * c[j][m];
        }
        for (uint32_t m = 0; m < k; m++) norm += c[i][m] * c[i][m];
        for (uint32_t m = 0; m < k; m++) c[i][m] /= sqrt(norm);
    }
    for (uint32_t i = 0; i + 1 < k; i++)
        for (uint32_t j = 0; j < k; j++) {
            cs[i][j] = 0.0;
            for (uint32_t m = 0; m < k; m++) cs[i][j] += c[i][m] * s[m][j];
        }
    for (uint32_t i = 0; i + 1 < k; i++)
        for (uint32_t j = 0; j + 1 < k; j++) {
            csc[i][j] = 0.0;
            for (uint32_t m = 0; m < k; m++) csc[i][j] += cs[i][m] * c[j][m];
        }
}

static double mean_trace(uint32_t p, uint32_t unused) {
    double sum = -0.0;
    (void)unused;
    for (uint32_t i = 0; i < p; i++) sum += csc[i][i];
    return fabs(sum / p);
}

/* the norm of column `at` of the given round of QR; the rounds leave their matrix in csc */
static double norm_of(uint32_t p, uint32_t at, uint32_t rounds) {
    double norm = 0.0;
    while (rounds-- > 0) {
        double q[CONDITIONS][CONDITIONS] = {{0}}, r[CONDITIONS][CONDITIONS] = {{0}};
        for (uint32_t j = 0; j < p; j++) {
            double v[CONDITIONS], sum = -0.0;
            for (uint32_t i = 0; i < p; i++) v[i] = csc[i][j];
            for (uint32_t i = 0; i < j; i++) {
                r[i][j] = -0.0;
                for (uint32_t m = 0; m < p; m++) r[i][j] += q[m][i] * csc[m][j];
                for (uint32_t m = 0; m < p; m++) v[m] -= r[i][j] * q[m][i];
            }
            for (uint32_t i = 0; i < p; i++) sum += v[i] * v[i];
            r[j][j] = sqrt(sum);
            for (uint32_t i = 0; i < p && r[j][j] > 1e-15; i++) q[i][j] = v[i] / r[j][j];
        }
        norm = r[at][at];
        for (uint32_t i = 0; i < p; i++)
            for (uint32_t j = 0; j < p; j++) {
                csc[i][j] = 0.0;
                for (uint32_t m = 0; m < p; m++) csc[i][j] += r[i][m] * q[m][j];
            }
    }
    return norm;
}

static double first_norm(uint32_t p, uint32_t at) { return norm_of(p, at, 1); }

static double squared_sum(uint32_t p, uint32_t unused) {
    double sum = -0.0;
    (void)unused;
    norm_of(p, 0, 100);
    for (uint32_t i = 0; i < p; i++) sum += csc[i][i] * csc[i][i];
    return sum;
}

/* the largest of column `at` when the determinant comes to it */
static double pivot(uint32_t p, uint32_t at) {
    for (uint32_t c = 0;; c++) {
        uint32_t row = c;
        for (uint32_t i = c + 1; i < p; i++)
            if (fabs(csc[i][c]) > fabs(csc[row][c])) row = i;
        if (c == at) return fabs(csc[row][c]);
        for (uint32_t j = 0; j < p; j++) {
            double kept = csc[c][j];
            csc[c][j] = csc[row][j], csc[row][j] = kept;
        }
        for (uint32_t i = c + 1; i < p; i++) {
            double factor = csc[i][c] / csc[c][c];
            for (uint32_t j = c; j < p; j++) csc[i][j] -= factor * csc[c][j];
        }
    }
}

/* the sorts of readings */

static void ordinary(void) {
    double level = below(3) ? 20.0 + 5.0 * unit() : 1000.0 * unit(), width = ldexp(1.0, (int)below(14) - 10), of[CONDITIONS], own;
    for (uint32_t j = 0; j < k; j++) of[j] = below(3) ? unit() : 0.0;
    for (uint32_t i = 0; i < n; i++) {
        own = level + 3.0 * unit();
        for (uint32_t j = 0; j < k; j++) {
            x[i][j] = own + of[j] + width * unit();
            if (width > 0.1) x[i][j] = rint(x[i][j] * 100.0) / 100.0;
        }
    }
}

static void spread(void) {
    for (uint32_t i = 0; i < n; i++)
        for (uint32_t j = 0; j < k; j++) x[i][j] = unit();
}

static void whole(void) {
    uint32_t most = below(3) ? 2 + below(9) : 100 + below(100000);
    double low = below(2) ? 0.0 : -(double)(most / 2), part = below(3) ? 1.0 : 0.1;
    for (uint32_t i = 0; i < n; i++)
        for (uint32_t j = 0; j < k; j++) x[i][j] = part * (low + below(most));
}

static void same(void) {
    static const double picked[] = {0.0, -0.0, 1.0, 0.1, -7.3, 5e-324, 1e-8, 1e150, 1e300, 1.7976931348623157e308};
    double one = below(3) ? picked[below(10)] : scaled_unit(-40, 80);
    for (uint32_t i = 0; i < n; i++)
        for (uint32_t j = 0; j < k; j++) x[i][j] = one;
}

static void some(void) { below(2) ? whole() : below(2) ? ordinary() : spread(); }

/* columns that are another column, or that and a constant */
static void twins(void) {
    some();
    for (uint32_t times = 1 + below(k); times > 0; times--) {
        uint32_t a = below(k), b = below(k);
        double more = below(2) ? 0.0 : below(2) ? (double)below(9) : unit(), turn = below(6) ? 1.0 : -1.0;
        for (uint32_t i = 0; i < n; i++) x[i][a] = turn * x[i][b] + more;
    }
}

/* rows of one number each, of it and the condition's, or of it times the condition's */
static void level_rows(void) {
    int how = below(4), far = below(2) ? 0 : (int)below(60);
    double of[CONDITIONS];
    for (uint32_t j = 0; j < k; j++) of[j] = how < 2 ? 0.0 : below(2) ? unit() : (double)below(10);
    for (uint32_t i = 0; i < n; i++) {
        double own = ldexp(below(2) ? unit() : 0.1 * below(100), far);
        for (uint32_t j = 0; j < k; j++) x[i][j] = how == 3 ? own * of[j] : own + of[j];
    }
}

/* columns some last places from equal: what is left of the covariances is rounding */
static void near(void) {
    int far = below(2) ? (int)below(40) : (int)below(300);
    uint32_t places = 1 + below(3);
    for (uint32_t i = 0; i < n; i++) {
        double own = ldexp(unit() + 3.0, far);
        if (below(3) == 0) own *= unit();
        for (uint32_t j = 0; j < k; j++) x[i][j] = below(3) || own == 0.0 ? own : nudged(own, places);
    }
}

/* subjects far apart whose conditions differ in few places: traces below zero, W of -0.0 */
static void far_apart(void) {
    double step = ldexp(0.1, -(int)below(4));
    if (below(2)) n = 2 + below(3), k = 3 + below(2);
    for (uint32_t i = 0; i < n; i++) {
        double own = i ? rint(scaled_unit(20, 24)) + 0.1 : 0.1;
        for (uint32_t j = 0; j < k; j++) x[i][j] = below(4) ? own : own + (below(2) ? step : -step);
    }
    if (below(3)) return;
    /* a trace about 1e-15, and of the same sign */
    transform();
    double trace = mean_trace(k - 1, 0);
    if (trace > 0.0 && trace < 1e290) scale(ldexp(1.0, (int)below(4) - 2 - (ilogb(trace) + 50) / 2));
}

/* columns of a Walsh table, whose variances are equal and which have no covariances: an epsilon and a W of 1, some last places aside */
static void walsh(void) {
    static const uint32_t shapes[][2] = {{4, 3}, {8, 3}, {8, 4}, {8, 7}, {16, 5}, {16, 12}, {32, 12}, {64, 8}};
    uint32_t which = below(8);
    double size = below(2) ? 1.0 : unit(), level = below(3) ? 0.0 : unit();
    n = shapes[which][0], k = shapes[which][1];
    for (uint32_t i = 0; i < n; i++)
        for (uint32_t j = 0; j < k; j++) x[i][j] = level + (__builtin_popcount(i & (j + 1)) & 1 ? -size : size);
}

/* each subject stands out in a condition of its own: n - 1 equal eigenvalues, so that Huynh-Feldt divides by zero, or nearly */
static void simplex(void) {
    double size = below(2) ? 1.0 + below(9) : unit(), level = below(2) ? 0.0 : (double)below(3);
    if (k < 3) k = 3;
    n = 2 + below(below(2) ? 2 : k - 1);
    uint32_t from = below(k);
    for (uint32_t i = 0; i < n; i++)
        for (uint32_t j = 0; j < k; j++) x[i][j] = level + (j == (i + from) % k ? size : 0.0);
}

/* whether a pivot is NaN and the trace is not */
static int nan_pivot(void) {
    transform();
    if (isnan(mean_trace(k - 1, 0))) return 0;
    for (uint32_t at = 0; at + 1 < k; at++) {
        transform();
        double largest = pivot(k - 1, at);
        if (isnan(largest)) return 1;
        if (largest < 1e-15) return 0; /* the determinant is 0, and goes no further */
    }
    return 0;
}

/* squared sums about the end of the range, for the most part such that the determinant's rows overflow */
static void last_range(void) {
    n = 3 + below(2), k = 4 + below(4);
    for (int times = 0; times < 100 && (times == 0 || !nan_pivot()); times++) {
        double most = 0.0;
        for (uint32_t j = 0; j < k; j++) {
            double mean = 0.0, sum = 0.0;
            for (uint32_t i = 0; i < n; i++) mean += x[i][j] = (double)below(3) - 1.0;
            for (uint32_t i = 0; i < n; i++) sum += (x[i][j] - mean / n) * (x[i][j] - mean / n);
            if (sum > most) most = sum;
        }
        if (most > 0.0) scale(sqrt(1.79e308) * sqrt((0.95 + 0.06 * unit()) / most));
    }
}

/* up to 2^1000, about where the trace's power leaves the range, and about where the squared eigenvalues do */
static void huge(void) {
    int how = below(4);
    if (how == 0) return some(), scale(ldexp(1.0, 480 + (int)below(521)));
    if (how == 1) return below(2) ? twins() : near(), scale(ldexp(1.0, 40 + (int)below(600)));
    if (how == 2) return below(3) ? walsh() : simplex(), transform(), scale(sqrt(1.34e154 * (0.7 + 0.4 * unit()) / mean_trace(k - 1, 0)));
    below(2) ? twins() : some(), scale(ldexp(1.0, (int)(512 / k * (3 + below(4)) / 4)));
}

/* down to subnormals */
static void tiny(void) {
    int how = below(3);
    if (how == 0) return some(), scale(ldexp(1.0, -(int)(20 + below(1060))));
    if (how == 1) return some(), scale(1e-8 * ldexp(1.0, (int)below(30) - 12));
    for (uint32_t i = 0; i < n; i++)
        for (uint32_t j = 0; j < k; j++) {
            uint64_t b = next() >> 12;
            b >>= below(52);
            x[i][j] = sign() * of_bits(b);
        }
}

static void infinite(void) {
    some();
    for (uint32_t times = below(3) ? 1 + below(2) : n; times > 0; times--) {
        uint32_t i = below(n), j = below(k);
        x[i][j] = sign() * INFINITY;
    }
    if (below(6) == 0)
        for (uint32_t i = 0, j = below(k); i < n; i++) x[i][j] = INFINITY;
}

static void zeros(void) {
    int few = below(3);
    for (uint32_t i = 0; i < n; i++)
        for (uint32_t j = 0; j < k; j++) x[i][j] = few == 0 ? -0.0 : few == 1 && below(6) == 0 ? unit() : sign() * 0.0;
}

/* columns of scales of their own, or any bits but a NaN's */
static void mixed(void) {
    int any = below(3) == 0, far[CONDITIONS];
    for (uint32_t j = 0; j < k; j++) far[j] = (int)below(80) - 40;
    for (uint32_t i = 0; i < n; i++)
        for (uint32_t j = 0; j < k; j++) {
            do x[i][j] = any ? of_bits(next()) : ldexp(unit(), far[j]);
            while (isnan(x[i][j]));
        }
}

/* Scales the columns up to `columns` so that the measure of column `at` is about 1e-15, within some places of the scale where it comes to be above; or leaves them as they are. */
static void settle(double (*measure)(uint32_t, uint32_t), uint32_t at, uint32_t columns) {
    static double base[SUBJECTS][CONDITIONS];
    double value, by = 1.0;
    uint64_t low, high, end;
    memcpy(base, x, sizeof x);
#define AT(number) for (uint32_t i = 0; i < n; i++) for (uint32_t j = 0; j < columns; j++) x[i][j] = base[i][j] * (number)
    for (int times = 0; times < 3; times++) {
        AT(by);
        transform(), value = measure(k - 1, at);
        if (!(value > 1e-290 && value < 1e290)) return;
        by *= measure == squared_sum ? sqrt(sqrt(1e-15 / value)) : sqrt(1e-15 / value);
    }
    low = bits(by) - 2048, high = bits(by) + 2048;
    while (high - low > 1) {
        uint64_t middle = low + (high - low) / 2;
        AT(of_bits(middle));
        transform();
        if (measure(k - 1, at) > 1e-15) high = middle;
        else low = middle;
    }
    /* a scale at which the measure is 1e-15 itself, or the number next to it, is taken where there is one */
    double wanted = of_bits(bits(1e-15) + (below(3) ? 1 : below(3)) - 1);
    end = low - 3 + below(8);
    for (uint64_t b = low - 6; b < low + 7; b++) {
        AT(of_bits(b));
        transform();
        if (measure(k - 1, at) == wanted) end = b;
    }
    AT(of_bits(end));
#undef AT
}

static void edges(void) {
    static double (*const measures[])(uint32_t, uint32_t) = {squared_sum, squared_sum, mean_trace, first_norm, pivot, pivot};
    uint32_t which = below(6);
    n = 2 + below(6), k = 3 + below(3);
    if (which > 3) k = 4 + below(3), n = k + below(3); /* a pivot that is not rounding alone, and often the last */
    below(2) ? whole() : below(3) ? spread() : below(2) ? twins() : far_apart();
    settle(measures[which], which < 3 ? 0 : which > 3 && below(3) ? k - 2 : below(k - 1), k);
}

/* Two columns that are opposite and small, and a third that is large and has no covariance with them: the first norm of QR is about 1e-15, and the squared sum above it, so that it shows. */
static void small_norm(void) {
    double large = 1e-3 * (1.0 + below(1000)), small = 1e-8 * (2.0 + unit());
    n = 4 * (1 + below(4)), k = 3;
    for (uint32_t i = 0; i < n; i++) x[i][0] = i & 1 ? small : -small, x[i][1] = -x[i][0], x[i][2] = i & 2 ? large : -large;
    settle(first_norm, 0, 2);
}

/* cases that are refused, for the most part: each damage may be the first that is found, or stand behind another */
static void damage(void) {
    uint32_t a = ns ? below(ns) : 0, b = ns ? below(ns) : 0, was = nr, size = ns ? sizes[0] : 0, sum = 0;
    switch (below(14)) {
    case 0: /* 65 subjects or more */
        size = below(2) ? below(4) : 1 + below(9), ns = 65 + below(below(3) ? 2 : 500);
        for (uint32_t i = 0; i < ns; i++) sizes[i] = size;
        nr = ns * size < MOST ? ns * size : MOST;
        break;
    case 1: nr = 513 + below(below(2) ? 1 : 88); break;
    case 2: /* 513 readings that the sizes add up to, or 512, or some less */
        size = below(2) ? 9 : 19, ns = 513 / size;
        for (uint32_t i = 0; i < ns; i++) sizes[i] = size;
        if (below(3) == 0) sizes[a % ns] -= 1 + below(2);
        for (uint32_t i = 0; i < ns; i++) sum += sizes[i];
        nr = sum;
        break;
    case 3: if (nr) nr--; break;
    case 4: if (nr < MOST) nr++; break;
    case 5: if (ns) sizes[a] += below(2) ? 1 : 0xFFFFFFFFu; break; /* one more or one less: a size of 0 wraps */
    case 6: /* rows that differ in length, and add up */
        if (ns > 1 && sizes[b] && sizes[b] < MOST) sizes[a]++, sizes[b]--;
        break;
    case 7: /* a row that is longer or shorter, with its readings */
        if (ns && sizes[a] && sizes[a] < MOST && nr && nr < MOST) below(2) ? (sizes[a]++, nr++) : (sizes[a]--, nr--);
        break;
    case 8: /* 13 conditions or more, in all rows or in the first */
        size = 13 + below(below(2) ? 1 : 20);
        for (uint32_t i = 0; i < ns && i * size + size <= MOST; i++, nr = i * size) sizes[i] = size;
        if (ns * size > nr) ns = nr / size;
        if (below(3) == 0 && ns > 1) sizes[1 + below(ns - 1)]--, nr--;
        break;
    case 9: /* one condition, or none */
        size = below(3) != 0;
        for (uint32_t i = 0; i < ns; i++) sizes[i] = size;
        nr = ns * size;
        break;
    case 10: /* one subject, or none */
        ns = below(3) && ns ? 1 : 0, nr = ns ? sizes[0] : below(3) ? 0 : nr;
        break;
    case 11: if (ns) sizes[a] = 0xFFFFFFFFu - below(4); break;
    case 12: /* sizes that add up modulo 2^32 */
        if (ns > 1 && a != b) below(2) ? (sizes[a] += 0x80000000u, sizes[b] += 0x80000000u) : (sizes[a] += sizes[b] + 1, sizes[b] = 0xFFFFFFFFu);
        break;
    default: /* no reading */
        nr = 0;
        for (uint32_t i = 0; i < ns && below(40); i++) sizes[i] = 0;
    }
    if (nr > MOST) nr = MOST;
    for (; was < nr; was++) readings[was] = bits(0.5 * below(9));
}

int main(int argc, char **argv) {
    static void (*const sorts[])(void) = {ordinary, ordinary, spread, whole, same, twins, twins, level_rows, near, far_apart, walsh, simplex, huge, huge, last_range, tiny, infinite, zeros, mixed,
                                          edges, edges, edges, edges, edges, small_norm, small_norm};
    if (argc != 3) return fputs("usage: repeated SEED COUNT\n", stderr), 2;
    state = strtoull(argv[1], 0, 10) ^ 0x7265706561746564u;
    for (long todo = atol(argv[2]); todo > 0; todo--) {
        uint32_t option = below(12) ? 1 : below(5) ? 0 : below(2) ? 2 : 0xFFFFFFFFu;
        shape();
        sorts[below(sizeof sorts / sizeof *sorts)]();
        ns = n, nr = 0;
        for (uint32_t i = 0; i < n; i++) {
            sizes[i] = k;
            for (uint32_t j = 0; j < k; j++) readings[nr++] = bits(x[i][j]);
        }
        for (uint32_t times = below(8) ? 0 : 1 + below(2); times > 0; times--) damage();
        for (uint32_t times = below(20) || nr == 0 ? 0 : 1 + below(3); times > 0; times--) {
            uint32_t at = below(nr);
            readings[at] = nan_bits();
        }
        put32(6), put32(option), put32(ns), put32(0), put32(0), put32(nr);
        for (uint32_t i = 0; i < ns; i++) put32(sizes[i]);
        for (uint32_t i = 0; i < nr; i++) put64(readings[i]);
    }
    return 0;
}
