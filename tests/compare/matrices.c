/* matrices SEED COUNT: linear systems, inverses, determinants, eigenvalues, QR and orthonormal rows (kinds 11 to 16, and 23 and 24 for every other system and inverse), as a stream. Sizes up to the limits and beyond them; whole
   numbers, scales from 2^-1030 to 2^969, triangles whose diagonals are about 1e-14 and 1e-15; rows that are equal, opposite, zero, or nearly another row; infinities, subnormals, zeros
   of both signs, NaNs of any pattern; options and numbers of readings that do not fit. */
#include <math.h>
#include <stdint.h>
#include <stdio.h>
#include <stdlib.h>
#include <string.h>

enum { MOST = 600, SIDE = 24 };

static uint64_t state;
static uint64_t readings[MOST];
/* the matrix, and a right side behind each row; they become readings by rows, the right sides last */
static double matrix[SIDE][SIDE], right[SIDE];

static uint64_t next(void) {
    uint64_t z = state += 0x9E3779B97F4A7C15u;
    z = (z ^ z >> 30) * 0xBF58476D1CE4E5B9u;
    z = (z ^ z >> 27) * 0x94D049BB133111EBu;
    return z ^ z >> 31;
}

static uint32_t below(uint32_t n) { return next() % n; }
static void put32(uint32_t x) { for (int i = 0; i < 4; i++) putchar(x >> 8 * i & 255); }
static void put64(uint64_t x) { put32(x), put32(x >> 32); }
static double unit(void) { return (double)(int64_t)(next() >> 10) / 9007199254740992.0 - 1.0; }
static uint64_t bits(double x) { uint64_t b; return memcpy(&b, &x, 8), b; }
static double of_bits(uint64_t b) { double x; return memcpy(&x, &b, 8), x; }

static uint64_t nan_bits(void) {
    uint64_t payload = below(3) ? next() >> 12 : (uint64_t)1 << below(52);
    return (uint64_t)below(2) << 63 | 0x7FF0000000000000u | (payload ? payload : 1);
}

/* a number some places from 1e-14 or 1e-15, of either sign */
static double about_edge(void) {
    double x = of_bits(bits(below(2) ? 1e-14 : 1e-15) + below(5) - 2);
    return below(3) ? x : -x;
}

/* tempers: 0 few whole numbers, 1 between -1 and 1, 2 extremes, 3 subnormals, 4 any bits but a NaN's */
static double number(int temper) {
    static const double picked[] = {0.0, -0.0, 5e-324, -5e-324, 2.2250738585072014e-308, 1e-15, 1.0, -1.0, 1.7976931348623157e308, -1.7976931348623157e308, INFINITY, -INFINITY};
    uint64_t b;
    switch (temper) {
    case 0: return (double)below(5) - 2;
    case 1: return unit();
    case 2: return picked[below(below(3) ? 10 : 12)];
    case 3: return of_bits((uint64_t)below(2) << 63 | next() >> (12 + below(52)));
    default:
        do b = next();
        while ((b & 0x7FFFFFFFFFFFFFFFu) > 0x7FF0000000000000u);
        return of_bits(b);
    }
}

static void fill(uint32_t rows, uint32_t columns) {
    int sort = below(10), upper = below(2), temper = below(8) ? (int)below(2) : 2 + (int)below(3);
    int scale = below(3) ? (int)below(120) - 60 : (int)below(2000) - 1030;
    for (uint32_t i = 0; i < rows; i++) {
        if (sort == 9) scale = (int)below(140) - 70; /* each row has a scale of its own */
        for (uint32_t j = 0; j < columns; j++) {
            double x = number(temper);
            if (sort < 2 && i != j) x = (i < j) == upper ? number(0) : 0.0;            /* a triangle */
            if (sort < 2 && i == j) x = below(3) ? about_edge() : number(0);
            if (sort == 2) x = 1.0 / (i + j + 1);
            if (sort > 7) x = ldexp(number(1), scale);
            if ((sort == 3 || sort == 4) && j < i && i < columns && j < rows) x = matrix[j][i]; /* symmetric */
            matrix[i][j] = x;
        }
        right[i] = number(below(4) ? (int)below(2) : temper);
    }
}

/* rows and columns that depend on others, wholly or nearly */
static void bend(uint32_t rows, uint32_t columns) {
    uint32_t a = below(rows), b = below(rows), c = below(columns), how = below(12);
    double edge = about_edge();
    for (uint32_t j = 0; j < columns; j++) switch (how) {
        case 0: case 1: matrix[a][j] = matrix[b][j]; break;
        case 2: matrix[a][j] = -matrix[b][j]; break;
        case 3: matrix[a][j] = below(2) ? 0.0 : -0.0; break;
        case 4: matrix[a][j] = matrix[b][j] + (j == c ? edge : 0.0); break;
        case 5: matrix[a][j] = matrix[b][j] * (1.0 + edge); break;
        case 6: matrix[a][j] *= edge; break;
        default: break;
        }
    if (how == 7)
        for (uint32_t i = 0; i < rows; i++) matrix[i][c] = below(2) ? 0.0 : -0.0;
    if (how == 8)
        for (uint32_t i = 0; i < rows; i++) matrix[i][c] = below(2) ? edge : -edge;
}

static uint32_t side(uint32_t most) {
    uint32_t small = most < 5 ? most : 5;
    return below(3) ? 1 + below(small) : below(2) ? 1 + below(most) : most - below(2);
}

int main(int argc, char **argv) {
    if (argc != 3) return fputs("usage: matrices SEED COUNT\n", stderr), 2;
    state = strtoull(argv[1], 0, 10) ^ 0x6D6174726978u;
    for (long todo = atol(argv[2]); todo > 0; todo--) {
        static const uint32_t limits[] = {23, 24, 11, 11, 11, 11};
        uint32_t kind = 11 + below(6), most = limits[kind - 11], rows = side(most), columns = kind == 16 ? side(12) : rows, nr = 0;
        uint32_t option = kind == 16 ? 16 * rows + columns : rows;
        fill(rows, columns);
        for (uint32_t times = below(3); times > 0; times--) bend(rows, columns);
        for (uint32_t i = 0; i < rows; i++)
            for (uint32_t j = 0; j < columns; j++) readings[nr++] = bits(matrix[i][j]);
        for (uint32_t i = 0; i < rows && kind == 11; i++) readings[nr++] = bits(right[i]);
        for (uint32_t times = below(6) ? 0 : 1 + below(3); times > 0; times--)
            readings[below(nr)] = below(2) ? nan_bits() : (uint64_t)below(2) << 63 | 0x7FF0000000000000u;
        /* a case that does not fit */
        if (below(20) == 0) switch (below(8)) {
        case 0: option = 0; break;
        case 1: option = most + 1; break;
        case 2: option = (uint32_t)next(); break;
        case 3: option += below(2) ? 1 : 0xFFFFFFFFu; break;
        case 4: nr--; break;
        case 5: if (nr < MOST) readings[nr++] = 0; break;
        case 6: while (nr < MOST) readings[nr++] = bits(unit()); break;
        default: /* the readings fit a matrix that is too large */
            option = most + 1, nr = option * option;
            if (kind == 11) nr += option;
            if (kind == 16) option = below(2) ? 16 * 12 + 3 : 16 * 3 + 13, nr = option / 16 * (option % 16);
            if (nr > MOST) nr = MOST;
            for (uint32_t i = 0; i < nr; i++) readings[i] = bits(number(0));
        }
        /* every other system and inverse is asked with its count of skipped columns */
        put32(kind < 13 && todo % 2 ? kind + 12 : kind), put32(option), put32(0), put32(0), put32(0), put32(nr);
        for (uint32_t i = 0; i < nr; i++) put64(readings[i]);
    }
    return 0;
}
