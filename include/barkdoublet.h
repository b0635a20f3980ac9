/* Barkdoublet for a host in C: one-way analysis of variance over a reading set.
 *
 * A reading set is bytes, all numbers little endian:
 *     2 bytes            how many groups, 2 to 16
 *     2 bytes a group    how many readings it has, 2 or more; 512 in all at most
 *     8 bytes a reading  the readings as doubles, group after group
 *
 * Both functions read set[0 .. set_len) and nothing else, and write out[0 .. 48) or nothing. They allocate nothing, keep nothing
 * between calls and always return. The two memories must not overlap.
 *
 * They return 0, and then the first 48 bytes of out hold six doubles, little endian:
 *     F, df between, df within, SS between, SS within, SS total
 * (Welch's method has no sums of squares: those are +0.0; a NaN is always 7FF8000000000000). The bytes behind stay as they were.
 * Or they return a refusal, and all of out stays as it was.
 *
 * The host's floating-point environment must be the default one: round to nearest, no flush to zero, no denormals-are-zero. The functions work in
 * the environment that they find, and neither ask for it nor set it: after fesetround(FE_UPWARD) the same set gives other bits.
 *
 *     uint8_t out[48];
 *     uint32_t refusal = bench_fisher(set, set_len, out, sizeof out);
 *     if (refusal == BARKDOUBLET_ACCEPTED) { double f; memcpy(&f, out, 8); .. }
 */
#ifndef BARKDOUBLET_H
#define BARKDOUBLET_H

#include <stddef.h>
#include <stdint.h>

#ifdef __cplusplus
extern "C" {
#endif

/* What these calls can return. The checks are made in the order of the numbers in parentheses, and the first that fails is told. (8) and (9) are made
 * group by group: a NaN in the first group is told before a second group that is too short. */
enum barkdoublet_refusal {
    BARKDOUBLET_ACCEPTED = 0,
    BARKDOUBLET_TOO_LITTLE_DATA = 2,  /* (8) a group of fewer than two readings */
    BARKDOUBLET_TOO_FEW_GROUPS = 3,   /* (7) fewer than two groups */
    BARKDOUBLET_NAN = 4,              /* (9) a NaN among a group's readings */
    BARKDOUBLET_WRONG_LENGTH = 10,    /* (2) under two bytes; (4) the sizes are cut short; (6) not as long as the sizes say */
    BARKDOUBLET_OVER_CAPACITY = 11,   /* (3) more than 16 groups; (5) more than 512 readings */
    BARKDOUBLET_OUTPUT_TOO_SHORT = 12 /* (1) out has fewer than 48 bytes */
};

/* Fisher's method, which takes the groups' variances for equal. */
uint32_t bench_fisher(const uint8_t *set, size_t set_len, uint8_t *out, size_t out_len);

/* Welch's method, which lets them differ. */
uint32_t bench_welch(const uint8_t *set, size_t set_len, uint8_t *out, size_t out_len);

#ifdef __cplusplus
}
#endif

#endif
