// The stack that calls really took: each is made once to warm up, then again above a painted stack, and the lowest byte that lost its paint is looked for.
// Nothing here is below the stack pointer where the paint is laid (-mno-red-zone), and arguments on the stack lie above it (-maccumulate-outgoing-args).
// Prints: the call, and the bytes from the stack pointer before it to that byte.
#include <stdint.h>
#include <stdio.h>
#include <stdlib.h>
#include <ucontext.h>

double call_sqrt(double x);
double call_one_way_anova_welch(const double *readings, size_t n, const uint32_t *sizes, size_t k, size_t i);
double call_one_way_anova_levene(const double *readings, size_t n, const uint32_t *sizes, size_t k, size_t i);
double call_sheet_remove(const double *readings, size_t n, const uint32_t *sizes, size_t k, size_t group, size_t place, size_t i);
double call_two_way_anova(const double *values, size_t n, const uint32_t *a, size_t n_a, const uint32_t *b, size_t n_b, double *scratch, size_t room, size_t i);
double call_repeated_measures_anova(const double *readings, size_t n, const uint32_t *sizes, size_t k, uint32_t sphericity, size_t i);
uint32_t speed_repeated(const double *readings, size_t n, const uint32_t *sizes, size_t k, uint32_t sphericity, double *out, size_t places);
uint32_t speed_two_way(const double *values, size_t n, const uint32_t *a, size_t n_a, const uint32_t *b, size_t n_b, double *scratch, size_t room, double *out, size_t places);

enum { STACK = 1 << 18, PAINT = 0xA5 };

static unsigned char stack[STACK] __attribute__((aligned(64)));
static ucontext_t host, guest;
static double readings[512], scratch[6400], out[8];
static uint32_t rows[42], groups[16], codes_a[512], codes_b[512];
static volatile double kept;

// MEASURE(CALL, ARGUMENTS): a function that makes the call on the painted stack.
#define MEASURE(CALL, ARGUMENTS)                                                 \
    static void measure_##CALL(void)                                             \
    {                                                                            \
        unsigned char *sp;                                                       \
        kept = (double)CALL ARGUMENTS;                                           \
        __asm__ volatile("mov %%rsp, %0" : "=r"(sp));                            \
        for (volatile unsigned char *p = stack; p < sp; p++)                     \
            *p = PAINT;                                                          \
        kept = (double)CALL ARGUMENTS;                                           \
        volatile unsigned char *low = stack;                                     \
        while (low < sp && *low == PAINT)                                        \
            low++;                                                               \
        printf("%s\t%ld\n", #CALL, (long)(sp - (unsigned char *)low));           \
    }

MEASURE(call_sqrt, (readings[1]))
MEASURE(call_one_way_anova_welch, (readings, 512, groups, 16, 3))
MEASURE(call_one_way_anova_levene, (readings, 512, groups, 16, 3))
MEASURE(call_sheet_remove, (readings, 512, groups, 16, 3, 5, 7))
MEASURE(call_two_way_anova, (readings, 512, codes_a, 512, codes_b, 512, scratch, 6400, 3))
MEASURE(call_repeated_measures_anova, (readings, 504, rows, 42, 1, 3))
MEASURE(speed_repeated, (readings, 504, rows, 42, 1, out, 8))
MEASURE(speed_two_way, (readings, 512, codes_a, 512, codes_b, 512, scratch, 6400, out, 8))

static void on_stack(void (*measure)(void))
{
    getcontext(&guest);
    guest.uc_stack.ss_sp = stack;
    guest.uc_stack.ss_size = sizeof stack;
    guest.uc_link = &host;
    makecontext(&guest, measure, 0);
    swapcontext(&host, &guest);
}

int main(void)
{
    for (size_t i = 0; i < 512; i++) {
        readings[i] = 20.0 + (double)((i * 7919) % 1000) / 100.0 + (double)(i % 12) / 10.0;
        codes_a[i] = (uint32_t)(i % 36 / 6);
        codes_b[i] = (uint32_t)(i % 6);
    }
    for (size_t i = 0; i < 42; i++)
        rows[i] = 12;
    for (size_t i = 0; i < 16; i++)
        groups[i] = 32;
    on_stack(measure_call_sqrt);
    on_stack(measure_call_one_way_anova_welch);
    on_stack(measure_call_one_way_anova_levene);
    on_stack(measure_call_sheet_remove);
    on_stack(measure_call_two_way_anova);
    on_stack(measure_call_repeated_measures_anova);
    on_stack(measure_speed_repeated);
    on_stack(measure_speed_two_way);
    return 0;
}
