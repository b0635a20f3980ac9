/* What nanbits.c and rawcalls.c share: the input of a call, what is counted of a call, and the generator of inputs. */
#include <stddef.h>
#include <stdint.h>

#define THE_NAN 0x7FF8000000000000u
#define STRANGE 0xFFF4000DEADBEEF1u
#define PLUS 0x7FF0000000000000u
#define MINUS 0xFFF0000000000000u

enum { READINGS = 512, ROWS = 64, EDITS = 16, HELD = 2738, SCRATCH = 6400, BEHIND = 4, KINDS = 22, NANS = 10 };

/* The input of a call: the readings of k rows, which are groups, cells, subjects or rows of a matrix. The largest input is a matrix of 37 rows to be inverted.
   There may be one code more than the readings that a design takes. */
struct set {
    const char *kind;
    unsigned k, n, m, levels_b, edited;
    uint32_t sizes[ROWS], code_a[READINGS + 1], code_b[READINGS + 1], edits[3 * EDITS], numbers[8];
    uint64_t readings[HELD], fresh[EDITS];
};

/* Of each call: how many places it hands out, and in how many of them a NaN must be seen, since of a place that never had one the run shows nothing. Where it
   keeps what it was lent, NaNs of other bits must be seen kept. */
struct call {
    const char *name;
    unsigned places, must, keeps;
    unsigned long calls, accepted, nans, kept, failures;
    unsigned seen[HELD], wrong[HELD];
};

extern const uint64_t nans[NANS];
extern unsigned long sets;

int is_nan(uint64_t b);
uint64_t bits(double x);
double with_bits(uint64_t b);
void fill(double *p, size_t n);
void fail(struct call *c, const struct set *s, uint32_t number, const char *what, unsigned place, uint64_t holds);
void look(struct call *c, const struct set *s, unsigned place, uint64_t b);
void tell(const struct call *first, unsigned n);

uint64_t next(void);
unsigned below(unsigned n);
uint64_t reading(unsigned kind, unsigned g, unsigned p);
uint64_t any_reading(void);
void rows(struct set *s, unsigned k, unsigned low, unsigned high);
void cells(struct set *s, unsigned levels_a, unsigned levels_b, unsigned most, int balanced);
void readings_of(struct set *s, unsigned kind);
void codes(struct set *s, int in_order);
void edits(struct set *s);

/* rawcalls.c */
void raw_calls(struct set *s, unsigned long count);
