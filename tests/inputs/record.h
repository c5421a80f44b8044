/* A request or an answer, 64 bytes (tests/calls.txt), and floats as their bits. */
#include <stdint.h>
#include <string.h>

typedef struct { uint64_t word[8]; } record;

static inline uint64_t bits(double x)
{
    uint64_t b;
    memcpy(&b, &x, 8);
    return b;
}

static inline double from_bits(uint64_t b)
{
    double x;
    memcpy(&x, &b, 8);
    return x;
}

/* The bits, and one pattern for every NaN. */
static inline uint64_t shown(double x) { return x != x ? 0x7ff8000000000000u : bits(x); }
