/* Compares every function of the crate floats with the C library, bit for bit; any NaN counts as any other.
     floats_test [millions of patterns by chance]
   Exit status 1 if anything differs. */
#include "../inputs/chance.h"
#include "../inputs/record.h"
#include <inttypes.h>
#include <math.h>
#include <stdbool.h>
#include <stdio.h>
#include <stdlib.h>

double ct_fabs(double x);
double ct_trunc(double x);
double ct_floor(double x);
double ct_ceil(double x);
double ct_round(double x);
double ct_nearest_int(double a);
bool ct_is_finite(double x);
int64_t ct_saturating_i64(double x);
double ct_from_bits(uint64_t n);
uint64_t ct_to_bits(double x);

static uint64_t patterns, differences;

static void same(const char *name, uint64_t pattern, uint64_t wanted, uint64_t answer)
{
    if (wanted == answer) return;
    if (differences++ < 20)
        printf("%s of %016" PRIx64 ": %016" PRIx64 ", and the C library says %016" PRIx64 "\n", name,
               pattern, answer, wanted);
}

/* The Rust's nearest_int over the C library. */
static double nearest_int(double a)
{
    if (fabs(a) < 0.5) return 0.0;
    return a < 0.0 ? ceil(a - 0.5) : floor(a + 0.5);
}

/* Rust's `x as i64`. */
static int64_t saturating_i64(double x)
{
    if (isnan(x)) return 0;
    if (x >= 0x1p63) return INT64_MAX;
    if (x < -0x1p63) return INT64_MIN;
    return (int64_t)x;
}

static void try(uint64_t pattern)
{
    double x = from_bits(pattern);
    patterns++;
    same("fabs", pattern, shown(fabs(x)), shown(ct_fabs(x)));
    same("trunc", pattern, shown(trunc(x)), shown(ct_trunc(x)));
    same("floor", pattern, shown(floor(x)), shown(ct_floor(x)));
    same("ceil", pattern, shown(ceil(x)), shown(ct_ceil(x)));
    same("round", pattern, shown(round(x)), shown(ct_round(x)));
    same("nearest_int", pattern, shown(nearest_int(x)), shown(ct_nearest_int(x)));
    same("is_finite", pattern, isfinite(x) != 0, ct_is_finite(x));
    same("saturating_i64", pattern, (uint64_t)saturating_i64(x), (uint64_t)ct_saturating_i64(x));
    same("from_bits", pattern, shown(x), shown(ct_from_bits(pattern)));
    same("to_bits", pattern, shown(x), ct_to_bits(x));
}

/* A value and its neighbours, with both signs. */
static void around(double x)
{
    for (int64_t step = -2; step <= 2; step++) {
        uint64_t b = bits(x) + (uint64_t)step;
        try(b);
        try(b ^ 0x8000000000000000u);
    }
}

int main(int count, char **words)
{
    uint64_t millions = count > 1 ? strtoull(words[1], NULL, 10) : 12;
    uint64_t ones = ((uint64_t)1 << 52) - 1;

    /* Every exponent with edge digits: one digit, all digits from one place up or down, and their neighbours. */
    for (uint64_t field = 0; field < 2048; field++)
        for (int place = 0; place <= 52; place++) {
            uint64_t low = ((uint64_t)1 << place) - 1;
            uint64_t digits[] = {low, low + 1, low + 2, ones - low, ones - low - 1, ones - low + 1};
            for (int i = 0; i < 6; i++) {
                try((field << 52) | (digits[i] & ones));
                try(((field | 2048) << 52) | (digits[i] & ones));
            }
        }

    /* Whole numbers, halves, quarters and their neighbours, small and by chance up to 2^54. */
    for (int i = 0; i < 100000; i++) around(i / 8.0);
    for (int i = 0; i < 400000; i++) {
        uint64_t digits = next() >> 10, shift = below(54), divisor = (uint64_t)1 << below(4);
        around((double)(digits >> shift) / (double)divisor);
    }
    around(0x1p52);
    around(0x1p53);
    around(0x1p63);

    /* By chance: any pattern; and any digits with an exponent from 2^-3 to 2^64. */
    for (uint64_t i = 0; i < millions * 1000000; i++) {
        uint64_t b = next();
        try(b);
        try((b & 0x800fffffffffffffu) | ((1020 + (b >> 52) % 68) << 52));
    }

    printf("%" PRIu64 " patterns, ten functions each: %" PRIu64 " differences\n", patterns, differences);
    return differences != 0;
}
