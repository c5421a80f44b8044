/* A line of three runs of 16,777,219 stamps in all, past 2^24, and the refusal of 2^32 of them.
   Stamp k of run r stands at 2457754.5 and (3 * k + r) * 2^-25 days, all exact, so that the order takes one of each run in turn. Stamp 5 of each run is a year late and is
   left out, and stamp 7 is not finite. The status is 0; 1 where an answer is wrong; else the sum of 2 and 4 where memory for the first and addresses for the second are not
   to be had, so that it was not tried. */
#define _DEFAULT_SOURCE
#include "celestial_time.h"
#include <stdio.h>
#include <stdlib.h>
#include <sys/mman.h>

#define EACH 5592406u /* three times this is 2^24 + 2 */
#define ALL (3u * EACH + 1u)

enum { RIGHT = 0, WRONG = 1, NO_MEMORY = 2, NO_ADDRESSES = 4 };

static void put(uint8_t *list, size_t at, double x)
{
    uint64_t bits = ct_bits_of(x);
    int i;
    for (i = 0; i < 8; i++) list[8 * at + (size_t)i] = (uint8_t)(bits >> 8 * i);
}

/* The numbers of stamps in the first two runs are EACH, in the third one more. */
static void fill(uint8_t *jd1, uint8_t *jd2)
{
    uint32_t i;
    for (i = 0; i < ALL; i++) {
        uint32_t run = i / EACH < 2 ? i / EACH : 2, k = i - run * EACH;
        put(jd1, i, k == 5 ? 2458119.5 : k == 7 ? ct_float_at((const uint8_t *)"\0\0\0\0\0\0\xf8\x7f") : 2457754.5);
        put(jd2, i, (3.0 * k + run) / 33554432.0);
    }
}

static int wrong_place(const uint8_t *out, uint32_t at, uint32_t run, uint32_t k)
{
    return ct_pattern_at(out + 4 * (size_t)at, 4) != run * EACH + k;
}

/* How many places and numbers are not as they are due. */
static uint32_t differences(const uint8_t *numbers, const uint8_t *out)
{
    uint32_t wrong = 0, at = 0, k, run, i;
    for (k = 0; k <= EACH; k++)
        for (run = 0; run < 3; run++)
            if (k != 5 && k != 7 && (k < EACH || run == 2)) wrong += (uint32_t)wrong_place(out, at++, run, k);
    for (i = 0; i < ALL; i++) {
        run = i / EACH < 2 ? i / EACH : 2;
        k = i - run * EACH;
        wrong += numbers[i] != (k == 5 ? 17 : k == 7 ? 9 : 0);
    }
    return wrong + (at != ALL - 6);
}

static int past_2_24(void)
{
    size_t n = ALL;
    uint8_t *jd1 = malloc(8 * n), *jd2 = malloc(8 * n), *numbers = malloc(n), *out = malloc(4 * n), *tails = malloc(4 * n), *ranks = malloc(4 * n);
    int64_t ordered;
    uint32_t wrong;
    if (!jd1 || !jd2 || !numbers || !out || !tails || !ranks) {
        puts("line_up: too little memory for a line past 2^24 stamps, which is left out");
        return NO_MEMORY;
    }
    fill(jd1, jd2);
    memset(numbers, 0, n);
    ordered = ct_line_up(jd1, 8 * n, jd2, 8 * n, numbers, n, EACH, EACH, out, 4 * n, tails, 4 * n, ranks, 4 * n);
    wrong = ordered == (int64_t)(ALL - 6) ? differences(numbers, out) : ALL;
    printf("line_up: a line of %lu stamps, %ld ordered, %lu different\n", (unsigned long)n, (long)ordered, (unsigned long)wrong);
    return wrong ? WRONG : RIGHT;
}

/* 2^32 stamps, in memory that is reserved and never touched: 13 comes before a byte is read. One fewer, with no place lent, is 11. */
static int too_many(void)
{
    size_t n = (size_t)1 << 32;
    uint8_t *jd = mmap(0, 8 * n, PROT_READ, MAP_PRIVATE | MAP_ANONYMOUS | MAP_NORESERVE, -1, 0);
    uint8_t *numbers = mmap(0, n, PROT_READ | PROT_WRITE, MAP_PRIVATE | MAP_ANONYMOUS | MAP_NORESERVE, -1, 0), none[1];
    if (jd == MAP_FAILED || numbers == MAP_FAILED) {
        puts("line_up: 36 GiB of addresses are not to be had, so 13 is left out");
        return NO_ADDRESSES;
    }
    if (ct_line_up(jd, 8 * n, jd, 8 * n, numbers, n, 0, 0, none, 0, none, 0, none, 0) != -13 ||
        ct_line_up(jd, 8 * n - 8, jd, 8 * n - 8, numbers, n - 1, 0, 0, none, 0, none, 0, none, 0) != -11) {
        puts("line_up: 2^32 stamps are not refused with 13, or one fewer with 11");
        return WRONG;
    }
    return RIGHT;
}

int main(void)
{
    int line = past_2_24(), refusal = too_many();
    return line == WRONG || refusal == WRONG ? WRONG : line + refusal;
}
