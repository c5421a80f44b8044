/* ct_texts_of_run against the single text calls, byte by byte.

   texts STAMPS SEED: so many stamps in runs of none to some thousand, in each form, with and without announced rows: in time order within a day and over midnights, at
   the ends of months and on days of 86,401 and 86,399 s, in random order, of years outside four digits, with parts that are not finite, dates out of range and before
   -4799, and any bit patterns. Status 1 on a difference. */
#include "../leap_rows.h"
#include "celestial_time.h"
#include <stdio.h>
#include <stdlib.h>

#include "chance.h"

static double part(void)
{
    return (double)(chance() >> 11) / 9007199254740992.0;
}

static void put(uint8_t *at, uint64_t bits)
{
    int k;
    for (k = 0; k < 8; k++) at[k] = (uint8_t)(bits >> 8 * k);
}

/* the stamps of a run: kinds 0 to 5 */
static void make(uint8_t *jd1, uint8_t *jd2, size_t n)
{
    static const double DAYS[] = {2457753.5, 2457754.5, 2458118.5, 2441498.5, 2451603.5, 2451544.5, 6104057.5, 1720693.5, -31739.5, 5373484.5};
    int kind = (int)(chance() % 6);
    double day = DAYS[chance() % 10], first = kind == 1 ? 0.9999 : part(), step = kind == 1 ? 1e-7 : 1e-3 / 86400.0;
    size_t i;
    for (i = 0; i < n; i++) {
        double a = day, b = first + (double)i * step;
        uint64_t p, q;
        if (kind == 2) a = 2415020.5 + (double)(chance() % 80000), b = part();
        if (kind == 3) a = b, b = day;
        if (kind == 4) a = -100000.0 + 1.2e9 * part(), b = 1000.0 * (part() - 0.5);
        p = ct_bits_of(a), q = ct_bits_of(b);
        if (kind == 5 && chance() % 2) p = chance();
        if (kind == 5 && chance() % 4 == 0) q = chance();
        if (chance() % 37 == 0) p = 0x7ff0000000000000u | (chance() % 3 ? chance() : 0) | chance() << 63;
        if (chance() % 41 == 0) q = 0x7ff0000000000000u | chance();
        put(jd1 + 8 * i, p);
        put(jd2 + 8 * i, q);
    }
}

int main(int count, char **words)
{
    typedef int64_t single(double, double, const uint8_t *, size_t, uint8_t *, size_t, uint8_t *, size_t);
    static single *const SINGLES[] = {ct_to_iso8601, ct_to_iso8601_half_even, ct_to_iso8601_expanded};
    static uint8_t jd1[8 * MOST], jd2[8 * MOST], texts[27 * MOST + AROUND], due[27 * MOST + AROUND], lengths[MOST + AROUND], numbers[MOST + AROUND];
    const int32_t months[2] = {LAST_MONTH + 12, LAST_MONTH + 120}, seconds[2] = {LAST_SECONDS - 1, LAST_SECONDS};
    uint8_t table[CT_TABLE_BYTES], rule[CT_RULE_BYTES];
    long left = count > 1 ? atol(words[1]) : 1000000, stamps = 0, refused = 0, differ = 0, long_ones = 0;
    state = 88172645463325252u + (uint64_t)(count > 2 ? atol(words[2]) : 1);
    ct_table(months, seconds, 2, table);
    if (ct_check_table(table, sizeof table) != FIXED_ROWS + 2) return 2;
    while (left > 0) {
        size_t n = (size_t)(chance() % (MOST + 1)), i, k;
        uint32_t form = (uint32_t)(chance() % 3);
        const uint8_t *rows = chance() % 2 ? table : ct_no_rows;
        int64_t code, none = 0;
        make(jd1, jd2, n);
        memset(texts, 0xa5, sizeof texts);
        memset(due, 0xa5, sizeof due);
        memset(lengths, 0xa5, sizeof lengths);
        memset(numbers, 0xa5, sizeof numbers);
        code = ct_texts_of_run(form, jd1, 8 * n, jd2, 8 * n, rows, CT_TABLE_BYTES, texts, 27 * n, lengths, n, numbers, n);
        for (i = 0; i < n; i++) {
            int64_t said = SINGLES[form](ct_float_at(jd1 + 8 * i), ct_float_at(jd2 + 8 * i), rows, CT_TABLE_BYTES, due + 27 * i, 27, rule, sizeof rule);
            none += said < 0;
            long_ones += said > 23;
            if (lengths[i] != (said < 0 ? 0 : said) || numbers[i] != (said < 0 ? -said : 0)) differ++;
        }
        if (code != none || memcmp(texts, due, sizeof texts)) differ++;
        for (k = 0; k < AROUND; k++) differ += lengths[n + k] != 0xa5 || numbers[n + k] != 0xa5;
        left -= (long)n + 1;
        stamps += (long)n;
        refused += (long)none;
    }
    printf("ct_texts_of_run: %ld stamps, %ld refused, %ld texts of more than 23 bytes, %ld differences\n", stamps, refused, long_ones, differ);
    return differ != 0;
}
