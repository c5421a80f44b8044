/* Cases of ct_convert_run and of ct_formula_run from standard input, their answers to standard output.
   A case is nine numbers of 4 bytes (0 for ct_convert_run or 1 for ct_formula_run; the scales `from` and `to`; the bytes of jd1, of jd2 and of the table or the offsets;
   and of the lent out1, out2 and numbers), then the bytes of jd1, of jd2 and of the table or the offsets; an answer is the call's code in 8 bytes, all of out1, of out2 and
   of numbers, which are filled with aa before the call, and a last byte: 0 where all of this is what the single calls give, one stamp after the other, and the bytes around
   the lent ones stayed; else 1. The lowest byte stands first. */
#include "celestial_time.h"
#include <stdio.h>
#include <stdlib.h>

enum { AROUND = 32 };

static uint8_t *lent(size_t n)
{
    uint8_t *p = malloc(n + 2 * AROUND);
    if (!p) exit(2);
    memset(p, 0x55, n + 2 * AROUND);
    memset(p + AROUND, 0xaa, n);
    return p + AROUND;
}

static int kept(const uint8_t *p, size_t n)
{
    size_t i;
    for (i = 0; i < AROUND; i++)
        if (p[n + i] != 0x55 || (p - AROUND)[i] != 0x55) return 0;
    return 1;
}

static uint8_t *read_bytes(size_t n)
{
    uint8_t *p = malloc(n + 1);
    if (!p || fread(p, 1, n, stdin) != n) exit(2);
    return p;
}

static int finite_bits(uint64_t bits)
{
    return (bits >> 52 & 2047) != 2047;
}

typedef int64_t two_parts(double, double, uint8_t *, size_t);

/* one single call: from the scale to TAI, or with `out` from TAI to the scale */
static int64_t step(uint32_t scale, int out, double a, double b, const uint8_t *table, uint8_t date[24])
{
    static two_parts *const in[] = {0, 0, 0, ct_tt_to_tai, ct_gps_to_tai, ct_tcg_to_tai};
    static two_parts *const from[] = {0, 0, 0, ct_tai_to_tt, ct_tai_to_gps, ct_tai_to_tcg};
    if (scale == CT_UTC)
        return out ? ct_tai_to_utc(a, b, table, CT_TABLE_BYTES, date, 24) : ct_utc_to_tai(a, b, table, CT_TABLE_BYTES, date, 24);
    return (out ? from : in)[scale](a, b, date, 24);
}

/* the date of one stamp in 16 bytes; 0, or the number of the refusal */
static int one(uint32_t from, uint32_t to, const uint8_t *p, const uint8_t *q, const uint8_t *table, uint8_t date[24])
{
    double a = ct_float_at(p), b = ct_float_at(q);
    int64_t n = 16;
    if (from == to) {
        memcpy(date, p, 8);
        memcpy(date + 8, q, 8);
        return finite_bits(ct_pattern_at(p, 8)) && finite_bits(ct_pattern_at(q, 8)) ? 0 : 9;
    }
    if (from == CT_TT && to == CT_TCG) n = ct_tt_to_tcg(a, b, date, 24);
    else if (from == CT_TCG && to == CT_TT) n = ct_tcg_to_tt(a, b, date, 24);
    else {
        if (from != CT_TAI) {
            n = step(from, 0, a, b, table, date);
            a = ct_float_at(date);
            b = ct_float_at(date + 8);
        }
        if (n > 0 && to != CT_TAI) n = step(to, 1, a, b, table, date);
    }
    return n < 0 ? (int)-n : 0;
}

static int known(uint32_t scale)
{
    return scale == CT_UTC || scale == CT_TAI || scale == CT_TT || scale == CT_GPS || scale == CT_TCG;
}

static int64_t refusal(const size_t *n, const uint8_t *table)
{
    int64_t rows = ct_check_table(table, n[4]);
    if (rows < 0) return rows;
    if (!known((uint32_t)n[0]) || !known((uint32_t)n[1])) return -18;
    if (n[2] % 8 || n[3] % 8) return -14;
    if (n[2] != n[3]) return -12;
    if (n[5] < n[2] || n[6] < n[2] || n[7] < n[2] / 8) return -11;
    return 0;
}

/* ---- the conversions that are a formula: the single call between two scales, without an offset or with one */

typedef int64_t by_offset(double, double, double, uint8_t *, size_t);

static const struct { uint32_t from, to; two_parts *plain; by_offset *with_offset; } FORMULAS[] = {
    {CT_GPS, CT_TAI, ct_gps_to_tai, 0}, {CT_TAI, CT_GPS, ct_tai_to_gps, 0}, {CT_TAI, CT_TT, ct_tai_to_tt, 0}, {CT_TT, CT_TAI, ct_tt_to_tai, 0},
    {CT_TT, CT_TCG, ct_tt_to_tcg, 0}, {CT_TCG, CT_TT, ct_tcg_to_tt, 0}, {CT_TCB, CT_TDB, ct_tcb_to_tdb, 0}, {CT_TDB, CT_TCB, ct_tdb_to_tcb, 0},
    {CT_TAI, CT_UT1, 0, ct_tai_to_ut1_with_offset}, {CT_UT1, CT_TAI, 0, ct_ut1_to_tai_with_offset}, {CT_UT1, CT_TT, 0, ct_ut1_to_tt_with_delta_t},
    {CT_TT, CT_UT1, 0, ct_tt_to_ut1_with_delta_t}, {CT_TT, CT_TDB, 0, ct_tt_to_tdb_with_offset}, {CT_TDB, CT_TT, 0, ct_tdb_to_tt_with_offset}};
enum { FORMULA_COUNT = sizeof FORMULAS / sizeof *FORMULAS };

static size_t formula(const size_t *n)
{
    size_t i = 0;
    while (i < FORMULA_COUNT && (FORMULAS[i].from != n[0] || FORMULAS[i].to != n[1])) i++;
    return i;
}

static int one_by_formula(size_t which, const uint8_t *p, const uint8_t *q, const uint8_t *offset, uint8_t date[24])
{
    double a = ct_float_at(p), b = ct_float_at(q);
    int64_t n = FORMULAS[which].plain ? FORMULAS[which].plain(a, b, date, 24) : FORMULAS[which].with_offset(a, b, ct_float_at(offset), date, 24);
    return n < 0 ? (int)-n : 0;
}

static int64_t formula_refusal(const size_t *n)
{
    size_t which = formula(n);
    if (which == FORMULA_COUNT) return -18;
    if (n[2] % 8 || n[3] % 8 || n[4] % 8) return -14;
    if (n[3] != n[2] || n[4] != (FORMULAS[which].plain ? 0 : n[2])) return -12;
    if (n[5] < n[2] || n[6] < n[2] || n[7] < n[2] / 8) return -11;
    return 0;
}

/* ---- a case; `n` has its numbers without the first */

static int64_t asked(int by_formula, const size_t *n, uint8_t *const list[3], uint8_t *const out[3])
{
    return (by_formula ? ct_formula_run : ct_convert_run)((uint32_t)n[0], (uint32_t)n[1], list[0], n[2], list[1], n[3], list[2], n[4], out[0], n[5], out[1], n[6], out[2], n[7]);
}

/* what the single calls give: the code, and the bytes into `due` */
static int64_t singly(int by_formula, const size_t *n, uint8_t *const list[3], uint8_t *const due[3])
{
    int64_t code = by_formula ? formula_refusal(n) : refusal(n, list[2]);
    size_t i;
    for (i = 0; code >= 0 && i < n[2] / 8; i++) {
        uint8_t date[24];
        const uint8_t *p = list[0] + 8 * i, *q = list[1] + 8 * i;
        int number = by_formula ? one_by_formula(formula(n), p, q, n[4] ? list[2] + 8 * i : 0, date) : one((uint32_t)n[0], (uint32_t)n[1], p, q, list[2], date);
        due[2][i] = (uint8_t)number;
        if (number) code++;
        else {
            memcpy(due[0] + 8 * i, date, 8);
            memcpy(due[1] + 8 * i, date + 8, 8);
        }
    }
    return code;
}

int main(void)
{
    uint8_t sizes[36], code[8];
    while (fread(sizes, 1, sizeof sizes, stdin) == sizeof sizes) {
        size_t numbers[9], i;
        const size_t *n = numbers + 1;
        uint8_t *list[3], *out[3], *due[3], different;
        int64_t answer;
        for (i = 0; i < 9; i++) numbers[i] = (size_t)ct_pattern_at(sizes + 4 * i, 4);
        for (i = 0; i < 3; i++) list[i] = read_bytes(n[2 + i]);
        for (i = 0; i < 3; i++) {
            out[i] = lent(n[5 + i]);
            due[i] = lent(n[5 + i]);
        }
        answer = asked(numbers[0] != 0, n, list, out);
        different = answer != singly(numbers[0] != 0, n, list, due);
        for (i = 0; i < 3; i++)
            if (memcmp(out[i], due[i], n[5 + i]) || !kept(out[i], n[5 + i])) different = 1;
        for (i = 0; i < 8; i++) code[i] = (uint8_t)((uint64_t)answer >> 8 * i);
        if (fwrite(code, 1, 8, stdout) != 8) return 2;
        for (i = 0; i < 3; i++) {
            if (fwrite(out[i], 1, n[5 + i], stdout) != n[5 + i]) return 2;
            free(out[i] - AROUND);
            free(due[i] - AROUND);
            free(list[i]);
        }
        if (fwrite(&different, 1, 1, stdout) != 1) return 2;
    }
    return 0;
}
