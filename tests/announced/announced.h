/* A case under announced rows, and what the port answers to it. */
#include <stdint.h>
#include <stdio.h>
#include <string.h>

#include "celestial_time.h"

/* Which answer: TAI-UTC, the leap, UTC to TAI, TAI to UTC, UTC to UT1, UT1 to UTC, the text. */
enum { OFFSET, LEAP, TO_TAI, FROM_TAI, TO_UT1, FROM_UT1, TEXT, CALLS };

typedef struct {
    int rows, year, month, day;
    int32_t months[16], seconds[16];
    double fraction, jd1, jd2, dut1;
} a_case;

/* Two floats, or a text's year to milliseconds. */
typedef struct {
    double x, y;
    int fields[7];
} an_answer;

static int number_in(const uint8_t *text, int n)
{
    int value = 0;
    for (int i = 0; i < n; i++) value = 10 * value + text[i] - '0';
    return value;
}

/* 1 where the port refuses. */
static int by_port(int call, const a_case *c, an_answer *a)
{
    uint8_t table[CT_TABLE_BYTES], out[32], rule[CT_RULE_BYTES];
    int64_t n = -1;
    memset(a, 0, sizeof *a);
    ct_table(c->months, c->seconds, (size_t)c->rows, table);
    switch (call) {
    case OFFSET: n = ct_get_tai_utc_offset(c->year, c->month, c->day, c->fraction, table, sizeof table, out, sizeof out); break;
    case LEAP: n = ct_leap_at_end_of_day(c->year, c->month, c->day, table, sizeof table, out, sizeof out); break;
    case TO_TAI: n = ct_utc_to_tai(c->jd1, c->jd2, table, sizeof table, out, sizeof out); break;
    case FROM_TAI: n = ct_tai_to_utc(c->jd1, c->jd2, table, sizeof table, out, sizeof out); break;
    case TO_UT1: n = ct_utc_to_ut1_with_dut1(c->jd1, c->jd2, c->dut1, table, sizeof table, out, sizeof out); break;
    case FROM_UT1: n = ct_ut1_to_utc_with_dut1(c->jd1, c->jd2, c->dut1, table, sizeof table, out, sizeof out); break;
    case TEXT:
        n = ct_to_iso8601(c->jd1, c->jd2, table, sizeof table, out, sizeof out, rule, sizeof rule);
        if (n != 23) return 1;
        a->fields[0] = number_in(out, 4), a->fields[1] = number_in(out + 5, 2), a->fields[2] = number_in(out + 8, 2);
        a->fields[3] = number_in(out + 11, 2), a->fields[4] = number_in(out + 14, 2), a->fields[5] = number_in(out + 17, 2);
        a->fields[6] = number_in(out + 20, 3);
        return 0;
    }
    if (n < 0) return 1;
    a->x = ct_float_at(out);
    if (call >= TO_TAI) a->y = ct_float_at(out + 8);
    return 0;
}
