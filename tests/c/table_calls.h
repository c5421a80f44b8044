/* Tables that are lent: each call with a row of +1 s and with one of -1 s, every refusal of a table before the call's own, and bytes
   past the size, which no call reads. The row is of January 2050 and a second more or less than the last fixed one; 2049-12-31 is JD 2469806.5. */

#include "../leap_rows.h"

enum { JANUARY_2050 = 12 * 2050, UP = LAST_SECONDS + 1, DOWN = LAST_SECONDS - 1 };

#define LENT table, CT_TABLE_BYTES

static uint8_t table[CT_TABLE_BYTES + 1];

static void one_row(int32_t month, int32_t of_seconds) { ct_table(&month, &of_seconds, 1, table); }

static void two_rows(int32_t month, int32_t of_seconds, int32_t second_month, int32_t second_seconds)
{
    int32_t months[2], both[2];
    months[0] = month;
    months[1] = second_month;
    both[0] = of_seconds;
    both[1] = second_seconds;
    ct_table(months, both, 2, table);
}

/* a second more and back in turn, every January from 2050 on */
static void many_rows(uint32_t rows)
{
    int32_t months[17], of_seconds[17];
    int i;
    for (i = 0; i < 17; i++) {
        months[i] = JANUARY_2050 + 12 * i;
        of_seconds[i] = i % 2 ? LAST_SECONDS : UP;
    }
    ct_table(months, of_seconds, rows, table);
}

/* ---- a row more: a leap second at the end of 2049 */

static void with_a_leap_second(void)
{
    one_row(JANUARY_2050, UP);
    IS(FIXED_ROWS + 1, ct_check_table(LENT));
    GIVES(seconds_by(LAST_SECONDS, CT_RULE_WHOLE, FIXED_ROWS - 1), ct_get_tai_utc_offset, 2049, 12, 31, 1.0, LENT);
    GIVES(seconds_by(UP, CT_RULE_WHOLE, FIXED_ROWS), ct_get_tai_utc_offset, 2050, 1, 1, 0.0, LENT);
    GIVES(seconds(1.0), ct_leap_at_end_of_day, 2049, 12, 31, LENT);
    GIVES(seconds(0.0), ct_leap_at_end_of_day, 2049, 12, 31, NO_ROWS);
    GIVES(parts(2469806.5, 86400.5 / 86401.0), ct_utc_from_calendar, 2049, 12, 31, 23, 59, 60.5, LENT);
    REFUSES(4, ct_utc_from_calendar, 2049, 12, 31, 23, 59, 60.5, NO_ROWS);
    REFUSES(4, ct_utc_from_calendar, 2049, 12, 31, 23, 59, 61.0, LENT);
    GIVES(parts(2469806.5, 43200.0 / 86401.0), ct_utc_new, INT64_C(2524521600) + 43200, 0, LENT);
    GIVES(parts(2469806.5, 0.5), ct_utc_new, INT64_C(2524521600) + 43200, 0, NO_ROWS);
    GIVES(parts_by(2469807.5, UP / 86400.0, CT_RULE_WHOLE, FIXED_ROWS), ct_utc_to_tai, 2469807.5, 0.0, LENT);
    GIVES(parts_by(2469807.5, LAST_SECONDS / 86400.0, CT_RULE_WHOLE, FIXED_ROWS - 1), ct_utc_to_tai, 2469807.5, 0.0, NO_ROWS);
    GIVES((six_fields(2049, 12, 31, 23, 59, 60.5), and_parts(2469806.5, 86400.5 / 86401.0)), ct_utc_from_iso8601, TEXT("2049-12-31T23:59:60.5Z"), LENT);
    REFUSES(4, ct_utc_from_iso8601, TEXT("2049-12-31T23:59:60.5Z"), NO_ROWS);
    GIVES(text("2049-12-31T23:59:60.500"), text_of, 2469806.5, 86400.5 / 86401.0, LENT);
    GIVES(text("2049-12-31T23:59:59.500"), text_of, 2469806.5, 86399.5 / 86400.0, NO_ROWS);
    told("2050-01-01T12:00:00.000", 0, CT_RULE_WHOLE, FIXED_ROWS, 2469807.5, 0.5, LENT);
    GIVES(text("2049-12-31T01:30:00.062"), even_of, 2469806.5, 1.0 / 16.0, LENT);
    GIVES(text("2049-12-31T23:59:60.500"), expanded_of, 2469806.5, 86400.5 / 86401.0, LENT);
    told_by("ct_to_iso8601_half_even", ct_to_iso8601_half_even, "2050-01-01T12:00:00.000", 0, CT_RULE_WHOLE, FIXED_ROWS, 2469807.5, 0.5, LENT);
    told_by("ct_to_iso8601_expanded", ct_to_iso8601_expanded, "2050-01-01T12:00:00.000", 0, CT_RULE_WHOLE, FIXED_ROWS, 2469807.5, 0.5, LENT);
}

/* ---- a row less: the day has 86,399 s, and its last minute 59 */

static void with_a_second_left_out(void)
{
    one_row(JANUARY_2050, DOWN);
    IS(FIXED_ROWS + 1, ct_check_table(LENT));
    GIVES(seconds_by(DOWN, CT_RULE_WHOLE, FIXED_ROWS), ct_get_tai_utc_offset, 2050, 1, 1, 0.0, LENT);
    GIVES(seconds(-1.0), ct_leap_at_end_of_day, 2049, 12, 31, LENT);
    GIVES(parts(2469806.5, 86398.5 / 86399.0), ct_utc_from_calendar, 2049, 12, 31, 23, 59, 58.5, LENT);
    REFUSES(4, ct_utc_from_calendar, 2049, 12, 31, 23, 59, 59.0, LENT);
    GIVES(parts(2469806.5, 86339.5 / 86399.0), ct_utc_from_calendar, 2049, 12, 31, 23, 58, 59.5, LENT);
    GIVES(parts(2469806.5, 86398.0 / 86399.0), ct_utc_new, INT64_C(2524521600) + 86398, 0, LENT);
    REFUSES(4, ct_utc_new, INT64_C(2524521600) + 86399, 0, LENT);
    GIVES(parts_by(2469806.5, 0.5 * (86399.0 / 86400.0) + LAST_SECONDS / 86400.0, CT_RULE_WHOLE, FIXED_ROWS - 1), ct_utc_to_tai, 2469806.5, 0.5, LENT);
    GIVES((six_fields(2049, 12, 31, 23, 59, 58.999), and_parts(2469806.5, 86398.999 / 86399.0)), ct_utc_from_iso8601, TEXT("2049-12-31T23:59:58.999"), LENT);
    REFUSES(4, ct_utc_from_iso8601, TEXT("2049-12-31T23:59:59"), LENT);
    GIVES(text("2049-12-31T23:59:58.999"), text_of, 2469806.5, 86398.9994 / 86399.0, LENT);
    GIVES(text("2049-12-31T01:29:59.938"), even_of, 2469806.5, 1.0 / 16.0, LENT);
    /* two fractions of a day of 86,399 s whose float would show a millisecond less and one more */
    GIVES(text("2049-12-31T00:00:04.317"), even_of, 2469806.5, 225000148052.0 * 0x1p-52, LENT);
    GIVES(text("2049-12-31T00:00:34.737"), even_of, 2469806.5, 1810712995009.0 * 0x1p-52, LENT);
    GIVES(text("2050-01-01T00:00:00.000"), even_of, 2469806.5, 86398.9996 / 86399.0, LENT);
    GIVES(text("2050-01-01T00:00:00.000"), expanded_of, 2469806.5, 86398.9996 / 86399.0, LENT);
    GIVES(text("2050-01-01T00:00:00.000"), text_of, 2469806.5, 86398.9996 / 86399.0, LENT);
    GIVES(text("2049-12-31T23:59:59.000"), text_of, 2469806.5, 86399.0 / 86400.0, NO_ROWS);
}

/* The four conversions there and back on a day of 86,401 s and on one of 86,399 s: within 1 ns. */
static void there_and_back(int32_t of_seconds)
{
    uint8_t there[24], back[16];
    one_row(JANUARY_2050, of_seconds);
    IS(24, ct_utc_to_tai(2469806.5, 0.75, LENT, there, sizeof there));
    IS(16, ct_tai_to_utc(ct_float_at(there), ct_float_at(there + 8), LENT, back, sizeof back));
    IS_FLOAT(2469806.5, ct_float_at(back));
    check(ct_float_at(back + 8) - 0.75 < 1e-14 && 0.75 - ct_float_at(back + 8) < 1e-14, "UTC by TAI with a row of %d s", (int)of_seconds);
    IS(24, ct_utc_to_ut1_with_dut1(2469701.5, 0.75, 0.25, LENT, there, sizeof there));
    IS(16, ct_ut1_to_utc_with_dut1(ct_float_at(there), ct_float_at(there + 8), 0.25, LENT, back, sizeof back));
    check(ct_float_at(back + 8) - 0.75 < 1e-14 && 0.75 - ct_float_at(back + 8) < 1e-14, "UTC by UT1 with a row of %d s", (int)of_seconds);
    /* a DUT1 that counts for after the row: half of the day before it, the step is taken off */
    IS(16, ct_ut1_to_utc_with_dut1(2469806.5, 0.5, 0.25 * (of_seconds - LAST_SECONDS), LENT, there, sizeof there));
    IS(16, ct_ut1_to_utc_with_dut1(2469806.5, 0.5, 0.25 * (of_seconds - LAST_SECONDS), NO_ROWS, back, sizeof back));
    check(memcmp(there, back, 16) != 0, "UT1 to UTC does not see the row of %d s", (int)of_seconds);
}

/* ---- a table that is refused, by each call, first where the call would answer and then where it would refuse */

static void each_call_refuses(int number, size_t table_len)
{
    check(ct_check_table(table, table_len) == -number, "ct_check_table is not %d", -number);
    REFUSES(number, ct_get_tai_utc_offset, 2016, 12, 31, 0.0, table, table_len);
    REFUSES(number, ct_get_tai_utc_offset, 2000, 13, 1, 1.5, table, table_len);
    REFUSES(number, ct_leap_at_end_of_day, 2016, 12, 31, table, table_len);
    REFUSES(number, ct_leap_at_end_of_day, 2000, 13, 40, table, table_len);
    REFUSES(number, ct_utc_new, 0, 0, table, table_len);
    REFUSES(number, ct_utc_new, INT64_MAX, 1000000000, table, table_len);
    REFUSES(number, ct_utc_from_calendar, 2016, 12, 31, 23, 59, 60.0, table, table_len);
    REFUSES(number, ct_utc_from_calendar, 2000, 13, 40, 25, 60, nan_float(), table, table_len);
    REFUSES(number, ct_utc_to_tai, 2451545.0, 0.0, table, table_len);
    REFUSES(number, ct_utc_to_tai, nan_float(), 0.0, table, table_len);
    REFUSES(number, ct_tai_to_utc, 2451545.0, 0.0, table, table_len);
    REFUSES(number, ct_tai_to_utc, nan_float(), 0.0, table, table_len);
    REFUSES(number, ct_utc_to_ut1_with_dut1, 2451545.0, 0.0, 0.25, table, table_len);
    REFUSES(number, ct_utc_to_ut1_with_dut1, nan_float(), 0.0, nan_float(), table, table_len);
    REFUSES(number, ct_ut1_to_utc_with_dut1, 2451545.0, 0.0, 0.25, table, table_len);
    REFUSES(number, ct_ut1_to_utc_with_dut1, nan_float(), 0.0, nan_float(), table, table_len);
    REFUSES(number, text_of, 2451545.0, 0.0, table, table_len);
    REFUSES(number, text_of, nan_float(), 0.0, table, table_len);
    REFUSES(number, even_of, 2451545.0, 0.0, table, table_len);
    REFUSES(number, even_of, nan_float(), 0.0, table, table_len);
    REFUSES(number, expanded_of, 2451545.0, 0.0, table, table_len);
    REFUSES(number, expanded_of, nan_float(), 0.0, table, table_len);
    REFUSES(number, ct_utc_from_iso8601, TEXT("2000-01-01T12:00:00"), table, table_len);
    REFUSES(number, ct_utc_from_iso8601, TEXT("2000-13-01T24:00:00x"), table, table_len);
}

static void refused_tables(void)
{
    memset(table, 0, sizeof table);
    each_call_refuses(14, 0);
    each_call_refuses(14, CT_TABLE_BYTES - 1);
    each_call_refuses(14, CT_TABLE_BYTES + 1);
    ct_put_number(table, 1); /* and 20, and 21 and 22 */
    each_call_refuses(14, CT_TABLE_BYTES - 1);
    each_call_refuses(20, CT_TABLE_BYTES);
    ct_put_number(table, 0);
    ct_put_number(table + 4, 1);
    each_call_refuses(20, CT_TABLE_BYTES);
    many_rows(17);
    each_call_refuses(20, CT_TABLE_BYTES);
    ct_put_number(table, UINT32_MAX);
    ct_put_number(table + 4, UINT32_MAX);
    each_call_refuses(20, CT_TABLE_BYTES);
    one_row(LAST_MONTH, UP);
    each_call_refuses(21, CT_TABLE_BYTES);
    one_row(-1, UP);
    each_call_refuses(21, CT_TABLE_BYTES);
    two_rows(JANUARY_2050, UP + 1, JANUARY_2050, UP + 2);
    each_call_refuses(21, CT_TABLE_BYTES);
    each_call_refuses(14, CT_TABLE_BYTES + 1);
    one_row(JANUARY_2050, LAST_SECONDS);
    each_call_refuses(22, CT_TABLE_BYTES);
    one_row(JANUARY_2050, UP + 1);
    each_call_refuses(22, CT_TABLE_BYTES);
    one_row(JANUARY_2050, -UP);
    each_call_refuses(22, CT_TABLE_BYTES);
    two_rows(JANUARY_2050, UP, JANUARY_2050 + 1, UP);
    each_call_refuses(22, CT_TABLE_BYTES);
}

/* ---- the sizes, and what stands past them */

static void spare_places(void)
{
    size_t i;
    memset(table, 0xff, sizeof table);
    memset(table, 0, 8);
    IS(FIXED_ROWS, ct_check_table(LENT));
    GIVES(seconds_by(LAST_SECONDS, CT_RULE_WHOLE, FIXED_ROWS - 1), ct_get_tai_utc_offset, 2147483647, 12, 31, 0.0, LENT);
    GIVES(text("2016-12-31T23:59:60.000"), text_of, 2457753.5, 86400.0 / 86401.0, LENT);
    one_row(JANUARY_2050, UP);
    for (i = 12; i < CT_TABLE_BYTES; i++)
        if (i < 72 || i >= 76) table[i] = (uint8_t)(0x9d * i);
    IS(FIXED_ROWS + 1, ct_check_table(LENT));
    GIVES(seconds_by(LAST_SECONDS, CT_RULE_WHOLE, FIXED_ROWS - 1), ct_get_tai_utc_offset, 2049, 12, 31, 0.0, LENT);
    GIVES(seconds_by(UP, CT_RULE_WHOLE, FIXED_ROWS), ct_get_tai_utc_offset, 2147483647, 12, 31, 0.0, LENT);
    GIVES(seconds(1.0), ct_leap_at_end_of_day, 2049, 12, 31, LENT);
}

/* ---- a listing by a lent row: the last second of 2049 is shown, and a refused table lists nothing */

/* A block of one stamp, 86,400.5 s into 2049-12-31 where that day has 86,401. */
static void last_second_of_2049(uint8_t block[24])
{
    uint64_t jd1 = ct_bits_of(2469806.5), jd2 = ct_bits_of(86400.5 / 86401.0);
    int i;
    memset(block, 0, 8);
    block[0] = block[4] = 1;
    for (i = 0; i < 8; i++) {
        block[8 + i] = (uint8_t)(jd1 >> 8 * i);
        block[16 + i] = (uint8_t)(jd2 >> 8 * i);
    }
}

static void listing_calls(void)
{
    uint8_t block[24];
    last_second_of_2049(block);
    one_row(JANUARY_2050, UP);
    for (room = 33; room <= ROOM; room++) {
        text("0 2049-12-31T23:59:60.500\n");
        judge("ct_listing_part with a lent row", 0, ct_listing_part(block, 24, 1, LENT, fresh(), room));
        text("0 2049-12-31T23:59:59.500\n");
        judge("ct_listing_part with no rows", 0, ct_listing_part(block, 24, 1, NO_ROWS, fresh(), room));
    }
    for (room = 0; room <= ROOM; room++) {
        judge("ct_listing_part", 14, ct_listing_part(block, 24, 0, table, CT_TABLE_BYTES - 1, fresh(), room));
        one_row(JANUARY_2050, UP + 1);
        judge("ct_listing_part", 22, ct_listing_part(block, 7, 0, LENT, fresh(), room));
        one_row(LAST_MONTH, UP + 1);
        judge("ct_listing_part", 21, ct_listing_part(block, 7, 0, LENT, fresh(), room));
        table[4] = 2;
        judge("ct_listing_part", 20, ct_listing_part(block, 7, 0, LENT, fresh(), room));
    }
}

static void many(void)
{
    int i;
    for (i = 0; i <= 16; i++) {
        many_rows((uint32_t)i);
        check(ct_check_table(LENT) == FIXED_ROWS + i, "%d rows", i);
    }
    for (i = 0; i < 16; i++) {
        GIVES(seconds_by(i % 2 ? LAST_SECONDS : UP, CT_RULE_WHOLE, FIXED_ROWS + i), ct_get_tai_utc_offset, 2050 + i, 1, 1, 0.0, LENT);
        GIVES(seconds(i % 2 ? -1.0 : 1.0), ct_leap_at_end_of_day, 2049 + i, 12, 31, LENT);
    }
    /* the last month of 32 bits, which the calendar's dates reach and Julian dates do not */
    one_row(INT32_MAX, UP);
    GIVES(seconds_by(LAST_SECONDS, CT_RULE_WHOLE, FIXED_ROWS - 1), ct_get_tai_utc_offset, 178956970, 7, 31, 0.0, LENT);
    GIVES(seconds_by(UP, CT_RULE_WHOLE, FIXED_ROWS), ct_get_tai_utc_offset, 178956970, 8, 1, 0.0, LENT);
}

/* ---- a table that is read from a text */

static void reads(const char *rows_text, int64_t answer, int64_t line, uint32_t day)
{
    uint8_t read[CT_TABLE_BYTES + 1], known[CT_KNOWN_BYTES + 1], before[CT_TABLE_BYTES + 1];
    const uint8_t *bytes = (const uint8_t *)rows_text;
    size_t length = strlen(rows_text), i;
    int64_t told;
    memset(before, 0xaa, sizeof before);
    memcpy(read, before, sizeof read);
    memcpy(known, before, sizeof known);
    told = ct_read_table(bytes, length, read, sizeof read, known, sizeof known);
    check(told == answer, "ct_read_table of %s is %d", rows_text, (int)told);
    check(ct_table_fault(bytes, length) == line, "ct_table_fault of %s is not %d", rows_text, (int)line);
    check(read[CT_TABLE_BYTES] == 0xaa && known[CT_KNOWN_BYTES] == 0xaa, "bytes past the table of %s", rows_text);
    if (answer < 0) check(!memcmp(read, before, sizeof read) && !memcmp(known, before, sizeof known), "a refused text writes: %s", rows_text);
    else {
        check(ct_check_table(read, CT_TABLE_BYTES) == FIXED_ROWS + answer, "the table of %s", rows_text);
        for (i = 0; i < 4; i++) check(known[i] == (day >> 8 * i & 255), "the expiry of %s", rows_text);
        check(ct_read_table(bytes, length, read, CT_TABLE_BYTES - 1, known, sizeof known) == -11, "135 bytes for %s", rows_text);
        check(ct_read_table(bytes, length, read, sizeof read, known, 3) == -11, "3 bytes for the expiry of %s", rows_text);
    }
}

static void tables_from_texts(void)
{
    reads("", 0, 0, 0);
    reads("# a comment\n\n\t\r\n", 0, 0, 0);
    reads("1972-01 10\n2272060800\t10 # 1 Jan 1972\n", 0, 0, 0);
    reads("#@\t3991420800\r\n2050-01 38", 1, 0, 61217);
    reads("2050-01 38\n2060-01 37\n1972-07 11\n", 2, 0, 0);
    reads("2050-01 38\n2050-01 40\n", -21, 2, 0);
    reads("\n2050-01 39\n2040-01 40\n", -22, 2, 0);
    reads("1972-01 11\n", -22, 1, 0);
    reads("1971-12 10\n", -22, 1, 0);
    reads("2050-01 38\n2028-1 39\n2050-01 40\n", -15, 2, 0);
    reads("2272060801 10", -15, 1, 0);
    reads("#@", -15, 1, 0);
}

static void table_calls(void)
{
    with_a_leap_second();
    with_a_second_left_out();
    there_and_back(UP);
    there_and_back(DOWN);
    refused_tables();
    spare_places();
    listing_calls();
    many();
    tables_from_texts();
    IS(FIXED_ROWS, ct_check_table(NO_ROWS));
}
