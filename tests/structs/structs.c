/* Each function of include/celestial_time_structs.h: an answer and a refusal, NaN among what goes in, and a refused date handed on. What is due
   is the bytes that the call of celestial_time.h fills, or values written here. Compiled as C and as C++, with -Ofast too: no float is compared. */
#include "celestial_time_structs.h"
#include "../c/check.h"
#include "../c/patterns.h"

#define NO ct_no_rows
#define NONE ct_no_rows, sizeof ct_no_rows
#define NAN_BITS 0x7ff8000000000000u

static uint8_t out[64], rule[8];

/* The bytes as a refusal has to leave them: 0, from byte `from` on so many floats that are NaN, and behind them a rule of -1. */
static void lend(int from, int floats)
{
    memset(out, 0, sizeof out);
    memset(out + from + 8 * floats, 0xff, 8);
    memset(rule, 0xff, sizeof rule);
    while (floats-- > 0) cts_put_nan(out + from + 8 * floats);
}

static int float_is(double x, int at) { return ct_bits_of(x) == ct_pattern_at(out + at, 8); }
static int int_is(int32_t n, int at) { return n == ct_int_at(out + at); }
static int rule_is(ct_rule given, const uint8_t *bytes) { return given.kind == ct_int_at(bytes) && given.row == ct_int_at(bytes + 4); }
static int date_is(ct_date d, int at) { return float_is(d.jd1, at) && float_is(d.jd2, at + 8); }
static int fields_are(ct_fields f)
{
    return int_is(f.year, 0) && int_is(f.month, 4) && int_is(f.day, 8) && int_is(f.hour, 12) && int_is(f.minute, 16) && float_is(f.second, 20);
}
static int text_is(const char *text, int64_t code, size_t room)
{
    size_t i, length = code < 0 ? 0 : (size_t)code;
    if (memcmp(text, out, length)) return 0;
    for (i = length; i < room; i++)
        if (text[i]) return 0;
    return 1;
}

/* The call's code is `due`, or any that is not below 0 where that is 0; the struct has it as its `code_of`, and its fields hold. */
#define TRY(kind, from, floats, due, given, call, code_of, holds)                                                     \
    do {                                                                                                              \
        kind got = given;                                                                                             \
        int64_t code;                                                                                                 \
        lend(from, floats);                                                                                           \
        code = call;                                                                                                  \
        check(due < 0 ? code == due : code >= 0, "%s: the call's code %ld", #given, (long)code);                      \
        check(got.code_of == code, "%s: code %ld, not %ld", #given, (long)got.code_of, (long)code);                   \
        check(holds, "%s: its fields", #given);                                                                       \
    } while (0)
#define DATE(due, given, call) TRY(ct_date, 0, 2, due, given, call, code, date_is(got, 0))
#define RULED(due, given, call) TRY(ct_ruled_date, 0, 2, due, given, call, date.code, date_is(got.date, 0) && rule_is(got.rule, out + 16))
#define TEXT(due, given, call) TRY(ct_text, 0, 0, due, given, call, code, text_is(got.text, code, 28) && rule_is(got.rule, rule))
#define SENTENCE(due, given, call) TRY(ct_sentence, 0, 0, due, given, call, code, text_is(got.text, code, sizeof got.text))

static ct_date day, not_a_number, infinite, refused;

static void handed_on(ct_date d, const char *what)
{
    check(d.code == -4 && ct_bits_of(d.jd1) == NAN_BITS && ct_bits_of(d.jd2) == NAN_BITS, "%s: a refused date handed on", what);
}

static void calendar(void)
{
#define DAY(due, y, m, d)                                                                                                             \
    TRY(ct_day, 0, 0, due, cts_next_calendar_day(y, m, d), ct_next_calendar_day(y, m, d, out, 12), code,                              \
        code < 0 ? !(got.year | got.month | got.day) : int_is(got.year, 0) && int_is(got.month, 4) && int_is(got.day, 8))
    DAY(0, 1900, 2, 28);
    DAY(-CT_REFUSED_DAY, 1900, 2, 29);
    DAY(-CT_REFUSED_YEAR, -4800, 1, 1);
    DATE(0, cts_calendar_to_julian(2000, 1, 1), ct_calendar_to_julian(2000, 1, 1, out, 16));
    DATE(-CT_REFUSED_MONTH, cts_calendar_to_julian(2000, 13, 1), ct_calendar_to_julian(2000, 13, 1, out, 16));
    DATE(0, cts_from_calendar(2000, 1, 1, 6, 0, 0.5), ct_from_calendar(2000, 1, 1, 6, 0, 0.5, out, 16));
    DATE(-CT_REFUSED_TIME_OF_DAY, cts_from_calendar(2000, 1, 1, 6, 0, nan_float()), ct_from_calendar(2000, 1, 1, 6, 0, nan_float(), out, 16));
#define PART(due, date)                                                                                                               \
    TRY(ct_day_part, 12, 1, due, cts_julian_to_calendar(date), ct_julian_to_calendar((date).jd1, (date).jd2, out, 20), code,          \
        float_is(got.fraction, 12) && int_is(got.year, 0) && int_is(got.month, 4) && int_is(got.day, 8))
    PART(0, day);
    PART(-CT_REFUSED_DATE_RANGE, not_a_number);
    check(cts_julian_to_calendar(refused).code == -4, "cts_julian_to_calendar: a refused date handed on");
}

static void dates(void)
{
    ct_date j2000 = cts_from_julian_year(2000.0);
    check(ct_bits_of(j2000.jd1) == ct_bits_of(2400000.5) && ct_bits_of(j2000.jd2) == ct_bits_of(51544.5), "cts_from_julian_year(2000.0)");
#define FLOAT(name, x) \
    DATE(0, cts_##name(day, x), ct_##name(day.jd1, day.jd2, x, out, 16)); \
    handed_on(cts_##name(refused, x), #name)
    FLOAT(add_days, 0.75);
    FLOAT(add_seconds, 19.0);
    FLOAT(add_days, nan_float());
    DATE(0, cts_add_seconds(infinite, 1.0), ct_add_seconds(infinite.jd1, 0.0, 1.0, out, 16));
    DATE(0, cts_from_unix_time(-1, 999999999), ct_from_unix_time(-1, 999999999, out, 16));
    DATE(0, cts_from_julian_year(2016.99), ct_from_julian_year(2016.99, out, 16));
    DATE(0, cts_from_julian_year(nan_float()), ct_from_julian_year(nan_float(), out, 16));
#define OFFSET(name) \
    FLOAT(name, 32.184); \
    DATE(-CT_REFUSED_NOT_FINITE, cts_##name(not_a_number, 1.0), ct_##name(not_a_number.jd1, 0.0, 1.0, out, 16)); \
    DATE(-CT_REFUSED_OFFSET_NOT_FINITE, cts_##name(day, nan_float()), ct_##name(day.jd1, day.jd2, nan_float(), out, 16))
    OFFSET(tt_to_tdb_with_offset);
    OFFSET(tdb_to_tt_with_offset);
    OFFSET(ut1_to_tai_with_offset);
    OFFSET(tai_to_ut1_with_offset);
    OFFSET(ut1_to_tt_with_delta_t);
    OFFSET(tt_to_ut1_with_delta_t);
#define SCALE(name) \
    DATE(0, cts_##name(day), ct_##name(day.jd1, day.jd2, out, 16)); \
    DATE(-CT_REFUSED_NOT_FINITE, cts_##name(not_a_number), ct_##name(not_a_number.jd1, 0.0, out, 16)); \
    DATE(-CT_REFUSED_NOT_FINITE, cts_##name(infinite), ct_##name(infinite.jd1, 0.0, out, 16)); \
    handed_on(cts_##name(refused), #name)
    SCALE(gps_to_tai);
    SCALE(tai_to_gps);
    SCALE(tai_to_tt);
    SCALE(tt_to_tai);
    SCALE(tai_to_tcg);
    SCALE(tcg_to_tai);
    SCALE(tt_to_tcg);
    SCALE(tcg_to_tt);
    SCALE(tcb_to_tdb);
    SCALE(tdb_to_tcb);
}

static void weeks(void)
{
#define WEEK(due, date)                                                                                                               \
    TRY(ct_week, 0, 0, due, cts_gps_to_week(date), ct_gps_to_week((date).jd1, (date).jd2, out, 8), code,                              \
        code < 0 ? !(got.week | got.millis) : got.week == ct_pattern_at(out, 4) && got.millis == ct_pattern_at(out + 4, 4))
    DATE(0, cts_gps_from_week(2048, 604799999), ct_gps_from_week(2048, 604799999, out, 16));
    DATE(-CT_REFUSED_OUT_OF_LIMIT, cts_gps_from_week(2048, 604800000), ct_gps_from_week(2048, 604800000, out, 16));
    WEEK(0, day);
    WEEK(-CT_REFUSED_NOT_FINITE, not_a_number);
    check(cts_gps_to_week(refused).code == -4, "cts_gps_to_week: a refused date handed on");
    check(cts_gps_to_week(cts_gps_from_week(1024, 7)).week == 1024 && cts_gps_to_week(cts_gps_from_week(1024, 7)).millis == 7, "week 1024");
}

static void offsets(void)
{
#define SECONDS(due, fraction)                                                                                                        \
    TRY(ct_offset, 0, 1, due, cts_get_tai_utc_offset(2017, 1, 1, fraction, NO), ct_get_tai_utc_offset(2017, 1, 1, fraction, NONE, out, 16), code, \
        float_is(got.seconds, 0) && rule_is(got.rule, out + 8))
    SECONDS(0, 0.5);
    SECONDS(-CT_REFUSED_FRACTION, nan_float());
    check(ct_bits_of(cts_get_tai_utc_offset(2017, 1, 1, 0.0, NO).seconds) == ct_bits_of(37.0), "37 s in 2017");
    check(cts_get_tai_utc_offset(2017, 1, 1, 0.0, NO).rule.row == 41, "row 41 in 2017");
    TRY(ct_leap, 0, 1, 0, cts_leap_at_end_of_day(2016, 12, 31, NO), ct_leap_at_end_of_day(2016, 12, 31, NONE, out, 8), code, float_is(got.seconds, 0));
    TRY(ct_leap, 0, 1, -CT_REFUSED_DAY, cts_leap_at_end_of_day(2015, 2, 29, NO), ct_leap_at_end_of_day(2015, 2, 29, NONE, out, 8), code,
        float_is(got.seconds, 0));
}

static void utc(void)
{
    static const int32_t months[1] = {12 * 2017}, seconds[1] = {38};
    uint8_t table[CT_TABLE_BYTES];
    ct_table(months, seconds, 1, table); /* not later than the last row, so it is refused */
    DATE(0, cts_utc_new(1483228799, 5, NO), ct_utc_new(1483228799, 5, NONE, out, 16));
    DATE(-CT_REFUSED_NANOS, cts_utc_new(0, 1000000000, NO), ct_utc_new(0, 1000000000, NONE, out, 16));
    DATE(-CT_REFUSED_TABLE_ORDER, cts_utc_new(0, 0, table), ct_utc_new(0, 0, table, sizeof table, out, 16));
    DATE(0, cts_utc_from_calendar(2016, 12, 31, 23, 59, 60.5, NO), ct_utc_from_calendar(2016, 12, 31, 23, 59, 60.5, NONE, out, 16));
    DATE(-CT_REFUSED_TIME_OF_DAY, cts_utc_from_calendar(2015, 12, 31, 23, 59, nan_float(), NO),
         ct_utc_from_calendar(2015, 12, 31, 23, 59, nan_float(), NONE, out, 16));
    RULED(0, cts_utc_to_tai(day, NO), ct_utc_to_tai(day.jd1, day.jd2, NONE, out, 24));
    RULED(-CT_REFUSED_DATE_RANGE, cts_utc_to_tai(not_a_number, NO), ct_utc_to_tai(not_a_number.jd1, 0.0, NONE, out, 24));
    RULED(-CT_REFUSED_TABLE_ORDER, cts_utc_to_tai(day, table), ct_utc_to_tai(day.jd1, day.jd2, table, sizeof table, out, 24));
    handed_on(cts_utc_to_tai(refused, NO).date, "cts_utc_to_tai");
    DATE(0, cts_tai_to_utc(day, NO), ct_tai_to_utc(day.jd1, day.jd2, NONE, out, 16));
    DATE(-CT_REFUSED_DATE_RANGE, cts_tai_to_utc(not_a_number, NO), ct_tai_to_utc(not_a_number.jd1, 0.0, NONE, out, 16));
    handed_on(cts_tai_to_utc(refused, NO), "cts_tai_to_utc");
    RULED(0, cts_utc_to_ut1_with_dut1(day, 0.3, NO), ct_utc_to_ut1_with_dut1(day.jd1, day.jd2, 0.3, NONE, out, 24));
    RULED(-CT_REFUSED_OFFSET_NOT_FINITE, cts_utc_to_ut1_with_dut1(day, nan_float(), NO), ct_utc_to_ut1_with_dut1(day.jd1, day.jd2, nan_float(), NONE, out, 24));
    handed_on(cts_utc_to_ut1_with_dut1(refused, 0.3, NO).date, "cts_utc_to_ut1_with_dut1");
    DATE(0, cts_ut1_to_utc_with_dut1(day, 0.3, NO), ct_ut1_to_utc_with_dut1(day.jd1, day.jd2, 0.3, NONE, out, 16));
    DATE(-CT_REFUSED_NOT_FINITE, cts_ut1_to_utc_with_dut1(not_a_number, 0.3, NO), ct_ut1_to_utc_with_dut1(not_a_number.jd1, 0.0, 0.3, NONE, out, 16));
    handed_on(cts_ut1_to_utc_with_dut1(refused, 0.3, NO), "cts_ut1_to_utc_with_dut1");
}

static void texts(void)
{
    ct_date year_12000 = cts_add_days(day, 3652425.0);
#define WRITTEN(name) \
    TEXT(0, cts_##name(day, NO), ct_##name(day.jd1, day.jd2, NONE, out, 27, rule, 8)); \
    TEXT(0, cts_##name(year_12000, NO), ct_##name(year_12000.jd1, year_12000.jd2, NONE, out, 27, rule, 8)); \
    TEXT(-CT_REFUSED_DATE_RANGE, cts_##name(not_a_number, NO), ct_##name(not_a_number.jd1, 0.0, NONE, out, 27, rule, 8)); \
    check(cts_##name(refused, NO).code == -4 && !cts_##name(refused, NO).text[0], #name ": a refused date handed on")
    WRITTEN(to_iso8601);
    WRITTEN(to_iso8601_half_even);
    WRITTEN(to_iso8601_expanded);
    check(!strcmp(cts_to_iso8601(day, NO).text, "2000-01-01T18:00:00.000"), "the text of 2000-01-01");
    check(!strcmp(cts_to_iso8601_expanded(year_12000, NO).text, "+0012000-01-01T18:00:00.000"), "the text of 12000-01-01");
}

static void readings(void)
{
#define PARSE(due, text) \
    TRY(ct_fields, 20, 1, due, cts_parse_iso8601(text, strlen(text)), ct_parse_iso8601((const uint8_t *)text, strlen(text), out, 28), code, fields_are(got))
    PARSE(0, "2016-12-31T23:59:60.5");
    PARSE(-CT_REFUSED_GRAMMAR, "2016-12-31T23:59:60.5Z");
    PARSE(-CT_REFUSED_TOO_MANY_DIGITS, "2016-12-31T23:59:59.00000000000001");
#define READ(due, text)                                                                                                              \
    TRY(ct_reading, 20, 3, due, cts_utc_from_iso8601(text, strlen(text), NO), ct_utc_from_iso8601((const uint8_t *)text, strlen(text), NONE, out, 44), \
        fields.code, fields_are(got.fields) && date_is(got.date, 28) && got.date.code == code)
    READ(0, "2016-12-31T23:59:60.5Z");
    READ(-CT_REFUSED_TIME_OF_DAY, "2015-12-31T23:59:60Z");
    READ(-CT_REFUSED_GRAMMAR, "NaN");
}

static void sentences(void)
{
    SENTENCE(0, cts_reason(CT_REFUSED_NO_ROOM), ct_reason(11, out, 57));
    SENTENCE(-CT_REFUSED_OUT_OF_LIMIT, cts_reason(29), ct_reason(29, out, 57));
    SENTENCE(0, cts_date_reason(2, 2000, 13, 1), ct_date_reason(2, 2000, 13, 1, out, 57));
    SENTENCE(-CT_REFUSED_OUT_OF_LIMIT, cts_date_reason(0, 2000, 13, 1), ct_date_reason(0, 2000, 13, 1, out, 57));
    SENTENCE(0, cts_time_reason(4, 23, 59, nan_float(), 0.0), ct_time_reason(4, 23, 59, nan_float(), 0.0, out, 57));
    SENTENCE(-CT_REFUSED_OUT_OF_LIMIT, cts_time_reason(0, 23, 59, 60.0, 0.0), ct_time_reason(0, 23, 59, 60.0, 0.0, out, 57));
    SENTENCE(0, cts_parts_reason(9, nan_float(), 0.0), ct_parts_reason(9, nan_float(), 0.0, out, 57));
    SENTENCE(-CT_REFUSED_OUT_OF_LIMIT, cts_parts_reason(29, 0.0, 0.0), ct_parts_reason(29, 0.0, 0.0, out, 57));
    SENTENCE(0, cts_float_reason(10, infinite_float()), ct_float_reason(10, infinite_float(), out, 57));
    SENTENCE(-CT_REFUSED_OUT_OF_LIMIT, cts_float_reason(29, 0.0), ct_float_reason(29, 0.0, out, 57));
    SENTENCE(0, cts_count_reason(8, 1000000000), ct_count_reason(8, 1000000000, out, 57));
    SENTENCE(-CT_REFUSED_OUT_OF_LIMIT, cts_count_reason(29, 0), ct_count_reason(29, 0, out, 57));
    SENTENCE(0, cts_block_reason(12, 8, 1, 2), ct_block_reason(12, 8, 1, 2, out, 57));
    SENTENCE(-CT_REFUSED_OUT_OF_LIMIT, cts_block_reason(29, 8, 1, 2), ct_block_reason(29, 8, 1, 2, out, 57));
}

static void bills(void)
{
    ct_moment start = {2016, 12, 31, 23, 45, 0, 0}, end = {2017, 1, 1, 0, 0, 0, 0};
    ct_bill bill = cts_standby_bill(start, end, 1001, 1, 1, NO);
    check(bill.code == 24 && bill.quarters == 2 && bill.first_cents == 1001 && bill.second_cents == 1001, "a bill of 2 quarters");
    bill = cts_standby_bill(end, start, 1001, 1, 1, NO);
    check(bill.code == -CT_REFUSED_END_BEFORE_START && !(bill.quarters | bill.first_cents | bill.second_cents), "an end before its start");
    bill = cts_standby_bill(start, end, 1001, 0, 0, NO);
    check(bill.code == -CT_REFUSED_NO_METRES, "no metres");
}

int main(void)
{
    day = cts_date(2451545.0, 0.25);
    not_a_number = cts_date(nan_float(), 0.0);
    infinite = cts_date(infinite_float(), 0.0);
    refused = cts_from_calendar(2000, 1, 1, 24, 0, 0.0);
    handed_on(refused, "cts_from_calendar");
    calendar();
    dates();
    weeks();
    offsets();
    utc();
    texts();
    readings();
    sentences();
    bills();
    return summary("structs");
}
