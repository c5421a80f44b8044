/* The calls of celestial_time.h with structs in the place of bytes, for C99 and later and C++.

   Each call ct_NAME that fills a buffer with one answer has a cts_NAME here, which gives a struct.
   A struct has a code: what the call returns, below zero minus the number of a refusal. A refused
   answer has NaN for its floats, 0 for its whole numbers, -1 for both parts of its rule and the
   empty text.

   A date goes in and comes out as a ct_date, so calls follow each other. A date whose code is below
   zero is handed on: the answer has the same code, and the library is not asked. So the code at the
   end is the first refusal on the way:

      ct_date gps = cts_date(2451545.0, 0.25);
      ct_text text = cts_to_iso8601(cts_tai_to_utc(cts_gps_to_tai(gps), ct_no_rows), ct_no_rows);
      if (text.code < 0) ...; else puts(text.text);

   A table has CT_TABLE_BYTES bytes, as ct_no_rows and what ct_table fills. Calls on runs, lists and
   blocks take bytes and have no struct.

   All of this is compiled with the caller, with whatever options it has. Nothing here compares or
   computes a float: bytes are copied, and the library judges them, so -ffast-math changes nothing
   here. To link with it is another matter: see celestial_time.h. */
#ifndef CELESTIAL_TIME_STRUCTS_H
#define CELESTIAL_TIME_STRUCTS_H

#include "celestial_time.h"

#ifdef __cplusplus
extern "C" {
#endif

/* ---- The structs */

typedef struct { double jd1, jd2; int64_t code; } ct_date;
typedef struct { int32_t year, month, day; int64_t code; } ct_day;
typedef struct { int32_t year, month, day; double fraction; int64_t code; } ct_day_part;
typedef struct { int32_t kind, row; } ct_rule;
typedef struct { double seconds; ct_rule rule; int64_t code; } ct_offset;
typedef struct { double seconds; int64_t code; } ct_leap;
typedef struct { ct_date date; ct_rule rule; } ct_ruled_date;
typedef struct { uint32_t week, millis; int64_t code; } ct_week;
typedef struct { int32_t year, month, day, hour, minute; double second; int64_t code; } ct_fields;
/* Both have the code of the call. */
typedef struct { ct_fields fields; ct_date date; } ct_reading;
/* Ends with a byte 0, which the code does not count. */
typedef struct { char text[28]; ct_rule rule; int64_t code; } ct_text;
typedef struct { char text[CT_SENTENCE_BYTES + 1]; int64_t code; } ct_sentence;
/* A time of a standby, which goes in and has no code. */
typedef struct { int32_t year; uint8_t month, day, hour, minute, second; uint32_t millis; } ct_moment;
typedef struct { uint64_t quarters, first_cents, second_cents; int64_t code; } ct_bill;

/* ---- What the calls below share */

/* The 8 bytes of a NaN, in which a refusal leaves a float. */
static inline void cts_put_nan(uint8_t *bytes)
{
    memset(bytes, 0, 6);
    bytes[6] = 0xf8;
    bytes[7] = 0x7f;
}

/* A date of two floats. */
static inline ct_date cts_date(double jd1, double jd2)
{
    ct_date date;
    date.jd1 = jd1;
    date.jd2 = jd2;
    date.code = 0;
    return date;
}

static inline ct_date cts_date_at(const uint8_t *bytes, int64_t code)
{
    ct_date date;
    date.jd1 = ct_float_at(bytes);
    date.jd2 = ct_float_at(bytes + 8);
    date.code = code;
    return date;
}

static inline ct_rule cts_rule_at(const uint8_t *bytes)
{
    ct_rule rule;
    rule.kind = ct_int_at(bytes);
    rule.row = ct_int_at(bytes + 4);
    return rule;
}

static inline ct_ruled_date cts_ruled_date_at(const uint8_t *bytes, int64_t code)
{
    ct_ruled_date answer;
    answer.date = cts_date_at(bytes, code);
    answer.rule = cts_rule_at(bytes + 16);
    return answer;
}

static inline ct_fields cts_fields_at(const uint8_t *bytes, int64_t code)
{
    ct_fields fields;
    fields.year = ct_int_at(bytes);
    fields.month = ct_int_at(bytes + 4);
    fields.day = ct_int_at(bytes + 8);
    fields.hour = ct_int_at(bytes + 12);
    fields.minute = ct_int_at(bytes + 16);
    fields.second = ct_float_at(bytes + 20);
    fields.code = code;
    return fields;
}

/* The body of a function that gives a date: a buffer that is a NaN twice, and the call that fills it. */
#define CTS_GIVE_DATE(call)      \
    {                            \
        uint8_t out[16];         \
        int64_t code;            \
        cts_put_nan(out);        \
        cts_put_nan(out + 8);    \
        code = call;             \
        return cts_date_at(out, code); \
    }

/* The same with a rule behind the date. */
#define CTS_GIVE_RULED_DATE(call)  \
    {                              \
        uint8_t out[24];           \
        int64_t code;              \
        cts_put_nan(out);          \
        cts_put_nan(out + 8);      \
        memset(out + 16, 0xff, 8); \
        code = call;               \
        return cts_ruled_date_at(out, code); \
    }

/* ---- Calendar */

static inline ct_day cts_next_calendar_day(int32_t year, int32_t month, int32_t day)
{
    uint8_t out[12] = {0};
    ct_day next;
    next.code = ct_next_calendar_day(year, month, day, out, sizeof out);
    next.year = ct_int_at(out);
    next.month = ct_int_at(out + 4);
    next.day = ct_int_at(out + 8);
    return next;
}

static inline ct_date cts_calendar_to_julian(int32_t year, int32_t month, int32_t day)
    CTS_GIVE_DATE(ct_calendar_to_julian(year, month, day, out, sizeof out))

static inline ct_day_part cts_julian_to_calendar(ct_date date)
{
    uint8_t out[20] = {0};
    ct_day_part part;
    cts_put_nan(out + 12);
    part.code = date.code < 0 ? date.code : ct_julian_to_calendar(date.jd1, date.jd2, out, sizeof out);
    part.year = ct_int_at(out);
    part.month = ct_int_at(out + 4);
    part.day = ct_int_at(out + 8);
    part.fraction = ct_float_at(out + 12);
    return part;
}

static inline ct_date cts_from_calendar(int32_t year, uint8_t month, uint8_t day, uint8_t hour,
                                        uint8_t minute, double second)
    CTS_GIVE_DATE(ct_from_calendar(year, month, day, hour, minute, second, out, sizeof out))

/* ---- Julian dates, and scales whose conversion reads no table: a date in, a date out */

#define CTS_OF_DATE(name) \
    static inline ct_date cts_##name(ct_date date) \
        CTS_GIVE_DATE(date.code < 0 ? date.code : ct_##name(date.jd1, date.jd2, out, sizeof out))

/* With a number of days or seconds, or an offset in seconds. */
#define CTS_OF_DATE_AND_FLOAT(name) \
    static inline ct_date cts_##name(ct_date date, double x) \
        CTS_GIVE_DATE(date.code < 0 ? date.code : ct_##name(date.jd1, date.jd2, x, out, sizeof out))

CTS_OF_DATE_AND_FLOAT(add_days)
CTS_OF_DATE_AND_FLOAT(add_seconds)

static inline ct_date cts_from_unix_time(int64_t seconds, uint32_t nanos)
    CTS_GIVE_DATE(ct_from_unix_time(seconds, nanos, out, sizeof out))

static inline ct_date cts_from_julian_year(double year)
    CTS_GIVE_DATE(ct_from_julian_year(year, out, sizeof out))

CTS_OF_DATE(gps_to_tai)
CTS_OF_DATE(tai_to_gps)
CTS_OF_DATE(tai_to_tt)
CTS_OF_DATE(tt_to_tai)
CTS_OF_DATE(tai_to_tcg)
CTS_OF_DATE(tcg_to_tai)
CTS_OF_DATE(tt_to_tcg)
CTS_OF_DATE(tcg_to_tt)
CTS_OF_DATE(tcb_to_tdb)
CTS_OF_DATE(tdb_to_tcb)

CTS_OF_DATE_AND_FLOAT(tt_to_tdb_with_offset)
CTS_OF_DATE_AND_FLOAT(tdb_to_tt_with_offset)
CTS_OF_DATE_AND_FLOAT(ut1_to_tai_with_offset)
CTS_OF_DATE_AND_FLOAT(tai_to_ut1_with_offset)
CTS_OF_DATE_AND_FLOAT(ut1_to_tt_with_delta_t)
CTS_OF_DATE_AND_FLOAT(tt_to_ut1_with_delta_t)

/* ---- GPS weeks */

static inline ct_date cts_gps_from_week(uint32_t week, uint32_t millis)
    CTS_GIVE_DATE(ct_gps_from_week(week, millis, out, sizeof out))

static inline ct_week cts_gps_to_week(ct_date date)
{
    uint8_t out[8] = {0};
    ct_week answer;
    answer.code = date.code < 0 ? date.code : ct_gps_to_week(date.jd1, date.jd2, out, sizeof out);
    answer.week = (uint32_t)ct_pattern_at(out, 4);
    answer.millis = (uint32_t)ct_pattern_at(out + 4, 4);
    return answer;
}

/* ---- TAI-UTC and UTC */

static inline ct_offset cts_get_tai_utc_offset(int32_t year, int32_t month, int32_t day, double fraction,
                                               const uint8_t *table)
{
    uint8_t out[16];
    ct_offset offset;
    cts_put_nan(out);
    memset(out + 8, 0xff, 8);
    offset.code = ct_get_tai_utc_offset(year, month, day, fraction, table, CT_TABLE_BYTES, out, sizeof out);
    offset.seconds = ct_float_at(out);
    offset.rule = cts_rule_at(out + 8);
    return offset;
}

static inline ct_leap cts_leap_at_end_of_day(int32_t year, int32_t month, int32_t day, const uint8_t *table)
{
    uint8_t out[8];
    ct_leap leap;
    cts_put_nan(out);
    leap.code = ct_leap_at_end_of_day(year, month, day, table, CT_TABLE_BYTES, out, sizeof out);
    leap.seconds = ct_float_at(out);
    return leap;
}

static inline ct_date cts_utc_new(int64_t seconds, uint32_t nanos, const uint8_t *table)
    CTS_GIVE_DATE(ct_utc_new(seconds, nanos, table, CT_TABLE_BYTES, out, sizeof out))

static inline ct_date cts_utc_from_calendar(int32_t year, uint8_t month, uint8_t day, uint8_t hour,
                                            uint8_t minute, double second, const uint8_t *table)
    CTS_GIVE_DATE(ct_utc_from_calendar(year, month, day, hour, minute, second, table, CT_TABLE_BYTES,
                                       out, sizeof out))

static inline ct_ruled_date cts_utc_to_tai(ct_date date, const uint8_t *table)
    CTS_GIVE_RULED_DATE(date.code < 0 ? date.code : ct_utc_to_tai(date.jd1, date.jd2, table,
                                                                  CT_TABLE_BYTES, out, sizeof out))

static inline ct_date cts_tai_to_utc(ct_date date, const uint8_t *table)
    CTS_GIVE_DATE(date.code < 0 ? date.code : ct_tai_to_utc(date.jd1, date.jd2, table, CT_TABLE_BYTES,
                                                            out, sizeof out))

static inline ct_ruled_date cts_utc_to_ut1_with_dut1(ct_date date, double dut1, const uint8_t *table)
    CTS_GIVE_RULED_DATE(date.code < 0 ? date.code
                                      : ct_utc_to_ut1_with_dut1(date.jd1, date.jd2, dut1, table,
                                                                CT_TABLE_BYTES, out, sizeof out))

static inline ct_date cts_ut1_to_utc_with_dut1(ct_date date, double dut1, const uint8_t *table)
    CTS_GIVE_DATE(date.code < 0 ? date.code
                                : ct_ut1_to_utc_with_dut1(date.jd1, date.jd2, dut1, table, CT_TABLE_BYTES,
                                                          out, sizeof out))

/* ---- Texts */

#define CTS_TEXT(name) \
    static inline ct_text cts_##name(ct_date date, const uint8_t *table) \
    { \
        uint8_t out[28] = {0}, rule[CT_RULE_BYTES]; \
        ct_text answer; \
        memset(rule, 0xff, sizeof rule); \
        answer.code = date.code < 0 ? date.code \
                                    : ct_##name(date.jd1, date.jd2, table, CT_TABLE_BYTES, out, \
                                                sizeof out - 1, rule, sizeof rule); \
        memcpy(answer.text, out, sizeof out); \
        answer.rule = cts_rule_at(rule); \
        return answer; \
    }

CTS_TEXT(to_iso8601)
CTS_TEXT(to_iso8601_half_even)
CTS_TEXT(to_iso8601_expanded)

/* A text is `length` bytes; a byte 0 does not end it. */
static inline ct_fields cts_parse_iso8601(const char *text, size_t length)
{
    uint8_t out[28] = {0};
    int64_t code;
    cts_put_nan(out + 20);
    code = ct_parse_iso8601((const uint8_t *)text, length, out, sizeof out);
    return cts_fields_at(out, code);
}

static inline ct_reading cts_utc_from_iso8601(const char *text, size_t length, const uint8_t *table)
{
    uint8_t out[44] = {0};
    int64_t code;
    ct_reading answer;
    cts_put_nan(out + 20);
    cts_put_nan(out + 28);
    cts_put_nan(out + 36);
    code = ct_utc_from_iso8601((const uint8_t *)text, length, table, CT_TABLE_BYTES, out, sizeof out);
    answer.fields = cts_fields_at(out, code);
    answer.date = cts_date_at(out + 28, code);
    return answer;
}

/* ---- The sentence of a refusal: its number, or the code of a refused answer with its sign turned */

#define CTS_GIVE_SENTENCE(call) \
    { \
        uint8_t out[CT_SENTENCE_BYTES + 1] = {0}; \
        ct_sentence answer; \
        answer.code = call; \
        memcpy(answer.text, out, sizeof out); \
        return answer; \
    }

static inline ct_sentence cts_reason(uint32_t number)
    CTS_GIVE_SENTENCE(ct_reason(number, out, CT_SENTENCE_BYTES))

static inline ct_sentence cts_date_reason(uint32_t number, int32_t year, int32_t month, int32_t day)
    CTS_GIVE_SENTENCE(ct_date_reason(number, year, month, day, out, CT_SENTENCE_BYTES))

static inline ct_sentence cts_time_reason(uint32_t number, uint8_t hour, uint8_t minute, double second,
                                          double leap)
    CTS_GIVE_SENTENCE(ct_time_reason(number, hour, minute, second, leap, out, CT_SENTENCE_BYTES))

static inline ct_sentence cts_parts_reason(uint32_t number, double jd1, double jd2)
    CTS_GIVE_SENTENCE(ct_parts_reason(number, jd1, jd2, out, CT_SENTENCE_BYTES))

static inline ct_sentence cts_float_reason(uint32_t number, double x)
    CTS_GIVE_SENTENCE(ct_float_reason(number, x, out, CT_SENTENCE_BYTES))

static inline ct_sentence cts_count_reason(uint32_t number, uint32_t n)
    CTS_GIVE_SENTENCE(ct_count_reason(number, n, out, CT_SENTENCE_BYTES))

static inline ct_sentence cts_block_reason(uint32_t number, uint64_t length, uint32_t size,
                                           uint32_t second_size)
    CTS_GIVE_SENTENCE(ct_block_reason(number, length, size, second_size, out, CT_SENTENCE_BYTES))

/* ---- Crew standby */

static inline ct_bill cts_standby_bill(ct_moment start, ct_moment end, uint32_t rate, uint32_t first_metres,
                                       uint32_t second_metres, const uint8_t *table)
{
    uint8_t out[24] = {0};
    ct_bill bill;
    bill.code = ct_standby_bill(start.year, start.month, start.day, start.hour, start.minute, start.second,
                                start.millis, end.year, end.month, end.day, end.hour, end.minute,
                                end.second, end.millis, rate, first_metres, second_metres, table,
                                CT_TABLE_BYTES, out, sizeof out);
    bill.quarters = ct_pattern_at(out, 8);
    bill.first_cents = ct_pattern_at(out + 8, 8);
    bill.second_cents = ct_pattern_at(out + 16, 8);
    return bill;
}

#undef CTS_GIVE_DATE
#undef CTS_GIVE_RULED_DATE
#undef CTS_GIVE_SENTENCE
#undef CTS_OF_DATE
#undef CTS_OF_DATE_AND_FLOAT
#undef CTS_TEXT

#ifdef __cplusplus
}
#endif

#endif
