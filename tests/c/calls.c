/* Each call of include/celestial_time.h: an answer, every refusal that it can give, the order of two
   that would both hold, and the examples of its comment. A call that fills a buffer is lent every length from 0 to 46: with too few
   bytes it says 11, after every other refusal, and no byte changes that it does not answer with. At the end the functions of the
   header that read numbers from bytes.
   The answers are document 01's, whole numbers of seconds, or ERFA's. */
#include "buffer.h"
#include "scale_calls.h"
#include "text_form_calls.h"
#include "table_calls.h"
#include "line_up_calls.h"
#include "run_bytes_calls.h"
#include "summary_calls.h"
#include "line_listing_calls.h"
#include "run_calls.h"
#include "formula_run_calls.h"
#include "text_run_calls.h"
#include "date_run_calls.h"
#include "standby_calls.h"
#include "reason_calls.h"
#include "since_launch_calls.h"
#include "tick_calls.h"
#include "walk_calls.h"

static void version(void)
{
    IS(CT_VERSION_MAJOR * 1000000 + CT_VERSION_MINOR * 1000 + CT_VERSION_PATCH, ct_version());
}

static void month_lengths(void)
{
    static const int LENGTHS[] = {31, 28, 31, 30, 31, 30, 31, 31, 30, 31, 30, 31};
    int month;
    for (month = 1; month <= 12; month++) {
        IS(LENGTHS[month - 1], ct_days_in_month(1900, month));
        IS(LENGTHS[month - 1] + (month == 2), ct_days_in_month(2000, month));
    }
    IS(0, ct_days_in_month(2000, 13));
    IS(0, ct_days_in_month(2000, 0));
}

static void calendar_calls(void)
{
    IS(1, ct_is_leap_year(2000));
    IS(0, ct_is_leap_year(1900));
    IS(1, ct_is_leap_year(-4800));
    month_lengths();
    IS(0, ct_validate_calendar_date(2000, 2, 29));
    IS(-1, ct_validate_calendar_date(-4800, 13, 40));
    IS(-2, ct_validate_calendar_date(2000, 13, 40));
    IS(-3, ct_validate_calendar_date(1900, 2, 29));
    GIVES(day(1900, 3, 1), ct_next_calendar_day, 1900, 2, 28);
    GIVES(day(-4798, 1, 1), ct_next_calendar_day, -4799, 12, 31);
    REFUSES(1, ct_next_calendar_day, -4800, 13, 40);
    REFUSES(2, ct_next_calendar_day, 2000, 13, 40);
    REFUSES(3, ct_next_calendar_day, 1900, 2, 29);
    REFUSES(5, ct_next_calendar_day, 2147483647, 12, 31);
    GIVES(parts(2400000.5, 51544.0), ct_calendar_to_julian, 2000, 1, 1);
    GIVES(parts(2400000.5, -2431739.0), ct_calendar_to_julian, -4799, 1, 1);
    REFUSES(1, ct_calendar_to_julian, -4800, 13, 40);
    REFUSES(2, ct_calendar_to_julian, 2000, 13, 40);
    REFUSES(3, ct_calendar_to_julian, 1900, 2, 29);
}

static void calendar_of_dates(void)
{
    GIVES(day_and_fraction(2000, 1, 1, 0.5), ct_julian_to_calendar, 2451544.75, 0.25);
    GIVES(day_and_fraction(-4900, 3, 1, 0.0), ct_julian_to_calendar, -68569.5, 0.0);
    GIVES(day_and_fraction(-4900, 2, 30, 1.0 - 0x1p-52), ct_julian_to_calendar, -68569.5, -0x1p-52);
    REFUSES(6, ct_julian_to_calendar, -68570.0, 0.0);
    REFUSES(6, ct_julian_to_calendar, 1e9, 1.0);
    REFUSES(6, ct_julian_to_calendar, nan_float(), 0.0);
    REFUSES(6, ct_julian_to_calendar, 0.0, signalling_float());
    REFUSES(6, ct_julian_to_calendar, infinite_float(), minus_infinite_float());
    GIVES(parts(2452791.5, 0.52100983796296296), ct_from_calendar, 2003, 6, 1, 12, 30, 15.25);
    REFUSES(1, ct_from_calendar, -4800, 13, 40, 25, 60, -1.0);
    REFUSES(2, ct_from_calendar, 2000, 13, 40, 25, 60, -1.0);
    REFUSES(3, ct_from_calendar, 2000, 2, 30, 25, 0, 0.0);
    REFUSES(4, ct_from_calendar, 2000, 1, 1, 24, 0, 0.0);
    REFUSES(4, ct_from_calendar, 2000, 1, 1, 0, 60, 0.0);
    REFUSES(4, ct_from_calendar, 2016, 12, 31, 23, 59, 60.0);
    REFUSES(4, ct_from_calendar, 2000, 1, 1, 0, 0, -0.5);
    REFUSES(4, ct_from_calendar, 2000, 1, 1, 0, 0, nan_float());
    REFUSES(4, ct_from_calendar, 2000, 1, 1, 0, 0, infinite_float());
}

static void date_calls(void)
{
    GIVES(parts(2451546.0, 0.25), ct_add_days, 2451545.0, 0.25, 1.0);
    GIVES(parts(nan_float(), nan_float()), ct_add_days, 2451545.0, 0.25, signalling_float());
    GIVES(parts(2451545.0, 0.75), ct_add_seconds, 2451545.0, 0.25, 43200.0);
    GIVES(parts(2451545.0, -0.125), ct_add_seconds, 2451545.0, 0.25, -32400.0);
    GIVES(parts(2440587.5, 0.5), ct_from_unix_time, 43200, 0);
    GIVES(parts(2440587.5, -1.0 / 86400.0), ct_from_unix_time, -1, 0);
    GIVES(parts(2440587.5, 0.5 / 86400.0), ct_from_unix_time, 0, 500000000);
    GIVES(parts(2440586.5, -0.5 / 86400.0), ct_from_unix_time, -86401, 500000000);
    GIVES(parts(2400000.5, 50375.699999999983), ct_from_julian_year, 1996.8);
    IS_FLOAT(1979.7604380561258, ct_to_julian_year(2451545.0, -7392.5));
    IS_FLOAT(2451545.25, ct_to_f64(2451545.0, 0.25));
    IS_FLOAT(minus_infinite_float(), ct_to_f64(minus_infinite_float(), 0.0));
    IS(1, ct_equal(2451545.0, 0.25, 0.25, 2451545.0));
    IS(0, ct_equal(2451545.0, 0.25, 2451545.0, 0.5));
    IS(0, ct_equal(nan_float(), 0.0, nan_float(), 0.0));
    IS(0, ct_compare(2457753.5, 0.7071109074091659, 2400000.5, 57753.70711090741));
    IS(2, ct_compare(2457753.5, 0.7071109074101659, 2400000.5, 57753.70711090741));
    IS(1, ct_compare(2451545.0, 0.0, 2451544.75, 0.25));
    IS(0, ct_compare(2451545.0, 0.0, 2451545.0, 1e-20));
    IS(-9, ct_compare(nan_float(), 0.0, 2451545.0, 0.0));
    IS(-9, ct_compare(2451545.0, 0.0, 2451545.0, nan_float()));
    IS(-9, ct_compare(1.7e308, 1.7e308, 2451545.0, 0.0));
    IS(-9, ct_compare(2.9937604643020797e292, -1.7976931348623157e308, 2451545.0, 0.0));
    IS(1, ct_compare(0x1p1000, 0x1p-1000, 0x1p-1000, 0x1p1000));
    IS(1, ct_equal(0x1p52, 0.5, 0x1p52, 0.5));
    IS(0, ct_equal(2.9937604643020797e292, -1.7976931348623157e308, 2.9937604643020797e292, -1.7976931348623157e308));
    IS_FLOAT(1.75, ct_difference(2451546.0, 0.5, 2451544.5, 0.25));
    IS_NAN(ct_to_f64(infinite_float(), minus_infinite_float()));
    IS_NAN(ct_to_julian_year(signalling_float(), 0.0));
    IS_NAN(ct_difference(infinite_float(), 0.0, infinite_float(), 0.0));
}

/* Patterns in, so that no build and no floating-point unit has a say. */
static void same_stamps(void)
{
    static const uint64_t NOON = 0x4142b42c80000000, SIX = 0x4142b42c60000000, QUARTER = 0x3fd0000000000000; /* 2451545.0, 2451544.75, 0.25 */
    static const uint64_t MINUS = 0x8000000000000000, QUIET_NAN = 0x7ff8000000000000, SIGNALLING_NAN = 0x7ff0000000000001;
    uint32_t scale;
    int bit;
    for (scale = CT_UTC; scale <= CT_TDB + 1; scale++) {
        IS(1, ct_same_stamp(scale, NOON, 0, scale, NOON, 0));
        IS(scale == 3, ct_same_stamp(scale, NOON, 0, CT_TT, NOON, 0));
    }
    IS(0, CT_UTC); /* document 01's order */
    IS(1, CT_TAI);
    IS(2, CT_UT1);
    IS(3, CT_TT);
    IS(4, CT_GPS);
    IS(5, CT_TCG);
    IS(6, CT_TCB);
    IS(7, CT_TDB);
    IS(1, ct_same_stamp(UINT32_MAX, NOON, 0, UINT32_MAX, NOON, 0));
    IS(0, ct_same_stamp(UINT32_MAX, NOON, 0, CT_UTC, NOON, 0));
    IS(1, ct_equal(2451545.0, 0.0, 2451544.75, 0.25));
    IS(0, ct_same_stamp(CT_UTC, NOON, 0, CT_UTC, SIX, QUARTER));
    IS(0, ct_same_stamp(CT_UTC, NOON, QUARTER, CT_UTC, QUARTER, NOON));
    IS(0, ct_same_stamp(CT_UTC, NOON, 0, CT_UTC, NOON, MINUS));
    IS(0, ct_same_stamp(CT_UTC, MINUS, NOON, CT_UTC, 0, NOON));
    IS(1, ct_same_stamp(CT_UTC, SIGNALLING_NAN, QUIET_NAN, CT_UTC, SIGNALLING_NAN, QUIET_NAN));
    IS(0, ct_same_stamp(CT_UTC, SIGNALLING_NAN, QUIET_NAN, CT_UTC, QUIET_NAN, QUIET_NAN));
    IS(1, ct_same_stamp(CT_UTC, 0x7ca8000000000000, 0xffefffffffffffff, CT_UTC, 0x7ca8000000000000, 0xffefffffffffffff));
    for (bit = 0; bit < 64; bit++) {
        IS(0, ct_same_stamp(CT_UTC, NOON, QUARTER, CT_UTC, NOON ^ (uint64_t)1 << bit, QUARTER));
        IS(0, ct_same_stamp(CT_UTC, NOON, QUARTER, CT_UTC, NOON, QUARTER ^ (uint64_t)1 << bit));
        if (bit < 32) IS(0, ct_same_stamp(CT_UTC, NOON, QUARTER, CT_UTC ^ (uint32_t)1 << bit, NOON, QUARTER));
    }
    IS(1, ct_bits_of(2451545.0) == NOON && ct_bits_of(-0.0) == MINUS && ct_bits_of(0.25) == QUARTER);
}

/* ---- GPS weeks: whole milliseconds from 2444244.5, and document 02's cases */

static void gps_weeks(void)
{
    GIVES(parts(2444244.5, 0.0), ct_gps_from_week, 0, 0);
    GIVES(parts(2444245.5, 1.0 / 86400000.0), ct_gps_from_week, 0, 86400001);
    GIVES(parts(2451412.5, 0.0), ct_gps_from_week, 1024, 0);
    GIVES(parts(2458580.5, 0.5), ct_gps_from_week, 2048, 43200000);
    GIVES(parts(3144250.5, 86399999.0 / 86400000.0), ct_gps_from_week, 100000, 604799999);
    REFUSES(18, ct_gps_from_week, 100001, 0);
    REFUSES(18, ct_gps_from_week, 0, 604800000);
    REFUSES(18, ct_gps_from_week, UINT32_MAX, UINT32_MAX);
    GIVES(two_numbers(0, 0), ct_gps_to_week, 2444244.5, 0.0);
    GIVES(two_numbers(0, 0), ct_gps_to_week, 2444244.5, 5.787037037037036e-09);
    GIVES(two_numbers(0, 0), ct_gps_to_week, 2444244.5, -0.5 / 86400000.0);
    GIVES(two_numbers(1024, 43200000), ct_gps_to_week, 2451413.0, 0.0);
    GIVES(two_numbers(2048, 604799999), ct_gps_to_week, 2458587.5, -1.0 / 86400000.0);
    GIVES(two_numbers(100000, 604799999), ct_gps_to_week, 3144251.5, -0.75 / 86400000.0);
    REFUSES(18, ct_gps_to_week, 3144251.5, -0.5 / 86400000.0);
    REFUSES(18, ct_gps_to_week, 3144251.5, 0.0);
    REFUSES(18, ct_gps_to_week, 1e9, 0.0);
    REFUSES(18, ct_gps_to_week, 2444244.5, -0.75 / 86400000.0);
    REFUSES(18, ct_gps_to_week, 2444244.5, -1.0);
    REFUSES(18, ct_gps_to_week, -68569.5, -0x1p-52);
    REFUSES(6, ct_gps_to_week, -68570.0, 0.0);
    REFUSES(6, ct_gps_to_week, 1e9, 1.0);
    REFUSES(6, ct_gps_to_week, 1.7e308, 1.7e308);
    REFUSES(9, ct_gps_to_week, infinite_float(), minus_infinite_float());
    REFUSES(9, ct_gps_to_week, nan_float(), 0.0);
    REFUSES(9, ct_gps_to_week, 2451545.0, signalling_float());
    IS(1023, ct_gps_full_week(1023, 0));
    IS(512, ct_gps_full_week(512, 0));
    IS(0, ct_gps_full_week(0, 511));
    IS(-19, ct_gps_full_week(0, 512));
    IS(1024, ct_gps_full_week(0, 513));
    IS(2050, ct_gps_full_week(2, 2400));
    IS(99511, ct_gps_full_week(183, 99000));
    IS(-19, ct_gps_full_week(184, 99000));
    IS(98489, ct_gps_full_week(185, 99000));
    IS(-18, ct_gps_full_week(1024, 512));
    IS(-18, ct_gps_full_week(0, 99001));
    IS(-18, ct_gps_full_week(UINT32_MAX, UINT32_MAX));
}

static void offset_calls(void)
{
    GIVES(seconds_by(36.0, CT_RULE_WHOLE, 40), ct_get_tai_utc_offset, 2016, 12, 31, 0.0, NO_ROWS);
    GIVES(seconds_by(0.0, CT_RULE_ABSENT, -1), ct_get_tai_utc_offset, 1959, 12, 31, 1.0, NO_ROWS);
    GIVES(seconds_by(6.2830900000000005, CT_RULE_DRIFTING, 12), ct_get_tai_utc_offset, 1968, 1, 31, 0.0, NO_ROWS);
    GIVES(seconds_by(6.2843860000000005, CT_RULE_DRIFTING, 12), ct_get_tai_utc_offset, 1968, 1, 31, 0.5, NO_ROWS);
    REFUSES(7, ct_get_tai_utc_offset, 2000, 13, 1, 1.5, NO_ROWS);
    REFUSES(7, ct_get_tai_utc_offset, -4800, 13, 40, 1.5, NO_ROWS);
    REFUSES(7, ct_get_tai_utc_offset, 2000, 1, 1, -0.5, NO_ROWS);
    REFUSES(7, ct_get_tai_utc_offset, 2000, 1, 1, nan_float(), NO_ROWS);
    REFUSES(7, ct_get_tai_utc_offset, 2000, 1, 1, signalling_float(), NO_ROWS);
    REFUSES(7, ct_get_tai_utc_offset, 2000, 1, 1, infinite_float(), NO_ROWS);
    REFUSES(1, ct_get_tai_utc_offset, -4800, 13, 40, 0.5, NO_ROWS);
    REFUSES(2, ct_get_tai_utc_offset, 2000, 13, 40, 0.5, NO_ROWS);
    REFUSES(3, ct_get_tai_utc_offset, 1900, 2, 29, 0.5, NO_ROWS);
    GIVES(seconds(1.0), ct_leap_at_end_of_day, 2016, 12, 31, NO_ROWS);
    GIVES(seconds(0.0), ct_leap_at_end_of_day, 2017, 1, 1, NO_ROWS);
    GIVES(seconds(-0x1p-53), ct_leap_at_end_of_day, 1960, 1, 1, NO_ROWS);
    REFUSES(1, ct_leap_at_end_of_day, -4800, 13, 40, NO_ROWS);
    REFUSES(2, ct_leap_at_end_of_day, 2000, 13, 40, NO_ROWS);
    REFUSES(3, ct_leap_at_end_of_day, 1900, 2, 29, NO_ROWS);
    REFUSES(5, ct_leap_at_end_of_day, 2147483647, 12, 31, NO_ROWS);
}

/* ---- UTC */

static void utc_of_fields(void)
{
    GIVES(parts(2440586.5, 86399.0 / 86400.0), ct_utc_new, -1, 0, NO_ROWS);
    REFUSES(8, ct_utc_new, 0, 1000000000, NO_ROWS);
    REFUSES(8, ct_utc_new, INT64_MAX, 1000000000, NO_ROWS);
    REFUSES(6, ct_utc_new, INT64_MAX, 999999999, NO_ROWS);
    REFUSES(6, ct_utc_new, INT64_MIN, 0, NO_ROWS);
    REFUSES(1, ct_utc_new, -213609052800, 0, NO_ROWS);
    REFUSES(4, ct_utc_new, -265680001, 960000000, NO_ROWS);
    GIVES(parts(2457753.5, 86400.0 / 86401.0), ct_utc_from_calendar, 2016, 12, 31, 23, 59, 60.0, NO_ROWS);
    REFUSES(1, ct_utc_from_calendar, -4800, 13, 40, 25, 60, nan_float(), NO_ROWS);
    REFUSES(2, ct_utc_from_calendar, 2000, 13, 40, 25, 60, nan_float(), NO_ROWS);
    REFUSES(3, ct_utc_from_calendar, 2000, 2, 30, 25, 60, nan_float(), NO_ROWS);
    REFUSES(5, ct_utc_from_calendar, 2147483647, 12, 31, 25, 0, 0.0, NO_ROWS);
    REFUSES(4, ct_utc_from_calendar, 2015, 12, 31, 23, 59, 60.0, NO_ROWS);
    REFUSES(4, ct_utc_from_calendar, 2016, 12, 31, 23, 59, 61.0, NO_ROWS);
    REFUSES(4, ct_utc_from_calendar, 1961, 7, 31, 23, 59, 59.96, NO_ROWS);
    REFUSES(4, ct_utc_from_calendar, 2000, 1, 1, 24, 0, 0.0, NO_ROWS);
    REFUSES(4, ct_utc_from_calendar, 2000, 1, 1, 0, 60, 0.0, NO_ROWS);
    REFUSES(4, ct_utc_from_calendar, 2000, 1, 1, 0, 0, signalling_float(), NO_ROWS);
}

static void utc_and_tai(void)
{
    GIVES(parts_by(2453750.5, 0.89248263844444442, CT_RULE_WHOLE, 37), ct_utc_to_tai, 2453750.5, 0.892100694, NO_ROWS);
    GIVES(parts_by(2439886.5, 0.50007215724535303, CT_RULE_DRIFTING, 12), ct_utc_to_tai, 2439886.5, 0.5, NO_ROWS);
    REFUSES(6, ct_utc_to_tai, infinite_float(), 0.0, NO_ROWS);
    REFUSES(6, ct_utc_to_tai, 2451545.0, signalling_float(), NO_ROWS);
    REFUSES(6, ct_utc_to_tai, 1e9, 1.0, NO_ROWS);
    REFUSES(6, ct_utc_to_tai, -68571.0, 0.0, NO_ROWS);
    REFUSES(1, ct_utc_to_tai, -31739.5, 0.0, NO_ROWS);
    GIVES(parts(2453750.5, 0.89210069455555563), ct_tai_to_utc, 2453750.5, 0.892482639, NO_ROWS);
    GIVES(parts(2439886.5, 0.49992784267329626), ct_tai_to_utc, 2439886.5, 0.5, NO_ROWS);
    REFUSES(6, ct_tai_to_utc, nan_float(), 0.0, NO_ROWS);
    REFUSES(6, ct_tai_to_utc, infinite_float(), minus_infinite_float(), NO_ROWS);
    REFUSES(6, ct_tai_to_utc, -68571.0, 0.0, NO_ROWS);
    REFUSES(1, ct_tai_to_utc, -31739.5, 0.0, NO_ROWS);
}

static void utc_and_ut1(void)
{
    GIVES(parts_by(2453750.5, 0.89210456089814816, CT_RULE_WHOLE, 37), ct_utc_to_ut1_with_dut1, 2453750.5, 0.892100694, 0.3341, NO_ROWS);
    /* the rule is that of the UTC day, on days whose next one, or whose TAI, has another */
    GIVES(parts_by(2457753.5, 1.0004224537037036, CT_RULE_WHOLE, 40), ct_utc_to_tai, 2457753.5, 86400.5 / 86401.0, NO_ROWS);
    GIVES(parts_by(2439886.5, 0.50000232981479753, CT_RULE_DRIFTING, 12), ct_utc_to_ut1_with_dut1, 2439886.5, 0.5, 0.25, NO_ROWS);
    GIVES(parts_by(2457753.5, 1.0000086805555555, CT_RULE_WHOLE, 40), ct_utc_to_ut1_with_dut1, 2457753.5, 86400.5 / 86401.0, 0.25, NO_ROWS);
    REFUSES(10, ct_utc_to_ut1_with_dut1, nan_float(), 0.0, nan_float(), NO_ROWS);
    REFUSES(10, ct_utc_to_ut1_with_dut1, 2451545.0, 0.0, minus_infinite_float(), NO_ROWS);
    REFUSES(6, ct_utc_to_ut1_with_dut1, nan_float(), 0.0, 0.0, NO_ROWS);
    REFUSES(6, ct_utc_to_ut1_with_dut1, 1e9, 1.0, 0.0, NO_ROWS);
    REFUSES(1, ct_utc_to_ut1_with_dut1, -31739.5, 0.0, 0.0, NO_ROWS);
    GIVES(parts(2453750.5, 0.89210069410185189), ct_ut1_to_utc_with_dut1, 2453750.5, 0.892104561, 0.3341, NO_ROWS);
    REFUSES(10, ct_ut1_to_utc_with_dut1, nan_float(), 0.0, nan_float(), NO_ROWS);
    REFUSES(10, ct_ut1_to_utc_with_dut1, 2451545.0, 0.0, signalling_float(), NO_ROWS);
    REFUSES(9, ct_ut1_to_utc_with_dut1, nan_float(), 0.0, 0.0, NO_ROWS);
    REFUSES(9, ct_ut1_to_utc_with_dut1, 2451545.0, infinite_float(), 0.0, NO_ROWS);
    REFUSES(6, ct_ut1_to_utc_with_dut1, 1e9, 0.0, 0.0, NO_ROWS);
    REFUSES(1, ct_ut1_to_utc_with_dut1, -31738.5, 0.0, 0.0, NO_ROWS);
}

static void utc_texts(void)
{
    GIVES(text("2000-01-01T12:00:00.000"), text_of, 2451545.0, 0.0, NO_ROWS);
    GIVES(text("2000-01-01T12:00:00.123"), text_of, 2451545.0, 0.123456789 / 86400.0, NO_ROWS);
    GIVES(text("2000-01-01T12:34:56.789"), text_of, 2451544.5, 45296.7894 / 86400.0, NO_ROWS);
    GIVES(text("2000-01-01T23:59:59.999"), text_of, 2451544.5, 86399.9994 / 86400.0, NO_ROWS);
    GIVES(text("2000-01-02T00:00:00.000"), text_of, 2451544.5, 86399.9996 / 86400.0, NO_ROWS);
    GIVES(text("2016-12-31T23:59:60.000"), text_of, 2457753.5, 86400.0 / 86401.0, NO_ROWS);
    GIVES(text("2016-12-31T23:59:60.988"), text_of, 2457753.5, 86400.9876 / 86401.0, NO_ROWS);
    GIVES(text("-4799-01-01T00:00:00.000"), text_of, -31738.5, 0.0, NO_ROWS);
    GIVES(text("2733194-11-27T12:00:00.000"), text_of, 1e9, 0.0, NO_ROWS);
    REFUSES(6, text_of, nan_float(), 0.0, NO_ROWS);
    REFUSES(6, text_of, 2451545.0, signalling_float(), NO_ROWS);
    REFUSES(6, text_of, infinite_float(), minus_infinite_float(), NO_ROWS);
    REFUSES(6, text_of, 1e9, 1.0, NO_ROWS);
    REFUSES(6, text_of, -68570.0, 0.0, NO_ROWS);
    REFUSES(6, text_of, -68571.0, 0.0, NO_ROWS);
    REFUSES(1, text_of, -31739.5, 0.0, NO_ROWS);
    told("1959-12-30T12:00:00.000", 0, CT_RULE_ABSENT, -1, 2436932.5, 0.5, NO_ROWS);
    told("1960-01-01T00:00:00.000", 0, CT_RULE_DRIFTING, 0, 2436934.5, 0.0, NO_ROWS);
    told("1972-01-01T00:00:00.000", 0, CT_RULE_WHOLE, 14, 2441317.5, 0.0, NO_ROWS);
    /* the rule of the day before a carry */
    told("2017-01-01T00:00:00.000", 0, CT_RULE_WHOLE, 40, 2457753.5, 86400.9996 / 86401.0, NO_ROWS);
    told("1972-01-01T00:00:00.000", 0, CT_RULE_DRIFTING, 13, 2441316.5, 1.0 - 0x1p-50, NO_ROWS);
    told("", 6, 0, 0, nan_float(), 0.0, NO_ROWS);
    told("", 1, 0, 0, -31739.5, 0.0, NO_ROWS);
    told("", 14, 0, 0, nan_float(), 0.0, ct_no_rows, CT_TABLE_BYTES - 1);
}

/* ---- texts read: tests/reader has the bulk */

static void texts_read(void)
{
    GIVES(six_fields(2000, 1, 1, 12, 34, 56.789), ct_parse_iso8601, TEXT("2000-01-01T12:34:56.789"));
    GIVES(six_fields(0, 2, 29, 0, 0, 60.9999999999999), ct_parse_iso8601, TEXT("\t 0000-02-29 00:00:60.9999999999999\r\n"));
    GIVES(six_fields(9999, 12, 31, 23, 59, 0.0), ct_parse_iso8601, TEXT("9999-12-31T23:59:00"));
    REFUSES(15, ct_parse_iso8601, TEXT("2000-01-01T12:34:56.789Z"));
    REFUSES(15, ct_parse_iso8601, TEXT(""));
    REFUSES(15, ct_parse_iso8601, TEXT("2000-13-01T24:00:00."));
    REFUSES(15, ct_parse_iso8601, TEXT("2000-01-01T00:00:00\0"));
    REFUSES(15, ct_parse_iso8601, TEXT("2000-01-01\t00:00:00"));
    REFUSES(15, ct_parse_iso8601, TEXT("2000-01-01T00:00:00\x1c"));
    REFUSES(16, ct_parse_iso8601, TEXT("2000-13-01T99:99:99.00000000000000"));
    REFUSES(2, ct_parse_iso8601, TEXT("2000-13-01T24:00:00"));
    REFUSES(3, ct_parse_iso8601, TEXT("1900-02-29T24:00:00"));
    REFUSES(4, ct_parse_iso8601, TEXT("2000-01-01T24:00:00"));
    REFUSES(4, ct_parse_iso8601, TEXT("2000-01-01T00:60:00"));
    REFUSES(4, ct_parse_iso8601, TEXT("2000-01-01T00:00:61"));
}

static void utc_texts_read(void)
{
    GIVES((six_fields(2000, 1, 1, 12, 0, 0.0), and_parts(2451544.5, 0.5)), ct_utc_from_iso8601, TEXT("2000-01-01T12:00:00"), NO_ROWS);
    GIVES((six_fields(2016, 12, 31, 23, 59, 60.5), and_parts(2457753.5, 86400.5 / 86401.0)), ct_utc_from_iso8601, TEXT(" 2016-12-31T23:59:60.5Z\n"), NO_ROWS);
    REFUSES(15, ct_utc_from_iso8601, TEXT("2000-01-01T12:00:00 Z"), NO_ROWS);
    REFUSES(15, ct_utc_from_iso8601, TEXT("2000-01-01T12:00:00ZZ"), NO_ROWS);
    REFUSES(15, ct_utc_from_iso8601, TEXT("2000-01-01T12:00:00z"), NO_ROWS);
    REFUSES(16, ct_utc_from_iso8601, TEXT("2000-13-01T99:99:99.00000000000000Z"), NO_ROWS);
    REFUSES(2, ct_utc_from_iso8601, TEXT("2000-00-40T24:00:00Z"), NO_ROWS);
    REFUSES(3, ct_utc_from_iso8601, TEXT("1900-02-29T24:00:00Z"), NO_ROWS);
    REFUSES(4, ct_utc_from_iso8601, TEXT("2015-12-31T23:59:60Z"), NO_ROWS);
    REFUSES(4, ct_utc_from_iso8601, TEXT("1961-07-31T23:59:59.96"), NO_ROWS);
}

/* Each byte value at each place of a text, and in front of it and behind it: 15 exactly where the grammar has no such text. */
static void each_byte(void)
{
    static const char form[] = "dddd-dd-ddTdd:dd:dd.dZ", good[] = "2016-12-31T23:59:60.5Z";
    enum { LENGTH = sizeof good - 1 };
    uint8_t text[LENGTH + 1], out[44];
    int byte, at, digit, blank, due;
    for (byte = 0; byte < 256; byte++) {
        digit = byte >= '0' && byte <= '9';
        blank = (byte >= 9 && byte <= 13) || byte == 32;
        for (at = 0; at < LENGTH; at++) {
            due = form[at] == 'd' ? digit : byte == form[at];
            if (form[at] == 'T') due = due || byte == ' ';
            if (form[at] == 'Z') due = due || digit || blank;
            memcpy(text, good, LENGTH);
            text[at] = (uint8_t)byte;
            check((ct_utc_from_iso8601(text, LENGTH, NO_ROWS, out, sizeof out) != -15) == due, "byte %d at place %d of a UTC text", byte, at);
            if (form[at] != 'Z') check((ct_parse_iso8601(text, LENGTH - 1, out, sizeof out) != -15) == due, "byte %d at place %d of a text", byte, at);
        }
        text[0] = (uint8_t)byte;
        memcpy(text + 1, good, LENGTH);
        check(ct_utc_from_iso8601(text, LENGTH + 1, NO_ROWS, out, sizeof out) == (blank ? 44 : -15), "byte %d in front", byte);
        memcpy(text, good, LENGTH);
        text[LENGTH] = (uint8_t)byte;
        check(ct_utc_from_iso8601(text, LENGTH + 1, NO_ROWS, out, sizeof out) == (blank ? 44 : -15), "byte %d behind", byte);
    }
}

/* Each byte value inserted at each place of a text. `room` has a letter for each place, the one behind the text too: b where a blank may stand, d a digit, e
   either, and a dot where no byte may. */
static void each_insertion(void)
{
    static const struct {
        const char *text, *room;
        int utc;
    } texts[] = {
        {"2016-12-31T23:59:60.5Z", "b...................ddb", 1},
        {"2016-12-31 23:59:60Z", "b...................b", 1},
        {"2016-12-31T23:59:60.5", "b...................de", 0},
        {"2016-12-31 23:59:60", "b..................b", 0},
    };
    size_t i, at, length;
    int byte, digit, blank, due;
    for (i = 0; i < sizeof texts / sizeof texts[0]; i++) {
        length = strlen(texts[i].text);
        check(strlen(texts[i].room) == length + 1, "a letter for each place of %s", texts[i].text);
        for (byte = 0; byte < 256; byte++) {
            digit = byte >= '0' && byte <= '9';
            blank = (byte >= 9 && byte <= 13) || byte == 32;
            for (at = 0; at <= length; at++) {
                uint8_t text[32], out[44];
                const char room = texts[i].room[at];
                memcpy(text, texts[i].text, at);
                text[at] = (uint8_t)byte;
                memcpy(text + at + 1, texts[i].text + at, length - at);
                due = (blank && (room == 'b' || room == 'e')) || (digit && (room == 'd' || room == 'e'));
                check((ct_utc_from_iso8601(text, length + 1, NO_ROWS, out, sizeof out) != -15) == (due || (!texts[i].utc && at == length && byte == 'Z')),
                      "byte %d inserted at place %d of %s, read as UTC", byte, (int)at, texts[i].text);
                if (texts[i].utc) continue;
                check((ct_parse_iso8601(text, length + 1, out, sizeof out) != -15) == due, "byte %d inserted at place %d of %s", byte, (int)at, texts[i].text);
            }
        }
    }
}

/* ---- blocks: tests/c/damaged.c has the bulk */

static void block_calls(void)
{
    uint8_t block[8 + 16] = {1, 0, 0, 0, 1, 0, 0, 0};
    IS(1, ct_block_stamps(block, 24));
    IS(-14, ct_block_stamps(block, 7));
    IS(-14, ct_block_stamps(block, 23));
    block[4] = 2;
    IS(-12, ct_block_stamps(block, 24));
    block[0] = block[4] = 0xa1;
    block[1] = block[5] = 0x0f;
    IS(-13, ct_block_stamps(block, 24));
    block[4] = 0xa2;
    IS(-12, ct_block_stamps(block, 24));
    for (room = 0; room <= ROOM; room++) {
        text("block refused 12\n");
        judge("ct_listing_part", room < 33 ? 11 : 0, ct_listing_part(block, 24, 0, NO_ROWS, fresh(), room));
        wanted_length = 0;
        judge("ct_listing_part past the end", room < 33 ? 11 : 0, ct_listing_part(block, 24, 1, NO_ROWS, fresh(), room));
    }
}

/* ---- reading bytes: each byte has its place, and the highest bit is the sign */

static void read_numbers(void)
{
    static const uint8_t BYTES[] = {0x78, 0x56, 0x34, 0x12, 0xf0, 0xde, 0xbc, 0x9a};
    static const uint64_t PATTERNS[] = {0, 0x78, 0x5678, 0x345678, 0x12345678, 0xf012345678, 0xdef012345678,
                                        0xbcdef012345678, 0x9abcdef012345678};
    uint8_t one[4];
    int i;
    for (i = 0; i <= 8; i++) check(ct_pattern_at(BYTES, i) == PATTERNS[i], "the number of %d bytes", i);
    IS(0x12345678, ct_int_at(BYTES));
    IS(-0x65432110, ct_int_at(BYTES + 4));
    for (i = 0; i < 4; i++) {
        memset(one, 0, sizeof one);
        one[i] = 0x40;
        check(ct_int_at(one) == (int32_t)0x40 << 8 * i, "0x40 in byte %d", i);
        memset(one, 0xff, sizeof one);
        one[i] = 0xbf;
        check(ct_int_at(one) == -1 - ((int32_t)0x40 << 8 * i), "all ones but 0x40 in byte %d", i);
    }
    check(ct_opaque_bits(ct_float_at(BYTES)) == PATTERNS[8], "the float of 8 bytes");
}

static void read_answers(void)
{
    uint8_t out[20];
    IS(12, ct_next_calendar_day(-4799, 12, 31, out, sizeof out));
    IS(-4798, ct_int_at(out));
    IS(1, ct_int_at(out + 4));
    IS(1, ct_int_at(out + 8));
    IS(12, ct_next_calendar_day(2147483646, 10, 30, out, sizeof out));
    IS(2147483646, ct_int_at(out));
    IS(10, ct_int_at(out + 4));
    IS(31, ct_int_at(out + 8));
    IS(20, ct_julian_to_calendar(1e9, 0.0, out, sizeof out));
    IS(2733194, ct_int_at(out));
    IS(11, ct_int_at(out + 4));
    IS(27, ct_int_at(out + 8));
    IS_FLOAT(0.5, ct_float_at(out + 12));
}

int main(void)
{
    version();
    calendar_calls();
    calendar_of_dates();
    date_calls();
    same_stamps();
    gps_weeks();
    offset_calls();
    plain_scales();
    scales_with_offset();
    utc_of_fields();
    utc_and_tai();
    utc_and_ut1();
    utc_texts();
    text_form_calls();
    texts_read();
    utc_texts_read();
    each_byte();
    each_insertion();
    block_calls();
    read_numbers();
    read_answers();
    reason_calls();
    since_launch_calls();
    tick_calls();
    reading_calls();
    table_calls();
    standby_calls();
    line_up_calls();
    run_bytes_calls();
    summary_calls();
    line_listing_calls();
    run_calls();
    formula_run_calls();
    text_run_calls();
    date_run_calls();
    walk_calls();
    return summary("calls");
}
