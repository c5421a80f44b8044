/* The supplied Rust's calls, in the shape of the port's: see rust_calls.rs. */
#include <stddef.h>
#include <stdint.h>

int64_t rs_is_leap_year(int32_t year);
int64_t rs_days_in_month(int32_t year, int32_t month);
int64_t rs_validate_calendar_date(int32_t year, int32_t month, int32_t day);
int64_t rs_calendar_to_julian(int32_t year, int32_t month, int32_t day, uint8_t *out, size_t out_len);
int64_t rs_next_calendar_day(int32_t year, int32_t month, int32_t day, uint8_t *out, size_t out_len);
int64_t rs_leap_at_end_of_day(int32_t year, int32_t month, int32_t day, uint8_t *out, size_t out_len);
int64_t rs_get_tai_utc_offset(int32_t year, int32_t month, int32_t day, double fraction, uint8_t *out,
                              size_t out_len);
int64_t rs_julian_to_calendar(double jd1, double jd2, uint8_t *out, size_t out_len);
int64_t rs_from_calendar(int32_t year, uint8_t month, uint8_t day, uint8_t hour, uint8_t minute,
                         double second, uint8_t *out, size_t out_len);
double rs_to_f64(double jd1, double jd2);
int64_t rs_add_days(double jd1, double jd2, double days, uint8_t *out, size_t out_len);
int64_t rs_add_seconds(double jd1, double jd2, double seconds, uint8_t *out, size_t out_len);
int64_t rs_from_unix_time(int64_t seconds, uint32_t nanos, uint8_t *out, size_t out_len);
double rs_to_julian_year(double jd1, double jd2);
int64_t rs_from_julian_year(double year, uint8_t *out, size_t out_len);
int64_t rs_equal(double jd1, double jd2, double other1, double other2);
double rs_difference(double jd1, double jd2, double other1, double other2);
int64_t rs_utc_from_calendar(int32_t year, uint8_t month, uint8_t day, uint8_t hour, uint8_t minute,
                             double second, uint8_t *out, size_t out_len);
int64_t rs_utc_new(int64_t seconds, uint32_t nanos, uint8_t *out, size_t out_len);
int64_t rs_to_iso8601(double jd1, double jd2, uint8_t *out, size_t out_len);
int64_t rs_parse_iso8601(const uint8_t *text, size_t text_len, uint8_t *out, size_t out_len);
int64_t rs_utc_from_iso8601(const uint8_t *text, size_t text_len, uint8_t *out, size_t out_len); /* the date alone */

int64_t rs_gps_to_tai(double jd1, double jd2, uint8_t *out, size_t out_len);
int64_t rs_tai_to_gps(double jd1, double jd2, uint8_t *out, size_t out_len);
int64_t rs_tai_to_tt(double jd1, double jd2, uint8_t *out, size_t out_len);
int64_t rs_tt_to_tai(double jd1, double jd2, uint8_t *out, size_t out_len);
int64_t rs_tai_to_tcg(double jd1, double jd2, uint8_t *out, size_t out_len);
int64_t rs_tcg_to_tai(double jd1, double jd2, uint8_t *out, size_t out_len);
int64_t rs_tt_to_tcg(double jd1, double jd2, uint8_t *out, size_t out_len);
int64_t rs_tcg_to_tt(double jd1, double jd2, uint8_t *out, size_t out_len);
int64_t rs_tcb_to_tdb(double jd1, double jd2, uint8_t *out, size_t out_len);
int64_t rs_tdb_to_tcb(double jd1, double jd2, uint8_t *out, size_t out_len);
int64_t rs_utc_to_tai(double jd1, double jd2, uint8_t *out, size_t out_len);
int64_t rs_tai_to_utc(double jd1, double jd2, uint8_t *out, size_t out_len);

int64_t rs_tt_to_tdb_with_offset(double jd1, double jd2, double seconds, uint8_t *out, size_t out_len);
int64_t rs_tdb_to_tt_with_offset(double jd1, double jd2, double seconds, uint8_t *out, size_t out_len);
int64_t rs_ut1_to_tai_with_offset(double jd1, double jd2, double seconds, uint8_t *out, size_t out_len);
int64_t rs_tai_to_ut1_with_offset(double jd1, double jd2, double seconds, uint8_t *out, size_t out_len);
int64_t rs_ut1_to_tt_with_delta_t(double jd1, double jd2, double seconds, uint8_t *out, size_t out_len);
int64_t rs_tt_to_ut1_with_delta_t(double jd1, double jd2, double seconds, uint8_t *out, size_t out_len);
int64_t rs_utc_to_ut1_with_dut1(double jd1, double jd2, double dut1, uint8_t *out, size_t out_len);
int64_t rs_ut1_to_utc_with_dut1(double jd1, double jd2, double dut1, uint8_t *out, size_t out_len);

/* Year, month, day and the milliseconds of the day that the text shows. */
int64_t rs_text_fields(double jd1, double jd2, int32_t fields[4]);
