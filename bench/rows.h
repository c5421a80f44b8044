/* What is measured: the rows of the table, each a call and its inputs, and how each library is called. */
#include "loops.h"

enum { PORT, RUST, ERFA, LIBRARIES };

static const char *const library[] = {"port", "Rust", "ERFA"};

typedef struct {
    void (*loop)(any *);
    any *call;
} side;

typedef struct {
    const char *name;
    set inputs;
    side by[LIBRARIES];
} row;

#define BOTH(loop, name) {loop, (any *)ct_##name}, {loop, (any *)rs_##name}
#define LENT(kind, name) {none_##kind##_loop, (any *)ct_##name}, {kind##_loop, (any *)rs_##name}
#define SIXTEEN(kind, name) {sixteen_##kind##_loop, (any *)ct_##name}, {kind##_loop, (any *)rs_##name}, NOT_IN_ERFA
#define SIXTEEN_TEXT {sixteen_text_loop, (any *)ct_to_iso8601}, {jd_loop, (any *)rs_to_iso8601}, NOT_IN_ERFA
#define BY_ERFA(loop, name) {loop, (any *)name}
#define NOT_IN_ERFA {NULL, NULL}
#define PORT_ALONE(loop, name) {loop, (any *)ct_##name}, {NULL, NULL}, {NULL, NULL}
#define TEXT(kind, set, rust, erfa) \
    {"UTC text, " kind, set, {{none_text_loop, (any *)ct_to_iso8601}, {jd_loop, (any *)rust}, {jd_loop, (any *)erfa}}}
#define LISTING(kind, set, rust, erfa) \
    {"listing per stamp, " kind, set, \
     {{port_listing_loop, NULL}, {driver_listing_loop, (any *)rust}, {driver_listing_loop, (any *)erfa}}}
#define RUN(from, to) {from##_##to##_run_loop, NULL}, {singles_run_loop, (any *)rs_##from##_to_##to}
#define PORT_RUN_ON(kind, set, name) {"run per stamp, " kind, set, {{name##_run_loop, NULL}, NOT_IN_ERFA, NOT_IN_ERFA}}
#define PORT_RUN(kind, name) \
    PORT_RUN_ON(kind, LEAP_SECOND_YEARS, name), PORT_RUN_ON(kind, ONE_DAY, name), PORT_RUN_ON(kind, LAST_SECONDS, name)
#define UTC_READ(rows) {rows##_read_utc_loop, (any *)ct_utc_from_iso8601}, {rust_read_utc_loop, (any *)rs_utc_from_iso8601}
#define SENTENCE(kind, name) {"sentence, " kind, LEAP_SECOND_YEARS, {{name##_sentence_loop, NULL}, NOT_IN_ERFA, NOT_IN_ERFA}}
#define OWN "library's own digits"
#define BY_HAND "digits by hand"

static const row rows[] = {
    {"is_leap_year", LEAP_SECOND_YEARS, {BOTH(year_loop, is_leap_year), NOT_IN_ERFA}},
    {"days_in_month", LEAP_SECOND_YEARS, {BOTH(month_loop, days_in_month), NOT_IN_ERFA}},
    {"validate_calendar_date", LEAP_SECOND_YEARS, {BOTH(validate_loop, validate_calendar_date), BY_ERFA(erfa_validate_loop, eraCal2jd)}},
    {"calendar_to_julian", LEAP_SECOND_YEARS, {BOTH(date_loop, calendar_to_julian), BY_ERFA(erfa_date_loop, eraCal2jd)}},
    {"julian_to_calendar", LEAP_SECOND_YEARS, {BOTH(jd_loop, julian_to_calendar), BY_ERFA(erfa_calendar_loop, eraJd2cal)}},
    {"next_calendar_day", LEAP_SECOND_YEARS, {BOTH(date_loop, next_calendar_day), BY_ERFA(erfa_next_loop, erfa_next_day)}},
    {"from_calendar", LEAP_SECOND_YEARS, {BOTH(fields_loop, from_calendar), BY_ERFA(erfa_tai_fields_loop, eraDtf2d)}},
    {"to_f64", LEAP_SECOND_YEARS, {BOTH(number_loop, to_f64), NOT_IN_ERFA}},
    {"add_days", LEAP_SECOND_YEARS, {BOTH(add_days_loop, add_days), NOT_IN_ERFA}},
    {"add_seconds", LEAP_SECOND_YEARS, {BOTH(add_seconds_loop, add_seconds), NOT_IN_ERFA}},
    {"from_unix_time", LEAP_SECOND_YEARS, {BOTH(unix_loop, from_unix_time), NOT_IN_ERFA}},
    {"to_julian_year", LEAP_SECOND_YEARS, {BOTH(number_loop, to_julian_year), BY_ERFA(number_loop, eraEpj)}},
    {"from_julian_year", LEAP_SECOND_YEARS, {BOTH(julian_year_loop, from_julian_year), BY_ERFA(erfa_julian_year_loop, eraEpj2jd)}},
    {"equal", LEAP_SECOND_YEARS, {BOTH(equal_loop, equal), NOT_IN_ERFA}},
    {"compare", LEAP_SECOND_YEARS, {PORT_ALONE(equal_loop, compare)}},
    {"same_stamp", LEAP_SECOND_YEARS, {PORT_ALONE(same_loop, same_stamp)}},
    {"difference", LEAP_SECOND_YEARS, {BOTH(difference_loop, difference), NOT_IN_ERFA}},
    {"get_tai_utc_offset", LEAP_SECOND_YEARS, {LENT(offset, get_tai_utc_offset), BY_ERFA(erfa_offset_loop, eraDat)}},
    {"get_tai_utc_offset", DRIFT_YEARS, {LENT(offset, get_tai_utc_offset), BY_ERFA(erfa_offset_loop, eraDat)}},
    {"leap_at_end_of_day", LEAP_SECOND_YEARS, {LENT(date, leap_at_end_of_day), BY_ERFA(erfa_leap_loop, erfa_leap)}},
    {"GPS to TAI", LEAP_SECOND_YEARS, {BOTH(jd_loop, gps_to_tai), NOT_IN_ERFA}},
    {"TAI to GPS", LEAP_SECOND_YEARS, {BOTH(jd_loop, tai_to_gps), NOT_IN_ERFA}},
    {"GPS date from week", LEAP_SECOND_YEARS, {PORT_ALONE(week_loop, gps_from_week)}},
    {"GPS week of date", LEAP_SECOND_YEARS, {PORT_ALONE(gps_loop, gps_to_week)}},
    {"GPS week of ten bits", LEAP_SECOND_YEARS, {PORT_ALONE(full_week_loop, gps_full_week)}},
    {"TAI to TT", LEAP_SECOND_YEARS, {BOTH(jd_loop, tai_to_tt), BY_ERFA(erfa_jd_loop, eraTaitt)}},
    {"TT to TAI", LEAP_SECOND_YEARS, {BOTH(jd_loop, tt_to_tai), BY_ERFA(erfa_jd_loop, eraTttai)}},
    {"TAI to TCG", LEAP_SECOND_YEARS, {BOTH(jd_loop, tai_to_tcg), BY_ERFA(erfa_jd_loop, erfa_tai_to_tcg)}},
    {"TCG to TAI", LEAP_SECOND_YEARS, {BOTH(jd_loop, tcg_to_tai), BY_ERFA(erfa_jd_loop, erfa_tcg_to_tai)}},
    {"TT to TCG", LEAP_SECOND_YEARS, {BOTH(jd_loop, tt_to_tcg), BY_ERFA(erfa_jd_loop, eraTttcg)}},
    {"TCG to TT", LEAP_SECOND_YEARS, {BOTH(jd_loop, tcg_to_tt), BY_ERFA(erfa_jd_loop, eraTcgtt)}},
    {"TCB to TDB", LEAP_SECOND_YEARS, {BOTH(jd_loop, tcb_to_tdb), BY_ERFA(erfa_jd_loop, eraTcbtdb)}},
    {"TDB to TCB", LEAP_SECOND_YEARS, {BOTH(jd_loop, tdb_to_tcb), BY_ERFA(erfa_jd_loop, eraTdbtcb)}},
    {"TT to TDB", LEAP_SECOND_YEARS, {BOTH(jd_offset_loop, tt_to_tdb_with_offset), BY_ERFA(erfa_jd_offset_loop, eraTttdb)}},
    {"TDB to TT", LEAP_SECOND_YEARS, {BOTH(jd_offset_loop, tdb_to_tt_with_offset), BY_ERFA(erfa_jd_offset_loop, eraTdbtt)}},
    {"UT1 to TAI", LEAP_SECOND_YEARS, {BOTH(jd_offset_loop, ut1_to_tai_with_offset), BY_ERFA(erfa_jd_offset_loop, eraUt1tai)}},
    {"TAI to UT1", LEAP_SECOND_YEARS, {BOTH(jd_offset_loop, tai_to_ut1_with_offset), BY_ERFA(erfa_jd_offset_loop, eraTaiut1)}},
    {"UT1 to TT", LEAP_SECOND_YEARS, {BOTH(jd_offset_loop, ut1_to_tt_with_delta_t), BY_ERFA(erfa_jd_offset_loop, eraUt1tt)}},
    {"TT to UT1", LEAP_SECOND_YEARS, {BOTH(jd_offset_loop, tt_to_ut1_with_delta_t), BY_ERFA(erfa_jd_offset_loop, eraTtut1)}},
    {"UTC to TAI", LEAP_SECOND_YEARS, {LENT(jd, utc_to_tai), BY_ERFA(erfa_jd_loop, eraUtctai)}},
    {"UTC to TAI", DRIFT_YEARS, {LENT(jd, utc_to_tai), BY_ERFA(erfa_jd_loop, eraUtctai)}},
    {"UTC to TAI", MONTH_ENDS, {LENT(jd, utc_to_tai), BY_ERFA(erfa_jd_loop, eraUtctai)}},
    {"TAI to UTC", LEAP_SECOND_YEARS, {LENT(jd, tai_to_utc), BY_ERFA(erfa_jd_loop, eraTaiutc)}},
    {"TAI to UTC", DRIFT_YEARS, {LENT(jd, tai_to_utc), BY_ERFA(erfa_jd_loop, eraTaiutc)}},
    {"UTC to UT1", LEAP_SECOND_YEARS, {LENT(jd_offset, utc_to_ut1_with_dut1), BY_ERFA(erfa_jd_offset_loop, eraUtcut1)}},
    {"UT1 to UTC", LEAP_SECOND_YEARS, {LENT(jd_offset, ut1_to_utc_with_dut1), BY_ERFA(erfa_jd_offset_loop, eraUt1utc)}},
    {"UTC::new", LEAP_SECOND_YEARS, {LENT(unix, utc_new), BY_ERFA(erfa_unix_loop, erfa_from_unix)}},
    {"utc_from_calendar", LEAP_SECOND_YEARS, {LENT(fields, utc_from_calendar), BY_ERFA(erfa_utc_fields_loop, eraDtf2d)}},
    TEXT(OWN, LEAP_SECOND_YEARS, rs_to_iso8601, erfa_text),
    TEXT(OWN, DRIFT_YEARS, rs_to_iso8601, erfa_text),
    TEXT(OWN, MONTH_ENDS, rs_to_iso8601, erfa_text),
    TEXT(BY_HAND, LEAP_SECOND_YEARS, rust_text_by_hand, erfa_text_by_hand),
    TEXT(BY_HAND, DRIFT_YEARS, rust_text_by_hand, erfa_text_by_hand),
    TEXT(BY_HAND, MONTH_ENDS, rust_text_by_hand, erfa_text_by_hand),
    {"UTC text, halves to even", LEAP_SECOND_YEARS, {PORT_ALONE(none_text_loop, to_iso8601_half_even)}},
    {"UTC text, halves to even", DRIFT_YEARS, {PORT_ALONE(none_text_loop, to_iso8601_half_even)}},
    {"UTC text, halves to even", MONTH_ENDS, {PORT_ALONE(none_text_loop, to_iso8601_half_even)}},
    {"UTC text, expanded years", LEAP_SECOND_YEARS, {PORT_ALONE(none_text_loop, to_iso8601_expanded)}},
    {"UTC text, expanded years", DRIFT_YEARS, {PORT_ALONE(none_text_loop, to_iso8601_expanded)}},
    {"UTC text, expanded years", MONTH_ENDS, {PORT_ALONE(none_text_loop, to_iso8601_expanded)}},
    {"get_tai_utc_offset, 16 announced rows", LEAP_SECOND_YEARS, {SIXTEEN(offset, get_tai_utc_offset)}},
    {"leap_at_end_of_day, 16 announced rows", LEAP_SECOND_YEARS, {SIXTEEN(date, leap_at_end_of_day)}},
    {"UTC to TAI, 16 announced rows", LEAP_SECOND_YEARS, {SIXTEEN(jd, utc_to_tai)}},
    {"TAI to UTC, 16 announced rows", LEAP_SECOND_YEARS, {SIXTEEN(jd, tai_to_utc)}},
    {"UTC to UT1, 16 announced rows", LEAP_SECOND_YEARS, {SIXTEEN(jd_offset, utc_to_ut1_with_dut1)}},
    {"UT1 to UTC, 16 announced rows", LEAP_SECOND_YEARS, {SIXTEEN(jd_offset, ut1_to_utc_with_dut1)}},
    {"UTC::new, 16 announced rows", LEAP_SECOND_YEARS, {SIXTEEN(unix, utc_new)}},
    {"utc_from_calendar, 16 announced rows", LEAP_SECOND_YEARS, {SIXTEEN(fields, utc_from_calendar)}},
    {"UTC text, 16 announced rows", LEAP_SECOND_YEARS, {SIXTEEN_TEXT}},
    {"check_table", LEAP_SECOND_YEARS, {{check_table_loop, (any *)ct_check_table}, {NULL, NULL}, {NULL, NULL}}},
    {"place_ticks per tick, rising", LEAP_SECOND_YEARS, {{rising_ticks_loop, NULL}, NOT_IN_ERFA, NOT_IN_ERFA}},
    {"place_ticks per tick, by chance", LEAP_SECOND_YEARS, {{random_ticks_loop, NULL}, NOT_IN_ERFA, NOT_IN_ERFA}},
    {"place_readings per reading, rising", LEAP_SECOND_YEARS, {{rising_readings_loop, NULL}, NOT_IN_ERFA, NOT_IN_ERFA}},
    {"place_readings per reading, by chance", LEAP_SECOND_YEARS, {{random_readings_loop, NULL}, NOT_IN_ERFA, NOT_IN_ERFA}},
    {"block_stamps", LEAP_SECOND_YEARS, {PORT_ALONE(stamps_loop, block_stamps)}},
    {"run per stamp, GPS to TAI", LEAP_SECOND_YEARS, {RUN(gps, tai), NOT_IN_ERFA}},
    {"run per stamp, TAI to TT", LEAP_SECOND_YEARS, {RUN(tai, tt), BY_ERFA(erfa_run_loop, eraTaitt)}},
    {"run per stamp, TT to TCG", LEAP_SECOND_YEARS, {RUN(tt, tcg), BY_ERFA(erfa_run_loop, eraTttcg)}},
    {"run per stamp, TCB to TDB", LEAP_SECOND_YEARS, {RUN(tcb, tdb), BY_ERFA(erfa_run_loop, eraTcbtdb)}},
    {"run per stamp, TT to TDB", LEAP_SECOND_YEARS,
     {{tt_tdb_run_loop, NULL}, {singles_offset_run_loop, (any *)rs_tt_to_tdb_with_offset}, BY_ERFA(erfa_offset_run_loop, eraTttdb)}},
    {"run per stamp, UTC to TAI", LEAP_SECOND_YEARS, {RUN(utc, tai), BY_ERFA(erfa_run_loop, eraUtctai)}},
    {"run per stamp, TAI to UTC", LEAP_SECOND_YEARS, {RUN(tai, utc), BY_ERFA(erfa_run_loop, eraTaiutc)}},
    {"run per stamp, UTC to TAI", ONE_DAY, {RUN(utc, tai), BY_ERFA(erfa_run_loop, eraUtctai)}},
    {"run per stamp, UTC to TAI", LAST_SECONDS, {RUN(utc, tai), BY_ERFA(erfa_run_loop, eraUtctai)}},
    {"run per stamp, TAI to UTC", ONE_DAY, {RUN(tai, utc), BY_ERFA(erfa_run_loop, eraTaiutc)}},
    {"run per stamp, TAI to UTC", LAST_SECONDS, {RUN(tai, utc), BY_ERFA(erfa_run_loop, eraTaiutc)}},
    PORT_RUN("UTC to GPS", utc_gps),
    PORT_RUN("GPS to UTC", gps_utc),
    PORT_RUN("UTC to TT", utc_tt),
    PORT_RUN("TT to UTC", tt_utc),
    PORT_RUN("UTC to TCG", utc_tcg),
    PORT_RUN("TCG to UTC", tcg_utc),
    PORT_RUN("text", text),
    PORT_RUN("text, halves to even", even_text),
    PORT_RUN("text, expanded years", expanded_text),
    {"run per stamp, TT to GPS", LEAP_SECOND_YEARS, {{tt_gps_run_loop, NULL}, NOT_IN_ERFA, NOT_IN_ERFA}},
    PORT_RUN("UTC to TAI, 16 announced rows", sixteen_utc_tai),
    PORT_RUN("TAI to UTC, 16 announced rows", sixteen_tai_utc),
    PORT_RUN("UTC to GPS, 16 announced rows", sixteen_utc_gps),
    PORT_RUN("text, 16 announced rows", sixteen_text),
    {"parse_iso8601", LEAP_SECOND_YEARS, {BOTH(read_loop, parse_iso8601), NOT_IN_ERFA}},
    {"UTC of a text", LEAP_SECOND_YEARS, {UTC_READ(none), NOT_IN_ERFA}},
    {"run per text, UTC of a text", LEAP_SECOND_YEARS, {{dates_run_loop, NULL}, {rust_dates_loop, (any *)rs_utc_from_iso8601}, NOT_IN_ERFA}},
    {"run per text, UTC of a text", ONE_DAY, {{dates_run_loop, NULL}, {rust_dates_loop, (any *)rs_utc_from_iso8601}, NOT_IN_ERFA}},
    {"UTC of a text, 16 announced rows", LEAP_SECOND_YEARS, {UTC_READ(sixteen), NOT_IN_ERFA}},
    SENTENCE("number alone", reason),
    SENTENCE("a day", date_reason),
    SENTENCE("a second", time_reason),
    SENTENCE("a sum of parts", parts_reason),
    SENTENCE("a fraction", float_reason),
    SENTENCE("nanoseconds", count_reason),
    SENTENCE("a block's length", block_reason),
    LISTING(OWN, LEAP_SECOND_YEARS, rs_to_iso8601, erfa_text),
    LISTING(BY_HAND, LEAP_SECOND_YEARS, rust_text_by_hand, erfa_text_by_hand),
};

enum { ROWS = sizeof rows / sizeof rows[0] };
