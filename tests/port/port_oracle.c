/* A filter over the port's C interface: requests on standard input, answers on
   standard output, 64 bytes each. tests/calls.txt lists the calls; one that the
   port does not offer to C is answered with 255.

   Each call that fills a lent buffer is asked twice: first with one byte too
   few, where it must say 11 or what it refuses anyway, and then with its own
   size. Bytes that it must leave are looked at both times; the filter stops
   with status 3 where one has changed. */
#include "../inputs/filter.h"
#include "celestial_time.h"
#include <stdlib.h>

/* tests/floats says what these are; the archive of the crate floats_c has them */
double ct_floor(double), ct_ceil(double), ct_trunc(double), ct_round(double);
double ct_fabs(double), ct_nearest_int(double);
_Bool ct_is_finite(double);
int64_t ct_saturating_i64(double);

enum { SPARE = 8 };

/* the table of each call that reads TAI-UTC */
#define NO_ROWS ct_no_rows, CT_TABLE_BYTES

/* A code: a value, or minus the refusal's number. */
static record coded(int64_t code) { return code < 0 ? refused(-code) : whole(code); }

/* ---- the lent buffer */

static uint8_t buffer[ROOM + SPARE];
static int64_t short_code;

static uint8_t *lent(void)
{
    memset(buffer, UNTOUCHED, sizeof buffer);
    return buffer;
}

static void must_stand(size_t from, const char *name)
{
    for (size_t i = from; i < sizeof buffer; i++)
        if (buffer[i] != UNTOUCHED) {
            fprintf(stderr, "%s: byte %zu of the buffer has changed\n", name, i);
            exit(3);
        }
}

static void too_short(const char *name, int64_t code)
{
    must_stand(0, name);
    short_code = code;
}

static int64_t filled(const char *name, size_t size, int64_t code)
{
    int64_t expected = code < 0 ? code : -11;
    must_stand(code < 0 ? 0 : size, name);
    if (short_code != expected || (code >= 0 && code != (int64_t)size)) {
        fprintf(stderr, "%s: codes %lld and %lld\n", name, (long long)short_code, (long long)code);
        exit(3);
    }
    return code;
}

#define FILL(size, name, ...) \
    (too_short(#name, name(__VA_ARGS__, lent(), (size) - 1)), \
     filled(#name, size, name(__VA_ARGS__, lent(), size)))

static uint64_t read_bits(size_t at)
{
    uint64_t b = 0;
    for (int i = 7; i >= 0; i--) b = b << 8 | buffer[at + (size_t)i];
    return b;
}

static uint64_t read_signed(size_t at)
{
    uint32_t b = 0;
    for (int i = 3; i >= 0; i--) b = b << 8 | buffer[at + (size_t)i];
    return (uint64_t)(int64_t)(int32_t)b;
}

static record one_float(int64_t code)
{
    return code < 0 ? refused(-code) : (record){{0, read_bits(0)}};
}

static record two_floats(int64_t code)
{
    return code < 0 ? refused(-code) : (record){{0, read_bits(0), read_bits(8)}};
}

static record date(int64_t code)
{
    return code < 0 ? refused(-code) : (record){{0, read_signed(0), read_signed(4), read_signed(8)}};
}

static record date_and_float(int64_t code)
{
    record r = date(code);
    if (code >= 0) r.word[4] = read_bits(12);
    return r;
}

/* ---- layer by layer */

static record floats(int call, double x)
{
    switch (call) {
    case 1: return one(ct_floor(x));
    case 2: return one(ct_ceil(x));
    case 3: return one(ct_trunc(x));
    case 4: return one(ct_round(x));
    case 5: return one(ct_fabs(x));
    case 6: return coded(ct_is_finite(x));
    case 7: return whole(ct_saturating_i64(x));
    case 8: return one(ct_nearest_int(x));
    }
    return none();
}

static record calendar(int call, const record *r)
{
    int32_t year = (int32_t)n(r, 0), month = (int32_t)n(r, 1), day = (int32_t)n(r, 2);
    switch (call) {
    case 20: return coded(ct_is_leap_year(year));
    case 21: return coded(ct_days_in_month(year, month));
    case 22: return coded(ct_validate_calendar_date(year, month, day));
    case 23: return date(FILL(12, ct_next_calendar_day, year, month, day));
    case 24: return two_floats(FILL(16, ct_calendar_to_julian, year, month, day));
    case 25: return date_and_float(FILL(20, ct_julian_to_calendar, f(r, 0), f(r, 1)));
    }
    return none();
}

static record julian(int call, const record *r)
{
    switch (call) {
    case 46: return one(ct_to_f64(f(r, 0), f(r, 1)));
    case 47: return two_floats(FILL(16, ct_add_days, f(r, 0), f(r, 1), f(r, 2)));
    case 48: return two_floats(FILL(16, ct_add_seconds, f(r, 0), f(r, 1), f(r, 2)));
    case 49: return two_floats(FILL(16, ct_from_unix_time, n(r, 0), (uint32_t)n(r, 1)));
    case 50:
        return two_floats(FILL(16, ct_from_calendar, (int32_t)n(r, 0), (uint8_t)n(r, 1),
                               (uint8_t)n(r, 2), (uint8_t)n(r, 3), (uint8_t)n(r, 4), f(r, 5)));
    case 51: return one(ct_to_julian_year(f(r, 0), f(r, 1)));
    case 52: return two_floats(FILL(16, ct_from_julian_year, f(r, 0)));
    case 53: return coded(ct_equal(f(r, 0), f(r, 1), f(r, 2), f(r, 3)));
    case 54: return one(ct_difference(f(r, 0), f(r, 1), f(r, 2), f(r, 3)));
    }
    return none();
}

static record tai_utc(int call, const record *r)
{
    int32_t year = (int32_t)n(r, 0), month = (int32_t)n(r, 1), day = (int32_t)n(r, 2);
    switch (call) {
    case 60: return one_float(FILL(16, ct_get_tai_utc_offset, year, month, day, f(r, 3), NO_ROWS));
    case 62: return one_float(FILL(8, ct_leap_at_end_of_day, year, month, day, NO_ROWS));
    }
    return none();
}

static record scales(int call, const record *r)
{
    double jd1 = f(r, 0), jd2 = f(r, 1), seconds = f(r, 2);
    switch (call) {
    case 100: return two_floats(FILL(16, ct_gps_to_tai, jd1, jd2));
    case 101: return two_floats(FILL(16, ct_tai_to_gps, jd1, jd2));
    case 102: return two_floats(FILL(16, ct_tai_to_tt, jd1, jd2));
    case 103: return two_floats(FILL(16, ct_tt_to_tai, jd1, jd2));
    case 104: return two_floats(FILL(16, ct_tai_to_tcg, jd1, jd2));
    case 105: return two_floats(FILL(16, ct_tcg_to_tai, jd1, jd2));
    case 106: return two_floats(FILL(16, ct_tt_to_tcg, jd1, jd2));
    case 107: return two_floats(FILL(16, ct_tcg_to_tt, jd1, jd2));
    case 108: return two_floats(FILL(16, ct_tcb_to_tdb, jd1, jd2));
    case 109: return two_floats(FILL(16, ct_tdb_to_tcb, jd1, jd2));
    case 110: return two_floats(FILL(16, ct_tt_to_tdb_with_offset, jd1, jd2, seconds));
    case 111: return two_floats(FILL(16, ct_tdb_to_tt_with_offset, jd1, jd2, seconds));
    case 112: return two_floats(FILL(16, ct_ut1_to_tai_with_offset, jd1, jd2, seconds));
    case 113: return two_floats(FILL(16, ct_tai_to_ut1_with_offset, jd1, jd2, seconds));
    case 114: return two_floats(FILL(16, ct_ut1_to_tt_with_delta_t, jd1, jd2, seconds));
    case 115: return two_floats(FILL(16, ct_tt_to_ut1_with_delta_t, jd1, jd2, seconds));
    }
    return none();
}

/* The text goes into the first `room` of 32 bytes; all 32 are shown. */
static record text(double jd1, double jd2, size_t room)
{
    uint8_t *out = lent();
    uint8_t rule[CT_RULE_BYTES];
    int64_t code = ct_to_iso8601(jd1, jd2, NO_ROWS, out, room, rule, sizeof rule);
    must_stand(code < 0 ? 0 : (size_t)code, "ct_to_iso8601");
    record r = coded(code);
    for (int i = 0; i < 4; i++) r.word[2 + i] = read_bits((size_t)(8 * i));
    return r;
}

static record utc(int call, const record *r)
{
    double jd1 = f(r, 0), jd2 = f(r, 1), dut1 = f(r, 2);
    switch (call) {
    case 120: return two_floats(FILL(16, ct_utc_new, n(r, 0), (uint32_t)n(r, 1), NO_ROWS));
    case 121:
        return two_floats(FILL(16, ct_utc_from_calendar, (int32_t)n(r, 0), (uint8_t)n(r, 1),
                               (uint8_t)n(r, 2), (uint8_t)n(r, 3), (uint8_t)n(r, 4), f(r, 5), NO_ROWS));
    case 122: return text(jd1, jd2, (size_t)n(r, 2));
    case 123: return two_floats(FILL(24, ct_utc_to_tai, jd1, jd2, NO_ROWS));
    case 124: return two_floats(FILL(16, ct_tai_to_utc, jd1, jd2, NO_ROWS));
    case 125: return two_floats(FILL(24, ct_utc_to_ut1_with_dut1, jd1, jd2, dut1, NO_ROWS));
    case 126: return two_floats(FILL(16, ct_ut1_to_utc_with_dut1, jd1, jd2, dut1, NO_ROWS));
    }
    return none();
}

int main(void) { return run_filter(); }
