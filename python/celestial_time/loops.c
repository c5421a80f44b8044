/* Loops over the calls of include/celestial_time.h, for the Python package: one call for each stamp of an array, which from Python would take a microsecond.
   Where there is a call for a whole run, the package makes that one itself, and no loop is here. They stand beside the archive in the shared library that the package
   loads (python/make). The calls are proved; these loops are tested (tests/python) and not proved, and decide nothing: what a call answers goes into the places of
   its stamp, and what it refuses by goes into the stamp's number.

   A loop is named after the shape of its calls, and `call` is the call. `n` stamps; each array has n places. The number of an answered stamp is 0: all are set to
   it at once, so that a loop has no more to do for one that is answered. In the places of a refused one stand a NaN, the least number of the type, or a text of no
   byte. Returns how many are refused. An array of answers overlaps no other. */
#include "celestial_time.h"

#include <fenv.h>
#include <math.h>
#include <stdio.h>

typedef int64_t shift_call(double, double, double, uint8_t *, size_t);
typedef int64_t table_call(double, double, const uint8_t *, size_t, uint8_t *, size_t);
typedef int64_t table_shift_call(double, double, double, const uint8_t *, size_t, uint8_t *, size_t);
typedef int64_t text_call(double, double, const uint8_t *, size_t, uint8_t *, size_t, uint8_t *, size_t);

/* The answers of calls are bytes, the lowest first, as the numbers of this processor are (the archive is for x86-64 alone). */
static double float_of(const uint8_t *bytes)
{
    double x;
    memcpy(&x, bytes, sizeof x);
    return x;
}

static int32_t int_of(const uint8_t *bytes)
{
    int32_t x;
    memcpy(&x, bytes, sizeof x);
    return x;
}

/* The number of a refused stamp; that of another is 0 already. */
static int put_number(int64_t code, uint8_t *number)
{
    if (code >= 0) return 0;
    *number = (uint8_t)-code;
    return 1;
}

static int put_date(int64_t code, const uint8_t *bytes, double *out1, double *out2, uint8_t *number)
{
    *out1 = code < 0 ? NAN : float_of(bytes);
    *out2 = code < 0 ? NAN : float_of(bytes + 8);
    return put_number(code, number);
}

/* Where the call tells no rule, `rule` and `row` are null. */
static void put_rule(int64_t code, const uint8_t *bytes, int32_t *rule, int32_t *row, size_t i)
{
    if (rule == NULL) return;
    rule[i] = code < 0 ? INT32_MIN : int_of(bytes);
    row[i] = code < 0 ? INT32_MIN : int_of(bytes + 4);
}

/* ---- Scales */

/* A NaN in the places of a refused stamp, which a call for a run leaves as they were. */
int64_t ct_each_nan(size_t n, const uint8_t *numbers, double *out1, double *out2)
{
    for (size_t i = 0; i < n; i++)
        if (numbers[i] != 0) out1[i] = out2[i] = NAN;
    return 0;
}

int64_t ct_each_shift(shift_call *call, size_t n, const double *jd1, const double *jd2, const double *by, double *out1, double *out2, uint8_t *numbers)
{
    uint8_t bytes[16];
    int64_t refused = 0;
    memset(numbers, 0, n);
    for (size_t i = 0; i < n; i++)
        refused += put_date(call(jd1[i], jd2[i], by[i], bytes, sizeof bytes), bytes, out1 + i, out2 + i, numbers + i);
    return refused;
}

int64_t ct_each_utc(table_call *call, const uint8_t *table, size_t n, const double *jd1, const double *jd2, double *out1, double *out2, int32_t *rule,
                    int32_t *row, uint8_t *numbers)
{
    uint8_t bytes[24];
    int64_t refused = 0;
    memset(numbers, 0, n);
    for (size_t i = 0; i < n; i++) {
        int64_t code = call(jd1[i], jd2[i], table, CT_TABLE_BYTES, bytes, sizeof bytes);
        refused += put_date(code, bytes, out1 + i, out2 + i, numbers + i);
        put_rule(code, bytes + 16, rule, row, i);
    }
    return refused;
}

int64_t ct_each_utc_shift(table_shift_call *call, const uint8_t *table, size_t n, const double *jd1, const double *jd2, const double *by, double *out1,
                          double *out2, int32_t *rule, int32_t *row, uint8_t *numbers)
{
    uint8_t bytes[24];
    int64_t refused = 0;
    memset(numbers, 0, n);
    for (size_t i = 0; i < n; i++) {
        int64_t code = call(jd1[i], jd2[i], by[i], table, CT_TABLE_BYTES, bytes, sizeof bytes);
        refused += put_date(code, bytes, out1 + i, out2 + i, numbers + i);
        put_rule(code, bytes + 16, rule, row, i);
    }
    return refused;
}

/* ---- Calendar */

int64_t ct_each_calendar_date(size_t n, const double *jd1, const double *jd2, int32_t *year, int32_t *month, int32_t *day, double *fraction, uint8_t *numbers)
{
    uint8_t bytes[20];
    int64_t refused = 0;
    memset(numbers, 0, n);
    for (size_t i = 0; i < n; i++) {
        int64_t code = ct_julian_to_calendar(jd1[i], jd2[i], bytes, sizeof bytes);
        year[i] = code < 0 ? INT32_MIN : int_of(bytes);
        month[i] = code < 0 ? INT32_MIN : int_of(bytes + 4);
        day[i] = code < 0 ? INT32_MIN : int_of(bytes + 8);
        fraction[i] = code < 0 ? NAN : float_of(bytes + 12);
        refused += put_number(code, numbers + i);
    }
    return refused;
}

int64_t ct_each_midnight(size_t n, const int32_t *year, const int32_t *month, const int32_t *day, double *out1, double *out2, uint8_t *numbers)
{
    uint8_t bytes[16];
    int64_t refused = 0;
    memset(numbers, 0, n);
    for (size_t i = 0; i < n; i++)
        refused += put_date(ct_calendar_to_julian(year[i], month[i], day[i], bytes, sizeof bytes), bytes, out1 + i, out2 + i, numbers + i);
    return refused;
}

/* A month, day, hour or minute as the call takes it: what does not fit 8 bits is handed over as 255, which the call refuses by the same number. */
static uint8_t field_of(int64_t x)
{
    return x < 0 || x > 255 ? 255 : (uint8_t)x;
}

int64_t ct_each_time(size_t n, const int32_t *year, const int64_t *month, const int64_t *day, const int64_t *hour, const int64_t *minute,
                     const double *second, double *out1, double *out2, uint8_t *numbers)
{
    uint8_t bytes[16];
    int64_t refused = 0;
    memset(numbers, 0, n);
    for (size_t i = 0; i < n; i++) {
        int64_t code = ct_from_calendar(year[i], field_of(month[i]), field_of(day[i]), field_of(hour[i]), field_of(minute[i]), second[i], bytes, sizeof bytes);
        refused += put_date(code, bytes, out1 + i, out2 + i, numbers + i);
    }
    return refused;
}

int64_t ct_each_utc_time(const uint8_t *table, size_t n, const int32_t *year, const int64_t *month, const int64_t *day, const int64_t *hour,
                         const int64_t *minute, const double *second, double *out1, double *out2, uint8_t *numbers)
{
    uint8_t bytes[16];
    int64_t refused = 0;
    memset(numbers, 0, n);
    for (size_t i = 0; i < n; i++) {
        int64_t code = ct_utc_from_calendar(year[i], field_of(month[i]), field_of(day[i]), field_of(hour[i]), field_of(minute[i]), second[i], table,
                                            CT_TABLE_BYTES, bytes, sizeof bytes);
        refused += put_date(code, bytes, out1 + i, out2 + i, numbers + i);
    }
    return refused;
}

int64_t ct_each_unix_time(const uint8_t *table, size_t n, const int64_t *seconds, const uint32_t *nanos, double *out1, double *out2, uint8_t *numbers)
{
    uint8_t bytes[16];
    int64_t refused = 0;
    memset(numbers, 0, n);
    for (size_t i = 0; i < n; i++) {
        int64_t code = ct_utc_new(seconds[i], nanos[i], table, CT_TABLE_BYTES, bytes, sizeof bytes);
        refused += put_date(code, bytes, out1 + i, out2 + i, numbers + i);
    }
    return refused;
}

/* ---- TAI-UTC */

int64_t ct_each_offset(const uint8_t *table, size_t n, const int32_t *year, const int32_t *month, const int32_t *day, const double *fraction,
                       double *seconds, int32_t *rule, int32_t *row, uint8_t *numbers)
{
    uint8_t bytes[16];
    int64_t refused = 0;
    memset(numbers, 0, n);
    for (size_t i = 0; i < n; i++) {
        int64_t code = ct_get_tai_utc_offset(year[i], month[i], day[i], fraction[i], table, CT_TABLE_BYTES, bytes, sizeof bytes);
        seconds[i] = code < 0 ? NAN : float_of(bytes);
        put_rule(code, bytes + 8, rule, row, i);
        refused += put_number(code, numbers + i);
    }
    return refused;
}

int64_t ct_each_leap(const uint8_t *table, size_t n, const int32_t *year, const int32_t *month, const int32_t *day, double *seconds, uint8_t *numbers)
{
    uint8_t bytes[8];
    int64_t refused = 0;
    memset(numbers, 0, n);
    for (size_t i = 0; i < n; i++) {
        int64_t code = ct_leap_at_end_of_day(year[i], month[i], day[i], table, CT_TABLE_BYTES, bytes, sizeof bytes);
        seconds[i] = code < 0 ? NAN : float_of(bytes);
        refused += put_number(code, numbers + i);
    }
    return refused;
}

/* ---- Texts: each in a place of one width, filled up with 0 behind the text */

/* The place of a written text; the longest has 27 bytes. */
enum { TEXT_PLACE = 27 };

/* Texts with the rules of their days; those without are ct_texts_of_run's. A place is set to 0 before its text is written: with a width that the compiler
   knows, that is two stores. */
int64_t ct_each_text(text_call *call, const uint8_t *table, size_t n, const double *jd1, const double *jd2, uint8_t *texts, int32_t *rule, int32_t *row,
                     uint8_t *numbers)
{
    uint8_t bytes[CT_RULE_BYTES];
    int64_t refused = 0;
    memset(numbers, 0, n);
    for (size_t i = 0; i < n; i++) {
        uint8_t *text = texts + TEXT_PLACE * i;
        memset(text, 0, TEXT_PLACE);
        int64_t code = call(jd1[i], jd2[i], table, CT_TABLE_BYTES, text, TEXT_PLACE, bytes, sizeof bytes);
        put_rule(code, bytes, rule, row, i);
        refused += put_number(code, numbers + i);
    }
    return refused;
}

static size_t text_length(const uint8_t *text, size_t width)
{
    while (width > 0 && text[width - 1] == 0) width--;
    return width;
}

/* How long texts are, and each in a place of 27 bytes, as ct_dates_of_texts takes them; where they lie so already, `places` is `texts`. What lies behind a
   text in its place means nothing. Returns whether one is longer than a place: then they are not all laid. */
int64_t ct_each_laid(size_t width, size_t n, const uint8_t *texts, uint8_t *places, uint8_t *lengths)
{
    for (size_t i = 0; i < n; i++) {
        const uint8_t *text = texts + width * i;
        size_t length = text_length(text, width);
        if (length > TEXT_PLACE) return 1;
        lengths[i] = (uint8_t)length;
        if (places != texts) memcpy(places + TEXT_PLACE * i, text, length);
    }
    return 0;
}

/* Where the date alone is asked for, `second` is null. */
static void put_fields(int64_t code, const uint8_t *bytes, int32_t *const fields[5], double *second, size_t i)
{
    if (second == NULL) return;
    for (int k = 0; k < 5; k++) fields[k][i] = code < 0 ? INT32_MIN : int_of(bytes + 4 * k);
    second[i] = code < 0 ? NAN : float_of(bytes + 20);
}

int64_t ct_each_read(size_t width, size_t n, const uint8_t *texts, int32_t *year, int32_t *month, int32_t *day, int32_t *hour, int32_t *minute,
                     double *second, uint8_t *numbers)
{
    int32_t *const fields[5] = {year, month, day, hour, minute};
    uint8_t bytes[28];
    int64_t refused = 0;
    memset(numbers, 0, n);
    for (size_t i = 0; i < n; i++) {
        const uint8_t *text = texts + width * i;
        int64_t code = ct_parse_iso8601(text, text_length(text, width), bytes, sizeof bytes);
        put_fields(code, bytes, fields, second, i);
        refused += put_number(code, numbers + i);
    }
    return refused;
}

int64_t ct_each_read_utc(const uint8_t *table, size_t width, size_t n, const uint8_t *texts, int32_t *year, int32_t *month, int32_t *day, int32_t *hour,
                         int32_t *minute, double *second, double *out1, double *out2, uint8_t *numbers)
{
    int32_t *const fields[5] = {year, month, day, hour, minute};
    uint8_t bytes[44];
    int64_t refused = 0;
    memset(numbers, 0, n);
    for (size_t i = 0; i < n; i++) {
        const uint8_t *text = texts + width * i;
        int64_t code = ct_utc_from_iso8601(text, text_length(text, width), table, CT_TABLE_BYTES, bytes, sizeof bytes);
        put_fields(code, bytes, fields, second, i);
        refused += put_date(code, bytes + 28, out1 + i, out2 + i, numbers + i);
    }
    return refused;
}

/* A text of a scale without leap seconds: the fields of ct_parse_iso8601, and the date that ct_from_calendar gives of them. */
int64_t ct_each_read_time(size_t width, size_t n, const uint8_t *texts, int32_t *year, int32_t *month, int32_t *day, int32_t *hour, int32_t *minute,
                          double *second, double *out1, double *out2, uint8_t *numbers)
{
    int32_t *const fields[5] = {year, month, day, hour, minute};
    uint8_t bytes[44];
    int64_t refused = 0;
    memset(numbers, 0, n);
    for (size_t i = 0; i < n; i++) {
        const uint8_t *text = texts + width * i;
        int64_t code = ct_parse_iso8601(text, text_length(text, width), bytes, 28);
        if (code >= 0)
            code = ct_from_calendar(int_of(bytes), field_of(int_of(bytes + 4)), field_of(int_of(bytes + 8)), field_of(int_of(bytes + 12)),
                                    field_of(int_of(bytes + 16)), float_of(bytes + 20), bytes + 28, 16);
        put_fields(code, bytes, fields, second, i);
        refused += put_date(code, bytes + 28, out1 + i, out2 + i, numbers + i);
    }
    return refused;
}

/* ---- GPS weeks */

/* What does not fit the call's 32 bits is handed over as the greatest number, which no call takes. */
static uint32_t week_field(int64_t x)
{
    return x < 0 || x > UINT32_MAX ? UINT32_MAX : (uint32_t)x;
}

int64_t ct_each_week_date(size_t n, const int64_t *week, const int64_t *millis, double *out1, double *out2, uint8_t *numbers)
{
    uint8_t bytes[16];
    int64_t refused = 0;
    memset(numbers, 0, n);
    for (size_t i = 0; i < n; i++)
        refused += put_date(ct_gps_from_week(week_field(week[i]), week_field(millis[i]), bytes, sizeof bytes), bytes, out1 + i, out2 + i, numbers + i);
    return refused;
}

int64_t ct_each_week(size_t n, const double *jd1, const double *jd2, int32_t *week, int32_t *millis, uint8_t *numbers)
{
    uint8_t bytes[8];
    int64_t refused = 0;
    memset(numbers, 0, n);
    for (size_t i = 0; i < n; i++) {
        int64_t code = ct_gps_to_week(jd1[i], jd2[i], bytes, sizeof bytes);
        week[i] = code < 0 ? INT32_MIN : int_of(bytes);
        millis[i] = code < 0 ? INT32_MIN : int_of(bytes + 4);
        refused += put_number(code, numbers + i);
    }
    return refused;
}

int64_t ct_each_full_week(size_t n, const int64_t *ten_bits, const int64_t *reference, int32_t *week, uint8_t *numbers)
{
    int64_t refused = 0;
    memset(numbers, 0, n);
    for (size_t i = 0; i < n; i++) {
        int64_t code = ct_gps_full_week(week_field(ten_bits[i]), week_field(reference[i]));
        week[i] = code < 0 ? INT32_MIN : (int32_t)code;
        refused += put_number(code, numbers + i);
    }
    return refused;
}

/* ---- Order */

/* -1 before the other, 0 equal, 1 after it; -128 where refused. */
int64_t ct_each_compare(size_t n, const double *jd1, const double *jd2, const double *other1, const double *other2, int8_t *order, uint8_t *numbers)
{
    int64_t refused = 0;
    memset(numbers, 0, n);
    for (size_t i = 0; i < n; i++) {
        int64_t code = ct_compare(jd1[i], jd2[i], other1[i], other2[i]);
        order[i] = code < 0 ? INT8_MIN : (int8_t)(code - 1);
        refused += put_number(code, numbers + i);
    }
    return refused;
}

int64_t ct_each_equal(size_t n, const double *jd1, const double *jd2, const double *other1, const double *other2, uint8_t *equal)
{
    for (size_t i = 0; i < n; i++) equal[i] = (uint8_t)ct_equal(jd1[i], jd2[i], other1[i], other2[i]);
    return 0;
}

int64_t ct_each_difference(size_t n, const double *jd1, const double *jd2, const double *other1, const double *other2, double *days)
{
    for (size_t i = 0; i < n; i++) days[i] = ct_difference(jd1[i], jd2[i], other1[i], other2[i]);
    return 0;
}

/* The run that a place of a line of three runs is in, counted from 0, and the stamp's place there; `second` and `third` are where these runs begin. */
int64_t ct_each_place(size_t second, size_t third, size_t n, const uint32_t *places, uint8_t *run, uint32_t *stamp)
{
    for (size_t i = 0; i < n; i++) {
        uint32_t at = places[i];
        run[i] = (uint8_t)((at >= second) + (at >= third));
        stamp[i] = at - (uint32_t)(at >= third ? third : at >= second ? second : 0);
    }
    return 0;
}

/* Two stretches of places that are sorted, [left, middle) and [middle, right), as one; equal dates stay as they came. Below zero, what ct_compare
   refuses by. */
static int64_t merge(const double *jd1, const double *jd2, const uint32_t *from, uint32_t *to, size_t left, size_t middle, size_t right)
{
    size_t i = left, j = middle;
    for (size_t k = left; k < right; k++) {
        int64_t order = 0;
        if (i < middle && j < right) order = ct_compare(jd1[from[i]], jd2[from[i]], jd1[from[j]], jd2[from[j]]);
        if (order < 0) return order;
        to[k] = i < middle && (j >= right || order != 2) ? from[i++] : from[j++];
    }
    return 0;
}

/* n places sorted by the exact sums of their dates. Returns 0 where they are in `places` then, 1 where in `work`, or what ct_compare refuses by,
   below zero. */
int64_t ct_each_sort(size_t n, const double *jd1, const double *jd2, uint32_t *places, uint32_t *work)
{
    uint32_t *from = places, *to = work;
    for (size_t width = 1; width < n; width *= 2) {
        for (size_t left = 0; left < n; left += 2 * width) {
            size_t middle = left + width < n ? left + width : n, right = left + 2 * width < n ? left + 2 * width : n;
            int64_t code = merge(jd1, jd2, from, to, left, middle, right);
            if (code < 0) return code;
        }
        uint32_t *kept = from;
        from = to;
        to = kept;
    }
    return from == work;
}

int64_t ct_each_same_stamp(uint32_t scale, uint32_t other_scale, size_t n, const uint64_t *jd1, const uint64_t *jd2, const uint64_t *other1,
                           const uint64_t *other2, uint8_t *same)
{
    for (size_t i = 0; i < n; i++) same[i] = (uint8_t)ct_same_stamp(scale, jd1[i], jd2[i], other_scale, other1[i], other2[i]);
    return 0;
}

/* ---- Texts side by side */

/* The bytes that are not 0, moved to the front. Returns how many they are. Written without a branch: which bytes are 0 is not to be foreseen. */
int64_t ct_each_byte(size_t n, uint8_t *bytes)
{
    size_t kept = 0;
    for (size_t i = 0; i < n; i++) {
        uint8_t byte = bytes[i];
        bytes[kept] = byte;
        kept += byte != 0;
    }
    return (int64_t)kept;
}

/* ---- The listing of a line, as many parts at once as `out` has room for, each by a call: the head alone, then stamps' lines, then the last line alone.
   Returns how many bytes they are, or what the first is refused by. */
enum { LISTING_PART = 1 << 15 };

int64_t ct_each_listing_part(size_t reasons, const uint8_t *runs, size_t runs_len, const uint8_t *jd1, size_t jd1_len, const uint8_t *jd2, size_t jd2_len,
                             const uint8_t *numbers, size_t numbers_len, const uint8_t *order, size_t order_len, const uint8_t *table, size_t table_len,
                             uint8_t *cursor, size_t cursor_len, uint8_t *out, size_t out_len)
{
    size_t filled = 0;
    while (out_len - filled >= LISTING_PART) {
        uint64_t line = ct_pattern_at(cursor, 8);
        if (filled > 0 && line > order_len / 4) break;
        int64_t n = ct_line_listing_part((uint32_t)reasons, runs, runs_len, jd1, jd1_len, jd2, jd2_len, numbers, numbers_len, order, order_len, table,
                                         table_len, cursor, cursor_len, out + filled, out_len - filled);
        if (n < 0 && filled == 0) return n;
        if (n <= 0) break;
        filled += (size_t)n;
        if (line == 0) break;
    }
    return (int64_t)filled;
}

/* ---- Rows of a table: recorder, index, UTC, number and TAI. Of n lines of the listing, `places` those of their stamps. A row has at most 97 bytes.
   Returns how many are written. */
int64_t ct_each_row(size_t n, const char *lines, const uint32_t *places, const double *jd1, const double *jd2, const uint8_t *numbers, char *rows)
{
    char *at = rows;
    for (size_t i = 0; i < n; i++) {
        int number = numbers[places[i]], index = (int)strcspn(lines + 4, " "), told = (int)strcspn(lines + 5 + index, "\n");
        const char *utc = lines + 5 + index;
        at += sprintf(at, "%.3s,%.*s,%.*s,%d,", lines, index, lines + 4, number || *utc == 'n' ? 0 : told, utc, number);
        if (number && number != CT_REFUSED_ORDER) at += sprintf(at, ",\n");
        else at += sprintf(at, "%.17g,%.17g\n", jd1[places[i]], jd2[places[i]]);
        lines = utc + told + 1;
    }
    return at - rows;
}

/* ---- The version of the library, that of the header: the package loads no other than its own */

int ct_each_version(void)
{
    return CT_VERSION_MAJOR * 1000000 + CT_VERSION_MINOR * 1000 + CT_VERSION_PATCH;
}

/* ---- Float mode of the calling thread: ct_float_mode, which the header has for a program's own compiler, and the default mode set again */

int ct_each_float_mode(void)
{
    return ct_float_mode();
}

int ct_each_default_float_mode(void)
{
    return fesetenv(FE_DFL_ENV);
}
