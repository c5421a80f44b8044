/* For each kind of call a loop over the inputs: the measured part. A loop's own share is the loading of
   the arguments, the call through a pointer, the keeping of a returned answer and the step: 7 to 17 instructions, for a call
   the same within one in all three, but for two more in erfa_calendar_loop and three more in erfa_validate_loop.
   The port and the Rust write an answer's bytes into a slot; ERFA writes its ints and doubles there,
   which on x86-64 are the same bytes. */
#include <stddef.h>
#include <stdio.h>

#include "celestial_time.h"
#include "erfa_calls.h"
#include "inputs.h"
#include "texts.h"

/* A function of any kind; each loop knows which kind it calls. */
typedef void any(void);

typedef int64_t year_call(int32_t);
typedef int64_t month_call(int32_t, int32_t);
typedef int64_t validate_call(int32_t, int32_t, int32_t);
typedef double number_call(double, double);
typedef int64_t equal_call(double, double, double, double);
typedef double difference_call(double, double, double, double);
typedef int64_t julian_year_call(double, uint8_t *, size_t);
typedef int64_t stamps_call(const uint8_t *, size_t);
typedef int64_t date_call(int32_t, int32_t, int32_t, uint8_t *, size_t);
typedef int64_t offset_call(int32_t, int32_t, int32_t, double, uint8_t *, size_t);
typedef int64_t jd_call(double, double, uint8_t *, size_t);
typedef int64_t jd_offset_call(double, double, double, uint8_t *, size_t);
typedef int64_t unix_call(int64_t, uint32_t, uint8_t *, size_t);
typedef int64_t fields_call(int32_t, uint8_t, uint8_t, uint8_t, uint8_t, double, uint8_t *, size_t);

typedef int64_t week_call(uint32_t, uint32_t, uint8_t *, size_t);
typedef int64_t full_week_call(uint32_t, uint32_t);
typedef int64_t same_call(uint32_t, uint64_t, uint64_t, uint32_t, uint64_t, uint64_t);

typedef int erfa_date_call(int, int, int, double *, double *);
typedef void erfa_julian_year_call(double, double *, double *);
typedef int erfa_next_call(int, int, int, int *, int *, int *);
typedef int erfa_leap_call(int, int, int, double *);
typedef int erfa_offset_call(int, int, int, double, double *);
typedef int erfa_calendar_call(double, double, int *, int *, int *, double *);
typedef int erfa_jd_call(double, double, double *, double *);
typedef int erfa_jd_offset_call(double, double, double, double *, double *);
typedef int erfa_unix_call(int64_t, uint32_t, double *, double *);
typedef int erfa_fields_call(const char *, int, int, int, int, int, double, double *, double *);

typedef union {
    uint8_t bytes[40];
    int64_t n;
    double d[5];
    int i[10];
} slot;

/* The longest listing has a header and 4,000 lines under 48 bytes each. */
enum { LISTING_ROOM = MOST_LINE * (INPUTS + 1), BLOCK_SIZE = 8 + 16 * INPUTS };

static input in[INPUTS];
static slot slots[INPUTS];
static uint8_t block[BLOCK_SIZE], listing[LISTING_ROOM];
static const uint8_t *shown;
static size_t shown_length;

#define EACH for (int i = 0; i < INPUTS; i++)

/* ---- the port and the Rust */

static void date_loop(any *f)
{
    date_call *call = (date_call *)f;
    EACH call(in[i].year, in[i].month, in[i].day, slots[i].bytes, 16);
}

static void offset_loop(any *f)
{
    offset_call *call = (offset_call *)f;
    EACH call(in[i].year, in[i].month, in[i].day, in[i].fraction, slots[i].bytes, 8);
}

static void jd_loop(any *f)
{
    jd_call *call = (jd_call *)f;
    EACH call(in[i].jd1, in[i].jd2, slots[i].bytes, MOST_TEXT);
}

static void jd_offset_loop(any *f)
{
    jd_offset_call *call = (jd_offset_call *)f;
    EACH call(in[i].jd1, in[i].jd2, in[i].offset, slots[i].bytes, 16);
}

static void unix_loop(any *f)
{
    unix_call *call = (unix_call *)f;
    EACH call(in[i].unix_seconds, in[i].nanos, slots[i].bytes, 16);
}

static void fields_loop(any *f)
{
    fields_call *call = (fields_call *)f;
    EACH call(in[i].year, (uint8_t)in[i].month, (uint8_t)in[i].day, (uint8_t)in[i].hour, (uint8_t)in[i].minute,
              in[i].second, slots[i].bytes, 16);
}

static void add_days_loop(any *f)
{
    jd_offset_call *call = (jd_offset_call *)f;
    EACH call(in[i].jd1, in[i].jd2, in[i].days, slots[i].bytes, 16);
}

static void add_seconds_loop(any *f)
{
    jd_offset_call *call = (jd_offset_call *)f;
    EACH call(in[i].jd1, in[i].jd2, in[i].seconds, slots[i].bytes, 16);
}

static void julian_year_loop(any *f)
{
    julian_year_call *call = (julian_year_call *)f;
    EACH call(in[i].julian_year, slots[i].bytes, 16);
}

static void week_loop(any *f)
{
    week_call *call = (week_call *)f;
    EACH call(in[i].week, in[i].millis, slots[i].bytes, 16);
}

static void gps_loop(any *f)
{
    jd_call *call = (jd_call *)f;
    EACH call(in[i].gps1, in[i].gps2, slots[i].bytes, 8);
}

/* ---- the port's calls that are lent a table: of no rows, and of 16 rows from 2031 on, which no input reaches. Each loop has two arguments
   more than that of the Rust. */

static uint8_t sixteen_rows[CT_TABLE_BYTES];
static uint8_t rules[64][CT_RULE_BYTES];

static void make_table(void)
{
    int32_t months[16], seconds[16];
    for (int i = 0; i < 16; i++) months[i] = 12 * (2031 + i), seconds[i] = i % 2 ? 37 : 38;
    ct_table(months, seconds, 16, sixteen_rows);
}

typedef int64_t table_date_call(int32_t, int32_t, int32_t, const uint8_t *, size_t, uint8_t *, size_t);
typedef int64_t table_offset_call(int32_t, int32_t, int32_t, double, const uint8_t *, size_t, uint8_t *, size_t);
typedef int64_t table_jd_call(double, double, const uint8_t *, size_t, uint8_t *, size_t);
typedef int64_t table_jd_offset_call(double, double, double, const uint8_t *, size_t, uint8_t *, size_t);
typedef int64_t table_text_call(double, double, const uint8_t *, size_t, uint8_t *, size_t, uint8_t *, size_t);
typedef int64_t table_unix_call(int64_t, uint32_t, const uint8_t *, size_t, uint8_t *, size_t);
typedef int64_t table_fields_call(int32_t, uint8_t, uint8_t, uint8_t, uint8_t, double, const uint8_t *, size_t, uint8_t *, size_t);

#define TABLE_LOOPS(kind, ...) \
    static void none_##kind##_loop(any *f) { table_##kind##_call *call = (table_##kind##_call *)f; const uint8_t *table = ct_no_rows; EACH call(__VA_ARGS__); } \
    static void sixteen_##kind##_loop(any *f) { table_##kind##_call *call = (table_##kind##_call *)f; const uint8_t *table = sixteen_rows; EACH call(__VA_ARGS__); }
TABLE_LOOPS(date, in[i].year, in[i].month, in[i].day, table, CT_TABLE_BYTES, slots[i].bytes, 16)
TABLE_LOOPS(offset, in[i].year, in[i].month, in[i].day, in[i].fraction, table, CT_TABLE_BYTES, slots[i].bytes, 16)
TABLE_LOOPS(jd, in[i].jd1, in[i].jd2, table, CT_TABLE_BYTES, slots[i].bytes, MOST_TEXT)
TABLE_LOOPS(text, in[i].jd1, in[i].jd2, table, CT_TABLE_BYTES, slots[i].bytes, MOST_TEXT, rules[i % 64], CT_RULE_BYTES)
TABLE_LOOPS(jd_offset, in[i].jd1, in[i].jd2, in[i].offset, table, CT_TABLE_BYTES, slots[i].bytes, 24)
TABLE_LOOPS(unix, in[i].unix_seconds, in[i].nanos, table, CT_TABLE_BYTES, slots[i].bytes, 16)
TABLE_LOOPS(fields, in[i].year, (uint8_t)in[i].month, (uint8_t)in[i].day, (uint8_t)in[i].hour, (uint8_t)in[i].minute, in[i].second, table,
            CT_TABLE_BYTES, slots[i].bytes, 16)

/* ---- calls that return their answer, which the loop writes into the slot */

static void year_loop(any *f)
{
    year_call *call = (year_call *)f;
    EACH slots[i].n = call(in[i].year);
}

static void month_loop(any *f)
{
    month_call *call = (month_call *)f;
    EACH slots[i].n = call(in[i].year, in[i].month);
}

/* The reference is up to 500 weeks before. */
static void full_week_loop(any *f)
{
    full_week_call *call = (full_week_call *)f;
    EACH slots[i].n = call((in[i].week + 500) % 1024, in[i].week);
}

/* Half of the stamps are the same. */
static void same_loop(any *f)
{
    same_call *call = (same_call *)f;
    EACH slots[i].n = call(CT_UTC, ct_bits_of(in[i].jd1), ct_bits_of(in[i].jd2), CT_UTC, ct_bits_of(in[i].jd1), ct_bits_of(in[i].days > 0.0 ? in[i].jd2 : in[i].jd1));
}

static void validate_loop(any *f)
{
    validate_call *call = (validate_call *)f;
    EACH slots[i].n = call(in[i].year, in[i].month, in[i].day);
}

/* ERFA's eraEpj is of this kind too. */
static void number_loop(any *f)
{
    number_call *call = (number_call *)f;
    EACH slots[i].d[0] = call(in[i].jd1, in[i].jd2);
}

static void equal_loop(any *f)
{
    equal_call *call = (equal_call *)f;
    EACH slots[i].n = call(in[i].jd1, in[i].jd2, in[i].other1, in[i].other2);
}

static void difference_loop(any *f)
{
    difference_call *call = (difference_call *)f;
    EACH slots[i].d[0] = call(in[i].jd1, in[i].jd2, in[i].other1, in[i].other2);
}

static void check_table_loop(any *f)
{
    stamps_call *call = (stamps_call *)f;
    EACH slots[i].n = call(sixteen_rows, CT_TABLE_BYTES);
}

static void stamps_loop(any *f)
{
    stamps_call *call = (stamps_call *)f;
    EACH slots[i].n = call(block, BLOCK_SIZE);
}

/* ---- ERFA, called directly */

/* eraCal2jd's status is minus the port's refusal; the date that it gives as well is dropped. */
static void erfa_validate_loop(any *f)
{
    erfa_date_call *call = (erfa_date_call *)f;
    double djm0, djm;
    EACH slots[i].n = call(in[i].year, in[i].month, in[i].day, &djm0, &djm);
}

static void erfa_julian_year_loop(any *f)
{
    erfa_julian_year_call *call = (erfa_julian_year_call *)f;
    EACH call(in[i].julian_year, &slots[i].d[0], &slots[i].d[1]);
}

static void erfa_date_loop(any *f)
{
    erfa_date_call *call = (erfa_date_call *)f;
    EACH call(in[i].year, in[i].month, in[i].day, &slots[i].d[0], &slots[i].d[1]);
}

static void erfa_next_loop(any *f)
{
    erfa_next_call *call = (erfa_next_call *)f;
    EACH call(in[i].year, in[i].month, in[i].day, &slots[i].i[0], &slots[i].i[1], &slots[i].i[2]);
}

static void erfa_leap_loop(any *f)
{
    erfa_leap_call *call = (erfa_leap_call *)f;
    EACH call(in[i].year, in[i].month, in[i].day, &slots[i].d[0]);
}

static void erfa_offset_loop(any *f)
{
    erfa_offset_call *call = (erfa_offset_call *)f;
    EACH call(in[i].year, in[i].month, in[i].day, in[i].fraction, &slots[i].d[0]);
}

/* The fraction lies after the three ints at a place for a double, four bytes further than in the port's answer. */
static void erfa_calendar_loop(any *f)
{
    erfa_calendar_call *call = (erfa_calendar_call *)f;
    EACH call(in[i].jd1, in[i].jd2, &slots[i].i[0], &slots[i].i[1], &slots[i].i[2], &slots[i].d[2]);
}

static void erfa_jd_loop(any *f)
{
    erfa_jd_call *call = (erfa_jd_call *)f;
    EACH call(in[i].jd1, in[i].jd2, &slots[i].d[0], &slots[i].d[1]);
}

static void erfa_jd_offset_loop(any *f)
{
    erfa_jd_offset_call *call = (erfa_jd_offset_call *)f;
    EACH call(in[i].jd1, in[i].jd2, in[i].offset, &slots[i].d[0], &slots[i].d[1]);
}

static void erfa_unix_loop(any *f)
{
    erfa_unix_call *call = (erfa_unix_call *)f;
    EACH call(in[i].unix_seconds, in[i].nanos, &slots[i].d[0], &slots[i].d[1]);
}

static void erfa_fields_loop(const char *scale, erfa_fields_call *call)
{
    EACH call(scale, in[i].year, in[i].month, in[i].day, in[i].hour, in[i].minute, in[i].second, &slots[i].d[0],
              &slots[i].d[1]);
}

static void erfa_utc_fields_loop(any *f) { erfa_fields_loop("UTC", (erfa_fields_call *)f); }
static void erfa_tai_fields_loop(any *f) { erfa_fields_loop("TAI", (erfa_fields_call *)f); }

/* ---- the listing of a block of all inputs: one round is one block, counted per stamp */

static void port_listing_loop(any *f)
{
    (void)f;
    int64_t length = ct_listing_part(block, BLOCK_SIZE, 0, ct_no_rows, CT_TABLE_BYTES, listing, LISTING_ROOM);
    shown = listing;
    shown_length = length < 0 ? 0 : (size_t)length;
}

static void driver_listing_loop(any *text) { shown = list_block(block, (text_call *)text, listing, &shown_length); }

/* ---- ticks between marker passes: one round is one list of all inputs, counted per tick, with its share of the judging */

enum { PASSES = 2000, PASS_TICKS = 1000000, PASS_MILLIS = 61000 };

static uint8_t pass_ticks[8 * PASSES], pass_millis[8 * PASSES], rising_ticks[8 * INPUTS], random_ticks[8 * INPUTS], tick_millis[8 * INPUTS];

/* A pass every second or so, by a crystal that counts a million ticks a second; rising ticks two to a pass. */
static void make_ticks(void)
{
    uint64_t n;
    for (uint64_t i = 0; i < PASSES; i++) {
        n = i * PASS_TICKS + draw() % (PASS_TICKS / 2);
        memcpy(pass_ticks + 8 * i, &n, 8);
        n = i * PASS_MILLIS + draw() % (PASS_MILLIS / 2);
        memcpy(pass_millis + 8 * i, &n, 8);
    }
    for (uint64_t i = 0; i < INPUTS; i++) {
        n = PASS_TICKS + i * ((PASSES - 2) * (uint64_t)PASS_TICKS / INPUTS);
        memcpy(rising_ticks + 8 * i, &n, 8);
        n = PASS_TICKS + draw() % ((PASSES - 2) * (uint64_t)PASS_TICKS);
        memcpy(random_ticks + 8 * i, &n, 8);
    }
}

static void place_ticks(const uint8_t *ticks)
{
    int64_t length = ct_place_ticks(pass_ticks, sizeof pass_ticks, pass_millis, sizeof pass_millis, ticks, 8 * INPUTS, tick_millis, sizeof tick_millis);
    shown = tick_millis;
    shown_length = length < 0 ? 0 : (size_t)length;
}

static void rising_ticks_loop(any *f) { (void)f, place_ticks(rising_ticks); }

static void random_ticks_loop(any *f) { (void)f, place_ticks(random_ticks); }

/* The places of readings, one round as above: the passes' ticks are milliseconds here, and all readings are inside. */
static void place_readings(const uint8_t *millis)
{
    static uint8_t numbers[INPUTS];
    int64_t without = ct_place_readings(pass_ticks, sizeof pass_ticks, pass_millis, sizeof pass_millis, millis, 8 * INPUTS, tick_millis, sizeof tick_millis,
                                        numbers, sizeof numbers);
    shown = tick_millis;
    shown_length = without ? 0 : sizeof tick_millis;
}

static void rising_readings_loop(any *f) { (void)f, place_readings(rising_ticks); }

static void random_readings_loop(any *f) { (void)f, place_readings(random_ticks); }

/* ---- runs: one round is one run of all inputs, counted per stamp. The parts of the stamps are those of the block. Of the Rust and of ERFA the driver makes a
   run by their single calls. */

static double run_out[2][INPUTS];
static uint8_t run_numbers[INPUTS];

static void run_by_table(uint32_t from, uint32_t to, const uint8_t *table)
{
    int64_t refused = ct_convert_run(from, to, block + 8, 8 * INPUTS, block + 8 + 8 * INPUTS, 8 * INPUTS, table, CT_TABLE_BYTES, (uint8_t *)run_out[0], 8 * INPUTS,
                                     (uint8_t *)run_out[1], 8 * INPUTS, run_numbers, INPUTS);
    shown = (const uint8_t *)run_out;
    shown_length = refused == 0 ? sizeof run_out : 0;
}

static void run_loop(uint32_t from, uint32_t to) { run_by_table(from, to, ct_no_rows); }

static void gps_tai_run_loop(any *f) { (void)f, run_loop(CT_GPS, CT_TAI); }
static void tai_tt_run_loop(any *f) { (void)f, run_loop(CT_TAI, CT_TT); }
static void utc_tai_run_loop(any *f) { (void)f, run_loop(CT_UTC, CT_TAI); }
static void tai_utc_run_loop(any *f) { (void)f, run_loop(CT_TAI, CT_UTC); }
static void utc_gps_run_loop(any *f) { (void)f, run_loop(CT_UTC, CT_GPS); }
static void gps_utc_run_loop(any *f) { (void)f, run_loop(CT_GPS, CT_UTC); }
static void utc_tt_run_loop(any *f) { (void)f, run_loop(CT_UTC, CT_TT); }
static void tt_utc_run_loop(any *f) { (void)f, run_loop(CT_TT, CT_UTC); }
static void utc_tcg_run_loop(any *f) { (void)f, run_loop(CT_UTC, CT_TCG); }
static void tcg_utc_run_loop(any *f) { (void)f, run_loop(CT_TCG, CT_UTC); }
static void tt_gps_run_loop(any *f) { (void)f, run_loop(CT_TT, CT_GPS); }
static void sixteen_utc_tai_run_loop(any *f) { (void)f, run_by_table(CT_UTC, CT_TAI, sixteen_rows); }
static void sixteen_tai_utc_run_loop(any *f) { (void)f, run_by_table(CT_TAI, CT_UTC, sixteen_rows); }
static void sixteen_utc_gps_run_loop(any *f) { (void)f, run_by_table(CT_UTC, CT_GPS, sixteen_rows); }

static uint8_t run_texts[27 * INPUTS], run_lengths[INPUTS];

static void texts_by_form(uint32_t form, const uint8_t *table)
{
    int64_t refused = ct_texts_of_run(form, block + 8, 8 * INPUTS, block + 8 + 8 * INPUTS, 8 * INPUTS, table, CT_TABLE_BYTES, run_texts, sizeof run_texts,
                                      run_lengths, INPUTS, run_numbers, INPUTS);
    shown = run_texts;
    shown_length = refused == 0 ? sizeof run_texts : 0;
}

static void text_run_loop(any *f) { (void)f, texts_by_form(CT_TEXT, ct_no_rows); }
static void even_text_run_loop(any *f) { (void)f, texts_by_form(CT_TEXT_HALF_EVEN, ct_no_rows); }
static void expanded_text_run_loop(any *f) { (void)f, texts_by_form(CT_TEXT_EXPANDED, ct_no_rows); }
static void sixteen_text_run_loop(any *f) { (void)f, texts_by_form(CT_TEXT, sixteen_rows); }

static void tt_tcg_run_loop(any *f) { (void)f, run_loop(CT_TT, CT_TCG); }

/* By one formula, with the offsets of the stamps where it takes some: their list is made before anything is measured. */
static double run_offsets[INPUTS];

static void make_run_offsets(void)
{
    EACH run_offsets[i] = in[i].offset;
}

static void formula_loop(uint32_t from, uint32_t to, size_t offsets_len)
{
    int64_t refused = ct_formula_run(from, to, block + 8, 8 * INPUTS, block + 8 + 8 * INPUTS, 8 * INPUTS, (const uint8_t *)run_offsets, offsets_len,
                                     (uint8_t *)run_out[0], 8 * INPUTS, (uint8_t *)run_out[1], 8 * INPUTS, run_numbers, INPUTS);
    shown = (const uint8_t *)run_out;
    shown_length = refused == 0 ? sizeof run_out : 0;
}

static void tcb_tdb_run_loop(any *f) { (void)f, formula_loop(CT_TCB, CT_TDB, 0); }
static void tt_tdb_run_loop(any *f) { (void)f, formula_loop(CT_TT, CT_TDB, sizeof run_offsets); }

static void singles_offset_run_loop(any *f)
{
    jd_offset_call *call = (jd_offset_call *)f;
    double date[2];
    EACH call(in[i].jd1, in[i].jd2, in[i].offset, (uint8_t *)date, sizeof date), run_out[0][i] = date[0], run_out[1][i] = date[1];
    shown = (const uint8_t *)run_out;
    shown_length = sizeof run_out;
}

static void erfa_offset_run_loop(any *f)
{
    erfa_jd_offset_call *call = (erfa_jd_offset_call *)f;
    EACH call(in[i].jd1, in[i].jd2, in[i].offset, &run_out[0][i], &run_out[1][i]);
    shown = (const uint8_t *)run_out;
    shown_length = sizeof run_out;
}

static void singles_run_loop(any *f)
{
    jd_call *call = (jd_call *)f;
    double date[2];
    EACH call(in[i].jd1, in[i].jd2, (uint8_t *)date, sizeof date), run_out[0][i] = date[0], run_out[1][i] = date[1];
    shown = (const uint8_t *)run_out;
    shown_length = sizeof run_out;
}

static void erfa_run_loop(any *f)
{
    erfa_jd_call *call = (erfa_jd_call *)f;
    EACH call(in[i].jd1, in[i].jd2, &run_out[0][i], &run_out[1][i]);
    shown = (const uint8_t *)run_out;
    shown_length = sizeof run_out;
}

/* ---- texts that are read, 24 bytes each: with four digits of a fraction, and with three and a Z. The fields are 28 bytes, and the port's date of a UTC text stands
   behind them. The Rust gives no fields with the date; there the port's stay. */

enum { TEXT_BYTES = 24, FIELD_BYTES = 28 };

typedef int64_t read_call(const uint8_t *, size_t, uint8_t *, size_t);
typedef int64_t table_read_call(const uint8_t *, size_t, const uint8_t *, size_t, uint8_t *, size_t);

static char plain_texts[INPUTS][TEXT_BYTES + 1], utc_texts[INPUTS][TEXT_BYTES + 1];
static uint8_t wide[INPUTS][64];

/* Whole numbers of two digits, and a year of four: with the remainders the compiler sees that a text fits. */
static void make_text(const input *one, const char *end, unsigned digits, unsigned parts, char text[TEXT_BYTES + 1])
{
    snprintf(text, TEXT_BYTES + 1, "%04u-%02u-%02uT%02u:%02u:%02u.%0*u%s", (unsigned)one->year % 10000, (unsigned)one->month % 100, (unsigned)one->day % 100,
             (unsigned)one->hour % 100, (unsigned)one->minute % 100, (unsigned)one->second % 100, (int)digits, parts, end);
}

static void make_texts(void)
{
    memset(wide, 0, sizeof wide);
    EACH {
        unsigned parts = (unsigned)(in[i].second * 10000.0) % 10000;
        make_text(&in[i], "", 4, parts, plain_texts[i]);
        make_text(&in[i], "Z", 3, parts / 10, utc_texts[i]);
    }
}

/* The answers lie in `wide`, and there are none where a call refused: the signs of what the calls return are joined, one instruction a call. */
static void show_wide(int64_t told)
{
    shown = wide[0];
    shown_length = told < 0 ? 0 : sizeof wide;
}

static void read_loop(any *f)
{
    read_call *call = (read_call *)f;
    int64_t told = 0;
    EACH told |= call((const uint8_t *)plain_texts[i], TEXT_BYTES, wide[i], FIELD_BYTES);
    show_wide(told);
}

static void read_utc_loop(table_read_call *call, const uint8_t *table)
{
    int64_t told = 0;
    EACH told |= call((const uint8_t *)utc_texts[i], TEXT_BYTES, table, CT_TABLE_BYTES, wide[i], FIELD_BYTES + 16);
    show_wide(told);
}

static void none_read_utc_loop(any *f) { read_utc_loop((table_read_call *)f, ct_no_rows); }
static void sixteen_read_utc_loop(any *f) { read_utc_loop((table_read_call *)f, sixteen_rows); }

static void rust_read_utc_loop(any *f)
{
    read_call *call = (read_call *)f;
    int64_t told = 0;
    EACH told |= call((const uint8_t *)utc_texts[i], TEXT_BYTES, wide[i] + FIELD_BYTES, 16);
    show_wide(told);
}

/* The same texts in one call, at distances of 27 bytes: they are laid out before anything is measured. A day is kept in the set of one day alone. */
static uint8_t laid_texts[INPUTS][27], laid_lengths[INPUTS];

static void lay_out_texts(void)
{
    EACH memcpy(laid_texts[i], utc_texts[i], TEXT_BYTES), laid_lengths[i] = TEXT_BYTES;
}

static void dates_run_loop(any *f)
{
    (void)f;
    int64_t refused = ct_dates_of_texts((const uint8_t *)laid_texts, sizeof laid_texts, laid_lengths, INPUTS, ct_no_rows, CT_TABLE_BYTES, (uint8_t *)run_out[0],
                                        8 * INPUTS, (uint8_t *)run_out[1], 8 * INPUTS, run_numbers, INPUTS);
    shown = (const uint8_t *)run_out;
    shown_length = refused == 0 ? sizeof run_out : 0;
}

static void rust_dates_loop(any *f)
{
    read_call *call = (read_call *)f;
    double date[2];
    EACH call((const uint8_t *)utc_texts[i], TEXT_BYTES, (uint8_t *)date, sizeof date), run_out[0][i] = date[0], run_out[1][i] = date[1];
    shown = (const uint8_t *)run_out;
    shown_length = sizeof run_out;
}

/* ---- sentences: of numbers 1 to 28 with no value, and of each call a number whose sentence names a field */

#define SENTENCE_LOOP(name, ...) \
    static void name##_sentence_loop(any *f) \
    { \
        int64_t told = 0; \
        (void)f; \
        EACH told |= ct_##name(__VA_ARGS__, wide[i], CT_SENTENCE_BYTES); \
        show_wide(told); \
    }
SENTENCE_LOOP(reason, 1 + (uint32_t)i % 28)
SENTENCE_LOOP(date_reason, 3, in[i].year, in[i].month, 32 + in[i].day)
SENTENCE_LOOP(time_reason, 4, (uint8_t)in[i].hour, (uint8_t)in[i].minute, 60.0 + in[i].second, 0.0)
SENTENCE_LOOP(parts_reason, 6, in[i].jd1 + 1e9, in[i].jd2)
SENTENCE_LOOP(float_reason, 7, 1.5 + in[i].fraction)
SENTENCE_LOOP(count_reason, 8, 1000000000 + in[i].nanos)
SENTENCE_LOOP(block_reason, 14, (uint64_t)in[i].unix_seconds << 20, 4000, 4000)
