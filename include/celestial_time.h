/* Two-part Julian dates, eight time scales, the calendar, TAI-UTC, UTC text and stamp
   blocks, for C.
   `make install` installs it with an archive, a shared library and a file for pkg-config,
   all named celestial_time. In the repository the archive is target/staticlib/libcapi.a,
   made by `tools/staticlib capi`. The header is written for C99 and later, and for C++.
   celestial_time_structs.h beside it has the same calls with structs in the place of bytes.

   Answers. A call returns 64 bits signed: zero or more is its value, or the
   number of bytes that it wrote; below zero is minus the number of the refusal.
   A call that gives one float and never refuses returns the float; a NaN that
   ct_to_f64, ct_to_julian_year or ct_difference returns may have any sign and payload.

   Bytes. Several values go into a buffer that the caller lends, from its start,
   in the order that is written at the call: a float as the 8 bytes of its bits,
   a NaN always as 7ff8000000000000; a year, a month or a day as 4 bytes in two's
   complement. The lowest byte stands first. Bytes after them stay as they were.
   A refusal writes nothing.

   A buffer is two arguments, a pointer and a length in bytes, and overlaps no
   other. Pass a real pointer with a length of 0, too. No call keeps a pointer,
   and none has a state: any number of threads may call.

   The library assumes the processor's default float mode: round to nearest, subnormal
   numbers neither flushed to zero as results nor read as zero. A viewer asks
   ct_float_mode, at the end of this file, at its start. A program that is linked with
   -ffast-math or -Ofast, or loads a library that was, starts in another mode: gcc and
   clang then link crtfastmath.o. That changes answers on subnormal numbers, and accepts
   a subnormal second or fraction below 0; a NaN or an infinity is refused all the same.
   Compile with these options if you must, and link without them. The compiler drops a
   viewer's own isnan with them, so leave that test to the calls.

   A date is two floats, jd1 and jd2: its exact sum is the Julian date in days.
   Every float is taken, NaN and the infinities too.

   Refusals, as tools/generate writes them from crates/refusals:
      1  the year is before -4799; of a standby bill, before 1972
      2  the month is not 1 to 12
      3  the day is not in the month
      4  the hour is above 23, the minute above 59, or the second is not one of its minute; or
         the millisecond of a bill is over 999
      5  no next day: the date is the last that the year's 32 bits can say
      6  the rounded sum of a date's parts is outside -68569.5 to 1e9, or a NaN
      7  the fraction of a day is outside 0 to 1, or a NaN
      8  the nanoseconds are 1,000,000,000 or more
      9  a part of a date is not finite, of TCG to TAI also one of the TT in between; where
         dates are put in order, also where the two-sum of the parts overflows
     10  an offset is not finite
     11  the text, or what else is written, is longer than the buffer
     12  the two sizes of a stamp block differ, or those of the lists of a line or of a run
     13  a stamp block has more than 4,000 stamps, or a line more than 4,294,967,295
     14  a stamp block's length is not the one that its sizes say; or the length of a table or
         of a list is wrong, or counts go past it
     15  a text is outside the grammar
     16  a text's second has more than 13 digits after the point
     17  a date is earlier than the one before it; or a stamp is left out of a line, since of
         its run the most that rise are kept
     18  a field of a GPS week, a date's week or milliseconds since launch are outside their
         limits; or a run takes no such scale, or no refusal has the number
     19  two weeks with the same ten bits are equally near the reference
     20  the two sizes of a table of announced rows differ, or are above 16
     21  a row of a table of announced rows is not later than the one before it
     22  a row of a table of announced rows steps by something other than one second up or down
     23  the passes are unequal, too few or too many, or a number in them is too large
     24  the passes do not rise strictly in both their lists
     25  a tick or a reading is outside the passes
     26  the end of a standby is before its start
     27  a number of a bill is over its limit
     28  both lengths of line are 0
   A call tests in the order in which its comment lists them, and 11 last, but for
   ct_place_ticks and ct_place_readings, where it comes before those of the passes, and
   ct_offsets_at_0h, where it comes before the dates' numbers. Where it has two or more, the
   comment has an example in which two hold, with the one that comes first. "With no byte" is
   with a buffer of length 0, of which 11 holds. */
#ifndef CELESTIAL_TIME_H
#define CELESTIAL_TIME_H

#include <stddef.h>
#include <stdint.h>
#include <string.h>

/* The version. A call that is taken away, or that answers otherwise or takes other arguments, raises
   MAJOR, which is in the name of the shared library; a new call raises MINOR. */
#define CT_VERSION_MAJOR 2
#define CT_VERSION_MINOR 2
#define CT_VERSION_PATCH 0
#define CT_VERSION "2.2.0"

/* The refusals by name, as the list at the head has them. A call returns minus the number:
   n == -CT_REFUSED_NO_ROOM. */
enum {
    CT_REFUSED_YEAR = 1,
    CT_REFUSED_MONTH = 2,
    CT_REFUSED_DAY = 3,
    CT_REFUSED_TIME_OF_DAY = 4,
    CT_REFUSED_NO_NEXT_DAY = 5,
    CT_REFUSED_DATE_RANGE = 6,
    CT_REFUSED_FRACTION = 7,
    CT_REFUSED_NANOS = 8,
    CT_REFUSED_NOT_FINITE = 9,
    CT_REFUSED_OFFSET_NOT_FINITE = 10,
    CT_REFUSED_NO_ROOM = 11,
    CT_REFUSED_SIZES_DIFFER = 12,
    CT_REFUSED_TOO_MANY_STAMPS = 13,
    CT_REFUSED_LENGTH = 14,
    CT_REFUSED_GRAMMAR = 15,
    CT_REFUSED_TOO_MANY_DIGITS = 16,
    CT_REFUSED_ORDER = 17,
    CT_REFUSED_OUT_OF_LIMIT = 18,
    CT_REFUSED_WEEK_NOT_DECIDED = 19,
    CT_REFUSED_TABLE_SIZES = 20,
    CT_REFUSED_TABLE_ORDER = 21,
    CT_REFUSED_TABLE_STEP = 22,
    CT_REFUSED_PASSES = 23,
    CT_REFUSED_PASSES_ORDER = 24,
    CT_REFUSED_TICK_OUTSIDE = 25,
    CT_REFUSED_END_BEFORE_START = 26,
    CT_REFUSED_BILL_LIMIT = 27,
    CT_REFUSED_NO_METRES = 28
};

#ifdef __cplusplus
extern "C" {
#endif

/* ---- The library */

/* Its version, MAJOR * 1000000 + MINOR * 1000 + PATCH. CT_VERSION is the header's: a shared library can be of another. */
int64_t ct_version(void);

/* ---- Calendar: the proleptic Gregorian one, years as in ISO 8601 (0 is 1 BC) */

/* 1 where the year has a 29 February, else 0. */
int64_t ct_is_leap_year(int32_t year);

/* 28 to 31; 0 where there is no such month. */
int64_t ct_days_in_month(int32_t year, int32_t month);

/* 0 where the three are a date. Refuses 1, 2, 3: -4800-13-40 is 1, 2000-13-40 is 2. */
int64_t ct_validate_calendar_date(int32_t year, int32_t month, int32_t day);

/* The next day: year, month, day; 12 bytes. Refuses 1, 2, 3; then 5 on 2147483647-12-31; 11.
   -4800-13-40 is 1; 1900-02-29 with 3 bytes is 3, and 2147483647-12-31 with 3 bytes 5. */
int64_t ct_next_calendar_day(int32_t year, int32_t month, int32_t day, uint8_t *out, size_t out_len);

/* The Julian date of a day's midnight: 2400000.5 and the Modified Julian Date; 16 bytes.
   Refuses 1, 2, 3; 11. -4800-13-40 is 1; 1900-02-29 with no byte is 3. */
int64_t ct_calendar_to_julian(int32_t year, int32_t month, int32_t day, uint8_t *out, size_t out_len);

/* The day of a Julian date, and the part of it that has passed: year, month, day, fraction;
   20 bytes. Refuses 6; 11. (NaN, 0.0) with 3 bytes is 6. At the lowest end, (-68569.5, -2^-52),
   the date is -4900-02-30. */
int64_t ct_julian_to_calendar(double jd1, double jd2, uint8_t *out, size_t out_len);

/* The Julian date of a day and time, midnight in jd1 and the time of day in jd2; 16 bytes.
   Refuses 1, 2, 3; then 4, which 23:59:60 is too; 11. 2000-02-30 25:00:00 is 3. */
int64_t ct_from_calendar(int32_t year, uint8_t month, uint8_t day, uint8_t hour, uint8_t minute,
                         double second, uint8_t *out, size_t out_len);

/* ---- Julian dates: these refuse nothing but 11, and ct_compare 9. Where they take and give floats, a
   NaN gives a NaN, and an infinity can make one: so many days or seconds that are infinite give two */

/* jd1 + jd2, rounded. */
double ct_to_f64(double jd1, double jd2);

/* So many days or seconds later: jd1, jd2; 16 bytes. */
int64_t ct_add_days(double jd1, double jd2, double days, uint8_t *out, size_t out_len);
int64_t ct_add_seconds(double jd1, double jd2, double seconds, uint8_t *out, size_t out_len);

/* The Julian date of a Unix time, divided toward zero: jd1, jd2; 16 bytes. */
int64_t ct_from_unix_time(int64_t seconds, uint32_t nanos, uint8_t *out, size_t out_len);

/* The Julian year of a date, and the date of a Julian year (jd1, jd2; 16 bytes). */
double ct_to_julian_year(double jd1, double jd2);
int64_t ct_from_julian_year(double year, uint8_t *out, size_t out_len);

/* Whether two dates are one, 1 or 0: with parts under 2^52 in size, whether their exact sums are,
   however they are split into parts. Of larger parts it is the test of the Rust source, by which a
   date can be unequal to itself, as (2.9937604643020797e292, -1.7976931348623157e308) is. A date
   with a NaN equals none. */
int64_t ct_equal(double jd1, double jd2, double other1, double other2);

/* The scales by number, in ct_same_stamp, ct_convert_run and ct_formula_run. */
enum { CT_UTC, CT_TAI, CT_UT1, CT_TT, CT_GPS, CT_TCG, CT_TCB, CT_TDB };

/* Whether two stamps are the same, 1 or 0: one scale, and both parts with the same bits. The parts
   are bit patterns (ct_bits_of of a float, ct_pattern_at of 8 bytes), so a NaN is the same as itself
   and not as another NaN; 0.0 and -0.0 are two. Two divisions of one date are equal and not the same:
   (2451545.0, 0.0) and (2451544.75, 0.25). Stamps that are the same, with parts of at most 2^1021 in
   size, are equal too. A scale is compared and not judged: any other number is a scale of its own.
   Refuses nothing. */
int64_t ct_same_stamp(uint32_t scale, uint64_t jd1, uint64_t jd2, uint32_t other_scale, uint64_t other1,
                      uint64_t other2);

/* Which of two dates is first: 0 before the other, 1 equal, 2 after it, by their exact sums, however
   they are split into parts. This is an order, to sort by. Refuses 9 where a part is not finite, or so
   large that the sum or its rounding error overflows, as of (1.7e308, 1.7e308); every date with parts
   under 2^52 in size is answered. */
int64_t ct_compare(double jd1, double jd2, double other1, double other2);

/* The stamps of up to three recorders in one order, by their exact sums; all of one scale, TAI. The runs
   stand one after the other in the three slices, 8 bytes for each part and one byte for the number of each
   stamp: first_count stamps, then second_count, then what is left. Number 0 is a stamp to order; any other
   says by what it was refused before, and stays. Returns how many are ordered; out has their places in the
   slices, 4 bytes each, ties by run and then by place; what lies behind them stays. tails and ranks are work
   areas, 4 bytes a stamp each; what is left in them means nothing.

   Into numbers is written 9 for a stamp that came with 0 and that ct_compare would refuse. Of the others of
   a run the most that rise are ordered, each not earlier than the one before it, and the rest are left out
   with 17: so one that is far too late, or too early, is left out alone. Where several choices are largest,
   the ordered ones are found from the back: the last stamp in which a largest choice ends, before it the
   last in which one shorter by a stamp ends, and so on. So of two stamps that contradict each other alone
   the later place is ordered.

   Refuses 14 for a length of parts that is no multiple of 8; 12 for another number of parts than of numbers;
   14 for counts past the length; 13 for more than 4,294,967,295 stamps; 11 for fewer than 4 bytes a stamp
   in out, tails or ranks, also where fewer are ordered. A refused call writes neither numbers nor out.
   Of two stamps, 2451545.0 and 2451544.0, with no recorder but the first (first_count 2), the first gets 17;
   with first_count 1 both are ordered, the second first; with first_count 3 it is 14. */
int64_t ct_line_up(const uint8_t *jd1, size_t jd1_len, const uint8_t *jd2, size_t jd2_len, uint8_t *numbers,
                   size_t numbers_len, uint64_t first_count, uint64_t second_count, uint8_t *out,
                   size_t out_len, uint8_t *tails, size_t tails_len, uint8_t *ranks, size_t ranks_len);

/* The order of a listing that has a line for every stamp, as that of the program line_up. Arguments, numbers,
   answer and refusals are those of ct_line_up: 14, 12, 14, 13 and 11, the last for fewer than 4 bytes a stamp
   in order, work1 or work2. order gets the places of all stamps, 4 bytes each: first those that are not ordered
   and have no ordered stamp before them in their run, by run and then by place; then the ordered ones as
   ct_line_up has them, and directly behind each the stamps of its run that follow it, up to the next ordered
   one or to the end of the run. So every stamp has one line, and those of a run are in its order. What lies
   behind the places stays; what is left in work1 and work2 means nothing. A refused call writes neither numbers
   nor order. Of a run of three stamps, 2451545.0, 2451546.0 and 2451545.5, and a run of one, 2451545.25, the
   second of the first gets 17 and stands behind place 0: it is 3, and order has 0, 1, 3, 2; with first_count 5
   it is 14. */
int64_t ct_lines_in_order(const uint8_t *jd1, size_t jd1_len, const uint8_t *jd2, size_t jd2_len,
                          uint8_t *numbers, size_t numbers_len, uint64_t first_count, uint64_t second_count,
                          uint8_t *order, size_t order_len, uint8_t *work1, size_t work1_len, uint8_t *work2,
                          size_t work2_len);

/* How large a recorder's run is: stamp blocks one after the other, as document 01 has them, ended by the first
   that ct_block_stamps refuses; how long a block is, its first size says. Returns how many bytes the blocks
   take. out gets four numbers of 8 bytes, the lowest first: how many stamps, how many blocks, the number of the
   refusal that ends the run, 0 where none does, and 1. No bytes are a run of no block. Refuses 11 for fewer
   than 32 bytes in out. Of a block of one stamp and three bytes more it is 24, and out has 1, 1, 14 and 1; with
   31 bytes of out it is 11. */
#define CT_RUN_SIZE_BYTES 32
int64_t ct_run_size(const uint8_t *run, size_t run_len, uint8_t *out, size_t out_len);

/* The TAI of the stamps of such a run that was recorded in a scale, as recorded where a stamp has none: the
   parts of stamp i of the run in the places i of jd1 and jd2, 8 bytes each, and in numbers 0 or the number of
   its refusal, as ct_convert_run from that scale to CT_TAI has them. Returns how many stamps are refused. What
   lies behind the last stamp's places stays. The block that ends the run is no refusal here: ct_run_size tells
   its number.

   Refuses, in this order and before a byte is written, 14, 20, 21 and 22 for the table as ct_convert_run; 18
   for another scale than UTC, TAI, TT, GPS and TCG; 11 for fewer than 8 bytes a stamp in jd1 or jd2, or fewer
   than one in numbers. Of two stamps in two blocks of scale CT_UT1 with 15 bytes of jd1 it is 18; of scale
   CT_GPS it is 11, and with 16 it is 0 where both are finite. */
int64_t ct_take_run(uint32_t scale, const uint8_t *run, size_t run_len, const uint8_t *table, size_t table_len,
                    uint8_t *jd1, size_t jd1_len, uint8_t *jd2, size_t jd2_len, uint8_t *numbers,
                    size_t numbers_len);

/* The listing of three recorders in one line, in parts: the next part into the start of out, from the
   cursor on, and the cursor brought forward. It is that of the program line_up but for the lines of the
   runs, `gps 9000000 not finite 212 refused 0 left out 3`: `not finite` counts the stamps that are not
   ordered and not left out, and one of whose parts is not finite by its bits, `refused` the others of these.
   Returns the bytes that are written, 0 when all is. runs has three records of CT_RUN_SIZE_BYTES, GPS, TAI and UTC, as ct_run_size
   writes them; of the third number the lower four bytes are read. A run is named where its fourth number is
   1, and 32 zero bytes are one that is not: it has no line of its own in the head, and its stamps are listed
   all the same. jd1 and jd2 are the parts of the runs' stamps in TAI, one run after the other, as
   ct_lines_in_order took them; numbers and order what it left, order 4 bytes for each line, of which a rest
   of 1 to 3 bytes is not read. cursor is CT_CURSOR_BYTES bytes, all zero at the start: the next line, 0 for
   the head, and how many ordered stamps had no text so far. With reasons 1 the sentence of a number follows
   it, with 0 none. A part is the head, or whole lines, each given 43 bytes, or 84 with sentences, and at most
   256, or the last line; the parts joined are the same bytes whatever the buffers. The last line counts the
   numbers 0 as lined up.

   Refuses 14, 20, 21 and 22 for the table; 18 for reasons above 1; 14 for runs of another length than
   CT_RUNS_BYTES or a cursor of another than CT_CURSOR_BYTES; 12 for other than 8 bytes of jd1, 8 of jd2 and
   1 of numbers for each stamp of the runs; 18 for a line of the part that names a place past the stamps; 11
   for an out of less than CT_LINE_LISTING_BYTES. A refused call writes nothing, and the cursor stays. Of no
   run and no stamp the parts are "line up 0 runs\n" and "lined up 0 without text 0\n", then 0; into 549
   bytes it is 11. */
#define CT_RUNS_BYTES 96
#define CT_CURSOR_BYTES 16
#define CT_LINE_LISTING_BYTES 550
int64_t ct_line_listing_part(uint32_t reasons, const uint8_t *runs, size_t runs_len, const uint8_t *jd1,
                             size_t jd1_len, const uint8_t *jd2, size_t jd2_len, const uint8_t *numbers,
                             size_t numbers_len, const uint8_t *order, size_t order_len, const uint8_t *table,
                             size_t table_len, uint8_t *cursor, size_t cursor_len, uint8_t *out, size_t out_len);

/* What an analyst must see of three recorders' runs that were lined up. runs, jd1 and jd2 are those of
   ct_line_listing_part, numbers what ct_lines_in_order left. known is the day of ct_read_table, 0 where its
   text told none. table has CT_TABLE_BYTES. A named run has the line `gps first 2017-01-01T00:00:00.000
   last 2017-01-01T00:00:03.500 span 3.500 s`, the UTC of its first and its last ordered stamp, or `no
   text`, and the time between them by the rule of ct_milliseconds, or `span unknown`; or `gps no stamp is
   ordered`; and where stamps are left out `gps left out 3 first 17`, how many and the index in the run of
   the first. Then come a line of the table, `table 42 rows last 2017-01 37 lent 0 known until 2026-06-28`,
   and one for each bit of ct_line_look. Without known the day is the last of the sixth month from that of
   the last announced row, its own counted as the first, or, where there is none, that until which the library's
   own rows were checked. The answer is how many bytes are written. Refusals in order: 14, 20, 21, 22 the
   table, 14 other than 96 bytes of runs, 12 lists that do not agree with each other or with the stamps of
   the runs, 11 the buffer; CT_SUMMARY_BYTES are enough. */
#define CT_SUMMARY_BYTES 832
int64_t ct_line_summary(const uint8_t *runs, size_t runs_len, const uint8_t *jd1, size_t jd1_len,
                        const uint8_t *jd2, size_t jd2_len, const uint8_t *numbers, size_t numbers_len,
                        const uint8_t *table, size_t table_len, uint32_t known, uint8_t *out, size_t out_len);

/* What an analyst must look at, a number of these bits: a stamp is left out; a named run has no stamp; the
   UTC day of a run's last ordered stamp is later than the day until which the table is known; two runs begin and end apart,
   within half a second at both ends, by what two scales differ by, 18, 19 or 37 s, or TAI-UTC on the earlier
   first stamp's day or its difference from 19 s, or by twice one of these: their names may be exchanged.
   Arguments and refusals are those of ct_line_summary but the last. */
#define CT_LOOK_LEFT_OUT 1
#define CT_LOOK_NO_STAMP 2
#define CT_LOOK_AFTER_KNOWN 4
#define CT_LOOK_NAMES 8
int64_t ct_line_look(const uint8_t *runs, size_t runs_len, const uint8_t *jd1, size_t jd1_len,
                     const uint8_t *jd2, size_t jd2_len, const uint8_t *numbers, size_t numbers_len,
                     const uint8_t *table, size_t table_len, uint32_t known);

/* The days from the other date to this, rounded. With parts under 2^52 in size never of the wrong sign,
   but 0.0 also for some dates that differ, the further apart the larger their parts: (2457754.5, 0.0) and
   (2^-32, 2457754.5) are 20 microseconds apart, (2^51, 2457754.5 - 2^51) and (0.1, 2457754.5) 8,640 s. So
   it is no order to sort by: use ct_compare. The difference of two dates with the same infinity in the
   same part is a NaN. */
double ct_difference(double jd1, double jd2, double other1, double other2);

/* ---- Tables: leap rows that were announced after this library was built

   A call that reads TAI-UTC is lent a table of 0 to 16 rows, which stand behind the library's own 42:
   CT_TABLE_BYTES bytes. These are two sizes, 16 month starts (12 * year + month - 1) and 16 times
   TAI-UTC in whole seconds from then on, 4 bytes each, in two's complement, the lowest byte first.
   Places past the size are neither read nor judged. ct_no_rows is a table of no rows, and ct_table, at
   the end of this file, fills one from two arrays.
   A table is refused before anything else of the call, each number for all rows before the next: 14
   for another length than CT_TABLE_BYTES; 20 for sizes that differ or are above 16; 21 for a row that
   is not later than the one before it, the first than January 2017; 22 for a row that is not one
   second more or less than the one before it, the first than 37. With the months 2027-01, 2027-01 and
   the seconds 39, 40 it is 21; with one byte more it is 14. With no byte, a table that is refused is
   not 11. */
#define CT_TABLE_BYTES 136
static const uint8_t ct_no_rows[CT_TABLE_BYTES] = {0};

/* The number of rows of a table, the library's own among them: 42 to 58. Refuses 14; 20; 21; 22. */
int64_t ct_check_table(const uint8_t *table, size_t table_len);

/* The table of a text's rows, CT_TABLE_BYTES bytes into table, and the day until which it is known, 4 bytes
   into known: the Modified Julian Date of the text's expiry, of several the last, 0 where it tells none. The
   number of announced rows, 0 to 16; ct_check_table takes every such table.
   A line of the text is one of four. Empty, or a comment, which a # begins. A month and TAI-UTC from its
   first day on, as `2027-01 38`: 4 digits, a hyphen, 2 digits, spaces or tabs, 1 to 9 digits. The same as the
   IERS's file leap-seconds.list has it: the NTP seconds (since 1900-01-01, 86,400 a day, 1 to 12 digits) of
   the midnight that begins a month, to December 9999. Or an expiry: `#@`, spaces or tabs, NTP seconds. Spaces, tabs and
   carriage returns may stand before and behind each, and a comment behind it. A newline ends a line.
   A row that is not later than the library's last must be one that the library has; the later ones are lent.
   Refuses the first line at fault, which ct_table_fault tells: 15 outside these; 22 for a row not later than
   January 2017 that is not the library's, and so for every row before 1972; of a later one 20 where 16 stand
   before it, 21 where it is not later than the one before it, 22 where it is not one second more or less than
   that. Then 11. `2027-01 38` and a second line `2027-01 40` are 21, and with no byte for table too; `2028-1 39`
   before them is 15. */
#define CT_KNOWN_BYTES 4
int64_t ct_read_table(const uint8_t *text, size_t text_len, uint8_t *table, size_t table_len,
                      uint8_t *known, size_t known_len);

/* The line of a text that ct_read_table refuses, counted from 1; 0 for a text that is read. */
int64_t ct_table_fault(const uint8_t *text, size_t text_len);

/* ---- TAI-UTC: "the table" in front of the refusals is 14; 20; 21; 22, as above. A rule says which row
   of the table an offset was read from: its kind in 4 bytes, CT_RULE_ABSENT before 1960, CT_RULE_DRIFTING
   or CT_RULE_WHOLE, and its row in 4, counted from 0, of an absent rule -1. The rows 0 to 13 drift, 41 is
   that of 2017, and 42 the first announced one. */
#define CT_RULE_BYTES 8
#define CT_RULE_ABSENT 0
#define CT_RULE_DRIFTING 1
#define CT_RULE_WHOLE 2

/* TAI-UTC in seconds at a fraction of a day, and its rule; 16 bytes. Refuses the table; 7; then 1, 2, 3;
   11. 2000-13-01 with the fraction 1.5 is 7, and with a table of 135 bytes 14. */
int64_t ct_get_tai_utc_offset(int32_t year, int32_t month, int32_t day, double fraction,
                              const uint8_t *table, size_t table_len, uint8_t *out, size_t out_len);

/* The step of TAI-UTC at the end of a day in seconds; 8 bytes. On a day of 1960 to 1971 without a
   step it may be some last places off zero: 1960-01-01 gives -2^-53. Refuses the table; 1, 2, 3; then
   5 on 2147483647-12-31; 11. 2000-13-40 is 2, and 2147483647-12-31 with no byte 5. */
int64_t ct_leap_at_end_of_day(int32_t year, int32_t month, int32_t day, const uint8_t *table,
                              size_t table_len, uint8_t *out, size_t out_len);

/* TAI-UTC in seconds at 0h of each of many dates in time order, in one walk through the table: 8 bytes
   a date, in the dates' order. A date is 12 bytes: year, month, day; equal dates may follow each other.
   Returns the number of rows compared, at most the dates plus 58: a row counts each time a date's month
   is held against the start of the next row not yet reached. What lies behind the offsets stays.
   Refuses the table; 14 for a length of dates that is no multiple of 12; 11 for fewer whole places in
   out than dates, here before the dates' numbers; then date by date 1, 2, 3, and 17 for one earlier
   than the one before it. Nothing is written before all is judged. 2016-12-31, 2017-01-01 give 36.0,
   37.0 and 43 rows; no date gives 0. 1999-02-29 with no byte is 11; 2017-01-01, 2016-12-31, 1999-02-29
   are 17, and with one byte more of dates 14. */
int64_t ct_offsets_at_0h(const uint8_t *dates, size_t dates_len, const uint8_t *table, size_t table_len,
                         uint8_t *out, size_t out_len);

/* ---- Scales: a date of the first scale in, the date of the second out: jd1, jd2; 16 bytes */

/* Refuses 9; 11. (infinity, 0.0) with no byte is 9. ct_tcg_to_tai refuses 9 also where the TT in
   between is not finite: (1.7e308, 1.7e308) is 9. The others take every finite date, and a part of
   what they give may be an infinity: of this date ct_tcb_to_tdb gives (-infinity, 1.7e308). */
int64_t ct_gps_to_tai(double jd1, double jd2, uint8_t *out, size_t out_len);
int64_t ct_tai_to_gps(double jd1, double jd2, uint8_t *out, size_t out_len);
int64_t ct_tai_to_tt(double jd1, double jd2, uint8_t *out, size_t out_len);
int64_t ct_tt_to_tai(double jd1, double jd2, uint8_t *out, size_t out_len);
int64_t ct_tai_to_tcg(double jd1, double jd2, uint8_t *out, size_t out_len);
int64_t ct_tcg_to_tai(double jd1, double jd2, uint8_t *out, size_t out_len);
int64_t ct_tt_to_tcg(double jd1, double jd2, uint8_t *out, size_t out_len);
int64_t ct_tcg_to_tt(double jd1, double jd2, uint8_t *out, size_t out_len);
int64_t ct_tcb_to_tdb(double jd1, double jd2, uint8_t *out, size_t out_len);
int64_t ct_tdb_to_tcb(double jd1, double jd2, uint8_t *out, size_t out_len);

/* With an offset in seconds that the caller gives: TDB-TT, UT1-TAI or TT-UT1. Refuses 9; then 10;
   11. A date (NaN, 0.0) with the offset NaN is 9. */
int64_t ct_tt_to_tdb_with_offset(double jd1, double jd2, double seconds, uint8_t *out, size_t out_len);
int64_t ct_tdb_to_tt_with_offset(double jd1, double jd2, double seconds, uint8_t *out, size_t out_len);
int64_t ct_ut1_to_tai_with_offset(double jd1, double jd2, double seconds, uint8_t *out, size_t out_len);
int64_t ct_tai_to_ut1_with_offset(double jd1, double jd2, double seconds, uint8_t *out, size_t out_len);
int64_t ct_ut1_to_tt_with_delta_t(double jd1, double jd2, double seconds, uint8_t *out, size_t out_len);
int64_t ct_tt_to_ut1_with_delta_t(double jd1, double jd2, double seconds, uint8_t *out, size_t out_len);

/* ---- GPS weeks, counted from 1980-01-06 0h GPS: week 0 */

/* The GPS date of a week, 0 to 100,000, and a millisecond of it, below 604,800,000: its day's midnight
   in jd1, the milliseconds of the day as a part of a day in jd2; 16 bytes. Refuses 18; 11. Week 100001
   with no byte is 18. Weeks 1024 and 2048 begin on 1999-08-22 and 2019-04-07. */
int64_t ct_gps_from_week(uint32_t week, uint32_t millis, uint8_t *out, size_t out_len);

/* The week of a GPS date and the nearest millisecond of it, a half going up: 4 bytes each; 8 bytes. The
   date of ct_gps_from_week comes back as its week and millisecond. Refuses 9; then 6; then 18, where the
   rounded date is before week 0 or after week 100,000; 11. (infinity, -infinity) is 9, (1.7e308, 1.7e308)
   is 6, and (2444244.5, -1.0) with no byte is 18; half a millisecond before 2444244.5 is week 0. */
int64_t ct_gps_to_week(double jd1, double jd2, uint8_t *out, size_t out_len);

/* The week whose ten lowest bits are `ten_bits` and that lies nearest the reference week and is not below
   0: ten bits of 1023 at the reference 0 are week 1023. Refuses 18 for ten bits above 1,023 or a reference
   above 99,000; then 19, where two weeks are equally near. (1024, 512) is 18, and (0, 512) is 19. */
int64_t ct_gps_full_week(uint32_t ten_bits, uint32_t reference);

/* ---- UTC: on a day that ends in a leap second, jd2 runs to the end of its 86,401 seconds; on one that
   ends in a step of -1 s, which only an announced row can make, of its 86,399 */

/* The UTC date of a Unix time, divided downward: jd1, jd2; 16 bytes. Refuses the table; 8; 6; then 1;
   then 4, on a day that ends in a step back; 11. (INT64_MAX, 1000000000) is 8, and (INT64_MIN, 0)
   is 6, though its year is before -4799 too. The last second that Unix time counts in a day of
   86,399 s is 4. */
int64_t ct_utc_new(int64_t seconds, uint32_t nanos, const uint8_t *table, size_t table_len,
                   uint8_t *out, size_t out_len);

/* The UTC date of a day and time: jd1, jd2; 16 bytes. Refuses the table; 1, 2, 3; then 5; then 4, where
   the limit at 23:59 is 60 plus the day's leap; 11. 2147483647-12-31 at 25:00:00 is 5, and
   2016-12-31 23:59:60.0 is a date. */
int64_t ct_utc_from_calendar(int32_t year, uint8_t month, uint8_t day, uint8_t hour, uint8_t minute,
                             double second, const uint8_t *table, size_t table_len, uint8_t *out,
                             size_t out_len);

/* UTC to TAI: jd1, jd2, and the rule of the day; 24 bytes. And back: jd1, jd2; 16 bytes. Refuses the
   table; 6; then 1; 11. (-68571.0, 0.0) is 6, though its year is before -4799 too; (-31739.5, 0.0),
   which is -4800-12-31, with no byte is 1. */
int64_t ct_utc_to_tai(double jd1, double jd2, const uint8_t *table, size_t table_len, uint8_t *out,
                      size_t out_len);
int64_t ct_tai_to_utc(double jd1, double jd2, const uint8_t *table, size_t table_len, uint8_t *out,
                      size_t out_len);

/* A run of stamps of one scale in another, in one call. The scales are CT_UTC, CT_TAI, CT_TT, CT_GPS or
   CT_TCG. Stamp i is bytes 8 * i to 8 * i + 7 of jd1 and of jd2. Its date goes into the same bytes of out1
   and of out2, with the bits that the single calls give: through TAI (CT_UTC to CT_GPS is ct_utc_to_tai and
   then ct_tai_to_gps), but CT_TT to CT_TCG and back by ct_tt_to_tcg and ct_tcg_to_tt. Into numbers goes one
   byte a stamp: 0, or the number of the first refusal on the way, 1, 6 or 9; a refused stamp's bytes of out1
   and out2 stay. Returns how many stamps are refused; what lies behind the last stamp's places stays. From a
   scale to the same a stamp with finite parts passes with its bits, and any other is 9: a count of the
   others. Refuses the table, also where no scale is CT_UTC; 18 for another scale; 14 for a length of jd1 or
   jd2 that is no multiple of 8; 12 for jd1 and jd2 of different lengths; 11 for fewer bytes in out1 or out2
   than in jd1, or fewer in numbers than stamps. A refused call writes nothing. With the scales CT_UT1 and
   CT_UTC, 7 bytes of jd1 and none of jd2 it is 18, with CT_TAI in the place of CT_UT1 14, and with 8 bytes
   of jd1 12. The buffers overlap no other, so a run is not converted in its place. */
int64_t ct_convert_run(uint32_t from, uint32_t to, const uint8_t *jd1, size_t jd1_len, const uint8_t *jd2,
                       size_t jd2_len, const uint8_t *table, size_t table_len, uint8_t *out1,
                       size_t out1_len, uint8_t *out2, size_t out2_len, uint8_t *numbers,
                       size_t numbers_len);

/* A run of stamps by one conversion that is a formula and reads no table, in one call. The two scales are,
   either way round, CT_GPS and CT_TAI, CT_TAI and CT_TT, CT_TT and CT_TCG, or CT_TCB and CT_TDB; offsets has
   no byte then. Or they are CT_TAI and CT_UT1, CT_UT1 and CT_TT, or CT_TT and CT_TDB; bytes 8 * i to 8 * i + 7
   of offsets are then the offset of stamp i in seconds, UT1-TAI, TT-UT1 or TDB-TT. Stamps, dates and numbers
   lie as in ct_convert_run, with the bits that the single call between the two scales gives, which refuses a
   stamp by 9 or 10. Returns how many stamps are refused; a refused stamp's bytes of out1 and out2 stay, and
   what lies behind the last stamp's places. Refuses 18 for two other scales; 14 for a length of jd1, jd2 or
   offsets that is no multiple of 8; 12 for another length of jd2, or of offsets, than is due beside jd1; 11 as
   ct_convert_run. A refused call writes nothing. With CT_TAI and CT_TCG, 7 bytes of jd1 and none of jd2 it is
   18, with CT_TDB and CT_TCB 14, and with 8 bytes of jd1 12. The buffers overlap no other. */
int64_t ct_formula_run(uint32_t from, uint32_t to, const uint8_t *jd1, size_t jd1_len, const uint8_t *jd2,
                       size_t jd2_len, const uint8_t *offsets, size_t offsets_len, uint8_t *out1,
                       size_t out1_len, uint8_t *out2, size_t out2_len, uint8_t *numbers,
                       size_t numbers_len);

/* UTC to UT1 by DUT1 = UT1-UTC in seconds: jd1, jd2, and the rule of the day; 24 bytes. Refuses the
   table; 10; 6; then 1; 11. The date (NaN, 0.0) with DUT1 NaN is 10. */
int64_t ct_utc_to_ut1_with_dut1(double jd1, double jd2, double dut1, const uint8_t *table,
                                size_t table_len, uint8_t *out, size_t out_len);

/* UT1 to UTC: jd1, jd2; 16 bytes. Refuses the table; 10; 9; then 6 or 1 by the days from one before to
   three after, as far as they are looked up; 11. (NaN, 0.0) with DUT1 NaN is 10, and with DUT1 0.0 and
   no byte 9. */
int64_t ct_ut1_to_utc_with_dut1(double jd1, double jd2, double dut1, const uint8_t *table,
                                size_t table_len, uint8_t *out, size_t out_len);

/* The UTC date as text, 23 to 26 bytes: 2016-12-31T23:59:60.000, to the nearest millisecond, and in
   `rule` the rule of its day, 8 bytes: of the day before any carry, so a text that shows the next midnight
   has that of the day that ends there. No byte 0 ends the text; the call returns its length. Refuses the
   table; 6; then 1; 11, which 22 bytes are for 2000-01-01, and 1 to 7 for a rule; a rule_len of 0 asks for
   no rule. A refusal leaves both buffers. (-68571.0, 0.0) is 6; (-31739.5, 0.0), which is -4800-12-31, with
   no byte is 1. */
int64_t ct_to_iso8601(double jd1, double jd2, const uint8_t *table, size_t table_len, uint8_t *out,
                      size_t out_len, uint8_t *rule, size_t rule_len);

/* The same with a half millisecond to the even one: (2451544.5, 3.0 / 2048.0) is 2000-01-01T00:02:06.562,
   which ct_to_iso8601 shows as .563. Where the fraction of the day is a multiple of 2^-52 the millisecond
   is the one nearest to the exact time, 1959-12-31 aside; so the two can part next to a half as well.
   Length, rule, buffers and refusals are those of ct_to_iso8601. */
int64_t ct_to_iso8601_half_even(double jd1, double jd2, const uint8_t *table, size_t table_len,
                                uint8_t *out, size_t out_len, uint8_t *rule, size_t rule_len);

/* The text of ct_to_iso8601 with a sign and seven digits for a year outside 0000 to 9999: 23 bytes, or 27
   for -0000001-12-31T00:00:00.000 and +0012000-01-01T00:00:00.000. Rule, buffers and refusals are those of
   ct_to_iso8601, 11 by the new length: 26 bytes do not hold the year 12000. */
int64_t ct_to_iso8601_expanded(double jd1, double jd2, const uint8_t *table, size_t table_len,
                               uint8_t *out, size_t out_len, uint8_t *rule, size_t rule_len);

/* The forms of text by number, in ct_texts_of_run: those of ct_to_iso8601, ct_to_iso8601_half_even and
   ct_to_iso8601_expanded. */
enum { CT_TEXT, CT_TEXT_HALF_EVEN, CT_TEXT_EXPANDED };

/* The texts of a run of UTC dates in one call. Stamp i is bytes 8 * i to 8 * i + 7 of jd1 and of jd2. Its text,
   which is that of the single call of the form, goes into texts from byte 27 * i on, its length into byte i of
   lengths, and into byte i of numbers 0, or the number of its refusal, 6 or 1. The bytes behind a text stay
   as they were, up to byte 27 * i + 26, and all 27 of a refused stamp, whose length is 0; and what lies behind
   the last stamp's places. Returns how many stamps are refused. Refuses the table; 18 for another form; 14 for
   a length of jd1 or jd2 that is no multiple of 8; 12 for jd1 and jd2 of different lengths; 11 for fewer bytes
   in texts than 27 a stamp, or fewer in lengths or in numbers than stamps. A refused call writes nothing. With
   form 3, 7 bytes of jd1 and none of jd2 it is 18, with CT_TEXT in the place of 3 14, and with 8 bytes of jd1
   12. The buffers overlap no other. */
int64_t ct_texts_of_run(uint32_t text_form, const uint8_t *jd1, size_t jd1_len, const uint8_t *jd2,
                        size_t jd2_len, const uint8_t *table, size_t table_len, uint8_t *texts,
                        size_t texts_len, uint8_t *lengths, size_t lengths_len, uint8_t *numbers,
                        size_t numbers_len);

/* ---- Text read: YYYY-MM-DDThh:mm:ss, or a blank for the T, with a point and 1 to 13 digits or none.
   Bytes 9 to 13 and 32 around it are dropped. The second is the float nearest to its decimal. A byte
   0 does not end a text. */

/* The six fields of a text of any scale: year, month, day, hour, minute as 4 bytes each, second as 8;
   28 bytes. Second 60 may stand in any minute; a Z is 15. Refuses 15; 16, more than 13 digits; 2, 3;
   then 4, an hour above 23, a minute above 59 or a second from 61 up; 11. 2000-13-01T24:00:00 with no
   byte is 2. */
int64_t ct_parse_iso8601(const uint8_t *text, size_t text_len, uint8_t *out, size_t out_len);

/* The six fields of a UTC text, which may have one Z directly behind its second, and then the date
   that ct_utc_from_calendar gives: jd1, jd2; 44 bytes. Refuses the table; 15; 16; 2, 3; then 4, where
   the limit at 23:59 is 60 plus the day's leap; 11. 2016-12-31T23:59:60.5Z is a date,
   2015-12-31T23:59:60 is 4, and 2000-13-01T24:00:00Z with no byte is 2. What ct_to_iso8601 writes by
   the same table, of a shown year 1972 to 9999, reads back as its fields, and its date has that text. */
int64_t ct_utc_from_iso8601(const uint8_t *text, size_t text_len, const uint8_t *table, size_t table_len,
                            uint8_t *out, size_t out_len);

/* The dates of a run of UTC texts in one call. Text i is as many bytes from byte 27 * i of texts on as byte i
   of lengths says, as ct_texts_of_run writes it; of more than 27 it is 15. The parts of its date, which is
   that of ct_utc_from_iso8601, go into bytes 8 * i to 8 * i + 7 of out1 and of out2, and into byte i of numbers
   0, or the number of its refusal, 15, 16, 2, 3 or 4. A refused text's places stay as they were, and what lies
   behind the last text's places. Returns how many texts are refused. Refuses the table; 14 for a length of
   texts that is no multiple of 27; 12 for another number of lengths than of texts; 11 for fewer bytes in out1
   or out2 than 8 a text, or fewer in numbers than texts. A refused call writes nothing. With 26 bytes of texts
   and no length it is 14, with 27 12. The buffers overlap no other. */
int64_t ct_dates_of_texts(const uint8_t *texts, size_t texts_len, const uint8_t *lengths, size_t lengths_len,
                          const uint8_t *table, size_t table_len, uint8_t *out1, size_t out1_len,
                          uint8_t *out2, size_t out2_len, uint8_t *numbers, size_t numbers_len);

/* ---- Stamp block: two sizes of 4 bytes, all jd1, then all jd2, the lowest byte first */

/* The number of stamps, 0 to 4,000. Refuses 14 under 8 bytes; 12; 13; then 14 for any other length
   than 8 + 16 times the size. Sizes 4001 and 4002 are 12. */
int64_t ct_block_stamps(const uint8_t *block, size_t block_len);

/* A part of the block's listing, from line `line` on: as many whole lines as surely fit, where one is
   begun only if 33 bytes are left, the longest line. Line 0 is the header and line i + 1 stamp i's, with
   the text of 23 or 27 bytes in which a year outside 0000 to 9999 has a sign and seven digits; a refused
   block has line 0 alone. Returns the number of bytes, 0 past the last line. The next part begins at `line`
   plus the line ends (byte 10) in this one. Refuses the table; then 11, where out_len is below 33. */
int64_t ct_listing_part(const uint8_t *block, size_t block_len, uint32_t line, const uint8_t *table,
                        size_t table_len, uint8_t *out, size_t out_len);

/* The second listing: as ct_listing_part, with a sentence in the place of `refused` and the number, on the
   lines of stamps and after `block`. The header is the same. A stamp that is refused by 6 names the rounded
   sum of its parts, by 1 its year; a block by 12 the second size, by 13 the size, and by 14 `input_len`: how
   many bytes came in all, of which the block has the first (block_len, where all are there; a block that is
   cut off after 64,009 bytes is refused as a whole one would be). input_len is not held against block_len:
   where it is 8 + 16 times the first size none is named, also of a block of fewer than 8 bytes. A line has
   at most 64 bytes, and 11 is where out_len is below 64. */
int64_t ct_reason_listing_part(const uint8_t *block, size_t block_len, uint64_t input_len, uint32_t line,
                               const uint8_t *table, size_t table_len, uint8_t *out, size_t out_len);

/* ---- A refusal's reason as a sentence, in plain English: docs/generated/refusals.md has them all */

/* The sentence of a refusal's number, 1 to 28, for a screen: printable ASCII, no line end, at most
   CT_SENTENCE_BYTES. Returns its bytes. ct_reason has no values, and its sentence names no field. The others
   take the values that the refused call's test read, and where a value fails the test of that number, the
   sentence ends with the field and its value: ": month 13". A whole number is decimal; a float is the 16
   hexadecimal digits of its bits, any NaN 7ff8000000000000. Each number goes by its own test alone: 3 with
   month 13 names the day. A number that is not of the call's group names none, and so do values that pass.
      ct_date_reason   1 year, 2 month, 3 day
      ct_time_reason   4 the first wrong one of hour, minute, second; leap is the day's length less 86,400 s,
                       and where it is not finite no second is right
      ct_parts_reason  6 the rounded sum jd1 + jd2, 9 the first part that is not finite
      ct_float_reason  7 a fraction, 10 an offset
      ct_count_reason  8 nanos
      ct_block_reason  12 the second size, 13 the size, 14 the whole length
   Each refuses 18 for a number that is not 1 to 28; 11. Number 0 with no byte is 18. */
#define CT_SENTENCE_BYTES 57
int64_t ct_reason(uint32_t number, uint8_t *out, size_t out_len);
int64_t ct_date_reason(uint32_t number, int32_t year, int32_t month, int32_t day, uint8_t *out,
                       size_t out_len);
int64_t ct_time_reason(uint32_t number, uint8_t hour, uint8_t minute, double second, double leap,
                       uint8_t *out, size_t out_len);
int64_t ct_parts_reason(uint32_t number, double jd1, double jd2, uint8_t *out, size_t out_len);
int64_t ct_float_reason(uint32_t number, double x, uint8_t *out, size_t out_len);
int64_t ct_count_reason(uint32_t number, uint32_t n, uint8_t *out, size_t out_len);
int64_t ct_block_reason(uint32_t number, uint64_t length, uint32_t size, uint32_t second_size, uint8_t *out,
                        size_t out_len);

/* ---- Milliseconds since launch: two dates of one uniform scale, TAI, GPS, TT, TCG, TCB or TDB, whose days
   have 86,400 s; the scale is not told, and UTC and UT1 are none */

/* The whole milliseconds from (from1, from2) to (jd1, jd2), to the nearest, a half going up. Of dates on the
   grid (multiples of 2^-52 day under 2^52 days) it is decided on whole numbers, however they are divided; of
   others with parts under 2^52 it is within 0.5 ms and 96 ps of the exact ones. Dates of ct_gps_from_week,
   and the same through ct_gps_to_tai, give the difference of their milliseconds. Refuses 9 for a part of
   either date that is not finite; then 6; then 18, where the milliseconds are not 0 to 2^40 - 1, some 34.8
   years. From (2444244.5, 0.0) to (2444244.5, 0.5) are 43200000, back is 18, and to (3e9, NaN) 9; from
   (3e9, 0.0) back is 6. */
int64_t ct_milliseconds(double from1, double from2, double jd1, double jd2);

/* The milliseconds from one launch to each stamp of a run, in one call. Stamp i is bytes 8 * i to 8 * i + 7 of
   jd1 and of jd2. Its milliseconds go into the same bytes of millis, the lowest first, as ct_milliseconds has
   them (ct_pattern_at reads them, and ct_place_ticks takes them as pass_millis); into numbers goes one byte a
   stamp: 0, or 9, 6 or 18. A refused stamp's bytes of millis stay. Returns how many stamps are refused; what
   lies behind the last stamp's places stays. Refuses 9, then 6, for the launch; 14 for a length of jd1 or jd2
   that is no multiple of 8; 12 for jd1 and jd2 of different lengths; 11 for fewer bytes in millis than in jd1,
   or fewer in numbers than stamps. A refused call writes nothing. With the launch (NaN, 3e9) and 7 bytes of
   jd1 it is 9, with the launch (3e9, 0.0) 6, with (2444244.5, 0.0) 14, and with 8 bytes of jd1 and none of jd2
   12. The buffers overlap no other. */
int64_t ct_milliseconds_of_run(double from1, double from2, const uint8_t *jd1, size_t jd1_len,
                               const uint8_t *jd2, size_t jd2_len, uint8_t *millis, size_t millis_len,
                               uint8_t *numbers, size_t numbers_len);

/* ---- Ticks and readings between marker passes: lists of 8 bytes a number, the lowest byte first */

/* Each tick's TAI millisecond on the straight line between the passes beside it, rounded down: 8 bytes a
   tick, in the ticks' order. Pass i is number i of pass_ticks and of pass_millis. Ticks stand in any order
   and may repeat; a tick at a pass has that pass's millisecond. Returns 8 times the number of ticks, 0 for
   no tick; what lies behind the results stays. Refuses 14 for a length of the three lists that is no
   multiple of 8; 11 for fewer whole places in out than ticks; 23 for lists of passes that are unequal,
   under 2 or over 2,000, or have a number of 2^40 or more; 24 for passes that do not rise strictly in both;
   25 for a tick before the first pass or after the last, 2^40 too. Nothing is written before all is judged.
   Passes 0, 1000 at 0, 500 ms: tick 3 is at 1, and ticks 0, 1001 are 25. With 15 bytes these are 11, and
   with 16 and passes 0, 0 at 0, 500 ms they are 24. */
int64_t ct_place_ticks(const uint8_t *pass_ticks, size_t pass_ticks_len, const uint8_t *pass_millis,
                       size_t pass_millis_len, const uint8_t *ticks, size_t ticks_len, uint8_t *out,
                       size_t out_len);

/* The place along the pipe of each reading of a run: that of its TAI millisecond on the straight line
   between the passes beside it, rounded down to the millimetre. Pass i is number i of pass_millis, when the
   marker was passed, and of pass_places, where it is. Reading i is number i of millis, its place number i of
   places, 8 bytes each, and its own number byte i of numbers, in and out: any other than 0 says by what it
   was refused before, and stays; a 0 becomes 25 before the first pass or after the last, 2^40 too, and else
   stays. Readings stand in any order and may repeat; one at a pass has that pass's place. Returns how many
   have a number other than 0; their 8 bytes of places stay, and what lies behind.

   Refuses 14 for a length of the first three lists that is no multiple of 8; 12 for another number of bytes
   in numbers than of readings; 11 for fewer whole places in places than readings; 23 and 24 for the passes,
   as ct_place_ticks. A refused call writes nothing. Passes at 1000, 2000 ms by 0, 500 mm: of the readings
   1003, 2001 with the numbers 0, 0 the first is at 1, the second gets 25, and 1 is returned. With 15 bytes
   of places it is 11, with three numbers besides 12, and with 16 bytes and passes at 1000, 1000 ms 24. */
int64_t ct_place_readings(const uint8_t *pass_millis, size_t pass_millis_len, const uint8_t *pass_places,
                          size_t pass_places_len, const uint8_t *millis, size_t millis_len, uint8_t *places,
                          size_t places_len, uint8_t *numbers, size_t numbers_len);

/* ---- Crew standby by quarter hours */

/* The bill between two UTC times: each started 900 s, leap seconds counted, at `rate` cents, shared between
   two owners by metres of line. 24 bytes: quarters 8, the first owner's cents 8, the second's 8 (ct_pattern_at
   reads them). Both shares are rounded down, and a cent left over goes to the larger remainder, a tie to the
   first. Equal times cost 0. Refuses the table's; of the start, then of the end: 1 for a year before 1972,
   2, 3, 5, 4 as ct_utc_from_calendar, 4 also for a millisecond over 999; 26 for an end before the start;
   27 for a rate, a length or quarters over 1,000,000; 28 for both lengths 0; 11 last. 2016-12-31 23:45:00
   to 2017-01-01 0h is 2 quarters. An end on 1971-13-01 is 1, and with a start of second 60 at 23:58 4. */
int64_t ct_standby_bill(int32_t start_year, uint8_t start_month, uint8_t start_day, uint8_t start_hour,
                        uint8_t start_minute, uint8_t start_second, uint32_t start_millis, int32_t end_year,
                        uint8_t end_month, uint8_t end_day, uint8_t end_hour, uint8_t end_minute,
                        uint8_t end_second, uint32_t end_millis, uint32_t rate, uint32_t first_metres,
                        uint32_t second_metres, const uint8_t *table, size_t table_len, uint8_t *out,
                        size_t out_len);

/* ---- Writing and reading bytes: these and ct_float_mode are compiled with the viewer, not in the archive */

/* The 4 bytes of a number of 32 bits, the lowest first. */
static inline void ct_put_number(uint8_t *bytes, uint32_t number)
{
    int i;
    for (i = 0; i < 4; i++) bytes[i] = (uint8_t)(number >> 8 * i);
}

/* A table of so many rows: their month starts, 12 * year + month - 1, and their seconds. More than 16
   rows are not read, and the calls refuse the table by 20. */
static inline void ct_table(const int32_t *months, const int32_t *seconds, uint32_t rows,
                            uint8_t table[CT_TABLE_BYTES])
{
    uint32_t i;
    memset(table, 0, CT_TABLE_BYTES);
    ct_put_number(table, rows);
    ct_put_number(table + 4, rows);
    for (i = 0; i < rows && i < 16; i++) {
        ct_put_number(table + 8 + 4 * i, (uint32_t)months[i]);
        ct_put_number(table + 72 + 4 * i, (uint32_t)seconds[i]);
    }
}

/* The number of `count` bytes, the lowest first, 8 at the most. */
static inline uint64_t ct_pattern_at(const uint8_t *bytes, int count)
{
    uint64_t pattern = 0;
    while (count > 0) pattern = pattern << 8 | bytes[--count];
    return pattern;
}

/* The float whose 8 bytes begin at `bytes`: a part in a block, or a field of an answer. A NaN
   keeps its bits. */
static inline double ct_float_at(const uint8_t *bytes)
{
    uint64_t pattern = ct_pattern_at(bytes, 8);
    double x;
    memcpy(&x, &pattern, sizeof x);
    return x;
}

/* The bits of a float, as ct_same_stamp takes them. A stamp that was recorded as bytes is better read
   by ct_pattern_at: on its way through a float a NaN may lose bits. */
static inline uint64_t ct_bits_of(double x)
{
    uint64_t pattern;
    memcpy(&pattern, &x, sizeof pattern);
    return pattern;
}

/* The year, month or day whose 4 bytes begin at `bytes`. */
static inline int32_t ct_int_at(const uint8_t *bytes)
{
    uint32_t pattern = (uint32_t)ct_pattern_at(bytes, 4);
    int32_t n;
    memcpy(&n, &pattern, sizeof n);
    return n;
}

/* ---- Float mode */

enum {
    CT_MODE_ROUNDING = 1, /* sums are not rounded to nearest, ties to even */
    CT_MODE_RESULTS = 2,  /* subnormal results are flushed to zero */
    CT_MODE_OPERANDS = 4  /* subnormal operands are read as zero */
};

/* A float that the compiler can't know, and the bits of one that it can't foresee: what lies
   between is computed when the program runs, with -ffast-math too. */
static inline double ct_opaque_float(uint64_t pattern)
{
    volatile uint64_t kept = pattern;
    uint64_t loaded = kept;
    double x;
    memcpy(&x, &loaded, sizeof x);
    return x;
}

static inline uint64_t ct_opaque_bits(double x)
{
    volatile double kept = x;
    double loaded = kept;
    uint64_t pattern;
    memcpy(&pattern, &loaded, sizeof pattern);
    return pattern;
}

/* 0 where the calling thread's float mode is as the library assumes, else the sum of the
   CT_MODE_ numbers above. A thread has the mode of the one that started it. Where a program
   can't be linked otherwise, fesetenv(FE_DFL_ENV) of <fenv.h> sets the default mode. */
static inline int ct_float_mode(void)
{
    double one = ct_opaque_float(0x3ff0000000000000);
    double half_place = ct_opaque_float(0x3ca0000000000000);         /* 2^-53 */
    double three_quarters = ct_opaque_float(0x3ca8000000000000);     /* 3 * 2^-54 */
    double smallest_normal = ct_opaque_float(0x0010000000000000);    /* 2^-1022 */
    double smallest = ct_opaque_float(0x0000000000000001);           /* 2^-1074 */
    double half = ct_opaque_float(0x3fe0000000000000);
    double large = ct_opaque_float(0x4330000000000000);              /* 2^52 */
    int mode = 0;
    if (ct_opaque_bits(one + half_place) != 0x3ff0000000000000 ||
        ct_opaque_bits(one + three_quarters) != 0x3ff0000000000001)
        mode |= CT_MODE_ROUNDING;
    if (ct_opaque_bits(smallest_normal * half) != 0x0008000000000000) mode |= CT_MODE_RESULTS;
    if (ct_opaque_bits(smallest * large) != 0x0010000000000000) mode |= CT_MODE_OPERANDS;
    return mode;
}

#ifdef __cplusplus
}
#endif

#endif
