/* Every call that takes a date, on the stamps of a block that are not finite: each must refuse each of them by its
   number, however this program was compiled and linked.
     not_finite BLOCK
   Prints, too, how many stamps the C library's isnan finds in this build: none where the compiler has dropped it. */
#include "check.h"
#include "patterns.h"
#include <math.h>

enum { NOT_FINITE_STAMPS = 212, MOST_BYTES = 64008, ROOM = 32 };

typedef int64_t plain_call(double, double, uint8_t *, size_t);
typedef int64_t offset_call(double, double, double, uint8_t *, size_t);

/* The calls that are lent a table, with no rows. */
#define PLAIN_WITH_NO_ROWS(name, call) \
    static int64_t name(double jd1, double jd2, uint8_t *out, size_t out_len) { return call(jd1, jd2, ct_no_rows, CT_TABLE_BYTES, out, out_len); }
#define OFFSET_WITH_NO_ROWS(name, call) \
    static int64_t name(double jd1, double jd2, double dut1, uint8_t *out, size_t out_len) { return call(jd1, jd2, dut1, ct_no_rows, CT_TABLE_BYTES, out, out_len); }
#define TEXT_WITH_NO_ROWS(name, call) \
    static int64_t name(double jd1, double jd2, uint8_t *out, size_t out_len) \
    { \
        uint8_t rule[CT_RULE_BYTES]; \
        return call(jd1, jd2, ct_no_rows, CT_TABLE_BYTES, out, out_len, rule, sizeof rule); \
    }
TEXT_WITH_NO_ROWS(text, ct_to_iso8601)
TEXT_WITH_NO_ROWS(half_even_text, ct_to_iso8601_half_even)
TEXT_WITH_NO_ROWS(expanded_text, ct_to_iso8601_expanded)
PLAIN_WITH_NO_ROWS(utc_to_tai, ct_utc_to_tai)
PLAIN_WITH_NO_ROWS(tai_to_utc, ct_tai_to_utc)
OFFSET_WITH_NO_ROWS(utc_to_ut1, ct_utc_to_ut1_with_dut1)
OFFSET_WITH_NO_ROWS(ut1_to_utc, ct_ut1_to_utc_with_dut1)

static const struct { const char *name; plain_call *ask; int number; } PLAIN[] = {
    {"ct_to_iso8601", text, 6}, {"ct_to_iso8601_half_even", half_even_text, 6}, {"ct_to_iso8601_expanded", expanded_text, 6}, {"ct_julian_to_calendar", ct_julian_to_calendar, 6},
    {"ct_utc_to_tai", utc_to_tai, 6}, {"ct_tai_to_utc", tai_to_utc, 6},
    {"ct_gps_to_tai", ct_gps_to_tai, 9}, {"ct_tai_to_gps", ct_tai_to_gps, 9},
    {"ct_tai_to_tt", ct_tai_to_tt, 9},   {"ct_tt_to_tai", ct_tt_to_tai, 9},
    {"ct_tai_to_tcg", ct_tai_to_tcg, 9}, {"ct_tcg_to_tai", ct_tcg_to_tai, 9},
    {"ct_tt_to_tcg", ct_tt_to_tcg, 9},   {"ct_tcg_to_tt", ct_tcg_to_tt, 9},
    {"ct_tcb_to_tdb", ct_tcb_to_tdb, 9}, {"ct_tdb_to_tcb", ct_tdb_to_tcb, 9},
    {"ct_gps_to_week", ct_gps_to_week, 9},
};

static const struct { const char *name; offset_call *ask; int number; } WITH_OFFSET[] = {
    {"ct_tt_to_tdb_with_offset", ct_tt_to_tdb_with_offset, 9},
    {"ct_tdb_to_tt_with_offset", ct_tdb_to_tt_with_offset, 9},
    {"ct_ut1_to_tai_with_offset", ct_ut1_to_tai_with_offset, 9},
    {"ct_tai_to_ut1_with_offset", ct_tai_to_ut1_with_offset, 9},
    {"ct_ut1_to_tt_with_delta_t", ct_ut1_to_tt_with_delta_t, 9},
    {"ct_tt_to_ut1_with_delta_t", ct_tt_to_ut1_with_delta_t, 9},
    {"ct_utc_to_ut1_with_dut1", utc_to_ut1, 6},
    {"ct_ut1_to_utc_with_dut1", ut1_to_utc, 9},
};

#define COUNT(table) (sizeof table / sizeof *table)

static uint8_t out[ROOM];

static uint8_t *fresh(void)
{
    memset(out, 0xa5, sizeof out);
    return out;
}

static int untouched(void)
{
    size_t i;
    for (i = 0; i < sizeof out; i++)
        if (out[i] != 0xa5) return 0;
    return 1;
}

static void due(const char *name, int number, int64_t code)
{
    check(code == -number && untouched(), "%s says %ld of a stamp that is not finite", name, (long)code);
}

static void ask_all(double jd1, double jd2)
{
    size_t i;
    for (i = 0; i < COUNT(PLAIN); i++) due(PLAIN[i].name, PLAIN[i].number, PLAIN[i].ask(jd1, jd2, fresh(), ROOM));
    for (i = 0; i < COUNT(WITH_OFFSET); i++)
        due(WITH_OFFSET[i].name, WITH_OFFSET[i].number, WITH_OFFSET[i].ask(jd1, jd2, 0.5, fresh(), ROOM));
    fresh(); /* which ct_compare is not lent */
    due("ct_compare", 9, ct_compare(jd1, jd2, 2451545.0, 0.25));
    due("ct_compare, the other date", 9, ct_compare(2451545.0, 0.25, jd1, jd2));
}

/* A part that is not finite in the place of the offset; 10 comes after 9 in six calls and before it in two. */
static void ask_offsets(double not_finite)
{
    size_t i;
    for (i = 0; i < COUNT(WITH_OFFSET); i++)
        due(WITH_OFFSET[i].name, 10, WITH_OFFSET[i].ask(2451545.0, 0.25, not_finite, fresh(), ROOM));
}

/* The block as a run, between each two scales: every stamp that is not finite gets its number, 6 where the leap table is read first and else 9, keeps the bytes of its
   places, and is counted. Beside them the block has dates at the ends of the calendar, which leave it on their way to UTC: two of the first midnight of -4799, which as TT
   is the day before (1), and 1e9, which as GPS is past the last (6). */
static void ask_runs(const uint8_t *jd1, const uint8_t *jd2, size_t stamps, const uint8_t *dead)
{
    static const uint32_t SCALES[] = {CT_UTC, CT_TAI, CT_TT, CT_GPS, CT_TCG};
    static uint8_t out1[MOST_BYTES], out2[MOST_BYTES], numbers[MOST_BYTES];
    size_t i, k, j;
    for (i = 0; i < COUNT(SCALES); i++)
        for (k = 0; k < COUNT(SCALES); k++) {
            int number = i != k && (SCALES[i] == CT_UTC || (SCALES[i] == CT_TAI && SCALES[k] == CT_UTC)) ? 6 : 9, right = 1, outside = 0;
            int tt = SCALES[i] == CT_TT && SCALES[k] == CT_UTC, gps = SCALES[i] == CT_GPS && SCALES[k] == CT_UTC, leave = tt ? 2 : gps ? 1 : 0;
            memset(out1, 0xa5, sizeof out1);
            memset(out2, 0xa5, sizeof out2);
            check(ct_convert_run(SCALES[i], SCALES[k], jd1, 8 * stamps, jd2, 8 * stamps, ct_no_rows, CT_TABLE_BYTES, out1, sizeof out1, out2, sizeof out2, numbers, sizeof numbers) ==
                      NOT_FINITE_STAMPS + leave,
                  "ct_convert_run from %d to %d counts other stamps", (int)SCALES[i], (int)SCALES[k]);
            for (j = 0; j < stamps; j++) {
                int stays = ct_pattern_at(out1 + 8 * j, 8) == 0xa5a5a5a5a5a5a5a5u && ct_pattern_at(out2 + 8 * j, 8) == 0xa5a5a5a5a5a5a5a5u;
                if (!dead[j] && numbers[j] == (tt ? 1 : 6)) outside++;
                else if (numbers[j] != (dead[j] ? number : 0)) right = 0;
                if (stays != (numbers[j] != 0)) right = 0;
            }
            check(right && outside == leave, "ct_convert_run from %d to %d has other numbers or places", (int)SCALES[i], (int)SCALES[k]);
        }
}

static int not_finite(const uint8_t *at) { return (at[7] & 0x7f) == 0x7f && (at[6] & 0xf0) == 0xf0; }

/* And by each conversion that is a formula: 9 for every stamp that is not finite, whatever its offset, and 10 for every other whose offset is not. */
static void ask_formula_run(uint32_t from, uint32_t to, const uint8_t *jd1, const uint8_t *jd2, const uint8_t *offsets, size_t stamps, const uint8_t *due)
{
    static const uint8_t none[1];
    static uint8_t out1[MOST_BYTES], out2[MOST_BYTES], numbers[MOST_BYTES];
    int64_t refused = 0;
    int right = 1;
    size_t j;
    memset(out1, 0xa5, sizeof out1);
    memset(out2, 0xa5, sizeof out2);
    for (j = 0; j < stamps; j++) refused += due[j] != 0;
    check(ct_formula_run(from, to, jd1, 8 * stamps, jd2, 8 * stamps, offsets ? offsets : none, offsets ? 8 * stamps : 0, out1, sizeof out1, out2, sizeof out2, numbers, sizeof numbers) == refused,
          "ct_formula_run from %d to %d counts other stamps", (int)from, (int)to);
    for (j = 0; j < stamps; j++) {
        int stays = ct_pattern_at(out1 + 8 * j, 8) == 0xa5a5a5a5a5a5a5a5u && ct_pattern_at(out2 + 8 * j, 8) == 0xa5a5a5a5a5a5a5a5u;
        if (numbers[j] != due[j] || stays != (due[j] != 0)) right = 0;
    }
    check(right, "ct_formula_run from %d to %d has other numbers or places", (int)from, (int)to);
}

/* The six with an offset first with offsets that are all finite; then with the first parts as the offsets; then with these for stamps that are all finite. */
static void ask_formula_runs(const uint8_t *jd1, const uint8_t *jd2, size_t stamps, const uint8_t *dead)
{
    static const uint32_t PLAIN_PAIRS[][2] = {{CT_GPS, CT_TAI}, {CT_TAI, CT_GPS}, {CT_TAI, CT_TT}, {CT_TT, CT_TAI}, {CT_TT, CT_TCG}, {CT_TCG, CT_TT}, {CT_TCB, CT_TDB}, {CT_TDB, CT_TCB}};
    static const uint32_t OFFSET_PAIRS[][2] = {{CT_TAI, CT_UT1}, {CT_UT1, CT_TAI}, {CT_UT1, CT_TT}, {CT_TT, CT_UT1}, {CT_TT, CT_TDB}, {CT_TDB, CT_TT}};
    static uint8_t by_parts[MOST_BYTES], by_offset[MOST_BYTES], ones[3][MOST_BYTES], parts[MOST_BYTES];
    size_t i, j;
    memcpy(parts, jd1, 8 * stamps); /* buffers overlap no other */
    for (j = 0; j < stamps; j++) {
        by_parts[j] = dead[j] ? 9 : 0;
        by_offset[j] = not_finite(jd1 + 8 * j) ? 10 : 0;
        for (i = 0; i < COUNT(ones); i++) {
            ones[i][8 * j + 6] = 0xf0;
            ones[i][8 * j + 7] = 0x3f;
        }
    }
    for (i = 0; i < COUNT(PLAIN_PAIRS); i++) ask_formula_run(PLAIN_PAIRS[i][0], PLAIN_PAIRS[i][1], jd1, jd2, NULL, stamps, by_parts);
    for (i = 0; i < COUNT(OFFSET_PAIRS); i++) {
        ask_formula_run(OFFSET_PAIRS[i][0], OFFSET_PAIRS[i][1], jd1, jd2, ones[0], stamps, by_parts);
        ask_formula_run(OFFSET_PAIRS[i][0], OFFSET_PAIRS[i][1], jd1, jd2, parts, stamps, by_parts);
        ask_formula_run(OFFSET_PAIRS[i][0], OFFSET_PAIRS[i][1], ones[1], ones[2], parts, stamps, by_offset);
    }
}

/* And its texts in one call, in each form: 6, no length and no byte for every stamp that is not finite, a text for each other. */
static void ask_texts_of_run(const uint8_t *jd1, const uint8_t *jd2, size_t stamps, const uint8_t *dead)
{
    static uint8_t texts[27 * MOST_BYTES / 16], lengths[MOST_BYTES], numbers[MOST_BYTES];
    uint32_t form;
    size_t j, k;
    for (form = CT_TEXT; form <= CT_TEXT_EXPANDED; form++) {
        int right = 1;
        memset(texts, 0xa5, sizeof texts);
        check(ct_texts_of_run(form, jd1, 8 * stamps, jd2, 8 * stamps, ct_no_rows, CT_TABLE_BYTES, texts, sizeof texts, lengths, sizeof lengths, numbers, sizeof numbers) == NOT_FINITE_STAMPS,
              "ct_texts_of_run by form %d counts other stamps", (int)form);
        for (j = 0; j < stamps; j++) {
            if (numbers[j] != (dead[j] ? 6 : 0) || (lengths[j] == 0) != (dead[j] != 0)) right = 0;
            for (k = lengths[j]; k < 27; k++) right = right && texts[27 * j + k] == 0xa5;
            for (k = 0; k < lengths[j]; k++) right = right && texts[27 * j + k] != 0xa5;
        }
        check(right, "ct_texts_of_run by form %d has other numbers, lengths or bytes", (int)form);
    }
}

/* And the milliseconds since a launch in one call: 9 and no byte for every stamp that is not finite; of each other the single call's, which may be before the
   launch. A launch that is not finite refuses the call. */
static void ask_milliseconds(const uint8_t *jd1, const uint8_t *jd2, size_t stamps, const uint8_t *dead)
{
    static uint8_t millis[MOST_BYTES], numbers[MOST_BYTES];
    int64_t refused = 0, code;
    int right = 1;
    size_t j;
    memset(millis, 0xa5, sizeof millis);
    code = ct_milliseconds_of_run(2444244.5, 0.0, jd1, 8 * stamps, jd2, 8 * stamps, millis, sizeof millis, numbers, sizeof numbers);
    for (j = 0; j < stamps; j++) {
        int64_t one = ct_milliseconds(2444244.5, 0.0, ct_float_at(jd1 + 8 * j), ct_float_at(jd2 + 8 * j));
        int64_t back = ct_milliseconds(ct_float_at(jd1 + 8 * j), ct_float_at(jd2 + 8 * j), 2444244.5, 0.0);
        refused += one < 0;
        if ((one == -9) != (dead[j] != 0) || (back == -9) != (dead[j] != 0) || numbers[j] != (one < 0 ? -one : 0)) right = 0;
        if (ct_pattern_at(millis + 8 * j, 8) != (one < 0 ? 0xa5a5a5a5a5a5a5a5u : (uint64_t)one)) right = 0;
        if (dead[j] && ct_milliseconds_of_run(ct_float_at(jd1 + 8 * j), ct_float_at(jd2 + 8 * j), jd1, 7, jd2, 0, millis, 0, numbers, 0) != -9) right = 0;
    }
    check(code == refused && right, "ct_milliseconds_of_run has other numbers, places or another count");
}

int main(int count, char **words)
{
    static uint8_t block[MOST_BYTES], dead[MOST_BYTES];
    const uint8_t *jd1 = block + 8, *jd2;
    FILE *file = count == 2 ? fopen(words[1], "rb") : NULL;
    int64_t i, stamps, found = 0, by_isnan = 0, by_text = 0;
    if (!file || fread(block, 1, sizeof block, file) != sizeof block) return 2;
    fclose(file);
    stamps = ct_block_stamps(block, sizeof block);
    jd2 = jd1 + 8 * stamps;
    for (i = 0; i < stamps; i++) {
        double first = ct_float_at(jd1 + 8 * i), second = ct_float_at(jd2 + 8 * i), sum = first + second;
        by_isnan += isnan(sum) != 0;
        by_text += text(first, second, fresh(), ROOM) < 0;
        if (!not_finite(jd1 + 8 * i) && !not_finite(jd2 + 8 * i)) continue;
        found++;
        dead[i] = 1;
        ask_all(first, second);
        ask_offsets(not_finite(jd1 + 8 * i) ? first : second);
    }
    ask_runs(jd1, jd2, (size_t)stamps, dead);
    ask_formula_runs(jd1, jd2, (size_t)stamps, dead);
    ask_texts_of_run(jd1, jd2, (size_t)stamps, dead);
    ask_milliseconds(jd1, jd2, (size_t)stamps, dead);
    check(found == NOT_FINITE_STAMPS, "%ld stamps of the block are not finite", (long)found);
    check(by_text == NOT_FINITE_STAMPS, "the text call refuses %ld stamps", (long)by_text);
    printf("not finite: %ld; isnan in this build says %ld, the text call refuses %ld\n", (long)found, (long)by_isnan,
           (long)by_text);
    return summary("not_finite");
}
