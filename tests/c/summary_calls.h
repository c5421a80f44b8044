/* ct_line_summary and ct_line_look: three small runs by hand, runs whose names are exchanged, a lent row and an expiry, and the refusals in their order. */
enum { SUMMARY_STAMPS = 5 };

static void put_record(uint8_t *runs, size_t run, uint64_t count, int named)
{
    memset(runs + 32 * run, 0, 32);
    for (int k = 0; k < 8; k++) runs[32 * run + (size_t)k] = (uint8_t)(count >> 8 * k);
    runs[32 * run + 24] = (uint8_t)(named != 0);
}

/* The lines of the runs, of the table, which lends a row of January 2027 or none, and of what to look at. */
static void summary_is(const uint8_t *runs, const line_stamp *stamps, size_t count, const uint8_t *table, uint32_t known, const char *runs_due,
                       const char *until, const char *looks_due, int64_t look)
{
    uint8_t jd1[8 * SUMMARY_STAMPS], jd2[8 * SUMMARY_STAMPS], numbers[SUMMARY_STAMPS], out[CT_SUMMARY_BYTES + 1], want[sizeof out];
    const int lent = table[0], month = lent ? 12 * 2027 : LAST_MONTH;
    char due[CT_SUMMARY_BYTES];
    size_t length = (size_t)snprintf(due, sizeof due, "%stable %d rows last %d-%02d %d lent %d known until %s\n%s", runs_due, FIXED_ROWS + lent, month / 12,
                                     month % 12 + 1, lent ? table[72] : LAST_SECONDS, lent, until, looks_due);
    put_parts(stamps, count, jd1, jd2, numbers);
    memset(out, UNTOUCHED, sizeof out);
    memset(want, UNTOUCHED, sizeof want);
    check(ct_line_summary(runs, 96, jd1, 8 * count, jd2, 8 * count, numbers, count, table, CT_TABLE_BYTES, known, out, length - 1) == -11,
          "ct_line_summary writes into too few bytes");
    check(!memcmp(out, want, sizeof out), "a refused ct_line_summary writes");
    memcpy(want, due, length);
    check(ct_line_summary(runs, 96, jd1, 8 * count, jd2, 8 * count, numbers, count, table, CT_TABLE_BYTES, known, out, sizeof out) == (int64_t)length,
          "ct_line_summary has another length than %zu", length);
    check(!memcmp(out, want, sizeof out), "ct_line_summary writes another text than %s", due);
    check(ct_line_look(runs, 96, jd1, 8 * count, jd2, 8 * count, numbers, count, table, CT_TABLE_BYTES, known) == look, "ct_line_look is not %ld", (long)look);
}

static void summary_refusals(const uint8_t *runs, const line_stamp *stamps, const uint8_t *table)
{
    uint8_t jd1[8 * SUMMARY_STAMPS], jd2[8 * SUMMARY_STAMPS], numbers[SUMMARY_STAMPS], more[96];
    const size_t n = SUMMARY_STAMPS;
    put_parts(stamps, n, jd1, jd2, numbers);
    memcpy(more, runs, 96);
    put_record(more, 0, UINT64_MAX, 1);
    check(ct_line_look(runs, 95, jd1, 8 * n, jd2, 8 * n, numbers, n - 1, table, CT_TABLE_BYTES, 0) == -14, "ct_line_look takes 95 bytes of runs");
    check(ct_line_look(runs, 96, jd1, 8 * n, jd2, 8 * n, numbers, n - 1, table, CT_TABLE_BYTES, 0) == -12, "ct_line_look takes fewer numbers");
    check(ct_line_look(runs, 96, jd1, 8 * n - 8, jd2, 8 * n, numbers, n, table, CT_TABLE_BYTES, 0) == -12, "ct_line_look takes fewer first parts");
    check(ct_line_look(runs, 96, jd1, 8 * n, jd2, 8 * n - 1, numbers, n, table, CT_TABLE_BYTES, 0) == -12, "ct_line_look takes a broken second part");
    check(ct_line_look(more, 96, jd1, 8 * n, jd2, 8 * n, numbers, n, table, CT_TABLE_BYTES, 0) == -12, "ct_line_look takes more stamps than there are");
    check(ct_line_look(runs, 95, jd1, 8 * n, jd2, 8 * n, numbers, n, table, CT_TABLE_BYTES - 1, 0) == -14, "ct_line_look takes a short table");
}

static void summary_calls(void)
{
    const double second = 1.0 / 86400.0;
    uint8_t runs[96], table[CT_TABLE_BYTES] = {0};
    /* 2017-01-01 begins 37 s after the TAI's; the second of the TAI run is left out, and the UTC run has no stamp */
    const line_stamp stamps[SUMMARY_STAMPS] = {{2457754.5, 37.0 * second, 0}, {2457754.5, 40.5 * second, 0},
                                               {2457754.5, 38.0 * second, 0}, {2457755.5, 0.0, 17}, {2457754.5, 40.0 * second, 0}};
    put_record(runs, 0, 2, 1);
    put_record(runs, 1, 3, 1);
    put_record(runs, 2, 0, 1);
    summary_is(runs, stamps, 5, table, 0,
               "gps first 2017-01-01T00:00:00.000 last 2017-01-01T00:00:03.500 span 3.500 s\n"
               "tai first 2017-01-01T00:00:01.000 last 2017-01-01T00:00:03.000 span 2.000 s\n"
               "tai left out 1 first 1\n"
               "utc no stamp is ordered\n",
               "2026-06-28",
               "look: stamps are left out\n"
               "look: a named run has no stamp\n", CT_LOOK_LEFT_OUT | CT_LOOK_NO_STAMP);
    summary_refusals(runs, stamps, table);
    /* a TAI run that begins and ends 18.4 s and 17.6 s after the GPS run, and an expiry before both: 57753 is 2016-12-31 */
    const line_stamp apart[4] = {{2457754.5, 100.0 * second, 0}, {2457754.5, 200.0 * second, 0},
                                 {2457754.5, 118.4 * second, 0}, {2457754.5, 217.6 * second, 0}};
    put_record(runs, 1, 2, 1);
    put_record(runs, 2, 0, 0);
    summary_is(runs, apart, 4, table, 57753,
               "gps first 2017-01-01T00:01:03.000 last 2017-01-01T00:02:43.000 span 100.000 s\n"
               "tai first 2017-01-01T00:01:21.400 last 2017-01-01T00:03:00.600 span 99.200 s\n",
               "2016-12-31",
               "look: stamps lie after the day until which the table is known\n"
               "look: two runs begin and end apart as two scales do: are names exchanged?\n", CT_LOOK_AFTER_KNOWN | CT_LOOK_NAMES);
    /* a row of January 2027 with a second more, month 0x5f04; the same runs 19 s apart at the start and 20 s at the end */
    const line_stamp wider[4] = {{2457754.5, 100.0 * second, 0}, {2457754.5, 200.0 * second, 0},
                                 {2457754.5, 119.0 * second, 0}, {2457754.5, 220.0 * second, 0}};
    table[0] = table[4] = 1;
    table[8] = 0x04, table[9] = 0x5f, table[72] = LAST_SECONDS + 1;
    summary_is(runs, wider, 4, table, 0,
               "gps first 2017-01-01T00:01:03.000 last 2017-01-01T00:02:43.000 span 100.000 s\n"
               "tai first 2017-01-01T00:01:22.000 last 2017-01-01T00:03:03.000 span 101.000 s\n",
               "2027-06-30", "", 0);
}
