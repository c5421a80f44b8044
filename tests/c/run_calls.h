/* ct_convert_run: stamps between each two of the five scales, not finite and refused ones among them; the refusals of the whole call in their order, and what stays around it. */
enum { RUN_STAMPS = 6, RUN_ROOM = 8 * RUN_STAMPS + 3, RUN_GUARD = 16 };

typedef struct {
    uint8_t out1[RUN_GUARD + RUN_ROOM + RUN_GUARD], out2[RUN_GUARD + RUN_ROOM + RUN_GUARD], numbers[RUN_GUARD + RUN_STAMPS + RUN_GUARD];
} run_lent;

static void run_parts(uint8_t *jd1, uint8_t *jd2)
{
    const double parts[RUN_STAMPS][2] = {
        {2457754.5, 0.25}, {nan_float(), 0.5}, {0.75, 2457753.5}, {-68571.0, 0.0}, {2451545.0, minus_infinite_float()}, {-31739.5, 0.0},
    };
    for (size_t i = 0; i < RUN_STAMPS; i++)
        for (int k = 0; k < 8; k++) {
            jd1[8 * i + (size_t)k] = (uint8_t)(ct_bits_of(parts[i][0]) >> 8 * k);
            jd2[8 * i + (size_t)k] = (uint8_t)(ct_bits_of(parts[i][1]) >> 8 * k);
        }
}

/* `code` is due with these lengths; where it is not refused, the numbers are due, and the parts that the single calls give, which `due` has. */
static void run_says(int64_t code, uint32_t from, uint32_t to, size_t len1, size_t len2, const uint8_t *table, size_t table_len, size_t room1, size_t room2, size_t room, const run_lent *due)
{
    static run_lent before, after;
    uint8_t jd1[8 * RUN_STAMPS + 8], jd2[8 * RUN_STAMPS + 8];
    memset(jd1, 0, sizeof jd1);
    memset(jd2, 0, sizeof jd2);
    run_parts(jd1, jd2);
    memset(&before, UNTOUCHED, sizeof before);
    memset(&after, UNTOUCHED, sizeof after);
    check(ct_convert_run(from, to, jd1, len1, jd2, len2, table, table_len, after.out1 + RUN_GUARD, room1, after.out2 + RUN_GUARD, room2, after.numbers + RUN_GUARD, room) == code,
          "ct_convert_run from %d to %d says another code than %ld", (int)from, (int)to, (long)code);
    check(!memcmp(&after, due ? due : &before, sizeof after), "ct_convert_run from %d to %d leaves other bytes", (int)from, (int)to);
}

static void run_due(run_lent *due, const uint8_t numbers[RUN_STAMPS], double dates[RUN_STAMPS][2])
{
    memset(due, UNTOUCHED, sizeof *due);
    for (size_t i = 0; i < RUN_STAMPS; i++) {
        due->numbers[RUN_GUARD + i] = numbers[i];
        for (int k = 0; k < 8 && !numbers[i]; k++) {
            due->out1[RUN_GUARD + 8 * i + (size_t)k] = (uint8_t)(ct_bits_of(dates[i][0]) >> 8 * k);
            due->out2[RUN_GUARD + 8 * i + (size_t)k] = (uint8_t)(ct_bits_of(dates[i][1]) >> 8 * k);
        }
    }
}

/* The answers of the single calls for stamp i, and how many are refused. */
static int64_t run_singly(uint32_t from, uint32_t to, run_lent *due)
{
    typedef int64_t call(double, double, uint8_t *, size_t);
    call *const into[] = {0, 0, 0, ct_tt_to_tai, ct_gps_to_tai, ct_tcg_to_tai}, *const out_of[] = {0, 0, 0, ct_tai_to_tt, ct_tai_to_gps, ct_tai_to_tcg};
    uint8_t jd1[8 * RUN_STAMPS], jd2[8 * RUN_STAMPS], numbers[RUN_STAMPS];
    double dates[RUN_STAMPS][2];
    int64_t refused = 0;
    run_parts(jd1, jd2);
    for (size_t i = 0; i < RUN_STAMPS; i++) {
        uint8_t date[24];
        double a = ct_float_at(jd1 + 8 * i), b = ct_float_at(jd2 + 8 * i);
        int64_t n = 16;
        if (from == to) n = i == 1 || i == 4 ? -9 : 0;
        else if (from == CT_TT && to == CT_TCG) n = ct_tt_to_tcg(a, b, date, sizeof date);
        else if (from == CT_TCG && to == CT_TT) n = ct_tcg_to_tt(a, b, date, sizeof date);
        else {
            if (from != CT_TAI) n = from == CT_UTC ? ct_utc_to_tai(a, b, ct_no_rows, CT_TABLE_BYTES, date, sizeof date) : into[from](a, b, date, sizeof date);
            if (n > 0 && to != CT_TAI) {
                if (from != CT_TAI) {
                    a = ct_float_at(date);
                    b = ct_float_at(date + 8);
                }
                n = to == CT_UTC ? ct_tai_to_utc(a, b, ct_no_rows, CT_TABLE_BYTES, date, sizeof date) : out_of[to](a, b, date, sizeof date);
            }
        }
        numbers[i] = (uint8_t)(n < 0 ? -n : 0);
        refused += n < 0;
        dates[i][0] = n > 0 ? ct_float_at(date) : a;
        dates[i][1] = n > 0 ? ct_float_at(date + 8) : b;
    }
    run_due(due, numbers, dates);
    return refused;
}

static void run_calls(void)
{
    const uint32_t scales[] = {CT_UTC, CT_TAI, CT_TT, CT_GPS, CT_TCG}, others[] = {CT_UT1, CT_TCB, CT_TDB, 8, UINT32_MAX};
    const size_t all = 8 * RUN_STAMPS;
    const uint8_t none[RUN_STAMPS] = {0, 9, 0, 0, 9, 0}, utc[RUN_STAMPS] = {0, 6, 0, 6, 6, 1};
    uint8_t short_table[CT_TABLE_BYTES], steep[CT_TABLE_BYTES];
    const int32_t months[1] = {LAST_MONTH + 120}, seconds[1] = {LAST_SECONDS + 2};
    run_lent due;
    for (size_t i = 0; i < 5; i++)
        for (size_t k = 0; k < 5; k++) {
            int64_t refused = run_singly(scales[i], scales[k], &due);
            run_says(refused, scales[i], scales[k], all, all, ct_no_rows, CT_TABLE_BYTES, all, all, RUN_STAMPS, &due);
            run_says(refused, scales[i], scales[k], all, all, ct_no_rows, CT_TABLE_BYTES, RUN_ROOM, RUN_ROOM, RUN_STAMPS, &due);
        }
    run_singly(CT_GPS, CT_TAI, &due);
    check(!memcmp(due.numbers + RUN_GUARD, none, sizeof none), "the single calls refuse other stamps of GPS");
    run_singly(CT_UTC, CT_TAI, &due);
    check(!memcmp(due.numbers + RUN_GUARD, utc, sizeof utc), "the single calls refuse other stamps of UTC");
    run_says(0, CT_UTC, CT_TAI, 0, 0, ct_no_rows, CT_TABLE_BYTES, 0, 0, 0, NULL);
    /* each refusal, with all that are tested after it */
    memset(short_table, 0, sizeof short_table);
    short_table[0] = 17;
    ct_table(months, seconds, 1, steep);
    run_says(-14, CT_UT1, CT_UTC, 7, 0, short_table, CT_TABLE_BYTES - 1, 0, 0, 0, NULL);
    run_says(-20, CT_UT1, CT_UTC, 7, 0, short_table, CT_TABLE_BYTES, 0, 0, 0, NULL);
    run_says(-22, CT_GPS, CT_TAI, all, all, steep, CT_TABLE_BYTES, all, all, RUN_STAMPS, NULL);
    for (size_t i = 0; i < 5; i++) {
        run_says(-18, others[i], CT_UTC, 7, 0, ct_no_rows, CT_TABLE_BYTES, 0, 0, 0, NULL);
        run_says(-18, CT_UTC, others[i], 7, 0, ct_no_rows, CT_TABLE_BYTES, 0, 0, 0, NULL);
        run_says(-18, others[i], others[i], all, all, ct_no_rows, CT_TABLE_BYTES, all, all, RUN_STAMPS, NULL);
    }
    run_says(-14, CT_TAI, CT_UTC, 7, 0, ct_no_rows, CT_TABLE_BYTES, 0, 0, 0, NULL);
    run_says(-14, CT_TAI, CT_UTC, 8, 15, ct_no_rows, CT_TABLE_BYTES, 0, 0, 0, NULL);
    run_says(-12, CT_TAI, CT_UTC, 8, 0, ct_no_rows, CT_TABLE_BYTES, 0, 0, 0, NULL);
    run_says(-12, CT_TAI, CT_UTC, 8, 16, ct_no_rows, CT_TABLE_BYTES, 0, 0, 0, NULL);
    run_says(-11, CT_TAI, CT_UTC, all, all, ct_no_rows, CT_TABLE_BYTES, all - 1, all, RUN_STAMPS, NULL);
    run_says(-11, CT_TAI, CT_UTC, all, all, ct_no_rows, CT_TABLE_BYTES, all, all - 1, RUN_STAMPS, NULL);
    run_says(-11, CT_TAI, CT_GPS, all, all, ct_no_rows, CT_TABLE_BYTES, all, all, RUN_STAMPS - 1, NULL);
}
