/* ct_formula_run: stamps by each of its fourteen conversions, parts and offsets that are not finite among them, against the single calls; every other pair of scales; the refusals of the
   whole call in their order, each with all that come after it; and what stays, the bytes around all six buffers among it. Everything is compared by its bits. */
enum {
    FORMULA_STAMPS = 21,
    FORMULA_MODE_STAMPS = 2, /* the last ones, which depend on the float mode */
    FORMULA_BYTES = 8 * FORMULA_STAMPS,
    FORMULA_ROOM = FORMULA_BYTES + 16,
    FORMULA_GUARD = 16,
    FORMULA_WIDTH = FORMULA_GUARD + FORMULA_ROOM + FORMULA_GUARD
};

typedef struct {
    uint8_t jd1[FORMULA_WIDTH], jd2[FORMULA_WIDTH], offsets[FORMULA_WIDTH], out1[FORMULA_WIDTH], out2[FORMULA_WIDTH], numbers[FORMULA_WIDTH];
} formula_lent;

/* The single call of each pair: without an offset, or with one. */
static const struct { uint32_t from, to; plain_call *plain; offset_call *by_offset; } FORMULAS[] = {
    {CT_GPS, CT_TAI, ct_gps_to_tai, NULL},
    {CT_TAI, CT_GPS, ct_tai_to_gps, NULL},
    {CT_TAI, CT_TT, ct_tai_to_tt, NULL},
    {CT_TT, CT_TAI, ct_tt_to_tai, NULL},
    {CT_TT, CT_TCG, ct_tt_to_tcg, NULL},
    {CT_TCG, CT_TT, ct_tcg_to_tt, NULL},
    {CT_TCB, CT_TDB, ct_tcb_to_tdb, NULL},
    {CT_TDB, CT_TCB, ct_tdb_to_tcb, NULL},
    {CT_TAI, CT_UT1, NULL, ct_tai_to_ut1_with_offset},
    {CT_UT1, CT_TAI, NULL, ct_ut1_to_tai_with_offset},
    {CT_UT1, CT_TT, NULL, ct_ut1_to_tt_with_delta_t},
    {CT_TT, CT_UT1, NULL, ct_tt_to_ut1_with_delta_t},
    {CT_TT, CT_TDB, NULL, ct_tt_to_tdb_with_offset},
    {CT_TDB, CT_TT, NULL, ct_tdb_to_tt_with_offset},
};

/* The numbers that are due, written here; the single calls must say the same. */
static const uint8_t FORMULA_NUMBERS[2][FORMULA_STAMPS] = {
    {0, 0, 9, 9, 0, 0, 9, 9, 9, 9},
    {0, 0, 9, 9, 10, 10, 9, 9, 9, 9},
};

static void formula_put(uint8_t *bytes, uint64_t pattern)
{
    for (int k = 0; k < 8; k++) bytes[k] = (uint8_t)(pattern >> 8 * k);
}

/* What is lent before the call. */
static void formula_fresh(formula_lent *lent)
{
    const uint64_t day = ct_bits_of(2451545.0), half = ct_bits_of(0.5), most = 0x7fefffffffffffff, subnormal = 0x000fffffffffffff;
    const uint64_t stamps[FORMULA_STAMPS][3] = {
        {ct_bits_of(2457754.5), ct_bits_of(0.25), ct_bits_of(-36.6)},
        {ct_bits_of(0.75), ct_bits_of(2457753.5), ct_bits_of(69.184)},
        /* parts, offsets, and both that are not finite */
        {INFINITE | QUIET, half, half},
        {day, SIGN | INFINITE, half},
        {day, half, SIGN | INFINITE | QUIET | 77},
        {day, half, INFINITE},
        {INFINITE | 1, half, SIGN | INFINITE | 1},
        {half, SIGN | INFINITE | QUIET | 0x7ff, SIGN | INFINITE},
        {INFINITE, SIGN | INFINITE, 0},
        {SIGN | INFINITE | 0x0007ffffffffffff, INFINITE | QUIET, INFINITE | QUIET},
        /* parts of one size */
        {ct_bits_of(1225772.5), ct_bits_of(1225772.5), ct_bits_of(64.0)},
        {ct_bits_of(1225772.5), SIGN | ct_bits_of(1225772.5), ct_bits_of(-0.002)},
        {SIGN, 0, SIGN},
        {SIGN, SIGN, 0},
        {most, SIGN | most, most},
        /* zeros and subnormal parts beside larger ones, and the largest */
        {SIGN, day, 0},
        {day, SIGN | 1, SIGN | 1},
        {1, SIGN | subnormal, subnormal},
        {ct_bits_of(1.7e308), ct_bits_of(1.6e308), SIGN | most},
        /* both parts subnormal or zero, the larger one first: FORMULA_MODE_STAMPS */
        {subnormal, 1, ct_bits_of(1e-300)},
        {SIGN | 1, 0, 1},
    };
    memset(lent, UNTOUCHED, sizeof *lent);
    for (size_t i = 0; i < FORMULA_STAMPS; i++) {
        formula_put(lent->jd1 + FORMULA_GUARD + 8 * i, stamps[i][0]);
        formula_put(lent->jd2 + FORMULA_GUARD + 8 * i, stamps[i][1]);
        formula_put(lent->offsets + FORMULA_GUARD + 8 * i, stamps[i][2]);
    }
}

/* What is due of the first `count` stamps by single calls, and how many of them are refused. */
static int64_t formula_singly(size_t pair, size_t count, formula_lent *due)
{
    int64_t refused = 0;
    formula_fresh(due);
    for (size_t i = 0; i < count; i++) {
        const size_t at = FORMULA_GUARD + 8 * i;
        uint8_t date[16];
        double a = ct_float_at(due->jd1 + at), b = ct_float_at(due->jd2 + at);
        int64_t n = FORMULAS[pair].plain ? FORMULAS[pair].plain(a, b, date, sizeof date) : FORMULAS[pair].by_offset(a, b, ct_float_at(due->offsets + at), date, sizeof date);
        due->numbers[FORMULA_GUARD + i] = (uint8_t)(n < 0 ? -n : 0);
        check(due->numbers[FORMULA_GUARD + i] == FORMULA_NUMBERS[FORMULAS[pair].by_offset != NULL][i], "the single call of pair %d says %ld of stamp %d", (int)pair, (long)n, (int)i);
        if (n < 0) refused++;
        else {
            memcpy(due->out1 + at, date, 8);
            memcpy(due->out2 + at, date + 8, 8);
        }
    }
    return refused;
}

/* `code` is due with these lengths, and the bytes of `due`; without it every byte stays. */
static void formula_says(int64_t code, uint32_t from, uint32_t to, size_t len1, size_t len2, size_t len3, size_t room1, size_t room2, size_t room, const formula_lent *due)
{
    static formula_lent before, after;
    int64_t said;
    formula_fresh(&before);
    after = before;
    said = ct_formula_run(from, to, after.jd1 + FORMULA_GUARD, len1, after.jd2 + FORMULA_GUARD, len2, after.offsets + FORMULA_GUARD, len3, after.out1 + FORMULA_GUARD, room1,
                          after.out2 + FORMULA_GUARD, room2, after.numbers + FORMULA_GUARD, room);
    check(said == code, "ct_formula_run from %u to %u with %d, %d, %d bytes says %ld, not %ld", (unsigned)from, (unsigned)to, (int)len1, (int)len2, (int)len3, (long)said, (long)code);
    check(!memcmp(&after, due ? due : &before, sizeof after), "ct_formula_run from %u to %u with %d, %d, %d bytes leaves other bytes", (unsigned)from, (unsigned)to, (int)len1, (int)len2,
          (int)len3);
}

/* Runs of every length, with the places that are due, and with more. In a float mode that reads subnormal numbers as zero a single call takes them for parts of one size, and
   the run does not; the library assumes no such mode, and these stamps are left out there. */
static void formula_answers(size_t pair)
{
    static formula_lent due;
    const uint32_t from = FORMULAS[pair].from, to = FORMULAS[pair].to;
    const size_t most = ct_float_mode() ? FORMULA_STAMPS - FORMULA_MODE_STAMPS : FORMULA_STAMPS;
    for (size_t n = 0; n <= most; n++) {
        const size_t all = 8 * n, third = FORMULAS[pair].by_offset ? all : 0;
        const int64_t refused = formula_singly(pair, n, &due);
        formula_says(refused, from, to, all, all, third, all, all, n, &due);
        formula_says(refused, from, to, all, all, third, all + 1, all + 8, n + 3, &due);
        formula_says(refused, from, to, all, all, third, FORMULA_ROOM, FORMULA_ROOM, FORMULA_ROOM, &due);
    }
}

/* Each refusal alone and with all that come after it. */
static void formula_refusals(size_t pair)
{
    const uint32_t from = FORMULAS[pair].from, to = FORMULAS[pair].to;
    const size_t all = FORMULA_BYTES, n = FORMULA_STAMPS, third = FORMULAS[pair].by_offset ? all : 0, wrong[] = {all - 8, all + 8, third ? 0 : all, third ? 8 : 16};
    for (size_t k = 1; k < 8; k++) {
        formula_says(-14, from, to, all - k, all, third, all, all, n, NULL);
        formula_says(-14, from, to, all - k, all - 8, wrong[0], 0, 0, 0, NULL);
        formula_says(-14, from, to, k, 0, 8, 0, 0, 0, NULL);
        formula_says(-14, from, to, all, all + k, third, all, all, n, NULL);
        formula_says(-14, from, to, all, all - k, wrong[1], 0, 0, 0, NULL);
        formula_says(-14, from, to, all, k, 8, 0, 0, 0, NULL);
        formula_says(-14, from, to, all, all, third + k, all, all, n, NULL);
        formula_says(-14, from, to, all, all - 8, all - k, 0, 0, 0, NULL);
        formula_says(-14, from, to, 0, 0, k, 0, 0, 0, NULL);
    }
    for (size_t k = 0; k < COUNT(wrong); k++) {
        formula_says(-12, from, to, all, all, wrong[k], all, all, n, NULL);
        formula_says(-12, from, to, all, all, wrong[k], 0, 0, 0, NULL);
        formula_says(-12, from, to, all, all - 8, wrong[k], 0, 0, 0, NULL);
    }
    formula_says(-12, from, to, 0, 0, 8, all, all, n, NULL);
    formula_says(-12, from, to, all, 0, third, all, all, n, NULL);
    formula_says(-12, from, to, all, all - 8, third, all, all, n, NULL);
    formula_says(-12, from, to, all, all + 8, third, all, all, n, NULL);
    formula_says(-12, from, to, 0, 8, 0, 0, 0, 0, NULL);
    formula_says(-12, from, to, 8, 0, third ? 8 : 0, 0, 0, 0, NULL);
    formula_says(-11, from, to, all, all, third, all - 1, all, n, NULL);
    formula_says(-11, from, to, all, all, third, all, all - 1, n, NULL);
    formula_says(-11, from, to, all, all, third, all, all, n - 1, NULL);
    formula_says(-11, from, to, all, all, third, 0, FORMULA_ROOM, FORMULA_ROOM, NULL);
    formula_says(-11, from, to, all, all, third, FORMULA_ROOM, 0, FORMULA_ROOM, NULL);
    formula_says(-11, from, to, all, all, third, FORMULA_ROOM, FORMULA_ROOM, 0, NULL);
    formula_says(-11, from, to, 8, 8, third ? 8 : 0, 0, 0, 0, NULL);
}

static void formula_run_calls(void)
{
    const size_t all = FORMULA_BYTES, n = FORMULA_STAMPS;
    int others = 0;
    for (size_t i = 0; i < COUNT(FORMULAS); i++) {
        formula_answers(i);
        formula_refusals(i);
    }
    for (uint32_t i = 0; i <= 10; i++)
        for (uint32_t k = 0; k <= 10; k++) {
            const uint32_t from = i < 10 ? i : UINT32_MAX, to = k < 10 ? k : UINT32_MAX;
            int taken = 0;
            for (size_t j = 0; j < COUNT(FORMULAS); j++) taken |= FORMULAS[j].from == from && FORMULAS[j].to == to;
            if (taken) continue;
            others++;
            formula_says(-18, from, to, all, all, all, all, all, n, NULL);
            formula_says(-18, from, to, all, all, 0, all, all, n, NULL);
            formula_says(-18, from, to, 0, 0, 0, 0, 0, 0, NULL);
            formula_says(-18, from, to, 7, 0, 9, 0, 0, 0, NULL);
        }
    check(others == 11 * 11 - 14, "%d pairs of scales are no formula", others);
    /* the header's example */
    formula_says(-18, CT_TAI, CT_TCG, 7, 0, 0, all, all, n, NULL);
    formula_says(-14, CT_TDB, CT_TCB, 7, 0, 0, all, all, n, NULL);
    formula_says(-12, CT_TDB, CT_TCB, 8, 0, 0, all, all, n, NULL);
}
