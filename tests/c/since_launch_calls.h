/* ct_milliseconds and ct_milliseconds_of_run: answers by whole numbers, every refusal, the order of two that would both hold, the examples of their
   comments, and a run against the single calls, byte by byte, with what stays around it. */
enum { LAUNCH_STAMPS = 9, LAUNCH_GUARD = 16 };

typedef struct {
    uint8_t millis[LAUNCH_GUARD + 8 * LAUNCH_STAMPS + 3 + LAUNCH_GUARD], numbers[LAUNCH_GUARD + LAUNCH_STAMPS + LAUNCH_GUARD];
} launch_lent;

static void launch_parts(uint8_t *jd1, uint8_t *jd2)
{
    const double parts[LAUNCH_STAMPS][2] = {
        {2444244.5, 0.0}, {2444244.5, 27.0 / 86400000.0}, {nan_float(), 0.0}, {2444244.0, 0.75}, {2444243.5, 0.0}, {3e9, 0.0}, {0.25, 2444245.5},
        {2444244.5, minus_infinite_float()}, {2456970.5, 0.0},
    };
    for (size_t i = 0; i < LAUNCH_STAMPS; i++)
        for (int k = 0; k < 8; k++) {
            jd1[8 * i + (size_t)k] = (uint8_t)(ct_bits_of(parts[i][0]) >> 8 * k);
            jd2[8 * i + (size_t)k] = (uint8_t)(ct_bits_of(parts[i][1]) >> 8 * k);
        }
}

/* `code` is due with these lengths, and where it is not refused the bytes that `due` has. */
static void launch_says(int64_t code, double from1, double from2, size_t len1, size_t len2, size_t room1, size_t room2, const launch_lent *due)
{
    static launch_lent before, after;
    uint8_t jd1[8 * LAUNCH_STAMPS + 8], jd2[8 * LAUNCH_STAMPS + 8];
    memset(jd1, 0, sizeof jd1);
    memset(jd2, 0, sizeof jd2);
    launch_parts(jd1, jd2);
    memset(&before, UNTOUCHED, sizeof before);
    memset(&after, UNTOUCHED, sizeof after);
    check(ct_milliseconds_of_run(from1, from2, jd1, len1, jd2, len2, after.millis + LAUNCH_GUARD, room1, after.numbers + LAUNCH_GUARD, room2) == code,
          "ct_milliseconds_of_run says another code than %ld", (long)code);
    check(!memcmp(&after, due ? due : &before, sizeof after), "ct_milliseconds_of_run leaves other bytes");
}

static void launch_runs(void)
{
    const size_t all = 8 * LAUNCH_STAMPS;
    const uint8_t numbers[LAUNCH_STAMPS] = {0, 0, 9, 0, 18, 6, 0, 9, 18};
    uint8_t jd1[8 * LAUNCH_STAMPS], jd2[8 * LAUNCH_STAMPS];
    launch_lent due;
    int64_t refused = 0;
    launch_parts(jd1, jd2);
    memset(&due, UNTOUCHED, sizeof due);
    for (size_t i = 0; i < LAUNCH_STAMPS; i++) {
        int64_t n = ct_milliseconds(2444244.5, 0.0, ct_float_at(jd1 + 8 * i), ct_float_at(jd2 + 8 * i));
        due.numbers[LAUNCH_GUARD + i] = (uint8_t)(n < 0 ? -n : 0);
        if (n >= 0)
            for (int k = 0; k < 8; k++) due.millis[LAUNCH_GUARD + 8 * i + (size_t)k] = (uint8_t)((uint64_t)n >> 8 * k);
        refused += n < 0;
    }
    check(refused == 5 && !memcmp(due.numbers + LAUNCH_GUARD, numbers, sizeof numbers), "the single calls refuse other stamps");
    launch_says(refused, 2444244.5, 0.0, all, all, all, LAUNCH_STAMPS, &due);
    launch_says(refused, 2444244.0, 0.5, all, all, all + 3, LAUNCH_STAMPS + 2, &due);
    launch_says(0, 2444244.5, 0.0, 0, 0, 0, 0, NULL);
    /* each refusal, with all that are tested after it */
    launch_says(-9, nan_float(), 3e9, 7, 0, 0, 0, NULL);
    launch_says(-9, 3e9, minus_infinite_float(), 7, 0, 0, 0, NULL);
    launch_says(-6, 3e9, 0.0, 7, 0, 0, 0, NULL);
    launch_says(-14, 2444244.5, 0.0, 7, 0, 0, 0, NULL);
    launch_says(-14, 2444244.5, 0.0, 8, 15, 0, 0, NULL);
    launch_says(-12, 2444244.5, 0.0, 8, 0, 0, 0, NULL);
    launch_says(-12, 2444244.5, 0.0, 8, 16, 0, 0, NULL);
    launch_says(-11, 2444244.5, 0.0, all, all, all - 1, LAUNCH_STAMPS, NULL);
    launch_says(-11, 2444244.5, 0.0, all, all, all, LAUNCH_STAMPS - 1, NULL);
}

static void since_launch_calls(void)
{
    const double unit = 1.0 / 4503599627370496.0;
    IS(43200000, ct_milliseconds(2444244.5, 0.0, 2444244.5, 0.5)); /* the header's examples */
    IS(-18, ct_milliseconds(2444244.5, 0.5, 2444244.5, 0.0));
    IS(-9, ct_milliseconds(2444244.5, 0.0, 3e9, nan_float()));
    IS(-6, ct_milliseconds(3e9, 0.0, 2444244.5, 0.0));
    IS(27, ct_milliseconds(2444244.5, 0.0, 2444244.5, 27.0 / 86400000.0));
    IS(86399999, ct_milliseconds(2444244.5, 0.0, 2444244.5, 86399999.0 / 86400000.0));
    /* half a millisecond is 26062497.8 units, and 42187.5 ms are 2^-11 day: ties go up */
    IS(0, ct_milliseconds(0.5, 0.0, 0.5, 26062497.0 * unit));
    IS(1, ct_milliseconds(0.5, 0.0, 0.5, 26062498.0 * unit));
    IS(0, ct_milliseconds(0.5, 26062497.0 * unit, 0.5, 0.0));
    IS(-18, ct_milliseconds(0.5, 26062498.0 * unit, 0.5, 0.0));
    IS(42188, ct_milliseconds(0.5, 0.0, 0.5, 0x1p-11));
    IS(126563, ct_milliseconds(0.5, 0.25, 0.5, 0.25 + 0x1.8p-10));
    IS(42187, ct_milliseconds(0.5, unit, 0.5, 0x1p-11));
    /* 2^40 - 1 and 2^40: 12725 days and 71627775 or 71627776 ms */
    IS(1099511627775, ct_milliseconds(0.5, 0.0, 12725.5, 71627775.0 / 86400000.0));
    IS(-18, ct_milliseconds(0.5, 0.0, 12725.5, 71627776.0 / 86400000.0));
    IS(-18, ct_milliseconds(0.5, 0.0, -68569.5, 0.0));
    IS(-18, ct_milliseconds(-68569.5, 0.0, 1e9, 0.0));
    IS(-6, ct_milliseconds(-68570.0, 0.0, 0.5, 0.0));
    IS(-6, ct_milliseconds(0.5, 0.0, 1e9, 1.0));
    IS(-9, ct_milliseconds(minus_infinite_float(), 0.0, -68570.0, 0.0));
    IS(-9, ct_milliseconds(0.5, nan_float(), 0.5, 0.0));
    launch_runs();
}
