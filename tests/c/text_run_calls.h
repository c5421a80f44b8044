/* ct_texts_of_run: dates of several days, of a day of 86,401 s and one of 86,399 s, with years of four digits and
   others, refused ones and ones that are not finite among them, in each form, against the single calls, byte by byte;
   the refusals of the whole call in their order, and what stays around it. */
enum { TEXTS_STAMPS = 13, TEXTS_GUARD = 16 };

typedef struct {
    uint8_t texts[TEXTS_GUARD + 27 * TEXTS_STAMPS + 3 + TEXTS_GUARD];
    uint8_t lengths[TEXTS_GUARD + TEXTS_STAMPS + TEXTS_GUARD], numbers[TEXTS_GUARD + TEXTS_STAMPS + TEXTS_GUARD];
} texts_lent;

typedef int64_t texts_single(double, double, const uint8_t *, size_t, uint8_t *, size_t, uint8_t *, size_t);

static void texts_parts(uint8_t *jd1, uint8_t *jd2)
{
    const double parts[TEXTS_STAMPS][2] = {
        {2457753.5, 0.25}, {2457753.5, 0.999999}, {nan_float(), 0.5}, {2457754.5, 0.0}, {0.75, 2457754.5}, {-68571.0, 0.0}, {2451545.0, minus_infinite_float()},
        {-31739.5, 0.0}, {6104057.5, 0.125}, {1720693.5, 0.5}, {2457753.5, 0.9999999999999999}, {2451544.5, 3.0 / 2048.0},
        {2458118.5, 0.9999999},
    };
    for (size_t i = 0; i < TEXTS_STAMPS; i++)
        for (int k = 0; k < 8; k++) {
            jd1[8 * i + (size_t)k] = (uint8_t)(ct_bits_of(parts[i][0]) >> 8 * k);
            jd2[8 * i + (size_t)k] = (uint8_t)(ct_bits_of(parts[i][1]) >> 8 * k);
        }
}

/* `code` is due with these lengths, and where it is not refused the bytes that `due` has. */
static void texts_say(int64_t code, uint32_t form, size_t len1, size_t len2, const uint8_t *table, size_t table_len, size_t room1,
                      size_t room2, size_t room3, const texts_lent *due)
{
    static texts_lent before, after;
    uint8_t jd1[8 * TEXTS_STAMPS + 8], jd2[8 * TEXTS_STAMPS + 8];
    memset(jd1, 0, sizeof jd1);
    memset(jd2, 0, sizeof jd2);
    texts_parts(jd1, jd2);
    memset(&before, UNTOUCHED, sizeof before);
    memset(&after, UNTOUCHED, sizeof after);
    check(ct_texts_of_run(form, jd1, len1, jd2, len2, table, table_len, after.texts + TEXTS_GUARD, room1, after.lengths + TEXTS_GUARD,
                          room2, after.numbers + TEXTS_GUARD, room3) == code,
          "ct_texts_of_run by form %d says another code than %ld", (int)form, (long)code);
    check(!memcmp(&after, due ? due : &before, sizeof after), "ct_texts_of_run by form %d leaves other bytes", (int)form);
}

/* The answers of the single calls, and how many are refused. */
static int64_t texts_singly(texts_single *single, const uint8_t *table, texts_lent *due)
{
    uint8_t jd1[8 * TEXTS_STAMPS], jd2[8 * TEXTS_STAMPS];
    int64_t refused = 0;
    texts_parts(jd1, jd2);
    memset(due, UNTOUCHED, sizeof *due);
    for (size_t i = 0; i < TEXTS_STAMPS; i++) {
        uint8_t rule[CT_RULE_BYTES];
        int64_t n = single(ct_float_at(jd1 + 8 * i), ct_float_at(jd2 + 8 * i), table, CT_TABLE_BYTES, due->texts + TEXTS_GUARD + 27 * i, 27, rule, sizeof rule);
        due->lengths[TEXTS_GUARD + i] = (uint8_t)(n < 0 ? 0 : n);
        due->numbers[TEXTS_GUARD + i] = (uint8_t)(n < 0 ? -n : 0);
        refused += n < 0;
    }
    return refused;
}

static void text_run_calls(void)
{
    texts_single *const singles[] = {ct_to_iso8601, ct_to_iso8601_half_even, ct_to_iso8601_expanded};
    const size_t all = 8 * TEXTS_STAMPS, room = 27 * TEXTS_STAMPS;
    const uint8_t numbers[TEXTS_STAMPS] = {0, 0, 6, 0, 0, 6, 6, 1, 0, 0, 0, 0, 0};
    const int32_t later[1] = {LAST_MONTH + 12}, one_less[1] = {LAST_SECONDS - 1}, two_more[1] = {LAST_SECONDS + 2};
    uint8_t short_table[CT_TABLE_BYTES], steep[CT_TABLE_BYTES], lent[CT_TABLE_BYTES];
    texts_lent due;
    ct_table(later, one_less, 1, lent);
    for (uint32_t form = CT_TEXT; form <= CT_TEXT_EXPANDED; form++)
        for (int announced = 0; announced < 2; announced++) {
            const uint8_t *table = announced ? lent : ct_no_rows;
            int64_t refused = texts_singly(singles[form], table, &due);
            check(refused == 4, "the single calls refuse %ld stamps", (long)refused);
            check(!memcmp(due.numbers + TEXTS_GUARD, numbers, sizeof numbers), "the single calls refuse other stamps");
            texts_say(refused, form, all, all, table, CT_TABLE_BYTES, room, TEXTS_STAMPS, TEXTS_STAMPS, &due);
            texts_say(refused, form, all, all, table, CT_TABLE_BYTES, room + 3, TEXTS_STAMPS + 1, TEXTS_STAMPS + 2, &due);
        }
    /* the three forms part where they should, and a text of 27 bytes is among them */
    texts_singly(ct_to_iso8601_expanded, ct_no_rows, &due);
    check(due.lengths[TEXTS_GUARD + 8] == 27 && due.lengths[TEXTS_GUARD] == 23, "the lengths of texts with expanded years are others");
    check(!memcmp(due.texts + TEXTS_GUARD + 27 * 1, "2016-12-31T23:59:60.914", 23), "the text of the leap second is another");
    check(!memcmp(due.texts + TEXTS_GUARD + 27 * 10, "2017-01-01T00:00:00.000", 23), "the text of the next midnight is another");
    check(!memcmp(due.texts + TEXTS_GUARD + 27 * 4, "2017-01-01T18:00:00.000", 23), "the text of stamp 4 is another");
    texts_say(0, CT_TEXT, 0, 0, ct_no_rows, CT_TABLE_BYTES, 0, 0, 0, NULL);
    /* each refusal, with all that are tested after it */
    memset(short_table, 0, sizeof short_table);
    short_table[0] = 17;
    ct_table(later, two_more, 1, steep);
    texts_say(-14, 3, 7, 0, short_table, CT_TABLE_BYTES - 1, 0, 0, 0, NULL);
    texts_say(-20, 3, 7, 0, short_table, CT_TABLE_BYTES, 0, 0, 0, NULL);
    texts_say(-22, CT_TEXT, all, all, steep, CT_TABLE_BYTES, room, TEXTS_STAMPS, TEXTS_STAMPS, NULL);
    texts_say(-18, 3, 7, 0, ct_no_rows, CT_TABLE_BYTES, 0, 0, 0, NULL);
    texts_say(-18, UINT32_MAX, all, all, ct_no_rows, CT_TABLE_BYTES, room, TEXTS_STAMPS, TEXTS_STAMPS, NULL);
    texts_say(-14, CT_TEXT, 7, 0, ct_no_rows, CT_TABLE_BYTES, 0, 0, 0, NULL);
    texts_say(-14, CT_TEXT, 8, 15, ct_no_rows, CT_TABLE_BYTES, 0, 0, 0, NULL);
    texts_say(-12, CT_TEXT, 8, 0, ct_no_rows, CT_TABLE_BYTES, 0, 0, 0, NULL);
    texts_say(-12, CT_TEXT_EXPANDED, 8, 16, ct_no_rows, CT_TABLE_BYTES, 0, 0, 0, NULL);
    texts_say(-11, CT_TEXT, all, all, ct_no_rows, CT_TABLE_BYTES, room - 1, TEXTS_STAMPS, TEXTS_STAMPS, NULL);
    texts_say(-11, CT_TEXT_HALF_EVEN, all, all, ct_no_rows, CT_TABLE_BYTES, room, TEXTS_STAMPS - 1, TEXTS_STAMPS, NULL);
    texts_say(-11, CT_TEXT, all, all, ct_no_rows, CT_TABLE_BYTES, room, TEXTS_STAMPS, TEXTS_STAMPS - 1, NULL);
}
