/* ct_dates_of_texts: texts of several days, of a day of 86,401 s and one of 86,399 s, whole and damaged, of every length, among them ones that
   begin as the text before, against the single call, byte by byte; the refusals of the whole call in their order, and what stays around it. */
enum { DATES_TEXTS = 24, DATES_GUARD = 16 };

typedef struct {
    uint8_t out1[DATES_GUARD + 8 * DATES_TEXTS + DATES_GUARD], out2[DATES_GUARD + 8 * DATES_TEXTS + DATES_GUARD];
    uint8_t numbers[DATES_GUARD + DATES_TEXTS + DATES_GUARD];
} dates_lent;

static const char *const DATES[DATES_TEXTS] = {
    "2016-12-31T23:59:59.999", "2016-12-31T23:59:60.999Z", "2016-12-31T23:59:61", "2016-12-31T24:00:00.0", "2017-01-01T00:00:00",
    "2017-01-01T23:59:60.0", "2017-01-01T23:59:59.9", " 2017-01-01T23:59:59.9", "2017-01-01 23:59:59.9", "2017-01-01T23:59:59.9 ",
    "2017-02-29T00:00:00", "2017-02-29T00:00:01", "2017-01-01T00:00:0x", "2017-01-01T00:00", "", "2017-01-01T00:00:00.123456Z",
    "2017-12-31T23:59:59.5", "2017-12-31T23:59:58.5", "2017-13-31T23:59:58.5", "1972-06-30T23:59:60", "1971-12-31T23:59:60.05",
    "1971-12-31T23:59:60.2", "9999-12-31T23:59:59.999", "0000-01-01T00:00:00.001",
};

static void dates_texts(uint8_t *texts, uint8_t *lengths)
{
    memset(texts, UNTOUCHED, 27 * DATES_TEXTS);
    for (size_t i = 0; i < DATES_TEXTS; i++) {
        lengths[i] = (uint8_t)strlen(DATES[i]);
        memcpy(texts + 27 * i, DATES[i], lengths[i]);
    }
}

/* `code` is due with these lengths, and where it is not refused the bytes that `due` has. */
static void dates_say(int64_t code, size_t len1, size_t len2, const uint8_t *table, size_t table_len, size_t room1, size_t room2, size_t room3,
                      const dates_lent *due)
{
    static dates_lent before, after;
    uint8_t texts[27 * DATES_TEXTS + 27], lengths[DATES_TEXTS + 1];
    memset(texts, 0, sizeof texts);
    memset(lengths, 0, sizeof lengths);
    dates_texts(texts, lengths);
    memset(&before, UNTOUCHED, sizeof before);
    memset(&after, UNTOUCHED, sizeof after);
    check(ct_dates_of_texts(texts, len1, lengths, len2, table, table_len, after.out1 + DATES_GUARD, room1, after.out2 + DATES_GUARD, room2,
                            after.numbers + DATES_GUARD, room3) == code,
          "ct_dates_of_texts with %d and %d bytes says another code than %ld", (int)len1, (int)len2, (long)code);
    check(!memcmp(&after, due ? due : &before, sizeof after), "ct_dates_of_texts with %d and %d bytes leaves other bytes", (int)len1, (int)len2);
}

/* The answers of the single call, and how many are refused. */
static int64_t dates_singly(const uint8_t *table, dates_lent *due)
{
    int64_t refused = 0;
    memset(due, UNTOUCHED, sizeof *due);
    for (size_t i = 0; i < DATES_TEXTS; i++) {
        uint8_t read[44];
        int64_t n = ct_utc_from_iso8601((const uint8_t *)DATES[i], strlen(DATES[i]), table, CT_TABLE_BYTES, read, sizeof read);
        due->numbers[DATES_GUARD + i] = (uint8_t)(n < 0 ? -n : 0);
        if (n == 44) memcpy(due->out1 + DATES_GUARD + 8 * i, read + 28, 8), memcpy(due->out2 + DATES_GUARD + 8 * i, read + 36, 8);
        refused += n < 0;
    }
    return refused;
}

/* One text of a length that is no place's, between two that are read. */
static void dates_too_long(void)
{
    uint8_t texts[81], lengths[3] = {23, 28, 23}, out1[24], out2[24], numbers[3] = {9, 9, 9};
    for (size_t i = 0; i < 3; i++) memset(texts + 27 * i, ' ', 27), memcpy(texts + 27 * i, "2017-01-01T12:00:00.000", 23);
    memset(out1, UNTOUCHED, sizeof out1);
    memset(out2, UNTOUCHED, sizeof out2);
    for (int long_one = 28; long_one < 256; long_one++) {
        lengths[1] = (uint8_t)long_one;
        check(ct_dates_of_texts(texts, sizeof texts, lengths, 3, ct_no_rows, CT_TABLE_BYTES, out1, 24, out2, 24, numbers, 3) == 1,
              "a text of %d bytes is not the one that is refused", long_one);
        check(numbers[0] == 0 && numbers[1] == 15 && numbers[2] == 0 && out1[8] == UNTOUCHED && out2[15] == UNTOUCHED, "a text of %d bytes is read", long_one);
    }
    lengths[1] = 27;
    check(ct_dates_of_texts(texts, sizeof texts, lengths, 3, ct_no_rows, CT_TABLE_BYTES, out1, 24, out2, 24, numbers, 3) == 0, "a text of 27 bytes is refused");
    check(!memcmp(out1, out1 + 8, 8) && !memcmp(out2, out2 + 8, 8) && ct_float_at(out1) == 2457754.5 && ct_float_at(out2) == 0.5, "a text of 27 bytes is read as another");
}

static void date_run_calls(void)
{
    const size_t all = 27 * DATES_TEXTS, room = 8 * DATES_TEXTS;
    const uint8_t numbers[DATES_TEXTS] = {0, 0, 4, 4, 0, 4, 0, 0, 0, 0, 3, 3, 15, 15, 15, 0, 0, 0, 2, 0, 0, 4, 0, 0};
    const int32_t later[1] = {LAST_MONTH + 12}, one_less[1] = {LAST_SECONDS - 1}, two_more[1] = {LAST_SECONDS + 2};
    uint8_t short_table[CT_TABLE_BYTES], steep[CT_TABLE_BYTES], lent[CT_TABLE_BYTES];
    dates_lent due;
    ct_table(later, one_less, 1, lent);
    for (int announced = 0; announced < 2; announced++) {
        const uint8_t *table = announced ? lent : ct_no_rows;
        int64_t refused = dates_singly(table, &due);
        check(refused == 10 + announced, "the single call refuses %ld texts", (long)refused);
        for (size_t i = 0; i < DATES_TEXTS; i++)
            check(due.numbers[DATES_GUARD + i] == (announced && i == 16 ? 4 : numbers[i]), "the single call says %d of text %d", due.numbers[DATES_GUARD + i], (int)i);
        dates_say(refused, all, DATES_TEXTS, table, CT_TABLE_BYTES, room, room, DATES_TEXTS, &due);
        dates_say(refused, all, DATES_TEXTS, table, CT_TABLE_BYTES, room + 1, room + 9, DATES_TEXTS + 2, &due);
    }
    dates_too_long();
    dates_say(0, 0, 0, ct_no_rows, CT_TABLE_BYTES, 0, 0, 0, NULL);
    /* each refusal, with all that are tested after it */
    memset(short_table, 0, sizeof short_table);
    short_table[0] = 17;
    ct_table(later, two_more, 1, steep);
    dates_say(-14, 26, 0, short_table, CT_TABLE_BYTES - 1, 0, 0, 0, NULL);
    dates_say(-20, 26, 0, short_table, CT_TABLE_BYTES, 0, 0, 0, NULL);
    dates_say(-22, all, DATES_TEXTS, steep, CT_TABLE_BYTES, room, room, DATES_TEXTS, NULL);
    dates_say(-14, 26, 0, ct_no_rows, CT_TABLE_BYTES, 0, 0, 0, NULL);
    dates_say(-12, 27, 0, ct_no_rows, CT_TABLE_BYTES, 0, 0, 0, NULL);
    dates_say(-12, 27, 2, ct_no_rows, CT_TABLE_BYTES, 0, 0, 0, NULL);
    dates_say(-11, all, DATES_TEXTS, ct_no_rows, CT_TABLE_BYTES, room - 1, room, DATES_TEXTS, NULL);
    dates_say(-11, all, DATES_TEXTS, ct_no_rows, CT_TABLE_BYTES, room, room - 1, DATES_TEXTS, NULL);
    dates_say(-11, all, DATES_TEXTS, ct_no_rows, CT_TABLE_BYTES, room, room, DATES_TEXTS - 1, NULL);
}
