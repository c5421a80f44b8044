/* The reasons in sentences: a sentence of each number, the field of each, values that pass, a number outside, and a buffer of each length. */
enum { REASON_ROOM = 64 };

/* What the call before wrote: the text, or the refusal's number where it is below 0; the rest of the buffer, and all of it at a refusal, stays. */
static void tells(const char *due, int64_t code, const uint8_t *got)
{
    size_t n = strlen(due), i;
    int same = code == (int64_t)n && !memcmp(got, due, n);
    for (i = n; i < REASON_ROOM; i++) same = same && got[i] == UNTOUCHED;
    check(same, "in place of \"%s\" the code %ld", due, (long)code);
}

#define TELLS(due, call) do { uint8_t got[REASON_ROOM]; int64_t code; memset(got, UNTOUCHED, sizeof got); code = call; tells(due, code, got); } while (0)
#define REASON(call_name, ...) call_name(__VA_ARGS__, got, sizeof got)

static void reason_rooms(void)
{
    uint8_t got[REASON_ROOM];
    size_t room, i;
    for (room = 0; room < 30; room++) {
        memset(got, UNTOUCHED, sizeof got);
        int64_t code = ct_date_reason(2, 2000, 13, 1, got, room), due = room < 30 ? -11 : 30;
        check(code == due, "30 bytes in %lu: %ld", (unsigned long)room, (long)code);
        for (i = 0; i < sizeof got; i++) check(got[i] == UNTOUCHED, "byte %lu changed at 11", (unsigned long)i);
    }
    check(ct_date_reason(2, 2000, 13, 1, got, 30) == 30, "30 bytes in 30");
    check(ct_reason(0, got, 0) == -18 && ct_reason(29, got, sizeof got) == -18 && ct_reason(UINT32_MAX, got, 0) == -18, "a number that is not 1 to 28");
    check(ct_reason(28, got, 0) == -11, "11 after 18");
}

/* The second listing: its lines, refused blocks, and a buffer that is too short for a line. */
#define LISTED(due, length, came, line) TELLS(due, ct_reason_listing_part(block, length, came, line, ct_no_rows, CT_TABLE_BYTES, got, sizeof got))

static void reason_listing(void)
{
    uint8_t block[40] = {2, 0, 0, 0, 2, 0, 0, 0}, got[REASON_ROOM];
    size_t room, i;
    for (i = 0; i < 8; i++) block[8 + i] = (uint8_t)(ct_bits_of(2451545.0) >> 8 * i);
    for (i = 0; i < 8; i++) block[16 + i] = (uint8_t)((SIGN | INFINITE | 1) >> 8 * i);
    LISTED("utc listing 2 refused 1\n", 40, 40, 0);
    LISTED("0 2000-01-01T12:00:00.000\n", 40, 40, 1);
    LISTED("1 date is outside the calendar: sum 7ff8000000000000\n", 40, 40, 2);
    LISTED("", 40, 40, 3);
    for (i = 0; i < 8; i++) block[8 + i] = (uint8_t)(ct_bits_of(-31740.0) >> 8 * i);
    LISTED("0 year is before -4799, in a bill 1972: year -4800\n", 40, 40, 1);
    LISTED("block the number of bytes is wrong: length 18446744073709551615\n", 39, UINT64_MAX, 0);
    LISTED("block the number of bytes is wrong: length 64010\n", 39, 64010, 0);
    LISTED("block the number of bytes is wrong: length 7\n", 7, 7, 0);
    block[4] = 3;
    LISTED("block the two sizes differ: second size 3\n", 40, 40, 0);
    block[0] = block[4] = 0xa1;
    block[1] = block[5] = 0x0f;
    LISTED("block there are too many stamps: size 4001\n", 40, 40, 0);
    for (room = 0; room < REASON_ROOM; room++) {
        memset(got, UNTOUCHED, sizeof got);
        check(ct_reason_listing_part(block, 40, 40, 0, ct_no_rows, CT_TABLE_BYTES, got, room) == -11, "a line in %lu bytes", (unsigned long)room);
        for (i = 0; i < sizeof got; i++) check(got[i] == UNTOUCHED, "byte %lu changed at 11", (unsigned long)i);
    }
    check(ct_reason_listing_part(block, 40, 40, 0, ct_no_rows, CT_TABLE_BYTES - 1, got, 0) == -14, "the table before 11");
}

/* The second listing by lent rows, as listing_calls has the first: the last second of 2049 is shown with a row and not without one, in a buffer of each
   length, and a refused table lists nothing, before the block is read. */
enum { LONG_ROOM = REASON_ROOM + 16 };

static void second_listing(const char *due, int64_t number, const uint8_t *block, size_t length, const uint8_t *rows, size_t rows_len)
{
    uint8_t got[LONG_ROOM], wants[LONG_ROOM];
    size_t space;
    for (space = 0; space <= LONG_ROOM; space++) {
        int64_t refused = number ? number : space < REASON_ROOM ? 11 : 0, code;
        memset(got, UNTOUCHED, sizeof got);
        memset(wants, UNTOUCHED, sizeof wants);
        if (!refused) memcpy(wants, due, strlen(due));
        code = ct_reason_listing_part(block, length, length, 1, rows, rows_len, got, space);
        check(code == (refused ? -refused : (int64_t)strlen(due)), "second listing with %d bytes lent says %ld, not %ld", (int)space, (long)code, (long)-refused);
        check(!memcmp(got, wants, sizeof got), "second listing with %d bytes lent leaves other bytes", (int)space);
    }
}

/* The first line that a part has. */
static size_t line_length(const uint8_t *part, int64_t n)
{
    size_t i = 0;
    while ((int64_t)i < n && part[i] != '\n') i++;
    return i;
}

/* Every line with a text is that of the first listing, by whatever table: stamps of the last seconds of years about the lent rows, one in eight not finite. */
static void same_lines(void)
{
    enum { STAMPS = 40, LENGTH = 8 + 16 * STAMPS };
    uint8_t block[LENGTH] = {STAMPS, 0, 0, 0, STAMPS, 0, 0, 0}, first[REASON_ROOM], second[REASON_ROOM];
    uint32_t line;
    int i, k, texts = 0;
    for (i = 0; i < STAMPS; i++) {
        uint64_t jd1 = ct_bits_of(2469806.5 + (i % 5) * 365.0), jd2 = i % 8 == 7 ? INFINITE : ct_bits_of((86398.5 + i % 3) / 86401.0);
        for (k = 0; k < 8; k++) {
            block[8 + 8 * i + k] = (uint8_t)(jd1 >> 8 * k);
            block[8 + 8 * STAMPS + 8 * i + k] = (uint8_t)(jd2 >> 8 * k);
        }
    }
    for (line = 1; line <= STAMPS; line++) {
        int64_t a = ct_listing_part(block, LENGTH, line, LENT, first, sizeof first);
        int64_t b = ct_reason_listing_part(block, LENGTH, LENGTH, line, LENT, second, sizeof second);
        size_t n = line_length(first, a);
        first[n] = 0;
        if (strstr((char *)first, " refused ")) continue;
        texts++;
        check(n == line_length(second, b) && !memcmp(first, second, n), "line %d of the second listing", (int)line);
    }
    check(texts == STAMPS - STAMPS / 8, "%d lines with a text", texts);
}

static void reason_listing_tables(void)
{
    uint8_t block[24];
    last_second_of_2049(block);
    one_row(JANUARY_2050, UP);
    second_listing("0 2049-12-31T23:59:60.500\n", 0, block, 24, LENT);
    same_lines();
    second_listing("0 2049-12-31T23:59:59.500\n", 0, block, 24, NO_ROWS);
    second_listing("", 14, block, 24, table, CT_TABLE_BYTES - 1);
    one_row(JANUARY_2050, UP + 1);
    second_listing("", 22, block, 7, LENT);
    one_row(LAST_MONTH, UP + 1);
    second_listing("", 21, block, 7, LENT);
    table[4] = 2;
    second_listing("", 20, block, 7, LENT);
    many_rows(16);
    same_lines();
}

static void reason_calls(void)
{
    double infinity = infinite_float(), nan = nan_float();
    TELLS("month is not 1 to 12", REASON(ct_reason, 2));
    TELLS("both lengths of line are 0", REASON(ct_reason, 28));
    TELLS("year is before -4799, in a bill 1972: year -2147483648", REASON(ct_date_reason, 1, INT32_MIN, 1, 1));
    TELLS("year is before -4799, in a bill 1972", REASON(ct_date_reason, 1, -4799, 1, 1));
    TELLS("month is not 1 to 12: month 13", REASON(ct_date_reason, 2, -5000, 13, 1));
    TELLS("day is not in the month: day 30", REASON(ct_date_reason, 3, 2000, 2, 30));
    TELLS("day is not in the month: day 1", REASON(ct_date_reason, 3, 2000, 13, 1));
    TELLS("fraction is not 0 to 1", REASON(ct_date_reason, 7, -5000, 13, 40));
    TELLS("time is not in the day: hour 24", REASON(ct_time_reason, 4, 24, 60, nan, 0.0));
    TELLS("time is not in the day: minute 60", REASON(ct_time_reason, 4, 23, 60, nan, 0.0));
    TELLS("time is not in the day: seconds 404e000000000000", REASON(ct_time_reason, 4, 23, 59, 60.0, 0.0));
    TELLS("time is not in the day", REASON(ct_time_reason, 4, 23, 59, 60.0, 1.0));
    TELLS("time is not in the day: seconds 7ff8000000000000", REASON(ct_time_reason, 4, 0, 0, ct_opaque_float(SIGN | INFINITE | QUIET), 0.0));
    TELLS("date is outside the calendar: sum 7ff8000000000000", REASON(ct_parts_reason, 6, infinity, minus_infinite_float()));
    TELLS("date is outside the calendar: sum 41cdcd6500000002", REASON(ct_parts_reason, 6, 1e9, 2e-7));
    TELLS("date is outside the calendar", REASON(ct_parts_reason, 6, 1e9, 0.0));
    TELLS("part or sum of a date is not finite: jd1 7ff0000000000000", REASON(ct_parts_reason, 9, infinity, nan));
    TELLS("part or sum of a date is not finite: jd2 fff0000000000000", REASON(ct_parts_reason, 9, 0.0, -infinity));
    TELLS("part or sum of a date is not finite", REASON(ct_parts_reason, 9, 1e308, 1e308));
    TELLS("fraction is not 0 to 1: fraction 3ff0000000000001", REASON(ct_float_reason, 7, 1.0000000000000002));
    TELLS("fraction is not 0 to 1", REASON(ct_float_reason, 7, -0.0));
    TELLS("offset is not finite: offset fff0000000000000", REASON(ct_float_reason, 10, -infinity));
    TELLS("nanoseconds are a second or more: nanoseconds 4294967295", REASON(ct_count_reason, 8, UINT32_MAX));
    TELLS("nanoseconds are a second or more", REASON(ct_count_reason, 8, 999999999));
    TELLS("the two sizes differ: second size 7", REASON(ct_block_reason, 12, 8, 6, 7));
    TELLS("there are too many stamps: size 4001", REASON(ct_block_reason, 13, 8, 4001, 2));
    TELLS("the number of bytes is wrong: length 18446744073709551615", REASON(ct_block_reason, 14, UINT64_MAX, UINT32_MAX, 0));
    TELLS("the number of bytes is wrong", REASON(ct_block_reason, 14, 8 + 16 * 4001, 4001, 0));
    reason_rooms();
    reason_listing();
    reason_listing_tables();
}
