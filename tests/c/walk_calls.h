/* ct_offsets_at_0h: answers and the rows compared, every refusal, and the order of two that would both hold. The counts are by hand: of the rows, those reached by the
   last date, and one for each date that leaves a row; the offsets are the IERS's whole seconds, and of 1960 document 01's terms. Tables as in table_calls.h. */
enum { MOST_DATES = 4, WALK_GUARD = 9 };

typedef struct {
    size_t length; /* how many bytes are handed over */
    uint8_t bytes[12 * MOST_DATES + 1];
} date_list;

static date_list dates_of(int count, ...)
{
    date_list list = {0, {0}};
    va_list words;
    va_start(words, count);
    for (; count > 0; count--, list.length += 4) ct_put_number(list.bytes + list.length, (uint32_t)va_arg(words, int));
    va_end(words);
    return list;
}

static date_list longer(date_list list, int bytes)
{
    list.length = (size_t)((int)list.length + bytes);
    return list;
}

#define DATES(...) dates_of(sizeof((int[]){__VA_ARGS__}) / sizeof(int), __VA_ARGS__)

/* Asks with `place_bytes` bytes of room. Code 0 or more says that as many of the offsets as there are dates are due. Bytes behind them, and all at a refusal, stay. */
static void walks(int64_t code, const double *offsets, date_list dates, const uint8_t *rows, size_t rows_len, size_t place_bytes)
{
    uint8_t got[8 * MOST_DATES + WALK_GUARD], want[sizeof got];
    size_t i;
    int64_t said;
    memset(got, UNTOUCHED, sizeof got);
    memset(want, UNTOUCHED, sizeof want);
    for (i = 0; code >= 0 && i < 8 * (dates.length / 12); i++) want[i] = (uint8_t)(ct_opaque_bits(offsets[i / 8]) >> 8 * (i % 8));
    said = ct_offsets_at_0h(dates.bytes, dates.length, rows, rows_len, got, place_bytes);
    check(said == code, "ct_offsets_at_0h says %ld, not %ld", (long)said, (long)code);
    check(!memcmp(got, want, sizeof got), "ct_offsets_at_0h leaves other bytes where %ld is due", (long)code);
}

static void walked_dates(void)
{
    static const double leap[] = {36.0, 37.0}, same[] = {LAST_SECONDS, LAST_SECONDS, LAST_SECONDS}, early[] = {0.0, 0.0}, last[] = {LAST_SECONDS, UP}, less[] = {DOWN};
    date_list none = {0, {0}}, turn = DATES(2016, 12, 31, 2017, 1, 1);
    double ends[4];
    size_t spare;
    ends[0] = 0.0;
    ends[1] = 1.417818 + (36934.0 + 0.0 - 37300.0) * 0.001296;
    ends[2] = 36.0;
    ends[3] = 37.0;
    walks(0, leap, none, NO_ROWS, 0);
    walks(0, leap, none, NO_ROWS, 8);
    for (spare = 0; spare <= WALK_GUARD; spare++) walks(FIXED_ROWS + 1, leap, turn, NO_ROWS, 16 + spare);
    walks(FIXED_ROWS, same, DATES(LAST_MONTH / 12, LAST_MONTH % 12 + 1, 1, LAST_MONTH / 12, LAST_MONTH % 12 + 1, 1, 2147483647, 12, 31), NO_ROWS, 24);
    walks(2, early, DATES(-4799, 1, 1, 1959, 12, 31), NO_ROWS, 16);
    walks(FIXED_ROWS + 3, ends, DATES(1959, 12, 31, 1960, 1, 1, 2016, 12, 31, 2017, 1, 1), NO_ROWS, 32);
    one_row(JANUARY_2050, UP);
    walks(FIXED_ROWS + 2, last, DATES(2049, 12, 31, 2050, 1, 1), LENT, 16);
    one_row(JANUARY_2050, DOWN);
    walks(FIXED_ROWS + 1, less, DATES(2050, 1, 31), LENT, 8);
    many_rows(16);
    walks(FIXED_ROWS + 17, last, DATES(2049, 12, 31, 2064, 1, 1), LENT, 16);
}

static void refused_walks(void)
{
    date_list turn = DATES(2016, 12, 31, 2017, 1, 1), back = DATES(2017, 1, 1, 2016, 12, 31, 1999, 2, 29), none = {0, {0}};
    walks(-11, NULL, DATES(1999, 2, 29), NO_ROWS, 0); /* the header's examples */
    walks(-17, NULL, back, NO_ROWS, 24);
    walks(-14, NULL, longer(back, 1), NO_ROWS, 24);
    walks(-14, NULL, longer(turn, -1), NO_ROWS, 16);
    walks(-14, NULL, longer(turn, -8), NO_ROWS, 0);
    walks(-11, NULL, turn, NO_ROWS, 15);
    walks(-11, NULL, back, NO_ROWS, 23);
    walks(-1, NULL, DATES(-4800, 13, 40), NO_ROWS, 8);
    walks(-2, NULL, DATES(2016, 12, 31, 2016, 13, 40), NO_ROWS, 16);
    walks(-3, NULL, DATES(2016, 12, 31, 1999, 2, 29), NO_ROWS, 16); /* and 17 */
    walks(-3, NULL, DATES(2000, 2, 29, 2000, 2, 30, 1999, 1, 1), NO_ROWS, 24);
    walks(-17, NULL, DATES(2017, 1, 2, 2017, 1, 1), NO_ROWS, 16);
    walks(-17, NULL, DATES(2017, 2, 1, 2017, 1, 31), NO_ROWS, 16);
    walks(-17, NULL, DATES(2017, 1, 1, 2016, 12, 31, 2016, 13, 1), NO_ROWS, 24);
    walks(-14, NULL, none, ct_no_rows, CT_TABLE_BYTES - 1, 0);
    one_row(JANUARY_2050, UP + 1);
    walks(-22, NULL, longer(back, 1), LENT, 0);
    one_row(LAST_MONTH, UP + 1);
    walks(-21, NULL, longer(back, 1), LENT, 0);
    table[4] = 2;
    walks(-20, NULL, longer(back, 1), LENT, 0);
    walks(-14, NULL, turn, table, CT_TABLE_BYTES + 1, 16);
}

static void walk_calls(void)
{
    walked_dates();
    refused_walks();
}
