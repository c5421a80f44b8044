/* ct_standby_bill: answers, every refusal, and the order of two that would both hold. The shares are whole-number arithmetic by hand. */
#define SILVESTER 2016, 12, 31, 23, 45, 0, 0
#define NEW_YEAR 2017, 1, 1, 0, 0, 0, 0
#define QUARTER_PAST 2017, 1, 1, 0, 15, 0, 0

static void bill(uint64_t quarters, uint64_t first, uint64_t second)
{
    wanted_length = 0;
    put(quarters, 8);
    put(first, 8);
    put(second, 8);
}

static void standby_calls(void)
{
    /* 901 s, 900 s, 900.001 s; the cent to the larger remainder, and at a tie to the first */
    GIVES(bill(2, 100, 100), ct_standby_bill, SILVESTER, NEW_YEAR, 100, 1, 1, NO_ROWS);
    GIVES(bill(1, 50, 50), ct_standby_bill, NEW_YEAR, QUARTER_PAST, 100, 1, 1, NO_ROWS);
    GIVES(bill(2, 17, 33), ct_standby_bill, NEW_YEAR, 2017, 1, 1, 0, 15, 0, 1, 25, 1, 2, NO_ROWS);
    GIVES(bill(1, 0, 1), ct_standby_bill, NEW_YEAR, QUARTER_PAST, 1, 1, 2, NO_ROWS);
    GIVES(bill(1, 1, 0), ct_standby_bill, NEW_YEAR, QUARTER_PAST, 1, 7, 7, NO_ROWS);
    GIVES(bill(1, 0, 1), ct_standby_bill, NEW_YEAR, QUARTER_PAST, 1, 0, 7, NO_ROWS);
    GIVES(bill(0, 0, 0), ct_standby_bill, NEW_YEAR, NEW_YEAR, 1000000, 1, 1000000, NO_ROWS);
    GIVES(bill(1, 0, 0), ct_standby_bill, 2016, 12, 31, 23, 59, 60, 0, 2016, 12, 31, 23, 59, 60, 999, 0, 1, 1, NO_ROWS);
    /* 10,416 days and 16 h are 1,000,000 quarters */
    GIVES(bill(1000000, 500000000000, 500000000000), ct_standby_bill, 2050, 1, 1, 0, 0, 0, 0, 2078, 7, 9, 16, 0, 0, 0, 1000000, 1000000, 1000000, NO_ROWS);
    REFUSES(27, ct_standby_bill, 2050, 1, 1, 0, 0, 0, 0, 2078, 7, 9, 16, 0, 0, 1, 1, 1, 1, NO_ROWS);
    REFUSES(27, ct_standby_bill, 1972, 1, 1, 0, 0, 0, 0, 2147483647, 12, 30, 23, 59, 59, 999, 1, 1, 1, NO_ROWS);
    /* a leap second left out at the end of 2049: 899 s */
    one_row(JANUARY_2050, DOWN);
    GIVES(bill(1, 1, 1), ct_standby_bill, 2049, 12, 31, 23, 45, 0, 1, 2050, 1, 1, 0, 0, 1, 1, 2, 1, 1, LENT);
    REFUSES(4, ct_standby_bill, 2049, 12, 31, 23, 59, 59, 0, 2050, 1, 1, 0, 0, 0, 0, 2, 1, 1, LENT);
    /* the table, the start, the end, 26, 27, 28, each before the next */
    REFUSES(14, ct_standby_bill, 1971, 13, 1, 0, 0, 0, 0, NEW_YEAR, 1, 1, 1, table, CT_TABLE_BYTES - 1);
    one_row(LAST_MONTH, UP);
    REFUSES(21, ct_standby_bill, 1971, 13, 1, 0, 0, 0, 0, NEW_YEAR, 1, 1, 1, LENT);
    REFUSES(1, ct_standby_bill, 1971, 13, 1, 0, 0, 0, 0, 2017, 13, 1, 0, 0, 0, 0, 1, 1, 1, NO_ROWS);
    REFUSES(2, ct_standby_bill, 2017, 13, 32, 0, 0, 0, 0, 1971, 1, 1, 0, 0, 0, 0, 1, 1, 1, NO_ROWS);
    REFUSES(3, ct_standby_bill, 2017, 2, 29, 24, 0, 0, 0, NEW_YEAR, 1, 1, 1, NO_ROWS);
    REFUSES(5, ct_standby_bill, 2147483647, 12, 31, 24, 0, 0, 0, NEW_YEAR, 1, 1, 1, NO_ROWS);
    REFUSES(4, ct_standby_bill, 2017, 1, 1, 23, 59, 60, 0, 1971, 1, 1, 0, 0, 0, 0, 1, 1, 1, NO_ROWS);
    REFUSES(4, ct_standby_bill, 2016, 12, 31, 23, 58, 60, 0, NEW_YEAR, 1, 1, 1, NO_ROWS);
    REFUSES(4, ct_standby_bill, 2016, 12, 31, 23, 58, 60, 0, 1971, 13, 1, 0, 0, 0, 0, 1, 1, 1, NO_ROWS);
    REFUSES(1, ct_standby_bill, NEW_YEAR, 1971, 13, 1, 0, 0, 0, 0, 1, 1, 1, NO_ROWS); /* these two: the header's example */
    REFUSES(4, ct_standby_bill, 2016, 12, 31, 23, 59, 59, 1000, NEW_YEAR, 1, 1, 1, NO_ROWS);
    REFUSES(1, ct_standby_bill, NEW_YEAR, 1971, 13, 1, 0, 0, 0, 0, 1000001, 0, 0, NO_ROWS);
    REFUSES(26, ct_standby_bill, NEW_YEAR, 2016, 12, 31, 23, 59, 60, 999, 1000001, 0, 0, NO_ROWS);
    REFUSES(27, ct_standby_bill, NEW_YEAR, NEW_YEAR, 1000001, 0, 0, NO_ROWS);
    REFUSES(27, ct_standby_bill, NEW_YEAR, NEW_YEAR, 1, 1000001, 1, NO_ROWS);
    REFUSES(27, ct_standby_bill, NEW_YEAR, NEW_YEAR, 1, 0, 1000001, NO_ROWS);
    REFUSES(28, ct_standby_bill, NEW_YEAR, NEW_YEAR, 1, 0, 0, NO_ROWS);
}
