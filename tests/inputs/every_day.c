/* Requests for every day of a range, to compare the calendar and TAI-UTC whole.
     every_day CALL
   CALL is a number of calls.txt:
     25  each midnight from day -68569 to day 3,000,000
     27  each day number of that range
     22, 23, 24  each date of that range
     60  each date from 1959 to 2030, at 0h, 12h and 24h
     62  each date from 1959 to 2030
   Dates are counted on from -4900-03-01, which is day -68569. */
#include "record.h"
#include <stdio.h>
#include <stdlib.h>

enum { FIRST = -68569, LAST = 3000000 };

typedef struct { int year, month, day; } date;

static int month_length(int year, int month)
{
    static const int lengths[] = { 31, 28, 31, 30, 31, 30, 31, 31, 30, 31, 30, 31 };
    int leap = year % 4 == 0 && (year % 100 != 0 || year % 400 == 0);
    return month == 2 && leap ? 29 : lengths[month - 1];
}

static date next(date d)
{
    if (++d.day <= month_length(d.year, d.month)) return d;
    d.day = 1;
    if (++d.month <= 12) return d;
    d.month = 1;
    d.year++;
    return d;
}

static void put(const uint64_t *request)
{
    if (fwrite(request, 64, 1, stdout) != 1) exit(1);
}

static void ask(int call, int number, date d)
{
    uint64_t r[8] = { (uint64_t)call };
    if (call == 25) {
        r[1] = bits(number - 0.5);
        put(r);
        return;
    }
    if (call == 27) {
        r[1] = (uint64_t)(int64_t)number;
        put(r);
        return;
    }
    if (call >= 60 && (d.year < 1959 || d.year > 2030)) return;
    r[1] = (uint64_t)(int64_t)d.year;
    r[2] = (uint64_t)d.month;
    r[3] = (uint64_t)d.day;
    put(r);
    if (call != 60) return;
    r[4] = bits(0.5);
    put(r);
    r[4] = bits(1.0);
    put(r);
}

int main(int count, char **words)
{
    if (count != 2) return 2;
    int call = atoi(words[1]);
    date d = { -4900, 3, 1 };
    for (int number = FIRST; number <= LAST; number++, d = next(d)) ask(call, number, d);
    return fflush(stdout) ? 1 : 0;
}
