/* The bill for a crew's standby between two UTC times, shared between two owners.
     standby START END RATE FIRST SECOND
   START, END: UTC as 2016-12-31T23:45:00.000; RATE: cents for each started quarter hour; FIRST, SECOND: metres of line. Exit status 1 where the call refuses.
   `make -C examples` builds it. */
#include "celestial_time.h"
#include <errno.h>
#include <inttypes.h>
#include <stdio.h>
#include <stdlib.h>

struct utc { int year; unsigned month, day, hour, minute, second, millis; };

/* Exactly 23 bytes, so that .5 is not taken for 5 ms. */
static int read_time(const char *text, struct utc *t)
{
    int end = 0;
    return sscanf(text, "%4d-%2u-%2uT%2u:%2u:%2u.%3u%n", &t->year, &t->month, &t->day, &t->hour, &t->minute, &t->second, &t->millis, &end) == 7 && end == 23 && !text[23];
}

/* A whole number of 32 bits; the call refuses those over its limits. */
static int read_number(const char *text, uint32_t *number)
{
    char *end;
    unsigned long long n;
    if (*text < '0' || *text > '9') return 0;
    errno = 0;
    n = strtoull(text, &end, 10);
    *number = (uint32_t)n;
    return errno == 0 && *end == 0 && n <= UINT32_MAX;
}

int main(int count, char **words)
{
    struct utc a, b;
    uint32_t rate, first, second;
    uint8_t bill[24];
    int64_t code;
    if (count != 6 || !read_time(words[1], &a) || !read_time(words[2], &b) || !read_number(words[3], &rate) || !read_number(words[4], &first)
        || !read_number(words[5], &second)) {
        fputs("usage: standby START END RATE FIRST SECOND\n", stderr);
        return 2;
    }
    code = ct_standby_bill(a.year, (uint8_t)a.month, (uint8_t)a.day, (uint8_t)a.hour, (uint8_t)a.minute, (uint8_t)a.second, a.millis,
                           b.year, (uint8_t)b.month, (uint8_t)b.day, (uint8_t)b.hour, (uint8_t)b.minute, (uint8_t)b.second, b.millis,
                           rate, first, second, ct_no_rows, sizeof ct_no_rows, bill, sizeof bill);
    if (code < 0) {
        fprintf(stderr, "standby: refused %d\n", (int)-code);
        return 1;
    }
    printf("%" PRIu64 " quarters, %" PRIu64 " + %" PRIu64 " cents\n", ct_pattern_at(bill, 8), ct_pattern_at(bill + 8, 8), ct_pattern_at(bill + 16, 8));
    return 0;
}
