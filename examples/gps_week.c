/* The GPS date of what a receiver says, the way back, and how equal and the same differ.
     gps_week TEN_BITS MILLIS REFERENCE
   TEN_BITS: the week's ten lowest bits; MILLIS: milliseconds of the week; REFERENCE: a week near it. Exit status 1 where a call refuses. `make -C examples`
   builds it. */
#include "celestial_time.h"
#include <errno.h>
#include <stdio.h>
#include <stdlib.h>

static int refused(const char *what, int64_t code)
{
    fprintf(stderr, "gps_week: %s refused %d\n", what, (int)-code);
    return 1;
}

/* A whole number of 32 bits; the calls refuse those over their limits. */
static int read_number(const char *text, uint32_t *number)
{
    char *end;
    unsigned long long n;
    if (*text < '0' || *text > '9') return 0;
    errno = 0;
    n = strtoull(text, &end, 10);
    *number = (uint32_t)n;
    return errno == 0 && *end == 0 && n <= UINT32_MAX;
}

int main(int count, char **words)
{
    uint8_t date[16], fields[20], back[8];
    double jd1, jd2;
    int64_t week, code;
    uint32_t ten_bits, millis, reference;
    if (count != 4 || !read_number(words[1], &ten_bits) || !read_number(words[2], &millis) || !read_number(words[3], &reference)) {
        fputs("usage: gps_week TEN_BITS MILLIS REFERENCE\n", stderr);
        return 2;
    }
    week = ct_gps_full_week(ten_bits, reference);
    if (week < 0) return refused("the week", week);
    code = ct_gps_from_week((uint32_t)week, millis, date, sizeof date);
    if (code < 0) return refused("the date", code);
    jd1 = ct_float_at(date);
    jd2 = ct_float_at(date + 8);
    code = ct_julian_to_calendar(jd1, jd2, fields, sizeof fields);
    if (code < 0) return refused("the calendar", code);
    printf("week %d, %u ms: (%.1f, %.17g) GPS, %04d-%02d-%02d plus %.9f day\n", (int)week, millis, jd1, jd2, (int)ct_int_at(fields), (int)ct_int_at(fields + 4), (int)ct_int_at(fields + 8),
           ct_float_at(fields + 12));
    code = ct_gps_to_week(jd1, jd2, back, sizeof back);
    if (code < 0) return refused("the way back", code);
    printf("and back: week %u, %u ms\n", (unsigned)ct_pattern_at(back, 4), (unsigned)ct_pattern_at(back + 4, 4));
    jd1 -= 0.25; /* the same moment, divided otherwise */
    jd2 += 0.25;
    printf("written as (%.2f, %.17g): equal %d, the same stamp %d\n", jd1, jd2, (int)ct_equal(ct_float_at(date), ct_float_at(date + 8), jd1, jd2),
           (int)ct_same_stamp(CT_GPS, ct_pattern_at(date, 8), ct_pattern_at(date + 8, 8), CT_GPS, ct_bits_of(jd1), ct_bits_of(jd2)));
    return 0;
}
