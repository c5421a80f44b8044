/* The inputs: seeded, and the same for all three libraries. */
#include <erfa.h>
#include <stdint.h>

enum { INPUTS = 4000 };

/* Which days the stamps lie on: by chance, or rising through one day, or through the last 100 seconds of a month with a leap second. */
typedef enum { LEAP_SECOND_YEARS, DRIFT_YEARS, MONTH_ENDS, ONE_DAY, LAST_SECONDS } set;

static const char *const set_name[] = {"1972-2030", "1960-1971", "month ends", "2017-06-15", "2016-12-31, 23:58:21"};

/* A date in two parts, its fields and times of day, an offset in seconds, days and seconds to add, the date's Julian
   year, another date, and a GPS week with its millisecond and date. */
typedef struct {
    double jd1, jd2, fraction, second, offset, days, seconds, julian_year, other1, other2;
    int64_t unix_seconds;
    int year, month, day, hour, minute;
    uint32_t nanos, week, millis;
    double gps1, gps2;
} input;

static uint64_t state;

/* splitmix64: small, well mixed, the same everywhere. */
static uint64_t draw(void)
{
    uint64_t z = (state += 0x9e3779b97f4a7c15u);
    z = (z ^ (z >> 30)) * 0xbf58476d1ce4e5b9u;
    z = (z ^ (z >> 27)) * 0x94d049bb133111ebu;
    return z ^ (z >> 31);
}

static int below(int limit) { return (int)(draw() % (uint64_t)limit); }
static double unit(void) { return (double)(draw() >> 11) * 0x1p-53; }

/* The Modified Julian Date of a day of the set. 1960-01-01 is 36934, 1972-01-01 is 41317 and 2030-01-01 is 62502. */
static int day_of(set which)
{
    double djm0, djm;
    int month;
    switch (which) {
    case LEAP_SECOND_YEARS: return 41317 + below(62502 - 41317);
    case DRIFT_YEARS: return 36934 + below(41317 - 36934);
    case ONE_DAY: return 57919;
    case LAST_SECONDS: return 57753;
    case MONTH_ENDS: break;
    }
    /* The day before the first of one of the months from February 1972 to January 2030. */
    month = 1 + below(12 * (2030 - 1972));
    eraCal2jd(1972 + month / 12, month % 12 + 1, 1, &djm0, &djm);
    return (int)djm - 1;
}

/* A quarter of the month ends lie in the last two seconds of the day, where a leap second is. The stamps of a set of one day rise. */
static double fraction_of(set which, int i)
{
    double fraction = unit();
    if (which == ONE_DAY) return (i + fraction) / INPUTS;
    if (which == LAST_SECONDS) return 1.0 - 100.0 / 86401.0 * (INPUTS - i - fraction) / INPUTS;
    return which == MONTH_ENDS && below(4) == 0 ? 1.0 - fraction * 2.0 / 86401.0 : fraction;
}

static void draw_dates(set which, input *in)
{
    for (int i = 0; i < INPUTS; i++, in++) {
        double rest;
        int day = day_of(which);
        /* Midnight and the time of day: the parts that utc_from_calendar makes. */
        in->jd1 = 2400000.5 + day;
        in->jd2 = fraction_of(which, i);
        eraJd2cal(in->jd1, 0.0, &in->year, &in->month, &in->day, &rest);
        in->hour = below(24);
        in->minute = below(60);
        in->second = 60.0 * unit();
        in->fraction = unit();
        in->offset = unit() - 0.5;
        in->unix_seconds = (day - 40587) * INT64_C(86400) + below(86400);
        in->nanos = (uint32_t)below(1000000000);
    }
}

/* Half of the other dates are the same date with its parts exchanged, and half are the next input's. */
static void draw_others(input *in)
{
    for (int i = 0; i < INPUTS; i++) {
        const input *next = &in[(i + 1) % INPUTS];
        int same = below(2);
        in[i].days = 2000.0 * (unit() - 0.5);
        in[i].seconds = 200000.0 * (unit() - 0.5);
        in[i].julian_year = eraEpj(in[i].jd1, in[i].jd2);
        in[i].other1 = same ? in[i].jd2 : next->jd1;
        in[i].other2 = same ? in[i].jd1 : next->jd2;
    }
}

/* Weeks 0 to 4,999, to 2075, each with the parts that the port gives. */
static void draw_weeks(input *in)
{
    for (int i = 0; i < INPUTS; i++, in++) {
        in->week = (uint32_t)below(5000);
        in->millis = (uint32_t)below(604800000);
        in->gps1 = 2444244.5 + 7 * in->week + in->millis / 86400000;
        in->gps2 = (in->millis % 86400000) / 86400000.0;
    }
}

static void draw_inputs(set which, input *in)
{
    state = (uint64_t)which;
    draw_dates(which, in);
    draw_others(in);
    draw_weeks(in);
}
