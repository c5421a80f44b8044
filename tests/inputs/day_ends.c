/* Requests for the text (call 122) at the ends of days: the last 59 floats before midnight, and the floats around the last
   milliseconds and the last second of a day of 86,400 s, of 86,401 s and of 86,400.943482 s, each date divided in four ways.
     day_ends > REQUESTS
   The days: the last of 1959, the day before each row of TAI-UTC, and each seventh day from 1960 to 1971, where TAI-UTC drifts. */
#include "record.h"
#include <math.h>
#include <stdio.h>

enum { TEXT = 122, ROOM = 32, ROWS = 42, FIRST_1960 = 36934, FIRST_1972 = 41317 };

/* The Modified Julian Dates at which the rows begin. */
static const int rows[ROWS] = {
    36934, 37300, 37512, 37665, 38334, 38395, 38486, 38639, 38761, 38820, 38942, 39004, 39126, 39887,
    41317, 41499, 41683, 42048, 42413, 42778, 43144, 43509, 43874, 44239, 44786, 45151, 45516, 46247,
    47161, 47892, 48257, 48804, 49169, 49534, 50083, 50630, 51179, 53736, 54832, 56109, 57204, 57754
};

static void ask(double jd1, double jd2)
{
    record r = { { TEXT, bits(jd1), bits(jd2), ROOM } };
    fwrite(&r, sizeof r, 1, stdout);
}

static void ask_divided(int mjd, double fraction)
{
    double midnight = 2400000.5 + mjd;
    ask(midnight, fraction);
    ask(fraction, midnight);
    ask(2400000.5, mjd + fraction);
    ask(midnight + 1.0, fraction - 1.0);
}

/* The 25 floats around a fraction of a day. */
static void ask_around(int mjd, double fraction)
{
    double x = fraction;
    int k;
    for (k = 0; k < 12; k++) x = nextafter(x, -1.0);
    for (k = 0; k < 25; k++, x = nextafter(x, 2.0))
        if (0.0 <= x && x < 1.0) ask_divided(mjd, x);
}

static void ask_day(int mjd)
{
    static const double lengths[] = { 86400.0, 86401.0, 86400.943482 };
    static const double before[] = { 0.0005, 0.001, 0.0015, 0.943482, 1.0, 1.0005 };
    int i, k;
    for (k = 1; k < 60; k++) ask_divided(mjd, 1.0 - ldexp(k, -53));
    for (i = 0; i < 3; i++)
        for (k = 0; k < 6; k++) ask_around(mjd, (lengths[i] - before[k]) / lengths[i]);
}

int main(void)
{
    int i;
    for (i = 0; i < ROWS; i++) ask_day(rows[i] - 1);
    for (i = FIRST_1960; i < FIRST_1972; i += 7) ask_day(i);
    return fflush(stdout) != 0;
}
