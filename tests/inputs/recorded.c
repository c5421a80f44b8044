/* Makes requests for UTC to TAI (call 123) or TAI to UTC (124) as recorders write their stamps, for run_oracle and the Rust's single calls.
     recorded CALL COUNT SEED > REQUESTS
   Runs of some to 3,000 stamps: a midnight in jd1 and the fraction of the day in jd2, in even steps within a day or over a midnight of UTC, at which the day goes on in jd1
   or not; about each row of TAI-UTC, month ends, leap days, days of the drift, before it and far off. Between them are parts that are not finite, other divisions of the same
   date and dates of other days; every fifth run falls back now and then. */
#include "../leap_rows.h"
#include "chance.h"
#include "record.h"
#include <math.h>
#include <stdio.h>
#include <stdlib.h>

enum { MOST = 3000 };

static const int ROWS[FIXED_ROWS] = LEAP_ROW_MJDS;
/* 2016-02-29, 2000-02-29, 2100-02-28, 2015-04-30, 2020-01-01, 1966-07-01, 1959-12-31, 9999-12-31 and -4800-12-31 */
static const int OTHERS[] = {57447, 51603, 88127, 57142, 58849, 39307, 36933, 2973483, -2431740};
enum { OTHER_COUNT = sizeof OTHERS / sizeof *OTHERS };

static double unit(void) { return (double)(next() >> 11) * 0x1p-53; }

static uint64_t dead(void)
{
    uint64_t any = next();
    return 0x7ff0000000000000u | (below(3) ? any : any << 63);
}

static void ask(uint64_t call, uint64_t jd1, uint64_t jd2)
{
    record r = {{call, jd1, jd2}};
    fwrite(&r, sizeof r, 1, stdout);
}

/* one stamp, `at` days after a midnight */
static void ask_stamp(uint64_t call, double midnight, double at, int carried)
{
    double days = carried ? floor(at) : 0.0, jd1 = midnight + days, jd2 = at - days;
    switch (below(60)) {
    case 0: ask(call, bits(jd1), dead()); return;
    case 1: ask(call, dead(), bits(jd2)); return;
    case 2: ask(call, bits(jd2), bits(jd1)); return;
    case 3: ask(call, bits(jd1 - 0.5), bits(jd2 + 0.5)); return;
    case 4: ask(call, bits(2400000.5), bits(jd1 - 2400000.5 + jd2)); return;
    case 5: ask(call, bits(jd1 + (double)below(400)), bits(jd2)); return;
    default: ask(call, bits(jd1), bits(jd2));
    }
}

static long ask_run(uint64_t call, long left)
{
    static const double STEPS[] = {0.001, 0.001, 0.05, 1.0, 60.0}, STARTS[] = {0.0, 0.0, 37.0, 36.0, 10.0};
    uint64_t which = below(FIXED_ROWS + OTHER_COUNT), falls = below(5);
    long count = 1 + (long)below(MOST), i;
    double midnight = 2400000.5 + (which < FIXED_ROWS ? ROWS[which] : OTHERS[which - FIXED_ROWS] + 1), step = STEPS[below(5)] / 86400.0;
    uint64_t before = below((uint64_t)count + 1);
    double first = (below(3) ? STARTS[below(5)] : 86400.0 * unit()) / 86400.0 - step * (double)before;
    int carried = below(5) != 0;
    if (count > left) count = left;
    for (i = 0; i < count; i++) ask_stamp(call, midnight, first + step * (double)(falls == 0 && below(7) == 0 ? (long)below((uint64_t)count) : i), carried);
    return count;
}

int main(int count, char **words)
{
    long left = count == 4 ? atol(words[2]) : 0;
    if (!left) {
        fprintf(stderr, "recorded CALL COUNT SEED\n");
        return 2;
    }
    state = strtoull(words[3], NULL, 10) * 1000003u + strtoull(words[1], NULL, 10);
    while (left > 0) left -= ask_run(strtoull(words[1], NULL, 10), left);
    return fflush(stdout) != 0;
}
