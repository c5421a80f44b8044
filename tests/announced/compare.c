/* The port under announced rows against ERFA with the same rows in its own table (eraSetLeapSeconds), bit for bit.
     compare CASES [SEED]      prints for each call how many answers were compared and differ, and the first that differ
     compare CASES SEED sample writes ERFA's answers as lines for replay.c
   Exit status 1 where an answer differs. */
#include <erfa.h>
#include <erfaextra.h>
#include <inttypes.h>
#include <stdlib.h>

#include "../leap_rows.h"
#include "announced.h"

static const char *const name[] = {"TAI-UTC", "leap", "UTC to TAI", "TAI to UTC", "UTC to UT1", "UT1 to UTC", "text"};
static uint64_t state;

static uint64_t draw(void)
{
    uint64_t z = (state += 0x9e3779b97f4a7c15u);
    z = (z ^ (z >> 30)) * 0xbf58476d1ce4e5b9u;
    z = (z ^ (z >> 27)) * 0x94d049bb133111ebu;
    return z ^ (z >> 31);
}

static int below(int n) { return (int)(draw() % (uint64_t)n); }
static double unit(void) { return (double)(draw() >> 11) * 0x1p-53; }

/* ERFA's own rows, which a table of announced rows goes after. */
static eraLEAPSECOND built_in[64];
static int built_ins;

static void keep_built_in(void)
{
    eraLEAPSECOND *rows;
    built_ins = eraGetLeapSeconds(&rows);
    memcpy(built_in, rows, (size_t)built_ins * sizeof *rows);
}

static void lend_to_erfa(const a_case *c)
{
    static eraLEAPSECOND rows[80];
    memcpy(rows, built_in, sizeof built_in);
    for (int i = 0; i < c->rows; i++) {
        rows[built_ins + i].iyear = c->months[i] / 12;
        rows[built_ins + i].month = c->months[i] % 12 + 1;
        rows[built_ins + i].delat = c->seconds[i];
    }
    eraSetLeapSeconds(rows, built_ins + c->rows);
}

static int erfa_leap(int y, int m, int d, double *leap)
{
    double djm0, djm, dat0, dat12, dat24, w;
    int y2, m2, d2;
    if (eraDat(y, m, d, 0.0, &dat0) < 0 || eraDat(y, m, d, 0.5, &dat12) < 0 || eraCal2jd(y, m, d, &djm0, &djm)) return -1;
    if (eraJd2cal(djm0, djm + 1.0, &y2, &m2, &d2, &w) || eraDat(y2, m2, d2, 0.0, &dat24) < 0) return -1;
    *leap = dat24 - (2.0 * dat12 - dat0);
    return 0;
}

static int by_erfa(int call, const a_case *c, an_answer *a)
{
    int time[4], n = -1;
    memset(a, 0, sizeof *a);
    switch (call) {
    case OFFSET: n = eraDat(c->year, c->month, c->day, c->fraction, &a->x); break;
    case LEAP: n = erfa_leap(c->year, c->month, c->day, &a->x); break;
    case TO_TAI: n = eraUtctai(c->jd1, c->jd2, &a->x, &a->y); break;
    case FROM_TAI: n = eraTaiutc(c->jd1, c->jd2, &a->x, &a->y); break;
    case TO_UT1: n = eraUtcut1(c->jd1, c->jd2, c->dut1, &a->x, &a->y); break;
    case FROM_UT1: n = eraUt1utc(c->jd1, c->jd2, c->dut1, &a->x, &a->y); break;
    case TEXT:
        n = eraD2dtf("UTC", 3, c->jd1, c->jd2, &a->fields[0], &a->fields[1], &a->fields[2], time);
        memcpy(&a->fields[3], time, sizeof time);
        break;
    }
    return n < 0;
}

/* Up to 16 rows after the last fixed one, most of them a year or less apart. */
static void draw_table(a_case *c)
{
    int month = LAST_MONTH, seconds = LAST_SECONDS;
    c->rows = below(4) ? 1 + below(16) : 0;
    for (int i = 0; i < c->rows; i++) {
        month += 1 + below(below(4) ? 12 : 120);
        seconds += below(2) ? 1 : -1;
        c->months[i] = month, c->seconds[i] = seconds;
    }
}

/* Of three cases one is within three days of an announced row's start, and of those a third in the last or the first two seconds of the day, some in the last two milliseconds. */
static void draw_case(a_case *c)
{
    double djm0, djm, w;
    int near = c->rows && below(3) == 0, day;
    if (near) {
        int k = below(c->rows);
        eraCal2jd(c->months[k] / 12, c->months[k] % 12 + 1, 1, &djm0, &djm);
        day = (int)djm - 3 + below(6);
    } else {
        day = 36934 + below(90000);
    }
    eraJd2cal(2400000.5, day, &c->year, &c->month, &c->day, &w);
    c->fraction = unit();
    if (near && below(3) == 0) c->fraction = below(2) ? 1.0 - unit() * 2.0 / 86400.0 : unit() * 2.0 / 86400.0;
    if (near && below(9) == 0) c->fraction = 1.0 - unit() * 0.002 / 86400.0;
    c->jd1 = 2400000.5 + day, c->jd2 = c->fraction;
    if (below(4) == 0) c->jd1 = 2400000.5, c->jd2 = day + c->fraction;
    if (below(4) == 0) w = c->jd1, c->jd1 = c->jd2, c->jd2 = w;
    c->dut1 = 1.8 * unit() - 0.9;
}

static void print_case(int call, const a_case *c, const an_answer *p, const an_answer *e)
{
    printf("  %s: %d-%02d-%02d %.17g, (%.17g, %.17g), DUT1 %.17g, rows", name[call], c->year, c->month, c->day, c->fraction, c->jd1, c->jd2, c->dut1);
    for (int i = 0; i < c->rows; i++) printf(" %d-%02d:%d", c->months[i] / 12, c->months[i] % 12 + 1, c->seconds[i]);
    printf("\n    port %.17g %.17g", p->x, p->y);
    for (int i = 0; i < 7; i++) printf(" %d", p->fields[i]);
    printf("\n    ERFA %.17g %.17g", e->x, e->y);
    for (int i = 0; i < 7; i++) printf(" %d", e->fields[i]);
    printf("\n");
}

static void print_line(int call, const a_case *c, const an_answer *e)
{
    printf("%d %d %d %d %016" PRIx64 " %016" PRIx64 " %016" PRIx64 " %016" PRIx64 " %d", call, c->year, c->month, c->day, ct_bits_of(c->fraction), ct_bits_of(c->jd1), ct_bits_of(c->jd2), ct_bits_of(c->dut1), c->rows);
    for (int i = 0; i < c->rows; i++) printf(" %d %d", c->months[i], c->seconds[i]);
    printf(" %016" PRIx64 " %016" PRIx64, ct_bits_of(e->x), ct_bits_of(e->y));
    for (int i = 0; call == TEXT && i < 7; i++) printf(" %d", e->fields[i]);
    printf("\n");
}

/* ERFA's text of a day of 86,399 s has no carry at its end: it may show the second 59 that the day does not have. Not compared: see DIFFERENCES. */
static int end_of_short_day(int call, const an_answer *e)
{
    double leap;
    return call == TEXT && erfa_leap(e->fields[0], e->fields[1], e->fields[2], &leap) == 0 && leap == -1.0 && e->fields[3] == 23 && e->fields[4] == 59 && e->fields[5] >= 59;
}

int main(int argc, char **argv)
{
    long cases = argc > 1 ? atol(argv[1]) : 1000000, compared[CALLS] = {0}, differ[CALLS] = {0}, left[CALLS] = {0}, longer = 0, shorter = 0;
    a_case c;
    int wrong = 0;
    state = argc > 2 ? (uint64_t)atol(argv[2]) : 1;
    keep_built_in();
    memset(&c, 0, sizeof c);
    for (long i = 0; i < cases; i++) {
        if (i % (argc > 3 ? 7 : 50) == 0) draw_table(&c), lend_to_erfa(&c);
        draw_case(&c);
        for (int call = 0; call < CALLS; call++) {
            an_answer p, e;
            int refused = by_port(call, &c, &p), refuses = by_erfa(call, &c, &e);
            if (end_of_short_day(call, &e)) { left[call]++; continue; }
            if (argc > 3) {
                if (call == i % CALLS && !refuses) print_line(call, &c, &e);
                continue;
            }
            compared[call]++;
            longer += call == LEAP && e.x == 1.0, shorter += call == LEAP && e.x == -1.0;
            if (refused == refuses && !memcmp(&p, &e, sizeof p)) continue;
            if (differ[call]++ < 3) print_case(call, &c, &p, &e);
        }
    }
    if (argc > 3) return 0;
    printf("days of 86,401 s %ld, of 86,399 s %ld\n", longer, shorter);
    for (int call = 0; call < CALLS; call++) {
        printf("%s: %ld compared, %ld differ, %ld not comparable\n", name[call], compared[call], differ[call], left[call]);
        wrong |= differ[call] != 0;
    }
    return wrong;
}
