/* A filter over ERFA: requests on standard input, answers on standard output,
   64 bytes each. tests/calls.txt lists the calls.

   Where ERFA has no such call, or where its own convention parts from the
   Rust's by design, the answer is 255: nothing to compare here. These are:
   - a part, an offset, a second or a fraction that is not finite: ERFA has no
     such refusals and computes on (a NaN passes its range tests);
   - parts from 2^63 up: ERFA's cast to long is undefined there;
   - years whose 12 * year does not fit an int (eraDat);
   - the last days before its upper end 1e9, where ERFA asks its calendar for
     noon of the day after and has none;
   - parts from 2^52 up in the calls that ask ERFA for the day after, which it
     finds by adding 1.5 to a part: that sum is rounded there.
   ERFA's warnings "dubious year" (status 1) count as an answer. */
#include "../inputs/filter.h"
#include <erfa.h>
#include <erfam.h>
#include <math.h>

static const double LOW = -68569.5, HIGH = 1e9;
static const double CAST_LIMIT = 0x1p63, NEXT_DAY_LIMIT = 0x1p52;

static record fields(int year, int month, int day)
{
    return (record){{0, (uint64_t)(int64_t)year, (uint64_t)month, (uint64_t)day}};
}

/* Statuses -1, -2, -3 of eraCal2jd are document 01's 1, 2, 3. */
static int date_refusal(int status) { return status < 0 ? -status : 0; }

static int castable(double x) { return fabs(x) < CAST_LIMIT; }
static int in_range(double sum) { return LOW <= sum && sum <= HIGH; }

/* ---- floats: C's own library, and ERFA's macro for the nearest whole number */

static record floats(int call, double x)
{
    switch (call) {
    case 1: return one(floor(x));
    case 2: return one(ceil(x));
    case 3: return one(trunc(x));
    case 4: return one(round(x));
    case 5: return one(fabs(x));
    case 6: return whole(isfinite(x) != 0);
    case 7: return castable(x) ? whole((int64_t)x) : none();
    case 8: return one(ERFA_DNINT(x));
    case 9: return isnan(x) ? none() : one(fmin(x, 1.0));
    }
    return none();
}

/* ---- calendar */

/* eraDat reckons 12 * year in an int. */
static int dat_year(int year) { return year < 178956970; }

static record next_day(int year, int month, int day)
{
    double djm0, djm, fraction;
    int iy, im, id, status = eraCal2jd(year, month, day, &djm0, &djm);
    if (status) return refused(date_refusal(status));
    if (djm0 + djm + 1.0 > HIGH) return none();
    eraJd2cal(djm0, djm + 1.0, &iy, &im, &id, &fraction);
    return fields(iy, im, id);
}

static record to_calendar(double jd1, double jd2)
{
    int iy, im, id;
    double fraction;
    if (!castable(jd1) || !castable(jd2)) return none();
    if (eraJd2cal(jd1, jd2, &iy, &im, &id, &fraction)) return refused(6);
    record r = fields(iy, im, id);
    r.word[4] = shown(fraction);
    return r;
}

static record calendar(int call, const record *r)
{
    double djm0, djm;
    int status;
    switch (call) {
    case 22:
        return refused(date_refusal(
            eraCal2jd((int)n(r, 0), (int)n(r, 1), (int)n(r, 2), &djm0, &djm)));
    case 23: return next_day((int)n(r, 0), (int)n(r, 1), (int)n(r, 2));
    case 24:
        status = eraCal2jd((int)n(r, 0), (int)n(r, 1), (int)n(r, 2), &djm0, &djm);
        return status ? refused(date_refusal(status)) : two(djm0, djm);
    case 25: return to_calendar(f(r, 0), f(r, 1));
    case 27: { /* the date of day n is that of n's midnight, n - 0.5 */
        if (n(r, 0) < -68569 || n(r, 0) > 1000000000) return none();
        record a = to_calendar((double)n(r, 0), -0.5);
        a.word[4] = 0;
        return a;
    }
    }
    return none();
}

/* ---- the table */

static record offset(int year, int month, int day, double fraction)
{
    double dat = 0.0;
    if (!dat_year(year) || isnan(fraction)) return none();
    int status = eraDat(year, month, day, fraction, &dat);
    if (status == -4) return refused(7);
    if (status < 0) return refused(date_refusal(status));
    return one(dat);
}

/* How much longer than 86,400 s the day is, as eraDtf2d takes it. */
static record leap(int year, int month, int day)
{
    double dat0 = 0.0, dat12 = 0.0, dat24 = 0.0;
    if (!dat_year(year)) return none();
    int status = eraDat(year, month, day, 0.0, &dat0);
    if (status < 0) return refused(date_refusal(status));
    eraDat(year, month, day, 0.5, &dat12);
    record next = next_day(year, month, day);
    if (next.word[0]) return next;
    eraDat((int)next.word[1], (int)next.word[2], (int)next.word[3], 0.0, &dat24);
    return one(dat24 - (2.0 * dat12 - dat0));
}

static record tai_utc(int call, const record *r)
{
    int year = (int)n(r, 0), month = (int)n(r, 1), day = (int)n(r, 2);
    switch (call) {
    case 60: return offset(year, month, day, f(r, 3));
    case 62: return leap(year, month, day);
    }
    return none();
}

/* ---- dates from fields */

/* eraDtf2d: -4 hour, -5 minute, -6 second, +2 and +3 time past the day's end
   are all document 01's 4. */
static record from_fields(const char *scale, int year, int month, int day,
                          int hour, int minute, double second)
{
    double d1, d2;
    int utc = !strcmp(scale, "UTC");
    if (!isfinite(second)) return none();
    if (utc && !dat_year(year)) return none();
    double djm0, djm;
    int status = eraCal2jd(year, month, day, &djm0, &djm);
    if (status) return refused(date_refusal(status));
    /* past the end of its calendar ERFA calls the day after a bad year */
    if (utc && djm0 + djm + 1.5 > HIGH) return none();
    status = eraDtf2d(scale, year, month, day, hour, minute, second, &d1, &d2);
    if (-3 <= status && status <= -1) return refused(date_refusal(status));
    if (status < 0 || status >= 2) return refused(4);
    return two(d1, d2);
}

static record fields_call(const char *scale, const record *r)
{
    return from_fields(scale, (int)n(r, 0), (int)n(r, 1), (int)n(r, 2),
                       (int)n(r, 3), (int)n(r, 4), f(r, 5));
}

/* Unix time: whole days by eraJd2cal, the rest by eraDtf2d. */
static record from_unix(int64_t seconds, uint32_t nanos)
{
    if (nanos >= 1000000000u) return refused(8);
    int64_t days = seconds / 86400, rest = seconds % 86400;
    if (rest < 0) {
        rest += 86400;
        days -= 1;
    }
    record date = to_calendar(2440587.5, (double)days);
    if (date.word[0]) return date;
    return from_fields("UTC", (int)date.word[1], (int)date.word[2], (int)date.word[3],
                       (int)(rest / 3600), (int)(rest % 3600 / 60),
                       (double)(rest % 60) + (double)nanos / 1e9);
}

static record julian(int call, const record *r)
{
    double djm0, djm;
    switch (call) {
    case 50: return fields_call("TAI", r);
    case 51: return one(eraEpj(f(r, 0), f(r, 1)));
    case 52:
        eraEpj2jd(f(r, 0), &djm0, &djm);
        return two(djm0, djm);
    }
    return none();
}

/* ---- scales without a table; ERFA never refuses here */

static record scales(int call, const record *r)
{
    double a = f(r, 0), b = f(r, 1), s = f(r, 2), c, d, x, y;
    if (!isfinite(a) || !isfinite(b)) return none();
    if (call >= 110 && !isfinite(s)) return none();
    switch (call) {
    case 102: eraTaitt(a, b, &x, &y); break;
    case 103: eraTttai(a, b, &x, &y); break;
    case 104:
        eraTaitt(a, b, &c, &d);
        eraTttcg(c, d, &x, &y);
        break;
    case 105: /* the Rust refuses a TT in between that is not finite */
        eraTcgtt(a, b, &c, &d);
        if (!isfinite(c) || !isfinite(d)) return none();
        eraTttai(c, d, &x, &y);
        break;
    case 106: eraTttcg(a, b, &x, &y); break;
    case 107: eraTcgtt(a, b, &x, &y); break;
    case 108: eraTcbtdb(a, b, &x, &y); break;
    case 109: eraTdbtcb(a, b, &x, &y); break;
    case 110: eraTttdb(a, b, s, &x, &y); break;
    case 111: eraTdbtt(a, b, s, &x, &y); break;
    case 112: eraUt1tai(a, b, s, &x, &y); break;
    case 113: eraTaiut1(a, b, s, &x, &y); break;
    case 114: eraUt1tt(a, b, s, &x, &y); break;
    case 115: eraTtut1(a, b, s, &x, &y); break;
    default: return none();
    }
    return two(x, y);
}

/* ---- UTC */

/* The calls below ask ERFA for the day after; see the head of this file. The
   sum is the one that ERFA makes, so that no more is left out than must be. */
static int next_day_known(double jd1, double jd2)
{
    int iy, im, id;
    double fraction;
    if (!(fabs(jd1) < NEXT_DAY_LIMIT && fabs(jd2) < NEXT_DAY_LIMIT)) return 0;
    if (eraJd2cal(jd1, jd2, &iy, &im, &id, &fraction)) return 1;
    return (jd1 + 1.5) + (jd2 - fraction) <= HIGH;
}

/* ERFA's status -1 is either the range or the year: the range is document
   01's 6 and comes first, the year its 1. */
static int utc_refusal(double jd1, double jd2) { return in_range(jd1 + jd2) ? 1 : 6; }

static record text_record(uint64_t number, uint64_t length, const char *buffer)
{
    record r = {{number, length}};
    memcpy(&r.word[2], buffer, ROOM);
    return r;
}

static record text(double jd1, double jd2, int64_t room)
{
    int iy, im, id, t[4];
    char line[64], buffer[ROOM];
    memset(buffer, UNTOUCHED, ROOM);
    if (!next_day_known(jd1, jd2)) return none();
    if (eraD2dtf("UTC", 3, jd1, jd2, &iy, &im, &id, t) < 0)
        return text_record(utc_refusal(jd1, jd2), 0, buffer);
    int length = sprintf(line, "%04d-%02d-%02dT%02d:%02d:%02d.%03d", iy, im, id,
                         t[0], t[1], t[2], t[3]);
    if (length > room || length > ROOM) return text_record(11, 0, buffer);
    memcpy(buffer, line, (size_t)length);
    return text_record(0, (uint64_t)length, buffer);
}

static record utc_to_tai(double a, double b)
{
    double x, y;
    int big1 = fabs(a) >= fabs(b);
    if (!next_day_known(big1 ? a : b, big1 ? b : a)) return none();
    if (eraUtctai(a, b, &x, &y) < 0) return refused(utc_refusal(a, b));
    return two(x, y);
}

/* eraTaiutc does three rounds of eraUtctai and does not say which one failed
   nor why; the same rounds are done here again to tell. */
static int rounds_refusal(double big, double small)
{
    double u = small, g1, g2;
    for (int i = 0; i < 3; i++) {
        int big1 = fabs(big) >= fabs(u);
        if (!next_day_known(big1 ? big : u, big1 ? u : big)) return NONE;
        if (eraUtctai(big, u, &g1, &g2) < 0) return utc_refusal(big, u);
        u += big - g1;
        u += small - g2;
    }
    return 0;
}

static record tai_to_utc(double a, double b)
{
    double x, y;
    int big1 = fabs(a) >= fabs(b);
    int refusal = rounds_refusal(big1 ? a : b, big1 ? b : a);
    if (refusal) return refused(refusal);
    if (eraTaiutc(a, b, &x, &y) < 0) return none();
    return two(x, y);
}

static record utc_to_ut1(double a, double b, double dut1)
{
    double x, y;
    int big1 = fabs(a) >= fabs(b);
    if (!next_day_known(big1 ? a : b, big1 ? b : a)) return none();
    if (eraUtcut1(a, b, dut1, &x, &y) < 0) return refused(utc_refusal(a, b));
    return two(x, y);
}

/* The days that eraUt1utc scans, to tell which of its tests failed. */
static int scan_refusal(double big, double small)
{
    double before = 0.0, dat = 0.0, fraction;
    int iy, im, id;
    for (int i = -1; i <= 3; i++) {
        if (!castable(small + i)) return NONE;
        if (eraJd2cal(big, small + i, &iy, &im, &id, &fraction)) return 6;
        if (eraDat(iy, im, id, 0.0, &dat) < 0) return 1;
        if (i == -1) before = dat;
        if (fabs(dat - before) >= 0.5) return 0;
        before = dat;
    }
    return 0;
}

static record ut1_to_utc(double a, double b, double dut1)
{
    double x, y;
    if (!castable(a) || !castable(b)) return none();
    int big1 = fabs(a) >= fabs(b);
    int refusal = scan_refusal(big1 ? a : b, big1 ? b : a);
    int status = eraUt1utc(a, b, dut1, &x, &y);
    if (refusal) return refused(refusal);
    return status < 0 ? none() : two(x, y);
}

static record utc(int call, const record *r)
{
    double a = f(r, 0), b = f(r, 1), s = f(r, 2);
    switch (call) {
    case 120: return from_unix(n(r, 0), (uint32_t)n(r, 1));
    case 121: return fields_call("UTC", r);
    }
    if (!isfinite(a) || !isfinite(b)) return none();
    switch (call) {
    case 122: return text(a, b, n(r, 2));
    case 123: return utc_to_tai(a, b);
    case 124: return tai_to_utc(a, b);
    case 125: return isfinite(s) ? utc_to_ut1(a, b, s) : none();
    case 126: return isfinite(s) ? ut1_to_utc(a, b, s) : none();
    }
    return none();
}

int main(void) { return run_filter(); }
