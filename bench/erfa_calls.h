/* Calls that ERFA has no single function for, of its functions. */
#include <erfa.h>
#include <stdint.h>

static int erfa_tai_to_tcg(double tai1, double tai2, double *tcg1, double *tcg2)
{
    double tt1, tt2;
    eraTaitt(tai1, tai2, &tt1, &tt2);
    return eraTttcg(tt1, tt2, tcg1, tcg2);
}

static int erfa_tcg_to_tai(double tcg1, double tcg2, double *tai1, double *tai2)
{
    double tt1, tt2;
    eraTcgtt(tcg1, tcg2, &tt1, &tt2);
    return eraTttai(tt1, tt2, tai1, tai2);
}

static int erfa_next_day(int year, int month, int day, int *next_year, int *next_month, int *next_day)
{
    double djm0, djm, fraction;
    int status = eraCal2jd(year, month, day, &djm0, &djm);
    if (status) return status;
    return eraJd2cal(djm0, djm + 1.0, next_year, next_month, next_day, &fraction);
}

/* How much longer than 86,400 s the day is, as eraDtf2d takes it. */
static int erfa_leap(int year, int month, int day, double *leap)
{
    double dat0, dat12, dat24;
    int next_year, next_month, next_day, status = eraDat(year, month, day, 0.0, &dat0);
    if (status < 0) return status;
    eraDat(year, month, day, 0.5, &dat12);
    erfa_next_day(year, month, day, &next_year, &next_month, &next_day);
    eraDat(next_year, next_month, next_day, 0.0, &dat24);
    *leap = dat24 - (2.0 * dat12 - dat0);
    return 0;
}

/* Whole days by eraJd2cal, the rest by eraDtf2d. */
static int erfa_from_unix(int64_t seconds, uint32_t nanos, double *utc1, double *utc2)
{
    int year, month, day, status;
    double fraction;
    int64_t days = seconds / 86400, rest = seconds % 86400;
    if (rest < 0) {
        rest += 86400;
        days -= 1;
    }
    status = eraJd2cal(2440587.5, (double)days, &year, &month, &day, &fraction);
    if (status) return status;
    return eraDtf2d("UTC", year, month, day, (int)(rest / 3600), (int)(rest % 3600 / 60),
                    (double)(rest % 60) + nanos / 1e9, utc1, utc2);
}
