/* Makes a block of 4,000 stamps of which 212 are not finite, as raw bytes, and the listing that is due.
     make_stamps block > FILE      make_stamps listing > FILE
   Those are NaN of both signs, quiet and signalling, with every payload of one bit, in jd1 or
   in jd2, and the infinities in either and in both. The live ones are eight to a day from 2000-01-01
   on, at odd 8192nds of the day, which lie between two halves of a millisecond and whose texts are
   counted here without the port, and among them the edges that document 01 names. */
#include <stdint.h>
#include <stdio.h>
#include <string.h>

enum { STAMPS = 4000, NOT_FINITE_STAMPS = 212, NANS = 204 };

typedef struct { uint64_t jd1, jd2; } stamp;

static uint64_t bits(double x)
{
    uint64_t b;
    memcpy(&b, &x, 8);
    return b;
}

static stamp parts(double jd1, double jd2) { return (stamp){bits(jd1), bits(jd2)}; }

/* ---- the stamps that are not finite */

static stamp not_finite_stamp(int k)
{
    static const uint64_t INF = 0x7ff0000000000000, SIGN = 0x8000000000000000, QUIET = 0x0008000000000000;
    const uint64_t day = bits(2451545.0);
    const stamp infinite[NOT_FINITE_STAMPS - NANS] = {
        {INF, 0}, {SIGN | INF, 0}, {day, INF}, {day, SIGN | INF},
        {INF, INF}, {SIGN | INF, SIGN | INF}, {INF, SIGN | INF}, {SIGN | INF, INF},
    };
    uint64_t nan;
    if (k >= NANS) return infinite[k - NANS];
    nan = INF | (uint64_t)1 << k / 4 | (k & 1 ? SIGN : 0) | (k & 2 ? QUIET : 0);
    return k % 8 < 4 ? (stamp){nan, k % 3 ? day : 0} : (stamp){day, nan};
}

/* The first and the last stamp are not finite, and each eighteenth between them. */
static int not_finite_at(int i) { return i == STAMPS - 1 ? NOT_FINITE_STAMPS - 1 : i % 18 == 0 && i / 18 < NOT_FINITE_STAMPS - 1 ? i / 18 : -1; }

/* ---- the live */

static const struct { double jd1, jd2; const char *text; } EDGES[] = {
    {-31738.5, 0.0, "-0004799-01-01T00:00:00.000"},
    {0.0, -31738.5, "-0004799-01-01T00:00:00.000"},
    {1e9, 0.0, "+2733194-11-27T12:00:00.000"},
    {2451545.0, 0.123456789 / 86400.0, "2000-01-01T12:00:00.123"},
    {2457753.5, 86400.0 / 86401.0, "2016-12-31T23:59:60.000"},
    {2457753.5, 86400.9996 / 86401.0, "2017-01-01T00:00:00.000"},
    {2440586.5, 86399.0 / 86400.0, "1969-12-31T23:59:59.000"},
};
enum { EDGE_COUNT = sizeof EDGES / sizeof *EDGES };

/* The edges stand right after the first of these. */
static int edge_at(int i) { return i % 18 == 1 && i / 18 < EDGE_COUNT ? i / 18 : -1; }

static stamp finite_stamp(int i)
{
    double days = 51544.0 + i / 8 + (2 * i + 1) / 8192.0;
    if (edge_at(i) >= 0) return parts(EDGES[edge_at(i)].jd1, EDGES[edge_at(i)].jd2);
    switch (i % 3) {
    case 0: return parts(2400000.5, days);
    case 1: return parts(2400000.5 + days, 0.0);
    default: return parts(days, 2400000.5);
    }
}

/* An 8192nd of a day has 84,375 eighths of a millisecond. The days end in 2001. */
static void live_text(int i, char *text)
{
    static const int lengths[] = {31, 29, 31, 30, 31, 30, 31, 31, 30, 31, 30, 31};
    int day = i / 8, year = 2000, month = 0, ms = (84375 * (2 * i + 1) + 4) / 8, minutes = ms / 60000;
    if (edge_at(i) >= 0) {
        strcpy(text, EDGES[edge_at(i)].text);
        return;
    }
    if (day >= 366) {
        day -= 366;
        year = 2001;
    }
    while (day >= lengths[month] - (year == 2001 && month == 1)) {
        day -= lengths[month] - (year == 2001 && month == 1);
        month++;
    }
    sprintf(text, "%04d-%02d-%02dT%02d:%02d:%02d.%03d", year, month + 1, day + 1, minutes / 60, minutes % 60,
            ms / 1000 % 60, ms % 1000);
}

/* ---- output */

static void put(uint64_t pattern, int bytes)
{
    for (; bytes > 0; bytes--, pattern >>= 8) putchar((int)(pattern & 255));
}

static stamp stamp_at(int i) { return not_finite_at(i) >= 0 ? not_finite_stamp(not_finite_at(i)) : finite_stamp(i); }

static void block(void)
{
    int i;
    put(STAMPS, 4);
    put(STAMPS, 4);
    for (i = 0; i < STAMPS; i++) put(stamp_at(i).jd1, 8);
    for (i = 0; i < STAMPS; i++) put(stamp_at(i).jd2, 8);
}

static void listing(void)
{
    char text[64];
    int i;
    printf("utc listing %d refused %d\n", STAMPS, NOT_FINITE_STAMPS);
    for (i = 0; i < STAMPS; i++) {
        if (not_finite_at(i) >= 0) strcpy(text, "refused 6");
        else live_text(i, text);
        printf("%d %s\n", i, text);
    }
}

int main(int count, char **words)
{
    if (count == 2 && !strcmp(words[1], "block")) block();
    else if (count == 2 && !strcmp(words[1], "listing")) listing();
    else return 2;
    return fflush(stdout) != 0;
}
