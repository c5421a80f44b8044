/* Values by chance: floats, dates in two parts, calendar fields, Unix times. */
#include <math.h>
#include <stdint.h>

#include "chance.h"
#include "edges.h"
#include "record.h"

static int64_t between(int64_t low, int64_t high)
{
    return low + (int64_t)below((uint64_t)(high - low) + 1);
}
static double unit(void) { return (double)(next() >> 11) * 0x1p-53; }

/* The float `steps` places away. */
static double nudge(double x, int64_t steps)
{
    for (; steps > 0; steps--) x = nextafter(x, INFINITY);
    for (; steps < 0; steps++) x = nextafter(x, -INFINITY);
    return x;
}
static double nudged(double x) { return below(2) ? x : nudge(x, between(-3, 3)); }
static double signed_at_random(double x) { return below(2) ? x : -x; }

/* ---- single floats */

static double random_size(int low, int high)
{
    double x = 1.0 + unit();
    x = ldexp(x, (int)between(low, high));
    return signed_at_random(x);
}

static double edge(void) { return EDGES[below(EDGE_COUNT)]; }

static double any_float(void)
{
    switch (below(8)) {
    case 0: return edge();
    case 1: return nudged(edge());
    case 2: return from_bits(next());
    case 3: return random_size(-60, 70);
    case 4: return nudged(signed_at_random(ldexp(1.0, (int)between(-70, 70))));
    case 5: return nudged((double)between(-100000, 100000) / 2.0);
    case 6: return nudged((double)(int64_t)next() / 2.0);
    default: return random_size(-1074, -1000);
    }
}

static double any_offset(void)
{
    switch (below(8)) {
    case 0: return edge();
    case 1: return from_bits(next());
    case 2: return (unit() - 0.5) * 2e9;
    case 3: return (unit() - 0.5) * 1e308;
    case 4: return (double)between(-100, 100);
    case 5: return nudged((double)between(-40, 40) * 0.1);
    default: return (unit() - 0.5) * 2.0;
    }
}

static double any_days(void)
{
    switch (below(6)) {
    case 0: return any_float();
    case 1: return (double)between(-100000, 100000);
    case 2: return nudged((double)between(-20, 20) / 2.0);
    case 3: return random_size(-60, 55);
    default: return (unit() - 0.5) * 1e5;
    }
}

static double any_julian_year(void)
{
    if (below(3) == 0) return any_float();
    double width = (double)(1 << between(0, 20));
    return 2000.0 + (unit() - 0.5) * width;
}

static double any_fraction(void)
{
    switch (below(6)) {
    case 0: return any_float();
    case 1: return nudged((double)below(3) / 2.0);
    case 2: return (double)below(86401) / 86400.0;
    case 3: return -unit() * 0.001;
    default: return unit();
    }
}

static double any_small(void)
{
    switch (below(5)) {
    case 0: return nudged((double)between(-4, 4) / 8.0);
    case 1: return random_size(-80, -2);
    case 2: return SMALL_EDGES[below(SMALL_EDGE_COUNT)];
    default: return unit() - 0.5;
    }
}

static double any_sum(void)
{
    switch (below(4)) {
    case 0: return any_float();
    case 1: return nudged(RANGE_ENDS[below(RANGE_END_COUNT)]);
    case 2: return -70000.0 + unit() * 2000.0;
    default: return -68569.5 + unit() * 1000068569.5;
    }
}

/* ---- dates in two parts */

typedef struct { double jd1, jd2; } pair;

static pair swapped_at_random(double first, double second)
{
    return below(2) ? (pair){first, second} : (pair){second, first};
}

static double midnight_of_row(void)
{
    return 2400000.5 + (double)TABLE_MJDS[below(TABLE_MJD_COUNT)];
}

/* A day on which something happens: its midnight as a Julian date. */
static double special_midnight(void)
{
    double row;
    switch (below(5)) {
    case 0:
    case 1: row = midnight_of_row(); return row + (double)between(-4, 3);
    case 2: return 2400000.5 + (double)between(36934, 41317); /* 1960 to 1971 */
    case 3: return 2436933.5;                                 /* 1959-12-31 */
    default: return RANGE_ENDS[below(RANGE_END_COUNT)];
    }
}

static double plain_midnight(void)
{
    switch (below(3)) {
    case 0: return 2400000.5 + (double)between(36000, 62000);
    case 1: return (double)between(-68570, 1000000000) - 0.5;
    default: return (double)between(-40000, 6000000) - 0.5;
    }
}

/* A time of day: any, near a half millisecond, near the day's end or start. */
static double day_part(void)
{
    switch (below(7)) {
    case 0: return ((double)below(86400000) + 0.5) / 86400000.0;
    case 1: return nudged(((double)below(172800000)) / 172800000.0);
    case 2: return nudged(1.0 - (double)below(4000) / 86400000.0);
    case 3: return nudged((double)below(4000) / 86400000.0);
    case 4: return nudged((double)below(9) / 8.0);
    case 5: return 1.0 - unit() * 0.0006;
    default: return unit();
    }
}

/* One date divided in some way into two parts. */
static pair split(double midnight, double part)
{
    double moved;
    switch (below(7)) {
    case 0: return (pair){midnight, part};
    case 1: return (pair){part, midnight};
    case 2: return (pair){2400000.5, (midnight - 2400000.5) + part};
    case 3: return (pair){2451545.0, (midnight - 2451545.0) + part};
    case 4: return (pair){midnight + part, 0.0};
    case 5:
        moved = (double)between(-3000000, 3000000) / 4.0;
        return (pair){midnight - moved, moved + part};
    default:
        moved = (unit() - 0.5) * 1e7;
        return (pair){(midnight - moved) + part, moved};
    }
}

/* A multiple of 2^-52 under 2^52. */
static double on_grid(double x)
{
    double steps = x < 1.0 && x > -1.0 ? nearbyint(x * 0x1p52) * 0x1p-52 : x;
    return steps < 0x1p52 && steps > -0x1p52 ? steps : 0.0;
}

static pair grid_pair(void)
{
    double first = on_grid(random_size(-52, 51));
    double target = below(2) ? special_midnight() : plain_midnight();
    double second = on_grid((target - first) + on_grid(unit()));
    return swapped_at_random(first, second);
}

static pair cancelling_pair(void)
{
    double first = random_size(30, 70);
    double second = -first + plain_midnight();
    return swapped_at_random(first, nudged(second));
}

static pair range_end_pair(void)
{
    double end = RANGE_ENDS[below(RANGE_END_COUNT)];
    double first = below(2) ? random_size(0, 31) : (double)between(-2000000, 2000000) / 2.0;
    double second = below(3) ? end - first : nudged(end - first);
    if (below(4) == 0) second += (double)between(-6, 6);
    if (below(4) == 0) first = nudged(first);
    return swapped_at_random(first, second);
}

static pair any_date(void)
{
    double x, y;
    switch (below(12)) {
    case 0: x = edge(); y = edge(); return (pair){x, y};
    case 1: x = any_float(); y = any_float(); return (pair){x, y};
    case 2: x = plain_midnight(); y = day_part(); return split(x, y);
    case 3:
    case 4: x = special_midnight(); y = day_part(); return split(x, y);
    case 5: return grid_pair();
    case 6: return cancelling_pair();
    case 7: return range_end_pair();
    case 8: /* equal sizes */
        x = below(2) ? plain_midnight() / 2.0 : any_float();
        return (pair){x, below(4) ? x : -x};
    case 9: x = from_bits(next()); y = from_bits(next()); return (pair){x, y};
    case 10: x = nudged(special_midnight()); y = nudged(day_part()); return (pair){x, y};
    default: x = special_midnight(); y = unit(); return split(x, y);
    }
}

/* A second date: the first one divided otherwise, or close by, or unlike. */
static pair other_date(pair a)
{
    double moved, near;
    switch (below(6)) {
    case 0: return a;
    case 1: return (pair){a.jd2, a.jd1};
    case 2:
        moved = (double)between(-1000, 1000) / 8.0;
        return (pair){a.jd1 - moved, a.jd2 + moved};
    case 3: near = nudged(a.jd1); return (pair){near, nudged(a.jd2)};
    case 4: return (pair){a.jd1 + a.jd2, (a.jd1 - (a.jd1 + a.jd2)) + a.jd2};
    default: return any_date();
    }
}

/* ---- calendar fields */

typedef struct { int32_t year, month, day; } ymd;

static int32_t any_i32(void)
{
    switch (below(4)) {
    case 0: return INT_EDGES[below(INT_EDGE_COUNT)];
    case 1: return (int32_t)between(-40, 40);
    default: return (int32_t)next();
    }
}

static int32_t any_year(void)
{
    switch (below(7)) {
    case 0: return any_i32();
    case 1: return (int32_t)between(-4810, -4790);
    case 2: return (int32_t)between(-4800, 10000);
    case 3: return (int32_t)(100 * between(-50, 30000));
    case 4: return (int32_t)between(2733000, 2733400);
    default: return (int32_t)between(1957, 2020);
    }
}

static const int LENGTH[13] = {0, 31, 29, 31, 30, 31, 30, 31, 31, 30, 31, 30, 31};

static ymd any_ymd(void)
{
    ymd d = {any_year(), 1, 1};
    d.month = (int32_t)between(1, 12);
    switch (below(6)) {
    case 0: d.day = LENGTH[d.month]; break;
    case 1: d.day = LENGTH[d.month] - (int32_t)between(-1, 1); break;
    case 2: d.day = 1; break;
    default: d.day = (int32_t)between(1, 28);
    }
    switch (below(10)) {
    case 0: d.month = (int32_t)between(-1, 14); break;
    case 1: d.day = (int32_t)between(-1, 33); break;
    case 2: d.month = any_i32(); break;
    case 3: d.day = any_i32(); break;
    case 4:
    case 5: { /* the day before a row of the table, or its first day */
        int row = (int)below(TABLE_EVE_COUNT);
        d = below(2) ? (ymd){TABLE_EVES[row].year, TABLE_EVES[row].month, TABLE_EVES[row].day}
                     : (ymd){TABLE_STARTS[row].year, TABLE_STARTS[row].month, 1};
        break;
    }
    }
    return d;
}

static double any_second(void)
{
    switch (below(7)) {
    case 0: return any_float();
    case 1: return nudged((double)between(58, 62));
    case 2: return nudged(60.0 + SECOND_LIMITS[below(SECOND_LIMIT_COUNT)]);
    case 3: return (double)below(61000) / 1000.0;
    case 4: return 59.9 + unit() * 1.3;
    default: return unit() * 60.0;
    }
}

static int clock_field(int limit)
{
    switch (below(8)) {
    case 0: return (int)below(256);
    case 1: return limit + (int)between(-1, 1);
    case 2: return 0;
    default: return (int)below((uint64_t)limit + 1);
    }
}

static int byte_field(int32_t x) { return x < 0 ? 0 : x > 255 ? 255 : x; }

/* Near x, around the ends of 64 bits too. */
static int64_t close_to(int64_t x)
{
    return (int64_t)((uint64_t)x + (uint64_t)between(-3, 2));
}

static int64_t any_unix(void)
{
    int shift;
    switch (below(8)) {
    case 0: return (int64_t)next();
    case 1: return close_to(LONG_EDGES[below(LONG_EDGE_COUNT)]);
    case 2: return close_to(86400 * between(-30000000, 2000000000));
    case 3: return close_to(86400 * ((int64_t)TABLE_MJDS[below(TABLE_MJD_COUNT)] - 40587));
    case 4: return between(-400000000, 100000000); /* 1957 to 1973 */
    case 5: shift = (int)between(0, 62); return (int64_t)next() / ((int64_t)1 << shift);
    default: return between(-4000000000, 4000000000);
    }
}

static uint32_t any_nanos(void)
{
    switch (below(6)) {
    case 0: return (uint32_t)next();
    case 1: return 1000000000u + (uint32_t)below(5) - 2u;
    case 2: return (uint32_t)below(4) - 1u;
    default: return (uint32_t)below(1000000000);
    }
}
