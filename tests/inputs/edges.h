/* The values that the papers and the source's limits name. */
#include <stdint.h>

#include "../leap_rows.h"

#define COUNT(list) (sizeof list / sizeof *list)

/* Floats for every place: not finite, zeros, smallest and largest, powers of
   two with neighbours, halves with neighbours, the ends of every range. */
static const double EDGES[] = {
    (double)NAN, (double)INFINITY, -(double)INFINITY, 0.0, -0.0,
    0x1p-1074, -0x1p-1074, 0x0.fffffffffffffp-1022, 0x1p-1022, -0x1p-1022,
    0x1.fffffffffffffp1023, -0x1.fffffffffffffp1023, 1.7e308, -1.7e308, 1e292,
    0.5, -0.5, 0x1.fffffffffffffp-2, -0x1.fffffffffffffp-2, 0x1.0000000000001p-1,
    -0x1.0000000000001p-1, 1.0, -1.0, 0x1.fffffffffffffp-1, -0x1.fffffffffffffp-1,
    0x1.0000000000001p0, 1.5, -1.5, 2.5, -2.5, 0.3, -0.3, 2.0, -2.0,
    0x1p-52, -0x1p-52, 0x1p-53, -0x1p-53, 0x1p-54, -0x1p-54, 1e-11,
    0x1p31, -0x1p31, 0x1p32, 0x1p51, 0x1p52, -0x1p52, 0x1.fffffffffffffp51,
    0x1.0000000000001p52, -0x1.0000000000001p52, 0x1.8p51, 4503599627370495.5,
    -4503599627370495.5, 0x1p53, -0x1p53, 0x1.fffffffffffffp52, 0x1p54,
    0x1p62, 0x1p63, -0x1p63, 0x1.fffffffffffffp62, -0x1.0000000000001p63, 0x1p64,
    -0x1p64, 0x1p70, -0x1p70, 86400.0, 86401.0, 1e9, -1e9, 1000000000.0000001,
    999999999.9999999, 999999999.5, -68569.5, -68569.50000000001, -68569.49999999999,
    -68570.0, -31738.5, -31738.500000000004, -31738.499999999996, -31739.5,
    2400000.5, 2451545.0, 2440587.5, 2436933.5, 2436934.5, 2441317.5, 2457753.5,
    2457754.5, 43144.0003725, 2443144.5003725, 36.0, 37.0, 59.96, 60.0, 60.9996, 61.0,
    1996.8,
};
enum { EDGE_COUNT = COUNT(EDGES) };

/* For remainders of a part, at most 0.5 in size. */
static const double SMALL_EDGES[] = {
    0.0, -0.0, 0.5, -0.5, 0.25, -0.25, 0x1.fffffffffffffp-2, -0x1.fffffffffffffp-2,
    0x1p-52, -0x1p-52, 0x1p-53, -0x1p-53, 0x1p-54, -0x1p-54, 0x1p-55, -0x1p-55,
    0x1p-1074, -0x1p-1074,
};
enum { SMALL_EDGE_COUNT = COUNT(SMALL_EDGES) };

/* The calendar's range, the first midnight of year -4799, and the days around
   them that the conversions look at. */
static const double RANGE_ENDS[] = {
    -68569.5, 1e9, -31738.5, 999999999.5, 999999998.5, 999999997.0, -68568.5, -31737.5,
    -31739.5, 999999998.0, 1000000000.5, -68570.5,
};
enum { RANGE_END_COUNT = COUNT(RANGE_ENDS) };

static const int32_t INT_EDGES[] = {
    INT32_MIN, INT32_MIN + 1, INT32_MAX, INT32_MAX - 1, 0, 1, -1, -4799, -4800, -4798,
    -4900, 178956970, 178956971, 2733194, 2733195, 65536, 256, 255, 13, 12, 31, 32,
};
enum { INT_EDGE_COUNT = COUNT(INT_EDGES) };

/* Unix seconds: zero, day boundaries, the first and last accepted ones, the
   seconds around a leap second and around a negative step, the ends of 64 bits. */
static const int64_t LONG_EDGES[] = {
    -1, 0, 1, 86399, 86400, 86401, -86399, -86400, -86401, 1483228799, 1483228800,
    -265680001, -265680000, -60480001, -60480000, -315619201, -315619200, 63071999, 63072000,
    -213608966400, -213608966401, -213608966399, -216791150400, -216791150401,
    86189133240000, 86189133283199, 86189133283200, 86189133239999,
    INT64_MAX, INT64_MIN, INT64_MAX - 1, INT64_MIN + 1, 9007199254740992, -9007199254740993,
};
enum { LONG_EDGE_COUNT = COUNT(LONG_EDGES) };

/* How much longer than 86,400 s a day may be: the steps of the table. */
static const double SECOND_LIMITS[] = {
    0.0, 1.0, -0.05, -0.1, 0.1, 0.05, 0.107758, 0.9434819999999999, 0.943482, -0.0,
    1.7763568394002505e-15, -1.7763568394002505e-15, 0.473, -1.0,
};
enum { SECOND_LIMIT_COUNT = COUNT(SECOND_LIMITS) };

/* The inputs of SOFA's published check values, each with its offset. */
typedef struct { double jd1, jd2, offset; } sofa_date;
static const sofa_date SOFA_DATES[] = {
    {2453750.5, 0.892100694, 0.3341}, {2453750.5, 0.892104561, 0.3341},
    {2453750.5, 0.892482639, -32.6659}, {2453750.5, 0.892104561, -32.6659},
    {2453750.5, 0.892855139, 64.8499}, {2453750.5, 0.892104561, 64.8499},
    {2453750.5, 0.892855139, -0.000201}, {2453750.5, 0.892855137, -0.000201},
    {2453750.5, 0.892862531, 0.0}, {2453750.5, 0.893019599, 0.0},
    {2400000.5, 50123.9999, 0.0}, {2400000.5, 49533.99999, 0.0}, {2451545.0, -7392.5, 0.0},
};
enum { SOFA_DATE_COUNT = COUNT(SOFA_DATES) };

/* Dates that the papers name: worked cases, differences, and pairs for which a
   product fused into a sum would give other bits. */
typedef struct { double jd1, jd2; } named_date;
static const named_date NAMED_DATES[] = {
    {2451545.0, 0.0}, {2451544.75, 0.25}, {0.0, 2451545.0}, {-68569.5, 0.0},
    {-68569.5, -0x1p-52}, {-68569.5, -0x1p-54}, {-68569.5, -0x1p-53},
    {2457753.5, 86400.0 / 86401.0}, {2457753.5, 86400.9996 / 86401.0},
    {0x1p63, -0x1p63}, {-0x1p63, 0x1p63}, {2451139.0, 0.0001}, {2448964.0, 0.1705},
    {2451267.0, 0.0006}, {2451403.0, 0.1848}, {1.7e308, 1.7e308}, {-1.7e308, -1.7e308},
    {5536.524349173793, -37275.02434917379}, {-31738.5, 0.0}, {1e9, 0.0}, {1e9, 5.9e-8},
    {1e9, 5.96e-8}, {999999997.0, 0.0}, {0.49999999999999994, 0.5},
    {0.5, 0.49999999999999994}, {2.9937604643020797e292, -1.7976931348623157e308},
    {1e308, 1e308}, {-0.0, -0.0}, {2436933.5, 0.5}, {2436933.5, 0.9999999999}, {2451544.5, 1e-11},
    {2451544.5, 3.0 / 2048.0}, {2451544.5, 0.99999999999}, {5373484.5, 0.9999999999},
    {5373483.5, 0.9999999999}, {1355817.5, 0.9999999999}, {1721057.5, 0.0}, {1720692.5, 0.5},
    {-31739.5, 0.9999999999}, {-31738.5, -1e-9}, {2441316.5, 0.9999999}, {2400000.5, 51544.0},
    {(double)NAN, 0.0}, {0.0, (double)NAN}, {(double)INFINITY, 0.0},
    {(double)INFINITY, -(double)INFINITY}, {0.0, -(double)INFINITY}, {-0.5, 0.5}, {0.5, 0.5},
    {1225772.5, 1225772.5}, {-1225772.5, -1225772.5}, {0x1p52, -0x1p52},
    /* the days around a leap second and around the first row of the table */
    {2457752.5, 0.5}, {2457753.5, 0.5}, {2457754.5, 0.5}, {2457755.5, 0.5}, {2457754.5, 1e-6},
    {2457753.5, 0.99999}, {2436934.5, 0.25}, {2436932.5, 0.25}, {2441317.5, 0.0},
};
enum { NAMED_DATE_COUNT = COUNT(NAMED_DATES) };

/* Two dates of which one has a sum that is not finite: their parts are compared,
   both of them, and a NaN equals nothing. */
typedef struct { double jd1, jd2, other1, other2; } date_pair;
static const date_pair NOT_FINITE_PAIRS[] = {
    {1e308, 1e308, 1e308, 1e308}, {1e308, 1e308, 1e308, 1.5e308}, {1e308, 1.5e308, 1.5e308, 1e308},
    {-1.7e308, -1.7e308, -1.7e308, -1.6e308}, {1e308, 1e308, 1e308, -1e308},
    {(double)INFINITY, 1.0, (double)INFINITY, 1.0}, {(double)INFINITY, 1.0, (double)INFINITY, 2.0},
    {1.0, (double)INFINITY, 1.0, (double)INFINITY}, {1.0, (double)INFINITY, 1.0, -(double)INFINITY},
    {1.0, (double)INFINITY, 2.0, (double)INFINITY},
    {(double)INFINITY, -(double)INFINITY, (double)INFINITY, -(double)INFINITY},
    {(double)INFINITY, -(double)INFINITY, (double)INFINITY, (double)INFINITY},
    {-(double)INFINITY, 0.0, -(double)INFINITY, -0.0},
    {2451545.0, 0.25, 2451545.0, (double)INFINITY}, {(double)INFINITY, 1.0, (double)INFINITY, (double)NAN},
    {(double)NAN, 0.25, (double)NAN, 0.25}, {2451545.0, (double)NAN, 2451545.0, (double)NAN},
    {2451545.0, (double)NAN, 2451545.0, 0.25}, {2451545.0, 0.25, 2451545.0, (double)NAN},
    {2451545.0, 0.25, (double)NAN, 0.25},
};
enum { NOT_FINITE_PAIR_COUNT = COUNT(NOT_FINITE_PAIRS) };

/* One date for each length of text: years 2000, -4799, 10000, 100000, 2733194. */
static const double TEXT_LENGTHS[] = {2451544.5, -31738.5, 5373849.5, 38245309.5, 999999998.5};
enum { TEXT_LENGTH_COUNT = COUNT(TEXT_LENGTHS) };

static const double NAMED_OFFSETS[] = {
    0.3341, -0.9, 0.9, 0.0, -0.0, 64.8499, -32.6659, -0.000201, 1e9, -1e9, (double)NAN, 1e308,
};
enum { NAMED_OFFSET_COUNT = COUNT(NAMED_OFFSETS) };

/* Days that the papers name. The first one with the first fraction is the case
   that a fused product would change. */
typedef struct { int32_t year, month, day; } named_day;
static const named_day NAMED_DAYS[] = {
    {1969, 3, 12}, {2000, 1, 1}, {2000, 2, 29}, {-4799, 1, 1}, {1959, 12, 31}, {1972, 1, 1},
    {2016, 12, 31}, {2017, 1, 1}, {-4800, 12, 31}, {2000, 13, 1}, {1900, 2, 29}, {2000, 0, 1},
    {2000, 1, 0}, {2000, 1, 32}, {2001, 2, 29}, {2100, 2, 29}, {2400, 2, 29}, {0, 2, 29},
    {-4, 2, 29}, {-100, 2, 29}, {-400, 2, 29}, {-1, 12, 31}, {2147483647, 12, 31},
    {2147483647, 12, 30}, {2147483647, 2, 29}, {2147483646, 12, 31}, {2733194, 11, 27},
    {2733194, 11, 28}, {-4800, 13, 99}, {2000, 13, 99}, {1961, 7, 31}, {1968, 1, 31},
    {INT32_MIN, INT32_MIN, INT32_MIN}, {INT32_MAX, INT32_MAX, INT32_MAX}, {178956970, 12, 31},
    {178956971, 1, 1}, {2003, 6, 1}, {2008, 1, 17}, {2017, 9, 1},
    {1998, 11, 30}, {1998, 12, 30},
};
enum { NAMED_DAY_COUNT = COUNT(NAMED_DAYS) };

static const double NAMED_FRACTIONS[] = {
    0.8436062500387868, 0.0, -0.0, 0.5, 1.0, 0x1.0000000000001p0, 1.5, (double)NAN, -0x1p-1074,
    (double)INFINITY, 0x1.fffffffffffffp-1,
};
enum { NAMED_FRACTION_COUNT = COUNT(NAMED_FRACTIONS) };

typedef struct { int32_t year; int month, day, hour, minute; double second; } named_time;
static const named_time NAMED_TIMES[] = {
    {2016, 12, 31, 23, 59, 60.0}, {2016, 12, 31, 23, 59, 61.0}, {2016, 12, 31, 23, 59, 60.9996},
    {2016, 12, 31, 23, 58, 60.0}, {2016, 12, 31, 22, 59, 60.0}, {1998, 11, 30, 23, 59, 60.0},
    {2015, 12, 31, 23, 59, 60.0}, {1961, 7, 31, 23, 59, 59.96},
    {1961, 7, 31, 23, 59, 59.95}, {1961, 7, 31, 23, 59, 59.94}, {1968, 1, 31, 23, 59, 59.9},
    {1968, 1, 31, 23, 59, 59.89}, {1971, 12, 31, 23, 59, 60.1}, {1971, 12, 31, 23, 59, 60.2},
    {1959, 12, 31, 23, 59, 60.9}, {1959, 12, 31, 23, 59, 60.95}, {2147483647, 12, 31, 0, 0, 0.0},
    {2147483647, 12, 31, 24, 0, 0.0}, {2147483647, 12, 30, 0, 0, 0.0}, {-4800, 12, 31, 24, 60, 61.0},
    {2000, 13, 1, 24, 0, 0.0}, {1900, 2, 29, 24, 0, 0.0}, {2000, 1, 1, 24, 0, 0.0},
    {2000, 1, 1, 23, 60, 0.0}, {2000, 1, 1, 0, 0, 60.0}, {2000, 1, 1, 0, 0, -0.0},
    {2000, 1, 1, 0, 0, -0x1p-1074}, {2000, 1, 1, 0, 0, (double)NAN},
    {2000, 1, 1, 0, 0, (double)INFINITY}, {2000, 1, 1, 23, 59, 0x1.dffffffffffffp5},
    {9999, 12, 31, 23, 59, 59.9999}, {-4799, 1, 1, 0, 0, 0.0}, {2000, 255, 255, 255, 255, 0.0},
    {2733194, 11, 27, 23, 59, 59.9}, {2733194, 11, 28, 0, 0, 0.0}, {1994, 6, 30, 23, 59, 60.13599},
};
enum { NAMED_TIME_COUNT = COUNT(NAMED_TIMES) };

/* The first days of the table's rows, and the days before them. */
static const int32_t TABLE_MJDS[] = LEAP_ROW_MJDS;
enum { TABLE_MJD_COUNT = COUNT(TABLE_MJDS) };
static const named_day TABLE_STARTS[] = LEAP_ROW_STARTS;
static const named_day TABLE_EVES[] = LEAP_ROW_EVES;
enum { TABLE_EVE_COUNT = COUNT(TABLE_EVES) };
