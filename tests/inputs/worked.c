/* The worked cases of document 01, "Stamps on each side" and the examples of its
   table of refusals, as requests and as the answers that the paper states.
     worked requests > FILE      worked answers > FILE
   The answers are written from the paper, not from a program. Two fractions that
   it leaves open are given here too: that of -4900-02-30, and 86400/86401. */
#include <math.h>
#include <stdint.h>
#include <stdio.h>
#include <string.h>

typedef struct { char kind; double f; int64_t i; } value;
#define F(x) {'f', x, 0}
#define I(n) {'i', 0, n}

typedef struct {
    int call;
    value arguments[7];
    int refusal;
    value values[7];
    const char *text;
} worked;

static const worked CASES[] = {
    /* the sixteen marked cases */
    {24, {I(2000), I(1), I(1)}, 0, {F(2400000.5), F(51544.0)}, 0},
    {24, {I(2000), I(2), I(29)}, 0, {F(2400000.5), F(51603.0)}, 0},
    {24, {I(-4799), I(1), I(1)}, 0, {F(2400000.5), F(-2431739.0)}, 0},
    {25, {F(2451545.0), F(0.0)}, 0, {I(2000), I(1), I(1), F(0.5)}, 0},
    {25, {F(2451544.75), F(0.25)}, 0, {I(2000), I(1), I(1), F(0.5)}, 0},
    {25, {F(0.0), F(2451545.0)}, 0, {I(2000), I(1), I(1), F(0.5)}, 0},
    {25, {F(-68569.5), F(0.0)}, 0, {I(-4900), I(3), I(1), F(0.0)}, 0},
    {25, {F(-68569.5), F(-0x1p-52)}, 0, {I(-4900), I(2), I(30), F(1.0 - 0x1p-52)}, 0},
    {60, {I(1959), I(12), I(31), F(0.0)}, 0, {F(0.0)}, 0},
    {60, {I(1972), I(1), I(1), F(0.0)}, 0, {F(10.0)}, 0},
    {60, {I(2016), I(12), I(31), F(0.0)}, 0, {F(36.0)}, 0},
    {60, {I(2017), I(1), I(1), F(0.0)}, 0, {F(37.0)}, 0},
    {121, {I(2016), I(12), I(31), I(23), I(59), F(60.0)}, 0, {F(2457753.5), F(86400.0 / 86401.0)}, 0},
    {122, {F(2457753.5), F(86400.0 / 86401.0), I(32)}, 0, {I(0)}, "2016-12-31T23:59:60.000"},
    {121, {I(2016), I(12), I(31), I(23), I(59), F(61.0)}, 4, {I(0)}, 0},
    {122, {F(2457753.5), F(86400.9996 / 86401.0), I(32)}, 0, {I(0)}, "2017-01-01T00:00:00.000"},
    /* the other lines */
    {120, {I(-1), I(0)}, 0, {F(2440586.5), F(86399.0 / 86400.0)}, 0},
    {122, {F(2440586.5), F(86399.0 / 86400.0), I(32)}, 0, {I(0)}, "1969-12-31T23:59:59.000"},
    {121, {I(1961), I(7), I(31), I(23), I(59), F(59.96)}, 4, {I(0)}, 0},
    {25, {F(0x1p63), F(-0x1p63)}, 0, {I(-4713), I(11), I(23), F(0.5)}, 0},
    {8, {F(0x1p52 + 1.0)}, 0, {F(0x1p52 + 2.0)}, 0},
    {108, {F(1.7e308), F(1.7e308)}, 0, {F(-INFINITY), F(1.7e308)}, 0},
    /* the listing's three stamps */
    {122, {F(2451545.0), F(0.0), I(23)}, 0, {I(0)}, "2000-01-01T12:00:00.000"},
    {122, {F(2400000.5), F(51544.0), I(23)}, 0, {I(0)}, "2000-01-01T00:00:00.000"},
    {122, {F(NAN), F(0.0), I(32)}, 6, {I(0)}, ""},
    /* the table of refusals */
    {24, {I(-4800), I(12), I(31)}, 1, {I(0)}, 0},
    {24, {I(2000), I(13), I(1)}, 2, {I(0)}, 0},
    {24, {I(1900), I(2), I(29)}, 3, {I(0)}, 0},
    {121, {I(2015), I(12), I(31), I(23), I(59), F(60.0)}, 4, {I(0)}, 0},
    {121, {I(2147483647), I(12), I(31), I(0), I(0), F(0.0)}, 5, {I(0)}, 0},
    {23, {I(2147483647), I(12), I(31)}, 5, {I(0)}, 0},
    {25, {F(NAN), F(0.0)}, 6, {I(0)}, 0},
    {60, {I(2000), I(1), I(1), F(1.5)}, 7, {I(0)}, 0},
    {120, {I(0), I(1000000000)}, 8, {I(0)}, 0},
    {100, {F(INFINITY), F(0.0)}, 9, {I(0)}, 0},
    {125, {F(2451545.0), F(0.0), F(NAN)}, 10, {I(0)}, 0},
    {122, {F(2451544.5), F(0.0), I(22)}, 11, {I(0)}, ""},
};

static uint64_t word(value v)
{
    uint64_t b = (uint64_t)v.i;
    if (v.kind == 'f') memcpy(&b, &v.f, 8);
    return v.kind == 'f' && isnan(v.f) ? 0x7ff8000000000000u : b;
}

static void request_of(const worked *c, uint64_t *out)
{
    out[0] = (uint64_t)c->call;
    for (int i = 0; i < 7; i++) out[i + 1] = word(c->arguments[i]);
}

static void answer_of(const worked *c, uint64_t *out)
{
    out[0] = (uint64_t)c->refusal;
    for (int i = 0; i < 7; i++) out[i + 1] = word(c->values[i]);
    if (!c->text) return;
    out[1] = strlen(c->text);
    memset(&out[2], 0xaa, 32);
    memcpy(&out[2], c->text, strlen(c->text));
}

int main(int argc, char **argv)
{
    if (argc != 2) return 2;
    for (size_t i = 0; i < sizeof CASES / sizeof *CASES; i++) {
        uint64_t out[8] = {0};
        if (!strcmp(argv[1], "requests")) request_of(&CASES[i], out);
        else answer_of(&CASES[i], out);
        fwrite(out, 64, 1, stdout);
    }
    return fflush(stdout) != 0;
}
