/* The texts of a date on the three forms of text, a line of standard input each: `ROOM JD1 JD2`, how many bytes are lent and the parts as 16 hexadecimal digits of their bits.
   Writes for each of document 01's call, the one with a half millisecond to the even one and the one with expanded years what it returns; whether a byte past the text or
   past the rule, or any byte of a refused call, changed; the text, and the kind and the row of its rule, or `-` and two zeros where there is none. */
#include "celestial_time.h"
#include <inttypes.h>
#include <stdio.h>
#include <string.h>

typedef int64_t text_call(double, double, const uint8_t *, size_t, uint8_t *, size_t, uint8_t *, size_t);

static double float_of(uint64_t pattern)
{
    double x;
    memcpy(&x, &pattern, sizeof x);
    return x;
}

static void show(text_call *call, size_t room, double jd1, double jd2, char end)
{
    uint8_t out[40], rule[16];
    int64_t code, i, kept = 1;
    memset(out, 0xaa, sizeof out);
    memset(rule, 0xaa, sizeof rule);
    code = call(jd1, jd2, ct_no_rows, sizeof ct_no_rows, out, room, rule, sizeof rule);
    for (i = code > 0 ? code : 0; i < (int64_t)sizeof out; i++) kept = kept && out[i] == 0xaa;
    for (i = code > 0 ? CT_RULE_BYTES : 0; i < (int64_t)sizeof rule; i++) kept = kept && rule[i] == 0xaa;
    printf("%" PRId64 " %s %.*s %" PRId32 " %" PRId32 "%c", code, kept ? "kept" : "changed", code > 0 ? (int)code : 1, code > 0 ? (const char *)out : "-",
           code > 0 ? ct_int_at(rule) : 0, code > 0 ? ct_int_at(rule + 4) : 0, end);
}

int main(void)
{
    uint64_t a, b;
    uint32_t room;
    while (scanf("%" SCNu32 " %" SCNx64 " %" SCNx64, &room, &a, &b) == 3) {
        show(ct_to_iso8601, room, float_of(a), float_of(b), ' ');
        show(ct_to_iso8601_half_even, room, float_of(a), float_of(b), ' ');
        show(ct_to_iso8601_expanded, room, float_of(a), float_of(b), '\n');
    }
    return 0;
}
