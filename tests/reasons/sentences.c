/* Cases of the reasons' calls from standard input, their answers to standard output.
   A case is 40 bytes: the call (0 ct_reason to 6 ct_block_reason), the number and the room, 4 bytes each, 4 bytes that are not read, and three values of 8 bytes, of which a call
   takes what it needs; an answer is the call's code in 8 bytes and 64 bytes of the lent buffer, which is filled with aa before the call. The lowest byte stands first. */
#include "celestial_time.h"
#include <stdio.h>

static uint64_t pattern(const uint8_t *p, int n)
{
    uint64_t x = 0;
    while (n--) x = x << 8 | p[n];
    return x;
}

static double number(const uint8_t *p)
{
    uint64_t bits = pattern(p, 8);
    double x;
    memcpy(&x, &bits, 8);
    return x;
}

static int64_t told(const uint8_t *c, uint8_t *out, size_t room)
{
    uint32_t n = (uint32_t)pattern(c + 4, 4);
    const uint8_t *v = c + 16;
    switch (pattern(c, 4)) {
    case 0: return ct_reason(n, out, room);
    case 1: return ct_date_reason(n, (int32_t)(uint32_t)pattern(v, 4), (int32_t)(uint32_t)pattern(v + 8, 4), (int32_t)(uint32_t)pattern(v + 16, 4), out, room);
    case 2: return ct_time_reason(n, v[0], v[1], number(v + 8), number(v + 16), out, room);
    case 3: return ct_parts_reason(n, number(v), number(v + 8), out, room);
    case 4: return ct_float_reason(n, number(v), out, room);
    case 5: return ct_count_reason(n, (uint32_t)pattern(v, 4), out, room);
    default: return ct_block_reason(n, pattern(v, 8), (uint32_t)pattern(v + 8, 4), (uint32_t)pattern(v + 16, 4), out, room);
    }
}

int main(void)
{
    uint8_t c[40], out[64], code[8];
    while (fread(c, 1, sizeof c, stdin) == sizeof c) {
        size_t room = (size_t)pattern(c + 8, 4);
        uint64_t answer;
        int i;
        memset(out, 0xaa, sizeof out);
        answer = (uint64_t)told(c, out, room > sizeof out ? sizeof out : room);
        for (i = 0; i < 8; i++) code[i] = (uint8_t)(answer >> 8 * i);
        if (fwrite(code, 1, 8, stdout) != 8 || fwrite(out, 1, sizeof out, stdout) != sizeof out) return 2;
    }
    return 0;
}
