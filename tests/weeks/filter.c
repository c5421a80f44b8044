/* Answers of the GPS week calls and of ct_same_stamp, a line of standard input each: `from WEEK MILLIS`, `to JD1 JD2`, `full BITS REFERENCE`,
   `same SCALE JD1 JD2 SCALE JD1 JD2`, numbers in decimal and floats as 16 hexadecimal digits of their bits. Writes what the call returns and, where it
   filled bytes, these in hexadecimal. */
#include "celestial_time.h"
#include <inttypes.h>
#include <stdio.h>

static double float_of(uint64_t pattern)
{
    double x;
    memcpy(&x, &pattern, sizeof x);
    return x;
}

static void show(int64_t code, const uint8_t *bytes)
{
    int64_t i;
    printf("%" PRId64, code);
    if (bytes && code > 0) putchar(' ');
    for (i = 0; bytes && i < code; i++) printf("%02x", bytes[i]);
    putchar('\n');
}

int main(void)
{
    char word[8];
    uint8_t out[16];
    while (scanf("%7s", word) == 1) {
        uint64_t a, b, c, d;
        uint32_t m, n;
        if (!strcmp(word, "from") && scanf("%" SCNu32 " %" SCNu32, &m, &n) == 2) show(ct_gps_from_week(m, n, out, 16), out);
        else if (!strcmp(word, "to") && scanf("%" SCNx64 " %" SCNx64, &a, &b) == 2) show(ct_gps_to_week(float_of(a), float_of(b), out, 16), out);
        else if (!strcmp(word, "full") && scanf("%" SCNu32 " %" SCNu32, &m, &n) == 2) show(ct_gps_full_week(m, n), NULL);
        else if (!strcmp(word, "same") && scanf("%" SCNu32 " %" SCNx64 " %" SCNx64 " %" SCNu32 " %" SCNx64 " %" SCNx64, &m, &a, &b, &n, &c, &d) == 6)
            show(ct_same_stamp(m, a, b, n, c, d), NULL);
        else return 1;
    }
    return 0;
}
