/* A filter over the port's reader: texts on standard input, each with one byte of its length in front; a line for each
   on standard output: the six fields or `refused` and the number, a bar, and the date of the UTC text or its refusal. */
#include "celestial_time.h"
#include <inttypes.h>
#include <stdio.h>
#include <string.h>

static uint64_t bits_at(const uint8_t *p)
{
    uint64_t x = 0;
    for (int i = 7; i >= 0; i--) x = x << 8 | p[i];
    return x;
}

static int32_t int_at(const uint8_t *p)
{
    return (int32_t)((uint32_t)p[0] | (uint32_t)p[1] << 8 | (uint32_t)p[2] << 16 | (uint32_t)p[3] << 24);
}

static void fields(const uint8_t *p)
{
    for (int i = 0; i < 5; i++) printf("%" PRId32 " ", int_at(p + 4 * i));
    printf("%016" PRIx64, bits_at(p + 20));
}

int main(void)
{
    uint8_t text[256], plain[28], utc[44];
    int length;
    while ((length = getchar()) != EOF) {
        if (fread(text, 1, (size_t)length, stdin) != (size_t)length) return 1;
        int64_t a = ct_parse_iso8601(text, (size_t)length, plain, sizeof plain);
        int64_t b = ct_utc_from_iso8601(text, (size_t)length, ct_no_rows, sizeof ct_no_rows, utc, sizeof utc);
        if (a == 28) fields(plain);
        else printf("refused %" PRId64, -a);
        if (b == 44) {
            /* where both are answered, the fields are the same */
            if (a == 28 && memcmp(plain, utc, 28) != 0) printf(" FIELDS DIFFER");
            printf(" | %016" PRIx64 " %016" PRIx64 "\n", bits_at(utc + 28), bits_at(utc + 36));
        } else {
            printf(" | refused %" PRId64 "\n", -b);
        }
    }
    return 0;
}
