/* Bills of ct_standby_bill, a line of standard input each: 7 fields of the start, 7 of the end, rate, first and second metres, the number of lent rows and so many
   pairs of a month and its seconds. Writes what the call returns and, where it filled bytes, the three numbers. */
#include "celestial_time.h"
#include <inttypes.h>
#include <stdio.h>

int main(void)
{
    int64_t n[17], pair[2];
    uint8_t table[CT_TABLE_BYTES], out[24];
    int32_t months[16], seconds[16];
    int i;
    unsigned rows;
    for (;;) {
        int64_t code;
        for (i = 0; i < 17; i++)
            if (scanf("%" SCNd64, &n[i]) != 1) return i != 0;
        if (scanf("%u", &rows) != 1 || rows > 16) return 1;
        for (i = 0; i < (int)rows; i++) {
            if (scanf("%" SCNd64 " %" SCNd64, &pair[0], &pair[1]) != 2) return 1;
            months[i] = (int32_t)pair[0];
            seconds[i] = (int32_t)pair[1];
        }
        ct_table(months, seconds, rows, table);
        code = ct_standby_bill((int32_t)n[0], (uint8_t)n[1], (uint8_t)n[2], (uint8_t)n[3], (uint8_t)n[4], (uint8_t)n[5], (uint32_t)n[6], (int32_t)n[7],
                               (uint8_t)n[8], (uint8_t)n[9], (uint8_t)n[10], (uint8_t)n[11], (uint8_t)n[12], (uint32_t)n[13], (uint32_t)n[14], (uint32_t)n[15],
                               (uint32_t)n[16], table, sizeof table, out, sizeof out);
        printf("%" PRId64, code);
        for (i = 0; code > 0 && i < 3; i++) printf(" %" PRIu64, ct_pattern_at(out + 8 * i, 8));
        putchar('\n');
    }
}
