/* A filter over ct_convert_run: requests for UTC to TAI (call 123) or TAI to UTC (124) on standard input, all of one call, answers on standard output, as
   port_oracle.c's. Each 5,000 requests go to the library as one run. It stops with status 3 where the count of refused stamps is not that of the numbers. */
#include "../inputs/record.h"
#include "celestial_time.h"
#include <stdio.h>

enum { MOST = 5000, UTC_TO_TAI = 123, TAI_TO_UTC = 124 };

int main(void)
{
    static record r[MOST];
    static uint8_t jd1[8 * MOST], jd2[8 * MOST], out1[8 * MOST], out2[8 * MOST], numbers[MOST];
    size_t n, i;
    while ((n = fread(r, sizeof *r, MOST, stdin)) > 0) {
        uint64_t call = r[0].word[0];
        int64_t refused;
        for (i = 0; i < n; i++) {
            if (r[i].word[0] != call || (call != UTC_TO_TAI && call != TAI_TO_UTC)) return 2;
            memcpy(jd1 + 8 * i, &r[i].word[1], 8);
            memcpy(jd2 + 8 * i, &r[i].word[2], 8);
        }
        refused = ct_convert_run(call == UTC_TO_TAI ? CT_UTC : CT_TAI, call == UTC_TO_TAI ? CT_TAI : CT_UTC, jd1, 8 * n, jd2, 8 * n, ct_no_rows, CT_TABLE_BYTES,
                                 out1, 8 * n, out2, 8 * n, numbers, n);
        for (i = 0; i < n; i++) {
            refused -= numbers[i] != 0;
            r[i] = numbers[i] ? (record){{numbers[i]}} : (record){{0, shown(ct_float_at(out1 + 8 * i)), shown(ct_float_at(out2 + 8 * i))}};
        }
        if (refused) return 3;
        if (fwrite(r, sizeof *r, n, stdout) != n) return 1;
    }
    return fflush(stdout) != 0;
}
