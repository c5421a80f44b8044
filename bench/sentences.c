/* Makes one sentence many times, for bench/sentences: its case, and how often. Then writes the sentence. */
#include "celestial_time.h"
#include <stdio.h>
#include <stdlib.h>

static uint8_t out[CT_SENTENCE_BYTES];

static int64_t told(int which)
{
    switch (which) {
    case 0: return ct_reason(5, out, sizeof out);
    case 1: return ct_reason(23, out, sizeof out);
    case 2: return ct_date_reason(3, 2000, 2, 30, out, sizeof out);
    case 3: return ct_date_reason(1, INT32_MIN, 1, 1, out, sizeof out);
    case 4: return ct_time_reason(4, 24, 0, 0.0, 0.0, out, sizeof out);
    case 5: return ct_time_reason(4, 23, 59, 61.0, 0.0, out, sizeof out);
    case 6: return ct_parts_reason(6, 1e300, 2.0, out, sizeof out);
    case 7: return ct_parts_reason(9, 1.0, 1e308 * 10, out, sizeof out);
    case 8: return ct_float_reason(7, 1.5, out, sizeof out);
    case 9: return ct_count_reason(8, UINT32_MAX, out, sizeof out);
    case 10: return ct_block_reason(13, 64024, 4001, 4001, out, sizeof out);
    case 11: return ct_block_reason(14, UINT64_MAX, 4, 4, out, sizeof out);
    default: return -1;
    }
}

int main(int argc, char **argv)
{
    int64_t n = -1;
    int i, which, times;
    if (argc != 3) return 2;
    which = atoi(argv[1]);
    times = atoi(argv[2]);
    for (i = 0; i < times; i++) n = told(which);
    return n < 0 || fwrite(out, 1, (size_t)n, stdout) != (size_t)n || putchar('\n') < 0;
}
