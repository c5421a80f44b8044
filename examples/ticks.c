/* Places the ticks of a pig's crystal between marker passes.
     ticks TICK ...
   The passes of a short run stand below: a tick and a TAI millisecond, both counted from launch. Each tick is printed with its millisecond; the rest of the
   list is as it was. Exit status 1 where the list is refused, 2 for words that are no ticks. `make -C examples` builds it. */
#include "celestial_time.h"
#include <stdio.h>
#include <stdlib.h>

enum { PASSES = 4, MOST = 64 };

static const uint64_t PASS_TICK[PASSES] = {0, 32770112, 98310004, 196620555};
static const uint64_t PASS_MILLI[PASSES] = {0, 1000072, 3000151, 6000299};

static void put(uint8_t *list, int at, uint64_t n)
{
    int i;
    for (i = 0; i < 8; i++) list[8 * at + i] = (uint8_t)(n >> 8 * i);
}

int main(int count, char **words)
{
    uint8_t pass_ticks[8 * PASSES], pass_millis[8 * PASSES], ticks[8 * MOST], millis[8 * MOST];
    int64_t code;
    int i, n = count - 1;
    if (n < 1 || n > MOST) {
        fputs("usage: ticks TICK ..., 64 at the most\n", stderr);
        return 2;
    }
    for (i = 0; i < PASSES; i++) {
        put(pass_ticks, i, PASS_TICK[i]);
        put(pass_millis, i, PASS_MILLI[i]);
    }
    for (i = 0; i < n; i++) {
        char *end;
        put(ticks, i, strtoull(words[i + 1], &end, 10));
        if (*end || end == words[i + 1]) return 2;
    }
    code = ct_place_ticks(pass_ticks, sizeof pass_ticks, pass_millis, sizeof pass_millis, ticks, (size_t)(8 * n), millis, sizeof millis);
    if (code < 0) {
        printf("refused %ld\n", (long)-code);
        return 1;
    }
    for (i = 0; i < n; i++) printf("tick %s at %llu ms\n", words[i + 1], (unsigned long long)ct_pattern_at(millis + 8 * i, 8));
    return 0;
}
