/* Cases of ct_line_up and ct_lines_in_order from standard input, their answers to standard output.
   A case is eight numbers of 4 bytes (the bytes of jd1, jd2 and numbers, of the lent places and of the two work areas, and the first two counts), then the bytes of the
   three lists; an answer is the first call's code in 8 bytes, all numbers, and all of the lent places, which are filled with aa before the call, as the work areas are, and
   then the same of the second call; a byte behind one of those is looked after here. Numbers have the lowest byte first. */
#include "../cases.h"
#include "celestial_time.h"

typedef int64_t line_call(const uint8_t *, size_t, const uint8_t *, size_t, uint8_t *, size_t, uint64_t, uint64_t, uint8_t *, size_t, uint8_t *, size_t,
                          uint8_t *, size_t);

/* A call on a case, and its answer. */
static void ask(line_call *call, const size_t *n, uint8_t **list)
{
    uint8_t *numbers = some(n[2]), *lent[3];
    int i;
    memcpy(numbers, list[2], n[2]);
    for (i = 0; i < 3; i++) memset(lent[i] = some(n[3 + i]), 0xaa, n[3 + i] + 1);
    put_code(call(list[0], n[0], list[1], n[1], numbers, n[2], n[6], n[7], lent[0], n[3], lent[1], n[4], lent[2], n[5]));
    put(numbers, n[2]);
    put(lent[0], n[3]);
    for (i = 0; i < 3; i++)
        if (lent[i][n[3 + i]] != 0xaa) exit(3);
    free(numbers);
    for (i = 0; i < 3; i++) free(lent[i]);
}

int main(void)
{
    uint8_t sizes[32];
    while (fread(sizes, 1, sizeof sizes, stdin) == sizeof sizes) {
        size_t n[8];
        uint8_t *list[3];
        int i;
        for (i = 0; i < 8; i++) n[i] = (size_t)ct_pattern_at(sizes + 4 * i, 4);
        for (i = 0; i < 3; i++) list[i] = read_bytes(n[i]);
        ask(ct_line_up, n, list);
        ask(ct_lines_in_order, n, list);
        for (i = 0; i < 3; i++) free(list[i]);
    }
    return 0;
}
