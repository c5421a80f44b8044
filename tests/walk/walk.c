/* Cases of ct_offsets_at_0h from standard input, their answers to standard output.
   A case is three sizes of 4 bytes (the bytes of dates, table and the lent list) and the bytes of dates and table; an answer is the call's code in 8 bytes and the
   whole lent list, which is filled with aa before the call. Numbers have the lowest byte first. */
#include "../cases.h"
#include "celestial_time.h"

int main(void)
{
    uint8_t sizes[12];
    while (fread(sizes, 1, sizeof sizes, stdin) == sizeof sizes) {
        size_t n[3];
        uint8_t *list[2], *out;
        int i;
        for (i = 0; i < 3; i++) n[i] = (size_t)ct_pattern_at(sizes + 4 * i, 4);
        for (i = 0; i < 2; i++) list[i] = read_bytes(n[i]);
        out = some(n[2]);
        memset(out, 0xaa, n[2]);
        put_code(ct_offsets_at_0h(list[0], n[0], list[1], n[1], out, n[2]));
        put(out, n[2]);
        for (i = 0; i < 2; i++) free(list[i]);
        free(out);
    }
    return 0;
}
