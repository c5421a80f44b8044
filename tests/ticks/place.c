/* Cases of ct_place_ticks from standard input, their answers to standard output.
   A case is four sizes of 4 bytes (the bytes of pass_ticks, pass_millis, ticks and of the lent list) and the bytes of the three lists; an answer is the
   call's code in 8 bytes and the whole lent list, which is filled with aa before the call. Numbers have the lowest byte first. */
#include "../cases.h"
#include "celestial_time.h"

int main(void)
{
    uint8_t sizes[16];
    while (fread(sizes, 1, sizeof sizes, stdin) == sizeof sizes) {
        size_t n[4];
        uint8_t *list[3], *out;
        int i;
        for (i = 0; i < 4; i++) n[i] = (size_t)ct_pattern_at(sizes + 4 * i, 4);
        for (i = 0; i < 3; i++) list[i] = read_bytes(n[i]);
        out = some(n[3]);
        memset(out, 0xaa, n[3]);
        put_code(ct_place_ticks(list[0], n[0], list[1], n[1], list[2], n[2], out, n[3]));
        put(out, n[3]);
        for (i = 0; i < 3; i++) free(list[i]);
        free(out);
    }
    return 0;
}
