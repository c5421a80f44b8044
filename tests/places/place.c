/* Cases of ct_place_readings from standard input, their answers to standard output.
   A case is five sizes of 4 bytes (the bytes of pass_millis, pass_places, millis, of the lent places and of the numbers) and the bytes of the three lists
   and of the numbers; an answer is the call's code in 8 bytes, the whole lent list of places, which is filled with aa before the call, and the numbers.
   Numbers have the lowest byte first. */
#include "../cases.h"
#include "celestial_time.h"

int main(void)
{
    uint8_t sizes[20];
    while (fread(sizes, 1, sizeof sizes, stdin) == sizeof sizes) {
        size_t n[5];
        uint8_t *list[3], *places, *numbers;
        int i;
        for (i = 0; i < 5; i++) n[i] = (size_t)ct_pattern_at(sizes + 4 * i, 4);
        for (i = 0; i < 3; i++) list[i] = read_bytes(n[i]);
        numbers = read_bytes(n[4]);
        places = some(n[3]);
        memset(places, 0xaa, n[3]);
        put_code(ct_place_readings(list[0], n[0], list[1], n[1], list[2], n[2], places, n[3], numbers, n[4]));
        put(places, n[3]);
        put(numbers, n[4]);
        for (i = 0; i < 3; i++) free(list[i]);
        free(places);
        free(numbers);
    }
    return 0;
}
