/* Cases of ct_milliseconds and ct_milliseconds_of_run from standard input, their answers to standard output.
   A case is the launch, 16 bytes, a number of stamps, 4 bytes, all first parts and all second parts; an answer is the code of the single call for each
   stamp, 8 bytes each, the run's code in 8 bytes, and its two lent lists with SPARE bytes behind each, filled with aa before the call. Numbers have the
   lowest byte first. */
#include "../cases.h"
#include "celestial_time.h"

enum { SPARE = 5 };

int main(void)
{
    uint8_t head[20];
    while (fread(head, 1, sizeof head, stdin) == sizeof head) {
        double from1 = ct_float_at(head), from2 = ct_float_at(head + 8);
        size_t n = (size_t)ct_pattern_at(head + 16, 4);
        uint8_t *jd1 = read_bytes(8 * n), *jd2 = read_bytes(8 * n), *millis = some(8 * n + SPARE), *numbers = some(n + SPARE);
        memset(millis, 0xaa, 8 * n + SPARE);
        memset(numbers, 0xaa, n + SPARE);
        for (size_t i = 0; i < n; i++) put_code(ct_milliseconds(from1, from2, ct_float_at(jd1 + 8 * i), ct_float_at(jd2 + 8 * i)));
        put_code(ct_milliseconds_of_run(from1, from2, jd1, 8 * n, jd2, 8 * n, millis, 8 * n + SPARE, numbers, n + SPARE));
        put(millis, 8 * n + SPARE);
        put(numbers, n + SPARE);
        free(jd1);
        free(jd2);
        free(millis);
        free(numbers);
    }
    return 0;
}
