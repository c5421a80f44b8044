// The header in C++: a call of the archive is linked, and the float mode is as the library assumes.
#include "celestial_time.h"
#include <cstdio>

int main()
{
    uint8_t text[26], rule[CT_RULE_BYTES];
    int64_t length = ct_to_iso8601(2451545.0, 0.0, ct_no_rows, sizeof ct_no_rows, text, sizeof text, rule, sizeof rule);
    if (length < 0 || ct_float_mode() != 0) return 1;
    return std::fwrite(text, 1, (size_t)length, stdout) != (size_t)length;
}
