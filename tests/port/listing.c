/* Lists the stamp block on standard input over the C interface, in parts of a buffer
   of the given size: listing SIZE < BLOCK. */
#include "celestial_time.h"
#include <stdio.h>
#include <stdlib.h>

int main(int argc, char **argv)
{
    static uint8_t block[64009], out[1 << 17];
    size_t size = argc == 2 ? (size_t)atoi(argv[1]) : sizeof out;
    size_t length = fread(block, 1, sizeof block, stdin);
    uint32_t line = 0;
    int64_t n;
    if (size > sizeof out) return 2;
    while ((n = ct_listing_part(block, length, line, ct_no_rows, sizeof ct_no_rows, out, size)) > 0) {
        fwrite(out, 1, (size_t)n, stdout);
        for (int64_t i = 0; i < n; i++) line += out[i] == '\n';
    }
    return n < 0;
}
