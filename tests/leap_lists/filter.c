/* A filter over the reader of leap rows: texts on standard input, each with four bytes of its length in front, the lowest first; for each on standard output
   8 bytes of the answer, 8 of the line at fault, the 136 bytes of the table and the 4 of its expiry, which are all 0xaa before the call. */
#include "celestial_time.h"
#include <stdio.h>
#include <stdlib.h>
#include <string.h>

static void put(int64_t n)
{
    int i;
    for (i = 0; i < 8; i++) putchar((int)((uint64_t)n >> 8 * i & 255));
}

int main(void)
{
    uint8_t size[4], table[CT_TABLE_BYTES], known[CT_KNOWN_BYTES];
    while (fread(size, 1, 4, stdin) == 4) {
        size_t length = (size_t)size[0] | (size_t)size[1] << 8 | (size_t)size[2] << 16 | (size_t)size[3] << 24;
        uint8_t *text = malloc(length + 1);
        if (!text || fread(text, 1, length, stdin) != length) return 1;
        memset(table, 0xaa, sizeof table);
        memset(known, 0xaa, sizeof known);
        put(ct_read_table(text, length, table, sizeof table, known, sizeof known));
        put(ct_table_fault(text, length));
        fwrite(table, 1, sizeof table, stdout);
        fwrite(known, 1, sizeof known, stdout);
        free(text);
    }
    return 0;
}
