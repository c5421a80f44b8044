/* Lists a stamp block over the C interface.
     viewer [FILE]
   Without FILE the block comes from standard input. The listing goes to standard output, and what
   the viewer counts itself to standard error. Exit status 1 for a refused block, 2 where the block
   can't be read or the listing can't be written. `make -C examples` builds it. */
#include "celestial_time.h"
#include <stdio.h>

enum { MOST_STAMPS = 4000, MOST_BYTES = 8 + 16 * MOST_STAMPS, PART = 256, TEXT = 26 };

/* Answers on subnormal parts may differ in another float mode, and all of them in another rounding;
   a stamp that is not finite is refused in every mode. */
static void warn_of_float_mode(void)
{
    int mode = ct_float_mode();
    if (mode & CT_MODE_ROUNDING) fputs("viewer: floats are not rounded to nearest\n", stderr);
    if (mode & CT_MODE_RESULTS) fputs("viewer: subnormal results are flushed to zero\n", stderr);
    if (mode & CT_MODE_OPERANDS) fputs("viewer: subnormal operands are read as zero\n", stderr);
}

/* One byte more than the longest block is read, so that a longer one is seen as such. */
static int read_block(const char *path, uint8_t *block, size_t *length)
{
    FILE *file = path ? fopen(path, "rb") : stdin;
    int failed;
    if (!file) return 0;
    *length = fread(block, 1, MOST_BYTES + 1, file);
    failed = ferror(file);
    if (path) fclose(file);
    return !failed;
}

/* Writes the listing through a small buffer; gives the number of lines, or -1. */
static int64_t print_listing(const uint8_t *block, size_t length)
{
    uint8_t part[PART];
    uint32_t lines = 0;
    int64_t n, i;
    while ((n = ct_listing_part(block, length, lines, ct_no_rows, sizeof ct_no_rows, part, sizeof part)) > 0) {
        for (i = 0; i < n; i++) lines += part[i] == '\n';
        if (fwrite(part, 1, (size_t)n, stdout) != (size_t)n) return -1;
    }
    return n < 0 || fflush(stdout) ? -1 : (int64_t)lines;
}

/* Asks for the text of each stamp. */
static int64_t count_refused(const uint8_t *block, int64_t stamps)
{
    const uint8_t *jd1 = block + 8, *jd2 = jd1 + 8 * stamps;
    uint8_t text[TEXT], rule[CT_RULE_BYTES];
    int64_t i, refused = 0;
    for (i = 0; i < stamps; i++)
        if (ct_to_iso8601(ct_float_at(jd1 + 8 * i), ct_float_at(jd2 + 8 * i), ct_no_rows, sizeof ct_no_rows, text, sizeof text, rule, sizeof rule) < 0) refused++;
    return refused;
}

int main(int count, char **words)
{
    static uint8_t block[MOST_BYTES + 1];
    size_t length = 0;
    int64_t stamps, lines;
    warn_of_float_mode();
    if (count > 2 || !read_block(count == 2 ? words[1] : NULL, block, &length)) {
        fputs("viewer: no block; viewer [FILE]\n", stderr);
        return 2;
    }
    lines = print_listing(block, length);
    if (lines < 0) {
        fputs("viewer: the listing can't be written\n", stderr);
        return 2;
    }
    stamps = ct_block_stamps(block, length);
    if (stamps < 0) return 1;
    fprintf(stderr, "viewer: %ld stamps, %ld refused, %ld lines\n", (long)stamps, (long)count_refused(block, stamps),
            (long)lines);
    return 0;
}
