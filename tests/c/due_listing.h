/* What the block call and the listing must say, worked out again: document 01's rules for a block (14, 12,
   13, 14), and the lines of the listing around document 01's text, whose year is written anew where four
   digits do not hold it. */
#include "celestial_time.h"
#include <stdio.h>
#include <stdlib.h>

/* A line is begun only where so many bytes are left. */
enum { MOST_STAMPS = 4000, LINE = 33 };

typedef struct { uint8_t *bytes; size_t length; int64_t stamps; } block;

static uint32_t size_at(const uint8_t *at)
{
    return at[0] | (uint32_t)at[1] << 8 | (uint32_t)at[2] << 16 | (uint32_t)at[3] << 24;
}

static int64_t due_stamps(const uint8_t *bytes, size_t length)
{
    uint32_t stamps;
    if (length < 8) return -14;
    stamps = size_at(bytes);
    if (stamps != size_at(bytes + 4)) return -12;
    if (stamps > MOST_STAMPS) return -13;
    return length == 8 + 16 * (size_t)stamps ? (int64_t)stamps : -14;
}

/* The text of a stamp, or `refused` and the number. The 19 bytes behind the year are document 01's. */
static int due_text(const block *b, int64_t i, char *text)
{
    const uint8_t *jd1 = b->bytes + 8 + 8 * i, *jd2 = jd1 + 8 * b->stamps;
    uint8_t rule[CT_RULE_BYTES];
    char old[LINE];
    int64_t n = ct_to_iso8601(ct_float_at(jd1), ct_float_at(jd2), ct_no_rows, CT_TABLE_BYTES, (uint8_t *)old, 26, rule, sizeof rule);
    long year;
    if (n < 0) return sprintf(text, "refused %ld", (long)-n), 0;
    old[n] = 0;
    year = strtol(old, 0, 10);
    if (year >= 0 && year <= 9999) sprintf(text, "%04ld%s", year, old + n - 19);
    else sprintf(text, "%c%07ld%s", year < 0 ? '-' : '+', labs(year), old + n - 19);
    return 1;
}

static char lines[MOST_STAMPS + 1][64];
static size_t line_count;

static void due_lines(const block *b)
{
    char text[LINE];
    int64_t i, refused = 0;
    line_count = 1;
    for (i = 0; i < b->stamps; i++) {
        refused += !due_text(b, i, text);
        sprintf(lines[line_count++], "%ld %s\n", (long)i, text);
    }
    if (b->stamps < 0) sprintf(lines[0], "block refused %ld\n", (long)-b->stamps);
    else sprintf(lines[0], "utc listing %ld refused %ld\n", (long)b->stamps, (long)refused);
}
