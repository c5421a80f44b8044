/* Damaged blocks, and good ones, in bulk.
     damaged [blocks by chance]
   Each block and each buffer has exactly its size in memory, so that valgrind sees a read or a write
   beside it. due_listing.h works out what is due. */
#include "../inputs/chance.h"
#include "check.h"
#include "due_listing.h"
#include "patterns.h"
#include <stdlib.h>

enum { MOST_BYTES = 8 + 16 * (MOST_STAMPS + 1), PART = 4096, UNTOUCHED = 0xa5 };

/* ---- one block */

/* Memory of exactly this length; that of length 0 has no byte to read. */
static uint8_t *exactly(size_t length)
{
    uint8_t *memory = malloc(length);
    if (!memory) exit(2);
    return memory;
}

/* One part from `line` on, in a buffer of exactly `size` bytes; gives the line after it. */
static size_t try_part(const block *b, size_t line, size_t size)
{
    uint8_t *out = exactly(size), due[PART];
    size_t written = 0, next_line = line;
    int64_t code;
    memset(due, UNTOUCHED, sizeof due);
    memset(out, UNTOUCHED, size);
    for (; next_line < line_count && size - written >= LINE; next_line++) {
        size_t length = strlen(lines[next_line]);
        memcpy(due + written, lines[next_line], length);
        written += length;
    }
    code = ct_listing_part(b->bytes, b->length, (uint32_t)line, ct_no_rows, CT_TABLE_BYTES, out, size);
    check(code == (size < LINE ? -11 : (int64_t)written), "part at line %ld in %ld bytes: %ld", (long)line, (long)size,
          (long)code);
    check(!memcmp(due, out, size), "part at line %ld in %ld bytes: other bytes", (long)line, (long)size);
    free(out);
    return next_line;
}

static void try_listing(const block *b, size_t size)
{
    size_t line = 0;
    do line = try_part(b, line, size);
    while (size >= LINE && line < line_count);
}

static void try_lines_out_of_range(const block *b)
{
    static const size_t FAR[] = {4001, 0x7fffffff, 0x80000000, 0xffffffff};
    size_t i;
    for (i = 0; i < sizeof FAR / sizeof *FAR; i++) try_part(b, FAR[i], 40);
    try_part(b, line_count, 40);
    try_part(b, line_count + 1, PART);
}

/* `all` says: through buffers of every size from 0 to 40, else only of 32, 33 and 4,096 bytes. */
static void try_block(const uint8_t *bytes, size_t length, int all)
{
    block b = {exactly(length), length, due_stamps(bytes, length)};
    size_t size;
    memcpy(b.bytes, bytes, length);
    check(ct_block_stamps(b.bytes, length) == b.stamps, "%ld bytes: %ld stamps", (long)length, (long)b.stamps);
    due_lines(&b);
    for (size = all ? 0 : 32; size <= (all ? 40 : 33); size++) try_listing(&b, size);
    try_listing(&b, PART);
    try_lines_out_of_range(&b);
    free(b.bytes);
}

/* ---- the blocks */

static uint8_t bytes[MOST_BYTES];

static void put_size(uint8_t *at, uint32_t size)
{
    int i;
    for (i = 0; i < 4; i++) at[i] = (uint8_t)(size >> 8 * i);
}

static void put_sizes(uint32_t first, uint32_t second)
{
    put_size(bytes, first);
    put_size(bytes + 4, second);
}

/* Any pattern, a NaN or an infinity, or a float near the dates of the calendar. */
static void put_float(uint8_t *at)
{
    uint64_t pattern = next();
    int i;
    switch (below(4)) {
    case 0: break;
    case 1: pattern |= INFINITE; break;
    default: pattern = 0x4142b42c80000000u + (pattern >> 22);
    }
    for (i = 0; i < 8; i++) at[i] = (uint8_t)(pattern >> 8 * i);
}

static void put_stamps(uint32_t stamps)
{
    uint32_t i;
    put_sizes(stamps, stamps);
    for (i = 0; i < 2 * stamps; i++) put_float(bytes + 8 + 8 * i);
    for (i = 0; i < stamps; i += 2) memset(bytes + 8 + 8 * (stamps + i), 0, 8);
}

static void every_length(void)
{
    static const uint8_t FILLS[] = {0x00, 0xff, 0x01, 0x7f, 0x80, 0xf0};
    size_t length, i;
    for (length = 0; length <= 64; length++) {
        for (i = 0; i < sizeof FILLS; i++) {
            memset(bytes, FILLS[i], length);
            try_block(bytes, length, 1);
        }
        for (i = 0; i < length; i++) bytes[i] = (uint8_t)i;
        try_block(bytes, length, 1);
        put_stamps((uint32_t)length / 16);
        try_block(bytes, length, 1);
    }
}

static void size_fields(void)
{
    static const uint32_t SIZES[] = {0, 1, 3999, 4000, 4001, 0x7fffffff, 0x80000000, 0xffffffff};
    static const size_t LENGTHS[] = {8, 24, 8 + 16 * 3999, 8 + 16 * 4000, 8 + 16 * 4001};
    size_t i, k, m;
    put_stamps(4001);
    for (i = 0; i < 8; i++)
        for (k = 0; k < 8; k++)
            for (m = 0; m < 5; m++) {
                put_sizes(SIZES[i], SIZES[k]);
                try_block(bytes, LENGTHS[m], 0);
            }
}

static void truncations(void)
{
    size_t length;
    for (length = 0; length <= 8 + 16 * 14; length++) {
        put_stamps(12);
        try_block(bytes, length, 0);
    }
}

static void by_chance(int count)
{
    int i;
    size_t k, length;
    for (i = 0; i < count; i++) {
        length = below(100);
        for (k = 0; k < length; k++) bytes[k] = (uint8_t)next();
        try_block(bytes, length, 0);
        k = below(13);
        put_stamps((uint32_t)k);
        try_block(bytes, 8 + 16 * k, i % 10 == 0);
    }
}

int main(int count, char **words)
{
    every_length();
    size_fields();
    truncations();
    by_chance(count == 2 ? atoi(words[1]) : 500);
    put_stamps(MOST_STAMPS);
    try_block(bytes, 8 + 16 * MOST_STAMPS, 1);
    return summary("damaged");
}
