/* ct_run_size and ct_take_run: runs of blocks, cut and damaged ones, an empty one, the refusals in their order, spare bytes, and random runs against
   ct_block_stamps and ct_convert_run block by block. */
enum { RUN_BYTES = 4096, TAKE_STAMPS = 200, TAKE_GUARD = 16 };

static uint32_t run_seed = 20240527;

static uint32_t run_random(uint32_t below)
{
    run_seed = run_seed * 1664525u + 1013904223u;
    return (run_seed >> 8) % below;
}

/* A block of `count` stamps of scale 1 or so at `at`, some of them not finite; returns its end. */
static uint8_t *put_block(uint8_t *at, uint32_t count)
{
    const uint64_t parts[] = {0x4142c04d40000000u, 0x3fd0000000000000u, 0x7ff0000000000000u, 0xfff8000000000001u, 0u, 0xc0f0bdd000000000u};
    for (int k = 0; k < 8; k++) at[k] = (uint8_t)(count >> 8 * (k % 4));
    for (uint32_t i = 0; i < 2 * count; i++) {
        uint64_t bits = parts[i < count ? run_random(6) == 2 ? 2 : 0 : run_random(6)] + run_random(1u << 20);
        for (int k = 0; k < 8; k++) at[8 + 8 * i + (uint32_t)k] = (uint8_t)(bits >> 8 * k);
    }
    return at + 8 + 16 * count;
}

static uint64_t run_number(const uint8_t *at)
{
    uint64_t n = 0;
    for (int k = 7; k >= 0; k--) n = n << 8 | at[k];
    return n;
}

static void size_says(const uint8_t *run, size_t len, int64_t bytes, uint64_t stamps, uint64_t blocks, uint64_t refused)
{
    uint8_t out[CT_RUN_SIZE_BYTES + 4];
    memset(out, UNTOUCHED, sizeof out);
    check(ct_run_size(run, len, out, CT_RUN_SIZE_BYTES - 1) == -11 && untouched(out, out + sizeof out), "ct_run_size takes 31 bytes");
    check(ct_run_size(run, len, out, sizeof out) == bytes, "ct_run_size of %zu bytes is not %ld", len, (long)bytes);
    check(run_number(out) == stamps && run_number(out + 8) == blocks && run_number(out + 16) == refused && run_number(out + 24) == 1,
          "ct_run_size of %zu bytes has other numbers", len);
    check(untouched(out + CT_RUN_SIZE_BYTES, out + sizeof out), "ct_run_size writes behind its 32 bytes");
}

/* The run block by block: its size, and its stamps by ct_convert_run over what was recorded. */
static void run_by_blocks(uint32_t scale, const uint8_t *run, size_t len)
{
    static uint8_t jd1[8 * TAKE_STAMPS + TAKE_GUARD], jd2[sizeof jd1], numbers[TAKE_STAMPS + TAKE_GUARD];
    static uint8_t due1[sizeof jd1], due2[sizeof jd1], due[sizeof numbers];
    size_t at = 0, stamps = 0, blocks = 0;
    int64_t refused = 0, found = 0;
    memset(jd1, UNTOUCHED, sizeof jd1);
    memset(jd2, UNTOUCHED, sizeof jd2);
    memset(numbers, UNTOUCHED, sizeof numbers);
    memset(due1, UNTOUCHED, sizeof due1);
    memset(due2, UNTOUCHED, sizeof due2);
    memset(due, UNTOUCHED, sizeof due);
    while (at < len) {
        uint64_t n = len - at < 4 ? 0 : (uint64_t)run[at] | (uint64_t)run[at + 1] << 8 | (uint64_t)run[at + 2] << 16 | (uint64_t)run[at + 3] << 24;
        size_t block = n > (len - at) / 16 || 8 + 16 * n > len - at ? len - at : (size_t)(8 + 16 * n);
        found = ct_block_stamps(run + at, block);
        if (found < 0) break;
        memcpy(due1 + 8 * stamps, run + at + 8, (size_t)(8 * n));
        memcpy(due2 + 8 * stamps, run + at + 8 + 8 * n, (size_t)(8 * n));
        refused += ct_convert_run(scale, CT_TAI, run + at + 8, (size_t)(8 * n), run + at + 8 + 8 * n, (size_t)(8 * n), ct_no_rows, CT_TABLE_BYTES,
                                  due1 + 8 * stamps, (size_t)(8 * n), due2 + 8 * stamps, (size_t)(8 * n), due + stamps, (size_t)n);
        at += block;
        stamps += (size_t)n;
        blocks++;
    }
    size_says(run, len, (int64_t)at, stamps, blocks, found < 0 ? (uint64_t)-found : 0);
    check(ct_take_run(scale, run, len, ct_no_rows, CT_TABLE_BYTES, jd1, sizeof jd1, jd2, sizeof jd2, numbers, sizeof numbers) == refused,
          "ct_take_run of %zu bytes is not %ld", len, (long)refused);
    check(!memcmp(jd1, due1, sizeof jd1) && !memcmp(jd2, due2, sizeof jd2), "ct_take_run of %zu bytes leaves other parts", len);
    check(!memcmp(numbers, due, sizeof numbers), "ct_take_run of %zu bytes leaves other numbers", len);
}

static void take_says(int64_t code, uint32_t scale, const uint8_t *run, size_t len, const uint8_t *table, size_t table_len, size_t room1, size_t room2,
                      size_t room)
{
    uint8_t jd1[32], jd2[32], numbers[8];
    memset(jd1, UNTOUCHED, sizeof jd1);
    memset(jd2, UNTOUCHED, sizeof jd2);
    memset(numbers, UNTOUCHED, sizeof numbers);
    check(ct_take_run(scale, run, len, table, table_len, jd1, room1, jd2, room2, numbers, room) == code, "ct_take_run in scale %d is not %ld", (int)scale,
          (long)code);
    if (code < 0)
        check(untouched(jd1, jd1 + sizeof jd1) && untouched(jd2, jd2 + sizeof jd2) && untouched(numbers, numbers + sizeof numbers),
              "ct_take_run writes where it refuses %ld", (long)-code);
}

static void run_bytes_calls(void)
{
    static uint8_t run[RUN_BYTES + 80000];
    uint8_t twenty[CT_TABLE_BYTES];
    const uint32_t scales[] = {CT_UTC, CT_TAI, CT_TT, CT_GPS, CT_TCG};
    uint8_t *end = put_block(put_block(run, 1), 1);
    size_t len = (size_t)(end - run);
    memcpy(twenty, ct_no_rows, sizeof twenty);
    twenty[0] = 1;
    size_says(run, 0, 0, 0, 0, 0);
    size_says(run, len, 48, 2, 2, 0);
    size_says(run, 27, 24, 1, 1, 14);
    for (size_t cut = 0; cut <= len; cut++) run_by_blocks(CT_GPS, run, cut);
    /* the refusals in their order: the table's length, its rows, the scale, the places */
    take_says(-14, CT_UT1, run, len, twenty, CT_TABLE_BYTES - 1, 15, 15, 1);
    take_says(-20, CT_UT1, run, len, twenty, CT_TABLE_BYTES, 15, 15, 1);
    take_says(-18, CT_UT1, run, len, ct_no_rows, CT_TABLE_BYTES, 15, 15, 1);
    take_says(-18, 8, run, len, ct_no_rows, CT_TABLE_BYTES, 16, 16, 2);
    take_says(-11, CT_GPS, run, len, ct_no_rows, CT_TABLE_BYTES, 15, 16, 2);
    take_says(-11, CT_GPS, run, len, ct_no_rows, CT_TABLE_BYTES, 16, 15, 2);
    take_says(-11, CT_GPS, run, len, ct_no_rows, CT_TABLE_BYTES, 16, 16, 1);
    take_says(0, CT_TCG, run, 0, ct_no_rows, CT_TABLE_BYTES, 0, 0, 0);
    /* damaged blocks: sizes that differ, and one too many */
    end = put_block(end, 2);
    run[len + 4] = 3;
    size_says(run, (size_t)(end - run), 48, 2, 2, 12);
    put_block(run, 4000);
    size_says(run, 8 + 16 * 4000, 8 + 16 * 4000, 4000, 1, 0);
    put_block(run, 4001);
    size_says(run, 8 + 16 * 4001, 0, 0, 0, 13);
    for (int k = 0; k < 2000; k++) {
        uint8_t *at = run;
        uint32_t blocks = run_random(5);
        while (blocks--) at = put_block(at, run_random(20));
        len = (size_t)(at - run);
        if (run_random(3) == 0) len += run_random(12);
        if (run_random(3) == 0 && len) run[run_random((uint32_t)len)] ^= (uint8_t)(1u << run_random(8));
        run_by_blocks(scales[run_random(5)], run, len);
    }
}
