/* ct_line_listing_part: the listing of small runs byte for byte, each refusal and their order, that a refused call writes nothing, and that every split into
   buffers joins to the same bytes. */
enum { LISTED = 700, LISTING_ROOM = 64 * LISTED };

static uint8_t listed_jd1[8 * LISTED], listed_jd2[8 * LISTED], listed_numbers[LISTED], listed_order[4 * LISTED], listed_work[2][4 * LISTED];

static void put_run(uint8_t *runs, int i, uint64_t stamps, uint64_t blocks, uint64_t refused, uint64_t named)
{
    const uint64_t n[4] = {stamps, blocks, refused, named};
    for (int j = 0; j < 4; j++)
        for (int k = 0; k < 8; k++) runs[32 * i + 8 * j + k] = (uint8_t)(n[j] >> 8 * k);
}

/* All parts into buffers of `room` bytes, joined; the answer is how many bytes there are. */
static size_t listed_all(uint32_t reasons, const uint8_t *runs, size_t n, size_t room, char *all)
{
    static uint8_t out[LISTING_ROOM];
    uint8_t cursor[CT_CURSOR_BYTES] = {0};
    size_t bytes = 0;
    int64_t k;
    do {
        memset(out, UNTOUCHED, sizeof out);
        k = ct_line_listing_part(reasons, runs, CT_RUNS_BYTES, listed_jd1, 8 * n, listed_jd2, 8 * n, listed_numbers, n, listed_order, 4 * n, ct_no_rows,
                                 CT_TABLE_BYTES, cursor, sizeof cursor, out, room);
        check(k >= 0 && (size_t)k <= room && bytes + (size_t)k <= LISTING_ROOM, "ct_line_listing_part says %ld into %zu bytes", (long)k, room);
        if (k < 0 || bytes + (size_t)k > LISTING_ROOM) return 0;
        check(untouched(out + k, out + room + 8), "ct_line_listing_part writes behind a part");
        memcpy(all + bytes, out, (size_t)k);
        bytes += (size_t)k;
    } while (k);
    return bytes;
}

/* A call with one argument changed; refused with `code`, and nothing is written. */
static void listing_refused(int64_t code, uint32_t reasons, const uint8_t *runs, size_t runs_len, size_t jd1_len, size_t jd2_len, size_t numbers_len,
                            size_t table_len, uint8_t line, size_t cursor_len, size_t room)
{
    uint8_t out[600], cursor[CT_CURSOR_BYTES + 1] = {0}, kept[sizeof cursor];
    cursor[0] = line;
    memcpy(kept, cursor, sizeof kept);
    memset(out, UNTOUCHED, sizeof out);
    check(ct_line_listing_part(reasons, runs, runs_len, listed_jd1, jd1_len, listed_jd2, jd2_len, listed_numbers, numbers_len, listed_order, 4 * numbers_len,
                               ct_no_rows, table_len, cursor, cursor_len, out, room) == code,
          "ct_line_listing_part says another code than %ld", (long)code);
    check(untouched(out, out + sizeof out) && !memcmp(cursor, kept, sizeof kept), "a refused ct_line_listing_part writes");
}

static void line_listing_calls(void)
{
    static char all[LISTING_ROOM], again[LISTING_ROOM];
    static const char due[] = "line up 2 runs\ngps 2 not finite 1 refused 0 left out 0\ntai 1 not finite 0 refused 0 left out 0 block 3 refused 16\n"
                              "gps 0 2000-01-01T11:59:28.000\ngps 1 refused 9\ntai 0 2000-01-01T23:59:28.000\nlined up 2 without text 0\n";
    const line_stamp three[3] = {{2451545.0, 0.0, 0}, {nan_float(), 0.0, 9}, {2451545.0, 0.5, 0}};
    const uint8_t places[3] = {0, 1, 2};
    uint8_t runs[CT_RUNS_BYTES] = {0};
    put_parts(three, 3, listed_jd1, listed_jd2, listed_numbers);
    for (size_t i = 0; i < 3; i++) listed_order[4 * i] = places[i];
    put_run(runs, 0, 2, 1, 0, 1);
    put_run(runs, 1, 1, 3, 16, 1);
    size_t n = listed_all(0, runs, 3, 600, all);
    check(n == sizeof due - 1 && !memcmp(all, due, n), "ct_line_listing_part has another listing of three stamps");

    listing_refused(-14, 2, runs, 95, 23, 24, 3, CT_TABLE_BYTES - 1, 0, 15, 549);
    listing_refused(-18, 2, runs, 95, 23, 24, 3, CT_TABLE_BYTES, 0, 15, 549);
    listing_refused(-14, 1, runs, 95, 23, 24, 3, CT_TABLE_BYTES, 0, 16, 549);
    listing_refused(-14, 1, runs, 96, 23, 24, 3, CT_TABLE_BYTES, 0, 15, 549);
    listing_refused(-14, 1, runs, 96, 23, 24, 3, CT_TABLE_BYTES, 0, 17, 549);
    listing_refused(-12, 1, runs, 96, 16, 24, 3, CT_TABLE_BYTES, 0, 16, 549);
    listing_refused(-12, 1, runs, 96, 24, 16, 3, CT_TABLE_BYTES, 0, 16, 549);
    listing_refused(-12, 1, runs, 96, 16, 16, 2, CT_TABLE_BYTES, 0, 16, 549);
    listing_refused(-11, 1, runs, 96, 24, 24, 3, CT_TABLE_BYTES, 0, 16, 549);
    listing_refused(-11, 0, runs, 96, 24, 24, 3, CT_TABLE_BYTES, 1, 16, 549);
    listing_refused(-11, 0, runs, 96, 24, 24, 3, CT_TABLE_BYTES, 5, 16, 0);
    listed_order[8] = 3; /* the third line names a stamp that is not there */
    listing_refused(-18, 0, runs, 96, 24, 24, 3, CT_TABLE_BYTES, 1, 16, 549);
    listing_refused(-18, 0, runs, 96, 24, 24, 3, CT_TABLE_BYTES, 3, 16, 600);
    listing_refused(-11, 0, runs, 96, 24, 24, 3, CT_TABLE_BYTES, 4, 16, 549);
    listing_refused(0, 0, runs, 96, 24, 24, 3, CT_TABLE_BYTES, 5, 16, 550);
    put_run(runs, 2, 1, 0, 0, 0);
    listing_refused(-12, 0, runs, 96, 24, 24, 3, CT_TABLE_BYTES, 0, 16, 600);
    put_run(runs, 2, UINT64_MAX, 0, 0, 0);
    listing_refused(-12, 0, runs, 96, 24, 24, 3, CT_TABLE_BYTES, 0, 16, 600);

    memset(runs, 0, sizeof runs);
    n = listed_all(0, runs, 0, CT_LINE_LISTING_BYTES, all);
    check(n == 41 && !memcmp(all, "line up 0 runs\nlined up 0 without text 0\n", n), "ct_line_listing_part has another listing of no run");

    /* 700 stamps, 200 in GPS and 300 in TAI, lined up; each seventh is refused */
    for (size_t i = 0; i < LISTED; i++) {
        const line_stamp one = {i % 50 == 49 ? 1e9 : 2451545.0 + (double)(i % 200), (double)i / 1024.0, i % 7 == 6 ? 9 : 0};
        put_parts(&one, 1, listed_jd1 + 8 * i, listed_jd2 + 8 * i, listed_numbers + i);
    }
    put_run(runs, 0, 200, 2, 0, 1);
    put_run(runs, 1, 300, 2, 0, 1);
    put_run(runs, 2, 200, 2, 0, 1);
    check(ct_lines_in_order(listed_jd1, sizeof listed_jd1, listed_jd2, sizeof listed_jd2, listed_numbers, LISTED, 200, 300, listed_order, sizeof listed_order,
                            listed_work[0], sizeof listed_work[0], listed_work[1], sizeof listed_work[1]) > 0,
          "ct_lines_in_order of 700 stamps is refused");
    for (uint32_t reasons = 0; reasons < 2; reasons++) {
        n = listed_all(reasons, runs, LISTED, 30000, all);
        check(n > 700 * 15, "ct_line_listing_part writes few bytes");
        for (size_t room = 550; room < 13000; room = room * 9 / 8 + 7) {
            size_t m = listed_all(reasons, runs, LISTED, room, again);
            check(m == n && !memcmp(all, again, n), "parts of %zu bytes join to another listing", room);
        }
    }
}
