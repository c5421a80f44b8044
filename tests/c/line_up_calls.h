/* ct_line_up and ct_lines_in_order: three runs with a tie across them, one that is not finite, one refused before and one left out; the refusals in their
   order, and what stays. */
enum { LINE_STAMPS = 9, LINE_ROOM = 4 * LINE_STAMPS, LINE_GUARD = 8 };

typedef struct {
    double jd1, jd2;
    uint8_t number;
} line_stamp;

static void put_parts(const line_stamp *stamps, size_t count, uint8_t *jd1, uint8_t *jd2, uint8_t *numbers)
{
    for (size_t i = 0; i < count; i++) {
        uint64_t a = ct_bits_of(stamps[i].jd1), b = ct_bits_of(stamps[i].jd2);
        for (int k = 0; k < 8; k++) {
            jd1[8 * i + (size_t)k] = (uint8_t)(a >> 8 * k);
            jd2[8 * i + (size_t)k] = (uint8_t)(b >> 8 * k);
        }
        numbers[i] = stamps[i].number;
    }
}

static int untouched(const uint8_t *at, const uint8_t *end)
{
    while (at < end && *at == UNTOUCHED) at++;
    return at == end;
}

typedef int64_t line_call(const uint8_t *, size_t, const uint8_t *, size_t, uint8_t *, size_t, uint64_t, uint64_t, uint8_t *, size_t, uint8_t *, size_t,
                          uint8_t *, size_t);

/* With `cut` bytes less of jd1 and `room` bytes of out, `room1` and `room2` of the work areas; `code` is due, and where it is not refused `many` places and
   the numbers. */
static void lines_by(line_call *call, const char *name, int64_t code, const uint8_t *places, size_t many, const uint8_t *numbers_due, const line_stamp *stamps,
                     size_t cut, uint64_t first, uint64_t second, size_t room, size_t room1, size_t room2)
{
    uint8_t jd1[8 * LINE_STAMPS], jd2[8 * LINE_STAMPS], numbers[LINE_STAMPS], out[LINE_ROOM + LINE_GUARD];
    uint8_t want_numbers[LINE_STAMPS], want[sizeof out], work1[sizeof out], work2[sizeof out];
    put_parts(stamps, LINE_STAMPS, jd1, jd2, numbers);
    memcpy(want_numbers, code < 0 ? numbers : numbers_due, sizeof numbers);
    memset(out, UNTOUCHED, sizeof out);
    memset(want, UNTOUCHED, sizeof want);
    memset(work1, UNTOUCHED, sizeof work1);
    memset(work2, UNTOUCHED, sizeof work2);
    for (size_t i = 0; code >= 0 && i < many; i++) {
        memset(want + 4 * i, 0, 4);
        want[4 * i] = places[i];
    }
    check(call(jd1, sizeof jd1 - cut, jd2, sizeof jd2, numbers, sizeof numbers, first, second, out, room, work1, room1, work2, room2) == code,
          "%s says another code than %ld", name, (long)code);
    check(!memcmp(out, want, sizeof out), "%s leaves other places", name);
    check(!memcmp(numbers, want_numbers, sizeof numbers), "%s leaves other numbers", name);
    check(untouched(work1 + room1, work1 + sizeof work1), "%s writes behind the first work area", name);
    check(untouched(work2 + room2, work2 + sizeof work2), "%s writes behind the second work area", name);
}

/* Both calls: `many` ordered places, and the places of all lines. */
static void lines_up(int64_t code, const uint8_t *places, const uint8_t *lines, const uint8_t *numbers_due, const line_stamp *stamps, size_t cut,
                     uint64_t first, uint64_t second, size_t room, size_t room1, size_t room2)
{
    lines_by(ct_line_up, "ct_line_up", code, places, code < 0 ? 0 : (size_t)code, numbers_due, stamps, cut, first, second, room, room1, room2);
    lines_by(ct_lines_in_order, "ct_lines_in_order", code, lines, LINE_STAMPS, numbers_due, stamps, cut, first, second, room, room1, room2);
}

/* The example of the header, and no stamp at all. */
static void small_orders(void)
{
    const line_stamp stamps[4] = {{2451545.0, 0.0, 0}, {2451546.0, 0.0, 0}, {2451545.5, 0.0, 0}, {2451545.25, 0.0, 0}};
    uint8_t jd1[32], jd2[32], numbers[4], order[16], work1[16], work2[16];
    const uint8_t due[4] = {0, 1, 3, 2};
    put_parts(stamps, 4, jd1, jd2, numbers);
    check(ct_lines_in_order(jd1, 32, jd2, 32, numbers, 4, 5, 0, order, 16, work1, 16, work2, 16) == -14, "ct_lines_in_order takes counts past the length");
    check(ct_lines_in_order(jd1, 32, jd2, 32, numbers, 4, 3, 1, order, 16, work1, 16, work2, 16) == 3, "ct_lines_in_order orders another number");
    for (size_t i = 0; i < 4; i++) check(order[4 * i] == due[i] && !order[4 * i + 1], "ct_lines_in_order has another place in line %zu", i);
    check(numbers[0] == 0 && numbers[1] == 17 && numbers[2] == 0 && numbers[3] == 0, "ct_lines_in_order leaves other numbers");
    check(ct_lines_in_order(jd1, 0, jd2, 0, numbers, 0, 0, 0, order, 0, work1, 0, work2, 0) == 0, "ct_lines_in_order of no stamp is not 0");
}

static void line_up_calls(void)
{
    const line_stamp stamps[LINE_STAMPS] = {
        {2451545.0, 0.25, 0}, {2451545.0, 0.5, 0}, {2451545.0, 0.125, 0},             /* the last is before the first: 17 */
        {2451544.75, 0.5, 0}, {2451545.0, nan_float(), 0}, {2451545.0, 0.75, 0},      /* the first ties with place 0; one that is not finite */
        {2451545.0, 0.0, 0}, {2451545.0, 0.5, 6}, {2451544.5, 1.0, 0},                /* the second was refused; the last ties with place 1 */
    };
    const uint8_t places[] = {6, 0, 3, 1, 8, 5}, after[LINE_STAMPS] = {0, 0, 17, 0, 9, 0, 0, 6, 0};
    const uint8_t lines[LINE_STAMPS] = {6, 7, 0, 3, 4, 1, 2, 8, 5};
    const uint8_t one_run[] = {2, 3, 8}, left_out[LINE_STAMPS] = {17, 17, 0, 0, 9, 17, 17, 6, 0}, all[LINE_STAMPS] = {0, 1, 2, 3, 4, 5, 6, 7, 8};
    lines_up(6, places, lines, after, stamps, 0, 3, 3, LINE_ROOM, LINE_ROOM, LINE_ROOM);
    lines_up(6, places, lines, after, stamps, 0, 3, 3, LINE_ROOM + 3, LINE_ROOM + 1, LINE_ROOM + 7);
    lines_up(3, one_run, all, left_out, stamps, 0, 9, 0, LINE_ROOM, LINE_ROOM, LINE_ROOM);
    lines_up(3, one_run, all, left_out, stamps, 0, 0, 9, LINE_ROOM, LINE_ROOM, LINE_ROOM);
    lines_up(-11, NULL, NULL, NULL, stamps, 0, 3, 3, LINE_ROOM - 1, LINE_ROOM, LINE_ROOM);
    lines_up(-11, NULL, NULL, NULL, stamps, 0, 3, 3, LINE_ROOM, LINE_ROOM - 1, LINE_ROOM);
    lines_up(-11, NULL, NULL, NULL, stamps, 0, 3, 3, LINE_ROOM, LINE_ROOM, LINE_ROOM - 1);
    lines_up(-14, NULL, NULL, NULL, stamps, 0, 3, 7, 0, 0, 0);
    lines_up(-14, NULL, NULL, NULL, stamps, 0, UINT64_MAX, 2, 0, 0, 0);
    lines_up(-12, NULL, NULL, NULL, stamps, 8, 3, 7, 0, 0, 0);
    lines_up(-14, NULL, NULL, NULL, stamps, 1, 3, 7, 0, 0, 0);
    small_orders();
}
