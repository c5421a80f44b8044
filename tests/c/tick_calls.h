/* ct_place_ticks and ct_place_readings: answers, every refusal, and the order of two that would both hold. The milliseconds and millimetres are whole-number
   arithmetic by hand. */
enum { MOST_TICKS = 8, TICK_GUARD = 8 };

typedef struct {
    size_t count, length; /* how many numbers, and how many of their bytes are handed over */
    uint8_t bytes[8 * MOST_TICKS];
} tick_list;

static tick_list numbers(int count, ...)
{
    tick_list list = {0};
    va_list words;
    va_start(words, count);
    for (; (int)list.count < count; list.count++) {
        uint64_t n = va_arg(words, uint64_t);
        for (int k = 0; k < 8; k++) list.bytes[8 * list.count + (size_t)k] = (uint8_t)(n >> 8 * k);
    }
    va_end(words);
    list.length = 8 * list.count;
    return list;
}

static tick_list cut(tick_list list, size_t bytes)
{
    list.length -= bytes;
    return list;
}

/* Asks with `room` bytes; number 0 says that the wanted milliseconds are due. Bytes behind them, and all at a refusal, stay. */
static void places(int number, tick_list due, tick_list passes, tick_list millis, tick_list ticks, size_t place_bytes)
{
    uint8_t got[8 * MOST_TICKS + TICK_GUARD], want[sizeof got];
    int64_t code;
    memset(got, UNTOUCHED, sizeof got);
    memset(want, UNTOUCHED, sizeof want);
    if (!number) memcpy(want, due.bytes, due.length);
    code = ct_place_ticks(passes.bytes, passes.length, millis.bytes, millis.length, ticks.bytes, ticks.length, got, place_bytes);
    check(code == (number ? -number : (int64_t)due.length), "ct_place_ticks says %ld", (long)code);
    check(!memcmp(got, want, sizeof got), "ct_place_ticks leaves other bytes");
}

/* Asks for the places of readings whose numbers are `given`, with `place_bytes` bytes; `due` and `left` are what is left in the two lists, a due number of
   UNDUE being a place that stays. Bytes behind, and all at a refusal, stay. */
static void readings(int64_t code, tick_list due, const char *left, tick_list passes, tick_list marks, tick_list millis, const char *given, size_t place_bytes)
{
    uint8_t got[8 * MOST_TICKS + TICK_GUARD], want[sizeof got], said[MOST_TICKS + TICK_GUARD], numbered[sizeof said];
    size_t count = strlen(given);
    int64_t answer;
    memset(got, UNTOUCHED, sizeof got);
    memset(want, UNTOUCHED, sizeof want);
    memset(said, UNTOUCHED, sizeof said);
    memset(numbered, UNTOUCHED, sizeof numbered);
    for (size_t i = 0; i < due.count; i++)
        if (memcmp(due.bytes + 8 * i, "\377\377\377\377\377\377\377\377", 8)) memcpy(want + 8 * i, due.bytes + 8 * i, 8);
    for (size_t i = 0; i < count; i++) said[i] = (uint8_t)(given[i] - '0'), numbered[i] = (uint8_t)(left[i] - '0');
    answer = ct_place_readings(passes.bytes, passes.length, marks.bytes, marks.length, millis.bytes, millis.length, got, place_bytes, said, count);
    check(answer == code, "ct_place_readings says %ld", (long)answer);
    check(!memcmp(got, want, sizeof got), "ct_place_readings leaves other places");
    check(!memcmp(said, numbered, sizeof said), "ct_place_readings leaves other numbers");
}

#define N(...) numbers(sizeof((uint64_t[]){__VA_ARGS__}) / 8, __VA_ARGS__)
#define U(n) ((uint64_t)(n))
#define TOP U(0x10000000000)

static void tick_calls(void)
{
    tick_list none = numbers(0), passes = N(U(0), U(1000), U(3000)), millis = N(U(0), U(500), U(501));
    tick_list ticks = N(U(3000), U(3), U(0), U(1000), U(999), U(2999), U(3));
    tick_list due = N(U(501), U(1), U(0), U(500), U(499), U(500), U(1));
    tick_list wide = N(U(0), TOP - 1), all = N(TOP - 2), below = N(TOP - 2);
    places(0, due, passes, millis, ticks, 56);
    places(0, due, passes, millis, ticks, 63);
    places(0, none, passes, millis, none, 0);
    places(0, below, wide, wide, all, 8);
    places(0, N(U(1)), N(U(0), U(1000)), N(U(0), U(500)), N(U(3)), 8); /* the header's examples */
    places(25, none, N(U(0), U(1000)), N(U(0), U(500)), N(U(0), U(1001)), 16);
    places(11, none, N(U(0), U(1000)), N(U(0), U(500)), N(U(0), U(1001)), 15);
    places(24, none, N(U(0), U(0)), N(U(0), U(500)), N(U(0), U(1001)), 16);
    places(14, none, cut(passes, 1), millis, ticks, 0);
    places(14, none, passes, cut(millis, 7), ticks, 0);
    places(14, none, passes, millis, cut(ticks, 4), 0);
    places(11, none, N(U(5), U(4)), millis, ticks, 55);
    places(23, none, N(U(5), U(4)), millis, ticks, 56);
    places(23, none, cut(passes, 16), cut(millis, 16), ticks, 56);
    places(23, none, none, none, none, 0);
    places(23, none, N(TOP, U(0)), N(U(0), U(1)), ticks, 56);
    places(23, none, N(U(0), U(1)), N(U(0), TOP), ticks, 56);
    places(24, none, N(U(0), U(0)), N(U(0), U(1)), N(U(7)), 8);
    places(24, none, N(U(0), U(1)), N(U(1), U(1)), N(U(7)), 8);
    places(24, none, N(U(0), U(2), U(1)), N(U(0), U(1), U(2)), none, 0);
    places(25, none, passes, millis, N(U(1), U(3001)), 16);
    places(25, none, N(U(2), U(4)), N(U(0), U(9)), N(U(3), U(1)), 16);
    places(25, none, passes, millis, N(TOP), 8);
}

#define UNDUE (~U(0))
#define OUT "I" /* '0' + 25 */

static void reading_calls(void)
{
    tick_list none = numbers(0), passes = N(U(1000), U(2000), U(4000)), marks = N(U(0), U(500), U(2500)), wide = N(U(0), TOP - 1);
    tick_list millis = N(U(999), U(1000), U(1999), U(2000), U(3001), U(4000), U(4001)), two = N(U(1003), U(2001));
    tick_list due = N(UNDUE, U(0), U(499), U(500), U(1501), U(2500), UNDUE);
    readings(2, due, OUT "00000" OUT, passes, marks, millis, "0000000", 56);
    readings(2, due, OUT "00000" OUT, passes, marks, millis, "0000000", 63);
    readings(3, N(UNDUE, U(0), UNDUE, U(500), UNDUE), "90609", passes, marks, N(U(999), U(1000), U(1999), U(2000), U(3001)), "90609", 40);
    readings(0, none, "", passes, marks, none, "", 0);
    readings(1, N(TOP - 2, TOP - 1, UNDUE), "00" OUT, wide, wide, N(TOP - 2, TOP - 1, TOP), "000", 24);
    readings(2, N(UNDUE, UNDUE), OUT OUT, passes, marks, N(~U(0), U(0)), "00", 16);
    readings(1, N(U(1), UNDUE), "0" OUT, N(U(1000), U(2000)), N(U(0), U(500)), two, "00", 16); /* the header's examples */
    readings(-11, none, "00", N(U(1000), U(2000)), N(U(0), U(500)), two, "00", 15);
    readings(-12, none, "000", N(U(1000), U(2000)), N(U(0), U(500)), two, "000", 15);
    readings(-24, none, "00", N(U(1000), U(1000)), N(U(0), U(500)), two, "00", 16);
    readings(-14, none, "0", cut(passes, 1), marks, two, "0", 0);
    readings(-14, none, "0", passes, cut(marks, 7), two, "0", 0);
    readings(-14, none, "0", passes, marks, cut(two, 4), "0", 0);
    readings(-12, none, "0", passes, marks, two, "0", 0);
    readings(-11, none, "09", passes, cut(marks, 8), two, "09", 8);
    readings(-23, none, "09", passes, cut(marks, 8), two, "09", 16);
    readings(-23, none, "09", cut(passes, 16), cut(marks, 16), two, "09", 16);
    readings(-23, none, "09", N(TOP, U(0)), N(U(0), U(1)), two, "09", 16);
    readings(-23, none, "09", N(U(0), U(1)), N(U(0), TOP), two, "09", 16);
    readings(-24, none, "09", N(U(0), U(1)), N(U(1), U(1)), two, "09", 16);
    readings(-24, none, "", N(U(0), U(2), U(1)), N(U(0), U(1), U(2)), none, "", 0);
}
