/* The buffer that is lent to a call, what must stand in it afterwards, and the judge of both. */
#include "check.h"
#include "patterns.h"

enum { GUARD = 16, ROOM = 46, UNTOUCHED = 0xa5 };

static uint8_t lent[GUARD + ROOM + GUARD], wanted[ROOM];
static size_t wanted_length, room;

static uint8_t *fresh(void)
{
    memset(lent, UNTOUCHED, sizeof lent);
    return lent + GUARD;
}

/* What a call did that was lent `room` bytes; `number` 0 says that the wanted bytes are due. */
static void judge(const char *call, int number, int64_t code)
{
    uint8_t due[sizeof lent];
    int64_t due_code = number ? -number : room < wanted_length ? -11 : (int64_t)wanted_length;
    memset(due, UNTOUCHED, sizeof due);
    if (due_code > 0) memcpy(due + GUARD, wanted, wanted_length);
    check(code == due_code, "%s with %d bytes lent says %ld, not %ld", call, (int)room, (long)code, (long)due_code);
    check(!memcmp(due, lent, sizeof due), "%s with %d bytes lent leaves other bytes", call, (int)room);
}

/* Asks with every length of the buffer from 0 to ROOM. */
#define REFUSES(number, name, ...)       \
    for (room = 0; room <= ROOM; room++) \
    judge(#name "(" #__VA_ARGS__ ")", number, name(__VA_ARGS__, fresh(), room))
#define GIVES(answer, name, ...) \
    do {                         \
        answer;                  \
        REFUSES(0, name, __VA_ARGS__); \
    } while (0)

/* A text that is read. */
#define TEXT(words) (const uint8_t *)(words), sizeof(words) - 1

/* The table of a call that lends no rows. */
#define NO_ROWS ct_no_rows, CT_TABLE_BYTES

/* Calls without a buffer. */
#define IS(value, call) check((call) == (value), #call " is not " #value)
#define IS_FLOAT(value, call) check(ct_opaque_bits(call) == ct_opaque_bits(value), #call " is not " #value)
#define IS_NAN(call) check((ct_opaque_bits(call) & ~SIGN) > INFINITE, #call " is not a NaN")

/* ---- the wanted bytes */

static void put(uint64_t pattern, int bytes)
{
    for (; bytes > 0; bytes--, pattern >>= 8) wanted[wanted_length++] = (uint8_t)pattern;
}

static void seconds(double x)
{
    wanted_length = 0;
    put(ct_opaque_bits(x), 8);
}

static void parts(double jd1, double jd2)
{
    seconds(jd1);
    put(ct_opaque_bits(jd2), 8);
}

/* The same with the rule of a call that tells it. */
static void put_rule(int kind, int row)
{
    put((uint32_t)kind, 4);
    put((uint32_t)row, 4);
}

static void seconds_by(double x, int kind, int row)
{
    seconds(x);
    put_rule(kind, row);
}

static void parts_by(double jd1, double jd2, int kind, int row)
{
    parts(jd1, jd2);
    put_rule(kind, row);
}

static void day(int32_t year, int32_t month, int32_t of_month)
{
    wanted_length = 0;
    put((uint32_t)year, 4);
    put((uint32_t)month, 4);
    put((uint32_t)of_month, 4);
}

static void two_numbers(uint32_t a, uint32_t b)
{
    wanted_length = 0;
    put(a, 4);
    put(b, 4);
}

static void day_and_fraction(int32_t year, int32_t month, int32_t of_month, double fraction)
{
    day(year, month, of_month);
    put(ct_opaque_bits(fraction), 8);
}

static void text(const char *shown)
{
    wanted_length = strlen(shown);
    memcpy(wanted, shown, wanted_length);
}

/* Each text with room for its rule, for what is asked of the text alone. */
typedef int64_t text_call(double, double, const uint8_t *, size_t, uint8_t *, size_t, uint8_t *, size_t);
typedef int64_t plain_text(double, double, const uint8_t *, size_t, uint8_t *, size_t);
#define TEXT_ALONE(name, call) \
    static int64_t name(double jd1, double jd2, const uint8_t *table, size_t table_len, uint8_t *out, size_t out_len) \
    { \
        uint8_t rule[CT_RULE_BYTES]; \
        return call(jd1, jd2, table, table_len, out, out_len, rule, sizeof rule); \
    }
TEXT_ALONE(text_of, ct_to_iso8601)
TEXT_ALONE(even_of, ct_to_iso8601_half_even)
TEXT_ALONE(expanded_of, ct_to_iso8601_expanded)

/* And what it puts into a buffer for the rule: `number` 0 says that kind and row are due. No byte asks for no rule; with too few for either both stay. */
static void told_by(const char *name, text_call *call, const char *shown, int number, int kind, int row, double jd1, double jd2, const uint8_t *table, size_t table_len)
{
    size_t length;
    for (length = 0; length <= CT_RULE_BYTES + 2; length++)
        for (room = 0; room <= ROOM; room++) {
            uint8_t rule[CT_RULE_BYTES + 3], due[CT_RULE_BYTES + 3];
            size_t due_length;
            int64_t code;
            memset(rule, UNTOUCHED, sizeof rule);
            memset(due, UNTOUCHED, sizeof due);
            wanted_length = 0;
            put_rule(kind, row);
            due_length = strlen(shown);
            if (!number && length >= CT_RULE_BYTES && room >= due_length) memcpy(due, wanted, CT_RULE_BYTES);
            text(shown);
            code = call(jd1, jd2, table, table_len, fresh(), room, rule, length);
            judge(name, number ? number : length && length < CT_RULE_BYTES ? 11 : 0, code);
            check(!memcmp(due, rule, sizeof due), "%s: the rule of %s in %d bytes", name, shown, (int)length);
        }
}

#define told(...) told_by("ct_to_iso8601", ct_to_iso8601, __VA_ARGS__)

static void six_fields(int32_t year, int32_t month, int32_t of_month, int32_t hour, int32_t minute, double second)
{
    day(year, month, of_month);
    put((uint32_t)hour, 4);
    put((uint32_t)minute, 4);
    put(ct_opaque_bits(second), 8);
}

/* behind what is wanted already */
static void and_parts(double jd1, double jd2)
{
    put(ct_opaque_bits(jd1), 8);
    put(ct_opaque_bits(jd2), 8);
}
