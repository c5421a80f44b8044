/* Texts and listings by the supplied Rust and by ERFA, which have no call for a stamp block: the
   driver lists, and the library makes the text or its fields. */
#include <erfa.h>
#include <stdint.h>
#include <stdio.h>
#include <string.h>

#include "rust_calls.h"

typedef int64_t text_call(double jd1, double jd2, uint8_t *out, size_t out_len);

enum { MOST_TEXT = 32, MOST_LINE = 48, MOST_HEADER = 40 };

static void two_digits(int value, uint8_t *out)
{
    out[0] = (uint8_t)('0' + value / 10);
    out[1] = (uint8_t)('0' + value % 10);
}

/* The text of years 0 to 9999, which all inputs have: 23 bytes. */
static int64_t digits(const int ymd[3], const int time[4], uint8_t *out)
{
    memcpy(out, "0000-00-00T00:00:00.000", 23);
    two_digits(ymd[0] / 100, out);
    two_digits(ymd[0] % 100, out + 2);
    two_digits(ymd[1], out + 5);
    two_digits(ymd[2], out + 8);
    two_digits(time[0], out + 11);
    two_digits(time[1], out + 14);
    two_digits(time[2], out + 17);
    out[20] = (uint8_t)('0' + time[3] / 100);
    two_digits(time[3] % 100, out + 21);
    return 23;
}

static int64_t rust_text_by_hand(double jd1, double jd2, uint8_t *out, size_t out_len)
{
    int32_t fields[4];
    int64_t refused = rs_text_fields(jd1, jd2, fields);
    if (refused < 0) return refused;
    if (out_len < 23) return -11;
    /* A leap second belongs to the day's last minute. */
    int minute = fields[3] / 60000 < 1439 ? fields[3] / 60000 : 1439;
    int millis = fields[3] - minute * 60000;
    return digits(fields, (int[4]){minute / 60, minute % 60, millis / 1000, millis % 1000}, out);
}

/* ERFA's status -1 stands for two refusals; no input of this program meets either. */
static int64_t erfa_text_by_hand(double jd1, double jd2, uint8_t *out, size_t out_len)
{
    int ymd[3], time[4];
    if (eraD2dtf("UTC", 3, jd1, jd2, &ymd[0], &ymd[1], &ymd[2], time) < 0) return -6;
    if (out_len < 23) return -11;
    return digits(ymd, time, out);
}

static int64_t erfa_text(double jd1, double jd2, uint8_t *out, size_t out_len)
{
    int ymd[3], t[4];
    if (eraD2dtf("UTC", 3, jd1, jd2, &ymd[0], &ymd[1], &ymd[2], t) < 0) return -6;
    int length = snprintf((char *)out, out_len, "%04d-%02d-%02dT%02d:%02d:%02d.%03d", ymd[0], ymd[1], ymd[2],
                          t[0], t[1], t[2], t[3]);
    return length < (int)out_len ? length : -11;
}

/* A whole number in decimal digits; returns how many. */
static int decimal(unsigned value, uint8_t *out)
{
    uint8_t reversed[10];
    int count = 0;
    do {
        reversed[count++] = (uint8_t)('0' + value % 10);
        value /= 10;
    } while (value);
    for (int i = 0; i < count; i++) out[i] = reversed[count - 1 - i];
    return count;
}

static double float_at(const uint8_t *bytes)
{
    double x;
    memcpy(&x, bytes, 8);
    return x;
}

static uint8_t *line(unsigned i, double jd1, double jd2, text_call *text, unsigned *refused, uint8_t *at)
{
    at += decimal(i, at);
    *at++ = ' ';
    int64_t length = text(jd1, jd2, at, MOST_TEXT);
    if (length < 0) {
        memcpy(at, "refused ", 8);
        length = 8 + decimal((unsigned)-length, at + 8);
        ++*refused;
    }
    at += length;
    *at++ = '\n';
    return at;
}

/* The listing of a sound block. The header has the number of refused stamps, so it is written last,
   into room that is left before the lines. Returns where the listing begins. */
static uint8_t *list_block(const uint8_t *block, text_call *text, uint8_t *out, size_t *length)
{
    uint32_t stamps;
    unsigned refused = 0;
    uint8_t *at = out + MOST_HEADER;
    char header[MOST_HEADER + 1];
    memcpy(&stamps, block, 4);
    const uint8_t *jd1 = block + 8, *jd2 = block + 8 + 8 * (size_t)stamps;
    for (uint32_t i = 0; i < stamps; i++)
        at = line(i, float_at(jd1 + 8 * i), float_at(jd2 + 8 * i), text, &refused, at);
    int header_length = snprintf(header, sizeof header, "utc listing %u refused %u\n", stamps, refused);
    uint8_t *start = out + MOST_HEADER - header_length;
    memcpy(start, header, (size_t)header_length);
    *length = (size_t)(at - start);
    return start;
}
