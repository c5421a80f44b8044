/* ct_dates_of_texts against the single call, byte by byte.

   dates TEXTS SEED: so many texts in runs of none to some thousand, with and without announced rows: in time order within a day and over midnights, about the ends of days of
   86,401 and 86,399 s, in random order, each with a fraction of 0 to 6 digits, a Z and blanks or none; one in some damaged in one byte, cut off, with a length above 27, or
   with the date of the text before and another time. Status 1 on a difference. */
#include "../leap_rows.h"
#include "celestial_time.h"
#include <stdio.h>
#include <stdlib.h>

#include "chance.h"

/* a text of a run of this kind, 0 to 3, and its length */
static uint8_t make(uint8_t *text, int kind, size_t i, uint64_t first)
{
    static const unsigned DAYS[][3] = {{2016, 12, 31}, {2017, 1, 1}, {2017, 12, 31}, {1972, 6, 30}, {2000, 2, 29}, {1999, 12, 31}, {1970, 1, 1}, {9999, 12, 31}};
    const unsigned *day = DAYS[kind == 2 ? chance() % 8 : first % 8];
    uint64_t millis = kind == 0 ? first / 8 % 86400000 + i : kind == 1 ? 86398000 + i : chance() % 86405000, minute = millis / 60000 < 1440 ? millis / 60000 : 1439;
    unsigned year = kind == 3 ? (unsigned)(chance() % 10000) : day[0];
    char made[96];
    int n = snprintf(made, sizeof made, "%s%04u-%02u-%02u%c%02u:%02u:%02u", chance() % 31 ? "" : " ", year % 10000, (kind == 3 ? (unsigned)(chance() % 14) : day[1]) % 100,
                     (kind == 3 ? (unsigned)(chance() % 33) : day[2]) % 100, chance() % 17 ? 'T' : ' ', (unsigned)(minute / 60) % 100, (unsigned)(minute % 60),
                     (unsigned)((millis - minute * 60000) / 1000) % 100);
    unsigned digits = (unsigned)(chance() % 4 ? 3 : chance() % 7);
    if (digits) n += snprintf(made + n, sizeof made - (size_t)n, ".%0*u", (int)digits, (unsigned)(digits == 3 ? millis % 1000 : chance() % 10));
    if (chance() % 5 == 0) made[n++] = 'Z';
    if (chance() % 29 == 0) made[n++] = '\t';
    if (n > 27) n = 27;
    memcpy(text, made, (size_t)n);
    if (chance() % 23 == 0) text[chance() % (uint64_t)n] = (uint8_t)(chance() % 3 ? '0' + chance() % 12 : chance());
    if (chance() % 37 == 0) n = (int)(chance() % (uint64_t)(n + 1));
    return chance() % 101 ? (uint8_t)n : (uint8_t)(28 + chance() % 228);
}

int main(int count, char **words)
{
    static uint8_t texts[27 * MOST], lengths[MOST], out[2][8 * MOST + AROUND], due[2][8 * MOST + AROUND], numbers[MOST + AROUND];
    const int32_t months[2] = {LAST_MONTH + 12, LAST_MONTH + 120}, seconds[2] = {LAST_SECONDS - 1, LAST_SECONDS};
    uint8_t table[CT_TABLE_BYTES], read[44];
    long left = count > 1 ? atol(words[1]) : 1000000, all = 0, refused = 0, differ = 0, sixties = 0;
    state = 88172645463325252u + (uint64_t)(count > 2 ? atol(words[2]) : 1);
    ct_table(months, seconds, 2, table);
    if (ct_check_table(table, sizeof table) != FIXED_ROWS + 2) return 2;
    while (left > 0) {
        size_t n = (size_t)(chance() % (MOST + 1)), i, k;
        const uint8_t *rows = chance() % 2 ? table : ct_no_rows;
        uint64_t first = chance();
        int kind = (int)(chance() % 4);
        int64_t code, none = 0;
        memset(texts, 0xa5, sizeof texts);
        for (i = 0; i < n; i++) lengths[i] = make(texts + 27 * i, kind, i, first);
        memset(out, 0xa5, sizeof out);
        memset(due, 0xa5, sizeof due);
        memset(numbers, 0xa5, sizeof numbers);
        code = ct_dates_of_texts(texts, 27 * n, lengths, n, rows, CT_TABLE_BYTES, out[0], 8 * n, out[1], 8 * n, numbers, n);
        for (i = 0; i < n; i++) {
            int64_t said = lengths[i] > 27 ? -15 : ct_utc_from_iso8601(texts + 27 * i, lengths[i], rows, CT_TABLE_BYTES, read, sizeof read);
            none += said < 0;
            if (said == 44) memcpy(due[0] + 8 * i, read + 28, 8), memcpy(due[1] + 8 * i, read + 36, 8), sixties += ct_float_at(read + 20) >= 60.0;
            if (numbers[i] != (said < 0 ? -said : 0)) differ++;
        }
        if (code != none || memcmp(out, due, sizeof out)) differ++;
        for (k = 0; k < AROUND; k++) differ += numbers[n + k] != 0xa5;
        left -= (long)n + 1;
        all += (long)n;
        refused += (long)none;
    }
    printf("ct_dates_of_texts: %ld texts, %ld refused, %ld with second 60, %ld differences\n", all, refused, sixties, differ);
    return differ != 0;
}
