/* Makes requests.
     generate CALL-NUMBER-OR-LAYER COUNT SEED
   writes COUNT requests of 64 bytes for the call, or for each call of the layer.
   The same arguments give the same bytes on every machine. The first requests
   of a call are the cases that the papers name, then every value of the edge
   lists in every place, then a mixture by chance. */
#include <stdint.h>
#include <stdio.h>
#include <stdlib.h>
#include <string.h>

#include "calls.h"
#include "draw.h"

static int put_date(uint64_t *to, pair p)
{
    to[0] = bits(p.jd1);
    to[1] = bits(p.jd2);
    return 2;
}

static int put_ymd(uint64_t *to, ymd d)
{
    to[0] = (uint64_t)(int64_t)d.year;
    to[1] = (uint64_t)(int64_t)d.month;
    to[2] = (uint64_t)(int64_t)d.day;
    return 3;
}

static int put_float(uint64_t *to, double x)
{
    to[0] = bits(x);
    return 1;
}

static int put_fields(uint64_t *to)
{
    ymd d = any_ymd();
    int last_minute = below(2) == 0;
    put_ymd(to, (ymd){d.year, byte_field(d.month), byte_field(d.day)});
    to[3] = (uint64_t)(last_minute ? 23 : clock_field(23));
    to[4] = (uint64_t)(last_minute ? 59 : clock_field(59));
    to[5] = bits(any_second());
    return 6;
}

static int put_hms(uint64_t *to)
{
    int last_minute = below(2) == 0;
    to[0] = (uint64_t)(last_minute ? 23 : clock_field(23));
    to[1] = (uint64_t)(last_minute ? 59 : clock_field(59));
    to[2] = bits(any_second());
    to[3] = bits(below(4) ? SECOND_LIMITS[below(SECOND_LIMIT_COUNT)] : 0.0);
    return 4;
}

/* Whole dates and milliseconds that the text writer can meet. */
static int put_millis(uint64_t *to)
{
    ymd d = any_ymd();
    d.year = d.year < -4799 || d.year > 2733194 ? (int32_t)between(-4799, 2733194) : d.year;
    d.month = d.month < 1 || d.month > 12 ? (int32_t)between(1, 12) : d.month;
    d.day = d.day < 1 || d.day > 28 ? (int32_t)between(1, 28) : d.day;
    put_ymd(to, d);
    to[3] = (uint64_t)(below(4) ? between(0, 86400999) : between(86399000, 86400999));
    if (below(3) == 0) to[3] -= to[3] % 60000;
    return 4;
}

/* A sum and its correction as the calendar meets them. */
static int put_kahan(uint64_t *to)
{
    double sum = below(3) ? unit() : nudged((double)between(-4, 8) / 8.0);
    double correction = below(3) ? random_size(-110, -53) : 0.0;
    if (below(8) == 0) sum = any_small();
    to[0] = bits(sum);
    to[1] = bits(correction);
    return 2;
}

/* Fills the words for one argument kind of calls.txt; gives how many. */
static int put_kind(const char *kind, uint64_t *to, const uint64_t *first)
{
    if (!strcmp(kind, "x")) return put_float(to, any_float());
    if (!strcmp(kind, "date")) return put_date(to, any_date());
    if (!strcmp(kind, "other"))
        return put_date(to, other_date((pair){from_bits(first[0]), from_bits(first[1])}));
    if (!strcmp(kind, "offset")) return put_float(to, any_offset());
    if (!strcmp(kind, "days")) return put_float(to, any_days());
    if (!strcmp(kind, "jyear")) return put_float(to, any_julian_year());
    if (!strcmp(kind, "sum")) return put_float(to, any_sum());
    if (!strcmp(kind, "fraction")) return put_float(to, any_fraction());
    if (!strcmp(kind, "small")) {
        put_float(to, any_small());
        return 1 + put_float(to + 1, any_small());
    }
    if (!strcmp(kind, "kahan")) return put_kahan(to);
    if (!strcmp(kind, "ymd")) return put_ymd(to, any_ymd());
    if (!strcmp(kind, "ym")) {
        uint64_t three[3];
        put_ymd(three, any_ymd());
        memcpy(to, three, 16);
        return 2;
    }
    if (!strcmp(kind, "year")) {
        to[0] = (uint64_t)(int64_t)(below(2) ? any_year() : any_i32());
        return 1;
    }
    if (!strcmp(kind, "fields")) return put_fields(to);
    if (!strcmp(kind, "hms")) return put_hms(to);
    if (!strcmp(kind, "unix")) {
        to[0] = (uint64_t)any_unix();
        to[1] = any_nanos();
        return 2;
    }
    if (!strcmp(kind, "day")) {
        to[0] = (uint64_t)(below(4) ? between(-68570, 1000000000)
                                    : below(2) ? between(-68570, -60000) : between(1721000, 2500000));
        return 1;
    }
    if (!strcmp(kind, "millis")) return put_millis(to);
    if (!strcmp(kind, "room")) {
        to[0] = below(2) ? 32 : below(3) ? (uint64_t)between(20, 28) : below(33);
        return 1;
    }
    fprintf(stderr, "generate: unknown argument kind %s\n", kind);
    exit(2);
}

static void put_all(const call_row *call, record *r)
{
    char kinds[64];
    int at = 1;
    memset(r, 0, sizeof *r);
    r->word[0] = (uint64_t)call->number;
    snprintf(kinds, sizeof kinds, "%s", call->arguments);
    for (char *kind = strtok(kinds, " "); kind; kind = strtok(NULL, " "))
        at += put_kind(kind, &r->word[at], &r->word[1]);
}

static int has(const call_row *call, const char *kind)
{
    return strstr(call->arguments, kind) != NULL;
}

static int first_kind_is(const call_row *call, const char *kind)
{
    size_t length = strlen(kind);
    char end = call->arguments[length];
    return !strncmp(call->arguments, kind, length) && (end == 0 || end == ' ');
}

/* Overwrites the request with the i-th edge; 0 when there are no more. What the
   edge does not say stays as chance has put it. */
static int put_edge(const call_row *call, size_t i, record *r)
{
    if (first_kind_is(call, "x")) {
        if (i >= EDGE_COUNT) return 0;
        r->word[1] = bits(EDGES[i]);
        return 1;
    }
    if (first_kind_is(call, "date")) {
        if (has(call, "other")) { /* sums that are not finite */
            if (i < NOT_FINITE_PAIR_COUNT) {
                const date_pair *p = &NOT_FINITE_PAIRS[i];
                r->word[1] = bits(p->jd1);
                r->word[2] = bits(p->jd2);
                r->word[3] = bits(p->other1);
                r->word[4] = bits(p->other2);
                return 1;
            }
            i -= NOT_FINITE_PAIR_COUNT;
        }
        /* the papers' pairs, then each edge in each place beside a plain part */
        if (i < NAMED_DATE_COUNT) {
            r->word[1] = bits(NAMED_DATES[i].jd1);
            r->word[2] = bits(NAMED_DATES[i].jd2);
            if (has(call, "room")) r->word[3] = i % 3 ? 32 : 22 + i / 3 % 5;
            if (has(call, "offset")) r->word[3] = bits(NAMED_OFFSETS[i % NAMED_OFFSET_COUNT]);
            return 1;
        }
        i -= NAMED_DATE_COUNT;
        if (has(call, "other")) { /* each beside itself, and with its parts exchanged */
            if (i < 2 * NAMED_DATE_COUNT) {
                const named_date *d = &NAMED_DATES[i / 2];
                r->word[1] = bits(d->jd1);
                r->word[2] = bits(d->jd2);
                r->word[3] = bits(i % 2 ? d->jd2 : d->jd1);
                r->word[4] = bits(i % 2 ? d->jd1 : d->jd2);
                return 1;
            }
            i -= 2 * NAMED_DATE_COUNT;
        }
        if (i < SOFA_DATE_COUNT) {
            r->word[1] = bits(SOFA_DATES[i].jd1);
            r->word[2] = bits(SOFA_DATES[i].jd2);
            if (has(call, "offset")) r->word[3] = bits(SOFA_DATES[i].offset);
            return 1;
        }
        i -= SOFA_DATE_COUNT;
        if (has(call, "room")) { /* every length for texts of 23 to 26 bytes */
            if (i < 33 * TEXT_LENGTH_COUNT) {
                r->word[1] = bits(TEXT_LENGTHS[i % TEXT_LENGTH_COUNT]);
                r->word[2] = bits(0.25);
                r->word[3] = i / TEXT_LENGTH_COUNT;
                return 1;
            }
            i -= 33 * TEXT_LENGTH_COUNT;
        }
        if (i < 2 * EDGE_COUNT) {
            r->word[1 + i % 2] = bits(EDGES[i / 2]);
            r->word[2 - i % 2] = bits(i % 3 ? 2451545.0 : 0.25);
            return 1;
        }
        i -= 2 * EDGE_COUNT;
        if ((has(call, "offset") || has(call, "days")) && i < EDGE_COUNT) {
            r->word[1] = bits(2451544.5);
            r->word[2] = bits(0.25);
            r->word[3] = bits(EDGES[i]);
            return 1;
        }
        return 0;
    }
    if (first_kind_is(call, "ymd") || first_kind_is(call, "ym")) {
        if (i >= NAMED_DAY_COUNT + 2 * TABLE_EVE_COUNT) return 0;
        ymd d;
        if (i < NAMED_DAY_COUNT)
            d = (ymd){NAMED_DAYS[i].year, NAMED_DAYS[i].month, NAMED_DAYS[i].day};
        else if ((i -= NAMED_DAY_COUNT) < TABLE_EVE_COUNT)
            d = (ymd){TABLE_EVES[i].year, TABLE_EVES[i].month, TABLE_EVES[i].day};
        else
            d = (ymd){TABLE_STARTS[i - TABLE_EVE_COUNT].year, TABLE_STARTS[i - TABLE_EVE_COUNT].month, 1};
        uint64_t three[3];
        put_ymd(three, d);
        memcpy(&r->word[1], three, first_kind_is(call, "ym") ? 16 : 24);
        if (has(call, "fraction"))
            r->word[4] = bits(NAMED_FRACTIONS[i % NAMED_FRACTION_COUNT]);
        return 1;
    }
    if (first_kind_is(call, "fields")) {
        if (i >= NAMED_TIME_COUNT) return 0;
        const named_time *t = &NAMED_TIMES[i];
        put_ymd(&r->word[1], (ymd){t->year, t->month, t->day});
        r->word[4] = (uint64_t)t->hour;
        r->word[5] = (uint64_t)t->minute;
        r->word[6] = bits(t->second);
        return 1;
    }
    if (first_kind_is(call, "unix")) {
        if (i >= LONG_EDGE_COUNT) return 0;
        r->word[1] = (uint64_t)LONG_EDGES[i];
        r->word[2] = i % 4 == 0 ? 0 : i % 4 == 1 ? 999999999 : i % 4 == 2 ? 1000000000 : 500000000;
        return 1;
    }
    if (first_kind_is(call, "offset") || first_kind_is(call, "jyear") || first_kind_is(call, "sum")) {
        if (i >= EDGE_COUNT) return 0;
        r->word[1] = bits(EDGES[i]);
        return 1;
    }
    return 0;
}

static void make(const call_row *call, long count, uint64_t seed)
{
    state = seed * 1000003u + (uint64_t)call->number;
    next();
    size_t edges = 0;
    int more = 1;
    for (long i = 0; i < count; i++) {
        record r;
        put_all(call, &r);
        if (more) more = put_edge(call, edges++, &r);
        fwrite(&r, sizeof r, 1, stdout);
    }
}

int main(int argc, char **argv)
{
    if (argc != 4) {
        fprintf(stderr, "generate CALL-NUMBER-OR-LAYER COUNT SEED\n");
        return 2;
    }
    int found = 0;
    for (int i = 0; i < CALL_COUNT; i++) {
        char number[16];
        snprintf(number, sizeof number, "%d", CALLS[i].number);
        if (strcmp(argv[1], number) && strcmp(argv[1], CALLS[i].layer)) continue;
        found = 1;
        make(&CALLS[i], strtol(argv[2], NULL, 10), strtoull(argv[3], NULL, 10));
    }
    if (!found) fprintf(stderr, "generate: no call or layer %s\n", argv[1]);
    return !found || fflush(stdout) != 0;
}
