/* The frame of a filter: requests on standard input, answers on standard output, 64 bytes each. A
   program that includes this file defines what each layer of tests/calls.txt answers, and calls
   run_filter. */
#include "record.h"
#include <stdio.h>

/* The answer "nothing to compare here", and the text's buffer before the call. */
enum { NONE = 255, ROOM = 32, UNTOUCHED = 0xaa };

/* Argument number i of a request, as a float and as a whole number. */
static inline double f(const record *r, int i) { return from_bits(r->word[i + 1]); }
static inline int64_t n(const record *r, int i) { return (int64_t)r->word[i + 1]; }

static inline record refused(int64_t number) { return (record){{(uint64_t)number}}; }
static inline record none(void) { return refused(NONE); }
static inline record whole(int64_t x) { return (record){{0, (uint64_t)x}}; }
static inline record one(double x) { return (record){{0, shown(x)}}; }
static inline record two(double x, double y) { return (record){{0, shown(x), shown(y)}}; }

static record floats(int call, double x);
static record calendar(int call, const record *r);
static record julian(int call, const record *r);
static record tai_utc(int call, const record *r);
static record scales(int call, const record *r);
static record utc(int call, const record *r);

static record answer(const record *r)
{
    int call = (int)r->word[0];
    if (call < 20) return floats(call, f(r, 0));
    if (call < 40) return calendar(call, r);
    if (call < 60) return julian(call, r);
    if (call < 80) return tai_utc(call, r);
    if (call < 120) return scales(call, r);
    return utc(call, r);
}

/* The exit status: 1 where an answer can't be written. */
static int run_filter(void)
{
    record request;
    while (fread(&request, sizeof request, 1, stdin) == 1) {
        record r = answer(&request);
        if (fwrite(&r, sizeof r, 1, stdout) != 1) return 1;
    }
    return fflush(stdout) != 0;
}
