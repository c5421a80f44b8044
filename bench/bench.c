/* The port, the supplied Rust and ERFA on the same inputs, call by call.
     bench check    compares their answers bit for bit
     bench times    and prints for each call, by library, the median and the least nanoseconds
     bench count    and has callgrind write the instructions of each loop (run it under callgrind)
     bench block    writes the stamp block that is listed
   bench/run joins what times and count tell into a table. Exit status 1 if an answer differs. */
#include <stdio.h>
#include <stdlib.h>
#include <string.h>
#include <time.h>
#include <valgrind/callgrind.h>

#include "rows.h"

enum { ROUNDS = 15 };

static void make_block(void)
{
    uint32_t stamps = INPUTS;
    memcpy(block, &stamps, 4);
    memcpy(block + 4, &stamps, 4);
    EACH memcpy(block + 8 + 8 * i, &in[i].jd1, 8);
    EACH memcpy(block + 8 + 8 * INPUTS + 8 * i, &in[i].jd2, 8);
}

static void prepare(const row *r)
{
    draw_inputs(r->inputs, in);
    make_block();
    make_run_offsets();
    make_ticks();
    make_table();
    make_texts();
    lay_out_texts();
}

/* Where a call of the port tells a rule, which the other libraries do not; 0 for a call that tells none. */
static size_t rule_at(any *call)
{
    if (call == (any *)ct_get_tai_utc_offset) return 8;
    return call == (any *)ct_utc_to_tai || call == (any *)ct_utc_to_ut1_with_dut1 ? 16 : 0;
}

/* Runs a loop once and keeps its answers, as many bytes as are returned, at `answers`. */
static size_t answers_of(const side *s, uint8_t *answers)
{
    memset(slots, 0, sizeof slots);
    shown = slots[0].bytes;
    shown_length = sizeof slots;
    s->loop(s->call);
    if (s->loop == erfa_calendar_loop) EACH memmove(slots[i].bytes + 12, &slots[i].d[2], 12);
    if (rule_at(s->call)) EACH memset(slots[i].bytes + rule_at(s->call), 0, CT_RULE_BYTES);
    memcpy(answers, shown, shown_length);
    return shown_length;
}

/* How many inputs the port refuses: a refusal leaves its slot as it was, or the slot has its number, -28 to -1, which
   are the bits of no answer. */
static int refusals(const side *s)
{
    int refused = 0;
    memset(slots, 0xaa, sizeof slots);
    shown_length = 0;
    s->loop(s->call);
    if (shown_length) return 0;
    EACH refused += slots[i].n == (int64_t)0xaaaaaaaaaaaaaaaa || (slots[i].n >= -28 && slots[i].n < 0);
    return refused;
}

/* 1 where a library's answers on the row's inputs are not the port's, or where the port refuses one. */
static int differ(const row *r)
{
    static uint8_t answers[2][LISTING_ROOM + sizeof slots];
    int wrong = refusals(&r->by[PORT]) != 0;
    size_t length = answers_of(&r->by[PORT], answers[0]);
    if (wrong) fprintf(stderr, "%s, %s: the port refuses an input\n", r->name, set_name[r->inputs]);
    for (int k = RUST; k < LIBRARIES; k++) {
        if (!r->by[k].loop) continue;
        size_t other = answers_of(&r->by[k], answers[1]);
        if (other == length && !memcmp(answers[0], answers[1], length)) continue;
        fprintf(stderr, "%s, %s: the port and %s differ\n", r->name, set_name[r->inputs], library[k]);
        wrong = 1;
    }
    return wrong;
}

/* The processor time that this process has had: the turns of other processes are not in it. */
static double now(void)
{
    struct timespec t;
    clock_gettime(CLOCK_PROCESS_CPUTIME_ID, &t);
    return 1e9 * (double)t.tv_sec + (double)t.tv_nsec;
}

/* Nanoseconds per call of so many loops. */
static double time_of(const side *s, int repeats)
{
    double start = now();
    for (int i = 0; i < repeats; i++) s->loop(s->call);
    return (now() - start) / repeats / INPUTS;
}

static int by_size(const void *a, const void *b)
{
    double x = *(const double *)a, y = *(const double *)b;
    return (x > y) - (x < y);
}

/* The libraries take turns, so that a slow moment of the machine falls on all of them. One turn is about a millisecond. */
static void print_times(const row *r)
{
    double ns[LIBRARIES][ROUNDS];
    for (int round = 0; round < ROUNDS; round++)
        for (int k = 0; k < LIBRARIES; k++) {
            const side *s = &r->by[k];
            if (s->loop) ns[k][round] = time_of(s, 1 + (int)(1e6 / (time_of(s, 1) * INPUTS)));
        }
    printf("%s\t%s", r->name, set_name[r->inputs]);
    for (int k = 0; k < LIBRARIES; k++) {
        if (r->by[k].loop) qsort(ns[k], ROUNDS, sizeof(double), by_size);
        if (r->by[k].loop) printf("\t%.1f\t%.1f", ns[k][ROUNDS / 2], ns[k][0]);
        else printf("\t-\t-");
    }
    printf("\n");
}

/* Each loop's instructions go into a file of their own, whose heading says the row and the library. */
static void count(int number, const row *r)
{
    char label[40];
    for (int k = 0; k < LIBRARIES; k++) {
        if (!r->by[k].loop) continue;
        snprintf(label, sizeof label, "%d %s", number, library[k]);
        CALLGRIND_ZERO_STATS;
        r->by[k].loop(r->by[k].call);
        CALLGRIND_DUMP_STATS_AT(label);
    }
}

int main(int argc, char **argv)
{
    const char *mode = argc == 2 ? argv[1] : "";
    int wrong = 0;
    if (!strcmp(mode, "block")) {
        prepare(&rows[ROWS - 1]);
        return fwrite(block, 1, sizeof block, stdout) != sizeof block;
    }
    if (strcmp(mode, "check") && strcmp(mode, "times") && strcmp(mode, "count")) {
        fprintf(stderr, "usage: bench check | times | count | block\n");
        return 2;
    }
    for (int i = 0; i < ROWS; i++) {
        prepare(&rows[i]);
        wrong |= differ(&rows[i]);
        if (!strcmp(mode, "times")) print_times(&rows[i]);
        if (!strcmp(mode, "count")) count(i, &rows[i]);
    }
    return wrong;
}
