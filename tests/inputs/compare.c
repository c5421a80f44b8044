/* Compares two lists of answers to one list of requests, record by record.
     compare REQUESTS ANSWERS ANSWERS [SHOWN]
   Prints one row for each call: inputs, compared, answers 255 left out, answers
   that are refusals, differences; then up to SHOWN differences of each call.
   Exit status 0 without differences, 1 with, 2 if the lists do not fit. */
#include <stdint.h>
#include <stdio.h>
#include <stdlib.h>
#include <string.h>

#include "calls.h"
#include "record.h"

enum { NONE = 255, CHUNK = 1024, HIGHEST = 256 };

typedef struct { long inputs, compared, left_out, refused, differ; } tally;

static tally tallies[HIGHEST];

static void print_words(const char *head, const record *r, int from)
{
    printf("    %s", head);
    for (int i = from; i < 8; i++) {
        printf(" %016llx", (unsigned long long)r->word[i]);
        int64_t whole = (int64_t)r->word[i];
        if (-10000000000 < whole && whole < 10000000000) printf("=%lld", (long long)whole);
        else printf("=%.17g", from_bits(r->word[i]));
    }
    printf("\n");
}

static const char *name_of(int number)
{
    for (int i = 0; i < CALL_COUNT; i++)
        if (CALLS[i].number == number) return CALLS[i].name;
    return "?";
}

static void judge(const record *q, const record *a, const record *b, long shown)
{
    int call = (int)(q->word[0] % HIGHEST);
    tally *t = &tallies[call];
    t->inputs++;
    if (a->word[0] == NONE || b->word[0] == NONE) {
        t->left_out++;
        return;
    }
    t->compared++;
    if (a->word[0]) t->refused++;
    if (!memcmp(a, b, sizeof *a)) return;
    if (t->differ++ < shown) {
        printf("  %d %s differs\n", call, name_of(call));
        print_words("request", q, 1);
        print_words("first  ", a, 0);
        print_words("second ", b, 0);
    }
}

static FILE *open_list(const char *path)
{
    FILE *file = fopen(path, "rb");
    if (!file) {
        perror(path);
        exit(2);
    }
    return file;
}

int main(int argc, char **argv)
{
    static record q[CHUNK], a[CHUNK], b[CHUNK];
    if (argc < 4) {
        fprintf(stderr, "compare REQUESTS ANSWERS ANSWERS [SHOWN]\n");
        return 2;
    }
    FILE *requests = open_list(argv[1]), *first = open_list(argv[2]), *second = open_list(argv[3]);
    long shown = argc > 4 ? strtol(argv[4], NULL, 10) : 3;
    size_t got;
    while ((got = fread(q, sizeof *q, CHUNK, requests)) > 0) {
        if (fread(a, sizeof *a, got, first) != got || fread(b, sizeof *b, got, second) != got) {
            fprintf(stderr, "compare: fewer answers than requests\n");
            return 2;
        }
        for (size_t i = 0; i < got; i++) judge(&q[i], &a[i], &b[i], shown);
    }
    if (fgetc(first) != EOF || fgetc(second) != EOF) {
        fprintf(stderr, "compare: more answers than requests\n");
        return 2;
    }
    long differ = 0;
    for (int call = 0; call < HIGHEST; call++) {
        tally *t = &tallies[call];
        if (!t->inputs) continue;
        printf("%4d %-28s %9ld %9ld %9ld %9ld %9ld\n", call, name_of(call), t->inputs,
               t->compared, t->left_out, t->refused, t->differ);
        differ += t->differ;
    }
    return differ != 0;
}
