/* Lines up the stamps of up to three recorders, one on GPS time, one on TAI and one on UTC.

     line_up [--reasons] [gps=FILE] [tai=FILE] [utc=FILE] [table=FILE]
     line_up --help
     line_up --version

   Each FILE is a recorder's run: stamp blocks one after the other. At least one run is named, each
   at most once; the listing does not depend on the order of the words. `table` names leap rows that
   were announced after the library was built, a line for each: the month from which on it holds and
   TAI-UTC in seconds, as `2027-01 38`; or the IERS's file leap-seconds.list. Rows that the library has
   must be equal, and the later ones are lent.

   The listing goes to standard output:

     line up 3 runs
     gps 9000000 refused 212 left out 3
     tai 9000000 refused 0 left out 0
     utc 9000000 refused 0 left out 0
     gps 0 2016-12-31T23:59:59.500
     gps 1 refused 9
     tai 0 2016-12-31T23:59:60.000
     ..
     lined up 26999785 without text 0

   After the first line comes one for each run, in the order GPS, TAI, UTC: its stamps, those that are
   refused, and those that are left out (number 17). Of the stamps of a run that have a TAI the most
   that rise are lined up, and the others are left out: one that is far too late is left out alone. Of
   two that contradict each other alone the later in the run is lined up. Where a block is refused, the
   run ends before it: its line then has behind it ` block 2 refused 14`, the blocks counted from 0, and
   what follows in the file is not read.

   Then each stamp of each run has one line: its recorder, its index in its run, counted from 0, and
   what is told of it. An ordered stamp has the UTC text of its TAI, or `no text` and a number where
   its TAI has none; the others have `refused` and their number. The ordered stamps rise by their
   exact TAI; a tie goes by recorder, in the order above, and then by index. A stamp that is not
   ordered stands directly behind the last ordered stamp before it in its own run, with those of its
   run that follow it up to the next ordered one, by index; where there is none before it, it stands
   before all ordered stamps, by recorder and then by index. So the lines of a recorder are in the
   order of its run.

   With --reasons a colon and the library's sentence follow the number of each stamp that is refused, left
   out or without text, and the sentence ends with the part at fault, in the 16 hexadecimal digits of its
   bits, where one is: `gps 1 refused 9: part or sum of a date is not finite: jd1 7ff8000000000000`. It is told of
   the parts as they were recorded; of a stamp without text, of those of its TAI or, where it has one, its UTC.

   The last line has the number of ordered stamps, and of those that have no text.

   Exit status: 0 done; 1 a block or the table is refused, of which standard error tells more (a table
   that is refused has no listing); 2 a file can't be read, the listing can't be written, there is too
   little memory, or the words are not as above. A refused stamp is no failure.

   Whether a block is one, which stamps are refused, their TAI, their order and their text are
   answers of the library. This file reads, counts and writes. `make` builds it. */
#define _POSIX_C_SOURCE 200809L
#include "celestial_time.h"
#include <errno.h>
#include <fenv.h>
#include <stdio.h>
#include <stdlib.h>
#include <unistd.h>

enum { DONE = 0, REFUSED = 1, FAILED = 2 };
enum { RUNS = 3, MOST_STAMPS = 4000, BLOCK_BYTES = 8 + 16 * MOST_STAMPS };
enum { PAGE = 4096, TEXT_BYTES = 27, LINE_BYTES = 96 }; /* stamps that get their texts at once, bytes of a text, of a line */
enum { LEFT_OUT = 17, OUT_BYTES = 1 << 20 };
enum { THE_END = -1001, UNREADABLE = -1002 };           /* of a file, in the place of a block's answer */

struct run {
    const char *name, *path;
    uint32_t scale;
    size_t stamps, blocks, refused, left_out;
    uint64_t bytes;
    int64_t block_refused; /* the number of the block that ended the run, or 0 */
};

/* The stamps of all runs, one run after the other: 8 bytes for each part, 1 for a number, 4 for a place in
   the line. The parts are those of the stamp's TAI, or as they were recorded where it has none. */
struct stamps {
    uint8_t *jd1, *jd2, *numbers, *places;
    size_t count, room, ordered, textless;
    int reasons; /* whether the sentence of a stamp's number is told behind it */
};

/* A page of stamps on their way from TAI to text. */
struct page {
    uint8_t jd1[8 * PAGE], jd2[8 * PAGE], utc1[8 * PAGE], utc2[8 * PAGE], numbers[PAGE];
};

static int failed(const char *what, const char *why)
{
    fprintf(stderr, "line_up: %s: %s\n", what, why);
    return FAILED;
}


/* Tells on standard error, where it is a terminal and the listing goes elsewhere, what is being done, and how many
   hundredths of it are done where that is known. */
static void tell(const char *doing, int hundredths)
{
    static int said = -1;
    if (!isatty(STDERR_FILENO) || isatty(STDOUT_FILENO) || (hundredths >= 0 && hundredths == said)) return;
    said = hundredths;
    if (hundredths < 0) fprintf(stderr, "\rline_up: %s        ", doing);
    else fprintf(stderr, "\rline_up: %s, %d %%   %s", doing, hundredths, hundredths == 100 ? "\n" : "");
}

/* ---- Words of the command line */

static const char usage[] =
    "line_up [--reasons] [gps=FILE] [tai=FILE] [utc=FILE] [table=FILE]\n"
    "  Lines up the stamps of up to three recorders by their TAI, and lists them with their UTC.\n"
    "  gps, tai, utc: a recorder's run, stamp blocks one after the other; at least one\n"
    "  table: announced leap rows, a line for each, as 2027-01 38, or the IERS's leap-seconds.list\n"
    "  --reasons: behind the number of a refused stamp, the reason in a sentence\n"
    "line_up --help, line_up --version\n"
    "Exit status: 0 done, 1 a block or the table is refused, 2 not readable or writable, or other words\n";

/* Whether a word is NAME=FILE; the file goes into `path`, once. */
static int names(const char *word, const char *name, const char **path)
{
    size_t length = strlen(name);
    if (strncmp(word, name, length) || word[length] != '=' || !word[length + 1] || *path) return 0;
    *path = word + length + 1;
    return 1;
}

/* Whether a word is an option; it is taken once. */
static int asks(const char *word, const char *option, int *asked)
{
    if (strcmp(word, option) || *asked) return 0;
    return *asked = 1;
}

static int read_words(int count, char **words, struct run *runs, const char **table, int *reasons)
{
    int i, k, taken, named = 0;
    for (i = 1; i < count; i++) {
        taken = names(words[i], "table", table) || asks(words[i], "--reasons", reasons);
        for (k = 0; k < RUNS && !taken; k++) named += taken = names(words[i], runs[k].name, &runs[k].path);
        if (!taken) {
            fprintf(stderr, "line_up: not understood, or there twice: %s\n%s", words[i], usage);
            return FAILED;
        }
    }
    if (named) return DONE;
    fprintf(stderr, "line_up: no run is named\n%s", usage);
    return FAILED;
}

/* ---- The table: a text of leap rows, which the library reads */

/* All bytes of a file, which the caller frees; NULL where there is too little memory. */
static uint8_t *whole_file(FILE *file, size_t *length)
{
    size_t room = 1 << 16;
    uint8_t *bytes = malloc(room), *more;
    for (*length = 0; bytes; room *= 2) {
        *length += fread(bytes + *length, 1, room - *length, file);
        if (*length < room) break;
        if (!(more = realloc(bytes, 2 * room))) free(bytes);
        bytes = more;
    }
    return bytes;
}

/* What is wrong with a refused text: its line, the number and the library's sentence. */
static int refuse_table(const char *path, const uint8_t *text, size_t length, int number)
{
    char sentence[CT_SENTENCE_BYTES];
    int64_t bytes = ct_reason((uint32_t)number, (uint8_t *)sentence, sizeof sentence);
    fprintf(stderr, "line_up: %s: line %lld: table refused %d: %.*s\n", path, (long long)ct_table_fault(text, length), number,
            bytes < 0 ? 0 : (int)bytes, sentence);
    return REFUSED;
}

/* The table of a file's rows, or of none without a file, as the library reads it. */
static int read_table(const char *path, uint8_t table[CT_TABLE_BYTES])
{
    uint8_t known[CT_KNOWN_BYTES], *text;
    size_t length;
    int64_t answer;
    int status, unread;
    FILE *file = path ? fopen(path, "r") : NULL;
    memcpy(table, ct_no_rows, CT_TABLE_BYTES);
    if (!path) return DONE;
    if (!file) return failed(path, strerror(errno));
    text = whole_file(file, &length);
    unread = ferror(file) ? errno : 0;
    fclose(file);
    if (!text) return failed(path, "too little memory");
    answer = unread ? 0 : ct_read_table(text, length, table, CT_TABLE_BYTES, known, sizeof known);
    status = unread ? failed(path, strerror(unread)) : answer < 0 ? refuse_table(path, text, length, (int)-answer) : DONE;
    free(text);
    return status;
}

/* ---- Runs */

/* The next block: its stamps, or minus the number of its refusal, THE_END or UNREADABLE. The sizes are asked of
   the library first: where it wants a longer block, which is 14, they are equal and not above the most. */
static int64_t next_block(FILE *file, uint8_t *block, size_t *length)
{
    int64_t stamps;
    uint64_t size;
    *length = fread(block, 1, 8, file);
    if (ferror(file)) return UNREADABLE;
    if (*length == 0) return THE_END;
    stamps = ct_block_stamps(block, *length);
    if (stamps != -14 || *length < 8) return stamps;
    size = ct_pattern_at(block, 4);
    if (size > MOST_STAMPS) return stamps;
    *length += fread(block + 8, 1, (size_t)(16 * size), file);
    return ferror(file) ? UNREADABLE : ct_block_stamps(block, *length);
}

/* Room for so many more stamps. */
static int make_room(struct stamps *all, size_t more)
{
    size_t room = all->room;
    uint8_t *jd1, *jd2, *numbers;
    if (all->count + more <= room) return DONE;
    room += room / 2 + more;
    if (room > SIZE_MAX / 8) return failed("memory", "more stamps than it can hold");
    if ((jd1 = realloc(all->jd1, 8 * room))) all->jd1 = jd1;
    if ((jd2 = realloc(all->jd2, 8 * room))) all->jd2 = jd2;
    if ((numbers = realloc(all->numbers, room))) all->numbers = numbers;
    if (!jd1 || !jd2 || !numbers) return failed("memory", "too little for so many stamps");
    all->room = room;
    return DONE;
}

/* The stamps of a block behind the others: as recorded, and over that the TAI of those that have one. */
static int take_block(struct stamps *all, uint32_t scale, const uint8_t *block, size_t count, const uint8_t *table)
{
    const uint8_t *first = block + 8, *second = first + 8 * count;
    uint8_t *jd1, *jd2, *numbers;
    if (make_room(all, count)) return FAILED;
    jd1 = all->jd1 + 8 * all->count;
    jd2 = all->jd2 + 8 * all->count;
    numbers = all->numbers + all->count;
    memcpy(jd1, first, 8 * count);
    memcpy(jd2, second, 8 * count);
    all->count += count;
    if (ct_convert_run(scale, CT_TAI, first, 8 * count, second, 8 * count, table, CT_TABLE_BYTES, jd1, 8 * count, jd2, 8 * count, numbers,
                       count) < 0)
        return failed("ct_convert_run", "a block that was taken is refused");
    return DONE;
}

static int read_run(struct run *run, struct stamps *all, const uint8_t *table)
{
    static uint8_t block[BLOCK_BYTES];
    size_t length;
    int64_t count;
    int status = DONE;
    FILE *file = fopen(run->path, "rb");
    if (!file) return failed(run->path, strerror(errno));
    while (status == DONE && (count = next_block(file, block, &length)) >= 0) {
        status = take_block(all, run->scale, block, (size_t)count, table);
        run->stamps += (size_t)count;
        run->bytes += length;
        run->blocks++;
    }
    if (status == DONE && count == UNREADABLE) status = failed(run->path, strerror(errno));
    fclose(file);
    if (status != DONE || count == THE_END) return status;
    run->block_refused = -count;
    fprintf(stderr, "line_up: %s: block %llu, at byte %llu, is refused %d\n", run->path, (unsigned long long)run->blocks,
            (unsigned long long)run->bytes, (int)-count);
    return REFUSED;
}

/* 0 or 1, and all runs; or 2. */
static int read_runs(struct run *runs, struct stamps *all, const uint8_t *table)
{
    int k, status, worst = DONE;
    if (make_room(all, MOST_STAMPS)) return FAILED;
    for (k = 0; k < RUNS; k++) {
        if (!runs[k].path) continue;
        tell(runs[k].name, -1);
        status = read_run(&runs[k], all, table);
        if (status == FAILED) return FAILED;
        if (status > worst) worst = status;
    }
    return worst;
}

/* ---- The order */

static int put_in_order(struct run *runs, struct stamps *all)
{
    size_t i = 0, end = 0, n = all->count;
    uint8_t *work; /* two areas of 4 bytes a stamp */
    int64_t ordered;
    int k;
    if (n > SIZE_MAX / 9 || !(all->places = malloc(4 * n + 1)) || !(work = malloc(8 * n + 1)))
        return failed("memory", "too little for so many stamps");
    tell("the order", -1);
    ordered = ct_line_up(all->jd1, 8 * n, all->jd2, 8 * n, all->numbers, n, runs[0].stamps, runs[1].stamps, all->places, 4 * n, work, 4 * n,
                         work + 4 * n, 4 * n);
    free(work);
    if (ordered < 0) {
        fprintf(stderr, "line_up: the line is refused %d\n", (int)-ordered);
        return FAILED;
    }
    all->ordered = (size_t)ordered;
    for (k = 0; k < RUNS; k++)
        for (end += runs[k].stamps; i < end; i++) {
            runs[k].left_out += all->numbers[i] == LEFT_OUT;
            runs[k].refused += all->numbers[i] != 0 && all->numbers[i] != LEFT_OUT;
        }
    return DONE;
}

/* ---- Lines */

static char *put_word(char *at, const char *word)
{
    while (*word) *at++ = *word++;
    return at;
}

static char *put_decimal(char *at, uint64_t n)
{
    char digits[20];
    int count = 0;
    do digits[count++] = (char)('0' + n % 10);
    while (n /= 10);
    while (count > 0) *at++ = digits[--count];
    return at;
}

/* A refusal's number and, where it is asked for, its sentence with the part at fault. */
static char *put_number(char *at, const struct stamps *all, uint32_t number, const uint8_t *jd1, const uint8_t *jd2)
{
    uint8_t sentence[CT_SENTENCE_BYTES];
    int64_t length = -1;
    if (all->reasons) length = ct_parts_reason(number, ct_float_at(jd1), ct_float_at(jd2), sentence, sizeof sentence);
    at = put_decimal(at, number);
    if (length < 0) return at;
    at = put_word(at, ": ");
    memcpy(at, sentence, (size_t)length);
    return at + length;
}

/* The line's words behind the index of a stamp that is refused or left out. */
static char *put_refusal(char *at, const struct stamps *all, size_t place)
{
    return put_number(put_word(at, "refused "), all, all->numbers[place], all->jd1 + 8 * place, all->jd2 + 8 * place);
}

/* The UTC text of a UTC date, at most TEXT_BYTES, or minus the number of its refusal. */
static int64_t utc_text(const uint8_t *jd1, const uint8_t *jd2, const uint8_t *table, char *out)
{
    uint8_t rule[CT_RULE_BYTES];
    return ct_to_iso8601_expanded(ct_float_at(jd1), ct_float_at(jd2), table, CT_TABLE_BYTES, (uint8_t *)out, TEXT_BYTES, rule, sizeof rule);
}

static char *put_text(char *at, struct stamps *all, const struct page *page, size_t i, const uint8_t *table)
{
    const uint8_t *jd1 = page->jd1 + 8 * i, *jd2 = page->jd2 + 8 * i;
    int64_t number = page->numbers[i], length = 0;
    if (!number) {
        jd1 = page->utc1 + 8 * i;
        jd2 = page->utc2 + 8 * i;
        length = utc_text(jd1, jd2, table, at);
    }
    if (length < 0) number = -length;
    if (!number) return at + length;
    all->textless++;
    return put_number(put_word(at, "no text "), all, (uint32_t)number, jd1, jd2);
}

static char *put_index(char *at, const struct run *run, size_t index)
{
    at = put_word(at, run->name);
    *at++ = ' ';
    at = put_decimal(at, index);
    *at++ = ' ';
    return at;
}

static int write_line(char *line, char *end)
{
    *end++ = '\n';
    return fwrite(line, 1, (size_t)(end - line), stdout) == (size_t)(end - line) ? DONE : FAILED;
}

/* The stamps of a run from `index` up to the next that is ordered, a line for each. */
static int write_refused(const struct run *run, const struct stamps *all, size_t start, size_t index)
{
    char line[LINE_BYTES];
    for (; index < run->stamps && all->numbers[start + index]; index++)
        if (write_line(line, put_refusal(put_index(line, run, index), all, start + index))) return FAILED;
    return DONE;
}

/* The UTC of a page of ordered stamps, from number `from` of the line on. */
static int convert_page(struct page *page, const struct stamps *all, size_t from, size_t count, const uint8_t *table)
{
    size_t i;
    for (i = 0; i < count; i++) {
        size_t place = (size_t)ct_pattern_at(all->places + 4 * (from + i), 4);
        memcpy(page->jd1 + 8 * i, all->jd1 + 8 * place, 8);
        memcpy(page->jd2 + 8 * i, all->jd2 + 8 * place, 8);
    }
    if (ct_convert_run(CT_TAI, CT_UTC, page->jd1, 8 * count, page->jd2, 8 * count, table, CT_TABLE_BYTES, page->utc1, 8 * count,
                       page->utc2, 8 * count, page->numbers, count) < 0)
        return failed("ct_convert_run", "a page that was ordered is refused");
    return DONE;
}

static int write_page(struct run *runs, struct stamps *all, const struct page *page, size_t from, size_t count, const uint8_t *table)
{
    char line[LINE_BYTES];
    size_t i, place, start;
    int k;
    for (i = 0; i < count; i++) {
        place = (size_t)ct_pattern_at(all->places + 4 * (from + i), 4);
        for (k = 0, start = 0; k < RUNS - 1 && place - start >= runs[k].stamps; k++) start += runs[k].stamps;
        if (write_line(line, put_text(put_index(line, &runs[k], place - start), all, page, i, table))) return FAILED;
        if (write_refused(&runs[k], all, start, place - start + 1)) return FAILED;
    }
    return DONE;
}

static void write_head(const struct run *runs)
{
    int k, named = 0;
    for (k = 0; k < RUNS; k++) named += runs[k].path != NULL;
    printf("line up %d runs\n", named);
    for (k = 0; k < RUNS; k++) {
        const struct run *run = &runs[k];
        if (!run->path) continue;
        printf("%s %llu refused %llu left out %llu", run->name, (unsigned long long)run->stamps, (unsigned long long)run->refused,
               (unsigned long long)run->left_out);
        if (run->block_refused) printf(" block %llu refused %d", (unsigned long long)run->blocks, (int)run->block_refused);
        putchar('\n');
    }
}

static int write_listing(struct run *runs, struct stamps *all, const uint8_t *table)
{
    static struct page page;
    size_t from, count, start = 0;
    int k;
    write_head(runs);
    for (k = 0; k < RUNS; start += runs[k++].stamps)
        if (write_refused(&runs[k], all, start, 0)) return FAILED;
    for (from = 0; from < all->ordered; from += count) {
        tell("listing", (int)(from / (all->ordered / 100 + 1)));
        count = all->ordered - from < PAGE ? all->ordered - from : PAGE;
        if (convert_page(&page, all, from, count, table) || write_page(runs, all, &page, from, count, table)) return FAILED;
    }
    printf("lined up %llu without text %llu\n", (unsigned long long)all->ordered, (unsigned long long)all->textless);
    tell("listing", 100);
    return DONE;
}

/* The library assumes the default float mode, and a link with -ffast-math sets another. */
static int set_float_mode(void)
{
    if (!ct_float_mode() || (!fesetenv(FE_DFL_ENV) && !ct_float_mode())) return DONE;
    return failed("floats", "they are not rounded to nearest, or subnormal ones are flushed to zero");
}

static int line_up(int count, char **words)
{
    struct run runs[RUNS] = {{.name = "gps", .scale = CT_GPS}, {.name = "tai", .scale = CT_TAI}, {.name = "utc", .scale = CT_UTC}};
    struct stamps all = {0};
    uint8_t table[CT_TABLE_BYTES];
    const char *table_path = NULL;
    int status;
    if ((status = read_words(count, words, runs, &table_path, &all.reasons)) || (status = set_float_mode())) return status;
    if ((status = read_table(table_path, table))) return status;
    status = read_runs(runs, &all, table);
    if (status != FAILED && (put_in_order(runs, &all) || write_listing(runs, &all, table))) status = FAILED;
    free(all.jd1);
    free(all.jd2);
    free(all.numbers);
    free(all.places);
    return status;
}

int main(int count, char **words)
{
    static char buffer[OUT_BYTES];
    int status = DONE;
    setvbuf(stdout, buffer, _IOFBF, sizeof buffer);
    if (count == 2 && !strcmp(words[1], "--help")) fputs(usage, stdout);
    else if (count == 2 && !strcmp(words[1], "--version")) fputs("line_up " CT_VERSION "\n", stdout);
    else status = line_up(count, words);
    if (fflush(stdout) || ferror(stdout)) return failed("standard output", "it can't be written");
    return status;
}
