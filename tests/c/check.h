/* Counting what holds and what does not. Nothing here compares floats, so that it works in builds
   with -ffast-math too. */
#include <stdarg.h>
#include <stdio.h>

static long passed, failed;

static void check(int holds, const char *format, ...)
{
    va_list words;
    if (holds) {
        passed++;
        return;
    }
    if (failed++ >= 20) return;
    va_start(words, format);
    printf("  WRONG: ");
    vprintf(format, words);
    printf("\n");
    va_end(words);
}

/* The last line of a test program, which tests/c/run adds up. */
static int summary(const char *name)
{
    printf("%s: %ld passed, %ld failed\n", name, passed, failed);
    return failed != 0;
}
