/* Cases from standard input and answers to standard output, for the programs by which the tests in Python call the library. What can't be read, written or
   had ends the program with status 2, so that a test does not go on with half a case. */
#include <stdint.h>
#include <stdio.h>
#include <stdlib.h>

static uint8_t *some(size_t n)
{
    uint8_t *p = malloc(n + 1);
    if (!p) exit(2);
    return p;
}

static uint8_t *read_bytes(size_t n)
{
    uint8_t *p = some(n);
    if (fread(p, 1, n, stdin) != n) exit(2);
    return p;
}

static void put(const uint8_t *bytes, size_t n)
{
    if (fwrite(bytes, 1, n, stdout) != n) exit(2);
}

/* A call's code, 8 bytes, the lowest first. */
static void put_code(int64_t code)
{
    uint8_t bytes[8];
    for (int k = 0; k < 8; k++) bytes[k] = (uint8_t)((uint64_t)code >> 8 * k);
    put(bytes, 8);
}
