/* Numbers by chance, the same everywhere: splitmix64. No expression draws twice, since C leaves open
   which of two draws comes first. */
#include <stdint.h>

static uint64_t state = 1;

static uint64_t next(void)
{
    uint64_t z = (state += 0x9e3779b97f4a7c15u);
    z = (z ^ (z >> 30)) * 0xbf58476d1ce4e5b9u;
    z = (z ^ (z >> 27)) * 0x94d049bb133111ebu;
    return z ^ (z >> 31);
}

static uint64_t below(uint64_t limit) { return next() % limit; }
