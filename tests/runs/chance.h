/* Numbers by chance for the programs beside it: xorshift, the same everywhere. And how many items a run of theirs has at most, with bytes around it. */
#ifndef CHANCE_H
#define CHANCE_H

#include <stdint.h>

enum { MOST = 3000, AROUND = 32 };

static uint64_t state;

static uint64_t chance(void)
{
    state ^= state << 13;
    state ^= state >> 7;
    return state ^= state << 17;
}

#endif
