/* chance: numbers drawn from a seed, so that a run can be repeated. */
#ifndef CHANCE_H
#define CHANCE_H

#include <stdbool.h>
#include <stdint.h>

static uint64_t chance_state = 1;

static inline void seed_chance(uint64_t seed)
{
    chance_state = seed * UINT64_C(2685821657736338717) | 1;
}

static inline uint64_t draw(void)
{
    chance_state ^= chance_state >> 12;
    chance_state ^= chance_state << 25;
    chance_state ^= chance_state >> 27;
    return chance_state * UINT64_C(2685821657736338717);
}

/* A number below n; n is at least 1. */
static inline uint64_t below(uint64_t n)
{
    return (draw() >> 16) % n;
}

static inline bool one_in(uint64_t n)
{
    return below(n) == 0;
}

/* A number from a to b, both included. */
static inline uint64_t from_to(uint64_t a, uint64_t b)
{
    return a + below(b - a + 1);
}

#endif
