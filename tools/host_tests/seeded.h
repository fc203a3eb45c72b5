/* Numbers that look random, the same for the same seed (splitmix64). */
#ifndef SEEDED_H
#define SEEDED_H

#include <stdint.h>

static uint64_t seed;

static uint64_t next(void)
{
    uint64_t x = seed += UINT64_C(0x9e3779b97f4a7c15);
    x = (x ^ x >> 30) * UINT64_C(0xbf58476d1ce4e5b9);
    x = (x ^ x >> 27) * UINT64_C(0x94d049bb133111eb);
    return x ^ x >> 31;
}

static uint32_t below(uint32_t n) { return (uint32_t)(next() % n); }

#endif
