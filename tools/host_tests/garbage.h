/* Numbers for calls that are garbage. */
#ifndef GARBAGE_H
#define GARBAGE_H

#include "seeded.h"

/* One that may be right, one of 8 bits, one that would be right if it wrapped, or any. */
static uint32_t number(void)
{
    switch (below(4)) {
    case 0: return below(3);
    case 1: return below(256);
    case 2: return (1 + below(1 << 24)) * 256 + below(3);
    default: return (uint32_t)next();
    }
}

/* Tenant 0 asks for none of it, so that its block stays. */
static uint32_t stranger(void)
{
    uint32_t actor = number();
    return actor ? actor : 1;
}

#endif
