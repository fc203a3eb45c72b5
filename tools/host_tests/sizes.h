/* The bytes of a block. */
#ifndef SIZES_H
#define SIZES_H

#include <stdint.h>

/* The bytes of the least class that holds a request: up to 8 words each number of them, then four
 * classes between two powers of two up to 512 words, then the powers alone. */
static uint32_t class_bytes(uint64_t bytes)
{
    uint32_t words = bytes ? (uint32_t)((bytes + 7) / 8) : 1, power = 1;
    if (words <= 8) return 8 * words;
    while (2 * power < words) power *= 2;
    uint32_t step = words > 512 ? power : power / 4;
    return 8 * ((words + step - 1) / step * step);
}

#endif
