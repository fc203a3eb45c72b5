/* What the targets share: they end the process where something isn't so, and tell libFuzzer what
 * came about, since the library itself isn't built with its counters.
 */
#ifndef FUZZ_H
#define FUZZ_H

#include "heapguard.h"
#include <stddef.h>
#include <stdint.h>
#include <stdio.h>
#include <stdlib.h>

/* One input; 0. */
int LLVMFuzzerTestOneInput(const uint8_t *bytes, size_t length);

#define CHECK(holds)                                                               \
    do {                                                                           \
        if (!(holds)) {                                                            \
            fprintf(stderr, "%s:%d: not so: %s\n", __FILE__, __LINE__, #holds);    \
            abort();                                                               \
        }                                                                          \
    } while (0)

enum { NOTES = 4096 };

#ifdef __clang__
__attribute__((section("__libfuzzer_extra_counters")))
#endif
static uint8_t noted[NOTES];

/* Something of this number came about. */
static inline void note(uint32_t number)
{
    uint8_t *count = &noted[number * UINT32_C(2654435761) >> 20];
    *count += *count < 255;
}

#endif
