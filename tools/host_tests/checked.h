/* Checks that are counted, and what is checked of answers. A test defines TEST, by which it tells. */
#ifndef CHECKED_H
#define CHECKED_H

#include "heapguard.h"
#include <stdio.h>

static unsigned checks, failed;

#define CHECK(holds)                                                   \
    do {                                                               \
        checks++;                                                      \
        if (!(holds)) {                                                \
            failed++;                                                  \
            printf(TEST ": not so, line %d: %s\n", __LINE__, #holds);  \
        }                                                              \
    } while (0)

static inline int is_plain(hg_reply reply, unsigned status)
{
    return reply.status == status && !reply.owner && !reply.detail && !reply.value;
}

/* What a look-up is answered that finds no number. */
static inline int is_nobody(hg_reply reply, unsigned status)
{
    return reply.status == status && !reply.owner && !reply.detail && reply.value == 255;
}

#endif
