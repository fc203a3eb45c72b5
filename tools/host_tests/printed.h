/* The library's answers as heapguard prints them, each in a line. */
#ifndef PRINTED_H
#define PRINTED_H

#include "heapguard.h"
#include <inttypes.h>
#include <stdio.h>

static inline void put_handle(FILE *out, hg_handle block)
{
    fprintf(out, "@%" PRIu32 ".%" PRIu32 ".%" PRIu32 ".%" PRIu32, hg_segment_of(block),
            hg_page_of(block), hg_index_of(block), hg_generation_of(block));
}

/* A row of a listing: the handle left in 21 places, the owner in 16, the bytes right in 5. */
static inline void put_row(FILE *out, const hg_core *core, hg_reply reply)
{
    char handle[32], name[16];
    hg_reply named = hg_tenant_name(core, reply.owner, name, sizeof name);
    snprintf(handle, sizeof handle, "@%" PRIu32 ".%" PRIu32 ".%" PRIu32 ".%" PRIu32,
             hg_segment_of(reply.value), hg_page_of(reply.value), hg_index_of(reply.value),
             hg_generation_of(reply.value));
    fprintf(out, "%-21s %-16.*s %5" PRIu32 "\n", handle, (int)named.value, name, reply.detail);
}

static inline void put_answer(FILE *out, const hg_core *core, hg_reply reply)
{
    if (reply.status == HG_LISTED) {
        put_row(out, core, reply);
        return;
    }
    fputs(hg_status_text(reply.status), out);
    if (reply.status == HG_BLOCK) {
        fputc(' ', out);
        put_handle(out, reply.value);
    } else if (reply.status >= HG_VALUE && reply.status <= HG_REFILLED) {
        fprintf(out, " %" PRIu64, reply.value);
    }
    fputc('\n', out);
}

#endif
