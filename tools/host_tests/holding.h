/* What a host knows by the answers alone: who holds each segment, and which blocks count against
 * whose limit there. Each function takes what a call was given and told, and gives that on.
 */
#ifndef HOLDING_H
#define HOLDING_H

#include "heapguard.h"
#include "sizes.h"

enum { SEGMENTS_MOST = 64, TENANTS_MOST = 255, PLACES_MOST = SEGMENTS_MOST * 8192, NOBODY = 255 };

static uint32_t holder[SEGMENTS_MOST];
static uint64_t charged[SEGMENTS_MOST][TENANTS_MOST];
static unsigned wrongly_taken;

/* A block that was given out and didn't come home yet; with no bytes, none. */
static struct {
    uint32_t bytes;
    uint8_t owner, is_sent;
} open_blocks[PLACES_MOST];

static hg_handle hands[256]; /* by worker; 0 where it is empty */

static void nobody_holds(void)
{
    for (uint32_t segment = 0; segment < SEGMENTS_MOST; segment++) holder[segment] = NOBODY;
}

static hg_reply given(uint32_t actor, uint64_t bytes, hg_reply told)
{
    if (told.status != HG_BLOCK) return told;
    uint32_t place = hg_place_of(told.value);
    open_blocks[place].bytes = class_bytes(bytes);
    open_blocks[place].owner = (uint8_t)actor;
    open_blocks[place].is_sent = 0;
    charged[place / 8192][actor] += open_blocks[place].bytes;
    return told;
}

static void came_home(uint32_t place)
{
    charged[place / 8192][open_blocks[place].owner] -= open_blocks[place].bytes;
    open_blocks[place].bytes = 0;
}

static hg_reply freed(uint32_t worker, hg_handle block, hg_reply told)
{
    if (told.status == HG_DONE) came_home(hg_place_of(block));
    if (told.status == HG_PARTED) hands[worker] = block;
    return told;
}

static hg_reply delivered(uint32_t worker, hg_reply told)
{
    if (told.status == HG_DONE) open_blocks[hg_place_of(hands[worker])].is_sent = 1;
    return told;
}

/* What was sent to the segment is home. */
static hg_reply taken(uint32_t segment, hg_reply told)
{
    if (told.status != HG_TAKEN) return told;
    uint64_t came = 0;
    for (uint32_t place = segment * 8192; place < (segment + 1) * 8192; place++) {
        if (!open_blocks[place].bytes || !open_blocks[place].is_sent) continue;
        came_home(place);
        came++;
    }
    wrongly_taken += came != told.value;
    return told;
}

static hg_reply abandoned(uint32_t segment, hg_reply told)
{
    if (told.status == HG_DONE) holder[segment] = NOBODY;
    return told;
}

static hg_reply refilled(uint32_t worker, hg_reply told)
{
    if (told.status == HG_REFILLED) holder[told.value] = worker;
    return told;
}

/* Asks of so many workers, tenants and segments, and of one more. Gives how many answers were not
 * what is known. */
static unsigned told_wrongly(const hg_core *core, uint32_t workers, uint32_t tenants,
                             uint32_t segments)
{
    unsigned wrong = 0;
    for (uint32_t segment = 0; segment <= segments; segment++) {
        hg_reply told = hg_holder(core, segment);
        wrong += told.status != (holder[segment] == NOBODY ? HG_NOT_HELD : HG_VALUE);
        wrong += told.value != holder[segment];
    }
    for (uint32_t worker = 0; worker <= workers; worker++) {
        for (uint32_t tenant = 0; tenant <= tenants; tenant++) {
            uint64_t bytes = 0;
            for (uint32_t segment = 0; segment < segments; segment++)
                bytes += holder[segment] == worker ? charged[segment][tenant] : 0;
            hg_reply told = hg_charge(core, worker, tenant);
            wrong += told.value != bytes;
            wrong += told.status != (worker == workers ? HG_NO_WORKER
                                     : tenant == tenants ? HG_NO_NAME : HG_VALUE);
        }
    }
    return wrong;
}

#endif
