/* bytes_threads [EVENTS [THREADS]]: threads that read and write bytes of blocks, each as a worker of
 * one service, with no lock. Each has blocks of its own, beside a plain array for each, and is told
 * just what the array has. Others stand in places that all share, and are freed by whoever comes, also
 * while another is at their bytes: then a call ends where the block does. Whatever it is answered, so
 * many bytes were done as it tells, and beside them nothing is touched. In the end the service becomes
 * a core, and there each block has the bytes that it was left with.
 */
#define TEST "bytes_threads"
#include "all_are.h"
#include "serving.h"
#include <sched.h>
#include <stdatomic.h>
#include <stdlib.h>
#include <string.h>

enum { PLACES = 16, OWN = 8, LARGEST = 4096, PAST = 24, BESIDE = 16, NEVER = 0x5a, TIDY = 200 };
enum { ROOM = LARGEST + PAST + 2 * BESIDE };

static const uint32_t SIZES[] = {4096, 64, 8, 512};

/* Handles of blocks that live, and 0. */
static _Atomic uint64_t places[PLACES];

static uint32_t size_at(unsigned place) { return SIZES[place % 4]; }

/* What a block in a place has there, from its first life to its last. */
static unsigned char byte_of(hg_handle block, uint64_t at)
{
    return (unsigned char)((block * UINT64_C(0x9e3779b97f4a7c15) >> 56) + at * 29 + (at >> 8));
}

typedef struct {
    hg_handle block; /* or 0 */
    uint32_t size;
    unsigned char model[LARGEST + PAST];
} own_block;

/* Of calls on shared blocks: `served`, those that a free by another `cut` off, and those by who
 * doesn't hold the segment. */
typedef struct {
    thread by;
    own_block own[OWN];
    unsigned char room[ROOM];
    uint64_t served, cut, elsewhere;
} server;

static uint32_t below(server *of, uint32_t n) { return (uint32_t)(next(&of->by) % n); }

/* From where on, and how many bytes: mostly few, and now and then past the block's end. */
typedef struct {
    uint32_t first, count, left;
} extent;

static extent some_bytes(server *of, uint32_t size)
{
    extent it = {below(of, size), 0, 0};
    if (below(of, 16) == 0) it.first = size - 8 + below(of, PAST);
    it.count = below(of, 3) ? below(of, 24) : below(of, size + PAST);
    it.left = it.first < size ? size - it.first : 0;
    return it;
}

/* What stands in the room before the bytes that were done, and behind them, is as it was. */
static int is_as_it_was(const server *of, uint64_t done)
{
    return all_are(of->room, BESIDE, NEVER)
        && all_are(of->room + BESIDE + done, ROOM - BESIDE - (size_t)done, NEVER);
}

static hg_reply read_bytes(server *of, hg_handle block, extent it)
{
    of->by.events++;
    memset(of->room, NEVER, ROOM);
    hg_reply told = hg_worker_read_bytes(&of->by.worker, TENANT, block, it.first, of->room + BESIDE,
                                         it.count);
    if (told.value > it.count || !is_as_it_was(of, told.value))
        wrong(&of->by, "the room of a read", told);
    return told;
}

static hg_reply write_bytes(server *of, hg_handle block, extent it)
{
    of->by.events++;
    return hg_worker_write_bytes(&of->by.worker, TENANT, block, it.first, of->room + BESIDE, it.count);
}

/* Another block of the thread's own in the place of one: its words are 0. */
static void renew(server *of, own_block *it)
{
    if (it->block != 0 && !free_block(&of->by, it->block)) of->by.wrong++;
    it->size = SIZES[below(of, 4)];
    it->block = alloc_block(&of->by, it->size);
    memset(it->model, 0, LARGEST);
}

/* Nobody else frees it, or writes in it; but another may hold its segment by now. */
static void use_own(server *of, own_block *it)
{
    extent bytes = some_bytes(of, it->size);
    int is_held = hg_worker_holds(&of->by.worker, hg_segment_of(it->block)).value == 1;
    uint32_t done = is_held ? bytes.count < bytes.left ? bytes.count : bytes.left : 0;
    unsigned status = done == bytes.count ? HG_DONE : is_held ? HG_OUT_OF_BLOCK : HG_ELSEWHERE;
    hg_reply told;
    if (below(of, 2)) {
        told = read_bytes(of, it->block, bytes);
        if (memcmp(of->room + BESIDE, it->model + bytes.first, done) != 0)
            wrong(&of->by, "what stands in a block of its own", told);
    } else {
        for (uint32_t at = 0; at < bytes.count; at++)
            of->room[BESIDE + at] = (unsigned char)next(&of->by);
        memcpy(it->model + bytes.first, of->room + BESIDE, done);
        told = write_bytes(of, it->block, bytes);
    }
    if (told.status != status || told.value != done || told.detail || told.owner)
        wrong(&of->by, "bytes of its own", told);
}

/* Whether a call on a block that any thread may free can be answered so. Who doesn't hold the segment,
 * or is there after the place has another block, does nothing; one who does is cut off between two
 * words. */
static int may_be(extent it, hg_reply told)
{
    switch (told.status) {
    case HG_DONE: return told.value == it.count && it.count <= it.left;
    case HG_OUT_OF_BLOCK: return told.value == it.left && it.left < it.count;
    case HG_ALREADY_FREED:
        return told.value < it.count && told.value <= it.left
            && (told.value == 0 || (it.first + told.value) % 8 == 0);
    case HG_STALE: case HG_ELSEWHERE: return told.value == 0 && it.count > 0;
    default: return 0;
    }
}

static void use_shared(server *of, hg_handle block, uint32_t size)
{
    extent it = some_bytes(of, size);
    hg_reply told;
    if (below(of, 2)) {
        told = read_bytes(of, block, it);
        for (uint64_t at = 0; at < told.value && at < it.count; at++)
            if (of->room[BESIDE + at] != byte_of(block, it.first + at)) {
                wrong(&of->by, "what stands in a shared block", told);
                break;
            }
    } else {
        for (uint32_t at = 0; at < it.count; at++)
            of->room[BESIDE + at] = byte_of(block, it.first + at);
        told = write_bytes(of, block, it);
    }
    if (!may_be(it, told)) wrong(&of->by, "bytes of a shared block", told);
    of->served += told.status == HG_DONE;
    of->cut += told.status == HG_ALREADY_FREED && told.value > 0;
    of->elsewhere += told.status == HG_ELSEWHERE;
}

/* A block with the bytes that it will always have, written piece by piece; or 0. */
static hg_handle new_block(server *of, uint32_t size)
{
    hg_handle block = alloc_block(&of->by, size);
    for (extent it = {0, 0, size}; block != 0 && it.first < size; it.first += it.count) {
        it.count = 1 + below(of, size);
        if (it.count > size - it.first) it.count = size - it.first;
        for (uint32_t at = 0; at < it.count; at++)
            of->room[BESIDE + at] = byte_of(block, it.first + at);
        hg_reply told = write_bytes(of, block, it);
        if (told.status != HG_DONE || told.value != it.count) wrong(&of->by, "a new block", told);
    }
    return block;
}

/* Frees a block that others may be at. Whether this did so or another, none of its bytes is had any
 * more. */
static void free_shared(server *of, _Atomic uint64_t *place, hg_handle block, uint32_t size)
{
    hg_handle there = block;
    if (free_block(&of->by, block)) atomic_compare_exchange_strong(place, &there, 0);
    extent all = {0, size, size};
    hg_reply told = below(of, 2) ? read_bytes(of, block, all) : write_bytes(of, block, all);
    if ((told.status != HG_STALE && told.status != HG_ALREADY_FREED) || told.value != 0)
        wrong(&of->by, "bytes of a block that was freed", told);
}

static uint64_t most;
static unsigned threads;
static _Atomic unsigned begun;

static void *serve(void *given)
{
    server *of = given;
    /* All begin at once, or the first is done before there is another. */
    for (atomic_fetch_add(&begun, 1); atomic_load(&begun) < threads;) sched_yield();
    while (of->by.events < most) {
        unsigned n = below(of, PLACES), what = below(of, 8);
        hg_handle block = atomic_load(&places[n]);
        if (what < 3) {
            own_block *own = &of->own[below(of, OWN)];
            if (own->block == 0 || below(of, 64) == 0) renew(of, own);
            else use_own(of, own);
        } else if (block == 0) {
            block = atomic_exchange(&places[n], new_block(of, size_at(n)));
            if (block != 0) free_block(&of->by, block);
        } else if (what < 7) {
            use_shared(of, block, size_at(n));
        } else {
            free_shared(of, &places[n], block, size_at(n));
        }
        if (below(of, TIDY) == 0) tidy(&of->by);
    }
    hg_reply left = hg_worker_leave_now(&of->by.worker);
    if (left.status != HG_DONE) wrong(&of->by, "leave", left);
    return NULL;
}

/* Whether a block in the core has these bytes, of which the first is a byte of its own too. */
static int has(hg_core *core, hg_handle block, const unsigned char *wanted, uint32_t size)
{
    static unsigned char bytes[LARGEST];
    hg_reply told = hg_read_bytes(core, 0, TENANT, block, 0, bytes, size);
    return told.status == HG_DONE && told.value == size && memcmp(bytes, wanted, size) == 0;
}

/* How many blocks were left, and how many of them aren't in the core as they were left. */
static uint64_t compare(hg_core *core, const server *all, uint64_t *lives)
{
    uint64_t unlike = 0;
    while (hg_refill(core, 0, ARENA).status == HG_REFILLED) {}
    for (unsigned n = 0; n < PLACES; n++) {
        unsigned char wanted[LARGEST];
        hg_handle block = atomic_load(&places[n]);
        for (uint32_t at = 0; at < size_at(n); at++) wanted[at] = byte_of(block, at);
        *lives += block != 0;
        unlike += block != 0 && !has(core, block, wanted, size_at(n));
    }
    for (unsigned n = 0; n < threads * OWN; n++) {
        const own_block *it = &all[n / OWN].own[n % OWN];
        *lives += it->block != 0;
        unlike += it->block != 0 && !has(core, it->block, it->model, it->size);
    }
    return unlike;
}

/* Adds to what one did what another did. */
static void add(server *sum, const server *more)
{
    sum->by.events += more->by.events, sum->by.made += more->by.made;
    sum->by.freed += more->by.freed, sum->by.wrong += more->by.wrong;
    sum->served += more->served, sum->cut += more->cut, sum->elsewhere += more->elsewhere;
}

int main(int count, char **words)
{
    uint64_t events = count > 1 ? strtoull(words[1], NULL, 10) : 200000, lives = 0;
    threads = count > 2 ? (unsigned)strtoul(words[2], NULL, 10) : 2;
    if (threads < 1 || threads > MOST || events < 1) return 2;
    most = events / threads;
    static server all[MOST];
    hg_worker *workers[MOST];
    hg_service service = HG_SERVICE_INIT;
    hg_core core = HG_CORE_INIT;
    for (unsigned n = 0; n < threads; n++) workers[n] = &all[n].by.worker, all[n].by.seed = n + 1;
    if (!open_service(&service, workers, threads)) return 1;
    for (unsigned n = 0; n < threads; n++)
        if (pthread_create(&all[n].by.id, NULL, serve, &all[n]) != 0) return 1;
    for (unsigned n = 0; n < threads; n++) pthread_join(all[n].by.id, NULL);
    hg_reply closed = hg_service_close(&service, &core);
    if (closed.status != HG_DONE) return printf(TEST ": close: %u\n", closed.status), 1;
    uint64_t unlike = compare(&core, all, &lives);
    server *sum = &all[0];
    for (unsigned n = 1; n < threads; n++) add(sum, &all[n]);
    uint64_t faults = sum->by.wrong + unlike + (sum->by.made != sum->by.freed + lives);
    printf(TEST ": %llu events of %u threads: %llu calls on shared blocks served, %llu cut off by a "
           "free, %llu by who doesn't hold them; %llu blocks live, %llu faults\n",
           (unsigned long long)sum->by.events, threads, (unsigned long long)sum->served,
           (unsigned long long)sum->cut, (unsigned long long)sum->elsewhere, (unsigned long long)lives,
           (unsigned long long)faults);
    return faults != 0 || hg_close(&core).status != HG_DONE;
}
