/* The calls of a core, of a bank and of the workers of a service made in one way, so that what is tried
 * of bytes is tried of all three. One of each is there; of the bank the second core has the blocks.
 */
#ifndef BYTE_CALLS_H
#define BYTE_CALLS_H

#include "heapguard_service.h"

enum { WORKERS = 2, CORES = 2, CORE = 1 };

typedef struct {
    const char *name;
    unsigned no_worker; /* what a worker that isn't there is answered */
    hg_reply (*open)(const char *policy, size_t length);
    hg_reply (*close)(void);
    hg_reply (*refill)(uint32_t worker, uint32_t arena);
    hg_reply (*alloc)(uint32_t worker, uint32_t actor, uint32_t arena, uint64_t bytes);
    hg_reply (*free)(uint32_t worker, uint32_t actor, hg_handle block);
    hg_reply (*word)(uint32_t worker, uint32_t actor, hg_handle block, uint32_t index);
    hg_reply (*words)(uint32_t worker, uint32_t actor, hg_handle block, uint64_t *room, size_t count);
    hg_reply (*read)(uint32_t worker, uint32_t actor, hg_handle block, uint64_t first, void *room,
                     size_t count);
    hg_reply (*write)(uint32_t worker, uint32_t actor, hg_handle block, uint64_t first,
                      const void *bytes, size_t count);
} kind;

static hg_core core = HG_CORE_INIT;

static hg_reply core_open(const char *policy, size_t length)
{
    return hg_open(&core, policy, length, NULL, 0);
}

static hg_reply core_close(void) { return hg_close(&core); }

static hg_reply core_refill(uint32_t worker, uint32_t arena)
{
    return hg_refill(&core, worker, arena);
}

static hg_reply core_alloc(uint32_t worker, uint32_t actor, uint32_t arena, uint64_t bytes)
{
    return hg_alloc(&core, worker, actor, arena, bytes);
}

static hg_reply core_free(uint32_t worker, uint32_t actor, hg_handle block)
{
    return hg_free(&core, worker, actor, block);
}

static hg_reply core_word(uint32_t worker, uint32_t actor, hg_handle block, uint32_t index)
{
    return hg_read(&core, worker, actor, block, index);
}

static hg_reply core_words(uint32_t worker, uint32_t actor, hg_handle block, uint64_t *room,
                           size_t count)
{
    return hg_read_words(&core, worker, actor, block, 0, room, count);
}

static hg_reply core_read(uint32_t worker, uint32_t actor, hg_handle block, uint64_t first,
                          void *room, size_t count)
{
    return hg_read_bytes(&core, worker, actor, block, first, room, count);
}

static hg_reply core_write(uint32_t worker, uint32_t actor, hg_handle block, uint64_t first,
                           const void *bytes, size_t count)
{
    return hg_write_bytes(&core, worker, actor, block, first, bytes, count);
}

static hg_bank bank = HG_BANK_INIT;

static hg_bank_handle in_bank(hg_handle block)
{
    hg_bank_handle named = {CORE, block};
    return named;
}

static hg_reply bank_open(const char *policy, size_t length)
{
    hg_reply opened = hg_bank_open(&bank, policy, length, CORES, NULL, 0);
    if (opened.status != HG_DONE) return opened;
    hg_reply grown = hg_bank_grow(&bank);
    return grown.status == HG_VALUE ? opened : grown;
}

static hg_reply bank_close(void) { return hg_bank_close(&bank); }

/* Segments, until one is of that core. */
static hg_reply bank_refill(uint32_t worker, uint32_t arena)
{
    for (;;) {
        hg_reply told = hg_bank_refill(&bank, worker, arena);
        if (told.status != HG_REFILLED || told.detail == CORE) return told;
    }
}

static hg_reply bank_alloc(uint32_t worker, uint32_t actor, uint32_t arena, uint64_t bytes)
{
    return hg_bank_alloc(&bank, worker, actor, arena, bytes);
}

static hg_reply bank_free(uint32_t worker, uint32_t actor, hg_handle block)
{
    return hg_bank_free(&bank, worker, actor, in_bank(block));
}

static hg_reply bank_word(uint32_t worker, uint32_t actor, hg_handle block, uint32_t index)
{
    return hg_bank_read(&bank, worker, actor, in_bank(block), index);
}

static hg_reply bank_words(uint32_t worker, uint32_t actor, hg_handle block, uint64_t *room,
                           size_t count)
{
    return hg_bank_read_words(&bank, worker, actor, in_bank(block), 0, room, count);
}

static hg_reply bank_read(uint32_t worker, uint32_t actor, hg_handle block, uint64_t first,
                          void *room, size_t count)
{
    return hg_bank_read_bytes(&bank, worker, actor, in_bank(block), first, room, count);
}

static hg_reply bank_write(uint32_t worker, uint32_t actor, hg_handle block, uint64_t first,
                           const void *bytes, size_t count)
{
    return hg_bank_write_bytes(&bank, worker, actor, in_bank(block), first, bytes, count);
}

static hg_service service = HG_SERVICE_INIT;
static hg_worker workers[WORKERS];

/* The worker of a number; of any other there is none. */
static hg_worker *worker_of(uint32_t number)
{
    static hg_worker none = HG_WORKER_INIT;
    return number < WORKERS ? &workers[number] : &none;
}

static hg_reply service_open(const char *policy, size_t length)
{
    hg_reply told = hg_service_open(&service, policy, length, NULL, 0);
    for (uint32_t n = 0; n < WORKERS && told.status == HG_DONE; n++)
        told = hg_service_worker(&service, n, &workers[n]);
    return told;
}

static hg_reply service_close(void)
{
    for (uint32_t n = 0; n < WORKERS; n++) {
        hg_reply dropped = hg_worker_drop(&workers[n]);
        if (dropped.status != HG_DONE) return dropped;
    }
    return hg_service_drop(&service);
}

static hg_reply worker_refill(uint32_t worker, uint32_t arena)
{
    return hg_worker_refill(worker_of(worker), arena);
}

static hg_reply worker_alloc(uint32_t worker, uint32_t actor, uint32_t arena, uint64_t bytes)
{
    return hg_worker_alloc(worker_of(worker), actor, arena, bytes);
}

static hg_reply worker_free(uint32_t worker, uint32_t actor, hg_handle block)
{
    return hg_worker_free(worker_of(worker), actor, block);
}

static hg_reply worker_word(uint32_t worker, uint32_t actor, hg_handle block, uint32_t index)
{
    return hg_worker_read(worker_of(worker), actor, block, index);
}

static hg_reply worker_words(uint32_t worker, uint32_t actor, hg_handle block, uint64_t *room,
                             size_t count)
{
    return hg_worker_read_words(worker_of(worker), actor, block, 0, room, count);
}

static hg_reply worker_read(uint32_t worker, uint32_t actor, hg_handle block, uint64_t first,
                            void *room, size_t count)
{
    return hg_worker_read_bytes(worker_of(worker), actor, block, first, room, count);
}

static hg_reply worker_write(uint32_t worker, uint32_t actor, hg_handle block, uint64_t first,
                             const void *bytes, size_t count)
{
    return hg_worker_write_bytes(worker_of(worker), actor, block, first, bytes, count);
}

static const kind ALL[] = {
    {"core", HG_NO_WORKER, core_open, core_close, core_refill, core_alloc, core_free, core_word,
     core_words, core_read, core_write},
    {"bank", HG_NO_WORKER, bank_open, bank_close, bank_refill, bank_alloc, bank_free, bank_word,
     bank_words, bank_read, bank_write},
    {"worker", HG_CLOSED, service_open, service_close, worker_refill, worker_alloc, worker_free,
     worker_word, worker_words, worker_read, worker_write},
};
enum { KINDS = sizeof ALL / sizeof *ALL };

/* Whether the block has these bytes, as its words tell it: eight in each, the least first. Its size is
 * at most 4096, and whole words. */
static inline int has_bytes(const kind *of, uint32_t worker, uint32_t owner, hg_handle block,
                     const unsigned char *wanted, size_t size)
{
    uint64_t words[512];
    hg_reply told = of->words(worker, owner, block, words, size / 8);
    if (told.status != HG_DONE || told.value != size / 8) return 0;
    for (size_t at = 0; at < size; at++)
        if ((words[at / 8] >> at % 8 * 8 & 255) != wanted[at]) return 0;
    return 1;
}

#endif
