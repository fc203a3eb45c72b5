/* service_threads [EVENTS [THREADS]]: threads that are the workers of one service, with no lock. Each
 * makes blocks and leaves them in places that all share, takes what others left there and frees it,
 * and now and then frees what stands there still, so that several free one block at once: one alone
 * is served. In the end each lists what it holds, and leaves; the service becomes a core, and what lives
 * there is what stands in the places, each with the word that was written in it.
 */
#define TEST "service_threads"
#include "serving.h"
#include <stdatomic.h>
#include <stdlib.h>

enum { PLACES = 512, TIDY = 300 };

/* Handles of blocks that live, and 0. */
static _Atomic uint64_t places[PLACES];

/* A block with its own handle in its first word, or 0 where there is no room anywhere. */
static hg_handle new_block(thread *of)
{
    hg_handle block = alloc_block(of, 1 + next(of) % 512);
    if (block == 0) return 0;
    of->events++;
    hg_reply done = hg_worker_write(&of->worker, TENANT, block, 0, block);
    if (done.status != HG_DONE) wrong(of, "write", done);
    return block;
}

static uint64_t most;

static void *serve(void *given)
{
    thread *of = given;
    while (of->events < most) {
        _Atomic uint64_t *place = &places[next(of) % PLACES];
        hg_handle block = atomic_load(place);
        if (block != 0 && next(of) % 4 == 0) {
            /* A rival of whoever takes it from there. */
            if (free_block(of, block)) atomic_compare_exchange_strong(place, &block, 0);
            of->rivals++;
            continue;
        }
        block = new_block(of);
        block = atomic_exchange(place, block);
        if (block != 0) free_block(of, block);
        if (next(of) % TIDY == 0) tidy(of);
    }
    return NULL;
}

static void *leave(void *given)
{
    thread *of = given;
    hg_reply left = hg_worker_leave_now(&of->worker);
    if (left.status != HG_DONE) wrong(of, "leave", left);
    return NULL;
}

static unsigned times_there(hg_handle block)
{
    unsigned found = 0;
    for (unsigned at = 0; at < PLACES; at++) found += atomic_load(&places[at]) == block;
    return found;
}

/* How many of the blocks in places lie in segments that a worker holds. */
static uint64_t held(thread *of)
{
    uint64_t count = 0;
    for (unsigned at = 0; at < PLACES; at++) {
        hg_handle block = atomic_load(&places[at]);
        count += block != 0 && hg_worker_holds(&of->worker, hg_segment_of(block)).value == 1;
    }
    return count;
}

/* Whether a worker lists those, and no other; and adds how many. */
static int lists_what_it_holds(thread *of, uint64_t *listed)
{
    static hg_reply rows[PLACES];
    hg_reply told = hg_worker_list(&of->worker, TENANT, rows, PLACES);
    if (told.status != HG_DONE || told.value != held(of)) return 0;
    for (size_t at = 0; at < told.value; at++)
        if (rows[at].status != HG_LISTED || times_there(rows[at].value) != 1) return 0;
    *listed += told.value;
    return 1;
}

/* How many blocks live in the core that stand in no place, or stand there and don't live. */
static uint64_t compare(hg_core *core, uint64_t *lives)
{
    uint64_t unlike = 0;
    while (hg_refill(core, 0, ARENA).status == HG_REFILLED) {}
    for (uint32_t place = 0; place < SEGMENTS * 8192; place++) {
        hg_reply row = hg_look(core, 0, TENANT, place);
        if (row.status != HG_LISTED) continue;
        (*lives)++;
        unlike += hg_read(core, 0, TENANT, row.value, 0).value != row.value;
        unlike += times_there(row.value) != 1;
    }
    uint64_t stand = 0;
    for (unsigned at = 0; at < PLACES; at++) stand += atomic_load(&places[at]) != 0;
    return unlike + (stand != *lives);
}

static thread all[MOST];

/* All threads do this at once; whether they could be started. */
static int at_once(unsigned threads, void *(*what)(void *))
{
    for (unsigned n = 0; n < threads; n++)
        if (pthread_create(&all[n].id, NULL, what, &all[n]) != 0) return 0;
    return 1;
}

static void join(unsigned threads)
{
    for (unsigned n = 0; n < threads; n++) pthread_join(all[n].id, NULL);
}

int main(int count, char **words)
{
    uint64_t events = count > 1 ? strtoull(words[1], NULL, 10) : 400000;
    unsigned threads = count > 2 ? (unsigned)strtoul(words[2], NULL, 10) : 4;
    if (threads < 1 || threads > MOST || events < 1) return 2;
    most = events / threads;
    hg_worker *workers[MOST];
    hg_service service = HG_SERVICE_INIT;
    hg_core core = HG_CORE_INIT;
    for (unsigned n = 0; n < threads; n++) workers[n] = &all[n].worker, all[n].seed = n + 1;
    if (!open_service(&service, workers, threads) || !at_once(threads, serve)) return 1;
    /* The service may be asked meanwhile. */
    hg_reply early = hg_service_close(&service, &core);
    uint64_t made = 0, freed = 0, rivals = 0, again = 0, faults = 0, lives = 0, served = 0, listed = 0;
    faults += early.status != HG_STILL_OUT;
    join(threads);
    for (unsigned n = 0; n < threads; n++) faults += !lists_what_it_holds(&all[n], &listed);
    if (!at_once(threads, leave)) return 1;
    join(threads);
    for (unsigned n = 0; n < threads; n++) {
        made += all[n].made, freed += all[n].freed, rivals += all[n].rivals;
        again += all[n].again, faults += all[n].wrong, served += all[n].events;
    }
    hg_reply closed = hg_service_close(&service, &core);
    if (closed.status != HG_DONE) {
        printf("service_threads: close: %s %u\n", hg_status_text(closed.status),
               (unsigned)closed.value);
        return 1;
    }
    faults += compare(&core, &lives);
    faults += made != freed + lives;
    printf("service_threads: %llu events of %u threads: %llu blocks made, %llu freed, %llu live, %llu of "
           "them listed; %llu tries of rivals, %llu calls made again, %llu faults\n",
           (unsigned long long)served, threads, (unsigned long long)made, (unsigned long long)freed,
           (unsigned long long)lives, (unsigned long long)listed, (unsigned long long)rivals,
           (unsigned long long)again, (unsigned long long)faults);
    return faults != 0 || hg_close(&core).status != HG_DONE;
}
