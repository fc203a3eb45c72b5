/* service_rounds [ROUNDS]: what workers in threads share is never missing, and nothing of it is lost.
 * Two take segments from one pool and give them back: one is always there. Three send to the holder of a
 * segment while it takes in: no list refuses it, and all of it comes home. A service is asked to close,
 * again and again, while one worker takes its segment and gives it up and another sends blocks there: it
 * goes on each time, its segment is there whenever it isn't held, and the core has all that they left.
 * What a thread has freed is freed for the holder, once that thread is joined.
 */
#define TEST "service_rounds"
#include "checked.h"
#include "heapguard_service.h"
#include <pthread.h>
#include <stdatomic.h>
#include <stdlib.h>

enum { WORKERS = 4, BLOCKS = 16, OWNER = 0, ARENA = 0, SIZE = 24 };

static const char POLICY[] =
    "version = 1\n"
    "workers = 4\n"
    "tenant = [ {name = \"ann\", limit = 65536} ]\n"
    "arena = [ {name = \"main\", segments = %u} ]\n";

/* A thread that is a worker, for some of these. */
typedef struct {
    pthread_t id;
    hg_worker worker;
    hg_handle blocks[BLOCKS], kept;
    uint64_t rounds, home, wrong;
} thread;

static thread all[WORKERS];
static uint64_t rounds = 40;
static atomic_ulong asked; /* how often a service was asked to close */
static unsigned long most; /* and how often it is asked before its workers leave */

static int is(hg_reply reply, unsigned status, uint64_t value)
{
    return reply.status == status && reply.value == value;
}

/* A service of so many segments, with all of its workers. */
static hg_service opened(unsigned segments)
{
    char policy[sizeof POLICY + 8];
    hg_service service = HG_SERVICE_INIT;
    int length = snprintf(policy, sizeof policy, POLICY, segments);
    CHECK(is_plain(hg_service_open(&service, policy, (size_t)length, NULL, 0), HG_DONE));
    for (uint32_t n = 0; n < WORKERS; n++) {
        thread fresh = {.worker = HG_WORKER_INIT};
        all[n] = fresh;
        all[n].rounds = rounds;
        CHECK(is_plain(hg_service_worker(&service, n, &all[n].worker), HG_DONE));
    }
    return service;
}

static void begin(thread *of, void *(*what)(void *))
{
    if (pthread_create(&of->id, NULL, what, of) != 0) exit(2);
}

/* What went wrong in a thread that ends. */
static void end(thread *of)
{
    pthread_join(of->id, NULL);
    CHECK(of->wrong == 0);
}

static void all_leave(hg_service *service, hg_core *core)
{
    for (unsigned n = 0; n < WORKERS; n++)
        CHECK(is_plain(hg_worker_leave_now(&all[n].worker), HG_DONE));
    CHECK(is_plain(hg_service_close(service, core), HG_DONE));
}

/* Takes a segment, gives a block out there and frees it, and gives the segment up. */
static int goes_round(hg_worker *worker)
{
    hg_reply taken = hg_worker_refill_now(worker, ARENA);
    hg_reply made = hg_worker_alloc(worker, OWNER, ARENA, SIZE);
    return taken.status == HG_REFILLED && made.status == HG_BLOCK
        && is(hg_worker_free(worker, OWNER, made.value), HG_DONE, 0)
        && is(hg_worker_take_now(worker, (uint32_t)taken.value), HG_TAKEN, 0)
        && is(hg_worker_abandon_now(worker, (uint32_t)taken.value), HG_DONE, 0);
}

static void *go_round(void *given)
{
    thread *of = given;
    for (uint64_t n = 0; n < 100 * of->rounds; n++) of->wrong += !goes_round(&of->worker);
    return NULL;
}

/* There are as many segments as threads. */
static void try_segments(void)
{
    hg_core core = HG_CORE_INIT;
    hg_service service = opened(2);
    for (unsigned n = 0; n < 2; n++) begin(&all[n], go_round);
    for (unsigned n = 0; n < 2; n++) end(&all[n]);
    all_leave(&service, &core);
    CHECK(is_plain(hg_close(&core), HG_DONE));
}

/* Frees blocks of another's, and sends each. */
static void *send(void *given)
{
    thread *of = given;
    for (unsigned n = 0; n < BLOCKS; n++) {
        of->wrong += !is(hg_worker_free(&of->worker, OWNER, of->blocks[n]), HG_PARTED, 0);
        of->wrong += !is(hg_worker_deliver_now(&of->worker), HG_DONE, 0);
    }
    return NULL;
}

/* How many places come home. */
static uint64_t taken(thread *of)
{
    hg_reply told = hg_worker_take_now(&of->worker, 0);
    of->wrong += told.status != HG_TAKEN;
    return told.value;
}

static void *take(void *given)
{
    thread *of = given;
    for (unsigned n = 0; n < 40; n++) of->home += taken(of);
    return NULL;
}

/* The others free and send blocks of a worker's, while it takes in. */
static void send_and_take(thread *holder)
{
    holder->home = 0;
    CHECK(is(hg_worker_refill_now(&holder->worker, ARENA), HG_REFILLED, 0));
    for (thread *of = all; of < all + WORKERS; of++)
        for (unsigned n = 0; n < BLOCKS && of != holder; n++)
            of->blocks[n] = hg_worker_alloc(&holder->worker, OWNER, ARENA, SIZE).value;
    for (thread *of = all; of < all + WORKERS; of++) begin(of, of == holder ? take : send);
    for (thread *of = all; of < all + WORKERS; of++) end(of);
    holder->home += taken(holder);
    CHECK(holder->home == (WORKERS - 1) * BLOCKS && holder->wrong == 0);
    CHECK(is(hg_worker_collect(&holder->worker), HG_PAGES, 1));
    CHECK(is(hg_worker_abandon_now(&holder->worker, 0), HG_DONE, 0));
}

/* Each worker holds the segment by turns. */
static void try_sending(void)
{
    hg_core core = HG_CORE_INIT;
    hg_service service = opened(1);
    for (uint64_t n = 0; n < rounds * WORKERS; n++) send_and_take(&all[n % WORKERS]);
    all_leave(&service, &core);
    CHECK(is_plain(hg_close(&core), HG_DONE));
}

/* Takes the segment, in which a block lives, and gives it up, until the service was asked often; then
 * leaves. */
static void *hold_and_give_up(void *given)
{
    thread *of = given;
    while (atomic_load(&asked) < most) {
        of->wrong += !is(hg_worker_refill_now(&of->worker, ARENA), HG_REFILLED, 0);
        of->wrong += !is(hg_worker_read(&of->worker, OWNER, of->kept, 0), HG_VALUE, 5);
        of->wrong += !is(hg_worker_abandon_now(&of->worker, 0), HG_DONE, 0);
    }
    of->wrong += hg_worker_leave_now(&of->worker).status != HG_DONE;
    return NULL;
}

/* Frees blocks and sends each, after the service was asked once more; then leaves. */
static void *send_and_leave(void *given)
{
    thread *of = given;
    for (unsigned n = 0; n < BLOCKS; n++) {
        for (unsigned long before = atomic_load(&asked); atomic_load(&asked) == before;) {}
        of->wrong += !is(hg_worker_free(&of->worker, OWNER, of->blocks[n]), HG_PARTED, 0);
        of->wrong += !is(hg_worker_deliver_now(&of->worker), HG_DONE, 0);
    }
    of->wrong += hg_worker_leave_now(&of->worker).status != HG_DONE;
    return NULL;
}

static void try_closing(void)
{
    hg_core core = HG_CORE_INIT;
    hg_service service = opened(1);
    hg_reply told;
    CHECK(is(hg_worker_refill_now(&all[0].worker, ARENA), HG_REFILLED, 0));
    hg_handle kept = all[0].kept = hg_worker_alloc(&all[0].worker, OWNER, ARENA, SIZE).value;
    CHECK(is(hg_worker_write(&all[0].worker, OWNER, kept, 0, 5), HG_DONE, 0));
    for (unsigned n = 0; n < BLOCKS; n++)
        all[1].blocks[n] = hg_worker_alloc(&all[0].worker, OWNER, ARENA, SIZE).value;
    CHECK(is(hg_worker_abandon_now(&all[0].worker, 0), HG_DONE, 0));
    for (unsigned n = 2; n < WORKERS; n++) CHECK(is_plain(hg_worker_leave(&all[n].worker), HG_DONE));
    most = atomic_load(&asked) + BLOCKS + 5 * rounds;
    begin(&all[0], hold_and_give_up);
    begin(&all[1], send_and_leave);
    for (;;) {
        told = hg_service_close(&service, &core);
        if (told.status != HG_STILL_OUT || told.value > 1) break;
        atomic_fetch_add(&asked, 1);
    }
    CHECK(is_plain(told, HG_DONE));
    end(&all[0]);
    end(&all[1]);
    CHECK(is(hg_refill(&core, 0, ARENA), HG_REFILLED, 0));
    CHECK(is(hg_read(&core, 0, OWNER, kept, 0), HG_VALUE, 5));
    CHECK(is(hg_take(&core, 0, 0), HG_TAKEN, BLOCKS));
    CHECK(is_plain(hg_close(&core), HG_DONE));
}

static void *free_first(void *given)
{
    thread *of = given;
    of->wrong += !is(hg_worker_free(&of->worker, OWNER, of->blocks[0]), HG_PARTED, 0);
    return NULL;
}

static void try_joining(void)
{
    hg_core core = HG_CORE_INIT;
    hg_service service = opened(1);
    CHECK(is(hg_worker_refill_now(&all[0].worker, ARENA), HG_REFILLED, 0));
    all[1].blocks[0] = hg_worker_alloc(&all[0].worker, OWNER, ARENA, SIZE).value;
    begin(&all[1], free_first);
    end(&all[1]);
    CHECK(is_plain(hg_worker_read(&all[0].worker, OWNER, all[1].blocks[0], 0), HG_ALREADY_FREED));
    all_leave(&service, &core);
    CHECK(is_plain(hg_close(&core), HG_DONE));
}

int main(int count, char **words)
{
    if (count > 1) rounds = strtoull(words[1], NULL, 10);
    try_segments();
    try_sending();
    for (uint64_t n = 0; n < rounds; n += 10) try_closing();
    try_joining();
    printf(TEST ": %u checks, %lu times asked to close, %u failed\n", checks, atomic_load(&asked), failed);
    return failed != 0;
}
