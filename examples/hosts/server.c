/* A server of four threads, with no lock: each is a worker of one service, and serves requests of
 * tenants. A request's block is made by the thread that takes it in and freed by the next thread, so
 * that each second block is freed from afar; a tenant of the plug-ins can neither read nor free what
 * the server has. In the end each thread leaves, and the service becomes a core, whose blocks are
 * told.
 */
#include "heapguard_service.h"
#include <pthread.h>
#include <stdatomic.h>
#include <stdio.h>

enum { THREADS = 4, REQUESTS = 20000, MAIN = 0, SERVER = 0, PLUGIN = 1, TIDY = 256 };

static const char POLICY[] =
    "version = 1\n"
    "workers = 4\n"
    "arena = [ {name = \"main\", segments = 16} ]\n"
    "tenant = [ {name = \"server\", limit = 1048576}, {name = \"plugin\", limit = 4096} ]\n";

/* What a thread hands to the next: one block at a time, or 0. */
static _Atomic uint64_t handed[THREADS];

typedef struct server {
    pthread_t id;
    unsigned number;
    hg_worker worker;
    unsigned served, here, afar, denied, faults;
} server;

/* A block; where there is no room, with another segment. */
static hg_handle get_block(hg_worker *worker, uint32_t actor, uint64_t bytes)
{
    for (;;) {
        hg_reply made = hg_worker_alloc(worker, actor, MAIN, bytes);
        if (made.status == HG_BLOCK) return made.value;
        if (made.status != HG_NO_ROOM) return 0;
        if (hg_worker_refill_now(worker, MAIN).status != HG_REFILLED) return 0;
    }
}

/* Frees a block, whoever holds its segment; what is freed from afar is sent there at once. */
static void put_block(server *of, hg_handle block)
{
    hg_reply freed = hg_worker_free(&of->worker, SERVER, block);
    if (freed.status == HG_DONE) {
        of->here++;
    } else if (freed.status == HG_PARTED) {
        of->afar++;
        of->faults += hg_worker_deliver_now(&of->worker).status != HG_DONE;
    } else {
        of->faults++;
    }
}

/* Takes in what the others freed of this worker's segments. */
static void tidy(server *of)
{
    for (uint32_t segment = 0; segment < 16; segment++)
        if (hg_worker_holds(&of->worker, segment).value == 1)
            of->faults += hg_worker_take_now(&of->worker, segment).status != HG_TAKEN;
    of->faults += hg_worker_collect(&of->worker).status != HG_PAGES;
}

static void *serve(void *given)
{
    server *of = given;
    _Atomic uint64_t *to_next = &handed[(of->number + 1) % THREADS];
    for (unsigned request = 1; request <= REQUESTS; request++) {
        hg_handle block = get_block(&of->worker, SERVER, 16 + request % 100);
        of->faults += hg_worker_write(&of->worker, SERVER, block, 1, request).status != HG_DONE;
        of->served += hg_worker_read(&of->worker, SERVER, block, 1).value == request;
        of->denied += hg_worker_read(&of->worker, PLUGIN, block, 1).status == HG_NOT_GRANTED;
        of->denied += hg_worker_free(&of->worker, PLUGIN, block).status == HG_NOT_GRANTED;
        if (request % 2) {
            put_block(of, block);
        } else {
            block = atomic_exchange(to_next, block);
            if (block) put_block(of, block); /* the next thread was slow */
        }
        block = atomic_exchange(&handed[of->number], 0);
        if (block) put_block(of, block);
        if (request % TIDY == 0) tidy(of);
    }
    of->faults += hg_worker_leave_now(&of->worker).status != HG_DONE;
    return NULL;
}

int main(void)
{
    static server servers[THREADS];
    hg_service service = HG_SERVICE_INIT;
    hg_core core = HG_CORE_INIT;
    char line[200];
    hg_reply opened = hg_service_open(&service, POLICY, sizeof POLICY - 1, line, sizeof line);
    if (opened.status != HG_DONE) return fprintf(stderr, "%.*s\n", (int)opened.value, line), 1;
    for (unsigned n = 0; n < THREADS; n++) {
        servers[n].number = n;
        if (hg_service_worker(&service, n, &servers[n].worker).status != HG_DONE) return 1;
    }
    for (unsigned n = 0; n < THREADS; n++)
        if (pthread_create(&servers[n].id, NULL, serve, &servers[n]) != 0) return 1;
    unsigned served = 0, freed = 0, denied = 0, faults = 0, left = 0;
    for (unsigned n = 0; n < THREADS; n++) {
        pthread_join(servers[n].id, NULL);
        served += servers[n].served, denied += servers[n].denied, faults += servers[n].faults;
        freed += servers[n].here + servers[n].afar;
    }
    hg_reply closed = hg_service_close(&service, &core);
    if (closed.status != HG_DONE) return fprintf(stderr, "%s\n", hg_status_text(closed.status)), 1;
    while (hg_refill(&core, 0, MAIN).status == HG_REFILLED) {}
    for (unsigned n = 0; n < THREADS; n++)
        if (handed[n] && hg_read(&core, 0, SERVER, handed[n], 1).status == HG_VALUE) left++;
    printf("%u requests served, %u tries of a plug-in denied, %u faults\n", served, denied, faults);
    printf("%u blocks, freed once or left in the core: %s\n", served,
           freed + left == served ? "all" : "not all");
    return hg_close(&core).status != HG_DONE;
}
