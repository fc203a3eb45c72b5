/* Each request for memory of hg_service_open, hg_service_worker, hg_service_close and hg_worker_list
 * is refused in turn: it is answered HG_NO_MEMORY, nothing is lost, and the call made again with
 * memory is served. Linked with --wrap for malloc, realloc and free.
 */
#include "heapguard_service.h"
#include "refusing.h"
#include <stdio.h>
#include <string.h>

static const char POLICY[] =
    "version = 1\n"
    "workers = 2\n"
    "tenant = [ {name = \"ann\", limit = 8192}, {name = \"bob\", limit = 64} ]\n"
    "arena = [ {name = \"main\", segments = 2}, {name = \"vault\", segments = 1} ]\n"
    "grant = [ {owner = \"ann\", to = \"bob\", rights = [\"read\", \"free\"]} ]\n";

static hg_service service = HG_SERVICE_INIT;
static hg_worker workers[2] = {HG_WORKER_INIT, HG_WORKER_INIT};
static hg_core core = HG_CORE_INIT;
static hg_handle block;

static hg_reply opening(void)
{
    char room[64];
    return hg_service_open(&service, POLICY, sizeof POLICY - 1, room, sizeof room);
}

static hg_reply giving(void) { return hg_service_worker(&service, 0, &workers[0]); }
static hg_reply giving_another(void) { return hg_service_worker(&service, 1, &workers[1]); }
static hg_reply closing(void) { return hg_service_close(&service, &core); }

static hg_reply listing(void)
{
    hg_reply row = {0, 0, 0, 0};
    hg_reply told = hg_worker_list(&workers[0], 0, &row, 1);
    if (told.status == HG_DONE && (told.value != 1 || row.value != block)) told.status = HG_LOST;
    return told;
}

/* How many requests a call makes, each refused in turn until all are served; -1 where one was
 * answered otherwise. */
static long refuse_each(const char *name, hg_reply (*call)(void))
{
    for (long n = 0; n < 100000; n++) {
        long before = live;
        left = n;
        hg_reply reply = call();
        left = -1;
        if (reply.status == HG_DONE) return n;
        if (reply.status != HG_NO_MEMORY || live > before) {
            printf("service_refused: %s: request %ld: %s, %ld lost\n", name, n,
                   hg_status_text(reply.status), live - before);
            return -1;
        }
    }
    return -1;
}

/* With no memory at all, workers serve and leave. */
static int serves_with_none(void)
{
    left = 0;
    int served = hg_worker_refill(&workers[0], 0).status == HG_REFILLED;
    block = hg_worker_alloc(&workers[0], 0, 0, 24).value;
    hg_handle other = hg_worker_alloc(&workers[0], 0, 0, 24).value;
    hg_handle sent = hg_worker_alloc(&workers[0], 0, 0, 24).value;
    served = served && hg_worker_write(&workers[0], 0, block, 2, 7).status == HG_DONE
        && hg_worker_look(&workers[0], 0, hg_place_of(block)).status == HG_LISTED
        && hg_worker_free(&workers[1], 0, other).status == HG_PARTED
        && hg_worker_deliver(&workers[1]).status == HG_DONE
        && hg_worker_take(&workers[0], 0).value == 1
        && hg_worker_collect(&workers[0]).status == HG_PAGES
        && hg_worker_free(&workers[1], 0, sent).status == HG_PARTED
        && hg_worker_deliver(&workers[1]).status == HG_DONE;
    left = -1;
    return served;
}

/* A service whose workers are out asks for memory first, and tells then who is out. */
static int asks_first(void)
{
    left = 0;
    hg_reply refused = closing();
    left = -1;
    hg_reply told = closing();
    return refused.status == HG_NO_MEMORY && told.status == HG_STILL_OUT && told.value == 0;
}

static int leaves_with_none(void)
{
    left = 0;
    int served = hg_worker_leave_now(&workers[0]).status == HG_DONE
        && hg_worker_leave_now(&workers[1]).status == HG_DONE;
    left = -1;
    return served;
}

int main(void)
{
    long opened = refuse_each("open", opening);
    long given = refuse_each("worker", giving);
    long another = refuse_each("worker", giving_another);
    int served = serves_with_none();
    long listed = refuse_each("list", listing);
    served = asks_first() && leaves_with_none() && served;
    long closed = refuse_each("close", closing);
    int kept = hg_refill(&core, 0, 0).status == HG_REFILLED
        && hg_read(&core, 0, 0, block, 2).value == 7 && hg_take(&core, 0, 0).value == 1
        && hg_close(&core).status == HG_DONE;
    printf("service_refused: %ld requests of an opening, %ld and %ld of a worker, %ld of a listing, %ld "
           "of a closing; with none served: %s; %ld lost\n",
           opened, given, another, listed, closed, served ? "all events served" : "an event wasn't", live);
    return opened < 1 || given < 1 || another < 1 || listed < 1 || closed < 1 || !served || !kept
        || live != 0;
}
