/* Each request for memory of hg_bank_service_open, hg_bank_service_worker, hg_bank_service_close and
 * hg_bank_worker_list is refused in turn: it is answered HG_NO_MEMORY, nothing is lost, and the call made
 * again with memory is served. Linked with --wrap for malloc, realloc and free.
 */
#include "heapguard_service.h"
#include "refusing.h"
#include <stdio.h>

enum { CORES = 3 };

static const char POLICY[] =
    "version = 1\n"
    "workers = 2\n"
    "tenant = [ {name = \"ann\", limit = 140000}, {name = \"bob\", limit = 64} ]\n"
    "arena = [ {name = \"main\", segments = 1}, {name = \"vault\", segments = 1} ]\n"
    "grant = [ {owner = \"ann\", to = \"bob\", rights = [\"read\", \"free\"]} ]\n";

static hg_bank_service service = HG_BANK_SERVICE_INIT;
static hg_bank_worker workers[2] = {HG_BANK_WORKER_INIT, HG_BANK_WORKER_INIT};
static hg_bank bank = HG_BANK_INIT;
static hg_bank_handle block;

static hg_reply opening(void)
{
    char room[64];
    return hg_bank_service_open(&service, POLICY, sizeof POLICY - 1, CORES, room, sizeof room);
}

static hg_reply giving(void) { return hg_bank_service_worker(&service, 0, &workers[0]); }
static hg_reply giving_another(void) { return hg_bank_service_worker(&service, 1, &workers[1]); }
static hg_reply closing(void) { return hg_bank_service_close(&service, &bank); }

static hg_reply listing(void)
{
    hg_reply row = {0, 0, 0, 0};
    hg_reply told = hg_bank_worker_list(&workers[0], 1, 0, &row, 1);
    if (told.status == HG_DONE && (told.value != 1 || row.value != block.handle)) told.status = HG_LOST;
    return told;
}

/* How many requests a call makes, each refused in turn until all are served; -1 where one was
 * answered otherwise. */
static long refuse_each(const char *name, hg_reply (*call)(void))
{
    for (long n = 0; n < 100000; n++) {
        long before = live;
        left = n;
        hg_reply reply = call();
        left = -1;
        if (reply.status == HG_DONE) return n;
        if (reply.status != HG_NO_MEMORY || live > before) {
            printf("bank_service_refused: %s: request %ld: %s, %ld lost\n", name, n,
                   hg_status_text(reply.status), live - before);
            return -1;
        }
    }
    return -1;
}

/* With no memory at all, workers serve, in two cores, and leave. */
static int serves_with_none(void)
{
    hg_bank_worker *one = &workers[0], *two = &workers[1];
    left = 0;
    int served = hg_bank_worker_refill(one, 0).detail == 0
        && hg_bank_worker_alloc(one, 0, 0, 65536).status == HG_BLOCK
        && hg_bank_worker_refill(one, 0).detail == 1;
    block = hg_bank_handle_of(hg_bank_worker_alloc(one, 0, 0, 24));
    hg_bank_handle other = hg_bank_handle_of(hg_bank_worker_alloc(one, 0, 0, 24));
    served = served && block.core == 1 && hg_bank_worker_write(one, 0, block, 2, 7).status == HG_DONE
        && hg_bank_worker_look(one, 0, 1, hg_place_of(block.handle)).status == HG_LISTED
        && hg_bank_worker_free(two, 0, other).status == HG_PARTED
        && hg_bank_worker_deliver(two, 1).status == HG_DONE
        && hg_bank_worker_take(one, 1, 0).value == 1
        && hg_bank_worker_collect(one, 1).status == HG_PAGES
        && hg_bank_worker_charge(one, 0).value == 65536 + 24;
    left = -1;
    return served;
}

static int leaves_with_none(void)
{
    left = 0;
    int served = hg_bank_worker_leave_now(&workers[0]).status == HG_DONE
        && hg_bank_worker_leave_now(&workers[1]).status == HG_DONE;
    left = -1;
    return served;
}

static int is_kept(void)
{
    while (hg_bank_refill(&bank, 0, 0).status == HG_REFILLED) {}
    return hg_bank_cores(&bank).value == CORES && hg_bank_read(&bank, 0, 0, block, 2).value == 7
        && hg_bank_close(&bank).status == HG_DONE;
}

int main(void)
{
    long opened = refuse_each("open", opening);
    long given = refuse_each("worker", giving);
    long another = refuse_each("worker", giving_another);
    int served = serves_with_none();
    long listed = refuse_each("list", listing);
    served = leaves_with_none() && served;
    long closed = refuse_each("close", closing);
    int kept = is_kept();
    printf("bank_service_refused: %ld requests of an opening, %ld and %ld of a worker, %ld of a listing, "
           "%ld of a closing; with none served: %s; what lives is %s; %ld lost\n",
           opened, given, another, listed, closed, served ? "all events served" : "an event wasn't",
           kept ? "there" : "gone", live);
    return opened < 1 || given < 1 || another < 1 || listed < 1 || closed < 1 || !served || !kept
        || live != 0;
}
