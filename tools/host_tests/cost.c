/* cost: the time of each call over the boundary, the best of many rounds, in ns. */
#define _POSIX_C_SOURCE 199309L
#include "heapguard_service.h"
#include <stdio.h>
#include <time.h>

enum { CALLS = 2000, ROUNDS = 200 };

static const char POLICY[] =
    "version = 1\n"
    "workers = 2\n"
    "tenant = [ {name = \"ann\", limit = 4294967295}, {name = \"bob\", limit = 64} ]\n"
    "arena = [ {name = \"main\", segments = 1} ]\n";

static hg_core core = HG_CORE_INIT, closed = HG_CORE_INIT;
static volatile uint64_t sink;

static void drop(hg_reply reply) { (void)reply; }

static double now(void)
{
    struct timespec time;
    clock_gettime(CLOCK_PROCESS_CPUTIME_ID, &time);
    return (double)time.tv_sec * 1e9 + (double)time.tv_nsec;
}

/* Tells the time of an expression that is a reply; `n` counts its calls. */
#define COST(what, call) COST_OF(what, CALLS, call)
#define COST_OF(what, calls, call)                            \
    do {                                                      \
        double best = 1e18;                                   \
        for (int round = 0; round < ROUNDS; round++) {        \
            uint64_t sum = 0;                                 \
            double began = now();                             \
            for (uint64_t n = 0; n < calls; n++) {            \
                hg_reply reply = call;                        \
                sum += reply.status + reply.value;            \
            }                                                 \
            double each = (now() - began) / calls;            \
            if (each < best) best = each;                     \
            sink = sum;                                       \
        }                                                     \
        printf("%-34s %8.1f\n", what, best);                  \
    } while (0)

/* A bank of so many cores, of which all but the last are full. */
static void cost_of_bank(uint32_t cores)
{
    static hg_bank bank = HG_BANK_INIT;
    if (hg_bank_open(&bank, POLICY, sizeof POLICY - 1, cores, NULL, 0).status != HG_DONE) return;
    for (uint32_t core = 0; core < cores; core++) {
        drop(hg_bank_refill(&bank, 0, 0));
        if (core + 1 < cores) drop(hg_bank_alloc(&bank, 0, 0, 0, 65536));
        drop(hg_bank_grow(&bank));
    }
    hg_bank_handle block = hg_bank_handle_of(hg_bank_alloc(&bank, 0, 0, 0, 24));
    printf("a bank of %u cores\n", (unsigned)cores);
    COST("misuse: no such core", hg_bank_deliver(&bank, 0, (uint32_t)n | 16384));
    COST("read, not granted", hg_bank_read(&bank, 0, 1, block, n & 1));
    COST("read, served", hg_bank_read(&bank, 0, 0, block, n & 1));
    COST("write, served", hg_bank_write(&bank, 0, 0, block, 1, n));
    COST("question: who holds", hg_bank_holder(&bank, 0, n & 1));
    COST("question: what a tenant is charged", hg_bank_charge(&bank, 0, n & 1));
    COST("alloc and free of the block",
         hg_bank_free(&bank, 0, 0, hg_bank_handle_of(hg_bank_alloc(&bank, 0, 0, 0, 24))));
    COST_OF("alloc, with no room in any core", 20, hg_bank_alloc(&bank, 0, 0, 0, 65536));
    COST_OF("refill, with no segment in any core", 20, hg_bank_refill(&bank, 0, 0));
    COST_OF("grow, full", 20, hg_bank_grow(&bank));
    drop(hg_bank_close(&bank));
}

/* A worker of a service, alone at it. */
static void cost_of_worker(void)
{
    static hg_service service = HG_SERVICE_INIT;
    static hg_worker one = HG_WORKER_INIT, two = HG_WORKER_INIT;
    if (hg_service_open(&service, POLICY, sizeof POLICY - 1, NULL, 0).status != HG_DONE) return;
    drop(hg_service_worker(&service, 0, &one));
    drop(hg_service_worker(&service, 1, &two));
    drop(hg_worker_refill(&one, 0));
    hg_handle block = hg_worker_alloc(&one, 0, 0, 24).value;
    printf("a worker of a service\n");
    COST("misuse: a word of no handle", hg_worker_read(&one, 0, n & 0, 0));
    COST("deliver, with nothing in hand", hg_worker_deliver(&one));
    COST("read, not granted", hg_worker_read(&one, 1, block, n & 1));
    COST("read, served", hg_worker_read(&one, 0, block, n & 1));
    COST("write, served", hg_worker_write(&one, 0, block, 1, n));
    COST("look, served", hg_worker_look(&one, 0, hg_place_of(block)));
    COST("take, of nothing", hg_worker_take(&one, 0));
    COST("question: whether it holds", hg_worker_holds(&one, n & 1));
    COST("alloc and free of the block",
         hg_worker_free(&one, 0, hg_worker_alloc(&one, 0, 0, 24).value));
    COST("the same, freed and sent by another",
         (drop(hg_worker_free(&two, 0, hg_worker_alloc(&one, 0, 0, 24).value)),
          drop(hg_worker_deliver(&two)), hg_worker_take(&one, 0)));
    drop(hg_worker_drop(&one));
    drop(hg_worker_drop(&two));
    drop(hg_service_drop(&service));
}

int main(void)
{
    if (hg_open(&core, POLICY, sizeof POLICY - 1, NULL, 0).status != HG_DONE) return 1;
    drop(hg_refill(&core, 0, 0));
    hg_handle block = hg_alloc(&core, 0, 0, 0, 24).value;
    COST("misuse: a word of no handle", hg_read(&core, 0, 0, n & 0, 0));
    COST("misuse: a closed core", hg_collect(&closed, (uint32_t)n));
    COST("misuse: no such worker", hg_deliver(&core, (uint32_t)n | 128));
    COST("deliver, with nothing in hand", hg_deliver(&core, n & 1));
    COST("read, denied to a stranger", hg_read(&core, 0, 77, block, n & 1));
    COST("read, not granted", hg_read(&core, 0, 1, block, n & 1));
    COST("read, of a stale handle", hg_read(&core, 0, 0, block + 1, n & 1));
    COST("read, served", hg_read(&core, 0, 0, block, n & 1));
    COST("write, served", hg_write(&core, 0, 0, block, 1, n));
    COST("look, served", hg_look(&core, 0, 0, hg_place_of(block)));
    char room[16];
    COST("question: how many workers", hg_workers(&core));
    COST("question: whether a worker holds", hg_holds(&core, n & 1, 0));
    COST("question: who holds", hg_holder(&core, n & 1));
    COST("question: what a tenant is charged", hg_charge(&core, 0, n & 1));
    COST("question: a tenant by its name", hg_tenant(&core, "bob", 3));
    COST("question: the name of a tenant", hg_tenant_name(&core, n & 1, room, sizeof room));
    COST("alloc, denied to a stranger", hg_alloc(&core, 0, 77, 0, 24));
    COST("alloc and free of the block", hg_free(&core, 0, 0, hg_alloc(&core, 0, 0, 0, 24).value));
    drop(hg_free(&core, 0, 0, block));
    drop(hg_collect(&core, 0));
    static uint64_t words[512];
    block = hg_alloc(&core, 0, 0, 0, sizeof words).value;
    COST_OF("write 512 words at once", 20, hg_write_words(&core, 0, 0, block, 0, words, 512));
    COST_OF("read 512 words at once", 20, hg_read_words(&core, 0, 0, block, 0, words, 512));
    COST("write a word at once", hg_write_words(&core, 0, 0, block, n & 7, words, 1));
    COST("read a word at once", hg_read_words(&core, 0, 0, block, n & 7, words, 1));
    COST("write four words at once", hg_write_words(&core, 0, 0, block, n & 7, words, 4));
    COST("read four words at once", hg_read_words(&core, 0, 0, block, n & 7, words, 4));
    COST_OF("free all, of which there are none", 2, hg_free_all(&core, 0, 0, 1));
    drop(hg_free(&core, 0, 0, block));
    drop(hg_collect(&core, 0));
    COST("alloc and free of 64 KiB",
         hg_free(&core, 0, 0, hg_alloc(&core, 0, 0, 0, 65536).value));
    drop(hg_close(&core));
    cost_of_bank(1);
    cost_of_bank(256);
    cost_of_worker();
    return 0;
}
