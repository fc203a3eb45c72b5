/* ask_threads: several threads ask one core all questions at once, first with no lock, while nobody
 * writes, and then as readers of a lock whose writer makes events. Each answer is the right one, and
 * afterwards the core has all that it had, serves and closes.
 */
#define _GNU_SOURCE
#include "heapguard.h"
#include <pthread.h>
#include <stdio.h>
#include <string.h>

enum { WORKER = 0, OTHER = 1, ALICE = 0, BOB = 1, MAIN = 0, VAULT = 1 };
enum { ASKERS = 4, ROUNDS = 10000, WRITES = 1000, BLOCKS = 50, BYTES = 64, SEGMENTS = 2 };

static const char POLICY[] =
    "version = 1\n"
    "workers = 2\n"
    "tenant = [ {name = \"alice\", limit = 65536}, {name = \"bob\", limit = 65536} ]\n"
    "arena = [ {name = \"main\", segments = 1}, {name = \"vault\", segments = 1} ]\n";

static hg_core core = HG_CORE_INIT;

/* Readers wait for a writer that waits, so that both take turns. */
static pthread_rwlock_t lock = PTHREAD_RWLOCK_WRITER_NONRECURSIVE_INITIALIZER_NP;

/* Who holds each segment, as the writer was told. */
static uint32_t holder[SEGMENTS];

static unsigned is(hg_reply told, uint64_t value)
{
    return told.status == HG_VALUE && told.value == value;
}

/* Asks all questions once. Gives how many were answered wrongly. */
static unsigned ask(const hg_core *of)
{
    unsigned wrong = 0;
    char room[16];
    wrong += !is(hg_workers(of), 2) + !is(hg_segments(of), SEGMENTS);
    for (uint32_t segment = 0; segment < SEGMENTS; segment++) {
        wrong += !is(hg_holder(of, segment), holder[segment]);
        for (uint32_t worker = WORKER; worker <= OTHER; worker++)
            wrong += !is(hg_holds(of, worker, segment), holder[segment] == worker);
    }
    wrong += !is(hg_charge(of, WORKER, ALICE), BLOCKS * BYTES);
    wrong += !is(hg_charge(of, OTHER, ALICE), 0) + !is(hg_charge(of, WORKER, BOB), 0);
    wrong += !is(hg_tenant(of, "alice", 5), ALICE) + !is(hg_tenant(of, "bob", 3), BOB);
    wrong += !is(hg_arena(of, "main", 4), MAIN) + !is(hg_arena(of, "vault", 5), VAULT);
    wrong += hg_tenant(of, "mallory", 7).status != HG_NO_NAME;
    wrong += !is(hg_tenant_name(of, BOB, room, sizeof room), 3) || memcmp(room, "bob", 3) != 0;
    return wrong;
}

static void *ask_freely(void *wrong)
{
    for (unsigned round = 0; round < ROUNDS; round++) *(unsigned *)wrong += ask(&core);
    return NULL;
}

static void *ask_as_reader(void *wrong)
{
    for (unsigned round = 0; round < ROUNDS; round++) {
        pthread_rwlock_rdlock(&lock);
        *(unsigned *)wrong += ask(&core);
        pthread_rwlock_unlock(&lock);
    }
    return NULL;
}

/* Gives up the segment of the vault, and takes it for the other worker, or back. */
static unsigned move_vault(void)
{
    uint32_t next = holder[1] == WORKER ? OTHER : WORKER;
    unsigned wrong = hg_abandon(&core, holder[1], 1).status != HG_DONE;
    wrong += hg_refill(&core, next, VAULT).status != HG_REFILLED;
    holder[1] = next;
    return wrong;
}

/* Runs such threads to their end. With a block of words, makes events meanwhile. */
static unsigned run(void *(*asker)(void *), hg_handle block)
{
    pthread_t thread[ASKERS];
    unsigned wrong[ASKERS] = {0}, all = 0;
    for (unsigned n = 0; n < ASKERS; n++) {
        if (pthread_create(&thread[n], NULL, asker, &wrong[n]) != 0) return 1;
    }
    for (uint32_t n = 0; block != 0 && n < WRITES; n++) {
        pthread_rwlock_wrlock(&lock);
        all += hg_write(&core, WORKER, ALICE, block, n % 8, n).status != HG_DONE;
        all += !is(hg_read(&core, WORKER, ALICE, block, n % 8), n);
        hg_handle own = hg_alloc(&core, WORKER, BOB, MAIN, BYTES).value;
        all += hg_free(&core, WORKER, BOB, own).status != HG_DONE;
        all += move_vault();
        pthread_rwlock_unlock(&lock);
    }
    for (unsigned n = 0; n < ASKERS; n++) {
        pthread_join(thread[n], NULL);
        all += wrong[n];
    }
    return all;
}

int main(void)
{
    hg_handle block[BLOCKS];
    unsigned wrong = 0, lost = 0;
    if (hg_open(&core, POLICY, sizeof POLICY - 1, NULL, 0).status != HG_DONE) return 1;
    lost += hg_refill(&core, WORKER, MAIN).status != HG_REFILLED;
    lost += hg_refill(&core, WORKER, VAULT).status != HG_REFILLED;
    for (uint32_t n = 0; n < BLOCKS; n++) {
        block[n] = hg_alloc(&core, WORKER, ALICE, MAIN, BYTES).value;
        lost += hg_write(&core, WORKER, ALICE, block[n], 0, n).status != HG_DONE;
    }
    wrong += run(ask_freely, 0);
    wrong += run(ask_as_reader, block[0]);
    for (uint32_t n = 1; n < BLOCKS; n++)
        lost += !is(hg_read(&core, WORKER, ALICE, block[n], 0), n);
    for (uint32_t n = 0; n < BLOCKS; n++)
        lost += hg_free(&core, WORKER, ALICE, block[n]).status != HG_DONE;
    lost += hg_close(&core).status != HG_DONE;
    printf("ask_threads: %u answered wrongly, %u lost\n", wrong, lost);
    return wrong + lost != 0;
}
