/* bank_ask_threads: several threads ask one bank all questions at once, first with no lock, while
 * nobody writes, and then as readers of a lock whose writer makes events and lets the bank grow. Each
 * answer is the right one, and afterwards the bank has all that it had, serves and closes.
 */
#define _GNU_SOURCE
#include "heapguard.h"
#include <pthread.h>
#include <stdio.h>
#include <string.h>

enum { WORKER = 0, OTHER = 1, ALICE = 0, BOB = 1, MAIN = 0, VAULT = 1 };
enum { ASKERS = 4, ROUNDS = 5000, WRITES = 500, BLOCKS = 50, BYTES = 64, CORES = 8, VAULT_SEGMENT = 1 };

static const char POLICY[] =
    "version = 1\n"
    "workers = 2\n"
    "tenant = [ {name = \"alice\", limit = 65536}, {name = \"bob\", limit = 65536} ]\n"
    "arena = [ {name = \"main\", segments = 1}, {name = \"vault\", segments = 1} ]\n";

static hg_bank bank = HG_BANK_INIT;

/* Readers wait for a writer that waits, so that both take turns. */
static pthread_rwlock_t lock = PTHREAD_RWLOCK_WRITER_NONRECURSIVE_INITIALIZER_NP;

/* What the writer was told: how many cores are open, and who holds the vault of the first. */
static uint32_t cores = 1, vault_holder = WORKER;

static unsigned is(hg_reply told, uint64_t value)
{
    return told.status == HG_VALUE && told.value == value;
}

/* Asks all questions once. Gives how many were answered wrongly. */
static unsigned ask(const hg_bank *of)
{
    unsigned wrong = 0;
    char room[16];
    wrong += !is(hg_bank_cores(of), cores) + !is(hg_bank_workers(of), 2) + !is(hg_bank_segments(of), 2);
    wrong += !is(hg_bank_holder(of, 0, 0), WORKER);
    wrong += !is(hg_bank_holder(of, 0, VAULT_SEGMENT), vault_holder);
    for (uint32_t worker = WORKER; worker <= OTHER; worker++)
        wrong += !is(hg_bank_holds(of, worker, 0, VAULT_SEGMENT), vault_holder == worker);
    for (uint32_t core = 1; core <= CORES; core++)
        wrong += hg_bank_holder(of, core, 0).status != HG_NOT_HELD;
    wrong += !is(hg_bank_charge(of, WORKER, ALICE), BLOCKS * BYTES);
    wrong += !is(hg_bank_charge(of, OTHER, ALICE), 0) + !is(hg_bank_charge(of, WORKER, BOB), 0);
    wrong += !is(hg_bank_tenant(of, "alice", 5), ALICE) + !is(hg_bank_tenant(of, "bob", 3), BOB);
    wrong += !is(hg_bank_arena(of, "main", 4), MAIN) + !is(hg_bank_arena(of, "vault", 5), VAULT);
    wrong += hg_bank_tenant(of, "mallory", 7).status != HG_NO_NAME;
    wrong += !is(hg_bank_tenant_name(of, BOB, room, sizeof room), 3) || memcmp(room, "bob", 3) != 0;
    return wrong;
}

static void *ask_freely(void *wrong)
{
    for (unsigned round = 0; round < ROUNDS; round++) *(unsigned *)wrong += ask(&bank);
    return NULL;
}

static void *ask_as_reader(void *wrong)
{
    for (unsigned round = 0; round < ROUNDS; round++) {
        pthread_rwlock_rdlock(&lock);
        *(unsigned *)wrong += ask(&bank);
        pthread_rwlock_unlock(&lock);
    }
    return NULL;
}

/* Gives up the segment of the vault, and takes it for the other worker, or back. */
static unsigned move_vault(void)
{
    uint32_t next = vault_holder == WORKER ? OTHER : WORKER;
    unsigned wrong = hg_bank_abandon(&bank, vault_holder, 0, VAULT_SEGMENT).status != HG_DONE;
    hg_reply refilled = hg_bank_refill(&bank, next, VAULT);
    wrong += refilled.status != HG_REFILLED || refilled.detail != 0;
    vault_holder = next;
    return wrong;
}

/* One round of the writer, in which the bank grows now and then. */
static unsigned write_once(hg_bank_handle block, uint32_t n)
{
    unsigned wrong = hg_bank_write(&bank, WORKER, ALICE, block, n % 8, n).status != HG_DONE;
    wrong += !is(hg_bank_read(&bank, WORKER, ALICE, block, n % 8), n);
    hg_bank_handle own = hg_bank_handle_of(hg_bank_alloc(&bank, WORKER, BOB, MAIN, BYTES));
    wrong += hg_bank_free(&bank, WORKER, BOB, own).status != HG_DONE;
    if (n % 50 == 0 && cores < CORES) wrong += !is(hg_bank_grow(&bank), cores++);
    return wrong + move_vault();
}

/* Runs such threads to their end. With a block of words, makes events meanwhile. */
static unsigned run(void *(*asker)(void *), hg_bank_handle block)
{
    pthread_t thread[ASKERS];
    unsigned wrong[ASKERS] = {0}, all = 0;
    for (unsigned n = 0; n < ASKERS; n++) {
        if (pthread_create(&thread[n], NULL, asker, &wrong[n]) != 0) return 1;
    }
    for (uint32_t n = 0; block.handle != 0 && n < WRITES; n++) {
        pthread_rwlock_wrlock(&lock);
        all += write_once(block, n);
        pthread_rwlock_unlock(&lock);
    }
    for (unsigned n = 0; n < ASKERS; n++) {
        pthread_join(thread[n], NULL);
        all += wrong[n];
    }
    return all;
}

int main(void)
{
    hg_bank_handle block[BLOCKS], none = {0, 0};
    unsigned wrong = 0, lost = 0;
    if (hg_bank_open(&bank, POLICY, sizeof POLICY - 1, CORES, NULL, 0).status != HG_DONE) return 1;
    lost += hg_bank_refill(&bank, WORKER, MAIN).status != HG_REFILLED;
    lost += hg_bank_refill(&bank, WORKER, VAULT).status != HG_REFILLED;
    for (uint32_t n = 0; n < BLOCKS; n++) {
        block[n] = hg_bank_handle_of(hg_bank_alloc(&bank, WORKER, ALICE, MAIN, BYTES));
        lost += hg_bank_write(&bank, WORKER, ALICE, block[n], 0, n).status != HG_DONE;
    }
    wrong += run(ask_freely, none);
    wrong += run(ask_as_reader, block[0]);
    for (uint32_t n = 1; n < BLOCKS; n++)
        lost += !is(hg_bank_read(&bank, WORKER, ALICE, block[n], 0), n);
    for (uint32_t n = 0; n < BLOCKS; n++)
        lost += hg_bank_free(&bank, WORKER, ALICE, block[n]).status != HG_DONE;
    lost += cores != CORES;
    lost += hg_bank_close(&bank).status != HG_DONE;
    printf("bank_ask_threads: %u answered wrongly, %u lost\n", wrong, lost);
    return wrong + lost != 0;
}
