/* bank_service_careless: a host that looks at no status, with a bank of services. It asks for the numbers
 * of names that the policy lacks, of one that is closed; it acts by workers that were never given, that
 * have left, and that are banks of services themselves; it names blocks of cores that aren't there, and
 * leaves and closes too early. It is told nothing, and the block that is there stays as it was.
 */
#include "heapguard_service.h"
#include <stdio.h>
#include <string.h>

enum { WORDS = 8, CORES = 2, ROWS = 4 };

static const char POLICY[] =
    "version = 1\n"
    "workers = 2\n"
    "tenant = [ {name = \"alice\", limit = 70000}, {name = \"bob\", limit = 8192} ]\n"
    "arena = [ {name = \"main\", segments = 1}, {name = \"vault\", segments = 1} ]\n";

/* What the policy has no tenant and no arena by. The last is no text. */
static const char *const NAMES[] = {"", "mallory", "Alice", "alice ", "\xff\xfe"};
enum { NAMED = sizeof NAMES / sizeof *NAMES };

static uint32_t tenant(hg_bank_service *service, const char *name)
{
    return (uint32_t)hg_bank_service_tenant(service, name, strlen(name)).value;
}

static uint32_t arena(hg_bank_service *service, const char *name)
{
    return (uint32_t)hg_bank_service_arena(service, name, strlen(name)).value;
}

/* What a host does that doesn't look. */
static void drop(hg_reply reply) { (void)reply; }

/* All that a tenant can do by a worker with a block of its own, and with one that it was told of.
 * Gives what the calls told: 0 where they told nothing. */
static uint64_t told(hg_bank_worker *worker, uint32_t actor, uint32_t where, hg_bank_handle block)
{
    hg_bank_handle own = hg_bank_handle_of(hg_bank_worker_alloc(worker, actor, where, 64));
    hg_reply rows[ROWS];
    uint64_t all = own.core | own.handle;
    memset(rows, 0, sizeof rows);
    all |= hg_bank_worker_look(worker, actor, hg_bank_core_of(block), hg_place_of(block.handle)).value;
    for (uint32_t core = 0; core < CORES + 1; core++)
        all |= hg_bank_worker_list(worker, core, actor, rows, ROWS).value;
    for (unsigned n = 0; n < ROWS; n++) all |= rows[n].value | rows[n].detail;
    for (uint32_t at = 0; at < WORDS; at++) {
        all |= hg_bank_worker_read(worker, actor, block, at).value;
        all |= hg_bank_worker_read(worker, actor, own, at).value;
        drop(hg_bank_worker_write(worker, actor, block, at, 0));
        drop(hg_bank_worker_write(worker, actor, own, at, 1));
    }
    drop(hg_bank_worker_free(worker, actor, block));
    drop(hg_bank_worker_free(worker, actor, own));
    return all;
}

/* The same by a worker that isn't there, with all else that one may be asked. */
static uint64_t told_by_none(hg_bank_worker *worker, uint32_t actor, uint32_t where, hg_bank_handle block)
{
    uint64_t all = told(worker, actor, where, block);
    all |= hg_bank_worker_refill(worker, where).value | hg_bank_worker_take(worker, 1, 0).value;
    all |= hg_bank_worker_collect(worker, 1).value | hg_bank_worker_holds(worker, 1, 0).value;
    all |= hg_bank_worker_number(worker).value | hg_bank_worker_cores(worker).value;
    all |= hg_bank_worker_hand(worker, 1).value | hg_bank_worker_charge(worker, actor).value;
    drop(hg_bank_worker_deliver(worker, 1));
    drop(hg_bank_worker_abandon(worker, 1, 0));
    drop(hg_bank_worker_leave(worker));
    drop(hg_bank_worker_leave_now(worker));
    return all;
}

int main(void)
{
    hg_bank_service service = HG_BANK_SERVICE_INIT, closed = HG_BANK_SERVICE_INIT;
    hg_bank_worker one = HG_BANK_WORKER_INIT, two = HG_BANK_WORKER_INIT, none = HG_BANK_WORKER_INIT;
    hg_bank_worker gone = HG_BANK_WORKER_INIT;
    hg_bank bank = HG_BANK_INIT;
    unsigned failed = 0;
    drop(hg_bank_service_open(&service, POLICY, sizeof POLICY - 1, 0, NULL, 0));
    drop(hg_bank_service_open(&service, POLICY, sizeof POLICY - 1, 16385, NULL, 0));
    failed += hg_bank_service_cores(&service).value != 0;
    if (hg_bank_service_open(&service, POLICY, sizeof POLICY - 1, CORES, NULL, 0).status != HG_DONE) return 1;
    drop(hg_bank_service_open(&service, "", 0, 1, NULL, 0));
    drop(hg_bank_service_worker(&service, 0, &one));
    drop(hg_bank_service_worker(&service, 0, &two));
    drop(hg_bank_service_worker(&service, 1, &one));
    drop(hg_bank_service_worker(&service, 255, &two));
    drop(hg_bank_service_worker(&service, UINT32_MAX, &two));
    drop(hg_bank_service_worker(&closed, 1, &two));
    uint32_t alice = tenant(&service, "alice"), bob = tenant(&service, "bob");
    uint32_t open = arena(&service, "main");
    for (unsigned n = 0; n < 2 * CORES; n++) drop(hg_bank_worker_refill(&one, open));
    drop(hg_bank_worker_alloc(&one, alice, open, 65536));
    hg_bank_handle block = hg_bank_handle_of(hg_bank_worker_alloc(&one, alice, open, 8 * WORDS));
    failed += block.core > 1;
    for (uint32_t at = 0; at < WORDS; at++)
        drop(hg_bank_worker_write(&one, alice, block, at, at + 100));
    for (unsigned n = 0; n < NAMED; n++) {
        uint32_t nobody = tenant(&service, NAMES[n]), nowhere = arena(&service, NAMES[n]);
        failed += nobody != 255 || nowhere != 255;
        failed += hg_bank_worker_charge(&one, nobody).value != 0;
        failed += told(&one, nobody, open, block) != 0;
        failed += told(&one, nobody, nowhere, block) != 0;
        failed += told(&one, bob, nowhere, block) != 0;
        failed += hg_bank_worker_refill(&one, nowhere).value != 0;
    }
    failed += told(&one, tenant(&closed, "alice"), open, block) != 0;
    failed += told(&one, bob, arena(&closed, "main"), block) != 0;
    /* By those who aren't there: never given, one that has left, and each of a bank of services. */
    drop(hg_bank_service_worker(&service, 1, &gone));
    drop(hg_bank_worker_leave_now(&gone));
    failed += told_by_none(&none, alice, open, block) != 0;
    failed += told_by_none(&gone, alice, open, block) != 0;
    drop(hg_bank_service_worker(&service, 1, &none));
    failed += told_by_none(&none, alice, open, block) != 0;
    /* The same handle in each core where the block isn't. */
    static const uint64_t OTHERS[] = {2, 3, 16383, 65535, 65536, 65537, UINT64_C(1) << 32 | 1};
    for (unsigned n = 0; n < sizeof OTHERS / sizeof *OTHERS; n++) {
        hg_bank_handle other = {OTHERS[n], block.handle};
        failed += hg_bank_worker_read(&one, alice, other, 0).value != 0;
        drop(hg_bank_worker_write(&one, alice, other, 0, 1));
        drop(hg_bank_worker_free(&one, alice, other));
    }
    /* It leaves and closes with a segment in hand, and goes on. */
    drop(hg_bank_worker_leave(&one));
    drop(hg_bank_service_close(&service, &bank));
    drop(hg_bank_worker_drop((hg_bank_worker *)&service));
    drop(hg_bank_service_drop((hg_bank_service *)&one));
    for (uint32_t at = 0; at < WORDS; at++)
        failed += hg_bank_worker_read(&one, alice, block, at).value != at + 100;
    failed += hg_bank_worker_free(&one, alice, block).status != HG_DONE;
    failed += hg_bank_worker_leave_now(&one).status != HG_DONE;
    failed += hg_bank_service_close(&service, &bank).status != HG_DONE;
    failed += hg_bank_cores(&bank).value != CORES;
    drop(hg_bank_close(&bank));
    printf("bank_service_careless: %u of it told something, or touched another's\n", failed);
    return failed != 0;
}
