/* bank_service_agree [CALLS [SEED [CORES]]]: the workers of a bank of services, called by one thread, answer
 * as those of a bank of as many cores do; where it has one core, as those of a service too. The same calls
 * are made to each, and the replies compared, charges, hands and listings too; in the end the bank of
 * services becomes a bank, and what lives there is what lives in the other.
 */
#define TEST "bank_service_agree"
#include "heapguard_service.h"
#include "seeded.h"
#include <stdio.h>
#include <stdlib.h>

enum { WORKERS = 3, TENANTS = 3, ARENAS = 2, SEGMENTS = 3, KEPT = 64, ROWS = 4096, KINDS = 11 };

static const char POLICY[] =
    "version = 2\n"
    "workers = 3\n"
    "max_generation = 90\n"
    "tenant = [ {name = \"ann\", limit = 150000}, {name = \"bob\", limit = 5000}, "
    "{name = \"cleo\", limit = 70000} ]\n"
    "arena = [ {name = \"main\", segments = 2}, {name = \"vault\", segments = 1, exclusive = [\"ann\"]} ]\n"
    "grant = [ {owner = \"ann\", to = \"bob\", rights = [\"read\", \"free\", \"list\"]} ]\n";

static hg_bank_service service = HG_BANK_SERVICE_INIT;
static hg_bank_worker workers[WORKERS];
static hg_bank bank = HG_BANK_INIT, made = HG_BANK_INIT;
static hg_service lone = HG_SERVICE_INIT;
static hg_worker its[WORKERS];
static uint32_t cores = 1;
static unsigned long calls, failed, served;

/* Blocks that were given out, some of which are freed by now. */
static hg_bank_handle kept[KEPT];

static void same(const char *call, hg_reply told, hg_reply wanted)
{
    served += (unsigned long)hg_is_served(wanted.status);
    if (told.status == wanted.status && told.owner == wanted.owner && told.detail == wanted.detail
        && told.value == wanted.value)
        return;
    if (failed++ < 10)
        printf(TEST ": %s, call %lu: %s %u %llu, and not %s %u %llu\n", call, calls,
               hg_status_text(told.status), told.detail, (unsigned long long)told.value,
               hg_status_text(wanted.status), wanted.detail, (unsigned long long)wanted.value);
}

static int open_all(void)
{
    size_t length = sizeof POLICY - 1;
    if (hg_bank_service_open(&service, POLICY, length, cores, NULL, 0).status != HG_DONE) return 0;
    if (hg_bank_open(&bank, POLICY, length, cores, NULL, 0).status != HG_DONE) return 0;
    while (hg_bank_grow(&bank).status == HG_VALUE) {}
    if (hg_service_open(&lone, POLICY, length, NULL, 0).status != HG_DONE) return 0;
    for (uint32_t n = 0; n < WORKERS; n++) {
        workers[n] = (hg_bank_worker)HG_BANK_WORKER_INIT, its[n] = (hg_worker)HG_WORKER_INIT;
        if (hg_bank_service_worker(&service, n, &workers[n]).status != HG_DONE) return 0;
        if (hg_service_worker(&lone, n, &its[n]).status != HG_DONE) return 0;
    }
    return 1;
}

/* One call, made to each. */
static void call_each(uint32_t n)
{
    hg_bank_worker *one = &workers[n];
    hg_worker *it = &its[n];
    int alone = cores == 1;
    uint32_t actor = below(TENANTS + 1), arena = below(ARENAS + 1), core = below(cores + 1);
    uint32_t segment = below(SEGMENTS + 1), at = below(4);
    hg_bank_handle block = kept[below(KEPT)];
    hg_reply told;
    switch (below(KINDS)) {
    case 0: {
        uint64_t bytes = below(8) ? 1 + below(below(4) ? 300 : 20000) : 65536;
        told = hg_bank_worker_alloc(one, actor, arena, bytes);
        same("alloc", told, hg_bank_alloc(&bank, n, actor, arena, bytes));
        if (alone) same("alloc", told, hg_worker_alloc(it, actor, arena, bytes));
        if (told.status == HG_BLOCK) kept[below(KEPT)] = hg_bank_handle_of(told);
        return;
    }
    case 1:
        told = hg_bank_worker_free(one, actor, block);
        same("free", told, hg_bank_free(&bank, n, actor, block));
        if (alone) same("free", told, hg_worker_free(it, actor, block.handle));
        return;
    case 2:
        told = hg_bank_worker_deliver(one, core);
        same("deliver", told, hg_bank_deliver(&bank, n, core));
        if (alone && core == 0) same("deliver", told, hg_worker_deliver(it));
        return;
    case 3:
        told = hg_bank_worker_take(one, core, segment);
        same("take", told, hg_bank_take(&bank, n, core, segment));
        if (alone && core == 0) same("take", told, hg_worker_take(it, segment));
        return;
    case 4:
        told = hg_bank_worker_collect(one, core);
        same("collect", told, hg_bank_collect(&bank, n, core));
        if (alone && core == 0) same("collect", told, hg_worker_collect(it));
        return;
    case 5:
        told = hg_bank_worker_read(one, actor, block, at);
        same("read", told, hg_bank_read(&bank, n, actor, block, at));
        if (alone) same("read", told, hg_worker_read(it, actor, block.handle, at));
        return;
    case 6:
        told = hg_bank_worker_write(one, actor, block, at, calls);
        same("write", told, hg_bank_write(&bank, n, actor, block, at, calls));
        if (alone) same("write", told, hg_worker_write(it, actor, block.handle, at, calls));
        return;
    case 7: {
        uint32_t place = below(4) ? hg_place_of(block.handle) : below(SEGMENTS * 8192);
        told = hg_bank_worker_look(one, actor, core, place);
        same("look", told, hg_bank_look(&bank, n, actor, core, place));
        if (alone && core == 0) same("look", told, hg_worker_look(it, actor, place));
        return;
    }
    case 8:
        if (below(16)) return;
        told = hg_bank_worker_abandon(one, core, segment);
        same("abandon", told, hg_bank_abandon(&bank, n, core, segment));
        if (alone && core == 0) same("abandon", told, hg_worker_abandon(it, segment));
        return;
    case 9:
        if (below(4)) return;
        told = hg_bank_worker_refill(one, arena);
        same("refill", told, hg_bank_refill(&bank, n, arena));
        if (alone) same("refill", told, hg_worker_refill(it, arena));
        return;
    default:
        told = hg_bank_worker_holds(one, core, segment);
        same("holds", told, hg_bank_holds(&bank, n, core, segment));
        same("charge", hg_bank_worker_charge(one, actor), hg_bank_charge(&bank, n, actor));
        if (alone && core == 0) same("holds", told, hg_worker_holds(it, segment));
        if (alone) same("hand", hg_bank_worker_hand(one, 0), hg_worker_hand(it));
        return;
    }
}

/* The rows that a worker's listing of a core has are the looks of the bank that show a block. */
static void list_each(uint32_t n, uint32_t core, uint32_t actor)
{
    static hg_reply rows[ROWS], others[ROWS];
    hg_reply told = hg_bank_worker_list(&workers[n], core, actor, rows, ROWS);
    uint64_t shown = 0;
    for (uint32_t place = 0; place < SEGMENTS * 8192; place++) {
        hg_reply row = hg_bank_look(&bank, n, actor, core, place);
        if (row.status != HG_LISTED) continue;
        if (shown < ROWS && shown < told.value) same("row", rows[shown], row);
        shown++;
    }
    hg_reply wanted = {HG_DONE, 0, 0, shown};
    same("list", told, wanted);
    if (cores > 1) return;
    same("list", told, hg_worker_list(&its[n], actor, others, ROWS));
    for (uint64_t at = 0; at < shown && at < ROWS; at++) same("row", rows[at], others[at]);
}

/* Each leaves, and so does that worker of the bank: its hands are emptied and its segments given up. */
static void leave_each(uint32_t n)
{
    hg_reply done = {HG_DONE, 0, 0, 0};
    same("leave", hg_bank_worker_leave_now(&workers[n]), done);
    same("leave", hg_worker_leave_now(&its[n]), done);
    for (uint32_t core = 0; core < cores; core++) {
        (void)!hg_bank_deliver(&bank, n, core).status;
        for (uint32_t segment = 0; segment < SEGMENTS; segment++)
            (void)!hg_bank_abandon(&bank, n, core, segment).status;
    }
}

/* What each of two banks shows where one worker of it holds all. */
static void compare(void)
{
    for (uint32_t arena = 0; arena < ARENAS; arena++) {
        while (hg_bank_refill(&made, 0, arena).status == HG_REFILLED) {}
        while (hg_bank_refill(&bank, 0, arena).status == HG_REFILLED) {}
    }
    for (uint32_t core = 0; core < cores; core++) {
        for (uint32_t place = 0; place < SEGMENTS * 8192; place++) {
            hg_reply row = hg_bank_look(&made, 0, 0, core, place);
            same("look in the end", row, hg_bank_look(&bank, 0, 0, core, place));
            if (row.status != HG_LISTED) continue;
            hg_bank_handle block = {core, row.value};
            same("read in the end", hg_bank_read(&made, 0, 0, block, 0),
                 hg_bank_read(&bank, 0, 0, block, 0));
        }
    }
}

int main(int count, char **words)
{
    unsigned long all = count > 1 ? strtoul(words[1], NULL, 10) : 50000;
    seed = count > 2 ? strtoull(words[2], NULL, 10) : 20;
    cores = count > 3 ? (uint32_t)strtoul(words[3], NULL, 10) : 1;
    if (!open_all()) return 1;
    for (calls = 0; calls < all; calls++) {
        call_each(below(WORKERS));
        if (calls % 4096 == 0) list_each(below(WORKERS), below(cores), below(TENANTS + 1));
    }
    for (uint32_t n = 0; n < WORKERS; n++) leave_each(n);
    hg_reply closed = hg_bank_service_close(&service, &made);
    if (closed.status != HG_DONE) {
        printf(TEST ": close: %s\n", hg_status_text(closed.status));
        return 1;
    }
    compare();
    printf(TEST ": %u cores, %lu calls: %lu replies of what was served, %lu unlike\n", cores, calls, served,
           failed);
    return failed != 0 || hg_bank_close(&made).status != HG_DONE || hg_bank_close(&bank).status != HG_DONE
        || hg_service_drop(&lone).status != HG_DONE;
}
