/* Calls on banks of services and bank workers that are closed, closed twice, opened twice, given twice or
 * taken for one another or for a core, a bank, a service or a worker, and garbage in every argument: each
 * is answered, and what a closed one or a text's room has stays as it was. Of an open bank of services a
 * block that nothing of it may touch is there at the end, as it was written. Only the calls that say so
 * ask for memory.
 */
#define TEST "bank_service_misuse"
#include "checked.h"
#include "counted.h"
#include "garbage.h"
#include "heapguard_service.h"
#include <string.h>

enum { ROUNDS = 100000, ROOM = 64, ROWS = 5, CORES = 3 };

static const char POLICY[] =
    "version = 1\n"
    "workers = 2\n"
    "tenant = [ {name = \"ann\", limit = 140000}, {name = \"bob\", limit = 4096} ]\n"
    "arena = [ {name = \"main\", segments = 1} ]\n";

/* A core that may be there, one that isn't, one that would be there if its number wrapped, or any. */
static uint64_t any_core(void)
{
    switch (below(4)) {
    case 0: return below(CORES);
    case 1: return below(70000);
    case 2: return (1 + next() % 65536) * 65536 + below(CORES);
    default: return next();
    }
}

/* One call of each kind on a worker, with garbage or with numbers that may be right. */
static hg_reply any_call(hg_bank_worker *worker, unsigned kind, hg_reply *rows)
{
    uint32_t actor = stranger(), core = (uint32_t)any_core();
    uint64_t word = below(2) ? next() : hg_handle_of(below(3), below(16), below(512), below(3));
    hg_bank_handle block = {any_core(), word};
    uint32_t at = below(2) ? (uint32_t)next() : below(8192);
    switch (kind) {
    case 0: return hg_bank_worker_alloc(worker, actor, number(), below(2) ? next() : below(64));
    case 1: return hg_bank_worker_free(worker, actor, block);
    case 2: return hg_bank_worker_deliver(worker, core);
    case 3: return hg_bank_worker_take(worker, core, number());
    case 4: return hg_bank_worker_collect(worker, core);
    case 5: return hg_bank_worker_read(worker, actor, block, at);
    case 6: return hg_bank_worker_write(worker, actor, block, at, next());
    case 7: return hg_bank_worker_look(worker, actor, core, at);
    case 8: return hg_bank_worker_refill(worker, number());
    case 9: return hg_bank_worker_number(worker);
    case 10: return hg_bank_worker_holds(worker, core, number());
    case 11: return hg_bank_worker_hand(worker, core);
    case 12: return hg_bank_worker_abandon(worker, core, number());
    case 13: return hg_bank_worker_cores(worker);
    case 14: return hg_bank_worker_charge(worker, number());
    default: return hg_bank_worker_list(worker, core, actor, rows, below(ROWS + 1));
    }
}

enum { GIVES_UP = 12, LISTS = 15, KINDS = 16 };

static int is_unnamed(unsigned kind) { return kind == 1 || (kind >= 5 && kind <= 7); }

/* What isn't there, or is no bank worker, serves nothing. */
static void try_no_worker(hg_bank_worker *worker)
{
    hg_bank_worker before = *worker;
    unsigned long shut = asked;
    hg_reply rows[ROWS], untouched[ROWS];
    memset(untouched, 0x5a, sizeof untouched);
    memcpy(rows, untouched, sizeof rows);
    for (unsigned n = 0; n < ROUNDS / 20; n++) {
        unsigned kind = n % KINDS;
        hg_reply reply = any_call(worker, kind, rows);
        CHECK(is_plain(reply, HG_CLOSED) || (is_unnamed(kind) && is_plain(reply, HG_NO_BLOCK)));
    }
    CHECK(is_plain(hg_bank_worker_leave(worker), HG_CLOSED));
    CHECK(is_plain(hg_bank_worker_drop(worker), HG_CLOSED));
    CHECK(worker->at == before.at && worker->mark == before.mark);
    CHECK(memcmp(rows, untouched, sizeof rows) == 0);
    CHECK(asked == shut);
}

static void try_no_service(hg_bank_service *service)
{
    hg_bank_service before = *service;
    hg_bank_worker worker = HG_BANK_WORKER_INIT;
    hg_bank bank = HG_BANK_INIT;
    CHECK(is_plain(hg_bank_service_cores(service), HG_CLOSED));
    CHECK(is_plain(hg_bank_service_workers(service), HG_CLOSED));
    CHECK(is_plain(hg_bank_service_segments(service), HG_CLOSED));
    CHECK(is_nobody(hg_bank_service_tenant(service, "ann", 3), HG_CLOSED));
    CHECK(is_nobody(hg_bank_service_arena(service, "main", 4), HG_CLOSED));
    CHECK(is_nobody(hg_bank_service_arena(service, "\xff", 1), HG_NO_NAME));
    CHECK(is_plain(hg_bank_service_worker(service, 0, &worker), HG_CLOSED));
    CHECK(is_plain(hg_bank_service_close(service, &bank), HG_CLOSED));
    CHECK(is_plain(hg_bank_service_drop(service), HG_CLOSED));
    CHECK(service->at == before.at && service->mark == before.mark);
    CHECK(worker.at == NULL && worker.mark == 0 && bank.at == NULL && bank.mark == 0);
}

static void try_closed(void)
{
    hg_bank_service service = HG_BANK_SERVICE_INIT;
    hg_bank_worker worker = HG_BANK_WORKER_INIT;
    for (int byte = 0; byte < 256; byte += 85) {
        memset(&service, byte, sizeof service);
        memset(&worker, byte, sizeof worker);
        unsigned long shut = asked;
        try_no_service(&service);
        CHECK(asked == shut);
        try_no_worker(&worker);
    }
}

static hg_reply opened(hg_bank_service *service)
{
    return hg_bank_service_open(service, POLICY, sizeof POLICY - 1, CORES, NULL, 0);
}

static void try_opening(void)
{
    static const char BAD[] = "version = 1\ncolour = 3\n";
    static const char LINE[] = "policy fault 4: unknown colour";
    static const uint32_t MANY[] = {0, 16385, 65536, 65537, 1u << 31, UINT32_MAX};
    hg_bank_service service = HG_BANK_SERVICE_INIT;
    char room[ROOM] = "";
    hg_reply told = hg_bank_service_open(&service, BAD, sizeof BAD - 1, 1, room, sizeof room);
    CHECK(told.status == HG_UNKNOWN && told.value == sizeof LINE - 1);
    CHECK(memcmp(room, LINE, sizeof LINE) == 0);
    CHECK(hg_bank_service_open(&service, NULL, 0, 1, NULL, 0).status == HG_MISSING);
    CHECK(hg_bank_service_open(&service, "\xff\xfe", 2, 1, NULL, 0).status == HG_NOT_TOML);
    unsigned long before = asked;
    for (unsigned n = 0; n < sizeof MANY / sizeof *MANY; n++)
        CHECK(is_plain(hg_bank_service_open(&service, BAD, sizeof BAD - 1, MANY[n], room, sizeof room),
                       HG_NO_COUNT));
    CHECK(asked == before && memcmp(room, LINE, sizeof LINE) == 0);
    CHECK(is_plain(hg_bank_service_workers(&service), HG_CLOSED));
    CHECK(is_plain(opened(&service), HG_DONE));
    hg_bank_service was = service;
    CHECK(is_plain(opened(&service), HG_HELD));
    CHECK(is_plain(hg_bank_service_open(&service, BAD, sizeof BAD - 1, 0, room, sizeof room), HG_HELD));
    CHECK(service.at == was.at && service.mark == was.mark);
    CHECK(hg_bank_service_workers(&service).value == 2 && hg_bank_service_segments(&service).value == 1);
    CHECK(hg_bank_service_cores(&service).value == CORES);
    CHECK(hg_bank_service_tenant(&service, "bob", 3).value == 1);
    CHECK(is_nobody(hg_bank_service_tenant(&service, "eve", 3), HG_NO_NAME));
    CHECK(is_plain(hg_bank_service_arena(&service, "main", 4), HG_VALUE));
    CHECK(is_plain(hg_bank_service_drop(&service), HG_DONE));
    CHECK(is_plain(hg_bank_service_drop(&service), HG_CLOSED));
}

/* None of these is taken for another. */
static void try_others(hg_bank_service *service, hg_bank_worker *worker)
{
    hg_core core = HG_CORE_INIT;
    hg_bank bank = HG_BANK_INIT;
    hg_service lone = HG_SERVICE_INIT;
    hg_worker its = HG_WORKER_INIT;
    try_no_worker((hg_bank_worker *)service);
    try_no_service((hg_bank_service *)worker);
    CHECK(is_plain(hg_alloc((hg_core *)worker, 0, 0, 0, 8), HG_CLOSED));
    CHECK(is_plain(hg_bank_alloc((hg_bank *)worker, 0, 0, 0, 8), HG_CLOSED));
    CHECK(is_plain(hg_worker_alloc((hg_worker *)worker, 0, 0, 8), HG_CLOSED));
    CHECK(is_plain(hg_worker_drop((hg_worker *)worker), HG_CLOSED));
    CHECK(is_plain(hg_service_drop((hg_service *)service), HG_CLOSED));
    CHECK(is_plain(hg_bank_close((hg_bank *)service), HG_CLOSED));
    CHECK(hg_open(&core, POLICY, sizeof POLICY - 1, NULL, 0).status == HG_DONE);
    CHECK(hg_bank_open(&bank, POLICY, sizeof POLICY - 1, 1, NULL, 0).status == HG_DONE);
    CHECK(hg_service_open(&lone, POLICY, sizeof POLICY - 1, NULL, 0).status == HG_DONE);
    CHECK(hg_service_worker(&lone, 0, &its).status == HG_DONE);
    try_no_worker((hg_bank_worker *)&core), try_no_service((hg_bank_service *)&core);
    try_no_worker((hg_bank_worker *)&bank), try_no_service((hg_bank_service *)&bank);
    try_no_worker((hg_bank_worker *)&lone), try_no_service((hg_bank_service *)&lone);
    try_no_worker((hg_bank_worker *)&its), try_no_service((hg_bank_service *)&its);
    CHECK(is_plain(hg_bank_service_close(service, &bank), HG_HELD));
    CHECK(is_plain(hg_close(&core), HG_DONE) && is_plain(hg_bank_close(&bank), HG_DONE));
    CHECK(is_plain(hg_worker_drop(&its), HG_DONE) && is_plain(hg_service_drop(&lone), HG_DONE));
}

/* Who gives which worker, and what is taken for what it isn't. */
static void try_giving(void)
{
    static const uint32_t WIDE[] = {2, 255, 256, 65536, 1u << 31, UINT32_MAX};
    hg_bank_service service = HG_BANK_SERVICE_INIT;
    hg_bank_worker one = HG_BANK_WORKER_INIT, two = HG_BANK_WORKER_INIT;
    hg_bank bank = HG_BANK_INIT;
    CHECK(is_plain(opened(&service), HG_DONE));
    for (unsigned n = 0; n < sizeof WIDE / sizeof *WIDE; n++)
        CHECK(is_plain(hg_bank_service_worker(&service, WIDE[n], &one), HG_NO_WORKER));
    CHECK(is_plain(hg_bank_service_worker(&service, 1, &one), HG_DONE));
    CHECK(hg_bank_worker_number(&one).value == 1 && hg_bank_worker_cores(&one).value == CORES);
    CHECK(is_plain(hg_bank_service_worker(&service, 1, &two), HG_NO_WORKER));
    CHECK(is_plain(hg_bank_service_worker(&service, 0, &one), HG_HELD));
    CHECK(hg_bank_worker_number(&one).value == 1);
    try_others(&service, &one);

    /* It closes once the worker that was given has left, and that holds and has nothing. */
    hg_reply out = hg_bank_service_close(&service, &bank);
    CHECK(out.status == HG_STILL_OUT && out.value == 1 && out.detail == CORES - 1);
    CHECK(is_plain(hg_bank_service_worker(&service, 0, &two), HG_NO_WORKER)); /* it has left by that */
    CHECK(is_plain(hg_bank_worker_refill(&one, 0), HG_REFILLED));
    hg_reply held = hg_bank_worker_leave(&one);
    CHECK(held.status == HG_STILL_HELD && held.value == 0 && held.detail == 0);
    CHECK(is_plain(hg_bank_worker_abandon(&one, 0, 0), HG_DONE));
    CHECK(is_plain(hg_bank_worker_leave(&one), HG_DONE));
    CHECK(is_plain(hg_bank_worker_leave(&one), HG_CLOSED));
    try_no_worker(&one);
    CHECK(is_plain(hg_bank_service_close(&service, &bank), HG_DONE));
    CHECK(is_plain(hg_bank_service_close(&service, &bank), HG_HELD));
    try_no_service(&service);
    CHECK(hg_bank_workers(&bank).value == 2 && hg_bank_cores(&bank).value == CORES);
    CHECK(is_plain(hg_bank_close(&bank), HG_DONE));
}

/* What keeps a worker is told of the lowest core where it has something. */
static void try_leaving(void)
{
    hg_bank_service service = HG_BANK_SERVICE_INIT;
    hg_bank_worker one = HG_BANK_WORKER_INIT, two = HG_BANK_WORKER_INIT;
    hg_bank bank = HG_BANK_INIT;
    CHECK(is_plain(opened(&service), HG_DONE));
    CHECK(is_plain(hg_bank_service_worker(&service, 0, &one), HG_DONE));
    CHECK(is_plain(hg_bank_service_worker(&service, 1, &two), HG_DONE));
    CHECK(is_plain(hg_bank_worker_refill(&one, 0), HG_REFILLED));
    CHECK(hg_bank_worker_alloc(&one, 0, 0, 65536).status == HG_BLOCK);
    CHECK(hg_bank_worker_refill(&one, 0).detail == 1);
    hg_bank_handle block = hg_bank_handle_of(hg_bank_worker_alloc(&one, 0, 0, 8));
    CHECK(block.core == 1 && is_plain(hg_bank_worker_free(&two, 0, block), HG_PARTED));
    hg_reply busy = hg_bank_worker_leave(&two);
    CHECK(busy.status == HG_BUSY && busy.detail == 1 && busy.value == 0);
    CHECK(hg_bank_worker_refill(&two, 0).detail == 2);
    CHECK(hg_bank_worker_leave(&two).status == HG_BUSY);
    CHECK(is_plain(hg_bank_worker_deliver(&two, 1), HG_DONE));
    hg_reply held = hg_bank_worker_leave(&two);
    CHECK(held.status == HG_STILL_HELD && held.detail == 2 && held.value == 0);
    CHECK(is_plain(hg_bank_worker_leave_now(&two), HG_DONE));
    CHECK(is_plain(hg_bank_worker_leave_now(&one), HG_DONE));
    CHECK(is_plain(hg_bank_service_close(&service, &bank), HG_DONE));
    CHECK(is_plain(hg_bank_close(&bank), HG_DONE));
}

/* A worker that was dropped keeps its bank of services from closing; both can be given up. */
static void try_dropping(void)
{
    hg_bank_service service = HG_BANK_SERVICE_INIT;
    hg_bank_worker one = HG_BANK_WORKER_INIT, two = HG_BANK_WORKER_INIT;
    hg_bank bank = HG_BANK_INIT;
    CHECK(is_plain(opened(&service), HG_DONE));
    CHECK(is_plain(hg_bank_service_worker(&service, 0, &one), HG_DONE));
    CHECK(is_plain(hg_bank_service_worker(&service, 1, &two), HG_DONE));
    CHECK(is_plain(hg_bank_worker_refill(&one, 0), HG_REFILLED));
    CHECK(is_plain(hg_bank_worker_drop(&one), HG_DONE));
    CHECK(is_plain(hg_bank_worker_drop(&one), HG_CLOSED));
    CHECK(hg_bank_service_close(&service, &bank).status == HG_STILL_OUT);
    CHECK(is_plain(hg_bank_service_drop(&service), HG_DONE));
    hg_reply taken = hg_bank_worker_refill(&two, 0); /* it goes on */
    CHECK(taken.status == HG_REFILLED && taken.value == 0 && taken.detail == 1);
    CHECK(hg_bank_worker_alloc(&two, 0, 0, 8).status == HG_BLOCK);
    CHECK(is_plain(hg_bank_worker_drop(&two), HG_DONE));
}

/* Numbers that are too large, in each place of a call. */
static void try_wide(hg_bank_worker *one, hg_bank_handle block)
{
    static const uint32_t WIDE[] = {255, 256, 512, 65535, 65536, 1u << 24, 1u << 31, UINT32_MAX};
    for (unsigned n = 0; n < sizeof WIDE / sizeof *WIDE; n++) {
        uint32_t wide = WIDE[n];
        hg_bank_handle away = {wide, block.handle};
        CHECK(is_plain(hg_bank_worker_alloc(one, wide, 0, 8), HG_STRANGER));
        CHECK(is_plain(hg_bank_worker_alloc(one, 0, wide, 8), HG_FOREIGN_ARENA));
        CHECK(is_plain(hg_bank_worker_read(one, wide, block, 0), HG_STRANGER));
        CHECK(is_plain(hg_bank_worker_refill(one, wide), HG_NO_SEGMENT));
        CHECK(is_plain(hg_bank_worker_take(one, 0, wide), HG_NOT_HELD));
        CHECK(is_plain(hg_bank_worker_abandon(one, 0, wide), HG_NOT_HELD));
        CHECK(is_plain(hg_bank_worker_holds(one, 0, wide), HG_VALUE));
        CHECK(is_plain(hg_bank_worker_charge(one, wide), HG_NO_NAME));
        /* a core that isn't there */
        CHECK(is_plain(hg_bank_worker_read(one, 0, away, 0), HG_STALE));
        CHECK(is_plain(hg_bank_worker_write(one, 0, away, 0, 1), HG_STALE));
        CHECK(is_plain(hg_bank_worker_free(one, 0, away), HG_STALE));
        CHECK(is_plain(hg_bank_worker_free(one, 2, away), HG_STRANGER));
        CHECK(is_plain(hg_bank_worker_look(one, 0, wide, hg_place_of(block.handle)), HG_STALE));
        CHECK(is_plain(hg_bank_worker_take(one, wide, 0), HG_NOT_HELD));
        CHECK(is_plain(hg_bank_worker_abandon(one, wide, 0), HG_NOT_HELD));
        CHECK(is_plain(hg_bank_worker_holds(one, wide, 0), HG_VALUE));
        CHECK(is_plain(hg_bank_worker_hand(one, wide), HG_NOTHING_IN_HAND));
        CHECK(is_plain(hg_bank_worker_deliver(one, wide), HG_NOTHING_IN_HAND));
        CHECK(is_plain(hg_bank_worker_collect(one, wide), HG_PAGES));
        CHECK(is_plain(hg_bank_worker_list(one, wide, 0, NULL, 0), HG_DONE));
    }
}

/* No call of garbage comes from tenant 0, so its block stays. */
static void try_open(void)
{
    hg_bank_service service = HG_BANK_SERVICE_INIT;
    hg_bank_worker workers[2] = {HG_BANK_WORKER_INIT, HG_BANK_WORKER_INIT};
    hg_bank bank = HG_BANK_INIT;
    hg_reply rows[ROWS];
    CHECK(is_plain(opened(&service), HG_DONE));
    for (uint32_t n = 0; n < 2; n++)
        CHECK(is_plain(hg_bank_service_worker(&service, n, &workers[n]), HG_DONE));
    hg_bank_worker *one = &workers[0];
    CHECK(is_plain(hg_bank_worker_refill(one, 0), HG_REFILLED));
    hg_bank_handle block = hg_bank_handle_of(hg_bank_worker_alloc(one, 0, 0, 64));
    CHECK(block.core == 0 && block.handle != 0);
    for (uint32_t at = 0; at < 8; at++)
        CHECK(is_plain(hg_bank_worker_write(one, 0, block, at, at + 100), HG_DONE));
    CHECK(is_plain(hg_bank_worker_read(one, 0, block, 8), HG_OUT_OF_BLOCK));
    CHECK(is_plain(hg_bank_worker_read(one, 2, block, 0), HG_STRANGER));
    CHECK(is_plain(hg_bank_worker_read(one, 1, block, 0), HG_NOT_GRANTED));
    CHECK(is_plain(hg_bank_worker_read(&workers[1], 0, block, 0), HG_ELSEWHERE));
    CHECK(is_plain(hg_bank_worker_look(one, 0, 0, 524288), HG_NO_BLOCK));
    CHECK(hg_bank_worker_holds(one, 0, 0).value == 1 && hg_bank_worker_holds(one, 1, 0).value == 0);
    CHECK(hg_bank_worker_holds(&workers[1], 0, 0).value == 0);
    try_wide(one, block);
    for (unsigned n = 0; n < ROUNDS; n++) {
        unsigned kind = n % KINDS, who = below(2);
        if (kind == GIVES_UP && who == 0) continue; /* who has the block is to keep it */
        if (kind == LISTS && below(64)) continue; /* it looks at each place of its segments */
        seed ^= n;
        unsigned long before = asked;
        hg_reply reply = any_call(&workers[who], kind, rows);
        CHECK(kind == LISTS || asked == before); /* nothing but a listing takes memory */
        checks++;
        if (strcmp(hg_status_text(reply.status), "unknown status") == 0
            || reply.status == HG_CLOSED || reply.status == HG_AGAIN) {
            failed++;
            printf(TEST ": call %u: status %u\n", kind, reply.status);
        }
    }
    for (uint32_t at = 0; at < 8; at++)
        CHECK(hg_bank_worker_read(one, 0, block, at).value == at + 100);
    hg_reply shown = hg_bank_worker_list(one, 0, 0, rows, ROWS);
    CHECK(shown.status == HG_DONE && shown.value == 1);
    CHECK(rows[0].status == HG_LISTED && rows[0].value == block.handle && rows[0].detail == 64);
    CHECK(hg_bank_worker_list(one, 0, 0, NULL, 0).value == 1);
    for (uint32_t n = 0; n < 2; n++)
        CHECK(is_plain(hg_bank_worker_leave_now(&workers[n]), HG_DONE));
    CHECK(is_plain(hg_bank_service_close(&service, &bank), HG_DONE));
    CHECK(is_plain(hg_bank_refill(&bank, 0, 0), HG_REFILLED));
    for (uint32_t at = 0; at < 8; at++)
        CHECK(hg_bank_read(&bank, 0, 0, block, at).value == at + 100);
    CHECK(is_plain(hg_bank_close(&bank), HG_DONE));
}

int main(void)
{
    seed = 20;
    try_closed();
    try_opening();
    try_giving();
    try_leaving();
    try_dropping();
    try_open();
    printf(TEST ": %u checks, %u failed\n", checks, failed);
    return failed != 0;
}
