/* Calls on services and workers that are closed, closed twice, opened twice, given twice or taken for
 * one another, and garbage in every argument: each is answered, and what a closed one or a text's
 * room has stays as it was. Of an open service a block that nothing of it may touch is there at the
 * end, as it was written. Only the calls that say so ask for memory.
 */
#define TEST "service_misuse"
#include "checked.h"
#include "counted.h"
#include "garbage.h"
#include "heapguard_service.h"
#include <string.h>

enum { ROUNDS = 200000, ROOM = 64, ROWS = 5, WORDS = 9 };

static const char POLICY[] =
    "version = 1\n"
    "workers = 2\n"
    "tenant = [ {name = \"ann\", limit = 4096}, {name = \"bob\", limit = 4096} ]\n"
    "arena = [ {name = \"main\", segments = 2} ]\n";

/* One call of each kind on a worker, with garbage or with numbers that may be right. */
static hg_reply any_call(hg_worker *worker, unsigned kind, hg_reply *rows)
{
    uint32_t actor = stranger();
    uint64_t word = below(2) ? next() : hg_handle_of(below(3), below(16), below(512), below(3));
    uint32_t at = below(2) ? (uint32_t)next() : below(8192);
    uint64_t words[WORDS] = {next()};
    switch (kind) {
    case 0: return hg_worker_alloc(worker, actor, number(), below(2) ? next() : below(64));
    case 1: return hg_worker_free(worker, actor, word);
    case 2: return hg_worker_deliver(worker);
    case 3: return hg_worker_take(worker, number());
    case 4: return hg_worker_collect(worker);
    case 5: return hg_worker_read(worker, actor, word, at);
    case 6: return hg_worker_write(worker, actor, word, at, next());
    case 7: return hg_worker_look(worker, actor, at);
    case 8: return hg_worker_refill(worker, number());
    case 9: return hg_worker_number(worker);
    case 10: return hg_worker_holds(worker, number());
    case 11: return hg_worker_hand(worker);
    case 12: return hg_worker_abandon(worker, number() | 1);
    case 13: return hg_worker_read_words(worker, actor, word, at, words, below(WORDS + 1));
    case 14: return hg_worker_write_words(worker, actor, word, at, words, below(WORDS + 1));
    case 15: return hg_worker_read_bytes(worker, actor, word, at, words, below(sizeof words + 1));
    case 16: return hg_worker_write_bytes(worker, actor, word, at, words, below(sizeof words + 1));
    default: return hg_worker_list(worker, actor, rows, below(ROWS + 1));
    }
}

enum { LISTS = 17, KINDS = 18 };

static int is_unnamed(unsigned kind)
{
    return kind == 1 || (kind >= 5 && kind <= 7) || (kind >= 13 && kind <= 16);
}

/* What isn't there, or is no worker, serves nothing. */
static void try_no_worker(hg_worker *worker)
{
    hg_worker before = *worker;
    unsigned long shut = asked;
    hg_reply rows[ROWS], untouched[ROWS];
    memset(untouched, 0x5a, sizeof untouched);
    memcpy(rows, untouched, sizeof rows);
    for (unsigned n = 0; n < ROUNDS / 10; n++) {
        unsigned kind = n % KINDS;
        hg_reply reply = any_call(worker, kind, rows);
        CHECK(is_plain(reply, HG_CLOSED) || (is_unnamed(kind) && is_plain(reply, HG_NO_BLOCK)));
    }
    CHECK(is_plain(hg_worker_leave(worker), HG_CLOSED));
    CHECK(is_plain(hg_worker_drop(worker), HG_CLOSED));
    CHECK(worker->at == before.at && worker->mark == before.mark);
    CHECK(memcmp(rows, untouched, sizeof rows) == 0);
    CHECK(asked == shut);
}

static void try_no_service(hg_service *service)
{
    hg_service before = *service;
    hg_worker worker = HG_WORKER_INIT;
    hg_core core = HG_CORE_INIT;
    CHECK(is_plain(hg_service_workers(service), HG_CLOSED));
    CHECK(is_plain(hg_service_segments(service), HG_CLOSED));
    CHECK(is_nobody(hg_service_tenant(service, "ann", 3), HG_CLOSED));
    CHECK(is_nobody(hg_service_arena(service, "main", 4), HG_CLOSED));
    CHECK(is_nobody(hg_service_arena(service, "\xff", 1), HG_NO_NAME));
    CHECK(is_plain(hg_service_worker(service, 0, &worker), HG_CLOSED));
    CHECK(is_plain(hg_service_close(service, &core), HG_CLOSED));
    CHECK(is_plain(hg_service_drop(service), HG_CLOSED));
    CHECK(service->at == before.at && service->mark == before.mark);
    CHECK(worker.at == NULL && worker.mark == 0 && core.at == NULL && core.mark == 0);
}

static void try_closed(void)
{
    hg_service service = HG_SERVICE_INIT;
    hg_worker worker = HG_WORKER_INIT;
    for (int byte = 0; byte < 256; byte += 85) {
        memset(&service, byte, sizeof service);
        memset(&worker, byte, sizeof worker);
        unsigned long shut = asked;
        try_no_service(&service);
        CHECK(asked == shut);
        try_no_worker(&worker);
    }
}

static void try_opening(void)
{
    static const char BAD[] = "version = 1\ncolour = 3\n";
    static const char LINE[] = "policy fault 4: unknown colour";
    hg_service service = HG_SERVICE_INIT;
    char room[ROOM] = "";
    hg_reply told = hg_service_open(&service, BAD, sizeof BAD - 1, room, sizeof room);
    CHECK(told.status == HG_UNKNOWN && told.value == sizeof LINE - 1);
    CHECK(memcmp(room, LINE, sizeof LINE) == 0);
    CHECK(hg_service_open(&service, NULL, 0, NULL, 0).status == HG_MISSING);
    CHECK(hg_service_open(&service, "\xff\xfe", 2, NULL, 0).status == HG_NOT_TOML);
    CHECK(is_plain(hg_service_workers(&service), HG_CLOSED));
    CHECK(is_plain(hg_service_open(&service, POLICY, sizeof POLICY - 1, NULL, 0), HG_DONE));
    hg_service before = service;
    CHECK(is_plain(hg_service_open(&service, POLICY, sizeof POLICY - 1, NULL, 0), HG_HELD));
    CHECK(is_plain(hg_service_open(&service, BAD, sizeof BAD - 1, room, sizeof room), HG_HELD));
    CHECK(service.at == before.at && service.mark == before.mark);
    CHECK(hg_service_workers(&service).value == 2 && hg_service_segments(&service).value == 2);
    CHECK(hg_service_tenant(&service, "bob", 3).value == 1);
    CHECK(is_nobody(hg_service_tenant(&service, "eve", 3), HG_NO_NAME));
    CHECK(is_plain(hg_service_arena(&service, "main", 4), HG_VALUE));
    CHECK(is_plain(hg_service_drop(&service), HG_DONE));
    CHECK(is_plain(hg_service_drop(&service), HG_CLOSED));
}

/* Who gives which worker, and what is taken for what it isn't. */
static void try_giving(void)
{
    static const uint32_t WIDE[] = {2, 255, 256, 65536, 1u << 31, UINT32_MAX};
    hg_service service = HG_SERVICE_INIT;
    hg_worker one = HG_WORKER_INIT, two = HG_WORKER_INIT;
    hg_core core = HG_CORE_INIT;
    CHECK(is_plain(hg_service_open(&service, POLICY, sizeof POLICY - 1, NULL, 0), HG_DONE));
    for (unsigned n = 0; n < sizeof WIDE / sizeof *WIDE; n++)
        CHECK(is_plain(hg_service_worker(&service, WIDE[n], &one), HG_NO_WORKER));
    CHECK(is_plain(hg_service_worker(&service, 1, &one), HG_DONE));
    CHECK(hg_worker_number(&one).value == 1);
    CHECK(is_plain(hg_service_worker(&service, 1, &two), HG_NO_WORKER));
    CHECK(is_plain(hg_service_worker(&service, 0, &one), HG_HELD));
    CHECK(hg_worker_number(&one).value == 1);

    /* A service is no worker, nor a worker a service; nor is either a core. */
    CHECK(is_plain(hg_worker_alloc((hg_worker *)&service, 0, 0, 8), HG_CLOSED));
    try_no_worker((hg_worker *)&service);
    try_no_service((hg_service *)&one);
    CHECK(is_plain(hg_alloc((hg_core *)&one, 0, 0, 0, 8), HG_CLOSED));
    CHECK(is_plain(hg_close((hg_core *)&service), HG_CLOSED));
    CHECK(hg_open(&core, POLICY, sizeof POLICY - 1, NULL, 0).status == HG_DONE);
    try_no_worker((hg_worker *)&core);
    try_no_service((hg_service *)&core);
    CHECK(is_plain(hg_service_close(&service, &core), HG_HELD));
    CHECK(is_plain(hg_close(&core), HG_DONE));

    /* It closes once the worker that was given has left, and that holds and has nothing. */
    hg_reply out = hg_service_close(&service, &core);
    CHECK(out.status == HG_STILL_OUT && out.value == 1);
    CHECK(is_plain(hg_service_worker(&service, 0, &two), HG_NO_WORKER)); /* it has left by that */
    CHECK(is_plain(hg_worker_refill(&one, 0), HG_REFILLED));
    hg_reply held = hg_worker_leave(&one);
    CHECK(held.status == HG_STILL_HELD && held.value == 0);
    CHECK(is_plain(hg_worker_abandon(&one, 0), HG_DONE));
    CHECK(is_plain(hg_worker_leave(&one), HG_DONE));
    CHECK(is_plain(hg_worker_leave(&one), HG_CLOSED));
    try_no_worker(&one);
    CHECK(is_plain(hg_service_close(&service, &core), HG_DONE));
    CHECK(is_plain(hg_service_close(&service, &core), HG_HELD));
    try_no_service(&service);
    CHECK(hg_workers(&core).value == 2);
    CHECK(is_plain(hg_close(&core), HG_DONE));
}

/* Many words of a block, up to the first that is refused. */
static void try_words(void)
{
    enum { SIZE = 5 };
    static const uint64_t words[SIZE + 1] = {1, 2, 3, 4, UINT64_MAX, 6};
    uint64_t room[SIZE + 1] = {0};
    hg_service service = HG_SERVICE_INIT;
    hg_worker one = HG_WORKER_INIT, two = HG_WORKER_INIT;
    CHECK(is_plain(hg_service_open(&service, POLICY, sizeof POLICY - 1, NULL, 0), HG_DONE));
    CHECK(is_plain(hg_service_worker(&service, 0, &one), HG_DONE));
    CHECK(is_plain(hg_service_worker(&service, 1, &two), HG_DONE));
    CHECK(is_plain(hg_worker_refill(&one, 0), HG_REFILLED));
    hg_handle block = hg_worker_alloc(&one, 0, 0, 8 * SIZE).value;
    hg_reply done = hg_worker_write_words(&one, 0, block, 0, words, SIZE);
    CHECK(done.status == HG_DONE && done.value == SIZE);
    for (uint32_t first = 0; first <= SIZE; first++) {
        memset(room, 0, sizeof room);
        hg_reply told = hg_worker_read_words(&one, 0, block, first, room, SIZE + 1);
        CHECK(told.status == HG_OUT_OF_BLOCK && told.value == SIZE - first);
        CHECK(memcmp(room, words + first, sizeof *room * (SIZE - first)) == 0);
        CHECK(room[SIZE - first] == 0);
    }
    done = hg_worker_write_words(&one, 0, block, 3, words, SIZE);
    CHECK(done.status == HG_OUT_OF_BLOCK && done.value == 2);
    CHECK(hg_worker_read(&one, 0, block, 3).value == 1 && hg_worker_read(&one, 0, block, 4).value == 2);
    CHECK(is_plain(hg_worker_read_words(&one, 0, block, 0, NULL, 0), HG_DONE));
    CHECK(is_plain(hg_worker_write_words(&one, 0, block, UINT32_MAX, words, 2), HG_OUT_OF_BLOCK));
    CHECK(is_plain(hg_worker_read_words(&one, 0, block, UINT32_MAX, room, 2), HG_OUT_OF_BLOCK));
    CHECK(is_plain(hg_worker_write_words(&one, 1, block, 0, words, 2), HG_NOT_GRANTED));
    CHECK(is_plain(hg_worker_read_words(&two, 0, block, 0, room, 2), HG_ELSEWHERE));
    CHECK(is_plain(hg_worker_read_words(&one, 0, 0, 0, room, 2), HG_NO_BLOCK));
    hg_reply stale = hg_worker_read_words(&one, 0, block + 1, 0, room, 2);
    CHECK(stale.status == HG_STALE && stale.value == 0);
    CHECK(is_plain(hg_worker_drop(&one), HG_DONE));
    CHECK(is_plain(hg_worker_drop(&two), HG_DONE));
    CHECK(is_plain(hg_service_drop(&service), HG_DONE));
}

/* A worker that was dropped keeps its service from closing; both can be given up. */
static void try_dropping(void)
{
    hg_service service = HG_SERVICE_INIT;
    hg_worker one = HG_WORKER_INIT, two = HG_WORKER_INIT;
    hg_core core = HG_CORE_INIT;
    CHECK(is_plain(hg_service_open(&service, POLICY, sizeof POLICY - 1, NULL, 0), HG_DONE));
    CHECK(is_plain(hg_service_worker(&service, 0, &one), HG_DONE));
    CHECK(is_plain(hg_service_worker(&service, 1, &two), HG_DONE));
    CHECK(is_plain(hg_worker_refill(&one, 0), HG_REFILLED));
    CHECK(is_plain(hg_worker_drop(&one), HG_DONE));
    CHECK(is_plain(hg_worker_drop(&one), HG_CLOSED));
    CHECK(is_plain(hg_service_close(&service, &core), HG_STILL_OUT));
    CHECK(is_plain(hg_service_drop(&service), HG_DONE));
    hg_reply taken = hg_worker_refill(&two, 0); /* it goes on */
    CHECK(taken.status == HG_REFILLED && taken.value == 1);
    CHECK(hg_worker_alloc(&two, 0, 0, 8).status == HG_BLOCK);
    CHECK(is_plain(hg_worker_drop(&two), HG_DONE));
}

/* No call of garbage comes from tenant 0, so its block stays. */
static void try_open(void)
{
    static const uint32_t WIDE[] = {255, 256, 512, 65536, 1u << 24, 1u << 31, UINT32_MAX};
    hg_service service = HG_SERVICE_INIT;
    hg_worker workers[2] = {HG_WORKER_INIT, HG_WORKER_INIT};
    hg_core core = HG_CORE_INIT;
    hg_reply rows[ROWS];
    CHECK(is_plain(hg_service_open(&service, POLICY, sizeof POLICY - 1, NULL, 0), HG_DONE));
    for (uint32_t n = 0; n < 2; n++)
        CHECK(is_plain(hg_service_worker(&service, n, &workers[n]), HG_DONE));
    hg_worker *one = &workers[0];
    CHECK(is_plain(hg_worker_refill(one, 0), HG_REFILLED));
    hg_reply made = hg_worker_alloc(one, 0, 0, 64);
    CHECK(made.status == HG_BLOCK && made.value != 0);
    for (uint32_t at = 0; at < 8; at++)
        CHECK(is_plain(hg_worker_write(one, 0, made.value, at, at + 100), HG_DONE));
    CHECK(is_plain(hg_worker_read(one, 0, made.value, 8), HG_OUT_OF_BLOCK));
    CHECK(is_plain(hg_worker_read(one, 2, made.value, 0), HG_STRANGER));
    CHECK(is_plain(hg_worker_read(one, 1, made.value, 0), HG_NOT_GRANTED));
    CHECK(is_plain(hg_worker_read(&workers[1], 0, made.value, 0), HG_ELSEWHERE));
    CHECK(is_plain(hg_worker_read(one, 0, 0, 0), HG_NO_BLOCK));
    CHECK(is_plain(hg_worker_look(one, 0, 524288), HG_NO_BLOCK));
    CHECK(hg_worker_holds(one, 0).value == 1 && hg_worker_holds(&workers[1], 0).value == 0);
    CHECK(is_plain(hg_worker_hand(one), HG_NOTHING_IN_HAND));
    CHECK(is_plain(hg_worker_deliver(one), HG_NOTHING_IN_HAND));
    for (unsigned n = 0; n < sizeof WIDE / sizeof *WIDE; n++) {
        CHECK(is_plain(hg_worker_alloc(one, WIDE[n], 0, 8), HG_STRANGER));
        CHECK(is_plain(hg_worker_alloc(one, 0, WIDE[n], 8), HG_FOREIGN_ARENA));
        char room[9] = "";
        CHECK(is_plain(hg_worker_read(one, WIDE[n], made.value, 0), HG_STRANGER));
        CHECK(is_plain(hg_worker_read_bytes(one, WIDE[n], made.value, 0, room, 9), HG_STRANGER));
        CHECK(is_plain(hg_worker_write_bytes(one, WIDE[n], made.value, 0, room, 9), HG_STRANGER));
        CHECK(is_plain(hg_worker_refill(one, WIDE[n]), HG_NO_SEGMENT));
        CHECK(is_plain(hg_worker_take(one, WIDE[n]), HG_NOT_HELD));
        CHECK(is_plain(hg_worker_abandon(one, WIDE[n]), HG_NOT_HELD));
        CHECK(is_plain(hg_worker_holds(one, WIDE[n]), HG_VALUE));
    }
    for (unsigned n = 0; n < ROUNDS; n++) {
        unsigned kind = n % KINDS, who = below(2);
        if (kind == 12 && who == 0) continue; /* the worker of segment 0 is to keep it */
        if (kind == LISTS && below(64)) continue; /* it looks at each place of its segments */
        seed ^= n;
        unsigned long before = asked;
        hg_reply reply = any_call(&workers[who], kind, rows);
        CHECK(kind == LISTS || asked == before); /* nothing but a listing takes memory */
        checks++;
        if (strcmp(hg_status_text(reply.status), "unknown status") == 0
            || reply.status == HG_CLOSED || reply.status == HG_AGAIN) {
            failed++;
            printf(TEST ": call %u: status %u\n", kind, reply.status);
        }
    }
    for (uint32_t at = 0; at < 8; at++)
        CHECK(hg_worker_read(one, 0, made.value, at).value == at + 100);
    hg_reply shown = hg_worker_list(one, 0, rows, ROWS);
    CHECK(shown.status == HG_DONE && shown.value == 1);
    CHECK(rows[0].status == HG_LISTED && rows[0].value == made.value && rows[0].detail == 64);
    CHECK(hg_worker_list(one, 0, NULL, 0).value == 1);
    for (uint32_t n = 0; n < 2; n++)
        CHECK(is_plain(hg_worker_leave_now(&workers[n]), HG_DONE));
    CHECK(is_plain(hg_service_close(&service, &core), HG_DONE));
    CHECK(is_plain(hg_refill(&core, 0, 0), HG_REFILLED));
    for (uint32_t at = 0; at < 8; at++)
        CHECK(hg_read(&core, 0, 0, made.value, at).value == at + 100);
    CHECK(is_plain(hg_close(&core), HG_DONE));
}

int main(void)
{
    seed = 20;
    try_closed();
    try_opening();
    try_giving();
    try_words();
    try_dropping();
    try_open();
    printf(TEST ": %u checks, %u failed\n", checks, failed);
    return failed != 0;
}
