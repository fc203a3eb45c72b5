/* Calls on banks that are closed, closed twice or opened twice, a core's bytes for a bank and a
 * bank's for a core, and garbage in every argument: each is answered, and what a closed bank or a
 * text's room has stays as it was. On an open bank a block that nothing of it may touch is there at
 * the end, as it was written. No call but hg_bank_open and hg_bank_grow asks for memory, and none
 * but hg_bank_close gives back what stays.
 */
#define TEST "bank_misuse"
#include "checked.h"
#include "counted.h"
#include "garbage.h"
#include <string.h>

enum { ROUNDS = 100000, ROOM = 64, WORDS = 12, CORES = 3, MOST = 16384 };

static const char POLICY[] =
    "version = 1\n"
    "workers = 2\n"
    "tenant = [ {name = \"ann\", limit = 4096}, {name = \"bob\", limit = 4096} ]\n"
    "arena = [ {name = \"main\", segments = 2} ]\n";

static hg_reply open_bank(hg_bank *bank, uint32_t cores)
{
    return hg_bank_open(bank, POLICY, sizeof POLICY - 1, cores, NULL, 0);
}

/* A core that may be there, one of 16 bits, one that would be there if it wrapped, or any. */
static uint32_t core_number(void)
{
    switch (below(4)) {
    case 0: return below(4);
    case 1: return below(1 << 16);
    case 2: return (1 + below(0xffff)) * 65536 + below(3);
    default: return (uint32_t)next();
    }
}

static hg_bank_handle some_block(void)
{
    hg_bank_handle block = {core_number(), 0};
    if (below(8) == 0) block.core |= next() << 32;
    block.handle = below(2) ? next() : hg_handle_of(below(3), below(16), below(512), below(3));
    return block;
}

/* The kinds of calls: the first eight name a block or a place, and the last asks for memory. */
enum { FREE, READ, WRITE, LOOK, READ_WORDS, WRITE_WORDS, READ_BYTES, WRITE_BYTES, HOLDER, TENANT,
       ARENA, FREE_ALL, ALLOC, DELIVER, TAKE, COLLECT, ABANDON, REFILL, OPEN_CORES, WORKERS, SEGMENTS,
       HOLDS, CHARGE, NAME, GROW, KINDS };

/* One call of a kind, with garbage or with numbers that may be right. */
static hg_reply any_call(hg_bank *bank, unsigned kind, char *room)
{
    uint32_t w = number(), actor = stranger(), core = core_number();
    uint32_t at = below(2) ? (uint32_t)next() : below(8192);
    hg_bank_handle block = some_block();
    uint64_t words[WORDS] = {0};
    char name[8];
    for (unsigned n = 0; n < sizeof name; n++) name[n] = (char)next();
    switch (kind) {
    case FREE: return hg_bank_free(bank, w, actor, block);
    case READ: return hg_bank_read(bank, w, actor, block, at);
    case WRITE: return hg_bank_write(bank, w, actor, block, at, next());
    case LOOK: return hg_bank_look(bank, w, actor, core, at);
    case READ_WORDS:
        return hg_bank_read_words(bank, w, actor, block, at, words, below(WORDS + 1));
    case WRITE_WORDS:
        return hg_bank_write_words(bank, w, actor, block, at, words, below(WORDS + 1));
    case READ_BYTES:
        return hg_bank_read_bytes(bank, w, actor, block, at, words, below(sizeof words + 1));
    case WRITE_BYTES:
        return hg_bank_write_bytes(bank, w, actor, block, at, words, below(sizeof words + 1));
    case HOLDER: return hg_bank_holder(bank, core, number());
    case TENANT: return hg_bank_tenant(bank, name, below(9));
    case ARENA: return hg_bank_arena(bank, name, below(9));
    case FREE_ALL: return hg_bank_free_all(bank, w, actor, core, number());
    case ALLOC: return hg_bank_alloc(bank, w, actor, number(), below(2) ? next() : below(64));
    case DELIVER: return hg_bank_deliver(bank, w, core);
    case TAKE: return hg_bank_take(bank, w, core, number());
    case COLLECT: return hg_bank_collect(bank, w, core);
    case ABANDON: return hg_bank_abandon(bank, w, core, number() | 1); /* segment 0 is to be kept */
    case REFILL: return hg_bank_refill(bank, w, number());
    case OPEN_CORES: return hg_bank_cores(bank);
    case WORKERS: return hg_bank_workers(bank);
    case SEGMENTS: return hg_bank_segments(bank);
    case HOLDS: return hg_bank_holds(bank, number(), core, number());
    case CHARGE: return hg_bank_charge(bank, w, number());
    case NAME: return hg_bank_tenant_name(bank, number(), room, below(ROOM + 1));
    default: return hg_bank_grow(bank);
    }
}

static void try_closed(hg_bank bank)
{
    hg_bank before = bank;
    unsigned long shut = asked;
    char room[ROOM], untouched[ROOM];
    memset(untouched, 0x5a, sizeof untouched);
    memcpy(room, untouched, sizeof room);
    for (unsigned n = 0; n < ROUNDS / 10; n++) {
        unsigned kind = n % KINDS;
        hg_reply reply = any_call(&bank, kind, room);
        int is_right = kind == HOLDER ? is_nobody(reply, HG_CLOSED)
            : kind == TENANT || kind == ARENA
            ? is_nobody(reply, HG_CLOSED) || is_nobody(reply, HG_NO_NAME)
            : is_plain(reply, HG_CLOSED) || (kind <= WRITE_BYTES && is_plain(reply, HG_NO_BLOCK));
        if (!is_right) {
            failed++;
            printf(TEST ": call %u on a closed bank: %s\n", kind, hg_status_text(reply.status));
        }
        checks++;
    }
    CHECK(is_plain(hg_bank_close(&bank), HG_CLOSED));
    CHECK(is_plain(hg_bank_close(&bank), HG_CLOSED));
    CHECK(bank.at == before.at && bank.mark == before.mark);
    CHECK(memcmp(room, untouched, sizeof room) == 0);
    CHECK(asked == shut);
}

/* What is open, and no core, is a closed core to each call. */
static void try_as_core(hg_core core)
{
    uint64_t words[WORDS] = {0};
    char room[ROOM] = "";
    hg_core before = core;
    unsigned long shut = asked;
    CHECK(is_plain(hg_alloc(&core, 0, 0, 0, 8), HG_CLOSED));
    CHECK(is_plain(hg_free(&core, 0, 0, 1), HG_CLOSED));
    CHECK(is_plain(hg_deliver(&core, 0), HG_CLOSED));
    CHECK(is_plain(hg_take(&core, 0, 0), HG_CLOSED));
    CHECK(is_plain(hg_collect(&core, 0), HG_CLOSED));
    CHECK(is_plain(hg_read(&core, 0, 0, 1, 0), HG_CLOSED));
    CHECK(is_plain(hg_write(&core, 0, 0, 1, 0, 1), HG_CLOSED));
    CHECK(is_plain(hg_look(&core, 0, 0, 0), HG_CLOSED));
    CHECK(is_plain(hg_abandon(&core, 0, 0), HG_CLOSED));
    CHECK(is_plain(hg_refill(&core, 0, 0), HG_CLOSED));
    CHECK(is_plain(hg_read_words(&core, 0, 0, 1, 0, words, WORDS), HG_CLOSED));
    CHECK(is_plain(hg_write_words(&core, 0, 0, 1, 0, words, WORDS), HG_CLOSED));
    CHECK(is_plain(hg_read_bytes(&core, 0, 0, 1, 0, room, ROOM), HG_CLOSED) && room[0] == 0);
    CHECK(is_plain(hg_write_bytes(&core, 0, 0, 1, 0, room, ROOM), HG_CLOSED));
    CHECK(is_plain(hg_free_all(&core, 0, 0, 0), HG_CLOSED));
    CHECK(is_plain(hg_workers(&core), HG_CLOSED));
    CHECK(is_plain(hg_segments(&core), HG_CLOSED));
    CHECK(is_plain(hg_holds(&core, 0, 0), HG_CLOSED));
    CHECK(is_nobody(hg_holder(&core, 0), HG_CLOSED));
    CHECK(is_plain(hg_charge(&core, 0, 0), HG_CLOSED));
    CHECK(is_nobody(hg_tenant(&core, "ann", 3), HG_CLOSED));
    CHECK(is_nobody(hg_arena(&core, "main", 4), HG_CLOSED));
    CHECK(is_plain(hg_tenant_name(&core, 0, room, ROOM), HG_CLOSED) && room[0] == 0);
    CHECK(is_plain(hg_close(&core), HG_CLOSED));
    CHECK(core.at == before.at && core.mark == before.mark && asked == shut);
}

/* A core's bytes are a closed bank, and a bank's a closed core. Both stay open where they are. */
static void try_marks(void)
{
    hg_core core = HG_CORE_INIT, of_bank;
    hg_bank bank = HG_BANK_INIT, of_core;
    CHECK(sizeof core == sizeof bank);
    CHECK(hg_open(&core, POLICY, sizeof POLICY - 1, NULL, 0).status == HG_DONE);
    CHECK(open_bank(&bank, CORES).status == HG_DONE);
    CHECK(core.mark != bank.mark);
    memcpy(&of_core, &core, sizeof of_core);
    memcpy(&of_bank, &bank, sizeof of_bank);
    try_closed(of_core);
    try_as_core(of_bank);
    CHECK(hg_workers(&core).value == 2 && hg_bank_workers(&bank).value == 2);
    CHECK(is_plain(hg_close(&core), HG_DONE));
    CHECK(is_plain(hg_bank_close(&bank), HG_DONE));
    /* Of a core's bytes a bank may be opened, as of any that are no open bank's. */
    CHECK(is_plain(open_bank(&of_core, 1), HG_DONE));
    CHECK(is_plain(hg_bank_close(&of_core), HG_DONE));
}

/* A bank that nobody made HG_BANK_INIT is closed, whatever stood there, unless an open one's mark did. */
static void try_unmade(void)
{
    hg_bank open = HG_BANK_INIT, zeros;
    memset(&zeros, 0, sizeof zeros);
    CHECK(is_plain(hg_bank_close(&zeros), HG_CLOSED));
    CHECK(is_plain(open_bank(&open, 1), HG_DONE));
    for (unsigned byte = 0; byte < 256; byte++) {
        hg_bank bank;
        memset(&bank, (int)byte, sizeof bank);
        CHECK(bank.mark != open.mark);
        CHECK(is_plain(hg_bank_alloc(&bank, 0, 0, 0, 8), HG_CLOSED));
        CHECK(is_plain(hg_bank_grow(&bank), HG_CLOSED));
        CHECK(is_plain(hg_bank_close(&bank), HG_CLOSED));
        CHECK(is_plain(open_bank(&bank, 1), HG_DONE));
        CHECK(bank.mark == open.mark);
        CHECK(is_plain(hg_bank_close(&bank), HG_DONE));
    }
    CHECK(is_plain(hg_bank_close(&open), HG_DONE));
}

static void try_opening(void)
{
    static const char BAD[] = "version = 1\ncolour = 3\n";
    static const char LINE[] = "policy fault 4: unknown colour";
    hg_bank bank = HG_BANK_INIT;
    for (size_t length = 0; length <= ROOM; length++) {
        char room[ROOM + 1];
        memset(room, '?', sizeof room);
        hg_reply reply = hg_bank_open(&bank, BAD, sizeof BAD - 1, CORES, room, length);
        size_t told = length < sizeof LINE - 1 ? length : sizeof LINE - 1;
        CHECK(reply.status == HG_UNKNOWN && reply.value == told && !reply.owner && !reply.detail);
        CHECK(memcmp(room, LINE, told) == 0 && room[told] == '?' && room[ROOM] == '?');
    }
    CHECK(hg_bank_open(&bank, NULL, 0, 1, NULL, 0).status == HG_MISSING);
    CHECK(hg_bank_open(&bank, "\xff\xfe", 2, 1, NULL, 0).status == HG_NOT_TOML);
    CHECK(is_plain(hg_bank_cores(&bank), HG_CLOSED));

    CHECK(is_plain(open_bank(&bank, CORES), HG_DONE));
    hg_bank before = bank;
    unsigned long opened = asked;
    char room[4] = "abc";
    CHECK(is_plain(hg_bank_open(&bank, POLICY, sizeof POLICY - 1, CORES, room, 4), HG_HELD));
    CHECK(is_plain(hg_bank_open(&bank, BAD, sizeof BAD - 1, 0, room, 4), HG_HELD));
    CHECK(bank.at == before.at && bank.mark == before.mark && strcmp(room, "abc") == 0);
    CHECK(asked == opened);
    CHECK(hg_bank_workers(&bank).value == 2 && hg_bank_segments(&bank).value == 2);
    CHECK(is_plain(hg_bank_close(&bank), HG_DONE));
    CHECK(is_plain(hg_bank_close(&bank), HG_CLOSED));
}

/* How many cores a bank may have. No other number asks for memory, whatever the text is. */
static void try_counts(void)
{
    static const uint32_t NONE[] = {0, MOST + 1, 65536, 65537, 1u << 31, UINT32_MAX};
    static const uint32_t SOME[] = {1, 2, MOST};
    static const char BAD[] = "version = 1\ncolour = 3\n";
    for (unsigned n = 0; n < sizeof NONE / sizeof *NONE; n++) {
        hg_bank bank = HG_BANK_INIT;
        unsigned long shut = asked;
        char room[ROOM] = "";
        CHECK(is_plain(open_bank(&bank, NONE[n]), HG_NO_COUNT));
        CHECK(is_plain(hg_bank_open(&bank, BAD, sizeof BAD - 1, NONE[n], room, ROOM), HG_NO_COUNT));
        CHECK(asked == shut && !bank.at && !bank.mark && room[0] == 0);
        CHECK(is_plain(hg_bank_close(&bank), HG_CLOSED));
    }
    for (unsigned n = 0; n < sizeof SOME / sizeof *SOME; n++) {
        hg_bank bank = HG_BANK_INIT;
        CHECK(is_plain(open_bank(&bank, SOME[n]), HG_DONE));
        CHECK(hg_bank_cores(&bank).value == 1);
        for (uint32_t core = 1; core < SOME[n] && core < CORES; core++) {
            hg_reply grown = hg_bank_grow(&bank);
            CHECK(grown.status == HG_VALUE && grown.value == core);
        }
        unsigned long opened = asked;
        if (SOME[n] < CORES) CHECK(is_plain(hg_bank_grow(&bank), HG_FULL));
        CHECK(hg_bank_cores(&bank).value == (SOME[n] < CORES ? SOME[n] : CORES));
        CHECK(asked == opened);
        CHECK(is_plain(hg_bank_close(&bank), HG_DONE));
    }
}

/* Numbers that would be those of worker 0, tenant 0, arena 0, segment 0 and core 0 if they wrapped;
 * and of cores, those that may be there and aren't open. */
static void try_wide(hg_bank *bank, hg_bank_handle block)
{
    static const uint32_t WIDE[] = {255, 256, 512, 65535, 65536, 1u << 24, 1u << 31, UINT32_MAX};
    uint32_t place = hg_place_of(block.handle);
    for (unsigned n = 0; n < sizeof WIDE / sizeof *WIDE; n++) {
        uint32_t wide = WIDE[n];
        char room[ROOM] = "";
        CHECK(is_plain(hg_bank_alloc(bank, wide, 0, 0, 8), HG_NO_WORKER));
        CHECK(is_plain(hg_bank_free(bank, wide, 0, block), HG_NO_WORKER));
        CHECK(is_plain(hg_bank_deliver(bank, wide, 0), HG_NO_WORKER));
        CHECK(is_plain(hg_bank_take(bank, wide, 0, 0), HG_NO_WORKER));
        CHECK(is_plain(hg_bank_collect(bank, wide, 0), HG_NO_WORKER));
        CHECK(is_plain(hg_bank_read(bank, wide, 0, block, 0), HG_NO_WORKER));
        CHECK(is_plain(hg_bank_write(bank, wide, 0, block, 0, 1), HG_NO_WORKER));
        CHECK(is_plain(hg_bank_look(bank, wide, 0, 0, place), HG_NO_WORKER));
        CHECK(is_plain(hg_bank_abandon(bank, wide, 0, 0), HG_NO_WORKER));
        CHECK(is_plain(hg_bank_refill(bank, wide, 0), HG_NO_WORKER));
        CHECK(is_plain(hg_bank_read_words(bank, wide, 0, block, 0, NULL, 0), HG_NO_WORKER));
        CHECK(is_plain(hg_bank_write_words(bank, wide, 0, block, 0, NULL, 0), HG_NO_WORKER));
        CHECK(is_plain(hg_bank_read_bytes(bank, wide, 0, block, 0, room, 9), HG_NO_WORKER));
        CHECK(is_plain(hg_bank_write_bytes(bank, wide, 0, block, 0, "nine bytes", 9), HG_NO_WORKER));
        CHECK(is_plain(hg_bank_free_all(bank, wide, 0, 0, 0), HG_NO_WORKER));
        CHECK(is_plain(hg_bank_free_all(bank, 0, 0, (uint32_t)block.core, wide), HG_DONE));
        CHECK(is_plain(hg_bank_free_all(bank, 0, wide, (uint32_t)block.core, 0), HG_DONE));
        CHECK(is_plain(hg_bank_alloc(bank, 0, wide, 0, 8), HG_STRANGER));
        CHECK(is_plain(hg_bank_free(bank, 0, wide, block), HG_STRANGER));
        CHECK(is_plain(hg_bank_read(bank, 0, wide, block, 0), HG_STRANGER));
        CHECK(is_plain(hg_bank_write(bank, 0, wide, block, 0, 1), HG_STRANGER));
        CHECK(is_plain(hg_bank_read_bytes(bank, 0, wide, block, 0, room, 9), HG_STRANGER));
        CHECK(is_plain(hg_bank_write_bytes(bank, 0, wide, block, 0, "nine bytes", 9), HG_STRANGER));
        CHECK(is_plain(hg_bank_look(bank, 0, wide, 0, place), HG_STRANGER));
        CHECK(is_plain(hg_bank_alloc(bank, 0, 0, wide, 8), HG_FOREIGN_ARENA));
        CHECK(is_plain(hg_bank_refill(bank, 0, wide), HG_NO_SEGMENT));
        CHECK(is_plain(hg_bank_take(bank, 0, 0, wide), HG_NOT_HELD));
        CHECK(is_plain(hg_bank_abandon(bank, 0, 0, wide), HG_NOT_HELD));
        CHECK(is_plain(hg_bank_holds(bank, wide, 0, 0), HG_VALUE));
        CHECK(is_plain(hg_bank_holds(bank, 0, 0, wide), HG_VALUE));
        CHECK(is_nobody(hg_bank_holder(bank, 0, wide), HG_NOT_HELD));
        CHECK(is_plain(hg_bank_charge(bank, wide, 0), HG_NO_WORKER));
        CHECK(is_plain(hg_bank_charge(bank, 0, wide), HG_NO_NAME));
        CHECK(is_plain(hg_bank_tenant_name(bank, wide, room, ROOM), HG_NO_NAME) && room[0] == 0);
    }
}

/* What is asked of a core that isn't open is answered as of a segment that isn't there. */
static void try_absent(hg_bank *bank, hg_bank_handle block)
{
    static const uint64_t ABSENT[] = {CORES, 255, MOST - 1, MOST, 65535, 65536, 65537, UINT32_MAX,
        UINT64_C(1) << 32, UINT64_C(1) << 48, (UINT64_C(1) << 32) + 1, UINT64_MAX};
    uint32_t place = hg_place_of(block.handle);
    uint64_t word = 0;
    for (unsigned n = 0; n < sizeof ABSENT / sizeof *ABSENT; n++) {
        hg_bank_handle away = {ABSENT[n], block.handle};
        CHECK(is_plain(hg_bank_free(bank, 0, 0, away), HG_STALE));
        CHECK(is_plain(hg_bank_read(bank, 0, 0, away, 0), HG_STALE));
        CHECK(is_plain(hg_bank_write(bank, 0, 0, away, 0, 1), HG_STALE));
        CHECK(is_plain(hg_bank_read_words(bank, 0, 0, away, 0, &word, 1), HG_STALE));
        CHECK(is_plain(hg_bank_write_words(bank, 0, 0, away, 0, &word, 1), HG_STALE));
        CHECK(is_plain(hg_bank_read_bytes(bank, 0, 0, away, 3, &word, 7), HG_STALE));
        CHECK(is_plain(hg_bank_write_bytes(bank, 0, 0, away, 3, &word, 7), HG_STALE));
        CHECK(is_plain(hg_bank_write_bytes(bank, 0, 0, away, 0, &word, 8), HG_STALE));
        CHECK(is_plain(hg_bank_read_bytes(bank, 0, 0, away, 3, NULL, 0), HG_DONE));
        CHECK(is_plain(hg_bank_read(bank, 0, 2, away, 0), HG_STRANGER));
        CHECK(is_plain(hg_bank_read_bytes(bank, 0, 2, away, 0, &word, 8), HG_STRANGER));
        CHECK(is_plain(hg_bank_write_bytes(bank, 0, 2, away, 0, &word, 8), HG_STRANGER));
        away.handle = 0;
        CHECK(is_plain(hg_bank_read(bank, 0, 0, away, 0), HG_NO_BLOCK));
        CHECK(is_plain(hg_bank_read_bytes(bank, 0, 0, away, 0, &word, 8), HG_NO_BLOCK));
        CHECK(is_plain(hg_bank_write_bytes(bank, 0, 0, away, 0, &word, 8), HG_NO_BLOCK) && !word);
        if (ABSENT[n] > UINT32_MAX) continue;
        uint32_t core = (uint32_t)ABSENT[n];
        CHECK(is_plain(hg_bank_look(bank, 0, 0, core, place), HG_STALE));
        CHECK(is_plain(hg_bank_look(bank, 0, 0, core, 524288), HG_NO_BLOCK));
        CHECK(is_plain(hg_bank_deliver(bank, 0, core), HG_NOTHING_IN_HAND));
        CHECK(is_plain(hg_bank_take(bank, 0, core, 0), HG_NOT_HELD));
        CHECK(is_plain(hg_bank_collect(bank, 0, core), HG_PAGES));
        CHECK(is_plain(hg_bank_abandon(bank, 0, core, 0), HG_NOT_HELD));
        CHECK(is_plain(hg_bank_free_all(bank, 0, 0, core, 0), HG_DONE));
        CHECK(is_plain(hg_bank_holds(bank, 0, core, 0), HG_VALUE));
        CHECK(is_nobody(hg_bank_holder(bank, core, 0), HG_NOT_HELD));
    }
}

/* A bank of all its cores, in each of which the worker holds segment 0; a block of tenant 0 in the
 * second. */
static hg_bank_handle opened_with_block(hg_bank *bank)
{
    CHECK(is_plain(open_bank(bank, CORES), HG_DONE));
    for (uint32_t core = 1; core < CORES; core++) CHECK(hg_bank_grow(bank).value == core);
    hg_bank_handle block = {0, 0};
    for (uint32_t n = 0; n < CORES * 2; n++) {
        hg_reply refilled = hg_bank_refill(bank, n % 2, 0);
        CHECK(refilled.status == HG_REFILLED && refilled.detail == n / 2);
        if (n == 2) block = hg_bank_handle_of(hg_bank_alloc(bank, 0, 0, 0, 64));
    }
    CHECK(block.core == 1 && block.handle != 0);
    for (uint32_t at = 0; at < 8; at++)
        CHECK(is_plain(hg_bank_write(bank, 0, 0, block, at, at + 100), HG_DONE));
    return block;
}

/* No call of garbage comes from tenant 0, so its block stays. */
static void try_open(void)
{
    hg_bank bank = HG_BANK_INIT;
    hg_bank_handle block = opened_with_block(&bank);
    unsigned long opened = asked;
    CHECK(is_plain(hg_bank_holder(&bank, 1, 0), HG_VALUE));
    CHECK(hg_bank_holder(&bank, 1, 1).value == 1);
    CHECK(is_nobody(hg_bank_holder(&bank, 1, 2), HG_NOT_HELD));
    CHECK(hg_bank_charge(&bank, 0, 0).status == HG_VALUE && hg_bank_charge(&bank, 0, 0).value == 64);
    CHECK(is_plain(hg_bank_charge(&bank, 1, 0), HG_VALUE));
    CHECK(is_plain(hg_bank_charge(&bank, 2, 0), HG_NO_WORKER));
    CHECK(is_plain(hg_bank_read(&bank, 0, 0, block, 8), HG_OUT_OF_BLOCK));
    CHECK(is_plain(hg_bank_read(&bank, 1, 0, block, 0), HG_ELSEWHERE));
    CHECK(is_nobody(hg_bank_tenant(&bank, "eve", 3), HG_NO_NAME));
    CHECK(is_nobody(hg_bank_tenant(&bank, "\xff", 1), HG_NO_NAME));
    CHECK(is_nobody(hg_bank_arena(&bank, "attic", 5), HG_NO_NAME));
    CHECK(is_plain(hg_bank_tenant(&bank, "ann", 3), HG_VALUE));
    CHECK(is_plain(hg_bank_arena(&bank, "main", 4), HG_VALUE));
    try_wide(&bank, block);
    try_absent(&bank, block);
    CHECK(asked == opened);
    for (unsigned n = 0; n < ROUNDS; n++) {
        char room[ROOM];
        unsigned kind = n % KINDS;
        if (kind == FREE_ALL && below(32)) continue; /* it looks at each place that a block may have */
        hg_reply reply = any_call(&bank, kind, room);
        checks++;
        if (strcmp(hg_status_text(reply.status), "unknown status") == 0 || asked != opened) {
            failed++;
            opened = asked;
            printf(TEST ": call %u: status %u\n", kind, reply.status);
        }
    }
    for (uint32_t at = 0; at < 8; at++)
        CHECK(hg_bank_read(&bank, 0, 0, block, at).value == at + 100);
    CHECK(is_plain(hg_bank_free(&bank, 0, 0, block), HG_DONE));
    CHECK(is_plain(hg_bank_read(&bank, 0, 0, block, 0), HG_ALREADY_FREED));
    CHECK(is_plain(hg_bank_close(&bank), HG_DONE));
    for (unsigned n = 0; n < 64; n++) any_call(&bank, n % KINDS, (char[ROOM]){0});
}

/* A bank that grows amid garbage: a core more asks for memory, and no other call does. */
static void try_growing(void)
{
    hg_bank bank = HG_BANK_INIT;
    CHECK(is_plain(open_bank(&bank, 64), HG_DONE));
    uint64_t cores = 1;
    for (unsigned n = 0; n < 64 * KINDS + ROUNDS / 10; n++) {
        char room[ROOM];
        unsigned kind = n % KINDS;
        if (kind == FREE_ALL && below(32)) continue;
        unsigned long before = asked;
        hg_reply reply = any_call(&bank, kind, room);
        int has_grown = kind == GROW && cores < 64;
        if (has_grown) CHECK(reply.status == HG_VALUE && reply.value == cores++ && asked > before);
        else CHECK(asked == before && (kind != GROW || is_plain(reply, HG_FULL)));
    }
    CHECK(cores == 64 && hg_bank_cores(&bank).value == 64);
    CHECK(is_plain(hg_bank_close(&bank), HG_DONE));
}

/* Many words of a block, and all blocks of an owner: in the core that is named, and in no other. */
static void try_many(void)
{
    hg_bank bank = HG_BANK_INIT;
    hg_bank_handle block = opened_with_block(&bank), beside = block;
    unsigned long opened = asked;
    uint64_t words[WORDS], room[WORDS];
    for (unsigned at = 0; at < WORDS; at++) words[at] = next();
    hg_reply some = hg_bank_write_words(&bank, 0, 0, block, 0, words, WORDS);
    CHECK(some.status == HG_OUT_OF_BLOCK && some.value == 8 && !some.owner && !some.detail);
    memset(room, 0x5a, sizeof room);
    some = hg_bank_read_words(&bank, 0, 0, block, 3, room, WORDS);
    CHECK(some.status == HG_OUT_OF_BLOCK && some.value == 5 && !some.owner && !some.detail);
    CHECK(memcmp(room, words + 3, 40) == 0 && room[5] == UINT64_C(0x5a5a5a5a5a5a5a5a));
    some = hg_bank_read_words(&bank, 0, 0, block, 0, room, 8);
    CHECK(some.status == HG_DONE && some.value == 8 && memcmp(room, words, 64) == 0);
    CHECK(is_plain(hg_bank_write_words(&bank, 0, 1, block, 0, words, 2), HG_NOT_GRANTED));
    CHECK(is_plain(hg_bank_read_words(&bank, 1, 0, block, 0, room, 2), HG_ELSEWHERE));
    beside.core = 0;
    CHECK(is_plain(hg_bank_read_words(&bank, 0, 0, beside, 0, room, 2), HG_STALE));
    hg_bank_handle other = hg_bank_handle_of(hg_bank_alloc(&bank, 0, 0, 0, 64));
    CHECK(other.core == 2 && hg_bank_charge(&bank, 0, 0).value == 128);
    CHECK(is_plain(hg_bank_free_all(&bank, 0, 1, 1, 0), HG_DONE));
    CHECK(is_plain(hg_bank_free_all(&bank, 0, 0, 0, 0), HG_DONE));
    CHECK(is_plain(hg_bank_free_all(&bank, 1, 0, 1, 0), HG_DONE));
    CHECK(hg_bank_free_all(&bank, 0, 0, 1, 0).value == 1);
    CHECK(hg_bank_read(&bank, 0, 0, block, 0).status == HG_ALREADY_FREED);
    CHECK(is_plain(hg_bank_read(&bank, 0, 0, other, 0), HG_VALUE));
    CHECK(hg_bank_free_all(&bank, 0, 0, 2, 0).value == 1 && hg_bank_charge(&bank, 0, 0).value == 0);
    CHECK(asked == opened);
    CHECK(is_plain(hg_bank_close(&bank), HG_DONE));
}

int main(void)
{
    hg_bank zeros = HG_BANK_INIT, garbage;
    memset(&garbage, 0xa5, sizeof garbage);
    seed = 20;
    try_closed(zeros);
    try_closed(garbage);
    try_marks();
    try_unmade();
    try_opening();
    try_counts();
    try_open();
    try_growing();
    try_many();
    printf(TEST ": %u checks, %u failed\n", checks, failed);
    return failed != 0;
}
