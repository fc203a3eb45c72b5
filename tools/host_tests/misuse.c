/* Calls on cores that are closed, closed twice or opened twice, and garbage in every argument:
 * each is answered, and what a closed core or a text's room has stays as it was. On an open core a
 * block that nothing of it may touch is there at the end, as it was written. No call but hg_open
 * asks for memory, and none but hg_close gives some back.
 */
#define TEST "misuse"
#include "checked.h"
#include "counted.h"
#include "garbage.h"
#include <string.h>

enum { ROUNDS = 200000, ROOM = 64, WORDS = 12 };

static const char POLICY[] =
    "version = 1\n"
    "workers = 2\n"
    "tenant = [ {name = \"ann\", limit = 4096}, {name = \"bob\", limit = 4096} ]\n"
    "arena = [ {name = \"main\", segments = 2} ]\n";

/* One call of each kind, with garbage or with numbers that may be right. */
static hg_reply any_call(hg_core *core, unsigned kind, char *room)
{
    uint32_t w = number(), actor = stranger();
    uint64_t word = below(2) ? next() : hg_handle_of(below(3), below(16), below(512), below(3));
    uint32_t at = below(2) ? (uint32_t)next() : below(8192);
    uint64_t words[WORDS] = {0};
    char name[8];
    for (unsigned at = 0; at < sizeof name; at++) name[at] = (char)next();
    switch (kind) {
    case 0: return hg_alloc(core, w, actor, number(), below(2) ? next() : below(64));
    case 1: return hg_free(core, w, actor, word);
    case 2: return hg_deliver(core, w);
    case 3: return hg_take(core, w, number());
    case 4: return hg_collect(core, w);
    case 5: return hg_read(core, w, actor, word, at);
    case 6: return hg_write(core, w, actor, word, at, next());
    case 7: return hg_look(core, w, actor, at);
    case 8: return hg_abandon(core, w, number() | 1);
    case 9: return hg_refill(core, w, number());
    case 10: return hg_workers(core);
    case 11: return hg_holds(core, number(), number());
    case 12: return hg_tenant(core, name, below(9));
    case 13: return hg_arena(core, name, below(9));
    case 14: return hg_tenant_name(core, number(), room, below(ROOM + 1));
    case 15: return hg_segments(core);
    case 16: return hg_holder(core, number());
    case 17: return hg_charge(core, w, number());
    case 18: return hg_read_words(core, w, actor, word, at, words, below(WORDS + 1));
    case 19: return hg_write_words(core, w, actor, word, at, words, below(WORDS + 1));
    case 20: return hg_read_bytes(core, w, actor, word, at, words, below(sizeof words + 1));
    case 21: return hg_write_bytes(core, w, actor, word, at, words, below(sizeof words + 1));
    default: return hg_free_all(core, w, actor, number());
    }
}

enum { KINDS = 23 };

static void try_closed(hg_core core)
{
    hg_core before = core;
    unsigned long shut = asked;
    char room[ROOM], untouched[ROOM];
    memset(untouched, 0x5a, sizeof untouched);
    memcpy(room, untouched, sizeof room);
    for (unsigned n = 0; n < ROUNDS / 10; n++) {
        unsigned kind = n % KINDS;
        hg_reply reply = any_call(&core, kind, room);
        int unnamed = kind == 1 || (kind >= 5 && kind <= 7) || (kind >= 18 && kind <= 21);
        int is_right = kind == 16 ? is_nobody(reply, HG_CLOSED)
            : kind == 12 || kind == 13
            ? is_nobody(reply, HG_CLOSED) || is_nobody(reply, HG_NO_NAME)
            : is_plain(reply, HG_CLOSED) || (unnamed && is_plain(reply, HG_NO_BLOCK));
        if (!is_right) {
            failed++;
            printf("misuse: call %u on a closed core: %s\n", kind, hg_status_text(reply.status));
        }
        checks++;
    }
    CHECK(is_plain(hg_close(&core), HG_CLOSED));
    CHECK(is_plain(hg_close(&core), HG_CLOSED));
    CHECK(core.at == before.at && core.mark == before.mark);
    CHECK(memcmp(room, untouched, sizeof room) == 0);
    CHECK(asked == shut);
}

/* A core that nobody made HG_CORE_INIT is closed, whatever stood there, unless an open one's mark did. */
static void try_unmade(void)
{
    hg_core open = HG_CORE_INIT, zeros;
    memset(&zeros, 0, sizeof zeros);
    CHECK(is_plain(hg_close(&zeros), HG_CLOSED));
    CHECK(is_plain(hg_open(&open, POLICY, sizeof POLICY - 1, NULL, 0), HG_DONE));
    for (unsigned byte = 0; byte < 256; byte++) {
        hg_core core;
        memset(&core, (int)byte, sizeof core);
        CHECK(core.mark != open.mark);
        CHECK(is_plain(hg_alloc(&core, 0, 0, 0, 8), HG_CLOSED));
        CHECK(is_plain(hg_close(&core), HG_CLOSED));
        CHECK(is_plain(hg_open(&core, POLICY, sizeof POLICY - 1, NULL, 0), HG_DONE));
        CHECK(core.mark == open.mark);
        CHECK(is_plain(hg_close(&core), HG_DONE));
    }
    CHECK(is_plain(hg_close(&open), HG_DONE));
}

static void try_opening(void)
{
    static const char BAD[] = "version = 1\ncolour = 3\n";
    static const char LINE[] = "policy fault 4: unknown colour";
    hg_core core = HG_CORE_INIT;
    for (size_t length = 0; length <= ROOM; length++) {
        char room[ROOM + 1];
        memset(room, '?', sizeof room);
        hg_reply reply = hg_open(&core, BAD, sizeof BAD - 1, room, length);
        size_t told = length < sizeof LINE - 1 ? length : sizeof LINE - 1;
        CHECK(reply.status == HG_UNKNOWN && reply.value == told && !reply.owner && !reply.detail);
        CHECK(memcmp(room, LINE, told) == 0 && room[told] == '?' && room[ROOM] == '?');
    }
    CHECK(hg_open(&core, BAD, sizeof BAD - 1, NULL, 0).status == HG_UNKNOWN);
    CHECK(hg_open(&core, NULL, 0, NULL, 0).status == HG_MISSING);
    CHECK(hg_open(&core, "\xff\xfe", 2, NULL, 0).status == HG_NOT_TOML);
    CHECK(is_plain(hg_workers(&core), HG_CLOSED));

    CHECK(is_plain(hg_open(&core, POLICY, sizeof POLICY - 1, NULL, 0), HG_DONE));
    hg_core before = core;
    char room[4] = "abc";
    CHECK(is_plain(hg_open(&core, POLICY, sizeof POLICY - 1, room, 4), HG_HELD));
    CHECK(is_plain(hg_open(&core, BAD, sizeof BAD - 1, room, 4), HG_HELD));
    CHECK(core.at == before.at && core.mark == before.mark && strcmp(room, "abc") == 0);
    CHECK(hg_workers(&core).value == 2 && hg_segments(&core).value == 2);
    CHECK(is_plain(hg_close(&core), HG_DONE));
    CHECK(is_plain(hg_close(&core), HG_CLOSED));
}

/* Numbers that would be those of worker 0, tenant 0, arena 0 and segment 0 if they wrapped. */
static void try_wide(hg_core *core, hg_handle block)
{
    static const uint32_t WIDE[] = {255, 256, 512, 65536, 1u << 24, 1u << 31, UINT32_MAX};
    for (unsigned n = 0; n < sizeof WIDE / sizeof *WIDE; n++) {
        uint32_t wide = WIDE[n];
        char room[ROOM] = "";
        CHECK(is_plain(hg_alloc(core, wide, 0, 0, 8), HG_NO_WORKER));
        CHECK(is_plain(hg_free(core, wide, 0, block), HG_NO_WORKER));
        CHECK(is_plain(hg_deliver(core, wide), HG_NO_WORKER));
        CHECK(is_plain(hg_take(core, wide, 0), HG_NO_WORKER));
        CHECK(is_plain(hg_collect(core, wide), HG_NO_WORKER));
        CHECK(is_plain(hg_read(core, wide, 0, block, 0), HG_NO_WORKER));
        CHECK(is_plain(hg_write(core, wide, 0, block, 0, 1), HG_NO_WORKER));
        CHECK(is_plain(hg_look(core, wide, 0, hg_place_of(block)), HG_NO_WORKER));
        CHECK(is_plain(hg_abandon(core, wide, 0), HG_NO_WORKER));
        CHECK(is_plain(hg_refill(core, wide, 0), HG_NO_WORKER));
        CHECK(is_plain(hg_read_words(core, wide, 0, block, 0, NULL, 0), HG_NO_WORKER));
        CHECK(is_plain(hg_write_words(core, wide, 0, block, 0, NULL, 0), HG_NO_WORKER));
        CHECK(is_plain(hg_read_bytes(core, wide, 0, block, 0, room, 9), HG_NO_WORKER));
        CHECK(is_plain(hg_write_bytes(core, wide, 0, block, 0, "nine bytes", 9), HG_NO_WORKER));
        CHECK(is_plain(hg_free_all(core, wide, 0, 0), HG_NO_WORKER));
        CHECK(is_plain(hg_free_all(core, 0, 0, wide), HG_DONE));
        CHECK(is_plain(hg_free_all(core, 0, wide, 0), HG_DONE));
        CHECK(is_plain(hg_alloc(core, 0, wide, 0, 8), HG_STRANGER));
        CHECK(is_plain(hg_free(core, 0, wide, block), HG_STRANGER));
        CHECK(is_plain(hg_read(core, 0, wide, block, 0), HG_STRANGER));
        CHECK(is_plain(hg_write(core, 0, wide, block, 0, 1), HG_STRANGER));
        CHECK(is_plain(hg_read_bytes(core, 0, wide, block, 0, room, 9), HG_STRANGER));
        CHECK(is_plain(hg_write_bytes(core, 0, wide, block, 0, "nine bytes", 9), HG_STRANGER));
        CHECK(is_plain(hg_look(core, 0, wide, hg_place_of(block)), HG_STRANGER));
        CHECK(is_plain(hg_alloc(core, 0, 0, wide, 8), HG_FOREIGN_ARENA));
        CHECK(is_plain(hg_refill(core, 0, wide), HG_NO_SEGMENT));
        CHECK(is_plain(hg_take(core, 0, wide), HG_NOT_HELD));
        CHECK(is_plain(hg_abandon(core, 0, wide), HG_NOT_HELD));
        CHECK(is_plain(hg_holds(core, wide, 0), HG_VALUE));
        CHECK(is_plain(hg_holds(core, 0, wide), HG_VALUE));
        CHECK(is_nobody(hg_holder(core, wide), HG_NOT_HELD));
        CHECK(is_plain(hg_charge(core, wide, 0), HG_NO_WORKER));
        CHECK(is_plain(hg_charge(core, wide, wide), HG_NO_WORKER));
        CHECK(is_plain(hg_charge(core, 0, wide), HG_NO_NAME));
        CHECK(is_plain(hg_tenant_name(core, wide, room, ROOM), HG_NO_NAME) && room[0] == 0);
    }
}

/* No call of garbage comes from tenant 0, so its block stays. */
static void try_open(void)
{
    hg_core core = HG_CORE_INIT;
    CHECK(hg_open(&core, POLICY, sizeof POLICY - 1, NULL, 0).status == HG_DONE);
    unsigned long opened = asked;
    CHECK(opened > 0);
    CHECK(hg_refill(&core, 0, 0).status == HG_REFILLED);
    hg_reply made = hg_alloc(&core, 0, 0, 0, 64);
    CHECK(made.status == HG_BLOCK && made.value != 0);
    for (uint32_t at = 0; at < 8; at++)
        CHECK(is_plain(hg_write(&core, 0, 0, made.value, at, at + 100), HG_DONE));
    CHECK(is_plain(hg_holder(&core, 0), HG_VALUE));
    CHECK(is_nobody(hg_holder(&core, 1), HG_NOT_HELD));
    CHECK(is_nobody(hg_holder(&core, 2), HG_NOT_HELD));
    CHECK(hg_charge(&core, 0, 0).status == HG_VALUE && hg_charge(&core, 0, 0).value == 64);
    CHECK(is_plain(hg_charge(&core, 0, 1), HG_VALUE));
    CHECK(is_plain(hg_charge(&core, 1, 0), HG_VALUE));
    CHECK(is_plain(hg_charge(&core, 0, 2), HG_NO_NAME));
    CHECK(is_plain(hg_charge(&core, 2, 0), HG_NO_WORKER));
    CHECK(is_plain(hg_read(&core, 2, 0, made.value, 0), HG_NO_WORKER));
    CHECK(is_plain(hg_read(&core, 255, 0, made.value, 0), HG_NO_WORKER));
    CHECK(is_plain(hg_read(&core, 0, 0, 0, 0), HG_NO_BLOCK));
    CHECK(is_plain(hg_look(&core, 0, 0, 524288), HG_NO_BLOCK));
    CHECK(is_plain(hg_read(&core, 0, 2, made.value, 0), HG_STRANGER));
    CHECK(is_plain(hg_read(&core, 0, 0, made.value, 8), HG_OUT_OF_BLOCK));
    try_wide(&core, made.value);
    CHECK(is_nobody(hg_tenant(&core, "eve", 3), HG_NO_NAME));
    CHECK(is_nobody(hg_tenant(&core, "\xff", 1), HG_NO_NAME));
    CHECK(is_nobody(hg_arena(&core, "attic", 5), HG_NO_NAME));
    for (unsigned n = 0; n < ROUNDS; n++) {
        char room[ROOM];
        unsigned kind = n % KINDS;
        if (kind == 8) continue; /* the worker of segment 0 is to keep it */
        if (kind == 22 && below(32)) continue; /* it looks at each place that a block may have */
        seed ^= n;
        hg_reply reply = any_call(&core, kind, room);
        checks++;
        if (strcmp(hg_status_text(reply.status), "unknown status") == 0) {
            failed++;
            printf("misuse: call %u: status %u\n", kind, reply.status);
        }
    }
    for (uint32_t at = 0; at < 8; at++)
        CHECK(hg_read(&core, 0, 0, made.value, at).value == at + 100);
    CHECK(asked == opened);
    CHECK(is_plain(hg_close(&core), HG_DONE));
    for (unsigned n = 0; n < 64; n++) any_call(&core, n % KINDS, (char[ROOM]){0});
}

/* A block of a whole segment: its first and its last word, its row, and one byte more. */
static void try_large(void)
{
    static const char LARGE[] =
        "version = 1\nworkers = 1\n"
        "tenant = [ {name = \"ann\", limit = 131072} ]\n"
        "arena = [ {name = \"main\", segments = 1} ]\n";
    hg_core core = HG_CORE_INIT;
    CHECK(hg_open(&core, LARGE, sizeof LARGE - 1, NULL, 0).status == HG_DONE);
    CHECK(hg_refill(&core, 0, 0).status == HG_REFILLED);
    CHECK(is_plain(hg_alloc(&core, 0, 0, 0, 65537), HG_TOO_LARGE));
    hg_reply made = hg_alloc(&core, 0, 0, 0, 65536);
    CHECK(made.status == HG_BLOCK && made.value != 0);
    CHECK(is_plain(hg_alloc(&core, 0, 0, 0, 1), HG_NO_ROOM));
    CHECK(is_plain(hg_write(&core, 0, 0, made.value, 0, 5), HG_DONE));
    CHECK(is_plain(hg_write(&core, 0, 0, made.value, 8191, 6), HG_DONE));
    CHECK(is_plain(hg_write(&core, 0, 0, made.value, 8192, 7), HG_OUT_OF_BLOCK));
    CHECK(hg_read(&core, 0, 0, made.value, 0).value == 5);
    CHECK(hg_read(&core, 0, 0, made.value, 8190).value == 0);
    CHECK(hg_read(&core, 0, 0, made.value, 8191).value == 6);
    hg_reply row = hg_look(&core, 0, 0, hg_place_of(made.value));
    CHECK(row.status == HG_LISTED && row.value == made.value && row.detail == 65536);
    CHECK(is_plain(hg_free(&core, 0, 0, made.value), HG_DONE));
    CHECK(hg_collect(&core, 0).value == 1);
    CHECK(hg_alloc(&core, 0, 0, 0, 1).status == HG_BLOCK);
    CHECK(is_plain(hg_close(&core), HG_DONE));
}

/* Many words: all, those up to a block's end, none; and a block whose owner lets the actor read it
 * and not write it. */
static void try_words(void)
{
    static const char SHARED[] =
        "version = 1\nworkers = 2\n"
        "tenant = [ {name = \"ann\", limit = 65536}, {name = \"bob\", limit = 64} ]\n"
        "arena = [ {name = \"main\", segments = 1} ]\n"
        "grant = [ {owner = \"ann\", to = \"bob\", rights = [\"read\"]} ]\n";
    enum { SIZE = 512, MORE = 8 };
    static uint64_t words[SIZE + MORE], room[SIZE + MORE];
    hg_core core = HG_CORE_INIT;
    CHECK(hg_open(&core, SHARED, sizeof SHARED - 1, NULL, 0).status == HG_DONE);
    unsigned long opened = asked;
    CHECK(hg_refill(&core, 0, 0).status == HG_REFILLED);
    hg_handle block = hg_alloc(&core, 0, 0, 0, SIZE * 8).value;
    for (unsigned at = 0; at < SIZE + MORE; at++) words[at] = next();
    hg_reply all = hg_write_words(&core, 0, 0, block, 0, words, SIZE);
    CHECK(all.status == HG_DONE && all.value == SIZE && !all.owner && !all.detail);
    for (uint32_t at = 0; at < SIZE; at++)
        CHECK(hg_read(&core, 0, 0, block, at).value == words[at]);
    memset(room, 0x5a, sizeof room);
    CHECK(hg_read_words(&core, 0, 1, block, 0, room, SIZE).value == SIZE);
    CHECK(memcmp(room, words, SIZE * 8) == 0 && room[SIZE] == UINT64_C(0x5a5a5a5a5a5a5a5a));
    for (uint32_t first = 0; first < SIZE + MORE; first += 7) {
        uint64_t left = first < SIZE ? SIZE - first : 0;
        memset(room, 0x5a, sizeof room);
        hg_reply some = hg_read_words(&core, 0, 0, block, first, room, SIZE + MORE);
        CHECK(some.status == HG_OUT_OF_BLOCK && some.value == left);
        CHECK(memcmp(room, words + first, (size_t)left * 8) == 0);
        CHECK(room[left] == UINT64_C(0x5a5a5a5a5a5a5a5a));
    }
    CHECK(is_plain(hg_read_words(&core, 0, 0, block, 0, NULL, 0), HG_DONE));
    CHECK(is_plain(hg_write_words(&core, 0, 0, block, UINT32_MAX, words, 2), HG_OUT_OF_BLOCK));
    CHECK(is_plain(hg_write_words(&core, 0, 1, block, 0, words, 2), HG_NOT_GRANTED));
    CHECK(is_plain(hg_read_words(&core, 1, 1, block, 0, room, 2), HG_ELSEWHERE));
    hg_reply stale = hg_read_words(&core, 0, 1, block + 1, 0, room, 2);
    CHECK(stale.status == HG_STALE && stale.detail == hg_generation_of(block) && !stale.value);
    CHECK(hg_read_words(&core, 0, 0, block, 0, room, SIZE).value == SIZE);
    CHECK(memcmp(room, words, SIZE * 8) == 0);
    CHECK(asked == opened);
    CHECK(is_plain(hg_close(&core), HG_DONE));
}

/* Blocks of two owners: one's go at once, by itself or by who may free them; the other's stay. */
static void try_unloads(void)
{
    static const char TWO[] =
        "version = 1\nworkers = 2\n"
        "tenant = [ {name = \"ann\", limit = 65536}, {name = \"bob\", limit = 65536},\n"
        "           {name = \"cat\", limit = 64} ]\n"
        "arena = [ {name = \"main\", segments = 2} ]\n"
        "grant = [ {owner = \"bob\", to = \"cat\", rights = [\"free\", \"list\"]},\n"
        "          {owner = \"ann\", to = \"bob\", rights = [\"free\", \"list\"]} ]\n";
    enum { EACH = 300 };
    static hg_handle blocks[2 * EACH];
    hg_core core = HG_CORE_INIT;
    CHECK(hg_open(&core, TWO, sizeof TWO - 1, NULL, 0).status == HG_DONE);
    unsigned long opened = asked;
    CHECK(hg_refill(&core, 0, 0).status == HG_REFILLED);
    CHECK(hg_refill(&core, 1, 0).status == HG_REFILLED);
    for (unsigned at = 0; at < 2 * EACH; at++)
        CHECK((blocks[at] = hg_alloc(&core, 0, at % 2, 0, 8 + below(56)).value) != 0);
    hg_handle away = hg_alloc(&core, 1, 1, 0, 8).value;
    CHECK(is_plain(hg_free_all(&core, 0, 0, 1), HG_DONE)); /* ann may not */
    hg_reply gone = hg_free_all(&core, 0, 2, 1);           /* cat may */
    CHECK(gone.status == HG_DONE && gone.value == EACH && !gone.owner && !gone.detail);
    CHECK(is_plain(hg_free_all(&core, 0, 2, 1), HG_DONE));
    CHECK(is_plain(hg_free_all(&core, 0, 2, 0), HG_DONE));
    for (unsigned at = 0; at < 2 * EACH; at++)
        CHECK(hg_read(&core, 0, at % 2, blocks[at], 0).status
              == (at % 2 ? HG_ALREADY_FREED : HG_VALUE));
    CHECK(hg_charge(&core, 0, 1).value == 0 && hg_read(&core, 1, 1, away, 0).status == HG_VALUE);
    CHECK(hg_free_all(&core, 0, 0, 0).value == EACH && hg_charge(&core, 0, 0).value == 0);
    CHECK(hg_free_all(&core, 1, 1, 1).value == 1);
    CHECK(asked == opened);
    CHECK(is_plain(hg_close(&core), HG_DONE));
}

int main(void)
{
    hg_core zeros = HG_CORE_INIT, garbage;
    memset(&garbage, 0xa5, sizeof garbage);
    seed = 20;
    CHECK(hg_version() == HG_VERSION_NUMBER);
    try_closed(zeros);
    try_closed(garbage);
    try_unmade();
    try_opening();
    try_open();
    try_large();
    try_words();
    try_unloads();
    printf("misuse: %u checks, %u failed\n", checks, failed);
    return failed != 0;
}
