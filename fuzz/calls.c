/* An input is a list of calls, an operation a byte with what it needs behind it. A plain machine
 * goes along, which knows of each place its generation, whether it is home, live or parted, whose
 * block it has and what its first words are: each verdict is told by it, each charge and each
 * holder. Only which place a block gets, and whether there is room for it, is the library's.
 */
#include "fuzz.h"
#include "../tools/host_tests/holding.h"
#include <string.h>

enum { WORDS = 4, KEPT = 64, SEGMENTS = 4, TENANTS = 3, WORKERS = 3, STRANGER = 3 };
enum { READ = 1, WRITE = 2, LIST = 4, FREE = 8 };
enum { PLACES = SEGMENTS * 8192, MOST_LIVES = 3 };

static const char POLICY[] =
    "version = 2\n"
    "workers = 3\n"
    "max_generation = 3\n"
    "tenant = [ {name = \"ann\", limit = 20000}, {name = \"bob\", limit = 140000},\n"
    "           {name = \"cy\", limit = 600} ]\n"
    "arena = [ {name = \"main\", segments = 3},\n"
    "          {name = \"vault\", segments = 1, exclusive = [\"ann\", \"bob\"]} ]\n"
    "grant = [ {owner = \"ann\", to = \"bob\", rights = [\"read\", \"free\", \"list\"]},\n"
    "          {owner = \"bob\", to = \"ann\", rights = [\"read\", \"write\", \"list\", \"free\"]},\n"
    "          {owner = \"bob\", to = \"cy\", rights = [\"write\", \"list\"]} ]\n"
    "deny = [ {owner = \"ann\", to = \"bob\", rights = [\"free\"]},\n"
    "         {owner = \"bob\", to = \"cy\", rights = [\"read\", \"list\"]} ]\n";

/* The same as numbers: by owner and actor, and which tenants an arena admits. */
static const uint8_t GRANTED[TENANTS][TENANTS] = {
    {15, READ | FREE | LIST, 0}, {15, 15, WRITE | LIST}, {0, 0, 15}};
static const uint8_t FORBIDDEN[TENANTS][TENANTS] = {{0, FREE, 0}, {0, 0, READ | LIST}, {0, 0, 0}};
static const uint8_t ADMITTED[] = {7, 3};
static const uint64_t LIMITS[TENANTS] = {20000, 140000, 600};

/* What is known of a place besides what holding.h knows. */
static struct known {
    uint64_t words[WORDS];
    uint32_t generation;
    uint8_t is_live;
} places[PLACES];

/* The places that were given out since the core was opened. */
static uint32_t used[PLACES * MOST_LIVES];
static size_t used_count;

static hg_core core = HG_CORE_INIT;
static int is_open;
static hg_handle kept[KEPT];
static uint32_t kept_count;
static const uint8_t *at, *end;

static uint64_t taken_bytes(unsigned count)
{
    uint64_t value = 0;
    for (unsigned n = 0; n < count; n++) value = value << 8 | (at < end ? *at++ : 0);
    return value;
}

static uint8_t byte(void) { return (uint8_t)taken_bytes(1); }

/* A small number, or now and then any of 32 bits. */
static uint32_t number(void)
{
    uint8_t first = byte();
    return first == 255 ? (uint32_t)taken_bytes(4) : first % 8;
}

/* A handle that was given out, the next life of its place, or any word. */
static hg_handle some_block(void)
{
    uint8_t first = byte();
    if (first == 255) return taken_bytes(8);
    hg_handle block = kept[first % KEPT];
    return first >= 192 ? block + 1 : block;
}

static int is_handle(hg_handle block)
{
    return block >> 51 == 0 && hg_generation_of(block) > 0;
}

static uint32_t arena_of(uint32_t place) { return place / 8192 < 3 ? 0 : 1; }

/* Whether such a worker holds the place's segment. */
static int is_here(uint32_t worker, uint32_t place)
{
    return place < PLACES && holder[place / 8192] == worker;
}

/* Why the actor is denied the right, or 0. */
static unsigned denial(uint32_t actor, uint8_t right, uint32_t place, uint32_t generation)
{
    if (actor >= TENANTS) return HG_STRANGER;
    if (place >= PLACES || places[place].generation != generation) return HG_STALE;
    if (!places[place].is_live) return HG_ALREADY_FREED;
    uint8_t owner = open_blocks[place].owner;
    if (!(ADMITTED[arena_of(place)] >> actor & 1)) return HG_FOREIGN_ARENA;
    if (FORBIDDEN[owner][actor] & right) return HG_FORBIDDEN;
    return GRANTED[owner][actor] & right ? 0 : HG_NOT_GRANTED;
}

/* What is answered before a block is looked at: of a closed core, no worker or no handle; or 0. */
static unsigned misuse(uint32_t worker, int names_block)
{
    if (!names_block) return HG_NO_BLOCK;
    if (!is_open) return HG_CLOSED;
    return worker < WORKERS ? 0 : HG_NO_WORKER;
}

/* The answer is the one that is expected; 0 stands for one that is looked at by itself. */
static int is_expected(hg_reply told, unsigned expected)
{
    CHECK(!expected || told.status == expected);
    return expected == 0;
}

static uint64_t charge_of(uint32_t worker, uint32_t tenant)
{
    uint64_t bytes = 0;
    for (uint32_t segment = 0; segment < SEGMENTS; segment++)
        bytes += holder[segment] == worker ? charged[segment][tenant] : 0;
    return bytes;
}

static void try_alloc(void)
{
    uint32_t worker = number(), actor = number(), arena = number();
    uint8_t size = byte();
    uint64_t bytes = size == 255 ? taken_bytes(8) : (uint64_t)size * size * 2;
    hg_reply told = hg_alloc(&core, worker, actor, arena, bytes);
    unsigned expected = misuse(worker, 1);
    if (!expected && actor >= TENANTS) expected = HG_STRANGER;
    if (!expected && (arena > 1 || !(ADMITTED[arena] >> actor & 1))) expected = HG_FOREIGN_ARENA;
    if (!expected && bytes > 65536) expected = HG_TOO_LARGE;
    if (!expected && charge_of(worker, actor) + class_bytes(bytes) > LIMITS[actor])
        expected = HG_OVER_LIMIT;
    note(told.status);
    if (!is_expected(told, expected) || told.status == HG_NO_ROOM) return;
    uint32_t place = hg_place_of(told.value);
    CHECK(told.status == HG_BLOCK && is_here(worker, place) && arena_of(place) == arena);
    CHECK(!open_blocks[place].bytes && places[place].generation < MOST_LIVES);
    CHECK(hg_generation_of(told.value) == ++places[place].generation);
    memset(places[place].words, 0, sizeof places[place].words);
    places[place].is_live = 1;
    used[used_count++] = place;
    given(actor, bytes, told);
    kept[kept_count++ % KEPT] = told.value;
}

static void try_free(void)
{
    uint32_t worker = number(), actor = number();
    hg_handle block = some_block();
    uint32_t place = hg_place_of(block);
    hg_reply told = hg_free(&core, worker, actor, block);
    unsigned expected = misuse(worker, is_handle(block));
    if (!expected) expected = denial(actor, FREE, place, hg_generation_of(block));
    if (!expected && is_here(worker, place)) expected = HG_DONE;
    if (!expected) expected = hands[worker] ? HG_BUSY : HG_PARTED;
    note(64 + told.status);
    is_expected(told, expected);
    if (told.status == HG_DONE || told.status == HG_PARTED) places[place].is_live = 0;
    freed(worker, block, told);
}

static void try_word(int writes)
{
    uint32_t worker = number(), actor = number(), index = number();
    hg_handle block = some_block();
    uint64_t value = writes ? taken_bytes(2) : 0;
    uint32_t place = hg_place_of(block);
    hg_reply told = writes ? hg_write(&core, worker, actor, block, index, value)
                           : hg_read(&core, worker, actor, block, index);
    unsigned expected = misuse(worker, is_handle(block));
    if (!expected) expected = denial(actor, writes ? WRITE : READ, place, hg_generation_of(block));
    if (!expected && !is_here(worker, place)) expected = HG_ELSEWHERE;
    if (!expected && index >= open_blocks[place].bytes / 8) expected = HG_OUT_OF_BLOCK;
    if (!expected) expected = writes ? HG_DONE : HG_VALUE;
    note(128 + 64 * (unsigned)writes + told.status);
    is_expected(told, expected);
    if (expected == HG_VALUE && index < WORDS) CHECK(told.value == places[place].words[index]);
    if (expected == HG_DONE && index < WORDS) places[place].words[index] = value;
}

static void try_look(void)
{
    uint32_t worker = number(), actor = number();
    hg_handle block = some_block();
    uint32_t place = block >> 32 & 1 ? hg_place_of(block) : hg_place_of(block) ^ number();
    hg_reply told = hg_look(&core, worker, actor, place);
    unsigned expected = misuse(worker, place < 64 * 8192);
    uint32_t generation = place < PLACES ? places[place].generation : 0;
    if (!expected) expected = denial(actor, LIST, place, generation ? generation : 1);
    if (!expected) expected = is_here(worker, place) ? HG_LISTED : HG_ELSEWHERE;
    note(256 + told.status);
    is_expected(told, expected);
    if (expected != HG_LISTED) return;
    CHECK(told.value == ((hg_handle)place << 32 | generation));
    CHECK(told.owner == open_blocks[place].owner && told.detail == open_blocks[place].bytes);
}

static void try_segment(int takes)
{
    uint32_t worker = number(), segment = number();
    hg_reply told = takes ? hg_take(&core, worker, segment) : hg_abandon(&core, worker, segment);
    unsigned expected = misuse(worker, 1), served = takes ? HG_TAKEN : HG_DONE;
    if (!expected)
        expected = segment < SEGMENTS && holder[segment] == worker ? served : HG_NOT_HELD;
    note(320 + 64 * (unsigned)takes + told.status);
    is_expected(told, expected);
    if (takes) taken(segment, told);
    else abandoned(segment, told);
}

static void try_worker(int delivers)
{
    uint32_t worker = number();
    hg_reply told = delivers ? hg_deliver(&core, worker) : hg_collect(&core, worker);
    unsigned expected = misuse(worker, 1);
    if (!expected && delivers) expected = hands[worker] ? HG_DONE : HG_NOTHING_IN_HAND;
    if (!expected) expected = HG_PAGES;
    note(448 + 64 * (unsigned)delivers + told.status);
    is_expected(told, expected);
    if (told.status != HG_DONE) return;
    delivered(worker, told);
    hands[worker] = 0;
}

static void try_refill(void)
{
    uint32_t worker = number(), arena = number();
    hg_reply told = hg_refill(&core, worker, arena);
    note(576 + told.status);
    if (!is_expected(told, misuse(worker, 1)) || told.status == HG_NO_SEGMENT) return;
    CHECK(told.status == HG_REFILLED && told.value < SEGMENTS && arena < 2);
    CHECK(holder[told.value] == NOBODY && arena_of((uint32_t)told.value * 8192) == arena);
    refilled(worker, told);
}

/* Nothing is known of a core that just opened. */
static void forget(void)
{
    nobody_holds();
    memset(hands, 0, sizeof hands);
    memset(charged, 0, SEGMENTS * sizeof *charged);
    while (used_count > 0) {
        uint32_t place = used[--used_count];
        memset(&open_blocks[place], 0, sizeof *open_blocks);
        memset(&places[place], 0, sizeof *places);
    }
}

static void try_open(void)
{
    hg_reply told = hg_open(&core, POLICY, sizeof POLICY - 1, NULL, 0);
    CHECK(told.status == (is_open ? HG_HELD : HG_DONE));
    if (!is_open) forget();
    is_open = 1;
}

static void try_close(void)
{
    CHECK(hg_close(&core).status == (is_open ? HG_DONE : HG_CLOSED));
    CHECK(hg_close(&core).status == HG_CLOSED);
    CHECK(hg_workers(&core).status == HG_CLOSED);
    is_open = 0;
}

static void call(uint8_t kind)
{
    switch (kind % 16) {
    case 0: case 1: case 2: case 3: try_alloc(); break;
    case 4: case 5: case 6: try_free(); break;
    case 7: try_word(0); break;
    case 8: try_word(1); break;
    case 9: try_look(); break;
    case 10: try_segment(1); break;
    case 11: try_segment(0); break;
    case 12: try_worker(1); break;
    case 13: try_worker(0); break;
    case 14: try_refill(); break;
    default: kind == 255 ? try_close() : try_open();
    }
}

int LLVMFuzzerTestOneInput(const uint8_t *bytes, size_t length)
{
    at = bytes;
    end = bytes + length;
    kept_count = wrongly_taken = 0;
    memset(kept, 0, sizeof kept);
    if (length % 8) try_open();
    while (at < end) call(byte());
    if (is_open) {
        CHECK(told_wrongly(&core, WORKERS, TENANTS, SEGMENTS) == 0 && wrongly_taken == 0);
        try_close();
    }
    return 0;
}
