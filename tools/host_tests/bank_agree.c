/* bank_agree EVENTS SEED CORES: gives seeded events to a bank that grows to so many cores, and to a
 * plain model beside it, which has each core as an hg_core and by itself only which core is current
 * and what counts over all. With one core the model is that core. It fails where a reply isn't the
 * model's in each of its numbers, where the bank told another holder or charge afterwards, where an
 * event asked for memory or gave some back, and where what is to be tested never came up.
 */
#include "heapguard.h"
#include "counted.h"
#include "seeded.h"
#include "sizes.h"
#include <inttypes.h>
#include <stdio.h>
#include <stdlib.h>
#include <string.h>

enum { WORKERS = 3, TENANTS = 3, ARENAS = 2, SEGMENTS = 3, MOST = 8, KEPT = 128, ROOM = 24 };

static const char POLICY[] =
    "version = 2\n"
    "workers = 3\n"
    "max_generation = 90\n"
    "tenant = [ {name = \"ann\", limit = 150000}, {name = \"bob\", limit = 100000},\n"
    "           {name = \"cy\", limit = 600} ]\n"
    "arena = [ {name = \"main\", segments = 2},\n"
    "          {name = \"vault\", segments = 1, exclusive = [\"ann\"]} ]\n"
    "group = [ {name = \"staff\", members = [\"bob\", \"cy\"]} ]\n"
    "grant = [ {owner = \"ann\", to = \"bob\", rights = [\"read\", \"free\"]},\n"
    "          {owner = \"bob\", to = \"cy\", rights = [\"write\", \"list\"]} ]\n"
    "deny = [ {owner = \"staff\", to = \"staff\", rights = [\"read\", \"list\"]} ]\n";

static const uint64_t LIMITS[TENANTS] = {150000, 100000, 600};

enum { ALLOC, FREE, READ, WRITE, LOOK, DELIVER, TAKE, COLLECT, ABANDON, REFILL, READ_WORDS,
       WRITE_WORDS, FREE_ALL, GROW };

typedef struct {
    unsigned kind;
    uint32_t worker, actor, arena, core, segment, place, index, owner;
    uint64_t bytes, value, words[ROOM];
    hg_bank_handle block;
    size_t count;
} event;

static hg_bank bank = HG_BANK_INIT;
static uint32_t most; /* cores that there may be */
static hg_bank_handle kept[KEPT];
static uint32_t count;

/* The model. */
static hg_core cores[MOST];
static uint32_t opened, current[WORKERS][ARENAS];
static uint8_t has_in_hand[MOST][WORKERS];

/* How often what is to be tested came up. */
static unsigned long answered[80], moved_blocks, moved_segments, refused_by_sum, two_hands;

static hg_reply of_bank(const event *e, uint64_t *room)
{
    uint32_t w = e->worker, actor = e->actor;
    switch (e->kind) {
    case ALLOC: return hg_bank_alloc(&bank, w, actor, e->arena, e->bytes);
    case FREE: return hg_bank_free(&bank, w, actor, e->block);
    case READ: return hg_bank_read(&bank, w, actor, e->block, e->index);
    case WRITE: return hg_bank_write(&bank, w, actor, e->block, e->index, e->value);
    case LOOK: return hg_bank_look(&bank, w, actor, e->core, e->place);
    case DELIVER: return hg_bank_deliver(&bank, w, e->core);
    case TAKE: return hg_bank_take(&bank, w, e->core, e->segment);
    case COLLECT: return hg_bank_collect(&bank, w, e->core);
    case ABANDON: return hg_bank_abandon(&bank, w, e->core, e->segment);
    case REFILL: return hg_bank_refill(&bank, w, e->arena);
    case READ_WORDS: return hg_bank_read_words(&bank, w, actor, e->block, e->index, room, e->count);
    case WRITE_WORDS:
        return hg_bank_write_words(&bank, w, actor, e->block, e->index, e->words, e->count);
    case FREE_ALL: return hg_bank_free_all(&bank, w, actor, e->core, e->owner);
    default: return hg_bank_grow(&bank);
    }
}

static hg_reply of_core(hg_core *core, const event *e, uint64_t *room)
{
    uint32_t w = e->worker, actor = e->actor;
    hg_handle block = e->block.handle;
    switch (e->kind) {
    case ALLOC: return hg_alloc(core, w, actor, e->arena, e->bytes);
    case FREE: return hg_free(core, w, actor, block);
    case READ: return hg_read(core, w, actor, block, e->index);
    case WRITE: return hg_write(core, w, actor, block, e->index, e->value);
    case LOOK: return hg_look(core, w, actor, e->place);
    case DELIVER: return hg_deliver(core, w);
    case TAKE: return hg_take(core, w, e->segment);
    case COLLECT: return hg_collect(core, w);
    case ABANDON: return hg_abandon(core, w, e->segment);
    case REFILL: return hg_refill(core, w, e->arena);
    case READ_WORDS: return hg_read_words(core, w, actor, block, e->index, room, e->count);
    case WRITE_WORDS: return hg_write_words(core, w, actor, block, e->index, e->words, e->count);
    default: return hg_free_all(core, w, actor, e->owner);
    }
}

static hg_reply plain(unsigned status)
{
    hg_reply reply = {(uint16_t)status, 0, 0, 0};
    return reply;
}

/* What counts with a worker over all cores. */
static uint64_t charge(uint32_t worker, uint32_t tenant)
{
    uint64_t bytes = 0;
    for (uint32_t core = 0; core < opened; core++)
        bytes += hg_charge(&cores[core], worker, tenant).value;
    return bytes;
}

/* Why an allocation is refused before any core is asked, or 0. */
static unsigned refused(const event *e)
{
    if (e->actor >= TENANTS) return HG_STRANGER;
    if (e->arena >= ARENAS || (e->arena == 1 && e->actor != 0)) return HG_FOREIGN_ARENA;
    if (e->bytes > 65536) return HG_TOO_LARGE;
    uint64_t bytes = class_bytes(e->bytes), limit = LIMITS[e->actor];
    if (charge(e->worker, e->actor) + bytes <= limit) return 0;
    int in_one = bytes > limit;
    for (uint32_t core = 0; core < opened; core++)
        in_one |= hg_charge(&cores[core], e->worker, e->actor).value + bytes > limit;
    refused_by_sum += !in_one;
    return HG_OVER_LIMIT;
}

/* The first core that serves, from the current one of the worker and the arena on. */
static hg_reply next_core(const event *e, unsigned served, unsigned long *moved)
{
    uint32_t *from = &current[e->worker][e->arena], at = *from;
    hg_reply reply = plain(0);
    for (uint32_t n = 0; n < opened; n++, at = (at + 1) % opened) {
        reply = of_core(&cores[at], e, NULL);
        if (reply.status != served) continue;
        reply.detail = at;
        *moved += at != *from;
        *from = at;
        break;
    }
    return reply;
}

static int names_block(unsigned kind)
{
    return kind == FREE || kind == READ || kind == WRITE || kind == READ_WORDS
        || kind == WRITE_WORDS;
}

/* What is answered of a core that isn't there. */
static hg_reply of_none(const event *e)
{
    switch (e->kind) {
    case DELIVER: return plain(HG_NOTHING_IN_HAND);
    case TAKE: case ABANDON: return plain(HG_NOT_HELD);
    case COLLECT: return plain(HG_PAGES);
    case FREE_ALL: return plain(HG_DONE);
    case READ_WORDS: case WRITE_WORDS: if (e->count == 0) return plain(HG_DONE);
    /* fall through */
    default: return plain(e->actor < TENANTS ? HG_STALE : HG_STRANGER);
    }
}

static hg_reply of_model(const event *e, uint64_t *room)
{
    if (e->kind == GROW) {
        if (opened == most) return plain(HG_FULL);
        hg_reply grown = plain(HG_VALUE);
        grown.value = opened;
        if (hg_open(&cores[opened++], POLICY, sizeof POLICY - 1, NULL, 0).status != HG_DONE) exit(1);
        return grown;
    }
    if (e->kind == ALLOC && e->worker < WORKERS && most > 1) {
        unsigned status = refused(e);
        return status ? plain(status) : next_core(e, HG_BLOCK, &moved_blocks);
    }
    if (e->kind == REFILL && e->worker < WORKERS && most > 1)
        return e->arena < ARENAS ? next_core(e, HG_REFILLED, &moved_segments) : plain(HG_NO_SEGMENT);
    if (e->kind == ALLOC || e->kind == REFILL) return of_core(&cores[0], e, room);
    uint64_t core = names_block(e->kind) ? e->block.core : e->core;
    if (core < opened) return of_core(&cores[core], e, room);
    if (names_block(e->kind) && (e->block.handle >> 32 > 524287 || !(uint32_t)e->block.handle))
        return plain(HG_NO_BLOCK);
    if (e->kind == LOOK && e->place > 524287) return plain(HG_NO_BLOCK);
    return e->worker < WORKERS ? of_none(e) : plain(HG_NO_WORKER);
}

static uint32_t some_number(uint32_t known) { return below(25) ? below(known) : below(300); }

/* One that is open, mostly. */
static uint32_t some_core(void)
{
    switch (below(40)) {
    case 0: return below(MOST + 1);
    case 1: return below(2) ? (uint32_t)next() : 65536 + below(3);
    default: return below(opened);
    }
}

static uint64_t some_bytes(void)
{
    switch (below(20)) {
    case 0: return next();
    case 1: case 2: return below(70000);
    case 3: case 4: case 5: return below(5000);
    default: return below(200);
    }
}

/* One that was given out, or now and then one that was guessed. */
static hg_bank_handle some_block(void)
{
    uint32_t known = count < KEPT ? count : KEPT;
    hg_bank_handle block = {some_core(), 0};
    if (known == 0 || below(20) == 0) {
        block.handle = hg_handle_of(below(4), below(17), below(512), below(4));
        return block;
    }
    block = kept[below(known)];
    if (below(30) == 0) block.handle++;
    if (below(30) == 0) block.core = some_core();
    if (below(200) == 0) block.core |= next() << 32;
    return block;
}

static event some_event(void)
{
    event e;
    memset(&e, 0, sizeof e);
    unsigned kind = below(100);
    e.kind = kind < 28 ? ALLOC : kind < 50 ? FREE : kind < 58 ? READ : kind < 66 ? WRITE
        : kind < 70 ? LOOK : kind < 76 ? DELIVER : kind < 82 ? TAKE : kind < 84 ? COLLECT
        : kind < 86 ? ABANDON : kind < 93 ? REFILL : kind < 96 ? READ_WORDS : WRITE_WORDS;
    if (below(2000) == 0) e.kind = FREE_ALL;
    if (below(2000) == 0) e.kind = GROW;
    e.worker = some_number(WORKERS);
    e.actor = some_number(TENANTS);
    e.owner = some_number(TENANTS);
    e.arena = below(8) ? 0 : some_number(ARENAS);
    e.core = some_core();
    e.segment = some_number(SEGMENTS);
    e.bytes = some_bytes();
    e.value = next();
    e.block = some_block();
    e.place = below(20) ? hg_place_of(e.block.handle) : below(600000);
    e.index = below(20) ? below(4) : below(2) ? below(8200) : (uint32_t)next();
    e.count = below(ROOM + 1);
    for (unsigned n = 0; n < ROOM; n++) e.words[n] = next();
    return e;
}

static unsigned told_wrongly(void)
{
    unsigned wrong = hg_bank_cores(&bank).value != opened;
    for (uint32_t core = 0; core <= opened; core++) {
        for (uint32_t segment = 0; segment <= SEGMENTS; segment++) {
            hg_reply told = hg_bank_holder(&bank, core, segment);
            hg_reply so = {HG_NOT_HELD, 0, 0, 255};
            if (core < opened) so = hg_holder(&cores[core], segment);
            wrong += told.status != so.status || told.value != so.value;
            for (uint32_t worker = 0; worker <= WORKERS; worker++)
                wrong += hg_bank_holds(&bank, worker, core, segment).value
                    != (so.status == HG_VALUE && so.value == worker);
        }
    }
    for (uint32_t worker = 0; worker < WORKERS; worker++)
        for (uint32_t tenant = 0; tenant < TENANTS; tenant++)
            wrong += hg_bank_charge(&bank, worker, tenant).value != charge(worker, tenant);
    return wrong;
}

/* In how many cores a worker has something in hand. */
static void note_hands(const event *e, hg_reply reply)
{
    if (e->kind == FREE && reply.status == HG_PARTED) has_in_hand[e->block.core][e->worker] = 1;
    if (e->kind == DELIVER && reply.status == HG_DONE) has_in_hand[e->core][e->worker] = 0;
    for (uint32_t worker = 0; worker < WORKERS; worker++) {
        unsigned hands = 0;
        for (uint32_t core = 0; core < opened; core++) hands += has_in_hand[core][worker];
        two_hands += hands > 1;
    }
}

/* Gives how much of it isn't as the model says. */
static unsigned make(const event *e, long n)
{
    uint64_t room[ROOM], wanted_room[ROOM];
    memset(room, 0x5a, sizeof room);
    memset(wanted_room, 0x5a, sizeof wanted_room);
    hg_reply wanted = of_model(e, wanted_room);
    unsigned long before = asked;
    hg_reply reply = of_bank(e, room);
    int took = asked != before && !(e->kind == GROW && reply.status == HG_VALUE);
    int same = reply.status == wanted.status && reply.owner == wanted.owner
        && reply.detail == wanted.detail && reply.value == wanted.value
        && memcmp(room, wanted_room, sizeof room) == 0;
    unsigned wrong = told_wrongly();
    if (took || !same || wrong)
        printf("bank_agree: event %ld of kind %u: %s %" PRIu32 " %" PRIx64 ", and wanted %s %" PRIu32
               " %" PRIx64 "; %u told wrongly%s\n", n, e->kind, hg_status_text(reply.status),
               reply.detail, reply.value, hg_status_text(wanted.status), wanted.detail,
               wanted.value, wrong, took ? "; asked for memory" : "");
    answered[reply.status % 80]++;
    if (reply.status == HG_BLOCK) kept[count++ % KEPT] = hg_bank_handle_of(reply);
    note_hands(e, reply);
    return wrong + took + !same;
}

/* What has to come up for the run to be a test. */
static unsigned missed(void)
{
    static const unsigned OTHERS[] = {HG_NO_WORKER, HG_NO_BLOCK, HG_FULL};
    unsigned none = 0;
    for (unsigned status = HG_BLOCK; status <= HG_FORBIDDEN; status++) {
        if (strcmp(hg_status_text(status), "unknown status") == 0 || answered[status]) continue;
        if (status >= HG_AGAIN && status <= HG_LOST) continue; /* of services alone */
        printf("never answered: %s (%u)\n", hg_status_text(status), status);
        none++;
    }
    for (unsigned n = 0; n < 3; n++) none += !answered[OTHERS[n]];
    if (most > 1) none += moved_blocks < 20 || moved_segments < 20 || refused_by_sum < 20
        || two_hands < 20;
    return none;
}

int main(int words, char **word)
{
    if (words != 4) return 2;
    long events = strtol(word[1], NULL, 10);
    seed = strtoull(word[2], NULL, 10);
    most = (uint32_t)strtoul(word[3], NULL, 10);
    if (most < 1 || most > MOST) return 2;
    if (hg_bank_open(&bank, POLICY, sizeof POLICY - 1, most, NULL, 0).status != HG_DONE) return 1;
    if (hg_open(&cores[opened++], POLICY, sizeof POLICY - 1, NULL, 0).status != HG_DONE) return 1;
    unsigned wrong = 0;
    for (long n = 0; n < events && wrong < 20; n++) {
        event e = some_event();
        wrong += make(&e, n);
    }
    wrong += hg_bank_close(&bank).status != HG_DONE;
    while (opened > 0) wrong += hg_close(&cores[--opened]).status != HG_DONE;
    unsigned none = missed();
    printf("bank_agree: %ld events, %" PRIu32 " cores: %u not as the model, %u not tried; another "
           "core gave %lu blocks and %lu segments, the limit over all refused %lu, two hands %lu\n",
           events, most, wrong, none, moved_blocks, moved_segments, refused_by_sum, two_hands);
    return wrong || none;
}
