/* Words and Frees at once beside the same one by one: two cores are served the same seeded events;
 * between them one reads, writes and frees at once what the other reads, writes and frees in turn,
 * each Free where a walk over all places finds a block. So far as each comes, and why it ends, is
 * the same, and so are places, charges, holders and all words in the end. A block's words are beside
 * a plain array too. Each reason for which a word is refused has to come about, and no call asks for
 * memory.
 */
#define TEST "at_once"
#include "checked.h"
#include "counted.h"
#include "seeded.h"
#include <string.h>

enum { WORKERS = 4, TENANTS = 3, SEGMENTS = 5, PLACES = SEGMENTS << 13, KEPT = 256 };
enum { ROUNDS = 400, BETWEEN = 20, SIZE = 512, MORE = 40, LARGEST = 8192, STATUSES = 80 };
enum { ALICE, BOB, CAROL, STRANGER = 255 };

#define REST                                                                                 \
    "arena = [ {name = \"main\", segments = 3},\n"                                           \
    "  {name = \"vault\", segments = 2, exclusive = [\"alice\", \"bob\"]} ]\n"               \
    "group = [ {name = \"staff\", members = [\"alice\", \"carol\"]} ]\n"                     \
    "grant = [ {owner = \"alice\", to = \"bob\", rights = [\"read\", \"free\"]},\n"          \
    "  {owner = \"bob\", to = \"alice\", rights = [\"list\", \"write\"]},\n"                 \
    "  {owner = \"alice\", to = \"carol\", rights = [\"read\", \"write\", \"free\"]} ]\n"    \
    "deny = [ {owner = \"bob\", to = \"staff\", rights = [\"read\", \"free\"]},\n"           \
    "  {owner = \"alice\", to = \"carol\", rights = [\"write\"]} ]\n"
#define LIMITED(alice, bob, carol)                                                           \
    "tenant = [ {name = \"alice\", limit = " alice "}, {name = \"bob\", limit = " bob "},\n" \
    "  {name = \"carol\", limit = " carol "} ]\n"

/* Places are soon worn; none is; and each is after its first life, with many blocks of several pages. */
static const char *const POLICIES[] = {
    "version = 2\nworkers = 4\nmax_generation = 3\n" LIMITED("90000", "20000", "4000") REST,
    "version = 2\nworkers = 4\n" LIMITED("90000", "70000", "3000") REST,
    "version = 2\nworkers = 4\nmax_generation = 1\n" LIMITED("400000", "200000", "50000") REST,
};

static hg_core one = HG_CORE_INIT, other = HG_CORE_INIT; /* at once, and one by one */

/* Blocks that were given out, freed ones among them, with their words. */
static struct { hg_handle block; uint32_t words, owner; } kept[KEPT];
static uint32_t count;
static unsigned long ended[2][STATUSES], freed, denied;
static uint64_t room[LARGEST + 2 * MORE], words[LARGEST + 2 * MORE], model[SIZE];

static int is_same(hg_reply a, hg_reply b)
{
    return a.status == b.status && a.owner == b.owner && a.detail == b.detail && a.value == b.value;
}

/* A tenant, or now and then the number behind the last one's, or a stranger's. */
static uint32_t any_actor(void) { return below(16) ? below(TENANTS) : below(2) ? TENANTS : STRANGER; }

static uint32_t any_segment(void) { return below(32) ? below(SEGMENTS) : SEGMENTS; }

/* A worker, mostly the one that holds the segment. */
static uint32_t worker_at(uint32_t segment)
{
    hg_reply holder = hg_holder(&one, segment);
    return holder.status == HG_VALUE && below(4) ? (uint32_t)holder.value : below(WORKERS);
}

static void note_block(uint32_t w, uint32_t owner, hg_handle block)
{
    hg_reply row = hg_look(&one, w, owner, hg_place_of(block));
    CHECK(row.status == HG_LISTED);
    uint32_t at = count++ % KEPT;
    kept[at].block = block;
    kept[at].owner = owner;
    kept[at].words = row.detail / 8;
}

static void try_alloc(void)
{
    static const uint32_t SIZES[] = {0, 8, 24, 64, 200, 512, 640, 1024, 4096, 5000, 16384, 65536};
    uint32_t segment = any_segment(), w = worker_at(segment), owner = any_actor();
    uint32_t arena = segment < 3 ? 0 : segment < SEGMENTS ? 1 : 255;
    uint64_t bytes = SIZES[below(sizeof SIZES / sizeof SIZES[0])];
    hg_reply told = hg_alloc(&one, w, owner, arena, bytes);
    CHECK(is_same(told, hg_alloc(&other, w, owner, arena, bytes)));
    if (told.status == HG_BLOCK) note_block(w, owner, told.value);
}

/* One of the blocks that were kept; or now and then of another generation, or of any place. */
static uint32_t some_block(hg_handle *block)
{
    uint32_t at = below(count && count < KEPT ? count : KEPT) % KEPT;
    *block = kept[at].block;
    if (!*block || !below(30)) *block = hg_handle_of(below(8), below(16), below(512), 1 + below(3));
    else if (!below(20)) ++*block;
    return at;
}

static void try_free(void)
{
    hg_handle block;
    uint32_t at = some_block(&block), actor = below(2) ? kept[at].owner : any_actor();
    uint32_t w = below(2) ? worker_at(hg_segment_of(block)) : below(WORKERS);
    CHECK(is_same(hg_free(&one, w, actor, block), hg_free(&other, w, actor, block)));
}

static void try_event(void)
{
    uint32_t segment = any_segment(), w = worker_at(segment), arena = below(3);
    switch (below(16)) {
    default: try_alloc(); return;
    case 8: case 9: case 10: try_free(); return;
    case 11: CHECK(is_same(hg_deliver(&one, w), hg_deliver(&other, w))); return;
    case 12: CHECK(is_same(hg_take(&one, w, segment), hg_take(&other, w, segment))); return;
    case 13: CHECK(is_same(hg_collect(&one, w), hg_collect(&other, w))); return;
    case 14: CHECK(is_same(hg_refill(&one, w, arena), hg_refill(&other, w, arena))); return;
    case 15:
        if (below(3)) return;
        CHECK(is_same(hg_abandon(&one, w, segment), hg_abandon(&other, w, segment)));
    }
}

/* Words of a block, from the first of them on, and who asks for them where. */
typedef struct {
    uint32_t worker, actor, first;
    hg_handle block;
    size_t count;
} part;

/* Words on both sides of each bound: none, all that are left, one more, many more; from the first on,
 * from behind the last on, and from where no block has any. */
static part some_part(void)
{
    part it;
    uint32_t at = some_block(&it.block), size = kept[at].words;
    it.worker = worker_at(hg_segment_of(it.block));
    it.actor = below(2) ? kept[at].owner : any_actor();
    switch (below(8)) {
    case 0: case 1: case 2: it.first = 0; break;
    case 3: it.first = size; break;
    case 4: it.first = UINT32_MAX; break;
    default: it.first = below(size + 1);
    }
    size_t left = it.first < size ? size - it.first : 0;
    switch (below(6)) {
    case 0: it.count = 0; break;
    case 1: it.count = left; break;
    case 2: it.count = left + 1; break;
    case 3: it.count = left + MORE; break;
    default: it.count = left / 2;
    }
    return it;
}

/* How a call of many ended, where one by one so many were served and the next was answered so. */
static void check_far(unsigned kind, const part *it, hg_reply far, size_t done, hg_reply last)
{
    CHECK(far.value == done && !far.owner);
    CHECK(far.status == (done == it->count ? HG_DONE : last.status));
    CHECK(far.detail == (done == it->count ? 0 : last.detail));
    ended[kind][far.status % STATUSES]++;
}

static void try_read(void)
{
    part it = some_part();
    size_t done = 0;
    hg_reply last = {HG_DONE, 0, 0, 0};
    for (size_t n = 0; n < it.count + MORE; n++) room[n] = 0xabcd;
    hg_reply far =
        hg_read_words(&one, it.worker, it.actor, it.block, it.first, room, it.count);
    for (; done < it.count; done++) {
        last = hg_read(&other, it.worker, it.actor, it.block, it.first + (uint32_t)done);
        if (last.status != HG_VALUE) break;
        CHECK(room[done] == last.value);
    }
    check_far(0, &it, far, done, last);
    for (size_t n = done; n < it.count + MORE; n++) CHECK(room[n] == 0xabcd);
}

static void try_write(void)
{
    part it = some_part();
    size_t done = 0;
    hg_reply last = {HG_DONE, 0, 0, 0};
    for (size_t n = 0; n < it.count; n++) words[n] = next();
    hg_reply far =
        hg_write_words(&one, it.worker, it.actor, it.block, it.first, words, it.count);
    for (; done < it.count; done++) {
        last = hg_write(&other, it.worker, it.actor, it.block, it.first + (uint32_t)done, words[done]);
        if (last.status != HG_DONE) break;
    }
    check_far(1, &it, far, done, last);
}

/* Each place is looked at for the owner, and each of its own blocks is freed. */
static void try_free_all(void)
{
    uint32_t w = below(WORKERS), actor = any_actor(), owner = below(2) ? actor : any_actor(), gone = 0;
    for (uint32_t place = 0; place < PLACES; place++) {
        hg_reply row = hg_look(&other, w, owner, place);
        if (row.status != HG_LISTED || row.owner != owner) continue;
        if (hg_free(&other, w, actor, row.value).status == HG_DONE) gone++;
        else denied++;
    }
    hg_reply far = hg_free_all(&one, w, actor, owner);
    CHECK(far.status == HG_DONE && far.value == gone && !far.owner && !far.detail);
    freed += gone;
}

/* Both cores tell the same of holders, of charges, and of each place to each tenant. */
static void check_same(void)
{
    for (uint32_t segment = 0; segment < SEGMENTS; segment++)
        CHECK(is_same(hg_holder(&one, segment), hg_holder(&other, segment)));
    CHECK(is_nobody(hg_holder(&one, SEGMENTS), HG_NOT_HELD));
    for (uint32_t w = 0; w < WORKERS; w++)
        for (uint32_t tenant = 0; tenant < TENANTS; tenant++)
            CHECK(is_same(hg_charge(&one, w, tenant), hg_charge(&other, w, tenant)));
    for (uint32_t place = 0; place < PLACES; place++) {
        hg_reply holder = hg_holder(&one, place >> 13);
        uint32_t w = holder.status == HG_VALUE ? (uint32_t)holder.value : 0, tenant = below(TENANTS);
        CHECK(is_same(hg_look(&one, w, tenant, place), hg_look(&other, w, tenant, place)));
    }
}

/* And of each word of each block that is held. */
static void check_words(void)
{
    for (uint32_t place = 0; place < PLACES; place++) {
        hg_reply holder = hg_holder(&one, place >> 13);
        uint32_t w = (uint32_t)holder.value;
        for (uint32_t owner = 0; holder.status == HG_VALUE && owner < TENANTS; owner++) {
            hg_reply row = hg_look(&one, w, owner, place);
            if (row.status != HG_LISTED || row.owner != owner) continue;
            for (uint32_t index = 0; index <= row.detail / 8; index++)
                CHECK(is_same(hg_read(&one, w, owner, row.value, index),
                              hg_read(&other, w, owner, row.value, index)));
        }
    }
}

static void open_both(const char *policy)
{
    CHECK(is_plain(hg_open(&one, policy, strlen(policy), NULL, 0), HG_DONE));
    CHECK(is_plain(hg_open(&other, policy, strlen(policy), NULL, 0), HG_DONE));
    memset(kept, 0, sizeof kept);
    count = 0;
}

static void close_both(void)
{
    CHECK(is_plain(hg_close(&one), HG_DONE));
    CHECK(is_plain(hg_close(&other), HG_DONE));
}

/* Worker 0 is given more blocks of one word than a page has. */
static void fill(void)
{
    CHECK(is_same(hg_refill(&one, 0, 0), hg_refill(&other, 0, 0)));
    for (unsigned n = 0; n < 600; n++)
        CHECK(is_same(hg_alloc(&one, 0, ALICE, 0, 8), hg_alloc(&other, 0, ALICE, 0, 8)));
}

/* Seeded events, with words and Frees at once between them. */
static void try_policy(const char *policy)
{
    open_both(policy);
    unsigned long opened = asked;
    for (unsigned round = 1; round <= ROUNDS; round++) {
        if (round % 100 == 1) fill();
        for (unsigned n = 0; n < BETWEEN; n++) try_event();
        for (unsigned n = 0; n < 4; n++) try_write();
        for (unsigned n = 0; n < 4; n++) try_read();
        if (round % 10 == 0) try_free_all();
        if (round % 50 == 0) check_same();
    }
    check_words();
    CHECK(asked == opened);
    close_both();
}

/* A block beside an array: each first word and each count near its ends, then seeded ones. */
static void try_array(void)
{
    open_both(POLICIES[1]);
    CHECK(hg_refill(&one, 0, 0).status == HG_REFILLED);
    hg_handle block = hg_alloc(&one, 0, ALICE, 0, 8 * SIZE).value;
    memset(model, 0, sizeof model);
    for (unsigned n = 0; n < 20000; n++) {
        uint32_t first = below(8) ? below(SIZE + 2) : SIZE - below(4);
        size_t many = below(4) ? below(8) : below(SIZE + MORE), left = first < SIZE ? SIZE - first : 0;
        size_t done = many < left ? many : left;
        unsigned status = done == many ? HG_DONE : HG_OUT_OF_BLOCK;
        for (size_t at = 0; at < many; at++) words[at] = next(), room[at] = 0xabcd;
        if (below(2)) {
            hg_reply far = hg_write_words(&one, 0, ALICE, block, first, words, many);
            CHECK(far.status == status && far.value == done);
            if (done) memcpy(model + first, words, 8 * done);
        } else {
            hg_reply far = hg_read_words(&one, 0, ALICE, block, first, room, many);
            CHECK(far.status == status && far.value == done);
            CHECK(!done || memcmp(room, model + first, 8 * done) == 0);
            CHECK(done == many || room[done] == 0xabcd);
        }
    }
    for (uint32_t at = 0; at < SIZE; at++) CHECK(hg_read(&one, 0, ALICE, block, at).value == model[at]);
    close_both();
}

int main(void)
{
    static const unsigned ENDS[] = {HG_DONE, HG_OUT_OF_BLOCK, HG_ELSEWHERE, HG_STRANGER, HG_STALE,
                                    HG_ALREADY_FREED, HG_FOREIGN_ARENA, HG_FORBIDDEN, HG_NOT_GRANTED};
    seed = 2026;
    for (unsigned at = 0; at < sizeof POLICIES / sizeof POLICIES[0]; at++) try_policy(POLICIES[at]);
    try_array();
    for (unsigned kind = 0; kind < 2; kind++)
        for (unsigned at = 0; at < sizeof ENDS / sizeof ENDS[0]; at++)
            if (checks++, !ended[kind][ENDS[at]]) {
                failed++;
                printf("at_once: no %s ended with %s\n", kind ? "write" : "read", hg_status_text(ENDS[at]));
            }
    CHECK(freed > 100 && denied > 10);
    printf("at_once: %u checks, %lu freed at once, %u failed\n", checks, freed, failed);
    return failed != 0;
}
