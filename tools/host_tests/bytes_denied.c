/* Who is refused bytes of a block, in a core, in a bank and of a worker: tenants with each mixture of
 * what is granted, what isn't and what is denied, to read and to write; strangers; a worker that
 * doesn't hold the segment; a block that was freed, and a handle whose place has another by now; an
 * arena that doesn't admit the actor; what is past the block's end. Each with offsets and lengths at
 * both ends of the block. A read is the Read of each word that the bytes lie in; a write the Write of
 * each, and before it the Read of one that they fill in part, which takes both rights. The first that
 * is refused ends it: so many bytes were done, and all other memory is as it was, in the room and in
 * the blocks.
 */
#define TEST "bytes_denied"
#include "checked.h"
#include "counted.h"
#include "seeded.h"
#include "byte_calls.h"
#include <string.h>

enum { SIZE = 80, LONGEST = 26, BESIDE = 8, ROOM = LONGEST + 2 * BESIDE };
enum { ANN, BOB, CAM, DAN, EVE, FAY, GUS, HAL, IDA, JON, TENANTS };

static const char POLICY[] =
    "version = 2\nworkers = 2\n"
    "tenant = [ {name = \"ann\", limit = 65536}, {name = \"bob\", limit = 64},\n"
    "    {name = \"cam\", limit = 64}, {name = \"dan\", limit = 64}, {name = \"eve\", limit = 64},\n"
    "    {name = \"fay\", limit = 64}, {name = \"gus\", limit = 64}, {name = \"hal\", limit = 64},\n"
    "    {name = \"ida\", limit = 64}, {name = \"jon\", limit = 64} ]\n"
    "arena = [ {name = \"main\", segments = 1},\n"
    "    {name = \"vault\", segments = 1, exclusive = [\"ann\"]} ]\n"
    "grant = [ {owner = \"ann\", to = \"bob\", rights = [\"write\"]},\n"
    "    {owner = \"ann\", to = \"cam\", rights = [\"read\"]},\n"
    "    {owner = \"ann\", to = \"dan\", rights = [\"read\", \"write\"]},\n"
    "    {owner = \"ann\", to = \"eve\", rights = [\"read\", \"write\"]},\n"
    "    {owner = \"ann\", to = \"fay\", rights = [\"read\", \"write\"]},\n"
    "    {owner = \"gus\", to = \"ann\", rights = [\"read\", \"write\"]} ]\n"
    "deny = [ {owner = \"ann\", to = \"eve\", rights = [\"read\"]},\n"
    "    {owner = \"ann\", to = \"fay\", rights = [\"write\"]},\n"
    "    {owner = \"ann\", to = \"hal\", rights = [\"read\", \"write\"]},\n"
    "    {owner = \"ann\", to = \"ida\", rights = [\"read\"]},\n"
    "    {owner = \"ann\", to = \"jon\", rights = [\"write\"]},\n"
    "    {owner = \"ann\", to = \"ann\", rights = [\"read\", \"write\"]} ]\n";

/* How a Read and a Write of ann's block are judged, for each tenant and for numbers of none. Of one's
 * own blocks nothing is denied. */
typedef struct {
    uint32_t actor;
    unsigned to_read, to_write;
} judged;

static const judged ACTORS[] = {
    {ANN, HG_DONE, HG_DONE},
    {BOB, HG_NOT_GRANTED, HG_DONE},
    {CAM, HG_DONE, HG_NOT_GRANTED},
    {DAN, HG_DONE, HG_DONE},
    {EVE, HG_FORBIDDEN, HG_DONE},
    {FAY, HG_DONE, HG_FORBIDDEN},
    {GUS, HG_NOT_GRANTED, HG_NOT_GRANTED},
    {HAL, HG_FORBIDDEN, HG_FORBIDDEN},
    {IDA, HG_FORBIDDEN, HG_NOT_GRANTED},
    {JON, HG_NOT_GRANTED, HG_FORBIDDEN},
    {TENANTS, HG_STRANGER, HG_STRANGER},
    {255, HG_STRANGER, HG_STRANGER},
    {256, HG_STRANGER, HG_STRANGER},
    {UINT32_MAX, HG_STRANGER, HG_STRANGER},
};
enum { ASKING = sizeof ACTORS / sizeof *ACTORS };

/* A block, who serves, and what is said of it besides the rights: before they are judged of any
 * tenant, or of each but ann, and behind them. HG_DONE where nothing is. */
typedef struct {
    hg_handle block;
    uint32_t worker;
    unsigned first_of_all, first_of_others, behind;
    uint32_t detail; /* of HG_STALE */
} situation;

static unsigned char model[SIZE];

static unsigned judge(const situation *here, const judged *who, unsigned by_rights)
{
    if (by_rights == HG_STRANGER) return HG_STRANGER;
    if (here->first_of_all != HG_DONE) return here->first_of_all;
    if (who->actor != ANN && here->first_of_others != HG_DONE) return here->first_of_others;
    return by_rights == HG_DONE ? here->behind : by_rights;
}

/* What a Read or a Write of the word at an offset is answered. */
static unsigned answer(const situation *here, const judged *who, unsigned by_rights, uint64_t at)
{
    unsigned said = judge(here, who, by_rights);
    return said == HG_DONE && at >= SIZE ? HG_OUT_OF_BLOCK : said;
}

/* How many bytes are done, and how that ends. */
static size_t done_of(const situation *here, const judged *who, int is_write, uint64_t first,
                      size_t count, unsigned *end)
{
    size_t done = 0;
    for (*end = HG_DONE; done < count;) {
        uint64_t at = first + done;
        size_t piece = 8 - (size_t)(at % 8);
        if (piece > count - done) piece = count - done;
        if (!is_write || piece < 8) *end = answer(here, who, who->to_read, at);
        if (is_write && *end == HG_DONE) *end = answer(here, who, who->to_write, at);
        if (*end != HG_DONE) break;
        done += piece;
    }
    return done;
}

static int is_told(const situation *here, hg_reply reply, unsigned status, size_t done)
{
    return reply.status == status && reply.value == done && !reply.owner
        && reply.detail == (status == HG_STALE ? here->detail : 0);
}

static void try_read(const kind *of, const situation *here, const judged *who, uint64_t first,
                     size_t count)
{
    unsigned char room[ROOM], wanted[ROOM];
    unsigned end, off = below(BESIDE);
    memset(room, 0x5a, sizeof room);
    memset(wanted, 0x5a, sizeof wanted);
    size_t done = done_of(here, who, 0, first, count, &end);
    if (done) memcpy(wanted + off, model + first, done);
    hg_reply told = of->read(here->worker, who->actor, here->block, first, room + off, count);
    CHECK(is_told(here, told, end, done));
    CHECK(memcmp(room, wanted, sizeof room) == 0);
}

static void try_write(const kind *of, const situation *here, const judged *who, uint64_t first,
                      size_t count)
{
    unsigned char bytes[ROOM], before[ROOM];
    unsigned end, off = below(BESIDE);
    for (unsigned at = 0; at < ROOM; at++) before[at] = bytes[at] = (unsigned char)next();
    size_t done = done_of(here, who, 1, first, count, &end);
    if (done) memcpy(model + first, bytes + off, done);
    hg_reply told = of->write(here->worker, who->actor, here->block, first, bytes + off, count);
    CHECK(is_told(here, told, end, done));
    CHECK(memcmp(bytes, before, sizeof bytes) == 0);
}

/* By everyone, from an offset on. Where it lives `block` is the block, which ann reads by the worker
 * that holds it. */
static void try_offset(const kind *of, const situation *here, hg_handle block, uint64_t first)
{
    static const size_t COUNTS[] = {0, 1, 7, 8, 9, 13, 16, 17, 24, LONGEST};
    for (unsigned n = 0; n < ASKING; n++)
        for (unsigned many = 0; many < sizeof COUNTS / sizeof *COUNTS; many++) {
            try_read(of, here, &ACTORS[n], first, COUNTS[many]);
            try_write(of, here, &ACTORS[n], first, COUNTS[many]);
            if (block) CHECK(has_bytes(of, 0, ANN, block, model, SIZE));
        }
}

/* Who may not is told so wherever it asks. */
static void wide_offsets(const kind *of, const situation *here, hg_handle block)
{
    static const uint64_t WIDE[] = {UINT64_C(1) << 32, (UINT64_C(1) << 32) + 3, UINT64_C(1) << 35,
        (UINT64_C(1) << 35) - 1, (UINT64_C(1) << 63) + 8, UINT64_MAX - 7, UINT64_MAX};
    for (unsigned at = 0; at < sizeof WIDE / sizeof *WIDE; at++) try_offset(of, here, block, WIDE[at]);
}

/* Of a block that isn't there any offset is as good as another; `other` is what stays meanwhile. */
static void try_gone(const kind *of, const situation *here, hg_handle other)
{
    try_offset(of, here, other, 0);
    try_offset(of, here, other, 3);
    try_offset(of, here, other, SIZE);
}

/* At both ends of the block, in it, and past it. */
static void try_all(const kind *of, const situation *here, hg_handle block)
{
    static const uint64_t FIRST[] = {0, 1, 7, 8, 11, SIZE - 17, SIZE - 16, SIZE - 9, SIZE - 8,
        SIZE - 7, SIZE - 1, SIZE, SIZE + 1, 65536, UINT32_MAX - 7, UINT32_MAX};
    for (unsigned at = 0; at < sizeof FIRST / sizeof *FIRST; at++)
        try_offset(of, here, block, FIRST[at]);
    wide_offsets(of, here, block);
}

/* No bytes ask for no right and test no block; but there has to be a worker, and a word of a handle. */
static void try_none(const kind *of, hg_handle block)
{
    static const hg_handle NONE[] = {0, UINT64_C(1) << 32, UINT64_C(524288) << 32 | 1, UINT64_MAX};
    static const uint32_t AWAY[] = {WORKERS, 255, 256, UINT32_MAX};
    unsigned char room[9] = "as it was";
    for (size_t count = 0; count <= sizeof room; count += sizeof room) {
        unsigned char *at = count ? room : NULL;
        for (unsigned n = 0; n < sizeof NONE / sizeof *NONE; n++) {
            CHECK(is_plain(of->read(0, ANN, NONE[n], 0, at, count), HG_NO_BLOCK));
            CHECK(is_plain(of->write(0, ANN, NONE[n], 0, at, count), HG_NO_BLOCK));
            CHECK(is_plain(of->read(AWAY[n], ANN, NONE[n], 0, at, count), HG_NO_BLOCK));
            CHECK(is_plain(of->write(AWAY[n], ANN, NONE[n], 0, at, count), HG_NO_BLOCK));
            CHECK(is_plain(of->read(AWAY[n], ANN, block, 0, at, count), of->no_worker));
            CHECK(is_plain(of->write(AWAY[n], ANN, block, 0, at, count), of->no_worker));
            CHECK(is_plain(of->read(AWAY[n], TENANTS, block, 0, at, count), of->no_worker));
            CHECK(is_plain(of->write(AWAY[n], TENANTS, block, 0, at, count), of->no_worker));
        }
    }
    CHECK(memcmp(room, "as it was", sizeof room) == 0);
}

static void try_closed(const kind *of, hg_handle block)
{
    unsigned char room[9] = "as it was";
    CHECK(is_plain(of->read(0, ANN, block, 0, room, 9), HG_CLOSED));
    CHECK(is_plain(of->write(0, ANN, block, 0, room, 9), HG_CLOSED));
    CHECK(is_plain(of->read(0, ANN, block, 0, NULL, 0), HG_CLOSED));
    CHECK(is_plain(of->write(0, ANN, block, 0, NULL, 0), HG_CLOSED));
    CHECK(is_plain(of->read(0, ANN, 0, 0, room, 9), HG_NO_BLOCK));
    CHECK(is_plain(of->write(WORKERS, ANN, block, 0, room, 9), HG_CLOSED));
    CHECK(memcmp(room, "as it was", sizeof room) == 0);
}

/* Block and array have new bytes. */
static hg_handle filled(const kind *of, hg_handle block)
{
    for (unsigned at = 0; at < SIZE; at++) model[at] = (unsigned char)next();
    CHECK(of->write(0, ANN, block, 0, model, SIZE).value == SIZE);
    CHECK(has_bytes(of, 0, ANN, block, model, SIZE));
    return block;
}

static hg_handle new_block(const kind *of, uint32_t arena)
{
    return filled(of, of->alloc(0, ANN, arena, SIZE).value);
}

/* The next block in the place of one that was freed. The others of its page come first. */
static hg_handle block_after(const kind *of, hg_handle gone)
{
    for (unsigned n = 0; n < 512; n++) {
        hg_handle block = of->alloc(0, ANN, 0, SIZE).value;
        if (hg_place_of(block) == hg_place_of(gone)) return filled(of, block);
    }
    CHECK(!"the place has another block");
    return 0;
}

/* One that lives, in an arena for all and in ann's own, by who holds it and by who doesn't. */
static void try_live(const kind *of, hg_handle block, unsigned of_others)
{
    situation held = {block, 0, HG_DONE, of_others, HG_DONE, 0};
    situation elsewhere = {block, 1, HG_DONE, of_others, HG_ELSEWHERE, 0};
    try_all(of, &held, block);
    try_all(of, &elsewhere, block);
}

/* One that was freed by a worker, before and after its place has another block. That one stays as
 * it is. */
static void try_freed(const kind *of, uint32_t worker)
{
    hg_handle block = new_block(of, 0);
    CHECK(of->free(worker, ANN, block).status == (worker ? HG_PARTED : HG_DONE));
    for (uint32_t by = 0; by < WORKERS; by++) {
        situation freed = {block, by, HG_ALREADY_FREED, HG_DONE, HG_DONE, 0};
        try_gone(of, &freed, 0);
    }
    if (worker) return;
    hg_handle again = block_after(of, block);
    CHECK(again != 0 && again != block);
    for (uint32_t by = 0; by < WORKERS; by++) {
        situation stale = {block, by, HG_STALE, HG_DONE, HG_DONE, hg_generation_of(again)};
        try_gone(of, &stale, again);
        stale.block = again + 1;
        try_gone(of, &stale, again);
        situation nowhere = {hg_handle_of(63, 0, 0, 1), by, HG_STALE, HG_DONE, HG_DONE, 0};
        try_gone(of, &nowhere, again);
    }
    CHECK(is_plain(of->free(0, ANN, again), HG_DONE));
}

static void try_kind(const kind *of)
{
    unsigned before = failed;
    CHECK(of->open(POLICY, sizeof POLICY - 1).status == HG_DONE);
    CHECK(of->refill(0, 0).status == HG_REFILLED && of->refill(0, 1).status == HG_REFILLED);
    unsigned long opened = asked;
    unsigned char below_it[SIZE], above_it[SIZE];
    hg_handle low = new_block(of, 0), block = of->alloc(0, ANN, 0, SIZE).value;
    memcpy(below_it, model, SIZE);
    hg_handle high = new_block(of, 0);
    memcpy(above_it, model, SIZE);
    try_live(of, filled(of, block), HG_DONE);
    try_none(of, block);
    try_live(of, new_block(of, 1), HG_FOREIGN_ARENA);
    try_freed(of, 0);
    try_freed(of, 1);
    CHECK(has_bytes(of, 0, ANN, low, below_it, SIZE));
    CHECK(has_bytes(of, 0, ANN, high, above_it, SIZE));
    CHECK(asked == opened);
    CHECK(is_plain(of->close(), HG_DONE));
    try_closed(of, low);
    if (failed != before) printf(TEST ": so far of a %s\n", of->name);
}

int main(void)
{
    seed = 73;
    for (unsigned n = 0; n < KINDS; n++) try_kind(&ALL[n]);
    printf(TEST ": %u checks, %u failed\n", checks, failed);
    return failed != 0;
}
