/* Bytes of a block in a core, in a bank and of a worker, beside a plain array of bytes: seeded offsets
 * and lengths, to the block's end and past it, from and to memory that lies anywhere. A read leaves
 * what stands behind it, a write what lies beside it, in the block and in the blocks before and behind
 * it; and no call asks for memory. Who is refused is tried by bytes_denied.
 */
#define TEST "bytes"
#include "checked.h"
#include "counted.h"
#include "seeded.h"
#include "byte_calls.h"
#include <string.h>

enum { SIZE = 4096, MORE = 40, MOST = SIZE + MORE, ROUNDS = 20000 };
enum { ANN, CAM };

static const char POLICY[] =
    "version = 1\nworkers = 2\n"
    "tenant = [ {name = \"ann\", limit = 65536}, {name = \"cam\", limit = 64} ]\n"
    "arena = [ {name = \"main\", segments = 1} ]\n"
    "grant = [ {owner = \"ann\", to = \"cam\", rights = [\"read\"]} ]\n";

static unsigned char model[SIZE], room[MOST + 8], wanted[MOST + 8], bytes[MOST + 8];

static int is_far(hg_reply reply, unsigned status, size_t done)
{
    return reply.status == status && reply.value == done && !reply.owner && !reply.detail;
}

/* How many of so many bytes from there on lie in the block, and how a call of so many ends. */
static size_t within(uint64_t first, size_t count)
{
    size_t left = first < SIZE ? SIZE - (size_t)first : 0;
    return count < left ? count : left;
}

static unsigned ends(uint64_t first, size_t count)
{
    return within(first, count) == count ? HG_DONE : HG_OUT_OF_BLOCK;
}

static void try_read(const kind *of, hg_handle block, uint64_t first, size_t count)
{
    unsigned off = below(8); /* the room lies anywhere */
    memset(room, 0x5a, sizeof room);
    memset(wanted, 0x5a, sizeof wanted);
    size_t done = within(first, count);
    if (done) memcpy(wanted + off, model + first, done);
    hg_reply told = of->read(0, below(2) ? ANN : CAM, block, first, room + off, count);
    CHECK(is_far(told, ends(first, count), done));
    CHECK(memcmp(room, wanted, sizeof room) == 0);
}

static void try_write(const kind *of, hg_handle block, uint64_t first, size_t count)
{
    unsigned off = below(8);
    for (size_t at = 0; at < count; at++) bytes[off + at] = (unsigned char)next();
    size_t done = within(first, count);
    if (done) memcpy(model + first, bytes + off, done);
    hg_reply told = of->write(0, ANN, block, first, bytes + off, count);
    CHECK(is_far(told, ends(first, count), done));
}

/* The block has what the array has, word by word. */
static void check_all(const kind *of, hg_handle block)
{
    for (uint32_t index = 0; index < SIZE / 8; index++) {
        uint64_t word = 0;
        for (unsigned at = 8; at-- > 0;) word = word << 8 | model[8 * index + at];
        hg_reply told = of->word(0, ANN, block, index);
        CHECK(told.status == HG_VALUE && told.value == word);
    }
}

/* An offset past each block is out of range, and not one that 32 bits of it would be. */
static void wide_offsets(const kind *of, hg_handle block)
{
    static const uint64_t WIDE[] = {
        UINT64_C(1) << 32, (UINT64_C(1) << 32) + 3, (UINT64_C(1) << 32) + SIZE - 1,
        (UINT64_C(1) << 35) - 1, UINT64_C(1) << 35, (UINT64_C(1) << 35) + 8, UINT64_C(1) << 40,
        (UINT64_C(1) << 63) + 5, UINT64_MAX - 4095, UINT64_MAX - 8, UINT64_MAX - 7, UINT64_MAX,
    };
    for (unsigned n = 0; n < sizeof WIDE / sizeof *WIDE; n++)
        for (size_t count = 0; count < 26; count++) {
            try_read(of, block, WIDE[n], count);
            try_write(of, block, WIDE[n], count);
        }
    check_all(of, block);
}

/* Near the ends of the block, and then anywhere. */
static void try_block(const kind *of, hg_handle block)
{
    memset(model, 0, sizeof model);
    check_all(of, block);
    for (uint64_t first = 0; first < 24; first++)
        for (size_t count = 0; count < 26; count++) {
            try_write(of, block, first, count);
            try_read(of, block, first, count);
        }
    check_all(of, block);
    for (unsigned n = 0; n < ROUNDS; n++) {
        uint64_t first = below(8) ? below(MOST) : SIZE - below(20);
        size_t count = below(4) ? below(40) : below(MOST - (uint32_t)first + 1);
        if (below(2)) try_write(of, block, first, count);
        else try_read(of, block, first, count);
        if (n % (ROUNDS / 8) == 0) check_all(of, block);
    }
    check_all(of, block);
    wide_offsets(of, block);
}

/* A block ends with its class, and not with the bytes asked for. */
static void try_class(const kind *of)
{
    hg_handle block = of->alloc(0, ANN, 0, 70).value;
    CHECK(is_far(of->write(0, ANN, block, 0, bytes, 81), HG_OUT_OF_BLOCK, 80));
    CHECK(is_far(of->read(0, ANN, block, 0, room, 80), HG_DONE, 80));
    CHECK(memcmp(room, bytes, 80) == 0);
    CHECK(of->free(0, ANN, block).status == HG_DONE);
}

static void try_kind(const kind *of)
{
    static const unsigned char OTHERS[SIZE] = {0};
    unsigned before = failed;
    CHECK(of->open(POLICY, sizeof POLICY - 1).status == HG_DONE);
    CHECK(of->refill(0, 0).status == HG_REFILLED);
    unsigned long opened = asked;
    hg_handle blocks[3];
    for (unsigned n = 0; n < 3; n++) CHECK((blocks[n] = of->alloc(0, ANN, 0, SIZE).value) != 0);
    try_block(of, blocks[1]);
    CHECK(has_bytes(of, 0, ANN, blocks[0], OTHERS, SIZE));
    CHECK(has_bytes(of, 0, ANN, blocks[2], OTHERS, SIZE));
    try_class(of);
    CHECK(asked == opened);
    CHECK(is_plain(of->close(), HG_DONE));
    if (failed != before) printf(TEST ": so far of a %s\n", of->name);
}

int main(void)
{
    seed = 72;
    for (unsigned n = 0; n < KINDS; n++) try_kind(&ALL[n]);
    printf(TEST ": %u checks, %u failed\n", checks, failed);
    return failed != 0;
}
