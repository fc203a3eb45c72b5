/* bytes_careless: a host that asks for bytes and looks at no status, with a core, a bank and a worker
 * of a service. Its offsets and lengths are too large, or no bytes at all of no memory; its memory
 * lies anywhere, up to the end of a page that nothing follows; it asks for what its tenant may not
 * have, for blocks that are gone, and of what is closed. It is told how many bytes were done, and acts
 * by that alone: of nobody's bytes is it told, and nobody's does it write, but of the block that it
 * names, as far as that goes.
 */
#define _DEFAULT_SOURCE
#include "all_are.h"
#include "seeded.h"
#include "byte_calls.h"
#include <stdio.h>
#include <stdlib.h>
#include <string.h>
#include <sys/mman.h>

enum { SIZE = 64, ROOM = 70000, ROUNDS = 3000, NEVER = 0x5a };
enum { ALICE, BOB, NOBODY };

static const char POLICY[] =
    "version = 1\nworkers = 2\n"
    "tenant = [ {name = \"alice\", limit = 8192}, {name = \"bob\", limit = 8192} ]\n"
    "arena = [ {name = \"main\", segments = 1} ]\n";

/* Bytes of alice's block and of bob's, which lies behind it. */
static unsigned char alices[SIZE], bobs[SIZE];
static hg_handle alice_block, bob_block;
static unsigned failed;

static void want(int holds, const kind *of, const char *what)
{
    if (holds) return;
    if (failed++ < 20) printf("bytes_careless: of a %s: not so: %s\n", of->name, what);
}

/* Neither block has changed but by what was written in it. */
static void want_both(const kind *of, const char *what)
{
    want(has_bytes(of, 0, ALICE, alice_block, alices, SIZE), of, what);
    want(has_bytes(of, 0, BOB, bob_block, bobs, SIZE), of, what);
}

static size_t left_from(uint64_t first, size_t count)
{
    size_t left = first < SIZE ? SIZE - (size_t)first : 0;
    return count < left ? count : left;
}

/* Reads and writes alice's block with memory that begins `off` behind the start of the room. */
static void use(const kind *of, uint64_t first, size_t count, unsigned off)
{
    static unsigned char room[ROOM + 16];
    unsigned char *at = count ? room + off : NULL;
    size_t left = left_from(first, count);
    memset(room, NEVER, sizeof room);
    uint64_t told = of->read(0, ALICE, alice_block, first, at, count).value;
    want(told == left && (left == 0 || memcmp(at, alices + first, left) == 0), of, "what is read");
    want(all_are(room, off, NEVER) && all_are(room + off + left, sizeof room - off - left, NEVER), of,
         "what lies before and behind what is read");
    for (size_t n = 0; n < count && n < SIZE; n++) room[off + n] = (unsigned char)next();
    if (left) memcpy(alices + first, at, left);
    want(of->write(0, ALICE, alice_block, first, at, count).value == left, of, "how much is written");
    want_both(of, "what is written");
}

static void too_large(const kind *of)
{
    static const uint64_t FIRST[] = {0, 1, 7, 8, SIZE - 8, SIZE - 7, SIZE - 1, SIZE, SIZE + 1, 4096,
        65535, 65536, 1u << 16 | 3, 1u << 31, UINT32_MAX - 65535, UINT32_MAX - 8, UINT32_MAX - 7,
        UINT32_MAX - 1, UINT32_MAX};
    static const size_t COUNTS[] = {0, 1, SIZE - 1, SIZE, SIZE + 1, 4096, 65536, ROOM};
    for (unsigned n = 0; n < sizeof FIRST / sizeof *FIRST; n++)
        for (unsigned at = 0; at < sizeof COUNTS / sizeof *COUNTS; at++)
            use(of, FIRST[n], COUNTS[at], n % 8);
}

static void wide_offsets(const kind *of)
{
    static const uint64_t FIRST[] = {UINT64_C(1) << 32, (UINT64_C(1) << 32) + 3, UINT64_C(1) << 35,
        (UINT64_C(1) << 35) + SIZE - 1, UINT64_MAX - SIZE, UINT64_MAX - 7, UINT64_MAX};
    static const size_t COUNTS[] = {0, 1, 8, SIZE, SIZE + 1, ROOM};
    for (unsigned n = 0; n < sizeof FIRST / sizeof *FIRST; n++)
        for (unsigned at = 0; at < sizeof COUNTS / sizeof *COUNTS; at++)
            use(of, FIRST[n], COUNTS[at], n % 8);
}

/* More bytes than 32 bits count, and they are there: a length isn't cut. */
static void longer_than_32_bits(const kind *of)
{
    size_t many = ((size_t)1 << 32) + 5;
    unsigned char *room = mmap(NULL, many, PROT_READ | PROT_WRITE,
                               MAP_PRIVATE | MAP_ANONYMOUS | MAP_NORESERVE, -1, 0);
    if (room == MAP_FAILED) {
        puts("bytes_careless: no 4 GiB of addresses: left out are lengths above 32 bits");
        return;
    }
    want(of->read(0, ALICE, alice_block, 3, room, many).value == SIZE - 3, of, "a long read");
    want(memcmp(room, alices + 3, SIZE - 3) == 0, of, "what it reads");
    want(all_are(room + SIZE - 3, 4096, 0), of, "what lies behind a long read");
    memset(room, 7, SIZE);
    memset(alices + 3, 7, SIZE - 3);
    want(of->write(0, ALICE, alice_block, 3, room, many).value == SIZE - 3, of, "a long write");
    want_both(of, "what a long write writes");
    munmap(room, many);
}

/* Lengths are true, or a host breaks what it owes. One that no memory has does no harm where nothing
 * is served. */
static void longer_than_all(const kind *of)
{
    static const size_t COUNTS[] = {SIZE_MAX, SIZE_MAX - 7, SIZE_MAX / 2, (size_t)1 << 32};
    unsigned char room[SIZE];
    uint64_t all = 0;
    memset(room, NEVER, sizeof room);
    for (unsigned n = 0; n < sizeof COUNTS / sizeof *COUNTS; n++) {
        size_t many = COUNTS[n];
        all |= of->read(0, ALICE, 0, 0, room, many).value;
        all |= of->write(0, ALICE, 0, 0, room, many).value;
        all |= of->read(WORKERS, ALICE, alice_block, 0, room, many).value;
        all |= of->write(WORKERS, ALICE, alice_block, 0, room, many).value;
        all |= of->read(0, BOB, alice_block, 0, room, many).value;
        all |= of->write(0, BOB, alice_block, 0, room, many).value;
        all |= of->read(1, ALICE, alice_block, 0, room, many).value;
        all |= of->write(1, ALICE, alice_block, 0, room, many).value;
    }
    want(all == 0 && all_are(room, sizeof room, NEVER), of, "what isn't served touches nothing");
    want_both(of, "nor any block");
}

/* A page, and behind it one that may not be touched: the last byte of the memory is the page's last. */
static void at_the_end_of_a_page(const kind *of)
{
    enum { PAGE = 65536 }; /* as large as any page, or several */
    unsigned char *pages = mmap(NULL, 2 * PAGE, PROT_READ | PROT_WRITE, MAP_PRIVATE | MAP_ANONYMOUS,
                                -1, 0);
    if (pages == MAP_FAILED || mprotect(pages + PAGE, PAGE, PROT_NONE) != 0) exit(1);
    for (size_t count = 0; count <= SIZE; count++)
        for (uint64_t first = 0; first < 9; first++) {
            unsigned char *at = pages + PAGE - count;
            size_t left = left_from(first, count);
            memset(pages + PAGE - SIZE - 8, NEVER, SIZE + 8);
            want(of->read(0, ALICE, alice_block, first, at, count).value == left
                 && memcmp(at, alices + first, left) == 0, of, "a read up to the end of a page");
            want(all_are(at - 8, 8, NEVER), of, "what lies before it");
            for (size_t n = 0; n < count; n++) at[n] = (unsigned char)next();
            memcpy(alices + first, at, left);
            want(of->write(0, ALICE, alice_block, first, at, count).value == left, of,
                 "a write up to the end of a page");
            want_both(of, "what it writes");
        }
    munmap(pages, 2 * PAGE);
}

/* On the stack and the heap, amid another thing, and where the bytes are of no variable at all. */
static void anywhere(const kind *of)
{
    struct {
        char before;
        unsigned char bytes[13];
        char behind;
    } it = {'b', {0}, 'e'};
    unsigned char *own = malloc(13);
    if (!own) exit(1);
    want(of->write(0, ALICE, alice_block, 5, "thirteen byte", 13).value == 13, of, "a literal");
    memcpy(alices + 5, "thirteen byte", 13);
    want(of->read(0, ALICE, alice_block, 5, it.bytes, 13).value == 13, of, "into a struct");
    want(of->read(0, ALICE, alice_block, 5, own, 13).value == 13, of, "onto the heap");
    want(memcmp(it.bytes, alices + 5, 13) == 0 && memcmp(own, alices + 5, 13) == 0, of, "the same");
    want(it.before == 'b' && it.behind == 'e', of, "what lies beside it");
    free(own);
    want_both(of, "what a literal writes");
}

/* Offsets that overlap: of two writes the second stays, of two reads into one room too. */
static void overlapping(const kind *of)
{
    unsigned char bytes[2 * SIZE], room[2 * SIZE], wanted[2 * SIZE];
    for (unsigned n = 0; n < ROUNDS; n++) {
        uint64_t first = below(SIZE), second = (first + below(12)) % SIZE;
        size_t count = below(SIZE), after = below(24), shift = below(24);
        for (unsigned at = 0; at < sizeof bytes; at++) bytes[at] = (unsigned char)next();
        memcpy(alices + first, bytes, left_from(first, count));
        memcpy(alices + second, bytes + 1, left_from(second, after));
        (void)of->write(0, ALICE, alice_block, first, bytes, count);
        (void)of->write(0, ALICE, alice_block, second, bytes + 1, after);
        memset(room, NEVER, sizeof room);
        memset(wanted, NEVER, sizeof wanted);
        memcpy(wanted, alices + first, left_from(first, count));
        memcpy(wanted + shift, alices + second, left_from(second, after));
        (void)of->read(0, ALICE, alice_block, first, room, count);
        (void)of->read(0, ALICE, alice_block, second, room + shift, after);
        want(memcmp(room, wanted, sizeof room) == 0, of, "reads that overlap");
    }
    want_both(of, "writes that overlap");
}

/* What may not be had, and what is gone: the room stays, and a host that takes all that it asked for
 * takes its own bytes. */
static void in_vain(const kind *of, hg_handle gone)
{
    unsigned char room[SIZE];
    uint64_t all = 0;
    memset(room, NEVER, sizeof room);
    for (uint64_t first = 0; first < SIZE; first += 3) {
        hg_handle blocks[] = {alice_block, gone, alice_block + 1, bob_block + 1, 0, UINT64_MAX};
        for (unsigned n = 0; n < sizeof blocks / sizeof *blocks; n++) {
            all |= of->read(0, BOB, blocks[n], first, room, sizeof room).value;
            all |= of->write(0, BOB, blocks[n], first, room, sizeof room).value;
            all |= of->read(0, NOBODY, blocks[n], first, room, sizeof room).value;
            all |= of->write(0, NOBODY, blocks[n], first, room, sizeof room).value;
            all |= of->read(0, 256 + ALICE, blocks[n], first, room, sizeof room).value;
            all |= of->write(0, 256 + ALICE, blocks[n], first, room, sizeof room).value;
            all |= of->read(1, ALICE, blocks[n], first, room, sizeof room).value;
            all |= of->write(1, ALICE, blocks[n], first, room, sizeof room).value;
        }
    }
    want(all == 0 && all_are(room, sizeof room, NEVER), of, "it is told nothing");
    want_both(of, "and writes nothing");
}

/* What is closed is zeros, and so is what was never opened. */
static void closed(const kind *of)
{
    unsigned char room[SIZE];
    uint64_t all = 0;
    memset(room, NEVER, sizeof room);
    for (size_t count = 0; count <= sizeof room; count += sizeof room / 2) {
        void *at = count ? room : NULL;
        all |= of->read(0, ALICE, alice_block, count, at, count).value;
        all |= of->write(0, ALICE, alice_block, count, at, count).value;
        all |= of->read(0, NOBODY, 0, UINT32_MAX, at, count).value;
        all |= of->write(0, NOBODY, 0, UINT32_MAX, at, count).value;
    }
    want(all == 0 && all_are(room, sizeof room, NEVER), of, "what is closed tells nothing");
}

static hg_handle new_block(const kind *of, uint32_t actor, unsigned char *bytes)
{
    hg_handle block = of->alloc(0, actor, 0, SIZE).value;
    for (unsigned at = 0; at < SIZE; at++) bytes[at] = (unsigned char)next();
    (void)of->write(0, actor, block, 0, bytes, SIZE);
    return block;
}

static void try_kind(const kind *of)
{
    closed(of);
    if (of->open(POLICY, sizeof POLICY - 1).status != HG_DONE) exit(1);
    (void)of->refill(0, 0);
    alice_block = new_block(of, ALICE, alices);
    bob_block = new_block(of, BOB, bobs);
    hg_handle gone = of->alloc(0, BOB, 0, SIZE).value;
    (void)of->free(0, BOB, gone);
    want_both(of, "what was written first");
    too_large(of);
    wide_offsets(of);
    longer_than_32_bits(of);
    longer_than_all(of);
    at_the_end_of_a_page(of);
    anywhere(of);
    overlapping(of);
    in_vain(of, gone);
    (void)of->free(1, BOB, bob_block + 1);
    want_both(of, "at the end");
    if (of->close().status != HG_DONE) exit(1);
    closed(of);
}

int main(void)
{
    seed = 74;
    for (unsigned n = 0; n < KINDS; n++) try_kind(&ALL[n]);
    printf("bytes_careless: %u of it told something, or touched another's\n", failed);
    return failed != 0;
}
