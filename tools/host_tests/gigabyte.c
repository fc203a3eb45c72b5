/* gigabyte [CORES]: fills a bank of so many cores, 256 where nothing is said, which have 1 GiB of
 * blocks. Each block is of a size of its own, up to 64 KiB, and is written whole; then each is read
 * whole and compared, and freed. Tells how long that took, and how many bytes were resident. The
 * heap's bytes are some three times those of the blocks.
 *
 *     cc -O2 tools/host_tests/gigabyte.c -o gigabyte -Ilib -Llib -lhg -lhg_malloc && ./gigabyte
 */
#define _POSIX_C_SOURCE 199309L
#include "heapguard.h"
#include "seeded.h"
#include <inttypes.h>
#include <stdio.h>
#include <stdlib.h>
#include <string.h>
#include <sys/resource.h>
#include <time.h>

enum { CORE_BYTES = 64 * 65536, WORDS = 8192, MOST = 1023 }; /* a limit is below 4 GiB */

static const char POLICY[] =
    "version = 1\n"
    "workers = 1\n"
    "tenant = [ {name = \"ann\", limit = 4294967295} ]\n"
    "arena = [ {name = \"main\", segments = 64} ]\n";

typedef struct {
    hg_bank_handle block;
    uint32_t words;
} row;

static hg_bank bank = HG_BANK_INIT;
static row *rows;
static size_t count, room_for;
static uint64_t pattern[2 * WORDS], room[WORDS];

static double now(void)
{
    struct timespec time;
    clock_gettime(CLOCK_MONOTONIC, &time);
    return (double)time.tv_sec + (double)time.tv_nsec / 1e9;
}

/* The most bytes of this process that were resident at once. */
static double resident(void)
{
    struct rusage used;
    getrusage(RUSAGE_SELF, &used);
    return (double)used.ru_maxrss * 1024;
}

static void stop(const char *what, hg_reply reply)
{
    printf("gigabyte: %s: %s\n", what, hg_status_text(reply.status));
    exit(1);
}

/* Half of the blocks are small, and most of the bytes are in large ones. */
static uint32_t some_words(void)
{
    switch (below(8)) {
    case 0: return 1 + below(WORDS);
    case 1: return 1024u << below(4);
    case 2: case 3: return 1 + below(512);
    default: return 1 + below(32);
    }
}

/* A block; or where there is no room a segment more, or a core more. Gives whether there was one. */
static int get_block(uint32_t words, hg_bank_handle *block)
{
    for (;;) {
        hg_reply made = hg_bank_alloc(&bank, 0, 0, 0, 8 * (uint64_t)words);
        *block = hg_bank_handle_of(made);
        if (made.status == HG_BLOCK) return 1;
        if (made.status != HG_NO_ROOM) stop("alloc", made);
        if (hg_bank_refill(&bank, 0, 0).status == HG_REFILLED) continue;
        hg_reply grown = hg_bank_grow(&bank);
        if (grown.status == HG_FULL) return 0;
        if (grown.status != HG_VALUE) stop("grow", grown);
    }
}

/* What the n-th block has. */
static const uint64_t *words_of(size_t n) { return pattern + n % WORDS; }

/* In the end with blocks of a page each, so that no page is left. */
static void fill(void)
{
    int is_full = 0;
    for (;;) {
        row it = {{0, 0}, is_full ? 512 : some_words()};
        if (!get_block(it.words, &it.block)) {
            if (is_full) return;
            is_full = 1;
            continue;
        }
        if (count == room_for) {
            room_for = room_for ? 2 * room_for : 4096;
            rows = realloc(rows, room_for * sizeof *rows);
            if (!rows) exit(1);
        }
        hg_reply done = hg_bank_write_words(&bank, 0, 0, it.block, 0, words_of(count), it.words);
        if (done.status != HG_DONE) stop("write", done);
        rows[count++] = it;
    }
}

static size_t read_back(void)
{
    size_t others = 0;
    for (size_t n = 0; n < count; n++) {
        hg_reply done = hg_bank_read_words(&bank, 0, 0, rows[n].block, 0, room, rows[n].words);
        if (done.status != HG_DONE) stop("read", done);
        others += memcmp(room, words_of(n), 8 * rows[n].words) != 0;
    }
    return others;
}

static void free_each(void)
{
    for (size_t n = 0; n < count; n++) {
        hg_reply done = hg_bank_free(&bank, 0, 0, rows[n].block);
        if (done.status != HG_DONE) stop("free", done);
    }
}

int main(int words, char **word)
{
    uint32_t cores = words > 1 ? (uint32_t)strtoul(word[1], NULL, 10) : 256;
    if (cores > MOST) return 2;
    seed = 20;
    for (unsigned at = 0; at < 2 * WORDS; at++) pattern[at] = next();
    double began = now();
    hg_reply opened = hg_bank_open(&bank, POLICY, sizeof POLICY - 1, cores, NULL, 0);
    if (opened.status != HG_DONE) stop("open", opened);
    fill();
    double filled = now();
    size_t others = read_back();
    double was_read = now();
    uint64_t charge = hg_bank_charge(&bank, 0, 0).value, all = (uint64_t)cores * CORE_BYTES;
    double most = resident();
    free_each();
    double freed = now();
    uint64_t charge_left = hg_bank_charge(&bank, 0, 0).value;
    hg_reply closed = hg_bank_close(&bank);
    printf("%" PRIu32 " cores, %zu blocks of %" PRIu64 " bytes, %.1f%% of all\n", cores, count, charge,
           100.0 * (double)charge / (double)all);
    printf("filled in %.2f s, read in %.2f, freed in %.2f, closed in %.2f\n", filled - began,
           was_read - filled, freed - was_read, now() - freed);
    printf("resident: %.0f MiB, %.2f bytes for each of a block\n", most / 1048576,
           most / (double)charge);
    printf("%zu read otherwise than written, %" PRIu64 " bytes charged after all were freed\n", others,
           charge_left);
    free(rows);
    return others || charge_left || closed.status != HG_DONE || charge < all / 10 * 9;
}
