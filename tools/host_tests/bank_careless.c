/* bank_careless: a host that looks at no status, with a bank. It asks for the numbers of names that
 * the policy lacks, of a bank that is closed, for the workers that hold segments which nobody holds,
 * for cores more than there may be, and for blocks and segments that it doesn't get; it names blocks
 * of cores that aren't open, and acts by what it is given, with words and with bytes. It is told
 * nothing, and the block that is there stays as it was.
 */
#include "heapguard.h"
#include <stdio.h>
#include <string.h>

enum { WORKER = 0, WORDS = 8, CORES = 2 };

static const char POLICY[] =
    "version = 1\n"
    "workers = 1\n"
    "tenant = [ {name = \"alice\", limit = 8192}, {name = \"bob\", limit = 8192} ]\n"
    "arena = [ {name = \"main\", segments = 1}, {name = \"vault\", segments = 1} ]\n";

/* What the policy has no tenant and no arena by. The last is no text. */
static const char *const NAMES[] = {"", "mallory", "Alice", "alice ", "\xff\xfe"};
enum { NAMED = sizeof NAMES / sizeof *NAMES };

static uint32_t tenant(hg_bank *bank, const char *name)
{
    return (uint32_t)hg_bank_tenant(bank, name, strlen(name)).value;
}

static uint32_t arena(hg_bank *bank, const char *name)
{
    return (uint32_t)hg_bank_arena(bank, name, strlen(name)).value;
}

/* What a host does that doesn't look. */
static void drop(hg_reply reply) { (void)reply; }

/* Bytes of a block, of any part of it and of more than it has. */
static uint64_t bytes_told(uint32_t worker, hg_bank *bank, uint32_t actor, hg_bank_handle block)
{
    static const uint32_t FIRST[] = {0, 3, 8, 8 * WORDS - 1, 8 * WORDS, UINT32_MAX};
    unsigned char bytes[16 * WORDS] = {0};
    uint64_t all = 0;
    for (unsigned n = 0; n < sizeof FIRST / sizeof *FIRST; n++) {
        all |= hg_bank_write_bytes(bank, worker, actor, block, FIRST[n], bytes, sizeof bytes).value;
        all |= hg_bank_write_bytes(bank, worker, actor, block, FIRST[n], NULL, 0).value;
        all |= hg_bank_read_bytes(bank, worker, actor, block, FIRST[n], bytes, sizeof bytes).value;
        all |= hg_bank_read_bytes(bank, worker, actor, block, FIRST[n], NULL, 0).value;
    }
    for (unsigned at = 0; at < sizeof bytes; at++) all |= bytes[at];
    return all;
}

/* All that a tenant can do by a worker with a block of its own, and with one that it was told of.
 * Gives what the calls told: 0 where they told nothing. */
static uint64_t told(uint32_t worker, hg_bank *bank, uint32_t actor, uint32_t where,
                     hg_bank_handle block)
{
    hg_bank_handle own = hg_bank_handle_of(hg_bank_alloc(bank, worker, actor, where, 64));
    uint32_t core = (uint32_t)block.core, place = hg_place_of(block.handle);
    uint64_t words[WORDS] = {0}, all = own.core | own.handle;
    all |= hg_bank_look(bank, worker, actor, core, place).value;
    all |= hg_bank_read_words(bank, worker, actor, block, 0, words, WORDS).value;
    all |= hg_bank_write_words(bank, worker, actor, block, 0, words, WORDS).value;
    all |= bytes_told(worker, bank, actor, block) | bytes_told(worker, bank, actor, own);
    for (uint32_t at = 0; at < WORDS; at++) {
        all |= words[at];
        all |= hg_bank_read(bank, worker, actor, block, at).value;
        all |= hg_bank_read(bank, worker, actor, own, at).value;
        drop(hg_bank_write(bank, worker, actor, block, at, 0));
        drop(hg_bank_write(bank, worker, actor, own, at, 1));
    }
    drop(hg_bank_free(bank, worker, actor, block));
    drop(hg_bank_free(bank, worker, actor, own));
    return all | hg_bank_free_all(bank, worker, actor, core, 0).value;
}

int main(void)
{
    hg_bank bank = HG_BANK_INIT, closed = HG_BANK_INIT;
    unsigned failed = 0;
    if (hg_bank_open(&bank, POLICY, sizeof POLICY - 1, CORES, NULL, 0).status != HG_DONE) return 1;
    uint32_t alice = tenant(&bank, "alice"), bob = tenant(&bank, "bob");
    uint32_t open = arena(&bank, "main");
    for (unsigned n = 0; n < 2 * CORES; n++) {
        drop(hg_bank_refill(&bank, WORKER, open));
        drop(hg_bank_grow(&bank));
    }
    hg_bank_handle block = hg_bank_handle_of(hg_bank_alloc(&bank, WORKER, alice, open, 8 * WORDS));
    failed += block.core != 1;
    for (uint32_t at = 0; at < WORDS; at++)
        drop(hg_bank_write(&bank, WORKER, alice, block, at, at + 100));
    for (unsigned n = 0; n < NAMED; n++) {
        uint32_t nobody = tenant(&bank, NAMES[n]), nowhere = arena(&bank, NAMES[n]);
        failed += nobody != 255 || nowhere != 255;
        failed += hg_bank_charge(&bank, WORKER, nobody).value != 0;
        failed += told(WORKER, &bank, nobody, open, block) != 0;
        failed += told(WORKER, &bank, nobody, nowhere, block) != 0;
        failed += told(WORKER, &bank, bob, nowhere, block) != 0;
        failed += told(WORKER, &closed, nobody, nowhere, block) != 0;
        drop(hg_bank_refill(&bank, WORKER, nowhere));
        drop(hg_bank_grow(&closed));
    }
    failed += told(WORKER, &bank, tenant(&closed, "alice"), open, block) != 0;
    failed += told(WORKER, &bank, bob, arena(&closed, "main"), block) != 0;
    for (uint32_t segment = 1; segment < 300; segment++) {
        uint32_t nobody = (uint32_t)hg_bank_holder(&bank, segment % 4, segment).value;
        failed += told(nobody, &bank, alice, open, block) != 0;
        failed += hg_bank_charge(&bank, nobody, alice).value != 0;
    }
    /* The same handle in each core where the block isn't. */
    static const uint64_t OTHERS[] = {0, 2, 3, 16383, 65535, 65536, 65537, UINT64_C(1) << 32 | 1};
    for (unsigned n = 0; n < sizeof OTHERS / sizeof *OTHERS; n++) {
        hg_bank_handle other = {OTHERS[n], block.handle};
        failed += hg_bank_read(&bank, WORKER, alice, other, 0).value != 0;
        failed += bytes_told(WORKER, &bank, alice, other) != 0;
        drop(hg_bank_write(&bank, WORKER, alice, other, 0, 1));
        drop(hg_bank_free(&bank, WORKER, alice, other));
    }
    for (uint32_t at = 0; at < WORDS; at++)
        failed += hg_bank_read(&bank, WORKER, alice, block, at).value != at + 100;
    failed += hg_bank_free(&bank, WORKER, alice, block).status != HG_DONE;
    drop(hg_bank_close(&bank));
    printf("bank_careless: %u of it told something, or touched another's\n", failed);
    return failed != 0;
}
