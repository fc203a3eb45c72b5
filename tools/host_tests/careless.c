/* careless: a host that looks at no status. It asks for the numbers of names that the policy lacks,
 * of bytes that are no text, and of a core that is closed, and for the workers that hold segments
 * which nobody holds, and acts by what it is given, with words and with bytes: it is told nothing, and
 * the block that is there stays as it was.
 */
#include "heapguard.h"
#include <stdio.h>
#include <string.h>

enum { WORKER = 0, WORDS = 8 };

static const char POLICY[] =
    "version = 1\n"
    "workers = 1\n"
    "tenant = [ {name = \"alice\", limit = 8192}, {name = \"bob\", limit = 8192} ]\n"
    "arena = [ {name = \"main\", segments = 1}, {name = \"vault\", segments = 1} ]\n";

/* What the policy has no tenant and no arena by. The last is no text. */
static const char *const NAMES[] = {"", "mallory", "Alice", "alice ", "\xff\xfe"};
enum { NAMED = sizeof NAMES / sizeof *NAMES };

static uint32_t tenant(hg_core *core, const char *name)
{
    return (uint32_t)hg_tenant(core, name, strlen(name)).value;
}

static uint32_t arena(hg_core *core, const char *name)
{
    return (uint32_t)hg_arena(core, name, strlen(name)).value;
}

static uint32_t holder(hg_core *core, uint32_t segment)
{
    return (uint32_t)hg_holder(core, segment).value;
}

/* What a host does that doesn't look. */
static void drop(hg_reply reply) { (void)reply; }

/* Bytes of a block, of any part of it and of more than it has. */
static uint64_t bytes_told(uint32_t worker, hg_core *core, uint32_t actor, hg_handle block)
{
    static const uint32_t FIRST[] = {0, 3, 8, 8 * WORDS - 1, 8 * WORDS, UINT32_MAX};
    unsigned char bytes[16 * WORDS] = {0};
    uint64_t all = 0;
    for (unsigned n = 0; n < sizeof FIRST / sizeof *FIRST; n++) {
        all |= hg_write_bytes(core, worker, actor, block, FIRST[n], bytes, sizeof bytes).value;
        all |= hg_write_bytes(core, worker, actor, block, FIRST[n], NULL, 0).value;
        all |= hg_read_bytes(core, worker, actor, block, FIRST[n], bytes, sizeof bytes).value;
        all |= hg_read_bytes(core, worker, actor, block, FIRST[n], NULL, 0).value;
    }
    for (unsigned at = 0; at < sizeof bytes; at++) all |= bytes[at];
    return all;
}

/* All that a tenant can do by a worker with a block of its own, and with one that it was told of.
 * Gives what the calls told: 0 where they told nothing. */
static uint64_t told_by(uint32_t worker, hg_core *core, uint32_t actor, uint32_t where,
                        hg_handle block)
{
    hg_handle own = hg_alloc(core, worker, actor, where, 64).value;
    uint64_t all = own | hg_look(core, worker, actor, hg_place_of(block)).value;
    all |= bytes_told(worker, core, actor, block) | bytes_told(worker, core, actor, own);
    for (uint32_t at = 0; at < WORDS; at++) {
        all |= hg_read(core, worker, actor, block, at).value;
        all |= hg_read(core, worker, actor, own, at).value;
        drop(hg_write(core, worker, actor, block, at, 0));
        drop(hg_write(core, worker, actor, own, at, 1));
    }
    drop(hg_free(core, worker, actor, block));
    drop(hg_free(core, worker, actor, own));
    return all;
}

static uint64_t told(hg_core *core, uint32_t actor, uint32_t where, hg_handle block)
{
    return told_by(WORKER, core, actor, where, block);
}

int main(void)
{
    hg_core core = HG_CORE_INIT, closed = HG_CORE_INIT;
    unsigned failed = 0;
    if (hg_open(&core, POLICY, sizeof POLICY - 1, NULL, 0).status != HG_DONE) return 1;
    uint32_t alice = tenant(&core, "alice"), bob = tenant(&core, "bob");
    uint32_t open = arena(&core, "main");
    drop(hg_refill(&core, WORKER, open));
    hg_handle block = hg_alloc(&core, WORKER, alice, open, 8 * WORDS).value;
    for (uint32_t at = 0; at < WORDS; at++)
        drop(hg_write(&core, WORKER, alice, block, at, at + 100));
    for (unsigned n = 0; n < NAMED; n++) {
        uint32_t nobody = tenant(&core, NAMES[n]), nowhere = arena(&core, NAMES[n]);
        failed += nobody != 255 || nowhere != 255;
        failed += hg_charge(&core, WORKER, nobody).value != 0;
        failed += told(&core, nobody, open, block) != 0;
        failed += told(&core, nobody, nowhere, block) != 0;
        failed += told(&core, bob, nowhere, block) != 0;
        failed += told(&closed, nobody, nowhere, block) != 0;
        drop(hg_refill(&core, WORKER, nowhere));
    }
    failed += told(&core, tenant(&closed, "alice"), open, block) != 0;
    failed += told(&core, bob, arena(&closed, "main"), block) != 0;
    for (uint32_t segment = 1; segment < 300; segment++) {
        failed += told_by(holder(&core, segment), &core, alice, open, block) != 0;
        failed += hg_charge(&core, holder(&core, segment), alice).value != 0;
    }
    failed += told_by(holder(&closed, 0), &core, alice, open, block) != 0;
    failed += hg_charge(&closed, WORKER, alice).value != 0;
    for (uint32_t at = 0; at < WORDS; at++)
        failed += hg_read(&core, WORKER, alice, block, at).value != at + 100;
    failed += hg_free(&core, WORKER, alice, block).status != HG_DONE;
    drop(hg_close(&core));
    printf("careless: %u of it told something, or touched another's\n", failed);
    return failed != 0;
}
