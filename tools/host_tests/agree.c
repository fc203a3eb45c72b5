/* agree EVENTS SEED FOLDER: gives seeded events to the library, and writes them as a policy, a
 * trace and the library's answers in heapguard's words, for `heapguard replay` to be compared
 * with. It fails where a status never was answered, where an event asked for memory or gave some
 * back, or where after one the core told another holder of a segment, or another charge, than the
 * answers before add up to.
 */
#include "heapguard.h"
#include "counted.h"
#include "holding.h"
#include "printed.h"
#include "seeded.h"
#include <stdlib.h>
#include <string.h>

enum { WORKERS = 4, TENANTS = 3, ARENAS = 2, SEGMENTS = 6, KEPT = 256, STATUSES = 80 };

static const char POLICY[] =
    "version = 2\n"
    "workers = 4\n"
    "max_generation = 12\n"
    "tenant = [ {name = \"ann\", limit = 20000}, {name = \"bob\", limit = 60000},\n"
    "           {name = \"cy\", limit = 600} ]\n"
    "arena = [ {name = \"main\", segments = 5},\n"
    "          {name = \"vault\", segments = 1, exclusive = [\"ann\"]} ]\n"
    "group = [ {name = \"staff\", members = [\"bob\", \"cy\"]} ]\n"
    "grant = [ {owner = \"ann\", to = \"bob\", rights = [\"read\", \"free\"]},\n"
    "          {owner = \"bob\", to = \"cy\", rights = [\"write\", \"list\"]} ]\n"
    "deny = [ {owner = \"ann\", to = \"bob\", rights = [\"free\"]},\n"
    "         {owner = \"staff\", to = \"staff\", rights = [\"read\", \"list\"]} ]\n";

/* The last of each is nobody's name, which the trace reads as the number 255. */
static const char *const ACTORS[] = {"ann", "bob", "cy", "eve"};
static const char *const ARENA_NAMES[] = {"main", "vault", "attic"};

static hg_core core = HG_CORE_INIT;
static hg_handle kept[KEPT]; /* handles that were given out, freed ones among them */
static uint32_t count;
static unsigned long answered[STATUSES];
static FILE *trace, *answers;

static uint32_t number(uint32_t at, uint32_t known) { return at < known ? at : 255; }

static void note_answer(hg_reply reply)
{
    answered[reply.status % STATUSES]++;
    if (reply.status == HG_BLOCK) kept[count++ % KEPT] = reply.value;
    put_answer(answers, &core, reply);
}

/* One that was given out, or now and then one that was guessed. */
static hg_handle some_block(void)
{
    uint32_t known = count < KEPT ? count : KEPT;
    if (known == 0 || below(20) == 0)
        return hg_handle_of(below(64), below(16), below(512), 1 + below(3));
    hg_handle block = kept[below(known)];
    return below(20) ? block : block + 1;
}

static uint64_t some_bytes(void)
{
    switch (below(20)) {
    case 0: return next();
    case 1: return below(5000);
    case 2: return below(70000);
    default: return below(200);
    }
}

/* A word of most blocks, of the largest, or now and then of none. */
static uint32_t some_index(void)
{
    switch (below(20)) {
    case 0: return (uint32_t)next();
    case 1: return below(8200);
    default: return below(4);
    }
}

static hg_reply on_block(unsigned w, unsigned what)
{
    uint32_t at = below(TENANTS + 1), index = some_index();
    uint32_t actor = number(at, TENANTS);
    hg_handle block = some_block();
    uint64_t value = next();
    if (what == 3) {
        fprintf(trace, "w%u look %s %" PRIu32 ".%" PRIu32 ".%" PRIu32 "\n", w, ACTORS[at],
                hg_segment_of(block), hg_page_of(block), hg_index_of(block));
        return hg_look(&core, w, actor, hg_place_of(block));
    }
    static const char *const VERBS[] = {"free", "read", "write"};
    fprintf(trace, "w%u %s %s ", w, VERBS[what], ACTORS[at]);
    put_handle(trace, block);
    switch (what) {
    case 0:
        fputc('\n', trace);
        return freed(w, block, hg_free(&core, w, actor, block));
    case 1:
        fprintf(trace, " %" PRIu32 "\n", index);
        return hg_read(&core, w, actor, block, index);
    default:
        fprintf(trace, " %" PRIu32 " %" PRIu64 "\n", index, value);
        return hg_write(&core, w, actor, block, index, value);
    }
}

static hg_reply on_segment(unsigned w, unsigned what)
{
    uint32_t segment = below(20) ? below(SEGMENTS) : below(64);
    fprintf(trace, "w%u %s %" PRIu32 "\n", w, what ? "take" : "abandon", segment);
    return what ? taken(segment, hg_take(&core, w, segment))
                : abandoned(segment, hg_abandon(&core, w, segment));
}

static hg_reply some_event(void)
{
    unsigned w = below(WORKERS), kind = below(100);
    if (kind < 25) {
        uint32_t actor = below(TENANTS + 1), arena = below(20) ? 0 : below(ARENAS + 1);
        uint64_t bytes = some_bytes();
        fprintf(trace, "w%u alloc %s %s %" PRIu64 "\n", w, ACTORS[actor], ARENA_NAMES[arena],
                bytes);
        actor = number(actor, TENANTS);
        return given(actor, bytes, hg_alloc(&core, w, actor, number(arena, ARENAS), bytes));
    }
    if (kind < 50) return on_block(w, 0);
    if (kind < 62) return on_block(w, 1);
    if (kind < 74) return on_block(w, 2);
    if (kind < 80) return on_block(w, 3);
    if (kind < 86) {
        fprintf(trace, "w%u deliver\n", w);
        return delivered(w, hg_deliver(&core, w));
    }
    if (kind < 91) return on_segment(w, 1);
    if (kind < 92) return on_segment(w, 0);
    if (kind < 94) {
        fprintf(trace, "w%u collect\n", w);
        return hg_collect(&core, w);
    }
    uint32_t arena = below(10) ? 0 : below(ARENAS + 1);
    fprintf(trace, "w%u refill %s\n", w, ARENA_NAMES[arena]);
    return refilled(w, hg_refill(&core, w, number(arena, ARENAS)));
}

static FILE *made(const char *folder, const char *name)
{
    char path[4096];
    snprintf(path, sizeof path, "%s/%s", folder, name);
    FILE *file = fopen(path, "w");
    if (!file) {
        perror(path);
        exit(1);
    }
    return file;
}

int main(int words, char **word)
{
    if (words != 4) return 2;
    seed = strtoull(word[2], NULL, 10);
    FILE *policy = made(word[3], "policy");
    fputs(POLICY, policy);
    trace = made(word[3], "trace");
    answers = made(word[3], "answers");
    if (hg_open(&core, POLICY, sizeof POLICY - 1, NULL, 0).status != HG_DONE) return 1;
    unsigned long opened = asked;
    nobody_holds();
    unsigned wrong = 0;
    for (long left = strtol(word[1], NULL, 10); left > 0; left--) {
        note_answer(some_event());
        wrong += told_wrongly(&core, WORKERS, TENANTS, SEGMENTS);
    }
    wrong += wrongly_taken;
    int took = asked != opened;
    if (took) printf("agree: %lu requests for memory after the opening\n", asked - opened);
    wrong += hg_close(&core).status != HG_DONE;
    if (wrong) printf("agree: %u times another holder, charge, take or end\n", wrong);
    if (fclose(policy) | fclose(trace) | fclose(answers)) return 1;

    int missed = 0;
    for (unsigned status = HG_BLOCK; status <= HG_FORBIDDEN; status++) {
        const char *text = hg_status_text(status);
        if (strcmp(text, "unknown status") == 0) continue;
        if (status == HG_FULL) continue; /* of banks alone */
        if (status >= HG_AGAIN && status <= HG_LOST) continue; /* of services alone */
        if (!answered[status]) printf("never answered: %s (%u)\n", text, status);
        missed += !answered[status];
    }
    return missed || took || wrong;
}
