/* An input is the text of a policy. Where a core opens by it, the numbers that it tells agree with
 * one another, and each tenant may do with its own blocks what a tenant may. Else the room has the
 * line of a fault: its number is the status's, it is one line, and a shorter room has the front of
 * it.
 */
#include "fuzz.h"
#include <string.h>

enum { LINE = 4096, NAME = 16, TENANTS = 64, ARENAS = 16, STRANGER = 255 };

static hg_core core = HG_CORE_INIT;

static int is_name(const char *name, uint64_t length)
{
    if (length < 1 || length > NAME || *name < 'a' || *name > 'z') return 0;
    for (uint64_t at = 0; at < length; at++) {
        if (!name[at] || !strchr("abcdefghijklmnopqrstuvwxyz0123456789_-", name[at])) return 0;
    }
    return 1;
}

/* How many tenants there are, each found by its name. */
static uint32_t tenants(void)
{
    for (uint32_t tenant = 0;; tenant++) {
        char name[NAME];
        hg_reply told = hg_tenant_name(&core, tenant, name, sizeof name);
        if (told.status == HG_NO_NAME) return tenant;
        CHECK(told.status == HG_VALUE && tenant < TENANTS && is_name(name, told.value));
        hg_reply found = hg_tenant(&core, name, told.value);
        CHECK(found.status == HG_VALUE && found.value == tenant);
    }
}

/* Worker 0 takes all segments, arena by arena, each the next. */
static void refill_all(uint64_t segments)
{
    uint64_t next = 0;
    for (uint32_t arena = 0; arena < ARENAS; arena++) {
        hg_reply told;
        while ((told = hg_refill(&core, 0, arena)).status == HG_REFILLED)
            CHECK(told.value == next++);
        CHECK(told.status == HG_NO_SEGMENT);
    }
    CHECK(next == segments);
}

/* A tenant's own block is read and written by it, freed once, and never by a stranger. */
static void use_own(uint32_t tenant, uint32_t arena)
{
    hg_reply block = hg_alloc(&core, 0, tenant, arena, 8);
    note(block.status);
    if (block.status != HG_BLOCK) {
        CHECK(block.status == HG_FOREIGN_ARENA || block.status == HG_OVER_LIMIT
              || block.status == HG_NO_ROOM);
        return;
    }
    CHECK(hg_charge(&core, 0, tenant).value == 8);
    CHECK(hg_read(&core, 0, tenant, block.value, 0).value == 0);
    CHECK(hg_write(&core, 0, tenant, block.value, 0, 7).status == HG_DONE);
    CHECK(hg_read(&core, 0, tenant, block.value, 0).value == 7);
    CHECK(hg_read(&core, 0, tenant, block.value, 1).status == HG_OUT_OF_BLOCK);
    CHECK(hg_free(&core, 0, STRANGER, block.value).status == HG_STRANGER);
    hg_reply row = hg_look(&core, 0, tenant, hg_place_of(block.value));
    CHECK(row.status == HG_LISTED && row.owner == tenant && row.value == block.value);
    CHECK(hg_free(&core, 0, tenant, block.value).status == HG_DONE);
    CHECK(hg_free(&core, 0, tenant, block.value).status == HG_ALREADY_FREED);
    CHECK(hg_charge(&core, 0, tenant).value == 0);
}

static void opened(void)
{
    hg_reply workers = hg_workers(&core), segments = hg_segments(&core);
    CHECK(workers.status == HG_VALUE && workers.value >= 1 && workers.value <= 16);
    CHECK(segments.status == HG_VALUE && segments.value <= 64);
    uint32_t count = tenants();
    note(256 + (uint32_t)workers.value);
    note(512 + (uint32_t)segments.value);
    note(768 + count);
    refill_all(segments.value);
    for (uint32_t arena = 0; arena <= ARENAS; arena++) {
        CHECK(hg_alloc(&core, 0, STRANGER, arena, 8).status == HG_STRANGER);
        for (uint32_t tenant = 0; tenant < count; tenant++) use_own(tenant, arena);
    }
    CHECK(hg_deliver(&core, (uint32_t)workers.value).status == HG_NO_WORKER);
    CHECK(hg_close(&core).status == HG_DONE);
}

/* Whether three bytes end with a control character, or with one that breaks a line or turns the
 * direction of writing. */
static int ends_badly(uint32_t three)
{
    uint32_t two = three & 0xffff, one = three & 0xff;
    return one < 0x20 || one == 0x7f || (two >= 0xc280 && two <= 0xc29f) || two == 0xd89c
        || (three >= 0xe2808e && three <= 0xe2808f) || (three >= 0xe280a8 && three <= 0xe280ae)
        || (three >= 0xe281a6 && three <= 0xe281a9);
}

static int is_one_line(const char *line, uint64_t length)
{
    uint32_t three = 0;
    for (uint64_t at = 0; at < length; at++) {
        three = (three << 8 | (uint8_t)line[at]) & 0xffffff;
        if (ends_badly(three)) return 0;
    }
    return 1;
}

/* A number for the fault, by its word where that is one of the format's and not the input's. */
static uint32_t told_apart(hg_reply told, const char *line)
{
    uint32_t hash = told.status;
    if (hash != HG_MISSING && hash != HG_KIND && hash != HG_TOO_MANY) return hash;
    for (uint64_t at = 0; at < told.value; at++) hash = 31 * hash + (uint8_t)line[at];
    return hash;
}

static void refused(const char *text, size_t length, hg_reply told, const char *line)
{
    char front[32], shorter[LINE];
    CHECK(told.status >= HG_NOT_TOML && told.status <= HG_VERSION);
    int begins = snprintf(front, sizeof front, "policy fault %d: ", told.status - HG_NOT_TOML + 1);
    CHECK(told.value > (uint64_t)begins && told.value <= LINE);
    CHECK(memcmp(line, front, (size_t)begins) == 0 && is_one_line(line, told.value));
    note(told_apart(told, line));
    size_t room = length % (told.value + 1);
    hg_reply again = hg_open(&core, text, length, shorter, room);
    CHECK(again.status == told.status && again.value == room);
    CHECK(memcmp(line, shorter, room) == 0);
    CHECK(hg_close(&core).status == HG_CLOSED);
}

int LLVMFuzzerTestOneInput(const uint8_t *bytes, size_t length)
{
    static char line[LINE];
    const char *text = (const char *)bytes;
    hg_reply told = hg_open(&core, text, length, line, sizeof line);
    if (told.status == HG_DONE) opened();
    else refused(text, length, told, line);
    return 0;
}
