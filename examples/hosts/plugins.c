/* A host of two plug-ins, each a tenant. A plug-in is given three calls for its blocks and never
 * says who it is: the host does. What one of them tries on the other's blocks is answered, and
 * told here.
 */
#include "heapguard.h"
#include <inttypes.h>
#include <stdio.h>
#include <string.h>

enum { WORKER = 0, MAIN_ARENA = 0 };

static const char POLICY[] =
    "version = 1\n"
    "workers = 1\n"
    "tenant = [ {name = \"maps\", limit = 8192}, {name = \"chat\", limit = 128} ]\n"
    "arena = [ {name = \"main\", segments = 1} ]\n"
    "grant = [ {owner = \"maps\", to = \"chat\", rights = [\"list\"]} ]\n";

/* What a plug-in has. Who it is, is the host's word. */
struct plugin {
    hg_core *core;
    uint32_t tenant;
    const char *name;
};

static void tell(const struct plugin *plugin, const char *what, hg_reply reply)
{
    printf("%s %-33s %s", plugin->name, what, hg_status_text(reply.status));
    if (reply.status == HG_BLOCK || reply.status == HG_LISTED)
        printf(" @%" PRIu32 ".%" PRIu32 ".%" PRIu32 ".%" PRIu32, hg_segment_of(reply.value),
               hg_page_of(reply.value), hg_index_of(reply.value), hg_generation_of(reply.value));
    else if (reply.status == HG_VALUE)
        printf(" %" PRIu64, reply.value);
    else if (reply.status == HG_STALE)
        printf(", generation %" PRIu32 " is there", reply.detail);
    printf("\n");
}

static hg_handle alloc(const struct plugin *plugin, const char *what, uint64_t bytes)
{
    hg_reply reply = hg_alloc(plugin->core, WORKER, plugin->tenant, MAIN_ARENA, bytes);
    tell(plugin, what, reply);
    return reply.status == HG_BLOCK ? reply.value : 0;
}

static void release(const struct plugin *plugin, const char *what, hg_handle block)
{
    tell(plugin, what, hg_free(plugin->core, WORKER, plugin->tenant, block));
}

static void get(const struct plugin *plugin, const char *what, hg_handle block, uint32_t index)
{
    tell(plugin, what, hg_read(plugin->core, WORKER, plugin->tenant, block, index));
}

static void put(const struct plugin *plugin, const char *what, hg_handle block, uint32_t index,
                uint64_t value)
{
    tell(plugin, what, hg_write(plugin->core, WORKER, plugin->tenant, block, index, value));
}

/* A plug-in at work on a block of its own, whose handle leaks to the other. */
static hg_handle draw_maps(const struct plugin *maps)
{
    hg_handle tile = alloc(maps, "asks for 24 bytes", 24);
    put(maps, "writes word 1 of it", tile, 1, 42);
    get(maps, "reads word 1 of it", tile, 1);
    get(maps, "reads a word past its end", tile, 3);
    return tile;
}

/* The other one, which has that handle and tries what it can. */
static void meddle(const struct plugin *chat, hg_handle tile)
{
    hg_handle own = alloc(chat, "asks for 64 bytes", 64);
    get(chat, "reads the block of maps", tile, 1);
    put(chat, "writes it", tile, 1, 7);
    release(chat, "frees it", tile);
    tell(chat, "lists its place, which is granted",
         hg_look(chat->core, WORKER, chat->tenant, hg_place_of(tile)));
    get(chat, "guesses the next generation", tile + 1, 1);
    get(chat, "guesses the place beside it",
        hg_handle_of(hg_segment_of(tile), hg_page_of(tile), hg_index_of(tile) + 1, 1), 0);
    get(chat, "forges a handle of segment 63", hg_handle_of(63, 15, 511, 1), 0);
    release(chat, "forges a word of its own", UINT64_C(0xdeadbeefdeadbeef));
    release(chat, "frees nothing", 0);
    alloc(chat, "asks for more than its limit", 65);
    release(chat, "frees its own block", own);
    release(chat, "frees it again", own);
    own = alloc(chat, "asks for 64 bytes again", 64);
    get(chat, "reads its own block, which is new", own, 0);
}

/* A plug-in goes: the host frees, in its name, all blocks of its own. */
static void unload(const struct plugin *plugin)
{
    hg_reply freed = hg_free_all(plugin->core, WORKER, plugin->tenant, plugin->tenant);
    printf("%s goes, and leaves %" PRIu64 " blocks\n", plugin->name, freed.value);
}

static int load(struct plugin *plugin, hg_core *core, const char *name)
{
    hg_reply reply = hg_tenant(core, name, strlen(name));
    plugin->core = core;
    plugin->tenant = (uint32_t)reply.value;
    plugin->name = name;
    return reply.status == HG_VALUE;
}

int main(void)
{
    hg_core core = HG_CORE_INIT;
    char room[256];
    hg_reply opened = hg_open(&core, POLICY, sizeof POLICY - 1, room, sizeof room);
    if (opened.status != HG_DONE) {
        fprintf(stderr, "%.*s\n", (int)opened.value, room);
        return 1;
    }
    struct plugin maps, chat, news;
    if (!load(&maps, &core, "maps") || !load(&chat, &core, "chat")) return 1;
    printf("news %s\n", load(&news, &core, "news") ? "is loaded" : "is refused: no tenant's name");
    if (hg_refill(&core, WORKER, MAIN_ARENA).status != HG_REFILLED) return 1;

    hg_handle tile = draw_maps(&maps);
    meddle(&chat, tile);
    unload(&chat);
    get(&maps, "reads word 1 of its block still", tile, 1);
    unload(&maps);
    get(&maps, "reads it once more", tile, 1);

    if (hg_close(&core).status != HG_DONE) return 1;
    tell(&maps, "asks after the end", hg_alloc(&core, WORKER, maps.tenant, MAIN_ARENA, 8));
    return 0;
}
