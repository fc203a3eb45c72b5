/* served POLICY: serves lines by the workers of a service, and then by the core that it closes into, and
 * prints what each is answered: its status in words, and whatever of the reply isn't 0. A line is an
 * event of a trace, without labels, or one of these, of worker 0:
 *
 *   w0 comes            the worker is taken          w0 list alice 5     with room for so many rows
 *   w0 leave            and w0 leave_now, w0 drop    w0 number           and w0 hand, w0 holds 3
 *   w0 closes           the service is to close      w0 given_up         the service is dropped
 *   w0 workers          and w0 segments, of the service
 *
 * tools/served_cases makes such lines, and says what each is to be answered.
 */
#include "heapguard_service.h"
#include "printed.h"
#include <stdlib.h>
#include <string.h>

enum { WORKERS = 16, WORDS = 6, ROOM = 65536, POLICY = 65536 };

/* The words of a line: the worker, the command, and what it names. */
typedef struct line {
    uint32_t worker;
    const char *words[WORDS];
} line;

static hg_service service = HG_SERVICE_INIT;
static hg_worker workers[WORKERS];
static hg_core core = HG_CORE_INIT;
static int has_closed;
static hg_reply rows[ROOM + 1];

static hg_worker *worker_of(const line *it)
{
    static hg_worker none = HG_WORKER_INIT;
    return it->worker < WORKERS ? &workers[it->worker] : &none;
}

static uint64_t number(const line *it, unsigned at) { return strtoull(it->words[at], NULL, 10); }
static uint32_t short_number(const line *it, unsigned at) { return (uint32_t)number(it, at); }

/* The number of a tenant, or of an arena; one that nothing has where there is no such name. */
static uint32_t tenant(const line *it, unsigned at)
{
    const char *name = it->words[at];
    return (uint32_t)(has_closed ? hg_tenant(&core, name, strlen(name))
                                 : hg_service_tenant(&service, name, strlen(name))).value;
}

static uint32_t arena(const line *it, unsigned at)
{
    const char *name = it->words[at];
    return (uint32_t)(has_closed ? hg_arena(&core, name, strlen(name))
                                 : hg_service_arena(&service, name, strlen(name))).value;
}

static hg_handle block(const line *it, unsigned at)
{
    unsigned segment, page, index, generation;
    if (sscanf(it->words[at], "@%u.%u.%u.%u", &segment, &page, &index, &generation) != 4) return 0;
    return hg_handle_of(segment, page, index, generation);
}

static uint32_t place(const line *it, unsigned at)
{
    unsigned segment, page, index;
    if (sscanf(it->words[at], "%u.%u.%u", &segment, &page, &index) != 3) return UINT32_MAX;
    return segment * 8192 + page * 512 + index;
}

/* The ten events, by a worker or by the core, and a question that both are asked. */
#define EVENT(called, name, ...)                                      \
    static hg_reply called(const line *it)                            \
    {                                                                 \
        return has_closed ? hg_##name(&core, it->worker, __VA_ARGS__) \
                          : hg_worker_##name(worker_of(it), __VA_ARGS__); \
    }
EVENT(alloc, alloc, tenant(it, 2), arena(it, 3), number(it, 4))
EVENT(frees, free, tenant(it, 2), block(it, 3))
EVENT(take, take, short_number(it, 2))
EVENT(read_word, read, tenant(it, 2), block(it, 3), short_number(it, 4))
EVENT(write_word, write, tenant(it, 2), block(it, 3), short_number(it, 4), number(it, 5))
EVENT(look, look, tenant(it, 2), place(it, 3))
EVENT(abandon, abandon, short_number(it, 2))
EVENT(refill, refill, arena(it, 2))
EVENT(holds, holds, short_number(it, 2))

static hg_reply deliver(const line *it)
{
    return has_closed ? hg_deliver(&core, it->worker) : hg_worker_deliver(worker_of(it));
}

static hg_reply collect(const line *it)
{
    return has_closed ? hg_collect(&core, it->worker) : hg_worker_collect(worker_of(it));
}

/* What is asked of a worker, and of the service. */
static hg_reply number_of(const line *it) { return hg_worker_number(worker_of(it)); }
static hg_reply hand(const line *it) { return hg_worker_hand(worker_of(it)); }
static hg_reply leave(const line *it) { return hg_worker_leave(worker_of(it)); }
static hg_reply leave_now(const line *it) { return hg_worker_leave_now(worker_of(it)); }
static hg_reply drop(const line *it) { return hg_worker_drop(worker_of(it)); }
static hg_reply given_up(const line *it) { return (void)it, hg_service_drop(&service); }
static hg_reply count(const line *it) { return (void)it, hg_service_workers(&service); }
static hg_reply segments(const line *it) { return (void)it, hg_service_segments(&service); }

static hg_reply comes(const line *it)
{
    return hg_service_worker(&service, it->worker, worker_of(it));
}

static hg_reply closes(const line *it)
{
    hg_reply told = ((void)it, hg_service_close(&service, &core));
    has_closed = has_closed || told.status == HG_DONE;
    return told;
}

static void put(hg_reply reply)
{
    if (reply.status == HG_LISTED) {
        put_handle(stdout, reply.value);
        printf(" %u %u\n", (unsigned)reply.owner, (unsigned)reply.detail);
        return;
    }
    fputs(hg_status_text(reply.status), stdout);
    if (reply.status == HG_BLOCK) {
        putchar(' ');
        put_handle(stdout, reply.value);
        reply.value = 0;
    } else if (reply.status == HG_STALE) {
        printf(" %" PRIu32, reply.detail);
        reply.detail = 0;
    } else if ((reply.status >= HG_VALUE && reply.status <= HG_REFILLED)
               || (reply.status >= HG_STILL_OUT && reply.status <= HG_LOST)) {
        printf(" %" PRIu64, reply.value);
        reply.value = 0;
    }
    if (reply.owner || reply.detail || reply.value)
        printf(" and owner %u, detail %" PRIu32 ", value %" PRIu64, (unsigned)reply.owner,
               reply.detail, reply.value);
    putchar('\n');
}

/* The rows that are there, as many as have room; and whether what is behind them stays. */
static void put_list(const line *it)
{
    size_t count = (size_t)number(it, 3), shown, behind;
    if (count > ROOM) exit(2);
    memset(rows, 0x5a, sizeof rows);
    hg_reply told = hg_worker_list(worker_of(it), tenant(it, 2), rows, count);
    if (told.status != HG_DONE) {
        put(told);
        return;
    }
    shown = told.value < count ? (size_t)told.value : count;
    for (size_t at = 0; at < shown; at++) put(rows[at]);
    for (behind = shown; behind <= count && rows[behind].value == UINT64_C(0x5a5a5a5a5a5a5a5a);)
        behind++;
    printf("rows %" PRIu64 "%s\n", told.value, behind > count ? "" : ", and one behind them");
}

static const struct {
    const char *name;
    unsigned words;
    hg_reply (*call)(const line *it);
} COMMANDS[] = {
    {"alloc", 5, alloc},        {"free", 4, frees},         {"deliver", 2, deliver},
    {"take", 3, take},          {"collect", 2, collect},    {"read", 5, read_word},
    {"write", 6, write_word},   {"look", 4, look},          {"abandon", 3, abandon},
    {"refill", 3, refill},      {"holds", 3, holds},        {"number", 2, number_of},
    {"hand", 2, hand},          {"leave", 2, leave},        {"leave_now", 2, leave_now},
    {"drop", 2, drop},          {"comes", 2, comes},        {"given_up", 2, given_up},
    {"closes", 2, closes},      {"workers", 2, count},      {"segments", 2, segments},
};

static int is_served(const line *it, unsigned words)
{
    for (size_t at = 0; at < sizeof COMMANDS / sizeof *COMMANDS; at++)
        if (words == COMMANDS[at].words && strcmp(it->words[1], COMMANDS[at].name) == 0) {
            put(COMMANDS[at].call(it));
            return 1;
        }
    if (words != 4 || strcmp(it->words[1], "list") != 0) return 0;
    put_list(it);
    return 1;
}

/* Whether all lines were understood. */
static int are_served(void)
{
    char text[256];
    while (fgets(text, sizeof text, stdin)) {
        line it = {0, {NULL}};
        unsigned words = 0;
        for (char *word = strtok(text, " \n"); word && words < WORDS; word = strtok(NULL, " \n"))
            it.words[words++] = word;
        if (words < 2 || sscanf(it.words[0], "w%" SCNu32, &it.worker) != 1) return 0;
        if (!is_served(&it, words)) return 0;
    }
    return 1;
}

/* Whether there is nothing left but what there was at first. */
static int is_dropped(hg_reply told) { return told.status == HG_DONE || told.status == HG_CLOSED; }

int main(int arguments, char **names)
{
    static char policy[POLICY];
    FILE *file = arguments == 2 ? fopen(names[1], "rb") : NULL;
    if (!file) return 2;
    size_t length = fread(policy, 1, sizeof policy, file);
    fclose(file);
    if (hg_service_open(&service, policy, length, NULL, 0).status != HG_DONE || !are_served())
        return 2;
    int all = is_dropped(hg_service_drop(&service)) && is_dropped(hg_close(&core));
    for (unsigned n = 0; n < WORKERS; n++) all = is_dropped(hg_worker_drop(&workers[n])) && all;
    return all ? 0 : 1;
}
