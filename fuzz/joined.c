/* An input is a policy, a line `---` and a trace. A reader of traces in C gives the library the
 * events that they mean, and writes what it answers. Where HEAPGUARD names the program, that is run
 * on the input too: its output, its line on standard error and its status have to be the same.
 */
#define _GNU_SOURCE
#include "fuzz.h"
#include "../bench/trace.h"
#include "../tools/host_tests/printed.h"
#include <spawn.h>
#include <sys/wait.h>
#include <unistd.h>

enum { LINE = 65536, LISTINGS = 8, NOBODY = 255, PLACES = 8192 };

extern char **environ;

/* An event and its line. */
struct asked {
    struct event event;
    unsigned long line;
};

static hg_core core = HG_CORE_INIT;
static struct asked *asked;
static size_t count, listings;
static hg_handle *given; /* by label; 0 where the allocation wasn't served */
static FILE *out, *err;

/* Reads the trace, and gives its first fault, with its line. */
static enum fault read_lines(const unsigned char *at, const unsigned char *end, unsigned long *line)
{
    struct text words[MOST_WORDS + 1];
    size_t room = 0, n;
    forget_labels();
    count = listings = 0;
    for (*line = 1; at < end; ++*line) {
        const unsigned char *stop = memchr(at, '\n', (size_t)(end - at));
        if (!stop) stop = end;
        enum fault fault = cut(at, stop, words, &n);
        if (!fault && n) {
            if (count == room) asked = grown(asked, (room = 2 * room + 64) * sizeof *asked);
            fault = event_in(words, n, &asked[count].event);
            listings += asked[count].event.command == LIST;
            asked[count++].line = *line;
        }
        if (fault) return fault;
        at = stop + 1;
    }
    return NONE;
}

static size_t name_length(const struct name *name)
{
    size_t length = 0;
    while (length < NAME && name->bytes[length]) length++;
    return length;
}

static uint32_t actor_of(const struct event *event)
{
    const struct name *name = &event->actor;
    return (uint32_t)hg_tenant(&core, (const char *)name->bytes, name_length(name)).value;
}

static uint32_t arena_of(const struct event *event)
{
    const struct name *name = &event->arena;
    return (uint32_t)hg_arena(&core, (const char *)name->bytes, name_length(name)).value;
}

static hg_handle handle_of(const struct block *block)
{
    const struct place *place = &block->place;
    if (block->by_label) return given[block->label];
    return hg_handle_of(place->segment, place->page, place->index, block->generation);
}

/* A row for each block that the actor may list, and how many these are. */
static void list(const struct event *event)
{
    unsigned long rows = 0;
    uint32_t actor = actor_of(event), segments = (uint32_t)hg_segments(&core).value;
    for (uint32_t place = 0; place < segments * PLACES; place++) {
        if (place % PLACES == 0 && !hg_holds(&core, event->worker, place / PLACES).value) {
            place += PLACES - 1;
            continue;
        }
        hg_reply reply = hg_look(&core, event->worker, actor, place);
        if (reply.status == HG_LISTED) {
            put_answer(out, &core, reply);
            rows++;
        }
    }
    fprintf(out, "rows %lu\n", rows);
}

static hg_reply on_block(const struct event *event, hg_handle block)
{
    uint32_t actor = actor_of(event);
    switch (event->command) {
    case FREE: return hg_free(&core, event->worker, actor, block);
    case READ: return hg_read(&core, event->worker, actor, block, event->index);
    default: return hg_write(&core, event->worker, actor, block, event->index, event->number);
    }
}

static hg_reply serve(const struct event *event)
{
    const struct place *place = &event->block.place;
    uint32_t worker = event->worker;
    switch (event->command) {
    case ALLOC: return hg_alloc(&core, worker, actor_of(event), arena_of(event), event->number);
    case DELIVER: return hg_deliver(&core, worker);
    case TAKE: return hg_take(&core, worker, event->segment);
    case COLLECT: return hg_collect(&core, worker);
    case LOOK:
        return hg_look(&core, worker, actor_of(event),
                       hg_place_of(hg_handle_of(place->segment, place->page, place->index, 1)));
    case ABANDON: return hg_abandon(&core, worker, event->segment);
    case REFILL: return hg_refill(&core, worker, arena_of(event));
    default: return on_block(event, handle_of(&event->block));
    }
}

static void answer(const struct event *event)
{
    int names_block = event->command == FREE || event->command == READ || event->command == WRITE;
    if (event->command == LIST) {
        list(event);
        return;
    }
    if (names_block && !handle_of(&event->block)) {
        fputs("unbound\n", out);
        return;
    }
    hg_reply reply = serve(event);
    CHECK(reply.status >= HG_BLOCK && reply.status <= HG_FORBIDDEN);
    note(256u * event->command + reply.status);
    if (event->command == ALLOC && event->block.by_label)
        given[event->block.label] = reply.status == HG_BLOCK ? reply.value : 0;
    put_answer(out, &core, reply);
}

/* The first line of a worker that the policy lacks, or 0. */
static unsigned long unknown_worker(void)
{
    for (size_t at = 0; at < count; at++) {
        if (asked[at].event.worker >= hg_workers(&core).value) return asked[at].line;
    }
    return 0;
}

/* The status with which heapguard ends on the trace, under the policy of the open core. */
static int run_trace(const unsigned char *trace, const unsigned char *end)
{
    unsigned long line;
    enum fault fault = read_lines(trace, end, &line);
    note(4096u + fault);
    if (fault) {
        fprintf(err, "trace fault %d at line %lu: %s\n", fault, line, FAULTS[fault]);
        return 2;
    }
    if ((line = unknown_worker())) {
        fprintf(err, "trace fault 6 at line %lu: worker\n", line);
        return 2;
    }
    given = grown(given, (labels + 1) * sizeof *given);
    memset(given, 0, (labels + 1) * sizeof *given);
    if (listings > LISTINGS) return 0; /* it takes long, and isn't answered here */
    for (size_t at = 0; at < count; at++) answer(&asked[at].event);
    return 0;
}

/* The same of all of the input. */
static int run(const unsigned char *input, size_t length)
{
    static char fault[LINE];
    const unsigned char *trace, *policy_end = mark_in(input, input + length, &trace);
    listings = 0;
    hg_reply told = hg_open(&core, (const char *)input, (size_t)(policy_end - input), fault, LINE);
    if (told.status != HG_DONE) {
        note(told.status);
        fprintf(err, "%.*s\n", (int)told.value, fault);
        return 1;
    }
    int status = run_trace(trace, input + length);
    CHECK(hg_close(&core).status == HG_DONE);
    return status;
}

/* A file without a name, made once and emptied for each input. */
static int emptied(FILE **file)
{
    if (!*file) *file = tmpfile();
    CHECK(*file && ftruncate(fileno(*file), 0) == 0 && lseek(fileno(*file), 0, SEEK_SET) == 0);
    return fileno(*file);
}

/* What the program wrote there is this text. */
static void is_written(FILE *file, const char *text, size_t length)
{
    char *written = grown(NULL, length + 1);
    CHECK(pread(fileno(file), written, length + 1, 0) == (ssize_t)length);
    CHECK(memcmp(written, text, length) == 0);
    free(written);
}

/* Runs the program on the input, and gives its status. */
static int run_program(const char *program, const uint8_t *input, size_t length, int files[3])
{
    char *words[] = {(char *)(uintptr_t)program, NULL};
    posix_spawn_file_actions_t actions;
    pid_t child;
    int ended;
    CHECK(write(files[0], input, length) == (ssize_t)length);
    CHECK(lseek(files[0], 0, SEEK_SET) == 0);
    CHECK(posix_spawn_file_actions_init(&actions) == 0);
    for (int at = 0; at < 3; at++)
        CHECK(posix_spawn_file_actions_adddup2(&actions, files[at], at) == 0);
    CHECK(posix_spawn(&child, program, &actions, NULL, words, environ) == 0);
    CHECK(waitpid(child, &ended, 0) == child && WIFEXITED(ended));
    posix_spawn_file_actions_destroy(&actions);
    return WEXITSTATUS(ended);
}

int LLVMFuzzerTestOneInput(const uint8_t *bytes, size_t length)
{
    static FILE *input, *output, *errors;
    char *text, *line;
    size_t text_length, line_length;
    out = open_memstream(&text, &text_length);
    err = open_memstream(&line, &line_length);
    CHECK(out && err);
    int status = run(bytes, length);
    CHECK(fclose(out) == 0 && fclose(err) == 0);
    const char *program = getenv("HEAPGUARD");
    if (program && listings <= LISTINGS) {
        int files[] = {emptied(&input), emptied(&output), emptied(&errors)};
        CHECK(run_program(program, bytes, length, files) == status);
        is_written(output, text, text_length);
        is_written(errors, line, line_length);
    }
    free(text);
    free(line);
    return 0;
}
