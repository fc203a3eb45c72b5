// The allocs and frees of a trace by tools/from_mtrace on one allocator: with -DHEAPGUARD a core of
// heapguard's library, of as many segments as the trace has refills; with -DMIMALLOC mimalloc, else
// glibc. With -DZEROED blocks come from calloc; those of a core always read as zeros.
//     real FOLDER CASE THREADS MS [OPS]
// runs FOLDER/CASE.trace again and again, and prints the line that bench/core prints: an operation is
// an alloc or a free, and what lives at the end of the trace is freed too. No block is written.
//     real FOLDER CASE memory
// runs it once, writes each word of each block, and prints the bytes that were asked for at the peak,
// and how many more than before the first block the process had written at its own, in pages of 4 KiB.
#define _GNU_SOURCE
#include <stdbool.h>
#include <stdint.h>
#include <stdio.h>
#include <stdlib.h>
#include <string.h>
#include <sys/prctl.h>
#include <time.h>
#ifdef HEAPGUARD
#include "heapguard.h"
#define ALLOCATOR "heapguard"
#elif defined MIMALLOC
#include <mimalloc.h>
#define ALLOCATOR "mimalloc"
#define OF(call) mi_##call
#else
#define ALLOCATOR "glibc"
#define OF(call) call
#endif
#ifdef ZEROED
#define NAME_OF ALLOCATOR "-zeroed"
#define GIVE(size) OF(calloc)(1, size)
#else
#define NAME_OF ALLOCATOR
#define GIVE(size) OF(malloc)(size)
#endif

static void stop(const char *what) {
    fprintf(stderr, "real: %s\n", what);
    exit(1);
}

// ---- the allocator

#ifdef HEAPGUARD
typedef hg_handle block_of;
static hg_core core = HG_CORE_INIT;

static bool is_given(hg_handle block) { return block != 0; }

static hg_handle give(size_t size) {
    hg_reply reply = hg_alloc(&core, 0, 0, 0, size);
    return reply.status == HG_BLOCK ? reply.value : 0;
}

static void take(hg_handle block) {
    if (hg_free(&core, 0, 0, block).status != HG_DONE) stop("a free isn't served");
}

static void fill(hg_handle block, size_t size) {
    for (uint32_t word = 0; word < size / 8; word++) {
        if (hg_write(&core, 0, 0, block, word, word).status != HG_DONE) stop("a write isn't served");
    }
}

static void open_it(unsigned segments) {
    char policy[200], line[200];
    int length = snprintf(policy, sizeof policy,
                          "version = 1\nworkers = 1\n"
                          "tenant = [ {name = \"program\", limit = 4294967295} ]\n"
                          "arena = [ {name = \"main\", segments = %u} ]\n", segments);
    hg_reply reply = hg_open(&core, policy, (size_t)length, line, sizeof line);
    if (reply.status != HG_DONE) stop("no core");
    while (segments--)
        if (hg_refill(&core, 0, 0).status != HG_REFILLED) stop("no segment");
}

#else
typedef uint64_t *block_of;

static bool is_given(uint64_t *block) { return block != NULL; }

static uint64_t *give(size_t size) { return GIVE(size); }

static void take(uint64_t *block) { OF(free)(block); }

static void fill(uint64_t *block, size_t size) {
    for (size_t word = 0; word < size / 8; word++) ((volatile uint64_t *)block)[word] = word;
}

static void open_it(unsigned segments) { (void)segments; }
#endif

// ---- the trace

struct step {
    uint32_t label;  // from 1
    uint32_t size;   // of an alloc
    bool is_alloc;
};

static struct step *steps;
static size_t count, allocs;
static unsigned segments;
static block_of *live;

// A room of this program's own, all pages of which are written now.
static void *room_of(size_t bytes) {
    char *room = calloc(bytes, 1);
    if (!room) stop("no memory");
    for (size_t at = 0; at < bytes; at += 4096) ((volatile char *)room)[at] = 0;
    return room;
}

// Labels are numbered behind what the first one begins with.
static void read_trace(const char *folder, const char *name) {
    char path[4096], line[100], label[17];
    unsigned size;
    size_t front = 0, lines = 0;
    snprintf(path, sizeof path, "%s/%s.trace", folder, name);
    FILE *file = fopen(path, "r");
    if (!file) stop("no such trace");
    while (fgets(line, sizeof line, file)) lines++;
    steps = room_of((lines + 1) * sizeof *steps);
    rewind(file);
    while (fgets(line, sizeof line, file)) {
        bool is_alloc = sscanf(line, "w0 alloc %*s %*s %u as %16s", &size, label) == 2;
        if (!is_alloc && sscanf(line, "w0 free %*s %16s", label) != 1) {
            bool is_refill = !strncmp(line, "w0 refill ", 10);
            if (!is_refill && strcmp(line, "w0 collect\n")) stop("no such line");
            segments += is_refill;
            continue;
        }
        if (!front) front = strlen(label) - 1;
        uint32_t number = (uint32_t)strtoul(label + front, NULL, 10);
        allocs += is_alloc;
        if (!number || number > allocs) stop("no label of from_mtrace");
        steps[count++] = (struct step){number, is_alloc ? size : 0, is_alloc};
    }
    fclose(file);
    live = room_of((allocs + 1) * sizeof *live);
}

static void serve(const struct step *step) {
    if (step->is_alloc) {
        live[step->label] = give(step->size);
        if (!is_given(live[step->label])) stop("an alloc isn't served");
    } else {
        take(live[step->label]);
        live[step->label] = 0;
    }
}

// ---- its time

static uint64_t now(void) {
    struct timespec time;
    clock_gettime(CLOCK_THREAD_CPUTIME_ID, &time);
    return (uint64_t)time.tv_sec * 1000000000u + (uint64_t)time.tv_nsec;
}

static void run_once(const uint32_t *left, size_t leftover) {
    for (size_t at = 0; at < count; at++) serve(&steps[at]);
    for (size_t at = 0; at < leftover; at++) {
        take(live[left[at]]);
        live[left[at]] = 0;
    }
}

static void run(const char *name, uint64_t span, uint64_t ops) {
    uint32_t *left = room_of((allocs + 1) * sizeof *left);
    size_t leftover = 0;
    for (size_t at = 0; at < count; at++) serve(&steps[at]);
    for (uint32_t label = 1; label <= allocs; label++) {
        if (!is_given(live[label])) continue;
        left[leftover++] = label;
        take(live[label]);
        live[label] = 0;
    }
    uint64_t done = 0, start = now(), spent = 0;
    do {
        run_once(left, leftover);
        done += count + leftover;
        spent = now() - start;
    } while (ops ? done < ops : spent < span);
    printf("%s %s 1 %.2f %llu\n", NAME_OF, name, (double)spent / (double)done,
           (unsigned long long)done);
}

// ---- its memory

// Bytes of private pages that the process has written.
static size_t written(void) {
    static char buffer[4096];
    FILE *file = fopen("/proc/self/smaps_rollup", "r");
    unsigned long kib, found = 0;
    if (!file) stop("no /proc/self/smaps_rollup");
    setvbuf(file, buffer, _IOFBF, sizeof buffer);
    char line[200];
    while (fgets(line, sizeof line, file)) {
        if (sscanf(line, "Private_Dirty: %lu kB", &kib) == 1) found = kib;
    }
    fclose(file);
    return found * 1024;
}

static void tell_memory(const char *name) {
    size_t asked = 0, most_asked = 0, most = 0, told = 0;
    size_t *size = room_of((allocs + 1) * sizeof *size);
    written();
    size_t before = written();
    open_it(segments);
    for (size_t at = 0; at < count; at++) {
        const struct step *step = &steps[at];
        serve(step);
        if (step->is_alloc) fill(live[step->label], size[step->label] = step->size);
        asked += step->is_alloc ? step->size : -size[step->label];
        // Where more is asked for than ever before, and now and then.
        bool is_high = asked > most_asked + most_asked / 256;
        if (asked > most_asked) most_asked = asked;
        if (!is_high && at - told < count / 400 && at + 1 < count) continue;
        told = at;
        size_t is = written() - before;
        if (is > most) most = is;
    }
    printf("%s %s %zu %zu\n", NAME_OF, name, most_asked, most);
}

int main(int words, char **word) {
    if (words < 4) {
        fputs("usage: real FOLDER CASE THREADS MS [OPS] | real FOLDER CASE memory\n", stderr);
        return 2;
    }
    // With pages of 2 MiB no allocator's own would show.
    prctl(PR_SET_THP_DISABLE, 1, 0, 0, 0);
    read_trace(word[1], word[2]);
    if (!strcmp(word[3], "memory")) return tell_memory(word[2]), 0;
    if (words < 5) return 2;
    open_it(segments);
    run(word[2], strtoull(word[4], NULL, 10) * 1000000u, words > 5 ? strtoull(word[5], NULL, 10) : 0);
    return 0;
}
