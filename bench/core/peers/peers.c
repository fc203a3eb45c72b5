// The cases of bench/core on an allocator of C: glibc's, or with -DMIMALLOC mimalloc's.
//     peers CASE THREADS MS [OPS]
// prints the line that bench/core prints. With -DMEMSET it has the cases of large blocks alone: the
// same room is cleared again and again. What is freed elsewhere is freed by a second thread, and
// neither thread's waiting is counted: a batch is given out by one and freed by the other.
#define _GNU_SOURCE
#include <pthread.h>
#include <sched.h>
#include <stdatomic.h>
#include <stdbool.h>
#include <stdint.h>
#include <stdio.h>
#include <stdlib.h>
#include <string.h>
#include <time.h>
#include <unistd.h>
#ifdef MIMALLOC
#include <mimalloc.h>
#define NAME "mimalloc"
#define GIVE mi_malloc
#define CLEAR(size) mi_calloc(1, size)
#define FREE mi_free
#elif defined MEMSET
#define NAME "memset"
#define GIVE malloc
#define CLEAR(size) memset(room, 0, size)
#define FREE(p) ((void)(p))
#else
#define NAME "glibc"
#define GIVE malloc
#define CLEAR(size) calloc(1, size)
#define FREE free
#endif

enum { LIVE = 2000, ORDER = 4096, LIFO = 100, ROUND = 2000, MEMORY = 174080, BESIDE = 2500, MOST = 16 };

#define SEED 0x2545f4914f6cdd1du
static uint64_t state = SEED;
static uint64_t *live[LIVE];
static uint64_t *kept[MEMORY];
static uint16_t order[ORDER];

// xorshift, the same numbers as in the other programs
static uint64_t next(uint64_t *from) {
    *from ^= *from << 13;
    *from ^= *from >> 7;
    *from ^= *from << 17;
    return *from;
}

static size_t block(void) { return (next(&state) >> 32) % LIVE; }

static size_t bytes(uint64_t *from) {
    uint64_t number = next(from), low = 8u << ((number >> 48) % 6);
    return low + ((number >> 20) & (low - 1));
}

static void *give(size_t size) {
    void *p = GIVE(size);
    if (!p) abort();
    return p;
}

static uint64_t clock_of(clockid_t clock) {
    struct timespec t;
    clock_gettime(clock, &t);
    return (uint64_t)t.tv_sec * 1000000000u + (uint64_t)t.tv_nsec;
}

static uint64_t now(void) { return clock_of(CLOCK_THREAD_CPUTIME_ID); }

static void fill(bool mixed) {
    for (size_t i = 0; i < LIVE; i++) {
        live[i] = give(mixed ? bytes(&state) : 24);
        *live[i] = i;
    }
    for (size_t i = 0; i < ORDER; i++) order[i] = (uint16_t)block();
}

// Each does so many operations, and gives what they came to.

static uint64_t pairs(uint64_t count) {
    for (uint64_t i = 0; i < count; i++) {
        volatile uint64_t *p = give(24);
        *p = i;
        FREE((void *)p);
    }
    return count;
}

#ifdef MEMSET
static uint64_t room[8192];
#endif

// Blocks of zeros, their first and last word written.
static uint64_t large(uint64_t count, size_t size) {
    for (uint64_t i = 0; i < count; i++) {
        volatile uint64_t *p = CLEAR(size);
        if (!p) abort();
        p[0] = i;
        p[size / 8 - 1] = i;
        FREE((void *)p);
    }
    return count;
}

static uint64_t large16(uint64_t count) { return large(count, 16 * 1024); }

static uint64_t large64(uint64_t count) { return large(count, 64 * 1024); }

static uint64_t lifo(uint64_t count) {
    static void *stack[LIFO];
    for (uint64_t done = 0; done < count; done += LIFO) {
        for (size_t i = 0; i < LIFO; i++) stack[i] = give(24);
        for (size_t i = LIFO; i-- > 0;) FREE(stack[i]);
    }
    return count;
}

static uint64_t churn(uint64_t count) {
    for (uint64_t i = 0; i < count; i++) {
        size_t at = block();
        FREE(live[at]);
        live[at] = give(bytes(&state));
    }
    return count;
}

static uint64_t reads(uint64_t count) {
    uint64_t sum = 0;
    for (uint64_t done = 0; done < count; done += ORDER)
        for (size_t i = 0; i < ORDER; i++) sum += *(volatile uint64_t *)live[order[i]];
    return sum;
}

static uint64_t writes(uint64_t count) {
    for (uint64_t done = 0; done < count; done += ORDER)
        for (size_t i = 0; i < ORDER; i++) *(volatile uint64_t *)live[order[i]] = done + i;
    return count;
}

// What the second thread is to free, and when: the number of blocks, 0 while there is nothing to
// do, -1 at the end.
static void *sent[ROUND];
static atomic_long waiting;
static uint64_t freeing;

static void *freer(void *nothing) {
    for (;;) {
        long count;
        while (!(count = atomic_load(&waiting))) sched_yield();
        if (count < 0) return nothing;
        uint64_t start = clock_of(CLOCK_MONOTONIC);
        for (long i = 0; i < count; i++) FREE(sent[i]);
        freeing += clock_of(CLOCK_MONOTONIC) - start;
        atomic_store(&waiting, 0);
    }
}

// Gives out a batch and has the other thread free it; the nanoseconds of both.
static uint64_t remote(uint64_t count, size_t batch) {
    uint64_t giving = 0, before = freeing;
    for (uint64_t done = 0; done < count; done += batch) {
        uint64_t start = clock_of(CLOCK_MONOTONIC);
        for (size_t i = 0; i < batch; i++) sent[i] = give(24);
        giving += clock_of(CLOCK_MONOTONIC) - start;
        atomic_store(&waiting, (long)batch);
        while (atomic_load(&waiting)) sched_yield();
    }
    return giving + freeing - before;
}

// A thread's own blocks, and what it did.
struct churner {
    pthread_t thread;
    pthread_barrier_t *gate;
    uint64_t state, span, done, time, spent;
    uint64_t *live[BESIDE];
    char apart[128];
};

static void *churner(void *given) {
    struct churner *own = given;
    for (size_t i = 0; i < BESIDE; i++) *(own->live[i] = give(bytes(&own->state))) = i;
    pthread_barrier_wait(own->gate);
    uint64_t start = clock_of(CLOCK_MONOTONIC), begun = now();
    do {
        for (int i = 0; i < ORDER; i++) {
            size_t at = (next(&own->state) >> 32) % BESIDE;
            FREE(own->live[at]);
            own->live[at] = give(bytes(&own->state));
        }
        own->done += ORDER;
        own->time = clock_of(CLOCK_MONOTONIC) - start;
    } while (own->time < own->span);
    own->spent = now() - begun;
    return own;
}

static uint64_t resident(void) {
    long all, pages;
    FILE *f = fopen("/proc/self/statm", "r");
    if (!f || fscanf(f, "%ld %ld", &all, &pages) != 2) exit(1);
    fclose(f);
    return (uint64_t)pages * (uint64_t)sysconf(_SC_PAGESIZE);
}

static volatile uint64_t sink;

static void tell(const char *name, double nanos, uint64_t done) {
    printf("%s %s 1 %.2f %llu\n", NAME, name, nanos, (unsigned long long)done);
}

// Runs batches until the time is over, or the number of operations is done.
static void run(const char *name, uint64_t (*kind)(uint64_t), uint64_t batch, uint64_t span,
                uint64_t ops) {
    uint64_t done = 0, start = now(), spent = 0;
    do {
        sink = kind(batch);
        done += batch;
        spent = now() - start;
    } while (ops ? done < ops : spent < span);
    tell(name, (double)spent / (double)done, done);
}

static void run_remote(const char *name, size_t batch, uint64_t span, uint64_t ops) {
    pthread_t other;
    if (pthread_create(&other, NULL, freer, NULL)) exit(1);
    uint64_t done = 0, spent = 0, start = clock_of(CLOCK_MONOTONIC);
    do {
        spent += remote(32000, batch);
        done += 32000;
    } while (ops ? done < ops : clock_of(CLOCK_MONOTONIC) - start < span);
    atomic_store(&waiting, -1);
    pthread_join(other, NULL);
    tell(name, (double)spent / (double)done, done);
}

// The churn in so many threads: the nanoseconds in which all of them together do one operation, by
// the clock, and those that one operation takes a processor.
static void run_scale(unsigned threads, uint64_t span) {
    static struct churner all[MOST];
    pthread_barrier_t gate;
    if (threads < 1 || threads > MOST || pthread_barrier_init(&gate, NULL, threads)) exit(1);
    uint64_t done = 0, time = 0, spent = 0;
    for (unsigned i = 0; i < threads; i++) {
        all[i].gate = &gate, all[i].state = SEED, all[i].span = span;
        if (pthread_create(&all[i].thread, NULL, churner, &all[i])) exit(1);
    }
    for (unsigned i = 0; i < threads; i++) {
        pthread_join(all[i].thread, NULL);
        done += all[i].done, time += all[i].time, spent += all[i].spent;
    }
    printf("%s scale %u %.2f %llu\n", NAME, threads, (double)time / threads / (double)done,
           (unsigned long long)done);
    printf("%s scalecpu %u %.2f %llu\n", NAME, threads, (double)spent / (double)done,
           (unsigned long long)done);
}

int main(int count, char **words) {
    bool scales = count > 3 && !strcmp(words[1], "scale");
    if (count < 4 || (strcmp(words[2], "1") && !scales)) {
        fputs("usage: peers CASE THREADS MS [OPS]\n", stderr);
        return 2;
    }
    const char *name = words[1];
    uint64_t span = strtoull(words[3], NULL, 10) * 1000000u;
    uint64_t ops = count > 4 ? strtoull(words[4], NULL, 10) : 0;
    if (!strcmp(name, "large16")) return run(name, large16, 64, span, ops), 0;
    if (!strcmp(name, "large64")) return run(name, large64, 64, span, ops), 0;
    if (!strcmp(NAME, "memset")) return 3;
    if (scales) return run_scale((unsigned)strtoul(words[2], NULL, 10), span), 0;
    if (!strcmp(name, "mem")) {
        memset(kept, 1, sizeof kept);
        uint64_t before = resident();
        for (size_t i = 0; i < MEMORY; i++) *(kept[i] = give(24)) = i;
        tell(name, (double)(resident() - before) / MEMORY, MEMORY);
        return 0;
    }
    bool mixed = !strcmp(name, "churn");
    if (mixed || !strcmp(name, "read") || !strcmp(name, "write")) fill(mixed);
    if (!strcmp(name, "pair")) run(name, pairs, ORDER, span, ops);
    else if (!strcmp(name, "lifo")) run(name, lifo, 4100, span, ops);
    else if (!strcmp(name, "churn")) run(name, churn, ORDER, span, ops);
    else if (!strcmp(name, "read")) run(name, reads, ORDER, span, ops);
    else if (!strcmp(name, "write")) run(name, writes, ORDER, span, ops);
    else if (!strcmp(name, "remote")) run_remote(name, ROUND, span, ops);
    else if (!strcmp(name, "remote64")) run_remote(name, 64, span, ops);
    else if (!strcmp(name, "remote256")) run_remote(name, 256, span, ops);
    else return 3;
    return 0;
}
