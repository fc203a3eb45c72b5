// Threads that give out blocks and free them, each its own or what another made: on the workers of one
// service (-DHEAPGUARD), on mimalloc (-DMIMALLOC) or on glibc's malloc.
//     threads THREADS SENT MS
// Each thread keeps 256 blocks of 16 to 112 bytes. A step frees one of them, or, SENT times in a hundred,
// hands it to the next thread, which frees it; then it gives out another and writes its first word.
// Prints the program, both numbers, the nanoseconds that all took, and how many steps they made.
#define _GNU_SOURCE
#include <pthread.h>
#include <stdatomic.h>
#include <stdint.h>
#include <stdio.h>
#include <stdlib.h>
#include <time.h>

#if defined HEAPGUARD
#include "heapguard_service.h"
#define NAME "heapguard"
#else
typedef struct { char none; } hg_worker;
#ifdef MIMALLOC
#include <mimalloc.h>
#define NAME "mimalloc"
#define GIVE mi_malloc
#define FREE mi_free
#else
#define NAME "glibc"
#define GIVE malloc
#define FREE free
#endif
#endif

enum { MOST = 4, LIVE = 256, SEGMENTS = 64, TIDY = 1024 };

typedef struct {
    _Alignas(64) _Atomic uint64_t handed;
    _Alignas(64) pthread_t id;
    hg_worker worker;
    uint64_t state, steps, live[LIVE];
    unsigned number;
} thread;

static thread threads[MOST];
static unsigned count, sent;
static _Atomic int ended;

static uint64_t next(thread *of) {
    uint64_t x = of->state += 0x9e3779b97f4a7c15u;
    x = (x ^ x >> 30) * 0xbf58476d1ce4e5b9u;
    return x ^ x >> 31;
}

#ifdef HEAPGUARD
static uint64_t give(thread *of, uint64_t bytes, uint64_t word) {
    for (;;) {
        hg_reply made = hg_worker_alloc(&of->worker, 0, 0, bytes);
        if (made.status == HG_BLOCK) {
            if (hg_worker_write(&of->worker, 0, made.value, 0, word).status != HG_DONE) abort();
            return made.value;
        }
        if (hg_worker_refill_now(&of->worker, 0).status != HG_REFILLED) abort();
    }
}

static void put(thread *of, uint64_t block) {
    hg_reply freed = hg_worker_free(&of->worker, 0, block);
    if (freed.status == HG_PARTED) freed = hg_worker_deliver_now(&of->worker);
    if (freed.status != HG_DONE) abort();
}

static void tidy(thread *of) {
    for (uint32_t segment = 0; segment < SEGMENTS; segment++)
        if (hg_worker_holds(&of->worker, segment).value == 1
            && hg_worker_take_now(&of->worker, segment).status != HG_TAKEN)
            abort();
}

static void open_all(void) {
    static hg_service service = HG_SERVICE_INIT;
    char text[300], line[100];
    int length = snprintf(text, sizeof text, "version = 1\nworkers = %u\n"
                          "tenant = [ {name = \"host\", limit = 4000000000} ]\n"
                          "arena = [ {name = \"main\", segments = %d} ]\n", MOST, SEGMENTS);
    if (hg_service_open(&service, text, (size_t)length, line, sizeof line).status != HG_DONE) abort();
    for (unsigned n = 0; n < count; n++)
        if (hg_service_worker(&service, n, &threads[n].worker).status != HG_DONE) abort();
}
#else
static uint64_t give(thread *of, uint64_t bytes, uint64_t word) {
    (void)of;
    uint64_t *block = GIVE(bytes);
    if (!block) abort();
    *(volatile uint64_t *)block = word;
    return (uint64_t)(uintptr_t)block;
}

static void put(thread *of, uint64_t block) {
    (void)of;
    FREE((void *)(uintptr_t)block);
}

static void tidy(thread *of) { (void)of; }

static void open_all(void) {}
#endif

static void *serve(void *given) {
    thread *of = given;
    thread *to = &threads[(of->number + 1) % count];
    for (unsigned n = 0; n < LIVE; n++) of->live[n] = give(of, 16 + n % 97, n);
    while (!atomic_load_explicit(&ended, memory_order_relaxed)) {
        for (unsigned n = 0; n < TIDY; n++) {
            uint64_t drawn = next(of), *at = &of->live[drawn % LIVE], block = *at;
            // of what is handed on, the one that the next thread hasn't come to comes back
            if ((drawn >> 40) % 100 < sent) block = atomic_exchange(&to->handed, block);
            if (block != 0) put(of, block);
            if (sent && (block = atomic_exchange(&of->handed, 0)) != 0) put(of, block);
            *at = give(of, 16 + (drawn >> 48) % 97, drawn);
        }
        of->steps += TIDY;
        if (sent) tidy(of);
    }
    return NULL;
}

static uint64_t now(void) {
    struct timespec t;
    clock_gettime(CLOCK_MONOTONIC, &t);
    return (uint64_t)t.tv_sec * 1000000000u + (uint64_t)t.tv_nsec;
}

int main(int argc, char **argv) {
    if (argc != 4) return 1;
    count = (unsigned)atoi(argv[1]), sent = (unsigned)atoi(argv[2]);
    if (count < 1 || count > MOST) return 1;
    open_all();
    uint64_t start = now(), steps = 0;
    for (unsigned n = 0; n < count; n++) {
        threads[n].number = n, threads[n].state = n;
        if (pthread_create(&threads[n].id, NULL, serve, &threads[n]) != 0) return 1;
    }
    struct timespec span = {atoi(argv[3]) / 1000, atoi(argv[3]) % 1000 * 1000000L};
    nanosleep(&span, NULL);
    atomic_store(&ended, 1);
    for (unsigned n = 0; n < count; n++) {
        pthread_join(threads[n].id, NULL);
        steps += threads[n].steps;
    }
    printf("%s %u %u %lu %lu\n", NAME, count, sent, (unsigned long)(now() - start), (unsigned long)steps);
    return 0;
}
