// What bench/bank does, on mimalloc (-DMIMALLOC) or glibc's malloc: as many live blocks of the same sizes.
//     peer CORES BLOCKS MS
// gives out BLOCKS blocks, and prints the lines that bank_bench prints, but for `grow`; CORES is printed alone.
#define _GNU_SOURCE
#include <stdint.h>
#include <stdio.h>
#include <stdlib.h>
#include <time.h>
#include <unistd.h>
#ifdef MIMALLOC
#include <mimalloc.h>
#define NAME "mimalloc"
#define GIVE mi_malloc
#define FREE mi_free
#else
#define NAME "glibc"
#define GIVE malloc
#define FREE free
#endif

struct live {
    uint64_t *block;
    uint64_t bytes;
};

static uint64_t state = 1;
static struct live *live;
static uint64_t blocks;

static uint64_t next(void) {
    state += 0x9e3779b97f4a7c15u;
    uint64_t mixed = state;
    mixed = (mixed ^ mixed >> 30) * 0xbf58476d1ce4e5b9u;
    mixed = (mixed ^ mixed >> 27) * 0x94d049bb133111ebu;
    return mixed ^ mixed >> 31;
}

static uint64_t bytes(void) {
    uint64_t number = next();
    if ((number & 63) == 0) return 512 + (number >> 20) % 7681;
    uint64_t low = 8u << ((number >> 48) % 6);
    return low + (number >> 20 & (low - 1));
}

static uint64_t now(void) {
    struct timespec t;
    clock_gettime(CLOCK_THREAD_CPUTIME_ID, &t);
    return (uint64_t)t.tv_sec * 1000000000u + (uint64_t)t.tv_nsec;
}

static uint64_t resident(void) {
    unsigned long all = 0, held = 0;
    FILE *f = fopen("/proc/self/statm", "r");
    if (!f || fscanf(f, "%lu %lu", &all, &held) != 2) abort();
    fclose(f);
    return held * (uint64_t)sysconf(_SC_PAGESIZE);
}

static void *give(uint64_t size) {
    uint64_t *p = GIVE(size);
    if (!p) abort();
    *p = size;
    return p;
}

static uint64_t replace(uint64_t at) {
    FREE(live[at].block);
    live[at].block = give(live[at].bytes);
    return 0;
}

static uint64_t reads(uint64_t at) { return *(volatile uint64_t *)live[at].block; }

static uint64_t writes(uint64_t at) {
    *(volatile uint64_t *)live[at].block = at;
    return 0;
}

static void timed(const char *cores, const char *name, uint64_t span, uint64_t (*run)(uint64_t)) {
    uint64_t start = now(), spent = 0, done = 0, sum = 0;
    while (spent < span) {
        for (int i = 0; i < 1024; i++) sum += run((next() >> 32) % blocks);
        done += 1024;
        spent = now() - start;
    }
    if (sum == 1) puts("");
    printf("%s %s %s %.2f %lu\n", NAME, cores, name, (double)spent / (double)done, (unsigned long)done);
}

int main(int argc, char **argv) {
    if (argc != 4) return 1;
    blocks = strtoull(argv[2], NULL, 10);
    uint64_t span = strtoull(argv[3], NULL, 10) * 1000000u, asked = 0;
    live = calloc(blocks, sizeof *live);
    if (!live || !blocks) return 1;
    for (uint64_t i = 0; i < blocks; i++) live[i].bytes = 1;
    uint64_t before = resident(), start = now();
    for (uint64_t i = 0; i < blocks; i++) {
        live[i].bytes = bytes();
        live[i].block = give(live[i].bytes);
        asked += live[i].bytes;
    }
    uint64_t spent = now() - start;
    printf("%s %s fill %.2f %lu\n", NAME, argv[1], (double)spent / (double)blocks, (unsigned long)blocks);
    printf("%s %s live %lu %lu\n", NAME, argv[1], (unsigned long)blocks, (unsigned long)asked);
    printf("%s %s resident %lu %lu\n", NAME, argv[1], (unsigned long)before, (unsigned long)resident());
    timed(argv[1], "replace", span, replace);
    timed(argv[1], "read", span, reads);
    timed(argv[1], "write", span, writes);
    return 0;
}
