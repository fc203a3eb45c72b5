// The same calls on a page's lists as mimalloc keeps them: addresses in the blocks themselves, and three
// fields of the page, with no test of an argument.
#include <stdint.h>
#include <stdio.h>
#include <stdlib.h>
#include <time.h>

enum { ROUNDS = 2000, PLACES = 170, WORDS = 3 };

struct block { struct block *next; };

struct page {
    struct block *free, *local_free;
    uint32_t used;
};

static inline struct block *pop(struct page *page) {
    struct block *block = page->free;
    if (!block) return NULL;
    page->free = block->next;
    page->used++;
    return block;
}

static inline void push_local(struct page *page, struct block *block) {
    block->next = page->local_free;
    page->local_free = block;
    page->used--;
}

static inline void splice(struct page *page) {
    if (!page->free && page->local_free) {
        page->free = page->local_free;
        page->local_free = NULL;
    }
}

static uint64_t words[PLACES * WORDS];
static struct block *held[PLACES];

__attribute__((noinline)) static uint64_t take_all(struct page *page) {
    uint64_t taken = 0;
    for (int i = 0; i < 512; i++) {
        struct block *block = pop(page);
        if (!block) return taken;
        held[taken++] = block;
    }
    return taken;
}

__attribute__((noinline)) static uint64_t put_all(struct page *page) {
    for (int i = 0; i < PLACES; i++) push_local(page, held[i]);
    return PLACES;
}

__attribute__((noinline)) static uint64_t by_turns(struct page *page) {
    uint64_t pairs = 0;
    for (int i = 0; i < 512; i++) {
        struct block *block = pop(page);
        if (block) {
            push_local(page, block);
            pairs++;
        } else {
            splice(page);
        }
    }
    return pairs;
}

static uint64_t now(void) {
    struct timespec t;
    clock_gettime(CLOCK_MONOTONIC, &t);
    return (uint64_t)t.tv_sec * 1000000000u + (uint64_t)t.tv_nsec;
}

int main(void) {
    struct page page = {0};
    page.used = PLACES;
    for (int i = PLACES; i-- > 0;) push_local(&page, (struct block *)&words[i * WORDS]);
    uint64_t taken = 0, put = 0, pairs = 0, taking = 0, putting = 0, turning = 0, reading = 0;
    for (int round = 0; round < ROUNDS; round++) {
        splice(&page);
        uint64_t start = now();
        taken += take_all(&page);
        uint64_t middle = now();
        put += put_all(&page);
        uint64_t end = now();
        splice(&page);
        uint64_t turn = now();
        pairs += by_turns(&page);
        uint64_t last = now();
        uint64_t again = now();
        taking += middle - start;
        putting += end - middle;
        turning += last - turn;
        reading += again - last;
        // by_turns leaves places on both lists: back to one.
        while (page.local_free) {
            struct block *block = page.local_free;
            page.local_free = block->next;
            block->next = page.free;
            page.free = block;
        }
    }
    printf("take %llu %llu\nask 0 %llu\nput %llu %llu\nturns %llu %llu\nclock %d %llu\n",
           (unsigned long long)taken, (unsigned long long)taking, (unsigned long long)reading,
           (unsigned long long)put, (unsigned long long)putting,
           (unsigned long long)pairs, (unsigned long long)turning, ROUNDS, (unsigned long long)reading);
    return 0;
}
