/* Reads what valgrind's lackey writes of a program's loads and stores (--trace-mem=yes), and counts
 * the loads that a processor can't take from the store before them: those that overlap a store of
 * the last instructions and aren't within it, so that they wait until it is in the cache.
 *
 *     stalls [INSTRUCTIONS] < TRACE      60 instructions, if left out
 *
 * The first line has the instructions, the loads and those that wait; a line for each pair of a load
 * and a store follows, the most frequent first: how often, the load's address and size, the store's,
 * and how far the load begins behind the store.
 */
#include <inttypes.h>
#include <stdint.h>
#include <stdio.h>
#include <stdlib.h>

enum { STORES = 64, PAIRS = 1 << 16, SHOWN = 40 };

struct store {
    uint64_t at, by, when;
    int size;
};

struct pair {
    uint64_t load, store, count;
    int load_size, store_size;
    int64_t behind;
};

static struct store stores[STORES];
static unsigned newest;
static struct pair pairs[PAIRS];

static void keep(uint64_t at, int size, uint64_t by, uint64_t when)
{
    newest = (newest + 1) % STORES;
    stores[newest] = (struct store){.at = at, .by = by, .when = when, .size = size};
}

/* The youngest store of the last instructions that the load overlaps, if there is one. */
static const struct store *overlapped(uint64_t at, int size, uint64_t now, uint64_t last)
{
    for (unsigned back = 0; back < STORES; back++) {
        const struct store *it = &stores[(newest + STORES - back) % STORES];
        if (it->size == 0 || now - it->when > last) return NULL;
        if (at < it->at + (uint64_t)it->size && it->at < at + (uint64_t)size) return it;
    }
    return NULL;
}

static int is_within(uint64_t at, int size, const struct store *it)
{
    return at >= it->at && at + (uint64_t)size <= it->at + (uint64_t)it->size;
}

static void count(uint64_t by, uint64_t at, int size, const struct store *it)
{
    uint64_t slot = (by * 31 + it->by) % PAIRS;
    for (int tried = 0; tried < PAIRS; tried++, slot = (slot + 1) % PAIRS) {
        struct pair *pair = &pairs[slot];
        if (pair->count == 0)
            *pair = (struct pair){by, it->by, 0, size, it->size, (int64_t)(at - it->at)};
        if (pair->load != by || pair->store != it->by) continue;
        pair->count++;
        return;
    }
}

static int by_count(const void *one, const void *other)
{
    uint64_t a = ((const struct pair *)one)->count, b = ((const struct pair *)other)->count;
    return (a < b) - (a > b);
}

int main(int argc, char **argv)
{
    uint64_t last = argc > 1 ? strtoull(argv[1], NULL, 10) : 60;
    uint64_t instructions = 0, loads = 0, waits = 0, by = 0, at;
    char line[256];
    int size;
    while (fgets(line, sizeof line, stdin)) {
        if (line[0] == 'I' && sscanf(line + 1, " %" SCNx64 ",%d", &at, &size) == 2) {
            by = at;
            instructions++;
        } else if (line[0] == ' ' && sscanf(line + 2, " %" SCNx64 ",%d", &at, &size) == 2) {
            if (line[1] != 'S') {
                const struct store *it = overlapped(at, size, instructions, last);
                loads++;
                if (it && !is_within(at, size, it)) {
                    waits++;
                    count(by, at, size, it);
                }
            }
            if (line[1] != 'L') keep(at, size, by, instructions);
        }
    }
    printf("instructions %" PRIu64 " loads %" PRIu64 " waiting %" PRIu64 "\n", instructions, loads, waits);
    qsort(pairs, PAIRS, sizeof *pairs, by_count);
    for (int n = 0; n < SHOWN && pairs[n].count; n++)
        printf("%10" PRIu64 " load %" PRIx64 " of %d after store %" PRIx64 " of %d, %" PRId64 " behind\n",
               pairs[n].count, pairs[n].load, pairs[n].load_size, pairs[n].store,
               pairs[n].store_size, pairs[n].behind);
    return 0;
}
