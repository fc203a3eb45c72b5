// Writes a trace of about so many bytes, the same for the same seed:
//     generate BYTES SEED          every command, for policy.toml
//     generate BYTES SEED --first  alloc without a label and refill alone, for first.toml
//
// Each of four workers first takes four segments: worker w holds w, w + 4, w + 8 and w + 12. From
// then on blocks of 8 to 512 bytes are named by labels. Besides these each worker has one block of
// a whole page, on page 0 of its first segment, given out and freed again and again: its handle is
// known before the answer, so these lines name it by handle.
#include <stdbool.h>
#include <stdint.h>
#include <stdio.h>
#include <stdlib.h>
#include <string.h>

enum { WORKERS = 4, SEGMENTS = 4, LIVE = 64, REMOTE = 12 };

static const char *const TENANTS[] = {"alice", "bob", "carol", "dave"};

struct block {
    unsigned label, tenant, words;
};

struct worker {
    struct block live[LIVE];
    unsigned lives;
    unsigned generation;  // of the block of a whole page, as it is given out next
    unsigned sent;        // blocks of this worker that others freed, since it took them back
};

static struct worker workers[WORKERS];
static unsigned labels;
static uint64_t state;
static long left;

// splitmix64
static uint64_t next(void) {
    uint64_t x = state += 0x9e3779b97f4a7c15u;
    x = (x ^ x >> 30) * 0xbf58476d1ce4e5b9u;
    x = (x ^ x >> 27) * 0x94d049bb133111ebu;
    return x ^ x >> 31;
}

static unsigned below(unsigned n) { return next() % n; }

// Writes a line, unless it would be too long for what is left.
#define LINE(...)                                                  \
    do {                                                           \
        char text[128];                                            \
        int length = snprintf(text, sizeof text, __VA_ARGS__);     \
        if (length >= left) {                                      \
            left = 0;                                              \
        } else {                                                   \
            left -= length + 1;                                    \
            puts(text);                                            \
        }                                                          \
    } while (0)

static unsigned other(unsigned w) { return (w + 1 + below(WORKERS - 1)) % WORKERS; }

static void alloc(unsigned w) {
    struct worker *me = &workers[w];
    if (me->lives == LIVE) return;
    unsigned words = below(4) ? 1 + below(8) : 1 + below(64);
    struct block b = {labels++, below(4), words};
    me->live[me->lives++] = b;
    LINE("w%u alloc %s main %u as b%u", w, TENANTS[b.tenant], 8 * words - below(8), b.label);
}

static struct block forget(struct worker *me) {
    unsigned at = below(me->lives);
    struct block b = me->live[at];
    me->live[at] = me->live[--me->lives];
    return b;
}

static void take_all(unsigned w) {
    for (unsigned k = 0; k < SEGMENTS; k++) LINE("w%u take %u", w, w + WORKERS * k);
    workers[w].sent = 0;
}

static void free_here(unsigned w) {
    struct block b = forget(&workers[w]);
    LINE("w%u free %s b%u", w, TENANTS[b.tenant], b.label);
    if (below(20) == 0) LINE("w%u read %s b%u 0", w, TENANTS[b.tenant], b.label);
}

static void free_elsewhere(unsigned w) {
    unsigned v = other(w);
    struct block b = forget(&workers[w]);
    LINE("w%u free %s b%u", v, TENANTS[b.tenant], b.label);
    LINE("w%u deliver", v);
    if (++workers[w].sent == REMOTE) take_all(w);
}

static void use(unsigned w) {
    struct worker *me = &workers[w];
    struct block b = me->live[below(me->lives)];
    unsigned actor = below(8) ? b.tenant : below(4);
    unsigned index = below(50) ? below(b.words) : b.words;
    if (below(2)) {
        LINE("w%u read %s b%u %u", w, TENANTS[actor], b.label, index);
    } else {
        LINE("w%u write %s b%u %u %llu", w, TENANTS[actor], b.label, index,
             (unsigned long long)(next() >> below(64)));
    }
}

// A whole page is given out, used and freed, all by its handle.
static void page(unsigned w) {
    const char *tenant = TENANTS[w];
    unsigned g = workers[w].generation++;
    unsigned index = below(512);
    LINE("w%u alloc %s main 4096", w, tenant);
    LINE("w%u write %s @%u.0.0.%u %u %u", w, tenant, w, g, index, below(1000000));
    LINE("w%u read %s @%u.0.0.%u %u", w, tenant, w, g, index);
    if (below(3)) {
        LINE("w%u free %s @%u.0.0.%u", w, tenant, w, g);
    } else {
        unsigned v = other(w);
        LINE("w%u free %s @%u.0.0.%u", v, tenant, w, g);
        LINE("w%u deliver", v);
        take_all(w);
    }
}

static void rare(unsigned w) {
    unsigned segment = w + WORKERS * below(SEGMENTS);
    switch (below(6)) {
        case 0: LINE("w%u list %s", w, TENANTS[below(4)]); break;
        case 1:
            LINE("w%u collect", w);
            page(w);  // page 0 is the least without a class: it stays this block's
            break;
        case 2:
            LINE("w%u abandon %u", w, segment);
            LINE("w%u refill main", w);
            break;
        case 3: LINE("w%u refill nowhere", w); break;
        default:
            LINE("w%u look %s %u.%u.%u", w, TENANTS[below(4)], segment, below(16), below(64));
    }
}

static void denied(unsigned w) {
    switch (below(3)) {
        case 0: LINE("w%u alloc mallory main %u", w, 1 + below(4096)); break;
        case 1: LINE("w%u alloc bob vault %u", w, 1 + below(4096)); break;
        default: LINE("w%u read mallory @%u.%u.%u.1 0", w, below(16), below(16), below(64));
    }
}

static void turn(unsigned w) {
    unsigned chance = below(1000);
    if (workers[w].lives < LIVE / 4 || chance < 180) alloc(w);
    else if (chance < 290) free_here(w);
    else if (chance < 350) free_elsewhere(w);
    else if (chance < 890) use(w);
    else if (chance < 960) page(w);
    else if (chance < 999) denied(w);
    else rare(w);
}

static void every_command(void) {
    for (unsigned k = 0; k < WORKERS * SEGMENTS; k++) LINE("w%u refill main", k % WORKERS);
    for (unsigned w = 0; w < WORKERS; w++) {
        workers[w].generation = 1;
        page(w);
    }
    while (left > 0) turn(below(WORKERS));
}

static void two_commands(void) {
    while (left > 0) {
        unsigned chance = below(1000);
        if (chance < 400) LINE("w0 alloc mallory main %u", below(4096));
        else if (chance < 800) LINE("w0 alloc alice closed %u", below(4096));
        else if (chance < 880) LINE("w0 alloc alice main %u", 65537 + below(1000000));
        else if (chance < 940) LINE("w0 alloc bob main %u  # above the limit", 65 + below(1000));
        else if (chance < 990) LINE("w0 alloc alice main %u", below(4096));
        else LINE("w0 refill main");
    }
}

int main(int count, char **words) {
    if (count < 3) {
        fputs("usage: generate BYTES SEED [--first]\n", stderr);
        return 2;
    }
    left = atol(words[1]);
    state = strtoull(words[2], NULL, 10);
    if (count > 3 && !strcmp(words[3], "--first")) two_commands();
    else every_command();
    return fflush(stdout) || ferror(stdout);
}
