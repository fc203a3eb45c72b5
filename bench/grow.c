// Writes a trace of about so many bytes on so many segments and live blocks, the same for the same
// numbers:
//     grow BYTES SEGMENTS LIVE
//
// Worker 0 first takes all segments of the arena `main` and gives out blocks of 24 bytes to alice.
// Then one is given out for each that is freed, here or by worker 1, which holds nothing. Between
// them blocks are read, written and looked at. Now and then there are a denial, a `collect`, and a
// segment that is given up and taken back. The mix is the same for all numbers. There is no `list`:
// its answer is as long as what it lists.
#include <stdbool.h>
#include <stdint.h>
#include <stdio.h>
#include <stdlib.h>

static uint64_t state = 1;
static unsigned *live, blocks, labels, segments;
static long left;

// splitmix64
static uint64_t next(void) {
    uint64_t x = state += 0x9e3779b97f4a7c15u;
    x = (x ^ x >> 30) * 0xbf58476d1ce4e5b9u;
    x = (x ^ x >> 27) * 0x94d049bb133111ebu;
    return x ^ x >> 31;
}

static unsigned below(unsigned n) { return (unsigned)(next() % n); }

// Writes a line, unless it would be too long for what is left.
#define LINE(...)                                                \
    do {                                                         \
        char text[128];                                          \
        int length = snprintf(text, sizeof text, __VA_ARGS__);   \
        if (length >= left) {                                    \
            left = 0;                                            \
        } else {                                                 \
            left -= length + 1;                                  \
            puts(text);                                          \
        }                                                        \
    } while (0)

static void give(unsigned at) {
    live[at] = labels++;
    LINE("w0 alloc alice main 24 as b%u", live[at]);
}

static void replace(bool here) {
    unsigned at = below(blocks);
    if (here) {
        LINE("w0 free alice b%u", live[at]);
    } else {
        LINE("w1 free alice b%u", live[at]);
        LINE("w1 deliver");
        LINE("w0 take %u", below(segments));
    }
    give(at);
}

static void turn(void) {
    unsigned chance = below(2000), label = live[below(blocks)];
    if (chance < 500) replace(true);
    else if (chance < 700) replace(false);
    else if (chance < 1200) LINE("w0 read alice b%u %u", label, below(3));
    else if (chance < 1700) LINE("w0 write alice b%u %u %u", label, below(3), below(1000000));
    else if (chance < 1850) LINE("w0 look alice %u.%u.%u", below(segments), below(16), below(170));
    else if (chance < 1950) LINE("w0 read mallory b%u 0", label);
    else if (chance < 1996) LINE("w0 alloc mallory main %u", 1 + below(4096));
    else if (chance < 1998) LINE("w0 collect");
    else {
        LINE("w0 abandon %u", below(segments));
        LINE("w0 refill main");
    }
}

int main(int count, char **words) {
    if (count < 4) {
        fputs("usage: grow BYTES SEGMENTS LIVE\n", stderr);
        return 2;
    }
    left = atol(words[1]);
    segments = (unsigned)atol(words[2]);
    blocks = (unsigned)atol(words[3]);
    live = calloc(blocks, sizeof *live);
    if (!live || !segments || !blocks) return 2;
    for (unsigned k = 0; k < segments; k++) LINE("w0 refill main");
    for (unsigned at = 0; at < blocks; at++) give(at);
    while (left > 0) turn();
    return fflush(stdout) || ferror(stdout);
}
