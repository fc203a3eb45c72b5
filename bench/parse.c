// A plain C pass over a trace on standard input: reads it whole, checks its grammar with every
// label, keeps an event for each line, and then prints a line of the usual length for each event.
// It serves nothing. With --joined the trace begins behind the line `---`.
//
// A fault ends it with status 2 and the line that heapguard prints; that a worker is one of the
// policy's isn't looked at.
#include "trace.h"
#include <unistd.h>

enum { LIMIT = 16777216, BUFFER = 65536 };

// ---- the trace

static struct event *events;
static size_t count;

static void parse(const unsigned char *at, const unsigned char *end) {
    size_t room = 0;
    struct text words[MOST_WORDS + 1];
    for (unsigned long line = 1; at < end; line++) {
        const unsigned char *stop = memchr(at, '\n', end - at);
        if (!stop) stop = end;
        size_t n;
        enum fault fault = cut(at, stop, words, &n);
        if (!fault && n) {
            if (count == room) {
                room = room ? 2 * room : 1024;
                events = grown(events, room * sizeof *events);
            }
            fault = event_in(words, n, &events[count++]);
        }
        if (fault) {
            fprintf(stderr, "trace fault %d at line %lu: %s\n", fault, line, FAULTS[fault]);
            exit(2);
        }
        at = stop + 1;
    }
}

// ---- the answers

static char buffer[BUFFER];
static size_t filled;

static void flush(void) {
    for (size_t done = 0; done < filled;) {
        ssize_t n = write(1, buffer + done, filled - done);
        if (n <= 0) {
            fputs("write fault\n", stderr);
            exit(3);
        }
        done += n;
    }
    filled = 0;
}

static void put(struct text t) {
    memcpy(buffer + filled, t.at, t.length);
    filled += t.length;
}

static void put_number(uint64_t n) {
    char digits[20];
    size_t at = sizeof digits;
    do digits[--at] = '0' + n % 10;
    while (n /= 10);
    memcpy(buffer + filled, digits + at, sizeof digits - at);
    filled += sizeof digits - at;
}

static void answer(const struct event *e) {
    static const struct text texts[] = {
        TEXT("ok @0."), TEXT("ok"), TEXT("ok"), TEXT("taken "), TEXT("pages "), TEXT("word "),
        TEXT("ok"), TEXT("denied stale"), TEXT("rows "), TEXT("ok"), TEXT("segment "),
    };
    put(texts[e->command]);
    switch (e->command) {
        case ALLOC:
            put_number(e->block.label % 16);
            put((struct text)TEXT("."));
            put_number(e->block.label % 512);
            put((struct text)TEXT(".1"));
            break;
        case READ: put_number(e->index * 1000003ull); break;
        case TAKE: case COLLECT: case LIST: case REFILL: put_number(e->segment); break;
        default: break;
    }
    put((struct text)TEXT("\n"));
}

static size_t read_all(unsigned char *to) {
    size_t length = 0;
    ssize_t n;
    while (length <= LIMIT && (n = read(0, to + length, LIMIT + 1 - length)) > 0) length += n;
    return length;
}

int main(int words, char **word) {
    unsigned char *bytes = grown(NULL, LIMIT + 1);
    size_t length = read_all(bytes);
    if (length > LIMIT) {
        fputs("read fault\n", stderr);
        return 3;
    }
    const unsigned char *trace = bytes;
    if (words > 1 && !strcmp(word[1], "--joined")) mark_in(bytes, bytes + length, &trace);
    forget_labels();
    parse(trace, bytes + length);
    for (size_t i = 0; i < count; i++) {
        if (filled > BUFFER - 64) flush();
        answer(&events[i]);
    }
    flush();
    return 0;
}
