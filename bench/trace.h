// The grammar of a trace in plain C, for programs that are compared with heapguard: the words of a
// line, its event with every label, and the first fault, which has the number that heapguard tells.
// That a worker is one of the policy's isn't looked at.
#ifndef TRACE_H
#define TRACE_H

#include <stdbool.h>
#include <stdint.h>
#include <stdio.h>
#include <stdlib.h>
#include <string.h>

enum { NAME = 16, MOST_WORDS = 7 };

enum fault { NONE, BYTE, COMMAND, OPERAND, UNKNOWN_LABEL, REPEATED_LABEL };

static const char *const FAULTS[] = {
    "", "byte", "command", "operand", "unknown label", "repeated label",
};

enum command {
    ALLOC, FREE, DELIVER, TAKE, COLLECT, READ, WRITE, LOOK, LIST, ABANDON, REFILL, COMMANDS
};

struct text {
    const unsigned char *at;
    size_t length;
};

#define TEXT(word) {(const unsigned char *)(word), sizeof(word) - 1}

static const struct text COMMAND_NAMES[] = {
    TEXT("alloc"), TEXT("free"), TEXT("deliver"), TEXT("take"), TEXT("collect"), TEXT("read"),
    TEXT("write"), TEXT("look"), TEXT("list"), TEXT("abandon"), TEXT("refill"),
};

struct name {
    unsigned char bytes[NAME];  // filled up with zeros
};

struct place {
    uint8_t segment, page;
    uint16_t index;
};

struct block {
    bool by_label;
    uint32_t label, generation;
    struct place place;
};

struct event {
    uint8_t worker, command, segment;
    uint32_t index;
    struct block block;
    struct name actor, arena;
    uint64_t number;  // bytes, or a value
};

static void *grown(void *old, size_t bytes) {
    void *new = realloc(old, bytes);
    if (!new) {
        fputs("no memory\n", stderr);
        exit(3);
    }
    return new;
}

// ---- words

enum kind { BAD, WORD, BLANK, HASH };

// What each byte of a line is.
static const unsigned char KINDS[256] = {
    ['\t'] = BLANK, ['\r'] = BLANK, [' '] = BLANK, [0x21 ... 0x22] = WORD,
    ['#'] = HASH, [0x24 ... 0x7e] = WORD,
};

// Cuts a line into words; one past MOST_WORDS stands for all that are too many.
static enum fault cut(const unsigned char *at, const unsigned char *end, struct text *words,
                      size_t *n) {
    *n = 0;
    for (;;) {
        while (at < end && KINDS[*at] == BLANK) at++;
        if (at == end || KINDS[*at] == HASH) return NONE;
        const unsigned char *start = at;
        while (at < end && KINDS[*at] == WORD) at++;
        if (at < end && KINDS[*at] == BAD) return BYTE;
        if (*n <= MOST_WORDS) words[(*n)++] = (struct text){start, at - start};
    }
}

static bool is(struct text t, struct text word) {
    return t.length == word.length && !memcmp(t.at, word.at, t.length);
}

static bool number_in(struct text t, uint64_t most, uint64_t *to) {
    if (!t.length || (t.length > 1 && *t.at == '0')) return false;
    uint64_t n = 0;
    for (size_t i = 0; i < t.length; i++) {
        unsigned digit = t.at[i] - '0';
        if (digit > 9 || n > (most - digit) / 10) return false;
        n = 10 * n + digit;
    }
    *to = n;
    return true;
}

static bool name_in(struct text t, struct name *to) {
    if (!t.length || t.length > NAME || *t.at < 'a' || *t.at > 'z') return false;
    memset(to->bytes, 0, NAME);
    for (size_t i = 0; i < t.length; i++) {
        unsigned char c = t.at[i];
        if ((c < 'a' || c > 'z') && (c < '0' || c > '9') && c != '_' && c != '-') return false;
        to->bytes[i] = c;
    }
    return true;
}

// Takes a number up to the next dot off a text.
static bool part_in(struct text *t, bool is_last, uint64_t most, uint64_t *to) {
    const unsigned char *dot = is_last ? NULL : memchr(t->at, '.', t->length);
    if (!dot && !is_last) return false;
    struct text part = {t->at, is_last ? t->length : (size_t)(dot - t->at)};
    if (!number_in(part, most, to)) return false;
    if (!is_last) *t = (struct text){dot + 1, t->length - part.length - 1};
    return true;
}

static bool place_in(struct text *t, bool is_last, struct place *to) {
    uint64_t segment, page, index;
    if (!part_in(t, false, 63, &segment) || !part_in(t, false, 15, &page)) return false;
    if (!part_in(t, is_last, 511, &index)) return false;
    *to = (struct place){segment, page, index};
    return true;
}

// ---- labels, numbered as they are given

struct entry {
    struct name name;
    uint32_t number;  // from 1; 0 is an empty entry
};

static struct entry *entries;
static size_t rooms, labels;

static struct entry *entry_of(const struct name *name) {
    uint64_t half[2];
    memcpy(half, name->bytes, NAME);
    uint64_t hash = (half[0] ^ (half[1] << 7 | half[1] >> 57)) * 0x9e3779b97f4a7c15u;
    size_t at = (hash >> 20) & (rooms - 1);
    while (entries[at].number && memcmp(entries[at].name.bytes, name->bytes, NAME)) {
        at = (at + 1) & (rooms - 1);
    }
    return &entries[at];
}

static void make_room(void) {
    struct entry *old = entries;
    size_t count = rooms;
    rooms = rooms ? 2 * rooms : 1024;
    entries = grown(NULL, rooms * sizeof *entries);
    memset(entries, 0, rooms * sizeof *entries);
    for (size_t i = 0; i < count; i++) {
        if (old[i].number) *entry_of(&old[i].name) = old[i];
    }
    free(old);
}

// None was given yet.
static void forget_labels(void) {
    if (labels) memset(entries, 0, rooms * sizeof *entries);
    labels = 0;
}

static enum fault give(const struct name *name, uint32_t *number) {
    if (2 * labels >= rooms) make_room();
    struct entry *entry = entry_of(name);
    if (entry->number) return REPEATED_LABEL;
    *entry = (struct entry){*name, ++labels};
    *number = labels;
    return NONE;
}

// ---- operands

static enum fault block_in(struct text t, struct block *to) {
    if (t.length && *t.at == '@') {
        uint64_t generation;
        struct text rest = {t.at + 1, t.length - 1};
        if (!place_in(&rest, false, &to->place)) return OPERAND;
        if (!part_in(&rest, true, UINT32_MAX, &generation) || !generation) return OPERAND;
        to->generation = generation;
        return NONE;
    }
    struct name name;
    if (!name_in(t, &name)) return OPERAND;
    to->by_label = true;
    to->label = rooms ? entry_of(&name)->number : 0;
    return to->label ? NONE : UNKNOWN_LABEL;
}

static enum fault alloc_in(const struct text *words, size_t n, struct event *to) {
    struct name label;
    if (n != 3 && n != 5) return OPERAND;
    if (!name_in(words[0], &to->actor) || !name_in(words[1], &to->arena)) return OPERAND;
    if (!number_in(words[2], UINT64_MAX, &to->number)) return OPERAND;
    if (n == 3) return NONE;
    if (!is(words[3], (struct text)TEXT("as")) || !name_in(words[4], &label)) return OPERAND;
    to->block.by_label = true;
    return give(&label, &to->block.label);
}

// An actor and a block, with an index and a value where there are more words.
static enum fault access_in(const struct text *words, size_t n, size_t wanted, struct event *to) {
    uint64_t index = 0;
    if (n != wanted || !name_in(words[0], &to->actor)) return OPERAND;
    if (n > 2 && !number_in(words[2], UINT32_MAX, &index)) return OPERAND;
    if (n > 3 && !number_in(words[3], UINT64_MAX, &to->number)) return OPERAND;
    to->index = index;
    return block_in(words[1], &to->block);
}

static enum fault look_in(const struct text *words, size_t n, struct event *to) {
    if (n != 2 || !name_in(words[0], &to->actor)) return OPERAND;
    struct text place = words[1];
    return place_in(&place, true, &to->block.place) ? NONE : OPERAND;
}

static enum fault segment_in(const struct text *words, size_t n, struct event *to) {
    uint64_t segment;
    if (n != 1 || !number_in(words[0], 63, &segment)) return OPERAND;
    to->segment = segment;
    return NONE;
}

static enum fault operands(const struct text *words, size_t n, struct event *to) {
    switch (to->command) {
        case ALLOC: return alloc_in(words, n, to);
        case FREE: return access_in(words, n, 2, to);
        case READ: return access_in(words, n, 3, to);
        case WRITE: return access_in(words, n, 4, to);
        case TAKE: case ABANDON: return segment_in(words, n, to);
        case LOOK: return look_in(words, n, to);
        case LIST: return n == 1 && name_in(words[0], &to->actor) ? NONE : OPERAND;
        case REFILL: return n == 1 && name_in(words[0], &to->arena) ? NONE : OPERAND;
        default: return n ? OPERAND : NONE;
    }
}

static enum fault event_in(const struct text *words, size_t n, struct event *to) {
    uint64_t worker;
    struct text digits = {words[0].at + 1, words[0].length - 1};
    if (*words[0].at != 'w' || !number_in(digits, 15, &worker) || n < 2) return COMMAND;
    memset(to, 0, sizeof *to);
    to->worker = worker;
    while (to->command < COMMANDS && !is(words[1], COMMAND_NAMES[to->command])) to->command++;
    return to->command == COMMANDS ? COMMAND : operands(words + 2, n - 2, to);
}

// ---- joined input

// The first line that is the mark, or the end where none is; and where what is behind it begins.
static const unsigned char *mark_in(const unsigned char *at, const unsigned char *end,
                                    const unsigned char **behind) {
    *behind = end;
    while (at < end) {
        const unsigned char *stop = memchr(at, '\n', end - at);
        if (!stop) stop = end;
        struct text line = {at, stop - at};
        const unsigned char *next = stop < end ? stop + 1 : end;
        if (is(line, (struct text)TEXT("---")) || is(line, (struct text)TEXT("---\r"))) {
            *behind = next;
            return at;
        }
        at = next;
    }
    return end;
}

#endif
