// Writes a trace of about so many bytes that is hard in one way:
//     limit list BYTES        the shortest lines, `w0 list a`
//     limit blank BYTES       blank lines
//     limit comments BYTES    lines of a comment alone
//     limit labels BYTES      65,536 labels given, and then read by turns
//     limit names BYTES       65,536 names of tenants that the policy lacks, by turns
//     limit slots BYTES       the same, where all names begin and end alike and are as long
//     limit colliding BYTES   labels as above, whose hashes share their low 16 bits
//
// A label's hash is that of the set that heapguard keeps labels in, which has no secret: whoever
// writes a trace can choose them so. By these bits all of them fall into one bucket.
#include <stdint.h>
#include <stdio.h>
#include <stdlib.h>
#include <string.h>

enum { COUNT = 65536, SEGMENTS = 64, DIGITS = 36, LOW = 0x5a5 };

static char names[COUNT][17];
static long left;

// Writes a line, unless it would be too long for what is left.
static void line(const char *before, const char *name, const char *after) {
    long length = (long)(strlen(before) + strlen(name) + strlen(after)) + 1;
    if (length > left) {
        left = 0;
        return;
    }
    left -= length;
    fputs(before, stdout);
    fputs(name, stdout);
    puts(after);
}

static void fill(const char *text) {
    while (left > 0) line(text, "", "");
}

// The low 16 bits of an FNV-1a hash after a byte more, which those before it determine.
static uint16_t hashed(uint16_t low, char byte) {
    return (uint16_t)((low ^ (unsigned char)byte) * 0x1b3u);
}

static const char digits[] = "abcdefghijklmnopqrstuvwxyz0123456789";

// A name of eight bytes for each number, of letters and digits between two letters.
static void spell(char *name, uint64_t number) {
    name[0] = 'n';
    for (int at = 6; at > 0; at--, number /= DIGITS) name[at] = digits[number % DIGITS];
    name[7] = 'z';
    name[8] = 0;
}

// For each state of a hash's low bits two bytes that lead from it to the same, if there are such.
static short ends[1 << 16];

static void find_ends(void) {
    for (int low = 0; low < 1 << 16; low++) ends[low] = -1;
    for (int low = 0; low < 1 << 16; low++)
        for (int pair = 0; pair < DIGITS * DIGITS; pair++)
            if (hashed(hashed((uint16_t)low, digits[pair / DIGITS]), digits[pair % DIGITS]) == LOW)
                ends[low] = (short)pair;
}

static void colliding(void) {
    uint64_t number = 0;
    find_ends();
    for (int at = 0; at < COUNT;) {
        spell(names[at], number++ * DIGITS);
        uint16_t low = 0x2325;
        for (int byte = 0; byte < 6; byte++) low = hashed(low, names[at][byte]);
        if (ends[low] < 0) continue;
        names[at][6] = digits[ends[low] / DIGITS];
        names[at][7] = digits[ends[low] % DIGITS];
        at++;
    }
}

static void labels(void) {
    for (int k = 0; k < SEGMENTS; k++) line("w0 refill main", "", "");
    for (int at = 0; at < COUNT; at++) line("w0 alloc alice main 8 as ", names[at], "");
    for (unsigned at = 0; left > 0; at += 40503u) line("w0 read alice ", names[at % COUNT], " 0");
}

static void tenants(void) {
    for (unsigned at = 0; left > 0; at += 40503u) line("w0 alloc ", names[at % COUNT], " main 8");
}

int main(int count, char **words) {
    if (count < 3) {
        fputs("usage: limit KIND BYTES\n", stderr);
        return 2;
    }
    const char *kind = words[1];
    left = atol(words[2]);
    for (int at = 0; at < COUNT; at++) snprintf(names[at], sizeof names[at], "n%d", at);
    if (!strcmp(kind, "list")) fill("w0 list a");
    else if (!strcmp(kind, "blank")) fill("");
    else if (!strcmp(kind, "comments")) fill("#");
    else if (!strcmp(kind, "labels")) labels();
    else if (!strcmp(kind, "names")) tenants();
    else if (!strcmp(kind, "slots")) {
        for (int at = 0; at < COUNT; at++) spell(names[at], (uint64_t)at);
        tenants();
    } else if (!strcmp(kind, "colliding")) {
        colliding();
        labels();
    } else return 2;
    return fflush(stdout) || ferror(stdout);
}
