/* Reads a policy on standard input, and writes the line of its first fault. */
#include "heapguard.h"
#include <stdio.h>

int main(void)
{
    static char text[65536], room[4096];
    size_t length = fread(text, 1, sizeof text, stdin);
    hg_core core = HG_CORE_INIT;
    hg_reply reply = hg_open(&core, text, length, room, sizeof room);
    if (reply.status == HG_DONE) return hg_close(&core).status == HG_DONE ? 0 : 1;
    printf("%.*s\n", (int)reply.value, room);
    return 0;
}
