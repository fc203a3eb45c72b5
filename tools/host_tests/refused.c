/* Each request of hg_open for memory is refused in turn: it is answered HG_NO_MEMORY, nothing is
 * lost and the core is closed as it was. Where the line of a fault finds no memory, nothing of it
 * is told. Linked with --wrap for malloc, realloc and free.
 */
#include "heapguard.h"
#include "refusing.h"
#include <stdio.h>
#include <string.h>

static const char POLICY[] =
    "version = 1\n"
    "workers = 2\n"
    "tenant = [ {name = \"ann\", limit = 8192}, {name = \"bob\", limit = 64} ]\n"
    "arena = [ {name = \"main\", segments = 2}, {name = \"vault\", segments = 1} ]\n"
    "grant = [ {owner = \"ann\", to = \"bob\", rights = [\"read\", \"free\"]} ]\n";

static const char FAULTY[] = "version = 1\ncolour = 3\n";

/* How many requests an opening makes, each refused in turn; -1 where one ended otherwise. */
static long refuse_each(const char *policy, size_t length, unsigned status)
{
    for (long n = 0; n < 100000; n++) {
        hg_core core = HG_CORE_INIT;
        char room[64] = "";
        long before = live;
        left = n;
        hg_reply reply = hg_open(&core, policy, length, room, sizeof room);
        left = -1;
        int told = reply.status == status && (status == HG_DONE || reply.value > 0);
        int kept = reply.status == HG_DONE && hg_close(&core).status != HG_DONE;
        int quiet = reply.value == 0 && room[0] == 0;
        int lost = kept || live != before || hg_workers(&core).status != HG_CLOSED;
        int refused = quiet && (reply.status == HG_NO_MEMORY || reply.status == status);
        if (lost || !(told || refused)) {
            printf("refused: request %ld: %s, %ld lost\n", n, hg_status_text(reply.status),
                   live - before);
            return -1;
        }
        if (told) return n;
    }
    return -1;
}

int main(void)
{
    long opening = refuse_each(POLICY, sizeof POLICY - 1, HG_DONE);
    long fault = refuse_each(FAULTY, sizeof FAULTY - 1, HG_UNKNOWN);

    /* With no memory at all, an open core serves, and closes. */
    hg_core core = HG_CORE_INIT;
    if (hg_open(&core, POLICY, sizeof POLICY - 1, NULL, 0).status != HG_DONE) return 1;
    left = 0;
    int served = hg_refill(&core, 0, 0).status == HG_REFILLED;
    hg_handle block = hg_alloc(&core, 0, 0, 0, 24).value;
    served = served && hg_write(&core, 0, 0, block, 2, 7).status == HG_DONE
        && hg_look(&core, 0, 0, hg_place_of(block)).status == HG_LISTED
        && hg_free(&core, 1, 0, block).status == HG_PARTED && hg_deliver(&core, 1).status == HG_DONE
        && hg_take(&core, 0, 0).status == HG_TAKEN && hg_collect(&core, 0).status == HG_PAGES
        && hg_abandon(&core, 0, 0).status == HG_DONE && hg_close(&core).status == HG_DONE;
    left = -1;
    printf("refused: %ld requests of an opening, %ld of a fault; with none served: %s; %ld lost\n",
           opening, fault, served ? "all events served" : "an event wasn't", live);
    return opening < 1 || fault < 1 || !served || live != 0;
}
