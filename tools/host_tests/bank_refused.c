/* Each request of hg_bank_open and of hg_bank_grow for memory is refused in turn: it is answered
 * HG_NO_MEMORY, nothing is lost, and the bank is closed, or as it was. Where the line of a fault
 * finds no memory, nothing of it is told. Linked with --wrap for malloc, realloc and free.
 */
#include "heapguard.h"
#include "refusing.h"
#include <stdio.h>

enum { CORES = 3, MOST = 16384 };

static const char POLICY[] =
    "version = 1\n"
    "workers = 2\n"
    "tenant = [ {name = \"ann\", limit = 200000}, {name = \"bob\", limit = 64} ]\n"
    "arena = [ {name = \"main\", segments = 1}, {name = \"vault\", segments = 1} ]\n"
    "grant = [ {owner = \"ann\", to = \"bob\", rights = [\"read\", \"free\"]} ]\n";

static const char FAULTY[] = "version = 1\ncolour = 3\n";

/* How many requests an opening makes, each refused in turn; -1 where one ended otherwise. */
static long refuse_each(const char *policy, size_t length, uint32_t cores, unsigned status)
{
    for (long n = 0; n < 100000; n++) {
        hg_bank bank = HG_BANK_INIT;
        char room[64] = "";
        long before = live;
        left = n;
        hg_reply reply = hg_bank_open(&bank, policy, length, cores, room, sizeof room);
        left = -1;
        int told = reply.status == status && (status == HG_DONE || reply.value > 0);
        int kept = reply.status == HG_DONE && hg_bank_close(&bank).status != HG_DONE;
        int quiet = reply.value == 0 && room[0] == 0;
        int lost = kept || live != before || hg_bank_cores(&bank).status != HG_CLOSED;
        int refused = quiet && (reply.status == HG_NO_MEMORY || reply.status == status);
        if (lost || !(told || refused)) {
            printf("bank_refused: request %ld: %s, %ld lost\n", n, hg_status_text(reply.status),
                   live - before);
            return -1;
        }
        if (told) return n;
    }
    return -1;
}

/* A bank that serves one worker in one core, with what is asked of it again and again. */
typedef struct {
    hg_bank bank;
    hg_bank_handle block;
} served;

static int is_as_it_was(served *it, uint64_t cores)
{
    uint32_t last = (uint32_t)cores - 1;
    return hg_bank_cores(&it->bank).value == cores
        && hg_bank_holder(&it->bank, 0, 0).value == 0
        && hg_bank_holder(&it->bank, last, 1).status == HG_NOT_HELD
        && hg_bank_take(&it->bank, 0, last + 1, 0).status == HG_NOT_HELD
        && hg_bank_charge(&it->bank, 0, 0).value == 24
        && hg_bank_read(&it->bank, 0, 0, it->block, 2).value == 7
        && hg_bank_read(&it->bank, 0, 1, it->block, 2).value == 7
        && hg_bank_write(&it->bank, 0, 1, it->block, 2, 8).status == HG_NOT_GRANTED;
}

/* How many requests a core more makes, each refused in turn; -1 where one ended otherwise. */
static long refuse_growing(served *it, uint64_t cores)
{
    for (long n = 0; n < 100000; n++) {
        long before = live;
        left = n;
        hg_reply reply = hg_bank_grow(&it->bank);
        left = -1;
        if (reply.status == HG_VALUE && reply.value == cores && is_as_it_was(it, cores + 1))
            return n;
        if (reply.status != HG_NO_MEMORY || reply.owner || reply.detail || reply.value
            || live != before || !is_as_it_was(it, cores)) {
            printf("bank_refused: request %ld of a core more: %s, %ld lost\n", n,
                   hg_status_text(reply.status), live - before);
            return -1;
        }
    }
    return -1;
}

/* With no memory at all, an open bank serves in each of its cores, and closes. */
static int serves(hg_bank *bank)
{
    int so = hg_bank_grow(bank).status == HG_FULL;
    for (uint32_t core = 0; core < CORES; core++) {
        hg_reply refilled = hg_bank_refill(bank, 0, core == 0 ? 1 : 0);
        hg_bank_handle block = hg_bank_handle_of(hg_bank_alloc(bank, 0, 0, core == 0 ? 1 : 0, 24));
        uint32_t segment = (uint32_t)refilled.value;
        so = so && refilled.status == HG_REFILLED && refilled.detail == core && block.core == core
            && hg_bank_write(bank, 0, 0, block, 2, 7).status == HG_DONE
            && hg_bank_look(bank, 0, 0, core, hg_place_of(block.handle)).status == HG_LISTED
            && hg_bank_free(bank, 1, 0, block).status == HG_PARTED
            && hg_bank_deliver(bank, 1, core).status == HG_DONE
            && hg_bank_take(bank, 0, core, segment).status == HG_TAKEN
            && hg_bank_collect(bank, 0, core).status == HG_PAGES
            && hg_bank_abandon(bank, 0, core, segment).status == HG_DONE;
        /* Its current core has an orphan again: another worker takes it. */
        so = so && hg_bank_refill(bank, 1, core == 0 ? 1 : 0).detail == core;
    }
    return so && hg_bank_close(bank).status == HG_DONE;
}

int main(void)
{
    long one = refuse_each(POLICY, sizeof POLICY - 1, 1, HG_DONE);
    long most = refuse_each(POLICY, sizeof POLICY - 1, MOST, HG_DONE);
    long fault = refuse_each(FAULTY, sizeof FAULTY - 1, CORES, HG_UNKNOWN);

    served it = {HG_BANK_INIT, {0, 0}};
    if (hg_bank_open(&it.bank, POLICY, sizeof POLICY - 1, CORES, NULL, 0).status != HG_DONE)
        return 1;
    if (hg_bank_refill(&it.bank, 0, 0).status != HG_REFILLED) return 1;
    it.block = hg_bank_handle_of(hg_bank_alloc(&it.bank, 0, 0, 0, 24));
    if (hg_bank_write(&it.bank, 0, 0, it.block, 2, 7).status != HG_DONE) return 1;
    long second = refuse_growing(&it, 1), third = refuse_growing(&it, 2);
    left = 0;
    int served = serves(&it.bank);
    left = -1;
    printf("bank_refused: %ld requests of an opening, %ld with room for all cores, %ld of a fault, "
           "%ld and %ld of a core more; with none served: %s; %ld lost\n",
           one, most, fault, second, third, served ? "all events served" : "an event wasn't", live);
    return one < 1 || most != one || fault < 1 || second < 1 || third != second || !served
        || live != 0;
}
