/* bank_service_threads [EVENTS [THREADS]]: threads that are the workers of one bank of services of three
 * cores, with no lock. Each makes blocks and leaves them in places that all share, takes what others left
 * there and frees it, and now and then frees what stands there still, so that several free one block at
 * once: one alone is served. In the end each leaves, the bank of services becomes a bank, and what lives
 * there, in all cores, is what stands in the places, each with the word that was written in it.
 */
#define TEST "bank_service_threads"
#include "heapguard_service.h"
#include <pthread.h>
#include <stdatomic.h>
#include <stdio.h>
#include <stdlib.h>

enum { MOST = 16, TENANT = 0, ARENA = 0, SEGMENTS = 3, CORES = 3, PLACES = 512, TIDY = 300 };

static const char POLICY[] =
    "version = 1\n"
    "workers = %u\n"
    "tenant = [ {name = \"host\", limit = 1000000000} ]\n"
    "arena = [ {name = \"main\", segments = 3} ]\n";

typedef struct thread {
    pthread_t id;
    hg_bank_worker worker;
    uint64_t seed, events, made, freed, rivals, again, full, wrong, in[CORES];
} thread;

/* Blocks that live, each in one word, and 0: a handle leaves the upper 13 bits free. */
static _Atomic uint64_t places[PLACES];

static uint64_t word_of(hg_bank_handle block) { return block.handle | block.core << 56; }

static hg_bank_handle block_of(uint64_t word)
{
    hg_bank_handle block = {word >> 56, word & ((UINT64_C(1) << 56) - 1)};
    return block;
}

static uint64_t next(thread *of)
{
    uint64_t x = of->seed += UINT64_C(0x9e3779b97f4a7c15);
    x = (x ^ x >> 30) * UINT64_C(0xbf58476d1ce4e5b9);
    x = (x ^ x >> 27) * UINT64_C(0x94d049bb133111eb);
    return x ^ x >> 31;
}

static void wrong(thread *of, const char *call, hg_reply reply)
{
    if (of->wrong++ == 0)
        printf(TEST ": %s: %s %llu\n", call, hg_status_text(reply.status),
               (unsigned long long)reply.value);
}

/* Makes a call again as long as it is answered so; that is one event. */
#define ASKING(of, reply, call)                                          \
    do {                                                                 \
        (of)->events++;                                                  \
        for ((reply) = (call); (reply).status == HG_AGAIN; (of)->again++) \
            (reply) = (call);                                            \
    } while (0)

/* Frees a block; whether this ended its life. */
static int free_block(thread *of, hg_bank_handle block)
{
    of->events++;
    hg_reply reply = hg_bank_worker_free(&of->worker, TENANT, block);
    if (reply.status == HG_PARTED) {
        hg_reply sent;
        ASKING(of, sent, hg_bank_worker_deliver(&of->worker, hg_bank_core_of(block)));
        if (sent.status != HG_DONE) wrong(of, "deliver", sent);
    }
    int ended = reply.status == HG_DONE || reply.status == HG_PARTED;
    if (!ended && reply.status != HG_STALE && reply.status != HG_ALREADY_FREED)
        wrong(of, "free", reply);
    of->freed += (unsigned)ended;
    return ended;
}

/* Takes in what others freed, and gives back what is empty, in each core. */
static void tidy(thread *of)
{
    hg_reply reply;
    for (uint32_t core = 0; core < CORES; core++) {
        for (uint32_t segment = 0; segment < SEGMENTS; segment++) {
            if (hg_bank_worker_holds(&of->worker, core, segment).value != 1) continue;
            ASKING(of, reply, hg_bank_worker_take(&of->worker, core, segment));
            if (reply.status != HG_TAKEN) wrong(of, "take", reply);
            if (next(of) % 16 == 0) {
                ASKING(of, reply, hg_bank_worker_abandon(&of->worker, core, segment));
                if (reply.status != HG_DONE) wrong(of, "abandon", reply);
            }
        }
        of->events++;
        reply = hg_bank_worker_collect(&of->worker, core);
        if (reply.status != HG_PAGES) wrong(of, "collect", reply);
    }
}

/* A block of so many bytes with its own word in front, or 0 where there is no room anywhere. */
static uint64_t new_block(thread *of)
{
    for (;;) {
        of->events++;
        hg_reply made = hg_bank_worker_alloc(&of->worker, TENANT, ARENA, 1 + next(of) % 2000);
        if (made.status == HG_BLOCK) {
            hg_bank_handle block = hg_bank_handle_of(made);
            uint64_t word = word_of(block);
            of->made++, of->events++, of->in[block.core]++;
            hg_reply done = hg_bank_worker_write(&of->worker, TENANT, block, 0, word);
            if (done.status != HG_DONE) wrong(of, "write", done);
            return word;
        }
        if (made.status != HG_NO_ROOM) wrong(of, "alloc", made);
        hg_reply more;
        ASKING(of, more, hg_bank_worker_refill(&of->worker, ARENA));
        if (more.status == HG_NO_SEGMENT) {
            of->full++;
            tidy(of);
            return 0;
        }
        if (more.status != HG_REFILLED) wrong(of, "refill", more);
    }
}

static uint64_t most;

static void *serve(void *given)
{
    thread *of = given;
    while (of->events < most) {
        _Atomic uint64_t *place = &places[next(of) % PLACES];
        uint64_t word = atomic_load(place);
        if (word != 0 && next(of) % 4 == 0) {
            /* A rival of whoever takes it from there. */
            if (free_block(of, block_of(word))) atomic_compare_exchange_strong(place, &word, 0);
            of->rivals++;
            continue;
        }
        word = new_block(of);
        word = atomic_exchange(place, word);
        if (word != 0) free_block(of, block_of(word));
        if (next(of) % TIDY == 0) tidy(of);
    }
    hg_reply left = hg_bank_worker_leave_now(&of->worker);
    if (left.status != HG_DONE) wrong(of, "leave", left);
    return NULL;
}

/* How many blocks live in the bank that stand in no place, or stand there and don't live. */
static uint64_t compare(hg_bank *bank, uint64_t *lives)
{
    uint64_t unlike = hg_bank_cores(bank).value != CORES;
    while (hg_bank_refill(bank, 0, ARENA).status == HG_REFILLED) {}
    for (uint32_t core = 0; core < CORES; core++) {
        for (uint32_t place = 0; place < SEGMENTS * 8192; place++) {
            hg_reply row = hg_bank_look(bank, 0, TENANT, core, place);
            if (row.status != HG_LISTED) continue;
            (*lives)++;
            hg_bank_handle block = {core, row.value};
            unlike += hg_bank_read(bank, 0, TENANT, block, 0).value != word_of(block);
            unsigned found = 0;
            for (unsigned at = 0; at < PLACES; at++)
                found += atomic_load(&places[at]) == word_of(block);
            unlike += found != 1;
        }
    }
    uint64_t stand = 0;
    for (unsigned at = 0; at < PLACES; at++) stand += atomic_load(&places[at]) != 0;
    return unlike + (stand != *lives);
}

/* A bank of services of so many workers, and each of them. */
static int open_all(hg_bank_service *service, thread *all, unsigned count)
{
    char policy[sizeof POLICY + 8];
    size_t length = (size_t)snprintf(policy, sizeof policy, POLICY, count);
    if (hg_bank_service_open(service, policy, length, CORES, NULL, 0).status != HG_DONE) return 0;
    for (unsigned n = 0; n < count; n++)
        if (hg_bank_service_worker(service, n, &all[n].worker).status != HG_DONE) return 0;
    return 1;
}

int main(int count, char **words)
{
    uint64_t events = count > 1 ? strtoull(words[1], NULL, 10) : 400000;
    unsigned threads = count > 2 ? (unsigned)strtoul(words[2], NULL, 10) : 4;
    if (threads < 1 || threads > MOST || events < 1) return 2;
    most = events / threads;
    static thread all[MOST];
    hg_bank_service service = HG_BANK_SERVICE_INIT;
    hg_bank bank = HG_BANK_INIT;
    for (unsigned n = 0; n < threads; n++) all[n].seed = n + 1;
    if (!open_all(&service, all, threads)) return 1;
    for (unsigned n = 0; n < threads; n++)
        if (pthread_create(&all[n].id, NULL, serve, &all[n]) != 0) return 1;
    /* It may be asked meanwhile. */
    hg_reply early = hg_bank_service_close(&service, &bank);
    uint64_t made = 0, freed = 0, rivals = 0, again = 0, faults = 0, lives = 0, served = 0, full = 0;
    uint64_t in[CORES] = {0};
    faults += early.status != HG_STILL_OUT && early.status != HG_DONE;
    for (unsigned n = 0; n < threads; n++) {
        pthread_join(all[n].id, NULL);
        made += all[n].made, freed += all[n].freed, rivals += all[n].rivals, full += all[n].full;
        again += all[n].again, faults += all[n].wrong, served += all[n].events;
        for (unsigned core = 0; core < CORES; core++) in[core] += all[n].in[core];
    }
    hg_reply closed = early.status == HG_DONE ? early : hg_bank_service_close(&service, &bank);
    if (closed.status != HG_DONE) {
        printf(TEST ": close: %s %u\n", hg_status_text(closed.status), (unsigned)closed.value);
        return 1;
    }
    faults += compare(&bank, &lives);
    faults += made != freed + lives;
    printf(TEST ": %llu events of %u threads: %llu blocks made (%llu, %llu and %llu by core), %llu freed, "
           "%llu live; %llu tries of rivals, %llu calls made again, %llu times full, %llu faults\n",
           (unsigned long long)served, threads, (unsigned long long)made, (unsigned long long)in[0],
           (unsigned long long)in[1], (unsigned long long)in[2], (unsigned long long)freed,
           (unsigned long long)lives, (unsigned long long)rivals, (unsigned long long)again,
           (unsigned long long)full, (unsigned long long)faults);
    return faults != 0 || hg_bank_close(&bank).status != HG_DONE;
}
