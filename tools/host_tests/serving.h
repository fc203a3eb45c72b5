/* A thread that is a worker of a service, for one tenant and in one arena: what it counts, and calls
 * that are made until they are served. A test defines TEST, by which it tells.
 */
#ifndef SERVING_H
#define SERVING_H

#include "heapguard_service.h"
#include <pthread.h>
#include <stdio.h>

enum { MOST = 16, TENANT = 0, ARENA = 0, SEGMENTS = 48 };

static const char POLICY[] =
    "version = 1\n"
    "workers = %u\n"
    "tenant = [ {name = \"host\", limit = 1000000000} ]\n"
    "arena = [ {name = \"main\", segments = 48} ]\n";

typedef struct thread {
    pthread_t id;
    hg_worker worker;
    uint64_t seed, events, made, freed, rivals, again, wrong;
} thread;

static uint64_t next(thread *of)
{
    uint64_t x = of->seed += UINT64_C(0x9e3779b97f4a7c15);
    x = (x ^ x >> 30) * UINT64_C(0xbf58476d1ce4e5b9);
    x = (x ^ x >> 27) * UINT64_C(0x94d049bb133111eb);
    return x ^ x >> 31;
}

static void wrong(thread *of, const char *call, hg_reply reply)
{
    if (of->wrong++ == 0)
        printf(TEST ": %s: %s %llu\n", call, hg_status_text(reply.status),
               (unsigned long long)reply.value);
}

/* Makes a call again as long as it is answered so; that is one event. */
#define ASKING(of, reply, call)                                          \
    do {                                                                 \
        (of)->events++;                                                  \
        for ((reply) = (call); (reply).status == HG_AGAIN; (of)->again++) \
            (reply) = (call);                                            \
    } while (0)

/* A service of so many workers, and each of them. */
static int open_service(hg_service *service, hg_worker *workers[], unsigned count)
{
    char policy[sizeof POLICY + 8];
    int length = snprintf(policy, sizeof policy, POLICY, count);
    if (hg_service_open(service, policy, (size_t)length, NULL, 0).status != HG_DONE) return 0;
    for (unsigned n = 0; n < count; n++)
        if (hg_service_worker(service, n, workers[n]).status != HG_DONE) return 0;
    return 1;
}

/* Frees a block; whether this ended its life. */
static int free_block(thread *of, hg_handle block)
{
    of->events++;
    hg_reply reply = hg_worker_free(&of->worker, TENANT, block);
    if (reply.status == HG_PARTED) {
        hg_reply sent;
        ASKING(of, sent, hg_worker_deliver(&of->worker));
        if (sent.status != HG_DONE) wrong(of, "deliver", sent);
    }
    int ended = reply.status == HG_DONE || reply.status == HG_PARTED;
    if (!ended && reply.status != HG_STALE && reply.status != HG_ALREADY_FREED)
        wrong(of, "free", reply);
    of->freed += (unsigned)ended;
    return ended;
}

/* Takes in what others freed, and gives back what is empty. */
static void tidy(thread *of)
{
    hg_reply reply;
    for (uint32_t segment = 0; segment < SEGMENTS; segment++) {
        if (hg_worker_holds(&of->worker, segment).value != 1) continue;
        ASKING(of, reply, hg_worker_take(&of->worker, segment));
        if (reply.status != HG_TAKEN) wrong(of, "take", reply);
        if (next(of) % 64 == 0) {
            ASKING(of, reply, hg_worker_abandon(&of->worker, segment));
            if (reply.status != HG_DONE) wrong(of, "abandon", reply);
        }
    }
    of->events++;
    reply = hg_worker_collect(&of->worker);
    if (reply.status != HG_PAGES) wrong(of, "collect", reply);
}

/* A block of so many bytes, or 0 where there is no room anywhere. */
static hg_handle alloc_block(thread *of, uint64_t bytes)
{
    for (;;) {
        of->events++;
        hg_reply made = hg_worker_alloc(&of->worker, TENANT, ARENA, bytes);
        if (made.status == HG_BLOCK) {
            of->made++;
            return made.value;
        }
        if (made.status != HG_NO_ROOM) wrong(of, "alloc", made);
        hg_reply more;
        ASKING(of, more, hg_worker_refill(&of->worker, ARENA));
        if (more.status == HG_NO_SEGMENT) return 0;
        if (more.status != HG_REFILLED) wrong(of, "refill", more);
    }
}

#endif
