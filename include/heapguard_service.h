/* heapguard_service.h: heapguard in the threads of a program in C11 or C++17. docs/EMBEDDING.md has
 * how to link it, and a host to begin from.
 *
 * A service is what a core is, served by several threads at once: each thread is one of its workers,
 * and makes its calls with no lock, whatever the others do. Blocks, handles, policies and answers
 * are a core's. What is in crates/hg_c/README.md is what each call promises, and what of it is
 * proved.
 *
 * No call waits for another, and none has a condition on what its numbers, texts and handles are: as
 * heapguard.h says of a core's. What workers share stands ready between two calls. A Deliver, a Take,
 * a Refill or an Abandon that finds another call at it is answered HG_AGAIN, and has done nothing:
 * the host makes the call again, as the functions at the end of this file do. A thread that is stopped
 * in a call, or ended there, keeps the others asking. No call but hg_service_open, hg_service_worker,
 * hg_service_close and hg_worker_list takes memory, and their like of a bank of services.
 *
 * A bank of services is what a bank is, served so: up to 16384 cores under one policy, for workers in
 * threads. Its calls stand behind those of a service; what is said here of a service and of a worker
 * holds of a bank of services and of a bank worker too.
 *
 * What the caller owes, beside what heapguard.h says of lengths, the allocator, signals and forks:
 *  1. One call at a time on a service, and one at a time on a worker: questions too, which write the
 *     16 bytes as the other calls do. Calls on two workers, or on a worker and the service, need no
 *     order: they are the point. A worker may go to another thread,
 *     and calls of several threads on one worker are then ordered by a lock, by starting or joining
 *     a thread, or by sequentially consistent atomics.
 *  2. A service is 16 bytes of the caller, aligned to 8, and begins as HG_SERVICE_INIT, which is
 *     zeros, a worker as HG_WORKER_INIT, a bank of services as HG_BANK_SERVICE_INIT, and a bank worker
 *     as HG_BANK_WORKER_INIT. Left without that, or copied: as heapguard.h says of a
 *     core. A thread is handed a pointer to its worker, or its worker whole, and then the old place
 *     isn't used again, not to drop it either. Of a call's two pointers none is the other.
 */
#ifndef HEAPGUARD_SERVICE_H
#define HEAPGUARD_SERVICE_H

#include "heapguard.h"

#if (defined(__cplusplus) && __cplusplus >= 201703L) \
    || (defined(__STDC_VERSION__) && __STDC_VERSION__ > 201710L)
#define HG_MUST_USE [[nodiscard]]
#elif defined(__GNUC__)
#define HG_MUST_USE __attribute__((warn_unused_result))
#else
#define HG_MUST_USE
#endif

#ifdef __cplusplus
#define HG_AS(type, value) static_cast<type>(value)
extern "C" {
#else
#define HG_AS(type, value) ((type)(value))
#endif

/* A service. Its fields are the library's. */
typedef struct hg_service {
    void *at;
    uint64_t mark;
} hg_service;

/* A service that is closed. */
#define HG_SERVICE_INIT {0, 0}

/* A worker of a service. Its fields are the library's. */
typedef struct hg_worker {
    void *at;
    uint64_t mark;
} hg_worker;

/* No worker. */
#define HG_WORKER_INIT {0, 0}

/* A bank of services. Its fields are the library's. */
typedef struct hg_bank_service {
    void *at;
    uint64_t mark;
} hg_bank_service;

/* A bank of services that is closed. */
#define HG_BANK_SERVICE_INIT {0, 0}

/* A worker of a bank of services. Its fields are the library's. */
typedef struct hg_bank_worker {
    void *at;
    uint64_t mark;
} hg_bank_worker;

/* No bank worker. */
#define HG_BANK_WORKER_INIT {0, 0}

/* Opens a service by the text of its policy, with all of its workers: as hg_open. */
HG_MUST_USE hg_reply hg_service_open(hg_service *service, const char *policy, size_t policy_length,
                                     char *room, size_t room_length);

/* Gives the worker of a number: HG_DONE; HG_HELD where one stands in `worker` already; HG_NO_WORKER
 * where the policy has none of that number, or it was given, or has left; or HG_NO_MEMORY. */
HG_MUST_USE hg_reply hg_service_worker(hg_service *service, uint32_t number, hg_worker *worker);

/* The service becomes a core, in which nobody holds a segment and no hand has a block: HG_DONE, once
 * each worker that was given has left. Else it goes on: HG_STILL_OUT with the lowest worker that
 * hasn't left, or that is leaving just then, HG_STILL_HELD with the lowest segment that isn't among
 * those that nobody holds, or 0 where another call has these, HG_AGAIN, or HG_HELD where a core is
 * open in `core`. After HG_NO_MEMORY it is to be closed again before all else: its core may wait there
 * for memory, and what is asked of the service is answered HG_CLOSED then, but for hg_service_open
 * (HG_HELD) and hg_service_drop, which gives the core up. Workers that weren't given leave by the
 * first closing, and aren't given any more. A worker that was dropped keeps its service from closing:
 * HG_STILL_OUT. HG_LOST with the number of the lowest place that isn't accounted for, which none of
 * these calls is meant to bring: then the service is gone. */
HG_MUST_USE hg_reply hg_service_close(hg_service *service, hg_core *core);

/* Gives a service up, or the core that waits there, and frees what no worker has: HG_DONE. Its workers
 * go on, until they are dropped or leave; the blocks come into no core. A worker is answered
 * HG_CLOSED, and stays. */
HG_MUST_USE hg_reply hg_service_drop(hg_service *service);

/* Questions: HG_VALUE with the number, or HG_NO_NAME. */
HG_MUST_USE hg_reply hg_service_workers(hg_service *service);
HG_MUST_USE hg_reply hg_service_segments(hg_service *service);
HG_MUST_USE hg_reply hg_service_tenant(hg_service *service, const char *name, size_t name_length);
HG_MUST_USE hg_reply hg_service_arena(hg_service *service, const char *name, size_t name_length);

/* The ten events of a worker, answered as a core's are; and HG_AGAIN, of four of them. */
HG_MUST_USE hg_reply hg_worker_alloc(hg_worker *worker, uint32_t actor, uint32_t arena,
                                     uint64_t bytes);
HG_MUST_USE hg_reply hg_worker_free(hg_worker *worker, uint32_t actor, hg_handle block);
HG_MUST_USE hg_reply hg_worker_read(hg_worker *worker, uint32_t actor, hg_handle block,
                                    uint32_t index);
HG_MUST_USE hg_reply hg_worker_write(hg_worker *worker, uint32_t actor, hg_handle block,
                                     uint32_t index, uint64_t value);
HG_MUST_USE hg_reply hg_worker_look(hg_worker *worker, uint32_t actor, uint32_t place);
HG_MUST_USE hg_reply hg_worker_collect(hg_worker *worker);
HG_MUST_USE hg_reply hg_worker_deliver(hg_worker *worker);                   /* or HG_AGAIN */
HG_MUST_USE hg_reply hg_worker_take(hg_worker *worker, uint32_t segment);    /* or HG_AGAIN */
HG_MUST_USE hg_reply hg_worker_refill(hg_worker *worker, uint32_t arena);    /* or HG_AGAIN */
HG_MUST_USE hg_reply hg_worker_abandon(hg_worker *worker, uint32_t segment); /* or HG_AGAIN */

/* Many words of a block in one call, as hg_read_words and hg_write_words: they are the calls of
 * hg_worker_read or hg_worker_write for these words, one after another, and the first that is
 * refused ends them; HG_DONE, or the status of that one, and the value is how many were read or
 * written. Nothing is promised of what other workers do between two of them. */
HG_MUST_USE hg_reply hg_worker_read_words(hg_worker *worker, uint32_t actor, hg_handle block,
                                          uint32_t first, uint64_t *room, size_t count);
HG_MUST_USE hg_reply hg_worker_write_words(hg_worker *worker, uint32_t actor, hg_handle block,
                                           uint32_t first, const uint64_t *words, size_t count);

/* Bytes of a block, as hg_read_bytes and hg_write_bytes: calls of hg_worker_read and hg_worker_write
 * for its words, one after another. Between two of them another worker may free the block, and then
 * the next is refused; of a word that was refused nothing is written. */
HG_MUST_USE hg_reply hg_worker_read_bytes(hg_worker *worker, uint32_t actor, hg_handle block,
                                          uint64_t first, void *room, size_t count);
HG_MUST_USE hg_reply hg_worker_write_bytes(hg_worker *worker, uint32_t actor, hg_handle block,
                                           uint64_t first, const void *bytes, size_t count);

/* The blocks that the worker holds and the actor may list, in rising order of their places: HG_DONE
 * with how many there are, each a Look that was answered HG_LISTED, of which as many stand in the
 * room as have one there; what is behind them is as it was. Or HG_NO_MEMORY. */
HG_MUST_USE hg_reply hg_worker_list(hg_worker *worker, uint32_t actor, hg_reply *room,
                                    size_t count);

/* Questions: HG_VALUE with the worker's number; with 1 or 0; with the number of the place of the
 * block in its hand, or HG_NOTHING_IN_HAND. */
HG_MUST_USE hg_reply hg_worker_number(hg_worker *worker);
HG_MUST_USE hg_reply hg_worker_holds(hg_worker *worker, uint32_t segment);
HG_MUST_USE hg_reply hg_worker_hand(hg_worker *worker);

/* The worker goes back to its service: HG_DONE, and there is none any more. HG_BUSY where it has a
 * block in hand, HG_STILL_HELD with the lowest segment that it holds, or HG_AGAIN: then it stays. */
HG_MUST_USE hg_reply hg_worker_leave(hg_worker *worker);

/* Gives a worker up with all that it holds and has in hand: HG_DONE. Its service closes no more. A
 * service is answered HG_CLOSED, and stays. */
HG_MUST_USE hg_reply hg_worker_drop(hg_worker *worker);

/* A bank of services. All its cores are open from the start, and each has the segments of all arenas.
 * Its workers name a block as a bank does, by an hg_bank_handle, and a place, a segment and a hand by
 * the number of a core too, of 32 bits (hg_bank_core_of has that of a block); a core that isn't there is
 * answered as in a bank. Each worker has a hand
 * in each core. Words and bytes many at once, as hg_worker_read_words and hg_worker_read_bytes, there
 * are none of. */

/* Opens a bank of so many services, its cores, 1 to 16384, with all of its workers: as hg_bank_open,
 * and HG_NO_COUNT. */
HG_MUST_USE hg_reply hg_bank_service_open(hg_bank_service *service, const char *policy,
                                          size_t policy_length, uint32_t cores, char *room,
                                          size_t room_length);

/* Gives the worker of a number: as hg_service_worker. */
HG_MUST_USE hg_reply hg_bank_service_worker(hg_bank_service *service, uint32_t number,
                                            hg_bank_worker *worker);

/* The bank of services becomes a bank of as many cores, in which nobody holds a segment and no hand has
 * a block: HG_DONE, once each worker that was given has left. Its cores close from the highest number
 * down, and what is closed stays so. Where one can't close, the bank of services goes on, to be closed
 * again: HG_STILL_OUT with the lowest worker that hasn't left that core, or that is leaving just then,
 * or HG_STILL_HELD with a segment there, as of a service, and the number of the core in `detail`; HG_AGAIN;
 * or HG_HELD where a bank is open in `bank`. After HG_NO_MEMORY it is to be closed again before all
 * else: its bank may wait there for memory, as the core of a service may. Workers that weren't given
 * leave by the first closing, and aren't given any more. A worker that was dropped keeps its bank of
 * services from closing: HG_STILL_OUT. HG_LOST with the number of the lowest place that isn't accounted
 * for, and its core in `detail`, which none of these calls is meant to bring: then it is gone. */
HG_MUST_USE hg_reply hg_bank_service_close(hg_bank_service *service, hg_bank *bank);

/* Gives a bank of services up, or the bank that waits there: as hg_service_drop. */
HG_MUST_USE hg_reply hg_bank_service_drop(hg_bank_service *service);

/* Questions: HG_VALUE with the number, or HG_NO_NAME. The segments are those of each core. */
HG_MUST_USE hg_reply hg_bank_service_cores(hg_bank_service *service);
HG_MUST_USE hg_reply hg_bank_service_workers(hg_bank_service *service);
HG_MUST_USE hg_reply hg_bank_service_segments(hg_bank_service *service);
HG_MUST_USE hg_reply hg_bank_service_tenant(hg_bank_service *service, const char *name,
                                            size_t name_length);
HG_MUST_USE hg_reply hg_bank_service_arena(hg_bank_service *service, const char *name,
                                           size_t name_length);

/* The ten events of a bank worker, answered as a bank's are; and HG_AGAIN, of four of them. By arena
 * one core is current, and an Alloc and a Refill ask the cores from it on, round and round: the first
 * that has room, or a segment, serves and is current from then on, and `detail` has its number.
 * HG_NO_ROOM and HG_NO_SEGMENT only where no core has any. A Refill asks no core behind one of which
 * another call has the segments: HG_AGAIN, so that which core serves is never a matter of who came
 * first. A tenant's limit with a worker counts over all cores. */
HG_MUST_USE hg_reply hg_bank_worker_alloc(hg_bank_worker *worker, uint32_t actor, uint32_t arena,
                                          uint64_t bytes);
HG_MUST_USE hg_reply hg_bank_worker_free(hg_bank_worker *worker, uint32_t actor,
                                         hg_bank_handle block);
HG_MUST_USE hg_reply hg_bank_worker_read(hg_bank_worker *worker, uint32_t actor,
                                         hg_bank_handle block, uint32_t index);
HG_MUST_USE hg_reply hg_bank_worker_write(hg_bank_worker *worker, uint32_t actor,
                                          hg_bank_handle block, uint32_t index, uint64_t value);
HG_MUST_USE hg_reply hg_bank_worker_look(hg_bank_worker *worker, uint32_t actor, uint32_t core,
                                         uint32_t place);
HG_MUST_USE hg_reply hg_bank_worker_collect(hg_bank_worker *worker, uint32_t core);
HG_MUST_USE hg_reply hg_bank_worker_deliver(hg_bank_worker *worker, uint32_t core); /* or HG_AGAIN */
HG_MUST_USE hg_reply hg_bank_worker_take(hg_bank_worker *worker, uint32_t core,
                                         uint32_t segment);                         /* or HG_AGAIN */
HG_MUST_USE hg_reply hg_bank_worker_refill(hg_bank_worker *worker, uint32_t arena); /* or HG_AGAIN */
HG_MUST_USE hg_reply hg_bank_worker_abandon(hg_bank_worker *worker, uint32_t core,
                                            uint32_t segment);                      /* or HG_AGAIN */

/* The blocks that the worker holds in one core and the actor may list: as hg_worker_list. A row has the
 * handle in the core that was asked, and no number of a core: the block is {core, row.value}. */
HG_MUST_USE hg_reply hg_bank_worker_list(hg_bank_worker *worker, uint32_t core, uint32_t actor,
                                         hg_reply *room, size_t count);

/* Questions: HG_VALUE with the worker's number; with that of its cores; with 1 or 0; with the number of
 * the place of the block in its hand in a core, or HG_NOTHING_IN_HAND; with what counts against the
 * tenant's limit with it, over all cores, in bytes, or HG_NO_NAME. */
HG_MUST_USE hg_reply hg_bank_worker_number(hg_bank_worker *worker);
HG_MUST_USE hg_reply hg_bank_worker_cores(hg_bank_worker *worker);
HG_MUST_USE hg_reply hg_bank_worker_holds(hg_bank_worker *worker, uint32_t core, uint32_t segment);
HG_MUST_USE hg_reply hg_bank_worker_hand(hg_bank_worker *worker, uint32_t core);
HG_MUST_USE hg_reply hg_bank_worker_charge(hg_bank_worker *worker, uint32_t tenant);

/* The worker goes back to its bank of services: HG_DONE, and there is none any more. Where it has
 * something in a core, it stays as it was, and `detail` has the number of the lowest such core: HG_BUSY
 * where it has a block in hand there, else HG_STILL_HELD with the lowest segment that it holds there.
 * HG_AGAIN where another call has what it has to put back in a core, as where another worker leaves
 * that core just then: then it is leaving. It leaves what is left when it is asked again, or is dropped,
 * and any other call is answered HG_CLOSED. */
HG_MUST_USE hg_reply hg_bank_worker_leave(hg_bank_worker *worker);

/* Gives a worker up with all that it holds and has in hand: as hg_worker_drop. */
HG_MUST_USE hg_reply hg_bank_worker_drop(hg_bank_worker *worker);

#ifdef __cplusplus
}
#endif

/* What four calls do where another call is there: they ask again, at once and as often as it takes. A
 * host that has something else to do meanwhile, or threads of several priorities on one processor,
 * makes the calls themselves. */
HG_MUST_USE static inline hg_reply hg_worker_deliver_now(hg_worker *worker)
{
    hg_reply reply;
    do reply = hg_worker_deliver(worker);
    while (reply.status == HG_AGAIN);
    return reply;
}

HG_MUST_USE static inline hg_reply hg_worker_take_now(hg_worker *worker, uint32_t segment)
{
    hg_reply reply;
    do reply = hg_worker_take(worker, segment);
    while (reply.status == HG_AGAIN);
    return reply;
}

HG_MUST_USE static inline hg_reply hg_worker_refill_now(hg_worker *worker, uint32_t arena)
{
    hg_reply reply;
    do reply = hg_worker_refill(worker, arena);
    while (reply.status == HG_AGAIN);
    return reply;
}

HG_MUST_USE static inline hg_reply hg_worker_abandon_now(hg_worker *worker, uint32_t segment)
{
    hg_reply reply;
    do reply = hg_worker_abandon(worker, segment);
    while (reply.status == HG_AGAIN);
    return reply;
}

/* Sends what is in hand, gives up each segment that the worker holds, in rising order, and leaves:
 * HG_DONE, or what the first call that wasn't served was answered, and then the worker stays. */
HG_MUST_USE static inline hg_reply hg_worker_leave_now(hg_worker *worker)
{
    hg_reply reply = hg_worker_deliver_now(worker);
    if (reply.status != HG_DONE && reply.status != HG_NOTHING_IN_HAND) return reply;
    for (;;) {
        reply = hg_worker_leave(worker);
        if (reply.status == HG_AGAIN) continue;
        if (reply.status != HG_STILL_HELD) return reply;
        reply = hg_worker_abandon_now(worker, HG_AS(uint32_t, reply.value));
        if (reply.status != HG_DONE) return reply;
    }
}

/* The same of a bank worker. */
HG_MUST_USE static inline hg_reply hg_bank_worker_deliver_now(hg_bank_worker *worker, uint32_t core)
{
    hg_reply reply;
    do reply = hg_bank_worker_deliver(worker, core);
    while (reply.status == HG_AGAIN);
    return reply;
}

HG_MUST_USE static inline hg_reply hg_bank_worker_take_now(hg_bank_worker *worker, uint32_t core,
                                                           uint32_t segment)
{
    hg_reply reply;
    do reply = hg_bank_worker_take(worker, core, segment);
    while (reply.status == HG_AGAIN);
    return reply;
}

HG_MUST_USE static inline hg_reply hg_bank_worker_refill_now(hg_bank_worker *worker, uint32_t arena)
{
    hg_reply reply;
    do reply = hg_bank_worker_refill(worker, arena);
    while (reply.status == HG_AGAIN);
    return reply;
}

HG_MUST_USE static inline hg_reply hg_bank_worker_abandon_now(hg_bank_worker *worker, uint32_t core,
                                                              uint32_t segment)
{
    hg_reply reply;
    do reply = hg_bank_worker_abandon(worker, core, segment);
    while (reply.status == HG_AGAIN);
    return reply;
}

/* Sends what is in hand and gives up each segment that the worker holds, core by core, and leaves:
 * HG_DONE, or what the first call that wasn't served was answered, and then the worker stays. Each core
 * is asked once; hg_bank_worker_leave, asked again for each segment, looks at all cores each time. */
HG_MUST_USE static inline hg_reply hg_bank_worker_leave_now(hg_bank_worker *worker)
{
    enum { SEGMENTS = 64 }; /* as many as a core may have */
    uint32_t cores = HG_AS(uint32_t, hg_bank_worker_cores(worker).value);
    hg_reply reply;
    for (uint32_t core = 0; core < cores; core++) {
        reply = hg_bank_worker_deliver_now(worker, core);
        if (reply.status != HG_DONE && reply.status != HG_NOTHING_IN_HAND) return reply;
        for (uint32_t segment = 0; segment < SEGMENTS; segment++) {
            if (hg_bank_worker_holds(worker, core, segment).value != 1) continue;
            reply = hg_bank_worker_abandon_now(worker, core, segment);
            if (reply.status != HG_DONE) return reply;
        }
    }
    do reply = hg_bank_worker_leave(worker);
    while (reply.status == HG_AGAIN);
    return reply;
}

#undef HG_AS
#undef HG_MUST_USE

#endif
