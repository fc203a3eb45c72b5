/* heapguard.h: heapguard's cores and banks in a program in C11 or C++17. docs/EMBEDDING.md has how to
 * link it.
 *
 * A core hands out blocks of a memory of its own to tenants, under a written policy. A block is
 * named by a handle and never by an address: one that was freed, forged, or is another tenant's is
 * answered, and never followed. A bank is many cores under one policy: what is said here of a core
 * holds of a bank too, and its calls stand below those of a core.
 *
 * No call has a condition on what its numbers, texts and handles are. A core that is closed, or
 * open already, a worker, tenant, arena, segment or place that isn't there, and a word that is no
 * handle's are answered by a status, and nothing changes. No call but hg_open, hg_bank_open and
 * hg_bank_grow takes memory. What each call promises, and what of it is proved, is in
 * crates/hg_c/README.md.
 *
 * What the caller owes, which nothing checks:
 *  1. One call at a time on a core, but for the questions: those take a const core, and several
 *     threads may ask at once as long as no other call runs on that core meanwhile, as under a
 *     reader's lock. A core may go to another thread. Other calls of several threads, and a
 *     question and another call, are ordered by a lock, by starting or joining a thread, or by
 *     sequentially consistent atomics.
 *  2. A core is 16 bytes of the caller, aligned to 8, and begins as HG_CORE_INIT, which is zeros,
 *     and a bank as HG_BANK_INIT.
 *     Left without that it compiles all the same, and is what stood there before: mostly a closed
 *     core; but where an open one was copied from or forgotten there, its memory may be gone, and a
 *     call follows it. Only the calls write a core's fields. It may be moved: copied, and the old
 *     place not used again. Two copies are one core: once one was closed, the other's memory is
 *     gone. A pointer to a core isn't null.
 *  3. Lengths are true: a pointer and a length are memory that may be read (a policy, a name,
 *     words, bytes) or written (room) during the call, and that overlaps neither the core nor each
 *     other. Words are aligned to 8, and their length counts words; bytes lie anywhere, and theirs
 *     counts bytes. During the call no other thread writes what may be read, nor touches the room.
 *     With length 0 the pointer may be null.
 *  4. One allocator: malloc, realloc and free are of one allocator, and what they give is aligned
 *     to each power of two up to 16 that divides the size.
 *  5. No call is made from a signal handler, nor in the child of a fork of a program with threads.
 *  6. Header and library are of one release, which hg_version tells; no other function of the
 *     program has a name of these.
 */
#ifndef HEAPGUARD_H
#define HEAPGUARD_H

#include <stddef.h>
#include <stdint.h>

/* The release of this header, and as one number, as hg_version tells it of the library: HG_RELEASE,
 * for #if too. HG_VERSION is a status, and no macro: #if takes it for 0, and says nothing. */
#define HG_VERSION_MAJOR 0
#define HG_VERSION_MINOR 1
#define HG_VERSION_PATCH 0
#define HG_VERSION_NUMBER (HG_VERSION_MAJOR * 65536u + HG_VERSION_MINOR * 256u + HG_VERSION_PATCH)
#define HG_RELEASE HG_VERSION_NUMBER

/* A reply that is dropped is a refusal that nobody sees, or a block that is lost: a compiler that
 * can says so. A refused hg_read has the value 0, as a word may. */
#if (defined(__cplusplus) && __cplusplus >= 201703L) \
    || (defined(__STDC_VERSION__) && __STDC_VERSION__ > 201710L)
#define HG_MUST_USE [[nodiscard]]
#elif defined(__GNUC__)
#define HG_MUST_USE __attribute__((warn_unused_result))
#else
#define HG_MUST_USE
#endif

#ifdef __cplusplus
#define HG_AS(type, value) static_cast<type>(value)
extern "C" {
#else
#define HG_AS(type, value) ((type)(value))
#endif

/* A core. Its fields are the library's. */
typedef struct hg_core {
    void *at;
    uint64_t mark;
} hg_core;

/* A core that is closed. */
#define HG_CORE_INIT {0, 0}

/* A bank. Its fields are the library's. */
typedef struct hg_bank {
    void *at;
    uint64_t mark;
} hg_bank;

/* A bank that is closed. */
#define HG_BANK_INIT {0, 0}

/* A handle, never 0: the number of its place in bits 32 to 50, and its generation below. */
typedef uint64_t hg_handle;

/* A block of a bank: the number of its core, and its handle there. Two cores have blocks of one
 * handle. */
typedef struct hg_bank_handle {
    uint64_t core;
    hg_handle handle;
} hg_bank_handle;

/* What came of a call. No number is changed, or used again for something else: later releases only
 * add some, so a program takes one that it doesn't know as not served. A rule's number says nothing
 * of when it is judged. */
enum hg_status {
    /* served */
    HG_BLOCK = 1,    /* value: the handle of a new block, whose words are 0 */
    HG_DONE = 2,
    HG_PARTED = 3,   /* freed by a worker that doesn't hold the segment, which has it in hand now */
    HG_VALUE = 4,    /* value: the word, or the number */
    HG_TAKEN = 5,    /* value: how many places came home */
    HG_PAGES = 6,    /* value: how many pages lost their class */
    HG_REFILLED = 7, /* value: the segment */
    HG_LISTED = 8,   /* value: the handle; owner: the tenant; detail: the bytes of the block */
    /* not served */
    HG_TOO_LARGE = 16,
    HG_NO_ROOM = 17,
    HG_ELSEWHERE = 18,       /* the worker doesn't hold the segment */
    HG_OUT_OF_BLOCK = 19,    /* no such word in the block */
    HG_BUSY = 20,            /* the worker has another place in hand */
    HG_NOTHING_IN_HAND = 21,
    HG_NOT_HELD = 22,
    HG_NO_SEGMENT = 23,
    HG_FULL = 24,            /* all cores of the bank are open that there may be */
    /* of a service and its workers (heapguard_service.h) */
    HG_AGAIN = 25,           /* another call has what this one needs: it did nothing; make it again */
    HG_STILL_OUT = 26,       /* value: the lowest worker that hasn't come back to its service */
    HG_STILL_HELD = 27,      /* value: the lowest segment that is held, or isn't there at a closing */
    HG_LOST = 28,            /* value: the lowest place that isn't accounted for; of a bank of
                              * services these three have the number of the core as detail, and of
                              * hg_bank_worker_leave HG_BUSY and HG_STILL_HELD have it */
    /* denied, by the first rule that refuses */
    HG_STRANGER = 32,
    HG_STALE = 33,           /* detail: the generation that is there, 0 where none is */
    HG_ALREADY_FREED = 34,
    HG_FOREIGN_ARENA = 35,
    HG_NOT_GRANTED = 36,
    HG_OVER_LIMIT = 37,
    HG_FORBIDDEN = 38,       /* by a deny line, which is judged before any grant */
    /* hg_open: the policy's first fault; value: how many bytes of its line stand in the room */
    HG_NOT_TOML = 49,
    HG_MISSING = 50,
    HG_KIND = 51,
    HG_UNKNOWN = 52,
    HG_REPEATED = 53,
    HG_NO_SUCH_NAME = 54,
    HG_TOO_MANY = 55,
    HG_VERSION = 56,
    HG_NO_MEMORY = 57,       /* want of memory, and no fault of the policy */
    /* misuse */
    HG_CLOSED = 64,
    HG_NO_WORKER = 65,
    HG_NO_BLOCK = 66,        /* no handle's word, or no place's number */
    HG_HELD = 67,            /* to be opened, and open already; what stands there stays */
    HG_NO_NAME = 68,         /* nothing has the name, or no tenant the number */
    HG_NO_COUNT = 69         /* a bank has 1 to 16384 cores */
};

/* An answer. What isn't said of a status is 0, but for hg_tenant, hg_arena and hg_holder, and their
 * like of a bank: with each status but HG_VALUE their value is 255, which no tenant, arena and worker
 * has, so that every call refuses it. */
typedef struct hg_reply {
    uint16_t status;
    uint16_t owner;
    uint32_t detail;
    uint64_t value;
} hg_reply;

/* The release of the library: HG_VERSION_NUMBER, where header and library are of one. */
uint32_t hg_version(void);

/* Opens a core by the text of its policy: HG_DONE, or the first fault, with as much of its line in
 * the room as there is room for. The line has no newline and no zero behind it. */
HG_MUST_USE hg_reply hg_open(hg_core *core, const char *policy, size_t policy_length,
                             char *room, size_t room_length);

/* Closes a core, and frees its memory. */
HG_MUST_USE hg_reply hg_close(hg_core *core);

/* The ten events. `worker` is who serves, a number below that of hg_workers. `actor` is who asks,
 * by the number of a tenant; a number that no tenant has is a stranger's. 255 is that always, and
 * an arena that admits nobody, and a segment that isn't held. No number wraps to another, as 256 to
 * 0: each above 255 is answered as 255 is, and of a worker that is HG_NO_WORKER. */
/* At most 65536 bytes; the words of the block are 0. It ends with its class, and not with the bytes
 * asked for: 70 have 80, as hg_look tells. Above 4096 it has 8, 16, 32 or 64 KiB. */
HG_MUST_USE hg_reply hg_alloc(hg_core *core, uint32_t worker, uint32_t actor, uint32_t arena,
                              uint64_t bytes);
HG_MUST_USE hg_reply hg_free(hg_core *core, uint32_t worker, uint32_t actor, hg_handle block);
HG_MUST_USE hg_reply hg_deliver(hg_core *core, uint32_t worker);
HG_MUST_USE hg_reply hg_take(hg_core *core, uint32_t worker, uint32_t segment);
HG_MUST_USE hg_reply hg_collect(hg_core *core, uint32_t worker);
HG_MUST_USE hg_reply hg_read(hg_core *core, uint32_t worker, uint32_t actor, hg_handle block,
                             uint32_t index);
HG_MUST_USE hg_reply hg_write(hg_core *core, uint32_t worker, uint32_t actor, hg_handle block,
                              uint32_t index, uint64_t value);
HG_MUST_USE hg_reply hg_look(hg_core *core, uint32_t worker, uint32_t actor, uint32_t place);
HG_MUST_USE hg_reply hg_abandon(hg_core *core, uint32_t worker, uint32_t segment);
HG_MUST_USE hg_reply hg_refill(hg_core *core, uint32_t worker, uint32_t arena);

/* Many words of a block, from the word of an index on: each is a Read or a Write of its own, one
 * after another, and the first that is refused ends them. HG_DONE where all were served, else what
 * the one that wasn't is answered; value: how many were. What stands in the room behind them is as
 * it was. */
HG_MUST_USE hg_reply hg_read_words(hg_core *core, uint32_t worker, uint32_t actor, hg_handle block,
                                   uint32_t first, uint64_t *room, size_t count);
HG_MUST_USE hg_reply hg_write_words(hg_core *core, uint32_t worker, uint32_t actor,
                                    hg_handle block, uint32_t first, const uint64_t *words,
                                    size_t count);

/* Bytes of a block, from the byte of an offset on, counted from 0: eight lie in a word, the least
 * first. A read is the Read of each word that they lie in; a write the Write of each that they fill,
 * and of one that they fill in part its Read and then its Write, so that it takes both rights. These
 * go one after another, and the first that is refused ends them. HG_DONE where all were served, else
 * what the one that wasn't is answered; value: how many bytes were read or written. What was written
 * before stays, and what stands in the room behind them is as it was. No bytes at all ask for no
 * right and test no block: HG_DONE, but for a closed core, a worker that there isn't and a word of no
 * handle. An offset behind the block, however far, is HG_OUT_OF_BLOCK, where nothing else refuses
 * before. */
HG_MUST_USE hg_reply hg_read_bytes(hg_core *core, uint32_t worker, uint32_t actor, hg_handle block,
                                   uint64_t first, void *room, size_t count);
HG_MUST_USE hg_reply hg_write_bytes(hg_core *core, uint32_t worker, uint32_t actor,
                                    hg_handle block, uint64_t first, const void *bytes,
                                    size_t count);

/* All blocks of an owner that the worker holds: for each a Free by the actor, in rising order of
 * their places. One that the actor may not free is denied, and stays. HG_DONE, value: how many were
 * freed. */
HG_MUST_USE hg_reply hg_free_all(hg_core *core, uint32_t worker, uint32_t actor, uint32_t owner);

/* Questions, which only read the core: HG_VALUE with the number, or HG_NO_NAME. */
HG_MUST_USE hg_reply hg_workers(const hg_core *core);
HG_MUST_USE hg_reply hg_segments(const hg_core *core); /* of all arenas, numbered from 0 */
HG_MUST_USE hg_reply hg_holds(const hg_core *core, uint32_t worker, uint32_t segment); /* 1 or 0 */
/* The worker that holds the segment, or HG_NOT_HELD. */
HG_MUST_USE hg_reply hg_holder(const hg_core *core, uint32_t segment);
/* What counts against the tenant's limit with the worker, in bytes: HG_VALUE; or HG_NO_WORKER, or
 * HG_NO_NAME of a number that no tenant has, with value 0. */
HG_MUST_USE hg_reply hg_charge(const hg_core *core, uint32_t worker, uint32_t tenant);
HG_MUST_USE hg_reply hg_tenant(const hg_core *core, const char *name, size_t name_length);
HG_MUST_USE hg_reply hg_arena(const hg_core *core, const char *name, size_t name_length);

/* The name of a tenant: HG_VALUE with how many bytes of it stand in the room. A name has 16 bytes
 * at most, and no zero behind it. */
HG_MUST_USE hg_reply hg_tenant_name(const hg_core *core, uint32_t tenant, char *room,
                                    size_t room_length);

/* A bank: up to 16384 cores under one policy, as one service, each with the segments of all arenas.
 * The calls are those of a core, and answered as they are; what differs is said here. Each that
 * names a block, a place, a segment or a hand names its core too, by a number below that of
 * hg_bank_cores; one of a core that isn't open is answered as one of a segment that isn't there, and
 * hg_bank_collect and hg_bank_free_all find nothing in it. A worker has a hand in each core. */

/* Opens a bank with room for so many cores, of which the first is open: as hg_open; or HG_NO_COUNT. */
HG_MUST_USE hg_reply hg_bank_open(hg_bank *bank, const char *policy, size_t policy_length,
                                  uint32_t cores, char *room, size_t room_length);
HG_MUST_USE hg_reply hg_bank_close(hg_bank *bank);

/* Opens one core more: HG_VALUE with its number; HG_FULL; or HG_NO_MEMORY, and the bank is as it
 * was. Nobody holds its segments: hg_bank_refill comes next, or there is no more room than before. */
HG_MUST_USE hg_reply hg_bank_grow(hg_bank *bank);

/* For each worker and arena one core is current. These ask from it on, round and round, and the
 * first core that has room, or a segment, serves and is current from then on: HG_BLOCK and
 * HG_REFILLED have its number in `detail`. HG_NO_ROOM and HG_NO_SEGMENT only where no core has any.
 * A tenant's limit with a worker counts over all cores. */
HG_MUST_USE hg_reply hg_bank_alloc(hg_bank *bank, uint32_t worker, uint32_t actor, uint32_t arena,
                                   uint64_t bytes);
HG_MUST_USE hg_reply hg_bank_refill(hg_bank *bank, uint32_t worker, uint32_t arena);

HG_MUST_USE hg_reply hg_bank_free(hg_bank *bank, uint32_t worker, uint32_t actor,
                                  hg_bank_handle block);
HG_MUST_USE hg_reply hg_bank_deliver(hg_bank *bank, uint32_t worker, uint32_t core);
HG_MUST_USE hg_reply hg_bank_take(hg_bank *bank, uint32_t worker, uint32_t core, uint32_t segment);
HG_MUST_USE hg_reply hg_bank_collect(hg_bank *bank, uint32_t worker, uint32_t core);
HG_MUST_USE hg_reply hg_bank_read(hg_bank *bank, uint32_t worker, uint32_t actor,
                                  hg_bank_handle block, uint32_t index);
HG_MUST_USE hg_reply hg_bank_write(hg_bank *bank, uint32_t worker, uint32_t actor,
                                   hg_bank_handle block, uint32_t index, uint64_t value);
HG_MUST_USE hg_reply hg_bank_look(hg_bank *bank, uint32_t worker, uint32_t actor, uint32_t core,
                                  uint32_t place);
HG_MUST_USE hg_reply hg_bank_abandon(hg_bank *bank, uint32_t worker, uint32_t core,
                                     uint32_t segment);

HG_MUST_USE hg_reply hg_bank_read_words(hg_bank *bank, uint32_t worker, uint32_t actor,
                                        hg_bank_handle block, uint32_t first, uint64_t *room,
                                        size_t count);
HG_MUST_USE hg_reply hg_bank_write_words(hg_bank *bank, uint32_t worker, uint32_t actor,
                                         hg_bank_handle block, uint32_t first,
                                         const uint64_t *words, size_t count);
HG_MUST_USE hg_reply hg_bank_read_bytes(hg_bank *bank, uint32_t worker, uint32_t actor,
                                        hg_bank_handle block, uint64_t first, void *room,
                                        size_t count);
HG_MUST_USE hg_reply hg_bank_write_bytes(hg_bank *bank, uint32_t worker, uint32_t actor,
                                         hg_bank_handle block, uint64_t first, const void *bytes,
                                         size_t count);
/* All blocks of an owner that the worker holds in one core. */
HG_MUST_USE hg_reply hg_bank_free_all(hg_bank *bank, uint32_t worker, uint32_t actor, uint32_t core,
                                      uint32_t owner);

/* Questions, which only read the bank. */
HG_MUST_USE hg_reply hg_bank_cores(const hg_bank *bank); /* that are open */
HG_MUST_USE hg_reply hg_bank_workers(const hg_bank *bank);
HG_MUST_USE hg_reply hg_bank_segments(const hg_bank *bank); /* of each core */
HG_MUST_USE hg_reply hg_bank_holds(const hg_bank *bank, uint32_t worker, uint32_t core,
                                   uint32_t segment);
HG_MUST_USE hg_reply hg_bank_holder(const hg_bank *bank, uint32_t core, uint32_t segment);
HG_MUST_USE hg_reply hg_bank_charge(const hg_bank *bank, uint32_t worker, uint32_t tenant);
HG_MUST_USE hg_reply hg_bank_tenant(const hg_bank *bank, const char *name, size_t name_length);
HG_MUST_USE hg_reply hg_bank_arena(const hg_bank *bank, const char *name, size_t name_length);
HG_MUST_USE hg_reply hg_bank_tenant_name(const hg_bank *bank, uint32_t tenant, char *room,
                                         size_t room_length);

#ifdef __cplusplus
}
#endif

/* The block that hg_bank_alloc answered with HG_BLOCK; of any other reply one that is no block. */
static inline hg_bank_handle hg_bank_handle_of(hg_reply made)
{
    hg_bank_handle block = {0, 0};
    if (made.status == HG_BLOCK) {
        block.core = made.detail;
        block.handle = made.value;
    }
    return block;
}

/* The core of a block, as the calls take it. One above 65535, which no bank has, is that one. */
static inline uint32_t hg_bank_core_of(hg_bank_handle block)
{
    return block.core < 65535 ? HG_AS(uint32_t, block.core) : 65535;
}

/* The place of a block, which hg_look takes. */
static inline uint32_t hg_place_of(hg_handle block) { return HG_AS(uint32_t, block >> 32); }

/* The four numbers of a handle, which is written @segment.page.index.generation. */
static inline uint32_t hg_segment_of(hg_handle block) { return hg_place_of(block) / 8192; }
static inline uint32_t hg_page_of(hg_handle block) { return hg_place_of(block) / 512 % 16; }
static inline uint32_t hg_index_of(hg_handle block) { return hg_place_of(block) % 512; }
static inline uint32_t hg_generation_of(hg_handle block) { return HG_AS(uint32_t, block); }

/* A handle of its four numbers, or 0, which is none, where one of them is out of range: a segment
 * is below 64, a page below 16, an index below 512, and a generation at least 1. */
static inline hg_handle hg_handle_of(uint32_t segment, uint32_t page, uint32_t index,
                                     uint32_t generation)
{
    if (segment > 63 || page > 15 || index > 511 || generation == 0) return 0;
    return HG_AS(hg_handle, segment * 8192 + page * 512 + index) << 32 | generation;
}

/* Whether a status, of this release or a later one, is of what was served, as 1 or 0. */
static inline int hg_is_served(unsigned status) { return status >= 1 && status <= 15; }

/* A few words for a status. Those of an event are the ones that heapguard prints. */
static inline const char *hg_status_text(unsigned status)
{
    switch (status) {
    case HG_BLOCK: case HG_DONE: return "ok";
    case HG_PARTED: return "parted";
    case HG_VALUE: return "word";
    case HG_TAKEN: return "taken";
    case HG_PAGES: return "pages";
    case HG_REFILLED: return "segment";
    case HG_LISTED: return "listed";
    case HG_TOO_LARGE: return "large";
    case HG_NO_ROOM: return "noroom";
    case HG_ELSEWHERE: return "elsewhere";
    case HG_OUT_OF_BLOCK: return "range";
    case HG_BUSY: return "busy";
    case HG_NOTHING_IN_HAND: return "empty";
    case HG_NOT_HELD: return "notheld";
    case HG_NO_SEGMENT: return "nosegment";
    case HG_FULL: return "full";
    case HG_AGAIN: return "again";
    case HG_STILL_OUT: return "a worker hasn't left";
    case HG_STILL_HELD: return "a segment is held";
    case HG_LOST: return "a place is lost";
    case HG_STRANGER: return "denied stranger";
    case HG_STALE: return "denied stale";
    case HG_ALREADY_FREED: return "denied freed";
    case HG_FOREIGN_ARENA: return "denied arena";
    case HG_NOT_GRANTED: return "denied grant";
    case HG_OVER_LIMIT: return "denied limit";
    case HG_FORBIDDEN: return "denied forbidden";
    case HG_NOT_TOML: return "not toml";
    case HG_MISSING: return "missing";
    case HG_KIND: return "kind";
    case HG_UNKNOWN: return "unknown";
    case HG_REPEATED: return "repeated";
    case HG_NO_SUCH_NAME: return "no such name";
    case HG_TOO_MANY: return "too many";
    case HG_VERSION: return "version";
    case HG_NO_MEMORY: return "no memory";
    case HG_CLOSED: return "closed";
    case HG_NO_WORKER: return "no such worker";
    case HG_NO_BLOCK: return "no handle";
    case HG_HELD: return "open already";
    case HG_NO_NAME: return "no such name or number";
    case HG_NO_COUNT: return "no bank of so many cores";
    default: return "unknown status";
    }
}

#undef HG_AS
#undef HG_MUST_USE

#endif
