// The class of a bank of services and that of its workers: what they give and refuse, who moves, and two
// threads.
#include "heapguard.hpp"
#include <cstdio>
#include <thread>
#include <vector>

using namespace heapguard;

static unsigned checks, failed;

#define CHECK(holds)                                                           \
    do {                                                                       \
        checks++;                                                              \
        if (!(holds)) {                                                        \
            failed++;                                                          \
            std::printf("bank_service: not so, line %d: %s\n", __LINE__, #holds); \
        }                                                                      \
    } while (0)

static const char POLICY[] =
    "version = 1\n"
    "workers = 2\n"
    "tenant = [ {name = \"alice\", limit = 200000}, {name = \"bob\", limit = 64} ]\n"
    "arena = [ {name = \"main\", segments = 1} ]\n";

static const Tenant alice{0}, bob{1};
static const Arena whole{0};
static const CoreNumber first{0}, second{1}, last{2}, none_such{3};

static bool is(Reply reply, unsigned status) { return reply.status == status; }

// A block, once there is room: the segment that is wanted may be the other's until that leaves.
static BankHandle made(BankWorker &worker, std::uint64_t bytes)
{
    for (;;) {
        Reply reply = worker.alloc(alice, whole, bytes);
        if (!is(reply, HG_NO_ROOM)) return block_of(reply);
        (void)worker.refill(whole);
        std::this_thread::yield();
    }
}

static void serve(BankWorker worker, BankHandle &kept)
{
    for (std::uint64_t round = 0; round < 20000; round++) {
        BankHandle block = made(worker, 40);
        (void)worker.write(alice, block, 4, round);
        if (worker.read(alice, block, 4).value != round) return;
        if (!is(worker.free(alice, block), HG_DONE)) return;
    }
    BankHandle left = made(worker, 8);
    if (is(worker.leave(), HG_DONE)) kept = left;
}

static void try_closed()
{
    BankService closed;
    Bank bank;
    BankWorker none;
    CHECK(closed.cores() == 0 && closed.workers() == 0 && closed.segments() == 0);
    CHECK(!closed.tenant("alice") && !closed.arena("main"));
    CHECK(is(closed.give(Worker{0}, none), HG_CLOSED) && is(closed.close(bank), HG_CLOSED));
    CHECK(is(none.alloc(alice, whole, 8), HG_CLOSED) && is(none.leave(), HG_CLOSED));
    CHECK(!none.own() && none.cores() == 0 && !none.hand(first) && !none.charge(alice));
    CHECK(!none.holds(first, Segment{0}));
    for (std::uint32_t cores : {0u, 16385u}) {
        try {
            BankService refused(POLICY, cores);
            CHECK(false);
        } catch (const std::invalid_argument &) {
            CHECK(true);
        }
    }
    try {
        BankService faulty("version = 1\ncolour = 3\n", 2);
        CHECK(false);
    } catch (const PolicyFault &fault) {
        CHECK(fault.status() == HG_UNKNOWN);
        CHECK(std::string(fault.what()) == "policy fault 4: unknown colour");
    }
}

// What two workers do in turn.
static void try_serving(BankWorker &one, BankWorker &two)
{
    CHECK(core_of(one.refill(whole)) == first && one.holds(first, Segment{0}));
    CHECK(is(one.alloc(alice, whole, 65536), HG_BLOCK) && is(one.alloc(alice, whole, 8), HG_NO_ROOM));
    CHECK(core_of(one.refill(whole)) == second && !two.holds(second, Segment{0}));
    BankHandle block = block_of(one.alloc(alice, whole, 24)), other = block_of(one.alloc(alice, whole, 24));
    CHECK(core_of(block) == second && one.charge(alice) == 65536u + 48 && two.charge(alice) == 0u);
    CHECK(is(one.write(alice, block, 2, 7), HG_DONE) && one.read(alice, block, 2).value == 7);
    CHECK(is(one.read(bob, block, 0), HG_NOT_GRANTED) && is(two.read(alice, block, 0), HG_ELSEWHERE));
    CHECK(is(two.free(alice, block), HG_PARTED) && two.hand(second) == place_of(block));
    CHECK(!two.hand(first) && is(two.try_deliver(first), HG_NOTHING_IN_HAND));
    CHECK(is(two.free(alice, other), HG_BUSY) && is(two.deliver(second), HG_DONE));
    CHECK(is(two.try_take(second, Segment{0}), HG_NOT_HELD));
    CHECK(is(two.try_abandon(second, Segment{0}), HG_NOT_HELD));
    CHECK(one.take(second, Segment{0}).value == 1 && is(one.free(alice, block), HG_ALREADY_FREED));
    Reply rows[2];
    CHECK(one.list(second, alice, rows, 2).value == 1 && rows[0].value == other.handle);
    CHECK(one.list(none_such, alice, rows, 2).value == 0);
    CHECK(is(one.look(alice, second, place_of(other)), HG_LISTED));
    CHECK(is(one.free(alice, other), HG_DONE) && one.collect(second).value == 1);
    CHECK(is(one.abandon(second, Segment{0}), HG_DONE));
    CHECK(core_of(two.try_refill(whole)) == second);
}

int main()
{
    try_closed();
    BankService service(POLICY, 3);
    Bank bank;
    std::string line;
    CHECK(is(service.open(POLICY, 3, line), HG_HELD));
    CHECK(service.cores() == 3 && service.workers() == 2 && service.segments() == 1);
    CHECK(service.tenant("bob") == bob && !service.tenant("eve") && service.arena("main") == whole);
    BankWorker one, two;
    CHECK(is(service.give(Worker{0}, one), HG_DONE) && is(service.give(Worker{1}, one), HG_HELD));
    CHECK(is(service.give(Worker{0}, two), HG_NO_WORKER) && is(service.give(Worker{1}, two), HG_DONE));
    CHECK(one.own() == Worker{0} && two.own() == Worker{1} && one.cores() == 3);
    try_serving(one, two);

    // A moved-from one is none; what was moved goes on.
    BankWorker moved(std::move(one));
    CHECK(moved.own() == Worker{0} && is(one.leave(), HG_CLOSED));
    BankService gone(std::move(service));
    CHECK(gone.workers() == 2 && service.workers() == 0);
    one = std::move(moved);
    service = std::move(gone);

    BankHandle kept[2] = {{0, 0}, {0, 0}};
    Reply early = service.close(bank);
    CHECK(is(early, HG_STILL_OUT) && early.value == 0 && early.detail == 2);
    std::vector<std::thread> threads;
    threads.emplace_back(serve, std::move(one), std::ref(kept[0]));
    threads.emplace_back(serve, std::move(two), std::ref(kept[1]));
    for (auto &thread : threads) thread.join();
    CHECK(is(service.close(bank), HG_DONE) && service.workers() == 0 && bank.cores() == 3);
    while (is(bank.refill(Worker{0}, whole), HG_REFILLED)) {}
    for (BankHandle there : kept) CHECK(is(bank.read(Worker{0}, alice, there, 0), HG_VALUE));
    CHECK(bank.holds(Worker{0}, last, Segment{0}));

    // Both are given up, the worker first or the bank of services.
    for (int n = 0; n < 2; n++) {
        BankService given(POLICY, 2);
        BankWorker held;
        CHECK(is(given.give(Worker{0}, held), HG_DONE) && is(held.refill(whole), HG_REFILLED));
        if (n) given = BankService();
        CHECK(is(held.alloc(alice, whole, 8), HG_BLOCK));
    }
    std::printf("bank_service: %u checks, %u failed\n", checks, failed);
    return failed != 0;
}
