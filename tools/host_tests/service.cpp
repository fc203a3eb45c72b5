// The class of a service and that of a worker: what they give and refuse, who moves, and two threads.
#include "heapguard.hpp"
#include <cstdio>
#include <thread>
#include <vector>

using namespace heapguard;

static unsigned checks, failed;

#define CHECK(holds)                                                      \
    do {                                                                  \
        checks++;                                                         \
        if (!(holds)) {                                                   \
            failed++;                                                     \
            std::printf("service: not so, line %d: %s\n", __LINE__, #holds); \
        }                                                                 \
    } while (0)

static const char POLICY[] =
    "version = 1\n"
    "workers = 2\n"
    "tenant = [ {name = \"alice\", limit = 100000}, {name = \"bob\", limit = 64} ]\n"
    "arena = [ {name = \"main\", segments = 3} ]\n";

static bool is(Reply reply, unsigned status) { return reply.status == status; }

static void serve(ServiceWorker worker, Handle &kept)
{
    Tenant alice{0};
    Arena main{0};
    (void)worker.refill(main);
    for (std::uint64_t round = 0; round < 20000; round++) {
        Handle block = worker.alloc(alice, main, 40).value;
        (void)worker.write(alice, block, 4, round);
        if (worker.read(alice, block, 4).value != round) return;
        if (!is(worker.free(alice, block), HG_DONE)) return;
    }
    Handle last = worker.alloc(alice, main, 8).value;
    if (is(worker.leave(), HG_DONE)) kept = last;
}

int main()
{
    Tenant alice{0}, bob{1};
    Arena main{0};
    Service closed;
    Core core;
    ServiceWorker none;
    CHECK(closed.workers() == 0 && closed.segments() == 0 && !closed.tenant("alice"));
    CHECK(is(closed.give(Worker{0}, none), HG_CLOSED) && is(closed.close(core), HG_CLOSED));
    CHECK(is(none.alloc(alice, main, 8), HG_CLOSED) && is(none.leave(), HG_CLOSED));
    CHECK(!none.own() && !none.hand() && !none.holds(Segment{0}));
    try {
        Service faulty("version = 1\ncolour = 3\n");
        CHECK(false);
    } catch (const PolicyFault &fault) {
        CHECK(fault.status() == HG_UNKNOWN);
        CHECK(std::string(fault.what()) == "policy fault 4: unknown colour");
    }

    Service service(POLICY);
    std::string line;
    CHECK(is(service.open(POLICY, line), HG_HELD));
    CHECK(service.workers() == 2 && service.segments() == 3);
    CHECK(service.tenant("bob") == bob && !service.tenant("eve") && service.arena("main") == main);
    ServiceWorker one, two;
    CHECK(is(service.give(Worker{0}, one), HG_DONE) && is(service.give(Worker{1}, one), HG_HELD));
    CHECK(is(service.give(Worker{0}, two), HG_NO_WORKER) && is(service.give(Worker{1}, two), HG_DONE));
    CHECK(one.own() == Worker{0} && two.own() == Worker{1});

    CHECK(is(one.refill(main), HG_REFILLED) && one.holds(Segment{0}) && !two.holds(Segment{0}));
    Handle block = one.alloc(alice, main, 24).value, other = one.alloc(alice, main, 24).value;
    CHECK(is(one.write(alice, block, 2, 7), HG_DONE) && one.read(alice, block, 2).value == 7);
    CHECK(is(one.read(bob, block, 0), HG_NOT_GRANTED) && is(two.read(alice, block, 0), HG_ELSEWHERE));
    CHECK(is(two.free(alice, block), HG_PARTED) && two.hand() == place_of(block));
    CHECK(is(two.free(alice, other), HG_BUSY) && is(two.deliver(), HG_DONE));
    CHECK(one.take(Segment{0}).value == 1 && is(one.free(alice, block), HG_ALREADY_FREED));
    Reply rows[2];
    CHECK(one.list(alice, rows, 2).value == 1 && rows[0].value == other);
    CHECK(is(one.look(alice, place_of(other)), HG_LISTED) && is(one.free(alice, other), HG_DONE));
    CHECK(one.collect().value == 1 && is(one.abandon(Segment{0}), HG_DONE));

    // A moved-from one is none; what was moved goes on.
    ServiceWorker moved(std::move(one));
    CHECK(moved.own() == Worker{0} && is(one.leave(), HG_CLOSED));
    Service gone(std::move(service));
    CHECK(gone.workers() == 2 && service.workers() == 0);
    one = std::move(moved);
    service = std::move(gone);

    Handle kept[2] = {0, 0};
    Reply early = service.close(core);
    CHECK(is(early, HG_STILL_OUT) && early.value == 0);
    std::vector<std::thread> threads;
    threads.emplace_back(serve, std::move(one), std::ref(kept[0]));
    threads.emplace_back(serve, std::move(two), std::ref(kept[1]));
    for (auto &thread : threads) thread.join();
    CHECK(is(service.close(core), HG_DONE) && service.workers() == 0);
    CHECK(is(core.refill(Worker{0}, main), HG_REFILLED));
    CHECK(is(core.refill(Worker{0}, main), HG_REFILLED));
    for (Handle there : kept) CHECK(is(core.read(Worker{0}, alice, there, 0), HG_VALUE));

    // Both are given up, the worker first or the service.
    for (int n = 0; n < 2; n++) {
        Service given(POLICY);
        ServiceWorker held;
        CHECK(is(given.give(Worker{0}, held), HG_DONE) && is(held.refill(main), HG_REFILLED));
        if (n) given = Service();
        CHECK(is(held.alloc(alice, main, 8), HG_BLOCK));
    }
    std::printf("service: %u checks, %u failed\n", checks, failed);
    return failed != 0;
}
