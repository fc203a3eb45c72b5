// ask: what the questions of heapguard.hpp tell, of an open core and of a closed one.
#include "heapguard.hpp"

#include <cstdio>
#include <utility>

using heapguard::Arena;
using heapguard::Core;
using heapguard::Segment;
using heapguard::Tenant;
using heapguard::Worker;

namespace {

constexpr char POLICY[] = R"(version = 1
workers = 2
tenant = [ {name = "ann", limit = 4096}, {name = "bob", limit = 4096} ]
arena = [ {name = "main", segments = 2} ]
)";

unsigned failed;

void check(bool holds, const char *what)
{
    failed += !holds;
    if (!holds) std::printf("ask: not so: %s\n", what);
}

#define CHECK(holds) check(holds, #holds)

void ask_open(const Core &core)
{
    CHECK(core.workers() == 2 && core.segments() == 2);
    CHECK(core.tenant("bob") == Tenant{1} && !core.tenant("eve"));
    CHECK(core.arena("main") == Arena{0} && core.tenant_name(Tenant{0}) == "ann");
    CHECK(core.holds(Worker{1}, Segment{0}) && !core.holds(Worker{0}, Segment{0}));
    CHECK(core.holder(Segment{0}) == Worker{1});
    CHECK(!core.holder(Segment{1}) && !core.holder(Segment{2}) && !core.holder(Segment{256}));
    CHECK(core.charge(Worker{1}, Tenant{0}) == 24u && core.charge(Worker{1}, Tenant{1}) == 0u);
    CHECK(core.charge(Worker{0}, Tenant{0}) == 0u);
    CHECK(!core.charge(Worker{2}, Tenant{0}) && !core.charge(Worker{0}, Tenant{2}));
    CHECK(!core.charge(Worker{256}, Tenant{0}) && !core.charge(Worker{1}, Tenant{256}));
}

void ask_closed(const Core &core)
{
    CHECK(core.workers() == 0 && core.segments() == 0);
    CHECK(!core.holds(Worker{1}, Segment{0}) && !core.holder(Segment{0}));
    CHECK(!core.charge(Worker{1}, Tenant{0}) && !core.tenant("ann"));
}

} // namespace

int main()
{
    Core core;
    std::string line;
    ask_closed(core);
    CHECK(core.open(POLICY, line).status == HG_DONE);
    CHECK(core.refill(Worker{1}, Arena{0}).status == HG_REFILLED);
    CHECK(core.alloc(Worker{1}, Tenant{0}, Arena{0}, 20).status == HG_BLOCK);
    ask_open(core);
    Core moved(std::move(core));
    ask_open(moved);
    CHECK(moved.close().status == HG_DONE);
    ask_closed(moved);
    std::printf("ask: %u failed\n", failed);
    return failed != 0;
}
