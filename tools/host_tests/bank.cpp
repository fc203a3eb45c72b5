// bank: what the Bank of heapguard.hpp tells, and its handles as keys.
#include "heapguard.hpp"

#include <cstdio>
#include <map>
#include <string>
#include <unordered_map>
#include <unordered_set>
#include <utility>

using heapguard::Arena;
using heapguard::Bank;
using heapguard::BankHandle;
using heapguard::block_of;
using heapguard::core_of;
using heapguard::CoreNumber;
using heapguard::place_of;
using heapguard::Reply;
using heapguard::Segment;
using heapguard::Tenant;
using heapguard::Worker;

namespace {

constexpr char POLICY[] = R"(version = 1
workers = 2
tenant = [ {name = "ann", limit = 196608}, {name = "bob", limit = 4096} ]
arena = [ {name = "main", segments = 1} ]
)";

constexpr Worker ONE{0}, OTHER{1};
constexpr Tenant ANN{0}, BOB{1};
constexpr Arena MAIN{0};

unsigned failed;

void check(bool holds, const char *what)
{
    failed += !holds;
    if (!holds) std::printf("bank: not so: %s\n", what);
}

#define CHECK(...) check(__VA_ARGS__, #__VA_ARGS__)

void ask_open(const Bank &bank)
{
    CHECK(bank.cores() == 3 && bank.workers() == 2 && bank.segments() == 1);
    CHECK(bank.tenant("bob") == BOB && !bank.tenant("eve"));
    CHECK(bank.arena("main") == MAIN && !bank.arena("attic"));
    CHECK(bank.tenant_name(ANN) == "ann" && !bank.tenant_name(Tenant{2}));
    for (std::uint32_t core = 0; core < 3; core++) {
        CHECK(bank.holds(ONE, CoreNumber{core}, Segment{0}));
        CHECK(!bank.holds(OTHER, CoreNumber{core}, Segment{0}));
        CHECK(bank.holder(CoreNumber{core}, Segment{0}) == ONE);
        CHECK(!bank.holder(CoreNumber{core}, Segment{1}));
    }
    CHECK(!bank.holder(CoreNumber{3}, Segment{0}) && !bank.holder(CoreNumber{65536}, Segment{0}));
    CHECK(!bank.holds(ONE, CoreNumber{3}, Segment{0}));
    CHECK(bank.charge(ONE, ANN) == 3u * 65536 && bank.charge(OTHER, ANN) == 0u);
    CHECK(!bank.charge(Worker{2}, ANN) && !bank.charge(ONE, Tenant{2}));
}

void ask_closed(const Bank &bank)
{
    CHECK(bank.cores() == 0 && bank.workers() == 0 && bank.segments() == 0);
    CHECK(!bank.holds(ONE, CoreNumber{0}, Segment{0}));
    CHECK(!bank.holder(CoreNumber{0}, Segment{0}));
    CHECK(!bank.charge(ONE, ANN) && !bank.tenant("ann") && !bank.arena("main"));
    CHECK(!bank.tenant_name(ANN));
}

/// A block of 64 KiB in each of three cores.
void fill(Bank &bank, BankHandle (&blocks)[3])
{
    for (std::uint32_t core = 0; core < 3; core++) {
        if (core > 0) CHECK(bank.grow().value == core);
        Reply refilled = bank.refill(ONE, MAIN);
        CHECK(refilled.status == HG_REFILLED && core_of(refilled) == CoreNumber{core});
        Reply made = bank.alloc(ONE, ANN, MAIN, 65536);
        blocks[core] = block_of(made);
        CHECK(core_of(made) == CoreNumber{core} && core_of(blocks[core]) == CoreNumber{core});
        CHECK(bank.write(ONE, ANN, blocks[core], 8191, core + 7).status == HG_DONE);
    }
    Reply over = bank.alloc(ONE, ANN, MAIN, 8);
    CHECK(over.status == HG_OVER_LIMIT && !core_of(over) && block_of(over) == BankHandle{0, 0});
    CHECK(bank.grow().status == HG_FULL && bank.refill(ONE, MAIN).status == HG_NO_SEGMENT);
}

void use(Bank &bank, const BankHandle (&blocks)[3])
{
    for (std::uint32_t at = 0; at < 3; at++) {
        BankHandle block = blocks[at];
        CoreNumber core = core_of(block);
        CHECK(bank.read(ONE, ANN, block, 8191).value == at + 7);
        CHECK(bank.read(ONE, BOB, block, 0).status == HG_NOT_GRANTED);
        CHECK(bank.look(ONE, ANN, core, place_of(block)).detail == 65536);
        std::uint64_t words[2] = {1, 2}, room[3] = {0, 0, 9};
        CHECK(bank.write_words(ONE, ANN, block, 8190, words, 2).status == HG_DONE);
        CHECK(bank.read_words(ONE, ANN, block, 8190, room, 3).value == 2);
        CHECK(room[0] == 1 && room[1] == 2 && room[2] == 9);
        char bytes[6] = ".....";
        CHECK(bank.write_bytes(ONE, ANN, block, 65533, "abcd", 4).value == 3);
        CHECK(bank.read_bytes(ONE, ANN, block, 65532, bytes, 5).value == 4);
        CHECK(std::string(bytes, 5) == std::string("\0abc.", 5));
        CHECK(bank.read_bytes(ONE, ANN, block, std::uint64_t{1} << 32, bytes, 5).status
              == HG_OUT_OF_BLOCK);
        if (at == 2) break;
        CHECK(bank.free(OTHER, ANN, block).status == HG_PARTED);
        CHECK(bank.deliver(OTHER, core).status == HG_DONE);
        CHECK(bank.deliver(OTHER, core).status == HG_NOTHING_IN_HAND);
        CHECK(bank.take(ONE, core, Segment{0}).value == 1);
        CHECK(bank.collect(ONE, core).value == 1);
        CHECK(bank.abandon(ONE, core, Segment{0}).status == HG_DONE);
    }
    CHECK(bank.free_all(ONE, ANN, CoreNumber{2}, ANN).value == 1);
    CHECK(bank.charge(ONE, ANN) == 0u);
}

void key()
{
    BankHandle first = {0, hg_handle_of(1, 0, 0, 1)}, second = {1, hg_handle_of(0, 1, 2, 3)};
    std::map<BankHandle, int> ordered = {{second, 2}, {first, 1}};
    CHECK(ordered.size() == 2 && ordered.begin()->first == first && ordered.at(second) == 2);
    std::unordered_map<BankHandle, int> hashed = {{second, 2}, {first, 1}};
    CHECK(hashed.size() == 2 && hashed.at(first) == 1 && hashed.count({1, first.handle}) == 0);
    std::unordered_set<std::size_t> hashes;
    for (std::uint64_t core = 0; core < 16384; core++)
        hashes.insert(std::hash<BankHandle>()({core, first.handle}));
    CHECK(hashes.size() == 16384);
    CHECK(first != second && !(first == second) && first < second && !(second < first));
    CHECK(heapguard::to_string(second) == "@1/0.1.2.3");
    CHECK(heapguard::to_string(BankHandle{16383, hg_handle_of(63, 15, 511, 4294967295u)})
          == "@16383/63.15.511.4294967295");
    // A core's number that doesn't fit is no other core's.
    CHECK(core_of(BankHandle{UINT64_C(1) << 32, 1}) == CoreNumber{65535});
    CHECK(core_of(BankHandle{65536, 1}) == CoreNumber{65535});
}

void refuse()
{
    std::string line = "as it was";
    Bank none;
    CHECK(none.open(POLICY, 0, line).status == HG_NO_COUNT && line.empty());
    CHECK(none.open("version = 1", 1, line).status == HG_MISSING);
    CHECK(line == "policy fault 2: missing workers");
    bool told = false;
    try {
        Bank many(POLICY, 16385);
    } catch (const std::invalid_argument &fault) {
        told = std::string_view(fault.what()) == hg_status_text(HG_NO_COUNT);
    }
    CHECK(told);
    told = false;
    try {
        Bank faulty("version = 1", 1);
    } catch (const heapguard::PolicyFault &fault) {
        told = fault.status() == HG_MISSING && fault.what() == line;
    }
    CHECK(told);
}

} // namespace

int main()
{
    Bank bank;
    std::string line;
    BankHandle blocks[3];
    ask_closed(bank);
    CHECK(bank.grow().status == HG_CLOSED && bank.close().status == HG_CLOSED);
    CHECK(bank.open(POLICY, 3, line).status == HG_DONE);
    CHECK(bank.open(POLICY, 3, line).status == HG_HELD);
    fill(bank, blocks);
    ask_open(bank);
    Bank moved(std::move(bank));
    ask_open(moved);
    Bank assigned(POLICY, 1);
    assigned = std::move(moved);
    use(assigned, blocks);
    CHECK(assigned.close().status == HG_DONE);
    ask_closed(assigned);
    key();
    refuse();
    std::printf("bank: %u failed\n", failed);
    return failed != 0;
}
