// A key-value store whose sessions are tenants. A key's value is a block of the session that set
// it, so the bank says who may read, replace or drop it; the store itself tests nothing. Where a
// value finds no room the bank grows by a core.
#include "heapguard.hpp"

#include <iostream>
#include <map>
#include <string>
#include <utility>

using heapguard::Arena;
using heapguard::Bank;
using heapguard::BankHandle;
using heapguard::Reply;
using heapguard::Tenant;
using heapguard::Worker;

namespace {

constexpr Worker WORKER{0};
constexpr Arena ROWS{0};
constexpr Tenant STRANGER{255};

// Of 64 segments, which a policy may have, 256 cores would have 1 GiB of blocks: here each has two.
constexpr std::uint32_t CORES = 256;

constexpr char POLICY[] = R"(version = 2
workers = 1
tenant = [ {name = "ann", limit = 262144}, {name = "bob", limit = 256}, {name = "cy", limit = 256} ]
arena = [ {name = "rows", segments = 2} ]
group = [ {name = "readers", members = ["bob", "cy"]} ]
grant = [ {owner = "ann", to = "readers", rights = ["read"]} ]
deny = [ {owner = "ann", to = "cy", rights = ["read"]} ]
)";

std::string said(Reply reply) { return hg_status_text(reply.status); }

class Store {
public:
    explicit Store(std::string_view policy) : bank_(policy, CORES) {}

    /// The session of a tenant, or of a stranger where no tenant has the name.
    Tenant session(std::string_view name) { return bank_.tenant(name).value_or(STRANGER); }

    /// The first word of a block is the value's length, the others have 8 of its bytes each.
    std::string set(Tenant session, const std::string &key, std::string_view value)
    {
        Reply made = room(session, 8 + (value.size() + 7) / 8 * 8);
        if (made.status != HG_BLOCK) return said(made);
        BankHandle block = heapguard::block_of(made);
        Reply done = fill(session, block, value);
        auto old = rows_.find(key);
        if (done.status == HG_DONE && old != rows_.end())
            done = bank_.free(WORKER, session, old->second);
        if (done.status != HG_DONE) {
            Reply undone = bank_.free(WORKER, session, block);
            return said(done) + (undone.status == HG_DONE ? "" : ", and a block is left");
        }
        rows_[key] = block;
        return "set " + heapguard::to_string(block);
    }

    std::string get(Tenant session, const std::string &key)
    {
        auto row = rows_.find(key);
        if (row == rows_.end()) return "no such key";
        Reply length = bank_.read(WORKER, session, row->second, 0);
        if (length.status != HG_VALUE) return said(length);
        std::string value;
        for (std::size_t at = 0; at < length.value; at += 8) {
            Reply word = bank_.read(WORKER, session, row->second, index(at));
            if (word.status != HG_VALUE) return said(word);
            unpack(word.value, value);
        }
        value.resize(length.value);
        return "\"" + value + "\"";
    }

    std::string drop(Tenant session, const std::string &key)
    {
        auto row = rows_.find(key);
        if (row == rows_.end()) return "no such key";
        Reply freed = bank_.free(WORKER, session, row->second);
        if (freed.status == HG_DONE) rows_.erase(row);
        return said(freed);
    }

    /// What a caller of the store could do with a handle that it kept.
    std::string peek(Tenant session, BankHandle block)
    {
        return said(bank_.read(WORKER, session, block, 0));
    }

    BankHandle handle(const std::string &key) const { return rows_.at(key); }

    std::uint32_t cores() const { return bank_.cores(); }

private:
    static std::uint32_t index(std::size_t at) { return static_cast<std::uint32_t>(1 + at / 8); }

    static std::uint64_t packed(std::string_view bytes)
    {
        std::uint64_t word = 0;
        for (std::size_t at = bytes.size(); at-- > 0;)
            word = word << 8 | static_cast<unsigned char>(bytes[at]);
        return word;
    }

    static void unpack(std::uint64_t word, std::string &bytes)
    {
        for (int at = 0; at < 8; at++) bytes += static_cast<char>(word >> 8 * at & 255);
    }

    /// Writes a value into a new block.
    Reply fill(Tenant session, BankHandle block, std::string_view value)
    {
        Reply done = bank_.write(WORKER, session, block, 0, value.size());
        for (std::size_t at = 0; at < value.size() && done.status == HG_DONE; at += 8)
            done = bank_.write(WORKER, session, block, index(at), packed(value.substr(at, 8)));
        return done;
    }

    /// A block. Where there is no room, with another segment; and where there is none, with another
    /// core.
    Reply room(Tenant session, std::uint64_t bytes)
    {
        Reply made = bank_.alloc(WORKER, session, ROWS, bytes);
        if (made.status != HG_NO_ROOM) return made;
        if (bank_.refill(WORKER, ROWS).status != HG_REFILLED) {
            Reply grown = bank_.grow();
            if (grown.status != HG_VALUE) return grown;
            Reply taken = bank_.refill(WORKER, ROWS);
            if (taken.status != HG_REFILLED) return taken;
        }
        return bank_.alloc(WORKER, session, ROWS, bytes);
    }

    Bank bank_;
    std::map<std::string, BankHandle> rows_;
};

} // namespace

int main()
{
    try {
        Store bad("version = 1\nworkers = 1\ncolour = 3\n");
    } catch (const heapguard::PolicyFault &fault) {
        std::cout << "a store of a faulty policy: " << fault.what() << "\n";
    }

    Store store(POLICY);
    const auto ann = store.session("ann"), bob = store.session("bob"), cy = store.session("cy");
    const auto eve = store.session("eve");
    auto tell = [](const char *what, const std::string &answer) {
        std::cout << what << ": " << answer << "\n";
    };
    tell("ann sets city", store.set(ann, "city", "Reykjavik, 64 degrees north"));
    tell("ann gets city", store.get(ann, "city"));
    tell("bob gets city, which readers may", store.get(bob, "city"));
    tell("cy gets city, which is denied to that reader", store.get(cy, "city"));
    tell("bob replaces city", store.set(bob, "city", "Oslo"));
    tell("bob drops city", store.drop(bob, "city"));
    tell("bob sets note", store.set(bob, "note", "mine"));
    tell("ann gets note", store.get(ann, "note"));
    tell("eve, a stranger, gets city", store.get(eve, "city"));
    tell("eve sets a key", store.set(eve, "key", "x"));
    tell("bob sets a value over his limit", store.set(bob, "long", std::string(300, 'b')));
    std::string page;
    for (std::size_t at = 0; at < 65536 - 8; at++) page += static_cast<char>('a' + at / 8 % 26);
    tell("ann sets a value that fills a block of 64 KiB", store.set(ann, "page", page));
    tell("ann gets it", store.get(ann, "page") == "\"" + page + "\"" ? "as it was" : "another");
    tell("ann sets a value too large for a block", store.set(ann, "huge", page + "a"));
    tell("ann sets another of 64 KiB, for which the bank grows", store.set(ann, "leaf", page));
    std::cout << "the bank has " << store.cores() << " cores\n";
    tell("ann reads by the handle of a core that isn't there",
         store.peek(ann, {2, store.handle("leaf").handle}));

    const BankHandle kept = store.handle("city");
    tell("ann replaces city", store.set(ann, "city", "Akureyri"));
    tell("bob reads by a handle that he kept", store.peek(bob, kept));
    tell("bob gets city", store.get(bob, "city"));
    tell("ann drops city", store.drop(ann, "city"));
    tell("bob gets city", store.get(bob, "city"));

    Bank first(POLICY, 1);
    Bank second = std::move(first);
    std::cout << "a bank that was moved has " << second.workers() << " worker, and "
              << first.workers() << " where it was\n";
    std::cout << "tenant 1 is " << second.tenant_name(Tenant{1}).value_or("nobody")
              << ", tenant 3 is " << second.tenant_name(Tenant{3}).value_or("nobody") << "\n";
    return 0;
}
