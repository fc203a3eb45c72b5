// A key-value store in threads: each is a worker of one service, and a shard of the store. A key's
// value is a block of the tenant that set it, made in the shard of the tenant's session. It is read
// where the worker is that holds it, and dropped from any shard, as the service allows; no two wait
// for one another on a block. In the end the service becomes a core, which has what is left.
#include "heapguard.hpp"

#include <condition_variable>
#include <deque>
#include <future>
#include <iostream>
#include <map>
#include <mutex>
#include <stdexcept>
#include <string>
#include <thread>
#include <utility>
#include <vector>

using heapguard::Arena;
using heapguard::Core;
using heapguard::Handle;
using heapguard::Reply;
using heapguard::Segment;
using heapguard::Service;
using heapguard::ServiceWorker;
using heapguard::Tenant;
using heapguard::Worker;

namespace {

constexpr Arena ROWS{0};

constexpr char POLICY[] = R"(version = 2
workers = 2
tenant = [ {name = "ann", limit = 4096}, {name = "bob", limit = 64}, {name = "cy", limit = 64} ]
arena = [ {name = "rows", segments = 4} ]
grant = [ {owner = "ann", to = "bob", rights = ["read", "free"]} ]
)";

std::string said(Reply reply) { return hg_status_text(reply.status); }

/// A worker in a thread of its own, which does what it is asked, one after another.
class Shard {
public:
    using Work = std::packaged_task<std::string(ServiceWorker &)>;

    explicit Shard(ServiceWorker worker)
        : worker_(std::move(worker)), thread_([this] { serve(); }) {}

    Shard(const Shard &) = delete;
    Shard &operator=(const Shard &) = delete;

    ~Shard()
    {
        put({}); // the last one
        thread_.join();
    }

    /// What came of this work, once the shard has done it.
    template <typename Do> std::string ask(Do work)
    {
        Work task(std::move(work));
        std::future<std::string> told = task.get_future();
        put(std::move(task));
        return told.get();
    }

private:
    void put(Work work)
    {
        std::lock_guard<std::mutex> lock(mutex_);
        asked_.push_back(std::move(work));
        some_.notify_one();
    }

    void serve()
    {
        for (;;) {
            std::unique_lock<std::mutex> lock(mutex_);
            some_.wait(lock, [this] { return !asked_.empty(); });
            Work work = std::move(asked_.front());
            asked_.pop_front();
            lock.unlock();
            if (!work.valid()) return;
            work(worker_);
        }
    }

    ServiceWorker worker_;
    std::mutex mutex_;
    std::condition_variable some_;
    std::deque<Work> asked_;
    std::thread thread_; // begins last, when all else is there
};

/// A session: who asks, and by which shard.
struct Session {
    Tenant tenant;
    Shard &shard;
};

/// The first word of a block is the value's length, the others have 8 of its bytes each.
std::vector<std::uint64_t> words_of(std::string_view value)
{
    std::vector<std::uint64_t> words(1 + (value.size() + 7) / 8);
    words[0] = value.size();
    for (std::size_t at = 0; at < value.size(); at++)
        words[1 + at / 8] |= std::uint64_t{static_cast<unsigned char>(value[at])} << at % 8 * 8;
    return words;
}

/// A block; where there is no room, of one segment more.
Reply room(ServiceWorker &worker, Tenant tenant, std::uint64_t bytes)
{
    Reply made = worker.alloc(tenant, ROWS, bytes);
    if (made.status != HG_NO_ROOM) return made;
    Reply taken = worker.refill(ROWS);
    return taken.status == HG_REFILLED ? worker.alloc(tenant, ROWS, bytes) : taken;
}

std::string value_of(ServiceWorker &worker, Tenant tenant, Handle block)
{
    Reply length = worker.read(tenant, block, 0);
    if (length.status != HG_VALUE) return said(length);
    std::vector<std::uint64_t> words((length.value + 7) / 8);
    Reply read = worker.read_words(tenant, block, 1, words.data(), words.size());
    if (read.status != HG_DONE) return said(read);
    std::string value;
    for (std::size_t at = 0; at < length.value; at++)
        value += static_cast<char>(words[at / 8] >> at % 8 * 8 & 255);
    return "\"" + value + "\"";
}

/// The keys, for the one thread that asks: which block each has, and whose worker holds it.
class Store {
public:
    std::string set(const Session &session, const std::string &key, std::string_view value)
    {
        if (rows_.count(key) != 0) return "there is such a key";
        Handle block = 0;
        std::string told = session.shard.ask([&](ServiceWorker &worker) {
            const auto words = words_of(value);
            Reply made = room(worker, session.tenant, 8 * words.size());
            if (made.status != HG_BLOCK) return said(made);
            const Reply written =
                worker.write_words(session.tenant, made.value, 0, words.data(), words.size());
            if (written.status != HG_DONE)
                return said(written) + ", and freed: " + said(worker.free(session.tenant, made.value));
            block = made.value;
            return said(written);
        });
        if (block != 0) rows_.insert({key, Row{block, &session.shard}});
        return told;
    }

    std::string get(const Session &session, const std::string &key)
    {
        auto row = rows_.find(key);
        if (row == rows_.end()) return "no such key";
        return row->second.shard->ask([&](ServiceWorker &worker) {
            return value_of(worker, session.tenant, row->second.block);
        });
    }

    /// What is freed in another shard than that which holds it is sent there.
    std::string drop(const Session &session, const std::string &key)
    {
        auto row = rows_.find(key);
        if (row == rows_.end()) return "no such key";
        std::uint32_t status = 0;
        std::string told = session.shard.ask([&](ServiceWorker &worker) {
            Reply freed = worker.free(session.tenant, row->second.block);
            status = freed.status;
            if (freed.status != HG_PARTED) return said(freed);
            return said(freed) + ", and sent: " + said(worker.deliver());
        });
        if (status == HG_DONE || status == HG_PARTED) rows_.erase(row);
        return told;
    }

    Handle handle(const std::string &key) const { return rows_.at(key).block; }

private:
    struct Row {
        Handle block;
        Shard *shard;
    };

    std::map<std::string, Row> rows_;
};

/// What was sent to each segment that the worker holds comes home.
std::string tidy(ServiceWorker &worker)
{
    std::uint64_t home = 0;
    for (std::uint32_t segment = 0; segment < 4; segment++)
        if (worker.holds(Segment{segment})) home += worker.take(Segment{segment}).value;
    return std::to_string(home) + " came home";
}

void tell(const char *what, const std::string &answer)
{
    std::cout << what << ": " << answer << "\n";
}

ServiceWorker given(Service &service, std::uint32_t number)
{
    ServiceWorker worker;
    if (service.give(Worker{number}, worker).status != HG_DONE)
        throw std::logic_error("no such worker");
    return worker;
}

} // namespace

int main()
{
    Service service(POLICY);
    const Tenant ann = service.tenant("ann").value(), bob = service.tenant("bob").value();
    const Tenant cy = service.tenant("cy").value();
    Store store;
    Core core;
    {
        Shard left(given(service, 0)), right(given(service, 1));
        const Session anns{ann, left}, bobs{bob, right}, cys{cy, right};
        tell("ann sets city", store.set(anns, "city", "Reykjavik, 64 degrees north"));
        tell("ann sets port", store.set(anns, "port", "Akureyri"));
        tell("bob sets note, in the other shard", store.set(bobs, "note", "mine"));
        tell("bob gets city, where it is held", store.get(bobs, "city"));
        tell("bob reads city in his own shard", bobs.shard.ask([&](ServiceWorker &worker) {
            return said(worker.read(bob, store.handle("city"), 0));
        }));
        tell("cy gets city", store.get(cys, "city"));
        tell("cy drops city", store.drop(cys, "city"));
        tell("ann gets note", store.get(anns, "note"));
        tell("bob sets a value over his limit", store.set(bobs, "long", std::string(100, 'b')));
        tell("bob drops city from his shard", store.drop(bobs, "city"));
        tell("ann gets city", store.get(anns, "city"));
        tell("the shard that held it", left.ask(tidy));
        tell("the service closes while its workers are out", said(service.close(core)));
        for (Shard *shard : {&left, &right})
            tell("a worker leaves", shard->ask([](ServiceWorker &worker) {
                return said(worker.leave());
            }));
    }
    tell("the service closes", said(service.close(core)));
    while (core.refill(Worker{0}, ROWS).status == HG_REFILLED) {
    }
    for (const char *key : {"port", "note"}) {
        Reply read = core.read(Worker{0}, key[0] == 'p' ? ann : bob, store.handle(key), 0);
        tell(key, read.status == HG_VALUE ? std::to_string(read.value) + " bytes" : said(read));
    }
    return 0;
}
