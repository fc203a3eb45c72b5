// heapguard.hpp: heapguard's core, bank, service and bank of services as classes of C++17 that close what
// they opened. The duties at the head of heapguard.h and heapguard_service.h are their caller's too, but
// for those on 16 bytes: a moved-from Core, Bank, Service or BankService is a closed one, and a moved-from
// ServiceWorker or BankWorker none.
#ifndef HEAPGUARD_HPP
#define HEAPGUARD_HPP

#if __cplusplus < 201703L
#error "heapguard.hpp is for C++17: compile with -std=c++17 or later, or include heapguard.h"
#else

#include "heapguard.h"
#include "heapguard_service.h"

#include <cstddef>
#include <cstdint>
#include <functional>
#include <optional>
#include <stdexcept>
#include <string>
#include <string_view>
#include <utility>

/// Two are one where core and handle are. These stand beside the struct of C, where maps look for
/// them.
constexpr bool operator==(const hg_bank_handle &one, const hg_bank_handle &other) noexcept
{
    return one.core == other.core && one.handle == other.handle;
}

constexpr bool operator!=(const hg_bank_handle &one, const hg_bank_handle &other) noexcept
{
    return !(one == other);
}

/// By cores, and in a core by places and generations: for the keys of a std::map.
constexpr bool operator<(const hg_bank_handle &one, const hg_bank_handle &other) noexcept
{
    return one.core != other.core ? one.core < other.core : one.handle < other.handle;
}

/// For the keys of a std::unordered_map. The core's number is spread over all bits.
template <>
struct std::hash<hg_bank_handle> {
    std::size_t operator()(const hg_bank_handle &block) const noexcept
    {
        return std::hash<std::uint64_t>()(block.core * 0x9e3779b97f4a7c15u ^ block.handle);
    }
};

namespace heapguard {

using Handle = hg_handle;
using BankHandle = hg_bank_handle;
using Reply = hg_reply;

/// Who serves, who asks, and where: numbers, each of a type of its own, so that none stands for
/// another. Of what may not fit into 32 bits the compiler tells between braces, as in Tenant{n}.
enum class Worker : std::uint32_t {};
enum class Tenant : std::uint32_t {};
enum class Arena : std::uint32_t {};
enum class Segment : std::uint32_t {};
enum class Place : std::uint32_t {};

/// A core of a bank: a number below that of Bank::cores.
enum class CoreNumber : std::uint32_t {};

/// The place of a block.
inline Place place_of(Handle block) { return Place{hg_place_of(block)}; }

/// The place of a block in its core.
inline Place place_of(BankHandle block) { return place_of(block.handle); }

/// The core of a block. Of a number above 65535 it is that one, which no bank has.
constexpr CoreNumber core_of(BankHandle block)
{
    return CoreNumber{static_cast<std::uint32_t>(block.core < 65535 ? block.core : 65535)};
}

/// The block that Bank::alloc answered with HG_BLOCK; of any other reply one that is no block.
inline BankHandle block_of(Reply made) { return hg_bank_handle_of(made); }

/// The core that gave a block or a segment, by the reply of Bank::alloc or Bank::refill; nothing
/// where none did.
inline std::optional<CoreNumber> core_of(Reply made)
{
    if (made.status != HG_BLOCK && made.status != HG_REFILLED) return std::nullopt;
    return CoreNumber{made.detail};
}

/// The handle as it is written, `@segment.page.index.generation`.
inline std::string to_string(Handle block)
{
    return "@" + std::to_string(hg_segment_of(block)) + "."
        + std::to_string(hg_page_of(block)) + "." + std::to_string(hg_index_of(block)) + "."
        + std::to_string(hg_generation_of(block));
}

/// The same of a bank, `@core/segment.page.index.generation`.
inline std::string to_string(BankHandle block)
{
    return "@" + std::to_string(block.core) + "/" + to_string(block.handle).substr(1);
}

#ifdef __cpp_exceptions
/// Why a text is no policy. Its text is the line that heapguard tells.
class PolicyFault : public std::runtime_error {
public:
    PolicyFault(std::uint16_t status, const std::string &line)
        : std::runtime_error(line), status_(status) {}
    /// One of HG_NOT_TOML to HG_NO_MEMORY.
    std::uint16_t status() const noexcept { return status_; }

private:
    std::uint16_t status_;
};
#endif

namespace detail {

/// What Core and Bank share.
struct Shared {
    template <typename Numbered>
    static constexpr std::uint32_t number(Numbered it)
    {
        return static_cast<std::uint32_t>(it);
    }

    /// What a question told, if it told a number.
    static std::optional<std::uint64_t> value(Reply told)
    {
        if (told.status != HG_VALUE) return std::nullopt;
        return told.value;
    }

    template <typename Numbered>
    static std::optional<Numbered> found(Reply told)
    {
        if (told.status != HG_VALUE) return std::nullopt;
        return Numbered{static_cast<std::uint32_t>(told.value)};
    }

    /// Makes a call that writes a text into room of so many bytes, and gives its reply; `text` is
    /// what stands there then.
    template <std::size_t size, typename Call>
    static Reply written(std::string &text, Call call)
    {
        char room[size];
        Reply told = call(room, sizeof room);
        text.assign(room, static_cast<std::size_t>(told.value));
        return told;
    }

    /// The name that a call writes, of 16 bytes at most.
    template <typename Call>
    static std::optional<std::string> named(Call call)
    {
        std::string name;
        if (written<16>(name, call).status != HG_VALUE) return std::nullopt;
        return name;
    }
};

} // namespace detail

/// A core. One call at a time may be made on it, but for its const ones: several threads may make
/// those at once, while no other runs.
class Core : detail::Shared {
public:
    /// A closed one, which answers HG_CLOSED.
    Core() noexcept = default;

#ifdef __cpp_exceptions
    /// Opens by the text of a policy, or throws its first fault.
    explicit Core(std::string_view policy)
    {
        std::string line;
        Reply opened = open(policy, line);
        if (opened.status != HG_DONE) throw PolicyFault(opened.status, line);
    }
#endif

    Core(const Core &) = delete;
    Core &operator=(const Core &) = delete;

    Core(Core &&other) noexcept : core_(std::exchange(other.core_, hg_core HG_CORE_INIT)) {}

    Core &operator=(Core &&other) noexcept
    {
        if (this != &other) {
            (void)hg_close(&core_);
            core_ = std::exchange(other.core_, hg_core HG_CORE_INIT);
        }
        return *this;
    }

    ~Core() { (void)hg_close(&core_); }

    /// Opens a closed one by the text of a policy; with a fault, `line` is the line that tells it,
    /// as far as 1,024 bytes go.
    [[nodiscard]] Reply open(std::string_view policy, std::string &line)
    {
        return written<1024>(line, [&](char *room, std::size_t length) {
            return hg_open(&core_, policy.data(), policy.size(), room, length);
        });
    }

    [[nodiscard]] Reply close() noexcept { return hg_close(&core_); }

    [[nodiscard]] Reply alloc(Worker worker, Tenant actor, Arena arena, std::uint64_t bytes)
    {
        return hg_alloc(&core_, number(worker), number(actor), number(arena), bytes);
    }

    [[nodiscard]] Reply free(Worker worker, Tenant actor, Handle block)
    {
        return hg_free(&core_, number(worker), number(actor), block);
    }

    [[nodiscard]] Reply deliver(Worker worker) { return hg_deliver(&core_, number(worker)); }

    [[nodiscard]] Reply take(Worker worker, Segment segment)
    {
        return hg_take(&core_, number(worker), number(segment));
    }

    [[nodiscard]] Reply collect(Worker worker) { return hg_collect(&core_, number(worker)); }

    [[nodiscard]] Reply read(Worker worker, Tenant actor, Handle block, std::uint32_t index)
    {
        return hg_read(&core_, number(worker), number(actor), block, index);
    }

    [[nodiscard]] Reply write(Worker worker, Tenant actor, Handle block, std::uint32_t index,
                std::uint64_t value)
    {
        return hg_write(&core_, number(worker), number(actor), block, index, value);
    }

    [[nodiscard]] Reply look(Worker worker, Tenant actor, Place place)
    {
        return hg_look(&core_, number(worker), number(actor), number(place));
    }

    [[nodiscard]] Reply abandon(Worker worker, Segment segment)
    {
        return hg_abandon(&core_, number(worker), number(segment));
    }

    [[nodiscard]] Reply refill(Worker worker, Arena arena)
    {
        return hg_refill(&core_, number(worker), number(arena));
    }

    /// Reads that many words from the word of an index on, until one is refused; the value is how
    /// many were read.
    [[nodiscard]] Reply read_words(Worker worker, Tenant actor, Handle block, std::uint32_t first,
                     std::uint64_t *room, std::size_t count)
    {
        return hg_read_words(&core_, number(worker), number(actor), block, first, room, count);
    }

    /// Writes that many words from the word of an index on, until one is refused; the value is how
    /// many were written.
    [[nodiscard]] Reply write_words(Worker worker, Tenant actor, Handle block, std::uint32_t first,
                      const std::uint64_t *words, std::size_t count)
    {
        return hg_write_words(&core_, number(worker), number(actor), block, first, words, count);
    }

    /// Reads that many bytes from the byte of an offset on, until a word's Read is refused; the value
    /// is how many were read.
    [[nodiscard]] Reply read_bytes(Worker worker, Tenant actor, Handle block, std::uint64_t first,
                                   void *room, std::size_t count)
    {
        return hg_read_bytes(&core_, number(worker), number(actor), block, first, room, count);
    }

    /// Writes that many bytes from the byte of an offset on, until a word's Read or Write is refused;
    /// the value is how many were written.
    [[nodiscard]] Reply write_bytes(Worker worker, Tenant actor, Handle block, std::uint64_t first,
                                    const void *bytes, std::size_t count)
    {
        return hg_write_bytes(&core_, number(worker), number(actor), block, first, bytes, count);
    }

    /// Frees all blocks of the owner that the worker holds and the actor may free; the value is how
    /// many.
    [[nodiscard]] Reply free_all(Worker worker, Tenant actor, Tenant owner)
    {
        return hg_free_all(&core_, number(worker), number(actor), number(owner));
    }

    /// How many workers there are, 0 where it is closed.
    std::uint32_t workers() const { return static_cast<std::uint32_t>(hg_workers(&core_).value); }

    /// How many segments all arenas have, 0 where it is closed.
    std::uint32_t segments() const { return static_cast<std::uint32_t>(hg_segments(&core_).value); }

    bool holds(Worker worker, Segment segment) const
    {
        return hg_holds(&core_, number(worker), number(segment)).value == 1;
    }

    /// Who holds the segment, if somebody does.
    std::optional<Worker> holder(Segment segment) const
    {
        return found<Worker>(hg_holder(&core_, number(segment)));
    }

    /// What counts against the tenant's limit with the worker, in bytes; nothing of a worker or a
    /// tenant that isn't there.
    std::optional<std::uint64_t> charge(Worker worker, Tenant tenant) const
    {
        return value(hg_charge(&core_, number(worker), number(tenant)));
    }

    std::optional<Tenant> tenant(std::string_view name) const
    {
        return found<Tenant>(hg_tenant(&core_, name.data(), name.size()));
    }

    std::optional<Arena> arena(std::string_view name) const
    {
        return found<Arena>(hg_arena(&core_, name.data(), name.size()));
    }

    std::optional<std::string> tenant_name(Tenant tenant) const
    {
        return named([&](char *room, std::size_t length) {
            return hg_tenant_name(&core_, number(tenant), room, length);
        });
    }

private:
    friend class Service;
    hg_core core_ HG_CORE_INIT;
};

/// A bank: many cores under one policy. Its calls are those of a core; where they name a block, a
/// place, a segment or a hand, they name its core too. Which may be made at once is as of a Core.
class Bank : detail::Shared {
public:
    /// A closed one, which answers HG_CLOSED.
    Bank() noexcept = default;

#ifdef __cpp_exceptions
    /// Opens by the text of a policy with room for so many cores, of which the first is open; or
    /// throws the policy's first fault, or std::invalid_argument where no bank has so many cores.
    Bank(std::string_view policy, std::uint32_t cores)
    {
        std::string line;
        Reply opened = open(policy, cores, line);
        if (opened.status == HG_NO_COUNT) throw std::invalid_argument(hg_status_text(HG_NO_COUNT));
        if (opened.status != HG_DONE) throw PolicyFault(opened.status, line);
    }
#endif

    Bank(const Bank &) = delete;
    Bank &operator=(const Bank &) = delete;

    Bank(Bank &&other) noexcept : bank_(std::exchange(other.bank_, hg_bank HG_BANK_INIT)) {}

    Bank &operator=(Bank &&other) noexcept
    {
        if (this != &other) {
            (void)hg_bank_close(&bank_);
            bank_ = std::exchange(other.bank_, hg_bank HG_BANK_INIT);
        }
        return *this;
    }

    ~Bank() { (void)hg_bank_close(&bank_); }

    /// Opens a closed one by the text of a policy, with room for 1 to 16384 cores, of which the
    /// first is open; with a fault, `line` is the line that tells it, as far as 1,024 bytes go.
    [[nodiscard]] Reply open(std::string_view policy, std::uint32_t cores, std::string &line)
    {
        return written<1024>(line, [&](char *room, std::size_t length) {
            return hg_bank_open(&bank_, policy.data(), policy.size(), cores, room, length);
        });
    }

    [[nodiscard]] Reply close() noexcept { return hg_bank_close(&bank_); }

    /// Opens one core more; the value is its number. Nobody holds a segment of it yet.
    [[nodiscard]] Reply grow() { return hg_bank_grow(&bank_); }

    /// A block of the first core with room, from the current one on: block_of its reply.
    [[nodiscard]] Reply alloc(Worker worker, Tenant actor, Arena arena, std::uint64_t bytes)
    {
        return hg_bank_alloc(&bank_, number(worker), number(actor), number(arena), bytes);
    }

    [[nodiscard]] Reply free(Worker worker, Tenant actor, BankHandle block)
    {
        return hg_bank_free(&bank_, number(worker), number(actor), block);
    }

    [[nodiscard]] Reply deliver(Worker worker, CoreNumber core)
    {
        return hg_bank_deliver(&bank_, number(worker), number(core));
    }

    [[nodiscard]] Reply take(Worker worker, CoreNumber core, Segment segment)
    {
        return hg_bank_take(&bank_, number(worker), number(core), number(segment));
    }

    [[nodiscard]] Reply collect(Worker worker, CoreNumber core)
    {
        return hg_bank_collect(&bank_, number(worker), number(core));
    }

    [[nodiscard]] Reply read(Worker worker, Tenant actor, BankHandle block, std::uint32_t index)
    {
        return hg_bank_read(&bank_, number(worker), number(actor), block, index);
    }

    [[nodiscard]] Reply write(Worker worker, Tenant actor, BankHandle block, std::uint32_t index,
                std::uint64_t value)
    {
        return hg_bank_write(&bank_, number(worker), number(actor), block, index, value);
    }

    [[nodiscard]] Reply look(Worker worker, Tenant actor, CoreNumber core, Place place)
    {
        return hg_bank_look(&bank_, number(worker), number(actor), number(core), number(place));
    }

    [[nodiscard]] Reply abandon(Worker worker, CoreNumber core, Segment segment)
    {
        return hg_bank_abandon(&bank_, number(worker), number(core), number(segment));
    }

    /// A segment of the first core that has one, from the current one on: the value is its number,
    /// and its core is core_of its reply.
    [[nodiscard]] Reply refill(Worker worker, Arena arena)
    {
        return hg_bank_refill(&bank_, number(worker), number(arena));
    }

    /// As Core::read_words.
    [[nodiscard]] Reply read_words(Worker worker, Tenant actor, BankHandle block,
                     std::uint32_t first, std::uint64_t *room, std::size_t count)
    {
        return hg_bank_read_words(&bank_, number(worker), number(actor), block, first, room, count);
    }

    /// As Core::write_words.
    [[nodiscard]] Reply write_words(Worker worker, Tenant actor, BankHandle block,
                      std::uint32_t first, const std::uint64_t *words, std::size_t count)
    {
        return hg_bank_write_words(&bank_, number(worker), number(actor), block, first, words,
                                   count);
    }

    /// As Core::read_bytes.
    [[nodiscard]] Reply read_bytes(Worker worker, Tenant actor, BankHandle block,
                                   std::uint64_t first, void *room, std::size_t count)
    {
        return hg_bank_read_bytes(&bank_, number(worker), number(actor), block, first, room, count);
    }

    /// As Core::write_bytes.
    [[nodiscard]] Reply write_bytes(Worker worker, Tenant actor, BankHandle block,
                                    std::uint64_t first, const void *bytes, std::size_t count)
    {
        return hg_bank_write_bytes(&bank_, number(worker), number(actor), block, first, bytes,
                                   count);
    }

    /// Frees all blocks of the owner in one core that the worker holds and the actor may free; the
    /// value is how many.
    [[nodiscard]] Reply free_all(Worker worker, Tenant actor, CoreNumber core, Tenant owner)
    {
        return hg_bank_free_all(&bank_, number(worker), number(actor), number(core), number(owner));
    }

    /// How many cores are open, 0 where it is closed.
    std::uint32_t cores() const { return static_cast<std::uint32_t>(hg_bank_cores(&bank_).value); }

    /// How many workers there are, 0 where it is closed.
    std::uint32_t workers() const
    {
        return static_cast<std::uint32_t>(hg_bank_workers(&bank_).value);
    }

    /// How many segments each core has, 0 where it is closed.
    std::uint32_t segments() const
    {
        return static_cast<std::uint32_t>(hg_bank_segments(&bank_).value);
    }

    bool holds(Worker worker, CoreNumber core, Segment segment) const
    {
        return hg_bank_holds(&bank_, number(worker), number(core), number(segment)).value == 1;
    }

    /// Who holds the segment, if somebody does.
    std::optional<Worker> holder(CoreNumber core, Segment segment) const
    {
        return found<Worker>(hg_bank_holder(&bank_, number(core), number(segment)));
    }

    /// What counts against the tenant's limit with the worker over all cores, in bytes; nothing of a
    /// worker or a tenant that isn't there.
    std::optional<std::uint64_t> charge(Worker worker, Tenant tenant) const
    {
        return value(hg_bank_charge(&bank_, number(worker), number(tenant)));
    }

    std::optional<Tenant> tenant(std::string_view name) const
    {
        return found<Tenant>(hg_bank_tenant(&bank_, name.data(), name.size()));
    }

    std::optional<Arena> arena(std::string_view name) const
    {
        return found<Arena>(hg_bank_arena(&bank_, name.data(), name.size()));
    }

    std::optional<std::string> tenant_name(Tenant tenant) const
    {
        return named([&](char *room, std::size_t length) {
            return hg_bank_tenant_name(&bank_, number(tenant), room, length);
        });
    }

private:
    friend class BankService;
    hg_bank bank_ HG_BANK_INIT;
};

/// A worker of a service, for one thread: its calls take no lock. Dropped, it is given up with all
/// that it holds, and its service closes no more: leave() comes before that. deliver, take, refill and
/// abandon ask again where another call has what they need.
class ServiceWorker : detail::Shared {
public:
    /// None, which answers HG_CLOSED.
    ServiceWorker() noexcept = default;

    ServiceWorker(const ServiceWorker &) = delete;
    ServiceWorker &operator=(const ServiceWorker &) = delete;

    ServiceWorker(ServiceWorker &&other) noexcept
        : worker_(std::exchange(other.worker_, hg_worker HG_WORKER_INIT)) {}

    ServiceWorker &operator=(ServiceWorker &&other) noexcept
    {
        if (this != &other) {
            (void)hg_worker_drop(&worker_);
            worker_ = std::exchange(other.worker_, hg_worker HG_WORKER_INIT);
        }
        return *this;
    }

    ~ServiceWorker() { (void)hg_worker_drop(&worker_); }

    [[nodiscard]] Reply alloc(Tenant actor, Arena arena, std::uint64_t bytes)
    {
        return hg_worker_alloc(&worker_, number(actor), number(arena), bytes);
    }

    [[nodiscard]] Reply free(Tenant actor, Handle block)
    {
        return hg_worker_free(&worker_, number(actor), block);
    }

    [[nodiscard]] Reply read(Tenant actor, Handle block, std::uint32_t index)
    {
        return hg_worker_read(&worker_, number(actor), block, index);
    }

    [[nodiscard]] Reply write(Tenant actor, Handle block, std::uint32_t index, std::uint64_t value)
    {
        return hg_worker_write(&worker_, number(actor), block, index, value);
    }

    [[nodiscard]] Reply look(Tenant actor, Place place)
    {
        return hg_worker_look(&worker_, number(actor), number(place));
    }

    [[nodiscard]] Reply collect() { return hg_worker_collect(&worker_); }

    /// As Core::read_words.
    [[nodiscard]] Reply read_words(Tenant actor, Handle block, std::uint32_t first,
                                   std::uint64_t *room, std::size_t count)
    {
        return hg_worker_read_words(&worker_, number(actor), block, first, room, count);
    }

    /// As Core::write_words.
    [[nodiscard]] Reply write_words(Tenant actor, Handle block, std::uint32_t first,
                                    const std::uint64_t *words, std::size_t count)
    {
        return hg_worker_write_words(&worker_, number(actor), block, first, words, count);
    }

    /// As Core::read_bytes.
    [[nodiscard]] Reply read_bytes(Tenant actor, Handle block, std::uint64_t first, void *room,
                                   std::size_t count)
    {
        return hg_worker_read_bytes(&worker_, number(actor), block, first, room, count);
    }

    /// As Core::write_bytes.
    [[nodiscard]] Reply write_bytes(Tenant actor, Handle block, std::uint64_t first,
                                    const void *bytes, std::size_t count)
    {
        return hg_worker_write_bytes(&worker_, number(actor), block, first, bytes, count);
    }

    [[nodiscard]] Reply deliver() { return hg_worker_deliver_now(&worker_); }

    [[nodiscard]] Reply take(Segment segment)
    {
        return hg_worker_take_now(&worker_, number(segment));
    }

    [[nodiscard]] Reply refill(Arena arena) { return hg_worker_refill_now(&worker_, number(arena)); }

    [[nodiscard]] Reply abandon(Segment segment)
    {
        return hg_worker_abandon_now(&worker_, number(segment));
    }

    /// As those without try_, asked once: HG_AGAIN where another call has what is needed.
    [[nodiscard]] Reply try_deliver() { return hg_worker_deliver(&worker_); }

    [[nodiscard]] Reply try_take(Segment segment)
    {
        return hg_worker_take(&worker_, number(segment));
    }

    [[nodiscard]] Reply try_refill(Arena arena)
    {
        return hg_worker_refill(&worker_, number(arena));
    }

    [[nodiscard]] Reply try_abandon(Segment segment)
    {
        return hg_worker_abandon(&worker_, number(segment));
    }

    /// The blocks that it holds and the actor may list, as far as there is room for that many; the
    /// value is how many there are.
    [[nodiscard]] Reply list(Tenant actor, Reply *room, std::size_t count)
    {
        return hg_worker_list(&worker_, number(actor), room, count);
    }

    /// Its number, if there is one.
    std::optional<Worker> own() { return found<Worker>(hg_worker_number(&worker_)); }

    bool holds(Segment segment) { return hg_worker_holds(&worker_, number(segment)).value == 1; }

    /// The place of the block in its hand, if it has one there.
    std::optional<Place> hand() { return found<Place>(hg_worker_hand(&worker_)); }

    /// Sends what is in hand, gives up each segment that it holds, and goes back to its service; or
    /// what the first call that wasn't served was answered, and then it stays.
    [[nodiscard]] Reply leave() { return hg_worker_leave_now(&worker_); }

private:
    friend class Service;
    hg_worker worker_ HG_WORKER_INIT;
};

/// A service: what a core is, served by several threads at once, each of which is one of its workers.
/// Dropped, it is given up, and its workers go on. Its calls are one at a time, questions too, and
/// so are those of a worker.
class Service : detail::Shared {
public:
    /// A closed one, which answers HG_CLOSED.
    Service() noexcept = default;

#ifdef __cpp_exceptions
    /// Opens by the text of a policy, or throws its first fault.
    explicit Service(std::string_view policy)
    {
        std::string line;
        Reply opened = open(policy, line);
        if (opened.status != HG_DONE) throw PolicyFault(opened.status, line);
    }
#endif

    Service(const Service &) = delete;
    Service &operator=(const Service &) = delete;

    Service(Service &&other) noexcept
        : service_(std::exchange(other.service_, hg_service HG_SERVICE_INIT)) {}

    Service &operator=(Service &&other) noexcept
    {
        if (this != &other) {
            (void)hg_service_drop(&service_);
            service_ = std::exchange(other.service_, hg_service HG_SERVICE_INIT);
        }
        return *this;
    }

    ~Service() { (void)hg_service_drop(&service_); }

    /// Opens a closed one by the text of a policy; with a fault, `line` is the line that tells it,
    /// as far as 1,024 bytes go.
    [[nodiscard]] Reply open(std::string_view policy, std::string &line)
    {
        return written<1024>(line, [&](char *room, std::size_t length) {
            return hg_service_open(&service_, policy.data(), policy.size(), room, length);
        });
    }

    /// Gives the worker of a number, where `worker` is none yet.
    [[nodiscard]] Reply give(Worker numbered, ServiceWorker &worker)
    {
        return hg_service_worker(&service_, number(numbered), &worker.worker_);
    }

    /// Becomes a core, where `core` is a closed one, once each worker that it gave has left. Those that
    /// it didn't give leave by the first such call. After HG_NO_MEMORY this comes again before all else.
    [[nodiscard]] Reply close(Core &core) { return hg_service_close(&service_, &core.core_); }

    /// How many workers there are, 0 where it is closed.
    std::uint32_t workers()
    {
        return static_cast<std::uint32_t>(hg_service_workers(&service_).value);
    }

    /// How many segments all arenas have, 0 where it is closed.
    std::uint32_t segments()
    {
        return static_cast<std::uint32_t>(hg_service_segments(&service_).value);
    }

    std::optional<Tenant> tenant(std::string_view name)
    {
        return found<Tenant>(hg_service_tenant(&service_, name.data(), name.size()));
    }

    std::optional<Arena> arena(std::string_view name)
    {
        return found<Arena>(hg_service_arena(&service_, name.data(), name.size()));
    }

private:
    hg_service service_ HG_SERVICE_INIT;
};

/// A worker of a bank of services, for one thread: its calls take no lock. They are those of a
/// ServiceWorker; where they name a block, a place, a segment or a hand, they name its core too. Dropped,
/// it is given up with all that it holds, and its bank of services closes no more: leave() comes before
/// that. deliver, take, refill and abandon ask again where another call has what they need.
class BankWorker : detail::Shared {
public:
    /// None, which answers HG_CLOSED.
    BankWorker() noexcept = default;

    BankWorker(const BankWorker &) = delete;
    BankWorker &operator=(const BankWorker &) = delete;

    BankWorker(BankWorker &&other) noexcept
        : worker_(std::exchange(other.worker_, hg_bank_worker HG_BANK_WORKER_INIT)) {}

    BankWorker &operator=(BankWorker &&other) noexcept
    {
        if (this != &other) {
            (void)hg_bank_worker_drop(&worker_);
            worker_ = std::exchange(other.worker_, hg_bank_worker HG_BANK_WORKER_INIT);
        }
        return *this;
    }

    ~BankWorker() { (void)hg_bank_worker_drop(&worker_); }

    /// A block of the first core with room, from the current one on: block_of its reply.
    [[nodiscard]] Reply alloc(Tenant actor, Arena arena, std::uint64_t bytes)
    {
        return hg_bank_worker_alloc(&worker_, number(actor), number(arena), bytes);
    }

    [[nodiscard]] Reply free(Tenant actor, BankHandle block)
    {
        return hg_bank_worker_free(&worker_, number(actor), block);
    }

    [[nodiscard]] Reply read(Tenant actor, BankHandle block, std::uint32_t index)
    {
        return hg_bank_worker_read(&worker_, number(actor), block, index);
    }

    [[nodiscard]] Reply write(Tenant actor, BankHandle block, std::uint32_t index, std::uint64_t value)
    {
        return hg_bank_worker_write(&worker_, number(actor), block, index, value);
    }

    [[nodiscard]] Reply look(Tenant actor, CoreNumber core, Place place)
    {
        return hg_bank_worker_look(&worker_, number(actor), number(core), number(place));
    }

    [[nodiscard]] Reply collect(CoreNumber core)
    {
        return hg_bank_worker_collect(&worker_, number(core));
    }

    [[nodiscard]] Reply deliver(CoreNumber core)
    {
        return hg_bank_worker_deliver_now(&worker_, number(core));
    }

    [[nodiscard]] Reply take(CoreNumber core, Segment segment)
    {
        return hg_bank_worker_take_now(&worker_, number(core), number(segment));
    }

    /// A segment of the first core that has one, from the current one on: the value is its number, and
    /// its core is core_of its reply.
    [[nodiscard]] Reply refill(Arena arena)
    {
        return hg_bank_worker_refill_now(&worker_, number(arena));
    }

    [[nodiscard]] Reply abandon(CoreNumber core, Segment segment)
    {
        return hg_bank_worker_abandon_now(&worker_, number(core), number(segment));
    }

    /// As those without try_, asked once: HG_AGAIN where another call has what is needed.
    [[nodiscard]] Reply try_deliver(CoreNumber core)
    {
        return hg_bank_worker_deliver(&worker_, number(core));
    }

    [[nodiscard]] Reply try_take(CoreNumber core, Segment segment)
    {
        return hg_bank_worker_take(&worker_, number(core), number(segment));
    }

    [[nodiscard]] Reply try_refill(Arena arena)
    {
        return hg_bank_worker_refill(&worker_, number(arena));
    }

    [[nodiscard]] Reply try_abandon(CoreNumber core, Segment segment)
    {
        return hg_bank_worker_abandon(&worker_, number(core), number(segment));
    }

    /// The blocks that it holds in a core and the actor may list, as far as there is room for that many;
    /// the value is how many there are.
    [[nodiscard]] Reply list(CoreNumber core, Tenant actor, Reply *room, std::size_t count)
    {
        return hg_bank_worker_list(&worker_, number(core), number(actor), room, count);
    }

    /// Its number, if there is one.
    std::optional<Worker> own() { return found<Worker>(hg_bank_worker_number(&worker_)); }

    /// How many cores it has, 0 where there is none.
    std::uint32_t cores()
    {
        return static_cast<std::uint32_t>(hg_bank_worker_cores(&worker_).value);
    }

    bool holds(CoreNumber core, Segment segment)
    {
        return hg_bank_worker_holds(&worker_, number(core), number(segment)).value == 1;
    }

    /// The place of the block in its hand in a core, if it has one there.
    std::optional<Place> hand(CoreNumber core)
    {
        return found<Place>(hg_bank_worker_hand(&worker_, number(core)));
    }

    /// What counts against the tenant's limit with it over all cores, in bytes; nothing of a tenant that
    /// isn't there.
    std::optional<std::uint64_t> charge(Tenant tenant)
    {
        return value(hg_bank_worker_charge(&worker_, number(tenant)));
    }

    /// Sends what is in hand and gives up each segment that it holds, in each core, and goes back to its
    /// bank of services; or what the first call that wasn't served was answered, and then it stays.
    [[nodiscard]] Reply leave() { return hg_bank_worker_leave_now(&worker_); }

private:
    friend class BankService;
    hg_bank_worker worker_ HG_BANK_WORKER_INIT;
};

/// A bank of services: what a bank is, served by several threads at once, each of which is one of its
/// workers. Dropped, it is given up, and its workers go on. Its calls are one at a time, questions too,
/// and so are those of a worker.
class BankService : detail::Shared {
public:
    /// A closed one, which answers HG_CLOSED.
    BankService() noexcept = default;

#ifdef __cpp_exceptions
    /// Opens by the text of a policy with so many cores; or throws the policy's first fault, or
    /// std::invalid_argument where no bank has so many.
    BankService(std::string_view policy, std::uint32_t cores)
    {
        std::string line;
        Reply opened = open(policy, cores, line);
        if (opened.status == HG_NO_COUNT) throw std::invalid_argument(hg_status_text(HG_NO_COUNT));
        if (opened.status != HG_DONE) throw PolicyFault(opened.status, line);
    }
#endif

    BankService(const BankService &) = delete;
    BankService &operator=(const BankService &) = delete;

    BankService(BankService &&other) noexcept
        : service_(std::exchange(other.service_, hg_bank_service HG_BANK_SERVICE_INIT)) {}

    BankService &operator=(BankService &&other) noexcept
    {
        if (this != &other) {
            (void)hg_bank_service_drop(&service_);
            service_ = std::exchange(other.service_, hg_bank_service HG_BANK_SERVICE_INIT);
        }
        return *this;
    }

    ~BankService() { (void)hg_bank_service_drop(&service_); }

    /// Opens a closed one by the text of a policy, with 1 to 16384 cores; with a fault, `line` is the
    /// line that tells it, as far as 1,024 bytes go.
    [[nodiscard]] Reply open(std::string_view policy, std::uint32_t cores, std::string &line)
    {
        return written<1024>(line, [&](char *room, std::size_t length) {
            return hg_bank_service_open(&service_, policy.data(), policy.size(), cores, room, length);
        });
    }

    /// Gives the worker of a number, where `worker` is none yet.
    [[nodiscard]] Reply give(Worker numbered, BankWorker &worker)
    {
        return hg_bank_service_worker(&service_, number(numbered), &worker.worker_);
    }

    /// Becomes a bank, where `bank` is a closed one, once each worker that it gave has left. Those that
    /// it didn't give leave by the first such call. After HG_NO_MEMORY this comes again before all else.
    [[nodiscard]] Reply close(Bank &bank) { return hg_bank_service_close(&service_, &bank.bank_); }

    /// How many cores it has, 0 where it is closed.
    std::uint32_t cores()
    {
        return static_cast<std::uint32_t>(hg_bank_service_cores(&service_).value);
    }

    /// How many workers there are, 0 where it is closed.
    std::uint32_t workers()
    {
        return static_cast<std::uint32_t>(hg_bank_service_workers(&service_).value);
    }

    /// How many segments each core has, 0 where it is closed.
    std::uint32_t segments()
    {
        return static_cast<std::uint32_t>(hg_bank_service_segments(&service_).value);
    }

    std::optional<Tenant> tenant(std::string_view name)
    {
        return found<Tenant>(hg_bank_service_tenant(&service_, name.data(), name.size()));
    }

    std::optional<Arena> arena(std::string_view name)
    {
        return found<Arena>(hg_bank_service_arena(&service_, name.data(), name.size()));
    }

private:
    hg_bank_service service_ HG_BANK_SERVICE_INIT;
};

} // namespace heapguard

#endif // C++17

#endif
