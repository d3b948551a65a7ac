// A FAKE of the library: what stands behind a handle.
#ifndef FAKE_ROWS_HPP
#define FAKE_ROWS_HPP

#include "shardcache.h"

#include <atomic>
#include <list>
#include <map>
#include <memory_resource>
#include <string>
#include <string_view>

namespace fake {

constexpr uint32_t is_open = 1;
constexpr size_t most_tickets = 32;
constexpr uint32_t most_guards = 1'000'000;

// Memory of the system, so that the heap is asked only as a cache is opened, as the library does.
class Mapped : public std::pmr::memory_resource {
    void *do_allocate(size_t bytes, size_t) override;
    void do_deallocate(void *at, size_t bytes, size_t) override;
    bool do_is_equal(const memory_resource &other) const noexcept override { return this == &other; }
};

// A table's number and a key behind it, of which one byte more than a key can have is kept.
struct Key {
    char bytes[SC_MOST_KEY + 2];
    size_t len;

    operator std::string_view() const { return {bytes, len}; }
};

Key key_of(uint8_t table, const uint8_t *key, size_t len);

inline std::string_view text_at(const uint8_t *at, size_t len) { return {reinterpret_cast<const char *>(at), len}; }

struct Row;
using Rows = std::pmr::map<std::pmr::string, Row, std::less<>>;
using Order = std::pmr::list<Rows::iterator>;

struct Row {
    using allocator_type = std::pmr::polymorphic_allocator<>;
    explicit Row(allocator_type from) : value(from) {}
    std::pmr::string value;
    uint32_t tag = 0;
    Order::iterator place;
};

// The tags of rows that went.
struct Told {
    uint32_t *tags;
    size_t room;
    uint64_t count = 0;

    void tell(uint32_t tag) {
        if (count < room) tags[count] = tag;
        count++;
    }
};

struct Cache;

struct Ticket {
    Cache *owner;
    Ticket *next;
    uint8_t bytes[SC_MOST_HEAD + SC_MOST_VALUE];
};

struct Cache {
    Mapped mapped;
    std::pmr::unsynchronized_pool_resource pool{&mapped};
    Rows rows{&pool};
    Order order{&pool};  // the row used last in front
    uint64_t live = 0, bound = 0, evictions = 0, gets = 0, hits = 0;
    uint32_t room = 0, groups = 1, blocks_out = 0;
    uint32_t guards[SC_TABLES] = {};
    Ticket *tickets = nullptr, *idle = nullptr;
    std::atomic<Ticket *> released{nullptr};

    bool is_guarded() const;
    void use(Rows::iterator row);
    void drop(Rows::iterator row);
    void put(std::string_view key, std::string_view first, std::string_view second, uint32_t tag, Told &told, bool &replaced);

  private:
    static uint64_t live_bytes(Rows::iterator row);
    void evict_last(Told &told);
};

inline Cache &cache_of(const sc_cache *handle) { return *static_cast<Cache *>(handle->at); }

// The code of a call on a row of this table; SC_DONE where it may go on.
uint32_t refusal(const sc_cache *handle, uint8_t table);

}  // namespace fake
#endif
