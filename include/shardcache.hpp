// One shard's cache of rows, blocks that it lends, and mailboxes between threads, as classes. For C++20. shardcache.h says what each
// call does and what its caller owes. Nothing here throws or waits, and only opening takes memory.
#ifndef SHARDCACHE_HPP
#define SHARDCACHE_HPP

#include "shardcache.h"

#include <algorithm>
#include <array>
#include <concepts>
#include <cstddef>
#include <cstdint>
#include <cstring>
#include <optional>
#include <span>
#include <string_view>
#include <utility>

namespace shardcache {

enum class Code : int {
    Done = SC_DONE,
    Closed = SC_CLOSED,
    OpenAlready = SC_OPEN_ALREADY,
    BadSize = SC_BAD_SIZE,
    NoMemory = SC_NO_MEMORY,
    BadKey = SC_BAD_KEY,
    BadValue = SC_BAD_VALUE,
    BadCount = SC_BAD_COUNT,
    Short = SC_SHORT,
    Missing = SC_MISSING,
    Guarded = SC_GUARDED,
    Null = SC_NULL,
    BadTable = SC_BAD_TABLE,
    BadBound = SC_BAD_BOUND,
    Unguarded = SC_UNGUARDED,
    BlocksOut = SC_BLOCKS_OUT,
    NoTicket = SC_NO_TICKET,
    Full = SC_FULL,
    Empty = SC_EMPTY,
};

// The name of a code, as `missing`.
inline std::string_view name(Code code) noexcept { return sc_name(static_cast<int>(code)); }

// The bytes as text.
inline std::string_view text(std::span<const std::byte> bytes) noexcept {
    return {reinterpret_cast<const char *>(bytes.data()), bytes.size()};
}

template <class T>
concept IsText = std::convertible_to<const T &, std::string_view>;

template <class T, class Byte>
concept IsSpan = !IsText<T> && std::convertible_to<const T &, std::span<const Byte>>;

// Bytes that a call reads: those of a text (of a literal, up to its zero), or a span of bytes.
class Bytes {
  public:
    Bytes() noexcept = default;
    template <IsText T> Bytes(const T &text) noexcept : bytes_(std::as_bytes(std::span(std::string_view(text)))) {}
    template <IsSpan<std::byte> T> Bytes(const T &bytes) noexcept : bytes_(bytes) {}
    template <IsSpan<std::uint8_t> T> Bytes(const T &bytes) noexcept : bytes_(std::as_bytes(std::span<const std::uint8_t>(bytes))) {}

    const std::byte *data() const noexcept { return bytes_.data(); }
    std::size_t size() const noexcept { return bytes_.size(); }

  private:
    std::span<const std::byte> bytes_;
};

// A key of a table, 0 to 7. A text alone, or bytes, are a key of table 0.
struct Key {
    template <class T>
        requires std::constructible_from<Bytes, const T &>
    Key(const T &key, std::uint32_t table = 0) noexcept : bytes(key), table(table) {}

    Bytes bytes;
    std::uint32_t table;
};

// A row that was found. Its value stands there until the next call on the cache, but for `peek` and `stats`.
struct Found {
    std::span<const std::byte> value;
    std::uint32_t tag;

    std::string_view text() const noexcept { return shardcache::text(value); }
};

// What a put did.
struct [[nodiscard]] PutAnswer {
    Code code;
    bool replaced;          // whether a row had the key
    std::uint64_t evicted;  // how many rows went; the tags of the first of them were told, as far as there was room

    explicit operator bool() const noexcept { return code == Code::Done; }
};

// For several threads: a block, for which a cache lends one value after the other, behind room for a head. Whoever holds it, on whatever
// thread, reads and writes its bytes. It is given back where it is released, or destroyed. Only opening it takes memory.
class Block {
  public:
    Block() noexcept = default;
    Block(Block &&other) noexcept : block_(std::exchange(other.block_, closed())) {}
    Block &operator=(Block &&other) noexcept {
        std::swap(block_, other.block_);
        return *this;
    }
    ~Block() {
        if (block_.at) release();
        sc_block_close(&block_);
    }

    [[nodiscard]] Code open() noexcept { return Code{sc_block_open(&block_)}; }

    explicit operator bool() const noexcept { return block_.at; }  // whether it is lent
    bool found() const noexcept { return block_.found; }           // whether a row had the key
    std::span<std::byte> bytes() const noexcept { return {reinterpret_cast<std::byte *>(block_.at), block_.len}; }
    std::span<std::byte> head() const noexcept { return bytes().first(block_.head); }
    std::span<std::byte> value() const noexcept { return bytes().subspan(block_.head); }

    Code release() noexcept { return Code{sc_release(&block_)}; }

  private:
    friend class Cache;
    static sc_block closed() noexcept { return SC_BLOCK_INIT; }
    sc_block block_ = SC_BLOCK_INIT;
};

// What a cache is opened with: sc_opening says more.
struct Opening {
    std::uint32_t pages;
    std::uint32_t rows;
    std::uint32_t groups = 1;
    std::uint64_t bound = 0;
    std::uint32_t waiting = 0;
    bool wide = false;
};

// A cache, or a closed one. It is opened, used and closed on one thread.
class Cache {
  public:
    Cache() noexcept = default;
    Cache(Cache &&other) noexcept : cache_(std::exchange(other.cache_, closed())) {}
    Cache &operator=(Cache &&other) noexcept {
        std::swap(cache_, other.cache_);
        return *this;
    }
    // A cache of which a block is out, or on which a guard stands, keeps its memory: `close` tells. What sc_close says of a closed
    // handle stays taken in any case. Of blocks that were released, `take_back` tells.
    ~Cache() { sc_close(&cache_); }

    [[nodiscard]] Code open(const Opening &with) noexcept {
        sc_opening opening{with.pages, with.rows, with.groups, with.bound, with.waiting, with.wide};
        return Code{sc_open(&cache_, &opening)};
    }
    [[nodiscard]] Code close() noexcept { return Code{sc_close(&cache_)}; }

    // Stores a row. The tags of the rows that went are written to the front of `tags`.
    PutAnswer put(Key key, Bytes value, std::uint32_t tag = 0, std::span<std::uint32_t> tags = {}) noexcept {
        sc_evicted evicted{tags.data(), tags.size(), 0};
        bool replaced = false;
        int code = sc_put(&cache_, key.table, key.bytes.data(), key.bytes.size(), value.data(), value.size(), tag, &evicted, &replaced);
        return {Code{code}, replaced, evicted.count};
    }
    // The same, where the value comes in two pieces.
    PutAnswer put_pieces(Key key, Bytes first, Bytes second, std::uint32_t tag = 0, std::span<std::uint32_t> tags = {}) noexcept {
        sc_evicted evicted{tags.data(), tags.size(), 0};
        bool replaced = false;
        int code = sc_put_pieces(&cache_, key.table, key.bytes.data(), key.bytes.size(), first.data(), first.size(), second.data(),
                                 second.size(), tag, &evicted, &replaced);
        return {Code{code}, replaced, evicted.count};
    }

    // The row of a key, which is the one used last from now on. None where no row has the key, or where the call is refused: `code`
    // tells which.
    std::optional<Found> get(Key key, Code *code = nullptr) noexcept { return look(sc_get, key, code); }
    // The same, but the row is used no more than before, and nothing is counted. It may be called under a guard.
    std::optional<Found> peek(Key key, Code *code = nullptr) noexcept { return look(sc_peek, key, code); }
    // Copies the value of a key's row, and tells its length, also where that is more than there is room for.
    Code read(Key key, std::span<std::byte> into, std::size_t &len) noexcept {
        return Code{sc_read(&cache_, key.table, key.bytes.data(), key.bytes.size(), into.data(), into.size(), &len, nullptr)};
    }
    Code patch(Key key, std::size_t at, Bytes bytes) noexcept {
        return Code{sc_patch(&cache_, key.table, key.bytes.data(), key.bytes.size(), at, bytes.data(), bytes.size())};
    }
    Code erase(Key key) noexcept { return Code{sc_erase(&cache_, key.table, key.bytes.data(), key.bytes.size())}; }

    // Writes rows of a table in the order of the bytes of their keys, from a key on, as many as fit: `Rows` goes along them.
    Code scan_rows(Key from, std::uint32_t count, std::span<std::byte> into, sc_scanned_rows &did) noexcept {
        return Code{
            sc_scan_rows(&cache_, from.table, from.bytes.data(), from.bytes.size(), count, into.data(), into.size(), &did)};
    }

    Code guard(std::uint32_t table = 0) noexcept { return Code{sc_guard(&cache_, table)}; }
    Code unguard(std::uint32_t table = 0) noexcept { return Code{sc_unguard(&cache_, table)}; }
    Code compact() noexcept { return Code{sc_compact(&cache_)}; }

    std::optional<sc_stats> stats() noexcept {
        sc_stats stats{};
        if (sc_get_stats(&cache_, &stats) != SC_DONE) return std::nullopt;
        return stats;
    }

    // For several threads: lends, for an open block, the value of a key's row behind a head. The tags of rows that went for it are written
    // to the front of `tags`.
    Code lend(Key key, std::uint32_t head, Block &block, std::span<std::uint32_t> tags = {}) noexcept {
        sc_evicted evicted{tags.data(), tags.size(), 0};
        return Code{sc_lend(&cache_, key.table, key.bytes.data(), key.bytes.size(), head, &evicted, &block.block_)};
    }
    // Takes back the blocks that were released, and answers how many.
    std::uint32_t take_back() noexcept {
        std::uint32_t blocks = 0;
        sc_take_back(&cache_, &blocks);
        return blocks;
    }

  private:
    friend class Keys;
    friend class Rows;
    static sc_cache closed() noexcept { return SC_CACHE_INIT; }
    template <class Look> std::optional<Found> look(Look by, const Key &key, Code *code) noexcept {
        const std::uint8_t *at = nullptr;
        std::size_t len = 0;
        std::uint32_t tag = 0;
        Code answer{by(&cache_, key.table, key.bytes.data(), key.bytes.size(), &at, &len, &tag)};
        if (code) *code = answer;
        if (answer != Code::Done) return std::nullopt;
        return Found{std::as_bytes(std::span(at, len)), tag};
    }

    sc_cache cache_ = SC_CACHE_INIT;
};

// Where a scan goes on: at a key, or at the least key above one, which is that key with a zero byte behind it.
class Cursor {
  public:
    Cursor() noexcept = default;
    explicit Cursor(Bytes from) noexcept : len_(std::min(from.size(), from_.size())) { std::copy_n(from.data(), len_, from_.begin()); }

    void go_on_behind(const std::uint8_t *key, std::size_t len) noexcept {
        std::memcpy(from_.data(), key, len);
        from_[len] = std::byte{0};
        len_ = len + 1;
    }
    const std::byte *data() const noexcept { return from_.data(); }
    std::size_t size() const noexcept { return len_; }

  private:
    std::array<std::byte, SC_MOST_KEY + 1> from_;
    std::size_t len_ = 0;
};

// Goes along the keys of a table in the order of their bytes, at most SC_MOST_KEYS a call of the cache. It stays valid whatever is
// stored and erased meanwhile: it goes on behind the last key.
class Keys {
  public:
    explicit Keys(std::uint32_t table = 0) noexcept : table_(table) {}
    // From the first key on that is `from` or above it.
    Keys(Bytes from, std::uint32_t table) noexcept : table_(table), from_(from) {}

    // The next key, until the next call. None behind the last one, or where the scan is refused: `code` tells which, and is `Missing`
    // behind the last.
    std::optional<std::string_view> next(Cache &cache, Code *code = nullptr) noexcept {
        Code answer = left_ ? Code::Done : fill(cache);
        if (code) *code = answer;
        if (answer != Code::Done) return std::nullopt;
        std::size_t len = 0;
        const std::uint8_t *key = sc_key(at_, &len);
        at_ = key + len;
        if (--left_ == 0) from_.go_on_behind(key, len);
        return std::string_view(reinterpret_cast<const char *>(key), len);
    }

  private:
    Code fill(Cache &cache) noexcept {
        sc_scanned did{};
        Code code{sc_scan(&cache.cache_, table_, from_.data(), from_.size(), SC_MOST_KEYS, keys_.data(), keys_.size(), &did)};
        at_ = keys_.data();
        left_ = did.keys;
        return code == Code::Done && left_ == 0 ? Code::Missing : code;
    }

    std::uint32_t table_;
    Cursor from_;
    std::array<std::uint8_t, SC_MOST_KEYS * SC_KEY_ROOM> keys_;
    const std::uint8_t *at_ = nullptr;
    std::uint32_t left_ = 0;
};

// A row that a scan wrote, which stands there until the next scan.
struct Row {
    std::string_view key;
    std::span<const std::byte> value;
    std::uint32_t tag;

    std::string_view text() const noexcept { return shardcache::text(value); }
};

// Goes along the rows of a table as `Keys` goes along keys. They are written into memory of the caller's, which outlives this: as many a
// call of the cache as there is room for. With SC_ROW_ROOM bytes there is room for any.
class Rows {
  public:
    explicit Rows(std::span<std::byte> room, std::uint32_t table = 0) noexcept : room_(room), table_(table) {}
    Rows(std::span<std::byte> room, Bytes from, std::uint32_t table) noexcept : room_(room), table_(table), from_(from) {}

    // The next row, until the next call. None behind the last one, or where the scan is refused: `code` tells which, and is `Missing`
    // behind the last, and `Short` where there is no room for the next.
    std::optional<Row> next(Cache &cache, Code *code = nullptr) noexcept {
        Code answer = left_ ? Code::Done : fill(cache);
        if (code) *code = answer;
        if (answer != Code::Done) return std::nullopt;
        sc_found_row row;
        at_ = sc_row(at_, &row);
        if (--left_ == 0) from_.go_on_behind(row.key, row.key_len);
        return Row{{reinterpret_cast<const char *>(row.key), row.key_len}, std::as_bytes(std::span(row.value, row.value_len)), row.tag};
    }

  private:
    Code fill(Cache &cache) noexcept {
        sc_scanned_rows did{};
        Code code{sc_scan_rows(&cache.cache_, table_, from_.data(), from_.size(), SC_MOST_KEYS, room_.data(), room_.size(), &did)};
        at_ = reinterpret_cast<const std::uint8_t *>(room_.data());
        left_ = code == Code::Done ? did.rows : 0;
        if (code != Code::Done || left_) return code;
        return did.wanted ? Code::Short : Code::Missing;
    }

    std::span<std::byte> room_;
    std::uint32_t table_;
    Cursor from_;
    const std::uint8_t *at_ = nullptr;
    std::uint32_t left_ = 0;
};

// For several threads: one's handle of a bounded queue of pointers to messages, which many threads push to and pop from.
template <class Message> class Mailbox {
  public:
    Mailbox() noexcept = default;
    Mailbox(Mailbox &&other) noexcept : queue_(std::exchange(other.queue_, closed())) {}
    Mailbox &operator=(Mailbox &&other) noexcept {
        std::swap(queue_, other.queue_);
        return *this;
    }
    ~Mailbox() { sc_queue_close(&queue_); }

    [[nodiscard]] Code open(std::uint32_t places) noexcept { return Code{sc_queue_open(&queue_, places)}; }
    // Makes `other`, which is closed, another handle of the same queue, for another thread.
    [[nodiscard]] Code share(Mailbox &other) noexcept { return Code{sc_queue_share(&queue_, &other.queue_)}; }

    // False where no place is free.
    [[nodiscard]] bool push(Message *message) noexcept { return sc_queue_push(&queue_, message) == SC_DONE; }
    // The message that was pushed first, or null.
    Message *try_pop() noexcept {
        void *message = nullptr;
        return sc_queue_try_pop(&queue_, &message) == SC_DONE ? static_cast<Message *>(message) : nullptr;
    }

  private:
    static sc_queue closed() noexcept { return SC_QUEUE_INIT; }
    sc_queue queue_ = SC_QUEUE_INIT;
};

}  // namespace shardcache
#endif
