// A FAKE of the library: what it exports of caches, over a map and a list, to try the examples where the library is not built. Nothing
// of it is proved, and no figure of a README is measured with it.
#include "rows.hpp"

#include <algorithm>
#include <cstdlib>
#include <cstring>
#include <new>
#include <sys/mman.h>

namespace fake {

void *Mapped::do_allocate(size_t bytes, size_t) {
    void *at = mmap(nullptr, bytes, PROT_READ | PROT_WRITE, MAP_PRIVATE | MAP_ANONYMOUS, -1, 0);
    if (at == MAP_FAILED) throw std::bad_alloc();
    return at;
}

void Mapped::do_deallocate(void *at, size_t bytes, size_t) { munmap(at, bytes); }

Key key_of(uint8_t table, const uint8_t *key, size_t len) {
    len = std::min<size_t>(len, SC_MOST_KEY + 1);
    Key made{{}, len + 1};
    made.bytes[0] = static_cast<char>(table);
    memcpy(made.bytes + 1, key, len);
    return made;
}

bool Cache::is_guarded() const {
    for (uint32_t count : guards)
        if (count) return true;
    return false;
}

void Cache::use(Rows::iterator row) { order.splice(order.begin(), order, row->second.place); }

void Cache::drop(Rows::iterator row) {
    live -= live_bytes(row);
    order.erase(row->second.place);
    rows.erase(row);
}

uint64_t Cache::live_bytes(Rows::iterator row) { return SC_LIVE(row->first.size() - 1, row->second.value.size()); }

void Cache::evict_last(Told &told) {
    Rows::iterator last = order.back();
    told.tell(last->second.tag);
    drop(last);
    evictions++;
}

void Cache::put(std::string_view key, std::string_view first, std::string_view second, uint32_t tag, Told &told, bool &replaced) {
    if (!rows.contains(key) && rows.size() == room) evict_last(told);
    while (live > bound) evict_last(told);
    auto old = rows.find(key);
    replaced = old != rows.end();
    if (replaced) drop(old);
    Rows::iterator row = rows.try_emplace(std::pmr::string(key, &pool)).first;
    row->second.value.reserve(first.size() + second.size());
    row->second.value.append(first).append(second);
    row->second.tag = tag;
    row->second.place = order.insert(order.begin(), row);
    live += live_bytes(row);
}

uint32_t refusal(const sc_cache *handle, uint8_t table) {
    if (table >= SC_TABLES) return SC_BAD_TABLE;
    if (handle->state != is_open) return SC_CLOSED;
    return cache_of(handle).is_guarded() ? SC_GUARDED : SC_DONE;
}

}  // namespace fake

using namespace fake;

extern "C" {

uint32_t shardcache_open(sc_cache *handle, uint32_t pages, uint32_t rows, uint32_t groups, uint64_t bound, uint32_t, uint32_t) {
    if (handle->state == is_open) return SC_OPEN_ALREADY;
    uint32_t fewest = groups == 1 ? SC_FEWEST_PAGES : SC_FEWEST_GROUP_PAGES;
    if (pages < fewest || pages > SC_MOST_PAGES || pages % SC_SEGMENT_PAGES || (groups != 1 && groups != 8)) return SC_BAD_SIZE;
    if (rows == 0 || rows == UINT32_MAX) return SC_BAD_SIZE;
    if (bound > SC_MOST_LIVE(pages, groups)) return SC_BAD_BOUND;
    void *at = malloc(sizeof(Cache));
    auto *tickets = static_cast<Ticket *>(malloc(sizeof(Ticket) * most_tickets));
    if (!at || !tickets) {
        free(at);
        free(tickets);
        return SC_NO_MEMORY;
    }
    auto *cache = new (at) Cache;
    cache->room = rows;
    cache->groups = groups;
    cache->bound = bound ? bound : SC_MOST_LIVE(pages, groups);
    cache->tickets = tickets;
    for (size_t i = 0; i < most_tickets; i++) cache->idle = new (&tickets[i]) Ticket{cache, cache->idle, {}};
    handle->at = cache;
    handle->state = is_open;
    return SC_DONE;
}

uint32_t shardcache_close(sc_cache *handle) {
    if (handle->state != is_open) return SC_CLOSED;
    Cache &cache = cache_of(handle);
    if (cache.is_guarded()) return SC_GUARDED;
    if (cache.blocks_out) return SC_BLOCKS_OUT;
    free(cache.tickets);
    cache.~Cache();
    free(&cache);
    *handle = SC_CACHE_INIT;
    return SC_DONE;
}

uint32_t shardcache_put_pieces(sc_cache *handle, uint8_t table, const uint8_t *key, size_t key_len, const uint8_t *first,
                               size_t first_len, const uint8_t *second, size_t second_len, uint32_t tag, uint32_t *tags, size_t room,
                               uint64_t *went, bool *replaced) {
    if (uint32_t code = refusal(handle, table)) return code;
    if (key_len == 0 || key_len > SC_MOST_KEY) return SC_BAD_KEY;
    if (first_len > SC_MOST_VALUE || second_len > SC_MOST_VALUE - first_len) return SC_BAD_VALUE;
    Told told{tags, room};
    cache_of(handle).put(key_of(table, key, key_len), text_at(first, first_len), text_at(second, second_len), tag, told, *replaced);
    *went = told.count;
    return SC_DONE;
}

uint32_t shardcache_put(sc_cache *handle, uint8_t table, const uint8_t *key, size_t key_len, const uint8_t *value, size_t value_len,
                        uint32_t tag, uint32_t *tags, size_t room, uint64_t *went, bool *replaced) {
    return shardcache_put_pieces(handle, table, key, key_len, value, value_len, value, 0, tag, tags, room, went, replaced);
}

uint32_t shardcache_get(sc_cache *handle, uint8_t table, const uint8_t *key, size_t key_len, const uint8_t **at, size_t *len,
                        uint32_t *tag) {
    if (uint32_t code = refusal(handle, table)) return code;
    Cache &cache = cache_of(handle);
    cache.gets++;
    auto row = cache.rows.find(std::string_view(key_of(table, key, key_len)));
    if (row == cache.rows.end()) return SC_MISSING;
    cache.hits++;
    cache.use(row);
    *at = reinterpret_cast<const uint8_t *>(row->second.value.data());
    *len = row->second.value.size();
    *tag = row->second.tag;
    return SC_DONE;
}

uint32_t shardcache_peek(sc_cache *handle, uint8_t table, const uint8_t *key, size_t key_len, const uint8_t **at, size_t *len,
                         uint32_t *tag) {
    if (table >= SC_TABLES) return SC_BAD_TABLE;
    if (handle->state != is_open) return SC_CLOSED;
    Cache &cache = cache_of(handle);
    auto row = cache.rows.find(std::string_view(key_of(table, key, key_len)));
    if (row == cache.rows.end()) return SC_MISSING;
    *at = reinterpret_cast<const uint8_t *>(row->second.value.data());
    *len = row->second.value.size();
    *tag = row->second.tag;
    return SC_DONE;
}

uint32_t shardcache_read(sc_cache *handle, uint8_t table, const uint8_t *key, size_t key_len, uint8_t *into, size_t room, size_t *len,
                         uint32_t *tag) {
    const uint8_t *at;
    if (uint32_t code = shardcache_get(handle, table, key, key_len, &at, len, tag)) return code;
    if (*len > room) return SC_SHORT;
    memcpy(into, at, *len);
    return SC_DONE;
}

uint32_t shardcache_patch(sc_cache *handle, uint8_t table, const uint8_t *key, size_t key_len, size_t at, const uint8_t *bytes,
                          size_t len) {
    if (uint32_t code = refusal(handle, table)) return code;
    Cache &cache = cache_of(handle);
    auto row = cache.rows.find(std::string_view(key_of(table, key, key_len)));
    if (row == cache.rows.end()) return SC_MISSING;
    std::pmr::string &value = row->second.value;
    if (at > value.size() || len > value.size() - at) return SC_SHORT;
    memcpy(value.data() + at, bytes, len);
    cache.use(row);
    return SC_DONE;
}

uint32_t shardcache_erase(sc_cache *handle, uint8_t table, const uint8_t *key, size_t key_len) {
    if (uint32_t code = refusal(handle, table)) return code;
    Cache &cache = cache_of(handle);
    auto row = cache.rows.find(std::string_view(key_of(table, key, key_len)));
    if (row == cache.rows.end()) return SC_MISSING;
    cache.drop(row);
    return SC_DONE;
}

uint32_t shardcache_scan(sc_cache *handle, uint8_t table, const uint8_t *from, size_t from_len, uint32_t count, uint8_t *into,
                         size_t room, sc_scanned *did) {
    if (uint32_t code = refusal(handle, table)) return code;
    if (count == 0 || count > SC_MOST_KEYS) return SC_BAD_COUNT;
    if (room < size_t(count) * SC_KEY_ROOM) return SC_SHORT;
    Cache &cache = cache_of(handle);
    *did = {};
    for (auto row = cache.rows.lower_bound(std::string_view(key_of(table, from, from_len)));
         row != cache.rows.end() && row->first[0] == char(table) && did->keys < count; row++, did->keys++) {
        size_t len = row->first.size() - 1;
        uint8_t *at = into + did->bytes;
        at[0] = uint8_t(len);
        at[1] = uint8_t(len >> 8);
        memcpy(at + 2, row->first.data() + 1, len);
        did->bytes += uint32_t(2 + len);
    }
    return SC_DONE;
}

uint32_t shardcache_scan_rows(sc_cache *handle, uint8_t table, const uint8_t *from, size_t from_len, uint32_t count, uint8_t *into,
                              size_t room, sc_scanned_rows *did) {
    if (uint32_t code = refusal(handle, table)) return code;
    if (count == 0 || count > SC_MOST_KEYS) return SC_BAD_COUNT;
    Cache &cache = cache_of(handle);
    *did = {};
    for (auto row = cache.rows.lower_bound(std::string_view(key_of(table, from, from_len)));
         row != cache.rows.end() && row->first[0] == char(table) && did->rows < count; row++, did->rows++) {
        size_t key_len = row->first.size() - 1, value_len = row->second.value.size(), all = 8 + key_len + value_len;
        if (all > room - did->bytes) {
            did->wanted = uint32_t(all);
            break;
        }
        uint8_t *at = into + did->bytes;
        auto number = [&at](size_t bytes, size_t of) {
            for (size_t i = 0; i < bytes; i++) *at++ = uint8_t(of >> 8 * i);
        };
        number(2, key_len);
        at = std::copy_n(row->first.data() + 1, key_len, at);
        number(4, row->second.tag);
        number(2, value_len);
        std::copy_n(row->second.value.data(), value_len, at);
        did->bytes += uint32_t(all);
    }
    return SC_DONE;
}

uint32_t shardcache_stats(sc_cache *handle, sc_stats *stats) {
    if (handle->state != is_open) return SC_CLOSED;
    Cache &cache = cache_of(handle);
    *stats = {cache.live, cache.bound, cache.evictions,  cache.gets,
              cache.hits, uint32_t(cache.rows.size()), cache.room, cache.blocks_out, cache.is_guarded()};
    return SC_DONE;
}

uint32_t shardcache_guard(sc_cache *handle, uint8_t table) {
    if (handle->state != is_open) return SC_CLOSED;
    if (table >= SC_TABLES) return SC_BAD_TABLE;
    uint32_t &count = cache_of(handle).guards[cache_of(handle).groups == 1 ? 0 : table];
    if (count == most_guards) return SC_GUARDED;
    count++;
    return SC_DONE;
}

uint32_t shardcache_unguard(sc_cache *handle, uint8_t table) {
    if (handle->state != is_open) return SC_CLOSED;
    if (table >= SC_TABLES) return SC_BAD_TABLE;
    uint32_t &count = cache_of(handle).guards[cache_of(handle).groups == 1 ? 0 : table];
    if (count == 0) return SC_UNGUARDED;
    count--;
    return SC_DONE;
}

uint32_t shardcache_compact(sc_cache *handle) {
    if (handle->state != is_open) return SC_CLOSED;
    return cache_of(handle).is_guarded() ? SC_GUARDED : SC_DONE;
}

}  // extern "C"
