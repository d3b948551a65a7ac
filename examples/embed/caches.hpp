// The caches that are timed, each with the same two calls: put, and a get that looks at the value's first and last byte.
#ifndef CACHES_HPP
#define CACHES_HPP

#include "shardcache.hpp"

#include <cstdint>
#include <cstdio>
#include <cstdlib>
#include <cstring>
#include <list>
#include <string>
#include <string_view>
#include <unordered_map>
#ifdef HAS_ROCKSDB
#include <rocksdb/cache.h>
#endif

inline std::uint64_t ends_of(const void *value, std::size_t len) {
    auto *bytes = static_cast<const unsigned char *>(value);
    return len ? bytes[0] + std::uint64_t(bytes[len - 1]) : 0;
}

class Ours {
  public:
    // With more pages than those that the bound is for, if any.
    Ours(std::uint32_t pages, std::uint32_t keys, std::uint32_t more = 0) {
        shardcache::Opening with{.pages = pages + more, .rows = keys, .bound = SC_MOST_LIVE(pages, 1), .waiting = UINT32_MAX};
        if (shardcache::Code code = cache_.open(with); code != shardcache::Code::Done) {
            std::fprintf(stderr, "open: %s\n", name(code).data());
            std::exit(1);
        }
    }
    void put(std::string_view key, std::string_view value) {
        if (!cache_.put(key, value)) std::exit(1);
    }
    bool get(std::string_view key, std::uint64_t &sum) {
        auto found = cache_.get(key);
        if (found) sum += ends_of(found->value.data(), found->value.size());
        return found.has_value();
    }

  private:
    shardcache::Cache cache_;
};

// The same with a tenth more pages for as many bytes: compaction moves fewer rows for each segment that it frees.
class Roomy : public Ours {
  public:
    Roomy(std::uint32_t pages, std::uint32_t keys) : Ours(pages, keys, pages / 10 / SC_SEGMENT_PAGES * SC_SEGMENT_PAGES) {}
};

// What one writes first: a list of rows, the one used last in front, and a map to their places. Rows go as with ours, while more bytes are
// live than the bound.
class MapWithList {
  public:
    MapWithList(std::uint32_t pages, std::uint32_t keys) : bound_(SC_MOST_LIVE(pages, 1)) { places_.reserve(keys); }

    void put(std::string_view key, std::string_view value) {
        while (bytes_ > bound_) {
            bytes_ -= SC_LIVE(rows_.back().key.size(), rows_.back().value.size());
            places_.erase(rows_.back().key);
            rows_.pop_back();
        }
        auto found = places_.find(key);
        if (found != places_.end()) {
            bytes_ -= SC_LIVE(key.size(), found->second->value.size());
            rows_.splice(rows_.begin(), rows_, found->second);
            found->second->value.assign(value);
        } else {
            rows_.push_front({std::string(key), std::string(value)});
            places_.emplace(rows_.front().key, rows_.begin());
        }
        bytes_ += SC_LIVE(key.size(), value.size());
    }
    bool get(std::string_view key, std::uint64_t &sum) {
        auto found = places_.find(key);
        if (found == places_.end()) return false;
        rows_.splice(rows_.begin(), rows_, found->second);
        sum += ends_of(found->second->value.data(), found->second->value.size());
        return true;
    }

  private:
    struct Row {
        std::string key, value;
    };
    std::list<Row> rows_;
    std::unordered_map<std::string_view, std::list<Row>::iterator> places_;
    std::uint64_t bytes_ = 0, bound_;
};

#ifdef HAS_ROCKSDB
// RocksDB's cache in one shard, charged by key and value.
class RocksCache {
  public:
    RocksCache(std::uint32_t pages, std::uint32_t) : cache_(rocksdb::NewLRUCache(SC_MOST_LIVE(pages, 1), 0, false, 0.0)) {}

    void put(std::string_view key, std::string_view value) {
        auto *entry = static_cast<Entry *>(std::malloc(sizeof(Entry) + value.size()));
        entry->len = value.size();
        std::memcpy(entry->bytes, value.data(), value.size());
        if (!cache_->Insert(slice(key), entry, key.size() + value.size(), &forget).ok()) std::exit(1);
    }
    bool get(std::string_view key, std::uint64_t &sum) {
        rocksdb::Cache::Handle *handle = cache_->Lookup(slice(key));
        if (!handle) return false;
        auto *entry = static_cast<Entry *>(cache_->Value(handle));
        sum += ends_of(entry->bytes, entry->len);
        cache_->Release(handle);
        return true;
    }

  private:
    struct Entry {
        std::size_t len;
        char bytes[];
    };
    static rocksdb::Slice slice(std::string_view text) { return {text.data(), text.size()}; }
    static void forget(const rocksdb::Slice &, void *entry) { std::free(entry); }

    std::shared_ptr<rocksdb::Cache> cache_;
};
#endif

#endif
