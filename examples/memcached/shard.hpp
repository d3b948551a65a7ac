// One shard's rows, and what a command does to them. One thread uses it at a time, and locks it for a command: its worker's, or another
// that found it free.
#ifndef SHARD_HPP
#define SHARD_HPP

#include "command.hpp"

#include <atomic>
#include <optional>
#include <string>

// What `stats` tells, of one shard or of several.
struct Counts {
    std::uint64_t gets = 0, hits = 0, sets = 0, flushes = 0, touches = 0, stored = 0, evictions = 0;
    std::uint64_t live_bytes = 0, rows = 0, connections = 0, all_connections = 0;

    void add(const Counts &other);
};

class Shard {
  public:
    // `started`, the second in which the server started, keeps numbers for cas that a server before it gave from fitting. From then until it
    // closes the shard may be locked.
    shardcache::Code open(std::uint32_t pages, std::int64_t started);
    shardcache::Code close();

    void lock();
    bool try_lock();
    void unlock();

    // Does a command, or its part of one that is for all, in the second `now`, and adds the answer; of the latter there is none.
    void execute(const Command &command, std::int64_t now, std::string &answer);
    Counts counts();

  private:
    struct Row {
        Head head;
        std::string_view value;
    };

    std::optional<Row> find(std::string_view key);
    std::string_view store(std::string_view key, std::uint32_t flags, std::uint32_t expires, std::string_view value);
    std::string_view store_joined(std::string_view key, const Head &head, std::string_view first, std::string_view second);
    std::string_view put(const Command &command);
    void get(const Command &command, std::string &answer);
    void count_up_or_down(const Command &command, std::string &answer);
    std::string_view touch(const Command &command);
    void flush(std::int64_t expires);
    void expire_at(std::string_view key, std::int64_t expires);
    std::uint32_t second_of(std::int64_t expires) const;

    std::atomic<bool> is_used_{true};
    shardcache::Cache cache_;
    std::uint64_t cas_ = 0;
    std::uint64_t dead_cas_ = 0;  // rows with a number up to it were flushed
    std::int64_t now_ = 0;
    std::int64_t flush_at_ = 0;  // the second in which all rows are flushed; 0: none
    Counts counts_;
    std::uint64_t evictions_before_ = 0;  // before the counts were last set to 0
};

#endif
