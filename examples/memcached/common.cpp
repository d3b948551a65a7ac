#include "common.hpp"
#include "worker.hpp"

#include <unistd.h>

Worker &Server::owner_of(std::string_view key) const {
    std::uint64_t hash = 0xcbf29ce484222325;
    for (unsigned char byte : key) hash = (hash ^ byte) * 0x100000001b3;
    hash = (hash ^ hash >> 32) * 0x9e3779b97f4a7c15;
    return *workers[(hash >> 33) % workers.size()];
}

std::string stats_text(const Server &server, const Counts &counts) {
    std::string text;
    auto add = [&](const char *name, std::uint64_t value) {
        text.append("STAT ").append(name).append(" ").append(std::to_string(value)).append("\r\n");
    };
    std::int64_t now = seconds_now();
    add("pid", std::uint64_t(getpid()));
    add("uptime", std::uint64_t(now - server.started));
    add("time", std::uint64_t(now));
    text.append("STAT version 1.6.0-shardcache\r\n");
    add("pointer_size", 64);
    add("curr_connections", counts.connections);
    add("total_connections", counts.all_connections);
    add("cmd_get", counts.gets);
    add("cmd_set", counts.sets);
    add("cmd_flush", counts.flushes);
    add("cmd_touch", counts.touches);
    add("get_hits", counts.hits);
    add("get_misses", counts.gets - counts.hits);
    add("bytes", counts.live_bytes);
    add("curr_items", counts.rows);
    add("total_items", counts.stored);
    add("evictions", counts.evictions);
    add("limit_maxbytes", server.bytes);
    add("threads", server.workers.size());
    return text.append("END\r\n");
}
