// What the workers have in common.
#ifndef COMMON_HPP
#define COMMON_HPP

#include <atomic>
#include <cstdint>
#include <ctime>
#include <memory>
#include <string>
#include <string_view>
#include <vector>

class Worker;
struct Counts;

inline std::int64_t seconds_now() {
    timespec time;
    clock_gettime(CLOCK_REALTIME_COARSE, &time);
    return time.tv_sec;
}

struct Server {
    std::vector<std::unique_ptr<Worker>> workers;
    std::atomic<bool> is_stopping{false};
    std::size_t greeted = 0;  // of the worker that accepts: who is next
    std::uint64_t bytes = 0;
    const std::int64_t started = seconds_now();

    // The worker whose shard a key belongs to. Its hash is another one than that of a proxy, behind which keys of one hash only would
    // come here.
    Worker &owner_of(std::string_view key) const;
};

// The lines of `stats`.
std::string stats_text(const Server &server, const Counts &counts);

#endif
