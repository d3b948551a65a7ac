// Times one cache on calls that are drawn ahead. A get that finds nothing is followed by a put of the key, as one reads through a cache.
//   times CACHE PAGES KEYS VALUE READS CALLS
// CACHE is ours, roomy, map or rocksdb; values have VALUE / 2 to VALUE bytes; READS of a hundred calls are gets. Prints the processor's
// nanoseconds a call, the hits of a hundred gets, and by how many MB the memory grew that the process has.
#include "caches.hpp"

#include <ctime>
#include <unistd.h>
#include <vector>

namespace {

constexpr std::size_t key_len = 17;

struct Call {
    std::uint32_t key;
    std::uint16_t len;
    bool is_get;
};

struct Workload {
    std::uint32_t pages, keys;
    std::vector<char> text;  // of all keys
    std::vector<char> value;
    std::vector<Call> calls;

    std::string_view key(std::uint32_t number) const { return {&text[number * key_len], key_len}; }
};

Workload drawn(char **word) {
    auto number = [&](int at) { return std::strtoull(word[at], nullptr, 10); };
    Workload work{std::uint32_t(number(2)), std::uint32_t(number(3)), {}, std::vector<char>(number(4), 'v'), {}};
    std::uint64_t state = 88172645463325252u, most = number(4), reads = number(5);
    auto draw = [&](std::uint64_t below) {
        state ^= state << 13;
        state ^= state >> 7;
        state ^= state << 17;
        return state % below;
    };
    work.text.resize(std::size_t(work.keys) * key_len + 1);
    for (std::uint32_t i = 0; i < work.keys; i++) std::snprintf(&work.text[i * key_len], key_len + 1, "user:%012u", i);
    work.calls.resize(number(6));
    for (Call &call : work.calls) {  // the lesser of two keys: some are used more than others
        std::uint64_t one = draw(work.keys), other = draw(work.keys);
        call = {std::uint32_t(one < other ? one : other), std::uint16_t(most / 2 + draw(most / 2 + 1)), draw(100) < reads};
    }
    return work;
}

double resident_mb() {
    long pages = 0, resident = 0;
    if (FILE *file = std::fopen("/proc/self/statm", "r")) {
        if (std::fscanf(file, "%ld %ld", &pages, &resident) != 2) resident = 0;
        std::fclose(file);
    }
    return double(resident) * double(sysconf(_SC_PAGESIZE)) / 1e6;
}

double processor_ns() {
    timespec time;
    clock_gettime(CLOCK_THREAD_CPUTIME_ID, &time);
    return double(time.tv_sec) * 1e9 + double(time.tv_nsec);
}

template <class Cache> void time_cache(const char *name, const Workload &work) {
    double before = resident_mb();
    Cache cache(work.pages, work.keys);
    std::uint64_t gets = 0, hits = 0, sum = 0;
    double begin = processor_ns();
    for (const Call &call : work.calls) {
        gets += call.is_get;
        if (call.is_get && cache.get(work.key(call.key), sum))
            hits++;
        else
            cache.put(work.key(call.key), {work.value.data(), call.len});
    }
    double time = processor_ns() - begin;
    std::printf("%s ns %.0f hits %.1f mb %.1f sum %llu\n", name, time / double(work.calls.size()), 100.0 * double(hits) / double(gets),
                resident_mb() - before, (unsigned long long)sum);
}

}  // namespace

int main(int words, char **word) {
    std::string_view which = words == 7 ? word[1] : "";
    if (which == "ours")
        time_cache<Ours>("ours", drawn(word));
    else if (which == "roomy")
        time_cache<Roomy>("roomy", drawn(word));
    else if (which == "map")
        time_cache<MapWithList>("map", drawn(word));
#ifdef HAS_ROCKSDB
    else if (which == "rocksdb")
        time_cache<RocksCache>("rocksdb", drawn(word));
#endif
    else
        return std::fprintf(stderr, "times ours|roomy|map|rocksdb PAGES KEYS VALUE READS CALLS\n"), 2;
}
