// What the programs that are compared do: commands on keys that belong to shards by their hash, drawn ahead of the clock.
#ifndef WORKLOAD_HPP
#define WORKLOAD_HPP

#include <array>
#include <chrono>
#include <cstddef>
#include <cstdint>
#include <cstdio>
#include <cstdlib>
#include <cstring>
#include <string_view>
#include <vector>

constexpr std::uint32_t all_keys = 100'000;
constexpr std::size_t key_len = 17, value_len = 104;

inline void expect(bool fact, const char *what) {
    if (fact) return;
    std::fprintf(stderr, "not so: %s\n", what);
    std::exit(1);
}

// A value: a counter, and at its end the number of its key.
struct Value {
    std::uint64_t counter = 0;
    std::array<char, value_len - 16> filler{};
    std::uint64_t key = 0;
};
static_assert(sizeof(Value) == value_len && offsetof(Value, counter) == 0);

struct Random {
    std::uint64_t state;
    std::uint32_t below(std::uint32_t count) {
        state = state * 6364136223846793005u + 1442695040888963407u;
        return std::uint32_t((state >> 32) * count >> 32);
    }
};

// One command: a get, or an addition of 1 to the counter of a key.
struct Command {
    std::uint32_t key;
    bool adds;
};

// The keys, which shard each belongs to, and what each thread does.
class Workload {
  public:
    // So many of a hundred commands are on keys of other shards than the thread's own.
    Workload(std::uint32_t threads, std::uint32_t foreign, std::uint32_t commands);

    std::string_view key(std::uint32_t number) const { return {&text_[number * key_len], key_len}; }
    std::uint32_t hash(std::uint32_t key) const { return hashes_[key]; }
    std::uint32_t owner(std::uint32_t key) const { return hash(key) % threads(); }
    const std::vector<std::uint32_t> &keys_of(std::uint32_t shard) const { return keys_[shard]; }
    const std::vector<Command> &commands_of(std::uint32_t thread) const { return commands_[thread]; }
    std::uint32_t threads() const { return std::uint32_t(keys_.size()); }

    std::uint64_t gets = 0, additions = 0;

  private:
    std::vector<char> text_;
    std::vector<std::uint32_t> hashes_;
    std::vector<std::vector<std::uint32_t>> keys_;
    std::vector<std::vector<Command>> commands_;
};

inline Workload::Workload(std::uint32_t threads, std::uint32_t foreign, std::uint32_t commands)
    : text_(all_keys * key_len), hashes_(all_keys), keys_(threads), commands_(threads) {
    for (std::uint32_t i = 0; i < all_keys; i++) {
        char text[key_len + 1];
        std::snprintf(text, sizeof text, "user:%012u", i);
        std::memcpy(&text_[i * key_len], text, key_len);
        std::uint64_t hash = 0;
        for (std::size_t at = 0; at < key_len; at++) hash = (hash ^ std::uint64_t(text[at])) * 0x9e3779b97f4a7c15u;
        hashes_[i] = std::uint32_t(hash >> 33);
        keys_[owner(i)].push_back(i);
    }
    for (std::uint32_t thread = 0; thread < threads; thread++) {
        Random random{thread + 1};
        for (std::uint32_t i = 0; i < commands / threads; i++) {
            bool is_foreign = threads > 1 && random.below(100) < foreign;
            std::uint32_t shard = is_foreign ? (thread + 1 + random.below(threads - 1)) % threads : thread;
            const auto &keys = keys_[shard];
            Command command{keys[random.below(std::uint32_t(keys.size()))], random.below(10) == 0};
            (command.adds ? additions : gets)++;
            commands_[thread].push_back(command);
        }
    }
}

// What the threads did, and whether it is what was asked.
struct Totals {
    std::uint64_t gets = 0, additions = 0, counted = 0;

    void add(const Totals &other) {
        gets += other.gets;
        additions += other.additions;
        counted += other.counted;
    }
};

inline void tell(const char *name, const Workload &work, const Totals &totals, std::chrono::duration<double> time) {
    expect(totals.gets == work.gets && totals.additions == work.additions, "each command was answered");
    expect(totals.counted == work.additions, "the counters add up to the additions");
    double commands = double(work.gets + work.additions);
    std::printf("%s threads %u commands %.0f a second %.0f sums agree\n", name, work.threads(), commands, commands / time.count());
}

inline std::uint32_t number_of(int words, char **word, int at, std::uint32_t otherwise) {
    return words > at ? std::uint32_t(std::strtoul(word[at], nullptr, 10)) : otherwise;
}

#endif
