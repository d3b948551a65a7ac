// A command of memcached's text protocol, as a client asks it and the shard that owns its key does it.
#ifndef COMMAND_HPP
#define COMMAND_HPP

#include "shardcache.hpp"

#include <charconv>
#include <cstddef>
#include <cstdint>
#include <string_view>

// What stands in front of each value in its row.
struct Head {
    std::uint64_t cas;
    std::uint32_t flags;
    std::uint32_t expires;  // the second from which on the row is none; 0: never
};

constexpr std::size_t most_key = 250, most_value = SC_MOST_VALUE - sizeof(Head);

enum class Verb : std::uint8_t {
    Get,
    Gets,
    Gat,
    Gats,
    Set,
    Add,
    Replace,
    Append,
    Prepend,
    Cas,
    Incr,
    Decr,
    Touch,
    Delete,
    FlushAll,
    Stats,
    ResetStats,
};

// Whether every shard does a part of it.
constexpr bool is_for_all(Verb verb) { return verb >= Verb::FlushAll; }

// Key and value stand in what the client sent.
struct Command {
    Verb verb = Verb::Get;
    bool noreply = false;
    std::uint32_t flags = 0;
    std::int64_t expires = 0;
    std::uint64_t number = 0;  // of a cas, the one that the row has to have; of incr and decr, by how much
    std::string_view key = {}, value = {};
};

// The number that the whole text spells in decimal.
template <class Number> bool read_number(std::string_view text, Number &number) {
    auto [end, fault] = std::from_chars(text.data(), text.data() + text.size(), number);
    return !text.empty() && fault == std::errc() && end == text.data() + text.size();
}

#endif
