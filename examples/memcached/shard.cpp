#include "shard.hpp"

#include <algorithm>
#include <cstring>
#include <thread>

using namespace std::literals;
using shardcache::Code;
using std::string_view;

void Counts::add(const Counts &other) {
    gets += other.gets;
    hits += other.hits;
    sets += other.sets;
    flushes = std::max(flushes, other.flushes);  // each shard does each
    touches += other.touches;
    stored += other.stored;
    evictions += other.evictions;
    live_bytes += other.live_bytes;
    rows += other.rows;
    connections += other.connections;
    all_connections += other.all_connections;
}

Code Shard::open(std::uint32_t pages, std::int64_t started) {
    cas_ = dead_cas_ = std::uint64_t(started) << 20;
    Code code = cache_.open({.pages = pages, .rows = pages * 40, .waiting = UINT32_MAX});
    if (code == Code::Done) unlock();
    return code;
}

Code Shard::close() {
    lock();
    return cache_.close();
}

void Shard::lock() {
    for (unsigned tries = 1; !try_lock(); tries++)
        if (tries % 1024 == 0) std::this_thread::yield();
}

bool Shard::try_lock() { return !is_used_.load(std::memory_order_relaxed) && !is_used_.exchange(true, std::memory_order_acquire); }

void Shard::unlock() { is_used_.store(false, std::memory_order_release); }

void Shard::execute(const Command &command, std::int64_t now, std::string &answer) {
    now_ = now;
    if (flush_at_ && now_ >= flush_at_) flush(0);
    switch (command.verb) {
    case Verb::Get:
    case Verb::Gets:
    case Verb::Gat:
    case Verb::Gats: get(command, answer); break;
    case Verb::Incr:
    case Verb::Decr: count_up_or_down(command, answer); break;
    case Verb::Touch: answer += touch(command); break;
    case Verb::Delete:
        answer += find(command.key) ? "DELETED\r\n" : "NOT_FOUND\r\n";
        cache_.erase(command.key);
        break;
    case Verb::FlushAll:
        counts_.flushes++;
        flush(command.expires);
        break;
    case Verb::Stats: break;
    case Verb::ResetStats:
        counts_ = {};
        evictions_before_ = cache_.stats()->evictions;
        break;
    default:
        counts_.sets++;
        answer += put(command);
    }
}

Counts Shard::counts() {
    Counts counts = counts_;
    sc_stats stats = *cache_.stats();
    counts.evictions = stats.evictions - evictions_before_;
    counts.live_bytes = stats.live_bytes;
    counts.rows = stats.rows;
    return counts;
}

// The row of a key, until the next call on the cache. One that has expired, or was flushed, is none.
std::optional<Shard::Row> Shard::find(string_view key) {
    auto found = cache_.get(key);
    if (!found) return std::nullopt;
    Row row;
    std::memcpy(&row.head, found->value.data(), sizeof row.head);
    row.value = found->text().substr(sizeof row.head);
    if (row.head.cas > dead_cas_ && (row.head.expires == 0 || row.head.expires > now_)) return row;
    cache_.erase(key);
    return std::nullopt;
}

string_view Shard::store(string_view key, std::uint32_t flags, std::uint32_t expires, string_view value) {
    Head head{++cas_, flags, expires};
    counts_.stored++;
    if (cache_.put_pieces(key, std::as_bytes(std::span(&head, 1)), value)) return "STORED\r\n";
    return "SERVER_ERROR out of memory storing object\r\n";
}

// The pieces are copied before they are stored, since one of them stands in the cache.
string_view Shard::store_joined(string_view key, const Head &head, string_view first, string_view second) {
    char joined[most_value];
    if (first.size() + second.size() > sizeof joined) return "SERVER_ERROR object too large for cache\r\n";
    std::copy(second.begin(), second.end(), std::copy(first.begin(), first.end(), joined));
    return store(key, head.flags, head.expires, {joined, first.size() + second.size()});
}

string_view Shard::put(const Command &command) {
    auto row = command.verb == Verb::Set ? std::nullopt : find(command.key);
    switch (command.verb) {
    case Verb::Add:
        if (row) return "NOT_STORED\r\n";
        break;
    case Verb::Replace:
        if (!row) return "NOT_STORED\r\n";
        break;
    case Verb::Append: return row ? store_joined(command.key, row->head, row->value, command.value) : "NOT_STORED\r\n"sv;
    case Verb::Prepend: return row ? store_joined(command.key, row->head, command.value, row->value) : "NOT_STORED\r\n"sv;
    case Verb::Cas:
        if (!row) return "NOT_FOUND\r\n";
        if (row->head.cas != command.number) return "EXISTS\r\n";
        break;
    default: break;
    }
    return store(command.key, command.flags, second_of(command.expires), command.value);
}

void Shard::get(const Command &command, std::string &answer) {
    counts_.gets++;
    auto row = find(command.key);
    if (!row) return;
    counts_.hits++;
    char line[sizeof "VALUE " + most_key + 64], *at = line;
    auto add_text = [&](string_view text) { at = std::copy(text.begin(), text.end(), at); };
    auto add_number = [&](std::uint64_t number) {
        *at++ = ' ';
        at = std::to_chars(at, at + 20, number).ptr;
    };
    add_text("VALUE ");
    add_text(command.key);
    add_number(row->head.flags);
    add_number(row->value.size());
    if (command.verb == Verb::Gets || command.verb == Verb::Gats) add_number(row->head.cas);
    add_text("\r\n");
    answer.append(line, at - line).append(row->value).append("\r\n");
    if (command.verb == Verb::Gat || command.verb == Verb::Gats) expire_at(command.key, command.expires);
}

void Shard::count_up_or_down(const Command &command, std::string &answer) {
    auto row = find(command.key);
    if (!row) {
        answer += "NOT_FOUND\r\n";
        return;
    }
    std::uint64_t number = 0;
    string_view digits = row->value.substr(0, row->value.find_last_not_of(' ') + 1);
    if (!read_number(digits, number)) {
        answer += "CLIENT_ERROR cannot increment or decrement non-numeric value\r\n";
        return;
    }
    if (command.verb == Verb::Incr)
        number += command.number;
    else
        number = number > command.number ? number - command.number : 0;
    char text[20];
    string_view spelled{text, std::size_t(std::to_chars(text, text + sizeof text, number).ptr - text)};
    string_view stored = store(command.key, row->head.flags, row->head.expires, spelled);
    if (stored != "STORED\r\n")
        answer += stored;
    else
        answer.append(spelled).append("\r\n");
}

string_view Shard::touch(const Command &command) {
    if (!find(command.key)) return "NOT_FOUND\r\n";
    expire_at(command.key, command.expires);
    return "TOUCHED\r\n";
}

void Shard::flush(std::int64_t expires) {
    flush_at_ = expires > 0 ? second_of(expires) : 0;
    if (!flush_at_) dead_cas_ = cas_;
}

// Writes the second over that of a row that is there: nothing is shed for it.
void Shard::expire_at(string_view key, std::int64_t expires) {
    counts_.touches++;
    std::uint32_t second = second_of(expires);
    cache_.patch(key, offsetof(Head, expires), std::as_bytes(std::span(&second, 1)));
}

// Up to 30 days are counted from now on; what is more is a second by the clock; what is less than 0 is over.
std::uint32_t Shard::second_of(std::int64_t expires) const {
    if (expires == 0) return 0;
    if (expires < 0) return 1;
    std::int64_t second = expires <= 60 * 60 * 24 * 30 ? now_ + expires : expires;
    return std::uint32_t(std::min<std::int64_t>(second, UINT32_MAX));
}
