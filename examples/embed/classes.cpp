// The classes of shardcache.hpp as an engine would use them; says what fails, and ends with 1 there.
#include "expect.h"
#include "shardcache.hpp"

#include <cstdio>
#include <string>
#include <vector>

using namespace shardcache;
using namespace std::literals;

static_assert(!std::is_copy_constructible_v<Cache> && std::is_nothrow_move_constructible_v<Cache>);

static int rows_of_a_cache() {
    Cache cache;
    Code code{};
    EXPECT(!cache.get("one", &code) && code == Code::Closed && !cache.stats());
    EXPECT(cache.open({.pages = 1280, .rows = 0}) == Code::BadSize);
    EXPECT(cache.open({.pages = SC_FEWEST_PAGES, .rows = 1000}) == Code::Done);
    EXPECT(cache.open({.pages = SC_FEWEST_PAGES, .rows = 1000}) == Code::OpenAlready);
    EXPECT(cache.put("one", "first", 11) && cache.put({"one", 3}, "third table"));
    auto one = cache.get("one");
    EXPECT(one && one->text() == "first" && one->tag == 11);
    EXPECT(cache.get({"one", 3})->text() == "third table");
    EXPECT(!cache.get("two", &code) && code == Code::Missing);
    EXPECT(!cache.get({"one", 8}, &code) && code == Code::BadTable && name(code) == "bad table");

    std::vector<std::uint8_t> key{1, 2, 3};
    std::string value(300, 'v');
    auto answer = cache.put(key, value);
    EXPECT(answer && !answer.replaced && answer.evicted == 0);
    EXPECT(cache.put_pieces(key, "head"s, value).replaced && cache.get(key)->value.size() == 304);
    EXPECT(cache.patch(key, 0, "HEAD") == Code::Done && cache.get(key)->text().starts_with("HEADvvv"));
    EXPECT(cache.patch(key, 304, "x") == Code::Short);
    std::uint64_t number = 7;
    EXPECT(cache.put("number", std::as_bytes(std::span(&number, 1))) && cache.get("number")->value.size() == sizeof number);
    std::array<std::byte, 8> into;
    std::size_t len = 0;
    EXPECT(cache.read("number", into, len) == Code::Done && len == 8 && cache.read(key, into, len) == Code::Short && len == 304);
    EXPECT(cache.erase("number") == Code::Done && cache.erase("number") == Code::Missing);
    EXPECT(cache.put(std::string(257, 'k'), "x").code == Code::BadKey && cache.put("k", std::string(12001, 'x')).code == Code::BadValue);

    Cache moved = std::move(cache);
    EXPECT(cache.close() == Code::Closed && moved.get("one")->text() == "first");
    cache = std::move(moved);
    EXPECT(cache.stats()->rows == 3 && cache.compact() == Code::Done && cache.close() == Code::Done);
    return 0;
}

static int a_guard() {
    Cache cache;
    Code code{};
    EXPECT(cache.open({.pages = SC_FEWEST_PAGES, .rows = 1000}) == Code::Done && cache.put("one", "first", 11));
    EXPECT(cache.guard(3) == Code::Done && !cache.get("one", &code) && code == Code::Guarded);
    EXPECT(cache.peek("one")->text() == "first" && cache.peek("one")->tag == 11 && !cache.peek("two", &code) && code == Code::Missing);
    EXPECT(cache.stats()->gets == 0 && cache.stats()->is_guarded == 1);
    EXPECT(cache.close() == Code::Guarded && cache.unguard(3) == Code::Done && cache.unguard(3) == Code::Unguarded);
    return 0;
}

static int rows_that_go() {
    Cache cache;
    EXPECT(cache.open({.pages = SC_FEWEST_GROUP_PAGES, .rows = 100, .groups = 8, .bound = 1'000'000}) == Code::Done);
    std::array<std::uint32_t, 4> tags{};
    for (std::uint32_t i = 0; i < 100; i++) EXPECT(cache.put({std::to_string(i), i % 8}, "x", i, tags).evicted == 0);
    EXPECT(cache.get({"0", 0}));
    EXPECT(cache.put("another", "x", 100, tags).evicted == 1 && tags[0] == 1);
    EXPECT(!cache.get({"1", 1}) && cache.get({"0", 0}) && cache.stats()->evictions == 1);
    return 0;
}

static int keys_in_order() {
    Cache cache;
    EXPECT(cache.open({.pages = SC_FEWEST_PAGES, .rows = 1000}) == Code::Done);
    for (int i = 0; i < 100; i++) EXPECT(cache.put({"key " + std::to_string(100 + i), 2}, "x"));
    EXPECT(cache.put({std::string(256, 'k'), 2}, "x"));
    Keys keys{"key 150", 2};
    Code code{};
    int found = 0;
    while (auto key = keys.next(cache, &code)) {
        EXPECT(found == 50 ? key->size() == 256 : *key == "key " + std::to_string(150 + found));
        if (found < 50) EXPECT(cache.erase({*key, 2}) == Code::Done);
        found++;
    }
    EXPECT(found == 51 && code == Code::Missing);
    EXPECT(!Keys{}.next(cache, &code) && code == Code::Missing && cache.stats()->rows == 51);
    EXPECT(!Keys{9}.next(cache, &code) && code == Code::BadTable);
    return 0;
}

static int rows_in_order() {
    Cache cache;
    EXPECT(cache.open({.pages = SC_FEWEST_PAGES, .rows = 1000, .waiting = 10, .wide = true}) == Code::Done);
    for (std::uint32_t i = 0; i < 100; i++) EXPECT(cache.put({"key " + std::to_string(100 + i), 2}, std::string(i, 'x'), i));
    std::array<std::byte, 200> room;
    Rows rows{room, "key 150", 2};
    Code code{};
    std::uint32_t found = 50;
    while (auto row = rows.next(cache, &code)) {
        EXPECT(row->key == "key " + std::to_string(100 + found) && row->text() == std::string(found, 'x') && row->tag == found);
        found++;
    }
    EXPECT(found == 100 && code == Code::Missing && cache.stats()->gets == 0);
    EXPECT(cache.put({"key 2", 2}, std::string(200, 'x')) && !rows.next(cache, &code) && code == Code::Short);
    sc_scanned_rows did{};
    EXPECT(cache.scan_rows({"key 2", 2}, 32, room, did) == Code::Done && did.rows == 0 && did.wanted == 213);
    EXPECT(cache.erase({"key 2", 2}) == Code::Done && !rows.next(cache, &code) && code == Code::Missing);
    return 0;
}

int main() {
    TRY(rows_of_a_cache());
    TRY(a_guard());
    TRY(rows_that_go());
    TRY(keys_in_order());
    TRY(rows_in_order());
    std::puts("classes: each call did what it says");
}
