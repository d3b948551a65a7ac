// The steps of the part `index` of crates/timed over a structure of the C++ library.
//   index_maps map|hash|string KIND ROWS keys|insert|find|range|remove
// map is std::map, whose keys are in order; hash is std::unordered_map, whose keys are not. Both see keys that stand elsewhere;
// string is a std::map that has its keys.
#include <cstdint>
#include <cstdio>
#include <cstdlib>
#include <cstring>
#include <map>
#include <string>
#include <string_view>
#include <unordered_map>
#include <vector>

static uint32_t scattered(uint32_t row) {
    if (row >= 524288) return row;
    uint64_t x = (uint64_t(row) * 314159 + 271829) % 524288;
    x ^= x >> 9;
    x = (x * 141421 + 173205) % 524288;
    x ^= x >> 11;
    return uint32_t(x % 524288);
}

static std::string key_of(const std::string &kind, uint32_t row, uint32_t rows) {
    uint32_t number = kind == "ascending" ? row : kind == "descending" ? rows - row : scattered(row);
    std::string key = kind == "prefix12"    ? "prefix_of_12"
                      : kind == "prefix200" ? std::string(200, 'p')
                      : kind == "mixed"     ? number % 2 == 0 ? "firstprefix:" : "secondprefix"
                                            : "key";
    char digits[16];
    snprintf(digits, sizeof digits, "%07u", number);
    return key + digits;
}

// How many keys a range of 32 has that begins at a key. They are copied, each behind its length.
static uint32_t range_at(const std::map<std::string, uint32_t> &map, std::string_view key, char *into) {
    uint32_t keys = 0;
    for (auto place = map.lower_bound(std::string(key)); place != map.end() && keys < 32; ++place, keys++) {
        uint16_t length = uint16_t(place->first.size());
        memcpy(into, &length, 2);
        memcpy(into + 2, place->first.data(), length);
        into += 2 + length;
    }
    return keys;
}

template <class Map> static void run(const std::string &kind, uint32_t rows, int steps, bool ranges) {
    std::string bytes;
    std::vector<size_t> starts;
    for (uint32_t row = 0; row < rows; row++) {
        starts.push_back(bytes.size());
        bytes += key_of(kind, row, rows);
    }
    starts.push_back(bytes.size());
    auto key = [&](uint32_t row) { return std::string_view(bytes).substr(starts[row], starts[row + 1] - starts[row]); };
    Map map;
    uint32_t found = 0, removed = 0;
    if (steps >= 1)
        for (uint32_t row = 0; row < rows; row++) map.emplace(typename Map::key_type(key(row)), row);
    size_t inserted = map.size();
    if constexpr (std::is_same_v<Map, std::map<std::string, uint32_t>>) {
        static char keys[32 * 258];
        for (uint32_t at = 0; ranges && at < rows; at++) found += range_at(map, key(uint32_t(uint64_t(at) * 100003 % rows)), keys);
    }
    for (uint32_t at = 0; steps >= 2 && at < rows; at++) {
        uint32_t row = uint32_t(uint64_t(at) * 100003 % rows);
        auto place = map.find(typename Map::key_type(key(row)));
        found += place != map.end() && place->second == row;
    }
    for (uint32_t at = 0; steps >= 3 && at < rows; at++) removed += map.erase(typename Map::key_type(key(uint32_t(uint64_t(at) * 100003 % rows))));
    printf("inserted %zu found %u removed %u\n", inserted, found, removed);
}

int main(int words, char **word) {
    if (words < 5) return 1;
    std::string kind = word[2], last = word[4];
    uint32_t rows = uint32_t(strtoul(word[3], nullptr, 10));
    bool ranges = last == "range";
    int steps = ranges || last == "insert" ? 1 : last == "find" ? 2 : last == "remove" ? 3 : 0;
    // The keys stand elsewhere, as in the index.
    if (std::string(word[1]) == "string") run<std::map<std::string, uint32_t>>(kind, rows, steps, ranges);
    else if (std::string(word[1]) == "hash") run<std::unordered_map<std::string_view, uint32_t>>(kind, rows, steps, ranges);
    else run<std::map<std::string_view, uint32_t>>(kind, rows, steps, ranges);
}
