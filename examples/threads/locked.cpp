// The same commands on unordered_maps with a list, each behind a mutex that any thread takes.
//   locked [THREADS] [FOREIGN] [COMMANDS] [MAPS]
#include "workload.hpp"

#include <barrier>
#include <list>
#include <memory>
#include <mutex>
#include <string>
#include <thread>
#include <unordered_map>

namespace {

// The rows by their keys, the one used last in front.
class Locked {
  public:
    void put(std::string_view key, const Value &value) {
        std::lock_guard lock(mutex_);
        rows_.push_front({std::string(key), std::string(reinterpret_cast<const char *>(&value), sizeof value)});
        places_.emplace(rows_.front().key, rows_.begin());
    }

    bool execute(std::string_view key, bool adds, Value &value) {
        std::lock_guard lock(mutex_);
        auto found = places_.find(key);
        if (found == places_.end()) return false;
        rows_.splice(rows_.begin(), rows_, found->second);
        std::string &bytes = found->second->value;
        std::memcpy(&value, bytes.data(), sizeof value);
        std::uint64_t counter = value.counter + 1;
        if (adds) std::memcpy(bytes.data(), &counter, sizeof counter);
        return true;
    }

  private:
    struct Row {
        std::string key, value;
    };
    std::mutex mutex_;
    std::list<Row> rows_;
    std::unordered_map<std::string_view, std::list<Row>::iterator> places_;
};

}  // namespace

int main(int words, char **word) {
    Workload work(number_of(words, word, 1, 4), number_of(words, word, 2, 75), number_of(words, word, 3, 1'000'000));
    std::uint32_t count = number_of(words, word, 4, 1);
    std::vector<std::unique_ptr<Locked>> maps;
    for (std::uint32_t i = 0; i < count; i++) maps.push_back(std::make_unique<Locked>());
    for (std::uint32_t key = 0; key < all_keys; key++) {
        Value value;
        value.key = key;
        maps[work.hash(key) % count]->put(work.key(key), value);
    }

    std::vector<Totals> totals(work.threads());
    std::chrono::steady_clock::time_point begin, end;
    std::barrier opened(work.threads(), [&]() noexcept { begin = std::chrono::steady_clock::now(); });
    std::barrier done(work.threads(), [&]() noexcept { end = std::chrono::steady_clock::now(); });
    std::vector<std::thread> threads;
    for (std::uint32_t i = 0; i < work.threads(); i++)
        threads.emplace_back([&, i] {
            Totals mine;
            opened.arrive_and_wait();
            for (Command command : work.commands_of(i)) {
                Value value;
                expect(maps[work.hash(command.key) % count]->execute(work.key(command.key), command.adds, value), "the row is there");
                expect(value.key == command.key, "the value is that of the key");
                (command.adds ? mine.additions : mine.gets)++;
            }
            done.arrive_and_wait();
            totals[i] = mine;
        });
    Totals all;
    for (std::uint32_t i = 0; i < work.threads(); i++) {
        threads[i].join();
        all.add(totals[i]);
    }
    for (std::uint32_t key = 0; key < all_keys; key++) {
        Value value;
        maps[work.hash(key) % count]->execute(work.key(key), false, value);
        all.counted += value.counter;
    }
    tell(count == 1 ? "locked" : "locked apart", work, all, end - begin);
}
