// Values that are lent: each thread lends values of its shard to the next one, which reads each where it stands and releases it without a
// lock; its owner takes back what was released.
//   blocks [THREADS] [BLOCKS]    so many blocks of each thread
#include "shardcache.hpp"
#include "workload.hpp"

#include <atomic>
#include <barrier>
#include <memory>
#include <thread>

using shardcache::Block;
using shardcache::Cache;
using shardcache::Code;
using shardcache::Mailbox;

namespace {

constexpr std::uint32_t keys = 1000, in_flight = 16;

struct Letter {
    std::uint32_t home = 0;
    Block block;
};

class Shard {
  public:
    Shard(std::uint32_t number, std::uint32_t count) : number_(number), left_(count), letters_(in_flight) {
        expect(inbox_.open(4 * in_flight) == Code::Done, "a mailbox opens");
        for (Letter &letter : letters_) {
            letter.home = number;
            expect(letter.block.open() == Code::Done, "a block opens");
            idle_.push_back(&letter);
        }
    }
    void know(Shard &other) { expect(other.inbox_.share(ways_.emplace_back()) == Code::Done, "a mailbox is shared"); }

    void open() {
        expect(cache_.open({.pages = SC_FEWEST_PAGES, .rows = keys, .waiting = UINT32_MAX}) == Code::Done, "a cache opens");
        for (std::uint32_t key = 0; key < keys; key++) expect(bool(cache_.put(name(key), std::string(key, 'v'))), "a row is stored");
    }

    // Lends and reads until all threads have lent all and have their letters home.
    void run(std::atomic<std::uint32_t> &busy) {
        bool is_done = false;
        while (busy.load(std::memory_order_acquire)) {
            bool did = lend_one();
            while (Letter *letter = inbox_.try_pop()) {
                did = true;
                if (letter->home == number_)
                    idle_.push_back(letter);
                else
                    read(*letter);
            }
            if (!is_done && left_ == 0 && idle_.size() == in_flight) {
                is_done = true;
                busy.fetch_sub(1, std::memory_order_acq_rel);
            }
            if (!did) std::this_thread::yield();
        }
    }

    // Behind a barrier, so that all blocks are released.
    void close() {
        cache_.take_back();
        expect(cache_.close() == Code::Done, "all blocks came home");
    }

    std::uint64_t lent = 0, was_read = 0, refused = 0;  // bytes of values, and how often no ticket was idle

  private:
    static std::string name(std::uint32_t key) { return "key " + std::to_string(key); }

    bool lend_one() {
        if (left_ == 0 || idle_.empty()) return false;
        std::uint32_t key = left_ % keys;
        Letter &letter = *idle_.back();
        Code code = cache_.lend(name(key), sizeof key, letter.block);
        if (code == Code::NoTicket) {
            refused++;
            cache_.take_back();
            return false;
        }
        expect(code == Code::Done && letter.block.found() && letter.block.value().size() == key, "the value is lent");
        std::memcpy(letter.block.head().data(), &key, sizeof key);
        lent += key;
        left_--;
        idle_.pop_back();
        expect(ways_[(number_ + 1) % ways_.size()].push(&letter), "a mailbox has room");
        return true;
    }

    void read(Letter &letter) {
        std::uint32_t key = 0;
        std::memcpy(&key, letter.block.head().data(), sizeof key);
        expect(letter.block.value().size() == key, "the head is that of the value");
        for (std::byte byte : letter.block.value()) was_read += byte == std::byte{'v'};
        expect(letter.block.release() == Code::Done, "a block is released");
        expect(ways_[letter.home].push(&letter), "a mailbox has room");
    }

    const std::uint32_t number_;
    std::uint32_t left_;
    Cache cache_;
    Mailbox<Letter> inbox_;
    std::vector<Mailbox<Letter>> ways_;
    std::vector<Letter> letters_;
    std::vector<Letter *> idle_;
};

}  // namespace

int main(int words, char **word) {
    std::uint32_t count = number_of(words, word, 1, 4), blocks = number_of(words, word, 2, 250'000);
    std::vector<std::unique_ptr<Shard>> shards;
    for (std::uint32_t i = 0; i < count; i++) shards.push_back(std::make_unique<Shard>(i, blocks));
    for (auto &shard : shards)
        for (auto &other : shards) shard->know(*other);

    std::atomic<std::uint32_t> busy{count};
    std::barrier step(count);
    std::vector<std::thread> threads;
    for (auto &shard : shards)
        threads.emplace_back([&] {
            shard->open();
            step.arrive_and_wait();
            shard->run(busy);
            step.arrive_and_wait();
            shard->close();
        });
    std::uint64_t lent = 0, was_read = 0, refused = 0;
    for (std::uint32_t i = 0; i < count; i++) {
        threads[i].join();
        lent += shards[i]->lent;
        was_read += shards[i]->was_read;
        refused += shards[i]->refused;
    }
    expect(lent == was_read, "what was lent was read");
    std::printf("blocks threads %u of each %u bytes %llu refused %llu sums agree\n", count, blocks, (unsigned long long)lent,
                (unsigned long long)refused);
}
