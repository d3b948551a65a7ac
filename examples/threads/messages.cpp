// A shard a thread, keys by hash, and a mailbox between them: a command on another's key goes there in a message and comes back in it.
//   messages [THREADS] [FOREIGN] [COMMANDS]    so many of a hundred commands are on keys of other shards
#include "shardcache.hpp"
#include "workload.hpp"

#include <atomic>
#include <barrier>
#include <memory>
#include <thread>
#include <utility>

using shardcache::Cache;
using shardcache::Code;
using shardcache::Mailbox;

namespace {

constexpr std::size_t in_message = 32;    // commands that go in one message
constexpr std::size_t most_messages = 8;  // of one thread to another that are under way at once
constexpr std::size_t in_turn = 64;       // commands that a thread begins before it looks into its mailbox

struct Ask {
    Command command;
    Value value;
};

struct Message {
    std::uint32_t home = 0, count = 0;
    std::array<Ask, in_message> asks;
};

class Shard {
  public:
    Shard(const Workload &work, std::uint32_t number) : work_(work), number_(number), filling_(work.threads()) {}

    // Before the threads begin.
    void open_mailbox() { expect(inbox_.open(4 * most_messages * work_.threads()) == Code::Done, "a mailbox opens"); }
    void know(Shard &other) { expect(other.inbox_.share(ways_.emplace_back()) == Code::Done, "a mailbox is shared"); }

    // On its own thread.
    void open();
    void run(std::atomic<std::uint32_t> &left);
    void close();

    Totals totals;

  private:
    struct Filling {
        Message *message = nullptr;
        std::vector<std::unique_ptr<Message>> all;
        std::vector<Message *> idle;
    };

    void execute(Command command, Value &value);
    bool begin_some();
    bool ask(Command command);
    void send(std::uint32_t to);
    bool take_messages();
    void answered(const Command &command, const Value &value);

    const Workload &work_;
    const std::uint32_t number_;
    Cache cache_;
    Mailbox<Message> inbox_;
    std::vector<Mailbox<Message>> ways_;
    std::vector<Filling> filling_;
    std::size_t begun_ = 0, out_ = 0;
};

void Shard::open() {
    for (Filling &filling : filling_)
        for (std::size_t i = 0; i < most_messages; i++)
            filling.idle.push_back(filling.all.emplace_back(std::make_unique<Message>()).get());
    expect(cache_.open({.pages = 16384, .rows = all_keys, .waiting = UINT32_MAX}) == Code::Done, "a cache opens");
    for (std::uint32_t key : work_.keys_of(number_)) {
        Value value;
        value.key = key;
        expect(bool(cache_.put(work_.key(key), std::as_bytes(std::span(&value, 1)))), "a row is stored");
    }
}

// Does a command on a key of this shard: the value as it was found goes back.
void Shard::execute(Command command, Value &value) {
    auto found = cache_.get(work_.key(command.key));
    expect(found.has_value(), "the row is there");
    std::memcpy(&value, found->value.data(), sizeof value);
    if (!command.adds) return;
    std::uint64_t counter = value.counter + 1;
    expect(cache_.patch(work_.key(command.key), 0, std::as_bytes(std::span(&counter, 1))) == Code::Done, "a counter is written");
}

void Shard::answered(const Command &command, const Value &value) {
    expect(value.key == command.key, "the value is that of the key");
    (command.adds ? totals.additions : totals.gets)++;
}

void Shard::run(std::atomic<std::uint32_t> &left) {
    const std::size_t all = work_.commands_of(number_).size();
    bool is_done = false;
    while (left.load(std::memory_order_acquire)) {
        bool did = take_messages();
        did |= begin_some();
        if (begun_ == all)
            for (std::uint32_t to = 0; to < work_.threads(); to++) send(to);
        if (begun_ == all && out_ == 0 && !is_done) {
            is_done = true;
            left.fetch_sub(1, std::memory_order_acq_rel);
        }
        if (!did) std::this_thread::yield();
    }
}

// False where nothing could be begun.
bool Shard::begin_some() {
    const auto &commands = work_.commands_of(number_);
    std::size_t before = begun_;
    while (begun_ < commands.size() && begun_ - before < in_turn) {
        Command command = commands[begun_];
        if (work_.owner(command.key) == number_) {
            Value value;
            execute(command, value);
            answered(command, value);
        } else if (!ask(command)) {
            break;
        }
        begun_++;
    }
    return begun_ > before;
}

// Adds a command to the message for its owner. False where all messages to it are under way.
bool Shard::ask(Command command) {
    std::uint32_t to = work_.owner(command.key);
    Filling &filling = filling_[to];
    if (!filling.message) {
        if (filling.idle.empty()) return false;
        filling.message = filling.idle.back();
        filling.idle.pop_back();
        filling.message->home = number_;
        filling.message->count = 0;
    }
    filling.message->asks[filling.message->count++].command = command;
    if (filling.message->count == in_message) send(to);
    return true;
}

void Shard::send(std::uint32_t to) {
    if (!filling_[to].message) return;
    out_++;
    expect(ways_[to].push(std::exchange(filling_[to].message, nullptr)), "a mailbox has room for all that is under way");
}

bool Shard::take_messages() {
    bool did = false;
    while (Message *message = inbox_.try_pop()) {
        did = true;
        if (message->home != number_) {
            for (std::size_t i = 0; i < message->count; i++) execute(message->asks[i].command, message->asks[i].value);
            expect(ways_[message->home].push(message), "a mailbox has room for all that is under way");
            continue;
        }
        for (std::size_t i = 0; i < message->count; i++) answered(message->asks[i].command, message->asks[i].value);
        filling_[work_.owner(message->asks[0].command.key)].idle.push_back(message);
        out_--;
    }
    return did;
}

void Shard::close() {
    for (std::uint32_t key : work_.keys_of(number_)) {
        Value value;
        execute({key, false}, value);
        totals.counted += value.counter;
    }
    expect(cache_.close() == Code::Done, "a cache closes");
}

}  // namespace

int main(int words, char **word) {
    Workload work(number_of(words, word, 1, 4), number_of(words, word, 2, 75), number_of(words, word, 3, 1'000'000));
    std::vector<std::unique_ptr<Shard>> shards;
    for (std::uint32_t i = 0; i < work.threads(); i++) {
        shards.push_back(std::make_unique<Shard>(work, i));
        shards.back()->open_mailbox();
    }
    for (auto &shard : shards)
        for (auto &other : shards) shard->know(*other);

    std::atomic<std::uint32_t> left{work.threads()};
    std::chrono::steady_clock::time_point begin, end;
    std::barrier opened(work.threads(), [&]() noexcept { begin = std::chrono::steady_clock::now(); });
    std::barrier done(work.threads(), [&]() noexcept { end = std::chrono::steady_clock::now(); });
    std::vector<std::thread> threads;
    for (auto &shard : shards)
        threads.emplace_back([&] {
            shard->open();
            opened.arrive_and_wait();
            shard->run(left);
            done.arrive_and_wait();
            shard->close();
        });
    Totals totals;
    for (std::uint32_t i = 0; i < work.threads(); i++) {
        threads[i].join();
        totals.add(shards[i]->totals);
    }
    tell("messages", work, totals, end - begin);
}
