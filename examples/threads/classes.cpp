// A block that one thread lends and another reads, by the classes of shardcache.hpp; says what fails, and ends with 1 there.
#include "expect.h"
#include "shardcache.hpp"

#include <cstdio>
#include <thread>

using namespace shardcache;

static_assert(!std::is_copy_constructible_v<Block> && !std::is_copy_constructible_v<Mailbox<int>>);

static int read_one(Mailbox<Block> &from) {
    Block *block = nullptr;
    while (!(block = from.try_pop())) std::this_thread::yield();
    EXPECT(block->found() && text(block->value()) == "lent" && text(block->head()) == "for you:");
    EXPECT(block->release() == Code::Done && !*block);
    return 0;
}

static int blocks_for_another_thread() {
    Cache cache;
    EXPECT(cache.open({.pages = SC_FEWEST_PAGES, .rows = 1000}) == Code::Done && cache.put("key", "lent"));
    Mailbox<Block> here, there;
    EXPECT(here.open(4) == Code::Done && here.share(there) == Code::Done && !here.try_pop());
    int failed = 1;
    std::thread reader([&failed, there = std::move(there)]() mutable { failed = read_one(there); });
    Block block;
    EXPECT(cache.lend("key", 8, block) == Code::Closed && block.open() == Code::Done && cache.lend("key", 0, block) == Code::BadSize);
    EXPECT(!block && cache.lend("key", 8, block) == Code::Done && block && cache.close() == Code::BlocksOut);
    EXPECT(cache.lend("key", 8, block) == Code::OpenAlready);
    std::memcpy(block.head().data(), "for you:", 8);
    EXPECT(here.push(&block));
    reader.join();
    EXPECT(!failed);
    EXPECT(!block && cache.take_back() == 1);
    {
        Block other;
        EXPECT(other.open() == Code::Done && cache.lend("none", 1, other) == Code::Done && !other.found());
    }  // given back as it is destroyed
    EXPECT(cache.take_back() == 1 && cache.close() == Code::Done);
    return 0;
}

int main() {
    TRY(blocks_for_another_thread());
    std::puts("classes: each call did what it says");
}
