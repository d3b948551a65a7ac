/* Each call for several threads, with good arguments and with each bad one; says what fails, and ends with 1 there. */
#include "expect.h"
#include "shardcache.h"

#include <stdio.h>
#include <string.h>

static const sc_opening small = {.pages = SC_FEWEST_PAGES, .rows = 1000};

enum { many = 64 }; /* more blocks than can be out */

static int bad_blocks(sc_cache *c) {
    sc_block block = SC_BLOCK_INIT;
    EXPECT(sc_block_open(NULL) == SC_NULL && sc_block_close(NULL) == SC_NULL && sc_block_close(&block) == SC_CLOSED);
    EXPECT(sc_lend(c, 0, "key", 3, 8, NULL, &block) == SC_CLOSED && sc_release(&block) == SC_CLOSED);
    EXPECT(sc_block_open(&block) == SC_DONE && sc_block_open(&block) == SC_OPEN_ALREADY);
    EXPECT(sc_lend(NULL, 0, "key", 3, 8, NULL, &block) == SC_NULL && sc_lend(c, 0, NULL, 3, 8, NULL, &block) == SC_NULL);
    EXPECT(sc_lend(c, 8, "key", 3, 8, NULL, &block) == SC_BAD_TABLE && sc_lend(c, 0, "key", 3, 8, NULL, NULL) == SC_NULL);
    EXPECT(sc_lend(c, 0, "key", 3, 0, NULL, &block) == SC_BAD_SIZE);
    EXPECT(sc_lend(c, 0, "key", 3, SC_MOST_HEAD + 1, NULL, &block) == SC_BAD_SIZE);
    EXPECT(sc_release(&block) == SC_CLOSED && sc_release(NULL) == SC_NULL && sc_take_back(NULL, NULL) == SC_NULL);
    EXPECT(sc_guard(c, 0) == SC_DONE && sc_lend(c, 0, "key", 3, 8, NULL, &block) == SC_GUARDED && sc_unguard(c, 0) == SC_DONE);
    EXPECT(!block.at && sc_block_close(&block) == SC_DONE && sc_block_close(&block) == SC_CLOSED);
    return 0;
}

static int blocks(sc_cache *c) {
    sc_block block = SC_BLOCK_INIT;
    uint32_t home = 7;
    sc_stats stats;
    EXPECT(sc_block_open(&block) == SC_DONE && sc_put(c, 0, "key", 3, "a value", 7, 1, NULL, NULL) == SC_DONE);
    EXPECT(sc_take_back(c, &home) == SC_DONE && home == 0);
    EXPECT(sc_lend(c, 0, "key", 3, 8, NULL, &block) == SC_DONE && block.found && block.head == 8 && block.len == 15);
    memset(block.at, 1, 8);
    EXPECT(!memcmp(block.at + 8, "a value", 7));
    EXPECT(sc_put(c, 0, "key", 3, "another", 7, 1, NULL, NULL) == SC_DONE && !memcmp(block.at + 8, "a value", 7));
    EXPECT(sc_lend(c, 0, "key", 3, 8, NULL, &block) == SC_OPEN_ALREADY && sc_block_close(&block) == SC_BLOCKS_OUT && block.len == 15);
    EXPECT(sc_close(c) == SC_BLOCKS_OUT && sc_get_stats(c, &stats) == SC_DONE && stats.blocks_out == 1);
    EXPECT(sc_release(&block) == SC_DONE && !block.at && sc_release(&block) == SC_CLOSED);
    EXPECT(sc_take_back(c, &home) == SC_DONE && home == 1 && sc_take_back(c, NULL) == SC_DONE);
    EXPECT(sc_lend(c, 0, "none", 4, SC_MOST_HEAD, NULL, &block) == SC_DONE && !block.found && block.len == SC_MOST_HEAD);
    memset(block.at, 1, SC_MOST_HEAD);
    EXPECT(sc_release(&block) == SC_DONE && sc_take_back(c, &home) == SC_DONE && home == 1 && sc_block_close(&block) == SC_DONE);
    return 0;
}

/* As many blocks as can be out, and then no more until one comes home. */
static int most_blocks(sc_cache *c) {
    static sc_block all[many];
    uint32_t home = 0, out = 0;
    for (uint32_t i = 0; i < many; i++) EXPECT(sc_block_open(&all[i]) == SC_DONE);
    while (out < many && sc_lend(c, 0, "key", 3, 1, NULL, &all[out]) == SC_DONE) out++;
    EXPECT(out == 32 && sc_lend(c, 0, "key", 3, 1, NULL, &all[out]) == SC_NO_TICKET);
    for (uint32_t i = 0; i < out; i++) EXPECT(all[i].len == 8 && !memcmp(all[i].at + 1, "another", 7));
    for (uint32_t i = 0; i < out; i++) EXPECT(sc_release(&all[i]) == SC_DONE);
    EXPECT(sc_take_back(c, &home) == SC_DONE && home == out);
    EXPECT(sc_close(c) == SC_DONE);
    EXPECT(sc_lend(c, 0, "k", 1, 1, NULL, &all[0]) == SC_CLOSED && sc_take_back(c, &home) == SC_CLOSED);
    for (uint32_t i = 0; i < many; i++) EXPECT(sc_block_close(&all[i]) == SC_DONE);
    return 0;
}

static int queues(void) {
    sc_queue a = SC_QUEUE_INIT, b = SC_QUEUE_INIT;
    int messages[4];
    void *message = NULL;
    EXPECT(sc_queue_push(&a, messages) == SC_CLOSED && sc_queue_try_pop(&a, &message) == SC_CLOSED && sc_queue_close(&a) == SC_CLOSED);
    EXPECT(sc_queue_share(&a, &b) == SC_CLOSED && sc_queue_open(&a, 0) == SC_BAD_SIZE && sc_queue_open(NULL, 4) == SC_NULL);
    EXPECT(sc_queue_share(NULL, &b) == SC_NULL && sc_queue_share(&a, NULL) == SC_NULL && sc_queue_close(NULL) == SC_NULL);
    EXPECT(sc_queue_push(NULL, messages) == SC_NULL && sc_queue_try_pop(NULL, &message) == SC_NULL);
    EXPECT(sc_queue_open(&a, 4) == SC_DONE && sc_queue_open(&a, 4) == SC_OPEN_ALREADY);
    EXPECT(sc_queue_share(&a, &b) == SC_DONE && sc_queue_share(&a, &b) == SC_OPEN_ALREADY);
    for (int i = 0; i < 4; i++) EXPECT(sc_queue_push(i % 2 ? &a : &b, &messages[i]) == SC_DONE);
    EXPECT(sc_queue_push(&a, messages) == SC_FULL && sc_queue_close(&b) == SC_DONE);
    for (int i = 0; i < 4; i++) EXPECT(sc_queue_try_pop(&a, &message) == SC_DONE && message == &messages[i]);
    EXPECT(sc_queue_try_pop(&a, &message) == SC_EMPTY && sc_queue_try_pop(&a, NULL) == SC_NULL && sc_queue_close(&a) == SC_DONE);
    return 0;
}

int main(void) {
    sc_cache c = SC_CACHE_INIT;
    EXPECT(sc_open(&c, &small) == SC_DONE);
    TRY(bad_blocks(&c));
    TRY(blocks(&c));
    TRY(most_blocks(&c));
    TRY(queues());
    puts("use: each call did what it says");
    return 0;
}
