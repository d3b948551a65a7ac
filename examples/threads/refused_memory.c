/* Lending and messages take no memory. Each allocation of what does, a block's opening, a queue's and its sharing, is refused in turn.
 * Linked as counted.h says. Its word is how many calls are made. */
#include "counted.h"
#include "expect.h"
#include "shardcache.h"

enum { most_out = 16 };

static int blocks(long calls) {
    static const sc_opening with = {.pages = SC_FEWEST_PAGES, .rows = 20000};
    static uint8_t value[600];
    sc_cache c = SC_CACHE_INIT;
    sc_block out[most_out] = {0};
    uint32_t count = 0;
    long before = taken;
    refused = 1;
    EXPECT(sc_block_open(&out[0]) == SC_NO_MEMORY && sc_block_close(&out[0]) == SC_CLOSED && taken == before);
    refused = -1;
    for (uint32_t i = 0; i < most_out; i++) EXPECT(sc_block_open(&out[i]) == SC_DONE);
    EXPECT(sc_open(&c, &with) == SC_DONE);
    asked = 0;
    for (long i = 0; i < calls; i++) {
        uint64_t draw = drawn();
        uint32_t key = draw % 60000, table = draw >> 32 & 7;
        EXPECT(sc_put(&c, table, &key, 4, value, draw % 600, key, NULL, NULL) == SC_DONE);
        if (count < most_out && draw >> 63)
            EXPECT(sc_lend(&c, table, &key, 4, 16, NULL, &out[count++]) == SC_DONE);
        else if (count)
            EXPECT(sc_release(&out[--count]) == SC_DONE && sc_take_back(&c, NULL) == SC_DONE);
    }
    while (count) EXPECT(sc_release(&out[--count]) == SC_DONE);
    EXPECT(sc_take_back(&c, NULL) == SC_DONE && asked == 0 && sc_close(&c) == SC_DONE);
    before = taken;
    for (uint32_t i = 0; i < most_out; i++) EXPECT(sc_block_close(&out[i]) == SC_DONE);
    EXPECT(before - taken == most_out);
    return 0;
}

static int queues(void) {
    sc_queue a = SC_QUEUE_INIT, b = SC_QUEUE_INIT;
    void *message;
    long before = taken, opening, sharing;
    asked = 0;
    EXPECT(sc_queue_open(&a, 64) == SC_DONE);
    opening = asked;
    asked = 0;
    EXPECT(sc_queue_share(&a, &b) == SC_DONE);
    sharing = asked;
    asked = 0;
    for (long i = 0; i < 1000; i++) EXPECT(sc_queue_push(&a, &a) == SC_DONE && sc_queue_try_pop(&b, &message) == SC_DONE);
    printf("a queue: %ld allocations as it is opened, %ld as it is shared, %ld in 2000 calls\n", opening, sharing, asked);
    EXPECT(asked == 0 && sc_queue_close(&b) == SC_DONE);
    for (refused = 1; refused <= sharing; refused++) {
        long open = taken;
        asked = 0;
        EXPECT(sc_queue_share(&a, &b) == SC_NO_MEMORY && sc_queue_close(&b) == SC_CLOSED && taken == open);
    }
    refused = -1;
    EXPECT(sc_queue_close(&a) == SC_DONE && taken == before);
    for (refused = 1; refused <= opening; refused++) {
        asked = 0;
        EXPECT(sc_queue_open(&a, 64) == SC_NO_MEMORY && taken == before);
    }
    refused = -1;
    return 0;
}

int main(int words, char **word) {
    TRY(blocks(words > 1 ? atol(word[1]) : 1000000));
    TRY(queues());
    puts("each allocation was refused in turn");
    return 0;
}
