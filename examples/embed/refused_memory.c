/* No call behind the opening takes memory, and an opening that finds none leaves no more taken than a closed handle keeps: each of its
 * allocations is refused in turn. Linked as counted.h says. Its word is how many calls are made. */
#include "counted.h"
#include "expect.h"
#include "shardcache.h"

static const sc_opening with = {.pages = SC_FEWEST_PAGES, .rows = 20000};

/* One call, drawn at random. False where its code is one that it can't have. */
static bool one_call(sc_cache *c) {
    static uint8_t value[600], keys[SC_MOST_KEYS * SC_KEY_ROOM];
    const uint8_t *at;
    size_t len;
    uint32_t tags[4];
    sc_evicted evicted = {tags, 4, 0};
    sc_scanned did;
    uint64_t draw = drawn();
    uint32_t key = draw % 60000, table = draw >> 32 & 7;
    switch (draw >> 60) {
    case 0: return sc_erase(c, table, &key, 4) != SC_CLOSED;
    case 1: return draw >> 40 & 63 || sc_scan(c, table, &key, 4, 32, keys, sizeof keys, &did) == SC_DONE;
    case 2: return sc_compact(c) == SC_DONE;
    case 3: return sc_patch(c, table, &key, 4, 0, value, draw % 40) != SC_CLOSED;
    case 4:
        if (sc_guard(c, table) != SC_DONE) return false;
        sc_peek(c, table, &key, 4, &at, &len, NULL);
        return sc_unguard(c, table) == SC_DONE;
    case 5:
    case 6: return sc_get(c, table, &key, 4, &at, &len, NULL) != SC_CLOSED;
    case 7: return sc_read(c, table, &key, 4, keys, sizeof keys, &len, NULL) != SC_CLOSED;
    case 8: return sc_put_pieces(c, table, &key, 4, value, 16, value, draw % 500, key, &evicted, NULL) == SC_DONE;
    default: return sc_put(c, table, &key, 4, value, draw % 600, key, &evicted, NULL) == SC_DONE;
    }
}

static int open_and_use(sc_cache *c, long calls, long *opening, long *kept) {
    long before = taken;
    asked = 0;
    EXPECT(sc_open(c, &with) == SC_DONE);
    *opening = asked;
    for (long i = 0; i < calls; i++) EXPECT(one_call(c));
    printf("a cache: %ld allocations as it is opened, %ld in %ld calls\n", *opening, asked - *opening, calls);
    EXPECT(asked == *opening);
    EXPECT(sc_close(c) == SC_DONE);
    *kept = taken - before; /* for the next opening of the handle */
    printf("a closed handle keeps %ld blocks of %ld\n", *kept, *opening);
    return 0;
}

/* A handle that was open takes no more than it gives back. */
static int open_again(sc_cache *c, long opening, long kept) {
    long before = taken, again;
    asked = 0;
    EXPECT(sc_open(c, &with) == SC_DONE);
    again = asked;
    EXPECT(again + kept <= opening && sc_close(c) == SC_DONE && taken == before);
    for (refused = 1; refused <= again; refused++) {
        asked = 0;
        EXPECT(sc_open(c, &with) == SC_NO_MEMORY && taken == before && sc_close(c) == SC_CLOSED);
    }
    refused = -1;
    EXPECT(sc_open(c, &with) == SC_DONE && sc_close(c) == SC_DONE && taken == before);
    return 0;
}

static int open_new_ones(long opening, long kept) {
    for (long which = 1; which <= opening; which++) {
        sc_cache other = SC_CACHE_INIT;
        long before = taken;
        asked = 0;
        refused = which;
        EXPECT(sc_open(&other, &with) == SC_NO_MEMORY && taken - before <= kept && sc_close(&other) == SC_CLOSED);
        refused = -1;
        EXPECT(sc_open(&other, &with) == SC_DONE && sc_close(&other) == SC_DONE && taken - before == kept);
    }
    return 0;
}

int main(int words, char **word) {
    sc_cache c = SC_CACHE_INIT;
    long opening, kept;
    TRY(open_and_use(&c, words > 1 ? atol(word[1]) : 1000000, &opening, &kept));
    TRY(open_again(&c, opening, kept));
    TRY(open_new_ones(opening, kept));
    puts("each allocation was refused in turn");
    return 0;
}
