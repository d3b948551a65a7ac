/* Each call on a cache, with good arguments and with each bad one; says what fails, and ends with 1 there. */
#include "expect.h"
#include "shardcache.h"

#include <stdio.h>
#include <string.h>

static const sc_opening small = {.pages = SC_FEWEST_PAGES, .rows = 1000};
static uint8_t big[SC_MOST_VALUE + 1];
static uint8_t keys[SC_MOST_KEYS * SC_KEY_ROOM];
static uint8_t found_rows[2 * SC_ROW_ROOM];

static int openings(sc_cache *c) {
    sc_opening with = small;
    EXPECT(sc_open(NULL, &with) == SC_NULL && sc_open(c, NULL) == SC_NULL);
    with.pages = SC_FEWEST_PAGES - SC_SEGMENT_PAGES;
    EXPECT(sc_open(c, &with) == SC_BAD_SIZE);
    with.pages = SC_FEWEST_PAGES + 1;
    EXPECT(sc_open(c, &with) == SC_BAD_SIZE);
    with.pages = SC_MOST_PAGES + SC_SEGMENT_PAGES;
    EXPECT(sc_open(c, &with) == SC_BAD_SIZE);
    with = small;
    with.rows = 0;
    EXPECT(sc_open(c, &with) == SC_BAD_SIZE);
    with.rows = UINT32_MAX;
    EXPECT(sc_open(c, &with) == SC_BAD_SIZE);
    with = small;
    with.groups = 2;
    EXPECT(sc_open(c, &with) == SC_BAD_SIZE);
    with.groups = 8;
    EXPECT(sc_open(c, &with) == SC_BAD_SIZE); /* too few pages for them */
    with = small;
    with.bound = SC_MOST_LIVE(SC_FEWEST_PAGES, 1) + 1;
    EXPECT(sc_open(c, &with) == SC_BAD_BOUND && sc_close(c) == SC_CLOSED);
    with = (sc_opening){SC_FEWEST_GROUP_PAGES, 1, 8, SC_MOST_LIVE(SC_FEWEST_GROUP_PAGES, 8), UINT32_MAX, true};
    EXPECT(sc_open(c, &with) == SC_DONE && sc_close(c) == SC_DONE);
    EXPECT(sc_open(c, &small) == SC_DONE);
    EXPECT(sc_open(c, &small) == SC_OPEN_ALREADY);
    return 0;
}

static int rows(sc_cache *c) {
    const uint8_t *at = NULL;
    size_t len = 0;
    uint32_t tag = 0;
    bool replaced = true;
    uint8_t into[16];
    sc_stats before, after;
    EXPECT(sc_put(c, 0, "key", 3, "value", 5, 1, NULL, &replaced) == SC_DONE && !replaced);
    EXPECT(sc_get(c, 0, "key", 3, &at, &len, &tag) == SC_DONE && len == 5 && !memcmp(at, "value", 5) && tag == 1);
    EXPECT(sc_put_pieces(c, 0, "key", 3, "other ", 6, "value", 5, 2, NULL, &replaced) == SC_DONE && replaced);
    EXPECT(sc_read(c, 0, "key", 3, into, 4, &len, NULL) == SC_SHORT && len == 11);
    EXPECT(sc_read(c, 0, "key", 3, into, sizeof into, &len, &tag) == SC_DONE && len == 11 && tag == 2);
    EXPECT(!memcmp(into, "other value", 11));
    EXPECT(sc_patch(c, 0, "key", 3, 6, "VA", 2) == SC_DONE);
    EXPECT(sc_patch(c, 0, "key", 3, 10, "VA", 2) == SC_SHORT && sc_patch(c, 0, "none", 4, 0, "VA", 2) == SC_MISSING);
    EXPECT(sc_get(c, 0, "key", 3, &at, &len, &tag) == SC_DONE && len == 11 && !memcmp(at, "other VAlue", 11) && tag == 2);
    EXPECT(sc_put(c, 0, "empty", 5, NULL, 0, 3, NULL, NULL) == SC_DONE);
    EXPECT(sc_get(c, 0, "empty", 5, &at, &len, NULL) == SC_DONE && len == 0);
    EXPECT(sc_put(c, 7, "key", 3, "seventh", 7, 4, NULL, &replaced) == SC_DONE && !replaced);
    EXPECT(sc_get(c, 0, "key", 3, &at, &len, NULL) == SC_DONE && len == 11);
    EXPECT(sc_get(c, 7, "key", 3, &at, &len, NULL) == SC_DONE && len == 7);
    EXPECT(sc_get(c, 0, "none", 4, &at, &len, NULL) == SC_MISSING);
    EXPECT(sc_get_stats(c, &before) == SC_DONE);
    EXPECT(sc_peek(c, 0, "empty", 5, &at, &len, &tag) == SC_DONE && at && len == 0 && tag == 3);
    EXPECT(sc_peek(c, 0, "none", 4, &at, &len, NULL) == SC_MISSING);
    EXPECT(sc_get_stats(c, &after) == SC_DONE && !memcmp(&before, &after, sizeof before)); /* nothing was counted */
    EXPECT(sc_erase(c, 7, "key", 3) == SC_DONE && sc_erase(c, 7, "key", 3) == SC_MISSING);
    return 0;
}

static int bad_arguments(sc_cache *c) {
    const uint8_t *at = NULL;
    size_t len = 0;
    sc_scanned did = {0, 0};
    sc_scanned_rows found = {0, 0, 0};
    sc_stats before, after;
    EXPECT(sc_get_stats(c, &before) == SC_DONE);
    EXPECT(sc_put(NULL, 0, "k", 1, "v", 1, 0, NULL, NULL) == SC_NULL && sc_put(c, 0, NULL, 3, "v", 1, 0, NULL, NULL) == SC_NULL);
    EXPECT(sc_put(c, 0, "k", 1, NULL, 1, 0, NULL, NULL) == SC_NULL && sc_put(c, 8, "k", 1, "v", 1, 0, NULL, NULL) == SC_BAD_TABLE);
    EXPECT(sc_put(c, 0, "", 0, "v", 1, 0, NULL, NULL) == SC_BAD_KEY && sc_put(c, 0, big, 257, "v", 1, 0, NULL, NULL) == SC_BAD_KEY);
    EXPECT(sc_put(c, 0, "k", 1, big, SC_MOST_VALUE + 1, 0, NULL, NULL) == SC_BAD_VALUE);
    EXPECT(sc_put_pieces(c, 0, "k", 1, big, SC_MOST_VALUE, big, 1, 0, NULL, NULL) == SC_BAD_VALUE);
    EXPECT(sc_put_pieces(c, 0, "k", 1, NULL, 1, big, 1, 0, NULL, NULL) == SC_NULL);
    EXPECT(sc_put(c, 256, "k", 1, "v", 1, 0, NULL, NULL) == SC_BAD_TABLE);
    EXPECT(sc_get(c, 8, "k", 1, &at, &len, NULL) == SC_BAD_TABLE && sc_get(c, 0, "k", 1, NULL, &len, NULL) == SC_NULL);
    EXPECT(sc_peek(c, 8, "k", 1, &at, &len, NULL) == SC_BAD_TABLE && sc_peek(c, 0, "k", 1, &at, NULL, NULL) == SC_NULL);
    EXPECT(sc_peek(c, 0, big, 257, &at, &len, NULL) == SC_MISSING && sc_patch(c, 8, "key", 3, 0, "v", 1) == SC_BAD_TABLE);
    EXPECT(sc_patch(c, 0, "", 0, 0, "v", 1) == SC_MISSING && sc_erase(c, 0, big, 257) == SC_MISSING);
    EXPECT(sc_read(c, 0, "key", 3, NULL, 1, &len, NULL) == SC_NULL && sc_patch(c, 0, "key", 3, 0, NULL, 1) == SC_NULL);
    EXPECT(sc_erase(c, 8, "key", 3) == SC_BAD_TABLE && sc_erase(c, 0, NULL, 3) == SC_NULL);
    EXPECT(sc_scan(c, 0, "", 0, 0, keys, sizeof keys, &did) == SC_BAD_COUNT);
    EXPECT(sc_scan(c, 0, "", 0, SC_MOST_KEYS + 1, keys, sizeof keys, &did) == SC_BAD_COUNT);
    EXPECT(sc_scan(c, 0, "", 0, 32, keys, sizeof keys - 1, &did) == SC_SHORT);
    EXPECT(sc_scan(c, 8, "", 0, 1, keys, sizeof keys, &did) == SC_BAD_TABLE && sc_scan(c, 0, "", 0, 1, NULL, 0, &did) == SC_NULL);
    EXPECT(sc_scan_rows(c, 0, "", 0, 0, keys, sizeof keys, &found) == SC_BAD_COUNT);
    EXPECT(sc_scan_rows(c, 0, "", 0, SC_MOST_KEYS + 1, keys, sizeof keys, &found) == SC_BAD_COUNT);
    EXPECT(sc_scan_rows(c, 8, "", 0, 1, keys, sizeof keys, &found) == SC_BAD_TABLE);
    EXPECT(sc_scan_rows(NULL, 0, "", 0, 1, keys, sizeof keys, &found) == SC_NULL && sc_scan_rows(c, 0, NULL, 1, 1, keys, 9, &found) == SC_NULL);
    EXPECT(sc_scan_rows(c, 0, "", 0, 1, NULL, 1, &found) == SC_NULL && sc_scan_rows(c, 0, "", 0, 1, keys, 9, NULL) == SC_NULL);
    EXPECT(sc_guard(c, 8) == SC_BAD_TABLE && sc_unguard(c, 8) == SC_BAD_TABLE && sc_get_stats(c, NULL) == SC_NULL);
    EXPECT(sc_get_stats(c, &after) == SC_DONE && !memcmp(&before, &after, sizeof before));
    EXPECT(sc_put(c, 0, big, SC_MOST_KEY, big, SC_MOST_VALUE, 0, NULL, NULL) == SC_DONE && sc_erase(c, 0, big, SC_MOST_KEY) == SC_DONE);
    return 0;
}

static int scans(sc_cache *c) {
    sc_scanned did = {0, 0};
    size_t len = 0;
    const uint8_t *key;
    EXPECT(sc_scan(c, 0, NULL, 0, 2, keys, sizeof keys, &did) == SC_DONE && did.keys == 2 && did.bytes == 12);
    EXPECT(!memcmp(keys, "\5\0empty\3\0key", 12));
    key = sc_key(keys, &len);
    EXPECT(len == 5 && !memcmp(key, "empty", 5));
    key = sc_key(key + len, &len);
    EXPECT(len == 3 && !memcmp(key, "key", 3));
    EXPECT(sc_scan(c, 0, "empty", 6, 2, keys, sizeof keys, &did) == SC_DONE && did.keys == 1); /* behind "empty": its zero is read too */
    EXPECT(sc_scan(c, 3, NULL, 0, 2, keys, sizeof keys, &did) == SC_DONE && did.keys == 0 && did.bytes == 0);
    return 0;
}

static int is_row(const sc_found_row *row, const char *key, const char *value, uint32_t tag) {
    return row->key_len == strlen(key) && !memcmp(row->key, key, row->key_len) && row->value_len == strlen(value)
           && !memcmp(row->value, value, row->value_len) && row->tag == tag;
}

/* Rows with their values: the rows of "empty" and "key" take 13 and 22 bytes. */
static int scans_with_values(sc_cache *c) {
    sc_scanned_rows did = {0, 0, 0};
    sc_found_row row;
    sc_stats before, after;
    const uint8_t *next;
    uint8_t from[SC_MOST_KEY + 1];
    EXPECT(sc_get_stats(c, &before) == SC_DONE);
    EXPECT(sc_scan_rows(c, 0, NULL, 0, 3, found_rows, sizeof found_rows, &did) == SC_DONE);
    EXPECT(did.rows == 2 && did.bytes == 35 && did.wanted == 0);
    EXPECT(!memcmp(found_rows, "\5\0empty\3\0\0\0\0\0\3\0key\2\0\0\0\13\0other VAlue", 35));
    next = sc_row(found_rows, &row);
    EXPECT(is_row(&row, "empty", "", 3));
    next = sc_row(next, &row);
    EXPECT(is_row(&row, "key", "other VAlue", 2) && next == found_rows + 35);
    found_rows[34] = 99;
    EXPECT(sc_scan_rows(c, 0, "", 0, 3, found_rows, 34, &did) == SC_DONE && did.rows == 1 && did.bytes == 13 && did.wanted == 22);
    EXPECT(found_rows[34] == 99); /* the second is not there in part */
    EXPECT(sc_scan_rows(c, 0, "", 0, 3, NULL, 0, &did) == SC_DONE && did.rows == 0 && did.bytes == 0 && did.wanted == 13);
    EXPECT(sc_scan_rows(c, 0, "", 0, 1, found_rows, 13, &did) == SC_DONE && did.rows == 1 && did.bytes == 13 && did.wanted == 0);
    EXPECT(sc_scan_rows(c, 0, "empty", 6, 3, found_rows, 22, &did) == SC_DONE && did.rows == 1 && did.bytes == 22);
    EXPECT(sc_row(found_rows, &row) == found_rows + 22 && is_row(&row, "key", "other VAlue", 2));
    EXPECT(sc_scan_rows(c, 3, NULL, 0, 3, found_rows, 22, &did) == SC_DONE && did.rows == 0 && did.bytes == 0 && did.wanted == 0);
    EXPECT(sc_get_stats(c, &after) == SC_DONE && !memcmp(&before, &after, sizeof before)); /* no row was used */
    memset(big, 'z', sizeof big);
    EXPECT(sc_put(c, 0, big, SC_MOST_KEY, big, SC_MOST_VALUE, 4, NULL, NULL) == SC_DONE);
    EXPECT(sc_scan_rows(c, 0, "z", 1, 3, found_rows, SC_ROW_ROOM - 1, &did) == SC_DONE && did.rows == 0 && did.wanted == SC_ROW_ROOM);
    EXPECT(sc_scan_rows(c, 0, "z", 1, 3, found_rows, SC_ROW_ROOM, &did) == SC_DONE && did.rows == 1 && did.bytes == SC_ROW_ROOM);
    sc_row(found_rows, &row);
    EXPECT(row.key_len == SC_MOST_KEY && row.value_len == SC_MOST_VALUE && row.tag == 4);
    memcpy(from, row.key, SC_MOST_KEY); /* on from the last key, with a zero byte behind it */
    from[SC_MOST_KEY] = 0;
    EXPECT(sc_scan_rows(c, 0, from, sizeof from, 3, found_rows, sizeof found_rows, &did) == SC_DONE && did.rows == 0 && did.wanted == 0);
    EXPECT(sc_erase(c, 0, big, SC_MOST_KEY) == SC_DONE);
    memset(big, 0, sizeof big);
    return 0;
}

/* Whatever number of new rows may wait for their places, a scan finds each. */
static int waiting_rows(void) {
    static const uint32_t waiting[] = {0, 1, SC_WAITING, UINT32_MAX};
    sc_cache c = SC_CACHE_INIT;
    for (size_t one = 0; one < sizeof waiting / sizeof waiting[0]; one++) {
        sc_opening with = small;
        sc_scanned did;
        with.rows = 5000;
        with.waiting = waiting[one];
        EXPECT(sc_open(&c, &with) == SC_DONE);
        for (uint32_t i = 0; i < 5000; i++) {
            uint8_t key[4] = {(uint8_t)(i * 7919 >> 8), (uint8_t)(i * 7919), (uint8_t)(i >> 8), (uint8_t)i};
            EXPECT(sc_put(&c, 0, key, 4, NULL, 0, i, NULL, NULL) == SC_DONE);
        }
        uint8_t from[5] = {0};
        uint32_t found = 0;
        do {
            EXPECT(sc_scan(&c, 0, from, found ? 5 : 0, SC_MOST_KEYS, keys, sizeof keys, &did) == SC_DONE);
            EXPECT(did.bytes == 6 * did.keys);
            for (uint32_t i = 0; i < did.keys; i++) {
                EXPECT(!found || memcmp(from, keys + 6 * i + 2, 4) < 0); /* they rise */
                memcpy(from, keys + 6 * i + 2, 4);
                found++;
            }
        } while (did.keys == SC_MOST_KEYS);
        EXPECT(found == 5000 && sc_close(&c) == SC_DONE);
    }
    return 0;
}

/* Under a guard a row is read where it stands, and nothing moves it. */
static int guards(sc_cache *c) {
    const uint8_t *at = NULL, *again = NULL;
    size_t len = 0;
    sc_scanned did;
    sc_scanned_rows rows_did;
    sc_stats stats;
    EXPECT(sc_unguard(c, 0) == SC_UNGUARDED);
    EXPECT(sc_guard(c, 0) == SC_DONE && sc_guard(c, 0) == SC_DONE);
    EXPECT(sc_peek(c, 0, "key", 3, &at, &len, NULL) == SC_DONE && len == 11);
    EXPECT(sc_put(c, 0, "k", 1, "v", 1, 0, NULL, NULL) == SC_GUARDED && sc_erase(c, 0, "key", 3) == SC_GUARDED);
    EXPECT(sc_put_pieces(c, 1, "k", 1, "v", 1, "v", 1, 0, NULL, NULL) == SC_GUARDED && sc_patch(c, 0, "key", 3, 0, "", 0) == SC_GUARDED);
    EXPECT(sc_get(c, 0, "key", 3, &again, &len, NULL) == SC_GUARDED && sc_read(c, 0, "key", 3, keys, 20, &len, NULL) == SC_GUARDED);
    EXPECT(sc_scan(c, 0, NULL, 0, 2, keys, sizeof keys, &did) == SC_GUARDED && sc_get_stats(c, &stats) == SC_DONE && stats.is_guarded == 1);
    EXPECT(sc_scan_rows(c, 0, NULL, 0, 2, keys, sizeof keys, &rows_did) == SC_GUARDED);
    EXPECT(sc_compact(c) == SC_GUARDED && sc_close(c) == SC_GUARDED);
    EXPECT(sc_unguard(c, 0) == SC_DONE && sc_compact(c) == SC_GUARDED);
    EXPECT(sc_peek(c, 0, "key", 3, &again, &len, NULL) == SC_DONE && again == at && !memcmp(at, "other VAlue", 11));
    EXPECT(sc_unguard(c, 0) == SC_DONE && sc_unguard(c, 0) == SC_UNGUARDED && sc_compact(c) == SC_DONE);
    return 0;
}

static int evictions(sc_cache *c) {
    uint32_t tags[4] = {9, 9, 9, 9}, told = 0;
    uint64_t most = SC_MOST_LIVE(SC_FEWEST_PAGES, 1);
    sc_evicted evicted = {tags, 4, 0};
    const uint8_t *at = NULL;
    size_t len = 0;
    sc_stats stats;
    EXPECT(sc_erase(c, 0, "key", 3) == SC_DONE && sc_erase(c, 0, "empty", 5) == SC_DONE);
    for (uint32_t i = 0; i < 5000; i++) { /* more rows than room: the one used longest ago goes for each */
        EXPECT(sc_put(c, 0, &i, 4, &i, 4, i, &evicted, NULL) == SC_DONE && evicted.count == (i >= small.rows));
        if (evicted.count) EXPECT(tags[0] == told++);
    }
    EXPECT(sc_get_stats(c, &stats) == SC_DONE && stats.rows == 1000 && stats.room == 1000 && stats.evictions == 4000);
    EXPECT(stats.live_bytes == 1000 * SC_LIVE(4, 4) && stats.bound == most);
    for (uint32_t i = 0; i < 100000; i++) { /* more bytes than the bound */
        memcpy(big, &i, 4);
        evicted.tags = tags;
        evicted.room = 1; /* fewer than may go */
        EXPECT(sc_put(c, 0, big, 4, big, 4000 + i % 8000, i, &evicted, NULL) == SC_DONE);
    }
    for (uint32_t i = 99900; i < 100000; i++) {
        memcpy(big, &i, 4);
        EXPECT(sc_get(c, 0, &i, 4, &at, &len, NULL) == SC_DONE && len == 4000 + i % 8000 && !memcmp(at, big, len));
    }
    EXPECT(sc_get_stats(c, &stats) == SC_DONE && stats.live_bytes <= stats.bound + SC_LIVE(4, SC_MOST_VALUE));
    printf("rows %u, live bytes %llu of %llu, evictions %llu, gets %llu, hits %llu\n", stats.rows, (unsigned long long)stats.live_bytes,
           (unsigned long long)stats.bound, (unsigned long long)stats.evictions, (unsigned long long)stats.gets,
           (unsigned long long)stats.hits);
    evicted.tags = NULL;
    EXPECT(sc_put(c, 0, "k", 1, "v", 1, 0, &evicted, NULL) == SC_NULL);
    return 0;
}

/* A bound of so few bytes that several rows go for one put, more than there are places for. */
static int few_places(void) {
    sc_cache c = SC_CACHE_INIT;
    uint32_t tags[2] = {7, 7};
    sc_evicted evicted = {tags, 2, 0};
    sc_opening with = small;
    with.bound = 4 * SC_LIVE(4, 0) + 8;
    EXPECT(sc_open(&c, &with) == SC_DONE);
    for (uint32_t i = 0; i < 4; i++) EXPECT(sc_put(&c, 0, &i, 4, NULL, 0, i, NULL, NULL) == SC_DONE);
    EXPECT(sc_put(&c, 0, "long", 4, big, 1000, 4, &evicted, NULL) == SC_DONE && evicted.count == 0); /* as many bytes are live as may be */
    EXPECT(sc_put(&c, 0, "last", 4, NULL, 0, 5, &evicted, NULL) == SC_DONE && evicted.count == 5 && tags[0] == 0 && tags[1] == 1);
    EXPECT(sc_close(&c) == SC_DONE);
    return 0;
}

static int closings(sc_cache *c) {
    const uint8_t *at = NULL;
    size_t len = 0;
    sc_stats stats;
    sc_scanned did;
    sc_scanned_rows rows_did;
    EXPECT(sc_close(NULL) == SC_NULL && sc_close(c) == SC_DONE && sc_close(c) == SC_CLOSED);
    EXPECT(sc_put(c, 0, "k", 1, "v", 1, 0, NULL, NULL) == SC_CLOSED);
    EXPECT(sc_put_pieces(c, 0, "k", 1, "", 0, "v", 1, 0, NULL, NULL) == SC_CLOSED);
    EXPECT(sc_get(c, 0, "k", 1, &at, &len, NULL) == SC_CLOSED && sc_read(c, 0, "k", 1, keys, 9, &len, NULL) == SC_CLOSED);
    EXPECT(sc_patch(c, 0, "k", 1, 0, "v", 1) == SC_CLOSED && sc_erase(c, 0, "k", 1) == SC_CLOSED);
    EXPECT(sc_scan(c, 0, "", 0, 1, keys, sizeof keys, &did) == SC_CLOSED && sc_get_stats(c, &stats) == SC_CLOSED);
    EXPECT(sc_scan_rows(c, 0, "", 0, 1, keys, sizeof keys, &rows_did) == SC_CLOSED);
    EXPECT(sc_guard(c, 0) == SC_CLOSED && sc_unguard(c, 0) == SC_CLOSED && sc_compact(c) == SC_CLOSED);
    EXPECT(sc_peek(c, 0, "k", 1, &at, &len, NULL) == SC_CLOSED);
    EXPECT(sc_open(c, &small) == SC_DONE && sc_close(c) == SC_DONE);
    return 0;
}

int main(void) {
    sc_cache c = SC_CACHE_INIT;
    TRY(openings(&c));
    TRY(rows(&c));
    TRY(bad_arguments(&c));
    TRY(scans(&c));
    TRY(scans_with_values(&c));
    TRY(guards(&c));
    TRY(evictions(&c));
    TRY(few_places());
    TRY(waiting_rows());
    TRY(closings(&c));
    EXPECT(!strcmp(sc_name(SC_MISSING), "missing") && !strcmp(sc_name(99), "unknown"));
    puts("use: each call did what it says");
    return 0;
}
