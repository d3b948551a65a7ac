/* One shard's cache of rows, for the program that has it in it. For C11 and C++; shardcache.hpp has classes for C++20.
 *
 * A row is a key with a value and a tag of 32 bits that is the caller's own. Each of eight tables has rows, and one key may have a
 * row in each. A cache is opened on a number of pages and for a number of rows, and takes no memory afterwards. A put always stores:
 * where there is no room otherwise the rows that were used longest ago go, of whatever table, and their tags are told. No call waits,
 * starts a thread or takes a lock.
 *
 * Every function answers a code. Where it is not SC_DONE nothing has changed, but where it is said. Calls on one cache come first;
 * what several threads need, blocks that are lent and queues of messages, stands apart, behind them.
 *
 * What a caller owes, since no call can see it:
 * - A handle is SC_CACHE_INIT, or all zero, before it is opened, and only the calls write it. An open one is not copied, since each
 *   copy would own the cache; it may be moved, if the old handle is SC_CACHE_INIT afterwards.
 * - A cache is used by one thread at a time. A thread may have several.
 * - A pointer with a length leads to so many bytes, which nobody writes meanwhile. What a call writes overlaps nothing else that the
 *   call is given.
 * - No argument lies in the memory of a cache: whoever stores what sc_get or sc_peek pointed to copies it first.
 * - malloc, realloc and free are those of one allocator, which aligns blocks to 16 bytes. No call is made in a signal handler, nor in
 *   the forked child of a process with threads.
 *
 * Link with libshardcache.a, or as `pkg-config --libs shardcache` says.
 */
#ifndef SHARDCACHE_H
#define SHARDCACHE_H

#include <stdbool.h>
#include <stddef.h>
#include <stdint.h>

#ifdef __cplusplus
extern "C" {
#endif

enum sc_code {
    SC_DONE = 0,
    SC_CLOSED = 1,       /* the handle is closed, or was never opened; of a release, nothing is lent */
    SC_OPEN_ALREADY = 2, /* it is open; of a block, it is lent */
    SC_BAD_SIZE = 3,     /* pages, rows or groups that no cache has; places of no queue, or a head of no block */
    SC_NO_MEMORY = 4,
    SC_BAD_KEY = 5,      /* of a put: no byte, or more than SC_MOST_KEY. Of the other calls such a key is SC_MISSING */
    SC_BAD_VALUE = 6,    /* more bytes than SC_MOST_VALUE, in both pieces together */
    SC_BAD_COUNT = 7,    /* none, or more than SC_MOST_KEYS */
    SC_SHORT = 8,        /* the buffer is too short, or the value ends before the last of the bytes */
    SC_MISSING = 9,      /* no row has the key */
    SC_GUARDED = 10,     /* a guard stands; of sc_guard, as many as can */
    SC_NULL = 11,        /* a pointer is null */
    SC_BAD_TABLE = 12,   /* a table is 0 to 7 */
    SC_BAD_BOUND = 13,   /* more than SC_MOST_LIVE */
    SC_UNGUARDED = 14,   /* no guard stands */
    SC_BLOCKS_OUT = 15,  /* a lent block has not come home */
    SC_NO_TICKET = 16,   /* as many blocks are out as can be */
    SC_RACED = 17,       /* private: another thread's call came between */
    SC_FULL = 18,        /* no place of the queue is free */
    SC_EMPTY = 19        /* nothing is in the queue */
};

#define SC_TABLES 8u
#define SC_MOST_KEY 256u
#define SC_MOST_VALUE 12000u
#define SC_PAGE 4096u
#define SC_SEGMENT_PAGES 32u        /* pages come in multiples of these */
#define SC_FEWEST_PAGES 1280u       /* 5 MiB */
#define SC_FEWEST_GROUP_PAGES 1536u /* where each table has segments of its own */
#define SC_MOST_PAGES 524288u       /* 2 GiB */
#define SC_MOST_KEYS 32u            /* that one scan writes */
#define SC_KEY_ROOM 258u            /* the room for each of them, with its length */
#define SC_ROW_ROOM 12264u          /* the most bytes of a row that a scan writes */
#define SC_WAITING 1024u            /* how many new rows may wait for their places in the order of keys, where nothing else is asked */

/* A row's live bytes. */
#define SC_LIVE(key_len, value_len) ((40 + (uint64_t)(key_len) + (value_len) + 7) / 8 * 8)
/* The greatest bound on live bytes, at which compaction is still cheap: nine tenths of the pages, less those of a segment a group. */
#define SC_MOST_LIVE(pages, groups) (((uint64_t)(pages) / SC_SEGMENT_PAGES - (groups)) * 118776)

typedef struct sc_cache { uint32_t state; void *at; } sc_cache; /* private */
#define SC_CACHE_INIT {0, NULL}

/* What a cache is opened with. */
typedef struct sc_opening {
    uint32_t pages;  /* SC_FEWEST_PAGES to SC_MOST_PAGES */
    uint32_t rows;   /* for how many rows there is room: 1 to 4,294,967,294 */
    uint32_t groups; /* of segments: 1, or 8, where the rows of each table stand in segments of their own; 0 stands for 1 */
    uint64_t bound;  /* rows go while more bytes are live; 0 stands for SC_MOST_LIVE */
    /* The most new rows that may wait for their places in the order of keys: a put that finds more brings one of them in, so that no
     * scan has to sort more than so many. 0 stands for SC_WAITING. UINT32_MAX where nothing is scanned, which spares puts the work. */
    uint32_t waiting;
    /* Whether the table of keys is written whole at the opening, 16 to 32 bytes for each row that there is room for, so that no put
     * doubles it. Else a put that finds 512, 1,024, 2,048 .. rows takes as long as that takes. */
    bool wide;
} sc_opening;

/* The memory of the caller's for the tags of the rows that go. */
typedef struct sc_evicted {
    uint32_t *tags;
    size_t room;    /* for how many tags */
    uint64_t count; /* written by the call: how many rows went; the tags of the first of them are told, in order, as far as there is room */
} sc_evicted;

/* What a scan wrote. */
typedef struct sc_scanned { uint32_t keys, bytes; } sc_scanned;

/* What a scan with values wrote. */
typedef struct sc_scanned_rows {
    uint32_t rows, bytes;
    uint32_t wanted; /* how many bytes the next row takes, where there was no room for it; else 0 */
} sc_scanned_rows;

/* A row that a scan wrote, where it stands. */
typedef struct sc_found_row {
    const uint8_t *key;
    size_t key_len;
    const uint8_t *value;
    size_t value_len;
    uint32_t tag;
} sc_found_row;

typedef struct sc_stats {
    uint64_t live_bytes; /* of all rows together */
    uint64_t bound;      /* rows go while more bytes are live */
    uint64_t evictions;  /* how many rows went */
    uint64_t gets;
    uint64_t hits;       /* how many gets found a row */
    uint32_t rows;
    uint32_t room;       /* for how many rows there is room */
    uint32_t blocks_out; /* that are lent, and have not come home */
    uint32_t is_guarded; /* 1 where a guard stands, and else 0 */
} sc_stats;

/* What the library exports. Call the functions below, which test for null and for a table that is none. */
uint32_t shardcache_open(sc_cache *, uint32_t pages, uint32_t rows, uint32_t groups, uint64_t bound, uint32_t waiting,
                         uint32_t wide);
uint32_t shardcache_put(sc_cache *, uint8_t table, const uint8_t *key, size_t, const uint8_t *value, size_t, uint32_t tag,
                        uint32_t *evicted, size_t, uint64_t *went, bool *replaced);
uint32_t shardcache_put_pieces(sc_cache *, uint8_t table, const uint8_t *key, size_t, const uint8_t *first, size_t,
                               const uint8_t *second, size_t, uint32_t tag, uint32_t *evicted, size_t, uint64_t *went, bool *replaced);
uint32_t shardcache_patch(sc_cache *, uint8_t table, const uint8_t *key, size_t, size_t at, const uint8_t *bytes, size_t);
uint32_t shardcache_erase(sc_cache *, uint8_t table, const uint8_t *key, size_t);
uint32_t shardcache_get(sc_cache *, uint8_t table, const uint8_t *key, size_t, const uint8_t **at, size_t *len, uint32_t *tag);
uint32_t shardcache_peek(sc_cache *, uint8_t table, const uint8_t *key, size_t, const uint8_t **at, size_t *len, uint32_t *tag);
uint32_t shardcache_read(sc_cache *, uint8_t table, const uint8_t *key, size_t, uint8_t *into, size_t, size_t *len, uint32_t *tag);
uint32_t shardcache_scan(sc_cache *, uint8_t table, const uint8_t *from, size_t, uint32_t count, uint8_t *into, size_t, sc_scanned *);
uint32_t shardcache_scan_rows(sc_cache *, uint8_t table, const uint8_t *from, size_t, uint32_t count, uint8_t *into, size_t,
                              sc_scanned_rows *);
uint32_t shardcache_guard(sc_cache *, uint8_t table);
uint32_t shardcache_unguard(sc_cache *, uint8_t table);
uint32_t shardcache_compact(sc_cache *);
uint32_t shardcache_stats(sc_cache *, sc_stats *);
uint32_t shardcache_close(sc_cache *);

/* Private: what stands for no bytes and no tags, at null. */
static const uint8_t sc_no_bytes_[1] = {0};
static inline const uint8_t *sc_bytes_(const void *at) { return at ? (const uint8_t *)at : sc_no_bytes_; }
static inline size_t sc_room_(const sc_evicted *evicted) { return evicted ? evicted->room : 0; }
static inline bool sc_lacks_tags_(const sc_evicted *evicted) { return sc_room_(evicted) && !evicted->tags; }
static inline uint32_t *sc_tags_(const sc_evicted *evicted) {
    static uint32_t none[1];
    return sc_room_(evicted) ? evicted->tags : none;
}

/* The name of a code, as `missing`. */
static inline const char *sc_name(int code) {
    static const char *const names[] = {
        "done",    "closed", "open already", "bad size",  "no memory", "bad key",    "bad value", "bad count", "short", "missing",
        "guarded", "null",   "bad table",    "bad bound", "unguarded", "blocks out", "no ticket", "raced",     "full",  "empty"};
    return code >= 0 && (size_t)code < sizeof names / sizeof names[0] ? names[code] : "unknown";
}

/* Opens a closed handle. Only this call takes memory: it reserves the pages, and touches none of them. Where memory is not found, no
 * more is left taken than a closed handle keeps: sc_close says what. */
static inline int sc_open(sc_cache *cache, const sc_opening *with) {
    if (!cache || !with) return SC_NULL;
    return (int)shardcache_open(cache, with->pages, with->rows, with->groups ? with->groups : 1, with->bound, with->waiting, with->wide);
}

/* Stores a row in front of the others; no other row has its key in the table afterwards. One row goes where there is no place for
 * another, and then one after the other while more bytes are live than the bound. `evicted` (or null) is told which; `replaced` (or
 * null), whether a row had the key. */
static inline int sc_put(sc_cache *cache, uint32_t table, const void *key, size_t key_len, const void *value, size_t value_len,
                         uint32_t tag, sc_evicted *evicted, bool *replaced) {
    bool ignored = false;
    uint64_t unused = 0;
    if (!cache || (!key && key_len) || (!value && value_len) || sc_lacks_tags_(evicted)) return SC_NULL;
    if (table >= SC_TABLES) return SC_BAD_TABLE;
    return (int)shardcache_put(cache, (uint8_t)table, sc_bytes_(key), key_len, sc_bytes_(value), value_len, tag, sc_tags_(evicted),
                               sc_room_(evicted), evicted ? &evicted->count : &unused, replaced ? replaced : &ignored);
}

/* The same, where the value comes in two pieces, the second one behind the first. */
static inline int sc_put_pieces(sc_cache *cache, uint32_t table, const void *key, size_t key_len, const void *first, size_t first_len,
                                const void *second, size_t second_len, uint32_t tag, sc_evicted *evicted, bool *replaced) {
    uint64_t unused = 0;
    bool ignored = false;
    if (!cache || (!key && key_len) || (!first && first_len) || (!second && second_len) || sc_lacks_tags_(evicted)) return SC_NULL;
    if (table >= SC_TABLES) return SC_BAD_TABLE;
    return (int)shardcache_put_pieces(cache, (uint8_t)table, sc_bytes_(key), key_len, sc_bytes_(first), first_len, sc_bytes_(second),
                                      second_len, tag, sc_tags_(evicted), sc_room_(evicted), evicted ? &evicted->count : &unused,
                                      replaced ? replaced : &ignored);
}

/* Writes bytes over those of a value from `at` on, where the row stands: no row goes for it. The row keeps its tag, and is the one used
 * last from now on. SC_SHORT where the value ends before the last of the bytes. */
static inline int sc_patch(sc_cache *cache, uint32_t table, const void *key, size_t key_len, size_t at, const void *bytes, size_t len) {
    if (!cache || (!key && key_len) || (!bytes && len)) return SC_NULL;
    if (table >= SC_TABLES) return SC_BAD_TABLE;
    return (int)shardcache_patch(cache, (uint8_t)table, sc_bytes_(key), key_len, at, sc_bytes_(bytes), len);
}

/* Removes the row of a key. */
static inline int sc_erase(sc_cache *cache, uint32_t table, const void *key, size_t key_len) {
    if (!cache || (!key && key_len)) return SC_NULL;
    if (table >= SC_TABLES) return SC_BAD_TABLE;
    return (int)shardcache_erase(cache, (uint8_t)table, sc_bytes_(key), key_len);
}

/* Where the value of a key's row stands, and how long it is: until the next call with this handle, but for sc_peek and sc_get_stats.
 * `tag` (or null) is told the tag that its put gave. The row is the one used last from now on. A get is counted where it is SC_DONE or
 * SC_MISSING. */
static inline int sc_get(sc_cache *cache, uint32_t table, const void *key, size_t key_len, const uint8_t **at, size_t *len,
                         uint32_t *tag) {
    uint32_t unused = 0;
    if (!cache || (!key && key_len) || !at || !len) return SC_NULL;
    if (table >= SC_TABLES) return SC_BAD_TABLE;
    int code = (int)shardcache_get(cache, (uint8_t)table, sc_bytes_(key), key_len, at, len, tag ? tag : &unused);
    if (code == SC_DONE && *len == 0) *at = sc_no_bytes_;
    return code;
}

/* The same, but the row is used no more than before, and nothing is counted. It may be called under a guard, and what it points to
 * stays there while a guard of the table stands. */
static inline int sc_peek(sc_cache *cache, uint32_t table, const void *key, size_t key_len, const uint8_t **at, size_t *len,
                          uint32_t *tag) {
    uint32_t unused = 0;
    if (!cache || (!key && key_len) || !at || !len) return SC_NULL;
    if (table >= SC_TABLES) return SC_BAD_TABLE;
    int code = (int)shardcache_peek(cache, (uint8_t)table, sc_bytes_(key), key_len, at, len, tag ? tag : &unused);
    if (code == SC_DONE && *len == 0) *at = sc_no_bytes_;
    return code;
}

/* Copies the value of a key's row, and tells its length and, unless that is null, its tag. Where it is SC_SHORT nothing is copied, length
 * and tag are told, and the row counts as used. */
static inline int sc_read(sc_cache *cache, uint32_t table, const void *key, size_t key_len, void *into, size_t room, size_t *len,
                          uint32_t *tag) {
    static uint8_t nowhere[1];
    uint32_t unused = 0;
    if (!cache || (!key && key_len) || (!into && room) || !len) return SC_NULL;
    if (table >= SC_TABLES) return SC_BAD_TABLE;
    return (int)shardcache_read(cache, (uint8_t)table, sc_bytes_(key), key_len, into ? (uint8_t *)into : nowhere, room, len,
                                tag ? tag : &unused);
}

/* Writes the first `count` keys of a table at or above `from`, in the order of their bytes, each behind its length in two bytes, low
 * byte first. `room` is SC_KEY_ROOM for each key or more. No row counts as used. The least key above another is that key with a zero
 * byte behind it: so a scan goes on from the last key with a zero byte, whatever was stored and erased meanwhile. A scan behind many puts
 * takes longer, since it brings the new keys into their order: `waiting` of sc_opening says how many. */
static inline int sc_scan(sc_cache *cache, uint32_t table, const void *from, size_t from_len, uint32_t count, void *into, size_t room,
                          sc_scanned *did) {
    if (!cache || (!from && from_len) || !into || !did) return SC_NULL;
    if (table >= SC_TABLES) return SC_BAD_TABLE;
    return (int)shardcache_scan(cache, (uint8_t)table, sc_bytes_(from), from_len, count, (uint8_t *)into, room, did);
}

/* A key that a scan wrote, and its length: the first at what the scan wrote into, each other one where the key before it ends. */
static inline const uint8_t *sc_key(const uint8_t *at, size_t *len) {
    *len = (size_t)at[0] | (size_t)at[1] << 8;
    return at + 2;
}

/* Writes the first rows of a table at or above `from`, in the order of the bytes of their keys: at most `count`, 1 to SC_MOST_KEYS, and no
 * more than fit into `room` bytes whole. Each is its key behind its length in two bytes, its tag in four, the length of its value in two,
 * and its value, low bytes first. Where there was no room for the next row, `wanted` is how many bytes it takes, SC_ROW_ROOM at most; where
 * it is 0, `count` rows were written or there are no more. No row counts as used. It goes on as sc_scan does: `from` may have one byte more
 * than a key can have. */
static inline int sc_scan_rows(sc_cache *cache, uint32_t table, const void *from, size_t from_len, uint32_t count, void *into, size_t room,
                               sc_scanned_rows *did) {
    static uint8_t nowhere[1];
    if (!cache || (!from && from_len) || (!into && room) || !did) return SC_NULL;
    if (table >= SC_TABLES) return SC_BAD_TABLE;
    return (int)shardcache_scan_rows(cache, (uint8_t)table, sc_bytes_(from), from_len, count, into ? (uint8_t *)into : nowhere, room, did);
}

/* Reads a row that such a scan wrote, and answers where the next one stands: the first stands at what the scan wrote into. Read no more
 * than `rows` of them, and none once the bytes are written over. */
static inline const uint8_t *sc_row(const uint8_t *at, sc_found_row *row) {
    at = sc_key(at, &row->key_len);
    row->key = at;
    at += row->key_len;
    row->tag = (uint32_t)at[0] | (uint32_t)at[1] << 8 | (uint32_t)at[2] << 16 | (uint32_t)at[3] << 24;
    row->value = sc_key(at + 4, &row->value_len);
    return row->value + row->value_len;
}

/* Tells what a cache has, and what was done to it. */
static inline int sc_get_stats(sc_cache *cache, sc_stats *stats) { return cache && stats ? (int)shardcache_stats(cache, stats) : SC_NULL; }

/* One guard more on the segments in which the rows of a table stand. While one stands on any, no row is moved, and no call may change
 * or use one: all but sc_peek, sc_get_stats, sc_guard, sc_unguard and sc_take_back answer SC_GUARDED. Guards nest. */
static inline int sc_guard(sc_cache *cache, uint32_t table) {
    return !cache ? SC_NULL : table < SC_TABLES ? (int)shardcache_guard(cache, (uint8_t)table) : SC_BAD_TABLE;
}

/* One guard less. */
static inline int sc_unguard(sc_cache *cache, uint32_t table) {
    return !cache ? SC_NULL : table < SC_TABLES ? (int)shardcache_unguard(cache, (uint8_t)table) : SC_BAD_TABLE;
}

/* Empties segments until two are free, or nothing is left to compact. No row goes. A put does so by itself where it has to; called while
 * there is nothing else to do, it spares puts the time. */
static inline int sc_compact(sc_cache *cache) { return cache ? (int)shardcache_compact(cache) : SC_NULL; }

/* Gives the memory back; the handle is closed afterwards. SC_GUARDED under a guard, and SC_BLOCKS_OUT where a block is out that
 * sc_take_back did not bring home: the cache stays open then.
 *
 * A handle that was open keeps the list over which its blocks come home, some 2 KiB, until the program ends: a block may be released
 * whenever. It is used again where the handle is opened again; so open few handles, and those again. */
static inline int sc_close(sc_cache *cache) { return cache ? (int)shardcache_close(cache) : SC_NULL; }

/* ---- For several threads: blocks that are lent ---- */

#define SC_MOST_HEAD 4384u /* the bytes in front of a value that is lent */
typedef struct sc_lease { uint32_t state; void *at; } sc_lease; /* private */

/* A block of a cache's memory that is lent, with a value behind room for a head: its holder, on whatever thread, reads and writes the
 * `len` bytes at `at`, until it releases it. What is said of a cache's handle holds of it, too. */
typedef struct sc_block {
    sc_lease lease;
    uint8_t *at;   /* null where none is lent */
    size_t len;    /* of the head and the value */
    uint32_t head; /* of the head alone */
    bool found;    /* whether a row had the key; if not, there is no value */
} sc_block;
#define SC_BLOCK_INIT {{0, NULL}, NULL, 0, 0, false}

uint32_t shardcache_block_open(sc_lease *);
uint32_t shardcache_lend(sc_cache *, uint8_t table, const uint8_t *key, size_t, uint32_t head, uint32_t *evicted, size_t, uint64_t *went,
                         sc_lease *, const uint8_t **at, size_t *len, bool *found);
uint32_t shardcache_release(sc_lease *);
uint32_t shardcache_block_close(sc_lease *);
uint32_t shardcache_take_back(sc_cache *, uint32_t *blocks);

/* Private: what ThreadSanitizer is told, which can't look into the library. What was done to a message before it was pushed comes before
 * what is done to it behind its pop; what was done to blocks before they were released, before a cache lends and takes back. Blocks have
 * one mark together, since it is not known before which one a call lends. */
#ifdef __has_feature
#define SC_HAS_(feature) __has_feature(feature)
#else
#define SC_HAS_(feature) 0
#endif
#if defined(__SANITIZE_THREAD__) || SC_HAS_(thread_sanitizer)
void __tsan_acquire(void *);
void __tsan_release(void *);
static inline void sc_hand_on_(void *at) { __tsan_release(at); }
static inline void sc_take_on_(void *at) { __tsan_acquire(at); }
#else
static inline void sc_hand_on_(void *at) { (void)at; }
static inline void sc_take_on_(void *at) { (void)at; }
#endif
static inline void *sc_blocks_(void) { return (void *)(uintptr_t)&shardcache_release; }

/* Opens a block, for which any number of values is lent afterwards, one at a time. This call takes memory; lending takes none. */
static inline int sc_block_open(sc_block *block) { return block ? (int)shardcache_block_open(&block->lease) : SC_NULL; }

/* Lends, for an open block, room for a head of so many bytes, 1 to SC_MOST_HEAD, and behind it the value of a key's row, which is the one
 * used last from now on. What stands in the head is not said. Where there is no room otherwise, rows go as for a put. Where no row has the
 * key the block is lent without a value. SC_OPEN_ALREADY where the last one was not released; SC_NO_TICKET where as many are out as can
 * be: take those back that were released, or copy the value. */
static inline int sc_lend(sc_cache *cache, uint32_t table, const void *key, size_t key_len, uint32_t head, sc_evicted *evicted,
                          sc_block *block) {
    const uint8_t *at = NULL;
    uint64_t unused = 0;
    if (!cache || (!key && key_len) || sc_lacks_tags_(evicted) || !block) return SC_NULL;
    if (table >= SC_TABLES) return SC_BAD_TABLE;
    sc_take_on_(sc_blocks_());
    int code = (int)shardcache_lend(cache, (uint8_t)table, sc_bytes_(key), key_len, head, sc_tags_(evicted), sc_room_(evicted),
                                    evicted ? &evicted->count : &unused, &block->lease, &at, &block->len, &block->found);
    if (code == SC_DONE) block->at = (uint8_t *)(uintptr_t)at, block->head = head;
    return code;
}

/* Gives what was lent back, from any thread. It takes no lock: it tries again where another thread's release came between. */
static inline int sc_release(sc_block *block) {
    int code;
    if (!block) return SC_NULL;
    sc_hand_on_(sc_blocks_());
    do { code = (int)shardcache_release(&block->lease); } while (code == SC_RACED);
    if (code == SC_DONE) block->at = NULL, block->len = 0;
    return code;
}

/* Gives the block's own memory back. SC_BLOCKS_OUT where what was lent was not released: it stays open then. */
static inline int sc_block_close(sc_block *block) { return block ? (int)shardcache_block_close(&block->lease) : SC_NULL; }

/* Takes back each block that was released, and tells `blocks` (or null) how many. Several threads come to an end in two steps: all release
 * what they hold, and behind a barrier each takes its own back and closes its cache. */
static inline int sc_take_back(sc_cache *cache, uint32_t *blocks) {
    uint32_t unused = 0;
    sc_take_on_(sc_blocks_());
    return cache ? (int)shardcache_take_back(cache, blocks ? blocks : &unused) : SC_NULL;
}

/* ---- For several threads: queues of messages ---- */

typedef struct sc_queue { uint32_t state; void *at; } sc_queue; /* private */
#define SC_QUEUE_INIT {0, NULL}

uint32_t shardcache_queue_open(sc_queue *, uint32_t places);
uint32_t shardcache_queue_share(sc_queue *, sc_queue *other);
uint32_t shardcache_queue_push(sc_queue *, uint64_t message);
uint32_t shardcache_queue_try_pop(sc_queue *, uint64_t *message);
uint32_t shardcache_queue_close(sc_queue *);

/* A bounded queue of messages, which any number of threads push to and pop from, without a lock. A message is a pointer, or any number
 * of 64 bits. Messages of one thread come out in the order in which it pushed them. Each thread has a handle of its own: the queue goes
 * with the last of them, and what is left in it is forgotten. A handle may go to another thread, by a thread's start or end, as long as
 * one thread at a time uses it. `places` is 1 or more. Opening and sharing take memory, pushing and popping none. */
static inline int sc_queue_open(sc_queue *queue, uint32_t places) { return queue ? (int)shardcache_queue_open(queue, places) : SC_NULL; }

/* Makes `other`, which is closed, another handle of the same queue, for another thread. */
static inline int sc_queue_share(sc_queue *queue, sc_queue *other) {
    return queue && other ? (int)shardcache_queue_share(queue, other) : SC_NULL;
}

/* Pushes a message, or answers SC_FULL. */
static inline int sc_queue_push(sc_queue *queue, void *message) {
    int code;
    if (!queue) return SC_NULL;
    sc_hand_on_(message);
    do { code = (int)shardcache_queue_push(queue, (uint64_t)(uintptr_t)message); } while (code == SC_RACED);
    return code;
}

/* Pops the message that was pushed first, or answers SC_EMPTY. */
static inline int sc_queue_try_pop(sc_queue *queue, void **message) {
    int code;
    uint64_t found = 0;
    if (!queue || !message) return SC_NULL;
    do { code = (int)shardcache_queue_try_pop(queue, &found); } while (code == SC_RACED);
    if (code != SC_DONE) return code;
    *message = (void *)(uintptr_t)found;
    sc_take_on_(*message);
    return SC_DONE;
}

/* Closes this handle. */
static inline int sc_queue_close(sc_queue *queue) { return queue ? (int)shardcache_queue_close(queue) : SC_NULL; }

#ifdef __cplusplus
}
#endif
#endif
