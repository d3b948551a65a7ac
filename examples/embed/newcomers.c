/* How long a scan may wait for the rows that were put since the last one: 300,000 puts of new keys, of 16 to 32 bytes drawn at random, with
 * a scan behind every thousandth, and once more with one behind every hundred thousandth. Fails where a put or a scan takes longer than
 * two milliseconds. The same where no row is brought into the order before a scan asks for it: then a scan may take as long as it does.
 *
 * The table in which keys are looked up is written whole at the opening, so no put doubles it; how long that takes is told. Times are the
 * processor's for this thread, each the least of three runs: so they are no other program's. */
#define _POSIX_C_SOURCE 199309L
#include "expect.h"
#include "shardcache.h"

#include <stdbool.h>
#include <stdio.h>
#include <time.h>

#define PUTS 300000u
#define MOST_MICROSECONDS 2000.0

static uint64_t drawn(void) {
    static uint64_t number = 88172645463325252u;
    number ^= number << 13;
    number ^= number >> 7;
    number ^= number << 17;
    return number;
}

static double now(void) {
    struct timespec at;
    clock_gettime(CLOCK_THREAD_CPUTIME_ID, &at);
    return (double)at.tv_sec * 1e6 + (double)at.tv_nsec / 1e3;
}

static double most(double a, double b) { return a < b ? b : a; }
static double least(double a, double b) { return a < b ? a : b; }

/* The microseconds of the opening, of the longest put, of the longest scan, and of one put with the drawing of its key. */
struct times { double opening, put, scan, each; };

/* Each put is timed, or all of them together. */
static int run(uint32_t waiting, uint32_t puts_a_scan, bool is_each, struct times *times) {
    static uint8_t keys[SC_MOST_KEYS * SC_KEY_ROOM];
    sc_cache c = SC_CACHE_INIT;
    sc_opening with = {.pages = 16384, .rows = PUTS, .waiting = waiting, .wide = true};
    struct times took = {0, 0, 0, 0};
    double scans = 0, start = now();
    EXPECT(sc_open(&c, &with) == SC_DONE);
    took.opening = now() - start;
    start = now();
    for (uint32_t i = 1; i <= PUTS; i++) {
        uint64_t key[4] = {drawn(), drawn(), drawn(), drawn()};
        sc_scanned did;
        double began = is_each ? now() : 0;
        EXPECT(sc_put(&c, 0, key, 16 + key[0] % 17, key, 8, i, NULL, NULL) == SC_DONE);
        if (is_each) took.put = most(took.put, now() - began);
        if (i % puts_a_scan) continue;
        began = now();
        EXPECT(sc_scan(&c, 0, key, 16, SC_MOST_KEYS, keys, sizeof keys, &did) == SC_DONE);
        double scan = now() - began;
        took.scan = most(took.scan, scan);
        scans += scan;
    }
    took.each = (now() - start - scans) / PUTS;
    EXPECT(sc_close(&c) == SC_DONE);
    times->opening = least(times->opening, took.opening);
    times->scan = least(times->scan, took.scan);
    if (is_each) times->put = least(times->put, took.put);
    else times->each = least(times->each, took.each);
    return 0;
}

static int tell(uint32_t waiting, uint32_t puts_a_scan, double longest_scan) {
    struct times times = {1e9, 1e9, 1e9, 1e9};
    for (int i = 0; i < 6; i++) TRY(run(waiting, puts_a_scan, i % 2, &times));
    printf("%10u may wait, a scan behind every %6uth put: the longest scan %6.0f us, put %5.0f us; a put %.0f ns; the opening %6.0f us\n",
           waiting ? waiting : SC_WAITING, puts_a_scan, times.scan, times.put, times.each * 1e3, times.opening);
    fflush(stdout);
    EXPECT(times.put <= MOST_MICROSECONDS && times.scan <= longest_scan);
    return 0;
}

int main(void) {
    TRY(tell(UINT32_MAX, 1000, 1e9));
    TRY(tell(UINT32_MAX, 100000, 1e9));
    TRY(tell(0, 1000, MOST_MICROSECONDS));
    TRY(tell(0, 100000, MOST_MICROSECONDS));
    puts("newcomers: no put, and no scan where few rows may wait, took longer than two milliseconds");
    return 0;
}
