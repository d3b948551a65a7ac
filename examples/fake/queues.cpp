// A FAKE of the library: what it exports of queues.
#include "shardcache.h"

#include <atomic>
#include <cstdlib>
#include <new>

namespace fake {
namespace {

constexpr uint32_t is_open = 1;

// A bounded queue for many threads, with a turn at each place.
struct Place {
    std::atomic<uint64_t> turn;
    uint64_t message;
};

struct Queue {
    std::atomic<uint32_t> handles{1};
    uint64_t places;
    alignas(64) std::atomic<uint64_t> pushed{0};
    alignas(64) std::atomic<uint64_t> popped{0};
    alignas(64) Place at[];
};

Queue &queue_of(const sc_queue *handle) { return *static_cast<Queue *>(handle->at); }

// Takes the place of the next turn of `count`, which is free once its turn is `ahead` further. Null where it isn't yet.
Place *take_place(Queue &queue, std::atomic<uint64_t> &count, uint64_t ahead, uint64_t &turn) {
    turn = count.load(std::memory_order_relaxed);
    for (;;) {
        Place &place = queue.at[turn % queue.places];
        auto behind = int64_t(place.turn.load(std::memory_order_acquire) - (turn + ahead));
        if (behind < 0) return nullptr;
        if (behind > 0)
            turn = count.load(std::memory_order_relaxed);
        else if (count.compare_exchange_weak(turn, turn + 1, std::memory_order_relaxed))
            return &place;
    }
}

}  // namespace
}  // namespace fake

using namespace fake;

extern "C" {

uint32_t shardcache_queue_open(sc_queue *handle, uint32_t places) {
    if (places == 0) return SC_BAD_SIZE;
    if (handle->state == is_open) return SC_OPEN_ALREADY;
    if (places == 1) places = 2;  // with one place a free turn and a taken one are the same
    size_t bytes = sizeof(Queue) + sizeof(Place) * places;
    void *at = aligned_alloc(64, (bytes + 63) / 64 * 64);
    if (!at) return SC_NO_MEMORY;
    auto *queue = new (at) Queue{};
    queue->places = places;
    for (uint64_t i = 0; i < places; i++) new (&queue->at[i]) Place{i, 0};
    handle->at = queue;
    handle->state = is_open;
    return SC_DONE;
}

uint32_t shardcache_queue_share(sc_queue *handle, sc_queue *other) {
    if (handle->state != is_open) return SC_CLOSED;
    if (other->state == is_open) return SC_OPEN_ALREADY;
    queue_of(handle).handles++;
    *other = *handle;
    return SC_DONE;
}

uint32_t shardcache_queue_push(sc_queue *handle, uint64_t message) {
    if (handle->state != is_open) return SC_CLOSED;
    Queue &queue = queue_of(handle);
    uint64_t turn;
    Place *place = take_place(queue, queue.pushed, 0, turn);
    if (!place) return SC_FULL;
    place->message = message;
    place->turn.store(turn + 1, std::memory_order_release);
    return SC_DONE;
}

uint32_t shardcache_queue_try_pop(sc_queue *handle, uint64_t *message) {
    if (handle->state != is_open) return SC_CLOSED;
    Queue &queue = queue_of(handle);
    uint64_t turn;
    Place *place = take_place(queue, queue.popped, 1, turn);
    if (!place) return SC_EMPTY;
    *message = place->message;
    place->turn.store(turn + queue.places, std::memory_order_release);
    return SC_DONE;
}

uint32_t shardcache_queue_close(sc_queue *handle) {
    if (handle->state != is_open) return SC_CLOSED;
    if (--queue_of(handle).handles == 0) free(handle->at);
    *handle = SC_QUEUE_INIT;
    return SC_DONE;
}

}  // extern "C"
