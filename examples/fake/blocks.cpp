// A FAKE of the library: what it exports of blocks that are lent and come home.
#include "rows.hpp"

#include <cstdlib>
#include <cstring>
#include <new>

namespace fake {
namespace {

// What a block's handle keeps: the ticket that is out for it, or null.
struct Lease {
    Ticket *out;
};

Lease &lease_of(const sc_lease *block) { return *static_cast<Lease *>(block->at); }

uint32_t take_back(Cache &cache) {
    uint32_t count = 0;
    if (!cache.blocks_out || !cache.released.load(std::memory_order_relaxed)) return 0;
    for (Ticket *ticket = cache.released.exchange(nullptr, std::memory_order_acquire); ticket; count++) {
        Ticket *next = ticket->next;
        ticket->next = cache.idle;
        cache.idle = ticket;
        ticket = next;
    }
    cache.blocks_out -= count;
    return count;
}

}  // namespace
}  // namespace fake

using namespace fake;

extern "C" {

uint32_t shardcache_block_open(sc_lease *block) {
    if (block->state == is_open) return SC_OPEN_ALREADY;
    void *at = malloc(sizeof(Lease));
    if (!at) return SC_NO_MEMORY;
    *block = {is_open, new (at) Lease{nullptr}};
    return SC_DONE;
}

uint32_t shardcache_lend(sc_cache *handle, uint8_t table, const uint8_t *key, size_t key_len, uint32_t head, uint32_t *, size_t,
                         uint64_t *went, sc_lease *block, const uint8_t **at, size_t *len, bool *found) {
    if (block->state != is_open || handle->state != is_open) return SC_CLOSED;
    if (table >= SC_TABLES) return SC_BAD_TABLE;
    if (head == 0 || head > SC_MOST_HEAD) return SC_BAD_SIZE;
    if (lease_of(block).out) return SC_OPEN_ALREADY;
    Cache &cache = cache_of(handle);
    if (cache.is_guarded()) return SC_GUARDED;
    if (!cache.idle) take_back(cache);
    if (!cache.idle) return SC_NO_TICKET;
    Ticket *ticket = lease_of(block).out = cache.idle;
    cache.idle = ticket->next;
    cache.blocks_out++;
    auto row = cache.rows.find(std::string_view(key_of(table, key, key_len)));
    *found = row != cache.rows.end();
    *at = ticket->bytes;
    *len = head + (*found ? row->second.value.size() : 0);
    *went = 0;
    if (!*found) return SC_DONE;
    memcpy(ticket->bytes + head, row->second.value.data(), row->second.value.size());
    cache.use(row);
    return SC_DONE;
}

uint32_t shardcache_release(sc_lease *block) {
    if (block->state != is_open || !lease_of(block).out) return SC_CLOSED;
    Ticket *ticket = lease_of(block).out;
    std::atomic<Ticket *> &released = ticket->owner->released;
    Ticket *head = released.load(std::memory_order_relaxed);
    ticket->next = head;
    if (!released.compare_exchange_strong(head, ticket, std::memory_order_release, std::memory_order_relaxed)) return SC_RACED;
    lease_of(block).out = nullptr;
    return SC_DONE;
}

uint32_t shardcache_block_close(sc_lease *block) {
    if (block->state != is_open) return SC_CLOSED;
    if (lease_of(block).out) return SC_BLOCKS_OUT;
    free(block->at);
    *block = {0, nullptr};
    return SC_DONE;
}

uint32_t shardcache_take_back(sc_cache *handle, uint32_t *blocks) {
    if (handle->state != is_open) return SC_CLOSED;
    *blocks = take_back(cache_of(handle));
    return SC_DONE;
}

}  // extern "C"
