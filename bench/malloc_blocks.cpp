// Passes blocks of 64 bytes from one thread to another over a ring of 32, by the process's malloc and free: one thread
// allocates, the other frees. Each writes a block's first and last byte or reads them, as crates/timed does.
//   malloc_blocks BLOCKS
#include <atomic>
#include <cstdint>
#include <cstdio>
#include <cstdlib>
#include <thread>

static const size_t room = 32, size = 64;

// One producer and one consumer, each with its own view of the other's end.
struct Ring {
    unsigned char *slots[room];
    alignas(64) std::atomic<size_t> head{0};
    alignas(64) std::atomic<size_t> tail{0};
    alignas(64) size_t head_seen = 0;
    alignas(64) size_t tail_seen = 0;
    bool push(unsigned char *block) {
        size_t at = tail.load(std::memory_order_relaxed);
        if (at - head_seen == room) {
            head_seen = head.load(std::memory_order_acquire);
            if (at - head_seen == room) return false;
        }
        slots[at % room] = block;
        tail.store(at + 1, std::memory_order_release);
        return true;
    }
    bool pop(unsigned char *&block) {
        size_t at = head.load(std::memory_order_relaxed);
        if (at == tail_seen) {
            tail_seen = tail.load(std::memory_order_acquire);
            if (at == tail_seen) return false;
        }
        block = slots[at % room];
        head.store(at + 1, std::memory_order_release);
        return true;
    }
};

static void pause_a_little(unsigned &idle) {
    if (++idle % 256 == 0) std::this_thread::yield();
}

int main(int argc, char **argv) {
    size_t blocks = argc > 1 ? strtoull(argv[1], nullptr, 10) : 0, right = 0;
    Ring ring;
    std::thread freeing([&] {
        unsigned idle = 0;
        for (size_t done = 0; done < blocks;) {
            unsigned char *block;
            if (!ring.pop(block)) {
                pause_a_little(idle);
                continue;
            }
            right += block[0] == 7 && block[size - 1] == 7;
            asm volatile("" : : "r"(block) : "memory");
            free(block);
            done++;
        }
    });
    unsigned idle = 0;
    for (size_t i = 0; i < blocks; i++) {
        unsigned char *block = static_cast<unsigned char *>(malloc(size));
        if (!block) abort();
        block[0] = 7;
        block[size - 1] = 7;
        while (!ring.push(block)) pause_a_little(idle);
    }
    freeing.join();
    printf("blocks %zu right %zu\n", blocks, right);
}
