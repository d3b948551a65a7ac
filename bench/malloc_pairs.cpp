// The sequence of the part `pools` of crates/timed over whatever malloc the process has (LD_PRELOAD names another).
//   malloc_pairs ROUNDS [OBJECTS REPLACEMENTS]
#include <cstdint>
#include <cstdio>
#include <cstdlib>
#include <vector>

static const uint32_t sizes[37] = {
    32, 40, 48, 56, 64, 80, 96, 112, 128, 160, 192, 224, 256, 320, 384, 448, 512, 640, 768, 896, 1024, 1280, 1536,
    1792, 2048, 2560, 3072, 3584, 4096, 5120, 6144, 7168, 8192, 10240, 12288, 14336, 16384};

static uint64_t number = 1, sum = 0;

static uint32_t draw(uint32_t classes) {
    uint32_t drawn = uint32_t((number >> 33) % classes);
    number = number * 6364136223846793005u + 1442695040888963407u;
    sum += drawn;
    return sizes[drawn];
}

static void *take(uint32_t size) {
    void *block = malloc(size);
    if (!block) abort();
    asm volatile("" : : "r"(block) : "memory");
    return block;
}

static void nest(uint32_t depth) {
    if (depth == 0) return;
    void *block = take(draw(37));
    nest(depth - 1);
    free(block);
}

int main(int words, char **word) {
    auto number_of = [&](int i) { return words > i ? strtoull(word[i], nullptr, 10) : 0; };
    uint64_t rounds = number_of(1), objects = number_of(2), replacements = number_of(3);
    std::vector<void *> live;
    live.reserve(objects);
    for (uint64_t round = 0; round < rounds; round++) nest(32);
    for (uint64_t i = 0; i < objects; i++) live.push_back(take(draw(21)));
    for (uint64_t i = 0; i < replacements && objects; i++) {
        uint32_t size = draw(21);
        uint64_t index = (number >> 20) % objects;
        void *block = take(size);
        free(live[index]);
        live[index] = block;
    }
    printf("pairs %llu replacements %llu classes %llu\n", (unsigned long long)(rounds * 32), (unsigned long long)replacements, (unsigned long long)sum);
}
