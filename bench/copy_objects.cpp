// Copies the objects that stay in the part `compaction` of crates/timed by memcpy, from a list of their places into other memory.
//   copy_objects SEGMENTS BYTES KEPT COPY        COPY is 1 where they are copied
#include <cstdint>
#include <cstdio>
#include <cstdlib>
#include <cstring>
#include <vector>

int main(int words, char **word) {
    auto number_of = [&](int i) { return words > i ? strtoull(word[i], nullptr, 10) : 0; };
    const uint64_t segment = 131072;
    uint64_t segments = number_of(1), size = (8 + 32 + 8 + number_of(2) + 7) / 8 * 8, kept = number_of(3);
    if (segments < 3) return 1;
    uint64_t in_segment = segment / size, rows = (segments - 2) * in_segment, wanted = rows - rows * kept / 100;
    char *from = static_cast<char *>(malloc(segments * segment)), *to = static_cast<char *>(malloc(segments * segment));
    if (!from || !to) abort();
    memset(from, 7, segments * segment);
    memset(to, 1, segments * segment);  // not 0, so that each page is there before the copies
    std::vector<const char *> places;
    uint64_t number = 1;
    for (uint64_t row = 0; row < rows; row++) {
        number = number * 6364136223846793005u + 1442695040888963407u;
        if ((number >> 33) % (rows - row) < wanted)
            wanted--;
        else
            places.push_back(from + row / in_segment * segment + row % in_segment * size);
    }
    uint64_t copied = 0;
    if (number_of(4) == 1)
        for (const char *place : places) {
            memcpy(to + copied * size, place, size);
            copied++;
        }
    asm volatile("" : : "r"(to) : "memory");
    printf("put %llu stayed %llu moved %llu\n", (unsigned long long)rows, (unsigned long long)places.size(), (unsigned long long)copied);
}
