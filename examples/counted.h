/* Counts what a program takes of memory, and refuses one allocation. One file of a program has it, which is linked with
 * -Wl,--wrap=malloc,--wrap=calloc,--wrap=realloc,--wrap=aligned_alloc,--wrap=free. */
#ifndef COUNTED_H
#define COUNTED_H

#include <stdint.h>
#include <stdlib.h>

void *__real_malloc(size_t);
void *__real_calloc(size_t, size_t);
void *__real_realloc(void *, size_t);
void *__real_aligned_alloc(size_t, size_t);
void __real_free(void *);

static long asked, refused = -1, taken; /* how many allocations there were, which one is refused, and how many blocks there are */

static void *counted(void *block) {
    if (block) taken++;
    return block;
}

void *__wrap_malloc(size_t size) { return ++asked == refused ? NULL : counted(__real_malloc(size)); }
void *__wrap_calloc(size_t count, size_t size) { return ++asked == refused ? NULL : counted(__real_calloc(count, size)); }
void *__wrap_aligned_alloc(size_t to, size_t size) { return ++asked == refused ? NULL : counted(__real_aligned_alloc(to, size)); }
void *__wrap_realloc(void *block, size_t size) {
    if (++asked == refused) return NULL;
    return block ? __real_realloc(block, size) : counted(__real_realloc(block, size));
}
void __wrap_free(void *block) {
    if (block) taken--;
    __real_free(block);
}

/* The next of some numbers that look as if drawn at random. */
static uint64_t drawn(void) {
    static uint64_t number = 88172645463325252u;
    number ^= number << 13;
    number ^= number >> 7;
    number ^= number << 17;
    return number;
}

#endif
