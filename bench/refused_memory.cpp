// Loaded before a program by LD_PRELOAD: refuses the allocation with the number of the variable REFUSED, from 1 on, and at the
// end writes into the file of the variable COUNTED how many were asked for, and how many bytes were not freed. What the system
// allocates as it starts a thread is neither refused nor counted: it is kept with the thread's stack for the next one.
#include <atomic>
#include <cerrno>
#include <cstdio>
#include <cstdlib>
#include <dlfcn.h>
#include <malloc.h>
#include <pthread.h>
#include <sys/syscall.h>
#include <unistd.h>

extern "C" {
void *__libc_malloc(size_t);
void *__libc_calloc(size_t, size_t);
void *__libc_realloc(void *, size_t);
void __libc_free(void *);
}

static std::atomic<bool> counting;
static long refused;
static std::atomic<long> asked, bytes_out;
// In the block that each thread begins with: otherwise its first use would allocate.
static thread_local bool starting __attribute__((tls_model("initial-exec")));

static bool refuses()
{
    if (!counting || starting || ++asked != refused)
        return false;
    errno = ENOMEM;
    return true;
}

static void *counted(void *block)
{
    if (counting && block && !starting)
        bytes_out += (long)malloc_usable_size(block);
    return block;
}

static void uncounted(void *block)
{
    if (counting && block)
        bytes_out -= (long)malloc_usable_size(block);
}

extern "C" void *malloc(size_t size) { return refuses() ? nullptr : counted(__libc_malloc(size)); }

extern "C" void *calloc(size_t count, size_t size) { return refuses() ? nullptr : counted(__libc_calloc(count, size)); }

extern "C" void *realloc(void *block, size_t size)
{
    if (refuses())
        return nullptr;
    uncounted(block);
    void *moved = __libc_realloc(block, size);
    counted(moved ? moved : block);
    return moved;
}

extern "C" void free(void *block)
{
    uncounted(block);
    __libc_free(block);
}

using Create = int (*)(pthread_t *, const pthread_attr_t *, void *(*)(void *), void *);
static Create create;

extern "C" int pthread_create(pthread_t *thread, const pthread_attr_t *how, void *(*body)(void *), void *given)
{
    starting = true;
    int answer = create(thread, how, body, given);
    starting = false;
    return answer;
}

__attribute__((constructor)) static void begin()
{
    create = (Create)dlsym(RTLD_NEXT, "pthread_create");
    const char *number = getenv("REFUSED");
    refused = number ? atol(number) : 0;
    counting = true;
}

__attribute__((destructor)) static void end()
{
    counting = false;
    if (FILE *file = fopen(getenv("COUNTED"), "w")) {
        fprintf(file, "%ld %ld\n", asked.load(), bytes_out.load());
        fclose(file);
    }
}

// A program that has threads ends by this call, which runs no destructor.
extern "C" void _exit(int status)
{
    end();
    syscall(SYS_exit_group, status);
    __builtin_unreachable();
}
