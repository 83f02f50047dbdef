// Refuses one request for memory of the program that it is preloaded into: the one whose number, from 1, ALLOCS_REFUSED
// names; where ALLOCS_LASTING is set, all that follow too. Threads are counted with the blocks, since a thread is memory
// for its stack. Where it refuses, it writes a byte to the file descriptor that ALLOCS_TOLD names: `m` for a block, `t`
// for a thread or a block that the C library wants for one.
// Build: gcc -shared -fPIC -O2 -o allocs.so tests/allocs.c
#define _GNU_SOURCE
#include <dlfcn.h>
#include <errno.h>
#include <pthread.h>
#include <stdatomic.h>
#include <stdlib.h>
#include <unistd.h>

// The C library's own names, which call nothing that is counted here.
extern void *__libc_malloc(size_t size);
extern void *__libc_calloc(size_t count, size_t size);
extern void *__libc_realloc(void *block, size_t size);
extern void *__libc_memalign(size_t alignment, size_t size);

typedef int create(pthread_t *, const pthread_attr_t *, void *(*)(void *), void *);

static create *create_thread;
static long refused;
static int lasting;
static int told = -1;
static atomic_long requests;
static _Thread_local int creates;

__attribute__((constructor)) static void start(void) {
    const char *number = getenv("ALLOCS_REFUSED"), *to = getenv("ALLOCS_TOLD");
    create_thread = (create *)dlsym(RTLD_NEXT, "pthread_create");
    told = to ? atoi(to) : -1;
    lasting = getenv("ALLOCS_LASTING") != NULL;
    refused = number ? atol(number) : 0;
}

// Counts a request, and says whether it is to be refused.
static int is_refused(void) {
    if (!refused) return 0;
    long number = atomic_fetch_add(&requests, 1) + 1;
    if (number < refused || (number > refused && !lasting)) return 0;
    if (write(told, creates ? "t" : "m", 1) != 1) _exit(99);
    return 1;
}

static void *none(void) {
    errno = ENOMEM;
    return NULL;
}

void *malloc(size_t size) {
    return is_refused() ? none() : __libc_malloc(size);
}

void *calloc(size_t count, size_t size) {
    return is_refused() ? none() : __libc_calloc(count, size);
}

void *realloc(void *block, size_t size) {
    return is_refused() ? none() : __libc_realloc(block, size);
}

void *aligned_alloc(size_t alignment, size_t size) {
    return is_refused() ? none() : __libc_memalign(alignment, size);
}

int posix_memalign(void **block, size_t alignment, size_t size) {
    if (is_refused() || !(*block = __libc_memalign(alignment, size))) return ENOMEM;
    return 0;
}

int pthread_create(pthread_t *thread, const pthread_attr_t *attributes, void *(*run)(void *), void *argument) {
    creates = 1;
    int error = is_refused() ? EAGAIN : create_thread(thread, attributes, run, argument);
    creates = 0;
    return error;
}
