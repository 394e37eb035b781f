/* Lets the allocation of the number FAIL fail, counted from 1, of a program that this is loaded into. */
#define _GNU_SOURCE
#include <dlfcn.h>
#include <errno.h>
#include <stdlib.h>

typedef void *(*allocator)(size_t);
typedef void *(*reallocator)(void *, size_t);
typedef int (*aligned_allocator)(void **, size_t, size_t);

static long number, count;

__attribute__((constructor)) static void begin(void) {
    const char *text = getenv("FAIL");
    number = text ? atol(text) : 0;
}

static int fails(void) {
    return number && __sync_add_and_fetch(&count, 1) == number;
}

void *malloc(size_t size) {
    static allocator next;
    if (!next) next = (allocator)dlsym(RTLD_NEXT, "malloc");
    if (!fails()) return next(size);
    errno = ENOMEM;
    return 0;
}

void *realloc(void *old, size_t size) {
    static reallocator next;
    if (!next) next = (reallocator)dlsym(RTLD_NEXT, "realloc");
    if (!fails()) return next(old, size);
    errno = ENOMEM;
    return 0;
}

int posix_memalign(void **out, size_t alignment, size_t size) {
    static aligned_allocator next;
    if (!next) next = (aligned_allocator)dlsym(RTLD_NEXT, "posix_memalign");
    return fails() ? ENOMEM : next(out, alignment, size);
}
