/* A library to preload: refuses the allocation whose number REFUSE_ALLOCATION gives, counted from 1, and no other, and writes a
   byte to descriptor 3 when it does. */
#define _GNU_SOURCE
#include <dlfcn.h>
#include <errno.h>
#include <stdlib.h>
#include <unistd.h>

static unsigned long made;

static int refused(void) {
    static unsigned long at;
    if (at == 0) {
        const char *text = getenv("REFUSE_ALLOCATION");
        at = text ? strtoul(text, NULL, 10) : (unsigned long)-1;
    }
    if (__atomic_add_fetch(&made, 1, __ATOMIC_RELAXED) != at) return 0;
    (void)!write(3, "x", 1);
    return 1;
}

void *malloc(size_t size) {
    static void *(*next)(size_t);
    if (!next) next = (void *(*)(size_t))dlsym(RTLD_NEXT, "malloc");
    if (refused()) { errno = ENOMEM; return NULL; }
    return next(size);
}

void *realloc(void *old, size_t size) {
    static void *(*next)(void *, size_t);
    if (!next) next = (void *(*)(void *, size_t))dlsym(RTLD_NEXT, "realloc");
    if (refused()) { errno = ENOMEM; return NULL; }
    return next(old, size);
}

void *aligned_alloc(size_t alignment, size_t size) {
    static void *(*next)(size_t, size_t);
    if (!next) next = (void *(*)(size_t, size_t))dlsym(RTLD_NEXT, "aligned_alloc");
    if (refused()) { errno = ENOMEM; return NULL; }
    return next(alignment, size);
}

int posix_memalign(void **at, size_t alignment, size_t size) {
    static int (*next)(void **, size_t, size_t);
    if (!next) next = (int (*)(void **, size_t, size_t))dlsym(RTLD_NEXT, "posix_memalign");
    if (refused()) return ENOMEM;
    return next(at, alignment, size);
}
