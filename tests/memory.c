/* A library to be loaded before others: the most bytes that were allocated at once are written into the file COUNTED at the
   end. If REGION is a number above 0, what would be more than so many bytes at once is refused. */
#define _GNU_SOURCE
#include <dlfcn.h>
#include <errno.h>
#include <malloc.h>
#include "../tools/count.h"

static long held = 0;

static int is_too_much(long more) {
    const char *region = getenv("REGION");
    long most = region ? atol(region) : 0;
    return most > 0 && held + more > most;
}

static void *taken(void *block) {
    if (block) {
        long now = __sync_add_and_fetch(&held, (long)malloc_usable_size(block));
        if (now > seen) seen = now;
    }
    return block;
}

static void given(void *block) {
    if (block) __sync_sub_and_fetch(&held, (long)malloc_usable_size(block));
}

void *malloc(size_t size) {
    static void *(*next)(size_t);
    if (!next) next = dlsym(RTLD_NEXT, "malloc");
    if (is_too_much((long)size)) { errno = ENOMEM; return NULL; }
    return taken(next(size));
}

void *realloc(void *old, size_t size) {
    static void *(*next)(void *, size_t);
    if (!next) next = dlsym(RTLD_NEXT, "realloc");
    long before = old ? (long)malloc_usable_size(old) : 0;
    if (is_too_much((long)size - before)) { errno = ENOMEM; return NULL; }
    void *block = next(old, size);
    if (block) {
        /* The old block and the new one may both have been there for a while. */
        taken(block);
        __sync_sub_and_fetch(&held, before);
    }
    return block;
}

void free(void *block) {
    static void (*next)(void *);
    if (!next) next = dlsym(RTLD_NEXT, "free");
    given(block);
    next(block);
}
