/* A library to be loaded before others: it refuses the allocation of the number REFUSED, and if a + follows the number also
   all later ones; and it writes how many there were into the file COUNTED. */
#define _GNU_SOURCE
#include <dlfcn.h>
#include <errno.h>
#include <string.h>
#include "count.h"

static int is_refused(void) {
    const char *asked = getenv("REFUSED");
    long now = __sync_add_and_fetch(&seen, 1), number = asked ? atol(asked) : 0;
    return number > 0 && (now == number || (now > number && strchr(asked, '+')));
}

void *malloc(size_t size) {
    static void *(*next)(size_t);
    if (!next) next = dlsym(RTLD_NEXT, "malloc");
    if (is_refused()) { errno = ENOMEM; return NULL; }
    return next(size);
}

void *realloc(void *old, size_t size) {
    static void *(*next)(void *, size_t);
    if (!next) next = dlsym(RTLD_NEXT, "realloc");
    if (is_refused()) { errno = ENOMEM; return NULL; }
    return next(old, size);
}
