/* Put before the C library (LD_PRELOAD), it refuses requests for memory: the one whose number, from 1, REFUSE gives;
   that one and all after it where REFUSE_FROM gives it; and each that would have more bytes held than HEAP gives. */
#define _GNU_SOURCE
#include <dlfcn.h>
#include <errno.h>
#include <malloc.h>
#include <stdlib.h>

static long requests = 0;
static size_t held = 0;

/* The number in the environment, or 0. */
static long bound(const char *name) {
    const char *number = getenv(name);
    return number ? atol(number) : 0;
}

/* Whether a request is refused that would hold so many bytes in the place of so many. */
static int is_refused(size_t size, size_t old) {
    long one = bound("REFUSE"), from = bound("REFUSE_FROM"), heap = bound("HEAP");
    requests += 1;
    if (requests == one || (from > 0 && requests >= from) || (heap > 0 && held - old + size > (size_t)heap)) {
        errno = ENOMEM;
        return 1;
    }
    return 0;
}

void *malloc(size_t size) {
    static void *(*real)(size_t);
    if (!real) real = dlsym(RTLD_NEXT, "malloc");
    if (is_refused(size, 0)) return NULL;
    void *given = real(size);
    held += malloc_usable_size(given);
    return given;
}

void *realloc(void *old, size_t size) {
    static void *(*real)(void *, size_t);
    if (!real) real = dlsym(RTLD_NEXT, "realloc");
    size_t before = malloc_usable_size(old);
    if (is_refused(size, before)) return NULL;
    void *given = real(old, size);
    if (given) held = held - before + malloc_usable_size(given);
    return given;
}

void free(void *old) {
    static void (*real)(void *);
    if (!real) real = dlsym(RTLD_NEXT, "free");
    held -= malloc_usable_size(old);
    real(old);
}
