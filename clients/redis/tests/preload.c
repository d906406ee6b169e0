/* What a server needs beside the address sanitizer, which takes the place of malloc: it doesn't know the functions of jemalloc that servers call
 * beside malloc, and it refuses the way in which Valkey loads modules. It is preloaded ahead of the sanitizer. */
#define _GNU_SOURCE
#include <dlfcn.h>
#include <stdlib.h>

void *mallocx(size_t size, int flags) {
    (void)flags;
    return malloc(size);
}

void *rallocx(void *at, size_t size, int flags) {
    (void)flags;
    return realloc(at, size);
}

void dallocx(void *at, int flags) {
    (void)flags;
    free(at);
}

void sdallocx(void *at, size_t size, int flags) {
    (void)size, (void)flags;
    free(at);
}

size_t nallocx(size_t size, int flags) {
    (void)flags;
    return size;
}

void *dlopen(const char *name, int flags) {
    void *(*next)(const char *, int) = (void *(*)(const char *, int))dlsym(RTLD_NEXT, "dlopen");
    return next(name, flags & ~RTLD_DEEPBIND);
}
