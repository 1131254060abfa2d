/* Refuses the request for memory with the number REFUSE, counted from 1, and says so by a byte to the descriptor TOLD. */
#define _GNU_SOURCE
#include <dlfcn.h>
#include <errno.h>
#include <stdlib.h>
#include <unistd.h>

static unsigned long asked;

static int is_refused(void) {
    static long at = -1, told = -1;
    if (at < 0) {
        const char *number = getenv("REFUSE"), *descriptor = getenv("TOLD");
        at = number ? atol(number) : 0;
        told = descriptor ? atol(descriptor) : 2;
    }
    if (++asked != (unsigned long)at)
        return 0;
    ssize_t done = write((int)told, "x", 1);
    (void)done;
    errno = ENOMEM;
    return 1;
}

void *malloc(size_t size) {
    static void *(*next)(size_t);
    if (!next)
        next = (void *(*)(size_t))dlsym(RTLD_NEXT, "malloc");
    return is_refused() ? NULL : next(size);
}

void *realloc(void *from, size_t size) {
    static void *(*next)(void *, size_t);
    if (!next)
        next = (void *(*)(void *, size_t))dlsym(RTLD_NEXT, "realloc");
    return is_refused() ? NULL : next(from, size);
}
