// Refuses one allocation of the program that it is loaded into: the one with the number REFUSE, counted from 1.
// It tells that it did so by a byte to the file with the number 9.
#define _GNU_SOURCE
#include <dlfcn.h>
#include <errno.h>
#include <stdlib.h>
#include <unistd.h>

static long count;

static int is_refused(void) {
    const char *number = getenv("REFUSE");
    if (number == NULL || ++count != atol(number)) return 0;
    if (write(9, "r", 1) != 1) abort();
    errno = ENOMEM;
    return 1;
}

void *malloc(size_t size) {
    static void *(*next)(size_t);
    if (next == NULL) *(void **)&next = dlsym(RTLD_NEXT, "malloc");
    return is_refused() ? NULL : next(size);
}

void *calloc(size_t many, size_t size) {
    static void *(*next)(size_t, size_t);
    if (next == NULL) *(void **)&next = dlsym(RTLD_NEXT, "calloc");
    return is_refused() ? NULL : next(many, size);
}

void *realloc(void *old, size_t size) {
    static void *(*next)(void *, size_t);
    if (next == NULL) *(void **)&next = dlsym(RTLD_NEXT, "realloc");
    return is_refused() ? NULL : next(old, size);
}

int posix_memalign(void **place, size_t line, size_t size) {
    static int (*next)(void **, size_t, size_t);
    if (next == NULL) *(void **)&next = dlsym(RTLD_NEXT, "posix_memalign");
    return is_refused() ? ENOMEM : next(place, line, size);
}

void *aligned_alloc(size_t line, size_t size) {
    static void *(*next)(size_t, size_t);
    if (next == NULL) *(void **)&next = dlsym(RTLD_NEXT, "aligned_alloc");
    return is_refused() ? NULL : next(line, size);
}
