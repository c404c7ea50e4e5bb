// Counts the blocks of memory that the program it is loaded into takes, and those that it gives back. At the end of the
// program it writes how many it took, and how many of them it still has, to the file with the number 9.
#define _GNU_SOURCE
#include <dlfcn.h>
#include <stdio.h>
#include <stdlib.h>
#include <unistd.h>

static long taken;
static long given_back;

// Counts a block that was handed out, and hands it on.
static void *count_taken(void *block) {
    if (block != NULL) __atomic_add_fetch(&taken, 1, __ATOMIC_RELAXED);
    return block;
}

static void count_given_back(void) {
    __atomic_add_fetch(&given_back, 1, __ATOMIC_RELAXED);
}

void *malloc(size_t size) {
    static void *(*next)(size_t);
    if (next == NULL) *(void **)&next = dlsym(RTLD_NEXT, "malloc");
    return count_taken(next(size));
}

void *calloc(size_t many, size_t size) {
    static void *(*next)(size_t, size_t);
    if (next == NULL) *(void **)&next = dlsym(RTLD_NEXT, "calloc");
    return count_taken(next(many, size));
}

// A block that only moves is neither taken nor given back; with no old block it is taken, and with no size given back.
void *realloc(void *old, size_t size) {
    static void *(*next)(void *, size_t);
    if (next == NULL) *(void **)&next = dlsym(RTLD_NEXT, "realloc");
    void *block = next(old, size);
    if (old == NULL) return count_taken(block);
    if (block == NULL && size == 0) count_given_back();
    return block;
}

int posix_memalign(void **place, size_t line, size_t size) {
    static int (*next)(void **, size_t, size_t);
    if (next == NULL) *(void **)&next = dlsym(RTLD_NEXT, "posix_memalign");
    int fault = next(place, line, size);
    if (fault == 0) count_taken(*place);
    return fault;
}

void *aligned_alloc(size_t line, size_t size) {
    static void *(*next)(size_t, size_t);
    if (next == NULL) *(void **)&next = dlsym(RTLD_NEXT, "aligned_alloc");
    return count_taken(next(line, size));
}

void free(void *block) {
    static void (*next)(void *);
    if (next == NULL) *(void **)&next = dlsym(RTLD_NEXT, "free");
    if (block != NULL) count_given_back();
    next(block);
}

__attribute__((destructor)) static void tell(void) {
    char text[64];
    int length = snprintf(text, sizeof text, "%ld %ld\n", taken, taken - given_back);
    if (write(9, text, length) != length) abort();
}
