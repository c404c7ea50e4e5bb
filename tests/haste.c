// Hastens the clock of the program that it is loaded into, and so each wait of it for a peer: HASTE times.
#define _GNU_SOURCE
#include <dlfcn.h>
#include <poll.h>
#include <stdlib.h>
#include <sys/socket.h>
#include <sys/time.h>
#include <time.h>

#define NEXT(name) \
    static __typeof__(name) *next; \
    if (next == NULL) *(void **)&next = dlsym(RTLD_NEXT, #name)

#define SECOND 1000000000L

static long haste(void) {
    const char *times = getenv("HASTE");
    return times != NULL ? atol(times) : 1;
}

int clock_gettime(clockid_t clock, struct timespec *time) {
    NEXT(clock_gettime);
    int status = next(clock, time);
    if (status != 0 || clock != CLOCK_MONOTONIC) return status;
    long now = (time->tv_sec * SECOND + time->tv_nsec) * haste();
    time->tv_sec = now / SECOND;
    time->tv_nsec = now % SECOND;
    return 0;
}

int setsockopt(int file, int level, int option, const void *value, socklen_t length) {
    NEXT(setsockopt);
    if (level != SOL_SOCKET || (option != SO_RCVTIMEO && option != SO_SNDTIMEO))
        return next(file, level, option, value, length);
    const struct timeval *asked = value;
    long micros = (asked->tv_sec * 1000000 + asked->tv_usec) / haste() + 1;
    struct timeval wait = {micros / 1000000, micros % 1000000};
    return next(file, level, option, &wait, sizeof wait);
}

int poll(struct pollfd *files, nfds_t many, int wait) {
    NEXT(poll);
    return next(files, many, wait > 0 ? wait / haste() + 1 : wait);
}

int nanosleep(const struct timespec *asked, struct timespec *left) {
    NEXT(nanosleep);
    long wait = (asked->tv_sec * SECOND + asked->tv_nsec) / haste() + 1;
    struct timespec shorter = {wait / SECOND, wait % SECOND};
    return next(&shorter, left);
}
