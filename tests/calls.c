// Stands before the calls of the C library on files, streams, sockets and the clock. It tells each one that the program
// it is loaded into makes by a line to the file with the number 9. The call with the number AT, counted from 1, goes as
// FAULT says:
//
//     an error's name   it fails with this error, and nothing is done
//     part              it moves one byte
//     none              it moves nothing
//     full              it moves half of the bytes, and each later write to a file fails with ENOSPC
//     shut              it opens nothing, nor does a later one: EACCES
//     self              the socket has the address that it connects to
//     stop              the program is stopped before it, until it is told to go on
//     opens             before it reads, a byte 1 is written to the file where it reads, as by another program
//     kill              the program is killed
#define _GNU_SOURCE
#include <arpa/inet.h>
#include <dlfcn.h>
#include <errno.h>
#include <fcntl.h>
#include <netinet/in.h>
#include <poll.h>
#include <signal.h>
#include <stdarg.h>
#include <stdio.h>
#include <stdlib.h>
#include <string.h>
#include <sys/file.h>
#include <sys/ioctl.h>
#include <sys/random.h>
#include <sys/socket.h>
#include <sys/stat.h>
#include <sys/syscall.h>
#include <sys/time.h>
#include <time.h>
#include <unistd.h>

#define FILES 64

#define NEXT(name) \
    static __typeof__(name) *next; \
    if (next == NULL) *(void **)&next = dlsym(RTLD_NEXT, #name)

static char names[FILES][32] = {"input", "output", "notes"};
static char line[512];
static long count;
static int is_full;
static int is_shut;

// A program that hangs is ended.
__attribute__((constructor)) static void end_in_time(void) {
    alarm(60);
}

static const char *name_of(int file) {
    return file >= 0 && file < FILES && names[file][0] ? names[file] : "a file of others";
}

// A file is called by the last part of its path.
static const char *last_part(const char *path) {
    const char *slash = strrchr(path, '/');
    return slash != NULL && slash[1] ? slash + 1 : path;
}

static void give_name(int file, const char *name) {
    if (file >= 0 && file < FILES) snprintf(names[file], sizeof names[file], "%s", name);
}

static void add(const char *form, ...) {
    size_t length = strlen(line);
    va_list rest;
    va_start(rest, form);
    vsnprintf(line + length, sizeof line - length, form, rest);
    va_end(rest);
}

// What the call that has begun is told to do, or an empty text.
static const char *fault(void) {
    const char *at = getenv("AT"), *how = getenv("FAULT");
    return at != NULL && how != NULL && count == atol(at) ? how : "";
}

static int is_told(const char *how) {
    return strcmp(fault(), how) == 0;
}

// A call begins.
static void begin(const char *form, ...) {
    va_list rest;
    va_start(rest, form);
    vsnprintf(line, sizeof line, form, rest);
    va_end(rest);
    count++;
    if (is_told("kill")) raise(SIGKILL);
    if (is_told("stop")) raise(SIGSTOP);
}

// Whether the call is told to fail, with the error that it is told.
static int fails(void) {
    for (int error = 1; error < 134; error++) {
        const char *name = strerrorname_np(error);
        if (name != NULL && is_told(name)) {
            errno = error;
            return 1;
        }
    }
    return 0;
}

// The call ends with this answer, which is told where it is another one than is wanted.
static long end(long answer, long wanted) {
    int error = errno;
    if (answer < 0)
        add(" = %s", strerrorname_np(error));
    else if (answer != wanted)
        add(" = %ld", answer);
    add("\n");
    if (syscall(SYS_write, 9, line, strlen(line)) != (long)strlen(line)) abort();
    errno = error;
    return answer;
}

// How many bytes of so many the call moves.
static size_t moved(size_t length) {
    if (is_told("part") && length > 0) return 1;
    if (is_told("full")) return length / 2;
    return length;
}

// Whether a write fails, or takes nothing: then `taken` is how many bytes it answers.
static int stops_write(ssize_t *taken) {
    *taken = is_told("none") ? 0 : -1;
    if (is_full) errno = ENOSPC;
    if (is_full || fails() || is_told("none")) return 1;
    is_full = is_told("full");
    return 0;
}

int open(const char *path, int flags, ...) {
    NEXT(open);
    static const char *access[] = {"to read", "to write", "to read and write", "to do nothing"};
    va_list rest;
    va_start(rest, flags);
    mode_t mode = flags & O_CREAT ? va_arg(rest, mode_t) : 0;
    va_end(rest);
    int others = flags & ~(O_ACCMODE | O_CREAT | O_EXCL | O_CLOEXEC | O_NOCTTY);
    begin("open %s %s", last_part(path), access[flags & O_ACCMODE]);
    if (flags & O_CREAT) add(", %s, mode %o", flags & O_EXCL ? "new" : "new or old", mode);
    if (others) add(", with %o", others);
    if (!(flags & O_CLOEXEC)) add(", for other programs too");
    if (is_told("shut")) is_shut = 1;
    if (is_shut) errno = EACCES;
    int file = is_shut || fails() ? -1 : next(path, flags, mode);
    give_name(file, last_part(path));
    return end(file, file);
}

// The one command that the program gives copies the descriptor.
int fcntl(int file, int command, ...) {
    NEXT(fcntl);
    va_list rest;
    va_start(rest, command);
    long least = va_arg(rest, long);
    va_end(rest);
    if (command != F_DUPFD_CLOEXEC) return next(file, command, least);
    begin("copy %s from %ld on", name_of(file), least);
    int copy = fails() ? -1 : next(file, command, least);
    give_name(copy, name_of(file));
    return end(copy, copy);
}

int statx(int folder, const char *path, int flags, unsigned mask, struct statx *about) {
    NEXT(statx);
    begin("stat %s", *path ? last_part(path) : name_of(folder));
    if (*path == 0) add(" that is open");
    return end(fails() ? -1 : next(folder, path, flags, mask, about), 0);
}

int unlink(const char *path) {
    NEXT(unlink);
    begin("unlink %s", last_part(path));
    return end(fails() ? -1 : next(path), 0);
}

int flock(int file, int how) {
    NEXT(flock);
    begin("flock %s", name_of(file));
    add("%s%s%s%s", how & LOCK_SH ? " shared" : "", how & LOCK_EX ? " exclusive" : "", how & LOCK_UN ? " no more" : "",
        how & LOCK_NB ? " at once" : "");
    return end(fails() ? -1 : next(file, how), 0);
}

int fsync(int file) {
    NEXT(fsync);
    begin("fsync %s", name_of(file));
    return end(fails() ? -1 : next(file), 0);
}

int fdatasync(int file) {
    NEXT(fdatasync);
    begin("fdatasync %s", name_of(file));
    return end(fails() ? -1 : next(file), 0);
}

int ftruncate(int file, off_t length) {
    NEXT(ftruncate);
    begin("ftruncate %s to %ld", name_of(file), (long)length);
    return end(fails() ? -1 : next(file, length), 0);
}

off_t lseek(int file, off_t offset, int whence) {
    NEXT(lseek);
    begin("lseek %s %ld from %d", name_of(file), (long)offset, whence);
    return end(fails() ? -1 : next(file, offset, whence), offset);
}

// What another program writes to the file, which it has open for itself.
static void write_apart(int file, const char *byte, off_t at) {
    char path[32];
    snprintf(path, sizeof path, "/proc/self/fd/%d", file);
    int apart = syscall(SYS_openat, AT_FDCWD, path, O_WRONLY);
    if (apart < 0 || syscall(SYS_pwrite64, apart, byte, 1, at) != 1) abort();
    syscall(SYS_close, apart);
}

ssize_t pread(int file, void *bytes, size_t length, off_t at) {
    NEXT(pread);
    begin("pread %s %zu at %ld", name_of(file), length, (long)at);
    if (is_told("opens")) write_apart(file, "\1", at);
    return end(fails() ? -1 : next(file, bytes, moved(length), at), length);
}

ssize_t pwrite(int file, const void *bytes, size_t length, off_t at) {
    NEXT(pwrite);
    ssize_t taken;
    begin("pwrite %s %zu at %ld", name_of(file), length, (long)at);
    return end(stops_write(&taken) ? taken : next(file, bytes, moved(length), at), length);
}

ssize_t read(int file, void *bytes, size_t length) {
    NEXT(read);
    begin("read %s %zu", name_of(file), length);
    return end(fails() ? -1 : next(file, bytes, moved(length)), length);
}

ssize_t write(int file, const void *bytes, size_t length) {
    NEXT(write);
    ssize_t taken;
    begin("write %s %zu", name_of(file), length);
    return end(stops_write(&taken) ? taken : next(file, bytes, moved(length)), length);
}

int close(int file) {
    NEXT(close);
    begin("close %s", name_of(file));
    give_name(file, "");
    return end(next(file), 0);
}

int socket(int domain, int type, int protocol) {
    NEXT(socket);
    begin("socket%s%s", domain == AF_INET ? " IPv4" : " of others",
        (type & ~SOCK_CLOEXEC) == SOCK_STREAM ? " stream" : " of others");
    int file = fails() ? -1 : next(domain, type, protocol);
    give_name(file, "socket");
    return end(file, file);
}

static void add_address(const struct sockaddr *address) {
    const struct sockaddr_in *in = (const struct sockaddr_in *)address;
    char text[INET_ADDRSTRLEN] = "?";
    if (address->sa_family == AF_INET) inet_ntop(AF_INET, &in->sin_addr, text, sizeof text);
    add(" %s:%d", text, ntohs(in->sin_port));
}

int bind(int file, const struct sockaddr *address, socklen_t length) {
    NEXT(bind);
    begin("bind %s", name_of(file));
    add_address(address);
    return end(fails() ? -1 : next(file, address, length), 0);
}

int listen(int file, int backlog) {
    NEXT(listen);
    begin("listen %s, where %d may wait", name_of(file), backlog);
    return end(fails() ? -1 : next(file, backlog), 0);
}

int accept4(int file, struct sockaddr *address, socklen_t *length, int flags) {
    NEXT(accept4);
    begin("accept %s", name_of(file));
    int session = fails() ? -1 : next(file, address, length, flags);
    give_name(session, "session");
    return end(session, session);
}

int connect(int file, const struct sockaddr *address, socklen_t length) {
    NEXT(connect);
    begin("connect %s", name_of(file));
    add_address(address);
    if (is_told("self") && syscall(SYS_bind, file, address, length) != 0) abort();
    return end(fails() ? -1 : next(file, address, length), 0);
}

int getsockname(int file, struct sockaddr *address, socklen_t *length) {
    NEXT(getsockname);
    begin("getsockname %s", name_of(file));
    return end(fails() ? -1 : next(file, address, length), 0);
}

int getsockopt(int file, int level, int option, void *value, socklen_t *length) {
    NEXT(getsockopt);
    begin("getsockopt %s %s", name_of(file), level == SOL_SOCKET && option == SO_ERROR ? "error" : "of others");
    return end(fails() ? -1 : next(file, level, option, value, length), 0);
}

int setsockopt(int file, int level, int option, const void *value, socklen_t length) {
    NEXT(setsockopt);
    const struct timeval *time = value;
    begin("setsockopt %s", name_of(file));
    if (level == SOL_SOCKET && option == SO_REUSEADDR)
        add(" reuse the address: %d", *(const int *)value);
    else if (level == SOL_SOCKET && (option == SO_RCVTIMEO || option == SO_SNDTIMEO))
        add(" %s for %ld.%03ld s", option == SO_RCVTIMEO ? "receive" : "send", (long)time->tv_sec,
            (long)time->tv_usec / 1000);
    else
        add(" option %d of level %d", option, level);
    return end(fails() ? -1 : next(file, level, option, value, length), 0);
}

// The time is told to ten seconds, since what is left of it is not known to the millisecond.
int poll(struct pollfd *files, nfds_t many, int wait) {
    NEXT(poll);
    begin("poll %s for %d s", many > 0 ? name_of(files[0].fd) : "nothing", (wait + 5000) / 10000 * 10);
    if (many > 0 && files[0].events & POLLOUT) add(", to write");
    if (many > 0 && files[0].events & POLLIN) add(", to read");
    return end(fails() ? -1 : next(files, many, wait), many);
}

ssize_t recv(int file, void *bytes, size_t length, int flags) {
    NEXT(recv);
    begin("recv %s %zu", name_of(file), length);
    if (flags) add(" with %x", flags);
    return end(fails() ? -1 : next(file, bytes, moved(length), flags), length);
}

ssize_t send(int file, const void *bytes, size_t length, int flags) {
    NEXT(send);
    begin("send %s %zu%s", name_of(file), length, flags == MSG_NOSIGNAL ? ", with no signal" : "");
    if (fails()) return end(-1, length);
    return end(is_told("none") ? 0 : next(file, bytes, moved(length), flags), length);
}

int shutdown(int file, int how) {
    NEXT(shutdown);
    static const char *directions[] = {"read", "write", "read and write"};
    begin("shutdown %s, to %s", name_of(file), directions[how]);
    return end(fails() ? -1 : next(file, how), 0);
}

int ioctl(int file, unsigned long request, ...) {
    NEXT(ioctl);
    va_list rest;
    va_start(rest, request);
    int *value = va_arg(rest, int *);
    va_end(rest);
    if (request == FIONBIO)
        begin("ioctl %s nonblocking: %d", name_of(file), *value);
    else
        begin("ioctl %s %lx", name_of(file), request);
    return end(fails() ? -1 : next(file, request, value), 0);
}

int clock_gettime(clockid_t clock, struct timespec *time) {
    NEXT(clock_gettime);
    begin("clock_gettime%s", clock == CLOCK_MONOTONIC ? "" : " of others");
    return end(fails() ? -1 : next(clock, time), 0);
}

int nanosleep(const struct timespec *asked, struct timespec *left) {
    NEXT(nanosleep);
    begin("nanosleep %ld ms", asked->tv_sec * 1000 + asked->tv_nsec / 1000000);
    return end(fails() ? -1 : next(asked, left), 0);
}

int getentropy(void *bytes, size_t length) {
    NEXT(getentropy);
    begin("getentropy %zu", length);
    return end(fails() ? -1 : next(bytes, length), 0);
}
