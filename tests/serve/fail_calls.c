// Has calls fail in a program that is started with this library preloaded: those on one mailbox, whose path ends with
// FAIL_FILE, on its lock file FAIL_FILE.lock, and on what that is linked from, FAIL_FILE.source.lock (opening, looking
// at, its mode, its times, locking, seeking, reading, writing, syncing, cutting, linking, removing), or, with
// FAIL_SOCKETS set, those on sockets (making, binding, listening, accepting, their options, receiving, sending,
// shutting down). Counted from 1, the one of number FAIL_CALL fails with EIO, and with FAIL_ALL set all later ones too.
// The file FAIL_TOLD, where it is named, is made once a call failed. The file FAIL_LOG, where it is named, gets a line
// for each of these calls as it is made: its name, and `mailbox`, `lock`, `source` or `socket`.
#define _GNU_SOURCE
#include <dlfcn.h>
#include <errno.h>
#include <fcntl.h>
#include <stdarg.h>
#include <stdatomic.h>
#include <stdio.h>
#include <stdlib.h>
#include <string.h>
#include <sys/file.h>
#include <sys/socket.h>
#include <sys/stat.h>
#include <sys/types.h>
#include <unistd.h>

enum { MOST = 1024 };

enum { OTHER, MAILBOX, LOCK, SOURCE, SOCKET };

static const char *const PLACES[] = {"other", "mailbox", "lock", "source", "socket"};

static atomic_int watched[MOST];
static atomic_ulong calls;

static int (*next_open)(const char *, int, ...);
static ssize_t (*next_write)(int, const void *, size_t);

// Adds a line to the log. The call is told before it is made, so whoever hears what comes of it finds it there.
static void tell(const char *name, int place) {
    const char *log = getenv("FAIL_LOG");
    if (log) {
        char line[64];
        int length = snprintf(line, sizeof line, "%s %s\n", name, PLACES[place]);
        int file = next_open(log, O_CREAT | O_APPEND | O_WRONLY | O_CLOEXEC, 0600);
        if (next_write(file, line, length) != length) {
            abort();
        }
        close(file);
    }
}

// This call is made in that place: whether it fails.
static int fails(const char *name, int place) {
    const char *number = getenv("FAIL_CALL"), *told = getenv("FAIL_TOLD");
    if (place == OTHER) {
        return 0;
    }
    tell(name, place);
    unsigned long failing = number ? strtoul(number, NULL, 10) : 0;
    unsigned long call = atomic_fetch_add(&calls, 1) + 1;
    if (failing == 0 || call < failing || (call > failing && !getenv("FAIL_ALL"))) {
        return 0;
    }
    if (told) {
        close(next_open(told, O_CREAT | O_WRONLY | O_CLOEXEC, 0600));
    }
    errno = EIO;
    return 1;
}

static int place_of(int descriptor) {
    return descriptor >= 0 && descriptor < MOST ? watched[descriptor] : OTHER;
}

static void watch(int descriptor, int place) {
    if (descriptor >= 0 && descriptor < MOST) {
        watched[descriptor] = place;
    }
}

// Whether the path ends with the mailbox's and then this.
static int is_at(const char *path, const char *end) {
    const char *name = getenv("FAIL_FILE");
    size_t length = strlen(path), size = name ? strlen(name) : 0, rest = strlen(end);
    return size > 0 && length >= size + rest && memcmp(path + length - rest, end, rest) == 0 &&
           memcmp(path + length - rest - size, name, size) == 0;
}

static int place_at(const char *path) {
    return is_at(path, "") ? MAILBOX : is_at(path, ".lock") ? LOCK : is_at(path, ".source.lock") ? SOURCE : OTHER;
}

__attribute__((constructor)) static void begin(void) {
    next_open = (int (*)(const char *, int, ...))dlsym(RTLD_NEXT, "open");
    next_write = (ssize_t(*)(int, const void *, size_t))dlsym(RTLD_NEXT, "write");
}

int open(const char *path, int flags, ...) {
    int place = place_at(path);
    va_list rest;
    va_start(rest, flags);
    mode_t mode = flags & (O_CREAT | O_TMPFILE) ? va_arg(rest, mode_t) : 0;
    va_end(rest);
    if (fails("open", place)) {
        return -1;
    }
    int descriptor = next_open(path, flags, mode);
    watch(descriptor, place);
    return descriptor;
}

int fcntl(int file, int command, ...) {
    static int (*_Atomic next)(int, int, ...);
    if (!next) {
        next = (int (*)(int, int, ...))dlsym(RTLD_NEXT, "fcntl");
    }
    va_list rest;
    va_start(rest, command);
    void *given = va_arg(rest, void *);
    va_end(rest);
    return fails("fcntl", place_of(file)) ? -1 : next(file, command, given);
}

// A call that is told where it is made.
#define FAILING_AT(result, name, parameters, arguments, place)                                                       \
    result name parameters {                                                                                         \
        static result(*_Atomic next) parameters;                                                                     \
        if (!next) {                                                                                                 \
            next = (result(*) parameters)dlsym(RTLD_NEXT, #name);                                                    \
        }                                                                                                            \
        return fails(#name, place) ? -1 : next arguments;                                                            \
    }

#define FAILING(result, name, parameters, arguments, descriptor)                                                     \
    FAILING_AT(result, name, parameters, arguments, place_of(descriptor))

FAILING_AT(int, unlink, (const char *path), (path), place_at(path))
FAILING_AT(int, statx, (int file, const char *path, int flags, unsigned mask, struct statx *into),
           (file, path, flags, mask, into), *path ? place_at(path) : place_of(file))
FAILING_AT(int, link, (const char *from, const char *to), (from, to), place_at(to))
FAILING(int, futimens, (int file, const struct timespec times[2]), (file, times), file)
FAILING(int, ftruncate, (int file, off_t size), (file, size), file)
FAILING(int, flock, (int file, int how), (file, how), file)
FAILING(int, fchmod, (int file, mode_t mode), (file, mode), file)
FAILING(int, fsync, (int file), (file), file)
FAILING(int, fdatasync, (int file), (file), file)
FAILING(off_t, lseek, (int file, off_t at, int from), (file, at, from), file)
FAILING(ssize_t, read, (int file, void *into, size_t size), (file, into, size), file)
FAILING(ssize_t, write, (int file, const void *from, size_t size), (file, from, size), file)

// A call that gives a socket, which is watched from then on.
#define MAKING(name, parameters, arguments)                                                                          \
    int name parameters {                                                                                            \
        static int(*_Atomic next) parameters;                                                                        \
        if (!next) {                                                                                                 \
            next = (int(*) parameters)dlsym(RTLD_NEXT, #name);                                                       \
        }                                                                                                            \
        int is_chosen = getenv("FAIL_SOCKETS") != NULL;                                                              \
        if (fails(#name, is_chosen ? SOCKET : OTHER)) {                                                              \
            return -1;                                                                                               \
        }                                                                                                            \
        int made = next arguments;                                                                                   \
        watch(made, is_chosen ? SOCKET : OTHER);                                                                     \
        return made;                                                                                                 \
    }

MAKING(socket, (int family, int type, int protocol), (family, type, protocol))
MAKING(accept4, (int file, struct sockaddr *from, socklen_t *size, int flags), (file, from, size, flags))
FAILING(int, bind, (int file, const struct sockaddr *at, socklen_t size), (file, at, size), file)
FAILING(int, listen, (int file, int count), (file, count), file)
FAILING(int, setsockopt, (int file, int level, int name, const void *value, socklen_t size),
        (file, level, name, value, size), file)
FAILING(int, shutdown, (int file, int how), (file, how), file)
FAILING(ssize_t, recv, (int file, void *into, size_t size, int flags), (file, into, size, flags), file)
FAILING(ssize_t, send, (int file, const void *from, size_t size, int flags), (file, from, size, flags), file)
