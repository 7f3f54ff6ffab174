/*
 * Kills a program at one of its writes, to see what it leaves: loaded before it (LD_PRELOAD), with KILL_AT the number of the call, counted from 1, at which
 * it is killed. Calls that change files count: writes to them, and making, renaming, cutting, flushing and removing them. An even number is killed before
 * the call, an odd one half way through it, if that is a write: then half of its bytes are there.
 */
#define _GNU_SOURCE
#include <dlfcn.h>
#include <fcntl.h>
#include <signal.h>
#include <stdarg.h>
#include <stdlib.h>
#include <sys/stat.h>
#include <unistd.h>

static long calls;

/* Whether the call at hand is the one. It is counted. */
static int is_due(void) {
    const char *at = getenv("KILL_AT");
    calls++;
    return at != NULL && atol(at) / 2 == calls;
}

static int is_half(void) {
    return atol(getenv("KILL_AT")) % 2;
}

static void die(void) {
    kill(getpid(), SIGKILL);
}

static int is_file(int file) {
    struct stat stat;
    return fstat(file, &stat) == 0 && S_ISREG(stat.st_mode);
}

ssize_t pwrite64(int file, const void *bytes, size_t count, off64_t place) {
    ssize_t (*next)(int, const void *, size_t, off64_t) = dlsym(RTLD_NEXT, "pwrite64");
    if (is_due()) {
        if (is_half())
            next(file, bytes, count / 2, place);
        die();
    }
    return next(file, bytes, count, place);
}

ssize_t write(int file, const void *bytes, size_t count) {
    ssize_t (*next)(int, const void *, size_t) = dlsym(RTLD_NEXT, "write");
    if (is_file(file) && is_due()) {
        if (is_half())
            next(file, bytes, count / 2);
        die();
    }
    return next(file, bytes, count);
}

int open64(const char *path, int flags, ...) {
    int (*next)(const char *, int, ...) = dlsym(RTLD_NEXT, "open64");
    mode_t mode = 0;
    if (flags & O_CREAT) {
        va_list rest;
        va_start(rest, flags);
        mode = va_arg(rest, mode_t);
        va_end(rest);
        if (is_due())
            die();
    }
    return next(path, flags, mode);
}

int rename(const char *from, const char *to) {
    int (*next)(const char *, const char *) = dlsym(RTLD_NEXT, "rename");
    if (is_due())
        die();
    return next(from, to);
}

int unlink(const char *path) {
    int (*next)(const char *) = dlsym(RTLD_NEXT, "unlink");
    if (is_due())
        die();
    return next(path);
}

int ftruncate64(int file, off64_t length) {
    int (*next)(int, off64_t) = dlsym(RTLD_NEXT, "ftruncate64");
    if (is_due())
        die();
    return next(file, length);
}

int fsync(int file) {
    int (*next)(int) = dlsym(RTLD_NEXT, "fsync");
    if (is_due())
        die();
    return next(file);
}
