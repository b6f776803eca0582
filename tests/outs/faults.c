/* Has a program's calls of the system fail. Built as a shared library and named by LD_PRELOAD.
 *
 * MOST=n      a write to a file takes n bytes at the most
 * FULL=n      writes to files take n bytes in all, and then the disk is full
 * REFUSE=call such a call fails: write, fsync or rename
 * KILL=call   the program is killed at such a call
 * AFTER=n     the first n of these calls are as they were
 */
#define _GNU_SOURCE
#include <dlfcn.h>
#include <errno.h>
#include <signal.h>
#include <stdio.h>
#include <stdlib.h>
#include <string.h>
#include <unistd.h>

static long number(const char *name) {
    const char *value = getenv(name);
    return value ? atol(value) : -1;
}

static int names(const char *name, const char *call) {
    const char *value = getenv(name);
    return value && !strcmp(value, call);
}

/* Whether a call is to fail. It doesn't come back where the program is to be killed. */
static int fails(const char *call, int error) {
    static long passed;
    if (!names("KILL", call) && !names("REFUSE", call)) return 0;
    if (passed++ < number("AFTER")) return 0;
    if (names("KILL", call)) kill(getpid(), SIGKILL);
    errno = error;
    return 1;
}

ssize_t write(int file, const void *bytes, size_t n) {
    static long written;
    ssize_t (*next)(int, const void *, size_t) = (ssize_t(*)(int, const void *, size_t))dlsym(RTLD_NEXT, "write");
    long most = number("MOST"), full = number("FULL");
    if (file <= STDERR_FILENO) return next(file, bytes, n);
    if (fails("write", EIO)) return -1;
    if (most >= 0 && n > (size_t)most) n = most;
    if (full >= 0 && written + (long)n > full) n = full - written;
    if (full >= 0 && n == 0) {
        errno = ENOSPC;
        return -1;
    }
    ssize_t took = next(file, bytes, n);
    if (took > 0) written += took;
    return took;
}

int fsync(int file) {
    int (*next)(int) = (int (*)(int))dlsym(RTLD_NEXT, "fsync");
    return fails("fsync", EIO) ? -1 : next(file);
}

int rename(const char *from, const char *to) {
    int (*next)(const char *, const char *) = (int (*)(const char *, const char *))dlsym(RTLD_NEXT, "rename");
    return fails("rename", EBUSY) ? -1 : next(from, to);
}
