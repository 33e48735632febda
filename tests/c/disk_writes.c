/* For LD_PRELOAD: watches the writes of a program at a place (pwrite) and their flushes, and disturbs one of them.
 *
 * WRITES_LOG  a file to which each write and each flush is added as a line
 * DISTURB     HOW:K, the K-th write: kill (the process, before it), full (no space left), short (600 bytes of it, and no space left for the rest),
 *             none (no byte of it is taken); or flush:K, the K-th flush fails */
#define _GNU_SOURCE
#include <dlfcn.h>
#include <errno.h>
#include <signal.h>
#include <stdio.h>
#include <stdlib.h>
#include <string.h>
#include <sys/types.h>
#include <unistd.h>

static int writes, flushes, stopped;

static void note(const char *what, long long at, size_t len) {
    const char *path = getenv("WRITES_LOG");
    FILE *log = path ? fopen(path, "a") : NULL;
    if (log) {
        fprintf(log, "%s %lld %zu\n", what, at, len);
        fclose(log);
    }
}

static int disturbs(const char *how, int k) {
    char wanted[32];
    const char *given = getenv("DISTURB");
    snprintf(wanted, sizeof wanted, "%s:%d", how, k);
    return given && strcmp(given, wanted) == 0;
}

static ssize_t fail(int error) {
    errno = error;
    return -1;
}

ssize_t pwrite64(int fd, const void *bytes, size_t len, off64_t at) {
    ssize_t (*next)(int, const void *, size_t, off64_t) = (ssize_t (*)(int, const void *, size_t, off64_t))dlsym(RTLD_NEXT, "pwrite64");
    writes++;
    if (stopped || disturbs("full", writes)) return fail(ENOSPC);
    if (disturbs("kill", writes)) raise(SIGKILL);
    if (disturbs("none", writes)) return 0;
    if (disturbs("short", writes)) {
        stopped = 1;
        len = 600;
    }
    note("write", at, len);
    return next(fd, bytes, len, at);
}

int fdatasync(int fd) {
    int (*next)(int) = (int (*)(int))dlsym(RTLD_NEXT, "fdatasync");
    flushes++;
    if (disturbs("flush", flushes)) return (int)fail(EIO);
    note("flush", 0, 0);
    return next(fd);
}
