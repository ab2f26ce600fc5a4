/* Has what a program reads and writes come in parts, and fail in the middle.
 *
 * Loaded before the C library (LD_PRELOAD).
 *
 *   READS=broken     where standard input or a file would end, `read` fails (ECONNRESET)
 *   READS=parts      each `read` is interrupted once (EINTR), and then gives one byte
 *   WRITES_BEHIND=N  standard output takes one byte at a time, and refuses the one behind the first N (EPIPE) once
 *   DISK=failing     `pread`, by which disks alone are read, fails (EIO)
 *   THREADS=refused  no thread is made (EAGAIN)
 */
#define _GNU_SOURCE
#include <dlfcn.h>
#include <errno.h>
#include <pthread.h>
#include <stdlib.h>
#include <string.h>
#include <sys/types.h>
#include <unistd.h>

static ssize_t (*next_read)(int, void *, size_t);
static ssize_t (*next_write)(int, const void *, size_t);
static ssize_t (*next_pread)(int, void *, size_t, off_t);
static int (*next_create)(pthread_t *, const pthread_attr_t *, void *(*)(void *), void *);
static int has_no_threads, is_broken, is_in_parts, is_interrupted, is_failing, is_counted;
static unsigned long room;

static int says(const char *name, const char *word) {
    const char *text = getenv(name);
    return text && strcmp(text, word) == 0;
}

__attribute__((constructor)) static void begin(void) {
    const char *text = getenv("WRITES_BEHIND");
    next_read = (ssize_t(*)(int, void *, size_t))dlsym(RTLD_NEXT, "read");
    next_write = (ssize_t(*)(int, const void *, size_t))dlsym(RTLD_NEXT, "write");
    next_pread = (ssize_t(*)(int, void *, size_t, off_t))dlsym(RTLD_NEXT, "pread");
    is_broken = says("READS", "broken");
    is_in_parts = says("READS", "parts");
    next_create = (int (*)(pthread_t *, const pthread_attr_t *, void *(*)(void *), void *))dlsym(RTLD_NEXT, "pthread_create");
    is_failing = says("DISK", "failing");
    has_no_threads = says("THREADS", "refused");
    is_counted = text != NULL;
    room = text ? strtoul(text, NULL, 10) : 0;
}

ssize_t read(int file, void *bytes, size_t count) {
    if (is_in_parts && (is_interrupted = !is_interrupted)) {
        errno = EINTR;
        return -1;
    }
    ssize_t done = next_read(file, bytes, is_in_parts && count > 1 ? 1 : count);
    if (done != 0 || count == 0 || !is_broken) return done;
    errno = ECONNRESET;
    return -1;
}

ssize_t write(int file, const void *bytes, size_t count) {
    if (!is_counted || file != STDOUT_FILENO || count == 0) return next_write(file, bytes, count);
    if (room-- == 0) {
        is_counted = 0;
        errno = EPIPE;
        return -1;
    }
    return next_write(file, bytes, 1);
}

ssize_t pread(int file, void *bytes, size_t count, off_t at) {
    if (!is_failing) return next_pread(file, bytes, count, at);
    errno = EIO;
    return -1;
}

ssize_t pread64(int file, void *bytes, size_t count, off64_t at) { return pread(file, bytes, count, at); }

int pthread_create(pthread_t *made, const pthread_attr_t *how, void *(*runs)(void *), void *given) {
    return has_no_threads ? EAGAIN : next_create(made, how, runs, given);
}
