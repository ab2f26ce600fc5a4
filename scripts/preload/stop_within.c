/* Ends a program before, within or behind one of the calls by which it changes a file, or has that call fail; and keeps what
 * stood in the file before each write that is not synced yet, so that a power failure can be made of the end.
 *
 * Loaded before the C library (LD_PRELOAD). The calls of `pwrite`, `fdatasync` and `fsync` are counted together, from 1.
 *
 *   STOP_AT=N        the call that is met; 0 or nothing: none is
 *   STOP_PART=P      so many thousandths of a write's bytes are written first, one byte at least and one too few at most, unless
 *                    P is 0 (none) or 1000 (all); a sync is made only where P is 1000
 *   STOP_FAILS=1     the call fails then (EIO), and the program goes on; 2: so does each behind it; else the program ends there, with
 *                    the status 77
 *   SHORT_CALLS=N    of N calls of `pwrite` one is interrupted (EINTR), and some write the first half of their bytes; what is then
 *                    called again for the rest is no call of its own
 *   STOPPED=PATH     there the call that was met is told: its number, `write` with the place, the size and how many bytes were
 *                    written, or `sync`
 *   UNSYNCED=PATH    for each write the place and the size are put there, as two numbers of eight bytes of this machine, and the
 *                    bytes that stood there before (those past the file's end are zeros), before the file changes; a sync
 *                    empties it once it is made
 *   CALLS=PATH       each call that is counted is put there before it is made: its place and size, in the same way, and the
 *                    bytes that it is to write; for a sync the place is 2^64 - 1, and the size 0
 */
#define _GNU_SOURCE
#include <dlfcn.h>
#include <errno.h>
#include <fcntl.h>
#include <pthread.h>
#include <stdint.h>
#include <stdio.h>
#include <stdlib.h>
#include <string.h>
#include <sys/uio.h>
#include <unistd.h>

enum { STOPPED_STATUS = 77, BROKEN_STATUS = 99, WHOLE = 1000, ALL_BEHIND = 2 };
static const uint64_t NO_PLACE = UINT64_MAX; /* of a sync */

static ssize_t (*next_pwrite)(int, const void *, size_t, off_t);
static int (*next_fdatasync)(int), (*next_fsync)(int);
static unsigned long stop_at, stop_part, is_failing, short_calls, calls, asked;
static int unsynced = -1, noted = -1, is_interrupted, rest_file;
static off_t rest_at = -1; /* where the rest of a short write belongs */
static pthread_mutex_t turn = PTHREAD_MUTEX_INITIALIZER; /* one call at a time, whatever threads there are */

static unsigned long number_of(const char *name) {
    const char *text = getenv(name);
    return text ? strtoul(text, NULL, 10) : 0;
}

__attribute__((constructor)) static void begin(void) {
    const char *path = getenv("UNSYNCED"), *notes = getenv("CALLS");
    next_pwrite = (ssize_t(*)(int, const void *, size_t, off_t))dlsym(RTLD_NEXT, "pwrite");
    next_fdatasync = (int (*)(int))dlsym(RTLD_NEXT, "fdatasync");
    next_fsync = (int (*)(int))dlsym(RTLD_NEXT, "fsync");
    stop_at = number_of("STOP_AT");
    stop_part = number_of("STOP_PART");
    is_failing = number_of("STOP_FAILS");
    short_calls = number_of("SHORT_CALLS");
    if (path && (unsynced = open(path, O_WRONLY | O_CREAT | O_APPEND | O_CLOEXEC, 0600)) < 0) _exit(BROKEN_STATUS);
    if (notes && (noted = open(notes, O_WRONLY | O_CREAT | O_APPEND | O_CLOEXEC, 0600)) < 0) _exit(BROKEN_STATUS);
}

/* Puts so many bytes behind a file, and before them the place where they belong. */
static void put(int to, uint64_t place, const void *bytes, size_t count) {
    uint64_t head[2] = {place, count};
    struct iovec parts[2] = {{head, sizeof head}, {(void *)bytes, count}};
    if (writev(to, parts, 2) != (ssize_t)(sizeof head + count)) _exit(BROKEN_STATUS);
}

/* Keeps what stands where a write is to go. */
static void keep(int file, size_t count, off_t at) {
    if (unsynced < 0) return;
    char *old = calloc(1, count ? count : 1);
    if (!old || pread(file, old, count, at) < 0) _exit(BROKEN_STATUS);
    put(unsynced, (uint64_t)at, old, count);
    free(old);
}

/* Tells the call that was met, and ends the program there or has the call fail. */
static int met(const char *text) {
    const char *path = getenv("STOPPED");
    int file = path ? open(path, O_WRONLY | O_CREAT | O_TRUNC, 0600) : -1;
    if (path && (file < 0 || write(file, text, strlen(text)) < 0)) _exit(BROKEN_STATUS);
    if (!is_failing) _exit(STOPPED_STATUS);
    close(file);
    errno = EIO;
    return -1;
}

static size_t part_of(size_t count) {
    if (stop_part == 0 || count == 0) return 0;
    if (stop_part >= WHOLE) return count;
    size_t part = count * stop_part / WHOLE;
    return part == 0 ? 1 : part == count && count > 1 ? count - 1 : part;
}

static ssize_t write_part(int file, const void *bytes, size_t count, off_t at) {
    char text[128];
    size_t part = part_of(count), done = 0;
    if (part > 0 || is_failing) keep(file, count, at);
    while (done < part) {
        ssize_t more = next_pwrite(file, (const char *)bytes + done, part - done, at + (off_t)done);
        if (more <= 0) _exit(BROKEN_STATUS);
        done += (size_t)more;
    }
    snprintf(text, sizeof text, "%lu write %lld %zu %zu\n", calls, (long long)at, count, done);
    return met(text);
}

/* Whether the call that was counted last fails because one before it did. */
static int is_behind(void) {
    if (is_failing != ALL_BEHIND || stop_at == 0 || calls <= stop_at) return 0;
    errno = EIO;
    return 1;
}

/* Writes the bytes, or some of the first of them. */
static ssize_t write_some(int file, const void *bytes, size_t count, off_t at) {
    int is_short = short_calls && count > 1 && asked % 3 == 0;
    keep(file, count, at);
    ssize_t done = next_pwrite(file, bytes, is_short ? count / 2 : count, at);
    if (done > 0 && (size_t)done < count) {
        rest_file = file;
        rest_at = at + done;
    }
    return done;
}

/* One call of `pwrite`, which is that for the rest of the one before it, or one of its own. */
static ssize_t write_in_turn(int file, const void *bytes, size_t count, off_t at) {
    int is_rest = file == rest_file && at == rest_at;
    if (short_calls && !is_interrupted && ++asked % short_calls == 0) {
        is_interrupted = 1;
        errno = EINTR;
        return -1;
    }
    is_interrupted = 0;
    rest_at = -1;
    if (!is_rest && noted >= 0) put(noted, (uint64_t)at, bytes, count);
    if (!is_rest && ++calls == stop_at) return write_part(file, bytes, count, at);
    if (is_behind()) return -1;
    return write_some(file, bytes, count, at);
}

ssize_t pwrite(int file, const void *bytes, size_t count, off_t at) {
    pthread_mutex_lock(&turn);
    ssize_t done = write_in_turn(file, bytes, count, at);
    pthread_mutex_unlock(&turn);
    return done;
}

ssize_t pwrite64(int file, const void *bytes, size_t count, off64_t at) { return pwrite(file, bytes, count, at); }

static int sync_by(int (*sync)(int), int file) {
    char text[128];
    int is_met, done = 0;
    pthread_mutex_lock(&turn);
    is_met = ++calls == stop_at;
    if (noted >= 0) put(noted, NO_PLACE, "", 0);
    if (is_behind()) {
        done = -1;
    } else if (!is_met || stop_part >= WHOLE) {
        done = sync(file);
        if (done == 0 && unsynced >= 0 && ftruncate(unsynced, 0) != 0) _exit(BROKEN_STATUS);
    }
    if (is_met) {
        snprintf(text, sizeof text, "%lu sync\n", calls);
        done = met(text);
    }
    pthread_mutex_unlock(&turn);
    return done;
}

int fdatasync(int file) { return sync_by(next_fdatasync, file); }

int fsync(int file) { return sync_by(next_fsync, file); }
