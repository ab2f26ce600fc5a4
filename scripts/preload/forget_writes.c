/* Has syncs fail as a system does that forgets what it could not write; and keeps a journal of what changes files, by which lib/kernel.py works out
 * what a power failure leaves.
 *
 * Loaded before the C library (LD_PRELOAD). The calls of `fsync` and `fdatasync` are counted together, from 1, of files and of folders.
 *
 *   SYNC_FAILS=N,M   these syncs are not made, and fail (EIO); the program goes on. `N-`: so is each from the N-th on
 *   READ_FAILS=N,M   these calls of `pread`, counted from 1, fail in the same way
 *   LOCK_HELD=N      the program stands still (SIGSTOP) before its N-th call of `flock`, and goes on once it is told to
 *   JOURNAL=PATH     there stands each change of a regular file or of a name, once it is made, and each sync, made or failed; behind those of
 *                    programs that ran before
 *
 * A record of the journal has four numbers of eight bytes of this machine, and then some bytes: its kind, the file's number (inode), a place, and how
 * many bytes follow. The kinds are letters:
 *
 *   c  a file is made: its path        w  bytes are written at the place        t  it is cut, or grows, to the place
 *   m  its rights become the place     s  it is synced; `f`: that failed        d  this folder is synced; `e`: that failed
 *   r  a path is renamed: both paths, with a zero byte between                  l  a link is made: the same                  u  a path is removed
 */
#define _GNU_SOURCE
#include <dlfcn.h>
#include <errno.h>
#include <fcntl.h>
#include <limits.h>
#include <pthread.h>
#include <signal.h>
#include <stdarg.h>
#include <stdint.h>
#include <stdio.h>
#include <stdlib.h>
#include <string.h>
#include <sys/file.h>
#include <sys/stat.h>
#include <sys/syscall.h>
#include <sys/uio.h>
#include <unistd.h>

enum { BROKEN_STATUS = 99 };

static const char *failing_syncs = "", *failing_reads = "";
static unsigned long lock_held, locks, syncs, reads;
static int journal = -1;
static pthread_mutex_t turn = PTHREAD_MUTEX_INITIALIZER; /* one call at a time, whatever threads there are */

static void *next(const char *name) { return dlsym(RTLD_NEXT, name); }

__attribute__((constructor)) static void begin(void) {
    const char *held = getenv("LOCK_HELD"), *path = getenv("JOURNAL");
    if (getenv("SYNC_FAILS")) failing_syncs = getenv("SYNC_FAILS");
    if (getenv("READ_FAILS")) failing_reads = getenv("READ_FAILS");
    lock_held = held ? strtoul(held, NULL, 10) : 0;
    if (path) journal = (int)syscall(SYS_openat, AT_FDCWD, path, O_WRONLY | O_CREAT | O_APPEND | O_CLOEXEC, 0600);
    if (path && journal < 0) _exit(BROKEN_STATUS);
}

/* Puts a record behind those that the journal has. */
static void put(char kind, uint64_t file, uint64_t place, const void *bytes, size_t count) {
    uint64_t head[4] = {(uint64_t)kind, file, place, count};
    struct iovec parts[2] = {{head, sizeof head}, {(void *)bytes, count}};
    if (journal >= 0 && writev(journal, parts, 2) != (ssize_t)(sizeof head + count)) _exit(BROKEN_STATUS);
}

/* The number of a file, if it is a regular one, and else 0. */
static uint64_t number_of(int file) {
    struct stat known;
    return fstat(file, &known) == 0 && S_ISREG(known.st_mode) ? known.st_ino : 0;
}

/* The path of an open file. Gives its length. */
static size_t path_of(int file, char *path) {
    char name[64];
    snprintf(name, sizeof name, "/proc/self/fd/%d", file);
    ssize_t length = readlink(name, path, PATH_MAX - 1);
    if (length < 0) _exit(BROKEN_STATUS);
    path[length] = 0;
    return (size_t)length;
}

/* The path of what has this name, from the root on: its folder's own, and its last part as it stands. Gives its length. */
static size_t whole_path(const char *name, char *path) {
    char folder[PATH_MAX], found[PATH_MAX];
    const char *slash = strrchr(name, '/'), *last = slash ? slash + 1 : name;
    snprintf(folder, sizeof folder, "%.*s", slash ? (int)(slash - name + 1) : 1, slash ? name : ".");
    if (!realpath(folder, found)) return (size_t)snprintf(path, PATH_MAX, "%s", name);
    if (strlen(found) + 1 + strlen(last) >= PATH_MAX) _exit(BROKEN_STATUS);
    strcpy(path, found);
    strcat(strcat(path, "/"), last);
    return strlen(path);
}

/* Puts down that one path became another one, or has its file too. */
static void put_paths(char kind, const char *from, const char *to) {
    char paths[2 * PATH_MAX];
    size_t first = whole_path(from, paths), second = whole_path(to, paths + first + 1);
    put(kind, 0, 0, paths, first + 1 + second);
}

/* Whether the call of this number is to fail, by the numbers of those that do. */
static int fails(const char *failing, unsigned long number) {
    for (const char *at = failing; *at;) {
        char *end;
        unsigned long named = strtoul(at, &end, 10);
        if (end == at) _exit(BROKEN_STATUS);
        if (named == number || (*end == '-' && number > named)) return 1;
        at = end + (*end != 0);
    }
    return 0;
}

static int sync_by(const char *name, int file) {
    char path[PATH_MAX];
    pthread_mutex_lock(&turn);
    uint64_t number = number_of(file);
    int done = -1, is_failing = fails(failing_syncs, ++syncs);
    if (!is_failing) done = ((int (*)(int))next(name))(file);
    if (number) put(done == 0 ? 's' : 'f', number, 0, "", 0);
    else put(done == 0 ? 'd' : 'e', 0, 0, path, path_of(file, path));
    pthread_mutex_unlock(&turn);
    if (is_failing) errno = EIO;
    return done;
}

int fsync(int file) { return sync_by("fsync", file); }

int fdatasync(int file) { return sync_by("fdatasync", file); }

ssize_t pread(int file, void *bytes, size_t count, off_t at) {
    pthread_mutex_lock(&turn);
    int is_failing = fails(failing_reads, ++reads);
    ssize_t done = is_failing ? -1 : ((ssize_t(*)(int, void *, size_t, off_t))next("pread"))(file, bytes, count, at);
    pthread_mutex_unlock(&turn);
    if (is_failing) errno = EIO;
    return done;
}

ssize_t pread64(int file, void *bytes, size_t count, off64_t at) { return pread(file, bytes, count, at); }

ssize_t pwrite(int file, const void *bytes, size_t count, off_t at) {
    pthread_mutex_lock(&turn);
    ssize_t done = ((ssize_t(*)(int, const void *, size_t, off_t))next("pwrite"))(file, bytes, count, at);
    uint64_t number = number_of(file);
    if (done > 0 && number) put('w', number, (uint64_t)at, bytes, (size_t)done);
    pthread_mutex_unlock(&turn);
    return done;
}

ssize_t pwrite64(int file, const void *bytes, size_t count, off64_t at) { return pwrite(file, bytes, count, at); }

ssize_t write(int file, const void *bytes, size_t count) {
    ssize_t (*write_next)(int, const void *, size_t) = (ssize_t(*)(int, const void *, size_t))next("write");
    if (file <= STDERR_FILENO) return write_next(file, bytes, count);
    pthread_mutex_lock(&turn);
    ssize_t done = write_next(file, bytes, count);
    uint64_t number = number_of(file);
    if (done > 0 && number) put('w', number, (uint64_t)(lseek(file, 0, SEEK_CUR) - done), bytes, (size_t)done);
    pthread_mutex_unlock(&turn);
    return done;
}

int ftruncate(int file, off_t size) {
    pthread_mutex_lock(&turn);
    int done = ((int (*)(int, off_t))next("ftruncate"))(file, size);
    if (done == 0) put('t', number_of(file), (uint64_t)size, "", 0);
    pthread_mutex_unlock(&turn);
    return done;
}

int fchmod(int file, mode_t mode) {
    pthread_mutex_lock(&turn);
    int done = ((int (*)(int, mode_t))next("fchmod"))(file, mode);
    if (done == 0) put('m', number_of(file), mode, "", 0);
    pthread_mutex_unlock(&turn);
    return done;
}

int open(const char *name, int flags, ...) {
    char path[PATH_MAX];
    struct stat known;
    va_list more;
    va_start(more, flags);
    mode_t mode = flags & O_CREAT ? va_arg(more, mode_t) : 0;
    va_end(more);
    pthread_mutex_lock(&turn);
    int is_new = flags & O_CREAT && stat(name, &known) != 0;
    int file = ((int (*)(const char *, int, ...))next("open"))(name, flags, mode);
    uint64_t number = file >= 0 ? number_of(file) : 0;
    if (number && is_new) put('c', number, fstat(file, &known) == 0 ? known.st_mode & 07777 : 0, path, path_of(file, path));
    else if (number && flags & O_TRUNC) put('t', number, 0, "", 0);
    pthread_mutex_unlock(&turn);
    return file;
}

int rename(const char *from, const char *to) {
    pthread_mutex_lock(&turn);
    int done = ((int (*)(const char *, const char *))next("rename"))(from, to);
    if (done == 0) put_paths('r', from, to);
    pthread_mutex_unlock(&turn);
    return done;
}

int link(const char *from, const char *to) {
    pthread_mutex_lock(&turn);
    int done = ((int (*)(const char *, const char *))next("link"))(from, to);
    if (done == 0) put_paths('l', from, to);
    pthread_mutex_unlock(&turn);
    return done;
}

int unlink(const char *name) {
    char path[PATH_MAX];
    pthread_mutex_lock(&turn);
    int done = ((int (*)(const char *))next("unlink"))(name);
    if (done == 0) put('u', 0, 0, path, whole_path(name, path));
    pthread_mutex_unlock(&turn);
    return done;
}

int flock(int file, int how) {
    if (++locks == lock_held) raise(SIGSTOP);
    return ((int (*)(int, int))next("flock"))(file, how);
}
