/* Ends a program before or within one of the calls by which it makes, changes, syncs, names or removes a file, has that call fail, or wait.
 *
 * Loaded before the C library (LD_PRELOAD). These calls are counted together, from 1; of `open` those that may make a file, and of
 * `write` none to a standard stream.
 *
 *   CALL=N           the call that is met; 0 or nothing: none is
 *   MET=before       the program ends before it, with the status 77; `within`: a write gives the first half of its bytes before that
 *   MET=failing      the call fails (EIO), and the program goes on
 *   MET=held         the program stands still before it (SIGSTOP), and goes on once it is told to
 *   NOTED=PATH       a letter is put there for each call, before it is made: `o` open, `w` write, `s` sync, `m` rights or owner, `r` rename,
 *                    `l` hard link, `u` unlink
 */
#define _GNU_SOURCE
#include <dlfcn.h>
#include <errno.h>
#include <fcntl.h>
#include <signal.h>
#include <stdarg.h>
#include <stdlib.h>
#include <string.h>
#include <sys/syscall.h>
#include <unistd.h>

enum { STOPPED_STATUS = 77, BROKEN_STATUS = 99 };

static unsigned long met, calls;
static const char *kind = "";
static int noted = -1;

static void *next(const char *name) { return dlsym(RTLD_NEXT, name); }

__attribute__((constructor)) static void begin(void) {
    const char *number = getenv("CALL"), *how = getenv("MET"), *path = getenv("NOTED");
    met = number ? strtoul(number, NULL, 10) : 0;
    kind = how ? how : "";
    if (path) noted = (int)syscall(SYS_openat, AT_FDCWD, path, O_WRONLY | O_CREAT | O_TRUNC | O_CLOEXEC, 0600);
    if (path && noted < 0) _exit(BROKEN_STATUS);
}

/* Counts a call, and says whether it is the one that is met. */
static int is_met(const char *letter) {
    if (noted >= 0 && syscall(SYS_write, noted, letter, 1) != 1) _exit(BROKEN_STATUS);
    if (++calls != met) return 0;
    if (strcmp(kind, "held") != 0) return 1;
    raise(SIGSTOP);
    return 0;
}

/* The same of a call that is not within: where the program is to end there, it does, and else the call fails. */
static int fails(const char *letter) {
    if (!is_met(letter)) return 0;
    if (strcmp(kind, "failing") != 0) _exit(STOPPED_STATUS);
    errno = EIO;
    return 1;
}

/* Whether the call that comes now is the one within which the program ends. */
static int is_within(void) { return calls + 1 == met && strcmp(kind, "within") == 0; }

ssize_t write(int file, const void *bytes, size_t count) {
    ssize_t (*write_next)(int, const void *, size_t) = (ssize_t(*)(int, const void *, size_t))next("write");
    if (file <= STDERR_FILENO) return write_next(file, bytes, count);
    if (is_within()) write_next(file, bytes, count / 2);
    return fails("w") ? -1 : write_next(file, bytes, count);
}

ssize_t pwrite(int file, const void *bytes, size_t count, off_t at) {
    ssize_t (*write_next)(int, const void *, size_t, off_t) = (ssize_t(*)(int, const void *, size_t, off_t))next("pwrite");
    if (is_within()) write_next(file, bytes, count / 2, at);
    return fails("w") ? -1 : write_next(file, bytes, count, at);
}

int open(const char *path, int flags, ...) {
    va_list more;
    va_start(more, flags);
    mode_t mode = flags & O_CREAT ? va_arg(more, mode_t) : 0;
    va_end(more);
    if (flags & O_CREAT && fails("o")) return -1;
    return ((int (*)(const char *, int, ...))next("open"))(path, flags, mode);
}

int fsync(int file) { return fails("s") ? -1 : ((int (*)(int))next("fsync"))(file); }

int fdatasync(int file) { return fails("s") ? -1 : ((int (*)(int))next("fdatasync"))(file); }

int fchmod(int file, mode_t mode) { return fails("m") ? -1 : ((int (*)(int, mode_t))next("fchmod"))(file, mode); }

int fchown(int file, uid_t user, gid_t group) { return fails("m") ? -1 : ((int (*)(int, uid_t, gid_t))next("fchown"))(file, user, group); }

int rename(const char *from, const char *to) { return fails("r") ? -1 : ((int (*)(const char *, const char *))next("rename"))(from, to); }

int link(const char *from, const char *to) { return fails("l") ? -1 : ((int (*)(const char *, const char *))next("link"))(from, to); }

int unlink(const char *path) { return fails("u") ? -1 : ((int (*)(const char *))next("unlink"))(path); }
