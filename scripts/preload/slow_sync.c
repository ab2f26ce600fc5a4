/* Loaded before the C library: a file's syncs take so many microseconds more, SYNC_MICROSECONDS, than they do. So a device that answers a
 * sync out of a cache is timed like one that doesn't.
 */
#define _GNU_SOURCE
#include <stdlib.h>
#include <sys/syscall.h>
#include <time.h>
#include <unistd.h>

int fdatasync(int file) {
    const char *told = getenv("SYNC_MICROSECONDS");
    long micros = told ? atol(told) : 0;
    struct timespec more = {micros / 1000000, micros % 1000000 * 1000};
    nanosleep(&more, NULL);
    return (int)syscall(SYS_fdatasync, file);
}
