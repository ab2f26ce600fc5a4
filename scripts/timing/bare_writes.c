/* Writes and syncs a file as the log of a disk does, and does nothing else: `bare_writes FILE CELLS BLOCKS`.
 *
 * For each block, in its cell of a log of so many cells, in turn: the body, a sync, the open gate behind it, and a sync. Offsets and
 * sizes are those of docs/formats.md, and a sync is `fdatasync`, as FileDisk of rep_disk does it. The file has to be there, as long as
 * the disk. Status 1: something failed.
 */
#define _GNU_SOURCE
#include <fcntl.h>
#include <stdio.h>
#include <stdlib.h>
#include <string.h>
#include <unistd.h>

enum { LOG = 54272, CELL = 8192, BODY = 7680, GATE = 512 };

static void fail(const char *what) {
    perror(what);
    exit(1);
}

/* Writes all of the bytes at the offset, and syncs the file. */
static void put(int file, off_t at, const unsigned char *bytes, size_t size) {
    while (size > 0) {
        ssize_t written = pwrite(file, bytes, size, at);
        if (written <= 0) fail("write");
        at += written;
        bytes += written;
        size -= (size_t)written;
    }
    if (fdatasync(file) != 0) fail("sync");
}

int main(int count, char **words) {
    static unsigned char body[BODY], gate[GATE];
    if (count != 4) {
        fputs("usage: bare_writes FILE CELLS BLOCKS\n", stderr);
        return 1;
    }
    unsigned long cells = strtoul(words[2], NULL, 10), blocks = strtoul(words[3], NULL, 10);
    int file = open(words[1], O_RDWR);
    if (file < 0 || cells == 0) fail("open");
    gate[0] = 0xa5;
    for (unsigned long block = 0; block < blocks; block++) {
        off_t at = LOG + (off_t)CELL * (off_t)(block % cells);
        memset(body, (int)(1 + block % 255), sizeof body);
        put(file, at, body, sizeof body);
        put(file, at + BODY, gate, sizeof gate);
    }
    return close(file) == 0 ? 0 : 1;
}
