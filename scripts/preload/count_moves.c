/* Loaded before the C library: how many bytes the program copies, and how many it fills, by calls for 256 bytes or more. It writes the two
 * sums to the file that MOVES names as the program ends.
 */
#define _GNU_SOURCE
#include <stdio.h>
#include <stdlib.h>
#include <sys/syscall.h>
#include <unistd.h>

static unsigned long copied, filled;

static void forward(unsigned char *to, const unsigned char *from, size_t count) {
    __asm__ volatile("rep movsb" : "+D"(to), "+S"(from), "+c"(count) : : "memory");
}

void *memcpy(void *to, const void *from, size_t count) {
    copied += count >= 256 ? count : 0;
    forward(to, from, count);
    return to;
}

void *memmove(void *to, const void *from, size_t count) {
    unsigned char *into = to;
    const unsigned char *out = from;
    copied += count >= 256 ? count : 0;
    if (into <= out || into >= out + count) {
        forward(to, from, count);
    } else {
        while (count--) into[count] = out[count];
    }
    return to;
}

void *memset(void *to, int byte, size_t count) {
    void *at = to;
    filled += count >= 256 ? count : 0;
    __asm__ volatile("rep stosb" : "+D"(at), "+c"(count) : "a"(byte) : "memory");
    return to;
}

void _exit(int status) {
    const char *name = getenv("MOVES");
    FILE *file = name ? fopen(name, "w") : NULL;
    if (file) {
        fprintf(file, "%lu copied, %lu filled\n", copied, filled);
        fclose(file);
    }
    syscall(SYS_exit_group, status);
    __builtin_unreachable();
}
