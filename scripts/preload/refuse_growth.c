/* Counts the growths of memory that a program asks the C library for, and refuses some of them. A thread is one too.
 *
 * Loaded before the C library (LD_PRELOAD). Only calls of `malloc`, `realloc` and `pthread_create` from the program itself are counted:
 * those of the C library and of the dynamic loader go through.
 *
 *   REFUSED_GROWTH=N     the N-th growth is refused, counted from 1: NULL, and errno is ENOMEM, or EAGAIN for a thread; 0 or nothing
 *                        refuses none
 *   REFUSED_FROM=N       the N-th growth and all behind it are refused
 *   GROWTHS_FILE=PATH    where the program ends, the number of growths that it asked for is written there
 */
#define _GNU_SOURCE
#include <dlfcn.h>
#include <errno.h>
#include <fcntl.h>
#include <link.h>
#include <pthread.h>
#include <stdint.h>
#include <stdlib.h>
#include <sys/syscall.h>
#include <unistd.h>

/* glibc's own names of what is hidden here */
extern void *__libc_malloc(size_t);
extern void *__libc_realloc(void *, size_t);

static int (*next_create)(pthread_t *, const pthread_attr_t *, void *(*)(void *), void *);
static uintptr_t first_byte, end_byte; /* where the program lies */
static unsigned long asked, refused, refused_from;

static int first_object(struct dl_phdr_info *info, size_t size, void *data) {
    (void)size;
    (void)data;
    for (int i = 0; i < info->dlpi_phnum; i++) {
        const ElfW(Phdr) *part = &info->dlpi_phdr[i];
        if (part->p_type != PT_LOAD || !(part->p_flags & PF_X)) continue;
        first_byte = info->dlpi_addr + part->p_vaddr;
        end_byte = first_byte + part->p_memsz;
    }
    return 1; /* the first object is the program */
}

static unsigned long number_of(const char *name) {
    const char *text = getenv(name);
    return text ? strtoul(text, NULL, 10) : 0;
}

__attribute__((constructor)) static void begin(void) {
    dl_iterate_phdr(first_object, NULL);
    next_create = (int (*)(pthread_t *, const pthread_attr_t *, void *(*)(void *), void *))dlsym(RTLD_NEXT, "pthread_create");
    refused = number_of("REFUSED_GROWTH");
    refused_from = number_of("REFUSED_FROM");
}

__attribute__((destructor)) static void end(void) {
    const char *path = getenv("GROWTHS_FILE");
    char digits[24];
    int at = sizeof digits;
    if (!path) return;
    digits[--at] = '\n';
    unsigned long left = asked;
    do digits[--at] = (char)('0' + left % 10);
    while ((left /= 10) != 0);
    int file = open(path, O_WRONLY | O_CREAT | O_TRUNC, 0600);
    if (file < 0) return;
    if (write(file, digits + at, sizeof digits - at) < 0) syscall(SYS_exit_group, 99);
    close(file);
}

/* a program whose threads may still run ends by this, and no destructor is called then */
void _exit(int status) {
    end();
    syscall(SYS_exit_group, status);
    __builtin_unreachable();
}

static int is_refused(uintptr_t caller) {
    if (caller < first_byte || caller >= end_byte) return 0;
    unsigned long number = __atomic_add_fetch(&asked, 1, __ATOMIC_SEQ_CST);
    return number == refused || (refused_from != 0 && number >= refused_from);
}

void *malloc(size_t size) {
    if (is_refused((uintptr_t)__builtin_return_address(0))) {
        errno = ENOMEM;
        return NULL;
    }
    return __libc_malloc(size);
}

void *realloc(void *old, size_t size) {
    if (is_refused((uintptr_t)__builtin_return_address(0))) {
        errno = ENOMEM;
        return NULL;
    }
    return __libc_realloc(old, size);
}

int pthread_create(pthread_t *made, const pthread_attr_t *how, void *(*runs)(void *), void *given) {
    if (is_refused((uintptr_t)__builtin_return_address(0))) return EAGAIN;
    return next_create(made, how, runs, given);
}
