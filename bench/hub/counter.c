/* Counts how often memory is asked for, for `bench/hub/run memory`. A program ends by _exit, where the count is written. */
#define _GNU_SOURCE
#include <stdio.h>
#include <stdlib.h>
#include <sys/syscall.h>
#include <unistd.h>

static unsigned long times;

void *__libc_malloc(size_t);
void *__libc_realloc(void *, size_t);

void *malloc(size_t n) {
    __atomic_add_fetch(&times, 1, __ATOMIC_RELAXED);
    return __libc_malloc(n);
}

void *realloc(void *p, size_t n) {
    __atomic_add_fetch(&times, 1, __ATOMIC_RELAXED);
    return __libc_realloc(p, n);
}

void _exit(int status) {
    char line[64];
    int n = snprintf(line, sizeof line, "asked %lu\n", times);
    if (write(2, line, (size_t)n) < 0) {
        status = 1;
    }
    syscall(SYS_exit_group, status);
    __builtin_unreachable();
}
