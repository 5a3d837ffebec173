/* Counts the bytes that a program holds, by interposing on the C library's allocator: at each write to standard output a
 * line "held=H most=M" goes to standard error, H as held then and M the most since the line before. */
#define _GNU_SOURCE
#include <malloc.h>
#include <stdio.h>
#include <stdlib.h>
#include <sys/syscall.h>
#include <unistd.h>

extern void *__libc_malloc(size_t);
extern void *__libc_calloc(size_t, size_t);
extern void *__libc_realloc(void *, size_t);
extern void __libc_free(void *);

static size_t held, most;

static void *came(void *p) {
    if (p) held += malloc_usable_size(p);
    if (held > most) most = held;
    return p;
}

void *malloc(size_t size) { return came(__libc_malloc(size)); }
void *calloc(size_t n, size_t size) { return came(__libc_calloc(n, size)); }
void free(void *p) {
    if (p) held -= malloc_usable_size(p);
    __libc_free(p);
}
void *realloc(void *p, size_t size) {
    size_t before = p ? malloc_usable_size(p) : 0;
    void *q = __libc_realloc(p, size);
    if (!q) return q;
    held -= before;
    return came(q);
}
ssize_t write(int fd, const void *bytes, size_t count) {
    if (fd == 1) {
        char line[64];
        int n = snprintf(line, sizeof line, "held=%zu most=%zu\n", held, most);
        if (syscall(SYS_write, 2, line, n) != n) abort();
        most = held;
    }
    return syscall(SYS_write, fd, bytes, count);
}
