/* Fails the allocation, the read or the write of a number, or moves one byte at a read or write, in the program into
   which it is preloaded. tools/hostile compiles it. FAULT is `alloc N`, `read N`, `write N`, `short-read N` or
   `short-write N`, counted from 1, and 0 fails none. If COUNTS names a file, the counts are written into it at the
   end. */
#define _GNU_SOURCE
#include <errno.h>
#include <fcntl.h>
#include <stdatomic.h>
#include <stdio.h>
#include <stdlib.h>
#include <string.h>
#include <sys/syscall.h>
#include <unistd.h>

extern void *__libc_malloc(size_t size);
extern void *__libc_calloc(size_t count, size_t size);
extern void *__libc_realloc(void *old, size_t size);
extern void *__libc_memalign(size_t align, size_t size);

enum kind { NONE, ALLOC, READ, WRITE, SHORT_READ, SHORT_WRITE };
static const char *const kinds[] = {"none", "alloc", "read", "write", "short-read", "short-write"};
static enum kind kind;
static long wanted;
static atomic_long allocs, reads, writes;
static int is_ready;

__attribute__((constructor)) static void start(void) {
    const char *fault = getenv("FAULT");
    char word[16];
    if (fault && sscanf(fault, "%15s %ld", word, &wanted) == 2)
        for (int i = 0; i < 6; i++)
            if (!strcmp(word, kinds[i])) kind = (enum kind)i;
    is_ready = 1;
}

/* The program ends here, and not by exit. */
void _exit(int status) {
    const char *file = getenv("COUNTS");
    char text[96];
    int size = snprintf(text, sizeof text, "%ld %ld %ld\n", allocs, reads, writes);
    int out = file ? open(file, O_WRONLY | O_CREAT | O_TRUNC, 0644) : -1;
    if (out >= 0) {
        syscall(SYS_write, out, text, (size_t)size);
        close(out);
    }
    for (;;) syscall(SYS_exit_group, status);
}

static int fails(enum kind it, atomic_long *count) {
    if (!is_ready) return 0;
    long number = atomic_fetch_add(count, 1) + 1;
    return kind == it && number == wanted;
}

void *malloc(size_t size) { return fails(ALLOC, &allocs) ? NULL : __libc_malloc(size); }
void *calloc(size_t count, size_t size) { return fails(ALLOC, &allocs) ? NULL : __libc_calloc(count, size); }
void *realloc(void *old, size_t size) { return fails(ALLOC, &allocs) ? NULL : __libc_realloc(old, size); }
void *aligned_alloc(size_t align, size_t size) { return fails(ALLOC, &allocs) ? NULL : __libc_memalign(align, size); }
int posix_memalign(void **to, size_t align, size_t size) {
    void *made = fails(ALLOC, &allocs) ? NULL : __libc_memalign(align, size);
    if (!made) return ENOMEM;
    *to = made;
    return 0;
}

ssize_t read(int from, void *into, size_t size) {
    long number = atomic_fetch_add(&reads, 1) + 1;
    if (kind == READ && number == wanted) { errno = EIO; return -1; }
    if (kind == SHORT_READ && number >= wanted && size > 1) size = 1;
    return syscall(SYS_read, from, into, size);
}

ssize_t write(int to, const void *from, size_t size) {
    long number = atomic_fetch_add(&writes, 1) + 1;
    if (kind == WRITE && number == wanted) { errno = EIO; return -1; }
    if (kind == SHORT_WRITE && number >= wanted && size > 1) size = 1;
    return syscall(SYS_write, to, from, size);
}
