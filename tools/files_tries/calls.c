/* Counts, logs and spoils the calls of the program into which it is preloaded. tools/files compiles it.

   CALLS names a file that gets a line for each call: number, name, descriptor, place, result, and in hexadecimal what
   a write moved or an open named. FAULT is `WAY NUMBER ERROR TIMES`: at the call of that number, counted from 1, and
   at the TIMES - 1 calls of the same name after it,
     kill        the process is killed before the call
     kill-half   half of a write is done, then the process is killed
     kill-after  the process is killed after the call
     stop        the process stops before the call
     fail        the call fails with ERROR, a number of errno
     short       a read or write moves one byte
     half        a read or write moves half
     half-fail   a read or write moves half, and the next one fails with ERROR
     nothing     a write moves no byte and returns 0

   STORES is a number: the program forks so often before it begins, and each process runs the script in the file SCRIPT
   on a store of its own, whose number is the six digits at the end of its path. The output goes into PATH.out, and the
   status is a line of standard output. */
#define _GNU_SOURCE
#include <errno.h>
#include <fcntl.h>
#include <signal.h>
#include <stdarg.h>
#include <stdio.h>
#include <stdlib.h>
#include <string.h>
#include <sys/stat.h>
#include <sys/syscall.h>
#include <sys/wait.h>
#include <unistd.h>

struct call {
    long number;
    const char *name;
    int file;
    long place;
    int is_hit, is_failed;
};

static char way[16];
static long wanted, times = 1, error, count, hits;
static const char *spoiled = "";
static int calls = -1, halved = -1; /* the log, and the descriptor whose call was halved and whose next one fails */

static void move(const char *path, int flags, int to) {
    int file = (int)syscall(SYS_openat, AT_FDCWD, path, flags, 0600);
    if (file < 0 || dup2(file, to) < 0) _exit(70);
    syscall(SYS_close, file);
}

/* Returns in each process that has a store, with the store's path in the words. The first process ends here. */
static void serve_each(char *path, long stores) {
    char out[4096], *digits = path + strlen(path) - 6;
    for (long store = 0; store < stores; store++) {
        sprintf(digits, "%06ld", store);
        pid_t child = fork();
        if (child == 0) {
            snprintf(out, sizeof out, "%s.out", path);
            move(getenv("SCRIPT"), O_RDONLY, 0);
            move(out, O_WRONLY | O_CREAT | O_TRUNC, 1);
            return;
        }
        int status = -1;
        if (child < 0 || waitpid(child, &status, 0) < 0) _exit(70);
        dprintf(1, "%d\n", WIFEXITED(status) ? WEXITSTATUS(status) : -WTERMSIG(status));
    }
    _exit(0);
}

__attribute__((constructor)) static void start(int count_of_words, char **words) {
    if (getenv("STORES") && count_of_words == 3) serve_each(words[2], atol(getenv("STORES")));
    const char *fault = getenv("FAULT"), *path = getenv("CALLS");
    if (fault && sscanf(fault, "%15s %ld %ld %ld", way, &wanted, &error, &times) != 4) _exit(70);
    if (path) calls = (int)syscall(SYS_openat, AT_FDCWD, path, O_WRONLY | O_CREAT | O_APPEND | O_CLOEXEC, 0600);
    if (calls >= 0) { /* above the descriptors that the program may count on */
        int high = (int)syscall(SYS_fcntl, calls, F_DUPFD_CLOEXEC, 200);
        syscall(SYS_close, calls);
        calls = high;
    }
}

static void end_by(int signal) { syscall(SYS_kill, syscall(SYS_getpid), signal); }

static int is(const char *word) { return !strcmp(way, word); }

static struct call begin(const char *name, int file) {
    struct call it = {++count, name, file, syscall(SYS_lseek, file, 0L, SEEK_CUR), 0, 0};
    if (it.number == wanted) spoiled = name;
    it.is_hit = hits < times && it.number >= wanted && !strcmp(spoiled, name);
    if (!it.is_hit && halved >= 0 && halved == file && !strcmp(spoiled, name)) {
        it.is_failed = 1;
        halved = -1;
    }
    if (!it.is_hit) return it;
    hits++;
    if (is("kill")) end_by(SIGKILL);
    if (is("stop")) end_by(SIGSTOP);
    it.is_failed = is("fail");
    return it;
}

static size_t part(const struct call *it, size_t size) {
    if (!it->is_hit || size < 2) return size;
    if (is("half-fail")) halved = it->file;
    return is("short") ? 1 : is("half") || is("half-fail") || is("kill-half") ? size / 2 : size;
}

static void put(const struct call *it, long result, const void *bytes, size_t size) {
    const unsigned char *from = bytes;
    char *text = malloc(128 + 2 * size);
    int end = sprintf(text, "%ld %s %d %ld %ld ", it->number, it->name, it->file, it->place, result);
    for (size_t at = 0; at < size; at++) end += sprintf(text + end, "%02x", from[at]);
    text[end++] = '\n';
    syscall(SYS_write, calls, text, (size_t)end);
    free(text);
}

static long ended(const struct call *it, long result, const void *bytes, long size) {
    int kept = errno;
    if (calls >= 0) put(it, result, bytes, size > 0 ? (size_t)size : 0);
    if (it->is_hit && (is("kill-after") || is("kill-half"))) end_by(SIGKILL);
    errno = it->is_failed ? (int)error : kept;
    return result;
}

#define TRY(it, ...) ((it).is_failed ? -1 : syscall(__VA_ARGS__))

int open(const char *path, int flags, ...) {
    va_list rest;
    va_start(rest, flags);
    int mode = flags & O_CREAT ? va_arg(rest, int) : 0;
    va_end(rest);
    struct call it = begin("open", -1);
    return (int)ended(&it, TRY(it, SYS_openat, AT_FDCWD, path, flags, mode), path, (long)strlen(path));
}

int statx(int folder, const char *path, int flags, unsigned mask, struct statx *into) {
    struct call it = begin("statx", folder);
    return (int)ended(&it, TRY(it, SYS_statx, folder, path, flags, mask, into), path, (long)strlen(path));
}

int unlink(const char *path) {
    struct call it = begin("unlink", -1);
    return (int)ended(&it, TRY(it, SYS_unlink, path), path, (long)strlen(path));
}

int flock(int file, int how) {
    struct call it = begin("flock", file);
    return (int)ended(&it, TRY(it, SYS_flock, file, how), "", 0);
}

int fcntl(int file, int how, ...) {
    va_list rest;
    va_start(rest, how);
    long word = va_arg(rest, long);
    va_end(rest);
    struct call it = begin("fcntl", file);
    return (int)ended(&it, TRY(it, SYS_fcntl, file, how, word), "", 0);
}

off_t lseek(int file, off_t place, int from) {
    struct call it = begin("lseek", file);
    return ended(&it, TRY(it, SYS_lseek, file, place, from), "", 0);
}

ssize_t read(int file, void *into, size_t size) {
    struct call it = begin("read", file);
    return ended(&it, TRY(it, SYS_read, file, into, part(&it, size)), "", 0);
}

ssize_t write(int file, const void *from, size_t size) {
    struct call it = begin("write", file);
    long moved = it.is_hit && is("nothing") ? 0 : TRY(it, SYS_write, file, from, part(&it, size));
    return ended(&it, moved, from, moved);
}

int fsync(int file) {
    struct call it = begin("fsync", file);
    return (int)ended(&it, TRY(it, SYS_fsync, file), "", 0);
}

int fdatasync(int file) {
    struct call it = begin("fdatasync", file);
    return (int)ended(&it, TRY(it, SYS_fdatasync, file), "", 0);
}

int ftruncate(int file, off_t size) {
    struct call it = begin("ftruncate", file);
    return (int)ended(&it, TRY(it, SYS_ftruncate, file, size), "", 0);
}

int close(int file) {
    struct call it = begin("close", file);
    long done = syscall(SYS_close, file);
    return (int)ended(&it, it.is_failed ? -1 : done, "", 0);
}
