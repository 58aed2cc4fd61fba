/* hub STORE HEADER LINE: one event of a hub around the proved centre. It reads the store, lets the centre carry out the
 * line, puts the new store in place of the old one, and only then says what is sent.
 *
 * HEADER is a file with the lines `centre` and `peer` of a session (docs/FORMATS.md). LINE is an event of it, for
 * example 'child lamp join'; or 'init KEY', which makes the store. The status is 1 if nothing was done.
 *
 * Two processes that read the same store would seal with the same frame counters. So each one holds a lock from before
 * it reads the store until it has sent: STORE.lock against others of its kind, because the store itself is replaced, and
 * the store's own lock against `tc admin` and `tc_centre`. STORE.lock stays; never delete it while a hub runs. */
#include <errno.h>
#include <fcntl.h>
#include <libgen.h>
#include <stdio.h>
#include <stdlib.h>
#include <string.h>
#include <sys/file.h>
#include <unistd.h>

#include "tc.h"

#define PATH_ROOM 4096

/* One byte more than the largest store, so that a larger file is noticed. */
static uint8_t store[TC_STORE_ROOM + 1], answer[1 << 20];

static int complain(const char *path, const char *why) {
    fprintf(stderr, "hub: %s: %s; nothing has changed\n", path, why);
    return -1;
}

/* Writes the path with an ending into `into`. Returns 0, or -1 if it is too long. */
static int with_ending(const char *path, const char *ending, char *into) {
    return snprintf(into, PATH_ROOM, "%s%s", path, ending) < PATH_ROOM ? 0 : complain(path, "the path is too long");
}

/* Locks an open file for this process, until the process ends. Returns 0, or -1 if another one holds the lock. */
static int lock(int file, const char *path) {
    if (!flock(file, LOCK_EX | LOCK_NB)) return 0;
    return complain(path, errno == EWOULDBLOCK ? "another process serves this store: try again" : strerror(errno));
}

/* Locks the file beside the store, which is made if it is missing. It stays open until the process ends. */
static int lock_beside(const char *path) {
    char beside[PATH_ROOM];
    if (with_ending(path, ".lock", beside)) return -1;
    int file = open(beside, O_RDWR | O_CREAT | O_CLOEXEC | O_NOFOLLOW, 0600);
    return file < 0 ? complain(beside, strerror(errno)) : lock(file, beside);
}

/* Reads a file of at most so many bytes. Returns how many it has, or -1 if it can't be read whole. */
static ssize_t read_file(int file, const char *path, void *into, size_t room) {
    size_t count = 0;
    for (;;) {
        ssize_t more = read(file, (char *)into + count, room - count);
        if (more < 0) return complain(path, strerror(errno));
        count += (size_t)more;
        if (count == room) return complain(path, "the file is too large");
        if (!more) return (ssize_t)count;
    }
}

/* Locks and reads the store. Returns its bytes: 0 if there is no such file, and -1 if it is there and can't be read. */
static ssize_t read_store(const char *path) {
    int file = open(path, O_RDONLY | O_CLOEXEC);
    if (file < 0) return errno == ENOENT ? 0 : complain(path, strerror(errno));
    return lock(file, path) ? -1 : read_file(file, path, store, sizeof store);
}

/* Reads the header, and returns its bytes, or -1. */
static ssize_t read_header(const char *path, char *into, size_t room) {
    int file = open(path, O_RDONLY | O_CLOEXEC);
    if (file < 0) return complain(path, strerror(errno));
    ssize_t count = read_file(file, path, into, room);
    close(file);
    return count;
}

static int sync_folder(const char *path) {
    char copy[PATH_ROOM];
    snprintf(copy, sizeof copy, "%s", path);
    int folder = open(dirname(copy), O_RDONLY | O_DIRECTORY);
    if (folder < 0) return -1;
    int failed = fsync(folder);
    return close(folder) || failed ? -1 : 0;
}

/* Puts the new store in place of the old one: a loss of power leaves one or the other. */
static int keep(const char *path, size_t count) {
    char beside[PATH_ROOM];
    if (with_ending(path, ".new", beside)) return -1;
    int file = open(beside, O_WRONLY | O_CREAT | O_TRUNC | O_NOFOLLOW, 0600);
    if (file < 0) return -1;
    int failed = write(file, store, count) != (ssize_t)count || fsync(file);
    if (close(file) || failed) return -1;
    return rename(beside, path) || sync_folder(path) ? -1 : 0;
}

/* Sends what the answer says: the lines `N send NAME FRAME BYTES`. A hub with a radio sends BYTES. */
static void send_frames(char *text) {
    for (char *line = strtok(text, "\n"); line; line = strtok(NULL, "\n")) {
        char bytes[255];
        if (sscanf(line, "%*u send %*s %*u %254s", bytes) == 1) printf("on the air: %s\n", bytes);
    }
}

/* Lets the centre carry out the header and the line, and returns the number of the call. */
static uint32_t serve(const char *text, size_t len, int makes_store, struct tc_used *used) {
    return (makes_store ? tc_admin : tc_live)((const uint8_t *)text, len, store, TC_STORE_ROOM, answer,
                                              sizeof answer - 1, used);
}

int main(int count, char **words) {
    static char text[1 << 16];
    if (count != 4) {
        fprintf(stderr, "call it as: hub STORE HEADER LINE\n");
        return 1;
    }
    ssize_t len = read_header(words[2], text, sizeof text / 2);
    if (len < 0 || lock_beside(words[1])) return 1;
    ssize_t stored = read_store(words[1]);
    if (stored < 0) return 1;
    struct tc_used used = {(size_t)stored, 0, 0, 0};
    int makes_store = !strncmp(words[3], "init ", 5);
    size_t room = sizeof text - (size_t)len;
    int more = snprintf(text + len, room, "%s%s\n", makes_store ? "" : "open\n", words[3]);
    if (more < 0 || (size_t)more >= room) return 1;
    uint32_t number = serve(text, (size_t)len + (size_t)more, makes_store, &used);
    if (number != TC_DONE) {
        fprintf(stderr, "hub: the centre returned %u, and nothing has changed\n", number);
        return 1;
    }
    if (keep(words[1], used.store)) {
        perror("hub: the store isn't written, and nothing is sent");
        return 1;
    }
    answer[used.answer] = 0;
    printf("%s", (char *)answer);
    send_frames((char *)answer);
    return 0;
}
