/* What the tests of the library for C share. Each has a function `tried`, which returns 0 or the line of the first test
 * that fails. Without a C library, as on a bare aarch64, there is no message, and the status says if all passed. */
#include "tc.h"

#if __STDC_HOSTED__
#include <stdio.h>
#include <stdlib.h>
#endif

#define CHECK(it) \
    if (!(it)) return __LINE__
#define MARK 0xEE

/* Runs so many tests with changed inputs, and those with worked ones. */
static int tried(long changed);

static int same(const uint8_t *some, const uint8_t *others, size_t len) {
    while (len--)
        if (*some++ != *others++) return 0;
    return 1;
}

static int all_marked(const uint8_t *bytes, size_t len) {
    while (len--)
        if (*bytes++ != MARK) return 0;
    return 1;
}

static void mark(uint8_t *bytes, size_t len) {
    while (len--) *bytes++ = MARK;
}

static uint64_t seed = 1;

static uint32_t dice(uint32_t below) {
    seed ^= seed << 13;
    seed ^= seed >> 7;
    seed ^= seed << 17;
    return (uint32_t)(seed % below);
}

#if __STDC_HOSTED__
int main(int count, char **words) {
    int line = tried(count > 1 ? atol(words[1]) : 100000);
    if (line) printf("line %d failed\n", line);
    return line != 0;
}
#else
void *memcpy(void *into, const void *from, size_t len) {
    for (size_t at = 0; at < len; at++) ((volatile uint8_t *)into)[at] = ((const uint8_t *)from)[at];
    return into;
}

void *memset(void *into, int byte, size_t len) {
    for (size_t at = 0; at < len; at++) ((volatile uint8_t *)into)[at] = (uint8_t)byte;
    return into;
}

void *memmove(void *into, const void *from, size_t len) {
    if ((uintptr_t)into <= (uintptr_t)from) return memcpy(into, from, len);
    while (len--) ((volatile uint8_t *)into)[len] = ((const uint8_t *)from)[len];
    return into;
}

int memcmp(const void *some, const void *others, size_t len) {
    for (size_t at = 0; at < len; at++)
        if (((const uint8_t *)some)[at] != ((const uint8_t *)others)[at]) return 1;
    return 0;
}

/* Linux on aarch64: call 93 ends the process. */
void _start(void) {
    register long status __asm__("x0") = tried(BARE_ROUNDS) != 0;
    register long call __asm__("x8") = 93;
    __asm__ volatile("svc 0" : : "r"(status), "r"(call));
    __builtin_unreachable();
}
#endif
