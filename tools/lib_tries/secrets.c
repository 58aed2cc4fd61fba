/* Tries under valgrind that the library for C tells nothing of a key or a plain text by what it branches on and where
 * it reads and writes. Keys and plain texts are marked as undefined, and valgrind reports each branch and each address
 * that depends on them. Opening has one branch of this kind: whether the MIC is right, which the caller learns anyway.
 * A look-up that depends on a key is planted here, and must be reported. */
#include <stdio.h>
#include <string.h>
#include <valgrind/memcheck.h>
#include "tc.h"

#define CHECK(it) \
    if (!(it)) return __LINE__
#define SECRET(bytes, len) VALGRIND_MAKE_MEM_UNDEFINED(bytes, len)
#define PUBLIC(bytes, len) VALGRIND_MAKE_MEM_DEFINED(bytes, len)

/* The first frame of examples/join.capture, under the network key 00 to 0F. */
static const uint8_t frame[40] = {0x08, 0x02, 0x00, 0x00, 0x4D, 0x3C, 0x1E, 0x00, 0x28, 0x00, 0x00, 0x00, 0x00, 0x03,
                                  0x00, 0x00, 0x00, 0x00, 0x4B, 0x12, 0x00, 0x00, 0x1B, 0x76, 0xE8, 0xAB, 0xEF, 0x72,
                                  0x24, 0xB5, 0x44, 0x8C, 0x4B, 0x50, 0x5C, 0x37, 0xC4, 0x63, 0x55, 0x88};
enum { FRAME = 40, HEADER = 22, CONTENT = 14 };

/* How many branches and addresses were reported since the last call. */
static unsigned reports(void) {
    static unsigned before;
    unsigned now = VALGRIND_COUNT_ERRORS;
    unsigned more = now - before;
    before = now;
    return more;
}

/* A look-up in a table by a byte of a key is reported. */
static int planted(const uint8_t *key) {
    static volatile uint8_t table[256];
    volatile uint8_t found = table[key[3]];
    (void)found;
    CHECK(reports() == 1);
    return 0;
}

/* A keyed hash of each length up to four blocks. */
static int keyed(const uint8_t *key) {
    uint8_t message[64], hash[16];
    for (size_t len = 0; len <= sizeof message; len++) {
        memset(message, 0x42, sizeof message);
        SECRET(message, sizeof message);
        uint32_t number = tc_keyed(key, 16, message, len, hash, 16);
        CHECK(VALGRIND_CHECK_VALUE_IS_DEFINED(number) == 0 && number == TC_DONE && reports() == 0);
    }
    return 0;
}

/* A sealed frame, whose content is secret. */
static int sealed(const uint8_t *key) {
    uint8_t clear[FRAME], into[TC_FRAME_ROOM];
    size_t len = 0;
    memcpy(clear, frame, FRAME);
    SECRET(clear + HEADER, CONTENT);
    uint32_t number = tc_seal_nwk(clear, HEADER + CONTENT, key, 16, into, sizeof into, &len);
    CHECK(VALGRIND_CHECK_VALUE_IS_DEFINED(number) == 0 && number == TC_DONE && len == FRAME && reports() == 0);
    return 0;
}

/* Opening the frame, and one with a wrong byte in its content or its MIC: no more than the verdict is reported. */
static int opened(const uint8_t *key) {
    uint8_t given[FRAME], content[TC_FRAME_ROOM];
    struct tc_opened told;
    for (size_t at = HEADER - 1; at < FRAME; at++) {
        memcpy(given, frame, FRAME);
        if (at >= HEADER) given[at] ^= 1;
        uint32_t number = tc_open_nwk(given, FRAME, key, 16, content, sizeof content, &told);
        PUBLIC(&number, sizeof number);
        CHECK(number == (at < HEADER ? TC_DONE : TC_WRONG_MIC) && reports() <= 1);
    }
    return 0;
}

int main(void) {
    uint8_t key[16];
    int line = 0;
    if (!RUNNING_ON_VALGRIND) return puts("run it under valgrind"), 2;
    for (uint8_t at = 0; at < 16; at++) key[at] = at;
    SECRET(key, sizeof key);
    if ((line = keyed(key)) || (line = sealed(key)) || (line = opened(key)) || (line = planted(key)))
        printf("line %d failed\n", line);
    return line != 0;
}
