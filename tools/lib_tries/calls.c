/* Tests the library for C: each number of each call on keys and frames, worked values, and changed frames in buffers of
 * their own length. */
#define BARE_ROUNDS 2000
#include "tries.h"

#if __STDC_HOSTED__
#define TAKE(len) malloc((len) ? (len) : 1)
#define GIVE(buffer) free(buffer)
#else
static uint8_t rooms[4][512];
static int taken;
#define TAKE(len) rooms[taken++ % 4]
#define GIVE(buffer) (void)(buffer)
#endif

/* An install code of the Base Device Behavior with its CRC, and its link key. */
static const uint8_t code[18] = {0x83, 0xFE, 0xD3, 0x40, 0x7A, 0x93, 0x97, 0x23, 0xA5,
                                 0xC6, 0x39, 0xB2, 0x69, 0x16, 0xD5, 0x05, 0xC3, 0xB5};
static const uint8_t code_key[16] = {0x66, 0xB6, 0x90, 0x09, 0x81, 0xE1, 0xEE, 0x3C,
                                     0xA4, 0x20, 0x6B, 0x6B, 0x86, 0x1C, 0x02, 0xBB};

/* The example of 05-3474-21, C.6.1: the key is 40 to 4F, the message C0. */
static const uint8_t keyed_c0[16] = {0x45, 0x12, 0x80, 0x7B, 0xF9, 0x4C, 0xB3, 0x40,
                                     0x0F, 0x0E, 0x2C, 0x25, 0xFB, 0x76, 0xE9, 0x99};

/* The first frame of examples/join.capture, under the network key 00 to 0F, and its content. */
static const uint8_t frame[40] = {0x08, 0x02, 0x00, 0x00, 0x4D, 0x3C, 0x1E, 0x00, 0x28, 0x00, 0x00, 0x00, 0x00, 0x03,
                                  0x00, 0x00, 0x00, 0x00, 0x4B, 0x12, 0x00, 0x00, 0x1B, 0x76, 0xE8, 0xAB, 0xEF, 0x72,
                                  0x24, 0xB5, 0x44, 0x8C, 0x4B, 0x50, 0x5C, 0x37, 0xC4, 0x63, 0x55, 0x88};
enum { FRAME = 40, HEADER = 22, CONTENT = 14 };
static const uint8_t content_of_it[CONTENT] = {0x01, 0x00, 0x06, 0x02, 0x00, 0x00, 0x00,
                                               0x00, 0x4B, 0x12, 0x00, 0x2B, 0x1A, 0x01};

static int link_keys(void) {
    uint8_t key[20], wrong[18];
    mark(key, sizeof key);
    CHECK(tc_link_key(code, 18, key, 15) == TC_WRONG_ROOM && tc_link_key(code, 18, key, 17) == TC_WRONG_ROOM);
    for (size_t len = 0; len < 18; len++) {
        uint32_t expected = len == 8 || len == 10 || len == 14 ? TC_CODE_CRC : TC_CODE_LENGTH;
        CHECK(tc_link_key(code, len, key, 16) == expected);
    }
    for (size_t at = 0; at < 18; at++) {
        for (size_t k = 0; k < 18; k++) wrong[k] = code[k] ^ (k == at);
        CHECK(tc_link_key(wrong, 18, key, 16) == TC_CODE_CRC);
    }
    CHECK(all_marked(key, sizeof key));
    CHECK(tc_link_key(code, 18, key, 16) == TC_DONE && same(key, code_key, 16) && all_marked(key + 16, 4));
    return 0;
}

static int keyed_hashes(void) {
    static uint8_t message[8176];
    uint8_t key[16], hash[20];
    for (size_t at = 0; at < 16; at++) key[at] = (uint8_t)(0x40 + at);
    message[0] = 0xC0;
    mark(hash, sizeof hash);
    CHECK(tc_keyed(key, 15, message, 1, hash, 16) == TC_WRONG_KEY);
    CHECK(tc_keyed(key, 16, message, 1, hash, 17) == TC_WRONG_ROOM);
    CHECK(tc_keyed(key, 16, message, 8176, hash, 16) == TC_LONG_MESSAGE);
    CHECK(all_marked(hash, sizeof hash));
    CHECK(tc_keyed(key, 16, message, 1, hash, 16) == TC_DONE && same(hash, keyed_c0, 16) && all_marked(hash + 16, 4));
    CHECK(tc_keyed(key, 16, message, 8175, hash, 16) == TC_DONE);
    return 0;
}

static int frames(const uint8_t *key) {
    uint8_t content[130], clear[FRAME], sealed[130];
    struct tc_opened opened;
    size_t len = 77;
    mark(content, sizeof content);
    mark(sealed, sizeof sealed);
    CHECK(tc_open_nwk(frame, FRAME, key, 15, content, 127, &opened) == TC_WRONG_KEY);
    CHECK(tc_open_nwk(frame, FRAME, key, 16, content, 126, &opened) == TC_WRONG_ROOM);
    CHECK(tc_open_nwk(frame, 5, key, 16, content, 127, &opened) == TC_NO_FRAME);
    CHECK(tc_open_nwk(frame, FRAME - 1, key, 16, content, 127, &opened) == TC_WRONG_MIC);
    CHECK(tc_open_aps(content_of_it, CONTENT, key, 16, 0, content, 127, &opened) == TC_NOT_SECURED);
    CHECK(all_marked(content, sizeof content));
    CHECK(tc_open_nwk(frame, FRAME, key, 16, content, 130, &opened) == TC_DONE);
    CHECK(opened.source == 0x00124B0000000003 && opened.counter == 0 && opened.len == CONTENT && opened.label == 1);
    CHECK(opened.control == 0x2D && same(content, content_of_it, CONTENT));
    CHECK(all_marked(content + CONTENT, 130 - CONTENT));
    for (size_t at = 0; at < FRAME; at++) clear[at] = at < HEADER ? frame[at] : content_of_it[(at - HEADER) % CONTENT];
    CHECK(tc_seal_nwk(clear, FRAME - 4, key, 17, sealed, 127, &len) == TC_WRONG_KEY);
    CHECK(tc_seal_nwk(clear, FRAME - 4, key, 16, sealed, 126, &len) == TC_WRONG_ROOM);
    CHECK(tc_seal_nwk(clear, HEADER - 1, key, 16, sealed, 127, &len) == TC_NO_FRAME);
    clear[1] = 0;
    CHECK(tc_seal_nwk(clear, FRAME - 4, key, 16, sealed, 127, &len) == TC_NOT_SECURED);
    CHECK(len == 77 && all_marked(sealed, sizeof sealed));
    clear[1] = frame[1];
    CHECK(tc_seal_nwk(clear, FRAME - 4, key, 16, sealed, 127, &len) == TC_DONE);
    CHECK(len == FRAME && same(sealed, frame, FRAME) && all_marked(sealed + FRAME, 130 - FRAME));
    return 0;
}

/* The longest content that still has room for its MIC, and one byte more. */
static int longest(const uint8_t *key) {
    uint8_t clear[124], sealed[127], content[127];
    struct tc_opened opened;
    size_t len = 0;
    for (size_t at = 0; at < 124; at++) clear[at] = at < HEADER ? frame[at] : (uint8_t)at;
    CHECK(tc_seal_nwk(clear, 124, key, 16, sealed, 127, &len) == TC_TOO_LONG && len == 0);
    CHECK(tc_seal_nwk(clear, 123, key, 16, sealed, 127, &len) == TC_DONE && len == 127);
    CHECK(tc_open_nwk(sealed, 127, key, 16, content, 127, &opened) == TC_DONE);
    CHECK(opened.len == 123 - HEADER && same(content, clear + HEADER, 123 - HEADER));
    return 0;
}

/* Opens and seals a changed frame in buffers of their own length. */
static int changed_frame(const uint8_t *key) {
    size_t size = dice(4) ? FRAME : dice(160);
    uint8_t *given = TAKE(size), *content = TAKE(127), *sealed = TAKE(127);
    struct tc_opened opened;
    size_t len = 77;
    for (size_t at = 0; at < size; at++) given[at] = at < FRAME ? frame[at] : (uint8_t)dice(256);
    for (uint32_t times = dice(3); size && times--;) given[dice((uint32_t)size)] ^= (uint8_t)(1 << dice(8));
    mark(content, 127);
    mark(sealed, 127);
    uint32_t by_nwk = tc_open_nwk(given, size, key, 16, content, 127, &opened);
    CHECK(by_nwk <= TC_WRONG_MIC && by_nwk != TC_NO_SOURCE);
    CHECK(by_nwk ? all_marked(content, 127) : all_marked(content + opened.len, 127 - opened.len));
    mark(content, 127);
    uint32_t by_aps = tc_open_aps(given, size, key, 16, dice(2), content, 127, &opened);
    CHECK(by_aps <= TC_WRONG_MIC && (by_aps == 0 || all_marked(content, 127)));
    uint32_t by_seal = tc_seal_nwk(given, size, key, 16, sealed, 127, &len);
    CHECK(by_seal <= TC_NOT_SECURED || by_seal == TC_TOO_LONG);
    CHECK(by_seal ? len == 77 && all_marked(sealed, 127) : len == size + 4 && all_marked(sealed + len, 127 - len));
    if (by_seal == 0) CHECK(tc_open_nwk(sealed, len, key, 16, content, 127, &opened) == TC_DONE);
    GIVE(given);
    GIVE(content);
    GIVE(sealed);
    return 0;
}

static int tried(long changed) {
    uint8_t key[16];
    int line = link_keys();
    for (uint8_t at = 0; at < 16; at++) key[at] = at;
    if (!line) line = keyed_hashes();
    if (!line) line = frames(key);
    if (!line) line = longest(key);
    while (!line && changed--) line = changed_frame(key);
    return line;
}
