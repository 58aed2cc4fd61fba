/* A device joins, and somebody who has its install code hears it. The code gives the link key, under which the
 * Transport-Key opens. That has the network key, under which the NWK frames open. Then the first frame is sealed again.
 * The frames are those of examples/join.capture. */
#include <stdio.h>
#include <string.h>

#include "tc.h"

static const char code_text[] = "83FED3407A939723A5C639B26916D505C3B5";

/* The router passes on the network key: a NWK header of 8 bytes that isn't secured, and then a secured APS command. */
static const char transport_text[] =
    "08002B1A4D3C1E002100300000000001000000004B120003B6816E5693F741C9EEE9FD14A5C3FB2B7A02ACD71C59030885A677B6F1AEDEBB"
    "D078F3DA4AC7";

/* The router reports to the centre that the device joins; the device asks for a link key. */
static const char *const nwk_texts[] = {
    "080200004D3C1E00280000000003000000004B1200001B76E8ABEF7224B5448C4B505C37C4635588",
    "080200002B1A1E00280000000002000000004B120000724265A9DCB62B1A38FF7E2863A18C3FE0ACAA543F975BECEC",
};

static size_t bytes_of(const char *text, uint8_t *bytes) {
    size_t count = strlen(text) / 2;
    for (size_t at = 0; at < count; at++) sscanf(text + 2 * at, "%2hhx", &bytes[at]);
    return count;
}

static void show(const char *name, const uint8_t *bytes, size_t count) {
    printf("%s ", name);
    for (size_t at = 0; at < count; at++) printf("%02X", bytes[at]);
    printf("\n");
}

static int failed(const char *call, uint32_t number) {
    fprintf(stderr, "join: %s returned %u\n", call, number);
    return 1;
}

/* Opens a NWK frame, shows it, and seals its content again under the same header. */
static int open_and_seal(const char *text, const uint8_t *key) {
    uint8_t frame[TC_FRAME_ROOM], content[TC_FRAME_ROOM], clear[TC_FRAME_ROOM], sealed[TC_FRAME_ROOM];
    struct tc_opened opened;
    size_t count = bytes_of(text, frame), len;
    uint32_t number = tc_open_nwk(frame, count, key, TC_KEY_BYTES, content, sizeof content, &opened);
    if (number != TC_DONE) return failed("tc_open_nwk", number);
    printf("nwk %016llX %u ", (unsigned long long)opened.source, opened.counter);
    show("content", content, opened.len);
    size_t header = count - opened.len - 4;
    memcpy(clear, frame, header);
    memcpy(clear + header, content, opened.len);
    number = tc_seal_nwk(clear, header + opened.len, key, TC_KEY_BYTES, sealed, sizeof sealed, &len);
    if (number != TC_DONE) return failed("tc_seal_nwk", number);
    printf("sealed again: %s\n", len == count && !memcmp(sealed, frame, count) ? "the same frame" : "another frame");
    return 0;
}

int main(void) {
    uint8_t code[18], link_key[TC_KEY_BYTES], frame[TC_FRAME_ROOM], content[TC_FRAME_ROOM];
    struct tc_opened opened;
    uint32_t number = tc_link_key(code, bytes_of(code_text, code), link_key, sizeof link_key);
    if (number != TC_DONE) return failed("tc_link_key", number);
    show("link key", link_key, sizeof link_key);
    size_t count = bytes_of(transport_text, frame);
    number = tc_open_aps(frame + 8, count - 8, link_key, sizeof link_key, 0, content, sizeof content, &opened);
    if (number != TC_DONE) return failed("tc_open_aps", number);
    /* 05 is Transport-Key, 01 a network key */
    if (opened.len < 18 || content[0] != 5 || content[1] != 1) return failed("no network key: tc_open_aps", number);
    show("network key", content + 2, TC_KEY_BYTES);
    for (size_t at = 0; at < sizeof nwk_texts / sizeof *nwk_texts; at++)
        if (open_and_seal(nwk_texts[at], content + 2)) return 1;
    return 0;
}
