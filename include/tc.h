/* Proved parts of a Zigbee trust centre: the key of an install code, the keyed hash, opening and sealing frames; and
 * the centre itself over the bytes of its store.
 *
 * Each call reads its arguments and keeps nothing. It returns TC_DONE, or the number of what was wrong first. Then
 * nothing was written, unless that number says so. A buffer is a pointer and its number of bytes. What a call writes
 * must not overlap with its other arguments, and no pointer may be null, even if its buffer has no bytes.
 *
 * Calls may run at the same time. The first five are in libtc_c.a, use no heap memory, and only need memcpy, memmove,
 * memset and memcmp. The last two, tc_admin and tc_live, are in libtc_c_centre.a and use heap memory while they run:
 * compile tc_heap.c with your program, or write its three functions over a heap of your own.
 */
#ifndef TC_H
#define TC_H

#include <stddef.h>
#include <stdint.h>

#ifdef __cplusplus
extern "C" {
#endif

#define TC_DONE 0        /* success */

/* of tc_link_key */
#define TC_CODE_LENGTH 1 /* no install code has that many bytes: with its CRC it has 8, 10, 14 or 18 */
#define TC_CODE_CRC 2    /* the last two bytes aren't the CRC of the others */

/* of tc_keyed */
#define TC_LONG_MESSAGE 1 /* the message has more than 8,175 bytes */

/* of opening and sealing */
#define TC_NO_FRAME 1    /* the bytes aren't a frame of that layer */
#define TC_NOT_SECURED 2 /* the frame isn't secured */
#define TC_NO_SOURCE 3   /* the APS frame names no source, and none was given */
#define TC_WRONG_MIC 4   /* the MIC isn't that of a content under this key */
#define TC_TOO_LONG 7    /* the sealed frame would have more than 127 bytes */

/* of all five */
#define TC_WRONG_ROOM 5  /* a buffer to write into doesn't have the required length */
#define TC_WRONG_KEY 6   /* a key doesn't have 16 bytes */

/* of tc_admin and tc_live, with the statuses of the programs tc and tc_centre */
#define TC_USAGE 2        /* `store` has room for less than 131,072 bytes, or `used->store` is more than that */
#define TC_SHORT_ANSWER 4 /* the answer doesn't fit into its buffer: `used->answer` says how many bytes it has */
#define TC_REFUSED 5      /* of tc_admin: a bad script. `used->at` is its first bad line, `used->cause` a TC_CAUSE */
#define TC_NO_MEMORY 6    /* memory ran out */
#define TC_NO_STORE 8     /* the store isn't empty, and has no record */
#define TC_LONG_INPUT 9   /* the script has more than 16,777,216 bytes, or a line of a session more than 1,048,576 */
#define TC_BAD_STORE 11   /* the store's record isn't that of a centre: `used->at` is the place of the fault */
#define TC_WORN 12        /* the store can't be written any more */

/* why a script was refused */
#define TC_CAUSE_SYNTAX 1
#define TC_CAUSE_DUPLICATE_NODE 2
#define TC_CAUSE_BLOCK 3
#define TC_CAUSE_UNKNOWN_NODE 4
#define TC_CAUSE_BAD_CODE 5
#define TC_CAUSE_BACKUP 6
#define TC_CAUSE_TOO_MANY 7
#define TC_CAUSE_NO_CENTRE 8

#define TC_KEY_BYTES 16    /* the bytes of a key and of a keyed hash */
#define TC_FRAME_ROOM 127  /* the bytes of the longest frame, and so of the longest content */
#define TC_STORE_ROOM 131072 /* the bytes of the largest store */

/* Writes the link key of an install code. `code` has the code and its CRC. `key` has 16 bytes. */
uint32_t tc_link_key(const uint8_t *code, size_t code_len, uint8_t *key, size_t key_len);

/* Writes the keyed hash of a message (05-3474-21, B.1.4). `key` and `hash` have 16 bytes. */
uint32_t tc_keyed(const uint8_t *key, size_t key_len, const uint8_t *message, size_t message_len, uint8_t *hash,
                  size_t hash_len);

/* What a frame opens to, except its content. */
struct tc_opened {
    uint64_t source;  /* the EUI of the node that sealed it */
    uint32_t counter; /* its frame counter */
    uint32_t len;     /* how many bytes its content has */
    uint8_t label;    /* the key identifier: 0 data, 1 network, 2 key-transport, 3 key-load */
    uint8_t control;  /* the security control byte, with level 5 in its low three bits */
};

/* Opens a secured NWK frame under a network key. `key` has 16 bytes, `content` at least 127. */
uint32_t tc_open_nwk(const uint8_t *frame, size_t frame_len, const uint8_t *key, size_t key_len, uint8_t *content,
                     size_t content_room, struct tc_opened *opened);

/* Opens a secured APS frame under a link key, which is the base key of all key identifiers. `key` has 16 bytes,
 * `content` at least 127. `source` is the EUI of the node that sealed the frame, or 0. It is used if the frame doesn't
 * name its source. */
uint32_t tc_open_aps(const uint8_t *frame, size_t frame_len, const uint8_t *key, size_t key_len, uint64_t source,
                     uint8_t *content, size_t content_room, struct tc_opened *opened);

/* Seals a NWK frame that is in clear: the header with the bit for security, the auxiliary header with the frame
 * counter and the source, and the content. `frame` gets the sealed frame, `len` its number of bytes, which is 4 more.
 * `key` has 16 bytes, `frame` at least 127. Use no counter twice under one key: somebody who has both frames can undo
 * their encryption. */
uint32_t tc_seal_nwk(const uint8_t *clear, size_t clear_len, const uint8_t *key, size_t key_len, uint8_t *frame,
                     size_t frame_room, size_t *len);

/* How much of the two buffers of tc_admin and tc_live is used. */
struct tc_used {
    size_t store;   /* how many bytes the store has, before the call and after it; 0 means no store */
    size_t answer;  /* how many bytes the answer has */
    uint32_t at;    /* where something was wrong: see TC_REFUSED and TC_BAD_STORE */
    uint32_t cause; /* why a script was refused */
};

/* The two calls of the centre. The store is the first `used->store` bytes of `store`, which has room for TC_STORE_ROOM.
 * After TC_DONE it has the new store, and `answer` has what the centre says, without a zero after it. Then
 *
 *   1. put the new store in place of the old one, so that a loss of power leaves one or the other, and sync it;
 *   2. and only then do what the answer says: send its frames, report its lines.
 *
 * If 1 fails, forget both buffers, and read the store again.
 *
 * Two calls that begin with the same store seal with the same frame counters. So never run two centres on one store:
 * hold a lock from before you read the store until the new one is written, and don't begin if another process has it.
 * That is also true if each event has its own process. If the store can't be read, stop: there is no store only if
 * there is no file.
 *
 * tc_admin runs a script of `tc admin`, and the answer is what that program writes. tc_live runs the lines of a session
 * of `tc_centre`, each of which ends with a line feed. Each call is a session of its own: it begins with the header and
 * `open`, and mostly has one event. Use 1 for both blocks of the centre: then the many sessions lose no counter and no
 * frame. */
uint32_t tc_admin(const uint8_t *script, size_t script_len, uint8_t *store, size_t store_room, uint8_t *answer,
                  size_t answer_room, struct tc_used *used);

uint32_t tc_live(const uint8_t *lines, size_t lines_len, uint8_t *store, size_t store_room, uint8_t *answer,
                 size_t answer_room, struct tc_used *used);

#ifdef __cplusplus
}
#endif

#endif
