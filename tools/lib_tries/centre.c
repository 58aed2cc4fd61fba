/* Tests the centre in the library for C: worked scripts and lines, each number, memory that runs out at each place, and
 * changed scripts, lines and stores in buffers of their own length. */
#define BARE_ROUNDS 100
#include "tries.h"

#include <stdbool.h>

/* ---- the memory of the calls: it is counted, and it runs out after so many blocks */

#if __STDC_HOSTED__
#define TAKE(len) malloc((len) ? (len) : 1)
#define GIVE(block) free(block)
#define MOVE(block, kept, len) realloc(block, (len) ? (len) : 1)
#define KEEP()
#define FORGET()
#else
void *memcpy(void *into, const void *from, size_t len);
static uint8_t heap[16 << 20] __attribute__((aligned(16)));
static size_t top, base;
#define TAKE(len) (top += ((len) + 31) & ~(size_t)15, heap + top - (((len) + 31) & ~(size_t)15))
#define GIVE(block) (void)(block)
#define MOVE(block, kept, len) memcpy(TAKE(len), block, (kept) < (len) ? (kept) : (len))
/* KEEP keeps all blocks so far, and FORGET drops all blocks since. */
#define KEEP() (base = top)
#define FORGET() (top = base)
#endif

struct rattle_tried {
    bool ok;
    void *block;
};

static long held, left = -1;

/* Counts one more block, and returns whether there is memory. */
static bool has_memory(void) { return left < 0 || left-- > 0; }

struct rattle_tried rattle_alloc(size_t len, size_t align);
struct rattle_tried rattle_alloc(size_t len, size_t align) {
    struct rattle_tried it = {has_memory(), &held};
    (void)align;
    if (it.ok) it.block = TAKE(len);
    held += it.ok;
    return it;
}

struct rattle_tried rattle_realloc(void *block, size_t kept, size_t len, size_t align);
struct rattle_tried rattle_realloc(void *block, size_t kept, size_t len, size_t align) {
    struct rattle_tried it = {has_memory(), &held};
    (void)kept, (void)align;
    if (it.ok) it.block = MOVE(block, kept, len);
    return it;
}

void rattle_dealloc(void *block);
void rattle_dealloc(void *block) {
    held--;
    GIVE(block);
}

/* ---- a call, and its results */

typedef uint32_t (*call)(const uint8_t *, size_t, uint8_t *, size_t, uint8_t *, size_t, struct tc_used *);

static uint8_t store[TC_STORE_ROOM], copy[TC_STORE_ROOM], answer[4096], earlier[4096];

/* Calls with room for so many bytes of an answer. Returns the number of the call, or 1000 and the failed line. */
static uint32_t answered(call by, const char *text, size_t len, uint8_t *out, size_t room, struct tc_used *used) {
    size_t before = used->store;
    for (size_t at = 0; at < TC_STORE_ROOM; at++) copy[at] = store[at];
    mark(out, room);
    FORGET();
    uint32_t number = by((const uint8_t *)text, len, store, TC_STORE_ROOM, out, room, used);
    if (held) return 1000 + __LINE__;
    if (number == TC_DONE) {
        if (used->store > TC_STORE_ROOM || used->answer > room) return 1000 + __LINE__;
        if (!all_marked(out + used->answer, room - used->answer)) return 1000 + __LINE__;
        if (!same(store + used->store, copy + used->store, TC_STORE_ROOM - used->store)) return 1000 + __LINE__;
    } else {
        if (used->store != before || !all_marked(out, room)) return 1000 + __LINE__;
        if (!same(store, copy, TC_STORE_ROOM)) return 1000 + __LINE__;
        if (number == TC_SHORT_ANSWER && used->answer <= room) return 1000 + __LINE__;
    }
    return number;
}

static size_t length(const char *text) {
    size_t len = 0;
    while (text[len]) len++;
    return len;
}

static int is_text(const uint8_t *bytes, size_t len, const char *text) {
    return len == length(text) && same(bytes, (const uint8_t *)text, len);
}

#define HEADER "centre c 00124B0000000001 1 1\npeer d device 00124B0000000002 1A2B\n"
#define INIT HEADER "init 000102030405060708090A0B0C0D0E0F\n"
#define OPEN HEADER "open\n"
#define CODE "83FED3407A939723A5C639B26916D505C3B5"

/* ---- worked scripts and lines */

static uint32_t ask(call by, const char *text, size_t room, struct tc_used *used) {
    return answered(by, text, length(text), answer, room, used);
}

static int refusals(void) {
    struct tc_used used = {0, 0, 0, 0};
    CHECK(tc_admin((const uint8_t *)INIT, length(INIT), store, TC_STORE_ROOM - 1, answer, 9, &used) == TC_USAGE);
    CHECK(tc_live((const uint8_t *)OPEN, length(OPEN), store, TC_STORE_ROOM - 1, answer, 9, &used) == TC_USAGE);
    used.store = TC_STORE_ROOM + 1;
    CHECK(tc_admin((const uint8_t *)INIT, length(INIT), store, TC_STORE_ROOM, answer, 9, &used) == TC_USAGE);
    used.store = 0;
    CHECK(ask(tc_admin, HEADER "boom\n", 9, &used) == TC_REFUSED && used.at == 3 && used.cause == TC_CAUSE_SYNTAX);
    CHECK(ask(tc_admin, "", 9, &used) == TC_REFUSED && used.at == 1 && used.cause == TC_CAUSE_NO_CENTRE);
    CHECK(ask(tc_admin, HEADER "provision e " CODE "\n", 9, &used) == TC_REFUSED);
    CHECK(used.at == 3 && used.cause == TC_CAUSE_UNKNOWN_NODE);
    CHECK(ask(tc_admin, HEADER "list\n", 64, &used) == TC_DONE && is_text(answer, used.answer, "refuse 3 empty\n"));
    CHECK(used.store == 0 && ask(tc_live, OPEN, 64, &used) == TC_DONE && used.store == 0);
    CHECK(is_text(answer, used.answer, "ok 1\nok 2\nrefuse 3 empty\n"));
    mark(store, TC_STORE_ROOM);
    used.store = 300;
    CHECK(ask(tc_admin, HEADER "list\n", 9, &used) == TC_NO_STORE && ask(tc_live, OPEN, 64, &used) == TC_NO_STORE);
    return 0;
}

static int joins(void) {
    struct tc_used used = {0, 0, 0, 0};
    CHECK(ask(tc_admin, INIT, 4, &used) == TC_SHORT_ANSWER && used.answer == 5 && used.store == 0);
    CHECK(ask(tc_admin, INIT, 5, &used) == TC_DONE && is_text(answer, used.answer, "ok 3\n") && used.store > 0);
    CHECK(ask(tc_admin, INIT, 64, &used) == TC_DONE && is_text(answer, used.answer, "refuse 3 exists\n"));
    CHECK(ask(tc_admin, HEADER "provision d " CODE "\n", 64, &used) == TC_DONE);
    CHECK(is_text(answer, used.answer, "ok 3\n"));
    size_t first = 0;
    for (int times = 0; times < 2; times++) {
        CHECK(ask(tc_live, OPEN "child d join\n", sizeof answer, &used) == TC_DONE);
        CHECK(same(answer + used.answer - 5, (const uint8_t *)"ok 4\n", 5));
        CHECK(times == 0 || used.answer != first || !same(answer, earlier, first));
        first = used.answer;
        for (size_t at = 0; at < first; at++) earlier[at] = answer[at];
    }
    return 0;
}

/* If memory runs out at the nth block, nothing is written, and all blocks are freed. */
static int short_of_memory(call by, const char *text) {
    struct tc_used used = {0, 0, 0, 0};
    CHECK(ask(tc_admin, INIT, 64, &used) == TC_DONE);
    for (long blocks = 0; blocks < 1000; blocks++) {
        left = blocks;
        uint32_t number = ask(by, text, sizeof answer, &used);
        left = -1;
        if (number == TC_DONE) return blocks > 3 ? 0 : __LINE__;
        CHECK(number == TC_NO_MEMORY);
    }
    return __LINE__;
}

#if __STDC_HOSTED__
static int long_inputs(void) {
    static char text[16777217 + 1];
    struct tc_used used = {0, 0, 0, 0};
    for (size_t at = 0; at < sizeof text - 1; at++) text[at] = '#';
    CHECK(answered(tc_admin, text, 16777217, answer, 9, &used) == TC_LONG_INPUT);
    CHECK(answered(tc_admin, text, 16777216, answer, 9, &used) == TC_REFUSED && used.cause == TC_CAUSE_NO_CENTRE);
    CHECK(answered(tc_live, text, 1048577, answer, 9, &used) == TC_LONG_INPUT);
    CHECK(answered(tc_live, text, 1048576, answer, 9, &used) == TC_DONE && used.answer == 0);
    return 0;
}
#endif

/* ---- changed scripts, lines and stores */

static const char *const texts[] = {
    INIT "provision d " CODE "\nlist\nremove d via c\nbackup\n",
    OPEN "provision d " CODE "\nchild d join\nsay FFFF 0102\nroll 101112131415161718191A1B1C1D1E1F\ntimer\nswitch\n"
         "list\n",
};

static uint8_t change(uint8_t byte) { return dice(3) ? (uint8_t)(byte ^ 1u << dice(8)) : (uint8_t)dice(256); }

static int changed_call(void) {
    uint32_t which = dice(2);
    size_t len = length(texts[which]), room = dice(2) ? 2048 : dice(300);
    char *text = (char *)TAKE(len);
    uint8_t *out = TAKE(room);
    KEEP();
    struct tc_used used = {0, 0, 0, 0};
    CHECK(ask(tc_admin, INIT, 64, &used) == TC_DONE);
    for (size_t at = 0; at < len; at++) text[at] = texts[which][at];
    for (uint32_t times = dice(3); times--;) text[dice((uint32_t)len)] ^= (char)(1 << dice(7));
    for (uint32_t times = dice(2) * dice(9); times--;) {
        uint32_t at = dice((uint32_t)used.store);
        store[at] = change(store[at]);
    }
    if (!dice(8)) used.store = dice(2) ? dice((uint32_t)used.store) : used.store + dice(99);
    if (!dice(9)) len = dice((uint32_t)len);
    uint32_t number = answered(which ? tc_live : tc_admin, text, len, out, room, &used);
    if (number > 1000) return (int)number - 1000;
    CHECK(number <= TC_WORN && number != 1 && number != 3 && number != 7 && number != 10 && number != TC_NO_MEMORY);
    GIVE(text);
    GIVE(out);
    return 0;
}

static int tried(long changed) {
    int line = refusals();
    if (!line) line = joins();
    if (!line) line = short_of_memory(tc_admin, HEADER "provision d " CODE "\nbackup\n");
    if (!line) line = short_of_memory(tc_live, OPEN "provision d " CODE "\nchild d join\nbackup\n");
#if __STDC_HOSTED__
    if (!line) line = long_inputs();
#endif
    while (!line && changed--) {
        line = changed_call();
#if !__STDC_HOSTED__
        top = base = 0;
#endif
    }
    return line;
}
