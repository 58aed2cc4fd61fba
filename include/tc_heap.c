/* The memory of tc_admin and tc_live: three functions over the heap of the C library. Compile this file with your
 * program, or write the three over a heap of your own. A block of 16 bytes or more is aligned to 16 bytes. */
#include <stdbool.h>
#include <stddef.h>
#include <stdlib.h>

/* Whether there was memory, and where. */
struct rattle_tried {
    bool ok;
    void *block;
};

static struct rattle_tried tried(void *block) {
    static char nowhere[16];
    struct rattle_tried it = {block != NULL, block ? block : nowhere};
    return it;
}

/* Allocates a block of `len` bytes, aligned to `align`, a divisor of 16. */
struct rattle_tried rattle_alloc(size_t len, size_t align);
struct rattle_tried rattle_alloc(size_t len, size_t align) { return tried(malloc(len ? len : align)); }

/* Makes a block larger or smaller, and keeps its first `kept` bytes. If that fails, the block is unchanged. */
struct rattle_tried rattle_realloc(void *block, size_t kept, size_t len, size_t align);
struct rattle_tried rattle_realloc(void *block, size_t kept, size_t len, size_t align) {
    (void)kept;
    return tried(realloc(block, len ? len : align));
}

/* Frees a block. */
void rattle_dealloc(void *block);
void rattle_dealloc(void *block) { free(block); }
