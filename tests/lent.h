/* Buffers lent to the library: bytes before and after each are watched, and a copy tells what a call changed.
 *
 * The library has no instrumentation, so a sanitizer of the calling side does not see its stores: the watched bytes do. Under valgrind,
 * which sees them, watched = 0 makes every buffer a block of its own length. */
#ifndef LENT_H
#define LENT_H
#include <stdint.h>
#include <stdlib.h>
#include <string.h>

#define WATCH_BYTE 0xA5

static size_t watched = 256; /* bytes on each side */

struct lent {
    uint8_t *block; /* the bytes with those watched around them */
    uint8_t *bytes;
    uint8_t *before; /* the block at the last note */
    size_t n;
};

static inline uint8_t *block_of(size_t n) {
    uint8_t *b = malloc(n);
    if (!b && n) abort();
    return b;
}

/* n bytes, all of them `fill`. */
static inline struct lent lend(size_t n, uint8_t fill) {
    struct lent l = {block_of(n + 2 * watched), NULL, block_of(n + 2 * watched), n};
    l.bytes = l.block + watched;
    memset(l.block, WATCH_BYTE, n + 2 * watched);
    memset(l.bytes, fill, n);
    memcpy(l.before, l.block, n + 2 * watched);
    return l;
}

static inline void give_back(struct lent *l) {
    free(l->block);
    free(l->before);
    l->block = l->bytes = l->before = NULL;
}

/* Keeps what the buffer and the bytes around it are now. */
static inline void note(struct lent *l) {
    memcpy(l->before, l->block, l->n + 2 * watched);
}

/* Whether the bytes from `from` on, and those around the buffer, are as noted. */
static inline int kept_from(const struct lent *l, size_t from) {
    return memcmp(l->block, l->before, watched) == 0 && memcmp(l->bytes + from, l->before + watched + from, l->n - from + watched) == 0;
}

static inline int kept(const struct lent *l) {
    return kept_from(l, 0);
}
#endif
