/*
 * Buffers between guards: pages nobody may touch on both sides, and the byte
 * 0xa5 up to them.
 */
#ifndef GUARDED_H
#define GUARDED_H

#include <stdbool.h>
#include <stddef.h>
#include <stdint.h>

struct guarded {
    uint8_t *map;
    size_t size, length, page;
    uint8_t *bytes;
};

/* That many bytes, with slack bytes between their end and the next page. */
struct guarded guard(size_t length, size_t slack);

/* Lends other bytes of the same pages, which have room for them. */
void guard_again(struct guarded *g, size_t length, size_t slack);

/* Whether every byte up to the pages is as it was. */
bool guard_kept(const struct guarded *g);
void guard_free(struct guarded *g);

#endif
