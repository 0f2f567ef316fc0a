/*
 * Bytes lent to the calls, exactly as many as are asked for, so that a
 * sanitizer sees the first byte outside; images put together by hand; and what
 * is printed. For tests only.
 */
#ifndef FILES_H
#define FILES_H

#include <stdbool.h>
#include <stddef.h>
#include <stdint.h>
#include <stdio.h>

#include "check.h"

#define NEWEST 4u /* of the versions; this one is written */

struct bytes {
    uint8_t *at;
    size_t length;
};

struct bytes filled(size_t length, uint8_t fill);
struct bytes copy_of(const uint8_t *from, size_t length);
bool all_are(const struct bytes *b, uint8_t fill);

/*
 * Where the arena begins in an image; one of version 1 has no key, and one
 * older than 4 no edition.
 */
size_t arena_in(unsigned version);

/* The image of a heap, in any version. */
struct bytes image_by_hand(const struct lent *l, unsigned version);

/* Takes what is printed; then its text, which stays until the next one's. */
FILE *open_text(void);
const char *end_text(FILE *out);

#endif
