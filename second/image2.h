/*
 * A heap in a file: document 02's request (iv), for the heaps of heap2.h, with
 * the versions 2 of request (viii), 3 of request (x) and 4 of request (xi).
 * The calls work on lent bytes alone; no two of the buffers may overlap, and
 * none needs any alignment.
 */
#ifndef IMAGE2_H
#define IMAGE2_H

#include "heap2.h"

/*
 * Fills the file with the image of a heap, sound or not, of version 4. Refused
 * with 1: the shape of arena or record, or a file that is not exactly the
 * image's length. A refusal writes nothing.
 */
struct second_answer second_write_image(const uint8_t *arena, size_t arena_len,
                                        const uint8_t *record,
                                        size_t record_len, uint8_t *file,
                                        size_t file_len);

/*
 * Fills arena and record with the heap of an image, and answers its audit by
 * the rules of the image's version. One of version 1 to 3 is of edition 1. One
 * of version 1 gets the key 0, and if it is sound, so do its cached chunks; a
 * sound one of version 1 or 2 gets its skip links. no is 0, or a refusal's
 * number, the first of 6 (mark), 7 (version) and 1 (a length); kind and number
 * are then 0, and nothing is written.
 */
struct second_fault second_read_image(const uint8_t *file, size_t file_len,
                                      uint8_t *arena, size_t arena_len,
                                      uint8_t *record, size_t record_len);

/*
 * The length of the arena to lend for a file: as much as it has behind its
 * record; 0 if it has none, or too much for any.
 */
size_t second_arena_in(const uint8_t *file, size_t file_len);

#endif
