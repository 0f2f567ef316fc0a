/*
 * What heapmend prints of an image, and the image it leaves.
 */
#ifndef MEND2_H
#define MEND2_H

#include <stddef.h>
#include <stdint.h>
#include <stdio.h>

/*
 * Prints what heapmend prints of a file of that many bytes: a line for each
 * number that the repair by the rules of its version changes, first of the
 * record, then of the arena; or one line with the number of a refusal, 6, 7, 1
 * or 11. What reading an old heap adds is not among the lines. Fills mended,
 * which has room for any image, with the newest image of the heap as it then
 * is, and answers that one's length; 0, and nothing is written there, if it was
 * refused.
 */
size_t second_mend_image(FILE *out, const uint8_t *file, size_t file_len,
                         uint8_t *mended);

#endif
