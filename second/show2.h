/*
 * What heapimage shows of a heap: the audit's answer, and its tiles.
 */
#ifndef SHOW2_H
#define SHOW2_H

#include <stdbool.h>
#include <stddef.h>
#include <stdint.h>
#include <stdio.h>

/*
 * Prints what heapimage prints of a file of that many bytes; with the edition,
 * as -v asks for, the number in the record as it was read stands behind the
 * first line.
 */
void second_show_image(FILE *out, const uint8_t *file, size_t file_len,
                       bool with_edition);

#endif
