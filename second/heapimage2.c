/*
 * Reads an image from standard input and prints what document 02's heapimage
 * prints of it. No image is longer than IMAGE_MAX; of longer input one byte
 * more is enough to see that, and the rest is left unread.
 *
 * The exit status is 0 unless reading or writing itself fails (1), or there is
 * another argument than one -v (2).
 */
#include <stdio.h>
#include <string.h>

#include "layout2.h"
#include "show2.h"

/* -v: the edition too. */
int main(int argc, char **argv)
{
    static uint8_t file[IMAGE_MAX + 1];
    bool with_edition = argc == 2 && strcmp(argv[1], "-v") == 0;

    if (argc > 1 && !with_edition) {
        fputs("heapimage2: the one option is -v\n", stderr);
        return 2;
    }
    size_t length = fread(file, 1, sizeof file, stdin);
    if (ferror(stdin)) {
        fputs("heapimage2: standard input cannot be read\n", stderr);
        return 1;
    }
    second_show_image(stdout, file, length, with_edition);
    if (fflush(stdout) != 0 || ferror(stdout)) {
        fputs("heapimage2: standard output cannot be written\n", stderr);
        return 1;
    }
    return 0;
}
