/*
 * Reads an image from standard input and prints what document 02's heapmend
 * prints of it. With -o FILE it writes the mended image, which takes the file's
 * place when it is whole; if the image is refused there is none. No image is
 * longer than IMAGE_MAX; of longer input one byte more is enough to see that,
 * and the rest is left unread.
 *
 * The exit status is 0 unless reading or writing itself fails (1), or there are
 * other arguments (2).
 */
#define _POSIX_C_SOURCE 200809L

#include <stdbool.h>
#include <stdio.h>
#include <stdlib.h>
#include <string.h>
#include <sys/stat.h>

#include "layout2.h"
#include "mend2.h"

static const char suffix[] = ".part";

/* Only a file can be replaced, not a folder and no device. */
static bool replaceable(const char *path)
{
    struct stat s;
    return stat(path, &s) != 0 || S_ISREG(s.st_mode);
}

static bool written(FILE *to, const uint8_t *bytes, size_t length)
{
    bool whole = fwrite(bytes, 1, length, to) == length;
    return fclose(to) == 0 && whole;
}

/* Under another name first, so that what is at the path is never half of it. */
static bool save(const char *path, const uint8_t *bytes, size_t length)
{
    char *part = malloc(strlen(path) + sizeof suffix);
    bool saved = false;

    if (part == NULL)
        return false;
    strcpy(part, path);
    strcat(part, suffix);
    FILE *to = replaceable(path) ? fopen(part, "wb") : NULL;
    if (to != NULL) {
        saved = written(to, bytes, length) && rename(part, path) == 0;
        if (!saved)
            remove(part);
    }
    free(part);
    return saved;
}

/* -o FILE: writes the image too. */
int main(int argc, char **argv)
{
    static uint8_t file[IMAGE_MAX + 1], mended[IMAGE_MAX];
    const char *path = argc == 3 && strcmp(argv[1], "-o") == 0 ? argv[2] : "";

    if (argc > 1 && *path == '\0') {
        fputs("heapmend2: the one option is a file, -o FILE\n", stderr);
        return 2;
    }
    size_t length = fread(file, 1, sizeof file, stdin);
    if (ferror(stdin)) {
        fputs("heapmend2: standard input cannot be read\n", stderr);
        return 1;
    }
    length = second_mend_image(stdout, file, length, mended);
    if (fflush(stdout) != 0 || ferror(stdout)) {
        fputs("heapmend2: standard output cannot be written\n", stderr);
        return 1;
    }
    if (*path != '\0' && length != 0 && !save(path, mended, length)) {
        fprintf(stderr, "heapmend2: %s cannot be written\n", path);
        return 1;
    }
    return 0;
}
