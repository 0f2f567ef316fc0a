#include "files.h"

#include <stdlib.h>
#include <string.h>

#include "plain.h"

struct bytes filled(size_t length, uint8_t fill)
{
    struct bytes b = { malloc(length + (length == 0)), length };
    if (b.at == NULL) {
        fputs("no memory for the test's own buffers\n", stderr);
        exit(2);
    }
    memset(b.at, fill, length);
    return b;
}

struct bytes copy_of(const uint8_t *from, size_t length)
{
    struct bytes b = filled(length, 0);
    memcpy(b.at, from, length);
    return b;
}

bool all_are(const struct bytes *b, uint8_t fill)
{
    for (size_t i = 0; i < b->length; i++)
        if (b->at[i] != fill)
            return false;
    return true;
}

size_t arena_in(unsigned version)
{
    return version == 1 ? 1581 : version <= 3 ? 1589 : 1593;
}

struct bytes image_by_hand(const struct lent *l, unsigned version)
{
    size_t at = arena_in(version);
    struct bytes file = filled(at + l->length, 0x5a);

    memcpy(file.at, "HPI", 3);
    plain_put(file.at + 3, 2, version);
    plain_put(file.at + 5, 4, l->length);
    memcpy(file.at + 9, l->record, at - 9);
    memcpy(file.at + at, l->arena, l->length);
    return file;
}

FILE *open_text(void)
{
    FILE *out = tmpfile();
    if (out == NULL) {
        fputs("no temporary file for what is printed; see TMPDIR\n", stderr);
        exit(2);
    }
    return out;
}

const char *end_text(FILE *out)
{
    static char text[1 << 22];

    rewind(out);
    text[fread(text, 1, sizeof text - 1, out)] = '\0';
    fclose(out);
    return text;
}
