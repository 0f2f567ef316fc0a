#include "show2.h"

#include <inttypes.h>

#include "image2.h"
#include "layout2.h"
#include "tiles2.h"

static void print_fault(FILE *out, struct second_fault f)
{
    static const char *const name[] = { "sound",      "fault record",
                                        "fault tile", "fault cache",
                                        "fault fast", "fault bin",
                                        "fault flag" };

    fputs(name[f.kind], out);
    if (f.kind != SECOND_SOUND && f.kind != SECOND_RECORD)
        fprintf(out, " %" PRIu32, f.number);
    putc('\n', out);
}

static void print_tile(FILE *out, const struct second_tile *t)
{
    static const char *const name[] = { "live", "cache", "fast", "bin", "top" };

    fprintf(out, "%" PRIu32 " %" PRIu32 " %s", t->offset, t->size,
            name[t->state]);
    if (t->state != SECOND_IS_LIVE && t->state != SECOND_IS_TOP)
        fprintf(out, " %" PRIu32, t->number);
    putc('\n', out);
}

void second_show_image(FILE *out, const uint8_t *file, size_t file_len,
                       bool with_edition)
{
    static uint8_t arena[ARENA_MAX], record[RECORD_BYTES];
    static struct second_tile tile[SECOND_TILES_MAX];

    size_t length = second_arena_in(file, file_len);
    struct second_fault f = second_read_image(file, file_len, arena, length,
                                              record, sizeof record);
    if (f.no != 0) {
        fprintf(out, "? %" PRIu32 "\n", f.no);
        return;
    }
    fprintf(out, "image %" PRIu32 " %zu\n", version_get(file), length);
    if (with_edition)
        fprintf(out, "edition %" PRIu32 "\n", word_get(record, EDITION));
    print_fault(out, f);
    if (f.kind == SECOND_RECORD || f.kind == SECOND_TILE)
        return;
    uint32_t tiles = second_tiles(arena, (uint32_t)length, record,
                                  version_get(file), tile);
    for (uint32_t i = 0; i < tiles; i++)
        print_tile(out, &tile[i]);
}
