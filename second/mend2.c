#include "mend2.h"

#include <inttypes.h>
#include <stdbool.h>

#include "image2.h"
#include "layout2.h"
#include "repair2.h"

struct heap {
    uint8_t arena[ARENA_MAX];
    uint8_t record[RECORD_BYTES];
    size_t length;
};

/* Reads the heap of a file; answers a refusal's number, or 0. */
static uint32_t read_heap(struct heap *h, const uint8_t *file, size_t file_len)
{
    h->length = second_arena_in(file, file_len);
    return second_read_image(file, file_len, h->arena, h->length, h->record,
                             sizeof h->record).no;
}

static void print_changes(FILE *out, const struct heap *from,
                          const struct heap *to)
{
    for (unsigned i = 0; i < RECORD_BYTES / 4; i++) {
        uint32_t was = word_get(from->record, i), is = word_get(to->record, i);
        if (was != is)
            fprintf(out, "r %u %" PRIu32 " %" PRIu32 "\n", 4 * i, was, is);
    }
    for (uint32_t at = 0; at < from->length; at += 8) {
        uint64_t was = number_get(from->arena, at);
        uint64_t is = number_get(to->arena, at);
        if (was != is)
            fprintf(out, "a %" PRIu32 " %" PRIu64 " %" PRIu64 "\n", at, was,
                    is);
    }
}

size_t second_mend_image(FILE *out, const uint8_t *file, size_t file_len,
                         uint8_t *mended)
{
    static struct heap as_read, heap;

    uint32_t no = read_heap(&heap, file, file_len);
    as_read = heap;
    if (no == 0)
        no = second_repair_by(version_get(file), heap.arena, heap.length,
                              heap.record, sizeof heap.record).no;
    if (no != 0) {
        fprintf(out, "? %" PRIu32 "\n", no);
        return 0;
    }
    print_changes(out, &as_read, &heap);
    size_t length = arena_at(NEWEST) + heap.length;
    second_write_image(heap.arena, heap.length, heap.record,
                       sizeof heap.record, mended, length);
    return length;
}
