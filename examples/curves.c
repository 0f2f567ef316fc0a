/*
 * The dip curves in a logger's image, at home: what the audit says, every curve
 * of the table, and whether the next dip finds room. An image that is not sound
 * is to be mended first.
 *
 * Built with: cc -Iinclude examples/curves.c target/staticlib/libheap.a
 */
#include <stdbool.h>
#include <stdint.h>
#include <stdio.h>
#include <string.h>

#include "curves.h"
#include "heap.h"

static uint8_t file[HEAP_IMAGE_BYTES(ARENA_BYTES) + 1]; /* one more: too long */
static uint8_t arena[ARENA_BYTES], other_arena[ARENA_BYTES];
static uint8_t record[HEAP_RECORD_BYTES], other_record[HEAP_RECORD_BYTES];

/* The file's bytes, as many as there is room for; 0 if it cannot be read. */
static size_t load(const char *path)
{
    FILE *from = fopen(path, "rb");
    if (from == NULL)
        return 0;
    size_t length = fread(file, 1, sizeof file, from);
    fclose(from);
    return length;
}

/* A release says whether a mem is a live block's; it is made on a copy. */
static bool live(uint32_t mem)
{
    memcpy(other_arena, arena, sizeof arena);
    memcpy(other_record, record, sizeof record);
    return mem != HEAP_NULL
        && heap_release(other_arena, sizeof other_arena, other_record,
                        sizeof other_record, mem).no == HEAP_DONE;
}

/* Whether a live block has a curve that ends in the arena. */
static bool curve_at(uint32_t mem)
{
    return live(mem)
        && curve_bytes(curve_head(arena, mem).samples) <= ARENA_BYTES - mem;
}

static void print_curves(void)
{
    for (uint32_t i = 0; i < CURVES; i++) {
        uint32_t mem = table_get(arena, i);
        if (curve_at(mem))
            curve_print(arena, mem);
        else if (mem != HEAP_NULL)
            printf("entry %u of the table, mem %u, is no curve\n", (unsigned)i,
                   (unsigned)mem);
    }
}

static void next_dip(uint16_t samples)
{
    struct heap_answer a = heap_grant(arena, sizeof arena, record,
                                      sizeof record, curve_bytes(samples));
    printf("the next dip, %u samples: ", (unsigned)samples);
    if (a.no == HEAP_DONE)
        printf("mem %u, %u usable\n", (unsigned)a.mem, (unsigned)a.usable);
    else
        printf("refused with %u\n", (unsigned)a.no);
}

int main(int argc, char **argv)
{
    if (argc != 2) {
        fputs("curves: give the file of an image\n", stderr);
        return 2;
    }
    struct heap_fault f =
        heap_read_image(file, load(argv[1]), arena, sizeof arena, record,
                        sizeof record);
    if (f.no != HEAP_DONE) {
        printf("no image of this logger: refused with %u\n", (unsigned)f.no);
        return 1;
    }
    if (f.kind != HEAP_SOUND) {
        printf("not sound, a fault of kind %u at %u: mend it first\n",
               (unsigned)f.kind, (unsigned)f.number);
        return 1;
    }
    puts("sound");
    if (!live(TABLE)) {
        puts("no table of curves");
        return 1;
    }
    print_curves();
    next_dip(200);
    return 0;
}
