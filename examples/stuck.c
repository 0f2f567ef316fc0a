/*
 * A logger that gets stuck, by a bug: a dip's last sample comes late, when the
 * curve is sent and its block released, and is written there all the same. By
 * then the block is in the cache, and its first bytes are a link to the next
 * one there. The next call is refused, and the logger writes its image. What is
 * done with that at home is in stuck.expected; curves.c is the last step.
 *
 * Built with: cc -Iinclude examples/stuck.c target/staticlib/libheap.a
 */
#include <stdbool.h>
#include <stdint.h>
#include <stdio.h>
#include <string.h>

#include "curves.h"
#include "heap.h"

/* The heap's key, drawn once at random for this product. */
#define KEY 0x3fa1c6d20b957e48u

static _Alignas(16) uint8_t arena[ARENA_BYTES];
static uint8_t record[HEAP_RECORD_BYTES];
static uint8_t image[HEAP_IMAGE_BYTES(ARENA_BYTES)];
static uint32_t filling; /* mem of the curve that the probe fills */

static struct heap_answer grant(uint64_t n)
{
    return heap_grant(arena, sizeof arena, record, sizeof record, n);
}

static void table_put(uint32_t i, uint32_t mem)
{
    memcpy(arena + TABLE + i * sizeof mem, &mem, sizeof mem);
}

static void open_table(void)
{
    heap_open(arena, sizeof arena, record, sizeof record, KEY,
              HEAP_LINKS_MIXED);
    grant(CURVES * sizeof(uint32_t)); /* the first: at mem TABLE */
    for (uint32_t i = 0; i < CURVES; i++)
        table_put(i, HEAP_NULL);
}

/* Behind those that the curve has. */
static void add_sample(int16_t tenths)
{
    struct curve_head head = curve_head(arena, filling);
    memcpy(arena + filling + curve_bytes(head.samples), &tenths,
           sizeof tenths);
    head.samples++;
    memcpy(arena + filling, &head, sizeof head);
}

/* The probe heats up, and stays on a plateau. */
static void take_samples(uint16_t heat, uint16_t samples)
{
    for (int i = 0; i < samples; i++)
        add_sample((int16_t)(16200 + 9 * heat - (i < 40 ? 50 * (40 - i) : 0)));
}

static void dip(uint16_t heat)
{
    struct curve_head head = { heat, 0 };
    uint16_t samples = heat % 3 == 1 ? 100 : 200;
    struct heap_answer a = grant(curve_bytes(samples));

    printf("dip %2u, %u samples: ", (unsigned)heat, (unsigned)samples);
    if (a.no != HEAP_DONE) {
        printf("refused with %u\n", (unsigned)a.no);
        return;
    }
    printf("mem %4u\n", (unsigned)a.mem);
    filling = a.mem;
    memcpy(arena + filling, &head, sizeof head);
    table_put(heat - 1u, filling);
    take_samples(heat, samples);
}

/* The bug: filling is not cleared where it is the curve that is sent. */
static void send_curve(uint16_t heat)
{
    uint32_t mem = table_get(arena, heat - 1u);
    table_put(heat - 1u, HEAP_NULL);
    heap_release(arena, sizeof arena, record, sizeof record, mem);
}

static void print_held(void)
{
    for (uint32_t i = 0; i < CURVES; i++)
        if (table_get(arena, i) != HEAP_NULL)
            curve_print(arena, table_get(arena, i));
}

static bool save_image(const char *path)
{
    heap_write_image(arena, sizeof arena, record, sizeof record, image,
                     sizeof image);
    FILE *file = fopen(path, "wb");
    bool whole = file != NULL
        && fwrite(image, 1, sizeof image, file) == sizeof image;
    return file != NULL && fclose(file) == 0 && whole;
}

int main(int argc, char **argv)
{
    static const uint16_t sent[] = { 2, 3, 4, 7, 9 };

    if (argc != 2) {
        fputs("stuck: give a file for the image\n", stderr);
        return 2;
    }
    open_table();
    for (uint16_t heat = 1; heat <= 9; heat++)
        dip(heat);
    for (unsigned i = 0; i < sizeof sent / sizeof sent[0]; i++)
        send_curve(sent[i]);
    puts("dips 2, 3, 4, 7 and 9 are sent, and their blocks released");
    dip(10);
    send_curve(10);
    puts("dip 10 is sent, and its block released; held are");
    print_held();

    printf("a last sample of dip 10 comes late, for mem %u\n",
           (unsigned)filling);
    add_sample(16290);
    dip(11);
    if (!save_image(argv[1])) {
        fprintf(stderr, "stuck: %s cannot be written\n", argv[1]);
        return 1;
    }
    printf("%s: %u bytes\n", argv[1], (unsigned)sizeof image);
    return 0;
}
