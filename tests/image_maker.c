/*
 * Writes images for heapimage and heapmend:
 *
 *     image_maker FOLDER COUNT      writes FOLDER/1 .. FOLDER/COUNT
 *     image_maker FOLDER samples    writes the samples of version 4 there
 *
 * The former are random, each by its own seed, so that image i is the same on
 * every machine: of every version, of sound heaps, of heaps damaged in many
 * ways, and files that are spoilt. The latter are those of tests/images.
 */
#include <stdbool.h>
#include <stdio.h>
#include <stdlib.h>
#include <string.h>

#include "image2.h"
#include "plain.h"
#include "random_heap.h"

#define HEADER 9u
#define LONGER 4096

static uint8_t arena[PLAIN_ARENA_MAX];
static uint8_t record[PLAIN_RECORD_BYTES];
static uint8_t file[HEADER + PLAIN_RECORD_BYTES + PLAIN_ARENA_MAX + LONGER];
static size_t file_length;

/*
 * A sound heap, or one that breaks a rule throughout, and damage to it. If it
 * is sound, it is of edition 1 in an image older than version 4.
 */
static void make_heap(struct random *r, unsigned version, uint32_t length)
{
    enum flaw flaw = random_chance(r, 80) ? FLAW_NONE
                                          : 1 + random_below(r, FLAW_COUNT - 1);
    flawed_heap(r, flaw, arena, length, record);
    if (flaw == FLAW_NONE && version < 4)
        plain_to_edition(arena, record, 1);
    switch (random_below(r, 16)) {
    case 0: case 1: case 2: damage_lists(r, arena, length, record); break;
    case 3: case 4: case 5: damage_field(r, arena, length, record); break;
    case 6: damage_bytes(r, arena, length, record); break;
    case 7: damage_key(r, arena, record); break;
    case 8: plain_put_key(record, random_key(r)); break;
    case 9: damage_skip(r, arena, record); break;
    case 10: damage_link(r, arena, record); break;
    case 11: damage_edition(r, record); break;
    case 12: plain_put_edition(record, random_edition(r)); break;
    default: break;
    }
}

static void put_image(unsigned version, uint32_t length)
{
    size_t record_bytes = version == 1 ? 1572
        : version <= 3                 ? 1580
                                       : PLAIN_RECORD_BYTES;

    memcpy(file, "HPI", 3);
    plain_put(file + 3, 2, version);
    plain_put(file + 5, 4, length);
    memcpy(file + HEADER, record, record_bytes);
    memcpy(file + HEADER + record_bytes, arena, length);
    file_length = HEADER + record_bytes + length;
}

static void make_image(struct random *r)
{
    uint32_t length = random_chance(r, 50) ? 2048 + 16 * random_below(r, 512)
        : random_length(r, random_chance(r, 10) ? PLAIN_ARENA_MAX : 8192);

    unsigned version =
        random_chance(r, 40) ? 4 : 1 + random_below(r, 3);

    make_heap(r, version, length);
    put_image(version, length);
}

/* Another length, near the file's own or far from it, allowed or not. */
static uint32_t other_length(struct random *r)
{
    uint32_t length = (uint32_t)plain_get(file + 5, 4);
    switch (random_below(r, 5)) {
    case 0: return length + 16;
    case 1: return length - 16;
    case 2: return length + 1 + random_below(r, 15);
    case 3: return length ^ ((uint32_t)1 << random_below(r, 32));
    default: return (uint32_t)random_next(r);
    }
}

static void lengthen(struct random *r)
{
    size_t by = 1 + random_below(r, LONGER);
    if (by > sizeof file - file_length)
        by = sizeof file - file_length;
    random_bytes(r, file + file_length, by);
    file_length += by;
}

static void spoil(struct random *r)
{
    static const uint32_t version[] = { 0,   1,   2,   3,   4,   5,
                                        256, 257, 258, 260, 65535 };

    switch (random_below(r, 6)) {
    case 0: random_bytes(r, file + random_below(r, HEADER), 1); break;
    case 1: plain_put(file + 3, 2, version[random_below(r, 11)]); break;
    case 2: plain_put(file + 5, 4, other_length(r)); break;
    case 3: file_length = random_below(r, 12); break;
    case 4: file_length = random_below(r, (uint32_t)file_length); break;
    default: lengthen(r); break;
    }
}

/* Ends the program if the file cannot be written whole. */
static void write_image(const char *folder, const char *name)
{
    char path[4096];
    snprintf(path, sizeof path, "%s/%s", folder, name);
    FILE *out = fopen(path, "wb");
    bool whole = out != NULL
        && fwrite(file, 1, file_length, out) == file_length;
    if (out == NULL || fclose(out) != 0 || !whole) {
        fprintf(stderr, "image_maker: cannot write %s\n", path);
        exit(1);
    }
}

static void write_random(const char *folder, unsigned images)
{
    for (unsigned i = 1; i <= images; i++) {
        struct random r = { i };
        char name[16];
        make_image(&r);
        while (random_chance(&r, 12))
            spoil(&r);
        snprintf(name, sizeof name, "%u", i);
        write_image(folder, name);
    }
}

/* ---- samples ---- */

#define SAMPLE_KEY 0x9d3f5b17e8c4620au

#define MELT \
    "17G24 G1048 G100 G40 G200 R16 R48 R80 R112 R144 R176 R208 R240 R272 " \
    "R304 R336 R400 R432 R560 G1500 G72 R496 R1728 R1776"
#define MIXED \
    "G4072 9G24 G3800 2G24 G200 G24 R4096 R4128 R4160 R4192 R4224 R4256 " \
    "R8192 R4288 R4320 R8256"

/* Grants and releases, such as 17G24 and R16, in an arena of that length. */
static void perform(const char *calls, uint32_t length)
{
    while (*calls != '\0') {
        char *at;
        unsigned long times = strtoul(calls, &at, 10);
        char letter = *at;
        uint64_t number = strtoul(at + 1, &at, 10);
        for (unsigned long i = 0; i < (times == 0 ? 1 : times); i++)
            if (letter == 'G')
                second_grant(arena, length, record, sizeof record, number);
            else
                second_release(arena, length, record, sizeof record, number);
        calls = *at == ' ' ? at + 1 : at;
    }
}

/* What the calls leave, with one byte of its image changed. */
static void write_sample(const char *folder, const char *name,
                         uint32_t edition, const char *calls, uint32_t length,
                         size_t at, uint8_t byte)
{
    memset(arena, 0xa5, length);
    second_open(arena, length, record, sizeof record, SAMPLE_KEY, edition);
    perform(calls, length);
    file_length = HEADER + PLAIN_RECORD_BYTES + length;
    second_write_image(arena, length, record, sizeof record, file, file_length);
    file[at] = byte;
    write_image(folder, name);
}

static void write_samples(const char *folder)
{
    write_sample(folder, "melt-4.hpi", 1, MELT, 2048, 0, 'H');
    write_sample(folder, "mixed-4.hpi", 2, MIXED, 12288, 0, 'H');
    write_sample(folder, "bad-link-4.hpi", 2, MIXED, 12288, 5817, 0x50);
}

int main(int count, char **argument)
{
    bool samples = count == 3 && strcmp(argument[2], "samples") == 0;
    unsigned images = count == 3 ? (unsigned)atoi(argument[2]) : 0;

    if (samples)
        write_samples(argument[1]);
    else if (images > 0)
        write_random(argument[1], images);
    else
        fputs("image_maker: give a folder and how many images to write, or "
              "'samples'\n", stderr);
    return samples || images > 0 ? 0 : 2;
}
