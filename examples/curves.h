/*
 * Where a logger's dip curves lie in its arena, for the firmware (stuck.c) and
 * for the program at home (curves.c): the first block that it was granted is a
 * table of their mems.
 */
#ifndef CURVES_H
#define CURVES_H

#include <stdint.h>
#include <stdio.h>
#include <string.h>

#define ARENA_BYTES 4096
#define TABLE 16  /* mem of the table: a new arena's first block */
#define CURVES 12 /* its entries: a curve's mem, or HEAP_NULL */

/* A curve's first bytes; then come its samples, in tenths of a degree. */
struct curve_head {
    uint16_t heat;
    uint16_t samples;
};

static inline uint32_t table_get(const uint8_t *arena, uint32_t i)
{
    uint32_t mem;
    memcpy(&mem, arena + TABLE + i * sizeof mem, sizeof mem);
    return mem;
}

static inline struct curve_head curve_head(const uint8_t *arena, uint32_t mem)
{
    struct curve_head head;
    memcpy(&head, arena + mem, sizeof head);
    return head;
}

/* How many bytes so many samples take, the head among them. */
static inline uint32_t curve_bytes(uint16_t samples)
{
    return (uint32_t)(sizeof(struct curve_head) + 2u * samples);
}

static inline int16_t curve_get(const uint8_t *arena, uint32_t mem, uint16_t i)
{
    int16_t tenths;
    memcpy(&tenths, arena + mem + curve_bytes(i), sizeof tenths);
    return tenths;
}

static inline void curve_print(const uint8_t *arena, uint32_t mem)
{
    struct curve_head head = curve_head(arena, mem);
    int16_t peak = 0;

    for (uint16_t i = 0; i < head.samples; i++)
        if (curve_get(arena, mem, i) > peak)
            peak = curve_get(arena, mem, i);
    printf("heat %2u, %3u samples, peak %d.%d C\n", (unsigned)head.heat,
           (unsigned)head.samples, peak / 10, peak % 10);
}

#endif
