/*
 * A dip curve that grows while it is taken. The logger does not know how long
 * a dip will last, so the curve's block is resized step by step. It begins in
 * front of the probe table, so the first step moves it, once; behind it is then
 * the top, and every later step only takes from that. The last one asks for
 * more than there is: it is refused, and the curve stands as it was.
 *
 * Built with: cc -Iinclude examples/growing.c target/staticlib/libheap.a
 */
#include <stdbool.h>
#include <stdint.h>
#include <stdio.h>
#include <string.h>

#include "heap.h"

#define ARENA_BYTES 2048
#define STEP 128 /* samples */

/*
 * The heap's key, drawn once at random for this program. Firmware with a source
 * of random numbers may draw one at each start instead; no answer differs.
 */
#define KEY 0x5ec3980f71bda246u

static _Alignas(16) uint8_t arena[ARENA_BYTES];
static uint8_t record[HEAP_RECORD_BYTES];
static const uint16_t probe[] = { 701, 702, 703, 704 };

/* ---- a curve: tenths of a degree, as many as its block holds ---- */

struct curve {
    uint32_t mem, room, samples, moves;
};

static int16_t curve_get(const struct curve *c, uint32_t i)
{
    int16_t tenths;
    memcpy(&tenths, arena + c->mem + 2 * i, sizeof tenths);
    return tenths;
}

static void curve_put(struct curve *c, int16_t tenths)
{
    memcpy(arena + c->mem + 2 * c->samples++, &tenths, sizeof tenths);
}

/* Room for so many samples. Only an answer with 0 may change the curve's mem. */
static bool curve_room(struct curve *c, uint32_t samples)
{
    struct heap_answer a = heap_resize(arena, sizeof arena, record,
                                       sizeof record, c->mem, 2 * samples);
    printf("%3u samples: ", (unsigned)samples);
    if (a.no != HEAP_DONE) {
        printf("refused with %u, the curve stays at mem %u\n", (unsigned)a.no,
               (unsigned)c->mem);
        return false;
    }
    bool moved = c->mem != HEAP_NULL && a.mem != c->mem;
    printf("mem %3u, %4u usable%s\n", (unsigned)a.mem, (unsigned)a.usable,
           moved ? ", moved" : "");
    c->moves += moved;
    c->mem = a.mem;
    c->room = a.usable / 2;
    return true;
}

/* The probe heats up to its plateau. */
static int16_t sample(uint32_t i)
{
    return (int16_t)(i < 300 ? 250 + 53 * i : 16150 + i % 7);
}

static bool curve_whole(const struct curve *c)
{
    for (uint32_t i = 0; i < c->samples; i++)
        if (curve_get(c, i) != sample(i))
            return false;
    return true;
}

int main(void)
{
    struct curve c = { HEAP_NULL, 0, 0, 0 };

    heap_open(arena, sizeof arena, record, sizeof record, KEY,
              HEAP_LINKS_PLAIN);
    curve_room(&c, STEP); /* of null: a grant */
    struct heap_answer table =
        heap_grant(arena, sizeof arena, record, sizeof record, sizeof probe);
    printf("probe table: mem %u\n", (unsigned)table.mem);
    memcpy(arena + table.mem, probe, sizeof probe);

    while (c.samples < c.room || curve_room(&c, c.samples + STEP))
        curve_put(&c, sample(c.samples));

    printf("%u samples, moved %u time%s, %s\n", (unsigned)c.samples,
           (unsigned)c.moves, c.moves == 1 ? "" : "s",
           curve_whole(&c) ? "none lost" : "some lost");
    printf("the probe table is %s\n",
           memcmp(arena + table.mem, probe, sizeof probe) == 0 ? "as it was"
                                                               : "changed");
    return 0;
}
