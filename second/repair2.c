/*
 * A repair in three parts: which tiles are free, told by the walk of tiles2.c;
 * the free ones joined, in the list of tiles alone; then all that is to be
 * written, told by what that list has become. No link of the heap is followed
 * once the first byte is written.
 */
#include "repair2.h"

#include <stdbool.h>

#include "layout2.h"
#include "tiles2.h"

enum refusal { DONE = 0, BAD_SHAPE = 1, NOT_TO_MEND = 11 };

static struct second_answer answer(enum refusal no)
{
    return (struct second_answer){ no, 0, 0 };
}

/* From here on no tile is cached or fast: what is free is in unsorted. */
static struct second_tile as_whole(struct second_tile t)
{
    if (t.state == SECOND_IS_CACHED || t.state == SECOND_IS_FAST)
        t.state = SECOND_IS_BINNED;
    return t;
}

/*
 * Makes one tile of all free neighbours, and of those before the top with it.
 * Answers how many there are then.
 */
static uint32_t join(struct second_tile *tile, uint32_t tiles)
{
    uint32_t wholes = 0;

    for (uint32_t i = 0; i < tiles; i++) {
        struct second_tile t = as_whole(tile[i]);
        if (wholes > 0 && tile[wholes - 1].state == SECOND_IS_BINNED
            && t.state != SECOND_IS_LIVE) {
            tile[wholes - 1].size += t.size;
            tile[wholes - 1].state = t.state;
        } else {
            tile[wholes++] = t;
        }
    }
    return wholes;
}

/* Sizes, flags, and the end size of each free chunk behind it. */
static void write_sizes(uint8_t *arena, const struct second_tile *tile,
                        uint32_t wholes)
{
    uint32_t free_before = 0; /* the size of that chunk, if it is free */

    for (uint32_t i = 0; i < wholes; i++) {
        field_put(arena, tile[i].offset, SIZE_WORD,
                  free_before != 0 ? tile[i].size : tile[i].size | P);
        if (free_before != 0)
            field_put(arena, tile[i].offset, PREVIOUS_SIZE, free_before);
        free_before = tile[i].state == SECOND_IS_BINNED ? tile[i].size : 0;
    }
}

/* All that stands in a chunk of unsorted between those two. */
static void write_links(uint8_t *arena, const struct second_tile *t,
                        uint64_t before, uint64_t behind)
{
    field_put(arena, t->offset, FORWARD, behind);
    field_put(arena, t->offset, BACK, before);
    if (t->size < LARGE_MIN)
        return;
    field_put(arena, t->offset, SKIP_FORWARD, LINK_NONE);
    field_put(arena, t->offset, SKIP_BACK, LINK_NONE);
}

/* The next free one from i on, or the top's index. */
static uint32_t next_free(const struct second_tile *tile, uint32_t i,
                          uint32_t top)
{
    while (i < top && tile[i].state != SECOND_IS_BINNED)
        i++;
    return i;
}

/* Unsorted, by rising offset; the top is the last of the wholes. */
static void write_unsorted(uint8_t *arena, uint8_t *record,
                           const struct second_tile *tile, uint32_t top)
{
    uint32_t i = next_free(tile, 0, top), next;
    uint64_t before = LINK_NONE;

    if (i == top)
        return;
    word_put(record, BIN_FIRST + 2 * UNSORTED, tile[i].offset);
    for (; i < top; i = next) {
        next = next_free(tile, i + 1, top);
        write_links(arena, &tile[i], before,
                    next < top ? tile[next].offset : LINK_NONE);
        before = tile[i].offset;
    }
    word_put(record, BIN_LAST + 2 * UNSORTED, (uint32_t)before);
}

static void mend(uint8_t *arena, uint32_t length, uint8_t *record,
                 uint32_t version)
{
    static struct second_tile tile[SECOND_TILES_MAX];
    uint32_t tiles = second_tiles(arena, length, record, version, tile);
    uint32_t top = join(tile, tiles) - 1;

    record_clear(record, length, tile[top].offset, key_get(record),
                 word_get(record, EDITION));
    write_sizes(arena, tile, top + 1);
    write_unsorted(arena, record, tile, top);
}

struct second_answer second_repair_by(uint32_t version, uint8_t *arena,
                                      size_t arena_len, uint8_t *record,
                                      size_t record_len)
{
    struct second_fault f =
        second_audit_by(version, arena, arena_len, record, record_len);

    if (f.no != 0)
        return answer(BAD_SHAPE);
    if (f.kind == SECOND_RECORD || f.kind == SECOND_TILE)
        return answer(NOT_TO_MEND);
    if (f.kind != SECOND_SOUND)
        mend(arena, (uint32_t)arena_len, record, version);
    return answer(DONE);
}

struct second_answer second_repair(uint8_t *arena, size_t arena_len,
                                   uint8_t *record, size_t record_len)
{
    return second_repair_by(NEWEST, arena, arena_len, record, record_len);
}
