/*
 * The lists are walked here once more, apart from the audit of heap2.c: that
 * stops at the first bad list, this goes through all 200 and stops in each at
 * the first bad chunk, as request (ix) of document 02 does. A count or a last
 * that is wrong condemns no chunk, and neither does a flag or a skip link.
 */
#include "tiles2.h"

#include <stdbool.h>
#include <stddef.h>

#include "layout2.h"

#define CACHE_DEPTH 7
#define FAST_OWNING 7 /* lists 7 to 9 own no size */

struct heap {
    const uint8_t *arena;
    const uint8_t *record;
    uint32_t length;
    uint32_t version;
    struct second_tile *tile;
    uint32_t tiles;
    uint16_t tile_at[ARENA_MAX / 16]; /* 1 + its index, or 0 for no chunk */
};

struct list {
    enum second_state state; /* of those in it */
    uint32_t number;
    unsigned word; /* of the record: its head or first */
};

/* ---- tiles ---- */

static uint32_t size_at(const struct heap *h, uint32_t c)
{
    return (uint32_t)(field_get(h->arena, c, SIZE_WORD) & ~(uint64_t)15);
}

static void lay_out(struct heap *h)
{
    memset(h->tile_at, 0, sizeof h->tile_at);
    h->tiles = 0;
    for (uint32_t c = 0; c < h->length; c += size_at(h, c)) {
        h->tile[h->tiles++] =
            (struct second_tile){ c, size_at(h, c), SECOND_IS_LIVE, 0 };
        h->tile_at[c / 16] = (uint16_t)h->tiles;
    }
    h->tile[h->tiles - 1].state = SECOND_IS_TOP;
}

/* The tile at an offset, or NULL. */
static struct second_tile *tile_of(struct heap *h, uint64_t c)
{
    if (c >= h->length || c % 16 != 0 || h->tile_at[c / 16] == 0)
        return NULL;
    return &h->tile[h->tile_at[c / 16] - 1];
}

/* ---- lists ---- */

static struct list nth_list(unsigned i)
{
    if (i < CACHE_LISTS)
        return (struct list){ SECOND_IS_CACHED, i, CACHE_HEAD + i };
    i -= CACHE_LISTS;
    if (i < FAST_LISTS)
        return (struct list){ SECOND_IS_FAST, i, FAST_HEAD + i };
    i -= FAST_LISTS;
    return (struct list){ SECOND_IS_BINNED, i + 1, BIN_FIRST + 2 * (i + 1) };
}

/* Document 01's lines: divisor, the last quotient it applies to, base. */
static uint32_t bin_number(uint32_t size)
{
    static const uint32_t line[][3] = { { 64, 48, 48 },
                                        { 512, 20, 91 },
                                        { 4096, 10, 110 },
                                        { 32768, 4, 119 },
                                        { 262144, 2, 124 } };
    if (size < 1024)
        return size / 16;
    for (unsigned i = 0; i < sizeof line / sizeof line[0]; i++)
        if (size / line[i][0] <= line[i][1])
            return line[i][2] + size / line[i][0];
    return 126;
}

static bool owns(const struct list *l, uint32_t size)
{
    switch (l->state) {
    case SECOND_IS_CACHED: return size == 32 + 16 * l->number;
    case SECOND_IS_FAST:
        return l->number < FAST_OWNING && size == 32 + 16 * l->number;
    default: return l->number == UNSORTED || bin_number(size) == l->number;
    }
}

static bool linked_back(const struct heap *h, const struct second_tile *t,
                        const struct second_tile *before)
{
    return field_get(h->arena, t->offset, BACK)
        == (before == NULL ? LINK_NONE : before->offset);
}

static bool has_key(const struct heap *h, const struct second_tile *t)
{
    return h->version < WITH_KEYS
        || field_get(h->arena, t->offset, CACHE_KEY) == key_get(h->record);
}

/* What may stand in the list behind that many, of which before is the last. */
static bool good(const struct heap *h, const struct list *l, uint32_t count,
                 const struct second_tile *before, const struct second_tile *t)
{
    if (t->state != SECOND_IS_LIVE || !owns(l, t->size))
        return false;
    if (l->state == SECOND_IS_CACHED)
        return count < CACHE_DEPTH && has_key(h, t);
    if (l->state == SECOND_IS_FAST)
        return true;
    return linked_back(h, t, before)
        && (l->number < FIRST_LARGE_BIN || before == NULL
            || t->size <= before->size);
}

/* What is named behind t. */
static uint64_t named_behind(const struct heap *h, const struct list *l,
                             const struct second_tile *t)
{
    if (l->state == SECOND_IS_BINNED)
        return field_get(h->arena, t->offset, FORWARD);
    return stack_link_get(h->arena, edition_by(h->version, h->record),
                          t->offset);
}

/* All ones, of 32 bits or of 64, are no tile either. */
static void walk(struct heap *h, const struct list *l)
{
    uint32_t count = 0;
    struct second_tile *before = NULL;
    struct second_tile *t = tile_of(h, word_get(h->record, l->word));

    while (t != NULL && good(h, l, count, before, t)) {
        t->state = l->state;
        t->number = l->number;
        count++;
        before = t;
        t = tile_of(h, named_behind(h, l, t));
    }
}

uint32_t second_tiles(const uint8_t *arena, uint32_t length,
                      const uint8_t *record, uint32_t version,
                      struct second_tile *tile)
{
    static struct heap h;

    h.arena = arena;
    h.record = record;
    h.length = length;
    h.version = version;
    h.tile = tile;
    lay_out(&h);
    for (unsigned i = 0; i < CACHE_LISTS + FAST_LISTS + BINS; i++) {
        struct list l = nth_list(i);
        walk(&h, &l);
    }
    return h.tiles;
}
