#include "by_tiles.h"

#include <string.h>

static uint32_t tile_at(const struct plain_view *view, uint64_t at)
{
    uint32_t i = 0;
    while (view->tile[i].at != at)
        i++;
    return i;
}

/* Makes one tile of this one and its free neighbours; answers its size. */
static uint32_t join_tile(struct plain_view *view, uint32_t i)
{
    struct plain_tile *t = view->tile;
    uint32_t first = i, last = i;

    if (i > 0 && t[i - 1].state == PLAIN_BINNED)
        first--;
    if (t[i + 1].state == PLAIN_BINNED || t[i + 1].state == PLAIN_TOP)
        last++;
    t[first].size = t[last].at + t[last].size - t[first].at;
    t[first].state = t[last].state == PLAIN_TOP ? PLAIN_TOP : PLAIN_BINNED;
    memmove(t + first + 1, t + last + 1,
            (view->tiles - last - 1) * sizeof t[0]);
    view->tiles -= last - first;
    return t[first].size;
}

/* Answers whether there was a fast one. */
static bool join_fast_tiles(struct plain_view *view)
{
    bool any = false;
    for (uint32_t i = 0; i < view->tiles;) {
        if (view->tile[i].state != PLAIN_FAST) {
            i++;
            continue;
        }
        join_tile(view, i);
        any = true;
        i = i > 0 ? i - 1 : 0;
    }
    return any;
}

static bool release_tile(struct plain_view *view, uint32_t i)
{
    if (view->tile[i].size <= 128) {
        view->tile[i].state = PLAIN_FAST;
        return false;
    }
    return join_tile(view, i) >= 65536 && join_fast_tiles(view);
}

bool release_by_tiles(struct plain_view *view, const struct lent *before,
                      uint32_t mem)
{
    uint32_t i = tile_at(view, mem - 16), k = (view->tile[i].size - 32) / 16;

    if (k >= 64 || plain_word(before->record, plain_cache_count(k)) == 7)
        return release_tile(view, i);
    view->tile[i].state = PLAIN_CACHED;
    return false;
}

bool emptying_by_tiles(struct plain_view *view, const struct lent *before)
{
    bool joined = false;
    for (unsigned k = 0; k < 64; k++) {
        uint32_t head = plain_word(before->record, plain_cache_head(k));
        uint64_t c = head == PLAIN_NONE32 ? PLAIN_NONE64 : head;
        for (; c != PLAIN_NONE64;
             c = plain_link(before->arena, plain_edition(before->record), c))
            joined = release_tile(view, tile_at(view, c)) || joined;
    }
    return joined;
}

void joining_by_tiles(struct plain_view *view)
{
    join_fast_tiles(view);
}

bool same_tiles(const struct plain_view *a, const struct plain_view *b)
{
    if (a->tiles != b->tiles)
        return false;
    for (uint32_t i = 0; i < a->tiles; i++)
        if (a->tile[i].at != b->tile[i].at || a->tile[i].size != b->tile[i].size
            || a->tile[i].state != b->tile[i].state)
            return false;
    return true;
}
