#include "plain.h"

static uint16_t tile_at[PLAIN_ARENA_MAX / 16];

/* A bin's links are those of edition 1. */
static void paint(struct plain_view *view, const uint8_t *arena,
                  uint32_t edition, uint32_t head, enum plain_state state)
{
    uint64_t c = head == PLAIN_NONE32 ? PLAIN_NONE64 : head;
    for (; c != PLAIN_NONE64; c = plain_link(arena, edition, c))
        view->tile[tile_at[c / 16]].state = state;
}

void plain_read(struct plain_view *view, const uint8_t *arena, uint32_t length,
                const uint8_t *record)
{
    uint32_t edition = plain_edition(record);

    view->tiles = 0;
    for (uint32_t at = 0; at < length;) {
        uint64_t word = plain_get(arena + at + 8, 8);
        struct plain_tile *t = &view->tile[view->tiles];
        *t = (struct plain_tile){ at, (uint32_t)(word - word % 16),
                                  word % 2 == 1, PLAIN_LIVE };
        tile_at[at / 16] = (uint16_t)view->tiles++;
        at += t->size;
    }
    view->tile[view->tiles - 1].state = PLAIN_TOP;
    for (unsigned k = 0; k < 64; k++)
        paint(view, arena, edition, plain_word(record, plain_cache_head(k)),
              PLAIN_CACHED);
    for (unsigned k = 0; k < 10; k++)
        paint(view, arena, edition, plain_word(record, plain_fast_head(k)),
              PLAIN_FAST);
    for (unsigned i = 1; i <= 126; i++)
        paint(view, arena, 1, plain_word(record, plain_bin_first(i)),
              PLAIN_BINNED);
}

/* The chunks of a bin, in its order; there are so many. */
static uint32_t in_bin[PLAIN_TILES_MAX];

static uint32_t read_bin(const uint8_t *arena, const uint8_t *record,
                         unsigned bin)
{
    uint32_t count = 0, first = plain_word(record, plain_bin_first(bin));
    uint64_t c = first == PLAIN_NONE32 ? PLAIN_NONE64 : first;
    for (; c != PLAIN_NONE64; c = plain_get(arena + c + 16, 8))
        in_bin[count++] = (uint32_t)c;
    return count;
}

static uint64_t size_at(const uint8_t *arena, uint32_t c)
{
    return plain_get(arena + c + 8, 8) / 16 * 16;
}

static void put_both(uint8_t *arena, uint32_t c, uint64_t forward,
                     uint64_t back)
{
    plain_put(arena + c + 32, 8, forward);
    plain_put(arena + c + 40, 8, back);
}

/* The groups' firsts are told apart and counted, then each gets its two. */
static void put_ring(uint8_t *arena, const uint8_t *record, unsigned bin)
{
    static uint32_t first[PLAIN_TILES_MAX];
    uint32_t count = read_bin(arena, record, bin), firsts = 0;

    for (uint32_t i = 0; i < count; i++)
        if (i == 0
            || size_at(arena, in_bin[i]) != size_at(arena, in_bin[i - 1]))
            first[firsts++] = in_bin[i];
        else
            put_both(arena, in_bin[i], PLAIN_NONE64, PLAIN_NONE64);
    for (uint32_t i = 0; i < firsts; i++)
        put_both(arena, first[i], first[(i + 1) % firsts],
                 first[(i + firsts - 1) % firsts]);
}

void plain_put_skips(uint8_t *arena, const uint8_t *record)
{
    uint32_t count = read_bin(arena, record, 1);

    for (uint32_t i = 0; i < count; i++)
        if (size_at(arena, in_bin[i]) >= PLAIN_LARGE_MIN)
            put_both(arena, in_bin[i], PLAIN_NONE64, PLAIN_NONE64);
    for (unsigned bin = PLAIN_LARGE_BIN; bin <= 126; bin++)
        put_ring(arena, record, bin);
}

void plain_to_edition(uint8_t *arena, uint8_t *record, uint32_t edition)
{
    for (unsigned i = 0; i < 74; i++) {
        uint32_t head = plain_word(record, i < 64 ? plain_cache_head(i)
                                                  : plain_fast_head(i - 64));
        uint64_t c = head == PLAIN_NONE32 ? PLAIN_NONE64 : head;
        while (c != PLAIN_NONE64) {
            uint64_t next = plain_link(arena, plain_edition(record), c);
            plain_put_link(arena, edition, c, next);
            c = next;
        }
    }
    plain_put_edition(record, edition);
}

static void put_keys(uint8_t *arena, uint32_t length, const uint8_t *record)
{
    static struct plain_view view;

    plain_read(&view, arena, length, record);
    for (uint32_t i = 0; i < view.tiles; i++)
        if (view.tile[i].state == PLAIN_CACHED)
            plain_put(arena + view.tile[i].at + 24, 8, plain_key(record));
}

void plain_from_old(uint8_t *arena, uint32_t length, uint8_t *record,
                    unsigned version, bool sound)
{
    if (version == 1)
        plain_put_key(record, 0);
    if (version <= 3)
        plain_put_edition(record, 1);
    if (version == 1 && sound)
        put_keys(arena, length, record);
    if (version <= 2 && sound)
        plain_put_skips(arena, record);
}
