/*
 * The layout once more, byte by byte and without the second program's own
 * helpers, so that a slip in one of the two shows. For tests only.
 */
#ifndef PLAIN_H
#define PLAIN_H

#include <stdbool.h>
#include <stdint.h>

#define PLAIN_RECORD_BYTES 1584u
#define PLAIN_WORDS 393u /* of the record, before key and edition */
#define PLAIN_ARENA_MAX 262144u
#define PLAIN_TILES_MAX (PLAIN_ARENA_MAX / 32)
#define PLAIN_NONE32 0xffffffffu
#define PLAIN_NONE64 0xffffffffffffffffu

static inline uint64_t plain_get(const uint8_t *at, unsigned bytes)
{
    uint64_t v = 0;
    while (bytes-- > 0)
        v = v * 256 + at[bytes];
    return v;
}

static inline void plain_put(uint8_t *at, unsigned bytes, uint64_t v)
{
    for (unsigned i = 0; i < bytes; i++, v /= 256)
        at[i] = (uint8_t)(v % 256);
}

static inline uint32_t plain_word(const uint8_t *record, unsigned i)
{
    return (uint32_t)plain_get(record + 4 * i, 4);
}

static inline void plain_put_word(uint8_t *record, unsigned i, uint32_t v)
{
    plain_put(record + 4 * i, 4, v);
}

static inline uint64_t plain_key(const uint8_t *record)
{
    return plain_get(record + 1572, 8);
}

static inline void plain_put_key(uint8_t *record, uint64_t key)
{
    plain_put(record + 1572, 8, key);
}

static inline uint32_t plain_edition(const uint8_t *record)
{
    return (uint32_t)plain_get(record + 1580, 4);
}

static inline void plain_put_edition(uint8_t *record, uint32_t edition)
{
    plain_put(record + 1580, 4, edition);
}

/* How a link to there is stored at c + 16, if c is cached or fast. */
static inline uint64_t plain_stored(uint32_t edition, uint64_t c, uint64_t to)
{
    return edition == 2 ? to ^ ((c + 16) >> 12) : to;
}

/* The link of a cached or fast chunk; stored twice over it is itself. */
static inline uint64_t plain_link(const uint8_t *arena, uint32_t edition,
                                  uint64_t c)
{
    return plain_stored(edition, c, plain_get(arena + c + 16, 8));
}

static inline void plain_put_link(uint8_t *arena, uint32_t edition, uint64_t c,
                                  uint64_t to)
{
    plain_put(arena + c + 16, 8, plain_stored(edition, c, to));
}

static inline unsigned plain_cache_head(unsigned k) { return 3 + k; }
static inline unsigned plain_cache_count(unsigned k) { return 67 + k; }
static inline unsigned plain_fast_head(unsigned k) { return 131 + k; }
static inline unsigned plain_bin_first(unsigned i) { return 141 + 2 * (i - 1); }
static inline unsigned plain_bin_last(unsigned i) { return 142 + 2 * (i - 1); }

/* The bins from this one on are large, and have rings. */
#define PLAIN_LARGE_BIN 64u
#define PLAIN_LARGE_MIN 1024u

/* The bin of a size, in the form of glibc's own macros for 64 bits. */
static inline unsigned plain_bin(uint64_t s)
{
    return s < 1024           ? (unsigned)(s >> 4)
        : (s >> 6) <= 48      ? 48 + (unsigned)(s >> 6)
        : (s >> 9) <= 20      ? 91 + (unsigned)(s >> 9)
        : (s >> 12) <= 10     ? 110 + (unsigned)(s >> 12)
        : (s >> 15) <= 4      ? 119 + (unsigned)(s >> 15)
        : (s >> 18) <= 2      ? 124 + (unsigned)(s >> 18)
                              : 126;
}

/* What a tile of a sound heap is. */
enum plain_state {
    PLAIN_LIVE,
    PLAIN_CACHED,
    PLAIN_FAST,
    PLAIN_BINNED,
    PLAIN_TOP
};

struct plain_tile {
    uint32_t at, size;
    bool p;
    enum plain_state state;
};

struct plain_view {
    struct plain_tile tile[PLAIN_TILES_MAX];
    uint32_t tiles;
};

/* Reads the tiles of a heap that is known to be sound, with their states. */
void plain_read(struct plain_view *view, const uint8_t *arena, uint32_t length,
                const uint8_t *record);

/*
 * Writes the skip links of every chunk that holds some: those of bins 64 to
 * 126, and those of 1,024 bytes or more in unsorted. The lists must be sound
 * but for them.
 */
void plain_put_skips(uint8_t *arena, const uint8_t *record);

/* Makes a heap that is known to be sound one of that edition. */
void plain_to_edition(uint8_t *arena, uint8_t *record, uint32_t edition);

/*
 * What a heap from an image of that version becomes when it is read. Of version
 * 1 it has the key 0, and, if it is sound by the rules of that version, 0 in
 * each cached chunk; of version 1 and 2 it has, if it is sound so, its skip
 * links; of version 1 to 3 it is of edition 1; of version 4 it stays.
 */
void plain_from_old(uint8_t *arena, uint32_t length, uint8_t *record,
                    unsigned version, bool sound);

#endif
