/*
 * Where things lie: the fields of a chunk in the arena, the words of the
 * record, the parts of an image. No other file of the second program knows.
 *
 *      c -> +--------------------------------+
 *           | previous size                  |  meaningful if P is clear
 *    c+8 -> +------------------------------+-+
 *           | size                         |P|  P clear: chunk before binned
 *   c+16 -> +------------------------------+-+  <- mem
 *           | forward link, or data          |  mixed in a stack of edition 2
 *   c+24 -> +--------------------------------+
 *           | back link, key, or data        |  the key if it is cached
 *   c+32 -> +--------------------------------+
 *           | forward skip link, or data     |  the two skip links if it is
 *   c+40 -> +--------------------------------+  of 1,024 or more, and in
 *           | back skip link, or data        |  unsorted or its bin
 *           .                                .
 * c+size -> +--------------------------------+
 *           | this chunk's size, or data     |  usable bytes end 8 further on
 *           +--------------------------------+
 */
#ifndef LAYOUT2_H
#define LAYOUT2_H

#include <stdbool.h>
#include <stddef.h>
#include <stdint.h>
#include <string.h>

#define RECORD_BYTES 1584
#define KEYED_RECORD_BYTES 1580   /* as it was before there was an edition */
#define KEYLESS_RECORD_BYTES 1572 /* and before there was a key */
#define ARENA_MIN 32
#define ARENA_MAX 262144

/* All ones mean none, in 32 bits in the record, in 64 bits in a link. */
#define NONE UINT32_MAX
#define LINK_NONE UINT64_MAX

#define P 1u /* of the size word */

#define CACHE_LISTS 64
#define FAST_LISTS 10
#define BINS 126
#define UNSORTED 1
#define FIRST_LARGE_BIN 64
#define LARGE_MIN 1024u /* the least size in it */

enum field {
    PREVIOUS_SIZE = 0,
    SIZE_WORD = 8,
    FORWARD = 16,
    BACK = 24,
    CACHE_KEY = 24, /* no stack has back links */
    SKIP_FORWARD = 32,
    SKIP_BACK = 40
};

enum word {
    ARENA_LENGTH = 0,
    TOP = 1,
    LAST_REMAINDER = 2,
    CACHE_HEAD = 3,
    CACHE_COUNT = 67,
    FAST_HEAD = 131,
    BIN_FIRST = 139, /* of bin 0, which does not exist; two words a bin */
    BIN_LAST = 140,
    KEY_LOW = 393,
    KEY_HIGH = 394,
    EDITION = 395
};

/* How a stack's links are stored; a closed record has NO_EDITION. */
enum edition { NO_EDITION = 0, LINKS_PLAIN = 1, LINKS_MIXED = 2 };

/*
 * An image, a heap in a file:
 *
 *      0 -> +-----+---------+--------------+
 *           | HPI | version | arena length |  3, 2 and 4 bytes
 *      9 -> +-----+---------+--------------+
 *           | record                       |  version 1: without its key,
 *           +------------------------------+  1 to 3: without its edition
 *           | arena                        |
 *           +------------------------------+
 */
enum part {
    IMAGE_MARK = 0,
    IMAGE_VERSION = 3,
    IMAGE_LENGTH = 5,
    IMAGE_RECORD = 9
};

/*
 * The versions there are. Each has its own rules of a sound heap: only from
 * WITH_KEYS on is a chunk asked its key, only from WITH_SKIPS on its skip
 * links; before WITH_EDITIONS there was edition 1 alone. An image is written in
 * the newest, and the calls go by that.
 */
enum version { WITHOUT_KEYS = 1, WITH_KEYS = 2, WITH_SKIPS = 3,
               WITH_EDITIONS = 4, NEWEST = WITH_EDITIONS };

#define IMAGE_MAX (IMAGE_RECORD + RECORD_BYTES + ARENA_MAX)

#if defined(__BYTE_ORDER__) && __BYTE_ORDER__ == __ORDER_BIG_ENDIAN__
#define LITTLE32(x) __builtin_bswap32(x)
#define LITTLE64(x) __builtin_bswap64(x)
#else
#define LITTLE32(x) (x)
#define LITTLE64(x) (x)
#endif

static inline bool arena_allowed(size_t length)
{
    return length >= ARENA_MIN && length <= ARENA_MAX && length % 16 == 0;
}

static inline uint64_t number_get(const uint8_t *arena, uint32_t at)
{
    uint64_t v;
    memcpy(&v, arena + at, sizeof v);
    return LITTLE64(v);
}

static inline uint64_t field_get(const uint8_t *arena, uint32_t c,
                                 enum field f)
{
    return number_get(arena, c + f);
}

static inline void field_put(uint8_t *arena, uint32_t c, enum field f,
                             uint64_t v)
{
    v = LITTLE64(v);
    memcpy(arena + c + f, &v, sizeof v);
}

static inline uint32_t word_get(const uint8_t *record, unsigned i)
{
    uint32_t v;
    memcpy(&v, record + 4 * (size_t)i, sizeof v);
    return LITTLE32(v);
}

static inline void word_put(uint8_t *record, unsigned i, uint32_t v)
{
    v = LITTLE32(v);
    memcpy(record + 4 * (size_t)i, &v, sizeof v);
}

static inline uint64_t key_get(const uint8_t *record)
{
    return word_get(record, KEY_LOW)
        | (uint64_t)word_get(record, KEY_HIGH) << 32;
}

static inline void key_put(uint8_t *record, uint64_t key)
{
    word_put(record, KEY_LOW, (uint32_t)key);
    word_put(record, KEY_HIGH, (uint32_t)(key >> 32));
}

/* The record of a heap with nothing in any list, and no last remainder. */
static inline void record_clear(uint8_t *record, uint32_t length, uint32_t top,
                                uint64_t key, uint32_t edition)
{
    memset(record, 0xff, RECORD_BYTES);
    word_put(record, ARENA_LENGTH, length);
    word_put(record, TOP, top);
    for (unsigned k = 0; k < CACHE_LISTS; k++)
        word_put(record, CACHE_COUNT + k, 0);
    key_put(record, key);
    word_put(record, EDITION, edition);
}

static inline bool edition_allowed(uint32_t edition)
{
    return edition == LINKS_PLAIN || edition == LINKS_MIXED;
}

/* The edition of a heap by the rules of that version. */
static inline uint32_t edition_by(uint32_t version, const uint8_t *record)
{
    return version < WITH_EDITIONS ? LINKS_PLAIN : word_get(record, EDITION);
}

/*
 * Of a cached or fast chunk: what its forward link is exclusive-or'ed with
 * where it is stored. In edition 2 that is the position of the link itself,
 * divided by 4,096, as in glibc since 2.32; none is stored so too.
 */
static inline uint64_t mixed_with(uint32_t edition, uint32_t c)
{
    return edition == LINKS_MIXED ? (c + FORWARD) / 4096 : 0;
}

static inline uint64_t stack_link_get(const uint8_t *arena, uint32_t edition,
                                      uint32_t c)
{
    return field_get(arena, c, FORWARD) ^ mixed_with(edition, c);
}

static inline void stack_link_put(uint8_t *arena, uint32_t edition, uint32_t c,
                                  uint64_t to)
{
    field_put(arena, c, FORWARD, to ^ mixed_with(edition, c));
}

static inline uint32_t version_get(const uint8_t *file)
{
    return file[IMAGE_VERSION] | (uint32_t)file[IMAGE_VERSION + 1] << 8;
}

static inline void version_put(uint8_t *file, uint32_t version)
{
    file[IMAGE_VERSION] = (uint8_t)version;
    file[IMAGE_VERSION + 1] = (uint8_t)(version >> 8);
}

static inline bool version_known(uint32_t version)
{
    return version >= WITHOUT_KEYS && version <= NEWEST;
}

/* Of a known version: the record's bytes in the file, and where they end. */
static inline size_t record_bytes(uint32_t version)
{
    return version < WITH_KEYS    ? KEYLESS_RECORD_BYTES
        : version < WITH_EDITIONS ? KEYED_RECORD_BYTES
                                  : RECORD_BYTES;
}

static inline size_t arena_at(uint32_t version)
{
    return IMAGE_RECORD + record_bytes(version);
}

static inline uint32_t length_get(const uint8_t *file)
{
    return word_get(file + IMAGE_LENGTH, 0);
}

static inline void length_put(uint8_t *file, uint32_t length)
{
    word_put(file + IMAGE_LENGTH, 0, length);
}

#endif
