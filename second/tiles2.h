/*
 * The tiles of a heap, of each whether it is free, and in which list, or held:
 * what heapimage shows, and what a repair goes by.
 */
#ifndef TILES2_H
#define TILES2_H

#include <stdint.h>

enum second_state {
    SECOND_IS_LIVE,
    SECOND_IS_CACHED,
    SECOND_IS_FAST,
    SECOND_IS_BINNED,
    SECOND_IS_TOP
};

/* number is the list's, where the tile is in one. */
struct second_tile {
    uint32_t offset, size;
    enum second_state state;
    uint32_t number;
};

/* The tiles that the longest arena can have. */
#define SECOND_TILES_MAX (262144 / 32)

/*
 * Tells the tiles of a heap whose record and tiles are sound, by rising
 * offset, and answers how many there are. Each list is walked up to its first
 * bad chunk; what is reached so is in that list, all else but the top is live.
 * A cached chunk without the record's key is bad, but not by the rules of
 * images of version 1; no chunk is bad for its skip links. The links of cache
 * and fast lists are read by the edition, by the rules before version 4 by 1.
 */
uint32_t second_tiles(const uint8_t *arena, uint32_t length,
                      const uint8_t *record, uint32_t version,
                      struct second_tile *tile);

#endif
