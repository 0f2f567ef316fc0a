/*
 * Seeded random numbers, random sound heaps written directly as bytes (also
 * such as no sequence of calls reaches), and damage to them. The same seed
 * gives the same bytes on every machine.
 */
#ifndef RANDOM_HEAP_H
#define RANDOM_HEAP_H

#include <stdbool.h>
#include <stddef.h>
#include <stdint.h>

struct random {
    uint64_t state;
};

uint64_t random_next(struct random *r);
uint32_t random_below(struct random *r, uint32_t n); /* 0 for n = 0 */
bool random_chance(struct random *r, uint32_t percent);
void random_bytes(struct random *r, uint8_t *bytes, size_t length);

/* An allowed arena length up to the one given, small ones more often. */
uint32_t random_length(struct random *r, uint32_t most);

/* A key: now and then 0, all ones, an offset, or one with many equal bytes. */
uint64_t random_key(struct random *r);

/* 1 or 2. */
uint32_t random_edition(struct random *r);

/*
 * Overwrites arena and record with a sound heap, which has such a key and such
 * an edition.
 */
void random_heap(struct random *r, uint8_t *arena, uint32_t length,
                 uint8_t *record);

/*
 * A new length for the live block at mem of a sound heap, most often near one
 * at which a resize goes another way: the block's own size, its size with that
 * of the chunk behind it, the size of one to four chunks behind it.
 */
uint32_t random_new_length(struct random *r, const uint8_t *arena,
                           uint32_t length, uint32_t mem);

/* A rule that a heap breaks throughout, everything else being in order. */
enum flaw {
    FLAW_NONE,
    FLAW_ORDER,      /* large bins in any order */
    FLAW_NEIGHBOURS, /* binned chunks touch each other */
    FLAW_TOP,        /* a binned chunk touches the top */
    FLAW_EIGHT,      /* cache lists of more than 7 */
    FLAW_HOME,       /* chunks in lists that own other sizes */
    FLAW_KEY,        /* cached chunks with words that are not the key */
    FLAW_SKIP,       /* large free chunks with wrong skip links */
    FLAW_MIX,        /* links of stacks stored as no edition, or the other */
    FLAW_COUNT
};

/* As random_heap, but free to break that rule; by chance it may not. */
void flawed_heap(struct random *r, enum flaw flaw, uint8_t *arena,
                 uint32_t length, uint8_t *record);

/*
 * Changes one field of a sound heap: a size word, a flag, a link, a key, a skip
 * link, a head, a count, a last, the length, the top, the edition or a previous
 * size. The heap may by chance stay sound.
 */
void damage_field(struct random *r, uint8_t *arena, uint32_t length,
                  uint8_t *record);

/*
 * Puts another word where the key stands in one cached chunk of a sound heap.
 * Answers its list; 64, and nothing is written, if no chunk is cached.
 */
unsigned damage_key(struct random *r, uint8_t *arena, const uint8_t *record);

/*
 * Puts another word in one of the two skip links of one chunk that holds them,
 * be it a first, another of its group or in unsorted. Answers its bin; 0, and
 * nothing is written, if there is no such chunk.
 */
unsigned damage_skip(struct random *r, uint8_t *arena, const uint8_t *record);

/*
 * Stores another link in one cached or fast chunk of a sound heap, mostly one
 * that would be right if it were mixed otherwise. Answers its list, 0 to 63 in
 * the cache, 64 to 73 fast; 74, and nothing is written, if there is none.
 */
unsigned damage_link(struct random *r, uint8_t *arena, const uint8_t *record);

/* Puts a number that is no edition where the edition stands. */
void damage_edition(struct random *r, uint8_t *record);

/*
 * Has links and starts of lists lead to other chunks, mostly to ones of a size
 * that the list may own: lists that cross, circles, lists too long, several of
 * them. Only the tiles must be sound, and they stay as they are.
 */
void damage_lists(struct random *r, uint8_t *arena, uint32_t length,
                  uint8_t *record);

/*
 * Changes so many numbers of arena (8 bytes) and record (4 bytes) to random
 * ones, to others that stand there, or by a bit.
 */
void damage_words(struct random *r, uint8_t *arena, uint32_t length,
                  uint8_t *record, uint32_t times);

/* Changes some bytes anywhere, or all of them. */
void damage_bytes(struct random *r, uint8_t *arena, uint32_t length,
                  uint8_t *record);

#endif
