/*
 * The words a trace is written in: calls on the one heap in hand with the
 * answer expected of each, after which the heap must be sound, and what must
 * then stand in the record and in the arena.
 */
#ifndef TRACES_H
#define TRACES_H

#include <stdint.h>

#include "check.h"

#define NONE UINT32_MAX

/* No byte of it occurs twice, so that a turned or a cut one shows. */
#define KEY 0x9d3f5b17e8c4620au

/* Eight bytes of the arena that nobody has written since start. */
#define UNWRITTEN 0xa5a5a5a5a5a5a5a5u

extern struct lent heap;

/* The one that start opens with; a test runs its traces in both. */
extern uint32_t edition;
void in_both_editions(void (*traces)(void));

/*
 * Lends an arena of that length, filled with 0xa5, and opens it with the key;
 * gives it back.
 */
void start(uint32_t length);
void stop(void);

void answers(const char *call, struct second_answer a, uint32_t no,
             uint32_t mem, uint32_t usable);
void grants(uint64_t n, uint32_t mem, uint32_t usable);
void refuses(uint64_t n, uint32_t no);
void releases(uint64_t mem);
void resizes(uint64_t mem, uint64_t n, uint32_t to, uint32_t usable);
void refuses_resize(uint64_t mem, uint64_t n, uint32_t no);
void empties(void);
void joins(void);

void word_is(const char *name, unsigned word, uint32_t expected);
void cache_is(unsigned k, uint32_t head, uint32_t count);
void fast_is(unsigned k, uint32_t head);
void bin_is(unsigned bin, uint32_t first, uint32_t last);
void eight_is(uint32_t at, uint64_t expected);

/* Where the chunk at c, cached or fast, leads; in edition 2 it is mixed. */
void link_is(uint32_t c, uint64_t to);

/* What stands in the second word of the chunk at c. */
void second_is(uint32_t c, uint64_t expected);

/* What its two skip links are, or what stands where they would. */
void skips_are(uint32_t c, uint64_t forward, uint64_t back);
void no_skips(uint32_t c);

/*
 * Damage by hand to the heap in hand. A link is stored as it is given; the key
 * of a cached chunk stands where a back link would.
 */
void put_link(uint32_t c, uint64_t to);
void put_back_link(uint32_t c, uint64_t to);
void put_key(uint32_t c, uint64_t key);
void put_skips(uint32_t c, uint64_t forward, uint64_t back);
void put_word(unsigned word, uint32_t v);

/*
 * Starts with eight chunks of 32 released: the cache list is 192, 160, .. 0,
 * the eighth is on fast list 0.
 */
void start_stacks(void);

/*
 * The same behind a block of 8,160: the cache list is 8352, 8320, .. 8160, the
 * eighth, 8384, is fast. Links are mixed with 2, that of 8160 with 1.
 */
void start_mixed_stacks(void);

/*
 * Starts with four large chunks, each with a live block behind it. Bin 64 is
 * 1088 (of 1,072 bytes), 0 and 2192 (of 1,056); bin 65 is 3280.
 */
void start_bins(void);

#endif
