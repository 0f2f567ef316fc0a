/*
 * A pair with holders: which blocks were granted and not yet released, random
 * calls that keep to it, holders' writes, the bytes that a resize keeps, and
 * demand 3 after each joining of which it speaks.
 */
#ifndef HOLDERS_H
#define HOLDERS_H

#include "pair.h"

#define RECENT 8

struct held {
    uint32_t mem, usable;
};

struct model {
    struct pair p;
    struct lent before;      /* the archive's heap before the call */
    struct held *block;
    uint32_t blocks;
    uint32_t *usable_at;     /* by mem / 16: 0 where no block is held */
    uint64_t recent[RECENT]; /* mems released lately */
    uint32_t palette[4];
    uint32_t grant_percent;
    bool emptied;            /* and no grant, release or resize since */
};

struct model model_of(struct pair p); /* takes the pair over */
void model_free(struct model *m);
void hold(struct model *m, uint32_t mem, uint32_t usable);

/* All live blocks of a sound heap that no sequence of calls made. */
void hold_the_live(struct model *m);

/* A random call, valid or not, or some of a kind, and a holder's write. */
void random_call(struct model *m);
void grants_in_a_row(struct model *m);

/* That many; emptied and joined; the same with no block held. */
void random_calls(struct model *m, uint32_t calls);

/* Calls that are held against who holds what; a joining against demand 3. */
uint32_t model_grant(struct model *m, uint64_t n); /* the mem, or 0 */
void model_release(struct model *m, uint64_t mem);
void model_resize(struct model *m, uint64_t mem, uint64_t n);
void model_emptying(struct model *m);
void model_joining(struct model *m);
void empty_and_join(struct model *m);

/* The same random bytes in both arenas. */
void put_both(struct pair *p, uint32_t at, uint32_t length);

/* Numbers at the ends of their range, or near them. */
#define EXTREMES 33
uint64_t extreme(uint32_t i);

#endif
