/*
 * The same heap twice, one for the archive and one for the second program,
 * and calls that are made on both and compared.
 */
#ifndef PAIR_H
#define PAIR_H

#include <stdbool.h>
#include <stddef.h>
#include <stdint.h>

#include "check.h"
#include "random_heap.h"

/* Those up to REPAIR change a heap. */
enum call {
    OPEN,
    GRANT,
    RELEASE,
    RESIZE,
    EMPTYING,
    JOINING,
    REPAIR,
    AUDIT,
    WRITE_IMAGE,
    READ_IMAGE
};

extern const char *const call_name[];

struct pair {
    struct random r;
    uint64_t seed;
    uint32_t calls;
    struct lent ours, theirs;
};

/* What the whole run did. */
extern struct tally {
    uint64_t calls, audits, refused[13], faults[7];
    uint64_t resized, moved; /* blocks held by a model */
} tally;

/* Exactly that many bytes (one for none), or the program ends. */
void *memory(size_t length);

/*
 * One call up to REPAIR on one of the two. The number is a grant's n, an
 * open's key, else a mem; a resize has its n beside it and an open its edition,
 * which the others pass by.
 */
struct second_answer call_ours(struct lent *l, enum call call,
                               uint64_t number, uint64_t n);
struct second_answer call_theirs(struct lent *l, enum call call,
                                 uint64_t number, uint64_t n);
struct second_fault audit_ours(const struct lent *l);
struct second_answer write_ours(const struct lent *l, uint8_t *file,
                                size_t file_len);
struct second_fault read_ours(const uint8_t *file, size_t file_len,
                              struct lent *l);
bool same_answer(struct second_answer a, struct second_answer b);
bool same_fault(struct second_fault a, struct second_fault b);
bool is_sound(const struct lent *l); /* by the archive's audit */

/* One call on both, all bytes compared after it; the archive's answer. */
struct second_answer both(struct pair *p, enum call call, uint64_t number);
struct second_answer both_resize(struct pair *p, uint64_t mem, uint64_t n);
struct second_answer both_open(struct pair *p, uint64_t key, uint32_t edition);
struct second_fault both_audits(struct pair *p);

/* As both, for a call that must be refused with no and write nothing. */
void refused(struct pair *p, enum call call, uint64_t number, uint32_t no);
void refused_resize(struct pair *p, uint64_t mem, uint64_t n, uint32_t no);

struct pair pair_new(uint64_t seed, struct random r, size_t length);
void pair_free(struct pair *p);
void same_start(struct pair *p); /* copies the archive's heap to the other */

/* Over random bytes; so, with a random key and in a random edition. */
void open_with(struct pair *p, uint64_t key, uint32_t edition);
void open_pair(struct pair *p);
struct pair opened(uint64_t seed, size_t length);

/* The second word of the chunk at c: its key, if it is cached. */
uint64_t second_word(const struct lent *l, uint32_t c);

#endif
