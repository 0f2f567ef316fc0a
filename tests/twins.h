/*
 * Two arenas of one length, opened with different keys or in different
 * editions, which get the same calls, resizes among them, and the same bytes
 * from the holders. After each call the answers must agree, and so must the
 * records but for key and edition, and every byte that a holder has written
 * and a live block has held ever since.
 */
#ifndef TWINS_H
#define TWINS_H

#include "holders.h"

#define TWIN_CALLS 150

struct twins {
    struct pair one, other; /* the one's random numbers serve both */
    struct held block[TWIN_CALLS];
    uint32_t blocks;
    uint8_t *written; /* by offset: 1 if its holder wrote it */
    uint8_t *kept;    /* of a block that is resized */
    bool alike;       /* opened over the same bytes */
};

/* What the twins of a group did. */
struct twins_did {
    uint64_t pairs, calls, resized, moved, written;
};

/* Of a random length, not yet opened; every second seed's are alike. */
struct twins twins_new(uint64_t seed, uint32_t most);
void twins_free(struct twins *t);

struct opening {
    uint64_t key;
    uint32_t edition;
};

void twins_open(struct twins *t, struct opening one, struct opening other);

/* A random call in both, and a holder's write; told for messages. */
void twins_call(struct twins *t, struct twins_did *did);
const char *twins_where(const struct twins *t);

void twins_tell(const struct twins_did *did);

#endif
