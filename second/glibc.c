/*
 * Holds the second program against the malloc of the machine's own glibc.
 *
 * Each sequence runs in a child of its own, whose malloc has done nothing
 * yet. A first block is taken so that what remains of glibc's top is as long
 * as an arena the second program opens; from there on both get the same calls,
 * a resize being realloc, and every answer must agree, counted from the start
 * of that top. After each call every chunk's size word, the previous sizes
 * that mean something and the links of every binned chunk are compared as
 * well, its skip links too if it is of 1,024 bytes or more, after a resize also
 * the bytes that the block had from its holder. A null skip link of glibc's is
 * all ones here.
 *
 * glibc since 2.29 has a key too, by now a random number. It is read off a
 * chunk that glibc has cached, and the second program's arena is opened with
 * it: then the second word of every cached chunk is compared, and that of each
 * chunk granted out of the cache or whole out of a bin. An older glibc has no
 * key, and these words are left out.
 *
 * glibc since 2.32 mixes the forward links of cached and fast chunks with their
 * addresses, as edition 2 does with offsets. Each is unmixed by its own, and
 * every link of every such list is then compared, and what a chunk granted out
 * of the cache still holds of it. An older glibc stores them as they are. One
 * sequence in four is of edition 1.
 *
 * The address space is then closed, so that glibc refuses where the second
 * program refuses with 5, instead of asking the system for more.
 */
#define _DEFAULT_SOURCE

#include <malloc.h>
#include <stdbool.h>
#include <stdio.h>
#include <stdlib.h>
#include <string.h>
#include <sys/mman.h>
#include <sys/resource.h>
#include <sys/wait.h>
#include <unistd.h>

#include "heap2.h"
#include "plain.h"
#include "random_heap.h"
#include "trace2.h"

#ifndef __GLIBC__

int main(void)
{
    puts("FAILED against glibc: the C library is not glibc; run this test "
         "on a machine whose C library is glibc 2.27 to 2.41");
    return 1;
}

#else

#include <gnu/libc-version.h>

#define SLOTS 512

/* What a sequence starts with, and how many calls it has. */
enum top { SHORT_TOP, MIDDLE_TOP, LONG_TOP, TOPS };

static const struct {
    const char *name;
    uint32_t least, most, calls;
} tops[TOPS] = {
    { "tops below 1,536", 256, 1520, 60 },
    { "tops below 65,536", 4096, 65520, 1000 },
    { "longer tops", 65536, PLAIN_ARENA_MAX, 1000 },
};

struct sizes {
    uint32_t palette[6];
    uint32_t weight[6]; /* tiny, small, near 1,024, large, huge, palette */
};

struct pair {
    void *theirs;
    uint32_t mine;
};

/* What a child tells; in memory shared with the parent. */
struct report {
    uint64_t grants, releases, refusals;
    uint64_t resizes, moved, resizes_refused;
    uint64_t grown; /* sequences ended by a grown top */
    uint64_t keys, zeros, links; /* second words that agreed */
    uint64_t cached, fast, ends, old_links; /* first words; those of blocks */
    uint64_t mixed; /* of them, stored here otherwise than they are */
    uint64_t skips, no_skips, old_skips; /* skip links; those of blocks */
    uint64_t reached[SECOND_PLACE_COUNT];
    bool failed;
    uint64_t seed;
    uint32_t call;
    char text[160];
};

struct duel {
    struct random r;
    struct report *report;
    struct sizes sizes;
    uintptr_t base;
    uint32_t length;
    uint64_t key; /* glibc's */
    bool keyed;   /* it has one */
    bool mixes;   /* it mixes links */
    struct pair pair[SLOTS];
    uint32_t pairs;
    uint32_t call;
    bool over;
};

static uint8_t arena[PLAIN_ARENA_MAX];
static uint8_t record[PLAIN_RECORD_BYTES];

/* ---- saying what went wrong without malloc ---- */

static void fail(struct duel *d, const char *what, uint64_t mine,
                 uint64_t theirs)
{
    if (d->report->failed)
        return;
    d->report->failed = d->over = true;
    d->report->call = d->call;
    snprintf(d->report->text, sizeof d->report->text,
             "%s: %llu here, %llu in glibc (top of %u)", what,
             (unsigned long long)mine, (unsigned long long)theirs, d->length);
}

/* ---- glibc's heap as bytes ---- */

static uint64_t their_number(uintptr_t at)
{
    uint64_t v;
    memcpy(&v, (const void *)at, sizeof v);
    return v;
}

static uint64_t their_field(const struct duel *d, uint32_t c, uint32_t offset)
{
    return their_number(d->base + c + offset);
}

/* A link out of the arena leads to a bin's header: that is our end. */
static uint64_t their_link(const struct duel *d, uint32_t c, uint32_t offset)
{
    uint64_t inside = their_field(d, c, offset) - d->base;
    return inside < d->length ? inside : PLAIN_NONE64;
}

/* Whether it is null, and what it is here; no other leads out of the arena. */
static uint64_t their_skip(struct duel *d, uint32_t c, uint32_t offset,
                           bool *null)
{
    uint64_t theirs = their_field(d, c, offset), inside = theirs - d->base;
    *null = theirs == 0;
    if (!*null && inside >= d->length)
        fail(d, "skip link out of the arena", offset, theirs);
    return *null ? PLAIN_NONE64 : inside;
}

/* Both of a chunk, compared; how many of them lead somewhere. */
static unsigned same_skips(struct duel *d, uint32_t c, const char *what)
{
    unsigned links = 0;
    for (uint32_t offset = 32; offset <= 40 && !d->over; offset += 8) {
        bool null;
        uint64_t mine = plain_get(arena + c + offset, 8);
        uint64_t theirs = their_skip(d, c, offset, &null);
        if (mine != theirs)
            fail(d, what, mine, theirs);
        links += !null;
    }
    return links;
}

static void same_chunk(struct duel *d, uint32_t c, uint32_t size)
{
    uint64_t mine = plain_get(arena + c + 8, 8);
    if (mine != their_field(d, c, 8)) {
        fail(d, "size word", mine, their_field(d, c, 8));
        return;
    }
    uint32_t next = c + size;
    if (next == d->length || plain_get(arena + next + 8, 8) % 2 == 1)
        return;
    if (plain_get(arena + next, 8) != their_field(d, next, 0))
        fail(d, "previous size", plain_get(arena + next, 8),
             their_field(d, next, 0));
    for (uint32_t offset = 16; offset <= 24; offset += 8)
        if (plain_get(arena + c + offset, 8) != their_link(d, c, offset))
            fail(d, offset == 16 ? "forward link" : "back link",
                 plain_get(arena + c + offset, 8), their_link(d, c, offset));
    if (size >= PLAIN_LARGE_MIN)
        *(same_skips(d, c, "skip link") > 0 ? &d->report->skips
                                            : &d->report->no_skips) += 2;
}

/* A chunk cached here has the key here and there. */
static void same_key(struct duel *d, uint32_t c)
{
    if (!d->keyed)
        return;
    if (plain_get(arena + c + 24, 8) != d->key
        || their_field(d, c, 24) != d->key)
        fail(d, "key", plain_get(arena + c + 24, 8), their_field(d, c, 24));
    d->report->keys++;
}

/*
 * The link of a cached or fast chunk, or what is left of it, unmixed by its
 * address. One of the cache leads to a mem, one of a fast list to a chunk.
 */
static uint64_t their_stacked(struct duel *d, uint32_t c, bool cached)
{
    uint64_t link = their_field(d, c, 16);
    if (d->mixes)
        link ^= (d->base + c + 16) >> 12;
    if (link == 0)
        return PLAIN_NONE64;
    uint64_t to = link - d->base - (cached ? 16 : 0);
    if (to >= d->length)
        fail(d, "link out of the arena", c, link);
    return to;
}

/* The same here, unmixed by its offset; answers where it leads. */
static uint64_t same_stacked(struct duel *d, uint32_t c, bool cached)
{
    uint64_t mine = plain_link(arena, plain_edition(record), c);
    uint64_t theirs = their_stacked(d, c, cached);
    if (mine != theirs)
        fail(d, cached ? "cached link" : "fast link", mine, theirs);
    d->report->mixed += mine != plain_get(arena + c + 16, 8);
    return mine;
}

/* Every cached and every fast chunk leads to the same one here and there. */
static void same_stacks(struct duel *d)
{
    for (unsigned i = 0; i < 74 && !d->over; i++) {
        bool cached = i < 64;
        uint32_t head = plain_word(record, cached ? plain_cache_head(i)
                                                  : plain_fast_head(i - 64));
        uint64_t c = head == PLAIN_NONE32 ? PLAIN_NONE64 : head;
        while (c != PLAIN_NONE64 && !d->over) {
            if (cached)
                same_key(d, (uint32_t)c);
            c = same_stacked(d, (uint32_t)c, cached);
            *(c == PLAIN_NONE64 ? &d->report->ends
              : cached          ? &d->report->cached
                                : &d->report->fast) += 1;
        }
    }
}

static void same_heap(struct duel *d)
{
    for (uint32_t c = 0; c < d->length && !d->over;) {
        uint32_t size = (uint32_t)plain_get(arena + c + 8, 8) & ~15u;
        same_chunk(d, c, size);
        c += size;
    }
    same_stacks(d);
}

/* ---- what a granted block holds where links were ---- */

static struct plain_view before; /* the call */

/* What was at c before the call, and is granted whole; else NULL. */
static const struct plain_tile *granted_whole(uint32_t c, uint32_t size)
{
    for (uint32_t i = 0; i < before.tiles; i++)
        if (before.tile[i].at == c && before.tile[i].size == size)
            return &before.tile[i];
    return NULL;
}

/*
 * The chunk was cached or binned before the call, and is granted whole: the
 * word is 0 in both, or its old back link. What stands in any other may be
 * left over from glibc's own words, of which the second program has none.
 */
static void same_second_word(struct duel *d, uint32_t c, uint32_t size)
{
    uint64_t mine = plain_get(arena + c + 24, 8);
    const struct plain_tile *t = granted_whole(c, size);

    if (!d->keyed || t == NULL
        || (t->state != PLAIN_CACHED && t->state != PLAIN_BINNED))
        return;
    bool zero = their_field(d, c, 24) == 0;
    uint64_t theirs = zero ? 0 : their_link(d, c, 24);
    *(zero ? &d->report->zeros : &d->report->links) += 1;
    if (mine != theirs || (t->state == PLAIN_CACHED && !zero))
        fail(d, "second word of a granted block", mine, theirs);
}

/* A chunk taken from the cache keeps its link, as it was stored. */
static void same_old_link(struct duel *d, uint32_t c, uint32_t size)
{
    const struct plain_tile *t = granted_whole(c, size);

    if (t == NULL || t->state != PLAIN_CACHED)
        return;
    same_stacked(d, c, true);
    d->report->old_links++;
}

/* Its own skip links stay in a chunk that leaves its bin. */
static void same_old_skips(struct duel *d, uint32_t c, uint32_t size)
{
    const struct plain_tile *t = granted_whole(c, size);

    if (t == NULL || t->state != PLAIN_BINNED || size < PLAIN_LARGE_MIN)
        return;
    same_skips(d, c, "old skip link of a granted block");
    d->report->old_skips += 2;
}

/* ---- one call in both ---- */

/* A holder's writes, the same in both. */
static void holder_writes(struct duel *d, void *p, uint32_t mem,
                          uint32_t usable)
{
    if (p == NULL || d->over || !random_chance(&d->r, 50))
        return;
    random_bytes(&d->r, arena + mem, usable);
    memcpy(p, arena + mem, usable);
}

/* Whether both gave the same block, or both refused. */
static bool same_answer(struct duel *d, struct second_answer a, void *p,
                        bool grown)
{
    uintptr_t mem = (uintptr_t)p - d->base;

    if (a.no == 5 && p != NULL && (grown || mem >= d->length)) {
        d->report->grown++; /* the system lets glibc grow all the same */
        d->over = true;
    } else if (a.no != (p == NULL ? 5 : 0)) {
        fail(d, "refusal number", a.no, p == NULL ? 5 : 0);
    } else if (p != NULL) {
        if (a.mem != mem)
            fail(d, "mem", a.mem, mem);
        if (a.usable != malloc_usable_size(p))
            fail(d, "usable", a.usable, malloc_usable_size(p));
    }
    return !d->over;
}

/* Answers the mem both gave, or 0. A resize of null is a grant. */
static uint32_t both_grant(struct duel *d, uint64_t n)
{
    if (d->over || d->pairs == SLOTS)
        return 0;
    d->call++;
    bool null = random_chance(&d->r, 10);
    plain_read(&before, arena, d->length, record);
    struct second_answer a = null
        ? second_resize(arena, d->length, record, sizeof record, 0, n)
        : second_grant(arena, d->length, record, sizeof record, n);
    void *end = sbrk(0);
    void *p = null ? realloc(NULL, n) : malloc(n);

    if (!same_answer(d, a, p, sbrk(0) != end))
        return 0;
    if (p == NULL) {
        d->report->refusals++;
    } else {
        d->report->grants++;
        d->pair[d->pairs++] = (struct pair){ p, a.mem };
        same_old_link(d, a.mem - 16, a.usable + 8);
        same_second_word(d, a.mem - 16, a.usable + 8);
        same_old_skips(d, a.mem - 16, a.usable + 8);
    }
    same_heap(d);
    holder_writes(d, p, a.mem, a.usable);
    return a.mem;
}

static void both_release(struct duel *d, uint32_t i)
{
    if (d->over)
        return;
    d->call++;
    struct pair pair = d->pair[i];
    d->pair[i] = d->pair[--d->pairs];
    bool zero = random_chance(&d->r, 10); /* a resize to 0 is a release */
    struct second_answer a = zero
        ? second_resize(arena, d->length, record, sizeof record, pair.mine, 0)
        : second_release(arena, d->length, record, sizeof record, pair.mine);
    if (a.no != 0 || a.mem != 0 || a.usable != 0) {
        fail(d, "release answers", a.no != 0 ? a.no : a.mem, 0);
        return;
    }
    if (!zero)
        free(pair.theirs);
    else if (realloc(pair.theirs, 0) != NULL)
        fail(d, "a resize to 0 hands back", 0, 1);
    d->report->releases++;
    same_heap(d);
}

/* The bytes that the holder of both has written are the same in both. */
static void same_bytes(struct duel *d, const struct pair *pair, uint32_t count)
{
    for (uint32_t i = 0; i < count && !d->over; i++) {
        uint8_t theirs = ((const uint8_t *)pair->theirs)[i];
        if (arena[pair->mine + i] != theirs)
            fail(d, "byte of a resized block", arena[pair->mine + i], theirs);
    }
}

/*
 * A new length other than 0. The holder has filled the block, so that all it
 * keeps can be compared.
 */
static void both_resize(struct duel *d, uint32_t i, uint64_t n)
{
    if (d->over)
        return;
    d->call++;
    struct pair *pair = &d->pair[i];
    uint32_t kept = (uint32_t)malloc_usable_size(pair->theirs);
    random_bytes(&d->r, arena + pair->mine, kept);
    memcpy(pair->theirs, arena + pair->mine, kept);

    struct second_answer a = second_resize(arena, d->length, record,
                                           sizeof record, pair->mine, n);
    void *end = sbrk(0);
    void *p = realloc(pair->theirs, n);
    if (!same_answer(d, a, p, sbrk(0) != end))
        return;
    if (p == NULL) {
        d->report->resizes_refused++;
    } else {
        d->report->resizes++;
        d->report->moved += a.mem != pair->mine;
        *pair = (struct pair){ p, a.mem };
        kept = a.usable < kept ? a.usable : kept;
    }
    same_heap(d);
    same_bytes(d, pair, kept);
}

static void both_resize_mem(struct duel *d, uint32_t mem, uint64_t n)
{
    for (uint32_t i = 0; i < d->pairs; i++)
        if (d->pair[i].mine == mem) {
            both_resize(d, i, n);
            return;
        }
}

/* Releases a mem that both granted; 0, as a refused grant gives, is nothing. */
static void both_release_mem(struct duel *d, uint32_t mem)
{
    for (uint32_t i = 0; i < d->pairs; i++)
        if (d->pair[i].mine == mem) {
            both_release(d, i);
            return;
        }
}

/* ---- sequences ---- */

static uint32_t random_request(struct duel *d)
{
    uint32_t sum = 0, kind = 0;
    for (unsigned i = 0; i < 6; i++)
        sum += d->sizes.weight[i];
    uint32_t drawn = random_below(&d->r, sum);
    while (drawn >= d->sizes.weight[kind])
        drawn -= d->sizes.weight[kind++];
    switch (kind) {
    case 0: return random_below(&d->r, 121);
    case 1: return random_below(&d->r, 1001);
    case 2: return 980 + random_below(&d->r, 80);
    case 3: return 1001 + random_below(&d->r, 4000);
    case 4: return random_below(&d->r, d->length / 2 + 1);
    default: return d->sizes.palette[random_below(&d->r, 6)];
    }
}

static void draw_sizes(struct duel *d)
{
    for (unsigned i = 0; i < 6; i++) {
        d->sizes.weight[i] = random_below(&d->r, i == 4 ? 3 : 8);
        d->sizes.palette[i] = random_below(
            &d->r, i < 2 ? 121 : i < 4 ? 1041 : d->length / 8 + 1);
    }
    d->sizes.weight[5] += 2;
}

/* Equals kept apart, all released, then asked for again: steps 3, 5 and 6. */
static void run_of_equals(struct duel *d)
{
    uint32_t n = random_request(d), fence = random_below(&d->r, 41);
    uint32_t mem[24], count = 4 + random_below(&d->r, 20);

    for (uint32_t i = 0; i < count; i++) {
        mem[i] = both_grant(d, n);
        both_grant(d, fence);
    }
    for (uint32_t i = 0; i < count; i++)
        both_release_mem(d, mem[i]);
    if (random_chance(&d->r, 40))
        both_grant(d, n + random_below(&d->r, 200));
    for (uint32_t i = random_below(&d->r, count + 1); i > 0; i--)
        both_grant(d, n);
}

/*
 * Groups of equals in one large bin, kept apart; sorted, some of them twice.
 * Then the rings lose what grants take, and what a fence takes in that grows.
 */
static void groups_of_equals(struct duel *d)
{
    uint32_t n = 1080 + 64 * random_below(&d->r, 20), mem[20], fence[20];
    uint32_t count = 4 + random_below(&d->r, 17);

    for (uint32_t i = 0; i < count; i++) {
        fence[i] = both_grant(d, random_below(&d->r, 25));
        mem[i] = both_grant(d, n + 16 * random_below(&d->r, 4));
    }
    both_grant(d, 24);
    for (uint32_t i = 0; i < count; i++) {
        both_release_mem(d, mem[i]);
        if (random_chance(&d->r, 30))
            both_grant(d, d->length);
    }
    both_grant(d, d->length);
    for (uint32_t i = random_below(&d->r, 2 * count); i > 0; i--)
        if (random_chance(&d->r, 60))
            both_resize_mem(d, fence[random_below(&d->r, count)],
                            25 + random_below(&d->r, n));
        else
            both_grant(d, n + 16 * random_below(&d->r, 4));
}

/*
 * The last remainder grows by the block behind it and so goes first in
 * unsorted, before a chunk that the next request fits exactly: step 5 caches
 * that one and then splits the remainder.
 */
static void remainder_that_grows(struct duel *d)
{
    uint32_t n = 121 + random_below(&d->r, 400), mem[8];

    for (uint32_t i = 0; i < 8; i++)
        mem[i] = both_grant(d, n);
    both_grant(d, 24);
    uint32_t split = both_grant(d, 1500 + random_below(&d->r, 500));
    uint32_t behind = both_grant(d, 1100 + random_below(&d->r, 500));
    both_grant(d, 24);
    both_release_mem(d, split);
    for (uint32_t i = 0; i < 7; i++)
        both_release_mem(d, mem[i]);
    both_grant(d, 540 + random_below(&d->r, 200));
    both_release_mem(d, mem[7]);
    both_release_mem(d, behind);
    for (uint32_t i = 0; i < 8; i++)
        both_grant(d, n);
}

/*
 * Equals kept apart, released, some asked for again; then what keeps them
 * apart grows to their length: steps 2, 3 and 5 without step 1, the cache list
 * being empty, partly full or full.
 */
static void fences_that_grow(struct duel *d)
{
    uint32_t n = 25 + random_request(d), mem[16], fence[16];
    uint32_t count = 8 + random_below(&d->r, 9);

    for (uint32_t i = 0; i < count; i++) {
        mem[i] = both_grant(d, n);
        fence[i] = both_grant(d, random_below(&d->r, 25));
    }
    for (uint32_t i = 0; i < count; i++)
        both_release_mem(d, mem[i]);
    if (random_chance(&d->r, 40))
        both_grant(d, n + random_below(&d->r, 200));
    for (uint32_t i = random_below(&d->r, 9); i > 0; i--)
        both_grant(d, n);
    for (uint32_t i = random_below(&d->r, count + 1); i > 0; i--)
        both_resize_mem(d, fence[i - 1], n);
}

/*
 * The chunks before and behind a block are fast when it grows. Joining the one
 * before clears the block's P; the one behind, alone or joined with what is
 * behind it, may be what the search finds.
 */
static void block_between_fast_chunks(struct duel *d)
{
    uint32_t n = random_below(&d->r, 121), mem[7];

    for (uint32_t i = 0; i < 7; i++)
        mem[i] = both_grant(d, n);
    uint32_t before = both_grant(d, n);
    uint32_t block = both_grant(d, random_below(&d->r, n + 1));
    uint32_t behind = both_grant(d, n);
    uint32_t last = both_grant(d, random_below(&d->r, 2000));
    if (random_chance(&d->r, 50))
        both_grant(d, 24);
    if (random_chance(&d->r, 70))
        both_release_mem(d, last);
    for (uint32_t i = 0; i < 7; i++)
        both_release_mem(d, mem[i]);
    both_release_mem(d, before);
    both_release_mem(d, behind);
    if (block != 0)
        both_resize_mem(d, block, random_chance(&d->r, 20) ? n + (n == 0)
                        : random_chance(&d->r, 50)
                            ? random_new_length(&d->r, arena, d->length, block)
                            : 1 + random_below(&d->r, d->length / 4));
}

/* Chunk sizes on both sides of 65,536, now and then far below. */
static uint32_t much(struct duel *d)
{
    return random_chance(&d->r, 70) ? 65488 + 16 * random_below(&d->r, 14)
                                    : 1056 + 16 * random_below(&d->r, 2000);
}

/*
 * Large blocks between blocks of n, most of which are then fast; the large
 * ones are released, or first made short. What is joined consolidates, or is
 * just too little for it.
 */
static void release_much(struct duel *d)
{
    uint32_t n = random_below(&d->r, 121), mem[7], block[7], blocks = 0;

    for (uint32_t i = 0; i < 7; i++)
        mem[i] = both_grant(d, n);
    for (uint32_t i = 1 + random_below(&d->r, 3); i > 0; i--) {
        block[blocks++] = both_grant(d, n);
        block[blocks++] = both_grant(d, much(d) - 8);
    }
    block[blocks++] = both_grant(d, n);
    for (uint32_t i = 0; i < 7; i++)
        both_release_mem(d, mem[i]);
    while (blocks > 0) {
        uint32_t drawn = random_below(&d->r, blocks);
        if (random_chance(&d->r, 30))
            both_resize_mem(d, block[drawn], 1 + random_below(&d->r, 100));
        if (random_chance(&d->r, 70)) {
            both_release_mem(d, block[drawn]);
            block[drawn] = block[--blocks];
        }
    }
}

/*
 * A small block behind a large free chunk, of which its resize takes the front
 * and then joins the block with what is left.
 */
static void move_out_of_much(struct duel *d)
{
    uint32_t n = 121 + random_below(&d->r, 800), mem[7];
    uint32_t small = random_below(&d->r, 121), fast[8];

    for (uint32_t i = 0; i < 7; i++)
        mem[i] = both_grant(d, n);
    for (uint32_t i = 0; i < 8; i++)
        fast[i] = both_grant(d, small);
    both_grant(d, 24);
    uint32_t large = both_grant(d, much(d) - 8);
    uint32_t block = both_grant(d, n);
    both_grant(d, 24);
    for (uint32_t i = 0; i < 7; i++)
        both_release_mem(d, mem[i]);
    both_release_mem(d, large);
    for (uint32_t i = 0; i < 8; i++)
        both_release_mem(d, fast[i]);
    both_resize_mem(d, block, n + 16 + random_below(&d->r, 100));
}

static void release_some(struct duel *d)
{
    uint32_t keep = random_below(&d->r, d->pairs + 1);
    if (random_chance(&d->r, 30))
        keep = random_below(&d->r, 4);
    while (d->pairs > keep && !d->over)
        both_release(d, random_below(&d->r, d->pairs));
}

/* Most of a long top is used up first, so that the bins serve and refuse. */
static void fill_long_top(struct duel *d)
{
    while (d->length - plain_word(record, 1) > 32768
           && d->pairs < SLOTS / 2 && !d->over)
        both_grant(d, random_chance(&d->r, 50) ? random_request(d)
                                               : random_below(&d->r, 24000));
}

static void resize_some(struct duel *d)
{
    uint32_t i = random_below(&d->r, d->pairs);
    uint64_t n = random_chance(&d->r, 40)
        ? 1 + random_request(d)
        : random_new_length(&d->r, arena, d->length, d->pair[i].mine);
    both_resize(d, i, n);
}

static void run_sequence(struct duel *d, uint32_t calls)
{
    uint32_t grant_percent = 50 + random_below(&d->r, 10);
    uint32_t resize_percent = random_below(&d->r, 50);

    while (d->call < calls && !d->over) {
        uint32_t drawn = random_below(&d->r, 1000);
        if (drawn < 8)
            run_of_equals(d);
        else if (drawn < 16)
            release_some(d);
        else if (drawn < 24)
            draw_sizes(d);
        else if (drawn < 28)
            fences_that_grow(d);
        else if (drawn < 34)
            block_between_fast_chunks(d);
        else if (drawn < 36 && d->length > 65536)
            release_much(d);
        else if (drawn >= 36 && drawn < 42)
            groups_of_equals(d);
        else if (d->pairs > 0 && random_chance(&d->r, resize_percent))
            resize_some(d);
        else if (d->pairs == 0 || random_chance(&d->r, grant_percent)) {
            if (both_grant(d, random_request(d)) == 0
                && random_chance(&d->r, 10))
                release_some(d);
        }
        else
            both_release(d, random_below(&d->r, d->pairs));
    }
}

/* ---- a child's malloc made ready ---- */

/*
 * What a block of glibc's holds while it alone is cached: its second word, 0
 * for no key, and its link, 0 unless that is mixed.
 */
static void learn_words(struct duel *d, void *p)
{
    volatile uintptr_t first = (uintptr_t)p; /* it is read when it is free */
    memset(p, 0, 24);
    free(p);
    d->key = their_number(first + 8);
    d->keyed = d->key != 0;
    d->mixes = their_number(first) != 0;
}

/* Leaves glibc a top of exactly that length and notes where it starts. */
static bool make_top(struct duel *d)
{
    mallopt(M_MMAP_MAX, 0);
    mallopt(M_TRIM_THRESHOLD, 1 << 30);
    mallopt(M_TOP_PAD, 1 << 20);
    char *p = malloc(24);
    if (p == NULL)
        return false;
    learn_words(d, p);
    p = malloc(24); /* the same again */
    uintptr_t top = (uintptr_t)p + malloc_usable_size(p) - 8;
    uint64_t size = their_number(top + 8) & ~(uint64_t)15;
    if (top + size != (uintptr_t)sbrk(0) || size < d->length + 32)
        return false;
    void *filler = malloc(size - d->length - 8);
    d->base = top + size - d->length;
    return (uintptr_t)filler == top + 16
        && their_number(d->base + 8) == d->length + 1;
}

/* Not inlined: its frame must lie where those of later calls will. */
__attribute__((noinline)) static void touch_stack(void)
{
    volatile char touched[1 << 18];
    for (size_t i = 0; i < sizeof touched; i += 512)
        touched[i] = 1;
}

/* The stack is touched first: it could not grow afterwards either. */
static void close_address_space(void)
{
    struct rlimit none = { 0, 0 };
    touch_stack();
    setrlimit(RLIMIT_AS, &none);
}

static void child(struct report *report, uint64_t seed, enum top top)
{
    static struct duel duel;
    struct duel *d = &duel;

    *d = (struct duel){ .r = { seed }, .report = report };
    report->seed = seed;
    uint32_t most = tops[top].most, least = tops[top].least;
    if (top == MIDDLE_TOP && random_chance(&d->r, 20))
        least = 32;
    d->length = least + 16 * random_below(&d->r, (most - least) / 16 + 1);
    draw_sizes(d);
    if (!make_top(d)) {
        fail(d, "malloc's top could not be made as long as the arena", 0, 0);
        return;
    }
    second_open(arena, d->length, record, sizeof record, d->key,
                seed % 4 == 0 ? 1 : 2);
    close_address_space();
    if (top == SHORT_TOP)
        block_between_fast_chunks(d);
    else if (top == LONG_TOP && random_chance(&d->r, 60))
        fill_long_top(d);
    else if (top == LONG_TOP && random_chance(&d->r, 50))
        move_out_of_much(d);
    else if (top == LONG_TOP)
        release_much(d);
    else if (random_chance(&d->r, 25))
        remainder_that_grows(d);
    else if (random_chance(&d->r, 30))
        groups_of_equals(d);
    run_sequence(d, tops[top].calls);
    for (unsigned i = 0; i < SECOND_PLACE_COUNT; i++)
        report->reached[i] += second_trace.reached[i];
}

/* ---- the parent ---- */

static bool run_child(struct report *report, uint64_t seed, enum top top)
{
    pid_t pid = fork();
    int status = 0;

    if (pid == 0) {
        child(report, seed, top);
        _exit(0);
    }
    bool ended = pid > 0 && waitpid(pid, &status, 0) == pid
        && WIFEXITED(status) && WEXITSTATUS(status) == 0;
    if (!ended && !report->failed) {
        static const char text[] = "the child did not end in order";
        report->failed = true;
        memcpy(report->text, text, sizeof text);
    }
    return !report->failed;
}

static bool tell(const char *name, const struct report *report)
{
    if (report->failed)
        printf("FAILED %s, glibc %s: seed %llu, call %u: %s\n", name,
               gnu_get_libc_version(), (unsigned long long)report->seed,
               report->call, report->text);
    else
        printf("ok %s, glibc %s: %llu grants, %llu releases, %llu refusals, "
               "%llu resizes (%llu moved, %llu refused) agree, and so do %llu "
               "keys, %llu words 0 and %llu old back links, %llu cached links, "
               "%llu fast ones, %llu ends of such lists and %llu old links, "
               "%llu of them mixed here, %llu skip links that lead somewhere, "
               "%llu that do not and %llu old ones; %llu sequences ended early "
               "by a top that grew\n",
               name, gnu_get_libc_version(), (unsigned long long)report->grants,
               (unsigned long long)report->releases,
               (unsigned long long)report->refusals,
               (unsigned long long)report->resizes
                   + (unsigned long long)report->resizes_refused,
               (unsigned long long)report->moved,
               (unsigned long long)report->resizes_refused,
               (unsigned long long)report->keys,
               (unsigned long long)report->zeros,
               (unsigned long long)report->links,
               (unsigned long long)report->cached,
               (unsigned long long)report->fast,
               (unsigned long long)report->ends,
               (unsigned long long)report->old_links,
               (unsigned long long)report->mixed,
               (unsigned long long)report->skips,
               (unsigned long long)report->no_skips,
               (unsigned long long)report->old_skips,
               (unsigned long long)report->grown);
    return !report->failed;
}

/* An emptying has no counterpart in glibc. */
static bool every_place_reached(const struct report *report)
{
#define PLACE_TEXT(place, text) text,
    static const char *const text[] = { SECOND_PLACES(PLACE_TEXT) };
#undef PLACE_TEXT
    bool all = true;

    for (unsigned i = 0; i < SECOND_PLACE_COUNT; i++) {
        uint64_t times = 0;
        if (i == EMPTYING_CONSOLIDATES)
            continue;
        for (unsigned top = 0; top < TOPS; top++)
            times += report[top].reached[i];
        printf("   %9llu times: %s\n", (unsigned long long)times, text[i]);
        all = all && times > 0;
    }
    puts(all ? "ok every place of the steps was reached against glibc"
             : "FAILED every place of the steps was reached against glibc: "
               "one was reached 0 times, see above");
    return all;
}

int main(int argc, char **argv)
{
    uint64_t sequences = argc > 1 ? strtoul(argv[1], NULL, 10) : 600;
    uint64_t count[TOPS] = { 4 * sequences, sequences, sequences / 2 };
    struct report *report = mmap(NULL, TOPS * sizeof *report,
                                 PROT_READ | PROT_WRITE,
                                 MAP_SHARED | MAP_ANONYMOUS, -1, 0);
    if (report == MAP_FAILED || getenv("GLIBC_TUNABLES") != NULL) {
        puts("FAILED against glibc: no shared memory, or GLIBC_TUNABLES is "
             "set; unset it and run again");
        return 1;
    }
    /* Nothing is printed before the last child: stdio would use malloc. */
    for (unsigned top = 0; top < TOPS; top++)
        for (uint64_t seed = 1; seed <= count[top]; seed++)
            if (!run_child(&report[top], ((uint64_t)top << 32) + seed, top))
                break;
    bool good = true;
    for (unsigned top = 0; top < TOPS; top++)
        good = tell(tops[top].name, &report[top]) && good;
    good = every_place_reached(report) && good;
    return good ? 0 : 1;
}

#endif
