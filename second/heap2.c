/*
 * Document 01's heap, with requests (i), (vi), (vii), (viii), (x) and (xi) of
 * document 02. The order of the file: the heap's words, the lists, the rings,
 * joining, the numbered steps, resizing, the audit, the calls. A call checks
 * shape, then its number, then the whole heap, and only then writes; from there
 * on every offset read from the arena is known to be a chunk.
 */
#include "heap2.h"

#include <stdbool.h>

#include "layout2.h"
#include "trace2.h"

#define CHUNK_MIN 32u
#define CACHE_MAX 1040u
#define CACHE_DEPTH 7u
#define FAST_MAX 128u
#define CONSOLIDATE_MIN 65536u
#define REQUEST_MAX 262144u

enum refusal {
    GRANTED = 0,
    BAD_SHAPE = 1,
    REQUEST_TOO_LARGE = 2,
    NOT_SOUND = 3,
    NOT_LIVE = 4,
    NO_ROOM = 5,
    BAD_EDITION = 12
};

struct heap {
    uint8_t *arena;
    uint8_t *record;
    uint32_t length;
};

#ifdef SECOND_TRACE
struct second_trace second_trace;
#endif

/* ---- words ---- */

static uint32_t get(const struct heap *h, unsigned word)
{
    return word_get(h->record, word);
}

static void put(struct heap *h, unsigned word, uint32_t v)
{
    word_put(h->record, word, v);
}

/* On a sound heap a link is an offset or all ones, so the cut keeps both. */
static uint32_t link_get(const struct heap *h, uint32_t c, enum field f)
{
    return (uint32_t)field_get(h->arena, c, f);
}

static uint64_t widen(uint32_t offset)
{
    return offset == NONE ? LINK_NONE : offset;
}

static void link_put(struct heap *h, uint32_t c, enum field f, uint32_t to)
{
    field_put(h->arena, c, f, widen(to));
}

/* The same of a cached or fast chunk, whose link the edition may mix. */
static uint32_t stack_next(const struct heap *h, uint32_t c)
{
    return (uint32_t)stack_link_get(h->arena, get(h, EDITION), c);
}

static void stack_link(struct heap *h, uint32_t c, uint32_t to)
{
    stack_link_put(h->arena, get(h, EDITION), c, widen(to));
}

static uint32_t size_of(const struct heap *h, uint32_t c)
{
    return (uint32_t)field_get(h->arena, c, SIZE_WORD) & ~15u;
}

static bool p_of(const struct heap *h, uint32_t c)
{
    return field_get(h->arena, c, SIZE_WORD) & P;
}

/* Every size word the steps write has P set; only clear_p clears it. */
static void size_put(struct heap *h, uint32_t c, uint32_t size)
{
    field_put(h->arena, c, SIZE_WORD, size | P);
}

/* A resized block's own P stays as it is at this moment. */
static void size_put_keeping_p(struct heap *h, uint32_t c, uint32_t size)
{
    field_put(h->arena, c, SIZE_WORD, p_of(h, c) ? size | P : size);
}

static void set_p(struct heap *h, uint32_t c)
{
    field_put(h->arena, c, SIZE_WORD, field_get(h->arena, c, SIZE_WORD) | P);
}

static void clear_p(struct heap *h, uint32_t c)
{
    field_put(h->arena, c, SIZE_WORD,
              field_get(h->arena, c, SIZE_WORD) & ~(uint64_t)P);
}

static uint32_t mem_of(uint32_t c)
{
    return c + 16;
}

/* ---- where a size belongs ---- */

static unsigned cache_of(uint32_t size)
{
    return (size - CHUNK_MIN) / 16;
}

static unsigned fast_of(uint32_t size)
{
    return size / 16 - 2;
}

static unsigned bin_of(uint32_t size)
{
    if (size < LARGE_MIN)
        return size / 16;
    if (size / 64 <= 48)
        return 48 + size / 64;
    if (size / 512 <= 20)
        return 91 + size / 512;
    if (size / 4096 <= 10)
        return 110 + size / 4096;
    if (size / 32768 <= 4)
        return 119 + size / 32768;
    if (size / 262144 <= 2)
        return 124 + size / 262144;
    return 126;
}

/* ---- cache and fast lists ---- */

static bool cache_has_room(const struct heap *h, uint32_t size)
{
    return size <= CACHE_MAX
        && get(h, CACHE_COUNT + cache_of(size)) < CACHE_DEPTH;
}

/* Whoever caches a chunk, or takes one from the cache, does it by these two. */
static void cache_push(struct heap *h, unsigned k, uint32_t c)
{
    stack_link(h, c, get(h, CACHE_HEAD + k));
    field_put(h->arena, c, CACHE_KEY, key_get(h->record));
    put(h, CACHE_HEAD + k, c);
    put(h, CACHE_COUNT + k, get(h, CACHE_COUNT + k) + 1);
}

static uint32_t cache_take(struct heap *h, unsigned k)
{
    uint32_t c = get(h, CACHE_HEAD + k);
    if (c == NONE)
        return NONE;
    put(h, CACHE_HEAD + k, stack_next(h, c));
    field_put(h->arena, c, CACHE_KEY, 0);
    put(h, CACHE_COUNT + k, get(h, CACHE_COUNT + k) - 1);
    return c;
}

static void fast_push(struct heap *h, unsigned k, uint32_t c)
{
    stack_link(h, c, get(h, FAST_HEAD + k));
    put(h, FAST_HEAD + k, c);
}

static uint32_t fast_take(struct heap *h, unsigned k)
{
    uint32_t c = get(h, FAST_HEAD + k);
    if (c != NONE)
        put(h, FAST_HEAD + k, stack_next(h, c));
    return c;
}

static bool some_fast(const struct heap *h)
{
    for (unsigned k = 0; k < FAST_LISTS; k++)
        if (get(h, FAST_HEAD + k) != NONE)
            return true;
    return false;
}

/* ---- bins ---- */

static uint32_t bin_first(const struct heap *h, unsigned bin)
{
    return get(h, BIN_FIRST + 2 * bin);
}

static uint32_t bin_last(const struct heap *h, unsigned bin)
{
    return get(h, BIN_LAST + 2 * bin);
}

/* The two places that say "forward of": a chunk's link or a bin's first. */
static void set_forward(struct heap *h, unsigned bin, uint32_t of, uint32_t to)
{
    if (of == NONE)
        put(h, BIN_FIRST + 2 * bin, to);
    else
        link_put(h, of, FORWARD, to);
}

static void set_back(struct heap *h, unsigned bin, uint32_t of, uint32_t to)
{
    if (of == NONE)
        put(h, BIN_LAST + 2 * bin, to);
    else
        link_put(h, of, BACK, to);
}

static void insert(struct heap *h, unsigned bin, uint32_t before, uint32_t c,
                   uint32_t after)
{
    link_put(h, c, FORWARD, after);
    link_put(h, c, BACK, before);
    set_forward(h, bin, before, c);
    set_back(h, bin, after, c);
}

static void insert_first(struct heap *h, unsigned bin, uint32_t c)
{
    insert(h, bin, NONE, c, bin_first(h, bin));
}

/*
 * ---- skip links ----
 * In a large bin the first chunk of each group of equals is linked in a ring,
 * forward to the next smaller; the other members, and large chunks in
 * unsorted, have none. Only the ring's own upkeep reads it: no step does, so
 * no answer depends on it.
 */

/* Has next follow c in the ring. */
static void ring_link(struct heap *h, uint32_t c, uint32_t next)
{
    link_put(h, c, SKIP_FORWARD, next);
    link_put(h, next, SKIP_BACK, c);
}

/* A chunk put or left in unsorted is in no ring. */
static void clear_skips(struct heap *h, uint32_t c)
{
    if (size_of(h, c) < LARGE_MIN)
        return;
    link_put(h, c, SKIP_FORWARD, NONE);
    link_put(h, c, SKIP_BACK, NONE);
}

static bool in_ring(const struct heap *h, uint32_t c)
{
    return size_of(h, c) >= LARGE_MIN && link_get(h, c, SKIP_FORWARD) != NONE;
}

/* Puts a new first before the next; NONE: it is the only one. */
static void enter_ring(struct heap *h, uint32_t c, uint32_t next)
{
    uint32_t back = next == NONE ? c : link_get(h, next, SKIP_BACK);
    ring_link(h, back, c);
    ring_link(h, c, next == NONE ? c : next);
}

/*
 * Of a chunk that leaves its bin, with the one behind it there: an equal takes
 * a first's place, else the ring closes. What leaves keeps its own words.
 */
static void leave_ring(struct heap *h, uint32_t c, uint32_t behind)
{
    if (!in_ring(h, c))
        return;
    uint32_t next = link_get(h, c, SKIP_FORWARD);
    uint32_t back = link_get(h, c, SKIP_BACK);

    if (behind == NONE || in_ring(h, behind)) {
        REACHED(RING_CLOSES);
        ring_link(h, back, next);
    } else if (next == c) {
        REACHED(RING_EQUAL_ONLY);
        ring_link(h, behind, behind);
    } else {
        REACHED(RING_EQUAL);
        ring_link(h, back, behind);
        ring_link(h, behind, next);
    }
}

/* ---- out of the bins, and into them ---- */

static void insert_unsorted(struct heap *h, uint32_t c)
{
    insert_first(h, UNSORTED, c);
    clear_skips(h, c);
}

/*
 * An end of a list is told by the record alone: a chunk without a neighbour
 * may be in unsorted or in its size's bin, and is in one of them only.
 */
static void unlink_chunk(struct heap *h, uint32_t c)
{
    uint32_t forward = link_get(h, c, FORWARD);
    uint32_t back = link_get(h, c, BACK);
    unsigned bin = UNSORTED;

    if ((back == NONE && bin_first(h, UNSORTED) != c)
        || (forward == NONE && bin_last(h, UNSORTED) != c))
        bin = bin_of(size_of(h, c));
    set_forward(h, bin, back, forward);
    set_back(h, bin, forward, back);
    leave_ring(h, c, forward);
}

static uint32_t take_last(struct heap *h, unsigned bin)
{
    uint32_t c = bin_last(h, bin);
    if (c == NONE)
        return NONE;
    uint32_t back = link_get(h, c, BACK);
    set_forward(h, bin, back, NONE);
    put(h, BIN_LAST + 2 * bin, back);
    leave_ring(h, c, NONE);
    return c;
}

/*
 * Sizes fall from first to last; an equal goes right behind the first equal,
 * and is in no ring, as in unsorted. The smallest of all comes before the
 * largest in the ring.
 */
static void insert_large(struct heap *h, unsigned bin, uint32_t c,
                         uint32_t size)
{
    uint32_t before = bin_last(h, bin), after = NONE;

    if (before != NONE && size >= size_of(h, before)) {
        before = NONE;
        after = bin_first(h, bin);
        while (size_of(h, after) > size) {
            before = after;
            after = link_get(h, after, FORWARD);
        }
        if (size_of(h, after) == size) {
            REACHED(STEP_5_SECOND);
            insert(h, bin, after, c, link_get(h, after, FORWARD));
            return;
        }
    }
    REACHED(after != NONE    ? before == NONE ? RING_LARGEST : RING_BETWEEN
            : before == NONE ? RING_ONLY : RING_SMALLEST);
    enter_ring(h, c, after == NONE ? bin_first(h, bin) : after);
    insert(h, bin, before, c, after);
}

static void put_in_bin(struct heap *h, uint32_t c, uint32_t size)
{
    if (size < LARGE_MIN) {
        REACHED(STEP_5_SMALL);
        insert_first(h, bin_of(size), c);
    } else {
        REACHED(STEP_5_LARGE);
        insert_large(h, bin_of(size), c, size);
    }
}

/* ---- splitting and joining ---- */

/* Cuts a chunk of the given size after b bytes and answers the rest. */
static uint32_t split(struct heap *h, uint32_t c, uint32_t size, uint32_t b)
{
    uint32_t rest = c + b;
    size_put(h, c, b);
    size_put(h, rest, size - b);
    field_put(h->arena, c + size, PREVIOUS_SIZE, size - b);
    return rest;
}

/*
 * Joins a chunk that is in no list with its free neighbours and answers the
 * size of the whole. The one before is unlinked first: where the two are
 * neighbours in one list too, the order shows in the bytes left behind.
 */
static uint32_t join(struct heap *h, uint32_t c)
{
    uint32_t size = size_of(h, c);
    uint32_t next = c + size;
    uint32_t top = get(h, TOP);
    bool before = !p_of(h, c);

    if (before) {
        uint32_t size_before =
            (uint32_t)field_get(h->arena, c, PREVIOUS_SIZE);
        c -= size_before;
        size += size_before;
        unlink_chunk(h, c);
        REACHED(JOIN_BEFORE);
    }
    if (next == top) {
        size += size_of(h, top);
        size_put(h, c, size);
        put(h, TOP, c);
        REACHED(JOIN_TOP);
        return size;
    }
    uint32_t next_size = size_of(h, next);
    if (!p_of(h, next + next_size)) {
        unlink_chunk(h, next);
        size += next_size;
        REACHED(before ? JOIN_BOTH : JOIN_AFTER);
    }
    size_put(h, c, size);
    clear_p(h, c + size);
    field_put(h->arena, c + size, PREVIOUS_SIZE, size);
    insert_unsorted(h, c);
    return size;
}

static void consolidate(struct heap *h)
{
    uint32_t c;
    for (unsigned k = 0; k < FAST_LISTS; k++)
        while ((c = fast_take(h, k)) != NONE)
            join(h, c);
}

/*
 * Document 02, (vi): a join that yields so much, the top included, has the
 * fast chunks joined too. Answers whether it did so.
 */
static bool release_past_cache(struct heap *h, uint32_t c)
{
    uint32_t size = size_of(h, c);
    if (size <= FAST_MAX) {
        fast_push(h, fast_of(size), c);
        return false;
    }
    uint32_t yielded = join(h, c);
    YIELDED(yielded);
    if (yielded < CONSOLIDATE_MIN || !some_fast(h))
        return false;
    REACHED(JOIN_CONSOLIDATES);
    consolidate(h);
    return true;
}

static bool release(struct heap *h, uint32_t c)
{
    uint32_t size = size_of(h, c);
    if (!cache_has_room(h, size))
        return release_past_cache(h, c);
    cache_push(h, cache_of(size), c);
    return false;
}

/*
 * ---- the steps of a grant of chunk size b ----
 * Each that can grant answers the chunk, or NONE.
 */

static uint32_t step1(struct heap *h, uint32_t b)
{
    if (b > CACHE_MAX)
        return NONE;
    uint32_t c = cache_take(h, cache_of(b));
    if (c != NONE)
        REACHED(STEP_1);
    return c;
}

static uint32_t step2(struct heap *h, uint32_t b)
{
    if (b > FAST_MAX)
        return NONE;
    uint32_t c = fast_take(h, fast_of(b)), other;
    if (c == NONE)
        return NONE;
    REACHED(STEP_2);
    while (cache_has_room(h, b) && (other = fast_take(h, fast_of(b))) != NONE) {
        cache_push(h, cache_of(b), other);
        REACHED(STEP_2_MOVED);
    }
    return c;
}

static uint32_t step3(struct heap *h, uint32_t b)
{
    if (b >= LARGE_MIN)
        return NONE;
    unsigned bin = b / 16;
    uint32_t c = take_last(h, bin), other;
    if (c == NONE)
        return NONE;
    REACHED(STEP_3);
    set_p(h, c + b);
    while (cache_has_room(h, b) && (other = take_last(h, bin)) != NONE) {
        set_p(h, other + b);
        cache_push(h, cache_of(b), other);
        REACHED(STEP_3_MOVED);
    }
    return c;
}

static void step4(struct heap *h, uint32_t b)
{
    if (b < LARGE_MIN || !some_fast(h))
        return;
    REACHED(STEP_4);
    consolidate(h);
}

/* The only chunk of unsorted is the last remainder, and b leaves room. */
static bool last_remainder_serves(const struct heap *h, uint32_t c,
                                  uint32_t size, uint32_t b)
{
    if (b >= LARGE_MIN || c != bin_first(h, UNSORTED)
        || c != get(h, LAST_REMAINDER))
        return false;
    if (size == b + CHUNK_MIN)
        REACHED(STEP_5_EXACT_REST);
    return size > b + CHUNK_MIN;
}

static uint32_t split_last_remainder(struct heap *h, uint32_t c, uint32_t size,
                                     uint32_t b)
{
    uint32_t rest = split(h, c, size, b);
    link_put(h, rest, FORWARD, NONE);
    link_put(h, rest, BACK, NONE);
    put(h, BIN_FIRST + 2 * UNSORTED, rest);
    put(h, BIN_LAST + 2 * UNSORTED, rest);
    put(h, LAST_REMAINDER, rest);
    clear_skips(h, rest);
    return c;
}

static uint32_t step5(struct heap *h, uint32_t b)
{
    bool cached = false;
    uint32_t c;

    while ((c = bin_last(h, UNSORTED)) != NONE) {
        uint32_t size = size_of(h, c);
        if (last_remainder_serves(h, c, size, b)) {
            REACHED(cached ? STEP_5_SPLIT_CACHED : STEP_5_SPLIT);
            return split_last_remainder(h, c, size, b);
        }
        take_last(h, UNSORTED);
        if (size != b) {
            put_in_bin(h, c, size);
            continue;
        }
        set_p(h, c + size);
        if (!cache_has_room(h, b)) {
            REACHED(b > CACHE_MAX ? STEP_5_EQUAL_LARGE : STEP_5_GRANTED);
            return c;
        }
        cache_push(h, cache_of(b), c);
        cached = true;
    }
    if (!cached)
        return NONE;
    REACHED(STEP_5_CACHED);
    return cache_take(h, cache_of(b));
}

/* Gives b bytes of a chunk that step 6 or 7 has unlinked. */
static uint32_t step8(struct heap *h, uint32_t b, uint32_t c)
{
    uint32_t size = size_of(h, c);
    if (size - b < CHUNK_MIN) {
        REACHED(STEP_8_WHOLE);
        set_p(h, c + size);
        return c;
    }
    REACHED(STEP_8_SPLIT);
    uint32_t rest = split(h, c, size, b);
    insert_unsorted(h, rest);
    if (b < LARGE_MIN) /* so it was step 7 */
        put(h, LAST_REMAINDER, rest);
    return c;
}

static uint32_t step6(struct heap *h, uint32_t b)
{
    if (b < LARGE_MIN)
        return NONE;
    uint32_t c = bin_last(h, bin_of(b));
    while (c != NONE && size_of(h, c) < b)
        c = link_get(h, c, BACK);
    if (c == NONE)
        return NONE;
    REACHED(STEP_6);

    /* c is the last of its equals: walk to their first, keeping the second. */
    uint32_t size = size_of(h, c), chosen = c, back;
    while ((back = link_get(h, c, BACK)) != NONE && size_of(h, back) == size) {
        chosen = c;
        c = back;
    }
    if (chosen != c)
        REACHED(STEP_6_SECOND);
    unlink_chunk(h, chosen);
    return step8(h, b, chosen);
}

static uint32_t step7(struct heap *h, uint32_t b)
{
    for (unsigned bin = bin_of(b) + 1; bin <= BINS; bin++) {
        uint32_t c = take_last(h, bin);
        if (c != NONE) {
            REACHED(STEP_7);
            return step8(h, b, c);
        }
    }
    return NONE;
}

/* Answers false when it has consolidated and the search goes on at step 5. */
static bool step9(struct heap *h, uint32_t b, uint32_t *granted)
{
    uint32_t c = get(h, TOP);
    uint32_t size = size_of(h, c);

    *granted = NONE;
    if (size >= b + CHUNK_MIN) {
        REACHED(STEP_9);
        size_put(h, c, b);
        size_put(h, c + b, size - b);
        put(h, TOP, c + b);
        *granted = c;
        return true;
    }
    if (some_fast(h)) {
        REACHED(STEP_9_AGAIN);
        consolidate(h);
        return false;
    }
    REACHED(STEP_9_REFUSED);
    return true;
}

static uint32_t steps_2_to_9(struct heap *h, uint32_t b)
{
    uint32_t c;
    if ((c = step2(h, b)) != NONE || (c = step3(h, b)) != NONE)
        return c;
    step4(h, b);
    do {
        if ((c = step5(h, b)) != NONE || (c = step6(h, b)) != NONE
            || (c = step7(h, b)) != NONE)
            return c;
    } while (!step9(h, b, &c));
    return c;
}

/*
 * ---- resizing to chunk size b ----
 * The first way that serves is taken.
 */

/*
 * Gives a block its new size: the bytes up to size are its own and in no list.
 * A rest under 32 stays with it, a longer one is released as a block is. That
 * release may consolidate, and clears the block's own P where the chunk before
 * it was fast.
 */
static void cut_to(struct heap *h, uint32_t c, uint32_t size, uint32_t b)
{
    if (size - b < CHUNK_MIN) {
        size_put_keeping_p(h, c, size);
        set_p(h, c + size);
        return;
    }
    size_put_keeping_p(h, c, b);
    size_put(h, c + b, size - b);
    set_p(h, c + size);
    REACHED(cache_has_room(h, size - b)   ? RESIZE_REST_CACHED
            : size - b <= FAST_MAX        ? RESIZE_REST_FAST
            : c + size == get(h, TOP)     ? RESIZE_REST_TOP
                                          : RESIZE_REST_JOINED);
    if (release(h, c + b))
        REACHED(RESIZE_REST_CONSOLIDATES);
}

static bool stays(struct heap *h, uint32_t c, uint32_t b)
{
    uint32_t size = size_of(h, c);
    if (size < b)
        return false;
    REACHED(size - b < CHUNK_MIN ? RESIZE_STAYS : RESIZE_SHRINKS);
    cut_to(h, c, size, b);
    return true;
}

/* As in step 9 the top keeps 32 bytes; nothing behind the cut is written. */
static bool takes_from_top(struct heap *h, uint32_t c, uint32_t b)
{
    uint32_t next = c + size_of(h, c);
    if (next != get(h, TOP))
        return false;
    uint32_t both = size_of(h, c) + size_of(h, next);
    if (both < b + CHUNK_MIN)
        return false;
    REACHED(both == b + CHUNK_MIN ? RESIZE_TOP_EXACT : RESIZE_TOP);
    size_put_keeping_p(h, c, b);
    size_put(h, c + b, both - b);
    put(h, TOP, c + b);
    return true;
}

static bool takes_in_next(struct heap *h, uint32_t c, uint32_t b)
{
    uint32_t next = c + size_of(h, c);
    if (next == get(h, TOP) || p_of(h, next + size_of(h, next)))
        return false;
    uint32_t both = size_of(h, c) + size_of(h, next);
    if (both < b)
        return false;
    REACHED(both - b < CHUNK_MIN ? RESIZE_WITH_NEXT : RESIZE_WITH_NEXT_CUT);
    unlink_chunk(h, next);
    cut_to(h, c, both, b);
    return true;
}

/*
 * Answers where the block is then, or NONE: it is live where it was. The steps
 * may clear its P, or set it, so P is kept as it stands behind them.
 */
static uint32_t moves(struct heap *h, uint32_t c, uint32_t b)
{
    uint32_t size = size_of(h, c), next = c + size;
    bool p = p_of(h, c);

    if (b <= CACHE_MAX && get(h, CACHE_COUNT + cache_of(b)) > 0)
        REACHED(RESIZE_PAST_CACHE);
    uint32_t found = steps_2_to_9(h, b);
    if (p && !p_of(h, c))
        REACHED(found == next ? RESIZE_BEHIND_P : RESIZE_P);
    if (found == NONE) {
        REACHED(RESIZE_REFUSED);
        return NONE;
    }
    if (found == next) {
        REACHED(RESIZE_BEHIND);
        cut_to(h, c, size + size_of(h, next), b);
        return c;
    }
    REACHED(RESIZE_COPIED);
    memcpy(h->arena + mem_of(found), h->arena + mem_of(c), size - 8);
    if (release(h, c))
        REACHED(RESIZE_OLD_CONSOLIDATES);
    return found;
}

static uint32_t resize(struct heap *h, uint32_t c, uint32_t b)
{
    if (stays(h, c, b) || takes_from_top(h, c, b) || takes_in_next(h, c, b))
        return c;
    return moves(h, c, b);
}

/* ---- the audit ---- */

/* What the audit knows of the 16 bytes at an offset. */
enum mark { NO_CHUNK, UNLISTED, STACKED, BINNED, IS_TOP };

struct marks {
    uint8_t at[ARENA_MAX / 16];
};

static struct second_fault fault(enum second_kind kind, uint32_t number)
{
    return (struct second_fault){ 0, kind, number };
}

static struct second_fault audit_tiles(const struct heap *h, struct marks *m)
{
    memset(m->at, NO_CHUNK, h->length / 16);
    for (uint32_t c = 0;;) {
        uint64_t word = field_get(h->arena, c, SIZE_WORD);
        uint64_t size = word & ~(uint64_t)15;
        uint32_t remains = h->length - c;

        if ((word & 14) != 0 || size < CHUNK_MIN || size > remains)
            return fault(SECOND_TILE, c);
        if (size == remains) {
            m->at[c / 16] = IS_TOP;
            if (get(h, TOP) != c)
                return fault(SECOND_TILE, c);
            return fault(SECOND_SOUND, 0);
        }
        m->at[c / 16] = UNLISTED;
        c += (uint32_t)size;
    }
}

/* Only a chunk no list has named before may be named; it is then marked. */
static bool meet(const struct heap *h, struct marks *m, uint64_t c,
                 enum mark as)
{
    if (c >= h->length || c % 16 != 0 || m->at[c / 16] != UNLISTED)
        return false;
    m->at[c / 16] = (uint8_t)as;
    return true;
}

/* A stack's chunk size, and how many chunks of it there may be. */
struct stack {
    uint32_t head, size, most, edition;
    const uint64_t *key; /* each must have it; null: no key is asked for */
};

/* Answers whether a stack is good, and its length. */
static inline bool audit_stack(const struct heap *h, struct marks *m,
                               struct stack s, uint32_t *length)
{
    uint64_t c = widen(s.head);
    for (*length = 0; c != LINK_NONE; ++*length) {
        if (*length == s.most || !meet(h, m, c, STACKED)
            || size_of(h, (uint32_t)c) != s.size)
            return false;
        if (s.key && field_get(h->arena, (uint32_t)c, CACHE_KEY) != *s.key)
            return false;
        c = stack_link_get(h->arena, s.edition, (uint32_t)c);
    }
    return true;
}

static inline bool audit_cache(const struct heap *h, struct marks *m,
                               unsigned k, uint32_t edition,
                               const uint64_t *key)
{
    struct stack s = { get(h, CACHE_HEAD + k), CHUNK_MIN + 16 * k, CACHE_DEPTH,
                       edition, key };
    uint32_t length;
    return audit_stack(h, m, s, &length) && length == get(h, CACHE_COUNT + k);
}

/* Lists 7 to 9 own no size, so nothing may be in them. */
static inline bool audit_fast(const struct heap *h, struct marks *m,
                              unsigned k, uint32_t edition)
{
    struct stack s = { get(h, FAST_HEAD + k), CHUNK_MIN + 16 * k, UINT32_MAX,
                       edition, NULL };
    uint32_t length;
    if (s.size > FAST_MAX)
        s.most = 0;
    return audit_stack(h, m, s, &length);
}

static bool audit_bin(const struct heap *h, struct marks *m, unsigned bin)
{
    uint64_t back = LINK_NONE, c = widen(bin_first(h, bin));
    uint32_t size_before = UINT32_MAX;

    while (c != LINK_NONE) {
        if (!meet(h, m, c, BINNED))
            return false;
        uint32_t size = size_of(h, (uint32_t)c);
        if (bin != UNSORTED && (bin_of(size) != bin || size > size_before))
            return false;
        if (field_get(h->arena, (uint32_t)c, BACK) != back)
            return false;
        back = c;
        size_before = size;
        c = field_get(h->arena, (uint32_t)c, FORWARD);
    }
    return widen(bin_last(h, bin)) == back;
}

/* That both skip links of c say none. */
static bool no_skips(const struct heap *h, uint32_t c)
{
    return field_get(h->arena, c, SKIP_FORWARD) == LINK_NONE
        && field_get(h->arena, c, SKIP_BACK) == LINK_NONE;
}

/* That c and next name each other. */
static bool ring_linked(const struct heap *h, uint32_t c, uint32_t next)
{
    return field_get(h->arena, c, SKIP_FORWARD) == next
        && field_get(h->arena, next, SKIP_BACK) == c;
}

/* Of a list that is otherwise good: told by its order and its sizes alone. */
static bool audit_ring(const struct heap *h, unsigned bin)
{
    uint32_t first = bin_first(h, bin), of_group = first, c = first;
    if (first == NONE)
        return true;
    while ((c = link_get(h, c, FORWARD)) != NONE) {
        bool equal = size_of(h, c) == size_of(h, of_group);
        if (equal ? !no_skips(h, c) : !ring_linked(h, of_group, c))
            return false;
        if (!equal)
            of_group = c;
    }
    return ring_linked(h, of_group, first);
}

/* The same of unsorted, where nothing is in a ring. */
static bool audit_unsorted_skips(const struct heap *h)
{
    uint32_t c = bin_first(h, UNSORTED);
    for (; c != NONE; c = link_get(h, c, FORWARD))
        if (size_of(h, c) >= LARGE_MIN && !no_skips(h, c))
            return false;
    return true;
}

static bool audit_skips(const struct heap *h, unsigned bin)
{
    if (bin == UNSORTED)
        return audit_unsorted_skips(h);
    return bin < FIRST_LARGE_BIN || audit_ring(h, bin);
}

static struct second_fault audit_lists(const struct heap *h, struct marks *m,
                                       uint32_t version)
{
    uint32_t edition = edition_by(version, h->record);
    uint64_t key = key_get(h->record);
    for (unsigned k = 0; k < CACHE_LISTS; k++)
        if (!audit_cache(h, m, k, edition, version >= WITH_KEYS ? &key : NULL))
            return fault(SECOND_CACHE, k);
    for (unsigned k = 0; k < FAST_LISTS; k++)
        if (!audit_fast(h, m, k, edition))
            return fault(SECOND_FAST, k);
    for (unsigned bin = 1; bin <= BINS; bin++)
        if (!audit_bin(h, m, bin)
            || (version >= WITH_SKIPS && !audit_skips(h, bin)))
            return fault(SECOND_BIN, bin);
    return fault(SECOND_SOUND, 0);
}

static struct second_fault audit_flags(const struct heap *h,
                                       const struct marks *m)
{
    bool binned_before = false;
    uint32_t size_before = 0;

    for (uint32_t c = 0; c < h->length;) {
        enum mark mark = m->at[c / 16];
        if (p_of(h, c) == binned_before)
            return fault(SECOND_FLAG, c);
        if (binned_before
            && (mark == BINNED || mark == IS_TOP
                || field_get(h->arena, c, PREVIOUS_SIZE) != size_before))
            return fault(SECOND_FLAG, c);
        binned_before = mark == BINNED;
        size_before = size_of(h, c);
        c += size_before;
    }
    return fault(SECOND_SOUND, 0);
}

/* By the rules of that version. */
static struct second_fault audit(const struct heap *h, struct marks *m,
                                 uint32_t version)
{
    if (get(h, ARENA_LENGTH) != h->length
        || !edition_allowed(edition_by(version, h->record)))
        return fault(SECOND_RECORD, 0);
    struct second_fault f = audit_tiles(h, m);
    if (f.kind == SECOND_SOUND)
        f = audit_lists(h, m, version);
    if (f.kind == SECOND_SOUND)
        f = audit_flags(h, m);
    return f;
}

static bool sound(const struct heap *h, struct marks *m)
{
    return audit(h, m, NEWEST).kind == SECOND_SOUND;
}

/* ---- the calls ---- */

static struct second_answer answer(enum refusal no)
{
    return (struct second_answer){ no, 0, 0 };
}

/* Fills in the heap of good shape; shape is judged on the lengths alone. */
static bool shaped(struct heap *h, uint8_t *arena, size_t arena_len,
                   uint8_t *record, size_t record_len)
{
    if (!arena_allowed(arena_len) || record_len != RECORD_BYTES)
        return false;
    *h = (struct heap){ arena, record, (uint32_t)arena_len };
    return true;
}

/* What a refused open leaves, whatever the refusal. */
static struct second_answer leave_closed(uint8_t *record, size_t record_len,
                                         enum refusal no)
{
    if (record_len == RECORD_BYTES)
        record_clear(record, 0, NONE, 0, NO_EDITION);
    return answer(no);
}

struct second_answer second_open(uint8_t *arena, size_t arena_len,
                                 uint8_t *record, size_t record_len,
                                 uint64_t key, uint32_t edition)
{
    struct heap h;
    if (!shaped(&h, arena, arena_len, record, record_len))
        return leave_closed(record, record_len, BAD_SHAPE);
    if (!edition_allowed(edition))
        return leave_closed(record, record_len, BAD_EDITION);
    record_clear(record, h.length, 0, key, edition);
    size_put(&h, 0, h.length);
    return answer(GRANTED);
}

/* Number 2 has been ruled out, so the sum fits. */
static uint32_t chunk_size_for(uint64_t n)
{
    uint32_t b = ((uint32_t)n + 23) & ~15u;
    return b < CHUNK_MIN ? CHUNK_MIN : b;
}

/* What a grant or a resize answers: the block as it stands, or number 5. */
static struct second_answer answer_block(const struct heap *h, uint32_t c)
{
    if (c == NONE)
        return answer(NO_ROOM);
    return (struct second_answer){ GRANTED, mem_of(c), size_of(h, c) - 8 };
}

static struct second_answer grant(struct heap *h, uint64_t n)
{
    uint32_t b = chunk_size_for(n);
    uint32_t c = step1(h, b);
    if (c == NONE)
        c = steps_2_to_9(h, b);
    return answer_block(h, c);
}

struct second_answer second_grant(uint8_t *arena, size_t arena_len,
                                  uint8_t *record, size_t record_len,
                                  uint64_t n)
{
    struct heap h;
    struct marks m;
    if (!shaped(&h, arena, arena_len, record, record_len))
        return answer(BAD_SHAPE);
    if (n > REQUEST_MAX)
        return answer(REQUEST_TOO_LARGE);
    if (!sound(&h, &m))
        return answer(NOT_SOUND);
    return grant(&h, n);
}

static bool live(const struct heap *h, const struct marks *m, uint64_t mem)
{
    return mem >= 16 && mem - 16 < h->length && mem % 16 == 0
        && m->at[(mem - 16) / 16] == UNLISTED;
}

/* Only for the mem of a live block. */
static uint32_t chunk_of(uint64_t mem)
{
    return (uint32_t)mem - 16;
}

struct second_answer second_release(uint8_t *arena, size_t arena_len,
                                    uint8_t *record, size_t record_len,
                                    uint64_t mem)
{
    struct heap h;
    struct marks m;
    if (!shaped(&h, arena, arena_len, record, record_len))
        return answer(BAD_SHAPE);
    if (!sound(&h, &m))
        return answer(NOT_SOUND);
    if (mem == 0)
        return answer(GRANTED);
    if (!live(&h, &m, mem))
        return answer(NOT_LIVE);
    release(&h, chunk_of(mem));
    return answer(GRANTED);
}

struct second_answer second_resize(uint8_t *arena, size_t arena_len,
                                   uint8_t *record, size_t record_len,
                                   uint64_t mem, uint64_t n)
{
    struct heap h;
    struct marks m;
    if (!shaped(&h, arena, arena_len, record, record_len))
        return answer(BAD_SHAPE);
    if (n > REQUEST_MAX)
        return answer(REQUEST_TOO_LARGE);
    if (!sound(&h, &m))
        return answer(NOT_SOUND);
    if (mem != 0 && !live(&h, &m, mem))
        return answer(NOT_LIVE);

    if (mem == 0)
        return grant(&h, n);
    if (n == 0) {
        release(&h, chunk_of(mem));
        return answer(GRANTED);
    }
    return answer_block(&h, resize(&h, chunk_of(mem), chunk_size_for(n)));
}

struct second_answer second_emptying(uint8_t *arena, size_t arena_len,
                                     uint8_t *record, size_t record_len)
{
    struct heap h;
    struct marks m;
    uint32_t c;
    if (!shaped(&h, arena, arena_len, record, record_len))
        return answer(BAD_SHAPE);
    if (!sound(&h, &m))
        return answer(NOT_SOUND);

    for (unsigned k = 0; k < CACHE_LISTS; k++)
        while ((c = cache_take(&h, k)) != NONE)
            if (release_past_cache(&h, c))
                REACHED(EMPTYING_CONSOLIDATES);
    return answer(GRANTED);
}

struct second_answer second_joining(uint8_t *arena, size_t arena_len,
                                    uint8_t *record, size_t record_len)
{
    struct heap h;
    struct marks m;
    if (!shaped(&h, arena, arena_len, record, record_len))
        return answer(BAD_SHAPE);
    if (!sound(&h, &m))
        return answer(NOT_SOUND);

    consolidate(&h);
    put(&h, LAST_REMAINDER, NONE);
    return answer(GRANTED);
}

struct second_fault second_audit_by(uint32_t version, const uint8_t *arena,
                                    size_t arena_len, const uint8_t *record,
                                    size_t record_len)
{
    struct heap h;
    struct marks m;
    /* The audit writes neither buffer, though a heap could. */
    if (!shaped(&h, (uint8_t *)(uintptr_t)arena, arena_len,
                (uint8_t *)(uintptr_t)record, record_len))
        return (struct second_fault){ BAD_SHAPE, 0, 0 };
    return audit(&h, &m, version);
}

struct second_fault second_audit(const uint8_t *arena, size_t arena_len,
                                 const uint8_t *record, size_t record_len)
{
    return second_audit_by(NEWEST, arena, arena_len, record, record_len);
}
