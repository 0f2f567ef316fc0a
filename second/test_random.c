/*
 * Random calls, valid and not, on newly opened arenas and on random sound
 * heaps, with holders that write random bytes in their blocks. After every
 * call the heap is audited and held against a model that knows only which
 * blocks were granted and what their holders wrote. A resize is also put
 * together from other calls on a copy, and every byte compared; what a release,
 * an emptying and a joining leave is told by the tiles before them. Each heap
 * has a random key and edition; two of them, with different ones, answer alike.
 * The skip links are those that the lists and sizes tell.
 */
#include <stdio.h>
#include <stdlib.h>
#include <string.h>

#include "by_parts.h"
#include "by_tiles.h"
#include "check.h"
#include "oracle.h"
#include "plain.h"
#include "random_heap.h"

struct held {
    uint32_t mem, usable;
};

/* Where a grant found a whole chunk that was in a list before it. */
enum found { IN_CACHE, IN_FAST_LIST, IN_SMALL_BIN, IN_UNSORTED, FOUNDS };

struct model {
    struct random r;
    uint64_t seed;
    struct lent heap;
    struct lent before;  /* both buffers as they were before the call */
    struct lent parts;   /* where a resize is put together from other calls */
    uint8_t *owned;      /* one byte for each of the arena: 1 in a held block */
    struct held *block;
    uint32_t blocks;
    uint32_t palette[4];
    uint32_t grant_percent;
    uint32_t calls, refused[6];
    uint32_t resizes, moved, by_parts; /* resizes of held blocks; of any */
    uint32_t consolidated; /* releases and emptyings that joined fast chunks */
    bool emptied; /* and no grant, release or resize since */
    uint32_t demanded; /* joinings of which demand 3 speaks */
    uint32_t found[FOUNDS];
};

static struct plain_view view;     /* after the call */
static struct plain_view expected; /* by tiles */

/* What same_everywhere must come to; it moves only with the generator. */
#define SAME_EVERYWHERE 0x04fd3bd30bc2351bu

#define EXPECT(m, good, text) \
    CHECK(good, "seed %llu, call %u: %s", (unsigned long long)(m)->seed, \
          (m)->calls, text)

/* ---- the model ---- */

static struct model model_of_length(struct random r, uint64_t seed,
                                    uint32_t length)
{
    struct model m = { .r = r, .seed = seed };

    m.heap = lend(length, 0);
    m.before = lend(length, 0);
    m.parts = lend(length, 0);
    m.owned = calloc(length, 1);
    m.block = calloc(PLAIN_TILES_MAX, sizeof *m.block);
    if (m.owned == NULL || m.block == NULL) {
        fputs("no memory for the test's own buffers\n", stderr);
        exit(2);
    }
    for (unsigned i = 0; i < 4; i++)
        m.palette[i] = random_below(
            &m.r, i < 2 ? 120 : length < 16384 ? 40 + length / 8 : 2000);
    m.grant_percent = 40 + random_below(&m.r, 25);
    return m;
}

static struct model model_new(uint64_t seed, uint32_t most)
{
    struct random r = { seed };
    uint32_t length = random_length(&r, most);
    return model_of_length(r, seed, length);
}

static void model_free(struct model *m)
{
    give_back(&m->heap);
    give_back(&m->before);
    give_back(&m->parts);
    free(m->owned);
    free(m->block);
}

/* With a random key, in a random edition. */
static struct second_answer open_anyhow(struct model *m)
{
    uint64_t key = random_key(&m->r);
    return lent_open(&m->heap, key, random_edition(&m->r));
}

static void hold(struct model *m, uint32_t mem, uint32_t usable)
{
    bool inside = mem >= 16 && mem % 16 == 0 && usable <= m->heap.length
        && mem <= m->heap.length - usable;
    EXPECT(m, inside, "a block does not lie in the arena, or at no multiple");
    if (!inside)
        return;
    EXPECT(m, memchr(m->owned + mem, 1, usable) == NULL,
           "a block overlaps another that is held");
    memset(m->owned + mem, 1, usable);
    m->block[m->blocks++] = (struct held){ mem, usable };
}

/* Which block is held at mem; there may be none. */
static uint32_t find(const struct model *m, uint64_t mem)
{
    uint32_t i = 0;
    while (i < m->blocks && m->block[i].mem != mem)
        i++;
    return i;
}

static void let_go(struct model *m, uint32_t i)
{
    memset(m->owned + m->block[i].mem, 0, m->block[i].usable);
    m->block[i] = m->block[--m->blocks];
}

/* Random bytes over the usable bytes, from none of them to all. */
static void holder_writes(struct model *m, const struct held *block)
{
    uint32_t from = random_chance(&m->r, 60)
        ? 0 : random_below(&m->r, block->usable);
    uint32_t length = random_chance(&m->r, 60)
        ? block->usable - from : random_below(&m->r, block->usable - from);
    random_bytes(&m->r, m->heap.arena + block->mem + from, length);
}

/* ---- what holds after every call ---- */

static void bytes_unchanged(struct model *m, uint32_t blocks)
{
    for (uint32_t i = 0; i < blocks; i++)
        EXPECT(m,
               memcmp(m->heap.arena + m->block[i].mem,
                      m->before.arena + m->block[i].mem,
                      m->block[i].usable) == 0,
               "a held block's bytes changed");
}

static uint64_t second_word(const struct lent *l, uint32_t c)
{
    return plain_get(l->arena + c + 24, 8);
}

/*
 * Live by the heap's bytes is the same as granted and not yet released; every
 * cached chunk has the key.
 */
static void live_is_held(struct model *m)
{
    uint32_t live = 0;
    plain_read(&view, m->heap.arena, (uint32_t)m->heap.length, m->heap.record);
    for (uint32_t i = 0; i < view.tiles; i++) {
        const struct plain_tile *t = &view.tile[i];
        bool held = t->state != PLAIN_TOP && m->owned[t->at + 16] == 1
            && m->owned[t->at + t->size + 7] == 1;
        live += t->state == PLAIN_LIVE;
        EXPECT(m, (t->state == PLAIN_LIVE) == held,
               "a live block is not held, or a held one is not live");
        EXPECT(m, t->state != PLAIN_CACHED
                      || second_word(&m->heap, t->at)
                          == plain_key(m->heap.record),
               "a cached chunk has not the key");
    }
    EXPECT(m, live == m->blocks, "another number of blocks is live than held");
}

/* Written anew from the lists and sizes they are what they were. */
static void skips_are_told(struct model *m)
{
    copy_lent(&m->parts, &m->heap);
    plain_put_skips(m->parts.arena, m->parts.record);
    EXPECT(m, same_arena(&m->heap, &m->parts), "a skip link is another");
}

/* A block just granted was not live before, so its bytes may be new. */
static void after_call(struct model *m, bool granted)
{
    EXPECT(m, lent_sound(&m->heap), "the heap is no longer sound");
    if (group_failed())
        return;
    skips_are_told(m);
    EXPECT(m, memcmp(m->heap.record + 1572, m->before.record + 1572, 12) == 0,
           "the record's key or edition changed");
    bytes_unchanged(m, m->blocks - (granted ? 1 : 0));
    live_is_held(m);
}

static void refused(struct model *m, struct second_answer a)
{
    m->refused[a.no <= 5 ? a.no : 0]++;
    EXPECT(m, a.mem == 0 && a.usable == 0, "a refusal hands numbers back");
    if (a.no == 5)
        return;
    EXPECT(m, same_arena(&m->heap, &m->before)
                  && same_record(&m->heap, &m->before),
           "a refusal with 1 to 4 wrote");
}

/* A refusal with 5 comes after sorting and joining, and leaves the cache. */
static void refused_for_room(struct model *m)
{
    const uint8_t *record = m->heap.record;
    for (unsigned k = 0; k < 10; k++)
        EXPECT(m, plain_word(record, plain_fast_head(k)) == PLAIN_NONE32,
               "refused with 5 while a fast list holds a chunk");
    EXPECT(m, plain_word(record, plain_bin_first(1)) == PLAIN_NONE32,
           "refused with 5 while unsorted holds a chunk");
    EXPECT(m, memcmp(record + 8, m->before.record + 8, 4 * 129) == 0,
           "refused with 5 and changed last remainder or cache");
}

static void read_expected(struct model *m)
{
    plain_read(&expected, m->before.arena, (uint32_t)m->before.length,
               m->before.record);
}

/* Demand 3: no free chunk touches another, and nothing waits in a list. */
static void nothing_stays_cut_up(struct model *m)
{
    m->demanded++;
    for (uint32_t i = 0; i < view.tiles; i++) {
        enum plain_state state = view.tile[i].state;
        EXPECT(m, state != PLAIN_CACHED && state != PLAIN_FAST,
               "emptied and joined, but a chunk is still cached or fast");
        EXPECT(m, i == 0 || state == PLAIN_LIVE
                      || view.tile[i - 1].state == PLAIN_LIVE,
               "emptied and joined, but two free chunks touch");
    }
    if (m->blocks > 0)
        return;
    struct lent fresh = lend(m->heap.length, 0);
    lent_open(&fresh, plain_key(m->heap.record),
              plain_edition(m->heap.record));
    EXPECT(m, view.tiles == 1 && same_record(&m->heap, &fresh),
           "emptied and joined without blocks, but not as newly opened");
    give_back(&fresh);
}

/* ---- the calls ---- */

static uint64_t random_request(struct model *m)
{
    uint32_t length = (uint32_t)m->heap.length;
    switch (random_below(&m->r, length < 4096 ? 6 : 10)) {
    case 0: case 1: return random_below(&m->r, 130);
    case 2: return random_below(&m->r, length / 16);
    case 3:
        return random_chance(&m->r, 70) ? random_below(&m->r, length / 4)
            : random_chance(&m->r, 80)  ? random_below(&m->r, length)
            : random_chance(&m->r, 50)  ? 262140 + random_below(&m->r, 10)
                                        : random_next(&m->r);
    case 6: return 980 + random_below(&m->r, 80);
    case 7: return random_below(&m->r, 1100);
    default: return m->palette[random_below(&m->r, 4)];
    }
}

static bool was_in_unsorted(const struct model *m, uint32_t c)
{
    uint32_t first = plain_word(m->before.record, plain_bin_first(1));
    uint64_t at = first == PLAIN_NONE32 ? PLAIN_NONE64 : first;
    while (at != PLAIN_NONE64 && at != c)
        at = plain_get(m->before.arena + at + 16, 8);
    return at == c;
}

/* In which list a chunk of size b was before the call that granted it. */
static enum found found_in(const struct model *m, uint32_t c, uint32_t b)
{
    const uint8_t *record = m->before.record;
    unsigned k = (b - 32) / 16;

    if (b <= 1040 && plain_word(record, plain_cache_head(k)) == c)
        return IN_CACHE;
    if (b <= 128 && plain_word(record, plain_fast_head(k)) == c)
        return IN_FAST_LIST;
    if (b < 1024 && plain_word(record, plain_bin_last(b / 16)) == c)
        return IN_SMALL_BIN;
    if (b < 1024 && was_in_unsorted(m, c)
        && plain_get(m->before.arena + c + 8, 8) / 16 == b / 16)
        return IN_UNSORTED;
    return FOUNDS;
}

/* Step 5 caches up to seven equals and grants the last; an eighth, at once. */
static bool was_eighth(const struct model *m, uint32_t b)
{
    return plain_word(m->heap.record, plain_cache_count((b - 32) / 16)) == 7;
}

/*
 * What a block just granted holds in its second word, where it is a whole
 * chunk of a list: 0 if it came from the cache, else what stood there.
 */
static void granted_holds(struct model *m, uint64_t n, uint32_t mem)
{
    uint32_t c = mem - 16, b = n <= 24 ? 32 : ((uint32_t)n + 23) & ~15u;
    enum found found = found_in(m, c, b);
    if (found == FOUNDS)
        return;
    bool from_cache = found == IN_CACHE
        || (found == IN_UNSORTED && !was_eighth(m, b));
    m->found[found]++;
    EXPECT(m, second_word(&m->heap, c)
                  == (from_cache ? 0 : second_word(&m->before, c)),
           "a granted block has another second word");
}

static void call_grant(struct model *m, uint64_t n)
{
    struct second_answer a = lent_grant(&m->heap, n);
    m->emptied = false;
    if (a.no == 0) {
        EXPECT(m, a.usable >= n && a.usable % 16 == 8,
               "a grant is too short for its request");
        hold(m, a.mem, a.usable);
    } else {
        EXPECT(m, a.no == (n > 262144 ? 2 : 5), "a grant refused wrongly");
        refused(m, a);
        if (a.no == 5)
            refused_for_room(m);
    }
    after_call(m, a.no == 0);
    if (a.no == 0 && !group_failed())
        granted_holds(m, n, a.mem);
    if (a.no == 0 && !group_failed() && random_chance(&m->r, 80))
        holder_writes(m, &m->block[m->blocks - 1]);
}

static uint64_t random_mem(struct model *m)
{
    uint32_t near = random_below(&m->r, (uint32_t)m->heap.length + 64);
    switch (random_below(&m->r, 4)) {
    case 0: return near;
    case 1: return near & ~15u;
    case 2: return random_next(&m->r);
    default:
        return m->blocks == 0 ? 0
            : ((uint64_t)1 << (32 + random_below(&m->r, 32)))
                + m->block[random_below(&m->r, m->blocks)].mem;
    }
}

/* A held block is let go; what its release leaves is then expected. */
static void released_by_tiles(struct model *m, uint32_t i,
                              struct second_answer a)
{
    EXPECT(m, a.mem == 0 && a.usable == 0, "a release hands numbers back");
    read_expected(m);
    m->consolidated +=
        release_by_tiles(&expected, &m->before, m->block[i].mem);
    let_go(m, i);
}

static void call_release(struct model *m, uint64_t mem)
{
    uint32_t i = find(m, mem);
    struct second_answer a = lent_release(&m->heap, mem);
    bool held = i < m->blocks;
    m->emptied = false;
    EXPECT(m, a.no == (held || mem == 0 ? 0 : 4), "a release answers wrongly");
    if (held)
        released_by_tiles(m, i, a);
    else
        refused(m, a); /* null is no refusal, but writes nothing either */
    after_call(m, false);
    EXPECT(m, !held || same_tiles(&view, &expected),
           "a release leaves other tiles than it should");
    if (held && random_chance(&m->r, 5) && !group_failed()) {
        copy_lent(&m->before, &m->heap);
        refused(m, lent_release(&m->heap, mem));
        EXPECT(m, m->refused[4] > 0, "a double release was not refused");
    }
}

/* The slow audit too; it is too slow for every call on a long heap. */
static void audited_slowly(struct model *m)
{
    struct lent *h = &m->heap;
    if (h->length > 2048 && !random_chance(&m->r, h->length > 8192 ? 2 : 20))
        return;
    struct second_fault f =
        oracle_audit(h->arena, h->length, h->record, h->record_len, 4);
    EXPECT(m, f.no == 0 && f.kind == SECOND_SOUND,
           "not sound after a resize, says the slow audit");
}

/* Where other calls can stand for a resize they leave the same bytes. */
static void same_by_parts(struct model *m, uint64_t mem, uint64_t n,
                          struct second_answer a)
{
    struct second_answer other = { 0, 0, 0 };
    copy_lent(&m->parts, &m->before);
    if (!resize_by_parts(&m->parts, (uint32_t)mem, (uint32_t)n, &other))
        return;
    m->by_parts++;
    EXPECT(m, a.no == other.no && a.mem == other.mem
                  && a.usable == other.usable,
           "a resize answers otherwise than its parts");
    EXPECT(m, same_arena(&m->heap, &m->parts)
                  && same_record(&m->heap, &m->parts),
           "a resize leaves other bytes than its parts");
}

/* As realloc promises: its bytes go with a block, up to the shorter length. */
static void resized(struct model *m, uint32_t i, uint64_t n,
                    struct second_answer a)
{
    struct held old = m->block[i];
    uint32_t kept = a.usable < old.usable ? a.usable : old.usable;

    EXPECT(m, a.usable >= n && a.usable % 16 == 8,
           "a resized block is too short for its request");
    EXPECT(m, a.mem == old.mem || a.usable > old.usable,
           "a block was moved that is no longer");
    let_go(m, i);
    hold(m, a.mem, a.usable);
    if (!group_failed())
        EXPECT(m, memcmp(m->heap.arena + a.mem, m->before.arena + old.mem,
                         kept) == 0,
               "a resized block lost bytes");
    m->resizes++;
    m->moved += a.mem != old.mem;
}

static void call_resize(struct model *m, uint64_t mem, uint64_t n)
{
    uint32_t i = find(m, mem);
    bool held = i < m->blocks, freed = held && n == 0;
    struct second_answer a = lent_resize(&m->heap, mem, n);

    m->emptied = false;
    EXPECT(m, n > 262144 ? a.no == 2 : !held && mem != 0 ? a.no == 4
               : a.no == 0 || (a.no == 5 && (mem == 0 || n > 0)),
           "a resize is refused wrongly, or not refused");
    if (a.no != 0) {
        refused(m, a);
        if (a.no == 5)
            refused_for_room(m);
    } else if (!held) {
        EXPECT(m, a.usable >= n, "null is resized too short");
        hold(m, a.mem, a.usable);
    } else if (freed) {
        released_by_tiles(m, i, a);
    } else {
        resized(m, i, n, a);
    }
    after_call(m, a.no == 0 && a.mem != 0);
    EXPECT(m, !freed || same_tiles(&view, &expected),
           "a resize to 0 leaves other tiles than a release");
    audited_slowly(m);
    if ((a.no == 0 || a.no == 5) && !group_failed())
        same_by_parts(m, mem, n, a);
}

/* Mostly of a held block; else of null, or of what is none. */
static void random_resize(struct model *m)
{
    uint64_t mem = random_mem(m), n = random_request(m);

    if (m->blocks > 0 && random_chance(&m->r, 90)) {
        mem = m->block[random_below(&m->r, m->blocks)].mem;
        if (random_chance(&m->r, 60))
            n = random_new_length(&m->r, m->heap.arena,
                                  (uint32_t)m->heap.length, (uint32_t)mem);
    } else if (random_chance(&m->r, 50)) {
        mem = 0;
    }
    call_resize(m, mem, random_chance(&m->r, 4) ? 0 : n);
}

/* Which chunks were cached, by their offset / 16, in the view before a call. */
static uint8_t was_cached[PLAIN_ARENA_MAX / 16];

static void note_cached(const struct plain_view *before)
{
    memset(was_cached, 0, sizeof was_cached);
    for (uint32_t i = 0; i < before->tiles; i++)
        was_cached[before->tile[i].at / 16] =
            before->tile[i].state == PLAIN_CACHED;
}

/* On a fast list nothing covers the 0 that the emptying wrote. */
static void emptied_to_fast(struct model *m)
{
    for (uint32_t i = 0; i < view.tiles; i++) {
        uint32_t c = view.tile[i].at;
        if (view.tile[i].state == PLAIN_FAST)
            EXPECT(m, second_word(&m->heap, c)
                          == (was_cached[c / 16] ? 0
                                                 : second_word(&m->before, c)),
                   "a fast chunk has another second word after an emptying");
    }
}

/* The cache goes, the last remainder stays; the rest is told by tiles. */
static void call_emptying(struct model *m)
{
    struct second_answer a = lent_emptying(&m->heap);
    const uint8_t *record = m->heap.record;

    EXPECT(m, a.no == 0 && a.mem == 0 && a.usable == 0,
           "an emptying was refused");
    read_expected(m);
    note_cached(&expected);
    m->consolidated += emptying_by_tiles(&expected, &m->before);
    after_call(m, false);
    EXPECT(m, same_tiles(&view, &expected),
           "an emptying leaves other tiles than it should");
    emptied_to_fast(m);
    for (unsigned k = 0; k < 64; k++)
        EXPECT(m, plain_word(record, plain_cache_head(k)) == PLAIN_NONE32
                      && plain_word(record, plain_cache_count(k)) == 0,
               "a cache list is not empty after an emptying");
    EXPECT(m, plain_word(record, 2) == plain_word(m->before.record, 2),
           "an emptying changed the last remainder");
    m->emptied = true;
}

/* The fast lists and the last remainder go, the cache stays. */
static void call_joining(struct model *m)
{
    struct second_answer a = lent_joining(&m->heap);
    const uint8_t *record = m->heap.record;

    EXPECT(m, a.no == 0 && a.mem == 0 && a.usable == 0,
           "a joining was refused");
    read_expected(m);
    joining_by_tiles(&expected);
    after_call(m, false);
    EXPECT(m, same_tiles(&view, &expected),
           "a joining leaves other tiles than it should");
    for (unsigned k = 0; k < 10; k++)
        EXPECT(m, plain_word(record, plain_fast_head(k)) == PLAIN_NONE32,
               "a fast list is not empty after a joining");
    EXPECT(m, plain_word(record, 2) == PLAIN_NONE32,
           "the last remainder outlives a joining");
    EXPECT(m, memcmp(record + 12, m->before.record + 12, 4 * 128) == 0,
           "a joining changed the cache");
    if (m->emptied && !group_failed())
        nothing_stays_cut_up(m);
}

static void call_emptying_or_joining(struct model *m, bool emptying)
{
    copy_lent(&m->before, &m->heap);
    if (emptying)
        call_emptying(m);
    else
        call_joining(m);
    m->calls++;
}

/* Of those two any number may come between them. */
static void empty_and_join(struct model *m)
{
    call_emptying_or_joining(m, true);
    while (random_chance(&m->r, 20) && !group_failed())
        call_emptying_or_joining(m, random_chance(&m->r, 50));
    if (!group_failed())
        call_emptying_or_joining(m, false);
}

static void call_with_bad_shape(struct model *m)
{
    struct lent *h = &m->heap;
    size_t length = h->length, record_len = h->record_len;
    if (random_chance(&m->r, 50))
        h->length -= 1 + random_below(&m->r, 15);
    else
        h->record_len = random_chance(&m->r, 30)
            ? 1572 + 8 * random_below(&m->r, 2)
            : random_below(&m->r, PLAIN_RECORD_BYTES);
    uint32_t n = random_below(&m->r, 300000), drawn = random_below(&m->r, 4);
    struct second_answer a = drawn == 0 ? lent_grant(h, n)
        : drawn == 1                    ? lent_resize(h, random_mem(m), n)
        : drawn == 2                    ? lent_emptying(h)
                                        : lent_joining(h);
    m->emptied = m->emptied && drawn >= 2;
    h->length = length;
    h->record_len = record_len;
    EXPECT(m, a.no == 1, "a bad shape was not refused with 1");
    refused(m, a);
    after_call(m, false);
}

/* Many releases in a row, as at the end of a job. */
static void call_burst(struct model *m)
{
    uint32_t keep = random_chance(&m->r, 20) ? 0 : random_below(&m->r, 8);
    while (m->blocks > keep && !group_failed()) {
        copy_lent(&m->before, &m->heap);
        call_release(m, m->block[random_below(&m->r, m->blocks)].mem);
        m->calls++;
    }
}

static void random_call(struct model *m)
{
    uint32_t drawn = random_below(&m->r, 1000);

    copy_lent(&m->before, &m->heap);
    if (drawn < 10)
        call_with_bad_shape(m);
    else if (drawn < 17)
        call_emptying(m);
    else if (drawn < 24)
        call_joining(m);
    else if (drawn < 34)
        empty_and_join(m);
    else if (drawn < 79)
        call_release(m, random_mem(m));
    else if (drawn < 89)
        call_release(m, 0);
    else if (drawn < 96)
        call_burst(m);
    else if (drawn < 350)
        random_resize(m);
    else if (m->blocks == 0 || random_chance(&m->r, m->grant_percent))
        call_grant(m, random_request(m));
    else
        call_release(m, m->block[random_below(&m->r, m->blocks)].mem);
    m->calls++;
    if (m->blocks > 0 && !group_failed())
        holder_writes(m, &m->block[random_below(&m->r, m->blocks)]);
}

/* What all models of a group did. */
struct sums {
    uint64_t calls, refused[6], resizes, moved, by_parts;
    uint64_t consolidated, demanded, found[FOUNDS];
};

static void add_counts(struct sums *sum, const struct model *m)
{
    sum->calls += m->calls;
    for (unsigned no = 1; no <= 5; no++)
        sum->refused[no] += m->refused[no];
    sum->resizes += m->resizes;
    sum->moved += m->moved;
    sum->by_parts += m->by_parts;
    sum->consolidated += m->consolidated;
    sum->demanded += m->demanded;
    for (unsigned i = 0; i < FOUNDS; i++)
        sum->found[i] += m->found[i];
}

static void tell_counts(const struct sums *sum)
{
    remark(", %llu calls, refused with 1: %llu, 2: %llu, 4: %llu, 5: %llu",
           (unsigned long long)sum->calls, (unsigned long long)sum->refused[1],
           (unsigned long long)sum->refused[2],
           (unsigned long long)sum->refused[4],
           (unsigned long long)sum->refused[5]);
    remark("; %llu blocks resized, %llu of them moved; %llu resizes by parts; "
           "%llu times consolidated; %llu times emptied and joined",
           (unsigned long long)sum->resizes, (unsigned long long)sum->moved,
           (unsigned long long)sum->by_parts,
           (unsigned long long)sum->consolidated,
           (unsigned long long)sum->demanded);
    remark("; granted from cache %llu, fast list %llu, small bin %llu, "
           "unsorted %llu",
           (unsigned long long)sum->found[IN_CACHE],
           (unsigned long long)sum->found[IN_FAST_LIST],
           (unsigned long long)sum->found[IN_SMALL_BIN],
           (unsigned long long)sum->found[IN_UNSORTED]);
}

static void sequences(const char *name, bool opened, uint32_t most,
                      uint32_t rounds, uint32_t calls)
{
    struct sums sum = { 0 };

    group(name);
    for (uint64_t seed = 1; seed <= rounds && !group_failed(); seed++) {
        struct model m = model_new(seed + ((uint64_t)most << 32), most);
        if (opened) {
            random_bytes(&m.r, m.heap.arena, m.heap.length);
            EXPECT(&m, open_anyhow(&m).no == 0, "open refused");
        } else {
            random_heap(&m.r, m.heap.arena, (uint32_t)m.heap.length,
                        m.heap.record);
            plain_read(&view, m.heap.arena, (uint32_t)m.heap.length,
                       m.heap.record);
            for (uint32_t i = 0; i < view.tiles; i++)
                if (view.tile[i].state == PLAIN_LIVE)
                    hold(&m, view.tile[i].at + 16, view.tile[i].size - 8);
        }
        while (m.calls < calls && !group_failed())
            random_call(&m);
        add_counts(&sum, &m);
        model_free(&m);
    }
    tell_counts(&sum);
    for (unsigned i = 0; i < FOUNDS && sum.calls > 20000; i++)
        CHECK(sum.found[i] > 0, "no grant found a chunk in place %u", i);
}

/* ---- resizes that find what is right behind ---- */

static uint32_t granted(struct model *m, uint64_t n)
{
    copy_lent(&m->before, &m->heap);
    call_grant(m, n);
    m->calls++;
    return m->blocks == 0 ? 0 : m->block[m->blocks - 1].mem;
}

static void released(struct model *m, uint32_t mem)
{
    copy_lent(&m->before, &m->heap);
    call_release(m, mem);
    m->calls++;
}

/* Leaves a top of 32 to 112 bytes. */
static void shorten_top(struct model *m)
{
    uint32_t left =
        (uint32_t)m->heap.length - plain_word(m->heap.record, 1);
    uint32_t keep = 32 + 16 * random_below(&m->r, 6);
    if (left >= keep + 32)
        granted(m, left - keep - 8);
}

/*
 * Blocks, each with one of n behind it, most of which are then fast; the top
 * is short. When the blocks are resized, seeking joins the fast chunks: it
 * clears a block's own P, or finds what has become of the chunk behind it.
 */
static void grow_between_fast_chunks(struct model *m, uint32_t n,
                                     uint32_t count)
{
    uint32_t filler[7], block[12], behind[12];

    for (uint32_t i = 0; i < 7; i++)
        filler[i] = granted(m, n);
    for (uint32_t i = 0; i < count; i++) {
        block[i] = granted(m, random_below(&m->r, n + 40));
        behind[i] = granted(m, n);
    }
    if (random_chance(&m->r, 70))
        shorten_top(m);
    for (uint32_t i = 0; i < 7 && !group_failed(); i++)
        released(m, filler[i]);
    for (uint32_t i = 0; i < count && !group_failed(); i++)
        if (random_chance(&m->r, 80))
            released(m, behind[i]);
    for (uint32_t i = 0; i < 2 * count && !group_failed(); i++) {
        uint32_t mem = block[random_below(&m->r, count)];
        uint64_t to = random_chance(&m->r, 30) ? n
            : random_new_length(&m->r, m->heap.arena,
                                (uint32_t)m->heap.length, mem);
        copy_lent(&m->before, &m->heap);
        if (find(m, mem) < m->blocks)
            call_resize(m, mem, to);
        m->calls++;
    }
}

static void between_fast_chunks(uint32_t rounds)
{
    struct sums sum = { 0 };

    group("resizes of blocks between fast chunks");
    for (uint64_t seed = 1; seed <= rounds && !group_failed(); seed++) {
        struct random r = { ~seed };
        uint32_t n = random_below(&r, 121), count = 2 + random_below(&r, 11);
        uint32_t length = 7 * (n + 32) + count * (2 * n + 96) + 64;
        struct model m = model_of_length(r, seed, (length + 15) & ~15u);
        random_bytes(&m.r, m.heap.arena, m.heap.length);
        open_anyhow(&m);
        grow_between_fast_chunks(&m, n, count);
        add_counts(&sum, &m);
        model_free(&m);
    }
    tell_counts(&sum);
}

/* ---- releases of much, with fast chunks about ---- */

/* Chunk sizes on both sides of 65,536, now and then far below. */
static uint32_t much(struct model *m)
{
    return random_chance(&m->r, 70) ? 65488 + 16 * random_below(&m->r, 14)
                                    : 1056 + 16 * random_below(&m->r, 2000);
}

/*
 * Large blocks, each between two of n, and seven more of n that fill their
 * cache list. What is then released or made shorter is joined with what was
 * joined before, with the top at times, and some of the others are fast.
 */
static void release_much(struct model *m)
{
    uint32_t n = random_below(&m->r, 121), filler[7], block[9], blocks = 0;
    uint32_t count = 1 + random_below(&m->r, 4);

    for (uint32_t i = 0; i < 7; i++)
        filler[i] = granted(m, n);
    for (uint32_t i = 0; i < count; i++) {
        block[blocks++] = granted(m, n);
        block[blocks++] = granted(m, much(m) - 8);
    }
    block[blocks++] = granted(m, n);
    if (random_chance(&m->r, 50))
        shorten_top(m);
    for (uint32_t i = 0; i < 7 && !group_failed(); i++)
        released(m, filler[i]);
    while (blocks > 0 && !group_failed()) {
        uint32_t drawn = random_below(&m->r, blocks);
        uint32_t i = find(m, block[drawn]);
        copy_lent(&m->before, &m->heap);
        if (i == m->blocks || random_chance(&m->r, 70)) {
            call_release(m, block[drawn]);
            block[drawn] = block[--blocks];
        } else {
            uint32_t most = random_chance(&m->r, 70) ? 100 : m->block[i].usable;
            call_resize(m, block[drawn], 1 + random_below(&m->r, most));
        }
        m->calls++;
    }
}

/*
 * A small block behind a large free chunk, of which its resize takes the front
 * and then joins the block with what is left.
 */
static void move_out_of_much(struct model *m)
{
    uint32_t n = 121 + random_below(&m->r, 800), filler[7];
    uint32_t small = random_below(&m->r, 121), fast[8];

    for (uint32_t i = 0; i < 7; i++)
        filler[i] = granted(m, n);
    for (uint32_t i = 0; i < 8; i++)
        fast[i] = granted(m, small);
    granted(m, 24);
    uint32_t large = granted(m, much(m) - 8);
    uint32_t block = granted(m, n);
    granted(m, 24);
    for (uint32_t i = 0; i < 7 && !group_failed(); i++)
        released(m, filler[i]);
    released(m, large);
    for (uint32_t i = 0; i < 8 && !group_failed(); i++)
        released(m, fast[i]);
    copy_lent(&m->before, &m->heap);
    if (!group_failed())
        call_resize(m, block, n + 16 + random_below(&m->r, 100));
    m->calls++;
}

static void among_fast_chunks(uint32_t rounds)
{
    struct sums sum = { 0 };

    group("releases of much, and resizes, with fast chunks about");
    for (uint64_t seed = 1; seed <= rounds && !group_failed(); seed++) {
        struct random r = { ~seed << 32 };
        uint32_t length = 65536 + 16 * random_below(&r, 12289);
        struct model m = model_of_length(r, seed, length);
        random_bytes(&m.r, m.heap.arena, m.heap.length);
        open_anyhow(&m);
        if (random_chance(&m.r, 70))
            release_much(&m);
        else
            move_out_of_much(&m);
        if (!group_failed())
            empty_and_join(&m);
        add_counts(&sum, &m);
        model_free(&m);
    }
    CHECK(sum.consolidated > 0, "nothing was consolidated");
    tell_counts(&sum);
}

/* ---- groups of equals in large bins ---- */

/*
 * Large blocks of one bin, each behind a short one, released in any order and
 * sorted now and then. Then the rings lose what grants take, and what a short
 * block takes in that grows.
 */
static void groups_of_equals(struct model *m, uint32_t n, uint32_t count)
{
    uint32_t large[20], fence[20];

    for (uint32_t i = 0; i < count; i++) {
        fence[i] = granted(m, random_below(&m->r, 25));
        large[i] = granted(m, n + 16 * random_below(&m->r, 4));
    }
    granted(m, 24);
    for (uint32_t left = count; left > 0 && !group_failed(); left--) {
        uint32_t drawn = random_below(&m->r, left);
        released(m, large[drawn]);
        large[drawn] = large[left - 1];
        if (random_chance(&m->r, 30) || left == 1)
            granted(m, m->heap.length);
    }
    for (uint32_t i = 0; i < 2 * count && !group_failed(); i++) {
        uint32_t mem = fence[random_below(&m->r, count)];
        copy_lent(&m->before, &m->heap);
        if (find(m, mem) < m->blocks && random_chance(&m->r, 60))
            call_resize(m, mem, 25 + random_below(&m->r, n));
        else
            call_grant(m, n + 16 * random_below(&m->r, 4));
        m->calls++;
    }
}

static void among_equals(uint32_t rounds)
{
    struct sums sum = { 0 };

    group("groups of equals in large bins");
    for (uint64_t seed = 1; seed <= rounds && !group_failed(); seed++) {
        struct random r = { seed << 40 };
        uint32_t n = 1080 + 64 * random_below(&r, 20);
        uint32_t count = 3 + random_below(&r, 18);
        uint32_t length = count * (n + 144) + 32 * random_below(&r, 100);
        struct model m = model_of_length(r, seed, (length + 79) & ~15u);
        random_bytes(&m.r, m.heap.arena, m.heap.length);
        open_anyhow(&m);
        groups_of_equals(&m, n, count);
        if (!group_failed())
            empty_and_join(&m);
        add_counts(&sum, &m);
        model_free(&m);
    }
    tell_counts(&sum);
}

/* ---- answers depend on no byte that means nothing, key or edition ---- */

/* What a call did to blocks; mem 0 is none. */
struct change {
    struct held from, to;
};

/* Draws the same call for both, which must answer alike. */
static struct change twin_call(struct model *a, struct model *b)
{
    bool grant = a->blocks == 0 || random_chance(&a->r, 55);
    uint32_t i = random_below(&a->r, a->blocks);
    struct second_answer left, right;
    struct change change = { { 0, 0 }, { 0, 0 } };

    if (random_chance(&a->r, 4)) {
        bool emptying = random_chance(&a->r, 50);
        left = emptying ? lent_emptying(&a->heap) : lent_joining(&a->heap);
        right = emptying ? lent_emptying(&b->heap) : lent_joining(&b->heap);
    } else if (a->blocks > 0 && random_chance(&a->r, 25)) {
        uint32_t mem = a->block[i].mem;
        uint64_t n = random_chance(&a->r, 40)
            ? random_request(a)
            : random_new_length(&a->r, a->heap.arena, (uint32_t)a->heap.length,
                                mem);
        left = lent_resize(&a->heap, mem, n);
        right = lent_resize(&b->heap, mem, n);
        if (left.no == 0) {
            change.from = a->block[i];
            let_go(a, i);
        }
        if (left.no == 0 && left.mem != 0)
            hold(a, left.mem, left.usable);
    } else if (grant) {
        uint64_t n = random_request(a);
        left = lent_grant(&a->heap, n);
        right = lent_grant(&b->heap, n);
        if (left.no == 0)
            hold(a, left.mem, left.usable);
    } else {
        left = lent_release(&a->heap, a->block[i].mem);
        right = lent_release(&b->heap, a->block[i].mem);
        change.from = a->block[i];
        let_go(a, i);
    }
    a->calls++;
    EXPECT(a, left.no == right.no && left.mem == right.mem
                  && left.usable == right.usable,
           "twins answer differently");
    EXPECT(a, same_words(&a->heap, &b->heap), "twins' records differ");
    if (left.no == 0 && left.mem != 0)
        change.to = (struct held){ left.mem, left.usable };
    return change;
}

/* Every byte in which they may differ does. */
static void twins(uint32_t rounds)
{
    struct sums sum = { 0 };

    group("answers and record do not depend on holders' or stale bytes");
    for (uint64_t seed = 1; seed <= rounds && !group_failed(); seed++) {
        struct model a = model_new(seed, 32768), b = model_new(seed, 32768);
        b.r.state += 12345;
        random_bytes(&a.r, a.heap.arena, a.heap.length);
        random_bytes(&b.r, b.heap.arena, b.heap.length);
        open_anyhow(&a);
        open_anyhow(&b);
        while (a.calls < 300 && !group_failed()) {
            struct held to = twin_call(&a, &b).to;
            random_bytes(&a.r, a.heap.arena + to.mem, to.usable);
            random_bytes(&b.r, b.heap.arena + to.mem, to.usable);
        }
        add_counts(&sum, &a);
        model_free(&a);
        model_free(&b);
    }
    remark(", %llu calls", (unsigned long long)sum.calls);
}

/* ---- the same calls and writes with two keys ---- */

static uint8_t written[PLAIN_ARENA_MAX]; /* 0xff where a holder has written */

/* A resized block's written bytes go along; what is new is not written. */
static void follow_written(const struct change *change)
{
    static uint8_t kept[PLAIN_ARENA_MAX];
    struct held from = change->from, to = change->to;
    uint32_t both = from.usable < to.usable ? from.usable : to.usable;

    memcpy(kept, written + from.mem, both);
    memset(written + from.mem, 0, from.usable);
    memset(written + to.mem, 0, to.usable);
    memcpy(written + to.mem, kept, both);
}

/* Some bytes of some block, the same in both. */
static void twin_writes(struct model *a, struct model *b)
{
    if (a->blocks == 0)
        return;
    struct held block = a->block[random_below(&a->r, a->blocks)];
    uint32_t from = random_below(&a->r, block.usable);
    uint32_t length = random_below(&a->r, block.usable - from + 1);
    random_bytes(&a->r, a->heap.arena + block.mem + from, length);
    memcpy(b->heap.arena + block.mem + from, a->heap.arena + block.mem + from,
           length);
    memset(written + block.mem + from, 0xff, length);
}

static void written_is_same(struct model *a, const struct model *b)
{
    uint8_t differs = 0;
    for (size_t i = 0; i < a->heap.length; i++)
        differs |= (a->heap.arena[i] ^ b->heap.arena[i]) & written[i];
    EXPECT(a, differs == 0, "a written byte of one twin differs");
}

/* From the same first bytes: only the keys of cached chunks ever differ. */
static void all_but_keys_is_same(struct model *a, struct model *b)
{
    copy_lent(&b->parts, &b->heap);
    plain_read(&view, a->heap.arena, (uint32_t)a->heap.length, a->heap.record);
    for (uint32_t i = 0; i < view.tiles; i++) {
        uint32_t c = view.tile[i].at;
        if (view.tile[i].state != PLAIN_CACHED)
            continue;
        EXPECT(a, second_word(&a->heap, c) == plain_key(a->heap.record)
                      && second_word(&b->heap, c) == plain_key(b->heap.record),
               "a cached chunk of two heaps has not its key");
        plain_put(b->parts.arena + c + 24, 8, second_word(&a->heap, c));
    }
    EXPECT(a, same_arena(&a->heap, &b->parts),
           "with another key another byte than that differs");
}

static void with_two_keys(struct model *a, struct model *b, bool same_bytes)
{
    uint64_t key = random_key(&a->r), other = random_key(&a->r);

    random_bytes(&a->r, a->heap.arena, a->heap.length);
    random_bytes(&b->r, b->heap.arena, b->heap.length);
    if (same_bytes)
        copy_lent(&b->heap, &a->heap);
    memset(written, 0, sizeof written);
    uint32_t edition = random_edition(&a->r);
    lent_open(&a->heap, key, edition);
    lent_open(&b->heap, key == other ? ~key : other, edition);
    while (a->calls < 300 && !group_failed()) {
        struct change change = twin_call(a, b);
        follow_written(&change);
        twin_writes(a, b);
        written_is_same(a, b);
        if (same_bytes)
            all_but_keys_is_same(a, b);
    }
}

static void two_keys(uint32_t rounds)
{
    struct sums sum = { 0 };

    group("two keys: the same answers, records but for the key, and bytes");
    for (uint64_t seed = 1; seed <= rounds && !group_failed(); seed++) {
        uint64_t state = seed + (3u << 20);
        struct model a = model_new(state, 32768), b = model_new(state, 32768);
        b.r.state += 54321;
        with_two_keys(&a, &b, seed % 2 == 0);
        add_counts(&sum, &a);
        model_free(&a);
        model_free(&b);
    }
    remark(", %llu calls", (unsigned long long)sum.calls);
}

/* ---- the same calls and writes in both editions ---- */

/* Each stack is the same list; links that differ are mixed, and counted. */
static uint64_t same_stacks(struct model *a, const struct model *b)
{
    uint64_t mixed = 0;
    plain_read(&view, a->heap.arena, (uint32_t)a->heap.length, a->heap.record);
    plain_read(&expected, b->heap.arena, (uint32_t)b->heap.length,
               b->heap.record);
    EXPECT(a, same_tiles(&view, &expected), "in edition 2 tiles differ");
    for (uint32_t i = 0; i < view.tiles; i++) {
        uint32_t c = view.tile[i].at;
        if (view.tile[i].state != PLAIN_CACHED
            && view.tile[i].state != PLAIN_FAST)
            continue;
        EXPECT(a, plain_link(a->heap.arena, 1, c)
                      == plain_link(b->heap.arena, 2, c),
               "in edition 2 a list leads elsewhere");
        mixed += plain_get(a->heap.arena + c + 16, 8)
            != plain_get(b->heap.arena + c + 16, 8);
    }
    return mixed;
}

/*
 * From the same first bytes: what ever differs was the link of a stack, also
 * where it is left over or was copied, and in the bits of a position.
 */
static void all_but_links_is_same(struct model *a, const struct model *b)
{
    uint64_t differs = 0;
    for (size_t i = 0; i < a->heap.length; i += 8)
        differs |= (plain_get(a->heap.arena + i, 8)
                    ^ plain_get(b->heap.arena + i, 8))
            & (i % 16 == 0 ? ~(uint64_t)63 : PLAIN_NONE64);
    EXPECT(a, differs == 0, "in edition 2 another byte than a link's differs");
}

static uint64_t in_two_editions(struct model *a, struct model *b,
                                bool same_bytes)
{
    uint64_t key = random_key(&a->r), mixed = 0;

    random_bytes(&a->r, a->heap.arena, a->heap.length);
    random_bytes(&b->r, b->heap.arena, b->heap.length);
    if (same_bytes)
        copy_lent(&b->heap, &a->heap);
    memset(written, 0, sizeof written);
    lent_open(&a->heap, key, 1);
    lent_open(&b->heap, same_bytes ? key : random_key(&a->r), 2);
    while (a->calls < 300 && !group_failed()) {
        struct change change = twin_call(a, b);
        follow_written(&change);
        twin_writes(a, b);
        EXPECT(a, lent_sound(&a->heap) && lent_sound(&b->heap),
               "a twin is no longer sound");
        written_is_same(a, b);
        mixed += same_stacks(a, b);
        if (same_bytes)
            all_but_links_is_same(a, b);
    }
    return mixed;
}

static void two_editions(uint32_t rounds)
{
    struct sums sum = { 0 };
    uint64_t mixed = 0;

    group("both editions: the same answers, records but for it, lists, bytes");
    for (uint64_t seed = 1; seed <= rounds && !group_failed(); seed++) {
        uint64_t state = seed + (5u << 20);
        struct model a = model_new(state, 65536), b = model_new(state, 65536);
        b.r.state += 67890;
        mixed += in_two_editions(&a, &b, seed % 2 == 0);
        add_counts(&sum, &a);
        model_free(&a);
        model_free(&b);
    }
    remark(", %llu calls, %llu times a mixed link",
           (unsigned long long)sum.calls, (unsigned long long)mixed);
    CHECK(mixed > 0, "no link was ever mixed");
}

/* ---- the same on every machine ---- */

static uint64_t mix(uint64_t hash, const uint8_t *bytes, size_t length)
{
    for (size_t i = 0; i < length; i++)
        hash = (hash ^ bytes[i]) * 0x100000001b3u; /* FNV-1a */
    return hash;
}

/* All bytes of 300 random heaps, before and after some calls, in one number. */
static void same_everywhere(void)
{
    uint64_t hash = 0xcbf29ce484222325u;

    group("the same seeds give the same bytes on every machine");
    for (uint64_t seed = 1; seed <= 300 && !group_failed(); seed++) {
        struct model m = model_new(seed, 32768);
        struct lent *h = &m.heap;
        random_heap(&m.r, h->arena, (uint32_t)h->length, h->record);
        for (unsigned i = 0; i < 10; i++) {
            hash = mix(hash, h->arena, h->length);
            hash = mix(hash, h->record, h->record_len);
            struct second_answer a = lent_grant(h, random_request(&m));
            if (i % 2 == 0)
                lent_release(h, a.mem);
            if (i == 7) {
                lent_emptying(h);
                lent_joining(h);
            }
        }
        damage_field(&m.r, h->arena, (uint32_t)h->length, h->record);
        damage_bytes(&m.r, h->arena, (uint32_t)h->length, h->record);
        hash = mix(hash, h->arena, h->length);
        hash = mix(hash, h->record, h->record_len);
        model_free(&m);
    }
    CHECK(hash == SAME_EVERYWHERE, "the number is 0x%016llx, not 0x%016llx",
          (unsigned long long)hash, (unsigned long long)SAME_EVERYWHERE);
}

int main(int argc, char **argv)
{
    uint32_t share = share_of(argc, argv);

    same_everywhere();

    sequences("random calls from a newly opened arena", true, 8192,
              1000 / share, 500);
    sequences("random calls in arenas up to the largest", true,
              PLAIN_ARENA_MAX, 120 / share, 500);
    sequences("random calls from random sound heaps", false, 8192,
              20000 / share, 12);
    sequences("random calls from random large heaps", false, PLAIN_ARENA_MAX,
              600 / share, 12);
    between_fast_chunks(4000 / share);
    among_fast_chunks(600 / share);
    among_equals(1500 / share);
    twins(400 / share);
    two_keys(160 / share);
    two_editions(160 / share);
    return finish();
}
