#include "holders.h"

#include <stdlib.h>
#include <string.h>

#include "plain.h"

static struct plain_view view;

/* ---- holders ---- */

struct model model_of(struct pair p)
{
    struct model m = { .p = p };
    uint32_t length = (uint32_t)p.ours.length;
    size_t bytes = (length / 16 + 1) * sizeof *m.usable_at;

    m.before = lend(length, 0);
    m.block = memory((length / 32 + 1) * sizeof *m.block);
    m.usable_at = memory(bytes);
    memset(m.usable_at, 0, bytes);
    for (unsigned i = 0; i < 4; i++)
        m.palette[i] = random_below(
            &m.p.r, i < 2 ? 120 : length < 16384 ? 40 + length / 8 : 2000);
    m.grant_percent = 40 + random_below(&m.p.r, 25);
    return m;
}

void model_free(struct model *m)
{
    pair_free(&m->p);
    give_back(&m->before);
    free(m->block);
    free(m->usable_at);
}

void hold(struct model *m, uint32_t mem, uint32_t usable)
{
    uint32_t length = (uint32_t)m->p.ours.length;
    if (!CHECK(mem >= 16 && mem % 16 == 0 && usable < length
                   && mem <= length - usable && m->usable_at[mem / 16] == 0,
               "seed %llu, call %u: a block at %u with %u usable bytes",
               (unsigned long long)m->p.seed, m->p.calls, mem, usable))
        return;
    m->usable_at[mem / 16] = usable;
    m->block[m->blocks++] = (struct held){ mem, usable };
}

void hold_the_live(struct model *m)
{
    const struct lent *l = &m->p.ours;
    plain_read(&view, l->arena, (uint32_t)l->length, l->record);
    for (uint32_t i = 0; i < view.tiles; i++)
        if (view.tile[i].state == PLAIN_LIVE)
            hold(m, view.tile[i].at + 16, view.tile[i].size - 8);
    for (unsigned i = 0; i < RECENT && view.tiles > 0; i++)
        m->recent[i] =
            view.tile[random_below(&m->p.r, view.tiles)].at + 16;
}

static bool holds(const struct model *m, uint64_t mem)
{
    return mem % 16 == 0 && mem < m->p.ours.length
        && m->usable_at[mem / 16] != 0;
}

static void let_go(struct model *m, uint64_t mem)
{
    uint32_t i = 0;
    while (m->block[i].mem != mem)
        i++;
    m->block[i] = m->block[--m->blocks];
    m->usable_at[mem / 16] = 0;
    m->recent[random_below(&m->p.r, RECENT)] = mem;
}

void put_both(struct pair *p, uint32_t at, uint32_t length)
{
    random_bytes(&p->r, p->ours.arena + at, length);
    memcpy(p->theirs.arena + at, p->ours.arena + at, length);
}

static void holder_writes(struct model *m, struct held block)
{
    struct random *r = &m->p.r;
    uint32_t from = random_chance(r, 60) ? 0 : random_below(r, block.usable);
    uint32_t length = random_chance(r, 60)
        ? block.usable - from : random_below(r, block.usable - from);
    put_both(&m->p, block.mem + from, length);
}

static void random_holder_writes(struct model *m)
{
    if (m->blocks > 0)
        holder_writes(m, m->block[random_below(&m->p.r, m->blocks)]);
}

/* ---- random numbers for calls ---- */

uint64_t extreme(uint32_t i)
{
    static const uint64_t number[] = {
        0, 1, 8, 15, 16, 17, 24, 25, 31, 32, 262104, 262105, 262143, 262144,
        262145, 262160, 0x7fffffff, 0x80000000, 0xffffffe8, 0xfffffff0,
        0xffffffff, 0x100000000, 0x100000010, 0x100000018, 0x100040000,
        0x7fffffffffffffff, 0x8000000000000000, 0x8000000000000010,
        0xffffffffffffffe8, 0xffffffffffffffe9, 0xfffffffffffffff0,
        0xfffffffffffffff8, 0xffffffffffffffff
    };
    return number[i % (sizeof number / sizeof number[0])];
}

static uint64_t tile_size(const struct pair *p, uint32_t at)
{
    return plain_get(p->ours.arena + at + 8, 8) & ~(uint64_t)15;
}

/* Near the size of a chunk that is there: equals, rests of 16, 32 and 48. */
static uint64_t request_like_a_chunk(struct pair *p)
{
    uint32_t chosen = 0, seen = 0;
    uint64_t at = 0, size;
    for (; at < p->ours.length; at += size) {
        size = tile_size(p, (uint32_t)at);
        if (size < 32 || at + size == p->ours.length)
            break;
        if (random_below(&p->r, ++seen) == 0)
            chosen = (uint32_t)at;
    }
    size = tile_size(p, chosen);
    uint64_t less = 8 + 16 * random_below(&p->r, 5);
    return size > less ? size - less + random_below(&p->r, 2) : 0;
}

static uint64_t random_request(struct model *m)
{
    struct random *r = &m->p.r;
    uint32_t length = (uint32_t)m->p.ours.length;
    switch (random_below(r, length < 4096 ? 7 : 11)) {
    case 0: return random_below(r, 130);
    case 1: return request_like_a_chunk(&m->p);
    case 2: return random_below(r, length / 16);
    case 3:
        return random_chance(r, 70)  ? random_below(r, length / 4)
            : random_chance(r, 80)   ? random_below(r, length)
            : random_chance(r, 50)   ? 262140 + random_below(r, 10)
                                     : extreme(random_below(r, EXTREMES));
    case 7: return 980 + random_below(r, 80);
    case 8: return random_below(r, 1100);
    case 9: return request_like_a_chunk(&m->p);
    default: return m->palette[random_below(r, 4)];
    }
}

static uint64_t random_held_mem(struct model *m)
{
    return m->blocks == 0 ? 0 : m->block[random_below(&m->p.r, m->blocks)].mem;
}

/* Released before, unaligned, inside a block, outside the arena, cut short. */
static uint64_t random_wrong_mem(struct model *m)
{
    struct random *r = &m->p.r;
    uint32_t near = random_below(r, (uint32_t)m->p.ours.length + 64);
    switch (random_below(r, 9)) {
    case 0: case 1: case 2: return m->recent[random_below(r, RECENT)];
    case 3: return near;
    case 4: return near & ~15u;
    case 5: return random_held_mem(m) + 1 + random_below(r, 32);
    case 6: return plain_word(m->p.ours.record, 1) + 16;
    case 7:
        return ((uint64_t)1 << (32 + random_below(r, 32)))
            + random_held_mem(m);
    default: return extreme(random_below(r, EXTREMES));
    }
}

/* ---- demand 3 ---- */

static bool listed(enum plain_state s)
{
    return s == PLAIN_CACHED || s == PLAIN_FAST;
}

/* Each stretch outside held chunks is one free chunk, the last is the top. */
static void one_free_chunk_each(struct model *m)
{
    const struct lent *l = &m->p.ours;
    uint32_t found = 0;
    bool free_before = false;

    plain_read(&view, l->arena, (uint32_t)l->length, l->record);
    for (uint32_t i = 0; i < view.tiles; i++) {
        const struct plain_tile *t = &view.tile[i];
        uint32_t usable = t->state == PLAIN_TOP
            ? 0 : m->usable_at[t->at / 16 + 1];
        bool held = usable != 0;
        found += held;
        CHECK(!held || usable == t->size - 8,
              "seed %llu: the held block at %u has another size word",
              (unsigned long long)m->p.seed, t->at + 16);
        CHECK(held == (t->state == PLAIN_LIVE) && !listed(t->state),
              "seed %llu: emptied and joined, chunk %u is held, or not, "
              "wrongly",
              (unsigned long long)m->p.seed, t->at);
        CHECK(held || !free_before,
              "seed %llu: emptied and joined, two free chunks touch at %u",
              (unsigned long long)m->p.seed, t->at);
        free_before = !held;
    }
    CHECK(found == m->blocks, "seed %llu: %u blocks held, %u found",
          (unsigned long long)m->p.seed, m->blocks, found);
    CHECK(plain_word(l->record, 1) == view.tile[view.tiles - 1].at,
          "seed %llu: emptied and joined, the last chunk is not the top",
          (unsigned long long)m->p.seed);
}

static enum call call_of(char letter)
{
    return letter == 'G' ? GRANT : letter == 'R' ? RELEASE
        : letter == 'Z'  ? RESIZE : letter == 'E' ? EMPTYING : JOINING;
}

/*
 * With no block held: the record, and some calls, as newly opened. The calls
 * are on six blocks in turn, and leave none.
 */
static void as_newly_opened(struct model *m)
{
    struct lent fresh = lend(m->p.ours.length, 0x5a);
    struct second_answer a =
        call_ours(&fresh, OPEN, plain_key(m->p.ours.record),
                  plain_edition(m->p.ours.record));
    uint32_t block[6] = { 0 }, turn = 0;

    CHECK(a.no == 0 && same_record(&fresh, &m->p.ours),
          "seed %llu: emptied and joined without blocks, but the record is "
          "not the one of a newly opened arena",
          (unsigned long long)m->p.seed);
    for (const char *at = "GGGGGGZZZEZZZJRRRRRREJ"; *at != '\0'; at++) {
        enum call call = call_of(*at);
        bool on_block = call != EMPTYING && call != JOINING;
        uint32_t *mem = &block[turn % 6];
        uint64_t n = random_request(m), number = call == GRANT ? n : *mem;
        struct second_answer used = call == RESIZE
            ? both_resize(&m->p, number, n) : both(&m->p, call, number);
        a = call_ours(&fresh, call, number, n);
        CHECK(same_answer(used, a) && same_record(&fresh, &m->p.ours),
              "seed %llu: %s %llu (%llu), emptied and joined without blocks, "
              "is not answered as on a newly opened arena",
              (unsigned long long)m->p.seed, call_name[call],
              (unsigned long long)number, (unsigned long long)n);
        if (on_block && used.no == 0)
            *mem = used.mem;
        turn += on_block;
        if (group_failed())
            break;
    }
    give_back(&fresh);
}

/* ---- calls with holders ---- */

uint32_t model_grant(struct model *m, uint64_t n)
{
    struct second_answer a = both(&m->p, GRANT, n);
    m->emptied = false;
    if (group_failed())
        return 0;
    if (a.no != 0) {
        CHECK(a.no == (n > 262144 ? 2 : 5), "seed %llu: grant %llu refused "
              "with %u", (unsigned long long)m->p.seed, (unsigned long long)n,
              a.no);
        return 0;
    }
    CHECK(a.usable >= n && a.usable % 16 == 8, "seed %llu: grant %llu has %u "
          "usable bytes", (unsigned long long)m->p.seed,
          (unsigned long long)n, a.usable);
    hold(m, a.mem, a.usable);
    if (!group_failed() && random_chance(&m->p.r, 80))
        holder_writes(m, m->block[m->blocks - 1]);
    return a.mem;
}

void model_release(struct model *m, uint64_t mem)
{
    bool held = holds(m, mem);
    struct second_answer a = both(&m->p, RELEASE, mem);
    m->emptied = false;
    CHECK(a.no == (held || mem == 0 ? 0 : 4),
          "seed %llu: release %llu, %s, answered %u",
          (unsigned long long)m->p.seed, (unsigned long long)mem,
          held ? "held" : "not held", a.no);
    if (held && !group_failed())
        let_go(m, mem);
}

/* Every held block has the bytes that it had, also after a refusal. */
static void bytes_kept(const struct model *m, const char *call)
{
    for (uint32_t i = 0; i < m->blocks; i++)
        CHECK(memcmp(m->p.ours.arena + m->block[i].mem,
                     m->before.arena + m->block[i].mem,
                     m->block[i].usable) == 0,
              "seed %llu, call %u: a %s changed bytes of the block at %u",
              (unsigned long long)m->p.seed, m->p.calls, call,
              m->block[i].mem);
}

/* Refused for want of room it has sorted and joined, and nothing else. */
static void resize_refused(const struct model *m, struct second_answer a)
{
    const struct lent *l = &m->p.ours;

    CHECK(a.mem == 0 && a.usable == 0,
          "seed %llu, call %u: a refused resize hands numbers back",
          (unsigned long long)m->p.seed, m->p.calls);
    CHECK(a.no == 5 ? memcmp(l->record + 8, m->before.record + 8, 129 * 4) == 0
                    : same_arena(&m->before, l) && same_record(&m->before, l),
          "seed %llu, call %u: a resize refused with %u wrote what it may not",
          (unsigned long long)m->p.seed, m->p.calls, a.no);
    bytes_kept(m, "refused resize");
}

/* The block takes its bytes along, up to the shorter of its lengths. */
static void resized(struct model *m, uint32_t mem, uint64_t n,
                    struct second_answer a)
{
    uint32_t old = m->usable_at[mem / 16];

    CHECK(a.usable >= n && a.usable % 16 == 8
              && (a.mem == mem || a.usable > old),
          "seed %llu, call %u: resize %u %llu of %u bytes answered %u %u",
          (unsigned long long)m->p.seed, m->p.calls, mem,
          (unsigned long long)n, old, a.mem, a.usable);
    let_go(m, mem);
    bytes_kept(m, "resize");
    hold(m, a.mem, a.usable);
    if (group_failed())
        return;
    CHECK(memcmp(m->p.ours.arena + a.mem, m->before.arena + mem,
                 a.usable < old ? a.usable : old) == 0,
          "seed %llu, call %u: the block at %u, resized, lost bytes",
          (unsigned long long)m->p.seed, m->p.calls, mem);
    tally.resized++;
    tally.moved += a.mem != mem;
}

/* Never made twice: a refused one may succeed the next time. */
void model_resize(struct model *m, uint64_t mem, uint64_t n)
{
    bool held = holds(m, mem), none = mem != 0 && !held;

    copy_lent(&m->before, &m->p.ours);
    struct second_answer a = both_resize(&m->p, mem, n);
    m->emptied = false;
    CHECK(n > 262144 ? a.no == 2 : none ? a.no == 4
              : a.no == 0 || (a.no == 5 && (mem == 0 || n > 0)),
          "seed %llu: resize %llu %llu, %s, answered %u",
          (unsigned long long)m->p.seed, (unsigned long long)mem,
          (unsigned long long)n, held ? "held" : "not held", a.no);
    if (group_failed())
        return;
    if (a.no != 0) {
        resize_refused(m, a);
    } else if (held && n > 0) {
        resized(m, (uint32_t)mem, n, a);
    } else if (held) {
        CHECK(a.mem == 0 && a.usable == 0,
              "seed %llu: a resize to 0 hands numbers back",
              (unsigned long long)m->p.seed);
        let_go(m, mem);
        bytes_kept(m, "resize to 0");
    } else {
        bytes_kept(m, "resize of null");
        hold(m, a.mem, a.usable);
    }
}

/* Whether that many of the record's words, from one on, have that value. */
static bool words_are(const struct model *m, unsigned from, unsigned count,
                      uint32_t value)
{
    for (unsigned i = from; i < from + count; i++)
        if (plain_word(m->p.ours.record, i) != value)
            return false;
    return true;
}

static bool words_kept(const struct model *m, unsigned from, unsigned count)
{
    return memcmp(m->p.ours.record + 4 * from, m->before.record + 4 * from,
                  4 * count) == 0;
}

/* The cache goes, the last remainder stays. */
void model_emptying(struct model *m)
{
    copy_lent(&m->before, &m->p.ours);
    struct second_answer a = both(&m->p, EMPTYING, 0);
    CHECK(a.no == 0 && is_sound(&m->p.ours),
          "seed %llu: an emptying answered %u", (unsigned long long)m->p.seed,
          a.no);
    CHECK(words_are(m, plain_cache_head(0), 64, PLAIN_NONE32)
              && words_are(m, plain_cache_count(0), 64, 0)
              && words_kept(m, 2, 1),
          "seed %llu: an emptying left a cache list, or changed the last "
          "remainder", (unsigned long long)m->p.seed);
    bytes_kept(m, "emptying");
    m->emptied = true;
}

/* The fast lists and the last remainder go, the cache stays. */
void model_joining(struct model *m)
{
    copy_lent(&m->before, &m->p.ours);
    struct second_answer a = both(&m->p, JOINING, 0);
    CHECK(a.no == 0 && is_sound(&m->p.ours),
          "seed %llu: a joining answered %u", (unsigned long long)m->p.seed,
          a.no);
    CHECK(words_are(m, plain_fast_head(0), 10, PLAIN_NONE32)
              && words_are(m, 2, 1, PLAIN_NONE32)
              && words_kept(m, plain_cache_head(0), 128),
          "seed %llu: a joining left a fast list or the last remainder, or "
          "changed the cache", (unsigned long long)m->p.seed);
    bytes_kept(m, "joining");
    if (!m->emptied)
        return;
    if (!group_failed())
        one_free_chunk_each(m);
    if (!group_failed() && m->blocks == 0)
        as_newly_opened(m);
}

/* Any number of the two may come between. */
void empty_and_join(struct model *m)
{
    model_emptying(m);
    while (random_chance(&m->p.r, 20) && !group_failed())
        (random_chance(&m->p.r, 50) ? model_emptying : model_joining)(m);
    if (!group_failed())
        model_joining(m);
}

static void release_down_to(struct model *m, uint32_t keep)
{
    while (m->blocks > keep && !group_failed())
        model_release(m, random_held_mem(m));
}

/* One request again and again: past the cache to the lists behind it. */
void grants_in_a_row(struct model *m)
{
    uint64_t n = random_request(m);
    for (uint32_t i = 8 + random_below(&m->p.r, 8); i > 0; i--)
        if (!group_failed())
            model_grant(m, n);
}

/* Mostly of a held block; else of null, or of what is none. */
static void random_resize(struct model *m)
{
    struct random *r = &m->p.r;
    uint64_t mem = random_chance(r, 50) ? 0 : random_wrong_mem(m);
    uint64_t n = random_request(m);

    if (m->blocks > 0 && random_chance(r, 90)) {
        mem = random_held_mem(m);
        if (random_chance(r, 60))
            n = random_new_length(r, m->p.ours.arena,
                                  (uint32_t)m->p.ours.length, (uint32_t)mem);
    }
    model_resize(m, mem, random_chance(r, 4) ? 0 : n);
}

void random_call(struct model *m)
{
    struct random *r = &m->p.r;
    uint32_t drawn = random_below(r, 1000);

    if (drawn < 8)
        model_emptying(m);
    else if (drawn < 16)
        model_joining(m);
    else if (drawn < 26)
        empty_and_join(m);
    else if (drawn < 76)
        model_release(m, random_wrong_mem(m));
    else if (drawn < 81)
        model_release(m, 0);
    else if (drawn < 87)
        release_down_to(m, random_chance(r, 20) ? 0 : random_below(r, 8));
    else if (drawn < 93)
        grants_in_a_row(m);
    else if (drawn < 350)
        random_resize(m);
    else if (m->blocks == 0 || random_chance(r, m->grant_percent))
        model_grant(m, random_request(m));
    else
        model_release(m, random_held_mem(m));
    if (!group_failed())
        random_holder_writes(m);
}

void random_calls(struct model *m, uint32_t calls)
{
    while (m->p.calls < calls && !group_failed())
        random_call(m);
    if (!group_failed())
        empty_and_join(m);
    release_down_to(m, 0);
    if (!group_failed())
        empty_and_join(m);
}
