/*
 * Random calls from opened arenas, and calls on heaps that no sequence of
 * calls made: random sound ones, ones that break a rule, damaged ones. The
 * last group runs both kinds between guards.
 */
#include "groups.h"

#include <stdlib.h>
#include <string.h>

#include "guarded.h"
#include "holders.h"
#include "plain.h"

static struct plain_view view;

/* What was done since. */
static void tell_calls(const struct tally *before)
{
    remark(", %llu calls, %llu blocks resized, %llu of them moved",
           (unsigned long long)(tally.calls - before->calls),
           (unsigned long long)(tally.resized - before->resized),
           (unsigned long long)(tally.moved - before->moved));
}

void sequences(const char *name, uint32_t from, uint32_t to,
               uint32_t rounds, uint32_t calls)
{
    struct tally before = tally;

    group(name);
    for (uint64_t i = 1; i <= rounds && !group_failed(); i++) {
        uint64_t seed = ((uint64_t)to << 32) + i;
        struct random r = { seed };
        uint32_t length = from == to ? to : random_length(&r, to);
        struct pair p = pair_new(seed, r, length < from ? from : length);
        open_pair(&p);
        struct model m = model_of(p);
        random_calls(&m, calls);
        model_free(&m);
    }
    tell_calls(&before);
}

/* Two heaps, call by call in turn: nothing is kept between calls. */
void in_turn(uint32_t rounds)
{
    group("calls on two heaps in turn");
    for (uint64_t i = 1; i <= rounds && !group_failed(); i++) {
        struct model a = model_of(opened(2 * i + 70000, 4096));
        struct model b = model_of(opened(2 * i + 70001, 512 + 16 * i));
        while (a.p.calls < 300 && !group_failed()) {
            random_call(&a);
            random_call(&b);
        }
        model_free(&a);
        model_free(&b);
    }
}

/* Chunks of one size, or of one large bin, side by side in every list. */
static void equals(struct model *m)
{
    struct random *r = &m->p.r;
    uint32_t n = random_chance(r, 50) ? 121 + random_below(r, 880)
                                      : 1001 + random_below(r, 1200);
    uint32_t spread = random_chance(r, 50) ? 1 : 4;
    uint32_t mem[20], count = 13 + random_below(r, 8);

    for (uint32_t i = 0; i < count && !group_failed(); i++) {
        mem[i] = model_grant(m, n + 16 * random_below(r, spread));
        model_grant(m, 24);
    }
    for (uint32_t i = count; i > 0 && !group_failed(); i--) {
        uint32_t drawn = random_below(r, i);
        model_release(m, mem[drawn]);
        mem[drawn] = mem[i - 1];
    }
    for (uint32_t i = 0; i < 7 && n <= 1032 && !group_failed(); i++)
        model_grant(m, n);
    if (random_chance(r, 60) && !group_failed())
        model_grant(m, 4000 + random_below(r, 60000));
    for (uint32_t i = 0; i < 14 && !group_failed(); i++)
        model_grant(m, n + 16 * random_below(r, spread));
}

/* The last remainder grows by a join while an equal of the request waits. */
static void remainder_that_grows(struct model *m)
{
    struct random *r = &m->p.r;
    uint32_t n = 121 + random_below(r, 400), mem[8];

    for (uint32_t i = 0; i < 8; i++)
        mem[i] = model_grant(m, n);
    model_grant(m, 24);
    uint32_t split = model_grant(m, 1500 + random_below(r, 500));
    uint32_t behind = model_grant(m, 1100 + random_below(r, 500));
    model_grant(m, 24);
    model_release(m, split);
    for (uint32_t i = 0; i < 7 && !group_failed(); i++)
        model_release(m, mem[i]);
    model_grant(m, 540 + random_below(r, 200));
    model_release(m, mem[7]);
    model_release(m, behind);
    for (uint32_t i = 0; i < 8 && !group_failed(); i++)
        model_grant(m, n);
}

/* Leaves a top of 32 to 112 bytes. */
static void shorten_top(struct model *m)
{
    uint32_t left =
        (uint32_t)m->p.ours.length - plain_word(m->p.ours.record, 1);
    uint32_t keep = 32 + 16 * random_below(&m->p.r, 6);
    if (left >= keep + 32)
        model_grant(m, left - keep - 8);
}

/*
 * Blocks, each with one of n behind it, most of which are then fast; the top
 * is short. When the blocks are resized, seeking joins the fast chunks: it
 * clears a block's own P, or finds what has become of the chunk behind it.
 */
static void grow_between_fast_chunks(struct model *m, uint32_t n,
                                     uint32_t count)
{
    struct random *r = &m->p.r;
    uint32_t filler[7], block[12], behind[12];

    for (uint32_t i = 0; i < 7; i++)
        filler[i] = model_grant(m, n);
    for (uint32_t i = 0; i < count; i++) {
        block[i] = model_grant(m, random_below(r, n + 40));
        behind[i] = model_grant(m, n);
    }
    if (random_chance(r, 70))
        shorten_top(m);
    for (uint32_t i = 0; i < 7 && !group_failed(); i++)
        model_release(m, filler[i]);
    for (uint32_t i = 0; i < count && !group_failed(); i++)
        if (random_chance(r, 80))
            model_release(m, behind[i]);
    for (uint32_t i = 0; i < 2 * count && !group_failed(); i++) {
        uint32_t mem = block[random_below(r, count)];
        if (mem == 0 || m->usable_at[mem / 16] == 0)
            continue;
        model_resize(m, mem, random_chance(r, 30) ? n
                     : random_new_length(r, m->p.ours.arena,
                                         (uint32_t)m->p.ours.length, mem));
    }
}

void between_fast_chunks(uint32_t rounds)
{
    struct tally before = tally;

    group("resizes of blocks between fast chunks");
    for (uint64_t i = 1; i <= rounds && !group_failed(); i++) {
        struct random r = { (7 << 20) + i };
        uint32_t n = random_below(&r, 121), count = 2 + random_below(&r, 11);
        uint32_t length = 7 * (n + 32) + count * (2 * n + 96) + 64;
        struct pair p = pair_new((7 << 20) + i, r, (length + 15) & ~15u);
        open_pair(&p);
        struct model m = model_of(p);
        grow_between_fast_chunks(&m, n, count);
        model_free(&m);
    }
    tell_calls(&before);
}

/* Chunk sizes on both sides of 65,536, now and then far below. */
static uint32_t much(struct model *m)
{
    return random_chance(&m->p.r, 70)
        ? 65488 + 16 * random_below(&m->p.r, 14)
        : 1056 + 16 * random_below(&m->p.r, 2000);
}

/*
 * Large blocks, each between two of n, and seven more of n that fill their
 * cache list. What is then released or made shorter is joined with what was
 * joined before, with the top at times, and some of the others are fast.
 */
static void release_much(struct model *m)
{
    struct random *r = &m->p.r;
    uint32_t n = random_below(r, 121), filler[7], block[9], blocks = 0;
    uint32_t count = 1 + random_below(r, 4);

    for (uint32_t i = 0; i < 7; i++)
        filler[i] = model_grant(m, n);
    for (uint32_t i = 0; i < count; i++) {
        block[blocks++] = model_grant(m, n);
        block[blocks++] = model_grant(m, much(m) - 8);
    }
    block[blocks++] = model_grant(m, n);
    if (random_chance(r, 50))
        shorten_top(m);
    for (uint32_t i = 0; i < 7 && !group_failed(); i++)
        model_release(m, filler[i]);
    while (blocks > 0 && !group_failed()) {
        uint32_t drawn = random_below(r, blocks), mem = block[drawn];
        uint32_t usable = m->usable_at[mem / 16];
        if (usable > 0 && random_chance(r, 30)) {
            model_resize(m, mem, 1 + random_below(r, random_chance(r, 70)
                                                         ? 100 : usable));
        } else {
            model_release(m, mem);
            block[drawn] = block[--blocks];
        }
    }
}

/*
 * A small block behind a large free chunk, of which its resize takes the front
 * and then joins the block with what is left.
 */
static void move_out_of_much(struct model *m)
{
    struct random *r = &m->p.r;
    uint32_t n = 121 + random_below(r, 800), small = random_below(r, 121);
    uint32_t filler[7], fast[8];

    for (uint32_t i = 0; i < 7; i++)
        filler[i] = model_grant(m, n);
    for (uint32_t i = 0; i < 8; i++)
        fast[i] = model_grant(m, small);
    model_grant(m, 24);
    uint32_t large = model_grant(m, much(m) - 8);
    uint32_t block = model_grant(m, n);
    model_grant(m, 24);
    for (uint32_t i = 0; i < 7 && !group_failed(); i++)
        model_release(m, filler[i]);
    model_release(m, large);
    for (uint32_t i = 0; i < 8 && !group_failed(); i++)
        model_release(m, fast[i]);
    if (!group_failed())
        model_resize(m, block, n + 16 + random_below(r, 100));
}

void among_fast_chunks(uint32_t rounds)
{
    struct tally before = tally;

    group("releases of much, and resizes, with fast chunks about");
    for (uint64_t i = 1; i <= rounds && !group_failed(); i++) {
        struct random r = { (8 << 20) + i };
        uint32_t length = 65536 + 16 * random_below(&r, 12289);
        struct pair p = pair_new((8 << 20) + i, r, length);
        open_pair(&p);
        struct model m = model_of(p);
        if (random_chance(&m.p.r, 70))
            release_much(&m);
        else
            move_out_of_much(&m);
        if (!group_failed())
            empty_and_join(&m);
        model_free(&m);
    }
    tell_calls(&before);
}

void equal_sizes(uint32_t rounds)
{
    struct tally before = tally;

    group("many chunks of equal and of nearly equal sizes");
    for (uint64_t i = 1; i <= rounds && !group_failed(); i++) {
        struct model m = model_of(opened(80000 + i, 24576 + 16 * i % 32768));
        for (unsigned k = 0; k < 3 && !group_failed(); k++) {
            if (random_chance(&m.p.r, 75))
                equals(&m);
            else
                remainder_that_grows(&m);
            for (unsigned c = 0; c < 5 && !group_failed(); c++)
                random_call(&m);
        }
        model_free(&m);
    }
    tell_calls(&before);
}

/* ---- heaps that no sequence of calls made ---- */

void sound_heaps(const char *name, uint32_t most, uint32_t rounds)
{
    struct tally before = tally;

    group(name);
    for (uint64_t i = 1; i <= rounds && !group_failed(); i++) {
        uint64_t seed = ((uint64_t)most << 24) + i;
        struct random r = { seed };
        struct pair p = pair_new(seed, r, random_length(&r, most));
        random_heap(&p.r, p.ours.arena, (uint32_t)p.ours.length,
                    p.ours.record);
        same_start(&p);
        CHECK(is_sound(&p.ours), "seed %llu: a sound heap fails the audit",
              (unsigned long long)seed);
        if (group_failed())
            break;
        struct model m = model_of(p);
        hold_the_live(&m);
        if (i % 8 == 0)
            grants_in_a_row(&m);
        uint32_t calls = m.p.calls + 1 + random_below(&m.p.r, 6);
        while (m.p.calls < calls && !group_failed())
            random_call(&m);
        if (!group_failed() && i % 4 == 0)
            empty_and_join(&m);
        model_free(&m);
    }
    tell_calls(&before);
}

static uint64_t any_number(struct pair *p)
{
    switch (random_below(&p->r, 4)) {
    case 0: return extreme(random_below(&p->r, EXTREMES));
    case 1: return random_below(&p->r, (uint32_t)p->ours.length) & ~15u;
    case 2: return random_below(&p->r, 1100);
    default: return 0;
    }
}

void calls_on_any(struct pair *p, uint32_t calls)
{
    for (uint32_t i = 0; i < calls && !group_failed(); i++) {
        bool sound = both_audits(p).kind == SECOND_SOUND;
        uint32_t drawn = random_below(&p->r, 11);
        enum call call = drawn < 3 ? GRANT : drawn < 6 ? RELEASE
            : drawn < 9            ? RESIZE : drawn < 10 ? EMPTYING : JOINING;
        uint64_t number = any_number(p);
        uint64_t n = call == RESIZE ? any_number(p) : number;
        bool large = (call == GRANT || call == RESIZE) && n > 262144;
        if (sound && call == RESIZE)
            both_resize(p, number, n);
        else if (sound)
            both(p, call, number);
        else if (call == RESIZE)
            refused_resize(p, number, n, large ? 2 : 3);
        else
            refused(p, call, number, large ? 2 : 3);
    }
}

void harm_field(struct pair *p)
{
    random_heap(&p->r, p->ours.arena, (uint32_t)p->ours.length,
                p->ours.record);
    damage_field(&p->r, p->ours.arena, (uint32_t)p->ours.length,
                 p->ours.record);
}

void harm_bytes(struct pair *p)
{
    random_heap(&p->r, p->ours.arena, (uint32_t)p->ours.length,
                p->ours.record);
    damage_bytes(&p->r, p->ours.arena, (uint32_t)p->ours.length,
                 p->ours.record);
}

/* A field that is right when it is cut to 32 bits, and only then. */
void harm_high(struct pair *p)
{
    uint8_t *arena = p->ours.arena;
    random_heap(&p->r, arena, (uint32_t)p->ours.length, p->ours.record);
    plain_read(&view, arena, (uint32_t)p->ours.length, p->ours.record);
    uint32_t i = random_below(&p->r, view.tiles);
    while (i > 0 && view.tile[i].p && view.tile[i].state == PLAIN_LIVE)
        i--;
    const struct plain_tile *t = &view.tile[i];
    bool is_listed = t->state != PLAIN_LIVE && t->state != PLAIN_TOP;
    bool has_second = is_listed && t->state != PLAIN_FAST; /* key, back link */
    bool has_skips = t->state == PLAIN_BINNED && t->size >= PLAIN_LARGE_MIN;
    uint32_t field = !t->p ? 0
        : has_skips && random_chance(&p->r, 50)
        ? 32 + 8 * random_below(&p->r, 2)
        : has_second && random_chance(&p->r, 50) ? 24
        : is_listed && random_chance(&p->r, 80)  ? 16
                                                 : 8;
    uint64_t bit = (uint64_t)1 << (32 + random_below(&p->r, 32));
    plain_put(arena + t->at + field, 8,
              plain_get(arena + t->at + field, 8) ^ bit);
}

/* One cached chunk with another word than the key. */
void harm_key(struct pair *p)
{
    random_heap(&p->r, p->ours.arena, (uint32_t)p->ours.length,
                p->ours.record);
    damage_key(&p->r, p->ours.arena, p->ours.record);
}

/* One chunk with another skip link than its ring says. */
void harm_skip(struct pair *p)
{
    random_heap(&p->r, p->ours.arena, (uint32_t)p->ours.length,
                p->ours.record);
    damage_skip(&p->r, p->ours.arena, p->ours.record);
}

/* One cached or fast chunk with another link, mostly one mixed otherwise. */
void harm_link(struct pair *p)
{
    random_heap(&p->r, p->ours.arena, (uint32_t)p->ours.length,
                p->ours.record);
    damage_link(&p->r, p->ours.arena, p->ours.record);
}

/* A number that is no edition, or the other edition. */
void harm_edition(struct pair *p)
{
    random_heap(&p->r, p->ours.arena, (uint32_t)p->ours.length,
                p->ours.record);
    if (random_chance(&p->r, 50))
        damage_edition(&p->r, p->ours.record);
    else
        plain_put_edition(p->ours.record, 3 - plain_edition(p->ours.record));
}

/* Bytes that are no heap, but for what an audit looks at first. */
void harm_all(struct pair *p)
{
    random_bytes(&p->r, p->ours.arena, p->ours.length);
    random_bytes(&p->r, p->ours.record, p->ours.record_len);
    if (random_chance(&p->r, 90))
        plain_put_word(p->ours.record, 0, (uint32_t)p->ours.length);
    if (random_chance(&p->r, 90))
        plain_put_edition(p->ours.record, random_edition(&p->r));
    for (size_t at = 0; at < p->ours.length; at += 32)
        plain_put(p->ours.arena + at + 8, 8, 33);
    if (random_chance(&p->r, 50))
        plain_put_word(p->ours.record, 1, (uint32_t)p->ours.length - 32);
    for (unsigned word = 3; word < 393; word++)
        if (random_chance(&p->r, 98))
            plain_put_word(p->ours.record, word,
                           word >= 67 && word < 131 ? 0 : PLAIN_NONE32);
}

void harmed_heaps(const char *name, harm *do_harm, uint64_t seeds,
                  uint32_t most, uint32_t rounds)
{
    uint64_t before = tally.calls, kinds[7];

    group(name);
    memcpy(kinds, tally.faults, sizeof kinds);
    for (uint64_t i = 1; i <= rounds && !group_failed(); i++) {
        struct random r = { seeds + i };
        uint32_t length = random_chance(&r, 40)
            ? 4096 + 16 * random_below(&r, 512) : random_length(&r, most);
        struct pair p = pair_new(seeds + i, r, length);
        do_harm(&p);
        same_start(&p);
        calls_on_any(&p, 1 + random_below(&p.r, 3));
        pair_free(&p);
    }
    remark(", %llu calls; faults", (unsigned long long)(tally.calls - before));
    for (unsigned k = 1; k < 7; k++)
        remark(" %llu", (unsigned long long)(tally.faults[k] - kinds[k]));
}

/* Long enough for lists of several chunks, also in the large bins. */
static struct pair flawed(uint64_t seed, enum flaw flaw)
{
    struct random r = { seed };
    uint32_t length = 8192 + 16 * random_below(&r, 2048);
    struct pair p = pair_new(seed, r, length);
    flawed_heap(&p.r, flaw, p.ours.arena, length, p.ours.record);
    same_start(&p);
    return p;
}

void flawed_heaps(uint32_t rounds)
{
    /* The rules that a drawn heap seldom breaks are drawn more often. */
    static const enum flaw drawn[] = { FLAW_ORDER, FLAW_EIGHT, FLAW_ORDER,
                                       FLAW_EIGHT, FLAW_ORDER, FLAW_TOP,
                                       FLAW_HOME,  FLAW_NEIGHBOURS,
                                       FLAW_KEY,   FLAW_SKIP,  FLAW_MIX };
    uint64_t before = tally.calls, unsound[FLAW_COUNT] = { 0 };

    group("heaps that break one rule throughout");
    for (uint64_t i = 1; i <= rounds && !group_failed(); i++) {
        enum flaw flaw = drawn[i % 11];
        struct pair p = flawed((1 << 20) + i, flaw);
        unsound[flaw] += both_audits(&p).kind != SECOND_SOUND;
        calls_on_any(&p, 1 + random_below(&p.r, 3));
        pair_free(&p);
    }
    remark(", %llu calls; found, rule by rule:",
           (unsigned long long)(tally.calls - before));
    for (unsigned flaw = 1; flaw < FLAW_COUNT; flaw++) {
        remark(" %llu", (unsigned long long)unsound[flaw]);
        CHECK(unsound[flaw] >= 10, "rule %u was broken %llu times only", flaw,
              (unsigned long long)unsound[flaw]);
    }
}

/* Holders that overrun their blocks; by chance the heap stays sound. */
void overruns(uint32_t rounds)
{
    uint64_t still_sound = 0;

    group("overruns after random calls");
    for (uint64_t i = 1; i <= rounds && !group_failed(); i++) {
        uint64_t seed = 90000 + i;
        struct random r = { seed };
        struct pair p = pair_new(seed, r, 256 + 16 * random_below(&r, 500));
        open_pair(&p);
        struct model m = model_of(p);
        while (m.p.calls < 20 && !group_failed())
            random_call(&m);
        uint32_t length = (uint32_t)m.p.ours.length;
        uint32_t from = m.blocks == 0 ? 16 + random_below(&m.p.r, length - 16)
            : m.block[0].mem + m.block[0].usable;
        uint32_t bytes = 1 + random_below(&m.p.r, 24);
        put_both(&m.p, from, bytes < length - from ? bytes : length - from);
        still_sound += both_audits(&m.p).kind == SECOND_SOUND;
        calls_on_any(&m.p, 1 + random_below(&m.p.r, 3));
        model_free(&m);
    }
    remark(", %llu heaps stayed sound", (unsigned long long)still_sound);
}

/* ---- nothing outside the buffers ---- */

/* Also shows that neither buffer needs any alignment. */
void guards(uint32_t rounds)
{
    group("no byte outside the buffers is touched, at any alignment");
    for (uint64_t i = 1; i <= rounds && !group_failed(); i++) {
        uint64_t seed = 60000 + i;
        struct random r = { seed };
        uint32_t length = i % 8 == 0 ? 4096 * (uint32_t)(1 + i % 5)
                                     : random_length(&r, 16384);
        struct pair p = pair_new(seed, r, length);
        struct guarded arena = guard(length, i % 3 == 0 ? 0 : i % 17);
        struct guarded record = guard(1584, i % 2 == 0 ? 0 : i % 13);
        struct lent own = p.ours;
        p.ours.arena = arena.bytes;
        p.ours.record = record.bytes;
        if (i % 4 == 0) {
            open_pair(&p);
            struct model m = model_of(p);
            while (m.p.calls < 60 && !group_failed())
                random_call(&m);
            give_back(&m.before);
            free(m.block);
            free(m.usable_at);
        } else {
            (i % 4 == 1 ? harm_field : i % 4 == 2 ? harm_bytes : harm_all)(&p);
            same_start(&p);
            calls_on_any(&p, 3);
        }
        CHECK(guard_kept(&arena) && guard_kept(&record),
              "seed %llu: a byte outside a buffer was written",
              (unsigned long long)seed);
        guard_free(&arena);
        guard_free(&record);
        p.ours = own;
        pair_free(&p);
    }
}
