/*
 * Document 02, (ii): a bigger arena changes nothing. Two arenas of different
 * lengths are opened over different bytes with different keys, in any editions,
 * and get the same calls, none of them a resize, and the same bytes from the
 * holders. After each call the answers agree, the records but for length, key
 * and edition, and every byte that its holder has written since the grant, up
 * to a call that breaks a premise: a grant that finds the smaller arena's top
 * short in step 9, or a release that yields 65,536 or more in either arena. The
 * second program, which makes each call beside the archive, tells by its trace
 * whether one did. The sequence ends there, and what that call left shows
 * whether the premise was needed.
 */
#include "groups.h"

#include <stdio.h>
#include <stdlib.h>
#include <string.h>

#include "holders.h"
#include "plain.h"
#include "trace2.h"

#define CALLS_MOST 120
#define MUCH 65536u

struct two_arenas {
    struct pair smaller, larger; /* the smaller's random numbers serve both */
    struct held block[CALLS_MOST];
    uint32_t blocks;
    struct held recent[RECENT]; /* released lately */
    uint8_t *written; /* by offset: 1 if its holder wrote it since its grant */
    uint32_t palette[4];
    uint32_t grant_percent;
    bool modest; /* seldom asks for what the smaller arena's top cannot give */
    bool ended;  /* by a call that broke a premise */
};

/* What this file's groups did. */
static struct {
    uint64_t pairs, to_the_end, calls, written, unwritten;
    uint64_t tops, tops_differ, tops_helped;
    uint64_t yields, yields_in_larger, releases_differ, emptyings_differ;
    uint64_t reached[SECOND_PLACE_COUNT]; /* with the premises kept */
} seen;

/* For messages; good until it is asked again. */
static const char *where(const struct two_arenas *t)
{
    static char text[96];
    snprintf(text, sizeof text, "seed %llu, call %u, arenas of %zu and %zu",
             (unsigned long long)t->smaller.seed, t->smaller.calls,
             t->smaller.ours.length, t->larger.ours.length);
    return text;
}

static bool goes_on(const struct two_arenas *t)
{
    return !t->ended && !group_failed();
}

/* ---- what agrees ---- */

/* All but the length, which is the first word, and what is behind the words. */
static bool same_records(const struct two_arenas *t)
{
    return memcmp(t->smaller.ours.record + 4, t->larger.ours.record + 4,
                  4 * (PLAIN_WORDS - 1)) == 0;
}

/* What its holder has not written may differ. */
static void same_written(const struct two_arenas *t, struct held block)
{
    const uint8_t *s = t->smaller.ours.arena, *l = t->larger.ours.arena;
    uint32_t at = block.mem, end = block.mem + block.usable;

    for (; at < end && (s[at] == l[at] || t->written[at] == 0); at++) {
        seen.written += t->written[at];
        seen.unwritten += s[at] != l[at];
    }
    CHECK(at == end,
          "%s: byte %u, written by its holder, is 0x%02x in the smaller, "
          "0x%02x in the larger",
          where(t), at, s[at], l[at]);
}

/* ---- holders ---- */

/* The same bytes in both arenas of both programs. */
static void holder_writes(struct two_arenas *t, struct held block)
{
    struct random *r = &t->smaller.r;
    uint32_t from = random_chance(r, 60) ? 0 : random_below(r, block.usable);
    uint32_t most = block.usable - from;
    uint32_t length = most > 600 ? random_below(r, 600)
        : random_chance(r, 60)   ? most : random_below(r, most);
    uint32_t at = block.mem + from;

    put_both(&t->smaller, at, length);
    memcpy(t->larger.ours.arena + at, t->smaller.ours.arena + at, length);
    memcpy(t->larger.theirs.arena + at, t->smaller.ours.arena + at, length);
    memset(t->written + at, 1, length);
}

static void block_comes(struct two_arenas *t, uint32_t mem, uint32_t usable)
{
    uint32_t length = (uint32_t)t->smaller.ours.length;
    if (!CHECK(mem >= 16 && usable < length && mem <= length - usable,
               "%s: a block at %u with %u usable bytes", where(t), mem,
               usable))
        return;
    memset(t->written + mem, 0, usable);
    t->block[t->blocks++] = (struct held){ mem, usable };
    if (random_chance(&t->smaller.r, 70))
        holder_writes(t, t->block[t->blocks - 1]);
}

static void block_goes(struct two_arenas *t, uint64_t mem)
{
    uint32_t i = 0;
    while (i < t->blocks && t->block[i].mem != mem)
        i++;
    if (!CHECK(i < t->blocks, "%s: %llu, released, was not held", where(t),
               (unsigned long long)mem))
        return;
    memset(t->written + t->block[i].mem, 0, t->block[i].usable);
    t->recent[random_below(&t->smaller.r, RECENT)] = t->block[i];
    t->block[i] = t->block[--t->blocks];
}

/* ---- a call in both arenas ---- */

/* What a call did in one of them, by the second program's trace. */
struct did {
    struct second_answer answer;
    bool top_short;   /* a grant found the top so in step 9 */
    uint32_t yielded; /* the most that a release did */
};

static uint64_t tops_short(void)
{
    return second_trace.reached[STEP_9_AGAIN]
        + second_trace.reached[STEP_9_REFUSED];
}

static struct did call_in(struct pair *p, enum call call, uint64_t number)
{
    uint64_t before = tops_short();
    second_trace.most_yielded = 0;
    struct second_answer a = both(p, call, number);
    return (struct did){ a, tops_short() > before, second_trace.most_yielded };
}

/*
 * Up to where a premise breaks the two are alike: so what is short in the
 * larger is short in the smaller, and what yields much in the smaller does in
 * the larger.
 */
static bool premises_kept(const struct two_arenas *t, enum call call,
                          const struct did *s, const struct did *l)
{
    bool differ = !same_answer(s->answer, l->answer);

    CHECK(s->top_short || !l->top_short,
          "%s: the larger arena's top alone is short", where(t));
    CHECK(s->yielded < MUCH || l->yielded >= MUCH,
          "%s: a release yields %u in the smaller, %u in the larger", where(t),
          s->yielded, l->yielded);
    if (s->top_short) {
        seen.tops++;
        seen.tops_differ += differ;
        seen.tops_helped += differ && s->answer.no == 0;
        return false;
    }
    if (s->yielded >= MUCH || l->yielded >= MUCH) {
        differ = differ || !same_records(t);
        seen.yields++;
        seen.yields_in_larger += s->yielded < MUCH;
        seen.releases_differ += differ && call == RELEASE;
        seen.emptyings_differ += differ && call == EMPTYING;
        return false;
    }
    return true;
}

static void count_places(const struct second_trace *before)
{
    for (unsigned i = 0; i < SECOND_PLACE_COUNT; i++)
        seen.reached[i] += second_trace.reached[i] - before->reached[i];
}

/* Answers the mem, or 0. Once the sequence has ended, nothing is called. */
static uint32_t call_both(struct two_arenas *t, enum call call,
                          uint64_t number)
{
    if (!goes_on(t))
        return 0;
    struct second_trace before = second_trace;
    struct did s = call_in(&t->smaller, call, number);
    struct did l = call_in(&t->larger, call, number);
    struct second_answer a = s.answer;

    t->ended = !premises_kept(t, call, &s, &l);
    if (!goes_on(t))
        return 0;
    seen.calls++;
    count_places(&before);
    CHECK(same_answer(a, l.answer),
          "%s, %s %llu: answered %u %u %u in the smaller, %u %u %u in the "
          "larger",
          where(t), call_name[call], (unsigned long long)number, a.no, a.mem,
          a.usable, l.answer.no, l.answer.mem, l.answer.usable);
    CHECK(same_records(t), "%s, %s %llu: the records differ", where(t),
          call_name[call], (unsigned long long)number);
    if (a.no == 0 && call == GRANT)
        block_comes(t, a.mem, a.usable);
    else if (a.no == 0 && call == RELEASE && number != 0)
        block_goes(t, number);
    for (uint32_t i = 0; i < t->blocks && !group_failed(); i++)
        same_written(t, t->block[i]);
    return a.mem;
}

/* ---- random calls ---- */

static uint32_t smaller_top(const struct two_arenas *t)
{
    return (uint32_t)t->smaller.ours.length
        - plain_word(t->smaller.ours.record, 1);
}

/* As much as the smaller arena's top gives, or the least, if it gives none. */
static uint32_t most_of_top(const struct two_arenas *t)
{
    return smaller_top(t) < 64 ? 24 : smaller_top(t) - 40;
}

static uint64_t random_request(struct two_arenas *t)
{
    struct random *r = &t->smaller.r;
    uint32_t length = (uint32_t)t->smaller.ours.length;
    uint32_t recent = t->recent[random_below(r, RECENT)].usable;
    uint32_t less = 16 * random_below(r, 4);
    uint64_t any = extreme(random_below(r, EXTREMES));

    switch (random_below(r, 20)) {
    case 0: return any > 262144 ? any : random_below(r, length);
    case 1: return most_of_top(t) + random_below(r, 2);
    case 2: case 3: return random_below(r, length / 16 + 1);
    case 4: case 5: return random_below(r, 1100);
    case 6: return 980 + random_below(r, 80);
    case 7: case 8: case 9: case 10:
        return recent > less ? recent - less : recent;
    case 11: case 12: case 13: return random_below(r, 130);
    default: return t->palette[random_below(r, 4)];
    }
}

static uint64_t random_held(struct two_arenas *t)
{
    return t->blocks == 0
        ? 0 : t->block[random_below(&t->smaller.r, t->blocks)].mem;
}

/* Also what lies outside the smaller arena and inside the larger. */
static uint64_t random_wrong(struct two_arenas *t)
{
    struct random *r = &t->smaller.r;
    uint32_t near = random_below(r, (uint32_t)t->larger.ours.length + 64);

    switch (random_below(r, 6)) {
    case 0: case 1: return t->recent[random_below(r, RECENT)].mem;
    case 2: return near;
    case 3: return near & ~15u;
    case 4: return plain_word(t->smaller.ours.record, 1) + 16;
    default: return extreme(random_below(r, EXTREMES));
    }
}

static void random_grant(struct two_arenas *t)
{
    uint64_t n = random_request(t);
    bool may_be_short = n <= 262144 && smaller_top(t) < n + 64;

    if (may_be_short && t->modest && random_chance(&t->smaller.r, 90))
        call_both(t, RELEASE, random_held(t));
    else
        call_both(t, GRANT, n);
}

static void next_call(struct two_arenas *t)
{
    struct random *r = &t->smaller.r;
    uint32_t drawn = random_below(r, 100);

    if (drawn < 3)
        call_both(t, EMPTYING, 0);
    else if (drawn < 6)
        call_both(t, JOINING, 0);
    else if (drawn < 8)
        call_both(t, RELEASE, 0);
    else if (drawn < 14)
        call_both(t, RELEASE, random_wrong(t));
    else if (t->blocks == 0 || random_chance(r, t->grant_percent))
        random_grant(t);
    else
        call_both(t, RELEASE, random_held(t));
    if (goes_on(t) && t->blocks > 0 && random_chance(r, 80))
        holder_writes(t, t->block[random_below(r, t->blocks)]);
}

/* ---- what random calls seldom come to ---- */

/* Blocks below MUCH, and in the smaller arena a top of less than 24,000. */
static void fill(struct two_arenas *t)
{
    struct random *r = &t->smaller.r;
    while (goes_on(t) && smaller_top(t) >= 24000) {
        uint32_t most = most_of_top(t);
        call_both(t, GRANT, most < 65000 ? most - random_below(r, 20000)
                                         : 20000 + random_below(r, 45000));
    }
}

/* Chunks of one size, or of one large bin, side by side in every list. */
static void equals(struct two_arenas *t)
{
    struct random *r = &t->smaller.r;
    uint32_t n = random_chance(r, 50) ? 121 + random_below(r, 100)
                                      : 1001 + random_below(r, 200);
    uint32_t spread = random_chance(r, 50) ? 1 : 4, mem[18], count = 0;

    while (count < 18 && smaller_top(t) > 2 * n + 400) {
        mem[count++] = call_both(t, GRANT, n + 16 * random_below(r, spread));
        call_both(t, GRANT, 24);
    }
    for (uint32_t i = count; i > 0; i--) {
        uint32_t drawn = random_below(r, i);
        call_both(t, RELEASE, mem[drawn]);
        mem[drawn] = mem[i - 1];
    }
    for (uint32_t i = 0; i < 7 && n <= 1032; i++)
        call_both(t, GRANT, n);
    if (random_chance(r, 60))
        call_both(t, GRANT, most_of_top(t));
    for (uint32_t i = 7; i < count; i++)
        call_both(t, GRANT, n + 16 * random_below(r, spread));
}

/*
 * Groups of equals in a large bin, each chunk before a block that no cache list
 * owns; what its release joins leaves the ring.
 */
static void groups_of_equals(struct two_arenas *t)
{
    struct random *r = &t->smaller.r;
    uint32_t n = 1080 + 64 * random_below(r, 4), mem[10], behind[10];
    uint32_t count = 0;

    for (; count < 10 && smaller_top(t) > 6000; count++) {
        mem[count] = call_both(t, GRANT, n + 16 * random_below(r, 4));
        behind[count] = call_both(t, GRANT, 1400);
    }
    for (uint32_t i = 0; i < count; i++)
        call_both(t, RELEASE, mem[i]);
    if (count > 0)
        call_both(t, GRANT, 2000);
    for (uint32_t i = random_below(r, count + 1); i > 0; i--)
        call_both(t, RELEASE, behind[i - 1]);
}

/* The last remainder grows by a join while an equal of the request waits. */
static void remainder_that_grows(struct two_arenas *t)
{
    struct random *r = &t->smaller.r;
    uint32_t n = 121 + random_below(r, 100), mem[8];

    if (smaller_top(t) < 6000)
        return;
    for (uint32_t i = 0; i < 8; i++)
        mem[i] = call_both(t, GRANT, n);
    call_both(t, GRANT, 24);
    uint32_t split = call_both(t, GRANT, 1500 + random_below(r, 500));
    uint32_t behind = call_both(t, GRANT, 1100 + random_below(r, 500));
    call_both(t, GRANT, 24);
    call_both(t, RELEASE, split);
    for (uint32_t i = 0; i < 7; i++)
        call_both(t, RELEASE, mem[i]);
    call_both(t, GRANT, 540 + random_below(r, 200));
    call_both(t, RELEASE, mem[7]);
    call_both(t, RELEASE, behind);
    for (uint32_t i = 0; i < 8; i++)
        call_both(t, GRANT, n);
}

/* ---- two lengths ---- */

/* Both are multiples of 16, and so is the answer, which may be one of them. */
static uint32_t between(struct random *r, uint32_t from, uint32_t to)
{
    return from + 16 * random_below(r, (to - from) / 16 + 1);
}

static struct two_arenas two_opened(uint64_t seed, struct random r,
                                    uint32_t smaller, uint32_t larger)
{
    struct random other = { ~seed };
    struct two_arenas t = { .smaller = pair_new(seed, r, smaller),
                            .larger = pair_new(seed, other, larger) };

    uint64_t key = random_key(&other), another = random_key(&other);

    open_with(&t.smaller, key, random_edition(&other));
    open_with(&t.larger, key == another ? ~key : another,
              random_edition(&other));
    CHECK(same_records(&t), "%s: opened, the records differ", where(&t));
    t.written = memory(smaller);
    memset(t.written, 0, smaller);
    for (unsigned i = 0; i < 4; i++)
        t.palette[i] = random_below(
            &t.smaller.r,
            i < 2 ? 120 : smaller < 16384 ? 40 + smaller / 8 : 2000);
    t.grant_percent = 45 + random_below(&t.smaller.r, 20);
    t.modest = random_chance(&t.smaller.r, 75);
    seen.pairs++;
    return t;
}

/* Random calls up to that many in all, then both arenas are given back. */
static void to_the_end(struct two_arenas *t, uint32_t calls)
{
    while (goes_on(t) && t->smaller.calls < calls)
        next_call(t);
    seen.to_the_end += goes_on(t);
    pair_free(&t->smaller);
    pair_free(&t->larger);
    free(t->written);
}

static struct two_arenas two_drawn(uint64_t seed, uint32_t kind)
{
    struct random r = { seed };
    uint32_t smaller, larger;

    switch (kind) {
    case 0: case 1:
        smaller = between(&r, 32, 1008);
        larger = between(&r, smaller + 16, 1024);
        break;
    case 2: case 3: case 4:
        smaller = between(&r, 32, 8192);
        larger = between(&r, smaller + 16, 65520);
        break;
    case 5: case 6:
        smaller = random_length(&r, 262128);
        larger = smaller + 16;
        break;
    default:
        smaller = between(&r, 32, 262128);
        larger = between(&r, smaller + 16, 262144);
    }
    return two_opened(seed, r, smaller, larger);
}

void bigger_arenas(uint32_t rounds)
{
    group("the same calls in a smaller and a larger arena");
    for (uint64_t i = 1; i <= rounds && !group_failed(); i++) {
        struct two_arenas t = two_drawn((9 << 20) + i, i % 8);
        uint32_t drawn = random_below(&t.smaller.r, 10);
        if (drawn < 5)
            fill(&t);
        else if (drawn < 6)
            equals(&t);
        else if (drawn < 7)
            remainder_that_grows(&t);
        else if (drawn < 8)
            groups_of_equals(&t);
        to_the_end(&t, 20 + random_below(&t.smaller.r, CALLS_MOST - 20));
    }
}

/*
 * A full cache list, fast chunks of its size, and a block beside the top. What
 * its release yields, or after that the emptying, is 65,536 or close to it in
 * the larger arena, and less in the smaller, often far less.
 */
static void release_beside_the_top(uint64_t seed)
{
    struct random r = { seed };
    uint32_t size = between(&r, 32, 128), count = 8 + random_below(&r, 4);
    uint32_t beside = random_chance(&r, 50) ? between(&r, 144, 1040)
                                            : between(&r, 1056, 4096);
    uint32_t in_larger = between(&r, MUCH - 48, MUCH + 48);
    uint32_t in_smaller = random_chance(&r, 20)
        ? in_larger - 16 : beside + between(&r, 32, 2048);
    struct two_arenas t = two_opened(seed, r, count * size + in_smaller,
                                     count * size + in_larger);
    uint32_t mem[11];

    for (uint32_t i = 0; i < count; i++)
        mem[i] = call_both(&t, GRANT, size - 8);
    uint32_t last = call_both(&t, GRANT, beside - 8);
    for (uint32_t i = 0; i < count; i++)
        call_both(&t, RELEASE, mem[i]);
    call_both(&t, RELEASE, last);
    call_both(&t, EMPTYING, 0);
    to_the_end(&t, 40);
}

void yields_with_the_top(uint32_t rounds)
{
    group("releases beside the top that yield 65,536 in the larger alone");
    for (uint64_t i = 1; i <= rounds && !group_failed(); i++)
        release_beside_the_top((10 << 20) + i);
}

/* ---- what it comes to ---- */

/* Resizes are none of these calls. */
static void places_reached(void)
{
#define PLACE_TEXT(place, text) text,
    static const char *const text[] = { SECOND_PLACES(PLACE_TEXT) };
#undef PLACE_TEXT

    for (unsigned i = 0; i < RESIZE_STAYS; i++) {
        bool breaks = i == STEP_9_AGAIN || i == STEP_9_REFUSED
            || i == JOIN_CONSOLIDATES || i == EMPTYING_CONSOLIDATES;
        CHECK(breaks ? seen.reached[i] == 0 : seen.reached[i] >= 10,
              "reached %llu times with the premises kept: %s",
              (unsigned long long)seen.reached[i], text[i]);
    }
}

void premises_needed(void)
{
    const struct {
        uint64_t count, least;
        const char *what;
    } figure[] = {
        { seen.pairs, 2000, "pairs of lengths" },
        { seen.to_the_end, 1000, "to their end" },
        { seen.calls, 100000, "calls" },
        { seen.written, 10000000, "written bytes" },
        { seen.unwritten, 10000, "unwritten that differ" },
        { seen.tops, 1000, "ended by a short top" },
        { seen.tops_differ, 500, "with another answer" },
        { seen.tops_helped, 10, "after consolidating" },
        { seen.yields, 400, "ended by a yield of 65,536" },
        { seen.yields_in_larger, 200, "in the larger alone" },
        { seen.releases_differ, 100, "with another record after a release" },
        { seen.emptyings_differ, 100, "after an emptying" }
    };

    group("a bigger arena's premises hold for long, and each is needed");
    for (unsigned i = 0; i < sizeof figure / sizeof figure[0]; i++) {
        CHECK(figure[i].count >= figure[i].least, "only %llu %s",
              (unsigned long long)figure[i].count, figure[i].what);
        remark(", %llu %s", (unsigned long long)figure[i].count,
               figure[i].what);
    }
    places_reached();
}
