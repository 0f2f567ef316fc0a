/*
 * The audit against the slow one of oracle.c, place included, by the rules of
 * today and by those of images of versions 1 to 3, on heaps of both editions;
 * and what the calls do on heaps that are not sound: answer 3 and write
 * nothing.
 */
#include <string.h>

#include "check.h"
#include "oracle.h"
#include "plain.h"
#include "random_heap.h"

#define NEWEST 4u /* of the versions; the audit goes by it */

/* Long enough for lists of several chunks. */
static uint32_t random_medium_length(struct random *r)
{
    return 8192 + 16 * random_below(r, 2048);
}

/* Few heaps are long: the oracle's cost grows with the square. */
static uint32_t random_test_length(struct random *r)
{
    if (random_chance(r, 20))
        return random_medium_length(r);
    return random_length(r, random_chance(r, 98) ? 16384 : PLAIN_ARENA_MAX);
}

static bool same_fault(struct second_fault a, struct second_fault b)
{
    return a.no == b.no && a.kind == b.kind && a.number == b.number;
}

static struct second_fault audit_by(struct lent *l, unsigned version,
                                    uint64_t seed)
{
    struct second_fault mine = lent_audit_by(l, version);
    struct second_fault slow =
        oracle_audit(l->arena, l->length, l->record, l->record_len, version);
    CHECK(same_fault(mine, slow),
          "seed %llu: audit of version %u says %u %u %u, the slow one %u %u %u",
          (unsigned long long)seed, version, mine.no, mine.kind, mine.number,
          slow.no, slow.kind, slow.number);
    return mine;
}

/* By older rules the slow one is asked of every fourth heap only. */
static struct second_fault audit_checked(struct lent *l, uint64_t seed)
{
    struct second_fault f = audit_by(l, NEWEST, seed);
    CHECK(same_fault(f, lent_audit(l)),
          "seed %llu: the audit is not that of version 4",
          (unsigned long long)seed);
    if (seed % 4 == 0)
        audit_by(l, 1 + seed / 4 % 3, seed);
    return f;
}

/*
 * By the rules of that version, in which the heap is first put if it is an
 * older one: all its stacks lead to their ends.
 */
static struct second_fault audit_as(struct lent *l, unsigned version,
                                    uint64_t seed)
{
    uint32_t edition = plain_edition(l->record);

    if (version < NEWEST)
        plain_to_edition(l->arena, l->record, 1);
    struct second_fault f = audit_by(l, version, seed);
    plain_to_edition(l->arena, l->record, edition);
    return f;
}

/* Below 4,080 a link is stored in edition 2 as it is. */
static bool is_mixed(const struct plain_tile *t)
{
    return t->at >= 4080
        && (t->state == PLAIN_CACHED || t->state == PLAIN_FAST);
}

static uint64_t mixed_links(const struct lent *l,
                            const struct plain_view *view)
{
    uint64_t count = 0;
    for (uint32_t i = 0; i < view->tiles; i++)
        count += plain_edition(l->record) == 2 && is_mixed(&view->tile[i]);
    return count;
}

static void sound_heaps(uint32_t rounds)
{
    uint64_t seen[4] = { 0 }, mixed = 0;

    group("random sound heaps pass the audit and the slow audit");
    for (uint64_t seed = 1; seed <= rounds && !group_failed(); seed++) {
        struct random r = { seed };
        struct lent l = lend(random_test_length(&r), 0);
        random_heap(&r, l.arena, (uint32_t)l.length, l.record);
        struct second_fault f = audit_checked(&l, seed);
        CHECK(f.no == 0 && f.kind == SECOND_SOUND,
              "seed %llu: a heap built sound has fault %u %u",
              (unsigned long long)seed, f.kind, f.number);
        static struct plain_view view;
        plain_read(&view, l.arena, (uint32_t)l.length, l.record);
        for (uint32_t i = 0; i < view.tiles; i++)
            if (view.tile[i].state != PLAIN_TOP)
                seen[view.tile[i].state]++;
        mixed += mixed_links(&l, &view);
        give_back(&l);
    }
    remark(", %llu live, %llu cached, %llu fast, %llu binned chunks, %llu "
           "links that are mixed",
           (unsigned long long)seen[PLAIN_LIVE],
           (unsigned long long)seen[PLAIN_CACHED],
           (unsigned long long)seen[PLAIN_FAST],
           (unsigned long long)seen[PLAIN_BINNED], (unsigned long long)mixed);
    CHECK(mixed > 0, "the generator never made a mixed link");
    for (unsigned i = 0; i < 4; i++)
        CHECK(seen[i] > 0, "the generator never made a chunk of state %u", i);
}

typedef void damage(struct random *, uint8_t *, uint32_t, uint8_t *);

static void damaged_heaps(const char *name, damage *harm, uint64_t seeds,
                          uint32_t rounds)
{
    uint64_t kinds[7] = { 0 };

    group(name);
    for (uint64_t i = 1; i <= rounds && !group_failed(); i++) {
        struct random r = { seeds + i };
        struct lent l = lend(random_test_length(&r), 0);
        random_heap(&r, l.arena, (uint32_t)l.length, l.record);
        harm(&r, l.arena, (uint32_t)l.length, l.record);
        kinds[audit_checked(&l, seeds + i).kind]++;
        give_back(&l);
    }
    for (unsigned k = 0; k < 7; k++) {
        remark("%s %u of kind %u", k == 0 ? ", found" : ",", (unsigned)kinds[k],
               k);
        CHECK(kinds[k] > 0, "no heap with a fault of kind %u was met", k);
    }
}

static bool names(struct second_fault f, enum second_kind kind, unsigned number)
{
    return f.no == 0 && f.kind == kind && f.number == number;
}

/* The lowest cache list that holds a chunk, or 64. */
static unsigned first_cached(const struct lent *l)
{
    unsigned k = 0;
    while (k < 64 && plain_word(l->record, plain_cache_count(k)) == 0)
        k++;
    return k;
}

/* The record's key is another than that of the cached chunks. */
static void with_an_old_key(struct random *r, struct lent *l, uint64_t seed)
{
    uint64_t key = plain_key(l->record);
    unsigned first = first_cached(l);

    plain_put_key(l->record, key ^ (1 + random_next(r) / 2));
    CHECK(first == 64 ? names(audit_by(l, NEWEST, seed), SECOND_SOUND, 0)
                      : names(audit_by(l, NEWEST, seed), SECOND_CACHE, first),
          "seed %llu: another key in the record does not name list %u",
          (unsigned long long)seed, first);
    CHECK(names(audit_as(l, 1, seed), SECOND_SOUND, 0),
          "seed %llu: the key is asked of version 1", (unsigned long long)seed);
    plain_put_key(l->record, key);
}

static void wrong_keys(uint32_t rounds)
{
    uint64_t lists[64] = { 0 }, sound = 0, seeds = 1u << 23;

    group("a wrong key in one cached chunk names its list, from version 2 on");
    for (uint64_t i = 1; i <= rounds && !group_failed(); i++) {
        struct random r = { seeds + i };
        struct lent l = lend(random_test_length(&r), 0);
        random_heap(&r, l.arena, (uint32_t)l.length, l.record);
        with_an_old_key(&r, &l, seeds + i);
        unsigned k = damage_key(&r, l.arena, l.record);
        if (k < 64) {
            lists[k]++;
            CHECK(names(audit_as(&l, 2 + i % 3, seeds + i), SECOND_CACHE, k),
                  "seed %llu: not the fault of cache list %u",
                  (unsigned long long)(seeds + i), k);
        } else {
            sound++;
        }
        CHECK(names(audit_as(&l, 1, seeds + i), SECOND_SOUND, 0),
              "seed %llu: a fault of version 1", (unsigned long long)i);
        give_back(&l);
    }
    remark(", %llu heaps without a cached chunk", (unsigned long long)sound);
    for (unsigned k = 0; k < 64; k++)
        CHECK(lists[k] > 0 || rounds < 10000, "cache list %u was never named",
              k);
}

/* Which of the three that hold skip links a chunk is. */
enum skipped { FIRST, MEMBER, IN_UNSORTED, SKIPPED };

/* Finds the one word in which the damaged heap is not the one before. */
static enum skipped damaged_one(const struct lent *l, const struct lent *before,
                                unsigned bin, unsigned *word)
{
    size_t at = 0;
    while (plain_get(l->arena + at, 8) == plain_get(before->arena + at, 8))
        at += 8;
    static struct plain_view view;
    plain_read(&view, before->arena, (uint32_t)before->length, before->record);
    uint32_t i = 0;
    while (view.tile[i].at + view.tile[i].size <= at)
        i++;
    *word = (unsigned)(at - view.tile[i].at);
    return bin == 1 ? IN_UNSORTED
        : plain_get(before->arena + view.tile[i].at + 32, 8) == PLAIN_NONE64
        ? MEMBER : FIRST;
}

/* Not a large heap: the slow audit would take too long for so many. */
static void wrong_skips(uint32_t rounds)
{
    uint64_t bins[127] = { 0 }, met[SKIPPED][2] = { { 0 } }, seeds = 1u << 24;
    unsigned named = 0;

    group("a wrong skip link in one chunk names its bin, from version 3 on");
    for (uint64_t i = 1; i <= rounds && !group_failed(); i++) {
        struct random r = { seeds + i };
        struct lent l = lend(random_medium_length(&r), 0);
        struct lent before = lend(l.length, 0);
        random_heap(&r, l.arena, (uint32_t)l.length, l.record);
        copy_lent(&before, &l);
        unsigned bin = damage_skip(&r, l.arena, l.record), word = 0;
        if (bin > 0) {
            enum skipped which = damaged_one(&l, &before, bin, &word);
            CHECK(word == 32 || word == 40, "seed %llu: word %u was changed",
                  (unsigned long long)(seeds + i), word);
            met[which][word / 8 % 2]++;
            bins[bin]++;
            CHECK(names(audit_as(&l, 3 + i % 2, seeds + i), SECOND_BIN, bin),
                  "seed %llu: not the fault of bin %u",
                  (unsigned long long)(seeds + i), bin);
        }
        CHECK(names(audit_as(&l, 1 + i % 2, seeds + i), SECOND_SOUND, 0),
              "seed %llu: a fault of an older version", (unsigned long long)i);
        give_back(&before);
        give_back(&l);
    }
    for (unsigned bin = 1; bin <= 126; bin++)
        named += bins[bin] > 0;
    remark(", forward and back link of %llu and %llu firsts, %llu and %llu "
           "others of a group, %llu and %llu in unsorted; %u bins",
           (unsigned long long)met[FIRST][0], (unsigned long long)met[FIRST][1],
           (unsigned long long)met[MEMBER][0],
           (unsigned long long)met[MEMBER][1],
           (unsigned long long)met[IN_UNSORTED][0],
           (unsigned long long)met[IN_UNSORTED][1], named);
    for (unsigned i = 0; i < 2 * SKIPPED; i++)
        CHECK(met[i / 2][i % 2] > 0, "kind %u of skip link was never wrong", i);
}

/* A fault of a bin before it comes first, one of a bin behind it does not. */
static void skips_in_order(uint32_t rounds)
{
    uint64_t seeds = 1u << 25, met = 0;

    group("wrong skip links in two chunks name the lower bin");
    for (uint64_t i = 1; i <= rounds && !group_failed(); i++) {
        struct random r = { seeds + i };
        struct lent l = lend(random_medium_length(&r), 0);
        random_heap(&r, l.arena, (uint32_t)l.length, l.record);
        unsigned one = damage_skip(&r, l.arena, l.record);
        unsigned other = damage_skip(&r, l.arena, l.record);
        struct second_fault f = audit_by(&l, NEWEST, seeds + i);
        if (one != other) {
            met++;
            CHECK(names(f, SECOND_BIN, one < other ? one : other),
                  "seed %llu: bins %u and %u, and the audit says %u %u",
                  (unsigned long long)(seeds + i), one, other, f.kind,
                  f.number);
        }
        give_back(&l);
    }
    remark(", %llu heaps", (unsigned long long)met);
    CHECK(met > rounds / 8, "only %llu heaps had two such bins",
          (unsigned long long)met);
}

/* In the audit's order, cache lists from 0 on, fast lists from 64 on. */
static bool names_stack(struct second_fault f, unsigned list)
{
    return list < 64 ? names(f, SECOND_CACHE, list)
                     : names(f, SECOND_FAST, list - 64);
}

/*
 * A fast list has no count: where a wrong link leads to its end, or further on
 * in it, nothing is wrong but what was behind.
 */
static void wrong_links(uint32_t rounds)
{
    uint64_t seeds = 1u << 27, met[2][2] = { { 0 } }, sound = 0;

    group("a link stored otherwise in one chunk of a stack names its list");
    for (uint64_t i = 1; i <= rounds && !group_failed(); i++) {
        struct random r = { seeds + i };
        struct lent l = lend(random_medium_length(&r), 0);
        random_heap(&r, l.arena, (uint32_t)l.length, l.record);
        unsigned list = damage_link(&r, l.arena, l.record);
        struct second_fault f = audit_by(&l, NEWEST, seeds + i);
        if (list >= 64 && list < 74 && f.kind == SECOND_SOUND) {
            sound++;
        } else if (list < 74) {
            met[plain_edition(l.record) - 1][list >= 64]++;
            CHECK(names_stack(f, list),
                  "seed %llu: list %u, and the audit says %u %u",
                  (unsigned long long)(seeds + i), list, f.kind, f.number);
        }
        give_back(&l);
    }
    remark(", cache and fast lists in edition 1: %llu, %llu, in edition 2: "
           "%llu, %llu; %llu heaps stayed sound",
           (unsigned long long)met[0][0], (unsigned long long)met[0][1],
           (unsigned long long)met[1][0], (unsigned long long)met[1][1],
           (unsigned long long)sound);
    for (unsigned i = 0; i < 4; i++)
        CHECK(met[i / 2][i % 2] > 0, "kind %u of link was never wrong", i);
    CHECK(sound < rounds / 20, "%llu heaps stayed sound",
          (unsigned long long)sound);
}

/* The first stack, in that order, that has a mixed link in edition 2; or 74. */
static unsigned first_mixed(const struct lent *l)
{
    uint32_t edition = plain_edition(l->record);
    for (unsigned i = 0; i < 74; i++) {
        uint32_t head = plain_word(l->record, i < 64 ? plain_cache_head(i)
                                                     : plain_fast_head(i - 64));
        uint64_t c = head == PLAIN_NONE32 ? PLAIN_NONE64 : head;
        for (; c != PLAIN_NONE64; c = plain_link(l->arena, edition, c))
            if (c >= 4080)
                return i;
    }
    return 74;
}

static void wrong_editions(uint32_t rounds)
{
    uint64_t seeds = 1u << 28, misread = 0, same = 0;

    group("a number that is no edition is a record fault, the other edition "
          "misreads mixed links");
    for (uint64_t i = 1; i <= rounds && !group_failed(); i++) {
        struct random r = { seeds + i };
        struct lent l = lend(i % 4 == 0 ? random_length(&r, 8192)
                                        : random_medium_length(&r), 0);
        random_heap(&r, l.arena, (uint32_t)l.length, l.record);
        uint32_t edition = plain_edition(l.record);
        unsigned list = first_mixed(&l);
        plain_put_edition(l.record, 3 - edition);
        struct second_fault f = audit_by(&l, NEWEST, seeds + i);
        CHECK(list == 74 ? f.kind == SECOND_SOUND : names_stack(f, list),
              "seed %llu: edition %u read as the other: %u %u",
              (unsigned long long)(seeds + i), edition, f.kind, f.number);
        *(list == 74 ? &same : &misread) += 1;
        damage_edition(&r, l.record);
        CHECK(names(audit_by(&l, NEWEST, seeds + i), SECOND_RECORD, 0),
              "seed %llu: no edition, and no fault of the record",
              (unsigned long long)(seeds + i));
        f = audit_by(&l, 1 + i % 3, seeds + i);
        CHECK(edition == 1 || list == 74 ? f.kind == SECOND_SOUND
                                         : names_stack(f, list),
              "seed %llu: edition %u by older rules: %u %u",
              (unsigned long long)(seeds + i), edition, f.kind, f.number);
        give_back(&l);
    }
    remark(", %llu misread, %llu without a mixed link",
           (unsigned long long)misread, (unsigned long long)same);
    CHECK(misread > 0 && same > 0, "one of the two was never met");
}

/* One rule broken in a heap that is otherwise in order. */
static void flawed_heaps(uint32_t rounds)
{
    uint64_t found[FLAW_COUNT] = { 0 }, seeds = 1u << 22;

    group("heaps that break one rule throughout: audit and slow audit agree");
    for (uint64_t i = 1; i <= rounds && !group_failed(); i++) {
        struct random r = { seeds + i };
        struct lent l = lend(random_medium_length(&r), 0);
        enum flaw flaw = 1 + random_below(&r, FLAW_COUNT - 1);
        flawed_heap(&r, flaw, l.arena, (uint32_t)l.length, l.record);
        found[flaw] += audit_checked(&l, seeds + i).kind != SECOND_SOUND;
        give_back(&l);
    }
    for (unsigned flaw = 1; flaw < FLAW_COUNT; flaw++) {
        remark("%s %u of flaw %u", flaw == 1 ? ", found" : ",",
               (unsigned)found[flaw], flaw);
        CHECK(found[flaw] > 0, "flaw %u was never found", flaw);
    }
}

static void expect_refused(struct lent *l, const struct lent *before,
                           struct second_answer a, uint32_t no,
                           const char *call, uint64_t seed)
{
    CHECK(a.no == no && a.mem == 0 && a.usable == 0,
          "seed %llu: %s answers %u %u %u, not %u 0 0",
          (unsigned long long)seed, call, a.no, a.mem, a.usable, no);
    CHECK(same_arena(l, before) && same_record(l, before),
          "seed %llu: %s refused with %u but wrote",
          (unsigned long long)seed, call, no);
}

static void try_calls(struct random *r, struct lent *l, struct lent *before,
                      uint64_t seed)
{
    uint64_t n = random_below(r, random_chance(r, 80) ? 2000 : 262145);
    uint64_t mem = 16 * (uint64_t)random_below(r, (uint32_t)l->length / 16 + 2);

    copy_lent(before, l);
    expect_refused(l, before, lent_grant(l, n), 3, "grant", seed);
    expect_refused(l, before, lent_grant(l, 262145 + n), 2, "grant", seed);
    expect_refused(l, before, lent_release(l, mem), 3, "release", seed);
    expect_refused(l, before, lent_release(l, 0), 3, "release of null", seed);
    expect_refused(l, before, lent_resize(l, mem, n), 3, "resize", seed);
    expect_refused(l, before, lent_resize(l, mem, 0), 3, "resize to 0", seed);
    expect_refused(l, before, lent_resize(l, 0, n), 3, "resize of null", seed);
    expect_refused(l, before, lent_resize(l, mem, 262145 + n), 2, "resize",
                   seed);
    expect_refused(l, before, lent_emptying(l), 3, "emptying", seed);
    expect_refused(l, before, lent_joining(l), 3, "joining", seed);
}

static void calls_on_unsound(uint32_t rounds)
{
    uint32_t unsound = 0;

    group("calls on unsound heaps answer 3 (a huge request 2), write nothing");
    for (uint64_t seed = 1; seed <= rounds && !group_failed(); seed++) {
        struct random r = { seed << 32 };
        struct lent l = lend(random_test_length(&r), 0);
        struct lent before = lend(l.length, 0);
        random_heap(&r, l.arena, (uint32_t)l.length, l.record);
        if (random_chance(&r, 70))
            damage_field(&r, l.arena, (uint32_t)l.length, l.record);
        else
            damage_bytes(&r, l.arena, (uint32_t)l.length, l.record);
        if (!lent_sound(&l)) {
            unsound++;
            try_calls(&r, &l, &before, seed);
        }
        give_back(&before);
        give_back(&l);
    }
    remark(", %u unsound heaps", unsound);
    CHECK(unsound > rounds / 4, "only %u heaps of %u were unsound", unsound,
          rounds);
}

/* Bytes that hold no heap at all, in every shape a caller could pass. */
static void any_bytes(uint32_t rounds)
{
    group("any bytes of any length are taken, and shape comes first");
    for (uint64_t seed = 1; seed <= rounds && !group_failed(); seed++) {
        struct random r = { ~seed };
        struct lent l = lend(random_below(&r, 300), 0);
        struct lent before = lend(l.length, 0);
        random_bytes(&r, l.arena, l.length);
        random_bytes(&r, l.record, l.record_len);
        if (random_chance(&r, 50))
            l.record_len = random_chance(&r, 10)
                ? 1572 + 8 * random_below(&r, 2)
                : random_below(&r, PLAIN_RECORD_BYTES + 1);
        bool shaped = l.length >= 32 && l.length % 16 == 0
            && l.record_len == PLAIN_RECORD_BYTES;
        if (shaped && random_chance(&r, 70))
            plain_put_word(l.record, 0, (uint32_t)l.length);
        if (random_chance(&r, 80))
            plain_put_edition(l.record, random_edition(&r));
        struct second_fault f = audit_checked(&l, seed);
        CHECK((f.no == 1) == !shaped, "seed %llu: shape judged %u",
              (unsigned long long)seed, f.no);
        if (f.no == 1) {
            copy_lent(&before, &l);
            expect_refused(&l, &before, lent_grant(&l, 262145), 1, "grant",
                           seed);
            expect_refused(&l, &before, lent_release(&l, 0), 1, "release",
                           seed);
            expect_refused(&l, &before, lent_resize(&l, 0, 262145), 1,
                           "resize", seed);
            expect_refused(&l, &before, lent_emptying(&l), 1, "emptying",
                           seed);
            expect_refused(&l, &before, lent_joining(&l), 1, "joining", seed);
        } else if (f.kind != SECOND_SOUND) {
            try_calls(&r, &l, &before, seed);
        }
        give_back(&before);
        give_back(&l);
    }
}

int main(int argc, char **argv)
{
    uint32_t share = share_of(argc, argv);

    sound_heaps(40000 / share);
    damaged_heaps("heaps with one flaw: audit and slow audit agree",
                  damage_field, 1u << 20, 100000 / share);
    damaged_heaps("heaps with random bytes: audit and slow audit agree",
                  damage_bytes, 1u << 21, 50000 / share);
    flawed_heaps(20000 / share);
    wrong_keys(12000 / share);
    wrong_skips(12000 / share);
    skips_in_order(3000 / share);
    wrong_links(6000 / share);
    wrong_editions(6000 / share);
    calls_on_unsound(40000 / share);
    any_bytes(40000 / share);
    return finish();
}
