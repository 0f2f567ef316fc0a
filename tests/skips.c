/*
 * Document 02, (x): skip links. Where they stand and where none do, read off
 * the archive's bytes; a wrong one, which names its bin, and rings that are
 * wrong throughout; and that calls keep them as the lists and sizes tell.
 */
#include "groups.h"

#include <string.h>

#include "holders.h"
#include "plain.h"

/* ---- where they stand ---- */

/*
 * Four large chunks, each between two of 32: 32, 1552, 3104 and 4624, of 1,488,
 * 1,520, 1,488 and 1,472 bytes, which bin 71 owns.
 */
#define FOUR "G24 G1480 G24 G1512 G24 G1480 G24 G1464 G24 "
#define SORT "G20000 "
#define RING FOUR "R48 R1568 R3120 R4640 " SORT /* 1552, 32, 3104, 4624 */
#define ONE FOUR "R48 " SORT

#define EIGHT_1008 "G1000 G24 G1000 G24 G1000 G24 G1000 G24 G1000 G24 G1000 " \
    "G24 G1000 G24 G1000 G24 R16 R1056 R2096 R3136 R4176 R5216 R6256 R7296"
#define EIGHT_1024 "G1016 G24 G1016 G24 G1016 G24 G1016 G24 G1016 G24 G1016 " \
    "G24 G1016 G24 G1016 G24 R16 R1072 R2128 R3184 R4240 R5296 R6352 R7408"
#define SIX_CACHED "6G200 G24 R16 R224 R432 R640 R848 R1056 "

#define NO_SKIPS PLAIN_NONE64, PLAIN_NONE64
#define AS_OPENED 1, 1 /* no offset is 1: what stood there before the open */

static const struct {
    const char *what;
    uint32_t length;
    const char *script; /* as run has them */
    uint32_t c;
    uint64_t forward, back;
} place[] = {
    { "a released chunk, in unsorted", 8192, FOUR "R48", 32, NO_SKIPS },
    { "the only one of its bin", 8192, ONE, 32, 32, 32 },
    { "the largest of three groups", 8192, RING, 1552, 32, 4624 },
    { "the first between", 8192, RING, 32, 4624, 1552 },
    { "the smallest", 8192, RING, 4624, 1552, 32 },
    { "the second of a group", 8192, RING, 3104, NO_SKIPS },
    { "the second, taken by step 6", 8192, RING "G1480", 3104, NO_SKIPS },
    { "its first then", 8192, RING "G1480", 32, 4624, 1552 },
    { "alone in its group, taken by step 6", 8192, RING "G1464", 4624, 1552,
      32 },
    { "the largest, when the smallest left", 8192, RING "G1464", 1552, 32, 32 },
    { "the other one then", 8192, RING "G1464", 32, 1552, 1552 },
    { "the last of a bin, taken by step 7", 8192, RING "G200", 4624, 1552, 32 },
    { "the rest of it", 8192, RING "G200", 4832, NO_SKIPS },
    { "a first that a resize takes in", 8192, RING "Z16,1512", 32, 4624, 1552 },
    { "the equal behind it", 8192, RING "Z16,1512", 3104, 4624, 1552 },
    { "the larger first then", 8192, RING "Z16,1512", 1552, 3104, 4624 },
    { "the smaller first then", 8192, RING "Z16,1512", 4624, 1552, 3104 },
    { "the equal behind the only first", 8192,
      FOUR "R48 R3120 " SORT "Z16,1512", 3104, 3104, 3104 },
    { "the only first", 8192, FOUR "R48 R3120 " SORT "Z16,1512", 32, 32, 32 },
    { "the only one of its bin, granted", 8192, ONE "G1480", 32, 32, 32 },
    { "and released again", 8192, ONE "G1480 R48", 32, NO_SKIPS },
    { "the rest of 1,280 of step 7", 8192, ONE "G200", 240, NO_SKIPS },
    { "the rest of 1,072 that step 5 leaves", 8192, ONE "2G200", 448,
      NO_SKIPS },
    { "the rest of 864 that step 5 leaves", 8192, ONE "3G200", 656, AS_OPENED },
    { "the rest of a resize", 8192, "G1512 G24 Z16,24", 32, NO_SKIPS },
    { "the old place of a moved block", 8192, "G1112 G24 Z16,1500", 0,
      NO_SKIPS },
    { "the eighth of 1,024", 16384, EIGHT_1024, 7392, NO_SKIPS },
    { "the eighth of 1,024, sorted", 16384, EIGHT_1024 " " SORT, 7392, 7392,
      7392 },
    { "a cached one of 1,024", 16384, EIGHT_1024, 0, AS_OPENED },
    { "the eighth of 1,008", 16384, EIGHT_1008, 7280, AS_OPENED },
    { "the eighth of 1,008, sorted", 16384, EIGHT_1008 " " SORT, 7280,
      AS_OPENED },
    { "a large one that becomes top", 8192, "G1496 R16", 0, AS_OPENED },
    { "an emptying that joins 1,248", 4096, SIX_CACHED "E", 0, NO_SKIPS },
    { "and was at 1,040 before", 4096, SIX_CACHED "E", 208, NO_SKIPS },
    { "and at 832", 4096, SIX_CACHED "E", 416, AS_OPENED },
    { "a fast chunk that a joining joins with one of a ring", 8192,
      "8G24 G1496 G24 R272 " SORT "R16 R48 R80 R112 R144 R176 R208 R240 J",
      224, NO_SKIPS },
    { "that one, inside the whole", 8192,
      "8G24 G1496 G24 R272 " SORT "R16 R48 R80 R112 R144 R176 R208 R240 J",
      256, 256, 256 }
};

static uint64_t skip_at(const struct lent *l, uint32_t c, unsigned word)
{
    return plain_get(l->arena + c + 32 + 8 * word, 8);
}

static void skip_place(unsigned i)
{
    struct random r = { 950 + i };
    struct pair p = pair_new(950 + i, r, place[i].length);
    uint32_t c = place[i].c;
    uint64_t expected[2] = { place[i].forward, place[i].back };

    open_pair(&p);
    for (unsigned word = 0; word < 2; word++)
        if (expected[word] == 1)
            expected[word] = skip_at(&p.ours, c, word);
    run(&p, place[i].script);
    for (unsigned word = 0; word < 2; word++)
        CHECK(skip_at(&p.ours, c, word) == expected[word],
              "%s: the %s skip link of chunk %u is 0x%llx, not 0x%llx",
              place[i].what, word == 0 ? "forward" : "back", c,
              (unsigned long long)skip_at(&p.ours, c, word),
              (unsigned long long)expected[word]);
    CHECK(is_sound(&p.ours), "%s: the heap is not sound", place[i].what);
    pair_free(&p);
}

void skip_places(void)
{
    group("where skip links stand, and where none do");
    for (unsigned i = 0; i < sizeof place / sizeof place[0]; i++)
        skip_place(i);
}

/* ---- a wrong one ---- */

/* Exactly its bin, by both audits; the second program's older rules pass it. */
void wrong_skips(uint32_t rounds)
{
    uint64_t bins[127] = { 0 };
    unsigned met = 0;

    group("a wrong skip link in one chunk names its bin");
    for (uint64_t i = 1; i <= rounds && !group_failed(); i++) {
        struct random r = { (23 << 20) + i };
        uint32_t length = 8192 + 16 * random_below(&r, 1024);
        struct pair p = pair_new((23 << 20) + i, r, length);
        random_heap(&p.r, p.ours.arena, length, p.ours.record);
        unsigned bin = damage_skip(&p.r, p.ours.arena, p.ours.record);
        same_start(&p);
        struct second_fault f = both_audits(&p);
        CHECK(bin == 0 ? f.kind == SECOND_SOUND
                       : f.kind == SECOND_BIN && f.number == bin,
              "seed %llu: bin %u, and the audit says %u %u",
              (unsigned long long)p.seed, bin, f.kind, f.number);
        CHECK(plain_edition(p.theirs.record) == 2
                  || lent_audit_by(&p.theirs, 2).kind == SECOND_SOUND,
              "seed %llu: not sound by the rules of version 2",
              (unsigned long long)p.seed);
        bins[bin]++;
        calls_on_any(&p, 1 + random_below(&p.r, 3));
        pair_free(&p);
    }
    for (unsigned bin = 1; bin <= 126; bin++)
        met += bins[bin] > 0;
    remark(", %u bins, unsorted %llu times", met,
           (unsigned long long)bins[1]);
    CHECK(met >= 24 && bins[1] > 0, "only %u bins had a wrong skip link", met);
}

/* The bin that both audits name, or 0 for a sound heap. */
static void names_bin(struct pair *p, unsigned bin, const char *what)
{
    same_start(p);
    struct second_fault f = both_audits(p);
    CHECK(bin == 0 ? f.kind == SECOND_SOUND
                   : f.kind == SECOND_BIN && f.number == bin,
          "%s: the audit says %u %u, not bin %u", what, f.kind, f.number, bin);
    if (bin != 0)
        refused(p, GRANT, 24, 3);
}

/* Each bit of both words, and words that may be taken for the right one. */
static void wrong_words(struct pair *p, unsigned bin, uint32_t c)
{
    static const uint64_t other[] = { 0, 1, 16, 32, 1552, 3104, 4624, 6128,
                                      8192, PLAIN_NONE32, PLAIN_NONE64,
                                      ((uint64_t)1 << 32) + 32 };

    for (unsigned word = 32; word <= 40; word += 8) {
        uint8_t *at = p->ours.arena + c + word;
        uint64_t right = plain_get(at, 8);
        for (unsigned i = 0; i < sizeof other / sizeof other[0]; i++) {
            plain_put(at, 8, other[i]);
            names_bin(p, other[i] == right ? 0 : bin, "another word");
        }
        for (unsigned bit = 0; bit < 64; bit++) {
            plain_put(at, 8, right ^ ((uint64_t)1 << bit));
            names_bin(p, bin, "another bit");
        }
        plain_put(at, 8, right);
    }
    names_bin(p, 0, "all words right");
}

/* The ring of the chunks, each of which names the one behind it there. */
static void put_ring(struct pair *p, const uint32_t *chunk, unsigned count)
{
    for (unsigned i = 0; i < count; i++) {
        uint8_t *at = p->ours.arena + chunk[i];
        plain_put(at + 32, 8, chunk[(i + 1) % count]);
        plain_put(at + 40, 8, chunk[(i + count - 1) % count]);
    }
}

static const struct {
    const char *what;
    unsigned count;
    uint32_t chunk[4];
} ring[] = {
    { "a turned ring", 3, { 4624, 32, 1552 } },
    { "a ring without the smallest", 2, { 1552, 32 } },
    { "a ring without the largest", 2, { 32, 4624 } },
    { "a ring of the second of a group", 3, { 1552, 3104, 4624 } },
    { "a ring of all chunks", 4, { 1552, 32, 3104, 4624 } },
    { "a first that points to itself", 1, { 32 } },
    { "a member that points to itself", 1, { 3104 } }
};

void wrong_rings(void)
{
    static const uint32_t chunk[] = { 32, 1552, 3104, 4624 };
    struct pair p = opened(980, 8192);

    group("rings that are wrong, word by word and throughout");
    run(&p, RING);
    for (unsigned i = 0; i < 4; i++)
        wrong_words(&p, 71, chunk[i]);
    for (unsigned i = 0; i < sizeof ring / sizeof ring[0]; i++) {
        put_ring(&p, ring[i].chunk, ring[i].count);
        names_bin(&p, 71, ring[i].what);
        plain_put_skips(p.ours.arena, p.ours.record);
        names_bin(&p, 0, "the ring written anew");
    }
    pair_free(&p);

    p = opened(981, 8192); /* in unsorted */
    run(&p, FOUR "R48 R1568 R3120 R4640");
    for (unsigned i = 0; i < 4; i++)
        wrong_words(&p, 1, chunk[i]);
    pair_free(&p);
}

/* ---- calls keep them ---- */

static void told_by_lists(struct model *m)
{
    static uint8_t told[PLAIN_ARENA_MAX];
    const struct lent *l = &m->p.ours;

    memcpy(told, l->arena, l->length);
    plain_put_skips(told, l->record);
    CHECK(memcmp(told, l->arena, l->length) == 0,
          "seed %llu, call %u: a skip link is not what lists and sizes tell",
          (unsigned long long)m->p.seed, m->p.calls);
}

/*
 * Large blocks of one bin, each behind a short one, released in any order and
 * sorted now and then. Then the rings lose what grants take, and what a short
 * block takes in that grows.
 */
static void groups_of_equals(struct model *m, uint32_t n, uint32_t count)
{
    struct random *r = &m->p.r;
    uint32_t large[20], fence[20];

    for (uint32_t i = 0; i < count; i++) {
        fence[i] = model_grant(m, random_below(r, 25));
        large[i] = model_grant(m, n + 16 * random_below(r, 4));
    }
    model_grant(m, 24);
    for (uint32_t left = count; left > 0 && !group_failed(); left--) {
        uint32_t drawn = random_below(r, left);
        model_release(m, large[drawn]);
        large[drawn] = large[left - 1];
        if (random_chance(r, 30) || left == 1)
            model_grant(m, m->p.ours.length);
        told_by_lists(m);
    }
    for (uint32_t i = 0; i < 2 * count && !group_failed(); i++) {
        uint32_t mem = fence[random_below(r, count)];
        if (mem != 0 && m->usable_at[mem / 16] != 0 && random_chance(r, 60))
            model_resize(m, mem, 25 + random_below(r, n));
        else
            model_grant(m, n + 16 * random_below(r, 4));
        told_by_lists(m);
    }
}

void kept_rings(uint32_t rounds)
{
    uint64_t before = tally.calls;

    group("groups of equals in large bins, and what is left of their rings");
    for (uint64_t i = 1; i <= rounds && !group_failed(); i++) {
        struct random r = { (24 << 20) + i };
        uint32_t n = 1080 + 64 * random_below(&r, 20);
        uint32_t count = 3 + random_below(&r, 18);
        uint32_t length = count * (n + 144) + 32 * random_below(&r, 100);
        struct pair p = pair_new((24 << 20) + i, r, (length + 79) & ~15u);
        open_pair(&p);
        struct model m = model_of(p);
        groups_of_equals(&m, n, count);
        if (!group_failed())
            empty_and_join(&m);
        told_by_lists(&m);
        model_free(&m);
    }
    remark(", %llu calls", (unsigned long long)(tally.calls - before));
}
