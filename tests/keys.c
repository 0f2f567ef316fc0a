/*
 * Document 02, (viii): the key. Where it stands and where 0 does, read off the
 * archive's bytes; a wrong one, which names its list; and that no answer and no
 * byte of a holder depends on which one it is: twins with different keys.
 */
#include "groups.h"

#include <string.h>

#include "plain.h"
#include "twins.h"

/* ---- where it stands ---- */

/* What a trace leaves in a chunk's second word. */
enum second { THE_KEY, ZERO, AS_OPENED, A_LINK };

static const char *const second_name[] = { "the key", "0",
                                           "what stood there before the open",
                                           "a link" };

#define SEVEN_FREE "R16 R48 R80 R112 R144 R176 R208"
#define FENCED "G200 G24 "
#define TEN_FENCED FENCED FENCED FENCED FENCED FENCED FENCED FENCED FENCED \
    FENCED FENCED

static const struct {
    const char *what;
    uint32_t length;
    const char *script; /* as run has them */
    uint32_t c;
    enum second second;
    uint64_t link;
} place[] = {
    { "a released chunk, cached", 256, "G24 R16", 0, THE_KEY, 0 },
    { "taken by a grant", 256, "G24 R16 G0", 0, ZERO, 0 },
    { "taken by a resize of null", 256, "G24 R16 Z0,24", 0, ZERO, 0 },
    { "released by a resize to 0", 256, "G24 Z16,0", 0, THE_KEY, 0 },
    { "cached behind another", 256, "2G24 R16 R48", 0, THE_KEY, 0 },
    { "taken before another", 256, "2G24 R16 R48 G24", 0, THE_KEY, 0 },
    { "a chunk cut from the top", 256, "G24", 0, AS_OPENED, 0 },
    { "the eighth, on a fast list", 1024, "9G24 " SEVEN_FREE " R240", 224,
      AS_OPENED, 0 },
    { "step 2 grants it from there", 1024,
      "9G24 " SEVEN_FREE " R240 8G24", 224, AS_OPENED, 0 },
    { "step 2 caches the others", 1024,
      "10G24 " SEVEN_FREE " R240 R272 8G24", 224, THE_KEY, 0 },
    { "step 3 grants the last of its bin", 4096,
      TEN_FENCED "R16 R256 R496 R736 R976 R1216 R1456 R1696 R1936 R2176 "
      "G20000 8G200", 1680, A_LINK, 1920 },
    { "step 3 caches the others", 4096,
      TEN_FENCED "R16 R256 R496 R736 R976 R1216 R1456 R1696 R1936 R2176 "
      "G20000 8G200", 1920, THE_KEY, 0 },
    { "step 5 caches equals", 4096,
      TEN_FENCED "R16 R256 R496 R736 R976 R1216 R1456 R1696 R1936 R2176 "
      "8G200", 1920, THE_KEY, 0 },
    { "step 5 grants the one cached last", 4096,
      TEN_FENCED "R16 R256 R496 R736 R976 R1216 R1456 R1696 R1936 R2176 "
      "8G200", 2160, ZERO, 0 },
    { "the rest that a resize cuts off", 1024, "G200 G24 Z16,24", 32, THE_KEY,
      0 },
    { "the old place of a moved block", 1024, "G24 G24 Z16,100", 0, THE_KEY,
      0 },
    { "an emptying, to a fast list", 1024, "G24 G24 R16 E", 0, ZERO, 0 },
    { "an emptying, to unsorted", 1024, "G200 G24 R16 E", 0, A_LINK,
      PLAIN_NONE64 },
    { "an emptying, joined with the top", 1024, "G200 R16 E", 0, ZERO, 0 },
    { "an emptying, behind what it is joined with", 4096,
      "G1112 G200 G24 R16 R1136 E", 1120, ZERO, 0 },
    { "a joining takes nothing from the cache", 1024, "G200 G24 R16 J", 0,
      THE_KEY, 0 }
};

static void key_place(unsigned i, uint64_t key, uint32_t edition)
{
    struct random r = { 900 + i };
    struct pair p = pair_new(900 + i, r, place[i].length);

    open_with(&p, key, edition);
    uint64_t opened = second_word(&p.ours, place[i].c);
    run(&p, place[i].script);
    uint64_t now = second_word(&p.ours, place[i].c);
    uint64_t expected = place[i].second == THE_KEY ? key
        : place[i].second == ZERO                  ? 0
        : place[i].second == AS_OPENED             ? opened
                                                   : place[i].link;
    CHECK(now == expected,
          "%s, key 0x%016llx: the second word is 0x%016llx, not %s",
          place[i].what, (unsigned long long)key, (unsigned long long)now,
          second_name[place[i].second]);
    CHECK(plain_key(p.ours.record) == key, "%s: the record's key changed",
          place[i].what);
    pair_free(&p);
}

void key_places(void)
{
    static const uint64_t key[] = { 0x9d3f5b17e8c4620a, 0, UINT64_MAX, 32,
                                    0x00000000ffffffff, 0xffffffff00000000 };

    group("where the key stands, and where 0 does");
    for (unsigned i = 0; i < sizeof place / sizeof place[0]; i++)
        for (unsigned k = 0; k < sizeof key / sizeof key[0]; k++)
            key_place(i, key[k], 1 + k % 2);
}

/* ---- a wrong one ---- */

/* Exactly its list, whichever of the 64 that is. */
void wrong_keys(uint32_t rounds)
{
    uint64_t lists[64] = { 0 };
    unsigned met = 0;

    group("a wrong key in one cached chunk names its list");
    for (uint64_t i = 1; i <= rounds && !group_failed(); i++) {
        struct random r = { (16 << 20) + i };
        uint32_t length = 2048 + 16 * random_below(&r, 1024);
        struct pair p = pair_new((16 << 20) + i, r, length);
        random_heap(&p.r, p.ours.arena, length, p.ours.record);
        unsigned k = damage_key(&p.r, p.ours.arena, p.ours.record);
        same_start(&p);
        struct second_fault f = both_audits(&p);
        CHECK(k == 64 ? f.kind == SECOND_SOUND
                      : f.kind == SECOND_CACHE && f.number == k,
              "seed %llu: cache list %u, and the audit says %u %u",
              (unsigned long long)p.seed, k, f.kind, f.number);
        if (k < 64)
            lists[k]++;
        calls_on_any(&p, 1 + random_below(&p.r, 3));
        pair_free(&p);
    }
    for (unsigned k = 0; k < 64; k++)
        met += lists[k] > 0;
    remark(", %u of the 64 lists", met);
    CHECK(met >= 48, "only %u cache lists had a wrong key", met);
}

/* Opened again with another key: one with the old key is then wrong. */
void old_keys(uint32_t rounds)
{
    group("an arena opened again with another key, and an old one in it");
    for (uint64_t i = 1; i <= rounds && !group_failed(); i++) {
        struct pair p = opened((17 << 20) + i, 1024);
        uint64_t old = plain_key(p.ours.record);
        run(&p, "2G24 G200 R16 R48 R80");
        both_open(&p, ~old, 1 + i % 2);
        CHECK(is_sound(&p.ours) && second_word(&p.ours, 0) == old
                  && second_word(&p.ours, 32) == old,
              "seed %llu: an open wrote in old chunks, or asks them",
              (unsigned long long)p.seed);
        run(&p, "2G24 R16");
        CHECK(second_word(&p.ours, 0) == ~old
                  && second_word(&p.ours, 32) == old,
              "seed %llu: other keys than the new and the old one",
              (unsigned long long)p.seed);
        plain_put(p.ours.arena + 24, 8, old);
        same_start(&p);
        struct second_fault f = both_audits(&p);
        CHECK(f.kind == SECOND_CACHE && f.number == 0,
              "seed %llu: the old key in a cached chunk, and the audit says "
              "%u %u",
              (unsigned long long)p.seed, f.kind, f.number);
        refused(&p, GRANT, 24, 3);
        refused(&p, EMPTYING, 0, 3);
        pair_free(&p);
    }
}

/* ---- two keys ---- */

/*
 * Each has its own key in every cached chunk, and nothing else differs; how
 * many there are.
 */
static uint64_t keys_alone_differ(struct twins *t)
{
    static struct plain_view view;
    static uint8_t other[PLAIN_ARENA_MAX];
    const struct lent *a = &t->one.ours, *b = &t->other.ours;
    uint64_t keys = 0;

    memcpy(other, b->arena, b->length);
    plain_read(&view, a->arena, (uint32_t)a->length, a->record);
    for (uint32_t i = 0; i < view.tiles; i++) {
        uint32_t c = view.tile[i].at;
        if (view.tile[i].state != PLAIN_CACHED)
            continue;
        keys++;
        CHECK(second_word(a, c) == plain_key(a->record)
                  && second_word(b, c) == plain_key(b->record),
              "%s: the cached chunk %u has not the key", twins_where(t), c);
        memcpy(other + c + 24, a->arena + c + 24, 8);
    }
    CHECK(!t->alike || memcmp(other, a->arena, a->length) == 0,
          "%s: a byte differs that is no key", twins_where(t));
    return keys;
}

static uint64_t with_two_keys(uint64_t seed, struct twins_did *did)
{
    struct twins t = twins_new(seed, 16384);
    struct random *r = &t.one.r;
    uint64_t key = random_key(r), other = random_key(r), keys = 0;
    uint32_t edition = random_edition(r);

    twins_open(&t, (struct opening){ key, edition },
               (struct opening){ key == other ? ~key : other, edition });
    while (t.one.calls < TWIN_CALLS && !group_failed()) {
        twins_call(&t, did);
        if (!group_failed())
            keys += keys_alone_differ(&t);
    }
    did->pairs++;
    twins_free(&t);
    return keys;
}

void two_keys(uint32_t rounds)
{
    struct twins_did did = { 0 };
    uint64_t keys = 0;

    group("the same calls with two keys: answers, records, holders' bytes");
    for (uint64_t i = 1; i <= rounds && !group_failed(); i++)
        keys += with_two_keys((18 << 20) + i, &did);
    twins_tell(&did);
    remark(", %llu cached chunks", (unsigned long long)keys);
    CHECK(did.moved >= 1000 && keys >= 10000,
          "only %llu blocks moved, %llu chunks cached",
          (unsigned long long)did.moved, (unsigned long long)keys);
}
