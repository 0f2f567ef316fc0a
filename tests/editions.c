/*
 * Document 02, (xi): the edition. Where a link is mixed, and with what, read
 * off the archive's bytes; a wrong one, which names its list; a number that is
 * no edition, which names the record; and that no answer, no list and no byte
 * of a holder depends on which edition it is: twins in both of them.
 */
#include "groups.h"

#include "plain.h"
#include "twins.h"

/* ---- where links are mixed ---- */

#define SEVEN_OF_8160 "R8176 R8208 R8240 R8272 R8304 R8336 R8368"
#define ROW "G8152 12G24 "
#define ROW_FREE SEVEN_OF_8160 " R8400 R8432 R8464 R8496 R8528"

/* The word at c + 16, as edition 1 and as edition 2 store it. */
static const struct {
    const char *what;
    uint32_t length;
    const char *script; /* as run has them */
    uint32_t c;
    uint64_t plain, mixed;
} place[] = {
    { "the end mark at 16", 8192, "G24 R16", 0, PLAIN_NONE64, PLAIN_NONE64 },
    { "the end mark at 4,080", 8192, "G4056 G24 R4080", 4064, PLAIN_NONE64,
      PLAIN_NONE64 },
    { "the end mark at 4,096", 8192, "G4072 G24 R4096", 4080, PLAIN_NONE64,
      PLAIN_NONE64 - 1 },
    { "the end mark at 8,192", 16384, "G8168 G24 R8192", 8176, PLAIN_NONE64,
      PLAIN_NONE64 - 2 },
    { "the end mark at 258,032", 262144, "G258008 G24 R258032", 258016,
      PLAIN_NONE64, PLAIN_NONE64 - 62 },
    { "the end mark at 258,048", 262144, "G258024 G24 R258048", 258032,
      PLAIN_NONE64, PLAIN_NONE64 - 63 },
    { "the end mark at 262,096", 262144, "G262072 G24 R262096", 262080,
      PLAIN_NONE64, PLAIN_NONE64 - 63 },
    { "a link at 4,128 to 4,080", 8192, "G4072 2G24 R4096 R4128", 4112, 4080,
      4081 },
    { "a link at 4,080 to 4,096", 8192, "G4056 2G24 R4112 R4080", 4064, 4096,
      4096 },
    { "a link at 8,176 to 8,192", 16384, "G8152 2G24 R8208 R8176", 8160, 8192,
      8193 },
    { "a link at 8,208 to 8,160", 16384, "G8152 2G24 R8176 R8208", 8192, 8160,
      8162 },
    { "on a fast list, the end mark", 16384, ROW ROW_FREE, 8384, PLAIN_NONE64,
      PLAIN_NONE64 - 2 },
    { "on a fast list, a link", 16384, ROW ROW_FREE, 8512, 8480, 8482 },
    { "taken by a grant: as it was stored", 16384, ROW ROW_FREE " G24", 8352,
      8320, 8322 },
    { "step 2 grants it: as it was stored", 16384, ROW ROW_FREE " 8G24", 8512,
      8480, 8482 },
    { "step 2 caches the others", 16384, ROW ROW_FREE " 8G24", 8384, 8416,
      8418 },
    { "an emptying, to a fast list", 16384, ROW SEVEN_OF_8160 " E", 8160, 8192,
      8193 },
    { "an emptying, to unsorted: plain", 16384,
      "G8152 G200 G24 R8176 E", 8160, PLAIN_NONE64, PLAIN_NONE64 },
    { "a joining, to unsorted: plain", 16384,
      "G8152 9G24 " SEVEN_OF_8160 " R8400 J", 8384, PLAIN_NONE64,
      PLAIN_NONE64 },
    { "a bin's link: plain", 16384, "G8152 G1112 G24 G1112 G24 R8176 R9328",
      9312, 8160, 8160 },
    { "the rest that a resize cuts off", 16384, "G8152 G200 G24 Z8176,24", 8192,
      PLAIN_NONE64, PLAIN_NONE64 - 2 },
    { "the old place of a moved block", 16384, "G8152 G24 G24 Z8176,100", 8160,
      PLAIN_NONE64, PLAIN_NONE64 - 1 }
};

static void link_place(unsigned i, uint32_t edition)
{
    struct random r = { 2000 + i };
    struct pair p = pair_new(2000 + i, r, place[i].length);

    open_with(&p, random_key(&p.r), edition);
    run(&p, place[i].script);
    uint64_t now = plain_get(p.ours.arena + place[i].c + 16, 8);
    CHECK(now == (edition == 1 ? place[i].plain : place[i].mixed),
          "%s, edition %u: the word at %u is 0x%llx", place[i].what, edition,
          place[i].c + 16, (unsigned long long)now);
    CHECK(is_sound(&p.ours) && plain_edition(p.ours.record) == edition,
          "%s: not sound, or the record's edition changed", place[i].what);
    pair_free(&p);
}

void link_places(void)
{
    group("where the links of cache and fast lists are mixed, and with what");
    for (unsigned i = 0; i < sizeof place / sizeof place[0]; i++)
        for (uint32_t edition = 1; edition <= 2; edition++)
            link_place(i, edition);
}

/* ---- a wrong one ---- */

static bool names_stack(struct second_fault f, unsigned list)
{
    return f.kind == (list < 64 ? SECOND_CACHE : SECOND_FAST)
        && f.number == (list < 64 ? list : list - 64);
}

/*
 * Exactly its list. A fast list has no count: where a wrong link leads to its
 * end, or further on in it, the heap may stay sound.
 */
void wrong_links(uint32_t rounds)
{
    uint64_t met[2][2] = { { 0 } }, sound = 0;

    group("a link stored otherwise in one chunk names its list");
    for (uint64_t i = 1; i <= rounds && !group_failed(); i++) {
        struct random r = { (26 << 20) + i };
        uint32_t length = 8192 + 16 * random_below(&r, 2048);
        struct pair p = pair_new((26 << 20) + i, r, length);
        random_heap(&p.r, p.ours.arena, length, p.ours.record);
        unsigned list = damage_link(&p.r, p.ours.arena, p.ours.record);
        same_start(&p);
        struct second_fault f = both_audits(&p);
        bool still = list >= 64 && f.kind == SECOND_SOUND;
        CHECK(still || names_stack(f, list),
              "seed %llu: list %u, and the audit says %u %u",
              (unsigned long long)p.seed, list, f.kind, f.number);
        if (!still)
            met[plain_edition(p.ours.record) - 1][list >= 64]++;
        sound += still && list < 74;
        calls_on_any(&p, 1 + random_below(&p.r, 3));
        pair_free(&p);
    }
    remark(", cache and fast lists in edition 1: %llu, %llu, in edition 2: "
           "%llu, %llu; %llu heaps stayed sound",
           (unsigned long long)met[0][0], (unsigned long long)met[0][1],
           (unsigned long long)met[1][0], (unsigned long long)met[1][1],
           (unsigned long long)sound);
    for (unsigned i = 0; i < 4; i++)
        CHECK(met[i / 2][i % 2] >= 50, "kind %u of link was wrong %llu times",
              i, (unsigned long long)met[i / 2][i % 2]);
}

/* The list that both audits name; 74: none, the heap is sound. */
static void names_list(struct pair *p, unsigned list, const char *what)
{
    same_start(p);
    struct second_fault f = both_audits(p);
    CHECK(list == 74 ? f.kind == SECOND_SOUND : names_stack(f, list),
          "%s: the audit says %u %u, not list %u", what, f.kind, f.number,
          list);
    if (list < 74)
        refused(p, GRANT, 24, 3);
}

/* Each bit, and what other ways of mixing would store. */
static void wrong_words(struct pair *p, uint32_t c, unsigned list)
{
    uint8_t *at = p->ours.arena + c + 16;
    uint64_t right = plain_get(at, 8);
    uint64_t to = plain_link(p->ours.arena, plain_edition(p->ours.record), c);
    uint64_t other[] = { to, to ^ c / 4096, to ^ (c + 16) / 4096,
                         to ^ (c + 24) / 4096, to ^ (c + 16), 0, PLAIN_NONE32,
                         PLAIN_NONE64 };

    for (unsigned bit = 0; bit < 64; bit++) {
        plain_put(at, 8, right ^ ((uint64_t)1 << bit));
        names_list(p, list, "another bit");
    }
    for (unsigned i = 0; i < sizeof other / sizeof other[0]; i++) {
        plain_put(at, 8, other[i]);
        names_list(p, other[i] == right ? 74 : list, "another word");
    }
    plain_put(at, 8, right);
    names_list(p, 74, "all words right");
}

/* Of every chunk of a cache list of seven, and of a fast list's last. */
void every_wrong_link(void)
{
    group("every wrong bit of the links of a cache list and of a fast one");
    for (uint32_t edition = 1; edition <= 2; edition++) {
        struct pair p = pair_new(2100, (struct random){ 2100 }, 16384);
        open_with(&p, random_key(&p.r), edition);
        run(&p, ROW ROW_FREE);
        for (uint32_t i = 0; i < 8 && !group_failed(); i++)
            wrong_words(&p, 8160 + 32 * i, i < 7 ? 0 : 64);
        pair_free(&p);
    }
}

/* ---- a number that is no edition ---- */

void wrong_editions(uint32_t rounds)
{
    uint64_t other = 0, none = 0;

    group("another number than 1 and 2 in the record names the record");
    for (uint64_t i = 1; i <= rounds && !group_failed(); i++) {
        struct random r = { (27 << 20) + i };
        struct pair p = pair_new((27 << 20) + i, r, random_length(&r, 16384));
        harm_edition(&p);
        same_start(&p);
        uint32_t number = plain_edition(p.ours.record);
        bool is_one = number == 1 || number == 2;
        struct second_fault f = both_audits(&p);
        CHECK(is_one ? f.kind != SECOND_RECORD
                     : f.kind == SECOND_RECORD && f.number == 0,
              "seed %llu: edition %u, and the audit says %u %u",
              (unsigned long long)p.seed, number, f.kind, f.number);
        *(is_one ? &other : &none) += 1;
        if (!is_one) {
            refused(&p, GRANT, 24, 3);
            refused(&p, RELEASE, 0, 3);
            refused(&p, EMPTYING, 0, 3);
            refused(&p, GRANT, 262145, 2);
        }
        calls_on_any(&p, 1);
        pair_free(&p);
    }
    remark(", %llu no edition, %llu the other one", (unsigned long long)none,
           (unsigned long long)other);
}

/* ---- two editions ---- */

/*
 * Every list of the one is that of the other, and nothing else differs but in
 * the bits of a position, where a link of a stack is or was. Answers how many
 * links are mixed.
 */
static uint64_t links_alone_differ(const struct twins *t)
{
    static struct plain_view view, other_view;
    const struct lent *a = &t->one.ours, *b = &t->other.ours;
    uint64_t mixed = 0, differs = 0;

    plain_read(&view, a->arena, (uint32_t)a->length, a->record);
    plain_read(&other_view, b->arena, (uint32_t)b->length, b->record);
    CHECK(view.tiles == other_view.tiles, "%s: another number of tiles",
          twins_where(t));
    for (uint32_t i = 0; i < view.tiles && !group_failed(); i++) {
        uint32_t c = view.tile[i].at;
        CHECK(c == other_view.tile[i].at
                  && view.tile[i].size == other_view.tile[i].size
                  && view.tile[i].p == other_view.tile[i].p
                  && view.tile[i].state == other_view.tile[i].state,
              "%s: another tile than %u, or another state", twins_where(t), c);
        if (view.tile[i].state != PLAIN_CACHED
            && view.tile[i].state != PLAIN_FAST)
            continue;
        CHECK(plain_link(a->arena, 1, c) == plain_link(b->arena, 2, c),
              "%s: chunk %u leads elsewhere", twins_where(t), c);
        mixed += plain_get(a->arena + c + 16, 8)
            != plain_get(b->arena + c + 16, 8);
    }
    for (size_t i = 0; i < a->length; i += 8)
        differs |= (plain_get(a->arena + i, 8) ^ plain_get(b->arena + i, 8))
            & (i % 16 == 0 ? ~(uint64_t)63 : PLAIN_NONE64);
    CHECK(!t->alike || differs == 0, "%s: a byte differs that is no link",
          twins_where(t));
    return mixed;
}

/* Alike ones have the same key as well. */
static uint64_t in_two_editions(uint64_t seed, struct twins_did *did)
{
    struct twins t = twins_new(seed, 65536);
    struct random *r = &t.one.r;
    uint64_t key = random_key(r), other = random_key(r), mixed = 0;

    twins_open(&t, (struct opening){ key, 1 },
               (struct opening){ t.alike ? key : other, 2 });
    while (t.one.calls < TWIN_CALLS && !group_failed()) {
        twins_call(&t, did);
        if (!group_failed())
            mixed += links_alone_differ(&t);
    }
    did->pairs++;
    twins_free(&t);
    return mixed;
}

void two_editions(uint32_t rounds)
{
    struct twins_did did = { 0 };
    uint64_t mixed = 0;

    group("the same calls in both editions: answers, records, lists, holders' "
          "bytes");
    for (uint64_t i = 1; i <= rounds && !group_failed(); i++)
        mixed += in_two_editions((28 << 20) + i, &did);
    twins_tell(&did);
    remark(", %llu times a mixed link", (unsigned long long)mixed);
    CHECK(did.moved >= 1000 && mixed >= 10000,
          "only %llu blocks moved, %llu links mixed",
          (unsigned long long)did.moved, (unsigned long long)mixed);
}
