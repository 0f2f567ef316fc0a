/*
 * Document 02, (ix): the repair. Damage done by hand with the tiles that are
 * left of it, and random damage of each kind. What is left is held against the
 * second program, and against what the request says outright, read off the
 * archive's bytes: sound, no byte written but those it names, held blocks with
 * all their bytes, a second repair that does nothing, calls that go on. Every
 * repair runs between guards.
 */
#include "groups.h"

#include <stdio.h>
#include <string.h>

#include "guarded.h"
#include "holders.h"
#include "plain.h"

#define RECORD 1584u

static struct plain_view view;

/* ---- one repair ---- */

/* On both, the archive's between guards. */
static struct second_answer repair_both(struct pair *p)
{
    struct lent own = p->ours;
    size_t slack = random_chance(&p->r, 50) ? 0 : random_below(&p->r, 40);
    struct guarded arena = guard(own.length, slack);
    struct guarded record = guard(RECORD, slack);

    p->ours.arena = arena.bytes;
    p->ours.record = record.bytes;
    copy_lent(&p->ours, &own);
    struct second_answer a = both(p, REPAIR, 0);
    CHECK(guard_kept(&arena) && guard_kept(&record),
          "seed %llu: a repair wrote outside the buffers",
          (unsigned long long)p->seed);
    copy_lent(&own, &p->ours);
    p->ours = own;
    guard_free(&arena);
    guard_free(&record);
    return a;
}

static uint32_t size_at(const struct lent *l, uint32_t c)
{
    return (uint32_t)plain_get(l->arena + c + 8, 8) & ~15u;
}

/*
 * Each held block is a chunk of before with its bytes, and what is free and the
 * top are such chunks joined. Answers how many there were.
 */
static uint32_t chunks_of_before(const struct pair *p,
                                 const struct lent *before)
{
    uint32_t c = 0, chunks = 0;

    for (uint32_t i = 0; i < view.tiles && !group_failed(); i++) {
        const struct plain_tile *t = &view.tile[i];
        bool held = t->state == PLAIN_LIVE;
        CHECK(c == t->at && (!held || size_at(before, c) == t->size),
              "seed %llu: chunk %u is none of before",
              (unsigned long long)p->seed, t->at);
        CHECK(!held || memcmp(p->ours.arena + c + 16, before->arena + c + 16,
                              t->size - 8) == 0,
              "seed %llu: the held block at %u lost bytes",
              (unsigned long long)p->seed, c + 16);
        for (; c < t->at + t->size; c += size_at(before, c))
            chunks++;
        CHECK(c == t->at + t->size,
              "seed %llu: chunk %u ends within one of before",
              (unsigned long long)p->seed, t->at);
    }
    return chunks;
}

/* Every list empty. */
static void clear_record(uint8_t *record)
{
    for (unsigned word = 2; word < PLAIN_WORDS; word++)
        plain_put_word(record, word,
                       word >= plain_cache_count(0)
                               && word <= plain_cache_count(63)
                           ? 0 : PLAIN_NONE32);
}

/* Last in unsorted, behind that one. */
static void put_last(struct lent *l, const struct plain_tile *t,
                     uint64_t behind)
{
    plain_put(l->arena + t->at + 16, 8, PLAIN_NONE64);
    plain_put(l->arena + t->at + 24, 8, behind);
    if (t->size >= PLAIN_LARGE_MIN) {
        plain_put(l->arena + t->at + 32, 8, PLAIN_NONE64);
        plain_put(l->arena + t->at + 40, 8, PLAIN_NONE64);
    }
    if (behind == PLAIN_NONE64)
        plain_put_word(l->record, plain_bin_first(1), t->at);
    else
        plain_put(l->arena + behind + 16, 8, t->at);
    plain_put_word(l->record, plain_bin_last(1), t->at);
}

/* Writes in the heap of before what the request has a repair write. */
static void write_mended(struct lent *l)
{
    uint64_t last = PLAIN_NONE64;
    uint32_t free_before = 0; /* the size of the chunk, if it is free */

    clear_record(l->record);
    for (uint32_t i = 0; i < view.tiles; i++) {
        const struct plain_tile *t = &view.tile[i];
        plain_put(l->arena + t->at + 8, 8, t->size + (free_before == 0));
        if (free_before != 0)
            plain_put(l->arena + t->at, 8, free_before);
        free_before = t->state == PLAIN_BINNED ? t->size : 0;
        if (free_before != 0) {
            put_last(l, t, last);
            last = t->at;
        }
        if (t->state == PLAIN_TOP)
            plain_put_word(l->record, 1, t->at);
    }
}

/* What the repairs of a group did. */
static struct {
    uint64_t heaps, calls, faults[7], mended[2]; /* by edition */
    uint64_t chunks, held, free;                 /* of the mended */
} did;

static void mended(struct pair *p, struct lent *before)
{
    if (!CHECK(is_sound(&p->ours), "seed %llu: not sound after a repair",
               (unsigned long long)p->seed))
        return;
    plain_read(&view, p->ours.arena, (uint32_t)p->ours.length, p->ours.record);
    did.chunks += chunks_of_before(p, before);
    write_mended(before);
    CHECK(same_arena(before, &p->ours) && same_record(before, &p->ours),
          "seed %llu: a repair wrote what it may not, or not all it must",
          (unsigned long long)p->seed);
    for (uint32_t i = 0; i < view.tiles; i++) {
        did.held += view.tile[i].state == PLAIN_LIVE;
        did.free += view.tile[i].state == PLAIN_BINNED;
    }
    did.mended[plain_edition(p->ours.record) - 1]++;
}

/* Whatever the heap is; answers whether it is sound then. */
static bool repair(struct pair *p)
{
    struct second_fault f = both_audits(p);
    bool refused_11 = f.kind == SECOND_RECORD || f.kind == SECOND_TILE;
    struct lent before = lend(p->ours.length, 0);

    did.heaps++;
    did.faults[f.kind]++;
    copy_lent(&before, &p->ours);
    struct second_answer a = repair_both(p);
    CHECK(a.no == (refused_11 ? 11 : 0) && a.mem == 0 && a.usable == 0,
          "seed %llu: a repair of a heap with fault %u %u answered %u %u %u",
          (unsigned long long)p->seed, f.kind, f.number, a.no, a.mem,
          a.usable);
    if (refused_11 || f.kind == SECOND_SOUND)
        CHECK(same_arena(&before, &p->ours) && same_record(&before, &p->ours),
              "seed %llu: a repair of a heap with fault %u wrote",
              (unsigned long long)p->seed, f.kind);
    else
        mended(p, &before);
    refused(p, REPAIR, 0, refused_11 ? 11 : 0); /* again, and nothing changes */
    give_back(&before);
    return !refused_11;
}

/* ---- damage by hand ---- */

#define KEY 0x9d3f5b17e8c4620au

/* Seven of 32 are cached, 192 to 0, and 224 is fast; 256 is held. */
#define EIGHT "9G24 R16 R48 R80 R112 R144 R176 R208 R240"

/* 0 and 1520 are in unsorted, 1520 first; sorted, both are in bin 71. */
#define TWO_LARGE "G1480 G24 G1480 G24 R16 R1536"

/* Two of 32 are cached, 8192 and 8160, where editions store otherwise. */
#define FAR "G8152 3G24 R8176 R8208"

/*
 * A word of the record (r), a number at an offset of the arena (a), or the
 * other edition (e).
 */
struct put {
    char where;
    uint32_t at;
    uint64_t value;
};

/*
 * The tiles that are left: f free, h held, t the top, each with its size; none
 * for a refusal with 11.
 */
static const struct {
    const char *what;
    uint32_t length;
    const char *script; /* as run has them */
    struct put put[6];
    const char *left;
} hand[] = {
    { "a wrong count", 1024, "5G24 R16 R80", { { 'r', 67, 1 } },
      "f32 h32 f32 h32 h32 t864" },
    { "a count of an empty list", 1024, "5G24 R16 R80", { { 'r', 70, 1 } },
      "f32 h32 f32 h32 h32 t864" },
    { "neighbours, and some before the top", 1024,
      "G24 2G40 G24 2G200 R16 R48 R96 R176 R384", { { 'r', 70, 1 } },
      "f128 h32 t864" },
    { "a whole arena", 1024, "G24 2G40 G200 R16 R48 R96 R144",
      { { 'r', 70, 1 } }, "t1024" },
    { "the last one's key", 1024, "5G24 R16 R80", { { 'a', 24, 7 } },
      "h32 h32 f32 h32 h32 t864" },
    { "the first one's key", 1024, "5G24 R16 R80", { { 'a', 88, 7 } },
      "h32 h32 h32 h32 h32 t864" },
    { "the record's key", 1024, "5G24 R16 R80", { { 'r', 393, 7 } },
      "h32 h32 h32 h32 h32 t864" },
    { "a link to no chunk", 1024, "5G24 R16 R80", { { 'a', 80, 8 } },
      "h32 h32 f32 h32 h32 t864" },
    { "a link to the top", 1024, "5G24 R16 R80", { { 'a', 80, 160 } },
      "h32 h32 f32 h32 h32 t864" },
    { "a link past the arena", 1024, "5G24 R16 R80", { { 'a', 80, 1024 } },
      "h32 h32 f32 h32 h32 t864" },
    { "a link past 32 bits", 1024, "5G24 R16 R80",
      { { 'a', 80, (uint64_t)1 << 32 } }, "h32 h32 f32 h32 h32 t864" },
    { "a circle", 1024, "5G24 R16 R80", { { 'a', 16, 64 } },
      "f32 h32 f32 h32 h32 t864" },
    { "a head that is none", 1024, "5G24 R16 R80",
      { { 'r', 3, PLAIN_NONE32 } }, "h32 h32 h32 h32 h32 t864" },
    { "an eighth in the cache, that a fast list has", 1024, EIGHT,
      { { 'a', 16, 224 }, { 'a', 248, KEY }, { 'r', 67, 8 } },
      "f256 h32 t736" },
    { "an eighth that none has", 1024, EIGHT,
      { { 'a', 16, 224 }, { 'a', 248, KEY }, { 'r', 67, 8 },
        { 'r', 131, PLAIN_NONE32 } },
      "f224 h32 h32 t736" },
    { "bad in the cache, good on a fast list", 1024, EIGHT,
      { { 'a', 24, 7 }, { 'a', 240, 0 } }, "f256 h32 t736" },
    { "a fast list that crosses into the cache", 1024, EIGHT,
      { { 'a', 240, 96 } }, "f256 h32 t736" },
    { "a fast list that leads to a held block", 1024, EIGHT,
      { { 'a', 240, 256 }, { 'a', 272, 7 } }, "t1024" },
    { "a cache list that leads to one without the key", 1024, EIGHT,
      { { 'a', 208, 256 } }, "h32 h32 h32 h32 h32 h32 f64 h32 t736" },
    { "a chunk in the fast list of another size", 1024, EIGHT,
      { { 'r', 132, 224 }, { 'r', 131, PLAIN_NONE32 } },
      "f224 h32 h32 t736" },
    { "a wrong last of unsorted", 8192, TWO_LARGE, { { 'r', 142, 8 } },
      "f1488 h32 f1488 h32 t5152" },
    { "a wrong back link", 8192, TWO_LARGE, { { 'a', 24, 7 } },
      "h1488 h32 f1488 h32 t5152" },
    { "a wrong back link of the first", 8192, TWO_LARGE, { { 'a', 1544, 0 } },
      "h1488 h32 h1488 h32 t5152" },
    { "a wrong skip link in unsorted", 8192, TWO_LARGE, { { 'a', 32, 5 } },
      "f1488 h32 f1488 h32 t5152" },
    { "a wrong skip link in bin 71", 8192, TWO_LARGE " G20000",
      { { 'a', 1560, 5 } }, "f1488 h32 f1488 h32 t5152" },
    { "sizes that rise in bin 71", 8192,
      "G1480 G24 G1496 G24 R16 R1536 G20000",
      { { 'r', 281, 0 }, { 'r', 282, 1520 }, { 'a', 16, 1520 },
        { 'a', 24, PLAIN_NONE64 }, { 'a', 1544, 0 } },
      "f1488 h32 h1504 h32 t5136" },
    { "a flag", 8192, TWO_LARGE, { { 'a', 1496, 33 } },
      "f1488 h32 f1488 h32 t5152" },
    { "an end size", 8192, TWO_LARGE, { { 'a', 1488, 32 } },
      "f1488 h32 f1488 h32 t5152" },
    { "a flag, and the last remainder goes", 8192, "G1496 G24 R16 G200",
      { { 'a', 1512, 33 } }, "h208 f1296 h32 t6656" },
    { "a link stored by no edition", 16384, FAR, { { 'a', 8208, 8163 } },
      "h8160 h32 f32 h32 t8128" },
    { "links stored by the other edition", 16384, FAR, { { 'e', 0, 0 } },
      "h8160 h32 f32 h32 t8128" },
    { "the record's length", 1024, "5G24 R16 R80", { { 'r', 0, 1040 } },
      NULL },
    { "the record's top", 1024, "5G24 R16 R80", { { 'r', 1, 128 } }, NULL },
    { "no edition", 1024, "5G24 R16 R80", { { 'r', 395, 3 } }, NULL },
    { "a size word", 1024, "5G24 R16 R80", { { 'a', 40, 17 } }, NULL },
    { "a size word, and a count", 1024, "5G24 R16 R80",
      { { 'a', 40, 35 }, { 'r', 67, 1 } }, NULL }
};

static const char *tiles_left(void)
{
    static char text[1024];
    size_t used = 0;

    for (uint32_t i = 0; i < view.tiles && used < sizeof text - 16; i++)
        used += (size_t)snprintf(
            text + used, sizeof text - used, "%s%c%u", i == 0 ? "" : " ",
            view.tile[i].state == PLAIN_LIVE      ? 'h'
                : view.tile[i].state == PLAIN_TOP ? 't' : 'f',
            view.tile[i].size);
    return text;
}

static void put_by_hand(struct pair *p, const struct put *put)
{
    for (; put->where != '\0'; put++)
        if (put->where == 'r')
            plain_put_word(p->ours.record, put->at, (uint32_t)put->value);
        else if (put->where == 'a')
            plain_put(p->ours.arena + put->at, 8, put->value);
        else
            plain_put_edition(p->ours.record,
                              3 - plain_edition(p->ours.record));
    same_start(p);
}

static bool is_held(uint32_t c)
{
    for (uint32_t i = 0; i < view.tiles; i++)
        if (view.tile[i].at == c && view.tile[i].state == PLAIN_LIVE)
            return true;
    return false;
}

/* A resize to the bytes that a block has says whether it is held. */
static void ask_blocks(struct pair *p, const struct lent *before)
{
    struct lent after = lend(p->ours.length, 0);
    uint32_t size;

    copy_lent(&after, &p->ours);
    for (uint32_t c = 0; c < before->length && !group_failed(); c += size) {
        size = size_at(before, c);
        if (!is_held(c)) {
            refused_resize(p, c + 16, size - 8, 4);
            continue;
        }
        struct second_answer a = both_resize(p, c + 16, size - 8);
        CHECK(a.no == 0 && a.mem == c + 16 && a.usable == size - 8
                  && same_arena(&after, &p->ours)
                  && same_record(&after, &p->ours),
              "the held block at %u is not as it was", c + 16);
    }
    give_back(&after);
}

static void damaged_by_hand(unsigned i, uint32_t edition)
{
    struct random r = { 2200 + i };
    struct pair p = pair_new(2200 + i, r, hand[i].length);
    struct lent before = lend(hand[i].length, 0);

    open_with(&p, KEY, edition);
    run(&p, hand[i].script);
    put_by_hand(&p, hand[i].put);
    copy_lent(&before, &p.ours);
    CHECK(!is_sound(&p.ours), "%s: sound", hand[i].what);
    bool sound = repair(&p);
    CHECK(sound == (hand[i].left != NULL), "%s: mended, or not", hand[i].what);
    if (sound && hand[i].left != NULL) {
        CHECK(strcmp(tiles_left(), hand[i].left) == 0, "%s: left '%s'",
              hand[i].what, tiles_left());
        ask_blocks(&p, &before);
    }
    give_back(&before);
    pair_free(&p);
}

void repairs_by_hand(void)
{
    group("repairs of damage done by hand, in both editions");
    for (unsigned i = 0; i < sizeof hand / sizeof hand[0]; i++)
        for (uint32_t edition = 1; edition <= 2; edition++)
            damaged_by_hand(i, edition);
}

/* Every tile of 32 bytes, every other one fast, or all but the top. */
static void all_of_32(uint32_t edition, uint32_t step, const char *left)
{
    struct random r = { 2300 + step };
    struct pair p = pair_new(2300 + step, r, 262144);
    struct lent *l = &p.ours;
    uint32_t top = 262144 - 32;

    open_with(&p, KEY, edition);
    for (uint32_t c = 0; c < 262144; c += 32) {
        plain_put(l->arena + c + 8, 8, 33);
        plain_put_link(l->arena, edition, c,
                       c + step < top ? c + step : PLAIN_NONE64);
    }
    plain_put_word(l->record, 1, top);
    plain_put_word(l->record, plain_fast_head(0), 0);
    plain_put_word(l->record, plain_bin_last(126), 0);
    same_start(&p);
    repair(&p);
    CHECK(strncmp(tiles_left(), left, strlen(left)) == 0, "left '%s'",
          tiles_left());
    pair_free(&p);
}

void most_tiles(void)
{
    group("repairs of 8,192 tiles, in both editions");
    for (uint32_t edition = 1; edition <= 2; edition++) {
        all_of_32(edition, 64, "f32 h32 f32 h32 f32 h32");
        CHECK(view.tiles == 8191, "%u tiles are left", view.tiles);
        all_of_32(edition, 32, "t262144");
    }
}

/* ---- random damage ---- */

/* A sound heap for a harm to begin with. */
static void draw_heap(struct pair *p)
{
    random_heap(&p->r, p->ours.arena, (uint32_t)p->ours.length,
                p->ours.record);
}

static void harm_words(struct pair *p, uint32_t times)
{
    draw_heap(p);
    damage_words(&p->r, p->ours.arena, (uint32_t)p->ours.length,
                 p->ours.record, times);
}

static void harm_word(struct pair *p)
{
    harm_words(p, 1);
}

static void harm_many(struct pair *p)
{
    harm_words(p, 2 + random_below(&p->r, 30));
}

/* Links, the record's lists and flags at random; the tiles stay. */
static void harm_all_lists(struct pair *p)
{
    uint32_t length = (uint32_t)p->ours.length;

    draw_heap(p);
    for (uint32_t i = random_below(&p->r, 20); i > 0; i--)
        damage_lists(&p->r, p->ours.arena, length, p->ours.record);
    for (unsigned word = 2; word < PLAIN_WORDS; word++)
        if (random_chance(&p->r, 10))
            plain_put_word(p->ours.record, word, (uint32_t)random_next(&p->r));
    for (uint32_t c = 0; c < length; c += size_at(&p->ours, c))
        if (random_chance(&p->r, 20))
            plain_put(p->ours.arena + c + 8, 8,
                      size_at(&p->ours, c) + random_below(&p->r, 2));
}

/* Of one cached chunk, or the record's own. */
static void harm_keys(struct pair *p)
{
    draw_heap(p);
    if (random_chance(&p->r, 80))
        damage_key(&p->r, p->ours.arena, p->ours.record);
    else
        plain_put_key(p->ours.record, random_key(&p->r));
}

static void harm_rule(struct pair *p)
{
    flawed_heap(&p->r, 1 + random_below(&p->r, FLAW_COUNT - 1), p->ours.arena,
                (uint32_t)p->ours.length, p->ours.record);
}

static void harm_size(struct pair *p)
{
    uint32_t chosen = 0, seen = 0;

    draw_heap(p);
    for (uint32_t c = 0; c < p->ours.length; c += size_at(&p->ours, c))
        if (random_below(&p->r, ++seen) == 0)
            chosen = c;
    uint64_t word = plain_get(p->ours.arena + chosen + 8, 8);
    switch (random_below(&p->r, 4)) {
    case 0: word ^= 2u << random_below(&p->r, 3); break;
    case 1: word += (uint64_t)1 << (32 + random_below(&p->r, 32)); break;
    case 2: word = 16 * random_below(&p->r, 64) + word % 2; break;
    default: word = random_chance(&p->r, 50) ? PLAIN_NONE64 : 0;
    }
    plain_put(p->ours.arena + chosen + 8, 8, word);
}

/* The length, the top or the edition. */
static void harm_record(struct pair *p)
{
    uint32_t other = random_chance(&p->r, 50)
        ? 16 * random_below(&p->r, (uint32_t)p->ours.length / 16 + 2)
        : (uint32_t)random_next(&p->r);

    draw_heap(p);
    if (random_chance(&p->r, 30))
        damage_edition(&p->r, p->ours.record);
    else
        plain_put_word(p->ours.record, random_below(&p->r, 2), other);
}

/* A list of a sound heap. */
struct list {
    unsigned start; /* the record's word */
    uint32_t edition, count, chunk[PLAIN_TILES_MAX];
};

static struct list one, other;

static void read_list(const struct lent *l, unsigned start, struct list *list)
{
    uint32_t head = plain_word(l->record, start);
    uint64_t c = head == PLAIN_NONE32 ? PLAIN_NONE64 : head;

    list->start = start;
    list->edition =
        start < plain_bin_first(1) ? plain_edition(l->record) : 1;
    list->count = 0;
    for (; c != PLAIN_NONE64; c = plain_link(l->arena, list->edition, c))
        list->chunk[list->count++] = (uint32_t)c;
}

/* One that has chunks, but not the one that starts there. */
static bool draw_list(struct pair *p, unsigned but, struct list *list)
{
    unsigned chosen = 0, seen = 0;

    for (unsigned i = 0; i < 200; i++) {
        unsigned start = i < 64 ? plain_cache_head(i)
            : i < 74            ? plain_fast_head(i - 64)
                                : plain_bin_first(i - 73);
        if (start != but && plain_word(p->ours.record, start) != PLAIN_NONE32
            && random_below(&p->r, ++seen) == 0)
            chosen = start;
    }
    if (seen > 0)
        read_list(&p->ours, chosen, list);
    return seen > 0;
}

/* Has the list go on with that chunk behind its first so many. */
static void lead(struct pair *p, const struct list *l, uint32_t from,
                 uint32_t to)
{
    if (from == 0)
        plain_put_word(p->ours.record, l->start, to);
    else
        plain_put_link(p->ours.arena, l->edition, l->chunk[from - 1], to);
}

/* From one into the other, often one that may own the chunk, which may fit. */
static void harm_cross(struct pair *p)
{
    struct lent *l = &p->ours;

    do
        draw_heap(p);
    while (!draw_list(p, 0, &one) || !draw_list(p, one.start, &other));
    for (unsigned tries = 0; tries < 10; tries++)
        if (size_at(l, one.chunk[0]) != size_at(l, other.chunk[0])) {
            draw_list(p, 0, &one);
            draw_list(p, one.start, &other);
        }
    uint32_t from = random_below(&p->r, one.count + 1);
    uint32_t to = other.chunk[random_below(&p->r, other.count)];
    lead(p, &one, from, to);
    if (random_chance(&p->r, 50))
        plain_put(l->arena + to + 24, 8,
                  one.start < plain_fast_head(0) ? plain_key(l->record)
                      : from == 0                ? PLAIN_NONE64
                                                 : one.chunk[from - 1]);
}

/* The last leads to one of those before it, or to itself. */
static void harm_circle(struct pair *p)
{
    do
        draw_heap(p);
    while (!draw_list(p, 0, &one));
    lead(p, &one, one.count, one.chunk[random_below(&p->r, one.count)]);
}

static void start_group(const char *name)
{
    group(name);
    memset(&did, 0, sizeof did);
}

static void tell(void)
{
    remark(", %llu heaps: %llu sound, faults", (unsigned long long)did.heaps,
           (unsigned long long)did.faults[0]);
    for (unsigned k = 1; k < 7; k++)
        remark(" %llu", (unsigned long long)did.faults[k]);
    remark("; mended %llu in edition 1, %llu in 2: of %llu chunks %llu held, "
           "the others joined to %llu and the tops; %llu calls behind",
           (unsigned long long)did.mended[0],
           (unsigned long long)did.mended[1], (unsigned long long)did.chunks,
           (unsigned long long)did.held, (unsigned long long)did.free,
           (unsigned long long)did.calls);
}

/* Takes the pair over. Of all heaps some come to an end with no block held. */
static void go_on(struct pair p, bool sound, bool to_the_end)
{
    uint32_t before = p.calls, calls = p.calls + 1 + random_below(&p.r, 5);

    if (!sound) {
        calls_on_any(&p, 1);
        pair_free(&p);
        return;
    }
    struct model m = model_of(p);
    hold_the_live(&m);
    if (to_the_end)
        random_calls(&m, calls);
    while (m.p.calls < calls && !group_failed())
        random_call(&m);
    did.calls += m.p.calls - before;
    model_free(&m);
}

/* A kind of damage, and what must come of it. */
static const struct damage {
    const char *name;
    harm *harm;
    uint32_t rounds, from, most; /* lengths */
    uint32_t percent; /* so many are mended in each edition, at least */
    bool found[7];    /* sound, record, tile, cache, fast, bin and flag */
} damage[] = {
    { "repairs of sound heaps leave them as they are", draw_heap, 2000, 32,
      16384, 0, { 1, 0, 0, 0, 0, 0, 0 } },
    { "repairs of one word, anywhere", harm_word, 8000, 32, 16384, 15,
      { 1, 1, 1, 1, 1, 1, 1 } },
    { "repairs of many words", harm_many, 5000, 32, 16384, 20,
      { 1, 1, 1, 1, 1, 1, 0 } },
    { "repairs of one field", harm_field, 8000, 32, 16384, 20,
      { 1, 1, 1, 1, 1, 1, 1 } },
    { "repairs of a field with a bit above the 32nd", harm_high, 3000, 32,
      16384, 25, { 0, 0, 1, 1, 1, 1, 1 } },
    { "repairs of bytes", harm_bytes, 4000, 32, 16384, 25,
      { 1, 1, 1, 1, 1, 1, 0 } },
    { "repairs of bytes that are no heap", harm_all, 1500, 32, 16384, 5,
      { 0, 1, 1, 1, 0, 1, 0 } },
    { "repairs of a list that crosses into another", harm_cross, 6000, 2048,
      16384, 45, { 0, 0, 0, 1, 1, 1, 0 } },
    { "repairs of a list with a circle", harm_circle, 4000, 2048, 16384, 45,
      { 0, 0, 0, 1, 1, 1, 0 } },
    { "repairs of lists that cross several times", harm_lists, 6000, 32,
      16384, 35, { 1, 0, 0, 1, 1, 1, 0 } },
    { "repairs where nothing is right but the tiles", harm_all_lists, 4000,
      32, 16384, 45, { 0, 0, 0, 1, 0, 0, 0 } },
    { "repairs of a key", harm_keys, 4000, 2048, 16384, 30,
      { 0, 0, 0, 1, 0, 0, 0 } },
    { "repairs of a link stored otherwise", harm_link, 4000, 2048, 16384, 35,
      { 0, 0, 0, 1, 1, 0, 0 } },
    { "repairs of a skip link", harm_skip, 3000, 8192, 16384, 25,
      { 0, 0, 0, 0, 0, 1, 0 } },
    { "repairs of another edition", harm_edition, 2000, 2048, 16384, 5,
      { 1, 1, 0, 1, 1, 0, 0 } },
    { "repairs of one rule broken throughout", harm_rule, 5000, 8192, 16384,
      10, { 1, 0, 0, 1, 1, 1, 1 } },
    { "repairs of a size word", harm_size, 2000, 32, 16384, 0,
      { 0, 0, 1, 0, 0, 0, 0 } },
    { "repairs of the record's length, top and edition", harm_record, 2000,
      32, 16384, 0, { 0, 1, 1, 0, 0, 0, 0 } },
    { "repairs of one field of large heaps", harm_field, 250, 32768, 262144,
      20, { 1, 0, 1, 1, 1, 1, 1 } },
    { "repairs of large heaps with lists that cross", harm_lists, 250, 32768,
      262144, 35, { 1, 0, 0, 1, 1, 1, 0 } }
};

static void repairs_of(const struct damage *d, uint64_t seeds, uint32_t rounds)
{
    start_group(d->name);
    for (uint64_t i = 1; i <= rounds && !group_failed(); i++) {
        struct random r = { seeds + i };
        uint32_t length = random_chance(&r, 40)
            ? d->from + 16 * random_below(&r, (d->most - d->from) / 16 + 1)
            : random_length(&r, d->most);
        struct pair p = pair_new(seeds + i, r,
                                 length < d->from ? d->from : length);
        d->harm(&p);
        same_start(&p);
        bool sound = repair(&p);
        go_on(p, sound, i % 8 == 0 && length <= 4096);
    }
    tell();
    for (unsigned k = 0; k < 7; k++)
        CHECK(!d->found[k] || did.faults[k] >= 5, "fault %u came %llu times",
              k, (unsigned long long)did.faults[k]);
    for (unsigned e = 0; e < 2; e++)
        CHECK(100 * did.mended[e] >= d->percent * did.heaps,
              "only %llu of %llu are mended in edition %u",
              (unsigned long long)did.mended[e],
              (unsigned long long)did.heaps, e + 1);
}

void repairs(uint32_t times)
{
    for (unsigned i = 0; i < sizeof damage / sizeof damage[0]; i++)
        repairs_of(&damage[i], (uint64_t)(32 + i) << 20,
                   damage[i].rounds * times);
}

/* ---- what loses nothing ---- */

enum redundant { COUNT, LAST, SKIP, FLAG, END_SIZE, REDUNDANT };

static const char *const redundant_name[] = { "counts", "lasts", "skip links",
                                              "flags", "end sizes" };

static struct plain_view was;

/* The chunk behind a free one, or the top. */
static uint32_t behind_free(struct random *r)
{
    uint32_t i = random_below(r, was.tiles);
    while (i < was.tiles - 1 && was.tile[i].p)
        i++;
    return was.tile[i].at;
}

static void put_other(struct pair *p, enum redundant kind)
{
    struct random *r = &p->r;
    uint64_t value = random_chance(r, 50) ? random_below(r, 9)
                                          : random_next(r);
    uint8_t *size_word =
        p->ours.arena + was.tile[random_below(r, was.tiles)].at + 8;

    switch (kind) {
    case COUNT:
        plain_put_word(p->ours.record, plain_cache_count(random_below(r, 64)),
                       (uint32_t)value);
        break;
    case LAST:
        plain_put_word(p->ours.record, plain_bin_last(1 + random_below(r, 126)),
                       (uint32_t)value);
        break;
    case SKIP: damage_skip(r, p->ours.arena, p->ours.record); break;
    case FLAG: plain_put(size_word, 8, plain_get(size_word, 8) ^ 1); break;
    default: plain_put(p->ours.arena + behind_free(r), 8, value);
    }
}

static void nothing_lost(const struct pair *p)
{
    uint32_t j = 0;

    for (uint32_t i = 0; i < was.tiles && !group_failed(); i++) {
        while (view.tile[j].at + view.tile[j].size <= was.tile[i].at)
            j++;
        CHECK((was.tile[i].state == PLAIN_LIVE)
                  == (view.tile[j].state == PLAIN_LIVE),
              "seed %llu: chunk %u is free no longer, or held no longer",
              (unsigned long long)p->seed, was.tile[i].at);
    }
}

/* One of a kind, or two of any. */
void redundant_words(uint32_t rounds)
{
    uint64_t met[REDUNDANT] = { 0 };

    start_group("repairs of counts, lasts, skip links and flags lose nothing");
    for (uint64_t i = 1; i <= rounds && !group_failed(); i++) {
        struct random r = { (31 << 20) + i };
        struct pair p = pair_new((31 << 20) + i, r,
                                 2048 + 16 * random_below(&r, 1024));
        draw_heap(&p);
        plain_read(&was, p.ours.arena, (uint32_t)p.ours.length, p.ours.record);
        put_other(&p, i % REDUNDANT);
        if (random_chance(&p.r, 30))
            put_other(&p, random_below(&p.r, REDUNDANT));
        same_start(&p);
        bool faulty = both_audits(&p).kind != SECOND_SOUND;
        met[i % REDUNDANT] += faulty;
        bool sound = repair(&p);
        CHECK(sound, "seed %llu: refused", (unsigned long long)p.seed);
        if (faulty && !group_failed())
            nothing_lost(&p);
        go_on(p, sound, i % 8 == 0 && p.ours.length <= 4096);
    }
    tell();
    for (unsigned k = 0; k < REDUNDANT; k++)
        CHECK(met[k] >= 20, "only %llu times wrong %s",
              (unsigned long long)met[k], redundant_name[k]);
}
