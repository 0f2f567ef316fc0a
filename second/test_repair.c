/*
 * Repairs: heaps damaged by hand, with what is free and what is held then; and
 * random damage, of which the properties are asked that request (ix) promises:
 * the heap is sound, held blocks have their bytes, what was reached is free,
 * nothing else is written, a second repair does nothing, and calls go on. What
 * the lists reach is told by the slow walk of oracle.c. Every tile, number and
 * line expected of a heap made by hand was worked out from the documents.
 */
#include <stdlib.h>
#include <string.h>

#include "files.h"
#include "mend2.h"
#include "oracle.h"
#include "plain.h"
#include "random_heap.h"
#include "repair2.h"
#include "traces.h"

static struct second_answer lent_repair_by(struct lent *l, unsigned version)
{
    return second_repair_by(version, l->arena, l->length, l->record,
                            l->record_len);
}

static struct second_answer lent_repair(struct lent *l)
{
    return second_repair(l->arena, l->length, l->record, l->record_len);
}

static struct lent copy_lent_to_new(const struct lent *l)
{
    struct lent copy = lend(l->length, 0);
    copy_lent(&copy, l);
    return copy;
}

static bool same_bytes(const struct lent *a, const struct lent *b)
{
    return same_arena(a, b) && same_record(a, b);
}

/* ---- what a repair must leave ---- */

/* A tile before the repair, and the list that reaches it. */
struct before {
    uint32_t at, size;
    unsigned list; /* or ORACLE_LIVE, for held, or ORACLE_TOP */
};

static struct before was[PLAIN_TILES_MAX + 1];
static uint32_t was_count;
static struct plain_view is; /* after it */
static uint64_t of_seed;     /* for messages; 0 for a heap made by hand */

#define SEED (unsigned long long)of_seed

static uint32_t size_at(const struct lent *l, uint32_t c)
{
    return (uint32_t)plain_get(l->arena + c + 8, 8) & ~15u;
}

static void read_before(const struct lent *l, unsigned version)
{
    static unsigned list[PLAIN_TILES_MAX + 1];
    uint32_t at = 0;

    was_count = (uint32_t)oracle_reached(l->arena, l->length, l->record,
                                         version, list);
    for (uint32_t i = 0; i < was_count; i++) {
        was[i] = (struct before){ at, size_at(l, at), list[i] };
        at += was[i].size;
    }
}

/* What was held is live, what was reached lies in a free one or in the top. */
static void tiles_are_told(void)
{
    uint32_t held = 0, live = 0, j = 0;

    for (uint32_t i = 0; i < was_count && !group_failed(); i++) {
        while (is.tile[j].at + is.tile[j].size <= was[i].at)
            j++;
        struct plain_tile t = is.tile[j];
        bool same = t.at == was[i].at && t.size == was[i].size;
        bool in = t.at <= was[i].at
            && was[i].at + was[i].size <= t.at + t.size;
        if (was[i].list == ORACLE_LIVE)
            CHECK(same && t.state == PLAIN_LIVE,
                  "seed %llu: the block at %u is not held", SEED, was[i].at);
        else if (was[i].list == ORACLE_TOP)
            CHECK(in && t.state == PLAIN_TOP,
                  "seed %llu: the top at %u is not the top's", SEED,
                  was[i].at);
        else
            CHECK(in && (t.state == PLAIN_BINNED || t.state == PLAIN_TOP),
                  "seed %llu: the chunk at %u, reached in list %u, is not free",
                  SEED, was[i].at, was[i].list);
        held += was[i].list == ORACLE_LIVE;
    }
    for (uint32_t i = 0; i < is.tiles; i++)
        live += is.tile[i].state == PLAIN_LIVE;
    CHECK(held == live, "seed %llu: %u are live, %u were held", SEED, live,
          held);
}

static void held_bytes_are_kept(const struct lent *before,
                                const struct lent *after)
{
    for (uint32_t i = 0; i < was_count; i++)
        if (was[i].list == ORACLE_LIVE)
            CHECK(memcmp(before->arena + was[i].at + 16,
                         after->arena + was[i].at + 16, was[i].size - 8) == 0,
                  "seed %llu: the block at %u has other bytes", SEED,
                  was[i].at);
}

static uint8_t may_change[PLAIN_ARENA_MAX];

static void only_allowed_bytes(const struct lent *before,
                               const struct lent *after)
{
    memset(may_change, 0, before->length);
    for (uint32_t i = 0; i < is.tiles; i++) {
        const struct plain_tile *t = &is.tile[i];
        memset(may_change + t->at + 8, 1, 8);
        if (t->state != PLAIN_BINNED)
            continue;
        memset(may_change + t->at + 16, 1, t->size < PLAIN_LARGE_MIN ? 16 : 32);
        memset(may_change + t->at + t->size, 1, 8);
    }
    for (size_t i = 0; i < before->length && !group_failed(); i++)
        if (before->arena[i] != after->arena[i])
            CHECK(may_change[i], "seed %llu: byte %zu was written", SEED, i);
}

/* Nothing is listed but in unsorted, where offsets rise from the first on. */
static void lists_are_told(const struct lent *before, const struct lent *after)
{
    uint32_t first = PLAIN_NONE32, last = PLAIN_NONE32;

    for (uint32_t i = 0; i < is.tiles; i++) {
        if (is.tile[i].state != PLAIN_BINNED)
            continue;
        if (last == PLAIN_NONE32)
            first = is.tile[i].at;
        else
            CHECK(plain_get(after->arena + last + 16, 8) == is.tile[i].at,
                  "seed %llu: behind %u comes not the next higher", SEED,
                  last);
        last = is.tile[i].at;
    }
    for (unsigned word = 2; word < PLAIN_WORDS; word++) {
        uint32_t v = plain_word(after->record, word), right = PLAIN_NONE32;
        if (word >= plain_cache_count(0) && word <= plain_cache_count(63))
            right = 0;
        if (word == plain_bin_first(1) || word == plain_bin_last(1))
            right = word == plain_bin_first(1) ? first : last;
        CHECK(v == right, "seed %llu: word %u is %u, not %u", SEED, word, v,
              right);
    }
    CHECK(plain_word(after->record, 0) == plain_word(before->record, 0)
              && plain_key(after->record) == plain_key(before->record)
              && plain_edition(after->record) == plain_edition(before->record),
          "seed %llu: another length, key or edition", SEED);
}

static void second_does_nothing(const struct lent *after, unsigned version)
{
    struct lent again = copy_lent_to_new(after);
    struct second_answer a = lent_repair(&again);
    CHECK(a.no == 0 && same_bytes(&again, after),
          "seed %llu: a second repair changes something", SEED);
    a = lent_repair_by(&again, version);
    CHECK(a.no == 0 && same_bytes(&again, after),
          "seed %llu: a second repair by version %u changes something", SEED,
          version);
    give_back(&again);
}

static void mended(const struct lent *before, const struct lent *after,
                   unsigned version)
{
    if (!CHECK(lent_sound(after), "seed %llu: mended, but not sound", SEED))
        return;
    if (after->length <= 2048)
        CHECK(oracle_audit(after->arena, after->length, after->record, 1584,
                           NEWEST).kind == SECOND_SOUND,
              "seed %llu: mended, but not sound by the slow audit", SEED);
    read_before(before, version);
    plain_read(&is, after->arena, (uint32_t)after->length, after->record);
    tiles_are_told();
    held_bytes_are_kept(before, after);
    only_allowed_bytes(before, after);
    lists_are_told(before, after);
    second_does_nothing(after, version);
}

/* The heap after a repair by the rules of that version, all of it checked. */
static struct lent repaired(const struct lent *l, unsigned version)
{
    struct lent after = copy_lent_to_new(l);
    uint32_t kind = lent_audit_by(l, version).kind;
    bool refused = kind == SECOND_RECORD || kind == SECOND_TILE;
    struct second_answer a = lent_repair_by(&after, version);

    CHECK(a.no == (refused ? 11u : 0u) && a.mem == 0 && a.usable == 0,
          "seed %llu: a repair of fault %u answers %u %u %u", SEED, kind, a.no,
          a.mem, a.usable);
    if (refused || kind == SECOND_SOUND)
        CHECK(same_bytes(&after, l), "seed %llu: fault %u, and written", SEED,
              kind);
    else
        mended(l, &after, version);
    if (version == NEWEST) {
        struct lent other = copy_lent_to_new(l);
        CHECK(lent_repair(&other).no == a.no && same_bytes(&other, &after),
              "seed %llu: a repair differs from one by the newest rules",
              SEED);
        give_back(&other);
    }
    return after;
}

/* What stands in an image of that version becomes this where it is read. */
static struct lent read_from_old(const struct lent *l, unsigned version)
{
    struct lent copy = copy_lent_to_new(l);
    plain_from_old(copy.arena, (uint32_t)copy.length, copy.record, version,
                   lent_audit_by(l, version).kind == SECOND_SOUND);
    return copy;
}

/* ---- what heapmend prints ---- */

static char lines[1 << 22];

static void add_lines(const uint8_t *from, const uint8_t *to, size_t length,
                      unsigned width, char letter)
{
    size_t used = strlen(lines);

    for (size_t at = 0; at < length; at += width) {
        uint64_t old = plain_get(from + at, width);
        uint64_t new = plain_get(to + at, width);
        if (old != new)
            used += (size_t)snprintf(lines + used, sizeof lines - used,
                                     "%c %zu %llu %llu\n", letter, at,
                                     (unsigned long long)old,
                                     (unsigned long long)new);
    }
}

static struct bytes room_for_image(void)
{
    return filled(1593 + 262144, 0x6b);
}

/*
 * Of the heap in an image of that version: the lines are the differences
 * between the heap as it is read and as it is mended, and the image that is
 * left is of the mended one.
 */
static void prints_changes(const struct lent *l, unsigned version,
                           const struct lent *read, const struct lent *after)
{
    struct bytes file = image_by_hand(l, version);
    struct bytes wanted = image_by_hand(after, NEWEST);
    struct bytes left = room_for_image();
    FILE *out = open_text();
    size_t length = second_mend_image(out, file.at, file.length, left.at);
    const char *text = end_text(out);

    lines[0] = '\0';
    add_lines(read->record, after->record, 1584, 4, 'r');
    add_lines(read->arena, after->arena, after->length, 8, 'a');
    CHECK(strcmp(text, lines) == 0, "seed %llu: printed '%s', not '%s'", SEED,
          text, lines);
    CHECK(length == wanted.length && memcmp(left.at, wanted.at, length) == 0,
          "seed %llu: another image is left", SEED);
    free(left.at);
    free(wanted.at);
    free(file.at);
}

static void prints_refusal(const uint8_t *file, size_t file_len,
                           const char *line)
{
    struct bytes left = room_for_image();
    FILE *out = open_text();
    size_t length = second_mend_image(out, file, file_len, left.at);
    const char *text = end_text(out);

    CHECK(strcmp(text, line) == 0, "seed %llu: printed '%s', not '%s'", SEED,
          text, line);
    CHECK(length == 0 && all_are(&left, 0x6b),
          "seed %llu: refused, but an image is left", SEED);
    free(left.at);
}

/* ---- heaps made by hand ---- */

/*
 * Fills the heap in hand with tiles: a letter and a size for each, l for live,
 * c cached, f fast, u in unsorted, b in the bin of its size, and the top behind
 * them. Each list has its chunks in this order.
 */
struct laid {
    char letter;
    uint32_t at, size;
};

static struct laid laid[64];
static uint32_t laid_count;

/* The record's word that starts its list; 0 for a live one. */
static unsigned start_of(const struct laid *c)
{
    switch (c->letter) {
    case 'c': return plain_cache_head((c->size - 32) / 16);
    case 'f': return plain_fast_head((c->size - 32) / 16);
    case 'u': return plain_bin_first(1);
    case 'b': return plain_bin_first(plain_bin(c->size));
    default: return 0;
    }
}

static bool laid_in_bin(const struct laid *c)
{
    return c->letter == 'u' || c->letter == 'b';
}

static void put_stack_link(uint32_t c, uint64_t to)
{
    plain_put_link(heap.arena, edition, c, to);
}

/* Puts it in its list behind the last of those before it, or first. */
static void list_laid(uint32_t i)
{
    const struct laid *c = &laid[i], *before = NULL;
    unsigned word = start_of(c);

    for (uint32_t j = 0; j < i; j++)
        if (start_of(&laid[j]) == word)
            before = &laid[j];
    if (before == NULL)
        put_word(word, c->at);
    if (laid_in_bin(c)) {
        if (before != NULL)
            put_link(before->at, c->at);
        put_link(c->at, PLAIN_NONE64);
        put_back_link(c->at, before != NULL ? before->at : PLAIN_NONE64);
        put_word(word + 1, c->at);
        return;
    }
    if (before != NULL)
        put_stack_link(before->at, c->at);
    put_stack_link(c->at, PLAIN_NONE64);
    if (c->letter == 'c') {
        unsigned count = word + 64;
        put_key(c->at, KEY);
        put_word(count, plain_word(heap.record, count) + 1);
    }
}

static void start_laid(uint32_t length, const char *tiles)
{
    uint32_t top = 0, binned = 0; /* the size of a binned one before */
    char *end;

    start(length);
    for (laid_count = 0; *tiles != '\0'; laid_count++) {
        struct laid c = { *tiles, top, (uint32_t)strtoul(tiles + 1, &end, 10) };
        tiles = end + strspn(end, " ");
        laid[laid_count] = c;
        plain_put(heap.arena + c.at + 8, 8, c.size + (binned == 0));
        if (binned != 0)
            plain_put(heap.arena + c.at, 8, binned);
        if (c.letter != 'l')
            list_laid(laid_count);
        binned = laid_in_bin(&c) ? c.size : 0;
        top += c.size;
    }
    plain_put(heap.arena + top + 8, 8, length - top + (binned == 0));
    if (binned != 0)
        plain_put(heap.arena + top, 8, binned);
    put_word(1, top);
    plain_put_skips(heap.arena, heap.record);
}

/* The tiles of a sound heap as text: all that is free is the same. */
static const char *tiles_of(const struct lent *l)
{
    static const char *const name[] = { "live", "free", "free", "free", "top" };
    static char text[8192];
    size_t used = 0;

    plain_read(&is, l->arena, (uint32_t)l->length, l->record);
    for (uint32_t i = 0; i < is.tiles && used < sizeof text - 64; i++)
        used += (size_t)snprintf(text + used, sizeof text - used,
                                 "%u %u %s\n", is.tile[i].at, is.tile[i].size,
                                 name[is.tile[i].state]);
    return text;
}

/* The heap in hand, which has a fault, becomes these tiles. */
static void mends_by(unsigned version, const char *tiles)
{
    struct lent read = read_from_old(&heap, version);
    struct lent after = repaired(&read, version);

    CHECK(lent_audit_by(&heap, version).kind != SECOND_SOUND,
          "by version %u there is nothing to mend", version);
    if (lent_sound(&after)) {
        const char *text = tiles_of(&after);
        CHECK(strcmp(text, tiles) == 0,
              "by version %u mended to '%s', not '%s'", version, text, tiles);
    }
    prints_changes(&heap, version, &read, &after);
    give_back(&after);
    give_back(&read);
}

static void mends_since(unsigned version, const char *tiles)
{
    for (; version <= NEWEST; version++)
        mends_by(version, tiles);
}

static void mends(const char *tiles)
{
    mends_since(1, tiles);
}

/* The heap in hand is sound by the rules of that version. */
static void stays_by(unsigned version)
{
    struct lent read = read_from_old(&heap, version);
    struct lent after = repaired(&read, version);

    CHECK(lent_audit_by(&heap, version).kind == SECOND_SOUND,
          "by version %u it is not sound", version);
    CHECK(same_bytes(&after, &read), "a sound heap was written");
    prints_changes(&heap, version, &read, &read);
    give_back(&after);
    give_back(&read);
}

static void stays(void)
{
    for (unsigned version = 1; version <= NEWEST; version++)
        stays_by(version);
}

/* A count of a list that is empty: condemns no chunk, and breaks the heap. */
static void break_count(void)
{
    put_word(plain_cache_count(60), 1);
}

static void eight_of(const struct lent *l, uint32_t at, uint64_t expected)
{
    uint64_t v = plain_get(l->arena + at, 8);
    CHECK(v == expected, "the number at %u is %llu, not %llu", at,
          (unsigned long long)v, (unsigned long long)expected);
}

/* ---- joining ---- */

static void every_number(void)
{
    group("repair: every number of a heap with free neighbours of all kinds");
    start_laid(4096, "l32 c32 f48 u64 c48 l32 b144 c64 l32 b1040 f32 l32");
    stays();
    break_count();
    mends("0 32 live\n32 192 free\n224 32 live\n256 208 free\n464 32 live\n"
          "496 1072 free\n1568 32 live\n1600 2496 top\n");

    static const struct {
        uint32_t at;
        uint64_t number;
    } is_then[] = {
        { 8, 33 },      { 16, UNWRITTEN },     { 32, UNWRITTEN },
        { 40, 193 },    { 48, 256 },           { 56, PLAIN_NONE64 },
        { 72, 49 },     { 120, 65 },           { 184, 48 },
        { 176, 64 }, /* the headers within, and an end size */
        { 192, PLAIN_NONE64 }, { 200, KEY },   { 224, 192 },
        { 232, 32 },    { 240, UNWRITTEN },    { 256, UNWRITTEN },
        { 264, 209 },   { 272, 496 },          { 280, 32 },
        { 288, UNWRITTEN },                    { 400, 144 },
        { 408, 64 },    { 424, KEY },          { 464, 208 },
        { 472, 32 },    { 496, UNWRITTEN },    { 504, 1073 },
        { 512, PLAIN_NONE64 },                 { 520, 256 },
        { 528, PLAIN_NONE64 },                 { 536, PLAIN_NONE64 },
        { 544, UNWRITTEN },                    { 1536, 1040 },
        { 1544, 32 },   { 1568, 1072 },        { 1576, 32 },
        { 1600, UNWRITTEN },                   { 1608, 2497 },
        { 1616, UNWRITTEN }
    };
    struct lent after = repaired(&heap, NEWEST);
    for (unsigned i = 0; i < sizeof is_then / sizeof is_then[0]; i++)
        eight_of(&after, is_then[i].at, is_then[i].number);
    give_back(&after);
    stop();
}

/* Two neighbours of each two kinds, between blocks and before the top. */
static void pairs_join(void)
{
    static const char kinds[] = "cfub";

    group("repair: free neighbours of each two kinds are joined");
    for (unsigned i = 0; i < 16; i++) {
        char tiles[64];
        snprintf(tiles, sizeof tiles, "l32 %c64 %c80 l32", kinds[i / 4],
                 kinds[i % 4]);
        start_laid(1024, tiles);
        break_count();
        mends("0 32 live\n32 144 free\n176 32 live\n208 816 top\n");
        stop();
        snprintf(tiles, sizeof tiles, "%c80 l32 %c64", kinds[i / 4],
                 kinds[i % 4]);
        start_laid(1024, tiles);
        break_count();
        mends("0 80 free\n80 32 live\n112 912 top\n");
        stop();
        snprintf(tiles, sizeof tiles, "%c64 %c64", kinds[i / 4], kinds[i % 4]);
        start_laid(160, tiles);
        break_count();
        mends("0 160 top\n");
        stop();
    }
}

static void whole_arena(void)
{
    group("repair: a whole arena is free, or held, or nothing but the top");
    start_laid(1024, "c32 f48 b64 c48 u144 f32 b32");
    put_word(2, 144);
    mends("0 1024 top\n"); /* binned ones touch each other and the top */
    struct lent after = repaired(&heap, NEWEST), opened = lend(1024, 0);
    lent_open(&opened, KEY, edition);
    CHECK(same_record(&after, &opened), "the record is not as newly opened");
    eight_of(&after, 8, 1025);
    give_back(&opened);
    give_back(&after);
    stop();

    start_laid(256, "l32 l48 l64");
    break_count();
    mends("0 32 live\n32 48 live\n80 64 live\n144 112 top\n");
    stop();
    for (uint32_t length = 32; length <= 64; length += 16) {
        char tiles[32];
        start(length);
        stays();
        put_word(plain_bin_last(5), 0);
        snprintf(tiles, sizeof tiles, "0 %u top\n", length);
        mends(tiles);
        stop();
    }
    start_laid(64, "f32");
    break_count();
    mends("0 64 top\n");
    put_word(plain_fast_head(0), PLAIN_NONE32);
    mends("0 32 live\n32 32 top\n");
    stop();
}

/* Held chunks are not joined, whatever stands in them. */
static void held_stay_apart(void)
{
    group("repair: only what is reached is joined");
    start_laid(1024, "c32 l32 f32 l48 u64 l32 l32 b80");
    break_count();
    plain_put(heap.arena + 32 + 16, 8, 96); /* as if it were listed */
    plain_put(heap.arena + 32 + 24, 8, KEY);
    plain_put(heap.arena + 96 + 8, 8, 48); /* P says the fast one is binned */
    mends("0 32 free\n32 32 live\n64 32 free\n96 48 live\n144 64 free\n"
          "208 32 live\n240 32 live\n272 752 top\n");
    put_word(plain_bin_first(1), PLAIN_NONE32);
    mends("0 32 free\n32 32 live\n64 32 free\n96 48 live\n144 64 live\n"
          "208 32 live\n240 32 live\n272 752 top\n");
    put_word(plain_cache_head(0), PLAIN_NONE32);
    put_word(plain_bin_first(5), 8);
    mends("0 32 live\n32 32 live\n64 32 free\n96 48 live\n144 64 live\n"
          "208 32 live\n240 32 live\n272 80 live\n352 672 top\n");
    put_word(plain_fast_head(0), 1024);
    mends("0 32 live\n32 32 live\n64 32 live\n96 48 live\n144 64 live\n"
          "208 32 live\n240 32 live\n272 80 live\n352 672 top\n");
    stop();
}

static void skips_of_whole(const char *tiles, bool large)
{
    start_laid(4096, tiles);
    break_count();
    struct lent after = repaired(&heap, NEWEST);
    eight_of(&after, 32 + 32, large ? PLAIN_NONE64 : UNWRITTEN);
    eight_of(&after, 32 + 40, large ? PLAIN_NONE64 : UNWRITTEN);
    eight_of(&after, 32 + 48, UNWRITTEN);
    give_back(&after);
    mends(large ? "0 32 live\n32 1024 free\n1056 32 live\n1088 3008 top\n"
                : "0 32 live\n32 1008 free\n1040 32 live\n1072 3024 top\n");
    stop();
}

static void skips_at_1024(void)
{
    group("repair: skip links of a whole of 1,024, none of one of 1,008");
    skips_of_whole("l32 c496 c512 l32", false);
    skips_of_whole("l32 c1008 l32", false);
    skips_of_whole("l32 c512 c512 l32", true);
    skips_of_whole("l32 c1024 l32", true);
    skips_of_whole("l32 u64 c960 l32", true);
    skips_of_whole("l32 b1008 l32", false);
}

/* ---- each kind of bad chunk in each kind of list ---- */

/* A list of four, a block behind each, and a top that the list would own. */
static const struct kind {
    const char *walked; /* the group's name */
    char letter;
    uint32_t size[4];
} kinds[] = {
    { "repair: a cache list is walked up to each kind of bad chunk", 'c',
      { 64, 64, 64, 64 } },
    { "repair: a fast list is walked up to each kind of bad chunk", 'f',
      { 64, 64, 64, 64 } },
    { "repair: unsorted is walked up to each kind of bad chunk", 'u',
      { 64, 80, 48, 1040 } },
    { "repair: a small bin is walked up to each kind of bad chunk", 'b',
      { 64, 64, 64, 64 } },
    { "repair: a large bin is walked up to each kind of bad chunk", 'b',
      { 1072, 1056, 1040, 1024 } }
};

static const struct kind *kind;
static uint32_t four[4]; /* where they are */
static uint32_t top_of_four;

static bool in_bins(void)
{
    return kind->letter == 'u' || kind->letter == 'b';
}

static void start_four(void)
{
    char tiles[128];
    size_t used = 0;

    top_of_four = 0;
    for (unsigned i = 0; i < 4; i++) {
        four[i] = top_of_four;
        used += (size_t)snprintf(tiles + used, sizeof tiles - used,
                                 "%c%u l32 ", kind->letter, kind->size[i]);
        top_of_four += kind->size[i] + 32;
    }
    start_laid(top_of_four + kind->size[3], tiles);
    CHECK(lent_sound(&heap), "the list of four is not sound");
}

/* The first so many of the four are free. */
static void first_are_free_by(unsigned version, unsigned count)
{
    char tiles[512];
    size_t used = 0;

    for (unsigned i = 0; i < 4; i++)
        used += (size_t)snprintf(tiles + used, sizeof tiles - used,
                                 "%u %u %s\n%u 32 live\n", four[i],
                                 kind->size[i], i < count ? "free" : "live",
                                 four[i] + kind->size[i]);
    snprintf(tiles + used, sizeof tiles - used, "%u %u top\n", top_of_four,
             kind->size[3]);
    mends_by(version, tiles);
}

static void first_are_free(unsigned count)
{
    for (unsigned version = 1; version <= NEWEST; version++)
        if (version == NEWEST || edition == 1)
            first_are_free_by(version, count);
}

/* Has the list go from the chunk before, or from its start, to another. */
static void lead(unsigned i, uint64_t to)
{
    if (i == 0)
        put_word(start_of(&laid[0]), (uint32_t)to);
    else if (in_bins())
        put_link(four[i - 1], to);
    else
        put_stack_link(four[i - 1], to);
}

/* All that the list asks of a chunk as the i-th, but not what it is. */
static void fit_in(unsigned i, uint32_t c)
{
    put_back_link(c, !in_bins() ? KEY : i == 0 ? PLAIN_NONE64 : four[i - 1]);
}

/* The i-th is led to wrongly: no chunk there, the top, one reached before. */
static void led_wrongly(unsigned i)
{
    uint64_t right = four[i];
    uint64_t bad[] = { right + 8, right + 16, right + 1, top_of_four,
                       heap.length, heap.length + 16, 0xffffffff,
                       ((uint64_t)1 << 32) + right,
                       ((uint64_t)1 << 63) + right, PLAIN_NONE64 - 15,
                       PLAIN_NONE64 - 1 };

    fit_in(i, top_of_four);
    for (unsigned k = 0; k < sizeof bad / sizeof bad[0]; k++) {
        if (i == 0 && bad[k] >= 0xffffffff)
            continue; /* a start has 32 bits, and all ones are none */
        lead(i, bad[k]);
        first_are_free(i);
    }
    for (unsigned k = 0; k < i; k++) {
        lead(i, four[k]); /* a circle */
        first_are_free(i);
    }
    if (kind->letter != 'f') {
        lead(i, PLAIN_NONE64); /* none: the count or the last is wrong */
        first_are_free(i);
    }
    lead(i, right);
}

/* A block of 32 bytes, which only unsorted may own. */
static void of_wrong_size(unsigned i)
{
    uint32_t block = four[i] + kind->size[i];

    if (kind->letter == 'u')
        return;
    lead(i, block);
    fit_in(i, block);
    first_are_free(i);
    lead(i, four[i]);
}

static void with_wrong_second_word(unsigned i)
{
    uint64_t right = plain_get(heap.arena + four[i] + 24, 8);
    uint64_t bad[] = { 0, ~right, right + 16, right - 16, right ^ 1,
                       right ^ ((uint64_t)1 << 63), right & 0xffffffff };

    for (unsigned k = 0; k < sizeof bad / sizeof bad[0]; k++) {
        if (bad[k] == right || kind->letter == 'f')
            continue;
        put_back_link(four[i], bad[k]);
        if (in_bins())
            first_are_free(i);
        else
            first_are_free_by(NEWEST, i);
    }
    put_back_link(four[i], right);
}

static void each_bad_chunk(void)
{
    for (unsigned k = 0; k < sizeof kinds / sizeof kinds[0]; k++) {
        kind = &kinds[k];
        group(kind->walked);
        for (unsigned i = 0; i < 4; i++) {
            start_four();
            led_wrongly(i);
            stop();
            start_four();
            of_wrong_size(i);
            stop();
            start_four();
            with_wrong_second_word(i);
            CHECK(lent_sound(&heap), "the right word is not put back");
            stop();
        }
    }
}

/* Sizes rise at the third; in unsorted and in small bins none is asked. */
static void wrong_order(void)
{
    group("repair: a large bin is walked up to a size that rises");
    start_laid(8192, "b1056 l32 b1040 l32 b1072 l32 b1024 l32");
    mends("0 1056 free\n1056 32 live\n1088 1040 free\n2128 32 live\n"
          "2160 1072 live\n3232 32 live\n3264 1024 live\n4288 32 live\n"
          "4320 3872 top\n");
    stop();
    start_laid(8192, "u1056 l32 u1040 l32 u1072 l32");
    stays();
    stop();
}

static void longer_caches(void)
{
    group("repair: an eighth cached chunk is bad, unless a fast list has it");
    start_laid(1024, "c32 c32 c32 c32 c32 c32 c32 c32 c32 l32");
    mends("0 224 free\n224 32 live\n256 32 live\n288 32 live\n320 704 top\n");
    put_word(plain_fast_head(0), 224);
    mends("0 288 free\n288 32 live\n320 704 top\n");
    put_word(plain_fast_head(0), 256);
    mends("0 224 free\n224 32 live\n256 32 free\n288 32 live\n320 704 top\n");
    put_word(plain_cache_count(0), 7);
    mends("0 224 free\n224 32 live\n256 32 free\n288 32 live\n320 704 top\n");
    stop();
}

/* ---- what condemns no chunk ---- */

static void wrong_counts_and_lasts(void)
{
    static const uint32_t other[] = { 0, 3, 5, 7, 8, 96, 0x80000004,
                                      PLAIN_NONE32 };

    group("repair: a wrong count or last loses no free chunk");
    for (unsigned k = 0; k < sizeof kinds / sizeof kinds[0]; k++) {
        kind = &kinds[k];
        start_four();
        unsigned word = start_of(&laid[0]);
        word += in_bins() ? 1 : 64;
        uint32_t right = plain_word(heap.record, word);
        for (unsigned i = 0; i < 8 && kind->letter != 'f'; i++) {
            put_word(word, other[i]);
            if (other[i] != right)
                first_are_free(4);
        }
        stop();
    }
}

static void wrong_skips(void)
{
    static const uint64_t bad[] = { 1, 16, 1024, 0xffffffff,
                                    ((uint64_t)1 << 32) + 1088,
                                    (uint64_t)1 << 63, PLAIN_NONE64 - 1 };

    group("repair: a wrong skip link loses no free chunk, and is written anew");
    kind = &kinds[4];
    start_four();
    for (unsigned i = 0; i < 4; i++)
        for (unsigned word = 32; word <= 40; word += 8) {
            uint64_t right = plain_get(heap.arena + four[i] + word, 8);
            for (unsigned k = 0; k < sizeof bad / sizeof bad[0]; k++) {
                plain_put(heap.arena + four[i] + word, 8, bad[k]);
                for (unsigned version = 3; version <= NEWEST; version++)
                    first_are_free_by(version, 4);
                stays_by(1);
                stays_by(2);
            }
            plain_put(heap.arena + four[i] + word, 8, right);
        }
    stays();
    put_skips(four[1], 7, 7); /* older rules do not ask, but it is written */
    put_word(plain_bin_last(64), 0);
    first_are_free(4);
    stop();
    kind = &kinds[2];
    start_four();
    put_skips(four[3], 0, 0); /* of 1,040 bytes, in unsorted */
    first_are_free_by(NEWEST, 4);
    stop();
}

static void wrong_flags(void)
{
    group("repair: flags and end sizes play no part, and are set anew");
    for (unsigned k = 0; k < sizeof kinds / sizeof kinds[0]; k++) {
        kind = &kinds[k];
        start_four();
        for (unsigned i = 0; i < 4; i++) { /* of the blocks behind them */
            uint32_t block = four[i] + kind->size[i];
            plain_put(heap.arena + block + 8, 8,
                      plain_get(heap.arena + block + 8, 8) ^ 1);
            first_are_free(4);
        }
        for (unsigned i = 0; i < 4; i++) {
            plain_put(heap.arena + four[i] + 8, 8, kind->size[i]);
            first_are_free(4);
        }
        stop();
    }
    kind = &kinds[3];
    start_four();
    plain_put(heap.arena + 64, 8, 80);
    first_are_free(4);
    stop();
}

static void last_remainders(void)
{
    static const uint32_t other[] = { 0, 32, 64, 8, 96, 1024, 4294967294 };

    group("repair: the last remainder is no fault, and none behind a repair");
    kind = &kinds[2];
    start_four();
    for (unsigned i = 0; i < sizeof other / sizeof other[0]; i++) {
        put_word(2, other[i]);
        stays();
    }
    put_word(plain_cache_count(9), 1);
    first_are_free(4);
    stop();
}

/* ---- lists that meet ---- */

static void lists_that_cross(void)
{
    group("repair: of two lists that cross the first has the rest");
    start_laid(1024, "c64 l32 c64 l32 f64 l32 f64 l32 f64 l32");
    put_stack_link(0, 192); /* its key is missing there */
    mends_by(NEWEST, "0 64 free\n64 32 live\n96 64 live\n160 32 live\n"
                     "192 64 free\n256 32 live\n288 64 free\n352 32 live\n"
                     "384 64 free\n448 32 live\n480 544 top\n");
    put_key(192, KEY);
    put_key(288, KEY);
    put_key(384, KEY);
    mends("0 64 free\n64 32 live\n96 64 live\n160 32 live\n192 64 free\n"
          "256 32 live\n288 64 free\n352 32 live\n384 64 free\n448 32 live\n"
          "480 544 top\n"); /* all by the cache */
    put_stack_link(0, 288);
    put_stack_link(384, 96); /* and on by the cache's own last */
    mends("0 64 free\n64 32 live\n96 64 free\n160 32 live\n192 64 free\n"
          "256 32 live\n288 64 free\n352 32 live\n384 64 free\n448 32 live\n"
          "480 544 top\n"); /* the fast list has its first alone */
    put_key(288, 0); /* and here all behind it */
    mends_by(NEWEST, "0 64 free\n64 32 live\n96 64 free\n160 32 live\n"
                     "192 64 free\n256 32 live\n288 64 free\n352 32 live\n"
                     "384 64 free\n448 32 live\n480 544 top\n");
    stop();

    start_laid(8192, "u1040 l32 b1056 l32 b1040 l32");
    put_link(0, 1072); /* from unsorted into bin 64 */
    mends("0 1040 free\n1040 32 live\n1072 1056 free\n2128 32 live\n"
          "2160 1040 free\n3200 32 live\n3232 4960 top\n"); /* back link: bad */
    put_back_link(1072, 0); /* so it is unsorted's, and so is the rest */
    mends("0 1040 free\n1040 32 live\n1072 1056 free\n2128 32 live\n"
          "2160 1040 free\n3200 32 live\n3232 4960 top\n");
    put_word(plain_bin_first(1), PLAIN_NONE32); /* no list has it first */
    mends("0 1040 live\n1040 32 live\n1072 1056 live\n2128 32 live\n"
          "2160 1040 live\n3200 32 live\n3232 4960 top\n");
    stop();
}

static void bad_here_good_there(void)
{
    group("repair: a chunk that is bad in one list may be free by a later one");
    start_laid(1024, "c32 l32 c32 l32");
    put_key(0, 7);
    put_word(plain_fast_head(0), 0); /* which leads on to the second */
    mends_by(NEWEST, "0 32 free\n32 32 live\n64 32 free\n96 32 live\n"
                     "128 896 top\n");
    put_word(plain_fast_head(0), PLAIN_NONE32);
    put_word(plain_bin_first(1), 0);
    mends_by(NEWEST, "0 32 live\n32 32 live\n64 32 live\n96 32 live\n"
                     "128 896 top\n");
    put_back_link(0, PLAIN_NONE64);
    put_back_link(64, 0);
    mends_by(NEWEST, "0 32 free\n32 32 live\n64 32 free\n96 32 live\n"
                     "128 896 top\n");
    stop();
    start_laid(1024, "f32 l32");
    put_word(plain_fast_head(1), 0); /* by size */
    mends("0 32 free\n32 32 live\n64 960 top\n");
    put_word(plain_fast_head(0), PLAIN_NONE32);
    mends("0 32 live\n32 32 live\n64 960 top\n");
    put_word(plain_fast_head(1), PLAIN_NONE32);
    for (unsigned k = 7; k < 10; k++) { /* these own none */
        plain_put(heap.arena + 8, 8, 33 + 16 * k);
        plain_put(heap.arena + 32 + 16 * k + 8, 8, 33);
        plain_put(heap.arena + 64 + 16 * k + 8, 8, 1024 - 64 - 16 * k + 1);
        put_word(1, 64 + 16 * k);
        put_word(plain_fast_head(k), 0);
        char tiles[64];
        snprintf(tiles, sizeof tiles, "0 %u live\n%u 32 live\n%u %u top\n",
                 32 + 16 * k, 32 + 16 * k, 64 + 16 * k, 960 - 16 * k);
        mends(tiles);
        put_word(plain_fast_head(k), PLAIN_NONE32);
    }
    stop();
}

/* ---- keys, editions, versions ---- */

static void overwritten_key(void)
{
    static const uint64_t other[] = { 0, PLAIN_NONE64, ~KEY, KEY + 1,
                                      KEY & PLAIN_NONE32 };

    group("repair: the record's key overwritten: the cache is held, unless "
          "the version is 1");
    for (unsigned i = 0; i < sizeof other / sizeof other[0]; i++) {
        start_laid(1024, "c32 c48 l32 f64 c32 l32");
        plain_put_key(heap.record, other[i]);
        stays_by(1);
        mends_since(2, "0 32 live\n32 48 live\n80 32 live\n112 64 free\n"
                       "176 32 live\n208 32 live\n240 784 top\n");
        put_word(plain_bin_last(3), 0);
        mends_by(1, "0 80 free\n80 32 live\n112 96 free\n208 32 live\n"
                    "240 784 top\n");
        stop();
    }
}

/* The tiles of start_mixed_stacks; the free ones touch the top. */
static const char *mixed_tiles(uint32_t first_free)
{
    static char text[512];
    int used = snprintf(text, sizeof text, "0 8160 live\n");

    for (uint32_t c = 8160; c < first_free; c += 32)
        used += snprintf(text + used, sizeof text - (size_t)used,
                         "%u 32 live\n", c);
    snprintf(text + used, sizeof text - (size_t)used, "%u %u top\n",
             first_free, 16384 - first_free);
    return text;
}

static void mixed_in_the_middle(uint64_t stored, uint32_t right_in)
{
    put_link(8256, stored);
    if (edition == right_in)
        stays_by(NEWEST);
    else
        mends_by(NEWEST, mixed_tiles(8256));
}

static void mixed_links(void)
{
    group("repair: links are read by the edition, and by no other");
    start_mixed_stacks();
    stays_by(NEWEST);
    mixed_in_the_middle(8224, 1);
    mixed_in_the_middle(8226, 2);
    mixed_in_the_middle(8225, 3);
    mixed_in_the_middle(8224 ^ 8256, 3);
    mixed_in_the_middle(PLAIN_NONE64, 3);
    mixed_in_the_middle(PLAIN_NONE64 - 2, 3);
    put_link(8256, edition == 2 ? 8226 : 8224);
    put_link(8160, PLAIN_NONE64 - 7);
    mends_by(NEWEST, mixed_tiles(8160));
    put_link(8160, edition == 2 ? PLAIN_NONE64 - 1 : PLAIN_NONE64);
    stays_by(NEWEST);
    plain_put_edition(heap.record, 3 - edition); /* each head, and no more */
    mends_by(NEWEST, mixed_tiles(8352));
    stop();
}

static void old_without_keys(void)
{
    group("repair: version 1 asks no key, and no version leaves a ring");
    start_laid(8192, "c32 l32 c32 l32 b1040 l32 b1024 l32");
    put_key(0, 3);
    put_key(64, 4);
    put_skips(128, 5, 6);
    put_word(plain_bin_last(64), 64);
    mends_by(1, "0 32 free\n32 32 live\n64 32 free\n96 32 live\n"
                "128 1040 free\n1168 32 live\n1200 1024 free\n2224 32 live\n"
                "2256 5936 top\n");
    mends_since(2, "0 32 live\n32 32 live\n64 32 live\n96 32 live\n"
                   "128 1040 free\n1168 32 live\n1200 1024 free\n"
                   "2224 32 live\n2256 5936 top\n");
    for (unsigned version = 1; version <= NEWEST; version++) {
        struct lent read = read_from_old(&heap, version);
        struct lent after = repaired(&read, version);
        for (uint32_t c = 128; c <= 1200; c += 1072)
            for (uint32_t word = 32; word <= 40; word += 8)
                eight_of(&after, c + word, PLAIN_NONE64);
        CHECK(plain_key(after.record) == (version == 1 ? 0 : KEY),
              "another key by version %u", version);
        give_back(&after);
        give_back(&read);
    }
    stop();
}

/* ---- refusals ---- */

static void refuses_shape(size_t length, size_t record_len)
{
    struct bytes arena = filled(length, 1), record = filled(record_len, 2);
    for (unsigned version = 0; version <= NEWEST; version++) {
        struct second_answer a = version == 0
            ? second_repair(arena.at, length, record.at, record_len)
            : second_repair_by(version, arena.at, length, record.at,
                               record_len);
        CHECK(a.no == 1 && a.mem == 0 && a.usable == 0,
              "lengths %zu and %zu are answered %u %u %u, not 1 0 0", length,
              record_len, a.no, a.mem, a.usable);
    }
    CHECK(all_are(&arena, 1) && all_are(&record, 2),
          "lengths %zu and %zu are refused, but something is written", length,
          record_len);
    free(arena.at);
    free(record.at);
}

static void bad_shapes(void)
{
    static const size_t bad[] = { 0, 1, 15, 16, 17, 31, 33, 40, 100, 262143,
                                  262145, 262152, 262160, 524288 };
    static const size_t other[] = { 0, 1, 1572, 1580, 1583, 1585, 1588, 1592 };

    group("repair: 1 for a shape, before any fault, and nothing is written");
    for (unsigned i = 0; i < sizeof bad / sizeof bad[0]; i++)
        refuses_shape(bad[i], 1584);
    for (unsigned i = 0; i < sizeof other / sizeof other[0]; i++)
        refuses_shape(256, other[i]);
    refuses_shape(31, 1572);
}

/* The heap in hand is refused with 11, and so are its images. */
static void not_to_mend_by(unsigned version)
{
    struct lent after = repaired(&heap, version);
    struct bytes file = image_by_hand(&heap, version);

    CHECK(lent_repair_by(&after, version).no == 11, "not refused with 11");
    prints_refusal(file.at, file.length, "? 11\n");
    free(file.at);
    give_back(&after);
}

static void not_to_mend(void)
{
    for (unsigned version = 1; version <= NEWEST; version++)
        not_to_mend_by(version);
}

static void faults_of_record_and_tiles(void)
{
    static const uint32_t no_edition[] = { 0, 3, 257, 0x80000001,
                                           PLAIN_NONE32 };

    group("repair: 11 for a fault of the record or of a tile, and nothing is "
          "written");
    start_laid(1024, "c32 l32 u64 l32");
    put_word(0, 1040);
    not_to_mend();
    put_word(0, 1008);
    not_to_mend();
    put_word(0, 1024);
    put_word(1, 128);
    not_to_mend();
    put_word(1, PLAIN_NONE32);
    not_to_mend();
    put_word(1, 160);
    stays();
    static const uint64_t word[] = { 35, 37, 41, 0, 1, 17, 1041,
                                     ((uint64_t)1 << 32) + 33, PLAIN_NONE64 };
    for (unsigned i = 0; i < sizeof word / sizeof word[0]; i++) {
        plain_put(heap.arena + 40, 8, word[i]);
        not_to_mend();
    }
    put_word(plain_cache_head(0), 8); /* with another fault */
    not_to_mend();
    plain_put(heap.arena + 40, 8, 33);
    mends("0 32 live\n32 32 live\n64 64 free\n128 32 live\n160 864 top\n");
    for (unsigned i = 0; i < sizeof no_edition / sizeof no_edition[0]; i++) {
        plain_put_edition(heap.record, no_edition[i]);
        not_to_mend_by(NEWEST);
    }
    plain_put_edition(heap.record, edition);
    put_word(plain_cache_head(0), 0);
    stays();
    stop();
}

static void refused_images(void)
{
    group("heapmend: 6, 7 and 1 before 11, one line, and no image");
    start_laid(128, "c32 l32");
    put_word(0, 144); /* a fault of the record besides */
    for (unsigned version = 1; version <= NEWEST; version++) {
        struct bytes file = image_by_hand(&heap, version);
        prints_refusal(file.at, file.length, "? 11\n");
        prints_refusal(file.at, 0, "? 6\n");
        prints_refusal(file.at, 4, "? 6\n");
        prints_refusal(file.at, 5, "? 1\n");
        prints_refusal(file.at, 9, "? 1\n");
        prints_refusal(file.at, arena_in(version), "? 1\n");
        prints_refusal(file.at, file.length - 1, "? 1\n");
        prints_refusal(file.at, file.length - 16, "? 1\n");
        file.at[3] = 5;
        prints_refusal(file.at, file.length, "? 7\n");
        prints_refusal(file.at, 5, "? 7\n");
        file.at[0] = 'h';
        prints_refusal(file.at, file.length, "? 6\n");
        free(file.at);
    }
    stop();
}

/* ---- random damage ---- */

static struct {
    uint64_t heaps, sound, refused, mended;
    uint64_t reached, held, calls;
} counts;

static void clear_counts(void)
{
    memset(&counts, 0, sizeof counts);
}

static void tell_counts(void)
{
    remark(", %llu heaps: %llu sound, %llu refused, %llu mended, with %llu "
           "chunks free and %llu held",
           (unsigned long long)counts.heaps, (unsigned long long)counts.sound,
           (unsigned long long)counts.refused,
           (unsigned long long)counts.mended,
           (unsigned long long)counts.reached,
           (unsigned long long)counts.held);
    if (counts.calls > 0)
        remark(", %llu calls behind", (unsigned long long)counts.calls);
}

/* A live block of a sound heap, or 0. */
static uint32_t random_live(struct random *r, const struct lent *l)
{
    uint32_t mem = 0, seen = 0;

    plain_read(&is, l->arena, (uint32_t)l->length, l->record);
    for (uint32_t i = 0; i < is.tiles; i++)
        if (is.tile[i].state == PLAIN_LIVE && random_below(r, ++seen) == 0)
            mem = is.tile[i].at + 16;
    return mem;
}

static struct second_answer random_call(struct random *r, struct lent *l)
{
    uint32_t n = random_chance(r, 80) ? random_below(r, 300)
                                      : random_below(r, 5000);
    uint32_t mem = random_live(r, l);

    switch (random_below(r, 8)) {
    case 0: case 1: case 2: return lent_grant(l, n);
    case 3: case 4: return lent_release(l, mem);
    case 5: return lent_resize(l, mem, n);
    case 6: return lent_emptying(l);
    default: return lent_joining(l);
    }
}

/* What was mended goes on: calls are answered, and in the end all is free. */
static void goes_on(struct random *r, struct lent *l)
{
    uint32_t mem;

    for (uint32_t i = random_below(r, 40); i > 0 && !group_failed(); i--) {
        struct second_answer a = random_call(r, l);
        CHECK((a.no == 0 || a.no == 5) && lent_sound(l),
              "seed %llu: a call behind a repair answers %u, or is not sound",
              SEED, a.no);
        counts.calls++;
    }
    if (l->length > 4096)
        return;
    while (!group_failed() && (mem = random_live(r, l)) != 0)
        CHECK(lent_release(l, mem).no == 0,
              "seed %llu: a block behind a repair is not released", SEED);
    CHECK(lent_emptying(l).no == 0 && lent_joining(l).no == 0
              && plain_word(l->record, 1) == 0,
          "seed %llu: with all released there is not one chunk left", SEED);
}

/* Repairs it by the rules of that version, and goes on. */
static void repair_random(struct random *r, const struct lent *l,
                          unsigned version)
{
    uint32_t kind = lent_audit_by(l, version).kind;
    struct lent after = repaired(l, version);

    counts.heaps++;
    if (kind == SECOND_SOUND) {
        counts.sound++;
    } else if (kind == SECOND_RECORD || kind == SECOND_TILE) {
        counts.refused++;
    } else if (!group_failed()) {
        counts.mended++;
        for (uint32_t i = 0; i < was_count; i++) {
            counts.reached += was[i].list < ORACLE_LIVE;
            counts.held += was[i].list == ORACLE_LIVE;
        }
        goes_on(r, &after);
    }
    give_back(&after);
}

static struct lent random_lent(struct random *r)
{
    struct lent l = lend(random_chance(r, 50) ? 4096 + 16 * random_below(r, 768)
                                              : random_length(r, 16384),
                         0);
    random_heap(r, l.arena, (uint32_t)l.length, l.record);
    return l;
}

static void one_word(struct random *r, struct lent *l)
{
    damage_words(r, l->arena, (uint32_t)l->length, l->record, 1);
}

static void many_words(struct random *r, struct lent *l)
{
    damage_words(r, l->arena, (uint32_t)l->length, l->record,
                 2 + random_below(r, 30));
}

static void one_field(struct random *r, struct lent *l)
{
    damage_field(r, l->arena, (uint32_t)l->length, l->record);
}

static void crossing(struct random *r, struct lent *l)
{
    damage_lists(r, l->arena, (uint32_t)l->length, l->record);
}

static void any_bytes(struct random *r, struct lent *l)
{
    damage_bytes(r, l->arena, (uint32_t)l->length, l->record);
}

/* Any bytes of a heap whose tiles and length stay. */
static void listed_bytes(struct random *r, struct lent *l)
{
    uint32_t length = (uint32_t)l->length;

    for (uint32_t i = random_below(r, 20); i > 0; i--)
        damage_lists(r, l->arena, length, l->record);
    for (unsigned word = 2; word < PLAIN_WORDS; word++)
        if (random_chance(r, 10))
            plain_put_word(l->record, word, (uint32_t)random_next(r));
    for (uint32_t at = 0; at < length; at += size_at(l, at))
        if (random_chance(r, 20))
            plain_put(l->arena + at + 8, 8, size_at(l, at)
                                                + random_below(r, 2));
}

static void one_key(struct random *r, struct lent *l)
{
    if (random_chance(r, 80))
        damage_key(r, l->arena, l->record);
    else
        plain_put_key(l->record, random_key(r));
}

static void one_link(struct random *r, struct lent *l)
{
    if (random_chance(r, 80))
        damage_link(r, l->arena, l->record);
    else
        plain_put_edition(l->record, random_edition(r));
}

static void any_flaw(struct random *r, struct lent *l)
{
    flawed_heap(r, 1 + random_below(r, FLAW_COUNT - 1), l->arena,
                (uint32_t)l->length, l->record);
}

static void nothing(struct random *r, struct lent *l)
{
    (void)r;
    (void)l;
}

typedef void damage(struct random *r, struct lent *l);

static void damaged_heaps(const char *name, damage *damage, uint64_t seeds,
                          uint32_t rounds, uint32_t percent_mended)
{
    group(name);
    clear_counts();
    for (uint64_t i = 1; i <= rounds && !group_failed(); i++) {
        struct random r = { of_seed = seeds + i };
        struct lent l = random_lent(&r);
        damage(&r, &l);
        repair_random(&r, &l, NEWEST);
        give_back(&l);
    }
    tell_counts();
    CHECK(100 * counts.mended >= percent_mended * counts.heaps,
          "only %llu of %llu were mended", (unsigned long long)counts.mended,
          (unsigned long long)counts.heaps);
    of_seed = 0;
}

/* ---- what loses nothing ---- */

static void other_flag(struct random *r, struct lent *l)
{
    uint32_t at = 0;

    while (random_chance(r, 80) && at + size_at(l, at) < l->length)
        at += size_at(l, at);
    if (random_chance(r, 50))
        plain_put(l->arena + at, 8, random_next(r)); /* maybe a holder's */
    else
        plain_put(l->arena + at + 8, 8,
                  plain_get(l->arena + at + 8, 8) ^ 1);
}

/* A count, a last, a skip link, a flag or an end size. */
static void redundant_word(struct random *r, struct lent *l)
{
    uint32_t value = random_chance(r, 50) ? random_below(r, 9)
                                          : (uint32_t)random_next(r);
    switch (random_below(r, 4)) {
    case 0:
        plain_put_word(l->record, plain_cache_count(random_below(r, 64)),
                       value);
        break;
    case 1:
        plain_put_word(l->record, plain_bin_last(1 + random_below(r, 126)),
                       value);
        break;
    case 2: damage_skip(r, l->arena, l->record); break;
    default: other_flag(r, l);
    }
}

/* The lists reach what is free, and nothing else. */
static void loses_nothing(const struct lent *l)
{
    read_before(l, NEWEST);
    for (uint32_t i = 0; i < was_count && !group_failed(); i++)
        CHECK((is.tile[i].state == PLAIN_LIVE) == (was[i].list == ORACLE_LIVE),
              "seed %llu: the chunk at %u is free no longer, or held", SEED,
              was[i].at);
}

static void redundant_words(uint32_t rounds)
{
    group("repair: random counts, lasts, skip links and flags lose no chunk");
    clear_counts();
    for (uint64_t i = 1; i <= rounds && !group_failed(); i++) {
        struct random r = { of_seed = (1u << 24) + i };
        struct lent l = random_lent(&r);
        plain_read(&is, l.arena, (uint32_t)l.length, l.record);
        for (uint32_t times = 1 + random_below(&r, 4); times > 0; times--)
            redundant_word(&r, &l);
        loses_nothing(&l);
        repair_random(&r, &l, NEWEST);
        give_back(&l);
    }
    tell_counts();
    CHECK(counts.refused == 0 && 2 * counts.mended > counts.heaps,
          "only %llu were mended", (unsigned long long)counts.mended);
    of_seed = 0;
}

/* ---- images ---- */

/* A heap of edition 1 before version 4, with what older rules do not ask. */
static struct lent random_old(struct random *r, unsigned version)
{
    struct lent l = random_lent(r);
    uint32_t length = (uint32_t)l.length;

    if (version < NEWEST)
        plain_to_edition(l.arena, l.record, 1);
    if (version == 1 && random_chance(r, 70))
        plain_put_key(l.record, random_key(r));
    if (version < 3 && random_chance(r, 70))
        damage_skip(r, l.arena, l.record);
    switch (random_below(r, 5)) {
    case 0: damage_words(r, l.arena, length, l.record, 1); break;
    case 1: damage_field(r, l.arena, length, l.record); break;
    case 2: damage_lists(r, l.arena, length, l.record); break;
    case 3: redundant_word(r, &l); break;
    }
    return l;
}

static void mend_random(struct random *r, unsigned version)
{
    struct lent l = random_old(r, version);
    struct lent read = read_from_old(&l, version);
    struct lent after = repaired(&read, version);
    uint32_t kind = lent_audit_by(&read, version).kind;

    counts.heaps++;
    if (kind == SECOND_RECORD || kind == SECOND_TILE) {
        struct bytes file = image_by_hand(&l, version);
        prints_refusal(file.at, file.length, "? 11\n");
        free(file.at);
        counts.refused++;
    } else {
        prints_changes(&l, version, &read, &after);
        *(kind == SECOND_SOUND ? &counts.sound : &counts.mended) += 1;
        CHECK(lent_sound(&after), "seed %llu: not sound by today's rules",
              SEED);
    }
    give_back(&after);
    give_back(&read);
    give_back(&l);
}

static void random_images(uint32_t rounds)
{
    static const char *const name[] = {
        "heapmend: random images of version 1",
        "heapmend: random images of version 2",
        "heapmend: random images of version 3",
        "heapmend: random images of version 4"
    };

    for (unsigned version = 1; version <= NEWEST; version++) {
        group(name[version - 1]);
        clear_counts();
        for (uint64_t i = 1; i <= rounds && !group_failed(); i++) {
            struct random r = { of_seed = (version << 26) + i };
            mend_random(&r, version);
        }
        remark(", %llu sound, %llu refused, %llu mended",
               (unsigned long long)counts.sound,
               (unsigned long long)counts.refused,
               (unsigned long long)counts.mended);
        CHECK(counts.sound > 0 && counts.refused > 0
                  && 3 * counts.mended > counts.heaps,
              "only %llu were mended", (unsigned long long)counts.mended);
        of_seed = 0;
    }
}

/* ---- the longest ---- */

/* Every tile of 32 bytes in the longest arena, every other one fast. */
static void most_tiles(void)
{
    group("repair: 8,192 tiles, every other one free, and all of them");
    start(262144);
    for (uint32_t c = 0; c < 262144; c += 32) {
        plain_put(heap.arena + c + 8, 8, 33);
        put_stack_link(c, c + 64 < 262144 ? c + 64 : PLAIN_NONE64);
    }
    put_word(1, 262112);
    put_word(plain_fast_head(0), 0);
    put_word(plain_bin_last(126), 0);
    struct lent after = repaired(&heap, NEWEST);
    plain_read(&is, after.arena, 262144, after.record);
    CHECK(is.tiles == 8191 && is.tile[8190].at == 262080
              && is.tile[8189].state == PLAIN_LIVE
              && is.tile[8188].state == PLAIN_BINNED,
          "the last free one is not the top's, or those before are other");
    give_back(&after);
    for (uint32_t c = 0; c < 262080; c += 32)
        put_stack_link(c, c + 32);
    put_stack_link(262080, PLAIN_NONE64);
    mends_by(NEWEST, "0 262144 top\n");
    stop();
}

static void traces(void)
{
    every_number();
    pairs_join();
    whole_arena();
    held_stay_apart();
    skips_at_1024();
    each_bad_chunk();
    wrong_order();
    longer_caches();
    wrong_counts_and_lasts();
    wrong_skips();
    wrong_flags();
    last_remainders();
    lists_that_cross();
    bad_here_good_there();
    overwritten_key();
    mixed_links();
    old_without_keys();
    bad_shapes();
    faults_of_record_and_tiles();
    refused_images();
    most_tiles();
}

int main(int argc, char **argv)
{
    uint32_t share = share_of(argc, argv);

    in_both_editions(traces);
    damaged_heaps("repair: sound heaps are left as they are", nothing, 1u << 25,
                  2000 / share, 0);
    damaged_heaps("repair: one word of arena or record", one_word, 1u << 16,
                  8000 / share, 20);
    damaged_heaps("repair: many words of arena and record", many_words,
                  1u << 17, 8000 / share, 10);
    damaged_heaps("repair: one field", one_field, 1u << 18, 8000 / share, 30);
    damaged_heaps("repair: random bytes", any_bytes, 1u << 19, 4000 / share,
                  10);
    damaged_heaps("repair: lists that cross, circles", crossing, 1u << 20,
                  8000 / share, 60);
    damaged_heaps("repair: nothing right but the tiles", listed_bytes, 1u << 21,
                  4000 / share, 90);
    damaged_heaps("repair: an overwritten key", one_key, 1u << 22,
                  4000 / share, 30);
    damaged_heaps("repair: a link stored otherwise", one_link, 1u << 23,
                  4000 / share, 30);
    damaged_heaps("repair: one rule broken throughout", any_flaw,
                  (1u << 25) + (1u << 20), 4000 / share, 10);
    redundant_words(4000 / share);
    random_images(3000 / share);
    return finish();
}
