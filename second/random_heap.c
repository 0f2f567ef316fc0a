#include "random_heap.h"

#include <stdlib.h>
#include <string.h>

#include "plain.h"

/* ---- numbers ---- */

uint64_t random_next(struct random *r)
{
    uint64_t z = (r->state += 0x9e3779b97f4a7c15u); /* splitmix64 */
    z = (z ^ (z >> 30)) * 0xbf58476d1ce4e5b9u;
    z = (z ^ (z >> 27)) * 0x94d049bb133111ebu;
    return z ^ (z >> 31);
}

uint32_t random_below(struct random *r, uint32_t n)
{
    return (uint32_t)(((random_next(r) >> 32) * n) >> 32);
}

bool random_chance(struct random *r, uint32_t percent)
{
    return random_below(r, 100) < percent;
}

void random_bytes(struct random *r, uint8_t *bytes, size_t length)
{
    for (size_t i = 0; i < length; i += 8) {
        unsigned left = length - i < 8 ? (unsigned)(length - i) : 8;
        plain_put(bytes + i, left, random_next(r));
    }
}

uint32_t random_length(struct random *r, uint32_t most)
{
    static const uint32_t limit[] = { 128, 512, 2048, 8192, 32768, 262144 };
    uint32_t to = limit[random_below(r, 6)];
    if (to > most)
        to = most;
    return 32 + 16 * random_below(r, (to - 32) / 16 + 1);
}

uint64_t random_key(struct random *r)
{
    switch (random_below(r, 8)) {
    case 0: return 0;
    case 1: return PLAIN_NONE64;
    case 2: return 16 * (uint64_t)random_below(r, PLAIN_ARENA_MAX / 16);
    case 3: return 0x0101010101010101u * random_below(r, 256);
    default: return random_next(r);
    }
}

uint32_t random_edition(struct random *r)
{
    return 1 + random_below(r, 2);
}

/* ---- sound heaps ---- */

enum home { NO_LIST = 0, FIRST_CACHE = 1, FIRST_FAST = 65, FIRST_BIN = 75 };

struct piece {
    uint32_t at, size;
    uint32_t list;  /* NO_LIST, or a list counted from FIRST_CACHE */
    uint32_t rank;  /* falls within a large bin */
    uint64_t order; /* random, so that lists run across the arena */
};

struct plan {
    enum flaw flaw;
    struct piece piece[PLAIN_TILES_MAX];
    uint32_t pieces; /* without the top */
    uint32_t top;
    uint32_t palette[5];
    uint32_t palette_percent; /* of the sizes come from the palette */
    uint32_t cached[64];
    uint32_t weight[5]; /* live, cache, fast, own bin, unsorted */
    uint64_t key;
    uint32_t edition;
};

static uint32_t random_size(struct random *r, const struct plan *plan)
{
    if (random_chance(r, plan->palette_percent))
        return plan->palette[random_below(r, 5)];
    switch (random_below(r, 6)) {
    case 0: case 1: return 32 + 16 * random_below(r, 8);
    case 2: return 32 + 16 * random_below(r, 64);
    case 3: return 976 + 16 * random_below(r, 8);
    case 4: return 1024 + 16 * random_below(r, 150);
    default:
        return random_chance(r, 80) ? 32 : 16 * (2 + random_below(r, 4096));
    }
}

/* Few sizes make long lists; a third of the palettes share a large bin. */
static void draw_palette(struct random *r, struct plan *plan)
{
    static const uint32_t percent[] = { 0, 30, 70, 95 };
    uint32_t bin_start = 1024 + 64 * random_below(r, 30);
    bool one_bin = random_chance(r, 33);

    plan->palette_percent = 0;
    for (unsigned i = 0; i < 5; i++)
        plan->palette[i] = i > 0 && one_bin
            ? bin_start + 16 * random_below(r, 4) : random_size(r, plan);
    plan->palette_percent = percent[random_below(r, 4)];
}

static bool is_bin(uint32_t list) { return list >= FIRST_BIN; }

/* A list that may take the piece, or NO_LIST if the one drawn may not. */
static uint32_t random_list(struct random *r, struct plan *plan, uint32_t size,
                            bool may_bin)
{
    uint32_t sum = 0, kind = 0;
    for (unsigned i = 0; i < 5; i++)
        sum += plan->weight[i];
    uint32_t drawn = random_below(r, sum);
    while (drawn >= plan->weight[kind])
        drawn -= plan->weight[kind++];

    uint32_t k = (size - 32) / 16, astray = 0;
    if (plan->flaw == FLAW_HOME && random_chance(r, 30))
        astray = 1;
    if (kind == 1 && k + astray < 64
        && (plan->cached[k + astray] < 7 || plan->flaw == FLAW_EIGHT)) {
        plan->cached[k + astray]++;
        return FIRST_CACHE + k + astray;
    }
    if (kind == 2 && k + astray < (plan->flaw == FLAW_HOME ? 10 : 7))
        return FIRST_FAST + k + astray;
    if (kind == 3 && may_bin)
        return FIRST_BIN + plain_bin(size) - 1 + astray;
    if (kind == 4 && may_bin)
        return FIRST_BIN;
    return NO_LIST;
}

static bool may_bin(const struct plan *plan, uint32_t i)
{
    return (i == 0 || !is_bin(plan->piece[i - 1].list)
            || plan->flaw == FLAW_NEIGHBOURS)
        && (i + 1 < plan->pieces || plan->flaw == FLAW_TOP);
}

static void plan_lists(struct random *r, struct plan *plan)
{
    memset(plan->cached, 0, sizeof plan->cached);
    for (uint32_t i = 0; i < plan->pieces; i++) {
        struct piece *piece = &plan->piece[i];
        piece->list = random_list(r, plan, piece->size, may_bin(plan, i));
        piece->rank = plan->flaw == FLAW_ORDER ? 0 : piece->size;
        piece->order = random_next(r);
    }
}

static void plan_pieces(struct random *r, struct plan *plan, uint32_t length)
{
    uint32_t stop = random_chance(r, 30) ? random_below(r, length) : length;

    for (unsigned i = 0; i < 5; i++)
        plan->weight[i] = 1 + random_below(r, 10);
    draw_palette(r, plan);
    plan->pieces = 0;
    plan->top = 0;
    while (plan->top < stop) {
        uint32_t size = random_size(r, plan);
        if (size > length - 32 - plan->top)
            size = 32;
        if (length - plan->top < 64)
            break;
        plan->piece[plan->pieces++] =
            (struct piece){ .at = plan->top, .size = size };
        plan->top += size;
    }
}

static void write_tiles(const struct plan *plan, uint8_t *arena,
                        uint32_t length)
{
    for (uint32_t i = 0; i <= plan->pieces; i++) {
        bool is_top = i == plan->pieces;
        uint32_t at = is_top ? plan->top : plan->piece[i].at;
        uint32_t size = is_top ? length - at : plan->piece[i].size;
        bool binned_before = i > 0 && is_bin(plan->piece[i - 1].list);
        plain_put(arena + at + 8, 8, size + (binned_before ? 0 : 1));
        if (binned_before)
            plain_put(arena + at, 8, plan->piece[i - 1].size);
    }
}

/* List by list; in a large bin the sizes fall, equals in any order. */
static int by_list(const void *left, const void *right)
{
    const struct piece *a = left, *b = right;
    if (a->list != b->list)
        return a->list < b->list ? -1 : 1;
    if (a->list >= FIRST_BIN + 63 && a->rank != b->rank)
        return a->rank > b->rank ? -1 : 1;
    return a->order < b->order ? -1 : a->order > b->order;
}

/* A word that may be taken for the key, but is none. */
static uint64_t other_key(struct random *r, uint64_t key)
{
    switch (random_below(r, 5)) {
    case 0: return key ^ ((uint64_t)1 << random_below(r, 64));
    case 1: return key ^ (PLAIN_NONE64 << 32); /* right if it is cut */
    case 2: return key == 0 ? PLAIN_NONE64 : 0;
    case 3: return ~key;
    default: return key + 1 + random_below(r, 1000);
    }
}

static uint64_t key_of_cached(struct random *r, const struct plan *plan)
{
    return plan->flaw == FLAW_KEY && random_chance(r, 5)
        ? other_key(r, plan->key) : plan->key;
}

/* How no edition, or another than this one, would store a stack's link. */
static uint64_t stored_otherwise(struct random *r, uint32_t edition, uint64_t c,
                                 uint64_t to)
{
    switch (random_below(r, 5)) {
    case 0: return plain_stored(3 - edition, c, to);
    case 1: return to ^ c / 4096; /* by the chunk's position */
    case 2: return to ^ (c + 16) / 2048;
    case 3: return plain_stored(edition, c, to) ^ ((uint64_t)1 << 32);
    default:
        return to == PLAIN_NONE64 ? to : plain_stored(2, c + 4096, to);
    }
}

static uint64_t stored_link(struct random *r, const struct plan *plan,
                            const struct piece *piece, uint64_t to)
{
    if (is_bin(piece->list))
        return to;
    return plan->flaw == FLAW_MIX && random_chance(r, 5)
        ? stored_otherwise(r, plan->edition, piece->at, to)
        : plain_stored(plan->edition, piece->at, to);
}

static void write_links(struct random *r, const struct plan *plan,
                        const struct piece *piece, uint32_t count,
                        uint8_t *arena)
{
    for (uint32_t i = 0; i < count; i++) {
        uint8_t *at = arena + piece[i].at;
        uint64_t to = i + 1 < count ? piece[i + 1].at : PLAIN_NONE64;
        plain_put(at + 16, 8, stored_link(r, plan, &piece[i], to));
        if (is_bin(piece[i].list))
            plain_put(at + 24, 8, i > 0 ? piece[i - 1].at : PLAIN_NONE64);
        else if (piece[i].list < FIRST_FAST)
            plain_put(at + 24, 8, key_of_cached(r, plan));
    }
}

static void write_ends(const struct piece *piece, uint32_t count,
                       uint8_t *record)
{
    uint32_t list = piece[0].list;

    if (is_bin(list)) {
        unsigned bin = list - FIRST_BIN + 1;
        plain_put_word(record, plain_bin_first(bin), piece[0].at);
        plain_put_word(record, plain_bin_last(bin), piece[count - 1].at);
    } else if (list >= FIRST_FAST) {
        plain_put_word(record, plain_fast_head(list - FIRST_FAST), piece[0].at);
    } else {
        plain_put_word(record, plain_cache_head(list - FIRST_CACHE),
                       piece[0].at);
        plain_put_word(record, plain_cache_count(list - FIRST_CACHE), count);
    }
}

/* ---- wrong skip links ---- */

/* A chunk that holds skip links, and the bin that it is in. */
struct skipped {
    uint32_t at;
    unsigned bin;
};

static struct skipped skipped[PLAIN_TILES_MAX];

/* Reads them all, and answers how many there are. */
static uint32_t read_skipped(const uint8_t *arena, const uint8_t *record)
{
    uint32_t count = 0;
    for (unsigned bin = 1; bin <= 126; bin += bin == 1 ? 63 : 1) {
        uint32_t first = plain_word(record, plain_bin_first(bin));
        uint64_t c = first == PLAIN_NONE32 ? PLAIN_NONE64 : first;
        for (; c != PLAIN_NONE64; c = plain_get(arena + c + 16, 8))
            if (plain_get(arena + c + 8, 8) >= PLAIN_LARGE_MIN)
                skipped[count++] = (struct skipped){ (uint32_t)c, bin };
    }
    return count;
}

/* A word that may be taken for the skip link at c + field, but is another. */
static uint64_t other_skip(struct random *r, const uint8_t *arena, uint32_t c,
                           uint32_t field, uint32_t count)
{
    uint64_t right = plain_get(arena + c + field, 8), drawn = PLAIN_NONE64;
    switch (random_below(r, 8)) {
    case 0: drawn = right ^ ((uint64_t)1 << random_below(r, 64)); break;
    case 1: drawn = right ^ (PLAIN_NONE64 << 32); break; /* right if cut */
    case 2: drawn = PLAIN_NONE32; break;
    case 3: drawn = c; break;
    case 4: drawn = plain_get(arena + c + field - 16, 8); break;
    case 5: drawn = plain_get(arena + c + (field ^ 8), 8); break;
    case 6: break;
    default: drawn = skipped[random_below(r, count)].at;
    }
    return drawn != right ? drawn : right ^ 16;
}

static void put_other_skip(struct random *r, uint8_t *arena, uint32_t c,
                           uint32_t count)
{
    uint32_t field = random_chance(r, 50) ? 32 : 40;
    plain_put(arena + c + field, 8, other_skip(r, arena, c, field, count));
}

static void put_skips(struct random *r, const struct plan *plan,
                      uint8_t *arena, const uint8_t *record)
{
    plain_put_skips(arena, record);
    if (plan->flaw != FLAW_SKIP)
        return;
    uint32_t count = read_skipped(arena, record);
    for (uint32_t i = 0; i < count; i++)
        if (random_chance(r, 20))
            put_other_skip(r, arena, skipped[i].at, count);
}

/* ---- whole heaps ---- */

static uint32_t random_remainder(struct random *r, const struct plan *plan,
                                 const uint8_t *record)
{
    switch (plan->pieces == 0 ? 0 : random_below(r, 5)) {
    case 0: return PLAIN_NONE32;
    case 1: return plain_word(record, plain_bin_last(1));
    case 2: return plan->piece[random_below(r, plan->pieces)].at;
    case 3: return plan->top;
    default: return (uint32_t)random_next(r);
    }
}

void flawed_heap(struct random *r, enum flaw flaw, uint8_t *arena,
                 uint32_t length, uint8_t *record)
{
    static struct plan plan;

    random_bytes(r, arena, length);
    plan.flaw = flaw;
    plan.key = random_key(r);
    plan.edition = random_edition(r);
    plan_pieces(r, &plan, length);
    plan_lists(r, &plan);
    write_tiles(&plan, arena, length);

    for (unsigned i = 0; i < PLAIN_WORDS; i++)
        plain_put_word(record, i, PLAIN_NONE32);
    plain_put_key(record, plan.key);
    plain_put_edition(record, plan.edition);
    for (unsigned k = 0; k < 64; k++)
        plain_put_word(record, plain_cache_count(k), 0);
    plain_put_word(record, 0, length);
    plain_put_word(record, 1, plan.top);
    qsort(plan.piece, plan.pieces, sizeof plan.piece[0], by_list);
    for (uint32_t i = 0, next; i < plan.pieces; i = next) {
        for (next = i + 1; next < plan.pieces
             && plan.piece[next].list == plan.piece[i].list; next++)
            ;
        if (plan.piece[i].list == NO_LIST)
            continue;
        write_links(r, &plan, &plan.piece[i], next - i, arena);
        write_ends(&plan.piece[i], next - i, record);
    }
    plain_put_word(record, 2, random_remainder(r, &plan, record));
    put_skips(r, &plan, arena, record);
}

void random_heap(struct random *r, uint8_t *arena, uint32_t length,
                 uint8_t *record)
{
    flawed_heap(r, FLAW_NONE, arena, length, record);
}

/* ---- new lengths ---- */

static uint32_t size_at(const uint8_t *arena, uint32_t at)
{
    return (uint32_t)plain_get(arena + at + 8, 8) & ~15u;
}

/* The size of the chunk at an offset with some of those behind it. */
static uint32_t size_of_row(const uint8_t *arena, uint32_t length,
                            uint32_t from, uint32_t count)
{
    uint32_t at = from;
    for (; count > 0 && at < length; count--)
        at += size_at(arena, at);
    return at - from;
}

uint32_t random_new_length(struct random *r, const uint8_t *arena,
                           uint32_t length, uint32_t mem)
{
    uint32_t c = mem - 16, size = size_at(arena, c), chunk = size;

    switch (random_below(r, 6)) {
    case 0: chunk += random_below(r, size + 1); break;
    case 1: chunk -= random_below(r, size); break;
    case 2: chunk += 32; break;
    case 3:
        chunk = size_of_row(arena, length, c + size, 1 + random_below(r, 4));
        break;
    default: chunk = size_of_row(arena, length, c, 2); break;
    }
    chunk = (chunk + 32 - 16 * random_below(r, 6)) & ~15u;
    if (chunk < 32 || chunk > length)
        chunk = 32;
    return chunk - 8 - random_below(r, 16); /* needs just that chunk */
}

/* ---- damage ---- */

static uint32_t random_tile(struct random *r, const uint8_t *arena,
                            uint32_t length)
{
    uint32_t chosen = 0, seen = 0;
    for (uint32_t at = 0; at < length;) {
        if (random_below(r, ++seen) == 0)
            chosen = at;
        at += (uint32_t)plain_get(arena + at + 8, 8) & ~15u;
    }
    return chosen;
}

/* The record words that start a list: heads, and firsts of bins. */
static unsigned random_start(struct random *r)
{
    uint32_t list = random_below(r, 200);
    return list < 64 ? plain_cache_head(list)
        : list < 74  ? plain_fast_head(list - 64)
                     : plain_bin_first(list - 73);
}

/* A start that holds a chunk, if a few draws find one. */
static unsigned random_filled_start(struct random *r, const uint8_t *record)
{
    unsigned word = random_start(r);
    for (unsigned tries = 0; tries < 400; tries++) {
        if (plain_word(record, word) != PLAIN_NONE32)
            break;
        word = random_start(r);
    }
    return word;
}

/* The edition by which the links are stored of the list with that start. */
static uint32_t edition_of_list(const uint8_t *record, unsigned start)
{
    return start < plain_bin_first(1) ? plain_edition(record) : 1;
}

/* Links stored by that edition lead to it. */
static uint32_t random_listed(struct random *r, const uint8_t *arena,
                              uint32_t length, const uint8_t *record,
                              uint32_t *edition)
{
    unsigned start = random_filled_start(r, record);
    uint32_t at = plain_word(record, start);
    *edition = edition_of_list(record, start);
    if (at == PLAIN_NONE32)
        return random_tile(r, arena, length);
    while (random_chance(r, 60)) {
        uint64_t next = plain_link(arena, *edition, at);
        if (next == PLAIN_NONE64)
            break;
        at = (uint32_t)next;
    }
    return at;
}

/* Values that a careless reader might take for an offset, or for none. */
static uint64_t tempting(struct random *r, const uint8_t *arena,
                         uint32_t length, const uint8_t *record)
{
    uint32_t any;
    uint32_t tile = random_chance(r, 50)
        ? random_tile(r, arena, length)
        : random_listed(r, arena, length, record, &any);
    switch (random_below(r, 12)) {
    case 0: return PLAIN_NONE64;
    case 1: return PLAIN_NONE32;
    case 2: return plain_word(record, 1);
    case 3: return tile + 8;
    case 4: return tile + 16;
    case 5: return ((uint64_t)1 << 32) + tile;
    case 6: return length + 16 * random_below(r, 3);
    case 7: return random_next(r);
    case 8: return ((uint64_t)1 << 63) + tile;
    default: return tile;
    }
}

static uint64_t other_size_word(struct random *r, uint64_t word)
{
    switch (random_below(r, 8)) {
    case 0: case 1: case 2: return word ^ 1;
    case 3: return word ^ (2u << random_below(r, 3));
    case 4: return random_chance(r, 50) ? word + 16 : word - 16;
    case 5: return 16 * random_below(r, 64) + (word & 1);
    case 6: return word + ((uint64_t)1 << (32 + random_below(r, 32)));
    default: return random_chance(r, 50) ? PLAIN_NONE64 : word & 1;
    }
}

static unsigned random_record_word(struct random *r, const uint8_t *record)
{
    unsigned word = random_chance(r, 70) ? random_filled_start(r, record)
                                         : random_start(r);
    switch (random_below(r, 10)) {
    case 0: return 0;
    case 1: return 1;
    case 2: return 2;
    case 3:
        return random_chance(r, 70) ? plain_cache_count(random_below(r, 64))
                                    : PLAIN_WORDS + random_below(r, 3);
    case 4: case 5: /* the count or last that goes with the start */
        return word < 67 ? word + 64 : word < 141 ? word : word + 1;
    default: return word;
    }
}

void damage_field(struct random *r, uint8_t *arena, uint32_t length,
                  uint8_t *record)
{
    uint32_t tile = random_tile(r, arena, length);
    uint32_t edition;
    uint32_t listed = random_listed(r, arena, length, record, &edition);
    uint64_t value = tempting(r, arena, length, record);
    unsigned word = random_record_word(r, record);
    uint32_t near = random_chance(r, 50) ? 1 : 16;

    if (random_chance(r, 50))
        near = -near;
    switch (random_below(r, 9)) {
    case 0: case 1:
        plain_put(arena + tile + 8, 8,
                  other_size_word(r, plain_get(arena + tile + 8, 8)));
        break;
    case 2:
        plain_put_link(arena, random_chance(r, 70) ? edition : 1, listed,
                       value);
        break;
    case 3:
        plain_put(arena + listed + 24, 8, value);
        break;
    case 4:
        if (random_chance(r, 50))
            value = plain_get(arena + tile, 8) + 16;
        plain_put(arena + tile, 8, value);
        break;
    case 5:
        plain_put_word(record, word, plain_word(record, word) + near);
        break;
    case 6:
        damage_skip(r, arena, record);
        break;
    default:
        plain_put_word(record, word, (uint32_t)value);
    }
}

/* The chunk at which a walk over all cached chunks has met that many more. */
static uint32_t nth_cached(const uint8_t *arena, const uint8_t *record,
                           uint32_t nth, unsigned *list)
{
    for (*list = 0; *list < 64; ++*list) {
        uint32_t count = plain_word(record, plain_cache_count(*list));
        if (nth >= count) {
            nth -= count;
            continue;
        }
        uint32_t at = plain_word(record, plain_cache_head(*list));
        for (; nth > 0; nth--)
            at = (uint32_t)plain_link(arena, plain_edition(record), at);
        return at;
    }
    return PLAIN_NONE32;
}

unsigned damage_key(struct random *r, uint8_t *arena, const uint8_t *record)
{
    uint32_t cached = 0;
    unsigned list;

    for (unsigned k = 0; k < 64; k++)
        cached += plain_word(record, plain_cache_count(k));
    if (cached == 0)
        return 64;
    uint32_t at = nth_cached(arena, record, random_below(r, cached), &list);
    plain_put(arena + at + 24, 8, other_key(r, plain_key(record)));
    return list;
}

unsigned damage_skip(struct random *r, uint8_t *arena, const uint8_t *record)
{
    uint32_t count = read_skipped(arena, record);
    if (count == 0)
        return 0;
    const struct skipped *chosen = &skipped[random_below(r, count)];
    put_other_skip(r, arena, chosen->at, count);
    return chosen->bin;
}

/* A chunk in a stack, and the list that it is in. */
struct stacked {
    uint32_t at;
    unsigned list;
};

unsigned damage_link(struct random *r, uint8_t *arena, const uint8_t *record)
{
    static struct stacked stacked[PLAIN_TILES_MAX];
    uint32_t count = 0, edition = plain_edition(record);

    for (unsigned i = 0; i < 74; i++) {
        uint32_t head = plain_word(record, i < 64 ? plain_cache_head(i)
                                                  : plain_fast_head(i - 64));
        uint64_t c = head == PLAIN_NONE32 ? PLAIN_NONE64 : head;
        for (; c != PLAIN_NONE64; c = plain_link(arena, edition, c))
            stacked[count++] = (struct stacked){ (uint32_t)c, i };
    }
    if (count == 0)
        return 74;
    struct stacked s = stacked[random_below(r, count)];
    uint64_t right = plain_get(arena + s.at + 16, 8), other = right;
    for (unsigned tries = 0; tries < 9 && other == right; tries++)
        other = stored_otherwise(r, edition, s.at,
                                 plain_link(arena, edition, s.at));
    if (other == right)
        other ^= (uint64_t)1 << random_below(r, 64);
    plain_put(arena + s.at + 16, 8, other);
    return s.list;
}

void damage_edition(struct random *r, uint8_t *record)
{
    static const uint32_t near[] = { 0, 3, 4, 0x101, 0x102, 0x10001, 0x20000,
                                     0x01000000, 0x02000000, 0x80000001,
                                     0x80000002, PLAIN_NONE32 };
    uint32_t other = random_chance(r, 60) ? near[random_below(r, 12)]
                                          : (uint32_t)random_next(r);
    plain_put_edition(record, other == 1 || other == 2 ? 0 : other);
}

/* A tile of the same size, if a few draws find one, else any. */
static uint32_t random_equal(struct random *r, const uint8_t *arena,
                             uint32_t length, uint32_t size)
{
    uint32_t at = random_tile(r, arena, length);
    for (uint32_t tries = random_below(r, 30); tries > 0; tries--) {
        if (size_at(arena, at) == size)
            break;
        at = random_tile(r, arena, length);
    }
    return at;
}

/* The head, first or last of a list that may own such a chunk. */
static unsigned random_home(struct random *r, uint32_t size)
{
    uint32_t k = (size - 32) / 16;
    switch (random_below(r, 5)) {
    case 0: return plain_cache_head(k < 64 ? k : 63);
    case 1: return plain_fast_head(k < 10 ? k : 9);
    case 2: return plain_bin_first(1);
    case 3: return plain_bin_first(plain_bin(size));
    default: return plain_bin_last(plain_bin(size));
    }
}

void damage_lists(struct random *r, uint8_t *arena, uint32_t length,
                  uint8_t *record)
{
    uint32_t times = 1 + random_below(r, 8);

    for (uint32_t i = 0; i < times; i++) {
        uint32_t from = random_tile(r, arena, length);
        uint32_t size = size_at(arena, from);
        uint32_t to = random_equal(r, arena, length, size);
        switch (random_below(r, 4)) {
        case 0: plain_put(arena + from + 16, 8, to); break;
        case 1:
            plain_put_link(arena, plain_edition(record), from, to);
            break;
        case 2: plain_put(arena + from + 24, 8, to); break;
        default: plain_put_word(record, random_home(r, size), to);
        }
    }
}

/* In place of the number at an offset; the bytes have so many. */
static void damage_word(struct random *r, uint8_t *bytes, uint32_t length,
                        unsigned width)
{
    uint8_t *at = bytes + width * random_below(r, length / width);
    uint64_t value = plain_get(at, width);

    value ^= (uint64_t)1 << random_below(r, 8 * width);
    switch (random_below(r, 4)) {
    case 0: value = random_next(r); break;
    case 1:
        value = plain_get(bytes + width * random_below(r, length / width),
                          width);
        break;
    case 2: value = random_chance(r, 50) ? 0 : PLAIN_NONE64; break;
    }
    plain_put(at, width, value);
}

void damage_words(struct random *r, uint8_t *arena, uint32_t length,
                  uint8_t *record, uint32_t times)
{
    for (; times > 0; times--)
        if (random_chance(r, 50))
            damage_word(r, arena, length, 8);
        else
            damage_word(r, record, PLAIN_RECORD_BYTES, 4);
}

void damage_bytes(struct random *r, uint8_t *arena, uint32_t length,
                  uint8_t *record)
{
    uint32_t times = 1 + random_below(r, 12);

    if (random_chance(r, 5))
        random_bytes(r, arena, length);
    if (random_chance(r, 5))
        random_bytes(r, record, PLAIN_RECORD_BYTES);
    for (uint32_t i = 0; i < times; i++) {
        uint8_t byte = (uint8_t)random_next(r);
        if (random_chance(r, 50))
            arena[random_below(r, length)] = byte;
        else
            record[random_below(r, PLAIN_RECORD_BYTES)] = byte;
    }
}
