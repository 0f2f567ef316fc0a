#include "oracle.h"

#include <stdbool.h>

#include "plain.h"

struct set {
    uint64_t member[PLAIN_TILES_MAX + 1];
    size_t count;
};

struct subject {
    const uint8_t *arena;
    const uint8_t *record;
    uint64_t length;
    unsigned version; /* of the rules */
};

/* A list of the record, as the document speaks of it. */
struct list {
    enum second_kind kind;
    unsigned number;
    uint64_t start;
};

static struct set chunks; /* every tile's offset, rising; the last is the top */
static struct set met;    /* members of all lists before this one */
static struct set binned; /* members of all bins */
static struct set members; /* of the list in hand, in its order */
static struct set firsts;  /* of its groups of equals, in its order */

static bool holds(const struct set *set, uint64_t c)
{
    for (size_t i = 0; i < set->count; i++)
        if (set->member[i] == c)
            return true;
    return false;
}

static void add(struct set *set, uint64_t c)
{
    set->member[set->count++] = c;
}

static uint64_t top(void) { return chunks.member[chunks.count - 1]; }

static uint64_t eight(const struct subject *s, uint64_t at)
{
    return plain_get(s->arena + at, 8);
}

static uint64_t size_at(const struct subject *s, uint64_t c)
{
    return eight(s, c + 8) / 16 * 16;
}

static uint64_t widened(const struct subject *s, unsigned word)
{
    uint32_t v = plain_word(s->record, word);
    return v == PLAIN_NONE32 ? PLAIN_NONE64 : v;
}

/* Collects the tiles; answers the offset of a bad one, or none. */
static uint64_t collect_tiles(const struct subject *s)
{
    uint64_t at = 0;
    chunks.count = 0;
    while (at != s->length) {
        uint64_t word = eight(s, at + 8), size = word / 16 * 16;
        bool other_bits = word % 16 > 1;
        if (other_bits || size < 32 || size > s->length
            || at + size > s->length)
            return at;
        add(&chunks, at);
        at += size;
    }
    return widened(s, 1) == top() ? PLAIN_NONE64 : top();
}

static bool owns(const struct list *l, uint64_t size)
{
    if (l->kind == SECOND_CACHE)
        return l->number <= 63 && size == 32 + 16 * l->number;
    if (l->kind == SECOND_FAST)
        return l->number <= 6 && size == 32 + 16 * l->number;
    return l->number == 1 || plain_bin(size) == l->number;
}

/* What stands behind c in the list; the links of bins are never mixed. */
static uint64_t behind(const struct subject *s, const struct list *l,
                       uint64_t c)
{
    uint64_t stored = eight(s, c + 16);
    bool mixed = s->version >= 4 && plain_edition(s->record) == 2
        && l->kind != SECOND_BIN;
    return mixed ? stored ^ ((c + 16) / 4096) : stored;
}

/* Reads a list out; a name that is no chunk, or a ring, makes it bad. */
static bool read_out(const struct subject *s, const struct list *l)
{
    members.count = 0;
    for (uint64_t c = l->start; c != PLAIN_NONE64; c = behind(s, l, c)) {
        if (!holds(&chunks, c) || members.count == chunks.count)
            return false;
        add(&members, c);
    }
    return true;
}

static bool members_good(const struct subject *s, const struct list *l)
{
    for (size_t i = 0; i < members.count; i++)
        if (members.member[i] == top() || holds(&met, members.member[i]))
            return false;
    for (size_t i = 0; i < members.count; i++)
        for (size_t j = 0; j < i; j++)
            if (members.member[i] == members.member[j])
                return false;
    for (size_t i = 0; i < members.count; i++)
        if (!owns(l, size_at(s, members.member[i])))
            return false;
    return true;
}

static bool bin_good(const struct subject *s, unsigned number)
{
    uint64_t last = PLAIN_NONE64;
    for (size_t i = 0; i < members.count; i++) {
        if (eight(s, members.member[i] + 24) != last)
            return false;
        last = members.member[i];
    }
    for (size_t i = 1; number >= 64 && i < members.count; i++)
        if (size_at(s, members.member[i]) > size_at(s, members.member[i - 1]))
            return false;
    return widened(s, plain_bin_last(number)) == last;
}

static bool key_wrong(const struct subject *s, uint64_t c)
{
    return s->version >= 2 && eight(s, c + 24) != plain_key(s->record);
}

static bool keys_good(const struct subject *s)
{
    for (size_t i = 0; i < members.count; i++)
        if (key_wrong(s, members.member[i]))
            return false;
    return true;
}

static void collect_firsts(const struct subject *s)
{
    firsts.count = 0;
    for (size_t i = 0; i < members.count; i++) {
        bool new_size = true;
        for (size_t j = 0; j < i; j++)
            if (size_at(s, members.member[j]) == size_at(s, members.member[i]))
                new_size = false;
        if (new_size)
            add(&firsts, members.member[i]);
    }
}

static bool skips_are(const struct subject *s, uint64_t c, uint64_t forward,
                      uint64_t back)
{
    return eight(s, c + 32) == forward && eight(s, c + 40) == back;
}

/* Of a list that is good but for what stands in its skip links. */
static bool skips_good(const struct subject *s, unsigned number)
{
    if (s->version < 3 || (number != 1 && number < 64))
        return true;
    firsts.count = 0;
    if (number != 1)
        collect_firsts(s);
    for (size_t i = 0; i < firsts.count; i++) {
        uint64_t smaller = firsts.member[i + 1 == firsts.count ? 0 : i + 1];
        uint64_t larger = firsts.member[i == 0 ? firsts.count - 1 : i - 1];
        if (!skips_are(s, firsts.member[i], smaller, larger))
            return false;
    }
    for (size_t i = 0; i < members.count; i++) {
        uint64_t c = members.member[i];
        if (size_at(s, c) >= 1024 && !holds(&firsts, c)
            && !skips_are(s, c, PLAIN_NONE64, PLAIN_NONE64))
            return false;
    }
    return true;
}

static bool list_good(const struct subject *s, const struct list *l)
{
    if (!read_out(s, l) || !members_good(s, l))
        return false;
    if (l->kind == SECOND_CACHE)
        return members.count <= 7 && keys_good(s)
            && plain_word(s->record, plain_cache_count(l->number))
                   == members.count;
    return l->kind == SECOND_FAST
        || (bin_good(s, l->number) && skips_good(s, l->number));
}

static struct list nth_list(const struct subject *s, unsigned i)
{
    if (i < 64)
        return (struct list){ SECOND_CACHE, i,
                              widened(s, plain_cache_head(i)) };
    if (i < 74)
        return (struct list){ SECOND_FAST, i - 64,
                              widened(s, plain_fast_head(i - 64)) };
    return (struct list){ SECOND_BIN, i - 73,
                          widened(s, plain_bin_first(i - 73)) };
}

static bool flag_good(const struct subject *s, size_t i)
{
    uint64_t c = chunks.member[i];
    bool p = eight(s, c + 8) % 2 == 1;

    if (i == 0)
        return p;
    uint64_t before = chunks.member[i - 1];
    if (!holds(&binned, before))
        return p;
    return !p && eight(s, c) == c - before && !holds(&binned, c) && c != top();
}

struct second_fault oracle_audit(const uint8_t *arena, size_t length,
                                 const uint8_t *record, size_t record_len,
                                 unsigned version)
{
    struct subject s = { arena, record, length, version };

    if (length < 32 || length > PLAIN_ARENA_MAX || length % 16 != 0
        || record_len != PLAIN_RECORD_BYTES)
        return (struct second_fault){ 1, 0, 0 };
    if (plain_word(record, 0) != length
        || (version >= 4 && plain_edition(record) - 1 > 1))
        return (struct second_fault){ 0, SECOND_RECORD, 0 };
    uint64_t bad_tile = collect_tiles(&s);
    if (bad_tile != PLAIN_NONE64)
        return (struct second_fault){ 0, SECOND_TILE, (uint32_t)bad_tile };

    met.count = binned.count = 0;
    for (unsigned i = 0; i < 200; i++) {
        struct list l = nth_list(&s, i);
        if (!list_good(&s, &l))
            return (struct second_fault){ 0, l.kind, l.number };
        for (size_t j = 0; j < members.count; j++) {
            add(&met, members.member[j]);
            if (l.kind == SECOND_BIN)
                add(&binned, members.member[j]);
        }
    }
    for (size_t i = 0; i < chunks.count; i++)
        if (!flag_good(&s, i))
            return (struct second_fault){ 0, SECOND_FLAG,
                                          (uint32_t)chunks.member[i] };
    return (struct second_fault){ 0, SECOND_SOUND, 0 };
}

/* ---- what the lists reach ---- */

static bool occurs_before(size_t i)
{
    for (size_t j = 0; j < i; j++)
        if (members.member[j] == members.member[i])
            return true;
    return false;
}

/* Whether a bin's i-th member stands wrongly behind the one before it. */
static bool misplaced(const struct subject *s, unsigned number, size_t i)
{
    uint64_t c = members.member[i];
    if (i == 0)
        return eight(s, c + 24) != PLAIN_NONE64;
    uint64_t before = members.member[i - 1];
    return eight(s, c + 24) != before
        || (number >= 64 && size_at(s, c) > size_at(s, before));
}

/* How many of a list, as it was read out, stand before its first bad chunk. */
static size_t good_members(const struct subject *s, const struct list *l)
{
    size_t i = 0;
    for (; i < members.count; i++) {
        uint64_t c = members.member[i];
        if (c == top() || holds(&met, c) || occurs_before(i)
            || !owns(l, size_at(s, c)))
            break;
        if (l->kind == SECOND_CACHE && (i == 7 || key_wrong(s, c)))
            break;
        if (l->kind == SECOND_BIN && misplaced(s, l->number, i))
            break;
    }
    return i;
}

size_t oracle_reached(const uint8_t *arena, size_t length,
                      const uint8_t *record, unsigned version,
                      unsigned *list)
{
    struct subject s = { arena, record, length, version };

    collect_tiles(&s);
    for (size_t i = 0; i < chunks.count; i++)
        list[i] = chunks.member[i] == top() ? ORACLE_TOP : ORACLE_LIVE;
    met.count = 0;
    for (unsigned n = 0; n < 200; n++) {
        struct list l = nth_list(&s, n);
        read_out(&s, &l);
        size_t good = good_members(&s, &l);
        for (size_t i = 0; i < good; i++)
            add(&met, members.member[i]);
        for (size_t i = 0; i < chunks.count; i++)
            for (size_t j = 0; j < good; j++)
                if (members.member[j] == chunks.member[i])
                    list[i] = n;
    }
    return chunks.count;
}
