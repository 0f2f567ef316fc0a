#include "twins.h"

#include <stdio.h>
#include <stdlib.h>
#include <string.h>

#include "plain.h"

const char *twins_where(const struct twins *t)
{
    static char text[160];
    const uint8_t *a = t->one.ours.record, *b = t->other.ours.record;
    snprintf(text, sizeof text,
             "seed %llu, call %u, arenas of %zu, keys 0x%llx and 0x%llx, "
             "editions %u and %u",
             (unsigned long long)t->one.seed, t->one.calls, t->one.ours.length,
             (unsigned long long)plain_key(a),
             (unsigned long long)plain_key(b), plain_edition(a),
             plain_edition(b));
    return text;
}

static void same_written(const struct twins *t, struct twins_did *did)
{
    const uint8_t *a = t->one.ours.arena, *b = t->other.ours.arena;
    size_t at = 0, end = t->one.ours.length;

    for (; at < end && (t->written[at] == 0 || a[at] == b[at]); at++)
        did->written += t->written[at];
    CHECK(at == end, "%s: byte %zu, written by its holder, is 0x%02x and "
          "0x%02x", twins_where(t), at, a[at], b[at]);
}

/* The same bytes in both arenas of both programs. */
static void holder_writes(struct twins *t)
{
    struct random *r = &t->one.r;
    if (t->blocks == 0)
        return;
    struct held block = t->block[random_below(r, t->blocks)];
    uint32_t from = random_chance(r, 50) ? 0 : random_below(r, block.usable);
    uint32_t length = random_below(r, block.usable - from + 1);
    uint32_t at = block.mem + from;

    put_both(&t->one, at, length);
    memcpy(t->other.ours.arena + at, t->one.ours.arena + at, length);
    memcpy(t->other.theirs.arena + at, t->one.ours.arena + at, length);
    memset(t->written + at, 1, length);
}

/* The block goes, and may come again elsewhere with what it held; mem 0: no. */
static void block_changes(struct twins *t, uint32_t i, struct held to,
                          struct twins_did *did)
{
    struct held from = i < t->blocks ? t->block[i] : (struct held){ 0, 0 };
    uint32_t both = from.usable < to.usable ? from.usable : to.usable;

    memcpy(t->kept, t->written + from.mem, both);
    memset(t->written + from.mem, 0, from.usable);
    memset(t->written + to.mem, 0, to.usable);
    memcpy(t->written + to.mem, t->kept, both);
    if (from.mem != 0)
        t->block[i] = t->block[--t->blocks];
    if (to.mem != 0)
        t->block[t->blocks++] = to;
    did->resized += both > 0;
    did->moved += both > 0 && from.mem != to.mem;
}

static uint64_t random_request(struct twins *t)
{
    struct random *r = &t->one.r;
    uint32_t length = (uint32_t)t->one.ours.length;

    switch (random_below(r, 8)) {
    case 0: return random_below(r, length);
    case 1: return random_below(r, length / 8);
    case 2: return random_below(r, 1100);
    case 3: return extreme(random_below(r, EXTREMES));
    case 4: case 5: return 24 + 16 * random_below(r, 3);
    default: return random_below(r, 200);
    }
}

/* One call in both; what it does to block i, or what it brings. */
static void call_both(struct twins *t, enum call call, uint64_t number,
                      uint64_t n, uint32_t i, struct twins_did *did)
{
    bool resize = call == RESIZE;
    struct second_answer a = resize ? both_resize(&t->one, number, n)
                                    : both(&t->one, call, number);
    struct second_answer b = resize ? both_resize(&t->other, number, n)
                                    : both(&t->other, call, number);
    did->calls++;
    CHECK(same_answer(a, b), "%s, %s %llu %llu: answered %u %u %u and %u %u %u",
          twins_where(t), call_name[call], (unsigned long long)number,
          (unsigned long long)n, a.no, a.mem, a.usable, b.no, b.mem, b.usable);
    CHECK(same_words(&t->one.ours, &t->other.ours),
          "%s, %s %llu %llu: the records differ", twins_where(t),
          call_name[call], (unsigned long long)number, (unsigned long long)n);
    if (a.no == 0 && (call == GRANT || call == RELEASE || call == RESIZE)
        && !group_failed())
        block_changes(t, i, (struct held){ a.mem, a.usable }, did);
}

void twins_call(struct twins *t, struct twins_did *did)
{
    struct random *r = &t->one.r;
    uint32_t drawn = random_below(r, 100), i = random_below(r, t->blocks);
    uint32_t mem = t->blocks == 0 ? 0 : t->block[i].mem;
    uint32_t length = (uint32_t)t->one.ours.length;

    if (drawn < 3)
        call_both(t, EMPTYING, 0, 0, 0, did);
    else if (drawn < 6)
        call_both(t, JOINING, 0, 0, 0, did);
    else if (drawn < 35 && mem != 0)
        call_both(t, RESIZE, mem,
                  random_chance(r, 40)
                      ? random_request(t)
                      : random_new_length(r, t->one.ours.arena, length, mem),
                  i, did);
    else if (drawn < 65 && mem != 0)
        call_both(t, RELEASE, mem, 0, i, did);
    else
        call_both(t, GRANT, random_request(t), 0, t->blocks, did);
    if (group_failed())
        return;
    holder_writes(t);
    same_written(t, did);
}

struct twins twins_new(uint64_t seed, uint32_t most)
{
    struct random r = { seed }, other = { ~seed };
    uint32_t length = random_length(&r, most);
    struct twins t = { .one = pair_new(seed, r, length),
                       .other = pair_new(seed, other, length),
                       .alike = seed % 2 == 0 };

    t.written = memory(length);
    t.kept = memory(length);
    memset(t.written, 0, length);
    return t;
}

void twins_free(struct twins *t)
{
    pair_free(&t->one);
    pair_free(&t->other);
    free(t->written);
    free(t->kept);
}

void twins_open(struct twins *t, struct opening one, struct opening other)
{
    if (t->alike)
        t->other.r = t->one.r; /* which draws the bytes that it opens over */
    open_with(&t->one, one.key, one.edition);
    open_with(&t->other, other.key, other.edition);
}

void twins_tell(const struct twins_did *did)
{
    remark(", %llu pairs, %llu calls, %llu blocks resized, %llu of them moved, "
           "%llu written bytes",
           (unsigned long long)did->pairs, (unsigned long long)did->calls,
           (unsigned long long)did->resized, (unsigned long long)did->moved,
           (unsigned long long)did->written);
}
