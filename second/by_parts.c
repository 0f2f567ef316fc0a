#include "by_parts.h"

#include <string.h>

#include "plain.h"

static struct plain_view view;

/* The chunk a list word names, or a link; both 'none' are one here. */
static uint64_t named(const struct lent *l, unsigned word)
{
    uint32_t v = plain_word(l->record, word);
    return v == PLAIN_NONE32 ? PLAIN_NONE64 : v;
}

/*
 * Takes a chunk out of the bin that holds it, found by reading every bin; the
 * rings are then written anew.
 */
static void take_out(struct lent *l, uint64_t c)
{
    unsigned bin = 0;
    uint64_t at = PLAIN_NONE64;
    while (at != c) {
        at = at == PLAIN_NONE64 ? named(l, plain_bin_first(++bin))
                                : plain_get(l->arena + at + 16, 8);
    }
    uint64_t forward = plain_get(l->arena + c + 16, 8);
    uint64_t back = plain_get(l->arena + c + 24, 8);
    if (back == PLAIN_NONE64)
        plain_put_word(l->record, plain_bin_first(bin), (uint32_t)forward);
    else
        plain_put(l->arena + back + 16, 8, forward);
    if (forward == PLAIN_NONE64)
        plain_put_word(l->record, plain_bin_last(bin), (uint32_t)back);
    else
        plain_put(l->arena + forward + 24, 8, back);
    plain_put_skips(l->arena, l->record);
}

static void put_size(struct lent *l, uint32_t c, uint32_t size)
{
    uint64_t p = plain_get(l->arena + c + 8, 8) % 2;
    plain_put(l->arena + c + 8, 8, size + p);
}

/* Two live blocks in place of one, the second of which is then released. */
static void cut(struct lent *l, uint32_t c, uint32_t whole, uint32_t b)
{
    uint32_t next = c + whole;
    plain_put(l->arena + next + 8, 8, plain_get(l->arena + next + 8, 8) | 1);
    if (whole < b + 32) {
        put_size(l, c, whole);
        return;
    }
    put_size(l, c, b);
    plain_put(l->arena + c + b + 8, 8, whole - b + 1);
    CHECK(lent_release(l, c + b + 16).no == 0, "the rest at %u is not live",
          c + b);
}

static struct second_answer block_at(const struct lent *l, uint32_t mem)
{
    uint32_t size = (uint32_t)plain_get(l->arena + mem - 8, 8) & ~15u;
    return (struct second_answer){ 0, mem, size - 8 };
}

static bool seek(struct lent *l, uint32_t mem, uint32_t n, uint32_t size,
                 uint32_t b, struct second_answer *a)
{
    if (b <= 1040
        && plain_word(l->record, plain_cache_count((b - 32) / 16)) > 0)
        return false;
    *a = lent_grant(l, n);
    if (a->no != 0)
        return true;
    if (a->mem == mem + size) {
        cut(l, mem - 16, size + a->usable + 8, b);
        *a = block_at(l, mem);
        return true;
    }
    memcpy(l->arena + a->mem, l->arena + mem, size - 8);
    CHECK(lent_release(l, mem).no == 0, "the old block at %u is not live", mem);
    return true;
}

bool resize_by_parts(struct lent *l, uint32_t mem, uint32_t n,
                     struct second_answer *a)
{
    if (mem == 0 || n == 0) {
        *a = mem == 0 ? lent_grant(l, n) : lent_release(l, mem);
        return true;
    }
    plain_read(&view, l->arena, (uint32_t)l->length, l->record);
    uint32_t i = 0;
    while (view.tile[i].at != mem - 16)
        i++;
    const struct plain_tile *next = &view.tile[i + 1];
    uint32_t size = view.tile[i].size, both = size + next->size;
    uint32_t b = n <= 24 ? 32 : (n + 8 + 15) / 16 * 16;

    if (size >= b) {
        cut(l, mem - 16, size, b);
    } else if (next->state == PLAIN_TOP && both >= b + 32) {
        put_size(l, mem - 16, b);
        plain_put(l->arena + mem - 16 + b + 8, 8, both - b + 1);
        plain_put_word(l->record, 1, mem - 16 + b);
    } else if (next->state == PLAIN_BINNED && both >= b) {
        take_out(l, next->at);
        cut(l, mem - 16, both, b);
    } else {
        return seek(l, mem, n, size, b, a);
    }
    *a = block_at(l, mem);
    return true;
}
