#include "traces.h"

#include "plain.h"

struct lent heap;
uint32_t edition = 1;

void in_both_editions(void (*traces)(void))
{
    for (edition = 1; edition <= 2; edition++) {
        groups_of(edition == 1 ? "edition 1: " : "edition 2: ");
        traces();
    }
    edition = 1;
    groups_of("");
}

void start(uint32_t length)
{
    heap = lend(length, 0xa5);
    struct second_answer a = lent_open(&heap, KEY, edition);
    CHECK(a.no == 0 && a.mem == 0 && a.usable == 0, "open of %u answers %u",
          length, a.no);
    CHECK(lent_sound(&heap), "a newly opened arena of %u is not sound", length);
}

void stop(void)
{
    give_back(&heap);
}

void answers(const char *call, struct second_answer a, uint32_t no,
             uint32_t mem, uint32_t usable)
{
    CHECK(a.no == no && a.mem == mem && a.usable == usable,
          "%s answers %u %u %u, not %u %u %u", call, a.no, a.mem, a.usable, no,
          mem, usable);
    CHECK(lent_sound(&heap), "not sound after %s", call);
}

void grants(uint64_t n, uint32_t mem, uint32_t usable)
{
    answers("grant", lent_grant(&heap, n), 0, mem, usable);
}

void refuses(uint64_t n, uint32_t no)
{
    answers("grant", lent_grant(&heap, n), no, 0, 0);
}

void releases(uint64_t mem)
{
    answers("release", lent_release(&heap, mem), 0, 0, 0);
}

void resizes(uint64_t mem, uint64_t n, uint32_t to, uint32_t usable)
{
    answers("resize", lent_resize(&heap, mem, n), 0, to, usable);
}

void refuses_resize(uint64_t mem, uint64_t n, uint32_t no)
{
    answers("resize", lent_resize(&heap, mem, n), no, 0, 0);
}

void empties(void)
{
    answers("emptying", lent_emptying(&heap), 0, 0, 0);
}

void joins(void)
{
    answers("joining", lent_joining(&heap), 0, 0, 0);
}

void word_is(const char *name, unsigned word, uint32_t expected)
{
    uint32_t v = plain_word(heap.record, word);
    CHECK(v == expected, "%s is %u, not %u", name, v, expected);
}

void cache_is(unsigned k, uint32_t head, uint32_t count)
{
    word_is("cache head", plain_cache_head(k), head);
    word_is("cache count", plain_cache_count(k), count);
}

void fast_is(unsigned k, uint32_t head)
{
    word_is("fast head", plain_fast_head(k), head);
}

void bin_is(unsigned bin, uint32_t first, uint32_t last)
{
    word_is("first of bin", plain_bin_first(bin), first);
    word_is("last of bin", plain_bin_last(bin), last);
}

void eight_is(uint32_t at, uint64_t expected)
{
    uint64_t v = plain_get(heap.arena + at, 8);
    CHECK(v == expected, "the number at %u is %llu, not %llu", at,
          (unsigned long long)v, (unsigned long long)expected);
}

void link_is(uint32_t c, uint64_t to)
{
    eight_is(c + 16, edition == 2 ? to ^ (c + 16) / 4096 : to);
}

void second_is(uint32_t c, uint64_t expected)
{
    eight_is(c + 24, expected);
}

void skips_are(uint32_t c, uint64_t forward, uint64_t back)
{
    eight_is(c + 32, forward);
    eight_is(c + 40, back);
}

void no_skips(uint32_t c)
{
    skips_are(c, PLAIN_NONE64, PLAIN_NONE64);
}

void put_link(uint32_t c, uint64_t to)
{
    plain_put(heap.arena + c + 16, 8, to);
}

void put_back_link(uint32_t c, uint64_t to)
{
    plain_put(heap.arena + c + 24, 8, to);
}

void put_key(uint32_t c, uint64_t key)
{
    plain_put(heap.arena + c + 24, 8, key);
}

void put_skips(uint32_t c, uint64_t forward, uint64_t back)
{
    plain_put(heap.arena + c + 32, 8, forward);
    plain_put(heap.arena + c + 40, 8, back);
}

void put_word(unsigned word, uint32_t v)
{
    plain_put_word(heap.record, word, v);
}

void start_stacks(void)
{
    start(1024);
    for (uint32_t i = 0; i < 8; i++)
        grants(24, 32 * i + 16, 24);
    for (uint32_t i = 0; i < 8; i++)
        releases(32 * i + 16);
}

void start_bins(void)
{
    start(8192);
    grants(1048, 16, 1048);
    grants(24, 1072, 24);
    grants(1064, 1104, 1064);
    grants(24, 2176, 24);
    grants(1048, 2208, 1048);
    grants(24, 3264, 24);
    grants(1128, 3296, 1128);
    grants(24, 4432, 24);
    releases(16);
    releases(1104);
    releases(2208);
    releases(3296);
    refuses(262144, 5);
    bin_is(64, 1088, 2192);
    bin_is(65, 3280, 3280);
}

void start_mixed_stacks(void)
{
    start(16384);
    grants(8152, 16, 8152);
    for (uint32_t i = 0; i < 8; i++)
        grants(24, 8176 + 32 * i, 24);
    for (uint32_t i = 0; i < 8; i++)
        releases(8176 + 32 * i);
}
