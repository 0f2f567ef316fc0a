/*
 * Document 01's figures, and traces for the places that are easy to get
 * wrong, with those of requests (vi), (vii), (viii), (x) and (xi) of document
 * 02, in both editions. Every expected number here was worked out by hand from
 * the documents.
 */
#include <string.h>

#include "plain.h"
#include "traces.h"

/* ---- figures ---- */

static void request_sizes(void)
{
    static const uint32_t figure[][2] = {
        { 0, 32 }, { 24, 32 }, { 25, 48 }, { 40, 48 }, { 41, 64 },
        { 120, 128 }, { 121, 144 }, { 1032, 1040 }, { 1033, 1056 }
    };

    group("requests need the chunk sizes of the boundary figures");
    for (unsigned i = 0; i < sizeof figure / sizeof figure[0]; i++) {
        uint32_t size = figure[i][1];
        start(4096);
        grants(figure[i][0], 16, size - 8);
        word_is("top", 1, size);
        eight_is(size, UNWRITTEN); /* the top's cut notes no end */
        eight_is(size + 8, 4096 - size + 1);
        grants(0, size + 16, 24);
        releases(16);
        if (size <= 1040) {
            cache_is((size - 32) / 16, 0, 1);
            bin_is(1, NONE, NONE);
        } else {
            bin_is(1, 0, 0);
        }
        stop();
    }
    start(4096);
    grants(1032, 16, 1032);
    releases(16);
    cache_is(63, 0, 1);
    stop();
}

/* Fills the size's cache list, releases one more, and has it sorted. */
static void lands_in_bin(uint32_t size, unsigned bin)
{
    uint32_t blocks = size <= 1040 ? 8 : 1;

    start(262144);
    for (uint32_t i = 0; i < blocks; i++) {
        grants(size - 8, i * (size + 32) + 16, size - 8);
        grants(24, i * (size + 32) + size + 16, 24);
    }
    for (uint32_t i = 0; i < blocks; i++)
        releases(i * (size + 32) + 16);
    uint32_t c = (blocks - 1) * (size + 32);
    bin_is(1, c, c);
    refuses(262144, 5);
    bin_is(1, NONE, NONE);
    bin_is(bin, c, c);
    stop();
}

static void bin_numbers(void)
{
    static const uint32_t figure[][2] = {
        { 1008, 63 }, { 1024, 64 }, { 3120, 96 }, { 3136, 97 },
        { 45040, 120 }, { 45056, 120 }, { 10736, 111 }, { 10752, 112 },
        { 163824, 123 }, { 163840, 124 }, { 144, 9 }, { 262080, 124 }
    };

    group("sizes land in the bins of the boundary figures");
    for (unsigned i = 0; i < sizeof figure / sizeof figure[0]; i++)
        lands_in_bin(figure[i][0], figure[i][1]);
}

static void eight_released(void)
{
    group("eight live 32-byte chunks released: seven cached, one fast");
    start(1024);
    for (uint32_t i = 0; i < 8; i++)
        grants(24, 32 * i + 16, 24);
    for (uint32_t i = 0; i < 8; i++)
        releases(32 * i + 16);
    cache_is(0, 192, 7);
    fast_is(0, 224);
    word_is("top", 1, 256);
    link_is(224, PLAIN_NONE64);
    link_is(192, 160);
    eight_is(256 + 8, 1024 - 256 + 1);
    grants(24, 208, 24);
    empties();
    joins();
    word_is("top", 1, 224);
    stop();
}

/* ---- opening and shapes ---- */

static void refused_open(size_t length, size_t record_len, uint32_t with,
                         uint32_t no)
{
    struct lent bytes = lend(length, 0x5a), before = lend(length, 0x5a);

    bytes.record_len = record_len;
    struct second_answer a = lent_open(&bytes, KEY, with);
    CHECK(a.no == no && a.mem == 0 && a.usable == 0,
          "open of %zu with a record of %zu and edition %u answers %u", length,
          record_len, with, a.no);
    CHECK(same_arena(&bytes, &before), "a refused open wrote in the arena");
    if (record_len != PLAIN_RECORD_BYTES)
        CHECK(same_record(&bytes, &before), "a record of %zu bytes was written",
              record_len);
    for (unsigned i = 0; record_len == PLAIN_RECORD_BYTES && i < 396; i++)
        CHECK(plain_word(bytes.record, i)
                  == (i == 0 || (i >= 67 && i < 131) || i >= 393 ? 0 : NONE),
              "word %u of a refused open's record", i);
    give_back(&bytes);
    give_back(&before);
}

static void opened(uint32_t length)
{
    start(length);
    for (unsigned i = 0; i < 393; i++) {
        uint32_t zero = i == 1 || (i >= 67 && i < 131);
        word_is("opened word", i, i == 0 ? length : zero ? 0 : NONE);
    }
    word_is("the key's low half", 393, 0xe8c4620a);
    word_is("the key's high half", 394, 0x9d3f5b17);
    word_is("the edition", 395, edition);
    eight_is(8, length + 1);
    for (uint32_t i = 0; i < length; i++)
        CHECK(heap.arena[i] == 0xa5 || (i >= 8 && i < 16),
              "open wrote the byte at %u", i);
}

static void opens(void)
{
    static const uint32_t good[] = { 32, 48, 64, 80, 256, 49152, 262144 };
    static const size_t bad[] = { 0, 1, 8, 16, 31, 33, 40, 56, 100, 262128 + 8,
                                  262145, 262160, 524288 };

    group("allowed arenas open, with bytes 8 to 15 and the record written");
    for (unsigned i = 0; i < sizeof good / sizeof good[0]; i++) {
        opened(good[i]);
        stop();
    }
    group("other shapes are refused, and leave what document 01 says");
    for (unsigned i = 0; i < sizeof bad / sizeof bad[0]; i++) {
        refused_open(bad[i], 1584, edition, 1);
        refused_open(bad[i], 1580, edition, 1);
        refused_open(bad[i], 1572, edition, 1);
    }
    for (size_t record_len = 1568; record_len <= 1600; record_len++)
        if (record_len != 1584)
            refused_open(256, record_len, edition, 1);
    refused_open(256, 0, edition, 1);

    group("a closed record makes later calls answer 3");
    start(256);
    CHECK(second_open(heap.arena, 255, heap.record, heap.record_len, KEY,
                      edition).no == 1,
          "an arena of 255 bytes was opened");
    CHECK(lent_audit(&heap).kind == SECOND_RECORD, "a closed record is sound");
    CHECK(lent_grant(&heap, 24).no == 3 && lent_release(&heap, 0).no == 3
              && lent_resize(&heap, 0, 24).no == 3
              && lent_emptying(&heap).no == 3 && lent_joining(&heap).no == 3,
          "a call on a closed record was not refused with 3");
    stop();
}

static void small_arenas(void)
{
    group("arenas of 32 and 48 grant nothing, 64 and 80 one block at a time");
    for (uint32_t length = 32; length <= 48; length += 16) {
        start(length);
        refuses(0, 5);
        refuses(24, 5);
        empties();
        joins();
        stop();
    }
    for (uint32_t length = 64; length <= 80; length += 16) {
        start(length);
        grants(24, 16, 24);
        refuses(0, 5);
        releases(16);
        refuses(25, 5);
        empties();
        joins();
        if (length == 80)
            grants(40, 16, 40);
        else
            refuses(40, 5);
        stop();
    }
}

static void largest_arena(void)
{
    group("in 262,144 bytes the largest grant is 262,104");
    start(262144);
    refuses(262145, 2);
    refuses(UINT64_MAX, 2);
    refuses(UINT64_MAX - 22, 2);
    refuses(((uint64_t)1 << 32) + 24, 2);
    refuses(262144, 5);
    refuses(262105, 5);
    grants(262104, 16, 262104);
    word_is("top", 1, 262112);
    refuses(0, 5);
    releases(16);
    word_is("top", 1, 0);
    eight_is(8, 262145);
    stop();
}

static void not_live(void)
{
    static const uint64_t mem[] = { 1, 8, 15, 17, 32, 40, 64, 96, 128, 1024,
                                    1040, 1008, ((uint64_t)1 << 32) + 16,
                                    UINT64_MAX, UINT64_MAX - 15, NONE };

    group("a mem that is no live block's is refused with 4, null is not");
    start(1024);
    grants(24, 16, 24); /* and one chunk cached, one live behind it */
    grants(24, 48, 24);
    grants(24, 80, 24);
    releases(48);
    struct lent before = lend(1024, 0);
    copy_lent(&before, &heap);
    for (unsigned i = 0; i < sizeof mem / sizeof mem[0]; i++)
        answers("release", lent_release(&heap, mem[i]), 4, 0, 0);
    answers("release", lent_release(&heap, 48), 4, 0, 0);
    answers("release", lent_release(&heap, 112), 4, 0, 0);
    releases(0);
    CHECK(same_arena(&heap, &before) && same_record(&heap, &before),
          "a refused release or one of null wrote");
    give_back(&before);
    stop();
}

/* ---- traces ---- */

static void split_with_one_cached(void)
{
    group("step 5 splits the last remainder while one is cached");
    start(8192);
    for (uint32_t i = 0; i < 8; i++)
        grants(200, 208 * i + 16, 200);
    grants(24, 1680, 24);
    grants(1500, 1712, 1512);
    grants(1200, 3232, 1208);
    grants(24, 4448, 24);
    releases(1712);
    for (uint32_t i = 0; i < 7; i++)
        releases(208 * i + 16);
    grants(300, 1712, 312);
    word_is("last remainder", 2, 2016);
    releases(1472);
    releases(3232);
    for (uint32_t i = 0; i < 7; i++)
        grants(200, 208 * (6 - i) + 16, 200);
    cache_is(11, NONE, 0);
    grants(200, 2032, 200);
    cache_is(11, 1456, 1);
    second_is(1456, KEY);
    word_is("last remainder", 2, 2224);
    bin_is(1, 2224, 2224);
    stop();
}

/* Blocks of 208 bytes, each with a live one of 32 behind it. */
static uint32_t fenced(uint32_t i)
{
    return 240 * i;
}

static void release_fenced(uint32_t count)
{
    start(8192);
    for (uint32_t i = 0; i < count; i++) {
        grants(200, fenced(i) + 16, 200);
        grants(24, fenced(i) + 208 + 16, 24);
    }
    for (uint32_t i = 0; i < count; i++)
        releases(fenced(i) + 16);
    cache_is(11, fenced(6), 7);
    for (uint32_t i = 0; i < 7; i++)
        grants(200, fenced(6 - i) + 16, 200);
    bin_is(1, fenced(count - 1), fenced(7));
}

static void eighth_granted(void)
{
    group("step 5 caches seven equals, grants the eighth, stops");
    release_fenced(16);
    grants(200, fenced(14) + 16, 200);
    cache_is(11, fenced(13), 7);
    bin_is(1, fenced(15), fenced(15));
    eight_is(fenced(14) + 208 + 8, 32 + 1);
    eight_is(fenced(15) + 208 + 8, 32);
    stop();

    release_fenced(10);
    grants(200, fenced(9) + 16, 200);
    cache_is(11, fenced(8), 2);
    bin_is(1, NONE, NONE);
    stop();
}

static void exact_rest(void)
{
    group("a last remainder of exactly b+32 is binned");
    start(8192);
    grants(1192, 16, 1192);
    grants(24, 1216, 24);
    grants(1096, 1248, 1096);
    grants(24, 2352, 24);
    releases(16);
    releases(1248);
    grants(1112, 16, 1112); /* leaves a rest of 80 at 1120 */
    grants(1000, 1248, 1000); /* leaves a rest of 96 at 2240 */
    bin_is(5, 1120, 1120);
    bin_is(1, 2240, 2240);
    word_is("last remainder", 2, 2240);
    grants(48, 1136, 72);
    bin_is(6, 2240, 2240);
    bin_is(5, NONE, NONE);
    word_is("last remainder", 2, 2240);
    grants(48, 2256, 56); /* now step 7 splits it, with a rest of 32 */
    bin_is(1, 2304, 2304);
    word_is("last remainder", 2, 2304);
    stop();

    start(8192);
    grants(1192, 16, 1192);
    grants(24, 1216, 24);
    releases(16);
    grants(1000, 16, 1000); /* leaves a rest of 192 at 1008 */
    grants(136, 1024, 136); /* 192 is above 144+32 */
    bin_is(1, 1152, 1152);
    word_is("last remainder", 2, 1152);
    eight_is(1200, 48);
    stop();
}

/* Large chunks, each with a live one of 32 behind it, released in turn. */
static void release_large(const uint32_t *size, unsigned count)
{
    uint32_t at[8], c = 0;

    start(16384);
    for (unsigned i = 0; i < count; i++) {
        at[i] = c;
        grants(size[i] - 8, c + 16, size[i] - 8);
        grants(24, c + size[i] + 16, 24);
        c += size[i] + 32;
    }
    for (unsigned i = 0; i < count; i++)
        releases(at[i] + 16);
    refuses(20000, 5);
    bin_is(1, NONE, NONE);
}

static void second_of_equals(void)
{
    static const uint32_t equal[] = { 1504, 1504, 1504, 1504 };
    static const uint32_t mixed[] = { 1488, 1520, 1488, 1472, 1504, 1488 };

    group("equals: a newcomer goes second, the second is taken");
    release_large(equal, 4); /* sorted 0, then 1, 2, 3 each put second */
    bin_is(71, 0, 1536);
    eight_is(0 + 16, 3 * 1536);
    eight_is(3 * 1536 + 16, 2 * 1536);
    eight_is(2 * 1536 + 16, 1536);
    eight_is(1536 + 16, PLAIN_NONE64);
    grants(1496, 3 * 1536 + 16, 1496);
    grants(1496, 2 * 1536 + 16, 1496);
    grants(1480, 1536 + 16, 1496); /* a rest of 16 stays */
    grants(1496, 16, 1496);
    bin_is(71, NONE, NONE);
    stop();

    release_large(mixed, 6);
    uint32_t c0 = 0, c1 = 1520, c2 = 3072, c3 = 4592, c4 = 6096, c5 = 7632;
    bin_is(71, c1, c3); /* 1520, 1504, 1488 (0, 5, 2), 1472 */
    eight_is(c1 + 16, c4);
    eight_is(c4 + 16, c0);
    eight_is(c0 + 16, c5);
    eight_is(c5 + 16, c2);
    eight_is(c2 + 16, c3);
    grants(1465, c5 + 16, 1480);
    grants(1464, c3 + 16, 1464);
    grants(1464, c2 + 16, 1480);
    grants(1464, c0 + 16, 1480);
    grants(1464, c4 + 16, 1464); /* 1504: the rest of 32 is cut off */
    bin_is(1, c4 + 1472, c4 + 1472);
    word_is("last remainder", 2, NONE);
    stop();
}

static void unlink_order(void)
{
    group("join unlinks the chunk before, then the one after");
    for (unsigned after_first = 0; after_first <= 1; after_first++) {
        start(8192);
        for (uint32_t i = 0; i < 3; i++)
            grants(1112, 1120 * i + 16, 1112);
        grants(24, 3376, 24);
        releases(after_first ? 2240 + 16 : 16);
        releases(after_first ? 16 : 2240 + 16);
        releases(1120 + 16);
        bin_is(1, 0, 0);
        eight_is(8, 3360 + 1);
        eight_is(16, PLAIN_NONE64);
        eight_is(24, PLAIN_NONE64);
        eight_is(1120 + 8, 1120); /* headers inside the whole stay */
        eight_is(2240 + 8, 1120 + 1);
        eight_is(2240 + 16, PLAIN_NONE64);
        eight_is(2240 + 24, PLAIN_NONE64);
        eight_is(3360, 3360);
        eight_is(3360 + 8, 32);
        stop();
    }
}

/* A bin's end without neighbours may be unsorted's or its own bin's. */
static void which_bin(void)
{
    group("a binned neighbour is found in unsorted or its own bin");
    for (unsigned sorted = 0; sorted <= 1; sorted++) {
        start(8192);
        grants(1112, 16, 1112);
        grants(1112, 1136, 1112);
        grants(24, 2256, 24);
        grants(1240, 2288, 1240);
        grants(24, 3536, 24);
        releases(16);
        if (sorted)
            refuses(20000, 5);
        releases(2288);
        bin_is(65, sorted ? 0 : NONE, sorted ? 0 : NONE);
        releases(1136);
        bin_is(65, NONE, NONE);
        bin_is(1, 0, 2272);
        eight_is(8, 2241);
        stop();
    }
}

static void refused_leaves_its_steps(void)
{
    group("a grant refused with 5 keeps its sorting and joining");
    start(4096);
    for (uint32_t i = 0; i < 10; i++)
        grants(24, 32 * i + 16, 24);
    grants(1112, 336, 1112); /* at 320, and a live one behind it */
    grants(24, 1456, 24);
    grants(24, 1488, 24); /* touches the top */
    for (uint32_t i = 0; i < 7; i++)
        releases(32 * i + 16);
    releases(7 * 32 + 16); /* fast */
    releases(9 * 32 + 16); /* fast */
    releases(1488);        /* fast, before the top */
    releases(336);         /* unsorted */
    word_is("top", 1, 1504);
    fast_is(0, 1472);
    struct lent before = lend(4096, 0);
    copy_lent(&before, &heap);
    refuses(200000, 5);
    for (unsigned k = 0; k < 10; k++)
        fast_is(k, NONE);
    word_is("top", 1, 1472);
    eight_is(1472 + 8, 4096 - 1472 + 1);
    bin_is(1, NONE, NONE);
    bin_is(2, 224, 224);
    bin_is(66, 288, 288); /* 32 at 288 joined with 1,120 at 320 */
    eight_is(288 + 8, 1152 + 1);
    skips_are(288, 288, 288); /* over the header inside the whole */
    CHECK(memcmp(heap.record + 8, before.record + 8, 4 * 129) == 0,
          "last remainder or cache changed");
    give_back(&before);
    stop();
}

static void fast_moves_reversed(void)
{
    group("step 2 moves the fast list to the cache, reversed");
    start(2048);
    for (uint32_t i = 0; i < 12; i++)
        grants(24, 32 * i + 16, 24);
    for (uint32_t i = 0; i < 12; i++)
        releases(32 * i + 16);
    for (uint32_t i = 0; i < 7; i++)
        grants(24, 32 * (6 - i) + 16, 24);
    grants(24, 32 * 11 + 16, 24);
    fast_is(0, NONE);
    cache_is(0, 32 * 7, 4);
    link_is(32 * 7, 32 * 8);
    link_is(32 * 8, 32 * 9);
    link_is(32 * 10, PLAIN_NONE64);
    stop();
}

/* ---- document 02, (vii): emptying and joining ---- */

/* With no block held, and everything joined. */
static void record_is_new(void)
{
    struct lent fresh = lend(heap.length, 0);
    lent_open(&fresh, KEY, edition);
    CHECK(same_record(&heap, &fresh), "the record is not the newly opened one");
    eight_is(8, heap.length + 1);
    give_back(&fresh);
}

static void joining_clears_the_remainder(void)
{
    group("a joining clears the last remainder, an emptying leaves it");
    start(8192);
    grants(1192, 16, 1192);
    grants(24, 1216, 24);
    releases(16);
    grants(200, 16, 200);
    word_is("last remainder", 2, 208);
    empties();
    word_is("last remainder", 2, 208);
    bin_is(1, 208, 208);
    joins();
    word_is("last remainder", 2, NONE);
    bin_is(1, 208, 208);
    grants(200, 224, 200); /* sorted first, then split by step 7 */
    word_is("last remainder", 2, 416);
    empties();
    grants(200, 432, 200); /* split by step 5: it is still the remainder */
    bin_is(1, 624, 624);
    word_is("last remainder", 2, 624);
    releases(16);
    releases(224);
    releases(432);
    releases(1216);
    empties();
    word_is("last remainder", 2, 624);
    joins();
    record_is_new();
    stop();
}

/*
 * Blocks of 32 and 208 side by side: eight of each, so that seven of each are
 * cached, one of 32 is fast and one of 208 in unsorted; and a last remainder.
 */
static void start_with_all_kinds(void)
{
    start(8192);
    for (uint32_t i = 0; i < 8; i++) {
        grants(24, 240 * i + 16, 24);
        grants(200, 240 * i + 48, 200);
    }
    grants(1192, 1936, 1192); /* at 1,920 */
    grants(24, 3136, 24);
    releases(1936);
    grants(296, 1936, 296); /* step 7: a rest of 896 at 2,224 */
    for (uint32_t i = 0; i < 8; i++) {
        releases(240 * i + 16);
        releases(240 * i + 48);
    }
    cache_is(0, 1440, 7);
    cache_is(11, 1472, 7);
    fast_is(0, 1680);
    bin_is(1, 1712, 2224);
    word_is("last remainder", 2, 2224);
}

/* All that is free below the block at 1,920 is one chunk. */
static void all_is_joined(void)
{
    cache_is(0, NONE, 0);
    cache_is(11, NONE, 0);
    fast_is(0, NONE);
    bin_is(1, 0, 2224);
    eight_is(8, 1920 + 1);
    eight_is(1920, 1920);
    eight_is(1920 + 8, 304);
    word_is("last remainder", 2, NONE);
    word_is("top", 1, 3152);
}

static void emptying_alone(void)
{
    group("an emptying leaves the fast chunks and the last remainder");
    start_with_all_kinds();
    empties();
    cache_is(0, NONE, 0);
    cache_is(11, NONE, 0);
    fast_is(0, 0); /* on top of the one that was there */
    for (uint32_t i = 0; i < 7; i++)
        link_is(240 * i, 240 * i + 240);
    link_is(1680, PLAIN_NONE64);
    bin_is(1, 32, 2224); /* those of 208, each by itself */
    for (uint32_t i = 0; i < 7; i++) {
        eight_is(240 * i + 32 + 8, 208 + 1);
        eight_is(240 * i + 32 + 16, 240 * i + 272);
        eight_is(240 * i + 240 + 8, 32);
    }
    word_is("last remainder", 2, 2224);
    empties(); /* a second one finds nothing */
    fast_is(0, 0);
    bin_is(1, 32, 2224);
    joins();
    all_is_joined();
    joins();
    all_is_joined();
    releases(1936);
    releases(3136);
    empties();
    joins();
    record_is_new();
    stop();
}

static void joining_alone(void)
{
    group("a joining leaves the cache");
    start_with_all_kinds();
    joins();
    cache_is(0, 1440, 7);
    cache_is(11, 1472, 7);
    fast_is(0, NONE);
    bin_is(1, 1680, 2224); /* the fast one with the one behind it */
    eight_is(1680 + 8, 240 + 1);
    eight_is(1920, 240);
    word_is("last remainder", 2, NONE);
    empties(); /* in this order the small ones stay apart */
    cache_is(0, NONE, 0);
    cache_is(11, NONE, 0);
    fast_is(0, 0);
    bin_is(1, 32, 2224);
    eight_is(1472 + 8, 448 + 1);
    word_is("last remainder", 2, NONE);
    joins();
    all_is_joined();
    stop();
}

/* A grant takes from the fast list and fills the cache with what it has. */
static void grant_between(void)
{
    group("after a grant between them the cache may hold chunks again");
    start_with_all_kinds();
    empties();
    grants(24, 16, 24);
    cache_is(0, 1680, 7);
    fast_is(0, NONE);
    joins();
    cache_is(0, 1680, 7);
    bin_is(1, 32, 2224);
    word_is("last remainder", 2, NONE);
    stop();
}

/* ---- document 02, (vi): a join of 65,536 consolidates ---- */

/*
 * Nine blocks of 32 and behind them, at 288, one of the given size. Seven of
 * the nine are cached; the eighth is at 224, and the ninth keeps it apart from
 * what is behind.
 */
static void start_behind_nine(uint32_t length, uint32_t size)
{
    start(length);
    for (uint32_t i = 0; i < 9; i++)
        grants(24, 32 * i + 16, 24);
    grants(size - 8, 304, size - 8);
    for (uint32_t i = 0; i < 7; i++)
        releases(32 * i + 16);
    cache_is(0, 192, 7);
    fast_is(0, NONE);
}

/* The whole at 288 is in unsorted, or else has become top. */
static void eighth_was_joined(bool unsorted)
{
    fast_is(0, NONE);
    bin_is(1, 224, unsorted ? 288 : 224);
    eight_is(224 + 8, 32 + 1);
    eight_is(224 + 16, unsorted ? 288 : PLAIN_NONE64);
    eight_is(224 + 24, PLAIN_NONE64);
    eight_is(256, 32);
    eight_is(256 + 8, 32);
    cache_is(0, 192, 7);
}

/* The eighth is fast, or live, as it was before the release. */
static void eighth_was_left(bool fast, bool unsorted)
{
    fast_is(0, fast ? 224 : NONE);
    bin_is(1, unsorted ? 288 : NONE, unsorted ? 288 : NONE);
    eight_is(224 + 8, 32 + 1);
    eight_is(256 + 8, 32 + 1);
    cache_is(0, 192, 7);
}

static void join_yields(uint32_t size, bool fast)
{
    bool consolidates = fast && size == 65536;

    start_behind_nine(131072, size);
    grants(40, 288 + size + 16, 40);
    if (fast)
        releases(240);
    releases(304);
    if (consolidates)
        eighth_was_joined(true);
    else
        eighth_was_left(fast, true);
    eight_is(288 + 8, size + 1);
    eight_is(288 + 24, consolidates ? 224 : PLAIN_NONE64);
    eight_is(288 + size, size);
    eight_is(288 + size + 8, 48);
    word_is("top", 1, 288 + size + 48);
    stop();
}

/* The block is of 1,120; it and the top behind it are of that size. */
static void join_with_top_yields(uint32_t size, bool fast)
{
    start_behind_nine(288 + size, 1120);
    if (fast)
        releases(240);
    releases(304);
    if (fast && size == 65536)
        eighth_was_joined(false);
    else
        eighth_was_left(fast, false);
    word_is("top", 1, 288);
    eight_is(288 + 8, size + 1);
    stop();
}

/* A block of 1,120 behind a binned chunk, and before another or the top. */
static void join_with_both_yields(uint32_t size, bool fast, bool with_top)
{
    uint32_t behind = size - 32208 - 1120;

    start_behind_nine(with_top ? 288 + size : 131072, 32208);
    grants(1112, 32512, 1112);
    if (!with_top) {
        grants(behind - 8, 33632, behind - 8);
        grants(40, 288 + size + 16, 40);
        releases(33632);
    }
    releases(304);
    if (fast)
        releases(240);
    fast_is(0, fast ? 224 : NONE); /* neither half yields so much */
    releases(32512);
    if (fast && size == 65536)
        eighth_was_joined(!with_top);
    else
        eighth_was_left(fast, !with_top);
    eight_is(288 + 8, size + 1);
    word_is("top", 1, with_top ? 288 : 288 + size + 48);
    stop();
}

static void large_joins(void)
{
    group("a release that yields 65,536 consolidates, one of 65,520 does not");
    for (uint32_t size = 65520; size <= 65536; size += 16)
        for (unsigned fast = 0; fast <= 1; fast++) {
            join_yields(size, fast);
            join_with_top_yields(size, fast);
            join_with_both_yields(size, fast, false);
            join_with_both_yields(size, fast, true);
        }
}

/* The ninth is the fast one, right before what is joined. */
static void fast_chunk_beside(void)
{
    group("a fast chunk beside the whole is joined with it");
    start_behind_nine(131072, 65536);
    grants(40, 65840, 40);
    releases(272);
    releases(304);
    fast_is(0, NONE);
    bin_is(1, 256, 256);
    eight_is(256 + 8, 65568 + 1);
    no_skips(256); /* over the header inside the whole */
    eight_is(65824, 65568);
    eight_is(65824 + 8, 48);
    stop();

    start_behind_nine(65824, 1120); /* and with the top */
    releases(272);
    releases(304);
    fast_is(0, NONE);
    bin_is(1, NONE, NONE);
    word_is("top", 1, 256);
    eight_is(256 + 8, 65568 + 1);
    stop();
}

/* Beside a top of more than 65,536, with a fast chunk about. */
static void pushes(void)
{
    group("a push on a cache or fast list never consolidates");
    start_behind_nine(131072, 1040);
    releases(240);
    releases(304);
    cache_is(63, 288, 1);
    eighth_was_left(true, false);
    word_is("top", 1, 1328);
    stop();

    start_behind_nine(131072, 32);
    releases(240);
    releases(304);
    fast_is(0, 288);
    link_is(288, 224);
    eight_is(256 + 8, 32 + 1);
    bin_is(1, NONE, NONE);
    cache_is(0, 192, 7);
    word_is("top", 1, 320);
    stop();
}

/* Fast list 0 is joined with the top, which yields 130,464, then list 1. */
static void consolidation_yields(void)
{
    group("a consolidation joins each fast chunk once, whatever it yields");
    start(131072);
    for (uint32_t i = 0; i < 8; i++)
        grants(40, 48 * i + 16, 40);
    for (uint32_t i = 0; i < 8; i++)
        grants(24, 32 * i + 400, 24);
    for (uint32_t i = 0; i < 8; i++) {
        releases(48 * i + 16);
        releases(32 * i + 400);
    }
    fast_is(0, 608);
    fast_is(1, 336);
    grants(1112, 624, 1112); /* step 4, and step 9 from the top at 608 */
    fast_is(0, NONE);
    fast_is(1, NONE);
    bin_is(1, NONE, NONE);
    bin_is(3, 336, 336);
    cache_is(0, 576, 7);
    cache_is(1, 288, 7);
    word_is("top", 1, 1728);
    stop();
}

/*
 * Emptied in the order of the lists: 0 to a fast list; 416 into the top, which
 * yields so much that 0 is joined; 64, so before 0 in unsorted. With 16 bytes
 * less, 0 is left for the joining.
 */
static void emptying_halfway(void)
{
    group("an emptying in which a join yields 65,536 consolidates halfway");
    for (uint32_t size = 65520; size <= 65536; size += 16) {
        start(416 + size);
        grants(24, 16, 24);
        grants(24, 48, 24);
        grants(312, 80, 312);
        grants(24, 400, 24);
        grants(200, 432, 200);
        releases(16);
        releases(80);
        releases(432);
        cache_is(0, 0, 1);
        cache_is(18, 64, 1);
        cache_is(11, 416, 1);
        empties();
        fast_is(0, size == 65536 ? NONE : 0);
        bin_is(1, 64, size == 65536 ? 0 : 64);
        word_is("top", 1, 416);
        eight_is(416 + 8, size + 1);
        joins();
        fast_is(0, NONE);
        bin_is(1, size == 65536 ? 64 : 0, size == 65536 ? 0 : 64);
        word_is("top", 1, 416);
        stop();
    }
}

/* ---- document 02, (viii): the key ---- */

/* What the holder of the chunk at c leaves in its second word. */
static uint64_t data(uint32_t c)
{
    return 0xda7a000000000000u + c;
}

/* Blocks of 32, one after the other, with their holders' words. */
static void start_row(uint32_t length, uint32_t count)
{
    start(length);
    for (uint32_t i = 0; i < count; i++) {
        grants(24, 32 * i + 16, 24);
        plain_put(heap.arena + 32 * i + 24, 8, data(32 * i));
    }
}

static void cached_and_taken(void)
{
    group("key: in the second word of a cached chunk, 0 when it is taken");
    start_row(1024, 3);
    releases(48);
    second_is(32, KEY);
    link_is(32, PLAIN_NONE64);
    eight_is(64, UNWRITTEN); /* its last usable bytes */
    releases(16);
    second_is(0, KEY);
    link_is(0, 32);
    second_is(32, KEY);
    second_is(64, data(64));
    grants(0, 16, 24);
    second_is(0, 0);
    link_is(0, 32); /* its link stays */
    second_is(32, KEY);
    grants(24, 48, 24);
    second_is(32, 0);
    grants(24, 112, 24); /* from the top: as it was */
    second_is(96, UNWRITTEN);
    stop();
}

static void every_cache_list(void)
{
    group("key: a wrong one names its list, whichever it is");
    start(65536);
    for (unsigned k = 0; k < 64; k++)
        releases(lent_grant(&heap, 24 + 16 * k).mem);
    for (unsigned k = 0; k < 64; k++) {
        uint32_t c = plain_word(heap.record, plain_cache_head(k));
        for (unsigned bit = 0; bit < 64; bit++) {
            plain_put(heap.arena + c + 24, 8, KEY ^ ((uint64_t)1 << bit));
            struct second_fault f = lent_audit(&heap);
            CHECK(f.no == 0 && f.kind == SECOND_CACHE && f.number == k,
                  "bit %u of the key in list %u: %u %u %u", bit, k, f.no,
                  f.kind, f.number);
            CHECK(edition == 2
                      || lent_audit_by(&heap, 1).kind == SECOND_SOUND,
                  "a key is asked of a heap of version 1");
        }
        plain_put(heap.arena + c + 24, 8, KEY);
        CHECK(lent_sound(&heap), "not sound with all keys");
    }
    stop();
}

/* The head, the last and those between; the eighth is fast, and has none. */
static void wrong_keys_in_a_list(void)
{
    group("key: a wrong one anywhere in a list of seven");
    start_row(1024, 8);
    for (uint32_t i = 0; i < 8; i++)
        releases(32 * i + 16);
    for (uint32_t i = 0; i < 8; i++) {
        plain_put(heap.arena + 32 * i + 24, 8, 0);
        struct second_fault f = lent_audit(&heap);
        CHECK(f.kind == (i < 7 ? SECOND_CACHE : SECOND_SOUND) && f.number == 0,
              "0 for the key at %u: fault %u %u", 32 * i, f.kind, f.number);
        CHECK(lent_grant(&heap, 262144).no == (i < 7 ? 3 : 5),
              "a grant with a wrong key at %u", 32 * i);
        plain_put(heap.arena + 32 * i + 24, 8, KEY);
    }
    stop();
}

static void key_and_fast(void)
{
    group("key: a fast chunk gets none, step 2 writes it where it caches");
    start_row(2048, 12);
    for (uint32_t i = 0; i < 12; i++)
        releases(32 * i + 16);
    cache_is(0, 32 * 6, 7);
    fast_is(0, 32 * 11);
    for (uint32_t i = 0; i < 12; i++)
        second_is(32 * i, i < 7 ? KEY : data(32 * i));
    for (uint32_t i = 0; i < 7; i++) {
        grants(24, 32 * (6 - i) + 16, 24);
        second_is(32 * (6 - i), 0);
    }
    grants(24, 32 * 11 + 16, 24);
    second_is(32 * 11, data(32 * 11)); /* from the fast list, as it was */
    cache_is(0, 32 * 7, 4);
    for (uint32_t i = 7; i < 11; i++)
        second_is(32 * i, KEY);
    stop();
}

/* Sorted, so that bin 13 is those from 13 to 7, each 240 apart. */
static void key_and_small_bin(void)
{
    group("key: a chunk from its bin keeps its back link, those cached get it");
    release_fenced(14);
    refuses(20000, 5);
    bin_is(13, fenced(13), fenced(7));
    for (uint32_t i = 0; i < 7; i++)
        second_is(fenced(i), 0); /* taken from the cache meanwhile */
    grants(200, fenced(7) + 16, 200);
    second_is(fenced(7), fenced(8));
    cache_is(11, fenced(13), 6);
    for (uint32_t i = 8; i < 14; i++)
        second_is(fenced(i), KEY);
    grants(200, fenced(13) + 16, 200);
    second_is(fenced(13), 0);
    second_is(fenced(12), KEY);
    stop();
}

static void key_and_unsorted(void)
{
    group("key: step 5 writes it where it caches, and 0 in the head it grants");
    release_fenced(10);
    second_is(fenced(8), fenced(9)); /* unsorted is 9, 8, 7 */
    grants(200, fenced(9) + 16, 200);
    second_is(fenced(9), 0);
    second_is(fenced(8), KEY);
    second_is(fenced(7), KEY);
    stop();

    release_fenced(16); /* the eighth equal was never cached */
    grants(200, fenced(14) + 16, 200);
    second_is(fenced(14), fenced(15));
    for (uint32_t i = 7; i < 14; i++)
        second_is(fenced(i), KEY);
    second_is(fenced(15), PLAIN_NONE64);
    stop();
}

static void key_and_emptying(void)
{
    group("key: an emptying writes 0, which only a back link then covers");
    start_with_all_kinds();
    second_is(1680, UNWRITTEN); /* the fast one */
    for (uint32_t i = 0; i < 7; i++) {
        second_is(240 * i, KEY);
        second_is(240 * i + 32, KEY);
    }
    empties();
    second_is(1680, UNWRITTEN);
    for (uint32_t i = 0; i < 7; i++) {
        second_is(240 * i, 0);
        second_is(240 * i + 32, i == 0 ? PLAIN_NONE64 : 240 * i - 208);
    }
    joins();
    second_is(0, PLAIN_NONE64); /* first of the whole, and of unsorted */
    for (uint32_t i = 1; i < 7; i++)
        second_is(240 * i, 0); /* inside it */
    second_is(1680, UNWRITTEN);
    stop();

    start_with_all_kinds(); /* a joining takes nothing from the cache */
    joins();
    for (uint32_t i = 0; i < 7; i++) {
        second_is(240 * i, KEY);
        second_is(240 * i + 32, KEY);
    }
    stop();

    start(1024); /* joined with the top: no link covers it */
    grants(200, 16, 200);
    releases(16);
    second_is(0, KEY);
    empties();
    word_is("top", 1, 0);
    link_is(0, PLAIN_NONE64);
    second_is(0, 0);
    stop();

    start(4096); /* joined with the chunk before it: neither */
    grants(1112, 16, 1112);
    grants(200, 1136, 200);
    grants(24, 1344, 24);
    releases(16);
    releases(1136);
    second_is(1120, KEY);
    empties();
    eight_is(8, 1328 + 1);
    eight_is(1120 + 8, 208);
    second_is(1120, 0);
    second_is(0, PLAIN_NONE64);
    stop();
}

/* Any number is a key, 0 and those that could be links too. */
static void any_key(void)
{
    static const uint64_t key[] = { 0, 1, 32, PLAIN_NONE32, PLAIN_NONE64,
                                    (uint64_t)1 << 63,
                                    PLAIN_NONE64 - PLAIN_NONE32 };

    group("key: 0, all ones and any other");
    start(1024);
    for (unsigned i = 0; i < sizeof key / sizeof key[0]; i++) {
        CHECK(lent_open(&heap, key[i], edition).no == 0, "open refused");
        CHECK(plain_get(heap.record + 1572, 8) == key[i],
              "the record's key is not the one given");
        grants(24, 16, 24);
        grants(24, 48, 24);
        releases(16);
        releases(48);
        second_is(0, key[i]);
        second_is(32, key[i]);
        plain_put(heap.arena + 32 + 24, 8, ~key[i]);
        CHECK(lent_audit(&heap).kind == SECOND_CACHE, "the key is not asked");
        plain_put(heap.arena + 32 + 24, 8, key[i]);
        grants(24, 48, 24);
        second_is(32, 0);
    }
    stop();
}

/* What is left of the heap before is as any other byte. */
static void opened_with_another_key(void)
{
    group("key: opened again with another one");
    start_row(1024, 3);
    releases(16);
    releases(48);
    CHECK(lent_open(&heap, ~KEY, edition).no == 0, "open refused");
    second_is(0, KEY);
    second_is(32, KEY);
    CHECK(lent_sound(&heap), "an old key is asked after");
    grants(24, 16, 24);
    grants(24, 48, 24);
    second_is(0, KEY); /* from the top: nothing is cleared */
    releases(16);
    second_is(0, ~KEY);
    second_is(32, KEY);
    plain_put(heap.arena + 24, 8, KEY);
    struct second_fault f = lent_audit(&heap);
    CHECK(f.kind == SECOND_CACHE && f.number == 0,
          "a cached chunk with the old key: fault %u %u", f.kind, f.number);
    stop();
}

/* ---- document 02, (x): skip links ---- */

/* The chunks of start_rings, by the order of their sizes there. */
static uint32_t at[8], size_of[8];

/*
 * Large blocks, each between two live ones of 32. They are released in turn;
 * start_rings has them sorted too.
 */
static void start_large(const uint32_t *size, unsigned count)
{
    uint32_t c = 32;

    start(16384);
    grants(24, 16, 24);
    for (unsigned i = 0; i < count; i++) {
        at[i] = c;
        size_of[i] = size[i];
        grants(size[i] - 8, c + 16, size[i] - 8);
        grants(24, c + size[i] + 16, 24);
        c += size[i] + 32;
    }
}

static void start_rings(const uint32_t *size, unsigned count)
{
    start_large(size, count);
    for (unsigned i = 0; i < count; i++) {
        releases(at[i] + 16);
        no_skips(at[i]);
    }
    refuses(20000, 5);
    bin_is(1, NONE, NONE);
}

/* The live block before it takes in all of the chunk, wherever that stands. */
static void takes_in(unsigned i)
{
    uint32_t mem = at[i] - 16, usable = size_of[i] + 24;
    resizes(mem, usable, mem, usable);
}

/* That these are the ring, the largest first. */
static void ring_is(unsigned count, const unsigned *chunk)
{
    for (unsigned i = 0; i < count; i++)
        skips_are(at[chunk[i]], at[chunk[(i + 1) % count]],
                  at[chunk[(i + count - 1) % count]]);
}

#define RING(...) \
    ring_is(sizeof (unsigned[]){ __VA_ARGS__ } / sizeof(unsigned), \
            (const unsigned[]){ __VA_ARGS__ })

static void one_group(void)
{
    static const uint32_t one[] = { 1504 };
    static const uint32_t equal[] = { 1504, 1504, 1504, 1504 };

    group("ring: one group points to itself, the others of it have none");
    start_rings(one, 1);
    bin_is(71, at[0], at[0]);
    skips_are(32, 32, 32);
    stop();

    start_rings(equal, 4); /* 0, then 3, 2, 1 */
    bin_is(71, at[0], at[1]);
    RING(0);
    for (unsigned i = 1; i < 4; i++)
        no_skips(at[i]);
    grants(1496, at[3] + 16, 1496); /* the second: no ring changes */
    RING(0);
    no_skips(at[3]);
    grants(200, at[1] + 16, 200); /* the last, by step 7: neither */
    RING(0);
    no_skips(at[1]);
    no_skips(at[1] + 208); /* its rest in unsorted, of 1,296 */
    no_skips(at[2]);
    stop();
}

/* Each sorted before the next is released. */
static void ring_grows(void)
{
    static const uint32_t size[] = { 1488, 1520, 1472, 1504, 1488, 1520, 1472 };

    group("ring: a new first before the next smaller, an equal in none");
    start_large(size, 7);
    for (unsigned i = 0; i < 7; i++) {
        releases(at[i] + 16);
        no_skips(at[i]);
        refuses(20000, 5);
        switch (i) {
        case 0: RING(0); break;
        case 1: RING(1, 0); break;
        case 2: RING(1, 0, 2); break;
        default: RING(1, 3, 0, 2); break;
        }
        for (unsigned k = 4; k <= i; k++)
            no_skips(at[k]);
    }
    bin_is(71, at[1], at[6]);
    stop();
}

/* 1,520, 1,504, 1,488 (0, 5, 2) and 1,472 are taken one by one. */
static void ring_shrinks(void)
{
    static const uint32_t mixed[] = { 1488, 1520, 1488, 1472, 1504, 1488 };

    group("ring: three groups and more, closed where steps 6 and 7 take");
    start_rings(mixed, 6);
    RING(1, 4, 0, 3);
    no_skips(at[5]);
    no_skips(at[2]);
    grants(1465, at[5] + 16, 1480); /* the second of its group */
    RING(1, 4, 0, 3);
    no_skips(at[5]);
    grants(1464, at[3] + 16, 1464); /* the smallest, alone in its group */
    RING(1, 4, 0);
    skips_are(at[3], at[1], at[0]); /* its own words stay */
    grants(1464, at[2] + 16, 1480);
    RING(1, 4, 0);
    no_skips(at[2]);
    grants(1464, at[0] + 16, 1480); /* its group has no other any more */
    RING(1, 4);
    skips_are(at[0], at[1], at[4]);
    grants(1464, at[4] + 16, 1464); /* cut: the words are in what is granted */
    RING(1);
    skips_are(at[4], at[1], at[1]);
    skips_are(at[3], at[1], at[0]); /* no later call has written them */
    grants(200, at[1] + 16, 200);
    bin_is(71, NONE, NONE);
    skips_are(at[1], at[1], at[1]);
    stop();

    start_rings(mixed, 6); /* step 7 takes the last, a first */
    grants(200, at[3] + 16, 200);
    RING(1, 4, 0);
    skips_are(at[3], at[1], at[0]);
    no_skips(at[3] + 208);
    stop();
}

static void first_leaves(void)
{
    static const uint32_t equal[] = { 1504, 1504, 1504 };
    static const uint32_t groups[] = { 1472, 1488, 1504, 1488, 1472, 1504 };

    group("ring: an equal takes the place of a first that leaves");
    start_rings(equal, 3); /* 0, 2, 1 */
    RING(0);
    takes_in(0);
    RING(2);
    no_skips(at[1]);
    skips_are(at[0], at[0], at[0]);
    takes_in(2);
    RING(1);
    skips_are(at[2], at[2], at[2]);
    takes_in(1);
    bin_is(71, NONE, NONE);
    skips_are(at[1], at[1], at[1]);
    stop();

    start_rings(groups, 6); /* 2, 5, 1, 3, 0, 4 */
    RING(2, 1, 0);
    takes_in(1); /* in the middle */
    RING(2, 3, 0);
    skips_are(at[1], at[0], at[2]);
    takes_in(2); /* the largest */
    RING(5, 3, 0);
    skips_are(at[2], at[3], at[0]);
    takes_in(0); /* the smallest */
    RING(5, 3, 4);
    skips_are(at[0], at[5], at[3]);
    takes_in(3); /* and then without an equal: the middle, */
    RING(5, 4);
    skips_are(at[3], at[4], at[5]);
    takes_in(5); /* the largest, the only one */
    RING(4);
    skips_are(at[5], at[4], at[4]);
    takes_in(4);
    bin_is(71, NONE, NONE);
    skips_are(at[4], at[4], at[4]);
    stop();
}

static void member_leaves(void)
{
    static const uint32_t equal[] = { 1504, 1504, 1504, 1472 };

    group("ring: another of a group leaves, and the ring stays");
    start_rings(equal, 4); /* 0, 2, 1, 3 */
    RING(0, 3);
    takes_in(1);
    RING(0, 3);
    no_skips(at[1]);
    takes_in(2);
    RING(0, 3);
    no_skips(at[2]);
    takes_in(0);
    RING(3);
    skips_are(at[0], at[3], at[3]);
    stop();
}

/* Sizes of bins 64, 65 and 97. */
static void a_ring_for_each_bin(void)
{
    static const uint32_t size[] = { 1072, 1136, 1056, 1088, 3136, 1072 };

    group("ring: each bin has its own");
    start_rings(size, 6);
    bin_is(64, at[0], at[2]);
    bin_is(65, at[1], at[3]);
    bin_is(97, at[4], at[4]);
    RING(0, 2);
    RING(1, 3);
    RING(4);
    no_skips(at[5]);
    stop();
}

/* Both neighbours of what is released are in one ring, and leave it. */
static void both_neighbours_leave(void)
{
    group("ring: a join takes both neighbours out, the one before first");
    start(8192);
    grants(1480, 16, 1480);
    grants(1112, 1504, 1112);
    grants(1496, 2624, 1496);
    grants(24, 4128, 24);
    releases(16);
    releases(2624);
    refuses(20000, 5);
    skips_are(0, 2608, 2608);
    skips_are(2608, 0, 0);
    releases(1504);
    bin_is(71, NONE, NONE);
    bin_is(1, 0, 0);
    no_skips(0);
    skips_are(2608, 2608, 2608); /* alone, when it left in its turn */
    stop();
}

/* What the holder leaves where the skip links of the chunk at c would be. */
static void hold_data(uint32_t c)
{
    plain_put(heap.arena + c + 32, 8, data(c));
    plain_put(heap.arena + c + 40, 8, ~data(c));
}

static void data_is_held(uint32_t c)
{
    skips_are(c, data(c), ~data(c));
}

/* Eight blocks of the size, of which the eighth is in no cache list. */
static void eighth_of(uint32_t size)
{
    start(16384);
    for (uint32_t i = 0; i < 8; i++) {
        grants(size - 8, i * (size + 32) + 16, size - 8);
        grants(24, i * (size + 32) + size + 16, 24);
        hold_data(i * (size + 32));
    }
    for (uint32_t i = 0; i < 8; i++)
        releases(i * (size + 32) + 16);
    for (uint32_t i = 0; i < 7; i++)
        data_is_held(i * (size + 32)); /* cached: as it was */
}

static void into_unsorted(void)
{
    group("skip links: none in unsorted from 1,024 on, what was there below");
    eighth_of(1024);
    uint32_t c = 7 * 1056;
    no_skips(c);
    refuses(20000, 5);
    bin_is(64, c, c);
    skips_are(c, c, c);
    stop();

    eighth_of(1008);
    c = 7 * 1040;
    data_is_held(c);
    refuses(20000, 5);
    bin_is(63, c, c);
    data_is_held(c);
    stop();

    start(8192); /* old links do not last */
    grants(1496, 16, 1496);
    grants(24, 1520, 24);
    releases(16);
    refuses(20000, 5);
    skips_are(0, 0, 0);
    grants(1496, 16, 1496);
    skips_are(0, 0, 0);
    releases(16);
    no_skips(0);
    grants(1496, 16, 1496); /* from unsorted, equal: as they were */
    no_skips(0);
    hold_data(0);
    releases(16);
    no_skips(0);
    stop();
}

static void into_the_top(void)
{
    group("skip links: what becomes top keeps what was there");
    start(8192);
    grants(1496, 16, 1496);
    hold_data(0);
    releases(16);
    word_is("top", 1, 0);
    data_is_held(0);
    stop();

    start(8192); /* so does a chunk of a ring that is joined with it */
    grants(1496, 16, 1496);
    grants(1496, 1520, 1496);
    releases(16);
    refuses(20000, 5);
    skips_are(0, 0, 0);
    hold_data(1504);
    releases(1520);
    word_is("top", 1, 0);
    bin_is(71, NONE, NONE);
    skips_are(0, 0, 0);
    data_is_held(1504);
    stop();
}

/* Six chunks of 208 at 0, emptied from the last to the first. */
static void joined_up_to_1024(void)
{
    group("skip links: none once what is joined reaches 1,024");
    start(4096);
    for (uint32_t i = 0; i < 6; i++) {
        grants(200, 208 * i + 16, 200);
        hold_data(208 * i);
    }
    grants(24, 1264, 24);
    for (uint32_t i = 0; i < 6; i++)
        releases(208 * i + 16);
    empties();
    bin_is(1, 0, 0);
    eight_is(8, 1248 + 1);
    no_skips(0);
    no_skips(208); /* then it was 1,040 */
    for (uint32_t i = 2; i < 6; i++)
        data_is_held(208 * i); /* 832 and less */
    stop();
}

/* A fast chunk of 32 before a binned one of 992, and of 976. */
static void consolidated_up_to_1024(void)
{
    group("skip links: none where a consolidation yields 1,024");
    for (uint32_t size = 976; size <= 992; size += 16) {
        start(16384);
        for (uint32_t i = 0; i < 7; i++)
            grants(24, 32 * i + 16, 24);
        grants(24, 240, 24); /* at 224 */
        grants(size - 8, 272, size - 8); /* at 256 */
        grants(24, 272 + size, 24);
        for (uint32_t i = 0; i < 7; i++)
            grants(size - 8, 288 + size + i * size + 16, size - 8);
        for (uint32_t i = 0; i < 7; i++)
            releases(288 + size + i * size + 16);
        for (uint32_t i = 0; i < 7; i++)
            releases(32 * i + 16);
        releases(240);
        releases(272);
        bin_is(1, 256, 256);
        fast_is(0, 224);
        joins();
        bin_is(1, 224, 224);
        eight_is(224 + 8, size + 32 + 1);
        if (size == 992)
            no_skips(224);
        else
            eight_is(256 + 8, size + 1); /* the header inside the whole */
        stop();
    }
}

/* 1,504 bytes at 0, given away 208 by 208. */
static void rests(void)
{
    group("skip links: none in a rest of 1,024 and more, by steps 5 and 8");
    start(8192);
    grants(1496, 16, 1496);
    grants(24, 1520, 24);
    releases(16);
    grants(200, 16, 200); /* step 7 */
    bin_is(1, 208, 208);
    no_skips(208);
    skips_are(0, 0, 0); /* of the chunk that was sorted before */
    grants(200, 224, 200); /* step 5: 1,088 are left */
    word_is("last remainder", 2, 416);
    no_skips(416);
    grants(200, 432, 200); /* step 5: 880 are left */
    word_is("last remainder", 2, 624);
    skips_are(624, UNWRITTEN, UNWRITTEN);
    grants(200, 640, 200);
    skips_are(832, UNWRITTEN, UNWRITTEN);
    stop();

    for (uint32_t rest = 1008; rest <= 1024; rest += 16) {
        start(8192); /* steps 7 and 5 at the boundary */
        grants(1096 + rest, 16, 1096 + rest);
        grants(24, 1120 + rest, 24);
        releases(16);
        grants(80, 16, 88);
        no_skips(96);
        grants(1000, 112, 1000);
        bin_is(1, 1104, 1104);
        if (rest == 1024)
            no_skips(1104);
        else
            skips_are(1104, UNWRITTEN, UNWRITTEN);
        stop();

        start(8192); /* step 6 */
        grants(7168 - 8, 16, 7168 - 8);
        grants(24, 7184, 24);
        releases(16);
        refuses(20000, 5);
        grants(7168 - rest - 8, 16, 7168 - rest - 8);
        bin_is(1, 7168 - rest, 7168 - rest);
        if (rest == 1024)
            no_skips(7168 - rest);
        else
            skips_are(7168 - rest, UNWRITTEN, UNWRITTEN);
        stop();
    }
}

/* That the heap is not sound for that bin; by versions 1 and 2 it is sound. */
static void names_bin(unsigned bin, uint32_t c, unsigned word, unsigned bit)
{
    struct second_fault f = lent_audit(&heap);
    CHECK(f.no == 0 && f.kind == SECOND_BIN && f.number == bin,
          "bit %u of word %u in the chunk %u: %u %u %u, not bin %u", bit, word,
          c, f.no, f.kind, f.number, bin);
    for (unsigned version = 1; version <= 2; version++)
        CHECK(lent_audit_by(&heap, version).kind == SECOND_SOUND,
              "a skip link is asked of a heap of version %u", version);
    CHECK(lent_grant(&heap, 24).no == 3, "a grant with a wrong skip link");
}

static void wrong_words(unsigned bin, uint32_t c)
{
    for (unsigned word = 32; word <= 40; word += 8) {
        uint64_t right = plain_get(heap.arena + c + word, 8);
        for (unsigned bit = 0; bit < 64; bit++) {
            plain_put(heap.arena + c + word, 8, right ^ ((uint64_t)1 << bit));
            names_bin(bin, c, word, bit);
        }
        plain_put(heap.arena + c + word, 8, right);
    }
    CHECK(lent_sound(&heap), "not sound with all skip links");
}

/* The whole ring says something else: each word agrees with some other. */
static void wrong_ring(unsigned count, const unsigned *chunk)
{
    struct lent right = lend(heap.length, 0);
    copy_lent(&right, &heap);
    for (unsigned i = 0; i < count; i++) {
        uint32_t c = at[chunk[i]];
        plain_put(heap.arena + c + 32, 8, at[chunk[(i + 1) % count]]);
        plain_put(heap.arena + c + 40, 8, at[chunk[(i + count - 1) % count]]);
    }
    names_bin(71, at[chunk[0]], 32, 64);
    copy_lent(&heap, &right);
    give_back(&right);
}

#define WRONG_RING(...) \
    wrong_ring(sizeof (unsigned[]){ __VA_ARGS__ } / sizeof(unsigned), \
               (const unsigned[]){ __VA_ARGS__ })

static void wrong_skips(void)
{
    static const uint32_t mixed[] = { 1488, 1520, 1488, 1472, 1504, 1488,
                                      1136 };

    group("skip links: a wrong one names its bin, whichever it is");
    start_rings(mixed, 7);
    RING(1, 4, 0, 3);
    for (unsigned i = 0; i < 6; i++)
        wrong_words(71, at[i]);
    wrong_words(65, at[6]);
    WRONG_RING(3, 0, 4, 1);          /* turned */
    WRONG_RING(1, 4, 0);             /* the smallest left out */
    WRONG_RING(1, 4, 5, 3);          /* the second of a group */
    WRONG_RING(1, 4, 0, 5, 3);       /* two of a group */
    WRONG_RING(1, 4, 0, 5, 2, 3);    /* all chunks */
    WRONG_RING(1, 0, 4, 3);          /* another order */
    WRONG_RING(0);                   /* to itself */
    CHECK(lent_sound(&heap), "not sound with all skip links");
    stop();

    start_large(mixed, 7); /* in unsorted */
    for (unsigned i = 0; i < 7; i++)
        releases(at[i] + 16);
    for (unsigned i = 0; i < 7; i++)
        wrong_words(1, at[i]);
    for (unsigned word = 32; word <= 40; word += 8) {
        plain_put(heap.arena + at[0] + word, 8, at[0]);
        names_bin(1, at[0], word, 64);
        plain_put(heap.arena + at[0] + word, 8, PLAIN_NONE64);
    }
    stop();

    eighth_of(1008); /* nobody asks them of less than 1,024 */
    bin_is(1, 7 * 1040, 7 * 1040);
    CHECK(lent_sound(&heap), "skip links are asked of 1,008 in unsorted");
    refuses(20000, 5);
    bin_is(63, 7 * 1040, 7 * 1040);
    CHECK(lent_sound(&heap), "skip links are asked of 1,008 in its bin");
    stop();
}

/* ---- document 02, (xi): mixed links ---- */

/* Lends an arena with a block up to c and chunks of that size from there on. */
static void start_at(uint32_t length, uint32_t c, uint32_t size, uint32_t count)
{
    start(length);
    grants(c - 8, 16, c - 8);
    for (uint32_t i = 0; i < count; i++)
        grants(size - 8, c + i * size + 16, size - 8);
}

static uint64_t by_edition(uint64_t plain, uint64_t mixed)
{
    return edition == 2 ? mixed : plain;
}

/* Of the end mark, and of a link to it; (c + 16) / 4,096 is told. */
static void stored_by_position(uint32_t c, uint64_t position)
{
    start_at(262144, c, 32, 2);
    releases(c + 16);
    cache_is(0, c, 1); /* heads are never mixed */
    eight_is(c + 16, by_edition(PLAIN_NONE64, PLAIN_NONE64 - position));
    second_is(c, KEY);
    releases(c + 48);
    cache_is(0, c + 32, 2);
    uint64_t next = (c + 48) / 4096;
    CHECK(next == position || next == position + 1, "told wrongly");
    eight_is(c + 48, by_edition(c, c ^ next));
    grants(24, c + 48, 24); /* taken, its link stays as it was stored */
    eight_is(c + 48, by_edition(c, c ^ next));
    cache_is(0, c, 1);
    grants(24, c + 16, 24);
    eight_is(c + 16, by_edition(PLAIN_NONE64, PLAIN_NONE64 - position));
    cache_is(0, NONE, 0);
    stop();
}

static void mixed_by_own_position(void)
{
    static const uint32_t at_position[][2] = {
        { 32, 0 },      { 4048, 0 },    { 4064, 0 },    { 4080, 1 },
        { 4096, 1 },    { 8160, 1 },    { 8176, 2 },    { 8192, 2 },
        { 12272, 3 },   { 65504, 15 },  { 65520, 16 },  { 65536, 16 },
        { 131040, 31 }, { 131056, 32 }, { 258016, 62 }, { 258032, 63 },
        { 258048, 63 }, { 262048, 63 }
    };

    group("mixed: a link and the end mark by the link's own position");
    for (unsigned i = 0; i < sizeof at_position / sizeof at_position[0]; i++)
        stored_by_position(at_position[i][0], at_position[i][1]);
}

/* Links across 4,096, and between two of its multiples far apart. */
static void mixed_lists(void)
{
    group("mixed: lists across multiples of 4,096");
    start_at(16384, 4032, 32, 4); /* 4032, 4064, 4096, 4128 */
    for (uint32_t i = 0; i < 4; i++)
        releases(4048 + 32 * i);
    cache_is(0, 4128, 4);
    eight_is(4128 + 16, by_edition(4096, 4097));
    eight_is(4096 + 16, by_edition(4064, 4065));
    eight_is(4064 + 16, 4032);
    eight_is(4032 + 16, PLAIN_NONE64);
    stop();

    start_at(20480, 4080, 4096, 3); /* 4080, 8176, 12272, made short */
    for (uint32_t i = 0; i < 3; i++)
        resizes(4096 * i + 4096, 24, 4096 * i + 4096, 24);
    for (uint32_t i = 0; i < 3; i++)
        releases(4096 * i + 4096);
    cache_is(0, 12272, 3);
    eight_is(12272 + 16, by_edition(8176, 8179)); /* 3 */
    eight_is(8176 + 16, by_edition(4080, 4082));  /* 2 */
    eight_is(4080 + 16, by_edition(PLAIN_NONE64, PLAIN_NONE64 - 1));
    stop();
}

/* 12 of 32 from 8160 on: seven cached, five fast; links are mixed with 1, 2. */
static void start_mixed_row(void)
{
    start_at(16384, 8160, 32, 12);
    for (uint32_t i = 0; i < 12; i++)
        releases(8176 + 32 * i);
    cache_is(0, 8160 + 192, 7);
    fast_is(0, 8160 + 352);
}

static void mixed_fast_lists(void)
{
    group("mixed: fast lists, and what step 2 and an emptying move");
    start_mixed_row();
    eight_is(8160 + 16, by_edition(PLAIN_NONE64, PLAIN_NONE64 - 1));
    eight_is(8192 + 16, by_edition(8160, 8162));
    eight_is(8384 + 16, by_edition(PLAIN_NONE64, PLAIN_NONE64 - 2));
    eight_is(8416 + 16, by_edition(8384, 8386));
    eight_is(8512 + 16, by_edition(8480, 8482));
    for (uint32_t i = 0; i < 7; i++)
        grants(24, 8176 + 32 * (6 - i), 24);
    grants(24, 8512 + 16, 24); /* the other four are cached, reversed */
    fast_is(0, NONE);
    cache_is(0, 8384, 4);
    eight_is(8384 + 16, by_edition(8416, 8418));
    eight_is(8448 + 16, by_edition(8480, 8482));
    eight_is(8480 + 16, by_edition(PLAIN_NONE64, PLAIN_NONE64 - 2));
    stop();

    start_mixed_row();
    empties(); /* from the head on, and so the first of all comes last */
    cache_is(0, NONE, 0);
    fast_is(0, 8160);
    eight_is(8160 + 16, by_edition(8192, 8193));
    eight_is(8192 + 16, by_edition(8224, 8226));
    eight_is(8352 + 16, by_edition(8512, 8514));
    eight_is(8384 + 16, by_edition(PLAIN_NONE64, PLAIN_NONE64 - 2));
    joins();
    fast_is(0, NONE);
    word_is("top", 1, 8160);
    stop();
}

/* Fences keep them apart; the bins' own links are as they are. */
static void mixed_and_binned(void)
{
    group("mixed: out of bins into the cache, the bins' links plain");
    start(16384);
    grants(8152, 16, 8152);
    for (uint32_t i = 0; i < 10; i++) {
        grants(200, 8176 + 240 * i, 200);
        grants(24, 8384 + 240 * i, 24);
    }
    for (uint32_t i = 0; i < 10; i++)
        releases(8176 + 240 * i);
    bin_is(1, 10320, 9840);
    eight_is(10320 + 16, 10080);
    eight_is(10080 + 16, 9840);
    eight_is(9840 + 16, PLAIN_NONE64);
    for (uint32_t i = 0; i < 7; i++)
        grants(200, 8176 + 240 * (6 - i), 200);
    grants(200, 10336, 200); /* step 5 caches three, and grants the last */
    cache_is(11, 10080, 2);
    eight_is(10080 + 16, by_edition(9840, 9842));
    eight_is(9840 + 16, by_edition(PLAIN_NONE64, PLAIN_NONE64 - 2));
    stop();
}

/* The audit names that list, and by no other rule. */
static void names_list(enum second_kind kind, unsigned number, const char *what)
{
    struct second_fault f = lent_audit(&heap);
    CHECK(f.no == 0 && f.kind == kind && f.number == number,
          "%s: %u %u %u, not 0 %u %u", what, f.no, f.kind, f.number, kind,
          number);
}

/* Each bit of the link at c, and what other ways of mixing would store. */
static void wrong_link_at(uint32_t c, enum second_kind kind, unsigned number)
{
    uint64_t right = plain_get(heap.arena + c + 16, 8);
    uint64_t to = edition == 2 ? right ^ (c + 16) / 4096 : right;
    uint64_t other[] = { to, to ^ c / 4096, to ^ (c + 16) / 4096,
                         to ^ (c + 24) / 4096, to ^ (c + 16) / 16,
                         to ^ (c + 16), 0, PLAIN_NONE64 };

    for (unsigned bit = 0; bit < 64; bit++) {
        plain_put(heap.arena + c + 16, 8, right ^ ((uint64_t)1 << bit));
        names_list(kind, number, "a bit of a link");
    }
    for (unsigned i = 0; i < sizeof other / sizeof other[0]; i++) {
        plain_put(heap.arena + c + 16, 8, other[i]);
        if (other[i] != right)
            names_list(kind, number, "a link stored otherwise");
    }
    plain_put(heap.arena + c + 16, 8, right);
    CHECK(lent_sound(&heap), "not sound with all links");
}

static void wrong_links(void)
{
    group("mixed: a wrong link names its list, whichever it is");
    start(65536);
    for (unsigned k = 0; k < 64; k++)
        releases(lent_grant(&heap, 24 + 16 * k).mem);
    for (unsigned k = 0; k < 64; k++)
        wrong_link_at(plain_word(heap.record, plain_cache_head(k)),
                      SECOND_CACHE, k);
    stop();

    start_at(65536, 4080, 32, 1); /* eight of each size that is fast */
    for (unsigned k = 0; k < 7; k++) {
        uint64_t mem[8];
        for (unsigned i = 0; i < 8; i++)
            mem[i] = lent_grant(&heap, 24 + 16 * k).mem;
        for (unsigned i = 0; i < 8; i++)
            releases(mem[i]);
    }
    for (unsigned k = 0; k < 7; k++)
        wrong_link_at(plain_word(heap.record, plain_fast_head(k)), SECOND_FAST,
                      k);
    stop();

    start_mixed_row(); /* of a fast list the last: it may be cut elsewhere */
    for (uint32_t i = 0; i < 8; i++)
        wrong_link_at(8160 + 32 * i, i < 7 ? SECOND_CACHE : SECOND_FAST, 0);
    stop();
}

static void other_editions(void)
{
    static const uint32_t bad[] = { 0, 3, 4, 255, 256, 257, 258, 513, 65537,
                                    65538, 0x01000000, 0x02000000, 0x80000001,
                                    0x80000002, NONE - 1, NONE };

    group("edition: 12 for another one, after 1; both leave the same");
    for (unsigned i = 0; i < sizeof bad / sizeof bad[0]; i++) {
        refused_open(32, 1584, bad[i], 12);
        refused_open(256, 1584, bad[i], 12);
        refused_open(262144, 1584, bad[i], 12);
        refused_open(255, 1584, bad[i], 1);
        refused_open(16, 1584, bad[i], 1);
        refused_open(262160, 1584, bad[i], 1);
        refused_open(256, 1580, bad[i], 1);
        refused_open(256, 1572, bad[i], 1);
        start(256);
        CHECK(lent_open(&heap, KEY, bad[i]).no == 12, "edition %u was opened",
              bad[i]);
        names_list(SECOND_RECORD, 0, "a closed record");
        CHECK(lent_grant(&heap, 24).no == 3 && lent_release(&heap, 0).no == 3
                  && lent_resize(&heap, 0, 24).no == 3
                  && lent_emptying(&heap).no == 3
                  && lent_joining(&heap).no == 3,
              "a call on a closed record was not refused with 3");
        stop();
    }

    group("edition: another number in the record is a record fault");
    start_mixed_row();
    for (unsigned i = 0; i < sizeof bad / sizeof bad[0]; i++) {
        plain_put_edition(heap.record, bad[i]);
        names_list(SECOND_RECORD, 0, "no edition");
        CHECK(lent_grant(&heap, 24).no == 3 && lent_release(&heap, 0).no == 3
                  && lent_grant(&heap, 262145).no == 2,
              "calls with an edition %u in the record", bad[i]);
        CHECK((lent_audit_by(&heap, 3).kind == SECOND_SOUND) == (edition == 1),
              "edition %u by the rules of version 3", bad[i]);
    }
    for (unsigned bit = 0; bit < 32; bit++) {
        plain_put_edition(heap.record, edition ^ (uint32_t)1 << bit);
        names_list(SECOND_RECORD, 0, "a bit of the edition");
    }
    plain_put_word(heap.record, 1, 8); /* before the tiles and the lists */
    plain_put(heap.arena + 8, 8, 2);
    names_list(SECOND_RECORD, 0, "no edition, and a bad tile");
    plain_put_edition(heap.record, edition);
    names_list(SECOND_TILE, 0, "a bad tile");
    stop();

    group("edition: the other one in the record misreads the lists");
    start_mixed_row();
    plain_put_edition(heap.record, 3 - edition);
    names_list(SECOND_CACHE, 0, "the other edition");
    plain_put_edition(heap.record, edition);
    CHECK(lent_sound(&heap), "not sound with its own");
    stop();
    start_at(16384, 4064, 32, 1); /* its link stands at 4,080: not mixed */
    releases(4080);
    plain_put_edition(heap.record, 3 - edition);
    CHECK(lent_sound(&heap), "another edition where nothing is mixed");
    stop();
}

static void traces(void)
{
    request_sizes();
    bin_numbers();
    eight_released();
    opens();
    small_arenas();
    largest_arena();
    not_live();
    split_with_one_cached();
    eighth_granted();
    exact_rest();
    second_of_equals();
    unlink_order();
    which_bin();
    refused_leaves_its_steps();
    fast_moves_reversed();
    joining_clears_the_remainder();
    emptying_alone();
    joining_alone();
    grant_between();
    large_joins();
    fast_chunk_beside();
    pushes();
    consolidation_yields();
    emptying_halfway();
    cached_and_taken();
    every_cache_list();
    wrong_keys_in_a_list();
    key_and_fast();
    key_and_small_bin();
    key_and_unsorted();
    key_and_emptying();
    any_key();
    opened_with_another_key();
    one_group();
    ring_grows();
    ring_shrinks();
    first_leaves();
    member_leaves();
    a_ring_for_each_bin();
    both_neighbours_leave();
    into_unsorted();
    into_the_top();
    joined_up_to_1024();
    consolidated_up_to_1024();
    rests();
    wrong_skips();
    mixed_by_own_position();
    mixed_lists();
    mixed_fast_lists();
    mixed_and_binned();
    wrong_links();
    other_editions();
}

int main(void)
{
    in_both_editions(traces);
    return finish();
}
