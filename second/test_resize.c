/*
 * Request (i) of document 02: a trace for each way a resize can go, at and
 * beside its boundary, with what requests (vi), (viii) and (x) change of it, in
 * both editions of request (xi). Every expected number here was worked out by
 * hand from the documents.
 */
#include <string.h>

#include "plain.h"
#include "traces.h"

/* Marks a block's usable bytes, so that they can be told later. */
static void fill(uint32_t mem, uint32_t usable)
{
    for (uint32_t i = 0; i < usable; i++)
        heap.arena[mem + i] = (uint8_t)(i * 7 + 1);
}

static void filled(uint32_t mem, uint32_t usable)
{
    for (uint32_t i = 0; i < usable; i++)
        CHECK(heap.arena[mem + i] == (uint8_t)(i * 7 + 1),
              "byte %u of the block at %u is not the holder's", i, mem);
}

static void top_is(uint32_t at, uint32_t length)
{
    word_is("top", 1, at);
    eight_is(at + 8, length - at + 1);
}

/* Blocks of one request, one after the other from a mem on. */
static void grants_row(uint32_t count, uint32_t n, uint32_t mem, uint32_t size)
{
    for (uint32_t i = 0; i < count; i++)
        grants(n, mem + i * size, size - 8);
}

static void releases_row(uint32_t count, uint32_t mem, uint32_t size)
{
    for (uint32_t i = 0; i < count; i++)
        releases(mem + i * size);
}

/* ---- null, 0 and the refusals ---- */

static void null_and_zero(void)
{
    group("resize: null is a whole grant, a length of 0 a release");
    start(1024);
    grants_row(2, 24, 16, 32);
    releases(16);
    cache_is(0, 0, 1);
    second_is(0, KEY);
    resizes(0, 24, 16, 24); /* step 1 */
    cache_is(0, NONE, 0);
    second_is(0, 0);
    resizes(0, 0, 80, 24); /* null and 0: a grant of 0 */
    resizes(48, 0, 0, 0);
    cache_is(0, 32, 1);
    second_is(32, KEY);
    refuses_resize(48, 0, 4);
    resizes(16, 0, 0, 0);
    cache_is(0, 0, 2);
    resizes(80, 900, 80, 904);
    resizes(80, 0, 0, 0);
    cache_is(55, 64, 1);
    refuses_resize(0, 100, 5);
    stop();
}

static void refusals_in_order(void)
{
    static const uint64_t dead[] = { 1, 8, 15, 17, 24, 32, 40, 48, 112, 128,
                                     1008, 1024, 1040, NONE, UINT64_MAX,
                                     ((uint64_t)1 << 32) + 16,
                                     UINT64_MAX - 15 };

    group("resize: a mem that is no live block's is refused with 4, after 2");
    start(1024);
    grants_row(3, 24, 16, 32); /* the second will be cached, 112 is the top's */
    releases(48);
    struct lent before = lend(1024, 0);
    copy_lent(&before, &heap);
    for (unsigned i = 0; i < sizeof dead / sizeof dead[0]; i++) {
        refuses_resize(dead[i], 24, 4);
        refuses_resize(dead[i], 0, 4);
        refuses_resize(dead[i], 262144, 4);
        refuses_resize(dead[i], 262145, 2);
    }
    refuses_resize(0, 262145, 2);
    refuses_resize(16, 262145, 2);
    refuses_resize(16, UINT64_MAX, 2);
    refuses_resize(16, UINT64_MAX - 22, 2);
    refuses_resize(16, (uint64_t)1 << 32, 2);
    CHECK(same_arena(&heap, &before) && same_record(&heap, &before),
          "a resize refused with 2 or 4 wrote");
    give_back(&before);
    refuses_resize(16, 262144, 5);
    refuses_resize(0, 262144, 5);
    stop();
}

static void unsound_and_unshaped(void)
{
    static const uint64_t mem[] = { 0, 16, 48, 80, 8, UINT64_MAX };

    group("resize: an unsound heap is refused with 3, before 4 and after 2");
    start(1024);
    grants_row(3, 24, 16, 32);
    releases(48);
    plain_put(heap.arena + 72, 8, 32); /* P of a chunk behind a cached one */
    struct lent before = lend(1024, 0);
    copy_lent(&before, &heap);
    for (unsigned i = 0; i < sizeof mem / sizeof mem[0]; i++)
        for (uint64_t n = 0; n <= 262145; n += n < 262144 ? 65536 : 1) {
            uint32_t no = n > 262144 ? 2 : 3;
            struct second_answer a = lent_resize(&heap, mem[i], n);
            CHECK(a.no == no && a.mem == 0 && a.usable == 0,
                  "resize to %u answers %u, not %u", (unsigned)n, a.no, no);
        }
    CHECK(same_arena(&heap, &before) && same_record(&heap, &before),
          "a resize of an unsound heap wrote");

    group("resize: a bad shape is refused with 1, before all else");
    for (unsigned i = 0; i < sizeof mem / sizeof mem[0]; i++) {
        struct lent bad = heap;
        bad.length = i % 2 == 0 ? 1023 : 16;
        CHECK(lent_resize(&bad, mem[i], 262145).no == 1, "no 1 by length");
        bad = heap;
        bad.record_len = i % 2 == 0 ? 1572 : 0;
        CHECK(lent_resize(&bad, mem[i], 24).no == 1, "no 1 by record");
    }
    CHECK(same_arena(&heap, &before) && same_record(&heap, &before),
          "a resize of a bad shape wrote");
    give_back(&before);
    stop();
}

/* ---- a block large enough ---- */

static void large_enough(void)
{
    group("resize: a block large enough stays, a rest of 32 is cut off");
    start(4096);
    grants(200, 16, 200);
    grants(24, 224, 24);
    fill(16, 200);
    resizes(16, 200, 16, 200);
    resizes(16, 185, 16, 200);
    resizes(16, 184, 16, 200); /* needs 192: 16 stay with the block */
    resizes(16, 169, 16, 200);
    filled(16, 200);
    cache_is(0, NONE, 0);
    eight_is(8, 208 + 1);
    uint64_t tail = plain_get(heap.arena + 176, 8);
    resizes(16, 168, 16, 168); /* needs 176 */
    filled(16, 168);
    eight_is(8, 176 + 1);
    eight_is(176, tail); /* the rest's previous size is still the block's */
    eight_is(176 + 8, 32 + 1);
    link_is(176, PLAIN_NONE64);
    eight_is(208 + 8, 32 + 1);
    cache_is(0, 176, 1);
    second_is(176, KEY);
    resizes(16, 1, 16, 24);
    eight_is(8, 32 + 1);
    eight_is(32 + 8, 144 + 1);
    cache_is(7, 32, 1);
    second_is(32, KEY);
    filled(16, 24);
    resizes(16, 24, 16, 24);
    stop();
}

static void rest_on_a_fast_list(void)
{
    group("resize: with its cache list full the rest goes on the fast list");
    start(4096);
    grants_row(7, 24, 16, 32);
    grants(200, 240, 200);
    grants(24, 448, 24);
    releases_row(7, 16, 32);
    resizes(240, 168, 240, 168);
    cache_is(0, 192, 7);
    fast_is(0, 400);
    eight_is(400 + 8, 32 + 1);
    link_is(400, PLAIN_NONE64);
    second_is(400, UNWRITTEN);
    eight_is(432 + 8, 32 + 1);
    stop();
}

static void rest_is_joined(void)
{
    group("resize: a rest above 1,040 is joined, with what is behind it");
    start(8192);
    grants(1512, 16, 1512);
    grants(24, 1536, 24);
    resizes(16, 24, 16, 24);
    bin_is(1, 32, 32);
    eight_is(8, 32 + 1);
    eight_is(32 + 8, 1488 + 1);
    eight_is(1520, 1488);
    eight_is(1520 + 8, 32);
    word_is("last remainder", 2, NONE);
    stop();

    start(8192); /* a binned chunk behind it */
    grants(1512, 16, 1512);
    grants(1112, 1536, 1112);
    grants(24, 2656, 24);
    releases(1536);
    bin_is(1, 1520, 1520);
    resizes(16, 24, 16, 24);
    bin_is(1, 32, 32);
    eight_is(32 + 8, 2608 + 1);
    eight_is(1520 + 8, 1120 + 1);
    eight_is(2640, 2608);
    eight_is(2640 + 8, 32);
    stop();

    start(8192); /* the top behind it */
    grants(1512, 16, 1512);
    resizes(16, 24, 16, 24);
    top_is(32, 8192);
    bin_is(1, NONE, NONE);
    stop();

    start(8192); /* a rest of 1,040 is cached although it touches the top */
    grants(1064, 16, 1064);
    resizes(16, 24, 16, 24);
    cache_is(63, 32, 1);
    top_is(1072, 8192);
    stop();

    start(8192); /* and one of 1,056 is not */
    grants(1080, 16, 1080);
    resizes(16, 24, 16, 24);
    cache_is(63, NONE, 0);
    top_is(32, 8192);
    stop();
}

/* ---- with the top behind it ---- */

static void from_the_top(void)
{
    group("resize: the top gives what leaves it 32, and nothing else is cut");
    start(256);
    grants(24, 16, 24);
    fill(16, 24);
    resizes(16, 41, 16, 56);
    top_is(64, 256);
    eight_is(64, UNWRITTEN);
    resizes(16, 216, 16, 216);
    filled(16, 24);
    eight_is(8, 224 + 1);
    eight_is(224, UNWRITTEN);
    top_is(224, 256);
    refuses_resize(16, 217, 5);
    resizes(16, 216, 16, 216);
    stop();

    start(256); /* one more is refused, and the block is as it was */
    grants(24, 16, 24);
    fill(16, 24);
    refuses_resize(16, 217, 5);
    filled(16, 24);
    eight_is(8, 32 + 1);
    top_is(32, 256);
    resizes(16, 216, 16, 216);
    stop();

    start(262144);
    grants(24, 16, 24);
    refuses_resize(16, 262105, 5);
    resizes(16, 262104, 16, 262104);
    top_is(262112, 262144);
    resizes(16, 24, 16, 24);
    top_is(32, 262144);
    stop();
}

static void top_is_short(void)
{
    group("resize: a top too short is not cut, and the block goes elsewhere");
    for (uint32_t n = 856; n <= 857; n++) {
        start(2048);
        grants(1112, 16, 1112);
        grants(24, 1136, 24);
        grants(200, 1168, 200);
        releases(16);
        top_is(1360, 2048);
        if (n == 856) { /* 208+688 are just 864+32 */
            resizes(1168, n, 1168, 856);
            bin_is(1, 0, 0);
            top_is(2016, 2048);
        } else {
            resizes(1168, n, 16, 872);
            bin_is(1, 880, 880);
            word_is("last remainder", 2, 880);
            cache_is(11, 1152, 1);
            top_is(1360, 2048);
        }
        stop();
    }
}

/* ---- with a binned chunk behind it ---- */

/* A block of 32, a free chunk of 1,120, a live one of 32, the top at 1,184. */
static void start_before_a_binned_chunk(bool sorted)
{
    start(4096);
    grants(24, 16, 24);
    grants(1112, 48, 1112);
    grants(24, 1168, 24);
    fill(16, 24);
    releases(48);
    if (sorted)
        refuses(20000, 5);
    bin_is(sorted ? 65 : 1, 32, 32);
}

static void with_the_chunk_behind(void)
{
    group("resize: a binned chunk behind it is taken in if both reach b");
    for (unsigned sorted = 0; sorted <= 1; sorted++) {
        /* exactly b, and b+16 */
        for (uint32_t n = 1144; n >= 1113; n--) {
            start_before_a_binned_chunk(sorted);
            resizes(16, n, 16, 1144);
            filled(16, 24);
            bin_is(1, NONE, NONE);
            bin_is(65, NONE, NONE);
            eight_is(8, 1152 + 1);
            eight_is(32 + 8, 1120 + 1); /* the old header and links stay */
            eight_is(32 + 16, PLAIN_NONE64);
            eight_is(32 + 24, PLAIN_NONE64);
            eight_is(1152 + 8, 32 + 1);
            top_is(1184, 4096);
            stop();
        }
        start_before_a_binned_chunk(sorted); /* b+32 */
        resizes(16, 1112, 16, 1112);
        filled(16, 24);
        bin_is(1, NONE, NONE);
        eight_is(8, 1120 + 1);
        eight_is(1120 + 8, 32 + 1);
        eight_is(1152 + 8, 32 + 1); /* a cached rest: the next P is set */
        cache_is(0, 1120, 1);
        second_is(1120, KEY);
        stop();

        start_before_a_binned_chunk(sorted); /* a large rest */
        resizes(16, 40, 16, 40);
        bin_is(1, 48, 48);
        bin_is(65, NONE, NONE);
        eight_is(8, 48 + 1);
        eight_is(48 + 8, 1104 + 1);
        eight_is(1152, 1104);
        eight_is(1152 + 8, 32);
        stop();

        start_before_a_binned_chunk(sorted); /* one more than both */
        resizes(16, 1145, 1200, 1160);
        filled(1200, 24);
        bin_is(1, NONE, NONE);
        bin_is(65, 32, 32);
        cache_is(0, 0, 1);
        top_is(2352, 4096);
        stop();
    }
}

static void from_the_middle_of_a_list(void)
{
    group("resize: the chunk taken in leaves its list");
    start(8192);
    grants(1112, 16, 1112);
    grants(24, 1136, 24);
    grants(24, 1168, 24); /* the block */
    grants(1112, 1200, 1112);
    grants(24, 2320, 24);
    grants(1112, 2352, 1112);
    grants(24, 3472, 24);
    releases(16);
    releases(1200);
    releases(2352);
    bin_is(1, 2336, 0);
    resizes(1168, 1144, 1168, 1144);
    bin_is(1, 2336, 0);
    eight_is(2336 + 16, 0);
    eight_is(24, 2336);
    eight_is(1184 + 16, 0); /* its own links stay */
    eight_is(1184 + 24, 2336);
    stop();
}

/* ---- its own P ---- */

static void own_p_stays_clear(void)
{
    group("resize: behind a binned chunk its P stays clear, whatever the way");
    start(8192);
    grants(1112, 16, 1112);
    grants(24, 1136, 24);
    releases(16);
    resizes(1136, 100, 1136, 104); /* from the top */
    eight_is(1120 + 8, 112);
    eight_is(1120, 1120);
    resizes(1136, 90, 1136, 104); /* as it is */
    eight_is(1120 + 8, 112);
    resizes(1136, 40, 1136, 40); /* with a rest */
    eight_is(1120 + 8, 48);
    eight_is(1168 + 8, 64 + 1);
    cache_is(2, 1168, 1);
    grants(1112, 16, 1112);
    eight_is(1120 + 8, 48 + 1);
    stop();

    start(8192); /* with the chunk behind it, whole and cut */
    grants(1112, 16, 1112);
    grants(24, 1136, 24);
    grants(1112, 1168, 1112);
    grants(24, 2288, 24);
    releases(16);
    releases(1168);
    resizes(1136, 1144, 1136, 1144);
    eight_is(1120 + 8, 1152);
    eight_is(1120, 1120);
    eight_is(2272 + 8, 32 + 1);
    bin_is(1, 0, 0);
    resizes(1136, 1, 1136, 24);
    eight_is(1120 + 8, 32);
    bin_is(1, 1152, 0);
    stop();
}

/* The heap before the resize of open point 85; the top begins at 336. */
static void start_between_fast_chunks(uint32_t length)
{
    start(length);
    grants_row(8, 0, 16, 32);
    grants(40, 272, 40); /* the block */
    grants(0, 320, 24);
    fill(272, 40);
    releases_row(7, 16, 32);
    releases(240);
    releases(320);
    fast_is(0, 304);
    eight_is(256 + 8, 48 + 1);
    top_is(336, length);
}

static void own_p_is_cleared_meanwhile(void)
{
    group("resize: P is kept as it stands when the size word is written");
    start_between_fast_chunks(432);
    resizes(272, 80, 272, 88);
    filled(272, 40);
    eight_is(256, 32);
    eight_is(256 + 8, 96); /* P clear: the chunk before is in bin 2 */
    bin_is(2, 224, 224);
    fast_is(0, NONE);
    eight_is(352 + 8, 48 + 1); /* 48+96 less 96 */
    cache_is(1, 352, 1);
    top_is(400, 432);
    resizes(272, 88, 272, 88);
    eight_is(256 + 8, 96);
    stop();

    group("resize: refused, it leaves its steps and a live block");
    start_between_fast_chunks(416);
    refuses_resize(272, 80, 5);
    filled(272, 40);
    eight_is(256 + 8, 48);
    bin_is(2, 224, 224);
    fast_is(0, NONE);
    cache_is(0, 192, 7);
    top_is(304, 416);
    resizes(272, 80, 272, 88); /* now the top is behind it */
    filled(272, 40);
    eight_is(256 + 8, 96);
    top_is(352, 416);
    releases(272);
    stop();
}

/* ---- a new block right behind ---- */

static void right_behind_and_fast(void)
{
    group("resize: a fast chunk right behind it is found and joined");
    start(2048);
    grants_row(7, 40, 16, 48);
    grants(24, 352, 24); /* the block */
    grants(40, 384, 40);
    grants(24, 432, 24);
    fill(352, 24);
    releases_row(7, 16, 48);
    releases(384);
    fast_is(1, 368);
    resizes(352, 40, 352, 40);
    filled(352, 24);
    fast_is(1, NONE);
    cache_is(1, 288, 7);
    eight_is(336 + 8, 48 + 1);
    eight_is(384 + 8, 32 + 1); /* 32+48 less 48 */
    eight_is(416 + 8, 32 + 1);
    cache_is(0, 384, 1);
    second_is(384, KEY);
    stop();
}

static void right_behind_and_grown(void)
{
    group("resize: a binned chunk right behind it that grew is joined");
    start(4096);
    grants_row(7, 120, 16, 128);
    grants(24, 912, 24); /* the block */
    grants(1048, 944, 1048);
    grants(120, 2000, 120);
    grants(24, 2128, 24);
    fill(912, 24);
    releases_row(7, 16, 128);
    releases(2000);
    fast_is(6, 1984);
    releases(944);
    bin_is(1, 928, 928);
    resizes(912, 1160, 912, 1160); /* 32+1,056 is less than 1,168 */
    filled(912, 24);
    fast_is(6, NONE);
    bin_is(1, NONE, NONE);
    bin_is(66, NONE, NONE);
    eight_is(896 + 8, 1168 + 1);
    eight_is(928 + 8, 1184 + 1); /* as step 8 left it, inside the block */
    eight_is(2064 + 8, 48 + 1);  /* 32+1,184 less 1,168 */
    eight_is(2112 + 8, 32 + 1);
    cache_is(1, 2064, 1);
    stop();
}

/*
 * Seven of 32 and seven of 1,008 cached; the block of 32 at 7,280; behind it a
 * fast chunk of 32 and one of 1,008 in unsorted. Step 4 joins these two, and
 * step 5 caches the whole and grants it from there: the 0 lies in the block.
 */
static void right_behind_and_cached(void)
{
    group("resize: a chunk right behind it, cached and taken by step 5");
    start(16384);
    grants_row(7, 24, 16, 32);
    grants_row(7, 1000, 240, 1008);
    grants(24, 7296, 24); /* the block */
    grants(24, 7328, 24);
    grants(1000, 7360, 1000);
    grants(24, 8368, 24);
    fill(7296, 24);
    releases_row(7, 16, 32);
    releases_row(7, 240, 1008);
    releases(7328);
    releases(7360);
    fast_is(0, 7312);
    bin_is(1, 7344, 7344);
    second_is(7312, UNWRITTEN);
    resizes(7296, 1032, 7296, 1032);
    filled(7296, 24);
    cache_is(63, NONE, 0);
    bin_is(1, NONE, NONE);
    eight_is(7280 + 8, 1040 + 1);
    eight_is(7312 + 8, 1040 + 1); /* the header inside the block stays */
    link_is(7312, PLAIN_NONE64);
    second_is(7312, 0);
    fast_is(0, 8320); /* the rest */
    eight_is(8320 + 8, 32 + 1);
    stop();
}

/* ---- a new block elsewhere ---- */

static void copied(void)
{
    group("resize: all usable bytes are copied, then the old block released");
    start(4096);
    grants(25, 16, 40);
    grants(24, 64, 24);
    fill(16, 40);
    resizes(16, 100, 96, 104);
    filled(96, 40);
    eight_is(96 + 40, UNWRITTEN);
    eight_is(80 + 8, 112 + 1);
    cache_is(1, 0, 1);
    eight_is(8, 48 + 1);
    link_is(0, PLAIN_NONE64); /* link and key; the other old bytes stay */
    second_is(0, KEY);
    for (uint32_t i = 16; i < 40; i++)
        CHECK(heap.arena[16 + i] == (uint8_t)(i * 7 + 1),
              "byte %u of the old block changed", i);
    top_is(192, 4096);
    refuses_resize(16, 24, 4);
    stop();

    start(4096); /* the old block goes on a fast list */
    grants_row(7, 40, 16, 48);
    grants(25, 352, 40);
    grants(24, 400, 24);
    fill(352, 40);
    releases_row(7, 16, 48);
    resizes(352, 100, 432, 104);
    filled(432, 40);
    cache_is(1, 288, 7);
    fast_is(1, 336);
    stop();

    start(4096); /* or is joined with the chunk before it */
    grants(1112, 16, 1112);
    grants(1112, 1136, 1112);
    grants(24, 2256, 24);
    fill(1136, 1112);
    releases(16);
    resizes(1136, 1200, 2288, 1208);
    filled(2288, 1112);
    bin_is(1, 0, 0);
    bin_is(65, NONE, NONE);
    eight_is(8, 2240 + 1);
    eight_is(1120 + 8, 1120);
    eight_is(2240, 2240);
    eight_is(2240 + 8, 32);
    stop();

    start(6144); /* or with the top, which was too short */
    grants(3992, 16, 3992);
    grants(24, 4016, 24);
    grants(1112, 4048, 1112);
    fill(4048, 1112);
    releases(16);
    top_is(5152, 6144);
    resizes(4048, 2088, 16, 2088); /* 1,120+992 are less than 2,096+32 */
    filled(16, 1112);
    bin_is(1, 2096, 2096);
    word_is("last remainder", 2, NONE);
    top_is(4032, 6144);
    stop();
}

/* ---- past the cache ---- */

static void not_the_cache(void)
{
    group("resize: a cached chunk of the size is passed by");
    start(1024);
    grants(24, 16, 24);
    grants(40, 48, 40);
    releases(48); /* right behind the block, and cached */
    resizes(16, 40, 96, 40);
    cache_is(1, 32, 1);
    cache_is(0, 0, 1);
    top_is(128, 1024);
    grants(40, 48, 40);
    stop();
}

/* 14 of 48, a block of 32 at 672, one of 32; 7 of the 14 cached, 7 fast. */
static void start_with_seven_fast(void)
{
    start(4096);
    grants_row(14, 40, 16, 48);
    grants(24, 688, 24); /* the block */
    grants(24, 720, 24);
    fill(688, 24);
    releases_row(14, 16, 48);
    cache_is(1, 288, 7);
    fast_is(1, 624);
}

static void step_2_past_the_cache(void)
{
    group("resize: step 2 fills up a cache list that is not empty");
    start_with_seven_fast();
    grants(40, 304, 40);
    grants(40, 256, 40);
    grants(40, 208, 40);
    resizes(688, 40, 640, 40);
    cache_is(1, 480, 7);
    link_is(480, 528);
    link_is(528, 576);
    link_is(576, 144);
    for (uint32_t c = 480; c <= 576; c += 48)
        second_is(c, KEY);
    second_is(144, KEY); /* cached all the time */
    second_is(192, 0);   /* granted from there */
    filled(640, 24);
    fast_is(1, 432);
    second_is(432, UNWRITTEN);
    cache_is(0, 672, 1);
    second_is(672, KEY);
    stop();

    start_with_seven_fast(); /* the list is full: nothing is moved */
    resizes(688, 40, 640, 40);
    cache_is(1, 288, 7);
    fast_is(1, 576);
    stop();
}

/* Blocks of 208 bytes, each with a live one of 32 behind it. */
static uint32_t fenced(uint32_t i)
{
    return 240 * i;
}

/* All released, 7 of them cached; then some of those granted again. */
static void start_fenced(uint32_t count, uint32_t again, bool sorted)
{
    start(8192);
    for (uint32_t i = 0; i < count; i++) {
        grants(200, fenced(i) + 16, 200);
        grants(24, fenced(i) + 208 + 16, 24);
    }
    for (uint32_t i = 0; i < count; i++)
        releases(fenced(i) + 16);
    if (sorted)
        refuses(20000, 5);
    for (uint32_t i = 0; i < again; i++)
        grants(200, fenced(6 - i) + 16, 200);
    bin_is(sorted ? 13 : 1, fenced(count - 1), fenced(7));
}

static void step_3_past_the_cache(void)
{
    group("resize: step 3 fills up a cache list that is not empty");
    start_fenced(14, 2, true);
    resizes(224, 200, fenced(7) + 16, 200);
    cache_is(11, fenced(9), 7);
    link_is(fenced(9), fenced(8));
    link_is(fenced(8), fenced(4));
    second_is(fenced(9), KEY);
    second_is(fenced(8), KEY);
    second_is(fenced(10), fenced(11));
    bin_is(13, fenced(13), fenced(10));
    for (uint32_t i = 7; i < 14; i++) /* the next P's */
        eight_is(fenced(i) + 208 + 8, i < 10 ? 32 + 1 : 32);
    cache_is(0, 208, 1);
    stop();

    start_fenced(14, 0, true);
    resizes(224, 200, fenced(7) + 16, 200);
    cache_is(11, fenced(6), 7);
    bin_is(13, fenced(13), fenced(8));
    stop();
}

static void step_5_past_the_cache(void)
{
    group("resize: step 5 fills up a cache list, then grants the next equal");
    start_fenced(14, 2, false);
    resizes(224, 200, fenced(9) + 16, 200);
    cache_is(11, fenced(8), 7);
    link_is(fenced(8), fenced(7));
    link_is(fenced(7), fenced(4));
    second_is(fenced(8), KEY);
    second_is(fenced(7), KEY);
    second_is(fenced(10), fenced(11));
    bin_is(1, fenced(13), fenced(10));
    stop();

    start_fenced(14, 0, false); /* it is full: the first equal is granted */
    resizes(224, 200, fenced(7) + 16, 200);
    cache_is(11, fenced(6), 7);
    bin_is(1, fenced(13), fenced(8));
    stop();

    start_fenced(8, 2, false); /* the head granted is the one just cached */
    fill(224, 24);
    resizes(224, 200, fenced(7) + 16, 200);
    filled(fenced(7) + 16, 24); /* which covers the 0 */
    cache_is(11, fenced(4), 5);
    bin_is(1, NONE, NONE);
    for (uint32_t i = 0; i < 7; i++)
        second_is(fenced(i), i < 5 ? KEY : 0);
    stop();
}

/* ---- document 02, (vi): what it releases yields 65,536 ---- */

/*
 * Eight blocks of 32, then one of that size at 256, then a live one of 32
 * unless the top is to be behind it. The first seven are cached.
 */
static void start_behind_eight(uint32_t length, uint32_t size, bool fence)
{
    start(length);
    grants_row(8, 24, 16, 32);
    grants(size - 8, 272, size - 8);
    if (fence)
        grants(24, 272 + size, 24);
    releases_row(7, 16, 32);
    fill(272, 24);
}

/*
 * The block at 256 has 112 bytes and its rest is at 368. Joined and binned,
 * the fast chunk at 224 leaves the block's P clear.
 */
static void rest_was_released(bool fast, bool consolidated, bool unsorted)
{
    filled(272, 24);
    eight_is(256 + 8, consolidated ? 112 : 112 + 1);
    fast_is(0, fast && !consolidated ? 224 : NONE);
    cache_is(0, 192, 7);
    if (consolidated) {
        eight_is(256, 32);
        bin_is(1, 224, unsorted ? 368 : 224);
    } else {
        bin_is(1, unsorted ? 368 : NONE, unsorted ? 368 : NONE);
    }
}

static void rest_yields(uint32_t size, bool fast)
{
    bool consolidates = fast && size == 65536;

    start_behind_eight(131072, 112 + size, true); /* large enough */
    if (fast)
        releases(240);
    resizes(272, 100, 272, 104);
    rest_was_released(fast, consolidates, true);
    eight_is(368 + 8, size + 1);
    eight_is(368 + size, size);
    eight_is(368 + size + 8, 32);
    resizes(272, 104, 272, 104); /* P stays as it then is */
    eight_is(256 + 8, consolidates ? 112 : 112 + 1);
    stop();

    start_behind_eight(368 + size, 1216, false); /* the rest becomes top */
    if (fast)
        releases(240);
    resizes(272, 100, 272, 104);
    rest_was_released(fast, consolidates, false);
    top_is(368, 368 + size);
    stop();

    start_behind_eight(131072, 32, false); /* with the chunk behind it */
    grants(size + 72, 304, size + 72);
    grants(40, 384 + size, 40);
    releases(304);
    bin_is(1, 288, 288);
    if (fast)
        releases(240);
    resizes(272, 100, 272, 104);
    rest_was_released(fast, consolidates, true);
    eight_is(368 + 8, size + 1);
    stop();
}

static void rest_consolidates(void)
{
    group("resize: a rest that yields 65,536 consolidates, 65,520 does not");
    for (uint32_t size = 65520; size <= 65536; size += 16) {
        rest_yields(size, true);
        rest_yields(size, false);
    }
}

/*
 * Seven of 208 and seven of 32 cached, the one at 1,680 fast. The block of 208
 * stands behind a free chunk, whose front becomes its new place; released, it
 * is joined with what is left of that.
 */
static void old_block_yields(uint32_t size)
{
    uint32_t old = 1744 + size + 16; /* the free chunk has 16 more than that */

    start(262144);
    grants_row(7, 200, 16, 208);
    grants_row(9, 24, 1472, 32);
    grants(size + 8, 1760, size + 8);
    grants(200, old + 16, 200);
    grants(24, old + 224, 24);
    fill(old + 16, 200);
    releases_row(7, 16, 208);
    releases_row(7, 1472, 32);
    releases(1760);
    releases(1696);
    fast_is(0, 1680);
    resizes(old + 16, 216, 1760, 216);
    filled(1760, 200);
    cache_is(11, 1248, 7);
    fast_is(0, size == 65536 ? NONE : 1680);
    bin_is(1, size == 65536 ? 1680 : 1968, 1968);
    eight_is(1712 + 8, size == 65536 ? 32 : 32 + 1);
    eight_is(1968 + 8, size + 1);
    word_is("last remainder", 2, 1968);
    stop();
}

static void old_block_consolidates(void)
{
    group("resize: an old block that yields 65,536 consolidates");
    old_block_yields(65520);
    old_block_yields(65536);
}

/* ---- skip links ---- */

static void skips_of_a_rest(void)
{
    group("resize: a long rest has no skip links, a short one what was there");
    start(8192);
    grants(1512, 16, 1512);
    grants(24, 1536, 24);
    resizes(16, 24, 16, 24);
    bin_is(1, 32, 32);
    no_skips(32);
    stop();

    start(8192); /* joined with a chunk that leaves its ring */
    grants(1512, 16, 1512);
    grants(1112, 1536, 1112);
    grants(24, 2656, 24);
    releases(1536);
    refuses(20000, 5);
    bin_is(65, 1520, 1520);
    skips_are(1520, 1520, 1520);
    resizes(16, 24, 16, 24);
    bin_is(65, NONE, NONE);
    no_skips(32);
    skips_are(1520, 1520, 1520); /* its own words stay, inside the whole */
    stop();

    start(8192); /* 160, of the binned chunk that it takes in */
    grants(1104, 16, 1112);
    grants(24, 1136, 24);
    grants(1112, 1168, 1112);
    grants(24, 2288, 24);
    releases(1168);
    refuses(20000, 5);
    skips_are(1152, 1152, 1152);
    resizes(1136, 984, 1136, 984);
    bin_is(65, NONE, NONE);
    cache_is(8, 2112, 1);
    skips_are(1152, 1152, 1152); /* in the block */
    skips_are(2112, UNWRITTEN, UNWRITTEN);
    stop();
}

static void skips_of_an_old_block(void)
{
    group("resize: a moved block of 1,024 and more leaves no skip links");
    start(8192);
    grants(1112, 16, 1112);
    grants(24, 1136, 24);
    grants(1512, 1168, 1512);
    grants(24, 2688, 24);
    releases(1168);
    refuses(20000, 5);
    bin_is(71, 1152, 1152);
    skips_are(1152, 1152, 1152);
    fill(16, 1112);
    resizes(16, 1500, 1168, 1512);
    filled(1168, 1112); /* over the old skip links */
    bin_is(71, NONE, NONE);
    bin_is(1, 0, 0);
    no_skips(0);
    stop();
}

/* ---- document 02, (xi): mixed links ---- */

/* A block up to 8160, then blocks of 48 and one of 32: as at the start. */
static void start_mixed_fast(void)
{
    start(16384);
    grants(8152, 16, 8152);
    grants_row(14, 40, 8176, 48);
    grants(24, 8848, 24); /* the block */
    grants(24, 8880, 24);
    fill(8848, 24);
    releases_row(14, 8176, 48);
    cache_is(1, 8448, 7);
    fast_is(1, 8784);
}

static void mixed_past_the_cache(void)
{
    group("resize: mixed links where step 2 fills up a cache list");
    start_mixed_fast();
    eight_is(8496 + 16, edition == 2 ? PLAIN_NONE64 - 2 : PLAIN_NONE64);
    eight_is(8160 + 16, edition == 2 ? PLAIN_NONE64 - 1 : PLAIN_NONE64);
    grants(40, 8464, 40);
    grants(40, 8416, 40);
    grants(40, 8368, 40);
    resizes(8848, 40, 8800, 40);
    cache_is(1, 8640, 7);
    eight_is(8640 + 16, edition == 2 ? 8690 : 8688);
    eight_is(8688 + 16, edition == 2 ? 8738 : 8736);
    eight_is(8736 + 16, edition == 2 ? 8306 : 8304);
    filled(8800, 24);
    fast_is(1, 8592);
    eight_is(8592 + 16, edition == 2 ? 8546 : 8544);
    cache_is(0, 8832, 1);
    eight_is(8832 + 16, edition == 2 ? PLAIN_NONE64 - 2 : PLAIN_NONE64);
    stop();
}

/* The old block is cached, and a rest that is cut off too. */
static void mixed_and_copied(void)
{
    group("resize: mixed links of an old block and of a rest");
    start(16384);
    grants(4072, 16, 4072);
    grants(40, 4096, 40); /* the chunk at 4080 */
    grants(24, 4144, 24);
    fill(4096, 40);
    resizes(4096, 100, 4176, 104);
    filled(4176, 40);
    cache_is(1, 4080, 1);
    eight_is(4080 + 16, edition == 2 ? PLAIN_NONE64 - 1 : PLAIN_NONE64);
    second_is(4080, KEY);
    resizes(4176, 56, 4176, 56); /* 112 less 64 */
    filled(4176, 40);
    cache_is(1, 4224, 2);
    eight_is(4224 + 16, edition == 2 ? 4081 : 4080);
    stop();
}

static void traces(void)
{
    null_and_zero();
    refusals_in_order();
    unsound_and_unshaped();
    large_enough();
    rest_on_a_fast_list();
    rest_is_joined();
    from_the_top();
    top_is_short();
    with_the_chunk_behind();
    from_the_middle_of_a_list();
    own_p_stays_clear();
    own_p_is_cleared_meanwhile();
    right_behind_and_fast();
    right_behind_and_grown();
    right_behind_and_cached();
    copied();
    not_the_cache();
    step_2_past_the_cache();
    step_3_past_the_cache();
    step_5_past_the_cache();
    rest_consolidates();
    old_block_consolidates();
    skips_of_a_rest();
    skips_of_an_old_block();
    mixed_past_the_cache();
    mixed_and_copied();
}

int main(void)
{
    in_both_editions(traces);
    return finish();
}
