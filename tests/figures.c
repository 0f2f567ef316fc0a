/*
 * The figures and traces of document 01, and traces of resizes, read off the
 * archive's answers and record words.
 */
#include "groups.h"

#include <stdlib.h>

#include "pair.h"
#include "plain.h"

static uint32_t word(const struct pair *p, unsigned i)
{
    return plain_word(p->ours.record, i);
}

/* A chunk of that size is released, then sorted by a grant it cannot serve. */
static void size_in_bin(uint32_t size, unsigned bin)
{
    uint32_t rest = size < 1024 ? 1040 : 64;
    struct pair p = opened(size, 7 * (size <= 1040 ? size : 0) + size + 32
                                     + rest);
    uint32_t others = size <= 1040 ? 7 : 0;
    struct second_answer a = { 0, 0, 0 };

    for (uint32_t i = 0; i < others; i++)
        both(&p, GRANT, size - 8);
    a = both(&p, GRANT, size - 8);
    both(&p, GRANT, 24);
    for (uint32_t i = 0; i < others; i++)
        both(&p, RELEASE, 16 + i * size);
    both(&p, RELEASE, a.mem);
    CHECK(word(&p, plain_bin_first(1)) == a.mem - 16,
          "a released chunk of %u is not first in unsorted", size);
    both(&p, GRANT, 262144);
    CHECK(word(&p, plain_bin_first(bin)) == a.mem - 16
              && word(&p, plain_bin_last(bin)) == a.mem - 16
              && word(&p, plain_bin_first(1)) == PLAIN_NONE32,
          "a chunk of %u is not in bin %u", size, bin);
    CHECK(a.usable == size - 8, "a chunk of %u has %u usable bytes", size,
          a.usable);
    pair_free(&p);
}

void bins(void)
{
    static const struct { uint32_t size; unsigned bin; } figure[] = {
        { 1008, 63 }, { 1024, 64 }, { 3120, 96 }, { 3136, 97 },
        { 10736, 111 }, { 10752, 112 }, { 45040, 120 }, { 45056, 120 },
        { 163824, 123 }, { 163840, 124 }
    };

    group("document 01's bins, shown by the record");
    for (unsigned i = 0; i < 10; i++)
        size_in_bin(figure[i].size, figure[i].bin);

    group("every bin's first and last size, and all sizes below 4,096");
    for (uint32_t s = 144; s <= 262048 && !group_failed(); s += 16)
        if (s < 4096 || plain_bin(s - 16) != plain_bin(s)
            || plain_bin(s + 16) != plain_bin(s))
            size_in_bin(s, plain_bin(s));
}

void requests(void)
{
    static const uint32_t figure[][2] = {
        { 0, 32 },    { 24, 32 },    { 25, 48 },      { 40, 48 },
        { 41, 64 },   { 120, 128 },  { 121, 144 },    { 1032, 1040 },
        { 1033, 1056 }
    };

    group("document 01's requests and the chunks they need");
    for (unsigned i = 0; i < 9; i++) {
        uint32_t n = figure[i][0], b = figure[i][1];
        struct pair p = opened(n, 8192);
        struct second_answer a = both(&p, GRANT, n);
        CHECK(a.no == 0 && a.mem == 16 && a.usable == b - 8
                  && word(&p, 1) == b,
              "request %u does not get a chunk of %u", n, b);
        both(&p, GRANT, 0);
        both(&p, RELEASE, 16);
        unsigned k = (b - 32) / 16;
        CHECK(b > 1040 ? word(&p, plain_bin_first(1)) == 0
                       : word(&p, plain_cache_head(k)) == 0
                      && word(&p, plain_cache_count(k)) == 1,
              "a released chunk of %u is in another list", b);
        pair_free(&p);
    }
}

void eight_chunks(void)
{
    group("eight live 32-byte chunks released: seven cached, one fast");
    struct pair p = opened(8, 1024);
    for (uint32_t i = 0; i < 8; i++)
        CHECK(both(&p, GRANT, 24).mem == 32 * i + 16, "chunk %u elsewhere", i);
    for (uint32_t i = 0; i < 8; i++)
        both(&p, RELEASE, 32 * i + 16);
    CHECK(word(&p, plain_cache_count(0)) == 7
              && word(&p, plain_cache_head(0)) == 192
              && word(&p, plain_fast_head(0)) == 224
              && word(&p, 1) == 256,
          "cache count %u, cache head %u, fast head %u, top %u",
          word(&p, plain_cache_count(0)), word(&p, plain_cache_head(0)),
          word(&p, plain_fast_head(0)), word(&p, 1));
    pair_free(&p);
}

void arenas(void)
{
    struct random r = { 3 };

    group("arena 32 opens and grants nothing; 16 and 262,160 are refused");
    struct pair p = opened(32, 32);
    for (uint64_t n = 0; n <= 64; n++)
        CHECK(both(&p, GRANT, n).no == 5, "arena 32 grants %u bytes",
              (unsigned)n);
    pair_free(&p);
    refused_shape(&r, OPEN, 16, 1584);
    refused_shape(&r, OPEN, 262160, 1584);

    p = opened(262144, 262144);
    CHECK(both(&p, GRANT, 262105).no == 5, "262,105 bytes granted");
    CHECK(both(&p, GRANT, 262104).usable == 262104, "262,104 refused");
    pair_free(&p);
}

/*
 * Runs words such as 8G200 (eight grants), R16, Z16,24 (block 16 resized to 24
 * bytes), E for an emptying, J for a joining; answers the last answer.
 */
struct second_answer run(struct pair *p, const char *script)
{
    struct second_answer a = { 0, 0, 0 };
    while (*script != '\0') {
        char *at;
        unsigned long times = strtoul(script, &at, 10);
        enum call call = *at == 'G' ? GRANT : *at == 'R' ? RELEASE
            : *at == 'Z'            ? RESIZE : *at == 'E' ? EMPTYING : JOINING;
        uint64_t number = strtoull(at + 1, &at, 10);
        uint64_t n = call == RESIZE ? strtoull(at + 1, &at, 10) : 0;
        for (unsigned long i = 0; i < (times == 0 ? 1 : times); i++)
            a = call == RESIZE ? both_resize(p, number, n)
                               : both(p, call, number);
        script = *at == ' ' ? at + 1 : at;
    }
    return a;
}

/* Places that random calls seldom reach, with the last answer of each. */
void traces(void)
{
    static const struct {
        const char *what;
        uint32_t length;
        const char *script;
        uint32_t no, mem, usable;
        unsigned word; /* of the record, and what it then is */
        uint32_t value;
    } trace[] = {
        { "the last remainder is split while an equal is cached", 8192,
          "8G200 G24 G1500 G1200 G24 R1712 R16 R224 R432 R640 R848 R1056 "
          "R1264 G300 R1472 R3232 7G200 G200",
          0, 2032, 200, 67 + 11, 1 },
        { "seven equals are cached, the eighth is granted at once", 8192,
          "G200 G24 G200 G24 G200 G24 G200 G24 G200 G24 G200 G24 G200 G24 "
          "G200 G24 G200 G24 G200 G24 G200 G24 G200 G24 G200 G24 G200 G24 "
          "G200 G24 R16 R256 R496 R736 R976 R1216 R1456 R1696 R1936 R2176 "
          "R2416 R2656 R2896 R3136 R3376 7G200 G200",
          0, 3376, 200, 67 + 11, 7 },
        { "of three equal large chunks the second is taken", 8192,
          "G1200 G24 G1200 G24 G1200 G24 R16 R1264 R2512 G1300 G1200", 0,
          2512, 1208, 142 + 2 * 66, 1248 },
        { "a chunk between two unsorted ones is joined with both", 8192,
          "3G1112 G24 R16 R2256 R1136", 0, 0, 0, 141, 0 },
        { "the fast lists are joined, then the search goes on at step 5", 544,
          "16G24 R16 R48 R80 R112 R144 R176 R208 R240 R272 R304 R336 G100", 0,
          240, 120, 131, PLAIN_NONE32 },
        { "a refused grant leaves the fast lists joined", 544,
          "16G24 R16 R48 R80 R112 R144 R176 R208 R240 R272 R304 R336 G400", 5,
          0, 0, 131, PLAIN_NONE32 },
        { "an emptying leaves the last remainder", 8192,
          "G1500 G24 R16 G200 E", 0, 0, 0, 2, 208 },
        { "a joining clears it", 8192, "G1500 G24 R16 G200 J", 0, 0, 0, 2,
          PLAIN_NONE32 },
        { "an emptying leaves the fast lists, and fills them", 1024,
          "9G24 R16 R48 R80 R112 R144 R176 R208 R240 E", 0, 0, 0, 131, 0 },
        { "a joining leaves the cache", 1024,
          "9G24 R16 R48 R80 R112 R144 R176 R208 R240 J", 0, 0, 0, 67, 7 },
        { "a grant between them finds what the emptying left", 1024,
          "9G24 R16 R48 R80 R112 R144 R176 R208 R240 E G24 J", 0, 0, 0, 67,
          7 },
        { "both leave one chunk", 1024,
          "9G24 R16 R48 R80 R112 R144 R176 R208 R240 E J", 0, 0, 0, 141, 0 },
        { "a resized block takes from the top, which keeps 32", 256,
          "G24 Z16,216", 0, 16, 216, 1, 224 },
        { "the top would keep 16: the block is sought, and refused", 256,
          "G24 Z16,217", 5, 0, 0, 1, 32 },
        { "a block made shorter by 16 keeps its size, by 32 does not", 256,
          "G104 Z16,88 Z16,72", 0, 16, 72, 67, 1 },
        { "a binned chunk behind is taken in, its rest cached", 4096,
          "G24 G1112 G24 R48 Z16,1000", 0, 16, 1000, 67 + 7, 1 },
        { "a resize passes by a cached chunk of its size", 1024,
          "G24 G40 R48 Z16,40", 0, 96, 40, 67 + 1, 1 },
        { "a fast chunk right behind is found and joined", 2048,
          "7G40 G24 G40 G24 R16 R64 R112 R160 R208 R256 R304 R384 Z352,40", 0,
          352, 40, 67, 1 },
        { "a block's P, cleared by the joining before it, stays clear", 432,
          "8G0 G40 G0 R16 R48 R80 R112 R144 R176 R208 R240 R320 Z272,80", 0,
          272, 88, 1, 400 },
        { "a refused resize leaves the fast lists joined", 416,
          "8G0 G40 G0 R16 R48 R80 R112 R144 R176 R208 R240 R320 Z272,80", 5,
          0, 0, 131, PLAIN_NONE32 },
        { "and may succeed the next time", 416,
          "8G0 G40 G0 R16 R48 R80 R112 R144 R176 R208 R240 R320 2Z272,80", 0,
          272, 88, 1, 352 },
        { "null is granted, a length of 0 releases", 256, "Z0,24 Z16,0", 0, 0,
          0, 67, 1 },
        { "a join of 65,536 joins the fast chunk too", 131072,
          "9G24 G65528 G24 R16 R48 R80 R112 R144 R176 R208 R240 R304", 0, 0,
          0, 131, PLAIN_NONE32 },
        { "one of 65,520 leaves it fast", 131072,
          "9G24 G65512 G24 R16 R48 R80 R112 R144 R176 R208 R240 R304", 0, 0,
          0, 131, 224 },
        { "the top counts: 65,536 with it", 65824,
          "9G24 G1112 R16 R48 R80 R112 R144 R176 R208 R240 R304", 0, 0, 0,
          131, PLAIN_NONE32 },
        { "65,520 with it", 65808,
          "9G24 G1112 R16 R48 R80 R112 R144 R176 R208 R240 R304", 0, 0, 0,
          131, 224 },
        { "a push never joins the fast chunk, whatever is behind it", 131072,
          "9G24 G1032 R16 R48 R80 R112 R144 R176 R208 R240 R304", 0, 0, 0,
          131, 224 },
        { "an emptying consolidates halfway", 65952,
          "2G24 G312 G24 G200 R16 R80 R432 E", 0, 0, 0, 131, PLAIN_NONE32 },
        { "so that what it joins then comes first", 65952,
          "2G24 G312 G24 G200 R16 R80 R432 E J", 0, 0, 0, 141, 64 },
        { "with 16 bytes less it does not", 65936,
          "2G24 G312 G24 G200 R16 R80 R432 E", 0, 0, 0, 131, 0 },
        { "and the joining's chunk comes first", 65936,
          "2G24 G312 G24 G200 R16 R80 R432 E J", 0, 0, 0, 141, 0 },
        { "the rest of a resized block yields 65,536", 131072,
          "8G24 G65640 G24 R16 R48 R80 R112 R144 R176 R208 R240 Z272,100", 0,
          272, 104, 131, PLAIN_NONE32 },
        { "or 65,520", 131072,
          "8G24 G65624 G24 R16 R48 R80 R112 R144 R176 R208 R240 Z272,100", 0,
          272, 104, 131, 224 },
        { "the old place of a moved block yields 65,536", 262144,
          "7G200 9G24 G65544 G200 G24 R16 R224 R432 R640 R848 R1056 R1264 "
          "R1472 R1504 R1536 R1568 R1600 R1632 R1664 R1760 R1696 Z67312,216",
          0, 1760, 216, 131, PLAIN_NONE32 },
        { "or 65,520", 262144,
          "7G200 9G24 G65528 G200 G24 R16 R224 R432 R640 R848 R1056 R1264 "
          "R1472 R1504 R1536 R1568 R1600 R1632 R1664 R1760 R1696 Z67296,216",
          0, 1760, 216, 131, 1680 }
    };

    group("traces of places that are easy to get wrong");
    for (unsigned i = 0; i < sizeof trace / sizeof trace[0]; i++) {
        struct pair p = opened(100 + i, trace[i].length);
        struct second_answer a = run(&p, trace[i].script);
        CHECK(a.no == trace[i].no && a.mem == trace[i].mem
                  && a.usable == trace[i].usable
                  && word(&p, trace[i].word) == trace[i].value,
              "%s: the last answer is %u %u %u, record word %u is %u",
              trace[i].what, a.no, a.mem, a.usable, trace[i].word,
              word(&p, trace[i].word));
        pair_free(&p);
    }
}

void worked_example(void)
{
    static const struct {
        enum call call;
        uint32_t number, no, mem, usable, top;
    } line[] = {
        { GRANT, 24, 0, 16, 24, 32 },   { GRANT, 25, 0, 48, 40, 80 },
        { RELEASE, 16, 0, 0, 0, 80 },   { RELEASE, 16, 4, 0, 0, 80 },
        { GRANT, 0, 0, 16, 24, 80 },    { GRANT, 200, 5, 0, 0, 80 },
        { RELEASE, 48, 0, 0, 0, 80 },   { RELEASE, 16, 0, 0, 0, 80 },
        { EMPTYING, 0, 0, 0, 0, 80 },   { JOINING, 0, 0, 0, 0, 0 },
        { GRANT, 200, 0, 16, 200, 208 }
    };

    group("document 01's worked example, its S as two calls");
    struct pair p = opened(256, 256);
    for (unsigned i = 0; i < sizeof line / sizeof line[0]; i++) {
        struct second_answer a = both(&p, line[i].call, line[i].number);
        CHECK(a.no == line[i].no && a.mem == line[i].mem
                  && a.usable == line[i].usable && word(&p, 1) == line[i].top,
              "call %u of the example: %u %u %u, top %u", i + 2, a.no, a.mem,
              a.usable, word(&p, 1));
    }
    pair_free(&p);
}
