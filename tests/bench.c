/*
 * How long the archive's calls take, beside the second program's and beside a
 * bare walk over the size words, which is the least that an audited call could
 * cost. The script tests/bench makes the table.
 *
 *   bench prepare FOLDER          writes the heaps and the calls of a day and
 *                                 of growing curves there
 *   bench time FOLDER             prints nanoseconds for each case
 *   bench run FOLDER CASE WHO TIMES [prepare]
 *                                 runs one case, for counting instructions;
 *                                 with the last word all but what is counted
 *   bench cases                   prints the names of the cases, their TIMES
 *                                 and what one of them is
 *
 * Each case is there in both editions, the second with -mixed behind its name.
 * Who is archive, second or walk. Loading and copying heaps counts for none of
 * them: it is not timed, and its instructions are taken off.
 */
#define _DEFAULT_SOURCE
#include <stdbool.h>
#include <stdio.h>
#include <stdlib.h>
#include <string.h>
#include <time.h>

#include "heap.h"
#include "heap2.h"
#include "plain.h"
#include "random_heap.h"
#include "repair2.h"

#define RECORD HEAP_RECORD_BYTES
#define KEY 0x4c9e07d1b8f2365au /* any serves: no call's work depends on it */
#define DAY_BYTES 49152
#define DAY_CALLS 300
#define CURVES 4
#define GROWTH_FROM 64
#define GROWTH_TO 4096
#define GROWTH_STEP 192
#define GROWTHS (CURVES * ((GROWTH_TO - GROWTH_FROM) / GROWTH_STEP))
#define ROUNDS 5

enum who { ARCHIVE, SECOND, WALK, WHOS };
enum kind { PAIR, AUDIT, REPAIR, EMPTYING, JOINING, BOTH, GROW, DAY };

static const char *const who_name[] = { "archive", "second", "walk" };

static const struct bench {
    const char *name, *what;
    enum kind kind;
    uint32_t chunks;
    uint32_t times;  /* for counting instructions */
    uint32_t repeat; /* for measuring time: that many times as often */
} bench[] = {
    { "pair-64", "grant and release, 64 chunks", PAIR, 64, 8, 200 },
    { "pair-1000", "grant and release, 1,000 chunks", PAIR, 1000, 4, 100 },
    { "pair-8000", "grant and release, 8,000 chunks", PAIR, 8000, 4, 20 },
    { "audit-64", "audit, 64 chunks", AUDIT, 64, 16, 120 },
    { "audit-1000", "audit, 1,000 chunks", AUDIT, 1000, 4, 100 },
    { "audit-8000", "audit, 8,000 chunks", AUDIT, 8000, 1, 80 },
    { "repair-64", "repair, 64 chunks", REPAIR, 64, 16, 12 },
    { "repair-1000", "repair, 1,000 chunks", REPAIR, 1000, 4, 25 },
    { "repair-8000", "repair, 8,000 chunks", REPAIR, 8000, 1, 40 },
    { "emptying-64", "emptying, 64 chunks", EMPTYING, 64, 16, 12 },
    { "emptying-1000", "emptying, 1,000 chunks", EMPTYING, 1000, 4, 25 },
    { "emptying-8000", "emptying, 8,000 chunks", EMPTYING, 8000, 1, 40 },
    { "joining-64", "joining, 64 chunks", JOINING, 64, 16, 12 },
    { "joining-1000", "joining, 1,000 chunks", JOINING, 1000, 4, 25 },
    { "joining-8000", "joining, 8,000 chunks", JOINING, 8000, 1, 40 },
    { "both-64", "emptying and joining, 64 chunks", BOTH, 64, 16, 12 },
    { "both-1000", "emptying and joining, 1,000 chunks", BOTH, 1000, 4, 25 },
    { "both-8000", "emptying and joining, 8,000 chunks", BOTH, 8000, 1, 40 },
    { "grow-64", "resize of curves that grow, 64 chunks", GROW, 64, GROWTHS,
      12 },
    { "grow-1000", "resize of curves that grow, 1,000 chunks", GROW, 1000,
      GROWTHS, 3 },
    { "day", "a day of dip curves in 48 KiB, one call", DAY, 0, DAY_CALLS, 4 }
};
#define CASES (2 * (sizeof bench / sizeof bench[0]))

static uint32_t edition; /* of the case in hand */

/* Each in both editions, one after the other. */
static const struct bench *nth_case(unsigned i)
{
    edition = 1 + i % 2;
    return &bench[i / 2];
}

/* What is behind the name of a case, and of a file. */
static const char *suffix(void)
{
    return edition == HEAP_LINKS_MIXED ? "-mixed" : "";
}

struct heap {
    uint8_t record[HEAP_RECORD_BYTES];
    uint32_t length;
    uint8_t arena[HEAP_ARENA_MAX];
};

struct call {
    char letter; /* A, G, R or Z, as in heaplog's scripts; E, J: its S */
    uint32_t number, n; /* n: of a resize */
};

static struct heap image, work;
static struct call day[DAY_CALLS], growth[GROWTHS];
static volatile uint64_t sink;

/* ---- files ---- */

static FILE *open_file(const char *folder, const char *name, const char *mode)
{
    char path[4096];
    snprintf(path, sizeof path, "%s/%s", folder, name);
    FILE *file = fopen(path, mode);
    if (file == NULL) {
        fprintf(stderr, "bench: cannot open %s\n", path);
        exit(2);
    }
    return file;
}

static void save(const char *folder, const char *name, const void *bytes,
                 size_t length)
{
    FILE *file = open_file(folder, name, "wb");
    if (fwrite(bytes, length, 1, file) != 1 || fclose(file) != 0) {
        fprintf(stderr, "bench: cannot write %s/%s\n", folder, name);
        exit(2);
    }
}

static void load(const char *folder, const char *name, void *bytes,
                 size_t length)
{
    FILE *file = open_file(folder, name, "rb");
    if (fread(bytes, length, 1, file) != 1) {
        fprintf(stderr, "bench: %s/%s is too short; prepare it again\n",
                folder, name);
        exit(2);
    }
    fclose(file);
}

/* ---- one call by one of the three ---- */

static uint32_t call(enum who who, struct heap *h, char letter, uint64_t n)
{
    if (who == ARCHIVE)
        switch (letter) {
        case 'A':
            return heap_open(h->arena, h->length, h->record, RECORD, KEY,
                             edition).no;
        case 'G':
            return heap_grant(h->arena, h->length, h->record, RECORD, n).mem;
        case 'R':
            return heap_release(h->arena, h->length, h->record, RECORD, n).no;
        case 'E':
            return heap_emptying(h->arena, h->length, h->record, RECORD).no;
        case 'J':
            return heap_joining(h->arena, h->length, h->record, RECORD).no;
        case 'M':
            return heap_repair(h->arena, h->length, h->record, RECORD).no;
        default:
            return heap_audit(h->arena, h->length, h->record, RECORD).kind;
        }
    switch (letter) {
    case 'A':
        return second_open(h->arena, h->length, h->record, RECORD, KEY,
                           edition).no;
    case 'G':
        return second_grant(h->arena, h->length, h->record, RECORD, n).mem;
    case 'R':
        return second_release(h->arena, h->length, h->record, RECORD, n).no;
    case 'E':
        return second_emptying(h->arena, h->length, h->record, RECORD).no;
    case 'J':
        return second_joining(h->arena, h->length, h->record, RECORD).no;
    case 'M':
        return second_repair(h->arena, h->length, h->record, RECORD).no;
    default:
        return second_audit(h->arena, h->length, h->record, RECORD).kind;
    }
}

static uint32_t resize(enum who who, struct heap *h, uint64_t mem, uint64_t n)
{
    if (who == ARCHIVE)
        return heap_resize(h->arena, h->length, h->record, RECORD, mem, n).mem;
    return second_resize(h->arena, h->length, h->record, RECORD, mem, n).mem;
}

static uint32_t make(enum who who, struct heap *h, const struct call *c)
{
    return c->letter == 'Z' ? resize(who, h, c->number, c->n)
                            : call(who, h, c->letter, c->number);
}

/* From size word to size word, to the end. */
static __attribute__((noinline)) uint64_t walk(const struct heap *h)
{
    uint64_t at = 0, chunks = 0;
    while (at < h->length) {
        uint64_t word;
        memcpy(&word, h->arena + at + 8, sizeof word);
        at += word & ~(uint64_t)15;
        chunks++;
    }
    return chunks;
}

/* ---- the cases ---- */

static uint64_t pair_request(uint32_t i)
{
    static const uint64_t request[] = { 24, 100, 300, 1100 };
    return request[i % 4];
}

static bool is_script(const struct bench *b)
{
    return b->kind == DAY || b->kind == GROW;
}

/* The heap is as before for each time; there would be nothing left to do. */
static bool is_anew(const struct bench *b)
{
    return b->kind == REPAIR || b->kind == EMPTYING || b->kind == JOINING
        || b->kind == BOTH;
}

static const struct call *script_call(const struct bench *b, uint32_t i)
{
    return b->kind == DAY ? &day[i % DAY_CALLS] : &growth[i % GROWTHS];
}

static void before(const struct bench *b, enum who who, uint32_t i)
{
    if (is_anew(b) || (b->kind == GROW && i % GROWTHS == 0)) {
        memcpy(work.record, image.record, sizeof work.record);
        memcpy(work.arena, image.arena, work.length);
    }
    if (is_script(b) && who == WALK)
        sink += make(SECOND, &work, script_call(b, i));
}

static void measured(const struct bench *b, enum who who, uint32_t i)
{
    if (who == WALK) {
        sink += walk(&work);
        if (b->kind == PAIR || b->kind == BOTH)
            sink += walk(&work);
        return;
    }
    switch (b->kind) {
    case PAIR:
        sink += call(who, &work, 'R',
                     call(who, &work, 'G', pair_request(i)));
        break;
    case AUDIT:
        sink += call(who, &work, '?', 0);
        break;
    case REPAIR:
        sink += call(who, &work, 'M', 0);
        break;
    case EMPTYING:
        sink += call(who, &work, 'E', 0);
        break;
    case JOINING:
        sink += call(who, &work, 'J', 0);
        break;
    case BOTH:
        sink += call(who, &work, 'E', 0);
        sink += call(who, &work, 'J', 0);
        break;
    case GROW:
    case DAY:
        sink += make(who, &work, script_call(b, i));
        break;
    }
}

static void load_case(const struct bench *b, const char *folder)
{
    char name[64];
    if (b->kind == DAY) {
        load(folder, "day", day, sizeof day);
        memset(&work, 0, sizeof work);
        work.length = DAY_BYTES;
        return;
    }
    if (b->kind == GROW) {
        snprintf(name, sizeof name, "growth-%u", b->chunks);
        load(folder, name, growth, sizeof growth);
    }
    snprintf(name, sizeof name, "%s-%u%s",
             b->kind == PAIR          ? "warm"
                 : b->kind == REPAIR  ? "broken"
                 : b->kind == JOINING ? "emptied"
                 : b->kind == GROW    ? "grow" : "heap",
             b->chunks, suffix());
    load(folder, name, &image, sizeof image);
    work = image;
}

static void run_case(const struct bench *b, enum who who, uint32_t times,
                     bool with)
{
    for (uint32_t i = 0; i < times; i++) {
        before(b, who, i);
        if (with)
            measured(b, who, i);
    }
}

/* ---- heaps and the day ---- */

static void must(bool good, const char *what)
{
    if (good)
        return;
    fprintf(stderr, "bench: %s\n", what);
    exit(2);
}

/*
 * Blocks of mixed sizes, every fourth released. Some of the others may be
 * curves as they begin, far apart.
 */
static void fill_image(uint32_t chunks, uint32_t most, uint32_t curves,
                       uint32_t *curve)
{
    struct random r = { chunks };
    static uint32_t mem[HEAP_ARENA_MAX / 32];

    memset(&image, 0, sizeof image);
    image.length = HEAP_ARENA_MAX;
    call(SECOND, &image, 'A', 0);
    for (uint32_t i = 0; i + 1 < chunks; i++) {
        uint32_t n = 24 + random_below(&r, most);
        bool is_curve = curves > 0 && i % (chunks / curves) == 0;
        mem[i] = call(SECOND, &image, 'G', is_curve ? GROWTH_FROM : n);
        must(mem[i] != 0, "no room for the heap to be measured");
        if (is_curve)
            curve[i / (chunks / curves)] = mem[i];
    }
    for (uint32_t i = 1; i + 2 < chunks; i += 4)
        call(SECOND, &image, 'R', mem[i]);
    must(walk(&image) == chunks, "the heap has another number of chunks");
}

static void prepare_heap(const char *folder, uint32_t chunks, uint32_t most)
{
    char name[64];

    fill_image(chunks, most, 0, NULL);
    snprintf(name, sizeof name, "heap-%u%s", chunks, suffix());
    save(folder, name, &image, sizeof image);

    work = image;
    run_case(&(struct bench){ .kind = PAIR }, SECOND, 8, true);
    snprintf(name, sizeof name, "warm-%u%s", chunks, suffix());
    save(folder, name, &work, sizeof work);

    work = image;
    call(SECOND, &work, 'E', 0);
    snprintf(name, sizeof name, "emptied-%u%s", chunks, suffix());
    save(folder, name, &work, sizeof work);

    work = image; /* with one wrong count, of the last cache list */
    plain_put_word(work.record, plain_cache_count(63), 7);
    snprintf(name, sizeof name, "broken-%u%s", chunks, suffix());
    save(folder, name, &work, sizeof work);
    must(call(SECOND, &work, 'M', 0) == 0 && call(SECOND, &work, '?', 0) == 0,
         "the heap with a wrong count is not mended");
}

/*
 * Each curve in turn by one step, until all are as long as they become. The
 * calls are the same in both editions, as all answers are; so is the day.
 */
static void prepare_growth(const char *folder, uint32_t chunks, uint32_t most)
{
    uint32_t curve[CURVES];
    char name[64];

    fill_image(chunks, most, CURVES, curve);
    snprintf(name, sizeof name, "grow-%u%s", chunks, suffix());
    save(folder, name, &image, sizeof image);
    for (uint32_t i = 0; i < GROWTHS; i++) {
        uint32_t *mem = &curve[i % CURVES];
        growth[i] = (struct call){
            'Z', *mem, GROWTH_FROM + (1 + i / CURVES) * GROWTH_STEP
        };
        *mem = make(SECOND, &image, &growth[i]);
        must(*mem != 0, "no room for a curve to grow");
    }
    snprintf(name, sizeof name, "growth-%u", chunks);
    save(folder, name, growth, sizeof growth);
}

/*
 * Curves that are kept for some heats, alarm texts, an emptying and then a
 * joining each shift.
 */
static void prepare_day(const char *folder)
{
    struct random r = { 48 };
    uint32_t curve[24] = { 0 }, text[40] = { 0 }, made = 0;

    memset(&work, 0, sizeof work);
    work.length = DAY_BYTES;
    while (made < DAY_CALLS) {
        uint32_t *slot = random_chance(&r, 45)
            ? &curve[random_below(&r, 24)] : &text[random_below(&r, 40)];
        bool is_curve = slot >= curve && slot < curve + 24;
        struct call c = { 'G', is_curve ? 400 + random_below(&r, 2200)
                                        : 20 + random_below(&r, 90), 0 };
        if (made == 0)
            c = (struct call){ 'A', DAY_BYTES, 0 };
        else if (made % 100 >= 98)
            c = (struct call){ made % 100 == 98 ? 'E' : 'J', 0, 0 };
        else if (*slot != 0)
            c = (struct call){ 'R', *slot, 0 };
        uint32_t mem = call(SECOND, &work, c.letter, c.number);
        if (c.letter == 'G' || c.letter == 'R')
            *slot = c.letter == 'G' ? mem : 0;
        day[made++] = c;
    }
    save(folder, "day", day, sizeof day);
}

static void prepare(const char *folder)
{
    for (edition = 1; edition <= 2; edition++) {
        prepare_heap(folder, 64, 3900);
        prepare_heap(folder, 1000, 400);
        prepare_heap(folder, 8000, 1);
        prepare_growth(folder, 64, 3900);
        prepare_growth(folder, 1000, 300);
    }
    edition = 1;
    prepare_day(folder);
}

/* ---- time ---- */

/* This process's own: other programs' share of the machine is left out. */
static double now(void)
{
    struct timespec t;
    clock_gettime(CLOCK_PROCESS_CPUTIME_ID, &t);
    return (double)t.tv_sec * 1e9 + (double)t.tv_nsec;
}

/* What reading the clock before and after something adds to it. */
static double clock_cost(void)
{
    double best = 1e9;
    for (unsigned i = 0; i < 1000; i++) {
        double start = now(), cost = now() - start;
        best = cost < best ? cost : best;
    }
    return best;
}

/* One measurement for all calls, or, with something between, one for each. */
static double nanoseconds(const struct bench *b, const char *folder,
                          enum who who)
{
    uint32_t times = b->times * b->repeat;
    bool each = is_anew(b) || is_script(b);
    double sum = 0, cost = each ? clock_cost() : 0;

    load_case(b, folder);
    run_case(b, who, b->times, true); /* to warm up */
    double start = now();
    if (!each)
        run_case(b, who, times, true);
    for (uint32_t i = 0; i < times && each; i++) {
        before(b, who, i);
        start = now();
        measured(b, who, i);
        sum += now() - start - cost;
    }
    return (each ? sum : now() - start) / times;
}

/* The three in turn, several rounds; the best of each counts. */
static void time_case(const struct bench *b, const char *folder)
{
    double best[WHOS] = { 0 };

    for (unsigned round = 0; round < ROUNDS; round++)
        for (unsigned who = 0; who < WHOS; who++) {
            double t = nanoseconds(b, folder, who);
            if (round == 0 || t < best[who])
                best[who] = t;
        }
    printf("%s%s", b->name, suffix());
    for (unsigned who = 0; who < WHOS; who++)
        printf(" %.0f", best[who]);
    putchar('\n');
    fflush(stdout);
}

/* ---- the command ---- */

static void run_one(char **argv, bool with)
{
    for (unsigned i = 0; i < CASES; i++)
        for (unsigned who = 0; who < WHOS; who++) {
            const struct bench *b = nth_case(i);
            char name[64];
            snprintf(name, sizeof name, "%s%s", b->name, suffix());
            if (strcmp(name, argv[1]) == 0
                && strcmp(who_name[who], argv[2]) == 0) {
                load_case(b, argv[0]);
                run_case(b, who, (uint32_t)strtoul(argv[3], NULL, 10), with);
                exit(0);
            }
        }
    must(false, "no such case, or none of archive, second, walk");
}

int main(int argc, char **argv)
{
    if (argc == 2 && strcmp(argv[1], "cases") == 0) {
        for (unsigned i = 0; i < CASES; i++) {
            const struct bench *b = nth_case(i);
            printf("%s%s %u %s%s\n", b->name, suffix(), b->times, b->what,
                   edition == 1 ? "" : "; edition 2");
        }
    } else if (argc == 3 && strcmp(argv[1], "prepare") == 0) {
        prepare(argv[2]);
    } else if (argc == 3 && strcmp(argv[1], "time") == 0) {
        for (unsigned i = 0; i < CASES; i++)
            time_case(nth_case(i), argv[2]);
    } else if (argc >= 6 && strcmp(argv[1], "run") == 0) {
        run_one(argv + 2, argc == 6);
    } else {
        must(false, "prepare, time, run or cases; tests/bench calls it");
    }
    return 0;
}
