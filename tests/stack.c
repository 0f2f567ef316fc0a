/*
 * How much stack a call takes: it runs on a stack of its own that was filled
 * before, and what is no longer filled was used. Random heaps, sound and
 * damaged, of all lengths, and some on which what a call joins consolidates;
 * the figure in include/heap.h is held against it. A repair is to take no more
 * than an audit, but for a few words.
 */
#include "groups.h"

#include <string.h>

#include "heap.h"
#include "plain.h"

#define PAINT 0xa5
#define FEW_WORDS 64 /* in bytes */

/* Far more than a call may take, so that one that takes more is seen. */
static _Alignas(16) uint8_t stack[4 * HEAP_STACK_BYTES];

static struct {
    struct lent *heap;
    enum call call;
    uint64_t number, n;
} now;

static struct plain_view view;

static uint8_t file[HEAP_IMAGE_BYTES(HEAP_ARENA_MAX)];

/* Where the arena stands in the image. */
static size_t arena_at(void)
{
    return file[3] == 1 ? 1581 : file[3] <= 3 ? 1589 : 1593;
}

static void the_call(void)
{
    size_t file_len = HEAP_IMAGE_BYTES(now.heap->length);

    if (now.call == AUDIT)
        audit_ours(now.heap);
    else if (now.call == WRITE_IMAGE)
        write_ours(now.heap, file, file_len);
    else if (now.call == READ_IMAGE)
        read_ours(file, arena_at() + now.heap->length, now.heap);
    else
        call_ours(now.heap, now.call, now.number, now.n);
}

/*
 * The image that was written becomes one of version 3, without the edition in
 * its record, that one of version 2, and that one of version 1: no key either.
 */
static void make_older(size_t length)
{
    size_t at = arena_at();
    file[3]--;
    memmove(file + arena_at(), file + at, length);
}

/* x86-64: the stack pointer is kept in a register that the callee keeps. */
static void on_the_stack(void (*function)(void))
{
    __asm__ volatile("movq %%rsp, %%rbx\n\t"
                     "movq %0, %%rsp\n\t"
                     "call *%1\n\t"
                     "movq %%rbx, %%rsp"
                     :
                     : "r"(stack + sizeof stack), "r"(function)
                     : "rax", "rbx", "rcx", "rdx", "rsi", "rdi", "r8", "r9",
                       "r10", "r11", "xmm0", "xmm1", "xmm2", "xmm3", "xmm4",
                       "xmm5", "xmm6", "xmm7", "xmm8", "xmm9", "xmm10",
                       "xmm11", "xmm12", "xmm13", "xmm14", "xmm15", "memory",
                       "cc");
}

/* The mem of a live block, if the heap has one. */
static uint32_t some_live(struct random *r, const struct lent *heap)
{
    uint32_t chosen = 0, seen = 0;
    if (!is_sound(heap))
        return 0;
    plain_read(&view, heap->arena, (uint32_t)heap->length, heap->record);
    for (uint32_t i = 0; i < view.tiles; i++)
        if (view.tile[i].state == PLAIN_LIVE && random_below(r, ++seen) == 0)
            chosen = view.tile[i].at + 16;
    return chosen;
}

static uint32_t most[READ_IMAGE + 1];

/* The call in hand, on the heap in hand; a repair is held against the audit. */
static void take(uint64_t seed)
{
    size_t unused = 0;

    memset(stack, PAINT, sizeof stack);
    on_the_stack(the_call);
    while (unused < sizeof stack && stack[unused] == PAINT)
        unused++;
    uint32_t bytes = (uint32_t)(sizeof stack - unused);
    most[now.call] = bytes > most[now.call] ? bytes : most[now.call];
    CHECK(now.call == REPAIR || bytes <= HEAP_STACK_BYTES,
          "seed %llu: %s took %u bytes",
          (unsigned long long)seed, call_name[now.call], bytes);
}

static void take_any(struct random *r, struct lent *heap, enum call call,
                     uint64_t seed)
{
    now.heap = heap;
    now.call = call;
    now.number = random_below(r, (uint32_t)heap->length);
    now.n = random_chance(r, 10) ? 0
                                 : random_below(r, (uint32_t)heap->length / 4);
    if ((call == RELEASE || call == RESIZE) && random_chance(r, 80))
        now.number = some_live(r, heap);
    if (call == OPEN)
        now.n = random_edition(r);
    take(seed);
}

/*
 * Heaps on which what the call joins comes to 65,536 while a fast list holds a
 * chunk: a release and a resize of the block at 304, an emptying.
 */
static const struct {
    enum call call;
    uint32_t length, grant[12], release[9];
} consolidating[] = {
    { RELEASE, 131072,
      { 24, 24, 24, 24, 24, 24, 24, 24, 24, 65640, 40 },
      { 16, 48, 80, 112, 144, 176, 208, 240 } },
    { RESIZE, 131072,
      { 24, 24, 24, 24, 24, 24, 24, 24, 24, 65640, 40 },
      { 16, 48, 80, 112, 144, 176, 208, 240 } },
    { EMPTYING, 65952, { 24, 24, 312, 24, 200 }, { 16, 80, 432 } }
};

static void take_consolidating(unsigned i)
{
    struct lent heap = lend(consolidating[i].length, PAINT);

    call_ours(&heap, OPEN, 0, 1 + i % 2);
    for (const uint32_t *n = consolidating[i].grant; *n != 0; n++)
        call_ours(&heap, GRANT, *n, 0);
    for (const uint32_t *mem = consolidating[i].release; *mem != 0; mem++)
        call_ours(&heap, RELEASE, *mem, 0);
    now.heap = &heap;
    now.call = consolidating[i].call;
    now.number = 304;
    now.n = 100;
    take(i);
    CHECK(plain_word(heap.record, plain_fast_head(0)) == PLAIN_NONE32,
          "%s did not consolidate", call_name[now.call]);
    give_back(&heap);
}

/* A copy of the heap, with damage of its own; whether it is mended. */
static bool take_repair(struct pair *p, uint64_t seed)
{
    struct random r = { (52 << 20) + seed };
    struct lent *heap = &p->theirs;

    copy_lent(heap, &p->ours);
    (seed % 3 == 0 ? damage_field : damage_lists)(
        &r, heap->arena, (uint32_t)heap->length, heap->record);
    bool was_sound = is_sound(heap);
    take_any(&r, heap, REPAIR, seed);
    return !was_sound && is_sound(heap);
}

void stack_taken(uint32_t rounds)
{
    uint32_t mended = 0;

    group("no call takes more stack than heap.h says");
    for (unsigned i = 0; i < 3; i++)
        take_consolidating(i);
    for (uint64_t i = 1; i <= rounds && !group_failed(); i++) {
        struct random r = { (9 << 20) + i };
        struct pair p = pair_new(i, r, random_length(&r, 262144));
        random_heap(&p.r, p.ours.arena, (uint32_t)p.ours.length,
                    p.ours.record);
        mended += take_repair(&p, i);
        if (i % 4 == 0)
            damage_field(&p.r, p.ours.arena, (uint32_t)p.ours.length,
                         p.ours.record);
        take_any(&p.r, &p.ours, WRITE_IMAGE, i);
        take_any(&p.r, &p.ours, READ_IMAGE, i);
        for (unsigned version = 3; version >= 1; version--) {
            make_older(p.ours.length);
            take_any(&p.r, &p.ours, READ_IMAGE, i);
        }
        take_any(&p.r, &p.ours, AUDIT, i);
        for (unsigned call = JOINING + 1; call-- > OPEN;)
            take_any(&p.r, &p.ours, call, i);
        pair_free(&p);
    }
    for (unsigned call = OPEN; call <= READ_IMAGE; call++)
        remark(", %s %u", call_name[call], most[call]);
    remark("; %u heaps mended", mended);
    CHECK(2 * mended >= rounds, "only %u heaps were mended", mended);
    CHECK(most[REPAIR] <= most[AUDIT] + FEW_WORDS,
          "a repair took %u bytes, an audit %u", most[REPAIR], most[AUDIT]);
}
