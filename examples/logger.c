/*
 * A melt temperature logger in small: dip curves, alarm texts and a probe
 * table in one arena of 4,096 bytes. Blocks are kept as mem offsets; a few
 * functions turn one into bytes, and nothing else adds an offset to the arena.
 *
 * Built with: cc -Iinclude examples/logger.c target/staticlib/libheap.a
 */
#include <stdarg.h>
#include <stdint.h>
#include <stdio.h>
#include <string.h>

#include "heap.h"

#define ARENA_BYTES 4096
#define CURVES 16
#define PROBES 4

/*
 * The heap's key: drawn once, at random, for this product, and then kept. It
 * has no pattern, and as tenths of a degree, as text or as an offset it would
 * be none that this logger ever stores. Another product draws its own.
 */
#define KEY 0xb7d1f4936ac8e52du

/*
 * Edition 2, as for all new firmware: the links of released blocks are stored
 * mixed from 4,096 on. This arena ends there; a longer one would have such.
 */
#define EDITION HEAP_LINKS_MIXED

static _Alignas(16) uint8_t arena[ARENA_BYTES];
static uint8_t record[HEAP_RECORD_BYTES];

/* ---- the heap's calls, for this arena ---- */

static const char *const refusal[] = {
    "done",         "bad shape",     "request too large",
    "heap unsound", "no such block", "no room",
    [HEAP_NO_EDITION] = "no such edition"
};

static struct heap_answer grant(uint64_t n)
{
    return heap_grant(arena, sizeof arena, record, sizeof record, n);
}

static struct heap_answer release(uint32_t mem)
{
    return heap_release(arena, sizeof arena, record, sizeof record, mem);
}

static struct heap_answer emptying(void)
{
    return heap_emptying(arena, sizeof arena, record, sizeof record);
}

static struct heap_answer joining(void)
{
    return heap_joining(arena, sizeof arena, record, sizeof record);
}

static void print_audit(void)
{
    struct heap_fault f =
        heap_audit(arena, sizeof arena, record, sizeof record);
    if (f.kind == HEAP_SOUND)
        puts("audit: sound");
    else
        printf("audit: fault of kind %u at %u\n", (unsigned)f.kind,
               (unsigned)f.number);
}

/* The only place where an offset becomes an address. */
static uint8_t *at(uint32_t mem, uint32_t offset)
{
    return arena + mem + offset;
}

/* ---- dip curves: a count, then that many tenths of a degree ---- */

struct curve_head {
    uint16_t heat;
    uint16_t samples;
};

static void curve_put(uint32_t curve, uint32_t i, int16_t tenths)
{
    memcpy(at(curve, (uint32_t)(sizeof(struct curve_head) + 2 * i)), &tenths,
           sizeof tenths);
}

static int16_t curve_get(uint32_t curve, uint32_t i)
{
    int16_t tenths;
    memcpy(&tenths, at(curve, (uint32_t)(sizeof(struct curve_head) + 2 * i)),
           sizeof tenths);
    return tenths;
}

static struct curve_head curve_head(uint32_t curve)
{
    struct curve_head head;
    memcpy(&head, at(curve, 0), sizeof head);
    return head;
}

/* A dip: the probe heats up, rests on the plateau and burns off. */
static struct heap_answer dip(uint16_t heat, uint16_t samples, int16_t plateau)
{
    struct curve_head head = { heat, samples };
    struct heap_answer a = grant(sizeof head + 2u * samples);

    printf("dip %2u, %4u samples: ", (unsigned)heat, (unsigned)samples);
    if (a.no != HEAP_DONE) {
        printf("refused with %u (%s)\n", (unsigned)a.no, refusal[a.no]);
        return a;
    }
    printf("mem %4u, %4u usable\n", (unsigned)a.mem, (unsigned)a.usable);
    memcpy(at(a.mem, 0), &head, sizeof head);
    for (uint16_t i = 0; i < samples; i++) {
        int rise = 4 * i < samples ? 40 * (samples - 4 * i) / 4 : 0;
        curve_put(a.mem, i, (int16_t)(plateau - rise));
    }
    return a;
}

static int16_t hottest(uint32_t curve)
{
    int16_t most = INT16_MIN;
    for (uint32_t i = 0; i < curve_head(curve).samples; i++)
        if (curve_get(curve, i) > most)
            most = curve_get(curve, i);
    return most;
}

/* ---- the probe table: fixed entries in one block ---- */

struct probe {
    uint16_t number;
    uint16_t alarms;
    uint32_t text; /* mem of its last alarm's text, or HEAP_NULL */
};

static struct probe probe_get(uint32_t table, uint32_t i)
{
    struct probe p;
    memcpy(&p, at(table, (uint32_t)(i * sizeof p)), sizeof p);
    return p;
}

static void probe_put(uint32_t table, uint32_t i, struct probe p)
{
    memcpy(at(table, (uint32_t)(i * sizeof p)), &p, sizeof p);
}

static uint32_t probe_table(void)
{
    uint32_t table = grant(PROBES * sizeof(struct probe)).mem;
    for (uint32_t i = 0; i < PROBES; i++)
        probe_put(table, i,
                  (struct probe){ (uint16_t)(701 + i), 0, HEAP_NULL });
    return table;
}

/* ---- alarm texts: bytes with their closing 0 ---- */

static uint32_t alarm_text(const char *format, ...)
{
    char text[80];
    va_list arguments;
    va_start(arguments, format);
    vsnprintf(text, sizeof text, format, arguments);
    va_end(arguments);

    struct heap_answer a = grant(strlen(text) + 1);
    if (a.no == HEAP_DONE)
        memcpy(at(a.mem, 0), text, strlen(text) + 1);
    return a.mem;
}

/* A new text takes the place of the last; releasing null does nothing. */
static void raise_alarm(uint32_t table, uint32_t i, uint16_t heat,
                        int16_t tenths)
{
    struct probe p = probe_get(table, i);
    release(p.text);
    p.text = alarm_text("heat %u: %d.%d C is above 1640.0 C", (unsigned)heat,
                        tenths / 10, tenths % 10);
    p.alarms++;
    probe_put(table, i, p);
}

static void print_probes(uint32_t table)
{
    for (uint32_t i = 0; i < PROBES; i++) {
        struct probe p = probe_get(table, i);
        printf("probe %u, alarms %u: %s\n", (unsigned)p.number,
               (unsigned)p.alarms,
               p.text == HEAP_NULL ? "-" : (const char *)at(p.text, 0));
    }
}

/* ---- a shift ---- */

/* Dips until there is no room; answers how many curves are held. */
static uint16_t shift(uint32_t table, uint32_t *curve)
{
    for (uint16_t heat = 1; heat <= CURVES; heat++) {
        uint16_t samples = (uint16_t)(150 + 35 * (heat % 5));
        int16_t plateau = (int16_t)(16200 + 53 * heat);
        struct heap_answer a = dip(heat, samples, plateau);
        if (a.no != HEAP_DONE)
            return (uint16_t)(heat - 1);
        curve[heat - 1] = a.mem;
        if (hottest(a.mem) > 16400)
            raise_alarm(table, heat % PROBES, heat, hottest(a.mem));
    }
    return CURVES;
}

/* The next melt has other sizes: the cache is emptied. Joining can wait. */
static void end_melt(void)
{
    printf("end of the melt, emptying: %u\n", (unsigned)emptying().no);
}

/* Nobody waits now: what is still apart is joined. */
static void idle(void)
{
    printf("idle, joining: %u\n", (unsigned)joining().no);
}

static void print_release(uint32_t mem)
{
    struct heap_answer a = release(mem);
    printf("release of mem %u: %u (%s)\n", (unsigned)mem, (unsigned)a.no,
           refusal[a.no]);
}

int main(void)
{
    uint32_t curve[CURVES];

    struct heap_answer a =
        heap_open(arena, sizeof arena, record, sizeof record, KEY, EDITION);
    printf("open of %u bytes: %u (%s)\n", (unsigned)sizeof arena,
           (unsigned)a.no, refusal[a.no]);
    uint32_t table = probe_table();
    uint16_t curves = shift(table, curve);
    print_probes(table);

    puts("the curves are sent, and their blocks released");
    for (uint16_t i = 0; i < curves; i++)
        release(curve[i]);
    print_release(curve[0]);
    print_audit();

    puts("a long dip wants one piece of what is now free in several");
    a = dip(20, 900, 16300);
    end_melt();
    idle();
    a = dip(20, 900, 16300);
    print_release(a.mem);

    puts("a stray write hits the header of the probe table");
    memset(at(table, 0) - 8, 0xff, 8);
    print_audit();
    print_release(table);
    a = heap_open(arena, sizeof arena, record, sizeof record, KEY, EDITION);
    printf("open again: %u (%s)\n", (unsigned)a.no, refusal[a.no]);
    print_audit();
    return 0;
}
