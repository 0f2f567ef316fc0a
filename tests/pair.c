#include "pair.h"

#include <stdio.h>
#include <stdlib.h>
#include <string.h>

#include "heap.h"
#include "plain.h"
#include "repair2.h"

const char *const call_name[] = { "open",     "grant",       "release",
                                  "resize",   "emptying",    "joining",
                                  "repair",   "audit",       "write_image",
                                  "read_image" };

struct tally tally;

void *memory(size_t length)
{
    void *bytes = malloc(length == 0 ? 1 : length);
    if (bytes == NULL) {
        fputs("tests/archive: no memory for the test's own buffers\n", stderr);
        exit(2);
    }
    return bytes;
}

/* ---- one call on both ---- */

struct second_answer call_ours(struct lent *l, enum call call,
                               uint64_t number, uint64_t n)
{
    struct heap_answer a = { 0, 0, 0 };
    switch (call) {
    case OPEN:
        a = heap_open(l->arena, l->length, l->record, l->record_len, number,
                      (uint32_t)n);
        break;
    case GRANT:
        a = heap_grant(l->arena, l->length, l->record, l->record_len, number);
        break;
    case RELEASE:
        a = heap_release(l->arena, l->length, l->record, l->record_len,
                         number);
        break;
    case RESIZE:
        a = heap_resize(l->arena, l->length, l->record, l->record_len, number,
                        n);
        break;
    case EMPTYING:
        a = heap_emptying(l->arena, l->length, l->record, l->record_len);
        break;
    case JOINING:
        a = heap_joining(l->arena, l->length, l->record, l->record_len);
        break;
    case REPAIR:
        a = heap_repair(l->arena, l->length, l->record, l->record_len);
        break;
    case AUDIT: case WRITE_IMAGE: case READ_IMAGE:
        break;
    }
    return (struct second_answer){ a.no, a.mem, a.usable };
}

struct second_answer call_theirs(struct lent *l, enum call call,
                                 uint64_t number, uint64_t n)
{
    switch (call) {
    case OPEN: return lent_open(l, number, (uint32_t)n);
    case GRANT: return lent_grant(l, number);
    case RELEASE: return lent_release(l, number);
    case RESIZE: return lent_resize(l, number, n);
    case EMPTYING: return lent_emptying(l);
    case JOINING: return lent_joining(l);
    case REPAIR:
        return second_repair(l->arena, l->length, l->record, l->record_len);
    case AUDIT: case WRITE_IMAGE: case READ_IMAGE: break;
    }
    return (struct second_answer){ 0, 0, 0 };
}

struct second_fault audit_ours(const struct lent *l)
{
    struct heap_fault f =
        heap_audit(l->arena, l->length, l->record, l->record_len);
    return (struct second_fault){ f.no, f.kind, f.number };
}

struct second_answer write_ours(const struct lent *l, uint8_t *file,
                                size_t file_len)
{
    struct heap_answer a = heap_write_image(
        l->arena, l->length, l->record, l->record_len, file, file_len);
    return (struct second_answer){ a.no, a.mem, a.usable };
}

struct second_fault read_ours(const uint8_t *file, size_t file_len,
                              struct lent *l)
{
    struct heap_fault f = heap_read_image(file, file_len, l->arena, l->length,
                                          l->record, l->record_len);
    return (struct second_fault){ f.no, f.kind, f.number };
}

bool same_answer(struct second_answer a, struct second_answer b)
{
    return a.no == b.no && a.mem == b.mem && a.usable == b.usable;
}

bool same_fault(struct second_fault a, struct second_fault b)
{
    return a.no == b.no && a.kind == b.kind && a.number == b.number;
}

bool is_sound(const struct lent *l)
{
    return same_fault(audit_ours(l), (struct second_fault){ 0, 0, 0 });
}

/* A call in words, for messages; good until the next one is told. */
static const char *told(enum call call, uint64_t number, uint64_t n)
{
    static char text[64];
    int used = snprintf(text, sizeof text, "%s %llu", call_name[call],
                        (unsigned long long)number);
    if (call == RESIZE || call == OPEN)
        snprintf(text + used, sizeof text - (size_t)used, " %llu",
                 (unsigned long long)n);
    return text;
}

/* Tells the first byte that differs, if one does. */
static bool same_bytes(const struct pair *p, const char *buffer,
                       const uint8_t *ours, const uint8_t *theirs,
                       size_t length, const char *after, const char *call)
{
    size_t at = 0;
    if (memcmp(ours, theirs, length) == 0)
        return check_good();
    while (ours[at] == theirs[at])
        at++;
    return CHECK(false,
                 "seed %llu, call %u, arena of %zu, %s%s: %s byte %zu is "
                 "0x%02x, the second program's 0x%02x",
                 (unsigned long long)p->seed, p->calls, p->ours.length, after,
                 call, buffer, at, ours[at], theirs[at]);
}

static void compare_buffers(const struct pair *p, const char *after,
                            const char *call)
{
    same_bytes(p, "record", p->ours.record, p->theirs.record,
               p->ours.record_len, after, call);
    same_bytes(p, "arena", p->ours.arena, p->theirs.arena, p->ours.length,
               after, call);
}

struct second_fault both_audits(struct pair *p)
{
    struct second_fault ours = audit_ours(&p->ours);
    struct second_fault theirs = lent_audit(&p->theirs);

    tally.audits++;
    tally.faults[theirs.kind]++;
    CHECK(same_fault(ours, theirs),
          "seed %llu, call %u, arena of %zu: the audit says %u %u %u, the "
          "second program's %u %u %u",
          (unsigned long long)p->seed, p->calls, p->ours.length, ours.no,
          ours.kind, ours.number, theirs.no, theirs.kind, theirs.number);
    return theirs;
}

static struct second_answer both_of(struct pair *p, enum call call,
                                    uint64_t number, uint64_t n)
{
    struct second_answer ours = call_ours(&p->ours, call, number, n);
    struct second_answer theirs = call_theirs(&p->theirs, call, number, n);
    const char *text = told(call, number, n);

    tally.calls++;
    p->calls++;
    tally.refused[theirs.no]++;
    CHECK(same_answer(ours, theirs),
          "seed %llu, call %u, arena of %zu, %s: answered %u %u %u, by the "
          "second program %u %u %u",
          (unsigned long long)p->seed, p->calls, p->ours.length, text,
          ours.no, ours.mem, ours.usable, theirs.no, theirs.mem,
          theirs.usable);
    compare_buffers(p, "", text);
    both_audits(p);
    compare_buffers(p, "audit after ", text);
    return ours;
}

struct second_answer both(struct pair *p, enum call call, uint64_t number)
{
    return both_of(p, call, number, 0);
}

struct second_answer both_resize(struct pair *p, uint64_t mem, uint64_t n)
{
    return both_of(p, RESIZE, mem, n);
}

struct second_answer both_open(struct pair *p, uint64_t key, uint32_t edition)
{
    return both_of(p, OPEN, key, edition);
}

/* A call that must be refused with that number and write nothing. */
static void refused_of(struct pair *p, enum call call, uint64_t number,
                       uint64_t n, uint32_t no)
{
    struct lent before = lend(p->ours.length, 0);
    copy_lent(&before, &p->ours);
    struct second_answer a = both_of(p, call, number, n);
    CHECK(a.no == no && a.mem == 0 && a.usable == 0,
          "seed %llu: %s answered %u %u %u, not %u 0 0",
          (unsigned long long)p->seed, told(call, number, n), a.no, a.mem,
          a.usable, no);
    CHECK(same_arena(&before, &p->ours) && same_record(&before, &p->ours),
          "seed %llu: %s, refused with %u, wrote",
          (unsigned long long)p->seed, told(call, number, n), no);
    give_back(&before);
}

void refused(struct pair *p, enum call call, uint64_t number, uint32_t no)
{
    refused_of(p, call, number, 0, no);
}

void refused_resize(struct pair *p, uint64_t mem, uint64_t n, uint32_t no)
{
    refused_of(p, RESIZE, mem, n, no);
}

/* ---- pairs ---- */

struct pair pair_new(uint64_t seed, struct random r, size_t length)
{
    return (struct pair){ r, seed, 0, lend(length, 0), lend(length, 0) };
}

void pair_free(struct pair *p)
{
    give_back(&p->ours);
    give_back(&p->theirs);
}

/* The archive's heap is drawn, the second program's is a copy of it. */
void same_start(struct pair *p)
{
    copy_lent(&p->theirs, &p->ours);
}

void open_with(struct pair *p, uint64_t key, uint32_t edition)
{
    random_bytes(&p->r, p->ours.arena, p->ours.length);
    random_bytes(&p->r, p->ours.record, p->ours.record_len);
    same_start(p);
    struct second_answer a = both_open(p, key, edition);
    CHECK(a.no == 0 && is_sound(&p->ours), "seed %llu: open refused",
          (unsigned long long)p->seed);
    CHECK(plain_key(p->ours.record) == key
              && plain_edition(p->ours.record) == edition,
          "seed %llu: the record has another key or edition than was given",
          (unsigned long long)p->seed);
}

void open_pair(struct pair *p)
{
    uint64_t key = random_key(&p->r);
    open_with(p, key, random_edition(&p->r));
}

struct pair opened(uint64_t seed, size_t length)
{
    struct pair p = pair_new(seed, (struct random){ seed }, length);
    open_pair(&p);
    return p;
}

uint64_t second_word(const struct lent *l, uint32_t c)
{
    return plain_get(l->arena + c + 24, 8);
}
