/*
 * Lengths that are refused, and numbers at the ends of their range.
 */
#define _DEFAULT_SOURCE
#include "groups.h"

#include <string.h>
#include <sys/mman.h>

#include "holders.h"
#include "plain.h"

/* ---- shapes ---- */

/* A refused open leaves this in a record of 1,584 bytes, whatever it is. */
static bool is_closed(const uint8_t *record)
{
    for (unsigned word = 0; word < 396; word++) {
        bool zero = word == 0 || (word >= 67 && word < 131) || word >= 393;
        if (plain_word(record, word) != (zero ? 0 : PLAIN_NONE32))
            return false;
    }
    return true;
}

static struct lent lend_shape(size_t length, size_t record_len)
{
    return (struct lent){ memory(length), memory(record_len), length,
                          record_len };
}

/* What a careless reader might take for an opened heap of that length. */
static void tempt(struct random *r, struct lent *l)
{
    random_bytes(r, l->arena, l->length);
    memset(l->record, random_chance(r, 50) ? 0 : 0xff, l->record_len);
    if (random_chance(r, 20) || l->length < 16 || l->record_len < 8)
        return;
    plain_put(l->arena + 8, 8, l->length | 1);
    plain_put_word(l->record, 0, (uint32_t)l->length);
    plain_put_word(l->record, 1, 0);
}

void refused_shape(struct random *r, enum call call, size_t length,
                   size_t record_len)
{
    struct lent ours = lend_shape(length, record_len);
    struct lent theirs = lend_shape(length, record_len);
    struct lent before = lend_shape(length, record_len);
    uint64_t number = extreme(random_below(r, EXTREMES));
    uint64_t n = extreme(random_below(r, EXTREMES));
    struct second_answer a = { 1, 0, 0 };
    bool closes = call == OPEN && record_len == 1584;

    tempt(r, &ours);
    memcpy(before.arena, ours.arena, length);
    memcpy(before.record, ours.record, record_len);
    memcpy(theirs.arena, ours.arena, length);
    memcpy(theirs.record, ours.record, record_len);
    if (call == AUDIT) {
        CHECK(same_fault(audit_ours(&ours), (struct second_fault){ 1, 0, 0 }),
              "audit of lengths %zu and %zu is not answered 1 0 0", length,
              record_len);
    } else {
        a = call_ours(&ours, call, number, n);
        call_theirs(&theirs, call, number, n);
        tally.calls++;
        tally.refused[1]++;
    }
    CHECK(a.no == 1 && a.mem == 0 && a.usable == 0,
          "%s of lengths %zu and %zu answered %u %u %u, not 1 0 0",
          call_name[call], length, record_len, a.no, a.mem, a.usable);
    CHECK(memcmp(ours.arena, before.arena, length) == 0,
          "%s of lengths %zu and %zu, refused, wrote in the arena",
          call_name[call], length, record_len);
    CHECK(closes ? is_closed(ours.record)
                 : memcmp(ours.record, before.record, record_len) == 0,
          "%s of lengths %zu and %zu, refused, leaves another record",
          call_name[call], length, record_len);
    CHECK(memcmp(ours.record, theirs.record, record_len) == 0,
          "%s of lengths %zu and %zu leaves another record than the second "
          "program",
          call_name[call], length, record_len);
    give_back(&ours);
    give_back(&theirs);
    give_back(&before);
}

void bad_shapes(void)
{
    static const size_t length[] = { 0,  1,  8,   15,  16,     17,     24,
                                     31, 33, 40,  47,  49,     1000,   4104,
                                     262128 + 8,  262143, 262145, 262152,
                                     262160, 262176, 524288 };
    static const size_t good[] = { 32, 48, 4096, 262144 };
    static const size_t record_len[] = { 0, 1, 4, 1572, 1576, 1580, 1583,
                                         1585, 1588, 1592, 3168 };
    struct random r = { 11 };

    group("bad shapes: refused with 1, nothing written but a closed record");
    for (unsigned call = OPEN; call <= AUDIT; call++) {
        for (unsigned i = 0; i < sizeof length / sizeof length[0]; i++) {
            refused_shape(&r, call, length[i], 1584);
            for (unsigned j = 0; j < 11; j++)
                refused_shape(&r, call, length[i], record_len[j]);
        }
        for (unsigned i = 0; i < 4; i++)
            for (unsigned j = 0; j < 11; j++)
                refused_shape(&r, call, good[i], record_len[j]);
    }
}

/* Lengths that are allowed once cut to 32 bits, in memory nobody may touch. */
void lengths_past_32_bits(void)
{
    size_t past = (size_t)1 << 32, most = past + 262144;
    uint8_t *far = mmap(NULL, most, PROT_NONE,
                        MAP_PRIVATE | MAP_ANONYMOUS | MAP_NORESERVE, -1, 0);
    struct lent near = lend(64, 0);

    group("lengths past 32 bits are refused, and nothing is read");
    if (far == MAP_FAILED) {
        remark(", left out: the system lends no such stretch");
        give_back(&near);
        return;
    }
    for (unsigned call = GRANT; call <= AUDIT; call++)
        for (unsigned i = 0; i < 3; i++) {
            struct lent l = i == 0 ? near
                : (struct lent){ far, near.record, past + 64, 1584 };
            if (i != 1) {
                l.record = far;
                l.record_len = past + 1584;
            }
            uint32_t no = call == AUDIT ? audit_ours(&l).no
                                        : call_ours(&l, call, 16, 24).no;
            tally.calls += call != AUDIT;
            CHECK(no == 1, "%s of lengths %zu and %zu answered %u, not 1",
                  call_name[call], l.length, l.record_len, no);
        }
    struct lent l = { far, near.record, past + 64, 1584 };
    CHECK(call_ours(&l, OPEN, UINT64_MAX, 0).no == 1 && is_closed(near.record),
          "open of a length past 32 bits is not refused with 1");
    munmap(far, most);
    give_back(&near);
}

/* With that number: by a length, or by the edition. */
static void closed_heap(size_t length, unsigned no)
{
    struct pair p = opened(length, length);

    p.ours.length = p.theirs.length = no == 1 ? 16 : length;
    struct second_answer a = both_open(&p, UINT64_MAX, no == 1 ? 1 : 3);
    p.ours.length = p.theirs.length = length;
    CHECK(a.no == no, "an open is answered %u, not %u", a.no, no);
    CHECK(is_closed(p.ours.record), "a refused open leaves no closed "
          "record, arena of %zu", length);
    CHECK(same_fault(audit_ours(&p.ours), (struct second_fault){ 0, 1, 0 }),
          "the audit of a closed record does not name the record");
    refused(&p, GRANT, 0, 3);
    refused(&p, RELEASE, 0, 3);
    refused_resize(&p, 0, 24, 3);
    refused_resize(&p, 16, 24, 3);
    refused_resize(&p, 16, 0, 3);
    refused(&p, EMPTYING, 0, 3);
    refused(&p, JOINING, 0, 3);
    refused(&p, REPAIR, 0, 11);
    refused(&p, GRANT, 262145, 2);
    refused_resize(&p, 0, 262145, 2);
    refused_resize(&p, 16, 262145, 2);
    open_pair(&p);
    pair_free(&p);
}

void closed_heaps(void)
{
    group("after a refused open every call but open is refused with 3, a "
          "repair with 11");
    for (size_t length = 32; length <= 262144; length *= 2)
        for (unsigned no = 1; no <= 12; no += 11)
            closed_heap(length, no);
}

/* ---- editions ---- */

static bool untouched(const uint8_t *bytes, size_t length)
{
    for (size_t i = 0; i < length; i++)
        if (bytes[i] != 0x3c)
            return false;
    return true;
}

/* In an arena and a record of any lengths; 1 comes first. */
static void refused_edition(size_t length, size_t record_len, uint32_t edition)
{
    bool shaped = length >= 32 && length <= 262144 && length % 16 == 0
        && record_len == 1584;
    struct lent ours = lend_shape(length, record_len);
    struct lent theirs = lend_shape(length, record_len);
    uint64_t key = 0x0123456789abcdef;

    memset(ours.arena, 0x3c, length);
    memset(ours.record, 0x3c, record_len);
    memset(theirs.arena, 0x3c, length);
    memset(theirs.record, 0x3c, record_len);
    struct second_answer a = call_ours(&ours, OPEN, key, edition);
    struct second_answer b = call_theirs(&theirs, OPEN, key, edition);
    tally.calls++;
    tally.refused[a.no <= 12 ? a.no : 0]++;
    CHECK(same_answer(a, b) && a.no == (shaped ? 12 : 1) && a.mem == 0
              && a.usable == 0,
          "open of %zu and %zu with edition %u answered %u %u %u", length,
          record_len, edition, a.no, a.mem, a.usable);
    CHECK(untouched(ours.arena, length) && untouched(theirs.arena, length),
          "a refused open of %zu wrote in the arena", length);
    CHECK(memcmp(ours.record, theirs.record, record_len) == 0
              && (record_len == 1584 ? is_closed(ours.record)
                                     : untouched(ours.record, record_len)),
          "open of %zu and %zu with edition %u leaves another record", length,
          record_len, edition);
    give_back(&ours);
    give_back(&theirs);
}

void bad_editions(void)
{
    static const uint32_t edition[] = { 0, 3, 4, 255, 256, 257, 258, 513, 65537,
                                        65538, 0x01000000, 0x02000000,
                                        0x80000001, 0x80000002, 0xfffffffe,
                                        0xffffffff };
    static const size_t length[] = { 0, 16, 31, 32, 40, 48, 4096, 262144,
                                     262160 };
    static const size_t record_len[] = { 0,    1572, 1580, 1583,
                                         1584, 1585, 1588 };

    group("an edition other than 1 and 2 is refused with 12, after 1");
    for (unsigned e = 0; e < sizeof edition / sizeof edition[0]; e++)
        for (unsigned i = 0; i < sizeof length / sizeof length[0]; i++)
            for (unsigned j = 0; j < sizeof record_len / sizeof record_len[0];
                 j++)
                refused_edition(length[i], record_len[j], edition[e]);
}

/* ---- extreme numbers ---- */

/* A block at 16, if it has room, and every pair of numbers that is refused. */
static void extreme_resizes(size_t length)
{
    struct pair p = opened(600, length);
    uint64_t live = both(&p, GRANT, 0).mem;

    for (uint32_t i = 0; i < EXTREMES; i++)
        for (uint32_t k = 0; k < EXTREMES && !group_failed(); k++) {
            uint64_t mem = extreme(i), n = extreme(k);
            if (n > 262144)
                refused_resize(&p, mem, n, 2);
            else if (mem != 0 && mem != live)
                refused_resize(&p, mem, n, 4);
        }
    pair_free(&p);
}

void extreme_numbers(void)
{
    static const size_t length[] = { 32, 48, 64, 80, 4096, 262144 };

    group("extreme numbers");
    for (unsigned i = 0; i < 6; i++)
        for (uint32_t k = 0; k < EXTREMES && !group_failed(); k++) {
            struct pair p = opened(500 + k, length[i]);
            uint64_t n = extreme(k);
            if (n > 262144)
                refused(&p, GRANT, n, 2);
            struct second_answer a = both(&p, GRANT, n);
            CHECK(a.no == (n > 262144 ? 2 : n + 23 - (n + 23) % 16 + 32
                                                <= length[i] && length[i] >= 64
                                            ? 0 : 5),
                  "grant %llu in %zu bytes answered %u",
                  (unsigned long long)n, length[i], a.no);
            if (n == 0)
                refused(&p, RELEASE, 0, 0);
            else if (n != 16 || a.no != 0)
                refused(&p, RELEASE, n, 4);
            plain_put(p.ours.arena + 8, 8, 17);
            plain_put(p.theirs.arena + 8, 8, 17);
            refused(&p, GRANT, n, n > 262144 ? 2 : 3);
            refused(&p, RELEASE, n, 3);
            refused_resize(&p, n, 24, 3);
            refused_resize(&p, 16, n, n > 262144 ? 2 : 3);
            pair_free(&p);
        }
    for (unsigned i = 0; i < 6; i++)
        extreme_resizes(length[i]);
}
