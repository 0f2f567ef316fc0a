/*
 * Images: the bytes of small ones, each refusal and the order of them, round
 * trips of random heaps, of every version and in both editions; and what
 * heapimage prints of heaps, sound ones and ones damaged by hand. Every
 * expected byte, number and line here was worked out by hand from the
 * documents.
 */
#include <stdlib.h>
#include <string.h>

#include "files.h"
#include "image2.h"
#include "oracle.h"
#include "plain.h"
#include "random_heap.h"
#include "show2.h"
#include "tiles2.h"
#include "traces.h"

#define HEADER 9u

/* The image of a heap of good shape. */
static struct bytes image_of(const struct lent *l)
{
    struct bytes file = filled(arena_in(NEWEST) + l->length, 0x5a);
    struct second_answer a = second_write_image(
        l->arena, l->length, l->record, l->record_len, file.at, file.length);
    CHECK(a.no == 0 && a.mem == 0 && a.usable == 0,
          "an image of %zu bytes is answered %u %u %u, not 0 0 0", l->length,
          a.no, a.mem, a.usable);
    return file;
}

/* ---- bytes ---- */

/* The record of a newly opened arena of 32 bytes. */
static uint8_t opened_record_byte(unsigned i)
{
    unsigned word = i / 4;
    if (word == 0)
        return i == 0 ? 32 : 0;
    if (i >= 1580)
        return i == 1580 ? (uint8_t)edition : 0;
    if (i >= 1572)
        return (uint8_t)(KEY >> 8 * (i - 1572));
    return word == 1 || (word >= 67 && word < 131) ? 0 : 0xff;
}

static void smallest_image(void)
{
    static const uint8_t header[HEADER] = { 0x48, 0x50, 0x49, 4, 0,
                                            32,   0,    0,    0 };

    group("image: every byte of a newly opened arena of 32 bytes");
    start(32);
    struct bytes file = image_of(&heap);
    CHECK(file.length == 1625, "the image has %zu bytes", file.length);
    for (unsigned i = 0; i < file.length; i++) {
        unsigned at = i - 1593; /* in the arena, filled with 0xa5 */
        uint8_t expected = i < HEADER ? header[i]
            : i < 1593                ? opened_record_byte(i - HEADER)
            : at == 8                 ? 33
            : at > 8 && at < 16       ? 0
                                      : 0xa5;
        CHECK(file.at[i] == expected, "byte %u is 0x%02x, not 0x%02x", i,
              file.at[i], expected);
    }
    free(file.at);
    stop();
}

static void larger_images(void)
{
    static const struct {
        uint32_t length;
        uint8_t field[4];
    } arena[] = {
        { 48, { 0x30, 0, 0, 0 } },          { 256, { 0, 1, 0, 0 } },
        { 4112, { 0x10, 0x10, 0, 0 } },     { 65536, { 0, 0, 1, 0 } },
        { 66064, { 0x10, 0x02, 0x01, 0 } }, { 262144, { 0, 0, 4, 0 } },
        { 262128, { 0xf0, 0xff, 3, 0 } }
    };
    struct random r = { 77 };

    group("image: the length field, and any record and arena behind it");
    for (unsigned i = 0; i < sizeof arena / sizeof arena[0]; i++) {
        struct lent l = lend(arena[i].length, 0);
        random_bytes(&r, l.arena, l.length);
        random_bytes(&r, l.record, l.record_len);
        struct bytes file = image_of(&l);
        CHECK(memcmp(file.at, "HPI\4\0", 5) == 0, "another mark or version");
        CHECK(memcmp(file.at + 5, arena[i].field, 4) == 0,
              "another length field for %u", arena[i].length);
        CHECK(memcmp(file.at + 9, l.record, 1584) == 0
                  && memcmp(file.at + 1593, l.arena, l.length) == 0,
              "record or arena stand elsewhere in an image of %u",
              arena[i].length);
        free(file.at);
        give_back(&l);
    }
}

/* ---- refusals ---- */

static void refuses_writing(size_t length, size_t record_len, size_t file_len)
{
    struct bytes arena = filled(length, 1), record = filled(record_len, 2);
    struct bytes file = filled(file_len, 3);
    struct second_answer a = second_write_image(arena.at, length, record.at,
                                                record_len, file.at, file_len);
    CHECK(a.no == 1 && a.mem == 0 && a.usable == 0,
          "lengths %zu, %zu and %zu are answered %u %u %u, not 1 0 0", length,
          record_len, file_len, a.no, a.mem, a.usable);
    CHECK(all_are(&arena, 1) && all_are(&record, 2) && all_are(&file, 3),
          "lengths %zu, %zu and %zu are refused, but something is written",
          length, record_len, file_len);
    free(arena.at);
    free(record.at);
    free(file.at);
}

static void refused_writes(void)
{
    static const size_t bad[] = { 0, 1, 15, 16, 17, 31, 33, 40, 100, 262143,
                                  262145, 262152, 262160, 524288 };
    static const size_t good[] = { 32, 48, 256, 4096, 262144 };
    static const int off[] = { -16, -8, -1, 1, 8, 16, -1593, -1584, -32, -9, 9,
                               32 };

    group("image: writing is refused with 1 for a length, and writes nothing");
    for (unsigned i = 0; i < sizeof bad / sizeof bad[0]; i++)
        refuses_writing(bad[i], 1584, 1593 + bad[i]);
    for (unsigned i = 0; i < sizeof good / sizeof good[0]; i++) {
        size_t full = 1593 + good[i];
        for (unsigned k = 0; k < sizeof off / sizeof off[0]; k++)
            refuses_writing(good[i], 1584, full + (size_t)off[k]);
        for (unsigned k = 0; k < 6; k++)
            refuses_writing(good[i], 1584 + (size_t)off[k], full);
        refuses_writing(good[i], 1583, full - 1);
        refuses_writing(good[i], 1588, full + 4);
        refuses_writing(good[i], 1580, full - 4); /* as it was before, */
        refuses_writing(good[i], 1572, full - 12); /* and before that */
        refuses_writing(good[i], 1584, full - 4);
        refuses_writing(good[i], 0, 9 + good[i]);
        refuses_writing(good[i], 1584, 0);
    }
    for (size_t file_len = 0; file_len < 1625 + 33; file_len++)
        if (file_len != 1625)
            refuses_writing(32, 1584, file_len);
}

/* Reads a file into buffers of those lengths, which must be refused so. */
static void refuses_reading(const uint8_t *bytes, size_t file_len,
                            size_t length, size_t record_len, uint32_t no)
{
    struct bytes file = copy_of(bytes, file_len);
    struct bytes arena = filled(length, 1), record = filled(record_len, 2);
    struct second_fault f = second_read_image(file.at, file_len, arena.at,
                                              length, record.at, record_len);
    CHECK(f.no == no && f.kind == 0 && f.number == 0,
          "a file of %zu bytes, read to %zu and %zu, is answered %u %u %u, not "
          "%u 0 0",
          file_len, length, record_len, f.no, f.kind, f.number, no);
    CHECK(all_are(&arena, 1) && all_are(&record, 2)
              && memcmp(file.at, bytes, file_len) == 0,
          "a file of %zu bytes, read to %zu and %zu, is refused, but something "
          "is written",
          file_len, length, record_len);
    free(file.at);
    free(arena.at);
    free(record.at);
}

/* A good image of an arena of that length, with room for more behind it. */
static struct bytes good_file(unsigned version, uint32_t length)
{
    start(length);
    struct bytes image = image_by_hand(&heap, version);
    struct bytes file = filled(image.length + 64, 7);
    memcpy(file.at, image.at, image.length);
    file.length = image.length;
    free(image.at);
    stop();
    return file;
}

/* A good image of a newly opened arena, read. */
static void reads(const uint8_t *bytes, size_t file_len, size_t length)
{
    struct bytes file = copy_of(bytes, file_len);
    struct bytes arena = filled(length, 1), record = filled(1584, 2);
    struct second_fault f = second_read_image(file.at, file_len, arena.at,
                                              length, record.at, 1584);
    CHECK(f.no == 0 && f.kind == SECOND_SOUND && f.number == 0,
          "a file of %zu bytes is answered %u %u %u, not 0 0 0", file_len, f.no,
          f.kind, f.number);
    CHECK(memcmp(arena.at, bytes + file_len - length, length) == 0,
          "a file of %zu bytes is read otherwise", file_len);
    free(file.at);
    free(arena.at);
    free(record.at);
}

/* Versions 2 and 3 have the same length: 0 is no refusal then. */
static uint32_t damaged_no(unsigned i, const uint8_t *file, unsigned was)
{
    if (i < 3)
        return 6;
    uint64_t version = plain_get(file + 3, 2);
    if (version < 1 || version > NEWEST)
        return 7;
    return i < 5 && arena_in((unsigned)version) == arena_in(was) ? 0 : 1;
}

static void damaged_headers(unsigned version)
{
    for (uint32_t length = 32; length <= 64; length += 16) {
        struct bytes file = good_file(version, length);
        for (unsigned i = 0; i < HEADER; i++) {
            uint8_t right = file.at[i];
            for (unsigned flip = 1; flip < 256; flip++) {
                file.at[i] = right ^ (uint8_t)flip;
                uint32_t no = damaged_no(i, file.at, version);
                if (no == 0)
                    reads(file.at, file.length, length);
                else
                    refuses_reading(file.at, file.length, length, 1584, no);
            }
            file.at[i] = right;
        }
        free(file.at);
    }
}

/* Also with each wrong mark and version, which come before the length. */
static void short_files(unsigned version)
{
    struct bytes file = good_file(version, 32);
    for (size_t length = 0; length <= file.length + 64; length++) {
        if (length != file.length)
            refuses_reading(file.at, length, 32, 1584, length < 5 ? 6 : 1);
        file.at[4] = 1;
        refuses_reading(file.at, length, 32, 1584, length < 5 ? 6 : 7);
        file.at[2] = 'i';
        refuses_reading(file.at, length, 32, 1584, 6);
        file.at[4] = 0;
        refuses_reading(file.at, length, 32, 1584, 6);
        file.at[2] = 'I';
    }
    free(file.at);
}

static void put_length(struct bytes *file, uint32_t length)
{
    plain_put(file->at + 5, 4, length);
}

/* The file, its field and each lent buffer, one of them off or several. */
static void wrong_lengths(unsigned version)
{
    static const int off[] = { 0, -16, -8, -4, -1, 1, 4, 8, 16 };
    struct bytes file = good_file(version, 256);

    for (unsigned i = 1; i < 9 * 9 * 9 * 9; i++) {
        int file_off = off[i % 9], field_off = off[i / 9 % 9];
        int arena_off = off[i / 81 % 9], record_off = off[i / 729];
        bool agree = file_off == field_off && field_off == arena_off
            && record_off == 0 && file_off % 16 == 0;
        if (agree)
            continue;
        put_length(&file, 256 + (uint32_t)field_off);
        refuses_reading(file.at, file.length + (size_t)file_off,
                        256 + (size_t)arena_off, 1584 + (size_t)record_off, 1);
    }
    put_length(&file, 256);
    refuses_reading(file.at, file.length, 0, 1584, 1);
    refuses_reading(file.at, file.length, 256, 0, 1);
    refuses_reading(file.at, file.length, 256, 1572, 1);
    refuses_reading(file.at, file.length, 256, 1580, 1);
    refuses_reading(file.at, file.length, 256, 1588, 1);
    refuses_reading(file.at, file.length, 262144, 1584, 1);
    free(file.at);
}

/* A length that is no arena's, also where file and buffer have just that. */
static void no_arena_lengths(unsigned version)
{
    static const uint32_t none[] = { 0, 1, 15, 16, 17, 31, 33, 40, 47, 100,
                                     262143, 262145, 262152, 262160, 262176,
                                     524288 };
    static const uint32_t huge[] = {
        0xffffffff, 0xfffffff0, 0x80000000, 0x7ffffff0, 0x80000020,
        0x00100020, 0x20000000, 0x00200000, 0x01000020,
        0u - 1581,      /* the whole file wraps to 0 in 32 bits, */
        0u - 1589,
        0u - 1593,
        0u - 1581 + 32, /* to 32, */
        0u - 1589 + 32,
        0u - 1593 + 32,
        0u - 1568       /* to 13, 21 or 25 */
    };
    struct bytes file = good_file(version, 32);
    size_t at = arena_in(version);

    for (unsigned i = 0; i < sizeof none / sizeof none[0]; i++) {
        struct bytes whole = filled(at + none[i], 0);
        memcpy(whole.at, file.at, at);
        put_length(&whole, none[i]);
        refuses_reading(whole.at, whole.length, none[i], 1584, 1);
        refuses_reading(whole.at, whole.length, 32, 1584, 1);
        free(whole.at);
    }
    for (unsigned i = 0; i < sizeof huge / sizeof huge[0]; i++) {
        put_length(&file, huge[i]);
        for (size_t length = 5; length <= file.length; length += 4)
            refuses_reading(file.at, length, 32, 1584, 1);
        refuses_reading(file.at, file.length, 0, 1584, 1);
        refuses_reading(file.at, file.length, 262144, 1584, 1);
    }
    free(file.at);
}

/* In files of every length. */
static void unknown_versions(unsigned as)
{
    static const uint32_t version[] = { 0, 5, 6, 255, 256, 257, 258, 259, 260,
                                        512, 513, 768, 1024, 32768, 32769,
                                        32772, 65280, 65284, 65535 };
    struct bytes file = good_file(as, 32);

    for (unsigned i = 0; i < sizeof version / sizeof version[0]; i++) {
        plain_put(file.at + 3, 2, version[i]);
        put_length(&file, 32);
        refuses_reading(file.at, file.length, 32, 1584, 7);
        refuses_reading(file.at, file.length + 1, 32, 1584, 7);
        refuses_reading(file.at, file.length, 48, 1572, 7);
        put_length(&file, 0xffffffff);
        for (size_t length = 5; length < 12; length++)
            refuses_reading(file.at, length, 32, 1584, 7);
    }
    free(file.at);
}

/* Mark, version and one of the lengths, each wrong or not. */
static void order_of_refusals(unsigned version)
{
    struct bytes file = good_file(version, 64);

    for (unsigned wrong = 1; wrong < 8; wrong++) {
        uint32_t off = wrong & 4, no = wrong & 1 ? 6 : wrong & 2 ? 7 : 1;
        file.at[0] = wrong & 1 ? 'h' : 'H';
        file.at[3] = wrong & 2 ? 9 : (uint8_t)version;
        put_length(&file, 64 - off);
        refuses_reading(file.at, file.length, 64, 1584, no);
        put_length(&file, 64);
        refuses_reading(file.at, file.length - off, 64, 1584, no);
        refuses_reading(file.at, file.length, 64 - off, 1584, no);
        refuses_reading(file.at, file.length, 64, 1584 + off, no);
        for (size_t length = 0; length < 5; length++)
            refuses_reading(file.at, length, 64, 1584, 6);
    }
    free(file.at);
}

typedef void refusals(unsigned version);

static void of_each_version(const char *name, refusals *of)
{
    group(name);
    for (unsigned version = 1; version <= NEWEST; version++)
        of(version);
}

/* ---- round trips ---- */

static bool same_fault(struct second_fault a, struct second_fault b)
{
    return a.no == b.no && a.kind == b.kind && a.number == b.number;
}

/* Writes, reads to other buffers, writes again; the audit's answer. */
static struct second_fault round_trip(const struct lent *l, uint64_t seed)
{
    struct lent source = lend(l->length, 0), back = lend(l->length, 0xb7);
    copy_lent(&source, l);
    struct bytes file = image_of(l), kept = copy_of(file.at, file.length);
    struct second_fault f =
        second_read_image(file.at, file.length, back.arena, back.length,
                          back.record, back.record_len);
    CHECK(same_fault(f, lent_audit(l)),
          "seed %llu: the heap read in is answered %u %u %u, not its audit's",
          (unsigned long long)seed, f.no, f.kind, f.number);
    CHECK(same_arena(l, &back) && same_record(l, &back),
          "seed %llu: the heap read in is not the one that was written",
          (unsigned long long)seed);
    CHECK(same_arena(l, &source) && same_record(l, &source)
              && memcmp(file.at, kept.at, file.length) == 0,
          "seed %llu: writing changed the heap, or reading the file",
          (unsigned long long)seed);
    struct bytes again = image_of(&back);
    CHECK(memcmp(again.at, file.at, file.length) == 0,
          "seed %llu: the heap read in has another image",
          (unsigned long long)seed);
    free(again.at);
    free(kept.at);
    free(file.at);
    give_back(&back);
    give_back(&source);
    return f;
}

/* Reads the heap from an image of an older version; the answer. */
static struct second_fault old_trip(const struct lent *l, unsigned version,
                                    uint64_t seed)
{
    struct second_fault audit = lent_audit_by(l, version);
    struct lent expected = lend(l->length, 0);
    struct lent back = lend(l->length, 0xb7);
    struct bytes file = image_by_hand(l, version);
    struct bytes kept = copy_of(file.at, file.length);
    struct second_fault f =
        second_read_image(file.at, file.length, back.arena, back.length,
                          back.record, back.record_len);

    copy_lent(&expected, l);
    plain_from_old(expected.arena, (uint32_t)expected.length, expected.record,
                   version, audit.kind == SECOND_SOUND);
    CHECK(same_fault(f, audit),
          "seed %llu: an old heap is answered %u %u %u, not its audit's",
          (unsigned long long)seed, f.no, f.kind, f.number);
    CHECK(same_arena(&expected, &back) && same_record(&expected, &back),
          "seed %llu: an old heap is read in otherwise",
          (unsigned long long)seed);
    CHECK(memcmp(file.at, kept.at, file.length) == 0,
          "seed %llu: reading changed the file", (unsigned long long)seed);
    CHECK(f.kind != SECOND_SOUND || lent_sound(&back),
          "seed %llu: a sound old heap is not sound today",
          (unsigned long long)seed);
    free(kept.at);
    free(file.at);
    give_back(&back);
    give_back(&expected);
    return f;
}

static struct lent random_lent(struct random *r)
{
    bool large = random_chance(r, 5);
    struct lent l = lend(random_length(r, large ? PLAIN_ARENA_MAX : 16384), 0);
    random_heap(r, l.arena, (uint32_t)l.length, l.record);
    return l;
}

static void sound_images(uint32_t rounds)
{
    group("image: random sound heaps are read back as they were");
    for (uint64_t i = 1; i <= rounds && !group_failed(); i++) {
        struct random r = { (1u << 25) + i };
        struct lent l = random_lent(&r);
        CHECK(round_trip(&l, i).kind == SECOND_SOUND,
              "seed %llu: a sound heap is not answered so",
              (unsigned long long)i);
        give_back(&l);
    }
}

/* The words that a version does not ask are then any. */
static void old_sound_images(const char *name, unsigned version,
                             uint32_t rounds)
{
    uint64_t lacking = 0;

    group(name);
    for (uint64_t i = 1; i <= rounds && !group_failed(); i++) {
        struct random r = { (1u << 27) + i };
        struct lent l = random_lent(&r);
        plain_to_edition(l.arena, l.record, 1);
        if (version == 1 && i % 2 == 0)
            damage_key(&r, l.arena, l.record);
        if (version == 1 && i % 3 == 0)
            plain_put_key(l.record, random_key(&r));
        for (uint32_t times = version < 3 ? random_below(&r, 6) : 0; times > 0;
             times--)
            damage_skip(&r, l.arena, l.record);
        if (i % 4 == 0)
            damage_edition(&r, l.record); /* which the file does not have */
        lacking += !lent_sound(&l);
        CHECK(old_trip(&l, version, i).kind == SECOND_SOUND,
              "seed %llu: a sound heap of version %u is not answered so",
              (unsigned long long)i, version);
        give_back(&l);
    }
    remark(", %llu of them not sound by today's rules",
           (unsigned long long)lacking);
    CHECK(lacking > rounds / 10, "only %llu lack something",
          (unsigned long long)lacking);
}

static void damaged_images(const char *name, unsigned version, uint32_t rounds)
{
    uint64_t kinds[7] = { 0 };

    group(name);
    for (uint64_t i = 1; i <= rounds && !group_failed(); i++) {
        struct random r = { (1u << 26) + i };
        struct lent l = random_lent(&r);
        if (version < NEWEST)
            plain_to_edition(l.arena, l.record, 1);
        (i % 2 == 0 ? damage_field : damage_bytes)(
            &r, l.arena, (uint32_t)l.length, l.record);
        kinds[(version < NEWEST ? old_trip(&l, version, i)
                                : round_trip(&l, i)).kind]++;
        give_back(&l);
    }
    for (unsigned k = 0; k < 7; k++) {
        remark("%s %u of kind %u", k == 0 ? ", found" : ",",
               (unsigned)kinds[k], k);
        CHECK(kinds[k] > 0, "no heap with a fault of kind %u was met", k);
    }
}

/* Bytes that are no image, but for what is looked at first. */
static struct bytes random_file(struct random *r)
{
    uint32_t step = random_chance(r, 80) ? 16 : 1;
    unsigned version = 1 + random_below(r, NEWEST);
    size_t at = arena_in(version);
    struct bytes file =
        filled(random_chance(r, 30) ? random_below(r, 20)
                                    : at + step * random_below(r, 40), 0);
    random_bytes(r, file.at, file.length);
    if (file.length < HEADER || random_chance(r, 10))
        return file;
    memcpy(file.at, "HPI", 3);
    plain_put(file.at + 3, 2, version);
    plain_put(file.at + 5, 4,
              file.length < at ? 32 : (uint32_t)(file.length - at));
    for (unsigned i = 0; i < HEADER; i++)
        if (random_chance(r, 2))
            file.at[i] = (uint8_t)random_next(r);
    return file;
}

/* What any bytes are read as, if their lengths are an image's. */
static void read_any(const struct bytes *file, const struct bytes *arena,
                     const struct bytes *record, struct second_fault f,
                     uint64_t seed)
{
    unsigned version = file->at[3];
    size_t at = arena_in(version);

    CHECK(memcmp(record->at, file->at + 9, at - 9) == 0
              && memcmp(arena->at, file->at + at, arena->length) == 0,
          "seed %llu: other bytes were read", (unsigned long long)seed);
    CHECK(version > 1 || plain_key(record->at) == 0,
          "seed %llu: another key than 0", (unsigned long long)seed);
    CHECK(version > 3 || plain_edition(record->at) == 1,
          "seed %llu: another edition than 1", (unsigned long long)seed);
    CHECK(same_fault(f, oracle_audit(arena->at, arena->length, record->at,
                                     1584, version)),
          "seed %llu: another audit", (unsigned long long)seed);
}

static void any_files(uint32_t rounds)
{
    uint64_t read = 0, refused[8] = { 0 };

    group("image: any bytes are answered, and refused without a write");
    for (uint64_t seed = 1; seed <= rounds && !group_failed(); seed++) {
        struct random r = { seed << 20 };
        struct bytes file = random_file(&r);
        size_t at = arena_in(file.length > 3 ? file.at[3] : NEWEST);
        size_t length = file.length < at ? 32 : file.length - at;
        struct bytes arena = filled(length, 1), record = filled(1584, 2);
        struct second_fault f =
            second_read_image(file.at, file.length, arena.at, length,
                              record.at, 1584);
        if (CHECK(f.no == 0 || f.no == 1 || f.no == 6 || f.no == 7,
                  "seed %llu: answered %u", (unsigned long long)seed, f.no))
            refused[f.no]++;
        if (f.no == 0) {
            read++;
            read_any(&file, &arena, &record, f, seed);
        } else {
            CHECK(all_are(&arena, 1) && all_are(&record, 2),
                  "seed %llu: refused with %u, but written",
                  (unsigned long long)seed, f.no);
        }
        free(file.at);
        free(arena.at);
        free(record.at);
    }
    remark(", %llu read, refused with 6: %llu, 7: %llu, 1: %llu",
           (unsigned long long)read, (unsigned long long)refused[6],
           (unsigned long long)refused[7], (unsigned long long)refused[1]);
    CHECK(read > 0 && refused[1] > 0 && refused[6] > 0 && refused[7] > 0,
          "some answer was never met");
}

/* ---- what heapimage prints ---- */

/* What is printed of a file, as text; for messages too. */
static const char *printed(const uint8_t *bytes, size_t length,
                           bool with_edition)
{
    FILE *out = open_text();
    second_show_image(out, bytes, length, with_edition);
    return end_text(out);
}

/*
 * The lines expected without the edition, with it: behind the first of them,
 * unless that is a refusal.
 */
static const char *edition_told(const uint8_t *bytes, const char *expected)
{
    static char text[8192];
    int first = (int)strcspn(expected, "\n") + 1;

    if (expected[0] == '?')
        return expected;
    snprintf(text, sizeof text, "%.*sedition %llu\n%s", first, expected,
             bytes[3] < 4 ? 1
                          : (unsigned long long)plain_get(bytes + 9 + 1580, 4),
             expected + first);
    return text;
}

/* Without the edition and with it. */
static void shows_bytes(const uint8_t *bytes, size_t length,
                        const char *expected)
{
    const char *text = printed(bytes, length, false);
    CHECK(strcmp(text, expected) == 0, "printed '%s', not '%s'", text,
          expected);
    expected = edition_told(bytes, expected);
    text = printed(bytes, length, true);
    CHECK(strcmp(text, expected) == 0, "with -v printed '%s', not '%s'", text,
          expected);
}

/*
 * Of the heap in hand, in an image of that version: the audit's line, and
 * those of the tiles.
 */
static void shows_by(unsigned version, const char *answer, const char *tiles)
{
    static char expected[4096];
    struct bytes file = image_by_hand(&heap, version);

    snprintf(expected, sizeof expected, "image %u %zu\n%s\n%s", version,
             heap.length, answer, tiles);
    shows_bytes(file.at, file.length, expected);
    free(file.at);
}

/* In images of that version and of all newer ones. */
static void shows_since(unsigned version, const char *answer,
                        const char *tiles)
{
    for (; version <= NEWEST; version++)
        shows_by(version, answer, tiles);
}

static void shows(const char *answer, const char *tiles)
{
    shows_since(1, answer, tiles);
}

static void prints_refusals(unsigned version)
{
    struct bytes file = good_file(version, 64);
    size_t at = arena_in(version);
    char expected[64];

    shows_bytes(file.at, 0, "? 6\n");
    shows_bytes(file.at, 4, "? 6\n");
    shows_bytes(file.at, 5, "? 1\n");
    shows_bytes(file.at, 1581, "? 1\n");
    shows_bytes(file.at, 1589, "? 1\n");
    shows_bytes(file.at, 1593, "? 1\n");
    for (unsigned off = 1; off <= 16; off *= 2) {
        shows_bytes(file.at, file.length - off, "? 1\n");
        shows_bytes(file.at, file.length + off, "? 1\n");
    }
    snprintf(expected, sizeof expected, "image %u 64\nsound\n0 64 top\n",
             version);
    shows_bytes(file.at, file.length, expected);
    file.at[3] = version == 1 ? 2 : 1; /* another length is then right */
    shows_bytes(file.at, file.length, "? 1\n");
    file.at[3] = 5;
    shows_bytes(file.at, file.length, "? 7\n");
    shows_bytes(file.at, 5, "? 7\n");
    shows_bytes(file.at, 4, "? 6\n");
    file.at[0] = 'G';
    shows_bytes(file.at, file.length, "? 6\n");

    /* More bytes than such an image has: 6 and 7 still come before 1. */
    struct bytes whole = filled(at + 262144 + 9, 0);
    shows_bytes(whole.at, whole.length, "? 6\n");
    memcpy(whole.at, "HPI\5\0\0\0\4\0", 9);
    shows_bytes(whole.at, whole.length, "? 7\n");
    whole.at[3] = (uint8_t)version;
    for (size_t more = 1; more <= 9; more++)
        shows_bytes(whole.at, at + 262144 + more, "? 1\n");
    snprintf(expected, sizeof expected, "image %u 262144\nfault record\n",
             version);
    shows_bytes(whole.at, at + 262144, expected);
    plain_put(whole.at + 9, 4, 262144);
    if (version >= 4)
        shows_bytes(whole.at, at + 262144, expected); /* its edition is 0 */
    if (version >= 4)
        plain_put(whole.at + 9 + 1580, 4, edition);
    snprintf(expected, sizeof expected, "image %u 262144\nfault tile 0\n",
             version);
    shows_bytes(whole.at, at + 262144, expected);
    free(whole.at);
    free(file.at);
}

#define FOUR_LIVE "0 32 live\n32 32 live\n64 32 live\n96 32 live\n"
#define FOUR_CACHED \
    "0 32 cache 0\n32 32 cache 0\n64 32 cache 0\n96 32 cache 0\n"
#define THREE_CACHED "128 32 cache 0\n160 32 cache 0\n192 32 cache 0\n"
#define FAST_AND_TOP "224 32 fast 0\n256 768 top\n"
#define ALL_CACHED FOUR_CACHED THREE_CACHED
#define SEVEN_AND_ONE ALL_CACHED FAST_AND_TOP

static void stack_bad_links(void)
{
    /* No chunk; the top; an offset that is one only if it is cut. */
    static const uint64_t bad[] = { 104, 112, 256, 1024, 1040, 0xffffffff,
                                    ((uint64_t)1 << 32) + 96,
                                    ((uint64_t)1 << 63) + 96,
                                    PLAIN_NONE64 - 1, PLAIN_NONE64 - 15 };

    group("heapimage: a bad link in the middle of a stack");
    start_stacks();
    shows("sound", SEVEN_AND_ONE);
    for (unsigned i = 0; i < sizeof bad / sizeof bad[0]; i++) {
        put_link(128, bad[i]);
        shows("fault cache 0", FOUR_LIVE THREE_CACHED FAST_AND_TOP);
    }
    put_link(128, PLAIN_NONE64); /* only the count is wrong then */
    shows("fault cache 0", FOUR_LIVE THREE_CACHED FAST_AND_TOP);
    put_link(128, 96);
    put_link(224, 104);
    shows("fault fast 0", SEVEN_AND_ONE);
    put_link(224, PLAIN_NONE64);
    for (unsigned i = 0; i < 5; i++) {
        put_word(plain_cache_head(0), (uint32_t)bad[i]);
        shows("fault cache 0", FOUR_LIVE "128 32 live\n160 32 live\n"
                               "192 32 live\n" FAST_AND_TOP);
    }
    stop();
}

static void stacks_that_cross(void)
{
    group("heapimage: two stacks that cross");
    start_stacks();
    put_link(128, 224); /* the later list reaches nothing */
    shows_by(1, "fault cache 0", FOUR_LIVE THREE_CACHED "224 32 cache 0\n"
                                 "256 768 top\n");
    /* by its second word it is none of the cache's, and so it is fast */
    shows_since(2, "fault cache 0", FOUR_LIVE THREE_CACHED FAST_AND_TOP);
    put_key(224, KEY);
    shows("fault cache 0", FOUR_LIVE THREE_CACHED "224 32 cache 0\n"
                           "256 768 top\n");
    put_link(128, 96);
    put_link(224, 96); /* and here nothing but its own */
    shows("fault fast 0", SEVEN_AND_ONE);
    put_link(224, PLAIN_NONE64);
    put_word(plain_fast_head(0), 64);
    shows("fault fast 0", ALL_CACHED "224 32 live\n256 768 top\n");
    stop();
}

static void stack_circles(void)
{
    group("heapimage: a circle");
    start_stacks();
    put_link(96, 160);
    shows("fault cache 0", "0 32 live\n32 32 live\n64 32 live\n96 32 cache 0\n"
                           THREE_CACHED FAST_AND_TOP);
    put_link(192, 192);
    shows("fault cache 0", FOUR_LIVE "128 32 live\n160 32 live\n"
                           "192 32 cache 0\n" FAST_AND_TOP);
    put_link(192, 160);
    put_link(96, 64);
    put_link(224, 224);
    shows("fault fast 0", SEVEN_AND_ONE);
    stop();
}

/* The cached ones, from the head on, up to one; the others are live. */
static const char *cached_down_to(uint32_t last)
{
    static char text[512];
    int used = 0;

    for (uint32_t c = 0; c < 224; c += 32)
        used += snprintf(text + used, sizeof text - (size_t)used, "%u 32 %s\n",
                         c, c >= last ? "cache 0" : "live");
    snprintf(text + used, sizeof text - (size_t)used, FAST_AND_TOP);
    return text;
}

static void wrong_keys(void)
{
    static const uint64_t bad[] = { 0, PLAIN_NONE64, ~KEY, KEY + 1, KEY - 1,
                                    KEY ^ ((uint64_t)1 << 63),
                                    KEY & PLAIN_NONE32 };

    group("heapimage: a wrong key ends its list, unless the version is 1");
    start_stacks();
    for (uint32_t c = 0; c < 224; c += 32) {
        for (unsigned i = 0; i < sizeof bad / sizeof bad[0]; i++) {
            put_key(c, bad[i]);
            shows_by(1, "sound", SEVEN_AND_ONE);
            shows_since(2, "fault cache 0", cached_down_to(c + 32));
        }
        put_key(c, KEY);
    }
    shows("sound", SEVEN_AND_ONE);
    put_key(224, 0); /* nobody asks it of a fast chunk */
    shows("sound", SEVEN_AND_ONE);
    stop();

    start_stacks(); /* the record has another key than all of them */
    for (unsigned i = 0; i < sizeof bad / sizeof bad[0]; i++) {
        plain_put_key(heap.record, bad[i]);
        shows_by(1, "sound", SEVEN_AND_ONE);
        shows_since(2, "fault cache 0", cached_down_to(224));
    }
    stop();

    start_stacks(); /* bad there, good here: a fast list asks for no key */
    put_key(192, 0);
    put_word(plain_fast_head(0), 192);
    shows_by(1, "fault fast 0", ALL_CACHED "224 32 live\n256 768 top\n");
    shows_since(2, "fault cache 0",
                "0 32 fast 0\n32 32 fast 0\n64 32 fast 0\n96 32 fast 0\n"
                "128 32 fast 0\n160 32 fast 0\n192 32 fast 0\n224 32 live\n"
                "256 768 top\n");
    stop();
}

/* A fault elsewhere: the words are not written, and keys are not asked. */
static void old_and_unsound(void)
{
    group("heapimage: version 1 with a fault elsewhere, and without keys");
    start_stacks();
    for (uint32_t c = 0; c < 224; c += 32)
        put_key(c, 3 * c + 7);
    put_word(plain_bin_last(2), 0);
    shows_by(1, "fault bin 2", SEVEN_AND_ONE);
    shows_since(2, "fault cache 0", cached_down_to(224));
    put_link(96, 8);
    shows_by(1, "fault cache 0", "0 32 live\n32 32 live\n64 32 live\n"
                                 "96 32 cache 0\n" THREE_CACHED FAST_AND_TOP);
    shows_since(2, "fault cache 0", cached_down_to(224));
    stop();
}

static void eighth_cached(void)
{
    group("heapimage: an eighth cached chunk");
    start_stacks();
    put_link(0, 224);
    put_word(plain_cache_count(0), 8);
    shows("fault cache 0", SEVEN_AND_ONE); /* which the fast list reaches */
    put_word(plain_fast_head(0), PLAIN_NONE32);
    shows("fault cache 0", ALL_CACHED "224 32 live\n256 768 top\n");
    stop();
}

static void wrong_counts(void)
{
    static const uint32_t count[] = { 0, 6, 8, 9, 0x80000007, PLAIN_NONE32 };

    group("heapimage: a wrong count condemns no chunk");
    start_stacks();
    for (unsigned i = 0; i < sizeof count / sizeof count[0]; i++) {
        put_word(plain_cache_count(0), count[i]);
        shows("fault cache 0", SEVEN_AND_ONE);
    }
    put_word(plain_cache_count(0), 7);
    put_word(plain_cache_count(9), 1); /* an empty list's */
    shows("fault cache 9", SEVEN_AND_ONE);
    stop();
}

static void stack_wrong_sizes(void)
{
    group("heapimage: a chunk of a wrong size, fast lists that own none");
    start_stacks();
    put_word(plain_fast_head(0), PLAIN_NONE32);
    for (unsigned k = 1; k < 10; k++) {
        char fault[32];
        snprintf(fault, sizeof fault, "fault fast %u", k);
        put_word(plain_fast_head(k), 224);
        shows(fault, ALL_CACHED "224 32 live\n256 768 top\n");
        put_word(plain_fast_head(k), PLAIN_NONE32);
    }
    put_word(plain_cache_head(1), 224);
    put_word(plain_cache_count(1), 1);
    shows("fault cache 1", ALL_CACHED "224 32 live\n256 768 top\n");
    put_word(plain_fast_head(0), 224); /* bad there, good here */
    shows("fault cache 1", SEVEN_AND_ONE);
    stop();

    start(1024); /* a size that fast list 7 would own, if it owned one */
    grants(136, 16, 136);
    put_word(plain_fast_head(7), 0);
    shows("fault fast 7", "0 144 live\n144 880 top\n");
    stop();
}

/* The tiles, with the states of the four large ones. */
static const char *bin_tiles(const char *at_0, const char *at_1088,
                             const char *at_2192, const char *at_3280)
{
    static char text[512];
    snprintf(text, sizeof text,
             "0 1056 %s\n1056 32 live\n1088 1072 %s\n2160 32 live\n"
             "2192 1056 %s\n3248 32 live\n3280 1136 %s\n4416 32 live\n"
             "4448 3744 top\n",
             at_0, at_1088, at_2192, at_3280);
    return text;
}

static const char *as_built(void)
{
    return bin_tiles("bin 64", "bin 64", "bin 64", "bin 65");
}

/* Links 0, 1088 and 2192 in this order, in which a size rises. */
static void link_by_offset(void)
{
    put_back_link(0, PLAIN_NONE64);
    put_link(0, 1088);
    put_back_link(1088, 0);
    put_link(1088, 2192);
    put_back_link(2192, 1088);
}

static void bin_bad_links(void)
{
    group("heapimage: a bad link in the middle of a bin");
    start_bins();
    shows("sound", as_built());
    put_link(0, 8);
    shows("fault bin 64", bin_tiles("bin 64", "bin 64", "live", "bin 65"));
    put_link(0, 3280); /* of bin 65, whose first it stays */
    shows("fault bin 64", bin_tiles("bin 64", "bin 64", "live", "bin 65"));
    put_link(1088, 4448); /* the top */
    shows("fault bin 64", bin_tiles("live", "bin 64", "live", "bin 65"));
    put_link(1088, 1056); /* a live block */
    shows("fault bin 64", bin_tiles("live", "bin 64", "live", "bin 65"));
    stop();
}

static void wrong_back_links(void)
{
    group("heapimage: a wrong back link");
    start_bins();
    put_back_link(0, 2192);
    shows("fault bin 64", bin_tiles("live", "bin 64", "live", "bin 65"));
    put_back_link(0, ((uint64_t)1 << 32) + 1088);
    shows("fault bin 64", bin_tiles("live", "bin 64", "live", "bin 65"));
    put_back_link(0, 1088);
    put_back_link(1088, 0xffffffff); /* the first: none has 64 ones */
    shows("fault bin 64", bin_tiles("live", "live", "live", "bin 65"));
    put_back_link(1088, PLAIN_NONE64);
    put_back_link(2192, 1088);
    shows("fault bin 64", bin_tiles("bin 64", "bin 64", "live", "bin 65"));
    stop();
}

static void wrong_lasts(void)
{
    group("heapimage: a wrong last condemns no chunk");
    start_bins();
    put_word(plain_bin_last(64), 0);
    shows("fault bin 64", as_built());
    put_word(plain_bin_last(64), PLAIN_NONE32);
    shows("fault bin 64", as_built());
    put_word(plain_bin_last(64), 2192);
    put_word(plain_bin_last(2), 1056); /* an empty bin's */
    shows("fault bin 2", as_built());
    stop();
}

static void wrong_order(void)
{
    group("heapimage: a wrong order in a large bin");
    start_bins();
    put_word(plain_bin_first(64), 0);
    link_by_offset();
    shows("fault bin 64", bin_tiles("bin 64", "live", "live", "bin 65"));
    stop();
}

static void bins_that_cross(void)
{
    group("heapimage: bins that cross, a circle in a bin");
    start_bins();
    put_word(plain_bin_first(64), 3280); /* bad there, good in its own */
    shows("fault bin 64", bin_tiles("live", "live", "live", "bin 65"));
    put_word(plain_bin_first(64), 1088);
    put_word(plain_bin_first(1), 3280); /* unsorted owns it too, and is first */
    shows("fault bin 1", bin_tiles("bin 64", "bin 64", "bin 64", "bin 1"));
    put_word(plain_bin_first(1), PLAIN_NONE32);
    put_link(2192, 1088);
    shows("fault bin 64", as_built());
    put_link(2192, 2192);
    shows("fault bin 64", as_built());
    stop();
}

/* Wrong in both words of the chunk, one after the other. */
static void wrong_skips_in(uint32_t c, const char *fault, const char *tiles)
{
    static const uint64_t bad[] = { 1, 16, 2192, 0xffffffff,
                                    ((uint64_t)1 << 32) + 1088,
                                    (uint64_t)1 << 63, PLAIN_NONE64 - 1 };

    for (unsigned word = 32; word <= 40; word += 8) {
        uint64_t right = plain_get(heap.arena + c + word, 8);
        for (unsigned i = 0; i < sizeof bad / sizeof bad[0]; i++) {
            plain_put(heap.arena + c + word, 8, bad[i]);
            shows_by(1, "sound", tiles);
            shows_by(2, "sound", tiles);
            shows_since(3, fault, tiles);
        }
        plain_put(heap.arena + c + word, 8,
                  right == PLAIN_NONE64 ? c : PLAIN_NONE64);
        shows_since(3, fault, tiles);
        plain_put(heap.arena + c + word, 8, right);
    }
    shows("sound", tiles);
}

static void wrong_skips(void)
{
    group("heapimage: a wrong skip link condemns no chunk, and names its bin "
          "from version 3 on");
    start_bins();
    skips_are(1088, 0, 0);
    skips_are(0, 1088, 1088);
    no_skips(2192);
    skips_are(3280, 3280, 3280);
    wrong_skips_in(1088, "fault bin 64", as_built());
    wrong_skips_in(0, "fault bin 64", as_built());
    wrong_skips_in(2192, "fault bin 64", as_built());
    wrong_skips_in(3280, "fault bin 65", as_built());
    put_skips(3280, 0, 0); /* before the flags, behind bin 64 */
    plain_put(heap.arena + 2160 + 8, 8, 33);
    shows_by(2, "fault flag 2160", as_built());
    shows_since(3, "fault bin 65", as_built());
    put_word(plain_bin_last(64), 0);
    shows("fault bin 64", as_built());
    put_skips(1088, 1, 1); /* and with its last right */
    put_word(plain_bin_last(64), 2192);
    shows_since(3, "fault bin 64", as_built());
    stop();

    start_bins(); /* in unsorted */
    grants(1048, 2208, 1048);
    releases(2208);
    bin_is(1, 2192, 2192);
    wrong_skips_in(2192, "fault bin 1",
                   bin_tiles("bin 64", "bin 64", "bin 1", "bin 65"));
    stop();
}

/* What is read of the heap in hand, with nothing right in its skip links. */
static struct lent read_unskipped(unsigned version)
{
    static const uint32_t c[] = { 0, 1088, 2192, 3280 };
    struct lent back = lend(heap.length, 0xb7);

    for (unsigned i = 0; i < 4; i++)
        put_skips(c[i], 0x5c15 + i, 0x5c25 + i);
    struct bytes file = image_by_hand(&heap, version);
    second_read_image(file.at, file.length, back.arena, back.length,
                      back.record, back.record_len);
    free(file.at);
    return back;
}

static bool skips_read(const struct lent *l, uint32_t c, uint64_t forward,
                       uint64_t back)
{
    return plain_get(l->arena + c + 32, 8) == forward
        && plain_get(l->arena + c + 40, 8) == back;
}

/* Of start_bins; 3280 may be in unsorted. */
static void old_rings_with(unsigned version, bool unsorted)
{
    uint64_t alone = unsorted ? PLAIN_NONE64 : 3280;
    bool old = version < 3;
    struct lent back = read_unskipped(version);

    CHECK(!old || (skips_read(&back, 1088, 0, 0)
                   && skips_read(&back, 0, 1088, 1088)
                   && skips_read(&back, 2192, PLAIN_NONE64, PLAIN_NONE64)
                   && skips_read(&back, 3280, alone, alone)),
          "version %u: other skip links are read", version);
    CHECK(lent_sound(&back) == old, "version %u: a heap without skip links",
          version);
    CHECK(old || same_arena(&heap, &back), "version %u is read otherwise",
          version);
    give_back(&back);

    plain_put(heap.arena + 2160 + 8, 8, 33); /* a flag, so it is not sound */
    back = read_unskipped(version);
    CHECK(same_arena(&heap, &back), "version %u: an unsound heap is written to",
          version);
    give_back(&back);
}

static void old_rings(unsigned version)
{
    start_bins();
    old_rings_with(version, false);
    stop();

    start_bins();
    grants(1128, 3296, 1128);
    releases(3296);
    bin_is(1, 3280, 3280);
    old_rings_with(version, true);
    stop();
}

/* ---- editions ---- */

/* A version 4 image with any number there is read, and the number stays. */
static void edition_in_image(void)
{
    static const uint32_t number[] = { 0, 1, 2, 3, 256, 257, 65538, 0x01000000,
                                       0x80000001, 0x80000002, PLAIN_NONE32 };

    group("image: another edition is read as it is, with the record's fault");
    for (unsigned i = 0; i < sizeof number / sizeof number[0]; i++) {
        start(64);
        plain_put_edition(heap.record, number[i]);
        struct bytes file = image_of(&heap);
        struct lent back = lend(64, 0xb7);
        struct second_fault f =
            second_read_image(file.at, file.length, back.arena, back.length,
                              back.record, back.record_len);
        bool good = number[i] == 1 || number[i] == 2;
        CHECK(f.no == 0 && f.number == 0
                  && f.kind == (good ? SECOND_SOUND : SECOND_RECORD),
              "edition %u is answered %u %u %u", number[i], f.no, f.kind,
              f.number);
        CHECK(same_arena(&heap, &back) && same_record(&heap, &back),
              "edition %u is not read as it is", number[i]);
        shows_by(4, good ? "sound" : "fault record", good ? "0 64 top\n" : "");
        for (unsigned version = 1; version <= 3; version++)
            shows_by(version, "sound", "0 64 top\n"); /* the file has none */
        give_back(&back);
        free(file.at);
        stop();
    }
}

/* The tiles, the cached ones from the head on up to one. */
static const char *mixed_tiles(uint32_t last)
{
    static char text[512];
    int used = snprintf(text, sizeof text, "0 8160 live\n");

    for (uint32_t c = 8160; c < 8384; c += 32)
        used += snprintf(text + used, sizeof text - (size_t)used, "%u 32 %s\n",
                         c, c >= last ? "cache 0" : "live");
    snprintf(text + used, sizeof text - (size_t)used,
             "8384 32 fast 0\n8416 7968 top\n");
    return text;
}

/* Stored so at 8256; in edition 1 the first is right, in 2 the second. */
static void mixed_in_the_middle(uint64_t stored, uint32_t right_in)
{
    put_link(8256, stored);
    shows_by(4, edition == right_in ? "sound" : "fault cache 0",
             mixed_tiles(edition == right_in ? 8160 : 8256));
}

static void mixed_stacks(void)
{
    group("heapimage: mixed links, right and stored otherwise");
    start_mixed_stacks();
    shows_by(4, "sound", mixed_tiles(8160));
    /* older images have no mixed links: behind each head there is no chunk */
    for (unsigned version = 1; version <= 3; version++)
        shows_by(version, edition == 1 ? "sound" : "fault cache 0",
                 mixed_tiles(edition == 1 ? 8160 : 8352));
    mixed_in_the_middle(8224, 1);
    mixed_in_the_middle(8226, 2);
    mixed_in_the_middle(8225, 3);
    mixed_in_the_middle(8224 ^ 8256, 3);
    mixed_in_the_middle(PLAIN_NONE64, 3);
    mixed_in_the_middle(PLAIN_NONE64 - 2, 3);
    put_link(8256, edition == 2 ? 8226 : 8224);
    put_link(8160, PLAIN_NONE64);
    shows_by(4, edition == 1 ? "sound" : "fault cache 0", mixed_tiles(8160));
    put_link(8160, PLAIN_NONE64 - 1);
    shows_by(4, edition == 2 ? "sound" : "fault cache 0", mixed_tiles(8160));
    put_link(8160, PLAIN_NONE64 - 2);
    shows_by(4, "fault cache 0", mixed_tiles(8160));
    put_link(8160, edition == 2 ? PLAIN_NONE64 - 1 : PLAIN_NONE64);
    put_link(8384, edition == 2 ? PLAIN_NONE64 : PLAIN_NONE64 - 2);
    shows_by(4, "fault fast 0", mixed_tiles(8160));
    put_link(8384, edition == 2 ? PLAIN_NONE64 - 2 : PLAIN_NONE64);
    shows_by(4, "sound", mixed_tiles(8160));
    plain_put_edition(heap.record, 3 - edition);
    shows_by(4, "fault cache 0", mixed_tiles(8352));
    plain_put_edition(heap.record, 3);
    shows_by(4, "fault record", "");
    stop();
}

static void unsorted_order(void)
{
    group("heapimage: unsorted has no order, a fault ends no other walk");
    start_bins();
    put_word(plain_bin_first(64), PLAIN_NONE32);
    put_word(plain_bin_last(64), PLAIN_NONE32);
    put_word(plain_bin_first(1), 0);
    put_word(plain_bin_last(1), 2192);
    link_by_offset();
    put_skips(0, PLAIN_NONE64, PLAIN_NONE64);
    put_skips(1088, PLAIN_NONE64, PLAIN_NONE64);
    shows("sound", bin_tiles("bin 1", "bin 1", "bin 1", "bin 65"));
    put_word(plain_cache_head(0), 8); /* the first list, a bin and a flag */
    put_link(1088, 8);
    put_word(plain_fast_head(9), 0);
    plain_put(heap.arena + 1056 + 8, 8, 33);
    shows("fault cache 0", bin_tiles("bin 1", "bin 1", "live", "bin 65"));
    stop();
}

static void other_faults(void)
{
    group("heapimage: a flag, a tile, the record");
    start_bins();
    plain_put(heap.arena + 2160 + 8, 8, 33);
    shows("fault flag 2160", as_built());
    plain_put(heap.arena + 2160 + 8, 8, 32);
    plain_put(heap.arena + 3248, 8, 1072);
    shows("fault flag 3248", as_built());
    plain_put(heap.arena + 3248, 8, 1056);
    put_word(1, 4416); /* the top is named wrongly */
    shows("fault tile 4448", "");
    plain_put(heap.arena + 1056 + 8, 8, 35);
    shows("fault tile 1056", "");
    put_word(0, 4096);
    shows("fault record", "");
    stop();
}

/* The top, which is of a size that the lists own. */
static void top_in_a_list(void)
{
    static const char tiles[] = "0 32 live\n32 32 top\n";

    group("heapimage: the top in a list");
    start(64);
    grants(24, 16, 24);
    put_word(plain_cache_head(0), 32);
    put_word(plain_cache_count(0), 1);
    put_link(32, PLAIN_NONE64);
    put_back_link(32, PLAIN_NONE64);
    shows("fault cache 0", tiles);
    put_word(plain_cache_head(0), PLAIN_NONE32);
    put_word(plain_cache_count(0), 0);
    put_word(plain_fast_head(0), 32);
    shows("fault fast 0", tiles);
    put_word(plain_fast_head(0), PLAIN_NONE32);
    for (unsigned bin = 1; bin <= 2; bin++) {
        put_word(plain_bin_first(bin), 32);
        put_word(plain_bin_last(bin), 32);
        shows(bin == 1 ? "fault bin 1" : "fault bin 2", tiles);
        put_word(plain_bin_first(bin), PLAIN_NONE32);
        put_word(plain_bin_last(bin), PLAIN_NONE32);
    }
    shows("sound", tiles);
    stop();
}

/* One binned chunk of that size, a live one behind it, the top. */
static void shows_bin(uint32_t size, unsigned bin)
{
    char tiles[128];

    start(262144);
    plain_put(heap.arena + 8, 8, size + 1);
    put_link(0, PLAIN_NONE64);
    put_back_link(0, PLAIN_NONE64);
    if (size >= 1024)
        put_skips(0, bin == 1 ? PLAIN_NONE64 : 0, bin == 1 ? PLAIN_NONE64 : 0);
    plain_put(heap.arena + size, 8, size);
    plain_put(heap.arena + size + 8, 8, 32);
    plain_put(heap.arena + size + 32 + 8, 8, 262144 - size - 32 + 1);
    put_word(1, size + 32);
    put_word(plain_bin_first(bin), 0);
    put_word(plain_bin_last(bin), 0);
    snprintf(tiles, sizeof tiles, "0 %u bin %u\n%u 32 live\n%u %u top\n", size,
             bin, size, size + 32, 262144 - size - 32);
    shows("sound", tiles);
    stop();
}

static void bin_figures(void)
{
    static const uint32_t figure[][2] = {
        { 32, 2 },      { 144, 9 },       { 1008, 63 },     { 1024, 64 },
        { 3120, 96 },   { 3136, 97 },     { 10736, 111 },   { 10752, 112 },
        { 45040, 120 }, { 45056, 120 },   { 163824, 123 },  { 163840, 124 },
        { 65536, 121 }, { 131072, 123 },  { 262080, 124 }
    };

    group("heapimage: the bins of the boundary figures, and bin 1 for any");
    for (unsigned i = 0; i < sizeof figure / sizeof figure[0]; i++) {
        shows_bin(figure[i][0], figure[i][1]);
        shows_bin(figure[i][0], 1);
    }
}

/* ---- the states of random heaps ---- */

static unsigned list_of(const struct second_tile *t)
{
    switch (t->state) {
    case SECOND_IS_LIVE: return ORACLE_LIVE;
    case SECOND_IS_CACHED: return t->number;
    case SECOND_IS_FAST: return 64 + t->number;
    case SECOND_IS_BINNED: return 73 + t->number;
    default: return ORACLE_TOP;
    }
}

static struct second_tile tile[SECOND_TILES_MAX];

static void same_as_plain(const struct lent *l, uint32_t tiles, uint64_t seed)
{
    static struct plain_view view;

    plain_read(&view, l->arena, (uint32_t)l->length, l->record);
    CHECK(view.tiles == tiles, "seed %llu: %u tiles, not %u",
          (unsigned long long)seed, tiles, view.tiles);
    for (uint32_t i = 0; i < tiles && !group_failed(); i++)
        CHECK(tile[i].offset == view.tile[i].at
                  && tile[i].size == view.tile[i].size
                  && (unsigned)tile[i].state == (unsigned)view.tile[i].state,
              "seed %llu: tile %u differs", (unsigned long long)seed,
              view.tile[i].at);
}

static void same_as_slow(const struct lent *l, unsigned version,
                         uint32_t tiles, uint64_t seed)
{
    static unsigned list[PLAIN_TILES_MAX + 1];

    size_t slow = oracle_reached(l->arena, l->length, l->record, version, list);
    CHECK(slow == tiles, "seed %llu: %u tiles, not %zu",
          (unsigned long long)seed, tiles, slow);
    for (uint32_t i = 0; i < tiles && !group_failed(); i++)
        CHECK(list_of(&tile[i]) == list[i],
              "seed %llu: the tile at %u is in list %u, by the slow walk in "
              "%u",
              (unsigned long long)seed, tile[i].offset, list_of(&tile[i]),
              list[i]);
}

/* A sound heap, one that breaks a rule throughout, and damage to either. */
static struct lent random_harmed(struct random *r)
{
    struct lent l = lend(random_chance(r, 70) ? 8192 + 16 * random_below(r, 512)
                                              : random_length(r, 16384),
                         0);
    uint32_t length = (uint32_t)l.length;

    flawed_heap(r, random_chance(r, 60) ? FLAW_NONE
                                        : 1 + random_below(r, FLAW_COUNT - 1),
                l.arena, length, l.record);
    switch (random_below(r, 9)) {
    case 0: break;
    case 1: damage_bytes(r, l.arena, length, l.record); break;
    case 2: damage_field(r, l.arena, length, l.record); break;
    case 3: plain_put_key(l.record, random_key(r)); break;
    case 4: damage_skip(r, l.arena, l.record); break;
    case 5:
        plain_put_edition(l.record, random_edition(r));
        break;
    default: damage_lists(r, l.arena, length, l.record);
    }
    return l;
}

static void random_states(uint32_t rounds)
{
    uint64_t sound = 0, unsound = 0, state[5] = { 0 };

    group("heapimage: the states of random heaps are those of a slow walk");
    for (uint64_t seed = 1; seed <= rounds && !group_failed(); seed++) {
        struct random r = { seed << 24 };
        struct lent l = random_harmed(&r);
        unsigned version = random_chance(&r, 60)
            ? NEWEST : 1 + random_below(&r, NEWEST - 1);
        if (version < NEWEST)
            plain_put_edition(l.record, 1);
        struct second_fault f = lent_audit_by(&l, version);
        if (f.kind != SECOND_RECORD && f.kind != SECOND_TILE) {
            uint32_t tiles = second_tiles(l.arena, (uint32_t)l.length,
                                          l.record, version, tile);
            same_as_slow(&l, version, tiles, seed);
            if (f.kind == SECOND_SOUND)
                same_as_plain(&l, tiles, seed);
            *(f.kind == SECOND_SOUND ? &sound : &unsound) += 1;
            for (uint32_t i = 0; i < tiles; i++)
                state[tile[i].state]++;
        }
        give_back(&l);
    }
    remark(", %llu sound, %llu not; %llu live, %llu cached, %llu fast, "
           "%llu binned",
           (unsigned long long)sound, (unsigned long long)unsound,
           (unsigned long long)state[SECOND_IS_LIVE],
           (unsigned long long)state[SECOND_IS_CACHED],
           (unsigned long long)state[SECOND_IS_FAST],
           (unsigned long long)state[SECOND_IS_BINNED]);
    CHECK(sound > rounds / 20 && unsound > rounds / 4,
          "only %llu sound heaps and %llu others were met",
          (unsigned long long)sound, (unsigned long long)unsound);
}

static void traces(void)
{
    smallest_image();
    larger_images();
    refused_writes();
    of_each_version("image: every header byte, damaged in every way, is "
                    "refused, but 2 and 3 for each other", damaged_headers);
    of_each_version("image: every length but the whole file's is refused",
                    short_files);
    of_each_version("image: lengths that are off by 1, 4, 8 and 16 are "
                    "refused with 1", wrong_lengths);
    of_each_version("image: length fields that no arena has are refused "
                    "with 1", no_arena_lengths);
    of_each_version("image: versions other than 1 to 4 are refused with 7, "
                    "before any length", unknown_versions);
    of_each_version("image: 6 comes before 7, and 7 before 1",
                    order_of_refusals);
    of_each_version("image: the skip links that a heap gets where it is read",
                    old_rings);
    edition_in_image();
    of_each_version("heapimage: a refusal is one line", prints_refusals);
    stack_bad_links();
    stacks_that_cross();
    stack_circles();
    wrong_keys();
    old_and_unsound();
    eighth_cached();
    wrong_counts();
    stack_wrong_sizes();
    bin_bad_links();
    wrong_back_links();
    wrong_lasts();
    wrong_order();
    bins_that_cross();
    wrong_skips();
    unsorted_order();
    other_faults();
    top_in_a_list();
    bin_figures();
    mixed_stacks();
}

int main(int argc, char **argv)
{
    uint32_t share = share_of(argc, argv);

    in_both_editions(traces);
    sound_images(5000 / share);
    old_sound_images("image: sound heaps of version 1 get the key 0, skip "
                     "links and edition 1, and nothing else", 1, 5000 / share);
    old_sound_images("image: sound heaps of version 2 get skip links and "
                     "edition 1, and nothing else", 2, 5000 / share);
    old_sound_images("image: sound heaps of version 3 get edition 1, and "
                     "nothing else", 3, 5000 / share);
    damaged_images("image: damaged heaps are read back as they were, with "
                   "their fault", 4, 8000 / share);
    damaged_images("image: damaged heaps of version 1 are copied, with their "
                   "fault", 1, 8000 / share);
    damaged_images("image: damaged heaps of version 2 are copied, with their "
                   "fault", 2, 8000 / share);
    damaged_images("image: damaged heaps of version 3 are copied, with their "
                   "fault", 3, 8000 / share);
    any_files(40000 / share);
    random_states(20000 / share);
    return finish();
}
