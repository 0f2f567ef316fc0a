/*
 * A heap in a file: what the archive writes and reads against the second
 * program, and against what document 02 says outright. Every byte of file,
 * arena and record is compared, and each of them stands between guards. A heap
 * read in then goes on beside the one that was written, or, from an image of
 * version 1 to 3, beside the one that the second program has read.
 */
#define _DEFAULT_SOURCE
#include "groups.h"

#include <stdlib.h>
#include <string.h>
#include <sys/mman.h>

#include "guarded.h"
#include "holders.h"
#include "image2.h"
#include "plain.h"

#define HEADER 9u
#define RECORD 1584u
#define NEWEST 4u /* of the versions; this one is written */

/*
 * Where the arena stands in an image of that version: its record is without the
 * key in version 1, and without the edition in those up to 3.
 */
static size_t arena_at(uint64_t version)
{
    return HEADER + (version == 1 ? 1572 : version <= 3 ? 1580 : RECORD);
}

/* The lengths of the three buffers of a call. */
struct lengths {
    size_t file, arena, record;
};

static bool allowed(uint64_t length)
{
    return length >= 32 && length <= 262144 && length % 16 == 0;
}

/* ---- round trips ---- */

/* By document 02 alone. */
static bool is_image_of(const uint8_t *file, const struct lent *l)
{
    return memcmp(file, "HPI", 3) == 0 && plain_get(file + 3, 2) == NEWEST
        && plain_get(file + 5, 4) == l->length
        && memcmp(file + HEADER, l->record, RECORD) == 0
        && memcmp(file + arena_at(NEWEST), l->arena, l->length) == 0;
}

static struct lent between_guards(const struct guarded *arena,
                                  const struct guarded *record)
{
    return (struct lent){ arena->bytes, record->bytes, arena->length,
                          record->length };
}

/* Both programs write the heap of a pair; the archive's file. */
static struct guarded write_both(struct pair *p, size_t slack)
{
    size_t length = p->ours.length;
    struct guarded arena = guard(length, slack), record = guard(RECORD, slack);
    struct guarded file = guard(arena_at(NEWEST) + length, slack);
    struct lent source = between_guards(&arena, &record);
    uint8_t *theirs = memory(file.length);

    copy_lent(&source, &p->ours);
    random_bytes(&p->r, file.bytes, file.length);
    random_bytes(&p->r, theirs, file.length);
    struct second_answer a = write_ours(&source, file.bytes, file.length);
    struct second_answer b = second_write_image(
        p->theirs.arena, length, p->theirs.record, RECORD, theirs, file.length);
    tally.calls++;
    CHECK(same_answer(a, b) && a.no == 0 && a.mem == 0 && a.usable == 0,
          "seed %llu, arena of %zu: write_image answered %u %u %u, not 0 0 0",
          (unsigned long long)p->seed, length, a.no, a.mem, a.usable);
    CHECK(memcmp(file.bytes, theirs, file.length) == 0
              && is_image_of(file.bytes, &p->theirs),
          "seed %llu, arena of %zu: another file than the second program's",
          (unsigned long long)p->seed, length);
    CHECK(same_arena(&source, &p->theirs) && same_record(&source, &p->theirs),
          "seed %llu, arena of %zu: writing an image changed the heap",
          (unsigned long long)p->seed, length);
    CHECK(guard_kept(&arena) && guard_kept(&record) && guard_kept(&file),
          "seed %llu, arena of %zu: write_image wrote outside the buffers",
          (unsigned long long)p->seed, length);
    free(theirs);
    guard_free(&arena);
    guard_free(&record);
    return file;
}

/* Both read the file, and the pair goes on with what the archive read. */
static void read_both(struct pair *p, const struct guarded *file, size_t slack)
{
    size_t length = p->ours.length;
    struct guarded arena = guard(length, slack), record = guard(RECORD, slack);
    struct lent ours = between_guards(&arena, &record);
    struct lent theirs = lend(length, 0x33);
    struct second_fault audit = lent_audit(&p->theirs);

    random_bytes(&p->r, arena.bytes, length);
    random_bytes(&p->r, record.bytes, RECORD);
    struct second_fault f = read_ours(file->bytes, file->length, &ours);
    struct second_fault g =
        second_read_image(file->bytes, file->length, theirs.arena, length,
                          theirs.record, RECORD);
    tally.calls++;
    tally.faults[audit.kind]++;
    CHECK(same_fault(f, g) && same_fault(f, audit)
              && same_fault(f, audit_ours(&ours)),
          "seed %llu, arena of %zu: read_image answered %u %u %u, by the "
          "second program %u %u %u; the audit of what was written is %u %u %u",
          (unsigned long long)p->seed, length, f.no, f.kind, f.number, g.no,
          g.kind, g.number, audit.no, audit.kind, audit.number);
    CHECK(same_arena(&ours, &p->theirs) && same_record(&ours, &p->theirs)
              && same_arena(&ours, &theirs) && same_record(&ours, &theirs),
          "seed %llu, arena of %zu: the heap read in is not the one written",
          (unsigned long long)p->seed, length);
    CHECK(is_image_of(file->bytes, &p->theirs),
          "seed %llu, arena of %zu: reading an image changed the file",
          (unsigned long long)p->seed, length);
    CHECK(guard_kept(&arena) && guard_kept(&record) && guard_kept(file),
          "seed %llu, arena of %zu: read_image wrote outside the buffers",
          (unsigned long long)p->seed, length);
    copy_lent(&p->ours, &ours);
    give_back(&theirs);
    guard_free(&arena);
    guard_free(&record);
}

/* From here on the archive's heap of the pair is one that was read in. */
static void round_trip(struct pair *p)
{
    size_t slack = random_chance(&p->r, 50) ? 0 : random_below(&p->r, 40);
    struct guarded file = write_both(p, slack);
    if (!group_failed())
        read_both(p, &file, slack);
    guard_free(&file);
}

static struct pair random_pair(uint64_t seed)
{
    struct random r = { seed };
    uint32_t most = random_chance(&r, 3) ? 262144 : 8192;
    return pair_new(seed, r, random_length(&r, most));
}

void sound_images(uint32_t rounds)
{
    group("images of random sound heaps, and calls on what is read in");
    for (uint64_t i = 1; i <= rounds && !group_failed(); i++) {
        struct pair p = random_pair((10 << 20) + i);
        random_heap(&p.r, p.ours.arena, (uint32_t)p.ours.length,
                    p.ours.record);
        same_start(&p);
        round_trip(&p);
        CHECK(is_sound(&p.ours), "seed %llu: a sound heap is read in unsound",
              (unsigned long long)p.seed);
        calls_on_any(&p, 1 + random_below(&p.r, 6));
        pair_free(&p);
    }
}

void harm_lists(struct pair *p)
{
    random_heap(&p->r, p->ours.arena, (uint32_t)p->ours.length,
                p->ours.record);
    damage_lists(&p->r, p->ours.arena, (uint32_t)p->ours.length,
                 p->ours.record);
}

void harmed_images(const char *name, harm *do_harm, uint64_t seeds,
                   uint32_t rounds)
{
    uint64_t kinds[7] = { 0 };

    group(name);
    for (uint64_t i = 1; i <= rounds && !group_failed(); i++) {
        struct pair p = random_pair(seeds + i);
        do_harm(&p);
        same_start(&p);
        round_trip(&p);
        kinds[lent_audit(&p.theirs).kind]++;
        calls_on_any(&p, 1);
        pair_free(&p);
    }
    remark("; %llu sound, faults", (unsigned long long)kinds[0]);
    for (unsigned k = 1; k < 7; k++)
        remark(" %llu", (unsigned long long)kinds[k]);
}

/* Opened, used, stored, read in and used again, some times. */
void continued_images(uint32_t rounds)
{
    uint64_t before = tally.calls;

    group("heaps in use, read in now and then: calls go on as if not");
    for (uint64_t i = 1; i <= rounds && !group_failed(); i++) {
        uint64_t seed = (15 << 20) + i;
        struct random r = { seed };
        struct pair p = pair_new(seed, r, 1024 + 16 * random_below(&r, 1000));
        open_pair(&p);
        struct model m = model_of(p);
        for (unsigned k = 1; k <= 5 && !group_failed(); k++) {
            round_trip(&m.p);
            while (m.p.calls < 40 * k && !group_failed())
                random_call(&m);
        }
        model_free(&m);
    }
    remark(", %llu calls", (unsigned long long)(tally.calls - before));
}

/* ---- images of older versions ---- */

/* Put together here: nothing writes them any more. */
static struct guarded old_image_of(const struct lent *l, unsigned version,
                                   size_t slack)
{
    size_t at = arena_at(version);
    struct guarded file = guard(at + l->length, slack);

    memcpy(file.bytes, "HPI", 3);
    plain_put(file.bytes + 3, 2, version);
    plain_put(file.bytes + 5, 4, l->length);
    memcpy(file.bytes + HEADER, l->record, at - HEADER);
    memcpy(file.bytes + at, l->arena, l->length);
    return file;
}

/* Both read the pair's heap from such an image, and go on with that. */
static struct second_fault old_trip(struct pair *p, unsigned version)
{
    size_t length = p->ours.length, slack = random_below(&p->r, 40);
    struct second_fault audit = lent_audit_by(&p->theirs, version);
    struct lent expected = lend(length, 0);
    struct guarded file = old_image_of(&p->theirs, version, slack);
    struct guarded arena = guard(length, slack), record = guard(RECORD, slack);
    struct lent ours = between_guards(&arena, &record);

    copy_lent(&expected, &p->theirs);
    plain_from_old(expected.arena, (uint32_t)length, expected.record, version,
                   audit.kind == SECOND_SOUND);
    random_bytes(&p->r, arena.bytes, length);
    random_bytes(&p->r, record.bytes, RECORD);
    random_bytes(&p->r, p->theirs.record, RECORD);
    struct second_fault f = read_ours(file.bytes, file.length, &ours);
    struct second_fault g =
        second_read_image(file.bytes, file.length, p->theirs.arena, length,
                          p->theirs.record, RECORD);
    tally.calls++;
    tally.faults[audit.kind]++;
    CHECK(same_fault(f, g) && same_fault(f, audit),
          "seed %llu, arena of %zu: an image of version %u is answered %u %u "
          "%u, by the second program %u %u %u, by its audit %u %u %u",
          (unsigned long long)p->seed, length, version, f.no, f.kind, f.number,
          g.no, g.kind, g.number, audit.no, audit.kind, audit.number);
    CHECK(same_arena(&ours, &expected) && same_record(&ours, &expected)
              && same_arena(&ours, &p->theirs)
              && same_record(&ours, &p->theirs),
          "seed %llu, arena of %zu: an image of version %u is read otherwise",
          (unsigned long long)p->seed, length, version);
    CHECK(f.kind != SECOND_SOUND || is_sound(&ours),
          "seed %llu, arena of %zu: sound by version %u, and not when read in",
          (unsigned long long)p->seed, length, version);
    CHECK(guard_kept(&arena) && guard_kept(&record) && guard_kept(&file),
          "seed %llu, arena of %zu: read_image wrote outside the buffers",
          (unsigned long long)p->seed, length);
    copy_lent(&p->ours, &ours);
    guard_free(&file);
    guard_free(&arena);
    guard_free(&record);
    give_back(&expected);
    return f;
}

/* Sound but for what the version does not ask, which counts for nothing. */
void old_sound_images(const char *name, unsigned version, uint32_t rounds)
{
    uint64_t lacking = 0;

    group(name);
    for (uint64_t i = 1; i <= rounds && !group_failed(); i++) {
        struct pair p = random_pair((19 << 20) + i);
        random_heap(&p.r, p.ours.arena, (uint32_t)p.ours.length,
                    p.ours.record);
        plain_to_edition(p.ours.arena, p.ours.record, 1);
        if (version == 1 && i % 2 == 0)
            damage_key(&p.r, p.ours.arena, p.ours.record);
        for (uint32_t times = version < 3 ? random_below(&p.r, 6) : 0;
             times > 0; times--)
            damage_skip(&p.r, p.ours.arena, p.ours.record);
        if (i % 4 == 0)
            damage_edition(&p.r, p.ours.record); /* the file has none */
        lacking += !is_sound(&p.ours);
        same_start(&p);
        CHECK(old_trip(&p, version).kind == SECOND_SOUND,
              "seed %llu: a key, a skip link or an edition is asked of "
              "version %u",
              (unsigned long long)p.seed, version);
        round_trip(&p); /* and written in version 4 */
        calls_on_any(&p, 1 + random_below(&p.r, 6));
        pair_free(&p);
    }
    remark(", %llu with a wrong key, skip link or edition",
           (unsigned long long)lacking);
    CHECK(lacking > rounds / 20, "only %llu are not sound today",
          (unsigned long long)lacking);
}

void old_harmed_images(const char *name, unsigned version, uint32_t rounds)
{
    static harm *const harms[] = { harm_field, harm_lists, harm_bytes,
                                   harm_all };
    uint64_t kinds[7] = { 0 };

    group(name);
    for (uint64_t i = 1; i <= rounds && !group_failed(); i++) {
        struct pair p = random_pair((20 << 20) + i);
        harms[i % 4](&p);
        same_start(&p);
        kinds[old_trip(&p, version).kind]++;
        calls_on_any(&p, 1);
        pair_free(&p);
    }
    remark("; %llu sound, faults", (unsigned long long)kinds[0]);
    for (unsigned k = 1; k < 7; k++)
        remark(" %llu", (unsigned long long)kinds[k]);
}

/* ---- bytes ---- */

/* Every byte of a small one, as document 02 has them. */
void image_bytes(void)
{
    static const uint8_t header[HEADER] = { 'H', 'P', 'I', 4, 0,
                                            0x10, 0x02, 0, 0 };
    struct pair p = opened(700, 528);

    group("the bytes of an image of 528 bytes");
    struct guarded file = write_both(&p, 40);
    CHECK(memcmp(file.bytes, header, HEADER) == 0, "another header");
    for (unsigned i = 0; i < RECORD; i++)
        CHECK(file.bytes[9 + i] == p.theirs.record[i],
              "byte %u is not byte %u of the record", 9 + i, i);
    CHECK(plain_get(file.bytes + 1581, 8) == plain_key(p.theirs.record)
              && plain_get(file.bytes + 1589, 4)
                     == plain_edition(p.theirs.record),
          "key and edition do not stand before the arena");
    for (unsigned i = 0; i < 528; i++)
        CHECK(file.bytes[1593 + i] == p.theirs.arena[i],
              "byte %u is not byte %u of the arena", 1593 + i, i);
    read_both(&p, &file, 40);
    guard_free(&file);
    pair_free(&p);
}

/* ---- refusals ---- */

/* Room for the buffers of a call that is refused, and for slack behind. */
#define ROOM 6000
#define SLACK 3000

static struct {
    struct guarded file, arena, record;
} room;

static uint8_t image[ROOM]; /* of a newly opened arena of image_length */
static uint32_t image_length;
static size_t image_arena; /* where the arena stands in it */

static void make_image(unsigned version, uint32_t length)
{
    struct lent l = lend(length, 0x77);

    if (room.file.map == NULL) {
        room.file = guard(ROOM, 0);
        room.arena = guard(ROOM, 0);
        room.record = guard(ROOM, 0);
    }
    call_theirs(&l, OPEN, 0x1234567890abcdef, 1 + length / 16 % 2);
    memset(image, 0x66, sizeof image);
    image_length = length;
    image_arena = arena_at(version);
    memcpy(image, "HPI", 3);
    plain_put(image + 3, 2, version);
    plain_put(image + 5, 4, length);
    memcpy(image + HEADER, l.record, image_arena - HEADER);
    memcpy(image + image_arena, l.arena, length);
    give_back(&l);
}

static void make_room(struct lengths n, size_t slack)
{
    guard_again(&room.file, n.file, slack);
    guard_again(&room.arena, n.arena, slack);
    guard_again(&room.record, n.record, slack);
    memcpy(room.file.bytes, image, n.file);
    memset(room.arena.bytes, 1, n.arena);
    memset(room.record.bytes, 2, n.record);
}

static bool all_are(const struct guarded *g, uint8_t value)
{
    for (size_t i = 0; i < g->length; i++)
        if (g->bytes[i] != value)
            return false;
    return true;
}

static bool room_kept(void)
{
    return guard_kept(&room.file) && guard_kept(&room.arena)
        && guard_kept(&room.record);
}

/* The refusals of document 02, in its order. */
static uint32_t reading_no(struct lengths n)
{
    if (n.file < 5 || memcmp(image, "HPI", 3) != 0)
        return 6;
    uint64_t version = plain_get(image + 3, 2);
    if (version < 1 || version > NEWEST)
        return 7;
    uint64_t length = plain_get(image + 5, 4);
    bool agree = n.file >= HEADER && allowed(length)
        && n.file == arena_at(version) + length && n.arena == length
        && n.record == RECORD;
    return agree ? 0 : 1;
}

/* What the second program answers, and leaves, of the same bytes. */
static struct second_fault read_theirs(struct lengths n, struct lent *l)
{
    *l = (struct lent){ memory(n.arena), memory(n.record), n.arena, n.record };
    memset(l->arena, 1, n.arena);
    memset(l->record, 2, n.record);
    return second_read_image(image, n.file, l->arena, n.arena, l->record,
                             n.record);
}

static void try_read_in(struct lengths n, size_t slack)
{
    struct lent ours, theirs;
    uint32_t no = reading_no(n);

    make_room(n, slack);
    ours = between_guards(&room.arena, &room.record);
    struct second_fault f = read_ours(room.file.bytes, n.file, &ours);
    struct second_fault g = read_theirs(n, &theirs);
    tally.calls++;
    tally.refused[no]++;
    CHECK(f.no == no && same_fault(f, g),
          "a file of %zu bytes, to %zu and %zu, is answered %u %u %u, by the "
          "second program %u %u %u, by document 02 %u",
          n.file, n.arena, n.record, f.no, f.kind, f.number, g.no, g.kind,
          g.number, no);
    CHECK(no == 0 || (f.kind == 0 && f.number == 0 && all_are(&room.arena, 1)
                      && all_are(&room.record, 2)),
          "a file of %zu bytes, to %zu and %zu, is refused, but something is "
          "written",
          n.file, n.arena, n.record);
    CHECK(memcmp(ours.arena, theirs.arena, n.arena) == 0
              && memcmp(ours.record, theirs.record, n.record) == 0
              && memcmp(room.file.bytes, image, n.file) == 0,
          "a file of %zu bytes, to %zu and %zu, leaves other bytes than by "
          "the second program",
          n.file, n.arena, n.record);
    CHECK(room_kept(),
          "a file of %zu bytes, to %zu and %zu: written outside the buffers",
          n.file, n.arena, n.record);
    give_back(&theirs);
}

/*
 * With bytes that may be touched behind the buffers, so that an answer tells
 * of what should not have been read; then with none.
 */
static void try_read(size_t file_len, size_t length, size_t record_len)
{
    struct lengths n = { file_len, length, record_len };
    try_read_in(n, SLACK);
    if (!group_failed())
        try_read_in(n, 0);
}

static void put_field(uint32_t length)
{
    plain_put(image + 5, 4, length);
}

static void damaged_headers(unsigned version, uint32_t length)
{
    make_image(version, length);
    try_read(image_arena + length, length, RECORD);
    for (unsigned i = 0; i < HEADER; i++) {
        uint8_t right = image[i];
        for (unsigned flip = 1; flip < 256 && !group_failed(); flip++) {
            image[i] = right ^ (uint8_t)flip;
            try_read(image_arena + length, length, RECORD);
        }
        image[i] = right;
    }
}

void image_headers(void)
{
    group("images with every header byte damaged in every way");
    for (unsigned version = 1; version <= NEWEST; version++)
        for (uint32_t length = 32; length <= 48; length += 16)
            damaged_headers(version, length);
}

/* Also with a wrong version, a wrong mark, and both. */
static void short_files(unsigned version)
{
    make_image(version, 32);
    for (size_t length = 0; length <= image_arena + 32 + 40; length++)
        for (unsigned wrong = 0; wrong < 4 && !group_failed(); wrong++) {
            image[0] = wrong & 1 ? 'h' : 'H';
            image[4] = wrong & 2 ? 1 : 0;
            try_read(length, 32, RECORD);
        }
}

void image_short_files(void)
{
    group("all files that are shorter than their image, or longer");
    for (unsigned version = 1; version <= NEWEST; version++)
        short_files(version);
}

/* Of the file, of its field, of arena and record: one or several of them. */
static void wrong_lengths(unsigned version)
{
    static const int off[] = { 0, -16, -8, -4, -1, 1, 4, 8, 16 };

    make_image(version, 256);
    for (unsigned i = 0; i < 9 * 9 * 9 * 9 && !group_failed(); i++) {
        put_field(256 + (uint32_t)off[i % 9]);
        try_read(image_arena + 256 + (size_t)off[i / 9 % 9],
                 256 + (size_t)off[i / 81 % 9],
                 RECORD + (size_t)off[i / 729]);
    }
    put_field(256);
    try_read(image_arena + 256, 0, RECORD);
    try_read(image_arena + 256, 256, 0);
    try_read(image_arena + 256, 0, 0);
    for (size_t record_len = 1568; record_len <= 1600; record_len += 4)
        try_read(image_arena + 256, 256, record_len);
}

void image_lengths(void)
{
    group("lengths of file, field, arena and record, off by 1, 4, 8 and 16");
    for (unsigned version = 1; version <= NEWEST; version++)
        wrong_lengths(version);
    wrong_lengths(5); /* which is not known, and comes before any length */
}

/* The field says something else than file and arena, which agree. */
static void wrong_fields(unsigned version)
{
    static const uint32_t field[] = {
        0, 1, 15, 16, 17, 31, 33, 40, 48, 64, 80, 256, 4096, 65536, 65568,
        262112, 262128, 262143, 262144, 262145, 262152, 262160, 262176, 524288,
        0x00100020, 0x01000020, 0x20000000, 0x7fffffff, 0x80000000, 0x80000020,
        0xfffffff0, 0xffffffff,
        0u - 1581,      /* the whole file wraps to 0 in 32 bits, */
        0u - 1589,
        0u - 1593,
        0u - 1581 + 32, /* to 32, */
        0u - 1589 + 32,
        0u - 1593 + 32,
        0u - 1568       /* to 13, 21 or 25 */
    };
    static const size_t file_len[] = { 9, 10, 13, 32, 1580, 1581, 1588, 1589,
                                       1592, 1593, 1597, 1605, 1613, 1614, 1621,
                                       1622, 1625, 1626, 1629, 1637, 1641, 1645,
                                       1653, 2000 };

    make_image(version, 32);
    for (unsigned i = 0; i < sizeof field / sizeof field[0]; i++) {
        put_field(field[i]);
        for (unsigned k = 0; k < sizeof file_len / sizeof file_len[0]; k++) {
            size_t n = file_len[k];
            if (group_failed())
                return;
            try_read(n, 32, RECORD);
            try_read(n, n < image_arena ? 0 : n - image_arena, RECORD);
            try_read(n, field[i] < 2000 ? field[i] : 0, RECORD);
        }
    }
}

void image_fields(void)
{
    group("length fields that are not the file's, up to 4,294,967,295");
    for (unsigned version = 1; version <= NEWEST; version++)
        wrong_fields(version);
}

/* None but 1 to 4, in files as long as an image of any of them. */
void image_versions(void)
{
    group("versions that are not known are refused with 7");
    for (unsigned version = 1; version <= NEWEST; version++) {
        make_image(version, 64);
        for (uint32_t other = 0; other < 65536 && !group_failed();
             other += other < 600 ? 1 : 251) {
            plain_put(image + 3, 2, other);
            try_read(image_arena + 64, 64, RECORD);
        }
    }
}

static void try_write_in(struct lengths n, size_t slack)
{
    uint32_t no = allowed(n.arena) && n.record == RECORD
            && n.file == arena_at(NEWEST) + n.arena ? 0 : 1;
    uint8_t *theirs = memory(n.file);

    make_room(n, slack);
    memcpy(theirs, image, n.file);
    struct lent heap = between_guards(&room.arena, &room.record);
    struct second_answer a = write_ours(&heap, room.file.bytes, n.file);
    struct second_answer b = second_write_image(
        heap.arena, n.arena, heap.record, n.record, theirs, n.file);
    tally.calls++;
    tally.refused[no]++;
    CHECK(a.no == no && a.mem == 0 && a.usable == 0 && same_answer(a, b),
          "an arena of %zu and a record of %zu, to a file of %zu, is answered "
          "%u %u %u, by the second program %u %u %u, by document 02 %u",
          n.arena, n.record, n.file, a.no, a.mem, a.usable, b.no, b.mem,
          b.usable, no);
    CHECK(no == 0 ? is_image_of(room.file.bytes, &heap)
                  : memcmp(room.file.bytes, image, n.file) == 0,
          "an arena of %zu and a record of %zu leave another file of %zu",
          n.arena, n.record, n.file);
    CHECK(memcmp(room.file.bytes, theirs, n.file) == 0,
          "an arena of %zu and a record of %zu leave another file of %zu than "
          "by the second program",
          n.arena, n.record, n.file);
    CHECK(all_are(&room.arena, 1) && all_are(&room.record, 2) && room_kept(),
          "an arena of %zu and a record of %zu, to a file of %zu: written in "
          "the heap, or outside the buffers",
          n.arena, n.record, n.file);
    free(theirs);
}

static void try_write(size_t length, size_t record_len, size_t file_len)
{
    struct lengths n = { file_len, length, record_len };
    try_write_in(n, SLACK);
    if (!group_failed())
        try_write_in(n, 0);
}

void image_writes(void)
{
    static const size_t length[] = { 0,  1,  15, 16, 17, 31,  32,  33,  40,
                                     47, 48, 49, 64, 80, 256, 264, 512, 1000 };
    static const size_t record_len[] = { 0,    1,    1568, 1572, 1576, 1580,
                                         1583, 1584, 1585, 1588, 1592, 1600 };
    static const int off[] = { 0, -1593, -1584, -16, -9, -8, -4, -1,
                               1, 4,     8,     9,   16, 32 };

    group("images written to and from buffers of any length");
    make_image(NEWEST, 32);
    for (unsigned i = 0; i < sizeof length / sizeof length[0]; i++)
        for (unsigned k = 0; k < sizeof record_len / sizeof record_len[0]; k++)
            for (unsigned j = 0; j < sizeof off / sizeof off[0]; j++) {
                if (group_failed())
                    return;
                try_write(length[i], record_len[k],
                          image_arena + length[i] + (size_t)off[j]);
                try_write(length[i], record_len[k],
                          HEADER + record_len[k] + length[i]);
            }
    for (size_t n = 0; n < image_arena + 32 + 40 && !group_failed(); n++)
        try_write(32, RECORD, n);
}

/* ---- lengths past 32 bits ---- */

/*
 * One of the buffers is far longer than it may be, and lies in memory that
 * nobody may touch, but for the first bytes of a file that is read.
 */
static void far_buffers(uint8_t *far, size_t past)
{
    size_t whole = image_arena + image_length;
    struct lent near = lend(image_length, 1);
    struct lent arena = { far, near.record, past + image_length, RECORD };
    struct lent record = { near.arena, far, image_length, past + RECORD };
    static uint8_t file[ROOM];

    memcpy(file, image, whole);
    CHECK(write_ours(&arena, file, whole).no == 1
              && write_ours(&arena, file, past + whole).no == 1
              && write_ours(&record, file, whole).no == 1
              && write_ours(&near, far, past + whole).no == 1,
          "write_image of a length past 32 bits is not refused with 1");
    CHECK(read_ours(file, whole, &arena).no == 1
              && read_ours(file, whole, &record).no == 1,
          "read_image to a length past 32 bits is not refused with 1");
    CHECK(memcmp(file, image, whole) == 0, "a refused write_image wrote");
    mprotect(far, ROOM, PROT_READ | PROT_WRITE);
    memcpy(far, image, whole);
    CHECK(read_ours(far, past + whole, &near).no == 1,
          "read_image of a length past 32 bits is not refused with 1");
    CHECK(memcmp(far, image, whole) == 0
              && near.arena[0] == 1 && near.record[0] == 1,
          "a refused read_image wrote");
    tally.calls += 7;
    tally.refused[1] += 7;
    give_back(&near);
}

void images_past_32_bits(void)
{
    size_t past = (size_t)1 << 32, most = past + 262144;
    uint8_t *far = mmap(NULL, most, PROT_NONE,
                        MAP_PRIVATE | MAP_ANONYMOUS | MAP_NORESERVE, -1, 0);

    group("images with lengths past 32 bits are refused with 1");
    if (far == MAP_FAILED) {
        remark(", left out: the system lends no such stretch");
        return;
    }
    for (unsigned version = 1; version <= NEWEST; version++) {
        mprotect(far, ROOM, PROT_NONE);
        make_image(version, 64);
        far_buffers(far, past);
    }
    munmap(far, most);
}
