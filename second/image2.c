/*
 * Images. What a file is refused for is asked in the order of the numbers 6, 7
 * and 1, and nothing is written before the last of it is known.
 */
#include "image2.h"

#include <stdbool.h>

#include "layout2.h"

enum refusal { DONE = 0, BAD_LENGTH = 1, BAD_MARK = 6, BAD_VERSION = 7 };

static const uint8_t mark[IMAGE_VERSION - IMAGE_MARK] = { 'H', 'P', 'I' };

struct second_answer second_write_image(const uint8_t *arena, size_t arena_len,
                                        const uint8_t *record,
                                        size_t record_len, uint8_t *file,
                                        size_t file_len)
{
    if (!arena_allowed(arena_len) || record_len != RECORD_BYTES
        || file_len != arena_at(NEWEST) + arena_len)
        return (struct second_answer){ BAD_LENGTH, 0, 0 };

    memcpy(file + IMAGE_MARK, mark, sizeof mark);
    version_put(file, NEWEST);
    length_put(file, (uint32_t)arena_len);
    memcpy(file + IMAGE_RECORD, record, RECORD_BYTES);
    memcpy(file + arena_at(NEWEST), arena, arena_len);
    return (struct second_answer){ DONE, 0, 0 };
}

size_t second_arena_in(const uint8_t *file, size_t file_len)
{
    if (file_len < IMAGE_RECORD || !version_known(version_get(file)))
        return 0;
    size_t at = arena_at(version_get(file));
    return file_len < at || file_len - at > ARENA_MAX ? 0 : file_len - at;
}

/* A file without a whole length field has none that is allowed. */
static bool lengths_agree(const uint8_t *file, size_t file_len,
                          size_t arena_len, size_t record_len)
{
    if (file_len < IMAGE_RECORD)
        return false;
    uint32_t length = length_get(file);
    return arena_allowed(length)
        && file_len == arena_at(version_get(file)) + (size_t)length
        && arena_len == length && record_len == RECORD_BYTES;
}

static enum refusal refusal_of(const uint8_t *file, size_t file_len,
                               size_t arena_len, size_t record_len)
{
    if (file_len < IMAGE_LENGTH
        || memcmp(file + IMAGE_MARK, mark, sizeof mark) != 0)
        return BAD_MARK;
    if (!version_known(version_get(file)))
        return BAD_VERSION;
    if (!lengths_agree(file, file_len, arena_len, record_len))
        return BAD_LENGTH;
    return DONE;
}

/*
 * ---- what an older heap lacks ----
 * Of a sound heap, so that every link is one or none; cut to 32 bits it is.
 */

/* In a bin. */
static uint32_t behind(const uint8_t *arena, uint32_t c)
{
    return (uint32_t)field_get(arena, c, FORWARD);
}

static uint64_t size_at(const uint8_t *arena, uint32_t c)
{
    return field_get(arena, c, SIZE_WORD) & ~(uint64_t)15;
}

static void write_keys(uint8_t *arena, const uint8_t *record)
{
    uint32_t edition = word_get(record, EDITION);
    for (unsigned k = 0; k < CACHE_LISTS; k++) {
        uint32_t c = word_get(record, CACHE_HEAD + k);
        for (; c != NONE; c = (uint32_t)stack_link_get(arena, edition, c))
            field_put(arena, c, CACHE_KEY, key_get(record));
    }
}

/* All ones in every chunk that holds skip links. */
static void write_no_skips(uint8_t *arena, uint32_t c)
{
    for (; c != NONE; c = behind(arena, c)) {
        if (size_at(arena, c) < LARGE_MIN)
            continue;
        field_put(arena, c, SKIP_FORWARD, LINK_NONE);
        field_put(arena, c, SKIP_BACK, LINK_NONE);
    }
}

static void write_skip(uint8_t *arena, uint32_t from, uint32_t to)
{
    field_put(arena, from, SKIP_FORWARD, to);
    field_put(arena, to, SKIP_BACK, from);
}

/* A chunk of another size than the one before it is its group's first. */
static void write_ring(uint8_t *arena, uint32_t first)
{
    uint32_t of_group = first;

    write_no_skips(arena, first);
    for (uint32_t c = first; c != NONE; c = behind(arena, c))
        if (size_at(arena, c) != size_at(arena, of_group)) {
            write_skip(arena, of_group, c);
            of_group = c;
        }
    if (first != NONE)
        write_skip(arena, of_group, first);
}

static void write_skips(uint8_t *arena, const uint8_t *record)
{
    write_no_skips(arena, word_get(record, BIN_FIRST + 2 * UNSORTED));
    for (unsigned bin = FIRST_LARGE_BIN; bin <= BINS; bin++)
        write_ring(arena, word_get(record, BIN_FIRST + 2 * bin));
}

static void complete(uint8_t *arena, const uint8_t *record, uint32_t version)
{
    if (version < WITH_KEYS)
        write_keys(arena, record);
    if (version < WITH_SKIPS)
        write_skips(arena, record);
}

/* ---- reading ---- */

/* The heap as it stands in the file; where that has none, key 0, edition 1. */
static void copy_heap(const uint8_t *file, uint8_t *arena, size_t arena_len,
                      uint8_t *record)
{
    uint32_t version = version_get(file);
    memcpy(record, file + IMAGE_RECORD, record_bytes(version));
    if (version < WITH_KEYS)
        key_put(record, 0);
    if (version < WITH_EDITIONS)
        word_put(record, EDITION, LINKS_PLAIN);
    memcpy(arena, file + arena_at(version), arena_len);
}

struct second_fault second_read_image(const uint8_t *file, size_t file_len,
                                      uint8_t *arena, size_t arena_len,
                                      uint8_t *record, size_t record_len)
{
    enum refusal no = refusal_of(file, file_len, arena_len, record_len);
    if (no != DONE)
        return (struct second_fault){ no, 0, 0 };

    copy_heap(file, arena, arena_len, record);
    uint32_t version = version_get(file);
    struct second_fault f =
        second_audit_by(version, arena, arena_len, record, record_len);
    if (f.kind == SECOND_SOUND)
        complete(arena, record, version);
    return f;
}
