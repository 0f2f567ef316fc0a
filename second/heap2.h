/*
 * The second program: document 01's heap in plain C, with requests (i), (vi),
 * (vii), (viii), (x) and (xi) of document 02, written from the documents alone,
 * so that another implementation can be held against it.
 *
 * Each call works on an arena (lent bytes) and its control record (1,584
 * bytes: 393 little-endian words, the key and the edition). The two buffers
 * must not overlap; neither needs any alignment. Nothing is kept between calls.
 */
#ifndef HEAP2_H
#define HEAP2_H

#include <stddef.h>
#include <stdint.h>

/*
 * no: 0, or the refusal's number. mem and usable are those of the block that
 * a grant or a resize leaves, else 0.
 */
struct second_answer {
    uint32_t no, mem, usable;
};

/* What an audit found; no is 0, or 1 when the buffers have a bad shape. */
struct second_fault {
    uint32_t no, kind, number;
};

/* The kinds of fault; number is the list's number, or the offset. */
enum second_kind {
    SECOND_SOUND,
    SECOND_RECORD,
    SECOND_TILE,
    SECOND_CACHE,
    SECOND_FAST,
    SECOND_BIN,
    SECOND_FLAG
};

/*
 * The key may be any number; it then stands in every cached chunk. Edition 1
 * stores the links of cache and fast lists as they are, edition 2 mixed.
 */
struct second_answer second_open(uint8_t *arena, size_t arena_len,
                                 uint8_t *record, size_t record_len,
                                 uint64_t key, uint32_t edition);
struct second_answer second_grant(uint8_t *arena, size_t arena_len,
                                  uint8_t *record, size_t record_len,
                                  uint64_t n);
struct second_answer second_release(uint8_t *arena, size_t arena_len,
                                    uint8_t *record, size_t record_len,
                                    uint64_t mem);
/* Null is granted; a live block of new length 0 is released. */
struct second_answer second_resize(uint8_t *arena, size_t arena_len,
                                   uint8_t *record, size_t record_len,
                                   uint64_t mem, uint64_t n);
/* The cache lists to the fast lists, or joined. */
struct second_answer second_emptying(uint8_t *arena, size_t arena_len,
                                     uint8_t *record, size_t record_len);
/* The fast lists joined, the last remainder cleared. */
struct second_answer second_joining(uint8_t *arena, size_t arena_len,
                                    uint8_t *record, size_t record_len);
struct second_fault second_audit(const uint8_t *arena, size_t arena_len,
                                 const uint8_t *record, size_t record_len);
/*
 * The same by the rules of images of that version: 1 asks no chunk its key or
 * its skip links, 2 the key alone, 3 both; 4, today's, asks the record its
 * edition too and goes by it, where the others take it for 1.
 */
struct second_fault second_audit_by(uint32_t version, const uint8_t *arena,
                                    size_t arena_len, const uint8_t *record,
                                    size_t record_len);

#endif
