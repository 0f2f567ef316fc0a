/*
 * Mending what the audit finds: document 02's request (ix), for the heaps of
 * heap2.h. The two buffers must not overlap, and neither needs any alignment.
 */
#ifndef REPAIR2_H
#define REPAIR2_H

#include "heap2.h"

/*
 * Leaves a sound heap as it is. Of any other, what the lists reach up to their
 * first bad chunks is free and joined, all else but the top is held; what is
 * free then and not the top's is in unsorted, the lowest first. The heap is
 * sound behind that, and held blocks keep their usable bytes. Refused: 1 for
 * the shape, 11 for a fault of the record or of a tile; nothing is then
 * written.
 */
struct second_answer second_repair(uint8_t *arena, size_t arena_len,
                                   uint8_t *record, size_t record_len);
/*
 * The same by the rules of images of that version, as second_audit_by. What
 * such a repair leaves is sound by today's rules, if its edition is one.
 */
struct second_answer second_repair_by(uint32_t version, uint8_t *arena,
                                      size_t arena_len, uint8_t *record,
                                      size_t record_len);

#endif
