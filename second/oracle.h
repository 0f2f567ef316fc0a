/*
 * The audit once more, slow and by sets: each list is read out as a plain
 * sequence first, then every condition of document 01 is asked of it in its
 * own loop; and so what the lists reach, for heapimage and a repair. Shares no
 * line with heap2.c and tiles2.c. The version is that of the rules: of cached
 * chunks the key is asked from 2 on, of large ones in bins the skip links from 3
 * on, and the record's edition from 4 on.
 */
#ifndef ORACLE_H
#define ORACLE_H

#include <stddef.h>
#include <stdint.h>

#include "heap2.h"

struct second_fault oracle_audit(const uint8_t *arena, size_t length,
                                 const uint8_t *record, size_t record_len,
                                 unsigned version);

/*
 * In which list each tile of a heap is whose record and tiles are sound, by
 * rising offset: 0 to 199 in the audit's order, or one of these two. Each list
 * reaches the chunks before its first bad one. Answers the number of tiles.
 */
#define ORACLE_LIVE 200u
#define ORACLE_TOP 201u
size_t oracle_reached(const uint8_t *arena, size_t length,
                      const uint8_t *record, unsigned version,
                      unsigned *list);

#endif
