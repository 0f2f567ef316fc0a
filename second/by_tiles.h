/*
 * What a release, an emptying and a joining leave, told by tiles alone: where
 * each begins, its size, and what it is. No list and no byte of a chunk is
 * written for it, so heap2.c's own lists show in none of it. For tests only.
 *
 * The view is that of the sound heap before the call, and becomes the one
 * after it. The answer says whether fast chunks were joined in a release.
 */
#ifndef BY_TILES_H
#define BY_TILES_H

#include <stdbool.h>

#include "check.h"
#include "plain.h"

bool release_by_tiles(struct plain_view *view, const struct lent *before,
                      uint32_t mem);
bool emptying_by_tiles(struct plain_view *view, const struct lent *before);
void joining_by_tiles(struct plain_view *view);

bool same_tiles(const struct plain_view *a, const struct plain_view *b);

#endif
