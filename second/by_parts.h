/*
 * A resize once more, put together from a grant, a release and single numbers
 * written in between, so that heap2.c's own resizing shows in none of it. For
 * tests only.
 */
#ifndef BY_PARTS_H
#define BY_PARTS_H

#include <stdbool.h>

#include "check.h"

/*
 * Resizes null or a live block of a sound heap to a length of at most 262,144.
 * Answers false, and has written nothing, where a grant does not stand for the
 * steps 2 to 9: a block is sought, and step 1 would find one.
 */
bool resize_by_parts(struct lent *l, uint32_t mem, uint32_t n,
                     struct second_answer *a);

#endif
