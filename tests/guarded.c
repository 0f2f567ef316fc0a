#define _DEFAULT_SOURCE
#include "guarded.h"

#include <stdio.h>
#include <stdlib.h>
#include <string.h>
#include <sys/mman.h>
#include <unistd.h>

#define FILL 0xa5

struct guarded guard(size_t length, size_t slack)
{
    struct guarded g = { .page = (size_t)sysconf(_SC_PAGESIZE) };
    size_t inner = (length + slack + g.page - 1) / g.page * g.page;

    g.size = inner + 2 * g.page;
    g.map = mmap(NULL, g.size, PROT_READ | PROT_WRITE,
                 MAP_PRIVATE | MAP_ANONYMOUS, -1, 0);
    if (g.map == MAP_FAILED || mprotect(g.map, g.page, PROT_NONE) != 0
        || mprotect(g.map + g.size - g.page, g.page, PROT_NONE) != 0) {
        fputs("tests/archive: the system lends no guarded pages\n", stderr);
        exit(2);
    }
    guard_again(&g, length, slack);
    return g;
}

void guard_again(struct guarded *g, size_t length, size_t slack)
{
    memset(g->map + g->page, FILL, g->size - 2 * g->page);
    g->length = length;
    g->bytes = g->map + g->size - g->page - slack - length;
}

static bool filled(const uint8_t *from, const uint8_t *to)
{
    return from == to
        || (*from == FILL
            && memcmp(from, from + 1, (size_t)(to - from) - 1) == 0);
}

bool guard_kept(const struct guarded *g)
{
    return filled(g->map + g->page, g->bytes)
        && filled(g->bytes + g->length, g->map + g->size - g->page);
}

void guard_free(struct guarded *g)
{
    munmap(g->map, g->size);
    *g = (struct guarded){ 0 };
}
