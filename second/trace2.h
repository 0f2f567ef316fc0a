/*
 * Which places of the steps were reached, and the most that a release has
 * yielded, for tests that must know it. Only a build with SECOND_TRACE counts;
 * without it the marks vanish and the program is the one that is measured.
 */
#ifndef TRACE2_H
#define TRACE2_H

#include <stdint.h>

#define SECOND_PLACES(PLACE)                                                  \
    PLACE(STEP_1, "1 cache head")                                             \
    PLACE(STEP_2, "2 fast head")                                              \
    PLACE(STEP_2_MOVED, "2 fast chunk moved to the cache")                    \
    PLACE(STEP_3, "3 last of its small bin")                                  \
    PLACE(STEP_3_MOVED, "3 binned chunk moved to the cache")                  \
    PLACE(STEP_4, "4 consolidates")                                           \
    PLACE(STEP_5_SPLIT, "5 splits the last remainder")                        \
    PLACE(STEP_5_SPLIT_CACHED, "5 splits it with a chunk just cached")        \
    PLACE(STEP_5_EXACT_REST, "5 last remainder of exactly b+32 is binned")    \
    PLACE(STEP_5_GRANTED, "5 grants an equal, its cache list full")           \
    PLACE(STEP_5_CACHED, "5 grants a chunk just cached")                      \
    PLACE(STEP_5_EQUAL_LARGE, "5 grants an equal too large for the cache")    \
    PLACE(STEP_5_SMALL, "5 puts a chunk in a small bin")                      \
    PLACE(STEP_5_LARGE, "5 puts a chunk in a large bin")                      \
    PLACE(STEP_5_SECOND, "5 puts a chunk second among its equals")            \
    PLACE(STEP_6, "6 smallest that fits in its own bin")                      \
    PLACE(STEP_6_SECOND, "6 second of equals")                                \
    PLACE(STEP_7, "7 last of a bin above")                                    \
    PLACE(STEP_8_WHOLE, "8 rest under 32 stays")                              \
    PLACE(STEP_8_SPLIT, "8 splits")                                           \
    PLACE(STEP_9, "9 cuts the top")                                           \
    PLACE(STEP_9_AGAIN, "9 consolidates and goes to 5")                       \
    PLACE(STEP_9_REFUSED, "9 refuses")                                        \
    PLACE(RING_ONLY, "ring: a new first is the only one")                     \
    PLACE(RING_LARGEST, "ring: a new first is the largest")                   \
    PLACE(RING_BETWEEN, "ring: a new first comes between two others")         \
    PLACE(RING_SMALLEST, "ring: a new first is the smallest")                 \
    PLACE(RING_CLOSES, "ring: closes where a first leaves")                   \
    PLACE(RING_EQUAL, "ring: an equal takes a first's place")                 \
    PLACE(RING_EQUAL_ONLY, "ring: an equal takes the only first's place")     \
    PLACE(JOIN_BEFORE, "join with the chunk before")                          \
    PLACE(JOIN_AFTER, "join with the chunk after")                            \
    PLACE(JOIN_BOTH, "join with both")                                        \
    PLACE(JOIN_TOP, "join with the top")                                      \
    PLACE(JOIN_CONSOLIDATES, "a join of 65,536 or more consolidates")         \
    PLACE(EMPTYING_CONSOLIDATES, "emptying: consolidates halfway")            \
    PLACE(RESIZE_STAYS, "resize: large enough, nothing cut off")              \
    PLACE(RESIZE_SHRINKS, "resize: large enough, a rest cut off")             \
    PLACE(RESIZE_TOP, "resize: takes from the top")                           \
    PLACE(RESIZE_TOP_EXACT, "resize: takes from the top, which keeps 32")     \
    PLACE(RESIZE_WITH_NEXT, "resize: takes in all of the chunk behind")       \
    PLACE(RESIZE_WITH_NEXT_CUT, "resize: takes in a part of the one behind")  \
    PLACE(RESIZE_PAST_CACHE, "resize: seeks past a cached chunk of its size") \
    PLACE(RESIZE_BEHIND, "resize: joins a new block right behind")            \
    PLACE(RESIZE_BEHIND_P, "resize: the same, its own P cleared meanwhile")   \
    PLACE(RESIZE_P, "resize: its own P cleared, not joined")                  \
    PLACE(RESIZE_COPIED, "resize: copies to a new block")                     \
    PLACE(RESIZE_REFUSED, "resize: finds no room")                            \
    PLACE(RESIZE_REST_CACHED, "resize: the rest is cached")                   \
    PLACE(RESIZE_REST_FAST, "resize: the rest goes on a fast list")           \
    PLACE(RESIZE_REST_JOINED, "resize: the rest goes in unsorted")            \
    PLACE(RESIZE_REST_TOP, "resize: the rest becomes top")                    \
    PLACE(RESIZE_REST_CONSOLIDATES, "resize: the rest's join consolidates")   \
    PLACE(RESIZE_OLD_CONSOLIDATES, "resize: the old block's join consolidates")

#define SECOND_PLACE_NAME(place, text) place,
enum second_place { SECOND_PLACES(SECOND_PLACE_NAME) SECOND_PLACE_COUNT };
#undef SECOND_PLACE_NAME

struct second_trace {
    uint64_t reached[SECOND_PLACE_COUNT];
    uint32_t most_yielded; /* by a release's join, since this was set to 0 */
};

/* Exists in a build with SECOND_TRACE only. */
extern struct second_trace second_trace;

#ifdef SECOND_TRACE
#define REACHED(place) (second_trace.reached[place]++)
#define YIELDED(size)                                                         \
    (second_trace.most_yielded < (size)                                       \
         ? (void)(second_trace.most_yielded = (size)) : (void)0)
#else
#define REACHED(place) ((void)0)
#define YIELDED(size) ((void)0)
#endif

#endif
