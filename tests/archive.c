/*
 * The archive against the second program. Every call is made on both, from
 * the same bytes; answer, every record byte and every arena byte must come out
 * the same, and so must the audits after it. What the documents say outright
 * (refusals that write nothing, the bytes that a resized block and all others
 * keep, demand 3, that a bigger arena, another key and the other edition change
 * nothing, what a repair leaves, the figures marked 'run and compared') is
 * checked on the archive by itself as well.
 *
 * Seeds are fixed: a run is the same everywhere. The argument, a number, makes
 * it that many times as long, with further seeds. This file has the order of
 * the groups; figures.c, shapes.c, heaps.c, bigger.c, keys.c, skips.c,
 * editions.c, repairs.c, images.c and stack.c have the groups, pair.c has one
 * call on both programs, holders.c the holders of blocks and demand 3, twins.c
 * the same calls in two arenas, guarded.c buffers between guards.
 */
#include "groups.h"
#include "pair.h"
#include "trace2.h"

#define LEAST_CALLS 100000

static void the_run(void)
{
#define PLACE_TEXT(place, text) text,
    static const char *const text[] = { SECOND_PLACES(PLACE_TEXT) };
#undef PLACE_TEXT

    group("the run made 100,000 calls, met every refusal and every fault");
    CHECK(tally.calls >= LEAST_CALLS, "only %llu calls were made",
          (unsigned long long)tally.calls);
    for (unsigned no = 1; no <= 12; no += no == 7 ? 4 : 1)
        CHECK(tally.refused[no] > 0, "no call was refused with %u", no);
    for (unsigned kind = 0; kind <= 6; kind++)
        CHECK(tally.faults[kind] > 0, "no audit found kind %u", kind);
    remark(", %llu calls, %llu audits; refused with 1 to 7, 11 and 12:",
           (unsigned long long)tally.calls, (unsigned long long)tally.audits);
    for (unsigned no = 1; no <= 12; no += no == 7 ? 4 : 1)
        remark(" %llu", (unsigned long long)tally.refused[no]);
    remark("; faults of kind 1 to 6:");
    for (unsigned kind = 1; kind <= 6; kind++)
        remark(" %llu", (unsigned long long)tally.faults[kind]);

    group("every place of the steps was reached ten times");
    uint64_t least = UINT64_MAX;
    for (unsigned i = 0; i < SECOND_PLACE_COUNT; i++) {
        uint64_t times = second_trace.reached[i];
        least = times < least ? times : least;
        CHECK(times >= 10, "reached %llu times only: %s",
              (unsigned long long)times, text[i]);
    }
    remark(", each at least %llu times", (unsigned long long)least);
}

int main(int argc, char **argv)
{
    uint32_t times = share_of(argc, argv);

    worked_example();
    traces();
    requests();
    bins();
    eight_chunks();
    arenas();
    extreme_numbers();
    bad_shapes();
    lengths_past_32_bits();
    closed_heaps();
    bad_editions();
    sequences("random calls in opened arenas up to 8,192", 32, 8192,
              220 * times, 300);
    sequences("random calls in opened arenas up to 262,144", 32, 262144,
              30 * times, 300);
    sequences("random calls in the largest arena", 262144, 262144, 2 * times,
              300);
    sequences("random calls in the smallest arenas", 32, 256, 150 * times, 60);
    in_turn(10 * times);
    between_fast_chunks(4000 * times);
    among_fast_chunks(300 * times);
    equal_sizes(160 * times);
    bigger_arenas(4000 * times);
    yields_with_the_top(800 * times);
    premises_needed();
    key_places();
    wrong_keys(1500 * times);
    old_keys(40 * times);
    two_keys(300 * times);
    skip_places();
    wrong_skips(1500 * times);
    wrong_rings();
    kept_rings(300 * times);
    link_places();
    wrong_links(1500 * times);
    every_wrong_link();
    wrong_editions(600 * times);
    two_editions(300 * times);
    sound_heaps("random sound heaps up to 8,192", 8192, 8000 * times);
    sound_heaps("random sound heaps up to 262,144", 262144, 200 * times);
    flawed_heaps(2000 * times);
    harmed_heaps("sound heaps with one field changed", harm_field, 2 << 20,
                 8192, 6000 * times);
    harmed_heaps("large heaps with one field changed", harm_field, 3 << 20,
                 262144, 100 * times);
    harmed_heaps("sound heaps with a bit above the 32nd changed", harm_high,
                 6 << 20, 8192, 1500 * times);
    harmed_heaps("sound heaps with bytes changed", harm_bytes, 4 << 20, 8192,
                 2000 * times);
    harmed_heaps("bytes that are no heap", harm_all, 5 << 20, 8192,
                 500 * times);
    overruns(400 * times);
    guards(120 * times);
    repairs_by_hand();
    most_tiles();
    repairs(times);
    redundant_words(5000 * times);
    image_bytes();
    image_headers();
    image_short_files();
    image_lengths();
    image_fields();
    image_versions();
    image_writes();
    images_past_32_bits();
    sound_images(2000 * times);
    harmed_images("images of heaps with one field changed", harm_field,
                  11 << 20, 1500 * times);
    harmed_images("images of heaps with lists that cross", harm_lists,
                  12 << 20, 1500 * times);
    harmed_images("images of heaps with bytes changed", harm_bytes, 13 << 20,
                  500 * times);
    harmed_images("images of bytes that are no heap", harm_all, 14 << 20,
                  200 * times);
    harmed_images("images of heaps with a wrong key", harm_key, 21 << 20,
                  300 * times);
    harmed_images("images of heaps with a wrong skip link", harm_skip,
                  22 << 20, 300 * times);
    harmed_images("images of heaps with a link stored otherwise", harm_link,
                  29 << 20, 300 * times);
    harmed_images("images of heaps with another edition", harm_edition,
                  30 << 20, 300 * times);
    old_sound_images("images of version 1 of sound heaps, and calls on what "
                     "is read in", 1, 1000 * times);
    old_sound_images("images of version 2 of sound heaps, and calls on what "
                     "is read in", 2, 1000 * times);
    old_sound_images("images of version 3 of sound heaps, and calls on what "
                     "is read in", 3, 1000 * times);
    old_harmed_images("images of version 1 of harmed heaps are copied, and "
                      "nothing more", 1, 1000 * times);
    old_harmed_images("images of version 2 of harmed heaps are copied, and "
                      "nothing more", 2, 1000 * times);
    old_harmed_images("images of version 3 of harmed heaps are copied, and "
                      "nothing more", 3, 1000 * times);
    continued_images(60 * times);
    stack_taken(600 * times);
    the_run();
    return finish();
}
