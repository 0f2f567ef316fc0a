/*
 * The groups of checks that archive.c runs.
 */
#ifndef GROUPS_H
#define GROUPS_H

#include <stddef.h>
#include <stdint.h>

#include "pair.h"

/* figures.c; run has words such as 8G200, and answers the last answer */
struct second_answer run(struct pair *p, const char *script);
void worked_example(void);
void traces(void);
void requests(void);
void bins(void);
void eight_chunks(void);
void arenas(void);

/* shapes.c */
void extreme_numbers(void);
void bad_shapes(void);
void refused_shape(struct random *r, enum call call, size_t length,
                   size_t record_len);
void lengths_past_32_bits(void);
void closed_heaps(void);
void bad_editions(void);

/* heaps.c; a harm makes the archive's heap of a pair */
typedef void harm(struct pair *);
harm harm_field, harm_high, harm_bytes, harm_key, harm_skip, harm_link,
    harm_edition, harm_all;
void sequences(const char *name, uint32_t from, uint32_t to, uint32_t rounds,
               uint32_t calls);
void in_turn(uint32_t rounds);
void between_fast_chunks(uint32_t rounds);
void among_fast_chunks(uint32_t rounds);
void equal_sizes(uint32_t rounds);
void sound_heaps(const char *name, uint32_t most, uint32_t rounds);
void harmed_heaps(const char *name, harm *do_harm, uint64_t seeds,
                  uint32_t most, uint32_t rounds);
void flawed_heaps(uint32_t rounds);
void overruns(uint32_t rounds);
void guards(uint32_t rounds);

/* Random calls on a heap that may or may not be sound. */
void calls_on_any(struct pair *p, uint32_t calls);

/* bigger.c */
void bigger_arenas(uint32_t rounds);
void yields_with_the_top(uint32_t rounds);
void premises_needed(void);

/* keys.c */
void key_places(void);
void wrong_keys(uint32_t rounds);
void old_keys(uint32_t rounds);
void two_keys(uint32_t rounds);

/* skips.c */
void skip_places(void);
void wrong_skips(uint32_t rounds);
void wrong_rings(void);
void kept_rings(uint32_t rounds);

/* editions.c */
void link_places(void);
void wrong_links(uint32_t rounds);
void every_wrong_link(void);
void wrong_editions(uint32_t rounds);
void two_editions(uint32_t rounds);

/* repairs.c */
void repairs_by_hand(void);
void most_tiles(void);
void repairs(uint32_t times);
void redundant_words(uint32_t rounds);

/* images.c */
void image_bytes(void);
void image_headers(void);
void image_short_files(void);
void image_lengths(void);
void image_fields(void);
void image_versions(void);
void image_writes(void);
void images_past_32_bits(void);
void sound_images(uint32_t rounds);
void harmed_images(const char *name, harm *do_harm, uint64_t seeds,
                   uint32_t rounds);
harm harm_lists;
void continued_images(uint32_t rounds);
void old_sound_images(const char *name, unsigned version, uint32_t rounds);
void old_harmed_images(const char *name, unsigned version, uint32_t rounds);

/* stack.c */
void stack_taken(uint32_t rounds);

#endif
