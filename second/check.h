/*
 * What the test programs share: groups of checks, each of which counts as
 * one, and buffers of exactly the lent length, so that a sanitizer sees the
 * first byte outside.
 */
#ifndef CHECK_H
#define CHECK_H

#include <stdbool.h>
#include <stddef.h>
#include <stdint.h>

#include "heap2.h"

/* Ends the group before and starts one of this name. */
void group(const char *name);

/* Says so before the name of every group from here on. */
void groups_of(const char *what);

/* Counts a check of the current group; the first one that fails is told. */
#define CHECK(good, ...) \
    ((good) ? check_good() : check_bad(__FILE__, __LINE__, __VA_ARGS__))
bool check_good(void);
bool check_bad(const char *file, int line, const char *format, ...)
    __attribute__((format(printf, 3, 4)));

/* Adds a remark to the current group's line. */
void remark(const char *format, ...) __attribute__((format(printf, 1, 2)));

/* Whether a check of the current group has failed: a loop may stop. */
bool group_failed(void);

/* Ends the last group; the status for main to return. */
int finish(void);

/* The divisor given on the command line: a slow build does that much less. */
uint32_t share_of(int argc, char **argv);

struct lent {
    uint8_t *arena;
    uint8_t *record;
    size_t length;
    size_t record_len;
};

/* Fills both buffers with the byte; the caller opens, or builds a heap. */
struct lent lend(size_t length, uint8_t fill);
void give_back(struct lent *l);
void copy_lent(struct lent *to, const struct lent *from);
bool same_arena(const struct lent *a, const struct lent *b);
bool same_record(const struct lent *a, const struct lent *b);

/* The records, but for key and edition. */
bool same_words(const struct lent *a, const struct lent *b);

struct second_answer lent_open(struct lent *l, uint64_t key, uint32_t edition);
struct second_answer lent_grant(struct lent *l, uint64_t n);
struct second_answer lent_release(struct lent *l, uint64_t mem);
struct second_answer lent_resize(struct lent *l, uint64_t mem, uint64_t n);
struct second_answer lent_emptying(struct lent *l);
struct second_answer lent_joining(struct lent *l);
struct second_fault lent_audit(const struct lent *l);
struct second_fault lent_audit_by(const struct lent *l, unsigned version);
bool lent_sound(const struct lent *l);

#endif
