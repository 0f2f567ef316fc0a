#include "check.h"

#include <stdarg.h>
#include <stdio.h>
#include <stdlib.h>
#include <string.h>

#include "plain.h"

static const char *said_before = "";
static const char *current;
static uint64_t checks;
static bool failed_now;
static bool failed_ever;
static char remarks[512];

static void end_group(void)
{
    if (current == NULL)
        return;
    if (!failed_now)
        printf("ok %s%s: %llu checks%s\n", said_before, current,
               (unsigned long long)checks, remarks);
    fflush(stdout);
    current = NULL;
}

void group(const char *name)
{
    end_group();
    current = name;
    checks = 0;
    failed_now = false;
    remarks[0] = '\0';
}

void groups_of(const char *what)
{
    end_group();
    said_before = what;
}

bool check_good(void)
{
    checks++;
    return true;
}

bool check_bad(const char *file, int line, const char *format, ...)
{
    if (failed_now)
        return false;
    const char *slash = strrchr(file, '/');
    printf("FAILED %s%s: %s:%d: after %llu checks: ", said_before, current,
           slash == NULL ? file : slash + 1, line, (unsigned long long)checks);
    va_list arguments;
    va_start(arguments, format);
    vprintf(format, arguments);
    va_end(arguments);
    putchar('\n');
    failed_now = failed_ever = true;
    return false;
}

void remark(const char *format, ...)
{
    size_t used = strlen(remarks);
    va_list arguments;
    va_start(arguments, format);
    vsnprintf(remarks + used, sizeof remarks - used, format, arguments);
    va_end(arguments);
}

bool group_failed(void)
{
    return failed_now;
}

int finish(void)
{
    end_group();
    return failed_ever ? 1 : 0;
}

uint32_t share_of(int argc, char **argv)
{
    unsigned long share = argc > 1 ? strtoul(argv[1], NULL, 10) : 1;
    return share == 0 ? 1 : (uint32_t)share;
}

static uint8_t *filled(size_t length, uint8_t fill)
{
    uint8_t *bytes = malloc(length);
    if (bytes == NULL) {
        fputs("no memory for the test's own buffers\n", stderr);
        exit(2);
    }
    memset(bytes, fill, length);
    return bytes;
}

struct lent lend(size_t length, uint8_t fill)
{
    return (struct lent){ filled(length, fill),
                          filled(PLAIN_RECORD_BYTES, fill), length,
                          PLAIN_RECORD_BYTES };
}

void give_back(struct lent *l)
{
    free(l->arena);
    free(l->record);
    *l = (struct lent){ 0 };
}

void copy_lent(struct lent *to, const struct lent *from)
{
    memcpy(to->arena, from->arena, from->length);
    memcpy(to->record, from->record, PLAIN_RECORD_BYTES);
}

bool same_arena(const struct lent *a, const struct lent *b)
{
    return memcmp(a->arena, b->arena, a->length) == 0;
}

bool same_record(const struct lent *a, const struct lent *b)
{
    return memcmp(a->record, b->record, PLAIN_RECORD_BYTES) == 0;
}

bool same_words(const struct lent *a, const struct lent *b)
{
    return memcmp(a->record, b->record, 4 * PLAIN_WORDS) == 0;
}

struct second_answer lent_open(struct lent *l, uint64_t key, uint32_t edition)
{
    return second_open(l->arena, l->length, l->record, l->record_len, key,
                       edition);
}

struct second_answer lent_grant(struct lent *l, uint64_t n)
{
    return second_grant(l->arena, l->length, l->record, l->record_len, n);
}

struct second_answer lent_release(struct lent *l, uint64_t mem)
{
    return second_release(l->arena, l->length, l->record, l->record_len, mem);
}

struct second_answer lent_resize(struct lent *l, uint64_t mem, uint64_t n)
{
    return second_resize(l->arena, l->length, l->record, l->record_len, mem,
                         n);
}

struct second_answer lent_emptying(struct lent *l)
{
    return second_emptying(l->arena, l->length, l->record, l->record_len);
}

struct second_answer lent_joining(struct lent *l)
{
    return second_joining(l->arena, l->length, l->record, l->record_len);
}

struct second_fault lent_audit(const struct lent *l)
{
    return second_audit(l->arena, l->length, l->record, l->record_len);
}

struct second_fault lent_audit_by(const struct lent *l, unsigned version)
{
    return second_audit_by(version, l->arena, l->length, l->record,
                           l->record_len);
}

bool lent_sound(const struct lent *l)
{
    struct second_fault f = lent_audit(l);
    return f.no == 0 && f.kind == SECOND_SOUND && f.number == 0;
}
