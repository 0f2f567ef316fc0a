/*
 * Writes random scripts for heaplog, good ones and spoilt ones, each by its
 * own seed, so that script i is the same on every machine:
 *
 *     scripts FOLDER COUNT    writes FOLDER/1 .. FOLDER/COUNT
 *
 * The second program runs along, so that releases and resizes find live blocks.
 */
#include <stdio.h>
#include <stdlib.h>
#include <string.h>

#include "heap2.h"
#include "random_heap.h"

#define ARENA_MOST 49152
#define RECORD_BYTES 1584
#define KEY 0 /* as heaplog has it */
#define EDITION 1
#define CALLS_MOST 300
#define TEXT_MOST 400000

static uint8_t arena[ARENA_MOST];
static uint8_t record[RECORD_BYTES];
static uint32_t length;
static uint32_t live[CALLS_MOST];
static uint32_t live_count;
static char text[TEXT_MOST];
static size_t text_length;

static void add(const char *bytes, size_t n)
{
    memcpy(text + text_length, bytes, n);
    text_length += n;
}

/* A blank and a number, now and then with zeros in front, of at most 7 digits. */
static void add_number(struct random *r, uint32_t n)
{
    char number[16];
    int digits = random_chance(r, 5) ? 1 + (int)random_below(r, 7) : 1;
    add(number, (size_t)snprintf(number, sizeof number, " %0*u", digits,
                                 (unsigned)n));
}

static void add_call(struct random *r, char letter, uint32_t n)
{
    add(&letter, 1);
    add_number(r, n);
    add("\n", 1);
}

static uint32_t request(struct random *r)
{
    switch (random_below(r, 12)) {
    case 0: return random_below(r, 262200);
    case 1: return 262140 + random_below(r, 10);
    case 2: return random_below(r, 10000000);
    case 3: case 4: return 900 + random_below(r, 300);
    case 5: case 6: return random_below(r, 5000);
    case 7: case 8: return random_below(r, 1100);
    default: return random_below(r, 150);
    }
}

static void add_grant(struct random *r)
{
    uint32_t n = request(r);
    struct second_answer a =
        second_grant(arena, length, record, RECORD_BYTES, n);
    if (a.no == 0)
        live[live_count++] = a.mem;
    add_call(r, 'G', n);
}

/* Mostly a live block, else null, one released before, any. */
static uint32_t some_mem(struct random *r)
{
    uint32_t at = random_below(r, live_count);
    uint32_t mem = random_chance(r, 50) ? 16 * random_below(r, length / 8)
                                        : random_below(r, 10000000);
    return live_count > 0 && random_chance(r, 90) ? live[at] : mem;
}

static void drop_live(uint32_t mem)
{
    uint32_t at = 0;
    while (live[at] != mem)
        at++;
    live[at] = live[--live_count];
}

static void add_release(struct random *r)
{
    uint32_t mem = some_mem(r);
    struct second_answer a =
        second_release(arena, length, record, RECORD_BYTES, mem);
    if (a.no == 0 && mem != 0)
        drop_live(mem);
    add_call(r, 'R', mem);
}

/* Now and then of null, now and then to length 0. */
static void add_resize(struct random *r)
{
    uint32_t mem = random_chance(r, 5) ? 0 : some_mem(r);
    uint32_t n = random_chance(r, 5) ? 0 : request(r);
    struct second_answer a =
        second_resize(arena, length, record, RECORD_BYTES, mem, n);
    if (a.no == 0 && mem != 0)
        drop_live(mem);
    if (a.no == 0 && a.mem != 0)
        live[live_count++] = a.mem;
    add("Z", 1);
    add_number(r, mem);
    add_number(r, n);
    add("\n", 1);
}

static void good_script(struct random *r)
{
    uint32_t calls = random_below(r, CALLS_MOST);
    uint32_t releases = 20 + random_below(r, 50);
    uint32_t resizes = random_below(r, 40);
    text_length = 0;
    live_count = 0;
    length = random_chance(r, 40) ? random_length(r, ARENA_MOST)
                                  : 16 * (2 + random_below(r, 3071));
    second_open(arena, length, record, RECORD_BYTES, KEY, EDITION);
    add_call(r, 'A', length);
    for (uint32_t i = 0; i < calls; i++) {
        if (random_chance(r, 3)) {
            second_emptying(arena, length, record, RECORD_BYTES);
            second_joining(arena, length, record, RECORD_BYTES);
            add("S\n", 2);
        } else if (random_chance(r, live_count > 0 ? releases : 5)) {
            add_release(r);
        } else if (random_chance(r, live_count > 0 ? resizes : 5)) {
            add_resize(r);
        } else {
            add_grant(r);
        }
    }
}

/* The start of a line somewhere in the script, or its end. */
static size_t somewhere(struct random *r)
{
    size_t at = random_below(r, (uint32_t)text_length + 1);
    while (at > 0 && text[at - 1] != '\n')
        at--;
    return random_chance(r, 10) ? text_length : at;
}

static void insert(size_t at, const char *bytes, size_t n)
{
    memmove(text + at + n, text + at, text_length - at);
    memcpy(text + at, bytes, n);
    text_length += n;
}

static void insert_line(struct random *r)
{
    static const char *const lines[] = {
        "\n", "G\n", "G \n", "G  24\n", "G\t24\n", "G 24 \n", "G 24\r\n",
        "S\r\n", "S 1\n", " S\n", "s\n", "g 24\n", "G 12345678\n",
        "R 00000000\n", "G -1\n", "G +1\n", "G 0x10\n", "A 256\n", "A 49153\n",
        "A 262160\n", "A 0\n", "A 100\n", "# melt\n", "?\n",
        "\377\n", "G \262\n", "R16\n", "G 1,0\n", "SS\n", "Z\n", "Z 16\n",
        "Z 16 \n", "Z 16 24 \n", "Z  16 24\n", "Z 16  24\n", "Z 16 24 1\n",
        "Z 12345678 1\n", "Z 1 12345678\n", "Z 0000001 00000024\n",
        "Z 16 -1\n", "Z 16\t24\n", "Z 16 24\r\n", "z 16 24\n", "Z16 24\n",
        "G 16 24\n"
    };
    const char *line = lines[random_below(r, sizeof lines / sizeof *lines)];
    insert(random_chance(r, 20) ? 0 : somewhere(r), line, strlen(line));
}

static void insert_long_line(struct random *r)
{
    static char line[200000];
    size_t n = 10 + random_below(r, random_chance(r, 20) ? 199000 : 40);
    const char *start = random_chance(r, 50) ? "G 1" : "Z 1 2";
    memset(line, random_chance(r, 50) ? '0' : ' ', n);
    memcpy(line, start, strlen(start));
    line[n - 1] = '\n';
    insert(somewhere(r), line, n);
}

/* Another first line: a bad or refused open, or none. */
static void change_open(struct random *r)
{
    static const char *const opens[] = {
        "", "A 0\n", "A 16\n", "A 100\n", "A 49151\n", "A 49152\n", "A 49153\n",
        "A 49168\n", "A 262144\n", "A 262160\n", "A 9999999\n", "A 00000256\n",
        "A\n", "A 33\n"
    };
    const char *line = opens[random_below(r, sizeof opens / sizeof *opens)];
    size_t first = (size_t)(strchr(text, '\n') - text) + 1;
    memmove(text, text + first, text_length - first);
    text_length -= first;
    insert(0, line, strlen(line));
}

static void spoil(struct random *r)
{
    switch (random_below(r, 8)) {
    case 0: change_open(r); break;
    case 1: insert_long_line(r); break;
    case 2: text_length = random_below(r, (uint32_t)text_length + 1); break;
    case 3: case 4:
        random_bytes(r, (uint8_t *)text + random_below(r, (uint32_t)text_length),
                     1);
        break;
    default: insert_line(r); break;
    }
}

static int write_script(const char *folder, unsigned number)
{
    char path[4096];
    snprintf(path, sizeof path, "%s/%u", folder, number);
    FILE *file = fopen(path, "wb");
    if (file == NULL)
        return -1;
    fwrite(text, 1, text_length, file);
    return fclose(file);
}

int main(int count, char **argument)
{
    unsigned scripts = count == 3 ? (unsigned)atoi(argument[2]) : 0;
    if (scripts == 0) {
        fputs("scripts: give a folder and how many scripts to write\n", stderr);
        return 2;
    }
    for (unsigned i = 1; i <= scripts; i++) {
        struct random r = { i };
        good_script(&r);
        if (random_chance(&r, 40))
            spoil(&r);
        if (text_length > 0 && random_chance(&r, 25))
            text_length--;
        if (write_script(argument[1], i) != 0) {
            fprintf(stderr, "scripts: cannot write %s/%u\n", argument[1], i);
            return 1;
        }
    }
    return 0;
}
