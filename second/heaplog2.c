/*
 * Runs a heaplog script from standard input and prints, line for line, what
 * document 01's heaplog prints, with document 02's Z for a resize and its two
 * calls for an S. Input is fed byte by byte to a line of fixed size, so a
 * script, and a line, may be of any length. With -o FILE it writes the image
 * of the heap that the run leaves, for request (iv).
 *
 * The exit status is 0 unless reading or writing itself fails.
 */
#include <inttypes.h>
#include <stdbool.h>
#include <stdio.h>
#include <string.h>

#include "heap2.h"
#include "image2.h"
#include "layout2.h"

#define MOST_DIGITS 7
#define MOST_NUMBERS 2
#define LONGEST_LINE (1 + MOST_NUMBERS * (1 + MOST_DIGITS))
#define OPEN_MAX 49152
#define KEY 0 /* of every arena it opens, */
#define OPENED_AS LINKS_PLAIN /* and its edition */

struct line {
    char text[LONGEST_LINE];
    size_t length; /* LONGEST_LINE + 1 stands for every longer one */
};

struct call {
    char letter;
    uint32_t number[MOST_NUMBERS];
};

struct run {
    uint8_t arena[OPEN_MAX];
    uint8_t record[RECORD_BYTES];
    size_t arena_len;
    uint64_t lines;
    bool ended;
};

static void line_add(struct line *line, char byte)
{
    if (line->length < LONGEST_LINE)
        line->text[line->length] = byte;
    if (line->length <= LONGEST_LINE)
        line->length++;
}

/* How many numbers follow the letter; -1 if there is no such call. */
static int numbers_of(char letter)
{
    switch (letter) {
    case 'S': return 0;
    case 'A': case 'G': case 'R': return 1;
    case 'Z': return 2;
    default: return -1;
    }
}

/* Reads a space and 1 to 7 digits, and moves on behind them. */
static bool parse_number(const struct line *line, size_t *at, uint32_t *number)
{
    size_t digits = 0;

    if (*at == line->length || line->text[*at] != ' ')
        return false;
    *number = 0;
    while (++*at < line->length && line->text[*at] >= '0'
           && line->text[*at] <= '9' && ++digits <= MOST_DIGITS)
        *number = 10 * *number + (uint32_t)(line->text[*at] - '0');
    return digits >= 1 && digits <= MOST_DIGITS;
}

/* Reads a line of good form, and answers false for any other. */
static bool parse(const struct line *line, struct call *call)
{
    size_t at = 1;

    if (line->length < 1 || line->length > LONGEST_LINE)
        return false;
    *call = (struct call){ line->text[0], { 0 } };
    int numbers = numbers_of(call->letter);
    for (int i = 0; i < numbers; i++)
        if (!parse_number(line, &at, &call->number[i]))
            return false;
    return numbers >= 0 && at == line->length;
}

/* A opens in the first line and nowhere else, and not more than heaplog has. */
static bool in_place(const struct run *run, const struct call *call)
{
    bool opens = call->letter == 'A';
    return opens == (run->lines == 1)
        && (!opens || call->number[0] <= OPEN_MAX);
}

/* One line for both; the first refusal is told. */
static struct second_answer empty_and_join(struct run *run)
{
    struct second_answer a = second_emptying(run->arena, run->arena_len,
                                             run->record, sizeof run->record);
    if (a.no != 0)
        return a;
    return second_joining(run->arena, run->arena_len, run->record,
                          sizeof run->record);
}

static struct second_answer perform(struct run *run, const struct call *call)
{
    switch (call->letter) {
    case 'A':
        run->arena_len = call->number[0];
        return second_open(run->arena, run->arena_len, run->record,
                           sizeof run->record, KEY, OPENED_AS);
    case 'G':
        return second_grant(run->arena, run->arena_len, run->record,
                            sizeof run->record, call->number[0]);
    case 'R':
        return second_release(run->arena, run->arena_len, run->record,
                              sizeof run->record, call->number[0]);
    case 'Z':
        return second_resize(run->arena, run->arena_len, run->record,
                             sizeof run->record, call->number[0],
                             call->number[1]);
    default:
        return empty_and_join(run);
    }
}

static void run_line(struct run *run, const struct line *line)
{
    struct call call;

    run->lines++;
    if (!parse(line, &call) || !in_place(run, &call)) {
        printf("? %" PRIu64 "\n", run->lines);
        run->ended = true;
        return;
    }
    struct second_answer a = perform(run, &call);
    /* A refused open leaves no top in the record; its line says 0. */
    run->ended = call.letter == 'A' && a.no != 0;
    printf("%c %" PRIu32 " %" PRIu32 " %" PRIu32 " %" PRIu32 "\n", call.letter,
           a.no, a.mem, a.usable,
           run->ended ? 0 : word_get(run->record, TOP));
}

static void run_script(struct run *run)
{
    struct line line = { .length = 0 };
    int byte = 0;

    while (!run->ended && (byte = getchar()) != EOF) {
        if (byte != '\n') {
            line_add(&line, (char)byte);
            continue;
        }
        run_line(run, &line);
        line.length = 0;
    }
    if (!run->ended && line.length > 0)
        run_line(run, &line);
}

/* The image of the heap that the run left; no file if no arena was opened. */
static bool save_image(const struct run *run, const char *path)
{
    static uint8_t file[IMAGE_RECORD + RECORD_BYTES + OPEN_MAX];
    size_t length = IMAGE_RECORD + RECORD_BYTES + run->arena_len;

    if (second_write_image(run->arena, run->arena_len, run->record,
                           sizeof run->record, file, length).no != 0)
        return true;
    FILE *to = fopen(path, "wb");
    if (to == NULL)
        return false;
    bool whole = fwrite(file, 1, length, to) == length;
    return fclose(to) == 0 && whole;
}

/* -o FILE: writes the image too. */
int main(int argc, char **argv)
{
    static struct run run;

    puts("call no at usable top");
    run_script(&run);
    if (ferror(stdin)) {
        fputs("heaplog2: standard input cannot be read\n", stderr);
        return 1;
    }
    if (fflush(stdout) != 0 || ferror(stdout)) {
        fputs("heaplog2: standard output cannot be written\n", stderr);
        return 1;
    }
    if (argc == 3 && strcmp(argv[1], "-o") == 0 && !save_image(&run, argv[2])) {
        fprintf(stderr, "heaplog2: %s cannot be written\n", argv[2]);
        return 1;
    }
    return 0;
}
