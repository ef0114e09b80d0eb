/* A call drawn as tables: each register and each doubleword, on AIX each word, that its arguments
 * have, and which argument has each byte.
 *
 * Which registers, doublewords and copies an argument has is the library's plan. Where its value
 * stands in them, and what fills up, follows from its size and from whether it is a struct: the
 * tests hold that to what the library's filling writes. */
#include "command.h"
#include <stdio.h>
#include <stdlib.h>
#include <string.h>

/* the bytes of a register in the image */
#define IN_IMAGE 8
/* a mark is a number, '&' and a number, or one of the others below */
#define NONE (-1)
#define FILLING (-2)
#define HIDDEN_ADDRESS (-3)

/* a line of a table */
typedef struct {
    int marks[IN_IMAGE]; /* NONE, FILLING, HIDDEN_ADDRESS, or the argument with the byte */
    int count;           /* of the marks */
    int addresses;       /* whether the arguments' numbers mean the addresses of their copies */
} row;

/* the marks that were used, for what is said of them at the end */
typedef struct {
    bytes *out;
    int filling, address, hidden;
} picture;

/* Begins a line: its label, filled up to 10 columns. */
static void begin_line(bytes *line, const char *label)
{
    add(line, "%-10s", label);
}

/* Ends a line: marks and a note, without spaces at its end. */
static void end_line(picture *of, bytes *line, const row *marked, const char *note)
{
    int i;

    for (i = 0; i < marked->count; i++) {
        char mark[16] = "";

        if (marked->marks[i] == FILLING) {
            strcpy(mark, ".");
            of->filling = 1;
        } else if (marked->marks[i] == HIDDEN_ADDRESS) {
            strcpy(mark, "h");
            of->hidden = 1;
        } else if (marked->marks[i] >= 0) {
            snprintf(mark, sizeof mark, "%s%d", marked->addresses ? "&" : "", marked->marks[i]);
            of->address |= marked->addresses;
        }
        add(line, "%4s", mark);
    }
    if (note[0] != '\0')
        add(line, "  %s", note);
    while (line->length > 0 && line->at[line->length - 1] == ' ')
        line->length--;
    add(line, "\n");
    add_word(of->out, span_of_bytes(line));
    free(line->at);
}

static row all_of(int mark, int count)
{
    row of = {{0}, 0, 0};

    for (of.count = 0; of.count < count; of.count++)
        of.marks[of.count] = mark;
    return of;
}

/* Where in its floating registers a value stands, or else in its words. */
static void own_bytes(const plan *of, size_t number, int in_float, size_t *start, size_t *end)
{
    size_t size = (size_t)of->places[number].size, word = word_of(of);
    int is_power = of->whole.convention != 2, is_small = word == 8 && size < 8;

    *start = 0;
    *end = size;
    if (in_float && is_power && size == 4) {
        /* a single widened to a double: sign, exponent and fraction have 35 bits */
        *end = 5;
    } else if (!in_float && !(is_power && is_struct(of, number) && !is_small)) {
        /* at the end of its words */
        *end = (size + word - 1) / word * word;
        *start = *end - size;
    }
}

/* The marks of `count` bytes of an argument that come after `at` others, in its floating registers
 * or else in its words. */
static row marks_of(const plan *of, size_t number, size_t at, int count, int in_float)
{
    row marked = all_of((int)number, count);
    size_t start, end;
    int i;

    if (of->places[number].copy_length != 0) {
        marked.addresses = 1;
        return marked;
    }
    own_bytes(of, number, in_float, &start, &end);
    for (i = 0; i < count; i++)
        if (at + (size_t)i < start || at + (size_t)i >= end)
            marked.marks[i] = FILLING;
    return marked;
}

/* A word's marks as those of a general register's 8 bytes: it is in the last of them. */
static row in_general(row word)
{
    row marked = all_of(FILLING, IN_IMAGE);

    memcpy(marked.marks + IN_IMAGE - word.count, word.marks, (size_t)word.count * sizeof(int));
    marked.addresses = word.addresses;
    return marked;
}

/* Adds the line of the register with this number in the image, if something is in it. */
static void draw_register(picture *to, const plan *of, unsigned bank, unsigned number)
{
    int word = (int)word_of(of);
    bytes line = {NULL, 0, 0};
    char label[8];
    row marked = {{0}, 0, 0};
    size_t i;

    snprintf(label, sizeof label, "%c%u", bank == 0 ? 'r' : 'f', number);
    if (bank == 0 && of->whole.result == 2 && of->whole.result_gpr == number)
        marked = in_general(all_of(HIDDEN_ADDRESS, word));
    for (i = 0; i < of->whole.arguments; i++) {
        const fz_place *at = &of->places[i];

        if (bank == 0 && number - at->first_gpr < at->gprs)
            marked = in_general(
                marks_of(of, i, (size_t)word * (number - (size_t)at->first_gpr), word, 0));
        if (bank == 1 && number - at->first_fpr < at->fprs)
            marked = marks_of(of, i, IN_IMAGE * (number - (size_t)at->first_fpr), IN_IMAGE, 1);
    }
    if (marked.count > 0) {
        begin_line(&line, label);
        end_line(to, &line, &marked, "");
    }
}

/* Adds the line of the word of the area at this place. */
static void draw_word(picture *to, const plan *of, size_t place)
{
    int word = (int)word_of(of);
    bytes line = {NULL, 0, 0};
    char label[24], note[64] = "";
    row marked = all_of(NONE, word);
    size_t i;

    snprintf(label, sizeof label, "@%zu", area_start(of) + place);
    begin_line(&line, label);
    if (place == 0 && of->whole.result == 2)
        snprintf(note, sizeof note, "h is in r%u", (unsigned)of->whole.result_gpr);
    for (i = 0; i < of->whole.arguments; i++) {
        const fz_place *at = &of->places[i];
        size_t in = place - (size_t)at->home;
        char *end = note;

        if (place < at->home || in >= at->home_length)
            continue;
        note[0] = '\0';
        if (place >= at->memory && place - at->memory < at->memory_length) {
            marked = marks_of(of, i, in, word, 0);
            continue;
        }
        /* a floating register has 8 bytes of its argument, on AIX both words of a double */
        if (in / IN_IMAGE < at->fprs)
            end += sprintf(end, "%zu is in f%u", i, (unsigned)(at->first_fpr + in / IN_IMAGE));
        if (in / (size_t)word < at->gprs) {
            end += end == note ? sprintf(end, "%zu is in ", i) : sprintf(end, " and ");
            sprintf(end, "r%u", (unsigned)(at->first_gpr + in / (size_t)word));
        }
    }
    end_line(to, &line, &marked, note);
}

/* Adds the line of the 8 bytes of the copies at this place. */
static void draw_copy(picture *to, const plan *of, size_t place)
{
    bytes line = {NULL, 0, 0};
    row marked = {{0}, 0, 0};
    char label[24];
    size_t i;

    snprintf(label, sizeof label, "@%zu", place);
    begin_line(&line, label);
    for (i = 0; i < of->whole.arguments; i++) {
        const fz_place *at = &of->places[i];

        if (place >= at->copy && place - at->copy < at->copy_length) {
            size_t left = (size_t)(at->copy + at->copy_length) - place;

            marked = all_of((int)i, left < 8 ? (int)left : 8);
        }
    }
    end_line(to, &line, &marked, "");
}

/* Adds the line above a table. */
static void draw_head(picture *to, const char *name, int width)
{
    row numbers = all_of(0, width);
    bytes line = {NULL, 0, 0};
    int i;

    for (i = 0; i < width; i++)
        numbers.marks[i] = i;
    add(to->out, "\n");
    begin_line(&line, name);
    end_line(to, &line, &numbers, "");
}

void draw_call(const plan *of, bytes *out)
{
    picture to = {out, 0, 0, 0};
    size_t word = word_of(of), place, i;
    unsigned bank, number;
    int registers = of->whole.result == 2;

    add_word(out, listing_line(of, 0));
    add(out, "\n");
    for (i = 0; i < of->whole.arguments; i++)
        registers |= of->places[i].gprs + of->places[i].fprs > 0;
    if (registers)
        draw_head(&to, "registers", IN_IMAGE);
    for (bank = 0; bank < 2; bank++)
        for (number = 0; number < 32; number++)
            draw_register(&to, of, bank, number);
    if (of->whole.area > 0)
        draw_head(&to, "area", (int)word);
    for (place = 0; place < of->whole.area; place += word)
        draw_word(&to, of, place);
    if (of->whole.copies > 0)
        draw_head(&to, "copies", 8);
    for (place = 0; place < of->whole.copies; place += 8)
        draw_copy(&to, of, place);
    add(out, "\n");
    add_word(out, listing_line(of, (size_t)of->whole.arguments + 1));
    add(out, "\n");
    if (to.filling)
        add(out, "  .   fills up: zeros, or an integer's sign\n");
    if (to.address)
        add(out, "  &n  the address of n's copy\n");
    if (to.hidden)
        add(out, "  h   the address for the result\n");
}
