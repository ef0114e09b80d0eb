/* A call that is made of values, as its caller makes it: printed, and written to files. */
#include "command.h"
#include <stdio.h>
#include <stdlib.h>
#include <string.h>

/* Writes a buffer to a file that was named: in hexadecimal a line to each slot. */
static void write_buffer(const words *given, const char *path, const bytes *from, size_t width,
                         const char *(*name)(size_t, char *))
{
    bytes text = {NULL, 0, 0};
    size_t at;

    if (path == NULL)
        return;
    if (!(given->given & HEX)) {
        write_file(path, span_of_bytes(from));
        return;
    }
    more(&text, 0);
    for (at = 0; at < from->length; at += width) {
        span slot = {from->at + at, from->length - at < width ? from->length - at : width};
        char label[32];

        add_hex(&text, slot);
        add(&text, " # %s\n", name(at, label));
    }
    write_file(path, span_of_bytes(&text));
    free(text.at);
}

static const char *register_label(size_t at, char *label)
{
    snprintf(label, 32, "%c%zu", at < 256 ? 'r' : 'f', at / 8 % 32);
    return label;
}

static const char *offset_label(size_t at, char *label)
{
    snprintf(label, 32, "@%zu", at);
    return label;
}

static const char *z_offset_label(size_t at, char *label)
{
    return offset_label(at + 160, label);
}

void fill_verb(words *given, outcome *to)
{
    place where = {{NULL, 0, 0}, 0, 0};
    uint64_t hidden = number_or_zero(given->hidden);
    bytes text, values;
    source of;
    plan planned;
    call on;

    if (given->count != 2)
        fail(NULL, "fill takes SIG VALUES ('-' is standard input)");
    if (strcmp(given->files[0], "-") == 0 && strcmp(given->files[1], "-") == 0)
        fail(NULL, "standard input can't be two of the files");
    on.base = number_or_zero(given->base);
    of = read_source(given, given->files[0]);
    text = read_file(given->files[1], &where, LARGEST_INPUT);
    planned = plan_of(&of);
    if (!refuses_call(&of, &planned, to)) {
        fz_answer answer;

        values = read_values(&planned, &where, span_of_bytes(&text));
        on.image = zeros(IMAGE_BYTES);
        on.area = zeros((size_t)planned.whole.area);
        on.copies = zeros((size_t)planned.whole.copies);
        answer = fz_fill(planned.signature.at, planned.signature.length, values.at, values.length,
                         on.image.at, on.image.length, on.area.at, on.area.length, on.copies.at,
                         on.copies.length, on.base, hidden);
        if (answer.number != FZ_ACCEPTED) {
            add_refusal(&to->out, answer);
            tell_number(&to->told, NULL, "", answer.number);
            to->status = 1;
        } else {
            add_call(&planned, &on, given->given & JSON, to);
            write_buffer(given, given->image, &on.image, 8, register_label);
            write_buffer(given, given->area, &on.area, word_of(&planned),
                         planned.whole.convention == 2 ? z_offset_label : offset_label);
            write_buffer(given, given->copies, &on.copies, 8, offset_label);
        }
        free(values.at);
        free(on.image.at);
        free(on.area.at);
        free(on.copies.at);
    }
    free_plan(&planned);
    free_source(&of);
    free(text.at);
    free(where.file.at);
}
