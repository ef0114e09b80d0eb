/* The arguments of a call on its way: where each stands, what stands there, and its value.
 *
 * The places are the library's plan, and the values are what its walker reads. An argument that it
 * refuses is passed by on a call of zeros, which it always reads: so nothing is placed here. */
#include "command.h"
#include <stdio.h>
#include <stdlib.h>
#include <string.h>

/* ---- the slots ---- */

/* how the lines of a call are added */
typedef struct {
    const plan *of;
    const call *on;
    int as_json;
    bytes *out;
    int first; /* of a list of JSON's */
} printer;

/* Adds a slot: its name, and its bytes, which are NULL where they were not given. */
static void add_slot(printer *to, const char *name, const uint8_t *at, size_t length)
{
    span shown = {at, length};

    if (to->as_json) {
        add(to->out, "%s{\"place\": \"%s\", \"bytes\": ", to->first ? "" : ", ", name);
        if (at == NULL) {
            add(to->out, "null}");
        } else {
            add(to->out, "\"");
            add_hex(to->out, shown);
            add(to->out, "\"}");
        }
    } else {
        add(to->out, "    %-5s ", name);
        if (at == NULL)
            add(to->out, "not given");
        else
            add_hex(to->out, shown);
        add(to->out, "\n");
    }
    to->first = 0;
}

static void add_register(printer *to, unsigned bank, unsigned number)
{
    char name[16];

    snprintf(name, sizeof name, "%c%u", bank == 0 ? 'r' : 'f', number);
    add_slot(to, name, to->on->image.at + 256 * bank + 8 * number, 8);
}

/* Adds a word of the area. */
static void add_area_word(printer *to, size_t at)
{
    size_t word = word_of(to->of);
    const bytes *area = &to->on->area;
    char name[32];

    snprintf(name, sizeof name, "@%zu", area_start(to->of) + at);
    add_slot(to, name, area->length >= word && at <= area->length - word ? area->at + at : NULL,
             word);
}

/* Adds what an argument's address points at, if all of it was given. */
static void add_copy(printer *to, const fz_place *at)
{
    const call *on = to->on;
    const uint8_t *slot = NULL;
    size_t start, size = (size_t)at->size;
    uint64_t address;
    char name[32];

    if (at->gprs > 0)
        slot = on->image.at + 8 * at->first_gpr;
    else if (on->area.length >= 8 && at->memory <= on->area.length - 8)
        slot = on->area.at + at->memory;
    if (slot == NULL)
        return;
    address = big_endian(slot, 8);
    snprintf(name, sizeof name, "0x%llx", (unsigned long long)address);
    start = (size_t)(address - on->base);
    add_slot(to, name,
             address >= on->base && on->copies.length >= size && start <= on->copies.length - size
                 ? on->copies.at + start
                 : NULL,
             size);
}

/* Adds all slots of an argument, in the listing's order. */
static void add_slots(printer *to, const fz_place *at)
{
    size_t offset;
    unsigned i;

    to->first = 1;
    for (i = 0; i < at->fprs; i++)
        add_register(to, 1, (unsigned)at->first_fpr + i);
    for (i = 0; i < at->gprs; i++)
        add_register(to, 0, (unsigned)at->first_gpr + i);
    for (offset = 0; offset < at->memory_length; offset += word_of(to->of))
        add_area_word(to, (size_t)at->memory + offset);
    if (at->copy_length > 0)
        add_copy(to, at);
}

/* ---- the arguments ---- */

/* Adds a type's text. */
static void add_type(bytes *out, const plan *of, size_t number)
{
    span sig = of->signature;
    size_t length = (size_t)fz_decode_type(sig.at, sig.length, of->places[number].item, "", 0);
    char *text = (char *)more(out, length);

    fz_decode_type(sig.at, sig.length, of->places[number].item, text, length);
    out->length += length;
}

/* Takes the next argument off a walk, and moves on where that is refused too. */
static fz_answer step(fz_walker *walker, const plan *of, const call *on, size_t number,
                      uint8_t *value)
{
    span item = item_of(of, number);
    size_t size = (size_t)of->places[number].size;
    fz_walker before = *walker;
    fz_answer answer =
        fz_walk(walker, item.at, item.length, value, size, on->image.at, on->image.length,
                on->area.at, on->area.length, on->copies.at, on->copies.length, on->base);

    if (answer.number != FZ_ACCEPTED) {
        bytes image = zeros(IMAGE_BYTES), area = zeros((size_t)of->whole.area);
        bytes copies = zeros(size), any = zeros(size);

        *walker = before;
        fz_walk(walker, item.at, item.length, any.at, size, image.at, image.length, area.at,
                area.length, copies.at, copies.length, 0);
        free(image.at);
        free(area.at);
        free(copies.at);
        free(any.at);
    }
    return answer;
}

static void add_argument(printer *to, size_t number, fz_answer answer, const uint8_t *value)
{
    const plan *of = to->of;
    bytes *out = to->out;

    if (to->as_json) {
        add(out, "%s\n  {\"number\": %zu, \"type\": \"", number == 0 ? "" : ",", number);
        add_type(out, of, number);
        add(out, "\", \"places\": [");
        add_slots(to, &of->places[number]);
        if (answer.number == FZ_ACCEPTED) {
            add(out, "], \"value\": ");
            add_value(out, of->whole.convention, item_of(of, number), value, 1);
        } else {
            add(out, "], \"refused\": {\"number\": %llu, \"name\": \"%s\", \"meaning\": \"%s\"}",
                (unsigned long long)answer.number, refusal_name(answer.number),
                refusal_meaning(answer.number));
        }
        add(out, "}");
        return;
    }
    add_word(out, listing_line(of, 1 + number));
    add(out, " ");
    add_type(out, of, number);
    if (answer.number == FZ_ACCEPTED) {
        add(out, " = ");
        add_value(out, of->whole.convention, item_of(of, number), value, 0);
    } else {
        add(out, " refused %llu: %s", (unsigned long long)answer.number,
            refusal_meaning(answer.number));
    }
    add(out, "\n");
    add_slots(to, &of->places[number]);
}

/* ---- where nobody looks ---- */

/* Marks the registers of a plan's arguments, by their place in the image. */
static void mark_registers(const plan *of, uint8_t marks[64])
{
    size_t i, n;

    if (of->whole.result == 2)
        marks[of->whole.result_gpr] = 1;
    for (i = 0; i < of->whole.arguments; i++) {
        for (n = 0; n < of->places[i].gprs; n++)
            marks[of->places[i].first_gpr + n] = 1;
        for (n = 0; n < of->places[i].fprs; n++)
            marks[32 + of->places[i].first_fpr + n] = 1;
    }
}

/* Marks the registers that arguments of a convention can be in: those of a call with many. */
static void mark_all_registers(uint64_t convention, uint8_t marks[64])
{
    static const char *const calls[] = {"ppc64 void(%s)", "z void(%s)", "aix void(%s)",
                                        "ppc64b void(%s)"};
    bytes list = {NULL, 0, 0}, text = {NULL, 0, 0};
    source many;
    plan planned;
    int i;

    /* a float may use up a general register: it comes after those that fill them */
    for (i = 0; i < 32; i++)
        add(&list, "%s%s", i == 0 ? "" : ", ", i < 16 ? "u32" : "double");
    add_byte(&list, 0);
    add(&text, calls[convention - 1], (char *)list.at);
    memset(&many, 0, sizeof many);
    many.signature = zeros(FZ_LONGEST_SIGNATURE);
    many.signature.length =
        (size_t)fz_encode((char *)text.at, text.length, many.signature.at, many.signature.length)
            .length;
    planned = plan_of(&many);
    mark_registers(&planned, marks);
    free_plan(&planned);
    free(many.signature.at);
    free(list.at);
    free(text.at);
}

static int is_zero(const uint8_t *at, size_t length)
{
    while (length-- > 0)
        if (*at++ != 0)
            return 0;
    return 1;
}

/* Adds the argument registers and the words of the area that no argument has and that are not zero:
 * what stands there was put where nobody looks, or was left there by an earlier call. */
static void add_not_looked_at(printer *to)
{
    const plan *of = to->of;
    uint8_t own[64] = {0}, all[64] = {0};
    size_t word = word_of(of), at, i;
    unsigned number;

    mark_registers(of, own);
    mark_all_registers(of->whole.convention, all);
    to->first = 1;
    if (to->as_json)
        add(to->out, ",\n \"not_looked_at\": [");
    for (number = 0; number < 64; number++) {
        if (!all[number] || own[number] || is_zero(to->on->image.at + 8 * number, 8))
            continue;
        if (to->first && !to->as_json)
            add(to->out, "not looked at\n");
        add_register(to, number / 32, number % 32);
    }
    for (at = 0; at < of->whole.area && at + word <= to->on->area.length; at += word) {
        int read = is_zero(to->on->area.at + at, word);

        for (i = 0; i < of->whole.arguments; i++)
            read |= at >= of->places[i].memory &&
                    at - of->places[i].memory < of->places[i].memory_length;
        if (read)
            continue;
        if (to->first && !to->as_json)
            add(to->out, "not looked at\n");
        add_area_word(to, at);
    }
    if (to->as_json)
        add(to->out, "]");
}

/* ---- the call ---- */

/* Adds the first line, or what JSON has before the arguments. */
static void add_head(printer *to)
{
    const plan *of = to->of;
    span line = listing_line(of, 0);

    if (!to->as_json) {
        add_word(to->out, line);
        add(to->out, "\n");
        return;
    }
    add(to->out, "{\"convention\": \"");
    add_word(to->out, next_word(&line));
    add(to->out, "\", \"ellipsis\": %s, \"area\": %llu, \"copies\": %llu,\n \"arguments\": [",
        of->whole.ellipsis ? "true" : "false", (unsigned long long)of->whole.area,
        (unsigned long long)of->whole.copies);
}

/* Adds where the result will be, and the hidden address for it. */
static void add_result(printer *to)
{
    span line = listing_line(to->of, (size_t)to->of->whole.arguments + 1);
    int hidden = to->of->whole.result == 2;

    to->first = 1;
    if (!to->as_json) {
        add_word(to->out, line);
        add(to->out, "\n");
        if (hidden)
            add_register(to, 0, (unsigned)to->of->whole.result_gpr);
        return;
    }
    next_word(&line);
    add(to->out, "],\n \"result\": {\"place\": \"");
    add_word(to->out, without(line, 1));
    add(to->out, "\"");
    if (hidden) {
        add(to->out, ", \"hidden\": ");
        add_register(to, 0, (unsigned)to->of->whole.result_gpr);
    }
    add(to->out, "}");
}

void add_call(const plan *of, const call *on, int as_json, outcome *to)
{
    printer with = {NULL, NULL, 0, NULL, 0};
    fz_walker walker;
    size_t i;

    with.of = of;
    with.on = on;
    with.as_json = as_json;
    with.out = &to->out;
    fz_walk_start(&walker, of->signature.at, of->signature.length);
    add_head(&with);
    for (i = 0; i < of->whole.arguments; i++) {
        bytes value = zeros((size_t)of->places[i].size);
        fz_answer answer = step(&walker, of, on, i, value.at);

        if (size_of_type(of->whole.convention, item_of(of, i)) != of->places[i].size)
            fail(NULL, "argument %zu: the library has another size for its type", i);
        add_argument(&with, i, answer, value.at);
        if (answer.number != FZ_ACCEPTED)
            to->status = 1;
        free(value.at);
    }
    add_result(&with);
    add_not_looked_at(&with);
    if (as_json)
        add(&to->out, "}\n");
}

int refuses_call(const source *of, const plan *planned, outcome *to)
{
    if (planned->whole.answer.number == FZ_ACCEPTED)
        return 0;
    add_refusal(&to->out, planned->whole.answer);
    tell_refusal(&to->told, of, planned->whole.answer);
    to->status = 1;
    return 1;
}

/* Only one of the files can be standard input. */
static void one_standard_input(const words *given)
{
    const char *const files[] = {given->files[0], given->count > 1 ? given->files[1] : NULL,
                                 given->image, given->area, given->copies};
    int dashes = 0, i;

    for (i = 0; i < 5; i++)
        dashes += files[i] != NULL && strcmp(files[i], "-") == 0;
    if (dashes > 1)
        fail(NULL, "standard input can't be two of the files");
}

void values_verb(words *given, outcome *to)
{
    source of;
    plan planned;
    call on;

    if (given->count != 1 || given->image == NULL)
        fail(NULL, "values takes SIG --image FILE, and --area FILE for what is in memory ('-' is "
                   "standard input)");
    if ((given->copies == NULL) != (given->base == NULL))
        fail(NULL, "--copies and --base belong together");
    one_standard_input(given);
    on.base = number_or_zero(given->base);
    of = read_source(given, given->files[0]);
    on.image = read_bytes(given, given->image, LARGEST_INPUT);
    on.area = given->area == NULL ? zeros(0) : read_bytes(given, given->area, LARGEST_INPUT);
    on.copies = given->copies == NULL ? zeros(0) : read_bytes(given, given->copies, LARGEST_INPUT);
    more(&on.area, 0);
    more(&on.copies, 0);
    planned = plan_of(&of);
    if (on.image.length != IMAGE_BYTES) {
        place where = {{NULL, 0, 0}, 0, 0};

        add_quoted(&where.file, span_of(given->image));
        fail(&where, "%s (%d): %s, but %zu", refusal_name(FZ_IMAGE_SIZE), FZ_IMAGE_SIZE,
             refusal_meaning(FZ_IMAGE_SIZE), on.image.length);
    }
    if (!refuses_call(&of, &planned, to))
        add_call(&planned, &on, given->given & JSON, to);
    free_plan(&planned);
    free_source(&of);
    free(on.image.at);
    free(on.area.at);
    free(on.copies.at);
}
