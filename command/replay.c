/* Lists of calls of the frame machine: a text with one call to a line, blank lines, and from '#' to
 * the end of a line a comment. Each call is made as soon as its
 * line is read; the calls before a bad line leave no trace, as that ends the command with nothing
 * printed. */
#include "command.h"
#include <stdlib.h>
#include <string.h>

/* The most memory that a start may ask for: far above what the library takes, so that its own
 * refusal can be seen, and little enough to be had. */
#define LARGEST_MEMORY 1048576

/* Gives the machine a memory of zeros. */
static void renew_memory(machine *on, size_t size)
{
    free(on->memory);
    on->size = size;
    /* one byte more, for never none: the library takes no null pointer */
    on->memory = calloc(size + 1, 1);
    if (on->memory == NULL)
        fail(NULL, "no memory left");
}

uint64_t stack_pointer(const fz_machine *of)
{
    return of->registers.gpr[of->convention == 2 ? 15 : 1];
}

/* ---- the calls: each reads the words after the call's name, and makes it ---- */

static fz_answer start(const place *where, span line, machine *on)
{
    static const fz_registers all_zeros;
    static fz_answer (*const starts[])(fz_machine *, const fz_registers *, uint64_t, uint8_t *,
                                       size_t) = {fz_start_ppc64, fz_start_z, fz_start_aix,
                                                  fz_start_ppc64b};
    span convention = next_word(&line), size = next_word(&line), base = next_word(&line);
    uint64_t length, address, code;

    if (base.length == 0 || next_word(&line).length != 0)
        fail(where, "a start is 'start CONVENTION SIZE BASE', of ppc64, z, aix or ppc64b");
    code = read_convention(where, convention);
    length = read_number(where, size);
    if (length > LARGEST_MEMORY)
        fail(where, "a memory of over %d bytes", LARGEST_MEMORY);
    address = read_number(where, base);
    renew_memory(on, (size_t)length);
    return starts[code - 1](&on->state, &all_zeros, address, on->memory, on->size);
}

/* Each word at most once and in any order. Only those for the first saved registers must be there:
 * what they are without any is not the same in all conventions. */
static fz_answer enter(const place *where, span line, machine *on)
{
    static const char *const names[] = {"g", "m", "cr", "locals", "out"};
    fz_frame request = {0, 0, 0, 0, 0, 0};
    uint64_t *const values[] = {&request.first_gpr, &request.first_fpr, &request.saves_cr,
                                &request.locals, &request.outgoing};
    int given[] = {0, 0, 0, 0, 0}, i;
    span word;

    for (word = next_word(&line); word.length != 0; word = next_word(&line)) {
        const uint8_t *equals = memchr(word.at, '=', word.length);
        span name = word;

        if (is(word, "leaf")) {
            if (request.leaf)
                fail_at_word(where, "", word, " twice in an enter");
            request.leaf = 1;
            continue;
        }
        if (equals != NULL)
            name.length = (size_t)(equals - word.at);
        for (i = 0; i < 4 && !is(name, names[i]); i++)
            ;
        if (equals == NULL || !is(name, names[i]))
            fail_at_word(where, "", word,
                         " in an enter, which has leaf, g=, m=, cr=, locals=, out=");
        if (given[i])
            fail_at_word(where, "", name, " twice in an enter");
        given[i] = 1;
        *values[i] = read_number(where, without(word, name.length + 1));
    }
    for (i = 0; i < 2; i++)
        if (!given[i])
            fail(where, "an enter without %s=", names[i]);
    return fz_enter(&on->state, &request, on->memory, on->size);
}

static fz_answer write_register(const place *where, span name, span value, machine *on)
{
    /* in the order of their numbers */
    static const char *const banks[] = {"r", "f", "lr", "cr"};
    uint64_t bank, number = 0;
    span letters = name, digits;
    int known;

    while (letters.length > 0 && digit_value(name.at[letters.length - 1]) < 10)
        letters.length--;
    digits = without(name, letters.length);
    for (bank = 0; bank < 3 && !is(letters, banks[bank]); bank++)
        ;
    /* whether there is a register of this number is the library's to say */
    known = bank == 2 ? digits.length == 0 : read_digits(digits, 10, &number) == A_NUMBER;
    if (!known || !is(letters, banks[bank]))
        fail_at_word(where, "", name, " is nothing to write: r0, f0, lr, cr0, mem");
    return fz_write_register(&on->state, bank, number, read_number(where, value), on->memory,
                             on->size);
}

static fz_answer write_memory(const place *where, span address, span line, machine *on)
{
    uint64_t first = read_number(where, address);
    place here = *where;
    bytes written = {NULL, 0, 0};
    fz_answer answer;
    span word;

    for (word = next_word(&line); word.length != 0; word = next_word(&line))
        decode_word(&here, word, &written);
    if (written.length == 0)
        fail(where, "a write of no bytes");
    answer = fz_write_memory(&on->state, first, written.at, written.length, on->memory, on->size);
    free(written.at);
    return answer;
}

static fz_answer write_either(const place *where, span line, machine *on)
{
    span to = next_word(&line), value = next_word(&line);

    if (is(to, "mem") && value.length != 0)
        return write_memory(where, value, line, on);
    if (value.length == 0 || next_word(&line).length != 0)
        fail(where, "a write is 'write REGISTER VALUE' or 'write mem ADDRESS BYTES'");
    return write_register(where, to, value, on);
}

static fz_answer leave(const place *where, span line, machine *on)
{
    if (next_word(&line).length != 0)
        fail(where, "a leave has no words after it");
    return fz_leave(&on->state, on->memory, on->size);
}

/* ---- the list ---- */

static const struct {
    const char *name;
    fz_answer (*make)(const place *, span, machine *);
} calls[] = {{"start", start}, {"enter", enter}, {"leave", leave}, {"write", write_either}};

/* Makes the call that a word and the rest of its line say, and adds a line for it. */
static fz_answer make(const place *where, span word, span line, machine *on, bytes *out)
{
    int call, writes;
    fz_answer answer;

    for (call = 0; call < 3 && !is(word, calls[call].name); call++)
        ;
    if (!is(word, calls[call].name))
        fail_at_word(where, "", word, " is no call: start, enter, write or leave");
    answer = calls[call].make(where, line, on);
    if (on->state.convention == 0)
        fail_at_word(where, "", word, " before the first start");

    add(out, "%zu %s", where->line, calls[call].name);
    writes = is(word, "write");
    if (writes) {
        /* what is written belongs to the call's name */
        add(out, " ");
        add_word(out, next_word(&line));
    }
    if (answer.number != FZ_ACCEPTED)
        add(out, ": refused %llu at %llu\n", (unsigned long long)answer.number,
            (unsigned long long)answer.place);
    else if (writes)
        add(out, ": accepted\n");
    else
        add(out, ": accepted, stack pointer 0x%llx\n",
            (unsigned long long)stack_pointer(&on->state));
    return answer;
}

/* Whether the bytes are UTF-8. */
static int is_text(span line)
{
    /* for each count of bytes the first character that needs so many */
    static const uint32_t first[] = {0, 0, 0x80, 0x800, 0x10000};

    while (line.length > 0) {
        uint8_t byte = *line.at;
        size_t count = byte < 0x80 ? 1 : byte < 0xe0 ? 2 : byte < 0xf0 ? 3 : 4, i;
        uint32_t character = count == 1 ? byte : byte & (0x7fu >> count);

        if ((byte >= 0x80 && byte < 0xc0) || byte >= 0xf8 || count > line.length)
            return 0;
        for (i = 1; i < count; i++) {
            if ((line.at[i] & 0xc0) != 0x80)
                return 0;
            character = character << 6 | (line.at[i] & 0x3f);
        }
        if (character < first[count] || character > 0x10ffff || character >> 11 == 0xd800 >> 11)
            return 0;
        line = without(line, count);
    }
    return 1;
}

/* Makes the calls of a file's text and adds a line for each. With a picture the stack follows
 * wherever the drawing has changed. */
static void replay(place *where, span text, int with_picture, outcome *to)
{
    bytes drawn = {NULL, 0, 0};
    machine on = {0};

    renew_memory(&on, 0);
    for (where->line = 1; text.length > 0; where->line++) {
        span line = next_line(&text), word;
        bytes picture = {NULL, 0, 0};
        fz_answer answer;

        if (!is_text(line))
            fail(where, "this is no text");
        word = next_word(&line);
        if (word.length == 0)
            continue;
        answer = make(where, word, line, &on, &to->out);
        if (answer.number != FZ_ACCEPTED) {
            tell_number(&to->told, where, "", answer.number);
            to->status = 1;
        }
        if (!with_picture)
            continue;
        /* where a start is refused, the machine before it is gone all the same */
        if (on.state.size != 0)
            draw_stack(&on, &picture);
        if (picture.length != drawn.length ||
            (drawn.length > 0 && memcmp(picture.at, drawn.at, drawn.length) != 0))
            add_word(&to->out, span_of_bytes(&picture));
        free(drawn.at);
        drawn = picture;
    }
    free(drawn.at);
    free(on.memory);
}

void replay_verb(words *given, outcome *to)
{
    place where = {{NULL, 0, 0}, 0, 0};
    bytes calls;

    if (given->count != 1)
        fail(NULL, "replay takes one FILE ('-' is standard input)");
    calls = read_file(given->files[0], &where, LARGEST_INPUT);
    replay(&where, span_of_bytes(&calls), given->given & PICTURE, to);
    free(where.file.at);
    free(calls.at);
}
