/* Bytes that grow, messages, and the lines, words and digits of a text. */
#include "command.h"
#include <stdarg.h>
#include <stdio.h>
#include <stdlib.h>
#include <string.h>

/* ---- bytes ---- */

span span_of(const char *text)
{
    span all = {(const uint8_t *)text, strlen(text)};

    return all;
}

span span_of_bytes(const bytes *of)
{
    span all = {of->at, of->length};

    return all;
}

int is(span word, const char *text)
{
    return word.length == strlen(text) && memcmp(word.at, text, word.length) == 0;
}

int begins(span word, const char *text)
{
    return word.length >= strlen(text) && memcmp(word.at, text, strlen(text)) == 0;
}

span without(span word, size_t count)
{
    word.at += count;
    word.length -= count;
    return word;
}

uint8_t *more(bytes *to, size_t count)
{
    if (count >= to->room - to->length) {
        to->room = 2 * (to->length + count) + 64;
        to->at = realloc(to->at, to->room);
        if (to->at == NULL)
            fail(NULL, "no memory left");
    }
    return to->at + to->length;
}

bytes zeros(size_t count)
{
    bytes of = {NULL, 0, 0};

    memset(more(&of, count), 0, count);
    of.length = count;
    return of;
}

void add_word(bytes *to, span word)
{
    if (word.length > 0)
        memcpy(more(to, word.length), word.at, word.length);
    to->length += word.length;
}

void add_byte(bytes *to, uint8_t byte)
{
    *more(to, 1) = byte;
    to->length++;
}

void add(bytes *to, const char *format, ...)
{
    va_list rest;
    int length;

    va_start(rest, format);
    length = vsnprintf(NULL, 0, format, rest);
    va_end(rest);
    if (length < 0)
        fail(NULL, "no memory left");
    more(to, (size_t)length + 1);
    va_start(rest, format);
    vsnprintf((char *)to->at + to->length, (size_t)length + 1, format, rest);
    va_end(rest);
    to->length += (size_t)length;
}

void add_hex(bytes *to, span of)
{
    static const char digits[] = "0123456789abcdef";

    for (; of.length > 0; of = without(of, 1)) {
        add_byte(to, (uint8_t)digits[*of.at >> 4]);
        add_byte(to, (uint8_t)digits[*of.at & 15]);
    }
}

/* ---- messages ---- */

/* Adds a byte as it is where it can be printed and is no quote, else its escape, of which `other`
 * is the form for bytes that have none of their own. */
static void add_escaped(bytes *to, uint8_t byte, const char *quotes, const char *other)
{
    if (byte == '\t' || byte == '\n' || byte == '\r')
        add(to, "\\%c", byte == '\t' ? 't' : byte == '\n' ? 'n' : 'r');
    else if (byte == '\\' || (byte && strchr(quotes, byte)))
        add(to, "\\%c", byte);
    else if (byte >= 0x20 && byte < 0x7f)
        add_byte(to, byte);
    else
        add(to, other, byte);
}

/* The form of bytes that can't be printed. Those of characters beyond ASCII stay. */
static const char *other_form(uint8_t byte)
{
    return byte == 0 ? "\\0" : byte < 0x80 ? "\\u{%x}" : "%c";
}

void add_quoted(bytes *to, span word)
{
    add_byte(to, '"');
    for (; word.length > 0; word = without(word, 1))
        add_escaped(to, *word.at, "\"", other_form(*word.at));
    add_byte(to, '"');
}

void add_name(bytes *to, span word)
{
    for (; word.length > 0; word = without(word, 1))
        add_escaped(to, *word.at, "", other_form(*word.at));
}

void add_mark(bytes *to, uint8_t byte)
{
    add_escaped(to, byte, "'\"", "\\x%02x");
}

void add_where(bytes *to, const place *where)
{
    add(to, "flakuzhen: ");
    if (where == NULL)
        return;
    add_word(to, span_of_bytes(&where->file));
    add(to, ": ");
    if (where->line != 0 && where->column != 0)
        add(to, "line %zu, column %zu: ", where->line, where->column);
    else if (where->line != 0)
        add(to, "line %zu: ", where->line);
}

void fail(const place *where, const char *what, ...)
{
    static const span nothing = {(const uint8_t *)"", 0};
    static int failing;
    bytes line = {NULL, 0, 0};
    span told = span_of("flakuzhen: no memory left\n");
    char text[1024];
    va_list rest;

    /* where there is no memory for the message either, this is called by itself */
    if (failing++ == 0) {
        va_start(rest, what);
        vsnprintf(text, sizeof text, what, rest);
        va_end(rest);
        add_where(&line, where);
        add(&line, "%s\n", text);
        told = span_of_bytes(&line);
    }
    failing = 0;
    print(nothing, told, 2);
    exit(2);
}

void fail_at_word(const place *where, const char *before, span word, const char *after)
{
    bytes text = {NULL, 0, 0};

    add_quoted(&text, word);
    /* a word may be as long as a file: its beginning is enough */
    if (text.length > 200) {
        text.length = 200;
        add(&text, "..\"");
    }
    fail(where, "%s%.*s%s", before, (int)text.length, (char *)text.at, after);
}

/* ---- what is read of a text ---- */

span next_line(span *text)
{
    const uint8_t *end = memchr(text->at, '\n', text->length), *comment;
    span line = *text;

    if (end != NULL)
        line.length = (size_t)(end - line.at);
    *text = without(*text, line.length + (end != NULL));
    comment = memchr(line.at, '#', line.length);
    if (comment != NULL)
        line.length = (size_t)(comment - line.at);
    return line;
}

static int is_space(uint8_t byte)
{
    return byte == ' ' || byte == '\t' || byte == '\n' || byte == '\f' || byte == '\r';
}

span next_word(span *line)
{
    span word;

    while (line->length > 0 && is_space(*line->at))
        *line = without(*line, 1);
    word = *line;
    while (line->length > 0 && !is_space(*line->at))
        *line = without(*line, 1);
    word.length -= line->length;
    return word;
}

unsigned digit_value(uint8_t digit)
{
    static const char digits[] = "0123456789abcdef0123456789ABCDEF";
    const char *at = digit ? strchr(digits, digit) : NULL;

    return at == NULL ? 16 : (unsigned)(at - digits) % 16;
}

enum digits read_digits(span digits, unsigned radix, uint64_t *number)
{
    enum digits kind = digits.length == 0 ? NO_DIGITS : A_NUMBER;

    for (*number = 0; digits.length > 0; digits = without(digits, 1)) {
        unsigned value = digit_value(*digits.at);

        if (value >= radix)
            return NO_DIGITS;
        if (*number > (UINT64_MAX - value) / radix)
            kind = OVER_64_BITS;
        *number = *number * radix + value;
    }
    return kind;
}

uint64_t read_number(const place *where, span word)
{
    int hex = begins(word, "0x");
    uint64_t number;
    enum digits kind = read_digits(without(word, hex ? 2 : 0), hex ? 16 : 10, &number);

    if (kind != A_NUMBER)
        fail_at_word(where, "", word, kind == NO_DIGITS ? " is no number" : " is over 64 bits");
    return number;
}

uint64_t number_or_zero(const char *word)
{
    return word == NULL ? 0 : read_number(NULL, span_of(word));
}

uint64_t big_endian(const uint8_t *from, size_t length)
{
    uint64_t number = 0;

    while (length-- > 0)
        number = number << 8 | *from++;
    return number;
}
