/* Values as text: integers and floats as numbers, structs by their fields. What is printed is read
 * back as the same bytes, but for the padding of structs, which is then zero. */
#include "command.h"
#include <stdio.h>
#include <stdlib.h>
#include <string.h>

enum { INTEGER = 0x10, FLOAT = 0x11, STRUCT = 0x12 };
enum { SINGLE, DOUBLE, LONG_DOUBLE };
enum { POINTER = 8 };

#define Z 2
#define AIX 3

/* ---- the layout of types, as flakuzhen.h says it ---- */

/* Takes the first item off a list of items. */
static span next_item(span *items)
{
    span item = *items;

    item.length = 3 + ((size_t)item.at[1] << 8 | item.at[2]);
    *items = without(*items, item.length);
    return item;
}

static size_t round_up(size_t size, size_t alignment)
{
    return (size + alignment - 1) / alignment * alignment;
}

static size_t scalar_size(uint64_t convention, span item)
{
    unsigned code = item.at[3];

    if (item.at[0] == FLOAT)
        return (size_t)4 << code;
    if (code == POINTER)
        return convention == AIX ? 4 : 8;
    return (size_t)1 << code / 2;
}

/* A type's alignment; its size goes to *size. */
static size_t layout(uint64_t convention, span item, size_t *size)
{
    size_t alignment = 1;
    span fields = without(item, 3);

    if (item.at[0] != STRUCT)
        return *size = scalar_size(convention, item);
    *size = 0;
    while (fields.length > 0) {
        size_t field_size, field = layout(convention, next_item(&fields), &field_size);

        *size = round_up(*size, field) + field_size;
        if (field > alignment)
            alignment = field;
    }
    *size = round_up(*size, alignment);
    return alignment;
}

size_t size_of_type(uint64_t convention, span item)
{
    size_t size;

    layout(convention, item, &size);
    return size;
}

/* ---- floats ---- */

static double double_of(uint64_t bits)
{
    double number;

    memcpy(&number, &bits, sizeof number);
    return number;
}

static uint64_t bits_of(double number)
{
    uint64_t bits;

    memcpy(&bits, &number, sizeof bits);
    return bits;
}

static float single_of(uint32_t bits)
{
    float number;

    memcpy(&number, &bits, sizeof number);
    return number;
}

static uint32_t single_bits(float number)
{
    uint32_t bits;

    memcpy(&bits, &number, sizeof bits);
    return bits;
}

static int is_nan(uint64_t bits)
{
    return (bits & ~(UINT64_C(1) << 63)) > UINT64_C(0x7ff0000000000000);
}

/* The shortest decimal that reads back as the same bits, in a text of at least 32 bytes. */
static void shortest_double(char *text, uint64_t bits)
{
    char other[32];
    int digits;

    snprintf(text, 32, "%.17g", double_of(bits));
    for (digits = 16; digits > 0; digits--) {
        snprintf(other, sizeof other, "%.*g", digits, double_of(bits));
        if (bits_of(strtod(other, NULL)) == bits && strlen(other) < strlen(text))
            strcpy(text, other);
    }
}

static void shortest_single(char *text, uint32_t bits)
{
    char other[32];
    int digits;

    snprintf(text, 32, "%.9g", (double)single_of(bits));
    for (digits = 8; digits > 0; digits--) {
        snprintf(other, sizeof other, "%.*g", digits, (double)single_of(bits));
        if (single_bits(strtof(other, NULL)) == bits && strlen(other) < strlen(text))
            strcpy(text, other);
    }
}

/* Puts the 16 bytes of Z's long double with the value of a double that is no NaN. */
static void put_quad(uint8_t *to, uint64_t bits)
{
    uint64_t sign = bits >> 63, exponent = bits >> 52 & 0x7ff;
    uint64_t fraction = bits & UINT64_C(0xfffffffffffff), words[2];
    int i;

    if (exponent == 0x7ff) {
        exponent = 0x7fff;
    } else if (exponent != 0) {
        exponent += 16383 - 1023;
    } else if (fraction != 0) {
        /* a subnormal double is a normal long double */
        exponent = 16383 - 1022;
        while (fraction < UINT64_C(1) << 52) {
            fraction <<= 1;
            exponent--;
        }
        fraction &= UINT64_C(0xfffffffffffff);
    }
    words[0] = sign << 63 | exponent << 48 | fraction >> 4;
    words[1] = fraction << 60;
    for (i = 0; i < 16; i++)
        to[i] = (uint8_t)(words[i / 8] >> (56 - 8 * (i % 8)));
}

/* The bits of the double with the value of a long double, if there is one. PowerPC's is a pair of
 * doubles, whose sum it is, Z's has 113 bits of its own. */
static int double_of_long(uint64_t convention, const uint8_t *from, uint64_t *bits)
{
    uint64_t high = big_endian(from, 8), low = big_endian(from + 8, 8), exponent, fraction;
    uint8_t back[16];

    if (convention != Z) {
        *bits = high;
        return low == 0 && !is_nan(high);
    }
    exponent = high >> 48 & 0x7fff;
    fraction = (high & UINT64_C(0xffffffffffff)) << 4 | low >> 60;
    if (exponent == 0x7fff)
        exponent = 0x7ff;
    else if (exponent > 16383 - 1023 && exponent <= 16383 + 1023)
        exponent -= 16383 - 1023;
    else if (exponent != 0)
        return 0;
    *bits = high >> 63 << 63 | exponent << 52 | fraction;
    if (is_nan(*bits))
        return 0;
    put_quad(back, *bits);
    return memcmp(back, from, 16) == 0;
}

static int is_long_nan(uint64_t convention, const uint8_t *from)
{
    uint64_t high = big_endian(from, 8), low = big_endian(from + 8, 8);

    if (convention != Z)
        return is_nan(high);
    high &= ~(UINT64_C(1) << 63);
    return high > UINT64_C(0x7fff000000000000) ||
           (high == UINT64_C(0x7fff000000000000) && low != 0);
}

/* Adds a float: as a decimal, or by its bits where it is none of that size. */
static void add_float(bytes *out, uint64_t convention, unsigned format, const uint8_t *value)
{
    span all = {value, (size_t)4 << format};
    uint64_t bits = format == LONG_DOUBLE ? 0 : big_endian(value, all.length);
    char text[32];
    int nan, decimal = 1;

    if (format == SINGLE) {
        nan = (bits & 0x7fffffff) > 0x7f800000;
        shortest_single(text, (uint32_t)bits);
    } else {
        if (format == LONG_DOUBLE)
            decimal = double_of_long(convention, value, &bits);
        nan = format == DOUBLE ? is_nan(bits) : is_long_nan(convention, value);
        shortest_double(text, bits);
    }
    if (!nan && decimal) {
        add(out, "%s", text);
    } else {
        add(out, nan ? "nan:" : "bits:");
        add_hex(out, all);
    }
}

/* ---- printing ---- */

static void add_integer(bytes *out, unsigned code, const uint8_t *value, size_t size)
{
    uint64_t number = big_endian(value, size);

    if (code == POINTER)
        add(out, "0x%llx", (unsigned long long)number);
    else if (code % 2 == 0 && size < 8 && number >> (8 * size - 1) != 0)
        add(out, "-%llu", (unsigned long long)((UINT64_C(1) << 8 * size) - number));
    else if (code % 2 == 0 && size == 8 && number >> 63 != 0)
        add(out, "-%llu", (unsigned long long)(~number + 1));
    else
        add(out, "%llu", (unsigned long long)number);
}

void add_value(bytes *out, uint64_t convention, span item, const uint8_t *value, int as_json)
{
    span fields = without(item, 3);
    size_t at = 0, size;

    if (item.at[0] != STRUCT) {
        add(out, as_json ? "\"" : "");
        if (item.at[0] == FLOAT)
            add_float(out, convention, item.at[3], value);
        else
            add_integer(out, item.at[3], value, scalar_size(convention, item));
        add(out, as_json ? "\"" : "");
        return;
    }
    add(out, as_json ? "[" : "{");
    while (fields.length > 0) {
        span field = next_item(&fields);

        at = round_up(at, layout(convention, field, &size));
        add_value(out, convention, field, value + at, as_json);
        at += size;
        if (fields.length > 0)
            add(out, ", ");
    }
    add(out, as_json ? "]" : "}");
}

/* ---- reading ---- */

/* a text of values, and the token that comes next, which is empty at the end */
typedef struct {
    const plan *of;
    place *where;
    span text, token;
    const uint8_t *line_start;
} reader;

static int is_one_of(uint8_t byte, const char *bytes_of)
{
    return byte != 0 && strchr(bytes_of, byte) != NULL;
}

/* Goes to the next token: '{', '}', ',' or a word. */
static void advance(reader *from)
{
    span *text = &from->text;

    while (text->length > 0 && is_one_of(*text->at, " \t\r\n\f#")) {
        if (*text->at == '#')
            while (text->length > 1 && text->at[1] != '\n')
                *text = without(*text, 1);
        if (*text->at == '\n') {
            from->where->line++;
            from->line_start = text->at + 1;
        }
        *text = without(*text, 1);
    }
    from->where->column = (size_t)(text->at - from->line_start) + 1;
    from->token = *text;
    from->token.length = text->length > 0;
    if (text->length > 0 && !is_one_of(*text->at, "{},"))
        while (from->token.length < text->length &&
               !is_one_of(text->at[from->token.length], " \t\r\n\f#{},"))
            from->token.length++;
    *text = without(*text, from->token.length);
}

/* Ends with what was expected of a type, and what is there. */
static void fail_expecting(const reader *from, const char *what)
{
    bytes said = {NULL, 0, 0};

    if (from->token.length == 0)
        fail(from->where, "expected %s, and the text ends", what);
    add(&said, "expected %s, found ", what);
    add_byte(&said, 0);
    fail_at_word(from->where, (char *)said.at, from->token, "");
}

/* Adds a number as bytes, the highest first. */
static void add_number(bytes *to, uint64_t number, size_t size)
{
    while (size-- > 0)
        add_byte(to, (uint8_t)(number >> 8 * size));
}

static void read_integer(reader *from, span item, bytes *to)
{
    static const char *const expected[] = {"an i8: -128 to 127",
                                           "a u8: 0 to 255",
                                           "an i16: -32768 to 32767",
                                           "a u16: 0 to 65535",
                                           "an i32: -2147483648 to 2147483647",
                                           "a u32: 0 to 4294967295",
                                           "an i64: -9223372036854775808 to 9223372036854775807",
                                           "a u64: 0 to 18446744073709551615",
                                           "a pointer: 0 to 0xffffffffffffffff",
                                           "a pointer of AIX: 0 to 0xffffffff"};
    uint64_t convention = from->of->whole.convention, number, most;
    unsigned code = item.at[3];
    size_t size = scalar_size(convention, item);
    int is_signed = code != POINTER && code % 2 == 0, minus = begins(from->token, "-"), hex;
    span digits = without(from->token, minus);

    hex = begins(digits, "0x");
    /* the most of its magnitude */
    most = UINT64_MAX >> (64 - 8 * size) >> is_signed;
    if (is_signed && minus)
        most++;
    if (read_digits(without(digits, hex ? 2 : 0), hex ? 16 : 10, &number) != A_NUMBER ||
        number > most || (minus && !is_signed && number != 0))
        fail_expecting(from, expected[code + (code == POINTER && convention == AIX)]);
    add_number(to, minus ? ~number + 1 : number, size);
}

/* Reads the digits of all of a value's bytes. */
static int read_bits(span digits, size_t size, uint8_t *value)
{
    size_t i;

    if (digits.length != 2 * size)
        return 0;
    for (i = 0; i < 2 * size; i++) {
        unsigned digit = digit_value(digits.at[i]);

        if (digit == 16)
            return 0;
        value[i / 2] = (uint8_t)(value[i / 2] << 4 | digit);
    }
    return 1;
}

static int is_nan_value(uint64_t convention, unsigned format, const uint8_t *value)
{
    if (format == SINGLE)
        return (big_endian(value, 4) & 0x7fffffff) > 0x7f800000;
    if (format == DOUBLE)
        return is_nan(big_endian(value, 8));
    return is_long_nan(convention, value);
}

/* What C's functions read, but for the names of NaNs, which say no bits. */
static int is_decimal(const char *text)
{
    const char *at = text + (*text == '-' || *text == '+');

    return strcmp(at, "inf") == 0 || strcmp(at, "infinity") == 0 || (*at >= '0' && *at <= '9') ||
           *at == '.';
}

static void read_float(reader *from, span item, bytes *to)
{
    static const char *const expected[] = {
        "a single: 1.5, inf, nan:7fc00000, or its bits after 'bits:' in 8 digits",
        "a double: 1.5, inf, nan:7ff8000000000000, or its bits after 'bits:' in 16 digits",
        "a long double: a double's value, or its bits after 'bits:' in 32 digits"};
    uint64_t convention = from->of->whole.convention;
    unsigned format = item.at[3];
    size_t size = (size_t)4 << format;
    int as_bits = begins(from->token, "bits:"), as_nan = begins(from->token, "nan:"), good;
    uint8_t value[16] = {0};
    char text[400], *end;

    if (as_bits || as_nan) {
        good = read_bits(without(from->token, as_bits ? 5 : 4), size, value) &&
               (as_bits || is_nan_value(convention, format, value));
    } else {
        good = from->token.length < sizeof text;
        if (good) {
            bytes number = {NULL, 0, 0};

            memcpy(text, from->token.at, from->token.length);
            text[from->token.length] = '\0';
            good = strlen(text) == from->token.length && is_decimal(text);
            if (format == SINGLE)
                add_number(&number, single_bits(strtof(text, &end)), 4);
            else
                add_number(&number, bits_of(strtod(text, &end)), 8);
            good = good && *end == '\0';
            memcpy(value, number.at, number.length);
            if (format == LONG_DOUBLE && convention == Z)
                put_quad(value, big_endian(number.at, 8));
            free(number.at);
        }
    }
    if (!good)
        fail_expecting(from, expected[format]);
    for (size_t i = 0; i < size; i++)
        add_byte(to, value[i]);
}

/* Reads a value of a type, and what separates it from the next. */
static void read_value(reader *from, span item, bytes *to)
{
    uint64_t convention = from->of->whole.convention;
    span fields = without(item, 3);
    size_t start = to->length, size;

    if (item.at[0] == INTEGER) {
        read_integer(from, item, to);
        advance(from);
    } else if (item.at[0] == FLOAT) {
        read_float(from, item, to);
        advance(from);
    } else {
        if (!is(from->token, "{"))
            fail_expecting(from, "a struct: '{' and its fields");
        advance(from);
        while (fields.length > 0) {
            span field = next_item(&fields);
            size_t alignment = layout(convention, field, &size);

            while ((to->length - start) % alignment != 0)
                add_byte(to, 0);
            read_value(from, field, to);
        }
        size = size_of_type(convention, item);
        while (to->length - start < size)
            add_byte(to, 0);
        if (!is(from->token, "}"))
            fail_expecting(from, "'}': the struct has no more fields");
        advance(from);
    }
    if (is(from->token, ","))
        advance(from);
}

bytes read_values(const plan *of, place *where, span text)
{
    bytes values = {NULL, 0, 0};
    reader from;
    size_t i;

    from.of = of;
    from.where = where;
    from.text = text;
    from.token = text;
    from.line_start = text.at;
    where->line = 1;
    more(&values, 0);
    advance(&from);
    for (i = 0; i < of->whole.arguments; i++)
        read_value(&from, item_of(of, i), &values);
    if (from.token.length != 0)
        fail_expecting(&from, "nothing more: the call has no more arguments");
    where->line = where->column = 0;
    return values;
}
