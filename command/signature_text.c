/* Signatures as text: flakuzhen_text.h says what the functions do, and has the grammar. */
#include "flakuzhen_text.h"
#include <string.h>

/* ---- words ---- */

enum { CONVENTION = 0x01, RESULT = 0x02, ARGUMENTS = 0x03, ELLIPSIS = 0x04, STRUCT = 0x12 };

/* the items with a body of one byte */
static const struct {
    const char *word;
    uint8_t tag, code;
} items[] = {
    {"ppc64", CONVENTION, 1},  {"z", CONVENTION, 2}, {"aix", CONVENTION, 3},
    {"ppc64b", CONVENTION, 4}, {"i8", 0x10, 0},      {"u8", 0x10, 1},
    {"i16", 0x10, 2},          {"u16", 0x10, 3},     {"i32", 0x10, 4},
    {"u32", 0x10, 5},          {"i64", 0x10, 6},     {"u64", 0x10, 7},
    {"pointer", 0x10, 8},      {"single", 0x11, 0},  {"double", 0x11, 1},
    {"longdouble", 0x11, 2},
};

#define ITEMS (sizeof items / sizeof *items)

/* ---- text to bytes ---- */

/* where the next token is, the token, and what was made of those before it */
typedef struct {
    const char *text;
    size_t length;          /* of the text */
    size_t next, next_line; /* where to look for the next token */
    size_t line_start;
    size_t at, count; /* the token: where, and how many bytes; none at the text's end */
    size_t line, column;
    int ellipsis;         /* whether a '...' was met */
    const char *expected; /* what should stand where the token does not fit; NULL for no fault */
    uint8_t *out;
    size_t room, written; /* bytes that do not fit are counted alone */
    uint64_t place;       /* the last token to give bytes up to here is kept */
    size_t kept_at, kept_count, kept_line, kept_column;
} encoder;

static int is_word(char byte)
{
    return (byte >= 'a' && byte <= 'z') || (byte >= 'A' && byte <= 'Z') ||
           (byte >= '0' && byte <= '9') || byte == '_';
}

/* Goes to the next token: a word, '...' or one other byte. */
static void advance(encoder *of)
{
    size_t at = of->next;
    int comment = 0;

    for (; at < of->length; at++) {
        char byte = of->text[at];

        if (byte == '\n') {
            comment = 0;
            of->next_line++;
            of->line_start = at + 1;
        } else if (byte == '#') {
            comment = 1;
        } else if (!comment && byte != ' ' && byte != '\t' && byte != '\r' && byte != '\f') {
            break;
        }
    }
    of->at = at;
    of->line = of->next_line;
    of->column = at - of->line_start + 1;
    of->count = 0;
    while (at + of->count < of->length && is_word(of->text[at + of->count]))
        of->count++;
    if (of->count == 0 && of->length - at >= 3 && memcmp(of->text + at, "...", 3) == 0)
        of->count = 3;
    if (of->count == 0 && at < of->length)
        of->count = 1;
    of->next = at + of->count;
}

static int token_is(const encoder *of, const char *word)
{
    return of->count == strlen(word) && memcmp(of->text + of->at, word, of->count) == 0;
}

static void emit(encoder *of, uint8_t byte)
{
    if (of->written <= of->place) {
        of->kept_at = of->at;
        of->kept_count = of->count;
        of->kept_line = of->line;
        of->kept_column = of->column;
    }
    if (of->written < of->room)
        of->out[of->written] = byte;
    of->written++;
}

/* Writes two bytes over those that are there, where they are. */
static void put_length(encoder *of, size_t at, size_t length)
{
    if (at + 2 <= of->room) {
        of->out[at] = (uint8_t)(length >> 8);
        of->out[at + 1] = (uint8_t)length;
    }
}

/* Adds a header, whose length is put later, and gives where it is. */
static size_t open_item(encoder *of, uint8_t tag)
{
    size_t at = of->written;

    emit(of, tag);
    emit(of, 0);
    emit(of, 0);
    return at;
}

/* A body of over 65,535 bytes has no length that says so: the library refuses it as too long a
 * signature before it looks at any length. */
static void close_item(encoder *of, size_t header)
{
    put_length(of, header + 1, of->written - header - 3);
}

/* Adds the item that the token is the word of, if there is one with a tag in this range. */
static int one_byte_item(encoder *of, unsigned least, unsigned most)
{
    size_t i;

    for (i = 0; i < ITEMS; i++) {
        if (items[i].tag >= least && items[i].tag <= most && token_is(of, items[i].word)) {
            size_t header = open_item(of, items[i].tag);

            emit(of, items[i].code);
            close_item(of, header);
            advance(of);
            return 1;
        }
    }
    return 0;
}

/* One type, however deep: while a struct is open, its header's length holds where the struct around
 * it has its header, so that nothing grows with the depth. A header that has no room is counted. */
static void type(encoder *of, const char *expected)
{
    size_t depth = 0, innermost = 0, without_room = 0;

    do {
        /* a type, or what closes a struct without fields */
        if (token_is(of, "{")) {
            size_t header = open_item(of, STRUCT);

            depth++;
            if (of->written <= of->room && header <= 0xffff) {
                put_length(of, header + 1, innermost);
                innermost = header;
            } else {
                without_room++;
            }
            advance(of);
            expected = "a type, or '}'";
            if (!token_is(of, "}"))
                continue;
        } else if (!one_byte_item(of, 0x10, 0x11)) {
            of->expected = expected;
            return;
        }
        while (depth > 0 && token_is(of, "}")) {
            if (without_room > 0) {
                without_room--;
            } else {
                size_t around = (size_t)of->out[innermost + 1] << 8 | of->out[innermost + 2];

                close_item(of, innermost);
                innermost = around;
            }
            depth--;
            advance(of);
        }
        if (depth > 0) {
            if (!token_is(of, ",")) {
                of->expected = "',' or '}'";
                return;
            }
            advance(of);
            expected = "a type";
        }
    } while (depth > 0);
}

/* The types after '(', and ')' itself. */
static void arguments(encoder *of)
{
    const char *expected = "a type, '...' or ')'";

    if (token_is(of, ")")) {
        advance(of);
        return;
    }
    for (;;) {
        if (token_is(of, "...")) {
            of->ellipsis = 1;
            advance(of);
            if (!token_is(of, ")"))
                of->expected = "')': nothing comes after '...'";
            else
                advance(of);
            return;
        }
        type(of, expected);
        if (of->expected != NULL)
            return;
        if (token_is(of, ")")) {
            advance(of);
            return;
        }
        if (!token_is(of, ",")) {
            of->expected = "',' or ')'";
            return;
        }
        advance(of);
        expected = "a type, or '...'";
    }
}

static void text_end(encoder *of)
{
    if (of->expected == NULL && of->count != 0)
        of->expected = "nothing more";
}

/* The whole signature. The bytes have the ellipsis before the arguments, the text has it after
 * them: whether there is one must be known. */
static void signature(encoder *of, int ellipsis)
{
    size_t header;

    advance(of);
    if (!one_byte_item(of, CONVENTION, CONVENTION)) {
        of->expected = "a convention: ppc64, z, aix or ppc64b";
        return;
    }
    header = open_item(of, RESULT);
    if (token_is(of, "void"))
        advance(of);
    else
        type(of, "the result's type, or 'void'");
    close_item(of, header);
    if (of->expected != NULL)
        return;
    if (!token_is(of, "(")) {
        of->expected = "'('";
        return;
    }
    if (ellipsis)
        close_item(of, open_item(of, ELLIPSIS));
    header = open_item(of, ARGUMENTS);
    advance(of);
    arguments(of);
    close_item(of, header);
    text_end(of);
}

static encoder start(const char *text, size_t length, uint8_t *out, size_t room, uint64_t place)
{
    encoder of;

    memset(&of, 0, sizeof of);
    of.text = text;
    of.length = length;
    of.next_line = 1;
    of.out = out;
    of.room = room;
    of.place = place;
    return of;
}

/* Encodes, where the token of a place is kept. */
static encoder encode(const char *text, size_t length, uint8_t *out, size_t room, uint64_t place)
{
    encoder of = start(text, length, out, room, place);

    signature(&of, 0);
    if (of.expected == NULL && of.ellipsis) {
        of = start(text, length, out, room, place);
        signature(&of, 1);
    }
    return of;
}

/* What is told of a text that does not follow the grammar. */
static fz_encoded fault(const encoder *of)
{
    fz_encoded told = {{0, 0, 0}, NULL, 0, 0, 0, 0};

    told.expected = of->expected;
    told.offset = of->at;
    told.line = of->line;
    told.column = of->column;
    return told;
}

/* The same with the kept token. */
static fz_encoded kept(const encoder *of)
{
    fz_encoded told = fault(of);

    if (of->expected == NULL) {
        told.offset = of->kept_at;
        told.line = of->kept_line;
        told.column = of->kept_column;
        told.length = of->kept_count;
    }
    return told;
}

fz_encoded fz_token_at(const char *text, size_t text_length, uint64_t place)
{
    uint8_t bytes[FZ_LONGEST_SIGNATURE + 1];
    encoder of = encode(text, text_length, bytes, sizeof bytes, place);

    return kept(&of);
}

/* Ends an encoding: the library's answer, and the bytes where they fit. */
static fz_encoded finish(const encoder *of, fz_answer answer, uint8_t *to, size_t length)
{
    fz_encoded told = kept(of);

    told.answer = answer;
    told.length = 0;
    if (answer.number == FZ_ACCEPTED) {
        told.length = of->written;
        told.offset = told.line = told.column = 0;
        if (of->written <= length)
            memcpy(to, of->out, of->written);
    }
    return told;
}

fz_encoded fz_encode(const char *text, size_t text_length, uint8_t *sig, size_t sig_length)
{
    uint8_t bytes[FZ_LONGEST_SIGNATURE + 1];
    encoder of = encode(text, text_length, bytes, sizeof bytes, 0);
    fz_encoded told;

    if (of.expected != NULL)
        return fault(&of);
    told =
        finish(&of, fz_read_signature(bytes, of.written < sizeof bytes ? of.written : sizeof bytes),
               sig, sig_length);
    if (told.answer.number != FZ_ACCEPTED) {
        fz_answer answer = told.answer;

        told = fz_token_at(text, text_length, answer.place);
        told.length = 0;
        told.answer = answer;
    }
    return told;
}

fz_encoded fz_encode_type(const char *text, size_t text_length, uint8_t *item, size_t item_length)
{
    uint8_t bytes[FZ_LONGEST_SIGNATURE + 1];
    encoder of = start(text, text_length, bytes, sizeof bytes, 0);
    fz_answer answer = {0, 0, 0};

    advance(&of);
    type(&of, "a type");
    text_end(&of);
    if (of.expected != NULL)
        return fault(&of);
    if (of.written > FZ_LONGEST_SIGNATURE)
        answer = fz_read_signature(bytes, sizeof bytes);
    return finish(&of, answer, item, item_length);
}

/* ---- bytes to text ---- */

/* text that is counted where it has no room */
typedef struct {
    char *text;
    size_t room, length;
} decoder;

static void put(decoder *to, const char *word)
{
    for (; *word != '\0'; word++, to->length++)
        if (to->length < to->room)
            to->text[to->length] = *word;
}

/* The word of an item with a body of one byte. */
static const char *word_of(uint8_t tag, uint8_t code)
{
    size_t i;

    for (i = 0; i < ITEMS; i++)
        if (items[i].tag == tag && items[i].code == code)
            return items[i].word;
    return "?";
}

static size_t body_length(const uint8_t *header)
{
    return (size_t)header[1] << 8 | header[2];
}

/* The types in a range of an accepted signature, with commas between them. */
static void put_types(decoder *to, const uint8_t *sig, size_t at, size_t end)
{
    size_t ends[16], depth = 0; /* of the structs around `at`, which are 8 at the most */

    while (at < end) {
        if (sig[at] == STRUCT && depth < 16) {
            put(to, "{");
            ends[depth++] = at + 3 + body_length(sig + at);
            at += 3;
            continue;
        }
        put(to, word_of(sig[at], sig[at + 3]));
        at += 4;
        for (; depth > 0 && at >= ends[depth - 1]; depth--)
            put(to, "}");
        if (at < end)
            put(to, ", ");
    }
}

/* Writes a text a second time, now that its length is known. */
typedef void write_text(decoder *to, const uint8_t *sig, size_t at, size_t end);

static size_t write_where_it_fits(write_text *write, const uint8_t *sig, size_t at, size_t end,
                                  char *text, size_t text_length)
{
    decoder measured = {NULL, 0, 0}, written = {NULL, 0, 0};

    write(&measured, sig, at, end);
    if (measured.length <= text_length) {
        written.text = text;
        written.room = text_length;
        write(&written, sig, at, end);
    }
    return measured.length;
}

static void put_signature(decoder *to, const uint8_t *sig, size_t at, size_t end)
{
    size_t arguments_at;
    int ellipsis;

    put(to, word_of(sig[at], sig[at + 3]));
    put(to, " ");
    at += 4;
    arguments_at = at + 3 + body_length(sig + at);
    if (arguments_at == at + 3)
        put(to, "void");
    put_types(to, sig, at + 3, arguments_at);
    ellipsis = sig[arguments_at] == ELLIPSIS;
    arguments_at += ellipsis ? 6 : 3;
    put(to, "(");
    put_types(to, sig, arguments_at, end);
    if (ellipsis)
        put(to, arguments_at == end ? "..." : ", ...");
    put(to, ")");
}

fz_decoded fz_decode(const uint8_t *sig, size_t sig_length, char *text, size_t text_length)
{
    fz_decoded decoded;

    decoded.answer = fz_read_signature(sig, sig_length);
    decoded.length = 0;
    if (decoded.answer.number == FZ_ACCEPTED)
        decoded.length = write_where_it_fits(put_signature, sig, 0, sig_length, text, text_length);
    return decoded;
}

uint64_t fz_decode_type(const uint8_t *sig, size_t sig_length, uint64_t item, char *text,
                        size_t text_length)
{
    size_t at = (size_t)item, end;

    if (item > sig_length || sig_length - at < 4)
        return 0;
    end = at + 3 + body_length(sig + at);
    if (end > sig_length)
        return 0;
    return write_where_it_fits(put_types, sig, at, end, text, text_length);
}
