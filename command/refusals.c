/* What the numbers of refusals mean, on standard error and in `explain`. */
#include "command.h"
#include <stdlib.h>
#include <string.h>

static const struct {
    uint64_t number;
    const char *name;    /* the header's */
    const char *meaning; /* in one line */
    const char *advice;  /* what to look at */
} refusals[] = {
    {1, "FZ_TOO_LONG", "the signature is over 16,384 bytes",
     "Is the file a signature at all? 128 arguments of structs with few fields fit well."},
    {2, "FZ_TRUNCATED", "no room for an item's header, or its length passes the enclosing end",
     "Count the lengths again, or write the signature as text: 'flakuzhen encode' counts them."},
    {3, "FZ_UNEXPECTED_TAG", "a tag that is not allowed there",
     "The items come in this order: 01 convention, 02 result, 04 where there is an ellipsis, 03\n"
     "arguments. Types are 10 integer, 11 float and 12 struct. A length that is too short or too\n"
     "long by some bytes also ends here: the next header is looked for in the wrong place."},
    {4, "FZ_MALFORMED",
     "a length or code that is not allowed, an empty struct, or bytes after the one type",
     "An integer's and a float's body is one byte, a code from the table; a struct has a field at\n"
     "least; a result is one type."},
    {5, "FZ_LONG_DOUBLE_IN_STRUCT", "a long double inside a struct",
     "No convention here carries one. Pass it as an argument of its own, or by a pointer."},
    {6, "FZ_TOO_DEEP", "structs nested deeper than 8",
     "An argument's own struct has depth 1. A struct of nothing but one struct can be left out."},
    {7, "FZ_TOO_MANY_ARGUMENTS", "bytes after the 128th argument",
     "No more than 128 arguments are planned. Pass the others by a pointer to a struct."},
    {8, "FZ_STRUCT_TOO_LARGE", "a struct of over 256 bytes",
     "Padding between fields counts. Pass a larger one by a pointer."},
    {9, "FZ_TRAILING_BYTES", "bytes after the arguments",
     "The arguments' item is the last one. Is its length too short? An ellipsis stands before it."},
    {10, "FZ_VALUES_SIZE", "the buffer of values is not exactly of the arguments' size",
     "fz_measure says how many bytes the values have: all arguments' sizes, without gaps."},
    {11, "FZ_AREA_TOO_SHORT", "the buffer of parameters is shorter than the area",
     "The area is at least as long as the first line of the listing says. Does the file begin\n"
     "where the area does: 48 bytes above the stack pointer on PPC64, 24 on AIX, 160 on Z?"},
    {12, "FZ_BAD_COPIES",
     "the copy buffer is too short, or its address is no multiple of 8 or too high, or a hidden "
     "address on AIX is over 32 bits",
     "Give copies of the length that fz_measure says, at an address that is a multiple of 8."},
    {13, "FZ_OUTSIDE_COPIES",
     "an address that does not lie in the copy buffer with all that it points at",
     "The register or the 8 bytes of the area hold the address of the argument's copy. Are the\n"
     "copies whole, and is their base the address of their first byte?"},
    {14, "FZ_NOT_WIDENED", "the bits of a double that is no widened single",
     "A single stands in a floating register as the double of its value. What stands there is no\n"
     "such double: was it passed as a double, or is it in another register?"},
    {15, "FZ_IMAGE_SIZE", "the image of the registers is not 512 bytes",
     "General register n is at 8n, floating register n at 256 + 8n, in every convention."},
    {16, "FZ_BAD_MEMORY",
     "a machine's memory or base that is not allowed, or a memory of another length",
     "A memory is a multiple of 16 bytes, 256 (PPC64 400, AIX 288) to 65,536, at a multiple of 16,\n"
     "and ends below 2^64, on AIX below 2^32."},
    {17, "FZ_BAD_REQUEST", "a frame request out of range",
     "g 14 to 32 (AIX 13 to 32, Z 6 to 14), m 14 to 32 (Z 8 to 16), cr 0 or 1 (Z 0), locals up to\n"
     "32,000, out a multiple of 8 up to 32,776; a leaf, never on Z, has locals and out 0."},
    {18, "FZ_TOO_MANY_FRAMES", "already 32 frames", "Leave one first."},
    {19, "FZ_NO_ROOM", "no room on the stack for the frame",
     "The new stack pointer would be below the memory, or without the floor under it (288 bytes on\n"
     "PPC64, 220 on AIX)."},
    {20, "FZ_NOT_PERMITTED", "a write that is not permitted",
     "A function writes its volatile registers, those that it has saved, its locals, its outgoing\n"
     "area and its caller's, within one of these; on AIX values of 32 bits."},
    {21, "FZ_BROKEN_CHAIN",
     "the back chain, on Z the saved r15, is not the caller's stack pointer",
     "Something wrote over the stack."},
    {22, "FZ_NOTHING_ENTERED", "no frame to leave", "Every frame that was entered has been left."},
    {23, "FZ_BAD_STATE", "a machine's or a walker's state that cannot be",
     "The state was changed or never started. After a refused start every call says this."},
    {24, "FZ_NO_VIEW", "no home or view for this convention, or no argument with this index",
     "Only PPC64 and AIX have a place in the area for every argument."},
    {25, "FZ_FLOAT_NOT_CARRIED", "a long double on AIX, or a double inside a struct there",
     "No other description of it is known to be right. Pass it by a pointer."},
    {26, "FZ_FLOATS_DIFFER",
     "a float's general registers hold other bytes than its floating register",
     "Under an ellipsis gcc leaves the general registers of named floats as they are. Read the call\n"
     "by the signature without the ellipsis (docs/COMPILERS.md)."},
    {27, "FZ_STALE", "the stored bytes are not the signature's plan",
     "The place is the first byte that differs, or the shorter length. Store the plan again."},
    {28, "FZ_ABOVE_LEAF", "an enter above a leaf", "A leaf calls nothing: leave it first."},
    {29, "FZ_UNCLEAR_PLACE", "a long double for which only f13 is left",
     "The papers don't say where it goes. Describe it as two doubles, as compilers pass it."},
    {30, "FZ_BAD_ADDRESS",
     "an address in a dump that is not aligned, not inside with its header or not above the one "
     "before, or a dump that ends past the last address",
     "The frames before it are printed. Is the base the address of the dump's first byte, and the\n"
     "pointer r1, on Z r15?"},
    {31, "FZ_CHAIN_TOO_LONG", "a back chain of over 4,096 frames", "A stack so deep is a loop's."},
    {32, "FZ_LIST_TOO_SHORT", "a list that is too short for all frames",
     "4,096 numbers are always enough."},
    {33, "FZ_STORED_TOO_SHORT", "a buffer that is too short for the stored plan",
     "fz_stored_length says how many bytes it has."},
};

#define REFUSALS (sizeof refusals / sizeof *refusals)

static size_t find(uint64_t number)
{
    size_t i;

    for (i = 0; i < REFUSALS && refusals[i].number != number; i++)
        ;
    return i;
}

const char *refusal_name(uint64_t number)
{
    size_t at = find(number);

    return at < REFUSALS ? refusals[at].name : "unknown";
}

const char *refusal_meaning(uint64_t number)
{
    size_t at = find(number);

    return at < REFUSALS ? refusals[at].meaning : "a refusal that this version has no words for";
}

void add_refusal(bytes *out, fz_answer answer)
{
    add(out, "refused %llu at %llu after %llu\n", (unsigned long long)answer.number,
        (unsigned long long)answer.place, (unsigned long long)answer.items);
}

void tell_number(bytes *told, const place *where, const char *about, uint64_t number)
{
    add_where(told, where);
    add(told, "%s%s (%llu): %s\n", about, refusal_name(number), (unsigned long long)number,
        refusal_meaning(number));
}

/* Whether a text begins as a signature's text does. */
static int looks_like_text(span text)
{
    span line, word = {NULL, 0};

    while (text.length > 0 && word.length == 0) {
        line = next_line(&text);
        word = next_word(&line);
    }
    return is(word, "ppc64") || is(word, "z") || is(word, "aix") || is(word, "ppc64b");
}

/* Where a refusal of a signature is: the line and column of a place in text and hexadecimal. Adds
 * the token, which a text has there. */
static place find_refusal(const source *of, uint64_t at, bytes *token)
{
    place where = of->where;
    span content = span_of_bytes(&of->content);

    where.line = where.column = 0;
    if (of->form == AS_HEX) {
        find_in_hex(&where, content, at);
    } else if (of->form == AS_TEXT) {
        fz_encoded found = fz_token_at((const char *)content.at, content.length, at);
        span word = without(content, (size_t)found.offset);

        where.line = (size_t)found.line;
        where.column = (size_t)found.column;
        word.length = (size_t)found.length;
        add_quoted(token, word);
        add(token, ": ");
    }
    return where;
}

void tell_refusal(bytes *told, const source *of, fz_answer answer)
{
    span content = span_of_bytes(&of->content);
    bytes about = {NULL, 0, 0};
    place where = find_refusal(of, answer.place, &about);

    if (of->form == AS_BYTES)
        add(&about, "byte %llu: ", (unsigned long long)answer.place);
    add_byte(&about, 0);
    tell_number(told, &where, (char *)about.at, answer.number);
    where.line = 0;
    if (of->form == AS_BYTES && looks_like_hex(content)) {
        add_where(told, &where);
        add(told, "this looks like hexadecimal text, and was taken as bytes: try --hex\n");
    } else if (of->form == AS_BYTES && looks_like_text(content)) {
        add_where(told, &where);
        add(told, "this looks like a signature's text, and was taken as bytes: try --text\n");
    }
    free(about.at);
}

void fail_refused(const source *of, fz_answer answer)
{
    bytes token = {NULL, 0, 0};
    place where = find_refusal(of, answer.place, &token);

    add_byte(&token, 0);
    fail(&where, "%srefused %llu at %llu after %llu: %s (%llu): %s", (char *)token.at,
         (unsigned long long)answer.number, (unsigned long long)answer.place,
         (unsigned long long)answer.items, refusal_name(answer.number),
         (unsigned long long)answer.number, refusal_meaning(answer.number));
}

void explain_verb(words *given, outcome *to)
{
    int i;
    size_t at;

    if (given->count == 0) {
        for (at = 0; at < REFUSALS; at++)
            add(&to->out, "%2llu  %-24s  %s\n", (unsigned long long)refusals[at].number,
                refusals[at].name, refusals[at].meaning);
        return;
    }
    for (i = 0; i < given->count; i++) {
        at = find(read_number(NULL, span_of(given->files[i])));
        if (at == REFUSALS)
            fail_at_word(NULL, "", span_of(given->files[i]), " is no refusal's number");
        add(&to->out, "%s%llu %s: %s\n%s\n", i > 0 ? "\n" : "",
            (unsigned long long)refusals[at].number, refusals[at].name, refusals[at].meaning,
            refusals[at].advice);
    }
}
