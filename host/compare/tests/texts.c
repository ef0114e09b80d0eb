/* For texts.rs: reads texts from standard input, each after its length in four bytes, the highest
 * first, and prints a line for each: what fz_encode says, and of an accepted one its bytes, the
 * text that fz_decode makes of them, and what the two say of buffers that are too short. */
#include "flakuzhen_text.h"
#include <stdio.h>
#include <stdlib.h>
#include <string.h>

static void must(int holds, const char *what)
{
    if (!holds) {
        printf("wrong: %s\n", what);
        exit(1);
    }
}

/* The text of each argument's type is that of its item. */
static void types(const uint8_t *sig, size_t length)
{
    static fz_place places[128];
    fz_planned plan = fz_plan(sig, length, (uint64_t *)places, 128 * FZ_PLACE_WORDS);
    uint64_t i;

    for (i = 0; i < plan.arguments; i++) {
        const uint8_t *item = sig + places[i].item;
        size_t item_length = 3 + ((size_t)item[1] << 8 | item[2]);
        uint64_t needed = fz_decode_type(sig, length, places[i].item, "", 0);
        char *text = malloc(needed);
        uint8_t *back = malloc(item_length);

        fz_decode_type(sig, length, places[i].item, text, needed);
        must(fz_encode_type(text, needed, back, item_length).length == item_length,
             "a type's length");
        must(memcmp(back, item, item_length) == 0, "a type's item");
        free(text);
        free(back);
    }
    must(fz_decode_type(sig, length, length, "", 0) == 0, "a type past the end");
}

/* What is written where it fits is written whole, and else nothing is. */
static void accepted(const char *text, size_t length, const fz_encoded *told)
{
    uint8_t *sig = malloc(told->length), guard = 0xa5;
    fz_encoded again = fz_encode(text, length, sig, told->length);
    fz_decoded decoded = fz_decode(sig, told->length, "", 0);
    char *back = malloc(decoded.length + 1);
    size_t i;

    must(again.length == told->length && again.expected == NULL, "a second encoding");
    must(fz_encode(text, length, &guard, 1).length == told->length, "the length without room");
    must(guard == 0xa5, "nothing is written without room");
    must(decoded.answer.number == FZ_ACCEPTED, "decoding");
    back[decoded.length] = '~';
    back[0] = '~';
    must(fz_decode(sig, told->length, back, decoded.length - 1).length == decoded.length,
         "the text's length without room");
    must(back[0] == '~', "no text is written without room");
    fz_decode(sig, told->length, back, decoded.length);
    must(back[decoded.length] == '~', "nothing is written past the text");
    types(sig, told->length);
    printf("accepted ");
    for (i = 0; i < told->length; i++) {
        putchar("0123456789abcdef"[sig[i] >> 4]);
        putchar("0123456789abcdef"[sig[i] & 15]);
    }
    printf(" %.*s\n", (int)decoded.length, back);
    free(sig);
    free(back);
}

int main(void)
{
    uint8_t header[4];

    while (fread(header, 1, 4, stdin) == 4) {
        size_t length =
            (size_t)header[0] << 24 | (size_t)header[1] << 16 | (size_t)header[2] << 8 | header[3];
        /* exactly so long, for AddressSanitizer */
        char *text = malloc(length + (length == 0));
        uint8_t none = 0;
        fz_encoded told;

        must(text != NULL && fread(text, 1, length, stdin) == length, "the input");
        told = fz_encode(text, length, &none, 0);
        if (told.expected != NULL)
            printf("expected %s at %llu:%llu\n", told.expected, (unsigned long long)told.line,
                   (unsigned long long)told.column);
        else if (told.answer.number != FZ_ACCEPTED)
            printf("refused %llu at %llu after %llu at %llu:%llu\n",
                   (unsigned long long)told.answer.number, (unsigned long long)told.answer.place,
                   (unsigned long long)told.answer.items, (unsigned long long)told.line,
                   (unsigned long long)told.column);
        else
            accepted(text, length, &told);
        free(text);
    }
    return 0;
}
