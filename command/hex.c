/* Hexadecimal text: two digits a byte, white space between bytes wherever it helps, and from '#' to
 * the end of a line a comment. */
#include "command.h"

void decode_word(place *where, span word, bytes *to)
{
    unsigned high = 0, value;
    size_t i;

    for (i = 0; i < word.length; i++) {
        value = digit_value(word.at[i]);
        if (value == 16) {
            bytes mark = {NULL, 0, 0};

            add_mark(&mark, word.at[i]);
            if (where->column != 0)
                where->column += i;
            fail(where, "'%.*s' is no hexadecimal digit", (int)mark.length, (char *)mark.at);
        }
        if (i % 2 == 0)
            high = value;
        else
            add_byte(to, (uint8_t)(16 * high + value));
    }
    if (word.length % 2 != 0)
        fail(where, "half a byte: a group of digits has an odd count");
}

bytes decode_hex(place *where, span text)
{
    bytes decoded = {NULL, 0, 0};

    more(&decoded, 0);
    for (where->line = 1; text.length > 0; where->line++) {
        const uint8_t *start = text.at;
        span line = next_line(&text), word;

        for (word = next_word(&line); word.length != 0; word = next_word(&line)) {
            where->column = (size_t)(word.at - start) + 1;
            decode_word(where, word, &decoded);
        }
    }
    where->line = where->column = 0;
    return decoded;
}

void find_in_hex(place *where, span text, uint64_t offset)
{
    uint64_t before = 0; /* bytes of the words before */

    where->column = 1;
    for (where->line = 1; text.length > 0; where->line++) {
        const uint8_t *start = text.at;
        span line = next_line(&text), word;

        for (word = next_word(&line); word.length != 0; word = next_word(&line)) {
            where->column = (size_t)(word.at - start) + 1;
            if (offset - before < word.length / 2) {
                where->column += 2 * (size_t)(offset - before);
                return;
            }
            before += word.length / 2;
            where->column += word.length;
        }
        if (text.length == 0)
            return;
    }
}

int looks_like_hex(span text)
{
    size_t digits = 0;

    while (text.length > 0) {
        span line = next_line(&text), word;

        for (word = next_word(&line); word.length != 0; word = next_word(&line)) {
            if (word.length % 2 != 0)
                return 0;
            digits += word.length;
            for (; word.length > 0; word = without(word, 1))
                if (digit_value(*word.at) == 16)
                    return 0;
        }
    }
    return digits >= 4;
}
