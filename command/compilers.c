/* Where the compilers of today differ from the rules: the arguments of a call that docs/COMPILERS.md
 * has something to say of. The sentences are its own; a test holds them to it. */
#include "command.h"
#include <string.h>

enum note { FLOAT_STRUCT, LONG_DOUBLE, UNCLEAR, PAST_R10, NOT_CARRIED, PADDING, ELLIPSIS_FLOAT, NOTES };

static const struct {
    const char *says, *advice;
} notes[NOTES] = {
    {"Compilers pass a struct that has nothing but one single or one double in it, nested or not, in a "
     "floating register, and all later floats move up by one.",
     "Describe it as that single or double."},
    {"Figure 3-18 has them in two general registers; compilers use the next two floating registers, as "
     "the later edition of the supplement says.",
     "Plan the call by code 4 (ppc64b), or describe it as two doubles."},
    {"Where only f13 is left compilers use f13 and memory; the papers don't say so, and code 4 refuses "
     "(29).",
     "Describe it as two doubles."},
    {"Compiled callers store such a float in memory too.",
     "Look for it in its register alone, as reading does."},
    {"The rules here refuse them (25), and no other description of them was tried.",
     "Pass it by a pointer."},
    {"Compiled callers leave what is around structs and singles as it happens to be, so don't compare "
     "slots of theirs whole with what filling gives; reading never looks at padding.",
     "Never look at the bytes around the value."},
    {"gcc leaves the second place out for floats that are named before the ellipsis, since the called "
     "function takes these from their registers; clang leaves it out for all floats of a call without a "
     "prototype.",
     "Fill with the ellipsis in the signature; read such a call by the same signature without it."},
};

/* Whether an item is nothing but one single or double, nested or not, in a struct. */
static int is_float_struct(span item)
{
    int structs = 0;

    while (item.length > 3 && item.at[0] == 0x12) {
        structs = 1;
        item = without(item, 3);
    }
    return structs && item.length == 4 && item.at[0] == 0x11;
}

/* The notes that an argument has, as bits. */
static unsigned notes_of(const plan *of, size_t number)
{
    const fz_place *at = &of->places[number];
    span item = item_of(of, number);
    uint64_t code = of->whole.convention;
    size_t word = word_of(of);
    int is_single = item.at[0] == 0x11 && item.at[3] == 0, is_aix = code == 3, is_z = code == 2;
    unsigned told = 0;

    if (!is_aix && !is_z && is_float_struct(item))
        told |= 1u << FLOAT_STRUCT;
    if (code == 1 && item.at[0] == 0x11 && item.at[3] == 2)
        told |= 1u << LONG_DOUBLE;
    if (is_aix && at->fprs > 0 && at->memory_length == 0 && at->home + at->home_length > 8 * word)
        told |= 1u << PAST_R10;
    /* a struct that does not fill its words, or a single in a larger slot, that is no widened one */
    if (at->copy_length == 0 &&
        ((is_struct(of, number) && at->size % word != 0) ||
         (is_single && word == 8 && (is_z || at->gprs + at->memory_length > 0))))
        told |= 1u << PADDING;
    if (of->whole.ellipsis && !is_aix && !is_z && at->fprs > 0)
        told |= 1u << ELLIPSIS_FLOAT;
    return told;
}

/* Adds the marks of notes to a line, as ' [a]'. */
static void add_marks(bytes *out, unsigned told)
{
    int note;

    for (note = 0; note < NOTES; note++)
        if (told & 1u << note)
            add(out, " [%c]", 'a' + note);
    add(out, "\n");
}

void add_compilers(const plan *of, bytes *out)
{
    span text = span_of_bytes(&of->listing);
    unsigned all = 0, told;
    size_t number;
    int note;

    add_word(out, next_line(&text));
    if (of->whole.answer.number != FZ_ACCEPTED) {
        told = of->whole.answer.number == FZ_UNCLEAR_PLACE       ? 1u << UNCLEAR
               : of->whole.answer.number == FZ_FLOAT_NOT_CARRIED ? 1u << NOT_CARRIED
                                                                 : 0;
        add_marks(out, told);
        all = told;
    } else {
        add(out, "\n");
        for (number = 0; number < of->whole.arguments; number++) {
            add_word(out, next_line(&text));
            told = notes_of(of, number);
            add_marks(out, told);
            all |= told;
        }
        add_word(out, text);
    }
    if (all != 0)
        add(out, "\n");
    for (note = 0; note < NOTES; note++)
        if (all & 1u << note)
            add(out, "[%c] %s\n    %s\n", 'a' + note, notes[note].says, notes[note].advice);
}
