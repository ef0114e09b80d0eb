/* The command `flakuzhen`: the same program on every machine, over the C surface of the library. It
 * decides nothing: it reads files and prints what the library answers.
 *
 * All inputs are read before anything is printed, so that a word, a file or a line that is wrong
 * gives one line on standard error and nothing else. */
#include "command.h"
#include <errno.h>
#include <signal.h>
#include <stdio.h>
#include <stdlib.h>
#include <string.h>

/* ---- the verbs ---- */

#define SIGNATURE_FILES                                                                            \
    "--text    the input is a signature's text, as 'ppc64 i32(u32, {u8, double}, ...)'; a file\n"  \
    "          whose name ends with .sig always is\n"                                              \
    "--hex     the input is hexadecimal text with '#' comments, not the bytes themselves\n"

static const struct verb {
    const char *name;
    int options;
    void (*run)(words *, outcome *);
    const char *usage; /* after the name */
    const char *does;  /* in one line */
    const char *help;
} verbs[] = {
    {"list", HEX | TEXT | PICTURE | COMPILERS, list_verb,
     "[--picture|--compilers] [--hex|--text] [FILE..]",
     "prints where each argument of each signature goes, and its result",
     SIGNATURE_FILES
     "--picture draws a table of the registers, the parameter area and the copies instead, a row\n"
     "          to a doubleword (to a word in AIX's area), with the argument that has each byte\n"
     "--compilers\n"
     "          marks each argument that gcc or clang treat otherwise, and says what to do\n"
     "FILE      holds one signature; '-', or no FILE at all, is standard input. With several each\n"
     "          listing comes after a line with its file's name\n"
     "\n"
     "A signature that is refused is told as 'refused NUMBER at PLACE after ITEMS': ITEMS is the\n"
     "count of headers that were good until there. Standard error has it in words.\n"},
    {"read", HEX | TEXT, read_verb, "[--hex|--text] [FILE..]",
     "prints a line for each signature with its count of items, 'items N'",
     SIGNATURE_FILES
     "FILE      holds one signature; '-', or no FILE at all, is standard input. With several each\n"
     "          line begins with its file's name\n"
     "\n"
     "A signature that is refused is told as 'refused NUMBER at PLACE after ITEMS': ITEMS is the\n"
     "count of headers that were good until there. Standard error has it in words.\n"},
    {"encode", HEX, encode_verb, "[--hex] [FILE]",
     "writes the bytes of the signature that a text says",
     "--hex     writes them in hexadecimal\n"
     "FILE      holds the text; '-', or no FILE at all, is standard input\n"
     "\n"
     "  signature   CONVENTION RESULT (ARGUMENTS)\n"
     "  CONVENTION  ppc64, z, aix or ppc64b\n"
     "  RESULT      void or a type\n"
     "  ARGUMENTS   types with commas between them, and ... at the end for an ellipsis\n"
     "  type        i8 u8 i16 u16 i32 u32 i64 u64 pointer single double longdouble, or a struct:\n"
     "              types in braces, with commas between them\n"
     "\n"
     "Nothing is written where the library refuses the bytes.\n"},
    {"decode", HEX | TEXT, decode_verb, "[--hex|--text] [FILE]",
     "writes the text of a signature",
     SIGNATURE_FILES
     "FILE      holds one signature; '-', or no FILE at all, is standard input\n"
     "\n"
     "Each signature has one text. Of a text it is the one with one space after each comma.\n"},
    {"diff", HEX | TEXT, diff_verb, "[--hex|--text] OLD NEW",
     "compares the places of two signatures of one function, an older and a newer one",
     SIGNATURE_FILES
     "OLD, NEW  hold one signature each, which must be accepted; '-' is standard input\n"
     "\n"
     "A line for each argument and for the result, 'kept', 'moved .. to ..', 'new' or 'gone', the\n"
     "sizes, and 'only appends' where the newer one only has arguments after the older one's.\n"
     "'value' is an argument's bytes among the values, 'copy' those of its copy. Exit status 0:\n"
     "nothing moved; 1: something moved or is gone.\n"},
    {"values", HEX | TEXT | JSON | IMAGE | AREA | COPIES | BASE, values_verb,
     "[--json] [--hex|--text] SIG --image FILE [--area FILE] [--copies FILE --base N]",
     "prints the arguments of a call: their places, what stands there, and their values",
     SIGNATURE_FILES
     "SIG       holds the signature; '-' is standard input\n"
     "--image   the registers, 512 bytes: general register n at 8n, floating register n at\n"
     "          256 + 8n; with --hex this and the next two are hexadecimal too\n"
     "--area    the parameter area, from 48 bytes above the stack pointer on (AIX 24, Z 160); what\n"
     "          is in registers can be read without it\n"
     "--copies  on Z the memory with the copies of arguments that go by reference\n"
     "--base    the address of its first byte\n"
     "--json    prints it for programs\n"
     "\n"
     "Of an argument that can't be read it says why, and goes on with the others. 'not looked at'\n"
     "are argument registers and words of the area that no argument has and that are not zero:\n"
     "a value that stands there was put where nobody looks.\n"},
    {"fill", HEX | TEXT | JSON | IMAGE | AREA | COPIES | BASE | HIDDEN, fill_verb,
     "[--json] [--hex|--text] SIG VALUES [--image OUT] [--area OUT] [--copies OUT] [--base N]"
     " [--hidden N]",
     "puts values into registers and memory, as a caller does, and prints them as 'values' does",
     SIGNATURE_FILES
     "SIG       holds the signature; '-' is standard input\n"
     "VALUES    holds a value for each argument, with commas or white space between them: -3,\n"
     "          0x1f, 1.5, nan:7fc00000, bits:3f800000, {1, {2.5}} for a struct by its fields\n"
     "--image, --area, --copies\n"
     "          write the registers, the parameter area and the copies to files; with --hex in\n"
     "          hexadecimal\n"
     "--base    the address of the copies, a multiple of 8; 0 where it is not said\n"
     "--hidden  the address for a result in memory; 0 where it is not said\n"
     "--json    prints it for programs\n"},
    {"store", HEX | TEXT | OUT, store_verb, "[--hex|--text] FILE -o OUT",
     "writes the plan of a signature to a file, in bytes that hold the signature too",
     SIGNATURE_FILES
     "FILE      holds one signature; '-' is standard input\n"
     "-o OUT    the file that is written: whole, or it stays as it was\n"
     "\n"
     "Prints 'stored N bytes'; or 'refused NUMBER at PLACE after ITEMS'.\n"},
    {"check", HEX | TEXT, check_verb, "[--hex|--text] STORED SIGNATURE",
     "prints 'fresh' where a stored plan is what 'store' writes for the signature today",
     SIGNATURE_FILES
     "STORED    holds a plan as 'store' writes it, never as text; either file may be '-', standard\n"
     "          input\n"
     "SIGNATURE holds one signature, which must be accepted\n"
     "\n"
     "Else prints 'stale at PLACE', the first byte that differs, with what that is part of: the\n"
     "signature, an argument or the result. Exit status 0: fresh; 1: stale.\n"},
    {"replay", PICTURE, replay_verb, "[--picture] FILE",
     "makes calls of the frame machine, on registers and memory of zeros",
     "--picture draws the stack too, from the highest address down, after each call that changes\n"
     "          the drawing: frames, headers, save slots, areas and floor, with addresses and bytes\n"
     "FILE      has one call to a line, and '#' comments; '-' is standard input:\n"
     "            start ppc64 SIZE BASE       of the memory, in bytes; or 'start z ..', 'aix', 'ppc64b'\n"
     "            enter g=29 m=30 cr=1 locals=20 out=64\n"
     "                                        saves r29 up, f30 up and CR; bytes of locals and\n"
     "                                        of outgoing arguments (cr, locals, out: else 0)\n"
     "            enter leaf g=29 m=30 cr=1   a leaf, without a frame\n"
     "            write r29 0x1234            also f14, lr, or cr2 for a field of CR\n"
     "            write mem ADDRESS BYTES     the bytes in hexadecimal\n"
     "            leave\n"
     "\n"
     "Each answer is printed with the number of its line, 'accepted' or 'refused NUMBER at PLACE',\n"
     "and the stack pointer where the call moves it.\n"},
    {"dump", HEX | PICTURE, dump_verb, "[--picture] [--hex] CONVENTION BASE POINTER FILE",
     "follows the back chain in a memory from a stack pointer on",
     "--hex     the memory is hexadecimal text\n"
     "--picture draws the frames instead, from the highest address down\n"
     "FILE      holds the bytes of the memory, the first at the address BASE; '-' is standard input.\n"
     "          CONVENTION is ppc64, z, aix or ppc64b\n"
     "\n"
     "Prints each frame with its size, its back chain and the LR saved in it, on Z r14, the latest\n"
     "first, and 'accepted, N frames'; or those before a bad address, and 'refused NUMBER at PLACE'.\n"},
    {"explain", 0, explain_verb, "[NUMBER..]", "says what refusals mean, and what to look at",
     "NUMBER    a refusal's; without one all are listed\n"},
};

#define VERBS (sizeof verbs / sizeof *verbs)

static const char statuses[] =
    "Exit status\n"
    "0  all accepted; diff: nothing moved; check: fresh\n"
    "1  something was refused; diff: something moved or is gone; check: stale\n"
    "2  a word, a file or a line is wrong, or a signature that diff or check shall compare is\n"
    "   refused: one line on standard error says which, and nothing is printed\n";

static void add_help(bytes *out)
{
    size_t i;

    for (i = 0; i < VERBS; i++)
        add(out, "%s flakuzhen %s %s\n", i == 0 ? "usage:" : "      ", verbs[i].name,
            verbs[i].usage);
    add(out, "       flakuzhen VERB --help\n       flakuzhen --version\n\n");
    for (i = 0; i < VERBS; i++)
        add(out, "%-8s  %s\n", verbs[i].name, verbs[i].does);
    add(out, "\n%s", statuses);
}

static void add_verb_help(bytes *out, const struct verb *of)
{
    add(out, "usage: flakuzhen %s %s\n\n%-8s  %s\n%s\n%s", of->name, of->usage, of->name, of->does,
        of->help, statuses);
}

static void add_version(bytes *out)
{
    unsigned version = (unsigned)fz_version();

    add(out, "flakuzhen %u.%u.%u\n", version / 10000, version / 100 % 100, version % 100);
}

static int is_help(const char *word)
{
    return strcmp(word, "--help") == 0 || strcmp(word, "-h") == 0;
}

/* Whether one of the words asks for help, before a '--'. */
static int asks_for_help(int count, char **given)
{
    int i;

    for (i = 0; i < count && strcmp(given[i], "--") != 0; i++)
        if (is_help(given[i]))
            return 1;
    return 0;
}

int run(int count, char **given)
{
    const char *name = count > 1 ? given[1] : "";
    outcome to = {{NULL, 0, 0}, {NULL, 0, 0}, 0};
    size_t i;

    more(&to.out, 0);
    if (count < 2)
        fail(NULL, "no command given (flakuzhen --help lists them)");
    for (i = 0; i < VERBS && strcmp(name, verbs[i].name) != 0; i++)
        ;
    if (i < VERBS && asks_for_help(count - 2, given + 2)) {
        add_verb_help(&to.out, &verbs[i]);
    } else if (i < VERBS) {
        words read = read_words(count - 2, given + 2, verbs[i].options);

        verbs[i].run(&read, &to);
        free(read.files);
    } else if (is_help(name) || strcmp(name, "help") == 0) {
        add_help(&to.out);
    } else if (strcmp(name, "--version") == 0) {
        add_version(&to.out);
    } else {
        fail_at_word(NULL, "unknown command ", span_of(name), " (flakuzhen --help lists them)");
    }
    print(span_of_bytes(&to.out), span_of_bytes(&to.told), to.status);
    free(to.out.at);
    free(to.told.at);
    return to.status;
}

#ifndef FUZZED
void print(span text, span told, int status)
{
    if (text.length > 0 &&
        (fwrite(text.at, 1, text.length, stdout) != text.length || fflush(stdout) != 0)) {
        int fault = errno;

        /* a reader that has gone wants no more, and nothing is wrong */
        if (fault != EPIPE)
            fprintf(stderr, "flakuzhen: standard output: %s (os error %d)\n", strerror(fault),
                    fault);
        exit(fault == EPIPE ? status : 2);
    }
    if (told.length > 0)
        fwrite(told.at, 1, told.length, stderr);
}

int main(int count, char **given)
{
    /* a reader that has gone is told as a fault of the write */
    signal(SIGPIPE, SIG_IGN);
    return run(count, given);
}
#endif
