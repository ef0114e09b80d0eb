/* What the files of the command share. */
#ifndef COMMAND_H
#define COMMAND_H

#include "flakuzhen.h"
#include "flakuzhen_text.h"

/* ---- bytes.c: bytes, messages, and what is read of a text ---- */

/* bytes that grow */
typedef struct {
    uint8_t *at;
    size_t length, room;
} bytes;

/* bytes that stand elsewhere */
typedef struct {
    const uint8_t *at;
    size_t length;
} span;

/* where a fault is: the file as messages name it, and line and column, or 0 */
typedef struct {
    bytes file;
    size_t line, column;
} place;

span span_of(const char *text);
span span_of_bytes(const bytes *of);
int is(span word, const char *text);
/* Whether it begins so. */
int begins(span word, const char *text);
/* The word without so many bytes at its beginning. */
span without(span word, size_t count);

/* Makes room for so many more bytes, which is never none: the library takes no null pointer. */
uint8_t *more(bytes *to, size_t count);
/* So many zeros, and never no room. */
bytes zeros(size_t count);
/* Adds formatted text. */
void add(bytes *to, const char *format, ...);
void add_word(bytes *to, span word);
void add_byte(bytes *to, uint8_t byte);
/* Adds bytes as hexadecimal digits. */
void add_hex(bytes *to, span of);
/* Adds a word in quotes, as messages name it. Characters beyond ASCII stay as they are. */
void add_quoted(bytes *to, span word);
/* Adds a word as it is, but for bytes that would break a line. */
void add_name(bytes *to, span word);
/* Adds a byte of no known text: its escape where it can't be printed or is a quote. */
void add_mark(bytes *to, uint8_t byte);

/* Begins a line of standard error: the command's name, and where, which may be NULL. */
void add_where(bytes *to, const place *where);
/* Ends with status 2 and one line: where the fault is, or NULL, and what it is. */
void fail(const place *where, const char *what, ...);
/* The same, with a word in quotes in the middle. */
void fail_at_word(const place *where, const char *before, span word, const char *after);

/* Takes the first line off a text, and gives it without its comment, which begins at '#'. */
span next_line(span *text);
/* Takes the first word off a line. It is empty where there is none. */
span next_word(span *line);
/* The value of a hexadecimal digit, or 16 where it is none. */
unsigned digit_value(uint8_t digit);

enum digits { A_NUMBER, NO_DIGITS, OVER_64_BITS };
/* The number that digits say, where they are all below the radix and 64 bits are enough. */
enum digits read_digits(span digits, unsigned radix, uint64_t *number);
/* A number of 64 bits, decimal or from '0x' on hexadecimal. */
uint64_t read_number(const place *where, span word);
/* The same of a word that may be missing, which is 0. */
uint64_t number_or_zero(const char *word);
/* The number that bytes say, the highest first. */
uint64_t big_endian(const uint8_t *from, size_t length);

/* what is printed, what is told on standard error after it, and the exit status */
typedef struct {
    bytes out, told;
    int status;
} outcome;

/* ---- hex.c: hexadecimal text ---- */

/* Adds the bytes of a word of hexadecimal digits. Where the column is not 0 it is set to that of a
 * fault. */
void decode_word(place *where, span word, bytes *to);
/* The bytes that a hexadecimal text says. */
bytes decode_hex(place *where, span text);
/* Sets the line and column of the digits of a byte of such a text; of its end where there is no
 * such byte. */
void find_in_hex(place *where, span text, uint64_t offset);
/* Whether a text is nothing but white space, comments and two or more whole bytes. */
int looks_like_hex(span text);

/* ---- words.c: what the command is told ---- */

/* options, as bits; those from IMAGE on have a value */
enum option {
    HEX = 1,
    TEXT = 2,
    PICTURE = 4,
    COMPILERS = 8,
    JSON = 16,
    IMAGE = 32,
    AREA = 64,
    COPIES = 128,
    BASE = 256,
    HIDDEN = 512,
    OUT = 1024
};

typedef struct {
    int given; /* options */
    const char *image, *area, *copies, *base, *hidden, *out;
    int count; /* of words that are no options */
    char **files;
} words;

/* Tells the options, which must be among the known ones, from the other words. */
words read_words(int count, char **given, int known);

/* A file's content, of at most so many bytes. Sets where its faults are. */
bytes read_file(const char *path, place *where, size_t largest);
#define LARGEST_INPUT ((size_t)1 << 20)
/* The bytes that a file holds, or that it says in hexadecimal with --hex. */
bytes read_bytes(const words *given, const char *path, size_t largest);
/* A convention's code of its word. */
uint64_t read_convention(const place *where, span word);

/* Writes a file whole or not at all: to a new file in the same folder, which is synced and then
 * takes the name. A link is followed, and an older file's permissions stay. */
void write_file(const char *path, span content);

/* ---- signature.c: the signatures in files ---- */

/* A signature with where it came from. */
typedef struct {
    const char *path;
    place where;
    enum { AS_BYTES, AS_HEX, AS_TEXT } form;
    bytes content;    /* the file as it is */
    bytes signature;  /* its bytes; none of a text that is refused */
    fz_answer answer; /* of reading them */
} source;

/* Reads a file's signature: as text with --text or where its name ends with '.sig', as hexadecimal
 * with --hex. */
source read_source(const words *given, const char *path);
void free_source(source *of);

/* ---- refusals.c: their words ---- */

/* Adds 'refused NUMBER at PLACE after ITEMS' and a newline. */
void add_refusal(bytes *out, fz_answer answer);
/* Says on standard error, in the end, what a refusal of a signature means and where it is. */
void tell_refusal(bytes *told, const source *of, fz_answer answer);
/* The same of one that is about no signature, with the words before its name. */
void tell_number(bytes *told, const place *where, const char *about, uint64_t number);
/* Ends with status 2 where a signature is refused that something shall be compared with. */
void fail_refused(const source *of, fz_answer answer);
const char *refusal_name(uint64_t number);
const char *refusal_meaning(uint64_t number);

/* ---- plan.c: a call's plan, as the library gives it ---- */

typedef struct {
    span signature;
    fz_planned whole;
    fz_place *places;
    bytes listing;
} plan;

/* Plans a call. Of a refused one `whole.answer` says so, and the listing is the line of it. */
plan plan_of(const source *of);
void free_plan(plan *of);
/* The line of the listing with this number, without its newline. */
span listing_line(const plan *of, size_t number);
/* The bytes of a general register, by which the area is counted. */
size_t word_of(const plan *of);
/* What the listing's offsets in the area count from: 160 on Z. */
size_t area_start(const plan *of);
/* Whether an argument is a struct. */
int is_struct(const plan *of, size_t number);
/* The bytes of an argument's type in the signature. */
span item_of(const plan *of, size_t number);

/* ---- value_text.c: values as text ---- */

/* Adds the value of a type, given by its item, that stands in these bytes: a struct by its fields.
 * As JSON every number is a string, so that 64 bits survive, and a struct an array. */
void add_value(bytes *out, uint64_t convention, span item, const uint8_t *value, int as_json);
/* Reads the values of all arguments of a call from a text, and gives their bytes. */
bytes read_values(const plan *of, place *where, span text);
/* The size of a type by the rules of structs; the library's plan has it too. */
size_t size_of_type(uint64_t convention, span item);

/* ---- values.c ---- */

/* what a call has on its way */
typedef struct {
    bytes image, area, copies;
    uint64_t base; /* the address of the copies */
} call;

#define IMAGE_BYTES 512
/* Adds the line of a call's signature that is refused and tells of it, where it is. */
int refuses_call(const source *of, const plan *planned, outcome *to);
/* Adds the arguments with their places, what stands there and their values. */
void add_call(const plan *of, const call *on, int as_json, outcome *to);

/* ---- the verbs ---- */

void list_verb(words *given, outcome *to);
void read_verb(words *given, outcome *to);
void encode_verb(words *given, outcome *to);
void decode_verb(words *given, outcome *to);
void explain_verb(words *given, outcome *to);
void diff_verb(words *given, outcome *to);
void values_verb(words *given, outcome *to);
void fill_verb(words *given, outcome *to);
void store_verb(words *given, outcome *to);
void check_verb(words *given, outcome *to);
void replay_verb(words *given, outcome *to);
void dump_verb(words *given, outcome *to);

/* call_picture.c: the tables of a call. */
void draw_call(const plan *of, bytes *out);
/* compilers.c: the listing with marks where compilers differ, and what they mean. */
void add_compilers(const plan *of, bytes *out);

/* a state with the memory that it was started on; before the first start the state is all zeros,
 * which every call refuses */
typedef struct {
    fz_machine state;
    uint8_t *memory;
    size_t size;
} machine;

uint64_t stack_pointer(const fz_machine *of);
/* stack_picture.c: the stack of a machine, or nothing where there is none. */
void draw_stack(const machine *of, bytes *out);

/* main.c */

/* Runs the command on its words, prints, and gives the exit status. */
int run(int count, char **given);
/* Prints the text, and ends where it can't. */
void print(span text, span told, int status);

#endif
