/* The signatures in files, and the verbs on signatures alone: list, read, encode, decode. */
#include "command.h"
#include <stdlib.h>
#include <string.h>

static int ends_with(const char *path, const char *ending)
{
    size_t length = strlen(path);

    return length >= strlen(ending) && strcmp(path + length - strlen(ending), ending) == 0;
}

/* The token that a text's fault is at, as messages name it. */
static void fail_at_token(place *where, const fz_encoded *told, span text)
{
    span token = without(text, (size_t)told->offset), rest = token;
    bytes said = {NULL, 0, 0};

    where->line = (size_t)told->line;
    where->column = (size_t)told->column;
    if (token.length == 0)
        fail(where, "expected %s, and the text ends", told->expected);
    /* up to a space or a mark of the grammar's, and not too much of it */
    for (token.length = 0; token.length < rest.length && token.length < 40; token.length++)
        if (strchr(" \t\r\n\f(){},#", rest.at[token.length]) != NULL)
            break;
    if (token.length == 0)
        token.length = 1;
    add_quoted(&said, token);
    fail(where, "expected %s, found %.*s", told->expected, (int)said.length, (char *)said.at);
}

/* The bytes of the signature that a text says. */
static void encode_source(source *of)
{
    uint8_t signature[FZ_LONGEST_SIGNATURE];
    span text = span_of_bytes(&of->content), encoded = {signature, 0};
    fz_encoded told = fz_encode((const char *)text.at, text.length, signature, sizeof signature);

    if (told.expected != NULL)
        fail_at_token(&of->where, &told, text);
    encoded.length = (size_t)told.length;
    of->answer = told.answer;
    more(&of->signature, 0);
    add_word(&of->signature, encoded);
}

source read_source(const words *given, const char *path)
{
    source of;

    memset(&of, 0, sizeof of);
    of.path = path;
    of.form = (given->given & TEXT) || ends_with(path, ".sig") ? AS_TEXT
              : given->given & HEX                             ? AS_HEX
                                                               : AS_BYTES;
    of.content = read_file(path, &of.where, LARGEST_INPUT);
    if (of.form == AS_TEXT) {
        encode_source(&of);
        return of;
    }
    if (of.form == AS_HEX) {
        of.signature = decode_hex(&of.where, span_of_bytes(&of.content));
    } else {
        more(&of.signature, 0);
        add_word(&of.signature, span_of_bytes(&of.content));
    }
    of.answer = fz_read_signature(of.signature.at, of.signature.length);
    return of;
}

void free_source(source *of)
{
    free(of->where.file.at);
    free(of->content.at);
    free(of->signature.at);
}

/* ---- the verbs ---- */

/* The files that are named, or standard input where none is, all read before anything is printed.
 */
static source *read_sources(words *given, int *count)
{
    static char dash[] = "-";
    source *sources;
    int i;

    if (given->count == 0)
        given->files[given->count++] = dash;
    *count = given->count;
    sources = calloc((size_t)*count, sizeof *sources);
    if (sources == NULL)
        fail(NULL, "no memory left");
    for (i = 0; i < *count; i++)
        sources[i] = read_source(given, given->files[i]);
    return sources;
}

/* Adds the file's name where there are several. */
static void add_file(bytes *out, const source *of, int count, const char *after)
{
    if (count == 1)
        return;
    if (strcmp(of->path, "-") == 0)
        add(out, "standard input");
    else
        add_name(out, span_of(of->path));
    add(out, "%s", after);
}

void read_verb(words *given, outcome *to)
{
    int count, i;
    source *sources = read_sources(given, &count);

    for (i = 0; i < count; i++) {
        source *of = &sources[i];

        add_file(&to->out, of, count, ": ");
        if (of->answer.number == FZ_ACCEPTED) {
            add(&to->out, "items %llu\n", (unsigned long long)of->answer.items);
        } else {
            add_refusal(&to->out, of->answer);
            tell_refusal(&to->told, of, of->answer);
            to->status = 1;
        }
        free_source(of);
    }
    free(sources);
}

void list_verb(words *given, outcome *to)
{
    int count, i;
    source *sources = read_sources(given, &count);

    if ((given->given & PICTURE) && (given->given & COMPILERS))
        fail(NULL, "--picture and --compilers: a listing is one of the two");
    for (i = 0; i < count; i++) {
        plan planned = plan_of(&sources[i]);
        fz_answer answer = planned.whole.answer;

        if (i > 0)
            add(&to->out, "\n");
        add_file(&to->out, &sources[i], count, ":\n");
        if (answer.number == FZ_ACCEPTED && (given->given & PICTURE))
            draw_call(&planned, &to->out);
        else if (given->given & COMPILERS)
            add_compilers(&planned, &to->out);
        else
            add_word(&to->out, span_of_bytes(&planned.listing));
        if (answer.number != FZ_ACCEPTED) {
            tell_refusal(&to->told, &sources[i], answer);
            to->status = 1;
        }
        free_plan(&planned);
        free_source(&sources[i]);
    }
    free(sources);
}

/* The one signature that encode and decode take. */
static source one_source(words *given, const char *verb)
{
    if (given->count > 1)
        fail(NULL, "%s takes one FILE ('-', or none at all, is standard input)", verb);
    return read_source(given, given->count == 0 ? "-" : given->files[0]);
}

/* Adds bytes as hexadecimal, 16 to a line. */
static void add_hex_lines(bytes *out, span of)
{
    while (of.length > 0) {
        span line = of;

        if (line.length > 16)
            line.length = 16;
        of = without(of, line.length);
        add_hex(out, line);
        add(out, "\n");
    }
}

void encode_verb(words *given, outcome *to)
{
    words as_text = *given;
    source of;

    /* the input is text in any case: --hex is about what is printed */
    as_text.given = TEXT;
    of = one_source(&as_text, "encode");
    if (of.answer.number != FZ_ACCEPTED) {
        tell_refusal(&to->told, &of, of.answer);
        to->status = 1;
    } else if (given->given & HEX) {
        add_hex_lines(&to->out, span_of_bytes(&of.signature));
    } else {
        add_word(&to->out, span_of_bytes(&of.signature));
    }
    free_source(&of);
}

void decode_verb(words *given, outcome *to)
{
    source of = one_source(given, "decode");

    if (of.answer.number != FZ_ACCEPTED) {
        tell_refusal(&to->told, &of, of.answer);
        to->status = 1;
    } else {
        fz_decoded told = fz_decode(of.signature.at, of.signature.length, "", 0);
        char *text = (char *)more(&to->out, (size_t)told.length);

        fz_decode(of.signature.at, of.signature.length, text, (size_t)told.length);
        to->out.length += (size_t)told.length;
        add(&to->out, "\n");
    }
    free_source(&of);
}
