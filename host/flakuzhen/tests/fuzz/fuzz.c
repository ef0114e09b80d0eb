/* The command on damaged inputs: everything that it reads, signatures as text, hexadecimal and bytes,
 * lists of calls, values, stored plans, dumps and call images, is changed at random and handed to all
 * verbs that take it, in one process with the sanitizers that this is compiled with.
 *
 *     fuzz CORPUS SECONDS SEED [KEEP]
 *
 * With SECONDS 0 every file of the corpus is run as it is and with 30 changes of each. An input is a
 * file's kind, the word before the first '-' of its name, and its parts, which lines of '%%' divide.
 * Inputs that reach code that none before them reached are changed further, and where KEEP is a
 * folder they are put there. After each run these must hold:
 *
 *   - the status is 0, 1 or 2, and the run ends within ten seconds
 *   - with status 2 nothing is printed, and one line is told; with status 0 nothing is told
 *   - what is told is whole lines that begin with the command's name, without control characters
 *   - a signature that is encoded is decoded to a text that gives the same bytes, and the other way
 *   - what fill prints of a call, values prints of the files that it wrote
 *   - a plan that is stored is fresh */
#define _GNU_SOURCE
#include "command.h"
#include <dirent.h>
#include <setjmp.h>
#include <signal.h>
#include <stdio.h>
#include <stdlib.h>
#include <string.h>
#include <sys/mman.h>
#include <sys/wait.h>
#include <time.h>
#include <unistd.h>

#define MOST_BYTES 6000
#define MOST_INPUTS 20000
#define MAP 65536
#define BATCH 3000

/* ---- what the processes share ---- */

typedef struct {
    char kind[12];
    size_t length;
    uint8_t at[MOST_BYTES];
} input;

static struct shared {
    size_t count;               /* of the inputs */
    size_t runs, edges;
    uint64_t state;             /* of the random numbers */
    input now;                  /* the one that is run */
    char what[400];             /* the words that it is run with, or what is wrong */
    uint8_t seen[MAP];
    input inputs[MOST_INPUTS];
} *all;

static uint8_t reached[MAP];

/* The compiler calls this at every edge of the command's code (-fsanitize-coverage=trace-pc). */
__attribute__((no_sanitize_coverage)) void __sanitizer_cov_trace_pc(void)
{
    uintptr_t from = (uintptr_t)__builtin_return_address(0);

    reached[(from ^ from >> 16) % MAP] = 1;
}

__attribute__((no_sanitize_coverage)) static uint64_t next_number(void)
{
    uint64_t number = all->state += UINT64_C(0x9e3779b97f4a7c15);

    number = (number ^ number >> 30) * UINT64_C(0xbf58476d1ce4e5b9);
    number = (number ^ number >> 27) * UINT64_C(0x94d049bb133111eb);
    return number ^ number >> 31;
}

__attribute__((no_sanitize_coverage)) static size_t below(size_t bound)
{
    return bound == 0 ? 0 : (size_t)(next_number() % bound);
}

/* ---- one run of the command ---- */

static jmp_buf after_run;
static int run_status;
static bytes printed, told;

/* the command's own print and exit, compiled with -DFUZZED and -Dexit=end_run */
void print(span text, span said, int status)
{
    printed.length = told.length = 0;
    add_word(&printed, text);
    add_word(&told, said);
    run_status = status;
}

void end_run(int status);
void end_run(int status)
{
    run_status = status;
    longjmp(after_run, 1);
}

static void wrong(const char *what)
{
    snprintf(all->what + strlen(all->what), sizeof all->what - strlen(all->what), ": %s", what);
    _exit(3);
}

/* Runs the command, which may end by a long jump. */
static void run_once(int count, char **given)
{
    alarm(10);
    if (setjmp(after_run) == 0)
        run_status = run(count, given);
    alarm(0);
}

/* Runs the command on these words, up to a NULL, and tests what it says. */
static void one(const char *const *given)
{
    char *copies[32];
    int count = 0;
    size_t i, lines = 0;

    all->what[0] = '\0';
    for (; given[count] != NULL; count++) {
        copies[count] = strdup(given[count]);
        snprintf(all->what + strlen(all->what), sizeof all->what - strlen(all->what), "%s ",
                 given[count]);
    }
    all->runs++;
    run_once(count, copies);
    while (count-- > 0)
        free(copies[count]);
    if (run_status < 0 || run_status > 2)
        wrong("its status");
    for (i = 0; i < told.length; i++) {
        if ((told.at[i] < 0x20 && told.at[i] != '\n') || told.at[i] == 0x7f)
            wrong("a control character is told");
        if (i == 0 || told.at[i - 1] == '\n')
            if (told.length - i < 11 || memcmp(told.at + i, "flakuzhen: ", 11) != 0)
                wrong("a line without the command's name");
        lines += told.at[i] == '\n';
    }
    if (told.length > 0 && told.at[told.length - 1] != '\n')
        wrong("a line that does not end");
    if (run_status == 2 && (printed.length > 0 || lines != 1))
        wrong("status 2 with something printed, or not with one line");
    if (run_status == 0 && told.length > 0)
        wrong("status 0 with something told");
}

#define ONE(...)                                                                                   \
    do {                                                                                           \
        const char *const given[] = {"flakuzhen", __VA_ARGS__, NULL};                              \
        one(given);                                                                                \
    } while (0)

/* ---- the kinds of input ---- */

static char folder[64];
static char paths[6][128];

static void write_part(int number, span content)
{
    FILE *file = fopen(paths[number], "wb");

    if (file == NULL || fwrite(content.at, 1, content.length, file) != content.length)
        _exit(4);
    fclose(file);
}

/* Writes the parts of an input to files, as many as there are, and the others empty. */
static void write_parts(const input *of)
{
    span rest = {of->at, of->length}, part;
    int number;

    for (number = 0; number < 5; number++) {
        const uint8_t *end = memmem(rest.at, rest.length, "\n%%\n", 4);

        part = rest;
        if (end != NULL && number < 4) {
            part.length = (size_t)(end - rest.at) + 1;
            rest = without(rest, part.length + 3);
        } else {
            rest = without(rest, rest.length);
        }
        write_part(number, part);
    }
}

/* What was printed is kept, and written as a part. */
static bytes kept_output(int number)
{
    bytes kept = {NULL, 0, 0};

    more(&kept, 0);
    add_word(&kept, span_of_bytes(&printed));
    if (number >= 0)
        write_part(number, span_of_bytes(&printed));
    return kept;
}

static void must_be(const bytes *kept, const char *what)
{
    if (run_status != 0 || kept->length != printed.length ||
        memcmp(kept->at, printed.at, kept->length) != 0)
        wrong(what);
}

static void signature_verbs(const char *form)
{
    place nowhere = {{NULL, 0, 0}, 0, 0};

    ONE("list", form, paths[0]);
    ONE("list", "--picture", form, paths[0]);
    ONE("list", "--compilers", form, paths[0]);
    ONE("read", form, paths[0]);
    ONE("diff", form, paths[0], paths[1]);
    ONE("list", form, paths[0], paths[1]);
    ONE("decode", form, paths[0]);
    if (run_status == 0) {
        bytes text = kept_output(5), encoded;

        ONE("encode", paths[5]);
        encoded = kept_output(1);
        ONE("decode", "--", paths[1]);
        must_be(&text, "the text of what a text was encoded to");
        ONE("encode", "--", paths[5]);
        must_be(&encoded, "a second encoding");
        if (strcmp(form, "--") == 0) {
            bytes signature = read_file(paths[0], &nowhere, LARGEST_INPUT);

            must_be(&signature, "the bytes of the text that bytes were decoded to");
            free(signature.at);
        }
        free(text.at);
        free(encoded.at);
    }
}

static void fill_and_values(void)
{
    char image[160], area[160], copies[160];
    bytes filled;

    snprintf(image, sizeof image, "%s/image", folder);
    snprintf(area, sizeof area, "%s/area", folder);
    snprintf(copies, sizeof copies, "%s/copies", folder);
    ONE("fill", "--text", paths[0], paths[1], "--base", "4096", "--hidden", "77", "--image", image,
        "--area", area, "--copies", copies);
    if (run_status != 0)
        return;
    filled = kept_output(-1);
    ONE("values", "--text", paths[0], "--image", image, "--area", area, "--copies", copies, "--base",
        "4096");
    must_be(&filled, "what values says of what fill wrote");
    ONE("values", "--json", "--text", paths[0], "--image", image, "--area", area);
    free(filled.at);
}

/* A plan that is stored is fresh. */
static void stored_verbs(void)
{
    bytes fresh = {(uint8_t *)"fresh\n", 6, 6};
    char plan[160];

    snprintf(plan, sizeof plan, "%s/plan", folder);
    ONE("check", "--text", paths[1], paths[0]);
    ONE("check", paths[1], paths[0]);
    ONE("store", "--text", paths[0], "-o", plan);
    if (run_status == 0) {
        ONE("check", "--text", plan, paths[0]);
        must_be(&fresh, "what was stored is not fresh");
    }
}

/* The words of a dump stand in its first part. */
static void dump_verbs(void)
{
    char words[4][24] = {"", "", "", ""};
    FILE *file = fopen(paths[0], "r");

    if (file != NULL) {
        if (fscanf(file, "%23s %23s %23s", words[0], words[1], words[2]) < 0)
            words[0][0] = '\0';
        fclose(file);
    }
    ONE("dump", "--hex", "--", words[0], words[1], words[2], paths[1]);
    ONE("dump", "--hex", "--picture", "--", words[0], words[1], words[2], paths[1]);
    ONE("dump", "--", words[0], words[1], words[2], paths[1]);
}

static void run_input(const input *of)
{
    write_parts(of);
    if (strcmp(of->kind, "text") == 0) {
        signature_verbs("--text");
        ONE("encode", "--hex", paths[0]);
    } else if (strcmp(of->kind, "hex") == 0) {
        signature_verbs("--hex");
        signature_verbs("--");
    } else if (strcmp(of->kind, "bytes") == 0) {
        signature_verbs("--");
    } else if (strcmp(of->kind, "calls") == 0) {
        ONE("replay", paths[0]);
        /* a picture of a large memory takes its time: the drawing is the same on a small one */
        if (memmem(of->at, of->length, "65536", 5) == NULL && of->length < 800)
            ONE("replay", "--picture", paths[0]);
    } else if (strcmp(of->kind, "fill") == 0) {
        fill_and_values();
    } else if (strcmp(of->kind, "values") == 0) {
        ONE("values", "--hex", paths[0], "--image", paths[1], "--area", paths[2], "--copies",
            paths[3], "--base", "0x10000");
        ONE("values", "--json", "--hex", paths[0], "--image", paths[1], "--area", paths[2]);
        ONE("values", "--text", paths[0], "--image", paths[1], "--area", paths[2]);
    } else if (strcmp(of->kind, "stored") == 0) {
        stored_verbs();
    } else if (strcmp(of->kind, "dump") == 0) {
        dump_verbs();
    } else {
        wrong("a kind of input that is none");
    }
}

/* ---- changes ---- */

static const char *const pieces[] = {
    "ppc64", "z", "aix", "ppc64b", "void", "i8", "u8", "i16", "u16", "i32", "u32", "i64", "u64",
    "pointer", "single", "double", "longdouble", "{", "}", "(", ")", ",", "...", " ", "\n", "#",
    "\n%%\n", "start ppc64 4096 0x10000\n", "start z 256 0\n", "start aix 288 0\n",
    "enter g=32 m=32\n", "enter leaf g=31 m=31 cr=1\n", "leave\n", "write mem 0x10fc0 00\n",
    "write r3 ", "write cr2 ", "write lr ", "write f14 ", "0x", "0x10000", "18446744073709551615",
    "18446744073709551616", "-1", "-", "0", "1e999", "1.5", "nan:7fc00000", "nan:7ff8000000000001",
    "bits:3f800000", "inf", "bits:", "nan:", "01 0001 01", "02 0000", "03 0004", "04 0000",
    "10 0001 08", "11 0001 02", "12 0004", "\x01\x00\x01\x01", "\x02\x00\x00", "\x04\x00\x00",
    "\x03\x00\x04", "\x12\x00\x04", "\x11\x00\x01", "\xff", "\xc3\xa9", "\x0b", "=", "g=", "\\"};

/* Puts bytes in the place of others, as far as they fit. */
static void replace(input *of, size_t at, size_t count, const void *with, size_t length)
{
    uint8_t copy[MOST_BYTES];

    if (at > of->length)
        at = of->length;
    if (count > of->length - at)
        count = of->length - at;
    if (of->length - count + length > MOST_BYTES)
        return;
    if (length > 0)
        memcpy(copy, with, length);
    memmove(of->at + at + length, of->at + at + count, of->length - at - count);
    if (length > 0)
        memcpy(of->at + at, copy, length);
    of->length = of->length - count + length;
}

static void change(input *of)
{
    const char *piece = pieces[below(sizeof pieces / sizeof *pieces)];
    /* the zeros of these are bytes too */
    size_t at = below(of->length + 1), count = below(12);
    size_t length = *piece > 0 && *piece <= 4 ? (size_t)3 + (*piece == 1) : strlen(piece);
    const input *other = &all->inputs[below(all->count)];

    switch (below(8)) {
    case 0:
        if (of->length > 0)
            of->at[below(of->length)] ^= (uint8_t)(1u << below(8));
        break;
    case 1:
        if (of->length > 0)
            of->at[below(of->length)] = (uint8_t)next_number();
        break;
    case 2:
        replace(of, at, count, NULL, 0);
        break;
    case 3:
        replace(of, at, 0, of->at + at, count < of->length - at ? count : of->length - at);
        break;
    case 4:
        replace(of, at, 0, piece, length);
        break;
    case 5:
        replace(of, at, count, piece, length);
        break;
    case 6:
        if (strcmp(other->kind, of->kind) == 0 && other->length > 0) {
            size_t from = below(other->length);

            replace(of, at, below(40), other->at + from, below(other->length - from));
        }
        break;
    default:
        if (below(8) == 0)
            of->length = at;
    }
}

/* ---- the whole ---- */

static void load(const char *corpus)
{
    struct dirent **names;
    int count = scandir(corpus, &names, NULL, alphasort), i;

    for (i = 0; i < count; i++) {
        char path[512];
        const char *dash = strchr(names[i]->d_name, '-');
        input *to = &all->inputs[all->count];
        FILE *file;

        snprintf(path, sizeof path, "%s/%s", corpus, names[i]->d_name);
        if (dash == NULL || dash - names[i]->d_name >= (long)sizeof to->kind ||
            all->count == MOST_INPUTS || (file = fopen(path, "rb")) == NULL)
            continue;
        memcpy(to->kind, names[i]->d_name, (size_t)(dash - names[i]->d_name));
        to->length = fread(to->at, 1, MOST_BYTES, file);
        fclose(file);
        all->count++;
    }
}

/* Keeps the input that was run, where it reached code that none before it reached. */
static void keep(const char *to)
{
    size_t i;
    int new = 0;

    for (i = 0; i < MAP; i++) {
        if (reached[i] && !all->seen[i]) {
            all->seen[i] = 1;
            all->edges++;
            new = 1;
        }
    }
    if (!new || all->count == MOST_INPUTS)
        return;
    all->inputs[all->count++] = all->now;
    if (to != NULL) {
        char path[512];
        FILE *file;

        snprintf(path, sizeof path, "%s/%s-found-%zu", to, all->now.kind, all->count);
        file = fopen(path, "wb");
        if (file != NULL) {
            fwrite(all->now.at, 1, all->now.length, file);
            fclose(file);
        }
    }
}

/* Runs a child's share: where `whole`, all inputs as they are and with 30 changes of each, from
 * `first` on; else changes of any. */
static void batch(int whole, size_t first, const char *to)
{
    size_t i, n;

    if (whole) {
        all->now = all->inputs[first];
        run_input(&all->now);
        keep(NULL);
        for (i = 0; i < 30; i++) {
            all->now = all->inputs[first];
            for (n = 1 + below(4); n > 0; n--)
                change(&all->now);
            run_input(&all->now);
        }
        return;
    }
    for (i = 0; i < BATCH; i++) {
        /* newer ones more often */
        size_t of = below(2) ? below(all->count) : all->count - 1 - below(1 + all->count / 8);

        all->now = all->inputs[of];
        for (n = 1 + below(6); n > 0; n--)
            change(&all->now);
        run_input(&all->now);
        keep(to);
    }
}

/* Starts a child for a share, and ends where it fails. */
static void share(int whole, size_t first, const char *to)
{
    pid_t child = fork();
    int status;

    if (child == 0) {
        batch(whole, first, to);
        _exit(0);
    }
    if (waitpid(child, &status, 0) != child || status != 0) {
        FILE *file = fopen("fuzz-failed-input", "wb");

        if (file != NULL) {
            fwrite(all->now.at, 1, all->now.length, file);
            fclose(file);
        }
        printf("failed after %zu runs (status %#x): a %s input: %s\n", all->runs, status,
               all->now.kind, all->what);
        printf("the input is in fuzz-failed-input\n");
        exit(1);
    }
}

#undef exit

int main(int count, char **given)
{
    time_t began = time(NULL), told_at = began;
    long seconds;
    size_t first, files;
    int i;

    all = mmap(NULL, sizeof *all, PROT_READ | PROT_WRITE, MAP_SHARED | MAP_ANONYMOUS, -1, 0);
    if (count < 4 || all == MAP_FAILED)
        return 2;
    load(given[1]);
    files = all->count;
    seconds = atol(given[2]);
    all->state = strtoull(given[3], NULL, 0);
    snprintf(folder, sizeof folder, "/tmp/flakuzhen-fuzz-XXXXXX");
    if (files == 0 || mkdtemp(folder) == NULL)
        return 2;
    for (i = 0; i < 6; i++)
        snprintf(paths[i], sizeof paths[i], "%s/part%d", folder, i);
    for (first = 0; first < files; first++)
        share(1, first, NULL);
    while (time(NULL) - began < seconds) {
        share(0, 0, count > 4 ? given[4] : NULL);
        if (time(NULL) - told_at >= 60) {
            told_at = time(NULL);
            printf("%ld s: %zu runs, %zu edges, %zu inputs\n", (long)(told_at - began), all->runs,
                   all->edges, all->count);
            fflush(stdout);
        }
    }
    printf("%zu files, %zu runs, %zu edges, %zu inputs kept, 0 failures\n", files, all->runs,
           all->edges, all->count - files);
    for (i = 0; i < 6; i++)
        remove(paths[i]);
    {
        static const char *const others[] = {"image", "area", "copies", "plan"};
        char path[160];

        for (i = 0; i < 4; i++) {
            snprintf(path, sizeof path, "%s/%s", folder, others[i]);
            remove(path);
        }
    }
    rmdir(folder);
    return 0;
}
