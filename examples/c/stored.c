/* A server that keeps the plans of its drivers' functions in files, and checks each when it comes up.
 * STORED.md, beside this file when it is installed, says why it does what it does.
 *
 * The program comes up three times, in a new folder that it removes at its end: with nothing stored,
 * with all plans fresh, and after one driver was replaced by another with another argument.
 *
 * Build it against what `make install` has put in place:
 *
 *     cc -o stored stored.c signature_text.c $(pkg-config --cflags --libs flakuzhen)
 */
#define _POSIX_C_SOURCE 200809L
#include <fcntl.h>
#include <flakuzhen_text.h>
#include <inttypes.h>
#include <stdio.h>
#include <stdlib.h>
#include <string.h>
#include <unistd.h>

/* ---- the functions of the drivers ---- */

/* int move_to(int joint, double angle), on 64-bit PowerPC */
static const char move_to[] = "ppc64 i32(i32, double)";
/* the new driver's: int move_to(long joint, double angle) */
static const char new_move_to[] = "ppc64 i32(i64, double)";
/* long double load(void *arm), on zSeries */
static const char load[] = "z longdouble(pointer)";

typedef struct {
    const char *name;
    uint8_t signature[64];
    size_t signature_length;
    uint8_t *stored; /* its plan, as it stands in its file */
    size_t stored_length;
} function;

/* Makes a function's signature of its text. */
static void describe(function *of, const char *text)
{
    fz_encoded encoded = fz_encode(text, strlen(text), of->signature, sizeof of->signature);

    if (encoded.expected != NULL || encoded.answer.number != FZ_ACCEPTED) {
        fprintf(stderr, "%s: column %" PRIu64 "\n", text, encoded.column);
        exit(1);
    }
    of->signature_length = (size_t)encoded.length;
}

/* ---- files ---- */

static char folder[] = "/tmp/flakuzhen-stored-XXXXXX";

static void fail(const char *what)
{
    perror(what);
    exit(1);
}

static void path_of(char *path, size_t room, const function *of, const char *ending)
{
    if ((size_t)snprintf(path, room, "%s/%s.%s", folder, of->name, ending) >= room)
        fail("a path that is too long");
}

/* Reads a stored plan. A file that is not there is a plan of no bytes, which no check accepts. */
static void read_plan(function *of)
{
    char path[256];
    FILE *file;
    /* no plan is longer than this; what is longer is stale at once */
    static uint8_t bytes[1 << 16];

    path_of(path, sizeof path, of, "plan");
    of->stored_length = 0;
    file = fopen(path, "rb");
    if (file != NULL) {
        of->stored_length = fread(bytes, 1, sizeof bytes, file);
        fclose(file);
    }
    of->stored = realloc(of->stored, of->stored_length + 1);
    if (of->stored == NULL)
        fail("memory");
    memcpy(of->stored, bytes, of->stored_length);
}

/* Writes a plan whole or not at all: to a new name, synced, and only then under its own name. A
 * server that is switched off meanwhile finds the older plan or the newer one, and no half. */
static void write_plan(const function *of)
{
    char path[256], new_path[256];
    int file, names;

    path_of(path, sizeof path, of, "plan");
    path_of(new_path, sizeof new_path, of, "new");
    file = open(new_path, O_WRONLY | O_CREAT | O_TRUNC, 0644);
    if (file < 0)
        fail(new_path);
    if (write(file, of->stored, of->stored_length) != (ssize_t)of->stored_length ||
        fsync(file) != 0 || close(file) != 0 || rename(new_path, path) != 0) {
        unlink(new_path);
        fail(new_path);
    }
    /* the name is on the disk once the folder is */
    names = open(folder, O_RDONLY);
    if (names < 0 || fsync(names) != 0)
        fail(folder);
    close(names);
}

/* ---- coming up ---- */

/* Plans a function anew and keeps its plan. */
static void plan_anew(function *of)
{
    fz_stored needed = fz_stored_length(of->signature, of->signature_length);

    if (needed.answer.number != FZ_ACCEPTED) {
        fprintf(stderr, "%s: refused %" PRIu64 " at %" PRIu64 "\n", of->name,
                needed.answer.number, needed.answer.place);
        exit(1);
    }
    of->stored_length = (size_t)needed.length;
    of->stored = realloc(of->stored, of->stored_length);
    if (of->stored == NULL)
        fail("memory");
    fz_store_plan(of->signature, of->signature_length, of->stored, of->stored_length);
    write_plan(of);
    printf("  stored %zu bytes\n", of->stored_length);
}

/* Reads a function's plan and checks it; where it is stale, plans anew. */
static void come_up(function *of)
{
    fz_answer answer;

    read_plan(of);
    printf("%s: ", of->name);
    answer = fz_check_plan(of->stored, of->stored_length, of->signature, of->signature_length);
    if (answer.number == FZ_ACCEPTED) {
        printf("fresh\n");
        return;
    }
    if (answer.number == FZ_STALE)
        printf("stale at %" PRIu64 "\n", answer.place);
    plan_anew(of);
}

/* A call that is filled by the plan that was checked: what changed since the check is noticed, and
 * nothing is filled by a stale plan. */
static void call_move_to(const function *of, const uint8_t *values, size_t values_length)
{
    uint8_t image[512] = {0}, area[64] = {0}, none[1];
    fz_answer answer = fz_fill_stored(of->stored, of->stored_length, of->signature,
                                      of->signature_length, values, values_length, image,
                                      sizeof image, area, sizeof area, none, 0, 0, 0);
    size_t i;

    if (answer.number != FZ_ACCEPTED) {
        printf("%s: refused %" PRIu64 " at %" PRIu64 "\n", of->name, answer.number, answer.place);
        return;
    }
    printf("%s: r3 ", of->name);
    for (i = 0; i < 8; i++)
        printf("%02x", image[8 * 3 + i]);
    printf(" f1 ");
    for (i = 0; i < 8; i++)
        printf("%02x", image[256 + 8 * 1 + i]);
    printf("\n");
}

int main(void)
{
    static const uint8_t values[12] = {0xff, 0xff, 0xff, 0xfe, 0x3f, 0xf8}; /* -2 and 1.5 */
    function functions[2] = {{"move_to", {0}, 0, NULL, 0}, {"load", {0}, 0, NULL, 0}};
    function old;
    size_t i;

    if (mkdtemp(folder) == NULL)
        fail(folder);
    describe(&functions[0], move_to);
    describe(&functions[1], load);

    printf("coming up for the first time\n");
    for (i = 0; i < 2; i++)
        come_up(&functions[i]);

    printf("coming up again\n");
    for (i = 0; i < 2; i++)
        come_up(&functions[i]);
    call_move_to(&functions[0], values, sizeof values);

    printf("coming up with a new driver\n");
    /* what is left of a program that never checked: the old plan and the new signature */
    old = functions[0];
    old.stored = malloc(old.stored_length);
    if (old.stored == NULL)
        fail("memory");
    memcpy(old.stored, functions[0].stored, old.stored_length);
    describe(&functions[0], new_move_to);
    describe(&old, new_move_to);
    for (i = 0; i < 2; i++)
        come_up(&functions[i]);
    call_move_to(&old, values, sizeof values);

    for (i = 0; i < 2; i++) {
        char path[256];

        path_of(path, sizeof path, &functions[i], "plan");
        unlink(path);
        free(functions[i].stored);
    }
    free(old.stored);
    rmdir(folder);
    return 0;
}
