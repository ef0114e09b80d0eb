/* Replays a file of cases: makes each call of the library, and holds its answer and every byte of
 * what it was lent, with some on either side, to what the file says. The file's format is in
 * host/compare/src/cases.rs, which writes it. This program is compiled for each machine that the
 * library is built for, and asks nothing of it but C99. */
#include "flakuzhen.h"
#include <stdio.h>
#include <stdlib.h>
#include <string.h>

enum {
    END = 0,
    READ_SIGNATURE,
    MEASURE,
    LISTING,
    WIDEN,
    NARROW,
    START_PPC64,
    START_Z,
    ENTER,
    WRITE_REGISTER,
    WRITE_MEMORY,
    LEAVE,
    FILL,
    READ,
    HOME,
    VIEW,
    PLAN,
    START_AIX,
    START_PPC64B,
    WALK_START,
    WALK,
    WALK_DUMP_PPC64,
    WALK_DUMP_Z,
    WALK_DUMP_AIX,
    STORED_LENGTH,
    STORE_PLAN,
    CHECK_PLAN,
    FILL_STORED,
    OPERATIONS,
    SET_MACHINE = 100,
    CHANGE_MACHINE = 101
};

/* What the cases of each operation have. `kept` is 2 where the calls are of the frame machine, whose
 * state and memory stay from case to case, else 0. */
static const struct shape {
    const char *name;
    int numbers, lent, words, kept;
} shapes[OPERATIONS] = {
    [READ_SIGNATURE] = {"fz_read_signature", 0, 1, 3, 0},
    [MEASURE] = {"fz_measure", 0, 1, 6, 0},
    [LISTING] = {"fz_listing", 0, 2, 1, 0},
    [WIDEN] = {"fz_widen", 1, 0, 1, 0},
    [NARROW] = {"fz_narrow", 1, 0, 3, 0},
    [START_PPC64] = {"fz_start_ppc64", 2, 1, 3, 2},
    [START_Z] = {"fz_start_z", 2, 1, 3, 2},
    [ENTER] = {"fz_enter", 1, 1, 3, 2},
    [WRITE_REGISTER] = {"fz_write_register", 4, 0, 3, 2},
    [WRITE_MEMORY] = {"fz_write_memory", 2, 1, 3, 2},
    [LEAVE] = {"fz_leave", 1, 0, 3, 2},
    [FILL] = {"fz_fill", 2, 5, 3, 0},
    [READ] = {"fz_read", 1, 5, 3, 0},
    [HOME] = {"fz_home", 0, 3, 3, 0},
    [VIEW] = {"fz_view", 1, 2, 5, 0},
    [PLAN] = {"fz_plan", 0, 2, 14, 0},
    [START_AIX] = {"fz_start_aix", 2, 1, 3, 2},
    [WALK_START] = {"fz_walk_start", 0, 2, 3, 0},
    [WALK] = {"fz_walk", 1, 6, 3, 0},
    [WALK_DUMP_PPC64] = {"fz_walk_dump_ppc64", 2, 2, 4, 0},
    [WALK_DUMP_Z] = {"fz_walk_dump_z", 2, 2, 4, 0},
    [WALK_DUMP_AIX] = {"fz_walk_dump_aix", 2, 2, 4, 0},
    [START_PPC64B] = {"fz_start_ppc64b", 2, 1, 3, 2},
    [STORED_LENGTH] = {"fz_stored_length", 0, 1, 4, 0},
    [STORE_PLAN] = {"fz_store_plan", 0, 2, 4, 0},
    [CHECK_PLAN] = {"fz_check_plan", 0, 2, 3, 0},
    [FILL_STORED] = {"fz_fill_stored", 2, 6, 3, 0},
};

#define MOST_NUMBERS 4
#define MOST_LENT 6
#define MOST_WORDS 14

static unsigned long made[OPERATIONS], mismatches;
static unsigned long replayed; /* the number of the case at hand */

/* ---- the file ---- */

static const uint8_t *at, *end;

static void fail(const char *what)
{
    fprintf(stderr, "replay: %s\n", what);
    exit(2);
}

static const uint8_t *take(size_t count)
{
    if ((size_t)(end - at) < count)
        fail("the file of cases ends early");
    at += count;
    return at - count;
}

static uint64_t big_endian(const uint8_t *bytes, int count)
{
    uint64_t value = 0;

    while (count-- > 0)
        value = value << 8 | *bytes++;
    return value;
}

static uint64_t take_word(void)
{
    return big_endian(take(8), 8);
}

static size_t take_length(void)
{
    return (size_t)big_endian(take(4), 4);
}

static void read_file(const char *path)
{
    FILE *file = fopen(path, "rb");
    size_t room = 1 << 20, length = 0, more;
    uint8_t *bytes = NULL;

    if (file == NULL)
        fail("cannot open the file of cases");
    do {
        room *= 2;
        bytes = realloc(bytes, room);
        if (bytes == NULL)
            fail("no room for the file of cases");
        more = fread(bytes + length, 1, room - length, file);
        length += more;
    } while (length == room);
    if (ferror(file))
        fail("cannot read the file of cases");
    fclose(file);
    at = bytes;
    end = bytes + length;
}

/* ---- what is lent ----
 *
 * Each buffer stands between bytes that no call may change, and beside it stands what the whole
 * must be after the call. */

#define GUARD 128

typedef struct {
    uint8_t *given, *expected; /* both with the bytes on either side */
    size_t whole, room;
    size_t start;              /* where the lent bytes are in them */
    size_t length;
} buffer;

static buffer state, memory, own[MOST_LENT];

static uint8_t *lent(const buffer *of)
{
    return of->given + of->start;
}

/* Takes a buffer from the file. `shift` moves it, so that it stands at any address. */
static void take_buffer(buffer *to, size_t shift)
{
    size_t length = take_length();

    to->length = length;
    to->start = GUARD + shift;
    to->whole = to->start + length + GUARD;
    if (to->whole > to->room) {
        to->room = 2 * to->whole;
        to->given = realloc(to->given, to->room);
        to->expected = realloc(to->expected, to->room);
        if (to->given == NULL || to->expected == NULL)
            fail("no room for a buffer");
    }
    memset(to->given, 0xc5, to->whole);
    memcpy(lent(to), take(length), length);
    memcpy(to->expected, to->given, to->whole);
}

/* Takes a buffer's changes from the file, and makes them in what it must be. */
static void take_changes(buffer *of)
{
    size_t count = take_length();

    while (count-- > 0) {
        size_t offset = take_length(), length = take_length();

        if (offset > of->length || length > of->length - offset)
            fail("a change outside of its buffer");
        memcpy(of->expected + of->start + offset, take(length), length);
    }
}

/* The structs of the surface are words alone. */
static void words_from(void *words, size_t size, const buffer *from)
{
    size_t i;

    if (from->length != size)
        fail("a struct of another size");
    for (i = 0; i < size / 8; i++)
        ((uint64_t *)words)[i] = big_endian(lent(from) + 8 * i, 8);
}

static void words_to(const void *words, size_t size, const buffer *to)
{
    size_t i;

    for (i = 0; i < size; i++)
        lent(to)[i] = (uint8_t)(((const uint64_t *)words)[i / 8] >> (56 - 8 * (i % 8)));
}

/* ---- differences ---- */

/* of all of them the first are told */
#define MOST_TOLD 20

static int wrong; /* whether the case at hand is */

static void mismatch(int operation, const char *what, size_t where, uint64_t given,
                     uint64_t expected)
{
    if (!wrong && mismatches++ < MOST_TOLD)
        printf("case %lu, %s: %s %ld is %llx and must be %llx\n", replayed,
               shapes[operation].name, what, (long)where, (unsigned long long)given,
               (unsigned long long)expected);
    wrong = 1;
}

/* Compares all of a buffer. One that is wrong is set right, so that the next case can go on. */
static void compare(int operation, const char *what, buffer *of)
{
    size_t i = 0;

    if (memcmp(of->given, of->expected, of->whole) == 0)
        return;
    while (of->given[i] == of->expected[i])
        i++;
    mismatch(operation, what, i - of->start, of->given[i], of->expected[i]);
    memcpy(of->given, of->expected, of->whole);
}

/* ---- calls ---- */

static uint64_t answer[MOST_WORDS];

static void set_answer(fz_answer of)
{
    answer[0] = of.number;
    answer[1] = of.place;
    answer[2] = of.items;
}

static void call_plain(int operation, const uint64_t *numbers)
{
    const uint8_t *sig = lent(&own[0]);
    size_t length = own[0].length;

    switch (operation) {
    case READ_SIGNATURE:
        set_answer(fz_read_signature(sig, length));
        break;
    case MEASURE: {
        fz_sizes sizes = fz_measure(sig, length);

        set_answer(sizes.answer);
        answer[3] = sizes.values;
        answer[4] = sizes.area;
        answer[5] = sizes.copies;
        break;
    }
    case LISTING:
        answer[0] = fz_listing(sig, length, (char *)lent(&own[1]), own[1].length);
        break;
    case WIDEN:
        answer[0] = fz_widen(numbers[0]);
        break;
    case NARROW: {
        fz_narrowed narrowed = fz_narrow(numbers[0]);

        answer[0] = narrowed.number;
        answer[1] = narrowed.place;
        answer[2] = narrowed.bits;
        break;
    }
    }
}

/* the most words of a table of places, or of a list of frames */
#define MOST_TABLE 4352

/* Plans into a table, or walks a dump into a list, between words that no call may change. */
static void call_table(int operation, const uint64_t *numbers)
{
    static uint64_t table[GUARD + MOST_TABLE + GUARD];
    const uint8_t *bytes = lent(&own[0]);
    size_t length = own[0].length, words = own[1].length / 8, i;
    fz_planned planned;
    fz_walked walked;

    if (words > MOST_TABLE)
        fail("a table that is too long");
    for (i = 0; i < sizeof table / sizeof *table; i++)
        table[i] = i;
    words_from(table + GUARD, 8 * words, &own[1]);
    if (operation == PLAN) {
        planned = fz_plan(bytes, length, table + GUARD, words);
        memcpy(answer, &planned, sizeof planned);
    } else {
        walked = (operation == WALK_DUMP_PPC64 ? fz_walk_dump_ppc64
                  : operation == WALK_DUMP_Z   ? fz_walk_dump_z
                                               : fz_walk_dump_aix)(bytes, length, numbers[0],
                                                                   numbers[1], table + GUARD,
                                                                   words);
        memcpy(answer, &walked, sizeof walked);
    }
    words_to(table + GUARD, 8 * words, &own[1]);
    for (i = 0; i < sizeof table / sizeof *table; i++)
        if ((i < GUARD || i >= GUARD + words) && table[i] != i)
            mismatch(operation, "word beside the table", i, table[i], i);
}

/* Calls of one call's values: the buffers are in the order of the function's parameters. */
static void call_values(int operation, const uint64_t *numbers)
{
    uint8_t *at[MOST_LENT];
    size_t length[MOST_LENT];
    fz_part part;
    int i;

    for (i = 0; i < shapes[operation].lent; i++) {
        at[i] = lent(&own[i]);
        length[i] = own[i].length;
    }
    switch (operation) {
    case FILL:
        set_answer(fz_fill(at[0], length[0], at[1], length[1], at[2], length[2], at[3], length[3],
                           at[4], length[4], numbers[0], numbers[1]));
        break;
    case READ:
        set_answer(fz_read(at[0], length[0], at[1], length[1], at[2], length[2], at[3], length[3],
                           at[4], length[4], numbers[0]));
        break;
    case HOME:
        set_answer(fz_home(at[0], length[0], at[1], length[1], at[2], length[2]));
        break;
    case VIEW:
        part = fz_view(at[0], length[0], at[1], length[1], numbers[0]);
        set_answer(part.answer);
        answer[3] = part.start;
        answer[4] = part.length;
        break;
    }
}

/* Calls of stored plans: the buffers are in the order of the function's parameters. */
static void call_stored(int operation, const uint64_t *numbers)
{
    uint8_t *at[MOST_LENT];
    size_t length[MOST_LENT];
    fz_stored stored;
    int i;

    for (i = 0; i < shapes[operation].lent; i++) {
        at[i] = lent(&own[i]);
        length[i] = own[i].length;
    }
    switch (operation) {
    case STORED_LENGTH:
    case STORE_PLAN:
        stored = operation == STORED_LENGTH
                     ? fz_stored_length(at[0], length[0])
                     : fz_store_plan(at[0], length[0], at[1], length[1]);
        set_answer(stored.answer);
        answer[3] = stored.length;
        break;
    case CHECK_PLAN:
        set_answer(fz_check_plan(at[0], length[0], at[1], length[1]));
        break;
    case FILL_STORED:
        set_answer(fz_fill_stored(at[0], length[0], at[1], length[1], at[2], length[2], at[3],
                                  length[3], at[4], length[4], at[5], length[5], numbers[0],
                                  numbers[1]));
        break;
    }
}

/* Starts a walk, or takes a step of it: the walker is the first buffer, between words that no call may
 * change. */
static void call_walker(int operation, const uint64_t *numbers)
{
    static struct {
        uint64_t before[8];
        fz_walker walker;
        uint64_t after[8];
    } own_walker;
    uint8_t *at[MOST_LENT];
    size_t length[MOST_LENT];
    uint64_t i;

    for (i = 0; i < (uint64_t)shapes[operation].lent; i++) {
        at[i] = lent(&own[i]);
        length[i] = own[i].length;
    }
    for (i = 0; i < 8; i++)
        own_walker.before[i] = own_walker.after[i] = i;
    words_from(&own_walker.walker, sizeof own_walker.walker, &own[0]);
    if (operation == WALK_START)
        set_answer(fz_walk_start(&own_walker.walker, at[1], length[1]));
    else
        set_answer(fz_walk(&own_walker.walker, at[1], length[1], at[2], length[2], at[3], length[3],
                           at[4], length[4], at[5], length[5], numbers[0]));
    words_to(&own_walker.walker, sizeof own_walker.walker, &own[0]);
    for (i = 0; i < 8; i++) {
        if (own_walker.before[i] != i)
            mismatch(operation, "word before the walker", (size_t)i, own_walker.before[i], i);
        if (own_walker.after[i] != i)
            mismatch(operation, "word after the walker", (size_t)i, own_walker.after[i], i);
    }
}

/* a machine between words that no call may change */
static struct {
    uint64_t before[8];
    fz_machine machine;
    uint64_t after[8];
} guarded;

static void check_guards(int operation)
{
    size_t i;

    for (i = 0; i < 8; i++) {
        if (guarded.before[i] != i)
            mismatch(operation, "word before the state", i, guarded.before[i], i);
        if (guarded.after[i] != i)
            mismatch(operation, "word after the state", i, guarded.after[i], i);
    }
}

static void call_machine(int operation, const uint64_t *numbers)
{
    fz_machine *machine = &guarded.machine;
    uint8_t *bytes = lent(&memory);
    fz_registers registers;
    fz_frame request;
    size_t length = (size_t)numbers[shapes[operation].numbers - 1];

    if (length > memory.length)
        fail("more memory than there is");
    words_from(machine, sizeof *machine, &state);
    switch (operation) {
    case START_PPC64:
    case START_Z:
    case START_AIX:
    case START_PPC64B:
        words_from(&registers, sizeof registers, &own[0]);
        set_answer((operation == START_PPC64 ? fz_start_ppc64
                    : operation == START_Z   ? fz_start_z
                    : operation == START_AIX ? fz_start_aix
                                             : fz_start_ppc64b)(machine, &registers, numbers[0],
                                                                bytes, length));
        words_to(&registers, sizeof registers, &own[0]);
        break;
    case ENTER:
        words_from(&request, sizeof request, &own[0]);
        set_answer(fz_enter(machine, &request, bytes, length));
        words_to(&request, sizeof request, &own[0]);
        break;
    case WRITE_REGISTER:
        set_answer(
            fz_write_register(machine, numbers[0], numbers[1], numbers[2], bytes, length));
        break;
    case WRITE_MEMORY:
        set_answer(fz_write_memory(machine, numbers[0], lent(&own[0]), own[0].length, bytes,
                                   length));
        break;
    case LEAVE:
        set_answer(fz_leave(machine, bytes, length));
        break;
    }
    words_to(machine, sizeof *machine, &state);
    check_guards(operation);
}

/* ---- cases ---- */

static void replay(int operation)
{
    static const char *const names[MOST_LENT] = {
        "byte of the first buffer", "byte of the second buffer", "byte of the third buffer",
        "byte of the fourth buffer", "byte of the fifth buffer", "byte of the sixth buffer"};
    const struct shape *shape = &shapes[operation];
    uint64_t numbers[MOST_NUMBERS];
    int i;

    replayed++;
    made[operation]++;
    wrong = 0;
    for (i = 0; i < shape->numbers; i++)
        numbers[i] = take_word();
    for (i = 0; i < shape->lent; i++)
        take_buffer(&own[i], (replayed + 3 * (size_t)i) % 8);
    memset(answer, 0xc5, sizeof answer);
    if (shape->kept)
        call_machine(operation, numbers);
    else if (operation >= STORED_LENGTH)
        call_stored(operation, numbers);
    else if (operation == PLAN || operation >= WALK_DUMP_PPC64)
        call_table(operation, numbers);
    else if (operation >= WALK_START)
        call_walker(operation, numbers);
    else if (operation >= FILL)
        call_values(operation, numbers);
    else
        call_plain(operation, numbers);
    for (i = 0; i < shape->words; i++) {
        uint64_t expected = take_word();

        if (answer[i] != expected)
            mismatch(operation, "word of the answer", (size_t)i, answer[i], expected);
    }
    if (shape->kept) {
        take_changes(&state);
        compare(operation, "byte of the state", &state);
        take_changes(&memory);
        compare(operation, "byte of the memory", &memory);
    }
    for (i = 0; i < shape->lent; i++) {
        take_changes(&own[i]);
        compare(operation, names[i], &own[i]);
    }
}

static void set_machine(void)
{
    take_buffer(&state, 0);
    take_buffer(&memory, replayed % 8);
}

static void change_machine(void)
{
    take_changes(&state);
    take_changes(&memory);
    memcpy(state.given, state.expected, state.whole);
    memcpy(memory.given, memory.expected, memory.whole);
}

int main(int count, char **words)
{
    int operation, i;

    if (count != 2)
        fail("usage: replay FILE");
    read_file(words[1]);
    for (i = 0; i < 8; i++)
        guarded.before[i] = guarded.after[i] = (uint64_t)i;
    while ((operation = *take(1)) != END) {
        if (operation == SET_MACHINE)
            set_machine();
        else if (operation == CHANGE_MACHINE)
            change_machine();
        else if (operation < OPERATIONS)
            replay(operation);
        else
            fail("a case of no operation");
    }
    for (i = END + 1; i < OPERATIONS; i++)
        printf("%s %lu\n", shapes[i].name, made[i]);
    printf("%lu cases replayed, %lu mismatches\n", replayed, mismatches);
    return mismatches != 0;
}
