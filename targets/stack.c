/* Measures the stack that each function of the library takes. It calls the function on a stack of
 * its own, which holds the same byte everywhere before, on the largest inputs of several kinds, and
 * prints the most bytes down to which any of them was written. The frame of the caller counts with
 * what it passes on the stack. */
#define _XOPEN_SOURCE 600
#include "flakuzhen.h"
#include <stdio.h>
#include <stdlib.h>
#include <string.h>
#include <ucontext.h>

static void fail(const char *what)
{
    fprintf(stderr, "stack: %s\n", what);
    exit(1);
}

/* ---- the stack ---- */

#define STACK ((size_t)1 << 20)
#define PAINT 0xa5

static uint8_t *stack;
static ucontext_t program, measured;
static void (*to_call)(void);

static void enter(void)
{
    to_call();
}

/* The bytes of the stack that a call writes, from its top down: stacks of the machines that the
 * library is built for all grow down. */
static size_t written(void (*call)(void))
{
    size_t unused = 0;

    memset(stack, PAINT, STACK);
    to_call = call;
    if (getcontext(&measured) != 0)
        fail("no context");
    measured.uc_stack.ss_sp = stack;
    measured.uc_stack.ss_size = STACK;
    measured.uc_link = &program;
    makecontext(&measured, enter, 0);
    if (swapcontext(&program, &measured) != 0)
        fail("no stack");
    while (unused < STACK && stack[unused] == PAINT)
        unused++;
    return STACK - unused;
}

/* ---- what the functions are lent ---- */

#define LONGEST 16384
#define MOST_ARGUMENTS 128
#define LARGEST_STRUCT 256
#define MEMORY 65536
#define BASE UINT64_C(0x10000)
/* more than any plan takes in bytes */
#define LONGEST_PLAN 65536

static uint8_t sig[LONGEST], values[MOST_ARGUMENTS * LARGEST_STRUCT], image[512];
static uint8_t area[MOST_ARGUMENTS * LARGEST_STRUCT + 8];
static uint8_t copies[MOST_ARGUMENTS * LARGEST_STRUCT], memory[MEMORY];
static uint8_t stored[LONGEST_PLAN];
static size_t stored_length;
static size_t sig_length, arguments;
static fz_sizes sizes;
static char text[1 << 16];
static uint64_t places[FZ_PLACE_WORDS * MOST_ARGUMENTS];
static fz_registers registers;
static fz_machine machine;
static fz_walker walker;
static size_t item, item_length, value_length;
static fz_frame request;
static volatile uint64_t number; /* of the last answer */
static uint64_t expected;        /* what it must be */

static void put(uint8_t byte)
{
    if (sig_length == LONGEST)
        fail("a signature that is too long");
    sig[sig_length++] = byte;
}

static void put_header(uint8_t tag, size_t length)
{
    put(tag);
    put((uint8_t)(length >> 8));
    put((uint8_t)length);
}

static void put_scalar(uint8_t tag, uint8_t code)
{
    put_header(tag, 1);
    put(code);
}

/* A type's item: `fields` of them, within so many structs; without a struct one of them. */
typedef struct {
    uint8_t tag, code;
    size_t fields, structs;
} type;

static size_t length_of(const type *of)
{
    return 3 * of->structs + 4 * of->fields;
}

/* Whether AIX refuses it: a long double, or a double inside a struct. */
static int not_on_aix(const type *of)
{
    return of->tag == 0x11 && (of->code == 2 || (of->code == 1 && of->structs > 0));
}

static void put_type(const type *of)
{
    size_t level, field;

    for (level = 1; level <= of->structs; level++)
        put_header(0x12, length_of(of) - 3 * level);
    for (field = 0; field < of->fields; field++)
        put_scalar(of->tag, of->code);
}

/* Whether it is refused by 29 where there are many of it: code 4's long doubles, of which the seventh
   finds f13 alone. The call that is refused takes stack too. */
static int unclear(uint8_t convention, const type *of)
{
    return convention == 4 && of->tag == 0x11 && of->code == 2;
}

/* A signature of as many arguments of the type as there can be, with it as its result. */
static void put_signature(uint8_t convention, const type *of, int ellipsis)
{
    size_t length = length_of(of), i;

    arguments = (LONGEST - 13 - length) / length;
    if (arguments > MOST_ARGUMENTS)
        arguments = MOST_ARGUMENTS;
    sig_length = 0;
    put_scalar(0x01, convention);
    put_header(0x02, length);
    put_type(of);
    if (ellipsis)
        put_header(0x04, 0);
    put_header(0x03, arguments * length);
    item = sig_length;
    item_length = length;
    for (i = 0; i < arguments; i++)
        put_type(of);
}

static const type types[] = {
    {0x10, 0, 1, 0},   /* i8 */
    {0x10, 8, 1, 0},   /* pointer */
    {0x11, 0, 1, 0},   /* single */
    {0x11, 1, 1, 0},   /* double */
    {0x11, 2, 1, 0},   /* long double */
    {0x10, 0, 3, 1},   /* struct of 3 bytes */
    {0x11, 0, 1, 8},   /* a single within 8 structs */
    {0x10, 0, 256, 1}, /* the most fields */
    {0x11, 1, 32, 1},  /* the largest struct */
    {0x10, 6, 32, 1},  /* the same of integers */
    {0x10, 0, 256, 8},
};

/* ---- the calls ---- */

static void call_nothing(void)
{
    number = 0;
}

static void call_version(void)
{
    number = fz_version() != FZ_VERSION;
}

static void call_read_signature(void)
{
    number = fz_read_signature(sig, sig_length).number;
}

static void call_measure(void)
{
    number = fz_measure(sig, sig_length).answer.number;
}

static void call_plan(void)
{
    number = fz_plan(sig, sig_length, places, sizeof places / sizeof *places).answer.number;
}

static void call_listing(void)
{
    number = fz_listing(sig, sig_length, text, sizeof text) > sizeof text;
}

static void call_fill(void)
{
    number = fz_fill(sig, sig_length, values, (size_t)sizes.values, image, sizeof image, area,
                     (size_t)sizes.area, copies, (size_t)sizes.copies, BASE, BASE)
                 .number;
}

static void call_stored_length(void)
{
    number = fz_stored_length(sig, sig_length).answer.number;
}

static void call_store_plan(void)
{
    number = fz_store_plan(sig, sig_length, stored, sizeof stored).answer.number;
}

static void call_check_plan(void)
{
    number = fz_check_plan(stored, stored_length, sig, sig_length).number;
}

static void call_fill_stored(void)
{
    number = fz_fill_stored(stored, stored_length, sig, sig_length, values, (size_t)sizes.values,
                            image, sizeof image, area, (size_t)sizes.area, copies,
                            (size_t)sizes.copies, BASE, BASE)
                 .number;
}

static void call_read(void)
{
    number = fz_read(sig, sig_length, values, (size_t)sizes.values, image, sizeof image, area,
                     (size_t)sizes.area, copies, (size_t)sizes.copies, BASE)
                 .number;
}

static void call_home(void)
{
    number = fz_home(sig, sig_length, image, sizeof image, area, (size_t)sizes.area).number;
}

static uint64_t view_index;

static void call_view(void)
{
    number = fz_view(area, (size_t)sizes.area, sig, sig_length, view_index).answer.number;
}

static void call_walk_start(void)
{
    number = fz_walk_start(&walker, sig, sig_length).number;
}

static void call_walk(void)
{
    number = fz_walk(&walker, sig + item, item_length, values, value_length, image, sizeof image,
                     area, sizeof area, copies, (size_t)sizes.copies, BASE)
                 .number;
}

static void call_widen(void)
{
    number = fz_widen(1) != UINT64_C(0x36A0000000000000);
}

static void call_narrow(void)
{
    number = fz_narrow(UINT64_C(0x36A0000000000000)).number;
}

static void call_start_ppc64(void)
{
    number = fz_start_ppc64(&machine, &registers, BASE, memory, sizeof memory).number;
}

static void call_start_z(void)
{
    number = fz_start_z(&machine, &registers, BASE, memory, sizeof memory).number;
}

static void call_start_aix(void)
{
    number = fz_start_aix(&machine, &registers, BASE, memory, sizeof memory).number;
}

static void call_start_ppc64b(void)
{
    number = fz_start_ppc64b(&machine, &registers, BASE, memory, sizeof memory).number;
}

static void call_enter(void)
{
    number = fz_enter(&machine, &request, memory, sizeof memory).number;
}

static void call_write_register(void)
{
    number = fz_write_register(&machine, 0, 14, 1, memory, sizeof memory).number;
}

static void call_write_memory(void)
{
    /* the locals' first bytes: on PPC64 the outgoing area has at least 64, on AIX 32 */
    static const uint64_t headers[] = {48 + 64, 160, 24 + 32, 48 + 64};
    uint64_t header = headers[machine.convention - 1];
    uint64_t pointer = machine.registers.gpr[machine.convention == 2 ? 15 : 1];

    number = fz_write_memory(&machine, pointer + header, values, 256, memory, sizeof memory).number;
}

static void call_leave(void)
{
    number = fz_leave(&machine, memory, sizeof memory).number;
}

/* a dump of frames of 16 bytes, as many as a walk finds */
#define MOST_FRAMES 4096

static uint8_t dump[16 * MOST_FRAMES + 160];
static uint64_t frames[MOST_FRAMES];

static void call_walk_dump_ppc64(void)
{
    number = fz_walk_dump_ppc64(dump, sizeof dump, BASE, BASE, frames, MOST_FRAMES).answer.number;
}

static void call_walk_dump_z(void)
{
    number = fz_walk_dump_z(dump, sizeof dump, BASE, BASE, frames, MOST_FRAMES).answer.number;
}

static void call_walk_dump_aix(void)
{
    number = fz_walk_dump_aix(dump, sizeof dump, BASE, BASE, frames, MOST_FRAMES).answer.number;
}

enum {
    VERSION,
    READ_SIGNATURE,
    MEASURE,
    PLAN,
    LISTING,
    FILL,
    READ,
    HOME,
    VIEW,
    WALK_START,
    WALK,
    WIDEN,
    NARROW,
    START_PPC64,
    START_Z,
    START_AIX,
    START_PPC64B,
    ENTER,
    WRITE_REGISTER,
    WRITE_MEMORY,
    LEAVE,
    WALK_DUMP_PPC64,
    WALK_DUMP_Z,
    WALK_DUMP_AIX,
    STORED_LENGTH,
    STORE_PLAN,
    CHECK_PLAN,
    FILL_STORED,
    FUNCTIONS
};

static struct {
    const char *name;
    void (*call)(void);
    size_t most;
} functions[FUNCTIONS] = {
    [VERSION] = {"fz_version", call_version, 0},
    [READ_SIGNATURE] = {"fz_read_signature", call_read_signature, 0},
    [MEASURE] = {"fz_measure", call_measure, 0},
    [PLAN] = {"fz_plan", call_plan, 0},
    [LISTING] = {"fz_listing", call_listing, 0},
    [FILL] = {"fz_fill", call_fill, 0},
    [READ] = {"fz_read", call_read, 0},
    [HOME] = {"fz_home", call_home, 0},
    [VIEW] = {"fz_view", call_view, 0},
    [WALK_START] = {"fz_walk_start", call_walk_start, 0},
    [WALK] = {"fz_walk", call_walk, 0},
    [WIDEN] = {"fz_widen", call_widen, 0},
    [NARROW] = {"fz_narrow", call_narrow, 0},
    [START_PPC64] = {"fz_start_ppc64", call_start_ppc64, 0},
    [START_Z] = {"fz_start_z", call_start_z, 0},
    [START_AIX] = {"fz_start_aix", call_start_aix, 0},
    [START_PPC64B] = {"fz_start_ppc64b", call_start_ppc64b, 0},
    [ENTER] = {"fz_enter", call_enter, 0},
    [WRITE_REGISTER] = {"fz_write_register", call_write_register, 0},
    [WRITE_MEMORY] = {"fz_write_memory", call_write_memory, 0},
    [LEAVE] = {"fz_leave", call_leave, 0},
    [WALK_DUMP_PPC64] = {"fz_walk_dump_ppc64", call_walk_dump_ppc64, 0},
    [WALK_DUMP_Z] = {"fz_walk_dump_z", call_walk_dump_z, 0},
    [WALK_DUMP_AIX] = {"fz_walk_dump_aix", call_walk_dump_aix, 0},
    [STORED_LENGTH] = {"fz_stored_length", call_stored_length, 0},
    [STORE_PLAN] = {"fz_store_plan", call_store_plan, 0},
    [CHECK_PLAN] = {"fz_check_plan", call_check_plan, 0},
    [FILL_STORED] = {"fz_fill_stored", call_fill_stored, 0},
};

static size_t without_library;

/* Measures a call, which must give the expected answer. */
static void measure(int function)
{
    size_t bytes = written(functions[function].call) - without_library;

    if (number != expected)
        fail(functions[function].name);
    if (bytes > functions[function].most)
        functions[function].most = bytes;
}

/* Steps of a walk on what was filled: to the first argument, to one in memory, and where only f13 is
   left. */
static void measure_steps(uint8_t convention, const type *of)
{
    measure(WALK_START);
    value_length = unclear(convention, of) ? 16 : (size_t)sizes.values / arguments;
    measure(WALK);
    if (convention == 2) {
        walker.general = 7;
        walker.floating = 8;
        walker.stack = 160;
    } else {
        walker.general = 14;
        walker.floating = 13;
    }
    measure(WALK);
    if (unclear(convention, of)) {
        walker.floating = 12;
        expected = FZ_UNCLEAR_PLACE;
        measure(WALK);
        expected = 0;
    }
}

/* Storing a plan, checking what was stored, fresh and with its last byte changed, and filling from
   it. */
static void measure_stored(void)
{
    uint64_t accepted = expected;

    stored_length = 0;
    measure(STORED_LENGTH);
    measure(STORE_PLAN);
    if (accepted == 0) {
        stored_length = (size_t)fz_stored_length(sig, sig_length).length;
        stored[stored_length - 1] ^= 1;
        expected = FZ_STALE;
        measure(CHECK_PLAN);
        measure(FILL_STORED);
        stored[stored_length - 1] ^= 1;
        expected = 0;
    }
    measure(CHECK_PLAN);
    measure(FILL_STORED);
}

static void measure_signature(uint8_t convention, const type *of, int ellipsis)
{
    put_signature(convention, of, ellipsis);
    sizes = fz_measure(sig, sig_length);
    if (sizes.values > sizeof values || sizes.area > sizeof area || sizes.copies > sizeof copies)
        fail("a call that is too large");
    memset(values, 0x01, sizeof values);
    memset(image, 0, sizeof image);
    memset(area, 0, sizeof area);
    measure(READ_SIGNATURE);
    measure(LISTING);
    expected = unclear(convention, of) ? FZ_UNCLEAR_PLACE : 0;
    measure(MEASURE);
    measure(PLAN);
    measure_stored();
    measure(FILL);
    measure(READ);
    if (convention != 2) {
        measure(HOME);
        view_index = 0;
        measure(VIEW);
    }
    expected = 0;
    measure_steps(convention, of);
}

/* Frames to the most: the last with all registers saved. */
static void measure_machine(int start)
{
    static const fz_frame small = {32, 32, 0, 0, 0, 0}, small_z = {14, 16, 0, 0, 0, 0};
    static const fz_frame large = {14, 14, 1, 32000, 0, 0}, large_z = {6, 8, 0, 32000, 0, 0};
    static const fz_frame large_aix = {13, 14, 1, 32000, 0, 0};
    int z = start == START_Z, depth;

    measure(start);
    for (depth = 0; depth < 31; depth++) {
        request = z ? small_z : small;
        measure(ENTER);
    }
    request = z ? large_z : start == START_AIX ? large_aix : large;
    measure(ENTER);
    measure(WRITE_REGISTER);
    measure(WRITE_MEMORY);
    for (depth = 0; depth < 32; depth++)
        measure(LEAVE);
}

/* The longest chain: a back chain of so many bytes in each frame but the last. */
static void measure_walk(int walk, size_t word)
{
    size_t frame, i;

    memset(dump, 0, sizeof dump);
    for (frame = 0; frame + 1 < MOST_FRAMES; frame++)
        for (i = 0; i < word; i++)
            dump[16 * frame + i] = (uint8_t)((BASE + 16 * (frame + 1)) >> 8 * (word - 1 - i));
    measure(walk);
    if (frames[MOST_FRAMES - 1] != BASE + 16 * (MOST_FRAMES - 1))
        fail("a walk that ends early");
    frames[MOST_FRAMES - 1] = 0;
}

int main(void)
{
    uint8_t convention;
    size_t i;

    stack = malloc(STACK);
    if (stack == NULL)
        fail("no memory");
    without_library = written(call_nothing);
    for (convention = 1; convention <= 4; convention++)
        for (i = 0; i < sizeof types / sizeof *types; i++)
            if (convention != 3 || !not_on_aix(&types[i])) {
                measure_signature(convention, &types[i], 0);
                measure_signature(convention, &types[i], 1);
            }
    measure(VERSION);
    measure(WIDEN);
    measure(NARROW);
    measure_machine(START_PPC64);
    measure_machine(START_Z);
    measure_machine(START_AIX);
    measure_walk(WALK_DUMP_PPC64, 8);
    measure_walk(WALK_DUMP_Z, 8);
    measure_walk(WALK_DUMP_AIX, 4);
    measure_machine(START_PPC64B);
    for (i = 0; i < FUNCTIONS; i++)
        printf("%-18s %6lu\n", functions[i].name, (unsigned long)functions[i].most);
    return 0;
}
