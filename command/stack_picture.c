/* The stack of a frame machine, drawn as a table from the highest address down.
 *
 * How a frame is laid out is said nowhere here: the library is asked. A word that a leave restores
 * a register from is that register's save slot; words that may be written are an area; what is
 * neither is header; the floor under the stack pointer is what a leaf may write there. So the
 * picture cannot show another layout than the one that is proved. */
#include "command.h"
#include <stdio.h>
#include <stdlib.h>
#include <string.h>

/* bytes that are asked for at a time: CR's save slot is the smallest of all parts, and so are all
 * of AIX's words */
#define WORD 4
/* the start and 32 frames */
#define MOST_FUNCTIONS 33

/* what a word of the memory is; of a save slot the function that saved, by its depth, and where the
 * register stands among the names */
typedef struct {
    enum { HEADER, BACK_CHAIN, OUTGOING, LOCALS, UNUSED, FREE, SAVED } kind;
    uint64_t depth;
    char name[16];
} part;

/* A machine with all its functions: as each finds it when it is returned to, the latest first. The
 * memory is the same for all. */
typedef struct {
    fz_machine functions[MOST_FUNCTIONS];
    size_t count;
    uint8_t *memory;
    size_t size, floor;
    part *parts;
} stack;

static int is_leaf(const fz_machine *of)
{
    return of->depth > 0 && of->frames[of->depth - 1].leaf == 1;
}

static void add_function(bytes *out, uint64_t depth, int leaf)
{
    if (depth == 0)
        add(out, "start");
    else
        add(out, "%s %llu", leaf ? "leaf" : "frame", (unsigned long long)depth);
}

/* Where in the memory a function's frame starts; of what is past the last, the memory's end. */
static size_t start_of(const stack *of, size_t index)
{
    if (index >= of->count)
        return of->size;
    return (size_t)(stack_pointer(&of->functions[index]) - of->functions[index].base);
}

/* Whether the function may write these bytes of the memory. They are written as they are. */
static int may_write(const stack *of, size_t index, size_t at, size_t length)
{
    fz_machine function = of->functions[index];
    uint8_t same[2 * WORD];

    memcpy(same, of->memory + at, length);
    return fz_write_memory(&function, function.base + at, same, length, of->memory, of->size)
               .number == FZ_ACCEPTED;
}

/* The bytes of the floor under every stack pointer: what a leaf that saves as little as may be can
 * write below its own, in a machine at address 0. Where there are no leaves there is no floor. */
static size_t floor_of(uint64_t convention)
{
    static const fz_registers all_zeros;
    uint8_t memory[1024] = {0}, zero = 0;
    fz_machine started, on;
    fz_answer answer;
    int g, m;
    size_t count = 0;

    answer = convention == 1   ? fz_start_ppc64(&started, &all_zeros, 0, memory, sizeof memory)
             : convention == 3 ? fz_start_aix(&started, &all_zeros, 0, memory, sizeof memory)
             : convention == 4 ? fz_start_ppc64b(&started, &all_zeros, 0, memory, sizeof memory)
                               : fz_start_z(&started, &all_zeros, 0, memory, sizeof memory);
    if (answer.number != FZ_ACCEPTED)
        return 0;
    for (g = 32; g >= 0; g--) {
        for (m = 32; m >= 0; m--) {
            fz_frame leaf = {0, 0, 0, 0, 0, 1};

            leaf.first_gpr = (uint64_t)g;
            leaf.first_fpr = (uint64_t)m;
            on = started;
            if (fz_enter(&on, &leaf, memory, sizeof memory).number != FZ_ACCEPTED)
                continue;
            while (count < stack_pointer(&on) &&
                   fz_write_memory(&on, stack_pointer(&on) - count - 1, &zero, 1, memory,
                                   sizeof memory)
                           .number == FZ_ACCEPTED)
                count++;
            return count;
        }
    }
    return 0;
}

static void mark(stack *of, size_t from, size_t to, part as)
{
    for (; from < to; from += WORD)
        of->parts[from / WORD] = as;
}

static part plain(int kind)
{
    part of = {HEADER, 0, ""};

    of.kind = kind;
    return of;
}

/* Marks what the function may write of its own frame, or as a leaf of the floor. */
static void mark_areas(stack *of, size_t index, size_t start, size_t end)
{
    const fz_machine *function = &of->functions[index];
    size_t areas[2][2] = {{0, 0}, {0, 0}}, count = 0, last_end = 0, at, i;
    int asked = function->depth > 0 && function->frames[function->depth - 1].locals > 0;

    for (at = start; at < end; at += WORD) {
        if (!may_write(of, index, at, WORD))
            continue;
        /* a write that reaches into both is accepted within one area alone */
        if (count > 0 && last_end == at && may_write(of, index, at - WORD, 2 * WORD)) {
            if (count <= 2)
                areas[count - 1][1] = at + WORD;
        } else {
            if (count < 2) {
                areas[count][0] = at;
                areas[count][1] = at + WORD;
            }
            count++;
        }
        last_end = at + WORD;
    }
    if (function->depth == 0 && count > 0)
        mark(of, last_end, end, plain(UNUSED));
    for (i = 0; i < count && i < 2; i++) {
        /* a lone area is the locals just where locals were asked for: else there are none */
        part as = plain(i == 1 || (count == 1 && asked) ? LOCALS : OUTGOING);

        if (is_leaf(function)) {
            if (i > 0)
                break;
            as.kind = FREE;
            as.depth = function->depth;
        } else if (i == 1 && count == 1) {
            break;
        }
        mark(of, areas[i][0], areas[i][1], as);
    }
}

/* The name of the first register that is not the same, or nothing. */
static void difference(char name[16], const fz_registers *one, const fz_registers *other)
{
    int n;

    name[0] = '\0';
    if (one->cr != other->cr)
        strcpy(name, "cr");
    if (one->lr != other->lr)
        strcpy(name, "lr");
    for (n = 31; n >= 0; n--)
        if (one->fpr[n] != other->fpr[n])
            snprintf(name, 16, "f%d", n);
    for (n = 31; n >= 0; n--)
        if (one->gpr[n] != other->gpr[n])
            snprintf(name, 16, "r%d", n);
}

static void flip(uint8_t *word)
{
    int i;

    for (i = 0; i < WORD; i++)
        word[i] = (uint8_t)~word[i];
}

/* Marks the words that a leave restores registers from: those whose change it shows. */
static void mark_saves(stack *of, size_t index, size_t start, size_t end)
{
    size_t at;

    for (at = start; at < end; at += WORD) {
        fz_machine changed = of->functions[index];
        part as = plain(SAVED);

        as.depth = changed.depth;
        flip(of->memory + at);
        /* the caller's stack pointer is the one thing that a leave tests: on PPC64 and AIX the back
         * chain, which has a name of its own, on Z the slot of r15 */
        if (fz_leave(&changed, of->memory, of->size).number != FZ_ACCEPTED)
            strcpy(as.name, "r15");
        else
            difference(as.name, &of->functions[index + 1].registers, &changed.registers);
        flip(of->memory + at);
        if (as.name[0] != '\0')
            of->parts[at / WORD] = as;
    }
}

/* Says what each word of the memory is. */
static void mark_parts(stack *of)
{
    /* a back chain is a doubleword, on AIX a word */
    size_t chain = of->functions[0].convention == 3 ? WORD : 2 * WORD, index;

    for (index = 0; index < of->count; index++) {
        size_t start = start_of(of, index), own = start;

        if (is_leaf(&of->functions[index]))
            own -= of->floor;
        mark_areas(of, index, own, start_of(of, index + 1));
        /* what it has saved is in its own frame and in its caller's */
        if (index + 1 < of->count)
            mark_saves(of, index, own, start_of(of, index + 2));
        /* at the stack pointer, which is the caller's where a leaf has none */
        mark(of, start, start + chain, plain(BACK_CHAIN));
    }
}

static int same_part(const part *one, const part *other)
{
    return one->kind == other->kind && one->depth == other->depth &&
           strcmp(one->name, other->name) == 0;
}

/* A line of the picture: address, bytes, what they are, and what stands there where that is a
 * register's value or a stack pointer. */
static void add_row(const stack *of, size_t start, size_t end, bytes *out)
{
    static const char *const names[] = {"header", "back chain", "outgoing area", "locals",
                                        "unused"};
    uint64_t base = of->functions[0].base;
    const part *as = &of->parts[start / WORD];
    char last[24], address[24];
    span shown = {of->memory + start, end - start};

    snprintf(last, sizeof last, "0x%llx", (unsigned long long)(base + of->size - 1));
    snprintf(address, sizeof address, "0x%llx", (unsigned long long)(base + start));
    add(out, "    %-*s %6zu  ", (int)strlen(last), address, end - start);
    if (as->kind == FREE) {
        add(out, "free for ");
        add_function(out, as->depth, 1);
    } else if (as->kind == SAVED) {
        add_function(out, as->depth, of->functions[0].frames[as->depth - 1].leaf == 1);
        add(out, " saved %s", as->name);
    } else {
        add(out, "%s", names[as->kind]);
    }
    if (as->kind == SAVED || as->kind == BACK_CHAIN) {
        add(out, " = ");
        add_hex(out, shown);
    }
    add(out, "\n");
}

/* Adds the runs of words that are the same part, from the highest down. */
static void add_rows(const stack *of, size_t start, size_t end, bytes *out)
{
    while (end > start) {
        size_t first = end - WORD;

        while (first > start && same_part(&of->parts[first / WORD - 1], &of->parts[end / WORD - 1]))
            first -= WORD;
        add_row(of, first, end, out);
        end = first;
    }
}

void draw_stack(const machine *on, bytes *out)
{
    stack *of = calloc(1, sizeof *of);
    size_t end = on->size, index;

    if (of == NULL)
        fail(NULL, "no memory left");
    of->memory = on->memory;
    of->size = on->size;
    of->parts = calloc(on->size / WORD + 1, sizeof *of->parts);
    if (of->parts == NULL)
        fail(NULL, "no memory left");
    of->functions[0] = on->state;
    for (of->count = 1; of->count < MOST_FUNCTIONS; of->count++) {
        fz_machine *caller = &of->functions[of->count];

        *caller = of->functions[of->count - 1];
        if (fz_leave(caller, of->memory, of->size).number != FZ_ACCEPTED)
            break;
    }
    of->floor = floor_of(on->state.convention);
    mark_parts(of);
    for (index = of->count; index-- > 0;) {
        const fz_machine *function = &of->functions[index];
        unsigned long long pointer = stack_pointer(function);
        size_t start = start_of(of, index);

        add(out, "  ");
        add_function(out, function->depth, is_leaf(function));
        if (is_leaf(function)) {
            add(out, ", without a frame at 0x%llx\n", pointer);
            continue;
        }
        add(out, ", %zu bytes at 0x%llx\n", end - start, pointer);
        add_rows(of, start, end, out);
        end = start;
    }
    if (of->floor > 0) {
        add(out, "  floor, %zu bytes at 0x%llx\n", of->floor,
            (unsigned long long)(stack_pointer(&on->state) - of->floor));
        if (is_leaf(&on->state))
            add_rows(of, end - of->floor, end, out);
    }
    free(of->parts);
    free(of);
}
