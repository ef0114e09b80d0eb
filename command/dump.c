/* The frames of a dump, as text and drawn.
 *
 * Which addresses are frames the library says. Of a walk that it refuses, the frames before the bad
 * one are those that it accepts where the last of them has a back chain of zero: so a chain that is
 * broken somewhere is shown up to there, and nothing is tested here. */
#include "command.h"
#include <stdio.h>
#include <stdlib.h>
#include <string.h>

#define LARGEST_DUMP ((size_t)1 << 30)
#define MOST_FRAMES 4096

/* memory bytes, the first at the address `base`, and a stack pointer */
typedef struct {
    uint64_t convention, base, pointer;
    bytes memory;
} dump;

/* What stands where in a frame's header: the back chain's bytes and those of every other word,
 * where a function that was called from here has saved the address that it returns to, and the
 * register that it had that address in. The tests hold these to the library's machine. */
static const struct header {
    size_t length, word, saved;
    const char *register_name;
} headers[] = {{48, 8, 16, "lr"}, {160, 8, 8 * 14, "r14"}, {24, 4, 8, "lr"}, {48, 8, 16, "lr"}};

static const struct header *header_of(const dump *of)
{
    return &headers[of->convention - 1];
}

static fz_walked walk(const dump *of, uint64_t *frames)
{
    /* the later edition changes no frame */
    return (of->convention == 2   ? fz_walk_dump_z
            : of->convention == 3 ? fz_walk_dump_aix
                                  : fz_walk_dump_ppc64)(of->memory.at, of->memory.length, of->base,
                                                        of->pointer, frames, MOST_FRAMES);
}

/* The bytes from an address on, if they are all in the memory; else NULL. */
static uint8_t *bytes_at(const dump *of, uint64_t address, size_t length)
{
    if (address < of->base || address - of->base > of->memory.length ||
        of->memory.length - (size_t)(address - of->base) < length)
        return NULL;
    return of->memory.at + (address - of->base);
}

/* The frames of a refused walk before the bad address. */
static size_t good_frames(const dump *of, uint64_t *frames)
{
    size_t word = header_of(of)->word, count = 0;
    uint64_t address = of->pointer, *found = calloc(MOST_FRAMES, sizeof *found);
    uint8_t chain[8], *at;

    if (found == NULL)
        fail(NULL, "no memory left");
    while ((at = bytes_at(of, address, word)) != NULL) {
        fz_walked ended_here;

        memcpy(chain, at, word);
        memset(at, 0, word);
        ended_here = walk(of, found);
        memcpy(at, chain, word);
        /* a chain that leads back ends sooner */
        if (ended_here.answer.number != FZ_ACCEPTED || ended_here.count <= count)
            break;
        count = (size_t)ended_here.count;
        memcpy(frames, found, count * sizeof *frames);
        address = big_endian(chain, word);
    }
    free(found);
    return count;
}

/* A word of a frame's header, which lies in the memory. */
static uint64_t word_at(const dump *of, uint64_t address)
{
    const uint8_t *at = bytes_at(of, address, header_of(of)->word);

    return at == NULL ? 0 : big_endian(at, header_of(of)->word);
}

/* A line for each frame, the latest first. The size of the last is not known: nothing says where it
 * ends. */
static void add_lines(const dump *of, const uint64_t *frames, size_t count, bytes *out)
{
    const struct header *header = header_of(of);
    size_t i;

    for (i = 0; i < count; i++) {
        add(out, "%zu 0x%llx: ", i + 1, (unsigned long long)frames[i]);
        if (i + 1 < count)
            add(out, "%llu bytes, ", (unsigned long long)(frames[i + 1] - frames[i]));
        add(out, "back chain 0x%llx, saved %s 0x%llx\n", (unsigned long long)word_at(of, frames[i]),
            header->register_name, (unsigned long long)word_at(of, frames[i] + header->saved));
    }
}

/* The parts of a frame that ends so far from its start, from the highest down. */
static void add_parts(const dump *of, uint64_t frame, size_t end, int width, bytes *out)
{
    const struct header *header = header_of(of);
    char saved[16];
    struct {
        size_t end;
        const char *name;
        int shown;
    } parts[5] = {{0, "back chain", 1},
                  {0, "header", 0},
                  {0, NULL, 1},
                  {0, "header", 0},
                  {SIZE_MAX, "outgoing area, locals and saves", 0}};
    int i;

    snprintf(saved, sizeof saved, "saved %s", header->register_name);
    parts[0].end = header->word;
    parts[1].end = header->saved;
    parts[2].end = header->saved + header->word;
    parts[2].name = saved;
    parts[3].end = header->length;
    for (i = 4; i >= 0; i--) {
        size_t start = i == 0 ? 0 : parts[i - 1].end, length;
        char address[24];
        span shown;

        /* a frame may be shorter than its header */
        if (start >= end)
            continue;
        length = (parts[i].end < end ? parts[i].end : end) - start;
        snprintf(address, sizeof address, "0x%llx", (unsigned long long)(frame + start));
        add(out, "    %-*s %6zu  %s", width, address, length, parts[i].name);
        shown.at = bytes_at(of, frame + start, length);
        shown.length = length;
        if (parts[i].shown && shown.at != NULL) {
            add(out, " = ");
            add_hex(out, shown);
        }
        add(out, "\n");
    }
}

/* The frames from the highest address down. */
static void draw_frames(const dump *of, const uint64_t *frames, size_t count, bytes *out)
{
    size_t length = header_of(of)->length, i;
    char highest[24];

    /* of the highest address, which a header follows */
    snprintf(highest, sizeof highest, "0x%llx",
             (unsigned long long)(count == 0 ? 0 : frames[count - 1] + length));
    for (i = count; i-- > 0;) {
        /* of the last no more than its header is known */
        size_t size = i + 1 < count ? (size_t)(frames[i + 1] - frames[i]) : length;

        add(out, "  frame %zu", i + 1);
        if (i + 1 < count)
            add(out, ", %zu bytes", size);
        add(out, " at 0x%llx\n", (unsigned long long)frames[i]);
        add_parts(of, frames[i], size, (int)strlen(highest), out);
    }
}

void dump_verb(words *given, outcome *to)
{
    uint64_t *frames = calloc(MOST_FRAMES, sizeof *frames);
    place where = {{NULL, 0, 0}, 0, 0};
    fz_walked walked;
    size_t count;
    dump of;

    if (frames == NULL)
        fail(NULL, "no memory left");
    if (given->count != 4)
        fail(NULL, "dump takes CONVENTION BASE POINTER FILE ('-' is standard input)");
    of.convention = read_convention(NULL, span_of(given->files[0]));
    of.base = read_number(NULL, span_of(given->files[1]));
    of.pointer = read_number(NULL, span_of(given->files[2]));
    of.memory = read_bytes(given, given->files[3], LARGEST_DUMP);
    more(&of.memory, 0);
    walked = walk(&of, frames);
    count = walked.answer.number == FZ_ACCEPTED ? (size_t)walked.count : good_frames(&of, frames);
    if (given->given & PICTURE)
        draw_frames(&of, frames, count, &to->out);
    else
        add_lines(&of, frames, count, &to->out);
    if (walked.answer.number == FZ_ACCEPTED) {
        add(&to->out, "accepted, %zu frame%s\n", count, count == 1 ? "" : "s");
    } else {
        add(&to->out, "refused %llu at 0x%llx\n", (unsigned long long)walked.answer.number,
            (unsigned long long)walked.answer.place);
        if (strcmp(given->files[3], "-") == 0)
            add(&where.file, "standard input");
        else
            add_quoted(&where.file, span_of(given->files[3]));
        tell_number(&to->told, &where, "", walked.answer.number);
        to->status = 1;
    }
    free(where.file.at);
    free(of.memory.at);
    free(frames);
}
