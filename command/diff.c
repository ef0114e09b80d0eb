/* Two signatures of one function, an older and a newer one: which arguments kept their places. The
 * places are the library's own, in the words of its listing. */
#include "command.h"
#include <stdlib.h>
#include <string.h>

/* The line without its first word. */
static span after_word(span line)
{
    span word = next_word(&line);

    (void)word;
    return line.length > 0 ? without(line, 1) : line;
}

/* Adds the convention, and whether there is an ellipsis: the first line without 'args N area N'. */
static void add_kind(bytes *to, const plan *of)
{
    span line = listing_line(of, 0);

    add_word(to, next_word(&line));
    if (of->whole.ellipsis)
        add(to, " var");
}

/* Adds where an argument stands: its line of the listing, its bytes among the values and those of
 * its copy. The same text is the same place, for the size says how many bytes are in memory. */
static void add_argument(bytes *to, const plan *of, size_t number)
{
    const fz_place *at = &of->places[number];

    add_word(to, after_word(listing_line(of, 1 + number)));
    add(to, " value %llu..%llu", (unsigned long long)at->value,
        (unsigned long long)(at->value + at->size));
    if (at->copy_length != 0)
        add(to, " copy %llu..%llu", (unsigned long long)at->copy,
            (unsigned long long)(at->copy + at->copy_length));
}

static span result_of(const plan *of)
{
    return after_word(listing_line(of, (size_t)of->whole.arguments + 1));
}

/* How many bytes come before the arguments' items. */
static size_t before_items(const plan *of)
{
    return of->whole.arguments > 0 ? (size_t)of->places[0].item : of->signature.length;
}

static int same_bytes(span one, span other)
{
    return one.length == other.length &&
           (one.length == 0 || memcmp(one.at, other.at, one.length) == 0);
}

/* Whether the newer signature is the older one with arguments after its own: the same before the
 * arguments' header, which has three bytes, and the older one's items first. */
static int grows_to(const plan *old, const plan *new)
{
    span head = old->signature, new_head = new->signature;
    span items = without(old->signature, before_items(old));
    span new_items = without(new->signature, before_items(new));

    head.length = before_items(old) - 3;
    new_head.length = before_items(new) - 3;
    if (!same_bytes(head, new_head) || items.length > new_items.length)
        return 0;
    new_items.length = items.length;
    return same_bytes(items, new_items);
}

/* Adds a line for a place that the older or the newer one has, and gives whether that tells of a
 * move. */
static int add_place(bytes *out, const span *old, const span *new)
{
    int kept = old != NULL && new != NULL &&same_bytes(*old, *new);

    add(out, " %s ", kept ? "kept" : new == NULL ? "gone" : old == NULL ? "new" : "moved");
    add_word(out, old == NULL ? *new : *old);
    if (old != NULL && new != NULL && !kept) {
        add(out, " to ");
        add_word(out, *new);
    }
    add(out, "\n");
    return old != NULL && !kept;
}

static void add_size(bytes *out, const char *name, uint64_t old, uint64_t new)
{
    add(out, "%s %llu", name, (unsigned long long)old);
    if (old != new)
        add(out, " to %llu", (unsigned long long)new);
    add(out, "\n");
}

static void diff(const plan *old, const plan *new, outcome *to)
{
    bytes kinds[2] = {{NULL, 0, 0}, {NULL, 0, 0}};
    size_t number, count, i;
    span old_result = result_of(old), new_result = result_of(new);
    const plan *both[2];
    /* the same names of registers in another convention are no places kept */
    int moved = old->whole.convention != new->whole.convention;

    both[0] = old;
    both[1] = new;
    for (i = 0; i < 2; i++)
        add_kind(&kinds[i], both[i]);
    if (!same_bytes(span_of_bytes(&kinds[0]), span_of_bytes(&kinds[1]))) {
        add(&to->out, "call ");
        add_word(&to->out, span_of_bytes(&kinds[0]));
        add(&to->out, " to ");
        add_word(&to->out, span_of_bytes(&kinds[1]));
        add(&to->out, "\n");
    }
    count = (size_t)(old->whole.arguments > new->whole.arguments ? old->whole.arguments
                                                                 : new->whole.arguments);
    for (number = 0; number < count; number++) {
        bytes texts[2] = {{NULL, 0, 0}, {NULL, 0, 0}};
        span places[2];

        for (i = 0; i < 2; i++) {
            if (number < both[i]->whole.arguments)
                add_argument(&texts[i], both[i], number);
            places[i] = span_of_bytes(&texts[i]);
        }
        add(&to->out, "%zu", number);
        moved |= add_place(&to->out, number < old->whole.arguments ? &places[0] : NULL,
                           number < new->whole.arguments ? &places[1] : NULL);
        free(texts[0].at);
        free(texts[1].at);
    }
    add(&to->out, "result");
    moved |= add_place(&to->out, &old_result, &new_result);
    add_size(&to->out, "area", old->whole.area, new->whole.area);
    add_size(&to->out, "values", old->whole.values, new->whole.values);
    add_size(&to->out, "copies", old->whole.copies, new->whole.copies);
    add(&to->out, "%s\n",
        same_bytes(old->signature, new->signature) ? "the same signature"
        : grows_to(old, new)                       ? "only appends"
        : moved                                    ? "something moved"
                                                   : "nothing moved");
    to->status = moved;
    free(kinds[0].at);
    free(kinds[1].at);
}

/* Ends where a signature is refused: there is nothing to compare, and status 1 would be a move. */
static plan plan_or_fail(const source *of)
{
    plan planned = plan_of(of);

    if (planned.whole.answer.number != FZ_ACCEPTED)
        fail_refused(of, planned.whole.answer);
    return planned;
}

void diff_verb(words *given, outcome *to)
{
    source sources[2];
    plan plans[2];
    int i;

    if (given->count != 2)
        fail(NULL, "diff takes OLD NEW ('-' is standard input)");
    if (strcmp(given->files[0], "-") == 0 && strcmp(given->files[1], "-") == 0)
        fail(NULL, "diff: standard input can't be both OLD and NEW");
    for (i = 0; i < 2; i++)
        sources[i] = read_source(given, given->files[i]);
    for (i = 0; i < 2; i++)
        plans[i] = plan_or_fail(&sources[i]);
    diff(&plans[0], &plans[1], to);
    for (i = 0; i < 2; i++) {
        free_plan(&plans[i]);
        free_source(&sources[i]);
    }
}
