/* Stored plans in files: `store` writes one, and `check` tells what a stored plan is stale in. */
#include "command.h"
#include <stdlib.h>
#include <string.h>

/* The plan that is stored for an accepted signature today. */
static bytes plan_today(const source *of)
{
    const uint8_t *signature = of->signature.at;
    size_t length = of->signature.length;
    bytes plan = zeros((size_t)fz_stored_length(signature, length).length);

    fz_store_plan(signature, length, plan.at, plan.length);
    return plan;
}

void store_verb(words *given, outcome *to)
{
    source of;
    fz_answer answer;

    if (given->count != 1 || given->out == NULL)
        fail(NULL, "store takes one FILE ('-' is standard input) and -o OUT");
    if (strcmp(given->out, "-") == 0)
        fail(NULL, "store: -o takes the name of a file");
    of = read_source(given, given->files[0]);
    answer = of.answer;
    if (answer.number == FZ_ACCEPTED)
        answer = fz_stored_length(of.signature.at, of.signature.length).answer;
    if (answer.number != FZ_ACCEPTED) {
        add_refusal(&to->out, answer);
        tell_refusal(&to->told, &of, answer);
        to->status = 1;
    } else {
        bytes plan = plan_today(&of);

        write_file(given->out, span_of_bytes(&plan));
        add(&to->out, "stored %zu bytes\n", plan.length);
        free(plan.at);
    }
    free_source(&of);
}

/* Adds what of a stored plan has the byte at this place, or where the place is its end, what lies
 * behind it. */
static void add_part(bytes *out, span plan, size_t place)
{
    size_t at = 0, number = 0;

    while (plan.length - at >= 3) {
        uint8_t tag = plan.at[at];
        size_t end = at + 3 + ((size_t)plan.at[at + 1] << 8 | plan.at[at + 2]);

        if (place < end) {
            if (tag == 0x21)
                add(out, "in argument %zu", number);
            else
                add(out, tag == 0x20 ? "in the signature" : "in the result");
            return;
        }
        number += tag == 0x21;
        at = end;
    }
    add(out, "after the result");
}

void check_verb(words *given, outcome *to)
{
    place where = {{NULL, 0, 0}, 0, 0};
    bytes stored;
    source of;
    fz_answer answer;

    if (given->count != 2)
        fail(NULL, "check takes STORED SIGNATURE ('-' is standard input)");
    if (strcmp(given->files[0], "-") == 0 && strcmp(given->files[1], "-") == 0)
        fail(NULL, "check: standard input can't be both STORED and SIGNATURE");
    stored = read_file(given->files[0], &where, LARGEST_INPUT);
    more(&stored, 0);
    of = read_source(given, given->files[1]);
    answer = of.answer;
    if (answer.number == FZ_ACCEPTED)
        answer = fz_check_plan(stored.at, stored.length, of.signature.at, of.signature.length);
    if (answer.number == FZ_ACCEPTED) {
        add(&to->out, "fresh\n");
    } else if (answer.number != FZ_STALE) {
        /* a check has no answer then, and status 1 would be a stale plan */
        fail_refused(&of, answer);
    } else {
        bytes today = plan_today(&of);
        size_t at = (size_t)answer.place;

        add(&to->out, "stale at %zu, ", at);
        add_part(&to->out, span_of_bytes(&today), at);
        if (at >= stored.length)
            add(&to->out, ": the stored plan ends there\n");
        else if (at >= today.length)
            add(&to->out, ": the stored plan goes on\n");
        else
            add(&to->out, ": %02x stored, %02x today\n", stored.at[at], today.at[at]);
        tell_number(&to->told, &where, "", answer.number);
        to->status = 1;
        free(today.at);
    }
    free(stored.at);
    free(where.file.at);
    free_source(&of);
}
