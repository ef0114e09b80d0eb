/* A call's plan, as the library gives it. */
#include "command.h"
#include <stdlib.h>
#include <string.h>

plan plan_of(const source *of)
{
    const uint8_t *signature = of->signature.at;
    size_t length = of->signature.length, text;
    uint64_t none = 0;
    plan planned;

    memset(&planned, 0, sizeof planned);
    planned.signature = span_of_bytes(&of->signature);
    if (of->answer.number != FZ_ACCEPTED) {
        /* of a text that is refused there are no bytes, but the answer is known */
        planned.whole.answer = of->answer;
        add_refusal(&planned.listing, of->answer);
        return planned;
    }
    planned.whole = fz_plan(signature, length, &none, 0);
    /* a listing is given whole or not at all: the first call asks for its length */
    text = (size_t)fz_listing(signature, length, (char *)more(&planned.listing, 0), 0);
    fz_listing(signature, length, (char *)more(&planned.listing, text), text);
    planned.listing.length = text;
    planned.places = calloc((size_t)planned.whole.arguments + 1, sizeof *planned.places);
    if (planned.places == NULL)
        fail(NULL, "no memory left");
    fz_plan(signature, length, (uint64_t *)planned.places,
            FZ_PLACE_WORDS * (size_t)planned.whole.arguments);
    return planned;
}

void free_plan(plan *of)
{
    free(of->places);
    free(of->listing.at);
}

span listing_line(const plan *of, size_t number)
{
    span text = span_of_bytes(&of->listing), line = next_line(&text);

    while (number-- > 0)
        line = next_line(&text);
    return line;
}

size_t word_of(const plan *of)
{
    return of->whole.convention == 3 ? 4 : 8;
}

size_t area_start(const plan *of)
{
    return of->whole.convention == 2 ? 160 : 0;
}

int is_struct(const plan *of, size_t number)
{
    return of->signature.at[of->places[number].item] == 0x12;
}

span item_of(const plan *of, size_t number)
{
    span item = without(of->signature, (size_t)of->places[number].item);

    item.length = 3 + ((size_t)item.at[1] << 8 | item.at[2]);
    return item;
}
