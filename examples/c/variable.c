/* A variable argument list, filled by its caller and walked by the function that is called, for three
 * machines. The function is
 *
 *     int note(const char *format, ...);
 *
 * It learns from the format what was passed, as printf does, and asks a walker for each argument in
 * turn. Build it against what `make install` has put in place:
 *
 *     cc -o variable variable.c signature_text.c $(pkg-config --cflags --libs flakuzhen)
 */
#include <flakuzhen_text.h>
#include <inttypes.h>
#include <stdio.h>
#include <stdlib.h>
#include <string.h>

/* A signature, with the bytes that its text says. */
typedef struct {
    uint8_t bytes[128];
    size_t length;
} signature;

/* The caller's signature of this one call: all arguments, with an ellipsis. */
static signature call;

/* The called function's own: what stands before the ellipsis. */
static signature declared;

/* Where the format stands on the machine of the call; here it is at hand. */
#define FORMAT 0x10000
static const char format[] = "%d turns at %f Hz, %ld in all; valve %d is at %f";

/* Values stand in the buffers with their highest byte first, whatever this machine does. */
static uint8_t *put(uint8_t *to, uint64_t bits, int bytes)
{
    while (bytes-- > 0)
        *to++ = (uint8_t)(bits >> 8 * bytes);
    return to;
}

static uint64_t get(const uint8_t *from, int bytes)
{
    uint64_t bits = 0;

    while (bytes-- > 0)
        bits = bits << 8 | *from++;
    return bits;
}

static uint64_t bits_of(double number)
{
    uint64_t bits;

    memcpy(&bits, &number, sizeof bits);
    return bits;
}

static double number_of(uint64_t bits)
{
    double number;

    memcpy(&number, &bits, sizeof number);
    return number;
}

/* Ends the program where the library says no. */
static void must(fz_answer answer, const char *what)
{
    if (answer.number != FZ_ACCEPTED) {
        fprintf(stderr, "%s: refused %" PRIu64 " at %" PRIu64 "\n", what, answer.number,
                answer.place);
        exit(1);
    }
}

/* what the call has on its way: no argument of it goes by reference */
static uint8_t image[512], area[128], copies[1];

/* Makes a signature of a convention's word and the text of the rest. */
static signature encode(const char *convention, const char *rest)
{
    signature made;
    char text[128];
    fz_encoded encoded;

    snprintf(text, sizeof text, "%s %s", convention, rest);
    encoded = fz_encode(text, strlen(text), made.bytes, sizeof made.bytes);
    must(encoded.answer, text);
    made.length = encoded.length;
    return made;
}

/* The caller: puts the values where the called function looks for them. */
static void make_call(int pointer_size)
{
    uint8_t values[64], *end = values;
    char text[256] = "";

    end = put(end, FORMAT, pointer_size);
    end = put(end, 12, 4);
    end = put(end, bits_of(50.5), 8);
    end = put(end, UINT64_C(5000000000), 8);
    end = put(end, (uint32_t)-7, 4);
    end = put(end, bits_of(0.25), 8);
    memset(image, 0, sizeof image);
    memset(area, 0, sizeof area);
    must(fz_fill(call.bytes, call.length, values, (size_t)(end - values), image, sizeof image, area,
                 sizeof area, copies, 0, 0, 0),
         "fill");
    fz_listing(call.bytes, call.length, text, sizeof text - 1);
    fputs(text, stdout);
}

/* Asks a walker for an argument of a type and size. */
static fz_answer ask(fz_walker *walker, const char *type, int size, uint8_t *value)
{
    uint8_t item[16];
    fz_encoded encoded = fz_encode_type(type, strlen(type), item, sizeof item);

    return fz_walk(walker, item, encoded.length, value, (size_t)size, image, sizeof image, area,
                   sizeof area, copies, 0, 0);
}

/* The next argument, of this type and size. */
static uint64_t next(fz_walker *walker, const char *type, int size)
{
    uint8_t value[8];

    must(ask(walker, type, size, value), "walk");
    return get(value, size);
}

/* The function that is called: prints the format with what was passed. */
static void note(int pointer_size)
{
    fz_walker walker;
    const char *at;

    must(fz_walk_start(&walker, declared.bytes, declared.length), "start");
    if (next(&walker, "pointer", pointer_size) != FORMAT)
        exit(1);
    for (at = format; *at != '\0'; at++) {
        if (*at != '%')
            putchar(*at);
        else if (*++at == 'd')
            printf("%" PRId32, (int32_t)next(&walker, "i32", 4));
        else if (*at == 'f')
            printf("%g", number_of(next(&walker, "double", 8)));
        else if (*at == 'l' && *++at == 'd')
            printf("%" PRId64, (int64_t)next(&walker, "i64", 8));
    }
    printf("\nnext: general %" PRIu64 " floating %" PRIu64 " stack %" PRIu64 "\n", walker.general,
           walker.floating, walker.stack);
}

/* A caller that leaves the copy of a double in a general register out, as gcc does where the double is
 * named before the ellipsis. */
static void leave_out_a_copy(void)
{
    fz_walker walker;
    uint8_t value[8];
    fz_answer answer;

    must(fz_walk_start(&walker, declared.bytes, declared.length), "start");
    next(&walker, "pointer", 8);
    next(&walker, "i32", 4);
    memset(image + 8 * 5, 0, 8); /* r5 */
    answer = ask(&walker, "double", 8, value);
    printf("without r5: refused %" PRIu64 "\n", answer.number);
    /* where the walker stays: the register is there to be read without an ellipsis */
    walker.ellipsis = 0;
    printf("from f1 alone: %g\n", number_of(next(&walker, "double", 8)));
}

int main(void)
{
    static const char *const conventions[] = {"ppc64", "aix", "z"};
    size_t i;

    for (i = 0; i < 3; i++) {
        int pointer_size = i == 1 ? 4 : 8;

        call = encode(conventions[i], "i32(pointer, i32, double, i64, i32, double, ...)");
        declared = encode(conventions[i], "i32(pointer, ...)");
        make_call(pointer_size);
        note(pointer_size);
        if (i == 0)
            leave_out_a_copy();
        if (i < 2)
            putchar('\n');
    }
    return 0;
}
