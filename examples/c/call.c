/* A call planned, filled and read, for two machines. The function that is called is
 *
 *     long area(int rows, float scale, struct { double x, y; } corner, short border);
 *
 * Build it against what `make install` has put in place:
 *
 *     cc -o call call.c signature_text.c $(pkg-config --cflags --libs flakuzhen)
 */
#include <flakuzhen_text.h>
#include <inttypes.h>
#include <stdio.h>
#include <stdlib.h>
#include <string.h>

/* the signature that is encoded last */
static uint8_t signature[128];
static size_t signature_length;

/* where the copies of arguments that go by reference shall be, on the machine that is called */
#define COPY_BASE 0x10000

/* Values stand in the buffers with their highest byte first, whatever this machine does. */
static void put(uint8_t *to, uint64_t bits, int bytes)
{
    while (bytes-- > 0)
        *to++ = (uint8_t)(bits >> 8 * bytes);
}

static uint64_t get(const uint8_t *from, int bytes)
{
    uint64_t bits = 0;

    while (bytes-- > 0)
        bits = bits << 8 | *from++;
    return bits;
}

static uint64_t double_bits(double number)
{
    uint64_t bits;

    memcpy(&bits, &number, sizeof bits);
    return bits;
}

static double double_of(uint64_t bits)
{
    double number;

    memcpy(&number, &bits, sizeof number);
    return number;
}

static uint32_t single_bits(float number)
{
    uint32_t bits;

    memcpy(&bits, &number, sizeof bits);
    return bits;
}

static float single_of(uint32_t bits)
{
    float number;

    memcpy(&number, &bits, sizeof number);
    return number;
}

/* Ends the program where the library says no. */
static void must(fz_answer answer, const char *what)
{
    if (answer.number != FZ_ACCEPTED) {
        fprintf(stderr, "%s: refused %" PRIu64 " at %" PRIu64 "\n", what, answer.number,
                answer.place);
        exit(1);
    }
}

/* Makes the signature of its text. */
static void encode(const char *text)
{
    fz_encoded encoded = fz_encode(text, strlen(text), signature, sizeof signature);

    if (encoded.expected != NULL) {
        fprintf(stderr, "column %" PRIu64 ": expected %s\n", encoded.column, encoded.expected);
        exit(1);
    }
    must(encoded.answer, text);
    signature_length = encoded.length;
}

/* A buffer of zeros. It has an address even where it needs no byte. */
static uint8_t *buffer(uint64_t size)
{
    uint8_t *bytes = calloc(size + 1, 1);

    if (bytes == NULL)
        abort();
    return bytes;
}

static void print_listing(void)
{
    uint64_t length = fz_listing(signature, signature_length, "", 0);
    char *text = (char *)buffer(length);

    fz_listing(signature, signature_length, text, length);
    fputs(text, stdout);
    free(text);
}

/* Where each argument stands: its type in the signature, its bytes of the values, and its places. */
static void print_places(void)
{
    uint64_t none = 0; /* a pointer is never null, even for no words */
    fz_planned planned = fz_plan(signature, signature_length, &none, 0);
    fz_place *places;

    must(planned.answer, "plan");
    places = (fz_place *)buffer(planned.arguments * sizeof *places);
    fz_plan(signature, signature_length, (uint64_t *)places, FZ_PLACE_WORDS * planned.arguments);
    for (uint64_t i = 0; i < planned.arguments; i++) {
        const fz_place *at = &places[i];

        printf("argument %" PRIu64 " type @%" PRIu64 " values %" PRIu64 "..%" PRIu64, i, at->item,
               at->value, at->value + at->size);
        for (uint64_t n = 0; n < at->gprs; n++)
            printf(" r%" PRIu64, at->first_gpr + n);
        for (uint64_t n = 0; n < at->fprs; n++)
            printf(" f%" PRIu64, at->first_fpr + n);
        if (at->home_length != 0)
            printf(" home %" PRIu64 "..%" PRIu64, at->home, at->home + at->home_length);
        if (at->copy_length != 0)
            printf(" copy %" PRIu64 "..%" PRIu64, at->copy, at->copy + at->copy_length);
        putchar('\n');
    }
    free(places);
}

static void print_registers(const uint8_t *image)
{
    for (int n = 0; n < 64; n++) {
        uint64_t value = get(image + 8 * n, 8);

        if (value != 0)
            printf("%c%d = %016" PRIx64 "\n", n < 32 ? 'r' : 'f', n % 32, value);
    }
}

static void print_call(const char *text)
{
    fz_sizes sizes;
    uint8_t image[512] = {0};
    uint8_t *values, *area, *copies, *back;

    /* plan */
    encode(text);
    sizes = fz_measure(signature, signature_length);
    must(sizes.answer, "plan");
    print_listing();
    print_places();
    printf("values %" PRIu64 " area %" PRIu64 " copies %" PRIu64 "\n", sizes.values, sizes.area,
           sizes.copies);

    /* fill: the values in order, without gaps */
    values = buffer(sizes.values);
    area = buffer(sizes.area);
    copies = buffer(sizes.copies);
    put(values, (uint32_t)-3, 4);
    put(values + 4, single_bits(1.5f), 4);
    put(values + 8, double_bits(2.0), 8);
    put(values + 16, double_bits(0.25), 8);
    put(values + 24, 7, 2);
    must(fz_fill(signature, signature_length, values, sizes.values, image, sizeof image, area,
                 sizes.area, copies, sizes.copies, COPY_BASE, 0),
         "fill");
    print_registers(image);
    for (uint64_t at = 0; at < sizes.copies; at += 8)
        printf("copy @%" PRIu64 " = %016" PRIx64 "\n", at, get(copies + at, 8));

    /* read: the same values, as the called function finds them */
    back = buffer(sizes.values);
    must(fz_read(signature, signature_length, back, sizes.values, image, sizeof image, area,
                 sizes.area, copies, sizes.copies, COPY_BASE),
         "read");
    printf("rows %d scale %g corner (%g, %g) border %d\n", (int32_t)get(back, 4),
           single_of((uint32_t)get(back + 4, 4)), double_of(get(back + 8, 8)),
           double_of(get(back + 16, 8)), (int16_t)get(back + 24, 2));

    free(values);
    free(area);
    free(copies);
    free(back);
}

int main(void)
{
    print_call("ppc64 i64(i32, single, {double, double}, i16)");
    putchar('\n');
    print_call("z i64(i32, single, {double, double}, i16)");
    return 0;
}
