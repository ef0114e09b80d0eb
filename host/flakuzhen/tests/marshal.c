/* Filling, reading, home, view and walks, used as a C or C++ program uses them. Ends with the count
 * of what is wrong. */
#include "check.h"
#include "flakuzhen.h"
#include <string.h>

/* PPC64, no result, arguments i32 and single */
static const uint8_t ppc64[18] = {0x01, 0x00, 0x01, 0x01, 0x02, 0x00, 0x00, 0x03, 0x00,
                                  0x08, 0x10, 0x00, 0x01, 0x04, 0x11, 0x00, 0x01, 0x00};
/* Z, result long double, argument long double */
static const uint8_t z[18] = {0x01, 0x00, 0x01, 0x02, 0x02, 0x00, 0x04, 0x11, 0x00,
                              0x01, 0x02, 0x03, 0x00, 0x04, 0x11, 0x00, 0x01, 0x02};

/* what a call is lent */
static uint8_t image[512], area[64], copies[16];

static void start(void)
{
    memset(image, 0xee, sizeof image);
    memset(area, 0xee, sizeof area);
    memset(copies, 0xee, sizeof copies);
}

static int answers(fz_answer answer, uint64_t number)
{
    return answer.number == number && answer.place == 0 && answer.items == 0;
}

/* what the reader answers to a signature whose third item passes the end */
static int truncated(fz_answer answer)
{
    return answer.number == FZ_TRUNCATED && answer.place == 7 && answer.items == 2;
}

static void check_ppc64(void)
{
    /* -2, and the smallest single above 0 */
    static const uint8_t values[8] = {0xff, 0xff, 0xff, 0xfe, 0x00, 0x00, 0x00, 0x01};
    static const uint8_t r3[8] = {0xff, 0xff, 0xff, 0xff, 0xff, 0xff, 0xff, 0xfe};
    static const uint8_t f1[8] = {0x36, 0xa0, 0x00, 0x00, 0x00, 0x00, 0x00, 0x00};
    static const uint8_t homed[16] = {0xff, 0xff, 0xff, 0xff, 0xff, 0xff, 0xff, 0xfe,
                                      0x00, 0x00, 0x00, 0x00, 0x00, 0x00, 0x00, 0x01};
    uint8_t back[8];
    fz_part part;

    start();
    CHECK(answers(fz_fill(ppc64, 18, values, 8, image, 512, area, 64, copies, 0, 1, 0), 0));
    CHECK(memcmp(image + 8 * 3, r3, 8) == 0);
    CHECK(memcmp(image + 256 + 8 * 1, f1, 8) == 0);
    CHECK(image[23] == 0xee && image[32] == 0xee && area[0] == 0xee);
    CHECK(answers(fz_read(ppc64, 18, back, 8, image, 512, area, 64, copies, 0, 1), 0));
    CHECK(memcmp(back, values, 8) == 0);

    CHECK(answers(fz_home(ppc64, 18, image, 512, area, 64), 0));
    CHECK(memcmp(area, homed, 16) == 0 && area[16] == 0xee);
    part = fz_view(area, 64, ppc64, 18, 1);
    CHECK(answers(part.answer, 0) && part.start == 12 && part.length == 4);
    part = fz_view(area, 64, ppc64, 18, 2);
    CHECK(answers(part.answer, FZ_NO_VIEW) && part.start == 0 && part.length == 0);
    part = fz_view(area, 63, ppc64, 18, 1);
    CHECK(answers(part.answer, FZ_AREA_TOO_SHORT) && part.start == 0 && part.length == 0);

    CHECK(truncated(fz_fill(ppc64, 17, values, 8, image, 512, area, 64, copies, 0, 1, 0)));
    CHECK(truncated(fz_read(ppc64, 17, back, 8, image, 512, area, 64, copies, 0, 1)));
    CHECK(truncated(fz_home(ppc64, 17, image, 512, area, 64)));
    part = fz_view(area, 64, ppc64, 17, 1);
    CHECK(truncated(part.answer) && part.start == 0 && part.length == 0);
    CHECK(answers(fz_fill(ppc64, 18, values, 8, image, 511, area, 64, copies, 0, 1, 0),
                  FZ_IMAGE_SIZE));
    CHECK(answers(fz_fill(ppc64, 18, values, 7, image, 512, area, 64, copies, 0, 1, 0),
                  FZ_VALUES_SIZE));
    image[256 + 8 * 1 + 7] = 1;
    CHECK(answers(fz_read(ppc64, 18, back, 8, image, 512, area, 64, copies, 0, 1),
                  FZ_NOT_WIDENED));
    CHECK(answers(fz_home(ppc64, 18, image, 512, area, 64), FZ_NOT_WIDENED));
}

static void check_z(void)
{
    static const uint8_t values[16] = {1, 2, 3, 4, 5, 6, 7, 8, 9, 10, 11, 12, 13, 14, 15, 16};
    /* r2 with the hidden address, r3 with the copy's */
    static const uint8_t registers[16] = {0, 0, 0, 0, 0, 0, 0x20, 0x00,
                                          0, 0, 0, 0, 0, 0, 0x10, 0x00};
    uint8_t back[16];

    start();
    CHECK(answers(fz_fill(z, 18, values, 16, image, 512, area, 0, copies, 16, 0x1000, 0x2000),
                  0));
    CHECK(memcmp(image + 8 * 2, registers, 16) == 0);
    CHECK(memcmp(copies, values, 16) == 0);
    CHECK(answers(fz_read(z, 18, back, 16, image, 512, area, 0, copies, 16, 0x1000), 0));
    CHECK(memcmp(back, values, 16) == 0);
    CHECK(answers(fz_read(z, 18, back, 16, image, 512, area, 0, copies, 15, 0x1000),
                  FZ_OUTSIDE_COPIES));
    CHECK(answers(fz_fill(z, 18, values, 16, image, 512, area, 0, copies, 16, 0x1004, 0x2000),
                  FZ_BAD_COPIES));
    CHECK(answers(fz_home(z, 18, image, 512, area, 64), FZ_NO_VIEW));
    CHECK(answers(fz_view(area, 64, z, 18, 0).answer, FZ_NO_VIEW));
}

/* AIX, result struct of i8, arguments i16, i64 and single */
static const uint8_t aix[29] = {0x01, 0x00, 0x01, 0x03, 0x02, 0x00, 0x07, 0x12, 0x00, 0x04,
                                0x10, 0x00, 0x01, 0x00, 0x03, 0x00, 0x0c, 0x10, 0x00, 0x01,
                                0x02, 0x10, 0x00, 0x01, 0x06, 0x11, 0x00, 0x01, 0x00};

static void check_aix(void)
{
    /* -2, a number of 64 bits, and 1.0 */
    static const uint8_t values[14] = {0xff, 0xfe, 1, 2, 3, 4, 5, 6, 7, 8, 0x3f, 0x80, 0, 0};
    static const uint8_t registers[32] = {0, 0, 0, 0, 0x80, 0, 0x20, 0,       /* the hidden address */
                                          0, 0, 0, 0, 0xff, 0xff, 0xff, 0xfe, /* r4 */
                                          0, 0, 0, 0, 1, 2, 3, 4,             /* r5 */
                                          0, 0, 0, 0, 5, 6, 7, 8};            /* r6 */
    static const uint8_t f1[8] = {0x3f, 0xf0, 0, 0, 0, 0, 0, 0};
    static const uint8_t homed[16] = {0xff, 0xff, 0xff, 0xfe, 1, 2,    3,    4,
                                      5,    6,    7,    8,    0x3f, 0x80, 0, 0};
    uint8_t back[14];
    fz_part part;

    start();
    CHECK(answers(fz_fill(aix, 29, values, 14, image, 512, area, 32, copies, 0, 1, 0x80002000), 0));
    CHECK(memcmp(image + 8 * 3, registers, 32) == 0);
    CHECK(memcmp(image + 256 + 8 * 1, f1, 8) == 0);
    CHECK(image[23] == 0xee && image[8 * 7] == 0xee && area[0] == 0xee);
    /* what stands in the high half of a register is not looked at */
    memset(image + 8 * 5, 0xee, 4);
    CHECK(answers(fz_read(aix, 29, back, 14, image, 512, area, 32, copies, 0, 1), 0));
    CHECK(memcmp(back, values, 14) == 0);
    CHECK(answers(fz_home(aix, 29, image, 512, area, 32), 0));
    CHECK(area[0] == 0xee && memcmp(area + 4, homed, 16) == 0 && area[20] == 0xee);
    part = fz_view(area, 32, aix, 29, 0);
    CHECK(answers(part.answer, 0) && part.start == 6 && part.length == 2);
    part = fz_view(area, 32, aix, 29, 1);
    CHECK(answers(part.answer, 0) && part.start == 8 && part.length == 8);
    CHECK(answers(fz_fill(aix, 29, values, 14, image, 512, area, 31, copies, 0, 1, 0),
                  FZ_AREA_TOO_SHORT));
    CHECK(answers(fz_fill(aix, 29, values, 14, image, 512, area, 32, copies, 0, 1,
                          UINT64_C(0x100000000)),
                  FZ_BAD_COPIES));
}

/* PPC64, no result, an ellipsis, arguments i32, single and double */
static const uint8_t variable[25] = {0x01, 0x00, 0x01, 0x01, 0x02, 0x00, 0x00, 0x04, 0x00,
                                     0x00, 0x03, 0x00, 0x0c, 0x10, 0x00, 0x01, 0x04, 0x11,
                                     0x00, 0x01, 0x00, 0x11, 0x00, 0x01, 0x01};

static void check_ellipsis(void)
{
    /* -2, 1.0 and a double */
    static const uint8_t values[16] = {0xff, 0xff, 0xff, 0xfe, 0x3f, 0x80, 0, 0,
                                       1,    2,    3,    4,    5,    6,    7, 8};
    static const uint8_t r4[16] = {0, 0, 0, 0, 0x3f, 0x80, 0, 0, 1, 2, 3, 4, 5, 6, 7, 8};
    static const uint8_t f1[16] = {0x3f, 0xf0, 0, 0, 0, 0, 0, 0, 1, 2, 3, 4, 5, 6, 7, 8};
    uint64_t places[3 * FZ_PLACE_WORDS];
    uint8_t back[16];
    fz_planned planned = fz_plan(variable, 25, places, 3 * FZ_PLACE_WORDS);

    CHECK(answers(planned.answer, 0) && planned.ellipsis == 1 && planned.arguments == 3);
    /* r4 and f1 */
    CHECK(places[13 + 3] == 4 && places[13 + 4] == 1 && places[13 + 5] == 1 && places[13 + 6] == 1);
    CHECK(fz_plan(ppc64, 18, places, 0).ellipsis == 0);

    start();
    CHECK(answers(fz_fill(variable, 25, values, 16, image, 512, area, 64, copies, 0, 1, 0), 0));
    CHECK(memcmp(image + 8 * 4, r4, 16) == 0);
    CHECK(memcmp(image + 256 + 8 * 1, f1, 16) == 0);
    CHECK(answers(fz_read(variable, 25, back, 16, image, 512, area, 64, copies, 0, 1), 0));
    CHECK(memcmp(back, values, 16) == 0);
    /* what is around a single is not compared, its bytes are */
    image[8 * 4] = 1;
    CHECK(answers(fz_read(variable, 25, back, 16, image, 512, area, 64, copies, 0, 1), 0));
    image[8 * 4 + 7] = 1;
    CHECK(answers(fz_read(variable, 25, back, 16, image, 512, area, 64, copies, 0, 1),
                  FZ_FLOATS_DIFFER));
    image[256 + 8 * 1 + 7] = 1;
    CHECK(answers(fz_read(variable, 25, back, 16, image, 512, area, 64, copies, 0, 1),
                  FZ_NOT_WIDENED));
    image[256 + 8 * 1 + 7] = 0;
    CHECK(answers(fz_home(variable, 25, image, 512, area, 64), 0));
    CHECK(memcmp(area + 8, r4, 16) == 0 && area[24] == 0xee);
}

static int stands_at(const fz_walker *walker, uint64_t general, uint64_t floating)
{
    return walker->convention == 1 && walker->ellipsis == 1 && walker->hidden == 0 &&
           walker->general == general && walker->floating == floating && walker->stack == 0;
}

/* The same call, one by one. */
static void check_walk(void)
{
    static const uint8_t values[16] = {0xff, 0xff, 0xff, 0xfe, 0x3f, 0x80, 0, 0,
                                       1,    2,    3,    4,    5,    6,    7, 8};
    static const uint8_t *const i32 = variable + 13, *const single = variable + 17,
                                *const real = variable + 21;
    uint8_t value[8] = {0xee, 0xee, 0xee, 0xee, 0xee, 0xee, 0xee, 0xee};
    fz_walker walker = {9, 9, 9, 9, 9, 9};
    fz_answer answer;

    start();
    CHECK(answers(fz_fill(variable, 25, values, 16, image, 512, area, 64, copies, 0, 1, 0), 0));
    answer = fz_walk_start(&walker, variable, 24);
    CHECK(answer.number == FZ_TRUNCATED && answer.place == 10 && answer.items == 3);
    CHECK(walker.convention == 9 && walker.stack == 9);
    CHECK(answers(fz_walk(&walker, i32, 4, value, 4, image, 512, area, 0, copies, 0, 1),
                  FZ_BAD_STATE));
    CHECK(answers(fz_walk_start(&walker, variable, 25), 0));
    CHECK(stands_at(&walker, 0, 0));
    CHECK(answers(fz_walk(&walker, i32, 4, value, 4, image, 512, area, 0, copies, 0, 1), 0));
    CHECK(memcmp(value, values, 4) == 0 && value[4] == 0xee && stands_at(&walker, 1, 0));
    answer = fz_walk(&walker, single, 8, value, 4, image, 512, area, 0, copies, 0, 1);
    CHECK(answer.number == FZ_MALFORMED && answer.place == 4 && answer.items == 1);
    CHECK(answers(fz_walk(&walker, single, 4, value, 4, image, 511, area, 0, copies, 0, 1),
                  FZ_IMAGE_SIZE));
    CHECK(answers(fz_walk(&walker, single, 4, value, 5, image, 512, area, 0, copies, 0, 1),
                  FZ_VALUES_SIZE));
    CHECK(stands_at(&walker, 1, 0));
    CHECK(answers(fz_walk(&walker, single, 4, value, 4, image, 512, area, 0, copies, 0, 1), 0));
    CHECK(memcmp(value, values + 4, 4) == 0 && stands_at(&walker, 2, 1));
    image[8 * 5]++;
    CHECK(answers(fz_walk(&walker, real, 4, value, 8, image, 512, area, 0, copies, 0, 1),
                  FZ_FLOATS_DIFFER));
    image[8 * 5]--;
    CHECK(answers(fz_walk(&walker, real, 4, value, 8, image, 512, area, 0, copies, 0, 1), 0));
    CHECK(memcmp(value, values + 8, 8) == 0 && stands_at(&walker, 3, 2));
    /* an argument past the last register */
    walker.general = 8;
    CHECK(answers(fz_walk(&walker, i32, 4, value, 4, image, 512, area, 64, copies, 0, 1),
                  FZ_AREA_TOO_SHORT));
}

int main(void)
{
    check_ppc64();
    check_z();
    check_aix();
    check_ellipsis();
    check_walk();
    return wrong;
}
