/* The C surface, used as a C or C++ program uses it. Ends with the count of what is wrong. */
#include "check.h"
#include "flakuzhen.h"
#include <string.h>

static void check_version(void)
{
    CHECK(fz_version() == FZ_VERSION);
}

static void check_reading(void)
{
    static const uint8_t sig[18] = {0x01, 0x00, 0x01, 0x01, 0x02, 0x00, 0x00, 0x03, 0x00,
                                    0x08, 0x10, 0x00, 0x01, 0x04, 0x11, 0x00, 0x01, 0x01};
    fz_answer yes = fz_read_signature(sig, sizeof sig);
    fz_answer no = fz_read_signature(sig, sizeof sig - 1);
    fz_answer none = fz_read_signature(sig, 0);

    CHECK(yes.number == FZ_ACCEPTED && yes.place == 0 && yes.items == 5);
    CHECK(no.number == FZ_TRUNCATED && no.place == 7 && no.items == 2);
    CHECK(none.number == FZ_TRUNCATED && none.place == 0 && none.items == 0);
}

/* AIX, arguments i64 and a struct of i8 and a float of the code */
static void check_aix(void)
{
    uint8_t sig[25] = {0x01, 0x00, 0x01, 0x03, 0x02, 0x00, 0x00, 0x03, 0x00, 0x0f, 0x10, 0x00, 0x01,
                       0x06, 0x12, 0x00, 0x08, 0x10, 0x00, 0x01, 0x00, 0x11, 0x00, 0x01, 0x00};
    static const char listing[] = "AIX args 2 area 32\n0 r3 r4 @0\n1 r5 r6 @8\nresult none\n";
    char text[100] = "";
    fz_sizes sizes = fz_measure(sig, sizeof sig);
    fz_answer no;

    CHECK(sizes.answer.number == FZ_ACCEPTED);
    CHECK(sizes.values == 16 && sizes.area == 32 && sizes.copies == 0);
    CHECK(fz_listing(sig, sizeof sig, text, sizeof text) == sizeof listing - 1);
    CHECK(strcmp(text, listing) == 0);
    sig[24] = 1;
    no = fz_read_signature(sig, sizeof sig);
    CHECK(no.number == FZ_FLOAT_NOT_CARRIED && no.place == 21 && no.items == 6);
    sig[24] = 2;
    no = fz_read_signature(sig, sizeof sig);
    CHECK(no.number == FZ_LONG_DOUBLE_IN_STRUCT && no.place == 21 && no.items == 6);
    sig[3] = 5;
    no = fz_read_signature(sig, sizeof sig);
    CHECK(no.number == FZ_MALFORMED && no.place == 0 && no.items == 0);
}

static void check_float_bits(void)
{
    fz_narrowed yes = fz_narrow(UINT64_C(0x7FF0000020000000));
    fz_narrowed no = fz_narrow(UINT64_C(0x3FF0000010000000));

    CHECK(fz_widen(UINT64_C(0x00000001)) == UINT64_C(0x36A0000000000000));
    CHECK(fz_widen(UINT64_C(0xFFFFFFFF3F800000)) == UINT64_C(0x3FF0000000000000));
    CHECK(yes.number == FZ_ACCEPTED && yes.place == 0 && yes.bits == UINT64_C(0x7F800001));
    CHECK(no.number == FZ_NOT_WIDENED && no.place == 0 && no.bits == 0);
}

/* Z, result struct of i64, arguments long double and single */
static const uint8_t call[25] = {0x01, 0x00, 0x01, 0x02, 0x02, 0x00, 0x07, 0x12, 0x00,
                                 0x04, 0x10, 0x00, 0x01, 0x06, 0x03, 0x00, 0x08, 0x11,
                                 0x00, 0x01, 0x02, 0x11, 0x00, 0x01, 0x00};

static void check_measuring(void)
{
    fz_sizes yes = fz_measure(call, sizeof call);
    fz_sizes no = fz_measure(call, sizeof call - 1);

    CHECK(yes.answer.number == FZ_ACCEPTED && yes.answer.place == 0 && yes.answer.items == 0);
    CHECK(yes.values == 20 && yes.area == 0 && yes.copies == 16);
    CHECK(no.answer.number == FZ_TRUNCATED && no.answer.place == 14 && no.answer.items == 4);
    CHECK(no.values == 0 && no.area == 0 && no.copies == 0);
}

/* Plans the call into a table of `room` words and holds the whole of it, and what lies behind it, to
 * the two arguments' places where those fit and to what was there before where they do not. */
static void check_planning_in(size_t room)
{
    static const uint64_t expected[2 * FZ_PLACE_WORDS] = {
        17, 16, 0, 3, 1, 0, 0, 0, 0, 0, 0, 0, 16, /* the long double: its address in r3 */
        21, 4, 16, 0, 0, 0, 1, 0, 0, 0, 0, 0, 0,  /* the single, in f0 */
    };
    uint64_t places[40];
    size_t i;
    fz_planned planned;

    for (i = 0; i < 40; i++)
        places[i] = ~(uint64_t)i;
    planned = fz_plan(call, sizeof call, places, room);
    CHECK(planned.answer.number == FZ_ACCEPTED && planned.answer.place == 0);
    CHECK(planned.answer.items == 0);
    CHECK(planned.convention == 2 && planned.ellipsis == 0 && planned.arguments == 2);
    CHECK(planned.values == 20 && planned.area == 0 && planned.copies == 16);
    CHECK(planned.result == 2 && planned.result_gpr == 2 && planned.result_gprs == 1);
    CHECK(planned.result_fpr == 0 && planned.result_fprs == 0);
    for (i = 0; i < 40; i++) {
        int written = room >= 2 * FZ_PLACE_WORDS && i < 2 * FZ_PLACE_WORDS;

        CHECK(places[i] == (written ? expected[i] : ~(uint64_t)i));
    }
}

static void check_planning(void)
{
    uint64_t word = 7;
    size_t room;
    fz_planned no = fz_plan(call, sizeof call - 1, &word, 1);

    for (room = 0; room <= 40; room++)
        check_planning_in(room);
    CHECK(no.answer.number == FZ_TRUNCATED && no.answer.place == 14 && no.answer.items == 4);
    CHECK(no.convention == 0 && no.arguments == 0 && no.values == 0 && no.result == 0);
    CHECK(word == 7);
}

/* Lists the call to a text of `room` bytes and holds the whole of it, and what lies behind it, to
 * the listing where that fits and to what was there before where it does not. */
static void check_listing_in(size_t room)
{
    static const char listing[] = "Z args 2 area 0\n0 r3 ref\n1 f0\nresult hidden r2\n";
    const size_t length = sizeof listing - 1;
    char text[100], expected[100];

    memset(text, '?', sizeof text);
    memset(expected, '?', sizeof expected);
    if (room >= length)
        memcpy(expected, listing, length);
    CHECK(fz_listing(call, sizeof call, text, room) == length);
    CHECK(memcmp(text, expected, sizeof text) == 0);
}

static void check_listing(void)
{
    char text[32] = "";
    size_t room;

    for (room = 0; room <= 100; room++)
        check_listing_in(room);
    CHECK(fz_listing(call, 0, text, sizeof text) == 23);
    CHECK(strcmp(text, "refused 2 at 0 after 0\n") == 0);
}

/* Stores the call's plan in `room` bytes and holds the whole of it, and what lies behind it, to the
 * plan where that fits and to what was there before where it does not. */
static void check_storing_in(size_t room)
{
    static const uint8_t places[29] = {0x21, 0, 10, 0, 0, 3, 0, 0, 2, 0, 0, 0, 0, /* r3, a copy */
                                       0x21, 0, 5, 0, 1, 0, 0, 0,                 /* f0 */
                                       0x22, 0, 5, 3, 0, 2, 0, 0};                /* hidden, r2 */
    uint8_t stored[100], expected[100];
    fz_stored answer;

    memset(stored, 0xee, sizeof stored);
    memset(expected, 0xee, sizeof expected);
    if (room >= 57) {
        expected[0] = 0x20;
        expected[1] = 0;
        expected[2] = sizeof call;
        memcpy(expected + 3, call, sizeof call);
        memcpy(expected + 28, places, sizeof places);
    }
    answer = fz_store_plan(call, sizeof call, stored, room);
    CHECK(answer.answer.number == (room >= 57 ? 0 : (uint64_t)FZ_STORED_TOO_SHORT));
    CHECK(answer.answer.place == 0 && answer.answer.items == 0);
    CHECK(answer.length == (room >= 57 ? 57 : 0));
    CHECK(memcmp(stored, expected, sizeof stored) == 0);
}

static void check_storing(void)
{
    uint8_t stored[57], image[512];
    size_t room;
    fz_stored length = fz_stored_length(call, sizeof call);
    fz_stored no = fz_stored_length(call, sizeof call - 1);
    fz_answer answer;

    for (room = 0; room <= 100; room++)
        check_storing_in(room);
    CHECK(length.answer.number == FZ_ACCEPTED && length.answer.place == 0);
    CHECK(length.answer.items == 0 && length.length == 57);
    CHECK(no.answer.number == FZ_TRUNCATED && no.answer.place == 14 && no.answer.items == 4);
    CHECK(no.length == 0);
    fz_store_plan(call, sizeof call, stored, sizeof stored);
    answer = fz_check_plan(stored, sizeof stored, call, sizeof call);
    CHECK(answer.number == FZ_ACCEPTED && answer.place == 0 && answer.items == 0);
    answer = fz_check_plan(stored, 30, call, sizeof call);
    CHECK(answer.number == FZ_STALE && answer.place == 30 && answer.items == 0);
    answer = fz_check_plan(stored, sizeof stored, call, sizeof call - 1);
    CHECK(answer.number == FZ_TRUNCATED && answer.place == 14 && answer.items == 4);
    stored[56] = 1;
    answer = fz_fill_stored(stored, sizeof stored, call, sizeof call, stored, 0, image, 0, stored, 0,
                            stored, 0, 0, 0);
    CHECK(answer.number == FZ_STALE && answer.place == 56 && answer.items == 0);
}

int main(void)
{
    check_version();
    check_reading();
    check_aix();
    check_float_bits();
    check_measuring();
    check_planning();
    check_listing();
    check_storing();
    return wrong;
}
