/* The frame machine, used as a C or C++ program uses it. Ends with the count of what is wrong. */
#include "check.h"
#include "flakuzhen.h"
#include <string.h>

#define BASE UINT64_C(0x10000)
#define LENGTH 1024

static fz_machine machine;
static fz_registers registers;
static uint8_t memory[LENGTH];

/* an answer has a place and a count of items for others alone */
static int answers(fz_answer answer, uint64_t number)
{
    return answer.number == number && answer.place == 0 && answer.items == 0;
}

static uint64_t doubleword(uint64_t address)
{
    uint64_t value = 0;
    int i;

    for (i = 0; i < 8; i++)
        value = value << 8 | memory[address - BASE + (uint64_t)i];
    return value;
}

static void hand_in_registers(void)
{
    int n;

    for (n = 0; n < 32; n++) {
        registers.gpr[n] = 100 + (uint64_t)n;
        registers.fpr[n] = 200 + (uint64_t)n;
    }
    registers.lr = 300;
    registers.cr = UINT64_C(0x12345678);
    memset(memory, 0xee, sizeof memory);
}

static void check_ppc64(void)
{
    static const fz_frame request = {29, 30, 1, 20, 64, 0};
    static const fz_frame none = {13, 30, 1, 20, 64, 0};
    static const fz_frame large = {32, 32, 0, 1024, 0, 0};
    static const uint8_t bytes[4] = {1, 2, 3, 4};
    uint64_t s = BASE + LENGTH - 112;
    const fz_machine *written = &machine;
    fz_machine before;

    hand_in_registers();
    CHECK(answers(fz_start_ppc64(&machine, &registers, BASE, memory, LENGTH), FZ_ACCEPTED));
    CHECK(machine.convention == 1 && machine.base == BASE && machine.size == LENGTH);
    CHECK(machine.depth == 0 && machine.registers.gpr[1] == s && doubleword(s) == 0);
    before = machine;

    CHECK(answers(fz_leave(&machine, memory, LENGTH), FZ_NOTHING_ENTERED));
    CHECK(answers(fz_enter(&machine, &none, memory, LENGTH), FZ_BAD_REQUEST));
    CHECK(answers(fz_enter(&machine, &large, memory, LENGTH), FZ_NO_ROOM));
    CHECK(memcmp(&machine, &before, sizeof machine) == 0);

    CHECK(answers(fz_enter(&machine, &request, memory, LENGTH), FZ_ACCEPTED));
    CHECK(machine.depth == 1 && machine.registers.gpr[1] == s - 176);
    CHECK(memcmp(&machine.frames[0], &request, sizeof request) == 0);
    CHECK(doubleword(s - 8) == 231 && doubleword(s - 24) == 131 && doubleword(s + 16) == 300);
    CHECK(doubleword(s + 8) == UINT64_C(0x12345678eeeeeeee) && doubleword(s - 176) == s);

    CHECK(answers(fz_write_register(&machine, 0, 29, 7, memory, LENGTH), FZ_ACCEPTED));
    CHECK(answers(fz_write_register(&machine, 0, 28, 7, memory, LENGTH), FZ_NOT_PERMITTED));
    CHECK(answers(fz_write_register(&machine, 1, 30, 8, memory, LENGTH), FZ_ACCEPTED));
    CHECK(answers(fz_write_register(&machine, 2, 0, 9, memory, LENGTH), FZ_ACCEPTED));
    CHECK(answers(fz_write_register(&machine, 3, 2, 15, memory, LENGTH), FZ_ACCEPTED));
    CHECK(answers(fz_write_register(&machine, 3, 7, 0, memory, LENGTH), FZ_ACCEPTED));
    CHECK(machine.registers.gpr[29] == 7 && machine.registers.fpr[30] == 8);
    CHECK(machine.registers.lr == 9 && machine.registers.cr == UINT64_C(0x12f45670));

    CHECK(answers(fz_write_memory(written, s - 176 + 48, bytes, 4, memory, LENGTH), FZ_ACCEPTED));
    CHECK(doubleword(s - 176 + 48) == UINT64_C(0x01020304eeeeeeee));
    CHECK(answers(fz_write_memory(written, s, bytes, 4, memory, LENGTH), FZ_NOT_PERMITTED));
    CHECK(answers(fz_write_memory(written, s + 48, bytes, 0, memory, LENGTH), FZ_NOT_PERMITTED));

    CHECK(answers(fz_leave(&machine, memory, LENGTH - 16), FZ_BAD_MEMORY));
    memory[s - 176 - BASE] ^= 1;
    CHECK(answers(fz_leave(&machine, memory, LENGTH), FZ_BROKEN_CHAIN));
    memory[s - 176 - BASE] ^= 1;
    CHECK(answers(fz_leave(&machine, memory, LENGTH), FZ_ACCEPTED));
    before.registers.cr = UINT64_C(0x12345670);
    CHECK(memcmp(&machine, &before, sizeof machine) == 0);
}

/* a leaf, which has no frame: its saves are under the stack pointer, which stays */
static void check_leaf(void)
{
    static const fz_frame frame = {32, 32, 0, 0, 0, 0};
    static const fz_frame leaf = {29, 30, 1, 0, 0, 1};
    static const fz_frame with_locals = {29, 30, 1, 1, 0, 1};
    static const fz_frame marked = {29, 30, 1, 0, 0, 2};
    static const uint8_t bytes[4] = {1, 2, 3, 4};
    uint64_t s = BASE + LENGTH - 112;
    fz_machine before;

    hand_in_registers();
    CHECK(answers(fz_start_ppc64(&machine, &registers, BASE, memory, LENGTH), FZ_ACCEPTED));
    before = machine;
    CHECK(answers(fz_enter(&machine, &with_locals, memory, LENGTH), FZ_BAD_REQUEST));
    CHECK(answers(fz_enter(&machine, &marked, memory, LENGTH), FZ_BAD_REQUEST));
    CHECK(answers(fz_enter(&machine, &leaf, memory, LENGTH), FZ_ACCEPTED));
    CHECK(machine.depth == 1 && machine.registers.gpr[1] == s);
    CHECK(memcmp(&machine.frames[0], &leaf, sizeof leaf) == 0);
    CHECK(doubleword(s - 8) == 231 && doubleword(s - 40) == 129 && doubleword(s) == 0);
    CHECK(doubleword(s + 8) == UINT64_C(0x12345678eeeeeeee));
    CHECK(doubleword(s + 16) == UINT64_C(0xeeeeeeeeeeeeeeee));

    CHECK(answers(fz_enter(&machine, &frame, memory, LENGTH), FZ_ABOVE_LEAF));
    CHECK(answers(fz_write_register(&machine, 2, 0, 9, memory, LENGTH), FZ_NOT_PERMITTED));
    CHECK(answers(fz_write_register(&machine, 0, 29, 7, memory, LENGTH), FZ_ACCEPTED));
    CHECK(answers(fz_write_memory(&machine, s - 288, bytes, 4, memory, LENGTH), FZ_ACCEPTED));
    CHECK(answers(fz_write_memory(&machine, s - 44, bytes, 4, memory, LENGTH), FZ_ACCEPTED));
    CHECK(answers(fz_write_memory(&machine, s - 43, bytes, 4, memory, LENGTH), FZ_NOT_PERMITTED));
    CHECK(answers(fz_write_memory(&machine, s - 289, bytes, 4, memory, LENGTH), FZ_NOT_PERMITTED));
    /* the word at the stack pointer is no chain of a leaf's */
    memory[s - BASE] ^= 1;
    CHECK(answers(fz_leave(&machine, memory, LENGTH), FZ_ACCEPTED));
    CHECK(memcmp(&machine, &before, sizeof machine) == 0);
}

static void check_z(void)
{
    static const fz_frame request = {6, 8, 0, 1, 8, 0};
    static const fz_frame leaf = {14, 16, 0, 0, 0, 1};
    uint64_t s = BASE + LENGTH - 160;
    fz_machine before;
    int i;

    hand_in_registers();
    /* a refused start hands back all 64 bits, an accepted one takes 32 */
    registers.cr |= UINT64_C(9) << 32;
    CHECK(answers(fz_start_z(&machine, &registers, BASE + 8, memory, LENGTH), FZ_BAD_MEMORY));
    CHECK(machine.convention == 2 && machine.base == 0 && machine.size == 0);
    CHECK(memcmp(&machine.registers, &registers, sizeof registers) == 0);
    CHECK(answers(fz_enter(&machine, &request, memory, LENGTH), FZ_BAD_STATE));
    CHECK(answers(fz_start_z(&machine, &registers, BASE, memory, LENGTH), FZ_ACCEPTED));
    CHECK(machine.registers.cr == UINT64_C(0x12345678));
    before = machine;
    CHECK(answers(fz_enter(&machine, &leaf, memory, LENGTH), FZ_BAD_REQUEST));
    CHECK(answers(fz_enter(&machine, &request, memory, LENGTH), FZ_ACCEPTED));
    CHECK(machine.registers.gpr[15] == s - 240 && doubleword(s - 240) == s);
    CHECK(doubleword(s + 48) == 106 && doubleword(s + 120) == s && doubleword(s - 8) == 215);
    CHECK(answers(fz_leave(&machine, memory, LENGTH), FZ_ACCEPTED));
    CHECK(memcmp(&machine, &before, sizeof machine) == 0);

    CHECK(answers(fz_start_z(&machine, &registers, BASE, memory, LENGTH), FZ_ACCEPTED));
    machine.depth = 33;
    CHECK(answers(fz_leave(&machine, memory, LENGTH), FZ_BAD_STATE));
    for (i = 0; i < 32; i++)
        machine.frames[i] = request;
    machine.depth = 32;
    machine.size = 32 * 240 + 160 + 96;
    machine.registers.gpr[15] = BASE + 96;
    CHECK(answers(fz_enter(&machine, &request, memory, LENGTH), FZ_BAD_MEMORY));
}

static uint64_t word(uint64_t address)
{
    return doubleword(address) >> 32;
}

/* registers of 32 bits, of which an accepted start takes the low halves */
static void check_aix(void)
{
    static const fz_frame request = {13, 30, 1, 20, 40, 0};
    static const fz_frame none = {12, 30, 1, 20, 40, 0};
    static const fz_frame leaf = {13, 14, 0, 0, 0, 1};
    static const uint8_t bytes[4] = {1, 2, 3, 4};
    uint64_t s = BASE + LENGTH - 64;
    fz_machine before;

    hand_in_registers();
    registers.gpr[13] |= UINT64_C(1) << 32;
    registers.lr |= UINT64_C(1) << 63;
    CHECK(answers(fz_start_aix(&machine, &registers, UINT64_C(0x100000000) - LENGTH, memory, LENGTH),
                  FZ_BAD_MEMORY));
    CHECK(machine.convention == 3 && machine.base == 0 && machine.size == 0);
    CHECK(memcmp(&machine.registers, &registers, sizeof registers) == 0);
    CHECK(answers(fz_start_aix(&machine, &registers, BASE, memory, LENGTH), FZ_ACCEPTED));
    CHECK(machine.registers.gpr[1] == s && doubleword(s) == UINT64_C(0x00000000eeeeeeee));
    CHECK(machine.registers.gpr[13] == 113 && machine.registers.lr == 300);
    before = machine;

    CHECK(answers(fz_enter(&machine, &none, memory, LENGTH), FZ_BAD_REQUEST));
    CHECK(answers(fz_enter(&machine, &request, memory, LENGTH), FZ_ACCEPTED));
    /* 24, 40, 20, 19 words and 2 doublewords are 176 */
    CHECK(machine.depth == 1 && machine.registers.gpr[1] == s - 176);
    CHECK(doubleword(s - 8) == 231 && word(s - 20) == 131 && word(s - 92) == 113);
    CHECK(word(s + 4) == UINT64_C(0x12345678) && word(s + 8) == 300 && word(s - 176) == s);

    CHECK(answers(fz_write_register(&machine, 0, 13, UINT64_C(0xffffffff), memory, LENGTH),
                  FZ_ACCEPTED));
    CHECK(answers(fz_write_register(&machine, 0, 13, UINT64_C(0x100000000), memory, LENGTH),
                  FZ_NOT_PERMITTED));
    CHECK(answers(fz_write_register(&machine, 2, 0, UINT64_MAX, memory, LENGTH), FZ_NOT_PERMITTED));
    CHECK(answers(fz_write_register(&machine, 1, 30, UINT64_MAX, memory, LENGTH), FZ_ACCEPTED));
    CHECK(answers(fz_write_memory(&machine, s - 176 + 24, bytes, 4, memory, LENGTH), FZ_ACCEPTED));
    CHECK(answers(fz_write_memory(&machine, s - 176 + 20, bytes, 4, memory, LENGTH),
                  FZ_NOT_PERMITTED));
    CHECK(answers(fz_enter(&machine, &leaf, memory, LENGTH), FZ_ACCEPTED));
    CHECK(answers(fz_leave(&machine, memory, LENGTH), FZ_ACCEPTED));
    CHECK(answers(fz_leave(&machine, memory, LENGTH), FZ_ACCEPTED));
    CHECK(memcmp(&machine, &before, sizeof machine) == 0);
    machine.registers.gpr[0] |= UINT64_C(1) << 32;
    CHECK(answers(fz_leave(&machine, memory, LENGTH), FZ_BAD_STATE));
}

/* the walk of each convention's dump: a frame and the start, on a machine that was just entered */
static void check_walk(int convention)
{
    static const fz_frame request = {32, 32, 0, 0, 0, 0}, request_z = {14, 16, 0, 0, 0, 0};
    uint64_t list[3] = {1, 2, 3}, pointer;
    fz_walked (*walk)(const uint8_t *, size_t, uint64_t, uint64_t, uint64_t *, size_t) =
        convention == 1   ? fz_walk_dump_ppc64
        : convention == 2 ? fz_walk_dump_z
                          : fz_walk_dump_aix;
    fz_walked walked;

    hand_in_registers();
    CHECK(answers((convention == 1   ? fz_start_ppc64
                   : convention == 2 ? fz_start_z
                                     : fz_start_aix)(&machine, &registers, BASE, memory, LENGTH),
                  FZ_ACCEPTED));
    CHECK(answers(fz_enter(&machine, convention == 2 ? &request_z : &request, memory, LENGTH),
                  FZ_ACCEPTED));
    pointer = machine.registers.gpr[convention == 2 ? 15 : 1];

    walked = walk(memory, LENGTH, BASE, pointer, list, 1);
    CHECK(answers(walked.answer, FZ_LIST_TOO_SHORT) && walked.count == 0 && list[0] == 1);
    walked = walk(memory, LENGTH, BASE, pointer, list, 3);
    CHECK(answers(walked.answer, FZ_ACCEPTED) && walked.count == 2);
    CHECK(list[0] == pointer && list[2] == 3);
    CHECK(list[1] == BASE + LENGTH - (convention == 1 ? 112 : convention == 2 ? 160 : 64));
    walked = walk(memory, LENGTH, BASE, pointer + 4, list, 3);
    CHECK(walked.answer.number == FZ_BAD_ADDRESS && walked.answer.place == pointer + 4);
    walked = walk(memory, LENGTH, UINT64_MAX - LENGTH + 1, pointer, list, 3);
    CHECK(walked.answer.number == FZ_BAD_ADDRESS);
    CHECK(walked.answer.place == UINT64_MAX - LENGTH + 1 && walked.count == 0);
}

/* PPC64's frames under another code */
static void check_ppc64b(void)
{
    static const fz_frame request = {29, 30, 1, 20, 64, 0};
    fz_machine other;

    hand_in_registers();
    CHECK(answers(fz_start_ppc64(&other, &registers, BASE, memory, LENGTH), FZ_ACCEPTED));
    CHECK(answers(fz_start_ppc64b(&machine, &registers, BASE, memory, LENGTH), FZ_ACCEPTED));
    CHECK(other.convention == 1 && machine.convention == 4);
    CHECK(answers(fz_enter(&other, &request, memory, LENGTH), FZ_ACCEPTED));
    CHECK(answers(fz_enter(&machine, &request, memory, LENGTH), FZ_ACCEPTED));
    CHECK(machine.registers.gpr[1] == BASE + LENGTH - 112 - 176);
    other.convention = 4;
    CHECK(memcmp(&machine, &other, sizeof machine) == 0);
}

int main(void)
{
    check_ppc64();
    check_leaf();
    check_z();
    check_aix();
    check_walk(1);
    check_walk(2);
    check_walk(3);
    check_ppc64b();
    return wrong;
}
