/* The layout of every struct of the header, which the library is compiled to: a compiler that lays
 * one out otherwise refuses this file. It is compiled for every machine that the library is built
 * for. */
#include "flakuzhen.h"

#define PIN(fact) extern char pinned[(fact) ? 1 : -1]
/* structs are words of 64 bits and nothing else */
#define SIZE(structure, words) PIN(sizeof(structure) == 8 * (words))
#define WORD(structure, member, word) PIN(offsetof(structure, member) == 8 * (word))

/* the library has 64-bit numbers where C has a size_t or a pointer */
PIN(sizeof(size_t) == 8);
PIN(sizeof(void *) == 8);

SIZE(fz_answer, 3);
WORD(fz_answer, number, 0);
WORD(fz_answer, place, 1);
WORD(fz_answer, items, 2);

SIZE(fz_narrowed, 3);
WORD(fz_narrowed, number, 0);
WORD(fz_narrowed, place, 1);
WORD(fz_narrowed, bits, 2);

SIZE(fz_sizes, 6);
WORD(fz_sizes, answer, 0);
WORD(fz_sizes, values, 3);
WORD(fz_sizes, area, 4);
WORD(fz_sizes, copies, 5);

SIZE(fz_place, FZ_PLACE_WORDS);
WORD(fz_place, item, 0);
WORD(fz_place, size, 1);
WORD(fz_place, value, 2);
WORD(fz_place, first_gpr, 3);
WORD(fz_place, gprs, 4);
WORD(fz_place, first_fpr, 5);
WORD(fz_place, fprs, 6);
WORD(fz_place, home, 7);
WORD(fz_place, home_length, 8);
WORD(fz_place, memory, 9);
WORD(fz_place, memory_length, 10);
WORD(fz_place, copy, 11);
WORD(fz_place, copy_length, 12);

SIZE(fz_planned, 14);
WORD(fz_planned, answer, 0);
WORD(fz_planned, convention, 3);
WORD(fz_planned, ellipsis, 4);
WORD(fz_planned, arguments, 5);
WORD(fz_planned, values, 6);
WORD(fz_planned, area, 7);
WORD(fz_planned, copies, 8);
WORD(fz_planned, result, 9);
WORD(fz_planned, result_gpr, 10);
WORD(fz_planned, result_gprs, 11);
WORD(fz_planned, result_fpr, 12);
WORD(fz_planned, result_fprs, 13);

SIZE(fz_part, 5);
WORD(fz_part, answer, 0);
WORD(fz_part, start, 3);
WORD(fz_part, length, 4);

SIZE(fz_registers, 66);
WORD(fz_registers, gpr, 0);
WORD(fz_registers, fpr, 32);
WORD(fz_registers, lr, 64);
WORD(fz_registers, cr, 65);

SIZE(fz_frame, 6);
WORD(fz_frame, first_gpr, 0);
WORD(fz_frame, first_fpr, 1);
WORD(fz_frame, saves_cr, 2);
WORD(fz_frame, locals, 3);
WORD(fz_frame, outgoing, 4);
WORD(fz_frame, leaf, 5);

SIZE(fz_machine, 262);
WORD(fz_machine, convention, 0);
WORD(fz_machine, base, 1);
WORD(fz_machine, size, 2);
WORD(fz_machine, depth, 3);
WORD(fz_machine, registers, 4);
WORD(fz_machine, frames, 70);

SIZE(fz_walker, 6);
WORD(fz_walker, convention, 0);
WORD(fz_walker, ellipsis, 1);
WORD(fz_walker, hidden, 2);
WORD(fz_walker, general, 3);
WORD(fz_walker, floating, 4);
WORD(fz_walker, stack, 5);

SIZE(fz_stored, 4);
WORD(fz_stored, answer, 0);
WORD(fz_stored, length, 3);

SIZE(fz_walked, 4);
WORD(fz_walked, answer, 0);
WORD(fz_walked, count, 3);

int main(void)
{
    return 0;
}
