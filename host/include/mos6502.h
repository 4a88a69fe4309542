/* The runs of the proved core, for a host in C or C++: link target/staticlib/libmos6502.a, which `tools/build mos6502` writes for
 * x86-64. For Arm `host/native-archive mos6502 aarch64` writes target/staticlib/aarch64/libmos6502.a. The other archives are built
 * likewise. One step is in mos6502_step.h.
 *
 * The registers are a number, and so are the levels of the lines: mos6502_numbers.h says which. The answers are those of
 * mos6502_answers.h. What holds of every call of the functions that make steps is stated in
 * crates/mos6502/specs/Theorems/Correct.antt, and proved.
 */
#ifndef MOS6502_H
#define MOS6502_H

#include "mos6502_answers.h"
#include "mos6502_archive.h"
#include "mos6502_numbers.h"

#ifdef __cplusplus
extern "C" {
#endif

MOS6502_ASK_FOR(mos6502_version_1_run_rt_staticlib_mos6502);

/* The number of these registers, the last level of NMI high. */
uint64_t mos6502_registers(uint8_t accumulator, uint8_t x, uint8_t y, uint8_t stack, uint8_t status, uint16_t counter);

/* The registers of a number; the status byte as PHP pushes it. */
uint8_t mos6502_accumulator(uint64_t registers);
uint8_t mos6502_x(uint64_t registers);
uint8_t mos6502_y(uint64_t registers);
uint8_t mos6502_stack(uint64_t registers);
uint8_t mos6502_status(uint64_t registers);
uint16_t mos6502_counter(uint64_t registers);

/* The last level of NMI in a number: 1 high, 0 low. */
uint8_t mos6502_nmi(uint64_t registers);

/* In the three calls below the numbers and the `length` bytes of memory must not overlap, and nobody else may use them
 * meanwhile. */

/* At most `bound` steps, as mos6502_step makes them, with the same levels in all of them; *steps is the number of steps made. It
 * answers, the first that holds:
 *   MOS6502_MEMORY_NOT_FULL  1  length is not 65,536
 *   MOS6502_BOUND_TOO_HIGH   4  bound is above 1,000,000
 *   and for the first step that is refused, which is not counted:
 *   MOS6502_NO_CYCLE_ROOM    2  *cycles is above 18,446,744,073,709,551,608
 *   MOS6502_NOT_AN_OPCODE    3  no line is served, and the byte at the counter is none of the 151 documented opcodes
 *   MOS6502_NOT_REFUSED      0  all `bound` steps were made; the program was still running, and nothing says that it finished
 * The numbers and the memory are those after the steps made. If none was made, they are as they were, the registers'
 * number to the bit. NMI is served at most once, in the first step; IRQ, while it is held low, whenever I is clear. */
uint8_t mos6502_run(uint64_t *registers, uint64_t *cycles, uint64_t *steps, uint64_t bound, uint8_t lines,
                    uint8_t *memory, size_t length);

/* The same with any bound, so that no answer is 4. A run of m steps and then one of n, with the same levels, give what one of
 * m + n gives. */
uint8_t mos6502_long_run(uint64_t *registers, uint64_t *cycles, uint64_t *steps, uint64_t bound, uint8_t lines,
                         uint8_t *memory, size_t length);

/* A run by cycles, with the same levels in all of its steps: before each step it looks whether `limit` or more cycles are
 * spent, and is over once they are. *steps is the number of steps made. It answers, the first that holds:
 *   MOS6502_MEMORY_NOT_FULL  1  length is not 65,536
 *   MOS6502_BOUND_TOO_HIGH   4  limit is above 1,000,000
 *   MOS6502_NO_CYCLE_ROOM    2  as in mos6502_run
 *   MOS6502_NOT_AN_OPCODE    3  as in mos6502_run
 *   MOS6502_NOT_REFUSED      0  `limit` or more cycles were spent, and before the last step fewer; the program was still running
 * At most limit + 6 cycles are spent, and none if limit is 0; at most (limit + 1) / 2 steps are made. All else is as in
 * mos6502_run: it is that run with the number of steps that were made. */
uint8_t mos6502_run_cycles(uint64_t *registers, uint64_t *cycles, uint64_t *steps, uint64_t limit, uint8_t lines,
                           uint8_t *memory, size_t length);

#ifdef __cplusplus
}
#endif

#endif
