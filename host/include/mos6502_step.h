/* One step of the proved core, for a host in C or C++: link target/staticlib/libmos6502_step.a, which `tools/build mos6502_step`
 * writes for x86-64 (for Arm: mos6502.h). It stands by itself, and shares no symbol with the other archives.
 *
 * What holds of every call is stated in crates/mos6502/specs/Theorems/Correct.antt, and proved.
 */
#ifndef MOS6502_STEP_H
#define MOS6502_STEP_H

#include "mos6502_answers.h"
#include "mos6502_archive.h"
#include "mos6502_numbers.h"

#ifdef __cplusplus
extern "C" {
#endif

MOS6502_ASK_FOR(mos6502_step_version_1_run_rt_staticlib_mos6502_step);

/* One step. It serves NMI if that falls, its last level being high and the present one low; otherwise IRQ if that is low
 * and I is clear; otherwise it carries out the opcode at the counter. To serve a line is a step by itself, of 7 cycles, in which
 * no opcode is read: the counter and the status byte, bit 4 clear and bit 5 set, are pushed, I is set, and the counter becomes the
 * address at FFFA for NMI, at FFFE for IRQ. A step that is made records the present level of NMI in the registers' number.
 *
 * *first is the first address on the bus. If an index is added to an address of two bytes, that is the base's high byte with
 * the sum's low byte; in every other mode that has an address it is the final one. It is 0 if the mode has none (implied,
 * accumulator, immediate, branch) and if a line is served. The step answers, the first that holds:
 *   MOS6502_MEMORY_NOT_FULL  1  length is not 65,536
 *   MOS6502_NO_CYCLE_ROOM    2  *cycles is above 18,446,744,073,709,551,608
 *   MOS6502_NOT_AN_OPCODE    3  no line is served, and the byte at the counter is none of the 151 documented opcodes
 *   MOS6502_NOT_REFUSED      0  the step was made: both numbers and the memory are those after it
 * A refusal, any answer but 0, leaves both numbers and the memory as they were, the last level of NMI too, and *first is 0.
 *
 * The numbers and the `length` bytes of memory must not overlap, and nobody else may use them meanwhile. */
uint8_t mos6502_step(uint64_t *registers, uint64_t *cycles, uint8_t lines, uint16_t *first, uint8_t *memory,
                     size_t length);

#ifdef __cplusplus
}
#endif

#endif
