/* The guarded run, the extract and the run to an address, proved, for a host in C or C++: link target/staticlib/libmos6502_guard.a,
 * which `tools/build mos6502_guard` writes for x86-64 (for Arm: mos6502.h). It stands by itself, but for the C function memset,
 * and shares no symbol with the other archives.
 *
 * The registers and the levels of the lines are the numbers of mos6502_numbers.h. The numbers, the place and the `length` bytes of
 * memory must not overlap each other or a map, and nobody else may use them meanwhile. The two maps of a guarded run may be one.
 */
#ifndef MOS6502_GUARD_H
#define MOS6502_GUARD_H

#include "mos6502_answers.h"
#include "mos6502_archive.h"
#include "mos6502_numbers.h"

#ifdef __cplusplus
extern "C" {
#endif

MOS6502_ASK_FOR(mos6502_guard_version_1_run_rt_staticlib_mos6502_guard);

/* A map is a set of addresses: it has a bit for each, and the address a is in it if bit a % 8 of its byte a / 8 is set. */
enum { MOS6502_MAP_SIZE = 8192 };

/* At most `bound` steps, any number of them, as mos6502_long_run makes them, with some addresses guarded against reads and some
 * against stores: those of the maps `reads` and `stores`. Before each step it looks at the bytes that the step would read and
 * at those that it would store to; if one is guarded against that it is halted, and the step is not made. A byte that is guarded
 * against reads may be stored to, and is guarded after that all the same; one that is guarded against stores may be read. The
 * opcode and its operands are read too; a line that is served stores to the stack and reads its vector, and no opcode. It answers,
 * the first that holds:
 *   MOS6502_MEMORY_NOT_FULL   1  length is not 65,536
 *   and for the first step that is not made, which is not counted:
 *   MOS6502_NO_CYCLE_ROOM     2  *cycles is above 18,446,744,073,709,551,608
 *   MOS6502_WOULD_READ       13  it would read a byte that is guarded against reads
 *   MOS6502_WOULD_STORE      14  it would store to a byte that is guarded against stores
 *   MOS6502_NOT_AN_OPCODE     3  no line is served, and the byte at the counter is none of the 151 documented opcodes
 *   MOS6502_NOT_REFUSED       0  all `bound` steps were made; the program was still running, and nothing says that it finished
 * *steps is the number of steps made, and *place the first guarded address that the next step would read, with 13, or store to, with
 * 14, in the order of the step; 0 with every other answer. The numbers and the memory are those after the steps made; if none was
 * made, they are as they were, the registers' number to the bit. No number that comes back depends on a byte that is guarded against
 * reads, and no byte that is left at any other address. The guarded bytes themselves are still in the memory, as they were or as
 * the run stored them: a host that writes the memory out hands them out, and takes mos6502_extract for that. */
uint8_t mos6502_guarded_run(uint64_t *registers, uint64_t *cycles, uint64_t *steps, uint16_t *place, uint64_t bound,
                            uint8_t lines, const uint8_t reads[MOS6502_AT_LEAST(MOS6502_MAP_SIZE)],
                            const uint8_t stores[MOS6502_AT_LEAST(MOS6502_MAP_SIZE)], uint8_t *memory, size_t length);

/* The same with the addresses of the map `sealed` guarded against reads and none against stores, and with the sealed bytes made 00
 * before the first step. Since none of them is read that changes no answer. All of the memory that it leaves may be handed out, as
 * nothing in it and no number depends on a sealed byte: what was sealed and never stored to is 00. It answers, the first that
 * holds:
 *   MOS6502_MEMORY_NOT_FULL   1  length is not 65,536: no byte is changed
 *   and as above, the sealed bytes having been made 00 with each of these, also if no step was made:
 *   MOS6502_NO_CYCLE_ROOM     2
 *   MOS6502_WOULD_READ       13
 *   MOS6502_NOT_AN_OPCODE     3
 *   MOS6502_NOT_REFUSED       0
 * *steps, *place and the two numbers are as above. */
uint8_t mos6502_extract(uint64_t *registers, uint64_t *cycles, uint64_t *steps, uint16_t *place, uint64_t bound,
                        uint8_t lines, const uint8_t sealed[MOS6502_AT_LEAST(MOS6502_MAP_SIZE)], uint8_t *memory,
                        size_t length);

/* At most `bound` steps, any number of them, as mos6502_long_run makes them, to the address `stop`: before each step it looks
 * whether the counter is there, and is over once it is, whatever the byte there and the lines are. It answers, the first that
 * holds:
 *   MOS6502_MEMORY_NOT_FULL   1  length is not 65,536
 *   MOS6502_NOT_REFUSED       0  the counter is at `stop`: after *steps steps, 0 of them if it was there already, and before them it
 *                                was not
 *   MOS6502_NOT_THERE        15  all `bound` steps were made, and the counter is not at `stop`
 *   and for the first step that is refused, which is not counted, the counter not being at `stop`:
 *   MOS6502_NO_CYCLE_ROOM     2  *cycles is above 18,446,744,073,709,551,608
 *   MOS6502_NOT_AN_OPCODE     3  no line is served, and the byte at the counter is none of the 151 documented opcodes
 * The numbers and the memory are those after the steps made. If none was made, they are as they were, the registers' number to the
 * bit. An answer 0 does not say whether the byte at `stop` is an opcode. */
uint8_t mos6502_run_to(uint64_t *registers, uint64_t *cycles, uint64_t *steps, uint16_t stop, uint64_t bound, uint8_t lines,
                       uint8_t *memory, size_t length);

#ifdef __cplusplus
}
#endif

#endif
