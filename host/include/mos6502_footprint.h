/* What a step will read and store to, before it is made, proved, for a host in C or C++: link
 * target/staticlib/libmos6502_footprint.a, which `tools/build mos6502_footprint` writes for x86-64 (for Arm: mos6502.h). It stands
 * by itself, and shares no symbol with the other archives.
 *
 * The registers and the levels of the lines are the numbers of mos6502_numbers.h. The places and the `length` bytes of memory must
 * not overlap, and nobody else may write to them meanwhile.
 */
#ifndef MOS6502_FOOTPRINT_H
#define MOS6502_FOOTPRINT_H

#include "mos6502_archive.h"
#include "mos6502_numbers.h"

#ifdef __cplusplus
extern "C" {
#endif

MOS6502_ASK_FOR(mos6502_footprint_version_1_run_rt_staticlib_mos6502_footprint);

/* The places that both calls write, all of them, however few addresses there are. */
enum { MOS6502_PLACES = 5 };

/* The number of addresses that a step from here reads, at most 5. All five of `places` are written: these addresses in the
 * order of the step, then zeros. An address that it reads twice is there twice. None is read if length is not 65,536 or there
 * is no room for the cycles, and only the opcode if that is not documented. Nothing is changed. */
size_t mos6502_reads(uint64_t registers, uint64_t cycles, uint8_t lines, const uint8_t *memory, size_t length,
                     uint16_t places[MOS6502_AT_LEAST(MOS6502_PLACES)]);

/* The number of addresses that it stores to, at most 3: none if the step is refused. All five of `places` are written here too:
 * lend no fewer. */
size_t mos6502_stores(uint64_t registers, uint64_t cycles, uint8_t lines, const uint8_t *memory, size_t length,
                      uint16_t places[MOS6502_AT_LEAST(MOS6502_PLACES)]);

#ifdef __cplusplus
}
#endif

#endif
