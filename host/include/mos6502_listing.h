/* A listing of a stretch of memory, proved, for a host in C or C++: link target/staticlib/libmos6502_listing.a, which
 * `tools/build mos6502_listing` writes for x86-64 (for Arm: mos6502.h). It stands by itself, and shares no symbol with the other
 * archives.
 *
 * The memory, the text and the number must not overlap, and nobody else may use them meanwhile.
 */
#ifndef MOS6502_LISTING_H
#define MOS6502_LISTING_H

#include "mos6502_answers.h"
#include "mos6502_archive.h"

#ifdef __cplusplus
extern "C" {
#endif

MOS6502_ASK_FOR(mos6502_listing_version_1_run_rt_staticlib_mos6502_listing);

/* The most characters that a listing has for each byte of its stretch, and that one of all the memory has. */
enum { MOS6502_LISTING_A_BYTE = 14, MOS6502_LONGEST_LISTING = 917504 };

/* Lists the memory from a first to a last address. A text line has the address of an instruction, its bytes, its name and its operand
 * as the manual writes it, as `10FB A9 05 LDA #$05`, one space apart, and LF after it. A byte that is no documented opcode is `???`,
 * and so is each byte of an instruction that goes past the last address. It answers, the first that holds:
 *   MOS6502_MEMORY_NOT_FULL    1  memory_length is not 65,536
 *   MOS6502_FIRST_ABOVE_LAST   9  first is above last
 *   MOS6502_NO_ROOM           10  the listing has more than text_length characters; 14 for each byte are always enough, 917,504 for
 *                                 all of the memory
 *   MOS6502_NOT_REFUSED        0  the listing stands at the start of the text
 * *size is the length of the listing, 0 if it is refused. What stands after it is as it was; a refusal writes nothing to the text. */
uint8_t mos6502_list(const uint8_t *memory, size_t memory_length, uint16_t first, uint16_t last, uint8_t *text, size_t text_length,
                     size_t *size);

#ifdef __cplusplus
}
#endif

#endif
