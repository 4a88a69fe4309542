/* Paper tapes and Intel HEX, proved, for a host in C or C++: link target/staticlib/libmos6502_tapes.a, which `tools/build
 * mos6502_tapes` writes for x86-64 (for Arm: mos6502.h).
 *
 * In each call the texts, the memory and the numbers must not overlap, and nobody else may use them meanwhile. Every number
 * that is lent is written.
 */
#ifndef MOS6502_TAPES_H
#define MOS6502_TAPES_H

#include "mos6502_answers.h"
#include "mos6502_archive.h"

#ifdef __cplusplus
extern "C" {
#endif

MOS6502_ASK_FOR(mos6502_tapes_version_1_run_rt_staticlib_mos6502_tapes);

/* Reads a tape onto a memory. It answers, the first that holds, 5 to 8 at the first bad record:
 *   MOS6502_MEMORY_NOT_FULL    1  memory_length is not 65,536
 *   MOS6502_MALFORMED_RECORD   5  the record is malformed or cut short, or a stray character stands there
 *   MOS6502_WRONG_SUM          6  it has a wrong sum
 *   MOS6502_PAST_THE_END       7  it goes past FFFF
 *   MOS6502_NO_END             8  its number of data records is wrong, or there is no end record
 *   MOS6502_NOT_REFUSED        0  the whole tape is good, and its records are stored, a later one over an earlier one
 * A refusal, any answer but 0, leaves the memory as it was. *good is the number of good records before the first bad one, the
 * end record counted, and *place the offset at which that begins. If no record is bad, *good counts all of them and *place is
 * text_length. With the answer 1 both are 0. */
uint8_t mos6502_tape_load(const uint8_t *text, size_t text_length, uint8_t *memory, size_t memory_length, uint64_t *good,
                  size_t *place);

/* Reads Intel HEX, types 00 and 01, onto a memory, as mos6502_tape_load reads a tape and with its answers. Here
 *   MOS6502_MALFORMED_RECORD   5  is also the answer for another type, for a data record without data, and for an end record other
 *                                 than `:00000001FF` whose sum is right
 *   MOS6502_NO_END             8  for a 65,536th data record, or if there is no end record */
uint8_t mos6502_hex_load(const uint8_t *text, size_t text_length, uint8_t *memory, size_t memory_length, uint64_t *good,
                 size_t *place);

/* Moves a tape to Intel HEX, record for record: the same addresses and data, CR LF after each record. It answers, the first
 * that holds:
 *   MOS6502_MALFORMED_RECORD   5  this and the next three as mos6502_tape_load
 *   MOS6502_WRONG_SUM          6
 *   MOS6502_PAST_THE_END       7
 *   MOS6502_NO_END             8
 *   MOS6502_NO_ROOM           10  the HEX has more than out_length characters; twice text_length is always enough
 *   MOS6502_NOT_REFUSED        0  the whole tape is good, and its HEX stands at the start of out
 * *size is the length of the HEX, 0 if it is refused. What stands after it is as it was; a refusal writes nothing to out.
 * *good and *place are as in mos6502_tape_load. */
uint8_t mos6502_tape_to_hex(const uint8_t *text, size_t text_length, uint8_t *out, size_t out_length, size_t *size, uint64_t *good,
                    size_t *place);

/* Moves Intel HEX to a tape, in the same way, with the answers of mos6502_hex_load, but for 1, and then MOS6502_NO_ROOM. */
uint8_t mos6502_hex_to_tape(const uint8_t *text, size_t text_length, uint8_t *out, size_t out_length, size_t *size, uint64_t *good,
                    size_t *place);

/* Writes the memory from a first to a last address as a tape, 24 bytes a record. It answers, the first that holds:
 *   MOS6502_MEMORY_NOT_FULL    1  memory_length is not 65,536
 *   MOS6502_FIRST_ABOVE_LAST   9  first is above last
 *   MOS6502_NO_ROOM           10  the tape has more than text_length characters; 166,588 are always enough
 *   MOS6502_NOT_REFUSED        0  the tape stands at the start of the text
 * *size is the length of the tape, 0 if it is refused. What stands after it is as it was. */
uint8_t mos6502_tape_punch(const uint8_t *memory, size_t memory_length, uint16_t first, uint16_t last, uint8_t *text,
                   size_t text_length, size_t *size);

/* Writes every good data record of a torn tape, and a fresh end record. It answers, the first that holds:
 *   MOS6502_NO_END             8  more than 65,535 records could be kept
 *   MOS6502_NO_ROOM           10  the new tape has more than out_length characters
 *   MOS6502_NOT_REFUSED        0  it stands at the start of out
 * *size is its length, *kept the number of records in it, *dropped the number of `;` that begin neither a kept record nor a
 * good end record, and *first the offset of the first of these, text_length if there is none. If it is refused all
 * four are 0, and nothing is written. */
uint8_t mos6502_tape_rescue(const uint8_t *text, size_t text_length, uint8_t *out, size_t out_length, size_t *size, uint64_t *kept,
                    uint64_t *dropped, size_t *first);

#ifdef __cplusplus
}
#endif

#endif
