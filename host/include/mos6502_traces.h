/* The check of a recorded trace, proved, for a host in C or C++: link target/staticlib/libmos6502_traces.a, which
 * `tools/build mos6502_traces` writes for x86-64 (for Arm: mos6502.h).
 *
 * The texts, the memories and the number must not overlap, and nobody else may use them meanwhile.
 */
#ifndef MOS6502_TRACES_H
#define MOS6502_TRACES_H

#include "mos6502_answers.h"
#include "mos6502_archive.h"

#ifdef __cplusplus
extern "C" {
#endif

MOS6502_ASK_FOR(mos6502_traces_version_1_run_rt_staticlib_mos6502_traces);

/* Checks a log. Its entries are text lines that hold the last seven fields of report's line, LF after each: CYCLES COUNTER A X
 * Y S STATUS, the cycles in decimal without leading zeros, the others in capital hexadecimal. The first entry may be any state;
 * every later one has to be the state after one step from the entry before, with idle interrupt lines. copy starts as the image
 * and is left as the accepted entries leave it. It answers, the first that holds, 11 and 12 at the first bad entry:
 *   MOS6502_MEMORY_NOT_FULL   1  image_length or copy_length is not 65,536; nothing is written to copy
 *   MOS6502_MALFORMED_ENTRY  11  the entry is malformed or cut short, or there is none
 *   MOS6502_STRAY_ENTRY      12  it is not the state after a step from the entry before, or no step can be made there
 *   MOS6502_NOT_REFUSED       0  there is an entry, and every later one follows
 * *line is the number of the first bad entry, counted from 1, and 0 with the answers 0 and 1. A log of one entry is accepted. */
uint8_t mos6502_trace_check(const uint8_t *image, size_t image_length, const uint8_t *lines, size_t lines_length, uint8_t *copy,
                    size_t copy_length, size_t *line);

#ifdef __cplusplus
}
#endif

#endif
