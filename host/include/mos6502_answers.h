/* The answers of all the proved functions, by name. The comment of each function says which of them it gives, and when. */
#ifndef MOS6502_ANSWERS_H
#define MOS6502_ANSWERS_H

enum mos6502_answer {
    /* what was asked for is not refused; of a run: all its steps are made, or its cycles spent, and its program still runs;
     * of a run to an address: the counter is at it */
    MOS6502_NOT_REFUSED = 0,
    /* the memory or the image is not 65,536 bytes long */
    MOS6502_MEMORY_NOT_FULL = 1,
    /* of a step: no room for its cycles; no documented opcode at the counter */
    MOS6502_NO_CYCLE_ROOM = 2,
    MOS6502_NOT_AN_OPCODE = 3,
    /* of a run: its bound is above 1,000,000 */
    MOS6502_BOUND_TOO_HIGH = 4,
    /* of a text of records, at the first bad one: malformed; its sum is wrong; it goes past FFFF; no end record, or a wrong one */
    MOS6502_MALFORMED_RECORD = 5,
    MOS6502_WRONG_SUM = 6,
    MOS6502_PAST_THE_END = 7,
    MOS6502_NO_END = 8,
    /* of a text that is written: the first address is above the last; it does not fit into the buffer */
    MOS6502_FIRST_ABOVE_LAST = 9,
    MOS6502_NO_ROOM = 10,
    /* of a recorded trace, at the first bad entry: malformed, or none; it does not follow from the entry before */
    MOS6502_MALFORMED_ENTRY = 11,
    MOS6502_STRAY_ENTRY = 12,
    /* of a guarded run: the next step would read a byte that is guarded against reads; store to one guarded against stores */
    MOS6502_WOULD_READ = 13,
    MOS6502_WOULD_STORE = 14,
    /* of a run to an address: all its steps are made, and the counter is not at it */
    MOS6502_NOT_THERE = 15
};

#endif
