/* The numbers that the proved functions take for a machine and for its interrupt lines.
 *
 * The registers are one number: A, X, Y, S and the status byte, a byte each from bit 0 on, the counter in bits 40 to 55, and in
 * bit 56 the last level of NMI, which is the one at the last step made: set if it was low. A number without that bit says
 * high, as it is at first. Bits 4 and 5 of a status byte that you pass, and bits 57 to 63 of a number, do not matter. Results
 * have bits 4 and 5 of the status byte set, as PHP pushes it, and bits 57 to 63 clear. mos6502.h has functions that make the number
 * and take it apart.
 */
#ifndef MOS6502_NUMBERS_H
#define MOS6502_NUMBERS_H

/* The present levels of the interrupt lines, which hold for a whole call: 0 if both are high, or the sum of those that are
 * low. Other bits do not matter. */
enum { MOS6502_IDLE = 0, MOS6502_NMI_LOW = 1, MOS6502_IRQ_LOW = 2 };

#endif
