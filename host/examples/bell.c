/* bell RINGS: a program waits for the door bell, which comes in on IRQ, and counts how often it rang; the power watch comes
 * in on NMI and ends it. Prints the count; the exit status is 0 where the program ended where it should.
 *
 *     tools/build mos6502
 *     cc -I host/include host/examples/bell.c target/staticlib/libmos6502.a -o target/bell
 *     target/bell 3
 */
#include <stdio.h>
#include <stdlib.h>
#include <string.h>

#include "mos6502.h"

enum { SIZE = 65536, COUNT = 0x0010, STOP = 0x0400 };

static uint8_t memory[SIZE];
static uint64_t registers, cycles;

/* At most so many steps with the lines at these levels; what the run answered. */
static uint8_t part(uint64_t bound, uint8_t lines)
{
    uint64_t steps;
    return mos6502_run(&registers, &cycles, &steps, bound, lines, memory, sizeof memory);
}

int main(int count, char **words)
{
    static const uint8_t program[] = { 0x58, 0x4C, 0x01, 0x02 };  /* 0200 CLI, 0201 JMP $0201: wait */
    static const uint8_t bell[] = { 0xE6, COUNT, 0x40 };          /* 0300 INC $10, 0302 RTI */
    static const uint8_t vectors[] = { 0x00, 0x04, 0x00, 0x02, 0x00, 0x03 };
    unsigned long rings = count == 2 ? strtoul(words[1], NULL, 10) : 256;
    uint8_t answer = 0;

    if (rings > 255) {
        fprintf(stderr, "usage: bell RINGS, at most 255, as in: bell 3\n");
        return 64;
    }
    memcpy(memory + 0x0200, program, sizeof program);
    memcpy(memory + 0x0300, bell, sizeof bell);
    memory[STOP] = 0x02;  /* where NMI leads there is no opcode: it ends there */
    memcpy(memory + 0xFFFA, vectors, sizeof vectors);
    registers = mos6502_registers(0, 0, 0, 0xFF, 0x04, 0x0200);

    for (unsigned long ring = 0; ring < rings && answer == MOS6502_NOT_REFUSED; ring++) {
        answer = part(100, MOS6502_IDLE);
        /* Whoever rings holds the line low until it is answered. Held longer, it would be served again after RTI. */
        while (answer == MOS6502_NOT_REFUSED && memory[COUNT] == ring)
            answer = part(1, MOS6502_IRQ_LOW);
    }
    if (answer == MOS6502_NOT_REFUSED)
        answer = part(100, MOS6502_NMI_LOW);
    printf("%u\n", memory[COUNT]);
    return answer == MOS6502_NOT_AN_OPCODE && mos6502_counter(registers) == STOP ? 0 : 1;
}
