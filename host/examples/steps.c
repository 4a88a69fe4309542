/* steps COUNT IMAGE: makes at most COUNT steps of an image one by one, from where the program report starts it, and prints
 * for each the counter before it, the cycles that it took, and the first address on the bus. The exit status is
 * the answer of the last step: 0 where all were made.
 *
 *     tools/build mos6502
 *     tools/build mos6502_step
 *     cc -I host/include host/examples/steps.c target/staticlib/libmos6502_step.a target/staticlib/libmos6502.a -o target/steps
 *     target/steps 20 crates/program_report/data/for-ever.img
 */
#include <inttypes.h>
#include <stdio.h>
#include <stdlib.h>

#include "mos6502.h"
#include "mos6502_step.h"

enum { SIZE = 65536 };

/* One step and its line, which a refused step does not have; what it answered. */
static uint8_t step(uint64_t *registers, uint64_t *cycles, uint8_t *memory, size_t length)
{
    uint16_t counter = mos6502_counter(*registers), first;
    uint64_t before = *cycles;
    uint8_t answer = mos6502_step(registers, cycles, MOS6502_IDLE, &first, memory, length);
    if (answer == MOS6502_NOT_REFUSED)
        printf("%04X %" PRIu64 " %04X\n", counter, *cycles - before, first);
    return answer;
}

int main(int count, char **words)
{
    static uint8_t memory[SIZE + 1];
    if (count != 3) {
        fprintf(stderr, "usage: steps COUNT IMAGE, as in: steps 20 night.img\n");
        return 64;
    }
    FILE *file = fopen(words[2], "rb");
    if (!file) {
        perror(words[2]);
        return 66;
    }
    size_t length = fread(memory, 1, sizeof memory, file);
    fclose(file);
    uint64_t registers = mos6502_registers(0, 0, 0, 0xFF, 0x04, (uint16_t)(memory[0xFFFC] | memory[0xFFFD] << 8));
    uint64_t cycles = 0, left = strtoull(words[1], NULL, 10);
    uint8_t answer = 0;
    for (; left > 0 && answer == MOS6502_NOT_REFUSED; left--)
        answer = step(&registers, &cycles, memory, length);
    if (fflush(stdout) != 0) {
        perror("standard output");
        return 74;
    }
    return answer;
}
