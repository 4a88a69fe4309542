/* footprints COUNT IMAGE: makes at most COUNT steps of an image one by one, from where the program report starts it, and prints
 * before each the addresses that it will read and, after a colon, those that it will store to. The exit status is the answer of
 * the last step: 0 where all were made.
 *
 *     tools/build mos6502
 *     tools/build mos6502_step
 *     tools/build mos6502_footprint
 *     cc -I host/include host/examples/footprints.c target/staticlib/libmos6502_step.a target/staticlib/libmos6502.a target/staticlib/libmos6502_footprint.a -o target/footprints
 *     target/footprints 4 crates/program_sealed/data/letter.img
 */
#include <stdio.h>
#include <stdlib.h>

#include "mos6502.h"
#include "mos6502_footprint.h"
#include "mos6502_step.h"

enum { SIZE = 65536 };

static void print_places(const uint16_t *places, size_t count)
{
    for (size_t i = 0; i < count; i++)
        printf("%04X ", places[i]);
}

/* What a step will read and store to, and then the step; what it answered. */
static uint8_t step(uint64_t *registers, uint64_t *cycles, uint8_t *memory, size_t length)
{
    uint16_t places[MOS6502_PLACES], first;

    print_places(places, mos6502_reads(*registers, *cycles, MOS6502_IDLE, memory, length, places));
    printf(": ");
    print_places(places, mos6502_stores(*registers, *cycles, MOS6502_IDLE, memory, length, places));
    printf("\n");
    return mos6502_step(registers, cycles, MOS6502_IDLE, &first, memory, length);
}

int main(int count, char **words)
{
    static uint8_t memory[SIZE + 1];
    if (count != 3) {
        fprintf(stderr, "usage: footprints COUNT IMAGE, as in: footprints 20 night.img\n");
        return 64;
    }
    FILE *file = fopen(words[2], "rb");
    if (!file) {
        perror(words[2]);
        return 66;
    }
    size_t length = fread(memory, 1, sizeof memory, file);
    fclose(file);
    uint64_t registers = mos6502_registers(0, 0, 0, 0xFF, 0x04, (uint16_t)(memory[0xFFFC] | memory[0xFFFD] << 8));
    uint64_t cycles = 0, left = strtoull(words[1], NULL, 10);
    uint8_t answer = 0;
    for (; left > 0 && answer == MOS6502_NOT_REFUSED; left--)
        answer = step(&registers, &cycles, memory, length);
    if (fflush(stdout) != 0) {
        perror("standard output");
        return 74;
    }
    return answer;
}
