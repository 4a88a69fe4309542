/* run_image STOP LIMIT IMAGE: runs an image as the program report does, but for LIMIT steps, any number of them, and prints
 * its line. The exit status is that of `./run report --stop STOP`: 0 only if it ended at STOP.
 *
 *     tools/build mos6502
 *     cc -I host/include host/examples/run_image.c target/staticlib/libmos6502.a -o target/run_image
 *     target/run_image 0202 50000000 crates/program_report/stdin
 */
#include <inttypes.h>
#include <stdio.h>
#include <stdlib.h>

#include "mos6502.h"

enum { SIZE = 65536 };

/* The registers, the count of cycles and the steps made, and what the run answered. */
struct run {
    uint64_t registers, cycles, steps;
    uint8_t answer;
};

/* As report starts an image: A, X and Y 00, S FF, only I set, the counter from FFFC. */
static struct run start(const uint8_t *memory)
{
    uint16_t counter = (uint16_t)(memory[0xFFFC] | memory[0xFFFD] << 8);
    struct run run = { mos6502_registers(0, 0, 0, 0xFF, 0x04, counter), 0, 0, MOS6502_NOT_REFUSED };
    return run;
}

/* If nothing was refused all the steps were made: it was still running, and that is no success. */
static int status_of(struct run run, unsigned long stop)
{
    switch (run.answer) {
    case MOS6502_NOT_REFUSED:
        return 20;
    case MOS6502_NOT_AN_OPCODE:
        return mos6502_counter(run.registers) == stop ? 0 : run.answer;
    default:
        return run.answer;
    }
}

static int print_line(struct run run)
{
    uint64_t r = run.registers;
    return printf("%u %" PRIu64 " %" PRIu64 " %04X %02X %02X %02X %02X %02X\n", run.answer, run.steps, run.cycles,
                  mos6502_counter(r), mos6502_accumulator(r), mos6502_x(r), mos6502_y(r), mos6502_stack(r),
                  mos6502_status(r));
}

int main(int count, char **words)
{
    static uint8_t memory[SIZE + 1];
    if (count != 4) {
        fprintf(stderr, "usage: run_image STOP LIMIT IMAGE, as in: run_image 020B 50000000 night.img\n");
        return 64;
    }
    FILE *file = fopen(words[3], "rb");
    if (!file) {
        perror(words[3]);
        return 66;
    }
    size_t length = fread(memory, 1, sizeof memory, file);
    if (ferror(file)) {
        perror(words[3]);
        return 74;
    }
    fclose(file);
    struct run run = start(memory);
    run.answer = mos6502_long_run(&run.registers, &run.cycles, &run.steps, strtoull(words[2], NULL, 10), MOS6502_IDLE,
                                  memory, length);
    int printed = run.answer == MOS6502_MEMORY_NOT_FULL ? printf("1\n") : print_line(run);
    if (printed < 0 || fflush(stdout) != 0) {
        perror("standard output");
        return 74;
    }
    return status_of(run, strtoul(words[1], NULL, 16));
}
