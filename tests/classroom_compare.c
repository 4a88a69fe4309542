/* classroom_compare SEED BLOCKS: makes random steps and runs with the archives for x86-64, and prints a checksum after each block of 1,000
 * steps. tests/classroom_module.js makes the same ones with the module for WebAssembly, and compares: the same numbers, drawn in the
 * same order. Exit status: 0, or 64 for wrong usage. */
#include <stdio.h>
#include <stdlib.h>

#include "mos6502.h"
#include "mos6502_footprint.h"
#include "mos6502_guard.h"
#include "mos6502_listing.h"
#include "mos6502_step.h"

enum { SIZE = 65536, STEPS = 1000, ROOM = 4096 };

static uint32_t seed, sum;
static uint8_t memory[SIZE], map[MOS6502_MAP_SIZE], nothing[MOS6502_MAP_SIZE], text[ROOM];

static uint32_t draw(void)
{
    seed ^= seed << 13;
    seed ^= seed >> 17;
    seed ^= seed << 5;
    return seed;
}

static void add(uint32_t number)
{
    sum = (sum ^ number) * 16777619u;
}

static void add_long(uint64_t number)
{
    add((uint32_t)number);
    add((uint32_t)(number >> 32));
}

static uint64_t draw_registers(void)
{
    uint64_t low = draw();
    return low | (uint64_t)(draw() & 0x01FFFFFF) << 32;
}

static void step(void)
{
    uint64_t registers = draw_registers();
    uint64_t cycles = draw() % 64 == 0 ? 18446744073709551604u + draw() % 12 : draw();
    uint8_t lines = draw() & 3;
    uint16_t places[MOS6502_PLACES], first;
    size_t count = mos6502_reads(registers, cycles, lines, memory, SIZE, places);

    add((uint32_t)count);
    for (int i = 0; i < MOS6502_PLACES; i++)
        add(places[i]);
    count = mos6502_stores(registers, cycles, lines, memory, SIZE, places);
    add((uint32_t)count);
    for (int i = 0; i < MOS6502_PLACES; i++)
        add(places[i]);
    add(mos6502_step(&registers, &cycles, lines, &first, memory, SIZE));
    add_long(registers);
    add_long(cycles);
    add(first);
    for (size_t i = 0; i < count; i++)
        add(memory[places[i]]);
    add(mos6502_counter(registers));
    add(mos6502_accumulator(registers) << 24 | mos6502_x(registers) << 16 | mos6502_y(registers) << 8 | mos6502_stack(registers));
    add(mos6502_status(registers) << 8 | mos6502_nmi(registers));
}

/* A run of each kind, from one state; what one leaves the next goes on with. */
static void runs(void)
{
    uint64_t registers = draw_registers(), cycles = draw(), steps;
    uint8_t lines = draw() & 3;
    uint16_t place, stop = draw();
    size_t size;

    add(mos6502_long_run(&registers, &cycles, &steps, draw() % 100, lines, memory, SIZE));
    add_long(steps);
    add(mos6502_run_cycles(&registers, &cycles, &steps, draw() % 400, lines, memory, SIZE));
    add_long(steps);
    add(mos6502_run_to(&registers, &cycles, &steps, stop, draw() % 100, lines, memory, SIZE));
    add_long(steps);
    add(mos6502_guarded_run(&registers, &cycles, &steps, &place, draw() % 100, lines, map, nothing, memory, SIZE));
    add_long(steps);
    add(place);
    add_long(registers);
    add_long(cycles);
    stop = draw();
    place = draw();
    add(mos6502_list(memory, SIZE, stop, place, text, ROOM, &size));
    add((uint32_t)size);
    for (size_t i = 0; i < size; i++)
        add(text[i]);
}

int main(int count, char **words)
{
    if (count != 3) {
        fprintf(stderr, "usage: classroom_compare SEED BLOCKS\n");
        return 64;
    }
    seed = (uint32_t)strtoul(words[1], NULL, 10);
    sum = 2166136261u;
    for (int i = 0; i < 300; i++) {
        uint32_t address = draw() & 0xFFFF;
        map[address >> 3] |= (uint8_t)(1u << (address & 7));
    }
    for (unsigned long block = strtoul(words[2], NULL, 10); block > 0; block--) {
        for (int i = 0; i < SIZE; i++)
            memory[i] = (uint8_t)(draw() >> 24);
        for (int i = 0; i < STEPS; i++)
            step();
        runs();
        for (int i = 0; i < SIZE; i++)
            add(memory[i]);
        printf("%08x\n", (unsigned)sum);
    }
    return 0;
}
