/* guard_image FIRST LAST STEPS IMAGE: runs an image as report starts it, with the bytes from FIRST to LAST sealed, so that what the
 * run leaves in memory could be handed out whole. Prints the answer and the steps made; where it was halted, also the counter and
 * the sealed address that it would have read. FFFC and FFFD, where the run finds its start, cannot be sealed. The exit status is the
 * answer, 64 for wrong usage.
 *
 *     tools/build mos6502_guard
 *     cc -I host/include host/examples/guard_image.c target/staticlib/libmos6502_guard.a -o target/guard_image
 *     target/guard_image 0400 04FF 2000 crates/program_sealed/data/letter.img
 */
#include <stdio.h>
#include <stdlib.h>

#include "mos6502_guard.h"

enum { SIZE = 65536, STACK = 24, STATUS = 32, COUNTER = 40 };

static uint8_t memory[SIZE + 1], sealed[MOS6502_MAP_SIZE];

/* Puts the addresses from `first` to `last` into the map; none if `last` is below `first`. */
static void seal(unsigned long first, unsigned long last)
{
    for (unsigned long address = first; address <= last; address++)
        sealed[address / 8] |= (uint8_t)(1 << address % 8);
}

/* Whether a word is a number of that base, and no more than `most`. */
static int read_number(const char *word, int base, unsigned long most, unsigned long *number)
{
    char *end;
    *number = strtoul(word, &end, base);
    return *word != '\0' && *end == '\0' && *number <= most;
}

/* Whether a file was read whole, and its length. */
static int read_image(const char *name, size_t *length)
{
    FILE *file = fopen(name, "rb");
    int good;

    if (!file)
        return 0;
    *length = fread(memory, 1, sizeof memory, file);
    good = !ferror(file);
    fclose(file);
    return good;
}

int main(int count, char **words)
{
    unsigned long first, last, bound;
    uint64_t registers, cycles = 0, steps;
    uint16_t place;
    size_t length;
    uint8_t answer;

    if (count != 5 || !read_number(words[1], 16, 0xFFFF, &first) || !read_number(words[2], 16, 0xFFFF, &last) ||
        (first <= 0xFFFD && last >= 0xFFFC) || !read_number(words[3], 10, 1000000000, &bound) ||
        !read_image(words[4], &length)) {
        fprintf(stderr, "usage: guard_image FIRST LAST STEPS IMAGE, as in: guard_image 0400 04FF 2000 letter.img\n");
        return 64;
    }
    /* S is FF and only I is set; libmos6502.a, with mos6502_registers, is not needed for that. */
    registers = (uint64_t)0xFF << STACK | (uint64_t)0x04 << STATUS |
                (uint64_t)(memory[0xFFFC] | memory[0xFFFD] << 8) << COUNTER;
    seal(first, last);
    answer = mos6502_extract(&registers, &cycles, &steps, &place, bound, MOS6502_IDLE, sealed, memory, length);
    printf("%u %llu", answer, (unsigned long long)steps);
    if (answer == MOS6502_WOULD_READ)
        printf(" %04X %04X", (unsigned)(registers >> COUNTER & 0xFFFF), place);
    printf("\n");
    return answer;
}
