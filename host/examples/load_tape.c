/* load_tape TAPE: reads a paper tape onto zeros and says what was found. The exit status is the answer, 2 for wrong usage.
 *
 *     tools/build mos6502_tapes
 *     cc -I host/include host/examples/load_tape.c target/staticlib/libmos6502_tapes.a -o target/load_tape
 *     target/load_tape crates/program_load/stdin
 */
#include <inttypes.h>
#include <stdio.h>

#include "mos6502_tapes.h"

static uint8_t text[1 << 20];
static uint8_t memory[65536];

int main(int count, char **words)
{
    FILE *tape = count == 2 ? fopen(words[1], "rb") : NULL;
    size_t length = tape ? fread(text, 1, sizeof text, tape) : 0;
    uint64_t good;
    size_t place;
    uint8_t answer;

    if (!tape || ferror(tape) || length == sizeof text) {
        fprintf(stderr, "usage: load_tape TAPE, a file of less than a million characters\n");
        return 2;
    }
    fclose(tape);
    answer = mos6502_tape_load(text, length, memory, sizeof memory, &good, &place);
    printf("%u %" PRIu64 " %zu\n", answer, good, place);
    return answer;
}
