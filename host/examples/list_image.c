/* list_image FIRST LAST IMAGE: prints a listing of an image from a first to a last address, four hexadecimal digits each. The exit
 * status is the answer: 0 where it is printed.
 *
 *     tools/build mos6502_listing
 *     cc -I host/include host/examples/list_image.c target/staticlib/libmos6502_listing.a -o target/list_image
 *     target/list_image 0200 0202 crates/program_report/stdin
 */
#include <stdio.h>
#include <stdlib.h>

#include "mos6502_listing.h"

static uint8_t memory[65537];
static uint8_t text[MOS6502_LONGEST_LISTING];

int main(int count, char **words)
{
    FILE *image = count == 4 ? fopen(words[3], "rb") : NULL;
    size_t length, size;
    uint8_t answer;

    if (!image) {
        fprintf(stderr, "usage: list_image FIRST LAST IMAGE, as in: list_image 0200 02FF night.img\n");
        return 64;
    }
    length = fread(memory, 1, sizeof memory, image);
    fclose(image);
    answer = mos6502_list(memory, length, (uint16_t)strtoul(words[1], NULL, 16), (uint16_t)strtoul(words[2], NULL, 16), text,
                          sizeof text, &size);
    if (fwrite(text, 1, size, stdout) != size || fflush(stdout) != 0) {
        perror("standard output");
        return 74;
    }
    return answer;
}
