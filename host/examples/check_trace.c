/* check_trace IMAGE LOG: checks a log against an image, and says which line is the first bad one. The exit status is the
 * answer, 2 for wrong usage.
 *
 *     tools/build mos6502_traces
 *     cc -I host/include host/examples/check_trace.c target/staticlib/libmos6502_traces.a -o target/check_trace
 *     target/check_trace crates/program_trace/stdin crates/program_trace/stdout
 */
#include <stdio.h>

#include "mos6502_traces.h"

static uint8_t image[65537];
static uint8_t copy[65536];
static uint8_t lines[1 << 20];

/* Whether a file was read whole, and its length. */
static int read_file(const char *name, uint8_t *to, size_t room, size_t *length)
{
    FILE *file = fopen(name, "rb");
    int good;

    if (!file)
        return 0;
    *length = fread(to, 1, room, file);
    good = !ferror(file) && *length < room;
    fclose(file);
    return good;
}

int main(int count, char **words)
{
    size_t image_length, lines_length, line;
    uint8_t answer;

    if (count != 3 || !read_file(words[1], image, sizeof image, &image_length) ||
        !read_file(words[2], lines, sizeof lines, &lines_length)) {
        fprintf(stderr, "usage: check_trace IMAGE LOG, a log of less than a million characters\n");
        return 2;
    }
    answer = mos6502_trace_check(image, image_length, lines, lines_length, copy, sizeof copy, &line);
    printf("%u %zu\n", answer, line);
    return answer;
}
