/*
 * signs: turns values that lie on the wrong side of the outline over, through the proved library. `tools/signs` builds and runs it for `tools/glyph signs`.
 *
 * It reads from standard input, with the lowest byte first: width, height and channels, of 4 bytes each; the zero value, a float; the samples, floats, row 0 at
 * the bottom and channels interleaved; and the filled map, a byte a texel. It writes the library's number and place, of 4 and 8 bytes, and where the number is 0
 * the samples and the match map, a signed byte a texel. Exit status: 0 answered, 1 the input is too short, too long or unreadable, or the answer not writable.
 */
#include "front.h"

#include "../include/rungtwine.h"

/* a * b, where no size is too large to be told */
static size_t times(size_t a, size_t b)
{
    if (b != 0 && a > SIZE_MAX / b)
        fail("%zu times %zu is more than this machine can count", a, b);
    return a * b;
}

int main(void)
{
    unsigned char size[12];
    float zero;
    read_bytes(size, sizeof size, "the size");
    read_bytes(&zero, sizeof zero, "the zero value");
    turn(&zero, 1);
    size_t width = number(size), height = number(size + 4), channels = number(size + 8);
    size_t texels = times(width, height), count = times(texels, channels), place = 0;
    float *samples = space(count, sizeof *samples);
    uint8_t *filled = space(texels, sizeof *filled);
    int8_t *matches = space(texels, sizeof *matches);
    read_bytes(samples, count * sizeof *samples, "the samples");
    read_bytes(filled, texels, "the filled map");
    read_end("the filled map");
    turn(samples, count);
    unsigned refusal = rungtwine_sign_correction(width, height, channels, samples, count, zero, filled, texels, matches, texels, &place);
    write_verdict(refusal, place);
    if (refusal == 0) {
        turn(samples, count);
        write_bytes(samples, count * sizeof *samples);
        write_bytes(matches, texels);
    }
    write_end();
    free(matches);
    free(filled);
    free(samples);
    return 0;
}
