/*
 * pixels: samples as bytes and bytes as samples, through the proved library. `tools/pixels` builds and runs it for `tools/glyph to-png` and `tools/glyph from-png`.
 *
 * It reads from standard input, with the lowest byte first: what is asked for, 0 for bytes and 1 for samples, and how many, of 4 bytes each; then the samples,
 * floats, or the bytes that are to be changed. It writes the library's number and place, of 4 and 8 bytes, and where the number is 0 what was asked for.
 * Exit status: 0 answered, 1 the input is too short, too long or unreadable, or the answer not writable.
 */
#include "front.h"

#include "../include/rungtwine.h"

enum { TO_BYTES = 0, TO_SAMPLES = 1 };

static void to_bytes(float *samples, uint8_t *bytes, size_t count)
{
    size_t place = 0;
    read_bytes(samples, count * sizeof *samples, "the samples");
    read_end("the samples");
    turn(samples, count);
    unsigned refusal = rungtwine_samples_to_bytes(samples, count, bytes, count, &place);
    write_verdict(refusal, place);
    if (refusal == 0)
        write_bytes(bytes, count);
}

static void to_samples(uint8_t *bytes, float *samples, size_t count)
{
    size_t place = 0;
    read_bytes(bytes, count, "the bytes");
    read_end("the bytes");
    unsigned refusal = rungtwine_bytes_to_samples(bytes, count, samples, count, &place);
    write_verdict(refusal, place);
    if (refusal == 0) {
        turn(samples, count);
        write_bytes(samples, count * sizeof *samples);
    }
}

int main(void)
{
    unsigned char head[8];
    read_bytes(head, sizeof head, "the head");
    uint32_t asked = number(head);
    size_t count = number(head + 4);
    if (asked != TO_BYTES && asked != TO_SAMPLES)
        fail("standard input asks for %lu, and 0 is for bytes and 1 for samples", (unsigned long)asked);
    float *samples = space(count, sizeof *samples);
    uint8_t *bytes = space(count, sizeof *bytes);
    if (asked == TO_BYTES)
        to_bytes(samples, bytes, count);
    else
        to_samples(bytes, samples, count);
    write_end();
    free(bytes);
    free(samples);
    return 0;
}
