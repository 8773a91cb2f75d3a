/* Corrects the glyph that it reads from standard input and prints the counts, the stencil, rows from the bottom, how many flagged texels each channel
 * carries, where the view finds two of its texels, and that the plain engine leaves the same. */
#include <stdio.h>
#include <stdlib.h>
#include <string.h>

#include "../include/rungtwine.h"

static void need(int good, const char *what)
{
    if (!good) {
        fprintf(stderr, "glyph: %s\n", what);
        exit(2);
    }
}

static void *space(size_t count, size_t size)
{
    void *p = malloc(count > 0 ? count * size : size);
    need(p != NULL, "no memory");
    return p;
}

/* The mark of a cell: its texel is protected by a corner, or by an edge alone, or not at all; the second letter of each where it has an error. */
static char mark(uint8_t cell)
{
    const char *marks = cell & RUNGTWINE_CORNER ? "CD" : cell & RUNGTWINE_PROTECTED ? "PB" : ".E";
    return marks[(cell & RUNGTWINE_ERROR) != 0];
}

/* Prints the stencil, row 0 first. */
static void rows(size_t width, size_t height, const uint8_t *stencil)
{
    for (size_t i = 0; i < width * height; i++) {
        putchar(mark(stencil[i]));
        if ((i + 1) % width == 0)
            putchar('\n');
    }
}

/* Prints how many flagged texels have their median in each channel, judged on the original. */
static void carriers(size_t cells, size_t channels, const float *original, const uint8_t *stencil)
{
    size_t carried[3] = {0, 0, 0};
    for (size_t k = 0; k < cells; k++) {
        const float *texel = original + k * channels;
        if (stencil[k] & RUNGTWINE_ERROR)
            carried[rungtwine_texel_channel(texel[0], texel[1], texel[2])]++;
    }
    printf("medians in channels: %zu %zu %zu\n", carried[0], carried[1], carried[2]);
}

/* Prints where the view finds the first texel that is flagged, or that is not. */
static void show(size_t width, size_t height, size_t channels, const float *original, const float *corrected, const uint8_t *stencil, unsigned flagged)
{
    size_t cells = width * height, count = cells * channels, k = 0;
    while (k < cells && (stencil[k] & RUNGTWINE_ERROR) != flagged)
        k++;
    rungtwine_texel texel = {original, 0};
    rungtwine_texel_view(width, height, channels, original, count, corrected, count, stencil, cells, k % width, k / width, &texel);
    int of_corrected = texel.length > 0 && texel.samples == corrected + k * channels;
    printf("texel %zu %zu: %s, %zu samples from %zu\n", k % width, k / width, of_corrected ? "corrected" : "original", texel.length,
           (size_t)(texel.samples - (of_corrected ? corrected : original)));
}

int main(void)
{
    size_t width, height, channels, segments, contours, i;
    unsigned mode, colour;
    double ratio, horizontal, vertical, diagonal;
    need(scanf("%zu %zu %zu %u %lf %lf %lf %lf", &width, &height, &channels, &mode, &ratio, &horizontal, &vertical, &diagonal) == 8, "no size and settings");
    need(scanf("%zu %zu", &segments, &contours) == 2 && width <= 4096 && height <= 4096 && channels <= 4 && segments <= 65536, "too large");
    uint8_t *colours = space(segments, sizeof *colours);
    double *coords = space(2 * segments, sizeof *coords);
    for (i = 0; i < segments; i++) {
        need(scanf("%u %lf %lf", &colour, &coords[2 * i], &coords[2 * i + 1]) == 3, "a segment is missing");
        colours[i] = (uint8_t)colour;
    }
    size_t *ends = space(contours, sizeof *ends);
    for (i = 0; i < contours; i++)
        need(scanf("%zu", &ends[i]) == 1, "an end is missing");
    size_t cells = width * height, count = cells * channels;
    float *samples = space(count, sizeof *samples);
    for (i = 0; i < count; i++)
        need(scanf("%f", &samples[i]) == 1, "a sample is missing");
    float *original = space(count, sizeof *original);
    memcpy(original, samples, count * sizeof *samples);
    uint8_t *stencil = space(cells, sizeof *stencil);
    /* Lent for two rows of medians; what is in it does not matter. */
    size_t room_count = 2 * width;
    float *room = space(room_count, sizeof *room);

    size_t place, protected_cells, error_cells, corner_cells, tests;
    unsigned refusal = rungtwine_error_correction(width, height, channels, samples, count, stencil, cells, room, room_count, (uint8_t)mode, ratio, horizontal,
                                                  vertical, diagonal, colours, segments, coords, 2 * segments, ends, contours, &place, &protected_cells,
                                                  &error_cells, &corner_cells, &tests);
    if (refusal != 0) {
        printf("refused %u %zu\n", refusal, place);
        return 1;
    }
    printf("protected %zu error %zu corner %zu tests %zu\n", protected_cells, error_cells, corner_cells, tests);
    rows(width, height, stencil);
    carriers(cells, channels, original, stencil);
    show(width, height, channels, original, samples, stencil, RUNGTWINE_ERROR);
    show(width, height, channels, original, samples, stencil, 0);

    float *plain = space(count, sizeof *plain);
    memcpy(plain, original, count * sizeof *plain);
    uint8_t *plain_stencil = space(cells, sizeof *plain_stencil);
    size_t plain_protected, plain_error, plain_corner;
    refusal = rungtwine_plain_error_correction(width, height, channels, plain, count, plain_stencil, cells, room, room_count, (uint8_t)mode, ratio, horizontal,
                                               vertical, diagonal, colours, segments, coords, 2 * segments, ends, contours, &place, &plain_protected,
                                               &plain_error, &plain_corner);
    need(refusal == 0 && plain_protected == protected_cells && plain_error == error_cells && plain_corner == corner_cells, "the plain engine counts otherwise");
    need(memcmp(plain, samples, count * sizeof *plain) == 0 && memcmp(plain_stencil, stencil, cells) == 0, "the plain engine leaves something else");
    printf("the plain engine agrees\n");
    free(plain_stencil);
    free(plain);
    free(room);
    free(stencil);
    free(original);
    free(samples);
    free(ends);
    free(coords);
    free(colours);
    return 0;
}
