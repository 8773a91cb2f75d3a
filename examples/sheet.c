/* Corrects three cells of a sheet in place: two side by side, which do not see each other, and one apart. Prints the counts of each cell and of all, the sheet's
 * stencil, rows from the bottom, and what a sheet whose cells overlap is answered. */
#include <stdio.h>
#include <string.h>

#include "../include/rungtwine.h"

enum { WIDTH = 6, HEIGHT = 3, CHANNELS = 3, TEXELS = WIDTH * HEIGHT, SAMPLES = TEXELS * CHANNELS, ROOM = 2 * WIDTH, CELLS = 3, SEGMENTS = 2, CONTOURS = 1 };

/* A glyph of two texels with the median 0.75. Halfway between them red and green are 0.5, and so is the median: a dip that neither texel has. */
static const float glyph[2 * CHANNELS] = {1, 0, 0.75f, 0, 1, 0.75f};

/* A contour of two segments with a corner at the start of each, in pixels from a cell's lower left corner: cells 1 and 2 share it. */
static const uint8_t colours[SEGMENTS] = {1, 6};
static const double coords[2 * SEGMENTS] = {0.25, 0.5, 0.75, 0.5};
static const size_t ends[CONTOURS] = {SEGMENTS};

/* The mark of a stencil byte: its texel is protected by a corner, or by an edge alone, or not at all; the second letter of each where it has an error. */
static char mark(uint8_t byte)
{
    const char *marks = byte & RUNGTWINE_CORNER ? "CD" : byte & RUNGTWINE_PROTECTED ? "PB" : ".E";
    return marks[(byte & RUNGTWINE_ERROR) != 0];
}

/* How many stencil bytes of a cell have the bit. */
static size_t count(const uint8_t *stencil, const rungtwine_cell *cell, uint8_t bit)
{
    size_t n = 0;
    for (size_t y = cell->y; y < cell->y + cell->height; y++)
        for (size_t x = cell->x; x < cell->x + cell->width; x++)
            n += (stencil[y * WIDTH + x] & bit) != 0;
    return n;
}

int main(void)
{
    rungtwine_cell cells[CELLS] = {
        {.x = 0, .y = 0, .width = 2, .height = 1},
        {.x = 2, .y = 0, .width = 2, .height = 1, .colours_count = SEGMENTS, .coords_count = 2 * SEGMENTS, .ends_count = CONTOURS},
        {.x = 4, .y = 2, .width = 2, .height = 1, .colours_count = SEGMENTS, .coords_count = 2 * SEGMENTS, .ends_count = CONTOURS},
    };
    const uint8_t modes[CELLS] = {RUNGTWINE_INDISCRIMINATE, RUNGTWINE_EDGE_PRIORITY, RUNGTWINE_EDGE_PRIORITY};
    const rungtwine_settings settings[CELLS] = {{1, 0.25, 0.25, 0.25}, {1, 0.25, 0.25, 0.25}, {1, 1, 1, 1}};
    float samples[SAMPLES] = {0};
    uint8_t stencil[TEXELS];
    float room[ROOM] = {0}; /* lent for two rows of medians */
    size_t cell, place, protected_cells, error_cells, corner_cells, tests;
    for (size_t c = 0; c < CELLS; c++)
        memcpy(samples + (cells[c].y * WIDTH + cells[c].x) * CHANNELS, glyph, sizeof glyph);

    unsigned refusal = rungtwine_cells_error_correction(WIDTH, HEIGHT, CHANNELS, samples, SAMPLES, stencil, TEXELS, room, ROOM, cells, modes, settings, CELLS,
                                                        colours, SEGMENTS, coords, 2 * SEGMENTS, ends, CONTOURS, &cell, &place, &protected_cells,
                                                        &error_cells, &corner_cells, &tests);
    if (refusal != 0) {
        printf("refused %u, cell %zu, place %zu\n", refusal, cell, place);
        return 1;
    }
    for (size_t c = 0; c < CELLS; c++)
        printf("cell %zu: protected %zu error %zu corner %zu\n", c, count(stencil, &cells[c], RUNGTWINE_PROTECTED), count(stencil, &cells[c], RUNGTWINE_ERROR),
               count(stencil, &cells[c], RUNGTWINE_CORNER));
    printf("all: protected %zu error %zu corner %zu tests %zu\n", protected_cells, error_cells, corner_cells, tests);
    for (size_t k = 0; k < TEXELS; k++) {
        putchar(mark(stencil[k]));
        if ((k + 1) % WIDTH == 0)
            putchar('\n');
    }

    cells[1].x = 1;
    refusal = rungtwine_cells_check(WIDTH, HEIGHT, CHANNELS, samples, SAMPLES, stencil, TEXELS, room, ROOM, cells, modes, settings, CELLS, colours, SEGMENTS,
                                    coords, 2 * SEGMENTS, ends, CONTOURS, &cell, &place);
    printf("cell 1 one to the left: refused %u, cell %zu, place %zu\n", refusal, cell, place);
    return 0;
}
