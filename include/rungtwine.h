/* The error-correction pass of a multi-channel distance field by two engines, the pass on the cells of a sheet, the correction of signs before it, a field as
 * bytes and back, a view of texels and the channel of a texel's median, proved against their definitions. */
#ifndef RUNGTWINE_H
#define RUNGTWINE_H

#include <stddef.h>
#include <stdint.h>

#ifdef __cplusplus
extern "C" {
#endif

/* Modes. */
#define RUNGTWINE_DISABLED 0
#define RUNGTWINE_INDISCRIMINATE 1
#define RUNGTWINE_EDGE_PRIORITY 2
#define RUNGTWINE_EDGE_ONLY 3

/* Bits of a stencil cell. A cell with RUNGTWINE_CORNER has RUNGTWINE_PROTECTED too: a corner protects its texel in mode EdgePriority, whether or not an
 * edge does as well. One that has RUNGTWINE_PROTECTED alone of the two is protected by an edge, or by the mode EdgeOnly. */
#define RUNGTWINE_ERROR 1
#define RUNGTWINE_PROTECTED 2
#define RUNGTWINE_CORNER 4

/*
 * Corrects `samples` in place: width x height texels, row 0 at the bottom, `channels` (3 or 4) interleaved. The old contents of `stencil`, one byte
 * a texel, do not matter, nor do those of `room`, which is lent for two rows of medians: 2 * width elements or more. `ratio` is the least deviation ratio;
 * the three lengths are those of a pixel's step to the side, up and diagonally, in units of the samples. `colours` has a byte for each segment, bits 0 to 2
 * its channels; `coords` the x and y of each segment's start in pixel units; `ends` for each contour the number of segments up to its end.
 *
 * Answers 0 and writes the stencil, the samples of flagged texels, +0.0 to every element of the room, place 0, and four counts: `protected_cells`,
 * `error_cells` and `corner_cells` of the cells that have one bit, and `tests` of the range tests that were made. Otherwise it answers the number of the
 * first check that fails, writes its place and four zero counts, and leaves samples, stencil and room as they were. In this order:
 *
 *   1  channels not 3 or 4
 *   2  width or height outside 1 to 4096
 *   3  samples_len not width * height * channels
 *   4  stencil_len not width * height
 *   60 room_len below 2 * width
 *   5  mode above 3 (place 0), or the ratio (1) or a length (2, 3, 4) NaN, below 0 or above 1048576
 *   6  a sample NaN, infinite or of size above 1048576 (its index)
 *   7  coords_len not twice colours_len, or over 65536 segments
 *   8  an end below the one before or above the number of segments (its index), or the last end not that number (ends_len)
 *   9  a colour above 7, or a coordinate NaN, infinite or of size above 1048576 (the segment)
 *
 * A range test decides about one point on the way from a texel to a neighbour; `tests` counts each one that is made over the whole bitmap, whatever it
 * finds. A texel asks the neighbours that there are in this order, up to the first with an artifact: left, below, right, above, lower left, lower right,
 * upper left, upper right. A neighbour whose median lies farther from 0.5 than the texel's own (both differences rounded to float) has no tests. The pairs of
 * channels 1 and 0, 2 and 1, 0 and 2 of any other come in this order, up to the first with an artifact. Beside, below and above the texel a pair has one
 * test if its crossing lies strictly between 0.01 and 0.99. On a diagonal each root of the pair strictly between these has one, and one more for each of the
 * pair's two turning points strictly between 0 and 1. All tests of a root are made; the second root is left out where the first has an artifact.
 * So there are at most 84 for a texel, at most 84 * width * height in all, at least one for a flagged texel, and none in mode Disabled.
 *
 * There is no further demand on the numbers. Each pointer has to be good for the length beside it (`place` and the four counts for one), not null and
 * aligned for its type, also where the length is 0; what is written must overlap nothing else.
 */
uint8_t rungtwine_error_correction(
    size_t width, size_t height, size_t channels,
    float *samples, size_t samples_len,
    uint8_t *stencil, size_t stencil_len,
    float *room, size_t room_len,
    uint8_t mode, double ratio, double horizontal, double vertical, double diagonal,
    const uint8_t *colours, size_t colours_len,
    const double *coords, size_t coords_len,
    const size_t *ends, size_t ends_len,
    size_t *place, size_t *protected_cells, size_t *error_cells, size_t *corner_cells, size_t *tests);

/*
 * The same by a second engine, which is slow and written to be read, to hold the first against: for every texel it works out all neighbours, pairs of
 * channels, roots and range tests, with no early stop. It takes the same arguments less `tests`. For the same arguments it leaves the same flags, stencil,
 * samples, room and counts of cells, and answers the same refusals at the same places: both are proved against the same definitions. It counts no range
 * tests, and keeps nothing in the room. What is said above of the pointers holds here too, with three counts.
 */
uint8_t rungtwine_plain_error_correction(
    size_t width, size_t height, size_t channels,
    float *samples, size_t samples_len,
    uint8_t *stencil, size_t stencil_len,
    float *room, size_t room_len,
    uint8_t mode, double ratio, double horizontal, double vertical, double diagonal,
    const uint8_t *colours, size_t colours_len,
    const double *coords, size_t coords_len,
    const size_t *ends, size_t ends_len,
    size_t *place, size_t *protected_cells, size_t *error_cells, size_t *corner_cells);

/* Where a cell of a sheet lies: the column and the row of its lower left texel, its width and its height; and its run of each outline list: where the run starts
 * in the list and how many it takes. */
typedef struct {
    size_t x, y, width, height;
    size_t colours_from, colours_count;
    size_t coords_from, coords_count;
    size_t ends_from, ends_count;
} rungtwine_cell;

/* The settings of a cell: the least deviation ratio and the three lengths. */
typedef struct {
    double ratio, horizontal, vertical, diagonal;
} rungtwine_settings;

/* An array of cells is ten numbers a cell and nothing else, one of settings four. */
typedef char rungtwine_cell_is_ten_numbers[sizeof(rungtwine_cell) == 10 * sizeof(size_t) ? 1 : -1];
typedef char rungtwine_settings_are_four_numbers[sizeof(rungtwine_settings) == 4 * sizeof(double) ? 1 : -1];

/*
 * Whole sheets: corrects each cell of a sheet in place, as if the cell were a bitmap alone. What it is given:
 *
 *   width, height, channels, samples, stencil   the sheet, laid out as the bitmap above
 *   room       as above, by the sheet's width: 2 * width elements or more
 *   cells      ten numbers a cell, those of rungtwine_cell in its order: x, y, width, height, then for colours, coords and ends where its run starts and
 *              how many it takes
 *   modes      a mode a cell: there are modes_len cells
 *   settings   four numbers a cell, those of rungtwine_settings in its order
 *   colours, coords, ends   the outlines of all cells. A cell has the segments and contours of its own runs, counted from the run's start: an end of 3 is
 *              the cell's first three segments, and a segment's start is in pixel units from the cell's own lower left corner. A run of coords counts
 *              numbers, two a segment. Runs may overlap: two cells with the same glyph can share one.
 *
 * rungtwine_cells_error_correction below takes arrays of structs and is otherwise the same.
 *
 * Nothing is written until all checks of all cells pass. Then it answers 0, and for each cell the samples and stencil bytes are those that
 * rungtwine_error_correction leaves of the cell cut out. Samples outside every cell stay, stencil bytes there become 0, and every element of the room is
 * +0.0. It writes cell 0, place 0 and the four counts, each the sum over the cells; no cell at all is accepted. Cells in another order give the same sheet.
 * Otherwise it answers the number of the first check that fails, writes the number of its cell, from 0, its place and four zero counts, and leaves samples,
 * stencil and room as they were. In this order:
 *
 *   1  channels not 3 or 4
 *   50 width or height outside 1 to 4096, samples_len not width * height * channels, stencil_len not width * height, more than 4096 cells,
 *      cells_len not 10 * modes_len, or settings_len not 4 * modes_len
 *   60 room_len below 2 * width
 *   51 a cell empty or not inside the sheet (the first such cell)
 *   52 two cells overlap (the first that overlaps an earlier one)
 *   53 a run not inside its list (the first cell with one)
 *   then checks 5 to 9 above of each cell by itself, first cell first: the number, the cell, and a place that counts within the cell, its samples row by row
 *   as if it were cut out, its segments and ends from its runs' starts
 *
 * Checks 1, 50 and 60 name cell 0, and checks 1, 50 to 53 and 60 place 0. There is no further demand on the numbers. Each pointer has to be good for the length
 * beside it (`cell`, `place` and the four counts for one), not null and aligned for its type, also where the length is 0; what is written must overlap nothing
 * else.
 */
uint8_t rungtwine_sheet_error_correction(
    size_t width, size_t height, size_t channels,
    float *samples, size_t samples_len,
    uint8_t *stencil, size_t stencil_len,
    float *room, size_t room_len,
    const size_t *cells, size_t cells_len,
    const uint8_t *modes, size_t modes_len,
    const double *settings, size_t settings_len,
    const uint8_t *colours, size_t colours_len,
    const double *coords, size_t coords_len,
    const size_t *ends, size_t ends_len,
    size_t *cell, size_t *place, size_t *protected_cells, size_t *error_cells, size_t *corner_cells, size_t *tests);

/*
 * All checks of rungtwine_sheet_error_correction, and nothing else: the same number, cell and place for the same arguments, 0 where it would be accepted.
 * For a caller who corrects a sheet part by part and wants to know beforehand. The room is not written. What is said above of the pointers holds here too.
 */
uint8_t rungtwine_sheet_check(
    size_t width, size_t height, size_t channels,
    const float *samples, size_t samples_len,
    const uint8_t *stencil, size_t stencil_len,
    const float *room, size_t room_len,
    const size_t *cells, size_t cells_len,
    const uint8_t *modes, size_t modes_len,
    const double *settings, size_t settings_len,
    const uint8_t *colours, size_t colours_len,
    const double *coords, size_t coords_len,
    const size_t *ends, size_t ends_len,
    size_t *cell, size_t *place);

/* rungtwine_sheet_error_correction with `count` cells as arrays of structs. */
static inline uint8_t rungtwine_cells_error_correction(
    size_t width, size_t height, size_t channels,
    float *samples, size_t samples_len,
    uint8_t *stencil, size_t stencil_len,
    float *room, size_t room_len,
    const rungtwine_cell *cells, const uint8_t *modes, const rungtwine_settings *settings, size_t count,
    const uint8_t *colours, size_t colours_len,
    const double *coords, size_t coords_len,
    const size_t *ends, size_t ends_len,
    size_t *cell, size_t *place, size_t *protected_cells, size_t *error_cells, size_t *corner_cells, size_t *tests)
{
    return rungtwine_sheet_error_correction(width, height, channels, samples, samples_len, stencil, stencil_len, room, room_len, (const size_t *)cells, 10 * count,
                                            modes, count, (const double *)settings, 4 * count, colours, colours_len, coords, coords_len, ends, ends_len, cell,
                                            place, protected_cells, error_cells, corner_cells, tests);
}

/* rungtwine_sheet_check with `count` cells as arrays of structs. */
static inline uint8_t rungtwine_cells_check(
    size_t width, size_t height, size_t channels,
    const float *samples, size_t samples_len,
    const uint8_t *stencil, size_t stencil_len,
    const float *room, size_t room_len,
    const rungtwine_cell *cells, const uint8_t *modes, const rungtwine_settings *settings, size_t count,
    const uint8_t *colours, size_t colours_len,
    const double *coords, size_t coords_len,
    const size_t *ends, size_t ends_len,
    size_t *cell, size_t *place)
{
    return rungtwine_sheet_check(width, height, channels, samples, samples_len, stencil, stencil_len, room, room_len, (const size_t *)cells, 10 * count, modes,
                                 count, (const double *)settings, 4 * count, colours, colours_len, coords, coords_len, ends, ends_len, cell, place);
}

/*
 * Turns what is inside out in `samples` to the other side, in place, as a step before the error correction: width x height texels, row 0 at the bottom,
 * `channels` (1, 3 or 4) interleaved. `zero` is the value on the outline. `filled` has a byte a texel: 1 where the texel is filled, so that its values belong
 * above `zero`, and 0 where it is not. The old contents of `matches`, a signed byte a texel, do not matter.
 *
 * A value v is flipped to (zero + zero) - v, each operation in float. With one channel a value is flipped where v > zero is not what `filled` says. With 3 or 4
 * the first three channels of a texel go together, by their median m:
 *
 *   m == zero                        match 0; flipped where the matches left, right, below and above, none beyond the border, have a sum below 0
 *   m > zero not as `filled` says    match -1; flipped
 *   otherwise                        match 1; kept
 *
 * The fourth channel is flipped where its own value v > zero is not what `filled` says, whatever the three do. A flipped value may be larger in size than
 * 1048576: the error correction then refuses it (6).
 *
 * Answers 0 and writes the samples, place 0, and `matches`: the match of each texel as above, as it was before any sum, and zeros with one channel. Otherwise
 * it answers the number of the first check that fails, writes its place, and leaves samples and matches as they were. In this order:
 *
 *   1  channels not 1, 3 or 4
 *   2  width or height outside 1 to 4096
 *   3  samples_len not width * height * channels
 *   6  a sample NaN, infinite or of size above 1048576 (its index)
 *   10 zero NaN or of size above 1048576
 *   11 filled_len not width * height, or a byte of it above 1
 *   12 matches_len not width * height
 *
 * All but 6 have place 0. There is no further demand on the numbers. Each pointer has to be good for the length beside it (`place` for one), not null and
 * aligned for its type, also where the length is 0; what is written must overlap nothing else.
 */
uint8_t rungtwine_sign_correction(
    size_t width, size_t height, size_t channels,
    float *samples, size_t samples_len,
    float zero,
    const uint8_t *filled, size_t filled_len,
    int8_t *matches, size_t matches_len,
    size_t *place);

/*
 * Samples as bytes, for a device that keeps a field in 8 bits a channel: any number of them, of any number of channels. Each sample v is held to 0..1, and its
 * byte is the k from 0 to 255 whose distance from 255 * v is least, judged on the exact value of v; at a tie, which only v = 0.5 is, the even one. So k / 255 is
 * at most half a 255th from the held value, a larger sample has no smaller byte, and the byte of -0 and of every value below 1 / 510 is 0.
 *
 * Answers 0 and writes the bytes and place 0. Otherwise it answers the number of the first check that fails, writes its place, and leaves the bytes as they
 * were. In this order:
 *
 *   40 bytes_len not samples_len (place 0)
 *   6  a sample NaN, infinite or of size above 1048576 (its index)
 *
 * There is no further demand on the numbers. Each pointer has to be good for the length beside it (`place` for one), not null and aligned for its type, also
 * where the length is 0; what is written must overlap nothing else.
 */
uint8_t rungtwine_samples_to_bytes(
    const float *samples, size_t samples_len,
    uint8_t *bytes, size_t bytes_len,
    size_t *place);

/*
 * And back: each byte k becomes the float nearest to k / 255, which is from 0 to 1, is a good sample for every function here, and has k for its byte.
 *
 * Answers 0 and writes the samples and place 0. Where samples_len is not bytes_len it answers 40, writes place 0, and leaves the samples as they were. Every
 * byte is good. Pointers are as above.
 */
uint8_t rungtwine_bytes_to_samples(
    const uint8_t *bytes, size_t bytes_len,
    float *samples, size_t samples_len,
    size_t *place);

/* A part of a bitmap: `length` samples from `samples` on. */
typedef struct {
    const float *samples;
    size_t length;
} rungtwine_texel;

/*
 * Leaves in `texel` all channels of texel x, y: of `corrected` where bit RUNGTWINE_ERROR of the texel's stencil cell is set, whatever else is set there,
 * otherwise of `original`, whatever the samples are. It is a part of that bitmap and no copy: `samples` points at the bitmap's sample
 * (y * width + x) * channels, and `length` is `channels`. Where one of the checks 1 to 4 above fails for either bitmap, or x >= width, or y >= height,
 * it is an empty part of `original`: `samples` is `original` and `length` is 0.
 *
 * There is no further demand on the numbers. Each pointer has to be good for the length beside it (`texel` for one), not null and aligned for its type,
 * also where the length is 0; the two bitmaps may be one. `texel` overlaps nothing else and holds a part before the call, such as { original, 0 },
 * which is not read. What it holds after is good for as long as the bitmaps are and nobody writes to them.
 */
void rungtwine_texel_view(
    size_t width, size_t height, size_t channels,
    const float *original, size_t original_len,
    const float *corrected, size_t corrected_len,
    const uint8_t *stencil, size_t stencil_len,
    size_t x, size_t y,
    rungtwine_texel *texel);

/*
 * Answers which channel carries a texel's median: the lowest of 0, 1 and 2, whose values are `red`, `green` and `blue`, whose value compares equal to
 * the median of the three (-0 equals 0), and 0 if all three are NaN. Of a flagged texel ask before the correction, or of the original: afterwards
 * its three channels are equal, and it is 0. There is no demand on the numbers.
 */
size_t rungtwine_texel_channel(float red, float green, float blue);

#ifdef __cplusplus
}
#endif

#endif
