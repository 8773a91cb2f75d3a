/*
 * sheet SHEET [OUT]: corrects the cells of a sheet in place through the proved library. `./rungtwine sheet` builds and runs it, `./rungtwine --help` tells the words
 * of a description, and examples/pair.sheet is one.
 *
 * All checks of all cells come first. Then the cells are corrected band by band: a band is the rows of some cells that no other cell shares, so it is a sheet
 * by itself and a part of the samples, and nothing is copied. OUT is written last, under another name beside its own and then renamed, and not at all where
 * anything is refused. Exit status: 0 done, 1 refused or a file is bad, 2 the words are.
 */
#define _XOPEN_SOURCE 700
#include <ctype.h>
#include <errno.h>
#include <fcntl.h>
#include <math.h>
#include <stdarg.h>
#include <stdbool.h>
#include <stdint.h>
#include <stdio.h>
#include <stdlib.h>
#include <string.h>
#include <sys/stat.h>
#include <time.h>
#include <unistd.h>

#include "../include/rungtwine.h"

enum { BAD = 1, USAGE = 2 };
enum { SIDE_LIMIT = 65535, CHANNEL_LIMIT = 255, BYTE_LIMIT = 255, CELL_LIMIT = 4096, SHOWN = 40, PFM_HEAD = 200 };
#define NUMBER_LIMIT 4294967295u /* of a cell's place and size */

static const char *const MODES[] = {"Disabled", "Indiscriminate", "EdgePriority", "EdgeOnly"};
static const char *const COLOURS[] = {"black", "red", "green", "yellow", "blue", "magenta", "cyan", "white"};
static const char *const LENGTHS[] = {"horizontal", "vertical", "diagonal"};

/* ---- how it ends, and memory */

static _Noreturn void fail(int status, const char *format, ...)
{
    va_list words;
    fflush(stdout);
    fputs("rungtwine: ", stderr);
    va_start(words, format);
    vfprintf(stderr, format, words);
    va_end(words);
    fputc('\n', stderr);
    exit(status);
}

/* a * b, where no size is too large to be told */
static size_t times(size_t a, size_t b)
{
    if (b != 0 && a > SIZE_MAX / b)
        fail(BAD, "%zu times %zu is more than this machine can count", a, b);
    return a * b;
}

/* Zeroed space for so many, and for one where there are none: the library wants no null. */
static void *space(size_t count, size_t size)
{
    void *p = calloc(count > 0 ? count : 1, size);
    if (p == NULL)
        fail(BAD, "there is no memory for %zu times %zu bytes", count, size);
    return p;
}

/* The list with space for one more than its count; it doubles where it is full. */
static void *one_more(void *list, size_t count, size_t size)
{
    if ((count & (count - 1)) != 0)
        return list;
    list = realloc(list, times(count > 0 ? times(count, 2) : 1, size));
    if (list == NULL)
        fail(BAD, "there is no memory for one more than %zu times %zu bytes", count, size);
    return list;
}

/* ---- the words of a description */

typedef struct {
    const char *text;
    size_t length, line, column;
} word;

typedef struct {
    const char *name; /* of the file */
    char *text; /* ends in a zero byte */
    size_t length, at, line, column;
    word next; /* of length 0 at the end */
} reader;

/* Moves to the next word, past blanks and comments. A column is a character: the later bytes of one count for nothing. */
static void find_next(reader *r)
{
    bool comment = false;
    while (r->at < r->length && (comment || r->text[r->at] == '#' || isspace((unsigned char)r->text[r->at]))) {
        unsigned char c = (unsigned char)r->text[r->at++];
        comment = c != '\n' && (comment || c == '#');
        r->column += (c & 0xC0) != 0x80;
        if (c == '\n') {
            r->line++;
            r->column = 1;
        }
    }
    r->next = (word){r->text + r->at, 0, r->line, r->column};
    while (r->at < r->length && r->text[r->at] != '#' && !isspace((unsigned char)r->text[r->at])) {
        r->column += ((unsigned char)r->text[r->at++] & 0xC0) != 0x80;
        r->next.length++;
    }
}

/* The word for a message: cut where it is long, and without what would not print. */
static const char *shown(word w)
{
    static char text[SHOWN + 4];
    size_t n = w.length < SHOWN ? w.length : SHOWN;
    for (size_t i = 0; i < n; i++)
        text[i] = (unsigned char)w.text[i] < 32 || w.text[i] == 127 ? '?' : w.text[i];
    strcpy(text + n, n < w.length ? "..." : "");
    return text;
}

static _Noreturn void bad(const reader *r, word at, const char *format, ...)
{
    char why[1024];
    va_list words;
    va_start(words, format);
    vsnprintf(why, sizeof why, format, words);
    va_end(words);
    fail(BAD, "%s:%zu:%zu: %s", r->name, at.line, at.column, why);
}

static bool is(word w, const char *text)
{
    return w.length == strlen(text) && memcmp(w.text, text, w.length) == 0;
}

/* The same, whatever the case of the letters. */
static bool is_named(word w, const char *name)
{
    if (w.length != strlen(name))
        return false;
    for (size_t i = 0; i < w.length; i++)
        if (tolower((unsigned char)w.text[i]) != tolower((unsigned char)name[i]))
            return false;
    return true;
}

static word take(reader *r, const char *what)
{
    word w = r->next;
    if (w.length == 0)
        bad(r, w, "the file ends where %s should stand", what);
    find_next(r);
    return w;
}

static word keyword(reader *r, const char *text)
{
    if (r->next.length == 0)
        bad(r, r->next, "'%s' should stand here, and the file ends", text);
    if (!is(r->next, text))
        bad(r, r->next, "'%s' should stand here, not '%s'", text, shown(r->next));
    return take(r, text);
}

/* A whole number, or the place of a name among names. */
static size_t whole(reader *r, const char *what, size_t most, const char *const *names, size_t count)
{
    word w = take(r, what);
    char listed[128] = "";
    for (size_t i = 0, n = 0; i < count && n < sizeof listed; i++) {
        if (is_named(w, names[i]))
            return i;
        n += (size_t)snprintf(listed + n, sizeof listed - n, "%s%s%s", i > 0 ? ", " : "one of ", names[i], i + 1 < count ? "" : ", or ");
    }
    size_t n = 0;
    bool high = false;
    for (size_t i = 0; i < w.length; i++) {
        if (w.text[i] < '0' || w.text[i] > '9')
            bad(r, w, "'%s' is not %s: %sa whole number up to %zu", shown(w), what, listed, most);
        size_t digit = (size_t)(w.text[i] - '0');
        high = high || n > (most - digit) / 10;
        n = high ? most : 10 * n + digit;
    }
    if (high)
        bad(r, w, "%s is %s, and at most %zu can be written", what, shown(w), most);
    return n;
}

static size_t digits(const char *text, size_t from, size_t length)
{
    size_t n = from;
    while (n < length && text[n] >= '0' && text[n] <= '9')
        n++;
    return n - from;
}

/* A decimal as Python has it: a sign, digits with a point somewhere, an exponent; or a sign and inf or nan. */
static bool is_decimal(const char *text, size_t length)
{
    size_t at = length > 0 && (text[0] == '-' || text[0] == '+') ? 1 : 0;
    if (length - at == 3 && (memcmp(text + at, "inf", 3) == 0 || memcmp(text + at, "nan", 3) == 0))
        return true;
    size_t before = digits(text, at, length), after = 0;
    at += before;
    if (at < length && text[at] == '.') {
        after = digits(text, at + 1, length);
        at += 1 + after;
    }
    if (before + after == 0)
        return false;
    if (at < length && (text[at] == 'e' || text[at] == 'E')) {
        at++;
        if (at < length && (text[at] == '-' || text[at] == '+'))
            at++;
        size_t power = digits(text, at, length);
        if (power == 0)
            return false;
        at += power;
    }
    return at == length;
}

/* A float: a decimal, or its bits. No letter or digit follows a word, so strtod ends where it does. */
static double number(reader *r, const char *what)
{
    word w = take(r, what);
    if (w.length >= 2 && w.text[0] == '0' && (w.text[1] == 'x' || w.text[1] == 'X')) {
        uint64_t bits = 0;
        bool good = w.length == 18;
        for (size_t i = 2; good && i < w.length; i++) {
            int c = tolower((unsigned char)w.text[i]);
            good = isxdigit(c) != 0;
            bits = 16 * bits + (uint64_t)(c <= '9' ? c - '0' : c - 'a' + 10);
        }
        if (!good)
            bad(r, w, "'%s' is not the bits of %s: 0x and 16 hex digits", shown(w), what);
        double value;
        memcpy(&value, &bits, sizeof value);
        return value;
    }
    if (!is_decimal(w.text, w.length))
        bad(r, w, "'%s' is not %s: a decimal, or 0x and 16 hex digits", shown(w), what);
    return strtod(w.text, NULL);
}

/* ---- the description */

typedef struct {
    size_t width, height, channels;
    word size, file;
    size_t count;
    rungtwine_cell *cells;
    uint8_t *modes;
    rungtwine_settings *settings;
    word *places;
    uint8_t *colours; /* of all cells, as the coordinates and the ends */
    double *coords;
    size_t *ends;
    size_t segments, contours;
} sheet;

/* What is said of the mode, the ratio and the lengths. */
typedef struct {
    bool has_mode, has_ratio, has_lengths;
    uint8_t mode;
    rungtwine_settings settings;
} choice;

static void once(const reader *r, bool has)
{
    if (has)
        bad(r, r->next, "'%s' stands here for the second time", shown(r->next));
}

/* Reads a mode, a ratio or lengths, where one stands here. */
static bool read_choice(reader *r, choice *c)
{
    if (is(r->next, "mode")) {
        once(r, c->has_mode);
        find_next(r);
        c->mode = (uint8_t)whole(r, "the mode", BYTE_LIMIT, MODES, sizeof MODES / sizeof *MODES);
        return c->has_mode = true;
    }
    if (is(r->next, "ratio")) {
        once(r, c->has_ratio);
        find_next(r);
        c->settings.ratio = number(r, "the ratio");
        return c->has_ratio = true;
    }
    if (is(r->next, "lengths")) {
        once(r, c->has_lengths);
        find_next(r);
        c->settings.horizontal = number(r, "the horizontal length");
        c->settings.vertical = number(r, "the vertical length");
        c->settings.diagonal = number(r, "the diagonal length");
        return c->has_lengths = true;
    }
    return false;
}

static bool at_keyword(const reader *r)
{
    return r->next.length == 0 || is(r->next, "mode") || is(r->next, "ratio") || is(r->next, "lengths") || is(r->next, "contour") || is(r->next, "cell");
}

/* Reads a contour into the lists and the cell's runs, where one stands here. */
static bool read_contour(reader *r, sheet *s, rungtwine_cell *cell)
{
    if (!is(r->next, "contour"))
        return false;
    find_next(r);
    while (!at_keyword(r)) {
        s->colours = one_more(s->colours, s->segments, sizeof *s->colours);
        s->coords = one_more(s->coords, s->segments, 2 * sizeof *s->coords);
        s->colours[s->segments] = (uint8_t)whole(r, "a colour", BYTE_LIMIT, COLOURS, sizeof COLOURS / sizeof *COLOURS);
        s->coords[2 * s->segments] = number(r, "a segment's x");
        s->coords[2 * s->segments + 1] = number(r, "a segment's y");
        s->segments++;
        cell->colours_count++;
        cell->coords_count += 2;
    }
    s->ends = one_more(s->ends, s->contours, sizeof *s->ends);
    s->ends[s->contours++] = cell->colours_count;
    cell->ends_count++;
    return true;
}

static void need_choice(const reader *r, const sheet *s, word place, bool has, const char *what)
{
    if (!has)
        bad(r, place, "cell %zu has no %s, and there is none before the first cell", s->count, what);
}

static void read_cell(reader *r, sheet *s, const choice *common)
{
    word place = keyword(r, "cell");
    rungtwine_cell cell = {.colours_from = s->segments, .coords_from = 2 * s->segments, .ends_from = s->contours};
    cell.x = whole(r, "the cell's x", NUMBER_LIMIT, NULL, 0);
    cell.y = whole(r, "the cell's y", NUMBER_LIMIT, NULL, 0);
    cell.width = whole(r, "the cell's width", NUMBER_LIMIT, NULL, 0);
    cell.height = whole(r, "the cell's height", NUMBER_LIMIT, NULL, 0);
    choice own = {0};
    while (read_choice(r, &own) || read_contour(r, s, &cell))
        ;
    need_choice(r, s, place, own.has_mode || common->has_mode, "mode");
    need_choice(r, s, place, own.has_ratio || common->has_ratio, "ratio");
    need_choice(r, s, place, own.has_lengths || common->has_lengths, "lengths");
    rungtwine_settings settings = own.has_lengths ? own.settings : common->settings;
    settings.ratio = own.has_ratio ? own.settings.ratio : common->settings.ratio;
    s->cells = one_more(s->cells, s->count, sizeof *s->cells);
    s->modes = one_more(s->modes, s->count, sizeof *s->modes);
    s->settings = one_more(s->settings, s->count, sizeof *s->settings);
    s->places = one_more(s->places, s->count, sizeof *s->places);
    s->cells[s->count] = cell;
    s->modes[s->count] = own.has_mode ? own.mode : common->mode;
    s->settings[s->count] = settings;
    s->places[s->count] = place;
    s->count++;
}

static sheet read_sheet(reader *r)
{
    sheet s = {.cells = space(1, sizeof *s.cells), .modes = space(1, sizeof *s.modes), .settings = space(1, sizeof *s.settings), .places = space(1, sizeof *s.places),
               .colours = space(1, sizeof *s.colours), .coords = space(2, sizeof *s.coords), .ends = space(1, sizeof *s.ends)};
    choice common = {0};
    s.size = keyword(r, "sheet");
    s.width = whole(r, "the width", SIDE_LIMIT, NULL, 0);
    s.height = whole(r, "the height", SIDE_LIMIT, NULL, 0);
    s.channels = whole(r, "the number of channels", CHANNEL_LIMIT, NULL, 0);
    keyword(r, "samples");
    s.file = take(r, "the samples' file");
    while (read_choice(r, &common))
        ;
    while (is(r->next, "cell"))
        read_cell(r, &s, &common);
    if (r->next.length > 0)
        bad(r, r->next, "'%s' should stand here, not '%s'", s.count > 0 ? "mode', 'ratio', 'lengths', 'contour' or 'cell" : "mode', 'ratio', 'lengths' or 'cell", shown(r->next));
    return s;
}

static void free_sheet(sheet *s)
{
    free(s->cells);
    free(s->modes);
    free(s->settings);
    free(s->places);
    free(s->colours);
    free(s->coords);
    free(s->ends);
}

/* ---- files */

/* Opens a file that has a length, which is left in `length`. */
static FILE *opened(const char *name, uint64_t *length)
{
    struct stat about;
    FILE *f = fopen(name, "rb");
    if (f == NULL || fstat(fileno(f), &about) != 0)
        fail(BAD, "%s: cannot be read: %s", name, strerror(errno));
    if (!S_ISREG(about.st_mode))
        fail(BAD, "%s: is no file with a length", name);
    *length = (uint64_t)about.st_size;
    return f;
}

/* Reads so many bytes, no fewer. */
static void read_bytes(FILE *f, const char *name, void *bytes, size_t length)
{
    if (fread(bytes, 1, length, f) == length)
        return;
    if (ferror(f))
        fail(BAD, "%s: cannot be read: %s", name, strerror(errno));
    fail(BAD, "%s: became shorter while it was read", name);
}

static reader read_text(const char *name)
{
    uint64_t length;
    FILE *f = opened(name, &length);
    if (length > SIZE_MAX / 2)
        fail(BAD, "%s: has %llu bytes, which is too much", name, (unsigned long long)length);
    char *text = space((size_t)length + 1, 1);
    read_bytes(f, name, text, (size_t)length);
    fclose(f);
    reader r = {.name = name, .text = text, .length = (size_t)length, .line = 1, .column = 1};
    find_next(&r);
    return r;
}

/* How the samples' file is laid out, so that what is written is too. */
typedef struct {
    char *name;
    bool pfm, big_endian;
    unsigned char head[PFM_HEAD];
    size_t head_length;
} form;

static bool ends_in(const char *name, const char *ending)
{
    size_t n = strlen(name), m = strlen(ending);
    return n >= m && is_named((word){name + n - m, m, 0, 0}, ending);
}

/* The samples' file beside the description, unless its name is from the root. */
static char *beside(const char *description, word file)
{
    const char *slash = strrchr(description, '/');
    size_t folder = slash == NULL || file.text[0] == '/' ? 0 : (size_t)(slash - description) + 1;
    char *name = space(folder + file.length + 1, 1);
    memcpy(name, description, folder);
    memcpy(name + folder, file.text, file.length);
    return name;
}

/* The head of a PFM: four words with blanks between them and one blank after the last. */
static void read_head(const reader *r, const sheet *s, form *file, size_t length)
{
    const char *head = (const char *)file->head;
    word words[4];
    size_t at = 0;
    if (s->channels != 3)
        bad(r, s->size, "a PFM has three channels, and the sheet has %zu", s->channels);
    for (size_t i = 0; i < 4; i++) {
        while (i > 0 && at < length && isspace((unsigned char)head[at]))
            at++;
        words[i] = (word){head + at, 0, 0, 0};
        for (; at < length && !isspace((unsigned char)head[at]); at++)
            words[i].length++;
    }
    if (at >= length || words[3].length == 0 || !is_named(words[0], "PF"))
        fail(BAD, "%s: this is no PFM: it begins with PF, the width, the height and the byte order", file->name);
    if (!is(words[0], "PF"))
        fail(BAD, "%s: this PFM has one channel (%s), and three (PF) are needed", file->name, shown(words[0]));
    for (size_t i = 1; i <= 2; i++) {
        size_t n = 0, wanted = i == 1 ? s->width : s->height;
        for (size_t k = 0; k < words[i].length && n <= SIDE_LIMIT; k++)
            n = words[i].text[k] >= '0' && words[i].text[k] <= '9' ? 10 * n + (size_t)(words[i].text[k] - '0') : SIDE_LIMIT + 1;
        if (n != wanted)
            fail(BAD, "%s: this PFM has the %s '%s', and the sheet has %zu", file->name, i == 1 ? "width" : "height", shown(words[i]), wanted);
    }
    double scale = is_decimal(words[3].text, words[3].length) ? strtod(words[3].text, NULL) : 0;
    if (scale == 0 || !isfinite(scale))
        fail(BAD, "%s: '%s' is not a scale, whose sign tells the byte order", file->name, shown(words[3]));
    file->big_endian = scale > 0;
    file->head_length = at + 1;
}

/* The samples from the file's byte order to this machine's, and back. */
static void turn(float *samples, size_t count, bool big_endian)
{
    for (size_t i = 0; i < count; i++) {
        unsigned char b[4];
        memcpy(b, &samples[i], 4);
        uint32_t bits = big_endian ? (uint32_t)b[0] << 24 | (uint32_t)b[1] << 16 | (uint32_t)b[2] << 8 | b[3]
                                   : (uint32_t)b[3] << 24 | (uint32_t)b[2] << 16 | (uint32_t)b[1] << 8 | b[0];
        memcpy(&samples[i], &bits, 4);
    }
}

static float *read_samples(const reader *r, const sheet *s, form *file, size_t count)
{
    *file = (form){.name = beside(r->name, s->file)};
    file->pfm = ends_in(file->name, ".pfm");
    if (!file->pfm && !ends_in(file->name, ".f32"))
        bad(r, s->file, "'%s' ends neither in .f32 nor in .pfm", shown(s->file));
    uint64_t length, wanted = times(count, 4);
    FILE *f = opened(file->name, &length);
    if (file->pfm) {
        size_t n = length < PFM_HEAD ? (size_t)length : PFM_HEAD;
        read_bytes(f, file->name, file->head, n);
        read_head(r, s, file, n);
        if (fseek(f, (long)file->head_length, SEEK_SET) != 0)
            fail(BAD, "%s: cannot be read: %s", file->name, strerror(errno));
    }
    uint64_t have = length - file->head_length;
    if (have != wanted)
        fail(BAD, "%s: has %llu bytes of samples, and the sheet's %zu x %zu x %zu take %llu: it is %llu too %s", file->name, (unsigned long long)have, s->width,
             s->height, s->channels, (unsigned long long)wanted, (unsigned long long)(have < wanted ? wanted - have : have - wanted), have < wanted ? "short" : "long");
    float *samples = space(count, sizeof *samples);
    read_bytes(f, file->name, samples, (size_t)wanted);
    fclose(f);
    turn(samples, count, file->big_endian);
    return samples;
}

/* ---- what is written */

/* OUT is a name that may be written: tells before the work what would fail after it. */
static char *check_out(const char *out, const char *description, const form *file)
{
    struct stat about, other;
    if (out[0] == '\0')
        fail(USAGE, "the name of OUT is empty");
    if (ends_in(out, file->pfm ? ".f32" : ".pfm"))
        fail(USAGE, "'%s': OUT takes the form of the samples, which are %s", out, file->pfm ? "a PFM" : "raw floats (.f32)");
    if (stat(out, &about) == 0) {
        if (S_ISDIR(about.st_mode))
            fail(USAGE, "'%s' is a folder", out);
        if (!S_ISREG(about.st_mode))
            fail(USAGE, "'%s' is there and is no plain file", out);
        if (stat(description, &other) == 0 && about.st_dev == other.st_dev && about.st_ino == other.st_ino)
            fail(USAGE, "'%s' is the description itself", out);
    }
    char *real = realpath(out, NULL); /* so that a link stays one */
    char *name = space(strlen(real != NULL ? real : out) + 1, 1);
    strcpy(name, real != NULL ? real : out);
    free(real);
    char *folder = space(strlen(name) + 2, 1);
    strcpy(folder, name);
    char *slash = strrchr(folder, '/');
    strcpy(slash != NULL ? slash + 1 : folder, ".");
    if (access(folder, W_OK | X_OK) != 0)
        fail(BAD, "%s: cannot be written: %s", out, strerror(errno));
    free(folder);
    return name;
}

/* Writes the file beside its place and renames it, so that there is a whole one or none. */
static void write_samples(const char *out, const form *file, float *samples, size_t count)
{
    size_t length = strlen(out) + 32;
    char *part = space(length, 1);
    snprintf(part, length, "%s.%ld.part", out, (long)getpid());
    int to = open(part, O_WRONLY | O_CREAT | O_EXCL, 0666);
    if (to < 0)
        fail(BAD, "%s: cannot be written: %s", part, strerror(errno));
    FILE *f = fdopen(to, "wb");
    turn(samples, count, file->big_endian);
    bool good = f != NULL && fwrite(file->head, 1, file->head_length, f) == file->head_length && fwrite(samples, sizeof *samples, count, f) == count
                && fflush(f) == 0 && fsync(to) == 0;
    int why = errno;
    if (f != NULL && fclose(f) != 0 && good) {
        good = false;
        why = errno;
    }
    if (good && rename(part, out) != 0) {
        good = false;
        why = errno;
    }
    if (!good) {
        unlink(part);
        fail(BAD, "%s: cannot be written: %s", out, strerror(why));
    }
    free(part);
}

/* ---- refusals in words */

static bool overlap(const rungtwine_cell *a, const rungtwine_cell *b)
{
    return a->x < b->x + b->width && b->x < a->x + a->width && a->y < b->y + b->height && b->y < a->y + a->height;
}

/* Tells what one of checks 5 to 9 has found in a cell. */
static void tell_cell(char *why, size_t size, const sheet *s, const float *samples, unsigned refusal, size_t c, size_t place)
{
    const rungtwine_cell *cell = &s->cells[c];
    if (refusal == 5 && place == 0) {
        snprintf(why, size, "its mode is %u, and 3 is the last", (unsigned)s->modes[c]);
    } else if (refusal == 5) {
        const double *four = (const double *)&s->settings[c];
        snprintf(why, size, "its %s%s is %g, not a number from 0 to 1048576", place == 1 ? "ratio" : LENGTHS[place - 2], place == 1 ? "" : " length", four[place - 1]);
    } else if (refusal == 6) {
        size_t texel = place / s->channels, x = texel % cell->width, y = texel / cell->width;
        size_t at = ((cell->y + y) * s->width + cell->x + x) * s->channels + place % s->channels;
        snprintf(why, size, "channel %zu of its texel %zu %zu, which is %zu %zu of the sheet, is %g, not a number of size up to 1048576", place % s->channels, x, y,
                 cell->x + x, cell->y + y, (double)samples[at]);
    } else if (refusal == 7) {
        snprintf(why, size, "it has %zu segments, and 65536 are the most", cell->colours_count);
    } else if (refusal == 9) {
        size_t k = cell->colours_from + place;
        if (s->colours[k] > 7)
            snprintf(why, size, "its segment %zu has the colour %u, and 7 is the last", place, (unsigned)s->colours[k]);
        else
            snprintf(why, size, "its segment %zu starts at %g %g, not at numbers of size up to 1048576", place, s->coords[2 * k], s->coords[2 * k + 1]);
    } else {
        snprintf(why, size, "its outline does not fit"); /* the lists that are made here always do */
    }
}

/* Ends with the refusal's number, cell and place, at the cell's word, and what is wrong. */
static _Noreturn void refuse(const reader *r, const sheet *s, const float *samples, unsigned refusal, size_t c, size_t place)
{
    char why[512];
    if (refusal == 1)
        bad(r, s->size, "refused 1, cell %zu, place %zu: the sheet has %zu channels, and there are 3 or 4", c, place, s->channels);
    if (refusal == 50 && s->count <= CELL_LIMIT)
        bad(r, s->size, "refused 50, cell %zu, place %zu: the sheet is %zu x %zu, and a side is from 1 to 4096", c, place, s->width, s->height);
    if (refusal == 50)
        bad(r, s->size, "refused 50, cell %zu, place %zu: the sheet has %zu cells, and %d are the most", c, place, s->count, CELL_LIMIT);
    if (refusal == 60) /* what is lent here never is */
        bad(r, s->size, "refused 60, cell %zu, place %zu: the room is less than two rows of %zu", c, place, s->width);
    const rungtwine_cell *cell = &s->cells[c];
    if (refusal == 51 && (cell->width == 0 || cell->height == 0)) {
        snprintf(why, sizeof why, "it is empty");
    } else if (refusal == 51) {
        snprintf(why, sizeof why, "it does not lie inside the sheet of %zu x %zu", s->width, s->height);
    } else if (refusal == 52) {
        size_t d = 0;
        while (d < c && !overlap(&s->cells[d], cell))
            d++;
        snprintf(why, sizeof why, "it overlaps cell %zu at %zu %zu, %zu x %zu", d, s->cells[d].x, s->cells[d].y, s->cells[d].width, s->cells[d].height);
    } else {
        tell_cell(why, sizeof why, s, samples, refusal, c, place);
    }
    bad(r, s->places[c], "refused %u, cell %zu, place %zu: cell %zu at %zu %zu, %zu x %zu: %s", refusal, c, place, c, cell->x, cell->y, cell->width, cell->height, why);
}

/* ---- bands */

typedef struct {
    size_t protected_cells, error_cells, corner_cells, tests;
} counts;

static void add(counts *sum, const counts *more)
{
    sum->protected_cells += more->protected_cells;
    sum->error_cells += more->error_cells;
    sum->corner_cells += more->corner_cells;
    sum->tests += more->tests;
}

static void print_counts(const counts *n)
{
    printf("protected %zu error %zu corner %zu", n->protected_cells, n->error_cells, n->corner_cells);
}

/* Those of a cell, from its bytes. */
static counts count_cell(const sheet *s, const uint8_t *stencil, const rungtwine_cell *cell)
{
    counts n = {0};
    for (size_t y = cell->y; y < cell->y + cell->height; y++) {
        const uint8_t *row = stencil + y * s->width;
        for (size_t x = cell->x; x < cell->x + cell->width; x++) {
            n.protected_cells += (row[x] & RUNGTWINE_PROTECTED) != 0;
            n.error_cells += (row[x] & RUNGTWINE_ERROR) != 0;
            n.corner_cells += (row[x] & RUNGTWINE_CORNER) != 0;
        }
    }
    return n;
}

/* A cell in the order in which bands are made of them. */
typedef struct {
    size_t y, cell;
} entry;

static int by_row(const void *a, const void *b)
{
    const entry *p = a, *q = b;
    return p->y != q->y ? (p->y > q->y) - (p->y < q->y) : (p->cell > q->cell) - (p->cell < q->cell);
}

static int by_number(const void *a, const void *b)
{
    const entry *p = a, *q = b;
    return (p->cell > q->cell) - (p->cell < q->cell);
}

/* Corrects the cells of a band, which has the rows from `low` to below `high`. The room is that of all bands: each is as wide as the sheet. */
static counts correct_band(const sheet *s, float *samples, uint8_t *stencil, float *room, const entry *band, size_t count, size_t low, size_t high)
{
    rungtwine_cell *cells = space(count, sizeof *cells);
    uint8_t *modes = space(count, sizeof *modes);
    rungtwine_settings *settings = space(count, sizeof *settings);
    for (size_t i = 0; i < count; i++) {
        cells[i] = s->cells[band[i].cell];
        cells[i].y -= low;
        modes[i] = s->modes[band[i].cell];
        settings[i] = s->settings[band[i].cell];
    }
    counts n;
    size_t cell, place, texels = (high - low) * s->width;
    unsigned refusal = rungtwine_cells_error_correction(
        s->width, high - low, s->channels, samples + low * s->width * s->channels, texels * s->channels, stencil + low * s->width, texels, room, 2 * s->width, cells,
        modes, settings, count, s->colours, s->segments, s->coords, 2 * s->segments, s->ends, s->contours, &cell, &place, &n.protected_cells, &n.error_cells,
        &n.corner_cells, &n.tests);
    if (refusal != 0)
        fail(BAD, "the library refuses a part of a sheet that it has accepted: %u, cell %zu, place %zu", refusal, band[cell].cell, place);
    free(settings);
    free(modes);
    free(cells);
    return n;
}

static double seconds(void)
{
    struct timespec now;
    clock_gettime(CLOCK_MONOTONIC, &now);
    return (double)now.tv_sec + 1e-9 * (double)now.tv_nsec;
}

/* Corrects the sheet band by band, from the bottom, and prints the cells of each as soon as it is done. Adds the time that the library took. */
static counts correct(const sheet *s, float *samples, uint8_t *stencil, float *room, double *taken)
{
    entry *order = space(s->count, sizeof *order);
    for (size_t c = 0; c < s->count; c++)
        order[c] = (entry){s->cells[c].y, c};
    qsort(order, s->count, sizeof *order, by_row);
    counts sum = {0};
    for (size_t from = 0, to; from < s->count; from = to) {
        size_t low = order[from].y, high = low;
        for (to = from; to < s->count && (to == from || order[to].y < high); to++) {
            const rungtwine_cell *cell = &s->cells[order[to].cell];
            high = cell->y + cell->height > high ? cell->y + cell->height : high;
        }
        qsort(order + from, to - from, sizeof *order, by_number);
        double start = seconds();
        counts band = correct_band(s, samples, stencil, room, order + from, to - from, low, high);
        *taken += seconds() - start;
        add(&sum, &band);
        for (size_t i = from; i < to; i++) {
            const rungtwine_cell *cell = &s->cells[order[i].cell];
            counts own = count_cell(s, stencil, cell);
            printf("%zu of %zu: cell %zu at %zu %zu, %zu x %zu: ", i + 1, s->count, order[i].cell, cell->x, cell->y, cell->width, cell->height);
            print_counts(&own);
            if (to - from == 1)
                printf(" tests %zu", band.tests);
            putchar('\n');
        }
        fflush(stdout);
    }
    free(order);
    return sum;
}

int main(int argc, char **argv)
{
    if (argc != 2 && argc != 3)
        fail(USAGE, "sheet takes SHEET [OUT], and %d words were given", argc > 0 ? argc - 1 : 0);
    reader r = read_text(argv[1]);
    sheet s = read_sheet(&r);
    form file;
    size_t texels = times(s.width, s.height), count = times(texels, s.channels), corrected = 0;
    float *samples = read_samples(&r, &s, &file, count);
    uint8_t *stencil = space(texels, sizeof *stencil);
    float *room = space(2 * s.width, sizeof *room); /* lent for two rows of medians */
    char *out = argc == 3 ? check_out(argv[2], argv[1], &file) : NULL;

    size_t cell, place;
    double start = seconds();
    unsigned refusal = rungtwine_cells_check(s.width, s.height, s.channels, samples, count, stencil, texels, room, 2 * s.width, s.cells, s.modes, s.settings, s.count,
                                             s.colours, s.segments, s.coords, 2 * s.segments, s.ends, s.contours, &cell, &place);
    double taken = seconds() - start;
    if (refusal != 0)
        refuse(&r, &s, samples, refusal, cell, place);
    counts sum = correct(&s, samples, stencil, room, &taken);
    for (size_t c = 0; c < s.count; c++)
        corrected += s.cells[c].width * s.cells[c].height;
    printf("%zu cell%s, %zu texels: ", s.count, s.count == 1 ? "" : "s", corrected);
    print_counts(&sum);
    printf(" tests %zu\n%.6f s, %.0f ns a texel\n", sum.tests, taken, corrected > 0 ? 1e9 * taken / (double)corrected : 0.0);
    if (out != NULL)
        write_samples(out, &file, samples, count);
    if (fflush(stdout) != 0 || ferror(stdout))
        fail(BAD, "what is printed cannot be written: %s", strerror(errno));
    free(out);
    free(room);
    free(stencil);
    free(samples);
    free(file.name);
    free_sheet(&s);
    free(r.text);
    return 0;
}
