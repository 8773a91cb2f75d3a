/*
 * What the programs for `tools/glyph` above the proved library share: how they end, memory, and the bytes of standard input and output, lowest first.
 */
#ifndef FRONT_H
#define FRONT_H

#include <errno.h>
#include <stdarg.h>
#include <stdint.h>
#include <stdio.h>
#include <stdlib.h>
#include <string.h>

static _Noreturn void fail(const char *format, ...)
{
    va_list words;
    fputs("glyph: ", stderr);
    va_start(words, format);
    vfprintf(stderr, format, words);
    va_end(words);
    fputc('\n', stderr);
    exit(1);
}

/* Zeroed space for so many, and for one where there are none: the library wants no null. */
static void *space(size_t count, size_t size)
{
    void *p = calloc(count > 0 ? count : 1, size);
    if (p == NULL)
        fail("there is no memory for %zu times %zu bytes", count, size);
    return p;
}

/* Reads so many bytes, no fewer. */
static void read_bytes(void *bytes, size_t length, const char *what)
{
    if (fread(bytes, 1, length, stdin) != length)
        fail("standard input %s %s", ferror(stdin) ? "cannot be read in" : "ends in", what);
}

/* Nothing follows what was read last. */
static void read_end(const char *what)
{
    if (getchar() != EOF)
        fail("standard input goes on after %s", what);
}

static void write_bytes(const void *bytes, size_t length)
{
    if (fwrite(bytes, 1, length, stdout) != length)
        fail("the answer cannot be written: %s", strerror(errno));
}

static uint32_t number(const unsigned char *b)
{
    return (uint32_t)b[3] << 24 | (uint32_t)b[2] << 16 | (uint32_t)b[1] << 8 | b[0];
}

/* The floats from the form's order of bytes to this machine's, and back. */
static void turn(float *values, size_t count)
{
    for (size_t i = 0; i < count; i++) {
        unsigned char b[4];
        memcpy(b, &values[i], 4);
        uint32_t bits = number(b);
        memcpy(&values[i], &bits, 4);
    }
}

static void write_number(uint64_t n, size_t length)
{
    unsigned char b[8];
    for (size_t i = 0; i < length; i++)
        b[i] = (unsigned char)(n >> 8 * i);
    write_bytes(b, length);
}

/* The head of an answer: the library's number and place. */
static void write_verdict(unsigned refusal, size_t place)
{
    write_number(refusal, 4);
    write_number(place, 8);
}

static void write_end(void)
{
    if (fflush(stdout) != 0)
        fail("the answer cannot be written: %s", strerror(errno));
}

#endif
