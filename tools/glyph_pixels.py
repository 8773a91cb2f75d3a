"""Fields as bytes for tools/glyph: what the proved library makes of samples and of bytes, and how that is told."""
import struct

from glyph_forms import Bad, value_of
from glyph_library import ask, sample_words
from glyph_png import COLOUR_TYPES, from_png, to_png

TO_BYTES, TO_SAMPLES = 0, 1  # what tools/pixels is asked for


def rows_of(size, values):
    long = size[0] * size[2]
    return [values[long * y:long * (y + 1)] for y in range(size[1])]


def as_bytes(name, glyph):
    """The field's rows of bytes, from the bottom."""
    samples = [b for line in glyph.rows for b in line]
    given = struct.pack(f"<2I{len(samples)}I", TO_BYTES, len(samples), *samples)
    words = lambda number, place: sample_words(glyph, place) if number == 6 else "the lists do not fit"  # those that are made here always do
    return rows_of(glyph.size, ask(name, "pixels", given, len(samples), "the field was not made into bytes", words))


def as_samples(name, size, lines):
    """The rows of samples that rows of bytes stand for, each as its float's bits."""
    count = size[0] * size[1] * size[2]
    given = struct.pack("<2I", TO_SAMPLES, count) + b"".join(lines)
    answer = ask(name, "pixels", given, 4 * count, "the bytes were not made into a field", lambda number, place: "the lists do not fit")
    return rows_of(size, [*struct.unpack(f"<{count}I", answer)])


def from_pixels(name, data, glyph):
    """Gives the glyph the field that a PNG holds."""
    glyph.size, lines = from_png(name, data)
    glyph.rows = as_samples(name, glyph.size, lines[::-1])


class Pixels:
    """A field, and `lines`, the bytes that the library made of its samples, row by row from the bottom."""

    def __init__(self, name, glyph):
        width, height, channels = glyph.size
        if channels not in COLOUR_TYPES:
            raise Bad(f"{name}: a PNG takes three or four channels, and this field has {channels}")
        if 0 in (width, height):
            raise Bad(f"{name}: a PNG has a pixel at least, and this field is {width} x {height}")
        self.name, self.glyph, self.lines = name, glyph, as_bytes(name, glyph)

    def png(self):
        return to_png(*self.glyph.size, self.lines[::-1])

    def rows(self):
        """The rows of samples that come back from the bytes."""
        return as_samples(self.name, self.glyph.size, self.lines)

    def held(self, end):
        """The samples that lie beyond this end of 0..1 and were held there, each by its texel."""
        channels, beyond = self.glyph.size[2], (lambda v: v < 0) if end == 0 else (lambda v: v > 1)
        return [(i // channels, y) for y, line in enumerate(self.glyph.rows) for i, b in enumerate(line) if beyond(value_of(b))]

    def change(self):
        """How far the bytes are from the samples that were not held, at most, in 255ths. A double has room for the product and the difference."""
        pairs = ((value_of(b), k) for row, line in zip(self.glyph.rows, self.lines) for b, k in zip(row, line))
        return max((abs(255 * v - k) for v, k in pairs if 0 <= v <= 1), default=0.0)

    def summary(self):
        low, high = len(self.held(0)), len(self.held(1))
        return "size {} {} {}\n".format(*self.glyph.size) + f"held {low + high}: {low} below 0, {high} above 1; largest change of the others {self.change():.4f} of a 255th\n"
