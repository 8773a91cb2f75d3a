"""The program's answer, as tools/glyph reads it."""
import re

from glyph_forms import Bad, bits_of, value_of

DISABLED, EDGE_PRIORITY, EDGE_ONLY = 0, 2, 3  # modes
PROTECTED, ERRORS, CORNERS = "PBCD", "EBD", "CD"  # the answer's letters that have each bit
MOST_TESTS = 84  # range tests for a texel


class Answer:
    """What the program printed: the rows of letters, from the bottom, and of each flagged texel the median's bits and the channel that carries it."""

    def __init__(self, name, text, glyph):
        self.name, self.lines, self.glyph = name, text.split("\n"), glyph
        if re.match(r"(bad input|refused) ", self.lines[0]):
            raise Bad(f"{name}:1:1: the program answered '{self.lines[0]}': there is no correction")
        width, height, _ = glyph.size
        size = self.match(0, r"size (\d+) (\d+) (\d+)", "'size WIDTH HEIGHT CHANNELS'")
        if tuple(map(int, size.groups())) != glyph.size:
            self.bad(0, 6, f"this answer is for {' x '.join(size.groups())}, and the field is {' x '.join(map(str, glyph.size))}")
        if 0 in glyph.size or glyph.size[2] not in (3, 4):
            self.bad(0, 6, "the program refuses a field of this size: this is no answer of its")
        counts = self.match(1, r"protected (\d+) error (\d+) corner (\d+)(?: tests (\d+))?", "'protected COUNT error COUNT corner COUNT', and 'tests COUNT' unless the plain engine answers,")
        self.protected, self.errors, self.corners = (int(counts[i]) for i in (1, 2, 3))
        self.tests = None if counts[4] is None else int(counts[4])
        self.rows = [self.match(2 + y, f"[.PEBCD]{{{width}}}", f"row {y}, {width} letters of . P E B C D").group() for y in range(height)]
        self.hold_counts(counts)
        self.medians, self.carriers = {}, {}
        for y in range(height):
            for x in range(width):
                if self.rows[y][x] in ERRORS:
                    self.median(2 + height + len(self.medians), x, y)
        if self.lines[2 + height + len(self.medians):] != [""]:
            self.bad(2 + height + len(self.medians), 1, "nothing should follow the last flagged texel")

    def bad(self, line, column, why):
        raise Bad(f"{self.name}:{line + 1}:{column}: {why}")

    def match(self, line, pattern, what):
        found = re.fullmatch(pattern, self.lines[line]) if line < len(self.lines) else None
        return found or self.bad(min(line, len(self.lines) - 1), 1, f"{what} should stand here")

    def hold_counts(self, counts):
        """Each count of letters is what the rows have of them, there are corners in EdgePriority alone, and there can be so many range tests where they are counted."""
        for i, letters in enumerate((PROTECTED, ERRORS, CORNERS), 1):
            have = sum(row.count(letter) for row in self.rows for letter in letters)
            if int(counts[i]) != have:
                self.bad(1, counts.start(i) + 1, f"{counts[i]} are counted here, and the rows have {have}")
        if self.corners and self.glyph.mode != EDGE_PRIORITY:
            self.bad(1, counts.start(3) + 1, "the program asks corners in EdgePriority alone, and this field has another mode")
        if self.tests is None:
            return
        width, height, _ = self.glyph.size
        least, most = (0, 0) if self.glyph.mode == DISABLED else (self.errors, MOST_TESTS * width * height)
        if not least <= self.tests <= most:
            self.bad(1, counts.start(4) + 1, f"{self.tests} range tests are counted here, and with these flags, size and mode there are from {least} to {most}")

    def median(self, line, x, y):
        found = self.match(line, r"(\d+) (\d+) ([0-9A-F]{8}) ch ([012])", f"'{x} {y} BITS ch CHANNEL', a flagged texel with its median and channel 0, 1 or 2,")
        if (int(found[1]), int(found[2])) != (x, y):
            self.bad(line, 1, f"the next flagged texel is {x} {y}, not {found[1]} {found[2]}")
        bits, channel = int(found[3], 16), int(found[4])
        at = x * self.glyph.size[2]
        texel = [value_of(b) for b in self.glyph.rows[y][at:at + 3]]
        middle = sorted(texel)[1]
        if value_of(bits) != middle:
            self.bad(line, found.start(3) + 1, f"texel {x} {y} has the median {bits_of(middle, False):08X} in the field, not {found[3]}: this answer is for another field")
        if channel != texel.index(middle):
            self.bad(line, found.start(4) + 1, f"texel {x} {y} has its median first in channel {texel.index(middle)} in the field, not in {channel}")
        self.medians[x, y], self.carriers[x, y] = bits, channel

    def corrected(self):
        """The field's rows with each flagged texel's first three channels at its median."""
        rows, channels = [list(line) for line in self.glyph.rows], self.glyph.size[2]
        for (x, y), bits in self.medians.items():
            rows[y][x * channels:x * channels + 3] = [bits] * 3
        return rows
