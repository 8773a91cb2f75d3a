"""The correction of signs for tools/glyph: which texels are filled, what the proved library makes of the field, and how that is told."""
import re
import struct

from glyph_forms import Bad, place_of, value_of
from glyph_library import LIMIT, ask, sample_words, told

GAP = rb"(?:\s|#[^\n\r]*[\n\r])"  # between the words of a PBM's head; one of them ends it


# ---- the filled map: a byte a texel, row 0 at the bottom

def from_pbm(name, data, size):
    found = re.match(rb"P([14])" + GAP + rb"+([^\s#]+)" + GAP + rb"+([^\s#]+)" + GAP, data)
    if not found:
        raise Bad(f"{name}:1:1: this is no PBM: it begins with P1 or P4, the width and the height")
    for i, what in ((2, "width"), (3, "height")):
        if not re.fullmatch(rb"[0-9]{1,5}", found[i]) or int(found[i]) > 65535:
            raise Bad(f"{place_of(name, data, found.start(i))}: '{found[i][:40].decode('ascii', 'replace')}' is not a {what} up to 65535")
    width, height = int(found[2]), int(found[3])
    if (width, height) != size[:2]:
        raise Bad(f"{place_of(name, data, found.start(2))}: this PBM is {width} x {height}, and the field is {size[0]} x {size[1]}")
    bits = (plain_bits if found[1] == b"1" else packed_bits)(name, data, found.end(), width, height)
    return b"".join(bits[width * y:width * (y + 1)] for y in reversed(range(height)))


def plain_bits(name, data, at, width, height):
    """Those of a P1: digits, with blanks and comments between them as one likes."""
    body = re.sub(rb"#[^\n\r]*", lambda comment: b" " * len(comment[0]), data[at:])
    digits = [found.start() for found in re.finditer(rb"\S", body)]
    for i, k in enumerate(digits):
        if body[k] not in b"01":
            raise Bad(f"{place_of(name, data, at + k)}: '{chr(body[k]) if 32 < body[k] < 127 else '?'}' is not a texel: 1 is filled and 0 is not")
        if i == width * height:
            raise Bad(f"{place_of(name, data, at + k)}: nothing should follow the last of {width} x {height} texels")
    if len(digits) < width * height:
        raise Bad(f"{name}: the file ends after {len(digits)} of its {width} x {height} texels")
    return bytes(body[k] - 48 for k in digits)


def packed_bits(name, data, at, width, height):
    """Those of a P4: the highest bit of a byte is the leftmost texel, and each row begins with a new byte."""
    long = (width + 7) // 8
    if len(data) - at != long * height:
        raise Bad(f"{name}: {long * height} bytes of texels should follow byte {at}, and {len(data) - at} do")
    return bytes(data[at + y * long + x // 8] >> 7 - x % 8 & 1 for y in range(height) for x in range(width))


def from_outlines(name, glyph, even_odd):
    """The texels whose centres lie inside the glyph's contours, each the closed polygon through the starts of its segments."""
    polygons = [[(value_of(x, True), value_of(y, True)) for _, x, y in contour] for contour in glyph.contours]
    if not polygons:
        raise Bad(f"{name}: there is no contour to fill: give a PBM")
    for i, points in enumerate(polygons):
        for k, (x, y) in enumerate(points):
            if not (abs(x) <= LIMIT and abs(y) <= LIMIT):
                raise Bad(f"{name}: segment {k} of contour {i} starts at {x:g} {y:g}, not at numbers of size up to {LIMIT}")
    width, height, _ = glyph.size
    filled = bytearray()
    for y in range(height):
        crossed = crossings(polygons, y + 0.5)
        for x in range(width):
            turns = sum(direction for at, direction in crossed if at <= x + 0.5)
            filled.append(turns % 2 if even_odd else turns != 0)
    return bytes(filled)


def crossings(polygons, y):
    """Where the polygons' sides cross the height y, each with 1 for upwards or -1 for downwards. A side has its lower end and not its upper one."""
    found = []
    for points in polygons:
        for (ax, ay), (bx, by) in zip(points, points[1:] + points[:1]):
            if ay <= y < by or by <= y < ay:
                part = (y - ay) / (by - ay)
                found.append(((1 - part) * ax + part * bx, 1 if ay < by else -1))
    return found


# ---- the correction

def refusal_words(number, place, glyph, zero):
    width, height, channels = glyph.size
    if number == 1:
        return f"the field has {channels} channels, and there are 1, 3 or 4"
    if number == 2:
        return f"the field is {width} x {height}, and a side is from 1 to 4096"
    if number == 6:
        return sample_words(glyph, place)
    if number == 10:
        return f"the zero value is {told(zero)}, not a number of size up to {LIMIT}"
    return "the lists do not fit"  # those that are made here always do


class Signs:
    """A field, its filled map, and what the library made of them. `zero` is the zero value's bits, `rows` the field's rows after, and `matches` the match map: row by
    row from the bottom, -1 where the median was on the wrong side, 0 where it was the zero value, 1 where it was right, and 0 everywhere with one channel."""

    def __init__(self, name, glyph, zero, filled):
        self.glyph, self.zero, self.filled = glyph, zero, filled
        width, height, channels = glyph.size
        long, texels = width * channels, width * height
        given = struct.pack("<4I", *glyph.size, zero) + b"".join(struct.pack(f"<{long}I", *line) for line in glyph.rows) + filled
        words = lambda number, place: refusal_words(number, place, glyph, zero)
        answer = ask(name, "signs", given, 4 * long * height + texels, "the signs were not corrected", words)
        self.rows = [[*struct.unpack_from(f"<{long}I", answer, 4 * long * y)] for y in range(height)]
        matches = struct.unpack_from(f"<{texels}b", answer, 4 * long * height)
        self.matches = [matches[width * y:width * (y + 1)] for y in range(height)]

    def changed(self, x, y, first, last):
        """Whether a value of these channels of a texel is another number than before. One that is the zero value stays the same when it is turned over."""
        at = x * self.glyph.size[2]
        return any(value_of(self.glyph.rows[y][at + c]) != value_of(self.rows[y][at + c]) for c in range(first, last))

    def fate(self, x, y):
        """What became of a texel's first three channels, or of its only one: '-' turned over by their own median, 'v' by the vote, '0' undecided and left, '+' kept."""
        if self.glyph.size[2] == 1:
            return "-" if self.changed(x, y, 0, 1) else "+"
        if self.matches[y][x] == 0:
            return "v" if self.changed(x, y, 0, 3) else "0"
        return "-" if self.matches[y][x] < 0 else "+"

    def fates(self):
        width, height, _ = self.glyph.size
        return [[self.fate(x, y) for x in range(width)] for y in range(height)]

    def fourth(self):
        """The texels whose fourth channel was turned over."""
        width, height, channels = self.glyph.size
        return {(x, y) for y in range(height) for x in range(width) if channels == 4 and self.changed(x, y, 3, 4)}

    def summary(self):
        told, channels = [fate for line in self.fates() for fate in line], self.glyph.size[2]
        text = "size {} {} {}\n".format(*self.glyph.size) + f"flipped {told.count('-')} kept {told.count('+')}"
        if channels > 1:
            text += f" ambiguous {told.count('0') + told.count('v')} by vote {told.count('v')}"
        return text + (f" fourth {len(self.fourth())}" if channels == 4 else "") + "\n"

    def match_text(self):
        legend = "0 everywhere: one channel has no median" if self.glyph.size[2] == 1 else "- flipped by the median, 0 the median is the zero value and the vote decides, + kept"
        return f"# {legend}; the top row first\n" + "".join("".join("-0+"[m + 1] for m in line) + "\n" for line in reversed(self.matches))
