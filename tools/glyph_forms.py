"""The forms that a glyph has for tools/glyph: a readable description, tagged fields, a PFM; and files."""
import os
import re
import shutil
import struct
import sys

INPUT_LIMIT, SAMPLE_LIMIT, CONTOUR_LIMIT, SEGMENT_LIMIT = 65536, 12288, 64, 256
MODES = ["Disabled", "Indiscriminate", "EdgePriority", "EdgeOnly"]
COLOURS = ["black", "red", "green", "yellow", "blue", "magenta", "cyan", "white"]


class Bad(Exception):
    """A file that is not what it should be: where and why."""


class Glyph:
    """One input. Floats are kept as their bits, so that nothing is lost on the way."""

    def __init__(self):
        self.size = (0, 0, 0)
        self.mode = 0
        self.settings = []  # ratio, horizontal, vertical, diagonal
        self.contours = []  # lists of (colour, x, y)
        self.rows = []


# ---- floats

def bits_of(value, wide):
    return struct.unpack(">Q", struct.pack(">d", value))[0] if wide else struct.unpack(">I", struct.pack(">f", value))[0]


def value_of(bits, wide=False):
    return struct.unpack(">d", struct.pack(">Q", bits))[0] if wide else struct.unpack(">f", struct.pack(">I", bits))[0]


def shown(bits, wide):
    """The shortest decimal that gives these bits again, or the bits themselves where none does."""
    value = value_of(bits, wide)
    if abs(value) < float("inf"):
        for digits in range(1, 18):
            word = f"{value:.{digits}g}"
            try:
                if bits_of(float(word), wide) == bits:
                    return word
            except OverflowError:
                pass
    return f"0x{bits:0{16 if wide else 8}X}"


# ---- the readable description

class Words:
    """The words of a description with their places."""

    def __init__(self, name, text):
        self.name, self.list, self.at = name, [], 0
        lines = text.split("\n")
        for number, line in enumerate(lines, 1):
            for found in re.finditer(r"\S+", line.split("#")[0]):
                self.list.append((number, found.start() + 1, found.group()))
        self.end = (len(lines), len(lines[-1]) + 1)

    def peek(self):
        return self.list[self.at][2] if self.at < len(self.list) else None

    def bad(self, why, back=0):
        """An error at the next word, or at one before it."""
        line, column = self.list[self.at - back][:2] if self.at - back < len(self.list) else self.end
        raise Bad(f"{self.name}:{line}:{column}: {why}")

    def next(self, what):
        if self.at == len(self.list):
            self.bad(f"the file ends where {what} should stand")
        self.at += 1
        return self.list[self.at - 1][2]

    def keyword(self, word):
        if self.peek() != word:
            self.bad(f"'{word}' should stand here" + (f", not '{self.peek()}'" if self.peek() else ", and the file ends"))
        self.at += 1

    def whole(self, what, most, names=()):
        word = self.next(what)
        folded = [n.lower() for n in names]
        if word.lower() in folded:
            return folded.index(word.lower())
        if not re.fullmatch(r"[0-9]+", word):
            self.bad(f"'{word}' is not {what}: " + (f"one of {', '.join(names)}, or " if names else "") + f"a whole number up to {most}", 1)
        if int(word) > most:
            self.bad(f"{what} is {word}, and at most {most} can be written", 1)
        return int(word)

    def float(self, what, wide):
        word, digits = self.next(what), 16 if wide else 8
        if word[:2] in ("0x", "0X"):
            if not re.fullmatch(f"[0-9A-Fa-f]{{{digits}}}", word[2:]):
                self.bad(f"'{word}' is not the bits of {what}: 0x and {digits} hex digits", 1)
            return int(word[2:], 16)
        if not re.fullmatch(r"[-+]?([0-9]+\.?[0-9]*|\.[0-9]+)([eE][-+]?[0-9]+)?|[-+]?(inf|nan)", word):
            self.bad(f"'{word}' is not {what}: a decimal, or 0x and {digits} hex digits", 1)
        try:
            return bits_of(float(word), wide)
        except OverflowError:
            self.bad(f"'{word}' is too large for {what}", 1)


def read_size(words, glyph):
    words.keyword("size")
    glyph.size = (words.whole("the width", 65535), words.whole("the height", 65535), words.whole("the number of channels", 255))
    samples = glyph.size[0] * glyph.size[1] * glyph.size[2]
    if samples > SAMPLE_LIMIT:
        words.bad(f"width x height x channels is {samples}, and the program takes {SAMPLE_LIMIT} samples at most", 3)


def read_settings(words, glyph):
    words.keyword("mode")
    glyph.mode = words.whole("the mode", 255, MODES)
    words.keyword("ratio")
    glyph.settings = [words.float("the ratio", True)]
    words.keyword("lengths")
    glyph.settings += [words.float(f"the {name} length", True) for name in ("horizontal", "vertical", "diagonal")]


def read_contours(words, glyph):
    segments = 0
    while words.peek() == "contour":
        if len(glyph.contours) == CONTOUR_LIMIT:
            words.bad(f"this is contour {CONTOUR_LIMIT + 1}, and the program takes {CONTOUR_LIMIT} at most")
        words.keyword("contour")
        contour = []
        while words.peek() not in ("contour", "row", None):
            if segments == SEGMENT_LIMIT:
                words.bad(f"this is segment {SEGMENT_LIMIT + 1}, and the program takes {SEGMENT_LIMIT} at most")
            contour.append((words.whole("a colour", 255, COLOURS), words.float("a segment's x", True), words.float("a segment's y", True)))
            segments += 1
        glyph.contours.append(contour)


def read_rows(words, glyph):
    width, height, channels = glyph.size
    for y in range(height):
        words.keyword("row")
        if words.whole("the row's number", 65535) != y:
            words.bad(f"this is row {y}, not {words.list[words.at - 1][2]}: rows come in order from the bottom, from 0", 1)
        line = []
        for i in range(width * channels):
            if words.peek() in ("row", None):
                words.bad(f"row {y} ends after {i} of its {width} x {channels} samples")
            line.append(words.float(f"channel {i % channels} of texel {i // channels}", False))
        glyph.rows.append(line)


def from_text(name, text, with_field=True):
    words, glyph = Words(name, text), Glyph()
    if with_field:
        read_size(words, glyph)
    read_settings(words, glyph)
    read_contours(words, glyph)
    if with_field:
        read_rows(words, glyph)
    if words.peek() is not None:
        words.bad(f"nothing should follow here, and '{words.peek()}' does")
    return glyph


def to_text(glyph, with_field=True):
    named = lambda names, n: names[n] if n < len(names) else str(n)
    lines = []
    if with_field:
        lines.append("size " + " ".join(map(str, glyph.size)) + "  # width, height, channels")
    lines.append("mode " + named(MODES, glyph.mode))
    lines.append("ratio " + shown(glyph.settings[0], True))
    lines.append("lengths " + " ".join(shown(b, True) for b in glyph.settings[1:]) + "  # horizontal, vertical, diagonal")
    for contour in glyph.contours:
        lines.append("contour")
        lines += [f"  {named(COLOURS, c)} {shown(x, True)} {shown(y, True)}" for c, x, y in contour]
    if with_field:
        channels = glyph.size[2]
        for y, line in enumerate(glyph.rows):
            lines.append(f"row {y}" + ("  # the bottom" if y == 0 else ""))
            for i in range(0, len(line), channels or 1):
                lines.append("  " + " ".join(shown(b, False) for b in line[i:i + channels]))
    return "\n".join(lines) + "\n"


# ---- the tagged fields

def field(tag, contents):
    return struct.pack(">BH", tag, len(contents)) + contents


def to_fields(glyph, name):
    parts = [field(1, struct.pack(">HHB", *glyph.size)), field(2, struct.pack(">B4Q", glyph.mode, *glyph.settings))]
    parts += [field(3, b"".join(struct.pack(">BQQ", *segment) for segment in contour)) for contour in glyph.contours]
    parts += [field(4, struct.pack(f">{len(line)}I", *line)) for line in glyph.rows]
    data = b"".join(parts) + field(0, b"")
    if len(data) > INPUT_LIMIT:
        raise Bad(f"{name}: this makes {len(data)} bytes, and the program takes {INPUT_LIMIT} at most")
    return data


class Fields:
    """The tagged fields of a file, from the first on. A breach is told at the byte that the program names."""

    def __init__(self, name, data):
        self.name, self.data, self.at = name, data, 0

    def bad(self, why, at=None):
        raise Bad(f"{self.name}: byte {self.at if at is None else at}: {why}")

    def tag(self):
        return self.data[self.at] if self.at < len(self.data) else None

    def head(self, tag, what):
        if self.tag() is None:
            self.bad(f"the file ends where {what} should begin")
        if self.tag() != tag:
            self.bad(f"{what} should begin here with tag {tag:02X}, and there is {self.tag():02X}")
        if self.at + 3 > len(self.data):
            self.bad(f"the file ends in the head of {what}", len(self.data))
        return struct.unpack_from(">H", self.data, self.at + 1)[0]

    def contents(self, length, what):
        if self.at + 3 + length > len(self.data):
            self.bad(f"the file ends in {what}, which has {length} bytes", len(self.data))
        self.at += 3 + length
        return self.data[self.at - length:self.at]

    def fixed(self, tag, length, what):
        found = self.head(tag, what)
        if found != length:
            self.bad(f"{what} has {length} bytes, and its length says {found}")
        return self.contents(length, what)


def read_contour_field(fields, glyph, segments):
    what = f"contour {len(glyph.contours)}"
    length = fields.head(3, what)
    if length % 17:
        fields.bad(f"{what} has {length} bytes, and a segment has 17")
    if len(glyph.contours) == CONTOUR_LIMIT:
        fields.bad(f"more than {CONTOUR_LIMIT} contours")
    if segments + length // 17 > SEGMENT_LIMIT:
        fields.bad(f"more than {SEGMENT_LIMIT} segments")
    glyph.contours.append([*struct.iter_unpack(">BQQ", fields.contents(length, what))])
    return segments + length // 17


def from_fields(name, data):
    fields, glyph = Fields(name, data), Glyph()
    if len(data) > INPUT_LIMIT:
        fields.bad(f"the file has {len(data)} bytes, and the program takes {INPUT_LIMIT} at most", INPUT_LIMIT)
    glyph.size = struct.unpack(">HHB", fields.fixed(1, 5, "the size"))
    width, height, channels = glyph.size
    if width * height * channels > SAMPLE_LIMIT:
        fields.bad(f"{width} x {height} x {channels} is {width * height * channels} samples, and the program takes {SAMPLE_LIMIT} at most", 0)
    glyph.mode, *glyph.settings = struct.unpack(">B4Q", fields.fixed(2, 33, "the settings"))
    segments = 0
    while fields.tag() == 3:
        segments = read_contour_field(fields, glyph, segments)
    for y in range(height):
        glyph.rows.append([*struct.unpack(f">{width * channels}I", fields.fixed(4, 4 * width * channels, f"row {y}"))])
    fields.fixed(0, 0, "the end")
    if fields.at < len(data):
        fields.bad(f"{len(data) - fields.at} more bytes follow the end")
    return glyph


def place_of(name, data, at):
    """A byte's place in a file that begins with lines."""
    return f"{name}:{data.count(10, 0, at) + 1}:{at - data.rfind(10, 0, at)}"


# ---- PFM

def from_pfm(name, data, glyph):
    found = re.match(rb"(\S+)\s+(\S+)\s+(\S+)\s+(\S+)[ \t\r\n]", data[:200])
    if not found or found.group(1) not in (b"PF", b"Pf"):
        raise Bad(f"{name}:1:1: this is no PFM: it begins with PF, the width, the height and the byte order")
    def place(i):
        return place_of(name, data, found.start(i))
    if found.group(1) == b"Pf":
        raise Bad(f"{place(1)}: this PFM has one channel (Pf), and three (PF) are needed")
    for i, what in ((2, "width"), (3, "height")):
        if not re.fullmatch(rb"[0-9]{1,5}", found.group(i)) or int(found.group(i)) > 65535:
            raise Bad(f"{place(i)}: '{found.group(i).decode('ascii', 'replace')}' is not a {what} up to 65535")
    try:
        scale = float(found.group(4))
    except ValueError:
        scale = 0.0
    if not 0 < abs(scale) < float("inf"):
        raise Bad(f"{place(4)}: '{found.group(4).decode('ascii', 'replace')}' is not a scale, whose sign tells the byte order")
    width, height = int(found.group(2)), int(found.group(3))
    count = 3 * width * height
    if count > SAMPLE_LIMIT:
        raise Bad(f"{place(2)}: {width} x {height} x 3 is {count} samples, and the program takes {SAMPLE_LIMIT} at most")
    if len(data) - found.end() != 4 * count:
        raise Bad(f"{name}: {4 * count} bytes of samples should follow byte {found.end()}, and {len(data) - found.end()} do")
    samples = struct.unpack_from(f"{'<' if scale < 0 else '>'}{count}I", data, found.end())
    glyph.size = (width, height, 3)
    glyph.rows = [[*samples[3 * width * y:3 * width * (y + 1)]] for y in range(height)]


def to_pfm(name, glyph):
    width, height, channels = glyph.size
    if channels != 3:
        raise Bad(f"{name}: a PFM has three channels, and this field has {channels}")
    return f"PF\n{width} {height}\n-1.0\n".encode() + b"".join(struct.pack(f"<{len(line)}I", *line) for line in glyph.rows)


# ---- files

def load(name, text=False):
    try:
        if name == "-":
            data = sys.stdin.buffer.read()
        else:
            with open(name, "rb") as f:
                data = f.read()
    except OSError as e:
        raise Bad(f"{name}: cannot be read: {e.strerror}") from None
    if not text:
        return data
    try:
        return data.decode("utf-8").replace("\r\n", "\n")
    except UnicodeDecodeError as e:
        line, column = data.count(b"\n", 0, e.start) + 1, e.start - data.rfind(b"\n", 0, e.start)
        raise Bad(f"{name}:{line}:{column}: this is no text") from None


def write_whole(name, data):
    """Writes beside the file's place and renames, so that there is a whole file or the one before. A link stays one, and what is no file, such as a pipe, is written to."""
    name = os.path.realpath(name)
    if os.path.exists(name) and not os.path.isfile(name):
        with open(name, "wb") as f:
            f.write(data)
        return
    part = f"{name}.{os.getpid()}.part"
    f = open(part, "xb")
    try:
        with f:
            f.write(data)
        if os.path.exists(name):
            shutil.copymode(name, part)
        os.replace(part, name)
    finally:
        if os.path.exists(part):
            os.remove(part)


def save(name, data):
    if isinstance(data, str):
        data = data.encode()
    try:
        if name == "-":
            sys.stdout.buffer.write(data)
        else:
            write_whole(name, data)
    except OSError as e:
        raise Bad(f"{name}: cannot be written: {e.strerror}") from None
