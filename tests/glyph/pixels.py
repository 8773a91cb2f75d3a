"""pixels.py COUNT SEED [--library]: what tests/glyph/run promises of fields as bytes. Without --library only what stands before it and beside it: PNGs that are read
and PNGs that are refused, pictures, words."""
import math
import os
import random
import struct
import sys
import tempfile
import tracemalloc
import zlib
from fractions import Fraction

sys.dont_write_bytecode = True
ROOT = os.path.dirname(os.path.dirname(os.path.dirname(os.path.abspath(__file__))))
sys.path[:0] = [os.path.join(ROOT, "tests", "reading"), os.path.join(ROOT, "tests", "glyph"), os.path.join(ROOT, "tools")]
import cases
import glyph_forms as glyph
import glyph_pictures as pictures
from glyph_pixels import Pixels
from glyph_png import from_png, to_png
from pngs import pixels
from room import Room, example

SETTINGS = "mode 1\nratio 1\nlengths 0.25 0.25 0.25\n"  # as a description has those of cases.PLAIN


def need(true, what):
    if not true:
        sys.exit(f"tests/glyph: pixels: {what}")


# ---- PNGs, put together by hand

SIGNATURE = bytes.fromhex("89504E470D0A1A0A")


def chunk(kind, contents=b""):
    return struct.pack(">I", len(contents)) + kind + contents + struct.pack(">I", zlib.crc32(kind + contents))


def header(width, height, channels, depth=8, colour=None, packing=0, filters=0, interlaced=0):
    return chunk(b"IHDR", struct.pack(">IIBBBBB", width, height, depth, (2 if channels == 3 else 6) if colour is None else colour, packing, filters, interlaced))


def predicted(kind, a, b, c):
    """What a filter takes from a byte, by the bytes to the left, above, and above to the left, in the words of the PNG standard."""
    if kind < 4:
        return (0, a, b, (a + b) // 2)[kind]
    p = a + b - c
    pa, pb, pc = abs(p - a), abs(p - b), abs(p - c)
    return a if pa <= pb and pa <= pc else b if pb <= pc else c


def filtered(size, lines, kinds):
    """The rows as a PNG stores them before packing, each by its filter."""
    width, height, channels = size
    at = lambda y, i: lines[y][i] if y >= 0 and i >= 0 else 0
    rows = []
    for y in range(height):
        long = range(width * channels)
        rows.append(bytes([kinds[y]]) + bytes((lines[y][i] - predicted(kinds[y], at(y, i - channels), at(y - 1, i), at(y - 1, i - channels))) % 256 for i in long))
    return b"".join(rows)


def cut(rng, data, count):
    """The data in so many parts, of which some may be empty."""
    places = sorted(rng.randrange(len(data) + 1) for _ in range(count - 1))
    return [data[a:b] for a, b in zip([0, *places], [*places, len(data)])]


def png(head, packed, before=b"", after=b""):
    """A PNG from its head, the parts of its packed rows and the chunks before and after them."""
    return SIGNATURE + head + before + b"".join(chunk(b"IDAT", part) for part in packed) + after + chunk(b"IEND")


def noise(rng, size):
    """Rows of bytes with runs and jumps in them, so that every case of a filter is met."""
    values = [rng.randrange(256) for _ in range(4)] + [0, 255]
    return [bytes(rng.choice(values) if rng.randrange(3) else rng.randrange(256) for _ in range(size[0] * size[2])) for _ in range(size[1])]


BESIDE = (chunk(b"gAMA", struct.pack(">I", 45455)), chunk(b"sRGB", b"\0"), chunk(b"pHYs", struct.pack(">IIB", 2835, 2835, 1)), chunk(b"iCCP", b"a\0\0" + zlib.compress(b"no profile")),
          chunk(b"tEXt", b"Comment\0a field"), chunk(b"raNd", bytes(7)), chunk(b"bKGD", bytes(6)), chunk(b"noNe"))


def read(data):
    """The size and rows of a PNG, or nothing where it is refused."""
    try:
        return from_png("in", data)
    except glyph.Bad as e:
        need(str(e).startswith("in: "), f"a refusal does not name its file: {e}")
        return None


def check_read(rng, count):
    """A PNG reads the same by every filter, in whatever parts and among whatever chunks that may be passed over; and so does what the tool writes."""
    for i in range(count):
        size = rng.randrange(1, 9), rng.randrange(1, 7), rng.choice((3, 4))
        lines = noise(rng, size)
        wanted = size, lines
        need(read(to_png(*size, lines)) == wanted, f"what is written of {size} {lines} is read as something else")
        for kinds in (*([kind] * size[1] for kind in range(5)), [rng.randrange(5) for _ in range(size[1])]):
            packed = cut(rng, zlib.compress(filtered(size, lines, kinds), rng.randrange(10)), rng.randrange(1, 6))
            before, after = (b"".join(rng.sample(BESIDE, rng.randrange(4))) for _ in range(2))
            data = png(header(*size), packed, before, after)
            need(read(data) == wanted, f"{data.hex()} is read as something else")
    most = (4096, 1, 3), [bytes(i % 256 for i in range(12288))]
    need(read(to_png(*most[0], most[1])) == most, "the largest field is not read")


# ---- PNGs that are refused

LINES = [bytes([10, 20, 30, 40, 50, 60]), bytes([250, 240, 230, 220, 210, 200]), bytes([0, 255, 0, 255, 0, 255])]
ROWS = filtered((2, 3, 3), LINES, (1, 2, 4))
HEAD, PACKED = header(2, 3, 3), zlib.compress(ROWS, 9)
GOOD = png(HEAD, [PACKED[:9], PACKED[9:]], chunk(b"gAMA", struct.pack(">I", 45455)), chunk(b"tEXt", b"a\0b"))
IHDR, GAMA, IDAT = 8, 33, 49  # where the first chunks of GOOD begin


def bad_pngs():
    """A PNG of two by three pixels with one thing wrong, and the place and the words of the message."""
    yield b"", "byte 0: this is no PNG: it begins with the bytes 89 50 4E 47"
    yield b"P6\n2 3\n255\n" + bytes(18), "byte 0: this is no PNG"
    yield GOOD.replace(b"\r\n", b"\n", 1), "byte 0: this is no PNG"
    yield GOOD[:8], "byte 8: the file ends before IEND, the last chunk"
    yield GOOD[:12], "byte 8: the file ends in the head of a chunk"
    yield GOOD[:30], "byte 8: the file ends in chunk IHDR, whose length says 13 bytes"
    yield GOOD[:33], "byte 33: the file ends before IEND"
    yield GOOD[:-12], f"byte {len(GOOD) - 12}: the file ends before IEND"
    yield GOOD[:-1], f"byte {len(GOOD) - 12}: the file ends in chunk IEND"
    yield GOOD + b"\n", f"byte {len(GOOD)}: 1 more bytes follow IEND"
    yield GOOD + GOOD, f"byte {len(GOOD)}: {len(GOOD)} more bytes follow IEND"
    yield GOOD.replace(b"gAMA", b"gA A"), "byte 33: a chunk has a name of four letters, and this has the bytes 67 41 20 41"
    yield GOOD[:IHDR + 21] + bytes(4) + GOOD[33:], "byte 8: the sum (CRC) of chunk IHDR is not that of its bytes: the file is damaged"
    yield GOOD.replace(b"gAMA", b"gAMB"), "byte 33: the sum (CRC) of chunk gAMB"
    yield GOOD[:IDAT + 9] + b"?" + GOOD[IDAT + 10:], f"byte {IDAT}: the sum (CRC) of chunk IDAT"
    yield SIGNATURE + chunk(b"gAMA", bytes(4)) + GOOD[8:], "byte 8: IHDR should be the first chunk, and gAMA is"
    yield png(chunk(b"IHDR", bytes(12)), [PACKED]), "byte 8: IHDR has 13 bytes, and its length says 12"
    yield png(HEAD, [PACKED], HEAD), "byte 33: this is a second IHDR"
    for colour, what in ((0, "grey"), (3, "a palette"), (4, "grey with alpha"), (1, "which there is not"), (7, "which there is not")):
        yield png(header(2, 3, 3, colour=colour), [PACKED]), f"byte 8: this PNG has colour type {colour}, {what}: only 2, RGB, and 6, RGBA, hold a field"
    for depth in (0, 1, 4, 16):
        yield png(header(2, 3, 3, depth=depth), [PACKED]), f"byte 8: this PNG has {depth} bits a channel, and only 8 are read"
    yield png(header(2, 3, 3, packing=1), [PACKED]), "byte 8: this PNG has compression method 1 and filter method 0"
    yield png(header(2, 3, 3, filters=64), [PACKED]), "byte 8: this PNG has compression method 0 and filter method 64"
    yield png(header(2, 3, 3, interlaced=1), [PACKED]), "byte 8: this PNG is interlaced (method 1): write it without"
    for width, height in ((0, 3), (2, 0), (0, 0)):
        yield png(header(width, height, 3), [PACKED]), f"byte 8: this PNG is {width} x {height}, and it has a pixel at least"
    for width, height, channels in ((4097, 1, 3), (1, 4097, 3), (3073, 1, 4), (64, 65, 3), (2 ** 32 - 1, 2 ** 32 - 1, 4)):
        yield png(header(width, height, channels), [PACKED]), f"byte 8: {width} x {height} x {channels} is {width * height * channels} samples, and the program takes 12288 at most"
    yield png(HEAD, [PACKED], chunk(b"PLTE", bytes(6))), "byte 33: this is a palette (PLTE), and the bytes of a field are no colours of one"
    yield png(HEAD, [PACKED], chunk(b"tRNS", bytes(6))), "byte 33: this makes a colour transparent (tRNS), for which the field has no channel"
    yield png(HEAD, [PACKED], chunk(b"GAMA", bytes(4))), "byte 33: chunk GAMA may not be passed over, and what it means is not known"
    yield png(HEAD, [PACKED], b"", chunk(b"NEXT")), f"byte {45 + len(PACKED)}: chunk NEXT may not be passed over"
    yield png(HEAD, [PACKED[:9]], b"", chunk(b"noNe") + chunk(b"IDAT", PACKED[9:])), "byte 66: the IDATs follow one another, and noNe stands before this one"
    yield png(HEAD, []), "byte 33: there is no IDAT before IEND: this PNG has no pixels"
    yield SIGNATURE + HEAD + chunk(b"IDAT", PACKED) + chunk(b"IEND", b"x"), f"byte {45 + len(PACKED)}: IEND has no bytes, and its length says 1"
    yield from bad_streams()


def bad_streams():
    """The same where the pixels are wrong."""
    yield png(HEAD, [b""]), "the size asks for 21 bytes of rows and filters, and the pixels end after 0"
    yield png(HEAD, [ROWS]), "the pixels cannot be unpacked: "
    yield png(HEAD, [PACKED[:-4] + b"sum?"]), "the pixels cannot be unpacked: "
    yield png(HEAD, [zlib.compress(ROWS[:-1])]), "the size asks for 21 bytes of rows and filters, and the pixels end after 20"
    yield png(HEAD, [zlib.compress(ROWS + b"\0")]), "the size asks for 21 bytes of rows and filters, and the pixels go on after them"
    yield png(HEAD, [zlib.compress(ROWS + bytes(10 ** 6))]), "the size asks for 21 bytes of rows and filters, and the pixels go on after them"
    yield png(HEAD, [PACKED[:-1]]), "the pixels are all there, and the zlib stream ends before its own end and sum"
    yield png(HEAD, [PACKED, b"", b"more"]), "4 more bytes follow the zlib stream in IDAT"
    for y in range(3):
        rows = bytearray(ROWS)
        rows[7 * y] = 5 + 125 * y
        yield png(HEAD, [zlib.compress(rows)]), f"row {y} from the top has filter {5 + 125 * y}, and there are 0 to 4"


def chunks_of(data):
    """Where each chunk of a PNG begins, its kind and its contents."""
    at = 8
    while at < len(data):
        length, kind = struct.unpack_from(">I4s", data, at)
        yield at, kind, data[at + 8:at + 8 + length]
        at += 12 + length


def check_broken():
    """No part of a PNG is one, and none with a byte changed, whatever to. Where the sum is made right again, a chunk that may be passed over still is, the head is
    refused, and nothing is ever read as other pixels. Gives how many were tried."""
    wanted, tried = ((2, 3, 3), LINES), 0
    need(read(GOOD) == wanted, "the good PNG is not read")
    for i in range(len(GOOD)):
        need(read(GOOD[:i]) is None, f"the first {i} bytes of a PNG are read")
        for value in {*range(256)} - {GOOD[i]}:
            need(read(GOOD[:i] + bytes([value]) + GOOD[i + 1:]) is None, f"a PNG whose byte {i} is {value} is read")
            tried += 1
    for at, kind, contents in chunks_of(GOOD):
        whole = kind + contents
        for i in range(len(whole)):
            for value in {*range(256)} - {whole[i]}:
                other = whole[:i] + bytes([value]) + whole[i + 1:]
                got = read(GOOD[:at] + chunk(other[:4], other[4:]) + GOOD[at + 12 + len(contents):])
                what = f"byte {i} of {kind.decode()} as {value}"
                need(got in (None, wanted), f"{what} makes other pixels")
                need(kind != b"IHDR" or got is None, f"{what} is read")
                need(not kind[:1].islower() or (got == wanted) == (other[:4].isalpha() and other[:1].islower()), f"{what} is {'read' if got else 'refused'}")
                tried += 1
    return tried


def check_bomb():
    """Pixels that would be a hundred million bytes are refused and not unpacked."""
    bomb = png(HEAD, [zlib.compress(bytes(10 ** 8))])
    tracemalloc.start()
    need(read(bomb) is None, "too many pixels are read")
    peak = tracemalloc.get_traced_memory()[1]
    tracemalloc.stop()
    need(peak < 4 * len(bomb) + 10 ** 5, f"refusing {len(bomb)} bytes of PNG takes {peak}")


# ---- words and files

def check_bad(room):
    """What is refused before the library is asked; nothing is written."""
    room.put("in", cases.bitmap(2, 3, 3, cases.PLAIN, [], [0.0] * 18))
    room.put("ok.png", GOOD)
    room.put("set", SETTINGS)
    room.put("out", b"as it was")
    for name, size in (("one", (2, 3, 1)), ("two", (2, 3, 2)), ("five", (2, 3, 5)), ("rowless", (2, 0, 3)), ("narrow", (0, 2, 4))):
        room.put(name, cases.bitmap(*size, cases.PLAIN, [], [math.nan] * (size[0] * size[1] * size[2])))
    tried = 0
    for data, says in bad_pngs():
        room.put("p", data)
        room.refuses(1, f"p: {says}", "from-png", "p", "set", "out")
        tried += 1
    room.refuses(1, "-: byte 0: this is no PNG", "from-png", "-", "set", "out", given=b"none")
    for status, says, words in (
            (1, "none: cannot be read: No such file", ["from-png", "none", "set", "out"]), (1, "none: cannot be read: No such file", ["from-png", "ok.png", "none", "out"]),
            (1, "none: cannot be read: No such file", ["to-png", "none", "q", "s"]), (1, "in:1:14: this is no text", ["from-png", "ok.png", "in", "out"]),
            (1, "ok.png: byte 0: the size should begin here", ["to-png", "ok.png", "q", "s"]), (1, "set: byte 0: this is no PNG", ["from-png", "set", "set", "out"]),
            (1, "one: a PNG takes three or four channels, and this field has 1", ["to-png", "one", "q", "s"]), (1, "two: a PNG takes three or four channels", ["to-png", "two", "q", "s"]),
            (1, "five: a PNG takes three or four channels, and this field has 5", ["to-png", "five", "q", "s"]),
            (1, "rowless: a PNG has a pixel at least, and this field is 2 x 0", ["to-png", "rowless", "q", "s"]),
            (1, "narrow: a PNG has a pixel at least, and this field is 0 x 2", ["to-png", "narrow", "q", "s"]),
            (2, "to-png takes FIELDS PNG SETTINGS, and 2 words", ["to-png", "in", "q"]), (2, "from-png takes PNG SETTINGS FIELDS, and 4 words", ["from-png", "p", "set", "out", "q"]),
            (2, "from-png has no option '--picture'", ["from-png", "--picture", "q", "p", "set", "out"]), (2, "to-png has no option '--zero'", ["to-png", "--zero", "1", "in", "q", "s"]),
            (2, "--height is for --picture", ["to-png", "--height", "9", "in", "q", "s"]), (2, "--height takes a whole number", ["to-png", "--picture", "d", "--height", "0", "in", "q", "s"]),
            (2, "--picture takes the name of a file, not ''", ["to-png", "in", "q", "s", "--picture"]), (2, "--picture stands twice", ["to-png", "--picture", "d", "--picture", "d", "in", "q", "s"]),
            (2, "PNG and SETTINGS are both '-'", ["to-png", "in", "-", "-"]), (2, "PNG and --picture are both 'q'", ["to-png", "--picture", "q", "in", "q", "s"]),
            (2, "SETTINGS and --picture are both 's'", ["to-png", "--picture", "s", "in", "q", "s"]), (2, "PNG and SETTINGS cannot both be standard input", ["from-png", "-", "-", "out"])):
        room.refuses(status, says, *words)
        tried += 1
    return tried + 1


# ---- the rule, by fractions

def f32(v):
    return struct.unpack("<f", struct.pack("<f", v))[0]


def byte_of(v):
    """The whole number nearest to 255 times a value that is held to 0..1. Of two, round takes the even one."""
    return round(255 * min(max(Fraction(v), Fraction(0)), Fraction(1)))


def sample_of(k):
    """The bits of the f32 nearest to k / 255: 24 binary digits from the first that is not 0."""
    value, shift = Fraction(k, 255), 0
    while 0 < value * 2 ** shift < 2 ** 23:
        shift += 1
    return glyph.bits_of(round(value * 2 ** shift) / 2 ** shift, False)


def hold(data, png, settings, says, back):
    """The PNG has the bytes of the fields' samples, what comes back has theirs, and all else is as it was; and what is printed is so."""
    before, after = glyph.from_fields("in", data), glyph.from_fields("out", back)
    width, height, channels = before.size
    values = [[glyph.value_of(b) for b in line] for line in before.rows]
    wanted = [[byte_of(v) for v in line] for line in values]
    rows = b"".join(b"\0" + bytes(line) for line in reversed(wanted))
    need(pixels(png) == (width, height, rows) and png[25] == (2 if channels == 3 else 6), f"the PNG of {data[:200].hex()}")
    need(after.rows == [[sample_of(k) for k in line] for line in wanted], f"what comes back from the PNG of {data[:200].hex()}")
    after.rows = before.rows
    need(glyph.to_fields(after, "in") == data and settings == glyph.to_text(before, False).encode(), f"more than samples changes in {data[:80].hex()}")
    low, high = (sum(beyond(v) for line in values for v in line) for beyond in (lambda v: v < 0, lambda v: v > 1))
    change = max((abs(255 * Fraction(v) - k) for line, ks in zip(values, wanted) for v, k in zip(line, ks) if 0 <= v <= 1), default=0)
    told = f"size {width} {height} {channels}\nheld {low + high}: {low} below 0, {high} above 1; largest change of the others {float(change):.4f} of a 255th\n"
    need(says == told and change <= Fraction(1, 2), f"what is printed of {data[:80].hex()}: {says!r}, and not {told!r}")


def there_and_back(room, data):
    """Fields to a PNG and back, held to the rule; a second time gives the same PNG and the same fields. Gives both."""
    room.put("in", data)
    says = room.done("to-png", "in", "p", "s").stdout.decode()
    room.done("from-png", "p", "s", "back")
    first, back = room.got("p"), room.got("back")
    hold(data, first, room.got("s"), says, back)
    room.done("to-png", "back", "p", "s")
    room.done("from-png", "p", "s", "again")
    need(room.got("p") == first and room.got("again") == back, f"a second time {data[:80].hex()} changes again")
    return first, back


def near(k):
    """The two floats around the place where byte k gives way to the next: the last below it and the first above."""
    place = Fraction(2 * k + 1, 510)
    bits = glyph.bits_of(float(place), False)
    around = [glyph.value_of(b) for b in (bits - 1, bits, bits + 1)]
    return max(v for v in around if v < place), min(v for v in around if v > place)


def check_edges(room):
    """Every place where a byte gives way to the next, from both sides; both sides of 0 and 1, zeros of both signs, 0.5 and the largest and smallest there are."""
    edges = [v for k in range(255) for v in near(k)]
    need([byte_of(v) for v in edges] == [k + up for k in range(255) for up in (0, 1)], "the test's own edges are wrong")
    tiny = glyph.value_of(1)
    ends = [0.0, -0.0, tiny, -tiny, 0.5, 1.0, glyph.value_of(0x3F7FFFFF), glyph.value_of(0x3F800001), -1.0, 2.0, 1048576.0, -1048576.0]
    samples = edges + ends + [0.25] * (-len(edges + ends) % 36)
    png, back = there_and_back(room, cases.bitmap(12, len(samples) // 36, 3, cases.PLAIN, [], samples))
    stored = [k for line in reversed(from_png("p", png)[1]) for k in line][len(edges):]
    need(stored[:len(ends)] == [0, 0, 0, 0, 128, 255, 255, 255, 0, 255, 255, 0], f"0 to the largest are the bytes {stored}")
    need(glyph.from_fields("back", back).rows[14][6:8] == [0, 0], "zeros come back with a sign")


def check_bytes(room):
    """Every byte comes back from its sample."""
    lines = [bytes(range(128)), bytes(range(128, 256))]
    room.put("all", to_png(32, 2, 4, lines))
    room.put("s", SETTINGS)
    room.done("from-png", "all", "s", "back")
    rows = [[sample_of(k) for k in line] for line in reversed(lines)]
    need(glyph.from_fields("back", room.got("back")).rows == rows, "a byte is another sample")
    need(room.done("to-png", "back", "p", "t").stdout.endswith(b"held 0: 0 below 0, 0 above 1; largest change of the others 0.0000 of a 255th\n"), "samples that are bytes are changed")
    need(from_png("p", room.got("p")) == ((32, 2, 4), lines), "a byte does not come back")
    need(room.got("t").decode() == glyph.to_text(glyph.from_text("s", SETTINGS, False), False), "the settings do not come back")


def random_field(rng):
    width, height, channels = rng.randrange(1, 8), rng.randrange(1, 7), rng.choice((3, 4))
    values = lambda: rng.choice((f32(rng.uniform(-0.2, 1.2)), f32(rng.uniform(0, 1)), f32(rng.choice(near(rng.randrange(255)))), f32(rng.randrange(256) / 255), 0.5, -0.0, 1.0, 1e-40))
    return cases.bitmap(width, height, channels, cases.PLAIN, [cases.contour((7, 0.5, 0.5))] * rng.randrange(2), [values() for _ in range(width * height * channels)])


def check_fields(room, rng, count):
    there_and_back(room, example("three.bin"))
    four = [f32(0.5 + math.sin(i) * 0.6) for i in range(9 * 7 * 4)]
    png, _ = there_and_back(room, cases.bitmap(9, 7, 4, cases.PLAIN, [cases.contour((7, 0.5, 0.5))], four))
    need(from_png("p", png)[1][-1][:4] == bytes(byte_of(v) for v in four[:4]), "row 0 is not the lowest of the PNG")
    there_and_back(room, cases.bitmap(1, 3072, 4, cases.PLAIN, [], [f32(i / 12288) for i in range(12288)]))
    for _ in range(count):
        there_and_back(room, random_field(rng))


# ---- refusals of the library, and files

def check_refusals(room):
    """What the library refuses, with its number and place; nothing is written."""
    for name in ("p", "s", "d"):
        room.put(name, b"as it was")
    tried = 0
    for place, value, says in ((0, math.nan, "nan"), (7, math.inf, "inf"), (23, -math.inf, "-inf"), (17, 1048576.125, "1048576.1"), (11, -1048577.0, "-1048577"), (16, 0x7FC00001, "nan")):
        for channels in (3, 4):
            samples = [0.25] * (6 * channels)
            if place < len(samples):
                samples[place] = value
                samples[-1] = samples[-1] if place == len(samples) - 1 else math.nan  # the first is told
                room.put("bad", cases.bitmap(2, 3, channels, cases.PLAIN, [], samples))
                where = f"channel {place % channels} of texel {place // channels % 2} {place // channels // 2}"
                room.refuses(1, f"bad: refused 6, place {place}: {where} is {says}, not a number of size up to 1048576\n", "to-png", "--picture", "d", "bad", "p", "s")
                tried += 1
    room.put("wide", cases.bitmap(4096, 1, 3, cases.PLAIN, [], [0.0] * 12288))
    room.refuses(1, "wide: drawn 32 pixels high it would be 131072 wide", "to-png", "--picture", "d", "wide", "p", "s")
    room.put("in", cases.bitmap(2, 3, 3, cases.PLAIN, [], [0.25] * 18))
    room.refuses(1, "nowhere/p: cannot be written: No such file", "to-png", "in", "nowhere/p", "s")
    room.refuses(1, "nowhere/d: cannot be written: No such file", "to-png", "--picture", "nowhere/d", "in", "p", "s")
    room.put("ok", GOOD)
    room.put("set", SETTINGS)
    room.refuses(1, "nowhere/o: cannot be written: No such file", "from-png", "ok", "set", "nowhere/o")
    room.put("full", SETTINGS + "contour\n" + "red 1 1\n" * 256)
    room.put("most", to_png(1, 4096, 3, [bytes(3)] * 4096))
    room.refuses(1, "most: this makes 65842 bytes, and the program takes 65536 at most", "from-png", "most", "full", "p")
    return tried + 5


def check_files(room):
    """A dash is standard input or output, and then what is printed goes to standard error; nothing else is left behind."""
    three = os.path.join(ROOT, "examples", "three.bin")
    says = room.done("to-png", three, "p", "s").stdout
    need(says.startswith(b"size 24 24 3\nheld 1: 0 below 0, 1 above 1; "), f"of the 3 it is told {says!r}")
    png, settings = room.got("p"), room.got("s")
    need(room.done("from-png", "p", "s", "back").stdout == b"", "from-png prints something")
    back = room.got("back")
    need(room.done("to-png", "-", "p", "s", given=example("three.bin")).stdout == says and (room.got("p"), room.got("s")) == (png, settings), "fields from standard input")
    for words, wanted in ((("-", "s"), png), (("p", "-"), settings)):
        ran = room.done("to-png", three, *words)
        need(ran.stdout == wanted and ran.stderr == says, f"to-png FIELDS {' '.join(words)} does not write to standard output")
    ran = room.done("to-png", "--picture", "-", "--height", "9", three, "p", "s")
    need(pixels(ran.stdout)[0] > 0 and ran.stderr == says, "the picture does not go to standard output")
    for words, given in ((("-", "s", "to"), png), (("p", "-", "to"), settings)):
        room.done("from-png", *words, given=given)
        need(room.got("to") == back, f"from-png {' '.join(words)} is another field")
    ran = room.done("from-png", "p", "s", "-")
    need(ran.stdout == back and ran.stderr == b"", "from-png does not write to standard output")
    need(sorted(os.listdir(room.path)) == ["back", "p", "s", "to"], f"files are left: {sorted(os.listdir(room.path))}")


def check_example(room):
    """The picture of the 3 is the one beside it, and there are pictures of every height and of four channels."""
    three = os.path.join(ROOT, "examples", "three.bin")
    room.done("to-png", "--picture", "d", three, "p", "s")
    need(pixels(room.got("d")) == pixels(example("three_bytes.png")), "examples/three_bytes.png is not what tools/glyph draws")
    room.put("four", cases.bitmap(5, 4, 4, cases.PLAIN, [], [i / 80 - 0.25 for i in range(80)]))
    for height in ("1", "9", "200"):
        room.done("to-png", "--picture", "d", "--height", height, "four", "p", "s")
        pixels(room.got("d"))


# ---- pictures

class Told(Pixels):
    """Pixels as a picture wants them, of equal texels, without the library."""

    def __init__(self, width, height, channels, values):
        self.name, self.glyph = "in", glyph.from_fields("in", cases.bitmap(width, height, channels, cases.PLAIN, [], values * (width * height)))
        self.lines = [[byte_of(v) for v in values] * width] * height

    def rows(self):
        return [[sample_of(k) for k in line] for line in self.lines]


def check_pictures():
    """At every size and on every grey one tells whether a texel has a held sample, the fourth included; nothing runs off the picture, and legends that differ look different."""
    for step in range(3, 25):
        for value in (0.0, 0.25, 0.5, 0.75, 1.0):
            seen = []
            for fourth in (value, -1.0, 2.0):
                told, picture, place = Told(1, 1, 4, [value] * 3 + [fourth]), pictures.Picture(step + 2, step + 2), pictures.places(1, 1, step, 1)
                pictures.draw_held(picture, place, step, pictures.draw_texels(picture, place, step, pictures.texels(told.glyph.rows, 4)), told)
                need(all(len(line) == 3 * (step + 2) for line in picture.data), f"a mark of {step} pixels runs off the picture")
                seen.append(b"".join(picture.data))
            need(seen[0] != seen[1] == seen[2], f"a mark of {step} pixels on {value} is not seen")
    seen = set()
    for values in ([0.5] * 3, [0.25] * 3, [-1.0] * 3, [2.0] * 3, [-1.0, 2.0, 2.0], [-1.0, 2.0, 0.5]):
        picture = pictures.Picture(*pictures.LEGEND)
        pictures.draw_held_legend(picture, 0, 0, Told(4096, 1, 3, values))
        need(len(picture.data) == pictures.LEGEND[1] and all(len(line) == 3 * pictures.LEGEND[0] for line in picture.data), "the legend runs off the picture")
        seen.add(b"".join(picture.data))
    need(len(seen) == 6, "legends of different fields look alike")
    for width, height, channels in ((1, 1, 3), (2, 1, 4), (1, 300, 3), (300, 1, 4)):
        pixels(pictures.draw_pixels(Told(width, height, channels, [0.5, -1.0, 2.0, 0.25][:channels]), 4))


def main():
    count, rng, library = int(sys.argv[1]), random.Random(int(sys.argv[2])), sys.argv[3:] == ["--library"]
    check_read(rng, 5 * count)
    broken = check_broken()
    check_bomb()
    check_pictures()
    tests = [lambda room: (check_bad(room), "bad files and calls")]
    if library:
        tests += [lambda room: (check_refusals(room), "refusals"), check_edges, check_bytes, check_files, check_example, lambda room: check_fields(room, rng, count)]
    tried = []
    for test in tests:
        with tempfile.TemporaryDirectory() as path:
            tried.append(test(Room(path, need)))
    print(f"tests/glyph: pixels: {35 * count} PNGs read, {broken} broken ones, " + ", ".join(f"{n} {what}" for n, what in filter(None, tried))
          + (f", the 3, the edges and {count} fields there and back by fractions" if library else ", without the library"))


main()
