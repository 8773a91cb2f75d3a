"""signs.py COUNT SEED [--library]: what tests/glyph/run promises of the correction of signs. Without --library only what stands before it and beside it: PBMs, outlines, words."""
import math
import os
import random
import re
import struct
import subprocess
import sys
import tempfile

sys.dont_write_bytecode = True
ROOT = os.path.dirname(os.path.dirname(os.path.dirname(os.path.abspath(__file__))))
sys.path[:0] = [os.path.join(ROOT, "tests", "reading"), os.path.join(ROOT, "tests", "glyph"), os.path.join(ROOT, "tools")]
import cases
import glyph_forms as glyph
import glyph_pictures as pictures
import glyph_signs
from pngs import pixels
from room import Room, example

HALF = 0x3F000000
LEGEND = "# - flipped by the median, 0 the median is the zero value and the vote decides, + kept; the top row first\n"


def need(true, what):
    if not true:
        sys.exit(f"tests/glyph: signs: {what}")


# ---- PBMs

def plain_pbm(rng, width, height, bits):
    """Bits from the top as a P1, with blanks and comments as they may stand."""
    gap = lambda: rng.choice([b" ", b"\n", b"\t ", b"\r\n", b"\n# a 1 in a comment\n", b" #\n"])
    body = b"".join(b"01"[b:b + 1] + rng.choice([b"", b"", b" ", b"\n", b"\n#0 1\n"]) for b in bits)
    return b"P1" + gap() + b"%d" % width + gap() + b"%d" % height + gap() + body


def packed_pbm(rng, width, height, bits):
    """The same as a P4; what fills a row's last byte does not matter."""
    rows = b""
    for y in range(height):
        row = [*bits[y * width:(y + 1) * width]]
        row += [rng.randrange(2) for _ in range(-width % 8)]
        rows += bytes(sum(row[i + k] << 7 - k for k in range(8)) for i in range(0, len(row), 8))
    return b"P4" + rng.choice([b" ", b"\n# by hand\n"]) + b"%d %d" % (width, height) + rng.choice([b"\n", b" ", b"# and so on\n"]) + rows


def check_pbms(rng, count):
    for _ in range(count):
        width, height = rng.randrange(1, 20), rng.randrange(1, 9)
        bits = [rng.randrange(2) for _ in range(width * height)]
        upwards = bytes(bits[(height - 1 - y) * width + x] for y in range(height) for x in range(width))
        for form in (plain_pbm, packed_pbm):
            data = form(rng, width, height, bits)
            need(glyph_signs.from_pbm("in", data, (width, height, 3)) == upwards, f"{data!r} is read as another map")


def bad_pbms():
    """A filled map for two by three texels with one thing wrong, and the place and the words of the message."""
    yield b"", "f:1:1: this is no PBM: it begins with P1 or P4"
    yield b"P1", "f:1:1: this is no PBM"
    yield b"P2\n2 3\n255\n0 0 0 0 0 0\n", "f:1:1: this is no PBM"
    yield b"P5\n2 3\n255\n" + bytes(6), "f:1:1: this is no PBM"
    yield b"P12 3\n000000", "f:1:1: this is no PBM"
    yield b"\n P1\n2 3\n000000", "f:1:1: this is no PBM"
    yield b"P1\n2 3 # no end", "f: the file ends after 0 of its 2 x 3 texels"
    yield b"P1\n2", "f:1:1: this is no PBM"
    yield b"\x89PNG\r\n\x1a\n" + bytes(40), "f:1:1: this is no PBM"
    yield b"P1\nx 3\n000000", "f:2:1: 'x' is not a width up to 65535"
    yield b"P1\n2 -3\n000000", "f:2:3: '-3' is not a height up to 65535"
    yield b"P1\n# two\n2 99999\n000000", "f:3:3: '99999' is not a height"
    yield b"P1\n3 2\n000000", "f:2:1: this PBM is 3 x 2, and the field is 2 x 3"
    yield b"P4\n2 4\n" + bytes(4), "f:2:1: this PBM is 2 x 4, and the field is 2 x 3"
    yield b"P1\n2 3\n0 1 0 1 0", "f: the file ends after 5 of its 2 x 3 texels"
    yield b"P1\n2 3\n0 1 0 1 0 # 1", "f: the file ends after 5 of its 2 x 3 texels"
    yield b"P1\n2 3\n0 1\n0 2\n0 0\n", "f:4:3: '2' is not a texel: 1 is filled and 0 is not"
    yield b"P1\n2 3\n0 1\n0 \xff\n0 0\n", "f:4:3: '?' is not a texel"
    yield b"P1\n2 3\n0 1\n0 1\n0 0\n 0", "f:6:2: nothing should follow the last of 2 x 3 texels"
    yield b"P4\n2 3\n" + bytes(2), "f: 3 bytes of texels should follow byte 7, and 2 do"
    yield b"P4\n2 3\n" + bytes(4), "f: 3 bytes of texels should follow byte 7, and 4 do"


# ---- outlines

def winding(points, x, y):
    """How often a closed polygon goes around a place, by the angles under which its sides are seen from there."""
    total = 0.0
    for (ax, ay), (bx, by) in zip(points, points[1:] + points[:1]):
        ax, ay, bx, by = ax - x, ay - y, bx - x, by - y
        total += math.atan2(ax * by - ay * bx, ax * bx + ay * by)
    return round(total / (2 * math.pi))


def outlined(width, height, polygons):
    one = glyph.Glyph()
    one.size, one.contours = (width, height, 3), [[(7, glyph.bits_of(x, True), glyph.bits_of(y, True)) for x, y in points] for points in polygons]
    return one


def check_outlines(rng, count):
    rules = set()
    for _ in range(count):
        width, height = rng.randrange(1, 9), rng.randrange(1, 9)
        polygons = [[(rng.uniform(-1, width + 1), rng.uniform(-1, height + 1)) for _ in range(rng.randrange(0, 8))] for _ in range(rng.randrange(1, 4))]
        turns = [sum(winding(points, x + 0.5, y + 0.5) for points in polygons) for y in range(height) for x in range(width)]
        for even_odd in (False, True):
            wanted = bytes(t % 2 if even_odd else t != 0 for t in turns)
            need(glyph_signs.from_outlines("in", outlined(width, height, polygons), even_odd) == wanted, f"the inside of {polygons}")
        rules |= {(t % 2, t != 0) for t in turns}
    need(len(rules) == 3, "no polygon tells the two rules apart")
    square = [(1.5, 0.5), (3.5, 0.5), (3.5, 2.5), (1.5, 2.5)]  # through centres: a side has its lower and left ends
    for points in (square, square[::-1]):
        need(glyph_signs.from_outlines("in", outlined(5, 4, [points]), False) == bytes([0, 1, 1, 0, 0] * 2 + [0] * 10), "the sides of a square through texels' centres")


# ---- the rule, read once more

def f32(v):
    return struct.unpack("<f", struct.pack("<f", v))[0]


def bits(v):
    return struct.unpack("<I", struct.pack("<f", v))[0]


def reading(size, samples, zero, filled):
    """What the correction makes of samples: those after it, the match map, and what is printed of them. Floats are Python's, each rounded to f32."""
    width, height, channels = size
    texel, double = [samples[k * channels:(k + 1) * channels] for k in range(width * height)], f32(zero + zero)
    after, matches, voted, fourth = [list(t) for t in texel], [0] * len(texel), 0, 0

    def turn(k, c):
        after[k][c] = f32(double - texel[k][c])
        return after[k][c] != texel[k][c]

    wrong = lambda v, k: (v > zero) != (filled[k] == 1)
    if channels == 1:
        flipped = sum(turn(k, 0) for k in range(len(texel)) if wrong(texel[k][0], k))
        return after, matches, f"flipped {flipped} kept {len(texel) - flipped}"
    for k, values in enumerate(texel):
        middle = sorted(values[:3])[1]
        matches[k] = 0 if middle == zero else -1 if wrong(middle, k) else 1
        if channels == 4 and wrong(values[3], k):
            fourth += turn(k, 3)
    for k in range(len(texel)):
        x, y = k % width, k // width
        near = [(x - 1, y), (x + 1, y), (x, y - 1), (x, y + 1)]
        vote = sum(matches[v * width + u] for u, v in near if 0 <= u < width and 0 <= v < height)
        if matches[k] < 0 or matches[k] == 0 and vote < 0:
            changed = [turn(k, c) for c in range(3)]
            voted += matches[k] == 0 and any(changed)
    told = f"flipped {matches.count(-1)} kept {matches.count(1)} ambiguous {matches.count(0)} by vote {voted}"
    return after, matches, told + (f" fourth {fourth}" if channels == 4 else "")


def hold(data, zero, filled, out, matches, says):
    """OUT, the match map and what is printed are those of the reading, and OUT is the fields in all else."""
    before, after = glyph.from_fields("in", data), glyph.from_fields("out", out)
    width, height, channels = before.size
    samples = [glyph.value_of(b) for line in before.rows for b in line]
    wanted, match, told = reading(before.size, samples, zero, filled)
    need([b for line in after.rows for b in line] == [bits(v) for texel in wanted for v in texel], f"the samples after {data[:200].hex()} with {zero} and {filled.hex()}")
    after.rows = before.rows
    need(glyph.to_fields(after, "in") == data, f"more than samples changes in {data[:80].hex()}")
    rows = ["".join("-0+"[m + 1] for m in match[y * width:(y + 1) * width]) for y in reversed(range(height))]
    legend = LEGEND if channels > 1 else "# 0 everywhere: one channel has no median; the top row first\n"
    need(matches == legend + "\n".join(rows) + "\n", f"the match map of {data[:80].hex()}")
    need(says == f"size {width} {height} {channels}\n{told}\n", f"what is printed of {data[:80].hex()}: {says!r}")
    return told


def random_case(rng):
    """A small field whose values lie often on the zero value and on both sides of it, the zero value and a map."""
    width, height, channels = rng.randrange(1, 8), rng.randrange(1, 7), rng.choice((3, 3, 3, 4, 4, 4, 1))
    zero = f32(rng.choice((0.5, 0.5, 0.5, 0.0, -0.0, 0.1, -0.25, 3.0, 1e-40, 1048576.0, -1048576.0)))
    values = [zero, zero, zero, f32(zero + 0.25), f32(zero - 0.25), 0.0, -0.0, 1.0, f32(0.1), f32(rng.uniform(-1, 2)), f32(rng.uniform(-1, 2)), 1048576.0, 1e-42]
    samples = [min(max(rng.choice(values), -1048576.0), 1048576.0) for _ in range(width * height * channels)]
    data = cases.bitmap(width, height, channels, cases.PLAIN, [cases.contour((7, 0.5, 0.5))] * rng.randrange(2), samples)
    return data, (width, height), zero, bytes(rng.randrange(2) for _ in range(width * height))


def check_random(room, rng, count):
    voted = fourth = 0
    for _ in range(count):
        data, (width, height), zero, filled = random_case(rng)
        top = [filled[(height - 1 - y) * width + x] for y in range(height) for x in range(width)]
        room.put("in", data)
        room.put("f", rng.choice((plain_pbm, packed_pbm))(rng, width, height, top))
        word = rng.choice((repr(zero), f"0x{bits(zero):08X}"))
        ran = room.done("--zero", word, "--matches", "m", "in", "f", "out")
        told = hold(data, zero, filled, room.got("out"), room.got("m").decode(), ran.stdout.decode())
        voted += int((re.search(r"by vote (\d+)", told) or [0, 0])[1])
        fourth += int((re.search(r"fourth (\d+)", told) or [0, 0])[1])
    need(voted and fourth, "no random field has a texel that the vote flips, or none a fourth value")


# ---- the example

def check_example():
    made = [subprocess.run([sys.executable, os.path.join(ROOT, "examples", "zero.py"), word], capture_output=True, check=True).stdout for word in ("glyph", "filled")]
    need(made[0] == example("zero.glyph"), "examples/zero.py no longer writes examples/zero.glyph")
    need(made[1] == example("zero.pbm"), "examples/zero.py no longer writes examples/zero.pbm")
    one = glyph.from_text("zero", made[0].decode())
    need(glyph.to_fields(one, "zero") == example("zero.bin"), "examples/zero.bin is not examples/zero.glyph packed")
    filled = glyph_signs.from_pbm("zero", example("zero.pbm"), one.size)
    for even_odd in (False, True):
        need(glyph_signs.from_outlines("zero", one, even_odd) == filled, "the outlines of the 0 and its PBM are not the same")
    return filled


def check_zero(room, filled):
    """The 0 by its PBM and by its outlines, its match map and its picture; afterwards no texel is on the wrong side, and none is flipped again."""
    files = [os.path.join(ROOT, "examples", name) for name in ("zero.bin", "zero.pbm")]
    ran = room.done("--matches", "m", "--picture", "p", *files, "out")
    told = hold(example("zero.bin"), 0.5, filled, room.got("out"), room.got("m").decode(), ran.stdout.decode())
    need(told == "flipped 16 kept 461 ambiguous 3 by vote 1", f"of the 0 it is told {told!r}")
    need(room.got("m") == example("zero.txt"), "examples/zero.txt is not the match map of the 0")
    need(pixels(room.got("p")) == pixels(example("zero.png")), "examples/zero.png is not what tools/glyph draws")
    for words in (["outlines"], ["outlines", "--even-odd"]):
        room.done(files[0], *words, "by")
        need(room.got("by") == room.got("out"), f"the 0 by {' '.join(words)} and by its PBM are not the same")
    need(room.done("out", files[1], "again").stdout == b"size 20 24 3\nflipped 0 kept 477 ambiguous 3 by vote 0\n", "the corrected 0 is not right")
    need(room.got("again") == room.got("out"), "the corrected 0 changes again")


# ---- words, files and refusals

def check_bad(room):
    """What is refused before the library is asked."""
    room.put("in", cases.bitmap(2, 3, 3, cases.PLAIN, [], [0.0] * 18))
    room.put("nan", cases.bitmap(2, 3, 3, cases.PLAIN, [cases.contour((7, 0.0, 0.0)), cases.contour((7, 0.0, 1.0), (7, math.nan, 1.0))], [0.0] * 18))
    room.put("far", cases.bitmap(2, 3, 3, cases.PLAIN, [cases.contour((7, 1048577.0, 0.0))], [0.0] * 18))
    room.put("ok", b"P1 2 3 000000")
    room.put("out", b"as it was")
    tried = 0
    for data, says in bad_pbms():
        room.put("f", data)
        room.refuses(1, says, "in", "f", "out")
        room.refuses(1, says.replace("f:", "-:", 1), "in", "-", "out", given=data)
        tried += 2
    for status, says, words in (
            (1, "none: cannot be read: No such file", ["none", "ok", "out"]), (1, "none: cannot be read: No such file", ["in", "none", "out"]),
            (1, "ok: byte 0: the size should begin here", ["ok", "ok", "out"]), (1, "in: there is no contour to fill", ["in", "outlines", "out"]),
            (1, "nan: segment 1 of contour 1 starts at nan 1, not at numbers", ["nan", "outlines", "out"]),
            (1, "far: segment 0 of contour 0 starts at 1.04858e+06 0, not", ["far", "outlines", "out"]),
            (2, "signs takes FIELDS FILLED OUT, and 2 words", ["in", "ok"]), (2, "signs has no option '--one'", ["--one", "in", "ok", "out"]),
            (2, "--even-odd is for outlines", ["--even-odd", "in", "ok", "out"]), (2, "--height is for --picture", ["--height", "9", "in", "ok", "out"]),
            (2, "--height takes a whole number", ["--picture", "p", "--height", "x", "in", "ok", "out"]), (2, "--zero stands twice", ["--zero", "1", "--zero", "1", "in", "ok", "out"]),
            (2, "--zero takes a number: 'half' is not a zero value", ["--zero", "half", "in", "ok", "out"]), (2, "--zero takes a number, not ''", ["in", "ok", "out", "--zero"]),
            (2, "--zero takes a number: '1e60' is too large", ["--zero", "1e60", "in", "ok", "out"]),
            (2, "--picture takes the name of a file, not ''", ["in", "ok", "out", "--picture"]),
            (2, "--matches takes the name of a file, not '--zero'", ["--matches", "--zero", "1", "in", "ok", "out"]),
            (2, "OUT and --picture are both 'out'", ["--picture", "out", "in", "ok", "out"]), (2, "OUT and --matches are both '-'", ["--matches", "-", "in", "ok", "-"]),
            (2, "FIELDS and FILLED cannot both be standard input", ["-", "-", "out"])):
        room.refuses(status, says, *words)
        tried += 1
    return tried


def check_refusals(room):
    """What the library refuses, with its number and place."""
    room.put("out", b"as it was")
    good = [0.25] * 18
    room.put("in", cases.bitmap(2, 3, 3, cases.PLAIN, [], good))
    room.put("f", b"P1 2 3 111000")
    tried = 0
    for place, value, says in ((0, math.nan, "nan"), (7, math.inf, "inf"), (17, 1048576.125, "1048576.1"), (11, -1048577.0, "-1048577"), (16, 0x7FC00001, "nan")):
        samples = list(good)
        samples[place] = value
        room.put("bad", cases.bitmap(2, 3, 3, cases.PLAIN, [], samples))
        where = f"channel {place % 3} of texel {place // 3 % 2} {place // 6}"
        room.refuses(1, f"bad: refused 6, place {place}: {where} is {says}, not a number of size up to 1048576\n", "--zero", "nan", "bad", "f", "out")
        tried += 1
    for word, says in (("nan", "nan"), ("inf", "inf"), ("-inf", "-inf"), ("2000000", "2e+06"), ("-1048576.125", "-1048576.1"), ("0xFF800000", "-inf")):
        room.refuses(1, f"in: refused 10, place 0: the zero value is {says}, not a number of size up to 1048576\n", "--zero", word, "--matches", "m", "--picture", "p", "in", "f", "out")
        tried += 1
    for size, says in (((2, 3, 2), "1, place 0: the field has 2 channels, and there are 1, 3 or 4"), ((2, 3, 5), "1, place 0: the field has 5"), ((2, 3, 0), "1, place 0: the field has 0"),
                       ((4097, 1, 1), "2, place 0: the field is 4097 x 1, and a side is from 1 to 4096"), ((0, 2, 3), "2, place 0: the field is 0 x 2"),
                       ((2, 0, 3), "2, place 0: the field is 2 x 0"), ((0, 0, 7), "1, place 0: the field has 7 channels")):
        room.put("bad", cases.bitmap(*size, cases.PLAIN, [], [math.nan] * (size[0] * size[1] * size[2])))
        room.put("g", b"P1 %d %d\n" % size[:2] + b"0" * (size[0] * size[1]))
        room.refuses(1, f"bad: refused {says}", "--zero", "nan", "bad", "g", "out")
        tried += 1
    room.put("wide", cases.bitmap(4096, 1, 1, cases.PLAIN, [], [0.0] * 4096))
    room.put("g", b"P1 4096 1\n" + b"0" * 4096)
    room.refuses(1, "wide: drawn 32 pixels high it would be 131072 wide", "--picture", "p", "wide", "g", "out")
    room.refuses(1, "nowhere/out: cannot be written: No such file", "in", "f", "nowhere/out")
    os.mkdir(os.path.join(room.path, "folder"))
    room.refuses(1, "folder: cannot be written: Is a directory", "in", "f", "folder")
    room.refuses(1, "folder: cannot be written: Is a directory", "--matches", "folder", "in", "f", "out")
    return tried + 4


def check_files(room):
    """A dash is standard input or output, and then what is printed goes to standard error; OUT may be FIELDS; a link stays a link; nothing else is left behind."""
    files = [os.path.join(ROOT, "examples", name) for name in ("zero.bin", "zero.pbm")]
    says = room.done(*files, "out").stdout
    out = room.got("out")
    for words, given in ((["-", files[1], "to"], example("zero.bin")), ([files[0], "-", "to"], example("zero.pbm"))):
        need(room.done(*words, given=given).stdout == says and room.got("to") == out, f"{' '.join(words)} is another correction")
    for words, wanted in (([*files, "-"], out), (["--matches", "-", *files, "to"], example("zero.txt"))):
        ran = room.done(*words)
        need(ran.stdout == wanted and ran.stderr == says, f"{' '.join(words)} does not write to standard output")
    ran = room.done("--picture", "-", "--height", "9", *files, "to")
    need(pixels(ran.stdout)[0] > 0 and ran.stderr == says, "the picture does not go to standard output")
    room.put("to", example("zero.bin"))
    os.symlink("to", os.path.join(room.path, "link"))
    room.done("link", files[1], "link")
    need(os.path.islink(os.path.join(room.path, "link")) and room.got("to") == out, "OUT in the place of FIELDS, through a link")
    need(sorted(os.listdir(room.path)) == ["link", "out", "to"], f"files are left: {sorted(os.listdir(room.path))}")


# ---- pictures

class Told:
    """Signs as a picture wants them, with each texel of this fate."""

    def __init__(self, width, height, channels, value, fate, fourth):
        self.glyph, self.zero = glyph.from_fields("in", cases.bitmap(width, height, channels, cases.PLAIN, [], [value] * (width * height * channels))), HALF
        self.rows = self.glyph.rows
        self.fates = lambda: [[fate] * width] * height
        self.fourth = lambda: {(x, y) for y in range(height) for x in range(width)} if fourth else set()


def check_pictures():
    """At every size and on every grey one tells what became of a texel, and nothing runs off the picture, the legend with its largest counts included."""
    kinds = [(fate, fourth) for fate in "-v0+" for fourth in (False, True)]
    for step in range(3, 25):
        for value in (0.0, 0.25, 0.5, 0.75, 1.0):
            seen = set()
            for fate, fourth in kinds:
                told, picture = Told(1, 1, 4, value, fate, fourth), pictures.Picture(step + 2, step + 2)
                place = pictures.places(1, 1, step, 1)
                colours = pictures.draw_texels(picture, place, step, pictures.texels(told.rows, 4))
                pictures.draw_sign_marks(picture, place, step, colours, told)
                need(all(len(line) == 3 * (step + 2) for line in picture.data), f"a mark of {step} pixels runs off the picture")
                seen.add(b"".join(picture.data))
            need(len(seen) == len(kinds), f"marks of {step} pixels on {value} look alike")
    seen = set()
    for channels, fate in ((4, "-"), (4, "v"), (4, "0"), (3, "-"), (1, "-")):
        picture = pictures.Picture(*pictures.LEGEND)
        side = 12288 // channels
        pictures.draw_sign_legend(picture, 0, 0, Told(side, 1, channels, 0.5, fate, channels == 4))
        need(len(picture.data) == pictures.LEGEND[1] and all(len(line) == 3 * pictures.LEGEND[0] for line in picture.data), "the legend runs off the picture")
        seen.add(b"".join(picture.data))
    need(len(seen) == 5, "legends of different answers look alike")
    for width, height, channels in ((1, 1, 1), (2, 1, 3), (1, 2, 4), (1, 300, 1), (300, 1, 4)):
        pixels(pictures.draw_signs(Told(width, height, channels, 0.5, "v", False), 4))


def main():
    count, rng, library = int(sys.argv[1]), random.Random(int(sys.argv[2])), sys.argv[3:] == ["--library"]
    check_pbms(rng, 10 * count)
    check_outlines(rng, 5 * count)
    filled = check_example()
    check_pictures()
    tests = [lambda room: (check_bad(room), "bad files and calls")]
    if library:
        tests += [lambda room: (check_refusals(room), "refusals"), lambda room: check_zero(room, filled), check_files, lambda room: check_random(room, rng, count)]
    tried = []
    for test in tests:
        with tempfile.TemporaryDirectory() as path:
            tried.append(test(Room(path, need, "signs")))
    print(f"tests/glyph: signs: the 0, {10 * count} PBMs, {5 * count} outlines, " + ", ".join(f"{n} {what}" for n, what in filter(None, tried))
          + (f", {count} fields against a second reading" if library else ", without the library"))


main()
