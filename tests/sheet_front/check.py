"""check.py COUNT SEED [JUDGE]: what tests/sheet_front/run promises."""
import os
import random
import re
import struct
import subprocess
import sys
import tempfile

sys.dont_write_bytecode = True
ROOT = os.path.dirname(os.path.dirname(os.path.dirname(os.path.abspath(__file__))))
FRONT = os.path.join(ROOT, "rungtwine")
sys.path[:0] = [os.path.join(ROOT, "tests", "reading"), os.path.join(ROOT, "examples"), os.path.join(ROOT, "tools")]
import cases
import glyph_forms as glyph
import pair
from glyph_answer import Answer

BITS = {"protected": "PBCD", "error": "EBD", "corner": "CD"}


def need(true, what):
    if not true:
        sys.exit(f"tests/sheet_front: {what}")


def example(name):
    with open(os.path.join(ROOT, "examples", name), "rb") as f:
        return f.read()


def put(room, name, data):
    with open(os.path.join(room, name), "wb") as f:
        f.write(data if isinstance(data, bytes) else data.encode())


def got(room, name):
    with open(os.path.join(room, name), "rb") as f:
        return f.read()


def run(room, *words):
    return subprocess.run([FRONT, "sheet", *words], cwd=room, capture_output=True, text=True, stdin=subprocess.DEVNULL)


# ---- sheets

class Cell:
    """A cell with its mode, its four settings as bits and its contours, lists of colour, x and y as bits."""

    def __init__(self, area, mode, settings, contours):
        self.area, self.mode, self.settings, self.contours = area, mode, settings, contours


class Sheet:
    """A sheet with its samples as bits."""

    def __init__(self, size, samples, cells):
        self.size, self.samples, self.cells = size, samples, cells

    def places(self, cell):
        """Where the cell's samples lie in the sheet, in the order of the cell cut out."""
        (width, _, channels), (x, y, w, h) = self.size, cell.area
        return [(v * width + u) * channels + c for v in range(y, y + h) for u in range(x, x + w) for c in range(channels)]

    def alone(self, cell):
        """The cell cut out, as tools/glyph has it."""
        one, (_, _, w, h), channels = glyph.Glyph(), cell.area, self.size[2]
        one.size, one.mode, one.settings, one.contours = (w, h, channels), cell.mode, cell.settings, cell.contours
        cut = [self.samples[k] for k in self.places(cell)]
        one.rows = [cut[i:i + w * channels] for i in range(0, len(cut), w * channels)]
        return one


def judged(judge, sheet):
    """Of each cell what the judge says of it alone, and it as tools/glyph has it."""
    alone = [sheet.alone(cell) for cell in sheet.cells]
    answers = cases.judged(judge, [glyph.to_fields(one, "cell") for one in alone]) if alone else []
    return [(text.decode(), one) for text, one in zip(answers, alone)]


def raw(samples):
    return struct.pack(f"<{len(samples)}I", *samples)


def pfm(size, samples, scale):
    return f"PF\n{size[0]} {size[1]}\n{scale}\n".encode() + struct.pack(f"{'<' if float(scale) < 0 else '>'}{len(samples)}I", *samples)


def bands(cells):
    """The numbers of the cells by bands, from the bottom: those that share rows, or that a chain of such joins, are in one."""
    found = []
    for c in sorted(range(len(cells)), key=lambda c: (cells[c].area[1], c)):
        low, high = cells[c].area[1], cells[c].area[1] + cells[c].area[3]
        if found and low < found[-1][0]:
            found[-1] = (max(high, found[-1][0]), found[-1][1] + [c])
        else:
            found.append((high, [c]))
    return [sorted(band) for _, band in found]


def expected(sheet, told):
    """The lines that are printed but the last, and the samples that are left."""
    samples, lines, sums = list(sheet.samples), [], dict.fromkeys([*BITS, "tests"], 0)
    for band in bands(sheet.cells):
        for c in band:
            text, one = told[c]
            answer, cell = Answer("judge", text, one), sheet.cells[c]
            counts = {name: sum(row.count(letter) for row in answer.rows for letter in letters) for name, letters in BITS.items()}
            x, y, w, h = cell.area
            lines.append(f"{len(lines) + 1} of {len(sheet.cells)}: cell {c} at {x} {y}, {w} x {h}: " + " ".join(f"{k} {v}" for k, v in counts.items())
                         + (f" tests {answer.tests}" if len(band) == 1 else ""))
            for name in BITS:
                sums[name] += counts[name]
            sums["tests"] += answer.tests
            for k, v in zip(sheet.places(cell), [v for row in answer.corrected() for v in row]):
                samples[k] = v
    texels = sum(cell.area[2] * cell.area[3] for cell in sheet.cells)
    lines.append(f"{len(sheet.cells)} cell{'' if len(sheet.cells) == 1 else 's'}, {texels} texels: " + " ".join(f"{k} {v}" for k, v in sums.items()))
    return lines, samples


# ---- random sheets

def areas(rng, width, height):
    """Areas that do not overlap, in any order: the sheet is cut in two and again, and some of the pieces are left out or made smaller."""
    pieces, done = [(0, 0, width, height)], []
    while pieces:
        x, y, w, h = pieces.pop()
        if max(w, h) > 1 and (w * h > 64 or rng.random() < 0.6):
            if w > 1 and (h == 1 or rng.random() < 0.5):
                at = rng.randrange(1, w)
                pieces += [(x, y, at, h), (x + at, y, w - at, h)]
            else:
                at = rng.randrange(1, h)
                pieces += [(x, y, w, at), (x, y + at, w, h - at)]
        elif rng.random() < 0.8:
            if rng.random() < 0.5:
                a, b = rng.randrange(w), rng.randrange(h)
                x, y, w, h = x + a, y + b, rng.randrange(1, w - a + 1), rng.randrange(1, h - b + 1)
            done.append((x, y, w, h))
    rng.shuffle(done)
    return done


def chance(rng):
    width, height, channels = rng.randrange(1, 25), rng.randrange(1, 25), rng.choice((3, 3, 4))
    values = rng.choice(((0.0, 0.25, 0.5, 0.75, 1.0), (-0.0, 0.0, 1.0, 0.5), None))
    samples = [glyph.bits_of(rng.choice(values) if values else rng.uniform(-0.5, 1.5), False) for _ in range(width * height * channels)]
    def wide(v):
        return glyph.bits_of(v, True)
    def some(area):
        settings = [wide(rng.choice((0.0, 1.0, 10 / 9, 3.0)))] + [wide(rng.choice((0.0, 0.0625, 0.25, 0.5, rng.random()))) for _ in range(3)]
        contours = [[(rng.randrange(8), wide(rng.uniform(-2, area[2] + 2)), wide(rng.uniform(-2, area[3] + 2))) for _ in range(rng.randrange(5))]
                    for _ in range(rng.randrange(4))]
        return Cell(area, rng.choice((0, 1, 2, 2, 2, 3)), settings, contours)
    return Sheet((width, height, channels), samples, [some(area) for area in areas(rng, width, height)])


def spoil(rng, sheet):
    """Something that the cells' own checks refuse, in one cell or in some; or NaN outside every cell, which nothing refuses."""
    inside = {k for cell in sheet.cells for k in sheet.places(cell)}
    outside = [k for k in range(len(sheet.samples)) if k not in inside]
    for _ in range(rng.randrange(1, 3)):
        kind, cell = rng.randrange(5), rng.choice(sheet.cells) if sheet.cells else None
        if kind == 0 and outside:
            sheet.samples[rng.choice(outside)] = 0x7FC00000
        elif cell and kind == 1:
            cell.mode = rng.choice((4, 255))
        elif cell and kind == 2:
            cell.settings[rng.randrange(4)] = glyph.bits_of(rng.choice((-1.0, float("nan"), float("inf"), 1048577.0)), True)
        elif cell and kind == 3:
            sheet.samples[rng.choice(sheet.places(cell))] = rng.choice((0x7FC00000, 0x7F800000, 0xFF800000, 0x49800001))
        elif cell and kind == 4:
            cell.contours.append([(rng.choice((3, 8, 255)), glyph.bits_of(rng.choice((0.5, float("nan"), -1048577.0)), True), glyph.bits_of(0.5, True))])


def described(rng, sheet, file):
    """A description of it, in words that vary."""
    def name(names, n):
        return rng.choice((names[n], names[n].lower(), str(n))) if n < len(names) else str(n)
    def value(bits):
        return rng.choice((glyph.shown(bits, True), f"0x{bits:016X}", f"0x{bits:016x}"))
    def setting(kind, mode, settings):
        return {"mode": lambda: f"mode {name(glyph.MODES, mode)}", "ratio": lambda: f"ratio {value(settings[0])}",
                "lengths": lambda: "lengths " + " ".join(map(value, settings[1:]))}[kind]()
    kinds, first = ["mode", "ratio", "lengths"], sheet.cells[0] if sheet.cells else Cell((0, 0, 1, 1), 1, [0] * 4, [])
    common = [kind for kind in kinds if rng.random() < 0.5]
    rng.shuffle(common)
    lines = ["# a sheet", "", "sheet {} {} {}".format(*sheet.size), f"samples {file}"] + [setting(kind, first.mode, first.settings) for kind in common]
    for cell in sheet.cells:
        lines.append("cell {} {} {} {}".format(*cell.area))
        same = {"mode": cell.mode == first.mode, "ratio": cell.settings[0] == first.settings[0], "lengths": cell.settings[1:] == first.settings[1:]}
        parts = [[setting(kind, cell.mode, cell.settings)] for kind in kinds if kind not in common or not same[kind] or rng.random() < 0.3]
        parts += [["contour"] + [f"  {name(glyph.COLOURS, c)} {value(x)} {value(y)}" for c, x, y in contour] for contour in cell.contours]
        if rng.random() < 0.5:
            order = iter([part for part in parts if part[0] == "contour"])
            rng.shuffle(parts)
            parts = [next(order) if part[0] == "contour" else part for part in parts]
        lines += [line for part in parts for line in part]
    text = "".join(line + rng.choice(("\n", "\n", " # more\n", "\r\n", "\n\n")) for line in lines)
    return text.replace(" ", "\t") if rng.random() < 0.1 else text


def check_random(count, seed, judge):
    rng, refused, flagged = random.Random(seed), 0, 0
    with tempfile.TemporaryDirectory() as room:
        os.mkdir(os.path.join(room, "in"))
        for i in range(count):
            sheet = chance(rng)
            if i % 4 == 3:
                spoil(rng, sheet)
            scale = rng.choice((None, "-1.0", "1.0", "-2", "1e0")) if sheet.size[2] == 3 else None
            file = "s.pfm" if scale else "s.f32"
            held = pfm(sheet.size, sheet.samples, scale) if scale else raw(sheet.samples)
            text = described(rng, sheet, file)
            put(room, "in/a.sheet", text)
            put(room, f"in/{file}", held)
            told = judged(judge, sheet)
            ran = run(room, "in/a.sheet", "out")
            bad = [(c, re.fullmatch(r"refused (\d+) (\d+)\n", answer)) for c, (answer, _) in enumerate(told) if answer.startswith("refused")]
            if bad:
                c, found = bad[0]
                need(ran.returncode == 1 and f": refused {found[1]}, cell {c}, place {found[2]}: cell {c} at " in ran.stderr and not ran.stdout and not os.path.exists(os.path.join(room, "out")),
                     f"sheet {i} of seed {seed} should be refused {found[1]}, cell {c}, place {found[2]}, and ended with {ran.returncode}, {ran.stderr!r}")
                refused += 1
            else:
                lines, samples = expected(sheet, told)
                said = ran.stdout.split("\n")
                need(ran.returncode == 0 and not ran.stderr and said[:-2] == lines and re.fullmatch(r"\d+\.\d{6} s, \d+ ns a texel", said[-2]) and said[-1] == "",
                     f"sheet {i} of seed {seed} should print {lines}, and printed {ran.stdout!r} {ran.stderr!r}")
                need(got(room, "out") == (pfm(sheet.size, samples, scale) if scale else raw(samples)), f"sheet {i} of seed {seed} leaves other samples")
                flagged += samples != sheet.samples
                os.remove(os.path.join(room, "out"))
            need(got(room, f"in/{file}") == held and sorted(os.listdir(room)) == ["in"], f"sheet {i} of seed {seed} leaves {os.listdir(room)}")
            os.remove(os.path.join(room, "in", file))
    need(count < 100 or refused > count // 20 and flagged > count // 4, f"of {count} sheets only {refused} were refused and {flagged} changed")
    return refused


# ---- the example

def check_example(judge):
    for made, name in ((pair.description().encode(), "pair.sheet"), (pair.samples(), "pair.f32")):
        need(made == example(name), f"examples/pair.py no longer writes examples/{name}")
    with tempfile.TemporaryDirectory() as room:
        ran = run(room, os.path.join(ROOT, "examples", "pair.sheet"), "out.f32")
        need(ran.returncode == 0 and ran.stdout.rsplit("\n", 2)[0] + "\n" == example("pair.txt").decode(), f"the example prints {ran.stdout!r} {ran.stderr!r}")
        if judge:
            def wide(*values):
                return [glyph.bits_of(v, True) for v in values]
            data, settings = example("pair.f32"), wide(pair.RATIO, *pair.LENGTHS)
            contour = [(colour, *wide(x, y)) for colour, x, y in pair.POINTS]
            lower, upper = ((*place, pair.SIDE, pair.SIDE) for place in pair.CELLS)
            sheet = Sheet((pair.WIDTH, pair.HEIGHT, 3), [*struct.unpack(f"<{len(data) // 4}I", data)], [Cell(lower, 2, settings, [contour]), Cell(upper, 3, settings, [])])
            lines, samples = expected(sheet, judged(judge, sheet))
            need("\n".join(lines) + "\n" == example("pair.txt").decode(), f"examples/pair.txt is not what the judge says: {lines}")
            need(got(room, "out.f32") == raw(samples), "the example leaves other samples than the judge says")


# ---- what is refused, and what is bad

HEAD = "sheet 4 2 3\nsamples s.f32\nmode 1\nratio 1\nlengths 1 1 1\n"
GOOD = HEAD + "cell 0 0 2 2\ncell 2 0 2 1\ncontour\n  red 1 1\n"
SAMPLES = struct.pack("<24f", *[0.5] * 24)
PFM = b"PF\n4 2\n-1.0\n" + SAMPLES


def with_sample(k, bits):
    return SAMPLES[:4 * k] + struct.pack("<I", bits) + SAMPLES[4 * k + 4:]


def refusals():
    """A description and samples that are refused, and the message. Where two checks would fail the first answers."""
    def cells(*areas):
        return HEAD + "".join(f"cell {area}\n" for area in areas)
    yield GOOD.replace("4 2 3", "4 2 2"), SAMPLES[:64], "a.sheet:1:1: refused 1, cell 0, place 0: the sheet has 2 channels"
    yield "sheet 4097 1 5\nsamples s.f32\n", bytes(4 * 4097 * 5), "a.sheet:1:1: refused 1, cell 0, place 0: the sheet has 5 channels"
    yield "sheet 4097 1 3\nsamples s.f32\n", bytes(4 * 4097 * 3), "a.sheet:1:1: refused 50, cell 0, place 0: the sheet is 4097 x 1"
    yield "sheet 1 4097 4\nsamples s.f32\n", bytes(4 * 4097 * 4), "a.sheet:1:1: refused 50, cell 0, place 0: the sheet is 1 x 4097"
    for size in ("0 2", "4 0", "0 0"):
        yield GOOD.replace("sheet 4 2", f"sheet {size}"), b"", f"a.sheet:1:1: refused 50, cell 0, place 0: the sheet is {size.replace(' ', ' x ')}"
    yield HEAD + "cell 9 9 9 9\n" * 4097, SAMPLES, "a.sheet:1:1: refused 50, cell 0, place 0: the sheet has 4097 cells, and 4096 are the most"
    for area in ("0 0 0 1", "0 0 1 0"):
        yield cells("1 1 1 1", area, "9 9 9 9"), SAMPLES, f"a.sheet:7:1: refused 51, cell 1, place 0: cell 1 at 0 0, {area[4:].replace(' ', ' x ')}: it is empty"
    for area in ("4 0 1 1", "0 2 1 1", "3 0 2 1", "0 1 1 2", "0 0 5 1", "0 0 1 3", "4294967295 0 4294967295 1", "0 4294967295 1 4294967295"):
        x, y, w, h = area.split()
        yield cells("0 0 1 1", "0 0 1 1", area), SAMPLES, f"a.sheet:8:1: refused 51, cell 2, place 0: cell 2 at {x} {y}, {w} x {h}: it does not lie inside the sheet of 4 x 2"
    for area in ("0 0 4 2", "1 0 1 1", "0 1 2 1", "1 1 3 1"):
        yield (cells("3 0 1 1", "0 0 2 2", area, "0 0 1 1").replace("mode 1", "mode 9"), SAMPLES,
               f"a.sheet:8:1: refused 52, cell 2, place 0: cell 2 at {area[:3]}, {area[4:].replace(' ', ' x ')}: it overlaps cell {0 if area == '0 0 4 2' else 1} at ")
    yield GOOD.replace("mode 1", "mode 4"), with_sample(0, 0x7FC00000), "a.sheet:6:1: refused 5, cell 0, place 0: cell 0 at 0 0, 2 x 2: its mode is 4"
    for place, (old, new, what) in enumerate((("ratio 1", "ratio -1", "ratio is -1"), ("lengths 1", "lengths nan", "horizontal length is nan"),
                                              ("1 1 1\ncell", "1 inf 1\ncell", "vertical length is inf"), ("1 1 1\ncell", "1 1 1048577\ncell", "diagonal length is 1.04858e+06")), 1):
        yield GOOD.replace(old, new, 1), SAMPLES, f"a.sheet:6:1: refused 5, cell 0, place {place}: cell 0 at 0 0, 2 x 2: its {what}, not a number from 0 to 1048576"
    yield GOOD + "mode 7\nratio -1\n", SAMPLES, "a.sheet:7:1: refused 5, cell 1, place 0: cell 1 at 2 0, 2 x 1: its mode is 7"
    yield (GOOD.replace("red", "8"), with_sample(16, 0x7FC00000),
           "a.sheet:6:1: refused 6, cell 0, place 10: cell 0 at 0 0, 2 x 2: channel 1 of its texel 1 1, which is 1 1 of the sheet, is nan")
    yield (GOOD, with_sample(9, 0xFF800000),
           "a.sheet:7:1: refused 6, cell 1, place 3: cell 1 at 2 0, 2 x 1: channel 0 of its texel 1 0, which is 3 0 of the sheet, is -inf, not a number of size up to 1048576")
    yield HEAD + "cell 2 0 2 1\ncontour\n" + "0 0 0\n" * 65537, SAMPLES, "a.sheet:6:1: refused 7, cell 0, place 0: cell 0 at 2 0, 2 x 1: it has 65537 segments, and 65536 are the most"
    yield GOOD.replace("red", "green 0 0 8"), SAMPLES, "a.sheet:7:1: refused 9, cell 1, place 1: cell 1 at 2 0, 2 x 1: its segment 1 has the colour 8, and 7 is the last"
    yield (GOOD.replace("contour\n", "contour\ncontour\n0 0 0\ncontour\n").replace("red 1 1", "red 1 -1e7"), SAMPLES,
           "a.sheet:7:1: refused 9, cell 1, place 1: cell 1 at 2 0, 2 x 1: its segment 1 starts at 1 -1e+07, not at numbers of size up to 1048576")


def bad_descriptions():
    """A description with one thing wrong, and the place and the words of the message."""
    yield "", "a.sheet:1:1: 'sheet' should stand here, and the file ends"
    yield "# nothing\n", "a.sheet:2:1: 'sheet' should stand here, and the file ends"
    yield "size 4 2 3\n", "a.sheet:1:1: 'sheet' should stand here, not 'size'"
    yield "# ä\n ä sheet", "a.sheet:2:2: 'sheet' should stand here, not 'ä'"
    yield "sheet 4 x 3\n", "a.sheet:1:9: 'x' is not the height: a whole number up to 65535"
    yield "sheet 4 2", "a.sheet:1:10: the file ends where the number of channels should stand"
    yield "sheet 65536 2 3", "a.sheet:1:7: the width is 65536, and at most 65535 can be written"
    yield "sheet 4 99999999999999999999999999 3", "a.sheet:1:9: the height is 99999999999999999999999999, and at most 65535"
    yield "sheet 4 2 256", "a.sheet:1:11: the number of channels is 256, and at most 255"
    yield "sheet 4 -2 3", "a.sheet:1:9: '-2' is not the height"
    yield "sheet 4 2 3\nmode 1", "a.sheet:2:1: 'samples' should stand here, not 'mode'"
    yield "sheet 4 2 3\nsamples", "a.sheet:2:8: the file ends where the samples' file should stand"
    yield GOOD.replace("s.f32", "s.bin"), "a.sheet:2:9: 's.bin' ends neither in .f32 nor in .pfm"
    yield GOOD.replace("mode 1", "mode Edge"), "a.sheet:3:6: 'Edge' is not the mode: one of Disabled, Indiscriminate, EdgePriority, EdgeOnly, or a whole number up to 255"
    yield GOOD.replace("mode 1", "mode 256"), "a.sheet:3:6: the mode is 256, and at most 255 can be written"
    yield GOOD.replace("mode 1", "mode 1 mode 2"), "a.sheet:3:8: 'mode' stands here for the second time"
    yield GOOD.replace("mode 1\n", ""), "a.sheet:5:1: cell 0 has no mode, and there is none before the first cell"
    yield GOOD.replace("ratio 1\n", "").replace("2 2\n", "2 2\nratio 1\n"), "a.sheet:7:1: cell 1 has no ratio"
    yield GOOD.replace("lengths 1 1 1\n", ""), "a.sheet:5:1: cell 0 has no lengths"
    for word in ("one", "1,5", "1e", "e1", ".", "-", "+.e1", "1e+", "1.5.", "infinity", "NaN", "0x1p3", "nan(1)", "1_0"):
        what = "the bits of the ratio: 0x and 16 hex digits" if word.startswith("0x") else "the ratio: a decimal, or 0x and 16 hex digits"
        yield GOOD.replace("ratio 1\n", f"ratio {word}\n"), f"a.sheet:4:7: '{word}' is not {what}"
    for word in ("0x3F800000", "0X", "0x3FF000000000000G", "0x3FF00000000000000"):
        yield GOOD.replace("ratio 1\n", f"ratio {word}\n"), f"a.sheet:4:7: '{word}' is not the bits of the ratio"
    yield GOOD.replace("lengths 1 1 1", "lengths 1 1"), "a.sheet:6:1: 'cell' is not the diagonal length"
    yield GOOD.replace("lengths 1 1 1", "lengths 1 1 1 1"), "a.sheet:5:15: 'mode', 'ratio', 'lengths' or 'cell' should stand here, not '1'"
    yield GOOD.replace("cell 0 0 2 2", "cell 0 0 2"), "a.sheet:7:1: 'cell' is not the cell's height"
    yield GOOD.replace("cell 0 0 2 2", "cell 0 0 2 4294967296"), "a.sheet:6:12: the cell's height is 4294967296, and at most 4294967295"
    yield GOOD.replace("cell 0 0 2 2", "cell 0 0 2 2 2"), "a.sheet:6:14: 'mode', 'ratio', 'lengths', 'contour' or 'cell' should stand here, not '2'"
    yield GOOD.replace("red", "pink"), "a.sheet:9:3: 'pink' is not a colour: one of black, red, green, yellow, blue, magenta, cyan, white, or a whole number up to 255"
    yield GOOD.replace("red", "256"), "a.sheet:9:3: a colour is 256"
    yield GOOD.replace("red 1 1", "red 1"), "a.sheet:10:1: the file ends where a segment's y should stand"
    yield GOOD + "mode 1\nmode 2\n", "a.sheet:11:1: 'mode' stands here for the second time"
    yield GOOD + "row 0\n", "a.sheet:10:1: 'row' is not a colour"
    yield GOOD.replace("red", "x" * 100), f"a.sheet:9:3: '{'x' * 40}...' is not a colour"
    yield GOOD.replace("red", "r\x01\x7fd"), "a.sheet:9:3: 'r??d' is not a colour"


def bad_files():
    """The name of the samples' file, what is in it, and the message."""
    yield "s.f32", SAMPLES[:-1], "s.f32: has 95 bytes of samples, and the sheet's 4 x 2 x 3 take 96: it is 1 too short"
    yield "s.f32", SAMPLES + bytes(3), "s.f32: has 99 bytes of samples, and the sheet's 4 x 2 x 3 take 96: it is 3 too long"
    yield "s.f32", b"", "s.f32: has 0 bytes of samples, and the sheet's 4 x 2 x 3 take 96: it is 96 too short"
    yield "s.f32", None, "s.f32: cannot be read: No such file"
    yield "more/s.f32", None, "more/s.f32: cannot be read: No such file"
    yield "/nowhere/s.f32", None, "/nowhere/s.f32: cannot be read: No such file"
    yield "folder.f32", None, "folder.f32: is no file with a length"
    yield "s.pfm", None, "s.pfm: cannot be read: No such file"
    yield "s.pfm", PFM[:-1], "s.pfm: has 95 bytes of samples, and the sheet's 4 x 2 x 3 take 96: it is 1 too short"
    yield "s.pfm", PFM + b"\n", "s.pfm: has 97 bytes of samples, and the sheet's 4 x 2 x 3 take 96: it is 1 too long"
    for head in (b"", b"PF", b"PF\n4 2\n-1.0", b"P6\n4 2\n255\n", b"\nPF\n4 2\n-1.0\n", b"PF\n" + b" " * 200 + b"4 2\n-1.0\n"):
        yield "s.pfm", head, "s.pfm: this is no PFM: it begins with PF, the width, the height and the byte order"
    yield "s.pfm", PFM.replace(b"PF", b"Pf"), "s.pfm: this PFM has one channel (Pf), and three (PF) are needed"
    yield "s.pfm", PFM.replace(b"4 2", b"3 2"), "s.pfm: this PFM has the width '3', and the sheet has 4"
    yield "s.pfm", PFM.replace(b"4 2", b"4 x"), "s.pfm: this PFM has the height 'x', and the sheet has 2"
    yield "s.pfm", PFM.replace(b"4 2", b"99999999999999999999 2"), "s.pfm: this PFM has the width '99999999999999999999', and the sheet has 4"
    for scale in (b"0", b"x", b"nan", b"inf", b"1e999"):
        yield "s.pfm", PFM.replace(b"-1.0", scale), f"s.pfm: '{scale.decode()}' is not a scale, whose sign tells the byte order"


def check_bad():
    """Each refusal, bad description, bad file and bad call ends with its message and its status, and writes nothing."""
    tried = 0
    with tempfile.TemporaryDirectory() as room:
        def refuses(status, says, *words):
            before = sorted(os.listdir(room))
            ran = run(room, *words)
            need(ran.returncode == status and ran.stderr.startswith(f"rungtwine: {says}") and not ran.stdout and sorted(os.listdir(room)) == before,
                 f"sheet {' '.join(words)} should say {says!r} with status {status}, and said {ran.stderr[-300:]!r} {ran.stdout[-300:]!r} with {ran.returncode} and left {os.listdir(room)}")

        os.mkdir(os.path.join(room, "folder.f32"))
        for text, samples, says in refusals():
            put(room, "a.sheet", text)
            put(room, "s.f32", samples)
            refuses(1, says, "a.sheet", "out")
            tried += 1
        put(room, "s.f32", SAMPLES)
        for text, says in bad_descriptions():
            put(room, "a.sheet", text)
            refuses(1, says, "a.sheet", "out")
            tried += 1
        os.remove(os.path.join(room, "s.f32"))
        for name, data, says in bad_files():
            put(room, "a.sheet", GOOD.replace("s.f32", name))
            if data is not None:
                put(room, name, data)
            refuses(1, says, "a.sheet", "out")
            if data is not None:
                os.remove(os.path.join(room, name))
            tried += 1
        put(room, "s.f32", SAMPLES)
        put(room, "s.pfm", PFM)
        put(room, "a.sheet", GOOD)
        put(room, "b.sheet", GOOD.replace("s.f32", "s.pfm"))
        put(room, "c.sheet", GOOD.replace("s.f32", "s.pfm").replace("4 2 3", "4 2 4"))
        os.symlink("a.sheet", os.path.join(room, "link"))
        os.mkfifo(os.path.join(room, "pipe"))
        for status, says, words in (
                (2, "sheet takes SHEET [OUT], and 0 words were given", []), (2, "sheet takes SHEET [OUT], and 3 words were given", ["a.sheet", "out", "more"]),
                (2, "sheet has no option '--plain'", ["--plain", "a.sheet"]), (2, "sheet has no option '-'", ["-"]), (2, "there is no file 'none'", ["none", "out"]),
                (2, "the file's name is empty", [""]), (2, "'folder.f32' is a folder", ["folder.f32", "out"]), (1, "/dev/null: is no file with a length", ["/dev/null", "out"]),
                (2, "the name of OUT is empty", ["a.sheet", ""]), (2, "'folder.f32' is a folder", ["a.sheet", "folder.f32"]),
                (2, "'pipe' is there and is no plain file", ["a.sheet", "pipe"]), (2, "'a.sheet' is the description itself", ["a.sheet", "a.sheet"]),
                (2, "'link' is the description itself", ["a.sheet", "link"]), (2, "'out.pfm': OUT takes the form of the samples, which are raw floats", ["a.sheet", "out.pfm"]),
                (2, "'out.F32': OUT takes the form of the samples, which are a PFM", ["b.sheet", "out.F32"]),
                (1, "nowhere/out: cannot be written: No such file", ["a.sheet", "nowhere/out"]),
                (1, "c.sheet:1:1: a PFM has three channels, and the sheet has 4", ["c.sheet", "out"])):
            refuses(status, says, *words)
            tried += 1
        check_out(room)
    return tried


def check_out(room):
    """OUT may be there already, be a link, or be the samples themselves; a sheet may have no cell; and the description's folder does not matter to OUT."""
    def writes(says, *words):
        ran = run(room, *words)
        need(ran.returncode == 0 and says in ran.stdout, f"sheet {' '.join(words)} ended with {ran.returncode}, {ran.stdout!r} {ran.stderr!r}")
    put(room, "none.sheet", "sheet 4 2 3\nsamples s.f32\n")
    put(room, "old", "old")
    os.chmod(os.path.join(room, "old"), 0o600)
    os.symlink("old", os.path.join(room, "to_old"))
    writes("0 cells, 0 texels: protected 0 error 0 corner 0 tests 0\n", "none.sheet", "to_old")
    need(got(room, "old") == SAMPLES and os.path.islink(os.path.join(room, "to_old")), "OUT through a link")
    writes("2 cells, 6 texels", "a.sheet", "s.f32")
    need(got(room, "s.f32") == SAMPLES, "OUT over the samples")
    os.mkdir(os.path.join(room, "more"))
    subprocess.run([FRONT, "sheet", "../b.sheet", "here"], cwd=os.path.join(room, "more"), check=True, capture_output=True)
    need(got(room, "more/here") == PFM, "OUT beside where it is called")
    need(not [name for name in os.listdir(room) if name.endswith(".part")], "a part is left")


def main():
    judge = os.path.abspath(sys.argv[3]) if len(sys.argv) > 3 else None
    check_example(judge)
    bad = check_bad()
    count = int(sys.argv[1]) if judge else 0
    refused = check_random(count, int(sys.argv[2]), judge)
    print(f"tests/sheet_front: the example, {count} sheets ({refused} refused) as the judge says of each cell alone, {bad} refusals, bad files and calls")


main()
