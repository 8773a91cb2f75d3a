"""check.py COUNT SEED [JUDGE]: what tests/glyph/run promises."""
import math
import os
import re
import struct
import subprocess
import sys
import tempfile

sys.dont_write_bytecode = True
ROOT = os.path.dirname(os.path.dirname(os.path.dirname(os.path.abspath(__file__))))
TOOL = os.path.join(ROOT, "tools", "glyph")
sys.path[:0] = [os.path.join(ROOT, "tests", "reading"), os.path.join(ROOT, "tools")]
import cases
import glyph_forms as glyph
import glyph_pictures as pictures
from glyph_answer import Answer
from pngs import pixels


def need(true, what):
    if not true:
        sys.exit(f"tests/glyph: {what}")


def example(name):
    with open(os.path.join(ROOT, "examples", name), "rb") as f:
        return f.read()


def there_and_back(data):
    """The place of the breach, or nothing after the input went through every form and came back."""
    try:
        read = glyph.from_fields("in", data)
    except glyph.Bad as e:
        return int(re.match(r"in: byte (\d+): ", str(e))[1])
    text = glyph.to_text(read)
    again = glyph.from_text("in", text)
    need(glyph.to_fields(again, "in") == data, f"{data[:80].hex()} does not come back from its description")
    need(glyph.to_text(again) == text, f"the description of {data[:80].hex()} changes")
    if read.size[2] == 3:
        pfm, settings = glyph.to_pfm("in", read), glyph.to_text(read, False)
        head = pfm.index(b"-1.0\n")
        swapped = pfm[:head] + b"1.0\n" + b"".join(struct.pack(">I", *v) for v in struct.iter_unpack("<I", pfm[head + 5:]))
        for form in (pfm, swapped):
            back = glyph.from_text("in", settings, False)
            glyph.from_pfm("in", form, back)
            need(glyph.to_fields(back, "in") == data, f"{data[:80].hex()} does not come back from PFM")
    return None


def check_inputs(count, seed, judge):
    inputs = [data for _, data in cases.all_cases(count, seed)]
    answers = [text.decode() for text in cases.judged(judge, inputs)] if judge else [None] * len(inputs)
    good, carriers, marks = 0, set(), set()
    for data, says in zip(inputs, answers):
        place = there_and_back(data)
        good += place is None
        if says is not None:
            wanted = re.fullmatch(r"bad input (\d+)\n", says)
            need(place == (int(wanted[1]) if wanted else None), f"{data[:80].hex()} is bad at {place} for tools/glyph, and the judge says {says[:40]!r}")
            if says.startswith("size"):
                carriers |= check_answer(data, says)
                marks |= check_corners(data, says)
    need(not judge or carriers == {0, 1, 2}, f"the inputs' medians are only in channels {carriers}")
    need(not judge or marks == set(".PEBCD"), f"the answers' marks are only {''.join(sorted(marks))}")
    return len(inputs), good


def check_answer(data, says):
    """The corrected field has each flagged texel at its median, as Python sorts it (a zero's sign aside), and the others as they were; the answer names the lowest
    channel that has it. Gives the channels that are named."""
    read = glyph.from_fields("in", data)
    channels = read.size[2]
    answer = Answer("answer", says, read)
    named = {(int(x), int(y)): int(channel) for x, y, channel in re.findall(r"^(\d+) (\d+) [0-9A-F]{8} ch (\d+)$", says, re.M)}
    need(answer.carriers == named, f"the channels of {data[:80].hex()}")
    need(says.split("\n")[1].endswith(f" tests {answer.tests}"), f"the range tests of {data[:80].hex()}")
    plainly = Answer("answer", re.sub(r" tests \d+", "", says, count=1), read)
    need(plainly.tests is None and (plainly.rows, plainly.medians, plainly.carriers) == (answer.rows, answer.medians, answer.carriers), f"the plain engine's answer to {data[:80].hex()}")
    for y, (old, new) in enumerate(zip(read.rows, answer.corrected())):
        for x in range(read.size[0]):
            texel, after = old[x * channels:(x + 1) * channels], new[x * channels:(x + 1) * channels]
            if answer.rows[y][x] in "EBD":
                values = [glyph.value_of(v) for v in texel[:3]]
                middle = sorted(values)[1]
                need([glyph.value_of(v) for v in after[:3]] == [middle] * 3 and after[3:] == texel[3:], f"texel {x} {y} of {data[:80].hex()}")
                need(named[x, y] == min(i for i in range(3) if values[i] == middle), f"the channel of texel {x} {y} of {data[:80].hex()}")
            else:
                need(after == texel, f"texel {x} {y} of {data[:80].hex()}")
    return set(named.values())


def corner_cells(read):
    """The texels around each point where two segments of a contour share at most one channel, in EdgePriority."""
    width, height, _ = read.size
    cells = set()
    for contour in read.contours if read.mode == 2 else []:
        for i, (colour, *point) in enumerate(contour):
            if bin(colour & contour[i - 1][0]).count("1") < 2:
                left, low = (math.floor(glyph.value_of(v, True) - 0.5) for v in point)
                cells |= {(x, y) for x in (left, left + 1) for y in (low, low + 1) if 0 <= x < width and 0 <= y < height}
    return cells


def check_corners(data, says):
    """The answer marks those texels as a corner's and no others, and counts them. Gives the marks that it has."""
    read = glyph.from_fields("in", data)
    answer = Answer("answer", says, read)
    found = {(x, y) for y, row in enumerate(answer.rows) for x, letter in enumerate(row) if letter in "CD"}
    need(found == corner_cells(read) and answer.corners == len(found), f"the corners of {data[:80].hex()}")
    return set("".join(answer.rows))


def check_example(judge):
    fields, text, answer = example("three.bin"), example("three.glyph").decode(), example("three.txt").decode()
    made = subprocess.run([sys.executable, os.path.join(ROOT, "examples", "three.py")], capture_output=True, check=True).stdout.decode()
    need(made == text, "examples/three.py no longer writes examples/three.glyph")
    need(glyph.to_fields(glyph.from_text("three", text), "three") == fields, "examples/three.bin is not examples/three.glyph packed")
    need(there_and_back(fields) is None, "examples/three.bin is bad")
    if judge:
        need(cases.judged(judge, [fields]) == [answer.encode()], "examples/three.txt is not the judge's answer")
    check_answer(fields, answer)
    need(check_corners(fields, answer) == set(".ECP"), "examples/three.txt has not a corner beside an edge")
    with tempfile.TemporaryDirectory() as room:
        out = os.path.join(room, "out.png")
        subprocess.run([TOOL, "draw", "examples/three.bin", "examples/three.txt", out], cwd=ROOT, check=True)
        with open(out, "rb") as f:
            need(pixels(f.read()) == pixels(example("three.png")), "examples/three.png is not what tools/glyph draws")
        for height in ("1", "9", "200"):
            subprocess.run([TOOL, "draw", "--height", height, "examples/three.bin", "examples/three.txt", out], cwd=ROOT, check=True)
            with open(out, "rb") as f:
                pixels(f.read())


def whole(picture, width, height, what):
    need(len(picture.data) == height and all(len(line) == 3 * width for line in picture.data), f"{what} runs off the picture")
    return b"".join(picture.data)


def answered(width, height, value, mark, channel):
    """A field of equal texels, and an answer that marks each of them and names this channel."""
    read = glyph.from_fields("in", cases.bitmap(width, height, 3, cases.PLAIN, [], value * (width * height)))
    answer = Answer("in", f"size {width} {height} 3\nprotected 0 error 0 corner 0 tests {84 * width * height}\n" + ("." * width + "\n") * height, read)
    answer.rows, answer.errors, answer.protected, answer.corners = [mark * width] * height, 4096, 4096, 4096 if mark in "CD" else 0
    answer.carriers = {(x, y): channel for y in range(height) for x in range(width)} if mark in "EBD" else {}
    return read, answer


def check_marks():
    """At every size and on every colour one sees whether a texel is flagged, by which channel, and whether a corner, no corner or nothing protects it.
    Nothing runs off the picture."""
    values = [[r, g, b] for r in (0.0, 0.5, 1.0) for g in (0.0, 0.5, 1.0) for b in (0.0, 0.5, 1.0)]
    for step in range(3, 25):
        for value in values:
            seen = set()
            for mark, channel in (*((mark, 0) for mark in ".PC"), *((mark, channel) for mark in "EBD" for channel in range(3))):
                picture = pictures.Picture(step + 2, step + 2)
                pictures.draw_field(picture, 1, 1, step, *answered(1, 1, value, mark, channel))
                seen.add(whole(picture, step + 2, step + 2, f"a mark of {step} pixels"))
                need(mark in ".PC" or picture.data[0] == picture.data[-1] == b"\xff" * (3 * step + 6), f"a mark of {step} pixels runs over the line around it")
            need(len(seen) == 12, f"marks of {step} pixels on {value} look alike")
    check_legend()
    for width, height in ((1, 1), (2, 1), (1, 2), (1, 300), (300, 1)):
        for mark in "BD":
            pixels(pictures.draw(*answered(width, height, [0.5, 0.5, 0.5], mark, 1), 4))


def check_legend():
    """The legend fits with the largest counts, and tells each channel, a corner, an edge, EdgeOnly's own protection, another number of range tests and none apart."""
    seen = set()
    for mark, channel, mode, less in (("B", 0, 2, 0), ("B", 1, 2, 0), ("B", 2, 2, 0), ("D", 0, 2, 0), ("B", 0, 3, 0), ("B", 0, 2, 1), ("B", 0, 2, None)):
        answer = answered(64, 64, [0.5, 0.5, 0.5], mark, channel)[1]
        answer.glyph.mode, answer.tests = mode, None if less is None else answer.tests - less
        picture = pictures.Picture(*pictures.LEGEND)
        pictures.draw_legend(picture, 0, 0, answer)
        seen.add(whole(picture, *pictures.LEGEND, "the legend"))
    need(len(seen) == 7, "legends of different answers look alike")


GOOD = "size 2 1 3\nmode 1\nratio 1\nlengths 1 1 1\ncontour\n  red 1 1\nrow 0\n  1 0 0.75\n  0 0.75 0.75\n"
ANSWER = "size 2 1 3\nprotected 0 error 2 corner 0 tests 2\nEE\n0 0 3F400000 ch 2\n1 0 3F400000 ch 1\n"


def bad_texts():
    """A description with one thing wrong, and the place and the words of the message."""
    yield "", "a:1:1: 'size' should stand here, and the file ends"
    yield "sise 2 1 3\n", "a:1:1: 'size' should stand here, not 'sise'"
    yield "# nothing\n  size 2 x 3", "a:2:10: 'x' is not the height"
    yield GOOD.replace("size 2 1 3", "size 70000 1 3"), "a:1:6: the width is 70000, and at most 65535"
    yield GOOD.replace("size 2 1 3", "size 4097 1 3"), "a:1:6: width x height x channels is 12291"
    yield GOOD.replace("mode 1", "mode Edge"), "a:2:6: 'Edge' is not the mode: one of Disabled"
    yield GOOD.replace("mode 1", "mode 256"), "a:2:6: the mode is 256"
    yield GOOD.replace("ratio 1\n", "ratio one\n"), "a:3:7: 'one' is not the ratio"
    yield GOOD.replace("ratio 1\n", "ratio 1,5\n"), "a:3:7: '1,5' is not the ratio"
    yield GOOD.replace("ratio 1\n", "ratio 0x3F800000\n"), "a:3:7: '0x3F800000' is not the bits of the ratio: 0x and 16 hex digits"
    yield GOOD.replace("lengths 1 1 1", "lengths 1 1"), "a:5:1: 'contour' is not the diagonal length"
    yield GOOD.replace("red", "pink"), "a:6:3: 'pink' is not a colour: one of black"
    yield GOOD.replace("red 1 1", "red 1"), "a:7:1: 'row' is not a segment's y"
    yield GOOD.replace("row 0", "row 1"), "a:7:5: this is row 0, not 1"
    yield GOOD.replace("0.75", "1e60", 1), "a:8:7: '1e60' is too large for channel 2 of texel 0"
    yield GOOD.replace("  0 0.75 0.75\n", "  0 0.75\n"), "a:10:1: row 0 ends after 5 of its 2 x 3 samples"
    yield GOOD + "  1\n", "a:10:3: nothing should follow here, and '1' does"
    yield GOOD.replace("contour\n", "contour\n" * 65), "a:69:1: this is contour 65"
    yield GOOD.replace("  red 1 1\n", "  red 1 1\n" * 257), "a:262:3: this is segment 257"
    yield GOOD.encode() + b"\xff", "a:10:1: this is no text"
    rows = "".join(f"row {y} 0 0 0\n" for y in range(4096))
    yield "size 1 4096 3\nmode 1\nratio 1\nlengths 1 1 1\ncontour\n" + "red 1 1\n" * 239 + rows, "a: this makes 65553 bytes"


def bad_answers():
    yield "bad input 3\n", "b:1:1: the program answered 'bad input 3'"
    yield "refused 5 1\n", "b:1:1: the program answered 'refused 5 1'"
    yield "", "b:1:1: 'size WIDTH"
    yield ANSWER.replace("2 1 3", "2 2 3"), "b:1:6: this answer is for 2 x 2 x 3"
    yield ANSWER.replace("error 2", "error 1"), "b:2:19: 1 are counted here, and the rows have 2"
    yield ANSWER.replace("protected 0", "protected 1"), "b:2:11: 1 are counted here"
    yield ANSWER.replace("corner 0", "corner 1"), "b:2:28: 1 are counted here, and the rows have 0"
    for tests in (0, 1, 169):
        yield (ANSWER.replace("tests 2", f"tests {tests}"),
               f"b:2:36: {tests} range tests are counted here, and with these flags, size and mode there are from 2 to 168")
    for line in ("protected 0 error 2", "protected 0 error 2 corner 0 ", "protected 0 error 2 corner 0 tests", "protected 0 error 2 corner 0 tests 2 ",
                 "protected 0 error 2 corner 0 tests -2", "protected 0 error 2 tests 2 corner 0", "protected 0 corner 0 error 2 tests 2", "tests 2"):
        yield ANSWER.replace("protected 0 error 2 corner 0 tests 2", line), "b:2:1: 'protected COUNT error COUNT corner COUNT', and 'tests COUNT' unless the plain engine answers, should stand here"
    yield ANSWER.replace("EE", "EX"), "b:3:1: row 0, 2 letters of . P E B C D"
    yield ANSWER.replace("EE", "EB"), "b:2:11: 0 are counted here, and the rows have 1"
    yield ANSWER.replace("EE", "ED").replace("protected 0", "protected 1"), "b:2:28: 0 are counted here, and the rows have 1"
    yield ANSWER.replace("EE", "ED").replace("corner 0", "corner 1"), "b:2:11: 0 are counted here, and the rows have 1"
    yield (ANSWER.replace("EE", "ED").replace("protected 0", "protected 1").replace("corner 0", "corner 1"),
           "b:2:28: the program asks corners in EdgePriority alone, and this field has another mode")
    yield ANSWER.replace("1 0 3F", "0 0 3F"), "b:5:1: the next flagged texel is 1 0, not 0 0"
    yield ANSWER.replace("1 0 3F400000 ch 1\n", ""), "b:5:1: '1 0 BITS ch CHANNEL', a flagged texel with its median and channel 0, 1 or 2, should stand here"
    for line in ("0 0 3F400000", "0 0 3F400000 ch", "0 0 3F400000 ch 3", "0 0 3F400000 ch 02", "0 0 3F400000 2", "0 0 3F400000 ch 2 "):
        yield ANSWER.replace("0 0 3F400000 ch 2", line, 1), "b:4:1: '0 0 BITS ch CHANNEL'"
    yield ANSWER.replace("ch 1", "ch 0"), "b:5:17: texel 1 0 has its median first in channel 1 in the field, not in 0"
    yield ANSWER.replace("ch 1", "ch 2"), "b:5:17: texel 1 0 has its median first in channel 1 in the field, not in 2"
    yield ANSWER.replace("1 0 3F400000", "1 0 3F400001"), "b:5:5: texel 1 0 has the median 3F400000 in the field, not 3F400001: this answer is for another field"
    yield ANSWER.replace("0 0 3F400000 ch 2", "0 0 3F800000 ch 0"), "b:4:5: texel 0 0 has the median 3F400000 in the field, not 3F800000"
    yield ANSWER + "more\n", "b:6:1: nothing should follow"


def bad_pfms():
    samples = bytes(24)
    yield b"", "c:1:1: this is no PFM"
    yield b"P6\n2 1\n255\n", "c:1:1: this is no PFM"
    yield b"Pf\n2 1\n-1.0\n" + samples, "c:1:1: this PFM has one channel"
    yield b"PF\nx 1\n-1.0\n" + samples, "c:2:1: 'x' is not a width"
    yield b"PF\n2 -1\n-1.0\n" + samples, "c:2:3: '-1' is not a height"
    yield b"PF\n2 1\n0\n" + samples, "c:3:1: '0' is not a scale"
    yield b"PF\n200 100\n-1.0\n" + samples, "c:2:1: 200 x 100 x 3 is 60000 samples"
    yield b"PF\n2 1\n-1.0\n" + samples[1:], "c: 24 bytes of samples should follow byte 12, and 23 do"


def check_bad():
    """Each bad file and each bad call ends with its message and its status, and writes nothing."""
    tried = 0
    with tempfile.TemporaryDirectory() as room:
        def put(name, data):
            with open(os.path.join(room, name), "wb") as f:
                f.write(data if isinstance(data, bytes) else data.encode())

        def refuses(status, says, *words):
            ran = subprocess.run([TOOL, *words], cwd=room, capture_output=True, text=True, stdin=subprocess.DEVNULL)
            need(ran.returncode == status and ran.stderr.startswith(f"glyph: {says}") and not os.path.exists(os.path.join(room, "out")),
                 f"{' '.join(words)} should say {says!r} with status {status}, and said {ran.stderr[-300:]!r} with {ran.returncode}")

        put("good", glyph.to_fields(glyph.from_text("good", GOOD), "good"))
        put("wide", cases.bitmap(4096, 1, 3, cases.settings(0, 1.0, 1.0), [], [0.0] * 12288))
        put("plain", "size 4096 1 3\nprotected 0 error 0 corner 0 tests 0\n" + "." * 4096 + "\n")
        put("tested", "size 4096 1 3\nprotected 0 error 0 corner 0 tests 1\n" + "." * 4096 + "\n")
        for name, size in (("single", (1, 1, 1)), ("rowless", (2, 0, 3)), ("narrow", (0, 2, 3))):
            put(name, cases.bitmap(*size, cases.PLAIN, [], [0.0] * (size[0] * size[1] * size[2])))
            put(name + ".txt", "size {} {} {}\nprotected 0 error 0 corner 0 tests 0\n".format(*size) + ("." * size[0] + "\n") * size[1])
        put("settings", "mode 1\nratio 1\nlengths 1 1 1\n")
        put("more", cases.figures()[0][1] + bytes(3))
        put("four", cases.bitmap(1, 1, 4, cases.PLAIN, [], [0.0] * 4))
        for name, command, files in (("a", ["pack", "a", "out"], bad_texts()), ("b", ["draw", "good", "b", "out"], bad_answers()),
                                     ("c", ["from-pfm", "c", "settings", "out"], bad_pfms())):
            for data, says in files:
                put(name, data)
                refuses(1, says, *command)
                tried += 1
        for status, says, words in (
                (1, "none: cannot be read: No such file", ["unpack", "none", "out"]), (1, "more: byte 74: 3 more bytes follow the end", ["unpack", "more", "out"]),
                (1, "four: a PFM has three channels, and this field has 4", ["to-pfm", "four", "out", "out"]),
                *((1, f"{name}.txt:1:6: the program refuses a field of this size", ["draw", name, name + ".txt", "out"]) for name in ("single", "rowless", "narrow")),
                (1, "wide: drawn 32 pixels high it would be 131072 wide", ["draw", "wide", "plain", "out"]),
                (1, "tested:2:36: 1 range tests are counted here, and with these flags, size and mode there are from 0 to 0", ["draw", "wide", "tested", "out"]),
                (1, "nowhere/out: cannot be written", ["unpack", "good", "nowhere/out"]),
                (2, "a command is missing", []), (2, "there is no command 'fold'", ["fold"]), (2, "pack takes TEXT FIELDS, and 1 words", ["pack", "a"]),
                (2, "draw has no option '--size'", ["draw", "--size", "3", "good", "b", "out"]),
                (2, "--height takes a whole number from 1 to 512, not '0'", ["draw", "--height", "0", "good", "b", "out"]),
                (2, "--height takes", ["draw", "good", "b", "out", "--height"])):
            refuses(status, says, *words)
            tried += 1
    return tried


def main():
    judge = sys.argv[3] if len(sys.argv) > 3 else None
    check_example(judge)
    check_marks()
    count, good = check_inputs(int(sys.argv[1]), int(sys.argv[2]), judge)
    bad = check_bad()
    print(f"tests/glyph: the example, the marks, {count} inputs ({good} there and back, {count - good} refused{' where the judge says' if judge else ''}), "
          f"{bad} bad files and calls")


main()
