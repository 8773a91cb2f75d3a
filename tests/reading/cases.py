"""The inputs that the reading program is held to, as lists of (name, bytes). Numbers are big-endian; a float is given by its value or its bits."""
import os
import random
import struct
import subprocess
import tempfile

LIMIT = 1048576.0


def f32(v):
    return struct.pack(">I", v) if isinstance(v, int) else struct.pack(">f", v)


def f64(v):
    return struct.pack(">Q", v) if isinstance(v, int) else struct.pack(">d", v)


def field(tag, contents):
    return bytes([tag]) + struct.pack(">H", len(contents)) + contents


def size(width, height, channels):
    return field(1, struct.pack(">HHB", width, height, channels))


def settings(mode, ratio, *lengths):
    return field(2, bytes([mode]) + f64(ratio) + b"".join(map(f64, lengths if len(lengths) == 3 else lengths * 3)))


def contour(*segments):
    return field(3, b"".join(bytes([c]) + f64(x) + f64(y) for c, x, y in segments))


def row(*samples):
    return field(4, b"".join(map(f32, samples)))


END = field(0, b"")
PLAIN = settings(1, 1.0, 0.25)


def whole(width, height, channels, setting, contours, samples):
    """The fields of an input, one to an item."""
    n = width * channels
    rows = [row(*samples[y * n:(y + 1) * n]) for y in range(height)]
    return [size(width, height, channels), setting, *contours, *rows, END]


def bitmap(width, height, channels, setting, contours, samples):
    return b"".join(whole(width, height, channels, setting, contours, samples))


P = [1.0, 0.0, 0.75, 0.0, 1.0, 0.75]
C2 = [1.0, 0.625, 0.75, 0.625, 1.0, 0.75]
C5 = [0.75, 0.25, 0.625, 0.25, 0.75, 0.375]
C7 = [1.0, 0.0, 0.75, 0.5, 0.5, 0.75, 0.5, 0.5, 0.75, 0.0, 1.0, 0.75]
GREY = [0.75] * 12
BOARD = [0.5, 1.0, 1.5, 2.5, 0.75, -0.5]  # two texels with as many range tests between them as there can be


def board(side, mode, *lengths):
    """Those two by turns, like the fields of a chessboard: with long lengths each inner texel of the first kind has 84 range tests."""
    texels = [BOARD[3 * ((x + y) % 2):][:3] for y in range(side) for x in range(side)]
    return bitmap(side, side, 3, settings(mode, 1.0, *lengths), [], [v for texel in texels for v in texel])


def good_fields():
    """An input with every kind of field: two contours, an empty one between them, two rows."""
    contours = [contour((3, 0.5, 1.25), (6, 1.5, 0.75)), contour(), contour((5, 7.0, -3.0))]
    return whole(2, 2, 3, settings(2, 1.0, 0.25, 0.125, 0.0625), contours, C7)


def figures():
    """The figures of docs/RULES.md, and of corners beside edges, with what that page says of each: the whole text or its rows."""
    def pair(mode, length, samples):
        return bitmap(2, 1, 3, settings(mode, 1.0, length), [], samples)

    def corner(*segments):
        return bitmap(2, 2, 3, settings(2, 1.0, 0.0), [contour(*segments)], GREY)

    def beside(mode):
        """An edge between the first two texels, a corner between the second and the third, and a fourth that nothing protects."""
        return bitmap(4, 1, 3, settings(mode, 1.0, 0.25), [contour((3, 2.0, 0.5), (6, 9.0, 9.0))], C5 + [0.0] * 6)

    def flagged(x, length, samples):
        return bitmap(2, 1, 3, settings(2, 1.0, length), [contour((3, x, 0.5), (6, 9.0, 9.0))], samples)

    text_p = "size 2 1 3\nprotected 0 error 2 corner 0 tests 2\nEE\n0 0 3F400000 ch 2\n1 0 3F400000 ch 2\n"
    hundredth, inside = [0.0, 1.0, 0.0, 99.0, 0.0, 0.0], [0.0, 1.0, 0.0, 98.0, 0.0, 0.0]
    return [
        ("P", pair(1, 0.25, P), text_p),
        ("C1", pair(3, 0.25, P), "BB"),
        ("C2", pair(1, 0.0625, C2), "EE"),
        ("C3", pair(1, 0.125, C2), ".."),
        ("C4", pair(3, 0.0625, C2), "PP"),
        ("C5", pair(2, 0.25, C5), "PP"),
        ("C6", pair(2, 0.249, C5), ".."),
        ("C7", bitmap(2, 2, 3, PLAIN, [], C7), "E.\n.E"),
        ("C8, 1/100", pair(1, 0.0, hundredth), ".."),
        ("C8, 99/100", pair(1, 0.0, hundredth[3:] + hundredth[:3]), ".."),
        ("C8, inside", pair(1, 0.0, inside), "EE"),
        ("C9, 3 and 6", corner((3, 1.0, 1.0), (6, 9.0, 9.0)), "CC\nCC"),
        ("C9, 7 and 3", corner((7, 1.0, 1.0), (3, 9.0, 9.0)), "..\n.."),
        ("point (0,0)", corner((3, 0.0, 0.0), (6, 9.0, 9.0)), "C.\n.."),
        ("x = 2.5", corner((3, 2.5, 1.0), (6, 9.0, 9.0)), "..\n.."),
        ("an edge, both, a corner", beside(2), "size 4 1 3\nprotected 3 error 0 corner 2 tests 6\nPCC.\n"),
        ("the same in EdgeOnly", beside(3), "size 4 1 3\nprotected 4 error 0 corner 0 tests 6\nPPPP\n"),
        ("the same in Indiscriminate", beside(1), "size 4 1 3\nprotected 0 error 0 corner 0 tests 6\n....\n"),
        ("the same in Disabled", beside(0), "size 4 1 3\nprotected 0 error 0 corner 0 tests 0\n....\n"),
        ("P with a corner on one", flagged(0.0, 0.25, P), text_p.replace("protected 0", "protected 1").replace("corner 0 tests 2\nEE", "corner 1 tests 2\nDE")),
        ("C2 with a corner on one", flagged(0.0, 0.0625, C2), "CE"),
        ("P, the second pair", pair(1, 0.25, [P[i] for i in (2, 0, 1, 5, 3, 4)]), text_p.replace("tests 2", "tests 4").replace("ch 2", "ch 0")),
        ("P, the third pair", pair(1, 0.25, [P[i] for i in (1, 2, 0, 4, 5, 3)]), text_p.replace("tests 2", "tests 6").replace("ch 2", "ch 1")),
        ("84 for the middle", board(3, 1, 16.0), "size 3 3 3\nprotected 0 error 0 corner 0 tests 180\n" + "...\n" * 3),
        ("the same in EdgeOnly", board(3, 3, 16.0), "size 3 3 3\nprotected 9 error 0 corner 0 tests 180\n" + "PPP\n" * 3),
        ("the same in Disabled", board(3, 0, 16.0), "size 3 3 3\nprotected 0 error 0 corner 0 tests 0\n" + "...\n" * 3),
        ("the same cut short", board(3, 1, 16.0, 16.0, 0.0), "size 3 3 3\nprotected 0 error 5 corner 0 tests 51\nE.E\n.E.\nE.E\n" + "".join(
            f"{x} {y} 3F800000 ch 1\n" for x, y in ((0, 0), (2, 0), (1, 1), (0, 2), (2, 2)))),
        ("width 1", bitmap(1, 2, 3, PLAIN, [], GREY), ".\n."),
        ("width 0", bitmap(0, 1, 3, PLAIN, [], []), "refused 2 0\n"),
    ]


def broken():
    """Every truncation of two good inputs, every byte changed, taken out and put in."""
    for name, data in (("P", figures()[0][1]), ("good", b"".join(good_fields()))):
        for i in range(len(data)):
            yield f"{name} cut at {i}", data[:i]
            for change in (0xFF, 0x01, 0x80):
                yield f"{name} byte {i} ^ {change:02X}", data[:i] + bytes([data[i] ^ change]) + data[i + 1:]
            yield f"{name} without byte {i}", data[:i] + data[i + 1:]
            yield f"{name} with a byte more at {i}", data[:i] + b"\x03" + data[i:]
        for more in (b"\x00", b"\x01", END, data):
            yield f"{name} and more", data + more


def fields_broken():
    """Each field of a good input with other tags and lengths, left out, twice, and before its neighbour."""
    good = good_fields()
    for i, f in enumerate(good):
        def changed(*other):
            return b"".join([*good[:i], *other, *good[i + 1:]])
        for tag in (0, 1, 2, 3, 4, 5, 0x80, 0xFF):
            yield f"field {i} tag {tag}", changed(bytes([tag]) + f[1:])
        n = len(f) - 3
        for length in (0, 1, n - 17, n - 4, n - 1, n + 1, n + 4, n + 17, 16, 17, 18, 33, 256 * n, 0xFFFF):
            if 0 <= length <= 0xFFFF:
                head = f[:1] + struct.pack(">H", length)
                yield f"field {i} length {length}", changed(head + f[3:])
                yield f"field {i} length {length} and its bytes", changed(head + f[3:3 + length].ljust(length, b"\x00"))
        yield f"field {i} left out", changed()
        yield f"field {i} twice", changed(f, f)
        if i + 1 < len(good):
            yield f"field {i} after the next", b"".join([*good[:i], good[i + 1], f, *good[i + 2:]])


def limits():
    """At each limit and one beyond it."""
    begin, rest = size(2, 2, 3) + settings(2, 1.0, 0.25), row(*C7[:6]) + row(*C7[6:]) + END
    segment = (3, 0.5, 0.5)
    for n in (63, 64, 65):
        yield f"{n} empty contours", begin + contour() * n + rest
        yield f"{n} contours of one segment", begin + contour(segment) * n + rest
    for head in (b"\x03", b"\x03\x00", b"\x03\x00\x00", b"\x03\x00\x01", b"\x03\x00\x11"):
        yield f"65th contour, {head.hex()} and no more", begin + contour() * 64 + head
    for n in (255, 256, 257, 3855):
        yield f"{n} segments in one contour", begin + contour(*[segment] * n) + rest
        yield f"{n} segments, their bytes missing", begin + b"\x03" + struct.pack(">H", 17 * n)
    for n in (127, 128, 129):
        yield f"128 and {n} segments", begin + contour(*[segment] * 128) + contour(*[segment] * n) + rest
        yield f"256 in all and {n - 127} empty", begin + contour(*[segment] * 256) + contour() * (n - 127) + rest
    yield "64 contours of four segments", begin + contour(segment, (6, 1.5, 1.5), (5, 0.0, 3.0), (3, 2.0, 2.0)) * 64 + rest
    for w, h, c in ((4096, 1, 3), (1, 4096, 3), (64, 64, 3), (3072, 1, 4), (1, 3072, 4), (96, 32, 4), (12288, 1, 1), (1, 12288, 1), (6144, 2, 1),
                    (12289, 1, 1), (1, 12289, 1), (4097, 1, 3), (1, 4097, 3), (3073, 1, 4), (65, 64, 3), (256, 49, 1), (65535, 65535, 255), (0, 65535, 255),
                    (65535, 0, 255), (65535, 0, 3), (0, 0, 0), (0, 3, 3), (3, 0, 3), (0, 5000, 4), (5000, 0, 4), (65535, 3, 0), (4097, 2, 0), (48, 1, 255),
                    (49, 1, 255), (12288, 1, 2), (6144, 1, 2), (4096, 1, 4), (4097, 0, 3), (4096, 0, 3)):
        rng = random.Random(f"{w} {h} {c}")
        values = [rng.choice((0.0, 0.25, 0.5, 0.75, 1.0)) for _ in range(min(w * h * c, 12289))]
        setting = settings(1, 1.0, 0.0)
        if w * h * c <= 12289 and 3 * h + 4 * w * h * c < 66000:
            yield f"{w} x {h} x {c}", bitmap(w, h, c, setting, [], values)
            yield f"{w} x {h} x {c} and a byte more", bitmap(w, h, c, setting, [], values) + b"\x00"
            yield f"{w} x {h} x {c} and a byte less", bitmap(w, h, c, setting, [], values)[:-1]
        yield f"{w} x {h} x {c} without rows", size(w, h, c) + setting + END
        yield f"{w} x {h} x {c} alone", size(w, h, c)
    yield "the most range tests", board(64, 1, 16.0)
    full = bitmap(1, 4096, 3, settings(2, 1.0, 0.25), [contour(*[(3 + i % 4, i % 3, i) for i in range(238)])], [((7 * i) % 16) / 16 for i in range(12288)])
    assert len(full) == 65536
    yield "65536 bytes", full
    yield "65537 bytes", full + b"\x00"
    yield "65535 bytes", full[:-1]
    yield "65536 bytes, the end field bad", full[:-3] + b"\x01\x00\x00"
    for n in (65535, 65536, 65537, 65538, 131072, 300000):
        yield f"{n} zeros", bytes(n)
        yield f"{n} bytes, good at first", figures()[0][1].ljust(n, b"\x00")
    rows = size(1, 21829, 0) + PLAIN + row() * 21829 + END
    yield f"{len(rows)} bytes of empty rows", rows


def refusals():
    """Every refusal that an input can get, at every place in small cases, and the values just allowed."""
    over64, over32 = struct.unpack(">Q", f64(LIMIT))[0] + 1, struct.unpack(">I", f32(LIMIT))[0] + 1
    bad64 = (float("inf"), -float("inf"), 0x7FF8000000000000, 0x7FF0000000000001, 0xFFF8000000000000, 0xFFFFFFFFFFFFFFFF, over64, 2 * LIMIT)
    bad32 = (float("inf"), -float("inf"), 0x7FC00000, 0x7F800001, 0xFFC00000, 0xFFFFFFFF, over32, over32 + 0x80000000)
    near64 = (LIMIT, -0.0, 0.0, 1, 5e-324)
    for c in (0, 1, 2, 5, 6, 255):
        yield f"channels {c}", bitmap(2, 2, c, PLAIN, [], [0x7FC00000] * (4 * c))
        yield f"channels {c}, mode 9", bitmap(1, 1, c, settings(9, 1.0, 1.0), [], [0.0] * c)
    for mode in (0, 1, 2, 3, 4, 5, 128, 255):
        yield f"mode {mode}", bitmap(2, 1, 3, settings(mode, 1.0, 0.25), [], P)
        yield f"mode {mode}, all else bad", bitmap(2, 1, 3, settings(mode, bad64[2], -1.0), [contour((8, 0.0, 0.0))], bad32[:6])
    for place in range(4):
        for v in bad64 + near64 + (-1.0, -5e-324, 0x8000000000000001):
            values = [1.0, 0.25, 0.25, 0.25]
            values[place] = v
            yield f"setting {place + 1} is {v}", bitmap(2, 1, 3, settings(1, *values), [], P)
            values[place + 1:] = [-1.0] * (3 - place)
            yield f"setting {place + 1} is {v}, those after it bad", bitmap(2, 1, 3, settings(2, *values), [], P)
    for channels in (3, 4):
        for place in range(4 * channels):
            for i, v in enumerate(bad32 + (LIMIT, -LIMIT, -0.0)):
                values = [0.5 + 0.125 * (j % 3) for j in range(4 * channels)]
                values[place] = v
                if i % 3 == 0:
                    values[place + 1:] = [0x7FC00000] * (4 * channels - 1 - place)
                yield f"{channels} channels, sample {place} is {v}", bitmap(2, 2, channels, settings(i % 4, 1.0, 0.25), [], values)
    for mode in range(4):
        for place in range(4):
            for n, change in enumerate([(8,), (255,)] + [(None, v) for v in bad64] + [(None, None, v) for v in bad64 + (LIMIT, -LIMIT, -0.0)]):
                segments = [[3, 0.5, 1.5], [6, 1.5, 0.5], [5, 0.0, 0.0], [7, -4.0, 2.5]]
                for k, v in enumerate(change):
                    if v is not None:
                        segments[place][k] = v
                if (n + mode) % 4 == 0 or place == 3:
                    split = [contour(*segments[:2]), contour(), contour(*segments[2:])]
                    yield f"mode {mode}, segment {place} {change}", bitmap(2, 1, 3, settings(mode, 1.0, 0.25), split, P)
    yield "bad sample and bad segment", bitmap(2, 1, 3, PLAIN, [contour((9, 0.0, 0.0))], P[:5] + [0x7FC00000])
    yield "refused and a byte more", bitmap(2, 1, 3, settings(9, 1.0, 1.0), [], P) + b"\x00"
    yield "refused and cut short", bitmap(2, 1, 3, settings(9, 1.0, 1.0), [], P)[:-1]


def chance(rng, i):
    """One random input: bytes, fields, a good case, or a good case with a few bytes changed."""
    kind = i % 8
    if kind == 0:
        return f"random bytes {i}", rng.randbytes(rng.choice((0, 1, 2, 3, 5, 9, 40, 80, rng.randrange(400))))
    if kind == 1:
        begin = [size(rng.randrange(4), rng.randrange(4), rng.choice((3, 4, 0, 2))), PLAIN][:rng.randrange(1, 3)]
        return f"random fields {i}", b"".join(begin) + b"".join(
            field(rng.choice((0, 3, 3, 4, 4, 4, rng.randrange(256))), bytes(rng.choice((0, 17, 34, 12, 24, 36, rng.randrange(60)))))
            for _ in range(rng.randrange(6)))
    w, h, c = rng.randrange(1, 9), rng.randrange(1, 9), rng.choice((3, 3, 4))
    values = rng.choice(((0.0, 0.25, 0.5, 0.75, 1.0), (-0.0, 0.0, 1.0, 0.5), None))
    samples = [rng.choice(values) if values else rng.uniform(-0.5, 1.5) for _ in range(w * h * c)]
    lengths = [rng.choice((0.0, 0.0625, 0.25, 0.5, rng.random())) for _ in range(3)]
    contours = [contour(*[(rng.randrange(8), rng.uniform(-2, w + 2), rng.uniform(-2, h + 2)) for _ in range(rng.randrange(5))]) for _ in range(rng.randrange(4))]
    data = bitmap(w, h, c, settings(rng.choice((0, 1, 2, 2, 2, 3)), rng.choice((0.0, 1.0, 10 / 9, 3.0)), *lengths), contours, samples)
    if kind < 6:
        return f"random case {i}", data
    data = bytearray(data)
    for _ in range(rng.randrange(1, 4)):
        data[rng.randrange(len(data))] = rng.choice((0, 1, 2, 3, 4, 0x7F, 0xFF, rng.randrange(256)))
    return f"random case {i}, changed", bytes(data[:rng.choice((len(data), len(data), rng.randrange(len(data))))])


def all_cases(count, seed):
    """The fixed ones, then `count` random ones."""
    cases = [(name, data) for name, data, _ in figures()]
    for some in (broken(), fields_broken(), limits(), refusals()):
        cases.extend(some)
    rng = random.Random(seed)
    cases.extend(chance(rng, i) for i in range(count))
    once = {}
    for name, data in cases:
        once.setdefault(data, name)
    return [(name, data) for data, name in once.items()]


def judged(judge, inputs):
    """What the judge prints for each input."""
    with tempfile.TemporaryDirectory() as room:
        ask, told = os.path.join(room, "ask"), os.path.join(room, "told")
        with open(ask, "wb") as f:
            for data in inputs:
                f.write(struct.pack(">I", len(data)) + data)
        subprocess.run([judge, ask, told], check=True)
        with open(told, "rb") as f:
            text = f.read()
    answers, at = [], 0
    while at < len(text):
        n, = struct.unpack_from(">I", text, at)
        answers.append(text[at + 4:at + 4 + n])
        at += 4 + n
    return answers
