"""The pictures that tools/glyph draws."""
from glyph_answer import CORNERS, EDGE_ONLY, ERRORS, PROTECTED
from glyph_forms import value_of
from glyph_png import to_png

PAPER, INK, CAPTION, BLACK, WHITE = (250, 249, 246), (20, 20, 24), (70, 70, 76), (0, 0, 0), (255, 255, 255)
CHANNELS = (("R", (224, 30, 30)), ("G", (0, 138, 50)), ("B", (48, 84, 255)))  # how a mark names a channel; white is legible on each colour
FATES = {"-": ("M", (224, 30, 30)), "v": ("V", (48, 84, 255)), "0": ("S", (0, 138, 50))}  # how a mark tells what became of a texel's signs
LEGEND = (372, 111)  # how wide and how high the legend may be
LETTERS = dict(zip("ABCDEFGHIJKLMNOPQRSTUVWXYZ0123456789:.", (
    "25755 65656 34443 65556 74647 74644 34553 55755 72227 11152 55655 44447 57755 65555 25552 65644 25563 65655 34216 72222 55557 55552 55775 55255 55222 71247 "
    "75557 26227 61247 61216 55711 74616 34652 71244 25252 25316 02020 00002").split()))


class Picture:
    def __init__(self, width, height):
        self.width, self.height = width, height
        self.data = [bytearray(bytes(PAPER) * width) for _ in range(height)]

    def box(self, x, y, width, height, colour):
        for line in self.data[max(y, 0):max(y + height, 0)]:
            line[3 * x:3 * (x + width)] = bytes(colour) * width

    def frame(self, x, y, side, thick, colour):
        self.box(x, y, side, thick, colour)
        self.box(x, y + side - thick, side, thick, colour)
        self.box(x, y, thick, side, colour)
        self.box(x + side - thick, y, thick, side, colour)

    def write(self, x, y, text, colour=CAPTION, scale=3):
        for letter in text.upper():
            for row, octal in enumerate(LETTERS.get(letter, "00000")):
                for column in range(3):
                    if int(octal) >> (2 - column) & 1:
                        self.box(x + scale * column, y + scale * row, scale, scale, colour)
            x += 4 * scale

    def png(self):
        return to_png(self.width, self.height, 3, self.data)


def texels(rows, channels):
    """The first three channels of each texel, or its only one three times."""
    return [[tuple(map(value_of, line[i:i + 3] if channels > 1 else 3 * line[i:i + 1])) for i in range(0, len(line), channels)] for line in rows]


def inside(field, x, y, zero):
    """Whether the place x, y, in texels from the lower left, is drawn: the median of the three channels, each mixed from the four texels around, reaches the zero value."""
    height, width = len(field), len(field[0])
    x, y = min(max(x - 0.5, 0.0), width - 1.0), min(max(y - 0.5, 0.0), height - 1.0)
    left, low = int(x), int(y)
    right, high, u, v = min(left + 1, width - 1), min(low + 1, height - 1), x - left, y - low
    a, b, c, d = field[low][left], field[low][right], field[high][left], field[high][right]
    mixed = [(1 - v) * ((1 - u) * a[i] + u * b[i]) + v * ((1 - u) * c[i] + u * d[i]) for i in range(3)]
    return sorted(mixed)[1] >= zero


def rendered(field, height, zero=0.5):
    """Rows of greys from the top, 0 paper to 1 ink: each pixel is the share of its sample points that lie inside."""
    tall, wide = len(field), len(field[0])
    width = max(1, round(height * wide / tall))
    fine = 4 if height <= 96 else 2
    points = [(i + 0.5) / fine for i in range(fine)]
    return [[sum(inside(field, (x + p) * wide / width, tall - (y + q) * tall / height, zero) for q in points for p in points) / fine ** 2
             for x in range(width)] for y in range(height)]


def shade(share):
    return tuple(round(p + (i - p) * share) for p, i in zip(PAPER, INK))


def mark_sizes(step):
    """How thick a mark's lines are, and how large a letter fits between them, 0 where none does."""
    line = max(1, step // 8)
    return line, (step - 2 * line) // 5


def draw_marks(picture, step, marks):
    """Marks of texels, each x, y, letter and colour: a white line around them, then in the colour a frame and the letter, or a square where none fits."""
    for x, y, _, _ in marks:
        picture.frame(x - 1, y - 1, step + 2, 1, WHITE)
    line, scale = mark_sizes(step)
    for x, y, letter, colour in marks:
        picture.frame(x, y, step, line if scale else step, colour)
        if scale:
            picture.box(x, y, 3 * scale + 2 * line, 5 * scale + 2 * line, colour)
            picture.write(x + line, y + line, letter, WHITE, scale)


def draw_angle(picture, x, y, width, height, thick, colour):
    picture.box(x, y, width, thick, colour)
    picture.box(x + width - thick, y, thick, height, colour)


def draw_protection(picture, x, y, step, colour, letter):
    """The mark of a protected texel of this colour, an angle for a corner and else a dot: in its middle, or between the letter and the frame of its mark."""
    side, (line, scale), marked = max(2, step // 4), mark_sizes(step), letter in ERRORS
    beside = marked and scale
    ink = BLACK if sum(colour) > 330 or marked and not scale else WHITE
    long = min(2 * side, step)
    width, height = (side if beside else long, long) if letter in CORNERS else (side, side)
    x, y = x + ((3 * scale + line if beside else 0) + step - width) // 2, y + (step - height) // 2
    if letter in CORNERS:
        draw_angle(picture, x, y, width, height, (width + 3) // 4, ink)
    else:
        picture.box(x, y, width, height, ink)


def draw_texels(picture, place, step, field, zero=0.5):
    """The field's colours, in which the zero value is the middle grey. Gives them, row by row."""
    colours = [[tuple(round(255 * min(max(v + (0.5 - zero), 0.0), 1.0)) for v in texel) for texel in line] for line in field]
    for y, line in enumerate(colours):
        for x, colour in enumerate(line):
            picture.box(*place(x, y), step, step, colour)
    return colours


def places(left, top, step, height):
    """Where a texel of a field of this height is drawn."""
    return lambda x, y: (left + x * step, top + (height - 1 - y) * step)


def draw_field(picture, left, top, step, glyph, answer):
    place = places(left, top, step, glyph.size[1])
    colours = draw_texels(picture, place, step, texels(glyph.rows, glyph.size[2]))
    draw_marks(picture, step, [(*place(x, y), *CHANNELS[channel]) for (x, y), channel in answer.carriers.items()])
    for y, line in enumerate(colours):
        for x, colour in enumerate(line):
            if answer.rows[y][x] in PROTECTED:
                draw_protection(picture, *place(x, y), step, colour, answer.rows[y][x])


def draw_legend(picture, left, top, answer):
    """What the marks mean and how many there are, and the range tests, or that none are counted. No count of marks has more than four digits and that of tests no more than six, so that
    LEGEND's pixels suffice."""
    told = [*answer.carriers.values()]
    picture.write(left, top, f"error {answer.errors}: median in channel")
    for channel, (letter, colour) in enumerate(CHANNELS):
        x = left + LEGEND[0] // 3 * channel
        picture.box(x, top + 24, 15, 15, colour)
        picture.write(x + 24, top + 24, f"{letter} {told.count(channel)}")
    picture.write(left, top + 48, f"protected {answer.protected}: by")
    draw_angle(picture, left + 2, top + 74, 11, 11, 3, INK)
    picture.write(left + 24, top + 72, f"corner {answer.corners}")
    picture.box(left + 172, top + 77, 6, 6, INK)
    picture.write(left + 190, top + 72, f"{'mode' if answer.glyph.mode == EDGE_ONLY else 'edge alone'} {answer.protected - answer.corners}")
    picture.write(left, top + 96, "by the plain engine" if answer.tests is None else f"range tests {answer.tests}")


def draw_rendering(picture, left, top, step, zoom, pixels):
    for y, line in enumerate(pixels):
        for x, share in enumerate(line):
            picture.box(left + x * zoom, top + y * zoom, zoom, zoom, shade(share))
            picture.box(left + x, top + len(pixels) * zoom + step + y, 1, 1, shade(share))


def scales(size, height):
    """How many pixels a texel's side has in a field, and a pixel's side in an enlarged rendering."""
    step = max(3, min(24, 512 // max(size[:2])))
    return step, max(1, step * size[1] // height)


def draw(glyph, answer, height):
    """Three panels side by side: the field with its marks, and its renderings before and after, enlarged and below that as they are."""
    width, tall, channels = glyph.size
    step, zoom = scales(glyph.size, height)
    before, after = rendered(texels(glyph.rows, channels), height), rendered(texels(answer.corrected(), channels), height)
    small = len(before[0])
    margin, head = 24, 44
    first, panel = max(width * step, LEGEND[0]), max(small * zoom, 96)
    below = LEGEND[1] + 2 * margin
    picture = Picture(4 * margin + first + 2 * panel, head + max(tall * step + below, height * zoom + margin // 2 + height + margin))
    lefts = [margin, 2 * margin + first]
    lefts.append(lefts[1] + panel + margin)
    for left, title in zip(lefts, ("the field", "before", "after")):
        picture.write(left, margin - 6, title)
    draw_field(picture, lefts[0], head, step, glyph, answer)
    for left, pixels in zip(lefts[1:], (before, after)):
        draw_rendering(picture, left, head, margin // 2, zoom, pixels)
    draw_legend(picture, margin, head + tall * step + margin, answer)
    return picture.png()


# ---- pictures of a field before and after something

def draw_pair(size, fields, height, titles, marks, legend, zero=0.5):
    """Four panels side by side: a field with its marks, the field after, and their renderings, enlarged and below that as they are. `marks` draws on the first field,
    from where a texel is, its pixels and the colours there; `legend` draws below it."""
    width, tall, _ = size
    step, zoom = scales(size, height)
    drawn = [rendered(field, height, zero) for field in fields]
    margin, head = 24, 44
    wide = [max(width * step, LEGEND[0]), max(width * step, 192)] + 2 * [max(len(drawn[0][0]) * zoom, 150)]
    lefts = [margin * (i + 1) + sum(wide[:i]) for i in range(4)]
    below = max(tall * step + LEGEND[1] + 2 * margin, height * zoom + margin // 2 + height + margin)
    picture = Picture(5 * margin + sum(wide), head + below)
    for left, title in zip(lefts, titles):
        picture.write(left, margin - 6, title)
    for left, field in zip(lefts, fields):
        place = places(left, head, step, tall)
        colours = draw_texels(picture, place, step, field, zero)
        if field is fields[0]:
            marks(picture, place, step, colours)
    for left, pixels in zip(lefts[2:], drawn):
        draw_rendering(picture, left, head, margin // 2, zoom, pixels)
    legend(picture, margin, head + tall * step + margin)
    return picture.png()


def draw_sign_marks(picture, place, step, colours, signs):
    """A frame and a letter for a texel that was turned over or could have been, and a dot for a fourth channel that was."""
    fates = signs.fates()
    draw_marks(picture, step, [(*place(x, y), *FATES[fate]) for y, line in enumerate(fates) for x, fate in enumerate(line) if fate in FATES])
    for x, y in sorted(signs.fourth()):
        draw_protection(picture, *place(x, y), step, colours[y][x], "B" if fates[y][x] in FATES else "P")


def draw_sign_legend(picture, left, top, signs):
    """What the marks mean and how many there are. No count has more than five digits, so that LEGEND's pixels suffice."""
    told = [fate for line in signs.fates() for fate in line]
    one = signs.glyph.size[2] == 1
    lines = [("-", "flipped by value" if one else "flipped by median")] + ([] if one else [("v", "flipped by vote"), ("0", "ambiguous: stays")])
    for i, (fate, words) in enumerate(lines):
        letter, colour = FATES[fate]
        picture.box(left, top + 24 * i, 15, 15, colour)
        picture.write(left + 24, top + 24 * i, f"{letter} {words} {told.count(fate)}")
    if signs.glyph.size[2] == 4:
        picture.box(left + 4, top + 77, 6, 6, INK)
        picture.write(left + 24, top + 72, f"fourth channel {len(signs.fourth())}")


def draw_signs(signs, height):
    fields = [texels(rows, signs.glyph.size[2]) for rows in (signs.glyph.rows, signs.rows)]
    return draw_pair(signs.glyph.size, fields, height, ("field before", "field after", "drawn before", "drawn after"),
                     lambda *at: draw_sign_marks(*at, signs), lambda *at: draw_sign_legend(*at, signs), value_of(signs.zero))


def draw_held(picture, place, step, colours, pixels):
    """A dot on each texel that has a sample which was held."""
    for x, y in {*pixels.held(0), *pixels.held(1)}:
        draw_protection(picture, *place(x, y), step, colours[y][x], "P")


def draw_held_legend(picture, left, top, pixels):
    """How many samples were held, in how many texels, and how far the others are from their bytes. No count has more than five digits, so that LEGEND's pixels suffice."""
    low, high = pixels.held(0), pixels.held(1)
    picture.box(left + 4, top + 5, 6, 6, INK)
    for i, words in enumerate((f"  texels with held samples {len({*low, *high})}", f"samples held at 0: {len(low)}", f"samples held at 1: {len(high)}",
                               f"largest change {pixels.change():.4f} 255ths")):
        picture.write(left, top + 24 * i, words)


def draw_pixels(pixels, height):
    fields = [texels(rows, pixels.glyph.size[2]) for rows in (pixels.glyph.rows, pixels.rows())]
    return draw_pair(pixels.glyph.size, fields, height, ("field of floats", "field of bytes", "floats drawn", "bytes drawn"),
                     lambda *at: draw_held(*at, pixels), lambda *at: draw_held_legend(*at, pixels))
