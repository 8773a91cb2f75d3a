#!/usr/bin/env python3
"""zero.py glyph: writes zero.glyph, a figure 0 as a field of three channels with texels inside out, in the words of tools/glyph.
zero.py filled: writes zero.pbm, which texels are inside the 0.

The field is made as three.py makes it, of two polygons: around the 0, and around the hole in it the other way. Every value of a texel that is inside out
is mirrored at 0.5. Three texels lie so close to the outline that their median is 0.5 and does not tell: in one most neighbours are inside out, and so is it; in one
none is; and in one as many are as are not.
"""
import sys

sys.dont_write_bytecode = True
from three import CYAN, MAGENTA, NAMES, YELLOW, arc, texel

WIDTH, HEIGHT = 20, 24
RATIO, LENGTHS = 1.1111111111111112, (0.3333333333333333, 0.3333333333333333, 0.47140452079103173)
ON_THE_OUTLINE = ((3, 14), (9, 2), (12, 8))  # most neighbours inside out, none, half of them
INSIDE_OUT = ((2, 13), (3, 13), (4, 13), (5, 13), (2, 14), (3, 14), (4, 14), (5, 14), (12, 7), (13, 7), (14, 7), (13, 8), (14, 8), (10, 18), (10, 19), (11, 19), (10, 11))


def contours():
    """Each edge's colour and start, with the inside on its left. Each third of the way around has a colour."""
    found = []
    for radii, start, way in (((6.7, 9.6), 90, 120), ((3.1, 6.0), 90, -120)):
        thirds = [arc(colour, (10.0, 12.0), radii, start + way * i, start + way * (i + 1), 8)[:-1] for i, colour in enumerate((YELLOW, MAGENTA, CYAN))]
        found.append([point for third in thirds for point in third])
    return found


def edges():
    return [(colour, (x, y), points[(i + 1) % len(points)][1:]) for points in contours() for i, (colour, x, y) in enumerate(points)]


def field():
    sides, rows = edges(), []
    for y in range(HEIGHT):
        rows.append([])
        for x in range(WIDTH):
            values = texel(sides, x, y)
            if (x, y) in ON_THE_OUTLINE:
                values = [min(max(v - sorted(values)[1] + 0.5, 0.0), 1.0) for v in values]
            rows[y].append([round(1 - v if (x, y) in INSIDE_OUT else v, 4) + 0.0 for v in values])
    return rows


def filled():
    """By the even-odd rule, at the centres of the texels."""
    def crossed(x, y, a, b):
        return (a[1] <= y) != (b[1] <= y) and a[0] + (b[0] - a[0]) * (y - a[1]) / (b[1] - a[1]) <= x
    return [[sum(crossed(x + 0.5, y + 0.5, a, b) for _, a, b in edges()) % 2 for x in range(WIDTH)] for y in range(HEIGHT)]


def description():
    text = (f"# A figure 0 with texels inside out; examples/zero.py wrote this.\nsize {WIDTH} {HEIGHT} 3\nmode EdgePriority\nratio {RATIO}\n"
            f"lengths {' '.join(map(str, LENGTHS))}\n")
    for points in contours():
        text += "contour\n" + "".join(f"  {NAMES[colour]} {x:g} {y:g}\n" for colour, x, y in points)
    for y, row in enumerate(field()):
        text += f"row {y}\n"
        for x, values in enumerate(row):
            says = "on the outline and inside out" if (x, y) in ON_THE_OUTLINE and (x, y) in INSIDE_OUT else "on the outline" if (x, y) in ON_THE_OUTLINE else "inside out"
            text += "  " + " ".join(f"{v:g}" for v in values) + (f"  # {says}\n" if (x, y) in ON_THE_OUTLINE + INSIDE_OUT else "\n")
    return text


def main(words):
    if words == ["glyph"]:
        print(description(), end="")
    elif words == ["filled"]:
        print(f"P1\n# The inside of a figure 0, the top row first; examples/zero.py wrote this.\n{WIDTH} {HEIGHT}")
        print("\n".join(" ".join(map(str, row)) for row in reversed(filled())))
    else:
        sys.exit("usage: zero.py glyph | filled")


if __name__ == "__main__":
    main(sys.argv[1:])
