#!/usr/bin/env python3
"""pair.py sheet: writes pair.sheet, the description of a sheet with the letter L in two cells, in the words of ./rungtwine sheet.
pair.py samples: writes its samples, pair.f32, each cell a field as three.py makes it. In the lower cell one texel has red and blue the wrong way round.
"""
import struct
import sys

sys.dont_write_bytecode = True
from three import CYAN, MAGENTA, NAMES, YELLOW, texel

WIDTH, HEIGHT, SIDE = 9, 17, 8
CELLS = ((0, 0), (1, 9))
FAULTY = (4, 0)
RATIO, LENGTHS = 1.1111111111111112, (0.3333333333333333, 0.3333333333333333, 0.47140452079103173)
POINTS = [(YELLOW, 1.2, 1.2), (CYAN, 6.8, 1.2), (MAGENTA, 6.8, 3.4), (YELLOW, 3.4, 3.4), (CYAN, 3.4, 6.8), (MAGENTA, 1.2, 6.8)]


def description():
    (x, y), (u, v) = CELLS
    return (f"# The letter L twice; examples/pair.py wrote this.\nsheet {WIDTH} {HEIGHT} 3  # width, height, channels\nsamples pair.f32\n"
            f"ratio {RATIO}  # of every cell that does not say otherwise, and so are the lengths\nlengths {' '.join(map(str, LENGTHS))}\n"
            f"cell {x} {y} {SIDE} {SIDE}  # x, y, width, height\nmode EdgePriority\ncontour  # in the cell's coordinates\n"
            + "".join(f"  {NAMES[colour]} {px} {py}\n" for colour, px, py in POINTS)
            + f"cell {u} {v} {SIDE} {SIDE}\nmode EdgeOnly\n")


def samples():
    edges = [(colour, (x, y), POINTS[(i + 1) % len(POINTS)][1:]) for i, (colour, x, y) in enumerate(POINTS)]
    field = [[[0.0, 0.0, 0.0] for _ in range(WIDTH)] for _ in range(HEIGHT)]
    for left, low in CELLS:
        for y in range(SIDE):
            for x in range(SIDE):
                field[low + y][left + x] = [round(v, 4) + 0.0 for v in texel(edges, x, y)]
    field[FAULTY[1]][FAULTY[0]].reverse()
    return b"".join(struct.pack("<3f", *values) for row in field for values in row)


def main(words):
    if words == ["sheet"]:
        print(description(), end="")
    elif words == ["samples"]:
        sys.stdout.buffer.write(samples())
    else:
        sys.exit("usage: pair.py sheet | samples")


if __name__ == "__main__":
    main(sys.argv[1:])
