#!/usr/bin/env python3
"""three.py: writes three.glyph, a figure 3 as a field of three channels with one faulty texel, in the words of tools/glyph.

The outline is a polygon whose corners each change colour. A channel is the distance to the line of the nearest edge that has its colour, cut to 0..1.
The two ends of the 3 stand 2.4 texels apart. Between them red and green are low and blue is high; in the faulty texel red is high instead and blue low,
so that on the way to each neighbour two channels are high at once: drawn, the mouth is closed.
"""
import math

WIDTH = HEIGHT = 24
RANGE = 3.0  # texels from 0 to 1
FAULTY = (7, 12, (4.0, 0.09, 0.09))
YELLOW, MAGENTA, CYAN = 3, 5, 6
NAMES = {YELLOW: "yellow", MAGENTA: "magenta", CYAN: "cyan"}


def arc(colour, centre, radii, start, end, steps):
    angles = [math.radians(start + (end - start) * i / steps) for i in range(steps + 1)]
    return [(colour, round(centre[0] + radii[0] * math.cos(a), 3), round(centre[1] + radii[1] * math.sin(a), 3)) for a in angles]


def outline():
    """Each edge's colour and start, with the inside on its left: the lower end, around the outside, the upper end, around the inside."""
    return ([(YELLOW, 8.9, 11.3), (MAGENTA, 5.1, 11.3)] + arc(MAGENTA, (11.9, 7.5), (7.5, 5.5), 165, 395, 13)
            + arc(CYAN, (11.9, 17.3), (7.0, 5.2), -38, 195, 13) + [(YELLOW, 5.1, 13.7), (MAGENTA, 8.9, 13.7)]
            + arc(MAGENTA, (12.3, 17.2), (3.4, 2.5), 180, -62, 8) + [(YELLOW, 11.2, 13.4), (CYAN, 11.2, 11.6)]
            + arc(CYAN, (12.3, 7.7), (3.7, 2.8), 62, -180, 8))


def distance(p, a, b):
    """The distance to an edge, how far its nearest point lies from square on, and the signed distance to its line."""
    ex, ey, px, py = b[0] - a[0], b[1] - a[1], p[0] - a[0], p[1] - a[1]
    length = math.sqrt(ex * ex + ey * ey)
    line = (ex * py - ey * px) / length
    along = (px * ex + py * ey) / (length * length)
    if 0 <= along <= 1:
        return abs(line), 0.0, line
    qx, qy = (px, py) if along < 0 else (p[0] - b[0], p[1] - b[1])
    far = math.sqrt(qx * qx + qy * qy)
    return far, abs(ex * qx + ey * qy) / (length * far), line


def texel(edges, x, y):
    channels = []
    for bit in (1, 2, 4):
        near = min((distance((x + 0.5, y + 0.5), a, b) for colour, a, b in edges if colour & bit), key=lambda d: (round(d[0], 9), d[1]))
        channels.append(min(max(0.5 + near[2] / RANGE, 0.0), 1.0))
    return channels


def main():
    points = outline()
    edges = [(colour, (x, y), points[(i + 1) % len(points)][1:]) for i, (colour, x, y) in enumerate(points)]
    print("# A figure 3 with one faulty texel; examples/three.py wrote this.")
    print(f"size {WIDTH} {HEIGHT} 3\nmode EdgePriority\nratio 1.1111111111111112\nlengths {1 / RANGE} {1 / RANGE} {math.sqrt(2) / RANGE}\ncontour")
    for colour, x, y in points:
        print(f"  {NAMES[colour]} {x:g} {y:g}")
    for y in range(HEIGHT):
        print(f"row {y}")
        for x in range(WIDTH):
            faulty = (x, y) == FAULTY[:2]
            print("  " + " ".join(f"{round(v, 4) + 0.0:g}" for v in (FAULTY[2] if faulty else texel(edges, x, y))) + ("  # the faulty texel" if faulty else ""))


if __name__ == "__main__":
    main()
