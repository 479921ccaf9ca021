#!/usr/bin/env python3
"""Draws the images of the panel and makes its font.

    examples/panel/draw.py FOLDER

Each image is written into FOLDER in the format EVI1: premultiplied pixels of four bytes. A shape is a
function that tells whether a point lies in it; a pixel is covered by as many of its 16 points as do.
"""
import math
import os
import struct
import subprocess
import sys

HERE = os.path.dirname(os.path.abspath(__file__))
POINTS = [(2 * k + 1) / 8 for k in range(4)]


def cover(shape, x, y):
    """How much of the pixel lies in the shape, from 0 to 1."""
    return sum(shape(x + dx, y + dy) for dx in POINTS for dy in POINTS) / 16


def circle(cx, cy, r):
    return lambda x, y: (x - cx) * (x - cx) + (y - cy) * (y - cy) <= r * r


def rounded(x0, y0, x1, y1, r):
    """A rectangle with round corners."""

    def inside(x, y):
        dx = max(x0 + r - x, 0, x - (x1 - r))
        dy = max(y0 + r - y, 0, y - (y1 - r))
        return x0 <= x <= x1 and y0 <= y <= y1 and dx * dx + dy * dy <= r * r

    return inside


def polygon(points):
    """What lies in a closed line."""
    sides = list(zip(points, points[1:] + points[:1]))

    def inside(x, y):
        found = False
        for (ax, ay), (bx, by) in sides:
            if (ay > y) != (by > y) and x < ax + (y - ay) * (bx - ax) / (by - ay):
                found = not found
        return found

    return inside


def union(*shapes):
    return lambda x, y: any(shape(x, y) for shape in shapes)


def between(low, high, part):
    """A colour between two, `part` of the way."""
    return tuple(a + (b - a) * part for a, b in zip(low, high))


class Picture:
    """Pixels of alpha and premultiplied colours, from 0 to 255, painted one over another."""

    def __init__(self, width, height):
        self.width, self.height = width, height
        self.pixels = [(0.0, 0.0, 0.0, 0.0)] * (width * height)

    def blend(self, x, y, colour, alpha):
        """Paints a pixel with a colour that covers it so far, from 0 to 1."""
        at = self.width * y + x
        above = (255 * alpha, *(channel * alpha for channel in colour))
        self.pixels[at] = tuple(a + b * (1 - alpha) for a, b in zip(above, self.pixels[at]))

    def paint(self, shape, colour, alpha=1.0):
        """Paints a shape. The colour is three channels, or a function of the row."""
        for y in range(self.height):
            tone = colour(y) if callable(colour) else colour
            for x in range(self.width):
                covered = cover(shape, x, y)
                if covered:
                    self.blend(x, y, tone, alpha * covered)

    def bytes(self):
        out = [b"EVI1", struct.pack("<II", self.width, self.height)]
        for pixel in self.pixels:
            alpha, *colours = (round(channel) for channel in pixel)
            out.append(bytes([alpha, *(min(colour, alpha) for colour in colours)]))
        return b"".join(out)


HORIZON = 108


def dusk():
    """A column of an evening sky over water, to be stretched to the sides."""
    stops = [
        (0, (24, 38, 74)),
        (50, (92, 78, 122)),
        (86, (226, 138, 118)),
        (HORIZON - 1, (255, 206, 140)),
        (HORIZON, (196, 134, 122)),
        (124, (122, 96, 126)),
        (159, (48, 60, 100)),
    ]
    made = Picture(1, 160)
    for y in range(160):
        (low, a), (high, b) = next(pair for pair in zip(stops, stops[1:]) if pair[0][0] <= y <= pair[1][0])
        made.blend(0, y, between(a, b, (y - low) / (high - low)), 1.0)
    return made


def sun():
    """Half a sun with its glow, over the horizon."""
    made = Picture(64, 32)
    for y in range(32):
        for x in range(64):
            glow = max(0.0, 1 - math.sqrt((x - 31.5) * (x - 31.5) + (y - 31.5) * (y - 31.5)) / 32)
            made.blend(x, y, (255, 226, 160), glow * glow * 0.9)
    made.paint(circle(32, 32, 15), (255, 240, 200))
    return made


def panel():
    """A sheet with a title bar and a soft shadow; borders of 14, 14, 34 and 16 keep their size."""
    made = Picture(32, 54)
    for step in range(6, 0, -1):
        made.paint(rounded(8 - step, 8 - step, 24 + step, 44 + step, 6 + step), (10, 12, 30), 0.07)
    made.paint(rounded(6, 4, 26, 44, 6), (34, 54, 78))
    made.paint(rounded(7, 5, 25, 43, 5), (248, 244, 234))
    head = rounded(7, 5, 25, 60, 5)
    made.paint(lambda x, y: y < 28 and head(x, y), lambda y: between((70, 120, 146), (40, 78, 106), (y - 5) / 22))
    made.paint(lambda x, y: 5 <= y < 6 and 10 <= x <= 22, (255, 255, 255), 0.35)
    made.paint(lambda x, y: 28 <= y < 29 and 7 <= x <= 25, (22, 40, 60), 0.55)
    made.paint(lambda x, y: 29 <= y < 31 and 7 <= x <= 25, lambda y: (22, 40, 60), 0.08)
    return made


def pill():
    """A white disc, which is stretched into rounded bars and tinted."""
    made = Picture(9, 9)
    made.paint(circle(4.5, 4.5, 4.5), (255, 255, 255))
    return made


def cormorant():
    """A cormorant on a post that dries its wings."""
    ink = (18, 24, 44)
    body = polygon([(25, 21), (29, 18), (34, 19), (37, 24), (38, 32), (36, 40), (34, 45), (33, 52), (29, 53), (28, 46), (25, 40), (24, 31)])
    neck = polygon([(28, 22), (27, 17), (29, 12), (28, 8), (25, 7), (25, 4), (29, 3), (32, 5), (33, 10), (32, 15), (34, 21)])
    beak = polygon([(26.5, 4.2), (19, 5.6), (17.4, 8.2), (18.8, 7.4), (26.5, 7.2)])
    left = polygon([(27, 22), (20, 17), (13, 15), (7, 18), (2, 25), (0, 33), (3, 31), (3, 38), (7, 33), (8, 41), (12, 35), (13, 43), (17, 36), (19, 42), (22, 36), (26, 36)])
    right = polygon([(34, 22), (41, 17), (48, 15), (54, 18), (59, 25), (61, 33), (58, 31), (58, 38), (54, 33), (53, 41), (49, 35), (48, 43), (44, 36), (42, 42), (39, 36), (35, 36)])
    post = polygon([(25, 52), (37, 52), (37.5, 74), (24.5, 74)])
    made = Picture(62, 74)
    made.paint(union(body, neck, beak, left, right), ink)
    made.paint(post, (58, 46, 56))
    made.paint(polygon([(25, 52), (29, 52), (28.5, 74), (24.5, 74)]), (134, 100, 96), 0.7)
    made.paint(circle(28.6, 5.4, 0.8), (120, 220, 190))
    return made


def reeds():
    """Reeds and bulrushes, which repeat along the shore."""
    made = Picture(48, 30)
    ink = (16, 26, 44)
    for foot, tip, top, width in [(3, 1, 8, 1.3), (8, 11, 3, 1.5), (13, 12, 14, 1.2), (18, 22, 6, 1.4), (24, 23, 11, 1.3), (29, 33, 2, 1.5), (34, 32, 13, 1.2), (40, 43, 7, 1.4), (45, 44, 15, 1.2)]:
        made.paint(polygon([(foot - width, 30), (tip, top), (foot + width, 30)]), ink)
    for x, top in [(11, 6), (33, 5)]:
        made.paint(rounded(x - 1.4, top, x + 1.4, top + 9, 1.4), (58, 40, 44))
    return made


def main():
    if len(sys.argv) != 2:
        sys.exit(__doc__)
    folder = sys.argv[1]
    for draw in (dusk, sun, panel, pill, cormorant, reeds):
        with open(os.path.join(folder, f"{draw.__name__}.evi"), "wb") as file:
            file.write(draw().bytes())
    font = os.path.join(HERE, "../../tools/font.py")
    subprocess.run([font, os.path.join(HERE, "face.txt"), os.path.join(folder, "face.evf")], check=True)


if __name__ == "__main__":
    main()
