#!/usr/bin/env python3
"""Makes a PNG of a picture.

    tools/picture.py [--scale N] OUT.png < LOG
    tools/picture.py [--scale N] --image FILE.evi OUT.png

Without a file it is the last picture that the log dumps: rows of pixels of eight hexadecimal digits (alpha,
red, green, blue, premultiplied). With a file it is that image, of the format EVI1. It is shown over white.
"""
import argparse
import re
import struct
import sys
import zlib

ROW = re.compile(r"^[0-9a-f]{8}( [0-9a-f]{8})*$")
MAX_SIDE = 4096


class NoPicture(Exception):
    """There is no picture in what was given."""


def last_dump(lines):
    """The rows of the last dump: neighbouring rows of one width."""
    rows, found = [], []
    for line in lines:
        if not ROW.match(line):
            rows = []
            continue
        pixels = [bytes.fromhex(word) for word in line.split(" ")]
        if rows and len(rows[0]) != len(pixels):
            rows = []
        rows.append(pixels)
        found = rows
    if not found:
        raise NoPicture("the log has no dump")
    return found


def rows_of_image(data):
    """The rows of an image in EVI1."""
    if data[:4] != b"EVI1" or len(data) < 12:
        raise NoPicture("no image of the format EVI1")
    width, height = struct.unpack("<II", data[4:12])
    if not (1 <= width <= MAX_SIDE and 1 <= height <= MAX_SIDE):
        raise NoPicture(f"an image has 1 to {MAX_SIDE} columns and rows")
    if len(data) != 12 + 4 * width * height:
        raise NoPicture(f"an image of {width} by {height} pixels has other bytes than these")
    pixels = [data[at : at + 4] for at in range(12, len(data), 4)]
    return [pixels[width * y : width * (y + 1)] for y in range(height)]


def over_white(pixel):
    alpha, red, green, blue = pixel
    return bytes(min(255, channel + 255 - alpha) for channel in (red, green, blue))


def packed(rows, step, filtered):
    """The compressed rows of a PNG, each as it is or as its difference to the row above (`step` bytes a pixel)."""
    data, above = b"", bytes(len(rows[0]) * step)
    for row in rows:
        line = b"".join(row)
        if filtered:
            data += b"\2" + bytes((a - b) % 256 for a, b in zip(line, above))
        else:
            data += b"\0" + line
        above = line
    return zlib.compress(data, 9)


def png(rows, scale):
    """The smallest of some ways to write the rows: with a palette where 256 colours are enough, with differences or without."""
    rows = [[over_white(pixel) for pixel in row for _ in range(scale)] for row in rows for _ in range(scale)]
    colours = sorted({pixel for row in rows for pixel in row})
    kind, palette = 2, b""
    if len(colours) <= 256:
        kind, palette = 3, chunk(b"PLTE", b"".join(colours))
        places = {pixel: bytes([place]) for place, pixel in enumerate(colours)}
        rows = [[places[pixel] for pixel in row] for row in rows]
    step = len(rows[0][0])
    data = min((packed(rows, step, filtered) for filtered in (False, True)), key=len)
    header = chunk(b"IHDR", struct.pack(">IIBBBBB", len(rows[0]), len(rows), 8, kind, 0, 0, 0))
    return b"\x89PNG\r\n\x1a\n" + header + palette + chunk(b"IDAT", data) + chunk(b"IEND", b"")


def chunk(kind, body):
    return struct.pack(">I", len(body)) + kind + body + struct.pack(">I", zlib.crc32(kind + body))


def scale(word):
    """How often each pixel is repeated to the right and downwards."""
    scale = int(word)
    if scale < 1:
        raise ValueError
    return scale


def rows_asked(image):
    """The rows of this image, or of the log where none is named."""
    if image is None:
        return last_dump(line.decode("ascii", "replace").rstrip("\n") for line in sys.stdin.buffer)
    with open(image, "rb") as file:
        return rows_of_image(file.read())


def main():
    words = argparse.ArgumentParser(description=__doc__, formatter_class=argparse.RawDescriptionHelpFormatter)
    words.add_argument("--scale", type=scale, default=1)
    words.add_argument("--image", metavar="FILE.evi")
    words.add_argument("out", metavar="OUT.png")
    words = words.parse_args()
    source = words.image or "standard input"
    try:
        picture = png(rows_asked(words.image), words.scale)
        with open(words.out, "wb") as out:
            out.write(picture)
    except OSError as fault:
        sys.exit(f"picture.py: {fault.filename or source}: {fault.strerror}")
    except NoPicture as fault:
        sys.exit(f"picture.py: {source}: {fault}")


if __name__ == "__main__":
    main()
