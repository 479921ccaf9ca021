#!/usr/bin/env python3
"""Turns a PNG into an image of the format EVI1 (docs/FORMATS.md).

    tools/image.py IN.png OUT.evi

Its colours are premultiplied: each channel becomes channel * alpha / 255, rounded to the nearest. PNGs of 8 bits
a channel are read: grey, grey with alpha, colours, colours with alpha, and palettes; interlaced ones are not.
"""
import struct
import sys
import zlib

SIGNATURE = b"\x89PNG\r\n\x1a\n"
# how many bytes a pixel has, by its kind
STEPS = {0: 1, 2: 3, 3: 1, 4: 2, 6: 4}


class BadPicture(Exception):
    """The file is no PNG that is read here."""


def chunks(data):
    """The names and bodies of a PNG's parts."""
    if not data.startswith(SIGNATURE):
        raise BadPicture("no PNG")
    at = len(SIGNATURE)
    while at + 8 <= len(data):
        length, name = struct.unpack(">I4s", data[at : at + 8])
        yield name, data[at + 8 : at + 8 + length]
        at += length + 12


def foretold(kind, left, above, corner):
    """What a byte is told as a difference to, by the filter of its row."""
    if kind == 4:
        near = left + above - corner
        return min((abs(near - left), 0, left), (abs(near - above), 1, above), (abs(near - corner), 2, corner))[2]
    return (0, left, above, (left + above) // 2)[kind]


def unfiltered(data, width, height, step):
    """The rows of a PNG's pixels, without their filters."""
    above, rows = bytes(width * step), []
    for y in range(height):
        at = y * (width * step + 1)
        told, row = data[at + 1 : at + 1 + width * step], bytearray()
        if len(told) < width * step or data[at] > 4:
            raise BadPicture(f"row {y} can't be read")
        kind = data[at]
        for x, byte in enumerate(told):
            left, corner = (row[x - step], above[x - step]) if x >= step else (0, 0)
            row.append((byte + foretold(kind, left, above[x], corner)) % 256)
        above = bytes(row)
        rows.append(above)
    return rows


def pixel_of(kind, part, palette, alphas):
    """The alpha and the colours of one pixel, not premultiplied."""
    if kind == 0:
        return 255, part[0], part[0], part[0]
    if kind == 2:
        return 255, *part
    if kind == 3:
        if len(palette) < 3 * part[0] + 3:
            raise BadPicture(f"its palette has no colour {part[0]}")
        alpha = alphas[part[0]] if part[0] < len(alphas) else 255
        return alpha, *palette[3 * part[0] : 3 * part[0] + 3]
    if kind == 4:
        return part[1], part[0], part[0], part[0]
    return part[3], part[0], part[1], part[2]


def image_of(data):
    """The bytes of the image in EVI1."""
    parts = list(chunks(data))
    first = dict(parts)
    if b"IHDR" not in first or len(first[b"IHDR"]) != 13:
        raise BadPicture("it has no size")
    width, height, depth, kind, _, _, laced = struct.unpack(">IIBBBBB", first[b"IHDR"])
    if depth != 8 or kind not in STEPS or laced:
        raise BadPicture("only 8 bits a channel, not interlaced, are read")
    if not (1 <= width <= 4096 and 1 <= height <= 4096):
        raise BadPicture("an image has 1 to 4096 columns and rows")
    step = STEPS[kind]
    packed = b"".join(body for name, body in parts if name == b"IDAT")
    data = zlib.decompressobj().decompress(packed, height * (width * step + 1))
    rows = unfiltered(data, width, height, step)
    out = bytearray(b"EVI1" + struct.pack("<II", width, height))
    for row in rows:
        for x in range(0, len(row), step):
            alpha, *colours = pixel_of(kind, row[x : x + step], first.get(b"PLTE", b""), first.get(b"tRNS", b""))
            out.append(alpha)
            out.extend((2 * colour * alpha + 255) // 510 for colour in colours)
    return bytes(out)


def main():
    if len(sys.argv) != 3:
        sys.exit(__doc__)
    source, out = sys.argv[1:]
    try:
        with open(source, "rb") as file:
            image = image_of(file.read())
        with open(out, "wb") as file:
            file.write(image)
    except OSError as fault:
        sys.exit(f"image.py: {fault.filename or source}: {fault.strerror}")
    except (BadPicture, zlib.error) as fault:
        sys.exit(f"image.py: {source}: {fault}")


if __name__ == "__main__":
    main()
