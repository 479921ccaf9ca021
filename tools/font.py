#!/usr/bin/env python3
"""Makes a font file of a source in which the glyphs are drawn.

    tools/font.py SOURCE OUT.evf

The source is text. Empty lines and lines that begin with `;` say nothing. The first other line is
`height N`, with N from 1 to 32. A block follows for each of the characters 32 to 126, in order: the line
`glyph CODE CHARACTER` (`space` for the first), and then N rows of `#` and `.`, from the top. A `#` is a bit
of the glyph. All rows of a glyph are as wide as its first, at most 32 columns.
What breaks these rules is told with the number of its line, and then nothing is written.
The format of the file is that of docs/FORMATS.md, "Fonts".
"""
import re
import struct
import sys

FIRST, LAST = 32, 126
MAX_SIDE = 32


class Malformed(Exception):
    """A line that breaks the rules: its number and what is wrong."""

    def __init__(self, number, what):
        shown = "".join(mark if mark.isprintable() else "?" for mark in what[:200])
        super().__init__(f"line {number}: {shown}")


class Lines:
    """The lines that say something, with their numbers."""

    def __init__(self, text):
        lines = text.split("\n")
        said = enumerate(lines, 1)
        self.rest = [(number, line) for number, line in said if line.strip() and not line.startswith(";")]
        self.end = len(lines)

    def next(self, wanted):
        """The next line and its number; `wanted` names what has to stand there."""
        if not self.rest:
            raise Malformed(self.end, f"the source ends where {wanted} has to stand")
        return self.rest.pop(0)


def height_of(lines):
    number, line = lines.next("`height N`")
    found = re.fullmatch(r"height ([1-9][0-9]?)", line)
    if not found or int(found[1]) > MAX_SIDE:
        raise Malformed(number, f"`height N` has to stand here, with N from 1 to {MAX_SIDE}, not `{line}`")
    return int(found[1])


def bits_of(row):
    """The number of a row: bit k is column k."""
    return sum(1 << column for column, mark in enumerate(row) if mark == "#")


def glyph_of(lines, code, height):
    """The width and the rows of the block for this character."""
    title = f"glyph {code} {'space' if code == FIRST else chr(code)}"
    number, line = lines.next(f"`{title}`")
    if line != title:
        raise Malformed(number, f"`{title}` has to stand here, not `{line}`")
    rows = []
    for place in range(height):
        number, row = lines.next(f"row {place} of `{title}`")
        if not re.fullmatch(r"[#.]+", row):
            raise Malformed(number, f"row {place} of `{title}` is no row of # and ., but `{row}`")
        if len(row) > MAX_SIDE:
            raise Malformed(number, f"row {place} of `{title}` has {len(row)} columns, more than {MAX_SIDE}")
        if rows and len(row) != len(rows[0]):
            raise Malformed(number, f"row {place} of `{title}` has {len(row)} columns, and its first row {len(rows[0])}")
        rows.append(row)
    return len(rows[0]), [bits_of(row) for row in rows]


def font_of(text):
    """The bytes of the font file."""
    lines = Lines(text)
    height = height_of(lines)
    glyphs = [glyph_of(lines, code, height) for code in range(FIRST, LAST + 1)]
    if lines.rest:
        number, line = lines.rest[0]
        raise Malformed(number, f"nothing may follow the last glyph, not `{line}`")
    widths = bytes(width for width, _ in glyphs)
    rows = [row for _, glyph in glyphs for row in glyph]
    return b"EVF1" + bytes([height]) + widths + struct.pack(f"<{len(rows)}I", *rows)


def main():
    if len(sys.argv) != 3:
        sys.exit(__doc__)
    source, out = sys.argv[1:]
    try:
        with open(source, encoding="ascii", errors="replace") as file:
            font = font_of(file.read())
        with open(out, "wb") as file:
            file.write(font)
    except OSError as fault:
        sys.exit(f"font.py: {fault.filename or source}: {fault.strerror}")
    except Malformed as fault:
        sys.exit(f"font.py: {source}: {fault}")


if __name__ == "__main__":
    main()
