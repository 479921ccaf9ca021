#!/usr/bin/env python3
"""Checks that each heading that is cited of a page of docs/ stands there.

    tools/headings.py FILE..

A citation is `docs/PAGE.md, "Heading"`, also of several headings, or in brackets the same without quotation marks.
It may go on in the next line, in a comment too. Each that names no heading is told with its file and line.
"""
import pathlib
import re
import sys

DOCS = pathlib.Path(__file__).resolve().parent.parent / "docs"
# what stands around the end of a line: spaces, and the mark of a comment that goes on
BREAK = re.compile(r"[ \t]*\n[ \t]*(?://[/!]?|--|#)?[ \t]*")
QUOTED = r'"[^"]+"(?:(?:,|\sand)\s"[^"]+")*'
BARE = r"[A-Z][A-Za-z\s]*(?=\))"
CITATION = re.compile(rf"\b([A-Z]+\.md)\)?,\s({QUOTED}|{BARE})")


def headings():
    """The headings of each page of docs/, by its name."""
    return {page.name: set(re.findall(r"(?m)^#+ (.+)$", page.read_text())) for page in DOCS.glob("*.md")}


def citations(text):
    """Each heading that is cited: the number of the line, the page and the heading."""
    text = BREAK.sub("\n", text)
    for found in CITATION.finditer(text):
        page, cited = found.groups()
        for heading in re.findall(r'"([^"]+)"', cited) or [cited]:
            yield text.count("\n", 0, found.start()) + 1, page, " ".join(heading.split())


def main():
    if len(sys.argv) < 2:
        sys.exit(__doc__)
    known, wrong = headings(), 0
    for name in sys.argv[1:]:
        for number, page, heading in citations(pathlib.Path(name).read_text()):
            if page in known and heading not in known[page]:
                print(f'headings.py: {name}:{number}: docs/{page} has no heading "{heading}"', file=sys.stderr)
                wrong += 1
    sys.exit(1 if wrong else 0)


if __name__ == "__main__":
    main()
