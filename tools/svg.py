"""What the programs share that draw the pictures in docs/ from tables of docs/BENCHMARKS.md: pieces of a picture, and
the command line."""

import sys
from html import escape
from math import ceil, floor, log10
from pathlib import Path

import paths  # noqa: F401  (makes the module below importable)
from arguments import Arguments, present, writable
from tables import Malformed

DOCS = Path(__file__).resolve().parent.parent / "docs"

MIDDLE = 4  # from the foot of a line of text to its middle
TEXT, LINE, GRID, PAPER = "#222222", "#888888", "#e4e4e4", "#ffffff"


def decimals(x):
    return ("%.1f" % x).rstrip("0").rstrip(".")


def line(x1, y1, x2, y2, more):
    return '<line x1="%s" y1="%s" x2="%s" y2="%s" %s/>' % (*map(decimals, (x1, y1, x2, y2)), more)


def polyline(points, more):
    at = " ".join("%s,%s" % tuple(map(decimals, point)) for point in points)
    return '<polyline points="%s" fill="none" %s/>' % (at, more)


def frame(x, y, width, height):
    at = tuple(map(decimals, (x, y, width, height)))
    return '<rect x="%s" y="%s" width="%s" height="%s" fill="none" stroke="%s"/>' % (*at, LINE)


def dot(x, y, radius, color):
    return '<circle cx="%s" cy="%s" r="%s" fill="%s"/>' % (*map(decimals, (x, y, radius)), color)


def words(x, y, text, more=""):
    return '<text x="%s" y="%s"%s>%s</text>' % (decimals(x), decimals(y), more and " " + more, escape(str(text)))


def grid_times(low, high):
    """1, 2 and 5 times each power of ten, from the last that is not above `low` to the first not below `high`."""
    steps = [step * 10.0**k for k in range(floor(log10(low)), ceil(log10(high)) + 1) for step in (1, 2, 5)]
    first = max(step for step in steps if step <= low)
    last = min(step for step in steps if step >= high)
    return [step for step in steps if first <= step <= last]


def document(width, height, drawn):
    size = decimals(width), decimals(height)
    head = '<svg xmlns="http://www.w3.org/2000/svg" width="%s" height="%s" viewBox="0 0 %s %s"' % (size + size)
    head += ' font-family="sans-serif" font-size="11" fill="%s">' % TEXT
    paper = '<rect width="%s" height="%s" fill="%s"/>' % (*size, PAPER)
    return "\n".join([head, paper, *drawn, "</svg>"]) + "\n"


def run(about, name, what, draw):
    """The program that writes docs/`name`, or compares it; `draw` makes it of a document's text. The exit status."""
    parser = Arguments(about)
    parser.add_argument("--check", action="store_true", help="compare the stored picture, and write nothing")
    parser.add_argument("--from", dest="source", type=present, default=DOCS / "BENCHMARKS.md", metavar="FILE")
    parser.add_argument("--to", dest="target", type=writable, default=DOCS / name, metavar="FILE")
    options = parser.parse_args()
    if options.check and not options.target.is_file():
        parser.error("there is no picture %s" % options.target)
    try:
        drawn = draw(options.source.read_text(encoding="utf-8")).encode()
    except (Malformed, OSError, UnicodeDecodeError) as error:
        parser.error("%s: no %s as bench.c prints it: %s" % (options.source, what, error))
    if not options.check:
        options.target.write_bytes(drawn)
    elif options.target.read_bytes() != drawn:
        print("%s is not what the table gives" % options.target, file=sys.stderr)
        return 1
    return 0
