#!/usr/bin/env python3
"""Draws docs/growth.svg from the table of growth in docs/BENCHMARKS.md, as `tools/bench.sh growth` prints it.

  tools/growth_svg.py           write the picture
  tools/growth_svg.py --check   compare it with what the table gives; exit status 1 where it differs
  --from FILE, --to FILE        another file with the table, another picture

A panel for each size that doubles, both axes logarithmic and of the same scale in all panels, so that lines of the same
growth are of the same steepness. Exit status 2 where the table is missing or malformed.
"""

import sys
from math import log2, log10

from svg import GRID, LINE, MIDDLE, TEXT, document, frame, grid_times, line, polyline, run, words
from tables import Malformed, find, number

# What the table has: the first word of each size's name, the operations, and the columns that are drawn.
SIZES = ["N", "mu", "l", "nu", "eta", "m"]
COLORS = {"commit": "#0072b2", "open": "#d55e00", "check": "#009e73"}
STROKES = {"library": 'stroke-width="2"', "plain C": 'stroke-width="1.2" stroke-dasharray="5 3"'}
HEADER = "| doubled | operation | to | library |"

PANELS_IN_ROW = 3
OCTAVE, DECADE = 38, 62  # pixels for a factor of 2 to the right, and of 10 upwards
INSET = 14  # between a panel's frame and its first and last value
LEFT, TITLE, BELOW, EDGE = 58, 26, 40, 16  # room beside, above and below a panel, and at the picture's edge
HEAD = 70  # the picture's title and legend
SAMPLE, GAP, NEXT = 30, 6, 110  # a line in the legend, from it to its words, and to the next one


# ---- The table --------------------------------------------------------------------------------------


def panels(text):
    """Of each size the name, and for (operation, column) the points (value, microseconds)."""
    table = find(text, HEADER)
    found = {}
    for row in table.rows:
        lines = found.setdefault(row[0], {})
        for column in STROKES:
            point = number(row[2], int), number(row[table.column(column)], float)
            lines.setdefault((row[1], column), []).append(point)
    if [name.split()[0] for name in found] != SIZES:
        raise Malformed("the sizes are %s, not %s" % (", ".join(found), ", ".join(SIZES)))
    for name, lines in found.items():
        if list(lines) != [(operation, column) for operation in COLORS for column in STROKES]:
            raise Malformed("%s: the operations are not %s" % (name, ", ".join(COLORS)))
        values = values_of(lines)
        if any(value != values[0] << i for i, value in enumerate(values)) or len(values) < 2:
            raise Malformed("%s: the values %s do not double" % (name, values))
        if any([value for value, _ in points] != values for points in lines.values()):
            raise Malformed("%s: the operations have different values" % name)
    return found


def values_of(lines):
    return [value for value, _ in next(iter(lines.values()))]


# ---- The picture ------------------------------------------------------------------------------------


def width_of(lines):
    return OCTAVE * (len(values_of(lines)) - 1) + 2 * INSET


class Panel:
    """One panel with the upper left corner of its frame at (x, y)."""

    def __init__(self, x, y, name, lines, times):
        self.x, self.y, self.name, self.lines, self.times = x, y, name, lines, times
        self.values, self.width, self.height = values_of(lines), width_of(lines), height_of(times)

    def place(self, value, time):
        across = INSET + OCTAVE * log2(value / self.values[0])
        return self.x + across, self.y + DECADE * log10(self.times[-1] / time)

    def axes(self):
        right, bottom = self.x + self.width, self.y + self.height
        for value in self.values:
            across, _ = self.place(value, self.times[0])
            yield line(across, self.y, across, bottom, 'stroke="%s"' % GRID)
            yield words(across, bottom + 14, value, 'text-anchor="middle"')
        for time in self.times:
            _, up = self.place(self.values[0], time)
            yield line(self.x, up, right, up, 'stroke="%s"' % GRID)
            if ("%.0e" % time).startswith("1"):
                yield words(self.x - GAP, up + MIDDLE, "%g" % time, 'text-anchor="end"')
        yield frame(self.x, self.y, self.width, self.height)
        yield words(self.x, self.y - 8, self.name, 'font-size="13"')

    def draw(self):
        yield from self.axes()
        for (operation, column), points in self.lines.items():
            stroke = 'stroke="%s" %s' % (COLORS[operation], STROKES[column])
            yield polyline([self.place(*point) for point in points], stroke)


def height_of(times):
    return DECADE * log10(times[-1] / times[0])


def legend(y):
    """The title, and below it a sample of each line and of the steepness of a time that doubles with the size."""
    yield words(EDGE, y, "Microseconds of one call as one size doubles", 'font-size="16"')
    x, y = EDGE, y + 24
    samples = [(operation, color, STROKES["library"]) for operation, color in COLORS.items()]
    samples += [(column, TEXT, stroke) for column, stroke in STROKES.items()]
    for name, color, stroke in samples:
        yield line(x, y - MIDDLE, x + SAMPLE, y - MIDDLE, 'stroke="%s" %s' % (color, stroke))
        yield words(x + SAMPLE + GAP, y, name)
        x += NEXT
    yield line(x, y, x + OCTAVE, y - DECADE * log10(2), 'stroke="%s"' % LINE)
    yield words(x + OCTAVE + GAP, y, "this steep: doubles with the size")


def picture(found):
    every = [time for lines in found.values() for points in lines.values() for _, time in points]
    times = grid_times(min(every), max(every))
    row_height = TITLE + height_of(times) + BELOW
    drawn, right, x, y = list(legend(30)), 0, 0, HEAD
    for i, (name, lines) in enumerate(found.items()):
        if i > 0 and i % PANELS_IN_ROW == 0:
            x, y = 0, y + row_height
        drawn += Panel(x + LEFT, y + TITLE, name, lines, times).draw()
        x += LEFT + width_of(lines)
        right = max(right, x)
    return document(right + EDGE, y + row_height, drawn)


if __name__ == "__main__":
    sys.exit(run(__doc__, "growth.svg", "table of growth", lambda text: picture(panels(text))))
