#!/usr/bin/env python3
"""Draws docs/sizes.svg from the table of worked products in docs/BENCHMARKS.md, as `tools/bench.sh products` prints it.

  tools/sizes_svg.py           write the picture
  tools/sizes_svg.py --check   compare it with what the table gives; exit status 1 where it differs
  --from FILE, --to FILE       another file with the table, another picture

For each product two panels: the bytes of a mean reply, and the microseconds of a check, each against the microseconds
of a commit, with a line for each target (bits, and against whom) and a point for each depth. Exit status 2 where the
table is missing or malformed.
"""

import sys
from collections import namedtuple
from math import log

from sizes_tables import ANYONE, BENCHED, PRODUCTS, TARGETS, TRUSTED, Target, least_time
from svg import GRID, MIDDLE, document, dot, frame, grid_times, line, polyline, run, words
from tables import Malformed, find, number

# What is drawn upwards: the column, how its cells are read, and what they are.
UPWARDS = ("mean reply", int, "bytes of a mean reply"), ("check", least_time, "microseconds to check")
COLORS = dict(zip(TARGETS, ("#56b4e9", "#0072b2", "#009e73", "#e69f00", "#d55e00")))
WHOM = {TRUSTED: "trusted committer", ANYONE: "whoever committed"}

WIDTH, HEIGHT = 340, 290  # of a panel
INSET = 22  # between a panel's frame and its first and last point
LEFT, TITLE, BELOW, RIGHT, EDGE = 62, 92, 48, 170, 12  # room around a panel, and at the picture's edge
HEAD = 56  # the picture's title
GAP, RADIUS = 6, 2.6  # from a line to its words; of a point
CENTRED = 'text-anchor="middle"'
OPENED = 'font-size="9"'  # the number of opened leaves, beside a point
APART = 13  # lines of words, one below the other


# ---- The table --------------------------------------------------------------------------------------


Point = namedtuple("Point", "mu target h opened commit value")


def points_of(table, name, column, read):
    """All of a product, with the column's values."""
    found = []
    for row in table.rows:
        if row[table.column("product")] == name:
            mu, bits, h, opened = (number(row[table.column(size)], int) for size in ("mu", "bits", "h", "l"))
            target = Target(row[table.column("committer")], bits)
            times = least_time(row[table.column("commit")]), float(read(row[table.column(column)]))
            found.append(Point(mu, target, h, opened, *times))
    return found


def lines_of(product, every):
    """{target: points} of one split of the product into rows and columns."""
    found = {}
    for point in every:
        if point.mu == product.mu:
            found.setdefault(point.target, []).append(point)
    if not found or not COLORS.keys() >= found.keys():
        raise Malformed("%s, mu = %d: the targets are %s" % (product.name, product.mu, list(found)))
    for points in found.values():
        if [point.h for point in points] != list(range(points[0].h, points[0].h + len(points))):
            raise Malformed("%s, mu = %d: the depths do not rise by 1" % (product.name, product.mu))
    return found


def spread(heights):
    """The heights, from the top down, moved as little as keeps each APART below the one before."""
    placed = []
    for height in sorted(heights):
        placed.append(max(height, placed[-1] + APART) if placed else height)
    return dict(zip(sorted(heights), placed))


# ---- The picture ------------------------------------------------------------------------------------


def placed(value, low, high):
    """Between 0 and 1, by logarithms."""
    return log(value / low) / log(high / low)


class Panel:
    """One panel with the upper left corner of its frame at (x, y), to the scale of all the product's points."""

    def __init__(self, x, y, title, lines, every):
        self.x, self.y, self.title, self.lines = x, y, title, lines
        self.times = min(point.commit for point in every), max(point.commit for point in every)
        self.values = min(point.value for point in every), max(point.value for point in every)
        self.depths = sorted({point.h for points in lines.values() for point in points})

    def across(self, time):
        return self.x + INSET + (WIDTH - 2 * INSET) * placed(time, *self.times)

    def up(self, value):
        return self.y + HEIGHT - INSET - (HEIGHT - 2 * INSET) * placed(value, *self.values)

    def axes(self):
        right, bottom = self.x + WIDTH, self.y + HEIGHT
        for time in grid_times(*self.times):
            at = self.across(time)
            if self.x <= at <= right:
                yield line(at, self.y, at, bottom, 'stroke="%s"' % GRID)
                yield words(at, bottom + 14, "{:,.0f}".format(time), CENTRED)
        for value in grid_times(*self.values):
            at = self.up(value)
            if self.y <= at <= bottom:
                yield line(self.x, at, right, at, 'stroke="%s"' % GRID)
                yield words(self.x - GAP, at + MIDDLE, "{:,.0f}".format(value), 'text-anchor="end"')
        yield frame(self.x, self.y, WIDTH, HEIGHT)
        yield words(self.x + WIDTH / 2, bottom + 30, "microseconds to commit", CENTRED)
        yield words(self.x, self.y - 24, self.title, 'font-size="12"')

    def depth(self, h):
        """Over its points, in the middle of their times."""
        times = [point.commit for points in self.lines.values() for point in points if point.h == h]
        at = (self.across(min(times)) + self.across(max(times))) / 2
        return words(at, self.y - 7, "h = %d" % h, CENTRED)

    def draw(self):
        yield from self.axes()
        yield from map(self.depth, self.depths)
        ends = spread([self.up(points[-1].value) for points in self.lines.values()])
        for target, points in self.lines.items():
            color = COLORS[target]
            at = [(self.across(point.commit), self.up(point.value)) for point in points]
            yield polyline(at, 'stroke="%s" stroke-width="2"' % color)
            for (x, y), point in zip(at, points):
                yield dot(x, y, RADIUS, color)
                yield words(x + 3, y - 5, point.opened, OPENED)
            about = "%d bits, %s" % (target.bits, WHOM[target.committer])
            yield words(self.x + WIDTH + GAP, ends[at[-1][1]] + MIDDLE, about, 'fill="%s"' % color)


def picture(text):
    table = find(text, BENCHED)
    about = "Each line: so many bits, against a trusted committer or whoever committed. Each point: N = 2^h leaves, "
    about += "and beside it l, the least number of them to open for these bits. Both scales are logarithmic."
    drawn = [words(EDGE, 26, "What a deeper tree costs and saves", 'font-size="16"'), words(EDGE, 46, about)]
    right, y = 0, HEAD + TITLE
    for product in PRODUCTS:
        x = LEFT
        title = "%s, in %d rows and %d columns each" % (product.title.capitalize(), product.mu, product.nu)
        held = "held fixed: w = %d, mu = %d, nu = %d, eta = %d, m = %d, beta = %d, kappa = 0"
        held %= product.w, product.mu, product.nu, product.eta, product.m, product.beta
        drawn.append(words(EDGE, y - 62, title, 'font-size="13" font-weight="bold"'))
        drawn.append(words(EDGE, y - 46, held))
        for column, read, what in UPWARDS:
            every = points_of(table, product.name, column, read)
            drawn += Panel(x, y, what, lines_of(product, every), every).draw()
            x += WIDTH + RIGHT + LEFT
        right, y = max(right, x - LEFT), y + HEIGHT + BELOW + TITLE
    return document(right + EDGE, y - TITLE, drawn)


if __name__ == "__main__":
    sys.exit(run(__doc__, "sizes.svg", "table of worked products", picture))
