"""Markdown tables of the documents."""


class Malformed(Exception):
    """The document has no such table, or one that is not as it should be."""


class Table:
    """Header and rows as lists of cells; `at` has the number of each row's line in its document."""

    def __init__(self, header, rows, at=()):
        self.header, self.rows, self.at = header, rows, at

    def __str__(self):
        lines = [self.header, ["---"] * len(self.header), *self.rows]
        return "\n".join("|%s|" % "|".join(row if row[0] == "---" else map(spaced, row)) for row in lines)

    def column(self, name):
        if self.header.count(name) != 1:
            raise Malformed("no column '%s', or more than one" % name)
        return self.header.index(name)


def spaced(cell):
    return " %s " % cell if cell else " "


def cells(line):
    return [cell.strip() for cell in line.strip().strip("|").split("|")]


def find(text, start):
    """The one table in the text whose header begins like this."""
    lines = text.splitlines()
    starts = [i for i, line in enumerate(lines) if line.startswith(start)]
    if len(starts) != 1:
        raise Malformed("%d tables begin with '%s', not one" % (len(starts), start))
    end = first = starts[0]
    while end < len(lines) and lines[end].startswith("|"):
        end += 1
    header, *rows = [cells(line) for line in lines[first:end]]
    if not rows or set(rows.pop(0)) != {"---"}:
        raise Malformed("no line of dashes under the header '%s'" % start)
    for row in rows:
        if len(row) != len(header):
            raise Malformed("a row with %d cells under %d: %s" % (len(row), len(header), row))
    return Table(header, rows, range(first + 3, end + 1))


def number(cell, kind):
    """A size, a length or a time."""
    try:
        found = kind(cell)
    except ValueError:
        raise Malformed("'%s' is not a number" % cell) from None
    if not 0 < found < 1e12:
        raise Malformed("'%s' is not a size or a time" % cell)
    return found
