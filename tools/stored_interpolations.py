#!/usr/bin/env python3
"""The stored output of the program `interpolations`, made by the second implementation.

    tools/stored_interpolations.py            writes it
    tools/stored_interpolations.py --check    makes it anew and compares it with what is stored

Nothing here runs the proved program: the inputs are made by the rule that crates/interpolations/src/inputs.rt states,
and every outcome is what reference/smallwood.py says. Each call also has the number that its construction gives.
"""

import sys

sys.dont_write_bytecode = True

from stored_openings import LARGEST, ROOT, Q, S, compare_or_write, text, with_item  # noqa: E402

STORED = ROOT / "crates" / "interpolations" / "stdout"
ROOM = 328  # words of each buffer
MAX_POINTS = S.MAX_POINTS
MANY = 20  # the number of coefficients from which on there is a digest


# ---- Inputs -----------------------------------------------------------------------------------------


def words(rule):
    """A buffer by a rule: the first word, and each next one from the one before."""
    word, factor, step = rule
    buffer = []
    for _ in range(ROOM):
        buffer.append(word)
        word = (word * factor + step) % Q
    return buffer


def scattered(first):
    return first, 1103515245, 12345


def constant(word):
    return word, 1, 0


ANY_POINTS = 97, 2654435761, 12345
BEFORE = scattered(LARGEST)
FROM_0 = 0, 1, 1

# Points of other rules: in a row, up and down, around 0, powers, and far apart.
ROWS = (FROM_0, (4096, 1, 1), (Q - 1, 1, Q - 1), (Q - 3, 1, 1), (1, 2, 0), (0, 1, 65536))

# Points, values, and the coefficients that they must have.
LOW = (
    (ANY_POINTS, constant(0), [0]),
    (ANY_POINTS, constant(Q - 1), [Q - 1]),
    (ANY_POINTS, ANY_POINTS, [0, 1]),
    (FROM_0, (1, 1, 3), [1, 3]),
)


# ---- Accepted ---------------------------------------------------------------------------------------


def run(n, points, values, known=None):
    x, y = words(points)[:n], words(values)[:n]
    number, coefficients = S.interpolate(x, y, words(BEFORE)[:n])
    assert number == 0
    assert [S.evaluate(coefficients, point) for point in x] == y
    if known and n >= len(known):
        assert coefficients == known + [0] * (n - len(known))
    yield "points %d interpolate 0" % n
    data = S.to_bytes(coefficients)
    yield "coefficients " + data.hex() if n < MANY else "coefficients digest " + S.digest(data).hex()


def accepted():
    for n in (1, 2, 3, 7, 8, 9, 16, 17, MAX_POINTS - 1, MAX_POINTS):
        yield from run(n, ANY_POINTS, scattered(5))
    for n in (9, MAX_POINTS):
        for points in ROWS:
            yield from run(n, points, scattered(7))
    for n in (1, 9, MAX_POINTS):
        for points, values, known in LOW:
            yield from run(n, points, values, known)


# ---- Refused ----------------------------------------------------------------------------------------


def attempt(expected, points, values=None, room=None, point=None, value=None, equal=None):
    """A line for a call that is lent so many points, values and room for coefficients: as many as points if not given.

    point and value are (place, word) to set; equal is two places, of which the second point is then set to the first.
    """
    x, y, before = words(ANY_POINTS), words(scattered(11)), words(BEFORE)
    x = with_item(x, *point) if point else x
    y = with_item(y, *value) if value else y
    x = with_item(x, equal[1], x[equal[0]]) if equal else x
    values, room = points if values is None else values, points if room is None else room
    number, after = S.interpolate(x[:points], y[:values], before[:room])
    assert number == expected, (number, expected)
    outcome = "same" if after == before[:room] else "changed"
    return "points %d values %d room %d interpolate %d %s" % (points, values, room, number, outcome)


def refused():
    most, over = MAX_POINTS, MAX_POINTS + 1
    yield attempt(1, 0)
    yield attempt(1, 0, 1, 1)
    yield attempt(1, 0, 1, 0, value=(0, Q))
    yield attempt(1, over)
    yield attempt(1, over, most, most)
    yield attempt(1, over, 0, 0)
    yield attempt(1, over, point=(most, Q))
    yield attempt(1, over, equal=(0, most))
    yield attempt(1, ROOM)
    for values, room in ((most - 1, most), (over, most), (most, most - 1), (most, over)):
        yield attempt(2, most, values, room)
    for values, room in ((8, 8), (10, 10), (8, 10), (10, 8)):
        yield attempt(2, 9, values, room)
    yield attempt(2, 1, 0, 1)
    yield attempt(2, 1, 1, 0)
    yield attempt(2, 9, 8, 9, point=(0, Q))
    yield attempt(2, 9, 9, 10, value=(8, Q))
    yield attempt(2, 9, 9, 8, equal=(0, 8))
    yield attempt(3, 1, point=(0, Q))
    yield attempt(3, 1, value=(0, LARGEST))
    yield attempt(3, 9, point=(0, Q + 1))
    yield attempt(3, 9, point=(8, Q))
    yield attempt(3, 9, value=(0, Q))
    yield attempt(3, 9, value=(8, Q))
    yield attempt(3, most, point=(most - 1, LARGEST))
    yield attempt(3, most, value=(most - 1, Q))
    yield attempt(3, 9, point=(0, Q), equal=(0, 8))
    yield attempt(3, 9, value=(4, Q), equal=(0, 8))
    yield attempt(13, 2, equal=(0, 1))
    yield attempt(13, 8, equal=(6, 7))
    yield attempt(13, 9, equal=(0, 8))
    yield attempt(13, 9, equal=(7, 8))
    yield attempt(13, 17, equal=(8, 16))
    yield attempt(13, 17, point=(3, 0), equal=(3, 12))
    yield attempt(13, most - 1, equal=(most - 3, most - 2))
    for equal in ((0, 1), (0, most - 1), (most - 9, most - 8), (most - 2, most - 1)):
        yield attempt(13, most, equal=equal)
    yield attempt(0, 9, equal=(0, 9))
    yield attempt(0, 9, point=(9, Q), value=(9, Q))
    yield attempt(0, 9, point=(8, Q - 1), value=(0, Q - 1))
    yield attempt(0, most)


def output():
    return text([*accepted(), *refused()])


if __name__ == "__main__":
    compare_or_write(STORED, output, __doc__)
