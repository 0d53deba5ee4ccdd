"""Calls of the interpolation, with every lent slice before and after.

As in cases.py, what the construction of a call tells is asserted while the call is made.
"""

from collections import namedtuple
from itertools import combinations, product

import smallwood as S
from calls import off_by, with_word
from drafts import LAST_WORD, Source, prefill
from faults import turn
from smallwood import MAX_POINTS, Q

# Interpolating: what is lent, and the coefficients before and after.
InterpolateCall = namedtuple("InterpolateCall", "label points values coefficients number coefficients_after")

# Numbers of points: an implementation may work in blocks of eight, so those beside multiples of eight are among them.
SMALL_COUNTS = tuple(range(1, 34))
LARGE_COUNTS = (63, 64, 65, 255, 256, 257, 311, 312, 313, MAX_POINTS - 1, MAX_POINTS)
NO_ELEMENTS = (Q, Q + 1, LAST_WORD)

# The tests after that of the count, in their order, each with its number.
STAGES = (("length", 2), ("element", 3), ("equal", 13))


def room(count):
    """What the lent coefficients hold before a call."""
    return S.to_words(prefill(4 * count))


def different(src, count):
    """So many points that differ, in the order in which they are drawn."""
    chosen = {}
    while len(chosen) < count:
        chosen[src.below(Q)] = None
    return list(chosen)


def interpolate_call(label, points, values, coefficients, number=None, wanted=None):
    """A call; number and wanted are what its construction tells, None where the reference decides."""
    found, after = S.interpolate(points, values, coefficients)
    assert number is None or found == number, (label, found, number)
    assert found == 0 or after == coefficients, label
    assert wanted is None or after == wanted, label
    return InterpolateCall("interpolate: " + label, points, values, coefficients, found, after)


def accepted(label, points, values, wanted=None):
    label = "%s, %d points" % (label, len(points))
    return interpolate_call(label, points, values, room(len(points)), 0, wanted)


def through(label, points, polynomial):
    """The values of a polynomial, whose coefficients have to come back."""
    wanted = polynomial + [0] * (len(points) - len(polynomial))
    return accepted(label, points, [S.evaluate(polynomial, x) for x in points], wanted)


# ---- Accepted ---------------------------------------------------------------------------------------


def spans(count):
    """(label, so many points in a row or otherwise near to one another)."""
    yield "points from 0", list(range(count))
    yield "points down to 0", list(range(count))[::-1]
    yield "points from 4096", list(range(4096, 4096 + count))
    yield "points up to q - 1", list(range(Q - count, Q))
    yield "points around 0", [(x - count // 2) % Q for x in range(count)]
    yield "points 65536 apart", [x * 65536 for x in range(count)]  # differences whose products vanish in 32 bits
    yield "points 3 apart, every other one from the end", [3 * x if x % 2 else Q - 1 - 3 * x for x in range(count)]


def accepted_calls():
    for count in SMALL_COUNTS + LARGE_COUNTS:
        src = Source("interpolate %d" % count)
        points = different(src, count)
        yield accepted("drawn", points, src.elements(count))
        yield through("drawn coefficients", points, src.edgy(count))
    for count in SMALL_COUNTS:
        src = Source("interpolate in a row, %d" % count)
        for label, points in spans(count):
            yield accepted(label, points, src.edgy(count))
    for label, points in spans(MAX_POINTS):
        yield accepted(label, points, Source(label).elements(MAX_POINTS))
    for count in (1, 2, 3, 8, 9, 17, MAX_POINTS):
        yield from special_values(count)
    for count in (8, 9, 17):
        yield from basis_calls(count)
    yield from output_calls()


def special_values(count):
    src = Source("special values %d" % count)
    points = different(src, count)
    yield through("values 0", points, [0])
    yield through("values 1", points, [1])
    yield through("values q - 1", points, [Q - 1])
    yield through("values are the points", points, [0, 1][:count] if count > 1 else points)
    if count > 1:
        yield through("values fall as the points rise", points, [0, Q - 1])
    yield through("half as many coefficients", points, src.elements((count + 1) // 2))
    yield through("highest coefficient 0", points, src.elements(max(1, count - 1)))
    yield through("constant 0", points, ([0] + src.elements(count))[:count])
    yield through("coefficients q - 1", points, [Q - 1] * count)
    for power in sorted({0, 1, 2, 7, 8, count // 2, count - 2, count - 1} & set(range(count))):
        yield through("values of X^%d" % power, points, [0] * power + [1])
    for at in sorted({0, count // 2, count - 1}):
        for word in (0, Q - 1):
            others = [x for x in different(src, count + 1) if x != word][: count - 1]
            yield accepted("point %d is %d" % (at, word), others[:at] + [word] + others[at:], src.elements(count))
            yield accepted("value %d is %d" % (at, word), points, with_word(src.elements(count), at, word))


def basis_calls(count):
    """One value is 1 and all others 0, at every place."""
    points = different(Source("basis %d" % count), count)
    for at in range(count):
        yield accepted("value %d alone" % at, points, with_word([0] * count, at, 1))


def output_calls():
    """What stands in the lent coefficients before makes no difference."""
    for count in (1, 2, 9, MAX_POINTS):
        src = Source("coefficients before %d" % count)
        points, values = different(src, count), src.elements(count)
        wanted = S.interpolate(points, values, room(count))[1]
        for label, before in (
            ("zeros", [0] * count),
            ("words q", [Q] * count),
            ("words 2^32 - 1", [LAST_WORD] * count),
            ("first word q + 1", with_word(room(count), 0, Q + 1)),
            ("last word q", with_word(room(count), -1, Q)),
            ("the points", points),
            ("the values", values),
            ("the right words", wanted),
        ):
            label = "%s before, %d points" % (label, count)
            yield interpolate_call(label, points, values, before, 0, wanted)


# ---- Refused ----------------------------------------------------------------------------------------


def wrong_counts():
    """1: no point, and more than can be; what else is wrong makes no difference."""
    src = Source("interpolate counts")
    for values, coefficients in ((0, 0), (0, 1), (1, 0), (1, 1), (MAX_POINTS, MAX_POINTS), (0, 9), (9, 0)):
        label = "0 points, %d values, room for %d" % (values, coefficients)
        yield interpolate_call(label, [], src.elements(values), room(coefficients), 1)
        yield interpolate_call(label + ", words over q", [], [Q] * values, [Q] * coefficients, 1)
    over = MAX_POINTS + 1
    for count in (over, over + 1, 328, 511, 512, 513, 2 * MAX_POINTS, 65536, 65537, 65536 + 8):
        points, values = different(src, count), src.elements(count)
        yield interpolate_call("%d points" % count, points, values, room(count), 1)
    points, values = points[:over], values[:over]
    for counts in ((0, 0), (1, 1), (over - 1, over - 1), (over - 1, over), (over, over - 1), (over + 1, over)):
        label = "%d points, %d values, room for %d" % (over, *counts)
        yield interpolate_call(label, points, (values + [7])[: counts[0]], room(counts[1]), 1)
    yield interpolate_call("%d points, one is q" % over, with_word(points, 5, Q), values, room(over), 1)
    yield interpolate_call("%d points, a value is q" % over, points, with_word(values, -1, Q), room(over), 1)
    yield interpolate_call("%d points, two equal" % over, with_word(points, -1, points[0]), values, room(over), 1)
    yield interpolate_call("%d points, all equal" % over, [5] * over, values, room(over), 1)


def wrong_lengths():
    """2: unequal lengths; elements and equal points make no difference."""
    for count in (1, 2, 3, 7, 8, 9, 16, 17, MAX_POINTS - 1, MAX_POINTS):
        src = Source("interpolate lengths %d" % count)
        points, values, before = different(src, count), src.elements(count), room(count)
        steps = sorted({step for step in (-count, -8, -1, 0, 1, 8, count) if count + step >= 0})
        for more_values, more_room in product(steps, steps):
            if (more_values, more_room) == (0, 0):
                continue
            lent = resized(values, more_values), resized(before, more_room)
            label = "%d points, %d values, room for %d" % (count, *map(len, lent))
            yield interpolate_call(label, points, *lent, 2)
            yield interpolate_call(label + ", point q", with_word(points, -1, Q), *lent, 2)
            yield interpolate_call(label + ", all points equal", points[:1] * count, *lent, 2)
            if lent[0]:
                yield interpolate_call(label + ", value q", points, with_word(lent[0], 0, Q), lent[1], 2)


def resized(words, step):
    """Longer or shorter by so many words."""
    return off_by(words, step) if step else words


def wrong_elements():
    """3: a word that is no element, of the points or of the values, at every place or at the borders."""
    for count in (1, 2, 3, 8, 9, 17, MAX_POINTS):
        src = Source("interpolate elements %d" % count)
        points, values, before = different(src, count), src.elements(count), room(count)
        places = range(count) if count < MAX_POINTS else (0, 1, 7, 8, 159, 160, 311, 312, count - 2, count - 1)
        for at in places:
            for word in NO_ELEMENTS if at in (0, count - 1) else NO_ELEMENTS[:1]:
                label = " %d of %d is %d" % (at, count, word)
                spoilt = with_word(points, at, word), with_word(values, at, word)
                yield interpolate_call("point" + label, spoilt[0], values, before, 3)
                yield interpolate_call("value" + label, points, spoilt[1], before, 3)
                yield interpolate_call("point and value" + label, *spoilt, before, 3)
        for word in NO_ELEMENTS:
            yield interpolate_call("all %d points are %d" % (count, word), [word] * count, values, before, 3)
            yield interpolate_call("all %d values are %d" % (count, word), points, [word] * count, before, 3)
        for first, second in sorted({(0, count - 1), (count - 1, 0), (count // 2, 0)}):
            if first != second:
                label = "points %d, %d of %d are " % (first, second, count)
                twice = with_word(with_word(points, first, Q), second, Q)
                yield interpolate_call(label + "q", twice, values, before, 3)
                zero = with_word(twice, second, 0)
                yield interpolate_call(label + "q and 0", zero, values, before, 3)
                equal = with_word(points, first, points[second])
                for at in (0, -1):
                    spoilt = with_word(values, at, Q)
                    yield interpolate_call(label + "equal, value %d is q" % at, equal, spoilt, before, 3)


def equal_pairs(count):
    """Pairs of places: all of them where they are few; else neighbours, first and last, and borders of eight."""
    if count <= 17:
        return list(combinations(range(count), 2))
    beside = (1, 6, 7, 8, 9, 15, 16, count // 2, count - 10, count - 9, count - 8, count - 7, count - 2)
    pairs = [(at, at + 1) for at in range(count - 1)] + [(0, count - 1)]
    return sorted({*pairs, *((0, at) for at in beside), *((at, count - 1) for at in beside)})


def equal_points():
    """13: two points are equal, whatever their values are."""
    for count in (2, 3, 7, 8, 9, 15, 16, 17, 64, 65, MAX_POINTS - 1, MAX_POINTS):
        src = Source("interpolate equal %d" % count)
        points, values, before = different(src, count), src.elements(count), room(count)
        for first, second in equal_pairs(count):
            label = "points %d, %d of %d are equal" % (first, second, count)
            yield interpolate_call(label, with_word(points, second, points[first]), values, before, 13)
        last, agreeing = with_word(points, -1, points[0]), with_word(values, -1, values[0])
        yield interpolate_call("first and last of %d, values too" % count, last, agreeing, before, 13)
        yield interpolate_call("first and last of %d, values 0" % count, last, [0] * count, before, 13)
        for word in (0, 1, Q - 1):
            yield interpolate_call("all %d points are %d" % (count, word), [word] * count, values, before, 13)
            label = "first and last of %d are %d" % (count, word)
            yield interpolate_call(label, with_word(with_word(points, 0, word), -1, word), values, before, 13)
        three = with_word(with_word(points, count // 2, points[0]), -1, points[0])
        yield interpolate_call("three of %d equal" % count, three, values, before, 13)
        halves = (points[: (count + 1) // 2] * 2)[:count]
        yield interpolate_call("each of %d twice" % count, halves, values, before, 13)
        yield interpolate_call("words q before, two of %d equal" % count, last, values, [Q] * count, 13)


def faulty(count, faults, v):
    """A call with these faults; v chooses among variants."""
    src = Source("interpolate faults %d" % count)
    given = {"points": different(src, count), "values": src.elements(count), "coefficients": room(count)}
    if "length" in faults:
        for part in turn((("values",), ("coefficients",), ("values", "coefficients")), v):
            given[part] = off_by(given[part], turn((-1, 1, 1, -1), v // 3))
    if "equal" in faults and count > 1:
        given["points"][turn((-1, 1), v)] = given["points"][0]
    if "element" in faults and count > 0:
        spoilt = given[turn(("points", "values"), v)]
        spoilt[turn((0, -1, len(spoilt) // 2), v // 2)] = turn(NO_ELEMENTS, v // 3)
    number = next((number for stage, number in STAGES if stage in faults), 0) if 1 <= count <= MAX_POINTS else 1
    label = "faults: %s; variant %d of %d points" % (", ".join(faults), v, count)
    return interpolate_call(label, *given.values(), number)


def more_faults():
    """Every combination of faults: the earliest test decides."""
    stages = [stage for stage, _ in STAGES]
    for count in (0, 2, 8, 9, 17, MAX_POINTS, MAX_POINTS + 1):
        for size in range(1, len(stages) + 1):
            for faults in combinations(stages, size):
                for v in range(12):
                    yield faulty(count, faults, v)


def refused_interpolations():
    yield from wrong_counts()
    yield from wrong_lengths()
    yield from wrong_elements()
    yield from equal_points()
    yield from more_faults()


def interpolate_calls():
    yield from accepted_calls()
    yield from refused_interpolations()
