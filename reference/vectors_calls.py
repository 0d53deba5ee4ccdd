"""Test vectors of committing, opening, the planners' entries and the interpolation."""

from functools import lru_cache
from itertools import combinations

import smallwood as S
from calls import (
    COMMIT_SIZES, OPEN_STAGES, WORDS, commit_call, exchanged_salt, faulty_open, faulty_question, length_call, off_by,
    open_call, permutations_call, placed_leaves, version_1, version_2, with_version, with_word, without_salt,
)  # fmt: skip
from drafts import (
    LAST_WORD, Lent, Source, ask, case_p, case_p_commitment, drawn_question, lend, outputs, random_commitment,
    reply_buffer,
)  # fmt: skip
from faults import BAD_SIZES, QUESTION_STAGES, spoil
from interpolations import different, interpolate_call, room
from smallwood import MAX_POINTS, Q, Sizes
from vectors import Vector, near_pairs

LENT = Sizes(3, 2, 2, 1, 2, 2, 2, 1)  # the commitment in which most faults are made
PLAIN = Sizes(2, 2, 1, 2, 1, 1, 1)  # one without blinding rows
WIDE = Sizes(8, 1, 255, 1, 1, 1, 1)  # rows of 256 words; wider ones need 512 leaves, and files twice as long
NO_ELEMENTS = ((Q, "q"), (LAST_WORD, "2^32 - 1"))


# ---- Committing -------------------------------------------------------------------------------------


def commit_vector(flags, comment, s, lent, number, sizes=None, table=None, tree=None):
    """A call with the sizes s, in the group of these other sizes where they are given."""
    sizes = sizes or s
    whole = outputs(sizes)
    table, tree = whole[0] if table is None else table, whole[1] if tree is None else tree
    call = commit_call(comment, s, lent, table, tree, number)
    changed = {name: getattr(s, name) for name in COMMIT_SIZES if getattr(s, name) != getattr(sizes, name)}
    lengths = {"table_length": len(table), "tree_length": len(tree)}
    after = {"table": call.table_after, "tree": call.tree_after}
    return Vector(sizes, comment, flags, {**changed, **lent._asdict(), **lengths}, call.number, after)


COMMITTED = (
    ("one polynomial of two columns, a blinding row", LENT),
    ("two polynomials of one column", PLAIN),
    ("two repetitions of masks, no blinding rows", Sizes(2, 1, 1, 1, 2, 2, 1)),
    ("one column: no blinds, two blinding rows", Sizes(2, 2, 1, 1, 2, 1, 1, 2)),
    ("beta = mu = 1, three columns", Sizes(3, 1, 3, 1, 2, 1, 1, 1)),
    ("two polynomials of three columns, two blinding rows", Sizes(4, 3, 3, 2, 2, 1, 1, 2)),
    ("mu + beta = 64 and eta = 4: the longest leaf string", Sizes(1, 48, 1, 1, 1, 4, 1, 16)),
    ("mu = 64", Sizes(1, 64, 1, 1, 1, 1, 1)),
    ("leaf strings of 135 bytes, the longest of one block", Sizes(1, 13, 1, 1, 1, 4, 1)),
    ("leaf strings of 139 bytes, the shortest of two blocks", Sizes(1, 14, 1, 1, 1, 4, 1)),
    ("leaf strings of 271 bytes, the longest of two blocks", Sizes(1, 47, 1, 1, 1, 4, 1)),
    ("leaf strings of 275 bytes, the shortest of three blocks", Sizes(1, 48, 1, 1, 1, 4, 1)),
    ("w nu + l = N = 64", Sizes(6, 1, 7, 8, 8, 1, 1)),
    ("w nu + l = N = 256", WIDE),
)


def committed_vectors():
    c = case_p_commitment()
    yield commit_vector(("honest",), "case P of the handbook", c.sizes, c.lent, 0)
    for comment, s in COMMITTED:
        yield commit_vector(("honest",), comment, s, random_commitment(s).lent, 0)
    src = Source("committed vectors")
    for word, shown in ((0, "0"), (Q - 1, "q - 1")):
        lent = lend(src, LENT, lambda count: [word] * count)
        yield commit_vector(("honest", "boundary"), "all words are %s" % shown, LENT, lent, 0)
    lent = random_commitment(LENT).lent
    for byte in (0, 255):
        salted = lent._replace(salt=bytes([byte]) * 32)
        yield commit_vector(("honest", "salt"), "a salt of bytes %d: the same table" % byte, LENT, salted, 0)
    other = lent._replace(blinds=with_word(lent.blinds, 0, lent.blinds[0] ^ 1))
    yield commit_vector(("honest", "blinds"), "one blind another: two rows differ", LENT, other, 0)


WRONG_SIZES = (
    dict(h=0), dict(h=13), dict(mu=0), dict(mu=65), dict(nu=0), dict(nu=257), dict(w=0), dict(w=257), dict(l=0),
    dict(l=65), dict(eta=0), dict(eta=5), dict(beta=3), dict(beta=17), dict(mu=64, beta=1), dict(l=7),
    dict(h=2**32 - 1), dict(h=256 + 3), dict(mu=256 + 2), dict(l=256 + 2), dict(eta=256 + 2), dict(beta=256 + 1),
    dict(nu=65536 + 2), dict(w=65536 + 1), dict(w=65536, nu=65536), dict(mu=2**32 - 1, beta=2),
)  # fmt: skip


def refused_commits():
    lent, (table, tree) = random_commitment(LENT).lent, outputs(LENT)
    for changes in WRONG_SIZES:
        comment = ", ".join("%s = %d" % change for change in changes.items())
        yield commit_vector(("sizes",), comment, LENT._replace(**changes), lent, 1, LENT)
    for part in Lent._fields:
        shorter = lent._replace(**{part: off_by(getattr(lent, part), -1)})
        yield commit_vector(("length",), "%s too short by 1" % part, LENT, shorter, 2)
    longer = lent._replace(coefficients=off_by(lent.coefficients, 1))
    yield commit_vector(("length",), "coefficients too long by 1", LENT, longer, 2)
    twice = lent._replace(salt=2 * lent.salt)
    yield commit_vector(("length", "salt"), "a salt of 64 bytes", LENT, twice, 2)
    for part in ("coefficients", "salt"):
        none = lent._replace(**{part: getattr(lent, part)[:0]})
        yield commit_vector(("length",), "no %s" % part, LENT, none, 2)
    for step in (-1, 1):
        yield commit_vector(("length",), "table off by %d" % step, LENT, lent, 2, table=off_by(table, step))
        yield commit_vector(("length",), "tree off by %d" % step, LENT, lent, 2, tree=off_by(tree, step))
    blind = random_commitment(PLAIN).lent._replace(blinds=[1])
    yield commit_vector(("length", "blinds"), "a blind where there are none", PLAIN, blind, 2)
    for part in WORDS:
        for at, place in ((0, "first"), (-1, "last")):
            word, shown = NO_ELEMENTS[at]
            changed = lent._replace(**{part: with_word(getattr(lent, part), at, word)})
            yield commit_vector(("element",), "%s of the %s is %s" % (place, part, shown), LENT, changed, 3)
    spoilt = lent._replace(masks=with_word(lent.masks, 0, Q))
    yield commit_vector(("order",), "two faults: sizes, lent element", LENT._replace(h=0), spoilt, 1, LENT)
    yield commit_vector(("order",), "two faults: sizes, lent length", LENT._replace(l=0), longer, 1, LENT)
    yield commit_vector(("order", "salt"), "two faults: sizes, no salt", LENT._replace(l=0), none, 1, LENT)
    yield commit_vector(("order",), "two faults: lent length, lent element", LENT, spoilt, 2, tree=off_by(tree, 1))


def commit_vectors():
    yield from committed_vectors()
    yield from refused_commits()


# ---- Opening ----------------------------------------------------------------------------------------


def open_vector(flags, comment, sizes, call):
    """The call as a vector; of calls.py's own labels nothing stays."""
    names = ("question", *WORDS, "table", "nonces", "salt", "tree")
    inputs = {name: getattr(call, name) for name in names}
    inputs["reply_length"] = len(call.buffer)
    return Vector(sizes, comment, flags, inputs, call.number, {"reply": call.buffer_after, "length": call.length})


def opened_vector(flags, comment, c, q, number=0, **changes):
    """A call with what was committed, but for the changes."""
    question = S.write_question(q)
    slices = dict(c.lent._asdict(), table=c.table, tree=c.tree, question=question, buffer=reply_buffer(question))
    slices.update(changes)
    lent = Lent(*(slices[name] for name in Lent._fields))
    rest = slices["table"], slices["tree"], slices["buffer"]
    return open_vector(flags, comment, q.sizes, open_call(comment, slices["question"], lent, *rest, number))


@lru_cache(maxsize=None)
def opening():
    c = random_commitment(LENT)
    return c, ask(Source("opening vectors"), c, indices=[1, 6])


def opened_vectors():
    c, q = case_p_commitment(), case_p().parts()[0]
    yield opened_vector(("honest",), "case P of the handbook", c, q)
    c, q = opening()
    yield opened_vector(("honest",), "two leaves of eight, two points, a blinding row", c, q)
    for indices in ([0, 1], [3, 4], [6, 7]):
        comment = "leaves %d and %d" % tuple(indices)
        yield opened_vector(("honest", "indices"), comment, c, q._replace(indices=indices))
    edges = q._replace(challenges=[0, Q - 1], points=[0, Q - 1])
    yield opened_vector(("honest", "boundary"), "challenges and points 0 and q - 1", c, edges)
    equal = q._replace(challenges=[3, 3], points=[5, 5])
    yield opened_vector(("honest",), "the same point twice, equal challenges", c, equal)
    src = Source("opened vectors")
    yield opened_vector(("honest", "boundary"), "8 points", c, ask(src, c, 8))
    for s in (PLAIN, Sizes(3, 1, 3, 1, 2, 1, 1, 1), Sizes(4, 3, 3, 2, 2, 1, 1, 2), Sizes(3, 1, 1, 1, 7, 1, 1), WIDE):
        yield opened_vector(("honest",), "drawn", random_commitment(s), ask(src, random_commitment(s)))
    other = src.elements(len(c.table))
    yield opened_vector(("unread",), "another table: its words are the row values", c, q, table=other)
    tree = src.bytes(len(c.tree) - 32) + c.tree[-32:]
    yield opened_vector(("unread",), "another tree under the same root: its nodes are the reply's", c, q, tree=tree)
    tails = src.elements(len(c.lent.tails))
    yield opened_vector(("unread",), "other tails than the committed ones", c, q, tails=tails)
    plain = random_commitment(PLAIN)
    exchanged = ask(src, plain)._replace(sizes=PLAIN._replace(nu=PLAIN.w, w=PLAIN.nu))
    yield opened_vector(("unread", "sizes"), "w and nu exchanged: the lengths are the same", plain, exchanged)


def refused_opens():
    c, q = opening()
    question, buffer = S.write_question(q), reply_buffer(S.write_question(q))
    for older in (version_1, version_2):
        comment = "a question of version %s as it was" % older.__name__[-1]
        yield opened_vector(("mark",), comment, c, q, 5, question=older(question))
    yield opened_vector(("sizes",), "beta = 3 in the header", c, q, 1, question=question[:14] + b"\3" + question[15:])
    wider = S.write_question(q._replace(sizes=LENT._replace(mu=3)))
    fitting = reply_buffer(wider)
    yield opened_vector(("sizes", "length"), "mu = 3 in the header", c, q, 2, question=wider, buffer=fitting)
    yield opened_vector(("length",), "14 bytes of the question", c, q, 6, question=question[:14])
    yield opened_vector(("length", "salt"), "a question without its salt", c, q, 6, question=without_salt(question))
    for part, word in (("challenges", Q), ("points", LAST_WORD)):
        changed = S.write_question(q._replace(**{part: with_word(getattr(q, part), -1, word)}))
        yield opened_vector(("element",), "the last of the %s is %d" % (part, word), c, q, 3, question=changed)
    for indices in ([6, 6], [6, 1], [1, 8]):
        changed = S.write_question(q._replace(indices=indices))
        yield opened_vector(("indices",), "indices %d, %d" % tuple(indices), c, q, 4, question=changed)
    lent = dict(c.lent._asdict(), table=c.table, tree=c.tree)
    for part, whole in lent.items():
        yield opened_vector(("length",), "%s too long by 1" % part, c, q, 2, **{part: off_by(whole, 1)})
    for size, comment in (
        (len(buffer) - 1, "a buffer too short by 1"),
        (len(buffer) + 32, "a buffer with room for a node more"),
        (S.reply_bound(LENT), "a buffer with room for l h nodes"),
        (0, "no buffer"),
    ):
        yield opened_vector(("length",), comment, c, q, 2, buffer=bytes(size))
    yield opened_vector(("length", "salt"), "a salt of 64 bytes", c, q, 2, salt=2 * c.lent.salt)
    for n, part in enumerate(WORDS + ("table",)):
        word, shown = NO_ELEMENTS[n % 2]
        changed = with_word(lent[part], -1, word)
        yield opened_vector(("element",), "the last of the %s is %s" % (part, shown), c, q, 3, **{part: changed})
    for part, at in (("tree", -32), ("tree", -16), ("tree", -1), ("salt", 0), ("salt", 16), ("salt", 31)):
        comment = "byte %d of the lent %s another" % (at % len(lent[part]), part)
        yield opened_vector(("tree", "salt"), comment, c, q, 8, **{part: spoil(lent[part], at)})
    exchanged = exchanged_salt(question)
    yield opened_vector(("salt",), "salt before root in the question", c, q, 8, question=exchanged)
    comment = "salt before root in the question, and the root lent for the salt"
    yield opened_vector(("salt",), comment, c, q, 8, question=exchanged, salt=q.root)


def ordered_opens():
    c, q = opening()
    short, tails = reply_buffer(S.write_question(q))[1:], with_word(c.lent.tails, 0, Q)
    yield opened_vector(("order",), "two faults: buffer, lent element", c, q, 2, buffer=short, tails=tails)
    yield opened_vector(("order",), "two faults: buffer, lent root", c, q, 2, buffer=short, tree=spoil(c.tree, -1))
    for v, pair in enumerate(near_pairs(OPEN_STAGES)):
        faults = [stage for stage, _ in pair]
        comment = "two faults: %s, %s" % tuple(faults)
        yield open_vector(("order",), comment, q.sizes, faulty_open(c, q, faults, v))


def open_vectors():
    yield from opened_vectors()
    yield from refused_opens()
    yield from ordered_opens()


# ---- Planning ---------------------------------------------------------------------------------------

PLANNED = (
    Sizes(3, 13, 1, 1, 3, 4, 1), Sizes(3, 12, 1, 1, 3, 4, 1, 2), Sizes(3, 47, 1, 1, 4, 4, 2),
    Sizes(3, 44, 1, 1, 4, 4, 2, 4), Sizes(12, 64, 256, 1, 64, 4, 8), Sizes(12, 48, 1, 256, 64, 4, 8, 16),
)  # fmt: skip


def planned_questions():
    """(flags, comment, sizes, question, number)"""
    src = Source("planned vectors")
    yield ("honest",), "case P of the handbook", case_p().sizes, case_p().question(), 0
    yield ("honest",), "leaves 1 and 6 of 8", LENT, S.write_question(opening()[1]), 0
    for s in PLANNED:
        for label, indices in placed_leaves(s):
            q = drawn_question(src, s, src.bytes(32), src.bytes(32), indices=indices)
            yield ("honest", "indices"), "%s leaves, %d values each" % (label, s.record), s, S.write_question(q), 0
    s = Sizes(12, 1, 1, 1, 1, 1, 1)
    q = drawn_question(src, s, bytes(32), bytes(32), challenges=[0], points=[0], indices=[4095])
    yield ("boundary",), "the last of 4096 leaves; all else zeros", s, S.write_question(q), 0


def refused_questions():
    s = LENT
    q = opening()[1]
    question = S.write_question(q)
    for at, part in BAD_SIZES[::3]:
        changed = question[:at] + part + question[at + len(part) :]
        yield ("sizes",), "byte %d of the header on: %s" % (at, part.hex(" ")), s, changed, 1
    for length in (0, 14, 15, len(question) - 1):
        yield ("length",), "%d bytes of the question's %d" % (length, len(question)), s, question[:length], 6
    yield ("length",), "a byte after the question", s, question + b"\0", 6
    yield ("length", "salt"), "without its salt", s, without_salt(question), 6
    yield ("mark",), "version 2", s, with_version(question, 2), 5
    yield ("mark",), "a question of version 1 as it was", s, version_1(question), 5
    yield ("element",), "the last point is q", s, S.write_question(q._replace(points=[q.points[0], Q])), 3
    yield ("indices",), "indices 6, 6", s, S.write_question(q._replace(indices=[6, 6])), 4
    yield ("indices",), "the last index is N", s, S.write_question(q._replace(indices=[1, 8])), 4
    for v, pair in enumerate(near_pairs(QUESTION_STAGES)):
        faults = [stage for stage, _ in pair]
        yield ("order",), "two faults: %s, %s" % tuple(faults), s, faulty_question(q, faults, v), pair[0][1]


def planner_vectors(call, output):
    for questions in (planned_questions, refused_questions):
        for flags, comment, s, question, number in questions():
            found = call(comment, question, number)
            yield Vector(s, comment, flags, {"question": question}, found.number, {output: getattr(found, output)})


def reply_length_vectors():
    return planner_vectors(length_call, "length")


def permutations_vectors():
    return planner_vectors(permutations_call, "count")


# ---- Interpolating ----------------------------------------------------------------------------------


def interpolate_vector(flags, comment, points, values, number, size=None, wanted=None):
    before = room(len(points) if size is None else size)
    call = interpolate_call(comment, points, values, before, number, wanted)
    inputs = {"points": points, "values": values, "coefficients_length": len(before)}
    return Vector(len(points), comment, flags, inputs, call.number, {"coefficients": call.coefficients_after})


def through(comment, points, polynomial, flags=("honest",)):
    """The values of a polynomial, whose coefficients have to come back."""
    wanted = polynomial + [0] * (len(points) - len(polynomial))
    values = [S.evaluate(polynomial, x) for x in points]
    return interpolate_vector(flags, comment, points, values, 0, None, wanted)


def drawn_points(count):
    """So many points, and values for them."""
    src = Source("drawn points %d" % count)
    return different(src, count), src.elements(count)


def interpolated_vectors():
    src = Source("interpolated vectors")
    yield through("1, 4, 9 at 1, 2, 3: the polynomial X^2", [1, 2, 3], [0, 0, 1])
    yield through("one point", [7], [5])
    yield through("one point, 0, with the value q - 1", [0], [Q - 1], ("honest", "boundary"))
    yield through("points 0 and q - 1", [0, Q - 1], src.elements(2), ("honest", "boundary"))
    for count in (7, 8, 9, 16, 17, 65):
        yield interpolate_vector(("honest",), "drawn", *drawn_points(count), 0)
    yield interpolate_vector(("honest",), "the same points, other values", drawn_points(9)[0], src.elements(9), 0)
    yield through("in a row from 0, values 0", list(range(9)), [0])
    yield through("in a row down to 0, values 1", list(range(9))[::-1], [1])
    yield through("in a row up to q - 1, all coefficients q - 1", list(range(Q - 9, Q)), [Q - 1] * 9)
    yield through("65536 apart, the highest coefficient 0", [65536 * x for x in range(9)], src.elements(8))
    yield interpolate_vector(("honest", "boundary"), "drawn, the most points", *drawn_points(MAX_POINTS), 0)


def refused_interpolations():
    points, values = drawn_points(9)

    def vector(flags, comment, number, points=points, values=values, size=None):
        return interpolate_vector(flags, comment, points, values, number, size)

    yield vector(("boundary",), "no points", 1, [], [])
    yield vector(("boundary",), "no points, one value", 1, [], [7], 1)
    over = drawn_points(MAX_POINTS + 1)
    yield vector(("boundary",), "one point too many", 1, *over)
    yield vector(("order",), "one point too many, and no values", 1, over[0], [])
    for count, size in ((8, 9), (10, 9), (9, 8), (9, 10), (8, 8), (10, 10), (0, 9), (9, 0)):
        yield vector(("length",), "%d values, room for %d" % (count, size), 2, values=(values + [7])[:count], size=size)
    for at in (0, 8):
        for word, shown in NO_ELEMENTS:
            yield vector(("element",), "point %d is %s" % (at, shown), 3, points=with_word(points, at, word))
            yield vector(("element",), "value %d is %s" % (at, shown), 3, values=with_word(values, at, word))
    for first, second in ((0, 1), (0, 8), (7, 8), (3, 4)):
        equal = with_word(points, second, points[first])
        yield vector(("points",), "points %d and %d are equal" % (first, second), 13, equal)
    equal = with_word(points, 8, points[0])
    agreeing = with_word(values, 8, values[0])
    yield vector(("points",), "points 0 and 8 are equal, and so are their values", 13, equal, agreeing)
    yield vector(("points",), "all points are 0", 13, [0] * 9)
    yield vector(("order",), "two faults: length, element", 2, with_word(points, 0, Q), values[:8])
    yield vector(("order",), "two faults: length, equal points", 2, equal, values[:8])
    yield vector(("order",), "two faults: element, equal points", 3, equal, with_word(values, 4, Q))
    yield vector(("order",), "points q and 0, which are equal modulo q", 3, [Q, 0] + points[2:])
    several, values = drawn_points(17)
    for first in (7, 15):
        equal = with_word(several, first + 1, several[first])
        yield vector(("points",), "points %d and %d are equal" % (first, first + 1), 13, equal, values)
    many, values = drawn_points(MAX_POINTS)
    for pair in (*combinations((0, 159, MAX_POINTS - 1), 2), (MAX_POINTS - 2, MAX_POINTS - 1)):
        equal = with_word(many, pair[1], many[pair[0]])
        yield vector(("points",), "points %d and %d of 320 are equal" % pair, 13, equal, values)


def interpolate_vectors():
    yield from interpolated_vectors()
    yield from refused_interpolations()
