"""Test vectors of the check."""

from functools import lru_cache
from itertools import combinations

import smallwood as S
from calls import exchanged_salt, version_1, version_2, with_version, without_salt
from cases import check_case
from drafts import (
    LAST_WORD, Lent, Source, ask, case_p, committed, honest, lend, product, random_commitment, simulated,
    true_values, vanishing,
)  # fmt: skip
from faults import (
    BAD_MARKS, BAD_SIZES, STAGES, faulty, levels_with, place_faults, spoil, wrong_batchings, wrong_lines, wrong_strings,
)  # fmt: skip
from smallwood import Q, Question, Sizes
from vectors import Vector

BASE = Sizes(4, 2, 2, 2, 2, 2, 2, 1)  # two of everything, and a blinding row
SMALL = Sizes(3, 2, 2, 1, 2, 1, 1)


def check_vector(flags, comment, sizes, question, reply, number, values=None, room=None):
    """A case in the group of these sizes; the room for values is theirs where none is given."""
    case = check_case(comment, question, reply, number, values, 4 * sizes.w * sizes.m if room is None else room)
    inputs = {"question": question, "reply": reply, "values_length": len(case.buffer)}
    return Vector(sizes, comment, flags, inputs, case.number, {"values": case.after})


def draft_vector(flags, comment, d, number):
    values = d.values() if number == 0 else None
    return check_vector(flags, comment, d.sizes, d.question(), d.reply(), number, values)


def honest_vector(flags, comment, c, q):
    d = honest(c, q)
    return check_vector(("honest",) + flags, comment, q.sizes, d.question(), d.reply(), 0, true_values(c, q))


def drawn_vector(flags, comment, s, **given):
    """An honest reply to a question that is drawn but for what is given."""
    c = random_commitment(s)
    return honest_vector(flags, comment, c, ask(Source("vector " + comment), c, **given))


@lru_cache(maxsize=None)
def base_parts():
    c = random_commitment(BASE)
    return c, ask(Source("vectors of the check"), c, indices=[4, 11])


def base():
    """The draft in which most faults are made."""
    return honest(*base_parts())


@lru_cache(maxsize=None)
def small_parts():
    c = random_commitment(SMALL)
    return c, ask(Source("small vectors of the check"), c, indices=[2, 5])


def small():
    """The draft in which there are two faults at once."""
    return honest(*small_parts())


# ---- Honest -----------------------------------------------------------------------------------------

ENDS_OF_SIZES = (
    ("all sizes 1 but beta, which is 0", Sizes(1, 1, 1, 1, 1, 1, 1)),
    ("64 rows and 4 repetitions: the longest leaf string", Sizes(1, 64, 1, 1, 1, 4, 1)),
    ("8 points", Sizes(1, 2, 1, 1, 1, 1, 8)),
    ("nu = 256", Sizes(9, 1, 256, 1, 1, 1, 1)),
    ("w = 256", Sizes(9, 1, 1, 256, 1, 1, 1)),
    ("w nu = 256 with w = nu = 16", Sizes(9, 1, 16, 16, 1, 1, 1)),
    ("l = 64 and w nu + l = N", Sizes(7, 1, 64, 1, 64, 1, 1)),
    ("w nu + l = N", Sizes(3, 1, 4, 1, 4, 1, 1)),
    ("leaf strings of 135 bytes, the longest of one block", Sizes(2, 13, 1, 1, 1, 4, 1)),
    ("leaf strings of 139 bytes, the shortest of two blocks", Sizes(2, 14, 1, 1, 1, 4, 1)),
    ("leaf strings of 271 bytes, the longest of two blocks", Sizes(2, 47, 1, 1, 1, 4, 1)),
    ("leaf strings of 275 bytes, the shortest of three blocks", Sizes(2, 48, 1, 1, 1, 4, 1)),
)

BLINDED = (
    ("one column: no blinds, two blinding rows", Sizes(3, 2, 1, 3, 2, 2, 1, 2)),
    ("beta = mu = 1, one column", Sizes(2, 1, 1, 1, 1, 1, 1, 1)),
    ("beta = mu = 1, three columns", Sizes(3, 1, 3, 1, 2, 1, 2, 1)),
    ("beta = mu = 16", Sizes(3, 16, 2, 1, 2, 1, 1, 16)),
    ("mu + beta = 64 with beta = 16", Sizes(3, 48, 2, 1, 1, 1, 1, 16)),
    ("mu + beta = 64 with beta = 1", Sizes(2, 63, 2, 1, 1, 1, 1, 1)),
    ("three columns, two blinding rows", Sizes(4, 3, 3, 2, 2, 2, 2, 2)),
)


def size_ends():
    for comment, s in ENDS_OF_SIZES:
        yield drawn_vector(("boundary",), comment, s)
    largest = Sizes(12, 1, 1, 256, 64, 1, 1)
    d = simulated(Source("largest vector"), largest)
    yield draft_vector(("boundary", "forged"), "h = 12, w = 256, l = 64; simulated, without a commitment", d, 0)
    for comment, s in BLINDED:
        yield drawn_vector(("blinds", "boundary"), comment, s)


def small_instances():
    """Cases whose numbers can be followed by hand."""
    yield draft_vector(("honest",), "case P of the handbook", case_p(), 0)
    s, src = Sizes(2, 2, 2, 1, 1, 1, 2, 1), Source("vector by hand")
    lent = Lent([1, 2, 3, 4, 5], src.elements(3), [7], src.elements(3), src.bytes(128), src.bytes(32))
    c = committed(s, lent)
    q = Question(s, c.tree[-32:], lent.salt, [7], [10, 0], [2])
    assert true_values(c, q) == [54321, 1]
    yield honest_vector(("blinds",), "coefficients 1 to 5 with the blind 7: 54321 at 10, and 1 at 0", c, q)


def word_ends():
    """Words, challenges and points at the ends of the field, and repeated ones."""
    s = Sizes(3, 3, 2, 1, 2, 2, 3)
    for word, shown in ((0, "0"), (1, "1"), (Q - 1, "q - 1")):
        src = Source("vector of words " + shown)
        c = committed(s, lend(src, s, lambda count: [word] * count))
        q = ask(src, c, challenges=[word] * s.eta, points=[word] * s.m)
        yield honest_vector(("boundary",), "all lent words, challenges and points are %s" % shown, c, q)
    for comment, given in (
        ("points 0, q - 1, 0", dict(points=[0, Q - 1, 0])),
        ("three equal points", dict(points=[9, 9, 9])),
        ("challenges 0 and q - 1", dict(challenges=[0, Q - 1])),
        ("two equal challenges", dict(challenges=[5, 5])),
    ):
        yield drawn_vector(("boundary",), comment, s, **given)
    salt = b"\xff" * 32
    c = committed(s, lend(Source("vector of salts"), s, Source("vector of salts").elements, salt))
    yield honest_vector(("salt", "boundary"), "a salt of bytes 255", c, ask(Source("vector of salts"), c))


def opened_leaves():
    """Every set of 4 leaves that can be opened, and of 8 leaves one for each shape of missing nodes."""
    for l in (1, 2, 3):
        for indices in combinations(range(4), l):
            yield opened_vector(2, indices)
    for indices in (
        (0, 1), (1, 2), (3, 4), (0, 4), (6, 7), (0, 1, 2, 3), (0, 2, 4, 6), (0, 3, 5, 6), (0, 1, 6, 7),
        (1, 2, 3, 4, 5, 6, 7),
    ):  # fmt: skip
        yield opened_vector(3, indices)
    for comment, index in (("the first", 0), ("the last", 4095), ("one whose bytes differ, 258,", 258)):
        s, flags = Sizes(12, 1, 1, 1, 1, 1, 1), ("indices", "boundary")
        yield drawn_vector(flags, "%s of 4096 leaves" % comment, s, indices=[index])
    s = Sizes(7, 1, 1, 1, 64, 1, 1)
    for comment, indices in (("the first 64", range(64)), ("every second", range(1, 128, 2))):
        yield drawn_vector(("indices", "boundary"), "%s of 128 leaves" % comment, s, indices=list(indices))


def opened_vector(h, indices):
    missing = S.missing_nodes(h, indices)
    shown = ", ".join("%d.%d" % place for place in missing)
    comment = "leaves %s of %d; missing nodes, level.index: %s" % (", ".join(map(str, indices)), 2**h, shown)
    return drawn_vector(("indices",), comment, Sizes(h, 1, 1, 1, len(indices), 1, 1), indices=list(indices))


def honest_vectors():
    yield from small_instances()
    yield honest_vector((), "two of everything, and a blinding row", *base_parts())
    yield honest_vector((), "one polynomial of two columns, two leaves of eight", *small_parts())
    yield from size_ends()
    yield from word_ends()
    yield from opened_leaves()


# ---- Damaged parts ----------------------------------------------------------------------------------

FLAG_OF_NUMBER = {0: "forged", 8: "tree", 9: "batching", 10: "evaluation"}


def damaged_parts():
    """One part of the reply or the question another, at first and last places."""
    for comment, d, number in place_faults(Source("vectors of places"), base()):
        yield draft_vector((FLAG_OF_NUMBER[number],), comment, d, number)


WRONG_STRINGS = (
    "leaf without first byte", "node without first byte", "first bytes exchanged", "leaf without index",
    "leaf with index from 1", "leaf with big-endian index", "leaf with big-endian values", "leaf with values reversed",
    "leaf with nonce first", "leaf without nonce", "node with children exchanged", "leaf with no salt",
    "node with no salt", "leaf with salt after the index", "node with salt at the end",
)  # fmt: skip


def wrongly_hashed():
    """The whole tree, root and nodes, over strings with a mistake in them."""
    c, _ = base_parts()
    strings = {label: (leaf, node) for label, leaf, node in wrong_strings()}
    for label in WRONG_STRINGS:
        levels, d = levels_with(c, *strings[label]), base()
        d.root = levels[-1][0]
        d.nodes = [levels[level][i] for level, i in S.missing_nodes(d.sizes.h, d.indices)]
        flags = ("tree", "salt") if "salt" in label else ("tree",)
        yield draft_vector(flags, "whole tree hashed otherwise: " + label, d, 8)


def wrongly_answered():
    """Answers by mistaken formulas."""
    c, q = base_parts()
    for label, batchings in wrong_batchings(c, q):
        d = base()
        d.batchings = batchings
        yield draft_vector(("batching",), label, d, 9)
    for label, lines in wrong_lines(c):
        d = base()
        answers = [S.answer_of(lines, z) for z in q.points]
        if answers != d.answers:
            d.answers = answers
            yield draft_vector(("evaluation", "blinds"), "evaluation answers, " + label, d, 10)
    for label in ("blinds not taken off", "no top coefficients"):
        d, lines = base(), dict(wrong_lines(c))[label]
        masks = [S.mask_of(BASE, c.lent.masks, k) for k in range(BASE.eta)]
        d.batchings = [S.batching_of(BASE, lines, *pair) for pair in zip(masks, q.challenges)]
        yield draft_vector(("batching", "blinds"), "batching answers, " + label, d, 9)


def node_vectors():
    """Nodes listed otherwise than they are missing."""
    d = base()
    d.nodes.reverse()
    yield draft_vector(("tree",), "nodes from the root down", d, 8)
    d = base()
    d.nodes[-1] = d.nodes[0]
    yield draft_vector(("tree",), "the first node in the last one's place, too", d, 8)
    d.nodes.pop()
    yield draft_vector(("tree", "length"), "the last node left out", d, 7)
    d = base()
    d.nodes.pop(0)
    yield draft_vector(("tree", "length"), "the first node left out", d, 7)
    d = base()
    d.nodes.append(d.root)
    yield draft_vector(("tree", "length"), "the root listed as a node", d, 7)
    c = random_commitment(SMALL)
    d = honest(c, ask(Source("vectors of siblings"), c, indices=[2, 3]))
    d.nodes.insert(0, S.tree_node(SMALL, c.tree, 0, 2))
    yield draft_vector(("tree", "length"), "leaves 2 and 3: leaf 2, which can be computed, listed", d, 7)
    d.nodes.pop()
    yield draft_vector(("tree",), "leaves 2 and 3: leaf 2 listed, the last node left out", d, 8)


def salt_vectors():
    c, q = base_parts()
    question, reply = base().question(), base().reply()
    for at in (0, 31):
        d = base()
        d.salt = spoil(d.salt, at)
        yield draft_vector(("salt",), "byte %d of the question's salt another" % at, d, 8)
    d = base()
    d.salt = bytes(32)
    yield draft_vector(("salt", "forged"), "salt of zeros, the root to fit", d.rehash(), 0)
    yield check_vector(("salt",), "salt before root", BASE, exchanged_salt(question), reply, 8)
    yield check_vector(("salt", "length"), "no salt", BASE, without_salt(question), reply, 6)
    salt = Source("vector of another year").bytes(32)
    other = committed(BASE, c.lent._replace(salt=salt))
    renewed = q._replace(root=other.tree[-32:], salt=salt)
    yield honest_vector(("salt",), "the same polynomials under another salt", other, renewed)
    asked = S.write_question(renewed)
    yield check_vector(("salt",), "another root and salt, the reply of the first", BASE, asked, reply, 8)
    asked = S.write_question(q._replace(root=renewed.root))
    yield check_vector(("salt",), "another root, the salt of the first", BASE, asked, honest(other, renewed).reply(), 8)


# ---- Refused by their bytes -------------------------------------------------------------------------


def length_vectors():
    p, d = case_p(), base()
    question, reply = p.question(), p.reply()
    for length in (0, 14, 15, 79, 88):
        comment = "case P, %d bytes of the question's %d" % (length, len(question))
        yield check_vector(("length",), comment, p.sizes, question[:length], reply, 6)
    for more in (1, 4):
        comment = "case P, %d bytes after the question" % more
        yield check_vector(("length",), comment, p.sizes, question + question[:more], reply, 6)
    for length in (0, 56, 87):
        comment = "case P, %d bytes of the reply's %d" % (length, len(reply))
        yield check_vector(("length",), comment, p.sizes, question, reply[:length], 7)
    for more in (1, 32):
        comment = "case P, %d bytes after the reply" % more
        yield check_vector(("length",), comment, p.sizes, question, reply + reply[:more], 7)
    for room in (0, 3, 5, 8):
        comment = "case P, room for %d bytes of values" % room
        yield check_vector(("length",), comment, p.sizes, question, reply, 2, None, room)
    full = 4 * BASE.w * BASE.m
    for room in (BASE.w * BASE.m, full - 4, full + 4):
        comment = "room for %d bytes of values, not %d" % (room, full)
        yield check_vector(("length",), comment, BASE, d.question(), d.reply(), 2, None, room)
    yield check_vector(("length", "mark"), "question and reply exchanged", BASE, d.reply(), d.question(), 5)
    yield check_vector(("length",), "all empty", p.sizes, b"", b"", 6, None, 0)


def mark_vectors():
    p = case_p()
    question, reply = p.question(), p.reply()
    for start in BAD_MARKS:
        comment = "mark and version %s" % start.hex(" ")
        yield check_vector(("mark",), comment, p.sizes, start + question[5:], reply, 5)
    for comment, changed in (
        ("version 3 with its bytes exchanged", with_version(question, 3 << 8)),
        ("a question of version 1 as it was", version_1(question)),
        ("a question of version 2 as it was", version_2(question)),
    ):
        yield check_vector(("mark",), comment, p.sizes, changed, reply, 5)
    older = version_1(question)[:14]
    yield check_vector(("mark", "length"), "the header of one of version 1, 14 bytes", p.sizes, older, reply, 6)


SIZES_THAT_DO_NOT_GO_TOGETHER = (
    ("w nu = 257", Sizes(12, 1, 257, 1, 1, 1, 1)),
    ("w nu = 258", Sizes(12, 1, 2, 129, 1, 1, 1)),
    ("w nu = 65536, which is 0 in 16 bits", Sizes(12, 1, 256, 256, 1, 1, 1)),
    ("w nu = 65538, which is 2 in 16 bits", Sizes(12, 1, 3, 21846, 1, 1, 1)),
    ("w nu + l = N + 1", Sizes(3, 1, 5, 1, 4, 1, 1)),
    ("beta = mu + 1", Sizes(4, 1, 2, 2, 2, 2, 2, 2)),
    ("mu + beta = 65", Sizes(4, 49, 2, 2, 2, 2, 2, 16)),
    ("mu + beta = 256, which is 0 in 8 bits", Sizes(4, 240, 2, 2, 2, 2, 2, 16)),
    ("beta = 17", Sizes(4, 20, 2, 2, 2, 2, 2, 17)),
)


def size_vectors():
    d = base()
    question, reply = d.question(), d.reply()
    for at, part in BAD_SIZES:
        changed = question[:at] + part + question[at + len(part) :]
        comment = "byte %d of the header on: %s" % (at, part.hex(" "))
        yield check_vector(("sizes",), comment, BASE, changed, reply, 1)
    for comment, s in SIZES_THAT_DO_NOT_GO_TOGETHER:
        changed = S.write_header(s) + question[S.HEADER_BYTES :]
        yield check_vector(("sizes",), comment, BASE, changed, reply, 1)
    for comment, changes, number in (
        ("mu more by 1", dict(mu=3), 7),
        ("beta less by 1", dict(beta=0), 7),
        ("nu more by 1", dict(nu=3), 7),
        ("h more by 1", dict(h=5), 7),
        ("l more by 1", dict(l=3), 6),
        ("w more by 1", dict(w=3), 2),
    ):
        changed = S.write_header(BASE._replace(**changes)) + question[S.HEADER_BYTES :]
        comment = "the header's %s, all else as it was" % comment
        yield check_vector(("sizes",), comment, BASE, changed, reply, number)


def element_vectors():
    question, reply, s = base().question(), base().reply(), BASE

    def with_word(data, at, word):
        return data[:at] + S.to_bytes([word]) + data[at + 4 :]

    asked = {"first challenge": 0, "last challenge": s.eta - 1, "first point": s.eta, "last point": s.eta + s.m - 1}
    for part, place in asked.items():
        for word, shown in ((Q, "q"), (LAST_WORD, "2^32 - 1")):
            changed = with_word(question, S.AFTER_SALT + 4 * place, word)
            yield check_vector(("element",), "%s is %s" % (part, shown), s, changed, reply, 3)
    batching, answers, leaves = 0, 4 * s.width * s.eta, S.answer_bytes(s)
    end = leaves + (4 * s.record + 32) * (s.l - 1)
    for part, at in (
        ("first word of the batching answers", batching),
        ("last word of the batching answers", answers - 4),
        ("first column value", answers),
        ("last tail value", leaves - 4),
        ("first row value of the first leaf", leaves),
        ("last mask value of the last leaf", end + 4 * s.record - 4),
    ):
        for word, shown in ((Q, "q"), (LAST_WORD, "2^32 - 1")):
            yield check_vector(("element",), "%s is %s" % (part, shown), s, question, with_word(reply, at, word), 3)
    d = base()
    d.nodes = [b"\xff" * 32 for _ in d.nodes]
    d.leaves = [(values, b"\xff" * 32) for values, _ in d.leaves]
    comment = "nonces and nodes of bytes 255 are no elements, the root to fit"
    yield draft_vector(("element", "forged"), comment, d.rehash(), 0)


def second_encodings():
    """Words below 5 written as themselves plus q: the same modulo q, and refused."""
    s, src = Sizes(3, 1, 2, 1, 2, 1, 1), Source("vectors of second encodings")
    c = committed(s, Lent([1] * 2, [1] * 2, [], [2, 0, 0, 0], src.bytes(256), src.bytes(32)))
    d = honest(c, ask(src, c, challenges=[1], points=[1], indices=[2, 7]))
    yield draft_vector(("honest",), "words below 5", d, 0)
    for comment, words in (
        ("challenge", lambda e: e.challenges),
        ("point", lambda e: e.points),
        ("batching answer's constant", lambda e: e.batchings[0]),
        ("column value", lambda e: e.answers[0]),
        ("row value", lambda e: e.leaves[0][0]),
    ):
        e = d.copy()
        words(e)[0] += Q
        yield draft_vector(("element",), "words below 5, the first %s plus q" % comment, e, 3)
    yield draft_vector(("element",), "words below 5, the first row value plus q, the root to fit", e.rehash(), 3)


def index_vectors():
    s = Sizes(3, 2, 1, 2, 3, 2, 1)
    c = random_commitment(s)
    d = honest(c, ask(Source("vectors of indices"), c, indices=[1, 3, 7]))
    yield draft_vector(("honest", "indices"), "indices 1, 3, 7", d, 0)
    for indices, number in (
        ((1, 3, 8), 4), ((1, 3, 65535), 4), ((1, 3, 263), 4), ((1, 3, 3), 4), ((1, 1, 7), 4), ((0, 0, 0), 4),
        ((3, 1, 7), 4), ((1, 7, 3), 4), ((7, 3, 1), 4), ((1, 3, 0), 4), ((1, 3, 6), 8), ((1, 3, 4), 8), ((0, 1, 2), 7),
    ):  # fmt: skip
        e = d.copy()
        e.indices = list(indices)
        comment = "indices %d, %d, %d, the reply to 1, 3, 7" % indices
        yield draft_vector(("indices",), comment, e, number)


# ---- Forged -----------------------------------------------------------------------------------------


def shifted_vectors():
    """Answers moved by what vanishes at the opened leaves; answers that are right at some points only."""
    c, q = base_parts()
    src, zero = Source("vectors of shifts"), vanishing(q.indices)
    shift = product(zero, src.elements(2))
    yield draft_vector(("forged",), "R 1 another, right at the opened leaves", base().shift_batching(1, shift), 0)
    d = base().shift_answer(1, shift)
    assert d.values() != true_values(c, q)
    yield draft_vector(("forged",), "evaluation answer 1 another, right at the opened leaves: false values", d, 0)
    for comment, start, end in (("value", BASE.columns, BASE.width), ("tail", 0, BASE.columns)):
        d = base()
        d.answers[0][start:end] = src.elements(end - start)
        yield draft_vector(("evaluation",), "evaluation answer 0 right at the %s points only" % comment, d, 10)
    d = base()
    d.answers = [[0] * BASE.width for _ in d.answers]
    yield draft_vector(("evaluation",), "evaluation answers all 0", d, 10)
    other = simulated(src, BASE, challenges=q.challenges, points=q.points, indices=q.indices)
    d = base()
    d.leaves = other.leaves
    yield draft_vector(("tree",), "other leaves", d, 8)
    yield draft_vector(("batching",), "other leaves, the root to fit", d.rehash(), 9)
    d.batchings = other.batchings
    yield draft_vector(("evaluation",), "other leaves and batching answers, the root to fit", d, 10)
    d.answers = other.answers
    yield draft_vector(("forged",), "other leaves and answers, the root to fit", d, 0)


def unseen_vectors():
    """What few leaves, challenges and points do not see."""
    s = Sizes(3, 4, 1, 1, 2, 1, 1)
    d = simulated(Source("vectors of the unseen"), s)
    for j, change in enumerate(vanishing(d.challenges + d.points)):
        d.change_value(1, j, change)
    comment = "rows of a leaf changed by what vanishes at challenge and point, the root to fit"
    yield draft_vector(("forged",), comment, d.rehash(), 0)
    d = simulated(Source("vectors of rows unseen"), s, challenges=[0], points=[5]).change_value(1, 0, 1).rehash()
    yield draft_vector(("evaluation",), "challenge 0 does not see row 0, the point does", d, 10)
    d = simulated(Source("vectors of rows at 0"), s, challenges=[0], points=[0]).change_value(1, 3, 1).rehash()
    yield draft_vector(("forged",), "challenge 0 and point 0 do not see row 3", d, 0)
    s = Sizes(3, 2, 2, 1, 1, 1, 2)
    src, c = Source("vectors of leaf 0"), random_commitment(s)
    d = honest(c, ask(src, c, points=[7, 7], indices=[0]))
    d.batchings[0][1:] = src.elements(s.width - 1)
    yield draft_vector(("forged",), "leaf 0 alone: all but the constant coefficient of R free", d, 0)
    d.shift_answer(1, [0, 3])
    yield draft_vector(("forged",), "leaf 0 alone: one point twice, with two different answers", d, 0)
    yield draft_vector(("batching",), "leaf 0 alone: the constant coefficient of R", d.shift_batching(0, [1]), 9)


def header_vectors():
    """The same reply under another header: no hashed leaf or node holds it."""
    d = base()
    d.sizes = BASE._replace(mu=3, beta=0)
    yield draft_vector(("forged", "sizes"), "mu 3 and beta 0 for 2 and 1: other values", d, 0)
    d = small()
    d.sizes = SMALL._replace(nu=1, w=2)
    yield draft_vector(("forged", "sizes"), "nu 1 and w 2 for 2 and 1: the columns' values", d, 0)
    p = case_p().copy()
    p.points = [7]
    yield draft_vector(("forged", "evaluation"), "case P, one row: the reply to the point 6 for the point 7", p, 0)


# ---- Two faults -------------------------------------------------------------------------------------


# Faults that a question of under 15 bytes has no room for.
AFTER_THE_HEADER = ("sizes", "question length", "question element", "indices")


def ordered_vectors():
    """Every pair of tests, both failing: the earlier one gives the number."""
    d = small()
    question, reply, room = faulty(d, ("mark", "sizes"), 0)
    assert question[5] == 0
    yield check_vector(("order",), "two faults: mark, h = 0", SMALL, question, reply, 5, None, room)
    for v, ((first, number), (second, _)) in enumerate(combinations(STAGES, 2)):
        if first == STAGES[0][0] and second in AFTER_THE_HEADER:
            continue
        question, reply, room = faulty(d, (first, second), v)
        comment = "two faults: %s, %s" % (first, second)
        yield check_vector(("order",), comment, SMALL, question, reply, number, None, room)


def check_vectors():
    for group in (
        honest_vectors, damaged_parts, wrongly_hashed, wrongly_answered, node_vectors, salt_vectors, length_vectors,
        mark_vectors, size_vectors, element_vectors, second_encodings, index_vectors, shifted_vectors, unseen_vectors,
        header_vectors, ordered_vectors,
    ):  # fmt: skip
        yield from group()
