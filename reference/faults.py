"""Faults for questions, replies and calls: one at a time at first and last places, or several at once."""

import smallwood as S
from drafts import LAST_WORD, ProofDraft, Q, add, ends, product, vanishing


def spoil(data, at):
    """One byte changed, at a position that may count from the end."""
    changed = bytearray(data)
    changed[at] ^= 1 << at % 8
    return bytes(changed)


# ---- One fault in an accepted draft -----------------------------------------------------------------


def batching_faults(src, d):
    s = d.sizes
    for k in range(s.eta):
        for c in ends(s.width):
            e = d.copy().shift_batching(k, [0] * c + [src.nonzero()])
            yield "R %d coefficient %d" % (k, c), e, 9 if c == 0 or any(d.indices) else 0
        for b in ends(s.l):
            e = d.copy().shift_batching(k, product([src.nonzero()], d.others(b)))
            yield "R %d wrong at opened leaf %d only" % (k, b), e, 9
        e = d.copy()
        e.challenges[k] = (e.challenges[k] + 1) % Q
        yield "challenge %d" % k, e, 9


def evaluation_faults(src, d):
    s = d.sizes
    for p in ends(s.m):
        for c in sorted({0, s.columns - 1, s.columns, s.width - 1}):
            e = d.copy()
            e.answers[p][c] = (e.answers[p][c] + src.nonzero()) % Q
            yield "answer %d word %d" % (p, c), e, 10
        for b in ends(s.l):
            e = d.copy().shift_answer(p, product([src.nonzero()], d.others(b)))
            yield "answer %d wrong at opened leaf %d only" % (p, b), e, 10
        if s.rows > 1:
            e = d.copy()
            e.points[p] = (e.points[p] + 1) % Q
            yield "point %d" % p, e, 10


def leaf_faults(src, d):
    s = d.sizes
    for b in ends(s.l):
        for v in sorted({0, s.mu - 1, s.mu, s.rows - 1, s.rows, s.record - 1}):
            e = d.copy().change_value(b, v, src.nonzero())
            yield "value %d of opened leaf %d" % (v, b), e, 8
            yield "value %d of opened leaf %d, rehashed" % (v, b), e.copy().rehash(), 9
        for j in sorted({0, s.mu - 1, s.rows - 1}):
            change = src.nonzero()
            e = d.copy().compensate(b, j, change, range(s.eta)).rehash()
            yield "row %d of opened leaf %d, masks to fit" % (j, b), e, 10
            for k in ends(s.eta):
                fitted = [other for other in range(s.eta) if other != k]
                e = d.copy().compensate(b, j, change, fitted).rehash()
                yield "row %d of opened leaf %d, seen in repetition %d only" % (j, b, k), e, 9
        different = set(d.points[:-1])
        if d.points[-1] not in different and len(different) < s.rows:
            e = d.copy()  # row differences whose power sum vanishes at all points but the last
            for j, change in enumerate(vanishing(sorted(different))):
                e.compensate(b, j, change, range(s.eta))
            yield "rows of opened leaf %d, seen at the last point only" % b, e.rehash(), 10
        for at in (0, 31):
            e = d.copy()
            e.leaves[b] = e.leaves[b][0], spoil(e.leaves[b][1], at)
            yield "nonce of opened leaf %d byte %d" % (b, at), e, 8
            yield "nonce of opened leaf %d byte %d, rehashed" % (b, at), e.copy().rehash(), 0


def tree_faults(d):
    for n in ends(len(d.nodes)):
        for at in (0, 31):
            e = d.copy()
            e.nodes[n] = spoil(e.nodes[n], at)
            yield "node %d byte %d" % (n, at), e, 8
            yield "node %d byte %d, rehashed" % (n, at), e.copy().rehash(), 0
    for at in (0, 15, 31):
        e = d.copy()
        e.root = spoil(e.root, at)
        yield "root byte %d" % at, e, 8


def order_faults(d):
    answers = 10 if d.sizes.rows > 1 else 0  # one row: the power sum is the same at every point
    for part, number in (("batchings", 9), ("answers", answers), ("leaves", 8), ("nodes", 8)):
        e = d.copy()
        sequence = getattr(e, part)
        if len(sequence) > 1:
            sequence[0], sequence[-1] = sequence[-1], sequence[0]
            yield "first and last of %s exchanged" % part, e, number


def place_faults(src, d):
    """(label, draft, number): one fault each. The draft's challenges and points must not be 0."""
    assert all(d.challenges) and all(d.points)
    yield from batching_faults(src, d)
    yield from evaluation_faults(src, d)
    yield from leaf_faults(src, d)
    yield from tree_faults(d)
    yield from order_faults(d)


# ---- Several faults at once -------------------------------------------------------------------------

# The check's tests in their order, each with its number.
STAGES = (
    ("under 15 bytes", 6),
    ("mark", 5),
    ("sizes", 1),
    ("question length", 6),
    ("question element", 3),
    ("indices", 4),
    ("value buffer", 2),
    ("reply length", 7),
    ("reply element", 3),
    ("root", 8),
    ("batching", 9),
    ("evaluation", 10),
)

QUESTION_STAGES = STAGES[:6]  # in common with the opener and the reply's length

# (byte of the header, contents from there on) that make a size refused.
BAD_SIZES = (
    (5, b"\0"), (5, b"\x0d"), (6, b"\0"), (6, b"\x41"), (7, b"\0\0"), (8, b"\2"), (9, b"\0\0"),
    (10, b"\2"), (11, b"\0"), (11, b"\x41"), (12, b"\0"), (12, b"\5"), (13, b"\0"), (13, b"\x09"),
    (14, b"\x11"), (14, b"\xff"),
)  # fmt: skip

BAD_MARKS = (
    b"SWF\3\0", b"swq\3\0", b"SWQ\0\3", b"SWQ\1\0", b"SWQ\2\0", b"SWQ\4\0", b"\0\0\0\3\0", b"SWQ\3\1",
)  # fmt: skip

# (part of a question, byte of it): with that byte changed, leaves and nodes hash to another root than the question's.
ROOT_FAULTS = (("root", 0), ("salt", 31), ("root", 31), ("salt", 0), ("root", 7), ("salt", 7))


def turn(choices, v):
    """The choice whose turn it is."""
    return choices[v % len(choices)]


def faulty(d, faults, v):
    """Question, reply and value buffer length of a draft with these faults; v chooses among variants."""
    d, s = d.copy(), d.sizes
    size = 4 * s.w * s.m
    if "evaluation" in faults:
        d.shift_answer(turn((0, s.m - 1), v), [1])
    if "batching" in faults:
        d.shift_batching(turn((0, s.eta - 1), v), [1])
    if "root" in faults:
        part, at = turn(ROOT_FAULTS, v)
        setattr(d, part, spoil(getattr(d, part), at))
    if "reply element" in faults:
        records = [d.batchings[0], d.batchings[-1], d.answers[0], d.answers[-1]]
        record = turn(records + [d.leaves[0][0], d.leaves[-1][0]], v)
        record[turn((0, -1), v // 6)] = turn((Q, LAST_WORD), v)
    if "question element" in faults:
        turn((d.challenges, d.points), v)[turn((0, -1), v // 2)] = turn((Q, LAST_WORD), v // 4)
    if "indices" in faults:
        last = turn((s.leaves, d.indices[0], 65535), v if s.l > 1 else 0)
        d.indices = d.indices[:-1] + [last]
    reply = d.reply()
    if "value buffer" in faults:
        size = faulty_size(size, v)
    if "reply length" in faults:
        longer, shorter = [reply + bytes(n) for n in (1, 32)], [reply[:-n] for n in (1, 4, 32)]
        reply = turn(longer + shorter + [b""], v)
    return faulty_bytes(d.question(), faults, v), reply, size


def faulty_size(size, v):
    """A wrong length of the value buffer."""
    return turn((size + 4, size - 4, 0, 2 * size, size + 1, size - 1), v)


def faulty_bytes(question, faults, v):
    """A question's bytes with those of the faults that are not in its elements or indices."""
    if "question length" in faults:
        longer, shorter = [question + bytes(n) for n in (1, 4)], [question[:-n] for n in (1, 2)]
        question = turn(longer + shorter + [question[:15]], v)
    if "sizes" in faults:
        at, part = turn(BAD_SIZES, v)
        question = question[:at] + part + question[at + len(part) :]
    if "mark" in faults:
        question = turn(BAD_MARKS, v) + question[5:]
    if "under 15 bytes" in faults:
        question = question[: turn((14, 0, 5, 1), v)]
    return question


# ---- Several faults at once in a proof --------------------------------------------------------------

# The tests of a proof's question in their order, each with its number.
PROOF_QUESTION_STAGES = (
    ("under 15 bytes", 6),
    ("mark", 5),
    ("sizes", 1),
    ("kappa", 1),
    ("question length", 6),
    ("question element", 3),
)

# What the check of a proof tests, in order.
PROOF_STAGES = PROOF_QUESTION_STAGES + (
    ("value buffer", 2),
    ("no room for the answers", 7),
    ("proof length", 7),
    ("reply element", 3),
    ("counter", 12),
    ("root", 8),
    ("batching", 9),
    ("evaluation", 10),
)

BAD_KAPPAS = (17, 18, 24, 32, 255, 256, 65536, 2**31, LAST_WORD)


def faulty_proof_question(question, kappa, faults, v):
    """Bytes of a proof's question, and kappa, with these faults."""
    if "question element" in faults:
        at = turn((S.AFTER_SALT, len(question) - 4), v)
        question = question[:at] + S.to_bytes([turn((Q, LAST_WORD), v // 2)]) + question[at + 4 :]
    return faulty_bytes(question, faults, v), turn(BAD_KAPPAS, v) if "kappa" in faults else kappa


def faulty_answers(d, faults, v):
    """Puts the faults that the draw sees into a proof to be."""
    s = d.sizes
    if "root" in faults and v % 3 == 0:
        part, at = turn(ROOT_FAULTS, v // 3)
        changed = {part: spoil(getattr(d.question_parts, part), at)}
        d = ProofDraft(d.commitment, d.question_parts._replace(**changed))
    if "batching" in faults:
        k = turn((0, s.eta - 1), v)
        d.batchings[k] = add(d.batchings[k], [1])
    if "evaluation" in faults:
        answer = d.answers[turn((0, s.m - 1), v)]
        answer[turn((0, -1), v)] = (answer[turn((0, -1), v)] + 1) % Q
    if "reply element" in faults and v % 6 < 4:
        record = turn((d.batchings[0], d.batchings[-1], d.answers[0], d.answers[-1]), v % 6)
        record[turn((0, -1), v // 6)] = turn((Q, LAST_WORD), v)
    return d


def faulty_proof(d, kappa, faults, v):
    """Question, kappa, proof and value buffer length of a proof to be with these faults; kappa must not be 0."""
    d, s = faulty_answers(d.copy(), faults, v), d.sizes
    wanted = d.others(kappa) if "counter" in faults else d.qualifying(kappa)
    counter = turn([next(wanted) for _ in range(3)], v)
    e = d.opened(counter)
    if "root" in faults and v % 3 == 1:
        e.leaves[-1] = e.leaves[-1][0], spoil(e.leaves[-1][1], turn((0, 31), v))
    if "root" in faults and v % 3 == 2:
        e.nodes[-1] = spoil(e.nodes[-1], turn((0, 31), v))
    if "reply element" in faults and v % 6 >= 4:
        e.leaves[turn((0, -1), v)][0][turn((0, -1), v // 6)] = turn((Q, LAST_WORD), v // 2)
    proof, room = S.write_counter(counter) + e.reply(), S.COUNTER_BYTES + S.answer_bytes(s)
    if "proof length" in faults:
        longer, shorter = [proof + bytes(n) for n in (1, 32)], [proof[:-n] for n in (1, 4, 32)]
        proof = turn(longer + shorter + [proof[:room]], v)
    if "no room for the answers" in faults:
        proof = proof[: turn((room - 1, 0, 4, 3, 1, 2, room - 4), v)]
    size = 4 * s.w * s.m
    size = faulty_size(size, v) if "value buffer" in faults else size
    return *faulty_proof_question(d.question(), kappa, faults, v), proof, size


# ---- Mistakes in strings and batching ---------------------------------------------------------------


def wrong_strings():
    """(label, leaf string, node string) of which one or both are wrong."""
    leaf, node = S.leaf_string, S.node_string
    after = 1 + S.SALT_BYTES  # first byte and salt

    def big_endian(s, i, values, nonce):
        return leaf(s, i, [], b"") + b"".join(value.to_bytes(4, "big") for value in values) + nonce

    def big_endian_index(s, i, values, nonce):
        return b"\0" + s + i.to_bytes(2, "big") + leaf(s, i, values, nonce)[after + 2 :]

    def no_first(string):
        return lambda *parts: string(*parts)[1:]

    def salted_by(other, string):
        return lambda s, *parts: string(other(s), *parts)

    yield "leaf without first byte", no_first(leaf), node
    yield "node without first byte", leaf, no_first(node)
    yield "leaf and node without first byte", no_first(leaf), no_first(node)
    yield "first bytes exchanged", lambda *p: b"\1" + leaf(*p)[1:], lambda *p: b"\0" + node(*p)[1:]
    yield "leaf without index", lambda *p: leaf(*p)[:after] + leaf(*p)[after + 2 :], node
    yield "leaf with index from 1", lambda s, i, v, n: leaf(s, i + 1, v, n), node
    yield "leaf with 4-byte index", lambda *p: leaf(*p)[: after + 2] + b"\0\0" + leaf(*p)[after + 2 :], node
    yield "leaf with big-endian index", big_endian_index, node
    yield "leaf with big-endian values", big_endian, node
    yield "leaf with values reversed", lambda s, i, v, n: leaf(s, i, v[::-1], n), node
    yield "leaf without its last value", lambda s, i, v, n: leaf(s, i, v[:-1], n), node
    yield "leaf with nonce first", lambda s, i, v, n: leaf(s, i, [], n) + S.to_bytes(v), node
    yield "leaf without nonce", lambda s, i, v, n: leaf(s, i, v, b""), node
    yield "node with children exchanged", leaf, lambda s, a, b: node(s, b, a)
    for label, other in (
        ("no salt", lambda s: b""),
        ("half of the salt", lambda s: s[:16]),
        ("31 bytes of the salt", lambda s: s[:31]),
        ("the salt and a zero", lambda s: s + b"\0"),
        ("the salt backwards", lambda s: s[::-1]),
        ("the salt twice", lambda s: s + s),
        ("a salt of zeros", lambda s: bytes(32)),
    ):
        yield "leaf with " + label, salted_by(other, leaf), node
        yield "node with " + label, leaf, salted_by(other, node)
        yield "leaf and node with " + label, salted_by(other, leaf), salted_by(other, node)
    first_leaf, first_node = (lambda *p: p[0] + leaf(b"", *p[1:])), (lambda *p: p[0] + node(b"", *p[1:]))
    last_leaf, last_node = (lambda *p: leaf(b"", *p[1:]) + p[0]), (lambda *p: node(b"", *p[1:]) + p[0])
    yield "leaf with salt before the first byte", first_leaf, node
    yield "node with salt before the first byte", leaf, first_node
    yield "leaf with salt at the end", last_leaf, node
    yield "node with salt at the end", leaf, last_node
    yield "leaf with salt after the index", lambda s, i, v, n: leaf(b"", i, [], s) + S.to_bytes(v) + n, node
    yield "leaf with salt before the nonce", lambda s, i, v, n: leaf(b"", i, v, s + n), node
    yield "node with salt between the children", leaf, lambda s, a, b: node(b"", a, s + b)
    yield "leaf with nonce for salt", lambda s, i, v, n: leaf(n, i, v, s), node


def levels_with(c, leaf, node):
    """A commitment's tree over these strings, level by level from the leaves up."""
    s, salt = c.sizes, c.lent.salt
    values = [c.table[i * s.record : (i + 1) * s.record] for i in range(s.leaves)]
    levels = [[S.digest(leaf(salt, i, v, S.nonce_of(c.lent.nonces, i))) for i, v in enumerate(values)]]
    while len(levels[-1]) > 1:
        below = levels[-1]
        levels.append([S.digest(node(salt, *below[i : i + 2])) for i in range(0, len(below), 2)])
    return levels


def wrong_lines(c):
    """(label, lines that take the grid points) by mistakes in the columns; not all differ from the right ones."""
    s, blinds = c.sizes, c.lent.blinds
    right = S.lines_of(s, *c.lent[:3])

    def changed(entry):
        """The lines with entry(line, i, t, j) in place of what stands in row j, column t of polynomial i."""
        lines = [list(line) for line in right]
        for j, line in enumerate(lines):
            for i in range(s.w):
                for t in range(s.nu):
                    line[i * s.nu + t] = entry(line[i * s.nu + t], i, t, j) % Q
        return lines

    def blind(i, t, b):
        """Blind b of column t of polynomial i; none before the first column or in the last."""
        if not (0 <= t < s.nu - 1 and 0 <= b < s.beta):
            return 0
        return blinds[i % s.w * s.blinds_each + t * s.beta + b]

    def raised(entry, i, t, j):
        return entry + (blind(i, t - 1, j) if j < s.mu else 0)

    def without_top(entry, i, t, j):
        return 0 if j >= s.mu and t == s.nu - 1 else entry

    def lowered_by(other):
        return lambda entry, i, t, j: raised(entry, i, t, j) - (other(i, t, j) if j < s.mu else 0)

    yield "blinds not taken off", changed(raised)
    yield "blinds taken off their own column", changed(lowered_by(lambda i, t, j: blind(i, t, j)))
    yield "blinds taken off twice", changed(lowered_by(lambda i, t, j: 2 * blind(i, t - 1, j)))
    yield "blinds added", changed(lowered_by(lambda i, t, j: -blind(i, t - 1, j)))
    yield "blinds of the next polynomial", changed(lowered_by(lambda i, t, j: blind(i + 1, t - 1, j)))
    yield "blinds taken off in reverse", changed(lowered_by(lambda i, t, j: blind(i, t - 1, s.beta - 1 - j)))
    yield "blinds taken off the last rows", changed(lowered_by(lambda i, t, j: blind(i, t - 1, j - s.mu + s.beta)))
    yield "no top coefficients", changed(without_top)
    yield "no blinding rows", right[: s.mu]


def wrong_batchings(c, q):
    """(label, for each repetition an R) by mistakes in the batching formula."""
    s = c.sizes
    lines = S.lines_of(s, c.lent.coefficients, c.lent.tails, c.lent.blinds)
    rows = [S.polynomial_through(S.grid_points(s), line) for line in lines]
    masks = [S.mask_of(s, c.lent.masks, k) for k in range(s.eta)]

    def batch(mask, factors):
        total = list(mask)
        for factor, row in zip(factors, rows):
            total = add(total, product([factor], row))
        return total

    def powers(k, first):
        return [pow(q.challenges[k], first + j, Q) for j in range(s.rows)]

    every = range(s.eta)
    yield "batching from power 0", [batch(masks[k], powers(k, 0)) for k in every]
    yield "batching from power 2", [batch(masks[k], powers(k, 2)) for k in every]
    yield "batching without mask", [batch([0] * s.width, powers(k, 1)) for k in every]
    yield "batching without the last row", [batch(masks[k], powers(k, 1)[:-1]) for k in every]
    yield "batching without the blinding rows", [batch(masks[k], powers(k, 1)[: s.mu]) for k in every]
    yield "batching with rows reversed", [batch(masks[k], powers(k, 1)[::-1]) for k in every]
    yield "batching with mask 0 everywhere", [batch(masks[0], powers(k, 1)) for k in every]
    yield "batching with challenge 0 everywhere", [batch(masks[k], powers(0, 1)) for k in every]
    yield "batching without top coefficient", [batch(masks[k], powers(k, 1))[:-1] + [0] for k in every]
    yield "batching with coefficients reversed", [batch(masks[k], powers(k, 1))[::-1] for k in every]
