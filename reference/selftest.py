"""Tests of smallwood.py against the papers' small instances and against naive definitions.

    python3 selftest.py
    python3 selftest.py --before FILE     compares with smallwood.py as it was before the salt, too, or before the
                                          blinding rows

Prints a summary; the exit status is 1 when a test fails.
"""

import hashlib
import importlib.util
import random
import sys
from importlib.machinery import SourceFileLoader
from itertools import product

import smallwood as S
from arguments import Arguments, present
from smallwood import Q, ProofQuestion, Question, Sizes

counts = {"passed": 0, "failed": 0}


def expect(label, found, wanted):
    ok = found == wanted
    counts["passed" if ok else "failed"] += 1
    if not ok:
        print("FAILED %s: found %.200r, wanted %.200r" % (label, found, wanted))


# ---- Naive definitions, written apart from the module -----------------------------------------------


def naive_value(points, values, x):
    """Lagrange's formula, term by term."""
    total = 0
    for t, y in enumerate(values):
        term = y
        for s, p in enumerate(points):
            if s != t:
                term = term * (x - p) * pow(points[t] - p, -1, Q) % Q
        total += term
    return total % Q


def naive_polynomial(coefficients, x):
    return sum(c * x**e for e, c in enumerate(coefficients)) % Q


def solved(points, values):
    """The coefficients as the one solution of the linear equations that the points give; None where they have not one.

    Gauss's elimination, with a row x^0, x^1, .., value for each point.
    """
    count = len(points)
    rows = [[pow(x, e, Q) for e in range(count)] + [y] for x, y in zip(points, values)]
    for e in range(count):
        pivot = next((r for r in range(e, count) if rows[r][e]), None)
        if pivot is None:
            return None
        rows[e], rows[pivot] = rows[pivot], rows[e]
        inverse = pow(rows[e][e], -1, Q)
        rows[e] = [x * inverse % Q for x in rows[e]]
        for r in range(count):
            if r != e:
                factor = rows[r][e]
                rows[r] = [(x - factor * y) % Q for x, y in zip(rows[r], rows[e])]
    return [row[-1] for row in rows]


def naive_missing(h, indices):
    """Every node of every level but the root's: not above the set, and its sibling is."""
    above = lambda level, node: any(i >> level == node for i in indices)
    nodes = [(level, node) for level in range(h) for node in range(2 ** (h - level))]
    return [(v, n) for v, n in nodes if not above(v, n) and above(v, n + 1 if n % 2 == 0 else n - 1)]


def counted_missing(h, indices):
    """The number of missing nodes without a walk over the tree.

    Let c nodes be above or in the set: h + 1 for the first index, and for each next one as many as its path
    goes before it meets the path of the one before. All but the l leaves have two children each, together
    2 (c - l), and all but the root are such children; the other children are missing.
    """
    above = h + 1 + sum((a ^ b).bit_length() for a, b in zip(indices, indices[1:]))
    return 2 * (above - len(indices)) - (above - 1)


def naive_length(s, nodes):
    """Bytes of a reply with this many nodes, record by record."""
    answer = 4 * (s.w * s.nu + s.l)
    return s.eta * answer + s.m * answer + s.l * (4 * (s.mu + s.beta) + 4 * s.eta + 32) + 32 * nodes


def naive_permutations(strings):
    """Of the digests of these strings, block by block: each has bytes of the padding in its last block."""
    return sum(1 for string in strings for _ in range(0, len(string) + 1, 136))


def naive_leaf(salt, index, values, nonce):
    """A leaf's digest, byte by byte."""
    words = b"".join(value.to_bytes(4, "little") for value in values)
    return hashlib.shake_256(b"\x00" + salt + bytes([index % 256, index // 256]) + words + nonce).digest(32)


def naive_node(salt, digests, level, index):
    if level == 0:
        return digests[index]
    children = [naive_node(salt, digests, level - 1, 2 * index + side) for side in (0, 1)]
    return hashlib.shake_256(b"\x01" + salt + children[0] + children[1]).digest(32)


def naive_tree(s, salt, table, nonces):
    record = s.mu + s.beta + s.eta
    values = [table[i * record : (i + 1) * record] for i in range(2**s.h)]
    leaves = [naive_leaf(salt, i, v, nonces[32 * i : 32 * i + 32]) for i, v in enumerate(values)]
    levels = [[naive_node(salt, leaves, k, i) for i in range(2 ** (s.h - k))] for k in range(s.h + 1)]
    return b"".join(node for level in levels for node in level)


def naive_entry(s, coefficients, blinds, i, t, j):
    """What stands in row j, column t of polynomial i, case by case."""

    def coefficient(e):
        return coefficients[i * (s.mu * s.nu + s.beta) + e]

    def blind(t, b):
        return blinds[(i * (s.nu - 1) + t) * s.beta + b]

    if j >= s.mu and t == s.nu - 1:
        return coefficient(s.mu * s.nu + j - s.mu)
    if j >= s.mu:
        return blind(t, j - s.mu)
    if t > 0 and j < s.beta:
        return (coefficient(t * s.mu + j) - blind(t - 1, j)) % Q
    return coefficient(t * s.mu + j)


def naive_table(s, coefficients, tails, blinds, masks):
    """Leaf values straight from the three layers."""
    points = list(range(2**s.h, 2**s.h + s.w * s.nu + s.l))
    table = []
    for leaf in range(2**s.h):
        for j in range(s.mu + s.beta):
            row = [naive_entry(s, coefficients, blinds, i, t, j) for i in range(s.w) for t in range(s.nu)]
            row += [tails[j * s.l + b] for b in range(s.l)]
            table.append(naive_value(points, row, leaf))
        for k in range(s.eta):
            table.append(naive_polynomial(masks[k * len(points) : (k + 1) * len(points)], leaf))
    return table


def held(s, table):
    """Coefficients of the polynomials that a table's rows hold: sums of X^(t mu + j) times P_j(N + i nu + t).

    Blinding rows stand at exponents that the next column has too: what stands at the same exponent adds up.
    """
    leaves = list(range(s.w * s.nu + s.l))  # as many as P_j has coefficients
    totals = [[0] * (s.mu * s.nu + s.beta) for _ in range(s.w)]
    for j in range(s.mu + s.beta):
        row = S.polynomial_through(leaves, [table[leaf * (s.mu + s.beta + s.eta) + j] for leaf in leaves])
        for i, total in enumerate(totals):
            for t in range(s.nu):
                total[t * s.mu + j] += naive_polynomial(row, 2**s.h + i * s.nu + t)
    return [x % Q for total in totals for x in total]


def naive_bits(data):
    """The bits as a string of 0 and 1, each byte's top bit first."""
    return "".join("{:08b}".format(byte) for byte in data)


def naive_choose(leaves, words):
    """The indices by marks: from index 0 on, as many unmarked ones are passed over as the rank tells."""
    marked = [False] * leaves
    for j, word in enumerate(words):
        passed = word - word // (leaves - j) * (leaves - j)
        at = 0
        while marked[at] or passed:
            passed -= not marked[at]
            at += 1
        marked[at] = True
    return [i for i in range(leaves) if marked[i]]


def naive_draw(s, question, proof):
    """(the draw's first 32 bytes, gammas, indices) that belong to a proof, straight from its bytes."""

    def words(data):
        return [int.from_bytes(data[at : at + 8], "little") for at in range(0, len(data), 8)]

    answers = proof[4 : 4 + 4 * (s.eta + s.m) * (s.w * s.nu + s.l)]
    draw = hashlib.shake_256(b"\x03" + question + answers + proof[:4]).digest(32 + 8 * s.l)
    gammas = words(hashlib.shake_256(b"\x02" + question[:79]).digest(8 * s.eta))
    return draw[:32], [word % 4294967291 for word in gammas], naive_choose(2**s.h, words(draw[32:]))


def naive_question(s, question, proof):
    """The conversation's question that a proof stands for, as bytes."""
    _, gammas, indices = naive_draw(s, question, proof)
    challenges = b"".join(gamma.to_bytes(4, "little") for gamma in gammas)
    return question[:79] + challenges + question[79:] + b"".join(i.to_bytes(2, "little") for i in indices)


def naive_qualifies(s, question, proof, kappa):
    return naive_bits(naive_draw(s, question, proof)[0]).startswith("0" * kappa)


# ---- Fixtures ---------------------------------------------------------------------------------------


def lend(s, fill):
    """Coefficients, tails, blinds, masks, with fill(count) giving the words."""
    coefficients, tails = fill(s.w * (s.mu * s.nu + s.beta)), fill((s.mu + s.beta) * s.l)
    return coefficients, tails, fill(s.w * (s.nu - 1) * s.beta), fill(s.eta * (s.w * s.nu + s.l))


def empty_outputs(s):
    return [0] * (2**s.h * (s.mu + s.beta + s.eta)), bytes(32 * (2 * 2**s.h - 1))


def committing(s):
    """The sizes that committing is given."""
    return s.h, s.mu, s.nu, s.w, s.l, s.eta, s.beta


def true_values(s, coefficients, points):
    """The polynomials' values, point by point."""
    each = s.mu * s.nu + s.beta
    return [naive_polynomial(coefficients[i * each : (i + 1) * each], z) for z in points for i in range(s.w)]


def verdict_of(question, reply, values):
    """The check's number and values, without its permutations."""
    number, _, after = S.check(question, reply, values)
    return number, after


def commit_number(s, fill=lambda count: [0] * count):
    return S.commit(*committing(s), *lend(s, fill), bytes(32 * 2**s.h), bytes(32), *empty_outputs(s))[0]


P_SIZES = Sizes(1, 1, 1, 1, 1, 1, 1)
P_LENT = [5], [9], [], [7, 2]


def case_p(nonces, salt):
    """Question and reply of case P, with its table and tree."""
    number, table, tree = S.commit(*committing(P_SIZES), *P_LENT, nonces, salt, *empty_outputs(P_SIZES))
    expect("case P is committed", number, 0)
    question = S.write_question(Question(P_SIZES, tree[-32:], salt, [10], [6], [1]))
    expect("reply length of case P", S.reply_length(question), (0, 88))
    number, length, buffer = S.open_reply(question, *P_LENT, nonces, salt, table, tree, b"\xee" * 88)
    expect("case P is opened", (number, length), (0, 88))
    for size in (0, 57, 87, 89, 120):
        before = b"\xee" * size
        refused = S.open_reply(question, *P_LENT, nonces, salt, table, tree, before)
        expect("buffer of %d bytes" % size, refused, (2, None, before))
    return question, buffer, table, tree


# ---- The small instances ----------------------------------------------------------------------------


def test_small_instances():
    expect("(q-1)^2", (Q - 1) * (Q - 1) % Q, 1)
    expect("half of 1", pow(2, -1, Q), 2147483646)
    expect("(q-1)+(q-1)", S.dot([1, 1], [Q - 1, Q - 1]), Q - 2)

    lines = S.lines_of(P_SIZES, [5], [9], [])
    expect("P_0(0)", S.dot(S.weights(2, 2, 0), lines[0]), 4294967288)
    expect("P_0(1)", S.dot(S.weights(2, 2, 1), lines[0]), 1)
    batching = S.batching_of(P_SIZES, lines, [7, 2], 10)
    expect("R", batching, [4294967268, 42])
    expect("R(1)", S.evaluate(batching, 1), 19)
    expect("R(1) = 9 + 10", S.batching_holds(batching, 1, 10, [1], 9), True)

    two = Sizes(3, 2, 2, 1, 1, 1, 1)
    for z, columns, value in ((10, [21, 43], 4321), (0, [1, 3], 1)):
        answer = S.answer_of(S.rows_of(two, [1, 2, 3, 4], []), z)
        expect("columns at %d" % z, answer, columns)
        expect("value at %d" % z, S.values_of(two, z, answer), [value])
    blinded = two._replace(beta=1)
    rows = S.rows_of(blinded, [1, 2, 3, 4, 5], [7])
    expect("rows with a blind", rows, [[1, Q - 4], [2, 4], [7, 5]])
    for z, columns, value in ((10, [721, 536], 54321), (0, [1, Q - 4], 1)):
        answer = S.answer_of(rows, z)
        expect("columns with a blind at %d" % z, answer, columns)
        expect("value with a blind at %d" % z, S.values_of(blinded, z, answer), [value])

    for indices, missing in (
        ([0, 1], [(1, 1), (2, 1)]),
        ([0, 4], [(0, 1), (0, 5), (1, 1), (1, 3)]),
        ([0, 1, 2, 3], [(2, 1)]),
    ):
        expect("missing for %s" % indices, S.missing_nodes(3, indices), missing)

    for w, nu in ((1, 4), (2, 2), (4, 1)):
        for l, wanted in ((4, 0), (5, 1)):
            s = Sizes(3, 1, nu, w, l, 1, 1)
            expect("w nu = 4, N = 8, l = %d" % l, commit_number(s), wanted)
            expect("the same in a header", S.read_header(S.write_header(s))[0], wanted)
    for word, wanted in ((4294967290, 0), (4294967291, 3)):
        number = commit_number(P_SIZES, lambda count: [word] * count)
        expect("element %d" % word, number, wanted)

    eight = Sizes(3, 1, 1, 1, 2, 1, 1)
    for indices, wanted in (([3, 3], 4), ([3, 7], 0), ([3, 8], 4), ([4, 3], 4)):
        question = S.write_question(Question(eight, bytes(32), bytes(32), [1], [1], indices))
        expect("indices %s" % indices, S.read_question(question)[0], wanted)


def test_case_p():
    for nonces, salt in product((bytes(range(64)), bytes(64)), (bytes(range(100, 132)), bytes(32))):
        question, reply, table, tree = case_p(nonces, salt)
        expect("table of case P", table, [4294967288, 7, 1, 9])
        expect("lengths of case P", (len(question), len(reply)), (89, 88))
        leaves = [salt + b"\x00\x00" + S.to_bytes(table[:2]), salt + b"\x01\x00" + S.to_bytes(table[2:])]
        strings = [b"\x00" + leaf + nonces[32 * i : 32 * i + 32] for i, leaf in enumerate(leaves)]
        expect("leaf strings of case P", [len(string) for string in strings], [75, 75])
        digests = [hashlib.shake_256(string).digest(32) for string in strings]
        root = hashlib.shake_256(b"\x01" + salt + digests[0] + digests[1]).digest(32)
        expect("tree of case P", tree, digests[0] + digests[1] + root)
        parts = bytes.fromhex("535751 0300 01 01 0100 0100 01 01 01 00"), root, salt, S.to_bytes([10, 6]), b"\x01\x00"
        expect("question of case P", question, b"".join(parts))
        words = [4294967268, 42, 5, 9, 1, 9]
        expect("reply of case P", reply, S.to_bytes(words) + nonces[32:] + digests[0])
        work = (75 // 136 + 1) + (97 // 136 + 1)
        expect("check of case P", S.check(question, reply, [77]), (0, work, [5]))
        expect("permutations of case P", S.permutations(question), (0, 2))
        expect("C check of case P", S.check_c(question, reply, b"abcd"), (0, b"\x05\0\0\0"))
        expect("output of case P", S.program(question + reply), b"verdict 0\n1 1 5\n")
        for other in (reply[:-1], reply + b"\0"):
            expect("reply of %d bytes" % len(other), S.check(question, other, [77]), (7, 0, [77]))
            expect("the same as a program", S.program(question + other), b"verdict 7\n")
        for words, size in ((0, 0), (2, 8)):
            expect("%d words" % words, S.check(question, reply, [7] * words), (2, 0, [7] * words))
            expect("%d bytes" % size, S.check_c(question, reply, bytes(size)), (2, bytes(size)))
        for size in (1, 3, 5, 7):
            expect("%d bytes" % size, S.check_c(question, reply, bytes(size)), (2, bytes(size)))
    expect("empty input", S.program(b""), b"verdict 6\n")
    expect("14 bytes", S.program(question[:14]), b"verdict 6\n")
    expect("a header alone", S.program(question[:15]), b"verdict 6\n")
    for version in (1, 2):
        other = with_version(question, version)
        for count in (14, 15):
            wanted = b"verdict %d\n" % (6 if count < 15 else 5)
            expect("version %d, %d bytes" % (version, count), S.program(other[:count]), wanted)
        expect("version %d" % version, S.program(other + reply), b"verdict 5\n")
        older = before_question(question, version)
        expect("length of a question of version %d" % version, len(older), 55 + version)
        expect("a question of version %d" % version, S.program(older + reply), b"verdict 5\n")
    expect("question alone", S.program(question), b"verdict 7\n")
    expect("input beyond the limit", S.program(question + bytes(70000)), b"verdict 7\n")


def test_hash():
    wanted = "46b9dd2b0ba88d13233b3feb743eeb243fcd52ea62b81b82b50c27646ed5762f"
    expect("SHAKE256 of nothing", S.digest(b"").hex(), wanted)
    wanted = "cd8a920ed141aa0407a22d59288652e9d9f1a7ee0c1e7c1ca699424da84a904d"
    expect("SHAKE256 of 200 bytes a3", S.digest(b"\xa3" * 200).hex(), wanted)


# ---- Random sizes against the naive definitions -----------------------------------------------------


def test_interpolation(rng):
    table = S.INVERSE_FACTORIALS
    expect("320 inverse factorials", (len(table), table[0]), (320, 1))
    for t in range(1, 320):
        expect("inverse factorial %d" % t, table[t] * t % Q, table[t - 1])
    for count in list(range(1, 13)) + [320]:
        first = rng.choice((2, 8, 4096))
        points = list(range(first, first + count))
        values = [rng.randrange(Q) for _ in points]
        polynomial = S.polynomial_through(points, values)
        expect("coefficients at the points", [S.evaluate(polynomial, p) for p in points], values)
        for x in [0, 1, first - 1, Q - 1] + points[:2] + ([rng.randrange(Q)] if count < 320 else []):
            value = S.evaluate(polynomial, x)
            expect("weights, %d points" % count, S.dot(S.weights(first, count, x), values), value)
            if count < 320 or x == 0:
                expect("naive, %d points" % count, naive_value(points, values, x), value)
    for _ in range(50):
        count = rng.randrange(1, 10)
        points = rng.sample(range(Q), count)
        values = [rng.randrange(Q) for _ in points]
        polynomial = S.polynomial_through(points, values)
        expect("length of the coefficients", len(polynomial), count)
        x = rng.randrange(Q)
        expect("any points", S.evaluate(polynomial, x), naive_value(points, values, x))
        expect("evaluation", S.evaluate(polynomial, x), naive_polynomial(polynomial, x))


def test_columns(rng):
    """Rows with blinds, entry by entry; whatever the blinds are, the columns give the polynomials' values."""
    for n in range(150):
        mu = rng.randrange(1, 65)
        most = min(mu, 16, 64 - mu)
        beta = rng.choice((0, min(1, most), most, rng.randrange(most + 1)))
        s = Sizes(9, mu, rng.choice((1, 2, rng.randrange(1, 9))), rng.randrange(1, 5), 1, 1, 1, beta)
        fill = lambda count: [rng.choice((0, Q - 1, rng.randrange(Q))) for _ in range(count)]
        coefficients, _, blinds, _ = lend(s, fill)
        rows = S.rows_of(s, coefficients, blinds)
        entries = [
            [naive_entry(s, coefficients, blinds, i, t, j) for i in range(s.w) for t in range(s.nu)]
            for j in range(s.mu + s.beta)
        ]
        expect("rows %s" % (s,), rows, entries)
        for z in (0, 1, Q - 1, rng.randrange(Q)):
            columns = [sum(pow(z, j, Q) * row[c] for j, row in enumerate(rows)) % Q for c in range(s.w * s.nu)]
            expect("columns %s" % (s,), S.answer_of(rows, z), columns)
            values = true_values(s, coefficients, [z])
            summed = [sum(pow(z, t * s.mu, Q) * columns[i * s.nu + t] for t in range(s.nu)) % Q for i in range(s.w)]
            expect("sum over the columns %s" % (s,), summed, values)
            expect("value %s" % (s,), S.values_of(s, z, columns), values)
        if blinds:
            at = rng.randrange(len(blinds))
            i, t, b = at // ((s.nu - 1) * s.beta), at // s.beta % (s.nu - 1), at % s.beta
            changed = S.rows_of(s, coefficients, blinds[:at] + [(blinds[at] + 1) % Q] + blinds[at + 1 :])
            places = [(j, c) for j in range(len(rows)) for c in range(s.w * s.nu) if changed[j][c] != rows[j][c]]
            expect("a blind in two places", places, [(b, i * s.nu + t + 1), (s.mu + b, i * s.nu + t)])


def naive_allowed(mu, beta):
    return mu in range(1, 65) and beta in range(17) and not beta > mu and not mu + beta > 64


def test_blinding_sizes():
    """Every number of rows with every number of blinding rows."""
    for mu in range(70):
        for beta in range(70):
            wanted = 0 if naive_allowed(mu, beta) else 1
            s = Sizes(1, mu, 1, 1, 1, 1, 1, beta)
            expect("mu %d beta %d" % (mu, beta), S.read_header(S.write_header(s))[0], wanted)
    for mu, beta in ((64, 0), (63, 1), (64, 1), (48, 16), (49, 16), (16, 16), (15, 16), (1, 1), (1, 2), (20, 17)):
        s = Sizes(2, mu, 2, 1, 1, 1, 1, beta)
        expect("commit mu %d beta %d" % (mu, beta), commit_number(s), 0 if naive_allowed(mu, beta) else 1)
    for wide in (256, 257, 2**16, 2**31, 2**32 - 1):
        lent = *lend(Sizes(2, 3, 2, 1, 1, 1, 1), lambda count: [0] * count), bytes(128), bytes(32)
        number = S.commit(2, 3, 2, 1, 1, 1, wide, *lent, *empty_outputs(Sizes(2, 3, 2, 1, 1, 1, 1)))[0]
        expect("commit beta %d" % wide, number, 1)


def test_lent_blinds(rng):
    """Lengths and elements of the blinds, in all entries that are lent them."""
    for s in (Sizes(3, 2, 2, 2, 2, 1, 1, 1), Sizes(3, 2, 1, 3, 2, 1, 1, 2), Sizes(3, 2, 2, 2, 2, 1, 1)):
        coefficients, tails, blinds, masks = lend(s, lambda count: [rng.randrange(Q) for _ in range(count)])
        nonces, salt, empty = rng.randbytes(32 * 2**s.h), rng.randbytes(32), empty_outputs(s)
        expect("blinds", len(blinds), s.w * (s.nu - 1) * s.beta)
        _, table, tree = S.commit(*committing(s), coefficients, tails, blinds, masks, nonces, salt, *empty)
        q = Question(s, tree[-32:], salt, [3], [5], [1, 6])
        question, asked = S.write_question(q), S.write_proof_question(ProofQuestion(s, q.root, salt, q.points))
        buffer, room = bytes(S.reply_length(question)[1]), bytes(S.proof_bound(s))
        others = [(blinds + [0], 2), (blinds + [Q], 2), (blinds, 0)]
        if blinds:
            others += [(blinds[:-1], 2), ([], 2)]
            for at in (0, len(blinds) - 1):
                others += [(blinds[:at] + [word] + blinds[at + 1 :], 3) for word in (Q, 2**32 - 1)]
        for other, number in others:
            label = "blinds of %d words" % len(other)
            lent = coefficients, tails, other, masks, nonces, salt
            found = S.commit(*committing(s), *lent, *empty)
            expect("commit, " + label, found, (number, *(empty if number else (table, tree))))
            expect("open, " + label, S.open_reply(question, *lent, table, tree, buffer)[0], number)
            expect("prove, " + label, S.prove(asked, 0, 1, *lent, table, tree, room)[0], number)
        for at in range(len(blinds)):
            other = blinds[:at] + [(blinds[at] + 1) % Q] + blinds[at + 1 :]
            lent = coefficients, tails, other, masks, nonces, salt
            _, other_table, other_tree = S.commit(*committing(s), *lent, *empty)
            expect("another table and root", (other_table != table, other_tree[-32:] != tree[-32:]), (True, True))
            reply = S.open_reply(question, *lent, table, tree, buffer)[2]
            expect("other blinds than committed", S.check(question, reply, [0] * s.w)[0], 9)


# ---- Salts ------------------------------------------------------------------------------------------


class Recorded:
    """SHAKE256 that keeps each string of which bytes are taken."""

    strings = []

    def __init__(self, string):
        self.string = string

    def update(self, more):
        self.string += more

    def copy(self):
        return Recorded(self.string)

    def digest(self, count):
        Recorded.strings.append(self.string)
        return hashlib.shake_256(self.string).digest(count)


def hashed(call, *arguments):
    """(outcome, strings that were hashed) of a call."""
    Recorded.strings, S.shake_256 = [], Recorded
    try:
        return call(*arguments), Recorded.strings
    finally:
        S.shake_256 = hashlib.shake_256


def hashed_in_all(s, lent, q, kappa):
    """Commits, opens, checks, proves and checks the proof: (root, {call: strings hashed}).

    Root and salt of the question are those of the commitment.
    """
    strings = {}
    (number, table, tree), strings["commit"] = hashed(S.commit, *committing(s), *lent, *empty_outputs(s))
    expect("committed", number, 0)
    q = q._replace(root=tree[-32:], salt=lent[-1])
    question, asked = S.write_question(q), S.write_proof_question(ProofQuestion(s, q.root, q.salt, q.points))
    room = bytes(S.reply_length(question)[1])
    (number, _, reply), strings["open"] = hashed(S.open_reply, question, *lent, table, tree, room)
    expect("opened", number, 0)
    (number, count, _), strings["check"] = hashed(S.check, question, reply, [0] * (s.w * s.m))
    expect("checked", number, 0)
    expect("its permutations", count, naive_permutations(strings["check"]))
    arguments = asked, kappa, 2**32 - 1, *lent, table, tree, bytes(S.proof_bound(s))
    (number, length, proof), strings["prove"] = hashed(S.prove, *arguments)
    expect("proved", number, 0)
    outcome, strings["check_proof"] = hashed(S.check_proof, asked, kappa, proof[:length], [0] * (s.w * s.m))
    expect("proof checked", outcome[0], 0)
    return q.root, strings


def expect_strings(s, root, salt, strings):
    """Which strings each call hashes, and how they begin."""
    header, kinds = S.write_header(s), {}
    for call in strings:
        kinds[call] = [sum(string[0] == first for string in strings[call]) for first in range(4)]
        for string in strings[call]:
            at = 1 if string[0] < 2 else 48
            expect("salt in a string of %s" % call, string[at : at + 32], salt)
            if string[0] == 0:
                expect("leaf string's length", len(string), 1 + 32 + 2 + 4 * (s.mu + s.beta + s.eta) + 32)
            elif string[0] == 1:
                expect("node string's length", len(string), 97)
            else:
                expect("draw string's header and root", string[1:48], header + root)
    leaves = 2**s.h
    expect("strings of committing", kinds["commit"], [leaves, leaves - 1, 0, 0])
    expect("strings of opening", kinds["open"], [0, 0, 0, 0])
    for call in ("check", "check_proof"):
        expect("leaf strings of %s" % call, kinds[call][0], s.l)
        others = {string for string in strings[call] if string[0] < 2} - set(strings["commit"])
        expect("leaf and node strings of %s that were not committed" % call, others, set())
    expect("draw strings of a check", kinds["check"][2:], [0, 0])
    expect("draw strings of a proof's check", kinds["check_proof"][2:], [1, 1])
    for string in strings["prove"]:
        expect("first byte of a draw", string[0] in (2, 3), True)
        expect("draw of challenges", string[0] == 3 or len(string) == 80, True)


def test_salted_strings(rng):
    """No string is hashed alike in two commitments that differ in the salt alone; with one salt all are."""
    for n in range(40):
        s = random_sizes(rng)
        words, nonces = lend(s, lambda count: [rng.randrange(Q) for _ in range(count)]), rng.randbytes(32 * 2**s.h)
        indices = sorted(rng.sample(range(2**s.h), s.l))
        q = Question(s, b"", b"", by_rule(5, s.eta), by_rule(6, s.m), indices)
        salt, kappa = rng.randbytes(32), n % 4
        root, strings = hashed_in_all(s, (*words, nonces, salt), q, kappa)
        expect_strings(s, root, salt, strings)
        expect("the same salt", hashed_in_all(s, (*words, nonces, salt), q, kappa), (root, strings))
        at = n % 32
        for other in (salt[:at] + bytes([salt[at] ^ 1 << n % 8]) + salt[at + 1 :], bytes(32), salt[::-1]):
            other_root, others = hashed_in_all(s, (*words, nonces, other), q, kappa)
            expect_strings(s, other_root, other, others)
            expect("another root", other_root != root, True)
            alike = {x for part in strings.values() for x in part} & {x for part in others.values() for x in part}
            expect("strings hashed alike", alike, set())
        p = ProofQuestion(s, root, salt, q.points)  # the draws under one root, with two salts
        p_other = p._replace(salt=other)
        drawn = [hashed(S.draw_challenges, x)[1] for x in (p, p_other)]
        expect("challenges by the salt alone", drawn, [[b"\x02" + S.write_header(s) + root + x] for x in (salt, other)])
        answers = rng.randbytes(S.answer_bytes(s))
        for x in (p, p_other):
            string = b"\x03" + S.write_header(s) + root + x.salt + S.to_bytes(q.points) + answers + b"\7\0\0\0"
            expect("leaf draw", hashed(lambda: S.leaf_draw(x, S.leaf_draws(x, answers), 7))[1], [string])


def test_salts(rng):
    """Lengths of the lent salt; salts that are one byte off, lent or asked; versions; a question's length."""
    for n in range(24):
        s = random_sizes(rng)
        words, nonces = lend(s, lambda count: [rng.randrange(Q) for _ in range(count)]), rng.randbytes(32 * 2**s.h)
        salt, empty, values = rng.randbytes(32), empty_outputs(s), [7] * (s.w * s.m)
        number, table, tree = S.commit(*committing(s), *words, nonces, salt, *empty)
        q = Question(s, tree[-32:], salt, by_rule(5, s.eta), by_rule(6, s.m), sorted(rng.sample(range(2**s.h), s.l)))
        p = ProofQuestion(s, q.root, salt, q.points)
        question, asked = S.write_question(q), S.write_proof_question(p)
        expect("question's length", len(question), 15 + 32 + 32 + 4 * s.eta + 4 * s.m + 2 * s.l)
        expect("proof question's length", len(asked), 15 + 32 + 32 + 4 * s.m)
        expect("root and salt in a question", question[15:79], tree[-32:] + salt)
        expect("root and salt in a proof's question", asked[15:79], tree[-32:] + salt)
        room, bound = rng.randbytes(S.reply_length(question)[1]), rng.randbytes(S.proof_bound(s))
        work = S.permutations(question)[1]

        def opened(question=question, salt=salt, tree=tree):
            return S.open_reply(question, *words, nonces, salt, table, tree, room)

        def proved(asked=asked, salt=salt, tree=tree):
            return S.prove(asked, 1, 2**32 - 1, *words, nonces, salt, table, tree, bound)

        number, _, reply = opened()
        expect("opened", number, 0)
        number, length, filled = proved()
        expect("proved", number, 0)
        proof = filled[:length]
        for count in (0, 1, 16, 31, 33, 64):
            other = (salt + salt)[:count]
            label = ", salt of %d bytes" % count
            expect("commit" + label, S.commit(*committing(s), *words, nonces, other, *empty), (2, *empty))
            expect("open" + label, opened(salt=other), (2, None, room))
            expect("prove" + label, proved(salt=other), (2, None, bound))
        for at in {0, 31, rng.randrange(32)}:
            other = salt[:at] + bytes([salt[at] ^ 1 << n % 8]) + salt[at + 1 :]
            named = S.write_question(q._replace(salt=other))
            named_proof = S.write_proof_question(p._replace(salt=other))
            label = ", byte %d of the salt" % at
            expect("open, asked" + label, opened(question=named), (8, None, room))
            expect("open, lent" + label, opened(salt=other), (8, None, room))
            expect("prove, asked" + label, proved(asked=named_proof), (8, None, bound))
            expect("prove, lent" + label, proved(salt=other), (8, None, bound))
            expect("length" + label, S.reply_length(named), S.reply_length(question))
            expect("check" + label, S.check(named, reply, values), (8, work, values))
            spoilt = tree[:-1] + bytes([tree[-1] ^ 1])
            expect("open, root too" + label, opened(question=named, tree=spoilt), (8, None, room))
            expect("prove, root too" + label, proved(asked=named_proof, tree=spoilt), (8, None, bound))
            # Salt of question and caller agree: the tree, made with another salt, is believed; the check finds it.
            number, _, believed = opened(question=named, salt=other)
            expect("open, asked and lent" + label, (number, believed), (0, reply))
            number, size, believed = proved(asked=named_proof, salt=other)
            expect("prove, asked and lent" + label, number, 0)
            expect("its check" + label, S.check_proof(named_proof, 1, believed[:size], values), (8, values))
            drawn = naive_question(s, named_proof, proof)
            fits = S.reply_length(drawn) == (0, length - 4)
            wanted = 7 if not fits else 8 if naive_qualifies(s, named_proof, proof, 1) else 12
            expect("check of a proof" + label, S.check_proof(named_proof, 1, proof, values), (wanted, values))
        exchanged = question[:15] + salt + tree[-32:] + question[79:]
        expect("salt before root", opened(question=exchanged), (8, None, room))
        expect("salt before root, and so lent", opened(question=exchanged, salt=tree[-32:]), (8, None, room))
        expect("check, salt before root", S.check(exchanged, reply, values), (8, work, values))
        for cut in (question[:47] + question[79:], question[:78] + question[79:], question + b"\0", question[:79]):
            expect("question of %d bytes" % len(cut), S.check(cut, reply, values), (6, 0, values))
            expect("open, question of %d bytes" % len(cut), opened(question=cut), (6, None, room))
        for cut in (asked[:47] + asked[79:], asked[:78] + asked[79:], asked + b"\0", asked[:79]):
            expect("proof's question of %d bytes" % len(cut), S.check_proof(cut, 1, proof, values), (6, values))
            expect("prove, question of %d bytes" % len(cut), proved(asked=cut), (6, None, bound))
        for version in (0, 1, 2, 4, 5, 255, 256, 258, 259, 512, 768, 65535):
            other, other_proof = with_version(question, version), with_version(asked, version)
            expect("version %d" % version, S.check(other, reply, values), (5, 0, values))
            expect("length, version %d" % version, S.reply_length(other), (5, None))
            expect("open, version %d" % version, opened(question=other), (5, None, room))
            expect("prove, version %d" % version, proved(asked=other_proof), (5, None, bound))
            expect("proof, version %d" % version, S.check_proof(other_proof, 1, proof, values), (5, values))
        for version in (1, 2):
            older = before_question(question, version)
            expect("question as of version %d" % version, S.check(older, reply, values), (5, 0, values))
            expect("open, question as of version %d" % version, opened(question=older), (5, None, room))


# ---- As before the salt, and before the blinding rows -----------------------------------------------


def by_rule(tag, count):
    return [(i * 2654435761 + tag * 97 + 12345) % Q for i in range(count)]


# Sizes, and SHAKE256 of table, tree and reply as the module gave them when it knew no blinding rows and no salt.
BEFORE = (
    (Sizes(1, 1, 1, 1, 1, 1, 1), "bad987192da1592a6e9f364ceab350df",
     "a15967ca44fbe4062e13b93d8f6da0c1", "e28a48b2ee7ea707b6ad552aace9dd2f"),
    (Sizes(3, 2, 2, 1, 4, 1, 3), "e053f5e1ff928a923c23d370928a4abd",
     "0cd2a4bd9011188b64d2f573c9a6be8e", "ec1bff4813803edb4c5935fb03dd720d"),
    (Sizes(4, 5, 3, 2, 5, 2, 8), "6980f8449f61fdd769183965b7a07835",
     "62c669bf0be2df1e750a54726ae4eaa0", "e3a5ca67ebd3a8f008148f23d6a9dc85"),
    (Sizes(5, 12, 4, 4, 6, 3, 1), "b10765715867393513f08a08832e5507",
     "80b95e4c8cd75234da6c74f6f4f8d131", "e761cf79694af1f079442553f60aa61d"),
    (Sizes(6, 64, 1, 7, 9, 4, 2), "c8732a60135a349595b7816c9a37dd3d",
     "8650533af954c733184ac475f170e2c7", "aac50e8abdcb73c2f7f1402f6ab8c1eb"),
    (Sizes(9, 1, 256, 1, 5, 1, 1), "875b1a8aa8acbe9ce687ed48a5f1aad9",
     "10fbc5c4da2415a1999463b6d5a73281", "0dbe2fddbcc29365ebd05ca16e69aa88"),
)  # fmt: skip


# The same of module version 2, with blinding rows and no salt.
BEFORE_SALT = (
    (Sizes(1, 1, 1, 1, 1, 1, 1, 1), "04822032d2932ccca139e9c8e116659f",
     "dd0c369889a9798d0d2c7a823e157f92", "ef8a1b0d769c467a4d80943d9085597b"),
    (Sizes(3, 2, 2, 1, 4, 1, 3, 1), "07f5e5640025f369920c5b54cb26d2ee",
     "8fbe47fc4021ac733b9d79f19b79c489", "9b88e50828ba2716078ddb2af029e525"),
    (Sizes(4, 5, 3, 2, 5, 2, 8, 3), "f679965ec66c347eb4ada40af6dedd01",
     "ea7ce631b133c53f09eecea69a82beda", "5f3df3751881888a5be95e250eda98ec"),
    (Sizes(5, 12, 4, 4, 6, 3, 1, 12), "6ba1548f530fc8a502e2a3595638edca",
     "55a7963557eb36d6022a41002522dd98", "8739e1773f77d91f55c83d5d82e23c55"),
    (Sizes(6, 48, 1, 7, 9, 4, 2, 16), "c8732a60135a349595b7816c9a37dd3d",
     "8650533af954c733184ac475f170e2c7", "aac50e8abdcb73c2f7f1402f6ab8c1eb"),
    (Sizes(9, 1, 256, 1, 5, 1, 1, 1), "17654f0535891ebeb455ebdfc5c6ff5b",
     "d506f14d56d5a2c1ecaa1813af7c1a81", "b7fb48422c31be4bc059b0aaff67d4a9"),
)  # fmt: skip


def with_version(question, version):
    """A question whose version alone is another."""
    return question[:3] + version.to_bytes(2, "little") + question[5:]


def before_question(question, version):
    """A question as version 2 had it, without its salt, or as version 1 had it, without byte 14 either."""
    question = with_version(question, version)[:47] + question[79:]
    return question if version == 2 else question[:14] + question[15:]


def tree_without_salt(s, table, nonces):
    """The tree that a commitment had before the salt: the same strings, the salt left out."""
    record = s.mu + s.beta + s.eta
    values = [table[i * record : (i + 1) * record] for i in range(2**s.h)]
    strings = [S.leaf_string(b"", i, v, nonces[32 * i : 32 * i + 32]) for i, v in enumerate(values)]
    return S.tree_of(b"", [S.digest(string) for string in strings])


def run_by_rule(s):
    """Table, tree without a salt, and the reply to a question that names that tree's root, with words by rule.

    The opener believes the tree that it is lent: what it copies from this one is what it copied before the salt.
    """
    words = [by_rule(tag, len(part)) for tag, part in enumerate(lend(s, lambda count: [0] * count))]
    nonces, salt = bytes(x % 256 for x in by_rule(4, 32 * 2**s.h)), bytes(x % 256 for x in by_rule(7, 32))
    number, table, salted = S.commit(*committing(s), *words, nonces, salt, *empty_outputs(s))
    expect("committed", number, 0)
    tree = tree_without_salt(s, table, nonces)
    expect("no digest as before", any(salted[at : at + 32] in tree for at in range(0, len(tree), 32)), False)
    indices = [2**s.h // s.l * b for b in range(s.l)]
    q = Question(s, tree[-32:], salt, by_rule(5, s.eta), by_rule(6, s.m), indices)
    question = S.write_question(q)
    number, _, reply = S.open_reply(question, *words, nonces, salt, table, tree, bytes(S.reply_length(question)[1]))
    expect("opened", number, 0)
    return S.to_bytes(table), tree, reply


def test_stored_before():
    for s, *digests in BEFORE + BEFORE_SALT:
        parts = run_by_rule(s)
        expect("as before %s" % (s,), [S.shake_256(part).hexdigest(16) for part in parts], digests)


def test_before(rng, path):
    """Tables, lengths and answers are those of the module before, and so are trees and replies but for the salt.

    A module of version 1 knows no blinding rows: there are none, then.
    """
    spec = importlib.util.spec_from_file_location("before", path, loader=SourceFileLoader("before", str(path)))
    before = importlib.util.module_from_spec(spec)
    spec.loader.exec_module(before)
    version = before.VERSION
    for _ in range(150):
        s = random_sizes(rng) if version == 2 else random_sizes(rng)._replace(beta=0)
        words = lend(s, lambda count: [rng.choice((0, Q - 1, Q, *[rng.randrange(Q)] * 60)) for _ in range(count)])
        coefficients, tails, _, masks = words
        older_words, older_sizes = (words, committing(s)) if version == 2 else ((coefficients, tails, masks), s[:6])
        nonces, salt, (table, tree) = rng.randbytes(32 * 2**s.h), rng.randbytes(32), empty_outputs(s)
        number, table, tree = S.commit(*committing(s), *words, nonces, salt, table, tree)
        older_number, older_table, older_tree = before.commit(*older_sizes, *older_words, nonces, *empty_outputs(s))
        expect("commit %s" % (s,), (number, table), (older_number, older_table))
        if number:
            continue
        expect("tree", tree_without_salt(s, table, nonces), older_tree)
        q = Question(s, tree[-32:], salt, by_rule(5, s.eta), by_rule(6, s.m), sorted(rng.sample(range(2**s.h), s.l)))
        question, believed = S.write_question(q), S.write_question(q._replace(root=older_tree[-32:]))
        older = before_question(believed, version)
        older_q = before.Question(before.Sizes(*s[: len(before.Sizes._fields)]), older_tree[-32:], *q[3:])
        expect("question", older, before.write_question(older_q))
        expect("length", S.reply_length(question), before.reply_length(older))
        buffer = bytes(S.reply_length(question)[1])
        reply = S.open_reply(question, *words, nonces, salt, table, tree, buffer)[2]
        opened = S.open_reply(believed, *words, nonces, salt, table, older_tree, buffer)
        expect("open", opened, before.open_reply(older, *older_words, nonces, table, older_tree, buffer))
        for _ in range(5):  # the same damage to a reply with a salt and to that without
            values, at, bits = [7] * (s.w * s.m), rng.randrange(len(reply)), rng.randrange(256)
            spoilt, older_spoilt = [r[:at] + bytes([r[at] ^ bits]) + r[at + 1 :] for r in (reply, opened[2])]
            expect("check", verdict_of(question, spoilt, values), before.check(older, older_spoilt, values))


def test_missing(rng):
    for h in (1, 2, 3):
        for chosen in range(1, 2 ** 2**h):
            indices = [i for i in range(2**h) if chosen >> i & 1]
            expect("missing", S.missing_nodes(h, indices), naive_missing(h, indices))
    for _ in range(100):
        h = rng.randrange(4, 8)
        indices = sorted(rng.sample(range(2**h), rng.randrange(1, 2**h)))
        expect("missing", S.missing_nodes(h, indices), naive_missing(h, indices))


def expect_length(s, indices):
    """The reply length of a question with these sizes and indices: as counted, as the check's 7 has it."""
    question = S.write_question(Question(s, bytes(32), bytes(32), [1] * s.eta, [2] * s.m, indices))
    label = "reply length %s %s" % (s, indices)
    nodes = counted_missing(s.h, indices)
    length, bound = naive_length(s, nodes), naive_length(s, s.l * s.h)
    expect(label, S.reply_length(question), (0, length))
    expect("bound, " + label, S.reply_bound(s), bound)
    expect("from one node to the bound, " + label, 1 <= nodes and length <= bound, True)
    if s.l == 1:
        expect("h nodes, " + label, nodes, s.h)
    for step in (-32, -1, 0, 1, 32):  # the root of zeros is that of no reply
        outcome = S.check(question, bytes(length + step), [3] * (s.w * s.m))[:2]
        wanted = (7, 0) if step else (8, S.permutations(question)[1])
        expect("reply of %d bytes, %s" % (length + step, label), outcome, wanted)


def test_reply_length(rng):
    for h in (1, 2, 3):
        for chosen in range(1, 2 ** 2**h - 1):  # one column: not all leaves
            indices = [i for i in range(2**h) if chosen >> i & 1]
            expect("counted", counted_missing(h, indices), len(naive_missing(h, indices)))
            expect_length(Sizes(h, 1, 1, 1, len(indices), 1, 1), indices)
    for _ in range(200):
        s = random_sizes(rng)
        expect_length(s, sorted(rng.sample(range(2**s.h), s.l)))
    for l in range(1, 65):
        s = Sizes(12, rng.randrange(16, 49), rng.randrange(1, 17), rng.randrange(1, 17), l, 4, 8, rng.randrange(17))
        expect_length(s, sorted(rng.sample(range(2**s.h), l)))
        expect_length(s, list(range(l)))
        expect_length(s, list(range(2**s.h - l, 2**s.h)))
        expect_length(s, [2**s.h // l * b for b in range(l)])


def test_question_refused():
    """Each test of the question, then two at once: the earlier one decides."""
    s = Sizes(3, 2, 1, 2, 2, 1, 1)
    good = Question(s, bytes(32), bytes(32), [1], [2], [3, 5])
    question = S.write_question(good)

    def changed(**parts):
        return S.write_question(good._replace(**parts))

    late = changed(challenges=[Q], indices=[5, 3])
    for label, data, number in (
        ("empty", b"", 6),
        ("14 bytes", question[:14], 6),
        ("14 bytes, mark", b"swq" + question[3:14], 6),
        ("mark", b"swq" + question[3:], 5),
        ("version 1", with_version(question, 1), 5),
        ("version 2", with_version(question, 2), 5),
        ("version 4", with_version(question, 4), 5),
        ("no salt", question[:47] + question[79:], 6),
        ("mark, size", b"swq" + question[3:5] + b"\0" + question[6:], 5),
        ("h is 0", question[:5] + b"\0" + question[6:], 1),
        ("w nu + l > N", changed(sizes=s._replace(w=7)), 1),
        ("beta > mu", changed(sizes=s._replace(beta=3)), 1),
        ("beta > 16", changed(sizes=s._replace(mu=40, beta=17)), 1),
        ("mu + beta > 64", changed(sizes=s._replace(mu=49, beta=16)), 1),
        ("size, length", changed(sizes=s._replace(h=13))[:-1], 1),
        ("a byte too few", question[:-1], 6),
        ("a byte too many", question + b"\0", 6),
        ("length, element", late[:-1], 6),
        ("challenge", changed(challenges=[Q]), 3),
        ("point", changed(points=[2**32 - 1]), 3),
        ("element, indices", late, 3),
        ("equal indices", changed(indices=[3, 3]), 4),
        ("falling indices", changed(indices=[5, 3]), 4),
        ("index N", changed(indices=[3, 8]), 4),
    ):
        expect("reply length, " + label, S.reply_length(data), (number, None))
        expect("permutations, " + label, S.permutations(data), (number, None))
        expect("check, " + label, S.check(data, b"", []), (number, 0, []))
    expect_length(s, good.indices)


# ---- The work of a check ----------------------------------------------------------------------------


def above_or_in(h, indices):
    """(level, node) of every node of the tree that is an opened leaf or above one."""
    nodes = [(level, node) for level in range(h + 1) for node in range(2 ** (h - level))]
    return [(level, node) for level, node in nodes if any(i >> level == node for i in indices)]


def naive_strings(q, r):
    """(level, node): its string, of all that a check hashes, from the root down."""
    known, leaves, strings = dict(zip(naive_missing(q.sizes.h, q.indices), r.nodes)), dict(zip(q.indices, r.leaves)), {}

    def digest_of(level, node):
        if (level, node) in known:
            return known[level, node]
        if level == 0:
            values, nonce = leaves[node]
            words = b"".join(value.to_bytes(4, "little") for value in values)
            string = b"\x00" + q.salt + node.to_bytes(2, "little") + words + nonce
        else:
            string = b"\x01" + q.salt + digest_of(level - 1, 2 * node) + digest_of(level - 1, 2 * node + 1)
        strings[level, node] = string
        return hashlib.shake_256(string).digest(32)

    digest_of(q.sizes.h, 0)
    return strings


def drawn_reply(rng, s, indices):
    """Question and reply in parts, of the right lengths and of elements: the root is that of no reply."""
    q = Question(s, rng.randbytes(32), rng.randbytes(32), by_rule(5, s.eta), by_rule(6, s.m), indices)
    lines = [[0] * (s.w * s.nu + s.l) for _ in range(s.eta + s.m)]
    leaves = [([rng.randrange(Q) for _ in range(s.mu + s.beta + s.eta)], rng.randbytes(32)) for _ in indices]
    nodes = [rng.randbytes(32) for _ in range(counted_missing(s.h, indices))]
    return q, S.Reply(lines[: s.eta], lines[s.eta :], leaves, nodes)


def expect_work(rng, s, indices):
    """What a check of drawn bytes hashes: every opened leaf and node above one, the root too, and each once."""
    q, r = drawn_reply(rng, s, indices)
    question, label = S.write_question(q), "work of %s %s, " % (s, indices)
    (number, count, _), strings = hashed(S.check, question, S.write_reply(r), [0] * (s.w * s.m))
    wanted, nodes = naive_strings(q, r), above_or_in(s.h, indices)
    expect(label + "nodes", (sorted(wanted), len(r.nodes)), (nodes, len(nodes) - 2 * s.l + 1))
    expect(label + "strings", sorted(strings), sorted(wanted.values()))
    leaf, node = 67 + 4 * (s.mu + s.beta + s.eta), 97
    each = (leaf // 136 + 1) * s.l + (node // 136 + 1) * (len(nodes) - s.l)
    expect(label + "count", (number, count, naive_permutations(strings)), (8, each, each))
    expect(label + "count asked for", S.permutations(question), (0, each))
    reached = s.l == 1 and s.mu + s.beta + s.eta >= 52
    expect(label + "bound", count == s.l * (3 + s.h) if reached else count < s.l * (3 + s.h), True)


def test_work_of_sets(rng):
    """Every set of leaves that can be opened of up to 16: one place at least is a column's."""
    for h in (1, 2, 3, 4):
        for chosen in range(1, 2 ** 2**h - 1):
            indices = [i for i in range(2**h) if chosen >> i & 1]
            expect_work(rng, Sizes(h, 1, 1, 1, len(indices), 1, 1), indices)


def test_work_of_sizes(rng):
    for _ in range(200):
        s = random_sizes(rng)
        expect_work(rng, s, sorted(rng.sample(range(2**s.h), s.l)))
    for h in range(1, 11):
        for l in (1, 2, 5, 33, 63, 64):
            if l < 2**h:
                beta = rng.randrange(17)
                s = Sizes(h, rng.randrange(max(beta, 1), 65 - beta), 1, 1, l, rng.randrange(1, 5), 1, beta)
                for indices in (range(l), range(2**h - l, 2**h), range(0, 2**h // l * l, 2**h // l)):
                    expect_work(rng, s, list(indices))
    for mu in range(1, 65):
        for beta in {0, 1, min(mu, 16, 64 - mu)}:
            if mu + beta <= 64:
                expect_work(rng, Sizes(2, mu, 1, 1, 1, rng.randrange(1, 5), 1, beta), [rng.randrange(4)])


def work_of(h, values, indices):
    """By the entry for planners, with so many values in a leaf."""
    beta = min(16, (values - 4) // 2)
    s = Sizes(h, values - 4 - beta, 1, 1, len(indices), 4, 1, beta)
    return S.permutations(S.write_question(Question(s, bytes(32), bytes(32), [1] * 4, [2], indices)))


def test_work_by_hand():
    for values, leaf, blocks in ((17, 135, 1), (18, 139, 2), (51, 271, 2), (52, 275, 3), (68, 339, 3)):
        string = S.leaf_string(bytes(32), 0, [0] * values, bytes(32))
        expect("leaf string of %d values" % values, (len(string), naive_permutations([string])), (leaf, blocks))
        expect("%d values, h 1" % values, work_of(1, values, [1]), (0, blocks + 1))
        expect("%d values, h 12" % values, work_of(12, values, [4095]), (0, blocks + 12))
        expect("%d values, a pair" % values, work_of(3, values, [6, 7]), (0, 2 * blocks + 1 + 1 + 1))
        expect("%d values, far apart" % values, work_of(3, values, [0, 7]), (0, 2 * blocks + 2 + 2 + 1))
        expect("%d values, four" % values, work_of(3, values, [0, 1, 2, 3]), (0, 4 * blocks + 2 + 1 + 1))
        expect("%d values, 64 leaves" % values, work_of(12, values, list(range(64))), (0, 64 * blocks + 63 + 6))
        spread = list(range(0, 4096, 64))
        expect("%d values, 64 far apart" % values, work_of(12, values, spread), (0, 64 * blocks + 64 * 6 + 63))


def test_work_of_verdicts(rng):
    """Of one question: the same for every verdict after hashing, none and no string before it."""
    for s in [random_sizes(rng) for _ in range(40)] + [Sizes(4, 48, 1, 2, 3, 4, 2, 16), P_SIZES]:
        words = lend(s, lambda count: [rng.randrange(Q) for _ in range(count)])
        lent = *words, rng.randbytes(32 * 2**s.h), rng.randbytes(32)
        _, table, tree = S.commit(*committing(s), *lent, *empty_outputs(s))
        indices = sorted(rng.sample(range(1, 2**s.h), s.l))  # leaf 0 would see of R a constant alone
        q = Question(s, tree[-32:], lent[-1], [1] * s.eta, [2] * s.m, indices)
        question = S.write_question(q)
        reply = S.open_reply(question, *lent, table, tree, bytes(S.reply_length(question)[1]))[2]
        answers, records = 4 * s.eta * (s.w * s.nu + s.l), 4 * (s.eta + s.m) * (s.w * s.nu + s.l)
        values, count = [7] * (s.w * s.m), naive_permutations(naive_strings(q, S.read_reply(s, reply)).values())

        def with_word(at, word):
            return reply[:at] + word.to_bytes(4, "little") + reply[at + 4 :]

        def lower(at):
            """Another element at this place."""
            word = int.from_bytes(reply[at : at + 4], "little")
            return with_word(at, word - 1 if word else 1)

        for label, number, other, buffer in (
            ("honest", 0, reply, values),
            ("node", 8, reply[:-1] + bytes([reply[-1] ^ 1]), values),
            ("leaf", 8, lower(records), values),
            ("R", 9, lower(0), values),
            ("R and T", 9, lower(0)[:answers] + lower(answers)[answers:], values),
            ("T", 10, lower(answers), values),
            ("element in R", 3, with_word(0, Q), values),
            ("element in the last leaf", 3, with_word(records + (4 * s.record + 32) * s.l - 36, Q), values),
            ("shorter", 7, reply[:-1], values),
            ("longer", 7, reply + b"\0", values),
            ("no reply", 7, b"", values),
            ("no buffer", 2, reply, []),
            ("longer buffer", 2, b"", values + [7]),
        ):
            (found, work, _), strings = hashed(S.check, question, other, buffer)
            hashing = number in (0, 8, 9, 10)
            expect("work, %s" % label, (found, work), (number, count if hashing else 0))
            expect("strings, %s" % label, naive_permutations(strings), count if hashing else 0)
            expect("for C, %s" % label, S.check_c(question, other, bytes(4 * len(buffer)))[0], number)
        for number, bad in (
            (6, question[:-1]),
            (5, b"swq" + question[3:]),
            (1, question[:5] + b"\0" + question[6:]),
            (3, question[:79] + b"\xff" * 4 + question[83:]),
            (4, question[:-2] + b"\xff" * 2),
        ):
            (found, work, _), strings = hashed(S.check, bad, reply, values)
            expect("work of a refused question", (found, work, strings), (number, 0, []))


def random_sizes(rng):
    h = rng.randrange(1, 6)
    width = rng.randrange(2, min(2**h, 20) + 1)
    l = rng.randrange(1, width)
    w = rng.randrange(1, width - l + 1)
    nu = rng.randrange(1, (width - l) // w + 1)
    mu = rng.randrange(1, 6)
    beta = rng.choice((0, 1, mu, rng.randrange(mu + 1)))
    return Sizes(h, mu, nu, w, l, rng.randrange(1, 5), rng.randrange(1, 9), beta)


def test_completeness(rng, rounds):
    for _ in range(rounds):
        s = random_sizes(rng)
        fill = lambda count: [rng.choice((0, 1, Q - 1, rng.randrange(Q))) for _ in range(count)]
        words, nonces, salt = lend(s, fill), rng.randbytes(32 * 2**s.h), rng.randbytes(32)
        lent = *words, nonces, salt
        number, table, tree = S.commit(*committing(s), *lent, *empty_outputs(s))
        expect("committed %s" % (s,), number, 0)
        expect("table", table, naive_table(s, *words))
        expect("polynomials that the rows hold", held(s, table), words[0])
        expect("tree", tree, naive_tree(s, salt, table, nonces))
        digests = [tree[32 * i : 32 * i + 32] for i in range(2**s.h)]
        record = s.mu + s.beta + s.eta
        points = [rng.choice((0, Q - 1, rng.randrange(Q))) for _ in range(s.m)]
        indices = sorted(rng.sample(range(2**s.h), s.l))
        q = Question(s, tree[-32:], salt, fill(s.eta), points, indices)
        question = S.write_question(q)
        expect("question read back", S.read_question(question), (0, q))
        nodes = naive_missing(s.h, indices)
        length = naive_length(s, len(nodes))
        expect("reply length", S.reply_length(question), (0, length))
        number, true_length, reply = S.open_reply(question, *lent, table, tree, bytes(length))
        expect("opened", (number, true_length, len(reply)), (0, length, length))
        for size in {0, length - 32, length - 1, length + 1, length + 32, S.reply_bound(s)} - {length}:
            before = rng.randbytes(size)
            refused = S.open_reply(question, *lent, table, tree, before)
            expect("buffer of %d bytes" % size, refused, (2, None, before))
        r = S.read_reply(s, reply)
        expect("reply read back", S.write_reply(r), reply)
        opened = [table[i * record : (i + 1) * record] for i in indices]
        expect("leaf values", [values for values, _ in r.leaves], opened)
        expect("nodes", r.nodes, [naive_node(salt, digests, level, i) for level, i in nodes])
        values = true_values(s, words[0], points)
        expect("check", verdict_of(question, reply, [1] * (s.w * s.m)), (0, values))
        expect("check for C", S.check_c(question, reply, bytes(4 * s.w * s.m)), (0, S.to_bytes(values)))
        shown = "".join("%d %d %d\n" % (a // s.w + 1, a % s.w + 1, v) for a, v in enumerate(values))
        expect("program", S.program(question + reply), b"verdict 0\n" + shown.encode())
        spoilt = bytes([reply[0] ^ 1]) + reply[1:]
        wanted = 9 if S.elements(S.to_words(spoilt[:4])) else 3
        expect("spoilt", verdict_of(question, spoilt, [1] * (s.w * s.m)), (wanted, [1] * (s.w * s.m)))


# ---- Proofs -----------------------------------------------------------------------------------------


def test_choosing(rng):
    """Every sequence of ranks over few leaves, then words at the borders of their remainders."""
    for leaves, count in ((2, 1), (4, 1), (4, 2), (4, 3), (8, 3)):
        for ranks in product(*(range(leaves - j) for j in range(count))):
            words = [rank + rng.randrange(2**60) * (leaves - j) for j, rank in enumerate(ranks)]
            expect("choosing %s of %d" % (ranks, leaves), S.choose(leaves, words), naive_choose(leaves, words))
    for leaves, count in ((2, 1), (8, 7), (128, 64), (4096, 64), (4096, 1)):
        first = [0] * count
        last = [leaves - j - 1 for j in range(count)]
        turns = [last[j] if j % 2 else 0 for j in range(count)]
        most = [2**64 // (leaves - j) * (leaves - j) for j in range(count)]  # the last multiple, or 2^64 itself
        expect("ranks 0", S.choose(leaves, first), list(range(count)))
        expect("last ranks", S.choose(leaves, last), list(range(leaves - count, leaves)))
        for words in (turns, [2**64 - 1] * count, [x - 1 for x in most], [x % 2**64 for x in most]):
            expect("choosing at borders", S.choose(leaves, words), naive_choose(leaves, words))
        expect("moduli N - j", S.choose(leaves, [leaves - j for j in range(count)]), list(range(count)))
        for _ in range(20):
            words = [rng.randrange(2**64) for _ in range(count)]
            found = S.choose(leaves, words)
            expect("choosing", found, naive_choose(leaves, words))
            expect("different, rising, below N", found, sorted(set(found) & set(range(leaves))))
            expect("as many as words", len(found), count)
    expect("ranks among the unused", S.choose(8, [3, 3, 3]), [3, 4, 5])


def test_qualifying():
    for first in range(24):  # the place of the first bit that is 1
        for rest in (0, 0x5A5A5A, 0xFFFFFF):
            bits = (1 << 24 >> (first + 1)) | (rest & ((1 << 24 >> (first + 1)) - 1))
            draw = bits.to_bytes(3, "big") + bytes(29)
            for kappa in range(17):
                expect("first bit %d" % first, S.qualifies(draw, kappa), kappa <= first)
                expect("bits", S.qualifies(draw, kappa), naive_bits(draw)[:kappa] == "0" * kappa)


def change_proof(proof, counter):
    return counter.to_bytes(4, "little") + proof[4:]


def refit(s, question, lent, table, tree, proof, counter):
    """The proof that has this counter, whether it qualifies or not: leaves and nodes are those then drawn."""
    other = change_proof(proof, counter)
    drawn = naive_question(s, question, other)
    length = S.reply_length(drawn)[1]
    return counter.to_bytes(4, "little") + S.open_reply(drawn, *lent, table, tree, bytes(length))[2]


def expect_proof(rng, s, lent, table, tree, points, kappa):
    """One honest proof: what the papers say of it, against the naive definitions."""
    label = "proof, kappa %d, %s: " % (kappa, s)
    question = S.write_header(s) + tree[-32:] + lent[-1] + b"".join(z.to_bytes(4, "little") for z in points)
    bound = 4 + naive_length(s, s.l * s.h)
    before = rng.randbytes(bound)
    number, length, after = S.prove(question, kappa, 2**32 - 1, *lent, table, tree, before)
    expect(label + "made", number, 0)
    proof = after[:length]
    expect(label + "bytes after it", after[length:], before[length:])
    counter = int.from_bytes(proof[:4], "little")
    least = next(c for c in range(counter + 1) if naive_qualifies(s, question, change_proof(proof, c), kappa))
    expect(label + "least counter", counter, least)
    drawn = naive_question(s, question, proof)
    expect(label + "drawn question", S.read_question(drawn)[0], 0)
    expect(label + "length", S.reply_length(drawn), (0, length - 4))
    opened = S.open_reply(drawn, *lent, table, tree, bytes(length - 4))
    expect(label + "counter, then the reply", opened, (0, length - 4, proof[4:]))
    values = true_values(s, lent[0], points)
    blank = [7] * (s.w * s.m)
    expect(label + "conversation", verdict_of(drawn, proof[4:], blank), (0, values))
    expect(label + "values", S.check_proof(question, kappa, proof, blank), (0, values))
    found = S.check_proof_c(question, kappa, proof, bytes(4 * s.w * s.m))
    expect(label + "values for C", found, (0, S.to_bytes(values)))
    none = S.prove(question, kappa, counter, *lent, table, tree, before)
    expect(label + "no counter below", none, (11, None, before))
    again = S.prove(question, kappa, counter + 1, *lent, table, tree, before)
    expect(label + "one counter more", again, (0, length, after))
    expect(label + "limit 0", S.prove(question, kappa, 0, *lent, table, tree, before), (11, None, before))
    for other in {counter + 1, counter + 2, counter + 3, 2**32 - 1} | set(range(counter)[-3:]):
        refitted = refit(s, question, lent, table, tree, proof, other)
        wanted = (0, values) if naive_qualifies(s, question, refitted, kappa) else (12, blank)
        expect(label + "counter %d" % other, S.check_proof(question, kappa, refitted, blank), wanted)
    later = next(c for c in range(counter + 1, 2**32) if naive_qualifies(s, question, change_proof(proof, c), kappa))
    refitted = refit(s, question, lent, table, tree, proof, later)
    expect(label + "later counter", S.check_proof(question, kappa, refitted, blank), (0, values))
    for cut in {0, 1, 2, 3, 4, 3 + S.answer_bytes(s), 4 + S.answer_bytes(s), length - 32, length - 1}:
        expect(label + "cut at %d" % cut, S.check_proof(question, kappa, proof[:cut], blank), (7, blank))
    for more in (1, 32):
        longer = proof + bytes(more)
        expect(label + "%d bytes more" % more, S.check_proof(question, kappa, longer, blank), (7, blank))
    for size in {0, bound - 1, bound + 1, length} - {bound}:
        buffer = rng.randbytes(size)
        found = S.prove(question, kappa, 2**32 - 1, *lent, table, tree, buffer)
        expect(label + "buffer of %d bytes" % size, found, (2, None, buffer))
    expect_order(label, s, question, proof, kappa, drawn)


def expect_order(label, s, question, proof, kappa, drawn):
    """Two faults at once: the earlier test decides."""
    blank = [7] * (s.w * s.m)

    def expect_number(what, number, question=question, kappa=kappa, proof=proof, words=blank):
        expect(label + what, S.check_proof(question, kappa, proof, words), (number, words))

    bad_point = question[:79] + b"\xff" * 4 + question[83:]
    bad_record = proof[: 4 + S.answer_bytes(s)] + b"\xff" * 4 + proof[8 + S.answer_bytes(s) :]
    expect_number("a conversation's question", 6, question=drawn)
    expect_number("14 bytes", 6, question=question[:14], kappa=17)
    expect_number("mark, kappa", 5, question=b"swq" + question[3:], kappa=17)
    for above in (17, 255, 2**32 - 1):
        expect_number("kappa, length", 1, question=question[:-1], kappa=above)
    expect_number("length, point", 6, question=bad_point + b"\0")
    expect_number("point, buffer", 3, question=bad_point, words=[])
    expect_number("buffer, length", 2, proof=b"", words=blank + [1])
    expect_number("length, element", 7, proof=bad_record + b"\0")
    expect_number("element", 3, proof=bad_record)


def test_proofs(rng, rounds):
    for n in range(rounds):
        s = random_sizes(rng)
        words = lend(s, lambda count: [rng.randrange(Q) for _ in range(count)])
        lent = *words, rng.randbytes(32 * 2**s.h), rng.randbytes(32)
        number, table, tree = S.commit(*committing(s), *lent, *empty_outputs(s))
        points = [rng.choice((0, Q - 1, rng.randrange(Q))) for _ in range(s.m)]
        expect_proof(rng, s, lent, table, tree, points, n % 10)
    lent = *P_LENT, bytes(64), bytes(32)
    number, table, tree = S.commit(*committing(P_SIZES), *lent, *empty_outputs(P_SIZES))
    for kappa in range(17):
        expect_proof(rng, P_SIZES, lent, table, tree, [6], kappa)


def test_question_parts():
    """The draws hash the bytes of the question and of the answers as they are lent."""
    s = Sizes(3, 2, 1, 2, 2, 2, 2, 1)
    p = ProofQuestion(s, bytes(range(32)), bytes(range(32, 64)), [5, Q - 1])
    question = S.write_proof_question(p)
    expect("proof's question", len(question), 15 + 32 + 32 + 4 * 2)
    expect("read back", S.read_proof_question(question, 16), (0, p))
    answers = b"\xff" * S.answer_bytes(s)  # no elements
    proof = b"\1\2\3\4" + answers
    start, gammas, indices = naive_draw(s, question, proof)
    draw = S.leaf_draw(p, S.leaf_draws(p, answers), 0x04030201)
    expect("draw of what is no element", draw[:32], start)
    drawn = S.question_by_draw(p, draw)
    expect("challenges and indices", (drawn.challenges, drawn.indices), (gammas, indices))
    expect("root, salt and points", (drawn.sizes, drawn.root, drawn.salt, drawn.points), tuple(p))


# ---- Interpolation for others -----------------------------------------------------------------------

BORDERS = (1, 2, 3, 7, 8, 9, 15, 16, 17, 319, 320)  # numbers of points


def different(rng, count):
    """So many points, in any order: the field's ends, neighbours and others."""
    near = rng.randrange(10, Q - count - 10)
    chosen = {0, 1, Q - 1, Q - 2, near, near + 1}
    while len(chosen) < count:
        chosen.add(rng.randrange(Q))
    return rng.sample(sorted(chosen), count)


def values_at(coefficients, points):
    """By Horner's rule, all points at once."""
    values = [0] * len(points)
    for c in coefficients[::-1]:
        values = [(value * x + c) % Q for value, x in zip(values, points)]
    return values


def expect_interpolated(label, points, values, wanted=None):
    """The slice is filled whatever stood in it, with elements that give the values, and in any order of the points."""
    before = [2**32 - 1] * len(points)
    number, found = S.interpolate(points, values, before)
    expect(label + ": number", number, 0)
    expect(label + ": lent slice", before, [2**32 - 1] * len(points))
    expect(label + ": as many elements as points", (len(found), max(found) < Q), (len(points), True))
    expect(label + ": values", values_at(found, points), values)
    expect(label + ": in reverse", S.interpolate(points[::-1], values[::-1], [0] * len(points)), (0, found))
    if wanted is not None:
        expect(label + ": coefficients", found, wanted)


def test_interpolate(rng):
    expect("2 + 3 X", S.interpolate([0, 1], [2, 5], [7, 7]), (0, [2, 3]))
    expect("X^2", S.interpolate([3, Q - 1, 10], [9, 1, 100], [7, 7, 7]), (0, [0, 0, 1]))
    expect("a constant", S.interpolate([Q - 1], [Q - 1], [Q]), (0, [Q - 1]))
    for _ in range(120):
        points = different(rng, rng.randrange(1, 9))
        values = [rng.choice((0, Q - 1, rng.randrange(Q))) for _ in points]
        expect_interpolated("solved", points, values, solved(points, values))
    for count in BORDERS:
        for points in different(rng, count), list(range(count)), list(range(Q - count, Q)):
            label = "%d points from %d" % (count, points[0])
            expect_interpolated(label, points, [rng.randrange(Q) for _ in points])
            wanted = [rng.randrange(Q) for _ in points]
            expect_interpolated(label + ", drawn coefficients", points, values_at(wanted, points), wanted)
        for degree in sorted({0, count // 2, count - 1}):
            power = [0] * degree + [1] + [0] * (count - degree - 1)
            expect_interpolated("X^%d" % degree, points, [pow(x, degree, Q) for x in points], power)
        expect_interpolated("values 0", points, [0] * count, [0] * count)
    for count in range(2, 18):
        points, before = different(rng, count), [rng.randrange(2**32) for _ in range(count)]
        values = [rng.randrange(Q) for _ in points]
        for first in range(count):
            for second in range(first + 1, count):
                equal = points[:second] + [points[first]] + points[second + 1 :]
                expect("points %d, %d equal" % (first, second), S.interpolate(equal, values, before), (13, before))
                if count < 6:
                    expect("no solution, or many", solved(equal, values), None)


def test_interpolate_refused():
    """Each test with every combination of later faults: the earliest decides."""
    spoiled = (None, ("points", 0, Q), ("points", -1, 2**32 - 1), ("values", 0, 2**32 - 1), ("values", -1, Q))
    for count, steps, spoil, equal in product(
        (0, 321, 1024, 1, 2, 3, 319, 320), product((-1, 0, 1), repeat=2), spoiled, (False, True)
    ):
        values, room = [max(0, count + step) for step in steps]
        given, before = {"points": list(range(count)), "values": list(range(values))}, [5] * room
        number = 0
        if equal and count > 1:
            given["points"][-1] = given["points"][0]
            number = 13
        if spoil and given[spoil[0]]:
            part, at, word = spoil
            given[part][at] = word
            number = 3
        if not count == values == room:
            number = 2
        if not 0 < count < 321:
            number = 1
        label = "%d points, %d values, room for %d, word %s, equal %s" % (count, values, room, spoil, equal)
        found, after = S.interpolate(**given, coefficients=before)
        expect(label, (found, after if number else before), (number, before))
    for points, values, number in (([Q, Q], [1, 2], 3), ([4, 4], [1, Q], 3), ([4, 4], [1, 1], 13), ([4, 4], [1], 2)):
        expect("points %s, values %s" % (points, values), S.interpolate(points, values, [8, 9]), (number, [8, 9]))


def main():
    parser = Arguments(__doc__)
    parser.add_argument("--before", metavar="FILE", type=present, help="an older smallwood.py")
    before = parser.parse_args().before
    rng = random.Random(1)
    if before:
        test_before(rng, before)
    test_small_instances()
    test_case_p()
    test_hash()
    test_interpolation(rng)
    test_columns(rng)
    test_blinding_sizes()
    test_lent_blinds(rng)
    test_salted_strings(rng)
    test_salts(rng)
    test_stored_before()
    test_missing(rng)
    test_reply_length(rng)
    test_question_refused()
    test_work_by_hand()
    test_work_of_sets(rng)
    test_work_of_sizes(rng)
    test_work_of_verdicts(rng)
    test_completeness(rng, 150)
    test_choosing(rng)
    test_qualifying()
    test_question_parts()
    test_proofs(rng, 60)
    test_interpolate(rng)
    test_interpolate_refused()
    print("%(passed)d passed, %(failed)d failed" % counts)
    return 1 if counts["failed"] else 0


if __name__ == "__main__":
    sys.exit(main())
