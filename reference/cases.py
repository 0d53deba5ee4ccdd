"""Test inputs with their expected outcomes, for comparing a compiled implementation with the reference.

    python3 cases.py        makes every case, prints counts, seconds and a digest of all cases

Everything is deterministic. Where the construction of a case tells the verdict (or the values), that is
asserted against smallwood.py while the case is made, so that a run of this file is a test of it too.
Calls of the other entries are in calls.py, those of prover and check of a proof in proofs.py, those of the
interpolation in interpolations.py.
"""

import sys
import time
from collections import namedtuple
from hashlib import shake_256
from itertools import combinations

import smallwood as S
from arguments import Arguments
from calls import (
    SALT_LENGTHS, blinded_sizes, commit_calls, exchanged_salt, length_calls, open_calls, other_salts,
    permutations_calls, salt_of, version_1, version_2, with_version, without_salt,
)  # fmt: skip
from drafts import (
    LAST_WORD, Lent, Source, allowed, ask, border_sizes, case_p, committed, ends, honest, large_drafts,
    leaf_sizes, lend, name, prefill, product, random_commitment, simulated, small_drafts, small_proofs, true_values,
    vanishing,
)  # fmt: skip
from faults import (
    BAD_MARKS, BAD_SIZES, STAGES, faulty, levels_with, place_faults, spoil, wrong_batchings, wrong_lines, wrong_strings,
)  # fmt: skip
from interpolations import interpolate_calls
from proofs import PROOF_GROUPS, prove_calls
from smallwood import Q, Sizes

# The value buffer is given in bytes, before and after the call. The check's entry on words is meant too
# whenever 4 divides its length; otherwise the case is for the entry for C alone. That one returns no permutations.
CheckCase = namedtuple("CheckCase", "label question reply buffer number permutations after")

HASHED = (0, 8, 9, 10)  # the verdicts after hashing

ProgramCase = namedtuple("ProgramCase", "label input output")


def value_bytes(question):
    """The right length of the value buffer for C; some length if the header is refused."""
    s = S.read_header(question)[1] if len(question) >= S.HEADER_BYTES else None
    return 4 * s.w * s.m if s else 8


def check_case(label, question, reply, number=None, values=None, size=None):
    """A case; number and values are what its construction tells, None where the reference decides."""
    before = prefill(value_bytes(question) if size is None else size)
    found, after = S.check_c(question, reply, before)
    assert number is None or found == number, (label, found, number)
    assert values is None or after == S.to_bytes(values), label
    assert found == 0 or after == before, label
    count = 0
    if len(before) % 4 == 0:
        *outcome, words = S.check(question, reply, S.to_words(before))
        count = S.permutations(question)[1] if found in HASHED else 0
        assert (outcome, S.to_bytes(words)) == ([found, count], after), (label, outcome, count)
    return CheckCase(label, question, reply, before, found, count, after)


def draft_case(label, draft, number=None):
    values = draft.values() if number == 0 else None
    return check_case("%s [%s]" % (label, name(draft.sizes)), draft.question(), draft.reply(), number, values)


# ---- Honest replies ---------------------------------------------------------------------------------

EXTREMES = (
    Sizes(1, 1, 1, 1, 1, 1, 8),
    Sizes(1, 64, 1, 1, 1, 4, 8),
    Sizes(2, 64, 1, 3, 1, 4, 1),
    Sizes(2, 64, 1, 1, 3, 1, 8),
    Sizes(3, 2, 1, 4, 4, 2, 2),
    Sizes(6, 64, 63, 1, 1, 4, 8),
    Sizes(6, 2, 1, 63, 1, 4, 3),
    Sizes(7, 64, 8, 8, 64, 4, 8),
    Sizes(8, 2, 192, 1, 64, 3, 2),
    Sizes(8, 1, 5, 51, 1, 1, 8),
    Sizes(9, 1, 256, 1, 64, 1, 8),
    Sizes(9, 1, 1, 256, 64, 4, 2),
    Sizes(9, 3, 16, 16, 1, 2, 3),
    Sizes(12, 1, 1, 1, 1, 1, 1),
    Sizes(12, 1, 1, 256, 64, 1, 1),
    Sizes(12, 64, 256, 1, 64, 4, 8),
    Sizes(1, 1, 1, 1, 1, 1, 8, 1),
    Sizes(2, 32, 1, 3, 1, 4, 1, 16),
    Sizes(6, 48, 63, 1, 1, 4, 8, 16),
    Sizes(8, 2, 192, 1, 64, 3, 2, 2),
    Sizes(8, 1, 5, 51, 1, 1, 8, 1),
    Sizes(9, 16, 1, 256, 64, 4, 2, 16),
)


def honest_case(label, c, q):
    d = honest(c, q)
    return check_case("%s [%s]" % (label, name(q.sizes)), d.question(), d.reply(), 0, true_values(c, q))


def honest_cases():
    for n in range(200):
        src = Source("honest %d" % n)
        s = src.sizes()
        c = committed(s, lend(src, s, src.edgy if n % 2 else src.elements))
        yield honest_case("honest %d" % n, c, ask(src, c))
        q = ask(src, c, challenges=src.edgy(s.eta), points=src.edgy(s.m))
        yield honest_case("honest %d, edges" % n, c, q)
    for s in EXTREMES:
        src, c = Source("extreme " + name(s)), random_commitment(s)
        first, last = list(range(s.l)), list(range(s.leaves - s.l, s.leaves))
        spread = [s.leaves // s.l * b for b in range(s.l)]
        z = src.nonzero()
        repeated = [0, z, 0, Q - 1, z, 1, z, 0][: s.m]
        yield honest_case("extreme, drawn leaves", c, ask(src, c))
        q = ask(src, c, points=repeated, indices=first)
        yield honest_case("extreme, first leaves, repeated points", c, q)
        q = ask(src, c, challenges=[Q - 1] * s.eta, indices=last)
        yield honest_case("extreme, last leaves, equal challenges", c, q)
        q = ask(src, c, 8, challenges=[0] * s.eta, points=[0] * 8, indices=spread)
        yield honest_case("extreme, spread leaves, zeros", c, q)
    for s in leaf_sizes():
        c = random_commitment(s)
        yield honest_case("leaf of %d values" % s.record, c, ask(Source("leaf " + name(s)), c))
    s = Sizes(3, 3, 2, 1, 2, 2, 3)
    for word in (0, 1, Q - 1):
        src = Source("constant %d" % word)
        c = committed(s, lend(src, s, lambda count: [word] * count))
        yield honest_case("all words %d" % word, c, ask(src, c))
        q = ask(src, c, challenges=[word] * s.eta, points=[word] * s.m)
        yield honest_case("all words %d, challenges and points too" % word, c, q)
    for s in (Sizes(3, 2, 2, 1, 3, 2, 2), Sizes(1, 1, 1, 1, 1, 1, 1), Sizes(4, 2, 2, 2, 1, 1, 1)):
        src, c = Source("sets " + name(s)), random_commitment(s)
        for indices in combinations(range(s.leaves), s.l):
            yield honest_case("leaves %s" % (indices,), c, ask(src, c, indices=list(indices)))


# ---- Faults -----------------------------------------------------------------------------------------


def place_cases():
    """One fault, at the first and last places."""
    for n, d in enumerate(small_drafts() + large_drafts()):
        for label, e, number in place_faults(Source("place %d" % n), d):
            yield draft_case("fault: " + label, e, number)
    for n in range(20):
        src = Source("small place %d" % n)
        s = src.sizes(4, 4, 12)
        challenges, points = [[src.nonzero() for _ in range(count)] for count in (s.eta, s.m)]
        d = simulated(src, s, challenges=challenges, points=points)
        for label, e, number in place_faults(src, d):
            if src.below(3) == 0:
                yield draft_case("fault: simulated %d, %s" % (n, label), e, number)


def fault_case(d, faults, v):
    """Several faults: the test that comes first decides."""
    number = next(number for stage, number in STAGES if stage in faults)
    label = "faults: %s; variant %d [%s]" % (", ".join(faults), v, name(d.sizes))
    question, reply, size = faulty(d, faults, v)
    return check_case(label, question, reply, number, None, size)


def fault_cases():
    stages = [stage for stage, _ in STAGES]
    for n, d in enumerate(small_drafts()):
        for stage in stages:
            for v in range(len(BAD_SIZES) if n in (0, 5) else 4):
                yield fault_case(d, [stage], v)
        for v, pair in enumerate(combinations(stages, 2)):
            yield fault_case(d, pair, v + n)
    src = Source("faults")
    for n in range(200):
        faults = [stage for stage in stages if src.below(3) == 0] or ["root"]
        yield fault_case(src.pick(small_drafts()), faults, src.below(84))
    for v, stage in enumerate(stages):
        yield fault_case(large_drafts()[v % 2], [stage], v + 1)


# ---- Forged replies ---------------------------------------------------------------------------------


def second_encodings():
    """An honest draft of elements below 5, then one element x written as x + q at every place in turn."""
    s = Sizes(3, 1, 2, 1, 2, 2, 2)
    src = Source("second encoding")
    for word in (0, 1):
        label = "second encoding: word %d, " % word
        lent = Lent([word] * 2, [word] * 2, [], [2, 0, 0, 0, 1, 0, 0, 0], src.bytes(256), src.bytes(32))
        c = committed(s, lent)
        d = honest(c, ask(src, c, challenges=[1, 0], points=[0, 1], indices=[2, 7]))
        yield draft_case(label + "none", d, 0)
        for part in ("challenges", "points"):
            for at in range(2):
                e = d.copy()
                getattr(e, part)[at] += Q
                yield draft_case(label + "%s %d" % (part, at), e, 3)
        for part in ("batchings", "answers"):
            for at in range(2):
                for x in range(s.width):
                    e = d.copy()
                    getattr(e, part)[at][x] += Q
                    yield draft_case(label + "%s %d word %d" % (part, at, x), e, 3)
        for b in range(s.l):
            for at in range(s.record):
                e = d.copy()
                e.leaves[b][0][at] += Q
                yield draft_case(label + "leaf %d value %d" % (b, at), e, 3)
                yield draft_case(label + "leaf %d value %d, rehashed" % (b, at), e.rehash(), 3)


def shifted_cases(src, c, q, d):
    """R and T moved by what vanishes at the opened leaves: accepted, for T with false values."""
    s, zero = d.sizes, vanishing(d.indices)

    def multiple():
        return product(zero, src.elements(src.between(1, s.columns)))

    for k in range(s.eta):
        e = d.copy().shift_batching(k, multiple())
        yield draft_case("forged: R %d shifted, right at the leaves" % k, e, 0)
    for p in range(s.m):
        e = d.copy().shift_answer(p, multiple())
        assert e.values() != true_values(c, q)
        yield draft_case("forged: T %d shifted, right at the leaves, false values" % p, e, 0)
        e = d.copy()
        e.answers[p][s.columns :] = src.elements(s.l)
        yield draft_case("forged: answer %d right at the value points only" % p, e, 10)
        e = d.copy()
        e.answers[p][: s.columns] = src.elements(s.columns)
        yield draft_case("forged: answer %d right at the tail points only" % p, e, 10)
        e = d.copy()
        e.answers[p] = [0] * s.width
        yield draft_case("forged: answer %d all zero" % p, e, 10)


def mistaken_cases(c, q, d):
    """Mistakes in the batching, in the hashed strings, in the order of the nodes."""
    s = d.sizes
    for label, batchings in wrong_batchings(c, q):
        e = d.copy()
        e.batchings = batchings
        yield draft_case("forged: " + label, e, 9 if e.batchings != d.batchings else 0)
        for k in ends(s.eta):
            e = d.copy()
            e.batchings[k] = batchings[k]
            number = 9 if e.batchings != d.batchings else 0
            yield draft_case("forged: %s in repetition %d" % (label, k), e, number)
    for label, leaf, node in wrong_strings():
        levels = levels_with(c, leaf, node)
        e = d.copy()
        e.root = levels[-1][0]
        e.nodes = [levels[level][i] for level, i in S.missing_nodes(s.h, e.indices)]
        yield draft_case("forged: " + label, e, 8)
    e = d.copy()
    e.nodes.reverse()
    yield draft_case("forged: nodes from the root down", e, 8)
    for count in range(1, 4):
        e = d.copy()
        e.nodes = e.nodes[:-count]
        yield draft_case("forged: %d nodes too few" % count, e, 7)


def exchanged_cases(src, d):
    """Leaves drawn anew, with the root to fit; then also R, then also the answers."""
    for b in ends(d.sizes.l):
        e = d.copy()
        e.leaves[b] = src.elements(d.sizes.record), src.bytes(32)
        yield draft_case("forged: leaf %d drawn, rehashed" % b, e.rehash(), 9)
    other = simulated(src, d.sizes, challenges=d.challenges, points=d.points, indices=d.indices)
    e = d.copy()
    e.leaves = other.leaves
    yield draft_case("forged: other leaves, rehashed", e.rehash(), 9)
    e.batchings = other.batchings
    yield draft_case("forged: other leaves and R, rehashed", e, 10)
    e.answers = other.answers
    yield draft_case("forged: other leaves, R and answers, rehashed", e, 0)


def unseen_cases():
    """Row differences that the challenges or the points do not see; freedom that few leaves leave."""
    s = Sizes(4, 8, 2, 1, 2, 2, 2)
    d = simulated(Source("unseen"), s)
    for j, change in enumerate(vanishing(d.challenges + d.points)):
        d.change_value(1, j, change)
    yield draft_case("forged: unseen row differences", d, 8)
    yield draft_case("forged: unseen row differences, rehashed", d.rehash(), 0)
    for label, challenges, points, rows, number in (
        ("row seen by no challenge", [0, 0], [3, 5], [0], 10),
        ("row 0 at point 0", [0, 0], [0, 0], [0], 10),
        ("rows but 0, at point 0", [0, 0], [0, 0], [1, 7], 0),
        ("row 0, challenge 0 first", [0, 9], [0, 0], [0], 9),
        ("row 0, challenge 0 last", [9, 0], [0, 0], [0], 9),
    ):
        d = simulated(Source(label), s, challenges=challenges, points=points)
        for j in rows:
            d.change_value(1, j, 1)
        yield draft_case("forged: %s, rehashed" % label, d.rehash(), number)
    s = Sizes(3, 2, 2, 1, 1, 1, 4)
    src, c = Source("leaf 0 alone"), random_commitment(s)
    d = honest(c, ask(src, c, points=[7] * 4, indices=[0]))
    d.batchings[0][1:] = src.elements(s.width - 1)
    yield draft_case("forged: leaf 0 alone, R free but for the constant coefficient", d, 0)
    for p in range(4):
        d.shift_answer(p, [0, src.nonzero()])
    yield draft_case("forged: one point four times, four different accepted answers", d, 0)
    yield draft_case("forged: leaf 0 alone, constant coefficient of R", d.shift_batching(0, [1]), 9)


def sibling_cases():
    """A sibling that can be computed stands among the nodes."""
    s = Sizes(3, 2, 1, 2, 2, 2, 1)
    c = random_commitment(s)
    for indices in ([0, 1], [0, 2], [0, 4], [2, 3], [5, 7], [3, 4], [6, 7]):
        d = honest(c, ask(Source("siblings %s" % indices), c, indices=indices))
        covered = [(level, i >> level) for level in range(s.h) for i in indices]
        for level, i in sorted((level, i) for level, i in set(covered) if (level, i ^ 1) in covered):
            for at in range(len(d.nodes) + 1):
                label = "sibling: %s, node %d.%d listed at %d" % (indices, level, i, at)
                e = d.copy()
                e.nodes.insert(at, S.tree_node(s, c.tree, level, i))
                yield draft_case(label, e, 7)
                if at < len(d.nodes):
                    e.nodes.pop()
                    yield draft_case(label + ", last node left out", e, 8)
        d.nodes.append(d.root)
        yield draft_case("sibling: %s, root listed" % indices, d, 7)


def blinded_cases():
    """Blinding rows at their borders; replies with mistakes in the columns; headers with another beta."""
    for s in blinded_sizes():
        src, c = Source("blinds " + name(s)), random_commitment(s)
        yield honest_case("blinds", c, ask(src, c))
        yield honest_case("blinds", c, ask(src, c, points=[0, 10], challenges=[0, Q - 1]))
    s = Sizes(3, 2, 2, 1, 2, 1, 2, 1)
    src = Source("small instance")
    c = committed(s, Lent([1, 2, 3, 4, 5], src.elements(6), [7], src.elements(4), src.bytes(256), src.bytes(32)))
    d = honest(c, ask(src, c, points=[10, 0]))
    assert [answer[:2] for answer in d.answers] == [[721, 536], [1, Q - 4]] and d.values() == [54321, 1]
    yield draft_case("blinds: 1 to 5 with blind 7", d, 0)
    for s in (
        Sizes(4, 3, 3, 2, 2, 2, 2, 2),
        Sizes(4, 2, 2, 3, 4, 1, 3, 1),
        Sizes(4, 4, 1, 3, 2, 2, 1, 4),
        Sizes(3, 3, 2, 2, 2, 1, 1, 3),
    ):
        src, c = Source("wrong lines " + name(s)), random_commitment(s)
        q = ask(src, c)
        d = honest(c, q)
        for label, lines in wrong_lines(c):
            batchings = [S.batching_of(s, lines, S.mask_of(s, c.lent.masks, k), q.challenges[k]) for k in range(s.eta)]
            answers = [S.answer_of(lines, z) for z in q.points]
            for part, words, number in (("batchings", batchings, 9), ("answers", answers, 10)):
                e = d.copy()
                same = getattr(e, part) == words
                setattr(e, part, words)
                yield draft_case("blinds: %s, in the %s" % (label, part), e, 0 if same else number)
        for beta in range(20):
            e = d.copy()
            e.sizes = s._replace(beta=beta)
            number = 0 if beta == s.beta else 7 if allowed(e.sizes) else 1
            yield check_case("blinds: beta %d for %d [%s]" % (beta, s.beta, name(s)), e.question(), d.reply(), number)
        for beta in range(s.rows):  # the same rows, of which others are blinding: the powers z^(t mu) are others
            e = d.copy()
            e.sizes = s._replace(mu=s.rows - beta, beta=beta)
            if allowed(e.sizes):
                yield draft_case("blinds: others of the rows blinding", e, 0)


def version_cases():
    """Questions of versions 1 and 2, and headers without their last byte."""
    for d in small_drafts():
        question, reply, shown = d.question(), d.reply(), name(d.sizes)
        older = version_1(question)
        yield check_case("version 1 [%s]" % shown, older, reply, 5)
        yield check_case("version 1, header alone [%s]" % shown, older[:14], reply, 6)
        yield check_case("version 1, header of 15 bytes alone [%s]" % shown, older[:14] + b"\0", reply, 5)
        yield check_case("version 2 [%s]" % shown, version_2(question), reply, 5)
        yield check_case("version 2, header alone [%s]" % shown, version_2(question)[:15], reply, 5)
        for version in (0, 1, 2, 4, 3 << 8, 256 + 3):
            label = "version %d, else of version 3 [%s]" % (version, shown)
            yield check_case(label, with_version(question, version), reply, 5)
        yield check_case("version 3, without byte 14 [%s]" % shown, question[:14] + question[15:], reply)
        yield check_case("version 3, 14 bytes [%s]" % shown, question[:14], reply, 6)
        yield check_case("version 3, 15 bytes [%s]" % shown, question[:15], reply, 6)


def salt_cases():
    """Another salt gives other digests, so another root; the check compares no salts."""
    for n, d in enumerate(small_drafts() + large_drafts()):
        question, reply, shown = d.question(), d.reply(), name(d.sizes)
        for label, salt in list(other_salts(d.salt))[:: 1 if n in (0, 4) else 9]:
            e = d.copy()
            e.salt = salt
            yield draft_case("salt: " + label, e, 8)
            yield draft_case("salt: %s, rehashed" % label, e.rehash(), 0)
            e.salt = d.salt
            yield draft_case("salt: %s hashed, not asked" % label, e, 8)
        for part in ("root", "salt"):
            e = d.copy()
            e.root = e.salt = getattr(d, part)
            yield draft_case("salt: %s in both places" % part, e, 8)
        yield check_case("salt: before root [%s]" % shown, exchanged_salt(question), reply, 8)
        yield check_case("salt: none [%s]" % shown, without_salt(question), reply, 6)
        yield check_case("salt: none, 32 zeros at the end [%s]" % shown, without_salt(question) + bytes(32), reply)
        for count in SALT_LENGTHS:
            cut = question[: S.SALT_AT] + salt_of(d.salt, count) + question[S.AFTER_SALT :]
            yield check_case("salt: of %d bytes [%s]" % (count, shown), cut, reply, 6)
    for s in (Sizes(3, 2, 2, 1, 2, 2, 3), Sizes(4, 5, 1, 3, 4, 3, 2, 2)):
        c = random_commitment(s)
        q = ask(Source("renewed"), c)
        d = honest(c, q)
        for label, salt in list(other_salts(q.salt))[::5]:  # the same badge in another year
            renewed = committed(s, c.lent._replace(salt=salt))
            e = honest(renewed, q._replace(root=renewed.tree[-32:], salt=salt))
            assert e.answers == d.answers and e.batchings == d.batchings and e.leaves == d.leaves
            yield draft_case("salt: %s, renewed" % label, e, 0)
            yield check_case("salt: %s, reply of the other year" % label, e.question(), d.reply(), 8)
            yield check_case("salt: %s, reply of this year" % label, d.question(), e.reply(), 8)
            e.salt = q.salt
            yield draft_case("salt: %s, renewed, the older salt" % label, e, 8)
            e.salt, e.root = salt, q.root
            yield draft_case("salt: %s, renewed, the older root" % label, e, 8)


def forged_cases():
    yield from second_encodings()
    yield from unseen_cases()
    yield from sibling_cases()
    for s in (
        Sizes(3, 2, 2, 1, 2, 2, 3),
        Sizes(4, 5, 1, 3, 4, 3, 2),
        Sizes(3, 4, 4, 1, 4, 4, 1),
        Sizes(5, 9, 2, 2, 3, 2, 4),
        Sizes(4, 3, 3, 2, 4, 3, 2, 2),
    ):
        src, c = Source("forged " + name(s)), random_commitment(s)
        q = ask(src, c)
        d = honest(c, q)
        yield from shifted_cases(src, c, q, d)
        yield from mistaken_cases(c, q, d)
        yield from exchanged_cases(src, d)


# ---- Lengths, sizes, elements, indices, mark, value buffer ------------------------------------------


def around(places):
    """Lengths at and near these places."""
    near = {place + step for place in places for step in (-32, -4, -2, -1, 0, 1, 2, 4, 32)}
    return sorted(length for length in near if length >= 0)


def length_cases():
    for n, d in enumerate(small_drafts()):
        question, reply, s = d.question(), d.reply(), d.sizes
        full, whole = len(question), len(reply)
        for length in range(2 * full) if n == 0 else around([0, 15, 47, 79, full]):
            label = "length: question of %d bytes [%s]" % (length, name(s))
            yield check_case(label, (question * 2)[:length], reply, 6 if length != full else 0)
        records = [0, 4 * s.width * s.eta, 4 * s.width * (s.eta + s.m), whole - 32 * len(d.nodes), whole]
        for length in range(2 * whole) if n == 0 else around(records):
            label = "length: reply of %d bytes [%s]" % (length, name(s))
            yield check_case(label, question, (reply * 2)[:length], 7 if length != whole else 0)
        yield check_case("length: question and reply exchanged [%s]" % name(s), reply, question, 5)
    yield check_case("length: both empty", b"", b"", 6)


def size_cases():
    other = small_drafts()[4]
    for n, s in enumerate(dict.fromkeys(border_sizes())):
        header, label = S.write_header(s), "sizes: %%s [%s]" % name(s)
        if allowed(s):
            d = simulated(Source("sizes %d" % n), s)
            yield draft_case("sizes: taken", d, 0)
            yield check_case(label % "taken, header alone", header, d.reply(), 6)
        else:
            body = bytes(S.question_bytes(s) - S.HEADER_BYTES)
            yield check_case(label % "refused, header alone", header, b"", 1)
            yield check_case(label % "refused, zeros", header + body, bytes(100), 1)
            body = other.question()[S.HEADER_BYTES :]
            yield check_case(label % "refused, other body", header + body, other.reply(), 1)


def element_cases():
    for n, d in enumerate(small_drafts()[:5]):
        question, reply, s = d.question(), d.reply(), d.sizes

        def with_word(data, at, word):
            return data[:at] + S.to_bytes([word]) + data[at + 4 :]

        for at in range(S.AFTER_SALT, S.AFTER_SALT + 4 * (s.eta + s.m), 4):
            for word in (Q - 1, Q, LAST_WORD):
                label = "element: %d at byte %d of question [%s]" % (word, at, name(s))
                yield check_case(label, with_word(question, at, word), reply, None if word < Q else 3)
        leaves = 4 * s.width * (s.eta + s.m)
        places = list(range(0, leaves, 4))
        for b in range(s.l):
            start = leaves + (4 * s.record + 32) * b
            places += range(start, start + 4 * s.record, 4)
        for at in places:
            for word in (Q - 1, Q, LAST_WORD) if n < 2 else (Q,):
                label = "element: %d at byte %d of reply [%s]" % (word, at, name(s))
                yield check_case(label, question, with_word(reply, at, word), None if word < Q else 3)
        e = d.copy()  # nonces, nodes, salt and root are no elements
        e.salt = b"\xff" * 32
        e.leaves = [(values, b"\xff" * 32) for values, _ in e.leaves]
        e.nodes = [b"\xff" * 32 for _ in e.nodes]
        yield draft_case("element: salt, nonces and nodes of bytes 255", e, 8)
        yield draft_case("element: salt, nonces and nodes of bytes 255, rehashed", e.rehash(), 0)
        e.root = b"\xff" * 32
        yield draft_case("element: root of bytes 255", e, 8)


def index_cases():
    s = Sizes(3, 2, 1, 2, 3, 2, 1)
    c = random_commitment(s)
    d = honest(c, ask(Source("indices"), c, indices=[1, 3, 7]))
    refused = (
        (1, 3, 8), (1, 3, 9), (1, 3, 65535), (1, 3, 256 + 7), (1, 3, 32768 + 7), (1, 3, 3), (1, 1, 7),
        (3, 3, 3), (3, 1, 7), (1, 7, 3), (7, 3, 1), (8, 3, 7), (1, 8, 7), (8, 9, 10), (0, 0, 0), (7, 7, 7),
        (1, 3, 0),
    )  # fmt: skip
    for indices in combinations(range(8), 3):
        e = d.copy()
        e.indices = list(indices)
        yield draft_case("indices: %s" % (indices,), e, 0 if indices == (1, 3, 7) else None)
    for indices in refused:
        e = d.copy()
        e.indices = list(indices)
        yield draft_case("indices: %s" % (indices,), e, 4)
    for h in range(1, 13):
        s = Sizes(h, 1, 1, 1, 1, 1, 2)
        d = simulated(Source("index %d" % h), s, indices=[2**h - 1])
        yield draft_case("indices: last leaf", d, 0)
        others = [(index, 4) for index in (2**h, 2**h + 1, 65535)]
        others += [(index, 8) for index in range(0, 2**h - 1, max(1, 2**h // 4))]
        for index, number in others:
            e = d.copy()
            e.indices = [index]
            yield draft_case("indices: %d for the last leaf" % index, e, number)
    d = simulated(Source("64 indices"), Sizes(12, 1, 1, 1, 64, 1, 1))
    for at in (0, 1, 31, 62):
        e = d.copy()
        e.indices[at + 1] = e.indices[at]
        yield draft_case("indices: number %d and the next equal" % at, e, 4)
        e = d.copy()
        e.indices[at], e.indices[at + 1] = e.indices[at + 1], e.indices[at]
        yield draft_case("indices: number %d and the next exchanged" % at, e, 4)
    d.indices[-1] = 4096
    yield draft_case("indices: the last is N", d, 4)


def mark_cases():
    for d in small_drafts()[:3]:
        question, reply = d.question(), d.reply()
        for at in range(5):
            for byte in sorted({0, 1, 2, 3, 4, 70, 81, 83, 87, 115, 128, 255}):
                changed = question[:at] + bytes([byte]) + question[at + 1 :]
                label = "mark: byte %d is %d [%s]" % (at, byte, name(d.sizes))
                yield check_case(label, changed, reply, 5 if changed != question else 0)
        for start in BAD_MARKS + (b"QWS\3\0", b"SWQ\0\0", b"WQS\3\0"):
            older = version_1(question)[5:], version_2(question)[5:]
            ends_with = question[5:], b"", bytes(9), bytes(10), b"\xff" * 10, question[5:14], *older
            for end in ends_with:
                shown = start.hex(), len(end), end[:2].hex(), name(d.sizes)
                label = "mark: %s before %d bytes %s [%s]" % shown
                yield check_case(label, start + end, reply, 5 if len(end) >= 10 else 6)


def buffer_cases():
    for d in small_drafts() + large_drafts()[:1]:
        s = d.sizes
        full = 4 * s.w * s.m
        for size in sorted(set(around([0, full]) + [full // 4, full // 2, 2 * full, 4 * s.w, 4 * s.m])):
            label = "buffer: %d of %d bytes [%s]" % (size, full, name(s))
            yield check_case(label, d.question(), d.reply(), 2 if size != full else 0, None, size)


def byte_cases():
    """Bytes changed anywhere; the reference alone tells the outcome."""
    question, reply = case_p().question(), case_p().reply()
    for at in range(len(question)):
        yield check_case("byte: %d of question of case P" % at, spoil(question, at), reply)
    for at in range(len(reply)):
        yield check_case("byte: %d of reply of case P" % at, question, spoil(reply, at))
    src = Source("bytes")
    for n in range(400):
        d = src.pick(small_drafts())
        question, reply = bytearray(d.question()), bytearray(d.reply())
        for _ in range(src.between(1, 2)):
            part = src.pick((question, reply))
            part[src.below(len(part))] = src.pick((0, 1, 255, src.below(256)))
        yield check_case("byte: drawn %d" % n, bytes(question), bytes(reply))
    for n in range(200):
        s = src.sizes(4, 3, 10)
        e = simulated(src, s, points=src.edgy(s.m), challenges=src.edgy(s.eta))
        for _ in range(src.between(0, 2)):
            e.change_value(src.below(s.l), src.below(s.record), src.pick((0, 1, Q - 1)))
        yield draft_case("byte: drawn values %d" % n, e.rehash())
    for n in range(100):
        data = src.bytes(src.below(120))
        cut = src.below(len(data) + 1)
        yield check_case("byte: noise %d" % n, data[:cut], data[cut:])


def proof_cases():
    """A proof as the conversation has it: the question so drawn, and the reply after the counter."""
    for d in small_proofs():
        for kappa in (0, 3):
            counter = d.least(kappa)
            e = d.opened(counter)
            yield draft_case("drawn: counter %d" % counter, e, 0)
            yield check_case("drawn: the proof itself [%s]" % name(d.sizes), e.question(), d.proof(counter), 7)
            yield check_case("drawn: a proof's question [%s]" % name(d.sizes), d.question(), e.reply(), 6)


CHECK_GROUPS = (
    honest_cases,
    place_cases,
    fault_cases,
    forged_cases,
    blinded_cases,
    version_cases,
    salt_cases,
    length_cases,
    size_cases,
    element_cases,
    index_cases,
    mark_cases,
    buffer_cases,
    byte_cases,
    proof_cases,
)


def check_cases():
    """Every check case."""
    for group in CHECK_GROUPS:
        yield from group()


# ---- The checking program ---------------------------------------------------------------------------


def program_case(label, data, output=None):
    found = S.program(data)
    assert output is None or found == output, (label, found)
    return ProgramCase(label, data, found)


def program_borders():
    """Inputs made for the program: its split, its limit."""
    data = case_p().question() + case_p().reply()
    yield program_case("program: empty", b"", b"verdict 6\n")
    for length in range(len(data) + 3):
        output = b"verdict 6\n" if length < 89 else b"verdict 7\n" if length != 177 else b"verdict 0\n1 1 5\n"
        yield program_case("program: case P, %d bytes" % length, (data + bytes(3))[:length], output)
    for d in [case_p()] + large_drafts():
        data = d.question() + d.reply()
        for length in (65535, 65536, 65537, 70000, 131072):
            padded = data + bytes(length - len(data))
            label = "program: padded to %d bytes [%s]" % (length, name(d.sizes))
            yield program_case(label, padded, b"verdict 7\n")
    for length in (13, 14, 15, 65536, 65537, 200000):
        output = b"verdict 6\n" if length < 15 else b"verdict 5\n"
        yield program_case("program: %d zero bytes" % length, bytes(length), output)


def program_cases(cases=None):
    """Inputs of the checking program: its borders, then question and reply of the given check cases."""
    yield from program_borders()
    for case in check_cases() if cases is None else cases:
        if not case.label.startswith("buffer"):
            yield program_case(case.label, case.question + case.reply)


# ---- Summary ----------------------------------------------------------------------------------------


def main():
    Arguments(__doc__).parse_args()
    total = shake_256()
    checks = []

    def counted(label, cases, outcome):
        start, count, outcomes = time.time(), 0, {}
        for case in cases:
            total.update(repr(case).encode())
            count += 1
            outcomes[outcome(case)] = outcomes.get(outcome(case), 0) + 1
            if isinstance(case, CheckCase):
                checks.append(case)
        shown = " ".join("%d:%d" % pair for pair in sorted(outcomes.items()))
        print("%-18s %5d in %5.1f s   %s" % (label, count, time.time() - start, shown), flush=True)

    for group in CHECK_GROUPS:
        counted(group.__name__, group(), lambda case: case.number)
    counted("program_cases", program_cases(checks), lambda case: int(case.output.split()[1]))
    others = commit_calls, open_calls, length_calls, permutations_calls, interpolate_calls, prove_calls
    for group in others + PROOF_GROUPS:
        counted(group.__name__, group(), lambda call: call.number)
    print("digest of all cases", total.hexdigest(16))
    return 0


if __name__ == "__main__":
    sys.exit(main())
