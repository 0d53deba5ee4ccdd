#!/usr/bin/env python3
"""The stored output of the program `offline_proofs`, made by the second implementation.

    tools/stored_proofs.py            writes it
    tools/stored_proofs.py --check    makes it anew and compares it with what is stored

As with tools/stored_openings.py, whose inputs these are, nothing here runs the proved program: every outcome is what
reference/smallwood.py says, and each refusal also has the number that its construction gives. The runs without blinding
rows come first, then those with them, then those about the salt. Values are those of version 2, and so are roots once the
salt is left out of leaf and node strings again; proofs are not, since their draws hash header, root and salt.
"""

import sys

sys.dont_write_bytecode = True

from stored_openings import (  # noqa: E402
    BLINDED, FIRST, LAST, OTHER_SALT, Q, ROOT, SMALL, Both, S, Sizes, compare_or_write, compare_with_version_2, lent, points,
    question_of, raised, refused_salted, reply_room, salt, shorter, sizes_text, text, tree_without_salt, version_2,
    with_blinds, with_item, with_q, with_version, words,
)  # fmt: skip

STORED = ROOT / "crates" / "offline_proofs" / "stdout"
# git show 9f124fc:crates/offline_proofs/stdout | grep -E '^(h|m|question|values) ' | sha256sum
VERSION_2 = "7346d9cbdedd5e0906faaa0312d8190c28d623bce86a8f7f26728dc3110e13bf"
LIMIT = 5000  # above the least counter of every run here
BUFFER = 4096  # the buffers of which a call is lent the front

# The refusals' sizes, with two points: where the parts of a proof begin (of the tails the second), and how long it is.
SIZES = SMALL._replace(m=2)
BLINDED_SIZES = BLINDED._replace(m=2)
R_AT, COLUMNS_AT, TAIL_AT, ROWS_AT, MASKS_AT, NONCE_AT, NODES_AT, PROOF_LENGTH = 4, 36, 48, 68, 76, 84, 164, 228
BLINDING_ROW_AT, BLINDED_LENGTH = 76, 204  # with a blinding row, and with one node
LEAST = 88  # the least counter with kappa 8
COUNTER = 11  # with kappa 3
UNQUALIFIED = 4  # draws the same leaves as COUNTER and does not qualify with kappa 3


def value_room(length):
    return words(10, length)


class Run:
    """A commitment at these sizes, and a question about it that a proof answers."""

    def __init__(self, s, tag=None):
        self.s = s
        self.given, table, tree = lent(s)
        if tag is not None:
            self.given = self.given._replace(salt=salt(tag))
        number, self.table, self.tree = S.commit(*s.of_commitment, *self.given, table, tree)
        assert number == 0
        self.question = self.asked(points(s.m))

    def asked(self, at, sizes=None, tree=None):
        return S.write_proof_question(S.ProofQuestion(sizes or self.s, (tree or self.tree)[-32:], self.given.salt, at))

    def in_version_2(self):
        """The question as it was in version 2."""
        return version_2(self.asked(points(self.s.m), tree=tree_without_salt(self.s, self.table, self.given.nonces)))

    def prove(self, kappa, limit=LIMIT, buffer=None, question=None, given=None, table=None, tree=None):
        return S.prove(
            self.question if question is None else question, kappa, limit,
            *(self.given if given is None else given), self.table if table is None else table,
            self.tree if tree is None else tree, reply_room(S.proof_bound(self.s)) if buffer is None else buffer,
        )  # fmt: skip


# ---- Accepted ---------------------------------------------------------------------------------------


ACCEPTED = (  # the sizes, then kappa
    (Sizes(1, 1, 1, 1, 1, 1, 1), 0),
    (SIZES, 3),
    (Sizes(4, 3, 2, 4, 5, 4, 3), 8),
    (Sizes(4, 2, 3, 1, 4, 3, 2), 9),
)

BLINDED_ACCEPTED = (
    (BLINDED_SIZES, 3),
    (Sizes(1, 1, 1, 1, 1, 1, 1, 1), 0),  # nu = 1: no blinds
    (Sizes(3, 4, 1, 3, 2, 3, 1, 2), 5),
    (Sizes(4, 3, 3, 2, 4, 2, 2, 3), 8),  # beta = mu
    (Sizes(5, 48, 2, 2, 3, 1, 1, 16), 4),
)


SALTED_ACCEPTED = ((SIZES, 3), (BLINDED_SIZES, 3))  # once more, with another salt


def accepted(s, kappa, tag=None):
    run = Run(s, tag)
    number, length, after = run.prove(kappa)
    assert number == 0
    proof = after[:length]
    number, values = S.check_proof(run.question, kappa, proof, value_room(s.w * s.m))
    assert number == 0
    yield sizes_text(s)
    yield "m %d kappa %d" % (s.m, kappa)
    yield Both("question " + run.question.hex(), "question " + run.in_version_2().hex())
    yield "prove 0 %d" % length
    yield "proof " + proof.hex()
    yield "buffer digest " + S.digest(after + reply_room(BUFFER)[len(after) :]).hex()
    yield "check 0"
    yield "values " + S.to_bytes(values).hex()


# ---- Refused ----------------------------------------------------------------------------------------


def faulty_questions(run):
    """(question, kappa, number) in the order of the tests; kappa is None where it is that of the call."""
    question = run.question
    yield question[:13], None, 6
    yield raised(question, 0), None, 5
    yield raised(question, 4), None, 5
    yield raised(question, 8), None, 1
    yield question, 17, 1
    yield question_of(run.s, run.tree, run.given.salt, 1, 2), None, 6
    yield question[:-1], None, 6
    yield question + bytes(1), None, 6
    yield run.asked([points(2)[0], Q]), None, 3


def faulty_blinded_questions(run):
    """(question, number) for sizes, header and version."""
    yield run.question[:14], 6
    yield with_version(run.question, 1), 5
    for s in (
        run.s._replace(beta=3), SIZES._replace(mu=20, beta=17), SIZES._replace(mu=49, beta=16),
        Sizes(255, 255, 65535, 65535, 255, 255, run.s.m, 255),
    ):  # fmt: skip
        yield run.asked(points(run.s.m), s), 1
    yield run.question[: S.HEADER_BYTES], 6


class Proving(Run):
    """Calls of the prover, and a line for each."""

    def __init__(self, s):
        super().__init__(s)
        self.bound = S.proof_bound(s)

    def line(self, expected, question=None, kappa=8, limit=LIMIT, room=None, **lent):
        question, before = question or self.question, reply_room(room or self.bound)
        number, _, after = self.prove(kappa, limit, before, question, **lent)
        assert number == expected, (number, expected)
        kept = "same" if after == before else "changed"
        shown = kappa, limit, len(question), len(before), number, kept
        return "kappa %d limit %d question %d buffer %d prove %d %s" % shown


def refused_proofs():
    run = Proving(SIZES)
    for question, kappa, number in faulty_questions(run):
        yield run.line(number, question, kappa or 8)
    for part in ("coefficients", "tails", "masks", "nonces"):
        yield run.line(2, given=shorter(run.given, part))
    yield run.line(2, table=run.table[:-1])
    yield run.line(2, tree=run.tree[:-1])
    yield run.line(2, room=run.bound - 1)
    yield run.line(2, room=run.bound + 1)
    for part in ("coefficients", "tails", "masks"):
        yield run.line(3, given=with_q(run.given, part))
    yield run.line(3, table=with_item(run.table, len(run.table) - 1, Q))
    yield run.line(8, raised(run.question, S.HEADER_BYTES))
    yield run.line(8, tree=raised(run.tree, len(run.tree) - 1))
    yield run.line(11, limit=0)
    yield run.line(11, limit=LEAST)
    yield run.line(0, limit=LEAST + 1)


def refused_blinded_proofs():
    plain, run = Proving(SIZES), Proving(BLINDED_SIZES)
    for question, number in faulty_blinded_questions(run):
        yield run.line(number, question)
    yield plain.line(2, given=with_blinds(plain.given, 1))
    for count in (0, 2):
        yield run.line(2, given=with_blinds(run.given, count))
    yield plain.line(2, plain.asked(points(2), SIZES._replace(beta=1)))
    for beta in (0, 2):
        yield run.line(2, run.asked(points(2), run.s._replace(beta=beta)))
    for part in ("coefficients", "tails"):
        yield run.line(2, given=shorter(run.given, part))
    yield run.line(2, table=run.table[:-1])
    yield run.line(2, room=run.bound - 1)
    yield run.line(2, room=run.bound + 1)
    for part in ("coefficients", "tails", "blinds", "masks"):
        yield run.line(3, given=with_q(run.given, part))
    yield run.line(3, table=with_item(run.table, len(run.table) - 1, Q))
    yield run.line(0)


class Checking(Run):
    """Checks of a proof with kappa 3, and a line for each."""

    def __init__(self, s):
        super().__init__(s)
        number, length, after = self.prove(3)
        assert number == 0
        self.proof, self.filled = after[:length], after + reply_room(BUFFER)[len(after) :]

    def line(self, expected, question=None, kappa=3, proof=None, count=None):
        question, proof = question or self.question, self.proof if proof is None else proof
        before = value_room(self.s.w * self.s.m if count is None else count)
        number, values = S.check_proof(question, kappa, proof, before)
        assert number == expected, (number, expected)
        kept = "same" if values == before else "changed"
        shown = kappa, len(question), len(proof), len(before), number, kept
        return "kappa %d question %d proof %d values %d check %d %s" % shown

    def counted(self, counter):
        return S.write_counter(counter) + self.proof[4:]


def with_word_q(proof, at):
    return proof[:at] + S.to_bytes([Q]) + proof[at + 4 :]


def refused_checks():
    run = Checking(SIZES)
    proof, line, counted = run.proof, run.line, run.counted
    assert (len(proof), proof[:4]) == (PROOF_LENGTH, S.write_counter(COUNTER))
    for question, kappa, number in faulty_questions(run):
        yield line(number, question, kappa or 3)
    for count in (3, 5):
        yield line(2, count=count)
    for cut in (0, 1, 2, 3, ROWS_AT - 1, ROWS_AT, PROOF_LENGTH - 1, PROOF_LENGTH + 1):
        yield line(7, proof=run.filled[:cut])
    yield line(7, proof=counted(UNQUALIFIED)[:-1])
    yield line(7, proof=with_word_q(proof, COLUMNS_AT))  # the leaves so drawn miss one node
    for at in (TAIL_AT, ROWS_AT, MASKS_AT):
        yield line(3, proof=with_word_q(proof, at))
    yield line(3, proof=with_word_q(counted(UNQUALIFIED), ROWS_AT))
    # Other leaves, before and after, then leaves that miss one node, then the same leaves.
    for kappa, numbers in ((3, (12, 12, 7, 12, 0)), (0, (8, 8, 7, 0, 0))):
        for counter, number in zip((7, 12, 9, UNQUALIFIED, 46), numbers):
            yield line(number, kappa=kappa, proof=counted(counter))
    for kappa, in_r, in_columns, in_tail, unqualified in ((3, 12, 12, 12, 12), (0, 9, 8, 10, 8)):
        for at, number in ((R_AT, in_r), (COLUMNS_AT, in_columns), (TAIL_AT, in_tail)):
            yield line(number, kappa=kappa, proof=raised(proof, at))
        for at in (ROWS_AT, MASKS_AT, NONCE_AT, NODES_AT):
            yield line(8, kappa=kappa, proof=raised(proof, at))
        yield line(unqualified, kappa=kappa, proof=raised(counted(UNQUALIFIED), NODES_AT))
        for at, counter, number in ((R_AT, 75, 9), (COLUMNS_AT, 22, 10), (TAIL_AT, 33, 10)):  # the same leaves
            yield line(number, kappa=kappa, proof=raised(counted(counter), at))
    yield line(8, raised(run.question, S.HEADER_BYTES), 0)
    yield line(0)


def refused_blinded_checks():
    plain, run = Checking(SIZES), Checking(BLINDED_SIZES)
    assert len(run.proof) == BLINDED_LENGTH
    for question, number in faulty_blinded_questions(run):
        yield run.line(number, question)
    yield plain.line(7, plain.asked(points(2), SIZES._replace(beta=1)))
    for beta in (0, 2):
        yield run.line(7, run.asked(points(2), run.s._replace(beta=beta)))
    yield run.line(3, proof=with_word_q(run.proof, BLINDING_ROW_AT))
    yield run.line(8, proof=raised(run.proof, BLINDING_ROW_AT))
    yield run.line(0)


# ---- About the salt ---------------------------------------------------------------------------------

def refused_salted_proofs():
    run = Proving(SIZES)
    yield from refused_salted(run, run.line(8, raised(run.question, LAST), limit=0))


def refused_salted_checks():
    """With another salt other leaves are drawn; these miss two nodes, too."""
    run = Checking(SIZES)
    for version in (1, 2, 4):
        yield run.line(5, with_version(run.question, version))
    yield run.line(6, run.question[: -S.SALT_BYTES])
    for kappa, numbers in ((0, (8, 8)), (3, (8, 12))):
        for at, number in zip((FIRST, LAST), numbers):
            yield run.line(number, raised(run.question, at), kappa)
    yield run.line(0)


# ---- The whole output -------------------------------------------------------------------------------


def all_accepted(cases, *tag):
    return [line for case in cases for line in accepted(*case, *tag)]


def output():
    plain, blinded = all_accepted(ACCEPTED), all_accepted(BLINDED_ACCEPTED)
    kept = [line for line in plain + blinded if line.split()[0] in ("h", "m", "question", "values")]
    compare_with_version_2(kept, VERSION_2)
    return text([
        *plain, *refused_proofs(), *refused_checks(),
        *blinded, *refused_blinded_proofs(), *refused_blinded_checks(),
        *all_accepted(SALTED_ACCEPTED, OTHER_SALT), *refused_salted_proofs(), *refused_salted_checks(),
    ])  # fmt: skip


if __name__ == "__main__":
    compare_or_write(STORED, output, __doc__)
