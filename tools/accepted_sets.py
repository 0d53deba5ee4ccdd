"""How many sets of leaves accept an answer, counted: every set is asked for, and the second implementation checks each
reply. For the selftest of sizes.py: what the two counts of the handbook ("Two counts") say is not only a bound, but
reached, under a trusted committer and under one whose rows follow two lists of polynomials.

Rows are given as their values at the points N, N + 1, .., as in the scheme: with one column to a polynomial and no
blinding rows the first w of them are coefficients and the others tails.
"""

from collections import namedtuple
from itertools import combinations
from math import comb, prod
from random import Random

import paths  # noqa: F401  (makes the second implementation importable)
import smallwood as S

random = Random(1)
Commitment = namedtuple("Commitment", "sizes salt nonces masks table tree")


def drawn(count):
    return [random.randrange(S.Q) for _ in range(count)]


def drawn_rows(s):
    return [drawn(s.width) for _ in range(s.rows)]


def vanishing(s, leaves):
    """Values at N, N + 1, .. of the polynomial that is 0 at these leaves."""
    return [prod(s.leaves + t - i for i in leaves) % S.Q for t in range(s.width)]


def shifted(row, factor, values):
    return [(a + factor * b) % S.Q for a, b in zip(row, values)]


def lent(s, rows, masks):
    """Coefficients, tails, blinds and masks."""
    return [row[i] for i in range(s.w) for row in rows], [x for row in rows for x in row[s.w :]], [], masks


def commit(s, rows_of):
    """To rows that may be others at each leaf: `rows_of` has those of every leaf."""
    masks, salt, nonces = drawn(s.eta * s.width), random.randbytes(S.SALT_BYTES), random.randbytes(32 * s.leaves)
    tables = {}
    for rows in rows_of:
        if id(rows) not in tables:
            rooms = [0] * (s.leaves * s.record), bytes(S.DIGEST_BYTES * (2 * s.leaves - 1))
            number, tables[id(rows)], _ = S.commit(*s.of_commitment, *lent(s, rows, masks), nonces, salt, *rooms)
            assert number == 0
    records = [tables[id(rows)][i * s.record : (i + 1) * s.record] for i, rows in enumerate(rows_of)]
    strings = (S.leaf_string(salt, i, record, S.nonce_of(nonces, i)) for i, record in enumerate(records))
    tree = S.tree_of(salt, map(S.digest, strings))
    return Commitment(s, salt, nonces, masks, [x for record in records for x in record], tree)


def accepted(c, rows, batched=None, shift=None):
    """The number of sets at which answers for these rows are accepted: with R of the rows `batched` where there are
    such, and with the evaluation answer shifted by the values `shift`."""
    s, count = c.sizes, 0
    challenges, points = drawn(s.eta), drawn(1)
    batchings, _ = S.answers_to(s, challenges, points, *lent(s, batched or rows, c.masks))
    _, (answer,) = S.answers_to(s, challenges, points, *lent(s, rows, c.masks))
    answer = shifted(answer, 1, shift) if shift else answer
    for indices in combinations(range(s.leaves), s.l):
        question = S.write_question(S.Question(s, c.tree[-S.DIGEST_BYTES :], c.salt, challenges, points, list(indices)))
        reply = S.Reply(batchings, [answer], *S.opened_at(s, indices, c.nonces, c.table, c.tree))
        count += S.check(question, S.write_reply(reply), [0] * s.w)[0] == 0
    return count


def under_trusted(s):
    """(accepted sets, the count) of a false answer that fits as many leaves as one can."""
    rows = drawn_rows(s)
    fitting = random.sample(range(s.leaves), s.width - 1)
    return accepted(commit(s, [rows] * s.leaves), rows, shift=vanishing(s, fitting)), comb(s.width - 1, s.l)


def two_lists(s):
    """Two lists that agree at as many leaves as two can, and a commitment with each at half of the other leaves."""
    order = random.sample(range(s.leaves), s.leaves)
    shared, others = order[: s.width - 1], order[s.width - 1 :]
    one = drawn_rows(s)
    two = [shifted(row, random.randrange(1, S.Q), vanishing(s, shared)) for row in one]
    of_two = set(others[: len(others) // 2])
    return one, two, commit(s, [two if i in of_two else one for i in range(s.leaves)])


def under_anyone(s):
    """(accepted sets, the count) of the rarer of two lists."""
    one, two, c = two_lists(s)
    return min(accepted(c, one), accepted(c, two)), comb((s.leaves + s.width - 1) // 2, s.l)


def under_registered(s):
    """(accepted sets, the trusted count) of the second list, where R is the first one's."""
    one, two, c = two_lists(s)
    return accepted(c, two, batched=one), comb(s.width - 1, s.l)


def selftest(expect):
    few = (3, 2, 1, 1, 2, 2, 1), (4, 2, 1, 1, 3, 2, 1), (4, 3, 1, 2, 2, 1, 1), (4, 1, 1, 3, 4, 1, 1)
    tried = [S.Sizes(*sizes) for sizes in few]
    for s in tried:
        expect(*under_trusted(s), "sets that accept a false answer", s)
        expect(*under_anyone(s), "sets that accept the rarer of two lists", s)
        expect(*under_registered(s), "sets that accept the second list with R of the first", s)
    done = "accepted sets: both counts reached, and the trusted one where R is registered, at %d sizes"
    return done % len(tried)
