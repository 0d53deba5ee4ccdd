"""Test vectors of the strings that are hashed, each group bound to a call that hashes them."""

from hashlib import shake_256

import smallwood as S
from drafts import Source, ask, case_p_commitment, honest, leading_zeros, random_commitment
from smallwood import Sizes
from vectors import HashedString, StringGroup
from vectors_calls import commit_vector
from vectors_check import honest_vector
from vectors_proofs import COUNTER_ACROSS, LONG_DRAW, PROVED, case_p_draft, draft, honest_proof


def leaf_hashed(salt, index, values, nonce):
    string = S.leaf_string(salt, index, values, nonce)
    parts = {"salt": salt, "index": index, "values": values, "nonce": nonce}
    comment = "leaf %d, %d values, %d bytes" % (index, len(values), len(string))
    return HashedString(comment, ("tree", "salt"), "leaf", parts, string, S.digest(string), index)


def node_hashed(salt, level, index, place, left, right):
    string = S.node_string(salt, left, right)
    parts = {"salt": salt, "left": left, "right": right}
    comment = "node %d of level %d" % (index, level)
    return HashedString(comment, ("tree", "salt"), "node", parts, string, S.digest(string), place)


def place_of(h, level, index):
    """Of the digest in a tree, by digests."""
    return sum(2 ** (h - below) for below in range(level)) + index


# ---- Whole trees, by committing ---------------------------------------------------------------------


def tree_group(c, indices, nodes=True):
    """Strings of these leaves, and of all nodes, of a commitment."""
    s, lent, comment = c.sizes, c.lent, "strings"
    vector = commit_vector(("honest",), comment, s, lent, 0)
    strings = []
    for i in indices:
        values = c.table[s.record * i : s.record * (i + 1)]
        strings.append(leaf_hashed(lent.salt, i, values, S.nonce_of(lent.nonces, i)))
    for level in range(1, s.h + 1) if nodes else ():
        for i in range(s.leaves >> level):
            below = [S.tree_node(s, c.tree, level - 1, 2 * i + side) for side in (0, 1)]
            strings.append(node_hashed(lent.salt, level, i, place_of(s.h, level, i), *below))
    for string in strings:
        assert string.output == c.tree[32 * string.place : 32 * string.place + 32]
    return StringGroup(s, "commit", vector.inputs, vector.outputs, strings)


# Sizes whose leaf strings have 135, 139, 271 and 275 bytes: beside the ends of a block.
BESIDE_BLOCKS = [Sizes(1, rows, 1, 1, 1, 4, 1) for rows in (13, 14, 47, 48)]


def tree_groups():
    yield tree_group(case_p_commitment(), range(2))
    yield tree_group(random_commitment(Sizes(2, 2, 2, 1, 1, 1, 1, 1)), range(4))
    for s in BESIDE_BLOCKS:
        yield tree_group(random_commitment(s), [1], nodes=False)


# ---- From opened leaves to the root, by checking ----------------------------------------------------


def root_group(s, indices):
    """Strings of the opened leaves, and of all nodes above them, of a reply."""
    c = random_commitment(s)
    q = ask(Source("strings of a reply"), c, indices=indices)
    vector, reply = honest_vector((), "strings", c, q), honest(c, q)
    strings = [leaf_hashed(q.salt, i, *leaf) for i, leaf in zip(indices, reply.leaves)]
    for level, i in sorted(S.nodes_above(s.h, indices)):
        below = [S.tree_node(s, c.tree, level - 1, 2 * i + side) for side in (0, 1)]
        strings.append(node_hashed(q.salt, level, i, place_of(s.h, level, i), *below))
    assert strings[-1].output == q.root
    return StringGroup(s, "check", vector.inputs, vector.outputs, strings)


def root_groups():
    yield root_group(Sizes(3, 2, 1, 1, 3, 1, 1), [1, 2, 6])
    yield root_group(Sizes(12, 1, 1, 1, 1, 1, 1), [258])


# ---- Draws, by checking a proof ---------------------------------------------------------------------


def draw_group(d, kappa):
    """The strings of a proof's challenges and of its leaves."""
    p, s, counter = d.question_parts, d.sizes, d.least(kappa)
    vector = honest_proof((), "strings", d, kappa)
    named = {"header": S.write_header(s), "root": p.root, "salt": p.salt}
    string = b"\x02" + b"".join(named.values())
    output = shake_256(string).digest(8 * s.eta)
    challenges = S.draw_challenges(p)
    assert challenges == [word % S.Q for word in S.to_long_words(output)]
    strings = [HashedString("challenges", ("counter",), "challenges", named, string, output, None, challenges)]
    answers = S.write_answers(d.batchings, d.answers)
    parts = dict(named, points=p.points, answers=answers, counter=counter)
    string = b"\x03" + d.question() + answers + S.write_counter(counter)
    output = shake_256(string).digest(32 + 8 * s.l)
    assert output == d.draw(counter) and leading_zeros(output) >= kappa
    comment = "leaves by counter %d, %d zero bits, %d bytes" % (counter, leading_zeros(output), len(string))
    strings.append(HashedString(comment, ("counter",), "leaves", parts, string, output, None, d.indices(counter)))
    return StringGroup(s, "check_proof", vector.inputs, vector.outputs, strings)


def draw_groups():
    yield draw_group(case_p_draft(), 4)
    yield draw_group(draft(PROVED), 9)
    yield draw_group(draft(LONG_DRAW), 3)
    yield draw_group(draft(COUNTER_ACROSS), 3)


def string_groups():
    for groups in (tree_groups, root_groups, draw_groups):
        yield from groups()
