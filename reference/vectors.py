"""What a test vector for other implementations is; vectors_check.py and its neighbours choose them.

Each is made by a call of cases.py, calls.py, proofs.py or interpolations.py, which asserts the number that the
construction tells against smallwood.py. tools/stored_vectors.py writes them down.
"""

from collections import namedtuple

# sizes: those of the group; of an interpolation the number of points.
# inputs: every parameter of the entry by its name in smallwood.h, and the length of each slice that it writes.
# outputs: what the written slices hold after a 0, by name; not looked at after a refusal.
Vector = namedtuple("Vector", "sizes comment flags inputs number outputs")

# A string that is hashed: its kind, its parts by name in their order, and what SHAKE256 gives. place: of a leaf's or a
# node's digest in the tree, counted from the first leaf. drawn: the numbers that a proof takes from the output.
HashedString = namedtuple("HashedString", "comment flags kind parts string output place drawn", defaults=(None, None))

# Strings that one call hashes, which returns 0: the entry, its inputs and outputs as in a vector.
StringGroup = namedtuple("StringGroup", "sizes entry inputs outputs strings")

# What each flag means.
NOTES = {
    "honest": "made as the definitions say",
    "boundary": "a size, an index, a word, a counter or a number of points at an end of its range",
    "sizes": "sizes that are out of range, or do not go together, or are not those that were committed",
    "length": "a slice that is too short or too long, by itself or for what the header says",
    "element": "words at q and around it; a word of q or more is no element",
    "indices": "which leaves are opened: each shape of missing nodes, and indices that are refused",
    "mark": "mark and version of a question",
    "tree": "root, leaf strings, nonces, nodes and their order",
    "salt": "the salt, in strings, in a question, and lent",
    "batching": "batching answers, challenges, mask values",
    "evaluation": "evaluation answers, points, row values",
    "blinds": "blinding rows and blinds",
    "forged": "no honest reply or proof, and accepted: verdict 0 alone does not make values true",
    "order": "two faults at once: the test that comes first gives the number",
    "counter": "the leaf draw of a proof: counter, kappa, limit",
    "points": "the points of an interpolation",
    "unread": "contents that the entry does not compare with anything",
}

# Every number that an entry can return.
NUMBERS = {
    "commit": {0, 1, 2, 3},
    "reply_length": {0, 1, 3, 4, 5, 6},
    "permutations": {0, 1, 3, 4, 5, 6},
    "open": {0, 1, 2, 3, 4, 5, 6, 8},
    "check": {0, 1, 2, 3, 4, 5, 6, 7, 8, 9, 10},
    "prove": {0, 1, 2, 3, 5, 6, 8, 11},
    "check_proof": {0, 1, 2, 3, 5, 6, 7, 8, 9, 10, 12},
    "interpolate": {0, 1, 2, 3, 13},
}


def near_pairs(stages):
    """Pairs of tests that follow one another or have one between them: both fail, and the first gives the number.

    The first test is of a question under 15 bytes, which has no room for the third one's fault.
    """
    return [*zip(stages, stages[1:]), *zip(stages[1:], stages[3:])]
