"""The SmallWood commitment over the field of 2^32 - 5 elements: a second implementation.

It follows the paper's definitions one by one and prefers the plainest form of each. A "word" is an int
below 2^32. Every entry takes the lent slices (words as lists, bytes as bytes) and returns the verdict's
number first, then the final contents of the slices it may write; a refusal leaves those as they were.
The arguments are never changed in place.

Run as a program, it is the checking program: python3 smallwood.py < input
"""

import struct
import sys
from collections import namedtuple
from functools import lru_cache
from hashlib import shake_256
from operator import mul

Q = 4294967291  # the field's order, 2^32 - 5
MARK = b"SWQ"
VERSION = 3
HEADER_BYTES = 15
DIGEST_BYTES = 32
NONCE_BYTES = 32
SALT_BYTES = 32
RATE_BYTES = 136  # that SHAKE256 takes in before each permutation
NODE_STRING_BYTES = 1 + SALT_BYTES + 2 * DIGEST_BYTES  # a node's string: its first byte, salt, two digests
SALT_AT = HEADER_BYTES + DIGEST_BYTES  # where a question's salt begins, after header and root
AFTER_SALT = SALT_AT + SALT_BYTES  # where its challenges begin, or a proof's points
COUNTER_BYTES = 4
MAX_KAPPA = 16  # bits of a leaf draw that may have to be zero
MAX_POINTS = 320  # of an interpolation; a row polynomial has d + 1 coefficients, at most 256 + 64
INPUT_LIMIT = 65536  # bytes that the checking program reads


# ---- Field ------------------------------------------------------------------------------------------


def dot(left, right):
    """Sum of the products, one by one."""
    return sum(map(mul, left, right)) % Q


def evaluate(coefficients, x):
    """Value at x of the polynomial with these coefficients, lowest first."""
    value = 0
    for coefficient in reversed(coefficients):
        value = (value * x + coefficient) % Q
    return value


def inverse_factorials(count):
    """Entry 0 is 1; entry t times t is entry t - 1."""
    table = [1]
    for t in range(1, count):
        table.append(table[-1] * pow(t, -1, Q) % Q)
    return table


INVERSE_FACTORIALS = inverse_factorials(MAX_POINTS)


@lru_cache(maxsize=None)
def inverse_denominators(count):
    """For `count` consecutive points p_0, p_1, ...: 1 over the product of p_t - p_s over all s other than t.

    With d = count - 1 that product is t! (d - t)! with the sign of (-1)^(d - t).
    """
    d = count - 1
    return [
        (-1) ** (d - t) * INVERSE_FACTORIALS[t] * INVERSE_FACTORIALS[d - t] % Q
        for t in range(count)
    ]


def weights(first, count, x):
    """Lagrange weights at x for the points first, first + 1, ..., first + count - 1.

    The polynomial of degree below `count` through (first + t, y_t) has the value dot(weights, y) at x.
    """
    result = []
    product = 1  # of x - p_s over s < t
    for t in range(count):
        result.append(product)
        product = product * (x - first - t) % Q
    product = 1  # of x - p_s over s > t
    for t in reversed(range(count)):
        result[t] = result[t] * product % Q
        product = product * (x - first - t) % Q
    return [a * b % Q for a, b in zip(result, inverse_denominators(count))]


def polynomial_through(points, values):
    """Coefficients, lowest first, of the polynomial of degree below len(points) through (point, value).

    The points differ.
    """
    master = [1]  # the product of X - p over all points
    for p in points:
        master = [(a - p * b) % Q for a, b in zip([0] + master, master + [0])]
    result = [0] * len(points)
    for p, value in zip(points, values):
        quotient = []  # master / (X - p), by synthetic division from the top
        carry = 0
        for coefficient in reversed(master[1:]):
            carry = (carry * p + coefficient) % Q
            quotient.append(carry)
        quotient.reverse()
        scale = value * pow(evaluate(quotient, p), -1, Q) % Q
        result = [(a + scale * b) % Q for a, b in zip(result, quotient)]
    return result


# ---- Sizes ------------------------------------------------------------------------------------------


class Sizes(namedtuple("Sizes", "h mu nu w l eta m beta", defaults=(0,))):
    """The sizes of a question, in its header's order; committing, which has no m, uses m = 1. Without a beta it is 0."""

    __slots__ = ()

    @property
    def of_commitment(self):  # what committing is given
        return *self[:6], self.beta

    @property
    def leaves(self):  # N
        return 1 << self.h

    @property
    def columns(self):  # w nu, all columns
        return self.w * self.nu

    @property
    def width(self):  # d + 1: coefficients of a row polynomial, and words of an evaluation answer
        return self.columns + self.l

    @property
    def rows(self):  # all rows: those of coefficients, then the blinding rows
        return self.mu + self.beta

    @property
    def each(self):  # coefficients of one polynomial
        return self.mu * self.nu + self.beta

    @property
    def blinds_each(self):  # blinds of one polynomial: beta for each of its columns but the last
        return (self.nu - 1) * self.beta

    @property
    def record(self):  # values of one leaf: rows, then masks
        return self.rows + self.eta

    def in_range(self):
        return (
            1 <= self.h <= 12
            and 1 <= self.mu <= 64
            and 1 <= self.nu <= 256
            and 1 <= self.w <= 256
            and self.w * self.nu <= 256
            and 1 <= self.l <= 64
            and 1 <= self.eta <= 4
            and 1 <= self.m <= 8
            and 0 <= self.beta <= 16
            and self.beta <= self.mu
            and self.mu + self.beta <= 64
            and self.w * self.nu + self.l <= self.leaves
        )


def leaf_point(index):
    """e_i, the field point of leaf i."""
    return index


def grid_points(s):
    """The w nu value points, then the l tail points: consecutive numbers from N on."""
    return range(s.leaves, s.leaves + s.width)


# ---- PCS: polynomials to rows -----------------------------------------------------------------------


def columns_of(s, coefficients, blinds):
    """The columns of one polynomial, each from row 0 down, by its coefficients and its blinds.

    In rows mu on stand the column's beta blinds, in the last column the top beta coefficients. The next column's
    first entries are lowered by the blinds: both stand at the same powers of z, so that the polynomial's value stays.
    """
    below = list(blinds) + list(coefficients[s.mu * s.nu :])  # the entries of rows mu on, column by column
    columns, lowered = [], [0] * s.mu
    for t in range(s.nu):
        own = coefficients[t * s.mu : (t + 1) * s.mu]
        extra = below[t * s.beta : (t + 1) * s.beta]
        columns.append([(a - b) % Q for a, b in zip(own, lowered)] + extra)
        lowered = extra + [0] * (s.mu - s.beta)
    return columns


def rows_of(s, coefficients, blinds):
    """Row j, column i nu + t: entry j of column t of polynomial i."""
    columns = []
    for i in range(s.w):
        own = coefficients[i * s.each : (i + 1) * s.each]
        columns += columns_of(s, own, blinds[i * s.blinds_each : (i + 1) * s.blinds_each])
    return [list(row) for row in zip(*columns)]


def values_of(s, z, columns):
    """Values of the w polynomials at z, from all column values: sums of z^(t mu) times v_t."""
    step = pow(z, s.mu, Q)
    return [evaluate(columns[i * s.nu : (i + 1) * s.nu], step) for i in range(s.w)]


# ---- LVCS: rows to polynomials ----------------------------------------------------------------------


def lines_of(s, coefficients, tails, blinds):
    """What P_j takes at the grid points: row j's entries, then its tails."""
    return [
        row + list(tails[j * s.l : (j + 1) * s.l])
        for j, row in enumerate(rows_of(s, coefficients, blinds))
    ]


def answer_of(lines, z):
    """The evaluation answer: for each column and tail the sum over j of z^j times the entry."""
    return [evaluate(entries, z) for entries in zip(*lines)]


def evaluation_holds(leaf_weights, z, answer, row_values):
    """At one leaf: T, which is given by the answer at the grid points, against the opened row values."""
    return dot(leaf_weights, answer) == evaluate(row_values, z)


# ---- DECS: degree -----------------------------------------------------------------------------------


def batching_of(s, lines, mask, challenge):
    """R = M + sum of challenge^(j+1) P_j, as d + 1 coefficients.

    Interpolation is linear: one interpolation of the combined lines serves all rows.
    """
    combined = [challenge * evaluate(entries, challenge) % Q for entries in zip(*lines)]
    rows_part = polynomial_through(grid_points(s), combined)
    return [(a + b) % Q for a, b in zip(mask, rows_part)]


def batching_holds(batching, index, challenge, row_values, mask_value):
    """At one leaf: R against the opened values."""
    opened = mask_value + challenge * evaluate(row_values, challenge)
    return evaluate(batching, leaf_point(index)) == opened % Q


# ---- Tree -------------------------------------------------------------------------------------------


def digest(string):
    return shake_256(string).digest(DIGEST_BYTES)


def permutations_for(length):
    """Permutations that the digest of a string of so many bytes takes: padding adds at least one byte."""
    return length // RATE_BYTES + 1


class CountedDigest:
    """The digest, and the permutations for all strings that were given to it."""

    def __init__(self):
        self.permutations = 0

    def __call__(self, string):
        self.permutations += permutations_for(len(string))
        return digest(string)


def leaf_string(salt, index, values, nonce):
    return b"\x00" + salt + struct.pack("<H", index) + to_bytes(values) + nonce


def node_string(salt, left, right):
    return b"\x01" + salt + left + right


def tree_of(salt, leaf_digests):
    """All digests in one string: the leaves, then each level above, the root last."""
    level = list(leaf_digests)
    tree = list(level)
    while len(level) > 1:
        level = [digest(node_string(salt, *level[i : i + 2])) for i in range(0, len(level), 2)]
        tree += level
    return b"".join(tree)


def tree_node(s, tree, level, index):
    """Node `index` of a level (level 0: the leaves); N/2^level nodes stand on a level."""
    below = sum(s.leaves >> k for k in range(level))
    start = DIGEST_BYTES * (below + index)
    return tree[start : start + DIGEST_BYTES]


def missing_nodes(h, indices):
    """(level, index) of the missing nodes, from the leaves up and left to right."""
    missing = []
    for level in range(h):
        covered = {i >> level for i in indices}
        missing += [(level, i) for i in sorted(i ^ 1 for i in covered) if i not in covered]
    return missing


def root_of(h, salt, indices, leaf_digests, nodes, digest_of=digest):
    """The root, from the opened leaves' digests and the missing nodes."""
    known = {(0, i): leaf for i, leaf in zip(indices, leaf_digests)}
    known.update(zip(missing_nodes(h, indices), nodes))
    for level in range(1, h + 1):
        for i in {index >> level for index in indices}:
            pair = known[level - 1, 2 * i], known[level - 1, 2 * i + 1]
            known[level, i] = digest_of(node_string(salt, *pair))
    return known[h, 0]


def nodes_above(h, indices):
    """(level, index) of the nodes above these leaves, the root too, each once."""
    return {(level, index >> level) for index in indices for level in range(1, h + 1)}


# ---- Byte forms -------------------------------------------------------------------------------------

Question = namedtuple("Question", "sizes root salt challenges points indices")
ProofQuestion = namedtuple("ProofQuestion", "sizes root salt points")  # challenges and indices are drawn
Reply = namedtuple("Reply", "batchings answers leaves nodes")  # leaves: (values, nonce) for each index


def to_bytes(words):
    return struct.pack("<%dI" % len(words), *words)


def to_words(data):
    return list(struct.unpack("<%dI" % (len(data) // 4), data))


def elements(words):
    return all(word < Q for word in words)


def question_bytes(s):
    """Length of a question with these sizes."""
    return AFTER_SALT + 4 * s.eta + 4 * s.m + 2 * s.l


def proof_question_bytes(s):
    """Length of a proof's question with these sizes: header, root, salt, points."""
    return AFTER_SALT + 4 * s.m


def answer_bytes(s):
    """Length of batching and evaluation answers, with which a reply begins."""
    return 4 * s.width * (s.eta + s.m)


def reply_bytes(s, node_count):
    """Length of a reply with this many nodes."""
    leaf_bytes = 4 * s.record + NONCE_BYTES
    return answer_bytes(s) + leaf_bytes * s.l + DIGEST_BYTES * node_count


def reply_bound(s):
    """What no reply of these sizes exceeds: each opened leaf misses at most one node on a level."""
    return reply_bytes(s, s.l * s.h)


def proof_bound(s):
    """The prover's buffer: the counter, and a reply with l h nodes."""
    return COUNTER_BYTES + reply_bound(s)


def reply_bytes_to(q):
    """Length of the reply to a question: its nodes are the missing ones."""
    return reply_bytes(q.sizes, len(missing_nodes(q.sizes.h, q.indices)))


def leaf_string_bytes(s):
    """Length of a leaf's string: its first byte, salt, index, values, nonce."""
    return 1 + SALT_BYTES + 2 + 4 * s.record + NONCE_BYTES


def permutations_to(q):
    """Permutations of a check that hashes, by the sizes and indices of its question alone."""
    each_leaf, each_node = permutations_for(leaf_string_bytes(q.sizes)), permutations_for(NODE_STRING_BYTES)
    return each_leaf * len(q.indices) + each_node * len(nodes_above(q.sizes.h, q.indices))


def write_header(s):
    return MARK + struct.pack("<HBBHHBBBB", VERSION, *s)


def write_question(q):
    words = to_bytes(list(q.challenges) + list(q.points))
    indices = struct.pack("<%dH" % len(q.indices), *q.indices)
    return write_header(q.sizes) + q.root + q.salt + words + indices


def write_proof_question(p):
    return write_header(p.sizes) + p.root + p.salt + to_bytes(p.points)


def write_answers(batchings, answers):
    return b"".join(to_bytes(words) for words in batchings + answers)


def write_reply(r):
    leaves = [to_bytes(values) + nonce for values, nonce in r.leaves]
    return b"".join([write_answers(r.batchings, r.answers)] + leaves + list(r.nodes))


def write_counter(counter):
    return struct.pack("<I", counter)


def read_header(data):
    """The header tests on at least 15 bytes: (5 or 1, None), or (0, the sizes)."""
    if data[:3] != MARK or struct.unpack_from("<H", data, 3) != (VERSION,):
        return 5, None
    s = Sizes(*struct.unpack_from("<BBHHBBBB", data, 5))
    return (0, s) if s.in_range() else (1, None)


def root_and_salt(question):
    """What follows the header in every question."""
    return question[HEADER_BYTES:SALT_AT], question[SALT_AT:AFTER_SALT]


def read_question(question):
    """The question's tests, in their order: (number, None), or (0, the parsed question)."""
    if len(question) < HEADER_BYTES:
        return 6, None
    number, s = read_header(question)
    if number:
        return number, None
    if len(question) != question_bytes(s):
        return 6, None
    body = question[AFTER_SALT:]
    words = to_words(body[: 4 * (s.eta + s.m)])
    indices = list(struct.unpack("<%dH" % s.l, body[4 * (s.eta + s.m) :]))
    if not elements(words):
        return 3, None
    rising = all(a < b for a, b in zip(indices, indices[1:]))
    if not rising or any(i >= s.leaves for i in indices):
        return 4, None
    return 0, Question(s, *root_and_salt(question), words[: s.eta], words[s.eta :], indices)


def read_proof_question(question, kappa):
    """The tests of a proof's question, in their order: (number, None), or (0, the parsed question)."""
    if len(question) < HEADER_BYTES:
        return 6, None
    number, s = read_header(question)
    if number:
        return number, None
    if kappa > MAX_KAPPA:
        return 1, None
    if len(question) != proof_question_bytes(s):
        return 6, None
    points = to_words(question[AFTER_SALT:])
    if not elements(points):
        return 3, None
    return 0, ProofQuestion(s, *root_and_salt(question), points)


def read_reply(s, reply):
    """The parts of a reply that has its length."""
    at = 0

    def take(count):
        nonlocal at
        at += count
        return reply[at - count : at]

    batchings = [to_words(take(4 * s.width)) for _ in range(s.eta)]
    answers = [to_words(take(4 * s.width)) for _ in range(s.m)]
    leaves = [(to_words(take(4 * s.record)), take(NONCE_BYTES)) for _ in range(s.l)]
    nodes = []
    while at < len(reply):
        nodes.append(take(DIGEST_BYTES))
    return Reply(batchings, answers, leaves, nodes)


# ---- Draws: the challenges and indices of a proof -----------------------------------------------------


def to_long_words(data):
    """8-byte words."""
    return list(struct.unpack("<%dQ" % (len(data) // 8), data))


def draw_challenges(p):
    """The first eta words of SHAKE256 over 0x02, header, root, salt, each modulo q."""
    string = b"\x02" + write_header(p.sizes) + p.root + p.salt
    return [word % Q for word in to_long_words(shake_256(string).digest(8 * p.sizes.eta))]


def leaf_draws(p, answers):
    """Of the leaf draws, what does not depend on the counter: SHAKE256 after 0x03, the question, answers.

    The question is header, root, salt, points. The answers are bytes, as a reply begins with them, elements or not.
    """
    return shake_256(b"\x03" + write_proof_question(p) + answers)


def leaf_draw(p, draws, counter):
    """The 32 + 8 l bytes that a counter gives."""
    string = draws.copy()
    string.update(write_counter(counter))
    return string.digest(DIGEST_BYTES + 8 * p.sizes.l)


def qualifies(draw, kappa):
    """Whether the first kappa bits are zero, from the top bit of the first byte on."""
    return all(draw[bit // 8] >> (7 - bit % 8) & 1 == 0 for bit in range(kappa))


def choose(leaves, words):
    """The indices that the words name: word j modulo N - j is the rank of one of those not yet named."""
    unused = list(range(leaves))
    return sorted(unused.pop(word % len(unused)) for word in words)


def question_by_draw(p, draw):
    """The conversation's question that a leaf draw gives, whether its counter qualifies or not."""
    indices = choose(p.sizes.leaves, to_long_words(draw[DIGEST_BYTES:]))
    return Question(p.sizes, p.root, p.salt, draw_challenges(p), p.points, indices)


def least_counter(p, draws, kappa, limit):
    """The least counter below the limit that qualifies, or None."""
    return next((c for c in range(limit) if qualifies(leaf_draw(p, draws, c), kappa)), None)


# ---- Entries ----------------------------------------------------------------------------------------


def lent_lengths_hold(s, coefficients, tails, blinds, masks, nonces, salt, table, tree):
    """Test 2, over what committer and opener have in common."""
    return (
        len(coefficients) == s.w * s.each
        and len(tails) == s.rows * s.l
        and len(blinds) == s.w * s.blinds_each
        and len(masks) == s.eta * s.width
        and len(nonces) == NONCE_BYTES * s.leaves
        and len(salt) == SALT_BYTES
        and len(table) == s.leaves * s.record
        and len(tree) == DIGEST_BYTES * (2 * s.leaves - 1)
    )


def mask_of(s, masks, k):
    return masks[k * s.width : (k + 1) * s.width]


def nonce_of(nonces, index):
    return nonces[NONCE_BYTES * index : NONCE_BYTES * (index + 1)]


def commit(h, mu, nu, w, l, eta, beta, coefficients, tails, blinds, masks, nonces, salt, table, tree):
    """Commit: returns (number, table, tree). Tests 1, 2, 3; the table, being output, is not under 3."""
    s = Sizes(h, mu, nu, w, l, eta, 1, beta)
    if not s.in_range():
        return 1, table, tree
    if not lent_lengths_hold(s, coefficients, tails, blinds, masks, nonces, salt, table, tree):
        return 2, table, tree
    if not all(map(elements, (coefficients, tails, blinds, masks))):
        return 3, table, tree
    lines = lines_of(s, coefficients, tails, blinds)
    filled = []
    leaf_digests = []
    for i in range(s.leaves):
        leaf_weights = weights(s.leaves, s.width, leaf_point(i))
        values = [dot(leaf_weights, line) for line in lines]
        values += [evaluate(mask_of(s, masks, k), leaf_point(i)) for k in range(s.eta)]
        filled += values
        leaf_digests.append(digest(leaf_string(salt, i, values, nonce_of(nonces, i))))
    return 0, filled, tree_of(salt, leaf_digests)


def reply_length(question):
    """The length of a question's reply: returns (number, length); None after a refusal.

    Tests 6 5 1 6 3 4.
    """
    number, q = read_question(question)
    return (number, None) if number else (0, reply_bytes_to(q))


def permutations(question):
    """The permutations of a check that hashes: returns (number, count); None after a refusal.

    Tests 6 5 1 6 3 4. No reply is needed: whatever the leaves and nodes are, the strings have the same lengths.
    """
    number, q = read_question(question)
    return (number, None) if number else (0, permutations_to(q))


def answers_to(s, challenges, points, coefficients, tails, blinds, masks):
    """Batching answers and evaluation answers; they do not depend on the indices."""
    lines = lines_of(s, coefficients, tails, blinds)
    batchings = [batching_of(s, lines, mask_of(s, masks, k), challenges[k]) for k in range(s.eta)]
    return batchings, [answer_of(lines, z) for z in points]


def opened_at(s, indices, nonces, table, tree):
    """The leaves of a reply and its nodes. Table and tree are believed: values and nodes are copied from them."""
    leaves = [(table[s.record * i : s.record * (i + 1)], nonce_of(nonces, i)) for i in indices]
    return leaves, [tree_node(s, tree, level, i) for level, i in missing_nodes(s.h, indices)]


def open_reply(question, coefficients, tails, blinds, masks, nonces, salt, table, tree, buffer):
    """Open: returns (number, length, buffer), where both lengths are the reply's; None after a refusal.

    Tests 6 5 1 6 3 4, then 2, 3 over all lent words (the table too), 8 against the lent root and salt.
    """
    number, q = read_question(question)
    if number:
        return number, None, buffer
    s = q.sizes
    if len(buffer) != reply_bytes_to(q) or not lent_lengths_hold(
        s, coefficients, tails, blinds, masks, nonces, salt, table, tree
    ):
        return 2, None, buffer
    if not all(map(elements, (coefficients, tails, blinds, masks, table))):
        return 3, None, buffer
    if (q.root, q.salt) != (tree[-DIGEST_BYTES:], salt):
        return 8, None, buffer
    answers = answers_to(s, q.challenges, q.points, coefficients, tails, blinds, masks)
    reply = write_reply(Reply(*answers, *opened_at(s, q.indices, nonces, table, tree)))
    return 0, len(reply), reply


def prove(question, kappa, limit, coefficients, tails, blinds, masks, nonces, salt, table, tree, buffer):
    """Prove: returns (number, length, buffer); the length is the proof's, None after a refusal.

    Tests 6 5 1 6 3, then 2, 3 over all lent words (the table too), 8 against the lent root and salt, 11. The buffer
    begins with the proof, and its bytes after that stay.
    """
    number, p = read_proof_question(question, kappa)
    if number:
        return number, None, buffer
    s = p.sizes
    if len(buffer) != proof_bound(s) or not lent_lengths_hold(
        s, coefficients, tails, blinds, masks, nonces, salt, table, tree
    ):
        return 2, None, buffer
    if not all(map(elements, (coefficients, tails, blinds, masks, table))):
        return 3, None, buffer
    if (p.root, p.salt) != (tree[-DIGEST_BYTES:], salt):
        return 8, None, buffer
    answers = answers_to(s, draw_challenges(p), p.points, coefficients, tails, blinds, masks)
    draws = leaf_draws(p, write_answers(*answers))
    counter = least_counter(p, draws, kappa, limit)
    if counter is None:
        return 11, None, buffer
    q = question_by_draw(p, leaf_draw(p, draws, counter))
    reply = write_reply(Reply(*answers, *opened_at(s, q.indices, nonces, table, tree)))
    proof = write_counter(counter) + reply
    return 0, len(proof), proof + buffer[len(proof) :]


def verify(q, r):
    """The tests that are left for a reply of its length and of elements: (number, permutations, values or None)."""
    counted = CountedDigest()
    number, values = verify_with(counted, q, r)
    return number, counted.permutations, values


def verify_with(digest_of, q, r):
    """These tests, with digests by that function: (8, 9 or 10, None), or (0, the values)."""
    s = q.sizes
    strings = [leaf_string(q.salt, i, values, nonce) for i, (values, nonce) in zip(q.indices, r.leaves)]
    if root_of(s.h, q.salt, q.indices, [digest_of(string) for string in strings], r.nodes, digest_of) != q.root:
        return 8, None
    for k in range(s.eta):
        for i, (values, _) in zip(q.indices, r.leaves):
            if not batching_holds(
                r.batchings[k], i, q.challenges[k], values[: s.rows], values[s.rows + k]
            ):
                return 9, None
    for i, (values, _) in zip(q.indices, r.leaves):
        leaf_weights = weights(s.leaves, s.width, leaf_point(i))
        for z, answer in zip(q.points, r.answers):
            if not evaluation_holds(leaf_weights, z, answer, values[: s.rows]):
                return 10, None
    columns = [answer[: s.columns] for answer in r.answers]
    return 0, [v for z, c in zip(q.points, columns) for v in values_of(s, z, c)]


def reply_elements(r):
    """Test 3 over a reply."""
    return all(map(elements, r.batchings + r.answers + [values for values, _ in r.leaves]))


def judge(question, reply, buffer_bytes):
    """The check's verdict for a value buffer of this many bytes: (number, permutations, values or None).

    Tests 6 5 1 6 3 4, then 2, 7, 3 over the reply, 8, 9, 10. Nothing is hashed before test 8.
    """
    number, q = read_question(question)
    if number:
        return number, 0, None
    s = q.sizes
    if buffer_bytes != 4 * s.w * s.m:
        return 2, 0, None
    if len(reply) != reply_bytes_to(q):
        return 7, 0, None
    r = read_reply(s, reply)
    return verify(q, r) if reply_elements(r) else (3, 0, None)


def check(question, reply, values):
    """Check: returns (number, permutations, values); the value buffer has w m words, point by point."""
    number, count, found = judge(question, reply, 4 * len(values))
    return number, count, values if number else found


def check_c(question, reply, value_bytes):
    """The check's entry for C: the value buffer has 4 w m bytes. Returns (number, value_bytes), no permutations."""
    number, _, found = judge(question, reply, len(value_bytes))
    return number, value_bytes if number else to_bytes(found)


def judge_proof(question, kappa, proof, buffer_bytes):
    """The verdict on a proof for a value buffer of this many bytes: (number, values or None).

    Tests 6 5 1 6 3, then 2, 7 for what has no room for counter and answers; the draw; then 7, 3 over the reply, 12,
    and 8, 9, 10 as in the conversation.
    """
    number, p = read_proof_question(question, kappa)
    if number:
        return number, None
    s = p.sizes
    if buffer_bytes != 4 * s.w * s.m:
        return 2, None
    if len(proof) < COUNTER_BYTES + answer_bytes(s):
        return 7, None
    counter, reply = to_words(proof[:COUNTER_BYTES])[0], proof[COUNTER_BYTES:]
    draw = leaf_draw(p, leaf_draws(p, reply[: answer_bytes(s)]), counter)
    q = question_by_draw(p, draw)
    if len(reply) != reply_bytes_to(q):
        return 7, None
    r = read_reply(s, reply)
    if not reply_elements(r):
        return 3, None
    if not qualifies(draw, kappa):
        return 12, None
    number, _, values = verify(q, r)
    return number, values


def check_proof(question, kappa, proof, values):
    """Check of a proof: returns (number, values); the value buffer has w m words, point by point."""
    number, found = judge_proof(question, kappa, proof, 4 * len(values))
    return number, values if number else found


def check_proof_c(question, kappa, proof, value_bytes):
    """Its entry for C: the value buffer has 4 w m bytes. Returns (number, value_bytes)."""
    number, found = judge_proof(question, kappa, proof, len(value_bytes))
    return number, value_bytes if number else to_bytes(found)


def interpolate(points, values, coefficients):
    """Interpolation: returns (number, coefficients).

    Tests 1, 2, 3, 13; the coefficients, being output, are not under 3.
    """
    if not 1 <= len(points) <= MAX_POINTS:
        return 1, coefficients
    if not len(points) == len(values) == len(coefficients):
        return 2, coefficients
    if not (elements(points) and elements(values)):
        return 3, coefficients
    if len(set(points)) < len(points):
        return 13, coefficients
    return 0, polynomial_through(points, values)


def check_input(input_bytes):
    """The check of a program's input, split after the question: (number, permutations, values by point)."""
    data = input_bytes[:INPUT_LIMIT]
    s = read_header(data)[1] if len(data) >= HEADER_BYTES else None
    split, w, m = (question_bytes(s), s.w, s.m) if s else (len(data), 0, 0)
    number, count, values = check(data[:split], data[split:], [0] * (w * m))
    return number, count, [values[p * w : (p + 1) * w] for p in range(m)]


def program(input_bytes):
    """The checking program: from standard input's bytes to standard output's bytes."""
    number, _, values = check_input(input_bytes)
    lines = ["verdict %d\n" % number]
    if number == 0:
        for p, at_point in enumerate(values):
            lines += ["%d %d %d\n" % (p + 1, i + 1, value) for i, value in enumerate(at_point)]
    return "".join(lines).encode()


def counts_line(input_bytes):
    """What the program `counts` prints of a file with these bytes, after its name."""
    return b"verdict %d permutations %d\n" % check_input(input_bytes)[:2]


if __name__ == "__main__":
    from arguments import Arguments

    Arguments(__doc__).parse_args()
    sys.stdout.buffer.write(program(sys.stdin.buffer.read(INPUT_LIMIT)))
